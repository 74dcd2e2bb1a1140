"""A chart of what scripts/bench-server measured, as SVG: changes a second of each store, how long one takes, and how long a GET takes
beside each load; or, of one tenant with several clients, changes a second, how long one takes, and the syncs of one.

Used by: scripts/bench-server --chart; one_tenant.py; program_parts/beside.py, which draws made-up figures and looks for their texts and
bars: a title or a bar that changes is changed there too.
"""
import math
from pathlib import Path
from typing import Dict, List, Sequence, Tuple
from xml.sax.saxutils import escape

WIDTH, LEFT, RIGHT = 860, 330, 90
BAR, GAP, GROUP = 14, 3, 12
LONGEST_NAME = 46
"""Of a longer name the end is shown."""
COLOURS = ("#2b6cb0", "#dd8a2e", "#3f9b5f", "#a14c9c", "#8a8a8a", "#c2494b")
Row = Tuple[str, Sequence[float]]


def text(x: float, y: float, said: str, more: str = "") -> str:
    """A text that begins at a point."""
    return f'<text x="{x:.1f}" y="{y:.1f}"{more}>{escape(said)}</text>'


def shown(value: float) -> str:
    """A figure with commas, or two decimals if it is small."""
    return f"{value:,.0f}" if value >= 10 else f"{value:.2f}"


class Panel:
    """Bars of several rows, of two to six kinds each, with a title. Their lengths grow with the logarithm where that is asked for."""

    def __init__(self, title: str, kinds: Sequence[str], is_logarithmic: bool = False):
        self.title, self.kinds, self.is_logarithmic = title, kinds, is_logarithmic
        self.rows: List[Row] = []

    def draw(self, top: float) -> Tuple[List[str], float]:
        """The elements of the panel below a height, and where it ends."""
        out = [text(10, top + 18, self.title, ' font-weight="bold"')]
        for number, kind in enumerate(self.kinds):
            at = LEFT + number * min(230, (WIDTH - LEFT) // len(self.kinds))
            out.append(f'<rect x="{at}" y="{top + 27}" width="12" height="12" fill="{COLOURS[number]}"/>')
            out.append(text(at + 18, top + 38, kind))
        y = top + 52
        most = max((value for _, values in self.rows for value in values), default=1) or 1
        scale = math.log1p if self.is_logarithmic else float
        for name, values in self.rows:
            out.append(text(10, y + BAR, name if len(name) <= LONGEST_NAME else f"..{name[2 - LONGEST_NAME:]}"))
            for number, value in enumerate(values):
                long = (WIDTH - LEFT - RIGHT) * scale(value) / scale(most)
                out.append(f'<rect x="{LEFT}" y="{y}" width="{long:.1f}" height="{BAR}" fill="{COLOURS[number]}"/>')
                out.append(text(LEFT + long + 5, y + BAR - 2, shown(value)))
                y += BAR + GAP
            y += GROUP
        return out, y


class Chart:
    """What was measured so far."""

    def __init__(self) -> None:
        self.stores = Panel("Changes a second", ("one client", "sixteen clients"))
        self.times = Panel("A change, microseconds: half of them, or 99 of 100, take less (logarithmic)",
                           ("one client, half", "99 of 100", "sixteen, half", "99 of 100"), True)
        self.gets = Panel("A GET, microseconds (the scale is logarithmic)", ("half of them take less", "99 of 100 take less"), True)
        self.one_tenant: List[Panel] = []

    def add_store(self, name: str, both: Sequence[Tuple[float, float, float]]) -> None:
        """A store's changes, of one client, and of sixteen: a second, and microseconds that half and 99 of 100 took at most."""
        self.stores.rows.append((name, [rate for rate, *_ in both]))
        self.times.rows.append((name, [it for _, *times in both for it in times]))

    def add_gets(self, name: str, microseconds: Sequence[float]) -> None:
        """How long GETs took beside a load: half of them less, and 99 of 100."""
        self.gets.rows.append((name, microseconds))

    def add_one_tenant(self, disk: str, clients: Sequence[str], stores: Dict[str, Sequence[Tuple[float, ...]]]) -> None:
        """What stores did on a disk under the loads of these clients, a figure of each kind a load: changes a second, microseconds
        that half of them and 99 of 100 took at most, syncs a change."""
        for part, title, is_logarithmic in ((0, f"Changes a second, {disk}", False), (3, f"Syncs a change, {disk}", False),
                                            (2, f"99 of 100 changes take less, microseconds, {disk} (logarithmic)", True)):
            panel = Panel(f"{title}; by clients:", clients, is_logarithmic)
            panel.rows += [(name, [figures[part] for figures in loads]) for name, loads in stores.items()]
            self.one_tenant.append(panel)

    def svg(self) -> str:
        """The chart, of the panels that have rows."""
        out: List[str] = []
        y = 0.0
        for panel in (self.stores, self.times, self.gets, *self.one_tenant):
            if panel.rows:
                elements, y = panel.draw(y)
                out += elements
        head = (f'<svg xmlns="http://www.w3.org/2000/svg" width="{WIDTH}" height="{y:.0f}" viewBox="0 0 {WIDTH} {y:.0f}" '
                'font-family="sans-serif" font-size="13">')
        return "\n".join([head, f'<rect width="{WIDTH}" height="{y:.0f}" fill="#ffffff"/>', *out, "</svg>"]) + "\n"

    def write(self, path: Path) -> None:
        """Writes it to a file."""
        path.write_text(self.svg(), encoding="utf-8")
