"""The whole files that changes begin with: made by mwinit, and opened by mwserve with open records planted by hand, of which
it must keep the words that the reader found there.

Used by: scripts/check-files. SIZES has the limits of docs/FILES.md: a further limit has a size here.
"""
import random
import subprocess
from pathlib import Path
from typing import Iterator, NamedTuple, Sequence, Union

from .drafts import Draft, fill_words, plant_records, some_value
from .reader import FIRST, SECOND, Contents, Damage, Layout, read

SIZES = ((1, 1), (1, 32), (2, 1), (3, 2), (9, 3), (17, 5), (40, 32), (300, 4), (4095, 1), (4096, 31), (4096, 32))
"""Numbers of words and places, from the least to the greatest."""
AT_ONCE = 60
"""For how many seconds a program is waited for. What needs longer hangs."""


class Disagreement(Exception):
    """A program and the reader say different things, and of which file."""

    def __init__(self, text: str, data: bytes) -> None:
        super().__init__(text)
        self.data = data


class Programs(NamedTuple):
    """The built programs."""
    mwinit: Path
    mwserve: Path
    mwshow: Path


class Base(NamedTuple):
    """A whole file, and the layout that says what it says."""
    name: str
    data: bytes
    layout: Layout


class Said(NamedTuple):
    """The status of a program that has ended, and what it printed."""
    status: int
    text: str
    error: str = ""


def run(command: Sequence[Union[str, Path]], folder: Path) -> Said:
    """What a program says. Of one that doesn't end there is no status that any program has."""
    try:
        ended = subprocess.run(command, cwd=folder, stdin=subprocess.DEVNULL, capture_output=True, timeout=AT_ONCE)
    except subprocess.TimeoutExpired:
        return Said(-1, "", f"no end within {AT_ONCE} seconds")
    return Said(ended.returncode, ended.stdout.decode(errors="replace"), ended.stderr.decode(errors="replace"))


def whole(data: bytes, what: str) -> Contents:
    """What a file says that can have no damage."""
    found = read(data)
    if isinstance(found, Damage):
        raise Disagreement(f"{what}: damage {found.number} byte {found.byte}, as the reader says", data)
    return found


def new_file(programs: Programs, folder: Path, words: int, places: int) -> bytes:
    """A file that mwinit made."""
    path = folder / "new.mw"
    said = run([programs.mwinit, path.name, str(words), str(places)], folder)
    data = path.read_bytes() if path.exists() else b""
    path.unlink(missing_ok=True)
    found = whole(data, f"a file that mwinit has made: {said}")
    is_right = found == Contents(1, 0, [0] * words, places, []) and said == Said(0, f"made {len(data)}\n")
    if not is_right or len(data) != Draft(data, FIRST).end:
        raise Disagreement(f"mwinit was to make a file of {words} words and {places} places, and made another: {said}", data)
    return data


def opened(programs: Programs, folder: Path, data: bytes, value: int) -> bytes:
    """The file after mwserve has opened it and changed word 0 to this value."""
    before = whole(data, "a file to be opened")
    words, path = len(before.words), folder / "t.mw"
    path.write_bytes(data)
    (folder / "tenants").write_text(f"t {words} 1 {path.name}\n")
    (folder / "script").write_text(f"TENANT t\nCAS 0:{before.words[0]}:{value}\nQUIT\n")
    said = run([programs.mwserve, "--tenants", "tenants", "--script", "script"], folder)
    after = path.read_bytes()
    begins, places = (Draft(data, FIRST).end, 2 * before.places) if before.layout == 1 else (before.offset, before.places)
    found = whole(after, f"a file that mwserve has opened: {said}")
    if said != Said(0, f"OK {words}\nYES\nBYE\n") or found != Contents(2, begins, [value, *before.words[1:]], places, []):
        raise Disagreement(f"mwserve opened a file of {words} words, and left others, or other places or records: {said}", data)
    return after


def make_bases(programs: Programs, folder: Path, dice: random.Random) -> Iterator[Base]:
    """Of each size a new file, one that was opened once, and one that was opened again with records open."""
    for words, places in SIZES:
        base = Base("new", new_file(programs, folder, words, places), FIRST)
        yield base
        for name in ("opened", "opened again"):
            draft = Draft(base.data, base.layout)
            fill_words(draft, dice)
            plant_records(draft, dice, dice.choice((1, 2, draft.places)))
            base = Base(name, opened(programs, folder, bytes(draft.data), some_value(dice)), SECOND)
            yield base
