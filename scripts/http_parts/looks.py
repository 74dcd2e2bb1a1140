"""How the status page looks: in headless Chromium, wide and narrow, green and red, with its script, and in a terminal.

Used by: scripts/check-http. It looks for texts of the page and its colours, which crates/mw_server_pages/src/status.rt and look.rt beside
it have: change both.
"""
import contextlib
import re
import shutil
import struct
import subprocess
import threading
import time
import zlib
from collections import Counter
from http.server import BaseHTTPRequestHandler, ThreadingHTTPServer
from pathlib import Path
from typing import Callable, Dict, Iterator, Tuple

from lib.checks import HOST, PATIENCE, Wrong, done, same
from lib.served import Served

from .server import get, has

Colour = Tuple[int, int, int]
Change = Callable[[str, int], str]
"""Changes the text of an answer, by how often the page was asked for before."""
BROWSER = "chromium"
WELL, NOT_WELL = (204, 238, 204), (255, 204, 204)
"""The colours of the line that says whether all is well: green, and red."""
LINE = 1000
"""So many pixels of such a line have its colour, at least."""
WIDE, NARROW = (1000, 1000), (500, 1600)
EDGE = 8
"""So many columns of pixels at the right are free, if the page is not too wide."""
LOOKS = 3
"""How often the page's script asks, every five seconds, before a browser takes its picture: so it has shown what two looks told."""
REST = 2
"""For how many seconds the browser goes on then."""
HOLD = b'<img src="wait" alt="">'
"""What lets a browser wait with its picture until this has come."""
MANY = 1_000_000
CURVES = "Each curve goes from 15 minutes ago to now, and from 0 to its most."
"""What the page says of its curves."""
STEP, IN_MINUTE = 20, 3
"""For a tenant that is slow the browser's clock goes on by so many seconds from one look to the next: so the last minute has so many."""
FAST_LOOKS = 8
"""How often it looks then, at least: more often than the last minute tells of."""
CLOCK = f"""
let ticks = 0;
Date.now = () => 1000 * {STEP} * ticks++;
const later = setTimeout;
globalThis.setTimeout = (work) => later(work, 100);
"""
"""What gives the browser this clock, and has it look anew at once."""
FIRST_LOOK = 2
"""Which request of the page is the script's first one: the browser's own comes before."""
BEFORE = 100_000
"""By how much each figure of the slow tenant grows at once, before the last minute."""
REPLIES = {"CAS,YES": 80, "CAS,NO": 30, "CAS,BUSY": 10, "CAS,FAULT": 4, "GET,FAULT": 2, "GET,VAL": 4000}
"""By how much replies of the slow tenant grow from one look to the next, by kind and reply."""
TIMES = {"CAS": (0.025, 80, 100), "sync": (0.25, 100, 100), "GET": (0.0001, 100, 100)}
"""By how much times of the slow tenant grow from one look to the next: those of at most so many seconds, and all. None is shorter than the
bound before, and the others are longer than each bound."""
HEADS = ["Tenant", "Change p50", "p99", "Sync p99", "Read p99", "YES a second", "NO", "BUSY", "FAULT", "Reads"]
SLOW_ROW = ["b (slow)", "17.5 ms", "5.0 s", "248.5 ms", "99 \u00b5s", "4.0", "1.5", "0.5", "0.3", "200"]
"""The row of the slow tenant. A time lies in its bucket as histogram_quantile of Prometheus says: p50 of changes is 50 of 80 from 5 to 25
ms. A rate is what a reply grows by, in %d seconds; FAULT is of changes and reads.""" % STEP


def looked_at(server: Served, picture: Path) -> str:
    """Looks at the status page by the browsers that are there; keeps a picture. What was tried."""
    tried = []
    if shutil.which("w3m"):
        page = picture.with_suffix(".html")
        page.write_bytes(get(server.pages, "/").body)
        has(done("w3m", "-dump", "-T", "text/html", page), "the status page in a terminal", "All tenants are up.", "The last quarter of an hour",
            "Changes a second", "(most ", *CURVES.split(", "))
        page.unlink()
        tried.append("a terminal")
    if shutil.which(BROWSER):
        in_browser(server, picture)
        tried.append("a browser")
    return f"the status page looked at in {' and '.join(tried) or 'nothing: neither w3m nor chromium is there'}"


def in_browser(server: Served, picture: Path) -> None:
    """What the browser shows, wide, narrow, and of a server that answers no more."""
    narrow = picture.with_name("narrow.png")
    with at_port(server, MANY) as place:
        take(place, picture, WIDE)
        take(place, narrow, NARROW)
        page = browsed(place, picture.parent, "--dump-dom")
    has(page, "the status page in a browser", "<h2>Who is slow</h2>", "No tenant is slow.", "<td>a</td>", "All tenants are up.", "<meter ", f"<p>{CURVES}</p>")
    shown = Counter(colours(picture))
    if sum(count for (red, _, blue), count in shown.items() if blue - red > 40) < 20:
        raise Wrong("the status page in a browser shows no curve, which is blue")
    has_line(shown, WELL, NOT_WELL)
    edge = [colour for number, colour in enumerate(colours(narrow)) if number % NARROW[0] >= NARROW[0] - EDGE]
    if set(edge) != {(255, 255, 255)}:
        raise Wrong(f"the status page is wider than {NARROW[0]} pixels")
    narrow.unlink()
    with at_port(server, 5) as place:
        has(browsed(place, picture.parent, "--dump-dom"), "the status page of a server that answers no more", "No answer from the server since")
    slow_tenant(server, picture.parent)


def slow_tenant(server: Served, folder: Path) -> None:
    """A tenant that is slow is marked, and comes before the one that has no change. Each cell of its row is of the last minute alone."""
    with at_port(server, MANY, slowed, FAST_LOOKS) as place:
        page = browsed(place, folder, "--dump-dom")
    minute = page.partition('id="minute"')[2].partition('id="rest"')[0]
    rows = [(look, re.findall(r"<t[hd]>([^<]*)</t[hd]>", cells)) for look, cells in re.findall(r'<tr(?: class="(\w+)")?>(.*?)</tr>', minute)]
    same(rows, [("", HEADS), ("slow", SLOW_ROW), ("", ["a", *4 * ["none"], *5 * ["0"]])], f"the rows of a slow tenant's page, {minute!r}")
    has(minute, "the status page of a slow tenant", f'<p class="slow">Slow: b. This is of the last {STEP * IN_MINUTE} seconds.</p>')


def slowed(text: str, turn: int) -> str:
    """The figures, with replies and times of the tenant b that grow each time, and by far more after the first look of the script; and the
    script with a clock that goes faster."""
    grown = BEFORE * (turn > FIRST_LOOK)

    def one(found: "re.Match[str]") -> str:
        labels = dict(re.findall(r'(\w+)="([^"]*)"', found[1]))
        name = labels.get("kind") or labels.get("call", "")
        more = REPLIES.get(f"{name},{labels.get('reply')}", 0)
        if "le" in labels and name in TIMES:
            bound, within, of_all = TIMES[name]
            more = (float(labels["le"].replace("+Inf", "inf")) >= bound) * within + (labels["le"] == "+Inf") * (of_all - within)
        return f"{found[1]} {int(found[2]) + more * turn + (grown if more else 0)}"

    text = text.replace('"use strict";', f'"use strict";{CLOCK}')
    return re.sub(r'^(mondlexi_(?:requests_total|request_seconds_bucket|device_seconds_bucket)\{tenant="b",[^}]*\}) (\d+)$', one, text, flags=re.MULTILINE)


def red(server: Served, folder: Path) -> None:
    """The page of a server with a tenant that is down, if the browser is there."""
    if shutil.which(BROWSER):
        picture = folder / "red.png"
        with at_port(server, MANY) as place:
            take(place, picture, WIDE)
        has_line(Counter(colours(picture)), NOT_WELL, WELL)
        picture.unlink()


def has_line(shown: Dict[Colour, int], wanted: Colour, other: Colour) -> None:
    """A picture has a line of the one colour, and none of the other, by how many of its pixels have which colour."""
    if shown.get(wanted, 0) < LINE or shown.get(other, 0) >= LINE:
        raise Wrong(f"the status page in a browser has {shown.get(wanted, 0)} pixels of the colour {wanted}, and {shown.get(other, 0)} of {other}")


@contextlib.contextmanager
def at_port(server: Served, answers: int, change: Change = lambda text, _: text, looks: int = LOOKS) -> Iterator[str]:
    """The pages of a server, which are at a local socket, at a port: so many answers, and then none. A browser takes its picture after so
    many looks. The figures and the script may be changed."""
    left, pages = [answers], [0]

    class Handler(BaseHTTPRequestHandler):
        """Asks the server."""

        def do_GET(self) -> None:
            """One request."""
            if self.path == "/wait":
                wanted, end = pages[0] + looks, time.monotonic() + PATIENCE
                while pages[0] < wanted and time.monotonic() < end:
                    time.sleep(0.1)
                time.sleep(REST)
                return
            pages[0] += self.path == "/"
            left[0] -= 1
            if left[0] < 0:
                return
            answer = get(server.pages, self.path)
            body = change(answer.body.decode(), pages[0]).encode() if self.path in ("/metrics", "/status.js") else answer.body
            with contextlib.suppress(ConnectionError):  # the browser may have ended
                self.send_response(answer.status)
                self.send_header("Content-Type", answer.fields.get("Content-Type", "text/plain"))
                self.end_headers()
                self.wfile.write(body.replace(b"</body>", HOLD + b"</body>"))

        def log_message(self, *_: object) -> None:
            """Says nothing."""

    listener = ThreadingHTTPServer((HOST, 0), Handler)
    threading.Thread(target=listener.serve_forever, daemon=True).start()
    try:
        yield f"http://{HOST}:{listener.server_port}/"
    finally:
        listener.shutdown()
        listener.server_close()


def take(place: str, picture: Path, size: Tuple[int, int]) -> None:
    """A picture of a page."""
    browsed(place, picture.parent, f"--window-size={size[0]},{size[1]}", f"--screenshot={picture}")
    if not picture.exists():
        raise Wrong(f"{BROWSER} took no picture of {place}")


def browsed(place: str, folder: Path, *options: str) -> str:
    """What the browser writes of a page, after its script has looked more than once."""
    words = [BROWSER, "--headless", "--no-sandbox", "--disable-gpu", "--hide-scrollbars", f"--user-data-dir={folder / 'browser'}",
             *options, place]
    ran = subprocess.run(words, stdout=subprocess.PIPE, stderr=subprocess.PIPE, text=True, timeout=4 * PATIENCE)
    shutil.rmtree(folder / "browser", ignore_errors=True)
    if ran.returncode:
        raise Wrong(f"{BROWSER}: {ran.stderr[-500:]}")
    return ran.stdout


def colours(picture: Path) -> Iterator[Colour]:
    """The colour of each pixel of a PNG of eight bits a channel (PNG, sections 4 and 6)."""
    data, at = picture.read_bytes(), 8
    found: Dict[bytes, bytes] = {}
    while at < len(data):
        length, kind = struct.unpack(">I4s", data[at:at + 8])
        found[kind] = found.get(kind, b"") + data[at + 8:at + 8 + length]
        at += 12 + length
    width, _, depth, form = struct.unpack(">IIBB", found[b"IHDR"][:10])
    same(depth, 8, "the bits of a channel in a picture")
    channels = {2: 3, 6: 4}[form]
    raw, line = zlib.decompress(found[b"IDAT"]), bytes(width * channels)
    for start in range(0, len(raw), len(line) + 1):
        line = unfiltered(raw[start], raw[start + 1:start + 1 + len(line)], line, channels)
        yield from zip(line[::channels], line[1::channels], line[2::channels])


def unfiltered(kind: int, line: bytes, above: bytes, channels: int) -> bytes:
    """A line of a PNG, of which each byte was told by its difference from a guess."""
    found, above = bytearray(channels), bytes(channels) + above
    for index, byte in enumerate(line):
        left, up, corner = found[index], above[index + channels], above[index]
        if kind == 4:
            guess = min((left, up, corner), key=lambda it: abs(left + up - corner - it))
        else:
            guess = (0, left, up, (left + up) // 2)[kind]
        found.append((byte + guess) & 255)
    return bytes(found[channels:])
