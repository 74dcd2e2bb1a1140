"""Right, slow and mutated requests to a server's pages.

Used by: scripts/check-http. A page that docs/HTTP.md gains has a request here, and rows in answer_rows.py.
"""
import random
import select
import shutil
import subprocess
from typing import Dict, List

from lib.checks import PATIENCE, Wrong, same
from lib.served import Served, connected, heard, said

from .answer_rows import WRONG
from .server import TYPES, Figures, answer_of, figures, get, status_page

END = b" HTTP/1.1\r\nHost: localhost\r\n\r\n"
FILE, WORDS = "/tenants/a/file", "/tenants/a/words"


def right(server: Served) -> None:
    """Each page to GET and to HEAD, by each form of its address, and a tenant's file, byte for byte, while nobody changes it."""
    for path, kind in {**TYPES, FILE: "application/octet-stream"}.items():
        for target in (path, f"{path}?x=1", f"http://localhost{path}"):
            answer, head = get(server.pages, target), get(server.pages, target, "HEAD")
            same((answer.status, head.status), (200, 200), target)
            same((answer.fields["Content-Type"], head.fields["Content-Type"]), (kind, kind), target)
            if path == FILE:
                same((answer.body, int(head.fields["Content-Length"])), ((server.folder / "a.mw").read_bytes(), len(answer.body)), target)
    same(get(server.pages, "/healthz").body, b"ok\n", "/healthz")
    page = status_page(server, "<td>a</td><td>up</td>", "All tenants are up", "Free slots of the pool")
    for part in ("<script", "src=", "<link", "href=\"status.css\""):
        same(page.count(part), 1, f"how often the status page has {part!r}")
    whole = "".join(get(server.pages, path).body.decode() for path in ("/", "/status.css", "/status.js"))
    for part in ("<style", "style=", " on", "http://", "https://", "@import"):
        if part in (page if part == " on" else whole):
            raise Wrong(f"the status page has {part!r}")


def by_name(server: Served, *names: str) -> None:
    """A page to whoever calls the server by an address, by localhost, by no name, or by one of these names, and to nobody else."""
    called = ["localhost", "LocalHost:80", "127.0.0.1:7002", "10.0.0.7", "[::1]", "[fe80::1]:80", ""]
    hosts = [(name, 200) for name in [*called, *names, *(f"{name.upper()}:7002" for name in names)]]
    hosts += [(f"{name}.", 421) for name in names] + [(f"a{name}", 421) for name in names] + [("a", 421)]
    for host, status in hosts:
        same(answer_of(said(server.pages, f"GET /healthz HTTP/1.1\r\nHost: {host}\r\n\r\n".encode())).status, status, f"Host: {host}")
    same(answer_of(said(server.pages, b"GET /healthz HTTP/1.0\r\n\r\n")).status, 200, "no Host")


def by_curl(server: Served) -> None:
    """A page and a file by curl, if it is there."""
    if shutil.which("curl"):
        for path, wanted in (("/healthz", b"ok\n"), (FILE, (server.folder / "a.mw").read_bytes())):
            words = ["curl", "-sf", "--unix-socket", str(server.pages), f"http://localhost{path}"]
            same(subprocess.run(words, stdout=subprocess.PIPE, timeout=PATIENCE, check=True).stdout, wanted, f"{path} by curl")


def slow(server: Served) -> None:
    """A client that is slow is answered 408, others wait for it, and one that takes no answer is closed."""
    with connected(server.pages) as client:
        for byte in b"GET /metrics HTTP/1.1\r\nHost: a":
            client.sendall(bytes([byte]))
            if select.select([client], [], [], 0.2)[0]:
                break  # the answer has come. Who goes on sending may be reset when the connection is closed
        same(answer_of(heard(client)).status, 408, "a slow client")
    idle = [connected(server.pages) for _ in range(3)]
    idle[0].sendall(b"GET /metrics" + END)
    same(get(server.pages, "/healthz").status, 200, "a client behind one that takes no answer and two that are silent")
    for client in idle:
        client.close()


def mutated(text: bytes, others: List[bytes], rng: random.Random) -> bytes:
    """A request with some mistakes."""
    made = bytearray(text)
    for _ in range(rng.choice((1, 1, 2, 3, 8))):
        at = rng.randrange(len(made) + 1)
        end, new = rng.choice((
            lambda: (at + 1, bytes([rng.randrange(256)]) if at < len(made) else b""),
            lambda: (at, bytes(rng.randrange(256) for _ in range(rng.choice((1, 2, 40))))),
            lambda: (at + rng.choice((1, 1, 4, 100)), b""),
            lambda: (at, made[max(0, at - rng.randrange(1, 30)):at]),
            lambda: (at, rng.choice((b"\r\n", b"\n", b"\r", b" ", b":", b"\0", b"/../", b"%2e", b"Host: b\r\n", b"HTTP/1.1"))),
            lambda: (len(made), b""),
            lambda: (len(made), rng.choice(others)[-rng.randrange(1, 60):])))()
        made[at:end] = new
    return bytes(made)


def fuzz(server: Served, count: int, seed: int) -> Dict[int, int]:
    """Many mutated requests: each has an answer or none, and nothing else is touched. Gives how many had which status, 0 for none."""
    rng = random.Random(seed)
    found: Dict[int, int] = {}
    bases = [row.says for row in WRONG if len(row.says) < 1000]
    bases += [f"{method} {path}".encode() + END for method in ("GET", "HEAD") for path in (*TYPES, FILE, WORDS)]
    bases += [b"GET /metrics HTTP/1.1\r\nHost: localhost:9\r\nUser-Agent: curl/7.88\r\nAccept: */*\r\nConnection: close\r\n\r\n"]
    before = untouched(server)
    for number in range(count):
        text = mutated(rng.choice(bases), bases, rng)
        got = said(server.pages, text)
        try:
            status = answer_of(got, not text.lstrip(b"\r\n").startswith(b"HEAD")).status if got else 0
        except (Wrong, ValueError, KeyError) as error:
            raise Wrong(f"mutated request {number} of seed {seed}, {text!r}: {error}") from error
        found[status] = found.get(status, 0) + 1
    same(untouched(server), before, "the figures after mutated requests")
    return found


def untouched(server: Served) -> Figures:
    """The figures, without the time since the start, and without reads: a copy of a file is one."""
    found = figures(server.pages)
    del found["mondlexi_uptime_seconds", ""]
    return Figures({key: value for key, value in found.items() if 'call="read"' not in key[1]})
