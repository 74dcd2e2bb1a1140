"""A server with pages, and what its pages say.

Used by: scripts/bench-http, scripts/check-http, scripts/check-prometheus, answers.py, cron.py, looks.py, replaced.py, requests.py,
told.py, words.py, scene_parts/play.py, soak_parts/backups.py. STATUSES are those of docs/HTTP.md, TYPES those of
crates/mw_http/src/heads.rt: a further page or
status is added here too.
"""
import re
from pathlib import Path
from typing import Dict, List, NamedTuple, Sequence, Tuple

from lib.checks import Wrong, same
from lib.served import Address, Served, new_bytes, said

STATUSES = {200, 400, 404, 405, 408, 414, 421, 431, 500, 501, 503}
TYPES = {"/": "text/html; charset=utf-8", "/metrics": "text/plain; version=0.0.4; charset=utf-8", "/healthz": "text/plain; charset=utf-8",
         "/status.css": "text/css; charset=utf-8", "/status.js": "text/javascript; charset=utf-8"}
SAMPLE = re.compile(r'(\w+)(?:\{(.*)\})? (\S+)')
Tenants = Sequence[Tuple[str, int, int]]
"""Names, each with its number of words and its quota."""


class Answer(NamedTuple):
    """An HTTP answer."""
    status: int
    fields: Dict[str, str]
    body: bytes


def answer_of(text: bytes, with_body: bool = True) -> Answer:
    """Reads an answer, and fails if it is none."""
    head, end, body = text.partition(b"\r\n\r\n")
    first, *lines = head.decode("ascii").split("\r\n")
    words = first.split(" ", 2)
    if not end or words[0] != "HTTP/1.1" or int(words[1]) not in STATUSES:
        raise Wrong(f"no answer: {text[:200]!r}")
    fields = dict(line.split(": ", 1) for line in lines)
    same(fields["Connection"], "close", "Connection")
    if with_body:
        same(int(fields["Content-Length"]), len(body), "Content-Length")
    else:
        same(body, b"", "the answer to HEAD")
    return Answer(int(words[1]), fields, body)


def get(address: Address, path: str, method: str = "GET") -> Answer:
    """The answer to a request as it should be."""
    text = f"{method} {path} HTTP/1.1\r\nHost: localhost\r\n\r\n".encode()
    return answer_of(said(address, text, ends=False), method == "GET")


def status_page(server: Served, *parts: str) -> str:
    """The status page, which has to have these parts."""
    page = get(server.pages, "/").body.decode()
    has(page, "the status page", *parts)
    return page


def has(page: str, what: str, *parts: str) -> None:
    """Wrong unless a page has these parts."""
    for part in parts:
        if part not in page:
            raise Wrong(f"{what} has no {part!r}: {page}")


def statuses(server: Served, kind: str) -> List[int]:
    """How the page of this kind is answered for the tenants a and b."""
    return [get(server.pages, f"/tenants/{name}/{kind}").status for name in "ab"]


class Figures(Dict[Tuple[str, str], float]):
    """What /metrics says: by a metric and its labels."""

    def of(self, metric: str, **labels: str) -> float:
        """One figure."""
        return self[metric, ",".join(f'{name}="{value}"' for name, value in labels.items())]


def figures(address: Address) -> Figures:
    """What /metrics says, each sample once and each after its family's header."""
    answer = get(address, "/metrics")
    same(answer.status, 200, "/metrics")
    found, family = Figures(), ""
    for line in answer.body.decode().splitlines():
        if line.startswith("# TYPE "):
            family = line.split()[2]
        elif not line.startswith("#"):
            sample = SAMPLE.fullmatch(line)
            if not sample or not sample[1].startswith(family):
                raise Wrong(f"/metrics: {line!r}")
            key = (sample[1], sample[2] or "")
            if key in found:
                raise Wrong(f"/metrics: {line!r} twice")
            found[key] = float(sample[3])
    return found


def new_file(path: Path, words: int, places: int) -> None:
    """Writes a tenant's file as mwinit does."""
    path.write_bytes(new_bytes(words, places))


def serve(program: Path, folder: Path, *options: str, tenants: Tenants = (), **more: object) -> Served:
    """A server with pages, of new files of these tenants, or of those that are there."""
    for name, words, quota in tenants:
        new_file(folder / f"{name}.mw", words, quota)
    if tenants:
        (folder / "tenants").write_text("".join(f"{name} {words} {quota} {name}.mw\n" for name, words, quota in tenants))
    server = Served(folder, "--http", "unix:pages", *options, program=program, **more)
    same(server.lines[0], "http unix:pages\n", "where the pages are")
    return server
