"""A tenant's file that is cut, overwritten, replaced or removed while the server serves it: what is noted, what the pages say, how a
copy of it is answered, and the next change; and what the report says.

Used by: scripts/check-backup, answers.py.
"""
import os
from pathlib import Path
from typing import Callable, List, NamedTuple

from lib.checks import same
from lib.served import Client, Served

from .server import figures, get, serve, status_page, statuses

TENANTS = (("a", 3, 1), ("b", 5, 2))
LEFT = 100
"""How many bytes are left of a file that is cut."""
FRONT = 64
"""How many bytes are written over its front."""
CHANGE, REFUSED = "CAS 0:1:2", "CAS 0:9:9"
"""A change, and one that would be a NO; its record is written before its word is compared."""
AT_ONCE = ((0, 0, CHANGE), (0, 2, CHANGE), (1, 0, CHANGE), (1, 0, REFUSED))
"""How many copies are asked for before and after a cut, and the change that is asked for next."""


class Harm(NamedTuple):
    """What is done to a file, and whether a copy tells of it before the server has looked at its path."""
    name: str
    do: Callable[[Path], None]
    is_seen: bool


def overwrite(path: Path) -> None:
    """Writes over the front of a file, in place."""
    with open(path, "r+b") as file:
        file.write(b"x" * FRONT)


def replace(path: Path) -> None:
    """Puts a copy in the place of a file."""
    copy = path.with_suffix(".copy")
    copy.write_bytes(path.read_bytes())
    copy.rename(path)


HARMS = (Harm("cut", lambda path: os.truncate(path, LEFT), True), Harm("overwritten", overwrite, True),
         Harm("replaced", replace, False), Harm("removed", Path.unlink, False))


def harmed_files(program: Path, folder: Path) -> str:
    """The file of the tenant a is harmed in each way, while a server has it, and one that is strict; before the note is waited for,
    copies are asked for, or none. What was tried."""
    for harm in HARMS:
        for is_strict in (False, True):
            for copies in (0, 2) if harm.is_seen else (0,):
                try_harm(program, folder, harm, is_strict, copies)
    for before, after, change in AT_ONCE:
        try_at_once(program, folder, before, after, change)
    return "served files that are cut, overwritten, replaced and removed: noted, on each page, no copy, and with --strict no change"


def try_harm(program: Path, folder: Path, harm: Harm, is_strict: bool, copies: int) -> None:
    """A server whose tenant a has its file harmed, of which so many copies are asked for at once."""
    what = f"a file that was {harm.name}, {'strict' if is_strict else 'not strict'}, {copies} copies before the note"
    with serve(program, folder, "--clients", "4", *(["--strict"] if is_strict else []), tenants=TENANTS) as server:
        client, other = Client(server.port, "a"), Client(server.port, "b")
        same(client.ask("CAS 0:0:1"), "YES", f"a change before, {what}")
        same((statuses(server, "file")[0], get(server.pages, "/healthz").body), (200, b"ok\n"), f"a copy and health before, {what}")
        harm.do(folder / "a.mw")
        same([get(server.pages, "/tenants/a/file").status for _ in range(copies)], [500] * copies, f"copies, {what}")
        same(server.note(), "tenant a: replaced\n", f"the note, {what}")
        same_pages(server, is_strict, what)
        same(reported(server), ["up", "up"], f"the report, {what}")
        same(client.ask(CHANGE), "FAULT" if is_strict else "YES", f"the next change, {what}")
        same_pages(server, is_strict, f"{what}, after a change")
        same(reported(server), ["down" if is_strict else "up", "up"], f"the report, {what}, after a change")
        same(other.ask("CAS 0:0:1"), "YES", f"a change of another tenant, {what}")
        for kind in ("file", "words"):
            same(statuses(server, kind), [503 if is_strict else 500, 200], f"{kind}, {what}")
        client.end()
        other.end()
        same(server.kill(), "tenant a: failed\na.mw: Stale file handle (os error 116)\n" if is_strict else "", f"further notes, {what}")


def try_at_once(program: Path, folder: Path, before: int, after: int, change: str) -> None:
    """With --strict the next change after a cut is refused before the server has looked, whatever it is, and whether copies were asked for,
    before the cut or after it, or not."""
    with serve(program, folder, "--clients", "4", "--strict", tenants=TENANTS) as server:
        client = Client(server.port, "a")
        same(client.ask("CAS 0:0:1"), "YES", "a change before a cut")
        same([statuses(server, "file")[0] for _ in range(before)], [200] * before, "copies right before a cut")
        os.truncate(folder / "a.mw", LEFT)
        same([get(server.pages, "/tenants/a/file").status for _ in range(after)], [500] * after, "copies right after a cut")
        same(client.ask(change), "FAULT", f"{change} after {before} copies, a cut and {after} copies")
        client.end()


def reported(server: Served) -> List[str]:
    """Whether the tenants are up, as the report tells."""
    return [line.split()[-1] for line in server.ask("ADMIN\nREPORT\n").splitlines()[1:-1]]


def same_pages(server: Served, is_strict: bool, what: str) -> None:
    """What the pages say of the tenant a, whose file is known to be harmed."""
    word = "down" if is_strict else "replaced"
    health, told = get(server.pages, "/healthz"), figures(server.pages)
    same((health.status, health.body), (503, f"{word} a\n".encode()), f"/healthz, {what}")
    same([told.of("mondlexi_file_replaced", tenant=name) for name in "ab"], [1, 0], f"mondlexi_file_replaced, {what}")
    same([told.of("mondlexi_up", tenant=name) for name in "ab"], [0 if is_strict else 1, 1], f"mondlexi_up, {what}")
    status_page(server, f"Not well: a ({word}).", f"<td>a</td><td>{word}</td>", "<td>b</td><td>up</td>")
