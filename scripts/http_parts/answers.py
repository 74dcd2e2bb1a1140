"""Plays the tables of answer_rows.py against mwserve: requests at once and a byte at a time, by clients that end, are silent, or break the
connection; answers that break off; and a server whose tenants are not well.

Used by: scripts/check-http. What a client says in another manner is a new part here, in PARTS. faults.c lets calls of the server fail.
"""
import errno
import fcntl
import mmap
import re
import resource
import socket
import struct
import termios
import time
from email.utils import formatdate
from pathlib import Path
from typing import Callable, List, NamedTuple, Sequence

from lib.checks import Wrong, each, preloaded, run, same, until
from lib.served import Client, Served, connected, heard, new_tenants, said
from soak_parts.layout import SECOND, SET, body, second_at

from .answer_rows import (ANSWERS, BEGINNING, BROKEN, CALLED_A, FIRST_WORDS, OTHERS, REQUEST, SILENT, UNDATED, WITHOUT_COPIES, WRONG, Row)
from .replaced import replace
from .server import TYPES, figures, get, status_page

REQUEST_SECONDS = 2
"""How long a client may take for its request."""
CUT, TRIES = 1000, 5
"""What is longer is only said at once. What is said a byte at a time is said so often at most, and what may change is looked at so often."""
MANY = 1 << 30
WORDS, QUOTA = 2, 1
"""Of each tenant. One of quota 2 isn't near it when a change has failed, which keeps what it had."""
FOR_EVER = resource.RLIM_INFINITY


class Stage(NamedTuple):
    """Where a part plays: with this mwserve, of this version, in a folder of its own."""
    program: Path
    version: str
    folder: Path

    def serve(self, *options: str, tenants: str = "t", quota: int = QUOTA, at: str = "unix:pages", absent: str = "", **more: object) -> Served:
        """A server of these tenants, the files of some of which are absent; the others have the first words."""
        self.folder.mkdir()
        names = tenants.split()
        new_tenants(self.folder, *((name, WORDS, quota) for name in names))
        for name in absent.split():
            (self.folder / f"{name}.mw").unlink()
        server = Served(self.folder, "--http", at, *options, program=self.program, **more)
        for name in (it for it in names if it not in absent.split()):
            with Client(server.port, name) as client:
                same(client.ask("CAS " + " ".join(f"{address}:0:{word}" for address, word in enumerate(FIRST_WORDS))), "YES", "the first words")
        return server


def drip(client: socket.socket, text: bytes) -> None:
    """Says this at a local socket, each byte when the server has taken those before it."""
    for byte in text:
        client.sendall(bytes([byte]))
        until(lambda: struct.unpack("i", fcntl.ioctl(client, termios.TIOCOUTQ, bytes(4))) == (0,), f"a byte of {text!r} is not taken", 0)


def told_to(server: Served, says: bytes, is_cut: bool, ends: bool = True) -> bytes:
    """What a client is told that says this at once, or a byte at a time, and then sends no more or is silent. If the machine was too busy to
    say it a byte at a time within the time for a request, it is said again."""
    if not is_cut:
        return said(server.pages, says, ends)
    for _ in range(TRIES):
        start = time.monotonic()
        told = told_by_bytes(server, says, ends)
        if not ends or time.monotonic() - start < REQUEST_SECONDS - 0.5:
            break
    return told


def told_by_bytes(server: Served, says: bytes, ends: bool) -> bytes:
    """What a client is told that says this a byte at a time."""
    with connected(server.pages) as client:
        try:
            drip(client, says)
            if ends:
                client.shutdown(socket.SHUT_WR)
        except OSError:
            pass  # it was answered before all was sent, and may have been closed
        return heard(client)


def dates_since(begun: float) -> List[bytes]:
    """Each date that an answer may have that was made from this moment on."""
    return [formatdate(second, usegmt=True).encode() for second in range(int(begun), int(time.time()) + 1)]


def look(stage: Stage, row: Row, told: bytes, begun: float, how: str) -> None:
    """Wrong unless this was told to a row whose client came at this moment."""
    answer, tenant = ANSWERS[row.told], re.search(rb"/tenants/([a-z0-9-]+)/file ", row.says)
    file = (stage.folder / f"{tenant[1].decode()}.mw").read_bytes() if tenant and b"FILE" in answer else b""
    pattern = re.escape(answer)
    for token, meaning in ((b"then", b"(?:%s)" % b"|".join(dates_since(begun))), (b"LENGTH", rb"(?P<length>\d+)"), (b"FILE", re.escape(file)),
                           (b"VERSION", re.escape(stage.version.encode())), (b"ANY", rb"[\s\S]*")):
        pattern = pattern.replace(token, meaning)
    found = re.fullmatch(pattern, told)
    body = told.partition(b"\r\n\r\n")[2]
    if not found or "length" in found.groupdict() and not row.says.startswith(b"HEAD") and int(found["length"]) != len(body):
        raise Wrong(f"{row.says[:90]!r}, {len(row.says)} bytes, {how}: told {told[:400]!r}, {len(told)} bytes, in place of {row.told!r}, {answer!r}")


def play(stage: Stage, server: Served, rows: Sequence[Row], manners: Sequence[bool]) -> int:
    """Plays rows in these manners, cut or not. How many answers showed what a file has."""
    copies = 0
    for row in rows:
        for is_cut in manners if len(row.says) <= CUT else manners[:1]:
            begun = time.time()
            look(stage, row, told_to(server, row.says, is_cut), begun, "a byte at a time" if is_cut else "at once")
            copies += row.told in ("file", "words")
    return copies


def play_counted(stage: Stage, server: Served, rows: Sequence[Row], manners: Sequence[bool]) -> None:
    """Plays rows; of each, files are read once for each answer that shows what one has, and for no other."""
    before = reads(server)
    for row in rows:
        copies, after = play(stage, server, [row], manners), reads(server)
        same(after - before, copies, f"how often files were read for {row.says[:90]!r}")
        before = after


def reads(server: Served) -> float:
    """How many reads of files the server has made."""
    return sum(value for (metric, labels), value in figures(server.pages).items()
               if metric == "mondlexi_device_seconds_count" and 'call="read"' in labels)


def look_at_lengths(server: Served) -> None:
    """HEAD tells of each page the length that GET gives just before it and just after it. A page may change between, so this is tried again."""
    for path in (*TYPES, "/tenants/t/file", "/tenants/t/words"):
        for _ in range(TRIES):
            before, head, after = (get(server.pages, path, method) for method in ("GET", "HEAD", "GET"))
            lengths = len(before.body), int(head.fields["Content-Length"]), len(after.body)
            if len(set(lengths)) == 1:
                break
        else:
            raise Wrong(f"{path}: the lengths of GET, HEAD and GET are {lengths}")


def by_a_name(stage: Stage) -> None:
    """The requests to a server that is called `a`."""
    with stage.serve("--http-name", "a", tenants="t t-1") as server:
        play_counted(stage, server, CALLED_A, (False, True))


def by_no_name(stage: Stage) -> None:
    """The requests to a server without names."""
    with stage.serve() as server:
        play_counted(stage, server, [*WRONG, *OTHERS], (False, True))
        look_at_lengths(server)


def at_a_port(stage: Stage) -> None:
    """The same over TCP; and clients that reset their connection, after which others are answered."""
    with stage.serve(at="127.0.0.1:0") as server:
        play_counted(stage, server, [*WRONG, *OTHERS], (False,))
        for row in BROKEN:
            client = connected(server.pages)
            client.sendall(row.says)
            client.setsockopt(socket.SOL_SOCKET, socket.SO_LINGER, struct.pack("ii", 1, 0))
            client.close()
            play(stage, server, OTHERS[:1], (False,))


def silent(says: bytes, is_cut: bool) -> Callable[[Stage], None]:
    """A client that says this and is then silent is told so when its time is over."""
    def part(stage: Stage) -> None:
        with stage.serve() as server:
            begun, start = time.time(), time.monotonic()
            told = told_to(server, says, is_cut, ends=False)
            seconds = time.monotonic() - start
            look(stage, Row(says, "Request Timeout"), told, begun, "by a client that is silent then")
            if not REQUEST_SECONDS - 0.5 < seconds < REQUEST_SECONDS + 5:
                raise Wrong(f"{says!r}, by a client that is silent then: answered after {seconds:.1f} seconds")
    return part


class Faults:
    """What faults.c reads: how the server's calls fail."""

    def __init__(self, path: Path) -> None:
        path.write_bytes(bytes(6 * 4))
        with open(path, "r+b") as file:
            self.numbers = mmap.mmap(file.fileno(), 6 * 4)
        self.set()

    def set(self, piece: int = MANY, to_receive: int = MANY, receive_error: int = 0, to_send: int = MANY, send_error: int = 0,
            no_date: int = 0) -> None:
        """From now on they fail so."""
        self.numbers[:] = struct.pack("6i", piece, to_receive, receive_error, to_send, send_error, no_date)


def with_faults(stage: Stage) -> None:
    """Connections that break when a client has said all of a row; an answer that breaks off at each of its bytes, by an error and by a call
    that takes nothing; and a clock that can't be read."""
    path = stage.folder.with_suffix(".faults")
    faults = Faults(path)
    with stage.serve(LD_PRELOAD=preloaded("http_parts/faults.c", stage.folder.parent), FAULTS=path) as server:
        for row in BROKEN:
            for piece in (MANY, 1):
                faults.set(piece, len(row.says), errno.ECONNRESET)
                begun = time.time()
                look(stage, row, said(server.pages, row.says, ends=False), begun, f"by a connection that breaks then, at most {piece} bytes a call")
        faults.set(no_date=1)
        look(stage, UNDATED, said(server.pages, UNDATED.says), time.time(), "by a server whose clock fails")
        for room in range(len(ANSWERS["health"].replace(b"then", dates_since(time.time())[0]))):
            for error in (errno.EPIPE, 0):
                faults.set(1, to_send=room, send_error=error)
                break_off(server, room, error)
        faults.set()
        play(stage, server, OTHERS, (False,))


def break_off(server: Served, room: int, error: int) -> None:
    """An answer of which so many bytes can be sent."""
    begun = time.time()
    told = said(server.pages, REQUEST)
    if told not in [ANSWERS["health"].replace(b"then", date)[:room] for date in dates_since(begun)]:
        raise Wrong(f"{REQUEST!r}: told {told!r} where a call fails behind {room} bytes, by the error {error}")


def noted(server: Served, *notes: str) -> None:
    """Waits for these notes, in any order, with others between them."""
    left = set(notes)
    while left:
        note = server.note()
        if not note:
            raise Wrong(f"a server ended before it noted {left}")
        left.discard(note.rstrip("\n"))


def not_well(stage: Stage) -> None:
    """A tenant whose file is absent, one that is well, one that has failed and whose file was replaced then, and one whose file was replaced."""
    with stage.serve(tenants="a b c d", quota=2, absent="a", limits=[(resource.RLIMIT_FSIZE, FOR_EVER)]) as server:
        with Client(server.port, "c") as client:
            resource.prlimit(server.process.pid, resource.RLIMIT_FSIZE, (0, FOR_EVER))
            same(client.ask(f"CAS 1:{FIRST_WORDS[1]}:1"), "FAULT", "a change whose write fails")
            resource.prlimit(server.process.pid, resource.RLIMIT_FSIZE, (FOR_EVER, FOR_EVER))
        for name in "cd":
            replace(stage.folder / f"{name}.mw")
        noted(server, "tenant d: replaced")
        tell(server, "down a\ndown c\nreplaced d\n", "a (down) c (down) d (replaced)", '<tr class="up"><td>b</td><td>up</td>',
             '<tr class="down"><td>c</td><td>down</td>', '<tr class="replaced"><td>d</td><td>replaced</td>')
        play(stage, server, WITHOUT_COPIES, (False, True))


def given_up(stage: Stage) -> None:
    """With --strict two tenants whose files were replaced: one that has failed in its next change, and one that has not."""
    with stage.serve("--strict", tenants="e f", quota=2) as server:
        for name in "ef":
            replace(stage.folder / f"{name}.mw")
        noted(server, "tenant e: replaced", "tenant f: replaced")
        with Client(server.port, "e") as client:
            same(client.ask(f"CAS 1:{FIRST_WORDS[1]}:1"), "FAULT", "a change of a file that was given up")
        tell(server, "down e\ndown f\n", "e (down) f (down)", '<tr class="down"><td>f</td><td>down</td>')


def one_replaced(stage: Stage) -> None:
    """Only a tenant whose file was replaced."""
    with stage.serve(tenants="d") as server:
        replace(stage.folder / "d.mw")
        noted(server, "tenant d: replaced")
        tell(server, "replaced d\n", "d (replaced)")


def by_record(stage: Stage) -> None:
    """Others write an open record into a tenant's file: its words are those after this change. They write one that is none: there are no words."""
    at = second_at(WORDS, QUOTA) + SECOND.place_at(WORDS, 0)
    with stage.serve() as server:
        for record, told in ((body([(1, 7)]), "words of an open record"), (b"x" * (SECOND.place - 1), "no copy")):
            with open(stage.folder / "t.mw", "r+b") as file:
                file.seek(at)
                file.write(bytes([SET]) + record)
            play(stage, server, [row._replace(told=told) for row in OTHERS if row.told == "words"], (False,))


def tell(server: Served, health: str, names: str, *rows: str) -> None:
    """Wrong unless these tenants are told as not well, and the status page has these rows."""
    answer = get(server.pages, "/healthz")
    same((answer.status, answer.body.decode()), (503, health), "/healthz")
    status_page(server, f's.</p>\n<p class="down">Not well: {names}.</p>\n<p>No limit is near.</p>\n</div>', *rows)


PARTS: Sequence[Callable[[Stage], None]] = (by_a_name, by_no_name, at_a_port, with_faults, not_well, given_up, one_replaced, by_record,
                                            *(silent(says, False) for says in SILENT), silent(BEGINNING, True))


def play_all(program: Path, folder: Path) -> str:
    """Plays all parts at once, each with a server of its own. What was tried."""
    version = run(program, "--version").out.split()[-1]
    each(len(PARTS), lambda number: PARTS[number](Stage(program, version, folder / f"part-{number}")))
    return f"answers to {len(CALLED_A) + len(WRONG) + len(OTHERS)} requests, at once and in pieces, to silent clients, on connections that break," \
           " and of tenants that are not well: as they should be"
