"""Plays a story for one of its cases, in a folder of its own. The head of scripts/check-stories tells what each line means.

Used by: scripts/check-stories. A further kind of line is a row of VERBS here, and told there.
"""
import contextlib
import os
import resource
import shutil
import socket
import subprocess
import tempfile
from pathlib import Path
from typing import Callable, Dict, List, Optional

from lib.checks import BUILT, Ended, Limits, Wrong, need, preloaded, run, until, wrong
from lib.served import Address, Served, connected, new_bytes, said

from .running import is_locked, lock, run_held_up, run_into_room, threads_in
from .texts import Line, Play

CONNECTIONS = 3
"""The most connections for which a server may still wait at `stop`."""
SHORT = 100
"""How many bytes `cut` leaves of a file."""
CHANGE_AT, NINE = 48, b"\xa5\x09"
"""Where the one place of a new file of two words is, and how a change of nine entries begins there (docs/FILES.md)."""
FILE_REQUEST = b"GET /tenants/t/file HTTP/1.1\r\nHost: localhost\r\n\r\n"
TO_NOTE, TO_REPLY = 10, 30
"""For how many seconds the server's notes are waited for, and what it tells a client, or the end of that."""
STREAMS = 3
"""The limit of descriptors of a server that gets no more: poll(2) takes no more of them at a time than the limit."""


class Otherwise(Exception):
    """Something else has come than a line says: this."""


def patient(address: Address) -> socket.socket:
    """A connection to this address, of a client that waits for what it is told."""
    client = connected(address)
    client.settimeout(TO_REPLY)
    return client


def play(it: Play) -> str:
    """Plays a story for a case, and removes its folder. If something else comes of a line, it gives what is to be told, and the folder stays."""
    folder = Path(tempfile.mkdtemp(prefix=f"check-stories-{it.name}-")).resolve()
    stage = Stage(folder)
    try:
        fault = next((fault for fault in map(stage.play, it.lines) if fault), "") or stage.left()
    finally:
        stage.end()
    if fault:
        case = f", case {it.case}" if it.case else ""
        return f"{it.file}: story {it.name}{case}, {fault}\n  the folder: {folder}"
    shutil.rmtree(folder)
    return ""


class Stage:
    """What a story has come to: its folder, the program that ran last, what is said of the next one, and the server beside the story."""

    def __init__(self, above: Path) -> None:
        self.folder, self.notes = above / "dir", above / "notes"
        self.folder.mkdir()
        self.ran = Ended(0, "", "")
        self.long = ""
        self.room: Optional[int] = None
        self.limits: Limits = ()
        self.watched: Optional[Path] = None
        self.unread: Dict[str, object] = {}
        self.looks: List[bool] = []
        self.held: Optional[int] = None
        self.server: Optional[Served] = None
        self.clients: List[socket.socket] = []

    def play(self, line: Line) -> str:
        """Plays a line. What is to be told if something else comes of it, else nothing."""
        verb, _, rest = line.text.partition(" ")
        try:
            if verb not in VERBS:
                wrong(f"no line of a story begins with {verb!r}")
            VERBS[verb](self, rest)
        except (Otherwise, Wrong, OSError, LookupError, ValueError, subprocess.TimeoutExpired) as fault:
            return f"line {line.number}: {line.text}\n  came: {fault}"
        return ""

    def left(self) -> str:
        """What the lines have begun and not ended, after the last one; nothing if all is."""
        if self.server:
            return "the end: there is no line `stop`"
        if self.room is not None or self.limits or self.watched or self.unread:
            return "the end: no program comes after a line `room`, `limit`, `unread` or `watch`"
        return ""

    def end(self) -> None:
        """Ends what goes on, after the last line or one of which something else has come."""
        self.release("")
        for client in self.clients:
            client.close()
        if self.server and self.server.process.poll() is None:
            self.server.process.kill()
            self.server.process.wait()

    def path(self, name: str) -> Path:
        return self.folder / name

    def spelled(self, text: str) -> str:
        """A text with its lines' ends, and with what `DIR`, `<PORT>`, `<CR>` and `<LONG>` mean."""
        port = self.server.port if self.server else 0
        meanings = {";": "\n", "<CR>": "\r", "DIR": self.folder, "<PORT>": port, "<LONG>": self.long}
        for word, meaning in meanings.items():
            text = text.replace(word, str(meaning))
        return text

    def words(self, rest: str) -> List[str]:
        return [self.spelled(word) for word in rest.split()]

    # Programs

    def run(self, *words: str) -> None:
        """Runs a program as the lines before have said, and forgets what they have said."""
        command = [str(BUILT[words[0]]), *words[1:]]
        room, limits, watched, unread = self.room, self.limits, self.watched, self.unread
        self.room, self.limits, self.watched, self.unread = None, (), None, {}
        if room is not None:
            self.ran = run_into_room(command, self.folder, room)
        elif watched:
            self.ran, self.looks = run_held_up(command, self.folder, limits, lambda: is_locked(watched))
        else:
            self.ran = run(*command, folder=self.folder, limits=limits, **unread)

    def serve(self, rest: str) -> None:
        self.run("mwserve", "--tenants", str(self.path("tenants")), "--script", str(self.path("script")), *self.words(rest))

    def set_room(self, rest: str) -> None:
        self.room = int(rest)

    def set_limit(self, rest: str) -> None:
        self.limits = [(resource.RLIMIT_FSIZE, int(rest))]

    def keep_unread(self, rest: str) -> None:
        need("cc")
        self.unread = {"LD_PRELOAD": preloaded("text_parts/failing_reads.c", self.folder.parent), "UNREAD": self.path(rest)}

    def watch(self, rest: str) -> None:
        self.watched = self.path(rest)

    def set_long(self, rest: str) -> None:
        count, letter = rest.split(" ")
        self.long = int(count) * letter

    def gives(self, rest: str) -> None:
        self.must_be(rest, f"{self.ran.status} {self.ran.out}|{self.ran.err}")

    def ends(self, rest: str) -> None:
        self.must_be(rest, f"{self.ran.status} |{self.ran.err}")

    def begins(self, rest: str) -> None:
        told = f"{self.ran.status} {self.ran.out}|{self.ran.err}"
        wanted = self.spelled(rest)
        self.must_be(rest, wanted if told.startswith(wanted) else told)

    def must_be(self, rest: str, told: str) -> None:
        """What was told must be this text of a line."""
        if told != self.spelled(rest):
            raise Otherwise(told.replace(str(self.folder), "DIR").replace("\n", ";"))

    def locked(self, _: str) -> None:
        if not self.looks or not all(self.looks):
            raise Otherwise(f"the file was locked at {self.looks.count(True)} of {len(self.looks)} writes")

    # Files

    def write(self, rest: str) -> None:
        name, _, text = rest.partition(" ")
        self.path(name).write_bytes(self.spelled(text).encode())

    def write_nine(self, rest: str) -> None:
        data = bytearray(new_bytes(2, 1))
        data[CHANGE_AT:CHANGE_AT + len(NINE)] = NINE
        self.path(rest).write_bytes(data)

    def rename(self, rest: str) -> None:
        name, new = rest.split(" ")
        self.path(name).rename(self.path(new))

    def remove(self, rest: str) -> None:
        self.path(rest).unlink()

    def cut(self, rest: str) -> None:
        os.truncate(self.path(rest), SHORT)

    def hard(self, rest: str) -> None:
        name, new = rest.split(" ")
        os.link(self.path(name), self.path(new))

    def soft(self, rest: str) -> None:
        new, target = rest.split(" ")
        self.path(new).symlink_to(self.spelled(target))

    def hold(self, rest: str) -> None:
        self.held = lock(self.path(rest))

    def release(self, _: str) -> None:
        if self.held is not None:
            os.close(self.held)
            self.held = None

    def is_new(self, rest: str) -> None:
        self.must_have(rest, new_bytes(2, 1))

    def has(self, rest: str) -> None:
        name, _, text = rest.partition(" ")
        self.must_have(name, self.spelled(text).encode())

    def must_have(self, name: str, wanted: bytes) -> None:
        """A file must have just these bytes."""
        found = self.path(name).read_bytes()
        if found != wanted:
            raise Otherwise(f"{len(found)} bytes: {found!r}")

    def size(self, rest: str) -> None:
        name, count = rest.split(" ")
        found = self.path(name).stat().st_size
        if found != int(count):
            raise Otherwise(f"{found} bytes")

    def absent(self, rest: str) -> None:
        if os.path.lexists(self.path(rest)):
            raise Otherwise("it is there")

    # The server beside the story, and its clients

    def meanwhile(self, rest: str) -> None:
        words = self.words(rest)
        at = words.index("--listen")
        options = words[:at] + words[at + 2:]
        limits, self.limits = self.limits, ()
        try:
            self.server = Served(self.folder, *options, at=words[at + 1], tenants=str(self.path("tenants")), limits=limits, notes=self.notes)
        except Wrong as fault:
            raise Otherwise(f"{fault}; its notes: {self.notes.read_text()!r}") from None

    def beside(self) -> Served:
        """The server beside the story."""
        if not self.server:
            wrong("there is no server")
        return self.server

    def place(self, word: str) -> Address:
        """Where the server beside the story listens, as it told with this word."""
        places = self.beside().places
        if word not in places:
            wrong(f"the server has told nothing with the word {word!r}")
        return places[word]

    def stop(self, _: str) -> None:
        server = self.beside()
        with contextlib.suppress(OSError):  # if it has ended, nobody listens
            for _ in range(CONNECTIONS):
                connected(server.port).close()
        status, out, _ = server.ended()
        self.ran = Ended(status, "".join(server.lines) + out, server.told())
        self.server = None

    def call(self, rest: str) -> None:
        self.clients.append(patient(self.place(rest)))

    def ask(self, rest: str) -> None:
        number, _, talk = rest.partition(" ")
        self.talk(self.clients[int(number)], talk)

    def over(self, rest: str) -> None:
        self.must_be_over(self.clients[int(rest)])

    def alone(self, rest: str) -> None:
        with patient(self.beside().port) as client:
            self.talk(client, rest)
            self.must_be_over(client)

    def talk(self, client: socket.socket, talk: str) -> None:
        """A client says what is before the `|` of a talk, and must hear what is behind it."""
        text, _, answer = self.spelled(talk).partition("|")
        wanted, heard = answer.encode(), b""
        client.sendall(text.encode())
        try:
            while heard != wanted and wanted.startswith(heard) and (piece := client.recv(len(wanted) - len(heard))):
                heard += piece
        except OSError as fault:
            raise Otherwise(f"{heard!r}, and then: {fault}") from None
        self.must_be(talk.partition("|")[2], heard.decode())

    def must_be_over(self, client: socket.socket) -> None:
        """The server closes the connection, and says no more."""
        more = client.recv(1024)
        if more:
            raise Otherwise(f"more: {more!r}")

    def fetch(self, rest: str) -> None:
        head, _, content = said(self.place("http"), FILE_REQUEST, ends=False).partition(b"\r\n\r\n")
        if not head.startswith(b"HTTP/1.1 200 OK\r\n"):
            raise Otherwise(head.decode(errors="replace"))
        self.path(rest).write_bytes(content)

    def wait(self, rest: str) -> None:
        server, lines = self.beside(), int(rest)
        try:
            until(lambda: server.told().count("\n") >= lines, "so many notes", 0.005, TO_NOTE)
        except Wrong as fault:
            raise Otherwise(f"{fault}; {server.told()!r}") from None

    def exhaust(self, _: str) -> None:
        server = self.beside()
        pid = server.process.pid
        until(lambda: threads_in(pid, "accept") == len(server.places), "a wait for clients at each address", 0.005)
        _, most = resource.prlimit(pid, resource.RLIMIT_NOFILE)
        resource.prlimit(pid, resource.RLIMIT_NOFILE, (STREAMS, most))


VERBS: Dict[str, Callable[[Stage, str], None]] = {
    "mwinit": lambda stage, rest: stage.run("mwinit", *stage.words(rest)),
    "mwserve": lambda stage, rest: stage.run("mwserve", *stage.words(rest)),
    "serve": Stage.serve, "room": Stage.set_room, "limit": Stage.set_limit, "unread": Stage.keep_unread, "watch": Stage.watch, "long": Stage.set_long,
    "gives": Stage.gives, "begins": Stage.begins, "ends": Stage.ends, "locked": Stage.locked,
    "write": Stage.write, "nine": Stage.write_nine, "rename": Stage.rename, "remove": Stage.remove, "cut": Stage.cut,
    "hard": Stage.hard, "soft": Stage.soft, "hold": Stage.hold, "release": Stage.release,
    "new": Stage.is_new, "has": Stage.has, "size": Stage.size, "absent": Stage.absent,
    "meanwhile": Stage.meanwhile, "stop": Stage.stop, "call": Stage.call, "ask": Stage.ask, "over": Stage.over, "alone": Stage.alone,
    "fetch": Stage.fetch, "wait": Stage.wait, "exhaust": Stage.exhaust,
}
