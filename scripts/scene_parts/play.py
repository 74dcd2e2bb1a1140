"""Plays a scene of scenes.txt: its clients, each a connection, and its servers, one after the other.

Used by: scripts/check-scenes. What a step means is said in scenes.txt. PAUSE is longer than a reply of six bytes may take at --line-time 1,
if a client takes one byte of it in each pause, with the quarter of a second after which the server looks at the clock.
"""
import contextlib
import resource
import select
import socket
import subprocess
import time
from concurrent.futures import ThreadPoolExecutor
from pathlib import Path
from typing import Dict, Optional

from http_parts.server import figures
from lib.checks import HOST, Wrong, same
from lib.served import Client, Served, connected, new_tenants

from .table import TABLE, Scene, bytes_of

PATIENCE = 30
"""For how many seconds what has to come is waited for."""
QUOTA = 32
"""The tenant's quota. More than one of so few clients can't use up."""
STROKE, PAUSE = 0.15, 0.4
"""For how many seconds a client pauses that spells, and one that drips or sips."""
INSISTENCE = 0.1
"""For how many seconds a client waits for room for what it insists on."""
TURNS = 20
"""How often each of many clients changes its word."""
LOOK, LOOKS = 0.05, 3
"""How many seconds are between two looks at sleeping threads, and how many looks must find them so."""
STREAMS = 3
"""How many descriptors a server may have while there is no room: its standard streams, and it has more already."""


class Caller:
    """A client's end of a connection, and when its time began."""

    def __init__(self, server: Served, at: str) -> None:
        # Before it connects: the server's time begins then, and this thread may come late.
        self.begun = time.monotonic()
        self.socket = connected(server.places[at])
        self.socket.settimeout(PATIENCE)

    def hear(self, wanted: bytes) -> None:
        """Wrong unless just this comes next."""
        found = b""
        with contextlib.suppress(socket.timeout):
            while len(found) < len(wanted) and (piece := self.socket.recv(len(wanted) - len(found))):
                found += piece
        same(found, wanted, "what is told")

    def read_the_end(self, may_reset: bool) -> None:
        """Wrong unless the end comes next."""
        try:
            found = self.socket.recv(100)
        except ConnectionResetError:
            found = b"" if may_reset else b"(reset)"
        except socket.timeout:
            raise Wrong(f"the server has not closed the connection within {PATIENCE} seconds") from None
        same(found, b"", "what is told in place of the end")

    def insist(self, text: bytes) -> None:
        """Sends this again and again, until there has been no room for it for a while, or the server has gone."""
        self.socket.settimeout(INSISTENCE)
        with contextlib.suppress(OSError):
            while True:
                self.socket.sendall(text)
        self.socket.settimeout(PATIENCE)

    def has_news(self, seconds: float) -> bool:
        """Whether something comes within this time, be it the end; none of it is taken."""
        return bool(select.select([self.socket], [], [], seconds)[0])


def change_own(server: Served, words: int, word: int) -> None:
    """A client that changes a word of its own."""
    with Client(server.port) as client:
        same(client.greeting, f"OK {words}", "what a client of many is told first")
        for value in range(TURNS):
            same(client.ask(f"CAS {word}:{value}:{value + 1}"), "YES", f"the change of word {word} from {value}")
            same(client.ask(f"GET {word}"), f"VAL {value + 1}", f"word {word} after its change from {value}")
        same((client.ask("QUIT"), client.heard()), ("BYE", ""), "the end of a client of many")


class Player:
    """The clients of a scene, and the server that there is. From `begin` on each function is a step, and takes what the step's line
    tells: scenes.txt says what it means. It is Wrong if the step doesn't go so."""

    def __init__(self, folder: Path) -> None:
        self.folder, self.notes = folder, folder / "notes"
        self.callers: Dict[str, Caller] = {}
        self.server: Optional[Served] = None
        self.words, self.said = 0, ""
        """The tenant's words, and what the server has noted in steps."""

    def now(self) -> Served:
        """The server."""
        assert self.server
        return self.server

    def caller(self, who: str) -> Caller:
        """A client that is there."""
        if who not in self.callers:
            raise Wrong(f"{who} has not come, or has left")
        return self.callers[who]

    def end(self) -> None:
        """Has the clients leave, and waits until the server, if there is one, has ended well."""
        for who in list(self.callers):
            self.leave(who)
        if self.server:
            try:
                status, printed, _ = self.server.ended()
            except subprocess.TimeoutExpired:
                raise Wrong("the server has not ended, though its connections have come") from None
            same((status, printed, self.server.told()), (0, "", self.said), "the server's status, what it printed, and its notes")

    def stop(self) -> None:
        """Ends what a scene has left that didn't go well."""
        for caller in self.callers.values():
            caller.socket.close()
        if self.server and self.server.process.poll() is None:
            self.server.process.kill()
            self.server.ended()

    def noted(self) -> str:
        """What the server has noted that no step says, as a further line; nothing if it has noted nothing."""
        notes = self.notes.read_text() if self.notes.exists() else ""
        return f"\n  the server notes {notes!r}" if notes != self.said else ""

    def begin(self, place: str, words: str, options: str) -> None:
        self.end()
        if not (self.folder / "t.mw").exists():
            new_tenants(self.folder, ("t", int(words), QUOTA))
        at = f"{HOST}:0" if place == "port" else "unix:s"
        self.words, self.said = int(words), ""
        self.server = Served(self.folder, *options.split(), at=at, notes=self.notes)

    def come(self, who: str, to_admin: str) -> None:
        self.callers[who] = Caller(self.now(), "admin" if to_admin else "ready")

    def say(self, who: str, text: str) -> None:
        self.caller(who).socket.sendall(bytes_of(text))

    def spell(self, who: str, text: str) -> None:
        for byte in bytes_of(text):
            time.sleep(STROKE)
            self.caller(who).socket.sendall(bytes([byte]))

    def insist(self, who: str, text: str) -> None:
        self.caller(who).insist(bytes_of(text))

    def hear(self, who: str, text: str) -> None:
        self.caller(who).hear(bytes_of(text))

    def ask(self, who: str, text: str, reply: str) -> None:
        self.say(who, text)
        self.hear(who, reply)

    def reads_the_end(self, who: str, how: str) -> None:
        self.caller(who).read_the_end(how == "gone")

    def leave(self, who: str) -> None:
        self.caller(who).socket.close()
        del self.callers[who]

    def go_on(self, who: str, how: str, other: str) -> None:
        last = time.monotonic() + PATIENCE
        while time.monotonic() < last:
            with contextlib.suppress(OSError):
                if how == "drips":
                    self.caller(who).socket.send(b"0")
                else:
                    self.caller(who).socket.recv(1)
            if self.caller(other).has_news(PAUSE):
                return
        raise Wrong(f"nothing has come to {other} within {PATIENCE} seconds")

    def begin_anew(self, who: str) -> None:
        self.caller(who).begun = time.monotonic()

    def has_taken(self, who: str, least: str, most: str) -> None:
        took = (time.monotonic() - self.caller(who).begun) * 1000
        if took < int(least) or most and took > int(most):
            raise Wrong(f"it took {took:.0f} ms")

    def all_come(self, count: str) -> None:
        for number in range(int(count)):
            self.come(f"client {number} of {count}", "")

    def all_change(self, count: str) -> None:
        with ThreadPoolExecutor(int(count)) as crowd:
            for done in [crowd.submit(change_own, self.now(), self.words, word) for word in range(int(count))]:
                done.result()

    def wait(self, milliseconds: str) -> None:
        time.sleep(int(milliseconds) / 1000)

    def await_figure(self, name: str, labels: str, least: str) -> None:
        last, found = time.monotonic() + PATIENCE, -1.0
        while time.monotonic() < last:
            found = figures(self.now().pages)[name, labels]
            if found >= int(least):
                return
            time.sleep(LOOK)
        raise Wrong(f"it is {found:.0f} after {PATIENCE} seconds")

    def await_sleep(self) -> None:
        tasks, seen = Path(f"/proc/{self.now().process.pid}/task"), 0
        last = time.monotonic() + PATIENCE
        while time.monotonic() < last and seen < LOOKS:
            states = {(it / "stat").read_text().rpartition(")")[2].split()[0] for it in tasks.iterdir()}
            seen = seen + 1 if states == {"S"} else 0
            time.sleep(LOOK)
        if seen < LOOKS:
            raise Wrong(f"some thread of the server is awake after {PATIENCE} seconds")

    def give_room(self, none: str) -> None:
        own, most = resource.getrlimit(resource.RLIMIT_NOFILE)
        resource.prlimit(self.now().process.pid, resource.RLIMIT_NOFILE, (STREAMS if none else own, most))

    def await_note(self, text: str) -> None:
        wanted, last = self.said + bytes_of(text).decode(), time.monotonic() + PATIENCE
        while time.monotonic() < last and len(self.now().told()) < len(wanted):
            time.sleep(LOOK)
        same(self.now().told(), wanted, "what the server has noted")
        self.said = wanted


def told(fault: BaseException) -> str:
    """What a step found in place of what it says."""
    return str(fault) if isinstance(fault, Wrong) else f"{type(fault).__name__}: {fault}"


def fault_of(scene: Scene, folder: Path) -> str:
    """Plays a scene in a new folder. What is wrong with it, and the step that says otherwise; nothing if all goes as it says."""
    player, step = Player(folder), scene.steps[-1]
    try:
        for step in scene.steps:
            getattr(player, step.kind)(*step.words)
        step = step._replace(line="(its end)")
        player.end()
    except (Exception, SystemExit) as fault:
        return f"{TABLE.name}:{step.number}: scene {scene.name}\n  {step.line}\n  {told(fault)}{player.noted()}"
    finally:
        player.stop()
    return ""
