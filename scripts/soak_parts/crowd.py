"""Many clients at once, on several tenants, with random reads and changes over few words.

One thread drives them all, so what it notes has one order and one clock. What a client is told is noted when it is read,
and what it asks just before it is sent: no request is thought to have been shorter than it was.

Used by: backups.py, lives.py, planted.py, power.py. Each value is written once, as checker.py needs it.
"""
import itertools
import random
import selectors
import socket
import time
from collections import Counter, deque
from dataclasses import dataclass, field
from typing import Counter as CounterOf
from typing import Deque, Dict, List, Sequence, Tuple

from .history import Answer, Entry, Request, reply_of
from .server import HOST, PATIENCE, Server, Tenant, Wrong

MOST_UNDER_WAY = 3
"""How many lines a client sends before it reads a reply."""
SHARE_OF_READS = 0.3
SHARE_OF_WRITES = 0.7
SHARE_OF_STALE = 0.08
SHARE_OF_BREAKS = 0.002


@dataclass
class Found:
    """The complaints of some lives of a server; how often its clients got each answer; how many lives it had, and how many changes it made
    in them."""
    complaints: List[str] = field(default_factory=list)
    answers: CounterOf[Answer] = field(default_factory=Counter)
    lives: int = 0
    made: int = 0

    def requests(self) -> int:
        """How many requests there were."""
        return sum(self.answers.values())

    def told(self) -> str:
        """How many of these got each answer."""
        return ", ".join(f"{self.answers[answer]} {answer.value}" for answer in Answer)


@dataclass
class View:
    """A tenant, the values of its words that were seen last, and what its clients have asked since the view was made.

    Values that are written are never written again, in a whole run: they are taken from `values`."""
    tenant: Tenant
    values: "itertools.count[int]"
    words: List[int]
    requests: List[Request] = field(default_factory=list)

    def job(self, dice: random.Random) -> Tuple[int, Tuple[Entry, ...]]:
        """Something to ask for: an address to read, or the entries of a change."""
        if dice.random() < SHARE_OF_READS:
            return dice.randrange(self.tenant.words), ()
        count = dice.randint(1, min(self.tenant.most_entries, self.tenant.words))
        return 0, tuple(self.entry(dice, address) for address in sorted(dice.sample(range(self.tenant.words), count)))

    def entry(self, dice: random.Random, address: int) -> Entry:
        """An entry of a change, mostly one that expects what was seen last and writes a new value."""
        expected = next(self.values) if dice.random() < SHARE_OF_STALE else self.words[address]
        return Entry(address, expected, next(self.values) if dice.random() < SHARE_OF_WRITES else expected)


def views_of(tenants: Sequence[Tenant]) -> Dict[Tenant, View]:
    """Views of tenants whose words are all 0."""
    values = itertools.count(1)
    return {tenant: View(tenant, values, [0] * tenant.words) for tenant in tenants}


class Session:
    """One connection: the requests that were sent and not answered, in order, and the part of a line that has come."""

    def __init__(self, number: int, port: int, view: View) -> None:
        self.number = number
        self.view = view
        self.waiting: Deque[Request] = deque()
        self.part = b""
        self.is_greeted = False
        self.heard = time.monotonic()
        self.socket = socket.create_connection((HOST, port), PATIENCE)
        self.socket.setsockopt(socket.IPPROTO_TCP, socket.TCP_NODELAY, 1)
        self.socket.sendall(f"TENANT {view.tenant.name}\n".encode())
        self.socket.setblocking(False)

    def send(self, dice: random.Random, count: int) -> None:
        """Asks for so many things at once."""
        jobs = [self.view.job(dice) for _ in range(count)]
        now = time.monotonic_ns()
        requests = [Request(self.number, now, *job) for job in jobs]
        lines = "".join(request.line() + "\n" for request in requests).encode()
        self.view.requests += requests
        self.waiting += requests
        try:
            self.socket.send(lines)
        except OSError:
            pass  # The connection is at its end: what was sent of it is undecided.

    def receive(self) -> bool:
        """Notes what has come. Whether the connection goes on."""
        try:
            piece = self.socket.recv(65536)
        except BlockingIOError:
            return True
        except OSError:
            return False
        now = time.monotonic_ns()
        *lines, self.part = (self.part + piece).split(b"\n")
        for line in lines:
            self.take(line.decode("ascii", "replace"), now)
        self.heard = time.monotonic()
        return bool(piece)

    def take(self, line: str, now: int) -> None:
        """Notes one line of the server."""
        if not self.is_greeted:
            if line != f"OK {self.view.tenant.words}":
                raise Wrong(f"tenant {self.view.tenant.name}: greeted by {line!r}")
            self.is_greeted = True
            return
        if not self.waiting:
            raise Wrong(f"tenant {self.view.tenant.name}: {line!r} that nobody asked for")
        request = self.waiting.popleft()
        try:
            request.reply = reply_of(line)
        except ValueError:
            raise Wrong(f"{request.line()}: answered {line!r}") from None
        request.told = request.until = now
        request.teach(self.view.words)


class Crowd:
    """The clients of one life of a server, as many of each view's tenant as it has."""

    def __init__(self, server: Server, views: Sequence[View], dice: random.Random) -> None:
        self.server = server
        self.dice = dice
        self.selector = selectors.DefaultSelector()
        self.numbers = itertools.count(1)
        self.lost: List[Request] = []
        for view in views:
            for _ in range(view.tenant.clients):
                self.join(view)

    def join(self, view: View) -> None:
        """A further client."""
        session = Session(next(self.numbers), self.server.port, view)
        self.selector.register(session.socket, selectors.EVENT_READ, session)
        session.send(self.dice, self.dice.randint(1, MOST_UNDER_WAY))

    def leave(self, session: Session) -> None:
        """Closes a connection. What was not answered stays undecided as long as this server lives."""
        self.selector.unregister(session.socket)
        session.socket.close()
        self.lost += session.waiting

    def run(self, seconds: float) -> None:
        """Lets all of them ask for so long. Wrong where the server ends, or doesn't answer for too long."""
        end = time.monotonic() + seconds
        while time.monotonic() < end:
            for session in self.heard():
                self.go_on(session)

    def settle(self) -> None:
        """Lets nobody ask for more, until all are answered."""
        while any(session.waiting for session in self.sessions()):
            self.heard()

    def heard(self) -> List[Session]:
        """Reads what clients were told within a moment, and gives these. Wrong where the server has closed a connection or ended, or a
        client was told nothing for too long."""
        heard: List[Session] = [key.data for key, _ in self.selector.select(0.01)]
        for session in heard:
            if not session.receive():
                self.server.check_alive()
                raise Wrong(f"session {session.number}: closed by the server")
        for session in self.sessions():
            if time.monotonic() - session.heard > PATIENCE:
                waiting = session.waiting[0].text() if session.waiting else "its greeting"
                raise Wrong(f"no answer within {PATIENCE:.0f} seconds: {waiting}")
        self.server.check_alive()
        return heard

    def go_on(self, session: Session) -> None:
        """Lets one client ask for more, or break off."""
        if self.dice.random() < SHARE_OF_BREAKS:
            self.leave(session)
            self.join(session.view)
        elif len(session.waiting) < MOST_UNDER_WAY and self.dice.random() < 0.9:
            session.send(self.dice, self.dice.randint(1, MOST_UNDER_WAY - len(session.waiting)))
        elif not session.waiting:
            session.send(self.dice, 1)

    def sessions(self) -> List[Session]:
        """All that are connected."""
        return [key.data for key in list(self.selector.get_map().values())]

    def end(self) -> None:
        """Behind the server's end: reads what was told before it, and notes until when the others may have been made."""
        for session in self.sessions():
            session.socket.settimeout(1.0)
            while session.receive():
                pass
            self.leave(session)
        self.selector.close()
        for request in self.lost:
            request.until = self.server.died


def undecided_until(requests: Sequence[Request], died: int) -> None:
    """Notes of the changes that were answered FAULT or WORN that they may be made until the server has ended."""
    for request in requests:
        if request.reply.answer in (Answer.FAULT, Answer.WORN):
            request.until = died
