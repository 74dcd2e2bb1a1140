"""Clients of several hosts, of which one serves at a time: what they ask, what they are told, and by whom. One is the Python client, which finds
the host that serves by a name for all. The checker of scripts/soak judges it:
there must be a serial order of all requests, of all servers together, that agrees with real time.

A client asks for one thing at a time. A request that isn't answered, or is answered FAULT, may be done at any later time.

Used by: cuts.py, keepers.py, moves.py, speed.py, trials.py. It notes requests in the form of soak_parts/history.py.
"""
import contextlib
import itertools
import random
import socket
import threading
import time
from typing import Dict, List, NamedTuple, Sequence, Set, Tuple, Union

from soak_parts.checker import judge
from soak_parts.history import NOTHING, UNDECIDED, Answer, Entry, Epoch, Request, reply_of

from .hosts import until
from .named import NAME, NamedSession

WORDS = 8
QUOTA = 16
TENANT = "t"
SHARE_OF_READS = 0.2
SHARE_OF_STALE = 0.05
MOST_ENTRIES = 3
FIRST_WAIT = 0.4
"""For how many seconds a connection is waited for. Then the next host is asked."""
LONGEST = 12.0
"""For how many seconds a reply is waited for."""
PAUSE = 0.02
Place = Tuple[str, int]


class Told(NamedTuple):
    """A YES: when it was read, and which place gave it."""
    at: int
    place: Place


class Session:
    """A connection to a server, greeted. OSError if there is none."""

    def __init__(self, number: int, place: Place):
        self.number, self.place = number, place
        self.socket = socket.create_connection(place, FIRST_WAIT)
        try:
            self.socket.setsockopt(socket.IPPROTO_TCP, socket.TCP_NODELAY, 1)
            self.socket.settimeout(LONGEST)
            self.lines = self.socket.makefile("rb")
            greeting = self.say(f"TENANT {TENANT}")
            if greeting != f"OK {WORDS}":
                raise OSError(f"greeted by {greeting!r}")
        except BaseException:
            self.socket.close()
            raise

    def say(self, line: str) -> str:
        """The reply to a line; OSError if none comes."""
        self.socket.sendall(line.encode() + b"\n")
        reply = self.lines.readline()
        if not reply.endswith(b"\n"):
            raise OSError("closed")
        return reply.decode(errors="replace").rstrip("\n")

    def close(self) -> None:
        with contextlib.suppress(OSError):
            self.lines.close()
            self.socket.close()


class Load:
    """Clients at places. `writers` change and read, each at a place as long as it answers, then at the next one; so does one by each of `ways`, a
    place that leads to the others. `readers` have a place each, and only read."""

    def __init__(self, places: Sequence[Place], ways: Sequence[Place], writers: int, pause: float, dice: random.Random):
        self.places, self.ways, self.pause, self.seed = list(places), list(ways), pause, dice.random()
        self.first: Tuple[int, ...] = ()
        self.values = itertools.count(1 << 20)
        self.sessions = itertools.count(1)
        self.words: List[int] = []
        self.requests: List[Request] = []
        self.at: Dict[int, Place] = {}
        self.wrong: List[str] = []
        """What was answered that is no reply."""
        self.is_over = False
        self.is_idle = False
        work = [(self.write, [self.places[it % len(self.places):] + self.places[:it % len(self.places)]]) for it in range(writers)]
        work += [(self.write, [[way]]) for way in self.ways]
        work += [(self.read, [place]) for place in self.places]
        self.threads = [threading.Thread(target=call, args=(*arguments, random.Random(f"{self.seed} {number}")), daemon=True)
                        for number, (call, arguments) in enumerate(work)]

    def begin(self, words: Sequence[int]) -> None:
        """Begins, from these words."""
        self.first, self.words = tuple(words), list(words)
        self.values = itertools.count(max(words) + 1)
        for thread in self.threads:
            thread.start()

    def write(self, places: List[Place], dice: random.Random) -> None:
        """Changes and reads, until all is over."""
        for place in itertools.cycle(places):
            with contextlib.suppress(OSError), contextlib.closing(self.session(place)) as session:
                while not self.is_over:
                    if not self.is_idle:
                        self.ask(session, self.job(dice))
                    time.sleep(self.pause * dice.random())
            if self.is_over:
                return
            time.sleep(PAUSE)

    def read(self, place: Place, dice: random.Random) -> None:
        """Reads from one place, as often as it answers."""
        while not self.is_over:
            with contextlib.suppress(OSError), contextlib.closing(self.session(place)) as session:
                while not self.is_over:
                    self.ask(session, Request(0, 0, dice.randrange(WORDS)))
                    time.sleep(self.pause)
            time.sleep(PAUSE)

    def some(self, place: Place, number: int, dice: random.Random) -> None:
        """Some changes at one place, of a client of its own."""
        end = time.monotonic() + LONGEST
        while time.monotonic() < end:
            with contextlib.suppress(OSError), contextlib.closing(self.session(place)) as session:
                for _ in range(number):
                    self.ask(session, self.job(dice))
                return
            time.sleep(0.05)

    def session(self, place: Place) -> Union[Session, NamedSession]:
        number = next(self.sessions)
        self.at[number] = place
        return NamedSession(number, place[1], TENANT) if place[0] == NAME else Session(number, place)

    def job(self, dice: random.Random) -> Request:
        """Something to ask for."""
        if dice.random() < SHARE_OF_READS:
            return Request(0, 0, dice.randrange(WORDS))
        entries = [Entry(address, next(self.values) if dice.random() < SHARE_OF_STALE else self.words[address], next(self.values))
                   for address in sorted(dice.sample(range(WORDS), dice.randint(1, MOST_ENTRIES)))]
        return Request(0, 0, 0, tuple(entries))

    def ask(self, session: Union[Session, NamedSession], request: Request) -> None:
        """Asks, and notes the reply. OSError if none comes."""
        request.session, request.sent = session.number, time.monotonic_ns()
        self.requests.append(request)
        line = session.say(request.line())
        now = time.monotonic_ns()
        try:
            request.reply = reply_of(line)
        except ValueError as error:
            self.wrong.append(f"{request.line()}: answered {line!r}")
            raise OSError("no reply") from error
        request.told = request.until = now
        request.teach(self.words)
        if request.reply.answer is Answer.FAULT:
            raise OSError("the tenant is down")

    def end(self) -> None:
        """Lets nobody ask any more, and waits for what was asked."""
        self.is_over = True
        for thread in self.threads:
            thread.join(LONGEST + 5)

    def yes(self) -> List[Told]:
        """Each YES until now, in the order in which they were read."""
        told = [Told(it.told, self.at[it.session]) for it in list(self.requests) if it.reply.answer is Answer.YES and it.told]
        return sorted(told)

    def places_of_yes(self, number: int) -> Set[Place]:
        """The places that answered YES to a change, but for the first requests of this number."""
        return {self.at[it.session] for it in self.requests[number:] if it.reply.answer is Answer.YES and it.told}

    def gap(self, begin: int, end: int) -> float:
        """The longest time without a YES between two moments, in seconds."""
        moments = [begin, *(it.at for it in self.yes() if begin <= it.at <= end), end]
        return max(later - earlier for earlier, later in zip(moments, moments[1:])) / 1e9

    def complaints(self, last: Sequence[int], only_changes: bool) -> List[str]:
        """What is wrong with the replies, or with those to changes alone, if the words are these at the end; and what is no reply."""
        end, judged = time.monotonic_ns(), []
        for it in list(self.requests):
            if it.reply.answer in UNDECIDED:
                it.reply, it.told, it.until = NOTHING, None, end
            if it.is_change or it.told and not only_changes:
                judged.append(it)
        judged.sort(key=lambda it: it.sent)
        return self.wrong + judge(Epoch(TENANT, self.first, judged, tuple(last), QUOTA)).complaints

    def counts(self) -> Dict[str, int]:
        """How many replies of each kind there were."""
        found: Dict[str, int] = {}
        for it in list(self.requests):
            found[it.reply.answer.value] = found.get(it.reply.answer.value, 0) + 1
        return found


def words_at(places: Sequence[Place], seconds: float) -> Tuple[int, ...]:
    """The words, of the first place that serves them."""
    def words() -> Tuple[int, ...]:
        place = next(places_again)
        with contextlib.suppress(OSError), contextlib.closing(Session(0, place)) as session:
            told = [session.say(f"GET {address}") for address in range(WORDS)]
            if all(it.startswith("VAL ") for it in told):
                return tuple(int(it[4:]) for it in told)
        return ()

    places_again = itertools.cycle(places)
    return until(words, "a host serves the words", seconds, 0.05)
