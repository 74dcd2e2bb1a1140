"""What clients do at mwserve. Twelve processes of one add to words of their own, by counted changes, behind a network that loses and
delays, until the server was killed (SIGKILL) four times; what each was told as made is compared with its word. And the programs of the
clients' READMEs, each of which adds one to word 0 of the tenant t, by a count in word 1.

Used by: scripts/check-clients, which runs all; builds.py, which builds those programs.
"""
import subprocess
import tempfile
import threading
import time
from pathlib import Path
from typing import List, Sequence

from program_parts.served import HOST, Served, kill_often, make_tenants
from recipe_parts.network import Network

from .cases import Player
from .peer import Different

PROCESSES = 12
TIMES = 60
"""How many changes each process is told as made at least before it ends."""
KILLS = 4
BETWEEN = 1.0
WORDS, QUOTA, WORKERS = 64, 3, 40
COUNTS = 32
"""The count of the first process is at this address."""
TIMEOUT, PATIENCE, WITHIN = 500, 100, 10000
"""Of a client, in milliseconds: for a reply, while busy, for a new connection."""
WAITS = (5000, 0)
"""For how many milliseconds the counts of the processes wait, in turn. One that doesn't wait leaves each change undecided whose reply is lost."""
LONGEST = 300.0
"""For how many seconds a run is waited for at most."""
AFTER = 2.5
"""After so many seconds no line is on its way any more."""
PLACE = "127.0.0.1:7000"
"""Where the programs of the READMEs look for a server, as the pages have them."""
LONGEST_PROGRAM = 60
"""For how many seconds such a program is waited for."""


class Adder:
    """A process, and the thread that asks it."""

    def __init__(self, number: int, at: str, words: Sequence[str], end: float, may_end: threading.Event) -> None:
        """`end`: when it gives up. `may_end`: set once the last kill is over."""
        self.number, self.told, self.settled, self.found = number, 0, 0, ""
        self._at, self._end, self._may_end = at, end, may_end
        self._player = Player(words)
        self.thread = threading.Thread(target=self._run, daemon=True)
        self.thread.start()

    def _run(self) -> None:
        try:
            self._until("words", f"client {self._at} a timeout={TIMEOUT} patience={PATIENCE} within={WITHIN}", ("lost", "full"))
            self._until("counted", f"counted {COUNTS + self.number} wait={WAITS[self.number % len(WAITS)]}", ("lost", "full", "unknown", "busy"))
            while self.told < TIMES or not self._may_end.is_set():
                self._add()
            self._player.ask("close")
        except Different as found:
            self.found = f"process {self.number}: {found}"
        finally:
            self._player.end()

    def _ask(self, call: str) -> "tuple[str, list[str]]":
        """What a call tells: the first word, and the others."""
        if time.monotonic() > self._end:
            raise Different(f"it had {self.told} of {TIMES} changes after {LONGEST:.0f} seconds")
        told = self._player.ask(call).split()
        if not told:
            raise Different(f"{call}: the program has ended, or tells nothing")
        return told[0], told[1:]

    def _until(self, wanted: str, call: str, others: Sequence[str]) -> List[str]:
        """Makes a call, and connects anew and makes it again, until it goes well. What it tells then."""
        while True:
            told, more = self._ask(call)
            if told == wanted:
                return more
            if told not in others:
                raise Different(f"{call}: {told} {' '.join(more)}")
            if wanted != "words":
                self._ask(f"reconnect {WITHIN}")

    def _add(self) -> None:
        """One change, of which it is known in the end whether it was made."""
        value = int(self._until("values", f"get {self.number}", ("lost", "full"))[0])
        told, more = self._ask(f"counted_cas {self.number}:{value}:{value + 1}")
        if told == "unknown":
            self._until_settled()
        elif told == "lost":
            self._ask(f"reconnect {WITHIN}")
        elif told not in ("made", "not", "busy"):
            raise Different(f"a change: {told} {' '.join(more)}")
        self.told += told == "made"

    def _until_settled(self) -> None:
        """Connects anew, and asks whether the last change was made, until that is told."""
        told = "unknown"
        while told == "unknown":
            self._ask(f"reconnect {WITHIN}")
            told, more = self._ask("settle")
        if told not in ("made", "not") or more:
            raise Different(f"settle: {told} {' '.join(more)}")
        self.settled += 1
        self.told += told == "made"


def differences(adders: Sequence[Adder], values: Sequence[int]) -> List[str]:
    """What went wrong."""
    found = [adder.found for adder in adders if adder.found]
    found += [f"process {adder.number} was told {adder.told} changes as made, and its word has {value}"
              for adder, value in zip(adders, values) if adder.told != value]
    found += [] if any(adder.settled for adder in adders) else ["no call left a change undecided, to be settled by a later one"]
    return found


def run_twelve(words: Sequence[str], server: Served, proxy_port: int) -> str:
    """The run. What it did; Different if something was wrong."""
    import mondlexi
    end, may_end = time.monotonic() + LONGEST, threading.Event()
    adders = [Adder(number, f"{HOST}:{proxy_port}", words, end, may_end) for number in range(PROCESSES)]
    try:
        kill_often(server, KILLS, BETWEEN)
    finally:
        may_end.set()
    for adder in adders:
        adder.thread.join()
    time.sleep(AFTER)
    with mondlexi.Client(f"{HOST}:{server.port}", "a", within=5) as client:
        values = client.get_many(range(PROCESSES))
    found = differences(adders, values)
    if found:
        raise Different("; ".join(found))
    return f"{sum(values)} changes by {PROCESSES} processes, {KILLS} kills, {sum(adder.settled for adder in adders)} calls that left one undecided, each settled"


def try_twelve(words: Sequence[str], mwinit: Path, mwserve: Path) -> str:
    """The run of one client's program. What it did; Different if something was wrong."""
    with tempfile.TemporaryDirectory(prefix="clients-") as name:
        make_tenants(mwinit, Path(name), {"a": WORDS}, QUOTA)
        with Served(mwserve, Path(name), ("--workers", str(WORKERS))) as server:
            network = Network(server.port + 1, server.port, "clients")
            try:
                told = run_twelve(words, server, server.port + 1)
            finally:
                passed = network.end()
    return f"{told}; {passed}"


def place_in(folder: Path) -> str:
    """Where the server listens at which the programs of a README are run: a local socket below this folder of a client's check."""
    return f"unix:{folder}/served/socket"


def run_programs(programs: Sequence[Sequence[str]], folder: Path, mwinit: Path, mwserve: Path) -> str:
    """Runs these, one after the other, at a server below this folder. What they did; Different if word 0 isn't what it must be, or one
    ends with another status than 0, or prints anything but that word."""
    import mondlexi
    room = folder / "served"
    room.mkdir()
    make_tenants(mwinit, room, {"t": 2}, 1)
    with Served(mwserve, room, (), True) as server, mondlexi.Client(server.at, "t") as client:
        for number, words in enumerate(programs, 1):
            ended = subprocess.run(words, stdin=subprocess.DEVNULL, stdout=subprocess.PIPE, stderr=subprocess.STDOUT, text=True,
                                   timeout=LONGEST_PROGRAM)
            value = client.get(0)
            if ended.returncode or value != number or ended.stdout not in ("", f"{number}\n"):
                raise Different(f"{' '.join(words)}: word 0 is {value} in place of {number}, status {ended.returncode}: {ended.stdout}")
    return f"word 0 is {len(programs)} after as many runs of the program of its README"
