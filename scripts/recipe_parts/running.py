"""Runs a recipe in many processes, through a network that loses and delays, while the server and the processes are killed.

Used by: scripts/check-programs, scripts/check-recipes, histories.py, keys.py, leases.py, queues.py, table.py, work.py.
"""
import json
import multiprocessing
import os
import random
import time
import traceback
from pathlib import Path
from typing import Any, Callable, Dict, List, NamedTuple, Optional

from program_parts.common import BUILT
from program_parts.served import HOST, Served, make_tenants

import mondlexi

from .network import Network

FORK = multiprocessing.get_context("fork")
TENANT, WORDS = "a", 4096
PATIENCE, WITHIN = 120.0, 120.0
LONGEST = 180.0
"""For how many seconds the processes may go on until they told enough, and then after they were told to stop."""
LOOK_SECONDS = 0.5

Line = List[Any]
"""A line of a process: when, in nanoseconds, what, and more."""
Logs = Dict[int, List[List[Line]]]
"""What each process tells, by its number: for each of its lives, one after the other, the lines of that life."""


class Size(NamedTuple):
    """How large a run is. `kills`: how often the server, and as often a process, is killed. `timeout`: for how many seconds a
    process waits for a reply. `is_lossy`: whether the network is between that loses and delays. `is_local`: whether the server is at a
    local socket; then nothing is between. `holds_up`: whether the server is held up too, as often as it is killed."""
    processes: int
    seconds: float
    kills: int
    timeout: float = 1.0
    is_lossy: bool = True
    is_local: bool = False
    quota: int = 32
    holds_up: bool = False


class Life:
    """One life of a process: from its start to its end, or until it is killed."""

    def __init__(self, number: int, nth: int, timeout: float, folder: Path, stop: "multiprocessing.synchronize.Event") -> None:
        self.number, self.nth, self.timeout, self.dice = number, nth, timeout, random.Random(os.urandom(8))
        self._log = os.open(folder / f"{number}.{nth}", os.O_WRONLY | os.O_CREAT | os.O_APPEND)
        self._stop = stop
        self.server = ""
        self.client: mondlexi.Client

    def log(self, *what: object) -> None:
        """Writes a line: the time in nanoseconds, and what is told. One call of the system writes it whole, or not."""
        os.write(self._log, (json.dumps([time.monotonic_ns(), *what]) + "\n").encode())

    def goes_on(self) -> bool:
        """Whether it was not told to stop."""
        return not self._stop.is_set()

    def think(self, most: float = 0.01) -> None:
        """Waits for up to so many seconds."""
        time.sleep(self.dice.uniform(0, most))

    def unique(self, count: int) -> int:
        """A value that no other life of any process has, for each count below 2^24."""
        return self.number << 36 | self.nth << 24 | count

    def live(self, server: str, work: Callable[["Life"], None], spoil: Optional[Callable[[], None]]) -> None:
        """The whole process. Status 1 if it raised anything, which it tells in its log."""
        random.seed(os.urandom(8))
        try:
            if spoil:
                spoil()
            self.server = server
            self.client = mondlexi.Client(server, TENANT, timeout=self.timeout, patience=PATIENCE, within=WITHIN)
            work(self)
        except BaseException:
            self.log("raised", traceback.format_exc())
            os._exit(1)
        os._exit(0)


class Run:
    """A run of one recipe."""

    def __init__(self, folder: Path, size: Size, work: Callable[[Life], None], lacks: Callable[[Logs], List[str]],
                 spoil: Optional[Callable[[], None]]) -> None:
        """`lacks`: what is too little in what was told. `spoil`: what makes the recipe wrong, in each process."""
        self.folder, self.size, self.work, self.lacks, self.spoil = folder, size, work, lacks, spoil
        (folder / "logs").mkdir(parents=True)
        make_tenants(BUILT["mwinit"], folder, {TENANT: WORDS}, size.quota)
        options = ("--workers", "16", "--clients", str(2 * size.processes + 40))
        self.server = Served(BUILT["mwserve"], folder, options, size.is_local)
        self.at = f"{HOST}:{self.server.port + 1}" if size.is_lossy else self.server.at
        self.stop = FORK.Event()
        self.lives = [0] * size.processes
        self.words: List[int] = []

    def whole(self) -> List[str]:
        """The run. What went wrong with its processes."""
        network = Network(self.server.port + 1, self.server.port, "recipes") if self.size.is_lossy else None
        try:
            processes = [self.begin(number) for number in range(self.size.processes)]
            self.disturb(processes)
            self.go_on(processes)
            self.stop.set()
            faults = ended(processes)
            with mondlexi.Client(self.server.at, TENANT, within=WITHIN) as client:
                self.words = client.get_many(range(WORDS))
            return faults
        finally:
            if network:
                network.end()
            self.server.kill()

    def begin(self, number: int) -> "multiprocessing.process.BaseProcess":
        """Begins the next life of a process."""
        life = Life(number, self.lives[number], self.size.timeout, self.folder / "logs", self.stop)
        self.lives[number] += 1
        process = FORK.Process(target=life.live, args=(self.at, self.work, self.spoil), daemon=True)
        process.start()
        os.close(life._log)
        return process

    def disturb(self, processes: List["multiprocessing.process.BaseProcess"]) -> None:
        """Kills the server, and processes, at any moments until the time is over. Each begins again at once."""
        begun = time.monotonic()
        kinds = ("server", "process", "hold up") if self.size.holds_up else ("server", "process")
        for moment, kind in sorted((random.uniform(0.1, 0.95) * self.size.seconds, kind) for kind in kinds for _ in range(self.size.kills)):
            time.sleep(max(0.0, begun + moment - time.monotonic()))
            if kind == "server":
                self.server.restart()
            elif kind == "hold up":
                self.server.hold_up()
            else:
                number = random.randrange(self.size.processes)
                processes[number].kill()
                processes[number].join()
                processes[number] = self.begin(number)
        time.sleep(max(0.0, begun + self.size.seconds - time.monotonic()))

    def go_on(self, processes: List["multiprocessing.process.BaseProcess"]) -> None:
        """Waits until enough was told, as long as a process is there that may tell more."""
        end = time.monotonic() + LONGEST
        while self.lacks(self.logs()) and time.monotonic() < end and any(process.is_alive() for process in processes):
            time.sleep(LOOK_SECONDS)

    def logs(self) -> Logs:
        """What the processes told. A line that has no end was being written when its process was killed."""
        return {number: [read_log(self.folder / "logs" / f"{number}.{nth}") for nth in range(lives)]
                for number, lives in enumerate(self.lives)}


def ended(processes: List["multiprocessing.process.BaseProcess"]) -> List[str]:
    """Waits for these processes. A line for each that doesn't end, or ends with another status than 0."""
    end, faults = time.monotonic() + LONGEST, []
    for number, process in enumerate(processes):
        process.join(max(0.0, end - time.monotonic()))
        if process.is_alive():
            faults.append(f"process {number} does not end")
            process.kill()
            process.join()
        elif process.exitcode:
            faults.append(f"process {number} ended with status {process.exitcode}")
    return faults


def read_log(path: Path) -> List[Line]:
    """The lines of one life."""
    text = path.read_text() if path.exists() else ""
    return [json.loads(line) for line in text.splitlines(keepends=True) if line.endswith("\n")]
