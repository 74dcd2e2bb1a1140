"""Proves and builds libraries, as many side by side as there are processors and free memory, the longest chain first.

Used by: scripts/build-libraries, scripts/check-wrong-bodies. `memory_for` reckons as `rt ci` does (`need` in the installed kit's `rt`): compare
its numbers with those of another kit. With too low ones memory runs out.
"""
import hashlib
import re
import sys
import time
from dataclasses import dataclass
from pathlib import Path
from typing import Dict, List, Optional, Set

from first_run_parts import machine
from first_run_parts.children import Child, end
from first_run_parts.crates import Crate, below, own_sum, sums_of
from first_run_parts.kit import find_kit, kit_line

from .rooms import Room

POLL_SECONDS = 0.2
"""For so many seconds the children are let alone between two looks at them."""
SILENCE = 60.0
"""After so many seconds without a line, a line says what is being proved."""
SHARE_OF_MEMORY = 0.85
EACH_MORE_JOB = 0.6
"""What a second processor in one check adds to its memory, as a share of the first's."""
MOST_JOBS = 4
KILLED = (-9, 128 + 9, 256 - 9)
"""The statuses of a check that the system killed, most likely because memory was out."""


class NotBuilt(Exception):
    """A crate was refused. Its log has been shown."""


@dataclass
class Running:
    """A crate that is being proved."""
    crate: Crate
    room: Room
    child: Child
    jobs: int
    needs: float


def told(seconds: float) -> str:
    """A time in words."""
    whole = int(seconds + 0.5)
    return f"{whole} s" if whole < 100 else f"{whole // 60} min {whole % 60} s" if whole < 600 else f"{(whole + 30) // 60} min"


class Builder:
    """Proves and builds these libraries, of which each stands on others of them alone."""

    def __init__(self, place: Path, logs: Path, kit: Path, kit_line: str, crates: Dict[str, Crate]):
        self.place, self.logs, self.kit, self.crates = place, logs, kit, crates
        self.sums = sums_of(crates, kit_line)
        self.texts = {name: own_sum(it) for name, it in crates.items()}
        self.lanes = machine.processors()
        self.memory = SHARE_OF_MEMORY * machine.free_memory()
        self.behind = self.chains()
        self.left: List[str] = sorted(crates, key=lambda it: (-self.behind[it], it))
        self.running: Dict[str, Running] = {}
        self.done: Set[str] = set()
        self.alone: Set[str] = set()
        self.waits_for: Dict[str, Path] = {}
        self.finished_work, self.finished_seconds = 0, 0.0
        self.last_line = time.monotonic()

    def say(self, text: str) -> None:
        """Prints a line at once."""
        self.last_line = time.monotonic()
        print(text, flush=True)

    def chains(self) -> Dict[str, int]:
        """For each crate the work of the longest chain of crates that begins with it."""
        behind = {name: it.work for name, it in self.crates.items()}
        for name, it in reversed(list(self.crates.items())):
            for used in it.uses:
                behind[used] = max(behind[used], self.crates[used].work + behind[name])
        return behind

    # What a crate's proof needs, and what there is

    def memory_for(self, crate: Crate) -> float:
        """How much memory a proof of the crate is likely to take, in bytes: `rt ci` reckons so."""
        under = below(self.crates, crate.name)
        of_kit = {name for it in [crate, *under] for name in it.of_kit} - {"io", "libc", "os"}
        lines = 1.0 * crate.source_lines + 0.2 * crate.proof_lines + 0.08 * sum(it.source_lines for it in under)
        return (1000 + lines) * machine.MEGABYTE + machine.size_of_libraries(self.kit, sorted(of_kit))

    def jobs_for(self, needs: float, idle: int, ready: int) -> int:
        """How many processors a proof may use: those that no other crate waits for, where their memory is free."""
        room = self.memory - sum(it.needs for it in self.running.values())
        return max(1, min(MOST_JOBS, idle // max(ready, 1), 1 + int((room / needs - 1) / EACH_MORE_JOB)))

    def fits(self, name: str, needs: float) -> bool:
        """Whether a crate can begin beside those that run."""
        if not self.running:
            return True
        if name in self.alone or self.alone & set(self.running):
            return False
        return needs <= self.memory - sum(it.needs for it in self.running.values())

    # What was proved before

    def record_of(self, crate: Crate) -> Path:
        """The file that says of which text the crate was built."""
        return crate.folder / "out" / "rlib" / "first-run"

    def record(self, crate: Crate) -> Optional[str]:
        """What that file has to say now, or None where the crate isn't built. `rt` writes the stamp last."""
        out = crate.folder / "out" / "rlib"
        stamp = out / "stamp"
        if not (stamp.is_file() and (out / f"{crate.name}.rlib").exists()):
            return None
        return hashlib.sha256(self.sums[crate.name].encode() + stamp.read_bytes()).hexdigest()

    def was_built(self, crate: Crate) -> bool:
        """Whether an earlier run proved and built this text of the crate."""
        record, wanted = self.record_of(crate), self.record(crate)
        return wanted is not None and record.is_file() and record.read_text(encoding="utf-8") == wanted

    # The course of a run

    def run(self) -> None:
        """Proves and builds all crates. What was begun is ended and given back, whatever happens."""
        try:
            while self.left or self.running:
                self.begin()
                self.look()
                self.tell_what_runs()
                time.sleep(POLL_SECONDS if self.running or self.left else 0)
        finally:
            end(it.child for it in self.running.values())
            for it in self.running.values():
                it.room.close()

    def ready(self) -> List[str]:
        """The crates whose libraries are built, the longest chain first."""
        return [name for name in self.left if all(it in self.done for it in self.crates[name].uses)]

    def begin(self) -> None:
        """Begins as many crates as there is room for."""
        while self.take_what_was_built():
            pass
        ready = self.ready()
        for at, name in enumerate(ready):
            idle = self.lanes - sum(it.jobs for it in self.running.values())
            needs = self.memory_for(self.crates[name])
            if idle > 0 and self.fits(name, needs):
                self.begin_one(self.crates[name], needs, 1 if name in self.alone else self.jobs_for(needs, idle, len(ready) - at))

    def take_what_was_built(self) -> bool:
        """Passes over the crates that were proved before. Returns whether there were any."""
        known = [name for name in self.ready() if self.was_built(self.crates[name])]
        for name in known:
            self.left.remove(name)
            self.done.add(name)
            self.say(f"{name}: proved before; {self.rest()}")
        return bool(known)

    def begin_one(self, crate: Crate, needs: float, jobs: int) -> None:
        """Begins a crate, or says once for whom it waits."""
        room = Room(self.place, crate, below(self.crates, crate.name))
        busy = room.open()
        if busy:
            if self.waits_for.get(crate.name) != busy:
                self.say(f"{crate.name}: waiting for another rt to finish in {busy}")
            self.waits_for[crate.name] = busy
            return
        child = Child(["rt", "lib", "--jobs", str(jobs)], room.working_folder(), self.logs, crate.name)
        self.left.remove(crate.name)
        self.running[crate.name] = Running(crate, room, child, jobs, needs * (1 + EACH_MORE_JOB * (jobs - 1)))

    def look(self) -> None:
        """Shows what `rt` waits for, and takes what has ended."""
        for name, it in list(self.running.items()):
            for line in it.child.waiting_lines():
                self.say(f"{name}: {line}")
            if it.child.has_ended():
                self.take(it)

    def take(self, it: Running) -> None:
        """Takes a crate whose check has ended."""
        name, status, seconds = it.crate.name, it.child.status(), it.child.seconds()
        said = it.child.log() + it.child.answer()
        it.room.close()
        del self.running[name]
        if status in KILLED and name not in self.alone:
            self.alone.add(name)
            self.left.insert(0, name)
            self.say(f"{name}: the check was killed, most likely because memory was out: once more, alone")
            return
        if status:
            print(said, end="", file=sys.stderr, flush=True)
            raise NotBuilt(f"{name} was not built")
        if own_sum(it.crate) != self.texts[name]:
            raise NotBuilt(f"the text of {name} changed while it was proved: start this again")
        record = self.record(it.crate)
        if record is None:
            raise NotBuilt(f"{name} left nothing in {it.crate.folder / 'out'}: start this again")
        self.record_of(it.crate).write_text(record, encoding="utf-8")
        self.done.add(name)
        self.tell_end(it, said, seconds)

    # Lines

    def tell_end(self, it: Running, said: str, seconds: float) -> None:
        """Says what was proved, how long it took, and what is left."""
        proved = re.findall(r"^logic=proved functions=(\d+)", said, re.M)
        if not proved:
            self.say(f"{it.crate.name}: proved before; {self.rest()}")
            return
        self.finished_work += it.crate.work
        self.finished_seconds += seconds
        number = int(proved[-1])
        functions = f"{number} function{'' if number == 1 else 's'}"
        self.say(f"{it.crate.name}: proved {functions} in {told(seconds)}; {self.rest()}")

    def rest(self) -> str:
        """How many crates are left, and a guess of the time."""
        number = len(self.left) + len(self.running)
        if not number:
            return "none left"
        guess = self.guess()
        return f"{number} left" + (f", about {max(1, round(guess / 60))} min" if guess is not None else "")

    def guess(self) -> Optional[float]:
        """A guess of the seconds that are left, by the speed so far: no less than the longest chain of crates, nor than all work on all lanes."""
        if not self.finished_work:
            return None
        speed = self.speed()
        own = {name: float(self.crates[name].work) for name in self.left}
        for name, it in self.running.items():
            own[name] = max(it.crate.work - speed * it.child.seconds(), 0.05 * it.crate.work)
        chain = max(self.behind[name] - self.crates[name].work + own[name] for name in own)
        lanes = max(1, min(self.lanes, int(self.memory / 2e9)))
        return max(chain, sum(own.values()) / lanes) / speed

    def speed(self) -> float:
        """The lines of work a second and crate so far. A crate that takes longer than that slows the guess."""
        work, seconds = self.finished_work, self.finished_seconds
        late = [it for it in self.running.values() if it.child.seconds() * work > it.crate.work * seconds]
        return (work + sum(it.crate.work for it in late)) / (seconds + sum(it.child.seconds() for it in late))

    def tell_what_runs(self) -> None:
        """After a silence, says what is being proved."""
        if self.running and time.monotonic() - self.last_line >= SILENCE:
            runs = ", ".join(f"{name} ({told(it.child.seconds())})" for name, it in self.running.items())
            self.say(f"still proving {runs}; {self.rest()}")


def build(libraries: Dict[str, Crate], place: Path, logs: Path) -> None:
    """Proves and builds these libraries, but for those that an earlier run built of the same texts. Copies are made in `place`."""
    Builder(place, logs, find_kit(), kit_line(), libraries).run()
