"""Which runs of `rt ci` prove the crates, and when each begins.

One run takes as many crates side by side as there are processors, each on one while others wait. But the longest chain of crates lasts
longer than all others beside it. So where there is room the late crates of that chain have runs of their own: alone in its run, a
crate takes two processors and more. What they stand on has another run. The crates that only the last of them stands on are proved
beside, by runs that take the processors that these leave. In the end one run, the gate's own, takes what all have proved, and proves
the rest.

Used by: proving.py.
"""
import os
import shutil
from dataclasses import dataclass
from pathlib import Path
from typing import Dict, FrozenSet, List, Optional, Tuple

from . import machine
from .children import end
from .crates import Crate, below
from .runs import Progress, Run

POLL_SECONDS = 0.5
"""For so many seconds the runs are let alone between two looks at what they have said."""
PROCESSORS, MEMORY, DISK = 4, 16_000_000_000, 10_000_000_000
"""With fewer processors, or less memory or disk free, in bytes, there is one run."""
LATE_SHARE = 0.5
"""A crate of the longest chain is late if it stands on at least this share of all work. The first one, on which most others stand, has a
run of its own too."""
FEW = 3
"""With fewer late crates there is one run."""
BESIDE = ("nice", "-n", "5")


@dataclass(frozen=True)
class Part:
    """Crates that one run proves, with those below them, once others are proved. No names: all, by the gate's own run."""
    names: Tuple[str, ...]
    needs: FrozenSet[str]
    is_late: bool = False
    is_beside: bool = False


WHOLE = Part((), frozenset())


def longest_chain(crates: Dict[str, Crate]) -> List[str]:
    """The crates of most work that stand on each other, lowest first."""
    longest: Dict[str, Tuple[int, List[str]]] = {}
    for name, crate in crates.items():
        work, chain = max((longest[it] for it in crate.uses), default=(0, []))
        longest[name] = work + crate.work, [*chain, name]
    return max(longest.values())[1]


def parts_of(crates: Dict[str, Crate]) -> List[Part]:
    """The parts, most urgent first."""
    chain = longest_chain(crates)
    under = {name: {it.name for it in below(crates, name)} for name in crates}
    work = {name: sum(crates[it].work for it in under[name]) for name in crates}
    share = LATE_SHARE * sum(it.work for it in crates.values())
    late = [it for it in chain[:-1] if it == chain[0] or work[it] >= share]
    if len(late) < FEW:
        return [WHOLE]
    urgent = set().union(*(under[it] for it in late[:-1]))
    groups: Dict[Tuple[bool, FrozenSet[str]], List[str]] = {}
    for name in crates:
        if name not in (*late, chain[-1]):
            is_beside = name not in urgent and bool(under[name])
            # (what no late crate stands on waits for the end, when processors are free)
            needs = under[name].intersection(late) if name in under[late[-1]] else late[:-1]
            groups.setdefault((is_beside, frozenset(needs)), []).append(name)
    parts = [Part(tuple(names), needs, is_beside=is_beside) for (is_beside, needs), names in groups.items()]
    for before, name in zip(["", *late], late):
        # (a run looks at what is kept, and waits for a crate that another proves: it is ready once that one is proved)
        parts.append(Part((name,), frozenset(under[name]) - {before}, is_late=True))
    parts.sort(key=lambda it: (it.is_beside, it.is_late))
    return [*parts, Part((), frozenset(crates) - {chain[-1], late[-1]})]


def store_of(kit: Path) -> Path:
    """Where `rt` keeps what it has proved, or the nearest folder above that is there."""
    store = kit.parent / "rattle-kept"
    return store if store.is_dir() else kit.parent


def has_room(kit: Path) -> bool:
    """Whether this machine has room for several runs, and keeps for one what another has proved."""
    store = store_of(kit)
    return (machine.processors() >= PROCESSORS and machine.free_memory() >= MEMORY and os.access(store, os.W_OK)
            and shutil.disk_usage(store).free >= DISK)


class Course:
    """Proves these crates in the copy `tree`: by the runs of `parts_of`, or by one run that proves so many at a time."""

    def __init__(self, crates: Dict[str, Crate], tree: Path, logs: Path, jobs: Optional[int], has_room: bool):
        self.progress, self.tree, self.logs = Progress(crates), tree, logs
        self.fixed = (f"RT_JOBS={jobs}",) if jobs else ()
        self.left = parts_of(crates) if has_room and not jobs else [WHOLE]
        # (the first crate tells nothing: each earlier run has proved it)
        self.late = {name for part in self.left if part.is_late and part.needs for name in part.names}
        self.running: List[Run] = []

    def __enter__(self) -> "Course":
        self.begin()
        return self

    def __exit__(self, *_: object) -> None:
        end([it.child for it in self.running])

    def begin(self) -> None:
        """Begins each part that has what it needs."""
        for part in [it for it in self.left if not it.needs & self.progress.left]:
            self.left.remove(part)
            before = BESIDE if part.is_beside else self.fixed
            self.running.append(Run(self.progress, self.tree, self.logs, before, part.names))

    def run(self) -> None:
        """Waits for the end of all runs, with a line for each crate that is proved."""
        while self.running:
            self.running = [it for it in self.running if not it.look()]
            self.progress.settle()
            if self.left and self.late.intersection(self.progress.kept):
                # (an earlier run came so far: what is left is too little for several)
                end([it.child for it in self.running])
                self.running, self.left = [], [WHOLE]
            self.begin()
            self.progress.wait(POLL_SECONDS)
        self.progress.settle()
        self.progress.settle()
