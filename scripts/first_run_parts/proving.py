"""Proves and builds programs by the gate's own command, `rt ci`, in a copy of the crates that they stand on.

The copy has these crates alone, and none of their must-fail edits. What `rt ci` proves there it keeps beside the kit, by the sums of
all that the proof has read: a later run of this, or of the gate, need not prove it again, in any checkout on this machine.

Used by: scripts/first-run.
"""
import fcntl
import hashlib
import os
import shutil
from pathlib import Path
from typing import Callable, Dict, Optional, Sequence

from . import machine
from .copies import copy_sources, place_of_copies
from .course import Course, has_room
from .crates import Crate, needed_for, sums_of
from .kit import find_kit, kit_line
from .runs import NotProved

def built(top: Path, name: str) -> Path:
    """The path of a built program."""
    return top / "crates" / name / "out" / name


def record_of(top: Path, name: str) -> Path:
    """The file that says of which texts a program was built, and how it looked then."""
    return built(top, name).parent / "first-run"


def record(top: Path, name: str, sums: Dict[str, str]) -> Optional[str]:
    """What that file has to say of these texts, or None if the program isn't built."""
    program = built(top, name)
    return hashlib.sha256(sums[name].encode() + program.read_bytes()).hexdigest() if program.is_file() else None


def was_built(top: Path, name: str, sums: Dict[str, str]) -> bool:
    """Whether an earlier run built the program of these texts."""
    said = record_of(top, name)
    return said.is_file() and said.read_text(encoding="utf-8") == record(top, name, sums)


class Copies:
    """The copy of the crates, one in a checkout at a time. What a run that was killed left gives way."""

    def __init__(self, top: Path):
        self.top = top
        self.place, self.is_new = place_of_copies(top)
        self.tree = self.place / "programs"

    def __enter__(self) -> "Copies":
        self.place.mkdir(parents=True, exist_ok=True)
        self.lock = open(self.place / "lock", "w", encoding="utf-8")
        try:
            fcntl.flock(self.lock, fcntl.LOCK_EX | fcntl.LOCK_NB)
        except BlockingIOError:
            print(f"waiting for another first-run in {self.top}", flush=True)
            fcntl.flock(self.lock, fcntl.LOCK_EX)
        shutil.rmtree(self.tree, ignore_errors=True)
        return self

    def __exit__(self, *_: object) -> None:
        shutil.rmtree(self.place if self.is_new else self.tree, ignore_errors=True)
        self.lock.close()

    def make(self, crates: Sequence[Crate]) -> None:
        """Copies these crates, as the whole of a repository."""
        copy_sources(crates, self.tree)
        shutil.copyfile(self.top / "HANDLES", self.tree / "HANDLES")
        # (rt asks where a repository has its top)
        (self.tree / ".git").mkdir()

    def give(self, name: str, sums: Dict[str, str]) -> None:
        """Moves a program that was built into the checkout, and notes of which texts. One that runs there goes on."""
        to = built(self.top, name)
        to.parent.mkdir(exist_ok=True)
        new = to.with_suffix(".new")
        shutil.copy(built(self.tree, name), new)
        os.replace(new, to)
        record_of(self.top, name).write_text(record(self.top, name, sums) or "", encoding="utf-8")


def prove(top: Path, programs: Sequence[str], logs: Path, jobs: Optional[int], meanwhile: Callable[[], None]) -> None:
    """Proves and builds these programs, but for those that an earlier run built of the same texts. `meanwhile` is called once the proofs
    have begun."""
    crates = needed_for(top, programs)
    libraries = [it for it in programs if not crates[it].is_program]
    if libraries:
        raise NotProved(f"{libraries[0]} is no program: `rt ci {libraries[0]}` proves a library")
    kit = kit_line()
    sums = sums_of(crates, kit)
    left = [it for it in programs if not was_built(top, it, sums)]
    if not left:
        meanwhile()
    for it in programs:
        if it not in left:
            print(f"{it}: proved and built before", flush=True)
    if not left:
        return
    with Copies(top) as copies:
        copies.make(list(needed_for(top, left).values()))
        # (what is proved are the texts that were copied)
        copied = needed_for(copies.tree, left)
        with Course(copied, copies.tree, logs, jobs, has_room(find_kit())) as course:
            meanwhile()
            print(f"{len(copied)} crates to prove for {' and '.join(left)} ({machine.processors()} processors,"
                  f" {machine.free_memory() / 1e9:.0f} GB of memory free).", flush=True)
            course.run()
        sums = sums_of(copied, kit)
        for it in left:
            copies.give(it, sums)
