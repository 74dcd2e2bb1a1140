"""Runs of `rt ci`, and what they say of the crates that they prove.

Used by: scripts/first-run, course.py, proving.py. It reads lines of the installed kit's `rt ci`: look at them again with another kit.
"""
import re
import sys
import time
from pathlib import Path
from typing import Dict, List, Sequence

from .children import Child
from .crates import Crate

SILENCE = 60.0
"""After so many seconds without a line, a line says how many crates are left."""
LAST_LINES = 30
"""So many lines are shown of a run that failed behind its proofs."""
BEGINS = re.compile(r"== \w+$")
ENDS = re.compile(r"rt: (\w+) (proved|NOT PROVED|is kept: .*)$")
NOTE = "rt: note: "
PROVED = re.compile(r"logic=proved functions=(\d+)")


class NotProved(Exception):
    """A crate was refused, or a program doesn't run. What `rt ci` said of it has been shown."""


def told(seconds: float) -> str:
    """A time in words."""
    whole = int(seconds + 0.5)
    return f"{whole} s" if whole < 100 else f"{whole // 60} min {whole % 60} s" if whole < 600 else f"{(whole + 30) // 60} min"


class Progress:
    """Which of these crates are proved, by whatever run, and a line for each."""

    def __init__(self, crates: Dict[str, Crate]):
        self.crates, self.left = crates, set(crates)
        self.kept: List[str] = []
        # (the crates that runs were given, by the last look and by the one before)
        self.given: List[str] = []
        self.before: List[str] = []
        self.notes: List[str] = []
        self.began = self.last_line = time.monotonic()
        self.proved_work = 0

    def proved(self, name: str, functions: int) -> None:
        """Takes that a crate was proved just now."""
        if name in self.left:
            self.left.remove(name)
            self.proved_work += self.crates[name].work
            self.say(f"{name}: proved, {functions} function{'' if functions == 1 else 's'}; {self.rest()}")

    def is_given(self, name: str) -> None:
        """Takes that a run was given a crate which another one has proved."""
        self.given.append(name)

    def settle(self) -> None:
        """Takes the crates that were given by the last look but one, and that none of these runs has said to have proved: an earlier run
        did. It is called after each look at all runs."""
        for name in self.before:
            if name in self.left:
                self.left.remove(name)
                self.kept.append(name)
                self.say(f"{name}: proved before; {self.rest()}")
        self.before, self.given = self.given, []

    def note(self, line: str) -> None:
        """Prints a note, once, whichever runs have it."""
        if line not in self.notes:
            self.notes.append(line)
            self.say(line)

    def rest(self) -> str:
        """How many crates are left, and a guess of the time by the speed so far."""
        if not self.left:
            return f"none left, after {told(time.monotonic() - self.began)}"
        if not self.proved_work:
            return f"{len(self.left)} left"
        seconds = (time.monotonic() - self.began) * sum(self.crates[it].work for it in self.left) / self.proved_work
        return f"{len(self.left)} left, about {max(1, round(seconds / 60))} min"

    def wait(self, seconds: float) -> None:
        """Waits so long, with a line if none was said for a while."""
        if time.monotonic() - self.last_line >= SILENCE:
            self.say(f"still proving; {self.rest()}")
        time.sleep(seconds)

    def say(self, text: str) -> None:
        """Prints a line at once."""
        self.last_line = time.monotonic()
        print(text, flush=True)


class Run:
    """A run of `rt ci` in the copy `tree`, over these crates and those below them: with no names it is the gate's own."""

    def __init__(self, progress: Progress, tree: Path, logs: Path, before: Sequence[str] = (), names: Sequence[str] = ()):
        self.progress, self.read, self.functions = progress, 0, 0
        self.block: List[str] = []
        # (in CI `rt` takes no names; this isn't the gate)
        self.child = Child(["env", "-u", "CI", *before, "rt", "ci", *names], tree, logs, "-".join(["rt-ci", *names[:1]]))

    def look(self) -> bool:
        """Takes what was said since the last look, and tells whether the run has ended. One that ended badly raises NotProved."""
        has_ended = self.child.has_ended()
        new = self.child.answer()[self.read:]
        whole = new.rfind("\n") + 1
        self.read += whole
        for line in new[:whole].splitlines():
            self.take(line)
        if has_ended and self.child.status():
            print(*self.child.answer().splitlines()[-LAST_LINES:], self.child.log(), sep="\n", file=sys.stderr, flush=True)
            raise NotProved("rt ci failed: its last lines are above")
        return has_ended

    def take(self, line: str) -> None:
        """Takes a line. What is said of a crate comes at once when its proof has ended, and a line with its name is the last."""
        if BEGINS.match(line):
            self.block, self.functions = [], 0
        self.block.append(line)
        if line.startswith(NOTE):
            self.progress.note(line)
        proved, ends = PROVED.match(line), ENDS.match(line)
        if proved:
            self.functions = int(proved[1])
        if not ends:
            return
        if ends[2] == "NOT PROVED":
            print(*self.block, sep="\n", file=sys.stderr, flush=True)
            raise NotProved(f"{ends[1]} is not proved")
        if ends[2] == "proved":
            self.progress.proved(ends[1], self.functions)
        else:
            self.progress.is_given(ends[1])
