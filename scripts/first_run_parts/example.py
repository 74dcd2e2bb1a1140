"""The session that README shows: up to its first answers of mwserve by unproved builds, and all of it by the proved programs.

Used by: scripts/first-run. It reads the commands and answers in README: a command is run by `sh`, and has to answer what is below it there.
"""
import os
import shlex
import subprocess
import sys
import time
from pathlib import Path
from typing import List, NamedTuple, Sequence

from . import machine
from .children import Child, end
from .crates import Crate
from .copies import copy_sources

README = Path(__file__).resolve().parent.parent.parent / "README.md"
HEADING = "\n## A session by hand\n"
AGAIN = "OK 2\nNO 0 2\nVAL 2\n"
"""What is answered to the first script once more, behind the session."""
OTHERWISE = "the example answers something else than README says"
MEMORY_OF_TWO = 5_000_000_000
"""With less free memory than this the two trials run one after the other."""
POLL_SECONDS = 0.1


class Differs(Exception):
    """The example answers something else than README says."""


class Step(NamedTuple):
    """A command of the session, and what is answered."""
    command: str
    answer: str


def session() -> List[Step]:
    """README's commands: mwinit makes the file, the tenants file and a script are written, mwserve plays it; then another script."""
    _, *commands = README.read_text(encoding="utf-8").partition(HEADING)[2].partition("\n## ")[0].split("\n    $ ")
    steps = []
    for command, *answer in (text.split("\n\n")[0].splitlines() for text in commands):
        steps.append(Step(command, "".join(f"{line[4:]}\n" for line in answer)))
    if len(steps) < 4:
        raise Differs(f"README has no session below '{HEADING.strip()}'")
    return steps


def show(step: Step) -> None:
    """Prints a command."""
    print(f"$ {step.command}", flush=True)


class Trial:
    """The beginning of the session by `rt try`, which runs a program in a folder of its own: so files are named with their whole paths."""

    def __init__(self, folder: Path, crates: Sequence[Crate]):
        self.tree, self.folder, self.children = folder / "tree", folder / "try", []
        copy_sources(crates, self.tree)
        self.folder.mkdir()
        self.file = str(self.folder / "t.mw")
        self.init, self.tenants, self.script, self.serve, *_ = session()
        for step in (self.tenants, self.script):
            subprocess.run(["sh", "-c", step.command.replace("t.mw", self.file)], cwd=self.folder, check=True)

    def begin(self, name: str, *words: str) -> Child:
        """Begins to build and run a program."""
        child = Child(["rt", "try", "--", *words], self.tree / "crates" / name, self.folder, name)
        self.children.append(child)
        return child

    def begin_serve(self) -> Child:
        """Begins mwserve."""
        return self.begin("mwserve", "--tenants", str(self.folder / "tenants"), "--script", str(self.folder / "script"))

    def run(self) -> None:
        """Runs and prints the session. Both programs are built side by side where there is memory for two."""
        try:
            side_by_side = machine.free_memory() >= MEMORY_OF_TWO
            _, _, *sizes = shlex.split(self.init.command, comments=True)
            init = self.begin("mwinit", self.file, *sizes)
            serve = self.begin_serve() if side_by_side else None
            show(self.init)
            self.answer(init, self.init.answer)
            serve = serve or self.begin_serve()
            for step in (self.tenants, self.script, self.serve):
                show(step)
            wait(serve)
            if side_by_side and serve.status() == 0 and serve.answer() != self.serve.answer:
                # (mwserve was built first, and looked for the file before mwinit had made it)
                serve = self.begin_serve()
            self.answer(serve, self.serve.answer)
        finally:
            end(self.children)

    def answer(self, child: Child, wanted: str) -> None:
        """Prints what a program answered, once it has ended."""
        wait(child)
        print(child.answer(), end="", flush=True)
        if child.status() or child.answer() != wanted:
            print(child.log(), end="", file=sys.stderr, flush=True)
            raise Differs(f"rt try ended with status {child.status()}" if child.status() else OTHERWISE)


def wait(child: Child) -> None:
    """Waits until a child has ended."""
    while not child.has_ended():
        time.sleep(POLL_SECONDS)


def run_program(words: Sequence[str], folder: Path, programs: Sequence[Path] = ()) -> str:
    """Runs a command beside these programs, and prints what it answers."""
    path = os.pathsep.join([*(str(program.parent) for program in programs), os.environ.get("PATH", os.defpath)])
    ran = subprocess.run(words, cwd=folder, env={**os.environ, "PATH": path}, stdin=subprocess.DEVNULL, stdout=subprocess.PIPE)
    text = ran.stdout.decode(errors="replace")
    print(text, end="", flush=True)
    if ran.returncode:
        raise Differs(f"{words[-1]} ended with status {ran.returncode}")
    return text


def run_proved(programs: Sequence[Path], folder: Path) -> None:
    """Runs and prints the session by the proved programs, and its first script again."""
    def run(steps: Sequence[Step]) -> bool:
        is_so = True
        for step in steps:
            show(step)
            is_so &= run_program(["sh", "-c", step.command], folder, programs) == step.answer
        return is_so

    _, _, script, serve, *_ = steps = session()
    is_so = run(steps)
    print("\n# the first script again", flush=True)
    if not run([script, Step(serve.command, AGAIN)]) or not is_so:
        raise Differs(OTHERWISE)
