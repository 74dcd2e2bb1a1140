"""Gives what a row of a table says to a built program, and compares what comes.

Used by: scripts/check-texts.
"""
import contextlib
import fcntl
import os
import re
import resource
import subprocess
import threading
from pathlib import Path
from typing import Any, Iterator, List, Optional

from lib.checks import BUILT, PATIENCE, Ended, environment_with, limiting, need, preloaded, program
from soak_parts.layout import FIRST, empty, opened_file
from .tables import Malformed, Row, text_of

BASES = {"new": empty(FIRST, 2, 2), "opened": opened_file(2, 2), "": b""}
"""Files of a tenant, of 2 words and 2 places: before the first opening, and after it; and an empty file."""
ANYTHING = "..."
BYTES = re.compile(r"(\d+) bytes")


def changed(base: bytes, changes: str) -> bytes:
    """A file with bytes changed: `AT=BYTE`, with spaces between."""
    data = bytearray(base)
    for at, byte in (map(int, change.split("=")) for change in changes.split()):
        data[at] = byte
    return bytes(data)


def words_of(row: Row) -> List[str]:
    """The words of a row's command line, as they are told."""
    return [text_of(word) for word in row.settings["run"].split()]


def make_files(row: Row, folder: Path) -> None:
    """Makes the files that a row names."""
    base = row.settings["base"]
    for word in words_of(row):
        if word.startswith("@"):
            (folder / word[1:]).write_bytes(changed(BASES[base], row.given) if base else row.given.encode())
    for word in row.settings["beside"].split():
        name, _, base = word.partition(":")
        (folder / name).write_bytes(BASES[base])


@contextlib.contextmanager
def held(name: str, folder: Path) -> Iterator[None]:
    """Has a file locked, as a server has it, if one is named."""
    with open(folder / name) if name else contextlib.nullcontext() as file:
        if file:
            fcntl.flock(file, fcntl.LOCK_EX | fcntl.LOCK_NB)
        yield


@contextlib.contextmanager
def output_of(kind: str, folder: Path) -> Iterator[Any]:
    """Where a program prints to: a pipe, a file, a pipe that nobody reads, or the device of this path."""
    if not kind:
        yield subprocess.PIPE
    elif kind == "closed pipe":
        reading, writing = os.pipe()
        os.close(reading)
        with open(writing, "wb") as file:
            yield file
    else:
        with open(folder / "printed" if BYTES.fullmatch(kind) else kind, "wb") as file:
            yield file


def fits(found: str, wanted: str) -> bool:
    """Whether this text is the wanted one, in which `...` is any text that isn't empty."""
    return re.fullmatch(".+".join(map(re.escape, wanted.split(ANYTHING))), found, re.S) is not None


class Player:
    """Plays rows, each in a folder of its own, by the built programs or those of another folder."""

    def __init__(self, programs: Optional[Path], folder: Path) -> None:
        self.programs, self.folder = programs, folder
        self.lock = threading.Lock()
        self.count = 0
        self.preload = ""

    def command_of(self, row: Row) -> List[str]:
        """The command line of a row."""
        words = [given for word in words_of(row) for given in (row.given.split() if word == ANYTHING else [word])]
        if not words or words[0] not in BUILT:
            raise Malformed(f"{row.place}: `run` begins with no program")
        return [str(program(words[0], self.programs)), *(word.lstrip("@") for word in words[1:])]

    def new_folder(self) -> Path:
        """A new folder for a row."""
        with self.lock:
            self.count += 1
            folder = self.folder / str(self.count)
        folder.mkdir()
        return folder

    def failing_reads(self) -> str:
        """The library that has reads fail, which is made when the first row wants it."""
        with self.lock:
            if not self.preload:
                need("cc")
                self.preload = str(preloaded("text_parts/failing_reads.c", self.folder))
            return self.preload

    def play(self, row: Row) -> Ended:
        """What the program gives of a row."""
        folder, kind = self.new_folder(), row.settings["output"]
        make_files(row, folder)
        most = BYTES.fullmatch(kind)
        limits = [(resource.RLIMIT_FSIZE, int(most[1]))] if most else []
        environment = environment_with({"LD_PRELOAD": self.failing_reads()} if row.settings["reads"] else {})
        with held(row.settings["held"], folder), output_of(kind, folder) as out:
            ended = subprocess.run(self.command_of(row), cwd=folder, env=environment, stdin=subprocess.DEVNULL, stdout=out, stderr=subprocess.PIPE,
                                   timeout=PATIENCE, preexec_fn=limiting(limits) if limits else None)
        printed = (folder / "printed").read_bytes() if most else ended.stdout or b""
        return Ended(ended.returncode, printed.decode(errors="backslashreplace"), ended.stderr.decode(errors="backslashreplace"))

    def fault_of(self, row: Row) -> str:
        """What a row gives that it must not; nothing if it gives just what it says."""
        try:
            found = self.play(row)
        except subprocess.TimeoutExpired:
            return f"{row.place}: no end within {PATIENCE} seconds"
        told = [] if found.status == row.status else [f"status {found.status} in place of {row.status}"]
        told += [f"{name} {it!r} in place of {wanted!r}" for name, it, wanted in (("out", found.out, row.out), ("err", found.err, row.err))
                 if not fits(it, wanted)]
        return "\n  ".join([f"{row.place}", *told]) if told else ""
