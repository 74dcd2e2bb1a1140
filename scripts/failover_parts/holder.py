"""A program that has one file open, on a host, and does with it what it is told, a line at a time: `lock`, `write`, `read`, `loop`. It answers a line
for each: `ok` or `no`, the seconds that it took, and what was read or the error's name; but none for `loop`, with which it writes until it is killed.

Used by: scripts/check-volume.
"""
import errno
import fcntl
import itertools
import os
import subprocess
import sys
import time
from pathlib import Path
from typing import NamedTuple

SIZE = 264
"""As large as the record of a change."""


class Answer(NamedTuple):
    """What a holder answered: whether it went well, how long it took, and what was read, or the error."""
    is_well: bool
    seconds: float
    text: str


class Holder:
    """Such a program on a host, told by this one."""

    def __init__(self, words: "list[str]", path: str):
        self.process = subprocess.Popen([*words, sys.executable, str(Path(__file__).resolve()), path], stdin=subprocess.PIPE, stdout=subprocess.PIPE, text=True)

    def tell(self, line: str) -> None:
        assert self.process.stdin
        self.process.stdin.write(line + "\n")
        self.process.stdin.flush()

    def ask(self, line: str) -> Answer:
        self.tell(line)
        assert self.process.stdout
        words = self.process.stdout.readline().split(" ", 2)
        if len(words) < 3:
            return Answer(False, 0.0, "it has ended")
        return Answer(words[0] == "ok", float(words[1]), words[2].rstrip("\n"))

    def end(self) -> None:
        self.process.kill()
        self.process.wait()


def do(descriptor: int, word: str, number: int) -> str:
    """One command; what was read."""
    if word == "lock":
        fcntl.flock(descriptor, fcntl.LOCK_EX | fcntl.LOCK_NB)
    elif word in ("write", "loop"):
        for each in itertools.count(number) if word == "loop" else [number]:
            os.pwrite(descriptor, f"{each}".encode().ljust(SIZE), 0)
            os.fdatasync(descriptor)
    return os.pread(descriptor, SIZE, 0).decode().strip() if word == "read" else "-"


def main() -> None:
    descriptor = os.open(sys.argv[1], os.O_RDWR | os.O_CREAT, 0o600)
    for line in sys.stdin:
        word, _, number = line.strip().partition(" ")
        begun = time.monotonic()
        try:
            text, well = do(descriptor, word, int(number or 0)), "ok"
        except OSError as error:
            text, well = errno.errorcode.get(error.errno or 0, str(error)), "no"
        print(well, f"{time.monotonic() - begun:.6f}", text or "-", flush=True)


if __name__ == "__main__":
    main()
