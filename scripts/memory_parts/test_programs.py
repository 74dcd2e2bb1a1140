"""Runs tests that `rt ci` has built with each request for memory refused in turn: of what no program reaches by itself.

A test that is refused memory passes, or it fails because it was told that memory is out. A wrong result, a test that stops
elsewhere, and one that breaks down are found. Used by: scripts/fail-each-allocation. Tests are named here by their crate and the
beginning of their names: name them anew if they move.
"""
import os
import re
from pathlib import Path
from typing import List

from .running import Ended, Refusing, Wrong

TESTS = (
    ("mw_words_tests", "lone_tests::", "a store alone"),
    ("mw_words_tests", "frame_tests::", "a feed"),
    ("mw_world_trials", "stale_helper_tests::", "a world, its run and its marks"),
)
TOLD = re.compile(r"\bAllocError\b|\bAllocFailed\b|\bErr\(Memory\)|: Memory$", re.MULTILINE)
"""What a test says that was told that memory is out: the error itself, or the answer that it compares."""
FAILED, STOPPED = 101, -6
"""The statuses of a test whose result is an error, and of one that stops."""


def names_of(refusing: Refusing, program: Path, folder: Path, begin: str) -> List[str]:
    """The tests of a program whose names begin so; Wrong if there is none."""
    lines = refusing.run([program, "--list"], folder, 0).out.splitlines()
    names = [line[:-len(": test")] for line in lines if line.startswith(begin) and line.endswith(": test")]
    if not names:
        raise Wrong(f"{program.name} has no test {begin}..")
    return names


def judge(name: str, number: int, ended: Ended) -> None:
    """Wrong if a test was refused memory and ended in another way than it may."""
    is_told = ended.status in (FAILED, STOPPED) and TOLD.search(ended.err) is not None
    if ended.status != 0 and not (ended.refused and is_told):
        raise Wrong(f"test {name}, request {number} refused: {ended}")


def refused_in(refusing: Refusing, program: Path, folder: Path, name: str) -> int:
    """How many requests of a test were refused, each in a run of its own."""
    number = 1
    while True:
        ended = refusing.run([program, name], folder, number)
        judge(name, number, ended)
        if not ended.refused:
            return number - 1
        number += 1


def try_tests(refusing: Refusing, folder: Path, top: Path) -> None:
    """All of these tests; Wrong at the first that ends otherwise than it may, or if one isn't built."""
    for crate, begin, what in TESTS:
        program = top / "crates" / crate / "out" / f"{crate}_tests"
        if not os.access(program, os.X_OK):
            raise Wrong(f"{program.relative_to(top)} is not built: run rt ci first")
        names = names_of(refusing, program, folder, begin)
        count = sum(refused_in(refusing, program, folder, name) for name in names)
        if count == 0:
            raise Wrong(f"{program.name}: no request of a test {begin}.. was refused")
        print(f"{what}, {len(names)} tests: {count} requests for memory refused, each in a run of its own", flush=True)
