"""A copy of a crate, in which `rt check` reads wrong bodies over what the crate's own check kept.

Used by: scripts/check-wrong-bodies, rounds.py. It takes the locks of crates' folders as `rt` does (library_parts/rooms.py).
"""
import fcntl
import shutil
import time
from pathlib import Path
from typing import Dict, Sequence

from first_run_parts.children import Child, end
from first_run_parts.copies import copy_sources
from first_run_parts.crates import PARTS, Crate
from library_parts.rooms import Locks, link_libraries

from .reports import Report, read_report

POLL_SECONDS = 0.1
KEPT = "out/incremental"
"""Where `rt check` keeps what it has proved, in the crate's folder."""


def run_check(folder: Path, logs: Path, name: str) -> Report:
    """Runs `rt check` in a crate's folder, and reads what it prints. If a signal stops this, the check is ended first."""
    child = Child(["rt", "check"], folder, logs, name)
    try:
        while not child.has_ended():
            for line in child.waiting_lines():
                print(f"{name}: {line}", flush=True)
            time.sleep(POLL_SECONDS)
    finally:
        end([child])
    return read_report(child.log() + child.answer())


class Room:
    """The copy. Its libraries are second names of the files that were built; what was kept is a copy, and grows."""

    def __init__(self, folder: Path, crate: Crate, below: Sequence[Crate], logs: Path):
        self.crate, self.logs = crate, logs
        self.unedited, self.folder = folder / "unedited", folder / "tree" / "crates" / crate.name
        readers = Locks()
        try:
            self.wait_for(readers, [*below, crate])
            copy_sources([*below, crate], folder / "tree")
            link_libraries(below, folder / "tree")
            copy_parts(self.folder, self.unedited)
            if (crate.folder / KEPT).is_dir():
                shutil.copytree(crate.folder / KEPT, self.folder / KEPT)
        finally:
            readers.release()

    def wait_for(self, readers: Locks, crates: Sequence[Crate]) -> None:
        """Waits until no `rt` changes what is copied."""
        for it in crates:
            told = False
            while not readers.take(it.folder, fcntl.LOCK_SH):
                if not told:
                    print(f"{self.crate.name}: waiting for another rt to finish in {it.folder}", flush=True)
                told = True
                time.sleep(POLL_SECONDS)

    def check(self, texts: Dict[str, str]) -> Report:
        """Checks the crate with these texts in place of its own, by their paths in it."""
        copy_parts(self.unedited, self.folder)
        for path, text in texts.items():
            (self.folder / path).write_text(text, encoding="utf-8")
        return run_check(self.folder, self.logs, self.crate.name)


def copy_parts(crate: Path, to: Path) -> None:
    """Puts what a crate's proof reads in the place of what was there."""
    for part in PARTS:
        shutil.rmtree(to / part, ignore_errors=True)
        if (crate / part).is_dir():
            shutil.copytree(crate / part, to / part)
