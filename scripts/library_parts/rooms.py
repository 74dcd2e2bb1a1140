"""Rooms: copies of a crate and of those below it, in which `rt` works.

`rt` lets one run at a time into a crate and into the crates below it, so in one tree two crates over a common one are
proved one after the other. In a room each is proved by itself. A room has the sources, links to the libraries that were
built below, and the crate's own `out/`, which goes back to the tree at the end. While the crate is in its room, the lock
that `rt` itself takes is held in the tree.

Used by: building.py, edit_parts/room.py. The locks are those that `rt` takes.
"""
import fcntl
import os
import shutil
from pathlib import Path
from typing import List, Optional, Sequence

from first_run_parts.copies import copy_sources
from first_run_parts.crates import Crate

def link_or_copy(source: str, to: str) -> None:
    """Makes a second name of a file, or a copy where the file system has no second names."""
    try:
        os.link(source, to)
    except OSError:
        shutil.copyfile(source, to)


def link_libraries(crates: Sequence[Crate], to: Path) -> None:
    """Gives the copies of these crates the libraries that were built of them."""
    for it in crates:
        built = it.folder / "out" / "rlib"
        if built.is_dir():
            shutil.copytree(built, to / "crates" / it.name / "out" / "rlib", copy_function=link_or_copy)


class Locks:
    """The locks that `rt` takes of crates' folders: of one crate alone, of those below it beside others that read."""

    def __init__(self) -> None:
        self.held: List[int] = []

    def take(self, folder: Path, how: int) -> bool:
        """Whether the folder could be locked at once."""
        it = os.open(folder, os.O_RDONLY)
        self.held.append(it)
        try:
            fcntl.flock(it, how | fcntl.LOCK_NB)
        except BlockingIOError:
            return False
        except OSError:
            # (some file systems have no locks, and rt goes on there too)
            pass
        return True

    def release(self) -> None:
        """Lets all go."""
        while self.held:
            os.close(self.held.pop())


class Room:
    """A crate's room. The crate is locked in the tree until the room is given back."""

    def __init__(self, place: Path, crate: Crate, below: Sequence[Crate]):
        self.folder, self.crate, self.below = place / crate.name, crate, below
        self.locks = Locks()

    def open(self) -> Optional[Path]:
        """Makes the room: the sources, the libraries below and the crate's own `out/`. Or returns the folder that another rt works in."""
        readers = Locks()
        try:
            for it in self.below:
                if not readers.take(it.folder, fcntl.LOCK_SH):
                    return it.folder
            if not self.locks.take(self.crate.folder, fcntl.LOCK_EX):
                self.locks.release()
                return self.crate.folder
            self.give_back(is_left=True)
            copy_sources([*self.below, self.crate], self.folder)
            link_libraries(self.below, self.folder)
            if (self.crate.folder / "out").is_dir():
                shutil.move(str(self.crate.folder / "out"), str(self.working_folder() / "out"))
        finally:
            readers.release()
        return None

    def working_folder(self) -> Path:
        """Where `rt` is called."""
        return self.folder / "crates" / self.crate.name

    def give_back(self, is_left: bool = False) -> None:
        """Moves the crate's `out/` into the tree, and removes the room. What a killed run left gives way to what was made since."""
        made, kept = self.working_folder() / "out", self.crate.folder / "out"
        if made.is_dir() and not (is_left and kept.exists()):
            shutil.rmtree(kept, ignore_errors=True)
            shutil.move(str(made), str(kept))
        shutil.rmtree(self.folder, ignore_errors=True)

    def close(self) -> None:
        """Gives the room back, and lets others into the crate."""
        try:
            self.give_back()
        finally:
            self.locks.release()
