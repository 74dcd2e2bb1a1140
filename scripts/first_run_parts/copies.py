"""Copies of crates, in which `rt` works beside this checkout.

Used by: scripts/build-libraries, scripts/check-wrong-bodies, example.py, proving.py, edit_parts/room.py, library_parts/rooms.py.
"""
import os
import shutil
import tempfile
from pathlib import Path
from typing import Sequence, Tuple

from .crates import Crate

LEFT_OUT = shutil.ignore_patterns("out", "must-fail", "__pycache__")


def place_of_copies(top: Path) -> Tuple[Path, bool]:
    """Where copies are made, and whether that place is to be removed at the end: in .git, beside the tree, or else in a new folder."""
    git = top / ".git"
    if git.is_file():
        git = top / git.read_text(encoding="utf-8").partition("gitdir:")[2].strip()
    if git.is_dir() and os.access(git, os.W_OK):
        return git / "first-run", False
    return Path(tempfile.mkdtemp(prefix="first-run-")), True


def copy_sources(crates: Sequence[Crate], to: Path) -> None:
    """Copies these crates, without what was built of them, and their lines of crates.txt."""
    (to / "crates").mkdir(parents=True)
    for it in crates:
        shutil.copytree(it.folder, to / "crates" / it.name, ignore=LEFT_OUT)
    (to / "crates.txt").write_text("".join(f"{it.line}\n" for it in crates), encoding="utf-8")
