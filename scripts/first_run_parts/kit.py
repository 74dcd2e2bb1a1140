"""The Rattle kit that is installed here.

Used by: scripts/bench-table, scripts/build-libraries, scripts/check-wrong-bodies, scripts/first-run, proving.py, library_parts/building.py.
"""
import shutil
import subprocess
from pathlib import Path


class NoKit(Exception):
    """There is no kit, or its command fails."""


def find_kit() -> Path:
    """The folder of the Rattle kit."""
    found = shutil.which("rt")
    if not found:
        raise NoKit("there is no command rt here: install the Rattle kit first (README.md)")
    return Path(found).resolve().parent.parent


def kit_line() -> str:
    """The kit's line, by which it is known."""
    ran = subprocess.run(["rt", "version"], stdout=subprocess.PIPE, stderr=subprocess.STDOUT)
    if ran.returncode:
        raise NoKit(f"rt version failed: {ran.stdout.decode(errors='replace').strip()}")
    return ran.stdout.decode(errors="replace")
