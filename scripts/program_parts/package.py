"""The client in Python as a package: that pip installs it without a network, by the commands of docs/CLIENTS.md, and that its types
are right.

Used by: scripts/check-programs, but for --gate: this takes half a minute, and needs more than the machine surely has.
"""
import functools
import re
import shutil
import sys

from .common import TOP, has, ran, same, well

import mondlexi  # noqa: E402

SOURCE = TOP / "clients/python"
PAGE = TOP / "docs/CLIENTS.md"
OFFLINE = ("--no-index", "--no-build-isolation")
"""What pip needs without a network."""
NEEDED = """
import setuptools, ensurepip, pip, sys
major, minor = (int(part) for part in setuptools.__version__.split(".")[:2])
if (major, minor) < (70, 1):
    import wheel
sys.exit(major < 61)
"""
"""What a Python needs that builds the package: newer setuptools make wheels themselves."""


@functools.lru_cache(maxsize=None)
def builder():
    """A Python that can build the package; None if there is none."""
    for python in (sys.executable, "/usr/bin/python3"):
        if has(python) and ran(python, "-c", NEEDED)[0] == 0:
            return python
    return None


def try_package(folder):
    """pip installs it, and makes a wheel that has all of its files."""
    folder.mkdir()
    source = folder / "clients/python"
    shutil.copytree(SOURCE, source, ignore=shutil.ignore_patterns("__pycache__", "build", "*.egg-info"))
    typed = [line.split() for line in re.findall(r"^ {4}\$ ([^#\n]*)", PAGE.read_text(), re.MULTILINE)]
    same([words[:2] for words in typed], [["python3", "-m"], ["env/bin/pip", "install"]], f"the commands of {PAGE.name}")
    well(builder(), *typed[0][1:], at=folder)
    well(*typed[1], *OFFLINE, at=folder)
    told = well("env/bin/python3", "-W", "error", "-m", "mondlexi", "--version", at=folder)
    same(told, f"mondlexi {mondlexi.__version__}\n", "the version of the package that was installed")
    same(well("env/bin/mondlexi", "--version", at=folder), told, "the version of the command that was installed")
    well("env/bin/pip", "wheel", *OFFLINE, "-w", "wheels", source, at=folder)
    wheel = folder / f"wheels/mondlexi-{mondlexi.__version__}-py3-none-any.whl"
    listed = well(builder(), "-m", "zipfile", "-l", wheel, at=folder)
    found = sorted(line.split()[0] for line in listed.splitlines() if line.startswith("mondlexi/"))
    files = [path for path in SOURCE.glob("mondlexi/**/*") if path.is_file() and "__pycache__" not in path.parts]
    same(found, sorted(str(path.relative_to(SOURCE)) for path in files), "the files of the wheel")
    print("the package: pip installs it, and makes a wheel")


def try_types():
    """mypy finds nothing."""
    well("mypy", "--cache-dir", "/dev/null", at=SOURCE)
    print("the client's types: mypy --strict finds nothing")
