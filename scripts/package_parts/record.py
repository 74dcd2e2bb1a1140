"""The record that the gate leaves of what it tried: the commit, the checksum of each program, and its last line. And what packages
call a commit.

Used by: scripts/check-programs, which writes the record as the last part of .ci/run; scripts/package, which packs nothing else;
program_parts/recorded.py, which tries all.
"""
import hashlib
import subprocess
from datetime import datetime, timezone
from pathlib import Path
from typing import Dict, Iterable, List

TOP = Path(__file__).resolve().parent.parent.parent
RECORD = TOP / "out/gate-record"


class NoRecord(Exception):
    """There is no record of these programs. The text says what is missing."""


def git(*words: str) -> str:
    """What git prints; nothing if it fails or isn't there."""
    try:
        ran = subprocess.run(["git", *words], cwd=TOP, stdin=subprocess.DEVNULL, stdout=subprocess.PIPE, stderr=subprocess.DEVNULL, check=False)
    except OSError:
        return ""
    return ran.stdout.decode(errors="replace").strip() if ran.returncode == 0 else ""


def has_changes() -> bool:
    """Whether a file differs from the commit, or git doesn't tell. If none differs it tells the branch alone."""
    return len(git("status", "--porcelain", "--branch", "--untracked-files=no").splitlines()) != 1


def base_of(version: str) -> str:
    """The last released version: what the programs tell, without `+unreleased`."""
    return version.partition("+")[0]


def release_of(version: str) -> str:
    """What the packages call this commit, whose programs tell this version: the version, if the tag `vVERSION` is on the commit and they
    don't tell `+unreleased`; else the last version with `+unreleased`, moment and commit."""
    base = base_of(version)
    if version == base and f"v{base}" in git("tag", "--points-at", "HEAD").split() and not has_changes():
        return base
    moment, commit = git("log", "-1", "--format=%ct %H").split()
    return f"{base}+unreleased.{datetime.fromtimestamp(int(moment), timezone.utc):%Y%m%d%H%M%S}.{commit[:8]}" + (".changed" if has_changes() else "")


def sum_of(path: Path) -> str:
    """The SHA-256 of a file."""
    return hashlib.sha256(path.read_bytes()).hexdigest()


def forget() -> None:
    """Removes the record of an earlier run."""
    if RECORD.exists():
        RECORD.unlink()


def write(tried: str, programs: Dict[str, Path], line: str) -> str:
    """Writes the record of a gate that passed. `tried` is what git told of the commit and of files that differ from it, before the gate
    proved anything. Gives why there is no record; nothing if there is one."""
    if tried != git("rev-parse", "HEAD") or not tried:
        return "files differ from the commit, or there is another one"
    if has_changes():
        return "files were changed meanwhile"
    RECORD.parent.mkdir(exist_ok=True)
    RECORD.write_text("".join([f"commit {tried}\n", *(f"program {name} {sum_of(path)}\n" for name, path in programs.items()), f"gate {line}\n"]))
    return ""


def lines_of(kind: str) -> List[List[str]]:
    """The lines of the record that begin with this word, without it, as words."""
    return [line.split()[1:] for line in RECORD.read_text().splitlines() if line.split()[:1] == [kind]]


def recorded_line(programs: Dict[str, Path], names: Iterable[str]) -> str:
    """The last line of the gate that tried these very programs, of this very commit. Else NoRecord."""
    if not RECORD.exists():
        raise NoRecord("no gate has left a record here: run .ci/run first, on a commit from which no file differs")
    commit = git("rev-parse", "HEAD")
    if lines_of("commit") != [[commit]]:
        raise NoRecord(f"the gate's record is of another commit than {commit[:8]}: run .ci/run again")
    if has_changes():
        raise NoRecord("files differ from the commit that the gate tried: commit them, and run .ci/run again")
    sums = {name: it for name, it in lines_of("program")}
    other = [name for name in names if sums.get(name) != sum_of(programs[name])]
    if other:
        raise NoRecord(f"{', '.join(other)}: not the program that the gate tried: run .ci/run again")
    line = " ".join(lines_of("gate")[0])
    if not line.endswith(" passed, 0 failed"):
        raise NoRecord(f"the gate didn't pass: {line}")
    return line
