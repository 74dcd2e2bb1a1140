"""The crates of a repository: what each uses, how long its proof is likely to take, and a sum of its text.

Used by: scripts/bench-table, scripts/build-libraries, scripts/check-wrong-bodies, scripts/first-run, copies.py, course.py, example.py, proving.py, runs.py,
edit_parts/room.py, library_parts/building.py, library_parts/rooms.py. It reads crates.txt. proving.py and building.py keep the sums in
out/: if they are made otherwise, each crate is given to `rt` again.
"""
import hashlib
from dataclasses import dataclass
from pathlib import Path
from typing import Dict, List, Sequence, Tuple

PARTS = ("src", "specs", "proofs")
"""The folders of a crate that a proof reads."""
FIXED_WORK = 250
"""What every crate costs, however short it is: the libraries are loaded. In lines of source."""
PROOF_LINES_A_SOURCE_LINE = 20
"""So many lines of `specs/` and `proofs/` cost as much time as one line of source. `scripts/gate-cost` tells the times of crates."""


class UnknownCrate(Exception):
    """crates.txt has no such crate, or a crate of it has no folder."""


@dataclass(frozen=True)
class Crate:
    """A crate: its name, its line of crates.txt, its folder, the crates of this repository that it uses, and its libraries of the kit."""
    name: str
    line: str
    folder: Path
    uses: Tuple[str, ...]
    of_kit: Tuple[str, ...]
    source_lines: int
    proof_lines: int

    @property
    def is_program(self) -> bool:
        """Whether it has a `main`."""
        return (self.folder / "src" / "main.rt").is_file()

    @property
    def work(self) -> int:
        """How much work its proof is, in lines of source."""
        return FIXED_WORK + self.source_lines + self.proof_lines // PROOF_LINES_A_SOURCE_LINE


def files_of(folder: Path) -> List[Path]:
    """The files of a crate's folder that its proof reads."""
    return sorted(path for part in PARTS for path in (folder / part).rglob("*") if path.is_file())


def lines_of(top: Path) -> Dict[str, str]:
    """The lines of crates.txt, by their crates."""
    named = {}
    for line in (top / "crates.txt").read_text(encoding="utf-8").splitlines():
        line = line.partition("#")[0].strip()
        left, colon, _ = line.partition(":")
        if colon and left.split():
            named[left.split()[0]] = line
    return named


def needed_for(top: Path, programs: Sequence[str]) -> Dict[str, Crate]:
    """These programs and the crates that they stand on, each after those that it uses."""
    lines = lines_of(top)
    found: Dict[str, Crate] = {}

    def visit(name: str) -> None:
        if name in found:
            return
        folder = top / "crates" / name
        if name not in lines or not (folder / "src").is_dir():
            raise UnknownCrate(name)
        named = lines[name].partition(":")[2].split()
        uses, of_kit = (tuple(it for it in named if (it in lines) == is_own) for is_own in (True, False))
        for it in uses:
            visit(it)
        found[name] = Crate(name, lines[name], folder, uses, of_kit, lines_in(folder, ".rt"), lines_in(folder, ".antt"))

    for program in programs:
        visit(program)
    return found


def lines_in(folder: Path, suffix: str) -> int:
    """How many lines the files of a crate have whose names end so."""
    return sum(path.read_bytes().count(b"\n") for path in files_of(folder) if path.suffix == suffix)


def below(crates: Dict[str, Crate], name: str) -> List[Crate]:
    """All crates that one stands on, each after those that it uses."""
    found: Dict[str, Crate] = {}

    def visit(used: str) -> None:
        for it in crates[used].uses:
            if it not in found:
                visit(it)
                found[it] = crates[it]

    visit(name)
    return list(found.values())


def own_sum(crate: Crate) -> str:
    """A sum of the crate's own text: all that its own proof reads, name by name."""
    total = hashlib.sha256(crate.line.encode())
    for path in files_of(crate.folder):
        data = path.read_bytes()
        total.update(f"{path.relative_to(crate.folder)} {len(data)}\n".encode() + data)
    return total.hexdigest()


def sums_of(crates: Dict[str, Crate], kit: str) -> Dict[str, str]:
    """For each crate a sum of the kit, of its own text and of the text of all below it."""
    sums: Dict[str, str] = {}
    for name, crate in crates.items():
        parts = [kit, own_sum(crate), *[sums[it] for it in crate.uses]]
        sums[name] = hashlib.sha256("\n".join(parts).encode()).hexdigest()
    return sums
