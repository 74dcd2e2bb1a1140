"""The record that the gate leaves for scripts/package: what is recorded, what is not packed, and which commit is a release. And what
scripts/package says and packs itself, in a clone of this repository, with programs that tell their version and do nothing else.

Used by: scripts/check-programs, in a repository of its own, in a folder. scripts/check-package tries packages of the built programs.
"""
import gzip
import os
import re
import shutil
import tarfile
import time
from pathlib import Path
from typing import Dict
from unittest import mock

from package_parts import record
from package_parts.clients import can_be_built

from .common import BUILT, TOP, has, ran, same, well

LINE = "3 passed, 0 failed"
TOOLS = ("cc", "readelf", "strip", "objcopy")
"""What makes the programs of the clone, and packs them."""
PROGRAM = "#include <stdio.h>\nint main(void) { return puts(TOLD) < 0; }\n"
RT = "#!/bin/sh\n[ $1 = version ] && echo a kit\n"
"""In place of `rt`, which would prove and build the library of the client in C: it tells its version, and does nothing else."""
VERSION = "crates/mw_main/src/lib.rt"
NAME = re.compile(r"\bmondlexi[-_](\d\S*?)(?:-x86_64-linux\.tar\.gz|_amd64\.deb)?(?=\s)")
"""The name of a package, or of the folder of one, in a page."""


def git(folder: Path, *words: str) -> str:
    """What git prints; it must go well."""
    return well("git", "-c", "user.name=a", "-c", "user.email=a@example", *words, at=folder).strip()


def refusal(program: Path) -> str:
    """Why the program is not packed; nothing if it is."""
    try:
        same(record.recorded_line({"p": program}, ["p"]), LINE, "the line of the gate's record")
    except record.NoRecord as missing:
        return str(missing)
    return ""


def try_cases(folder: Path, program: Path) -> None:
    """Each case, in a repository with one file."""
    file, programs = folder / "file", {"p": program}
    git(folder, "init", "--quiet")
    (folder / ".gitignore").write_text("out/\n")
    file.write_text("1")
    git(folder, "add", ".")
    git(folder, "commit", "--quiet", "-m", "first")
    commit = git(folder, "rev-parse", "HEAD")
    same("no gate has left a record" in refusal(program), True, "a program without a record")
    for tried in ("", f"{commit}\n M file", "another"):
        same((record.write(tried, programs, LINE) != "", record.RECORD.exists()), (True, False), f"the record of {tried!r}")
    same((record.write(commit, programs, LINE), refusal(program)), ("", ""), "a program that was tried")
    file.write_text("2")
    same("files differ" in refusal(program), True, "a program, after a file was changed")
    same(record.write(commit, programs, LINE), "files were changed meanwhile", "the record of a gate in which a file was changed")
    git(folder, "commit", "--quiet", "--all", "-m", "second")
    same("another commit" in refusal(program), True, "a program of another commit")
    same((record.write(git(folder, "rev-parse", "HEAD"), programs, LINE), refusal(program)), ("", ""), "a program that was tried again")
    program.write_bytes(b"another")
    same("p: not the program" in refusal(program), True, "another program")
    record.forget()
    same("no gate has left a record" in refusal(program), True, "a program whose record is gone")


def try_releases(folder: Path) -> None:
    """A commit is a release by the tag of the version, if no file differs from it, and its programs don't tell that they are not released."""
    moment, commit = git(folder, "log", "-1", "--format=%ct %H").split()
    unreleased = f"1+unreleased.{time.strftime('%Y%m%d%H%M%S', time.gmtime(int(moment)))}.{commit[:8]}"
    git(folder, "tag", "v2")
    same(record.release_of("1"), unreleased, "the name of a commit with the tag of another version")
    git(folder, "tag", "v1")
    same(record.release_of("1"), "1", "the name of a commit with the tag of its version")
    git(folder, "tag", "v1+unreleased")
    same(record.release_of("1+unreleased"), unreleased, "the name of a commit with a tag, whose programs tell that they are not released")
    (folder / "file").write_text("3")
    same(record.release_of("1"), f"{unreleased}.changed", "its name, after a file was changed")
    git(folder, "commit", "--quiet", "--all", "-m", "third")
    same("+unreleased." in record.release_of("1"), True, "the name of the next commit")


class Clone:
    """A clone of this repository, in a folder that isn't there yet, and what is packed in it."""

    def __init__(self, folder: Path) -> None:
        well("git", "clone", "--quiet", "--shared", TOP, folder)
        self.folder, self.packages = folder, folder / "out/packages"
        self.programs = {name: folder / path.relative_to(TOP) for name, path in BUILT.items()}
        self.told = (folder / VERSION).read_text().split('"')[1]
        """The version that its programs tell."""
        (folder / "out").mkdir()
        (folder / "out/rt").write_text(RT)
        (folder / "out/rt").chmod(0o755)
        self.env = {**os.environ, "PATH": f"{folder / 'out'}:{os.environ['PATH']}"}

    def tell(self, version: str) -> None:
        """Makes a commit whose programs tell this version, and the programs, and gives the commit the tag of a release."""
        source = self.folder / VERSION
        source.write_text(source.read_text().replace(f'"{self.told}"', f'"{version}"'))
        self.told = version
        git(self.folder, "commit", "--quiet", "--all", "--allow-empty", "-m", version)
        git(self.folder, "tag", "--force", f"v{record.base_of(version)}")
        (self.folder / "out/program.c").write_text(PROGRAM)
        for name, path in self.programs.items():
            path.parent.mkdir(parents=True, exist_ok=True)
            well("cc", "-g", f'-DTOLD="{name} {version}"', "-o", path, self.folder / "out/program.c")

    def record(self, programs: Dict[str, Path]) -> None:
        """Leaves the record of a gate that has tried these programs."""
        same(record.write(git(self.folder, "rev-parse", "HEAD"), programs, LINE), "", "the record of a clone")

    def refuses(self, line: str, what: str) -> None:
        """Nothing is packed, and this is said."""
        told = ran(self.folder / "scripts/package", "--to", self.packages, at=self.folder, env=self.env)
        same((told, self.packages.exists()), ((1, "", f"package: {line}\n"), False), f"scripts/package {what}")

    def packs(self, release: str) -> None:
        """All packages are made, with this version in their names and their pages. MANIFEST tells the gate and each program, and a page of
        the manual the version that the programs tell."""
        told = well(self.folder / "scripts/package", "--to", self.packages, at=self.folder, env=self.env).split()
        archive, symbols = (f"mondlexi-{release}-x86_64-linux{end}.tar.gz" for end in ("", "-symbols"))
        debs = [f"mondlexi_{release}_amd64.deb"] if has("dpkg-deb") else []
        libraries = [f"libmondlexi-dev_{release}_amd64.deb"] if can_be_built() else []
        same(told, [str(self.packages / name) for name in (archive, symbols, *debs, *libraries)], "the packages of a clone")
        with tarfile.open(told[0]) as packed:
            packed.extractall(self.folder / "out")
        top = self.folder / f"out/mondlexi-{release}"
        wanted = [f"mondlexi {release}", f"commit {git(self.folder, 'rev-parse', 'HEAD')}", f"gate {LINE}",
                  *(f"tried {name} {record.sum_of(path)}" for name, path in self.programs.items())]
        found = [line for line in (top / "MANIFEST").read_text().splitlines() if line.split()[0] not in ("kit", "needs")]
        same(found, wanted, "MANIFEST")
        same(set(NAME.findall((top / "docs/OPERATING.md").read_text())), {release}, "the packages that OPERATING names")
        manual = gzip.decompress((top / "man/man1/mwserve.1.gz").read_bytes()).decode()
        same(f'"mondlexi {self.told}"\n' in manual, True, f"that a page of the manual tells {self.told}")
        shutil.rmtree(self.packages)


def try_package(folder: Path) -> None:
    """scripts/package packs nothing without a record, and nothing but the programs of one. What it packs has the version that the programs
    tell, if that is a release by its tag."""
    clone = Clone(folder)
    base = record.base_of(clone.told)
    with mock.patch.multiple(record, TOP=folder, RECORD=folder / "out/gate-record"):
        clone.tell(f"{base}+unreleased")
        clone.refuses("no gate has left a record here: run .ci/run first, on a commit from which no file differs", "without a record")
        clone.record({**clone.programs, "mwshow": clone.programs["mwinit"]})
        clone.refuses("mwshow: not the program that the gate tried: run .ci/run again", "with the record of another mwshow")
        clone.record(clone.programs)
        release = record.release_of(clone.told)
        same(release.startswith(f"{base}+unreleased."), True, f"that {release} is not released")
        clone.packs(release)
        clone.tell(base)
        clone.record(clone.programs)
        clone.packs(base)


def try_record(folder: Path) -> None:
    """The cases, in place of this repository; and the script, if this repository can be cloned and there is what makes programs."""
    is_tried = bool(record.git("rev-parse", "HEAD")) and all(map(has, TOOLS))
    if is_tried:
        try_package(folder / "clone")
    (folder / "out").mkdir(parents=True)
    program = folder / "out/p"
    program.write_bytes(b"one")
    with mock.patch.multiple(record, TOP=folder, RECORD=folder / "out/gate-record"):
        try_cases(folder, program)
        try_releases(folder)
    script = "by scripts/package too" if is_tried else f"scripts/package itself not tried: there is no repository, or not all of {', '.join(TOOLS)}"
    print(f"the record of the gate: of one commit and its programs, and nothing else is packed ({script}); a tag makes a release")
