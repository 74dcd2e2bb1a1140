"""Wrong bodies as edits of a crate's text, in the form in which `rt` reads must-fail edits, and which functions each changes.

Used by: scripts/check-wrong-bodies, rounds.py, register_parts/bodies.py. The form is the kit's. CONTRIBUTING.md shows it.
"""
import os
import re
from dataclasses import dataclass
from pathlib import Path
from typing import Dict, FrozenSet, List, Optional, Tuple

from register_parts.source import Function, Source

PARTS = ("src/", "specs/", "proofs/")
NAME = re.compile(r"[A-Za-z0-9_-][A-Za-z0-9_.-]*\.edit")
TYPE = re.compile(r"^[ \t]*(?:pub(?:\([a-z]+\))? )?(?:struct|enum|union) (\w+)", re.MULTILINE)
"""What defines a type."""


class BadEdit(Exception):
    """An edit can't be read, or its text isn't in its file exactly once."""


@dataclass(frozen=True)
class Change:
    """In a file of the crate, a text that is there once, and what comes in its place."""
    path: str
    old: str
    new: str


@dataclass(frozen=True)
class Edit:
    """A wrong body of a crate."""
    crate: str
    name: str
    changes: Tuple[Change, ...]

    def label(self) -> str:
        """The crate and the name."""
        return f"{self.crate}/{self.name}"


@dataclass(frozen=True)
class Place:
    """A function by its module or that of its type, the type or trait that it belongs to, and its name."""
    module: str
    owner: str
    is_of_trait: bool
    name: str

    def is_named_by(self, symbol: str) -> bool:
        """Whether a check's report means this function, or a closure in it, by this name."""
        if not symbol.startswith(f"{self.module}::"):
            return False
        parts = symbol[len(self.module) + 2:].split("::")
        # (a closure of `f` in the module m is m::fn::f::NAME)
        parts = parts[1:] if parts[0] == "fn" else parts
        if not self.owner:
            return parts[0] == self.name
        # (an impl of a trait is named by both, as MemDiskDisk)
        of_trait = self.is_of_trait and re.search(rf"(^|\+){re.escape(self.owner)}.", parts[0])
        return bool(of_trait or not self.is_of_trait and parts[0] == self.owner) and parts[1:2] == [self.name]


def read_edit(path: Path, crate: str) -> Edit:
    """Reads a file of an edit of this crate."""
    label = f"{crate}/{path.stem}"
    file, old, changes = "", "", []
    for line in path.read_text(encoding="utf-8").split("\n"):
        if line.startswith("file: "):
            file = line[len("file: "):].strip()
            if os.path.normpath(file) != file or not file.startswith(PARTS):
                raise BadEdit(f"{label}: a 'file:' line names no file below src/, specs/ or proofs/")
        elif line.startswith("old: "):
            old = line[len("old: "):]
        elif line.startswith("new:"):
            if not file or not old:
                raise BadEdit(f"{label}: a 'new:' line comes before any 'file:' or 'old:' line")
            changes.append(Change(file, old, re.sub(r"\A ", "", line[len("new:"):])))
            old = ""
    if not changes:
        raise BadEdit(f"{label}: it has no 'old:' and 'new:' pair")
    return Edit(crate, path.stem, tuple(changes))


def edits_in(folder: Path) -> List[Edit]:
    """The edits in the folder wrong-bodies/CRATE, in the order of their names."""
    wrong = [it.name for it in folder.iterdir() if not NAME.fullmatch(it.name) and it.suffix != ".md"]
    if wrong:
        raise BadEdit(f"{folder.name}/{wrong[0]}: an edit's name is of letters, digits, _, - and . and ends in .edit")
    return [read_edit(it, folder.name) for it in sorted(folder.glob("*.edit"))]


def apply(edit: Edit, crate: Path, texts: Dict[str, str]) -> None:
    """Makes an edit's changes in these texts, by their paths in the crate. A text that isn't there yet is read."""
    for change in edit.changes:
        if change.path not in texts:
            try:
                texts[change.path] = (crate / change.path).read_text(encoding="utf-8")
            except OSError:
                raise BadEdit(f"{edit.label()}: there is no file {change.path}") from None
        found = texts[change.path].count(change.old)
        if found != 1:
            raise BadEdit(f"{edit.label()}: an 'old:' text is in {change.path} {found} times, and not once")
        texts[change.path] = texts[change.path].replace(change.old, change.new)


def span(change: Change, text: str) -> Optional[Tuple[int, int]]:
    """From where to where the text differs after a change; None if what it replaces isn't there once."""
    if text.count(change.old) != 1:
        return None
    at = text.index(change.old)
    same = len(os.path.commonprefix([change.old, change.new]))
    rest = change.old[same:][::-1], change.new[same:][::-1]
    return at + same, at + len(change.old) - len(os.path.commonprefix(rest))


def changed_by(edit: Edit, sources: Dict[str, Source]) -> Optional[List[Function]]:
    """The functions whose bodies an edit changes; None if it changes anything else."""
    found: List[Function] = []
    now = dict(sources)
    for change in edit.changes:
        source = now.get(change.path)
        between = span(change, source.text) if source else None
        function = source.function_at(between[0]) if source and between else None
        if not source or not between or not function or not function.body[0] < between[0] <= between[1] < function.body[1]:
            return None
        found.append(function)
        now[change.path] = Source(source.crate, source.path, source.text.replace(change.old, change.new))
    return found


def module_of(source: Source) -> str:
    """The module that a file is."""
    inside = source.path[len(f"crates/{source.crate}/src/"):-len(".rt")]
    modules = [] if inside in ("lib", "main") else re.sub(r"/mod$", "", inside).split("/")
    return "::".join([source.crate, *modules])


def place_of(function: Function, sources: Dict[str, Source]) -> Place:
    """How a report names a function: a method of a type by the module that has the type, in whatever module its `impl` is."""
    module, owner = module_of(function.source), function.owner
    if owner and not owner.of_trait:
        modules = [module_of(it) for it in sources.values() if owner.name in TYPE.findall(it.code)]
        module = module if module in modules else next(iter(modules), module)
    return Place(module, owner.name if owner else "", bool(owner and owner.of_trait), function.name)


def places_of(edit: Edit, sources: Dict[str, Source]) -> FrozenSet[Place]:
    """The functions that an edit changes, empty if it changes anything but bodies."""
    return frozenset(place_of(it, sources) for it in changed_by(edit, sources) or [])
