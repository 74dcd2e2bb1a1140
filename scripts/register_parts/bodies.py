"""Reads the edits of the crates, in the gate and by rounds, and the wrong bodies that are kept by hand in wrong_bodies.txt, whose head tells
its form.

Used by: scripts/check-names, page.py. A further column changes the text, `Row`, and `told_line` of page.py.
"""
import os
import re
from collections import Counter
from pathlib import Path

from edit_parts.edits import BadEdit, apply, read_edit
from register_parts.source import TOP, files_below, read

# Where the edits of a crate are, in words and as a folder: `rt ci` tries the first, scripts/check-wrong-bodies the others.
FOLDERS = {"in the gate": "crates/{}/must-fail", "by rounds": "wrong-bodies/{}"}
BODIES = "scripts/register_parts/wrong_bodies.txt"
# A schedule of scripts/text_parts.
SCHEDULE = re.compile(r"^== ([\w-]+)$", re.M)
# The name of a row in a table of tests.
ROW = re.compile(r'"([a-z][\w -]*)"')
# The names of a story, of a scene and of a group of rows, and what plays it.
STORY, STORIES = re.compile(r"^story (\S+)$", re.M), "scripts/check-stories"
SCENE, SCENES = re.compile(r"^scene (.+)$", re.M), "scripts/check-scenes"
GROUP, GROUPS = re.compile(r"^\[(.+)\]$", re.M), "scripts/check-texts"
# Tests, schedules, scenes and groups that a cell names: tests `a`, `b` and `c`.
PROSE = re.compile(r"\b(test|schedule|scene|group)s? (`[^`]+`(?:(?:, | and )`[^`]+`)*)")


def where(edit):
    """In words, the folders that have an edit, which is told as `crate/edit`."""
    crate, name = edit.split("/")
    return [words for words, folder in FOLDERS.items() if os.path.isfile(os.path.join(TOP, folder.format(crate), name + ".edit"))]


def edited(crate, change):
    """The first function whose body has the text that a change of a crate replaces, if one has."""
    sources = [it for it in crate.sources if it.path == f"crates/{crate.name}/{change.path}"]
    places = [(it, found.start()) for it in sources for found in re.finditer(re.escape(change.old.strip()), it.text)]
    return next(filter(None, (source.function_at(at) for source, at in places)), None)


def edits(crates):
    """The function whose body each edit changes first, by `crate/edit`; and what is wrong with the edits: those that can't be made, whose text is in
    no body, that are in both folders, or that are of no crate."""
    found, wrong = {}, []
    for crate in crates:
        for path in [it for folder in FOLDERS.values() for it in files_below(folder.format(crate.name), ".edit")]:
            edit = f"{crate.name}/{os.path.basename(path)[:-5]}"
            wrong += [f"{edit}: it is in the gate and by rounds"] if edit in found else []
            found[edit] = None
            try:
                given = read_edit(Path(TOP, path), crate.name)
                found[edit] = edited(crate, given.changes[0])
                apply(given, Path(TOP, "crates", crate.name), {})
            except BadEdit as fault:
                wrong.append(str(fault))
    wrong += [f"{edit}: its text is in no body" for edit, function in found.items() if function is None]
    rounds = ["/".join(path.split(os.sep)[1:]) for path in files_below("wrong-bodies", ".edit")]
    return found, wrong + [f"wrong-bodies/{it}: crates.txt has no such crate" for it in rounds if it[:-5] not in found]


class Row:
    """A row of a table: its cells. One of a wrong body has edits as `crate/edit`, tests as a crate with names, the public call of the edits as
    `crate/call`, and what is said besides. An edit without such a row has a call. Other rows name tests, schedules, scenes
    and groups in their words alone."""

    def __init__(self, cells, heading):
        self.cells, self.edits, self.tests, self.besides, call = cells, [], [], "", ""
        self.is_named = heading[:2] == ["wrong body", "what it does"]
        self.is_whole = len(cells) == len(heading) and all(cells[:3] if self.is_named else cells)
        if heading[0] == "edit":
            self.edits, call = cells[:1], cells[-1]
        elif self.is_named and self.is_whole:
            named, _, self.besides = cells[2].partition(". ")
            for item in filter(None, named.split("; ")):
                crate, is_test, tests = item.partition(": ")
                if is_test:
                    self.tests.append((crate, tests.split(", ")))
                else:
                    self.edits.append(item if "/" in item else f"{item}/{cells[0]}")
            self.is_whole, call = bool(named), cells[3]
        own = "".join(edit.split("/")[0] for edit in self.edits[:1])
        self.call = call if "/" in call or not call else f"{own}/{call}"


def lines_told():
    """The lines of wrong_bodies.txt, of which those of tables below their headings are rows."""
    heading = None
    for line in read(BODIES).split("\n"):
        cells = [cell.strip() for cell in line[1:-1].split("|")]
        if heading and line.startswith("|") and not line.startswith("|---"):
            yield Row(cells, heading)
        else:
            heading = (heading or cells) if line.startswith("|") else None
            yield line


def rows_of(lines):
    """The rows among the lines of wrong_bodies.txt."""
    return [line for line in lines if isinstance(line, Row)]


def texts_in(folder, suffix):
    """The texts of a folder's files of this suffix, one after the other."""
    return "\n".join(read(path) for path in files_below(folder, suffix))


def beginnings(names):
    """How each of these names begins, and none of the others: to the end of one of its words, without a comma or colon there."""
    words = [name.split() for name in names]
    found = Counter(it for name in words for it in {" ".join(name[:count]).rstrip(",:") for count in range(1, len(name) + 1)})
    return {it for it, count in found.items() if count == 1}


class There:
    """What the rows may name: edits, tests with their crates, public calls; rows of tests' tables, by the name that such a row
    has as a text, with a hyphen for each space; and stories, scenes, schedules and groups of rows that scripts play."""

    def __init__(self, crates):
        functions = [function for crate in crates for source in crate.sources for function in source.functions]
        tests = [source for crate in crates for source in crate.sources if crate.is_test(source)]
        self.edits, self.wrong_edits = edits(crates)
        self.tests = {(f.source.crate, f.name) for f in functions if f.is_test}
        self.tests |= {(source.crate, row.replace(" ", "-")) for source in tests for row in ROW.findall(source.text)}
        self.tests |= {(STORIES, name) for name in STORY.findall(texts_in("scripts/story_parts", ".stories"))}
        texts = texts_in("scripts/text_parts", ".txt")
        self.names = {"test": {name for _, name in self.tests}, "schedule": set(SCHEDULE.findall(texts)), "group": set(GROUP.findall(texts)),
                      "scene": beginnings(SCENE.findall(texts_in("scripts/scene_parts", ".txt")))}
        self.tests |= {(SCENES, name) for name in self.names["scene"]} | {(GROUPS, name) for name in self.names["group"]}
        calls = [(f"{f.source.crate}/{f.label()}", f"{f.source.path}: {f.label()}") for f in functions if f.is_open]
        count = Counter(call for call, _ in calls)
        self.calls = {call: place for call, place in calls if count[call] == 1}

    def faults_of(self, row):
        """What a row names though it isn't there, or leaves out."""
        found = [] if row.is_whole else ["a cell is empty, or missing"]
        found += [f"no edit {edit}" for edit in row.edits if edit not in self.edits]
        found += [f"no test {name} of {crate}" for crate, names in row.tests for name in names if (crate, name) not in self.tests]
        told = [(kind, name) for kind, names in PROSE.findall(" ".join(row.cells)) for name in re.findall(r"`([^`]+)`", names)]
        found += [f"no {kind} {name}" for kind, name in told if name not in self.names[kind]]
        return found + ([f"no public call {row.call}, or several"] if row.call and row.call not in self.calls else [])

    def public_calls(self, rows):
        """The public call at which each edit is refused: of an edit in a public function that one, else the one that is told."""
        found = {edit: f"{f.source.path}: {f.label()}" for edit, f in self.edits.items() if f and f.is_open}
        found.update({edit: self.calls[row.call] for row in rows if row.call in self.calls for edit in row.edits})
        return found


def faults(rows, there):
    """What the rows name though it isn't there, or leave out; and what is wrong with the edits."""
    return there.wrong_edits + [f"{BODIES}: {row.cells[0]}: {fault}" for row in rows for fault in there.faults_of(row)]
