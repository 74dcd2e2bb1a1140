"""Reads the tables of this folder: which text or command line a program is given, and what must come.

Used by: scripts/check-texts, playing.py. The head of the script says how a table is written: change it with SETTINGS and SIGNS.
"""
import re
from pathlib import Path
from typing import Dict, Iterator, List, NamedTuple, Tuple

SETTINGS = {"run": "", "before": "", "after": "", "base": "", "beside": "", "held": "", "output": "", "reads": "", "status": "0", "out": "",
            "err": ""}
"""What a setting is that a table leaves out."""
SETTING = re.compile(rf"({'|'.join(SETTINGS)}) =(?: (.*))?")
REPEATED = re.compile(r"(\d+)\*\(([^()]*)\)")
SIGNS = ((";", "\n"), (r"\s", " "), (r"\t", "\t"), (r"\r", "\r"), (r"\#", "#"))
"""What stands in a row of one line for what it can't have."""
NOTHING = '""'
FIELD_END = re.compile(r"(?<!\S)\|(?!\S)")
Lines = Iterator[Tuple[int, str]]


class Malformed(Exception):
    """A table isn't written as it must be."""


class Row(NamedTuple):
    """A row: where it is, what is given, by which settings, and what must come."""
    place: str
    given: str
    settings: Dict[str, str]
    status: int
    out: str
    err: str


def text_of(written: str) -> str:
    """The text that a row of one line has for this."""
    text = "" if written == NOTHING else REPEATED.sub(lambda found: int(found[1]) * found[2], written)
    for sign, meant in SIGNS:
        text = text.replace(sign, meant)
    return text


def lines_to_empty(lines: Lines) -> Iterator[str]:
    """The lines up to one that is empty, each with its line feed."""
    for _, line in lines:
        if not line:
            return
        yield f"{line}\n"


def whole_of(given: str, settings: Dict[str, str]) -> str:
    """A row's text between what comes before and after it."""
    return text_of(settings["before"]) + given + text_of(settings["after"])


def short_row(place: str, line: str, settings: Dict[str, str]) -> Row:
    """A row of one line."""
    fields = [field.strip() for field in FIELD_END.split(line)]
    if len(fields) > 3:
        raise Malformed(f"{place}: a row has at most three fields")
    given, out, err = (*map(text_of, fields), *("" for _ in range(3 - len(fields))))
    wanted = [out if len(fields) > 1 else text_of(settings["out"]), err if len(fields) > 2 else text_of(settings["err"])]
    return Row(f"{place}, {line}", whole_of(given, settings), settings, int(settings["status"]), *wanted)


def long_row(place: str, lines: Lines, settings: Dict[str, str]) -> Row:
    """A row of several lines."""
    parts: Dict[str, List[str]] = {"": [], "> ": [], "! ": []}
    for line in lines_to_empty(lines):
        sign = line[:2] if line[:2] in parts else ""
        parts[sign].append(line[len(sign):])
    given, out, err = ("".join(part) for part in parts.values())
    return Row(place, whole_of(given, settings), settings, int(settings["status"]), out, err)


def rows_of(table: Path) -> Iterator[Row]:
    """The rows of a table."""
    common = dict(SETTINGS)
    settings, group = common, ""
    lines = iter(list(enumerate(table.read_text(encoding="utf-8").split("\n"), 1)))
    for number, line in lines:
        place = f"{table.name}, line {number}{group}"
        setting = SETTING.fullmatch(line)
        if line.startswith("[") and line.endswith("]"):
            settings, group = dict(common), f" ({line[1:-1]})"
        elif setting:
            settings[setting[1]] = setting[2] or "".join(lines_to_empty(lines))
        elif line.startswith("== "):
            yield long_row(f"{place}, {line[3:]}", lines, settings)
        elif line and not line.startswith("#"):
            yield short_row(place, line, settings)
