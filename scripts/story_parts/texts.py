"""Reads the stories: their names, lines and cases.

Used by: scripts/check-stories, player.py.
"""
from pathlib import Path
from typing import Iterator, List, NamedTuple

from lib.checks import wrong

FOLDER = Path(__file__).resolve().parent
CASES = "for each of"
FIELDS = 4
"""The most fields of a case."""


class Line(NamedTuple):
    """A line of a story, and its number in its file."""
    number: int
    text: str


class Story(NamedTuple):
    """A story: the file that has it, its name, its lines and its cases."""
    file: str
    name: str
    lines: List[Line]
    cases: List[str]


class Play(NamedTuple):
    """A story as it is played for one of its cases, which is an empty text if the story has none."""
    file: str
    name: str
    case: str
    lines: List[Line]


def read_stories() -> List[Story]:
    """All stories, by their files' names and in their order there. Wrong if two have one name."""
    stories = [story for path in sorted(FOLDER.glob("*.stories")) for story in stories_of(path)]
    names = [story.name for story in stories]
    for name in sorted({name for name in names if names.count(name) > 1}):
        wrong(f"two stories have the name {name}")
    return stories


def stories_of(path: Path) -> List[Story]:
    """The stories of a file."""
    stories: List[Story] = []
    has_cases = False
    for number, text in enumerate(path.read_text().split("\n"), 1):
        if not text or text.startswith("#"):
            continue
        if text.startswith("story "):
            stories.append(Story(path.name, text[len("story "):], [], []))
            has_cases = False
        elif not stories:
            wrong(f"{path.name}, line {number}: it is before the first story")
        elif text == CASES:
            has_cases = True
        elif has_cases:
            stories[-1].cases.append(text)
        else:
            stories[-1].lines.append(Line(number, text))
    return stories


def plays_of(story: Story) -> Iterator[Play]:
    """The story with the fields of each of its cases in their places, or once as it is."""
    for case in story.cases or [""]:
        fields = [*case.split("|"), *FIELDS * [""]][:FIELDS]
        yield Play(story.file, story.name, case, [Line(line.number, filled(line.text, fields)) for line in story.lines])


def filled(text: str, fields: List[str]) -> str:
    """A line with these fields in the places of `$1`, `$2` and so on."""
    for number, field in enumerate(fields, 1):
        text = text.replace(f"${number}", field)
    return text
