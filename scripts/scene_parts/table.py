"""The table of scenes, scenes.txt: from its text to steps. Its head says what each step means.

Used by: scripts/check-scenes, play.py. A further step is a row of FORMS, a row of that head, and a function of play.py.
"""
import re
from pathlib import Path
from typing import List, NamedTuple, NoReturn, Tuple

TABLE = Path(__file__).resolve().with_name("scenes.txt")
FORMS = tuple((re.compile(form.replace("NUMBER", r"(\d+)").replace("TEXT", "(.+)")), kind) for form, kind in (
    (r"(port|socket) NUMBER (--.+)", "begin"),
    (r"([A-Z]) comes( to the administrator)?", "come"),
    (r"([A-Z]) says TEXT", "say"),
    (r"([A-Z]) spells TEXT", "spell"),
    (r"([A-Z]) insists on TEXT", "insist"),
    (r"([A-Z]) hears TEXT", "hear"),
    (r"([A-Z]) asks TEXT -> TEXT", "ask"),
    (r"([A-Z]) is (closed|gone)", "reads_the_end"),
    (r"([A-Z]) leaves", "leave"),
    (r"([A-Z]) (drips|sips) until ([A-Z]) hears", "go_on"),
    (r"([A-Z]) begins anew", "begin_anew"),
    (r"([A-Z]) took NUMBER(?: to NUMBER)?", "has_taken"),
    (r"NUMBER clients come", "all_come"),
    (r"NUMBER clients change a word each", "all_change"),
    (r"wait NUMBER", "wait"),
    (r"figure (\w+)(?:\{(.+)\})? NUMBER", "await_figure"),
    (r"all sleep", "await_sleep"),
    (r"(no )?room", "give_room"),
    (r"notes TEXT", "await_note"),
))
"""The forms of steps, each with the function of play.Player that takes what is between its brackets."""
REPEATED = re.compile(r"\{([^{}]*)\}\*(\d+)")
SIGNS = {r"\n": "\n", r"\r": "\r"}


class BadTable(Exception):
    """The table can't be read; the text says where and why."""


class Step(NamedTuple):
    """What happens: its line and the number of that, the function that does it, and what it takes."""
    number: int
    line: str
    kind: str
    words: Tuple[str, ...]


class Scene(NamedTuple):
    """What is played at servers of its own."""
    name: str
    steps: List[Step]


def fail(number: int, why: str) -> NoReturn:
    raise BadTable(f"{TABLE.name}:{number}: {why}")


def bytes_of(text: str) -> bytes:
    """What a text of the table stands for."""
    written_out = REPEATED.sub(lambda found: found[1] * int(found[2]), text)
    return re.sub(r"\\[nr]", lambda found: SIGNS[found[0]], written_out).encode()


def step_of(number: int, line: str) -> Step:
    """The step that a line tells; BadTable if it tells none."""
    for form, kind in FORMS:
        found = form.fullmatch(line)
        if found:
            return Step(number, line, kind, tuple(word or "" for word in found.groups()))
    fail(number, f"no step is {line!r}")


def scenes() -> List[Scene]:
    """All scenes, in the order of the table. Each has a name of its own, and begins with a server."""
    found: List[Scene] = []
    for number, line in enumerate(TABLE.read_text().splitlines(), 1):
        if line.startswith("scene "):
            name = line[len("scene "):]
            if name in (scene.name for scene in found):
                fail(number, "another scene has this name")
            found.append(Scene(name, []))
        elif found and line and not line.startswith("#"):
            step = step_of(number, line)
            if not found[-1].steps and step.kind != "begin":
                fail(number, "a scene begins with a server")
            found[-1].steps.append(step)
    empty = [scene.name for scene in found if not scene.steps]
    if empty:
        raise BadTable(f"{TABLE.name}: a scene has no steps: {empty[0]}")
    return found
