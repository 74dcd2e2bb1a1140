"""Finds the goals of a crate that `search` gave up and `grind` closed, in what the crate's last check kept.

Used by: scripts/slow-proofs, scripts/answer-goals. The records are the installed kit's: look at their form again with another kit.
"""
import re
from collections import Counter
from pathlib import Path
from typing import Counter as CounterOf
from typing import List, NamedTuple

TOP = Path(__file__).resolve().parent.parent.parent
RECORDS = "out/incremental/*/records/Rattle-*-proofs.*.Proof.decls.oantt"
"""Where a crate's last check has the steps of each goal."""
CALL = re.compile(r'\["(\w+)",\[\d+,\d+\],(\d+)\]')
"""A tactic that was tried, and how many steps it took."""


class Goal(NamedTuple):
    """A goal of a function, and how many steps were searched in vain."""

    function: str
    name: str
    steps: int


def answers_of(crate: str, function: str) -> Path:
    """Where a function's answers are, or would be."""
    return TOP / "crates" / crate / "proofs" / function.replace(".", "/") / "Answers.antt"


def has_answer(crate: str, goal: Goal) -> bool:
    """Whether the goal has an answer now. A record may be older than that."""
    file = answers_of(crate, goal.function)
    return file.is_file() and re.search(rf"^pub {re.escape(goal.name)} :", file.read_text(), re.M) is not None


def goals_of(record: Path, crate: str) -> List[Goal]:
    """The goals of one function that were searched in vain."""
    function = re.sub(rf"^Rattle-{crate}-proofs\.|\.Proof\.decls\.oantt$", "", record.name)
    found = []
    for told in record.read_bytes().decode("latin-1").split('"calls":')[1:]:
        name = re.search(r'"name":"([^"]*)"', told)
        steps: CounterOf[str] = Counter()
        for tactic, count in CALL.findall(told.partition('"goals"')[0]):
            steps[tactic] += int(count)
        if name and steps["grind"] and steps["search"]:
            found.append(Goal(function, name[1], steps["search"]))
    return found


def searched_in_vain(crate: str) -> List[Goal]:
    """The crate's goals without an answer that were searched in vain, the longest search first."""
    records = (TOP / "crates" / crate).glob(RECORDS)
    goals = [goal for record in records for goal in goals_of(record, crate)]
    return sorted((goal for goal in goals if not has_answer(crate, goal)), key=lambda goal: -goal.steps)
