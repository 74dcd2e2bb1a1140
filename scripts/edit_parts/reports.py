"""What `rt check` says of a crate: which functions are proved, and why others aren't.

Used by: room.py, rounds.py. The patterns are of the lines that the installed kit prints: look at them again with another kit.
"""
import re
from dataclasses import dataclass, field
from typing import Collection, Dict, List

FUNCTION = re.compile(r"^fn (\S+): (.*)$")
ITEM = re.compile(r"^(?:enum|struct|impl|trait|const|static) \S+: ")
REFUSED = ("not proved", "no proof")
NOT_TRIED = re.compile(r"\b(it calls|it passes|a call of) ")
"""A function's own contract was not tried, because one that it calls is not proved."""
FALSE, GAVE_UP = "at which this goal is false", "gave up at one of its limits"
STALE = re.compile(r"module .Rattle-(\w+)-.*Run the lower steps again")
ERROR = re.compile(r"(?:\./)?(\S+?):\d+:\d+: error: (?:(`[^`]*`): )?(.*)")
NAMES = re.compile(r"is not in scope|has no field|is no name|operand is missing|expected the end|cannot continue")
TOLD = re.compile(r"(note: )?(\./)?\S+:\d+:\d+:")
TAKEN_AWAY = re.compile(r"(\./)?proofs/.*(has no field|is not in scope|has no `|was not admitted)")
"""A proof file names what an edit took away, or rests on a proof that does."""


@dataclass
class Report:
    """The lines of a check: the words on each function, and the notes and errors right before them."""
    lines: List[str]
    functions: Dict[str, str] = field(default_factory=dict)
    before: Dict[str, List[str]] = field(default_factory=dict)

    @property
    def last(self) -> str:
        """The verdict, or whatever else the last line of the prover is."""
        return next((it for it in reversed(self.lines) if not it.startswith("rt: ")), "")

    @property
    def is_proved(self) -> bool:
        """Whether the crate is proved."""
        return self.last.startswith("logic=proved ")

    @property
    def is_verdict(self) -> bool:
        """Whether the prover came to an end."""
        return self.last.startswith("logic=")

    def refused(self) -> List[str]:
        """The functions whose own proof is refused."""
        return [name for name, words in self.functions.items() if words.startswith(REFUSED) and not NOT_TRIED.search(words)]

    def not_tried(self) -> List[str]:
        """The functions that aren't proved because they call one that isn't."""
        return [name for name, words in self.functions.items() if words.startswith(REFUSED) and NOT_TRIED.search(words)]

    def unread(self, changed: Collection[str]) -> str:
        """The first line that says that a text of src/, of specs/ or of an edited file could not be read; empty if there is none."""
        for line in self.lines:
            found = ERROR.match(line)
            if not found or found[1] not in changed and not found[1].startswith(("src/", "specs/")):
                continue
            if not found[2] or NAMES.search(re.sub(r"`[^`]*`", "", found[3])):
                return line
        return ""

    def stale(self) -> str:
        """The line that says that what was kept of a library can't be used; empty if there is none."""
        return next((it for it in self.lines if STALE.search(it)), "")

    def reasons(self) -> List[str]:
        """Why the crate isn't proved."""
        return reasons_in(self.lines)

    def reasons_of(self, name: str) -> List[str]:
        """Why a function isn't proved: what is told right before its line, and of its own proof files, or else that line.
        A goal that is false comes first, and one at which the search for a proof gave up last."""
        own = re.compile(rf"(\./)?proofs/{re.escape('/'.join(name.split('::')[1:]))}/")
        told = reasons_in(self.before[name]) + [it for it in reasons_in(self.lines) if own.match(it)]
        return sorted(dict.fromkeys(told), key=lambda it: (FALSE not in it, GAVE_UP in it)) or [self.functions[name]]


def reasons_in(lines: List[str]) -> List[str]:
    """The errors, and the notes on what was not shown. A text that goes on in lines further in is one."""
    whole: List[str] = []
    for line in lines:
        if line.startswith("  ") and whole:
            whole[-1] += f" {line.strip()}"
        else:
            whole.append(line)
    told = [it for it in whole if TOLD.match(it)]
    return [it for it in told if ": error" in it or it.startswith("note: ")] or told


def read_report(text: str) -> Report:
    """Reads what a check has printed."""
    report = Report(text.rstrip("\n").split("\n"))
    told: List[str] = []
    for line in report.lines:
        found = FUNCTION.match(line)
        if found:
            report.functions[found[1]], report.before[found[1]] = found[2], told
        told = [] if found or ITEM.match(line) else [*told, line]
    return report
