"""The table of cases of clients/cases: its files, from their text to steps. clients/cases/README.md says what each step means.

Used by: scripts/check-clients, scripts/check-programs, cases.py, examples.py, peer.py, wrong.py. A further step is a word here, a row of that page, and, if the
server does it, a function of peer.py.
"""
import re
from pathlib import Path
from typing import Dict, Iterator, List, NamedTuple, NoReturn, Tuple

FOLDER = Path(__file__).resolve().parent.parent.parent / "clients/cases"
OF_CALLS = ("call", "tells", "takes", "within")
"""The steps of the client's program."""
OF_SERVER = ("opens", "sent", "says", "busy", "quiet", "ends", "shuts", "resets", "stops", "fills", "frees")
LEAST_BUSY = 4
"""How often `busy` says BUSY at least: so many first pauses tell whether they begin short."""
SHORT: Dict[str, Tuple[str, ...]] = {
    "begin": ("call client SERVER t OPTIONS", "again", "tells words 9"),
    "administer": ("call administrator SERVER OPTIONS", "opens", "sent ADMIN", r"says OK ADMIN\n", "tells connected"),
    "again": ("opens", "sent TENANT t", r"says OK 9\n"),
    "anew": ("call reconnect 0", "again", "tells connected"),
    "end": ("call close", "sent QUIT", r"says BYE\n", "ends", "shuts", "tells closed"),
}
"""Steps that stand for several."""
LOCAL = "local socket"
"""In the name of a case whose server is at one."""
ESCAPE = re.compile(r"\\(?:([nr\\])|x([0-9a-f]{2}))")
SIGNS = {"n": b"\n", "r": b"\r", "\\": b"\\"}


class Step(NamedTuple):
    """What happens, and where the table says so."""
    kind: str
    text: str
    place: str


class Case(NamedTuple):
    """A case: the steps of the client's program, and those of the server."""
    name: str
    calls: List[Step]
    server: List[Step]

    @property
    def is_local(self) -> bool:
        """Whether its server is at a local socket."""
        return LOCAL in self.name


def fail(place: str, why: str) -> NoReturn:
    raise SystemExit(f"check-clients: {place}: {why}")


def repeated_words(text: str) -> str:
    """The text with each `word*N` written out."""
    return re.sub(r"(\S+?)\*(\d+)(?!\S)", lambda found: " ".join([found[1]] * int(found[2])), text)


def repeated(text: str) -> str:
    """The text, so often as ` *N` at its end says."""
    found = re.fullmatch(r"(.*) \*(\d+)", text, re.DOTALL)
    return found[1] * int(found[2]) if found else text


def bytes_of(text: str) -> bytes:
    """What a text with escapes stands for."""
    pieces = ESCAPE.split(text)
    signs = zip(pieces[1::3], pieces[2::3], pieces[3::3])
    return pieces[0].encode() + b"".join((SIGNS[sign] if sign else bytes([int(code, 16)])) + rest.encode() for sign, code, rest in signs)


def steps_of(line: str, place: str) -> Iterator[Step]:
    """The steps that a line stands for."""
    kind, _, text = line.partition(" ")
    if kind not in SHORT:
        text = text[1:] if kind in ("call", "sent", "says", "ends") and text.startswith(" ") else text
        yield Step(kind, text, place)
        return
    for part in SHORT[kind]:
        yield from steps_of(part.replace("OPTIONS", text).rstrip(), place)


def add(case: Case, step: Step) -> None:
    """Adds a step to its sequence."""
    if step.kind in OF_CALLS:
        case.calls.append(step._replace(text=repeated_words(step.text)))
    elif step.kind == "sent":
        text, _, count = step.text.rpartition(" *") if re.search(r" \*\d+$", step.text) else (step.text, "", "1")
        case.server.extend([step._replace(text=text)] * int(count))
    elif step.kind == "busy" and int(step.text.partition(" ")[0]) < LEAST_BUSY:
        fail(step.place, f"busy is {LEAST_BUSY} times or more")
    elif step.kind in OF_SERVER:
        case.server.append(step._replace(text=repeated(step.text)))
    else:
        fail(step.place, f"there is no step {step.kind!r}")


def cases_of(path: Path) -> List[Case]:
    """The cases of a file."""
    found: List[Case] = []
    for number, line in enumerate(path.read_text().splitlines(), 1):
        place = f"{path.name}:{number}"
        if line.startswith("case "):
            found.append(Case(line[len("case "):], [], []))
        elif line and not line.startswith("#"):
            for step in steps_of(line, place):
                add(found[-1] if found else fail(place, "a step before the first case"), step)
    return found


def all_cases() -> List[Case]:
    """All cases, in the order of the files' names. Each has another name."""
    found = [case for path in sorted(FOLDER.glob("*.txt")) for case in cases_of(path)]
    names = [case.name for case in found]
    twice = sorted({name for name in names if names.count(name) > 1})
    if twice:
        fail(FOLDER.name, f"two cases have one name: {', '.join(twice)}")
    return found
