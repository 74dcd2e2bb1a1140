"""Man pages of all programs, made from the pages of the documents and from the heads of what cron runs.

Used by: scripts/package, which puts them into the packages; scripts/check-names, which looks that each option has its row.
"""
import re
from pathlib import Path
from typing import Dict, List, NamedTuple, Tuple

TOP = Path(__file__).resolve().parent.parent.parent
INLINE = re.compile(r"`(?P<code>[^`]+)`|\*\*(?P<bold>[^*]+)\*\*|\*(?P<italic>[^*\s][^*]*)\*|!?\[(?P<link>(?:[^\]\[]|\[[^\]]*\])*)\]\([^)]*\)")
DATED = re.compile(r"^20\d\d-\d\d-\d\d[,:]")
"""How a paragraph of measured figures begins, with which a man page ends."""
TO_SECTION = re.compile(r"\[([^\]\[]*)\]\(([^)\s#]*)#([^)\s]*)\)")
"""A link to a heading: its text, the page if it is another one, and the heading."""
OTHERS = {"mwinit": ("mwserve:", "tenant "), "mwserve": ("mwinit:",)}
"""How messages begin that a program doesn't have, of those in one table with its own."""


class Manual(NamedTuple):
    """A man page: what its program is for, and the sections of documents that it has, by page and heading, or the script whose head it has."""
    purpose: str
    sections: Tuple[Tuple[str, str], ...] = ()
    script: str = ""


OPERATING = "docs/OPERATING.md"
LAST = ((OPERATING, "Exit statuses"), (OPERATING, "Messages"))
MANUALS: Dict[str, Manual] = {
    "mwinit": Manual("makes a tenant's file", ((OPERATING, "mwinit"), *LAST)),
    "mwserve": Manual("serves durable words with a multi-word compare-and-swap", ((OPERATING, "mwserve"), (OPERATING, "The tenants file"), *LAST)),
    "mwshow": Manual("shows what a tenant's file says", ((OPERATING, "mwshow"), (OPERATING, "Damage"))),
    "mwreplay": Manual("plays a schedule of a server in memory", (("docs/SCHEDULES.md", "Schedules"), ("docs/SCHEDULES.md", "What can be wrong"))),
    "mwbench": Manual("loads a server, and measures its replies", (("docs/BENCH.md", "A whole server"),)),
    "mondlexi": Manual("reads and changes the words of a server, by hand or in scripts", (("docs/CLIENTS.md", "The command mondlexi"),)),
    "mondlexi-check": Manual("looks whether all tenants are up, by a report", script="contrib/mondlexi-check"),
    "mondlexi-health": Manual("looks whether all tenants are up, by the pages", script="contrib/mondlexi-health"),
    "mondlexi-backup": Manual("makes a backup of all tenants while they are served", script="contrib/mondlexi-backup"),
    "mondlexi-ready": Manual("waits until a server serves", script="contrib/mondlexi-ready"),
}
"""The man page of each program."""


def section_text(page: str, heading: str) -> str:
    """The text of a section, to the next heading, or to its first figures. The first section of a page has the page's name."""
    parts = re.split(rf"^#+ {re.escape(heading)}$\n", (TOP / page).read_text(encoding="utf-8"), flags=re.MULTILINE)
    if len(parts) != 2:
        raise ValueError(f"{page} has {len(parts) - 1} headings {heading!r}, which a man page needs once")
    kept: List[str] = []
    for line in parts[1].splitlines():
        if re.match(r"#+ ", line) or DATED.match(line):
            break
        kept.append(line)
    return "\n".join(kept).strip("\n")


def told_here(text: str, page: str, sections: Tuple[Tuple[str, str], ...]) -> str:
    """A section's text, in which a link by a heading that this man page lacks, as the heading is written, says where that is."""
    def told(found: "re.Match[str]") -> str:
        name, path, heading = found.groups()
        to = str(Path(page).parent / path) if path else page
        is_heading = name[:1].isupper() and heading == re.sub(r"[^a-z0-9 -]", "", name.lower()).replace(" ", "-")
        return f'see "{name}" in {Path(to).name}' if is_heading and (to, name) not in sections else found[0]
    return TO_SECTION.sub(told, text)


def cells_of(line: str) -> List[str]:
    """The cells of a table's row."""
    return [it.strip() for it in re.split(r"(?<!\\)\|", line)[1:-1]]


def own_part(name: str, text: str) -> str:
    """Exit statuses and messages of this program alone: of a table with a column for each program, its own; of a table of messages the rows
    that it has, and what follows the table if it is the server."""
    lines = text.split("\n")
    rows = [number for number, line in enumerate(lines) if line.startswith("|")]
    columns = cells_of(lines[rows[0]])
    if f"`{name}`" in columns:
        at = columns.index(f"`{name}`")
        own = [cells for cells in (cells_of(lines[number]) for number in rows) if cells[at]]
        return "\n".join([*lines[:rows[0]], *(f"| {cells[0]} | {cells[at]} |" for cells in own)])
    kept, others = lines[:rows[0] + 2], f"`(?:{'|'.join(OTHERS[name])})"
    for number in rows[2:]:
        if not re.match(rf"\| {others}", lines[number]):
            kept.append(re.sub(rf", {others}[^`]*`", "", lines[number]))
    return "\n".join(kept + (lines[rows[-1] + 1:] if name == "mwserve" else []))


def escaped(text: str) -> str:
    """A text as roff has it."""
    return text.replace("\\", "\\(rs").replace("-", "\\-").replace("'", "\\(aq").replace("µ", "\\(mc")


def inline(text: str) -> str:
    """A text with code, links and what is set off."""
    def plain(found: "re.Match[str]") -> str:
        kind = found.lastgroup or ""
        inner = found[kind]
        if kind == "code":
            return f"\\fB{escaped(inner)}\\fR"
        return inline(inner) if kind == "link" else f"\\fI{inline(inner)}\\fR"
    parts, last = [], 0
    for found in INLINE.finditer(text):
        parts += [escaped(text[last:found.start()]), plain(found)]
        last = found.end()
    return "".join([*parts, escaped(text[last:])])


def shown(text: str) -> str:
    """A paragraph of its own. A sign that begins a request of roff is none."""
    told = inline(" ".join(text.split()))
    return f"\\&{told}" if told.startswith(".") else told


def table(lines: List[str]) -> List[str]:
    """A table as a list: the first cell names a row, and the others follow, from the third on with the head of their column."""
    rows = [[it.replace("\\|", "|") for it in cells_of(line)] for line in lines]
    made = []
    for first, *rest in rows[2:]:
        text = rest[0] + "".join(f" ({head}: {cell})" for head, cell in zip(rows[0][2:], rest[1:]) if cell)
        made += [".TP", shown(first), shown(text) or "\\&"]
    return made


def block(text: str) -> List[str]:
    """A block of a page: a listing, a table, a list or a paragraph."""
    lines = text.split("\n")
    if lines[0].startswith("    ") or lines[0].startswith("```"):
        listing = [line[4:] if line.startswith("    ") else line for line in lines if not line.startswith("```")]
        return [".PP", ".nf", ".RS 4", *(f"\\&{escaped(line)}" for line in listing), ".RE", ".fi"]
    if lines[0].startswith("|"):
        return table(lines)
    items = re.split(r"^(- |\d+\. )", text, flags=re.MULTILINE)
    if len(items) > 1 and not items[0]:
        marks = ["\\(bu" if mark == "- " else mark.strip() for mark in items[1::2]]
        return [line for mark, item in zip(marks, items[2::2]) for line in (f".IP {mark} 4", shown(item))]
    return [".PP", shown(text)]


def blocks(text: str) -> List[str]:
    """A section in roff."""
    whole = re.sub(r"^```.*?^```$", lambda found: re.sub(r"\n\n+", "\n\\\\&\n", found[0]), text, flags=re.MULTILINE | re.DOTALL)
    return [line for it in re.split(r"\n\n+", whole) if it.strip() for line in block(it)]


def head_of(script: str) -> List[str]:
    """What the head of a script says."""
    text = (TOP / script).read_text(encoding="utf-8")
    found = re.match(r'#![^\n]*\n(?:"""(.*?)"""|((?:# [^\n]*\n)+))', text, re.DOTALL)
    if not found:
        raise ValueError(f"{script} has no head, which its man page needs")
    return [".PP", shown(found[1] or re.sub(r"^# ", "", found[2], flags=re.MULTILINE))]


def manual(name: str, version: str, day: str) -> str:
    """The man page of a program, in roff. ValueError if a document lacks what it needs."""
    of = MANUALS[name]
    # (moment and commit of an unreleased version leave no room for the day at the foot of a page)
    short = re.sub(r"(?<=\+unreleased)\..*", "", version)
    text = [f'.TH {name.upper()} 1 {day} "mondlexi {short}"', ".SH NAME", f"{name} \\- {escaped(of.purpose)}"]
    for number, (page, heading) in enumerate(of.sections):
        told = told_here(section_text(page, heading), page, of.sections)
        part = own_part(name, told) if (page, heading) in LAST else told
        text += [f".SH {'DESCRIPTION' if number == 0 else heading.upper()}", *blocks(part)]
    if of.script:
        text += [".SH DESCRIPTION", *head_of(of.script)]
    others = ", ".join(f"\\fB{it}\\fR(1)" for it in MANUALS if it != name)
    return "\n".join([*text, ".SH SEE ALSO", f"{escaped('/usr/share/doc/mondlexi/docs')}, {others.replace('-', chr(92) + '-')}"]) + "\n"


def options_of(source: str) -> List[str]:
    """The options that a source gives to the command line of its program."""
    return re.findall(r'Argument \{\s+name: "([a-z-]+)"', (TOP / source).read_text(encoding="utf-8"))


def faults() -> List[str]:
    """What is wrong with the man pages: a section that isn't there, an option of mwserve without a row, or a row of none."""
    found: List[str] = []
    for name in MANUALS:
        try:
            manual(name, "0", "0")
        except (ValueError, OSError) as error:
            found.append(f"man page of {name}: {error}")
    rows = set(re.findall(r"^\| `--([a-z-]+)", section_text(OPERATING, "mwserve"), re.MULTILINE))
    options = set(options_of("crates/mw_config/src/options.rt"))
    return found + [f"{OPERATING}: the table of mwserve and its command line differ in --{name}" for name in sorted(rows ^ options)]
