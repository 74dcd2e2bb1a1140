"""Makes the text of docs/REGISTER.md.

Used by: scripts/register, which writes the page; scripts/check-names, which compares it. After a change here run scripts/register. head.md
explains the columns, and wrong_bodies.txt has the second part.
"""
from register_parts import bodies
from register_parts.citing import cited
from register_parts.source import Crate, crates, read
from register_parts.testing import Tests

# How many tests a line names.
TESTS = 6
HEAD = "scripts/register_parts/head.md"
SECOND = "## Wrong bodies"


def quoted(names):
    """The names in back quotes, one after the other."""
    return ", ".join(f"`{name}`" for name in names)


def clause_part(function, kind):
    """The names of its clauses of this kind."""
    names = [name for what, name, _, _ in function.clauses if what == kind]
    return f"**{kind}** " + ", ".join(f"`{name}`" if name else "*unnamed*" for name in names) if names else ""


def citing_part(function):
    """The definitions that its clauses cite, by page."""
    found = cited(function)
    return "**cites** " + "; ".join(f"{page} {quoted(names)}" for page, names in found.items()) if found else ""


def by_place(edits, show):
    """Edits as `show` makes their names, told by where they are: in the gate, or by rounds."""
    found = {}
    for edit in edits:
        found.setdefault(" and ".join(bodies.where(edit)), []).append(show(edit))
    return "; ".join(f"{', '.join(names)} (*{place}*)" for place, names in found.items())


def edits_part(edits):
    """The names of a function's edits."""
    return "**edits** " + by_place(edits, lambda edit: f"`{edit.split('/')[1]}`") if edits else ""


def tests_part(function, tests):
    """The first of its tests, those that call it themselves before the others."""
    direct, through = tests.of(function)
    shown = quoted(direct[:TESTS])
    rest = through[: max(TESTS - len(direct), 0)]
    if rest:
        shown += (" " if shown else "") + "*through* " + quoted(rest)
    more = len(direct) + len(through) - len(direct[:TESTS]) - len(rest)
    return f"**tests** {shown}" + (f" +{more}" if more else "") if shown else ""


def entry(function, edits, tests, is_shown):
    """The lines of one public function."""
    marks = (" **law**" if function.is_law() else "") + ("" if is_shown else " (*in the crate alone*)")
    parts = [
        clause_part(function, "requires"),
        clause_part(function, "ensures") or "*no contract*",
        citing_part(function),
        edits_part(edits),
        tests_part(function, tests),
    ]
    head = f"- `{function.label()}`{marks}" + (f": {function.doc}" if function.doc else "")
    return head + "<br>\n  " + " · ".join(part for part in parts if part) + "\n"


def inside(edit, function, call):
    """The line of an edit of a private function."""
    at = f", refused at `{call}`" if call else ""
    return f"- *inside* `{function.label()}`: **edit** {by_place([edit], lambda it: '`' + it.split('/')[1] + '`')}{at}\n"


def file_part(crate, source, places, calls, tests):
    """The section of a file, or nothing if it has no public function and no edit."""
    lines = []
    for function in source.functions:
        if function.is_open:
            at = f"{source.path}: {function.label()}"
            edits = [edit for edit in sorted(places) if calls.get(edit) == at]
            lines.append(entry(function, edits, tests, crate.shows(function)))
    for edit, function in sorted(places.items()):
        if function and function.source is source and not function.is_open:
            lines.append(inside(edit, function, calls.get(edit)))
    return f"\n### {source.path}\n\n" + "".join(lines) if lines else ""


def told_line(line, calls):
    """A line of the second part: a row of the first table says where its edits are, and at which calls they are refused."""
    if not isinstance(line, bodies.Row):
        return line
    if not line.is_named or not line.is_whole:
        return f"| {' | '.join(line.cells)} |"
    edits = by_place([it for it in line.edits if bodies.where(it)], lambda edit: "{}/`{}`".format(*edit.split("/")))
    tests = "; ".join(f"{crate}: test{'s' if len(names) > 1 else ''} {quoted(names)}" for crate, names in line.tests)
    refused = "; ".join(part for part in (edits, tests) if part) + (f". {line.besides}" if line.besides else "")
    at = dict.fromkeys(calls[edit].split(": ")[1] for edit in line.edits if edit in calls)
    return f"| {line.cells[0]} | {line.cells[1]} | {refused} | {quoted(at)} |"


def tests_there(crate):
    """The names of a crate's tests, by file."""
    lines = ""
    for source in crate.sources:
        names = [function.name for function in source.functions if function.is_test]
        lines += f"- {source.path}: {quoted(names)}\n" if names else ""
    return "\n" + lines if lines else ""


def register():
    """The text of the page, and what its parts kept by hand name though it isn't there."""
    found = [Crate(name) for name in crates()]
    tests, lines = Tests(found), list(bodies.lines_told())
    rows, there = bodies.rows_of(lines), bodies.There(found)
    calls = there.public_calls(rows)
    out = read(HEAD)
    for crate in found:
        parts = [file_part(crate, s, there.edits, calls, tests) for s in crate.sources if not crate.is_test(s)]
        text = "".join(parts) + tests_there(crate)
        out += f"\n## {crate.name}\n" + text if text else ""
    second = "\n".join(told_line(line, calls) for line in lines[lines.index(SECOND):])
    return f"{out}\n{second.replace('{count}', str(sum(row.is_named for row in rows)))}", bodies.faults(rows, there)
