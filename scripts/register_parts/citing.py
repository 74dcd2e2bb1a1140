"""Finds the definitions that clauses cite: the crate, the page of its specs/, and the name there. `cited` takes a function of source.py.

Used by: page.py, for the column of definitions in docs/REGISTER.md. If anything else is found than before, run scripts/register.
"""
import functools
import os
import re

from register_parts.source import TOP, read

CITED = re.compile(r"(?<![\w.'])[A-Za-z_][\w']*(?:\.[A-Za-z_]\w*)?")
PASSED_ON = re.compile(r"^pub use Rattle\.([\w.]+)\.\{([^}]*)\}", re.M)


def pairs(names):
    """Names of a `{a, b as c}`, each with the name by which it is used."""
    found = [part.split(" as ") for part in re.split(r",\s*", names.strip()) if part.strip()]
    return [(parts[0].strip(), parts[-1].strip()) for parts in found]


@functools.cache
def page_path(page):
    """The file of a page like mw_file.specs.Keeps; None for one of a library or of declared code."""
    crate, *rest = page.split(".")
    path = os.path.join("crates", crate, *rest) + ".antt"
    return path if rest[:1] == ["specs"] and os.path.isfile(os.path.join(TOP, path)) else None


@functools.cache
def place_of(page, name):
    """Where a name that is taken from a page is defined: `mw_file/Keeps` and the name, or None."""
    path = page_path(page)
    if not path:
        return None
    text = read(path)
    if re.search(rf"^ *(?:pub )?(?:(?:record|abbrev|data) (?:pub )?)?(?:pub )?{re.escape(name)}\b", text, re.M):
        return page.replace(".specs.", "/").replace(".", "/"), name
    for below, names in PASSED_ON.findall(text):
        for real, used in pairs(names):
            if used == name:
                return place_of(below, real)
    return None


def names_at(source, place):
    """What the `ghost use` lines that hold at a place mean: names of definitions, and aliases of pages."""
    names, aliases = {}, {}
    for start, end, page, listed, alias in source.uses():
        if start <= place < end:
            names.update({used: (page, real) for real, used in pairs(listed or "")})
            if alias:
                aliases[alias] = page
    return names, aliases


def cited(function):
    """The definitions that the clauses of a function cite, by page, in the order of the pages' names."""
    names, aliases = names_at(function.source, function.start)
    found = {}
    for _, _, start, end in function.clauses:
        for word in CITED.findall(function.source.text[start:end]):
            head, _, tail = word.partition(".")
            page, name = (aliases[head], tail) if head in aliases else names.get(head, (None, None))
            place = place_of(page, name) if page else None
            if place:
                found.setdefault(place[0], set()).add(place[1])
    return {page: sorted(found[page]) for page in sorted(found)}
