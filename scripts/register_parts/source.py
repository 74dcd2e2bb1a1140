"""Reads the functions of the crates out of their sources: contracts, documents, bodies, and what they call.

Used by: scripts/check-memory, scripts/check-names, scripts/check-wrong-bodies, scripts/register, bodies.py, citing.py, page.py,
edit_parts/edits.py, edit_parts/rounds.py, name_parts/heads.py. Its patterns are of the sources as `rt fmt` leaves them. After a change here run
scripts/register.
"""
import functools
import os
import re

TOP = os.path.dirname(os.path.dirname(os.path.dirname(os.path.abspath(__file__))))
OPAQUE = re.compile(
    r"//[^\n]*|/\*.*?\*/"
    r'|\bb?r(#*)".*?"\1|b?"(?:\\.|[^"\\])*"'
    r"|b?'(?:\\(?:u\{[^}]*\}|x..|.)|[^'\\\n])'",
    re.S,
)
FUNCTION = re.compile(r"^[ \t]*(pub(?:\([a-z]+\))? )?(?:const )?(?:unsafe )?(?:extern +)?fn (\w+)", re.M)
OWNER = re.compile(r"^[ \t]*(pub(?:\([a-z]+\))? )?(?:unsafe )?(impl|trait)\b([^{;]*)\{", re.M)
BRACKET = re.compile(r"[{}]")
# What tells where a contract has its clauses and its end.
SIGN = re.compile(r"\b(requires|ensures)\b\s*(\w+)?\s*\{|[()\[\];{]")
GHOST_USE = re.compile(r"^([ \t]*)ghost use Rattle\.([\w.]+?)(?:\.\{([^}]*)\}| as (\w+));", re.M)
TEST_MODULE = re.compile(r"#\[cfg\(test\)\]\s*(?:pub )?mod (\w+);")
EXPORT = re.compile(r"^pub use ([^;]*);", re.M)
OPEN_MODULE = re.compile(r"^pub mod (\w+);", re.M)
NOTHING = re.compile(r"\s*(?:<[^()]*>)?\(\)\s*(?:requires|ensures)\b")
CALL = re.compile(r"(?:(\.)|((?:\w+(?:::<[^()]*?>)?::)+))?\b(\w+)(?:::<[^()]*?>)?\(")


@functools.cache
def read(path):
    """The text of a file, named from the top of the repository."""
    with open(os.path.join(TOP, path), encoding="utf-8", errors="replace") as file:
        return file.read()


def crates():
    """The names of the crates, in the order of crates.txt."""
    # (a name may have more words behind it, as `staticlib`)
    return [line.split()[0].rstrip(":") for line in read("crates.txt").split("\n") if ":" in line and not line.startswith("#")]


def files_below(folder, ending):
    """The paths from the top of all files below a folder with this ending, in order."""
    found = []
    for at, folders, files in os.walk(os.path.join(TOP, folder)):
        folders.sort()
        found += [os.path.relpath(os.path.join(at, file), TOP) for file in sorted(files) if file.endswith(ending)]
    return found


def masked(text):
    """The text with comments, strings and characters as blanks, of the same length."""
    return OPAQUE.sub(lambda part: re.sub(r"[^\n]", " ", part.group()), text)


def block_end(code, start):
    """The place after the bracket that closes the one at `start`."""
    depth = 0
    for bracket in BRACKET.finditer(code, start):
        depth += 1 if bracket.group() == "{" else -1
        if depth == 0:
            return bracket.end()
    return len(code)


def without_generics(text):
    """The text without what is in angle brackets."""
    text, before = text.replace("->", ""), None
    while text != before:
        before, text = text, re.sub(r"<[^<>]*>", "", text)
    return text


class Owner:
    """A block of `impl` or `trait`: the name of its type or trait, and where it is."""

    def __init__(self, code, found):
        words = without_generics(found.group(3)).split(" where")[0].split(":")[0] if found.group(2) == "trait" else ""
        words = words or re.sub(r"\s+where\b.*", "", without_generics(found.group(3)), flags=re.S)
        self.of_trait = " for " in words
        self.is_open_trait = found.group(2) == "trait" and found.group(1) == "pub "
        self.name = re.findall(r"\w+", words.split(" for ")[-1])[-1]
        self.start, self.end = found.start(), block_end(code, found.end() - 1)


class Function:
    """A function of a source file."""

    def __init__(self, source, found, owner):
        self.source, self.owner, self.name = source, owner, found.group(2)
        self.start, self.name_end = found.start(), found.end()
        self.clauses, self.body = contract(source.code, found.end())
        self.is_open = found.group(1) == "pub " or bool(owner and owner.is_open_trait)
        before = source.text[: self.start].rstrip("\n").split("\n")
        self.doc, self.is_test = above(before)

    def label(self):
        """Its name, with that of its type."""
        return f"{self.owner.name}::{self.name}" if self.owner else self.name

    def body_text(self):
        """What it does, as code."""
        return self.source.code[self.body[0]:self.body[1]] if self.body else ""

    def is_law(self):
        """Whether it takes nothing, gives nothing and promises something."""
        return bool(self.clauses and NOTHING.match(self.source.code, self.name_end))

    @functools.cached_property
    def calls(self):
        """What its body calls: whether as a method, the last word before the name, and the name."""
        found = set()
        for dot, path, name in CALL.findall(self.body_text()):
            parts = re.findall(r"\w+", without_generics(path))
            found.add((bool(dot), parts[-1] if parts else "", name))
        return found


def contract(code, at):
    """The clauses of a function, as (kind, name, start, end), and where its body is, if it has one."""
    clauses, depth = [], 0
    while sign := SIGN.search(code, at):
        at, text = sign.end(), sign.group()
        if text in ("(", "[", ")", "]"):
            depth += 1 if text in "([" else -1
        elif depth == 0 and sign.group(1):
            at = block_end(code, sign.end() - 1)
            clauses.append((sign.group(1), sign.group(2) or "", sign.end(), at - 1))
        elif depth == 0 and text in (";", "{"):
            return clauses, (sign.start(), block_end(code, sign.start())) if text == "{" else None
    return clauses, None


def above(lines):
    """The first sentence of the document above a function, and whether an attribute says that it is a test."""
    doc, is_test = [], False
    for line in reversed(lines):
        line = line.strip()
        if line.startswith("///"):
            doc.insert(0, line[3:].strip())
        elif line.startswith("#["):
            is_test = is_test or line == "#[test]"
        else:
            break
    paragraph = " ".join(doc[: doc.index("")] if "" in doc else doc)
    paragraph = re.sub(r"\[(`[^`]*`)\](?:\(crate::\w+\))?", r"\1", paragraph).replace("`crate::", "`")
    return re.split(r"(?<=[.!?]) (?=[A-Z`\[\"])", paragraph)[0], is_test


class Source:
    """A source file of a crate, with the text that it has or another."""

    def __init__(self, crate, path, text=None):
        self.crate, self.path, self.text = crate, path, read(path) if text is None else text
        self.code = masked(self.text)
        owners = [Owner(self.code, found) for found in OWNER.finditer(self.code)]
        self.functions = [
            Function(self, found, next((o for o in owners if o.start <= found.start() < o.end), None))
            for found in FUNCTION.finditer(self.code)
        ]
        self.crates_named = set(re.findall(r"\b(mw\w*)::", self.code)) | {crate}

    def uses(self):
        """Its `ghost use` lines: the place from and up to which each holds, the page, the names and the alias."""
        found = []
        for line in GHOST_USE.finditer(self.code):
            indent, page, names, alias = line.groups()
            close = re.compile(rf"^[ \t]{{0,{max(len(indent) - 1, 0)}}}\}}", re.M).search(self.code, line.end())
            end = close.start() if indent and close else len(self.code)
            found.append((line.start() if indent else 0, end, page, names, alias))
        return found

    def function_at(self, place):
        """The function whose body has this place."""
        inside = [f for f in self.functions if f.body and f.body[0] <= place < f.body[1]]
        return inside[-1] if inside else None


class Crate:
    """A crate with its sources, and which names it shows to others."""

    def __init__(self, name):
        self.name = name
        self.sources = [Source(name, path) for path in files_below(f"crates/{name}/src", ".rt")]
        self.exported = {word for s in self.sources for use in EXPORT.findall(s.code) for word in re.findall(r"\w+", use)}
        self.open_modules = {module for s in self.sources for module in OPEN_MODULE.findall(s.code)} | {"lib"}
        self.test_modules = {
            os.path.join(os.path.dirname(s.path), module) for s in self.sources for module in TEST_MODULE.findall(s.code)
        }

    def is_test(self, source):
        """Whether a source is a module of tests, or within one."""
        return any(source.path == test + ".rt" or source.path.startswith(test + "/") for test in self.test_modules)

    def shows(self, function):
        """Whether another crate can name this function."""
        name = function.owner.name if function.owner else function.name
        module = os.path.basename(function.source.path)[:-3]
        return name in self.exported or (module in self.open_modules and "/src/" + module in function.source.path)
