"""Checks what heads say: the comments at the top of the crates' .rt and .antt files, and those of the scripts.

Used by: scripts/check-names. faults() tells what is wrong of the crates' files:

- The heads have at most MOST_WORDS words, the marks of comments counted.
- No head says that its file 'may change freely': CONTRIBUTING says what may.
- Each name of a list 'Used by: a, b, mw_c.' is a file, a function, a type or a crate, and uses the file. A page of specs/ or
  proofs/ is used by what imports it, or names it in a tactic; a function or a file of src/, if a page of proofs/ is imported
  at all, also by what is in its folder of proofs/; a module of src/, by a file that has its name or one that it defines. A crate
  is used by those above it in crates.txt alone. What follows a name is not read.
- A list of a page names each other crate that imports the page, or says 'many crates from mw_a on': more than MOST_NAMED,
  of which mw_a is the lowest. It names also each file of the crate's own src/ that imports the page, or a function or type of
  that file. It need not name pages beside it, nor all functions.
- The head of a file of src/ names each other crate that imports a public name of the file by `use`, in its list if it has one.
  That of a crate's root names each that imports anything of the crate. Crates of tests are left out. The head may say that the
  crates are many, as a page does, or 'among others' or 'Every layer uses'.
- `f` (src/a.rt) in the head of a proof is a function of that file, and 'the law `f`' one of the crate.
- A name that a document cites, as in 'docs/PROMISES cites `f`', is in backquotes in that document.

And of the scripts:

- A script says by 'Used by' who runs it, and has its line 'usage: scripts/NAME'.
- A module of scripts/*_parts has a sentence 'Used by: scripts/a, b.py, c_parts/d.py'. It names each script and module that imports
  the module, and each module beside it that has its name in quotes, as one that runs it: these, and no others. For more than
  MOST_NAMED modules of its own folder, 'many of this folder' may stand.

A rule that is added here is told in the head of scripts/check-names or in CONTRIBUTING too.
"""
import re
from collections import defaultdict
from itertools import takewhile

from register_parts.source import crates, read

MOST_WORDS = 70000
MOST_NAMED = 5
IMPORT = re.compile(r"\bRattle\.(\w+)\.(specs|proofs)\.([\w.]+)")
TACTIC = re.compile(r"\b(crate|mw_\w+)::(specs|proofs)::([\w:]+)")
WORD = re.compile(r"\w+")
SPAN = re.compile(r"`([^`\n]+)`")
DEFINED = re.compile(r"^\s*(?:pub(?:\([a-z]+\))? )?(?:const )?(?:unsafe )?(?:fn|struct|trait|enum|type|const) (\w+)", re.M)
SENTENCE = re.compile(r"(?:(?<=[.])|(?<=[.][)]))\s+(?=[A-Z`\[(]|mw_|docs/|specs/|src/)")
LIST = re.compile(r"Used by:? (.*?)[.:]?")
BETWEEN = re.compile(r"(?:, and |; |, | and )(?![^()]*\))")
NAMED = re.compile(r"(?:and |by )*(?:`([^`]+)`.*|([\w:./-]+)(?: \(.*\))?)")
PUBLIC = re.compile(r"^pub (?:const )?(?:unsafe )?(?:fn|struct|trait|enum|type|const) (\w+)", re.M)
USE = re.compile(r"^ *(?:pub )?use (\w+)::(?:\{([^}]*)\}|(\w+))", re.M)
TAKEN = re.compile(r"(\w+)(?: as \w+)?")
ROOTS = ("/src/lib.rt", "/src/main.rt")
REST = ("among others", "Every layer uses")
MANY = re.compile(r"many crates from (\w+) on")
PLACED = re.compile(r"`([^`]+)` \((src/[\w/]+\.rt)\)")
LAW = re.compile(r"Proves the law `(\w+)`")
FROM = re.compile(r"^\s*from (\.|\w+_parts\b)?\.?(\w*) import (.+)$", re.M)
RUN = re.compile(r'"(\w+\.py)"')
USERS = re.compile(r"\bUsed\s+by:\s(.*?)\.(?:\s|$)", re.S)
USER = re.compile(r"scripts/[\w-]+|(?:\w+/)?\w+\.py")
CITED = re.compile(r"((?:(?:README|(?:docs/)?[A-Z][A-Z-]+)(?:\.md)?(?:, | and )?)+) cites? ((?:`[\w:]+`(?:, | and | or )?)+)")


def head_of(path, text):
    """The lines of a file's head."""
    mark = "//!" if path.endswith(".rt") else "--"
    return [line[len(mark):].strip() for line in takewhile(lambda line: line.startswith(mark), text.split("\n"))]


def crate_of(path):
    return path.split("/")[1]


class Heads:
    """The .rt and .antt files by path, their heads, and who uses what."""

    def __init__(self, texts, documents, order):
        self.texts, self.documents, self.order = texts, documents, order
        self.heads = {path: head_of(path, text) for path, text in texts.items()}
        self.words = {path: set(WORD.findall(text)) for path, text in texts.items() if path.endswith(".rt")}
        self.defined = {path: set(DEFINED.findall(texts[path])) for path in self.words}
        self.importers, self.imported, self.crates = defaultdict(set), defaultdict(set), defaultdict(list)
        self.takers = defaultdict(set)
        for path, text in texts.items():
            self.crates[crate_of(path)].append(path)
            found = set(IMPORT.findall(text))
            for crate, kind, rest in TACTIC.findall(text) if path in self.words else ():
                found.add((crate_of(path) if crate == "crate" else crate, kind, rest.replace("::", ".")))
            self.imported[crate_of(path)].update(crate for crate, _, _ in found)
            for page in {self.page(*names) for names in found} - {None, path}:
                self.importers[page].add(path)
            for crate, several, one in USE.findall(text):
                self.imported[crate_of(path)].add(crate)
                for name in TAKEN.findall(several or one):
                    self.takers[crate, name].add(crate_of(path))
        self.missing = []

    def page(self, crate, kind, rest):
        """The page that Rattle.CRATE.KIND.REST imports from: its longest beginning that is a file."""
        parts = rest.strip(".").split(".")
        pages = (f"crates/{crate}/{kind}/{'/'.join(parts[:count])}.antt" for count in range(len(parts), 0, -1))
        return next((page for page in pages if page in self.texts), None)

    def files(self, crate, name):
        """The files of a crate whose paths end so."""
        return [path for path in self.crates[crate] if path.endswith("/" + name)]

    def definers(self, crate, name):
        """The files of a crate that define a function or a type."""
        return [path for path in self.crates[crate] if name in self.defined.get(path, ())]

    def tell(self, path, text):
        self.missing.append(f"{path}: {text}")

    def not_used(self, path, name):
        self.tell(path, f"is not used by {name}, which its head names")

    def names_crates(self, path, crates, text, names):
        """The crates that use a file are among the names of this text of its head, or the text says that they are many."""
        many = MANY.search(text)
        if many:
            if len(crates) <= MOST_NAMED or min(crates, key=self.order.index) != many.group(1):
                self.tell(path, f"is used by {len(crates)} crates, not by many from {many.group(1)} on")
        elif not any(rest in text for rest in REST):
            others = sorted(crates.difference(names))
            if others:
                self.tell(path, f"is used by {', '.join(others)}, which its head does not name")

    def names_sources(self, path, names):
        """The files of the crate's own src/ that import a page are among these names, or define one of them."""
        crate = crate_of(path)
        users = {user for user in self.importers[path] if user.startswith(f"crates/{crate}/src/")}
        for name in names:
            if name.endswith(".rt"):
                users.difference_update(self.files(crate, name))
            elif not self.files(crate, f"{name}.antt"):
                users.difference_update(self.definers(crate, name.split("::")[-1]))
        if users:
            self.tell(path, f"is used by {', '.join(sorted(users))}, which its head does not name")

    def users_of_page(self, path, items):
        """A list of users in a page of specs/ or proofs/."""
        above = {crate_of(user) for user in self.importers[path]}
        names = [name.group(1) or name.group(2) for name in map(NAMED.fullmatch, items) if name]
        self.names_crates(path, above - {crate_of(path)}, ", ".join(items), names)
        self.names_sources(path, names)
        for name in names:
            if name not in self.order:
                self.user_of_page(path, name)
            elif name not in above:
                self.not_used(path, name)

    def user_of_page(self, path, name):
        """One user of a page in its own crate: a file, a function or a type."""
        crate, importers, last = crate_of(path), self.importers[path], name.split("::")[-1]
        is_proof = path.split("/")[2] == "proofs"
        files = self.files(crate, name if name.endswith(".rt") else f"{name}.antt")
        if files:
            folders = tuple(file.replace("/src/", "/proofs/").removesuffix(".rt") + "/" for file in files if is_proof)
            if not any(user in files or user.startswith(folders) for user in importers) and (importers or not is_proof):
                self.not_used(path, name)
        elif not self.definers(crate, last):
            self.tell(path, f"`{name}` is no file, function, type or crate")
        elif is_proof and importers and last[0].islower():
            if not any(f"/{last}/" in user for user in importers) and not importers.intersection(self.definers(crate, last)):
                self.not_used(path, f"the proof of {name}")

    def crates_of_source(self, path, text):
        """The head of a file of src/ names the crates that import from it."""
        crate = crate_of(path)
        if path.endswith(ROOTS):
            users = {user for user, crates in self.imported.items() if crate in crates}
        else:
            users = set().union(*(self.takers[crate, name] for name in PUBLIC.findall(self.texts[path])))
        users = {user for user in users - {crate} if not user.endswith("_tests")}
        lists = " ".join(sentence for sentence in SENTENCE.split(text) if sentence.startswith("Used by")) or text
        self.names_crates(path, users, lists, WORD.findall(lists))

    def users_of_module(self, path, items):
        """A list of users in a file of src/, where a name has backquotes or is a crate."""
        crate, module = crate_of(path), path.split("/")[-1].removesuffix(".rt")
        mine = set() if module in ("lib", "main") else self.defined[path] | {module}
        for name in map(NAMED.fullmatch, items):
            if name and name.group(2) in self.order:
                user = name.group(2)
                words = [self.words[file] for file in self.crates[user] if file in self.words]
                uses = crate in self.imported[user] or any(crate in some or not mine.isdisjoint(some) for some in words)
                if not uses or self.order.index(user) <= self.order.index(crate):
                    self.not_used(path, user)
            elif name and name.group(1):
                user = name.group(1)
                files = self.files(crate, user if user.endswith(".rt") else f"{user}.rt") or self.definers(crate, user)
                if not files:
                    self.tell(path, f"`{user}` is no module or function of {crate}")
                elif mine and all(mine.isdisjoint(self.words[file]) for file in files):
                    self.not_used(path, f"`{user}`")

    def sentence(self, path, sentence):
        users = LIST.fullmatch(sentence)
        if users:
            items = BETWEEN.split(users.group(1))
            (self.users_of_page if path.endswith(".antt") else self.users_of_module)(path, items)
        for documents, names in CITED.findall(sentence):
            for document in re.findall(r"[A-Z][A-Z-]+", documents):
                words = self.documents.get(document, set())
                cited = [name.split("::")[-1] for name in re.findall(r"`([\w:]+)`", names)]
                if len(words.intersection(cited)) < (1 if " or " in names else len(cited)):
                    self.tell(path, f"{document} does not cite all of {names}")

    def functions(self, path, text):
        """The functions whose goals, invariants or law the head of a proof names."""
        for name, file in PLACED.findall(text):
            function, file = WORD.findall(name.split(" of ")[0])[-1], f"crates/{crate_of(path)}/{file}"
            if function not in self.words.get(file, ()):
                self.tell(path, f"`{name}` is not in {file}")
        for law in LAW.findall(text):
            if not self.definers(crate_of(path), law):
                self.tell(path, f"`{law}` is no law of {crate_of(path)}")

    def head(self, path):
        text = " ".join(self.heads[path])
        if "change freely" in text:
            self.tell(path, "its head says 'change freely'")
        for sentence in SENTENCE.split(text):
            self.sentence(path, sentence)
        if path.endswith(".antt") and "Used by" not in text:
            self.users_of_page(path, [])
        if "/proofs/" in path:
            self.functions(path, text)
        if "/src/" in path:
            self.crates_of_source(path, text)

    def all(self):
        for path in self.heads:
            self.head(path)
        count = sum(len(line.split()) + 1 for head in self.heads.values() for line in head)
        if count > MOST_WORDS:
            self.missing.append(f"the heads of the crates' files have {count} words, and may have {MOST_WORDS}")
        return self.missing


def top_of(text):
    """The head of a script or of a module of Python: its first docstring, or its first comment."""
    found = re.match(r'(?:#!.*\n)?(?:"""([\s\S]*?)"""|((?:#.*\n)+))', text)
    return (found[1] or found[2]) if found else ""


def modules_used(path, text):
    """The modules of scripts/*_parts that a file imports, and those beside it that it names in quotes."""
    own = path.rpartition("/")[0]
    found = {f"{own}/{name}" for name in RUN.findall(text)}
    for folder, module, names in FROM.findall(text):
        for name in [module] if module else names.split(","):
            found.add(f"{own if folder in ('', '.') else f'scripts/{folder}'}/{WORD.search(name)[0]}.py")
    return found - {path}


def path_of(name, folder):
    """The path of a user that the head of a file in this folder names."""
    if "/" not in name:
        return f"{folder}/{name}"
    return name if name.startswith("scripts/") else f"scripts/{name}"


def wrong_users(path, sentence, users):
    """What is wrong with this list of users in the head of a module, which has these users."""
    folder = path.rpartition("/")[0]
    named = {path_of(name, folder) for name in USER.findall(sentence)}
    beside = {user for user in users if user.startswith(f"{folder}/")}
    many = beside if "many of this folder" in sentence and len(beside) > MOST_NAMED else set()
    return ([f"is not used by {user}, which its head names" for user in sorted(named - users)]
            + [f"is used by {user}, which its head does not name" for user in sorted(users - named - many)])


def faults_of_scripts(texts):
    """What is wrong with the heads of the scripts, and of the modules of scripts/*_parts."""
    used_by, missing = defaultdict(set), []
    for path, text in texts.items():
        for module in modules_used(path, text):
            used_by[module].add(path)
    for path, text in texts.items():
        head = top_of(text)
        users, is_script = USERS.search(head), not path.endswith(".py")
        if not users:
            missing.append(f"{path}: its head has no 'Used by:'")
        elif not is_script:
            missing += [f"{path}: {wrong}" for wrong in wrong_users(path, users[1], used_by[path])]
        if is_script and f"usage: {path}" not in head:
            missing.append(f"{path}: its head has no 'usage: {path}'")
    return missing


def faults(files):
    """What is wrong with the heads of these files."""
    texts = {path: read(path) for path in files if path.startswith("crates/") and path.endswith((".rt", ".antt"))}
    documents = {path.split("/")[-1].removesuffix(".md"): set(WORD.findall(" ".join(SPAN.findall(read(path)))))
                 for path in files if re.fullmatch(r"(docs/)?[A-Z-]+\.md", path)}
    scripts = {path: read(path) for path in files if re.fullmatch(r"scripts/([\w-]+|\w+_parts/\w+\.py)", path)}
    return Heads(texts, documents, crates()).all() + faults_of_scripts(scripts)
