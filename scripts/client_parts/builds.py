"""The clients, how each is built, and the programs that scripts/check-clients asks.

Used by: scripts/check-clients; scripts/check-programs, which plays the cases with the two in Python, runs that script for each of CLIENTS, and
tells which parts it leaves out. A further client has a row in CLIENTS, one in FORMS of names.py, and a word in SOURCES of
package_parts/clients.py.
"""
import re
import shutil
import subprocess
import sys
from pathlib import Path
from typing import Callable, List, NamedTuple, Sequence

from package_parts import clients as packed

from .examples import try_locks, try_secure
from .peer import Different
from .runs import PLACE

TOP = Path(__file__).resolve().parent.parent.parent
PLAY = Path(__file__).resolve().parent / "play.py"
VERSION = TOP / "crates/mw_main/src/lib.rt"
C = TOP / "clients/c"
LEAST_NODE = 20
TYPES_OF_NODE = "declare module 'node:tls' { export interface ConnectionOptions { servername?: string } }\n"
"""What the client's types need of Node's, which a package of another project has."""
VALGRIND = ("valgrind", "-q", "--leak-check=full", "--show-leak-kinds=all", "--errors-for-leak-kinds=all", "--error-exitcode=99",
            f"--suppressions={Path(__file__).resolve().parent}/loader.supp")
QUICK = ("-XX:TieredStopAtLevel=1", "-XX:+UseSerialGC", "-Xmx64m")
"""For a program in Java that doesn't run for long."""


def missing_of(needs: Sequence[str]) -> str:
    """Which of these commands, and files by their whole paths, aren't here; nothing if all are."""
    return ", ".join(f"there is no {need}" for need in needs if not (Path(need).is_file() if need[0] == "/" else shutil.which(need)))


class Part(NamedTuple):
    """A part of a client's check that needs more than its compiler: what it is, and the commands and files that it needs."""
    what: str
    needs: Sequence[str]

    def is_here(self) -> bool:
        """Whether it can be tried."""
        return not missing_of(self.needs)


GCC, CLANG = Part("a build by gcc", ("gcc",)), Part("a build by clang", ("clang",))
PKG_CONFIG = Part("what pkg-config says of the library", ("pkg-config",))
PACKAGE = Part("a program by the package libmondlexi-dev", ("readelf", "dpkg-deb", "pkg-config"))
PAGE = Part("the page of the manual", ("groff",))
OVER_TLS = Part("the example over TLS", ("openssl", "/usr/include/openssl/ssl.h"))
OVER_PROVED = Part("the client over mw_client_c", ("rt",))
MEMORY = Part("a run under valgrind", ("valgrind",))
RUSTFMT, CLIPPY = Part("what rustfmt says", ("rustfmt",)), Part("what clippy says", ("cargo-clippy",))
GOFMT, TYPES, KEYS = Part("what gofmt says", ("gofmt",)), Part("its types", ("tsc",)), Part("its tests over TLS", ("keytool",))


class Program(NamedTuple):
    """A program that makes the calls of clients/cases, and how it is called.

    `is_slow`: whether it takes long to begin, so that one process plays all cases."""
    name: str
    words: Sequence[str]
    is_slow: bool = False


PYTHON, ASYNCIO = Program("python", [sys.executable, str(PLAY)]), Program("asyncio", [sys.executable, str(PLAY), "--asyncio"])


class Built(NamedTuple):
    """A client that is built.

    `programs`: those that make calls; the first is the one that users have. `examples`: the commands that run what its README has."""
    programs: List[Program]
    examples: Sequence[Sequence[str]] = ()


class Client(NamedTuple):
    """A client: its name, the commands that it needs, and what builds it in a folder, with the place of the server for the program of its
    README. `parts`: what is tried of it if more is here. `too_old`: why what is here is too old for it; nothing if it isn't."""
    name: str
    needs: Sequence[str]
    build: Callable[[Path, str], Built]
    parts: Sequence[Part] = ()
    too_old: Callable[[], str] = lambda: ""

    def missing(self) -> str:
        """What it needs and isn't here; nothing if all is."""
        return missing_of(self.needs) or self.too_old()

    def parts_left_out(self) -> List[str]:
        """The parts that can't be tried here, and why."""
        return [f"{self.name}: {part.what}: {missing_of(part.needs)}" for part in self.parts if not part.is_here()]

    def left_out(self) -> List[str]:
        """What can't be tried of it here, and why."""
        return [f"{self.name}: {self.missing()}"] if self.missing() else self.parts_left_out()


def ran(*words: object, at: Path) -> str:
    """What a command prints; it must go well. Different if the client can't be built so, or the command finds fault with it."""
    ended = subprocess.run([str(word) for word in words], cwd=at, stdin=subprocess.DEVNULL, stdout=subprocess.PIPE, stderr=subprocess.STDOUT)
    text = ended.stdout.decode(errors="replace")
    if ended.returncode:
        raise Different(f"{' '.join(map(str, words))}: {text}")
    return text


def ran_if(part: Part, *words: object, at: Path) -> None:
    """Runs the command of a part that can be tried here. It must go well, and print nothing if it prints faults."""
    if part.is_here():
        told = ran(*words, at=at)
        if told and part in (PAGE, GOFMT):
            raise Different(f"{words[0]} finds {told}")


def example(client: Path, language: str, place: str) -> str:
    """The program of a client's README, its first block in this language, for a server at this place."""
    found = re.search(rf"^```{language}\n(.*?)^```$", (client / "README.md").read_text(), re.MULTILINE | re.DOTALL)
    if not found or PLACE not in found[1]:
        raise Different(f"{client}/README.md has no program in {language} for a server at {PLACE}")
    return found[1].replace(PLACE, place)


def check_version(client: str, version: str) -> None:
    """The client must have the version of the programs."""
    wanted = VERSION.read_text().split('"')[1]
    if version != wanted:
        raise Different(f"the client in {client} has version {version}, the programs have {wanted}")


def check_version_in(client: str, file: Path, version: str) -> None:
    """A file of the client must have the version of the programs, by this pattern."""
    found = re.search(version, file.read_text(), re.MULTILINE)
    check_version(client, found[1] if found else f"none in {file.name}")


def copied(client: str, folder: Path, language: str, place: str, file: str, version: str) -> "tuple[Path, str]":
    """A copy of a client's source, in which tools may write, and the program of its README. In the file is the version, by its pattern."""
    top, copy = TOP / "clients" / client, folder / "source"
    shutil.copytree(top, copy, ignore=shutil.ignore_patterns("out"))
    check_version_in(client.capitalize(), copy / file, version)
    return copy, example(top, language, place)


def of_python(folder: Path, place: str) -> Built:
    """Nothing is built. The program of its README finds the package by its folder."""
    source, own = TOP / "clients/python", folder / "example.py"
    own.write_text(example(source, "python", place))
    return Built([PYTHON], [["env", f"PYTHONPATH={source}", sys.executable, "-B", str(own)]])


def of_asyncio(*_: object) -> Built:
    """Nothing is built."""
    return Built([ASYNCIO])


def over_shared(program: Path, libraries: Path) -> List[str]:
    """How a program over a shared library in this folder is called."""
    return ["env", f"LD_LIBRARY_PATH={libraries}", str(program)]


def install_c(compiler: str, folder: Path, place: str) -> List[List[str]]:
    """Installs the library below a folder, and builds the program of its README, shared and static. How both are called."""
    ran("make", f"CC={compiler}", f"OUT={folder}/out", f"PREFIX={folder}/usr", "install", at=C)
    (folder / "example.c").write_text(example(C, "c", place))
    headers, libraries = folder / "usr/include", folder / "usr/lib"
    flags = [f"-I{headers}", f"-L{libraries}", "-lmondlexi"]
    if PKG_CONFIG.is_here():
        told = ("env", f"PKG_CONFIG_PATH={libraries}/pkgconfig", "pkg-config")
        check_version("C", ran(*told, "--modversion", "mondlexi", at=folder).strip())
        flags = ran(*told, "--cflags", "--libs", "mondlexi", at=folder).split()
    ran(compiler, "-Wall", "-Wextra", "-Werror", "-o", "example", "example.c", *flags, at=folder)
    ran(compiler, "-o", "static", "-I", headers, "example.c", libraries / "libmondlexi.a", at=folder)
    return [over_shared(folder / "example", libraries), [str(folder / "static")]]


def by_package(folder: Path, place: str) -> List[List[str]]:
    """Builds the program of the README with what libmondlexi-dev has, where that can be made and taken apart. How it is called."""
    if not PACKAGE.is_here():
        return []
    (folder / "room").mkdir(parents=True)
    made = packed.make_library(folder, folder / "room", "0.0.1", "nobody <root@localhost>", 0)
    ran("dpkg-deb", "-x", made, folder / "root", at=folder)
    (folder / "example.c").write_text(example(C, "c", place))
    libraries = Path(f"{folder}/root{packed.LIBRARIES}")
    paths = (f"PKG_CONFIG_SYSROOT_DIR={folder}/root", f"PKG_CONFIG_LIBDIR={libraries}/pkgconfig")
    flags = ran("env", *paths, "pkg-config", "--cflags", "--libs", "mondlexi", at=folder).split()
    ran("cc", "-o", "example", "example.c", *flags, at=folder)
    return [over_shared(folder / "example", libraries)]


def over_proved(folder: Path) -> List[Program]:
    """Over the proved lines and readings, where `rt` is here, which builds them."""
    if not OVER_PROVED.is_here():
        return []
    missing = packed.build_proved()
    if missing:
        raise Different(missing)
    ran("make", f"OUT={folder}/out", f"PROVED={packed.PROVED}", "all", f"{folder}/out/play", at=C)
    return [Program("c over mw_client_c", [f"{folder}/out/play"])]


def of_c(folder: Path, place: str) -> Built:
    """By each C compiler, with its examples, a lock and TLS, and over what is proved; the program of the first one also under valgrind,
    where it is here. The page of the manual must be without faults."""
    check_version_in("C", C / "mondlexi.h", '^#define MONDLEXI_VERSION "(.*)"$')
    check_version_in("C", C / "mondlexi.3", '^\\.TH .* "Mondlexi (.*)" ".*"$')
    programs: List[Program] = []
    examples: List[List[str]] = []
    for compiler in [it for it in ("gcc", "clang") if shutil.which(it)] or ["cc"]:
        own = folder / compiler
        make = ("make", f"CC={compiler}", f"OUT={own}/out")
        ran(*make, "all", f"{own}/out/play", at=C)
        examples += install_c(compiler, own, place)
        for name, tries in (("lock_table", try_locks), *([("over_openssl", try_secure)] if OVER_TLS.is_here() else [])):
            ran(*make, f"{own}/out/{name}", at=C)
            tries(own / "out" / name)
        programs.append(Program(f"c by {compiler}", [f"{own}/out/play"]))
    programs += over_proved(folder / "proved")
    ran_if(PAGE, "groff", "-man", "-ww", "-z", "-Tutf8", C / "mondlexi.3", at=C)
    examples += by_package(folder / "package", place)
    if MEMORY.is_here():
        programs.append(Program("c under valgrind", [*VALGRIND, *programs[0].words], is_slow=True))
    return Built(programs, examples)


def of_rust(folder: Path, place: str) -> Built:
    """By cargo, without a network; rustfmt and clippy look at it, where they are here. The program of its README is one of its examples."""
    source, readme = copied("rust", folder, "rust,no_run", place, "Cargo.toml", '^version = "(.*)"$')
    cargo = ("env", f"CARGO_TARGET_DIR={folder}/out", "cargo")
    ran_if(RUSTFMT, *cargo, "fmt", "--check", at=source)
    ran_if(CLIPPY, *cargo, "clippy", "--offline", "--all-targets", "--", "-D", "warnings", at=source)
    ran(*cargo, "test", "--offline", at=source)
    (source / "examples/readme.rs").write_text(readme)
    ran(*cargo, "build", "--offline", "--release", "--examples", at=source)
    made = f"{folder}/out/release/examples"
    return Built([Program("rust", [f"{made}/play"])], [[f"{made}/readme"]])


def of_go(folder: Path, place: str) -> Built:
    """By go, without a network; gofmt and vet look at it. The program of its README is built too."""
    source, readme = copied("go", folder, "go", place, "mondlexi.go", '^const Version = "(.*)"$')
    (source / "example").mkdir()
    (source / "example/main.go").write_text(readme)
    go = ("env", "GOPROXY=off", "GOTOOLCHAIN=local", "GOFLAGS=", "go")
    ran_if(GOFMT, "gofmt", "-l", source, at=source)
    for words in (("vet", "./..."), ("test", "."), ("build", "-o", folder, "./play", "./example")):
        ran(*go, *words, at=source)
    return Built([Program("go", [f"{folder}/play"])], [[f"{folder}/example"]])


def check_types(source: Path, folder: Path) -> None:
    """The types must fit a program that uses each call."""
    (folder / "node_modules").mkdir()
    (folder / "node_modules/mondlexi").symlink_to(source)
    (folder / "package.json").write_text('{ "type": "module" }\n')
    (folder / "node.d.ts").write_text(TYPES_OF_NODE)
    shutil.copy(source / "test/types.ts", folder)
    kind = ("--target", "es2022", "--lib", "es2022,dom", "--module", "node16", "--moduleResolution", "node16")
    ran("tsc", "--noEmit", "--strict", "--exactOptionalPropertyTypes", *kind, "types.ts", "node.d.ts", at=folder)


def old_node() -> str:
    """Why Node is too old for the client; nothing if it isn't."""
    version = ran("node", "--version", at=TOP).strip()
    return "" if int(version[1:].partition(".")[0]) >= LEAST_NODE else f"node is {version}, and it needs {LEAST_NODE}"


def of_node(folder: Path, place: str) -> Built:
    """Nothing is built. Its own tests are run, and, where tsc is here, its types are tried."""
    source, readme = copied("node", folder, "js", place, "package.json", '"version": "(.*)"')
    (source / "example.mjs").write_text(readme)
    ran("node", "--test", "test", at=source)
    if TYPES.is_here():
        check_types(source, folder)
    return Built([Program("node", ["node", f"{source}/play.js"])], [["node", f"{source}/example.mjs"]])


def of_java(folder: Path, place: str) -> Built:
    """By javac, whose warnings are errors. Its own tests are run, with a key for TLS where keytool is here, and the program of its README is built."""
    source, readme = copied("java", folder, "java", place, "src/mondlexi/Client.java", 'VERSION = "(.*)";')
    (source / "AddOne.java").write_text(readme)
    javac = ("javac", "--release", "17", "-Werror", "-d", folder / "out")
    ran(*javac, "-Xlint:all", "-Xdoclint:all/protected", *sorted((source / "src/mondlexi").glob("*.java")), at=source)
    ran(*javac, "-Xlint:all", "-cp", folder / "out", "play/Play.java", "test/ClientTest.java", "AddOne.java", at=source)
    about = ("-dname", "CN=server", "-ext", "SAN=IP:127.0.0.1", "-validity", "2", "-storetype", "PKCS12", "-storepass", "changeit")
    ran_if(KEYS, "keytool", "-genkeypair", "-alias", "server", "-keyalg", "EC", *about, "-keystore", folder / "keys", at=folder)
    java = ("java", *QUICK, "-cp", f"{folder}/out")
    ran(*java, "ClientTest", folder / "keys", at=folder)
    return Built([Program("java", [*java, "Play"])], [[*java, "AddOne"]])


OF_C = (GCC, CLANG, PKG_CONFIG, PACKAGE, PAGE, OVER_TLS, OVER_PROVED, MEMORY)
CLIENTS = (
    Client("python", (), of_python),
    Client("asyncio", (), of_asyncio),
    Client("c", ("cc", "make"), of_c, OF_C),
    Client("rust", ("cargo",), of_rust, (RUSTFMT, CLIPPY)),
    Client("go", ("go",), of_go, (GOFMT,)),
    Client("node", ("node",), of_node, (TYPES,), old_node),
    Client("java", ("javac", "java"), of_java, (KEYS,)),
)
