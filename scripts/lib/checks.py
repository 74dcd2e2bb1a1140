"""What a script needs that tries built programs: where they are, whether all is there, a folder of its own, commands that end, and how
a difference is told. Python finds it beside the script, as `lib.checks`.

Used by: scripts/bench-crowd, scripts/check-backup, scripts/check-cache, scripts/check-counts, scripts/check-crowd, scripts/check-http,
scripts/check-limits, scripts/check-locks, scripts/check-map, scripts/check-move, scripts/check-new-file, scripts/check-prometheus,
scripts/check-proxy, scripts/check-refusals, scripts/check-scenes, scripts/check-sockets, scripts/check-stories, scripts/check-texts,
scripts/check-wakes, scripts/closed-streams, scripts/fail-each-allocation, served.py, text_parts/playing.py, and the modules of http_parts,
scene_parts and story_parts. A further program is a row of PROGRAMS here, in program_parts/common.py and in scripts/package.
"""
import contextlib
import os
import resource
import shutil
import signal
import subprocess
import sys
import tempfile
import threading
import time
from pathlib import Path
from typing import Any, Callable, Dict, Iterator, List, Mapping, NamedTuple, NoReturn, Optional, Sequence, Tuple, Type

TOP = Path(__file__).resolve().parent.parent.parent
sys.path.insert(0, str(TOP / "clients/python"))
SCRIPT = Path(sys.argv[0]).name
PROGRAMS = ("mwinit", "mwserve", "mwshow", "mwreplay", "mwbench")
BUILT = {name: TOP / "crates" / name / "out" / name for name in PROGRAMS}
MWINIT, MWSERVE, MWSHOW, MWREPLAY, MWBENCH = BUILT.values()
HOST = "127.0.0.1"
PATIENCE = 60
"""For how many seconds what has to come is waited for. What needs longer hangs."""
Limits = Sequence[Tuple[int, int]]
"""Kinds of limits of a process (resource.RLIMIT_..), each with its value."""


class Wrong(SystemExit):
    """Something is not as it must be. A script that doesn't catch it ends with this text behind its name, and status 1."""

    def __init__(self, text: str) -> None:
        super().__init__(text)
        self.code = f"{SCRIPT}: {text}"


def wrong(text: str) -> NoReturn:
    raise Wrong(text)


def same(found: object, wanted: object, what: str) -> None:
    """Wrong if both differ."""
    if found != wanted:
        raise Wrong(f"{what}: {found!r} in place of {wanted!r}")


def raises(kind: Type[BaseException], what: str, call: Callable[..., object], *arguments: object, **named: object) -> Any:
    """The exception of just this kind that a call raises; Wrong if there is another or none."""
    try:
        given = call(*arguments, **named)
    except Exception as error:
        if type(error) is kind:
            return error
        raise Wrong(f"{what}: {type(error).__name__} ({error}) in place of {kind.__name__}") from error
    raise Wrong(f"{what}: {given!r} in place of {kind.__name__}")


def until(is_so: Callable[[], bool], what: str, step: float = 0.05, most: float = PATIENCE) -> None:
    """Waits until this is so; Wrong if that takes longer than so many seconds."""
    end = time.monotonic() + most
    while not is_so():
        if time.monotonic() > end:
            raise Wrong(f"{what}: not within {most} seconds")
        time.sleep(step)


def program(name: str, folder: Optional[Path] = None) -> Path:
    """A built program: where the repository has it, or in a folder that --programs names. Wrong if it is not there."""
    for path in [BUILT[name]] if folder is None else (folder / name, folder / "crates" / name / "out" / name):
        if path.is_file() and os.access(path, os.X_OK):
            return path.resolve()
    how = "scripts/first-run" if name in ("mwinit", "mwserve") else "scripts/first-run --all"
    raise Wrong(f"{name} is not built: run {how} first" + (", or name a folder by --programs" if folder else ""))


def is_built(name: str) -> bool:
    return os.access(BUILT[name], os.X_OK)


def need(*names: str) -> None:
    """Wrong unless all of these are there: programs of this repository, commands, or root."""
    for name in names:
        if name in BUILT:
            program(name)
        elif name == "root" and os.geteuid():
            raise Wrong("only root may do this")
        elif name != "root" and not shutil.which(name):
            raise Wrong("there is no C compiler cc" if name == "cc" else f"there is no {name}")


@contextlib.contextmanager
def new_folder(where: Optional[Path] = None) -> Iterator[Path]:
    """A folder that goes at the end; but not if a file system is mounted in it, since what is removed there wouldn't be the script's own."""
    folder = Path(tempfile.mkdtemp(prefix=f"{SCRIPT}-", dir=where)).resolve()
    try:
        yield folder
    finally:
        mounted = [line.split()[1] for line in Path("/proc/self/mounts").read_text().splitlines()]
        below = [it for it in mounted if it == str(folder) or it.startswith(f"{folder}/")]
        if below:
            print(f"{SCRIPT}: {folder} stays, since this is mounted there: {', '.join(below)}", file=sys.stderr, flush=True)
        else:
            shutil.rmtree(folder, ignore_errors=True)


def most_files(wanted: int = 0) -> int:
    """Lets this process, and those that it starts, have as many files open as they may, for root as many as are wanted. How many."""
    _, most = resource.getrlimit(resource.RLIMIT_NOFILE)
    if most < wanted and not os.geteuid():
        most = wanted
    resource.setrlimit(resource.RLIMIT_NOFILE, (most, most))
    return most


def preloaded(source: str, folder: Path) -> Path:
    """A library for LD_PRELOAD: this source of scripts/, compiled."""
    library = folder / Path(source).with_suffix(".so").name
    subprocess.run(["cc", "-O1", "-Wall", "-shared", "-fPIC", "-o", library, TOP / "scripts" / source, "-ldl"], check=True)
    return library


def limiting(limits: Limits) -> Callable[[], None]:
    """What a child does before its program begins: it sets these limits, and has a write fail that goes past the limit of file sizes."""
    def limit() -> None:
        signal.signal(signal.SIGXFSZ, signal.SIG_IGN)
        for kind, most in limits:
            resource.setrlimit(kind, (most, most))
    return limit


def environment_with(more: Mapping[str, object]) -> Dict[str, str]:
    """This script's environment, and more."""
    return {**os.environ, **{name: str(value) for name, value in more.items()}}


class Ended(NamedTuple):
    """How a program ended, what it printed, and its notes."""
    status: int
    out: str
    err: str


def run(*words: object, folder: Optional[Path] = None, limits: Limits = (), to: Optional[Path] = None, **environment: object) -> Ended:
    """Runs a program to its end, with nothing to read, and with more in its environment. It prints to a pipe, or to a file."""
    with open(to, "wb") if to else contextlib.nullcontext(subprocess.PIPE) as out:
        it = subprocess.run([str(word) for word in words], cwd=folder, env=environment_with(environment), stdin=subprocess.DEVNULL, stdout=out,
                            stderr=subprocess.PIPE, timeout=PATIENCE, preexec_fn=limiting(limits) if limits else None)
    printed = to.read_bytes() if to else it.stdout
    return Ended(it.returncode, printed.decode(errors="backslashreplace"), it.stderr.decode(errors="backslashreplace"))


def done(*words: object, folder: Optional[Path] = None, text: str = "") -> str:
    """What a command prints that reads this text; Wrong unless it goes well."""
    it = subprocess.run([str(word) for word in words], cwd=folder, input=text.encode(), stdout=subprocess.PIPE, stderr=subprocess.STDOUT)
    if it.returncode:
        raise Wrong(f"{' '.join(map(str, words))}: {it.stdout.decode(errors='replace')}")
    return it.stdout.decode()


def each(count: int, work: Callable[[int], None]) -> None:
    """Runs work(number) in a thread for each number; Wrong if one of them fails."""
    faults: List[BaseException] = []

    def one(number: int) -> None:
        try:
            work(number)
        except (Exception, SystemExit) as fault:
            faults.append(fault)

    threads = [threading.Thread(target=one, args=(number,)) for number in range(count)]
    for thread in threads:
        thread.start()
    for thread in threads:
        thread.join()
    if faults:
        raise Wrong(f"{len(faults)} of {count} failed; one: {faults[0]}")
