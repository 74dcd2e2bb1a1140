"""A unit as systemd shows it, and the commands of a page, in a Debian that systemd has booted.

Used by: as_operator.py, upkeep.py; booted.py, which puts all into the container; scripts/check-package. It needs no file of this repository.
"""
import contextlib
import re
import subprocess
import sys
import time
from pathlib import Path
from typing import Any, Callable, Iterator, List, NamedTuple, NoReturn, Optional, Sequence, Tuple

Block = List[Tuple[str, str]]
"""Commands of a page, each with what the page says that it prints."""
PATIENCE = 60
"""For how many seconds what has to come is waited for."""
LOCAL, PORT = "mondlexi-local", "mondlexi"
ROOM = Path("/srv/mw")
PAGE = Path("/usr/share/doc/mondlexi/docs/OPERATING.md")
PROXY_PAGE = PAGE.with_name("MANY-MACHINES.md")
PROXY = Path("/etc/haproxy/mondlexi")
HTTP_PAGE = PAGE.with_name("HTTP.md")
OPTIONS = Path("/etc/default/mondlexi")


class Unit(NamedTuple):
    """A unit of contrib: its name, where its server listens for clients and for the administrator, and the group of its process."""
    name: str
    listen: str
    admin: str
    group: str


UNITS = (Unit(LOCAL, "unix:/run/mondlexi/socket", "unix:/run/mondlexi/admin", "mwclients"),
         Unit(PORT, "127.0.0.1:7000", "127.0.0.1:7001", "mw"))


def wrong(text: str) -> NoReturn:
    raise SystemExit(f"{Path(sys.argv[0]).stem}: {text}")


def same(found: object, wanted: object, what: str) -> None:
    if found != wanted:
        wrong(f"{what}: {found!r} in place of {wanted!r}")


def ended(*words: object, at: Optional[Path] = None) -> "subprocess.CompletedProcess[str]":
    """A command that has ended, with all that it printed."""
    return subprocess.run([str(it) for it in words], cwd=at, stdin=subprocess.DEVNULL, stdout=subprocess.PIPE, stderr=subprocess.STDOUT,
                          universal_newlines=True, timeout=PATIENCE)


def run(*words: object) -> str:
    """What a command prints; it must go well."""
    it = ended(*words)
    same((it.returncode, it.stdout if it.returncode else ""), (0, ""), " ".join(map(str, words)))
    return it.stdout


def wait_until(what: str, is_so: Callable[[], bool]) -> None:
    """Waits for something that must come."""
    until = time.monotonic() + PATIENCE
    while not is_so():
        if time.monotonic() > until:
            wrong(f"{what} didn't come")
        time.sleep(0.05)


# The unit, as systemd shows it


def shown(unit: str, name: str) -> str:
    """A property of a unit."""
    return run("systemctl", "show", "--value", "--property", name, unit).strip()


def state(unit: str) -> Tuple[str, str]:
    """Whether a unit is active, and how it ended."""
    return shown(unit, "ActiveState"), shown(unit, "Result")


def main_process(unit: str) -> int:
    """The server of a unit; 0 if there is none."""
    return int(shown(unit, "MainPID"))


def servers() -> List[str]:
    """The processes of servers."""
    return [it.parent.name for it in Path("/proc").glob("[0-9]*/comm") if it.read_text() == "mwserve\n"]


def journal(unit: str) -> List[str]:
    """What the journal has of a unit in this boot: of its processes, and of systemd about it."""
    return run("journalctl", "--boot", "--unit", unit, "--output", "cat", "--no-pager").splitlines()


@contextlib.contextmanager
def drop_in(unit: str, lines: str) -> Iterator[None]:
    """A file beside the unit that adds lines to its section [Service], while a block runs."""
    path = Path(f"/etc/systemd/system/{unit}.service.d/tried.conf")
    path.parent.mkdir(exist_ok=True)
    path.write_text(f"[Service]\n{lines}")
    run("systemctl", "daemon-reload")
    yield
    path.unlink()
    path.parent.rmdir()
    run("systemctl", "daemon-reload")


@contextlib.contextmanager
def changed(path: Path, old: str, new: str) -> Iterator[None]:
    """A file with another text in place of this one, while a block runs."""
    text = path.read_text()
    same(text.count(old), 1, f"how often {path} has {old!r}")
    path.write_text(text.replace(old, new))
    yield
    path.write_text(text)


@contextlib.contextmanager
def away(name: str) -> Iterator[None]:
    """Without a file of the tenants' folder, while a block runs."""
    (ROOM / name).rename(ROOM / "away")
    yield
    (ROOM / "away").rename(ROOM / name)


# The page's commands


def section_of(page: Path, section: str) -> str:
    """The text of a section of a page."""
    text = re.split(rf"^##+ {re.escape(section)}$", page.read_text(), flags=re.MULTILINE)[1]
    return re.split(r"^##", text, flags=re.MULTILINE)[0]


def commands_of(text: str, prompt: str = "#") -> List[Block]:
    """The indented blocks of a text that have commands, each behind this prompt, with what the text says that it prints."""
    found = []
    for block in re.findall(r"(?:^ {4}.*\n)+", text + "\n", re.MULTILINE):
        parts = re.split(rf"^ +{prompt} ", re.sub(r"&&\n +", "&& ", block), flags=re.MULTILINE)[1:]
        found.append([(first.split("   ")[0], "".join(f"{it.strip()}\n" for it in rest.splitlines()))
                      for first, _, rest in (part.partition("\n") for part in parts)])
    return [it for it in found if it]


def blocks(section: str, page: Path = PAGE) -> List[Block]:
    """Those of a section of a page that have commands of root."""
    return commands_of(section_of(page, section))


def type_block(block: Block, folder: Optional[Path], shell: Sequence[str] = ("bash",), before: str = "") -> None:
    """Gives a block's commands to one shell, one by one. Each must go well, and print what the page says, if it says something."""
    script = before + "".join(f"{command}\nprintf '\\n:%d\\n' $?\n" for command, _ in block)
    told = subprocess.run(shell, input=script, cwd=folder, stdout=subprocess.PIPE, stderr=subprocess.STDOUT, universal_newlines=True,
                          timeout=PATIENCE).stdout
    parts = re.split(r"\n:(\d+)\n", told)
    same(len(parts), 2 * len(block) + 1, f"the commands that ended, in {told!r}")
    for (command, wanted), printed, status in zip(block, parts[::2], parts[1::2]):
        same((status, printed if wanted else ""), ("0", wanted), f"`{command}`, which prints {printed!r}")


# A server that is asked, started and stopped


def client(unit: Unit) -> Any:
    """A client of the tenant t. The package's own: so it is imported once the package is installed."""
    import mondlexi
    return mondlexi.Client(unit.listen, "t")


def try_to_talk(unit: Unit) -> int:
    """A change answered YES, and a word that is read. Gives the word 0."""
    with client(unit) as at:
        before = int(at.get(0))
        same((at.cas([(0, before, before + 1)]).made, at.get(0)), (True, before + 1), f"a change at {unit.name}")
    run("mondlexi-check", unit.admin)
    return before + 1


def word(unit: Unit) -> int:
    """The word 0."""
    with client(unit) as at:
        return int(at.get(0))


def asked(unit: Unit) -> None:
    """A client of the tenant t is answered, if only that there is none."""
    import mondlexi
    try:
        client(unit).close()
    except mondlexi.Refused:
        pass


def begin(unit: Unit, how: str = "start") -> None:
    """Starts a unit, or restarts it. It serves once systemctl has ended."""
    # (systemd refuses a start too many in a minute, if nobody resets its count)
    ended("systemctl", "reset-failed", unit.name)
    run("systemctl", how, unit.name)
    asked(unit)
    same((run("systemctl", "is-active", unit.name), "active (running)" in run("systemctl", "status", unit.name)), ("active\n", True), unit.name)


def refuses_to_start(unit: Unit, why: str, what: str) -> None:
    """`systemctl start` fails, the journal says why, and nothing runs."""
    ended("systemctl", "reset-failed", unit.name)
    before = len(journal(unit.name))
    started = ended("systemctl", "start", unit.name)
    wait_until(f"the end of a unit {what}", lambda: state(unit.name)[0] == "failed")
    same((started.returncode != 0, servers()), (True, []), f"systemctl start {what}")
    wait_until(f"the reason in the journal, {what}", lambda: any(why in line for line in journal(unit.name)[before:]))


def end(unit: Unit) -> None:
    """Stops a unit; it has not failed then."""
    run("systemctl", "stop", unit.name)
    same((*state(unit.name), main_process(unit.name)), ("inactive", "success", 0), f"{unit.name} after systemctl stop")


@contextlib.contextmanager
def served(unit: Unit) -> Iterator[None]:
    """A unit that runs, while a block does."""
    begin(unit)
    yield
    end(unit)
