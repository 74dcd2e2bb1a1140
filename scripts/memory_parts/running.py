"""Runs a program with one of its requests for memory refused: built from refuse.c, which is tried on each_call.c first.

Used by: scripts/fail-each-allocation, test_programs.py. Nothing here depends on how fast the machine is: what doesn't end is
waited for for a minute.
"""
import os
import shutil
import socket
import subprocess
from pathlib import Path
from typing import Dict, List, NamedTuple, Sequence, Union

HERE = Path(__file__).resolve().parent
HOST = "127.0.0.1"
PATIENCE = 60.0
"""For how many seconds a program or a reply is waited for. What needs longer hangs."""
CALLS = ("malloc", "calloc", "memalign", "aligned_alloc", "posix_memalign", "valloc", "pvalloc", "realloc", "reallocarray")
"""The functions that give memory, in the order in which each_call.c asks them."""
Command = Sequence[Union[str, Path]]


class Wrong(Exception):
    """Something was found that should not be, or nothing can be tried."""


class Ended(NamedTuple):
    """How a program ended, what it printed, and whether a request was refused."""
    status: int
    out: str
    err: str
    refused: bool


class Refusing(NamedTuple):
    """The library that refuses."""
    library: Path

    @property
    def mark(self) -> Path:
        """The file that it makes when it refuses."""
        return self.library.parent / "refused"

    def environment(self, number: int) -> Dict[str, str]:
        """The environment of a program whose request of this number is refused; 0: none."""
        self.mark.unlink(missing_ok=True)
        return {**os.environ, "LD_PRELOAD": str(self.library), "REFUSE_AT": str(number), "REFUSE_MARK": str(self.mark)}

    def run(self, command: Command, folder: Path, number: int) -> Ended:
        """Runs a program to its end."""
        try:
            ended = subprocess.run(command, cwd=folder, env=self.environment(number), stdin=subprocess.DEVNULL,
                                   capture_output=True, timeout=PATIENCE)
        except subprocess.TimeoutExpired:
            raise Wrong(f"{command}, request {number} refused: no end within {PATIENCE:.0f} seconds") from None
        return Ended(ended.returncode, text_of(ended.stdout), text_of(ended.stderr), self.mark.exists())


def text_of(data: bytes) -> str:
    """What was printed, whatever bytes it has."""
    return data.decode(errors="backslashreplace")


def compiled(source: str, built: Path, options: List[str]) -> Path:
    """A source of this folder, compiled."""
    words = ["cc", "-O1", "-Wall", "-fno-builtin", *options, "-o", str(built), str(HERE / source)]
    ended = subprocess.run(words, capture_output=True)
    if ended.returncode:
        raise Wrong(f"cc does not compile {source}: {text_of(ended.stderr)}")
    return built


def build_refusing(folder: Path) -> Refusing:
    """The library, which refuses each of the functions in turn, and leaves the old block of a `realloc` as it was."""
    if shutil.which("cc") is None:
        raise Wrong("there is no C compiler cc, which builds what refuses memory")
    refusing = Refusing(compiled("refuse.c", folder / "refuse.so", ["-shared", "-fPIC"]))
    asks = compiled("each_call.c", folder / "each_call", [])
    for number, name in enumerate(CALLS, 1):
        ended = refusing.run([asks], folder, number)
        if ended != Ended(0, f"{name}\n", "", True):
            raise Wrong(f"{name} is not refused as it should be: {ended}")
    return refusing


def talk_to(refusing: Refusing, command: Command, folder: Path, number: int, lines: str) -> Ended:
    """Runs a server to its end, whose one client sends these lines. The output is what the client was told."""
    errors = folder / "errors"
    with open(errors, "wb") as err:
        server = subprocess.Popen(command, cwd=folder, env=refusing.environment(number), stdin=subprocess.DEVNULL,
                                  stdout=subprocess.PIPE, stderr=err)
    try:
        first = server.stdout.readline().decode()
        said = say_to(int(first[len("ready "):]), lines) if first.startswith("ready ") else b""
        status = server.wait(PATIENCE)
    except subprocess.TimeoutExpired:
        raise Wrong(f"{command}, request {number} refused: no end within {PATIENCE:.0f} seconds") from None
    finally:
        server.kill()
        server.wait()
        server.stdout.close()
    return Ended(status, text_of(said), text_of(errors.read_bytes()), refusing.mark.exists())


def say_to(port: int, lines: str) -> bytes:
    """What a client is told that sends these lines, until the server closes or breaks off."""
    said = b""
    try:
        with socket.create_connection((HOST, port), PATIENCE) as client:
            client.sendall(lines.encode())
            client.shutdown(socket.SHUT_WR)
            while piece := client.recv(4096):
                said += piece
    except socket.timeout:
        raise Wrong(f"a client was told nothing for {PATIENCE:.0f} seconds, behind {text_of(said)!r}") from None
    except OSError:
        pass  # The server broke off: what was told until then counts.
    return said
