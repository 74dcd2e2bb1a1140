"""What each part of scripts/check-programs needs: the built programs, a server over tenants' files, a peer that says what it is
told to, and how a difference is told.

Used by: scripts/check-failover, scripts/check-package, scripts/check-programs, scripts/check-recipes, many of this folder,
failover_parts/cuts.py, failover_parts/hosts.py, failover_parts/keepers.py, failover_parts/speed.py, recipe_parts/running.py. A further
program is a row of PROGRAMS here, in lib/checks.py and in scripts/package.
"""
import contextlib
import importlib.util
import os
import shutil
import socket
import struct
import subprocess
import sys
import threading
from pathlib import Path
from typing import Dict, NoReturn, Optional, Tuple

from .served import HOST, Served, make_tenants

TOP = Path(__file__).resolve().parent.parent.parent
sys.path.insert(0, str(TOP / "clients/python"))

PROGRAMS = ("mwinit", "mwserve", "mwshow", "mwreplay", "mwbench")
BUILT = {name: TOP / "crates" / name / "out" / name for name in PROGRAMS}
MWINIT, MWSERVE, MWBENCH = (BUILT[name] for name in ("mwinit", "mwserve", "mwbench"))
QUOTA = 5
WORDS = 26
PATIENCE = 60
"""For how many seconds what has to come is waited for. What needs longer hangs."""
WITH_CLIENT = {**os.environ, "PYTHONPATH": str(TOP / "clients/python"), "PYTHONDONTWRITEBYTECODE": "1"}
"""The environment of a program in Python that imports the client."""
RESET, SILENT = "reset", "silent"
"""What a peer does in place of saying a text."""


def ran(*words: object, at: Optional[Path] = None, given: str = "", timeout: Optional[float] = None, env: Optional[Dict[str, str]] = None) \
        -> Tuple[int, str, str]:
    """The status of a command, and what it writes to both streams. `given`: its standard input."""
    ended = subprocess.run([str(word) for word in words], cwd=at, input=given.encode(), capture_output=True, timeout=timeout, env=env)
    return ended.returncode, ended.stdout.decode(errors="replace"), ended.stderr.decode(errors="replace")


def well(*words: object, at: Optional[Path] = None, timeout: Optional[float] = None, env: Optional[Dict[str, str]] = None) -> str:
    """What a command prints; it must go well."""
    status, told, errors = ran(*words, at=at, timeout=timeout, env=env)
    if status:
        wrong(f"{' '.join(map(str, words))}: {told}{errors}")
    return told


def wrong(text: str) -> NoReturn:
    raise SystemExit(f"check-programs: {text}")


def has(command: str) -> bool:
    """Whether a program of this name can be called here."""
    return shutil.which(command) is not None


def has_module(name: str) -> bool:
    """Whether this Python has a module of this name."""
    return importlib.util.find_spec(name) is not None


def is_built(program: str) -> bool:
    return os.access(BUILT[program], os.X_OK)


def same(found: object, wanted: object, what: str) -> None:
    if found != wanted:
        wrong(f"{what}: {found!r} in place of {wanted!r}")


def raises(kind, what, call, *arguments, **named):
    """The exception of just this kind that the call raises."""
    try:
        given = call(*arguments, **named)
    except Exception as error:
        if type(error) is kind:
            return error
        wrong(f"{what}: {type(error).__name__} ({error}) in place of {kind.__name__}")
    wrong(f"{what}: {given!r} in place of {kind.__name__}")


def remove(folder: Path) -> None:
    """Removes a folder, but not if a file system is mounted in it: what is removed there wouldn't be this script's own."""
    mounted = [line.split()[1] for line in Path("/proc/self/mounts").read_text().splitlines()]
    below = [it for it in mounted if it == str(folder) or it.startswith(f"{folder}/")]
    if below:
        print(f"check-programs: {folder} stays, since this is mounted there: {', '.join(below)}", file=sys.stderr, flush=True)
    else:
        shutil.rmtree(folder, ignore_errors=True)


def at(port):
    return f"{HOST}:{port}"


class Server(Served):
    """mwserve over the tenants of a folder: at a local socket, or at a port that isn't among those given to clients."""

    def __init__(self, folder, tenants, local):
        make_tenants(MWINIT, folder, tenants, QUOTA, "away 2 1 away.mw\n")
        for name in tenants:
            same((folder / f"{name}.mw").stat().st_mode & 0o777, 0o600, "the mode of a new file")
        super().__init__(MWSERVE, folder, ("--workers", "32"), local)


class Peers:
    """A server of one connection after the other. To each line of a connection it says the next text of that one. Then it closes,
    or resets the connection, or is silent until the client closes. After the last one nobody listens."""

    def __init__(self, *connections, host=HOST, port=0):
        self.listener = socket.create_server((host, port))
        self.at = f"{host}:{self.listener.getsockname()[1]}"
        self.lines = [[] for _ in connections]
        self.thread = threading.Thread(target=self.serve, args=(connections,), daemon=True)
        self.thread.start()

    def serve(self, connections):
        for number, (texts, heard) in enumerate(zip(connections, self.lines), 1):
            connection, _ = self.listener.accept()
            if number == len(connections):
                self.listener.close()
            with connection, connection.makefile("rb") as lines, contextlib.suppress(OSError):
                self.serve_one(connection, lines, texts, heard)

    def serve_one(self, connection, lines, texts, heard):
        for text in texts:
            if text == SILENT:
                lines.read()
                return
            if text == RESET:
                connection.setsockopt(socket.SOL_SOCKET, socket.SO_LINGER, struct.pack("ii", 1, 0))
                return
            heard.append(lines.readline().decode().strip())
            connection.sendall(text.encode())

    def heard(self):
        """The lines of each connection, once all have ended."""
        self.thread.join(PATIENCE)
        return self.lines
