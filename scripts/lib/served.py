"""mwserve over the tenants of a folder, from its start to its end; what it told; and clients that send it lines.

Used by: scripts/bench-crowd, scripts/check-crowd, scripts/check-http, scripts/check-limits, scripts/check-locks, scripts/check-map,
scripts/check-move, scripts/check-prometheus, scripts/check-proxy, scripts/check-sockets, scripts/check-wakes, scripts/fail-each-allocation,
and the modules of http_parts, scene_parts and story_parts. It reads the first lines of mwserve (docs/OPERATING.md): change both.
"""
import atexit
import contextlib
import os
import signal
import socket
import struct
import subprocess
import time
from pathlib import Path
from typing import Dict, List, Sequence, Tuple, Union

from .checks import HOST, MWINIT, MWSERVE, PATIENCE, Ended, Limits, Wrong, environment_with, limiting, same

import mondlexi

Address = Union[int, Path]
"""A port of this machine, or the path of a local socket."""
TICKS = os.sysconf("SC_CLK_TCK")
"""How many ticks of processor time are a second."""


def connected(address: Address) -> socket.socket:
    """A connection to this address."""
    if isinstance(address, int):
        return socket.create_connection((HOST, address), PATIENCE)
    client = socket.socket(socket.AF_UNIX)
    client.settimeout(PATIENCE)
    client.connect(str(address))
    return client


def heard(client: socket.socket) -> bytes:
    """What comes until the other side ends."""
    return b"".join(iter(lambda: client.recv(65536), b""))


def said(address: Address, text: bytes, ends: bool = True) -> bytes:
    """What is answered to these bytes, after which the client sends no more, or is silent."""
    with connected(address) as client:
        try:
            client.sendall(text)
            if ends:
                client.shutdown(socket.SHUT_WR)
        except OSError:
            pass  # it was answered before all was sent, and may have been closed
        return heard(client)


def fill(client: socket.socket, text: bytes) -> None:
    """Sends this until there has been no room for it for a while, and takes no replies."""
    client.setblocking(False)
    last = time.monotonic()
    while time.monotonic() - last < 0.3:
        try:
            client.send(text)
            last = time.monotonic()
        except BlockingIOError:
            time.sleep(0.01)


def new_bytes(words: int, places: int) -> bytes:
    """A tenant's file as mwinit makes it (docs/FILES.md)."""
    return b"MWCASF1\n" + struct.pack("<II", words, places) + bytes(16 + 8 * words + 136 * places)


def new_tenants(folder: Path, *tenants: Tuple[str, int, int], file: str = "tenants") -> None:
    """A new file for each tenant of a name, so many words and such a quota, and the tenants file."""
    for name, words, quota in tenants:
        subprocess.run([MWINIT, f"{name}.mw", str(words), str(quota)], cwd=folder, stdout=subprocess.DEVNULL, check=True)
    (folder / file).write_text("".join(f"{name} {words} {quota} {name}.mw\n" for name, words, quota in tenants))


class Served:
    """mwserve over a folder's tenants file, at a port that the system picks, or another place. `notes`: where its standard error goes, a
    file or a descriptor. `before`: words that come before the program. `waits`: whether it has to be ready at once. `environment`: what is
    added to its own."""

    def __init__(self, folder: Path, *options: object, at: str = f"{HOST}:0", tenants: str = "tenants", program: Path = MWSERVE,
                 limits: Limits = (), notes: Union[int, Path] = subprocess.PIPE, before: Sequence[object] = (), waits: bool = True,
                 **environment: object) -> None:
        self.folder, self.at, self.notes = folder, at, notes
        words = [str(word) for word in (*before, program, "--tenants", tenants, "--listen", at, *options)]
        with contextlib.nullcontext(notes) if isinstance(notes, int) else open(notes, "wb") as errors:
            self.process = subprocess.Popen(words, cwd=folder, env=environment_with(environment), stdin=subprocess.DEVNULL,
                                            stdout=subprocess.PIPE, stderr=errors, bufsize=0, preexec_fn=limiting(limits))
        atexit.register(self.process.kill)
        self.lines: List[str] = []
        self.places: Dict[str, Address] = {}
        """Where it listens, by the words of its first lines: ready, admin, http."""
        if waits and not self.is_ready():
            raise Wrong(f"a server is not ready: {self.lines}, {self.kill()!r}")

    def is_ready(self) -> bool:
        """Reads its first lines. Whether it is ready then, and has not ended."""
        while "ready" not in self.places and (line := self.line()):
            self.lines.append(line)
            word, _, place = line.rstrip("\n").partition(" ")
            self.places[word] = int(place) if place.isdigit() else self.folder / place.split("unix:")[-1]
        if isinstance(self.places.get("ready"), int):
            self.at = f"{self.at.rpartition(':')[0]}:{self.port}"
        elif "ready" in self.places:
            self.at = f"unix:{self.port}"
        return "ready" in self.places

    @property
    def port(self) -> Address:
        """Where it listens."""
        return self.places["ready"]

    @property
    def admin(self) -> Address:
        return self.places["admin"]

    @property
    def pages(self) -> Address:
        return self.places["http"]

    def line(self) -> str:
        """The next line that it prints."""
        assert self.process.stdout
        return self.process.stdout.readline().decode()

    def note(self) -> str:
        """The next line of its notes."""
        assert self.process.stderr
        return self.process.stderr.readline().decode()

    def told(self) -> str:
        """Its notes so far, which go to a file."""
        assert isinstance(self.notes, Path)
        return self.notes.read_text()

    def ask(self, lines: str, at: str = "ready") -> str:
        """What a session of these lines is told, at one of its addresses."""
        return said(self.places[at], lines.encode()).decode(errors="replace")

    def client(self, tenant: str = "t") -> mondlexi.Client:
        """The client in Python."""
        return mondlexi.Client(self.at, tenant, timeout=PATIENCE)

    def stat(self) -> List[str]:
        """What the system tells of its process, behind its name (proc(5))."""
        return Path(f"/proc/{self.process.pid}/stat").read_text().rpartition(")")[2].split()

    def ticks(self) -> int:
        """The processor time that it has taken, in ticks."""
        return sum(map(int, self.stat()[11:13]))

    def memory(self) -> int:
        """How many kilobytes it has in memory."""
        return int(self.stat()[21]) * os.sysconf("SC_PAGE_SIZE") // 1024

    def ended(self) -> Ended:
        """Waits until it has ended. Its status, and what it printed and noted that was not read."""
        out, err = self.process.communicate(timeout=PATIENCE)
        return Ended(self.process.returncode, out.decode(), (err or b"").decode())

    def kill(self, by: int = signal.SIGKILL) -> str:
        """Ends it by a signal. Gives its notes that were not read; it must have printed nothing else."""
        self.process.send_signal(by)
        ended = self.ended()
        if self.lines:
            same(ended.out, "", "what a server prints behind `ready`")
        return ended.err

    def __enter__(self) -> "Served":
        return self

    def __exit__(self, *_: object) -> None:
        if self.process.poll() is None:
            self.kill()


class Client:
    """A client that sends lines, bound to a tenant or to none, and counts its bytes."""

    def __init__(self, address: Address, tenant: str = "t") -> None:
        self.socket = connected(address)
        self.lines = self.socket.makefile("rb")
        self.sent = self.received = 0
        self.greeting = self.ask(f"TENANT {tenant}") if tenant else ""
        if tenant:
            same(self.greeting[:3], "OK ", "how a tenant's first line is answered")

    def send(self, text: str) -> None:
        self.socket.sendall(text.encode())
        self.sent += len(text.encode())

    def heard(self) -> str:
        """The next line, without its line feed; nothing if the server has closed."""
        line = self.lines.readline()
        self.received += len(line)
        return line.decode().rstrip("\n")

    def ask(self, line: str) -> str:
        """The reply to a line."""
        self.send(f"{line}\n")
        return self.heard()

    def change(self, *entries: Tuple[int, int, int]) -> str:
        """The reply to a change that isn't BUSY."""
        line = "CAS " + " ".join(f"{address}:{old}:{new}" for address, old, new in entries)
        while (reply := self.ask(line)) == "BUSY":
            pass
        return reply

    def close(self) -> None:
        self.lines.close()
        self.socket.close()

    def end(self) -> None:
        """Ends the connection, and waits until the server has ended it too."""
        self.socket.shutdown(socket.SHUT_WR)
        self.lines.read()
        self.close()

    def __enter__(self) -> "Client":
        return self

    def __exit__(self, *_: object) -> None:
        self.close()
