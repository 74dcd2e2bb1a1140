"""mwserve as a process that is killed (SIGKILL), started again and held up.

Used by: beside.py, common.py, machines.py, recipes.py, client_parts/runs.py, recipe_parts/running.py.
"""
import os
import random
import signal
import subprocess
import time
from pathlib import Path
from typing import Dict, Sequence, TypeVar

HOST = "127.0.0.1"
HOLD_UP = 0.5
"""For how many seconds a server is held up."""
Self = TypeVar("Self", bound="Served")
STEP = 2
"""Between the ports that are tried: a network may be at the one after the server's."""


def make_tenants(mwinit: Path, folder: Path, tenants: Dict[str, int], quota: int, more: str = "") -> None:
    """Makes a file of words that are all 0 for each tenant, by its name and its words, and the tenants file. `more`: its last lines."""
    lines = ""
    for name, words in tenants.items():
        told = subprocess.run([mwinit, f"{name}.mw", str(words), str(quota)], cwd=folder, stdout=subprocess.PIPE, check=True).stdout.decode()
        if told != f"made {32 + 8 * words + 136 * quota}\n":
            raise SystemExit(f"mwinit: {told!r}")
        lines += f"{name} {words} {quota} {name}.mw\n"
    (folder / "tenants").write_text(lines + more)


class Served:
    """mwserve over the tenants of a folder, at its local socket, or at a port that isn't among those given to clients. It is killed at
    the end of a block that begins with it."""

    def __init__(self, mwserve: Path, folder: Path, options: Sequence[str], is_local: bool = False) -> None:
        self.folder, self.local = folder, is_local
        self._words = [str(mwserve), "--tenants", "tenants", *options]
        self.port = random.randrange(20000, 30000, STEP)
        while not self.start():
            if is_local:
                raise SystemExit(f"mwserve doesn't listen at {self.at}")
            self.port += STEP

    @property
    def at(self) -> str:
        """Where it listens."""
        return f"unix:{self.folder / 'socket'}" if self.local else f"{HOST}:{self.port}"

    def start(self) -> bool:
        """Whether it listens; it doesn't where another program has the port."""
        self.process = subprocess.Popen([*self._words, "--listen", self.at], cwd=self.folder, stdin=subprocess.DEVNULL,
                                        stdout=subprocess.PIPE, stderr=subprocess.DEVNULL)
        assert self.process.stdout
        is_ready = self.process.stdout.readline().decode() == f"ready {self.at if self.local else self.port}\n"
        if not is_ready:
            self.process.wait()
        return is_ready

    def stop(self) -> None:
        """Stops it until SIGCONT. All of its threads stand when this returns."""
        self.process.send_signal(signal.SIGSTOP)
        os.waitid(os.P_PID, self.process.pid, os.WSTOPPED)

    def hold_up(self) -> None:
        """Stops it for a while."""
        self.stop()
        time.sleep(HOLD_UP)
        self.process.send_signal(signal.SIGCONT)

    def kill(self) -> None:
        """Kills it."""
        self.process.kill()
        self.process.wait()
        assert self.process.stdout
        self.process.stdout.close()

    def __enter__(self: Self) -> Self:
        return self

    def __exit__(self, *_: object) -> None:
        self.kill()

    def restart(self, most: float = 0.0) -> None:
        """Kills it, and starts it again up to so many seconds later."""
        self.kill()
        time.sleep(random.uniform(0, most))
        while not self.start():
            time.sleep(0.05)


def kill_often(server: Served, kills: int, between: float) -> None:
    """Kills a server so many times and starts it again, about so many seconds apart."""
    for _ in range(kills):
        time.sleep(between * random.uniform(0.5, 1.5))
        server.restart(0.2)
