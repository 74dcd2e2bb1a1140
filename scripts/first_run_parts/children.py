"""Child processes: each writes into files, and ends when this process ends.

Used by: scripts/build-libraries, scripts/check-wrong-bodies, scripts/first-run, scripts/gate-cost, course.py, example.py, runs.py,
edit_parts/room.py, library_parts/building.py.
"""
import ctypes
import os
import signal
import subprocess
import sys
import time
from pathlib import Path
from typing import Iterable, List, Sequence

END_WITH_PARENT = 1
"""prctl's PR_SET_PDEATHSIG."""
PATIENCE = 10.0
"""So many seconds a child has to end, once it was told to."""
WAITING = "rt: waiting for another rt"
STOPPING = (signal.SIGINT, signal.SIGTERM, signal.SIGHUP)


class Stopped(Exception):
    """A signal told this run to stop."""

    def __init__(self, number: int):
        super().__init__(number)
        self.number = number


def raise_at_signals(name: str) -> None:
    """Lets Ctrl-C, SIGTERM and SIGHUP raise Stopped, once: what follows is not disturbed again. `nohup` keeps SIGHUP away.
    `name` is the script's, which says that it stops."""
    def stop(number: int, _: object) -> None:
        for it in STOPPING:
            signal.signal(it, signal.SIG_IGN)
        print(f"{name}: stopping", file=sys.stderr, flush=True)
        raise Stopped(number)

    for it in STOPPING:
        if it != signal.SIGHUP or signal.getsignal(it) != signal.SIG_IGN:
            signal.signal(it, stop)


def end_with_parent() -> None:
    """In a new child: has the system send it SIGTERM when its parent ends, and undoes what the parent ignores."""
    ctypes.CDLL(None).prctl(END_WITH_PARENT, signal.SIGTERM)
    for it in STOPPING:
        signal.signal(it, signal.SIG_DFL)


def apart() -> None:
    """The same, in a group of its own, so that Ctrl-C comes to the parent alone, and the children are told in order. (Sessions of their own
    would share the processors evenly on some kernels, however nice each is.)"""
    os.setpgid(0, 0)
    end_with_parent()


class Child:
    """A command that runs in a folder of its own. Its two streams go to files in `logs`."""

    def __init__(self, words: Sequence[str], folder: Path, logs: Path, name: str):
        self.answer_file, self.log_file = logs / f"{name}.answer", logs / f"{name}.log"
        self.began, self.seen = time.monotonic(), 0
        with open(self.answer_file, "wb") as answer, open(self.log_file, "wb") as log:
            self.process = subprocess.Popen(
                words, cwd=folder, stdin=subprocess.DEVNULL, stdout=answer, stderr=log, preexec_fn=apart)

    def has_ended(self) -> bool:
        """Whether the command has ended."""
        return self.process.poll() is not None

    def status(self) -> int:
        """The exit status of a command that has ended."""
        return self.process.returncode

    def seconds(self) -> float:
        """For how long it has run."""
        return time.monotonic() - self.began

    def answer(self) -> str:
        """What it wrote on standard output."""
        return self.answer_file.read_text(encoding="utf-8", errors="replace")

    def log(self) -> str:
        """What it wrote on standard error."""
        return self.log_file.read_text(encoding="utf-8", errors="replace")

    def waiting_lines(self) -> List[str]:
        """The lines by which `rt` says that it waits, each told once."""
        whole = self.log()
        new, self.seen = whole[self.seen:], len(whole)
        return [line for line in new.splitlines() if line.startswith(WAITING)]


def end(children: Iterable[Child]) -> None:
    """Ends those that still run, and waits until they have."""
    end_processes([it.process for it in children])


def end_processes(processes: Sequence["subprocess.Popen[bytes]"]) -> None:
    """Ends those that still run, and waits until they have."""
    running = [it for it in processes if it.poll() is None]
    for it in running:
        it.terminate()
    for it in running:
        try:
            it.wait(PATIENCE)
        except subprocess.TimeoutExpired:
            it.kill()
            it.wait()
