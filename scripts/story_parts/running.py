"""Runs a program of a story: as it is, with a standard output that fails, or one that holds it up.

Used by: player.py.
"""
import contextlib
import fcntl
import os
import resource
import subprocess
import tempfile
from pathlib import Path
from typing import Callable, List, Sequence, Tuple

from lib.checks import PATIENCE, Ended, Limits, limiting, until, wrong

FULL = 1 << 20
"""The limit of file sizes of a program whose standard output fails. No other file of a story is so long."""
SET_PIPE_SIZE = 1031
"""F_SETPIPE_SZ of fcntl, which Python has by its name from 3.10 on."""
CALLS = {"x86_64": {"write": ("1",), "accept": ("43", "288")}, "aarch64": {"write": ("64",), "accept": ("202", "242")}}
"""The numbers of some calls of the system; there are two to accept."""


def threads_in(process: int, call: str, first: str = "") -> int:
    """How many threads of a process wait in this call of the system now, with this as its first argument, if that is said (proc(5))."""
    numbers = CALLS[os.uname().machine][call]
    count = 0
    for path in Path(f"/proc/{process}/task").glob("*/syscall"):
        with contextlib.suppress(FileNotFoundError, ProcessLookupError, PermissionError):  # it may have ended, and then only root may read this
            words = path.read_text().split()
            count += words[:1] != [] and words[0] in numbers and first in ("", words[1])
    return count


def run_into_room(words: Sequence[str], folder: Path, room: int) -> Ended:
    """Runs a program to its end. Its standard output is a file that takes so many bytes: then it is as long as the limit of file sizes."""
    with tempfile.TemporaryFile(buffering=0) as out:
        out.seek(FULL - room)
        it = subprocess.run(words, cwd=folder, stdin=subprocess.DEVNULL, stdout=out, stderr=subprocess.PIPE, timeout=PATIENCE,
                            preexec_fn=limiting([(resource.RLIMIT_FSIZE, FULL)]))
        out.seek(FULL - room)
        printed = out.readall()
    return Ended(it.returncode, printed.decode(), it.stderr.decode())


def waits_in_a_write(it: "subprocess.Popen[bytes]") -> bool:
    """Waits until a program waits in a write to its standard output, or has ended. Whether it waits so."""
    until(lambda: it.poll() is not None or threads_in(it.pid, "write", "0x1") > 0, "a write, or the end", 0.002)
    return it.returncode is None


def run_held_up(words: Sequence[str], folder: Path, limits: Limits, look: Callable[[], bool]) -> Tuple[Ended, List[bool]]:
    """Runs a program to its end, and looks each time that it waits in a write to its standard output. What each look found.

    That output is a pipe with room for one write, which is taken from the start: each write waits until the one before it is read.
    """
    reader, writer = os.pipe2(os.O_DIRECT | os.O_CLOEXEC)
    fcntl.fcntl(writer, SET_PIPE_SIZE, resource.getpagesize())
    taken = os.write(writer, b"taken")
    looks: List[bool] = []
    printed = b""
    with subprocess.Popen(words, cwd=folder, stdin=subprocess.DEVNULL, stdout=writer, stderr=subprocess.PIPE, preexec_fn=limiting(limits)) as it:
        os.close(writer)
        try:
            while waits_in_a_write(it):
                looks.append(look())
                printed += os.read(reader, FULL)
            while piece := os.read(reader, FULL):
                printed += piece
        finally:
            it.kill()
            os.close(reader)
        assert it.stderr
        notes = it.stderr.read()
    return Ended(it.returncode, printed[taken:].decode(), notes.decode()), looks


def lock(path: Path) -> int:
    """Opens a file and locks it, as the programs do, and gives its descriptor; Wrong if somebody else has it locked."""
    file = os.open(path, os.O_RDONLY | os.O_CLOEXEC)
    try:
        fcntl.flock(file, fcntl.LOCK_EX | fcntl.LOCK_NB)
    except BlockingIOError:
        os.close(file)
        wrong(f"{path} is locked")
    return file


def is_locked(path: Path) -> bool:
    """Whether somebody has this file locked."""
    file = os.open(path, os.O_RDONLY | os.O_CLOEXEC)
    try:
        fcntl.flock(file, fcntl.LOCK_EX | fcntl.LOCK_NB)
    except BlockingIOError:
        return True
    finally:
        os.close(file)
    return False
