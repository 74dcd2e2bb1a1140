"""Plays the table of cases: a client's program, as a thing that is asked, a line in and a line out, against the server of a case.

Used by: scripts/check-clients, scripts/check-programs, runs.py, wrong.py.
"""
import contextlib
import subprocess
import tempfile
import threading
import time
from concurrent.futures import ThreadPoolExecutor
from pathlib import Path
from typing import Iterator, List, Optional, Sequence

from .peer import Different, Peer
from .table import Case

PATIENCE = 60.0
"""After how many seconds without an answer a program is ended."""
AT_ONCE = 8
"""How many cases are played side by side."""


class Player:
    """A client's program that runs."""

    def __init__(self, words: Sequence[str]) -> None:
        self._process = subprocess.Popen(words, stdin=subprocess.PIPE, stdout=subprocess.PIPE, text=True, bufsize=1, errors="replace")

    @contextlib.contextmanager
    def _within_patience(self) -> Iterator[None]:
        """Ends the program if this takes too long."""
        watch = threading.Timer(PATIENCE, self._process.kill)
        watch.start()
        try:
            with contextlib.suppress(OSError):
                yield
        finally:
            watch.cancel()

    def ask(self, line: str) -> str:
        """What it tells of a call; nothing if it has ended, or was ended because it told nothing for too long."""
        assert self._process.stdin and self._process.stdout
        with self._within_patience():
            self._process.stdin.write(line + "\n")
            self._process.stdin.flush()
            return self._process.stdout.readline().rstrip("\n")
        return ""

    def end(self) -> int:
        """Ends its input and waits until it has ended. Its status."""
        assert self._process.stdin and self._process.stdout
        with self._within_patience():
            self._process.stdin.close()
        with self._within_patience(), self._process.stdout:
            self._process.wait()
        return self._process.returncode


def ask_all(case: Case, player: Player, at: str) -> None:
    """Makes the calls of a case. Different if one tells something else, or comes too early or too late."""
    told, took = "", 0.0
    for step in case.calls:
        if step.kind == "call":
            began = time.monotonic()
            told = player.ask(step.text.replace("SERVER", at))
            took = (time.monotonic() - began) * 1000
        elif step.kind == "tells" and told != step.text:
            raise Different(f"{step.place}: {told!r} is told in place of {step.text!r}")
        elif step.kind == "takes" and took < int(step.text) or step.kind == "within" and took > int(step.text):
            raise Different(f"{step.place}: the call took {took:.0f} ms in place of {step.text} {'or more' if step.kind == 'takes' else 'at most'}")


def play_with(case: Case, player: Player, folder: Path, is_last: bool) -> None:
    """Plays a case. Different if something else happens than it says. `is_last`: whether the client's program ends then; else it
    closes its client, and goes on."""
    peer = Peer(case, folder)
    try:
        try:
            ask_all(case, player, peer.at)
            peer.wait()
        finally:
            status = player.end() if is_last else player.ask("close") != "closed"
        if status:
            raise Different(f"the client's program ended with status {status}" if is_last else "it doesn't close")
        peer.look_for_more()
    except Different as found:
        raise Different(f"{found}; of the server: {peer.found}" if peer.found and peer.found not in str(found) else str(found)) from None
    finally:
        peer.close()


def play(case: Case, player: Player, is_last: bool) -> Optional[str]:
    """What differs in a case; None if nothing does."""
    with tempfile.TemporaryDirectory(prefix="client-") as name:
        try:
            play_with(case, player, Path(name), is_last)
        except Different as found:
            return f"case {case.name}: {found}"
    return None


def play_all(cases: Sequence[Case], words: Sequence[str], is_slow: bool) -> List[str]:
    """What differs in the cases. A program that isn't slow is begun for each case; one process of a slow one plays all."""
    if is_slow:
        player = Player(words)
        found = [play(case, player, False) for case in cases]
        status = player.end()
        found.append(f"the client's program ended with status {status}" if status else None)
    else:
        with ThreadPoolExecutor(AT_ONCE) as pool:
            found = list(pool.map(lambda case: play(case, Player(words), True), cases))
    return [it for it in found if it]
