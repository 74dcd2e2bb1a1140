"""The server of a case: it listens, takes the lines that the table tells, and says what the table tells.

Used by: scripts/check-clients, builds.py, cases.py, examples.py, runs.py. A further step of the server is a method here, a word in
table.py, and a row of clients/cases/README.md.
"""
import contextlib
import socket
import struct
import threading
import time
from pathlib import Path
from typing import List, Optional

from .table import LEAST_BUSY, Case, Step, bytes_of

HOST = "127.0.0.1"
PATIENCE = 30.0
"""For how many seconds what has to come is waited for."""
LONGEST_PAUSE = 250
"""In milliseconds, the pause after BUSY that doubles no more. The first one is 1; each is cut by up to half, at random."""
EARLY, LATE, APART = 1, 2000, 10
"""By so many milliseconds a client's clock may round, and a busy machine may delay it; the longest pauses differ by more than the last."""
LAST = b"QUIT\n"
"""What a client may send after the last step."""


class Different(Exception):
    """Something else happened than the table says."""


class Peer:
    """A server that plays a case in a thread of its own. The method that does a step has the step's name."""

    def __init__(self, case: Case, folder: Path) -> None:
        self._path = folder / "s"
        self._rest = b""
        self._connection: Optional[socket.socket] = None
        self._fillers: List[socket.socket] = []
        self._is_stopped = False
        if case.is_local:
            self._listener = socket.socket(socket.AF_UNIX)
            self._listener.bind(str(self._path))
            self._listener.listen(0)
            self.at = f"unix:{self._path}"
        else:
            self._listener = socket.create_server((HOST, 0))
            self.at = f"{HOST}:{self._listener.getsockname()[1]}"
        self._listener.settimeout(PATIENCE)
        self.found: Optional[str] = None
        """What differed, if anything did."""
        # What has to be so before the client's program begins.
        first = [step for step in case.server[:1] if step.kind in ("stops", "fills")]
        self._play(first)
        self._thread = threading.Thread(target=self._play_rest, args=(case.server[len(first):],), daemon=True)
        self._thread.start()

    def _play_rest(self, steps: List[Step]) -> None:
        try:
            self._play(steps)
        except Different as found:
            self.found = str(found)
            self.close()

    def _play(self, steps: List[Step]) -> None:
        for step in steps:
            try:
                getattr(self, f"_{step.kind}")(step.text)
            except (OSError, Different) as found:
                raise Different(f"{step.place}: {step.kind} {step.text}: {found}") from None

    def wait(self) -> None:
        """Waits until all steps were played. Different if one was not."""
        self._thread.join(PATIENCE)
        if self.found or self._thread.is_alive():
            raise Different(self.found or "the server waits for a step of the client")

    def look_for_more(self) -> None:
        """After the client's program has ended: Different if more came than the table says."""
        more = self._rest
        if self._connection:
            self._connection.settimeout(PATIENCE)
            more += self._all_of(self._connection)
        if more not in (b"", LAST):
            raise Different(f"after the last step came {more!r}")
        if self._is_stopped or self._fillers:
            return
        self._listener.settimeout(0)
        with contextlib.suppress(OSError):
            self._listener.accept()[0].close()
            raise Different("after the last step came a connection")

    @staticmethod
    def _all_of(connection: socket.socket) -> bytes:
        try:
            return b"".join(iter(lambda: connection.recv(4096), b""))
        except OSError:
            return b""

    def _here(self) -> socket.socket:
        if not self._connection:
            raise Different("there is no connection")
        return self._connection

    def close(self) -> None:
        """Closes all that is open."""
        for it in (self._connection, self._listener, *self._fillers):
            if it:
                it.close()

    # The steps.

    def _opens(self, _: str) -> None:
        if self._connection:
            self._connection.close()
        self._rest = b""
        self._connection = self._listener.accept()[0]
        self._connection.settimeout(PATIENCE)

    def _sent(self, text: str) -> None:
        while b"\n" not in self._rest:
            piece = self._here().recv(4096)
            if not piece:
                raise Different(f"the client ended the connection after {self._rest!r}")
            self._rest += piece
        line, _, self._rest = self._rest.partition(b"\n")
        if line != text.encode():
            raise Different(f"{line.decode(errors='replace')!r} was sent")

    def _says(self, text: str) -> None:
        connection = self._here()
        if connection.family == socket.AF_INET:
            connection.setsockopt(socket.IPPROTO_TCP, socket.TCP_NODELAY, 1)
        connection.sendall(bytes_of(text))

    def _busy(self, text: str) -> None:
        count, _, line = text.partition(" ")
        pauses: List[float] = []
        longest: List[float] = []
        for number in range(int(count)):
            began, usual = time.monotonic(), min(2 ** number, LONGEST_PAUSE)
            self._says(r"BUSY\n")
            self._sent(line)
            pause = (time.monotonic() - began) * 1000
            if not usual / 2 - EARLY <= pause <= usual + LATE:
                raise Different(f"pause {number + 1} took {pause:.1f} ms, and has {usual / 2:g} to {usual}")
            pauses.append(pause)
            longest += [pause] * (usual == LONGEST_PAUSE)
        first = pauses[:LEAST_BUSY]
        if min(first) >= LONGEST_PAUSE / 2 - EARLY:
            raise Different(f"the first pauses are not short: {', '.join(f'{pause:.1f}' for pause in first)} ms")
        if longest and (min(longest) >= LONGEST_PAUSE or max(longest) - min(longest) <= APART):
            raise Different(f"the longest pauses are not random: {min(longest):.1f} to {max(longest):.1f} ms")

    def _quiet(self, text: str) -> None:
        time.sleep(int(text) / 1000)
        self._here().settimeout(0)
        with contextlib.suppress(BlockingIOError):
            self._rest += self._here().recv(4096)
        self._here().settimeout(PATIENCE)
        if self._rest:
            raise Different(f"{self._rest!r} was sent")

    def _ends(self, _: str) -> None:
        more = self._rest + self._all_of(self._here())
        if more:
            raise Different(f"{more!r} was sent")

    def _shuts(self, _: str) -> None:
        self._here().close()
        self._connection = None

    def _resets(self, text: str) -> None:
        self._here().setsockopt(socket.SOL_SOCKET, socket.SO_LINGER, struct.pack("ii", 1, 0))
        self._shuts(text)

    def _stops(self, _: str) -> None:
        # The port stays taken, so that no other server is found there.
        self._listener.shutdown(socket.SHUT_RDWR)
        self._is_stopped = True

    def _fills(self, _: str) -> None:
        filler = socket.socket(socket.AF_UNIX)
        filler.connect(str(self._path))
        self._fillers.append(filler)

    def _frees(self, _: str) -> None:
        time.sleep(0.3)
        self._listener.accept()[0].close()
