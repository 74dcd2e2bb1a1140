"""A network between clients and a server, as a process of its own, that loses lines and replies, and delivers changes late.

usage: network.py LISTEN_PORT SERVER_PORT USER

FATES has how many of a hundred lines meet which fate, for USER: `clients`, or `recipes`, of which one call may send hundreds of reads at
once. A line whose reply is lost is passed on, and the connection is cut. One that is late is passed on up to 1.5 seconds after its
connection was cut, when the client has long connected anew. All others are passed on. It prints `ready`, and on SIGTERM how many
lines had which fate. Status 0.

Used by: running.py, client_parts/runs.py.
"""
import asyncio
import contextlib
import random
import signal
import subprocess
import sys
from collections import Counter
from typing import Tuple

HOST = "127.0.0.1"
PIECE = 65536
LATE_LINE, LATE_REPLY = 1.5, 2.0
"""At most so many seconds late is a line, or a reply."""
REPLY_LOST, LOST, LATE, REPLY_LATE, PASSED_ON = "its reply lost", "lost", "late", "its reply late", "passed on"
CHANGES = {REPLY_LOST: 2.0, LOST: 1.0, LATE: 2.0, REPLY_LATE: 1.0}
FATES = {"recipes": {b"CAS": CHANGES, b"GET": {fate: part / 100 for fate, part in CHANGES.items()}},
         "clients": {b"CAS": CHANGES, b"GET": {REPLY_LOST: 1.0, LOST: 1.0, REPLY_LATE: 1.0}}}

Streams = Tuple[asyncio.StreamReader, asyncio.StreamWriter]


class Network:
    """The process, as whoever began it sees it. It listens once this is made."""

    def __init__(self, listens_at: int, server_at: int, user: str) -> None:
        words = [sys.executable, "-B", __file__, str(listens_at), str(server_at), user]
        self._process = subprocess.Popen(words, stdin=subprocess.DEVNULL, stdout=subprocess.PIPE, text=True)
        assert self._process.stdout
        if self._process.stdout.readline() != "ready\n":
            raise SystemExit(f"the network does not listen at {listens_at}")

    def end(self) -> str:
        """Ends it. What it tells."""
        self._process.terminate()
        return self._process.communicate()[0].strip()


class Passage:
    """One connection of a client, and one to the server in its place."""

    def __init__(self, client: Streams, server: Streams, user: str, told: "Counter[str]") -> None:
        self.from_client, self.to_client = client
        self.from_server, self.to_server = server
        self.fates, self.told = FATES[user], told
        self.delay = 0.0

    async def serve(self) -> None:
        """Passes on what comes, until one of both ends."""
        self.replies = asyncio.ensure_future(self.pass_replies())
        try:
            while (line := await self.from_client.readline()) and await self.meet(line):
                pass
        except (OSError, asyncio.TimeoutError):
            pass
        finally:
            self.cut()
            self.to_server.close()

    def cut(self) -> None:
        """Ends the connection to the client at once."""
        self.replies.cancel()
        self.to_client.transport.abort()

    async def pass_replies(self) -> None:
        """Passes replies on, and the end of the connection."""
        with contextlib.suppress(OSError):
            while data := await self.from_server.read(PIECE):
                delay, self.delay = self.delay, 0.0
                await asyncio.sleep(delay)
                self.to_client.write(data)
                await self.to_client.drain()
        self.to_client.transport.abort()

    async def send(self, line: bytes) -> None:
        """Passes on a line."""
        self.to_server.write(line)
        await self.to_server.drain()

    async def meet(self, line: bytes) -> bool:
        """Lets a line meet its fate. Whether the connection goes on."""
        fates = self.fates.get(line[:3], {})
        fate = random.choices([*fates, PASSED_ON], [*fates.values(), 100 - sum(fates.values())])[0]
        self.told[f"{line[:3].decode()} {fate}"] += fate != PASSED_ON
        if fate == LATE:
            self.cut()
            await asyncio.sleep(random.uniform(0, LATE_LINE))
            await self.send(line)
            await asyncio.wait_for(self.from_server.readline(), 5)
        elif fate == REPLY_LOST:
            self.replies.cancel()
            await self.send(line)
            await asyncio.sleep(random.uniform(0, 0.02))
        elif fate != LOST:
            self.delay = random.uniform(0, LATE_REPLY) if fate == REPLY_LATE else 0.0
            await self.send(line)
        return fate in (REPLY_LATE, PASSED_ON)


async def serve_all(listens_at: int, server_at: int, user: str) -> None:
    """Serves each client, until SIGTERM."""
    told: "Counter[str]" = Counter()

    async def serve(reader: asyncio.StreamReader, writer: asyncio.StreamWriter) -> None:
        try:
            server = await asyncio.open_connection(HOST, server_at)
        except OSError:
            writer.transport.abort()
            return
        # (At the end all that are under way are cancelled, of which asyncio would tell.)
        with contextlib.suppress(asyncio.CancelledError):
            await Passage((reader, writer), server, user, told).serve()

    await asyncio.start_server(serve, HOST, listens_at, backlog=1000)
    stop = asyncio.Event()
    asyncio.get_running_loop().add_signal_handler(signal.SIGTERM, stop.set)
    print("ready", flush=True)
    await stop.wait()
    print("lines: " + ", ".join(f"{number} {fate}" for fate, number in sorted(told.items()) if number), flush=True)


if __name__ == "__main__":
    asyncio.run(serve_all(int(sys.argv[1]), int(sys.argv[2]), sys.argv[3]))
