"""The client of `mondlexi` for asyncio: the same names, the same exceptions, and calls that are awaited.

    import mondlexi.aio

    async with mondlexi.aio.Client("127.0.0.1:7000", "t") as client:
        counted = await client.get(0)
        outcome = await client.cas([(0, counted, counted + 1)])

A constructor takes what that of `mondlexi` takes, and does not connect: `async with` does, or `await client.reconnect()`. Before
that each call raises Lost. Each call does what the one of the same name does there, and `help(mondlexi)` says which exception
tells what.

Tasks of one event loop may share a client: one call after the other uses its connection. A call that is cancelled while its
reply is under way ends the connection, because that reply would be taken for the next one's. A change that was cancelled so is
undecided, as after Unknown. Then `get`, `get_many`, `stable`, `read` and `report` connect anew, and `cas` raises Lost until
`reconnect`.
"""
# Used by: programs, `mondlexi.recipes.aio`. It changes with `_client`, and with scripts/program_parts/awaited.py, which tries it.
import asyncio
import contextlib
import socket
import time
from types import TracebackType
from typing import TYPE_CHECKING, Any, Awaitable, ContextManager, Coroutine, Iterable, List, Optional, Tuple, Type, TypeVar

from ._pages import words_at
from ._protocol import Answer, Entry, LocalSocket, Outcome, Place, Port, Report, place_of
from ._session import FIRST_PAUSE, AdministratorSession, Count, Link, Session, TenantSession, options_of, paused
from ._sockets import PIECE, Tls, checked_tls, stop_unless_other_end

if TYPE_CHECKING:
    import ssl

__all__ = ["Administrator", "Client", "Counted", "snapshot"]

NEXT_ADDRESS = 0.25
"""After so many seconds without an answer the host's next address is tried too."""
_Streams = Tuple[asyncio.StreamReader, asyncio.StreamWriter]
_Own = TypeVar("_Own", bound="_Awaited")


async def _limited(work: Coroutine[Any, Any, Answer], seconds: float) -> Answer:
    """What this gives, if it ends within so many seconds, else socket.timeout. Then, or if it is cancelled, the work is too."""
    task = asyncio.ensure_future(work)
    try:
        done, _ = await asyncio.wait({task}, timeout=seconds)
    except BaseException:
        task.cancel()
        raise
    if not done:
        task.cancel()
        raise socket.timeout("timed out")
    return task.result()


class _StreamLink(Link):
    """A link over the streams of asyncio. A limit of time ends the connection, so that whoever waits for it goes on."""

    def __init__(self, place: Place, tls: Optional[Tls]) -> None:
        self._place, self._tls = place, tls
        self.is_tls = tls is not None
        self._streams: Optional[_Streams] = None
        self._lock: Optional[asyncio.Lock] = None
        self._is_late = False

    async def connect(self, timeout: float) -> None:
        """Connects, and speaks TLS if that is wanted."""
        self._is_late = False
        try:
            await _limited(self._open(timeout), timeout)
        except BaseException:
            self.drop()
            raise

    async def _open(self, timeout: float) -> None:
        """A connection of its kind."""
        if isinstance(self._place, LocalSocket):
            self._streams = await asyncio.open_unix_connection(sock=await self._local_socket(self._place, timeout))
            return
        self._streams = await _over_tcp(self._place, self._tls)

    async def _local_socket(self, place: LocalSocket, timeout: float) -> socket.socket:
        """A connected local socket. While as many connections wait as the system lets wait, it tries again. (A loop's own
        `sock_connect` takes such a socket for a connected one.)"""
        end, pause = time.monotonic() + timeout, FIRST_PAUSE
        connection = socket.socket(socket.AF_UNIX)
        try:
            connection.setblocking(False)
            while True:
                try:
                    connection.connect(place.path)
                    return connection
                except BlockingIOError as error:
                    pause = await paused(self, pause, end, error)
        except BaseException:
            connection.close()
            raise

    async def send(self, data: bytes, timeout: float) -> None:
        """Sends all of this."""
        _, writer = self._connected()
        writer.write(data)
        await self._before(time.monotonic() + timeout, writer.drain())

    async def receive(self, deadline: float) -> bytes:
        """Some of what the server has sent."""
        reader, _ = self._connected()
        return await self._before(deadline, reader.read(PIECE))

    async def finish(self, deadline: float) -> None:
        """Says `QUIT`, ends the writing side, and reads to the end; of TLS, whose writing side can't be ended alone, a line."""
        _, writer = self._connected()
        writer.write(b"QUIT\n")
        if not self._tls:
            writer.write_eof()
        told = await self.receive(deadline)
        while told and not (self._tls and b"\n" in told):
            told = await self.receive(deadline)
        writer.close()

    def drop(self) -> None:
        """Closes the connection."""
        if self._streams is not None:
            self._streams[1].transport.abort()
            self._streams = None

    async def pause(self, seconds: float) -> None:
        """Lets other tasks go on."""
        await asyncio.sleep(seconds)

    async def turn(self) -> ContextManager[Any]:
        """A lock of tasks, held. It is made in the event loop that uses it."""
        if self._lock is None:
            self._lock = asyncio.Lock()
        await self._lock.acquire()
        held = contextlib.ExitStack()
        held.callback(self._lock.release)
        return held

    async def _before(self, deadline: float, work: Awaitable[Answer]) -> Answer:
        """What this gives. At the deadline the connection ends, and so does the work."""
        timer = asyncio.get_running_loop().call_later(max(0.0, deadline - time.monotonic()), self._end_late)
        try:
            given = await work
        except OSError:
            if not self._is_late:
                raise
        finally:
            timer.cancel()
        if self._is_late:
            raise socket.timeout("timed out")
        return given

    def _end_late(self) -> None:
        """Ends the connection because of the time."""
        self._is_late = True
        self.drop()

    def _connected(self) -> _Streams:
        """The streams; a session uses them only while there are some."""
        assert self._streams is not None
        return self._streams


async def _over_tcp(place: Port, tls: Optional[Tls]) -> _Streams:
    """A connection; OSError if there is none, with nothing left open."""
    if tls:
        reader, writer = await asyncio.open_connection(place.host, place.port, ssl=tls.context, server_hostname=tls.name,
                                                       happy_eyeballs_delay=NEXT_ADDRESS)
    else:
        reader, writer = await asyncio.open_connection(place.host, place.port, happy_eyeballs_delay=NEXT_ADDRESS)
    try:
        stop_unless_other_end(writer.get_extra_info("sockname"), writer.get_extra_info("peername"))
    except BaseException:
        writer.transport.abort()
        raise
    return reader, writer


class _Awaited:
    """What both kinds of client have: they begin and end a session."""

    def __init__(self, session: Session) -> None:
        self._kind = session

    async def __aenter__(self: _Own) -> _Own:
        """Connects. `async with` closes the client at the end, however that comes."""
        await self._kind.begin()
        return self

    async def __aexit__(self, kind: Optional[Type[BaseException]], raised: Optional[BaseException],
                        trace: Optional[TracebackType]) -> None:
        """Closes the client, as `close` does. What was raised within `async with` goes on."""
        await self.close()

    async def close(self) -> None:
        """Ends the session and closes the connection, as `close` of `mondlexi`. It waits for calls of other tasks to end."""
        await self._kind.close()

    async def reconnect(self, within: float = 0.0) -> None:
        """Connects, or connects anew, as `reconnect` of `mondlexi`."""
        await self._kind.reconnect(within)


class Client(_Awaited):
    """A session for one tenant, whose words it reads and changes: `mondlexi.Client`, awaited."""

    def __init__(self, server: str, tenant: str, *, timeout: float = 10.0, patience: float = 5.0, within: float = 0.0,
                 reconnects: int = 1, tls: "Optional[ssl.SSLContext]" = None, tls_name: Optional[str] = None,
                 reads_within: float = 0.0) -> None:
        """Takes what `mondlexi.Client` takes. Raises ValueError or TypeError; it doesn't connect yet."""
        place = place_of(server)
        link = _StreamLink(place, checked_tls(place, tls, tls_name))
        self._session = TenantSession(server, link, options_of(timeout, within, reconnects, reads_within), tenant, patience)
        super().__init__(self._session)

    @property
    def words(self) -> int:
        """How many words the tenant has, 1 to 4096, as the server said when it was connected; 0 before that."""
        return self._session.words

    async def get(self, address: int) -> int:
        """The value of a word, as `mondlexi.Client.get`."""
        return (await self._session.get_many([address]))[0]

    async def get_many(self, addresses: Iterable[int]) -> List[int]:
        """The values of any number of words, each of its own moment, as `mondlexi.Client.get_many`."""
        return await self._session.get_many(addresses)

    async def stable(self, addresses: Iterable[int]) -> List[int]:
        """The values of any number of words, all of one moment if none returns to an earlier value, as `mondlexi.Client.stable`."""
        return await self._session.stable(addresses)

    async def read(self, addresses: Iterable[int]) -> List[int]:
        """The values of one to sixteen words, all of one moment, as `mondlexi.Client.read`."""
        return await self._session.read(addresses)

    async def cas(self, entries: Iterable[Entry]) -> Outcome:
        """Compares and swaps, as `mondlexi.Client.cas`."""
        return await self._session.cas(entries)


class Administrator(_Awaited):
    """A session of the administrator: `mondlexi.Administrator`, awaited."""

    def __init__(self, server: str, *, timeout: float = 10.0, within: float = 0.0, reconnects: int = 1,
                 tls: "Optional[ssl.SSLContext]" = None, tls_name: Optional[str] = None) -> None:
        """Takes what `mondlexi.Administrator` takes. Raises ValueError or TypeError; it doesn't connect yet."""
        place = place_of(server)
        link = _StreamLink(place, checked_tls(place, tls, tls_name))
        self._session = AdministratorSession(server, link, options_of(timeout, within, reconnects))
        super().__init__(self._session)

    async def report(self) -> Report:
        """How each tenant is, and the room of the server, as `mondlexi.Administrator.report`."""
        return await self._session.report()


class _Caller:
    """A client's calls as a count wants them."""

    def __init__(self, client: Client) -> None:
        self._client = client

    @property
    def words(self) -> int:
        """How many words the tenant has."""
        return self._client.words

    async def cas(self, entries: Iterable[Entry]) -> Outcome:
        """A change."""
        return await self._client.cas(entries)

    async def reconnect(self, within: float) -> None:
        """Connects anew."""
        await self._client.reconnect(within)

    async def pause(self, seconds: float) -> None:
        """Lets other tasks go on."""
        await asyncio.sleep(seconds)


class Counted:
    """Changes of which it is found out whether they were made: `mondlexi.Counted`, awaited. One task at a time uses it.

    A call that is cancelled leaves its change undecided. The next call settles it first, and `settle` tells whether it was made."""

    def __init__(self, client: Client, address: int, wait: float = 30.0) -> None:
        """Takes what `mondlexi.Counted` takes, and moves nothing yet: `begin`, or else the first `cas`, moves the count."""
        self._count = Count(_Caller(client), address, wait)

    async def begin(self) -> None:
        """Moves the count, unless this has done so: from then on no change of an earlier `Counted` of it is made any more.
        Raises what `cas` of a `Client` does."""
        await self._count.begin()

    def cas(self, entries: Iterable[Entry]) -> Coroutine[Any, Any, Outcome]:
        """A change that is found out, as `mondlexi.Counted.cas`. `settle` tells of it from this call on, also if what this gives is
        cancelled before it begins."""
        self._count.announce()
        return self._count.cas(entries)

    async def settle(self) -> bool:
        """Whether the last change was made, as `mondlexi.Counted.settle`."""
        return await self._count.settle()


async def snapshot(pages: str, tenant: str, *, timeout: float = 10.0) -> List[int]:
    """The values of all words of a tenant at one moment, as `mondlexi.snapshot`."""
    place = place_of(pages)
    return await words_at(_StreamLink(place, None), place, tenant, timeout)
