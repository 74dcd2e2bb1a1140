"""A link over a socket that blocks: TCP, TLS over it, or a local socket.

Used by: `_client`. The asyncio twin has a link of its own in `aio`; `checked_tls` is for both.
"""
import socket
import threading
import time
from typing import TYPE_CHECKING, Any, ContextManager, NamedTuple, Optional

from ._protocol import Place, Port
from ._session import FIRST_PAUSE, Link, paused

if TYPE_CHECKING:
    import ssl

PIECE = 4096
"""How many bytes are asked for at a time."""


class Tls(NamedTuple):
    """How TLS is spoken: a context, and the name that the server's certificate has to have."""
    context: "ssl.SSLContext"
    name: str


def checked_tls(place: Place, tls: Optional["ssl.SSLContext"], tls_name: Optional[str]) -> Optional[Tls]:
    """How TLS is spoken with the server at a place, None if it isn't. Else ValueError or TypeError."""
    if tls is None:
        if tls_name is not None:
            raise ValueError("tls_name goes with tls alone")
        return None
    import ssl  # not each Python has it, and not each program needs it
    if not isinstance(tls, ssl.SSLContext):
        raise TypeError(f"tls has to be an ssl.SSLContext, not {tls!r}")
    if tls_name is not None and not isinstance(tls_name, str):
        raise TypeError(f"tls_name has to be a text, not {tls_name!r}")
    if not isinstance(place, Port):
        raise ValueError("tls is for TCP, not for a local socket")
    if tls_name is not None and not tls_name.strip("."):
        raise ValueError("tls_name has to be the name of a host")
    return Tls(tls, place.host if tls_name is None else tls_name)


def stop_unless_other_end(own: object, other: object) -> None:
    """Raises ConnectionRefusedError if a connection's two ends are the same. The system may connect a socket to itself if
    nobody listens at a port of this machine."""
    if own == other:
        raise ConnectionRefusedError("nobody listens")


class SocketLink(Link):
    """A link whose methods block, and never wait for an event loop."""

    def __init__(self, place: Place, tls: Optional[Tls]) -> None:
        self._place, self._tls = place, tls
        self.is_tls = tls is not None
        self._lock = threading.Lock()
        self._socket: Optional[socket.socket] = None

    async def connect(self, timeout: float) -> None:
        """Connects, and speaks TLS if that is wanted."""
        if isinstance(self._place, Port):
            self._socket = _over_tcp(self._place, self._tls, timeout)
        else:
            self._socket = await self._at_local_socket(self._place.path, timeout)

    async def _at_local_socket(self, path: str, timeout: float) -> socket.socket:
        """A connection. While as many connections wait as the system lets wait, it tries again."""
        end, pause = time.monotonic() + timeout, FIRST_PAUSE
        connection = socket.socket(socket.AF_UNIX)
        try:
            connection.settimeout(timeout)
            while True:
                try:
                    connection.connect(path)
                    return connection
                except BlockingIOError as error:
                    pause = await paused(self, pause, end, error)
        except BaseException:
            connection.close()
            raise

    async def send(self, data: bytes, timeout: float) -> None:
        """Sends all of this."""
        connection = self._connected()
        connection.settimeout(timeout)
        connection.sendall(data)

    async def receive(self, deadline: float) -> bytes:
        """Some of what the server has sent."""
        left = deadline - time.monotonic()
        if left <= 0:
            raise socket.timeout("timed out")
        connection = self._connected()
        connection.settimeout(left)
        return connection.recv(PIECE)

    async def finish(self, deadline: float) -> None:
        """Says `QUIT`, ends the writing side, and reads to the end; of TLS, whose writing side can't be ended alone, a line."""
        connection: Any = self._connected()
        await self.send(b"QUIT\n", max(0.001, deadline - time.monotonic()))
        if not self._tls:
            connection.shutdown(socket.SHUT_WR)
        told = await self.receive(deadline)
        while told and not (self._tls and b"\n" in told):
            told = await self.receive(deadline)
        if self._tls:
            connection.unwrap()

    def drop(self) -> None:
        """Closes the connection."""
        if self._socket is not None:
            self._socket.close()
            self._socket = None

    async def pause(self, seconds: float) -> None:
        """Sleeps."""
        time.sleep(seconds)

    async def turn(self) -> ContextManager[Any]:
        """A lock of threads. From Python 3.10 on an interrupt can't leave it held."""
        return self._lock

    def _connected(self) -> socket.socket:
        """The connection; a session uses it only while there is one."""
        assert self._socket is not None
        return self._socket


def _other_end(connection: socket.socket) -> object:
    """Where the other end is; ConnectionResetError if the server has closed the connection already."""
    try:
        return connection.getpeername()
    except OSError as error:
        raise ConnectionResetError("the server closed the connection") from error


def _to_one_of(place: Port, timeout: float) -> socket.socket:
    """A connection to the first of the host's addresses that takes one; OSError if none does. Each has an equal share of the time that is
    left, so that a machine which says nothing leaves some to the others."""
    end = time.monotonic() + timeout
    addresses = socket.getaddrinfo(place.host, place.port, type=socket.SOCK_STREAM)
    places = [place] if len(addresses) == 1 else [Port(str(address[0]), place.port) for *_, address in addresses]
    for number, one in enumerate(places):
        try:
            return socket.create_connection(one, max(0.001, (end - time.monotonic()) / (len(places) - number)))
        except OSError:
            if number + 1 == len(places):
                raise
    raise OSError("the host has no address")


def _over_tcp(place: Port, tls: Optional[Tls], timeout: float) -> socket.socket:
    """A connection; OSError if there is none within so many seconds, with nothing left open."""
    end = time.monotonic() + timeout
    connection = _to_one_of(place, timeout)
    try:
        stop_unless_other_end(connection.getsockname(), _other_end(connection))
        connection.setsockopt(socket.IPPROTO_TCP, socket.TCP_NODELAY, 1)
        if not tls:
            return connection
        connection.settimeout(max(0.001, end - time.monotonic()))
        return tls.context.wrap_socket(connection, server_hostname=tls.name)
    except BaseException:
        connection.close()
        raise
