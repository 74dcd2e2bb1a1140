"""The client whose calls block: `Client`, `Administrator` and `Counted`, over sessions of sockets.

It also has `snapshot`, which needs no session. Used by: `mondlexi`, which gives them to users; `_shell`; the recipes, for types. A call that is
added here is added to `aio`, which has the same names for asyncio, to scripts/program_parts/awaited.py, and to each client in clients/.
"""
import time
from types import TracebackType
from typing import TYPE_CHECKING, Iterable, List, Optional, Type, TypeVar

from ._pages import words_at
from ._protocol import Entry, Outcome, Report, place_of
from ._session import AdministratorSession, Count, Session, TenantSession, options_of, run
from ._sockets import SocketLink, checked_tls

if TYPE_CHECKING:
    import ssl

_Own = TypeVar("_Own", bound="_Blocking")


class _Blocking:
    """What both kinds of client have: they begin and end a session."""

    def __init__(self, session: Session) -> None:
        self._kind = session
        run(session.begin())

    def __enter__(self: _Own) -> _Own:
        """The client itself. `with` closes it at the end, however that comes."""
        return self

    def __exit__(self, kind: Optional[Type[BaseException]], raised: Optional[BaseException],
                 trace: Optional[TracebackType]) -> None:
        """Closes the client, as `close` does. What was raised within `with` goes on."""
        self.close()

    def close(self) -> None:
        """Ends the session and closes the connection, so that the server's worker is free. Never raises an `Error`.

        It waits for a call of another thread to end, and then for the server's goodbye, a second at most. A client that
        is closed already stays so: each further call raises Lost, until `reconnect`. Changes that were made stay made."""
        run(self._kind.close())

    def reconnect(self, within: float = 0.0) -> None:
        """Connects anew, as the constructor did: after Lost or Unknown, or `close`. A connection that there is, is closed first.

        `within`: for how many seconds to try again, with growing pauses, if that fails, as it does while nobody listens or no
        reply comes; 0, for a single try, up to 1,000,000. A try that has begun is waited for, up to `timeout`.

        Raises ValueError or TypeError, with nothing done; Lost or Full if no try went well; Refused at once. The client has no
        connection after these three."""
        run(self._kind.reconnect(within))


class Client(_Blocking):
    """A session for one tenant, whose words it reads and changes."""

    def __init__(self, server: str, tenant: str, *, timeout: float = 10.0, patience: float = 5.0, within: float = 0.0,
                 reconnects: int = 1, tls: "Optional[ssl.SSLContext]" = None, tls_name: Optional[str] = None,
                 reads_within: float = 0.0) -> None:
        """Connects to `server`, and speaks for `tenant` from then on.

        `server`: where it listens. `HOST:PORT`: a name, or an address (of IPv6 in brackets), and a port from 1 to 65535; or
        `unix:PATH`: the path of a local socket, 1 to 107 bytes. A relative one begins in the folder where this process is.
        `tenant`: a letter a to z, then up to 15 of a to z, 0 to 9 and "-".
        `timeout`: for how many seconds to wait for a connection, and then for each reply; above 0, up to 1,000,000.
        `patience`: for how many seconds a `cas` or a `read` asks again, with growing pauses, while the server is busy;
        0, for not at all, up to 1,000,000.
        `within`: for how many seconds to try again if connecting fails, as `reconnect` does; also when a call reconnects.
        `reconnects`: how often one call of `get`, `get_many`, `stable` or `read` connects anew and asks again if the connection has
        broken, 0 to 1,000. A reply that doesn't come within `timeout` isn't asked for again.
        `reads_within`: for how many seconds such a call does so whatever was lost, also a late reply, 0 to 1,000,000. No program
        needs a loop for Lost around its reads then.
        `tls`: speaks TLS by this context, over TCP. The server itself has no TLS: a proxy in front of it has.
        `tls_name`: the name that the certificate has to have, if it isn't the host of `server`.

        Raises ValueError or TypeError, with nothing sent; Lost; Full; Refused, with number 5, if no tenant has the name."""
        place = place_of(server)
        link = SocketLink(place, checked_tls(place, tls, tls_name))
        self._session = TenantSession(server, link, options_of(timeout, within, reconnects, reads_within), tenant, patience)
        super().__init__(self._session)

    @property
    def words(self) -> int:
        """How many words the tenant has, 1 to 4096, up or down, as the server said when it was connected. It asks nobody."""
        return self._session.words

    def get(self, address: int) -> int:
        """The value of the word at `address`, 0 to `words` - 1: from 0 to 2^48 - 1, and durable. It costs no disk access.

        It is no older than what this connection was told before, nor than a change that any client was told as made before
        this call. (Of the server's core both follow from what is proved; of its threads the first does, and the second is tested.)

        If the connection has broken, it connects anew and asks again, as often as `reconnects` says. Raises ValueError for an
        address that the tenant doesn't have, TypeError for what is no integer; Lost; Fault; and, when it connects anew, Full, or
        Refused if the server doesn't know the tenant or the address any more."""
        return run(self._session.get_many([address]))[0]

    def get_many(self, addresses: Iterable[int]) -> List[int]:
        """The values of any number of words, in the order in which `addresses` names them, by one round trip for up to 512.

        Each value is of its own moment, the later ones of later moments: `stable` and `read` give words of one moment. It
        costs no disk access. It connects anew, and raises, as `get` does; after an exception no value is given."""
        return run(self._session.get_many(addresses))

    def stable(self, addresses: Iterable[int]) -> List[int]:
        """The values of any number of words, all as they were at one moment, if no word of them returns to an earlier value.

        It reads all of them twice, and again until two readings in a row are equal. So a word that left its value and has it again
        goes unnoticed: use it for words that only grow, or of which each change also moves a version among `addresses`;
        docs/RECIPES.md has such layouts. For other words use `read`. It costs no disk access, and changes nothing.

        It connects anew, and raises, as `get` does; Busy if the words kept changing for `patience` seconds."""
        return run(self._session.stable(addresses))

    def read(self, addresses: Iterable[int]) -> List[int]:
        """The values of several words at one moment, by a change of them: it costs the disk, and starves beside their writers.

        One to sixteen different addresses, in any order; one may come again. The values are in the order of `addresses`. A single
        word is read by `get`. Several are guessed by `get_many`, then confirmed by a change that writes to each the value that it
        has. So it costs the disk as much as a change of them, and as a change can be busy. Guesses that have gone stale are mended;
        while others change the words all the time it may end as Busy, because nothing gives it a turn. `stable` reads any number
        of words without a change, if they are laid out for it.

        It connects anew as `get` does. Raises ValueError or TypeError, with nothing sent; Lost; Full and Refused as `get`; Fault;
        Worn; Busy if the server was busy, or the words kept changing, for `patience` seconds. No exception leaves a word
        changed by it, then or later."""
        return run(self._session.read(addresses))

    def cas(self, entries: Iterable[Entry]) -> Outcome:
        """Compares and swaps: writes each entry's new value if all the words have the values expected, else nothing.

        An entry is `(address, expected, new)`: an address from 0 to `words` - 1, and two values from 0 to 2^48 - 1, which
        may be equal, to compare only. One to sixteen entries in any order, each of another word.

        Returns an `Outcome`: made, durably; or a word that had another value. While the server is busy it asks again,
        for `patience` seconds. The server syncs its file four times for a change that is made, once for one that isn't.
        Changes with a word in common, be it compared only, are made one after the other; this by itself makes none busy.

        Raises ValueError or TypeError, with nothing sent; Lost, Busy, Refused: not made. Unknown, Fault, Worn: undecided,
        and the module's text says how to go on. It never connects anew."""
        return run(self._session.cas(entries))


class Administrator(_Blocking):
    """A session of the administrator, who asks how the tenants are and sees no words."""

    def __init__(self, server: str, *, timeout: float = 10.0, within: float = 0.0, reconnects: int = 1,
                 tls: "Optional[ssl.SSLContext]" = None, tls_name: Optional[str] = None) -> None:
        """Connects to `server`: where it listens, as for a `Client`, perhaps at a place for the administrator alone.

        `timeout`: for how many seconds to wait for a connection, and then for each answer; above 0, up to 1,000,000.
        `within`, `reconnects`, `tls`, `tls_name`: as for a `Client`.

        Raises ValueError or TypeError, with nothing sent; Lost; Full."""
        place = place_of(server)
        link = SocketLink(place, checked_tls(place, tls, tls_name))
        self._session = AdministratorSession(server, link, options_of(timeout, within, reconnects))
        super().__init__(self._session)

    def report(self) -> Report:
        """How each tenant is, and the room of the server. If the connection has broken it connects anew, as `get` of a `Client`
        does. Raises Lost and Full; no exception changes anything."""
        return run(self._session.report())


class _Caller:
    """A client's calls as a count wants them. They block."""

    def __init__(self, client: Client) -> None:
        self._client = client

    @property
    def words(self) -> int:
        """How many words the tenant has."""
        return self._client.words

    async def cas(self, entries: Iterable[Entry]) -> Outcome:
        """A change."""
        return self._client.cas(entries)

    async def reconnect(self, within: float) -> None:
        """Connects anew."""
        self._client.reconnect(within)

    async def pause(self, seconds: float) -> None:
        """Sleeps."""
        time.sleep(seconds)


class Counted:
    """Changes of which it is found out whether they were made, if replies are lost and servers end.

    Each also moves a count by 2: a word, of any value at first, that nothing else writes. While it is undecided a change of
    the count alone, by 1, is asked for until that is answered: either that is made, and the other never can be, or the count
    tells that the other was. One thread of one process at a time has a count, and one `Counted` of it; several of these may
    share a client, each with a count of its own."""

    def __init__(self, client: Client, address: int, wait: float = 30.0) -> None:
        """`address`: the count's. `wait`: for how many seconds to connect `client` anew and ask again, while that fails or the
        server is busy, 0 to 1,000,000. A try that has begun is waited for.

        Moves the count: from then on no change of an earlier `Counted` of it is made any more. Raises what `Client.cas` does."""
        self._count = Count(_Caller(client), address, wait)
        run(self._count.begin())

    def cas(self, entries: Iterable[Entry]) -> Outcome:
        """As `Client.cas`, of up to fifteen entries; but after Lost or Unknown it connects `client` anew and finds out, for `wait`
        seconds. Before it sends anything it does so for the change before, if that is undecided, and forgets its outcome: call
        `settle` first. What it tells as not made never will be. If a reply was lost it tells no word then, and perhaps none differs:
        read again, or send it again.

        Raises Unknown, from its cause, if its change stays undecided: then `settle` tells. After any other `Error`, ValueError or
        TypeError its change was not made, and never will be: it was busy or refused; or not sent, because the one before stays
        undecided, for the reason that is raised. RuntimeError if something else has moved the count: it may be undecided.

        After an exception from outside, such as KeyboardInterrupt, the change is undecided, and the next call settles it first."""
        return run(self._count.cas(entries))

    def settle(self) -> bool:
        """Whether the last change was made, whatever its `cas` raised; if not, it never will be. False before the first one. An
        interrupt may come before `cas` has begun: then the last change is the one before.

        Raises Unknown, from its cause, as long as it can't tell: after `wait` seconds, or at once from Fault or Worn, until the
        server was started again, and from Refused. RuntimeError if something else has moved the count."""
        return run(self._count.settle())


def snapshot(pages: str, tenant: str, *, timeout: float = 10.0) -> List[int]:
    """The values of all words of a tenant at one moment, in the order of their addresses, from the server's pages.

    `pages`: where they are, the server's `--http`: HOST:PORT or unix:PATH, as of a `Client`. `tenant`: as of a `Client`.
    `timeout`: for how many seconds to wait for the whole answer; above 0, up to 1,000,000.

    The moment is one between the call and its end. Each change that was told as made before the call is in it, and any other one
    wholly or not at all. It needs no session, makes no change, and doesn't starve: the server reads the tenant's file once.

    Raises ValueError or TypeError, with nothing sent; Lost, if nobody answers or the answer is not whole; Fault, if the tenant is
    down; Refused, with a status of HTTP as its number. No exception changes anything."""
    place = place_of(pages)
    return run(words_at(SocketLink(place, None), place, tenant, timeout))
