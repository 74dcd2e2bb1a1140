"""The exceptions of the client and of its asyncio twin, all of them kinds of `Error`.

Used by: all of this package; `mondlexi` and `mondlexi.aio` give them to users. A new one goes into the table of `mondlexi`, is
one of each client, and a word of clients/cases/README.md, which scripts/client_parts/play.py tells.
"""

_MEANINGS = {
    1: "the line is too long",
    2: "the line is no command",
    3: "the session has no tenant yet",
    4: "the session is bound already",
    5: "no tenant has this name",
    6: "the tenant has no such address",
    7: "the addresses don't rise",
    8: "the change has too many entries",
    9: "a value is too great",
    10: "the command isn't for this kind of session",
    404: "no tenant has this name, or the server is too old for it",
    421: "the pages are not called by this name",
    500: "no copy of the file could be made",
}


class Error(Exception):
    """Any failure but a wrong argument. Its text says what was asked and what happened."""


class Lost(Error):
    """There is no connection, or it broke or timed out before a reply. This call changed nothing. The client has no connection.

    From a constructor or `reconnect`: nobody listens there, the host has no such name, the local socket isn't there or this
    process may not write it, TLS failed, or no reply came within `timeout`, for example because all workers of the server are
    taken. From `cas`: the connection was lost before, so call `reconnect`, and `cas` again."""


class Full(Lost):
    """The server closed a new connection before it gave any reply. The client has no connection, and nothing was changed.

    A server closes a connection so if no session becomes free for it within the server's own limit of waiting (`--wait`), and so
    does a proxy, at once if the server is down. Connect again later. A server that ends at that moment looks the same. A
    proxy with the configuration of `contrib` tells a client that may not speak for the tenant so: `Refused`, number 5."""


class Unknown(Error):
    """The connection broke or timed out after a `cas` began to send its change, before the reply. The client has no connection.

    The change was made, or it wasn't, or the server is still about to make it: wholly or not at all. A `Counted` raises this of
    its last change, whatever is the reason: that is the `__cause__`, an `Error` of any kind. Its `settle` tries again."""


class Busy(Error):
    """The call asked again for `patience` seconds, and gave up. It changed nothing, and the client can go on.

    The tenant had as many changes under way as its quota allows; or, of a `read`, its words changed all the while."""


class Fault(Error):
    """The tenant's file has failed or did not open: all calls are answered so until the server is started again.

    A `cas` of a `Client` that raised this was made or not, wholly or not at all, as the next start finds; other calls changed
    nothing. Until then `reconnect` works, and to ask again does no harm."""


class Worn(Error):
    """A number of the server has come to its end, 2^48 - 1. After a restart the server counts from 0 again.

    Each place for a change under way numbers its changes, and each worker its attempts to hold a word: for nine years, at a
    million a second. A `cas` of a `Client` that raised this is undecided, other calls changed nothing; `get` works as before."""


class Refused(Error):
    """The server refuses a line and has done nothing.

    `line`: what was sent; `number`: that of its `ERR`; `meaning`: what this stands for, a text. This client checks all else
    before it sends, so the usual number is 5: no tenant has the name, or, at a proxy, not for this client. From `snapshot` the
    number is a status of HTTP: 404 if no tenant has the name."""

    def __init__(self, line: str, number: int) -> None:
        super().__init__(line, number)
        self.line: str = line
        self.number: int = number
        self.meaning: str = _MEANINGS.get(number, "an unknown number")

    def __str__(self) -> str:
        """The line, the number and its meaning."""
        return f"{self.line}: refused, {self.number}: {self.meaning}"
