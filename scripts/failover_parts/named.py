"""The Python client, which finds the serving host by one name that has the addresses of all: a session as those of load.py.

Used by: scripts/check-failover, load.py.
"""
import contextlib
import socket
from typing import Any, Sequence

import mondlexi

NAME = "hosts.example"
TIMEOUT = 4.0
"""For how many seconds a connection, or a reply, is waited for: of those for a connection each address has its share."""


class NamedSession:
    """A session of the Python client. OSError if there is none."""

    def __init__(self, number: int, port: int, tenant: str):
        self.number = number
        try:
            self.client = mondlexi.Client(f"{NAME}:{port}", tenant, timeout=TIMEOUT, reconnects=0)
        except mondlexi.Error as error:
            raise OSError(str(error)) from error

    def say(self, line: str) -> str:
        """The reply to a line; OSError if none comes."""
        word, *rest = line.split(" ")
        try:
            if word == "GET":
                return f"VAL {self.client.get(int(rest[0]))}"
            outcome = self.client.cas([tuple(map(int, it.split(":"))) for it in rest])
            return "YES" if outcome else f"NO {outcome.address} {outcome.value}"
        except mondlexi.Error as error:
            raise OSError(str(error)) from error

    def close(self) -> None:
        self.client.close()


def know(addresses: Sequence[str], ends: contextlib.ExitStack) -> None:
    """Lets this process know the name, until the end."""
    plain = socket.getaddrinfo

    def found(host: Any, port: Any, *words: Any, **more: Any) -> Any:
        return [one for it in (addresses if host == NAME else [host]) for one in plain(it, port, *words, **more)]

    socket.getaddrinfo = found
    ends.callback(setattr, socket, "getaddrinfo", plain)
