#!/usr/bin/env python3
"""The client in Python, as the program of clients/cases/README.md: reads calls, one a line, and tells what each tells.

usage: play.py [--asyncio]

With --asyncio it is the client for asyncio, whose calls are awaited one by one. Status 0. Used by: builds.py. A further
call needs a case here, in the same program of each other language (play.c, play.rs, main.go, play.js, Play.java), and a row of that page.
"""
import sys
from pathlib import Path
from typing import Any, Callable, Dict, List, Tuple

sys.dont_write_bytecode = True
SCRIPTS = Path(__file__).resolve().parent.parent
sys.path[:0] = [str(SCRIPTS.parent / "clients/python"), str(SCRIPTS)]
import mondlexi  # noqa: E402


def told_error(error: Exception) -> str:
    """A failure by its kind."""
    if isinstance(error, mondlexi.Refused):
        return f"refused {error.number}"
    if isinstance(error, mondlexi.Unknown) and isinstance(error.__cause__, mondlexi.Error):
        return f"unknown from {told_error(error.__cause__)}"
    return {ValueError: "invalid", RuntimeError: "moved"}.get(type(error), type(error).__name__.lower())


def told_outcome(outcome: mondlexi.Outcome) -> str:
    """How a change ended."""
    return "made" if outcome.made else "not" if outcome.address is None else f"not {outcome.address} {outcome.value}"


def told_values(values: List[int]) -> str:
    """What a read gives."""
    return " ".join(["values", *map(str, values)])


def told_report(report: mondlexi.Report) -> str:
    """A report in one line."""
    lines = [f"tenant {t.name} {t.words} {t.quota} {t.places} {t.under_way} {'up' if t.up else 'down'}" for t in report.tenants]
    return "; ".join([*lines, f"free {report.free}"])


def options_of(words: List[str]) -> Dict[str, Any]:
    """Options with times in milliseconds, as the client takes them."""
    pairs = (word.split("=") for word in words)
    return {name: int(value) if name == "reconnects" else int(value) / 1000 for name, value in pairs}


def entries_of(words: List[str]) -> List[Tuple[int, ...]]:
    """The entries of a change."""
    return [tuple(int(part) for part in word.split(":")) for word in words]


class Player:
    """Makes the calls. It has one client and one count at a time."""

    def __init__(self, clients: Any) -> None:
        """`clients`: the module `mondlexi`, or one with the same names."""
        self._clients = clients
        self._client: Any = None
        self._counted: Any = None
        self._calls: Dict[str, Callable[[List[str]], str]] = {
            "client": self._connect, "administrator": self._administer, "counted": self._count,
            "get": lambda words: told_values([self._client.get(int(words[0]))]),
            "get_many": lambda words: told_values(self._client.get_many(map(int, words))),
            "read": lambda words: told_values(self._client.read(map(int, words))),
            "stable": lambda words: told_values(self._client.stable(map(int, words))),
            "cas": lambda words: told_outcome(self._client.cas(entries_of(words))),
            "counted_cas": lambda words: told_outcome(self._counted.cas(entries_of(words))),
            "settle": lambda _: "made" if self._counted.settle() else "not",
            "report": lambda _: told_report(self._client.report()),
            "reconnect": lambda words: "connected" if self._client.reconnect(int(words[0]) / 1000) is None else "",
            "close": lambda _: self._close(),
        }

    def call(self, line: str) -> str:
        """What a call tells."""
        name, *words = line.split()
        try:
            return self._calls[name](words)
        except (mondlexi.Error, ValueError, RuntimeError) as error:
            return told_error(error)

    def _connect(self, words: List[str]) -> str:
        self._client = self._clients.Client(words[0], words[1], **options_of(words[2:]))
        return f"words {self._client.words}"

    def _administer(self, words: List[str]) -> str:
        self._client = self._clients.Administrator(words[0], **options_of(words[1:]))
        return "connected"

    def _count(self, words: List[str]) -> str:
        self._counted = self._clients.Counted(self._client, int(words[0]), *options_of(words[1:]).values())
        return "counted"

    def _close(self) -> str:
        """A client that never connected is none."""
        if self._client is not None:
            self._client.close()
        return "closed"


def main() -> int:
    """Answers each line. The status."""
    clients: Any = mondlexi
    if sys.argv[1:] == ["--asyncio"]:
        from program_parts import awaited
        clients = awaited
    player = Player(clients)
    for line in sys.stdin:
        print(player.call(line), flush=True)
    return 0


if __name__ == "__main__":
    sys.exit(main())
