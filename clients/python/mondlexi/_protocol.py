"""The protocol without a connection: which arguments are allowed, the line of each question, and what its reply means.

Used by: most other files of this package. Nothing here reads, writes or waits. docs/PROTOCOL.md has the grammar: a command or
limit that it gains is added here first, then in the file named for the protocol of each other client, with cases in clients/cases.
"""
import operator
import os
import re
from dataclasses import dataclass
from typing import Callable, Dict, Generic, Iterable, Iterator, List, NamedTuple, Optional, Sequence, Tuple, Type, TypeVar, Union

from .errors import Busy, Error, Fault, Lost, Refused, Unknown, Worn

MAX_VALUE: int = 2 ** 48 - 1
"""The greatest value of a word."""
MAX_WORDS: int = 4096
"""The most words that a tenant can have; the greatest address is one less."""
MAX_ENTRIES: int = 16
"""The most words of one change, or of one `read`."""
MAX_PATH = 107
"""The most bytes of the path of a local socket."""
MAX_REPLY = 35
"""The most bytes of a line from the server, without its line feed."""
MAX_SECONDS = 1_000_000.0
LINES_AT_ONCE = 512
"""How many lines are sent before their replies are read. So many lines of `GET` have 4,608 bytes, for which each socket has
room: the client can send them all while the server waits until its replies are taken."""
_REPORT_LINES = 17
_REPORT_END = 8
_NUMBER = "(0|[1-9][0-9]{0,14})"

Entry = Tuple[int, int, int]
"""A part of a change: the address of a word, the value expected there, and the new one."""
Miss = Optional[Tuple[int, int]]
"""None if a change was made, else a word and the value there."""
Answer = TypeVar("Answer")


@dataclass(frozen=True)
class Outcome:
    """How a change ended. An outcome is true if the change was made, and else false.

    `made`: all words had their expected values; the new ones are written, durably. Then `address` and `value` are None.
    Otherwise nothing was changed: the word at `address` had `value`, not the one expected. If several differ it is any. Both are
    None if a `Counted` lost a reply: perhaps no word differs."""
    made: bool
    address: Optional[int] = None
    value: Optional[int] = None

    def __bool__(self) -> bool:
        """Whether the change was made."""
        return self.made


@dataclass(frozen=True)
class TenantReport:
    """How one tenant is: its `name`; its `words`, 1 to 4096; its `quota`, how many changes it may have under way at a
    time, 1 to 64; how many `places` its file has, which is the greatest quota that it may be given at a start of the
    server, 1 to 64, or 0 if its file didn't open or doesn't fit its line; how many changes are `under_way`; and
    whether it is `up`. If it isn't, its calls raise Fault."""
    name: str
    words: int
    quota: int
    places: int
    under_way: int
    up: bool


@dataclass(frozen=True)
class Report:
    """How all tenants are, in the order of the server's tenants file, and how many more changes the server has room for.

    Each number is what it was when the server looked at it: the report as a whole is of no single moment."""
    tenants: Tuple[TenantReport, ...]
    free: int


# What a caller may ask for. A value out of its range is a ValueError, one of a wrong type a TypeError.

class Port(NamedTuple):
    """A place of TCP."""
    host: str
    port: int


class LocalSocket(NamedTuple):
    """The file of a local socket."""
    path: str


Place = Union[Port, LocalSocket]


def place_of(server: str) -> Place:
    """Where this server listens."""
    if not isinstance(server, str):
        raise TypeError(f"where a server listens is told by a text, not {server!r}")
    if server.startswith("unix:"):
        path = server[len("unix:"):]
        if not 1 <= len(os.fsencode(path)) <= MAX_PATH or "\0" in path:
            raise ValueError(f"the path of a local socket has 1 to {MAX_PATH} bytes, and none is 0")
        return LocalSocket(path)
    parts = re.fullmatch(r"(?:([^\[\]:\s]+)|\[([^\[\]\s]+)\]):([0-9]{1,5})", server)
    if not parts or not 1 <= int(parts.group(3)) <= 65535:
        raise ValueError("a server listens at HOST:PORT, with a port from 1 to 65535, at [HOST]:PORT for IPv6, or at unix:PATH")
    return Port(parts.group(1) or parts.group(2), int(parts.group(3)))


def seconds_of(name: str, seconds: float, zero_allowed: bool) -> float:
    """These seconds, if they are in range; the name is for the text of the exception."""
    if not isinstance(seconds, (int, float)):
        raise TypeError(f"{name} has to be a number of seconds, not {seconds!r}")
    if not (0 < seconds <= MAX_SECONDS or zero_allowed and seconds == 0):
        raise ValueError(f"{name} has to be from 0 to {MAX_SECONDS:.0f} seconds{'' if zero_allowed else ', above 0'}")
    return float(seconds)


def checked_name(name: str) -> str:
    """This name, if a tenant can have it."""
    if not isinstance(name, str):
        raise TypeError(f"a tenant's name is a text, not {name!r}")
    if not re.fullmatch("[a-z][a-z0-9-]{0,15}", name):
        raise ValueError('a tenant has a name of a to z, then up to 15 of a to z, 0 to 9 and "-"')
    return name


def checked_address(address: int, words: int) -> int:
    """This address, if a tenant of so many words has it."""
    address = operator.index(address)
    if not 0 <= address < words:
        raise ValueError(f"the tenant has the addresses 0 to {words - 1}, not {address}")
    return address


def checked_value(value: int) -> int:
    """This value, if a word can have it."""
    value = operator.index(value)
    if not 0 <= value <= MAX_VALUE:
        raise ValueError(f"a value is from 0 to {MAX_VALUE}, not {value}")
    return value


def checked_entry(entry: Entry, words: int) -> Entry:
    """This entry, if a tenant of so many words can be asked for it."""
    try:
        address, expected, new = entry
    except (TypeError, ValueError) as error:
        raise type(error)(f"an entry is (address, expected, new), not {entry!r}") from None
    return checked_address(address, words), checked_value(expected), checked_value(new)


def checked_entries(entries: Iterable[Entry], words: int, count: Optional[Entry] = None) -> List[Entry]:
    """These entries, sorted by address, if a tenant of so many words can be asked for them in one change, with that of a count."""
    given = list(entries)
    checked = sorted(checked_entry(entry, words) for entry in (given if count is None else [*given, count]))
    if count is not None and len(given) >= MAX_ENTRIES:
        raise ValueError(f"a change has up to {MAX_ENTRIES - 1} entries beside its count, not {len(given)}")
    if not 1 <= len(checked) <= MAX_ENTRIES:
        raise ValueError(f"a change has one to {MAX_ENTRIES} entries")
    if len({address for address, _, _ in checked}) < len(checked):
        raise ValueError("two entries have the same address")
    return checked


# The questions.

Reply = List[str]
"""The lines of a reply: one, or several of a report."""


@dataclass(frozen=True)
class Question(Generic[Answer]):
    """Lines that are sent together, and what their replies mean.

    `gone`: what is raised if the connection ends before the last reply: Unknown for a change, Lost if nothing can be changed.
    `is_report`: the reply has several lines."""
    lines: Sequence[str]
    meaning: Callable[[Sequence[Reply]], Answer]
    gone: Type[Error] = Lost
    is_report: bool = False

    def __str__(self) -> str:
        """Its first line, for the texts of exceptions."""
        return self.lines[0] + (f" and {len(self.lines) - 1} more" if len(self.lines) > 1 else "")

    def pieces(self) -> Iterator[Sequence[str]]:
        """Its lines, in pieces that may be sent before their replies are read."""
        return (self.lines[first:first + LINES_AT_ONCE] for first in range(0, len(self.lines), LINES_AT_ONCE))

    def answer(self, replies: Sequence[Reply]) -> Answer:
        """What the replies mean. Raises Busy, Fault, Worn or Refused for the first reply that says so, and what `strange`
        gives for one that the protocol doesn't have."""
        for line, reply in zip(self.lines, replies):
            _look_for_failure(line, reply[-1])
        return self.meaning(replies)


def tenant_greeting(name: str) -> Question[int]:
    """To speak for this tenant. The answer is the number of its words."""
    return Question([f"TENANT {checked_name(name)}"], lambda replies: _words_of(replies[0][0]))


def administrator_greeting() -> Question[int]:
    """To be the administrator, who has no words: 0."""
    return Question(["ADMIN"], lambda replies: _greeted(replies[0][0]))


def get(addresses: Sequence[int]) -> Question[List[int]]:
    """The values of the words at these addresses, each of its own moment."""
    return Question([f"GET {address}" for address in addresses], lambda replies: [_value_of(reply[0]) for reply in replies])


def cas(entries: Iterable[Entry], gone: Type[Error] = Unknown) -> Question[Miss]:
    """A change of these checked entries."""
    expected_of = {address: expected for address, expected, _ in entries}
    line = "CAS" + "".join(f" {address}:{expected}:{new}" for address, expected, new in entries)
    return Question([line], lambda replies: _miss_of(replies[0][0], expected_of), gone)


def report() -> Question[Report]:
    """How all tenants are."""
    return Question(["REPORT"], lambda replies: _report_of(replies[0]), is_report=True)


# What the replies mean.

def strange(reply: str) -> ConnectionError:
    """What is raised for a reply that no server of this protocol gives; it ends the session."""
    return ConnectionError(f"not a reply of the protocol: {reply!r}")


def _look_for_failure(line: str, reply: str) -> None:
    """Raises what the replies mean that may be given to any line."""
    if reply == "BUSY":
        raise Busy(f"{line}: the tenant has too many changes under way")
    if reply == "FAULT":
        raise Fault(f"{line}: the tenant's file has failed")
    if reply == "WORN":
        raise Worn(f"{line}: a number of the server has come to its end")
    refusal = re.fullmatch("ERR ([1-9][0-9]?)", reply)
    if refusal:
        raise Refused(line, int(refusal.group(1)))


def _words_of(reply: str) -> int:
    """Of `TENANT`: the number of its words."""
    found = re.fullmatch(f"OK {_NUMBER}", reply)
    if not found or not 1 <= int(found.group(1)) <= MAX_WORDS:
        raise strange(reply)
    return int(found.group(1))


def _greeted(reply: str) -> int:
    """Of `ADMIN`: no words."""
    if reply != "OK ADMIN":
        raise strange(reply)
    return 0


def _value_of(reply: str) -> int:
    """Of `GET`: the value."""
    found = re.fullmatch(f"VAL {_NUMBER}", reply)
    if not found or int(found.group(1)) > MAX_VALUE:
        raise strange(reply)
    return int(found.group(1))


def _miss_of(reply: str, expected_of: Dict[int, int]) -> Miss:
    """Of `CAS`: None if it was made, else a word of its own and the value there, which isn't the one expected."""
    if reply == "YES":
        return None
    found = re.fullmatch(f"NO {_NUMBER} {_NUMBER}", reply)
    if not found:
        raise strange(reply)
    address, value = int(found.group(1)), int(found.group(2))
    if value > MAX_VALUE or expected_of.get(address, value) == value:
        raise strange(reply)
    return address, value


def _report_of(lines: Reply) -> Report:
    """Of `REPORT`: a line for each tenant, then one for the pool."""
    free = re.fullmatch("free " + _NUMBER, lines[-1])
    if not free or len(lines) < 2:
        raise strange(lines[-1])
    return Report(tuple(_tenant_of(line) for line in lines[:-1]), int(free.group(1)))


def _tenant_of(line: str) -> TenantReport:
    """A tenant's line of a report, in its columns."""
    found = re.fullmatch("([a-z][a-z0-9-]{0,15}) +([0-9]+) +([0-9]+) +([0-9]+) +([0-9]+) (up|down)", line)
    if not found:
        raise strange(line)
    name, state = found.group(1), found.group(6)
    words, quota, places, under_way = (int(found.group(k)) for k in (2, 3, 4, 5))
    if line != f"{name:16} {words:4} {quota:2} {places:2} {under_way:2} {state}":
        raise strange(line)
    return TenantReport(name, words, quota, places, under_way, state == "up")


class Replies:
    """What a server has sent over one connection, from its bytes to its replies."""

    def __init__(self) -> None:
        self._rest = b""
        self._lines: Reply = []
        self.is_silent = True
        """Whether nothing has come yet."""

    def take(self, piece: bytes) -> None:
        """Takes what came; ConnectionError if that is nothing, because the server has closed the connection."""
        if not piece:
            raise ConnectionError("the server closed the connection")
        self.is_silent = False
        self._rest += piece

    def reply(self, is_report: bool) -> Optional[Reply]:
        """The next reply, or None if its end has not come yet. Of a report the last line alone is as short as `_REPORT_END`."""
        while True:
            line = self._line()
            if line is None:
                return None
            self._lines.append(line)
            if not is_report or len(line) <= _REPORT_END:
                found, self._lines = self._lines, []
                return found
            if len(self._lines) == _REPORT_LINES:
                raise strange(line)

    def end(self) -> None:
        """Looks that nothing more came than was asked for."""
        if self._rest:
            raise strange(self._rest.decode("latin-1"))

    def _line(self) -> Optional[str]:
        """The next line, without its line feed, or None if its end has not come yet."""
        end = self._rest.find(b"\n", 0, MAX_REPLY + 1)
        if end < 0 and len(self._rest) > MAX_REPLY:
            raise strange(self._rest[:MAX_REPLY].decode("latin-1"))
        if end < 0:
            return None
        line, self._rest = self._rest[:end], self._rest[end + 1:]
        return line.decode("latin-1")
