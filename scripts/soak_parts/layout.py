"""The bytes of an opened file and of a record, as docs/FILES.md says; and what a file says, as a reader written from that page reads it.

Used by: scripts/check-limits, scripts/check-refusals, scripts/closed-streams, scripts/fail-each-allocation, http_parts/answers.py,
lives.py, planted_writers.py, power.py, text_parts/playing.py. A change of the format is one here and in files_parts/reader.py.
"""
from typing import List, NamedTuple, Optional, Tuple

from files_parts.reader import FIRST, SECOND, SET, Damage, Layout, read

SWITCH_AT, SECOND_AT = 15, 16


class Contents(NamedTuple):
    """What a file says: its words, or the number of its damage."""
    words: Tuple[int, ...] = ()
    damage: Optional[int] = None


def read_file(data: bytes) -> Contents:
    """What these bytes say."""
    found = read(data)
    return Contents(damage=found.number) if isinstance(found, Damage) else Contents(tuple(found.words))


def body(entries: List[Tuple[int, int]]) -> bytes:
    """What is written behind the commit byte of a place: for each entry an address and a value."""
    packed = b"".join(number.to_bytes(8, "little") for entry in entries for number in entry)
    return (bytes([len(entries)]) + bytes(6) + packed).ljust(SECOND.place - 1, b"\0")


def second_at(words: int, places: int) -> int:
    """Where the second layout of a file begins that was made with these sizes."""
    return FIRST.place_at(words, places)


def empty(layout: Layout, words: int, places: int) -> bytes:
    """A layout of these sizes in which all words are 0 and no record is open."""
    head = layout.magic + words.to_bytes(4, "little") + places.to_bytes(2, "little")
    return head.ljust(layout.place_at(words, places), b"\0")


def opened_file(words: int, places: int) -> bytes:
    """The bytes of a file that was made with these sizes, and opened once."""
    first = bytearray(empty(FIRST, words, places))
    first[SWITCH_AT] = SET
    first[SECOND_AT:SECOND_AT + 8] = len(first).to_bytes(8, "little")
    return bytes(first) + empty(SECOND, words, 2 * places)
