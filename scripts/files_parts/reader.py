"""A reader of a tenant's file, written from docs/FILES.md alone: nothing of it was taken from the programs. It gives what the
file says, or the first damage, with the byte at which the wrong part begins, as docs/OPERATING.md has it of mwshow.

Used by: scripts/check-cache, scripts/check-files, scripts/fail-each-allocation, bases.py, changes.py, drafts.py, wrong_readers.py,
soak_parts/layout.py, soak_parts/planted_writers.py. wrong_readers.py replaces texts of this file, each of which must be here once.
"""
from typing import Iterator, List, NamedTuple, Set, Tuple, Union

MOST_READ = 86848
"""No byte behind these is ever read: both layouts at their largest."""
HEAD = 32
LEAST_OFFSET, MOST_OFFSET = 32, 37152
MOST_WORDS = 4096
GREATEST = 2 ** 48 - 1
"""The greatest value of a word."""
SET = 0xA5
"""What a switch byte or a commit byte is where it is set; every other value is clear."""


class Layout(NamedTuple):
    """What is different in the two layouts."""
    number: int
    magic: bytes
    most_places: int
    most_entries: int

    @property
    def place(self) -> int:
        """The bytes of a place, 136 or 264: eight for its head, and room for all entries of 16 bytes."""
        return 8 + 16 * self.most_entries

    def place_at(self, words: int, place: int) -> int:
        """Where a place begins behind so many words, counted from where the layout begins."""
        return HEAD + 8 * words + self.place * place


FIRST = Layout(1, b"MWCASF1\n", 32, 8)
SECOND = Layout(2, b"MWCASF2\n", 64, 16)


class Damage(Exception):
    """The first damage, by its number, and the byte at which the part begins that is wrong."""

    def __init__(self, number: int, byte: int) -> None:
        super().__init__(number, byte)
        self.number, self.byte = number, byte


class Record(NamedTuple):
    """An open record: its place, where that begins, how many entries it says it has, and these: address and new value."""
    place: int
    at: int
    count: int
    entries: List[Tuple[int, int]]


class Contents(NamedTuple):
    """What a whole file says. The offset is where its layout begins, 0 of the first. Open records are put over the words."""
    layout: int
    offset: int
    words: List[int]
    places: int
    records: List[Record]


def number(data: bytes, at: int, size: int) -> int:
    """The number that stands in so many bytes: unsigned, the lowest byte first."""
    return int.from_bytes(data[at:at + size], "little")


def speaking_part(data: bytes) -> Tuple[Layout, int]:
    """The layout that says what the file says, and where it begins."""
    if len(data) < HEAD:
        raise Damage(6, len(data))
    if data[:8] != FIRST.magic:
        raise Damage(1, 0)
    # While the switch byte is clear whatever stands behind the first layout, or as the offset, means nothing.
    if data[15] != SET:
        return FIRST, 0
    # The second layout need not be where the first ends, which isn't looked at any more.
    offset = number(data, 16, 8)
    if not LEAST_OFFSET <= offset <= MOST_OFFSET:
        raise Damage(7, 16)
    if len(data) < offset + HEAD:
        raise Damage(6, len(data))
    if data[offset:offset + 8] != SECOND.magic:
        raise Damage(7, offset)
    return SECOND, offset


def sizes(data: bytes, layout: Layout, start: int) -> Tuple[int, int]:
    """How many words and places the layout has, all of which have to be there. More bytes may follow."""
    words, places = number(data, start + 8, 4), number(data, start + 12, 2)
    if not 1 <= words <= MOST_WORDS:
        raise Damage(2, start + 8)
    if not 1 <= places <= layout.most_places:
        raise Damage(2, start + 12)
    if len(data) < start + layout.place_at(words, places):
        raise Damage(6, len(data))
    return words, places


def open_records(data: bytes, layout: Layout, start: int, words: int, places: int) -> Iterator[Record]:
    """The records of the places whose commit byte is set, each with the entries that count. No other place is looked at."""
    for place in range(places):
        at = start + layout.place_at(words, place)
        if data[at] == SET:
            count = data[at + 1]
            entries = range(at + 8, at + 8 + 16 * min(count, layout.most_entries), 16)
            yield Record(place, at, count, [(number(data, entry, 8), number(data, entry + 8, 8)) for entry in entries])


def is_well_formed(record: Record, layout: Layout, words: int) -> bool:
    """Whether it has as many entries as a record may have, at addresses that rise and that the file has."""
    if not 1 <= record.count <= layout.most_entries:
        return False
    addresses = [address for address, _ in record.entries]
    return addresses[-1] < words and all(low < high for low, high in zip(addresses, addresses[1:]))


def covered_addresses(records: List[Record]) -> Set[int]:
    """The addresses of all open records, of which no two may share one."""
    covered: Set[int] = set()
    for record in records:
        addresses = {address for address, _ in record.entries}
        if covered & addresses:
            raise Damage(5, record.at)
        covered |= addresses
    return covered


def contents(data: bytes) -> Contents:
    """What the file says. Each kind of damage is looked for in all of the layout before the next kind is."""
    data = data[:MOST_READ]
    layout, start = speaking_part(data)
    words, places = sizes(data, layout, start)
    home = start + HEAD
    records = list(open_records(data, layout, start, words, places))
    for record in records:
        if not is_well_formed(record, layout, words):
            raise Damage(4, record.at)
    covered = covered_addresses(records)
    for record in records:
        if any(value > GREATEST for _, value in record.entries):
            raise Damage(3, record.at)
    values = [number(data, home + 8 * address, 8) for address in range(words)]
    for address, value in enumerate(values):
        # A crash may have left anything in a home word that an open record covers.
        if value > GREATEST and address not in covered:
            raise Damage(3, home + 8 * address)
    for record in records:
        for address, value in record.entries:
            values[address] = value
    return Contents(layout.number, start, values, places, records)


def read(data: bytes) -> Union[Contents, Damage]:
    """What the bytes of a file say, or their first damage."""
    try:
        return contents(data)
    except Damage as damage:
        return damage
