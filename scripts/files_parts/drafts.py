"""A tenant's file in the making: its bytes, where its fields are, and what is put there.

Used by: scripts/check-files, bases.py, changes.py. Its offsets are those of docs/FILES.md: a change of the format is one here and in
reader.py.
"""
import random
from typing import List, Sequence, Tuple

from .reader import FIRST, GREATEST, HEAD, SET, Layout

Entry = Tuple[int, int]


class Draft:
    """The bytes of a file that is whole, and from then on what is made of them, in one of its layouts. Where the fields are is known from
    the whole file: what was cut off meanwhile can't be changed any more."""

    def __init__(self, data: bytes, layout: Layout) -> None:
        self.data = bytearray(data)
        self.layout = layout
        self.begin_at(0 if layout is FIRST else int.from_bytes(data[16:24], "little"))

    def begin_at(self, start: int) -> None:
        """From here on the layout begins at this byte."""
        self.start = start
        self.words = int.from_bytes(self.data[start + 8:start + 12], "little")
        self.places = int.from_bytes(self.data[start + 12:start + 14], "little")

    def home(self, address: int) -> int:
        """Where this home word begins."""
        return self.start + HEAD + 8 * address

    def place(self, place: int) -> int:
        """Where this place begins; of the place behind the last one, where the layout ends."""
        return self.start + self.layout.place_at(self.words, place)

    @property
    def end(self) -> int:
        """Where the layout ends."""
        return self.place(self.places)

    def put(self, at: int, value: bytes) -> None:
        """Puts bytes over those that stand there, as far as there are some."""
        self.data[at:at + len(value)] = value[:max(0, len(self.data) - at)]

    def put_number(self, at: int, size: int, value: int) -> None:
        """Puts a number of so many bytes; of one that has more the lowest."""
        self.put(at, (value % 256 ** size).to_bytes(size, "little"))

    def is_open(self, place: int) -> bool:
        """Whether the commit byte of this place is set."""
        at = self.place(place)
        return self.data[at:at + 1] == bytes([SET])

    def put_record(self, place: int, entries: Sequence[Entry]) -> None:
        """Plants an open record by hand."""
        at = self.place(place)
        self.put(at, bytes([SET, len(entries)]))
        for number, (address, value) in enumerate(entries):
            self.put_number(at + 8 + 16 * number, 8, address)
            self.put_number(at + 16 + 16 * number, 8, value)


def some_bytes(dice: random.Random, count: int) -> bytes:
    """So many bytes at random."""
    return dice.getrandbits(8 * count).to_bytes(count, "little") if count else b""


def some_value(dice: random.Random) -> int:
    """A value that a word may have; the least and the greatest more often than others."""
    return dice.choice((0, 1, GREATEST, dice.randrange(GREATEST + 1), dice.randrange(GREATEST + 1)))


def some_entries(dice: random.Random, draft: Draft, most: int) -> List[Entry]:
    """The entries of a change that is as it should be."""
    count = dice.randint(1, min(most, draft.words))
    return [(address, some_value(dice)) for address in sorted(dice.sample(range(draft.words), count))]


def plant_records(draft: Draft, dice: random.Random, count: int) -> None:
    """Opens up to so many records that share no address, in places at random. A home word that they cover may hold anything."""
    free = dice.sample(range(draft.words), draft.words)
    for place in dice.sample(range(draft.places), min(count, draft.places)):
        size = dice.choice((1, 2, draft.layout.most_entries, dice.randint(1, draft.layout.most_entries)))
        addresses, free = sorted(free[:size]), free[size:]
        if not addresses:
            return
        draft.put_record(place, [(address, some_value(dice)) for address in addresses])
        for address in addresses:
            if dice.random() < 0.5:
                draft.put(draft.home(address), some_bytes(dice, 8))


def fill_words(draft: Draft, dice: random.Random) -> None:
    """Gives some home words values."""
    for address in dice.sample(range(draft.words), min(draft.words, 12)):
        draft.put_number(draft.home(address), 8, some_value(dice))
