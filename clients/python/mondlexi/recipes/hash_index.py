"""A hash index of keys and values of 48 bits, read by one round trip: each key has two buckets, of four slots each.

A slot has three words: its version (47 bits) and whether it is used (1 bit), its key, its value. Each change of a slot moves its
version, so no state of a slot comes back. A key is in one slot of its two buckets at most: who inserts it compares the versions of
all eight. A new tenant, all of 0, is an empty index.

Used by: `mondlexi.recipes` and its `aio`. docs/RECIPES.md has these words: change both. scripts/recipe_parts/keys.py checks runs of it.
"""
import random
from typing import List, NamedTuple, Optional, Tuple

from .._client import Client
from .._protocol import MAX_WORDS, Entry
from ..errors import Lost, Unknown
from ._base import WAIT, AnyClient, AnyCounted, Blocking, NoRoom, Recipe, blocking, in_range, value_in_range

SLOT_WORDS = 3
BUCKET_SLOTS = 4
BUCKET_WORDS = BUCKET_SLOTS * SLOT_WORDS
_ONE_VERSION = 2
_USED = 1
_MASK = 2 ** 64 - 1


class _Slot(NamedTuple):
    """A slot: the address of its first word, and its three words."""
    at: int
    version: int
    key: int
    value: int

    @property
    def is_used(self) -> bool:
        """Whether it has a key."""
        return bool(self.version & _USED)

    def emptied(self) -> Entry:
        """The entry that takes its key out."""
        return self.at, self.version, (self.version & ~_USED) + _ONE_VERSION

    def filled(self, key: int, value: int) -> List[Entry]:
        """The entries that give it this key and value."""
        version = (self.version & ~_USED) + _ONE_VERSION | _USED
        return [(self.at, self.version, version), (self.at + 1, self.key, key), (self.at + 2, self.value, value)]


class AwaitedHashIndex(Recipe):
    """An index that many processes read and change."""

    def __init__(self, client: AnyClient, own: AnyCounted, pairs: int, at: int = 0, wait: float = WAIT) -> None:
        """`own`: this process's `Counted` over `client`, which other recipes may use too. `pairs`: how many slots it has, a
        multiple of 4, at least 8: `3 * pairs` words from `at` on. Some nine of ten are used before NoRoom. `wait`: for how many
        seconds to connect anew and ask again."""
        if in_range("a number of pairs", pairs, 2 * BUCKET_SLOTS, MAX_WORDS) % BUCKET_SLOTS:
            raise ValueError(f"a number of pairs is a multiple of {BUCKET_SLOTS}, not {pairs}")
        super().__init__(client, at, SLOT_WORDS * pairs, wait)
        self._own, self._buckets = own._count, pairs // BUCKET_SLOTS

    async def get(self, key: int) -> Optional[int]:
        """The key's value, or None. It costs no disk access. Raises Lost, Fault and Refused as `get` of a `Client`."""
        found = _slot_of(await self._look(key), key)
        return found.value if found else None

    async def put(self, key: int, value: int) -> Optional[int]:
        """Gives the key this value; tells the one that it had, or None.

        Raises ValueError or TypeError; NoRoom; Unknown if it may have done so: `settle` of the `Counted` tells; any other `Error`
        if it hasn't."""
        value_in_range("a value", value)
        while True:
            slots = await self._look(key)
            found, free = _slot_of(slots, key), _a_free_one(slots)
            place = found or free
            if place is None:
                await self._make_room(slots)
                continue
            others = [] if found else [(slot.at, slot.version, slot.version) for slot in slots if slot.at != place.at]
            if (await self._own.cas([*place.filled(key, value), *others])).made:
                return found.value if found else None

    async def delete(self, key: int) -> Optional[int]:
        """Takes the key out; tells its value, or None if it isn't there. Raises as `put`, but for NoRoom."""
        while True:
            found = _slot_of(await self._look(key), key)
            if found is None or (await self._own.cas([found.emptied()])).made:
                return found.value if found else None

    async def _look(self, key: int) -> List[_Slot]:
        """The slots of the two buckets of a key, as they were at one moment: no version changed while they were read."""
        addresses = [first + SLOT_WORDS * k for first in self._buckets_of(key) for k in range(BUCKET_SLOTS)]
        wanted = [at + k for at in addresses for k in range(SLOT_WORDS)] + addresses
        words, again = [0], [-1]
        while words[::SLOT_WORDS] != again:
            read = await self._session.get_many(wanted, self._wait)
            words, again = read[:-len(addresses)], read[-len(addresses):]
        return [_Slot(at, *words[SLOT_WORDS * k:SLOT_WORDS * (k + 1)]) for k, at in enumerate(addresses)]

    async def _make_room(self, slots: List[_Slot]) -> None:
        """Moves one of these to its other bucket, or finds that one has room now. NoRoom if none can be moved."""
        for slot in random.sample(slots, len(slots)):
            around = await self._look(slot.key)
            free, found = _a_free_one(around), _slot_of(around, slot.key)
            if found != slot:
                return
            if free:
                await self._move(slot, free)
                return
        raise NoRoom("all slots are used of the two buckets of the key, and of the other buckets of the keys in these")

    async def _move(self, slot: _Slot, free: _Slot) -> None:
        """Moves a key to a free slot, unless one of both has changed. If that stays undecided, nothing was sent of the change that
        it makes room for, so this isn't Unknown."""
        try:
            await self._own.cas([slot.emptied(), *free.filled(slot.key, slot.value)])
        except Unknown as error:
            raise Lost(f"not sent, because it is undecided whether another key was moved: {error}") from error

    def _buckets_of(self, key: int) -> Tuple[int, int]:
        """The addresses of the two buckets of a key."""
        mixed = _mixed(value_in_range("a key", key))
        first = (mixed >> 32) % self._buckets
        second = (first + 1 + (mixed & 2 ** 32 - 1) % (self._buckets - 1)) % self._buckets
        return self._at + BUCKET_WORDS * first, self._at + BUCKET_WORDS * second


def _mixed(key: int) -> int:
    """64 bits of which each depends on each bit of the key: the last steps of SplitMix64."""
    key = (key ^ key >> 30) * 0xBF58476D1CE4E5B9 & _MASK
    key = (key ^ key >> 27) * 0x94D049BB133111EB & _MASK
    return key ^ key >> 31


def _slot_of(slots: List[_Slot], key: int) -> Optional[_Slot]:
    """The slot that has this key."""
    return next((slot for slot in slots if slot.is_used and slot.key == key), None)


def _a_free_one(slots: List[_Slot]) -> Optional[_Slot]:
    """A free slot of the bucket that has more of them."""
    halves = (slots[:BUCKET_SLOTS], slots[BUCKET_SLOTS:])
    free = max(([slot for slot in half if not slot.is_used] for half in halves), key=len)
    return random.choice(free) if free else None


class HashIndex(Blocking[AwaitedHashIndex]):
    """An index that many processes read and change."""

    def __init__(self, client: Client, own: AnyCounted, pairs: int, at: int = 0, wait: float = WAIT) -> None:
        super().__init__(AwaitedHashIndex(client, own, pairs, at, wait))

    __init__.__doc__ = AwaitedHashIndex.__init__.__doc__
    get = blocking(AwaitedHashIndex.get)
    put = blocking(AwaitedHashIndex.put)
    delete = blocking(AwaitedHashIndex.delete)
