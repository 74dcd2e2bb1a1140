"""Gives processes that come and go a place each, for a lease: a small number, and an address for their `Counted`.

Place p has three words from 3p on: how often it was taken, renewed or left; its holder, 0 for nobody, else a random number (32
bits) and the lease in units of 10 ms (16 bits); and the count. The first only grows, so no state of a place comes back.

Who takes a place moves its count by 2^20, so that nothing is made any more of what its holder before has under way: if that one
goes on after its lease, its changes are refused, and its `Counted` raises RuntimeError.

Used by: `mondlexi.recipes` and its `aio`. docs/RECIPES.md has these words: change both. scripts/recipe_parts/leases.py checks runs of it.
"""
import random
import secrets
import time
from typing import List, NamedTuple, Optional

from .._client import Client
from .._protocol import MAX_WORDS, Entry, seconds_of
from ._base import WAIT, AnyClient, Blocking, Recipe, blocking, in_range
from ._leases import UNIT, UNIT_BITS, Watch, units_of

PLACE_WORDS = 3
STEP = 2 ** 20
"""By how much a count moves when its place is taken."""
_PAUSE = 0.064


class Place(NamedTuple):
    """A place that is held as long as `time.monotonic()` of the process that took it is below `until`.

    `number`: from 0 on; no two processes have the same at a time. `address`: that of the count, for `Counted`. `word`, `moves`:
    its holder's word, and how often it has been moved."""
    number: int
    address: int
    until: float
    word: int
    moves: int

    def left(self) -> float:
        """For how many seconds it is still held; 0 or less if the lease is over."""
        return self.until - time.monotonic()


class AwaitedRegistry(Recipe):
    """The places as one process, thread or task takes them."""

    def __init__(self, client: AnyClient, places: int, at: int = 0, wait: float = WAIT) -> None:
        """`places`: how many there are, which have three words each from `at` on. `wait`: for how many seconds to connect anew
        and ask again, before an `Error` is raised."""
        super().__init__(client, at, PLACE_WORDS * in_range("a number of places", places, 1, MAX_WORDS), wait)
        self._places, self._name, self._watch = places, 1 + secrets.randbelow(2 ** 32 - 1), Watch()

    async def join(self, lease: float, wait: float = 0.0) -> Optional[Place]:
        """A place for so many seconds from before it read them; None if none gets free for `wait` seconds.

        The lease of what it gives isn't over yet. If a reply came too late for that, it has left the place, and asked again.
        `lease`: 0.01 to 655.35 seconds. Raises ValueError or TypeError; Unknown if it may have taken one, which is free again once
        the lease is over; any other `Error` if it hasn't."""
        units, end = units_of(lease), time.monotonic() + seconds_of("wait", wait, True)
        while True:
            place = await self._try_to_join(units)
            left = end - time.monotonic()
            if place or left <= 0:
                return place
            await self._session.pause(min(left, _PAUSE * random.uniform(0.5, 1.0)))

    async def renew(self, place: Place, lease: float) -> Optional[Place]:
        """The same place for so many seconds from before it asked; None if it was left or taken over. Raises as `join`. If a
        reply came too late, the new lease is over too: `left` tells."""
        since, units = time.monotonic(), units_of(lease)
        longer = place._replace(until=since + units * UNIT, word=self._word(units), moves=place.moves + 1)
        return longer if await self._resent(self._moved(place, longer)) else None

    async def leave(self, place: Place) -> None:
        """Gives a place back, if it is still held. Raises as `join`."""
        await self._resent(self._moved(place, place._replace(word=0, moves=place.moves + 1)))

    async def _try_to_join(self, units: int) -> Optional[Place]:
        """Some place that is free, if the reply comes before the lease is over."""
        since = time.monotonic()
        words = await self._session.get_many(range(self._at, self._at + PLACE_WORDS * self._places), self._wait)
        states = [(words[k], words[k + 1]) for k in range(0, len(words), PLACE_WORDS)]
        free = [number for number, state in enumerate(states) if self._watch.is_over(number, state)]
        if not free:
            return None
        number = random.choice(free)
        (moves, word), count = states[number], words[PLACE_WORDS * number + 2]
        place = Place(number, self._at + PLACE_WORDS * number + 2, since + units * UNIT, self._word(units), moves + 1)
        entries = [*self._moved(place._replace(word=word, moves=moves), place), (place.address, count, count + STEP)]
        if not await self._resent(entries):
            return None
        if place.left() <= 0:
            await self.leave(place)
            return None
        return place

    def _moved(self, place: Place, then: Place) -> List[Entry]:
        """From one state of a place to another."""
        return [(place.address - 2, place.moves, then.moves), (place.address - 1, place.word, then.word)]

    def _word(self, units: int) -> int:
        """A holder's word."""
        return self._name << UNIT_BITS | units


class Registry(Blocking[AwaitedRegistry]):
    """The places as one process or thread takes them."""

    def __init__(self, client: Client, places: int, at: int = 0, wait: float = WAIT) -> None:
        super().__init__(AwaitedRegistry(client, places, at, wait))

    __init__.__doc__ = AwaitedRegistry.__init__.__doc__
    join = blocking(AwaitedRegistry.join)
    renew = blocking(AwaitedRegistry.renew)
    leave = blocking(AwaitedRegistry.leave)
