"""A queue of values between several producers and consumers: each value is taken once, in the order in which they were put.

Word 0 is how many values were ever taken, word 1 how many were ever put; value n, from 0 on, is in word 2 + n mod room. The two
numbers only grow. A change that puts moves word 1, one that takes moves word 0: while these stay, so do the values between them.

Used by: `mondlexi.recipes` and its `aio`. docs/RECIPES.md has these words: change both. scripts/recipe_parts/queues.py checks runs of it.
"""
import random
import time
from typing import Iterable, List, Tuple

from .._client import Client
from .._protocol import MAX_ENTRIES, MAX_WORDS, seconds_of
from ._base import WAIT, AnyClient, AnyCounted, Blocking, Damaged, Recipe, blocking, in_range, value_in_range

MOST_AT_ONCE = MAX_ENTRIES - 2
"""The most values that one change puts, which also moves word 1 and a count."""
_PAUSE = 0.02


class AwaitedQueue(Recipe):
    """A queue of values from 0 to 2^48 - 1."""

    def __init__(self, client: AnyClient, own: AnyCounted, room: int, at: int = 0, wait: float = WAIT) -> None:
        """`own`: this process's `Counted` over `client`, which other recipes may use too. `room`: how many values it has room for;
        it has so many words, and two before them, from `at` on. `wait`: for how many seconds to connect anew and ask again."""
        super().__init__(client, at, 2 + in_range("a room", room, 1, MAX_WORDS), wait)
        self._own, self._room = own._count, room

    async def count(self) -> int:
        """How many values wait in it; others may have changed that since."""
        taken, put = await self._numbers()
        return put - taken

    async def put(self, values: Iterable[int], wait: float = 0.0) -> bool:
        """Puts one to fourteen values, all by one change; False if there was no room for them for `wait` seconds.

        Raises ValueError or TypeError; Unknown if it may have put them: `settle` of the `Counted` tells; any other `Error` if it
        hasn't."""
        given = [value_in_range("a value", value) for value in values]
        in_range("a number of values", len(given), 1, min(MOST_AT_ONCE, self._room))
        end = time.monotonic() + seconds_of("wait", wait, True)
        while True:
            taken, put = await self._numbers()
            has_room = put + len(given) <= taken + self._room
            if has_room and await self._has_put(put, given):
                return True
            if not has_room and not await self._waited(end):
                return False

    async def take(self, most: int = 1, wait: float = 0.0) -> List[int]:
        """One to `most` values, the oldest, by one change; none if there was none for `wait` seconds. `most`: 1 to the room.

        Who dies before it has used them loses them. Raises ValueError or TypeError; Unknown if it may have taken some, which are
        lost if it has: `settle` of the `Counted` tells; any other `Error` if it hasn't."""
        in_range("a number of values", most, 1, self._room)
        end = time.monotonic() + seconds_of("wait", wait, True)
        while True:
            taken, put = await self._numbers()
            found = await self._taken(taken, min(most, put - taken)) if put > taken else []
            if found or put <= taken and not await self._waited(end):
                return found

    async def _numbers(self) -> Tuple[int, int]:
        """How many values were ever taken and put, at one moment."""
        taken, put = await self._session.stable([self._at, self._at + 1], self._wait)
        if not taken <= put <= taken + self._room:
            raise Damaged(f"the words from {self._at} on are no queue of {self._room} values")
        return taken, put

    async def _has_put(self, put: int, given: List[int]) -> bool:
        """Whether these are the values from this number on. While the number stays, so does what these words have now."""
        places = [self._place(put + k) for k in range(len(given))]
        old = await self._session.get_many(places, self._wait)
        return (await self._own.cas([(self._at + 1, put, put + len(given)), *zip(places, old, given)])).made

    async def _taken(self, taken: int, count: int) -> List[int]:
        """So many values from this number on, if nobody else took one. While the number stays, so do the values."""
        values = await self._session.get_many([self._place(taken + k) for k in range(count)], self._wait)
        outcome = await self._own.cas([(self._at, taken, taken + count)])
        return values if outcome.made else []

    async def _waited(self, end: float) -> bool:
        """Lets some time pass, if some is left."""
        left = end - time.monotonic()
        if left > 0:
            await self._session.pause(min(left, _PAUSE * random.uniform(0.5, 1.0)))
        return left > 0

    def _place(self, number: int) -> int:
        """The address of the value with this number."""
        return self._at + 2 + number % self._room


class Queue(Blocking[AwaitedQueue]):
    """A queue of values from 0 to 2^48 - 1."""

    def __init__(self, client: Client, own: AnyCounted, room: int, at: int = 0, wait: float = WAIT) -> None:
        super().__init__(AwaitedQueue(client, own, room, at, wait))

    __init__.__doc__ = AwaitedQueue.__init__.__doc__
    count = blocking(AwaitedQueue.count)
    put = blocking(AwaitedQueue.put)
    take = blocking(AwaitedQueue.take)
