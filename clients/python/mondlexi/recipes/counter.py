"""A number that many processes add to, each addition once. It is one word.

Used by: `mondlexi.recipes` and its `aio`. docs/RECIPES.md has this word: change both. scripts/recipe_parts/queues.py checks runs of it.
"""
from .._client import Client
from .._protocol import MAX_VALUE
from ._base import WAIT, AnyClient, AnyCounted, Blocking, Recipe, blocking


class AwaitedCounter(Recipe):
    """A number that many processes add to."""

    def __init__(self, client: AnyClient, own: AnyCounted, at: int, wait: float = WAIT) -> None:
        """`own`: this process's `Counted` over `client`, which other recipes may use too. `at`: the number's word. `wait`: for how
        many seconds `get` connects anew and asks again."""
        super().__init__(client, at, 1, wait)
        self._own = own._count

    async def get(self) -> int:
        """The number, which others may have changed since. It costs no disk access."""
        return (await self._session.get_many([self._at], self._wait))[0]

    async def add(self, number: int = 1) -> int:
        """Adds this, which may be below 0, and gives the sum. So those who add 1 get numbers of which no two are the same.

        Raises ValueError, with nothing done, if the sum is not from 0 to 2^48 - 1; Unknown if it may have added: `settle` of the
        `Counted` tells; any other `Error` if it hasn't."""
        old = await self.get()
        while True:
            if not 0 <= old + number <= MAX_VALUE:
                raise ValueError(f"{old} and {number} make no value of a word")
            outcome = await self._own.cas([(self._at, old, old + number)])
            if outcome.made:
                return old + number
            old = await self.get() if outcome.value is None else outcome.value


class Counter(Blocking[AwaitedCounter]):
    """A number that many processes add to."""

    def __init__(self, client: Client, own: AnyCounted, at: int, wait: float = WAIT) -> None:
        super().__init__(AwaitedCounter(client, own, at, wait))

    __init__.__doc__ = AwaitedCounter.__init__.__doc__
    get = blocking(AwaitedCounter.get)
    add = blocking(AwaitedCounter.add)
