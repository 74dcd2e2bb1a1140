"""Values of up to 84 bytes, of one moment.

A value has 15 words: its version (40 bits) and how many bytes it has (8 bits), then fourteen words of six bytes each, the first
byte highest. The version goes up by one with each change. So whoever reads the first word before and after the others has read
one value, without the disk.

Used by: `mondlexi.recipes` and its `aio`. docs/RECIPES.md has these words: change both. scripts/recipe_parts/queues.py checks runs of it.
"""
from typing import List, NamedTuple

from .._client import Client
from ._base import WAIT, AnyClient, AnyCounted, Blocking, Damaged, Recipe, blocking

WORDS = 15
WORD_BYTES = 6
MOST_BYTES = (WORDS - 1) * WORD_BYTES
_LENGTH = 8
"""How many bits the number of bytes has."""


class Found(NamedTuple):
    """A value, and the words that it was read from."""
    value: bytes
    words: List[int]


class AwaitedWide(Recipe):
    """A value of up to 84 bytes that many processes read and change."""

    def __init__(self, client: AnyClient, own: AnyCounted, at: int, wait: float = WAIT) -> None:
        """`own`: this process's `Counted` over `client`, which other recipes may use too. `at`: the address of the first of its 15
        words. `wait`: for how many seconds to connect anew and ask again."""
        super().__init__(client, at, WORDS, wait)
        self._own = own._count

    async def get(self) -> Found:
        """The value, of one moment; of a new tenant it is empty. It costs no disk access. Raises Damaged, and what `get` of a
        `Client` does."""
        words, again = [0], -1
        while words[0] != again:
            *words, again = await self._session.get_many([*range(self._at, self._at + WORDS), self._at], self._wait)
        length = again & (1 << _LENGTH) - 1
        if length > MOST_BYTES:
            raise Damaged(f"the word at {self._at} begins no value of up to {MOST_BYTES} bytes")
        return Found(b"".join(word.to_bytes(WORD_BYTES, "big") for word in words[1:])[:length], words)

    async def replace(self, found: Found, value: bytes) -> bool:
        """Puts this value in the place of one that `get` gave; False if that was changed since.

        Raises ValueError for more than 84 bytes; Unknown if it may have been put: `settle` of the `Counted` tells; any other
        `Error` if it wasn't."""
        words = _words_of(found.words[0], value)
        entries = [(self._at + k, *both) for k, both in enumerate(zip(found.words, words)) if both[0] != both[1]]
        outcome = await self._own.cas(entries)
        while not outcome.made and outcome.address is None and (await self.get()).words == found.words:
            outcome = await self._own.cas(entries)
        return outcome.made

    async def put(self, value: bytes) -> None:
        """Puts this value, whatever was there. Raises as `replace`."""
        while not await self.replace(await self.get(), value):
            pass


def _words_of(first: int, value: bytes) -> List[int]:
    """The words of a value that comes after one with this first word."""
    if len(value) > MOST_BYTES:
        raise ValueError(f"a value has up to {MOST_BYTES} bytes, not {len(value)}")
    padded = value.ljust(MOST_BYTES, b"\0")
    return [(first >> _LENGTH) + 1 << _LENGTH | len(value),
            *(int.from_bytes(padded[k:k + WORD_BYTES], "big") for k in range(0, MOST_BYTES, WORD_BYTES))]


class Wide(Blocking[AwaitedWide]):
    """A value of up to 84 bytes that many processes read and change."""

    def __init__(self, client: Client, own: AnyCounted, at: int, wait: float = WAIT) -> None:
        super().__init__(AwaitedWide(client, own, at, wait))

    __init__.__doc__ = AwaitedWide.__init__.__doc__
    get = blocking(AwaitedWide.get)
    replace = blocking(AwaitedWide.replace)
    put = blocking(AwaitedWide.put)
