"""An allocator of numbered blocks, several by one change, each with its owner and a tag. None is lost, none has two owners.

Block b has word b: 0 while it is free, else USED + owner (15 bits) + tag (32 bits). After the blocks each owner, 0 and up, has a
word of its own: the count of its changes, by which it is found out whether one was made whose reply was lost. A new tenant, all
of 0, has all its blocks free.

Used by: `mondlexi.recipes` and its `aio`. docs/RECIPES.md has these words: change both. scripts/recipe_parts/leases.py checks runs of it.
"""
import random
from typing import Dict, Iterable, List, Optional

from .._client import Client
from .._protocol import MAX_ENTRIES, MAX_WORDS
from .._session import Count
from ._base import WAIT, AnyClient, Blocking, Recipe, blocking, in_range

USED = 1 << 47
MOST_OWNER = 2 ** 15 - 1
MOST_TAG = 2 ** 32 - 1
MOST_BLOCKS = MAX_ENTRIES - 1
"""The most blocks of one change, which also moves the owner's count."""
_PIECE = 64
"""At how many blocks it looks first."""


class AwaitedBlocks(Recipe):
    """The blocks as one owner has them. One process at a time is this owner, and one thread or task of it makes the calls.

    A process that takes the place of one that died makes a new one, and asks `mine` first."""

    def __init__(self, client: AnyClient, owner: int, blocks: int, at: int = 0, wait: float = WAIT) -> None:
        """`owner`: 0 to 32,767. `blocks`: how many there are: the words from `at` on, after which the owners' counts come. `wait`:
        for how many seconds to connect anew and ask again, before an `Error` is raised."""
        super().__init__(client, at, blocks + in_range("an owner", owner, 0, MOST_OWNER) + 1, wait)
        self._blocks, self._word = in_range("a number of blocks", blocks, 1, MAX_WORDS), USED | owner << 32
        self._count = Count(self._session, self._at + blocks + owner, self._wait)
        self._free: List[int] = []

    async def mine(self) -> Dict[int, int]:
        """This owner's blocks, with the tag of each: also those of its earlier processes. No change of these is made any more.

        After Unknown it tells what was made. Raises Unknown as long as it can't; any other `Error` as `Client` does."""
        await self._count.begin()
        await self._count.settle()
        words = await self._session.get_many(range(self._at, self._at + self._blocks), self._wait)
        return {block: word & MOST_TAG for block, word in enumerate(words) if self._is_own(word)}

    async def allocate(self, count: int = 1, tag: int = 0) -> Optional[List[int]]:
        """So many blocks that were free, and are this owner's from now on, all with this tag; None if it found too few of them.

        `count`: 1 to 15. `tag`: 0 to 4,294,967,295; a new one for each call tells after a death which call had gone well.
        Raises ValueError or TypeError; Unknown if it may have taken them: `mine` tells; any other `Error` if it hasn't."""
        in_range("a number of blocks", count, 1, MOST_BLOCKS)
        word = self._word | in_range("a tag", tag, 0, MOST_TAG)
        while await self._has_found(count):
            chosen, self._free = self._free[:count], self._free[count:]
            outcome = await self._count.cas([(self._at + block, 0, word) for block in chosen])
            if outcome.made:
                return chosen
            self._free += [block for block in chosen if self._at + block != outcome.address]
        return None

    async def free(self, blocks: Iterable[int]) -> None:
        """Gives one to fifteen blocks of this owner back, by one change, whatever their tags.

        Raises ValueError, with nothing done, if one isn't this owner's; TypeError; Unknown if it may have given them back: `mine`
        tells; any other `Error` if it hasn't."""
        given = sorted({in_range("a block", block, 0, self._blocks - 1) for block in blocks})
        in_range("a number of blocks", len(given), 1, MOST_BLOCKS)
        is_made = False
        while not is_made:
            words = await self._session.get_many([self._at + block for block in given], self._wait)
            others = [block for block, word in zip(given, words) if not self._is_own(word)]
            if others:
                raise ValueError(f"blocks {others} are not this owner's")
            is_made = (await self._count.cas([(self._at + block, word, 0) for block, word in zip(given, words)])).made

    def _is_own(self, word: int) -> bool:
        """Whether a block with this word is this owner's."""
        return word & ~MOST_TAG == self._word

    async def _has_found(self, count: int) -> bool:
        """Whether it knows so many blocks that may be free, after a look at some, and else at all of them."""
        first = random.randrange(self._blocks)
        some = [(first + k) % self._blocks for k in range(min(_PIECE, self._blocks))]
        for looked_at in (some, range(self._blocks)):
            if len(self._free) < count:
                words = await self._session.get_many([self._at + block for block in looked_at], self._wait)
                self._free = [block for block, word in zip(looked_at, words) if not word]
                random.shuffle(self._free)
        return len(self._free) >= count


class Blocks(Blocking[AwaitedBlocks]):
    """The blocks as one owner has them. One process at a time is this owner, and one thread of it makes the calls.

    A process that takes the place of one that died makes a new one, and asks `mine` first."""

    def __init__(self, client: Client, owner: int, blocks: int, at: int = 0, wait: float = WAIT) -> None:
        super().__init__(AwaitedBlocks(client, owner, blocks, at, wait))

    __init__.__doc__ = AwaitedBlocks.__init__.__doc__
    mine = blocking(AwaitedBlocks.mine)
    allocate = blocking(AwaitedBlocks.allocate)
    free = blocking(AwaitedBlocks.free)
