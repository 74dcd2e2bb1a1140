"""A sorted index of keys and values of 48 bits: a skip list, of which each insertion and each deletion is one change.

A node has four words: its version (46 bits) and height (2 bits, 0 while it is free), its key, its value, and the numbers of the
next nodes on three levels (16 bits each, 0 for none). Node n begins at word 4n. Node 0 is the head, which has no key and is on each
level. A new tenant, all of 0, is an empty index.

Each change of a node moves its version, so no state of a node comes back. Whoever finds the versions of nodes as they were when it
read these nodes knows that all were so at one moment: that is how the index is read without the disk.

Used by: `mondlexi.recipes` and its `aio`. docs/RECIPES.md has these words: change both. scripts/recipe_parts/keys.py checks runs of it.
"""
import random
from typing import Dict, Iterable, List, NamedTuple, Optional, Set, Tuple

from .._client import Client
from .._protocol import MAX_VALUE, Entry, Outcome
from ._base import WAIT, AnyClient, AnyCounted, Blocking, Damaged, NoRoom, Recipe, blocking, in_range, value_in_range

NODE_WORDS = 4
LEVELS = 3
_HEIGHT = 3
"""The bits of a height."""
_ONE_VERSION = 4
_LINK = 16
"""How many bits the number of a next node has."""
_HIGHER = 0.25
"""Of the nodes on a level so many are on the next one too."""
_LOOKED_AT = 16
"""At how many nodes it looks for a free one first."""


class _Node(NamedTuple):
    """A node as it was at one moment: its number and its four words."""
    number: int
    version: int
    key: int
    value: int
    links: int

    @property
    def height(self) -> int:
        """On how many levels it is."""
        return self.version & _HEIGHT if self.number else LEVELS

    def next(self, level: int) -> int:
        """The number of the next node on a level."""
        return self.links >> _LINK * level & (1 << _LINK) - 1

    def moved(self, height: Optional[int] = None) -> int:
        """The next version, with this height or the one that it has."""
        kept = self.version & _HEIGHT
        return (self.version & ~_HEIGHT) + _ONE_VERSION | (kept if height is None else height)

    def linked(self, numbers: Dict[int, int]) -> int:
        """Its links with these numbers on these levels."""
        links = self.links
        for level, number in numbers.items():
            links = links & ~((1 << _LINK) - 1 << _LINK * level) | number << _LINK * level
        return links


class _Path(NamedTuple):
    """Where a key is, or would be: on each level the last node before it; its own node, if there is one; all nodes on the way."""
    before: List[_Node]
    found: Optional[_Node]
    seen: Set[int]


class _Stale(Exception):
    """The nodes that are known are of different moments: they make no list."""


class AwaitedSortedIndex(Recipe):
    """A sorted index that many processes read and change. One thread or task at a time makes calls of one of these."""

    def __init__(self, client: AnyClient, own: AnyCounted, pairs: int, at: int = 0, wait: float = WAIT) -> None:
        """`own`: this process's `Counted` over `client`, which other recipes may use too. `pairs`: how many pairs of a key and a
        value it has room for: `4 * (pairs + 1)` words from `at` on. `wait`: for how many seconds to connect anew and ask again."""
        super().__init__(client, at, NODE_WORDS * (in_range("a number of pairs", pairs, 1, 2 ** _LINK - 1) + 1), wait)
        self._own, self._nodes = own._count, pairs + 1
        self._known: Dict[int, _Node] = {}

    @staticmethod
    def pairs_in(words: int) -> int:
        """How many pairs fit into so many words."""
        return words // NODE_WORDS - 1

    async def get(self, key: int) -> Optional[int]:
        """The key's value, or None. It costs no disk access. Raises Lost, Fault and Refused as `get` of a `Client`."""
        while True:
            path = await self._path_to(value_in_range("a key", key))
            if await self._are_all_so(path.seen):
                return path.found.value if path.found else None

    async def range(self, low: int = 0, high: int = MAX_VALUE + 1) -> List[Tuple[int, int]]:
        """All pairs with a key from `low` to below `high`, in order, of one moment. It costs no disk access; raises as `get`."""
        while True:
            path = await self._path_to(value_in_range("a key", low))
            try:
                pairs = await self._pairs_from(path, high)
                if await self._are_all_so(path.seen):
                    return pairs
            except _Stale:
                await self._forget_stale(path.seen)

    async def count(self) -> int:
        """How many pairs there are. It costs no disk access; raises as `get`."""
        return len(await self.range())

    async def put(self, key: int, value: int) -> Optional[int]:
        """Gives the key this value; tells the one that it had, or None.

        Raises ValueError or TypeError; NoRoom; Unknown if it may have done so: `settle` of the `Counted` tells; any other `Error`
        if it hasn't."""
        value_in_range("a value", value)
        while True:
            path = await self._path_to(value_in_range("a key", key))
            if path.found:
                first = self._address(path.found.number)
                entries = [(first, path.found.version, path.found.moved()), (first + 2, path.found.value, value)]
            else:
                entries = await self._insertion(path, key, value)
            if await self._is_made(entries, path):
                return path.found.value if path.found else None

    async def delete(self, key: int) -> Optional[int]:
        """Takes the key out; tells its value, or None if it isn't there. Raises as `put`, but for NoRoom."""
        while True:
            path = await self._path_to(value_in_range("a key", key))
            if not path.found:
                if await self._are_all_so(path.seen):
                    return None
                continue
            links = {level: path.found.next(level) for level in range(path.found.height)}
            if any(path.before[level].next(level) != path.found.number for level in links):
                self._forget(path.seen)
                continue
            first = self._address(path.found.number)
            entries = [(first, path.found.version, path.found.moved(0)), *self._relinked(path, links)]
            if await self._is_made(entries, path):
                return path.found.value

    # Changes.

    async def _insertion(self, path: _Path, key: int, value: int) -> List[Entry]:
        """The entries that put a free node between those before the key and those after it. The latter are compared: so their
        keys are those that are known."""
        links = {level: path.before[level].next(level) for level in range(_any_height())}
        after = [self._known[number] for number in set(links.values()) - {0}]
        new = await self._free_node()
        first = self._address(new.number)
        return [(first, new.version, new.moved(len(links))), (first + 1, new.key, key), (first + 2, new.value, value),
                (first + 3, new.links, new._replace(links=0).linked(links)),
                *self._relinked(path, dict.fromkeys(links, new.number)),
                *((self._address(node.number), node.version, node.version) for node in after)]

    def _relinked(self, path: _Path, links: Dict[int, int]) -> List[Entry]:
        """The entries that give the nodes before the key these next nodes, by their levels."""
        entries: List[Entry] = []
        for node in {path.before[level].number: path.before[level] for level in links}.values():
            own = {level: number for level, number in links.items() if path.before[level].number == node.number}
            first = self._address(node.number)
            entries += [(first, node.version, node.moved()), (first + 3, node.links, node.linked(own))]
        return entries

    async def _is_made(self, entries: List[Entry], path: _Path) -> bool:
        """Whether this change was made. What it tells of the nodes is noted."""
        outcome: Outcome = await self._own.cas(entries)
        if not outcome.made:
            self._forget(path.seen if outcome.address is None else {(outcome.address - self._at) // NODE_WORDS})
            return False
        for address, _, new in entries:
            number, word = divmod(address - self._at, NODE_WORDS)
            if number in self._known:
                self._known[number] = self._known[number]._replace(**{_Node._fields[1 + word]: new})
        return True

    async def _free_node(self) -> _Node:
        """Some node that may be free: one that is known, else one of a few that it looks at, else of all."""
        numbers = range(1, self._nodes)
        some = random.sample(numbers, min(_LOOKED_AT, len(numbers)))
        for looked_at in ((), some, numbers):
            await self._load(looked_at)
            free = self._known_free()
            if free:
                return random.choice(free)
        raise NoRoom(f"the index has its {self._nodes - 1} pairs")

    def _known_free(self) -> List[_Node]:
        """The nodes that are free as far as is known."""
        return [node for node in self._known.values() if not node.height]

    # Reads.

    async def _path_to(self, key: int) -> _Path:
        """The way to a key, by the nodes that are known. What makes no list is read anew."""
        while True:
            path = _Path([], None, {0})
            try:
                return await self._searched(key, path)
            except _Stale:
                await self._forget_stale(path.seen)

    async def _searched(self, key: int, path: _Path) -> _Path:
        """The way to a key, from the highest level to the lowest."""
        node = await self._node(0)
        for level in reversed(range(LEVELS)):
            node = await self._last_before(key, level, node, path)
            path.before.insert(0, node)
        number = node.next(0)
        after = await self._node(number) if number else None
        return path._replace(found=after if after and after.key == key else None)

    async def _last_before(self, key: int, level: int, node: _Node, path: _Path) -> _Node:
        """The last node before a key on a level."""
        while node.next(level):
            after = await self._next_of(node, level, path)
            if after.key >= key:
                break
            node = after
        return node

    async def _next_of(self, node: _Node, level: int, path: _Path) -> _Node:
        """The next node on a level, if it can be: it is on this level, and its key is greater."""
        after = await self._node(node.next(level))
        path.seen.add(after.number)
        if after.height <= level or node.number and after.key <= node.key:
            raise _Stale
        return after

    async def _pairs_from(self, path: _Path, high: int) -> List[Tuple[int, int]]:
        """The pairs from the end of this path to a key."""
        pairs: List[Tuple[int, int]] = []
        node = path.before[0]
        while node.next(0):
            node = await self._next_of(node, 0, path)
            if node.key >= high:
                break
            pairs.append((node.key, node.value))
        return pairs

    async def _are_all_so(self, numbers: Set[int]) -> bool:
        """Whether all of these nodes are known, and have the versions that are known. Those that haven't are forgotten."""
        asked = sorted(numbers)
        versions = await self._session.get_many([self._address(number) for number in asked], self._wait)
        wrong = {number for number, version in zip(asked, versions)
                 if number not in self._known or self._known[number].version != version}
        self._forget(wrong)
        return not wrong

    async def _forget_stale(self, numbers: Set[int]) -> None:
        """Nodes that make no list have to be read anew. Raises Damaged if they were so at one moment."""
        if await self._are_all_so(numbers):
            raise Damaged(f"the words from {self._at} on are no sorted index of {self._nodes - 1} pairs")
        self._forget(numbers)

    async def _node(self, number: int) -> _Node:
        """A node as it is known."""
        if number >= self._nodes:
            raise _Stale
        if number not in self._known:
            await self._load([number])
        return self._known[number]

    async def _load(self, numbers: Iterable[int]) -> None:
        """Reads these nodes, each as it was at one moment: its version is read before and after the others of its words."""
        left = list(numbers)
        while left:
            addresses = [self._address(number) + k for number in left for k in (0, 1, 2, 3, 0)]
            words = await self._session.get_many(addresses, self._wait)
            read = [(number, words[5 * k:5 * k + 5]) for k, number in enumerate(left)]
            self._known.update((number, _Node(number, *found[:4])) for number, found in read if found[0] == found[4])
            left = [number for number, found in read if found[0] != found[4]]

    def _forget(self, numbers: Iterable[int]) -> None:
        """These nodes have to be read anew."""
        for number in numbers:
            self._known.pop(number, None)

    def _address(self, number: int) -> int:
        """The address of a node's first word."""
        return self._at + NODE_WORDS * number


def _any_height() -> int:
    """The height of a new node."""
    height = 1
    while height < LEVELS and random.random() < _HIGHER:
        height += 1
    return height


class SortedIndex(Blocking[AwaitedSortedIndex]):
    """A sorted index that many processes read and change. One thread at a time makes calls of one of these."""

    def __init__(self, client: Client, own: AnyCounted, pairs: int, at: int = 0, wait: float = WAIT) -> None:
        super().__init__(AwaitedSortedIndex(client, own, pairs, at, wait))

    __init__.__doc__ = AwaitedSortedIndex.__init__.__doc__
    pairs_in = staticmethod(AwaitedSortedIndex.pairs_in)
    get = blocking(AwaitedSortedIndex.get)
    range = blocking(AwaitedSortedIndex.range)
    count = blocking(AwaitedSortedIndex.count)
    put = blocking(AwaitedSortedIndex.put)
    delete = blocking(AwaitedSortedIndex.delete)
