"""Wrong recipes, which the checks must find: each is the right one with one mistake, as someone makes it who hasn't read the pages.

Used by: scripts/check-recipes. A mistake is made in the processes of one run alone.
"""
import random
from typing import Any, Callable, Iterable, List, NamedTuple, Tuple

from mondlexi import Busy, Entry, Lost, Outcome, Unknown
from mondlexi._protocol import MAX_VALUE
from mondlexi._session import Count, TenantSession
from mondlexi.recipes import _leases, locks, sorted_index, wide
from mondlexi.recipes._base import blocking


class Wrong(NamedTuple):
    """A wrong recipe: the right one's name, what is wrong, and what makes it so."""
    recipe: str
    what: str
    spoil: Callable[[], None]


def forget_tokens() -> None:
    """A lock is its holder alone: nobody moves or compares its token."""
    async def resent(self: locks.AwaitedLocks, entries: Iterable[Entry]) -> bool:
        return await right(self, [entry for entry in entries if entry[0] % 2])
    right = locks.AwaitedLocks._resent
    setattr(locks.AwaitedLocks, "_resent", resent)


def hurry() -> None:
    """Now and then a lock is taken over before its lease is over."""
    def is_over(self: _leases.Watch, number: int, state: Any) -> bool:
        return not state[1] or random.random() < 0.02
    setattr(_leases.Watch, "is_over", is_over)


def trust_what_is_known() -> None:
    """An index doesn't look whether the nodes that it knows are still so."""
    async def are_all_so(self: sorted_index.AwaitedSortedIndex, numbers: Iterable[int]) -> bool:
        self._forget(numbers)
        return True

    async def forget_stale(self: sorted_index.AwaitedSortedIndex, numbers: Iterable[int]) -> None:
        self._forget(numbers)
    setattr(sorted_index.AwaitedSortedIndex, "_are_all_so", are_all_so)
    setattr(sorted_index.AwaitedSortedIndex, "_forget_stale", forget_stale)


def range_without_a_look() -> None:
    """A range reads its nodes one after the other, and doesn't look whether all were so at one moment."""
    async def all_pairs(self: sorted_index.AwaitedSortedIndex, low: int = 0, high: int = MAX_VALUE + 1) -> List[Tuple[int, int]]:
        self._known.clear()
        try:
            return await self._pairs_from(await self._path_to(low), high)
        except sorted_index._Stale:
            return await right(self, low, high)
    right = sorted_index.AwaitedSortedIndex.range
    setattr(sorted_index.AwaitedSortedIndex, "range", all_pairs)
    setattr(sorted_index.SortedIndex, "range", blocking(all_pairs))


def compare_less() -> None:
    """A change doesn't compare words that it leaves as they are."""
    async def cas(self: Count, entries: Iterable[Entry]) -> Outcome:
        return await right(self, [entry for entry in entries if entry[1] != entry[2]])
    right = Count.cas
    setattr(Count, "cas", cas)


def read_once() -> None:
    """A value of bytes is read without a second look at its version."""
    async def get(self: wide.AwaitedWide) -> wide.Found:
        words: List[int] = []
        for k in range(wide.WORDS):
            words += await self._session.get_many([self._at + k], self._wait)
        text = b"".join(word.to_bytes(wide.WORD_BYTES, "big") for word in words[1:])
        return wide.Found(text[:words[0] & 0xFF], words)
    setattr(wide.AwaitedWide, "get", get)
    setattr(wide.Wide, "get", blocking(get))


def without_a_count(is_sent_again: bool) -> Callable[[], None]:
    """A change whose reply is lost has no count: it is sent again, and a NO is believed; or the words are, after a reconnect."""
    async def cas(self: Count, entries: Iterable[Entry]) -> Outcome:
        session, asked = session_of(self), list(entries)
        while True:
            try:
                return await session.cas(asked)
            except (Busy, Lost):
                await session.reconnect(60.0)
            except Unknown:
                await session.reconnect(60.0)
                if not is_sent_again:
                    values = await session.get_many([address for address, _, _ in asked], 60.0)
                    return Outcome(values == [new for _, _, new in asked])

    def spoil() -> None:
        setattr(Count, "cas", cas)
    return spoil


def session_of(count: Count) -> TenantSession:
    """The session of a count's client."""
    caller: Any = count._caller
    session: TenantSession = caller if isinstance(caller, TenantSession) else caller._client._session
    return session


BELIEVED, SENT_AGAIN = "a change believed after a reconnect", "a change sent again without a count"
WRONG = (
    Wrong("locks", "a lock without its token", forget_tokens),
    Wrong("locks", "a lock taken over before its lease is over", hurry),
    Wrong("blocks", BELIEVED, without_a_count(False)),
    Wrong("sorted-index", "an index that does not validate", trust_what_is_known),
    Wrong("sorted-index", "a range of several moments", range_without_a_look),
    Wrong("hash-index", "an insertion that compares its own slot alone", compare_less),
    Wrong("queue", SENT_AGAIN, without_a_count(True)),
    Wrong("counter", BELIEVED, without_a_count(False)),
    Wrong("counter", SENT_AGAIN, without_a_count(True)),
    Wrong("wide", "a value of bytes without its version", read_once),
)
