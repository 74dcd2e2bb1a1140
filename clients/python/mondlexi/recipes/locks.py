"""Locks with leases and fencing tokens, several of them by one change.

Lock k has two words. 2k: its token, which goes up by one whenever the lock is taken. 2k + 1: its holder, 0 for nobody; else, from
the high bits, the owner (16 bits), how often the lease was renewed (16 bits), and the lease in units of 10 ms (16 bits).

No state of the two words comes back: the token never goes down, and under one token the holder's word moves by each renewal and is
given back once. So a change whose reply was lost is sent again until there is one: it is made once at most.

No clocks have to agree. A waiter takes a lock over once it has itself seen the same two words for the whole lease. It reads the token
first: under one token no state of the holder's word comes back.

Used by: `mondlexi.recipes` and its `aio`. docs/RECIPES.md has these words, and clients/c/lock_table.c uses them: change all three.
scripts/recipe_parts/leases.py checks runs of it.
"""
import random
import time
from typing import Dict, Iterable, List, NamedTuple, Optional, Tuple

from .._client import Client
from .._protocol import MAX_ENTRIES, MAX_WORDS, Entry, seconds_of
from ._base import WAIT, AnyClient, Blocking, Recipe, blocking, in_range
from ._leases import UNIT, UNIT_BITS, Watch, units_of

MOST_LOCKS = MAX_ENTRIES // 2
"""The most locks of one change."""
MOST_OWNER = 2 ** 16 - 1
MOST_RENEWALS = 2 ** 16 - 1
_FIRST_PAUSE, _LONGEST_PAUSE = 0.008, 0.064
_IN_A_ROW = 8
"""How often a lock is taken in a row before others get a turn."""
_TURNS = 16
"""After how many turns of others a waiter asks again more often."""


class Grant(NamedTuple):
    """These locks are held as long as `time.monotonic()` of the process that took them is below `until`.

    `tokens`: one for each lock. Give it to what the lock guards, which refuses a token below the greatest one that it has seen:
    so a holder that was held up for longer than its lease does no harm. `word`: the holder's word of each of the locks."""
    locks: Tuple[int, ...]
    tokens: Tuple[int, ...]
    until: float
    word: int

    def left(self) -> float:
        """For how many seconds they are still held; 0 or less if the lease is over."""
        return self.until - time.monotonic()


class AwaitedLocks(Recipe):
    """The locks as one process, the owner of this number, takes them; for one thread or task at a time."""

    def __init__(self, client: AnyClient, owner: int, locks: int, at: int = 0, wait: float = WAIT) -> None:
        """`owner`: 1 to 65,535; no two processes that run have the same. `locks`: how many there are, which have two words each
        from `at` on. `wait`: for how many seconds to connect anew and ask again, before an `Error` is raised."""
        super().__init__(client, at, 2 * in_range("a number of locks", locks, 1, MAX_WORDS), wait)
        self._owner, self._locks = in_range("an owner", owner, 1, MOST_OWNER), locks
        self._watch = Watch()
        self._in_a_row: Dict[int, Tuple[int, int]] = {}
        self._waits_for: Tuple[List[int], int] = [], 0

    async def acquire(self, locks: Iterable[int], lease: float, wait: float = 0.0) -> Optional[Grant]:
        """All of one to eight locks, for so many seconds from before it read them; None if some are held for `wait` seconds.

        The lease of what it gives isn't over yet. If a reply came too late for that, it has given the locks back, and asked again.
        It never holds some and waits for others, so there is no deadlock. `lease`: 0.01 to 655.35 seconds, in steps of 0.01,
        rounded down. Waiters have no order. But who took a lock eight times in a row lets others have a turn, and who has seen
        others take it more than sixteen times asks again more often. So a wait has no limit that is known beforehand.

        Raises ValueError or TypeError; Unknown if it may have taken them; Fault; any other `Error` if it hasn't. What it has taken
        without telling is free again once the lease is over."""
        wanted, units = self._checked(locks), units_of(lease)
        end, pause = time.monotonic() + seconds_of("wait", wait, True), _FIRST_PAUSE
        await self._give_way(wanted)
        while True:
            since = time.monotonic()
            states = await self._look(wanted)
            grant = await self._take(wanted, states, units, since)
            left = end - time.monotonic()
            if grant or left <= 0:
                return grant
            await self._session.pause(min(left, pause * random.uniform(0.5, 1.0)))
            pause = min(2 * pause, self._longest_pause(wanted, states))

    async def renew(self, grant: Grant, lease: float) -> Optional[Grant]:
        """The same locks for so many seconds from before it asked; None if one was released or taken over: then none is renewed.
        If a reply came too late, the new lease is over too: `left` tells.

        The tokens stay, but for each 65,536th renewal, which takes the locks anew. Raises as `acquire`: after Unknown the lease
        that the grant tells still counts."""
        since, units = time.monotonic(), units_of(lease)
        renewals = (grant.word >> UNIT_BITS & MOST_RENEWALS) + 1
        step = 1 if renewals > MOST_RENEWALS else 0
        longer = Grant(grant.locks, tuple(token + step for token in grant.tokens), since + units * UNIT,
                       self._word(0 if step else renewals, units))
        return longer if await self._resent(self._entries(grant, longer)) else None

    async def release(self, grant: Grant) -> None:
        """Gives those locks back that are still held under the grant's tokens. Raises as `acquire`."""
        given = grant._replace(word=0)
        if await self._resent(self._entries(grant, given)) or len(grant.locks) == 1:
            return
        for lock, token in zip(grant.locks, grant.tokens):
            one = grant._replace(locks=(lock,), tokens=(token,))
            await self._resent(self._entries(one, one._replace(word=0)))

    async def _look(self, wanted: List[int]) -> List[Tuple[int, int]]:
        """The token and the holder's word of each of these; the token is read first."""
        words = await self._session.get_many([self._at + 2 * lock + k for lock in wanted for k in (0, 1)], self._wait)
        return list(zip(words[::2], words[1::2]))

    async def _take(self, wanted: List[int], states: List[Tuple[int, int]], units: int, since: float) -> Optional[Grant]:
        """All of them from this moment on, if all are free in these states, and the reply comes before the lease is over."""
        if not all([self._watch.is_over(lock, state) for lock, state in zip(wanted, states)]):
            return None
        grant = Grant(tuple(wanted), tuple(token + 1 for token, _ in states), since + units * UNIT, self._word(0, units))
        entries = [entry for lock, token, state in zip(wanted, grant.tokens, states)
                   for entry in ((self._at + 2 * lock, state[0], token), (self._at + 2 * lock + 1, state[1], grant.word))]
        if not await self._resent(entries):
            return None
        if grant.left() <= 0:
            await self.release(grant)
            return None
        self._note(grant)
        return grant

    def _longest_pause(self, wanted: List[int], states: List[Tuple[int, int]]) -> float:
        """The longest pause before the next look. It is shorter for who has seen others take these many times."""
        turns = sum(token for token, _ in states)
        if self._waits_for[0] != wanted:
            self._waits_for = wanted, turns
        return max(_FIRST_PAUSE, _LONGEST_PAUSE * _TURNS / max(_TURNS, turns - self._waits_for[1]))

    def _note(self, grant: Grant) -> None:
        """Counts how often these were taken in a row: nobody else has the tokens between. The wait for them is over."""
        self._waits_for = [], 0
        for lock, token in zip(grant.locks, grant.tokens):
            last, times = self._in_a_row.get(lock, (0, 0))
            self._in_a_row[lock] = token, times + 1 if token == last + 1 else 1

    async def _give_way(self, wanted: List[int]) -> None:
        """Lets all who wait for one of these ask once, if it was taken here so often in a row."""
        if any(self._in_a_row.get(lock, (0, 0))[1] >= _IN_A_ROW for lock in wanted):
            self._in_a_row.clear()
            await self._session.pause(_LONGEST_PAUSE)

    def _entries(self, grant: Grant, then: Grant) -> List[Entry]:
        """From one state of these locks to another."""
        return [entry for lock, token, moved in zip(grant.locks, grant.tokens, then.tokens)
                for entry in ((self._at + 2 * lock, token, moved), (self._at + 2 * lock + 1, grant.word, then.word))]

    def _word(self, renewals: int, units: int) -> int:
        """A holder's word."""
        return self._owner << 32 | renewals << UNIT_BITS | units

    def _checked(self, locks: Iterable[int]) -> List[int]:
        """These locks, each once, in order."""
        wanted = sorted({in_range("a lock", lock, 0, self._locks - 1) for lock in locks})
        if not 1 <= len(wanted) <= MOST_LOCKS:
            raise ValueError(f"one to {MOST_LOCKS} locks are taken at a time")
        return wanted


class Locks(Blocking[AwaitedLocks]):
    """The locks as one process, the owner of this number, takes them; for one thread at a time."""

    def __init__(self, client: Client, owner: int, locks: int, at: int = 0, wait: float = WAIT) -> None:
        super().__init__(AwaitedLocks(client, owner, locks, at, wait))

    __init__.__doc__ = AwaitedLocks.__init__.__doc__
    acquire = blocking(AwaitedLocks.acquire)
    renew = blocking(AwaitedLocks.renew)
    release = blocking(AwaitedLocks.release)
