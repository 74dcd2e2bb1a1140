"""What each process does with a recipe, and what it tells of it, line by line: before a call what it asks for, after it what it was
told. A life whose last line is of the first kind was killed in between.

Used by: keys.py, leases.py, queues.py, table.py. All but the last read these lines: change both.
"""
import asyncio
import hashlib
import time
from typing import Callable, Dict, Sequence, Union

import mondlexi
import mondlexi.aio
import mondlexi.recipes.aio
from mondlexi import recipes

from .running import PATIENCE, TENANT, WITHIN, Life

LOCKS, LEASE = 6, 1.0
BLOCKS = 200
KEYS, RANGE = 24, 8
"""The keys are 1 to KEYS."""
FIRST, SECOND = 0, KEYS + 1
"""Process 0 gives a number to the first key, then the same one to the second, and then the next number."""
INDEX_AT, PAIRS = 100, 400
HASH_AT, SLOTS = 100, 32
QUEUE_AT, ROOM = 100, 40
COUNTER_AT, WIDE_AT = 100, 200
PLACES, REGISTRY_AT = 8, 300
MOST_HELD = 30
"""How many blocks a process has at most before it gives some back."""
Call = Callable[[int, int], object]
"""A call of an index, with a key and a value."""


def own_count(life: Life) -> mondlexi.Counted:
    """The count of this process, in the word of its number."""
    return mondlexi.Counted(life.client, life.number, WITHIN)


def take_locks(life: Life) -> None:
    """Takes one or two locks; some are renewed, and some holders are held up for longer than their lease."""
    locks = recipes.Locks(life.client, life.number + 1, LOCKS, wait=WITHIN)
    while life.goes_on():
        grant = locks.acquire(life.dice.sample(range(LOCKS), life.dice.choice((1, 2))), LEASE, wait=5.0)
        if grant is None:
            life.log("none")
            continue
        life.log("got", grant.locks, grant.tokens, int(grant.until * 1e9))
        chance = life.dice.random()
        if chance < 0.02:
            time.sleep(1.5 * LEASE)
        elif chance < 0.15:
            longer = locks.renew(grant, LEASE)
            grant = longer or grant
            life.log("renewed", grant.locks, grant.tokens, int(grant.until * 1e9) if longer else None)
        life.think()
        life.log("releases", grant.locks, grant.tokens)
        locks.release(grant)
        life.think()


def use_blocks(life: Life) -> None:
    """Takes one to fifteen blocks at a time, and gives some back; at last all."""
    blocks = recipes.Blocks(life.client, life.number, BLOCKS, wait=WITHIN)
    found, tag = blocks.mine(), 0
    life.log("mine", sorted(found.items()))
    mine = list(found)
    while life.goes_on() or mine:
        taken = None
        if life.goes_on():
            tag += 1
            count = life.dice.randint(1, 15)
            life.log("take", count, tag)
            taken = blocks.allocate(count, tag)
            life.log("taken", taken)
            mine += taken or []
            life.think()
        if mine and (len(mine) > MOST_HELD or taken is None or life.dice.random() < 0.5):
            given, mine = mine[:15], mine[15:]
            life.log("give", given)
            blocks.free(given)
            life.log("given", given)


def use_sorted_index(life: Life) -> None:
    """Reads and changes few keys of a sorted index, and ranges of them. Process 0 moves two keys, one after the other; all others read
    both by one range, with all keys between."""
    index = recipes.SortedIndex(life.client, own_count(life), PAIRS, INDEX_AT, WITHIN)
    if life.number == 0:
        _move_two(life, index)
        return
    more: Dict[str, Call] = {"r": lambda key, _: index.range(key, key + RANGE),
                             "both": lambda *_: [pair for pair in index.range() if pair[0] in (FIRST, SECOND)]}
    _use_index(life, index, more, [*"pppddgggr", "both"])


def _move_two(life: Life, index: recipes.SortedIndex) -> None:
    """Moves the first key, and then the second one. It begins where the process before it was killed."""
    number = index.get(FIRST) or 0
    index.put(SECOND, number)
    while life.goes_on():
        number += 1
        index.put(FIRST, number)
        index.put(SECOND, number)


def use_hash_index(life: Life) -> None:
    """Reads and changes few keys of a hash index."""
    _use_index(life, recipes.HashIndex(life.client, own_count(life), SLOTS, HASH_AT, WITHIN), {}, [*"pppddggg"])


def _use_index(life: Life, index: Union[recipes.SortedIndex, recipes.HashIndex], more: Dict[str, Call],
               names: Sequence[str]) -> None:
    """Makes random ones of these calls: put, delete, get, and more."""
    calls: Dict[str, Call] = {"p": index.put, "d": lambda key, _: index.delete(key), "g": lambda key, _: index.get(key), **more}
    count = 0
    while life.goes_on():
        key, name = life.dice.randint(1, KEYS), life.dice.choice(names)
        count += 1
        value = life.unique(count)
        life.log(name, key, value)
        life.log("told", calls[name](key, value))
        life.think()


def use_queue(life: Life) -> None:
    """Puts and takes some values at a time; each value is put once."""
    queue, count = recipes.Queue(life.client, own_count(life), ROOM, QUEUE_AT, WITHIN), 0
    while life.goes_on():
        values = [life.unique(count + k) for k in range(1, life.dice.randint(2, 9))]
        if (life.number + life.nth) % 2:
            count += len(values)
            life.log("put", values)
            life.log("told", queue.put(values, wait=0.2))
        else:
            life.log("take", len(values))
            life.log("told", queue.take(len(values), wait=0.2))
        life.think()


def use_counter(life: Life) -> None:
    """Adds one, again and again; each second process by the client for asyncio."""
    if life.number % 2:
        asyncio.run(_count_awaited(life))
        return
    counter = recipes.Counter(life.client, own_count(life), COUNTER_AT, WITHIN)
    while life.goes_on():
        life.log("add")
        life.log("told", counter.add())
        life.think()


async def _count_awaited(life: Life) -> None:
    """The same for asyncio."""
    async with mondlexi.aio.Client(life.server, TENANT, timeout=life.timeout, patience=PATIENCE, within=WITHIN) as client:
        own = mondlexi.aio.Counted(client, life.number, WITHIN)
        counter = mondlexi.recipes.aio.Counter(client, own, COUNTER_AT, WITHIN)
        while life.goes_on():
            life.log("add")
            life.log("told", await counter.add())
            await asyncio.sleep(life.dice.uniform(0, 0.01))


def use_wide(life: Life) -> None:
    """Reads a value of bytes that has its own hash in it, and puts others in its place."""
    wide, count = recipes.Wide(life.client, own_count(life), WIDE_AT, WITHIN), 0
    while life.goes_on():
        life.log("get")
        found = wide.get()
        life.log("told", found.words[0] >> 8, found.value.hex(), _is_whole(found.value))
        if life.dice.random() < 0.4:
            count += 1
            text = b"%d " % life.unique(count) * life.dice.randint(1, 3)
            value = text[:60] + hashlib.sha256(text[:60]).digest()[:20]
            life.log("replace", found.words[0] >> 8, value.hex())
            life.log("replaced", wide.replace(found, value))
        life.think()


def _is_whole(value: bytes) -> bool:
    """Whether this value is one that was put, by its hash."""
    return not value or hashlib.sha256(value[:-20]).digest()[:20] == value[-20:]


def use_registry(life: Life) -> None:
    """Takes a place, adds to a counter with the count of the place, and leaves it; some are held up for longer than their lease."""
    registry = recipes.Registry(life.client, PLACES, REGISTRY_AT, WITHIN)
    while life.goes_on():
        place = registry.join(LEASE, wait=5.0)
        if place is None:
            life.log("none")
            continue
        life.log("got", [place.number], [place.moves], int(place.until * 1e9))
        _add_some(life, place, life.dice.random() < 0.1)
        if life.dice.random() < 0.3:
            longer = registry.renew(place, LEASE)
            place = longer or place
            life.log("renewed", [place.number], [place.moves], int(place.until * 1e9) if longer else None)
        life.log("releases", [place.number], [place.moves])
        registry.leave(place)
        life.think()


def _add_some(life: Life, place: recipes.Place, is_held_up: bool) -> None:
    """Adds to the counter with the count of a place, perhaps after its lease: then another process may have it."""
    try:
        counter = recipes.Counter(life.client, mondlexi.Counted(life.client, place.address, WITHIN), COUNTER_AT, WITHIN)
        for is_late in (*3 * (False,), *is_held_up * (True,)):
            if is_late:
                time.sleep(1.5 * LEASE)
            if is_late or place.left() > 0:
                life.log("add")
                life.log("told", counter.add())
    except RuntimeError:
        life.log("moved")
