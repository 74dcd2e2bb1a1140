"""The recipes of `mondlexi.recipes` over clients of `mondlexi.aio`: the same names, and calls that are awaited.

    import mondlexi.aio
    from mondlexi.recipes.aio import Locks

    async with mondlexi.aio.Client("127.0.0.1:7000", "t") as client:
        grant = await Locks(client, owner=1, locks=40).acquire([3, 7], lease=30, wait=5)

A constructor asks nobody, so it may come before the client is connected. A call that is cancelled leaves its change undecided.
"""
# Used by: programs. A recipe that is added here is added to `mondlexi.recipes`; `_base` says to what else.
from typing import Iterable

from .. import _protocol
from .._protocol import Entry
from ..aio import Client
from . import _base
from ._base import WAIT, Damaged, NoRoom
from .blocks import AwaitedBlocks as Blocks
from .counter import AwaitedCounter as Counter
from .hash_index import AwaitedHashIndex as HashIndex
from .locks import AwaitedLocks as Locks
from .locks import Grant
from .queue import AwaitedQueue as Queue
from .registry import AwaitedRegistry as Registry
from .registry import Place
from .sorted_index import AwaitedSortedIndex as SortedIndex
from .wide import AwaitedWide as Wide
from .wide import Found

__all__ = [
    "Blocks", "Counter", "Damaged", "Found", "Grant", "HashIndex", "Locks", "NoRoom", "Place", "Queue", "Registry", "SortedIndex",
    "Wide", "resent",
]


async def resent(client: Client, entries: Iterable[Entry], wait: float = WAIT) -> bool:
    """Sends a change until it is answered, as `resent` of `mondlexi.recipes`."""
    return await _base.resent(client._session, entries, _protocol.seconds_of("wait", wait, True))
