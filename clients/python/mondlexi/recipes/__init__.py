"""Recipes: what words are mostly for, over a client of `mondlexi`. `mondlexi.recipes.aio` has the same for `mondlexi.aio`.

    import mondlexi
    from mondlexi.recipes import Locks, SortedIndex

    with mondlexi.Client("127.0.0.1:7000", "t") as client:
        grant = Locks(client, owner=1, locks=40).acquire([3, 7], lease=30, wait=5)
        index = SortedIndex(client, mondlexi.Counted(client, 90), pairs=900, at=100)
        index.put(17, 4711)
        index.range(10, 20)                           # [(17, 4711)], without the disk

| recipe        | does                                                                                              |
|---------------|---------------------------------------------------------------------------------------------------|
| `Locks`       | locks with leases and fencing tokens, up to eight by one change                                   |
| `Blocks`      | numbered blocks with an owner and a tag, up to fifteen by one change                              |
| `SortedIndex` | keys and values in the order of the keys                                                          |
| `HashIndex`   | keys and values; each read is one round trip                                                      |
| `Queue`       | values from several producers to several consumers                                                |
| `Counter`     | a number to which many add                                                                        |
| `Wide`        | a value of up to 84 bytes                                                                         |
| `Registry`    | gives processes that come and go a number, and an address for their `Counted`, for a lease        |

Each connects anew and asks again after a lost connection, for `wait` seconds, so no program needs a loop for Lost. Each call tells
of its change what `Counted` tells: after Unknown it may have been made, after any other `Error` it wasn't and never will be.

Each recipe has words of its own from `at` on, and nothing else may write these. A new tenant, all of 0, is ready for each of them.
docs/RECIPES.md has the layout of their words, and what must be true of these. A recipe of a client isn't for several threads at a
time, though these may share the client.
"""
# Used by: programs. A recipe that is added here is added to `aio`; `_base` says to what else.
from typing import Iterable

from .. import _protocol
from .._client import Client
from .._protocol import Entry
from .._session import run
from . import _base
from ._base import WAIT, Damaged, NoRoom
from .blocks import Blocks
from .counter import Counter
from .hash_index import HashIndex
from .locks import Grant, Locks
from .queue import Queue
from .registry import Place, Registry
from .sorted_index import SortedIndex
from .wide import Found, Wide

__all__ = [
    "Blocks", "Counter", "Damaged", "Found", "Grant", "HashIndex", "Locks", "NoRoom", "Place", "Queue", "Registry", "SortedIndex",
    "Wide", "resent",
]


def resent(client: Client, entries: Iterable[Entry], wait: float = WAIT) -> bool:
    """Sends a change until it is answered, over new connections too, for `wait` seconds. Whether it was made.

    It is for changes of words of which no state comes back, whoever changes them: for example if each change of one of them also
    moves a version or a token among them. Such a change is made once at most. False: it never will be made; nor was it, unless a
    reply was lost and others have changed the words since. No two processes may ask for the same change.

    Raises ValueError or TypeError, with nothing sent; Unknown if the change is undecided: ask again. After any other `Error` it
    was not made, and never will be."""
    return run(_base.resent(client._session, entries, _protocol.seconds_of("wait", wait, True)))
