"""The recipes: what processes do with each, what looks at what they were told, and a run of one.

Used by: scripts/check-programs, scripts/check-recipes.
"""
import tempfile
from pathlib import Path
from typing import Callable, Dict, List, NamedTuple, Optional

from . import keys, leases, queues, work
from .histories import raised_in, too_little
from .running import Life, Logs, Run, Size


class Recipe(NamedTuple):
    """What processes do with a recipe; what looks at what they were told, and at the words; and what tells whether that is too
    little: a run goes on until it isn't."""
    work: Callable[[Life], None]
    check: Callable[[Logs, List[int]], List[str]]
    lacks: Callable[[Logs], List[str]] = too_little


RECIPES: Dict[str, Recipe] = {
    "locks": Recipe(work.take_locks, leases.check_locks, leases.who_waits),
    "blocks": Recipe(work.use_blocks, leases.check_blocks),
    "sorted-index": Recipe(work.use_sorted_index, keys.check_sorted_index, keys.too_few_values),
    "hash-index": Recipe(work.use_hash_index, keys.check_hash_index),
    "queue": Recipe(work.use_queue, queues.check_queue),
    "counter": Recipe(work.use_counter, queues.check_counter),
    "wide": Recipe(work.use_wide, queues.check_wide),
    "registry": Recipe(work.use_registry, leases.check_registry),
    "crowd": Recipe(work.take_locks, leases.check_locks, leases.who_waits),
}


class Faults(NamedTuple):
    """What is wrong with a run: what its processes were told, and how they ended."""
    told: List[str]
    ended: List[str]


def faults_of(name: str, size: Size, spoil: Optional[Callable[[], None]] = None) -> Faults:
    """Runs a recipe, and says what is wrong. `spoil`: what makes the recipe wrong, in each process."""
    with tempfile.TemporaryDirectory() as folder:
        run = Run(Path(folder), size, RECIPES[name].work, RECIPES[name].lacks, spoil)
        ended = run.whole()
        logs = run.logs()
        return Faults(RECIPES[name].check(logs, run.words), raised_in(logs) + ended + RECIPES[name].lacks(logs))
