"""Times changes of one tenant by several clients, and counts the syncs of them, beside other stores with as many clients.

A row is told for each store and each number of clients: changes a second; how long a change takes, half of them less and 99 of 100
less; how many syncs the store made for a change; how long a sync took, on average; and how many times the changes of the first store
it made in the same turn. All are medians of the turns. Of the last the quartiles are told too: half of the turns are between these.
In a turn all stores run side by side, and have each load one after the other: a disk is often fast for minutes, and slow for others.
The clients have a word each, or all have one. Of one word each client adds 1 again and again: its change is asked for until it is
made, with the value that the word was found to have, and takes as long as all of this.

Of each mwserve one more row is told: sixteen clients of sixteen tenants, which share nothing. A bare server that shares syncs
(bare_server.c), if it is asked for, has the loads with a word each alone, and isn't in the chart.

Syncs are counted, timed and made slower by slow_syncs.c, which is put under a store; under etcd, which no library can be put under,
by strace, which looks at its syncs alone. So what is told of etcd is what it does under strace.

Used by: scripts/bench-server --one-tenant. program_parts/beside.py reads the rows of a short run, their figures from the right: change
both.
"""
import multiprocessing
import os
import re
import shutil
import sqlite3
import tempfile
from contextlib import ExitStack, contextmanager
from functools import partial
from pathlib import Path
from statistics import median
from typing import Callable, Dict, Iterator, List, NamedTuple, Optional, Sequence, Tuple
from unittest.mock import patch

from .chart import Chart
from .clients import changed_of, changes, etcd_changes, quantile, redis_changes, sqlite_changes, together, wrong
from .stores import Other, Server, compiled, etcd_words, free_port, number, redis_words, row

DELAYS = {0: "the disk as it is", 2000: "each sync 2 ms longer"}
"""By how many microseconds a sync is longer."""
APART = 16
QUOTA = WORKERS = 64


class Load(NamedTuple):
    """So many clients of one tenant, with a word each or with one for all; or each of a tenant of its own."""
    clients: int
    is_shared: bool = False
    is_apart: bool = False

    def text(self) -> str:
        return f"{self.clients}" + (" of one word" if self.is_shared else " of a tenant each" if self.is_apart else "")


A_WORD_EACH = (Load(1), Load(2), Load(4), Load(16), Load(64))
LOADS = (*A_WORD_EACH, Load(16, True))
ALL_APART = Load(16, is_apart=True)


class Figures(NamedTuple):
    """Those of `Changed`; the syncs a change; and how many microseconds a sync takes."""
    rate: float
    half: float
    most: float
    syncs: float
    sync: float


class Syncs(NamedTuple):
    """How many syncs there were, and how many seconds they took."""
    number: int
    seconds: float


class Running(NamedTuple):
    """A store that runs: what a client of a word does; the syncs so far; and how its clients' processes are started."""
    client: Callable[[int, bool], Tuple]
    syncs: Callable[[], Syncs]
    by: object = multiprocessing


class Counter:
    """A file in which syncs are counted and timed, and the environment of a process whose syncs are, and take longer by a delay."""

    def __init__(self, room: Path, library: Path, delay: int) -> None:
        self.delay, self.path = delay, room / "syncs"
        self.path.write_bytes(bytes(16))
        self.environment = {"LD_PRELOAD": str(library), "SYNC_DELAY": str(delay), "SYNC_COUNT": str(self.path)}

    def syncs(self) -> Syncs:
        told = self.path.read_bytes()
        return Syncs(int.from_bytes(told[:8], "little"), int.from_bytes(told[8:], "little") / 1e9)


@contextmanager
def mondlexi(program: Path, room: Path, counter: Counter) -> Iterator[Running]:
    """An mwserve with one tenant, or a bare server."""
    with Server(program, room, workers=WORKERS, tenants=1, quota=QUOTA, environment=counter.environment) as server:
        yield Running(lambda word, is_shared: (changes, server.port, 0, APART * word, is_shared), counter.syncs)


@contextmanager
def mondlexi_apart(program: Path, room: Path, counter: Counter) -> Iterator[Running]:
    """An mwserve with a tenant for each client."""
    with Server(program, room, tenants=ALL_APART.clients, environment=counter.environment) as server:
        yield Running(lambda number, _: (changes, server.port, number), counter.syncs)


@contextmanager
def sqlite(room: Path, counter: Counter) -> Iterator[Running]:
    """One file for all clients. The library is put under each of them, because SQLite has no server."""
    with patch.dict(os.environ, counter.environment):
        yield Running(lambda word, is_shared: (sqlite_changes, room / "base", word, is_shared), counter.syncs,
                      multiprocessing.get_context("spawn"))


@contextmanager
def redis(room: Path, counter: Counter) -> Iterator[Running]:
    """One log for all clients, synced before a reply."""
    port = free_port()
    with Other(redis_words(room, port), port, counter.environment):
        yield Running(lambda word, is_shared: (redis_changes, port, word, is_shared), counter.syncs)


@contextmanager
def etcd(room: Path, counter: Counter) -> Iterator[Running]:
    """One log for all clients, under strace, which tells of some syncs in two lines, of which the second has the time."""
    told, port = room / "strace", free_port()
    words = ["strace", "-f", "-qq", "--seccomp-bpf", "-o", str(told), "-T", "-e", "trace=fsync,fdatasync"]
    words += ["-e", f"inject=fsync,fdatasync:delay_enter={counter.delay}"] if counter.delay else []

    def syncs() -> Syncs:
        times = re.findall(r"sync.* <([0-9.]+)>$", told.read_text(), re.MULTILINE)
        return Syncs(len(times), sum(map(float, times)))

    with Other([*words, *etcd_words(room, port)], port):
        yield Running(lambda word, is_shared: (etcd_changes, port, word, is_shared), syncs)


class Store(NamedTuple):
    """A store's name in the rows, how it is run, and which loads it has. An mwserve is listed twice under one name: with one tenant,
    and with sixteen."""
    name: str
    run: Callable
    loads: Sequence[Load] = LOADS


def stores_of(programs: Sequence[Path], bare: Optional[Path]) -> List[Store]:
    """All stores that are there, and the bare server if it was built."""
    stores = [Store(f"Mondlexi, {program}", partial(mondlexi, program)) for program in programs]
    stores += [Store(f"Mondlexi, {program}", partial(mondlexi_apart, program), (ALL_APART,)) for program in programs]
    if bare:
        stores.append(Store("a bare server that shares syncs", partial(mondlexi, bare), A_WORD_EACH))
    if shutil.which("redis-server"):
        stores.append(Store("Redis, a script, fsync always", redis))
    if shutil.which("etcd") and shutil.which("strace"):
        stores.append(Store("etcd, a transaction", etcd))
    # The last, because it sets this process's environment, which a store that began later would have.
    stores.append(Store(f"SQLite {sqlite3.sqlite_version}, WAL, FULL", sqlite))
    return stores


def figures_of(running: Running, load: Load, seconds: float) -> Figures:
    """What clients find in so many seconds. Each makes a change before it begins to time."""
    before = running.syncs()
    clients = [running.client(0 if load.is_shared else word, load.is_shared) for word in range(load.clients)]
    took, after = together(seconds, *clients, by=running.by), running.syncs()
    made, took_all = after.number - before.number, after.seconds - before.seconds
    changes_made = sum(map(len, took.values())) + load.clients
    return Figures(*changed_of(took, seconds), made / changes_made, took_all / max(made, 1) * 1e6)


def by_turns(stores: Sequence[Store], folder: Path, library: Path, delay: int, seconds: float,
             turns: int) -> Dict[Tuple[str, Load], List[Figures]]:
    """The figures of each store under each of its loads, a turn each. In each turn every store is new. Every second turn has the stores
    in the reverse order: the disk may be quicker after a pause, or for whoever comes next."""
    found: Dict[Tuple[str, Load], List[Figures]] = {}
    for turn in range(turns):
        with ExitStack() as stack:
            rooms = [Path(stack.enter_context(tempfile.TemporaryDirectory(dir=folder))) for _ in stores]
            all_running = [(store, stack.enter_context(store.run(room, Counter(room, library, delay))))
                           for room, store in zip(rooms, stores)]
            if turn % 2:
                all_running.reverse()
            for load in (*LOADS, ALL_APART):
                for store, running in all_running:
                    if load in store.loads:
                        found.setdefault((store.name, load), []).append(figures_of(running, load, seconds))
    return found


def time_one_tenant(programs: Sequence[Path], folder: str, seconds: float, turns: int, chart: Chart, only: Optional[int] = None,
                    with_bare: bool = False, clients: Optional[int] = None) -> None:
    """Prints the rows, and adds those of the stores to a chart: for the delays of `DELAYS`, or for one alone; for all loads, or for so
    many clients with a word each."""
    if not shutil.which("cc"):
        wrong("there is no C compiler cc, so syncs can't be counted")
    with tempfile.TemporaryDirectory() as built:
        library = compiled(built, "slow_syncs", "-shared", "-fPIC", "-ldl")
        bare = compiled(built, "bare_server", "-pthread") if with_bare else None
        stores = stores_of(programs, bare)
        if clients:
            stores = [store._replace(loads=(Load(clients),)) for store in stores if Load(clients) in store.loads]
        for delay, disk in (DELAYS if only is None else {only: f"each sync {only} us longer"}).items():
            row(f"one tenant, {disk}", "changes/s", "50 %, us", "99 %, us", "syncs/change", "sync, us", "of the first", "quartiles")
            told = by_turns(stores, Path(folder), library, delay, seconds, turns)
            found = {key: Figures(*map(median, zip(*turn))) for key, turn in told.items()}
            names = list(dict.fromkeys(store.name for store in stores))
            for name in names:
                row(name)
                for load in (other for other in (*LOADS, ALL_APART) if (name, other) in found):
                    it = found[name, load]
                    of_first = [one.rate / first.rate for one, first in zip(told[name, load], told[names[0], load])]
                    row(f"  clients: {load.text()}", *map(number, it[:3]), number(it.syncs, 2), number(it.sync),
                        number(median(of_first), 2), "-".join(number(quantile(of_first, part), 2) for part in (0.25, 0.75)))
            whole = [name for name in names if all((name, load) in found for load in LOADS)]
            chart.add_one_tenant(disk, [load.text() for load in LOADS], {name: [found[name, load] for load in LOADS] for name in whole})
