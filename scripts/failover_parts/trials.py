"""What is done to the hosts, one trial after the other, while clients change and read words.

Each trial ends with the words, and with the checker's judgement of all that the clients were told in it.

Used by: scripts/check-failover.
"""
import random
import signal
import time
from typing import Callable, Dict, Iterator, List, NamedTuple, Optional, Sequence

from . import gluster
from .bricks import Recorder
from .hosts import Host, Network, Wrong, until
from .keepers import BARE, FILE, PORT, Keepers, counted, new_tenant
from .load import Load, Place, words_at
from .power import Device

WRITERS = 4
LOADED = 0.004
"""A client's pause between two requests is this at most, in seconds."""
BEFORE = (1.5, 3.0)
AFTER = 3.0
AWAY = 16.0
"""For how many seconds a host is cut off, or stopped: for longer than its locks stay."""
PATIENCE = 90.0
CHANGES = 20
KEPT, LEASE = "kept-", "mondlexi lease "
"""How the names of mondlexi-ha's folders begin, and the text of a lease."""
FROZEN, STOPPED = "the serving host is frozen, and goes on", "the serving host's processes are stopped, and go on"


class Seen(NamedTuple):
    """A trial: what was done; the longest time without a YES; how many YES and VAL there were; what the words and the replies to changes tell that
    is wrong, what all replies do, and what tells of two servers at once."""
    what: str
    gap: float
    yes: int
    val: int
    lost: List[str]
    stale: List[str]
    doubled: List[str]

    @property
    def of_changes(self) -> List[str]:
        return self.lost + self.doubled

    @property
    def complaints(self) -> List[str]:
        return self.stale + self.doubled

    def text(self) -> str:
        return f"{self.what}: {self.gap:.1f} s without a YES; {self.yes} YES, {self.val} VAL"


class Trials:
    """Hosts with a volume and servers' keepers, on which trials are made. By each of `ways` a client finds the host that serves."""

    def __init__(self, network: Network, keepers: Keepers, dice: random.Random, ways: Sequence[Place], devices: Optional[Dict[int, Device]] = None):
        self.network, self.keepers, self.dice, self.ways, self.devices = network, keepers, dice, ways, devices or {}
        self.words: Sequence[int] = ()
        """The words at the end of the trial before."""
        self.unsynced = 0
        """How many writes were not synced when the power went."""
        self.recorders: List[Recorder] = []
        self.recorded: Optional[Load] = None
        """What was recorded when the power went last, and what the clients were told meanwhile."""

    def others(self, host: Host) -> List[Host]:
        return [it for it in self.network.hosts if it is not host]

    def run(self, what: str, act: Callable[["Trials", Load, Host], None]) -> Seen:
        """Lets clients ask while something is done to the hosts."""
        places = self.keepers.places()
        host = self.keepers.serving()
        load = Load(places, self.ways, WRITERS, LOADED, self.dice)
        first = words_at(places, PATIENCE)
        load.begin(first)
        try:
            time.sleep(self.dice.uniform(*BEFORE))
            begun = time.monotonic_ns()
            act(self, load, host)
            self.wait_for_yes(load)
            time.sleep(AFTER)
        finally:
            load.end()
        ended = time.monotonic_ns()
        between = [f"the words were {self.words} after the trial before, and are {first}"] if self.words and self.words != first else []
        self.words = words_at(places, PATIENCE)
        lost, stale = (between + load.complaints(self.words, only) for only in (True, False))
        found = ([f"{what}: {it}" for it in complaints] for complaints in (lost, stale, self.two_servers(load)))
        counts = load.counts()
        return Seen(what, load.gap(begun, ended), counts.get("YES", 0), counts.get("VAL", 0), *found)

    def wait_for_yes(self, load: Load) -> None:
        """Until a change that is asked for from now on is answered YES, and one by each way."""
        number = len(load.requests)
        until(lambda: load.places_of_yes(number), lambda: f"a change is answered YES: {self.keepers.last_notes()}", PATIENCE, 0.05)
        for way in load.ways:
            until(lambda: way in load.places_of_yes(number), lambda: f"a change by {way} is answered YES: {self.keepers.last_notes()}", PATIENCE, 0.05)

    def two_servers(self, load: Load) -> List[str]:
        """What tells that a server said YES after the start of another one."""
        starts, found = self.keepers.starts(), []
        by_address = {host.address: host.number for host in self.network.hosts}
        for yes in load.yes():
            before = [it for it in starts if it.at < yes.at]
            number = by_address.get(yes.place[0])
            if number is not None and before and before[-1].host != number:
                found.append(f"host {number} said YES {(yes.at - before[-1].at) / 1e9:.3f} s after host {before[-1].host} began to serve")
        return found

    def until_taken(self, host: Host) -> Host:
        """Until another host than this serves."""
        return self.keepers.serving(but=host.number, seconds=PATIENCE)

    def back(self, *hosts: Host) -> None:
        """Hosts that died come back, with their keepers."""
        for host in hosts:
            self.keepers.kept[host.number].end()
        gluster.again(*hosts)
        for host in hosts:
            self.keepers.begin(host)

    def equal(self) -> None:
        """Until all replicas of the tenant's file have the same bytes, while nobody writes. The server's lease is beside it."""
        gluster.healed(self.network, PATIENCE)
        host = self.keepers.serving()
        folder = counted(host)
        until(lambda: len(set(gluster.replicas(self.network, f"{folder}/{FILE}").values())) == 1, "the replicas have the same bytes", PATIENCE)
        lease = host.run("cat", f"{gluster.MOUNTED}/{folder}/.lease")
        if not lease.startswith(LEASE):
            raise Wrong(f"the file of the server's lease has {lease!r}")

    def anew(self) -> None:
        """A server that is started now writes to all replicas; one that runs, not to one that was away."""
        gluster.healed(self.network, PATIENCE)
        before = len(self.keepers.notes)
        self.keepers.serving().signal(signal.SIGKILL, "mondlexi-ha")
        until(lambda: any(it.line.startswith("ready ") for it in self.keepers.notes[before:]), "a server starts anew")

    # What is done.

    def die(self, load: Load, host: Host) -> None:
        """The serving host dies. Another serves, in a folder of its own."""
        host.die()
        new = self.until_taken(host)
        name = counted(new).name
        if not name.startswith(KEPT) or f"-{new.name}-" not in name:
            raise Wrong(f"{new.name} serves {name}")

    def come_back(self, load: Load, host: Host) -> None:
        """A host that died comes back, and its replica is made equal."""
        self.back(next(it for it in self.network.hosts if not it.begun))
        time.sleep(AWAY / 2)

    def other_dies(self, load: Load, host: Host) -> None:
        """A host dies that doesn't serve, and comes back."""
        other = self.others(host)[0]
        other.die()
        time.sleep(AWAY / 2)
        self.back(other)

    def alone(self, load: Load, host: Host) -> None:
        """The serving host is cut off from the two others, and not from the clients. If these are idle, one asks for a few changes at the next
        server. Later it is back."""
        for other in self.others(host):
            self.network.cut(host, other)
        new = self.until_taken(host)
        if load.is_idle:
            load.some((new.address, PORT), CHANGES, self.dice)
        time.sleep(AWAY / 4)
        self.network.mend()
        time.sleep(AWAY / 2)

    def alone_and_idle(self, load: Load, host: Host) -> None:
        """The same while nobody asks for changes; the clients' sessions stay."""
        load.is_idle = True
        time.sleep(1)
        try:
            self.alone(load, host)
        finally:
            load.is_idle = False

    def cut_way(self, one: Host, other: Host) -> None:
        """The way between two hosts is cut for a while."""
        self.network.cut(one, other)
        time.sleep(AWAY)
        self.network.mend()
        time.sleep(AFTER)

    def one_way(self, load: Load, host: Host) -> None:
        """Cuts the way between the serving host and one other."""
        self.cut_way(host, self.dice.choice(self.others(host)))

    def other_way(self, load: Load, host: Host) -> None:
        """Cuts the way between the two that don't serve."""
        self.cut_way(*self.others(host))

    def frozen(self, load: Load, host: Host) -> None:
        """The host stands still, its kernel too, as a virtual machine that is paused. Later it goes on."""
        host.unplug()
        host.signal(signal.SIGSTOP)
        self.until_taken(host)
        time.sleep(AWAY / 4)
        host.plug()
        host.signal(signal.SIGCONT)
        time.sleep(AWAY / 4)

    def stopped(self, load: Load, host: Host) -> None:
        """All processes of the host stand still, and its kernel answers. Later they go on."""
        host.signal(signal.SIGSTOP)
        time.sleep(AWAY)
        host.signal(signal.SIGCONT)
        time.sleep(AWAY / 4)

    def power(self, load: Load, host: Host) -> None:
        """The serving host and another lose their power at once, and come back."""
        off = [host, self.dice.choice(self.others(host))]
        self.recorders, self.recorded = [self.record(it) for it in off], load
        time.sleep(self.dice.uniform(*BEFORE))
        self.lose(off, self.recorders)
        self.unsynced += sum(it.leave(self.dice) for it in self.recorders)
        self.back(*off)

    def old_power(self, load: Load, host: Host) -> None:
        """All hosts do. The serving one and another come back, and their devices lack what was synced last. The third stays away."""
        other, third = self.others(host)
        recorders = [self.record(it) for it in (host, other)]
        time.sleep(self.dice.uniform(*BEFORE))
        self.lose([third, host, other], recorders)
        for it in recorders:
            it.leave_old()
        self.back(host, other)

    def record(self, host: Host) -> Recorder:
        return Recorder(host, self.devices[host.number].folder)

    def lose(self, off: Sequence[Host], recorders: Sequence[Recorder]) -> None:
        """These hosts lose their power, and records end."""
        for host in off:
            host.unplug()
            host.off()
        for host in off:
            self.devices[host.number].lose()
        for it in recorders:
            it.end()

    def killed(self, load: Load, host: Host) -> None:
        """What keeps the server is killed, as by a mistake."""
        host.signal(signal.SIGKILL, "mondlexi-ha")
        time.sleep(1)


    def mount_dies(self, load: Load, host: Host) -> None:
        """The process of the serving host's mount is killed. Another host serves, and the volume is mounted anew."""
        if len(host.signal(signal.SIGKILL, gluster.MOUNT_PROCESS)) != 1:
            raise Wrong(f"{host.name} has no process of its mount, or several")
        self.until_taken(host)
        self.keepers.kept[host.number].end()
        gluster.mount_anew(host)
        self.keepers.begin(host)


CUTS = (("the serving host is cut off from the others, busy", Trials.alone),
        ("the serving host is cut off from the others, idle", Trials.alone_and_idle))
LONGER = (("the way between the serving host and another is cut", Trials.one_way),
          ("the way between the two others is cut", Trials.other_way),
          ("a host that doesn't serve dies and comes back", Trials.other_dies),
          ("the process of the serving host's mount is killed", Trials.mount_dies),
          (FROZEN, Trials.frozen), (STOPPED, Trials.stopped))
"""The trials that a short run leaves out."""


def main_trials(trials: Trials, deaths: int, is_short: bool) -> Iterator[Seen]:
    """All trials with what contrib/ha has."""
    for number in range(deaths):
        host = trials.keepers.serving()
        yield trials.run(f"host {host.number} dies ({number + 1} of {deaths})", Trials.die)
        if number:
            trials.back(host)
        else:
            yield trials.run(f"host {host.number} comes back", Trials.come_back)
        trials.equal()
    yield trials.run("the keeper of the server is killed", Trials.killed)
    for what, act in CUTS if is_short else CUTS + LONGER:
        yield trials.run(what, act)
        trials.equal()


def power_trial(trials: Trials, what: str) -> Seen:
    """Two of three hosts lose their power at once."""
    seen = trials.run(f"the serving host and another lose their power ({what})", Trials.power)
    trials.equal()
    return seen


def lying(trials: Trials) -> List[str]:
    """What the words and the replies to changes tell where two devices lack what was synced last, and the third is away."""
    seen = trials.run("two devices lack what was synced last", Trials.old_power)
    trials.back(*(host for host in trials.network.hosts if not host.begun))
    gluster.healed(trials.network, PATIENCE)
    return seen.lost


def planted(network: Network, dice: random.Random, options: Sequence[str]) -> Seen:
    """A host without mondlexi-ha, whose server nobody ends, is cut off while idle, and comes back; with these options of the volume."""
    host = network.hosts[0]
    gluster.gluster(host, "volume", "set", gluster.VOLUME, *options)
    time.sleep(2)
    new_tenant(host)
    keepers = Keepers(network, BARE)
    try:
        keepers.serving()
        trials = Trials(network, keepers, dice, [])
        return trials.run(f"mwserve alone with {' '.join(options)}, cut off while idle", Trials.alone_and_idle)
    finally:
        network.mend()
        keepers.end()

