"""A model of how workers wait for a tenant's file: `combiner.rt` of mw_engine; `waiting_room.rt`, `order.rt` and `hints.rt` of mw_turns.

Each worker makes changes, and each change three calls on the file: a prepare, a seal, a settle. The model has one step for each thing that another
worker can see: a look at the hints, a try of the lock, a visit to the room under its lock, a ring. What a call does to words is
left out. No sleep ends by time: so a state in which nobody can go on is one in which some worker would sleep to the end of its time.

Used by: scripts/check-waits. A change of what a worker does in one of these files is one of the model.
"""
from typing import Any, Callable, Dict, Iterator, NamedTuple, Tuple

PREPARE, SEAL, SETTLE = 0, 1, 2
"""The calls of a change, in their order."""
WITHOUT_SYNC, SEALS, PATIENT = 0, 1, 2
"""Which calls a worker makes for others: `Choosing`. Only time leads to the fourth."""
NO_SYNC, LATE = 0, 4
"""The ranks of a call are 0 to 3, as in `order.rt`; nothing has the last one."""
WOKEN_FIRST, WOKEN_BEFORE_SYNC = 3, 1
ENOUGH_SEALS = 3


class Waiter(NamedTuple):
    """A worker that waits for a call, and whether its record was written along with another one's."""
    worker: int
    call: int
    is_written: bool


class Worker(NamedTuple):
    """Where a worker is."""
    at: str
    """What it does next: one of `MOVES`, or the name of a method of `Step`."""
    call: int = PREPARE
    left: int = 0
    """How many changes it still makes, this one included."""
    has_served: bool = False
    is_waiting: bool = False
    """Whether its request is in its box."""
    choosing: int = PATIENT
    chosen: Tuple[Waiter, ...] = ()
    """The call that it makes for somebody."""
    to_ring: Tuple[int, ...] = ()
    then: str = ""
    """What it does when it has rung all."""


class State(NamedTuple):
    """The whole of it."""
    workers: Tuple[Worker, ...]
    lock: int = -1
    waiters: Tuple[Waiter, ...] = ()
    changes: Tuple[int, ...] = ()
    called: Tuple[int, ...] = ()
    sealed: Tuple[int, ...] = ()
    served: Tuple[int, ...] = ()
    expected: int = 0
    owing: int = 0
    unsettled: int = 0
    is_syncing: bool = False
    done: int = 0
    rung: int = 0
    """The workers whose bells were rung since they listened."""


WAKES = ("of the next by whoever takes its request back", "of those served, before a sleep", "of those served, before a sync", "of the first, by whoever goes",
         "of the first, by whoever has its reply", "of those sealed, by a settle")
"""What can be taken out of the model."""


class Model:
    """The steps of the workers, without one of the wakes if `without` is its place in `WAKES`."""

    def __init__(self, workers: int, changes: int, without: int = -1):
        self.first = State(tuple(Worker("come", left=changes) for _ in range(workers)))
        self.without = without

    def after(self, state: State) -> Iterator[State]:
        """The states after a step of some worker."""
        for number, worker in enumerate(state.workers):
            step = Step(state, number, self.without)
            if worker.at == "onward":
                yield from step.onward()
            elif worker.at != "end" and (worker.at != "sleep" or state.rung & step.own):
                yield MOVES[worker.at](step) if worker.at in MOVES else getattr(step, worker.at)()


class Step:
    """A step of one worker: the method that its `at` names, if it is not one of `MOVES`, gives the state after it."""

    def __init__(self, state: State, number: int, without: int):
        self.state, self.number, self.without = state, number, without
        self.worker, self.own = state.workers[number], 1 << number

    def change(self, **parts: Any) -> None:
        self.state = self.state._replace(**parts)

    def to(self, at: str, **parts: Any) -> State:
        """The state with the worker there."""
        workers, worker = self.state.workers, self.worker._replace(at=at, **parts)
        return self.state._replace(workers=workers[:self.number] + (worker,) + workers[self.number + 1:])

    def ring_all(self, to_ring: Tuple[int, ...], then: str, **parts: Any) -> State:
        """It rings these, one after the other, and then goes on so."""
        if to_ring:
            return self.to("ring", to_ring=to_ring, then=then, **parts)
        return self.to(then, to_ring=(), then="", **parts)

    def woken(self, wake: int, most: int) -> Tuple[int, ...]:
        """The first of those served, which it wakes by this wake."""
        served = self.state.served
        self.change(served=served[most:])
        return served[:most] if self.without != wake else ()

    def is_anybody_there(self) -> bool:
        return bool(self.state.waiters or self.state.served or self.state.sealed)

    def first(self) -> Tuple[int, ...]:
        """`WaitingRoom::next`."""
        if self.state.expected:
            return ()
        return tuple(it.worker for it in self.state.waiters[:1]) or self.state.sealed[:1]

    # The order of calls

    def rank(self, waiter: Waiter) -> int:
        """`Waiter::rank`."""
        if waiter.call == PREPARE:
            return NO_SYNC if waiter.is_written else 3
        if waiter.call == SEAL:
            return 1
        return 2 if self.state.unsettled & 1 << waiter.worker else NO_SYNC

    def next_call(self) -> int:
        """`next_of`: the place of the call that is made next, or -1."""
        waiters = self.state.waiters
        most = {WITHOUT_SYNC: 0, SEALS: 1, PATIENT: 1 if self.state.expected else 3}[self.worker.choosing]
        keeps = sum(it.call == SEAL for it in waiters) >= ENOUGH_SEALS
        ranks = [2 if keeps and it.is_written else self.rank(it) for it in waiters]
        best = min(ranks, default=LATE)
        return ranks.index(best) if best <= most else -1

    # The lock of the file, and a call under it

    def lock(self, then: str) -> State:
        self.change(lock=self.number)
        return self.to(then)

    def unlock(self, then: str, **parts: Any) -> State:
        self.change(lock=-1)
        return self.to(then, **parts)

    def begin_call(self, then: str) -> State:
        """It begins a call, which others see by the hint alone."""
        self.change(is_syncing=self.state.is_syncing or self.rank(self.worker.chosen[0]) != NO_SYNC)
        return self.to(then)

    def end_call(self, waiter: Waiter) -> None:
        """What a call leaves: the records that it wrote, and what others are told by hints and lists."""
        syncs, state, own = self.rank(waiter) != NO_SYNC, self.state, 1 << waiter.worker
        called = state.called
        if waiter.call == PREPARE:
            called = tuple(it for it in called if it != waiter.worker)
            self.change(expected=state.expected | own)
        elif waiter.call == SEAL:
            self.change(unsettled=state.unsettled | own)
        elif syncs:
            woken = state.sealed if self.without != 5 else ()
            self.change(unsettled=0, served=state.served + woken, sealed=())
        if syncs and called:
            self.change(waiters=tuple(it._replace(is_written=True) if it.call == PREPARE and it.worker in called else it for it in state.waiters))
            called = ()
        self.change(called=called, is_syncing=False)

    # A worker comes to a call

    def come(self) -> State:
        """It is expected no longer, and looks whether it may try the lock: `may_try`."""
        state, own = self.state, Waiter(self.number, self.worker.call, False)
        self.change(expected=state.expected & ~self.own, owing=state.owing & ~self.own)
        rank = self.rank(own)
        may_try = not state.is_syncing and (rank == NO_SYNC or not state.waiters and rank <= (1 if self.state.expected else 3))
        return self.to("try_own" if may_try else "enter", chosen=(own,))

    def end_own(self) -> State:
        """It has made its own call: `end`."""
        self.end_call(self.worker.chosen[0])
        return self.to("unlock_own")

    def enter(self) -> State:
        """It leaves its request in its box, and enters the room."""
        state, call = self.state, self.worker.call
        self.change(waiters=state.waiters + (Waiter(self.number, call, False),), done=state.done & ~self.own,
                    changes=state.changes + ((self.number,) if call == PREPARE else ()))
        return self.to("listen", chosen=(), is_waiting=True, has_served=False, choosing=PATIENT)

    # A worker waits

    def listen(self) -> State:
        self.change(rung=self.state.rung & ~self.own)
        return self.to("fetch")

    def fetch(self) -> State:
        """It takes its request back if its call was made: `fetch`, `take_back`."""
        if not self.state.done & self.own:
            return self.to("try_next")
        served, sealed = (tuple(it for it in some if it != self.number) for some in (self.state.served, self.state.sealed))
        self.change(sealed=sealed, served=served[1:])
        return self.ring_all(served[:1] if self.without != 0 else (), "leave" if self.worker.has_served else "go_on", is_waiting=False)

    # A worker makes a call of somebody: `serve_one`

    def choose(self) -> State:
        state, place = self.state, self.next_call()
        if place < 0:
            return self.to("unlock_none")
        chosen = state.waiters[place]
        self.change(waiters=state.waiters[:place] + state.waiters[place + 1:], called=state.called + state.changes, changes=())
        return self.ring_all(self.woken(2, WOKEN_BEFORE_SYNC) if self.rank(chosen) != NO_SYNC else (), "make", chosen=(chosen,))

    def end_for(self) -> State:
        """It has made the call: `end_for`, or `end` if it is its own."""
        waiter, them = self.worker.chosen[0], (self.worker.chosen[0].worker,)
        self.end_call(waiter)
        if waiter.worker != self.number:
            if waiter.call == SEAL:
                self.change(sealed=self.state.sealed + them)
            else:
                self.change(served=them + self.state.served if waiter.call == PREPARE else self.state.served + them)
        self.change(done=self.state.done | 1 << waiter.worker)
        return self.to("unlock_one", chosen=())

    def has_not_served(self) -> State:
        """No call could be made: a worker that waits sleeps, and one that goes goes."""
        return self.ring_all(self.woken(1, WOKEN_FIRST), "sleep" if self.worker.is_waiting else "wake_first")

    # A worker goes

    def leave(self) -> State:
        """`leave`."""
        return self.to("try_next", choosing=WITHOUT_SYNC if self.worker.call == SETTLE else SEALS, is_waiting=False, chosen=())

    def wake_first(self) -> State:
        """It owes a wake if it comes back soon. Else it wakes the first."""
        if self.worker.call == SETTLE:
            return self.ring_all(self.first() if self.without != 3 else (), "go_on")
        if self.is_anybody_there():
            self.change(owing=self.state.owing | self.own)
        return self.go_on()

    def anew(self, at: str, call: int = PREPARE, left: int = 0) -> State:
        """The state with the worker there, in no call."""
        self.worker = Worker(at, call, left)
        return self.to(at)

    def go_on(self) -> State:
        """It makes the steps that follow its call."""
        return self.anew("onward", self.worker.call, self.worker.left)

    def onward(self) -> Iterator[State]:
        """It comes to its next call, or to its reply, also if a helper has ended its change. A change that is sealed in the file has none before
        a settle."""
        call, left = self.worker.call, self.worker.left
        if not self.state.unsettled & self.own:
            yield self.anew("reply", SETTLE, left)
        if call != SETTLE:
            yield self.anew("come", call + 1, left)

    def reply(self) -> State:
        """`depart`."""
        expected, owing = self.state.expected, self.state.owing
        self.change(expected=expected & ~self.own, owing=owing & ~self.own)
        return self.ring_all(self.first() if (expected | owing) & self.own and self.without != 4 else (), "next")

    def next(self) -> State:
        """It has its reply, and makes its next change if it has one."""
        return self.anew("come", PREPARE, self.worker.left - 1) if self.worker.left > 1 else self.anew("end")

    def ring(self) -> State:
        """It rings the next bell."""
        self.change(rung=self.state.rung | 1 << self.worker.to_ring[0])
        return self.ring_all(self.worker.to_ring[1:], self.worker.then)


MOVES: Dict[str, Callable[[Step], State]] = {
    # A worker comes to a call, tries the lock, makes its own call, and goes on if nobody is there
    "try_own": lambda it: it.to("enter") if it.state.lock >= 0 else it.lock("make_own"),
    "make_own": lambda it: it.begin_call("end_own"),
    "unlock_own": lambda it: it.unlock("look_around"),
    "look_around": lambda it: it.leave() if it.is_anybody_there() else it.go_on(),
    # It was rung
    "sleep": lambda it: it.to("listen"),
    # It makes a call of somebody: `serve_one`. If it has made none, it looks once more, since whoever came meanwhile found the lock held
    "try_next": lambda it: it.has_not_served() if it.state.lock >= 0 else it.lock("choose"),
    "make": lambda it: it.begin_call("end_for"),
    "unlock_one": lambda it: it.unlock("listen", has_served=True) if it.worker.is_waiting else it.unlock("try_next"),
    "unlock_none": lambda it: it.unlock("look"),
    "look": lambda it: it.to("try_next") if it.next_call() >= 0 else it.has_not_served(),
}
"""The steps that only look, and go on."""
