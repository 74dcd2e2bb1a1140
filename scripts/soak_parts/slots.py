"""When BUSY may come: how many slots of a tenant can have been taken.

A change has a slot from its admission on. It is free again once nobody has a pin on it: neither the change itself, nor
another request of the tenant that met it, works on it or looks at it, and may do so after the change was answered. Each
request takes back its pins before it is answered, and frees each slot whose last pin was its own; only where a call on the
file has failed it doesn't, and then nobody is told BUSY any more (docs/STEPS.md). So at any moment

- each slot that is taken is pinned by a request under way: a read has one pin at most, a change three: of its own slot, of
  the one that it works on, and of the one to which it turns before it lets go of that;
- it is the slot of a change that was sent since the tenant was last at rest, with no request under way;
- of each session one request at most is under way in the server, since it serves a session's lines one after the other;
- a request that is answered BUSY has no slot and no pin.

A request is taken to be under way for longer than it was: from before its sending until its reply was read, or until its
server had ended. So never fewer slots are counted here than were taken.

Used by: checker.py. If a change may have another number of pins (docs/STEPS.md), it has it here; planted.py tries it.
"""
from collections import Counter
from typing import Counter as CounterOf
from typing import List, Sequence

from .history import Answer, Request, begins_and_ends

MOST_OF_A_CHANGE = 3
MOST_OF_A_READ = 1


class Slots:
    """How many slots may be taken at a moment, by what is under way then: of each session so many changes and reads, and at most so many
    pins."""

    def __init__(self) -> None:
        self.changes: CounterOf[int] = Counter()
        self.reads: CounterOf[int] = Counter()
        self.pins: CounterOf[int] = Counter()
        self.all_pins = self.under_way = self.sent_since_rest = 0

    def count(self, request: Request, step: int) -> None:
        """A request is sent, by a step of 1, or over, by -1."""
        session = request.session
        (self.changes if request.is_change else self.reads)[session] += step
        self.under_way += step
        self.sent_since_rest += request.is_change and step == 1
        if self.under_way == 0:
            self.sent_since_rest = 0
        pins = MOST_OF_A_CHANGE if self.changes[session] else MOST_OF_A_READ if self.reads[session] else 0
        self.all_pins += pins - self.pins[session]
        self.pins[session] = pins

    def most_beside(self, session: int) -> int:
        """How many slots may be taken now, where this session has none."""
        return min(self.all_pins - self.pins[session], self.sent_since_rest)


def wrongly_busy(requests: Sequence[Request], quota: int) -> List[Request]:
    """The requests of one tenant that were told BUSY though at no moment as many slots can have been taken as its quota."""
    if not any(request.reply.answer is Answer.BUSY for request in requests):
        return []
    slots, most, wrong = Slots(), {}, []
    for is_end, index in begins_and_ends(requests):
        request = requests[index]
        if request.reply.answer is not Answer.BUSY:
            slots.count(request, -1 if is_end else 1)
            for busy in () if is_end else most:
                most[busy] = max(most[busy], slots.most_beside(requests[busy].session))
        elif not is_end:
            most[index] = slots.most_beside(request.session)
        elif most.pop(index) < quota:
            wrong.append(request)
    return wrong
