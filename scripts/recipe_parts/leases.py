"""Checks what processes told of what one of them may have at a time: no two leases of a lock, or of a place, overlap, and tokens rise; no
block has two owners, none is lost, none is taken or given back by half.

Used by: table.py.
"""
from collections import Counter, defaultdict
from typing import Dict, List, NamedTuple, Optional

from .histories import NEVER, lines_of, too_little
from .queues import check_counter
from .running import Line, Logs
from .work import BLOCKS, LOCKS, PLACES, REGISTRY_AT


class Span(NamedTuple):
    """What a process had, as it knew: from when it was told of it, until its end, or until it began to give it back."""
    begin: int
    token: int
    end: int
    number: int


Spans = Dict[int, List[Span]]


def overlaps(spans: Spans, what: str) -> List[str]:
    """A line for each two spans that overlap, or whose tokens don't rise."""
    faults: List[str] = []
    for which, each in spans.items():
        each.sort()
        for one, other in zip(each, each[1:]):
            if other.begin < one.end:
                faults.append(f"{what} {which} is held twice for {(one.end - other.begin) / 1e6:.1f} ms: {one}, {other}")
            if other.token <= one.token:
                faults.append(f"{what} {which}: the token {other.token} comes after {one.token}")
    return faults


def spans_of(logs: Logs) -> Spans:
    """The leases of each lock or place. All processes have one clock. One that wasn't renewed goes on as it was."""
    spans: Spans = defaultdict(list)
    for number, lives in logs.items():
        for lines in lives:
            held: Dict[int, Span] = {}
            for time, what, *more in lines:
                if what == "got" or what == "renewed" and more[2] is not None:
                    for which, token in zip(more[0], more[1]):
                        held[which] = Span(held[which].begin if which in held else time, token, more[2], number)
                elif what == "releases":
                    for which in more[0]:
                        span = held.pop(which)
                        spans[which].append(span._replace(end=min(span.end, time)))
            for which, span in held.items():
                spans[which].append(span)
    return spans


def check_locks(logs: Logs, words: List[int]) -> List[str]:
    """No two leases of a lock overlap, tokens rise, and none is lost."""
    spans = spans_of(logs)
    faults = overlaps(spans, "lock")
    faults += [f"lock {lock}: its token is {words[2 * lock]}, and {spans[lock][-1].token} was told"
               for lock in range(LOCKS) if spans[lock] and words[2 * lock] < spans[lock][-1].token]
    each = [leases_of(logs)[number] for number in logs]
    print(f"  {sum(each)} leases, {min(each)} to {max(each)} of a process")
    return faults


def leases_of(logs: Logs) -> "Counter[int]":
    """How many leases each process got."""
    return Counter(number for number, line in lines_of(logs) if line[1] == "got")


def who_waits(logs: Logs) -> List[str]:
    """A line if the processes told too little, and one for each that never got a lease."""
    got = leases_of(logs)
    return too_little(logs) + [f"process {number} never got a lock" for number in logs if not got[number]]


def check_registry(logs: Logs, words: List[int]) -> List[str]:
    """No two leases of a place overlap, each addition with the count of a place was made once, or was refused, and no move is lost."""
    spans = spans_of(logs)
    faults = overlaps(spans, "place")
    faults += [f"place {place} is none" for place in spans if not 0 <= place < PLACES]
    moved = sum(line[1] == "moved" for _, line in lines_of(logs))
    print(f"  {sum(map(len, spans.values()))} leases of places, {moved} holders refused after their lease")
    return faults + check_counter(logs, words) + [
        f"place {place} was moved {words[REGISTRY_AT + 3 * place]} times, and {each[-1].token} was told"
        for place, each in spans.items() if words[REGISTRY_AT + 3 * place] < each[-1].token]


class Owner:
    """What one owner of blocks has, followed through its lives."""

    def __init__(self, number: int, spans: Spans, faults: List[str]) -> None:
        self.number, self.spans, self.faults = number, spans, faults
        self.has: Dict[int, int] = {}
        self.under_way: Optional[Line] = None
        self.calls = self.died_made = 0

    def follow(self, line: Line) -> None:
        """What a line tells."""
        what = line[1]
        if what == "mine":
            self.find(line)
        elif what in ("take", "give"):
            self.under_way = line
        elif what == "taken":
            self.add(line[2] or [], line[0])
        elif what == "given":
            self.remove(line[2])
        self.calls += what in ("taken", "given")

    def find(self, line: Line) -> None:
        """A new life has just what the one before it was told, or that and the one call under way, wholly made."""
        found: Dict[int, int] = {block: tag for block, tag in line[2]}
        more, less = set(found) - set(self.has), set(self.has) - set(found)
        asked = self.under_way[1:] if self.under_way else ["nothing"]
        is_taken = asked[0] == "take" and len(more) == asked[1] and {found[block] for block in more} == {asked[2]}
        is_given = asked[0] == "give" and less == set(asked[1])
        if more and not is_taken or less and not is_given:
            self.faults.append(f"owner {self.number} finds {sorted(more)} more and {sorted(less)} less after {asked}")
        self.died_made += bool(more or less)
        self.remove(sorted(less))
        self.add(sorted(more), line[0])

    def add(self, blocks: List[int], time: int) -> None:
        """These are its own from now on."""
        self.under_way = None
        self.faults += [f"owner {self.number} is given block {block} twice" for block in blocks if block in self.has]
        self.has.update(dict.fromkeys(blocks, time))

    def remove(self, blocks: List[int]) -> None:
        """These were its own until it began to give them back."""
        for block in blocks:
            self.end(block, self.under_way[0] if self.under_way else 0)
        self.under_way = None

    def end(self, block: int, time: int) -> None:
        """A block was its own until then."""
        since = self.has.pop(block)
        self.spans[block].append(Span(since, since, time, self.number))


def check_blocks(logs: Logs, words: List[int]) -> List[str]:
    """All of this; at the end all blocks are free."""
    spans: Spans = defaultdict(list)
    faults: List[str] = []
    owners = {number: Owner(number, spans, faults) for number in logs}
    for number, line in lines_of(logs):
        owners[number].follow(line)
    for owner in owners.values():
        for block in list(owner.has):
            owner.end(block, NEVER)
    faults += overlaps(spans, "block")
    if not any(line[1] == "raised" for _, line in lines_of(logs)):
        faults += [f"block {block} is left over" for block in range(BLOCKS) if words[block]]
    calls, died_made = (sum(getattr(owner, name) for owner in owners.values()) for name in ("calls", "died_made"))
    print(f"  {calls} calls, {died_made} made for a process that was killed in them")
    return faults
