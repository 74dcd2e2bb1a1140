"""Tries the checker on small random histories, right and wrong ones: it has to judge each as a search of all orders does.

Used by: scripts/soak --self-test. A condition that checker.py gains is one of the search too.
"""
import itertools
import random
from typing import Iterator, List, Optional, Set, Tuple

from .checker import judge
from .history import NOTHING, Answer, Entry, Epoch, Reply, Request

Words = Tuple[int, ...]
WORDS = 2
MOST_REQUESTS = 6
SESSIONS = 3
CLOCK = 12


class Search:
    """All serial orders of an epoch, one after the other, by what is left to be placed and the words then."""

    def __init__(self, epoch: Epoch) -> None:
        self.epoch = epoch
        self.requests = epoch.requests
        self.seen: Set[Tuple[int, Words]] = set()

    def is_right(self) -> bool:
        """Whether one of them is right."""
        return self.goes_on((1 << len(self.requests)) - 1, self.epoch.first)

    def goes_on(self, left: int, words: Words) -> bool:
        """Whether what is left can be placed behind these words."""
        if (left, words) in self.seen:
            return False
        self.seen.add((left, words))
        rest = [index for index in range(len(self.requests)) if left >> index & 1]
        if words == self.epoch.last and all(self.requests[index].reply is NOTHING for index in rest):
            return True
        return any(self.places(index, rest, left, words) for index in rest)

    def places(self, index: int, rest: List[int], left: int, words: Words) -> bool:
        """Whether this request can come next. Undecided ones that had to come before it then come nowhere."""
        due = [other for other in rest if other != index and self.is_before(other, index)]
        after = changed(self.requests[index], words)
        if after is None or any(self.requests[other].reply is not NOTHING for other in due):
            return False
        return self.goes_on(left & ~sum(1 << other for other in [index, *due]), after)

    def is_before(self, one: int, other: int) -> bool:
        """Whether real time, or their session, puts one before the other."""
        first, second = self.requests[one], self.requests[other]
        return first.until < second.sent or (first.session == second.session and one < other)


def changed(request: Request, words: Words) -> Optional[Words]:
    """The words behind a request that is served at these words; None where its reply is not right there."""
    answer, address, value = request.reply
    if answer in (Answer.VAL, Answer.NO):
        return words if words[request.address if address is None else address] == value else None
    if any(words[entry.address] != entry.expected for entry in request.entries):
        return None
    new = {entry.address: entry.new for entry in request.entries}
    return tuple(new.get(address, word) for address, word in enumerate(words))


def random_request(dice: random.Random, known: List[List[int]], values: Iterator[int]) -> Request:
    """A request with some reply that it could have, by values that are known of the words."""
    sent = dice.randrange(CLOCK)
    request = Request(dice.randrange(SESSIONS), sent, until=sent + dice.randrange(CLOCK // 2))
    if dice.random() < 0.35:
        request.address = dice.randrange(WORDS)
        request.reply = Reply(Answer.VAL, None, dice.choice(known[request.address]))
        return request
    for address in sorted(dice.sample(range(WORDS), dice.randint(1, WORDS))):
        expected = dice.choice(known[address])
        request.entries += (Entry(address, expected, next(values) if dice.random() < 0.8 else expected),)
        known[address].append(request.entries[-1].new)
    entry = dice.choice(request.entries)
    others = [value for value in known[entry.address] if value not in (entry.expected, entry.new)]
    if others and dice.random() < 0.15:
        request.reply = Reply(Answer.NO, entry.address, dice.choice(others))
    elif dice.random() < 0.6:
        request.reply = Reply(Answer.YES)
    return request


def random_epoch(dice: random.Random) -> Epoch:
    """A small history, in most of which something is wrong."""
    values, known = itertools.count(1), [[0] for _ in range(WORDS)]
    requests = [random_request(dice, known, values) for _ in range(dice.randint(1, MOST_REQUESTS))]
    requests.sort(key=lambda request: request.sent)
    return Epoch("t", (0,) * WORDS, requests, tuple(dice.choice(seen[-2:]) for seen in known))


def try_searched(count: int, dice: random.Random) -> Tuple[List[str], str]:
    """So many histories: what went wrong, and a line on what was tried."""
    wrong, right = [], 0
    for epoch in (random_epoch(dice) for _ in range(count)):
        is_right = Search(epoch).is_right()
        right += is_right
        if is_right == bool(judge(epoch).complaints):
            texts = "\n    ".join(request.text() for request in epoch.requests)
            wrong.append(f"{'refused' if is_right else 'accepted'}, last words {epoch.last}:\n    {texts}")
    return wrong, (f"checker: of {count} small random histories it accepts {right} and refuses {count - right}, just as a "
                   "search of all orders does")
