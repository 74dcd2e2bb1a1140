"""What clients asked of one tenant, when, and what they were told: the material of the checker.

Times are nanoseconds of one clock (time.monotonic_ns). A value that is written is written once only, so that each value
that is seen tells by which change it was written.

Used by: many of this folder, failover_parts/load.py. A reply that the protocol gains is an `Answer` and a case of `reply_of` here, and
one of checker.py.
"""
from dataclasses import dataclass
from enum import Enum
from typing import List, NamedTuple, Optional, Sequence, Tuple


class Answer(Enum):
    """The kind of a reply."""
    VAL = "VAL"
    YES = "YES"
    NO = "NO"
    BUSY = "BUSY"
    FAULT = "FAULT"
    WORN = "WORN"
    NONE = "no reply"


class Reply(NamedTuple):
    """What a request was told: `address` and `value` of a NO, `value` of a VAL."""
    answer: Answer
    address: Optional[int] = None
    value: Optional[int] = None

    def text(self) -> str:
        """As the server says it."""
        numbers = (str(number) for number in (self.address, self.value) if number is not None)
        return " ".join([self.answer.value, *numbers])


def reply_of(line: str) -> Reply:
    """The reply that the server says in a line; ValueError where it is none."""
    word, *texts = line.split(" ")
    answer, wanted = Answer(word), {"VAL": 1, "NO": 2}.get(word, 0)
    if len(texts) != wanted or not all(text.isascii() and text.isdigit() for text in texts):
        raise ValueError(line)
    return Reply(answer, *([None] * (wanted == 1)), *map(int, texts))


class Entry(NamedTuple):
    """A part of a change. One whose new value is the expected one only compares."""
    address: int
    expected: int
    new: int

    @property
    def writes(self) -> bool:
        """Whether it changes the word."""
        return self.new != self.expected


NOTHING = Reply(Answer.NONE)
UNDECIDED = (Answer.NONE, Answer.FAULT, Answer.WORN)
"""Where a change may have been made or not."""


@dataclass
class Request:
    """A read of the word at `address`, where there are no `entries`, or a change.

    `until`: when it was over: answered, or, where it is undecided, when the server ended that may still have made it.
    `told`: when its reply was read; None where there was none. `session` tells which requests were on one connection: these
    are served in the order in which they stand in a history."""
    session: int
    sent: int
    address: int = 0
    entries: Tuple[Entry, ...] = ()
    until: int = 0
    told: Optional[int] = None
    reply: Reply = NOTHING

    @property
    def is_change(self) -> bool:
        """Whether it is a change, be it one that only compares."""
        return bool(self.entries)

    @property
    def writes(self) -> bool:
        """Whether it would change a word."""
        return any(entry.writes for entry in self.entries)

    def teach(self, words: List[int]) -> None:
        """Puts what its reply tells of words into those that a client knows."""
        answer, address, value = self.reply
        if answer is Answer.YES:
            for entry in self.entries:
                words[entry.address] = entry.new
        elif value is not None:
            words[self.address if address is None else address] = value

    def line(self) -> str:
        """The line that the client sent."""
        if not self.is_change:
            return f"GET {self.address}"
        return "CAS " + " ".join(":".join(map(str, entry)) for entry in self.entries)

    def text(self) -> str:
        """Who asked what, from when to when, in microseconds, and what was told."""
        return (f"session {self.session}, from {self.sent // 1000} to {self.until // 1000}: {self.line()} -> "
                f"{self.reply.text()}")


@dataclass
class Epoch:
    """What was asked of one tenant between two moments at which its words were read while nobody changed them.

    `first` are the words at the beginning, `last` those at the end, or None where they were not read. `requests` are in
    the order in which they were sent. `quota` is how many changes the tenant may have under way."""
    tenant: str
    first: Tuple[int, ...]
    requests: List[Request]
    last: Optional[Tuple[int, ...]] = None
    quota: int = 1


def begins_and_ends(requests: Sequence[Optional[Request]]) -> List[Tuple[bool, int]]:
    """Each moment at which a request was sent or was over, in their order: whether it was over, and its index. None is passed over."""
    moments = [(time, is_end, index) for index, request in enumerate(requests) if request is not None
               for time, is_end in ((request.sent, False), (request.until, True))]
    return [(is_end, index) for _, is_end, index in sorted(moments)]
