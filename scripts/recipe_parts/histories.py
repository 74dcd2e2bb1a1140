"""What the checks share: calls with their begin and end, and whether an order of calls of one key explains what they told.

Used by: keys.py, leases.py, queues.py, table.py.
"""
from typing import Any, FrozenSet, Iterable, Iterator, List, NamedTuple, Optional, Set, Tuple

from .running import Line, Logs

NEVER = 1 << 63
"""The end of a call whose process was killed in it."""
ENOUGH = 200
"""How many lines the processes tell at least."""


class Call(NamedTuple):
    """A call of a process: the line before it, and the one after it; None if the process was killed in between, or raised."""
    number: int
    asked: Line
    told: Optional[Line]

    @property
    def begin(self) -> int:
        """Its begin, in nanoseconds."""
        return int(self.asked[0])

    @property
    def end(self) -> int:
        """Its end, in nanoseconds."""
        return int(self.told[0]) if self.told else NEVER

    @property
    def answer(self) -> Any:
        """What was told first; None if nothing was."""
        return self.told[2] if self.told else None


def calls_of(logs: Logs, names: Iterable[str]) -> Iterator[Call]:
    """The calls that these lines begin; the line after each, of the same life, tells its end."""
    wanted = set(names)
    return (Call(number, line, following if following and following[1] != "raised" else None)
            for number, lives in logs.items() for lines in lives
            for line, following in zip(lines, [*lines[1:], None]) if line[1] in wanted)


def lines_of(logs: Logs) -> Iterator[Tuple[int, Line]]:
    """Each line, with the number of its process."""
    return ((number, line) for number, lives in logs.items() for lines in lives for line in lines)


def raised_in(logs: Logs) -> List[str]:
    """What the processes raised: the last line of each text."""
    return [f"process {number} raised {line[2].strip().splitlines()[-1]}" for number, line in lines_of(logs) if line[1] == "raised"]


def too_little(logs: Logs) -> List[str]:
    """A line if the processes told too little to find anything."""
    count = sum(1 for _ in lines_of(logs))
    return [] if count >= ENOUGH else [f"{count} lines were told, and {ENOUGH} are enough"]


class Step(NamedTuple):
    """A call of one key of an index. `put`: the value that it gives; None for a read, or a deletion. `told`: the value that the key
    had before. A call that died may have happened or not, and told nothing."""
    begin: int
    end: int
    is_read: bool
    put: Optional[int]
    told: Optional[int]

    @property
    def has_died(self) -> bool:
        """Whether its process was killed in it."""
        return self.end == NEVER


State = Tuple[int, FrozenSet[int], Optional[int]]
"""How far an order has come: all steps below a number are in it, and these more; and the key's value then."""


class Order:
    """The search for an order of the steps of one key that explains what each told, and the value at the end. Each step is between
    its begin and its end. (Wing and Gong's search, with a memory of the states that it has seen.)"""

    def __init__(self, steps: Iterable[Step], last: Optional[int]) -> None:
        self.steps, self.last = sorted(steps, key=lambda step: (step.begin, step.end)), last

    def is_there(self) -> bool:
        """Whether there is one."""
        seen: Set[State] = set()
        left: List[State] = [(0, frozenset(), None)]
        while left:
            state = self.normal(left.pop())
            if state in seen:
                continue
            seen.add(state)
            if self.is_end(state):
                return True
            left += self.after(state)
        return False

    def normal(self, state: State) -> State:
        """The same state with as few single steps as can be."""
        low, more, value = state
        while low in more:
            more = more - {low}
            low += 1
        return low, more, value

    def is_end(self, state: State) -> bool:
        """Whether all is in the order but for what died, and the value is the last one."""
        low, more, value = state
        return value == self.last and all(self.steps[k].has_died for k in range(low, len(self.steps)) if k not in more)

    def after(self, state: State) -> Iterator[State]:
        """The states after one more step: one that has begun before each that is left has ended."""
        low, more, value = state
        first_end = NEVER
        for k in range(low, len(self.steps)):
            step = self.steps[k]
            if step.begin > first_end:
                break
            if k not in more:
                first_end = min(first_end, step.end)
                if step.has_died or step.told == value:
                    yield low, more | {k}, value if step.is_read else step.put
