"""Checks what processes told of indexes: the calls of each key have an order that explains all, each range is of one moment, and the
words are whole.

Used by: table.py.
"""
from collections import defaultdict
from typing import Dict, List, Set, Tuple

from .histories import Call, Order, Step, calls_of, too_little
from .running import Logs
from .work import FIRST, HASH_AT, INDEX_AT, KEYS, PAIRS, RANGE, SECOND, SLOTS

LEVELS = 3
ENOUGH_VALUES = 3
"""How many values of the second key are read at least."""


def check_sorted_index(logs: Logs, words: List[int]) -> List[str]:
    """The calls, and the levels of the list: each is sorted, and no node is used that isn't in them."""
    nodes = [words[INDEX_AT + 4 * number:INDEX_AT + 4 * number + 4] for number in range(PAIRS + 1)]
    faults: List[str] = []
    for level in range(LEVELS):
        reached = _level(nodes, level, faults)
        used = {number for number in range(1, PAIRS + 1) if nodes[number][0] & 3 > level}
        if used != reached:
            faults.append(f"level {level} leaves out {sorted(used - reached)}, and has {sorted(reached - used)} that are not used")
    pairs = {nodes[number][1]: nodes[number][2] for number in _level(nodes, 0, [])}
    return faults + _of_two_moments(logs) + _without_order(logs, {key: value for key, value in pairs.items() if key not in (FIRST, SECOND)})


def _read_both(logs: Logs) -> List[Tuple[int, int]]:
    """What each range told of the first key and of the second one."""
    read = [dict(call.answer) for call in calls_of(logs, ["both"]) if call.told]
    return [(pairs.get(FIRST, 0), pairs.get(SECOND, 0)) for pairs in read]


def _of_two_moments(logs: Logs) -> List[str]:
    """A line for each range that no moment has: at each one the first key has the number of the second one, or the next."""
    read = _read_both(logs)
    print(f"  {len(read)} ranges of two keys that one process moves, up to {max((second for _, second in read), default=0)}")
    return [f"a range has {first} at the first key, and {second} at the second one" for first, second in read if not second <= first <= second + 1]


def too_few_values(logs: Logs) -> List[str]:
    """A line if the processes told too little, or have hardly seen the second key move."""
    count = len({second for _, second in _read_both(logs)})
    return too_little(logs) + ([] if count >= ENOUGH_VALUES else [f"{count} values of the second key were read, and {ENOUGH_VALUES} are enough"])


def _level(nodes: List[List[int]], level: int, faults: List[str]) -> Set[int]:
    """The nodes of a level."""
    reached: Set[int] = set()
    number, key = nodes[0][3] >> 16 * level & 0xFFFF, -1
    while number:
        if nodes[number][1] <= key:
            faults.append(f"level {level}: the key {nodes[number][1]} comes after {key}")
            break
        reached.add(number)
        key, number = nodes[number][1], nodes[number][3] >> 16 * level & 0xFFFF
    return reached


def check_hash_index(logs: Logs, words: List[int]) -> List[str]:
    """The calls; and no key is in two slots."""
    slots = [words[HASH_AT + 3 * slot:HASH_AT + 3 * slot + 3] for slot in range(SLOTS)]
    used = [slot for slot in slots if slot[0] & 1]
    pairs = {key: value for _, key, value in used}
    faults = [f"{len(used)} slots have {len(pairs)} keys"] if len(used) != len(pairs) else []
    return faults + _without_order(logs, pairs)


def _without_order(logs: Logs, last: Dict[int, int]) -> List[str]:
    """A line for each key whose calls no order explains, with these values at the end."""
    steps: Dict[int, List[Step]] = defaultdict(list)
    count = 0
    for call in calls_of(logs, "pdgr"):
        count += 1
        _note(call, steps)
    print(f"  {count} calls of {KEYS} keys, {len(last)} of them there at the end")
    return [f"no order explains the {len(steps[key])} calls of key {key}"
            for key in range(1, KEYS + 1) if not Order(steps[key], last.get(key)).is_there()]


def _note(call: Call, steps: Dict[int, List[Step]]) -> None:
    """The steps of a call: a range reads each of its keys. A read that died says nothing."""
    _, what, key, value = call.asked
    told = call.answer
    if what == "r" and call.told:
        pairs = {each: found for each, found in told}
        for each in range(key, min(key + RANGE, KEYS + 1)):
            steps[each].append(Step(call.begin, call.end, True, None, pairs.get(each)))
    elif what == "p" or what == "d" or call.told and what == "g":
        steps[key].append(Step(call.begin, call.end, what == "g", value if what == "p" else None, told))
