"""Checks what processes told of queues, counters and values of bytes: each element once and in order, each addition once, no value
of two halves.

Used by: leases.py, table.py.
"""
from typing import Dict, List, Set

from .histories import Call, calls_of
from .running import Logs
from .work import COUNTER_AT, QUEUE_AT, ROOM, WIDE_AT


def check_queue(logs: Logs, words: List[int]) -> List[str]:
    """Each value that was put is taken once at most, and lost only with a process that was killed while it took some; values leave
    in the order in which they came; and a put that died has put all of its values or none."""
    puts = [call for call in calls_of(logs, ["put"]) if not call.told or call.answer]
    takes = [call for call in calls_of(logs, ["take"]) if call.told]
    lost_at_most = sum(call.asked[2] for call in calls_of(logs, ["take"]) if not call.told)
    taken = [value for call in takes for value in call.answer]
    left = [words[QUEUE_AT + 2 + number % ROOM] for number in range(words[QUEUE_AT], words[QUEUE_AT + 1])]
    known = set(taken) | set(left)
    faults: List[str] = []
    if len(taken) + len(left) != len(known):
        faults.append(f"{len(taken) + len(left) - len(known)} values were taken twice, or were taken and are left")
    strange = known - {value for call in puts for value in call.asked[2]}
    if strange:
        faults.append(f"{sorted(strange)} were taken, and never put, or told as not put")
    lost = [value for call in puts if call.told for value in call.asked[2] if value not in known]
    if len(lost) > lost_at_most:
        faults.append(f"{len(lost)} values are lost, and those who were killed had asked for {lost_at_most} at most")
    print(f"  {len(taken)} values taken, {len(left)} left, {len(lost)} lost by processes that were killed")
    return faults + _halves(puts, known, lost_at_most - len(lost)) + _disorder(puts, takes)


def _halves(puts: List[Call], known: Set[int], lost_at_most: int) -> List[str]:
    """A line if calls that died have put more values by halves than processes that were killed can have taken."""
    halves = [sum(value not in known for value in call.asked[2]) for call in puts
              if not call.told and any(value in known for value in call.asked[2])]
    if sum(halves) <= lost_at_most:
        return []
    return [f"{sum(halves)} values of calls that died are missing, beside others of these calls"]


def _disorder(puts: List[Call], takes: List[Call]) -> List[str]:
    """A line for each value that left before one that had come earlier: its taking ended before the other's began."""
    taken_by = {value: call for call in takes for value in call.answer}
    each = [(put, taken_by[value]) for put in puts for value in put.asked[2] if value in taken_by]
    by_end, faults, latest, at = sorted(each, key=lambda pair: pair[0].end), [], 0, 0
    for put, take in sorted(each, key=lambda pair: pair[0].begin):
        while by_end[at][0].end < put.begin:
            latest, at = max(latest, by_end[at][1].begin), at + 1
        if take.end < latest:
            faults.append(f"the values {put.asked[2]} were taken before some that had been put before")
    return faults


def check_counter(logs: Logs, words: List[int]) -> List[str]:
    """No two additions told the same number; one that began after another had ended told more; and the last number is as many as
    were told, and perhaps some of those that died."""
    calls = list(calls_of(logs, ["add"]))
    made = sorted((call for call in calls if call.told and call.told[1] == "told"), key=lambda call: int(call.answer))
    faults: List[str] = []
    latest = 0
    for one, other in zip(made, made[1:]):
        latest = max(latest, one.begin)
        if one.answer == other.answer:
            faults.append(f"two additions told {one.answer}")
        if other.end < latest:
            faults.append(f"{other.answer} was told before an addition began that told less")
    number, open_ones = words[COUNTER_AT], len(calls) - len(made)
    if not len(made) <= number <= len(made) + open_ones:
        faults.append(f"{len(made)} additions were told, {open_ones} were not, and the number is {number}")
    print(f"  {len(made)} additions, {number - len(made)} more of {open_ones} that were not told")
    return faults


def check_wide(logs: Logs, words: List[int]) -> List[str]:
    """No value is of two halves; each version has one value, which its writer put; and who reads after a change sees it."""
    reads = [call for call in calls_of(logs, ["get"]) if call.told]
    replaced = [call for call in calls_of(logs, ["replace"]) if call.told and call.answer]
    faults = [f"a value of two halves: {call.told[3]}" for call in reads if call.told and not call.told[4]]
    values: Dict[int, str] = {0: ""}
    for call in replaced:
        if call.asked[2] + 1 in values:
            faults.append(f"version {call.asked[2] + 1} was put twice")
        values[call.asked[2] + 1] = call.asked[3]
    read = [(call.answer, call.told[3]) for call in reads if call.told]
    faults += [f"version {version} was put as {values[version]} and read as {text}"
               for version, text in read if values.get(version, text) != text]
    seen = [(call.end, call.asked[2] + 1, False) for call in replaced] + [(call.end, call.answer, False) for call in reads]
    events = sorted(seen + [(call.begin, call.answer, True) for call in reads])
    latest = 0
    for _, version, is_read in events:
        if is_read and version < latest:
            faults.append(f"version {version} was read after {latest} was there")
        latest = max(latest, 0 if is_read else version)
    if words[WIDE_AT] >> 8 < latest:
        faults.append(f"the version is {words[WIDE_AT] >> 8}, and {latest} was there")
    print(f"  {len(reads)} reads, {len(replaced)} changes")
    return faults
