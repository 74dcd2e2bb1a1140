"""Leases without clocks that agree: who waits takes over what it has itself seen unchanged for the whole lease.

The holder counts its lease from before it read the words that its change expects, a renewed one from before it asked. A waiter counts
from the return of its first reading. So the holder stops before any waiter goes on. The clocks need the same speed, up to 1%.

Used by: `locks`, `registry`.
"""
import time
from typing import Dict, Tuple

from .._protocol import seconds_of
from ._base import in_range

UNIT = 0.01
"""The seconds of a unit of a lease."""
UNIT_BITS = 16
ROUNDING = 1e-6
"""By how much a fraction may be below the unit that it stands for."""
MOST_UNITS: int = 2 ** UNIT_BITS - 1
CLOCKS = 1.01
"""By how much longer than a lease its waiters wait, for clocks of another speed."""


def units_of(lease: float) -> int:
    """A lease in its units, rounded down; what is a unit up to the error of a fraction stays one."""
    return in_range("a lease in units of 10 ms", int(seconds_of("lease", lease, False) / UNIT + ROUNDING), 1, MOST_UNITS)


class Watch:
    """Since when each of several leases is seen in its state, of two words of which no state comes back."""

    def __init__(self) -> None:
        self._seen: Dict[int, Tuple[Tuple[int, int], float]] = {}

    def is_over(self, number: int, state: Tuple[int, int]) -> bool:
        """Whether the lease of this number is nobody's, or was seen in this state for its whole time. The state has just been read,
        its first word before the second, which is 0 or has the lease in its lowest bits."""
        now, holder = time.monotonic(), state[1]
        if not holder:
            return True
        if number not in self._seen or self._seen[number][0] != state:
            self._seen[number] = state, now
        return now >= self._seen[number][1] + (holder & MOST_UNITS) * UNIT * CLOCKS
