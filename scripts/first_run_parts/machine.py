"""What this machine has to give: processors and free memory, under the limits of a control group too.

Used by: scripts/check-wrong-bodies, scripts/gate-cost, course.py, example.py, proving.py, library_parts/building.py. It looks as `processors` and
`free` of the installed kit's `rt` do.
"""
import os
import re
from pathlib import Path
from typing import List, Optional

MEGABYTE = 1_000_000
LARGEST_SHARE_OF_KIT = 2500 * MEGABYTE

QUOTAS = [
    ("/sys/fs/cgroup/cpu.max", ("/sys/fs/cgroup/cpu.max", r" (\d+)")),
    ("/sys/fs/cgroup/cpu/cpu.cfs_quota_us", ("/sys/fs/cgroup/cpu/cpu.cfs_period_us", r"(\d+)")),
]
"""Where a control group's quota of time is, and its period."""
LIMITS = [
    ("/sys/fs/cgroup/memory.max", ("/sys/fs/cgroup/memory.stat", r"anon (\d+)")),
    ("/sys/fs/cgroup/memory/memory.limit_in_bytes", ("/sys/fs/cgroup/memory/memory.stat", r"total_rss (\d+)")),
]
"""Where a control group's limit of memory is, and what it holds."""


def number_in(path: str, pattern: str) -> Optional[int]:
    """The first number that the file has at the pattern."""
    try:
        found = re.search(pattern, Path(path).read_text(encoding="utf-8"))
    except OSError:
        return None
    return int(found[1]) if found else None


def processors() -> int:
    """How many processors this process may use."""
    found = len(os.sched_getaffinity(0))
    for path, period in QUOTAS:
        quota, each = number_in(path, r"^(\d+)"), number_in(*period)
        if quota and each:
            found = min(found, max(quota // each, 1))
    return found


def free_memory() -> int:
    """How many bytes of memory are free."""
    found: List[int] = [1024 * (number_in("/proc/meminfo", r"MemAvailable:\s+(\d+)") or 0)]
    for path, held in LIMITS:
        limit, used = number_in(path, r"(\d+)"), number_in(*held)
        if limit and used is not None:
            found.append(limit - used)
    return min(found)


def size_of_libraries(kit: Path, names: List[str]) -> int:
    """How many bytes of memory these libraries of the kit take in a check."""
    files = [kit / "rlibs" / f"{name}.rlib" / "toolchain" / "checked.a" for name in names]
    return min(sum(5 * path.stat().st_size for path in files if path.is_file()), LARGEST_SHARE_OF_KIT)
