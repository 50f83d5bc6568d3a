"""How many processors there are for this process."""

import os
from contextlib import suppress
from pathlib import Path

QUOTA = Path("/sys/fs/cgroup/cpu.max")
"""Of a container: microseconds of processor time, or `max`, and in how many microseconds it may take these."""


def processors() -> int:
    """The processors that this process may run on, or fewer, where a container has a share of them. At least 1."""
    count = len(os.sched_getaffinity(0))
    with suppress(OSError, ValueError, ZeroDivisionError):
        quota, period = QUOTA.read_text().split()
        count = min(count, -(-int(quota) // int(period)))
    return max(count, 1)
