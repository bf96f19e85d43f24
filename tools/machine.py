"""What the machine has for this process."""

import os
import re
from contextlib import suppress
from pathlib import Path


def processors() -> int:
    """How many processors there are: those that the process may run on, or fewer by the quota of its control group."""
    found = len(os.sched_getaffinity(0))
    with suppress(OSError, ValueError):
        quota, period = map(int, Path("/sys/fs/cgroup/cpu.max").read_text().split())  # a quota may be the word max
        found = min(found, max(1, quota // period))
    return found


def free_memory() -> int:
    """How many bytes of memory are free."""
    found = re.search(r"MemAvailable: *(\d+)", Path("/proc/meminfo").read_text())
    assert found is not None
    return 1024 * int(found[1])
