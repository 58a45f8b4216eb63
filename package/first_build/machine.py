"""The processors and the memory that this process may use, also within the limits of a control group."""

import os
import re

# A quota of processor time and its period, as `cpu.max` and the older pair of files say them.
QUOTAS = [
    ("/sys/fs/cgroup/cpu.max", r"^(\d+)", "/sys/fs/cgroup/cpu.max", r" (\d+)"),
    ("/sys/fs/cgroup/cpu/cpu.cfs_quota_us", r"^(\d+)", "/sys/fs/cgroup/cpu/cpu.cfs_period_us", r"(\d+)"),
]
# The limit of memory, and what of it cannot be given back.
LIMITS = [
    ("/sys/fs/cgroup/memory.max", r"^(\d+)", "/sys/fs/cgroup/memory.stat", r"anon (\d+)"),
    ("/sys/fs/cgroup/memory/memory.limit_in_bytes", r"^(\d+)", "/sys/fs/cgroup/memory/memory.stat", r"total_rss (\d+)"),
]


def read_number(path, pattern):
    """Returns the number that a pattern finds in a file, or None."""
    try:
        with open(path, encoding="utf-8") as file:
            return int(re.search(pattern, file.read())[1])
    except (OSError, TypeError):
        return None


def count_processors():
    """Returns how many processors there are for this process."""
    count = len(os.sched_getaffinity(0))
    for path, pattern, period_path, period_pattern in QUOTAS:
        quota, period = read_number(path, pattern), read_number(period_path, period_pattern)
        if quota and period:
            count = min(count, max(quota // period, 1))
    return count


def free_memory():
    """Returns the bytes of memory that this process may still take; none are known where the system does not tell."""
    free = [1024 * (read_number("/proc/meminfo", r"MemAvailable:\s+(\d+)") or 0)]
    for path, pattern, held_path, held_pattern in LIMITS:
        limit, held = read_number(path, pattern), read_number(held_path, held_pattern)
        if limit and held is not None:
            free.append(max(limit - held, 0))
    return min(free)
