"""How much memory is left, as Linux tells it: on the machine, and for the groups that this process is in.

A container is such a group. It may have less than the machine.
"""

import os

# By the version of groups: where they stand below /sys/fs/cgroup, the files of the limit and of what is taken, and the
# entry of memory.stat with what is taken for files and would be given back.
_FILES = {
    2: ("", "memory.max", "memory.current", "inactive_file"),
    1: ("memory", "memory.limit_in_bytes", "memory.usage_in_bytes", "total_inactive_file"),
}


def bytes_left(root="/"):
    """The least of what is left, in bytes; None if nothing is told. Files are looked for below a root."""
    found = [_of_machine(root), *_of_groups(root)]
    return min((left for left in found if left is not None), default=None)


def _of_machine(root):
    left = _entry(os.path.join(root, "proc/meminfo"), "MemAvailable:")
    return None if left is None else left << 10


def _of_groups(root):
    """What is left for each group, and for those around it."""
    for line in _lines(os.path.join(root, "proc/self/cgroup")):
        _, _, rest = line.partition(":")
        controllers, _, path = rest.partition(":")
        if controllers and "memory" not in controllers.split(","):
            continue
        place, *files = _FILES[1 if controllers else 2]
        folder = os.path.join(root, "sys/fs/cgroup", place)
        # Where a container has groups of its own, its group is the uppermost that it sees.
        names = [name for name in path.split("/") if name and ".." not in path]
        for count in range(len(names) + 1):
            yield _of_group(os.path.join(folder, *names[:count]), *files)


def _of_group(folder, limit, taken, given_back):
    limit, taken = (_number(_lines(os.path.join(folder, name))) for name in (limit, taken))
    if limit is None or taken is None:
        return None
    return max(0, limit - taken + (_entry(os.path.join(folder, "memory.stat"), given_back) or 0))


def _entry(path, name):
    """The number of an entry of a file with lines of names and numbers."""
    return next((_number(words[1:]) for words in map(str.split, _lines(path)) if words[:1] == [name]), None)


def _number(words):
    """The number that comes first; None for `max`, and if there is none."""
    return int(words[0]) if words and words[0].isdigit() else None


def _lines(path):
    try:
        with open(path, encoding="ascii", errors="replace") as file:
            return file.read().splitlines()
    except OSError:
        return []
