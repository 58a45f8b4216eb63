"""How much memory is left: of the machine, and of the groups of Linux that a process is in."""

import os
import tempfile
import unittest

from common import Case

from hollowbowl import _memory

MACHINE = {"proc/meminfo": "MemTotal:       9000 kB\nMemAvailable:       4000 kB\n"}
FOUR = 4000 << 10
# The files of a machine, and the bytes that are left.
ROWS = [
    ({}, None),
    (MACHINE, FOUR),
    # A group of version 2, those around it, and a limit that is none.
    ({**MACHINE, "proc/self/cgroup": "0::/a/b\n"}, FOUR),
    (
        {
            **MACHINE,
            "proc/self/cgroup": "0::/a/b\n",
            "sys/fs/cgroup/a/memory.max": "3000000\n",
            "sys/fs/cgroup/a/memory.current": "1000000\n",
            "sys/fs/cgroup/a/memory.stat": "anon 7\ninactive_file 500000\nactive_file 9\n",
            "sys/fs/cgroup/a/b/memory.max": "max\n",
            "sys/fs/cgroup/a/b/memory.current": "900000\n",
        },
        2500000,
    ),
    # In a container its own group is the uppermost, under whatever path it stands outside.
    (
        {
            **MACHINE,
            "proc/self/cgroup": "0::/../../docker/x\n",
            "sys/fs/cgroup/memory.max": "2000000\n",
            "sys/fs/cgroup/memory.current": "2500000\n",
        },
        0,
    ),
    # Version 1 beside other controllers.
    (
        {
            **MACHINE,
            "proc/self/cgroup": "5:cpu,cpuacct:/x\n4:memory:/x\n1:name=systemd:/x\n",
            "sys/fs/cgroup/memory/x/memory.limit_in_bytes": "1000000\n",
            "sys/fs/cgroup/memory/x/memory.usage_in_bytes": "400000\n",
            "sys/fs/cgroup/memory/x/memory.stat": "inactive_file 1\ntotal_inactive_file 100000\n",
        },
        700000,
    ),
    ({"proc/self/cgroup": "0::/\n", "sys/fs/cgroup/memory.max": "5\n", "sys/fs/cgroup/memory.current": "x\n"}, None),
]


class Memory(Case):
    def test_table(self):
        for files, wanted in ROWS:
            with tempfile.TemporaryDirectory() as root:
                for name, text in files.items():
                    path = os.path.join(root, name)
                    os.makedirs(os.path.dirname(path), exist_ok=True)
                    with open(path, "w", encoding="ascii") as file:
                        file.write(text)
                self.assertEqual(_memory.bytes_left(root), wanted, files)

    def test_this_machine(self):
        self.assertGreater(_memory.bytes_left(), 0)


if __name__ == "__main__":
    unittest.main()
