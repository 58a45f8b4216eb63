"""How far a build is, for a person."""

import sys
import time

from crates import longest_ways


class Progress:
    """What is proved of a program's crates, and when that began."""

    def __init__(self, crates):
        self.crates, self.began = crates, time.monotonic()
        # What this run has proved, and has not to prove.
        self.proved, self.left_out = set(), set()

    def leave_out(self, name):
        """Notes that a crate was proved before."""
        self.left_out.add(name)

    def tell(self, name, queue):
        """Says that a crate is proved, how many are, and about how long the others take."""
        self.proved.add(name)
        proved = self.proved | self.left_out
        done = sum(self.crates[each].functions for each in proved)
        of_all = sum(each.functions for each in self.crates.values())
        minutes = max(round(self.seconds_left(queue) / 60), 1)
        print(
            f"obim_query: {name} is proved: {len(proved)} of {len(self.crates)} crates,"
            f" {done:,} of {of_all:,} functions, about {minutes} minute{'s' * (minutes > 1)} left",
            file=sys.stderr,
            flush=True,
        )

    def seconds_left(self, queue):
        """Returns about how many seconds the rest takes, by the table and by how long what is done took.

        That is in ratio to the work, or to the longest way, whichever is further from its end.
        """
        crates = {name: crate for name, crate in self.crates.items() if name not in self.left_out}
        left = [crate for name, crate in crates.items() if name not in self.proved]
        begun = sum(queue.seconds_begun().values())
        work = sum(each.seconds for each in crates.values())
        work_left = sum(each.seconds for each in left) - begun
        way, way_left = max(longest_ways(crates).values()), queue.longest_way_left()
        parts = [(work_left, work), (way_left, way)]
        ratio = max(rest / (whole - rest) for rest, whole in parts if rest < whole)
        return ratio * (time.monotonic() - self.began)
