#!/usr/bin/env python3
"""Walks of pairs beside their definition: tests/walks.py PROGRAM PAIRS.

At least so many pairs are drawn, a sixth on graphs of each of six kinds, with weights of 0 and many walks of one cost.
In most graphs all vertices are near. In the others far pairs go from both ends, by landmarks or by workers. Each job is
answered by 1 to 4 workers: without landmarks, with some, and with a hierarchy from the start. A walk has the fewest arcs
of all of least cost, and before each vertex the least one that fits. It prints the seed and the kind of the first job
whose answer is wrong, and the status is 1 then.
"""

import random
import subprocess
import sys

from targets import costs_from

OPTIONS = (["--landmarks", "0", "--hierarchy", "no"], ["--landmarks", "2", "--hierarchy", "no"], ["--hierarchy", "now"])


def anywhere(draw, n, weight):
    """Four arcs a vertex, anywhere, some of them from a vertex to itself or side by side."""
    return [(draw.randrange(n), draw.randrange(n), weight()) for _ in range(4 * n)]


def hubs(draw, n, weight):
    """A few vertices have most of the arcs."""
    end = lambda: int(n * draw.random() ** 3)
    return [(end(), end(), weight()) for _ in range(4 * n)]


def streets(draw, n, weight):
    """Streets both ways between crossings side by side, a tenth of which are cut."""
    side = max(int(n**0.5), 1)
    ends = [(v, v + 1) for v in range(n - 1) if v % side < side - 1] + [(v, v + side) for v in range(n - side)]
    return [(u, v, weight()) for a, b in ends for u, v in ((a, b), (b, a)) if draw.random() < 0.9]


def ladder(draw, n, weight):
    """A path of arcs both ways, with arcs over one vertex and over two."""
    over = [(v, v + step, step) for v in range(n - 3) for step in (1, 2, 3)]
    return [(u, v, step * weight()) for a, b, step in over for u, v in ((a, b), (b, a)) if draw.random() < 0.8]


KINDS = {
    "anywhere": (anywhere, (0, 1, 1, 2, 3)),
    "anywhere, most free": (anywhere, (0, 0, 0, 1)),
    "hubs": (hubs, (0, 1, 1, 2, 5)),
    "streets": (streets, (0, 1, 2, 3, 4)),
    "streets that cost the same": (streets, (1,)),
    "ladder": (ladder, (0, 1, 1)),
}


class Walks:
    """The walks from a source, by tight arcs."""

    def __init__(self, n, arcs, source):
        self.source = source
        self.costs = costs_from(n, arcs, source)
        self.tails = {}
        heads = {}
        for tail, head, weight in arcs:
            if tail in self.costs and self.costs[tail] + weight == self.costs[head]:
                self.tails.setdefault(head, []).append(tail)
                heads.setdefault(tail, []).append(head)
        self.fewest = {source: 0}
        layer = [source]
        while layer:
            following = {head for tail in layer for head in heads.get(tail, ()) if head not in self.fewest}
            self.fewest.update({head: self.fewest[layer[0]] + 1 for head in following})
            layer = list(following)

    def lines(self, target):
        """The lines of a pair."""
        line = f"q {self.source + 1} {target + 1} "
        if target not in self.costs:
            return [line + "inf"]
        walk, cost = [target], self.costs[target]
        while walk[-1] != self.source:
            nearer = self.fewest[walk[-1]] - 1
            walk.append(min(tail for tail in self.tails[walk[-1]] if self.fewest[tail] == nearer))
        return [f"{line}{cost}", f"w {target + 1} {cost} {' '.join(str(v + 1) for v in reversed(walk))}"]


def drawn(kind, seed):
    """A job, the words of its command lines, its answer, and the number of its pairs."""
    draw = random.Random(f"{kind} walks {seed}")
    shape, weights = KINDS[kind]
    n = draw.choice((4, 12, 12, 30, 30, 60, 60, 120, 200, 1500))
    arcs = shape(draw, n, lambda: draw.choice(weights))
    draw.shuffle(arcs)
    pairs = []
    for _ in range(draw.choice((1, 8, 80))):
        source = draw.randrange(n)
        pairs += [(source, draw.randrange(n)) for _ in range(draw.choice((1, 2, 5)))]
    lines = [f"p sp {n} {len(arcs)}"] + [f"a {u + 1} {v + 1} {w}" for u, v, w in arcs]
    lines += [f"p aux sp p2p {len(pairs)}"] + [f"q {s + 1} {t + 1}" for s, t in pairs]
    known = {s: Walks(n, arcs, s) for s in {s for s, _ in pairs}}
    answer = [line for s, t in pairs for line in known[s].lines(t)]
    words = [["--walks", "--workers", str(1 + (seed + at) % 4), *more] for at, more in enumerate(OPTIONS)]
    return "\n".join(lines) + "\n", words, "\n".join(answer) + "\n", len(pairs)


def main():
    program, wanted = sys.argv[1], int(sys.argv[2])
    for kind in KINDS:
        count = seed = 0
        while count < wanted / len(KINDS):
            job, words, want, pairs = drawn(kind, seed)
            for more in words:
                ended = subprocess.run([program, *more], input=job, capture_output=True, text=True, check=False)
                if (ended.returncode, ended.stdout) != (0, want):
                    sys.exit(f"{kind}, seed {seed}: {' '.join(more)}: status {ended.returncode}, another answer")
            count += pairs
            seed += 1


if __name__ == "__main__":
    main()
