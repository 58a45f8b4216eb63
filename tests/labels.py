#!/usr/bin/env python3
"""Labels as bytes, and totals, beside Dijkstra's algorithm: tests/labels.py PROGRAM COUNT.

Each job is answered with --labels raw and with --totals, on the graphs of targets.py: by 1, 2 and 4 workers, distances
and levels, sources and pairs, with arcs added and without. Each answer is compared with what is worked out there. COUNT
jobs are drawn of each kind of graph. It prints the seed and the kind of the first job whose answer is wrong, and the
status is 1 then.
"""

import random
import struct
import subprocess
import sys

from targets import KINDS, costs_from, random_arcs

NONE = 2**64 - 1


def raw(n, source, costs):
    """The line of a source, and the bytes of its labels."""
    return b"s %d\n" % (source + 1) + struct.pack(f"<{n}Q", *(costs.get(v, NONE) for v in range(n)))


def totals(n, source, costs):
    """The line of a source."""
    farthest = min(costs, key=lambda v: (-costs[v], v))
    numbers = source + 1, len(costs), sum(costs.values()), costs[farthest], farthest + 1
    return b"t %d %d %d %d %d\n" % numbers


def pair(source, target, costs):
    """The line of a pair."""
    return f"q {source + 1} {target + 1} {costs.get(target, 'inf')}\n".encode("ascii")


def drawn(kind, seed):
    """A job, the words of the command line, and the answer with raw labels and that of totals."""
    draw = random.Random(f"{kind} labels {seed}")
    n = draw.choice((1, 30, 150))
    arcs = [arc for arc in KINDS[kind](draw, n) if arc[1] < n]
    added = random_arcs(draw, n)[: draw.randrange(1, 4)] if seed % 5 < 2 else []
    sources = [draw.randrange(n) for _ in range(draw.choice((1, 2, 4)))]
    targets = [draw.randrange(n) for _ in sources]
    lines = [f"p sp {n} {len(arcs)}"] + [f"a {u + 1} {v + 1} {w}" for u, v, w in arcs]
    has_pairs, levels = draw.random() < 0.2, draw.random() < 0.3
    if has_pairs:
        lines += [f"p aux sp p2p {len(sources)}"] + [f"q {s + 1} {t + 1}" for s, t in zip(sources, targets)]
    else:
        lines += [f"p aux sp ss {len(sources)}"] + [f"s {s + 1}" for s in sources]
    if added:
        lines += [f"p aux sp add {len(added)}"] + [f"a {u + 1} {v + 1} {w}" for u, v, w in added]
    graphs = [arcs, arcs + added] if added else [arcs]
    if levels:
        graphs = [[(u, v, 1) for u, v, _ in along] for along in graphs]
    answers = []
    for form in (raw, totals):
        parts = []
        for s, t in zip(sources, targets):
            known = [costs_from(n, along, s) for along in graphs]
            blocks = [pair(s, t, costs) if has_pairs else form(n, s, costs) for costs in known]
            parts.append(f"g {len(added)}\n".encode("ascii").join(blocks))
        answers.append(b"".join(parts))
    words = ["--workers", str((1, 2, 4)[seed % 3]), "--shift", ("auto", "0", "4", "20")[seed % 4]]
    words += ["--answer", "levels"] if levels else []
    return "\n".join(lines).encode("ascii") + b"\n", words, answers


def main():
    program, count = sys.argv[1], int(sys.argv[2])
    for kind in KINDS:
        for seed in range(count):
            job, words, answers = drawn(kind, seed)
            for form, want in zip((["--labels", "raw"], ["--totals"]), answers):
                ended = subprocess.run([program] + words + form, input=job, capture_output=True, check=False)
                if (ended.returncode, ended.stdout) != (0, want):
                    words += form
                    sys.exit(f"{kind}, seed {seed}: {' '.join(words)}: status {ended.returncode}, another answer")


if __name__ == "__main__":
    main()
