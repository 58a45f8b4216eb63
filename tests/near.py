#!/usr/bin/env python3
"""Near vertices in a session, beside whole rows: tests/near.py PROGRAM COUNT.

Sessions with walks on graphs of several shapes: a grid, one with free arcs, random arcs, a few hubs, and a long path.
In each one COUNT questions in random order, of pairs with and without walks, of several pairs of one source, and
within bounds, near ones and far ones. Between them arcs are added, close, slow down and are again as they were; two
sessions choose landmarks after a few far pairs, and one makes a hierarchy at first and after each change. What is expected comes from whole rows of the sources, which
workers give: a request for all lines of a source is never searched. The same by a job with many sources of pairs. It
prints what is wrong first, and the status is 1 then.
"""

import random
import subprocess
import sys

SOURCES = 12


def wrong(text):
    """Prints what is wrong, and ends with status 1."""
    print(text, file=sys.stderr)
    sys.exit(1)


class Session:
    """The program with its two pipes."""

    def __init__(self, program, graph, *options):
        self.process = subprocess.Popen([program, "--session", *options], stdin=subprocess.PIPE, stdout=subprocess.PIPE)
        self.ask(graph)

    def ask(self, request):
        """Writes a request, and reads the lines of its reply, without the last."""
        self.process.stdin.write(request.encode())
        self.process.stdin.flush()
        lines = []
        while True:
            line = self.process.stdout.readline().decode()
            if not line:
                wrong(f"the session ended at {request!r}")
            if line.startswith("e "):
                wrong(f"{line!r} for {request!r}")
            if line.startswith("r "):
                return lines
            lines.append(line)

    def close(self):
        """Ends it."""
        self.process.stdin.close()
        self.process.stdout.close()
        self.process.wait()


def grid(draw, side, least):
    """Streets both ways between crossings in a square."""
    at = lambda x, y: x * side + y + 1
    ends = [(at(x, y), at(x, y + 1)) for x in range(side) for y in range(side - 1)]
    ends += [(at(x, y), at(x + 1, y)) for x in range(side - 1) for y in range(side)]
    both = [pair for a, b in ends for pair in ((a, b), (b, a))]
    return side * side, [(a, b, draw.randint(least, 9)) for a, b in both if draw.random() < 0.97]


def anywhere(draw, n, count):
    """Arcs from anywhere to anywhere."""
    return n, [(draw.randint(1, n), draw.randint(1, n), draw.randint(0, 50)) for _ in range(count)]


def hubs(draw, n, count):
    """Arcs most of which lead to and from a few vertices."""
    end = lambda: min(int(draw.paretovariate(0.4)), n)
    return n, [(end(), draw.randint(1, n), draw.randint(1, 20)) for _ in range(count)] + [
        (draw.randint(1, n), end(), draw.randint(1, 20)) for _ in range(count)
    ]


def path(draw, n):
    """One vertex after another."""
    return n, [(v, v + 1, draw.choice([0, 1, 4294967295])) for v in range(1, n)]


def graph_text(n, arcs):
    """The graph as a job begins."""
    return f"p sp {n} {len(arcs)}\n" + "".join(f"a {a} {b} {w}\n" for a, b, w in arcs)


def rows_of(session, sources):
    """For each source its costs and walks by vertex, from whole rows."""
    rows = {}
    for line in session.ask(f"p aux sp ss {len(sources)}\n" + "".join(f"s {s}\n" for s in sources)):
        letter, *fields = line.split()
        if letter == "s":
            row = rows[int(fields[0])] = ({}, {})
        elif letter == "d":
            row[0][int(fields[0])] = fields[1]
        else:
            row[1][int(fields[0])] = line
    return rows


def question(draw, n, rows):
    """A request, and the lines of its reply."""
    kind, source = draw.random(), draw.choice(list(rows))
    costs, walks = rows[source]
    near = sorted((int(cost), v) for v, cost in costs.items() if cost != "inf")
    some = lambda: near[min(int(draw.expovariate(20 / len(near))), len(near) - 1)][1] if draw.random() < 0.7 else draw.randint(1, n)
    if kind < 0.3:
        bound = near[min(int(draw.expovariate(20 / len(near))), len(near) - 1)][0]
        lines = [f"s {source}\n"]
        for v in sorted(costs):
            if costs[v] != "inf" and int(costs[v]) <= bound:
                lines += [f"d {v} {costs[v]}\n", walks[v]]
        return f"p aux sp within {bound} 1\ns {source}\n", lines
    targets = [some() for _ in range(1 if kind < 0.8 else draw.randint(2, 9) if kind < 0.97 else 20)]
    pairs = [(s, t) for s in ([source] if len(targets) < 20 else rows) for t in targets]
    lines = []
    for s, t in pairs:
        costs, walks = rows[s]
        lines += [f"q {s} {t} {costs[t]}\n"] + ([walks[t]] if t in walks else [])
    return f"p aux sp p2p {len(pairs)}\n" + "".join(f"q {s} {t}\n" for s, t in pairs), lines


def without_walks(lines):
    """The lines but for those of walks."""
    return [line for line in lines if not line.startswith("w")]


def arcs_text(words, arcs):
    """A request with these arcs."""
    return f"p aux sp {words} {len(arcs)}\n" + "".join(f"a {a} {b} {w}\n" for a, b, w in arcs)


def changes(draw, n, arcs):
    """Requests that change a graph, and its arcs after them: new ones, some that close, some that slow down, all of these
    as they were, and new ones again. Landmarks outlive but the new ones."""
    new = lambda: [(draw.randint(1, n), draw.randint(1, n), draw.randint(0, 9)) for _ in range(draw.randint(1, 5))]
    added = new()
    arcs = arcs + added
    yield [arcs_text("add", added)], arcs
    ends = sorted({arc[:2] for arc in draw.sample(arcs, min(len(arcs), draw.randint(2, 40)))})
    closed, slowed = set(ends[::2]), set(ends[1::2])
    gone = [arc for arc in arcs if arc[:2] in closed]
    left = [arc for arc in arcs if arc[:2] not in closed]
    yield [f"p aux sp cut {len(closed)}\n" + "".join(f"q {a} {b}\n" for a, b in closed)], left
    before = [arc for arc in left if arc[:2] in slowed]
    slower = [(a, b, min(2 * w + 1, 4294967295)) for a, b, w in before]
    others = [arc for arc in left if arc[:2] not in slowed]
    yield [arcs_text("set", slower)], others + slower
    yield [arcs_text("add", gone), arcs_text("set", before)], others + before + gone
    added = new()
    yield [arcs_text("add", added)], others + before + gone + added


def check(program, name, n, arcs, count, seed):
    """One session, whose arcs change five times, and a job of its pairs in each graph."""
    draw = random.Random(seed)
    after = changes(draw, n, arcs)
    walked = Session(program, graph_text(n, arcs), "--walks", "--workers", draw.choice("124"))
    plain = Session(program, graph_text(n, arcs), "--workers", draw.choice("12"), "--landmarks", "0")
    guided = Session(program, graph_text(n, arcs), "--workers", draw.choice("124"), "--landmarks", draw.choice("123"))
    above = Session(program, graph_text(n, arcs), "--workers", draw.choice("124"), "--hierarchy", "now")
    few = Session(program, graph_text(n, arcs), "--walks", "--workers", draw.choice("12"), "--landmarks", draw.choice("123"))
    for part in range(6):
        if part:
            requests, arcs = next(after)
            for session in (walked, few, plain, guided, above):
                for request in requests:
                    session.ask(request)
        rows = rows_of(walked, draw.sample(range(1, n + 1), min(SOURCES, n)))
        pairs = []
        for _ in range(count // 6):
            request, lines = question(draw, n, rows)
            costs = without_walks(lines)
            for session, wanted in ((walked, lines), (few, lines), (plain, costs), (guided, costs), (above, costs)):
                found = session.ask(request)
                if found != wanted:
                    wrong(f"{name}, seed {seed}: {request!r} gives {found[:4]}, and not {wanted[:4]}")
            if request.startswith("p aux sp p2p"):
                pairs.append((request.split("\n", 1)[1], lines))
        check_job(program, name, graph_text(n, arcs), pairs, draw)
    for session in (walked, few, plain, guided, above):
        session.close()


def check_job(program, name, graph, pairs, draw):
    """The pairs of a part as one job, in which sources follow one another in no order."""
    draw.shuffle(pairs)
    asked = "".join(text for text, _ in pairs)
    job = f"{graph}p aux sp p2p {asked.count('q')}\n{asked}"
    few = ["--landmarks", draw.choice("12")]
    above, plain = ["--hierarchy", "now"], ["--hierarchy", "no"]
    for options in (["--landmarks", "0"], [*plain, *few], above, ["--walks"], ["--walks", *few], ["--walks", *above]):
        wanted = "".join(line for _, lines in pairs for line in (lines if "--walks" in options else without_walks(lines)))
        command = [program, "--workers", str(draw.choice([1, 2, 4])), *options]
        found = subprocess.run(command, input=job.encode(), stdout=subprocess.PIPE, check=True).stdout.decode()
        if found != wanted:
            wrong(f"{name}: a job of {asked.count('q')} pairs by {command[1:]} gives other lines")


def main():
    """All shapes."""
    program, count = sys.argv[1], int(sys.argv[2])
    draw = random.Random(7)
    shapes = {
        "grid": grid(draw, 60, 1),
        "grid with free arcs": grid(draw, 60, 0),
        "random": anywhere(draw, 5000, 20000),
        "hubs": hubs(draw, 5000, 10000),
        "path": path(draw, 3000),
        "small": anywhere(draw, 30, 60),
    }
    for seed, (name, (n, arcs)) in enumerate(shapes.items()):
        check(program, name, n, arcs, count, seed)


if __name__ == "__main__":
    main()
