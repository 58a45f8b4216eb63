#!/usr/bin/env python3
"""Random sessions beside a model of them in Python: tests/session_model.py PROGRAM COUNT.

COUNT requests of all heads and options, right and wrong ones, as `session_jobs.py` draws them, in sessions of up to 100.
The model works out each reply by least costs from arc to arc, and knows nothing of the program. Each session is written
whole: with its input closed, and with its input left open until its last reply has come. It prints what is wrong first,
and the status is 1 then.
"""

import itertools
import random
import struct
import sys

import session_jobs
from session_jobs import FAR, LETTERS, head_of, in_pieces, records, run, wrong


class Model:
    """A session: its graph, and the options that say how requests without words are answered."""

    def __init__(self, n, arcs, answer, lines):
        self.n, self.arcs, self.answer = n, arcs, answer
        self.walks, self.raw, self.totals = ("--" + word in lines for word in ("walks", "labels=raw", "totals"))
        self.bound = 6 if "--within=6" in lines else None

    def ready(self, text):
        """The last line of the reply to the last request of a text."""
        return f"r {self.n} {len(self.arcs)} {text.count(chr(10))}\n"

    def block(self):
        """The components: for each vertex the least that arcs join to it."""
        label = list(range(self.n + 1))
        for _ in range(self.n):
            for tail, head, _ in self.arcs:
                label[tail] = label[head] = min(label[tail], label[head])
        return "".join(f"k {vertex} {label[vertex]}\n" for vertex in range(1, self.n + 1))

    def labels(self, source, kind):
        """For each vertex the least cost and the fewest arcs of such a walk."""
        found = {source: (0, 0)}
        for _ in range(self.n):
            for tail, head, weight in self.arcs:
                if tail in found:
                    cost = found[tail][0] + (1 if kind == "levels" else weight), found[tail][1] + 1
                    found[head] = min(found.get(head, cost), cost)
        return found

    def walk(self, found, kind, vertex):
        """The vertices of the walk: before each the least that fits."""
        walk = [vertex]
        while found[walk[-1]][1]:
            cost, arcs = found[walk[-1]]
            fits = [
                tail
                for tail, head, weight in self.arcs
                if head == walk[-1] and found.get(tail) == (cost - (1 if kind == "levels" else weight), arcs - 1)
            ]
            walk.append(min(fits))
        return f"w {vertex} {found[vertex][0]} {' '.join(map(str, walk[::-1]))}\n"

    def source(self, source, kind, word, bound):
        """The block of a source."""
        found = self.labels(source, kind)
        costs = [found[vertex][0] if vertex in found else FAR for vertex in range(1, self.n + 1)]
        if word == "raw":
            return f"s {source}\n" + struct.pack(f"<{self.n}Q", *costs).decode("latin-1")
        if word == "totals":
            reached = [cost for cost in costs if cost != FAR]
            return f"t {source} {len(reached)} {sum(reached)} {max(reached)} {costs.index(max(reached)) + 1}\n"
        lines = [f"s {source}\n"]
        for vertex, cost in enumerate(costs, 1):
            if cost == FAR and bound is None:
                lines.append(f"d {vertex} inf\n")
            elif cost != FAR and (bound is None or cost <= bound):
                lines.append(f"d {vertex} {cost}\n" + (self.walk(found, kind, vertex) if word == "walks" else ""))
        return "".join(lines)

    def pair(self, source, target, kind, word):
        """The lines of a pair, or its bytes."""
        found = self.labels(source, kind)
        if word == "raw":
            return struct.pack("<Q", found[target][0] if target in found else FAR).decode("latin-1")
        if target not in found:
            return f"q {source} {target} inf\n"
        return f"q {source} {target} {found[target][0]}\n" + (self.walk(found, kind, target) if word == "walks" else "")

    def own_word(self):
        """The word that says as the session's options do."""
        return "walks" if self.walks else "raw" if self.raw else "totals" if self.totals else "each"

    def reply(self, request):
        """The reply to a request but for its last line. A change leaves another graph."""
        kind, word, form, bound, rows = request
        if form in ("add", "cut", "set"):
            return self.change(form, rows)
        if form == "arcs":
            return records("a", [arc for row in rows for arc in self.arcs if arc[:2] == row])
        kind = kind or self.answer
        if kind == "components":
            return self.block()
        if form in ("p2p", "walk"):
            # Of the session's options a pair takes the walks alone.
            pair_word = "walks" if form == "walk" or (word is None and self.walks) else word
            return "".join(self.pair(*row, kind, pair_word) for row in rows)
        if form == "ss" and word is None:
            bound = self.bound
        # Lines of text alone have a bound.
        own = self.own_word() if form == "ss" or self.walks else "each"
        return "".join(self.source(*row, kind, word or own, bound) for row in rows)

    def change(self, form, rows):
        """The reply to a change but for its last line."""
        gone = {row[:2] for row in rows} if form != "add" else set()
        left = [arc for arc in self.arcs if arc[:2] not in gone]
        lines = "" if form == "add" else f"x {len(self.arcs) - len(left)}\n"
        self.arcs = left if form == "cut" else left + rows
        lines += "" if form == "cut" else f"g {len(rows)}\n"
        return lines + (self.block() if self.answer == "components" else "")


def check(program, count):
    """Sessions of so many requests."""
    asked = 0
    for seed in itertools.count():
        if asked >= count:
            return
        draw = random.Random(f"model {seed}")
        n = draw.randrange(1, 9)
        arcs = [(draw.randrange(1, n + 1), draw.randrange(1, n + 1), draw.randrange(9)) for _ in range(draw.randrange(20))]
        workers, answer = draw.choice("13"), draw.choice(session_jobs.KINDS)
        lines = [] if answer == "components" else draw.choice(session_jobs.FORMS)
        options = ["--workers", workers, "--answer", answer, *lines]
        model = Model(n, arcs, answer, lines)
        text = f"p sp {n} {len(arcs)}\n" + records("a", arcs)
        wanted = (model.block() if answer == "components" else "") + model.ready(text)
        for _ in range(draw.randrange(1, 101)):
            asked += 1
            request = session_jobs.draw_request(draw, n)
            if draw.randrange(4) == 0:
                faulty, refusal = session_jobs.draw_wrong(draw, n, request, text.count("\n") + 1)
                text, wanted = text + faulty, wanted + refusal
                continue
            text += f"p aux sp {head_of(request)} {len(request[-1])}\n" + records(LETTERS[request[2]], request[-1])
            wanted += model.reply(request) + model.ready(text)
        for found in (run(program, ["--session", *options], text), in_pieces(program, options, text, wanted, [len(text)])):
            if found != (wanted, "", 0):
                place = next((at for at, (one, other) in enumerate(zip(found[0], wanted)) if one != other), -1)
                wrong(f"seed {seed}, {options}: {found[0][place:][:200]!r} and not {wanted[place:][:200]!r}, {found[1:]}, for {text!r}")


if __name__ == "__main__":
    if len(sys.argv) != 3 or not sys.argv[2].isdigit():
        sys.exit("usage: tests/session_model.py PROGRAM COUNT")
    check(sys.argv[1], int(sys.argv[2]))
