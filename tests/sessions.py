#!/usr/bin/env python3
"""Requests after a graph, each answered at once: tests/sessions.py PROGRAM COUNT.

Worked rows, each written whole, byte by byte, and in random pieces, and each with the input left open until its last
reply has come. Graphs that several threads read, in the same ways, and with wrong lines. COUNT requests of random sessions
beside jobs (tests/session_jobs.py). Clients that go away, that write 2^20 pairs before they read, and a session of 10,000 requests, whose memory
does not grow. It prints what is wrong first, and the status is 1 then.
"""

import os
import random
import subprocess
import sys

import session_jobs
from session_jobs import begin, in_pieces, read_exactly, run, wrong

GRAPH = "p sp 2 0\n"
SIX = open("examples/six.gr", encoding="ascii").read()


def ready(line):
    """The last line of a reply while the graph has its two vertices and no arc. It names a line."""
    return f"r 2 0 {line}\n"


# Name, input, output, what standard error says after the program's name, status. The graph's line is line 1.
ROWS = [
    ("graph alone", GRAPH, ready(1), "", 0),
    ("graph without a line feed", "p sp 2 0", ready(1), "", 0),
    ("graph without a line feed, after comments", "c x\np sp 2 1\n\nc y\na 1 2 7", "r 2 1 5\n", "", 0),
    ("comment after the graph without a line feed", "p sp 2 1\na 1 2 7\nc x", "r 2 1 2\n", "", 0),
    ("graph that lacks an arc", "p sp 2 1\n", "", "line 2: too few lines", 2),
    ("a section while an arc is missing", "p sp 2 1\np aux sp ss 1\ns 1\n", "", "line 2: too few lines", 2),
    ("walks while an arc is missing", "p sp 2 1\np aux sp walk 1\nq 1 2\n", "", "line 2: unknown line", 2),
    ("a bound while an arc is missing", "p sp 2 1\np aux sp within 3 1\ns 1\n", "", "line 2: unknown line", 2),
    ("fault in the graph", "p sp 2 1\na 1 3 0\np aux sp ss 1\ns 1\n", "", "line 2: out of range", 2),
    ("nothing", "", "", "line 1: no problem line", 2),
    ("comment before and after", "c x\n" + GRAPH + "c y\np aux sp p2p 1\nc z\nq 1 1\n", ready(2) + "q 1 1 0\n" + ready(6), "", 0),
    ("source", "p sp 2 1\na 1 2 7\np aux sp ss 1\ns 1\n", "r 2 1 2\ns 1\nd 1 0\nd 2 7\nr 2 1 4\n", "", 0),
    ("pairs", GRAPH + "p aux sp p2p 2\nq 1 1\nq 1 2\n", ready(1) + "q 1 1 0\nq 1 2 inf\n" + ready(4), "", 0),
    ("walks", "p sp 2 1\na 1 2 7\np aux sp walk 2\nq 1 2\nq 2 1\n", "r 2 1 2\nq 1 2 7\nw 2 7 1 2\nq 2 1 inf\nr 2 1 5\n", "", 0),
    (
        "within a bound, of this request alone",
        "p sp 3 2\na 1 2 7\na 2 3 2\np aux sp within 7 2\ns 1\ns 3\np aux sp ss 1\ns 2\n",
        "r 3 2 3\ns 1\nd 1 0\nd 2 7\ns 3\nd 3 0\nr 3 2 6\n" + "s 2\nd 1 inf\nd 2 0\nd 3 2\nr 3 2 8\n",
        "",
        0,
    ),
    (
        "the greatest bound, and the least",
        "p sp 3 1\na 1 2 7\np aux sp within 18446744073709551614 1\ns 1\np aux sp within 0 1\ns 1\np aux sp within 5 0\n",
        "r 3 1 2\ns 1\nd 1 0\nd 2 7\nr 3 1 4\n" + "s 1\nd 1 0\nr 3 1 6\n" + "r 3 1 7\n",
        "",
        0,
    ),
    (
        "within a bound after arcs",
        GRAPH + "p aux sp within 9 1\ns 1\np aux sp add 1\na 1 2 9\np aux sp within 9 1\ns 1\n",
        ready(1) + "s 1\nd 1 0\n" + ready(3) + "g 1\nr 2 1 5\n" + "s 1\nd 1 0\nd 2 9\nr 2 1 7\n",
        "",
        0,
    ),
    ("cut by a bound", GRAPH + "p aux sp ss 1\np aux sp within 0 0\n", ready(1) + "e 3 too few lines\n" + ready(3), "", 0),
    ("too few within a bound", GRAPH + "p aux sp within 3 2\ns 1\np aux sp ss 0\n", ready(1) + "e 4 too few lines\n" + ready(4), "", 0),
    ("pairs within a bound", GRAPH + "p aux sp within 3 1\nq 1 1\np aux sp ss 0\n", ready(1) + "e 3 misplaced line\n" + ready(4), "", 0),
    ("bound with a tail", GRAPH + "p aux sp withins 3 0\n", ready(1) + "e 2 unknown line\n", "", 0),
    ("no queries", GRAPH + "p aux sp ss 0\np aux sp add 0\n", ready(1) + ready(2) + "g 0\n" + ready(3), "", 0),
    (
        "added arcs stay",
        GRAPH + "p aux sp add 1\na 1 2 4\np aux sp p2p 1\nq 1 2\n",
        ready(1) + "g 1\nr 2 1 3\n" + "q 1 2 4\nr 2 1 5\n",
        "",
        0,
    ),
    (
        "refused arcs are not added",
        GRAPH + "p aux sp add 2\na 1 2 4\na 1 3 4\np aux sp p2p 1\nq 1 2\n",
        ready(1) + "e 4 out of range\n" + "q 1 2 inf\n" + ready(6),
        "",
        0,
    ),
    ("cut by a section", GRAPH + "p aux sp ss 2\ns 1\np aux sp p2p 1\nq 1 1\n", ready(1) + "e 4 too few lines\nq 1 1 0\n" + ready(5), "", 0),
    ("cut by a wrong section", GRAPH + "p aux sp ss 2\ns 1\np aux sp p2p x\n", ready(1) + "e 4 too few lines\ne 4 not a number\n", "", 0),
    (
        "stray line after a request",
        GRAPH + "p aux sp p2p 1\nq 1 1\nq 2 2\np aux sp p2p 1\nq 1 2\n",
        ready(1) + "q 1 1 0\n" + ready(3) + "e 4 misplaced line\n",
        "",
        0,
    ),
    ("an arc too many", "p sp 2 1\na 1 2 3\na 1 2 4\np aux sp p2p 1\nq 1 2\n", "r 2 1 2\ne 3 too many lines\n", "", 0),
    ("junk before a section", GRAPH + "junk\np aux sp p2p 1\nq 1 1\n", ready(1) + "e 2 unknown line\n", "", 0),
    ("a section that there isn't", GRAPH + "p aux sp p2q 1\nq 1 1\n", ready(1) + "e 2 unknown line\n", "", 0),
    (
        "requests after a section that there isn't",
        GRAPH + "p aux sp p2q 1\nq 1 1\np aux sp p2p 1\nq 1 1\np aux sp ss 0\n",
        ready(1) + "e 2 unknown line\nq 1 1 0\n" + ready(5) + ready(6),
        "",
        0,
    ),
    ("a wrong count", GRAPH + "p aux sp ss x\ns 1\np aux sp ss 0\n", ready(1) + "e 2 not a number\n" + ready(4), "", 0),
    ("walk with a tail", GRAPH + "p aux sp walks 1\nq 1 1\n", ready(1) + "e 2 unknown line\n", "", 0),
    ("another graph", GRAPH + "p sp 3 0\np aux sp ss 0\n", ready(1) + "e 2 misplaced line\n", "", 0),
    ("end within a request", GRAPH + "p aux sp ss 2\ns 1\n", ready(1), "line 4: too few lines", 2),
    ("end after a refusal", GRAPH + "p aux sp ss 2\ns 3\n", ready(1) + "e 3 out of range\n", "", 0),
    ("end at a stray line", GRAPH + "s 1\n", ready(1) + "e 2 misplaced line\n", "", 0),
    ("last line without a line feed", GRAPH + "p aux sp p2p 1\nq 1 1", ready(1) + "q 1 1 0\n" + ready(3), "", 0),
    ("carriage returns", "p sp 2 0\r\np aux sp p2p 1\r\nq 1 1\r\n", ready(1) + "q 1 1 0\n" + ready(3), "", 0),
    (
        "six vertices",
        SIX + "p aux sp p2p 2\nq 1 6\nq 6 1\np aux sp add 1\na 1 6 4\np aux sp ss 2\ns 1\ns 7\np aux sp p2p 1\nq 1 6\n",
        "r 6 8 10\nq 1 6 15\nq 6 1 inf\nr 6 8 13\ng 1\nr 6 9 15\n" + f"e {SIX.count(chr(10)) + 8} out of range\n" + "q 1 6 4\nr 6 9 20\n",
        "",
        0,
    ),
]

# The heads of sections within a bound that are wrong, and how: the number of fields, then what is no number, and then
# what is out of range, wherever it stands.
HEADS = [
    ("within", "wrong number of fields"),
    ("within 7", "wrong number of fields"),
    ("within 7 1 1", "wrong number of fields"),
    ("within x 1 y", "wrong number of fields"),
    ("within x 1", "not a number"),
    ("within 7 x", "not a number"),
    ("within -1 1", "not a number"),
    ("within 1.5 1", "not a number"),
    ("within inf 1", "not a number"),
    ("within 18446744073709551615 x", "not a number"),
    ("within x 1048577", "not a number"),
    ("within 18446744073709551615 1", "out of range"),
    ("within 18446744073709551616 1", "out of range"),
    ("within 99999999999999999999999999 1", "out of range"),
    ("within 7 1048577", "out of range"),
    ("within 7 18446744073709551616", "out of range"),
]
ROWS += [
    (f"{head}: {words}", f"{GRAPH}p aux sp {head}\ns 1\np aux sp ss 0\n", f"{ready(1)}e 2 {words}\n{ready(4)}", "", 0)
    for head, words in HEADS
]


# Rows with options of the session: these, and then as above.
BLOCK = "k 1 1\nk 2 2\n"
OPTION_ROWS = [
    (["--within", "3"], "a bound is for sources", GRAPH + "p aux sp p2p 1\nq 1 2\n", ready(1) + "q 1 2 inf\n" + ready(3), "", 0),
    (
        ["--within", "3"],
        "a pair that costs more",
        "p sp 2 1\na 1 2 7\np aux sp walk 1\nq 1 2\np aux sp ss 1\ns 1\n",
        "r 2 1 2\nq 1 2 7\nw 2 7 1 2\nr 2 1 4\n" + "s 1\nd 1 0\nr 2 1 6\n",
        "",
        0,
    ),
    (
        ["--answer", "components"],
        "the block for each section",
        GRAPH + "p aux sp walk 1\nq 1 2\np aux sp within 3 1\ns 1\np aux sp ss 0\n",
        "".join(BLOCK + ready(line) for line in (1, 3, 5, 6)),
        "",
        0,
    ),
]


def head_rows():
    """The rows of tests/heads.tsv."""
    with open("tests/heads.tsv", encoding="ascii") as file:
        table = [line.rstrip("\n").split("\t") for line in file if not line.startswith("#")]
    as_text = lambda cell: cell.replace(" . ", "\n").encode("ascii").decode("unicode_escape")
    for name, options, sent, written in table:
        greeting = ("k 1 1\nk 2 1\nk 3 1\nk 4 4\n" if "components" in options else "") + "r 4 4 5\n"
        text = f"p sp 4 4\na 1 2 7\na 2 3 6\na 1 3 20\na 1 3 30\n{as_text(sent)}\n"
        yield options.split(), name, text, f"{greeting}{as_text(written)}\n", "", 0


def check_rows(program):
    """Each row whole, byte by byte and in random pieces."""
    draw = random.Random(7)
    rows = [([], *row) for row in ROWS] + OPTION_ROWS + list(head_rows())
    for workers in ("1", "3"):
        for more, name, text, output, fault, status in rows:
            options = ["--workers", workers, *more]
            error = f"obim_query: {fault}\n" if fault else ""
            wanted = (output, error, status)
            sizes = {
                "whole": [len(text)],
                "byte by byte": [1] * len(text),
                "in pieces": [draw.randrange(1, 9) for _ in text],
            }
            for how, pieces in sizes.items():
                found = in_pieces(program, options, text, output, pieces)
                if found != wanted:
                    wrong(f"{name}, {how}, {workers} workers: {found} and not {wanted}")


# ---- a graph that several threads read

# Enough arcs for that, and an odd number of them.
MANY = (1 << 18) + 1


def large_lines(shortest):
    """Lines of a graph of MANY arcs: of the shortest, or of others and a comment now and then."""
    if shortest:
        return [f"p sp 2 {MANY}\n", *["a 1 2 7\n"] * MANY]
    draw = random.Random(11)
    lines = [f"p sp 1000 {MANY}\n"]
    for place in range(MANY):
        lines.append(f"a {draw.randrange(1, 1001)} {draw.randrange(1, 1001)} {draw.randrange(10_000)}\n")
        if place % 5000 == 17:
            lines.append("c " + "x" * draw.randrange(200) + "\n")
    return lines


def check_large(program):
    """A large graph and a request after it: both are replied to with the input left open, by however many workers."""
    draw = random.Random(12)
    for shortest in (True, False):
        lines = large_lines(shortest)
        section = "p aux sp p2p 2\nq 1 2\nq 2 1\n"
        text = "".join(lines) + section
        size = f"r {2 if shortest else 1000} {MANY}"
        answer = run(program, ["--workers", "1"], text)[0]
        output = f"{size} {len(lines)}\n{answer}{size} {len(lines) + 3}\n"
        for workers in ("1", "2", "4"):
            options = ["--workers", workers]
            for most in (1 << 30, 4000, 65536, 300_000):
                # Pieces of twice the text, or all of it at once.
                sizes = [draw.randrange(1, most + 1) for _ in range(4 * len(text) // most)] + [len(text)]
                found = in_pieces(program, options, text, output, sizes)
                if found != (output, "", 0):
                    wrong(f"large graph, {workers} workers, pieces of {most}: {len(found[0])} bytes, {found[1:]}")
            check_large_faults(program, options, lines)


def check_large_faults(program, options, lines):
    """A wrong line of a large graph ends the session with the input left open; so does the end of too few lines."""
    for place in (1, 40_000, len(lines) // 2, len(lines) - 1):
        process = begin(program, *options)
        try:
            process.stdin.write("".join([*lines[:place], "x\n", *lines[place + 1 :]]).encode("ascii"))
        except BrokenPipeError:
            pass
        error = process.stderr.read().decode("ascii")
        if (process.wait(), error) != (2, f"obim_query: line {place + 1}: unknown line\n"):
            wrong(f"fault on line {place + 1} of a large graph, {options}: {error}")
        found = run(program, ["--session", *options], "".join(lines[: place + 1]))
        fault = "" if place == len(lines) - 1 else f"obim_query: line {place + 2}: too few lines\n"
        if found[1] != fault:
            wrong(f"large graph up to line {place + 1}, {options}: {found}")


# ---- clients


def check_many_pairs(program):
    """A request is written whole before its reply is read, however long both are."""
    count = 1 << 20
    process = begin(program)
    process.stdin.write(b"p sp 2 1\na 1 2 7\n")
    if read_exactly(process, 8) != "r 2 1 2\n":
        wrong("many pairs: no ready line")
    rest = memoryview(b"p aux sp p2p %d\n" % count + b"q 1 2\n" * count)
    while rest:
        rest = rest[process.stdin.write(rest) :]
    process.stdin.close()
    reply = process.stdout.read()
    if reply != b"q 1 2 7\n" * count + b"r 2 1 %d\n" % (count + 3) or process.wait():
        wrong(f"many pairs: {len(reply)} bytes")


def check_gone(program):
    """A client that goes away ends the session, without a word; so does one that closes its input."""
    process = begin(program)
    process.stdin.write(GRAPH.encode("ascii"))
    read_exactly(process, len(ready(1)))
    process.stdout.close()
    process.stdin.write(b"p aux sp p2p 1\nq 1 1\n")
    process.stdin.close()
    error, status = process.stderr.read(), process.wait()
    if (error, status) != (b"", 4):
        wrong(f"gone client: {error} {status}")


def check_memory(program):
    """Memory after 10,000 requests is that after the first hundred."""
    process = begin(program, "--workers", "2")
    process.stdin.write(SIX.encode("ascii"))
    line = SIX.count("\n")
    read_exactly(process, len(f"r 6 8 {line}\n"))
    sizes = []
    for place in range(10_000):
        request = b"p aux sp ss 1\ns 1\n" if place % 10 == 0 else b"p aux sp walk 1\nq 1 6\n"
        process.stdin.write(request)
        line += 2
        reply = b""
        while not reply.endswith(b"r 6 8 %d\n" % line):
            reply += process.stdout.read(4096)
        if place in (99, 9_999):
            with open(f"/proc/{process.pid}/statm", encoding="ascii") as file:
                sizes.append(int(file.read().split()[1]) * os.sysconf("SC_PAGE_SIZE"))
    process.stdin.close()
    if process.wait() or sizes[1] > sizes[0] + (1 << 20):
        wrong(f"memory: {sizes}")


def main():
    """All of it."""
    if len(sys.argv) != 3 or not sys.argv[2].isdigit():
        sys.exit("usage: tests/sessions.py PROGRAM COUNT")
    program = sys.argv[1]
    check_rows(program)
    check_large(program)
    session_jobs.check_random(program, int(sys.argv[2]))
    check_many_pairs(program)
    check_gone(program)
    check_memory(program)


if __name__ == "__main__":
    main()
