#!/usr/bin/env python3
"""Takes roads out of a graph in the .gr format, or makes them slower: close_roads.py CHANGES MAP.gr >changed.gr

A line `U V` of CHANGES closes all arcs from vertex U to vertex V, and a line `U V W` gives them the weight W; for the way
back write another line. Blank lines and lines that begin with c are comments. Without MAP.gr the graph comes on standard
input. Of its comments the unit of weights is kept (`c unit metres`), and `c joined`. Needs to_gr.py beside it.

A change of an arc that the graph does not have is refused, and so is a line that is not understood, and a graph that has
more or fewer arcs than it announces. Then the status is 1, and nothing is written.
"""

import shutil
import sys
import tempfile

sys.dont_write_bytecode = True
from to_gr import MOST, Arguments, Refused, run


def whole(field):
    """The whole number of a field, or ValueError: int alone would take signs and underlines."""
    if not (field.isascii() and field.isdigit()):
        raise ValueError
    return int(field)


def read_changes(name):
    """The line and the new weight, None if it is closed, of each pair of vertices."""
    changes = {}
    with open(name, "rb") as stream:
        for line, fields in enumerate(map(bytes.split, stream), 1):
            if not fields or fields[0].startswith(b"c"):
                continue
            try:
                tail, head, *weight = map(whole, fields)
                if weight and (len(weight) > 1 or weight[0] > MOST):
                    raise ValueError
            except ValueError:
                raise Refused(f"{name}:{line}: not U V or U V W") from None
            changes[tail, head] = (line, weight[0] if weight else None)
    return changes


def change(stream, name, changes, out):
    """Writes the arcs of a graph and the unit of their weights. Gives the vertices, the arcs, and the changes made."""
    problem, found, kept, made = None, 0, 0, set()
    for line, text in enumerate(stream, 1):
        fields = text.split()
        try:
            if fields and fields[0] == b"a":
                _, tail, head, weight = fields
                pair = (int(tail), int(head))
                found += 1
                if pair in changes:
                    made.add(pair)
                    weight = changes[pair][1]
                    text = b"" if weight is None else b"a %d %d %d\n" % (*pair, weight)
                kept += bool(text)
                out.write(text if text.endswith(b"\n") or not text else text + b"\n")
            elif fields[:2] == [b"p", b"sp"] and problem is None:
                problem = [whole(field) for field in fields[2:]]
                vertices, arcs = problem
            elif fields[:2] in ([b"c", b"unit"], [b"c", b"joined"]):
                out.write(text)
            elif fields and not fields[0].startswith(b"c"):
                raise ValueError
        except ValueError:
            raise Refused(f"{name}:{line}: no line of a graph alone") from None
    if problem is None:
        raise Refused(f"{name}: no line p sp N M")
    if found != arcs:
        raise Refused(f"{name}: {arcs} arcs are announced, {found} found")
    return vertices, kept, made


def main():
    parser = Arguments(__doc__)
    parser.add_argument("changes")
    parser.add_argument("graph", nargs="?")
    options = parser.parse_args()
    changes = read_changes(options.changes)
    name = options.graph or "standard input"
    with open(options.graph or 0, "rb") as stream, tempfile.TemporaryFile() as arcs:
        vertices, kept, made = change(stream, name, changes, arcs)
        for (tail, head), (line, _) in changes.items():
            if (tail, head) not in made:
                raise Refused(f"{options.changes}:{line}: {name} has no arc from {tail} to {head}")
        if sys.stdout is None:
            raise Refused("standard output is closed")
        sys.stdout.buffer.write(b"p sp %d %d\n" % (vertices, kept))
        arcs.seek(0)
        shutil.copyfileobj(arcs, sys.stdout.buffer, 1 << 20)
        sys.stdout.buffer.flush()


if __name__ == "__main__":
    run("close_roads.py", main)
