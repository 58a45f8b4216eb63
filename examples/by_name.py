#!/usr/bin/env python3
"""Distances between vertices with names, by obim_query.

by_name.py SOURCE <ROADS.csv reads rows FROM,TO,WEIGHT, as to_gr.py beside it does, and prints lines NAME,DISTANCE of
the places that can be reached, by their names in Unicode's form NFC. A row that is not understood is refused, and so is
a source that no row names. From Python:

    distances(arcs, source)     arcs: (from, to, weight) each, of any names that can be keys, and whole-number weights

It raises ValueError for a weight that is no whole number up to 4294967295, and for a source that is in no arc.

The program is that of the variable PROGRAM, or obim_query of the path, or ./obim_query.
"""

import csv
import os
import shutil
import subprocess
import sys
import unicodedata

MOST = 4294967295  # the greatest weight that obim_query reads


def check_weight(tail, head, weight):
    """Refuses what obim_query would refuse. numpy's whole numbers are fine, True and 3.0 are not."""
    is_whole = hasattr(weight, "__index__") and not isinstance(weight, bool)
    if not is_whole or not 0 <= weight <= MOST:
        raise ValueError(f"{tail!r} to {head!r}: weight {weight!r} is no whole number from 0 to {MOST}")


def program():
    return os.environ.get("PROGRAM") or shutil.which("obim_query") or "./obim_query"


def distances(arcs, source):
    """The distance of each vertex that can be reached from the source, by name."""
    numbers = {}
    lines = []
    for tail, head, weight in arcs:
        check_weight(tail, head, weight)
        tail = numbers.setdefault(tail, len(numbers) + 1)
        head = numbers.setdefault(head, len(numbers) + 1)
        lines.append(f"a {tail} {head} {int(weight)}\n")
    if source not in numbers:
        raise ValueError(f"{source!r} is in no arc")
    job = [f"p sp {len(numbers)} {len(lines)}\n", *lines, f"p aux sp ss 1\ns {numbers[source]}\n"]
    answer = subprocess.run([program()], input="".join(job), stdout=subprocess.PIPE, text=True, check=True).stdout
    names = list(numbers)
    found = {}
    for line in answer.splitlines():
        kind, vertex, *cost = line.split()
        if kind == "d" and cost != ["inf"]:
            found[names[int(vertex) - 1]] = int(cost[0])
    return found


def main():
    if len(sys.argv) != 2:
        raise to_gr.Refused("usage: by_name.py SOURCE <ROADS.csv")
    arcs = to_gr.roads(sys.stdin.buffer, "standard input")
    try:
        found = distances(arcs, unicodedata.normalize("NFC", sys.argv[1]))
    except ValueError as fault:
        raise to_gr.Refused(fault) from None
    except subprocess.CalledProcessError as fault:
        raise to_gr.Refused(f"obim_query ended with status {fault.returncode}") from None
    csv.writer(sys.stdout, lineterminator="\n").writerows(found.items())
    sys.stdout.flush()


if __name__ == "__main__":
    sys.dont_write_bytecode = True
    import to_gr

    to_gr.run("by_name.py", main)
