#!/usr/bin/env python3
"""Compares what to_gr.py makes of random tables by numpy with what it makes without.

This is the graph, the names, the rows that are set aside, and what is said.

tables.py [MANY] draws MANY tables, 200 where none is given, and prints the first difference. The blocks are small, so
that numpy reads some and leaves others.
"""

import contextlib
import io
import os
import random
import sys
import tempfile

sys.dont_write_bytecode = True
sys.path.insert(0, os.path.join(os.path.dirname(os.path.abspath(__file__)), "..", "examples"))
import fast_tables
import to_gr

NAMES = ["A", "B", "1", "2", "01", "Elm Street", "Zürich", "Zu\u0308rich", "大阪", "x" * 16, "y" * 17, "z" * 64]
ODD_NAMES = ['"Elm, North"', '"A"', " A ", "A\u00a0", "", "\u2003B", "w" * 65, "#A", "\t", "A\0B", '"A\nB"', "\x1f"]
ODD_NAMES += ["A\u2028B", "A\x0bB", 'A"B', "\u212b", "\ufeffA", "A\x85"]
WEIGHTS = ["0", "7", "12", "00012", "4294967295", "999999999", "1000000000"]
DECIMALS = ["0.25", ".5", "3", "1.50", "17.000"]
ODD_WEIGHTS = ["", "-1", "1e3", "4294967296", "99999999999", "0.125", "0,5", " 5", "٣", "3.", "x", '"7"']
SHAPES = [
    [], ["--both-ways"], ["--header"], ["--delimiter", ";"], ["--delimiter", "tab"], ["--delimiter", "|"],
    ["--columns", "3,1,2"], ["--columns", "1,2,4"], ["--weight", "5"], ["--snap"], ["--snap", "--both-ways"],
    ["--decimals", "2"], ["--decimals", "2", "--decimal-comma", "--delimiter", ";"], ["--delimiter", "blanks"],
    ["--encoding", "utf-16"], ["--encoding", "latin-1"], ["--encoding", "cp1252"], ["--delimiter", "§"],
]


def draw(chance, shape):
    """A table as bytes, mostly of rows that are understood."""
    words = dict(zip(shape, shape[1:]))
    delimiter = words.get("--delimiter", ",")
    delimiter = {"tab": "\t", "blanks": " "}.get(delimiter, delimiter)
    if "--snap" in shape:
        delimiter = chance.choice(" \t")
    many = {"1,2,4": 4}.get(words.get("--columns"), 2 if "--snap" in shape or "--weight" in shape else 3)
    place = {"3,1,2": 1, "1,2,4": 3}.get(words.get("--columns"), 2)
    comma = "--decimal-comma" in shape
    odd, end = chance.choice([0, 0, 0.002, 0.02, 0.3]), chance.choice(["\n", "\n", "\r\n"])
    names = [name.replace(" ", "_") if delimiter in " \t" else name for name in chance.sample(NAMES, 8)]
    lines = ["from" + delimiter + "to" + delimiter + "weight"] if "--header" in shape else []
    for _ in range(chance.randrange(1, 400)):
        fields = [chance.choice(ODD_NAMES if chance.random() < odd else names) for _ in range(many)]
        if place < many:
            usual = WEIGHTS if "--decimals" not in shape or chance.random() < 0.3 else DECIMALS
            fields[place] = chance.choice(ODD_WEIGHTS if chance.random() < odd else usual)
            if comma:
                fields[place] = fields[place].replace(".", ",")
        if chance.random() < odd / 2:
            fields.append("more")
        lines.append(delimiter.join(fields))
        if chance.random() < odd / 2:
            lines.append(chance.choice(["", "  ", "# words", "\ufeff", "a\rb"]))
    text = end.join(lines) + chance.choice([end, ""])
    encoded = text.encode(words.get("--encoding", "utf-8"), "ignore")
    if chance.random() < odd:
        at = chance.randrange(len(encoded))
        encoded = encoded[:at] + b"\xff" + encoded[at:]
    return encoded


def result(arguments, folder, module):
    """What one conversion writes, and what it says."""
    to_gr.by_numpy = lambda: module
    for name in os.listdir(folder):
        if name != "table":
            os.remove(os.path.join(folder, name))
    sys.argv = ["to_gr.py", *arguments]
    out, error = io.StringIO(), io.StringIO()
    with contextlib.redirect_stdout(out), contextlib.redirect_stderr(error):
        try:
            to_gr.convert()
        except to_gr.Refused as fault:
            error.write(f"refused: {fault}")
    files = {}
    for name in sorted(os.listdir(folder)):
        with open(os.path.join(folder, name), "rb") as stream:
            files[name] = stream.read()
    return out.getvalue(), error.getvalue(), files


def main():
    many = int(sys.argv[1]) if len(sys.argv) > 1 else 200
    understood = 0
    roads_of = fast_tables.Reader.roads_of

    def counted(reader, block):
        nonlocal understood
        found = roads_of(reader, block)
        understood += found is not None
        return found

    fast_tables.Reader.roads_of = counted
    with tempfile.TemporaryDirectory() as folder:
        table = os.path.join(folder, "table")
        for seed in range(many):
            chance = random.Random(seed)
            shape = chance.choice(SHAPES)
            with open(table, "wb") as stream:
                stream.write(draw(chance, shape))
            to_gr.LEAST_BLOCK = chance.choice([1, 40, 300])
            to_gr.MOST_BLOCK = chance.choice([600, 5000])
            arguments = [*shape, table, "--names", os.path.join(folder, "names")]
            if chance.random() < 0.5:
                arguments += ["--skip-bad", os.path.join(folder, "bad")]
            plain, fast = result(arguments, folder, None), result(arguments, folder, fast_tables)
            if plain != fast:
                print(f"table {seed}, {' '.join(shape)}: by numpy {fast}, and without {plain}"[:3000])
                return
    if understood < many:
        print(f"numpy understood {understood} blocks only")


if __name__ == "__main__":
    main()
