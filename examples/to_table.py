#!/usr/bin/env python3
"""Makes a table of an answer of obim_query: obim_query <job | to_table.py [TABLE]

TABLE ends with .csv, .parquet or .arrow. Without it a table in CSV goes to standard output. Parquet and Arrow need
pyarrow (pip install pyarrow), and CSV needs nothing. The columns follow from the answer:

    sources       source, vertex, cost
    pairs         source, target, cost
    components    vertex, component
    --totals      source, reached, sum, greatest, farthest

A cost of a vertex that no walk reaches is empty, or null. Columns are whole numbers of 64 bits without a sign.

    --names FILE   names in place of the numbers of vertices: of vertex 3 in line 3, as to_gr.py writes them
    --closeness    with --totals one more column, (reached - 1) / sum: the closeness among the vertices that are
                   reached. It is empty if the sum is 0

Needs to_gr.py beside it. A line that is not understood is refused with its number, as one of a walk or of an answer
with added arcs. Then the status is 2, and no file is written. So it is if the answer is empty.
"""

import contextlib
import csv
import shutil
import sys
import tempfile

sys.dont_write_bytecode = True
from to_gr import Arguments, Refused, finished_only, run

COLUMNS = {
    "d": ["source", "vertex", "cost"],
    "q": ["source", "target", "cost"],
    "k": ["vertex", "component"],
    "t": ["source", "reached", "sum", "greatest", "farthest"],
}
VERTICES = {"source", "vertex", "target", "component", "farthest"}
ROWS = 1 << 16  # that are written together


def number(word):
    """A whole number of an answer; None for inf."""
    if word == "inf":
        return None
    if not (word.isascii() and word.isdigit()):
        raise ValueError
    return int(word)


def rows(lines):
    """The kind of an answer and then its rows, as lists of numbers."""
    kind, source = None, None
    for line, text in enumerate(lines, 1):
        words = text.split()
        try:
            if words[0] == "s" and kind in (None, "d"):
                (source,) = map(number, words[1:])
                continue
            if kind is None and words[0] in COLUMNS:
                kind = words[0]
                yield kind
            row = [*([source] if kind == "d" else []), *map(number, words[1:])]
            if words[0] != kind or len(row) != len(COLUMNS[kind]) or row[0] is None:
                raise ValueError
        except (ValueError, IndexError):
            raise Refused(f"standard input:{line}: no line of sources, pairs, components or totals alone") from None
        yield row
    if kind is None:
        raise Refused("standard input: no answer")


def named(columns, file, found):
    """Rows with names in place of vertices, by the lines of a file."""
    names = read_names(file)
    places = [place for place, column in enumerate(columns) if column in VERTICES]
    for row in found:
        for place in places:
            if not 1 <= row[place] <= len(names):
                raise Refused(f"{file}: there is no line {row[place]}, which would name that vertex")
            row[place] = names[row[place] - 1]
        yield row


def with_closeness(found):
    """Rows of totals with the closeness of each source."""
    for row in found:
        _, reached, total, *_ = row
        yield [*row, (reached - 1) / total if total else None]


def batches(found):
    """Rows, some thousands together."""
    batch = []
    for row in found:
        batch.append(row)
        if len(batch) == ROWS:
            yield batch
            batch = []
    if batch:
        yield batch


def write_csv(out, columns, found):
    writer = csv.writer(out, lineterminator="\n")
    writer.writerow(columns)
    for batch in batches(found):
        writer.writerows(batch)


def write_arrow(out, columns, found, form, has_names):
    """Writes Parquet, or a file of Arrow, by pyarrow."""
    import pyarrow
    import pyarrow.parquet

    types = {column: pyarrow.uint64() for column in columns}
    types.update({column: pyarrow.string() for column in columns if has_names and column in VERTICES})
    types.update({column: pyarrow.float64() for column in columns if column == "closeness"})
    schema = pyarrow.schema(list(types.items()))
    opened = pyarrow.parquet.ParquetWriter(out, schema) if form == "parquet" else pyarrow.ipc.new_file(out, schema)
    with opened as writer:
        for batch in batches(found):
            try:
                arrays = [pyarrow.array(values, of) for values, of in zip(zip(*batch), types.values())]
            except (OverflowError, pyarrow.ArrowInvalid):
                raise Refused("a number is more than 2^64 - 1, which such a table does not hold: take .csv") from None
            writer.write_table(pyarrow.Table.from_arrays(arrays, schema=schema))


@contextlib.contextmanager
def opened(name, form):
    """A file for the table, which is there once it is whole, or one that then goes to standard output."""
    if name:
        with finished_only(name, "utf-8" if form == "csv" else None) as out:
            yield out
        return
    with tempfile.TemporaryFile("w+", encoding="utf-8", newline="") as out:
        yield out
        out.seek(0)
        shutil.copyfileobj(out, sys.stdout)
        sys.stdout.flush()


def form_of(name):
    """The form of a table by its name."""
    form = name.rpartition(".")[2] if name else "csv"
    if form not in ("csv", "parquet", "arrow"):
        raise Refused(f"{name}: a table ends with .csv, .parquet or .arrow")
    if form != "csv":
        try:
            import pyarrow  # noqa: F401
        except ImportError:
            raise Refused(f"{name}: Parquet and Arrow need pyarrow (pip install pyarrow): or take .csv") from None
    return form


def read_names(name):
    with open(name, encoding="utf-8", newline="\n") as lines:
        try:
            return [text.rstrip("\n") for text in lines]
        except UnicodeDecodeError:
            raise Refused(f"{name}: not UTF-8 text") from None


def main():
    parser = Arguments(__doc__)
    parser.add_argument("table", nargs="?")
    parser.add_argument("--names")
    parser.add_argument("--closeness", action="store_true")
    options = parser.parse_args()
    form = form_of(options.table)
    if sys.stdout is None and not options.table:
        raise Refused("standard output is closed")
    with open(0, encoding="ascii", errors="surrogateescape", closefd=False) as lines:
        found = rows(lines)
        kind = next(found)
        columns = list(COLUMNS[kind])
        if options.names:
            found = named(columns, options.names, found)
        if options.closeness:
            if kind != "t":
                raise Refused("--closeness goes with an answer of --totals alone")
            columns.append("closeness")
            found = with_closeness(found)
        with opened(options.table, form) as out:
            if form == "csv":
                write_csv(out, columns, found)
            else:
                write_arrow(out, columns, found, form, bool(options.names))


if __name__ == "__main__":
    run("to_table.py", main, status=2)
