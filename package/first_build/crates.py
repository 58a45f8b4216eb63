"""The crates that a program stands on: what they depend on, and how long their proofs take."""

import re
from dataclasses import dataclass
from pathlib import Path

TABLE = Path(__file__).resolve().parent / "crates.tsv"


@dataclass(frozen=True)
class Crate:
    """A crate with the crates of this repository that it depends on, its processor seconds and its proved functions."""

    name: str
    below: tuple
    seconds: float
    functions: int


def read_dependencies(top):
    """Returns by crate of crates.txt the names that stand there after it, its own crates and others."""
    rows = {}
    for line in (top / "crates.txt").read_text(encoding="utf-8").splitlines():
        head, colon, names = line.partition(":")
        if colon and not line.startswith("#"):
            rows[head.split()[0]] = names.split()
    return rows


def read_table():
    """Returns by crate of the table its processor seconds and its functions."""
    lines = TABLE.read_text(encoding="utf-8").splitlines()
    rows = (line.split("\t") for line in lines if line and not line.startswith("#"))
    return {name: (float(seconds), int(functions)) for name, seconds, functions in rows}


def write_table(seconds, top):
    """Writes the table anew, with these processor seconds. A new crate has as many functions as its source."""
    old = read_table()
    head = [line for line in TABLE.read_text(encoding="utf-8").splitlines() if line.startswith("#")]
    rows = []
    for name in sorted({*old, *seconds}):
        functions = old[name][1] if name in old else count_source(top / "crates" / name / "src")[1]
        rows.append(f"{name}\t{seconds.get(name, old.get(name, [0])[0]):.0f}\t{functions}")
    TABLE.write_text("\n".join([*head, *rows, ""]), encoding="utf-8")


def count_source(folder):
    """Returns how many lines and functions the source of a crate has."""
    texts = [path.read_text(encoding="utf-8", errors="replace") for path in sorted(folder.rglob("*.rt"))]
    functions = sum(len(re.findall(r"(?m)^ *(?:pub(?:\([a-z]+\))? )?fn ", text)) for text in texts)
    return sum(text.count("\n") for text in texts), functions


def names_below(rows, name):
    """Returns the crates of the repository below this one, each after those that it depends on."""
    found = []
    for below in rows[name]:
        if below in rows:
            found += [each for each in [*names_below(rows, below), below] if each not in found]
    return found


def read_crates(top, program):
    """Returns the program's crate and those below it by name, lowest first.

    A crate without a row in the table counts by its lines, as long as others take for each line.
    """
    rows, table = read_dependencies(top), read_table()
    names = [*names_below(rows, program), program]
    sources = {name: count_source(top / "crates" / name / "src") for name in names}
    known = [name for name in names if name in table]
    lines = sum(sources[name][0] for name in known)
    pace = sum(table[name][0] for name in known) / lines if lines else 0.1
    crates = {}
    for name in names:
        count, functions = sources[name]
        seconds, functions = table.get(name, (max(1, count * pace), functions))
        crates[name] = Crate(name, tuple(below for below in rows[name] if below in rows), seconds, functions)
    return crates


def all_below(crates, name):
    """Returns the names of all crates below this one, lowest first."""
    reached = set(crates[name].below)
    for each in reversed(crates):
        if each in reached:
            reached.update(crates[each].below)
    return [each for each in crates if each in reached]


def longest_ways(crates):
    """Returns by crate the processor seconds from its beginning to the program's end, on the longest way up."""
    ways = {}
    for crate in reversed(crates.values()):
        above = [ways[each.name] for each in crates.values() if crate.name in each.below]
        ways[crate.name] = crate.seconds + max(above, default=0)
    return ways
