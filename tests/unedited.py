"""unedited.py [--count]: prints where public functions without an edit and tests/unedited.tsv differ.

Each public function whose contract says something of what it gives has an edit in its own body in crates/CRATE/edits.txt,
or a row in the table: its name, a tab, and a word that says why it has none.

- `by NAME`: the body leaves its work to that function, which it calls. That one has an edit, or a row of this kind.
- `getter`: the body is one expression of a field.
- `hint`: no result depends on what the body does.
- `one value`: the body makes a value of nothing, and the type has no other that could be mistaken for it.

A private function has a row if another row leaves work to it and it has no edit. Laws, and functions without `ensures`,
need neither. With --count it prints, by crate, how many public functions there
are, and of how many each landing tries an edit, of how many one is tried on request, and how many have a row.
"""

import re
import sys
from pathlib import Path

sys.dont_write_bytecode = True
from edits import edits_of
from functions import Functions
from prover import libraries_of

TABLE = Path("tests/unedited.tsv")
PUBLIC = re.compile(r"\bpub\s+(?:const\s+)?fn\b")
GETTER = re.compile(r"\{\s*(?:self(?:\.\w+)+|\w+)(?:\.is_some\(\))?\s*\}")


class CrateFunctions:
    """The functions of a crate, by name, and those in whose bodies edits stand."""

    def __init__(self, crate):
        self.functions = Functions(Path("crates", crate))
        self.by_name = {f"{crate}::{one.name}": one for one in self.functions.all}
        self.at_landings, self.on_request = set(), set()
        for edit in edits_of(crate):
            own = {self.functions.around(file, old) for _, file, old, _ in edit.pairs}
            (self.at_landings if edit.is_for_landings else self.on_request).update(own)

    def head(self, one):
        return self.functions.texts[one.file][one.head : one.body]

    def body(self, one):
        return self.functions.texts[one.file][one.body : one.end]

    def is_edited(self, one):
        return one in self.at_landings or one in self.on_request

    def promising(self):
        """The public functions that say something of what they give, by name, without laws."""
        for name, one in self.by_name.items():
            head = self.head(one)
            if PUBLIC.search(head) and re.search(r"\bensures\b", head) and Path(one.file).name != "laws.rt":
                yield name, one


def read_table():
    """The rows of the table, by the name of a function."""
    lines = [line for line in TABLE.read_text(encoding="utf-8").splitlines() if line and not line.startswith("#")]
    return dict(line.split("\t") for line in lines)


def fault_of(name, rows, crates):
    """What is wrong with the row of a function that has no edit, or None."""
    of = crates[name.split("::")[0]]
    word, _, other = rows[name].partition(" ")
    if rows[name] in ("hint", "one value"):
        return None
    body = of.body(of.by_name[name])
    if rows[name] == "getter":
        return None if GETTER.fullmatch(body) else "is no getter"
    if word != "by":
        return f"has a row that is not understood: {rows[name]}"
    callee = crates.get(other.split("::")[0])
    if callee is None or other not in callee.by_name:
        return f"is left to {other}, which is no function"
    if not re.search(rf"\b{other.split('::')[-1]}\b", body):
        return f"does not call {other}"
    if not callee.is_edited(callee.by_name[other]) and not rows.get(other, "").startswith("by "):
        return f"is left to {other}, which has no edit either"
    return None


def faults_of(rows, crates):
    """What is wrong: a line each."""
    there = {name: of.is_edited(one) for of in crates.values() for name, one in of.promising()}
    for name in sorted(there):
        if not there[name] and name not in rows:
            yield f"{name} has no edit, and no row in {TABLE}"
    named = {why.removeprefix("by ") for why in rows.values()}
    for name in rows:
        of = crates.get(name.split("::")[0])
        if of is None or name not in of.by_name or name not in there and name not in named:
            yield f"{TABLE}: {name} is no public function that promises something, and no row leaves work to it"
        elif of.is_edited(of.by_name[name]):
            yield f"{TABLE}: {name} has an edit"
        elif fault := fault_of(name, rows, crates):
            yield f"{TABLE}: {name} {fault}"
    if list(rows) != sorted(rows):
        yield f"{TABLE}: the rows are not in order"


def counts_of(rows, crates):
    """A line for each crate."""
    yield "crate\tpublic\teach landing\ton request\tlisted"
    for crate, of in crates.items():
        ones = dict(of.promising())
        landing = sum(one in of.at_landings for one in ones.values())
        request = sum(of.is_edited(one) for one in ones.values()) - landing
        if ones:
            yield f"{crate}\t{len(ones)}\t{landing}\t{request}\t{sum(name in rows for name in ones)}"


def main():
    names = [crate for crate in libraries_of(Path(".")) if not crate.endswith("_tests")]
    crates, rows = {crate: CrateFunctions(crate) for crate in names}, read_table()
    lines = counts_of(rows, crates) if sys.argv[1:] == ["--count"] else faults_of(rows, crates)
    print("".join(f"{line}\n" for line in lines), end="")


if __name__ == "__main__":
    main()
