"""claims.py [--write]: prints where docs/PROVED.md, tests/claims.tsv and the edits of the crates differ.

Each edit has a row in tests/claims.tsv: the edit, as CRATE/NAME, and the claims that it tests, a tab between. A claim is
named by the contract of its row of docs/PROVED.md, below a heading with the crate: its first piece of code, with the
clause after a colon. The last cell of that row counts its edits, as `3+2`: each landing tries three, and two are tried on
request.

With --write it writes the counts of docs/PROVED.md anew.
"""

import re
import sys
from collections import Counter
from pathlib import Path

from edits import edits_of

TABLE, DOCUMENT = Path("tests/claims.tsv"), Path("docs/PROVED.md")
CONTRACT = re.compile(r"`([^`]+)`(?:: `([^`]+)`)?")
ROW = re.compile(r"\| (.*?) \| (.*) \|(?: ([0-9+]+))? \|")


def name_of(contract):
    """What the table calls the claim of a row with this contract."""
    found = CONTRACT.match(contract)
    return ": ".join(filter(None, found.groups())) if found else contract


def claims_of(lines):
    """The claims of the document: the number of the line, the crate, the name, and the count as it is written."""
    crate = None
    for number, line in enumerate(lines):
        if line.startswith("## "):
            found = re.search(r"`(\w+)`", line)
            crate = found[1] if found else None
        row = ROW.fullmatch(line)
        if crate and row and row[1] != "contract":
            yield number, crate, name_of(row[1]), row[3] or ""


def main():
    edits = {f"{crate.name}/{edit.name}": edit for crate in Path("crates").iterdir() for edit in edits_of(crate.name)}
    counts, named = Counter(), set()
    for number, line in enumerate(TABLE.read_text(encoding="utf-8").splitlines(), 1):
        if line.startswith("#"):
            continue
        edit, *claims = line.split("\t")
        if edit not in edits:
            print(f"{TABLE}:{number}: no such edit: {edit}")
        if edit in named or not claims:
            print(f"{TABLE}:{number}: {edit} has no claim, or another row too")
        named.add(edit)
        for claim in claims:
            counts[edit.split("/")[0], claim, edit in edits and edits[edit].is_for_landings] += 1
    for edit in sorted(set(edits) - named):
        print(f"{TABLE}: no row for {edit}")
    lines = DOCUMENT.read_text(encoding="utf-8").split("\n")
    there = set()
    for number, crate, claim, written in claims_of(lines):
        if (crate, claim) in there:
            print(f"{DOCUMENT}:{number + 1}: {crate} has two claims by the name of {claim}")
        there.add((crate, claim))
        count = f"{counts[crate, claim, True]}+{counts[crate, claim, False]}".replace("0+0", "")
        if count != written and sys.argv[1:] != ["--write"]:
            print(f"{DOCUMENT}:{number + 1}: {written or 'no'} edits of {claim}, and {TABLE} has {count or 'none'}")
        lines[number] = re.sub(r"\|(?: [0-9+]+)? \|$", f"| {count} |".replace("  ", " "), lines[number])
    for crate, claim in sorted({key[:2] for key in counts} - there):
        print(f"{TABLE}: {DOCUMENT} has no claim of {crate} by the name of {claim}")
    if sys.argv[1:] == ["--write"]:
        DOCUMENT.write_text("\n".join(lines), encoding="utf-8")


if __name__ == "__main__":
    main()
