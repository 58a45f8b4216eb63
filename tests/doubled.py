"""doubled.py: prints each lemma whose statement stands in two crates to the letter.

A lemma that two crates need stands in the lower one, on its shelf, and the proofs of the other take it from there.
"""

import re
from pathlib import Path

LEMMA = re.compile(r"^( *)(?:pub )?([A-Za-z_][\w≤≡∷?'-]*) : (.*)$")
# A shorter statement may stand in two crates: as `(x y : Row) → IsLess x y`, of a `Row` of each.
FEWEST_LETTERS = 40


def statements_of(text):
    """The lemmas of a file: the number of the line, the name, and the statement in one line."""
    lines = text.split("\n")
    head = ""
    for number, line in enumerate(lines):
        if line[:1].strip():
            head = line
        lemma = LEMMA.match(line)
        # What is deeper is a lemma in a module, whose parameters belong to it, or the field of a record.
        if not lemma or lemma[1] and not head.startswith("module"):
            continue
        statement = [lemma[3]]
        for further in lines[number + 1 :]:
            if not further.startswith(lemma[1] + "    "):
                break
            statement.append(further)
        given = head if lemma[1] else ""
        yield number + 1, lemma[2], " ".join(" ".join([given, *statement]).split())


def places_by_statement():
    """By statement, who says it: the crate, and where."""
    places = {}
    for path in sorted(Path("crates").glob("*/proofs/**/*.antt")):
        for number, name, statement in statements_of(path.read_text(encoding="utf-8")):
            # What an answer states is named by its goal.
            if len(statement) >= FEWEST_LETTERS and not statement.startswith("goal."):
                places.setdefault(statement, []).append((path.parts[1], f"{name} in {path}:{number}"))
    return places


for _, places in sorted(places_by_statement().items()):
    if len({crate for crate, _ in places}) > 1:
        print("stated in two crates: " + ", ".join(place for _, place in places))
