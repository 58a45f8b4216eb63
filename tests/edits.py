"""edits.py [--names]: prints each edit that is not understood, or whose text does not stand once in its file.

An edit is a wrong body that the prover has to refuse. Below `[NAME]` in crates/CRATE/edits.txt it has a line `file: ` with
a file of its crate, and pairs of `old: `, a text that stands there once, and `new: `, what replaces it. A blank line
divides two edits, and a line `---` those that each landing tries from those that are tried on request. In both parts
the names are in order.

With --names it prints the edits themselves, as CRATE/NAME.
"""

import re
import sys
from dataclasses import dataclass
from pathlib import Path

HEADING = re.compile(r"\[([\w-]+)\]")
LINE = re.compile(r"(file|old): (.+)|(new):(?: (.*))?")
# Which lines may come next. An edit ends after `new`.
AFTER = {"": ("file",), "file": ("old",), "old": ("new",), "new": ("file", "old")}
# The line below which edits are tried on request.
DIVIDER = "---"


class Fault(Exception):
    """A text that is no edit: where, and what is wrong."""


@dataclass(frozen=True)
class Edit:
    """An edit: its lines, of which the first has the number `first` there, and its pairs (line, file, old, new)."""

    path: Path
    first: int
    name: str
    is_for_landings: bool
    lines: tuple
    pairs: tuple

    def data(self):
        """The bytes of a file of must-fail/ that says the same."""
        return "".join(f"{line}\n" for line in self.lines).encode()


def text_of(path):
    """The text of a file, in which a carriage return is a letter like any other."""
    data = path.read_bytes()
    try:
        return data.decode()
    except UnicodeDecodeError as error:
        number = data.count(b"\n", 0, error.start) + 1
        raise Fault(f"{path}:{number}: no UTF-8 text") from error


def edit_of(path, first, name, is_for_landings, lines):
    """The edit of these lines, the first of which has that number in the file."""
    last, said, pairs = "", {}, []
    for number, line in enumerate(lines, first):
        found = LINE.fullmatch(line)
        word = (found[1] or found[3]) if found else None
        if word not in AFTER[last]:
            wanted = " or ".join(f"`{word}:`" for word in AFTER[last])
            raise Fault(f"{path}:{number}: expected {wanted}, found '{line}'")
        last, said[word] = word, found[2] or found[4] or ""
        if word == "new":
            pairs.append((number - 1, said["file"], said["old"], said["new"]))
    if last != "new":
        raise Fault(f"{path}:{first + len(lines) - 1}: {name} ends without `new:`")
    return Edit(path, first, name, is_for_landings, tuple(lines), tuple(pairs))


def edits_of(crate, root=Path(".")):
    """The edits of a crate, those that each landing tries first."""
    path = root / "crates" / crate / "edits.txt"
    edits, number, is_for_landings = {}, 1, True
    for stanza in text_of(path).removesuffix("\n").split("\n\n") if path.exists() else ():
        heading, *lines = stanza.split("\n")
        name = HEADING.fullmatch(heading)
        if stanza == DIVIDER and is_for_landings:
            is_for_landings = False
        elif not name:
            raise Fault(f"{path}:{number}: expected a name in brackets, found '{heading}'")
        elif name[1] in edits:
            raise Fault(f"{path}:{number}: {heading} stands at line {edits[name[1]].first - 1} too")
        else:
            edits[name[1]] = edit_of(path, number + 1, name[1], is_for_landings, lines)
        number += len(lines) + 2
    return list(edits.values())


def applied(folder, edits):
    """The texts of the files of the crate in this folder that these edits change, after them. No file is changed.

    Each edit applies to the texts as they stand, so one can't make another stand twice."""
    texts, places = {}, {}
    for edit in edits:
        for number, name, old, new in edit.pairs:
            if name not in texts:
                if not (folder / name).is_file():
                    raise Fault(f"{edit.path}:{number}: there is no file {folder / name}")
                texts[name] = text_of(folder / name)
            count = texts[name].count(old)
            if count != 1:
                raise Fault(f"{edit.path}:{number}: this stands {count} times in {folder / name}: {old}")
            places.setdefault(name, []).append((texts[name].find(old), old, new))
    for name, found in places.items():
        for at, old, new in sorted(found, reverse=True):
            texts[name] = texts[name][:at] + new + texts[name][at + len(old) :]
    return texts


def faults_of(crate, edits):
    """What is wrong with these edits of a crate, each of which is understood: a line each."""
    for before, edit in zip(edits, edits[1:]):
        if edit.name < before.name and edit.is_for_landings == before.is_for_landings:
            yield f"{edit.path}:{edit.first - 1}: {edit.name} belongs before {before.name}"
    for edit in edits:
        try:
            applied(Path("crates", crate), [edit])
        except Fault as fault:
            yield str(fault)


def main():
    for crate in sorted(path.name for path in Path("crates").iterdir()):
        try:
            edits = edits_of(crate)
        except Fault as fault:
            print(fault, file=sys.stderr)
            continue
        if sys.argv[1:] == ["--names"]:
            lines = [f"{crate}/{edit.name}" for edit in edits]
        else:
            lines = faults_of(crate, edits)
        print("".join(f"{line}\n" for line in lines), end="")


if __name__ == "__main__":
    main()
