"""answers.py TABLE FOLDER: writes the job, the arguments and the answer of each row of a table to files of a folder.

Of the row NAME these are NAME.job, NAME.args with an argument a line, and NAME.answer. The head of answers.txt tells how
a row is written. Where a line is written in another way it names the line, writes no file, and ends with status 1.
"""

import re
import sys
from pathlib import Path

HEADING = re.compile(r"\[([a-z0-9_]+)\]")
ARGUMENTS = re.compile(r"\$((?: +[!-~]+)+)")
# A blank at the end of a line would not be seen.
TEXT = re.compile(r"[<>](?: ((?:[ -\[\]-~]|\\[\\rt]|\\x[0-9a-f]{2})*\\?))?(?<! )")
ESCAPE = re.compile(r"\\(?:x..|[\\rt\n])")
MEANT = {"\\\\": "\\", "\\r": "\r", "\\t": "\t", "\\\n": ""}
MEANT |= {rf"\x{byte:02x}": chr(byte) for byte in range(256)}
# By how a line begins, how the next may begin.
AFTER = {"": ["", "["], "[": ["$", "<"], "$": ["<"], "<": ["<", ">", ""], ">": [">", ""]}
ENDINGS = {"$": "args", "<": "job", ">": "answer"}


def meant_by(line):
    """The text that the line adds to its file, or None where it is not written as it has to be."""
    if words := ARGUMENTS.fullmatch(line):
        return "".join(f"{word}\n" for word in words[1].split())
    if text := TEXT.fullmatch(line):
        return ESCAPE.sub(lambda escape: MEANT[escape[0]], (text[1] or "") + "\n")
    return None


def rows_of(table):
    """The rows by name, each with the texts of its files. A byte is a letter here."""
    rows, row, last = {}, {}, ""
    for number, line in enumerate([*table.read_bytes().decode("latin-1").split("\n"), ""], 1):
        mark, wrong = line[:1], None
        if mark == "#":
            continue
        if mark not in AFTER[last]:
            wanted = " or ".join(f"`{mark}`" if mark else "an empty line" for mark in AFTER[last])
            wrong = f"expected {wanted}"
        elif mark == "[":
            name = HEADING.fullmatch(line)
            if name and name[1] not in rows:
                row = rows[name[1]] = dict.fromkeys(ENDINGS, "")
            else:
                wrong = "expected a name that no other row has"
        elif mark:
            meant = meant_by(line)
            if meant is None:
                wrong = "expected a blank and plain letters, others as \\xHH, and no blank at the end"
            else:
                row[mark] += meant
        if wrong:
            sys.exit(f"{table}:{number}: {wrong}, found {line!a}")
        last = mark
    return rows


def main():
    table, folder = map(Path, sys.argv[1:])
    for name, row in rows_of(table).items():
        for mark, text in row.items():
            (folder / f"{name}.{ENDINGS[mark]}").write_bytes(text.encode("latin-1"))


main()
