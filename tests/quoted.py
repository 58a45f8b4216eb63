"""quoted.py: prints what the pages crates/*/CALLING.md quote and their sources do not have.

A block of code names files after its language. Of a `rust` block each part between blank lines stands in one of them,
line after line; lines of `use` may stand apart. Of another block each line stands in one of them, at any indentation.
Each page has a `rust` block that names files: its caller, which is proved there.
"""

import re
from pathlib import Path

FENCE = re.compile(r"```(\w*)((?: \S+)*)$")
USE = re.compile(r"(ghost )?use .*;$")


def blocks_of(page):
    """The blocks of a page: the number of the first line, the language, the files and the lines."""
    block = None
    for number, line in enumerate(page.read_text(encoding="utf-8").splitlines(), 1):
        if block and line == "```":
            yield block
            block = None
        elif block:
            block[3].append(line)
        elif FENCE.match(line):
            language, files = FENCE.match(line).groups()
            block = (number, language, files.split(), [])


def missing_in(language, files, lines):
    """The parts of a block that none of the files has."""
    sources = [Path(file).read_text(encoding="utf-8") for file in files]
    known = {line.strip().removesuffix(" {") for source in sources for line in source.splitlines()}
    if language != "rust":
        return [line for line in lines if line.strip() not in known]
    parts = "\n".join(line for line in lines if not USE.match(line)).strip("\n").split("\n\n")
    wanted = [line for line in lines if USE.match(line) and line not in known]
    return wanted + [part for part in parts if not any(f"\n{part}\n" in f"\n{source}\n" for source in sources)]


def main():
    for page in sorted(Path("crates").glob("*/CALLING.md")):
        callers = 0
        for number, language, files, lines in blocks_of(page):
            absent = [file for file in files if not Path(file).exists()]
            if absent:
                print(f"{page}:{number}: there is no {' '.join(absent)}")
            elif files:
                callers += language == "rust"
                for part in missing_in(language, files, lines):
                    print(f"{page}:{number}: not in {' '.join(files)}: {part.strip().splitlines()[0]}")
        if not callers:
            print(f"{page}: no caller is quoted")


main()
