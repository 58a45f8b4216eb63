"""names.py FILE..: prints each name of code that stands in prose without backquotes.

Prose is what follows `//!`, `///` or `--`, outside of fenced examples. A name of code has an underscore within it. Such a
name is where a rename reaches sentences by mistake, which no compiler sees.
"""

import re
import sys

COMMENT = re.compile(r"^\s*(?://!|///|--)(?: (.*))?$")
QUOTED = re.compile(r"`[^`]*`")
NAME = re.compile(r"[A-Za-z0-9]+(?:_[A-Za-z0-9]+)+")

for path in sys.argv[1:]:
    fenced = False
    with open(path, encoding="utf-8") as file:
        for number, line in enumerate(file, 1):
            comment = COMMENT.match(line)
            if not comment:
                fenced = False
                continue
            prose = comment[1] or ""
            if prose.startswith("```"):
                fenced = not fenced
            elif not fenced:
                for name in NAME.findall(QUOTED.sub("", prose)):
                    print(f"{path}:{number}: {name}")
