"""files.py DOCUMENT..: prints each file that a document names in backquotes, by a path or by its ending, and that is
nowhere in the tree: neither from the top nor in a crate.
"""

import re
import sys
from pathlib import Path

QUOTED = re.compile(r"`([^`\s]+)`")
FILE = re.compile(r"(?:[\w.-]+/)*[\w.-]+\.(?:rt|antt|edit|md|py|tsv|awk|rs)|(?:src|specs|proofs|tests|bench|examples|docs)/[\w./-]+")

tree = {str(path) for path in Path().rglob("*") if "out" not in path.parts and ".git" not in path.parts}


def is_there(name):
    name = name.rstrip("/")
    return name in tree or any(path.endswith("/" + name) for path in tree)


for document in sys.argv[1:]:
    for number, line in enumerate(Path(document).read_text(encoding="utf-8").splitlines(), 1):
        for name in QUOTED.findall(line):
            if FILE.fullmatch(name) and not is_there(name):
                print(f"{document}:{number}: {name}")
