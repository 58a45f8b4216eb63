"""recipes_shown.py DOCUMENT HEADING: runs what a section of a document shows, its commands and its Python in their order,
in the folder where it is called. It prints what differs.
"""

import doctest
import re
import subprocess
import sys
from pathlib import Path


def shell(command):
    print(subprocess.run(["bash", "-c", command], check=True, stdout=subprocess.PIPE, text=True).stdout, end="")


document, heading = sys.argv[1:]
section = re.search(rf"^## {heading}\n(.*?)(?=^## )", Path(document).read_text(encoding="utf-8"), re.M | re.S)[1]
examples = []
for language, block in re.findall(r"^```(console|python)\n(.*?)^```", section, re.M | re.S):
    if language == "console":
        commands = re.findall(r"^\$ (.*)\n((?:(?!\$ ).*\n)*)", block, re.M)
        examples += [doctest.Example(f"shell({command!r})\n", shown) for command, shown in commands]
    else:
        examples += doctest.DocTestParser().get_examples(block)
if len(examples) < 2:
    print(f"{heading}: nothing is shown")
doctest.DocTestRunner().run(doctest.DocTest(examples, {"shell": shell}, heading, document, 0, section))
