"""layers.py CRATE..: prints the modules of each crate that stand in a cycle, by what each of them uses (`use crate::`).

So every crate is a list of files in layers: each stands on those below it alone.
"""

import re
import sys
from pathlib import Path

USE = re.compile(r"^(?:pub(?:\([a-z]+\))? )?use crate::((?:\w+::)+)", re.MULTILINE)


def modules_of(crate):
    """By module, as `hints::pace`, the modules of the crate that its file uses."""
    root = Path("crates", crate, "src")
    files = {str(path.relative_to(root).with_suffix("")).replace("/", "::"): path for path in root.rglob("*.rt")}
    uses = {}
    for module, path in files.items():
        found = set()
        for used in USE.findall(path.read_text(encoding="utf-8")):
            parts = used.split("::")[:-1]
            names = ["::".join(parts[:count]) for count in range(len(parts), 0, -1)]
            found.update([name for name in names if name in files][:1])
        uses[module] = found - {module}
    return uses


def reached_from(uses, module):
    """The modules that stand below this one."""
    seen, left = set(), list(uses[module])
    while left:
        name = left.pop()
        if name not in seen:
            seen.add(name)
            left += uses.get(name, ())
    return seen


for crate in sys.argv[1:]:
    uses = modules_of(crate)
    below = {module: reached_from(uses, module) for module in uses}
    cycle = sorted(module for module in uses if module in below[module])
    if cycle:
        print(f"{crate}: modules in a cycle: {' '.join(cycle)}")
