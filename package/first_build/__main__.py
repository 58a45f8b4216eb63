"""Proves the crates below the program, as many at a time as there is room for, and builds it.

Usage: python3 package/first_build. Standard error has a line for each crate that is proved, and what `rt` said of one
that is not. The status is 0 once the program is built, 1 if something is not proved, and 128 and the signal's number if
one ended it. What is proved stays.
"""

import sys
from pathlib import Path

from crates import read_crates
from ending import Ended, note_signals
from progress import Progress
from proofs import Failed, Queue
from trees import remove_folder

PROGRAM = "obim_query"


def build(top):
    """Builds the program of this repository, and returns the status."""
    folder = top / "crates" / PROGRAM / "out/first_build"
    # One that was killed has left its trees.
    remove_folder(folder)
    folder.mkdir(parents=True)
    crates = read_crates(top, PROGRAM)
    queue = Queue(top, crates, PROGRAM, folder)
    try:
        queue.prove(Progress(crates))
        print("obim_query: what the program stands on is proved; it takes some minutes more itself", file=sys.stderr)
        queue.build()
    except Failed as failed:
        name, why, said = failed.args
        print(f"{said}obim_query: {name} is not proved: {why}; above stands what rt said of it", file=sys.stderr)
        return 1
    finally:
        queue.stop()
        remove_folder(folder)
    return 0


def main():
    """Builds the program of the repository that this file is in, and returns the status."""
    note_signals()
    try:
        return build(Path(__file__).resolve().parents[2])
    except Ended as ended:
        return 128 + ended.args[0]


sys.exit(main())
