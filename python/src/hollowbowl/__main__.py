"""Runs the program: python3 -m hollowbowl [OPTION..] <job

With --version alone it says which package and program there are, and from which commit the package was made.
"""

import os
import sys

from . import __commit__, __version__
from ._errors import ProgramMissing
from ._process import program


def run():
    """Becomes the program, with the words of the command line."""
    try:
        command = program()
        os.execvp(command, [command, *sys.argv[1:]])
    except ProgramMissing as fault:
        sys.exit(f"hollowbowl: {fault}")
    except OSError as fault:
        sys.exit(f"hollowbowl: {command} can't be run: {fault.strerror}")


def main():
    """As `run`, but for `--version`."""
    if sys.argv[1:] not in (["--version"], ["-V"]):
        run()
    print(f"hollowbowl {__version__}, of commit {__commit__ or 'unknown'}")
    sys.stdout.flush()
    run()


if __name__ == "__main__":
    main()
