"""completions.py SHELL FILE LINE: prints what an interactive bash or zsh makes of LINE when Tab is pressed.

FILE has the completions: bash reads it, and zsh finds it by its folder. The shell runs at a terminal of its own, since
which files it adds is up to its line editor. The line is then put between quotes and printed by the shell itself.
"""

import os
import pty
import re
import select
import sys
import time

SETUP = {
    "bash": (["bash", "--norc", "--noprofile", "-i"], "bind 'set enable-bracketed-paste off'; . {file}"),
    "zsh": (["zsh", "-f", "-i"], "bindkey -e; fpath=({folder} $fpath); autoload -Uz compinit; compinit -u -D"),
}
START, END = "\x01", "\x05"  # Ctrl-A and Ctrl-E
SECONDS = 20


def read_until(terminal, pattern):
    """What the shell writes until the pattern is there, or no more comes."""
    text = ""
    end = time.monotonic() + SECONDS
    while time.monotonic() < end:
        if select.select([terminal], [], [], 0.1)[0]:
            text += os.read(terminal, 4096).decode(errors="replace")
        found = re.search(pattern, text)
        if found:
            return found
    sys.exit(f"completions.py: the shell said: {text!r}")


def main():
    shell, file, line = sys.argv[1:]
    words, setup = SETUP[shell]
    child, terminal = pty.fork()
    if child == 0:
        os.environ.update(TERM="dumb", PS1="$ ", HISTFILE="/dev/null", INPUTRC="/dev/null")
        os.execvp(words[0], words)
    setup = setup.format(file=file, folder=os.path.dirname(file))
    os.write(terminal, f"{setup}; echo rea''dy\n".encode())
    read_until(terminal, r"\nready\r\n")
    os.write(terminal, f"{line}\t{START}echo 'is: {END}'\n".encode())
    print(read_until(terminal, r"\nis: (.*?)\r\n")[1])
    os.close(terminal)
    os.waitpid(child, 0)


main()
