"""A program that replies by a script, for faults that the real one has on no demand."""

import os
import sys
import tempfile
from unittest import mock

_HEAD = """#!{python}
import os, signal, sys, time

def read(count=1):
    for _ in range(count):
        if not sys.stdin.buffer.readline():
            os._exit(0)

def say(*pieces):
    for piece in pieces:
        os.write(1, piece)
        time.sleep({pause})

def cost(number):
    return number.to_bytes(8, "little")

def rest():
    while sys.stdin.buffer.readline():
        pass

{body}
"""


class Fake:
    """Such a program in a folder of its own, as long as a `with` lasts. It reads and replies as the body says."""

    def __init__(self, body, pause=0):
        self._text = _HEAD.format(python=sys.executable, body=body, pause=pause)

    def __enter__(self):
        self._folder = tempfile.TemporaryDirectory()
        self.path = os.path.join(self._folder.name, "program")
        with open(self.path, "w", encoding="utf-8") as file:
            file.write(self._text)
        os.chmod(self.path, 0o755)
        self._named = mock.patch.dict(os.environ, HOLLOWBOWL=self.path)
        self._named.start()
        return self

    def __exit__(self, *_):
        self._named.stop()
        self._folder.cleanup()


def fake(body, pause=0):
    """A program that has the graph of one arc from 0 to 1, of weight 7, and knows kinds. It goes on by the body, from line 5."""
    return Fake('read(2)\nsay(b"r 2 1 2\\n")\nread(2)\nsay(b"r 2 1 3\\nr 2 1 4\\n")\n' + body, pause)
