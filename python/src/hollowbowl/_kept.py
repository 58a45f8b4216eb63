"""What a graph was made of, kept so that another program can begin with it."""

import gzip
import os
import re
import stat
import threading
import zlib

from ._errors import BadGraph, GraphChanged
from ._text import arcs_of_lines, columns_of_arcs, graph_text

_READ = 1 << 20

_SECTION = re.compile(rb"(?m)^[ \t]*p[ \t]+aux")


class Columns:
    """The tails, heads and weights of arcs, and how many vertices there are."""

    def __init__(self, n, tails, heads, weights):
        self.n = n
        self.m = len(tails)
        self._columns = (tails, heads, weights)

    def check(self):
        """Goes on: columns stay what they are."""

    def pieces(self):
        """The text of the graph, in pieces of bytes."""
        return graph_text(self.n, *self._columns)

    def columns(self):
        """The tails, heads and weights."""
        return self._columns

    def close(self):
        """Lets go of the columns."""
        self._columns = None


class File:
    """A file of the `.gr` format, which stays open: it may be renamed or deleted, but not changed."""

    def __init__(self, path):
        self.path = os.fspath(path)
        # Without waiting for whoever writes, if it is a pipe.
        self._file = open(self.path, "rb", buffering=0, opener=lambda name, flags: os.open(name, flags | os.O_NONBLOCK))
        if not stat.S_ISREG(os.fstat(self._file.fileno()).st_mode):
            self._file.close()
            raise ValueError(f"{self.path} is no regular file: copy what it gives to one")
        self._is_packed = os.fsdecode(self.path).endswith(".gz")
        self._stamp = self._look()
        self._reading = threading.Lock()

    def _look(self):
        found = os.fstat(self._file.fileno())
        return found.st_size, found.st_mtime_ns, found.st_ino

    def check(self):
        """Goes on if the file is what it was when it was opened."""
        if self._look() != self._stamp:
            raise GraphChanged(f"{self.path} has changed since the graph was made of it")

    def pieces(self):
        """The bytes of the file, in pieces. It is looked at before the first and after the last."""
        self.check()
        yield from self._unpacked() if self._is_packed else self._plain()
        self.check()

    def columns(self):
        """The tails, heads and weights of its arcs, read anew. It is known to be a graph."""
        found, rest = [], b""
        for piece in self.pieces():
            text = rest + piece
            whole = text.rfind(b"\n") + 1
            found.append(arcs_of_lines(text[:whole]))
            rest = text[whole:]
        return columns_of_arcs([*found, arcs_of_lines(rest)])

    def section_line(self):
        """The number of the first line that begins a section; None if no line does."""
        lines, rest = 1, b""
        for piece in self._unpacked() if self._is_packed else self._plain():
            text = rest + piece
            found = _SECTION.search(text)
            if found:
                return lines + text.count(b"\n", 0, found.start())
            whole = text.rfind(b"\n") + 1
            lines += text.count(b"\n")
            rest = text[whole:]
        return None

    def _plain(self):
        at = 0
        while piece := os.pread(self._file.fileno(), _READ, at):
            at += len(piece)
            yield piece

    def _unpacked(self):
        # Several programs may begin at a time, and the file has one position.
        with self._reading:
            self._file.seek(0)
            with gzip.GzipFile(fileobj=self._file, mode="rb") as packed:
                while piece := self._read(packed):
                    yield piece

    def _read(self, packed):
        try:
            return packed.read(_READ)
        except (EOFError, zlib.error, gzip.BadGzipFile) as fault:
            raise BadGraph(self.path, None, f"no whole file of gzip: {fault}") from None

    def close(self):
        """Closes the file."""
        self._file.close()
