"""Reads XML of OpenStreetMap in pieces, several at once, for osm_to_gr.py.

A piece ends before an element of the first level, and a process reads it by itself: by a regular expression, or else by
a parser. From the first piece that can't be read so, one parser reads on to the end of the map. It finds what is wrong,
and its line.
"""

import lzma
import zlib
from functools import partial
from itertools import chain
from xml.parsers import expat

from osm_elements import Collector
from osm_scan import is_head, scan
from osm_xml import parser_of
from processes import Crew

PIECE = 1 << 21  # the bytes of a piece, but that it goes on to the next element
LONGEST = 16  # as many pieces, without an element that begins, are no map
FIRST = (b"<node ", b"<way ", b"<relation ")
NEAR = 1 << 16  # the bytes at the end of a piece in which its last element mostly begins
LAST = b"</osm>"
DAMAGED = (EOFError, zlib.error, lzma.LZMAError, OSError)


class Pieces:
    """The pieces of a stream one after another. `fault` is what went wrong as it was read, and so ended them."""

    def __init__(self, stream):
        self.stream, self.size, self.fault = stream, PIECE, None
        self.left, self.has_ended = b"", False

    def read(self):
        if self.has_ended:
            return
        try:
            more = self.stream.read(self.size)
        except DAMAGED as fault:
            self.fault, more = fault, b""
        self.has_ended = not more
        self.left += more

    def head(self):
        """The text before the first element."""
        while not self.has_ended and not any(each in self.left for each in FIRST) and len(self.left) < self.size:
            self.read()
        at = min((at for at in map(self.left.find, FIRST) if at >= 0), default=len(self.left))
        head, self.left = self.left[:at], self.left[at:]
        return head

    def __iter__(self):
        return self

    def __next__(self):
        """The next piece. The last one is what is left."""
        self.read()
        cut = self.cut()
        while not self.has_ended and not cut and len(self.left) < LONGEST * self.size:
            self.read()
            cut = self.cut()
        if self.has_ended and not self.left:
            raise StopIteration
        piece, self.left = (self.left, b"") if self.has_ended or not cut else (self.left[:cut], self.left[cut:])
        return piece

    def cut(self):
        """The place where the last element begins, or 0."""
        near = max(0, len(self.left) - NEAR)
        at = max(self.left.rfind(each, near) for each in FIRST)
        return at if at > 0 else max(0, *map(self.left.rfind, FIRST))


def before_end(piece):
    """The part of a piece before the end of the map, or None if it doesn't have that."""
    piece = piece.rstrip(b" \t\n")
    return piece[: -len(LAST)] if piece.endswith(LAST) else None


def elements_in(piece, wanted):
    """The elements of a piece, or None if it can't be read by itself."""
    lines, last = piece.count(b"\n"), before_end(piece)
    piece = piece if last is None else last
    # A parser takes a carriage return as the end of a line, or as one with a line feed.
    if b"\r" in piece:
        return None
    try:
        collector = Collector(wanted)
        if not scan(piece.decode(), collector):
            collector = Collector(wanted)
            parser_of(collector).Parse(b"<osm>" + piece + b"</osm>", True)
        collector.elements.lines = lines
        return collector.elements
    except (expat.ExpatError, KeyError, ValueError, OverflowError):
        return None


class Reading:
    """Reads a map from a stream, and gives its elements to `take`. `line` is where the parser is."""

    def __init__(self, stream, wanted, take):
        self.pieces, self.wanted, self.take = Pieces(stream), wanted, take
        self.lines = 0  # before what the parser reads
        self.collector = Collector(wanted, take)
        self.parser = parser_of(self.collector)

    @property
    def line(self):
        return self.lines + self.parser.CurrentLineNumber

    def read(self):
        head = self.pieces.head()
        if is_head(head.decode(errors="replace")):
            self.lines += head.count(b"\n")
            rest = self.read_pieces()
            head = b"<osm>"
        else:
            rest = self.pieces
        if rest is not None:
            self.parse(head, rest)
            self.collector.hand_over()
        if self.pieces.fault:
            raise self.pieces.fault

    def read_pieces(self):
        """Reads the pieces that can be read by themselves. Gives the others, or None if there are none."""
        first = next(self.pieces, None)
        if first is None:
            return ()
        # A map that is one piece is read here.
        with Crew(partial(elements_in, wanted=self.wanted), 1 if self.pieces.has_ended else None) as crew:
            ahead = self.give(crew, first)
            while crew.waiting:
                elements, piece = crew.take()
                if elements is None:
                    return [piece, *(piece for _, piece in crew.waiting), *ahead]
                self.take(elements)
                self.lines += elements.lines
                ahead = ahead or self.give(crew, next(self.pieces, None))
        return ahead or None

    def give(self, crew, piece):
        """Gives a crew pieces, from one on, as long as it has room.

        Returns a piece that ends the map though more come, or doesn't though it is the last one.
        """
        while piece is not None:
            if (before_end(piece) is not None) != self.pieces.has_ended:
                return [piece]
            crew.give(piece)
            piece = next(self.pieces, None) if len(crew.waiting) < crew.count else None
        return []

    def parse(self, head, rest):
        """Reads a map by one parser, from a piece on."""
        self.parser.Parse(head, False)
        for piece in chain(rest, self.pieces):
            self.parser.Parse(piece, False)
        if not self.pieces.fault:
            self.parser.Parse(b"", True)
