"""A file that should be a graph and nothing else, and how its end is told.

Behind the file come three section lines. The first is right, and its reply names it: if the graph is not whole then,
the program says so and ends. The two others are wrong on purpose, and their refusals name their own lines: a line too
many in the file would take the first of them with it, and so is seen. Whatever comes in place of these replies is of
the file's own doing.
"""

import re

from ._errors import BadGraph

GOES_ON = "the file goes on after its graph, where a graph alone is wanted"

_MARKS = b"p aux sp ss 0\np aux sp ss x\np aux sp ss x\n"

# Where many arcs are missing several workers wait for some MiB before they look. They get comments: each time that
# nothing comes for a while twice as many pieces as before, up to so many.
_COMMENTS = b"c\n" * (1 << 15)
_MOST_PIECES = 1 << 9

# Lines of replies but those of components, which come by the million.
_LINES = re.compile(rb"(?m)^[^k\n].*\n|^\n")


class MarkedText:
    """The text that is sent, and the replies to it."""

    def __init__(self, path, pieces):
        self._path = path
        self._pieces = self._marked(pieces)
        self._replies = []
        self._unread = b""
        self._file_lines = None
        self._comments = 1
        #: What of the text is at hand, and not written.
        self.rest = memoryview(b"")
        #: How many lines are written, but for those at hand.
        self.lines = 0
        #: Whether all that was to come has come; and then N and M, or None if replies name no line.
        self.is_told = False
        self.size = None

    @property
    def file_lines(self):
        """How many lines the file has, as far as it was read."""
        return self.lines if self._file_lines is None else self._file_lines

    def _marked(self, pieces):
        last = b"\n"
        for piece in pieces:
            last = piece
            yield piece
        if not last.endswith(b"\n"):
            yield b"\n"
        self._file_lines = self.lines
        yield _MARKS

    def _some_comments(self):
        for _ in range(self._comments):
            if not self._replies:
                yield _COMMENTS

    def pause(self):
        """Has comments at hand, after a while in which nothing came; whether there are more to write."""
        if self._file_lines is None or self._replies or self._comments > _MOST_PIECES:
            return False
        self._pieces = self._some_comments()
        self._comments *= 2
        return True

    def advance(self):
        """Takes the next piece at hand; whether there is one."""
        piece = next(self._pieces, b"")
        self.rest = memoryview(piece)
        self.lines += piece.count(b"\n")
        return bool(piece)

    def take(self, piece):
        """Looks at what came. BadGraph if it is another reply than that which is due."""
        unread = self._unread + piece
        end = unread.rfind(b"\n") + 1
        self._unread = unread[end:]
        for line in _LINES.findall(unread[:end]):
            self._look(line.decode("ascii", "replace").split())

    def _look(self, words):
        due = len(self._replies)
        self._replies.append(words)
        if due == 0 and words[:1] == ["r"] and len(words) == 3:
            # An older program.
            self.is_told = True
        elif due == 0 and words[:1] == ["r"] and len(words) == 4 and int(words[3]) <= self.file_lines:
            self.size = int(words[1]), int(words[2])
        elif due == 1 and self._file_lines is not None and words == [*self._replies[0][:3], str(self._file_lines + 1)]:
            pass
        elif due in (2, 3) and self._file_lines is not None and words == self._refusal(due):
            self.is_told = due == 3
        else:
            # Of a record that it refuses the program names the line, and of a section that it answered the last one.
            line = int(words[1]) if words[:1] == ["e"] and int(words[1]) <= self.file_lines else None
            raise BadGraph(self._path, line, GOES_ON)

    def _refusal(self, due):
        return ["e", str(self._file_lines + due), "not", "a", "number"]
