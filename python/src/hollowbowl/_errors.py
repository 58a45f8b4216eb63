"""What can go wrong when a graph is asked. Each of these can be pickled, so that a pool of processes can pass it on."""

import sys
from functools import lru_cache


class Error(Exception):
    """Any fault of this package."""


class NoPath(Error):
    """No walk leads from the source to the target."""

    def __init__(self, source, target):
        super().__init__(source, target)
        self.source = source
        self.target = target

    def __str__(self):
        return f"no walk leads from {self.source!r} to {self.target!r}"


class NoVertex(Error, KeyError, IndexError):
    """A number or a name that no vertex has. `vertex` is what was given, and `count` how many vertices there are."""

    def __init__(self, vertex, count):
        super().__init__(vertex, count)
        self.vertex = vertex
        self.count = count

    def __str__(self):
        return f"{self.vertex!r} is none of {self.count} vertices"


class NoArc(Error, KeyError):
    """No arc leads from the first to the second vertex of these `pairs`, where one has to."""

    def __init__(self, pairs):
        super().__init__(pairs)
        self.pairs = pairs

    def __str__(self):
        ends = ", ".join(f"from {tail!r} to {head!r}" for tail, head in self.pairs[:3])
        return f"no arc leads {ends}{', ..' if len(self.pairs) > 3 else ''}"


# What networkx raises for the same.
_OTHERS = {NoPath: "NetworkXNoPath", NoVertex: "NodeNotFound"}


def fault_of(kind, *words):
    """A NoPath or a NoVertex, which is also what networkx raises where networkx is imported by now."""
    other = getattr(sys.modules.get("networkx"), _OTHERS[kind], None)
    return (kind if other is None else _both(kind, other))(*words)


@lru_cache(maxsize=None)
def _both(kind, other):
    reduce = lambda self: (fault_of, (kind, *self.args))
    return type(kind.__name__, (kind, other), {"__module__": __name__, "__reduce__": reduce})


class BadGraph(Error, ValueError):
    """A file that is no graph, or more than one. `line` is where, if a line tells, and `words` say what is wrong."""

    def __init__(self, path, line, words):
        super().__init__(path, line, words)
        self.path = path
        self.line = line
        self.words = words

    def __str__(self):
        return f"{self.path}: {self.words}" if self.line is None else f"{self.path}: line {self.line}: {self.words}"


class GraphChanged(Error, RuntimeError):
    """The file of the graph differs from what was read of it at first, so that no other program can begin with it.

    Also where arcs change while `rows` and its kin are on their way.
    """


class ChangeStays(Error, RuntimeError):
    """There is no memory to put back the arcs that `changed` has changed, so they are as it made them."""


class NotKept(Error, RuntimeError):
    """The graph was made with `keep=False`, so Python has no arcs for another program, or to give out."""


class Refused(Error, ValueError):
    """A record that the program takes for wrong. The graph is as it was.

    `words` says what is wrong, and `record` is the line of the request that is, as it was sent.
    """

    def __init__(self, words, record):
        super().__init__(words, record)
        self.words = words
        self.record = record

    def __str__(self):
        return f"{self.words}: {self.record!r}" if self.record else self.words


class OutOfMemory(Error, MemoryError):
    """The program has no memory for the question or change. Of an `add`, `added` arcs are in the graph."""

    def __init__(self, words="out of memory", added=0):
        super().__init__(words, added)
        self.words = words
        self.added = added

    def __str__(self):
        return self.words


class Ended(Error, RuntimeError):
    """The program has ended, with this status; `text` is what it wrote on standard error."""

    def __init__(self, status, text):
        super().__init__(status, text)
        self.status = status
        self.text = text

    def __str__(self):
        if self.status is None:
            return self.text
        if self.status == -9:
            end = "the program was killed (signal 9), perhaps for want of memory"
        elif self.status < 0:
            end = f"the program was ended by signal {-self.status}"
        else:
            end = f"the program ended with status {self.status}"
        return f"{end}: {self.text}" if self.text else end


class Closed(Ended):
    """The graph was closed."""

    def __init__(self, status=None, text="the graph is closed"):
        super().__init__(status, text)


class Timeout(Error, TimeoutError):
    """No answer came within the time that was given. The question is answered all the same, and a change is made."""


class ProgramMissing(Error, FileNotFoundError):
    """There is no program where it was looked for."""


class ProgramTooOld(Error, RuntimeError):
    """The program is older than this package: its replies name no line, or it doesn't know all kinds or changes."""


class OutOfStep(Error, RuntimeError):
    """A reply that is none to what was asked: a fault of the program or of this package. The graph is closed."""


class WrongProcess(Error, RuntimeError):
    """A graph that another process made, of which this one is a fork."""
