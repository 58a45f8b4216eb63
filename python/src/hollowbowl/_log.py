"""What was changed since a graph was made, kept so that another program can begin with it.

Whatever was done in turn, it comes to pairs whose arcs go, and then arcs that come. So a change that is made and undone
over and over takes no more than once.
"""

from array import array

from ._changes import Addition, Removal
from ._numbers import numpy


class Log:
    """The pairs of vertices whose first arcs are gone, and added arcs in their order, 12 bytes each."""

    def __init__(self):
        self.columns = [array("I"), array("I"), array("I")]
        # Each is one number: the tail, and the head in its last 32 bits.
        self._gone = set()

    def append(self, columns):
        """Takes in arcs that were added."""
        for kept, given in zip(self.columns, columns):
            kept.frombytes(given.tobytes())

    def cut(self, tails, heads):
        """Takes in pairs whose arcs went, those that were added among them."""
        gone = {tail << 32 | head for tail, head in zip(tails.tolist(), heads.tolist())}
        self._gone |= gone
        self.columns = self._others(gone)

    def _others(self, gone):
        """The columns of the added arcs of other pairs."""
        if numpy is None or not len(self.columns[0]):
            left = [arc for arc in zip(*self.columns) if arc[0] << 32 | arc[1] not in gone]
            return [array("I", [arc[place] for arc in left]) for place in range(3)]
        columns = [numpy.frombuffer(each, dtype=numpy.uint32) for each in self.columns]
        keys = columns[0].astype(numpy.uint64) << numpy.uint64(32) | columns[1]
        others = ~numpy.isin(keys, numpy.fromiter(gone, dtype=numpy.uint64, count=len(gone)))
        return [array("I", each[others].tobytes()) for each in columns]

    def changes(self):
        """The changes that make the graph of the first one. They stay as they are, whatever is taken in later."""
        if self._gone:
            ends = [array("I", (key >> 32 for key in self._gone)), array("I", (key & 0xFFFFFFFF for key in self._gone))]
            yield Removal(ends)
        if len(self.columns[0]):
            yield Addition([each[:] for each in self.columns])
