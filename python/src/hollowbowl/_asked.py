"""What all questions of a graph stand on: its vertices, its program, and the unit of its costs."""

from ._columns import as_weights
from ._numbers import as_seconds, is_float
from ._questions import DISTANCES, LEVELS
from ._stream import Stream
from ._text import MOST_ITEMS


class Asked:
    """A graph as far as it is asked."""

    # _names    its vertices
    # _wire     the way to its program
    # _standing gives what its arcs are made of by now
    # _is_directed whether arcs that are given lead one way
    # _scale    what weights were multiplied by; None if they are whole numbers
    # _asked    gives the graph that answers, which is another for costs to vertices, and the version that it is of
    # _rounding by how much they were rounded; None if they are not

    def _ask(self, question, timeout, progress=None, to=False):
        """Asks a question, which has the answer then; `to` asks it of the reversed graph."""
        progress = None if progress is None else _as_function(progress)
        wire, seconds = self._asked(to, timeout)[0]._wire, as_seconds(timeout)
        wire.ask("ask", question, seconds=seconds, progress=progress, is_near=question.is_near())
        return question

    def _each(self, kind, form, count, make, answers, timeout, progress, most=MOST_ITEMS, to=False):
        """The answers for so many items in turn (`Stream`), by requests of a kind and form, of `most` items each."""
        asked, version = self._asked(to, timeout)
        if not to:
            # A change whose caller has gone may be under way.
            version = self._wire.moment(as_seconds(timeout))
        sizes = asked._wire.state.sizes
        size = lambda: min(sizes.size(kind, form), most)
        stream = Stream(asked._wire, count, size, make, answers, lambda: self._wire.version == version)
        return stream.each(as_seconds(timeout), None if progress is None else _as_function(progress))

    def _whole_weights(self, weights, which="weights[{}] is"):
        """The weights times the scale, as a column; of a fault `which` says where it is."""
        return as_weights(weights, self._scale, self._rounding, which)

    def _divisor(self, hops, dtype=None, whole=False):
        """What labels are divided by to be costs, which are floats then; None where they are costs as they are."""
        are_floats = is_float(dtype)
        divisor = None if hops or whole else self._scale
        return 1 if divisor is None and are_floats else divisor


def kind_of(hops):
    """The kind of labels: the least costs, or the fewest arcs."""
    return LEVELS if hops else DISTANCES


def _as_function(progress):
    if not callable(progress):
        raise TypeError(f"progress is {progress!r}, which is no function of (done, all)")
    return progress
