"""Answers that come one after another, for as many items as there are.

While a caller looks at the answers of one request the program works at the next, so those of two are in memory. As
with a dictionary, a graph may not change meanwhile; it may be asked anything.
"""

from ._errors import GraphChanged
from ._exchange import Exchange


class Stream:
    """Questions for some items each, which are asked in turn, and the answers for each item."""

    def __init__(self, wire, count, size, make, answers, is_same):
        """A stream for so many items.

        `size` gives how many are next, `make` the question for those from one place up to another, and `answers` what
        an answered question says of each. `is_same` tells whether the graph is as it was at the call.
        """
        self._wire = wire
        self._count = count
        self._size = size
        self._make = make
        self._answers = answers
        self._is_same = is_same

    def _check(self):
        """Goes on if the graph is as it was at the call."""
        if not self._is_same():
            raise GraphChanged("the graph's arcs have changed since the call whose answers come")

    def _ask(self, first):
        """A question for the items from `first` on and its exchange, under way; None and None if there are no more."""
        if first == self._count:
            return None, None
        question = self._make(first, min(first + self._size(), self._count))
        exchange = Exchange(lambda by, exchange: by.ask(question, exchange), is_near=question.is_near())
        self._wire.send(exchange)
        return question, exchange

    def each(self, seconds, progress):
        """Gives the answer for each item, and waits so long for each. Who leaves early has no more asked."""
        done, waiting = 0, None
        try:
            question, waiting = self._ask(0)
            while waiting is not None:
                waiting.wait(seconds)
                answers, count = self._answers(question), question.count
                done += count
                question, waiting = self._ask(done)
                if progress is not None:
                    progress(done, self._count)
                for _ in range(count):
                    self._check()
                    yield next(answers)
        finally:
            if waiting is not None:
                waiting.is_left = True
                # The fault's traceback has this frame.
                waiting = None
