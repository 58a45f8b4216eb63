"""Arcs that are others as long as a `with` lasts."""

import sys

from ._owed import Loan


class Changed:
    """A change of a graph that is undone at the end of the `with`, however that comes."""

    def __init__(self, graph, wanted, changes, seconds):
        self._graph = graph
        self._wire = graph._wire
        self._seconds = seconds
        self._is_begun = False
        self._loan = Loan(self, self._wire.waker(), wanted, changes)

    def __enter__(self):
        if self._is_begun:
            raise RuntimeError("a change is made by one `with` alone: call `changed` again")
        self._is_begun = True
        loan = self._loan
        try:
            self._graph._have("lend", loan, seconds=self._seconds)
            return self._graph
        except BaseException:
            loan.is_left = True
            raise

    def __exit__(self, *_):
        self._loan.is_left = True
        self._wire.settle(self._seconds)


def leave_cut_ones():
    """Has those left whose beginning or end was cut short by a fault that is handled now.

    An interrupt may come before the first line of `__exit__`; then the fault's traceback keeps the holder there.
    """
    fault = sys.exc_info()[1]
    while fault is not None:
        trace = fault.__traceback__
        while trace is not None:
            loan = _loan_of(trace.tb_frame)
            if loan is not None:
                loan.is_left = True
            trace = trace.tb_next
        fault = fault.__context__


def _loan_of(frame):
    """The loan that a frame begins or ends; None if it is another frame, or has not come to that."""
    if frame.f_code is Changed.__enter__.__code__:
        return frame.f_locals.get("loan")
    if frame.f_code is Changed.__exit__.__code__ and "self" in frame.f_locals:
        return frame.f_locals["self"]._loan
    return None
