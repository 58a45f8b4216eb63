"""Changes that are undone, and who waits meanwhile.

An undo is owed before its change is sent. It is done once its holder has left or is gone, and at the latest before the
next answer: so no interrupt loses it. As long as it is owed to a holder, other threads than the holder's wait.
"""

import weakref
from collections import deque

from ._changes import undoing
from ._errors import ChangeStays, NoArc, OutOfMemory
from ._questions import Between


class Wanted:
    """The arcs between pairs of vertices, once the program is asked."""

    def __init__(self, needed, others=()):
        """Takes pairs that need to have an arc, and others."""
        self._needed = dict.fromkeys(needed)
        self.pairs = list(dict.fromkeys([*self._needed, *others]))
        self.question = Between([tail for tail, _ in self.pairs], [head for _, head in self.pairs])

    def check(self):
        """Goes on if there is an arc where one has to be."""
        here = {(tail, head) for tail, head, _ in self.question.found}
        missing = [pair for pair in self._needed if pair not in here]
        if missing:
            raise NoArc(missing)


class Loan:
    """The changes that are made for a while and, once the program is asked what stands there, those that undo them."""

    def __init__(self, holder, wake, wanted, changes):
        """`wake` is called once the holder is gone."""
        self.wanted = wanted
        self.changes = changes
        #: Set once the holder has left.
        self.is_left = False
        self.caller = self.version = self.undo = None
        self._holder = weakref.ref(holder, wake)

    def is_over(self):
        """Tells whether the holder has left or is gone."""
        return self.is_left or self._holder() is None

    def begin(self, caller, version):
        """Takes in what was found there, for a thread that calls."""
        self.wanted.check()
        self.undo = undoing(self.wanted.pairs, self.wanted.question.found)
        self.caller, self.version = caller, version


class Owed:
    """The loans of a graph, the last first to be undone, and the exchanges that wait for them."""

    def __init__(self):
        #: In the order in which they were made.
        self.loans = []
        #: The exchanges that were put off.
        self.waiting = deque()

    def puts_off(self, exchange):
        """Tells whether an exchange has to wait; then it waits here."""
        if self._is_free() or exchange.caller in (None, self.loans[0].caller):
            return False
        self.waiting.append(exchange)
        return True

    def next(self):
        """The first exchange that waits and may be done now; None if there is none."""
        return self.waiting.popleft() if self.waiting and self._is_free() else None

    def any(self):
        """The first exchange that waits, whatever it waits for; None if there is none."""
        return self.waiting.popleft() if self.waiting else None

    def _is_free(self):
        return not self.loans or self.loans[0].is_over()

    def lend(self, session, loan, caller):
        """Makes the changes of a loan for a thread that calls. If one is refused, all are undone."""
        loan.begin(caller, session.version)
        self.loans.append(loan)
        try:
            for change in loan.changes:
                session.change(change)
        except BaseException as fault:
            loan.is_left = True
            if isinstance(fault, OutOfMemory):
                self.settle(session)
            raise

    def settle(self, session):
        """Undoes what is owed to nobody any more, and what came after it."""
        first = next((place for place, loan in enumerate(self.loans) if loan.is_over()), len(self.loans))
        while len(self.loans) > first:
            self._undo(session, self.loans[-1])
            self.loans.pop()

    def _undo(self, session, loan):
        if session.version == loan.version:
            # None of it was done.
            return
        try:
            for change in loan.undo:
                session.change(change)
        except OutOfMemory:
            self.loans.pop()
            raise ChangeStays("there is no memory to put the arcs back that were changed") from None
