"""How a question is asked: as requests that take about a quarter of a second each.

While the program answers one request the next is made, and while it answers that one, what came is looked at. What is
left of a question whose caller has gone holds up the next question no longer than a request takes.
"""

import time

from ._errors import OutOfStep
from ._text import MOST_ITEMS

# How many items the first request of a form has at most, and how many seconds one should take.
_FIRST = {"pairs": 4096, "arcs": 4096, "walks": 256}
_FEW = 16
_SECONDS = 0.25

# The first request of a form may go through so many vertices, if each item goes through all: about as long as it should.
_VERTICES = 1 << 21


class Sizes:
    """How many items a request has: for each kind and form so many as took the right time lately."""

    def __init__(self):
        self._sizes = {}
        #: The number of vertices, once it is known.
        self.n = 1

    def size(self, kind, form):
        """The size of the next request of a kind and form."""
        return self._sizes.get((kind, form)) or self._first(form)

    def _first(self, form):
        first = _FIRST.get(form, _FEW)
        return first if form == "arcs" else max(1, min(first, _VERTICES // max(1, self.n)))

    def of(self, question):
        """The size of the next request of a question."""
        return self.size(question.kind, question.form)

    def learn(self, question, count, seconds, length):
        """Takes in how long the reply to a request took, and how long it is."""
        is_quick = seconds < _SECONDS and length < question.most_bytes
        # A request of few items that was quick tells nothing of one that is full.
        if not count or (is_quick and count < self.of(question)):
            return
        wanted = int(count * min(_SECONDS / max(seconds, 1e-6), question.most_bytes / max(length, 1)))
        self._sizes[question.kind, question.form] = min(max(wanted, count // 4, 1), count * 4, MOST_ITEMS)


class _Part:
    """The items of a question from `first` up to `last`, and the request for them."""

    def __init__(self, question, first, sizes):
        self.first, self.last = first, question.end(first, sizes.of(question))
        self.request = question.request(first, self.last)
        self._start = None

    def send(self, process):
        """Writes the request. Nothing may have come that was not due."""
        if not process.is_silent():
            raise OutOfStep("more came than a reply")
        self._start = time.monotonic()
        process.write(self.request)

    def seconds(self):
        """How long ago it was sent."""
        return time.monotonic() - self._start


def ask(process, session, question, sizes, exchange, between=lambda: None):
    """Asks a question whose caller waits for an exchange; once it has gone no more is sent.

    Another may be asked `between` requests, while the program waits.
    """
    question.begin()
    part = _Part(question, 0, sizes)
    part.send(process)
    while part is not None:
        following = _Part(question, part.last, sizes) if part.last < question.count else None
        body, end = _in_words(question.read, process, part)
        sizes.learn(question, part.last - part.first, part.seconds(), len(body or b""))
        session.end_of(process, end, part.request)
        if following is not None and exchange.is_left:
            following = None
        if following is not None:
            between()
            following.send(process)
        _in_words(question.take, body, part)
        exchange.step(part.last * question.items, question.count * question.items)
        part = following


def _in_words(look, what, part):
    """Looks at a reply, whose words and numbers have to be those that are due."""
    try:
        return look(what, part.first, part.last)
    except (ValueError, IndexError):
        raise OutOfStep("a reply is none to its request") from None
