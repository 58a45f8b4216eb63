"""What can be asked, each as requests of some of its items and what is read of their replies.

A question has a `kind`, which says what a walk costs, a `form` whose requests take alike long an item, and a `count` of
items. `most_bytes` bounds the text of a reply. `end` says where a request of about so many items ends; `request` makes
the text for the items from `first` up to `last`; `read` gives what came in reply and its last line, and `take` looks at
what came. `is_near` tells whether it may take less than to go through the graph.

Requests name all that they ask, so no option of the program changes what it answers.
"""

from array import array
from bisect import bisect_left, bisect_right

from ._errors import OutOfStep
from ._numbers import labels_for, numpy, order_of, picked
from ._text import MOST_ITEMS, arcs_in, components_in, near_in, pairs_text, sources_text, totals_in, walks_in

#: The kinds: costs are sums of weights, or numbers of arcs.
DISTANCES, LEVELS = b"distances", b"levels"

# The forms of which one item may take little.
_NEAR = ("pairs", "walks", "near", "arcs")


class Question:
    """A question that is asked as one request, and whose reply is a text."""

    form = "one"
    count = 1
    #: How many a caller counts in place of one item.
    items = 1
    most_bytes = 1 << 40

    def begin(self):
        """Forgets what was found: it is asked from its first item on."""
        self.found = []

    def is_near(self):
        return self.count == 1 and self.form in _NEAR

    def end(self, first, size):
        return min(first + size, self.count)

    def read(self, process, first, last):
        return process.text()


class Rows(Question):
    """The labels from each source to all vertices, which go to `rows`."""

    form = "rows"

    def __init__(self, kind, sources, rows):
        self.kind = kind
        self.count = len(sources)
        self.rows = rows
        self.sources = sources

    def request(self, first, last):
        return sources_text(self.kind + b" raw ss", self.sources[first:last])

    def read(self, process, first, last):
        for place in range(first, last):
            line = process.line()
            if place == first and line.startswith(b"e"):
                return None, line
            if line != b"s %d\n" % (int(self.sources[place]) + 1):
                raise OutOfStep("a row is that of another source")
            self.fill(process, place)
        return None, process.line()

    def fill(self, process, place):
        """Takes the labels of the source at a place."""
        process.fill(self.rows[place])

    def take(self, body, first, last):
        """Nothing is left to look at: the labels came into their rows."""


class RowsAt(Rows):
    """The cost from each source to each target, source by source, of whole rows; `costs` has them."""

    def __init__(self, kind, sources, targets, n):
        super().__init__(kind, sources, None)
        self.costs = labels_for(len(sources) * len(targets))
        self.items = len(targets)
        self._targets = targets
        self._row = labels_for(n)

    def fill(self, process, place):
        process.fill(self._row)
        row, first = self._row, place * self.items
        found = row[self._targets] if numpy is not None else array("Q", [row[target] for target in self._targets])
        self.costs[first : first + self.items] = found


class Totals(Question):
    """What the costs from each source come to; `found` has four numbers for each."""

    form = "totals"

    def __init__(self, kind, sources):
        self.kind = kind
        self.count = len(sources)
        self._sources = sources

    def request(self, first, last):
        return sources_text(self.kind + b" totals ss", self._sources[first:last])

    def take(self, body, first, last):
        self.found.extend(totals_in(body, self._sources[first:last]))


class Pairs(Question):
    """The cost from each source to the target at its place; `costs` has them."""

    form = "pairs"

    def __init__(self, kind, sources, targets):
        self.kind = kind
        self.count = len(sources)
        self.costs = labels_for(self.count)
        self._sources, self._targets = sources, targets

    def _ends(self, first, last):
        return self._sources[first:last], self._targets[first:last]

    def request(self, first, last):
        return pairs_text(self.kind + b" raw p2p", *self._ends(first, last))

    def read(self, process, first, last):
        # A reply to no pairs has no label whose bytes tell.
        line = process.line_before_labels() if first < last else None
        if line is None:
            process.fill(memoryview(self.costs)[first:last])
            line = process.line()
        return None, line

    def take(self, body, first, last):
        """Nothing is left to look at: the costs came into their places."""


class Matrix(Pairs):
    """The cost from each source to each target, source by source."""

    def __init__(self, kind, sources, targets):
        self.kind = kind
        self.count = len(sources) * len(targets)
        self._step = max(1, len(targets))
        self.costs = labels_for(self.count)
        self._sources, self._targets = sources, targets

    def end(self, first, size):
        """At the end of a row: the source of one that is cut is solved again."""
        whole = max(1, size // self._step) * self._step - first % self._step
        return min(first + min(whole, MOST_ITEMS), self.count)

    def _ends(self, first, last):
        if self.count == 1:
            return self._sources, self._targets
        if numpy is not None:
            places = numpy.arange(first, last)
            return self._sources[places // self._step], self._targets[places % self._step]
        ends = [divmod(place, self._step) for place in range(first, last)]
        return [self._sources[row] for row, _ in ends], [self._targets[place] for _, place in ends]


class Walks(Pairs):
    """The walk from each source to the target at its place; `found` has the cost and the vertices of each."""

    form = "walks"
    # Vertices take some six times as much memory as their text.
    most_bytes = 1 << 22

    def __init__(self, kind, sources, targets):
        self.kind = kind
        self.count = len(sources)
        self._sources, self._targets = sources, targets

    def request(self, first, last):
        return pairs_text(self.kind + b" walk", *self._ends(first, last))

    def read(self, process, first, last):
        return process.text()

    def take(self, body, first, last):
        self.found.extend(walks_in(body, *self._ends(first, last)))


class SortedWalks(Walks):
    """As `Walks`, asked source by source: a source is solved once for all of its targets."""

    def __init__(self, kind, sources, targets):
        self._order = order_of(sources)
        super().__init__(kind, *(picked(each, self._order) for each in (sources, targets)))

    def in_order(self):
        """The source, the target and the vertices of each walk, in the order that was given."""
        walks = [None] * self.count
        order = range(self.count) if self._order is None else self._order
        for place, source, target, (_, vertices) in zip(order, self._sources, self._targets, self.found):
            walks[place] = int(source), int(target), vertices
        return walks


class SortedPairs(Pairs):
    """As `Pairs`, asked source by source."""

    def __init__(self, kind, sources, targets):
        self._order = order_of(sources)
        super().__init__(kind, *(picked(each, self._order) for each in (sources, targets)))

    def end(self, first, size):
        """At the end of a source if it can: one that is cut is solved again, which takes as long as many pairs."""
        last = min(first + size, self.count)
        if last == self.count or self._sources[last - 1] != self._sources[last]:
            return last
        cut = int(self._sources[last])
        begun = bisect_left(self._sources, cut, first, last)
        return begun if begun > first else min(bisect_right(self._sources, cut, last), first + MOST_ITEMS)

    def in_order(self):
        """The costs, in the order of the pairs that were given."""
        if self._order is None:
            return self.costs
        costs = labels_for(self.count)
        if numpy is not None:
            costs[self._order] = self.costs
        else:
            for place, cost in zip(self._order, self.costs):
                costs[place] = cost
        return costs


class Near(Question):
    """The vertices within a bound of each source, and their costs; `found` has both for each."""

    form = "near"
    most_bytes = 1 << 24

    def __init__(self, kind, sources, bound):
        self.kind = kind
        self.count = len(sources)
        self.sources, self._bound = sources, bound

    def request(self, first, last):
        return sources_text(self.kind + b" each within %d" % self._bound, self.sources[first:last])

    def take(self, body, first, last):
        self.found.extend(near_in(body, self.sources[first:last]))


class Between(Question):
    """The arcs from each tail to the head at its place; `found` has them in turn."""

    kind, form = b"", "arcs"
    most_bytes = 1 << 24

    def __init__(self, tails, heads):
        self.count = len(tails)
        self._tails, self._heads = tails, heads

    def request(self, first, last):
        return pairs_text(b"arcs", self._tails[first:last], self._heads[first:last])

    def take(self, body, first, last):
        self.found.extend(arcs_in(body, self._tails[first:last], self._heads[first:last]))


class Components(Question):
    """The weak components; `labels` has a number for each vertex."""

    kind = b"components"

    def __init__(self, n):
        self._n = n

    def request(self, first, last):
        return sources_text(self.kind + b" ss", [])

    def take(self, body, first, last):
        self.labels = components_in(body, self._n)
