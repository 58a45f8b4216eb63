"""The text of graphs and requests, and what replies say. Vertices count from 1 in text, and from 0 everywhere else."""

from array import array
from itertools import chain

from ._errors import OutOfStep
from ._numbers import INF, numpy

#: How many sources, pairs or arcs a request can have.
MOST_ITEMS = 1 << 20

# Lines whose text is made at a time.
_CHUNK = 1 << 14

# All bytes of lines of arcs.
_OF_ARCS = b"a0123456789 \t\r\n"

# From how many lines on arrays are quicker than a loop.
_MANY = 64


def graph_text(n, tails, heads, weights):
    """The text of a graph, in pieces."""
    yield b"p sp %d %d\n" % (n, len(tails))
    yield from lines_text("a", [tails, heads, weights], (1, 1, 0))


def arcs_text(form, tails, heads, weights):
    """A section of arcs."""
    return b"p aux sp %s %d\n" % (form, len(tails)) + b"".join(lines_text("a", [tails, heads, weights], (1, 1, 0)))


def sources_text(form, sources):
    """A section of sources."""
    return b"p aux sp %s %d\n" % (form, len(sources)) + b"".join(lines_text("s", [sources], (1,)))


def pairs_text(form, sources, targets):
    """A section of pairs."""
    return b"p aux sp %s %d\n" % (form, len(sources)) + b"".join(lines_text("q", [sources, targets], (1, 1)))


def lines_text(letter, columns, first_numbers):
    """The text of lines that begin with a letter and have the numbers of the columns, in pieces.

    The least number of a column is 0 here, and in text what `first_numbers` says.
    """
    for first in range(0, len(columns[0]), _CHUNK):
        part = [column[first : first + _CHUNK] for column in columns]
        if numpy is not None and len(part[0]) > _MANY:
            numbers = [numpy.asarray(column, dtype=numpy.uint32) for column in part]
            yield _numpy_text(letter, [column + numpy.uint32(more) for column, more in zip(numbers, first_numbers)])
        elif len(part[0]) == 1:
            numbers = [int(column[0]) + more for column, more in zip(part, first_numbers)]
            yield f"{letter} {' '.join(map(str, numbers))}\n".encode("ascii")
        else:
            form = letter + " %d" * len(part) + "\n"
            counted = [[number + more for number in _ints(column)] for column, more in zip(part, first_numbers)]
            yield "".join(map(form.__mod__, zip(*counted))).encode("ascii")


def _ints(column):
    return column.tolist() if hasattr(column, "tolist") else column


def _numpy_text(letter, columns):
    """Each line in a row of bytes of one width, and from that the bytes that belong to it."""
    count = len(columns[0])
    widths = [len(str(int(column.max()))) for column in columns]
    width = 2 + sum(widths) + len(columns)
    text = numpy.full((count, width), ord(" "), dtype=numpy.uint8)
    shown = numpy.ones((count, width), dtype=bool)
    text[:, 0] = ord(letter)
    at = 2
    for column, digits in zip(columns, widths):
        rest = column
        for place in range(at + digits - 1, at - 1, -1):
            text[:, place] = ord("0") + (rest % 10).astype(numpy.uint8)
            if place < at + digits - 1:
                shown[:, place] = rest > 0
            rest = rest // 10
        at += digits + 1
    text[:, width - 1] = ord("\n")
    return text[shown].tobytes()


def _is(good):
    """Goes on if a reply is one to its request."""
    if not good:
        raise OutOfStep("a reply is none to its request")


def _numbers(text, width):
    """The numbers of lines of numbers, a row for each line."""
    numbers = numpy.fromstring(text, dtype=numpy.uint64, sep=" ")
    _is(len(numbers) % width == 0)
    return numbers.reshape(-1, width)


def arcs_of_lines(text):
    """The numbers of the arcs in lines of a graph, three for each in turn; other lines are passed by."""
    if text.translate(None, _OF_ARCS):
        lines = [line for line in text.split(b"\n") if line.lstrip(b" \t").startswith(b"a")]
        text = b"\n".join(lines)
    if numpy is not None:
        return numpy.fromstring(text.translate(None, b"a"), dtype=numpy.uint64, sep=" ")
    return [int(word) for word in text.split() if word != b"a"]


def columns_of_arcs(pieces):
    """The tails, heads and weights of what `arcs_of_lines` has given, in columns."""
    if numpy is not None:
        numbers = numpy.concatenate(pieces)
        return [(numbers[place::3] - numpy.uint64(place < 2)).astype(numpy.uint32) for place in range(3)]
    numbers = array("Q", chain.from_iterable(pieces))
    return [array("I", (number - (place < 2) for number in numbers[place::3])) for place in range(3)]


def arcs_in(body, tails, heads):
    """The arcs in the lines for these pairs, as tuples: of each pair in turn all that there are."""
    words = body.split()
    _is(len(words) % 4 == 0 and words[::4] == [b"a"] * (len(words) // 4))
    found = list(zip(*(map(int, words[place::4]) for place in (1, 2, 3))))
    pairs, pair = zip(_ints(tails), _ints(heads)), None
    for place, (tail, head, weight) in enumerate(found):
        while pair != (tail - 1, head - 1):
            pair = next(pairs, None)
            _is(pair is not None)
        found[place] = (*pair, weight)
    return found


def walks_in(body, sources, targets):
    """The cost and the vertices of the walk of each of these pairs; 2**64 - 1 and None where no walk leads."""
    lines = iter(body.split(b"\n"))
    found = []
    for source, target in zip(_ints(sources), _ints(targets)):
        first, last = b"%d" % (source + 1), b"%d" % (target + 1)
        letter, *ends, cost = next(lines, b"").split()
        _is(letter == b"q" and ends == [first, last])
        if cost == b"inf":
            found.append((INF, None))
            continue
        letter, end, again, *walk = next(lines, b"").split()
        _is(letter == b"w" and end == last and again == cost and walk[0] == first and walk[-1] == last)
        found.append((int(cost), [int(word) - 1 for word in walk]))
    _is(list(lines) == [b""])
    return found


def near_in(body, sources):
    """The vertices and costs in the block of each of these sources."""
    blocks = body.split(b"s ")
    _is(blocks[0] == b"" and len(blocks) == len(sources) + 1)
    for block, source in zip(blocks[1:], _ints(sources)):
        head, lines = block.split(b"\n", 1)
        _is(head == b"%d" % (source + 1))
        yield _near(lines)


def _near(lines):
    if numpy is not None:
        rows = _numbers(lines.translate(None, b"d"), 2)
        return rows[:, 0] - numpy.uint64(1), rows[:, 1].copy()
    words = lines.split()
    _is(len(words) % 3 == 0)
    return array("Q", (int(word) - 1 for word in words[1::3])), array("Q", map(int, words[2::3]))


def totals_in(body, sources):
    """For each source how many are reached, the sum of their costs, the greatest, and the vertex that has it."""
    lines = body.splitlines()
    _is(len(lines) == len(sources))
    for line, source in zip(lines, _ints(sources)):
        letter, vertex, *numbers = line.split()
        _is(letter == b"t" and int(vertex) == source + 1)
        reached, total, greatest, farthest = map(int, numbers)
        yield reached, total, greatest, farthest - 1


def components_in(body, n):
    """The labels in the text of the components."""
    if numpy is not None:
        rows = _numbers(body.translate(None, b"k"), 2)
        _is(len(rows) == n and (rows[:, 0] == numpy.arange(1, n + 1, dtype=numpy.uint64)).all())
        return rows[:, 1] - numpy.uint64(1)
    words = body.split()
    _is(len(words) == 3 * n and list(map(int, words[1::3])) == list(range(1, n + 1)))
    return array("Q", (int(word) - 1 for word in words[2::3]))
