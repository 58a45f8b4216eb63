"""Numbers as the program takes and gives them: whole ones up to a limit, and rows of labels, as floats too."""

import threading
from array import array
from numbers import Real
from operator import index

from ._memory import bytes_left as _bytes_left

try:
    import numpy
except ImportError:
    numpy = None

#: The label of a vertex to which no walk leads.
INF = 2**64 - 1

MOST_VERTICES = 2**28
MOST_WEIGHT = 2**32 - 1
MOST_WORKERS = 64
MOST_PROGRAMS = 64
MOST_LANDMARKS = 64
HIERARCHIES = "auto", "no", "now"

# Rows of so many bytes are made without a look at the memory.
_FEW_BYTES = 1 << 26

# A float is a whole number up to here.
_EXACT = 2**53


def whole(value):
    """A number that is whole, as an int; None for anything else."""
    try:
        return index(value)
    except TypeError:
        pass
    try:
        return int(value) if isinstance(value, Real) and value == int(value) else None
    except (TypeError, ValueError, OverflowError):
        return None


def as_scale(scale):
    """A scale as an int, or None; ValueError if it is no number of parts that a weight can have."""
    number = None if scale is None else whole(scale)
    if scale is not None and (number is None or not 1 <= number <= MOST_WEIGHT):
        raise ValueError(f"scale is {scale!r}, where a whole number from 1 to {MOST_WEIGHT} is wanted")
    return number


def as_seconds(timeout):
    """A time to wait as a lock takes it; ValueError if it is none, and -1, which is without end, for None."""
    if timeout is None:
        return -1
    if not isinstance(timeout, Real) or not timeout >= 0:
        raise ValueError(f"timeout is {timeout!r}, which is no number of seconds")
    return min(float(timeout), threading.TIMEOUT_MAX)


def as_options(workers, landmarks, hierarchy):
    """Workers, landmarks and when a hierarchy is made, as options of the program; ValueError if it takes none such."""
    options = []
    if workers is not None:
        number = workers if workers == "auto" else whole(workers)
        if number is None or (number != "auto" and not 1 <= number <= MOST_WORKERS):
            wanted = f"a whole number from 1 to {MOST_WORKERS}, or 'auto', is wanted"
            raise ValueError(f"workers is {workers!r}, where {wanted}")
        options += ["--workers", str(number)]
    if landmarks is not None:
        number = whole(landmarks)
        if number is None or not 0 <= number <= MOST_LANDMARKS:
            raise ValueError(f"landmarks is {landmarks!r}, where a whole number from 0 to {MOST_LANDMARKS} is wanted")
        options += ["--landmarks", str(number)]
    if hierarchy is not None:
        if not isinstance(hierarchy, str) or hierarchy not in HIERARCHIES:
            raise ValueError(f"hierarchy is {hierarchy!r}, where 'auto', 'no' or 'now' is wanted")
        options += ["--hierarchy", hierarchy]
    return options


def as_programs(programs, keep):
    """How many programs a graph has; ValueError if it can't have so many."""
    number = whole(programs)
    if number is None or not 1 <= number <= MOST_PROGRAMS:
        raise ValueError(f"programs is {programs!r}, where a whole number from 1 to {MOST_PROGRAMS} is wanted")
    if number > 1 and not keep:
        raise ValueError(f"programs is {number}, which wants keep=True")
    return number


def labels_for(count):
    """Room for so many labels. The program runs on this machine, so its bytes are in its order."""
    return array("Q", bytes(8 * count)) if numpy is None else numpy.empty(count, dtype=numpy.uint64)


def rows_for(count, n):
    """Room for so many rows of n labels."""
    if numpy is not None:
        return numpy.empty((count, n), dtype=numpy.uint64)
    return [labels_for(n) for _ in range(count)]


def check_room(what, count, others):
    """Goes on if so many labels take at most half of the memory that is left; `others` are calls that take less."""
    size = 8 * count
    if size <= _FEW_BYTES:
        return
    left = _bytes_left()
    if left is not None and size > left // 2:
        raise ValueError(f"{what} take {size >> 20} MiB where {left >> 20} MiB are left: {others} take less")


def as_rows(labels, count, width):
    """Labels of one row after another, as rows of so many each."""
    if numpy is not None:
        return labels.reshape(count, width)
    return [labels[place * width : (place + 1) * width] for place in range(count)]


def turned_rows(rows):
    """Rows whose columns are these rows."""
    if numpy is not None:
        return numpy.ascontiguousarray(rows.T)
    return [array("Q", column) for column in zip(*rows)]


def count_of(column):
    """How many numbers a column has that differ."""
    return len(set(column)) if numpy is None else len(numpy.unique(column))


def numbered(labels):
    """How many labels there are of which each is the place of its first, and their numbers from 0 on, in 8 bytes."""
    if numpy is not None:
        firsts = numpy.flatnonzero(labels == numpy.arange(len(labels), dtype=numpy.uint64))
        return len(firsts), numpy.searchsorted(firsts, labels.astype(numpy.int64))
    numbers = {}
    found = array("q", [numbers.setdefault(label, len(numbers)) for label in labels])
    return len(numbers), found


def order_of(column):
    """The places of a column in the order of its numbers, equal ones in their own; None if they are in order."""
    if numpy is None:
        order = sorted(range(len(column)), key=column.__getitem__)
        return None if order == list(range(len(column))) else order
    column = numpy.asarray(column)
    return None if (column[1:] >= column[:-1]).all() else numpy.argsort(column, kind="stable")


def picked(column, order):
    """The numbers of a column at some places, or all where these are None."""
    if order is None:
        return column
    return [column[place] for place in order] if numpy is None else numpy.asarray(column)[order]


def is_float(dtype):
    """Whether labels are wanted as floats, with `inf` where no walk leads; ValueError for what is no type of them."""
    if dtype is None:
        return False
    try:
        if dtype is float or dtype == "d" or (numpy is not None and numpy.dtype(dtype) == numpy.float64):
            return True
    except TypeError:
        pass
    raise ValueError(f"dtype is {dtype!r}: labels are whole numbers (None) or float")


def labels_of(numbers):
    """A row of labels of these numbers."""
    return array("Q", numbers) if numpy is None else numpy.array(numbers, dtype=numpy.uint64)


def numbers_of(column):
    """A column as whole numbers of 8 bytes, with which one may go on to calculate."""
    return array("q", column) if numpy is None else numpy.array(column, dtype=numpy.int64)


def floats_of(numbers):
    """A row of floats of these numbers."""
    return array("d", numbers) if numpy is None else numpy.array(numbers, dtype=numpy.float64)


def as_cost(label, divisor):
    """A label as a cost: the float next to label / divisor, `inf` where no walk leads; the label without a divisor."""
    if divisor is None:
        return label
    return float("inf") if label == INF else label / divisor


def as_floats(labels, divisor=1):
    """A row of labels as floats (`as_cost`). That of numpy stays where it is, since a float has as many bytes."""
    if numpy is None:
        return array("d", (as_cost(label, divisor) for label in labels))
    floats = labels.view(numpy.float64)
    is_far = labels == INF
    # Of larger labels a float alone is not exact.
    large = numpy.flatnonzero((labels > _EXACT) & ~is_far)
    costs = [label / divisor for label in labels[large].tolist()]
    floats[:] = labels.astype(numpy.float64)
    floats /= divisor
    floats[large] = costs
    floats[is_far] = numpy.inf
    return floats


def as_float_rows(rows, divisor=1):
    """Rows of labels as rows of floats."""
    if numpy is None:
        return [as_floats(row, divisor) for row in rows]
    for row in rows:
        as_floats(row, divisor)
    return rows.view(numpy.float64)
