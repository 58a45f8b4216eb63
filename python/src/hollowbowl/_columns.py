"""Columns of whole numbers for the program, from lists, arrays and columns of tables; of decimals by a scale.

A decimal is right at a scale if it is the float of its kind next to a whole number over the scale: 0.1 is right at 10,
and 0.1 + 0.2 isn't. Nothing is rounded without being asked for.
"""

from array import array
from decimal import Decimal
from fractions import Fraction
from math import floor
from numbers import Rational, Real
from operator import index

from ._numbers import INF, MOST_WEIGHT, numpy, whole

# The scales that a fault proposes.
_POWERS = [10**digits for digits in range(10)]


def as_column(name, values, most):
    """The values as whole numbers from 0 to `most`, of 4 bytes each; ValueError names the first that is none."""
    given = _listed(name, values, most)
    if getattr(getattr(given, "dtype", None), "kind", None) == "b":
        raise ValueError(f"{name} is an array of bools: numpy.flatnonzero gives the places where a mask is true")
    found, place = _column_of(given, most, None)
    if found is None:
        others = "Graph.from_edges and Graph.from_columns take any names"
        wanted = f"which is no whole number from 0 to {most}: {others}"
        raise ValueError(f"{name}[{place}] is {_shown(given, place)}, {wanted}")
    return found


class Rounding:
    """Tells that weights are rounded, and by how much at most they were."""

    def __init__(self):
        self.most = 0.0

    def rounded(self, given, scale):
        """The column of these values times the scale, rounded; and where one is none, as `_column_of` gives both."""
        if numpy is not None and isinstance(given, numpy.ndarray):
            found, place, most = _rounded_array(given, scale)
        else:
            found, place, most = _rounded_list(given, scale)
        self.most = max(self.most, most)
        return found, place


def as_weights(weights, scale, rounding=None, which="weights[{}] is"):
    """The weights times the scale, if there is one, as `as_column` gives them; rounded, if there is a Rounding.

    The ValueError says which is wrong, and what would take it: the least power of ten that would do as a scale, or else
    rounding.
    """
    given = _listed("weights", weights, MOST_WEIGHT)
    found, place = _column_of(given, MOST_WEIGHT, scale) if rounding is None else rounding.rounded(given, scale or 1)
    if found is not None:
        return found
    times = "" if scale is None else f"times {scale} "
    wanted = f"which {times}is no whole number from 0 to {MOST_WEIGHT}"
    hint = "" if rounding else _hint(given, place, scale)
    raise ValueError(f"{which.format(place)} {_shown(given, place)}, {wanted}{hint}")


def as_bound(cost, scale, rounding=None):
    """A cost times the scale, if there is one, as a whole number; ValueError if it is none.

    Where weights are rounded, it may lie between two: the costs up to it are those up to the one below.
    """
    number = whole(cost) if scale is None else times_scale(cost, scale)
    if number is None and rounding is not None:
        number = _below(cost, scale or 1)
    if number is None or not 0 <= number < INF:
        times = "" if scale is None else f"times {scale} "
        raise ValueError(f"the cost is {cost!r}, which {times}is no whole number from 0 to {INF - 1}")
    return number


def _below(cost, scale):
    if not isinstance(cost, (Decimal, Real)):
        return None
    try:
        return floor(Fraction(cost) * scale)
    except (TypeError, ValueError, OverflowError):
        return None


def _shown(given, place):
    """A value as a fault shows it."""
    value = given[place]
    return repr(value.item() if hasattr(value, "item") else value)


def _hint(given, place, scale):
    """The end of a fault that says what would take a value."""
    power = _least_power(given, place)
    if power is not None:
        return f": scale={power} would do"
    if Rounding().rounded(given[place : place + 1], scale or 1)[0] is None:
        return ""
    return f": Graph(.., {'scale=1000, ' if scale is None else ''}rounded=True) rounds it"


def ones(count, scale):
    """So many weights of 1."""
    weight = scale or 1
    return array("I", [weight]) * count if numpy is None else numpy.full(count, weight, dtype=numpy.uint32)


def column(numbers):
    """Whole numbers that were looked at, of 4 bytes each."""
    return array("I", numbers) if numpy is None else numpy.array(numbers, dtype=numpy.uint32)


def most_of(numbers):
    """The greatest of a column; -1 if it is empty."""
    return int(max(numbers) if numpy is None else numbers.max()) if len(numbers) else -1


def times_scale(value, scale):
    """A number times the scale, as an int; None if that is no whole number."""
    try:
        return index(value) * scale
    except TypeError:
        pass
    try:
        if isinstance(value, (Decimal, Rational)):
            exact = Fraction(value) * scale
            return int(exact) if exact.denominator == 1 else None
        double = float(value) if isinstance(value, Real) else None
        if double is None or double != value:
            return None
        number = round(double * scale)
        return number if number / scale == double else None
    except (TypeError, ValueError, OverflowError):
        return None


def _least_power(given, place):
    """The least power of ten that makes whole numbers of all; the one at a place may be told before the others."""
    one = given[place : place + 1]
    for power in _POWERS:
        if all(_column_of(some, MOST_WEIGHT, power)[0] is not None for some in (one, given)):
            return power
    return None


def _listed(name, values, most):
    """The values as an array of numbers, or as a list or another sequence."""
    if isinstance(values, (set, frozenset)):
        raise ValueError(f"{name} is a set, which has no order")
    if isinstance(values, (dict, str, bytes, bytearray)):
        raise ValueError(f"{name} is {values!r}, a {type(values).__name__} and no list of numbers")
    try:
        if not (hasattr(values, "__array__") or isinstance(values, (list, tuple, range, array))):
            values = list(values)
    except TypeError:
        raise ValueError(f"{name} is {values!r}, which is no list of numbers") from None
    return values if numpy is None else _as_array(name, values, most)


def _as_array(name, values, most):
    if numpy.ma.isMaskedArray(values):
        if numpy.ma.is_masked(values):
            place = int(numpy.argmax(numpy.ma.getmaskarray(values).ravel()))
            raise ValueError(f"{name}[{place}] is masked, and no whole number from 0 to {most}")
        values = values.data
    try:
        given = numpy.asarray(values)
    except ValueError:
        # A list whose entries differ in length is no array.
        return list(values)
    if given.ndim != 1:
        raise ValueError(f"{name} has {given.ndim} dimensions and not 1")
    return given if given.dtype.kind in "biuf" else list(values)


def _column_of(given, most, scale):
    """The column and None; or None and the place of the first value that is no whole number, times the scale."""
    if numpy is not None and isinstance(given, numpy.ndarray):
        return _column_of_array(given, most, scale or 1)
    found = array("I")
    for place, value in enumerate(given):
        number = whole(value) if scale is None else times_scale(value, scale)
        if number is None or not 0 <= number <= most:
            return None, place
        found.append(number)
    return column(found), None


def _column_of_array(given, most, scale):
    if given.dtype.kind == "f":
        # Numbers that are too large, and those that are none, are found below.
        with numpy.errstate(all="ignore"):
            doubles, numbers = _times(given, scale)
            good = (numbers >= 0) & (numbers <= most) & _is_next(given, doubles, numbers / scale)
    else:
        numbers, good = given, (given >= 0) & (given <= most // scale)
    if not good.all():
        return None, int(numpy.argmin(good))
    numbers = numbers.astype(numpy.uint32)
    return (numbers if given.dtype.kind == "f" or scale == 1 else numbers * numpy.uint32(scale)), None


def _times(given, scale):
    """Floats as doubles, and the whole numbers next to these times a scale."""
    doubles = given.astype(numpy.float64, copy=False)
    return doubles, numpy.rint(doubles * scale)


def _is_next(given, doubles, costs):
    """Tells of which floats these costs are: of a float of 4 bytes or 2 that it is the one of its kind next to it."""
    if given.dtype.itemsize < 8:
        return costs.astype(given.dtype) == given
    return (costs == doubles) & (doubles == given)


def _rounded_array(given, scale):
    """The column of an array times a scale, rounded, None, and by how much at most; or None, the place, and 0."""
    if given.dtype.kind != "f":
        return (*_column_of_array(given, MOST_WEIGHT, scale), 0.0)
    with numpy.errstate(all="ignore"):
        doubles, numbers = _times(given, scale)
        good = (given >= 0) & (numbers <= MOST_WEIGHT)
        amounts = numpy.where(_is_next(given, doubles, numbers / scale), 0, abs(doubles - numbers / scale))
    if not good.all():
        return None, int(numpy.argmin(good)), 0.0
    place = int(numpy.argmax(amounts)) if len(amounts) else 0
    is_none = not len(amounts) or amounts[place] == 0
    most = 0.0 if is_none else _amount(float(doubles[place]), int(numbers[place]), scale)
    return numbers.astype(numpy.uint32), None, most


def _amount(value, number, scale):
    """By how much a value is another than a number over the scale."""
    return float(abs(Fraction(value) - Fraction(number, scale)))


def _rounded_list(given, scale):
    """As `_rounded_array`, of a list."""
    found, most = array("I"), 0.0
    for place, value in enumerate(given):
        number, amount = _rounded(value, scale)
        if number is None or not 0 <= number <= MOST_WEIGHT:
            return None, place, 0.0
        found.append(number)
        most = max(most, amount)
    return column(found), None, most


def _rounded(value, scale):
    """A number times the scale, rounded to an int, and by how much; None and 0 if it is none, or negative."""
    number = times_scale(value, scale)
    if number is not None:
        return number, 0.0
    if not isinstance(value, (Decimal, Real)):
        return None, 0.0
    try:
        value = Fraction(value) if isinstance(value, (Decimal, Rational)) else float(value)
        number = round(value * scale)
        return (number if value >= 0 else None), _amount(value, number, scale)
    except (TypeError, ValueError, OverflowError):
        return None, 0.0
