"""Which vertices a graph has: numbers from 0, or names. Inside the package each is its place."""

from operator import index

from ._columns import column
from ._errors import NoVertex, fault_of
from ._numbers import numpy

# What tells of several vertices which are meant, and is none itself.
_MASKS = () if numpy is None else (numpy.bool_,)


class Names:
    """The vertices of a graph: so many places, perhaps with a name each."""

    def __init__(self, n, names=None):
        """The numbers from 0 to n - 1, or these names, each once and in order."""
        self.n = n
        self.names = None if names is None else tuple(names)
        self._places = None if names is None else {name: place for place, name in enumerate(self.names)}
        if names is not None and len(self._places) != n:
            raise ValueError(f"{len(self._places)} names that differ, where there are {n} vertices")

    def name(self, place):
        """The vertex at a place."""
        return place if self.names is None else self.names[place]

    def several(self, places):
        """The vertices at some places: as they are, or a list of names."""
        return places if self.names is None else [self.names[place] for place in places]

    def has(self, vertex):
        """Tells whether there is such a vertex."""
        try:
            self.place("vertex", vertex)
        except (TypeError, NoVertex):
            return False
        return True

    def place(self, argument, vertex, several=None):
        """The place of a vertex. TypeError if it is none by its type, NoVertex if there is no such.

        `several` names the call that takes more than one vertex, for the fault.
        """
        if isinstance(vertex, _MASKS):
            raise TypeError(f"{argument} has {vertex!r}, a bool of numpy and no vertex")
        if self._places is not None:
            try:
                place = self._places.get(vertex)
            except TypeError:
                raise TypeError(f"{argument} has {vertex!r}, which can't be a name{_hint(vertex, several)}") from None
            if place is None:
                raise fault_of(NoVertex, vertex, self.n)
            return place
        try:
            # Arithmetic on the number of another library may make a float of it.
            place = index(vertex)
        except TypeError:
            wanted = f"where a vertex is a whole number{_hint(vertex, several)}"
            raise TypeError(f"{argument} has {vertex!r}, {wanted}") from None
        if not 0 <= place < self.n:
            raise fault_of(NoVertex, vertex, self.n)
        return place

    def places(self, argument, vertices):
        """The places of several vertices, in a column."""
        if isinstance(vertices, (set, frozenset)):
            raise TypeError(f"{argument} is a set, which has no order")
        if isinstance(vertices, (str, bytes)):
            # Its letters may be names too, but a text is meant as one.
            raise TypeError(f"{argument} is {vertices!r}, a text and no list of vertices")
        if isinstance(vertices, dict):
            raise TypeError(f"{argument} is {vertices!r}, a dict and no list of vertices")
        if getattr(vertices, "ndim", 1) == 2 and hasattr(vertices, "columns"):
            raise TypeError(f"{argument} is a table, where one of its columns is wanted")
        if getattr(getattr(vertices, "dtype", None), "kind", None) == "b":
            raise _mask(argument)
        if self._places is None and numpy is not None and hasattr(vertices, "__array__"):
            given = numpy.asarray(vertices)
            if given.ndim == 1 and given.dtype.kind in "iu":
                return self._places_of_array(given)
        return column(self._places_of_each(argument, _each(argument, vertices)))

    def _places_of_each(self, argument, vertices):
        vertices = list(vertices)
        if self._places is None and len(vertices) > 1 and all(isinstance(vertex, bool) for vertex in vertices):
            raise _mask(argument)
        return [self.place(argument, vertex) for vertex in vertices]

    def _places_of_array(self, given):
        bad = (given < 0) | (given >= self.n)
        if bad.any():
            raise fault_of(NoVertex, int(given[numpy.argmax(bad)]), self.n)
        return given.astype(numpy.uint32)

    def one_or_several(self, argument, given):
        """Whether a single vertex was given, and the places of what was given."""
        if self._is_one(given):
            return True, column([self.place(argument, given)])
        return False, self.places(argument, given)

    def _is_one(self, given):
        if isinstance(given, (str, bytes, *_MASKS)):
            return True
        try:
            if self._places is None:
                index(given)
                return True
            if given in self._places:
                return True
        except TypeError:
            return False
        # What is no name and has no entries can only be meant as a name.
        return not hasattr(given, "__iter__")


def _each(argument, vertices):
    try:
        return iter(vertices)
    except TypeError:
        raise TypeError(f"{argument} is {vertices!r}, which is no vertex and no list of them") from None


def _mask(argument):
    return TypeError(f"{argument} has bools, as a mask: numpy.flatnonzero gives the vertices where one is true")


def _hint(vertex, several):
    """The end of a fault for several vertices in place of one."""
    is_several = several is not None and hasattr(vertex, "__iter__") and not isinstance(vertex, (str, bytes))
    return f": {several} takes several" if is_several else ""
