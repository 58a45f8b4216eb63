"""The arcs of graphs that others have made, as tails, heads, weights and the names of vertices."""

import sys

from ._edges import entries_of
from ._numbers import numpy


def edges(given, nodes, default):
    """Those of edges `(tail, head, weight)`, whose ends are names; `nodes` are names that come before these.

    An edge of two has the weight `default`, if that isn't None.
    """
    names = {name: place for place, name in enumerate(dict.fromkeys(nodes))}
    tails, heads, weights = [], [], []
    for edge in given:
        try:
            entries = tuple(edge)
            tail, head, weight = entries if default is None or len(entries) != 2 else (*entries, default)
            tails.append(names.setdefault(tail, len(names)))
            heads.append(names.setdefault(head, len(names)))
        except (TypeError, ValueError) as fault:
            kind = TypeError if isinstance(fault, TypeError) else ValueError
            raise kind(f"edges[{len(weights)}] is {edge!r}, which is no (tail, head, weight): {fault}") from None
        weights.append(weight)
    return tails, heads, weights, names


def networkx(other, weight):
    """Those of a networkx graph, in which an edge without a weight has 1. Undirected edges come once."""
    names = {name: place for place, name in enumerate(other)}
    given = ((*ends, 1) for ends in other.edges()) if weight is None else other.edges(data=weight, default=1)
    arcs = [(names[tail], names[head], size) for tail, head, size in given]
    tails, heads, weights = zip(*arcs) if arcs else ((), (), ())
    return tails, heads, weights, names


def columns(table, source, target, weight, nodes):
    """Those of a table's rows, by the names of its columns; each weighs 1 if that of weights is None."""
    names = [source, target] if weight is None else [source, target, weight]
    try:
        found = [table[name] for name in names]
    except TypeError:
        raise TypeError(f"table is {table!r}, which has no columns {_in_words(map(repr, names))}") from None
    # Of an iterator the entries can be taken once.
    found = [each if hasattr(each, "dtype") else entries_of(each) for each in found]
    counts = list(map(len, found))
    if len(set(counts)) > 1:
        raise ValueError(_in_words(f"{count} {what}" for count, what in zip(counts, ("sources", "targets", "weights"))))
    factorized = _factorized(found[:2], list(dict.fromkeys(nodes)))
    if factorized is None:
        return edges(zip(*map(entries_of, found)), nodes, 1)
    weights = found[2] if weight is not None else (1,) * counts[0]
    return (*factorized[:2], weights if _is_plain(weights) else entries_of(weights), factorized[2])


def _factorized(ends, nodes):
    """The tails, the heads and the names of two columns of pandas, by its own means; None where these are others."""
    pandas = sys.modules.get("pandas")
    if pandas is None or not all(isinstance(each, pandas.Series) for each in ends):
        return None
    if any(each.isna().any() for each in ends):
        # Missing names are all one to pandas, whatever they are.
        return None
    try:
        codes, names = pandas.factorize(_in_turn(ends, nodes))
    except TypeError:
        # Some can't be names, and which is found one by one.
        return None
    names = names.tolist()
    if len(set(names)) < len(names):
        return None
    return codes[len(nodes) :: 2], codes[len(nodes) + 1 :: 2], names


def _in_turn(ends, nodes):
    """The nodes, and after these the ends of each edge in turn."""
    kinds = {each.dtype for each in ends}
    is_plain = len(kinds) == 1 and not nodes and ends[0].dtype.kind in "iu" and _is_plain(ends[0])
    found = numpy.empty(len(nodes) + 2 * len(ends[0]), dtype=ends[0].dtype if is_plain else object)
    for place, node in enumerate(nodes):
        found[place] = node
    for place, each in enumerate(ends):
        found[len(nodes) + place :: 2] = each.to_numpy() if is_plain else each.astype(object).to_numpy()
    return found


def _is_plain(column):
    """Tells whether the entries are numbers of numpy."""
    return numpy is not None and isinstance(getattr(column, "dtype", None), numpy.dtype) and column.dtype.kind in "biuf"


def _in_words(parts):
    *first, last = parts
    return f"{', '.join(first)} and {last}"


def scipy(matrix):
    """Those of a sparse matrix, with the number of vertices in place of names."""
    if not hasattr(matrix, "tocsr"):
        hint = ": scipy.sparse.csr_matrix(matrix) is one" if len(getattr(matrix, "shape", ())) == 2 else ""
        raise TypeError(f"matrix is {matrix!r}, which is no sparse matrix of scipy{hint}")
    if len(matrix.shape) != 2 or matrix.shape[0] != matrix.shape[1]:
        raise ValueError(f"matrix has the shape {matrix.shape}, where a square one is wanted")
    rows = matrix.tocsr()
    if not rows.has_canonical_format:
        rows = rows.copy()
        rows.sum_duplicates()
    n = rows.shape[0]
    return numpy.repeat(numpy.arange(n), numpy.diff(rows.indptr)), rows.indices, rows.data, n
