"""Pairs and edges that a caller gives, taken apart into columns."""


def taken_apart(argument, given, form, is_ordered=False):
    """The columns of a caller's tuples, whose form is as "(source, target)"; a fault names the first that is none."""
    if is_ordered and isinstance(given, (set, frozenset)):
        raise TypeError(f"{argument} is a set, which has no order")
    count = form.count(",") + 1
    if hasattr(given, "columns") and not callable(given.columns):
        return _columns_of_table(argument, given, form, count)
    columns = [[] for _ in range(count)]
    try:
        each = iter(given)
    except TypeError:
        raise TypeError(f"{argument} is {given!r}, which is no list of {form}") from None
    for edge in each:
        try:
            if isinstance(edge, (str, bytes)):
                raise TypeError("a text is one vertex")
            entries = tuple(edge)
            if len(entries) != count:
                raise ValueError(f"it has {len(entries)} entries")
        except (TypeError, ValueError) as fault:
            kind = TypeError if isinstance(fault, TypeError) else ValueError
            raise kind(f"{argument}[{len(columns[0])}] is {edge!r}, which is no {form}: {fault}") from None
        for column, entry in zip(columns, entries):
            column.append(entry)
    return columns


def _columns_of_table(argument, table, form, count):
    """The columns of a table of pandas, polars or Arrow, in their order."""
    if hasattr(table, "iloc"):
        found = [table.iloc[:, place] for place in range(table.shape[1])]
    else:
        # Of polars `columns` are names, and of Arrow the columns.
        found = table.get_columns() if hasattr(table, "get_columns") else table.columns
    if len(found) != count:
        raise ValueError(f"{argument} is a table of {len(found)} columns, where {form} has {count}: take these alone")
    return [entries_of(column) for column in found]


def entries_of(column):
    """The entries of a column as a list of Python's own, which can be names."""
    for name in ("to_pylist", "tolist", "to_list"):
        if hasattr(column, name):
            return getattr(column, name)()
    return list(column)
