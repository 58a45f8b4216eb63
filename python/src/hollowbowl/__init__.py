"""Least costs, hop levels and weak components of directed graphs, by a program whose answers are proved.

`Graph` hands its arcs to the program `obim_query`, which keeps them and answers one question after another.
"""

from ._errors import (
    BadGraph,
    ChangeStays,
    Closed,
    Ended,
    Error,
    GraphChanged,
    NoArc,
    NoPath,
    NoVertex,
    NotKept,
    OutOfMemory,
    OutOfStep,
    ProgramMissing,
    ProgramTooOld,
    Refused,
    Timeout,
    WrongProcess,
)
from ._graph import Graph
from ._measures import Totals
from ._numbers import INF

__all__ = [
    "INF",
    "BadGraph",
    "ChangeStays",
    "Closed",
    "Ended",
    "Error",
    "Graph",
    "GraphChanged",
    "NoArc",
    "NoPath",
    "NoVertex",
    "NotKept",
    "OutOfMemory",
    "OutOfStep",
    "ProgramMissing",
    "ProgramTooOld",
    "Refused",
    "Timeout",
    "Totals",
    "WrongProcess",
]
try:
    # Packages say of which commit they were made; a clone has git.
    from ._build import COMMIT as __commit__, VERSION as __version__
except ImportError:
    __commit__, __version__ = None, "0.2.0"
