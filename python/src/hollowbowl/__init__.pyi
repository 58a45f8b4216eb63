# The public names of the package and their types. Rows are numpy arrays if numpy is there, and else arrays of the
# standard library; they are typed as those of numpy. A cost is an int, but a float of a graph with a scale. Of calls
# for one vertex or several, a number or a text is one, and what has entries is several.
from collections.abc import Callable, Hashable, Iterable, Iterator
from contextlib import AbstractContextManager
from decimal import Decimal
from fractions import Fraction
from os import PathLike
from types import TracebackType
from typing import Any, Literal, NamedTuple, overload

from numpy import float64, int64, uint64
from numpy.typing import NDArray
from typing_extensions import Self

_Number = float | Decimal | Fraction
_Cost = int | Any
_Seconds = float | None
_Workers = int | Literal["auto"] | None
_Hierarchy = Literal["auto", "no", "now"] | None
_One = int | str | bytes
_Costs = NDArray[Any]
# It is called with how many items are done, and of how many.
_Progress = Callable[[int, int], object] | None
_Pair = tuple[Any, Any]
_Edge = tuple[Any, Any, _Number]

INF: int
__version__: str
__commit__: str | None

class Totals(NamedTuple):
    reached: int
    sum: _Cost
    greatest: _Cost
    farthest: Any

class Graph:
    def __init__(
        self, tails: Iterable[int], heads: Iterable[int], weights: Iterable[_Number] | None = None,
        n: int | None = None, *, directed: bool = True, scale: int | None = None, rounded: bool = False,
        workers: _Workers = None, landmarks: int | None = None, hierarchy: _Hierarchy = None, programs: int = 1,
        names: Iterable[Hashable] | None = None, keep: bool = True,
    ) -> None: ...
    @classmethod
    def from_edges(
        cls, edges: Iterable[_Edge | _Pair], *, nodes: Iterable[Hashable] = (), default: _Number | None = None,
        directed: bool = True, scale: int | None = None, rounded: bool = False, workers: _Workers = None,
        landmarks: int | None = None, hierarchy: _Hierarchy = None, programs: int = 1,
        keep: bool = True,
    ) -> Self: ...
    @classmethod
    def from_gr(
        cls, path: str | PathLike[str], *, scale: int | None = None, rounded: bool = False, workers: _Workers = None,
        landmarks: int | None = None, hierarchy: _Hierarchy = None, programs: int = 1,
        keep: bool = True,
    ) -> Self: ...
    @classmethod
    def from_columns(
        cls, table: Any, source: Any = "source", target: Any = "target", weight: Any = "weight", *,
        nodes: Iterable[Hashable] = (), directed: bool = True, scale: int | None = None, rounded: bool = False,
        workers: _Workers = None, landmarks: int | None = None, hierarchy: _Hierarchy = None, programs: int = 1,
        keep: bool = True,
    ) -> Self: ...
    @classmethod
    def from_pandas(
        cls, frame: Any, source: Any = "source", target: Any = "target", weight: Any = "weight", *,
        nodes: Iterable[Hashable] = (), directed: bool = True, scale: int | None = None, rounded: bool = False,
        workers: _Workers = None, landmarks: int | None = None, hierarchy: _Hierarchy = None, programs: int = 1,
        keep: bool = True,
    ) -> Self: ...
    @classmethod
    def from_networkx(
        cls, other: Any, weight: str | None = "weight", *, scale: int | None = None, rounded: bool = False,
        workers: _Workers = None, landmarks: int | None = None, hierarchy: _Hierarchy = None, programs: int = 1,
        keep: bool = True,
    ) -> Self: ...
    @classmethod
    def from_scipy(
        cls, matrix: Any, *, directed: bool = True, scale: int | None = None, rounded: bool = False,
        workers: _Workers = None, landmarks: int | None = None, hierarchy: _Hierarchy = None, programs: int = 1,
        keep: bool = True,
    ) -> Self: ...
    @property
    def n(self) -> int: ...
    @property
    def m(self) -> int: ...
    @property
    def version(self) -> int: ...
    @property
    def names(self) -> tuple[Any, ...] | None: ...
    @property
    def directed(self) -> bool: ...
    @property
    def scale(self) -> int | None: ...
    @property
    def rounding(self) -> float | None: ...
    @property
    def is_closed(self) -> bool: ...
    def __len__(self) -> int: ...
    def __bool__(self) -> bool: ...
    def __contains__(self, vertex: object) -> bool: ...
    def __iter__(self) -> Iterator[Any]: ...
    def __enter__(self) -> Self: ...
    def __exit__(self, *_: BaseException | type[BaseException] | TracebackType | None) -> None: ...
    def reversed(self, *, timeout: _Seconds = None) -> Self: ...
    def restart(self, *, timeout: _Seconds = None) -> None: ...
    def close(self) -> None: ...
    def add(
        self, tails: Iterable[Any], heads: Iterable[Any], weights: Iterable[_Number] | None = None, *,
        directed: bool | None = None, timeout: _Seconds = None,
    ) -> None: ...
    def add_edges(self, edges: Iterable[_Edge], *, directed: bool | None = None, timeout: _Seconds = None) -> None: ...
    def remove(
        self, edges: Iterable[_Pair], *, missing: Literal["raise", "ignore"] = "raise", directed: bool | None = None,
        timeout: _Seconds = None,
    ) -> int: ...
    def set_weights(
        self, edges: Iterable[_Edge], *, missing: Literal["raise", "add"] = "raise", directed: bool | None = None,
        timeout: _Seconds = None,
    ) -> None: ...
    def changed(
        self, *, remove: Iterable[_Pair] = (), set: Iterable[_Edge] = (), add: Iterable[_Edge] = (),
        directed: bool | None = None, timeout: _Seconds = None,
    ) -> AbstractContextManager[Self]: ...
    def edges(self, *, whole: bool = False, timeout: _Seconds = None) -> tuple[Any, Any, _Costs]: ...
    def neighbors(self, vertex: Any, *, to: bool = False, timeout: _Seconds = None) -> Any: ...
    def degrees(self, *, to: bool = False, timeout: _Seconds = None) -> NDArray[int64]: ...
    def to_scipy(self, *, whole: bool = False, timeout: _Seconds = None) -> Any: ...
    def to_networkx(self, *, whole: bool = False, timeout: _Seconds = None) -> Any: ...
    def to_gr(self, path: str | PathLike[str], *, timeout: _Seconds = None) -> None: ...
    def edges_between(
        self, pairs: Iterable[_Pair], *, whole: bool = False, timeout: _Seconds = None, progress: _Progress = None,
    ) -> list[tuple[Any, Any, _Cost]]: ...
    def has_edge(self, tail: Any, head: Any, *, timeout: _Seconds = None) -> bool: ...
    @overload
    def weight(self, tail: Any, head: Any, *, whole: Literal[True], timeout: _Seconds = None) -> int: ...
    @overload
    def weight(self, tail: Any, head: Any, *, whole: bool = False, timeout: _Seconds = None) -> _Cost: ...
    @overload
    def distance(
        self, source: Any, target: Any, *, hops: Literal[True], whole: bool = False, timeout: _Seconds = None,
    ) -> int: ...
    @overload
    def distance(
        self, source: Any, target: Any, *, hops: bool = False, whole: Literal[True], timeout: _Seconds = None,
    ) -> int: ...
    @overload
    def distance(
        self, source: Any, target: Any, *, hops: bool = False, whole: bool = False, timeout: _Seconds = None,
    ) -> _Cost: ...
    @overload
    def distance_and_path(
        self, source: Any, target: Any, *, hops: Literal[True], whole: bool = False, timeout: _Seconds = None,
    ) -> tuple[int, list[Any]]: ...
    @overload
    def distance_and_path(
        self, source: Any, target: Any, *, hops: bool = False, whole: Literal[True], timeout: _Seconds = None,
    ) -> tuple[int, list[Any]]: ...
    @overload
    def distance_and_path(
        self, source: Any, target: Any, *, hops: bool = False, whole: bool = False, timeout: _Seconds = None,
    ) -> tuple[_Cost, list[Any]]: ...
    def hops(self, source: Any, target: Any, *, timeout: _Seconds = None) -> int: ...
    def has_path(self, source: Any, target: Any, *, timeout: _Seconds = None) -> bool: ...
    @overload
    def distances(
        self, sources: Any, *, hops: bool = False, to: bool = False, dtype: type[float], whole: bool = False,
        timeout: _Seconds = None, progress: _Progress = None,
    ) -> NDArray[float64]: ...
    @overload
    def distances(
        self, sources: Any, *, hops: bool = False, to: bool = False, dtype: Any = None, whole: bool = False,
        timeout: _Seconds = None, progress: _Progress = None,
    ) -> _Costs: ...
    @overload
    def levels(
        self, sources: Any, *, to: bool = False, dtype: None = None, timeout: _Seconds = None,
        progress: _Progress = None,
    ) -> NDArray[uint64]: ...
    @overload
    def levels(
        self, sources: Any, *, to: bool = False, dtype: type[float] | str, timeout: _Seconds = None,
        progress: _Progress = None,
    ) -> NDArray[float64]: ...
    def rows(
        self, sources: Any, *, hops: bool = False, to: bool = False, dtype: Any = None, whole: bool = False,
        timeout: _Seconds = None, progress: _Progress = None,
    ) -> Iterator[tuple[Any, _Costs]]: ...
    def frame(
        self, sources: Any, *, hops: bool = False, to: bool = False, whole: bool = False, timeout: _Seconds = None,
        progress: _Progress = None,
    ) -> Any: ...
    @overload
    def matrix(
        self, sources: Iterable[Any], targets: Iterable[Any], *, hops: bool = False, dtype: type[float],
        whole: bool = False, timeout: _Seconds = None, progress: _Progress = None,
    ) -> NDArray[float64]: ...
    @overload
    def matrix(
        self, sources: Iterable[Any], targets: Iterable[Any], *, hops: bool = False, dtype: Any = None,
        whole: bool = False, timeout: _Seconds = None, progress: _Progress = None,
    ) -> _Costs: ...
    @overload
    def pairs(
        self, sources: Any, targets: Iterable[Any] | None = None, *, hops: bool = False, dtype: type[float],
        whole: bool = False, timeout: _Seconds = None, progress: _Progress = None,
    ) -> NDArray[float64]: ...
    @overload
    def pairs(
        self, sources: Any, targets: Iterable[Any] | None = None, *, hops: bool = False, dtype: Any = None,
        whole: bool = False, timeout: _Seconds = None, progress: _Progress = None,
    ) -> _Costs: ...
    @overload
    def nearest(  # type: ignore[misc]  # a text is one, though it can be gone through
        self, targets: _One, sources: Iterable[Any], *, hops: bool = False, to: bool = False, dtype: Any = None,
        whole: bool = False, timeout: _Seconds = None,
    ) -> tuple[_Cost, Any]: ...
    @overload
    def nearest(
        self, targets: Iterable[Any], sources: Iterable[Any], *, hops: bool = False, to: bool = False,
        dtype: Any = None, whole: bool = False, timeout: _Seconds = None,
    ) -> tuple[_Costs, Any]: ...
    def within(
        self, source: Any, cost: _Number, *, hops: bool = False, to: bool = False, whole: bool = False,
        timeout: _Seconds = None,
    ) -> tuple[Any, _Costs]: ...
    def within_many(
        self, sources: Any, cost: _Number, *, hops: bool = False, to: bool = False, whole: bool = False,
        timeout: _Seconds = None, progress: _Progress = None,
    ) -> Iterator[tuple[Any, Any, _Costs]]: ...
    def path(self, source: Any, target: Any, *, hops: bool = False, timeout: _Seconds = None) -> list[Any]: ...
    @overload
    def paths(
        self, pairs: Any, *, hops: bool = False, missing: Literal["raise"] = "raise", timeout: _Seconds = None,
        progress: _Progress = None,
    ) -> Iterator[list[Any]]: ...
    @overload
    def paths(
        self, pairs: Any, *, hops: bool = False, missing: None, timeout: _Seconds = None, progress: _Progress = None,
    ) -> Iterator[list[Any] | None]: ...
    def predecessors(self, source: Any, *, hops: bool = False, timeout: _Seconds = None) -> Any: ...
    @overload
    def totals(  # type: ignore[misc]  # a text is one, though it can be gone through
        self, sources: _One, *, hops: bool = False, to: bool = False, whole: bool = False, timeout: _Seconds = None,
        progress: _Progress = None,
    ) -> Totals: ...
    @overload
    def totals(
        self, sources: Iterable[Any], *, hops: bool = False, to: bool = False, whole: bool = False,
        timeout: _Seconds = None, progress: _Progress = None,
    ) -> list[Totals]: ...
    @overload
    def closeness(  # type: ignore[misc]  # a text is one, though it can be gone through
        self, sources: _One, *, hops: bool = False, to: bool = False, wf_improved: bool = False,
        timeout: _Seconds = None, progress: _Progress = None,
    ) -> float: ...
    @overload
    def closeness(
        self, sources: Iterable[Any] | None = None, *, hops: bool = False, to: bool = False, wf_improved: bool = False,
        timeout: _Seconds = None, progress: _Progress = None,
    ) -> NDArray[float64]: ...
    @overload
    def eccentricity(  # type: ignore[misc]  # a text is one, though it can be gone through
        self, sources: _One, *, hops: bool = False, to: bool = False, dtype: Any = None, whole: bool = False,
        timeout: _Seconds = None, progress: _Progress = None,
    ) -> _Cost: ...
    @overload
    def eccentricity(
        self, sources: Iterable[Any] | None = None, *, hops: bool = False, to: bool = False, dtype: Any = None,
        whole: bool = False, timeout: _Seconds = None, progress: _Progress = None,
    ) -> _Costs: ...
    @overload
    def components(self, *, counted: Literal[False] = False, timeout: _Seconds = None) -> NDArray[uint64]: ...
    @overload
    def components(self, *, counted: Literal[True], timeout: _Seconds = None) -> tuple[int, NDArray[int64]]: ...
    def component_count(self, *, timeout: _Seconds = None) -> int: ...
    def component_of(self, vertex: Any, *, timeout: _Seconds = None) -> list[Any]: ...

class Error(Exception): ...

class NoPath(Error):
    source: Any
    target: Any

class NoVertex(Error, KeyError, IndexError):
    vertex: Any
    count: int

class BadGraph(Error, ValueError):
    path: str
    line: int | None
    words: str

class NoArc(Error, KeyError):
    pairs: list[tuple[Any, Any]]

class GraphChanged(Error, RuntimeError): ...
class ChangeStays(Error, RuntimeError): ...
class NotKept(Error, RuntimeError): ...

class Refused(Error, ValueError):
    words: str
    record: str

class OutOfMemory(Error, MemoryError):
    words: str
    added: int

class Ended(Error, RuntimeError):
    status: int | None
    text: str

class Closed(Ended): ...
class Timeout(Error, TimeoutError): ...
class ProgramMissing(Error, FileNotFoundError): ...
class ProgramTooOld(Error, RuntimeError): ...
class OutOfStep(Error, RuntimeError): ...
class WrongProcess(Error, RuntimeError): ...
