"""What signatures name: vertices and their rows, numbers, arrays, tables of other libraries, and
files."""
from __future__ import annotations

import datetime
import os  # pylint: disable=unused-import  # in quotes below
from decimal import Decimal
from fractions import Fraction
from typing import (IO, TYPE_CHECKING, Any, ClassVar, Collection, Hashable, Iterable, Optional,
                    Sequence, SupportsIndex, Union)

import numpy

__all__ = ['Array', 'Axes', 'DType', 'DataFrame', 'Exact', 'Many', 'NodesLike', 'Number', 'NxGraph',
           'Path', 'Place', 'Series', 'Source', 'Target', 'Vertex', 'Vertices', 'spmatrix']
Vertex = Hashable
"""A vertex as a caller says it: by its name where the graph has names, else by its number from 0.
Public functions take these, and find each one's place once (`utils.find_place`)."""
Vertices = Union[Vertex, Iterable[Vertex]]
"""One vertex, or several."""

if TYPE_CHECKING:
    # of libraries without types, which are imported where they are needed
    from matplotlib.axes import Axes
    from networkx import Graph as NxGraph
    from pandas import DataFrame, Series
    from scipy.sparse import spmatrix

    class Place:
        """The row of a vertex. Functions within take these alone, and look up no name: where names
        are numbers, a row would be taken for another vertex. At run time it is an int. To type
        checkers it is none, and has no hash, so that they refuse a row for a vertex, and a vertex
        for a row."""

        __hash__: ClassVar[None]  # type: ignore[assignment]

        def __init__(self, _row: SupportsIndex) -> None: ...
        def __index__(self) -> int: ...
        def __int__(self) -> int: ...
        def __lt__(self, other: 'Place') -> bool: ...
        def __eq__(self, other: object) -> bool: ...
else:
    Place = int
    Axes = DataFrame = NxGraph = Series = spmatrix = object

Array = numpy.ndarray[Any, Any]
"""An array of numpy: of whole numbers, unless it is said otherwise."""
Many = Union[Sequence[Any], Array, Series]
"""Numbers or names in order: a list, an array, a column of pandas."""
Exact = Union[int, float, Decimal, Fraction]
"""A number that callers write; stored ones are whole."""
Number = Union[Exact, datetime.date, datetime.timedelta, numpy.datetime64, numpy.timedelta64]
"""A number beside a stored one: dates, where values are times."""
DType = Union[type, str, 'numpy.dtype[Any]', None]
"""What values are given as: whole numbers as they are stored, or floats."""
Path = Union[str, 'os.PathLike[str]']
Source = Union[Path, IO[bytes]]
Target = Union[Path, IO[str]]
NodesLike = Optional[Collection[Any]]
"""Names of a matrix' vertices: of one kind, or of rows and of columns."""
