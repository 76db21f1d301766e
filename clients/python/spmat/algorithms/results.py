"""What algorithms return: columns that know how good their numbers are and what groups they mean,
and lengths in the unit of the graph. Also what was found where a budget ends amid the work."""
from __future__ import annotations

import contextlib
import functools
from typing import TYPE_CHECKING, Any, Callable, Iterator, Optional, Type, TypeVar

from .. import scale as scales
from ..errors import BudgetExceeded, SpmatError
from ..matrix import Matrix
from ..metadata import ROWS, VertexUnit
from .utils import column as column_of

if TYPE_CHECKING:
    Column = Matrix
else:
    Column = object

__all__ = ['Centrality', 'Communities']

BOUND, RESIDUAL, CHANGE = 'error at most', 'residual', 'last change'
R = TypeVar('R', bound='Result')


class Result(Column):
    """A column with what an algorithm knows of it. It is a matrix of the graph's session, and has
    all of its methods; what these give are plain matrices."""


class Centrality(Result):
    """A number for each vertex: a column in units of 1/`unit`, so that `by_node`, `top` and
    `to_pandas` give fractions. It is a matrix.

    Attributes
    ----------
    error : float
        What `measure` says.
    measure : str
        With 'error at most' no number is farther from the true one. With 'residual' the error is
        how far the numbers are from solving their equation. With 'last change' it is how far they
        still moved in the last round. The function says by which measure; how far the true numbers
        are isn't known.
    tolerance : float or None
        The one that was kept.
    rounds : int or None
        How many it took; None where there are none.
    """

    error: float
    measure: str
    tolerance: Any
    rounds: Any

    @property
    def values(self) -> 'Centrality':
        """This column.

        Returns
        -------
        Centrality
            Itself.
        """
        return self

    @property
    def scale(self) -> Any:
        """What the stored numbers are in units of: 1/scale.

        Returns
        -------
        number
            The unit.
        """
        return self.unit

    def __repr__(self) -> str:
        rounds = ', %d rounds' % self.rounds if self.rounds is not None else ''
        numbers = self.nrows, self.unit, self.measure, self.error, rounds
        return '<Centrality of %d vertices, in units of 1/%s, %s %.2g%s>' % numbers


class Communities(Result):
    """The community of each vertex: a column with the least vertex of it. It is a matrix: `sets()`
    has the vertices of each community, and `by_node()` one of it for each vertex.

    Attributes
    ----------
    modularity : float
        That of these communities.
    levels : int
        In how many levels they were found.
    """

    modularity: float
    levels: int

    @property
    def labels(self) -> 'Communities':
        """This column.

        Returns
        -------
        Communities
            Itself.
        """
        return self

    def __repr__(self) -> str:
        return '<Communities: %d of modularity %.4f>' % (len(self.sets()), self.modularity)


@functools.lru_cache(maxsize=None)
def _joined(kind: Any, base: Any) -> Any:
    """The class of matrices of a class that are results of a kind."""
    return type(kind.__name__, (kind, base),
                {'__doc__': kind.__doc__, '__module__': kind.__module__})


def as_result(kind: Type[R], column: Any, **more: object) -> R:
    """A column that nobody else has, made a result of a kind: the same matrix, as the server's name
    of one goes with it."""
    classes: Any = kind, type(column)
    column.__class__ = _joined(*classes)
    for name, value in more.items():
        setattr(column, name, value)
    made: R = column
    return made


def as_centrality(column: Matrix, unit: int, error: float, measure: str = BOUND, *,
                  tolerance: Optional[float] = None, rounds: Optional[int] = None) -> Centrality:
    """A column of numbers in units of 1/unit as a result."""
    column.unit = unit
    return as_result(Centrality, column, error=error, measure=measure, tolerance=tolerance,
                     rounds=rounds)


def of_vertices(column: Matrix) -> Matrix:
    """A column whose values are vertices of the graph that has its rows."""
    axis = column.notes.axis(ROWS)
    if axis.names is not None:
        column.notes = column.notes._replace(unit=VertexUnit(axis.names, axis.kind))
    return column


def with_zeros(column: Matrix, graph: Matrix) -> Any:
    """A column that has an entry for each vertex of a graph, so that means and minima know those
    that count 0: 1 job, unless it is known to have one."""
    if column.handle.nvals == column.nrows:
        return column
    zeros = column_of(graph, 0)
    zeros.notes = zeros.notes._replace(unit=column.unit)
    made = column.ewise_add(zeros, 'first')
    if isinstance(column, Centrality):
        made = as_centrality(made, column.scale, column.error, column.measure,
                             tolerance=column.tolerance, rounds=column.rounds)
    return made


# -- where a budget ends

def unless_empty(column: Matrix) -> Optional[Matrix]:
    """A column of what was found; None where that is nothing."""
    return column if column.nvals else None


@contextlib.contextmanager
def keep_partial(find: Callable[[], Any]) -> Iterator[None]:
    """Where a job is refused for lack of steps, the refusal has what was found by then as its
    `partial`. It is made of what the client has, or of matrices that are there: neither takes a
    step."""
    try:
        yield
    except BudgetExceeded as fault:
        with contextlib.suppress(SpmatError):
            fault.partial = find()
        raise


# -- units

def unit_of(graph: Matrix, transpose: Optional[Matrix]) -> int:
    """The unit of the values of a graph. UnitsDiffer where its transpose has another one."""
    if transpose is not None:
        scales.common('a graph and its transpose', graph.unit, transpose.unit)
    return graph.unit
