"""What every matrix is, for modules that take matrices and that `matrix` itself is made of."""
from __future__ import annotations

from typing import Any, Dict, Protocol, Tuple, TypeVar

from .backends.protocol import Backend, Handle
from .metadata import ALIKE, NOTHING, Metadata


class BackedSession(Protocol):
    """What matrices ask of their session."""

    @property
    def backend(self) -> Backend:
        """What takes their jobs."""


class MatrixBase:
    """Two sizes, entries that a session holds, and what is known of them beside."""

    session: BackedSession
    handle: Handle
    nrows: int
    ncols: int
    kept: Dict[str, Any]
    notes: Metadata = NOTHING
    # the type of all values, by python-graphblas' name
    dtype = 'INT64'
    is_named = True                                # whether its name may be one that a caller gave
    is_vector = False                              # whether it is a Vector

    @property
    def shape(self) -> Tuple[int, int]:
        """Rows and columns.

        Returns
        -------
        tuple of two int
            `nrows` and `ncols`.

        See Also
        --------
        nvals : The number of entries.

        Examples
        --------
        >>> import spmat
        >>> s = spmat.Session()
        >>> A = s.from_triples([(0, 0, 1), (0, 2, -2), (1, 2, 3)], 2, 3)
        >>> A.shape, A.nrows, A.ncols
        ((2, 3), 2, 3)
        """
        return self.nrows, self.ncols


# -- which matrices a job can take together, and which have the same entries

H = TypeVar('H', bound='MatrixBase')


def alias(matrix: H, notes: 'Metadata') -> H:
    """Another matrix of the same entries, of which `notes` are known beside. No job, and nothing is
    sent."""
    made: Any = object.__new__(type(matrix))
    made.__dict__.update(matrix.__dict__)
    made.notes = notes
    made.handle.add_matrix(made)
    return made  # type: ignore[no-any-return]


def is_same(first: 'MatrixBase', second: 'MatrixBase') -> bool:
    """Whether two matrices are known to have the same entries, as one is, or both are made from,
    the other."""
    return first.kept is second.kept


S = TypeVar('S', bound=BackedSession)


def common_session(first: S, second: S) -> S:
    """Find the session whose backend takes a job on matrices of both.

    Parameters
    ----------
    first, second : Session
        The sessions of two matrices.

    Returns
    -------
    Session
        One of the two.

    Raises
    ------
    ValueError
        If these are two sessions, neither of which takes matrices of others.
    """
    if first is second or first == second or first.backend.takes_others:
        return first
    if second.backend.takes_others:                # a step of a loop asks
        return second
    raise ValueError(
        'a matrix of another session: the two are in two sessions, and a job takes matrices of '
        'one; B = A.session.adopt(B) copies B into the session of A')


def not_a_matrix(operand: object) -> TypeError:
    """Make the error for an operand that is no matrix.

    Parameters
    ----------
    operand : object
        What was given in place of a matrix.

    Returns
    -------
    TypeError
        The error. It says how to make a matrix of a list or an array.
    """
    instead = (': A.session.from_dense(x) makes one of it' if isinstance(operand, (list, tuple))
               or hasattr(operand, '__array__') else '')
    return TypeError('expected a matrix, got %s%s' % (type(operand).__name__, instead))


# -- which names and which scale a matrix has

def without_names(matrix: H) -> H:
    """A matrix that was made by indexes, as one that the client makes for itself: it goes with any
    names."""
    matrix.notes = NOTHING
    return matrix


def as_constant(matrix: H) -> H:
    """A constant, which goes with any names; where it is square, its rows and columns are the same
    vertices, and it is symmetric."""
    nrows, ncols = matrix.shape
    matrix.notes = ALIKE._replace(directed=False) if nrows == ncols > 1 else NOTHING
    return matrix


def with_unit(matrix: H, unit: int) -> H:
    """A matrix with the same stored numbers, of another scale: no job."""
    return matrix if matrix.notes.unit == unit else alias(matrix, matrix.notes._replace(unit=unit))
