"""Columns and rows seen as vectors."""
from __future__ import annotations

# some methods raise, so none gives what Python wants of it
# pylint: disable=invalid-length-returned,non-iterator-returned

from typing import Any, Optional, Tuple, Union

import numpy

from .operators import Op
from .errors import refusal
from .indexing import choose_places
from .mask import Mask
from .matrix import Matrix, vector_type
from .metadata import along
from .matrix_base import alias
from .submatrices import take, value_of
from .types import DType, Exact
from .unsupported_syntax import refusing


class Vector(Matrix):
    """A column or a row, seen as a vector: one index for each entry, as in python-graphblas.

    It is a matrix of one column, or of one row, with all methods of `Matrix`. What differs: `size`,
    `v[i]`, `i in v`, and the results of `to_coo` and `to_dense`. Algorithms give vectors, and so
    does every job on one whose result has one column or row.

    Parameters
    ----------
    column : Matrix
        A column or a row. The vector has its entries and what is known of them; nothing is sent.

    Raises
    ------
    DimensionMismatch
        Of another shape.
    """

    is_vector = True

    def __init__(self, column: Matrix) -> None:  # pylint: disable=super-init-not-called
        # it is the same matrix
        if not isinstance(column, Matrix):
            raise TypeError('a vector is of a matrix of one column or row, not of %r: '
                            'spmat.Vector(s.from_dense(values))' % (column,))
        if 1 not in column.shape:
            raise refusal('J5', detail='a vector is of a column or a row, not of %dx%d'
                          % column.shape)
        self.__dict__.update(column.__dict__)
        self.handle.add_matrix(self)

    @property
    def size(self) -> int:
        """How many entries there can be.

        Returns
        -------
        int
            The rows of a column, the columns of a row.

        See Also
        --------
        nvals : The number of entries.

        Examples
        --------
        >>> import spmat
        >>> s = spmat.Session()
        >>> v = s.vector_from_coo([0, 2], [5, 7], size=4)
        >>> v.size, v.nvals
        (4, 2)
        """
        return self.nrows if self.ncols == 1 else self.ncols

    def __getitem__(self, at: object) -> Any:
        """The value of a vertex, or the vector of some.

        `v[i]` is the value of a vertex, None where it has none. `v[indexes]`, `v[1:3]` and
        `v[mask]` are vectors. `v[i, j]` is as for a matrix, unless (i, j) is a name. See
        `Matrix.__getitem__`.

        Parameters
        ----------
        at : index or Mask
            A name, a number, a list, an array, a slice or a filter.

        Returns
        -------
        Vector, int, float or None
            A value where one vertex is asked for, else a vector.
        """
        axis = along(self.shape, self.notes)
        names = self.notes.names(axis)
        # a tuple may be the name of a vertex, and not two indexes
        if isinstance(at, Mask) or isinstance(at, tuple) and at not in (names or ()):
            return super().__getitem__(at)
        chosen = choose_places(self, at, axis)
        if chosen.places is None:
            return self
        part = take(self, axis, chosen.places)
        return value_of(part) if chosen.one else as_vector(part)

    __len__ = refusing('len()', 'v.size, or v.nvals for the number of entries', 'vector')
    __iter__ = refusing('iteration', 'v.to_list() for values, v.by_node().items() for vertices '
                           'and values', 'vector')

    def __contains__(self, node: object) -> bool:
        """Whether there is an entry.

        Parameters
        ----------
        node : Any
            A name, or an index from 0.

        Returns
        -------
        bool
            Whether this place has a value, also 0.
        """
        try:
            return self.get(node) is not None
        except ValueError:                         # there is no such vertex
            return False

    def to_coo(self, *, arrays: Optional[bool] = None,  # type: ignore[override]
               dtype: DType = None) -> Tuple[Any, Any]:
        """Indexes (from 0) and values, by ascending index.

        `entries()` has rows, columns and values.

        Parameters
        ----------
        arrays : bool, optional
            False gives lists in place of arrays of numpy.
        dtype : type, optional
            With float, values are what the stored whole numbers stand for.

        Returns
        -------
        tuple of two arrays or lists
            Indexes and values.

        See Also
        --------
        to_dense : With a value for each place.

        Examples
        --------
        >>> import spmat
        >>> s = spmat.Session()
        >>> v = s.vector_from_coo([0, 2], [5, 7], size=4)
        >>> v.to_coo()
        (array([0, 2]), array([5, 7]))
        """
        rows, columns, values = self.entries(arrays=arrays, dtype=dtype)
        return rows if self.ncols == 1 else columns, values

    def to_dense(self, fill: Union[Exact, DType] = 0, dtype: DType = None, *,
                 fill_value: Optional[Exact] = None) -> Any:
        """An array of numpy of one dimension.

        Else it is as `Matrix.to_dense`.

        Parameters
        ----------
        fill : number, default 0
            What stands where there is no entry. A type here is `dtype`: `to_dense(float)`.
        dtype : type, optional
            With float the array is float64, what the stored whole numbers stand for.
        fill_value : number, optional
            Another name of `fill`.

        Returns
        -------
        numpy.ndarray
            An array of one dimension, of int64 or float64.

        See Also
        --------
        to_coo : The entries alone.

        Examples
        --------
        >>> import spmat
        >>> s = spmat.Session()
        >>> v = s.vector_from_coo([0, 2], [5, 7], size=4)
        >>> v.to_dense(fill=0).tolist()
        [5, 0, 7, 0]
        """
        return numpy.asarray(super().to_dense(fill, dtype, fill_value=fill_value)).ravel()

    def reduce(self, op: Op = 'plus') -> Any:
        """The fold of all entries, as a number.

        It is `reduce_scalar`, by python-graphblas' name.

        Parameters
        ----------
        op : Operator, str or callable, default 'plus'
            A binary operator or an aggregator, as `reduce_scalar` has it.

        Returns
        -------
        int, float or None
            What `reduce_scalar` gives.

        See Also
        --------
        Matrix.reduce_scalar : Of a matrix.

        Examples
        --------
        >>> import spmat
        >>> s = spmat.Session()
        >>> v = s.vector_from_coo([0, 2], [5, 7], size=4)
        >>> v.reduce("plus")
        12
        """
        return self.reduce_scalar(op)


def as_vector(column: Matrix) -> Any:
    """A column or a row as a vector, of whatever class of matrices it is; anything else as it
    is."""
    if not isinstance(column, Matrix) or column.is_vector or 1 not in column.shape:
        return column
    made = alias(column, column.notes)
    made.__class__ = vector_type(type(column))
    return made


def as_matrix(one: object) -> Any:
    """A vector as the column or row that it is; anything else as it is."""
    if not isinstance(one, Vector):
        return one
    made = alias(one, one.notes)
    kinds = [kind for kind in type(one).__mro__ if issubclass(kind, Matrix)
             and not issubclass(kind, Vector)]
    made.__class__ = kinds[0]  # type: ignore[assignment]
    return made
