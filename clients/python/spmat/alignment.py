"""Matrices with different names for their vertices, brought to the same ones."""
from __future__ import annotations

import itertools
from typing import Any, Dict, List, NamedTuple, Sequence, Set, Tuple, TypeVar, cast

import numpy

from .errors import NamesDiffer, refusal
from .limits import MOST_SIDE
from .matrix import Matrix
from .matrix_base import alias
from .metadata import (COLUMNS, ONE_KIND, POSITIONS, ROWS, Axis, Nodes, VertexUnit, check_names,
                       vertices_of)
from .types import Vertex

M = TypeVar('M', bound=Matrix)
WAYS = ('outer', 'inner')


class _Target(NamedTuple):
    """What rows or columns are called in the end, and how many they are."""
    axis: Axis
    size: int


def align(*matrices: M, how: str = 'outer') -> Tuple[M, ...]:
    """Bring matrices to the same vertices in one order, so that they can be combined.

        jan, feb = spmat.align(jan, feb)
        both = jan.ewise_add(feb)

    Parameters
    ----------
    *matrices
        Matrices of one session or several, in one place or in blocks. Graphs get one list of names
        for rows and columns; matrices of two kinds of vertices get one for each. Single columns and
        rows get the vertices of the graphs among the matrices.
    how : {'outer', 'inner'}
        The vertices of any of the matrices ('outer'), or those that all have ('inner'). Whole
        numbers come in ascending order, other names in order of appearance.

    Returns
    -------
    tuple
        The matrices, in the same order. One that has these vertices already is returned unchanged.
        Values that are vertices come from one list, too.

    Raises
    ------
    NamesDiffer
        If one was made by positions, or is a constant, and others have names.
    ValueError
        If `how` is another word, a name occurs twice, or graphs are mixed with matrices of two
        kinds of vertices.
    TooLarge
        For more than 16,777,216 vertices.

    See Also
    --------
    NamesDiffer : What is raised without it.
    Matrix.nodes : The names.

    Notes
    -----
    Cost: no step and no run. The entries of each matrix that changes come to the client and go
    back, as for `Matrix.T`. In pandas `DataFrame.align`.

    Examples
    --------
    >>> import spmat
    >>> s = spmat.Session()
    >>> jan = s.from_edgelist([("Ann", "Bob", 100)])
    >>> feb = s.from_edgelist([("Bob", "Cid", 7)])
    >>> jan, feb = spmat.align(jan, feb)
    >>> jan.ewise_add(feb).to_edgelist()
    [('Ann', 'Bob', 100), ('Bob', 'Cid', 7)]
    """
    if how not in WAYS:
        raise ValueError('how= is %s, not %r' % (' or '.join(map(repr, WAYS)), how))
    for matrix in matrices:
        if not isinstance(matrix, Matrix):
            raise TypeError('align takes matrices, each by itself, as in align(A, B), and not %r'
                            % (matrix,))
    targets = [[_target_of(matrix, axis) for axis in (ROWS, COLUMNS)] for matrix in matrices]
    for sides in _groups(matrices):
        old = [targets[number][axis] for number, axis in sides]
        new, mixes = _common(old, how), _mixes_kinds(old)
        for (number, axis), before in zip(sides, old):
            kind = 0 if mixes else before.axis.kind
            targets[number][axis] = new._replace(axis=new.axis._replace(kind=kind))
    made: List[M] = []
    for matrix, (rows, columns) in zip(matrices, targets):
        made.append(_moved(matrix, rows, columns, made))
    return tuple(_share_vertices(made))


def _share_vertices(matrices: List[M]) -> List[M]:
    """Matrices of which those whose values are vertices have these by one list."""
    known = [matrix.notes.value_names for matrix in matrices]
    lists = [names for names in known if names is not None]
    if all(names.equals(lists[0]) for names in lists):
        return matrices
    found = Nodes(_join_names(lists, 'outer'))
    common = next((names for names in lists if names == found), found)
    return [matrix if names is None or names.equals(common) else _renumbered(matrix, names, common)
            for matrix, names in zip(matrices, known)]


def _renumbered(matrix: M, old: Nodes, new: Nodes) -> M:
    """A matrix whose values are vertices, with these by another list."""
    places = numpy.fromiter(map(new.places.__getitem__, old), numpy.int64, len(old))
    rows, columns, values = matrix.entries()
    made = cast(M, matrix.session.from_coo(rows, columns, places[values], *matrix.shape))
    unit: Any = matrix.unit
    made.notes = matrix.notes._replace(unit=VertexUnit(new, unit.kind), source='')
    return made


def _target_of(matrix: Matrix, axis: int) -> _Target:
    """What the rows or columns of a matrix are called as it is."""
    return _Target(matrix.notes.axis(axis), matrix.shape[axis])


def _groups(matrices: Sequence[Matrix]) -> List[List[Tuple[int, int]]]:
    """Which rows (0) and columns (1) are to be called the same, beside the numbers of their
    matrices. ValueError for graphs beside matrices of two kinds of vertices."""
    vectors = [1 in matrix.shape and matrix.shape != (1, 1) for matrix in matrices]
    # graphs, or what may be one, whose rows and columns are the same vertices
    squares = [matrix.nrows == matrix.ncols and vertices_of(matrix.notes) is not None and not vector
               for matrix, vector in zip(matrices, vectors)]
    if all(vector or square for vector, square in zip(vectors, squares)):
        rows, columns = ([(number, axis) for number, matrix in enumerate(matrices)
                          if not vectors[number] or matrix.shape[axis] != 1
                          or all(one.shape[axis] == 1 for one in matrices)
                          and _was_read(matrix, axis)] for axis in (ROWS, COLUMNS))
        return [rows, columns] if all(vectors) else [rows + columns]
    for matrix, square in zip(matrices, squares):
        if square and matrix.notes.rows is not None:
            raise ValueError(
                'a graph of %d vertices has one list of names for rows and columns, and others '
                'here have one for each: align graphs with graphs, and matrices of two kinds of '
                'vertices with their like' % matrix.nrows)
    return [[(number, axis) for number, matrix in enumerate(matrices)
             if matrix.shape[axis] != 1 or matrix.notes.names(axis) is not None]
            for axis in (ROWS, COLUMNS)]


def _was_read(matrix: Matrix, axis: int) -> bool:
    """Whether the one row, or column, of a matrix is a vertex of a kind of its own."""
    names = matrix.notes.names(axis)
    return names is not None and not names.is_cut


def _common(sides: Sequence[_Target], how: str) -> _Target:
    """The vertices that any of the sides has, or that all have."""
    lists = [axis.names for axis, _ in sides if axis.names is not None]
    for axis, count in sides:
        if axis.names is not None:
            check_names(axis.names)
        elif not axis.has_names and not all(names.are_counted for names in lists):
            names = next(names for names in lists if not names.are_counted)
            raise NamesDiffer(
                'a matrix of %d rows or columns without names can not be aligned with one that '
                'has some: %s; %s' % (count, ', '.join(map(repr, names[:3])), POSITIONS))
    if not lists:
        count = (max if how == 'outer' else min)((count for _, count in sides), default=0)
        return _Target(Axis(None, max((axis.unnamed for axis, _ in sides), default=Axis().unnamed)),
                       count)
    found = _join_names([axis.listed(count) for axis, count in sides], how)
    if len(found) > MOST_SIDE:
        raise refusal('M4', detail='%d vertices' % len(found))
    same = next((names for names in lists if names == found), None)
    return _Target(Axis(Nodes(found) if same is None else same), len(found))


def _mixes_kinds(sides: Sequence[_Target]) -> bool:
    """Whether both kinds of vertices of one matrix are among the sides. NamesDiffer where one of
    each kind have the same name."""
    known: Dict[int, Set[Any]] = {}
    for axis, count in sides:
        known.setdefault(axis.kind, set()).update(axis.listed(count) if axis.kind else ())
    mixed = [kind for kind in known if kind > 0 and -kind in known]
    for kind in mixed:
        for name in known[kind] & known[-kind]:
            raise NamesDiffer('align gets vertices of two kinds, and one of each is called %r; %s'
                              % (name, ONE_KIND))
    return bool(mixed)


def _join_names(lists: Sequence[Sequence[Vertex]], how: str) -> List[Any]:
    """The names that any list has, or that all have: whole numbers ascending, others as they first
    stand."""
    found = list(dict.fromkeys(itertools.chain.from_iterable(lists)))
    if how == 'inner':
        in_all = set(lists[0]).intersection(*lists[1:])
        found = [name for name in found if name in in_all]
    return sorted(found) if all(type(name) is int for name in found) else found


def _moved(matrix: M, rows: _Target, columns: _Target, before: Sequence[M]) -> M:
    """A matrix with other vertices: its entries between those that it still has. In blocks it is
    cut as those before."""
    notes = matrix.notes.with_axes(rows.axis, columns.axis)
    tables = [_find_places(_target_of(matrix, axis), target)
              for axis, target in ((ROWS, rows), (COLUMNS, columns))]
    if all(table is None for table in tables):
        is_same = (notes.rows is matrix.notes.rows and notes.columns is matrix.notes.columns
                   and notes == matrix.notes)
        return matrix if is_same else alias(matrix, notes)
    *ends, values = matrix.entries()
    i, j = (at if table is None else table[at] for at, table in zip(ends, tables))
    stay = (i >= 0) & (j >= 0)
    like = next((one for one in before if one.nrows == rows.size and one.session == matrix.session),
                matrix)
    made = cast(M, like.session.from_coo(i[stay], j[stay], values[stay], rows.size, columns.size))
    made.notes = notes._replace(source='')
    return made


def _find_places(old: _Target, new: _Target) -> Any:
    """The new place of each old row or column, -1 where it has none; None where all stay."""
    if old.axis.names is new.axis.names and old.size == new.size:
        return None
    at = numpy.arange(old.size)
    if new.axis.names is None:
        return numpy.where(at < new.size, at, -1)
    places = new.axis.names.places
    found = numpy.fromiter((places.get(name, -1) for name in old.axis.listed(old.size)),
                           numpy.int64, old.size)
    return None if old.size == new.size and (found == at).all() else found
