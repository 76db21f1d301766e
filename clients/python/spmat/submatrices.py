"""Rows and columns that are moved, and what is made of that: parts, tiles put together, the graph
of a bipartite matrix.

A product with a matrix of ones moves rows or columns, as GrB_extract does: P A has the rows of A
that P names, A Q the columns. All that keeps entries at the server is made of such products.
"""
from __future__ import annotations

import functools
import itertools
from collections import Counter
from fractions import Fraction
from typing import TYPE_CHECKING, Any, List, Optional, Sequence, Tuple, Union

import numpy

from . import result_metadata, scale as scales
from .backends.protocol import Job
from .errors import refusal, warn_user
from .indexing import WHAT, Chosen, choose_places
from .integers import shown, side, whole
from .io.matrix_text import Triples
from .io.values import whole_numbers
from .job_operators import ring_of
from .matrix_base import MatrixBase
from .metadata import COLUMNS, NOTHING, ROWS, Axis, Nodes, Unnamed, axis_of, even, joined
from .operators import Operator, indexunary

if TYPE_CHECKING:
    from .matrix import Matrix

BOTH = (ROWS, COLUMNS)
# entries that come to the client sooner than they are counted
FEW = 1 << 14
SPARE = 4                                          # times as many as are asked for are few enough
Sizes = Union[int, Sequence[int]]


# -- rows and columns that are moved

def move(matrix: 'Matrix', axis: int, sources: Sequence[int], targets: Sequence[int], size: int,
         names: Axis, own: Optional[Axis] = None, name: Optional[str] = None) -> 'Matrix':
    """A matrix of `size` rows (with an axis of 1 columns), of which the `targets` are the `sources`
    of another: 1 job. `names` says what they are called, and `own` what those of the other have to
    be called, where the caller knows that otherwise."""
    count, own = matrix.shape[axis], matrix.notes.axis(axis) if own is None else own
    if axis == ROWS:
        ones = _put_ones(matrix, targets, sources, (size, count), (names, own))
        return ones.mxm(matrix, 'any_second', name=name)
    ones = _put_ones(matrix, sources, targets, (count, size), (own, names))
    return matrix.mxm(ones, 'any_first', name=name)


def _put_ones(matrix: 'Matrix', rows: Sequence[int], columns: Sequence[int], shape: Tuple[int, int],
              axes: Tuple[Axis, Axis]) -> 'Matrix':
    """Ones at places that differ, beside a matrix. They go to the server with the first job that
    wants them."""
    at = numpy.array((rows, columns), numpy.int64)
    first, second = at[:, numpy.lexsort(at[::-1])] if len(rows) > 1 else at
    ones = Triples(first, second, numpy.ones(len(first), numpy.int64), *shape)
    made: Matrix = matrix.session.backend.keep(ones)
    made.notes = NOTHING.with_axes(*axes)
    return made


def take(matrix: 'Matrix', axis: int, places: Sequence[int], name: Optional[str] = None,
         one: bool = False) -> 'Matrix':
    """Some rows, or columns, in this order, or the `one` that is asked for by itself: 1 job. They
    have their names, or none where one is taken twice."""
    return move(matrix, axis, places, range(len(places)), len(places),
                matrix.notes.axis(axis).part(places, one), name=name)


def take_cells(matrix: 'Matrix', rows: Sequence[int], columns: Sequence[int]) -> 'Matrix':
    """Some rows, in which some columns alone have entries, and stay where they are: 1 job, which
    makes a call for each of these entries."""
    count, names = len(rows), (matrix.notes.axis(ROWS), matrix.notes.axis(COLUMNS))
    first = _put_ones(matrix, range(count), rows, (count, matrix.nrows), (Axis(), names[ROWS]))
    where = _put_ones(matrix, [i for i in range(count) for _ in columns], [*columns] * count,
                      (count, matrix.ncols), (Axis(), names[COLUMNS]))
    return first.mxm(matrix, 'any_second', mask=where.S)


def value_at(matrix: 'Matrix', row: int, column: int) -> Any:
    """What the entry at a place stands for, None where it has none: 1 job, which takes one trip
    with the two ones that choose the place."""
    backend, one = matrix.session.backend, numpy.ones(1, numpy.int64)
    first, where = (backend.put(Triples(one - 1, place * one, one, 1, size))
                    for place, size in zip((row, column), matrix.shape))
    chosen = Job('product', ring_of('any_second'), (first, matrix.handle), (1, matrix.ncols),
                 mask=where)
    values = backend.read(backend.submit(chosen)).values.tolist()
    return scales.to_decimal(values[0], matrix.unit) if values else None


def value_of(cell: 'Matrix') -> Any:
    """What the one entry of a matrix stands for, None where it has none."""
    values = cell.entries(arrays=False)[2]
    return scales.to_decimal(values[0], cell.unit) if values else None


# -- few entries, which the session finds: it bisects, and few come to the client

def find_greatest(matrix: 'Matrix', k: int) -> 'Matrix':
    """The k greatest entries, of equals the first, and some others: all entries from a threshold
    on. This matrix where it has few entries.

    Runs: 4, and 1 for each halving of what lies between the least and the greatest value. Entries
    of one value take 1 for each halving of the rows or columns. Steps: 8 an entry and 4 a row
    for the ends, and 3 an entry from the last threshold on for each halving."""
    enough = max(FEW, SPARE * k)
    if k < 1 or matrix.nvals <= enough:
        return matrix
    unit = matrix.unit
    least, most = (matrix.reduce_scalar('min', raw=True) or 0, matrix.reduce_scalar('max', raw=True)
                   or 0)
    above = matrix                                 # all entries from `least` on: more than enough
    while least < most:
        middle = least + (most - least + 1) // 2
        found = above.select('valuege', Fraction(middle) / unit)
        if found.nvals > enough:
            above, least = found, middle
        elif found.nvals >= k:
            return found
        else:
            most = middle - 1
    more = above.select('valuegt', Fraction(least) / unit)
    return more.ewise_add(find_first(above.select('valueeq', Fraction(least) / unit),
                                      k - more.nvals), 'first')


def find_first(matrix: 'Matrix', k: int) -> 'Matrix':
    """The first k entries by row and column, and some others. This matrix where it has few."""
    if matrix.nvals <= max(FEW, SPARE * k):
        return matrix
    rows = _bisect(matrix, k, matrix.nrows, (indexunary.rowle, indexunary.rowgt))
    if rows[0].nvals <= max(FEW, SPARE * k):
        return rows[0]
    before = rows[0].select(indexunary.rowle, rows[1] - 1)
    last = rows[0].select(indexunary.rowgt, rows[1] - 1)
    return before.ewise_add(_bisect(last, k - before.nvals, matrix.ncols,
                                    (indexunary.colle, indexunary.colgt))[0], 'first')


def _bisect(matrix: 'Matrix', k: int, count: int,
            ops: Tuple[Operator, Operator]) -> Tuple['Matrix', int]:
    """The entries up to the first row, or column, by which there are k of them or more; and that
    row."""
    low, high, found = 0, count - 1, matrix
    while low < high:
        middle = (low + high) // 2
        part = found.select(ops[0], middle)
        if part.nvals >= k:
            found, high = part, middle
        else:
            low = middle + 1
    return found, high


# -- tiles

def concat(tiles: Sequence[Sequence[Any]], *, name: Optional[str] = None) -> 'Matrix':
    """One matrix of rows of tiles, as in `spmat.concat([[A, B], [C, None]])`.

    Parameters
    ----------
    tiles : list of lists of Matrix
        Matrices of one session; None is a tile without entries. Tiles in one list have equal
        numbers of rows, tiles below one another equal numbers of columns, and all lists are of one
        length.
    name : str, optional
        A name for the matrix.

    Returns
    -------
    Matrix
        A matrix with the names of its tiles, where all have some that differ. Else it has no names
        on that side, and a UserWarning says so where some had a list of them.

    Raises
    ------
    DimensionMismatch
        If sizes don't fit.
    ValueError
        If a row or column of tiles is None throughout, if lists have different lengths, or if
        neighbouring tiles have different names.
    TypeError
        If `tiles` is no list of lists.

    See Also
    --------
    Matrix.split : The inverse.
    Matrix.resize : Other sizes.

    Notes
    -----
    2 jobs a tile and 1 to join each with the others, and at most as many runs. In python-graphblas
    `ss.concat`, in SuiteSparse:GraphBLAS `GxB_Matrix_concat`, in scipy.sparse `bmat`, in numpy
    `block`.

    Examples
    --------
    >>> import spmat
    >>> s = spmat.Session()
    >>> A, B = s.full(1, 2, 1), s.full(1, 1, 2)
    >>> spmat.concat([[A, B]]).to_triples()
    [(0, 0, 1), (0, 1, 1), (0, 2, 2)]
    """
    if any(isinstance(row, MatrixBase) or not isinstance(row, (list, tuple))
           for row in tiles) or not tiles:
        raise TypeError('tiles are a list of rows of matrices: spmat.concat([[A, B], [C, D]])')
    if len({len(row) for row in tiles}) > 1 or not tiles[0]:
        raise ValueError(
            'rows of %s tiles: each row has as many, with None for a tile without entries'
            % ' and '.join(sorted({str(len(row)) for row in tiles})))
    heights = [_find_common_size(row, 0, at) for at, row in enumerate(tiles)]
    widths = [_find_common_size(column, 1, at) for at, column in enumerate(zip(*tiles))]
    # what joins them below is no operator of the caller's, so it isn't to be told of
    functools.reduce(functools.partial(scales.common, 'concat'),
                     [tile.unit for tile in itertools.chain(*tiles) if tile is not None])
    axes = [_join_axes(bands, sizes, axis)
            for axis, (bands, sizes) in enumerate(((tiles, heights), (list(zip(*tiles)), widths)))]
    placed = [_place_tile(tile, (sum(heights[:i]), sum(widths[:j])), (sum(heights), sum(widths)))
              for i, row in enumerate(tiles) for j, tile in enumerate(row) if tile is not None]
    made = placed[0]
    for tile in placed[1:]:
        made = made.ewise_add(tile, 'first')
    made = made.dup(name=name) if name is not None else made
    made.notes = NOTHING._replace(unit=made.unit).with_axes(*axes)
    return made


def _find_common_size(tiles: Sequence[Optional['Matrix']], axis: int, at: int) -> int:
    """The rows that all tiles beside one another have, or the columns of those below one
    another."""
    sizes = [tile.shape[axis] for tile in tiles if tile is not None]
    if not sizes:
        raise ValueError('the %s %d of tiles has None alone, so that its size is not known'
                         % (WHAT[axis], at))
    if len(set(sizes)) > 1:
        raise refusal('J5', detail='the tiles of %s %d have %s %ss' % (
            WHAT[axis], at, ' and '.join(map(str, sorted(set(sizes)))), WHAT[axis]))
    return int(sizes[0])


def _join_axes(bands: Sequence[Sequence[Optional['Matrix']]], sizes: Sequence[int],
               axis: int) -> Axis:
    """What all rows (or columns) of tiles are called one after the other; nothing, with a warning,
    where some have no names, or one stands twice."""
    found = [_join_band(band, axis, at) for at, band in enumerate(bands)]
    if len(found) == 1 or all(one == Axis() for one in found):
        return found[0]
    filled_bands = [(one, size) for one, size in zip(found, sizes) if size]
    lists = [one.listed(size) for one, size in filled_bands]
    nameless = next((at for at, (one, _) in enumerate(filled_bands) if not one.has_names), None)
    counts = Counter(itertools.chain.from_iterable(lists))
    if nameless is None and len(counts) == sum(map(len, lists)):
        kinds = {one.kind for one, _ in filled_bands}
        return axis_of(Nodes(counts))._replace(kind=kinds.pop() if len(kinds) == 1 else 0)
    if any(one.names is not None for one, _ in filled_bands):
        what = WHAT[axis]
        why = ('those of some tiles have none' if nameless is not None else
               '%r stands in several tiles, and no two %ss have one name'
               % (max(counts, key=counts.__getitem__), what))
        warn_user('the %ss of what concat makes have no names, since %s: C.%s_nodes = [..] gives '
                  'them some; B = A.dup(); B.%s_nodes = None takes them off a tile before'
                  % (what, why, what, what), UserWarning)
    return Axis(None, Unnamed.POSITIONS)


def _join_band(band: Sequence[Optional['Matrix']], axis: int, at: int) -> Axis:
    """What the rows of tiles beside one another are called, or the columns of those below one
    another. NamesDiffer where they differ."""
    words = 'the %ss of the tiles of %s %d' % (WHAT[axis], WHAT[axis], at)
    notes = NOTHING
    for tile in band:
        if tile is not None:
            one = joined(notes, tile.notes, ((axis, axis, words),))[0]
            notes = NOTHING.with_axes(one, one)
    return notes.axis(axis)


def _place_tile(tile: 'Matrix', at: Sequence[int], shape: Sequence[int]) -> 'Matrix':
    """A tile at its place in the whole, without names."""
    for axis in BOTH:
        count = tile.shape[axis]
        targets = range(at[axis], at[axis] + count)
        tile = move(tile, axis, range(count), targets, shape[axis], Axis())
    return tile


def bipartite(B: Matrix) -> Matrix:
    """The square matrix of a bipartite graph.

    Parameters
    ----------
    B : Matrix
        The matrix whose rows and columns are the two kinds of vertices.

    Returns
    -------
    Matrix
        An undirected graph of `B.nrows + B.ncols` vertices: first the rows, then the columns, and
        each entry of B as an edge both ways. Its names are those of the rows and of the columns.
        Where some are the same, or there are none, they are ('row', name) and ('column', name).

    Raises
    ------
    TooLarge
        If vertices, or entries, are more than 16,777,216 together (M4).

    See Also
    --------
    undirected : The graph of a square matrix.
    Session.read_graph : With two kinds of vertices.

    Notes
    -----
    No job: the entries come to the client and go back, as for `T`. GraphBLAS:
    `Matrix_extractTuples`, and `Matrix_build`.

    Examples
    --------
    >>> import spmat
    >>> s = spmat.Session()
    >>> B = s.from_edgelist([("Ann", "tea"), ("Bob", "tea")], bipartite=True)
    >>> spmat.bipartite(B).nodes
    ['Ann', 'Bob', 'tea']
    >>> spmat.algorithms.bfs_levels(spmat.bipartite(B), "Ann").by_node()
    {'Ann': 0, 'Bob': 2, 'tea': 1}
    """
    rows, columns, values = B.entries()
    ends, columns = B.nrows + B.ncols, columns + B.nrows
    made = B.session.from_coo(numpy.concatenate((rows, columns)),
                              numpy.concatenate((columns, rows)),
                              numpy.concatenate((values, values)), ends, ends)
    made.notes = result_metadata.of_both_sides(B.notes, B.nrows, B.ncols)
    return made


# -- sizes

def take_part(matrix: 'Matrix', *bounds: Tuple[int, int]) -> Any:
    """A part by positions, whatever rows and columns are called."""
    part = matrix
    for axis in BOTH:
        if bounds[axis] != (0, matrix.shape[axis]):
            part = take(part, axis, range(*bounds[axis]))
    if part is not matrix:
        note_directed(matrix, part, bounds[ROWS] == bounds[COLUMNS])
    return part


def note_directed(matrix: MatrixBase, part: 'Matrix', is_corner: bool) -> None:
    """Notes of a part that it is undirected where it `is_corner`, with the same rows and columns,
    of a matrix that is."""
    part.notes = part.notes._replace(directed=even(matrix.notes) if is_corner else None)


def find_bounds(count: int, sizes: Optional[Sizes], axis: int) -> List[Tuple[int, int]]:
    """Where the parts of so many rows or columns begin and end: of some sizes, or of one, of which
    the last is what is left."""
    if sizes is None:
        return [(0, count)]
    if hasattr(sizes, '__index__'):
        size = whole(sizes, 'size')
        if size < 1:
            raise ValueError('a part has 1 %s or more, not %s' % (WHAT[axis], shown(size)))
        return [(first, min(first + size, count)) for first in range(0, count, size)] or [(0, 0)]
    many = whole_numbers(list(sizes), what='size').tolist()
    if any(size < 0 for size in many) or sum(many) != count:
        raise ValueError('parts of %s %ss are %s together, and there are %d' % (
            ' and '.join(map(shown, many)), WHAT[axis], shown(sum(many)), count))
    return [(sum(many[:at]), sum(many[:at + 1])) for at in range(len(many))]


def resize_axis(matrix: MatrixBase, axis: int, size: int, warns: bool) -> Axis:
    """What rows or columns are called that were cut off, or have grown in number, which gives new
    ones no names: it `warns` where some had names."""
    old = matrix.notes.axis(axis)
    if size <= matrix.shape[axis]:
        return old.part(range(size)) if size < matrix.shape[axis] else old
    if old.names is not None and warns:
        warn_user('%d %ss have names and %d have none, so that numbers are positions in what '
                  'resize makes: resize(.., nodes=[..]) names all of them' % (
                      len(old.names), WHAT[axis], size - len(old.names)), UserWarning)
    return old.alone() if old.names is None else Axis(None, Unnamed.POSITIONS)


def fill_size(matrix: MatrixBase, size: int, other: int) -> int:
    """A size, which may be -1 for what is left beside the other, as in numpy."""
    size, other = whole(size, 'size'), whole(other, 'size')
    return matrix.nrows * matrix.ncols // max(other, 1) if size == -1 else side(size, 0, 'size')


# -- parts that are set, as GrB_assign has it

def choose_once(matrix: 'Matrix', index: object, axis: int) -> Chosen:
    """The rows or columns that are set. ValueError where one is given twice."""
    chosen = Chosen(None) if index is None else choose_places(matrix, index, axis)
    if chosen.twice is not None:
        raise ValueError('the %s %r is given twice: each is set once' % (
            WHAT[axis], matrix.notes.axis(axis).listed(matrix.shape[axis])[chosen.twice]))
    return chosen


def fit_part(what: 'Matrix', part: Sequence[Chosen], shape: Tuple[int, int]) -> 'Matrix':
    """What a part is set to. One row may be given as a column, and one column as a row.
    DimensionMismatch where it has another shape."""
    wanted = tuple(count if one.places is None else len(one.places)
                   for one, count in zip(part, shape))
    is_turned = what.shape == wanted[::-1] and any(one.one for one in part)
    if what.shape == wanted or is_turned:
        return what if what.shape == wanted else what.T
    raise refusal('J5', detail='%dx%d places are set, and the matrix has %dx%d'
                  % (*wanted, *what.shape))


def spread_part(matrix: 'Matrix', what: 'Matrix', part: Sequence[Chosen]) -> 'Matrix':
    """What a part is set to, at its places in a matrix of the whole's shape. Its rows and columns
    are called as those that are set; where they have no names, the caller says by the index which
    they are."""
    for axis in BOTH:
        places, whole = part[axis].places, matrix.notes.axis(axis)
        if places is not None:
            own = whole.part(places) if what.notes.axis(axis).has_names else Axis()
            joined(what.notes, NOTHING.with_axes(own, own),
                   ((axis, axis, 'the %ss of what is assigned, and the %ss that are set,'
                     % (WHAT[axis], WHAT[axis])),),
                   'B = what.dup(); B.%s_nodes = None takes the names off what is assigned'
                   % WHAT[axis])
            what = move(what, axis, range(len(places)), places, matrix.shape[axis], whole, own)
    return what


def keep_part(matrix: 'Matrix', part: Sequence[Chosen]) -> 'Matrix':
    """The entries of a matrix in some rows and columns."""
    for axis in BOTH:
        places = part[axis].places
        if places is not None:
            matrix = move(matrix, axis, places, places, matrix.shape[axis], matrix.notes.axis(axis))
    return matrix


def repeat_number(matrix: 'Matrix', stored: int, part: Sequence[Chosen]) -> 'Matrix':
    """A number in each of some rows and columns: a column that has it in these rows, whose one
    column is moved to each of these columns."""
    down, along = (range(count) if one.places is None else one.places
                   for one, count in zip(part, matrix.shape))
    made = matrix.session.from_coo(down, [0] * len(down), stored, matrix.nrows, 1)
    made.notes = NOTHING._replace(unit=matrix.unit).with_axes(matrix.notes.axis(ROWS), Axis())
    return move(made, COLUMNS, [0] * len(along), along, matrix.ncols, matrix.notes.axis(COLUMNS))


def fill(pattern: 'Matrix', stored: int, unit: int) -> Any:
    """One stored number wherever a matrix has an entry: 1 job."""
    made = pattern.apply('thunk', right=stored)
    made.notes = made.notes._replace(unit=unit)
    return made
