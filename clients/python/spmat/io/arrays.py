"""What numpy, pandas and scipy hand over, as tables with their labels, and as entries, which are
looked at before anything is sent; and back. What can't be taken is refused by what it is. Columns
that are handed out as arrays of numpy don't become squares without a word."""
from __future__ import annotations

import operator
import sys
from typing import (TYPE_CHECKING, Any, Callable, Dict, Iterable, Iterator, List, NamedTuple,
                    NoReturn, Optional, Sequence, Tuple)

import numpy

from ..errors import Refused, about, refusal
from ..integers import LEAST, MOST, is_gap, shown, side, whole
from ..metadata import Nodes, check_names
from ..types import DataFrame, Series
from .matrix_text import Triples
from .values import Rounding, whole_number, whole_numbers

if TYPE_CHECKING:
    Array = numpy.ndarray[Any, Any]
else:
    Array = numpy.ndarray

DUP_OP = 'dup_op= folds the values of a position that repeats'
ORDERS = {'rowwise': True, 'columnwise': False}
Columns = Tuple[Any, Any, Any]
# words for the two ends of an edge, as headers and columns of tables have them
PAIRS = (('source', 'target'), ('from', 'to'), ('src', 'dst'), ('origin', 'destination'),
         ('sender', 'receiver'), ('parent', 'child'))
NO_COLUMN = {'DataFrame': 'has two dimensions: name one of its columns, frame["a"]',
             'dict': 'has keys beside values: write list(..) of either',
             'set': 'has no order: write sorted(..)', 'frozenset': 'has no order: write sorted(..)',
             'str': 'is text', 'bytes': 'is text'}


class Table(NamedTuple):
    """The cells of a table, an array of two dimensions or a list of lists, and the names of its
    rows and columns."""
    cells: Any
    rows: Optional[Nodes] = None
    columns: Optional[Nodes] = None


def _class(module: str, name: str) -> Any:
    """A class of a module, where that is imported; no value is one of it elsewhere."""
    return getattr(sys.modules.get(module), name, ())


def is_frame(thing: object) -> bool:
    """Whether this is a table of pandas."""
    return isinstance(thing, _class('pandas', 'DataFrame'))


def is_series(thing: object) -> bool:
    """Whether this is a column of pandas."""
    return isinstance(thing, _class('pandas', 'Series'))


def is_many(values: object) -> bool:
    """Whether this is more than one number: what can be gone through, but for text, and arrays
    without a dimension."""
    return (hasattr(values, '__iter__') and not isinstance(values, (str, bytes))
            and getattr(values, 'ndim', 1) != 0)


def plain_column(many: Any, what: str) -> Any:
    """Numbers of one dimension as an array of numpy or a list, by position: of a column or an index
    of pandas what it holds, whatever its labels are. TypeError for what has no order or more than
    one dimension, ValueError with the place where one is missing."""
    if what in ('row', 'column') and _is_filter(many):
        raise TypeError(
            '%ss are whole numbers, not truth values: numpy.flatnonzero(array) gives the places '
            'of a filter' % what)
    if type(many) in (list, tuple, range) or (isinstance(many, numpy.ndarray)
                                              and not _is_masked(many)):
        return many
    if not is_many(many):
        raise TypeError('expected a list or an array of %ss, not %r' % (what, many))
    _check_column(many, what)
    if _is_masked(many) and many.mask.any():
        raise ValueError(
            'a %s is masked (entry %d): array.filled(0) gives it a value, array.compressed() '
            'leaves it out' % (what, int(many.mask.reshape(-1).argmax())))
    if hasattr(many, 'to_numpy'):                  # a column, an index or an array of pandas
        gaps = getattr(many, 'isna', None)
        if gaps is not None and gaps().any():
            raise ValueError(
                'a %s is missing (entry %d): fillna(0) gives it a value, dropna() leaves it out'
                % (what, list(gaps()).index(True)))
        # truth values that may be missing, and aren't
        found = many.to_numpy(bool) if str(many.dtype) == 'boolean' else many.to_numpy()
        return found if found.dtype.kind != 'O' else found.tolist()
    if hasattr(many, '__array__'):
        return numpy.asarray(many)
    return list(many)


def _is_filter(many: object) -> bool:
    """Whether an array, or the first of a list, is a truth value."""
    kind = getattr(getattr(many, 'dtype', None), 'kind', '')
    return (kind == 'b' or (isinstance(many, (list, tuple)) and len(many) > 0
                            and isinstance(many[0], bool)))


def _is_masked(thing: object) -> bool:
    return isinstance(thing, _class('numpy.ma', 'MaskedArray'))


def _check_column(many: object, what: str) -> None:
    """TypeError where this isn't a column of numbers but something else that can be gone
    through."""
    if hasattr(type(many), 'mxm'):
        _refuse(what, 'a matrix', 'write A.to_list() of a column, or A.to_coo()')
    if hasattr(many, 'tocoo'):
        _refuse(what, 'a matrix of scipy.sparse', 'from_scipy_sparse takes it')
    for kind, why in NO_COLUMN.items():
        if kind in [each.__name__ for each in type(many).__mro__]:
            raise TypeError('expected a list or an array of %ss, and a %s %s' % (what, kind, why))


def _refuse(what: str, kind: str, instead: str) -> NoReturn:
    raise TypeError('expected a list or an array of %ss, not %s: %s' % (what, kind, instead))


def columns_of_frame(frame: DataFrame) -> Tuple[Any, Any, Any]:
    """The columns of a table of pandas, by position: rows, columns and values, which are 1 where
    there are two."""
    parts: List[Any] = [frame.iloc[:, place] for place in range(frame.shape[1])]
    if len(parts) not in (2, 3):
        raise ValueError(
            'expected a table of two or three columns (row, column, value), not of %d: '
            'from_dense takes a table of values, from_pandas_edgelist names the columns'
            % len(parts))
    words = [str(label).lower() for label in frame.columns]
    ends = next((pair for pair in (*PAIRS, ('row', 'column'))
                 if all(words.count(word) == 1 for word in pair)), None)
    if ends is not None and ends != tuple(words[:2]):
        labels = [frame.columns[words.index(word)] for word in ends]
        raise ValueError(
            'the columns of a table are taken in order: row, column, value; and these are %s: '
            'frame[%r] has them in order, or from_pandas_edgelist(frame, %r, %r) by name' % (
                ', '.join(map(str, frame.columns)),
                labels + [label for label in frame.columns if label not in labels], *labels))
    return parts[0], parts[1], parts[2] if len(parts) == 3 else 1


def table_of(thing: Any) -> Table:
    """A table: of pandas with its labels as names, an array of numpy, or rows of cells. One
    dimension is a column. TypeError for what is no table, ValueError for more dimensions, and for a
    label that stands twice."""
    if is_frame(thing):
        rows, columns = _names_of(thing.index, 'row'), _names_of(thing.columns, 'column')
        _check_labels(thing)
        return Table(_cells_of(thing), rows, rows if rows is not None and columns is not None
                     and list(rows) == list(columns) else columns)
    if is_series(thing):
        return Table(_cells_of(thing.to_frame()), _names_of(thing.index, 'row'))
    _check_table(thing)
    if hasattr(thing, '__array__'):
        array = thing if _is_masked(thing) else numpy.asarray(thing)
        if array.ndim not in (1, 2):
            raise ValueError('expected a table of one or two dimensions, got %d' % array.ndim)
        return Table(array.reshape(-1, 1) if array.ndim == 1 else array)
    rows_ = list(thing)
    many = [is_many(row) for row in rows_]
    if any(many) and not all(many):
        raise ValueError('a table is a list of rows, or a list of numbers, and row %d is %r'
                         % (many.index(not many[0]), rows_[many.index(not many[0])]))
    return Table([list(row) for row in rows_] if any(many) else [[cell] for cell in rows_])


def _check_labels(frame: DataFrame) -> None:
    """ValueError for a square table whose rows and columns have the same labels, but for those of
    one side being numbers, and of the other text."""
    sides = list(map(str, frame.index)), list(map(str, frame.columns))
    kinds = set(map(type, frame.index)), set(map(type, frame.columns))
    if (len(sides[0]) > 1 and set(sides[0]) == set(sides[1]) and kinds[0].isdisjoint(kinds[1])
        and str in kinds[0] | kinds[1]):
        raise ValueError(
            'the labels of rows are %r, .., those of columns %r, ..: 1 and \'1\' are two names; '
            'frame.columns = frame.columns.astype(frame.index.dtype) gives both the same'
            % (frame.index[0], frame.columns[0]))


def _check_table(thing: object) -> None:
    """TypeError where this is something else than a table."""
    if hasattr(type(thing), 'mxm'):
        raise TypeError(
            'expected a table, not a matrix: A.dup() copies it, s.adopt(A) takes one of another '
            'session')
    if hasattr(thing, 'tocoo'):
        raise TypeError(
            'expected a table, not a matrix of scipy.sparse: from_scipy_sparse takes it')
    if isinstance(thing, dict):
        raise TypeError('expected a table, not a dict: from_dicts takes {row: {column: value}}')
    if not is_many(thing) or isinstance(thing, (set, frozenset)):
        raise TypeError('expected a table, a list of rows or an array, not %s' % (
            'a set, which has no order' if isinstance(thing, (set, frozenset)) else repr(thing)))


def _names_of(labels: Series, what: str) -> Optional[Nodes]:
    """The labels of a table's side as names; None where these are its positions."""
    if labels.isna().any() if type(labels).__name__ != 'MultiIndex' else False:
        raise ValueError(
            'a label of the %ss is missing: give it one, or frame.reset_index(drop=True)' % what)
    names = labels.tolist()
    if names == list(range(len(names))) and all(type(name) is int for name in names):
        return None
    found = Nodes(names)
    check_names(found)
    return found


def _cells_of(frame: DataFrame) -> Any:
    """The values of a table of pandas: an array, of objects where numpy has no kind for all of
    them."""
    kinds = {getattr(kind, 'kind', 'O') for kind in frame.dtypes}
    extension = any(type(kind).__module__.split('.')[0] != 'numpy' for kind in frame.dtypes)
    return (frame.astype(object).to_numpy() if extension or not kinds <= {'i', 'b', 'f'}
            or len(kinds) > 1 else frame.to_numpy())


# -- entries

def checked(rows: Any, columns: Any, values: Any, nrows: Optional[int] = None,
            ncols: Optional[int] = None, rounding: Optional[Rounding] = None) -> Triples:
    """Triples of whole numbers within 64 bits, as arrays, indices within the sizes. Sizes that
    aren't given are the least that fit. `values` may be one number for all; `rounding` has their
    scale. TypeError for what is no number, ValueError for lengths that differ, values that aren't
    whole, and what is out of range; the place is counted from 0."""
    rows, columns = (whole_numbers(plain_column(many, what), what=what)
                     for many, what in ((rows, 'row'), (columns, 'column')))
    if is_many(values):
        values = whole_numbers(plain_column(values, 'value'), rounding)
    else:
        values = numpy.full(len(rows), whole_number(values, rounding), numpy.int64)
    if not len(rows) == len(columns) == len(values):
        raise ValueError('%d rows, %d columns and %d values'
                         % (len(rows), len(columns), len(values)))
    nrows = side(nrows, max(0, int(rows.max()) + 1) if len(rows) else 0, 'nrows')
    ncols = side(ncols, max(0, int(columns.max()) + 1) if len(columns) else 0, 'ncols')
    for what, many, most in (('row', rows, nrows - 1), ('column', columns, ncols - 1)):
        if len(many) and not (many.min() >= 0 and many.max() <= most):
            at = int(((many < 0) | (many > most)).argmax())
            # the least size that fits an index below 0 may be none
            why = 'below 0' if many[at] < 0 else 'not in 0 to %d' % most
            raise ValueError('%s %d is %s (entry %d)' % (what, many[at], why, at))
    return Triples(rows, columns, values, nrows, ncols)


def columns_of(triples: Any) -> Columns:
    """The rows, columns and values of (row, column, value) or (row, column), whose value is 1; or
    of an array of numpy with these as its columns."""
    if is_frame(triples):
        return columns_of_frame(triples)
    if isinstance(triples, numpy.ndarray) and triples.shape[1:] in ((2,), (3,)):
        return triples[:, 0], triples[:, 1], triples[:, 2] if triples.shape[1] == 3 else 1
    many = list(triples)
    lengths = {len(triple) for triple in many}
    if not lengths <= {2, 3}:
        at = next(at for at, triple in enumerate(many) if len(triple) not in (2, 3))
        raise ValueError(
            'a triple is (row, column, value), or (row, column) for a value of 1, not %r (entry %d)'
            % (many[at], at))
    if lengths == {2, 3}:
        many = [(*triple, 1) if len(triple) == 2 else triple for triple in many]
    parts = tuple(zip(*many)) if many else ((), (), ())
    return parts[0], parts[1], parts[2] if len(parts) == 3 else 1


def from_dense(cells: Any, missing: Any = None) -> Triples:
    """The cells of a table, an array of two dimensions or a list of lists, but for those that are
    `missing` (None: no cell), and masked ones. ValueError with its row and column for a cell that
    holds no value."""
    if not isinstance(cells, numpy.ndarray):
        cells = _as_objects(cells)
    hidden: Any = numpy.ma.getmaskarray(cells)  # type: ignore[no-untyped-call]
    table, chosen = numpy.asarray(cells), ~hidden

    def find(holds: Callable[[Any], bool]) -> Any:
        """The cells of objects of which something holds."""
        return numpy.fromiter(map(holds, table.flat), bool, table.size).reshape(table.shape)
    is_object = table.dtype.kind == 'O'
    gaps = (find(is_gap) if is_object else numpy.isnan(table) if table.dtype.kind == 'f'
            else numpy.zeros(table.shape, bool))
    if missing is not None and is_gap(missing):    # NaN stands for all that is missing
        chosen &= ~gaps
    elif missing is not None:
        chosen &= gaps | ~(find(lambda cell: not is_gap(cell) and bool(cell == missing))
                           if is_object else table == missing)
    i, j = numpy.nonzero(chosen)
    wrong = gaps[i, j]
    if wrong.any():
        row, column = int(i[wrong.argmax()]), int(j[wrong.argmax()])
        cell = table[row, column]
        raise ValueError(
            'the cell at row %d, column %d is missing (%s): fill it, or missing=float("nan") '
            'leaves such cells out' % (row, column, 'nan' if isinstance(cell, float)
                                       else repr(cell)))
    return Triples(i, j, table[i, j], *table.shape)


def _as_objects(rows: List[List[Any]]) -> Any:
    """A list of rows as an array of whatever their cells are."""
    ncols = len(rows[0]) if rows else 0
    if any(len(row) != ncols for row in rows):
        raise ValueError('rows of %s cells' % ' and '.join(sorted({str(len(row)) for row in rows})))
    table = numpy.empty((len(rows), ncols), object)
    for at, row in enumerate(rows):
        for column, cell in enumerate(row):        # one by one, as a cell may be a list itself
            table[at, column] = cell
    return table


def indices(n: int) -> Any:
    """0 to n - 1."""
    return numpy.arange(n, dtype=numpy.int64)


def full(nrows: int, ncols: int, value: int) -> Triples:
    """One value everywhere."""
    at = indices(nrows * ncols)
    return checked(at // max(ncols, 1), at % max(ncols, 1), value, nrows, ncols)


def from_scipy(matrix: Any) -> Tuple[Any, Any, Any, Tuple[int, int]]:
    """Rows, columns, values and shape of a scipy.sparse matrix or array; entries of one position
    are added up, as scipy has it."""
    if not hasattr(matrix, 'tocoo'):
        raise TypeError('expected a matrix of scipy.sparse, got %s: from_dense takes tables'
                        % type(matrix).__name__)
    if len(matrix.shape) != 2:
        raise ValueError('expected two dimensions, got %d' % len(matrix.shape))
    coo = matrix.tocoo(copy=True)
    if coo.data.dtype.kind in 'iu' and coo.data.dtype.itemsize < 8:
        coo.data = coo.data.astype('int64')        # so that sums of short numbers don't wrap
    elif coo.data.dtype.kind == 'u':
        # so that two which are beyond 64 bits don't make one that isn't
        coo.data = whole_numbers(coo.data)
    coo.sum_duplicates()
    return coo.row, coo.col, coo.data, coo.shape


def repeated(triples: Triples, at: int, symmetric: bool = False) -> Refused:
    """The refusal (M8) of entry `at` of triples, whose position an earlier one has; or, where they
    are `symmetric`, its mirror."""
    i, j = int(triples.rows[at]), int(triples.columns[at])
    places = ((i, j), (j, i)) if symmetric else ((i, j),)
    first = next(k for k, place in enumerate(zip(triples.rows, triples.columns)) if place in places)
    return about(refusal('M8', detail='row %d, column %d is given as entry %d and as entry %d; %s'
                         % (i, j, first, at, DUP_OP)), 'dup_op')


Fold = Callable[[Triples], Any]
# what folds compute by numbers without an end, of which those of 64 bits may wrap
EXACT: Dict[str, Callable[[int, int], int]] = {'plus': operator.add, 'minus': operator.sub,
                                               'times': operator.mul}


def _check_folds(triples: Triples, at: Any, starts: Any, named: str) -> None:
    """ValueError where values of one position, whose entries begin at some of the places `at`, are
    folded to a number beyond 64 bits."""
    sizes = numpy.abs(triples.values[at].astype(float))
    with numpy.errstate(over='ignore'):
        most = (numpy.multiply.reduceat(numpy.maximum(sizes, 1), starts) if named == 'times'
                else numpy.add.reduceat(sizes, starts))
    ends = numpy.append(starts[1:], len(at))
    for group in numpy.flatnonzero(most >= 2.0 ** 62).tolist():
        places = at[starts[group]:ends[group]]
        values = triples.values[places].tolist()
        if named == 'times' and 0 in values:
            continue
        found = values[0]
        for value in values[1:]:
            found = EXACT[named](found, value)
            if named == 'times' and abs(found) > MOST + 1:
                break                              # no factor is 0, so it stays there
        if not LEAST <= found <= MOST:
            raise about(ValueError(
                'the values at row %d, column %d make a number beyond 64 bits by dup_op=%r, where '
                'it would wrap: a smaller scale= may have room' % (
                    triples.rows[places[0]], triples.columns[places[0]], named)),
                        'dup_op', 'scale')


def unrepeated(triples: Triples, fold: Fold, named: str = '') -> Triples:
    """Triples in which each position stands once. `fold` gets the values of those that stand
    several times as a matrix with a row for each such position, its values from column 0 in their
    order, and answers one value a row. It isn't called where there are none. Those that stand alone
    come as they do, and behind them those that are folded. ValueError where one of these would wrap
    at 64 bits, by a fold that is `named` in EXACT."""
    key = triples.rows * max(triples.ncols, 1) + triples.columns
    ordered = numpy.sort(key)
    again = numpy.unique(ordered[1:][ordered[1:] == ordered[:-1]])
    if not len(again):
        return triples
    place = numpy.minimum(numpy.searchsorted(again, key), len(again) - 1)
    alone = again[place] != key
    at = numpy.flatnonzero(~alone)
    at = at[numpy.argsort(place[at], kind='stable')]
    row = place[at]
    starts = numpy.flatnonzero(numpy.append(True, row[1:] != row[:-1]))
    lengths = numpy.diff(numpy.append(starts, len(row)))
    if named in EXACT:
        _check_folds(triples, at, starts, named)
    column = numpy.arange(len(row)) - numpy.repeat(starts, lengths)
    folded = fold(Triples(row, column, triples.values[at], len(again), int(lengths.max())))
    first = at[starts]
    rows, columns, values = (numpy.concatenate(both) for both in (
        (triples.rows[alone], triples.rows[first]),
        (triples.columns[alone], triples.columns[first]), (triples.values[alone], folded)))
    return Triples(rows, columns, values, triples.nrows, triples.ncols)


# -- compressed rows, and dicts

def to_compressed(entries: Columns, count: int) -> Columns:
    """Where the entries of each row begin, and at last how many there are; their columns and
    values. Rows ascend."""
    rows, columns, values = entries
    return numpy.searchsorted(rows, numpy.arange(count + 1)), columns, values


def by_columns(entries: Columns) -> Columns:
    """Entries by ascending column, and each column's by ascending row: columns, rows, values."""
    rows, columns, values = entries
    order = numpy.argsort(columns, kind='stable')
    return columns[order], rows[order], values[order]


def expand(indptr: Any, others: Any, given: Optional[int], what: str) -> Tuple[Any, int]:
    """The row (or column) of each entry, of where the rows begin, and how many rows there are.
    ValueError where another number is given."""
    beginnings = whole_numbers(plain_column(indptr, 'beginning'), what='beginning')
    entries = len(plain_column(others, 'column' if what == 'row' else 'row'))
    if not len(beginnings) or beginnings[0] != 0 or beginnings[-1] != entries:
        raise ValueError(
            'the beginnings of the %ss go from 0 to the number of entries, %d, and not %s' % (
                what, entries, 'from %d to %d' % (beginnings[0], beginnings[-1])
                if len(beginnings) else 'over none'))
    counts = numpy.diff(beginnings)
    if (counts < 0).any():
        at = int((counts < 0).argmax())
        raise ValueError('the beginnings of the %ss ascend, and %d comes after %d (entry %d)'
                         % (what, beginnings[at + 1], beginnings[at], at + 1))
    if given is not None and whole(given, 'number of ' + what) != len(counts):
        raise ValueError('%s %ss are given, and the beginnings are of %d'
                         % (shown(given), what, len(counts)))
    return numpy.repeat(indices(len(counts)), counts), len(counts)


def to_dicts(entries: Columns, order: str) -> Dict[int, Dict[int, int]]:
    """A dict of the entries of each row, or column, that has some."""
    rows, columns, values = (part.tolist()
                             for part in (entries if _is_rowwise(order) else by_columns(entries)))
    out: Dict[int, Dict[int, int]] = {}
    for row, column, value in zip(rows, columns, values):
        out.setdefault(row, {})[column] = value
    return out


def from_dicts(nested: Any, order: str) -> Columns:
    """Rows, columns and values of a dict for each row, or column. TypeError for what is no such
    dict, and for names."""
    if not isinstance(nested, dict) or not all(isinstance(inner, dict)
                                               for inner in nested.values()):
        raise TypeError('expected {row: {column: value}}, got %s' % (
            'a dict of other things' if isinstance(nested, dict) else type(nested).__name__))
    triples = [(row, column, value) for row, inner in nested.items()
               for column, value in inner.items()]
    if any(not hasattr(end, '__index__') for row, column, _ in triples for end in (row, column)):
        raise TypeError(
            'rows and columns are numbers from 0: s.from_edgelist((a, b, x) for a, inner in '
            'nested.items() for b, x in inner.items()) takes names')
    rows, columns, values = zip(*triples) if triples else ((), (), ())
    return (rows, columns, values) if _is_rowwise(order) else (columns, rows, values)


def _is_rowwise(order: str) -> bool:
    if order not in ORDERS:
        raise ValueError('order is "rowwise" or "columnwise", not %r' % (order,))
    return ORDERS[order]


# -- arrays out

# what puts arrays beside each other without a ufunc
_BESIDE = (numpy.where, numpy.select, numpy.choose, numpy.broadcast_arrays)


class DenseColumn(Array):
    """An array of n rows and one column, which numpy doesn't stretch beside n numbers in a row.

    numpy makes n x n numbers of an array of shape (n, 1) and one of shape (n,). That is meant where
    the second is the first one's transpose; else ValueError says so. In all other ways it is an
    array of numpy, and `numpy.asarray` gives a plain one.
    """

    def __array_ufunc__(self, ufunc: numpy.ufunc, method: str, *inputs: object,
                        **named: Any) -> Any:
        if method == '__call__' and ufunc.signature is None:
            _check_shapes(inputs)
        target = named.get('out')
        if target is not None:
            named['out'] = tuple(map(_plain, target))
        found = getattr(ufunc, method)(*map(_plain, inputs), **named)
        if target is not None:
            return target[0] if len(target) == 1 else target
        return tuple(map(dense, found)) if isinstance(found, tuple) else dense(found)

    def __array_function__(self, function: Callable[..., Any], types: Iterable[type],
                           args: Iterable[Any], kwargs: Any) -> Any:
        if function in _BESIDE:
            _check_shapes(list(_arrays((*args, *kwargs.values()))))
        # pylint: disable=no-member  # numpy's own
        found = super().__array_function__(function, types, args, kwargs)
        return dense(found) if function in _BESIDE else found

    # numpy answers False where a comparison's ufunc raises
    def __eq__(self, other: object) -> Any:
        _check_shapes((self, other))
        return super().__eq__(other)

    def __ne__(self, other: object) -> Any:
        _check_shapes((self, other))
        return super().__ne__(other)

    __hash__ = None

    def __reduce__(self) -> Any:
        return _plain(self).__reduce__()           # without this module where it is read


def dense(found: Array) -> Any:
    """An array of several rows and one column as a column; anything else as it is."""
    if isinstance(found, numpy.ndarray) and _is_column(found.shape):
        return found.view(DenseColumn)
    return _plain(found)


def _is_column(shape: Tuple[int, ...]) -> bool:
    return len(shape) == 2 and shape[0] > 1 and shape[1] == 1


def _plain(one: object) -> Any:
    return one.view(numpy.ndarray) if isinstance(one, DenseColumn) else one


def _arrays(given: Sequence[object]) -> Iterator[Any]:
    """The arrays among arguments, also in lists."""
    for one in given:
        if isinstance(one, numpy.ndarray):
            yield one
        elif isinstance(one, (list, tuple)):
            yield from _arrays(one)


def _check_shapes(inputs: Sequence[Any]) -> None:
    """ValueError where a column and n numbers in a row make a table that is none of them."""
    shapes = [numpy.shape(one) for one in inputs]
    try:
        whole = numpy.broadcast_shapes(*shapes)
    except ValueError:                             # numpy's own
        return
    if len(whole) != 2 or whole in shapes:
        return
    for column in inputs:
        if isinstance(column, DenseColumn) and _is_column(column.shape):
            for other, shape in zip(inputs, shapes):
                if shape[-1:] == whole[-1:] and not numpy.may_share_memory(column, other):
                    raise ValueError(
                        'an array of shape %r beside one of %r makes one of %r: .ravel() of the '
                        'column, or spmat.Vector(A).to_dense(), has one dimension, and '
                        'numpy.subtract.outer and its kin give all pairs'
                        % (column.shape, shape, whole))
