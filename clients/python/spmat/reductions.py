"""Aggregators: folds that no binary operator makes alone (how many, where the least is, the mean).
Their names are python-graphblas'."""
from __future__ import annotations

from fractions import Fraction
from typing import TYPE_CHECKING, Any, Callable, Dict, NoReturn, Optional, Tuple

from . import scale as scales
from .integers import MOST
from .mask import Mask, MaskLike, as_mask
from .matrix_base import with_unit
from .metadata import VertexUnit
from .operators import binary, find

if TYPE_CHECKING:
    from .matrix import Matrix

HALF = 32                                          # bits of a half of a number
# parts of a mean's unit, or fewer where means are so large that these don't fit
FINEST = 10 ** 6


def _index(axis: int) -> str:
    """The operator that gives the number of each entry within its row, with an axis of 0 within its
    column."""
    return 'colindex' if axis else 'rowindex'


def _extremes(op: str) -> Callable[[Any, int], Any]:
    """The places of the least, or greatest, entries of each row."""
    def found(matrix: 'Matrix', axis: int) -> Any:
        spread = fold_axis(matrix, op, axis).diag()
        alike = spread.mxm(matrix, 'any_eq') if axis else matrix.mxm(spread, 'any_eq')
        return alike.select('nonzero').apply(_index(axis))
    return found


# what is made of a matrix to fold its rows (with an axis of 0 its columns), and by which operator
FOLDS: Dict[str, Tuple[Callable[[Any, int], Any], str]] = {
    'sum': (lambda A, axis: A, 'plus'),
    'prod': (lambda A, axis: A, 'times'),
    'last': (lambda A, axis: A, 'second'),
    'any_value': (lambda A, axis: A, 'any'),
    'count': (lambda A, axis: A.apply('one'), 'plus'),
    'count_nonzero': (lambda A, axis: A.apply('nonzero'), 'plus'),
    'count_zero': (lambda A, axis: A.apply('lnot'), 'plus'),
    'exists': (lambda A, axis: A.apply('one'), 'any'),
    'all': (lambda A, axis: A.apply('nonzero'), 'land'),
    'sum_of_squares': (lambda A, axis: A.ewise_mult(A, 'times'), 'plus'),
    'first_index': (lambda A, axis: A.apply(_index(axis)), 'first'),
    'last_index': (lambda A, axis: A.apply(_index(axis)), 'second'),
    'argmin': (_extremes('min'), 'first'),
    'argmax': (_extremes('max'), 'first')}
# whose results are places of columns, or of rows
INDEXES = ('argmin', 'argmax', 'first_index', 'last_index')
NAMES = frozenset((*FOLDS, 'mean', 'peak_to_peak'))
# what pandas has
STATISTICS = {'median': 'median', 'var': 'var', 'variance': 'var', 'std': 'std', 'stdev': 'std',
              'stddev': 'std', 'std_dev': 'std',
              'quantile': 'quantile', 'nunique': 'nunique', 'count_distinct': 'nunique'}


def is_aggregator(op: object) -> bool:
    """Whether a fold is named that no built-in or registered operator makes alone. ValueError for a
    name that no fold has."""
    if not isinstance(op, str) or op in binary:
        return False
    if op not in NAMES:
        _refuse_name(op)
    return True


def _refuse_name(name: str) -> NoReturn:
    """ValueError that says what there is in place of a fold."""
    words = ('folds are binary operators, such as "plus" and "max", and the aggregators %s'
             % ', '.join(sorted(NAMES)))
    method = STATISTICS.get(name)
    if method is not None:
        raise ValueError(
            'no fold is called %r: A.to_pandas_edgelist().groupby("source")["weight"].%s() has '
            'it for each row, ("target") for each column, and '
            'A.to_pandas_edgelist()["weight"].%s() for all; %s' % (name, method, method, words))
    try:
        find('binary', name)
    except ValueError as fault:
        raise ValueError('%s; %s' % (fault, words)) from None
    raise AssertionError(name)


def fold_axis(matrix: 'Matrix', op: str, axis: int, mask: MaskLike = None,
              name: Optional[str] = None) -> Any:
    """The column of the folds of the rows, or the row of those of the columns."""
    return (matrix.reduce_rowwise(op, mask=mask, name=name) if axis
            else matrix.reduce_columnwise(op, mask=mask, name=name))


def aggregate(matrix: 'Matrix', op: str, axis: int, mask: MaskLike, name: Optional[str]) -> Any:
    """The column of an aggregator's results by rows (with an axis of 0 the row of those by
    columns)."""
    where = as_mask(mask)
    if op in FOLDS:
        of, fold = FOLDS[op]
        made = fold_axis(of(matrix, axis), fold, axis, where, name)
        along = matrix.notes.axis(axis)
        if op in INDEXES and along.names is not None:
            # a place is shown by the name that stands there
            made.notes = made.notes._replace(unit=VertexUnit(along.names, along.kind))
        return made
    if op == 'peak_to_peak':
        return fold_axis(matrix, 'max', axis).ewise_mult(fold_axis(matrix, 'min', axis), 'minus',
                                                      mask=where, name=name)
    return _means(matrix, axis, where, name)


def _check_numbers(matrix: 'Matrix') -> None:
    """UnitsDiffer where values are vertices, which have no mean."""
    if isinstance(matrix.unit, VertexUnit):
        scales.refuse_vertices('vertices have no mean')


def _means(matrix: 'Matrix', axis: int, where: Optional[Mask], name: Optional[str]) -> Any:
    """Means as parts of a unit, each the nearest."""
    _check_numbers(matrix)
    stored = with_unit(matrix, 1)
    sums, high, counts = (fold_axis(made, 'plus', axis, where)
                          for made in (stored, stored.apply('arsh', right=HALF),
                                       stored.apply('one')))
    rows, columns, many = sums.entries(arrays=False)
    exact = [Fraction(_total(low, up), count) for low, up, count in
             zip(many, high.entries(arrays=False)[2], counts.entries(arrays=False)[2])]
    parts = FINEST
    while parts > 1 and any(abs(mean) * parts > MOST for mean in exact):
        parts //= 10
    made = sums.session.from_coo(rows, columns, [round(mean * parts) for mean in exact],
                                 *sums.shape, name=name)
    made.notes = sums.notes._replace(unit=matrix.unit * parts)
    return made


def _total(low: int, high: int) -> int:
    """A sum of fewer than 2^32 numbers without a limit. `low` is it in 64 bits, and `high` the sum
    of the upper halves of these numbers. So it lies from high * 2^32 on, by less than their count
    times 2^32."""
    least = high << HALF
    return least + (low - least) % (1 << 64)


def aggregate_all(matrix: 'Matrix', op: str, raw: bool) -> Any:
    """One number for all entries, None where there are none. TypeError for an aggregator of
    positions, which a matrix has two of."""
    if op in INDEXES:
        raise TypeError(
            '%r is of rows or columns: A.reduce_rowwise(%r), or A.top(1) for the greatest entry '
            'of all' % (op, op))
    if op == 'count':
        return matrix.nvals
    if op in ('mean', 'peak_to_peak'):
        _check_numbers(matrix)
    if op == 'mean':
        stored = with_unit(matrix, 1)
        low, high = stored.reduce_scalar('plus'), stored.apply('arsh',
                                                               right=HALF).reduce_scalar('plus')
        count = matrix.nvals
        return (float(Fraction(_total(low, high), count) / (1 if raw else matrix.unit)) if count
                else None)
    if op == 'peak_to_peak':
        most, least = (matrix.reduce_scalar(end, raw=True) for end in ('max', 'min'))
        return (None if most is None or least is None
                else scales.to_decimal(most - least, 1 if raw else matrix.unit))
    of, fold = FOLDS[op]
    value = of(matrix, 1).reduce_scalar(fold, raw=raw)
    return value or 0 if op.startswith('count') else value
