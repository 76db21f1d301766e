"""What an index means: which rows or columns a name, a number, a list, a slice or a filter asks
for.

`structure` takes these out of a matrix, and `updates` sets them.
"""
from __future__ import annotations

import collections
import operator
from collections.abc import Iterator, KeysView, Set, ValuesView
from typing import (Any, Dict, List, NamedTuple, NoReturn, Optional, SupportsFloat, SupportsIndex,
                    Union, cast)

import numpy

from .integers import shown
from .mask import Mask
from .matrix_base import MatrixBase
from .metadata import (TRUTHS, Nodes, abbreviate_names, joined, place_of, suggest_names)
from .types import Many, Series, Vertex

WHAT = ('row', 'column')
TWO = ('an index is two: G[i, j], G[i, :], G[:, j], G[rows, columns], or a mask: G[M.S]; '
       'G.by_node()[i] is one value of a column')
# what has no order of its own, or is read once
COLLECTIONS = (Set, dict, Iterator, KeysView, ValuesView)
FLOATS = (float, numpy.floating)


class Chosen(NamedTuple):
    """Rows or columns that are asked for: their numbers, or None for all; and whether it is one
    that was given alone."""
    places: Optional[List[int]]
    one: bool = False

    @property
    def twice(self) -> Optional[int]:
        """A number that is asked for twice; None where each is once."""
        places = self.places or ()
        return None if len(set(places)) == len(places) else next(
            place for place, count in collections.Counter(places).items() if count > 1)


def check_once(matrix: MatrixBase, chosen: Chosen, axis: int) -> None:
    """ValueError where a row (or column) that has a name is asked for twice: of a result no two
    have one name, as those of pandas may."""
    if chosen.twice is None or not matrix.notes.axis(axis).has_names:
        return
    name, what = matrix.notes.axis(axis).listed(matrix.shape[axis])[chosen.twice], WHAT[axis]
    raise ValueError(
        'the %s %r is asked for twice, and no two %ss have one name: list(dict.fromkeys(names)) '
        'takes each once; to repeat %ss, take the names off first, B = A.dup(); B.%s_nodes = '
        'None, and write positions' % (what, name, what, what, what))


def pair_of(at: object) -> Any:
    """The index of the rows and that of the columns. TypeError where there aren't two."""
    if isinstance(at, MatrixBase):
        raise TypeError(
            'a matrix as an index is a mask: write G[M.S] for the positions that are stored in '
            'M, G[M.V] for those whose value is not 0')
    if getattr(at, 'ndim', 0) == 2 and all(
            kind == bool for kind in getattr(at, 'dtypes', [getattr(at, 'dtype', None)])):
        raise TypeError('an array of True and False as an index of both sides is a mask: write '
                        'G.select(">", 3) for a condition on values, or G[s.from_dense(array, '
                        'missing=0).S]')
    found = list(at) if isinstance(at, tuple) else [at]
    if any(index is None for index in found):
        raise TypeError(
            'None adds a dimension in numpy, and a matrix has two: write : for all rows or '
            'columns, and G[[None], :] where None is a name')
    dots = [place for place, index in enumerate(found) if index is Ellipsis]
    if dots:
        found[dots[0]:dots[0] + 1] = [slice(None)] * (3 - len(found))
    if len(found) != 2 or len(dots) > 1:
        raise TypeError(TWO)
    return found


def choose_places(matrix: MatrixBase, index: object, axis: int) -> Chosen:
    """The rows (or columns) that an index means: by names where they have some, else by position.
    ValueError where one isn't there, IndexError where a filter has another length, TypeError for
    what is no index."""
    if isinstance(index, (str, int)):              # most are, and what else it is takes long to ask
        return Chosen([locate(matrix, index, axis)], one=True)
    if isinstance(index, slice):
        return _of_slice(matrix, index, axis)
    if isinstance(index, (Mask, MatrixBase)):
        return Chosen(_of_column(matrix, index, axis))
    # columns, indexes and arrays of pandas say which of their values are missing
    if isinstance(index, (list, range, numpy.ndarray, Nodes)) or hasattr(type(index), 'isna'):
        return Chosen(_of_list(matrix, index, axis))
    if isinstance(index, COLLECTIONS) and index not in (matrix.notes.names(axis) or ()):
        raise TypeError(
            '%ss are chosen by a list, an array, a slice or a name, not by a %s: write list(..)'
            % (WHAT[axis], type(index).__name__))
    return Chosen([locate(matrix, index, axis)], one=True)


def locate(matrix: MatrixBase, index: object, axis: int) -> int:
    """The place of one row (or column). A number that is no whole one, and a truth value, are names
    alone, where names are such."""
    names = matrix.notes.names(axis)
    is_name = names is not None and index in names
    kind = (bool if isinstance(index, TRUTHS) else float if isinstance(index, FLOATS) else None)
    if kind is not None and not (names and is_name and isinstance(names[names.at(index)], kind)):
        _refuse_kind(cast(float, index), axis, kind)
    if (not is_name and not (names and names.numbered) and hasattr(index, '__index__')
            and operator.index(cast(SupportsIndex, index)) < 0):
        raise ValueError(
            'no vertex %s: they are 0 to %d; negative numbers count from the end in slices '
            'alone, G[-2:, :]' % (shown(index), matrix.shape[axis] - 1))
    return find_place(matrix, index, axis)


def find_place(matrix: MatrixBase, node: Vertex, axis: int) -> int:
    """The row (or column) of a vertex, by its name, or by its number where numbers are no names.
    ValueError where there is none."""
    names, count = matrix.notes.names(axis), matrix.shape[axis]
    if names is not None:
        place = place_of(names, node)
        if place is not None:
            return place
        if names.numbered or not hasattr(node, '__index__'):
            words = suggest_names(node, names) or 'they are ' + abbreviate_names(names)
            raise ValueError('no vertex %s: %s' % (shown(node), words))
    place = (None if isinstance(node, TRUTHS) or not hasattr(node, '__index__')
             else operator.index(cast(SupportsIndex, node)))
    if place is None or not 0 <= place < count:
        raise ValueError('no vertex %s: %s' % (shown(node), 'they are 0 to %d' % (count - 1)
                                               if count else 'there is no vertex'))
    return place


def _refuse_kind(index: SupportsFloat, axis: int, kind: type) -> NoReturn:
    if kind is bool:
        raise TypeError('%s is no %s: a filter is a list with True or False for each'
                        % (index, WHAT[axis]))
    raise TypeError('%r is a float, and a %s is a name or a whole number' % (index, WHAT[axis])
                    + (': write %d' % float(index) if float(index).is_integer() else ''))


def _is_boolean(many: Many) -> bool:
    """Whether a list, an array or a column has truth values, and nothing else."""
    kind = getattr(getattr(many, 'dtype', None), 'kind', None)
    if kind is not None and kind != 'O':
        return bool(kind == 'b')
    return len(many) > 0 and all(isinstance(one, TRUTHS) for one in many)


def _of_slice(matrix: MatrixBase, index: slice, axis: int) -> Chosen:
    """The places of a slice: names count at both ends, as in pandas; positions from the first to
    before the last, as in numpy. A number could be either where numbers are names: ValueError."""
    start, stop, step = index.start, index.stop, index.step
    if start is None and stop is None and step is None:
        return Chosen(None)
    names = matrix.notes.names(axis)
    number = next((end for end in (start, stop) if hasattr(end, '__index__')
                   and not isinstance(end, TRUTHS)), None)
    if number is not None and names is not None and names.numbered and not names.are_counted:
        write = ('slice of names, such as %r:%r' % (names[0], names[-1])
                 if isinstance(names[0], str) else 'range of names, such as range(%s, %s)' % (
                     start if start is not None else names[0], '..' if stop is None else stop))
        raise ValueError('%ss have numbers for names, so that %d in a slice could be a name or a '
                         'position: write a list or a %s' % (WHAT[axis], number, write))
    for end in (start, stop):
        if isinstance(end, (*TRUTHS, float)):
            _refuse_kind(end, axis, float if isinstance(end, float) else bool)
    if step is not None and (not hasattr(step, '__index__') or not step):
        raise TypeError('the step of a slice is a whole number but 0, not %s' % shown(step))
    backward = step is not None and step < 0
    # an end that is no number is a name
    if start is not None and not hasattr(start, '__index__'):
        start = find_place(matrix, start, axis)
    if stop is not None and not hasattr(stop, '__index__'):
        last = find_place(matrix, stop, axis)
        stop = last + 1 if not backward else last - 1 if last else None
    return Chosen(list(range(*slice(start, stop, step).indices(matrix.shape[axis]))))


def _of_list(matrix: MatrixBase, many: Any, axis: int) -> List[int]:
    """The places that a list, an array or a column of pandas names, or filters."""
    if getattr(many, 'ndim', 1) != 1:
        raise IndexError('%ss are chosen by an array of one dimension, not of %d'
                         % (WHAT[axis], many.ndim))
    mask = many.isna() if hasattr(many, 'isna') else getattr(many, 'mask', None)
    if mask is not None and mask.any():
        raise IndexError('an index of %ss has missing values: fillna(False) makes a filter whole'
                         % WHAT[axis])
    if _is_boolean(many):
        return (_of_series if hasattr(many, 'iloc') else _filtered)(matrix, many, axis)
    plain = many.tolist() if hasattr(many, 'tolist') else many
    if any(isinstance(one, TRUTHS) for one in plain):
        raise TypeError(
            'an index of %ss has truth values and others: a filter has True or False alone'
            % WHAT[axis])
    return [locate(matrix, one, axis) for one in plain]


def _filtered(matrix: MatrixBase, many: Many, axis: int) -> List[int]:
    count = matrix.shape[axis]
    if len(many) != count:
        raise IndexError('a filter of %d values for %d %ss' % (len(many), count, WHAT[axis]))
    return [place for place, chosen in enumerate(many) if chosen]


def _by_label(matrix: MatrixBase, by_label: Dict[Any, Any], axis: int) -> List[int]:
    """The places whose names are filtered in."""
    names = matrix.notes.axis(axis).listed(matrix.shape[axis])
    return [place for place, name in enumerate(names) if by_label[name]]


def _of_series(matrix: MatrixBase, series: Series, axis: int) -> List[int]:
    """The places of a column of pandas that filters: by its labels where they name the rows, else
    by position."""
    names, labels = matrix.notes.names(axis), series.index.tolist()
    wanted = matrix.notes.axis(axis).listed(matrix.shape[axis])
    by_label = dict(zip(labels, series.tolist()))
    if len(by_label) == len(labels) and all(name in by_label for name in wanted):
        if names is None and len(labels) != len(wanted):
            return _filtered(matrix, series, axis)
        return _by_label(matrix, by_label, axis)
    if labels == list(range(len(labels))) and (names is None or not names.numbered):
        return _filtered(matrix, series.tolist(), axis)
    lacking = next((name for name in wanted if name not in by_label), None)
    raise IndexError(
        'the labels of the filter do not name the %ss: %s; write filter.to_numpy() to filter by '
        'position' % (
            WHAT[axis], 'some stand twice' if lacking is None else 'there is none %r' % (lacking,)))


def _of_column(matrix: MatrixBase, mask: Union[Mask, MatrixBase], axis: int) -> List[int]:
    """The places of a mask of a column (or row); aligned by names where both have some. TypeError
    for the column itself."""
    if not isinstance(mask, Mask):
        raise TypeError(
            'a matrix as an index of %ss could filter them or list them: write c.V for the %ss '
            'whose value is not 0, c.S for those with an entry, or c.to_list() for a list of %ss'
            % ((WHAT[axis],) * 3))
    values = mask.matrix
    if 1 not in values.shape:
        raise TypeError('%ss are filtered by a column or a row, not by a matrix of %dx%d'
                        % (WHAT[axis], *values.shape))
    rows, columns, numbers = values.entries(arrays=False)
    side = 0 if values.ncols == 1 else 1
    stored = {place for place, number in zip((rows, columns)[side], numbers)
              if number or not mask.value}
    flags = [(place in stored) is not mask.complement for place in range(values.shape[side])]
    own, whole = values.notes.axis(side), matrix.notes.axis(axis)
    are_named = own.has_names and whole.has_names and not own.is_other_kind(whole)
    if are_named and not own.agrees(whole):
        by_label = dict(zip(own.listed(len(flags)), flags))
        unknown = next((name for name in whole.listed(matrix.shape[axis]) if name not in by_label),
                       None)
        if unknown is not None:
            raise IndexError('the filter has no vertex %r' % (unknown,))
        return _by_label(matrix, by_label, axis)
    places = _filtered(matrix, flags, axis)
    joined(values.notes, matrix.notes,
           ((side, axis, 'the filter and the %ss that it filters' % WHAT[axis]),))
    return places
