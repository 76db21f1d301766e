"""What is known of results beside their entries: names, directions, units. One table says it by
form of job.

A job makes terms of values by one operator, and folds terms by one. A row says which of the form's
operators do that, and which rows and columns have to mean the same vertices.
"""
from __future__ import annotations

# pylint finds no members of a named tuple with methods
# pylint: disable=no-member

import functools
from typing import Dict, FrozenSet, NamedTuple, Optional, Sequence, Tuple

from . import scale as scales
from .errors import refusal
from .mask import Mask
from .metadata import (ALIKE, BY_POSITIONS, COLUMNS, ELEMENTWISE, MASK, NOTHING, PRODUCT, ROWS,
                       Axis, Metadata, Nodes, Pairs, Unnamed, VertexUnit, even, hint_of, joined,
                       of_copy)
from .operators import READY, Operator

# Binary operators for which the order of operands doesn't matter: a product of a symmetric matrix
# with itself stays symmetric.
COMMUTE: FrozenSet[str] = frozenset((
    'absdiff', 'band', 'bor', 'bxnor', 'bxor', 'eq', 'iseq', 'isne', 'land', 'lor', 'lxnor', 'lxor',
    'max', 'min', 'ne', 'oneb', 'pair', 'plus', 'times', 'zero'))


def _ready(kind: str, *names: str) -> FrozenSet[Operator]:
    """The built-in operators of a kind by these names, whatever equal ones are called."""
    return frozenset(READY[kind][name] for name in names)


_COMMUTE = _ready('binary', *COMMUTE)
# Index operators that look at the value alone, and with a thunk of 0 those that look at the
# distance from the diagonal: what they select of a symmetric matrix is one.
_BY_VALUE = _ready('index', 'nonzero', 'thunk', 'valueeq', 'valuege', 'valuegt', 'valuele',
                   'valuelt', 'valuene')
_BY_DIAGONAL = _ready('index', 'diag', 'offdiag')


# where the fields of `Metadata` begin that say what rows and columns are called
UNNAMED = Metadata._fields.index('unnamed_rows')


class Rule(NamedTuple):
    """What a form of job does with values: which of its operators makes `term`s, of two values, and
    which folds them (`fold`), both by number; None where none does. `pairs` of rows and columns of
    its operands have to mean the same vertices."""
    term: Optional[int]
    fold: Optional[int]
    pairs: Pairs = ()


RULES: Dict[str, Rule] = {
    'select': Rule(None, None),
    'union': Rule(0, 0, ELEMENTWISE),
    'both': Rule(0, None, ELEMENTWISE),
    'product': Rule(1, 0, PRODUCT),
    'reduce': Rule(None, 0),
}


def derive(form: str, operators: Sequence[Operator], first: Metadata,
           second: Optional[Metadata] = None, *, same: bool = False,
           mirrors: bool = False) -> Metadata:
    """What is known of the result of a job, but for `apply` and `select`.

    Parameters
    ----------
    form, operators
        The form of job, and its operators in their order.
    first, second
        What is known of its operands.
    same
        Whether both operands are one matrix.
    mirrors
        Whether they are known to be transposes of one another.

    Raises
    ------
    NamesDiffer, UnitsDiffer
        Where operands can't meet.
    """
    if not mirrors and (second is None or second is NOTHING) and first is NOTHING:
        return NOTHING
    if not mirrors and first == BY_POSITIONS and second == BY_POSITIONS:
        return BY_POSITIONS                        # of most jobs this is all
    if _is_nameless(first) and (second is None or _is_nameless(second)):
        return _remembered(form, tuple(operators), first, second, same, mirrors)
    return _derive(form, operators, first, second, same, mirrors)


def _is_nameless(notes: Metadata) -> bool:
    """Whether there are no lists of names, which take long to compare."""
    return notes.rows is None and notes.columns is None and not isinstance(notes.unit, VertexUnit)


# pylint: disable-next=too-many-arguments
def _derive(form: str, operators: Sequence[Operator], first: Metadata, second: Optional[Metadata],
            same: bool, mirrors: bool) -> Metadata:
    """See `derive`."""
    rule = RULES[form]
    other = first if second is None else second
    unit = _unit_of(rule, operators, first.unit, other.unit)
    found = _with_names(form, first, second)
    if mirrors or same and form == 'product':
        # the product of a matrix and its transpose is symmetric whether these are or not
        keeps = mirrors or first.directed is False
        directed = False if keeps and operators[rule.term or 0] in _COMMUTE else None
        if form != 'product' and directed is None:
            directed = even(first, other)
    else:
        directed = even(first, other) if rule.pairs is ELEMENTWISE else None
    return found._replace(directed=directed, weighted=None, source='', unit=unit)


# rounds of an algorithm ask for the same again and again
_remembered = functools.lru_cache(maxsize=256)(_derive)


def _with_names(form: str, first: Metadata, second: Optional[Metadata]) -> Metadata:
    """The names that a result has, and which kinds of vertices they are."""
    if second is None:
        return NOTHING.with_axes(first.axis(ROWS).alone(), Axis())
    if form != 'product':
        return _elementwise(first, second, ELEMENTWISE)
    inner = joined(first, second, PRODUCT)[0]
    alike = _are_alike(first), _are_alike(second)
    rows = inner if alike[0] else first.axis(ROWS)
    columns = inner if alike[1] else second.axis(COLUMNS)
    if not all(alike):
        rows, columns = rows.alone(), columns.alone()
    return NOTHING.with_axes(rows, columns)


def _unit_of(rule: Rule, operators: Sequence[Operator], first: int, second: int) -> int:
    if first == 1 and second == 1:
        return 1
    if rule.term is not None and rule.term == rule.fold:           # what stands alone is copied
        met = scales.common(operators[0], first, second)
        return (scales.of_fold(operators[0], met) if first == second else
                scales.of_both(operators[0], first, second))
    unit = first if rule.term is None else scales.of_both(operators[rule.term], first, second)
    return unit if rule.fold is None else scales.of_fold(operators[rule.fold], unit)


def _are_alike(notes: Metadata) -> bool:
    """Whether rows and columns are called alike, whatever they are called."""
    return (notes.rows is notes.columns is None and notes.unnamed_rows is notes.unnamed_columns
            is Unnamed.ALIKE)


def _elementwise(first: Metadata, second: Metadata, pairs: Pairs) -> Metadata:
    """The notes of the first with what the rows and columns of both are called. Where these are the
    same, or one has none, nothing is compared."""
    alike = (first.rows is second.rows and first.columns is second.columns
             and first[UNNAMED:] == second[UNNAMED:])
    if second is NOTHING or alike:
        return first
    if first is NOTHING:
        return second._replace(weighted=None)
    return first.with_axes(*joined(first, second, pairs))


# -- the forms of one operand, which keep entries where they are

def of_applied(first: Metadata, op: Operator, unit: int, alike: bool) -> Metadata:
    """What is known of the result of `apply`, whose unit is given; `alike` says that the operator
    doesn't look at rows and columns."""
    if (first.directed is None and first.weighted is None and not first.source
        and unit == first.unit):
        return first                               # all that is known are names, which stay
    same = op.kind == 'unary' and op == READY['unary'].identity
    return first._replace(directed=even(first) if alike or op in _BY_VALUE else None,
                          weighted=first.weighted if same else None, source='', unit=unit)


def of_selected(first: Metadata, op: Operator, thunk: int) -> Metadata:
    """What is known of the result of `select`: values stay."""
    if first.directed is None and not first.source:
        return first
    alike = op in _BY_VALUE or (thunk == 0 and op in _BY_DIAGONAL)
    return first._replace(directed=even(first) if alike else None, source='')


# -- masks

def masked(result: Metadata, mask: Metadata, complement: bool = False) -> Metadata:
    """What is known of a result under a mask: undirected where both are. The one row, or column, of
    a vector has no name where the mask's has another, but under a `complement` keeps its own."""
    if result is NOTHING and mask is NOTHING:
        return NOTHING
    found = _elementwise(result, mask, MASK)
    if complement:
        found = _elementwise(result, found, MASK)
    return found._replace(directed=even(result, mask), source='', unit=result.unit)


def of_update(first: Metadata, second: Metadata, accum: Optional[Operator], where: Optional[Mask],
              replace: bool) -> Metadata:
    """What is known of C<M, accum> = second, where `first` is of C."""
    if accum is not None:
        inside = derive('union', (accum,), first, second)
    else:
        # what stays is copied, and nothing of C comes into it: only names have to agree
        both = _elementwise(first, second, ELEMENTWISE)
        inside = of_copy(second.with_axes(both.axis(ROWS), both.axis(COLUMNS)))
    if where is None:
        return inside
    there = masked(inside, where.matrix.notes, where.complement)
    if replace:
        return there
    outside = masked(first, where.matrix.notes, not where.complement)
    both = _elementwise(outside, there, ELEMENTWISE)
    return both._replace(directed=even(outside, there), weighted=None,
                         unit=scales.common('update', first.unit, there.unit))


# -- what the client makes

def of_both_sides(first: Metadata, nrows: int, ncols: int) -> Metadata:
    """What is known of the square matrix of a bipartite graph. Its names are those of the rows and
    of the columns. If some are the same, or there are none, they are ('row', name) and ('column',
    name)."""
    rows = first.rows if first.rows is not None else Nodes(range(nrows))
    columns = first.columns if first.columns is not None else Nodes(range(ncols))
    apart = rows.places.keys().isdisjoint(columns.places)
    names = Nodes([*rows, *columns] if apart else [*(('row', name) for name in rows),
                                                   *(('column', name) for name in columns)])
    return Metadata(names, names, False, first.weighted, unit=first.unit)


def on_diagonal(first: Metadata, along: int) -> Metadata:
    """What is known of the square matrix with the entries of a column (along its rows, 0) or of a
    row (along its columns, 1) on its diagonal."""
    axis = first.axis(along)
    if axis == Axis():
        return ALIKE._replace(directed=False, unit=first.unit)
    return Metadata(directed=False, unit=first.unit).with_axes(axis, axis)


def of_transpose(first: Metadata) -> Metadata:
    """What is known of the transpose."""
    return first.with_axes(first.axis(COLUMNS), first.axis(ROWS))._replace(source='')


def check_mask(where: Mask, shape: Tuple[int, int], notes: Metadata) -> None:
    """DimensionMismatch where a mask has another shape than the result, of which `notes` are
    known."""
    if where.matrix.shape != shape:
        raise refusal('J9', detail='the result is %dx%d, the mask %dx%d%s' % (
            *shape, *where.matrix.shape, hint_of(notes, where.matrix.notes)))


def under_mask(where: Mask, shape: Tuple[int, int], notes: Metadata) -> Metadata:
    """What is known of a result under a mask. DimensionMismatch where the mask has another shape,
    NamesDiffer where it has other names."""
    check_mask(where, shape, notes)
    return masked(notes, where.matrix.notes, where.complement)
