"""Operators and the numbers beside them, as the forms of jobs take them."""
from __future__ import annotations

import datetime
import functools
from typing import Dict, FrozenSet, Optional, Tuple, Union

import numpy

from . import integers
from .errors import refusal
from .metadata import VertexUnit
from .operators import READY, Op, Operator, Semiring, find, find_semiring
from .operators.other_names import is_ufunc
from .scale import (COMPARE, KEEP, MEET, OVER, TIMES, UNDER, TimeUnit, chooses, compared,
                    exact_number, is_whole, meaning_of, name_of, of_both, of_vertex, refuse,
                    tells_apart, to_stored)
from .types import Number
from .wire.commands import FORMS

DATES = (datetime.date, numpy.datetime64)
Ring = Union[str, Semiring, Tuple[Op, Op]]
Applied = Tuple[Operator, Optional[int], int, bool]
"""An operator, the whole number that is sent beside it, the scale of its result, and whether its
answers are the same at each row and column."""

# What is found by names of built-in operators: of one by its kind, of the two of a product by their
# joined name, of `apply` where there is no number nor a unit. Other names may get another meaning.
_BY_NAME: Dict[Tuple[str, str], Operator] = {}
RINGS: Dict[str, Tuple[Operator, Operator]] = {}
_APPLIED: Dict[str, Applied] = {}


@functools.lru_cache(maxsize=None)
def _ready_names(kind: str) -> FrozenSet[str]:
    return frozenset(READY[kind].ready())


def _find(kind: str, op: Op) -> Operator:
    """What `operators.find` does, once for each built-in name."""
    found = _BY_NAME.get((kind, op)) if type(op) is str else None
    if found is None:
        found = find(kind, op)
        if type(op) is str and op in _ready_names(kind):
            _BY_NAME[kind, op] = found
    return found


def of_form(form: str, op: Op) -> Operator:
    """An operator as a form of job takes it that takes those of one kind. DomainMismatch where it
    is of another."""
    kind, = FORMS[form].kinds
    found = _find(kind, op)
    if found.kind != kind:
        raise refusal('J4', command=form, detail='expected %s, got %r' % (kind, found))
    return found


def ring_of(op: Ring) -> Tuple[Operator, Operator]:
    """The two operators of a semiring as a product takes them."""
    found = RINGS.get(op) if type(op) is str else None
    if found is None:
        ring = find_semiring(op)
        found = of_form('product', ring.add), of_form('product', ring.mul)
        if type(op) is str and _ready_names('binary').issuperset(op.split('_')):
            RINGS[op] = found
    return found


def applied(op: Op, right: Optional[Number], left: Optional[Number], unit: int) -> Applied:
    """What `apply` sends of a matrix with this unit."""
    bound = right is not None or left is not None
    if not bound and type(op) is str and unit == 1 and op in _APPLIED:
        return _APPLIED[op]
    if right is not None and left is not None:
        raise TypeError('right= or left=, not both')
    found = op if isinstance(op, Operator) else _find(_kind_of(op, bound), op)
    number = left if left is not None else right if right is not None else 0
    if found.kind == 'index' and left is None:
        return (*of_index(found, number, unit, 'right='), False)
    if found.kind == 'binary' and bound:
        by, stored, unit = of_bound(found, number, left is not None, unit)
        return by.bind_right() if right is not None else by.bind_left(), stored, unit, True
    if found.kind == 'unary' and not bound:
        alone = found, None, of_unary(found, unit), True
        if unit == 1 and type(op) is str and op in _ready_names('unary'):
            _APPLIED[op] = alone
        return alone
    how = ' with %s=' % ('right' if right is not None else 'left') if bound else ''
    raise refusal('J4', command='apply',
                  detail='expected a unary or index operator, or a binary one with right= or '
                  'left=, got %r%s' % (found, how))


def kind_of_function(op: Op, bound: bool = False) -> str:
    """As which kind `apply` takes a function; nothing of what is none."""
    if not callable(op) or is_ufunc(op):
        return ''
    from .operators.compiler import kind_of
    return kind_of(op, bound)


def _kind_of(op: Op, bound: bool) -> str:
    """As which kind `apply` looks for an operator that is given by name or as a function."""
    if callable(op):
        from .operators.compiler import kind_of
        return kind_of(op, bound)
    kind = 'binary' if bound else 'unary'
    return 'index' if op not in READY[kind] and op in READY['index'] else kind


# -- the numbers beside operators, and the scales of what they give

def _is_function(op: Operator) -> bool:
    """Whether an operator was made of a function, which gets stored numbers."""
    return hasattr(op, 'function')


def of_unary(op: Operator, unit: int) -> int:
    """The scale of a unary operator's result."""
    if isinstance(unit, VertexUnit):
        return unit if op == READY['unary'].identity else of_vertex(op)
    meaning = meaning_of(op)
    if meaning == UNDER:
        return 1 if is_whole(unit) else refuse(op, unit, 1)
    return unit if meaning == KEEP else 1


def of_index(op: Operator, thunk: Number, unit: int,
             what: str = 'the number beside the operator') -> Tuple[Operator, int, int]:
    """What an index operator does, with the number beside it: a value stands for itself, what the
    caller's own operators get is a stored number."""
    if unit == 1 and type(thunk) is int and _is_stored(thunk):
        return op, thunk, 1
    if isinstance(unit, VertexUnit):
        if tells_apart(op):
            return op, to_stored(thunk, unit, what), 1
        of_vertex(op)
        return op, _whole(thunk, what, 'is'), 1
    meaning = meaning_of(op)
    if meaning in COMPARE and not _is_function(op):
        return (*compared(op, thunk, unit), 1)
    return op, _whole(thunk, what, 'is'), unit if meaning == KEEP else 1


def of_bound(op: Operator, number: Number, is_left: bool,
             unit: int) -> Tuple[Operator, int, int]:
    """The same of a binary operator, one of whose operands is a number. Where it meets the values
    it is one of these. By times and division it is a factor."""
    if unit == 1 and type(number) is int and _is_stored(number):
        return op, number, 1
    meaning, what = meaning_of(op), 'left=' if is_left else 'right='
    is_factor = meaning in (TIMES, OVER, UNDER)
    is_plain = is_factor or isinstance(unit, TimeUnit) and not isinstance(number, DATES)
    beside = 1 if is_plain else unit
    if isinstance(unit, VertexUnit):
        chosen = chooses(op) or tells_apart(op)
    else:
        chosen = (meaning == MEET or chooses(op)) and not _is_function(op)
        if meaning in COMPARE and not _is_function(op):
            return (*compared(op, number, unit, is_left), 1)
    found = of_both(op, beside, unit) if is_left else of_both(op, unit, beside)
    if chosen:
        return op, to_stored(number, unit, what), found
    if is_factor:
        _check_factor(op, number, is_left, unit)
    return op, _whole(number, what, 'of "%s" is' % name_of(op)), found


def _is_stored(number: int) -> bool:
    """Whether a number is stored as it is where values have no scale. So most are, and all that
    follows here would take longer than the rest of a job."""
    return integers.LEAST <= number <= integers.MOST


def _whole(number: object, what: str, verb: str) -> int:
    """A whole number of 64 bits that callers write beside an operator, by the word that they know
    it by."""
    try:
        return integers.word(number, 'number')
    except (TypeError, ValueError) as fault:
        raise type(fault)('%s %s a whole number of 64 bits, not %s'
                          % (what, verb, integers.shown(number))) from None


def _check_factor(op: Operator, number: Number, is_left: bool, unit: int) -> None:
    """ValueError for a factor, or a divisor, that isn't whole: it says how to take it all the
    same."""
    try:
        over, under = exact_number(number).as_integer_ratio()
    except (TypeError, ValueError):
        return                                     # `_whole` says so
    if under != 1:
        side, name = 'left' if is_left else 'right', name_of(op)
        how = 'A.apply("times", right=%d).apply("%s", %s=%d)' % (under, name, side, over)
        if meaning_of(op) == TIMES:
            how = 'B = A.apply("times", %s=%d); B.unit = %s' % (side, over, unit * under)
        raise ValueError('%s= of "%s" is a whole number, not %r: write %s' % (
            side, name, number, how))
