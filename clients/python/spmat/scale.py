"""What stored whole numbers stand for, so that matrices of whole numbers hold decimals.

A matrix has a scale, which is its `unit`: a stored x stands for x / scale, and what was read with
`scale=100` are hundredths. Three rules say which scale a result has. Values that meet have one,
which is the result's. Products multiply scales, and quotients divide them. All other operators, and
those of the caller's own, work on stored numbers, and give a scale of 1.

In its place values may have a label, which counts as a scale of 1: they are times (`TimeUnit`), or
vertices (`VertexUnit`). A label stays where one of the values is chosen. A difference of times is a
plain number, and nothing else is made of vertices.
"""
from __future__ import annotations

import datetime
import decimal
import functools
import math
import operator
from fractions import Fraction
from typing import Any, Callable, Dict, List, NoReturn, Optional, Tuple, Union

import numpy

from .errors import UnitsDiffer, about, warn_user
from .integers import LEAST, MOST, shown
from .io.matrix_text import is_array
from .io.values import LONG_UNITS, UNITS, read_moment
from .metadata import VertexUnit, abbreviate_names, names_differ, place_of, suggest_names
from .operators import READY, Op, Operator, find
from .types import Array, DType, Exact

EXACT = 1 << 53                                    # floats hold every whole number below it
# both values have one scale, and so has the result, which may be one of them; or it is a number
# that says which is greater, or whether they are the same
MEET, CHOOSE, ORDER, EQUAL = 'meet', 'choose', 'order', 'equal'
COMPARE = (ORDER, EQUAL)
FIRST, SECOND, TIMES, OVER, UNDER = 'first', 'second', 'times', 'over', 'under'
KEEP, NUMBER, CONSTANT = 'keep', 'number', 'constant'
# the number beside is a row, a column or a distance of these
PLACE = 'place'
_KINDS: Dict[str, Dict[str, str]] = {
    'binary': {MEET: 'plus minus rminus absdiff cmod', CHOOSE: 'min max any',
               ORDER: 'lt le gt ge', EQUAL: 'eq ne iseq isne', FIRST: 'first', SECOND: 'second',
               TIMES: 'times', OVER: 'floordiv cdiv', UNDER: 'rdiv',
               CONSTANT: 'pair oneb zero', NUMBER: 'land lor lxor lxnor'},
    'unary': {KEEP: 'identity abs ainv', UNDER: 'minv', CONSTANT: 'one zero',
              NUMBER: 'lnot sgn nonzero'},
    'index': {ORDER: 'valuelt valuele valuegt valuege', EQUAL: 'valueeq valuene', KEEP: 'nonzero',
              PLACE: 'thunk diag offdiag tril triu rowle rowgt colle colgt rowindex colindex '
              'diagindex'}}


class TimeUnit(int):
    """What values count that are times, such as "s" since 1970-01-01. As a number it is 1, but it
    equals no other unit."""

    name: str

    def __new__(cls, name: str) -> TimeUnit:
        made = super().__new__(cls, 1)
        made.name = name
        return made

    def __reduce__(self) -> Tuple[Any, ...]:
        return TimeUnit, (self.name,)

    def __eq__(self, other: object) -> bool:
        return isinstance(other, TimeUnit) and other.name == self.name

    def __ne__(self, other: object) -> bool:
        return not self == other

    def __hash__(self) -> int:
        return hash(self.name)

    def __str__(self) -> str:
        return self.name

    def __repr__(self) -> str:
        return repr(self.name)

    @property
    def size(self) -> int:
        """Its length in nanoseconds."""
        return UNITS[self.name]


def as_unit(number: object) -> int:
    """A number as a scale; of "s" and the like the label of times. ValueError where it is no
    whole number above 0."""
    if isinstance(number, (TimeUnit, VertexUnit)):
        return number
    if isinstance(number, str) and number in UNITS:
        return TimeUnit(number)
    try:
        exact = exact_number(number)
    except (TypeError, ValueError):
        exact = Fraction(0)
    if exact <= 0 or exact.denominator != 1:
        raise about(ValueError(
            'a unit is a whole number above 0, such as 100 where stored numbers are hundredths, '
            'or of times %s, not %s' % (', '.join(map('"%s"'.__mod__, UNITS)), shown(number))),
                    'unit')
    return exact.numerator


def describe_unit(unit: int) -> str:
    """A scale or a label as errors name it."""
    if isinstance(unit, VertexUnit):
        return 'vertices'
    if isinstance(unit, TimeUnit):
        return 'times in %s' % unit
    return 'parts of 1/%s' % shown(unit)


# -- numbers beside stored ones

def exact_number(number: object) -> Fraction:
    """A number of Python or numpy, a float as it is written in decimals (0.29 is 29/100). TypeError
    for what is no number, ValueError for what isn't finite."""
    if hasattr(number, '__index__') and not hasattr(number, '__len__'):
        return Fraction(number.__index__())
    if isinstance(number, (str, bytes)) or not hasattr(number, '__float__'):
        raise TypeError('expected a number, not %s' % shown(number))
    try:
        return Fraction(number if isinstance(number, (Fraction, decimal.Decimal))
                        else repr(float(number)))
    except (OverflowError, ValueError):
        raise ValueError('expected a finite number, not %s' % shown(number)) from None
    except TypeError:                              # of arrays, and of numpy's NaT
        raise TypeError('expected a number, not %s' % shown(number)) from None


def exact_in(number: object, unit: int) -> Fraction:
    """A number, or a time since 1970-01-01 or as long as it is, as a number of stored parts.
    TypeError for a time beside other values, ValueError for one that is missing."""
    if not isinstance(number, (datetime.date, datetime.timedelta, numpy.datetime64,
                               numpy.timedelta64)):
        return exact_number(number) * unit
    if not isinstance(unit, TimeUnit):
        raise TypeError(
            '%r is a time, and the values of this matrix are %s: A.unit = "s" says that its '
            'stored numbers are seconds since 1970-01-01, as unit="s" does where they are read; '
            'else write a number' % (number, 'numbers' if unit == 1 else describe_unit(unit)))
    if str(number) == 'NaT':                       # of numpy and pandas, which is equal to nothing
        raise ValueError('expected a time, not %r' % (number,))
    if isinstance(number, datetime.timedelta):
        micro = (number.days * 86400 + number.seconds) * 10 ** 6 + number.microseconds
        return Fraction(micro * 1000 + int(getattr(number, 'nanoseconds', 0)), unit.size)
    if isinstance(number, numpy.timedelta64):
        name, step = numpy.datetime_data(number.dtype)
        if name not in LONG_UNITS:
            raise ValueError('%r has no length that is always the same, or one finer than '
                             'nanoseconds: write it in days, or in a shorter unit' % (number,))
        return Fraction(int(number.astype('int64')) * step * LONG_UNITS[name], unit.size)
    moment = read_moment(number)
    return Fraction(0 if moment is None else moment.nanoseconds, unit.size)


def to_stored(number: object, unit: int, what: str) -> int:
    """The whole number that a number, a time or a vertex is stored as. ValueError where there is
    none, or it is beyond 64 bits; `what` stands before the number in its words, as "right="."""
    if isinstance(unit, VertexUnit):
        place = place_of(unit.names, number)
        if place is None:
            raise ValueError('no vertex %s: %s' % (shown(number), suggest_names(
                number, unit.names) or ('the values are vertices, by their names: ' +
                                        abbreviate_names(unit.names))))
        return place
    exact = exact_in(number, unit)
    parts = '' if unit == 1 else ' in %s, as this matrix holds' % describe_unit(unit)
    if exact.denominator != 1:
        finer: Any = unit * 10 ** (_places(exact.denominator) or 0)
        if (exact / unit * finer).denominator != 1:
            finer = unit * exact.denominator
        if isinstance(unit, TimeUnit):             # the coarsest one that holds it
            finer = next((repr(name) for name, size in UNITS.items()
                          if (exact * unit.size / size).denominator == 1), finer)
        raise ValueError('%s%s is no whole number%s: A.rescale(%s) holds it' % (
            what, number, parts or ', as the values of this matrix are', finer))
    if not LEAST <= exact <= MOST:
        raise ValueError('%s%s is not in -2^63 to 2^63 - 1%s' % (what, shown(number), parts))
    return exact.numerator


_RELATIONS: Dict[str, Callable[[Any, Any], bool]] = {
    'eq': operator.eq, 'iseq': operator.eq, 'ne': operator.ne, 'isne': operator.ne,
    'lt': operator.lt, 'le': operator.le, 'gt': operator.gt, 'ge': operator.ge}
# which of x >= LEAST and x < LEAST, or with the number on the left, always holds
_CERTAIN: Dict[bool, Dict[bool, str]] = {False: {True: 'ge', False: 'lt'},
                                         True: {True: 'le', False: 'gt'}}


def compared(op: Operator, number: object, unit: int,
             is_left: bool = False) -> Tuple[Operator, int]:
    """The operator and the whole number of 64 bits that compare stored numbers as an operator
    compares what they stand for with any number. So x > 0.125 is x > 12 of hundredths. TypeError
    for what is no number, ValueError for NaN."""
    prefix = 'value' if op.kind == 'index' else ''
    name = next(name for name in _RELATIONS if prefix + name in READY[op.kind]
                and READY[op.kind][prefix + name] == op)
    exact: Union[float, Fraction]
    if isinstance(number, (float, numpy.floating, decimal.Decimal)) and math.isinf(number):
        exact = float(number)
    else:
        exact = exact_in(number, unit)
        if name in ('lt', 'ge', 'le', 'gt'):
            exact = Fraction(math.ceil(exact) if (name in ('lt', 'ge')) != is_left
                             else math.floor(exact))
        if exact.denominator == 1 and LEAST <= exact <= MOST:
            return op, exact.numerator
    relation = _RELATIONS[name]
    always = _CERTAIN[is_left][relation(exact, 0) if is_left else relation(0, exact)]
    return READY[op.kind][prefix + always], LEAST


# -- stored numbers as people read them

def to_decimal(value: int, unit: int) -> Any:
    """What a stored number stands for: itself with a scale of 1 and of times, a vertex' name, else
    the nearest float."""
    if isinstance(unit, VertexUnit):
        return unit.names[value]
    return value if is_whole(unit) else value / unit


def is_whole(unit: int) -> bool:
    """Whether values are the stored numbers: without a scale, and of times."""
    return unit == 1 or isinstance(unit, TimeUnit)


def to_decimals(values: Union[List[int], Array], unit: int) -> Any:
    """The same of a list, or of an array of numpy."""
    if is_whole(unit):
        return values
    if isinstance(unit, VertexUnit) or not is_array(values):
        return [to_decimal(value, unit) for value in values]
    array = numpy.asarray(values)
    if unit < EXACT and (numpy.abs(array) < EXACT).all():
        return array / numpy.float64(unit)
    return numpy.array([value / unit for value in array.tolist()], numpy.float64)


def to_text(value: int, unit: int) -> str:
    """What a stored number stands for, as text: a date of times, else all digits where these come
    to an end."""
    if isinstance(unit, TimeUnit):
        return str(numpy.datetime64(value, unit.name))
    places = None if isinstance(unit, VertexUnit) or unit == 1 else _places(unit)
    if places is None:
        return str(to_decimal(value, unit))
    digits = str(abs(value) * 10 ** places // unit).rjust(places + 1, '0')
    whole, rest = digits[:len(digits) - places], digits[len(digits) - places:].rstrip('0')
    return '%s%s.%s' % ('-' if value < 0 else '', whole, rest or '0')


def to_exact(value: int, unit: int) -> Any:
    """The same as what is printed so: a number with these digits, a date, or a name."""
    if unit == 1 or isinstance(unit, VertexUnit):
        return to_decimal(value, unit)
    text = to_text(value, unit)
    return text if isinstance(unit, TimeUnit) else decimal.Decimal(text)


@functools.lru_cache(maxsize=64)
def _places(divisor: int) -> Optional[int]:
    """How many decimals a whole number has at most that is divided by another; None where they go
    on for ever."""
    twos = fives = 0
    while divisor % 2 == 0:
        divisor, twos = divisor // 2, twos + 1
    while divisor % 5 == 0:
        divisor, fives = divisor // 5, fives + 1
    return max(twos, fives) if divisor == 1 else None


def are_decimals(dtype: DType) -> bool:
    """Whether a type that is asked for means decimals (float), or stored whole numbers (int, None).
    TypeError for another one."""
    name = (dtype if isinstance(dtype, str) else getattr(dtype, 'name', None)
            or getattr(dtype, '__name__', None))
    if dtype is None or name in ('int', 'int64'):
        return False
    if name in ('float', 'float64'):
        return True
    raise TypeError(
        'expected dtype=int for the stored whole numbers, or dtype=float for decimals, not %r'
        % (dtype,))


# -- the scales of results

@functools.lru_cache(maxsize=None)
def _meanings(kind: str) -> Dict[Operator, str]:
    return {READY[kind][name]: meaning for meaning, names in _KINDS[kind].items()
            for name in names.split()}


def meaning_of(op: Operator) -> Optional[str]:
    """What a built-in operator does with scales; None of the caller's own, and of those on bits."""
    return _meanings(op.kind).get(op)


def name_of(op: Union[Operator, str]) -> str:
    return op if isinstance(op, str) else op.name or 'an operator'


def common(what: Union[Operator, str], first: int, second: int) -> int:
    """The scale of values that meet. UnitsDiffer where they have two, NamesDiffer where they are
    vertices of two lists; plain numbers go with times."""
    if isinstance(first, VertexUnit) and isinstance(second, VertexUnit) and first != second:
        raise names_differ('the vertices that %s gets as values' % name_of(what), first.axis,
                           second.axis, 'spmat.align(A, B) gives both one list')
    if first == second or (second == 1 and isinstance(first, TimeUnit)):
        return first
    if first == 1 and isinstance(second, TimeUnit):
        return second
    return refuse(what, first, second)


def of_both(op: Operator, first: int, second: int) -> int:
    """The scale of op(x, y). UnitsDiffer where x and y have to have one, and have not; where times
    would be added up, or vertices be reckoned with; where a quotient would have none."""
    meaning = meaning_of(op)
    if meaning in (FIRST, SECOND):
        return first if meaning == FIRST else second
    if isinstance(first, VertexUnit) or isinstance(second, VertexUnit):
        if chooses(op) or tells_apart(op):
            met = common(op, first, second)
            return met if chooses(op) else 1
        return of_vertex(op)
    are_times = isinstance(first, TimeUnit) and isinstance(second, TimeUnit)
    if meaning in (MEET, CHOOSE, *COMPARE) or meaning is not None and are_times:
        met = common(op, first, second)
        if are_times and op == READY['binary'].plus:
            raise UnitsDiffer('a sum of times is no time: "min" and "max" have the first and the '
                              'last; B = A.dup(); B.unit = 1 adds up the stored numbers, as of '
                              'lengths of time')
        return met if meaning == CHOOSE or meaning == MEET and not are_times else 1
    if meaning == TIMES:
        return _of_product(op, first, second)
    if meaning in (OVER, UNDER):
        over, under = (first, second) if meaning == OVER else (second, first)
        return over // under if over % under == 0 else refuse(op, first, second)
    return 1


def _of_product(op: Operator, first: int, second: int) -> int:
    """The scale of a product. ValueError where no stored number could be 1."""
    if first * second > MOST:
        mend = ' and '.join('%s.rescale(1000, exact=False)' % name
                            for name, one in (('A', first), ('B', second)) if one > 1000)
        raise ValueError(
            '%s multiplies the units %s and %s, and 64 bits hold no 1 in parts of their '
            'product: write %s, with rounding' % (name_of(op), first, second, mend))
    return first * second


def of_fold(op: Operator, unit: int) -> int:
    """The scale of a fold, which copies what stands alone. UnitsDiffer where what it makes of two
    values has another one."""
    meaning = meaning_of(op)
    if unit == 1 or meaning == MEET or chooses(op) or isinstance(unit, VertexUnit):
        return of_both(op, unit, unit)
    if meaning is None or isinstance(unit, TimeUnit):
        return 1
    raise UnitsDiffer(
        '%s gives numbers that are no parts of 1/%s, as the values are that stand alone and are '
        'copied: B = A.dup() and B.unit = 1 has the stored whole numbers, and A.rescale(1, '
        'exact=False) rounds to whole ones' % (name_of(op), unit))


def of_read(scale: Optional[Exact], dup_op: Optional[Op], times: Optional[str] = None) -> int:
    """The scale of what is read, or its label of times. UnitsDiffer where values that share a
    position are folded to numbers of another one."""
    if scale is None and times is None:
        return 1
    unit = as_unit(scale if times is None else times)
    if dup_op is not None:
        # one of the caller's own is taken to keep what its scale says
        of_fold(find('binary', dup_op), unit)
    return unit


def refuse(op: Union[Operator, str], first: int, second: int) -> NoReturn:
    """Raises UnitsDiffer of the operands of an operator, or of what else brings values together."""
    if isinstance(first, VertexUnit) or isinstance(second, VertexUnit):
        refuse_vertices('%s of vertices and numbers has values of two kinds' % name_of(op))
    wanted: Any = math.lcm(first, second)
    if isinstance(first, TimeUnit) and isinstance(second, TimeUnit):
        wanted = min(first, second, key=lambda unit: unit.size)
    elif isinstance(op, Operator) and meaning_of(op) in (OVER, UNDER):
        raise UnitsDiffer(
            '"%s" of units of %s and %s, of which the divisor\'s is no divisor: A.rescale gives '
            'the other values a multiple of it, and B = A.dup(); B.unit = 1 has the stored whole '
            'numbers' % (name_of(op), first, second))
    mend = ' and '.join('%s.rescale(%r)' % (name, wanted)
                        for name, unit in (('A', first), ('B', second)) if unit != wanted)
    raise UnitsDiffer('%s of values whose units differ: A has a unit of %s, and B of %s; write %s'
                      % (name_of(op), first, second, mend))


# -- values that are vertices

def chooses(op: Operator) -> bool:
    """Whether an operator's answer is one of both values, so that of vertices it is a vertex."""
    return meaning_of(op) in (CHOOSE, FIRST, SECOND)


def tells_apart(op: Operator) -> bool:
    """Whether an operator says whether two values are the same, which vertices can be."""
    return meaning_of(op) == EQUAL


def of_vertex(op: Operator) -> int:
    """The scale of an operator's answer for a vertex, which is a number: an operator of the
    caller's own gets places. UnitsDiffer for built-in ones that look at values."""
    if meaning_of(op) in (PLACE, CONSTANT):
        return 1
    if meaning_of(op) is not None or op.name in READY[op.kind]:
        refuse_vertices('"%s" of vertices is no vertex, nor a number' % name_of(op))
    warn_user('values are vertices, and an operator of your own gets their places, from 0, and not '
              'their names: B = A.dup(); B.unit = 1 says that these are meant', UserWarning)
    return 1


def refuse_vertices(what: str) -> NoReturn:
    """Raises UnitsDiffer where vertices would be reckoned with."""
    raise UnitsDiffer('%s: values that are vertices are compared by "eq" and "ne", with a vertex\' '
                      'name beside them; B = A.dup(); B.unit = 1 has the places of the vertices as '
                      'numbers' % what)
