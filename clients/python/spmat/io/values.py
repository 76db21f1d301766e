"""Values of edges as whole numbers of 64 bits: as they are, scaled and rounded, or points in time
as a count of units since 1970-01-01. Also what stands for a name or a value that is missing."""
from __future__ import annotations

import contextlib
import datetime
import decimal
import fractions
import functools
import numbers
import operator
import re
from typing import Any, Callable, Dict, NamedTuple, Optional, Sequence

import numpy

from ..errors import about, parameters_of
from ..integers import LEAST, MOST, is_gap, shown, whole, word
from ..types import Array

# Floats below it are the whole numbers that were written, or none: pandas reads the last bits of
# long decimals wrong, so that 7358111619511751.0 ends in 0.
EXACT = float(1 << 48)
# products of floats below it are as near as that to the true ones
NEAR, HALF = float(1 << 40), 1e-3
# a product of floats is as near as that to the true one
SLIP = 2.0 ** -50
NOT_WHOLE, BEYOND = 'a number that is not whole', 'beyond 64 bits'
SCALE = 'scale=1000 takes thousandths (0.125 is 125 then), values=False reads no values'
# What stands for a value that isn't there: in tables of pandas, R, SQL and spreadsheets.
MISSING = {'', 'na', 'n/a', '#n/a', '<na>', 'nan', '-nan', 'null', '#null!', 'none', 'nil', '-',
           '?', '.', '\\n'}
LONGEST = max(map(len, MISSING))
# What pandas takes for a missing value where a column has text, in just these letters.
NO_NAMES = frozenset(('', '#N/A', '#N/A N/A', '#NA', '-1.#IND', '-1.#QNAN', '-NaN', '-nan',
                      '1.#IND', '1.#QNAN', '<NA>', 'N/A', 'NA', 'NULL', 'NaN', 'None', 'n/a', 'nan',
                      'null'))
RAISE, SKIP = 'raise', 'skip'
SKIPS = 'missing="skip" leaves the %s out'

# in nanoseconds
UNITS = {'D': 86400 * 10 ** 9, 's': 10 ** 9, 'ms': 10 ** 6, 'us': 10 ** 3, 'ns': 1}
# that numpy has besides
LONG_UNITS = dict(UNITS, W=7 * UNITS['D'], h=3600 * 10 ** 9, m=60 * 10 ** 9)
YEAR = 31_556_952 * 10 ** 9
YEAR_3000 = 32_503_680_000 * 10 ** 9               # since 1970
FAR = ('%s is in the year %d as a count of %s since 1970: date_format="%%Y%%m%%d" reads 20240531 '
       'as a date, unit="ms" takes milliseconds, and without unit=, G.unit = %r takes it as it is')
EPOCH = datetime.datetime(1970, 1, 1, tzinfo=datetime.timezone.utc)
ISO = re.compile(r'\s*(\d{4})-(\d\d)-(\d\d)(?:[T '
                 r']+(\d\d):(\d\d)(?::(\d\d)(?:[.,](\d{1,9}))?)?)?\s*(Z|[+-]\d\d:?\d\d)?\s*', re.I)
TAKES = 'unit="s" takes times as seconds since 1970-01-01'

Wrong = Callable[[str], Exception]
"""The error of a value, by what is wrong with it."""


def is_missing(field: str) -> bool:
    """Whether a field says that a value is missing."""
    return field.strip().lower() in MISSING


def is_number(field: str) -> bool:
    """Whether a field is a number, whole or not."""
    try:
        float(field)
    except ValueError:
        return False
    return '_' not in field and not is_missing(field)


# -- numbers

def check_scale(scale: Optional[float]) -> Optional[decimal.Decimal]:
    """A scale as a number. ValueError where it is none above 0."""
    if scale is None:
        return None
    try:
        found = decimal.Decimal('' if isinstance(scale, str) else str(scale))
    except (decimal.InvalidOperation, ValueError):
        found = decimal.Decimal(0)
    if not found.is_finite() or found <= 0:
        raise about(ValueError('a scale is a number above 0, such as 1000 for thousandths, not %s'
                               % shown(scale)), 'scale')
    return found


class Rounding:
    """What rounding did to values that were multiplied by a scale: how many there are, and how
    many weren't whole then. Also by how much at most they were changed, in their own units."""

    def __init__(self, scale: Optional[float]) -> None:
        self.scale, self.exact = scale, check_scale(scale)
        self.count, self.rounded, self.most = 0, 0, 0.0

    def note(self, count: int, rounded: int, most: float) -> None:
        """Adds some values, of which the one that was changed most was so by `most`, once it was
        multiplied."""
        self.count, self.rounded = self.count + count, self.rounded + rounded
        self.most = max(self.most, most / float(self.scale or 1))

    def __str__(self) -> str:
        if self.scale is None:
            return ''
        done = ('%d of %d rounded, by at most %.2g' % (self.rounded, self.count, self.most)
                if self.rounded else 'all whole then')
        return 'values times %g, %s' % (self.scale, done)


def whole_values(fields: Sequence[str], wrong: Callable[[int, str], Exception],
                 rounding: Rounding) -> Any:
    """Fields as an array of whole numbers. With a scale each is multiplied by it and rounded to the
    nearest, halves to the even one; without one 0.5 is an error, and 2.0 is 2. `rounding` has the
    scale, and notes what it did; `wrong` makes the error of a field, by its number."""
    if rounding.exact is None and not any('_' in field for field in fields):
        with contextlib.suppress(ValueError, OverflowError):     # which are named below
            return numpy.array(list(map(int, fields)), numpy.int64)
    found = []
    for at, field in enumerate(fields):
        fault = functools.partial(wrong, at)
        found.append(whole_of(_read_decimal(field, fault), field, rounding, fault))
    return numpy.array(found, numpy.int64)


def _read_decimal(field: str, wrong: Wrong) -> decimal.Decimal:
    """A field as a number, also with the exponents of Fortran."""
    if is_missing(field):
        raise about(wrong(
            'the value is missing (%r): fill it in or leave the line out; values=False reads no '
            'values' % field), 'values')
    try:
        if '_' in field:
            raise ValueError
        return decimal.Decimal(field.strip().lower().replace('d', 'e'))
    except (ValueError, decimal.InvalidOperation):
        # a number but for commas, blanks, and signs of money or of shares
        is_dressed = re.fullmatch(r'[-+]?\W{0,2}\d[\d., _\']*\W{0,2}', field.strip()) is not None
        raise about(wrong('expected a number as the value, got %r: %s' % (
            field, 'write it as 1500.25, without thousands separators or currency signs'
            if is_dressed else 'values=False reads none')),
                    *(() if is_dressed else ('values',))) from None


def whole_of(exact: decimal.Decimal, field: str, rounding: Rounding, wrong: Wrong) -> int:
    """A number as a whole one; `field` is how it was written."""
    rounded, apart, scale = exact, decimal.Decimal(0), rounding.exact
    is_out = not exact.is_finite() or exact.adjusted() > 40
    if not is_out:
        with decimal.localcontext() as context:
            context.prec = 60
            scaled_number = exact if scale is None else exact * scale
            rounded = scaled_number.to_integral_value(decimal.ROUND_HALF_EVEN)
            apart = abs(scaled_number - rounded)
        if scale is None and apart:
            raise about(wrong('%s is %s: %s' % (field, NOT_WHOLE, SCALE)), 'scale', 'values')
        is_out = not LEAST <= rounded <= MOST
    if is_out:
        raise wrong('%s%s is %s: values lie in -2^63 to 2^63 - 1' % (
            field, '' if scale is None else ' times %g' % scale, BEYOND))
    rounding.note(1, bool(apart), float(apart))
    return int(rounded)


def whole_numbers(many: Any, rounding: Optional[Rounding] = None,
                  wrong: Optional[Callable[[int, Exception], Exception]] = None,
                  what: str = 'value') -> Any:
    """Numbers, an array or a list, as an array of whole numbers. They are multiplied by a scale and
    rounded to the nearest, halves to the even one, as they are written in decimals: 0.29 times 100
    is 29. `rounding` has the scale, and notes what it did. TypeError for what is no number,
    ValueError for what is missing, isn't whole or is beyond 64 bits. `wrong` makes the error of one
    number, of its place and of an error that doesn't name it."""
    rounding, found = rounding or Rounding(None), None
    if isinstance(many, numpy.ndarray):
        found = _whole_at_once(many, what, rounding)
    elif rounding.exact is None:
        with contextlib.suppress(TypeError, OverflowError):     # which are named below
            if numpy.bool_ in set(map(type, many)):             # which won't be numbers some day
                many = [int(one) if isinstance(one, numpy.bool_) else one for one in many]
            found = numpy.array(list(map(operator.index, many)), numpy.int64)
    if found is not None:
        return found
    whole_ones = []
    for at, value in enumerate(many.tolist() if isinstance(many, numpy.ndarray) else many):
        try:
            if wrong is None and is_gap(value):    # who gives `wrong` has looked for them
                raise ValueError('a %s is missing: it is %r' % (what, value))
            whole_ones.append(whole_number(value, rounding, what))
        except (TypeError, ValueError) as fault:
            raise (wrong or _place)(at, fault) from None
    return numpy.array(whole_ones, numpy.int64)


def _place(at: int, fault: Exception) -> Exception:
    return about(type(fault)('%s (entry %d)' % (fault, at)), *parameters_of(fault))


def _whole_at_once(array: Array, what: str, rounding: Rounding) -> Any:
    """An array of numbers as one of int64; None where they have to be looked at one by one."""
    if array.ndim != 1:
        raise ValueError('expected one dimension of %ss, got %d' % (what, array.ndim))
    if array.dtype.kind not in 'biufO' and len(array):
        since = (
            ': .astype("datetime64[s]").astype("int64") makes seconds since 1970-01-01 of times'
            if array.dtype.kind == 'M' else '')
        raise TypeError('%ss are whole numbers, not %s%s' % (what, array.dtype, since))
    return scaled_array(array, rounding)


def whole_number(value: Any, rounding: Optional[Rounding] = None, what: str = 'value') -> int:
    """A number as a whole one of 64 bits; see `whole_numbers`."""
    if rounding is None or rounding.exact is None:
        return word(value, what)
    if is_gap(value):
        raise ValueError('a %s is missing: it is %r' % (what, value))
    if not isinstance(value, (numbers.Real, decimal.Decimal)) and not hasattr(value, '__index__'):
        raise TypeError('a %s is a number, not %r' % (what, value))
    field = shown(value) if isinstance(value, int) else str(value)
    return whole_of(_decimal_of(value), field, rounding,
                    lambda words: ValueError('%s: %s' % (what, words)))


def _decimal_of(value: Any) -> decimal.Decimal:
    """A number in decimals, a float as it is written; a fraction by 60 digits, which tell how it is
    rounded."""
    if isinstance(value, fractions.Fraction):
        with decimal.localcontext() as context:
            context.prec = 60
            return decimal.Decimal(value.numerator) / value.denominator
    if hasattr(value, '__index__'):
        return decimal.Decimal(value.__index__())
    return decimal.Decimal(str(float(value) if isinstance(value, numbers.Real) else value))


def scaled_array(values: Any, rounding: Rounding) -> Any:
    """An array of numbers as one of int64, as `whole_values` has it; None where they have to be
    looked at one by one."""
    kind, scale = values.dtype.kind, rounding.scale
    if kind in 'bi' and scale is None:
        return values.astype(numpy.int64, copy=False)
    if kind not in 'iuf':
        return None
    products = values.astype(numpy.float64) * float(1 if scale is None else scale)
    rounded = numpy.rint(products)
    if not (numpy.abs(products) < (EXACT if scale is None else NEAR)).all():
        return None
    apart = numpy.abs(products - rounded)
    if (apart > 0).any() if scale is None else (numpy.abs(apart - .5) < HALF).any():
        return None
    if scale is not None and len(apart):
        changed = apart > numpy.abs(products) * SLIP
        rounding.note(len(apart), int(changed.sum()), float(apart[changed].max()) if changed.any()
                      else 0.0)
    return rounded.astype(numpy.int64)


# -- times

class Clock:
    """What makes whole numbers of times: in which unit, and how text writes them (None: as ISO 8601
    has it). It counts the times that it cut down to a whole number."""

    def __init__(self, unit: str, date_format: Optional[str] = None) -> None:
        if unit not in UNITS:
            raise about(ValueError('a unit of times is %s, not %s' % (
                ', '.join(map('"%s"'.__mod__, UNITS)), shown(unit))), 'unit')
        self.unit, self._format, self._size = unit, date_format, UNITS[unit]
        self.count = self.cut = 0

    def __str__(self) -> str:
        cut = ', %d of %d cut down to a whole one' % (self.cut, self.count) if self.cut else ''
        return 'values in %s since 1970-01-01%s' % (self.unit, cut)

    def read(self, values: Sequence[Any], wrong: Callable[[int, str], Exception]) -> Any:
        """Times as an array of whole numbers; what is a number is one of this unit. The error of
        `wrong` where one is neither, or beyond 64 bits."""
        found = []
        # the first number, the first time with a zone, and the first without
        forms: Dict[Optional[bool], int] = {}
        for at, value in enumerate(values):
            if self._format is not None and isinstance(value, (int, numpy.integer)):
                value = str(value)                 # as 20240531 is written
            try:
                moment = read_moment(value, self._format)
                number = (moment.nanoseconds // self._size if moment is not None
                          else int(value) if isinstance(value, str) else whole(value))
            except (TypeError, ValueError):
                how = ('date_format=%r' % self._format if self._format
                       else 'as 2024-05-31 or 2024-05-31T10:15:00Z, or date_format= says how, '
                       'as "%d.%m.%Y"')
                raise about(wrong(at, 'expected a time, got %r: write it %s' % (value, how)),
                            'date_format') from None
            if moment is None and number * self._size > YEAR_3000:
                raise about(wrong(at, FAR % (value, 1970 + number * self._size // YEAR, self.unit,
                                             self.unit)), 'date_format', 'unit')
            forms.setdefault(None if moment is None else moment.has_zone, at)
            self.cut += moment is not None and moment.nanoseconds % self._size != 0
            if not LEAST <= number <= MOST:
                raise about(wrong(at, '%s is beyond 64 bits in %s: unit="us" has room'
                                  % (value, self.unit)), 'unit')
            found.append(number)
        if len(forms) > 1:
            what = ('are numbers, and this one and others differ: either all are'
                    if None in forms else
                    'have a time zone, and this one and others differ: either all have one')
            raise wrong(max(forms.values()), 'some times %s, or none' % what)
        self.count += len(found)
        return numpy.array(found, numpy.int64)


class Moment(NamedTuple):
    """A time in nanoseconds since 1970-01-01, where it has no zone in UTC; and whether it has
    one."""
    nanoseconds: int
    has_zone: bool


def is_time(value: Any) -> bool:
    """Whether this is a time, and not a number."""
    try:
        return read_moment(value) is not None
    except (TypeError, ValueError):
        return False


def read_moment(value: Any, date_format: Optional[str] = None) -> Optional[Moment]:
    """A time of Python, numpy, pandas or in text; None of a number. ValueError where text is
    neither."""
    if isinstance(value, str):
        if date_format is not None:
            return _of_datetime(datetime.datetime.strptime(value.strip(), date_format))
        return None if re.fullmatch(r'\s*[+-]?\d+\s*', value) else _of_iso(value)
    if isinstance(value, datetime.datetime):
        # pandas' Timestamp has more digits
        return _of_datetime(value, int(getattr(value, 'nanosecond', 0)))
    if isinstance(value, datetime.date):
        return _of_datetime(datetime.datetime(value.year, value.month, value.day))
    if type(value).__name__ == 'datetime64':
        if numpy.datetime_data(value.dtype)[0] in ('Y', 'M', 'W'):
            value = value.astype('datetime64[D]')
        unit, step = numpy.datetime_data(value.dtype)
        if unit not in LONG_UNITS:
            raise ValueError('times finer than nanoseconds')
        return Moment(int(value.astype('int64')) * step * LONG_UNITS[unit], False)
    return None


def _of_datetime(value: datetime.datetime, more: int = 0) -> Moment:
    has_zone = value.tzinfo is not None
    passed = (value if has_zone else value.replace(tzinfo=datetime.timezone.utc)) - EPOCH
    seconds = passed.days * 86400 + passed.seconds
    return Moment((seconds * 10 ** 6 + passed.microseconds) * 1000 + more, has_zone)


def _of_iso(text: str) -> Moment:
    found = ISO.fullmatch(text)
    if found is None:
        raise ValueError('no time as ISO 8601 has it')
    parts = [int(part or 0) for part in found.groups()[:6]]
    zone = (found.group(8) or 'Z').upper().replace(':', '')
    offset = 0 if zone == 'Z' else int(zone[0] + '1') * (3600 * int(zone[1:3]) + 60 * int(zone[3:]))
    whole_seconds = _of_datetime(datetime.datetime(*parts)).nanoseconds  # type: ignore[arg-type]
    more = int((found.group(7) or '').ljust(9, '0')) - offset * 10 ** 9
    return Moment(whole_seconds + more, bool(found.group(8)))
