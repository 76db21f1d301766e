"""Numbers that callers hand over, as whole numbers of 64 bits, and in words."""
from __future__ import annotations

import decimal
import math
import numbers
import operator
from typing import Any, Optional

from .errors import about, refusal
from .limits import MOST_SIDE

LEAST, MOST = -1 << 63, (1 << 63) - 1
LONGEST = 60                                       # characters of a value that an error shows
# what is done about numbers that aren't whole
MENDS = {**dict.fromkeys(('value', 'weight'), ': scale=1000 takes thousandths'),
         **dict.fromkeys(('thunk', 'fill'), ': scale it first')}


def whole(number: Any, what: str = 'value') -> int:
    """A number as an int: any integer, or a float that is one. TypeError for what is no number,
    ValueError for other floats."""
    try:
        return operator.index(number)
    except TypeError:
        pass
    if not isinstance(number, (numbers.Real, decimal.Decimal)):
        raise TypeError('a %s is a whole number, not %s' % (what, shown(number)))
    if is_gap(number) or number != number:         # pylint: disable=comparison-with-itself
        raise ValueError('a %s is missing: it is nan' % what)
    if number in (math.inf, -math.inf):
        raise ValueError('a %s is a whole number, not %s' % (what, shown(number)))
    if number != int(number):
        fault = ValueError('a %s is a whole number, not %s%s' % (
            what, shown(number), MENDS.get(what, '')))
        raise about(fault, *(('scale',) if what in ('value', 'weight') else ()))
    return int(number)


def real(number: Any, what: str) -> float:
    """A number as a float, also one of numpy, a fraction or a decimal. TypeError for what is no
    number, ValueError for NaN, infinity and what is beyond floats."""
    if isinstance(number, (numbers.Real, decimal.Decimal)):
        try:
            found = float(number)
        except (OverflowError, ValueError):        # of Decimal's signaling NaN
            found = math.inf
        if math.isfinite(found):
            return found
        raise ValueError('%s is a finite number, not %s' % (what, shown(number)))
    raise TypeError('%s is a finite number, not %s' % (what, shown(number)))


def shown(number: Any) -> str:
    """What came, in a few words: Python itself writes no number of more than 4300 digits."""
    try:
        words = repr(number)
    except ValueError:
        return 'a number of more than 4300 digits'
    return words if len(words) <= LONGEST else '%s.. (%d characters)' % (words[:20], len(words))


def word(number: Any, what: str) -> int:
    """A whole number within 64 bits."""
    got = whole(number, what)
    if not LEAST <= got <= MOST:
        raise ValueError('%s %s is not in -2^63 to 2^63 - 1, the numbers of 64 bits'
                         % (what, shown(got)))
    return got


def side(given: Optional[int], least: int, what: str) -> int:
    """A matrix's size: the given one, or the least that fits. TooLarge above the server's limit."""
    size = least if given is None else whole(given, what)
    if size < 0:
        raise ValueError('%s is 0 or more, not %s' % (what, shown(size)))
    if size > MOST_SIDE:
        raise refusal('M4', detail='%s is %s' % (what, shown(size)))
    return size


def is_gap(cell: object) -> bool:
    """Whether a cell stands for a value that is missing: None, NaN, and NA and NaT of pandas."""
    if cell is None or type(cell).__name__ in ('NAType', 'NaTType'):
        return True
    if isinstance(cell, decimal.Decimal):
        return cell.is_nan()
    return isinstance(cell, float) and math.isnan(cell)
