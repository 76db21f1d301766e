"""Functions of 64-bit integers that Python has no sign for: `cdiv`, `umod`, `rsh`, `where`. They
take plain numbers, and operands in a function that becomes an operator.

Operands are words that are no numbers yet, of which the compiler makes expressions
(`compiler.exploration`).
"""
from __future__ import annotations

import operator
from typing import Any, Optional, SupportsIndex, Union

from .assembly import MEANINGS, wrap


class Operand:
    """A number of an operator's call, which isn't known when its function is compiled."""
    __slots__ = ()

    def operate(self, name: str, a: Whole, b: Whole) -> Any:
        """An operation of two operands, of which this is one, or of this one and a number;
        NotImplemented for what is no number."""
        raise NotImplementedError

    def choose(self, condition: Whole, a: Whole, b: Whole) -> Any:
        """`a` where the condition holds, else `b`."""
        raise NotImplementedError


Whole = Union[SupportsIndex, Operand]
"""A number, or an operand of a function that becomes an operator."""


def whole(value: Any) -> Optional[int]:
    """A number of Python or numpy as an int, None for anything else."""
    is_bool = getattr(getattr(value, 'dtype', None), 'kind', '') == 'b'     # numpy's
    if is_bool and not getattr(value, 'shape', ()):
        return int(value)
    try:
        return operator.index(value)
    except TypeError:
        return None


def where(condition: Whole, a: Whole, b: Whole) -> Any:
    """`a` where the condition holds, else `b`, as `numpy.where` of one number.

    Parameters
    ----------
    condition, a, b : int or operand
        Both values are computed before the condition is looked at.

    Returns
    -------
    int or operand

    See Also
    --------
    ult : A comparison without sign.

    Notes
    -----
    In an operator's function `where` is no branch, so it doesn't double the paths through the
    function, as `if` does.

    Examples
    --------
    >>> import spmat
    >>> spmat.where(3 > 5, 3, 5)
    5
    """
    for each in (condition, a, b):
        if isinstance(each, Operand):
            return each.choose(condition, a, b)
    return a if condition else b


def _compute(name: str, called: str, x: Whole, y: Whole) -> Any:
    """An operation of the machine on operands, or on numbers as signed words."""
    for each in (x, y):
        if isinstance(each, Operand):
            return each.operate(name, x, y)
    a, b = whole(x), whole(y)
    if a is None or b is None:
        raise TypeError('%s is of whole numbers, and this is %s(%r, %r)' % (called, called, x, y))
    return wrap(MEANINGS[name](wrap(a), wrap(b)))


def cdiv(x: Whole, y: Whole) -> Any:
    """x / y rounded toward 0, as in C; 0 where y is 0.

    Parameters
    ----------
    x, y : int or operand
        Words of 64 bits, with a sign.

    Returns
    -------
    int or operand

    See Also
    --------
    cmod : Its remainder.
    udiv : Without sign.

    Examples
    --------
    >>> import spmat
    >>> spmat.cdiv(-7, 2)
    -3
    """
    return _compute('sdiv', 'cdiv', x, y)


def cmod(x: Whole, y: Whole) -> Any:
    """The remainder of `cdiv`, with the sign of x; x where y is 0.

    Parameters
    ----------
    x, y : int or operand
        Words of 64 bits, with a sign.

    Returns
    -------
    int or operand

    See Also
    --------
    cdiv : The quotient.
    umod : Without sign.

    Examples
    --------
    >>> import spmat
    >>> spmat.cmod(-7, 2)
    -1
    """
    return _compute('smod', 'cmod', x, y)


def udiv(x: Whole, y: Whole) -> Any:
    """x // y of words without sign; 0 where y is 0.

    Parameters
    ----------
    x, y : int or operand
        Words of 64 bits: -1 counts as 2^64 - 1.

    Returns
    -------
    int or operand

    See Also
    --------
    umod : Its remainder.
    cdiv : With a sign.

    Examples
    --------
    >>> import spmat
    >>> spmat.udiv(-1, 2)
    9223372036854775807
    """
    return _compute('div', 'udiv', x, y)


def umod(x: Whole, y: Whole) -> Any:
    """x % y of words without sign; x where y is 0.

    Parameters
    ----------
    x, y : int or operand
        Words of 64 bits: -1 counts as 2^64 - 1.

    Returns
    -------
    int or operand

    See Also
    --------
    udiv : The quotient.
    cmod : With a sign.

    Examples
    --------
    >>> import spmat
    >>> spmat.umod(-1, 10)
    5
    """
    return _compute('mod', 'umod', x, y)


def ult(x: Whole, y: Whole) -> Any:
    """Whether x < y of words without sign, as 1 or 0.

    Parameters
    ----------
    x, y : int or operand
        Words of 64 bits: -1 counts as 2^64 - 1.

    Returns
    -------
    int or operand

    See Also
    --------
    where : A choice by it.

    Examples
    --------
    >>> import spmat
    >>> spmat.ult(1, -1)
    1
    """
    return _compute('ult', 'ult', x, y)


def rsh(x: Whole, y: Whole) -> Any:
    """x shifted right by the low 6 bits of y, with 0 shifted in: `>>` of a word without sign.

    Parameters
    ----------
    x, y : int or operand
        Words of 64 bits.

    Returns
    -------
    int or operand

    See Also
    --------
    udiv : A division without sign.

    Examples
    --------
    >>> import spmat
    >>> spmat.rsh(-1, 60)
    15
    """
    return _compute('rsh', 'rsh', x, y)
