"""What is too large for one job: how large it is, what the limit is, and products by parts.

A product may make 16,777,216 multiplications (J7), and a job be priced at 4,294,967,296 steps at
most (J8). Both are known before it runs. A product that is too large is made by halves of the rows
of its left operand, their halves, and so on.
"""
from __future__ import annotations

import contextlib
from typing import TYPE_CHECKING, Callable, Optional, Sequence

from .backends.protocol import Job
from .errors import Refused, SpmatError, TooLarge
from .limits import MOST_PRICE, MOST_SIDE
from .operators import indexunary

if TYPE_CHECKING:
    from .matrix import Matrix


BY_PARTS = 'mxm(.., parts=True) makes it by parts of the rows'
SMALLER = (
    'select() some rows with "rowle" and "rowgt", and do them one after the other; spmat_blocks '
    'does so over several sessions')


def explained(fault: Refused, job: Job, matrices: Sequence['Matrix']) -> Refused:
    """A refusal of a job that is too large, with its size, the limit, and the way out. `matrices`
    are its operands, and the mask's where it has one. A product is counted by a few small jobs;
    where these are refused too, the number is left out."""
    if fault.rule not in ('J7', 'J8') or fault.detail:
        return fault
    calls: Optional[int] = None
    with contextlib.suppress(SpmatError, ValueError):
        calls = count_calls(job.form, *matrices)
    return type(fault)(fault.rule, fault.numbers, job.form, '', _words(fault.rule, job, calls))


def count_calls(form: str, first: 'Matrix', second: Optional['Matrix'] = None,
                mask: Optional['Matrix'] = None) -> int:
    """Of a product its multiplications, in the rows of which a mask stores something. Of a union
    the entries of both operands, and of another form those of the first, which it looks at."""
    if form == 'product':
        assert second is not None
        rows = None if mask is None else mask.reduce_rowwise('first').S
        row_sizes = second.apply('one').reduce_rowwise('plus')
        return first.apply('one').mxv(row_sizes, 'plus_times', mask=rows).reduce_scalar() or 0
    return first.nvals + second.nvals if form == 'union' and second is not None else first.nvals


def _words(rule: str, job: Job, calls: Optional[int]) -> str:
    way = BY_PARTS if job.form == 'product' else SMALLER
    if rule == 'J7':
        what = 'multiplications' if job.form == 'product' else 'entries of both together'
        number = '' if calls is None else '%s %s, and ' % (format(calls, ','), what)
        return '%s%s is the most of a job%s: %s' % (number, format(MOST_SIDE, ','),
                                                    '' if number else ' (%s)' % what, way)
    length = sum(job.operands[0].backend.length_of(op) for op in job.operators)
    reckoned = ('' if calls is None
                else 'up to %s calls of %d instructions, which are %s steps, and ' % (
                    format(calls, ','), length, format(calls * length, ',')))
    return '%s%s is the most of a job: a shorter operator is cheaper, and %s' % (
        reckoned, format(MOST_PRICE, ','), way)


def in_parts(first: Matrix, job: Callable[[Matrix], Matrix], start: int = 0,
             end: Optional[int] = None) -> Matrix:
    """What a job gives, which makes each row of its result of the same row of `first`, that has
    entries from row `start` on up to `end`. Where that is too large, it is made by halves of the
    rows, joined by a union. TooLarge where one row is too expensive, or the whole result has more
    entries than a matrix may have.

    Halves are joined at once, as each part has 8 bytes for every row of the whole. So no more parts
    are held at a time than halvings lead to one."""
    end = first.nrows if end is None else end
    try:
        return job(first)
    except TooLarge as fault:
        if fault.rule not in ('J7', 'J8') or end - start < 2:
            raise
    middle = (start + end) // 2
    upper = in_parts(first.select(indexunary.rowle, middle - 1), job, start, middle)
    lower = in_parts(first.select(indexunary.rowgt, middle - 1), job, middle, end)
    return upper.ewise_add(lower, 'first')
