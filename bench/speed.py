#!/usr/bin/env python3
"""speed.py [PROGRAM] [--rounds R] [--figures FILE]

How many steps one worker makes in a second, by the clock: for each form of job a batch of one job
whose steps are known, with a built-in operator and with one of twenty instructions. So a price,
which is in steps, can be told in seconds. The least of R batches counts (default 3), behind one
that isn't counted. With --figures the table goes into FILE. Wants numpy, and an idle machine.
"""
from __future__ import annotations

import argparse
import os
import sys
import time
from typing import Callable, Dict, Iterator, List, NamedTuple

TOP = os.path.dirname(os.path.dirname(os.path.realpath(__file__)))
sys.path[:1] = [os.path.join(TOP, 'clients', 'python')] + sys.path[:1] * (__name__ != '__main__')

import numpy                                                         # noqa: E402

import spmat                                                         # noqa: E402

ENTRIES, ROWS, SIDE = 1_000_000, 65_536, 1_024
# twenty instructions, none of which may be left out
LONG = '\n'.join(['mov64 r0, r1', *['%s r0, %d' % (op, number) for number in range(3, 12)
                                    for op in ('mul64', 'xor64')], 'exit'])
Job = Callable[[], spmat.Matrix]


class Speed(NamedTuple):
    """A form of job, what is called, and the million steps of a second."""
    form: str
    operator: str
    millions: float


def matrix(session: spmat.Session, seed: int, rows: int, entries: int) -> spmat.Matrix:
    """A square matrix of entries at random places."""
    drawn = numpy.random.default_rng(seed)
    places = numpy.unique(drawn.integers(0, rows * rows, entries))
    return session.from_coo(places // rows, places % rows,
                            drawn.integers(1, 1000, len(places)), rows, rows)


def jobs(session: spmat.Session) -> Dict[str, Dict[str, Job]]:
    """The jobs by their forms, each with a built-in operator and with a long one."""
    A = matrix(session, 1, ROWS, ENTRIES)
    S = matrix(session, 3, SIDE, 64 * SIDE)
    one, two = (spmat.asm(kind, LONG, 'long') for kind in ('unary', 'binary'))
    some = spmat.asm('index', LONG, 'long')
    return {
        'apply': {'abs': lambda: A.apply('abs'), 'long': lambda: A.apply(one)},
        'select': {'triu': lambda: A.select('triu'), 'long': lambda: A.select(some)},
        'union': {'plus': lambda: A.ewise_add(A, 'plus'), 'long': lambda: A.ewise_add(A, two)},
        'both': {'times': lambda: A.ewise_mult(A, 'times'),
                 'long': lambda: A.ewise_mult(A, two)},
        'reduce': {'plus': lambda: A.reduce_rowwise('plus'),
                   'long': lambda: A.reduce_rowwise(two)},
        'product': {'plus_times': lambda: S.mxm(S, 'plus_times'),
                    'long': lambda: S.mxm(S, ('plus', two))}}


def speeds(program: str, rounds: int) -> Iterator[Speed]:
    """What each job comes to."""
    with spmat.Session(workers=1, program=[program]) as session:
        for form, kinds in jobs(session).items():
            for operator, job in kinds.items():
                seconds: List[float] = []
                steps = 0
                for _ in range(rounds + 1):
                    waiting = job()
                    began = time.perf_counter()
                    session.run()
                    seconds.append(time.perf_counter() - began)
                    steps = waiting.steps
                    del waiting
                yield Speed(form, operator, steps / min(seconds[1:]) / 1e6)


def table(found: List[Speed]) -> str:
    """The figures as a table in Markdown."""
    return '\n'.join(['| job | operator | million steps a second |', '|---|---|---|',
                      *('| `%s` | %s | %.0f |' % (one.form, 'of twenty instructions'
                                                  if one.operator == 'long' else
                                                  '`%s`' % one.operator, one.millions)
                        for one in found), ''])


def main() -> int:
    """Measures, and prints or writes the table."""
    words = argparse.ArgumentParser(description=(__doc__ or '').split('\n\n')[1])
    words.add_argument('program', nargs='?',
                       default=os.path.join(TOP, 'crates', 'spmat', 'out', 'spmat'))
    words.add_argument('--rounds', type=int, default=3)
    words.add_argument('--figures')
    options = words.parse_args()
    text = table(list(speeds(options.program, options.rounds)))
    if options.figures:
        with open(options.figures, 'w', encoding='utf-8') as file:
            file.write(text)
    else:
        print(text, end='')
    return 0


if __name__ == '__main__':
    sys.exit(main())
