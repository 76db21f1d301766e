"""Random calls of the client beside finite maps of Python: which job waits, which name is used
again, which mask is whose.

SEQUENCES says how many sequences are tried (2,000), and FIRST with which number they begin.
"""
import os
import random
import unittest

import pytest

import model
import support  # noqa: F401 (finds the program)
import spmat

pytestmark = pytest.mark.slow

CALLS = 20
HELD = 6
GROUP = 20                                         # sequences of one session


class Sequence:
    """One session, and what is held of it: pairs of a matrix and its map."""

    def __init__(self, session, seed):
        self.s, self.r = session, random.Random(seed)
        self.n = self.r.randrange(1, 6)
        self.held = [self.fresh() for _ in range(2)]

    def fresh(self):
        n = self.n
        entries = {(self.r.randrange(n), self.r.randrange(n)): self.r.randrange(-4, 5)
                   for _ in range(self.r.randrange(0, 3 * n))}
        return self.s.from_triples([(i, j, x) for (i, j), x in entries.items()], n, n), entries

    def mask(self):
        """A mask, and whether it lets a position pass."""
        M, m = self.r.choice(self.held)
        return self.r.choice(((M, lambda p: p in m), (M.S, lambda p: p in m),
                              (~M.S, lambda p: p not in m),
                              (M.V, lambda p: m.get(p)), (~M.V, lambda p: not m.get(p))))

    def call(self):
        """A random call, and its meaning."""
        (A, a), (B, b) = self.r.choice(self.held), self.r.choice(self.held)
        f, g, t = self.r.choice(list(model.BINARY)), self.r.choice(
            list(model.BINARY)), self.r.randrange(-3, 4)
        u, x = self.r.choice(list(model.UNARY)), self.r.choice(list(model.INDEX))
        mask, keep = self.mask() if self.r.random() < .4 else (None, lambda p: True)
        accum, replace = self.r.choice((None, f)), self.r.random() < .5
        value = model.signed
        calls = (
            lambda: (A.apply(u, mask=mask), {p: value(model.UNARY[u](v)) for p, v in a.items()}),
            lambda: (A.apply(f, right=t, mask=mask),
                     {p: value(model.BINARY[f](v, t)) for p, v in a.items()}),
            lambda: (A.apply(f, left=t, mask=mask),
                     {p: value(model.BINARY[f](t, v)) for p, v in a.items()}),
            lambda: (A.apply(x, right=t, mask=mask),
                     {p: value(model.INDEX[x](v, *p, t)) for p, v in a.items()}),
            lambda: (A.select(x, t, mask=mask),
                     {p: v for p, v in a.items() if model.INDEX[x](v, *p, t)}),
            lambda: (A.ewise_add(B, f, mask=mask), model.union(a, b, f)),
            lambda: (A.ewise_mult(B, f, mask=mask), model.both(a, b, f)),
            lambda: (A.mxm(B, f + '_' + g, mask=mask), model.product(a, b, f, g)),
            lambda: (A.dup(mask=mask), a), lambda: (A.update(B, accum, mask, replace),
                                                    model.updated(a, b, accum, keep,
                                                                  replace and mask is not None)),
            lambda: (A.T, model.transposed(a)),
            lambda: (A.reduce_rowwise(f).mxm(self.s.full(1, self.n), 'plus_first', mask=mask),
                     {(i, j): v for (i, _), v in model.by_rows(a, f).items()
                      for j in range(self.n)}),
            lambda: (self.s.full(self.n, 1).mxm(A.reduce_columnwise(f), 'plus_second', mask=mask),
                     {(i, j): v for (_, j), v in model.by_columns(a, f).items()
                      for i in range(self.n)}),
            lambda: (A.reduce_rowwise(f).diag(),
                     {(i, i): v for (i, _), v in model.by_rows(a, f).items()}), self.fresh)
        at = self.r.randrange(len(calls))
        C, c = calls[at]()
        return C, model.cut(c, keep) if at not in (9, 10, 13, 14) else c

    def look(self, test, where):
        """Something that asks for a result."""
        (A, a), (B, b) = self.r.choice(self.held), self.r.choice(self.held)
        op = self.r.choice(model.ASSOCIATIVE)
        asked = self.r.randrange(4)
        if asked == 0:
            test.assertEqual(A.isequal(B), a == b, where)
        elif asked == 1:
            test.assertEqual(A.reduce_scalar(op), model.fold(op, [a[p] for p in sorted(a)]) if a
                             else None, where)
        elif asked == 2:
            test.assertEqual(A.nvals, len(a), where)
        else:
            test.assertEqual(A.to_dict(), a, where)

    def go(self, test, seed):
        for step in range(CALLS):
            where = 'sequence %d, call %d' % (seed, step)
            self.held.append(self.call())
            while len(self.held) > HELD:
                self.held.pop(self.r.randrange(len(self.held)))
            if self.r.random() < .15:
                self.look(test, where)
        for A, a in self.held:
            test.assertEqual(A.to_dict(), a, 'sequence %d, at its end' % seed)


class Random(unittest.TestCase):
    def test_random(self):
        first, many = int(os.environ.get('FIRST', '0')), int(os.environ.get('SEQUENCES', '2000'))
        for group in range(first, first + many, GROUP):
            with spmat.Session() as s:
                for seed in range(group, min(group + GROUP, first + many)):
                    Sequence(s, seed).go(self, seed)
                s.run()                                    # jobs whose results nobody holds
                budget = s.budget()
                self.assertEqual((budget.reserved, budget.left + budget.spent), (0, 2 ** 62))
