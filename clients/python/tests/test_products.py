"""Powers, Kronecker products and semirings of positions, beside plain models."""
import itertools
import random

import numpy
import pytest

import model
import spmat
from model import some
import spmat_blocks as blocks
from support import OfCells

pytestmark = pytest.mark.slow


class Products(OfCells):
    def test_kronecker(self):
        for seed in range(8):
            random_ = random.Random(seed)
            shape, other = [(random_.randint(0, 3), random_.randint(1, 3)) for _ in range(2)]
            a, b = some(random_, *shape), some(random_, *other)
            for op in ('times', 'minus', 'second'):
                got = self.made(a, *shape).kronecker(self.made(b, *other), op)
                want = {(i * other[0] + k, j * other[1] + l): model.signed(model.BINARY[op](x, y))
                        for (i, j), x in a.items() for (k, l), y in b.items()}
                self.assertEqual((got.shape, got.to_dict()),
                                 ((shape[0] * other[0], shape[1] * other[1]), want))
        W, V = self.s.from_edgelist([('a', 'b', 2)]), self.s.from_edgelist([('x', 'y', 3)])
        self.assertEqual(W.kronecker(V).to_edgelist(), [(('a', 'x'), ('b', 'y'), 6)])
        self.assertIsNone(W.kronecker(self.made({(0, 1): 3}, 2, 2)).nodes)
        with self.assertRaises(TypeError):
            W.kronecker(3)
        big = self.s.full(1, 5000)
        with self.assertRaisesRegex(spmat.TooLarge, '25000000 entries'):
            big.kronecker(big)

    def test_kronecker_and_power_of_numpy(self):
        r = numpy.random.default_rng(1)
        a, b = r.integers(-3, 4, (3, 4)), r.integers(-3, 4, (2, 3))
        self.assertTrue((self.s.from_dense(a).kronecker(self.s.from_dense(b)).to_dense()
                         == numpy.kron(a, b)).all())
        square = r.integers(-3, 4, (4, 4))
        for n in range(9):
            self.assertTrue((self.s.from_dense(square, 0).power(n).to_dense()
                             == numpy.linalg.matrix_power(square, n)).all(), n)

    def test_power(self):
        a = some(random.Random(2), 4, 4, .4, 1, 4)
        A, want = self.made(a, 4, 4), a
        for n in range(1, 7):
            self.assertEqual(A.power(n, 'min_plus').to_dict(), want, n)
            want = model.product(want, a, 'min', 'plus')
        self.assertEqual(A.power(0, 'min_plus').to_dict(), {(i, i): 0 for i in range(4)})
        self.assertEqual(A.power(3, 'min_plus').nvals,
                         A.mxm(A, 'min_plus').mxm(A, 'min_plus').nvals)
        W = self.s.from_edgelist([('a', 'b', 2), ('b', 'a', 3)])
        self.assertEqual((W.power(2).to_edgelist(), W.power(0).nodes),
                         ([('a', 'a', 6), ('b', 'b', 6)], ['a', 'b']))
        for call, kind, words in ((lambda: A.power(-1), ValueError, '0 or more, not -1'),
                                  (lambda: A.power(.5), ValueError, 'whole'),
                                  (lambda: A.power(0, 'max_times'), ValueError,
                                   'powers are 1 or more'),
                                  (lambda: self.s.full(2, 3).power(2), spmat.DimensionMismatch,
                                   'square')):
            with self.assertRaisesRegex(kind, words):
                call()

    def test_positions(self):
        a, b, m = some(random.Random(3), 4, 5), some(random.Random(4), 5,
                                                     3), some(random.Random(5), 4, 3, .5)
        A, B, M = self.made(a, 4, 5), self.made(b, 5, 3), self.made(m, 4, 3)
        places = {'firsti': lambda i, k, j: i, 'firstj': lambda i, k, j: k,
                  'secondi': lambda i, k, j: k, 'secondj': lambda i, k, j: j}
        for (name, place), shift, add in itertools.product(places.items(), (0, 1),
                                                           ('any', 'min', 'max', 'plus')):
            terms = {}
            for (i, k), (l, j) in itertools.product(sorted(a), sorted(b)):
                if k == l:
                    terms.setdefault((i, j), []).append(place(i, k, j) + shift)
            fold = {'any': lambda many: many[0], 'min': min, 'max': max, 'plus': sum}[add]
            op = '%s_%s%s' % (add, name, '1' * shift)
            self.assertEqual(A.mxm(B, op).to_dict(), {at: fold(many) for at, many in terms.items()},
                             op)
            self.assertEqual(A.mxm(B, (add, name + '1' * shift), mask=M.S).to_dict(),
                             {at: fold(many) for at, many in terms.items() if at in m}, op)
        front = self.made({(0, 1): 1, (0, 3): 1}, 1, 5)
        self.assertEqual(front.vxm(B, 'min_secondi').to_dict(),
                         model.folded('min', self._parents(front.to_dict(), b)))
        self.assertEqual(A.mxv(self.made({(1, 0): 9, (3, 0): 9}, 5, 1), 'any_secondi').to_dict(),
                         {(i, 0): min(k for k in (1, 3) if (i, k) in a) for i in range(4)
                          if (i, 1) in a or (i, 3) in a})
        with self.assertRaises(spmat.DimensionMismatch):
            A.mxm(A, 'any_secondi')
        with self.assertRaisesRegex(ValueError, 'any_firsti'):
            A.ewise_mult(A, 'firsti')
        with blocks.Sessions(2) as many:
            X, Y = self.made(a, 4, 5, many), self.made(b, 5, 3, many)
            self.assertEqual(X.mxm(Y, 'max_secondi1').to_dict(), A.mxm(B, 'max_secondi1').to_dict())

    @staticmethod
    def _parents(front, b):
        terms = {}
        for _, k in sorted(front):
            for (l, j) in sorted(b):
                if k == l:
                    terms.setdefault((0, j), []).append(k)
        return terms
