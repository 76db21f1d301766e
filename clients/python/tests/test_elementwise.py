"""Unions with defaults, and whether two matrices are equal, beside plain models: random small
matrices, masks, units."""
import random

import pytest

import model
import spmat
from model import MASKS, mask_of, some
from support import OfCells

pytestmark = pytest.mark.slow


class Unions(OfCells):
    def test_union(self):
        for seed in range(12):
            random_ = random.Random(seed)
            a, b, m = (some(random_, 4, 3) for _ in range(3))
            op, left, right = random_.choice((('minus', 0, 0), ('times', 5, -2), ('first', 9, 8),
                                              ('second', 9, 8)))
            kind = MASKS[seed % 5]
            mask, inside = mask_of(self.made(m, 4, 3), m, kind)
            want = {at: model.signed(model.BINARY[op](a.get(at, left), b.get(at, right)))
                    for at in {**a, **b} if inside(at)}
            got = self.made(a, 4, 3).ewise_union(self.made(b, 4, 3), op, left, right, mask=mask)
            self.assertEqual(got.to_dict(), want, (seed, op, kind))

    def test_union_of_units(self):
        A, B = self.s.from_coo([0], [0], [1.5], 1, 2,
                               scale=10), self.s.from_coo([0], [1], [2.5], 1, 2, scale=10)
        got = A.ewise_union(B, 'minus', .5, 1.5)
        self.assertEqual((got.unit, got.to_edgelist()), (10, [(0, 0, 0.0), (0, 1, -2.0)]))


class Comparisons(OfCells):
    def test_isclose(self):
        A = self.made({(0, 0): 1000, (1, 1): -5}, 2, 2)
        near = self.made({(0, 0): 1001, (1, 1): -5}, 2, 2)
        self.assertEqual([A.isclose(A), A.isclose(near), A.isclose(near, .001),
                          A.isclose(near, 0, 1), A.isclose(near, 0, .5)],
                         [True, False, True, True, False])
        for other in (self.made({(0, 0): 1000}, 2, 2), self.made({(0, 0): 1000, (1, 0): -5}, 2, 2),
                      self.made({(0, 0): 1000, (1, 1): -5}, 2, 3)):
            self.assertFalse(A.isclose(other, 1, 9))
        ends = self.made({(0, 0): 2 ** 63 - 1}, 1, 1), self.made({(0, 0): -2 ** 63}, 1, 1)
        self.assertFalse(ends[0].isclose(ends[1], .5))           # a difference beyond 64 bits
        self.assertTrue(ends[0].isclose(ends[1], 2))
        self.assertTrue(self.s.from_coo([0], [0], [1.5],
                                        scale=10).isclose(
                                            self.s.from_coo([0], [0], [1.5], scale=1000)))
        with self.assertRaises(TypeError):
            A.isclose(3)
        with self.assertRaises(ValueError):
            A.isclose(A, -1)


class Loops(OfCells):
    """What needs no entries of its own goes in loops that stay at the server."""

    def test_in_a_step(self):
        a, b = some(random.Random(1), 4, 4, .5, 1, 3), some(random.Random(2), 4, 4, .5, 1, 3)
        A, B = self.made(a, 4, 4), self.made(b, 4, 4)

        def step(state):
            now = state.now.ewise_union(state.other, 'minus', 1, 2).assign(7, mask=state.other.S)
            return {'now': now, 'other': state.other.power(2, 'min_plus'),
                    'count': now.reduce_rowwise('count')}
        first = {'now': A, 'other': B, 'count': A.reduce_rowwise('count')}
        loop = spmat.loop(step, first)
        loop.advance(3)
        state = loop.state
        want = spmat.loops.State(first)
        for _ in range(3):
            want = spmat.loops.State(step(want))
        for name in first:
            self.assertTrue(state[name].isequal(want[name]), name)
        with self.assertRaisesRegex(TypeError, 'is to be called before the loop'):
            spmat.loop(lambda state: {'now': state.now.assign(7, [1])}, {'now': A})
