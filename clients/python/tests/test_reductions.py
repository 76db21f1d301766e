"""Aggregators beside plain models: of rows, of columns and of all entries, with names and units, in
row blocks."""
import random

import pytest

import model
from model import mask_of, some
import spmat_blocks as blocks
from support import OfCells

pytestmark = pytest.mark.slow

AGGREGATORS = {
    'sum': lambda at, v: sum(v), 'prod': lambda at, v: model.fold('times', v),
    'last': lambda at, v: v[-1], 'any_value': lambda at, v: v[0],
    'count': lambda at, v: len(v), 'count_nonzero': lambda at, v: sum(map(bool, v)),
    'count_zero': lambda at, v: v.count(0),
    'exists': lambda at, v: 1, 'all': lambda at, v: int(all(v)),
    'sum_of_squares': lambda at, v: sum(x * x for x in v),
    'first_index': lambda at, v: at[0], 'last_index': lambda at, v: at[-1],
    'argmin': lambda at, v: at[v.index(min(v))],
    'argmax': lambda at, v: at[v.index(max(v))], 'peak_to_peak': lambda at, v: max(v) - min(v),
    'mean': lambda at, v: round(sum(v) / len(v), 6),
    'min': lambda at, v: min(v), 'first': lambda at, v: v[0]}


class Aggregators(OfCells):
    def compare(self, session, a, nrows, ncols, m):
        A, M = self.made(a, nrows, ncols, session), self.made(m, nrows, 1, session)
        for name, found in AGGREGATORS.items():
            for kind in ('none', 'S', '~V'):
                lines = {i: ([j for r, j in sorted(a) if r == i],
                             [a[at] for at in sorted(a) if at[0] == i])
                         for i in {at[0] for at in a}}
                mask, inside = mask_of(M, m, kind)
                with self.subTest(aggregator=name, mask=kind, a=a):
                    got = A.reduce_rowwise(name, mask=mask)
                    want = [(i, 0, found(*line)) for i, line in sorted(lines.items())
                            if inside((i, 0))]
                    self.assertEqual((got.shape, got.to_edgelist()), ((nrows, 1), want))
            lines = {j: ([i for i, c in sorted(a) if c == j],
                         [a[at] for at in sorted(a) if at[1] == j]) for j in {at[1] for at in a}}
            with self.subTest(aggregator=name, a=a, axis='columns'):
                got = A.reduce_columnwise(name)
                self.assertEqual((got.shape, got.to_edgelist()),
                                 ((1, ncols),
                                  [(0, j, found(*line)) for j, line in sorted(lines.items())]))

    def test_of_rows_and_columns(self):
        for seed in range(3):
            random_ = random.Random(seed)
            self.compare(None, some(random_, 5, 4), 5, 4, some(random_, 5, 1, .6, 0, 2))
        for shape in ((0, 0), (3, 1), (1, 3), (1, 1)):
            self.compare(None, some(random.Random(7), *shape, share=.7), *shape,
                         some(random.Random(8), shape[0], 1))

    def test_in_blocks(self):
        with blocks.Sessions(2) as session:
            self.compare(session, some(random.Random(5), 5, 4), 5, 4,
                         some(random.Random(6), 5, 1, .6, 0, 2))

    def test_of_all(self):
        a = {(0, 1): 4, (1, 0): 0, (1, 2): -3}
        A, values = self.made(a, 2, 3), [4, 0, -3]
        for name, found in AGGREGATORS.items():
            if name in ('argmin', 'argmax', 'first_index', 'last_index'):
                with self.assertRaisesRegex(TypeError, 'is of rows or columns'):
                    A.reduce_scalar(name)
            elif name == 'mean':
                self.assertEqual(A.reduce_scalar(name), sum(values) / 3)
            else:
                self.assertEqual(A.reduce_scalar(name), found(None, values), name)
        empty = self.made({}, 2, 3)
        self.assertEqual([empty.reduce_scalar(name)
                          for name in ('count', 'count_zero', 'mean', 'sum', 'peak_to_peak')],
                         [0, 0, None, None, None])

    def test_names_and_units(self):
        W = self.s.from_edgelist([('a', 'b', 1.25), ('a', 'c', 2.5), ('b', 'c', 4)], scale=100)
        self.assertEqual(W.reduce_rowwise('mean').by_node(), {'a': 1.875, 'b': 4.0})
        self.assertEqual(W.reduce_rowwise('count').by_node(), {'a': 2, 'b': 1})
        self.assertEqual(W.reduce_rowwise('argmax').by_node(), {'a': 'c', 'b': 'c'})
        self.assertEqual(W.reduce_columnwise('argmin').by_node(), {'b': 'a', 'c': 'a'})
        self.assertEqual((W.reduce_scalar('mean'), W.reduce_scalar('mean', raw=True)),
                         (7.75 / 3, 775 / 3))
        huge = self.made({(0, 0): 2 ** 62, (1, 0): 5, (1, 1): 6}, 2, 2).reduce_rowwise('mean')
        # halves to the even number
        self.assertEqual((huge.unit, huge.to_list()), (1, [2 ** 62, 6]))
        with self.assertRaisesRegex(ValueError, 'takes? it as an aggregator'):
            W.ewise_add(W, 'count')
