"""Values and parts in brackets, single values, diagonals, sizes and shapes, beside plain models."""
import itertools
import random

import pytest

import model
import spmat
from model import some
from support import InSession, OfCells

pytestmark = pytest.mark.slow


class Brackets(InSession):
    @classmethod
    def setUpClass(cls):
        super().setUpClass()
        cls.G = cls.s.from_triples([(i, j, 10 * i + j) for i in range(4) for j in range(5)
                                    if (i + j) % 3])
        cls.want = cls.G.to_dict()

    def test_values(self):
        for i in range(4):
            for j in range(5):
                self.assertEqual(self.G[i, j], self.want.get((i, j)))

    def test_parts(self):
        for rows, columns in ((slice(None), 2), (1, slice(None)), ([2, 0], slice(None)),
                              (slice(1, 3), [4, 0, 4]), (slice(None, None, 2), slice(-2, None)),
                              ([], []), (range(2), [3]), (slice(None), slice(None))):
            part = self.G[rows, columns]
            i = ([rows] if isinstance(rows, int) else list(range(4))[rows]
                 if isinstance(rows, slice) else list(rows))
            j = ([columns] if isinstance(columns, int) else list(range(5))[columns]
                 if isinstance(columns, slice) else list(columns))
            want = {(a, b): self.want[x, y] for a, x in enumerate(i) for b, y in enumerate(j)
                    if (x, y) in self.want}
            self.assertEqual((part.shape, part.to_dict()), ((len(i), len(j)), want))

    def test_names(self):
        G = self.s.from_triples([(0, 1, 5), (1, 2, 7)], 3, 3)
        G.nodes = ['ann', 'bob', 'cid']
        self.assertEqual((G['ann', 'bob'], G['bob', 'ann']), (5, None))
        self.assertEqual(G['bob', :].by_node(), {'cid': 7})
        self.assertEqual(G[:, 'bob'].by_node(), {'ann': 5})
        self.assertEqual(G[['cid', 'bob'], ['cid']].to_edgelist(), [('bob', 'cid', 7)])

    def test_jobs(self):
        before = self.s.jobs, self.s.runs
        self.assertEqual(self.G[1, 3], 13)
        self.assertEqual((self.s.jobs, self.s.runs), (before[0] + 1, before[1] + 1))
        self.G[[1, 2], :].wait()
        self.assertEqual((self.s.jobs, self.s.runs), (before[0] + 2, before[1] + 2))

    def test_wrong(self):
        for kind, at in ((TypeError, 1), (TypeError, (1, 2, 3)), (ValueError, (4, 0)),
                         (ValueError, (0, 5)), (ValueError, ('x', 0)),
                         (ValueError, ([0, 9], 0))):
            with self.assertRaises(kind):
                self.G[at]


class Values(OfCells):
    def test_get(self):
        W = self.s.from_edgelist([('a', 'b', 1), ('b', 'c', 0)])
        self.assertEqual([W.get('a', 'b'), W.get('b', 'c', 7), W.get('a', 'c'), W.get('a', 'c', 7),
                          W.get('a', 'c', default=0)], [1, 0, None, 7, 0])
        column = W.reduce_rowwise()
        self.assertEqual([column.get('a'), column.get('c'), column.get('c', default=-1),
                          column.T.get('b'), column.T.get('c', default=5)],
                         [1, None, -1, 0, 5])
        with self.assertRaisesRegex(TypeError, 'is of two, and this is 3x3'):
            W.get('a')
        with self.assertRaisesRegex(TypeError, 'get is of one entry'):
            W.get(['a', 'b'], 'c')
        with self.assertRaisesRegex(ValueError, 'no vertex'):
            W.get('a', 'nobody', 0)
        A = self.s.from_coo([0], [0], [1.25], 2, 2, scale=100)
        self.assertEqual(A.get(0, 0, 0), 1.25)


class Diagonals(OfCells):
    def test_diagonals(self):
        for shape in ((4, 4), (3, 5), (5, 3), (2, 2)):
            a = some(random.Random(sum(shape)), *shape, share=.6)
            A = self.made(a, *shape)
            for k in range(-6, 7):
                length = max(0, min(shape[0] + min(k, 0), shape[1] - max(k, 0)))
                want = {(p, 0): a[p + max(-k, 0), p + max(k, 0)] for p in range(length)
                        if (p + max(-k, 0), p + max(k, 0)) in a}
                got = A.diag(k)
                self.assertEqual(got.to_dict(), want, (shape, k))
                if k:
                    self.assertEqual(got.shape, (length, 1))
        v = {(0, 0): 5, (2, 0): -1}
        for column in (self.made(v, 3, 1), self.made({(0, i): x for (i, _), x in v.items()}, 1, 3)):
            for k in (-2, 0, 1):
                got = column.diag(k)
                self.assertEqual((got.shape, got.to_dict()),
                                 ((3 + abs(k),) * 2,
                                  {(i + max(-k, 0), i + max(k, 0)): x for (i, _), x in v.items()}))
        for k in (1 << 24, (1 << 63) - 1, 1 << 63, -1 << 63, 1 << 70):
            with self.assertRaisesRegex(spmat.TooLarge, 'nrows is %d$' % (3 + abs(k))):
                self.made(v, 3, 1).diag(k)
        W = self.s.from_edgelist([('a', 'a', 2), ('a', 'b', 3)])
        self.assertEqual((W.diag().by_node(), W.diag().diag().nodes, W.diag(1).nodes),
                         ({'a': 2}, ['a', 'b'], None))

    def test_sizes(self):
        a = some(random.Random(9), 3, 4)
        A = self.made(a, 3, 4)
        for nrows, ncols in itertools.product((0, 2, 3, 5), (0, 3, 4, 6)):
            got = A.resize(nrows, ncols)
            self.assertEqual((got.shape, got.to_dict()),
                             ((nrows, ncols),
                              model.cut(a, lambda at: at[0] < nrows and at[1] < ncols)))
        for nrows, ncols in ((3, 4), (4, 3), (1, 12), (12, 1), (2, 6), (-1, 6), (2, -1)):
            shape = (nrows if nrows > 0 else 12 // ncols, ncols if ncols > 0 else 12 // nrows)
            for order in ('rowwise', 'columnwise', 'C', 'F'):
                got = A.reshape(nrows, ncols, order)
                by_rows = order in ('rowwise', 'C')
                at = {i * 4 + j if by_rows else j * 3 + i: x for (i, j), x in a.items()}
                want = {(divmod(p, shape[1]) if by_rows else divmod(p, shape[0])[::-1]): x
                        for p, x in at.items()}
                self.assertEqual((got.shape, got.to_dict()), (shape, want))
        for call, words in ((lambda: A.reshape(5, 2), '3x4 has 12 places, and 5x2 has 10'),
                            (lambda: A.reshape(-1, 5), 'places')):
            with self.assertRaisesRegex(spmat.DimensionMismatch, words):
                call()
        with self.assertRaisesRegex(ValueError, 'rowwise'):
            A.reshape(4, 3, 'Z')
        W = self.s.from_edgelist([('a', 'b', 1), ('b', 'c', 2)])
        self.assertEqual((W.resize(2, 3).row_nodes, W.resize(5, 3).row_nodes,
                          W.resize(5, 3).column_nodes), (['a', 'b'], None, ['a', 'b', 'c']))
        self.assertEqual(self.made({}, 0, 3).reshape(3, 0).shape, (3, 0))
