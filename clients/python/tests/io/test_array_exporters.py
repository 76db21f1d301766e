"""Compressed rows and columns, and dicts, out and in again."""
import random

import spmat
from model import some
from support import OfCells, needs


class Forms(OfCells):
    """Compressed rows and columns, and dicts."""

    def test_there_and_back(self):
        for shape in ((0, 0), (3, 0), (0, 2), (1, 4), (4, 5)):
            for seed in range(3):
                a = some(random.Random(seed), *shape)
                A = self.made(a, *shape)
                rows, columns = A.to_csr(), A.to_csc()
                self.assertEqual([len(rows[0]), len(columns[0])], [shape[0] + 1, shape[1] + 1])
                self.assertTrue(self.s.from_csr(*rows, ncols=shape[1]).isequal(A))
                self.assertTrue(self.s.from_csc(*columns, nrows=shape[0]).isequal(A))
                self.assertEqual([list(map(int, rows[0])), list(map(int, columns[0]))],
                                 [[sum(at[axis] < line for at in a)
                                   for line in range(shape[axis] + 1)] for axis in (0, 1)])
                by_rows, by_columns = A.to_dicts(), A.to_dicts('columnwise')
                self.assertEqual({(i, j): x for i, inner in by_rows.items()
                                  for j, x in inner.items()}, a)
                self.assertEqual({(i, j): x for j, inner in by_columns.items()
                                  for i, x in inner.items()}, a)
                self.assertTrue(self.s.from_dicts(by_rows, *shape).isequal(A))
                self.assertTrue(self.s.from_dicts(by_columns, *shape,
                                                  order='columnwise').isequal(A))
        self.assertEqual(self.s.from_csr([0, 1, 1, 3], [2, 0, 1]).to_dict(),
                         {(0, 2): 1, (2, 0): 1, (2, 1): 1})
        self.assertEqual(self.s.from_csr([0, 1], [0], [1.5], scale=10).to_edgelist(), [(0, 0, 1.5)])

    @needs('scipy', 'numpy')
    def test_as_scipy_has_them(self):
        A = self.made(some(random.Random(4), 6, 5), 6, 5)
        for got, want in ((A.to_csr(), A.to_scipy_sparse('csr')),
                          (A.to_csc(), A.to_scipy_sparse('csc'))):
            want.sort_indices()
            for mine, theirs in zip(got, (want.indptr, want.indices, want.data)):
                self.assertEqual(mine.tolist(), theirs.tolist())
        M = A.to_scipy_sparse('csr')
        self.assertTrue(self.s.from_csr(M.indptr, M.indices, M.data, ncols=5).isequal(A))

    def test_what_is_refused(self):
        s = self.s
        for call, kind, words in ((lambda: s.from_csr([0, 2, 1], [0]), ValueError, 'comes after'),
                                  (lambda: s.from_csr([0, 2], [0]), ValueError, 'from 0 to 2'),
                                  (lambda: s.from_csr([1, 1], [0]), ValueError, 'from 1 to 1'),
                                  (lambda: s.from_csr([], []), ValueError, 'over none'),
                                  (lambda: s.from_csr([0, 1], [0], nrows=2), ValueError,
                                   '2 rows are given, and the beginnings are of 1'),
                                  (lambda: s.from_dicts([(0, 1)]), TypeError,
                                   'row: {column: value}'),
                                  (lambda: s.from_dicts({0: 1}), TypeError, 'other things'),
                                  (lambda: s.from_dicts({'a': {'b': 1}}), TypeError,
                                   'from_edgelist'),
                                  (lambda: s.from_dicts({}, order='x'), ValueError, 'rowwise'),
                                  (lambda: s.identity(2).to_dicts('x'), ValueError, 'rowwise'),
                                  (lambda: s.from_csr([0, 2], [1, 1]), spmat.TextRefused,
                                   'given as entry')):
            with self.assertRaisesRegex(kind, words):
                call()
