"""Tiles, beside plain models."""
import random
import warnings

import pytest

import spmat
from model import some
from support import OfCells

pytestmark = pytest.mark.slow


class Tiles(OfCells):
    def test_tiles(self):
        for seed in range(8):
            random_ = random.Random(seed)
            heights, widths = ([random_.randint(0, 3) for _ in range(random_.randint(1, 3))]
                               for _ in range(2))
            nrows, ncols = sum(heights), sum(widths)
            a = some(random_, nrows, ncols)
            A = self.made(a, nrows, ncols)
            parts = A.split(heights, widths)
            for i, height in enumerate(heights):
                for j, width in enumerate(widths):
                    top, left = sum(heights[:i]), sum(widths[:j])
                    want = {(r - top, c - left): x for (r, c), x in a.items()
                            if top <= r < top + height and left <= c < left + width}
                    self.assertEqual((parts[i][j].shape, parts[i][j].to_dict()),
                                     ((height, width), want))
            self.assertTrue(spmat.concat(parts).isequal(A))
        A = self.s.full(5, 3)
        self.assertEqual([[tile.shape for tile in row] for row in A.split(2)],
                         [[(2, 3)], [(2, 3)], [(1, 3)]])
        self.assertEqual([tile.shape for tile in A.split([5], 2)[0]], [(5, 2), (5, 1)])
        B = spmat.concat([[A, None], [None, A.T]])
        self.assertEqual((B.shape, B.nvals), ((8, 8), 30))
        for call, kind, words in ((lambda: A.split([2, 2]), ValueError,
                                   '2 and 2 rows are 4 together, and there are 5'),
                                  (lambda: A.split(0), ValueError, '1 row or more'),
                                  (lambda: A.split([6, -1]), ValueError, 'together'),
                                  (lambda: spmat.concat([A, A]), TypeError,
                                   'a list of rows of matrices'),
                                  (lambda: spmat.concat([]), TypeError, 'rows'),
                                  (lambda: spmat.concat([[A], [A, A]]), ValueError,
                                   'rows of 1 and 2 tiles'),
                                  (lambda: spmat.concat([[A, A.T]]), spmat.DimensionMismatch,
                                   'row 0 have 3 and 5 rows'),
                                  (lambda: spmat.concat([[A, None], [A, None]]), ValueError,
                                   'column 1 of tiles has None alone')):
            with self.assertRaisesRegex(kind, words):
                call()

    def test_tiles_of_names(self):
        W = self.s.from_edgelist([('a', 'b', 1), ('b', 'c', 2), ('c', 'a', 3)])
        parts = W.split([1, 2], [2, 1])
        self.assertEqual((parts[1][0].row_nodes, parts[1][0].column_nodes),
                         (['b', 'c'], ['a', 'b']))
        self.assertEqual((spmat.concat(parts).to_edgelist(), spmat.concat(parts).nodes),
                         (W.to_edgelist(), ['a', 'b', 'c']))
        with self.assertWarnsRegex(UserWarning, "rows .* have no names, since 'a' stands in several"):
            twice = spmat.concat([[W], [W]])
        self.assertEqual((twice.row_nodes, twice.column_nodes, twice.nvals),
                         (None, ['a', 'b', 'c'], 6))
        with self.assertWarnsRegex(UserWarning, 'columns .* those of some tiles have none'):
            beside = spmat.concat([[W, self.s.from_triples([(0, 0, 1)], 3, 1, nodes=W.nodes)]])
        self.assertEqual((beside.row_nodes, beside.column_nodes), (['a', 'b', 'c'], None))
        with warnings.catch_warnings():
            warnings.simplefilter('error')
            unnamed = self.s.full(3, 3)
            self.assertIsNone(spmat.concat([[unnamed], [unnamed]]).row_nodes)
        V = self.s.from_edgelist([('x', 'y', 1), ('y', 'z', 2)])
        with self.assertRaisesRegex(ValueError,
                                    'the rows of the tiles of row 0 have different names'):
            spmat.concat([[W, V]])
