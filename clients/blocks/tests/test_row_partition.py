"""Where rows are cut, and matrices that are cut elsewhere."""
import random
import unittest

import spmat
import support  # noqa: F401  # pylint: disable=unused-import  # which finds the program
from block_pairs import Pair, entries
import spmat_blocks as blocks
from spmat_blocks import row_partition
from spmat.io import matrix_text


class Cuts(unittest.TestCase):
    def test_by_entries(self):
        self.assertEqual(row_partition.cut_by_entries([1] * 10, 3).bounds, (0, 3, 7, 10))
        self.assertEqual(row_partition.cut_by_entries([1, 1, 100, 1, 1], 3).bounds, (0, 2, 3, 5))
        self.assertEqual(row_partition.cut_by_entries([0, 0, 9, 0], 4).blocks, 4)
        self.assertEqual(row_partition.cut_by_entries([], 3).bounds, (0, 0, 0, 0))
        for seed in range(200):
            random_ = random.Random(seed)
            counts = [random_.randrange(9) * (random_.random() < .6)
                      for _ in range(random_.randrange(1, 40))]
            count = random_.randrange(1, 9)
            cut = row_partition.cut_by_entries(counts, count)
            row_partition.check_cut(cut.bounds, len(counts))
            self.assertEqual(cut.blocks, count)
            sizes = [sum(counts[first:end]) for first, end in cut.ranges()]
            self.assertLessEqual(max(sizes), sum(counts) / count + max(counts), counts)

    def test_a_matrix_is_cut_by_entries(self):
        with blocks.Sessions(3) as s:
            X = s.from_triples([(0, j, 1) for j in range(50)] + [(i, 0, 1) for i in range(1, 101)],
                               101, 50)
            self.assertEqual([counts.nvals for counts in X.blocks.counts()], [50, 50, 50])

    def test_other_cuts_are_cut_anew(self):
        """Operands and masks that are cut elsewhere."""
        with spmat.Session() as one, blocks.Sessions(3) as many:
            (A, B, K), (X, Y, Z) = Pair(one, many, 'random').sides
            for bounds in ([0, 40], [0, 0, 13, 40, 40], [0, 5, 6, 7, 40], [0, 20, 40],
                           [0, 5, 33, 40], [0, 40, 40, 40]):
                U = Y.recut(bounds)
                self.assertEqual((U.cut.bounds, U.to_text()), (tuple(bounds), B.to_text()))
                before = many.budget().spent
                self.assertEqual(Y.recut(bounds).to_text(), B.to_text())
                self.assertEqual(many.budget().spent, before)                   # no steps
                self.assertEqual(X.ewise_add(U, 'minus').to_text(),
                                 A.ewise_add(B, 'minus').to_text())
                self.assertEqual(U.ewise_mult(X, 'minus').to_text(),
                                 B.ewise_mult(A, 'minus').to_text())
                self.assertEqual(X.dup(mask=~U.S).to_text(), A.dup(mask=~B.S).to_text())
                self.assertEqual(X.mxm(Z.recut([0, 1, 30])).to_text(), A.mxm(K).to_text())
                self.assertEqual(X.update(U, 'plus', U.V).to_text(),
                                 A.update(B, 'plus', B.V).to_text())

    def test_wrong_cuts(self):
        with blocks.Sessions(2) as s:
            X = s.from_triples([(0, 0, 1)], 4, 4)
            for bounds in ([0, 5], [1, 4], [0, 3, 2, 4], [0], [], [4, 0]):
                with self.assertRaisesRegex(ValueError, 'ascends from 0 to the 4 rows'):
                    X.recut(bounds)

    def test_checkpoint(self):
        with blocks.Sessions(3) as s:
            X = s.from_triples([(i, i * 7 % 40, i) for i in range(40)], 40, 40)
            Y = X.ewise_add(X.T, 'plus').checkpoint()
            self.assertEqual(Y.to_text(), X.ewise_add(X.T, 'plus').to_text())
            # a matrix that no job made any more
            self.assertEqual((Y.cut, Y.price), (X.cut, None))


class Texts(unittest.TestCase):
    def test_lines_of(self):
        """Every range of rows of random texts."""
        for seed in range(60):
            random_ = random.Random(seed)
            n = random_.randrange(1, 12)
            a = entries(seed, n, 30, random_.randrange(40))
            lines = [b'%d %d %d\n' % (i + 1, j + 1, a[i, j]) for i, j in sorted(a)]
            text = matrix_text.BANNER + b'%d 30 %d\n' % (n, len(a)) + b''.join(lines)
            for first in range(n + 1):
                for end in range(first, n + 1):
                    want = [line for line, (i, _) in zip(lines, sorted(a)) if first <= i < end]
                    self.assertEqual(row_partition.lines_of(text, first, end),
                                     (b''.join(want), len(want)))
