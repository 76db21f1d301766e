"""Numbers out of matrix text, and texts that are shorter than they could be."""
import random
import unittest

import numpy

import spmat
import spmat_blocks as blocks
from spmat.io import matrix_text
from support import InSession


class Numbers(unittest.TestCase):
    def test_lines(self):
        """Every length and both signs."""
        random_ = random.Random(3)
        ends = [0, 9, 10, 99999999, 100000000, 10 ** 16 - 1, 10 ** 16, 10 ** 17 + 1, 2 ** 63 - 1,
                -2 ** 63, -1, -10 ** 8, -99999999]
        for many in (0, 1, 5, 2000):
            made = [(random_.randrange(1, 1 << random_.randrange(1, 25)),
                     random_.randrange(1, 1 << 24), random_.choice(ends) if k % 7 == 0
                     else random_.randrange(-1 << random_.randrange(1, 63), 1 << 40))
                    for k in range(many)]
            got = matrix_text.read_any_lines(b''.join(b'%d %d %d\n' % line for line in made))
            self.assertEqual((list(map(tuple, got.tolist())), got.dtype), (made, numpy.int64))
        self.assertEqual(matrix_text.read_lines(b'1 2\n3 4\n', 2).tolist(), [[1, 2], [3, 4]])

    def test_other_lines(self):
        for lines in (b'1 2\n', b'1 2 9223372036854775808\n', b'1 2 -9223372036854775809\n',
                      b'1 2 3\n4\n'):
            with self.assertRaises(ValueError):
                matrix_text.read_any_lines(lines)


class Loading(InSession):
    """Texts that are shorter: without values where each is 1, and with one triangle where the
    caller says that the other is alike."""

    def kinds(self):
        return list, numpy.array

    def test_ones(self):
        for kind in self.kinds():
            rows, columns = kind([0, 3, 1]), kind([4, 0, 1])
            for values, bare in ((1, True), (kind([1, 1, 1]), True), (kind([1, 2, 1]), False),
                                 (kind([-1, 1, 1]), False)):
                A = self.s.from_coo(rows, columns, values, 5, 5)
                want = [1, 1, 1] if bare else list(values)
                self.assertEqual(A.to_dict(),
                                 {(int(i), int(j)): int(v) for i, j, v in zip(rows, columns, want)})
            self.assertIn(b'pattern',
                          matrix_text.write(matrix_text.Triples(rows, columns, kind([1, 1, 1]), 5,
                                                                5), ones=True))
            self.assertNotIn(b'pattern',
                             matrix_text.write(matrix_text.Triples(rows, columns, kind([1, 1, 1]),
                                                                   5, 5)))
            self.assertNotIn(b'pattern',
                             matrix_text.write(matrix_text.Triples(rows, columns, kind([1, 1, 0]),
                                                                   5, 5), ones=True))

    def test_symmetric(self):
        want = {(0, 1): 5, (1, 0): 5, (3, 2): -6, (2, 3): -6, (4, 4): 7}
        for kind in self.kinds():
            A = self.s.from_coo(kind([0, 3, 4]), kind([1, 2, 4]), kind([5, -6, 7]), symmetric=True)
            self.assertEqual((A.shape, A.to_dict(), A.directed), ((5, 5), want, False))
            ones = self.s.from_coo(kind([0, 3, 4]), kind([1, 2, 4]), 1, 6, 6, symmetric=True)
            self.assertEqual(ones.to_dict(), dict.fromkeys(want, 1))
            with self.assertRaises(spmat.TextRefused) as said:
                self.s.from_coo(kind([0, 3, 1]), kind([1, 2, 0]), kind([5, -6, 7]), symmetric=True)
            self.assertIn('row 1, column 0 is given as entry 0 and as entry 2', str(said.exception))
        with self.assertRaisesRegex(ValueError,
                                    'symmetric=True is of a square matrix, not of 2 rows and 3 '
                                    'columns'):
            self.s.from_coo([0], [1], 1, 2, 3, symmetric=True)
        with blocks.Sessions(2) as many:
            self.assertEqual(many.from_coo([0, 3, 4], [1, 2, 4], [5, -6, 7],
                                           symmetric=True).to_dict(), want)
