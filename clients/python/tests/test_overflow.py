"""64 bits: values wrap there, whether they have a unit or not; lists that are folded while they are
read are checked; means don't wrap."""
import io
import random
import warnings
from fractions import Fraction

import support
import spmat
import spmat_blocks as blocks

LEAST, MOST = -2 ** 63, 2 ** 63 - 1


class Jobs(support.InSession):
    def test_decimals_wrap_as_whole_numbers_do(self):
        """Without a word, and without a job that asks for values."""
        stored = [5 * 10 ** 18, 7, 5 * 10 ** 18, -3]
        for unit in (1, 100):
            A = self.s.from_coo([0, 0, 1, 1], [0, 1, 0, 1], stored)
            A.unit = unit
            before = self.s.jobs
            with warnings.catch_warnings():
                warnings.simplefilter('error')
                found = [A.ewise_add(A), A.apply('times', right=2), A.mxm(A),
                         A.reduce_columnwise()]
            self.assertEqual(self.s.jobs - before, 4)
            self.assertEqual(found[0].to_coo(arrays=False)[2],
                             [10 ** 19 - 2 ** 64, 14, 10 ** 19 - 2 ** 64, -6])
            self.assertEqual(found[1].to_dict(), found[0].to_dict())
            self.assertEqual(found[3].to_list(), [10 ** 19 - 2 ** 64, 4])

    def test_loops_wrap(self):
        x = self.s.from_coo([0], [0], [MOST // 3])
        x.unit = 100
        loop = spmat.loop(lambda s: {'x': s.x.ewise_add(s.x)}, {'x': x})
        loop.advance(3)
        self.assertEqual(loop.state.x.to_list(), [(MOST // 3 * 8 + 2 ** 63) % 2 ** 64 - 2 ** 63])

    def test_repeated_edges(self):
        edges = [('A', 'B', 5e16), ('A', 'B', 5e16), ('B', 'A', 1)]
        with blocks.Sessions(2) as many:
            for session in (self.s, many):
                with self.assertRaisesRegex(ValueError,
                                            'row 0, column 1 make a number beyond 64 bits'):
                    session.from_edgelist(edges, scale=100, dup_op='plus')
                with self.assertRaisesRegex(ValueError, 'beyond 64 bits'):
                    session.from_coo([0, 0], [0, 0], [5e16, 5e16], scale=100, dup_op='plus')
                self.assertEqual(session.from_edgelist(edges, scale=10,
                                                       dup_op='plus').to_edgelist(),
                                 [('A', 'B', 1e17), ('B', 'A', 1.0)])
        market = b'%%MatrixMarket matrix coordinate real general\n1 1 2\n1 1 5e16\n1 1 5e16\n'
        with self.assertRaisesRegex(ValueError, 'beyond 64 bits'):
            self.s.mmread(io.BytesIO(market), scale=100, dup_op='plus')


class Means(support.InSession):
    def test_means_do_not_wrap(self):
        A = self.s.from_coo([0, 0, 1], [0, 1, 1], [2 ** 62, 2 ** 62, 3])
        self.assertEqual(A.reduce_rowwise('mean').by_node(), {0: 2 ** 62, 1: 3})
        self.assertEqual(A.reduce_columnwise('mean').by_node(), {0: 2 ** 62, 1: 2 ** 61 + 2})
        self.assertEqual(A.reduce_scalar('mean'), float(Fraction(2 ** 63 + 3, 3)))
        self.assertIsNone(self.s.from_coo([], [], [], 2, 2).reduce_scalar('mean'))

    def test_random_means(self):
        chance = random.Random(9)
        with blocks.Sessions(2) as many:
            for session, unit in ((self.s, 1), (self.s, 100), (many, 1)):
                for _ in range(6):
                    stored = [chance.choice((MOST, LEAST, 2 ** 62, -2 ** 62,
                                             chance.randrange(LEAST, MOST),
                                             chance.randrange(-9, 9))) for _ in range(15)]
                    A = session.from_coo([k // 5 for k in range(15)], [k % 5 for k in range(15)],
                                         stored)
                    A.unit = unit
                    for found, rows in ((A.reduce_rowwise('mean'),
                                         [stored[5 * i:5 * i + 5] for i in range(3)]),
                                        (A.reduce_columnwise('mean'),
                                         [stored[j::5] for j in range(5)])):
                        apart = [abs(Fraction(x) / found.unit - Fraction(sum(row), len(row)) / unit)
                                 for x, row in zip(found.to_list(), rows)]
                        self.assertLessEqual(max(apart), Fraction(1, 2) / found.unit)
                    self.assertEqual(A.reduce_scalar('mean'),
                                     float(Fraction(sum(stored), 15) / unit))
