"""The greatest entries, found by a threshold, beside a sort of all."""
import random
from unittest import mock

import support
import spmat
from spmat import submatrices


class Ranking(support.InSession):
    def holds(self, matrix, entries):
        """The greatest of some numbers of entries, of equals the first; nothing but few entries are
        read for it."""
        for k in (2, 40):
            want = sorted(entries, key=lambda entry: -entry[-1])[:k]
            with mock.patch.object(submatrices, 'FEW', 16):
                few = submatrices.find_greatest(matrix, k)
                self.assertEqual(matrix.top(k),
                                 [(entry[0], entry[2]) if matrix.ncols == 1
                                  else (entry[1], entry[2]) if matrix.nrows == 1 else entry
                                  for entry in want])
            self.assertLessEqual(few.nvals, max(16, 4 * k) if k else matrix.nvals)

    def test_values(self):
        """Values that differ, that are all one, that are few and far apart, or reach to both ends
        of a word; matrices, columns and rows."""
        chance = random.Random(3)
        for values in (range(1000), [5], [-1 << 63, (1 << 63) - 1, 0]):
            for rows, columns in ((40, 30), (400, 1), (1, 400), (2, 700)):
                places = sorted({(chance.randrange(rows), chance.randrange(columns))
                                 for _ in range(500)})
                entries = [(i, j, chance.choice(values)) for i, j in places]
                self.holds(self.s.from_triples(entries, rows, columns), entries)

    def test_few(self):
        """Few entries are read as they are, without a job."""
        column = self.s.from_coo([0, 2], [0, 0], [4, 9], 3, 1)
        jobs = self.s.jobs
        self.assertEqual(column.top(5), [(2, 9), (0, 4)])
        self.assertEqual(self.s.jobs, jobs)

    def test_names(self):
        column = self.s.full(30, 1)
        column.nodes = ['v%d' % at for at in range(30)]
        with mock.patch.object(submatrices, 'FEW', 4):
            self.assertEqual(column.top(1), [('v0', 1)])

    def test_spent_budget(self):
        """Where the budget has too little left, all entries are read."""
        with spmat.Session(steps=10) as session, mock.patch.object(submatrices, 'FEW', 4):
            self.assertEqual(session.from_coo(range(9), [0] * 9, range(9)).top(2), [(8, 8), (7, 7)])

    def test_blocks(self):
        import spmat_blocks as blocks
        with blocks.Sessions(2) as sessions, mock.patch.object(submatrices, 'FEW', 16):
            entries = [(i, i * 7 % 40, i * 31 % 17) for i in range(200)]
            want = sorted(entries, key=lambda entry: -entry[-1])[:5]
            self.assertEqual(sessions.from_triples(entries, 200, 40).top(5), want)
