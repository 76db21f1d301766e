"""Parts that are set, beside a plain model: random small matrices, masks, names, and row blocks."""
import random

import pytest

import model
import spmat
from model import MASKS, mask_of, some
import spmat_blocks as blocks
from support import OfCells

pytestmark = pytest.mark.slow


class Assign(OfCells):
    """C<M, accum>(I, J) = B, as the C API says it."""

    @staticmethod
    def model(c, chosen, b, accum, inside, replace):
        rows, columns = chosen
        region = {(i, j) for i in rows for j in columns}
        spread = {(rows[i], columns[j]): value for (i, j), value in b.items()}
        whole = (model.union(c, spread, accum) if accum
                 else {**model.cut(c, lambda at: at not in region), **spread})
        return {**({} if replace else model.cut(c, lambda at: not inside(at))),
                **model.cut(whole, inside)}

    def compare(self, session, random_, nrows, ncols):
        c, m = some(random_, nrows, ncols), some(random_, nrows, ncols, .5, 0, 2)
        rows = random_.choice([None, random_.sample(range(nrows), random_.randint(0, nrows)),
                               slice(0, nrows, 2)])
        columns = random_.choice([None, random_.sample(range(ncols), random_.randint(0, ncols)),
                                  slice(1, ncols)])
        at = tuple(list(range(count)) if index is None else list(range(count))[index]
                   if isinstance(index, slice) else index
                   for index, count in ((rows, nrows), (columns, ncols)))
        accum, kind, replace = random_.choice((None, 'plus', 'minus',
                                               'second')), random_.choice(
                                                   MASKS), random_.random() < .4
        C = self.made(c, nrows, ncols, session)
        mask, inside = mask_of(self.made(m, nrows, ncols, session), m, kind)
        if random_.random() < .4:
            value = random_.randint(-9, 9)
            b = {(i, j): value for i in range(len(at[0])) for j in range(len(at[1]))}
            what = value
            if mask is not None and not mask.complement:
                # a number for each place of the mask alone
                b = {(i, j): value for (i, j) in b if inside((at[0][i], at[1][j]))}
        else:
            b = some(random_, len(at[0]), len(at[1]))
            what = self.made(b, len(at[0]), len(at[1]), session)
        got = C.assign(what, rows, columns, accum=accum, mask=mask, replace=replace)
        with self.subTest(rows=rows, columns=columns, accum=accum, mask=kind, replace=replace,
                          what=what):
            self.assertEqual((got.shape, got.to_dict()),
                             ((nrows, ncols), self.model(c, at, b, accum, inside, replace)))

    def test_random_parts(self):
        for seed in range(60):
            random_ = random.Random(seed)
            self.compare(None, random_, random_.randint(1, 5), random_.randint(1, 5))

    def test_in_blocks(self):
        with blocks.Sessions(2) as session:
            for seed in range(12):
                self.compare(session, random.Random(100 + seed), 5, 4)

    def test_rows_and_columns(self):
        C = self.made({(0, 0): 1, (1, 1): 2, (2, 2): 3}, 3, 3)
        row, column = self.made({(0, 0): 7, (0, 1): 8}, 1,
                                3), self.made({(0, 0): 7, (1, 0): 8}, 3, 1)
        want = {(0, 0): 1, (1, 0): 7, (1, 1): 8, (2, 2): 3}
        self.assertEqual(C.assign(row, 1).to_dict(), want)
        # a column for a row, since vectors are columns
        self.assertEqual(C.assign(column, 1).to_dict(), want)
        self.assertEqual(C.assign(row, columns=1).to_dict(),
                         {(0, 0): 1, (0, 1): 7, (1, 1): 8, (2, 2): 3})
        self.assertEqual(C.assign(9, 1, 2).to_dict(), {**C.to_dict(), (1, 2): 9})
        self.assertEqual(C.assign(9, [0, 2], [0]).to_dict(), {**C.to_dict(), (2, 0): 9, (0, 0): 9})
        self.assertEqual(C.assign(0).to_dict(), {(i, j): 0 for i in range(3) for j in range(3)})
        self.assertEqual(C.assign(4, mask=C.S).to_dict(), dict.fromkeys(C.to_dict(), 4))
        self.assertEqual(C.assign(C.select('valuegt', 9)).nvals, 0)
        self.assertTrue(C.assign(C.apply('ainv'), name='new').name == 'new')
        with self.assertRaisesRegex(spmat.DimensionMismatch,
                                    '2x3 places are set, and the matrix has 3x3'):
            C.assign(C, [0, 1])
        with self.assertRaisesRegex(ValueError, 'the row 1 is given twice'):
            C.assign(3, [1, 1])
        with self.assertRaisesRegex(spmat.DimensionMismatch, 'the mask'):
            C.assign(3, [1], mask=row.S)
        with self.assertRaises(ValueError):
            C.assign(.5, [1])

    def test_names(self):
        W = self.s.from_edgelist([('a', 'b', 1), ('b', 'c', 2), ('c', 'a', 3)])
        got = W.assign(9, ['a'], ['b', 'c'])
        self.assertEqual((sorted(got.to_edgelist()), got.nodes),
                         ([('a', 'b', 9), ('a', 'c', 9), ('b', 'c', 2), ('c', 'a', 3)],
                          ['a', 'b', 'c']))
        part = W[['b', 'c'], :].apply('ainv')
        got = W.assign(part, ['b', 'c'])
        self.assertEqual((sorted(got.to_edgelist()), got.nodes),
                         ([('a', 'b', 1), ('b', 'c', -2), ('c', 'a', -3)], ['a', 'b', 'c']))
