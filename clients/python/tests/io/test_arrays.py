"""numpy, scipy.sparse and networkx, in and out. Each is skipped where its module isn't there."""
import io
import os
import random
import time

import numpy
import pytest

from support import InSession, needs
import spmat
from spmat import library

pytestmark = pytest.mark.slow


class Numpy(InSession):
    def test_there_and_back(self):
        r = numpy.random.default_rng(1)
        for least, most in ((0, 1), (-9, 10), (0, 10 ** 8), (-10 ** 9, 10 ** 12),
                            (-2 ** 63, 2 ** 63 - 1)):
            at = numpy.unique(r.integers(0, 1 << 40, 3000))
            r.shuffle(at)
            rows, columns = at >> 20, at & (1 << 20) - 1
            values = r.integers(least, most, len(at), endpoint=True)
            values[:2] = least, most
            A = self.s.from_coo(rows, columns, values, 1 << 20, 1 << 20)
            order = numpy.argsort(at)
            for got, want in zip(A.to_coo(), (rows, columns, values)):
                self.assertEqual(got.dtype, numpy.int64)
                self.assertTrue((got == want[order]).all())
            self.assertEqual(A.to_triples(),
                             list(zip(*(part[order].tolist() for part in (rows, columns, values)))))
            self.assertTrue(A.isequal(self.s.from_coo(rows.tolist(), columns.tolist(),
                                                      values.tolist(), 1 << 20, 1 << 20)))

    def test_kinds_of_arrays(self):
        s = self.s
        for values in (numpy.array([1, 0, 5], numpy.uint8), numpy.array([1., 0., 5.]),
                       numpy.array([1, 0, 5], object), [1, 0, 5],
                       numpy.array([1, 0, 5], numpy.uint64)):
            self.assertEqual(s.from_coo(numpy.arange(3), [0, 1, 0], values).to_triples(),
                             [(0, 0, 1), (1, 1, 0), (2, 0, 5)])
        self.assertEqual(s.from_coo(numpy.arange(3), numpy.zeros(3), 7).to_triples(),
                         [(0, 0, 7), (1, 0, 7), (2, 0, 7)])
        self.assertEqual(s.from_coo(numpy.array([0]), numpy.array([0]),
                                    numpy.array([True])).to_list(), [1])
        self.assertEqual(s.from_coo([], numpy.array([]), []).shape, (0, 0))
        table = numpy.array([[0, 1, 5], [2, 0, -7]])
        self.assertEqual(s.from_triples(table, 3, 4).to_triples(),
                         [tuple(row) for row in table.tolist()])
        self.assertEqual(s.from_coo([numpy.int32(2)], [numpy.uint8(1)],
                                    [numpy.float32(3)]).to_triples(), [(2, 1, 3)])

    def test_lists_beside_arrays(self):
        """A list with a float in it stays as it is, where numpy would round its whole numbers to
        floats."""
        for values in ([2 ** 53 + 1, 1.0], [1.0, 2 ** 63 - 1], [-2 ** 63, 2.0],
                       (2 ** 53 + 1, numpy.float64(3))):
            A = self.s.from_coo(numpy.arange(2), [0, 0], values, 2, 1)
            self.assertEqual(A.to_list(), [int(value) for value in values])
        for values in ([2 ** 53 + 1, .5], [2 ** 63, -1], [2 ** 64, 1.0], [1.0, float('nan')]):
            with self.assertRaises(ValueError):
                self.s.from_coo(numpy.arange(2), [0, 0], values, 2, 1)
        self.assertEqual(self.s.from_coo(iter([0, 1]), numpy.arange(2),
                                         (k for k in (5, 6))).to_dict(), {(0, 0): 5, (1, 1): 6})

    def test_repeated_entries_are_named(self):
        with self.assertRaises(spmat.TextRefused) as said:
            self.s.from_coo(numpy.array([4, 0, 1, 0]), numpy.array([0, 2, 0, 2]), numpy.arange(4))
        self.assertIn('row 0, column 2 is given as entry 1 and as entry 3', str(said.exception))
        self.assertNotIn('line', str(said.exception))

    def test_wrong_arrays(self):
        s, one = self.s, numpy.array([0])
        before = s.connection.commands
        for kind, value in ((ValueError, .5), (ValueError, 2. ** 63),
                            (ValueError, -2. ** 63 - 2048), (ValueError, numpy.nan),
                            (ValueError, numpy.inf), (ValueError, numpy.uint64(2 ** 63)),
                            (TypeError, 'x'), (TypeError, 1j)):
            with self.assertRaises(kind):
                s.from_coo(one, one, numpy.array([value]))
        for rows, columns, sizes in ((one - 1, one, ()), (one, one - 1, ()), (one + 5, one, (5, 5)),
                                     (one, one + 5, (5, 5)),
                                     (one, numpy.arange(2), ()), (one.reshape(1, 1), one, ())):
            with self.assertRaises(ValueError):
                s.from_coo(rows, columns, 1, *sizes)
        with self.assertRaises(ValueError):
            s.from_dense(numpy.zeros((2, 2, 2)))
        self.assertEqual(s.connection.commands, before)
        with self.assertRaises(ValueError) as said:
            s.from_coo(numpy.arange(4), numpy.arange(4), numpy.array([1, 2, 2.5, 3]))
        self.assertRegex(str(said.exception), r'whole number, not 2\.5.*\(entry 2\)$')

    def test_repeated_positions(self):
        r = random.Random(2)
        for op in ('plus', 'minus', 'second'):
            many = [(r.randrange(5), r.randrange(4), r.randrange(9)) for _ in range(60)]
            rows, columns, values = (numpy.array(part) for part in zip(*many))
            want = self.s.from_triples(many, 5, 4, dup_op=op).to_dict()
            self.assertEqual(self.s.from_coo(rows, columns, values, 5, 4, dup_op=op).to_dict(),
                             want)
        with self.assertRaises(spmat.TextRefused):
            self.s.from_coo(numpy.zeros(2), numpy.zeros(2), 1)

    def test_tables(self):
        table = numpy.array([[1, 0, -3], [0, 5, 0]])
        self.assertTrue((self.s.from_dense(table).to_dense() == table).all())
        self.assertEqual(self.s.from_dense(table, 0).nvals, 3)
        self.assertTrue((self.s.from_dense(table, 0).to_dense(9)
                         == numpy.where(table == 0, 9, table)).all())
        self.assertEqual(self.s.from_dense(numpy.array([4., 5.])).to_triples(),
                         [(0, 0, 4), (1, 0, 5)])

    def test_large_transpose(self):
        at = numpy.unique(numpy.random.default_rng(3).integers(0, 1 << 30, 20000))
        A = self.s.from_coo(at >> 15, at & (1 << 15) - 1, numpy.arange(len(at)), 1 << 15, 1 << 15)
        rows, columns, values = A.to_coo()
        order = numpy.lexsort((rows, columns))
        for got, want in zip(A.T.to_coo(), (columns[order], rows[order], values[order])):
            self.assertTrue((got == want).all())


@needs('scipy')
class Scipy(InSession):
    def test_there_and_back(self):
        import scipy.sparse
        M = scipy.sparse.random(50, 40, .1, random_state=1,
                                data_rvs=lambda n: numpy.arange(n) - 70.)
        for form in ('coo', 'csr', 'csc', 'lil', 'dok', 'bsr'):
            A = self.s.from_scipy_sparse(M.asformat(form))
            self.assertEqual((A.shape, A.nvals), ((50, 40), M.nnz))
            back = A.to_scipy_sparse()
            self.assertEqual((back.format, back.dtype), ('csr', numpy.int64))
            self.assertTrue((back.toarray() == M.toarray()).all())
        self.assertEqual(A.to_scipy_sparse('coo').format, 'coo')

    def test_duplicates_and_the_callers_matrix(self):
        import scipy.sparse
        M = scipy.sparse.coo_matrix(([1, 2, 3], ([0, 0, 1], [1, 1, 0])), (2, 2))
        self.assertEqual(self.s.from_scipy_sparse(M).to_dict(), {(0, 1): 3, (1, 0): 3})
        self.assertEqual(M.nnz, 3)                         # it stays as it was

    def test_values_that_are_not_whole(self):
        import scipy.sparse
        with self.assertRaises(ValueError):
            self.s.from_scipy_sparse(scipy.sparse.coo_matrix([[.5]]))
        with self.assertRaises(TypeError):
            self.s.from_scipy_sparse(scipy.sparse.coo_matrix([[1j]]))

    def test_files(self):
        import scipy.io
        import scipy.sparse
        M = scipy.sparse.random(30, 30, .2, random_state=1,
                                data_rvs=lambda n: numpy.arange(n) - 70.)
        for field, dtype in (('real', float), ('integer', int)):
            M = M.astype(dtype)
            for symmetry, what in (('general', M), ('symmetric', M + M.T),
                                   ('skew-symmetric', M - M.T)):
                for thing in (what.tocoo(), what.toarray()):
                    file = io.BytesIO()
                    scipy.io.mmwrite(file, thing, field=field, symmetry=symmetry)
                    file.seek(0)
                    self.assertTrue((self.s.mmread(file).to_dense() == what.toarray()).all())
        A, file = self.s.from_scipy_sparse(M), io.BytesIO()
        A.mmwrite(file)
        file.seek(0)
        self.assertTrue((scipy.io.mmread(file).toarray() == M.toarray()).all())

    def test_speed(self):
        """A million entries from numpy are there in half the time that scipy.io.mmwrite takes to
        write them: processor time, the server's with it, since on a busy machine nothing can be
        said of the clock's, and the least of three rounds by turns (a third on an idle one)."""
        import scipy.io
        import scipy.sparse
        if library.load() is None:
            self.skipTest('without its library the client writes in more time')
        r = numpy.random.default_rng(1)
        at = numpy.unique(r.integers(0, 1 << 40, 1_000_000))
        rows, columns, values = at >> 20, at & (1 << 20) - 1, r.integers(-1000, 1000, len(at))
        M = scipy.sparse.coo_matrix((values, (rows, columns)), (1 << 20, 1 << 20))
        server = self.s.connection._channel.process.pid

        def spent():
            with open('/proc/%d/stat' % server) as file:
                ticks = file.read().rsplit(')', 1)[1].split()[11:13]
            return time.process_time() + sum(map(int, ticks)) / os.sysconf('SC_CLK_TCK')

        def took(call):
            begun = spent()
            call()
            return spent() - begun
        ours, theirs = zip(*(
            (took(lambda: self.s.from_coo(rows, columns, values, 1 << 20, 1 << 20)),
             took(lambda: scipy.io.mmwrite(io.BytesIO(), M))) for _ in range(3)))
        self.assertLess(2 * min(ours), min(theirs))
