"""Matrices in row blocks that come by pieces and go out block by block: files, scipy, networkx,
generators of edges."""
import numpy

import bz2
import gzip
import io
import os
import pathlib
import random
import tempfile
import unittest
from unittest import mock

import support
import spmat
import spmat_blocks as blocks
from spmat_blocks import chunked_input

BANNER = support.BANNER.encode()


def entries(seed, nrows, ncols, many):
    random_ = random.Random(seed)
    return {(random_.randrange(nrows),
             random_.randrange(ncols)): random_.randrange(-10 ** 12, 10 ** 12) for _ in range(many)}


def text_of(a, nrows, ncols, order=sorted):
    return BANNER + b'%d %d %d\n' % (nrows, ncols,
                                     len(a)) + b''.join(b'%d %d %d\n' % (i + 1, j + 1, a[i, j])
                                                        for i, j in order(a))


def shuffled(many):
    many = sorted(many)
    random.Random(5).shuffle(many)
    return many


class Files(unittest.TestCase):
    def setUp(self):
        self.one = support.enter(self, spmat.Session())
        self.many = support.enter(self, blocks.Sessions(3))

    def test_read_by_pieces(self):
        """Sorted and in any order, by pieces of a few lines and whole, with numpy where it is
        there."""
        for size in (1, 50, 700, 1 << 23):
            with mock.patch.object(chunked_input, 'PIECE', size), \
                    mock.patch.object(chunked_input, 'ENTRIES', 1 + size // 24):
                for seed, (nrows, ncols, many) in enumerate(((30, 20, 200), (1, 50, 30), (2, 1, 2),
                                                             (60, 60, 500))):
                    a = entries(seed, nrows, ncols, many)
                    for order in (sorted, shuffled):
                        text = text_of(a, nrows, ncols, order)
                        X = self.many.mmread(io.BytesIO(text))
                        self.assertEqual(X.to_text(), self.one.from_text(text).to_text())
                        self.assertEqual(X.cut.blocks, 3)

    def test_what_one_session_reads(self):
        """The forms of files that `Session.mmread` reads."""
        for text in (
            b'%%MatrixMarket matrix coordinate pattern symmetric\n% a comment\n\n3 3 3\n1 1\n3 '
            b'1\n% and another\n2 1\n',
            b'%%MatrixMarket matrix coordinate real general\n3 4 2\n1 2 3.0\n3 4 -1e3\n',
            b'%%MatrixMarket matrix coordinate integer skew-symmetric\n3 3 2\n2 1 5\n3 2 -7',
            b'%%MatrixMarket matrix array integer general\n2 3\n1\n2\n3\n4\n5\n6\n',
            b'%%MatrixMarket matrix array real symmetric\n2 2\n1\n2\n3\n',
            b'\xef\xbb\xbf' + BANNER + b'2 2 1\r\n1 2 +3\r\n', BANNER + b'0 0 0\n',
            BANNER + b'5 0 0\n'):
            for size in (1, 1 << 23):
                with mock.patch.object(chunked_input, 'PIECE', size), \
                        self.subTest(text=text, size=size):
                    self.assertEqual(self.many.mmread(io.BytesIO(text)).to_text(),
                                     self.one.mmread(io.BytesIO(text)).to_text())

    def test_the_line_is_named(self):
        good = b'1 1 5\n2 2 6\n'
        for body, rule, line in ((b'3 3 2\n1 1 5\n4 1 6\n', 'M6', 4),
                                 (b'3 3 2\n1 1 5\n% c\n1 2 x\n', 'M5', 5),
                                 (b'3 3 1\n' + good, 'M10', 4),
                                 (b'3 3 4\n' + good, 'M9', 5), (b'3 3\n', 'M3', 2), (b'', 'M3', 2),
                                 (b'16777217 1 0\n', 'M4', 2),
                                 (b'3 3 1\n1 1\n', 'M5', 3),
                                 (b'3 3 1\n1 1 9223372036854775808\n', 'M7', 3),
                                 (b'3 3 1\n0 1 1\n', 'M6', 3)):
            for size in (1, 1 << 23):
                with mock.patch.object(chunked_input, 'PIECE', size), \
                        self.subTest(body=body, size=size):
                    with self.assertRaises(spmat.Refused) as caught:
                        self.many.mmread(io.BytesIO(BANNER + body))
                    self.assertEqual((caught.exception.rule, caught.exception.at), (rule, line))
        with self.assertRaisesRegex(spmat.Refused, 'M12'):
            self.many.mmread(
                io.BytesIO(b'%%MatrixMarket matrix coordinate integer symmetric\n2 3 0\n'))
        with self.assertRaisesRegex(spmat.TextRefused,
                                    'M8.*line 6 of the text.*first given in line 3'):
            self.many.mmread(io.BytesIO(BANNER + b'3 3 4\n1 1 5\n2 1 5\n3 1 5\n1 1 5\n'),
                             cut=[0, 1, 2, 3])
        with self.assertRaisesRegex(TypeError, 'in binary'):
            self.many.mmread(io.StringIO(support.BANNER + '1 1 0\n'))

    def test_paths(self):
        a = entries(1, 50, 50, 300)
        text = text_of(a, 50, 50)
        with tempfile.TemporaryDirectory() as folder:
            for name, opener in (('a.mtx', open), ('a.mtx.gz', gzip.open), ('a.mtx.bz2', bz2.open)):
                path = os.path.join(folder, name)
                with opener(path, 'wb') as file:
                    file.write(text_of(a, 50, 50, shuffled))
                self.assertEqual(self.many.mmread(path).to_text(), text)
            out = os.path.join(folder, 'out.mtx')
            self.many.mmread(path).mmwrite(out)
            self.assertEqual(pathlib.Path(out).read_bytes(), text)

    def test_written_block_by_block(self):
        """No piece that is written has more than a block's lines, and the file is that of one
        session."""
        written = []

        class Target:
            def write(self, piece):
                written.append(piece)
        text = text_of(entries(1, 50, 50, 300), 50, 50)
        X = self.many.mmread(io.BytesIO(text))
        X.mmwrite(Target())
        self.assertEqual(b''.join(written), text)
        self.assertEqual([piece.count(b'\n') for piece in written],
                         [2, *(counts.nvals for counts in X.blocks.counts())])

    def test_no_more_than_a_block_is_held(self):
        """What is made text at a time, of a file whose entries are counted and cut in three."""
        a = entries(3, 300, 300, 6000)
        seen = []
        written = spmat.extending.write_text
        with mock.patch.object(chunked_input, 'PIECE', 4096), \
                mock.patch.object(chunked_input, 'write_text',
                                  lambda triples: seen.append(len(triples.rows))
                                  or written(triples)):
            X = self.many.mmread(io.BytesIO(text_of(a, 300, 300, shuffled)))
        self.assertEqual(seen[:3], [counts.nvals for counts in X.blocks.counts()])
        self.assertLess(max(seen), len(a) / 3 + 40)

    def test_larger_than_one_session_takes(self):
        """The number of entries, and the bytes of a text, are limited for each block alone."""
        a = entries(4, 90, 90, 800)
        text = text_of(a, 90, 90)
        with mock.patch.multiple(spmat.limits, MOST_SIDE=500, MOST_TEXT=9000):
            X = self.many.mmread(io.BytesIO(text))
            self.assertEqual(X.nvals, len(a))
            with self.assertRaisesRegex(spmat.TooLarge, 'M4'):
                X.to_text()
            out = io.BytesIO()
            X.mmwrite(out)
            self.assertEqual(out.getvalue(), text)
            with self.assertRaisesRegex(spmat.TooLarge, 'entries in block 0 of 1, rows 0 to 89'):
                self.many.mmread(io.BytesIO(text), cut=[0, 90])

    def test_folder(self):
        with tempfile.TemporaryDirectory() as folder, blocks.Sessions(3, folder=folder) as s:
            text = text_of(entries(1, 50, 50, 300), 50, 50)
            X = s.mmread(io.BytesIO(text))
            self.assertEqual(len(os.listdir(folder)), 3)
            self.assertEqual(X.to_text(), text)
            self.assertEqual(X.checkpoint().to_text(), text)
            self.assertEqual(len(os.listdir(folder)), 6)
            path = os.path.join(folder, os.listdir(folder)[0])
            with open(path, 'ab') as file:
                file.write(b' ')
            with self.assertRaisesRegex(ValueError, 'has changed since it was written'):
                text = blocks.row_partition.Stored(b'', 0, path, 0, os.path.getsize(path))
                s.results([s.submit(0, 'a block', blocks.worker_tasks.source, text)], ['a block'])
            s.close()
            self.assertEqual(os.listdir(folder), [])


class Others(unittest.TestCase):
    def setUp(self):
        self.many = support.enter(self, blocks.Sessions(3))

    def test_generator_of_edges(self):
        a = entries(1, 60, 40, 500)
        with mock.patch.object(chunked_input, 'CHUNK', 7):
            for order in (sorted, shuffled):
                X = self.many.from_edges(((i, j, a[i, j]) for i, j in order(a)), 60, 40)
                self.assertEqual(X.to_dict(), a)
            self.assertEqual(self.many.from_edges([], 4, 4).nvals, 0)
            self.assertEqual(self.many.from_edges(iter([(3, 3, 1)]), 4, 4,
                                                  cut=[0, 1, 4]).cut.bounds, (0, 1, 4))
            with self.assertRaisesRegex(ValueError, 'row 4 is not in 0 to 3'):
                self.many.from_edges(iter([(4, 0, 1)]), 4, 4)
            with self.assertRaisesRegex(ValueError, 'a whole number'):
                self.many.from_edges(iter([(1, 0, 1.5)]), 4, 4)

    def test_values_that_share_a_position(self):
        with spmat.Session() as one:
            i, j, x = [3, 0, 3, 3, 1], [1, 1, 1, 1, 0], [9, 1, 2, 3, 4]
            for op in ('plus', 'minus', 'second'):
                self.assertEqual(self.many.from_coo(i, j, x, dup_op=op).to_text(),
                                 one.from_coo(i, j, x, dup_op=op).to_text())
        with self.assertRaisesRegex(spmat.TextRefused, 'M8'):
            self.many.from_coo(i, j, x)

    @support.needs('scipy')
    def test_scipy_and_numpy(self):
        import scipy.sparse
        S = scipy.sparse.random(80, 50, .1, 'csc', dtype=numpy.int64, random_state=3,
                                data_rvs=lambda n: numpy.arange(n) - n // 2)
        X = self.many.from_scipy_sparse(S)
        self.assertEqual((X.to_scipy_sparse() != S).nnz, 0)
        self.assertEqual((X.mxm(X.T).to_scipy_sparse() != S @ S.T).nnz, 0)
        table = numpy.column_stack((S.tocoo().row, S.tocoo().col, numpy.arange(S.nnz) + 1))
        Y = self.many.from_edges(iter([table[:100], table[100:]]), 80, 50)
        self.assertEqual(Y.to_dict(), {(i, j): x for i, j, x in table.tolist()})
        self.assertTrue((Y.to_dense() == Y.to_scipy_sparse().toarray()).all())

    @support.needs('networkx')
    def test_networkx(self):
        import networkx
        graph = networkx.karate_club_graph()
        X = self.many.from_networkx(graph, weight=None)
        self.assertEqual(X.nodes, list(graph))
        self.assertEqual(spmat.algorithms.triangle_count(X),
                         sum(networkx.triangles(graph).values()) // 3)
        self.assertEqual(set(X.to_networkx(directed=False).edges), set(graph.edges))
