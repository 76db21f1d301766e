"""Vectors: what users of python-graphblas expect of them, on columns and rows that algorithms and
jobs give."""
import pickle

import numpy

import support
import spmat
from spmat import algorithms


class Vectors(support.InSession):
    def setUp(self):
        super().setUp()
        self.G = self.s.from_triples([(0, 1, 4), (1, 0, 4), (1, 2, 6), (2, 1, 6), (3, 3, 1)], 5, 5)
        self.levels = algorithms.bfs_levels(self.G, 0)

    def test_what_a_vector_has(self):
        v = self.levels
        self.assertIsInstance(v, spmat.Vector)
        self.assertIsInstance(v, spmat.Matrix)
        self.assertEqual((v.size, v.shape, v.nvals), (5, (5, 1), 3))
        at, values = v.to_coo()
        self.assertEqual((at.tolist(), values.tolist()), ([0, 1, 2], [0, 1, 2]))
        self.assertEqual(v.to_coo(arrays=False), ([0, 1, 2], [0, 1, 2]))
        self.assertEqual(v.to_dense(-1).tolist(), [0, 1, 2, -1, -1])
        self.assertEqual(v.to_dense(fill_value=7).shape, (5,))
        self.assertEqual((v[2], v[4], v.get(4, default=9), 2 in v, 4 in v),
                         (2, None, 9, True, False))
        self.assertEqual(v.reduce('max'), 2)
        self.assertTrue(repr(v).startswith('<Vector '), repr(v))

    def test_parts(self):
        v = self.levels
        for part, size, values in ((v[1:3], 2, [1, 2]), (v[[2, 0]], 2, [2, 0]),
                                   (v[[True, False, True, False, False]], 2, [0, 2]),
                                   (v[v.V], 5, [None, 1, 2, None, None]),
                                   (v[:], 5, [0, 1, 2, None, None])):
            self.assertIsInstance(part, spmat.Vector)
            self.assertEqual((part.size, part.to_list()), (size, values))
        self.assertEqual((v[1, 0], v[1, :].shape), (1, (1, 1)))

    def test_names(self):
        self.G.nodes = ['a', 'b', 'c', 'd', ('e', 1)]
        v = algorithms.bfs_levels(self.G, 'a')
        self.assertEqual((v['c'], 'd' in v, v[('e', 1)], v['b':'c'].by_node()),
                         (2, False, None, {'b': 1, 'c': 2}))
        self.assertRaises(ValueError, lambda: v['z'])

    def test_what_jobs_give(self):
        """A job on a vector gives one, where the result is one; other columns are matrices, whose
        entries have two indexes."""
        v, row = self.levels, spmat.Vector(self.s.from_triples([(0, 2, 3)], 1, 5))
        for made in (v.apply('ainv'), v.select('>', 0), v.ewise_add(v), self.G.mxv(v),
                     row.vxm(self.G), v.T, v.without(v.V), row):
            self.assertEqual((type(made), made.size, len(made.to_coo())), (spmat.Vector, 5, 2))
        self.assertEqual([one.tolist() for one in row.to_coo()], [[2], [3]])
        self.assertEqual((row[2], row.to_dense().tolist()), (3, [0, 0, 3, 0, 0]))
        column = self.G.reduce_rowwise('plus')
        self.assertEqual((type(column), len(column.to_coo()), column.to_dense().shape),
                         (spmat.Matrix, 3, (5, 1)))
        self.assertEqual(type(v.mxm(row)), spmat.Matrix)
        self.assertEqual(len(v.entries()), 3)

    def test_old_calls(self):
        v = self.levels
        self.assertEqual(v.to_list(-1), [0, 1, 2, -1, -1])
        self.assertEqual((v.by_node(), v.to_triples()),
                         ({0: 0, 1: 1, 2: 2}, [(0, 0, 0), (1, 0, 1), (2, 0, 2)]))
        self.assertEqual((v.top(1), v.to_dict()[2, 0], v.reduce_scalar('plus')), ([(2, 2)], 2, 3))
        self.assertEqual(v.to_scipy_sparse().shape, (5, 1))
        self.assertEqual([int(x) for x in v.to_csr()[0]], [0, 1, 2, 3, 3, 3])
        self.assertRaises(TypeError, pickle.dumps, v)

    def test_arguments(self):
        """Algorithms take vectors where they take columns, and other results stay what they are,
        with what they know."""
        graph = self.G.select('offdiag')
        found = algorithms.louvain(graph)
        self.assertIsInstance(found, spmat.Vector)
        self.assertEqual(algorithms.modularity(graph, found), found.modularity)
        ranks = algorithms.pagerank(graph)
        self.assertIsInstance(ranks, algorithms.Centrality)
        self.assertAlmostEqual(float(ranks.to_dense(float).sum()), 1, 3)
        hubs, authorities = algorithms.hits(graph)
        self.assertEqual((hubs.size, authorities.size), (5, 5))
        self.assertIs(type(algorithms.undirected(graph)), spmat.Matrix)

    def test_one_vertex(self):
        one = algorithms.bfs_levels(self.s.full(1, 1), 0)
        self.assertEqual((one.size, one[0], one.apply('ainv').to_coo(arrays=False)),
                         (1, 0, ([0], [0])))

    def test_refused(self):
        with self.assertRaisesRegex(spmat.DimensionMismatch,
                                    'a vector is of a column or a row, not of 5x5'):
            spmat.Vector(self.G)
        for call, words in ((len, r'no len\(\): write v\.size'),
                            (list, r'no iteration: write v\.to_list\(\)')):
            with self.assertRaisesRegex(TypeError, 'a vector has ' + words):
                call(self.levels)

    def test_priced(self):
        priced = spmat.price(lambda: algorithms.degrees(self.G))
        self.assertTrue(priced.complete)
        self.assertEqual(self.levels.size, 5)


class InNumpy(support.InSession):
    """A column of n rows beside n numbers: numpy makes n x n of both, in silence, unless one of
    them says no."""

    def setUp(self):
        super().setUp()
        self.G = self.s.from_triples([(0, 1, 4), (1, 0, 4), (1, 2, 6), (2, 1, 6), (3, 3, 1)], 5, 5)
        self.column, self.row = (self.G.reduce_rowwise().to_dense(),
                                 self.G.reduce_columnwise().to_dense())
        self.vector = algorithms.degrees(self.G).to_dense()

    @support.needs('pandas')
    def test_refused(self):
        import pandas
        column, row, vector = self.column, self.row, self.vector
        mine = vector.copy()
        beside = {
            'minus': lambda: column - vector, 'turned': lambda: vector / column,
            'lists': lambda: column + [1, 2, 3, 4, 5],
            'out - in': lambda: column - row, 'eq': lambda: column == vector,
            'eq, turned': lambda: vector == column,
            'ne': lambda: vector != column, 'less': lambda: vector < column,
            'both': lambda: (column > 0) & (vector > 0),
            'where': lambda: numpy.where(column > 0, vector, 0),
            'select': lambda: numpy.select([column > 0], [vector]),
            'isclose': lambda: numpy.allclose(vector, column),
            'maximum': lambda: numpy.maximum(vector, column),
            'series': lambda: pandas.Series(vector) - column,
            'clip': lambda: numpy.clip(vector, 0, column),
            'of a sum': lambda: (2 * column + 1) - vector,
            'of floats': lambda: numpy.log1p(column) - vector,
            'of an integer kind': lambda: column.astype('int32') - vector,
            'of a part': lambda: column[1:] - vector[1:],
            'in place': lambda: mine.__isub__(column),
            'of others': lambda: numpy.where(column > 0, column, 0) - vector}
        for name, call in beside.items():
            with self.subTest(name), \
                    self.assertRaisesRegex(ValueError, r'makes one of \(., .\).*ravel'):
                call()
        self.assertEqual(mine.tolist(), vector.tolist())

    def test_meant(self):
        """What keeps to a shape that one of the arrays has, or says that it wants all pairs, is
        numpy's."""
        column, vector, table = self.column, self.vector, self.G.to_dense()
        flat = numpy.asarray(column)
        for got, want in ((column.ravel() - vector, flat[:, 0] - vector),
                          (column[:, 0] - vector, flat[:, 0] - vector),
                          (table / (column + 1), table / (flat + 1)),
                          (column + column, flat + flat), (column - column.T, flat - flat.T),
                          (numpy.subtract.outer(column[:, 0], vector), flat - vector),
                          (column * 2.5, flat * 2.5),
                          (numpy.outer(column, vector), flat * vector),
                          (column @ self.row, flat @ self.row),
                          (column.mean(axis=0), flat.mean(axis=0)),
                          (divmod(column, 4)[1], flat % 4),
                          (numpy.where(table > 0, column, vector),
                           numpy.where(table > 0, flat, vector))):
            self.assertEqual(numpy.asarray(got).tolist(), want.tolist())
        self.assertTrue((column == flat).all())
        changed = column.copy()
        changed += 1
        self.assertEqual((type(changed), changed.tolist()), (type(column), (flat + 1).tolist()))
        again = pickle.loads(pickle.dumps(column))
        self.assertEqual((type(again), again.tolist()), (numpy.ndarray, flat.tolist()))
        self.assertEqual({type(one) for one in (vector, table, self.row,
                                                self.s.full(1, 1).to_dense())}, {numpy.ndarray})

    def test_vectors_are_flat(self):
        """And the vector of the same column has one dimension, so nothing is stretched."""
        found = spmat.Vector(self.G.reduce_rowwise()).to_dense() - spmat.Vector(
            self.G.reduce_columnwise()).to_dense()
        self.assertEqual((found.shape, found.tolist()), ((5,), [0] * 5))
