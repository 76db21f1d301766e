"""What an index means: positions as in numpy, names as in pandas, filters, masks."""
import random
import warnings

import numpy

from support import InSession, needs
import alike
import spmat
import spmat_blocks as blocks

ROWS = ['a', 'b', 'c', 'd', 'e']
EDGES = [('a', 'b', 1), ('b', 'c', 2), ('a', 'c', 10), ('d', 'e', 4), ('e', 'a', 0)]


class Filters(InSession):
    def setUp(self):
        self.W = self.s.from_edgelist(EDGES, nodelist=ROWS)
        # no names
        self.N = self.s.from_triples([(0, 1, 5), (1, 2, 6), (2, 0, 7), (2, 2, 8)], 3, 4)

    def rows(self, part):
        """The entries of a part, and the names of its rows."""
        return part.to_edgelist(), part.row_nodes

    def test_lists_of_truth_values(self):
        W = self.W
        for chosen in ([True, False, False, True, False], [False] * 5, [True] * 5):
            want = [name for name, inside in zip(ROWS, chosen) if inside]
            self.assertEqual(self.rows(W[chosen, :]),
                             ([edge for edge in EDGES_BY_ROW if edge[0] in want], want))
            part = W[:, chosen]
            self.assertEqual((sorted(part.to_edgelist()), part.column_nodes),
                             (sorted(edge for edge in EDGES if edge[1] in want), want))
        self.assertEqual(self.N[[False, False, True], [True, False, True, False]].to_dict(),
                         {(0, 0): 7, (0, 1): 8})

    def test_a_wrong_length_says_both(self):
        for index in ([True], [True] * 4, [False] * 6):
            with self.assertRaisesRegex(IndexError,
                                        'a filter of %d values for 5 rows' % len(index)):
                self.W[index, :]
            with self.assertRaisesRegex(IndexError,
                                        'a filter of %d values for 5 columns' % len(index)):
                self.W[:, index]

    def test_truth_values_among_others(self):
        for index in ([True, 1, 0], [0, True], ['a', False]):
            with self.assertRaisesRegex(TypeError, 'a filter has True or False alone'):
                self.W[index, :]
        for index in (True, False):
            with self.assertRaisesRegex(TypeError, '%s is no row: a filter is a list' % index):
                self.N[index, :]
        with self.assertRaisesRegex(TypeError, 'True is no row'):
            self.s.from_edgelist([(1, 2, 3), (2, 5, 4)])[True, :]
        named = self.s.from_edgelist([(True, 'x', 3)], bipartite=True)
        self.assertEqual(named[True, 'x'], 3)      # where it is a name

    def test_columns_and_masks(self):
        out = self.W.reduce_rowwise('plus')        # a 11, b 2, d 4, e 0
        heavy = out.apply(lambda x: x > 3)
        self.assertEqual(self.W[heavy.V, :].row_nodes, ['a', 'd'])
        self.assertEqual(self.W[out.S, :].row_nodes, ['a', 'b', 'd', 'e'])
        self.assertEqual(self.W[out.V, :].row_nodes, ['a', 'b', 'd'])
        self.assertEqual(self.W[~out.S, :].row_nodes, ['c'])
        self.assertEqual(self.W[~out.V, ~heavy.V].row_nodes, ['c', 'e'])
        self.assertEqual(self.W[:, self.W.reduce_columnwise('plus').V].column_nodes,
                         ['b', 'c', 'e'])
        for column in (out, heavy, heavy.T):       # whatever its values are
            with self.assertRaisesRegex(TypeError,
                                        'could filter them or list them: write c.V for the rows '
                                        'whose value is not 0, c.S'):
                self.W[column, :]
        with self.assertRaisesRegex(IndexError, 'a filter of 3 values for 5 rows'):
            self.W[self.s.from_coo([0, 2], [0, 0], 1, 3, 1).S, :]
        with self.assertRaisesRegex(TypeError, 'by a column or a row, not by a matrix of 5x5'):
            self.W[self.W.S, :]

    def test_columns_align_by_names(self):
        turned = self.s.from_coo(range(5), [0] * 5, [1, 0, 0, 0, 1], 5, 1)
        turned.nodes = ROWS[::-1]                  # e and a
        self.assertEqual(self.W[turned.V, :].row_nodes, ['a', 'e'])
        self.assertEqual(self.W[~turned.V, :].row_nodes, ['b', 'c', 'd'])
        turned.nodes = ['a', 'b', 'c', 'd', 'f']
        with self.assertRaisesRegex(IndexError, "the filter has no vertex 'e'"):
            self.W[turned.V, :]

    def test_matrices_as_masks(self):
        W = self.W
        M = W.select('valuegt', 2)
        self.assertEqual(W[M.S].to_edgelist(), M.to_edgelist())
        self.assertEqual(sorted(W[~W.V].to_edgelist()), [('e', 'a', 0)])
        with self.assertRaisesRegex(TypeError, r'write G\[M.S\]'):
            W[M]
        for wrong in ('a', 0, (0, 1, 2), (), (Ellipsis, Ellipsis)):
            with self.assertRaisesRegex(TypeError, 'an index is two'):
                W[wrong]

    def test_ellipsis_and_none(self):
        W = self.W
        self.assertTrue(W[...].isequal(W))
        self.assertTrue(W[:, :].isequal(W))
        self.assertEqual(W['a', ...].to_edgelist(), W['a', :].to_edgelist())
        self.assertEqual(W[..., 'c'].to_edgelist(), W[:, 'c'].to_edgelist())
        self.assertEqual(W[..., 'a', 'c'], 10)
        for index in (None, (None, 0), (0, None), (slice(None), None)):
            with self.assertRaisesRegex(TypeError, 'None adds a dimension'):
                W[index]


EDGES_BY_ROW = sorted(EDGES)


class Positions(InSession):
    def setUp(self):
        self.N = self.s.from_triples([(i, j, 10 * i + j) for i in range(6) for j in range(4)], 6, 4)

    def values(self, part):
        return [[part.to_dict().get((i, j)) for j in range(part.ncols)] for i in range(part.nrows)]

    def test_slices_as_in_numpy(self):
        want = [[10 * i + j for j in range(4)] for i in range(6)]
        for first in (None, 0, 2, 5, 9, -1, -3, -9):
            for last in (None, 0, 3, 6, 9, -1, -2):
                for step in (None, 1, 2, -1, -2):
                    cut = slice(first, last, step)
                    self.assertEqual(self.values(self.N[cut, :]), want[cut], cut)
        self.assertEqual(self.values(self.N[1:3, -2:]), [row[-2:] for row in want[1:3]])

    def test_negative_numbers_are_refused(self):
        """Names may be numbers, so -1 isn't the last."""
        for index in (-1, [0, -1], [-6]):
            with self.assertRaisesRegex(ValueError,
                                        r'no vertex -\d: they are 0 to 5; negative numbers '
                                        r'count from the end in slices'):
                self.N[index, :]
        named = self.s.from_edgelist([(-1, 5, 3), (5, 7, 4)])
        self.assertEqual(named[-1, 5], 3)
        self.assertEqual(named[[-1, 5], :].row_nodes, [-1, 5])
        with self.assertRaisesRegex(ValueError, 'no vertex -2'):
            named[-2, :]
        with self.assertRaisesRegex(ValueError, 'no vertex -1'):
            self.s.from_edgelist([('a', 'b')])[-1, :]

    def test_repeated_and_empty(self):
        self.assertEqual(self.values(self.N[[2, 0, 2], :]),
                         [[20, 21, 22, 23], [0, 1, 2, 3], [20, 21, 22, 23]])
        self.assertEqual(self.N[[], :].shape, (0, 4))
        self.assertEqual(self.N[[], []].shape, (0, 0))
        self.assertEqual(self.N[3:3, :].shape, (0, 4))

    def test_names_are_asked_for_once(self):
        """A result would have a name twice, or none: neither comes without a word."""
        W = self.s.from_edgelist([('a', 'b', 1), ('b', 'c', 2)])
        counted = self.s.from_edgelist([(0, 1, 1), (1, 2, 2)])
        for G, many, what in ((W, ['a', 'b', 'a'], 'row'), (W, [0, 1, 0], 'row'),
                              (W, numpy.array(['a', 'a']), 'row'), (counted, [2, 2], 'row'),
                              (W, ['a', 'a'], 'column'), (counted, [2, 2], 'column')):
            with self.subTest(many=many, what=what), \
                    self.assertRaisesRegex(ValueError,
                                           'the %s .* is asked for twice.*dict.fromkeys' % what):
                G[(many, slice(None)) if what == 'row' else (slice(None), many)]
        B = W.dup()
        B.row_nodes = None
        self.assertEqual((B[[0, 0], :].to_edgelist(), B[[0, 0], :].column_nodes),
                         ([(0, 'b', 1), (1, 'b', 1)], ['a', 'b', 'c']))
        self.assertEqual(W[['b', 'a'], :].row_nodes, ['b', 'a'])

    def test_floats_and_other_things(self):
        for index in (1.0, .5, [1.0], [0, 1.5], float('nan')):
            with self.assertRaisesRegex(TypeError,
                                        'is a float, and a row is a name or a whole number'):
                self.N[index, :]
        with self.assertRaisesRegex(TypeError, 'write 1$'):
            self.N[1.0, :]
        named = self.s.from_edgelist([(.5, 1.5, 3), (1.5, 2.0, 4)])
        self.assertEqual(named[.5, 1.5], 3)
        for index in ({0, 1}, {0: 1}, iter([0]), {0: 1}.keys(), frozenset([0])):
            with self.assertRaisesRegex(TypeError, r'not by a \w+: write list\(..\)'):
                self.N[index, :]
        for cut in (slice(0., 2), slice(None, 2.5), slice(True, None)):
            with self.assertRaises(TypeError):
                self.N[cut, :]
        with self.assertRaisesRegex(ValueError, 'no vertex 6'):
            self.N[6, :]

    def test_top(self):
        A = self.s.from_triples([(0, 1, 5), (1, 0, -2)], 2, 2)
        self.assertEqual((A.top(1), A.top(0)), ([(0, 1, 5)], []))
        with self.assertRaisesRegex(ValueError, 'k is 0 or more, not -1'):
            A.top(-1)
        for k in (1.5, '2', None):
            with self.assertRaises((TypeError, ValueError)):
                A.top(k)


class Names(InSession):
    def setUp(self):
        self.W = self.s.from_edgelist(EDGES, nodelist=ROWS)

    def test_slices_take_both_ends(self):
        W = self.W
        for first, last, step, want in (('a', 'b', None, 'ab'), ('b', 'd', None, 'bcd'),
                                        ('c', 'c', None, 'c'), ('d', 'b', None, ''),
                                        (None, 'c', None, 'abc'), ('d', None, None, 'de'),
                                        ('a', 'e', 2, 'ace'), ('d', 'b', -1, 'dcb'),
                                        ('c', 'a', -1, 'cba'), (None, 'a', -2, 'eca'),
                                        ('a', 2, None, 'ab'), (1, 'c', None, 'bc')):
            self.assertEqual(W[first:last:step, :].row_nodes, list(want), (first, last, step))
            self.assertEqual(W[:, first:last:step].column_nodes, list(want), (first, last, step))
        # positions, from the first to before the last
        self.assertEqual(W[1:3, :].row_nodes, ['b', 'c'])
        self.assertEqual(W[-2:, :].row_nodes, ['d', 'e'])
        with self.assertRaisesRegex(ValueError, "no vertex 'x'"):
            W['a':'x', :]

    def test_numbers_as_names(self):
        G = self.s.from_edgelist([(10, 20, 1), (20, 30, 2), (30, 40, 3)])
        self.assertEqual(G[range(10, 31, 10), :].row_nodes, [10, 20, 30])
        self.assertEqual(G[::2, :].row_nodes, [10, 30])
        for cut in (slice(10, 30), slice(None, 20), slice(0, 2), slice(-1, None)):
            with self.assertRaisesRegex(ValueError,
                                        'rows have numbers for names, so that .* in a slice '
                                        'could be a name or a position: .* range'):
                G[cut, :]

    def test_operators_that_count(self):
        """They count from 0, which nobody may take for names from 1."""
        G = self.s.from_edgelist([(1, 2, 1), (2, 3, 2), (3, 1, 3)])
        for op, what in (('rowle', 'rows'), ('rowgt', 'rows'), ('colle', 'columns'),
                         ('colgt', 'columns')):
            with self.assertRaisesRegex(ValueError,
                                        '"%s" counts %s from 0, and here %s have numbers for '
                                        'names, such as 1' % (op, what, what)):
                G.select(op, 1)
        self.assertEqual(G.select(spmat.indexunary.rowle, 1).to_edgelist(), [(1, 2, 1), (2, 3, 2)])
        self.assertEqual(self.W.select('rowle', 0).nvals, self.W['a', :].nvals)
        plain = self.s.from_edgelist([(0, 1, 1), (1, 0, 2)])
        self.assertEqual(plain.select('rowle', 0).nvals, 1)

    def test_numbers_and_places(self):
        G = self.s.from_edgelist([(10, 20, 1), (20, 30, 2), (30, 40, 3)])
        self.assertEqual(G[[40, 10], 20].to_edgelist(), [(10, 20, 1)])

    def test_tuples_and_frozensets_are_names(self):
        one, two = frozenset('ab'), frozenset('cd')
        G = self.s.from_edgelist([(('x', 1), ('y', 2), 3), (one, two, 4)])
        self.assertEqual(G[('x', 1), ('y', 2)], 3)
        self.assertEqual(G[[('y', 2), ('x', 1)], :].row_nodes, [('y', 2), ('x', 1)])
        self.assertEqual(G[one, two], 4)

    def test_one_and_none(self):
        self.assertEqual(self.W['a', 'c'], 10)
        self.assertIsNone(self.W['c', 'a'])
        self.assertEqual(self.s.from_coo([0], [0], 7, 1, 1)[0, 0], 7)
        empty = self.s.from_coo([], [], [], 0, 0)
        self.assertEqual(empty[:, :].shape, (0, 0))
        self.assertEqual(empty[[], :].shape, (0, 0))
        with self.assertRaisesRegex(ValueError, 'there is no vertex'):
            empty[0, :]


class Arrays(InSession):
    def test_as_numpy_has_it(self):
        table = numpy.arange(1, 31).reshape(6, 5)
        N, r = self.s.from_dense(table), numpy.random.default_rng(3)
        for _ in range(20):
            rows, columns = r.random(6) < .5, r.random(5) < .5
            self.assertTrue((N[rows, :].to_dense() == table[rows]).all())
            self.assertTrue((N[rows, columns].to_dense() == table[numpy.ix_(rows, columns)]).all())
            at = r.integers(0, 6, 4)
            self.assertTrue((N[at, :].to_dense() == table[at]).all())
            self.assertTrue((N[at.astype(numpy.uint8), columns].to_dense()
                             == table[numpy.ix_(at, columns)]).all())
        self.assertEqual(N[numpy.int64(2), numpy.uint8(1)], table[2, 1])
        self.assertEqual(N[numpy.array([], int), :].shape, (0, 5))
        self.assertEqual(N[numpy.array([]), :].shape, (0, 5))

    def test_what_is_refused(self):
        N = self.s.from_dense(numpy.arange(6).reshape(3, 2))
        for index, kind, words in ((numpy.array([True, False]), IndexError,
                                    'a filter of 2 values for 3 rows'),
                                   (numpy.array([[0, 1]]), IndexError,
                                    'an array of one dimension, not of 2'),
                                   (numpy.array([0., 1.]), TypeError, 'is a float'),
                                   (numpy.array([0, -1]), ValueError, 'no vertex -1'),
                                   (numpy.bool_(True), TypeError, 'True is no row'),
                                   (numpy.float64(1), TypeError, 'is a float'),
                                   (numpy.array([True, 1], object), TypeError,
                                    'a filter has True or False alone'),
                                   (numpy.ma.array([0, 1], mask=[0, 1]), IndexError,
                                    'missing values')):
            with self.assertRaisesRegex(kind, words):
                N[index, :]
        with self.assertRaisesRegex(TypeError,
                                    'an array of True and False as an index of both sides is a '
                                    'mask'):
            N[numpy.ones((3, 2), bool)]
        self.assertEqual(N[numpy.array([True, False, True], object), :].nrows, 2)

    def test_names(self):
        W = self.s.from_edgelist([('a', 'b', 1), ('b', 'c', 1), ('a', 'c', 10)])
        self.assertEqual(W[numpy.array([False, False, True]), :].row_nodes, ['c'])
        self.assertEqual(W[numpy.array(['c', 'a']), :].row_nodes, ['c', 'a'])
        self.assertEqual(W[numpy.str_('a'), numpy.str_('c')], 10)

    @needs('pandas')
    def test_columns_of_pandas(self):
        import pandas
        W = self.s.from_edgelist(EDGES, nodelist=ROWS)
        chosen = pandas.Series([True, False, True], ['e', 'b', 'a'])
        with self.assertRaisesRegex(IndexError, "there is none 'c'"):
            W[chosen, :]
        chosen = pandas.Series([True, False, True, False, False, True],
                               ['e', 'b', 'a', 'c', 'd', 'x'])
        self.assertEqual(W[chosen, :].row_nodes, ['a', 'e'])
        self.assertEqual(W[:, chosen].column_nodes, ['a', 'e'])
        self.assertEqual(W[pandas.Series([True, False, False, False, True]), :].row_nodes,
                         ['a', 'e'])
        self.assertEqual(W[chosen.astype('boolean'), :].row_nodes, ['a', 'e'])
        self.assertEqual(W[pandas.Series(['c', 'a']), :].row_nodes, ['c', 'a'])
        self.assertEqual(W[pandas.Index(['c', 'a']), :].row_nodes, ['c', 'a'])
        with self.assertRaisesRegex(IndexError, 'missing values: fillna'):
            W[pandas.Series([True, None, False, False, True], ROWS, dtype='boolean'), :]
        with self.assertRaisesRegex(IndexError, 'a filter of 2 values for 5 rows'):
            W[pandas.Series([True, False]), :]
        with self.assertRaisesRegex(IndexError, 'some stand twice|there is none'):
            W[pandas.Series([True] * 6, ['a', 'a', 'b', 'c', 'd', 'e']), :]
        degrees = W.reduce_rowwise('plus').to_pandas()
        self.assertEqual(W[degrees.reindex(ROWS, fill_value=0) > 3, :].row_nodes, ['a', 'd'])
        N = self.s.from_coo([0, 1, 2], [0, 1, 2], [5, 6, 7])
        # by label
        self.assertEqual(N[pandas.Series([True, False, False], [2, 0, 1]), :].to_dict(),
                         {(0, 2): 7})
        with self.assertRaisesRegex(IndexError, 'write filter.to_numpy'):
            N[pandas.Series([True, False, False], ['a', 'b', 'c']), :]


class Masks(InSession):
    def test_a_bare_matrix_warns_of_the_callers_line(self):
        A = self.s.from_triples([(0, 1, 5), (1, 0, 0)], 2, 2)
        for call in (lambda: A.apply('one', mask=A), lambda: A.mxm(A, mask=A),
                     lambda: A.update(A, None, A), lambda: A.dup(mask=A),
                     lambda: A.reduce_rowwise(mask=A.reduce_rowwise()),
                     lambda: A.mxv(A[:, 0], mask=A[:, 0])):
            with self.assertWarnsRegex(spmat.MaskWarning,
                                       r'mask=A means A\.S, the stored positions: write '
                                       r'mask=A\.S, or mask=A\.V') as said:
                call()
            self.assertEqual(said.filename.rpartition('/')[2], 'test_indexing.py')
        self.assertTrue(issubclass(spmat.MaskWarning, UserWarning))
        with warnings.catch_warnings():
            warnings.simplefilter('error')
            A.apply('one', mask=A.S), A.without(A), A.update(A, mask=~A.V), A.dup(mask=None)
        with warnings.catch_warnings(record=True) as heard:
            warnings.simplefilter('default')
            for _ in range(3):
                A.apply('one', mask=A)
        self.assertEqual(len(heard), 1)            # once a place
        with self.assertRaisesRegex(TypeError, r'a mask is A\.S, A\.V, ~A\.S or ~A\.V, not True'):
            A.apply('one', mask=True)

    def test_nothing_here_warns_by_itself(self):
        """Whatever an algorithm does, its masks say what they mean."""
        with blocks.Sessions(2) as many, warnings.catch_warnings():
            warnings.simplefilter('error', spmat.MaskWarning)
            for session in (self.s, many):
                graphs = [graph(session)
                          for graph in alike.graphs_of(random.Random(5), 10).values()]
                for name, calls in alike.ALGORITHMS.items():
                    for call, graph in zip(calls * len(graphs), graphs):
                        with self.subTest(algorithm=name):
                            self.assertNotIn('MaskWarning', str(alike.outcome(lambda: call(graph))))

    def test_masks_of_masks(self):
        a = {(0, 0): 1, (0, 1): 0, (1, 1): 5, (2, 0): 0}
        b = {(0, 0): 0, (1, 1): 2, (2, 0): 3, (2, 2): 4}
        every = {(i, j) for i in range(3) for j in range(3)}
        A, B = (self.s.from_triples([(*at, value) for at, value in cells.items()], 3, 3)
                for cells in (a, b))
        full = self.s.full(3, 3)
        kinds = {'S': (lambda M: M.S, lambda cells: set(cells)),
                 'V': (lambda M: M.V, lambda cells: {at for at in cells if cells[at]}),
                 '~S': (lambda M: ~M.S, lambda cells: every - set(cells)),
                 '~V': (lambda M: ~M.V, lambda cells: every - {at for at in cells if cells[at]})}
        for one, (mask, inside) in kinds.items():
            for two, (other, within) in kinds.items():
                for sign, call, want in (('&', lambda x, y: x & y, set.__and__),
                                         ('|', lambda x, y: x | y, set.__or__),
                                         ('^', lambda x, y: x ^ y, set.__xor__),
                                         ('-', lambda x, y: x - y, set.__sub__)):
                    with self.subTest(one=one, sign=sign, two=two):
                        self.assertEqual(set(full.dup(mask=call(mask(A), other(B))).to_dict()),
                                         want(inside(a), within(b)))
        for call in (lambda: A.S & A, lambda: A.S | 3, lambda: A.S - None):
            with self.assertRaisesRegex(TypeError, 'beside a mask stands a mask'):
                call()
        for call in (lambda: A.S and B.S, lambda: not A.S, lambda: bool(A.V)):
            with self.assertRaisesRegex(TypeError, r'write A\.S & B\.S'):
                call()
        with self.assertRaisesRegex(spmat.DimensionMismatch, 'one mask is 3x3, the other 2x2'):
            A.S & self.s.identity(2).S
