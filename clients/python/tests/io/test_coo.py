"""Every way in for arrays, by every kind of array: what each gives, or says."""
import fractions
import random
import warnings
from decimal import Decimal

import numpy

import spmat
import spmat_blocks as blocks
from support import InSession, needs

ROWS, COLUMNS, VALUES = [0, 2, 1], [1, 0, 1], [5, 0, -7]
WANT = {(0, 1): 5, (2, 0): 0, (1, 1): -7}
NAN = float('nan')


def columns_of(kind):
    """Three columns of one kind: rows, columns, values."""
    import pandas
    makers = {
        'lists': list, 'tuples': tuple, 'iterators': iter,
        'int64': lambda many: numpy.array(many, numpy.int64),
        'int32': lambda many: numpy.array(many, numpy.int32),
        'floats': lambda many: numpy.array(many, float),
        'objects': lambda many: numpy.array(many, object), 'Series': pandas.Series,
        'Series with other labels': lambda many: pandas.Series(many, index=[2, 0, 1]),
        'Series of text labels': lambda many: pandas.Series(many, index=['a', 'b', 'c']),
        'Series of Int64': lambda many: pandas.Series(many, dtype='Int64'),
        'Series of floats': lambda many: pandas.Series(many, dtype=float),
        'Series of objects': lambda many: pandas.Series(many, dtype=object), 'Index': pandas.Index,
        'arrays of pandas': lambda many: pandas.array(many, dtype='Int64'),
        'masked, nothing hidden': lambda many: numpy.ma.array(many, mask=False),
        'Fractions': lambda many: [fractions.Fraction(one) for one in many],
        'whole floats': lambda many: [float(one) for one in many]}
    return [makers[kind](many) for many in (ROWS, COLUMNS, VALUES)]


KINDS = ('lists', 'tuples', 'iterators', 'int64', 'int32', 'floats', 'objects', 'Series',
         'Series with other labels', 'Series of text labels', 'Series of Int64', 'Series of floats',
         'Series of objects', 'Index', 'arrays of pandas', 'masked, nothing hidden', 'Fractions',
         'whole floats')


@needs('pandas')
class Columns(InSession):
    """from_coo takes columns by position, whatever their labels are."""

    def test_from_coo(self):
        for kind in KINDS:
            for other in ('lists', 'int64', 'Series with other labels'):
                for scale in (None, 10):
                    with self.subTest(kind=kind, other=other, scale=scale):
                        rows, columns, values = columns_of(kind)
                        if scale is not None and kind == 'Fractions':
                            continue
                        A = self.s.from_coo(rows, columns_of(other)[1], values, 3, 2, scale=scale)
                        self.assertEqual(A.to_dict(),
                                         {at: value * (scale or 1) for at, value in WANT.items()})
                        self.assertEqual(self.s.from_coo(columns_of(other)[0], columns, 4, 3,
                                                         2).to_dict(), dict.fromkeys(WANT, 4))

    def test_beyond_64_bits(self):
        for number in (2 ** 63, -2 ** 63 - 1):
            with self.assertRaisesRegex(ValueError, r'is not in -2\^63 .*\(entry 1\)'):
                self.s.from_coo([0, 1], [0, 1], [1, number])

    def test_gaps(self):
        import pandas
        for values in ([5, NAN, 1], [5, Decimal('NaN'), 1], [5, Decimal('sNaN'), 1],
                       numpy.array([5, NAN, 1]), numpy.array([5, None, 1], object),
                       pandas.Series([5, NAN, 1]), pandas.Series([5, None, 1], dtype='Int64'),
                       [5, None, 1], pandas.array([5, pandas.NA, 1], dtype='Int64'),
                       [5, pandas.NA, 1], numpy.ma.array([5, 6, 1], mask=[0, 1, 0])):
            for scale in (None, 100):
                with self.subTest(values=values, scale=scale), \
                        self.assertRaisesRegex(ValueError, r'missing|masked'):
                    self.s.from_coo(ROWS, COLUMNS, values, scale=scale)
            with self.subTest(rows=values), \
                    self.assertRaisesRegex(ValueError, r'a row is (missing|masked).*\(entry 1\)'):
                self.s.from_coo(values, COLUMNS, 1)

    def test_what_is_no_column(self):
        import pandas
        A = self.s.identity(3)
        frame = pandas.DataFrame({'a': ROWS, 'b': COLUMNS})
        for many, words in ((frame, 'two dimensions: name one of its columns'),
                            (frame[['a']], 'two dimensions'), ({0: 1, 2: 3}, 'list'),
                            ({0, 1, 2}, 'has no order'), (frozenset([0, 1, 2]), 'has no order'),
                            ('012', 'is text|expected a list'),
                            (A, 'a matrix'), (3, 'expected a list or an array'),
                            (None, 'expected a list or an array'), (b'012', '')):
            with self.subTest(many=type(many)), self.assertRaisesRegex(TypeError, words):
                self.s.from_coo(many, COLUMNS, 1)
        for values in (frame, {0: 1}, {1, 2, 3}, A):
            with self.subTest(values=type(values)), \
                    self.assertRaisesRegex(TypeError, 'expected a list or an array of values'):
                self.s.from_coo(ROWS, COLUMNS, values)
        for rows in ([True, False, True], numpy.array([True, False, True]),
                     pandas.Series([True, False, True])):
            with self.assertRaisesRegex(TypeError, 'not truth values: numpy.flatnonzero'):
                self.s.from_coo(rows, COLUMNS, 1)
        with self.assertRaisesRegex(ValueError, 'expected one dimension of rows, got 2'):
            self.s.from_coo(numpy.array([ROWS]), COLUMNS, 1)
        for values, kind in (([1j, 1, 2], TypeError), (['x', 'y', 'z'], TypeError),
                             (numpy.array([1j, 1, 2]), TypeError), ([.5, 1, 2], ValueError),
                             (numpy.array(['2020-01-01'] * 3, 'M8[s]'), TypeError),
                             ([[1], [2], [3]], TypeError)):
            with self.subTest(values=values), self.assertRaises(kind):
                self.s.from_coo(ROWS, COLUMNS, values)

    def test_truth_values_are_values(self):
        import pandas
        for values in ([True, False, True], numpy.array([True, False, True]),
                       pandas.Series([True, False, True]),
                       pandas.Series([True, False, True], dtype='boolean')):
            self.assertEqual(self.s.from_coo(ROWS, COLUMNS, values).to_dict(),
                             {(0, 1): 1, (2, 0): 0, (1, 1): 1})

    def test_triples(self):
        import pandas
        triples = list(zip(ROWS, COLUMNS, VALUES))
        for kind in (triples, [list(one) for one in triples], numpy.array(triples),
                     numpy.array(triples, float), numpy.array(triples, object), iter(triples),
                     pandas.DataFrame(triples),
                     pandas.DataFrame(triples, ['x', 'y', 'z'], ['from', 'to', 'value'])):
            self.assertEqual(self.s.from_triples(kind, 3, 2).to_dict(), WANT)
        two = pandas.DataFrame({'from': ROWS, 'to': COLUMNS})
        self.assertEqual(self.s.from_triples(two).to_dict(), dict.fromkeys(WANT, 1))
        with self.assertRaisesRegex(ValueError, 'two or three columns .* not of 1'):
            self.s.from_triples(two[['to']])
        for edges in (pandas.DataFrame({'from': ['a', 'b'], 'to': ['b', 'c'], 'w': [3, 4]}),
                      numpy.array([['a', 'b', 3], ['b', 'c', 4]], object)):
            self.assertEqual(self.s.from_edgelist(edges).to_edgelist(),
                             [('a', 'b', 3), ('b', 'c', 4)])
        self.assertEqual(self.s.from_edgelist(
            pandas.DataFrame({0: [7, 8], 1: [8, 9]})).to_edgelist(), [(7, 8, 1), (8, 9, 1)])

    def test_tables_with_odd_cells(self):
        import pandas
        for first in (float('nan'), None, pandas.NaT, 'x'):
            frame = pandas.DataFrame({'from': [first, 1], 'to': [2, 3], 'w': [4, 5]})
            A = self.s.from_edgelist(frame, missing=None)
            self.assertEqual(A.to_triples(), [(0, 1, 4), (2, 3, 5)])
            self.assertEqual(list(map(str, A.nodes)), [*map(str, frame['from'][:1]), '2',
                                                       str(frame['from'][1]), '3'])
        frame = pandas.DataFrame([('a', 'b', {'weight': 3}), ('b', 'c', {})])
        self.assertEqual(self.s.from_edgelist(frame).to_edgelist(), [('a', 'b', 3), ('b', 'c', 1)])
        for odd in ([1], {}):
            frame = pandas.DataFrame({'source': [odd, 1], 'target': [2, 3]})
            for read in (self.s.from_edgelist, self.s.from_pandas_edgelist):
                with self.assertRaisesRegex(TypeError, 'a name is text, a number'):
                    read(frame)


CELLS = [[5, 0, 2], [0, 7, 0]]
FULL = {(i, j): value for i, row in enumerate(CELLS) for j, value in enumerate(row)}


class Folds(InSession):
    def test_beyond_64_bits(self):
        """Values of one position that would wrap are refused, in blocks as in one session, and what
        has room is exact."""
        most = (1 << 63) - 1
        with blocks.Sessions(2) as many:
            for s in (self.s, many):
                for op, values in (('plus', (most, 1)), ('plus', (-most, -2)),
                                   ('minus', (-most, 2)), ('times', (1 << 40, 1 << 23)),
                                   ('times', (1 << 62,) * 300)):
                    rows = [0] * len(values)
                    with self.assertRaisesRegex(ValueError,
                                                'row 0, column 1 make a number beyond 64 bits '
                                                'by dup_op=%r' % op):
                        s.from_coo(rows, [1] * len(values), values, dup_op=op)
                    with self.assertRaisesRegex(ValueError, 'beyond 64 bits'):
                        s.from_edgelist([('a', 'b', value) for value in values], dup_op=op)
                for op, values, want in (('plus', (most, 1, -1), most), ('minus', (most, most), 0),
                                         ('times', (1 << 40, 1 << 40, 0), 0),
                                         ('times', (-1 << 40, 1 << 23), -most - 1),
                                         ('max', (most, most), most)):
                    A = s.from_coo([0] * len(values), [1] * len(values), values, dup_op=op)
                    self.assertEqual(A.to_dict(), {(0, 1): want})

    def test_in_order(self):
        """Values that share a position are folded in their order, of arrays as of lists, by an
        operator for which it matters."""
        r = random.Random(15)
        for _ in range(20):
            many = [(r.randrange(5), r.randrange(4), r.randrange(-9, 9))
                    for _ in range(r.randrange(30))]
            want = {}
            for i, j, value in many:
                want[i, j] = want[i, j] - value if (i, j) in want else value
            columns = [[edge[at] for edge in many] for at in range(3)]
            self.assertEqual(self.s.from_coo(*columns, 5, 4, dup_op='minus').to_dict(), want)
            self.assertEqual(self.s.from_coo(*(numpy.array(column, numpy.int64)
                                               for column in columns), 5, 4,
                                             dup_op='minus').to_dict(), want)

    @needs('pandas')
    def test_truth_values(self):
        """Of a nullable column, and numpy's: without its warning that they won't be numbers."""
        import pandas
        column = pandas.Series(pandas.array([True, False], dtype='boolean'))
        frame = pandas.DataFrame({'source': ['a', 'b'], 'target': ['b', 'c'], 'w': column})
        with warnings.catch_warnings():
            warnings.simplefilter('error')
            for made in (self.s.from_pandas_edgelist(frame, edge_attr='w'),
                         self.s.from_edgelist(frame),
                         self.s.from_edgelist([('a', 'b', numpy.bool_(True)),
                                               ('b', 'c', numpy.bool_(False))])):
                self.assertEqual(made.to_edgelist(), [('a', 'b', 1), ('b', 'c', 0)])
            self.assertEqual(self.s.from_coo([0, 1], [1, 0], column).to_dict(),
                             {(0, 1): 1, (1, 0): 0})


class Tables(InSession):
    """from_dense takes tables."""

    def test_lists(self):
        for cells in (CELLS, tuple(map(tuple, CELLS)), iter(CELLS), [iter(row) for row in CELLS],
                      [[5., 0, 2], [0, 7., 0]],
                      [[fractions.Fraction(5), 0, 2], [0, 7, 0]]):
            self.assertEqual(self.s.from_dense(cells).to_dict(), FULL)
        self.assertEqual(self.s.from_dense([4, 5, 6]).to_dict(), {(0, 0): 4, (1, 0): 5, (2, 0): 6})
        self.assertEqual(self.s.from_dense(CELLS, 0).to_dict(),
                         {at: value for at, value in FULL.items() if value})
        self.assertEqual(self.s.from_dense(CELLS, missing_value=0).nvals, 3)
        for cells, shape in (([], (0, 0)), ([[]], (1, 0)), ([[], []], (2, 0)), ([[5]], (1, 1)),
                             (range(3), (3, 1))):
            self.assertEqual(self.s.from_dense(cells).shape, shape)
        self.assertEqual(self.s.from_dense([[True, False]]).to_dict(), {(0, 0): 1, (0, 1): 0})
        self.assertEqual(self.s.from_dense([[1.25, 2]], scale=100).to_dict(),
                         {(0, 0): 125, (0, 1): 200})

    def test_gaps(self):
        for cells in ([[1, None], [3, 4]], [[1, NAN], [3, 4]]):
            with self.assertRaisesRegex(ValueError, r'the cell at row 0, column 1 is missing '
                                        r'\((nan|None)\): fill it, or missing=float\("nan"\)'):
                self.s.from_dense(cells)
            self.assertEqual(self.s.from_dense(cells, NAN).to_dict(),
                             {(0, 0): 1, (1, 0): 3, (1, 1): 4})
            self.assertEqual(self.s.from_dense(cells, missing_value=NAN).nvals, 3)
            with self.assertRaisesRegex(ValueError, 'row 0, column 1 is missing'):
                self.s.from_dense(cells, 0)
        column = self.s.from_coo([0, 2], [0, 0], [5, 6], 4, 1)
        self.assertTrue(self.s.from_dense(column.to_list(), NAN).isequal(column))

    def test_what_is_no_table(self):
        A = self.s.identity(2)
        for thing, words in ((A, r'A\.dup\(\) copies it'), ({0: {1: 2}}, 'from_dicts takes'),
                             ({1, 2}, 'no order'), ('ab', 'expected a table'),
                             (5, 'expected a table'), (None, 'expected a table'),
                             ([['a', 1]], 'whole number'), ([[[1]]], 'whole number')):
            with self.subTest(thing=thing), self.assertRaisesRegex(TypeError, words):
                self.s.from_dense(thing)
        for cells, words in (([[1, 2], [3]], 'rows of 1 and 2 cells'), ([1, [2]], 'row 1 is'),
                             ([[1], 2], 'row 1 is'), ([[.5]], 'whole'),
                             ([[2 ** 63]], '2^63|not in')):
            with self.subTest(cells=cells), self.assertRaisesRegex(ValueError, words):
                self.s.from_dense(cells)


class Labels(InSession):
    @needs('pandas')
    def test_numbers_and_text(self):
        """As pandas.read_csv(path, index_col=0) makes them of one list of vertices."""
        import pandas
        table = pandas.DataFrame([[0, 1], [1, 0]], index=[1, 2], columns=['1', '2'])
        for one in (table, table.T):
            with self.assertRaisesRegex(ValueError, "1 and '1' are two names"):
                self.s.from_dense(one, missing=0)
        table.columns = table.columns.astype(table.index.dtype)
        self.assertEqual(self.s.from_dense(table, missing=0).nodes, [1, 2])
        odd = pandas.DataFrame([[5, 7], [1, 2]], index=[1, 2], columns=['x', '2'])
        self.assertEqual(self.s.from_dense(odd).column_nodes, ['x', '2'])


class DenseArrays(InSession):
    def test_kinds(self):
        for kind in (int, numpy.int8, numpy.uint8, numpy.uint64, float, numpy.float32, object):
            array = numpy.array(CELLS, kind)
            for table in (array, numpy.asfortranarray(array), array[::-1][::-1],
                          numpy.array(CELLS + CELLS, kind)[:2]):
                with self.subTest(kind=kind):
                    self.assertEqual(self.s.from_dense(table).to_dict(), FULL)
                    self.assertEqual(self.s.from_dense(table, 0).nvals, 3)
                    self.assertEqual(self.s.from_dense(table, missing_value=7).to_dict(),
                                     {at: value for at, value in FULL.items() if value != 7})
        truth = numpy.array([[True, False], [False, True]])
        self.assertEqual(self.s.from_dense(truth).to_dict(),
                         {(0, 0): 1, (0, 1): 0, (1, 0): 0, (1, 1): 1})
        self.assertEqual(self.s.from_dense(truth, 0).to_dict(), {(0, 0): 1, (1, 1): 1})
        self.assertEqual(self.s.from_dense(numpy.matrix(CELLS)).to_dict(), FULL)
        self.assertEqual(self.s.from_dense(numpy.array([4., 5.])).to_dict(), {(0, 0): 4, (1, 0): 5})
        for shape in ((0, 3), (3, 0), (0, 0)):
            for kind in (float, int, object):
                self.assertEqual(self.s.from_dense(numpy.zeros(shape, kind)).shape, shape)
        self.assertEqual(self.s.from_dense(numpy.array([])).shape, (0, 1))
        self.assertTrue((self.s.from_dense(numpy.array(CELLS), 0).to_dense(fill_value=9)
                         == numpy.where(numpy.array(CELLS) == 0, 9, CELLS)).all())

    def test_gaps_and_masks(self):
        table = numpy.array([[1, NAN], [3, 4]])
        for cells in (table, table.astype(object), numpy.array([[1, None], [3, 4]], object)):
            with self.assertRaisesRegex(ValueError, 'the cell at row 0, column 1 is missing'):
                self.s.from_dense(cells)
            self.assertEqual(self.s.from_dense(cells, numpy.nan).to_dict(),
                             {(0, 0): 1, (1, 0): 3, (1, 1): 4})
        for kind in (int, float, object):
            masked = numpy.ma.array(CELLS, mask=[[0, 1, 0], [0, 0, 1]], dtype=kind)
            want = {at: value for at, value in FULL.items() if at not in ((0, 1), (1, 2))}
            self.assertEqual(self.s.from_dense(masked).to_dict(), want)
            self.assertEqual(self.s.from_dense(masked, 5).to_dict(),
                             {at: value for at, value in want.items() if value != 5})

    def test_what_is_refused(self):
        for array, kind, words in ((numpy.zeros((2, 2, 2)), ValueError,
                                    'one or two dimensions, got 3'),
                                   (numpy.array(5), TypeError, 'expected a table'),
                                   (numpy.array([[.5]]), ValueError, 'whole'),
                                   (numpy.array([[numpy.inf]]), ValueError, 'whole'),
                                   (numpy.array([['a']]), TypeError, 'whole'),
                                   (numpy.array([[1j]]), TypeError, 'whole'),
                                   (numpy.array([['2020-01-01']], 'M8[D]'), TypeError, 'whole'),
                                   (numpy.array([[2 ** 63]], numpy.uint64), ValueError, '64 bits')):
            with self.subTest(array=array), self.assertRaisesRegex(kind, words):
                self.s.from_dense(array)

    @needs('pandas')
    def test_frames(self):
        import pandas
        frame = pandas.DataFrame([[5, 6], [7, 8]])
        A = self.s.from_dense(frame)
        self.assertEqual((A.to_dict(), A.row_nodes, A.column_nodes),
                         ({(0, 0): 5, (0, 1): 6, (1, 0): 7, (1, 1): 8}, None, None))
        frame.index, frame.columns = ['x', 'y'], ['a', 'b']
        A = self.s.from_dense(frame)
        self.assertEqual((A['y', 'a'], A.row_nodes, A.column_nodes), (7, ['x', 'y'], ['a', 'b']))
        square = self.s.from_dense(pandas.DataFrame([[0, 6], [7, 0]], ['x', 'y'], ['x', 'y']), 0)
        self.assertEqual((square.to_edgelist(), square.nodes),
                         ([('x', 'y', 6), ('y', 'x', 7)], ['x', 'y']))
        mixed = pandas.DataFrame({'i': [1, 2], 'f': [3., 4.], 'b': [True, False],
                                  'o': pandas.Series([2 ** 53 + 1, 5], dtype=object),
                                  'I': pandas.array([7, 8], dtype='Int64')})
        self.assertEqual(self.s.from_dense(mixed).to_edgelist()[:5],
                         [(0, 'i', 1), (0, 'f', 3), (0, 'b', 1), (0, 'o', 2 ** 53 + 1),
                          (0, 'I', 7)])
        column = self.s.from_dense(pandas.Series([5, 6], ['x', 'y'], name='amount'))
        self.assertEqual((column.shape, column.by_node()), ((2, 1), {'x': 5, 'y': 6}))
        self.assertEqual(self.s.from_dense(pandas.DataFrame({10: [1], 20: [2]})).to_edgelist(),
                         [(0, 10, 1), (0, 20, 2)])
        self.assertEqual(self.s.from_dense(pandas.DataFrame()).shape, (0, 0))

    @needs('pandas')
    def test_frames_with_gaps(self):
        import pandas
        for frame in (pandas.DataFrame({'a': [1, NAN], 'b': [2, 3]}),
                      pandas.DataFrame({'a': pandas.array([1, None], dtype='Int64'), 'b': [2, 3]})):
            with self.assertRaisesRegex(ValueError, 'the cell at row 1, column 0 is missing'):
                self.s.from_dense(frame)
            self.assertEqual(self.s.from_dense(frame, NAN).to_edgelist(),
                             [(0, 'a', 1), (0, 'b', 2), (1, 'b', 3)])
        with self.assertRaisesRegex(ValueError, "the name 'a' stands twice"):
            self.s.from_dense(pandas.DataFrame([[1, 2]], columns=['a', 'a']))
        with self.assertRaisesRegex(ValueError, 'a label of the rows is missing'):
            self.s.from_dense(pandas.DataFrame([[1], [2]], ['a', None]))
        with self.assertRaisesRegex(TypeError, 'whole number'):
            self.s.from_dense(pandas.DataFrame({'a': ['x']}))
        pivot = pandas.DataFrame({'who': ['u', 'u', 'v'], 'what': ['p', 'q', 'p'],
                                  'n': [1, 2, 3]}).pivot(index='who', columns='what', values='n')
        self.assertEqual(self.s.from_dense(pivot, NAN).to_edgelist(),
                         [('u', 'p', 1), ('u', 'q', 2), ('v', 'p', 3)])
        pairs = pandas.DataFrame([[1, 2]],
                                 columns=pandas.MultiIndex.from_tuples([('a', 1), ('a', 2)]))
        self.assertEqual(self.s.from_dense(pairs).column_nodes, [('a', 1), ('a', 2)])


@needs('pandas')
class WideNames(InSession):
    """Whole numbers above 2^63 - 1 are names as any other, and no values."""

    WIDE = [(1 << 63) + 1, (1 << 64) - 1, 5]

    def test_columns_of_pandas(self):
        import pandas
        near = [5, 7, (1 << 63) + 9]
        want = sorted(zip(self.WIDE, near))
        for kind in ('uint64', 'UInt64', object):
            for other in ('uint64', 'UInt64', object):
                frame = pandas.DataFrame(
                    {'source': pandas.Series(numpy.array(self.WIDE, 'uint64')).astype(kind),
                     'target': pandas.Series(numpy.array(near, 'uint64')).astype(other)})
                for how in ({}, {'bipartite': True}, {'nodelist': [*self.WIDE, 7, near[2]]}):
                    with self.subTest(kind=kind, other=other, **how):
                        G = self.s.from_pandas_edgelist(frame, **how)
                        self.assertEqual(sorted(edge[:2] for edge in G.to_edgelist()), want)
                        self.assertEqual({type(name) for name in G.row_nodes}, {int})
                        self.assertEqual(G[self.WIDE[0], 5], 1)
        signed = pandas.DataFrame({'source': numpy.array(self.WIDE, 'uint64'),
                                   'target': [-1, -2, 5]})
        self.assertEqual(self.s.from_pandas_edgelist(signed).to_edgelist(),
                         [(5, 5, 1), (self.WIDE[0], -1, 1), (self.WIDE[1], -2, 1)])
        self.assertEqual(spmat.events(self.s,
                                      signed.assign(time=1)).earliest_arrival(self.WIDE[1])[-2], 1)

    def test_other_ways_in(self):
        import io
        pairs = numpy.array([self.WIDE, [5, 5, 9]], 'uint64').T
        want = [(5, 9, 1), (self.WIDE[0], 5, 1), (self.WIDE[1], 5, 1)]
        text = ''.join('%d,%d\n' % tuple(pair) for pair in pairs.tolist()).encode()
        for made in (self.s.from_edgelist(pairs), self.s.from_edgelist(pairs.tolist()),
                     self.s.read_graph(io.BytesIO(text), sep=','),
                     self.s.from_coo([0, 2, 3], [1, 0, 0],
                                     nodes=numpy.array([5, 9, *self.WIDE[:2]], 'uint64'))):
            self.assertEqual(made.to_edgelist(), want)

    def test_values(self):
        import pandas
        import scipy.sparse
        frame = pandas.DataFrame({'source': [1], 'target': [2],
                                  'weight': numpy.array([1 << 63], 'uint64')})
        twice = scipy.sparse.coo_matrix((numpy.array([1 << 63] * 2, 'uint64'), ([0, 0], [0, 0])),
                                        (1, 1))
        for call, given in ((self.s.from_scipy_sparse, (twice,)),
                            (self.s.from_dense, (twice.toarray() + twice.data[:1],)),
                            (self.s.from_pandas_edgelist, (frame, 'source', 'target', 'weight')),
                            (self.s.from_coo, ([0], [0], frame['weight']))):
            with self.subTest(call=call), self.assertRaisesRegex(ValueError, '64 bits|2.63'):
                call(*given)


@needs('scipy', 'numpy')
class Scipy(InSession):
    def test_kinds(self):
        import scipy.sparse
        for form in ('csr', 'csc', 'coo', 'lil', 'dok', 'bsr', 'dia'):
            for kind in (numpy.int8, numpy.int32, numpy.int64, numpy.uint16, float, numpy.float32,
                         bool):
                matrix = scipy.sparse.coo_matrix(numpy.array(CELLS, kind)).asformat(form)
                with self.subTest(form=form, kind=kind):
                    self.assertEqual(self.s.from_scipy_sparse(matrix).to_dict(),
                                     {at: int(kind(value)) for at, value in FULL.items() if value})
        twice = scipy.sparse.coo_matrix((numpy.array([100, 100], numpy.int8), ([0, 0], [1, 1])),
                                        (2, 2))
        # not the -56 of 8 bits
        self.assertEqual(self.s.from_scipy_sparse(twice).to_dict(), {(0, 1): 200})
        zero = scipy.sparse.coo_matrix(([0, 3], ([0, 1], [1, 1])), (2, 2))
        self.assertEqual(self.s.from_scipy_sparse(zero).to_dict(), {(0, 1): 0, (1, 1): 3})
        self.assertEqual(self.s.from_scipy_sparse(scipy.sparse.csr_matrix((0, 4))).shape, (0, 4))
        for wrong, kind in ((.5, ValueError), (NAN, ValueError), (1j, TypeError)):
            with self.assertRaises(kind):
                self.s.from_scipy_sparse(scipy.sparse.coo_matrix(([wrong], ([0], [0])), (1, 1)))
        for thing in (numpy.zeros((2, 2)), CELLS, self.s.identity(2)):
            with self.assertRaisesRegex(TypeError, 'expected a matrix of scipy.sparse'):
                self.s.from_scipy_sparse(thing)
        with self.assertRaisesRegex(TypeError, 'from_scipy_sparse takes it'):
            self.s.from_dense(zero)
