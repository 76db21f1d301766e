"""What is said of a mistake, before anything is sent: names that no operator has, indices,
settings, things of other packages."""
import pathlib
import unittest

import numpy

from support import said
import spmat
from spmat import operators
from spmat.wire.connection import checked_settings
from spmat.operators.c import FromC


class Words(unittest.TestCase):
    def test_names_of_operators(self):
        for kind, name, words in (
            ('unary', 'plus',
             "no built-in unary operator is called 'plus', but a binary one is: bind an operand by "
             "right= or left="),
            ('binary', 'abs', "no built-in binary operator is called 'abs', but a unary one is"),
            ('binary', 'nonzero',
             "no built-in binary operator is called 'nonzero', but a unary and an index one is"),
            ('unary', 'tril', "no built-in unary operator is called 'tril', but an index one is"),
            ('binary', 'tims', "no built-in binary operator is called 'tims'; near it: times"),
            ('binary', 'qqqq', "no built-in binary operator is called 'qqqq'")):
            self.assertEqual(said(ValueError, operators.find, kind, name), words)

    def test_hexadecimal(self):
        self.assertIn('two hexadecimal digits a byte',
                      said(ValueError, spmat.code, 'unary', '9x'))
        self.assertIn('a kind is unary', said(ValueError, spmat.code, 'Unary', '95'))

    def test_operators_in_few_words(self):
        self.assertEqual(repr(spmat.unary),
                         '<built-in unary operators: %s>' % ', '.join(spmat.unary))
        self.assertEqual(repr(FromC('binary', code=bytes(80), name='gap')), '<binary operator gap>')

    def test_settings(self):
        self.assertEqual(checked_settings(1e9, 2.0), (1000000000, 2))
        self.assertIn('number of steps', said(ValueError, checked_settings, 1.5, 1))
        self.assertIn("number of workers is a whole number, not '2'",
                      said(TypeError, checked_settings, 1, '2'))
        self.assertIn('steps are 0 to', said(ValueError, checked_settings, float(1 << 63), 1))

    def test_indices_below_zero(self):
        with spmat.Session() as s:
            self.assertEqual(said(ValueError, s.from_coo, [3, -1], [0, 0]),
                             'row -1 is below 0 (entry 1)')
            self.assertEqual(said(ValueError, s.from_coo, [0], [-2], 1, 3, 3),
                             'column -2 is below 0 (entry 0)')

    def test_arrays_of_indices_below_zero(self):
        with spmat.Session() as s:
            self.assertEqual(said(ValueError, s.from_coo, numpy.array([-1]), numpy.array([0])),
                             'row -1 is below 0 (entry 0)')

    def test_things_of_other_packages(self):
        with spmat.Session() as s:
            self.assertIn('from_dense', said(TypeError, s.from_scipy_sparse, [[1]]))
            self.assertIn('expected a graph of networkx, got int',
                          said(TypeError, s.from_networkx, 5))
            self.assertIn('a matrix of a session',
                          said(TypeError, spmat.algorithms.bfs_levels, [[1]], 0))
            for call in (s.dis, s.types):
                self.assertIn("expected an operator, such as spmat.binary.plus, got 'plus'",
                              said(TypeError, call, 'plus'))

    def test_what_is_no_matrix(self):
        with spmat.Session() as s:
            A = s.full(3, 3)
            for operand, words in (([1, 2], r'list: A\.session\.from_dense\(x\) makes'),
                                   (numpy.ones(3), r'ndarray: A\.session\.from_dense\(x\)'),
                                   (3, 'int$')):
                for call in (A.mxm, A.mxv, A.ewise_add, A.isequal):
                    with self.assertRaisesRegex(TypeError, 'expected a matrix, got ' + words):
                        call(operand)
            self.assertIn('a session makes matrices: s.from_triples',
                          said(TypeError, spmat.Matrix, 3, 3))
            self.assertIn('spmat.Vector(s.from_dense(values))',
                          said(TypeError, spmat.Vector, [1, 2]))

    def test_shapes(self):
        with spmat.Session() as s:
            A, B = s.full(3, 3), s.full(2, 4)
            for call, words in ((A.mxm, '3x3 and 2x4: the second has to have 3 rows'),
                                (A.mxv, '3x3 and 2x4: the second has to be 3x1'),
                                (A.ewise_add, '3x3 and 2x4: the second has to be 3x3')):
                self.assertIn(words, said(spmat.DimensionMismatch, call, B))
            self.assertIn('got 3x3: to_triples(), to_edgelist() and to_dense() take any matrix',
                          said(spmat.DimensionMismatch, A.to_list))

    def test_text_of_an_operator(self):
        self.assertEqual(said(ValueError, operators.find, 'unary', 'mov64 r0, r1\nexit'),
                         "no built-in unary operator is called 'mov64 r0, r1\\nexit': "
                         "spmat.asm('unary', text) makes one of assembly text")
        self.assertEqual(said(ValueError, operators.find, 'index', '> 3'),
                         "no built-in index operator is called '> 3': the number stands apart, as "
                         'in A.select(">", 3)')

    def test_where_edges_come_from(self):
        with spmat.Session() as s:
            for path in ('graph.csv', pathlib.Path('graph.csv')):
                self.assertIn('read_graph(path) reads a file',
                              said(TypeError, s.from_edgelist, path))
            self.assertIn('expected a table of pandas, got dict: from_edgelist takes a list',
                          said(TypeError, s.from_pandas_edgelist, {'source': [1]}))
            self.assertIn('from_edgelist(edges) takes edges',
                          said(TypeError, s.read_graph, [('a', 'b')]))

    def test_a_call_that_was_made(self):
        self.assertIn('spmat.price(lambda: f(G))', said(TypeError, spmat.price, 3))
