"""Signs and functions of Python's that matrices don't have, and names of other libraries: each
error says what to write, and that is there."""
import gc
import re
import weakref

import numpy

import spmat
import spmat_blocks as blocks
from spmat import algorithms, unsupported_syntax
from support import InSession


class Signs(InSession):
    def test_every_sign_says_what_to_write(self):
        A = self.s.from_triples([(0, 1, 5), (1, 0, -2)], 2, 2)
        signs = {
            '==': (lambda: A == A.dup(),
                   r'A\.isequal\(B\) for all.*A\.select\("valueeq", 3\) for some.*'
                   r'A\.ewise_mult\(B, "eq"\) entry by entry'),
            '!=': (lambda: A != 3, r'A\.isequal\(B\)'), '@': (lambda: A @ A, r'A\.mxm\(B\)'),
            '+': (lambda: A + A, r'A\.ewise_add\(B\)'),
            '+ left': (lambda: 1 + A, r'A\.ewise_add'), '-': (lambda: A - 1, 'minus'),
            '- left': (lambda: 1 - A, 'minus'),
            '*': (lambda: 2 * A, 'times'), '* left': (lambda: 3 * A, r'A\.ewise_mult\(B\)'),
            '/': (lambda: A / 2, 'cdiv'),
            '//': (lambda: A // 2, 'floordiv'), '%': (lambda: A % 2, 'cmod'),
            '**': (lambda: A ** 2, r'A\.power\(2\)'), 'divmod': (lambda: divmod(A, 2), 'floordiv'),
            '&': (lambda: A & A, 'land'),
            '|': (lambda: A | A, 'lor'), '^': (lambda: A ^ A, 'lxor'),
            '<<': (lambda: A << A, r'C = A\.mxm\(B\)'),
            '>>': (lambda: A >> 1, 'arsh'), '<': (lambda: A < 3, r'A\.select\("<", 3\)'),
            '>=': (lambda: 3 <= A, r'A\.select\(">=", 3\)'),
            '<=': (lambda: A <= 1, '<='), '>': (lambda: A > 1, '>'),
            '-A': (lambda: -A, 'ainv'), '+A': (lambda: +A, r'A\.dup'), '~A': (lambda: ~A, r'~A\.S'),
            'abs': (lambda: abs(A), 'abs'),
            'round': (lambda: round(A), 'whole numbers'),
            'round of tens': (lambda: round(A, -1), 'whole numbers'),
            'len': (lambda: len(A), r'A\.nvals'), 'iter': (lambda: list(A), r'A\.to_triples\(\)'),
            'in': (lambda: 3 in A, r'A\.get\(i, j\)'),
            'int': (lambda: int(A), r'A\.reduce_scalar'),
            'float': (lambda: float(A), r'A\.reduce_scalar')}
        for sign, (call, words) in signs.items():
            with self.subTest(sign=sign), \
                    self.assertRaisesRegex(TypeError, 'a matrix has no .*write.*' + words):
                call()
        for words in (r'A\.assign\(B, rows, columns\)', r'A\.update'):
            with self.assertRaisesRegex(TypeError, words):
                A[0, 0] = 1
        with self.assertRaisesRegex(TypeError, r'A\.without\(B\)'):
            del A[0, 0]
        B = A
        with self.assertRaisesRegex(TypeError, r'A\.ewise_add\(B\)'):
            B += A

    def test_numbers_of_one_entry(self):
        one = self.s.from_coo([0], [0], 7, 1, 1)
        self.assertEqual((int(one), float(one), type(float(one))), (7, 7.0, float))
        with self.assertRaisesRegex(ValueError, 'without an entry'):
            int(one.select('valuegt', 9))
        for call in (lambda: bool(one), lambda: not one, lambda: one or 3,
                     lambda: [1 for _ in 'x' if one.select('valuegt', 9)]):
            with self.assertRaisesRegex(TypeError, r'no truth value: write A\.nvals > 0'):
                call()

    def test_what_identity_does(self):
        A, B = self.s.identity(2), self.s.identity(2)
        self.assertTrue(A == A and A is not B and A in [A, B])
        self.assertTrue(A in {A, B} and len({A, B, A}) == 2)
        self.assertEqual({A: 'a', B: 'b'}[B], 'b')
        held = weakref.WeakSet([A, B])
        self.assertIn(B, held)
        del B
        gc.collect()
        self.assertEqual(len(held), 1)
        self.assertTrue(A.S == A.S and A.S != A.V and len({A.S, A.S, ~A.S}) == 2)
        self.assertFalse(A.S != A.S)
        for call in (lambda: A.S == A.dup().S, lambda: A.S == A, lambda: A == A.S,
                     lambda: A.V != A.dup().V, lambda: A.S == 3):
            with self.assertRaisesRegex(TypeError, r'A\.isequal\(B\)'):
                call()

    def test_functions_and_arrays_of_numpy(self):
        A = self.s.from_triples([(0, 1, 5), (1, 0, -2)], 2, 2)
        for call, words in ((lambda: numpy.add(A, A), r'A\.ewise_mult\(B, "plus"\)'),
                            (lambda: numpy.abs(A), r'A\.apply\("abs"\)'),
                            (lambda: numpy.array([1, 2]) + A, 'plus'),
                            (lambda: numpy.int64(3) * A, 'times'),
                            (lambda: numpy.array([1]) == A, 'eq'),
                            (lambda: numpy.sqrt(A), 'function f of your own'),
                            (lambda: numpy.true_divide(A, A), 'cdiv'),
                            (lambda: numpy.asarray(A), r'A\.to_dense\(\)'),
                            # as numpy 2 asks
                            (lambda: A.__array__(dtype=None, copy=None), r'A\.to_dense\(\)')):
            with self.assertRaisesRegex(TypeError, 'a matrix has no .*write.*' + words):
                call()


class ForeignNames(InSession):
    def owners(self):
        """What lacks the names of each table."""
        return ((self.s.full(2, 2), unsupported_syntax.MATRIX),
                (self.s, unsupported_syntax.SESSION), (spmat, unsupported_syntax.PACKAGE),
                (algorithms, unsupported_syntax.ALGORITHMS))

    def test_each_says_what_to_write(self):
        for owner, names in self.owners():
            for name, words in names.items():
                with self.subTest(owner=owner, name=name):
                    with self.assertRaisesRegex(
                            AttributeError, "has no attribute '%s': write %s" % (
                                name, re.escape(words))):
                        getattr(owner, name)
                    self.assertFalse(hasattr(owner, name))

    def test_what_to_write_is_there(self):
        holders = {'A': self.s.full(2, 2), 'C': spmat.Matrix, 's': self.s, 'spmat': spmat,
                   'algorithms': algorithms, 'draw': spmat.draw, 'blocks': blocks,
                   'Session': spmat.Session}
        found = 0
        for _, names in self.owners():
            for words in names.values():
                for holder, name in re.findall(r'\b(%s)\.(\w+)' % '|'.join(holders), words):
                    with self.subTest(words=words):
                        self.assertTrue(hasattr(holders[holder], name))
                        found += 1
        self.assertGreater(found, 60)

    def test_names_of_other_places(self):
        A = self.s.full(2, 2)
        for look_up, words in (
                (lambda: A.pagerank, r'write spmat\.algorithms\.pagerank\(G\)$'),
                (lambda: self.s.pagerank, r'write spmat\.algorithms\.pagerank\(G\)$'),
                (lambda: spmat.pagerank, r'write spmat\.algorithms\.pagerank\(G\)$'),
                (lambda: spmat.read_graph, r'write s\.read_graph\(\.\.\) of a session'),
                (lambda: algorithms.nosuch, "'spmat.algorithms' has no attribute 'nosuch'$"),
                (lambda: A.nosuch, "'Matrix' object has no attribute 'nosuch'$"),
                (lambda: A.__nosuch__, "'Matrix' object has no attribute '__nosuch__'$")):
            with self.assertRaisesRegex(AttributeError, words):
                look_up()

    def test_blocks(self):
        with blocks.Sessions(2) as many:
            with self.assertRaisesRegex(AttributeError, r'write A\.nvals'):
                many.full(2, 2).nnz
            with self.assertRaisesRegex(AttributeError, r'write s\.from_dense\(array\)'):
                many.from_numpy
