"""Operators by the names of other libraries: functions of numpy, and names of python-graphblas,
mean a built-in one exactly or say what to write."""
import numpy

from support import InSession
import spmat
from spmat.operators import other_names

EDGES = (0, 1, -1, 2, -2, 7, -7, 63, 64, 2 ** 62, 2 ** 63 - 1, -2 ** 63, -2 ** 63 + 1)


class Names(InSession):
    def test_aliases_are_the_same_operators(self):
        for kind, names in other_names.ALIASES.items():
            for alias, name in names.items():
                ready = spmat.operators.READY[kind]
                self.assertIn(alias, ready)
                self.assertEqual(ready[alias], ready[name])
                self.assertNotIn(alias, list(ready))             # each is listed once
        A = self.s.from_triples([(0, 0, 3), (0, 1, -4)], 1, 2)
        self.assertEqual(A.apply('isgt', right=0).to_dict(), {(0, 0): 1, (0, 1): 0})
        self.assertEqual(A.mxm(A.T, 'plus_isle').to_dict(), {(0, 0): 2})
        self.assertEqual(spmat.binary.bitand, spmat.binary.band)

    def test_names_that_mean_something_else_say_what_to_write(self):
        A = self.s.from_triples([(0, 0, 3), (0, 1, -4)], 1, 2)
        for name, words in (('div', 'cdiv'), ('truediv', 'floordiv'), ('mod', 'cmod'),
                            ('pow', r'A\.power\(n\)'), ('bshift', 'arsh'),
                            ('sum', 'it is "plus"'), ('firsti', 'any_secondi'),
                            ('bget', 'x >> y & 1')):
            for call in (lambda: A.ewise_add(A, name), lambda: A.apply(name, right=1),
                         lambda: A.mxm(A.T, 'plus_' + name) if name[-1] != 'i'
                         else A.ewise_mult(A, name)):
                with self.subTest(name=name), self.assertRaisesRegex(ValueError, words):
                    call()
        with self.assertRaisesRegex(ValueError, 'it is "ainv"'):
            A.apply('neg')
        for name in other_names.INSTEAD:
            self.assertFalse(any(name in ready for ready in spmat.operators.READY.values()), name)


class Functions(InSession):
    def test_each_is_what_numpy_computes(self):
        pairs = [(x, y) for x in EDGES for y in EDGES]
        X = self.s.from_coo(range(len(pairs)), [0] * len(pairs), [x for x, _ in pairs], len(pairs),
                            1)
        Y = self.s.from_coo(range(len(pairs)), [0] * len(pairs), [y for _, y in pairs], len(pairs),
                            1)
        xs, ys = (numpy.array(many, numpy.int64) for many in zip(*pairs))
        with numpy.errstate(all='ignore'):
            for name in other_names.UFUNCS['binary']:
                ufunc = getattr(numpy, name)
                with self.subTest(name=name):
                    self.assertEqual(X.ewise_mult(Y, ufunc).to_list(),
                                     ufunc(xs, ys).astype(numpy.int64).tolist())
                    self.assertEqual(X.apply(ufunc, right=7).to_list(),
                                     ufunc(xs, 7).astype(numpy.int64).tolist())
            for name in other_names.UFUNCS['unary']:
                ufunc = getattr(numpy, name)
                with self.subTest(name=name):
                    self.assertEqual(X.apply(ufunc).to_list(),
                                     ufunc(xs).astype(numpy.int64).tolist())
            for name in other_names.UFUNCS['index']:
                ufunc = getattr(numpy, name)
                chosen = numpy.flatnonzero(ufunc(xs, 2))
                self.assertEqual(X.select(ufunc, 2).to_coo()[0].tolist(), chosen.tolist(), name)
        self.assertEqual(X.reduce_scalar(numpy.maximum), max(EDGES))
        self.assertEqual(X.T.mxm(Y, (numpy.minimum, numpy.maximum)).to_list(),
                         [int(numpy.maximum(xs, ys).min())])

    def test_others_say_what_to_write(self):
        A = self.s.from_triples([(0, 0, 3), (0, 1, -4)], 1, 2)
        for ufunc, words in ((numpy.true_divide, 'cdiv'), (numpy.divide, 'floordiv'),
                             (numpy.remainder, 'cmod'), (numpy.power, r'x \*\* 3'),
                             (numpy.left_shift, 'lsh'),
                             (numpy.hypot, 'write a function of x and y'), (numpy.fmod, 'cmod')):
            with self.assertRaisesRegex(TypeError,
                                        r'np\.%s is no operator.*%s' % (ufunc.__name__, words)):
                A.ewise_mult(A, ufunc)
        for ufunc in (numpy.sqrt, numpy.isfinite, numpy.exp):
            with self.assertRaisesRegex(TypeError,
                                        r'np\.%s is no operator.*write a function of x, '
                                        % ufunc.__name__):
                A.apply(ufunc)
        with self.assertRaises(spmat.DomainMismatch):
            A.apply(numpy.add)
