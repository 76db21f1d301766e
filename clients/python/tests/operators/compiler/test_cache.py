"""An operator from a function follows what the function reaches: whatever changes between two uses
changes the operator."""
import builtins
import dataclasses
import decimal
import enum
import fractions
import functools
import sys
import types
from unittest import mock

import numpy

import support
from spmat import CompileError
from spmat.operators.compiler import compile_function as cache

TOLL = 5


class Settings:
    toll = 5


class Child(Settings):
    pass


class Meta(type):
    value = 5

    @property
    def toll(cls):
        return Meta.value


class WithMeta(metaclass=Meta):
    pass


class Methods:
    base = 5

    @staticmethod
    def fixed():
        return Methods.base

    @classmethod
    def own(cls):
        return cls.base

    @property
    def shown(self):
        return Methods.base


@dataclasses.dataclass
class Record:
    toll: int = 5


class Level(enum.IntEnum):
    LOW = 5


class Row(list):
    pass


def attributed(x):
    return x + attributed.toll


def importing(x):
    import spmat_toll_of_a_test
    return x + spmat_toll_of_a_test.toll


def helper():
    return Settings.toll


class Changes(support.InSession):
    def setUp(self):
        super().setUp()
        self.A = self.session.from_triples([(0, 0, 1)], 1, 1)

    def follows(self, function, change):
        """5 is added, and once it is changed 100."""
        self.assertEqual(self.A.apply(function).to_list(), [6])
        self.assertEqual(self.A.apply(function).to_list(), [6])
        change()
        self.assertEqual(self.A.apply(function).to_list(), [101])

    def test_attributes_of_classes(self):
        table = {'c': Settings}
        for function, where, name in [(lambda x: x + Settings.toll, Settings, 'toll'),
                                      (lambda x: x + table['c'].toll, Settings, 'toll'),
                                      (lambda x: x + helper(), Settings, 'toll'),
                                      (lambda x: x + Record.toll, Record, 'toll'),
                                      (lambda x: x + WithMeta.toll, Meta, 'value'),
                                      (lambda x: x + Methods.fixed(), Methods, 'base'),
                                      (lambda x: x + Methods.own(), Methods, 'base'),
                                      (lambda x: x + Methods().shown, Methods, 'base')]:
            with self.subTest(where=where):
                self.follows(function, functools.partial(setattr, where, name, 100))
                setattr(where, name, 5)

    def test_attributes_of_classes_above(self):
        self.addCleanup(setattr, Settings, 'toll', 5)
        self.follows(lambda x: x + Child.toll, lambda: setattr(Settings, 'toll', 100))

    def test_methods_that_are_replaced(self):
        self.addCleanup(setattr, Methods, 'fixed', Methods.__dict__['fixed'])
        self.follows(lambda x: x + Methods.fixed(),
                     lambda: setattr(Methods, 'fixed', staticmethod(lambda: 100)))

    def test_modules(self):
        module = types.ModuleType('outer')
        module.inner = types.ModuleType('inner')
        module.inner.toll = 5
        self.follows(lambda x: x + module.inner.toll, lambda: setattr(module.inner, 'toll', 100))

    def test_an_import_inside(self):
        module = sys.modules['spmat_toll_of_a_test'] = types.ModuleType('spmat_toll_of_a_test')
        self.addCleanup(sys.modules.pop, 'spmat_toll_of_a_test')
        module.toll = 5
        self.follows(importing, lambda: setattr(module, 'toll', 100))

    def test_attributes_of_functions(self):
        attributed.toll = 5
        self.follows(attributed, lambda: setattr(attributed, 'toll', 100))

    def test_names_by_text(self):
        self.addCleanup(globals().__setitem__, 'TOLL', 5)
        self.follows(lambda x: x + globals()['TOLL'], lambda: globals().__setitem__('TOLL', 100))
        globals()['TOLL'] = 5
        self.follows(lambda x: x + eval('TOLL'), lambda: globals().__setitem__('TOLL', 100))
        self.addCleanup(setattr, Settings, 'toll', 5)
        self.follows(lambda x: x + getattr(Settings, 'toll'),
                     lambda: setattr(Settings, 'toll', 100))

    def test_subclasses_and_objects(self):
        row = Row([1])
        row.toll = 5
        self.follows(lambda x: x + row.toll, lambda: setattr(row, 'toll', 100))
        one = types.SimpleNamespace(toll=5, function=attributed)
        self.follows(lambda x: x + one.toll, lambda: setattr(one, 'toll', 100))

    def test_functions_that_are_called(self):
        names = {'first': lambda y: y + 5, 'other': lambda y: y + 100}
        called = names['first']

        def change():
            nonlocal called
            called = names['other']
        self.follows(lambda x: called(x), change)

        def toll(y, more=5):
            return y + more
        self.follows(lambda x: toll(x), lambda: setattr(toll, '__defaults__', (100,)))

        def rate(y):
            return y + 5
        self.follows(lambda x: rate(x), lambda: setattr(
            rate, '__code__', (lambda y: y + 100).__code__))

    def test_three_calls_of_two_functions(self):
        """Which of them is called where."""
        first, other = (lambda y: y), (lambda y: 96 * y)
        used = [first, other, first]
        self.follows(lambda x: used[0](x) + used[2](x) + 4 * x + 0 * used[1](x),
                     lambda: used.__setitem__(2, other))

    def test_names_of_modules(self):
        """A name that a module has no more, and another one of the same value."""
        module = types.ModuleType('outer')
        module.low = 5

        def change():
            del module.low
            module.high = 5
        self.follows(lambda x: x + (module.low if hasattr(module, 'low') else module.high * 20),
                     change)

    def test_globals_of_a_function(self):
        self.addCleanup(globals().__setitem__, 'TOLL', 5)
        self.follows(lambda x: x + helper.__globals__['TOLL'],
                     lambda: globals().__setitem__('TOLL', 100))

    def test_builtins(self):
        builtins.spmat_toll = 5
        self.addCleanup(delattr, builtins, 'spmat_toll')
        # noqa: F821
        self.follows(lambda x: x + spmat_toll, lambda: setattr(builtins, 'spmat_toll', 100))

    def test_what_stays_is_compiled_once(self):
        table, twice, _ = [5, 6, 7], lambda y: 2 * y, support.spmat.where     # which is loaded now
        by_class = functools.partial(lambda y, x: max(x, y) + Settings.toll + Level.LOW * 0, 5)
        for function, times in ((lambda x: sum(x > n for n in range(4)) + abs(x), 1),
                                (lambda x: table[x % 3] + twice(x) * TOLL, 1),
                                (lambda x: support.spmat.where(x > 3, x, 3) % 7, 1),
                                (by_class, 3)):
            with mock.patch.object(cache, 'compile_function', wraps=cache.compile_function) as made:
                for _ in range(3):
                    self.A.apply(function)
            self.assertEqual(made.call_count, times)

    def test_a_function_that_is_made_again_is_compiled_once(self):
        """As a lambda in a loop is; what it encloses counts, whichever was used last."""
        def adder(number):
            return lambda x: x + number

        with mock.patch.object(cache, 'compile_function', wraps=cache.compile_function) as made:
            for _ in range(3):
                self.assertEqual(self.A.apply(lambda x: x * 3 + 1).to_list(), [4])
            self.assertEqual(made.call_count, 1)
            five, six = adder(5), adder(6)
            for _ in range(3):
                self.assertEqual(self.A.apply(five).to_list(), [6])
                self.assertEqual(self.A.apply(six).to_list(), [7])
            self.assertEqual(made.call_count, 3)
            self.assertEqual(self.A.apply(adder(6)).to_list(), [7])
            self.assertEqual(self.A.apply(adder(7)).to_list(), [8])
            self.assertEqual(made.call_count, 4)


class Comparisons(support.InSession):
    """An operand beside what is no plain number: what Python says of it, or an error; never unequal
    without a word."""

    def setUp(self):
        self.A = self.s.from_triples([(0, 0, 77), (1, 1, 3)], 2, 2)

    def test_other_kinds_of_numbers(self):
        for number in (decimal.Decimal(77), fractions.Fraction(77)):
            self.assertEqual(self.A.select(lambda x: x == number).nvals, 1)
            self.assertEqual(self.A.select(lambda x: x != number).nvals, 1)
            self.assertEqual(self.A.select(lambda x: x in [number]).nvals, 1)
        self.assertEqual(self.A.select(lambda x: x != decimal.Decimal('1.5')).nvals, 2)
        self.assertEqual(self.A.select(lambda x: x != None).nvals, 2)     # noqa: E711

    def test_several_numbers(self):
        for several in ([77], (77,), {77}, {77: 1}):
            for function in (lambda x: x == several, lambda x: x != several):
                with self.assertRaisesRegex(CompileError, r'x in list\(values\)'):
                    self.A.select(function)
        self.assertEqual(self.A.select(lambda x: x in (77, 5)).nvals, 1)

    @support.needs('pandas')
    def test_arrays(self):
        import pandas
        for several in (numpy.array([77, 88]), numpy.array([20]), pandas.Series([77]),
                        pandas.Index([77]), numpy.timedelta64(77, 's')):
            for function in (lambda x: x == several, lambda x: x != several):
                with self.assertRaises((CompileError, TypeError)):
                    self.A.select(function)
        for several in (numpy.array([77, 88]), pandas.Series([77]).unique()):
            with self.assertRaises((CompileError, TypeError)):
                self.A.select(lambda x: x in several)
            with self.assertRaises((CompileError, TypeError)):
                self.A.select(lambda x, i: i in several)
            self.assertEqual(self.A.select(lambda x: x in list(several)).nvals, 1)
        self.assertEqual(self.A.select(lambda x: x == numpy.int64(77)).nvals, 1)

    def test_abs_keeps_the_unit(self):
        P = self.s.from_edgelist([('a', 'b', -1.5), ('a', 'c', 2.5)], scale=10)
        self.assertEqual(P.apply(abs).to_edgelist(), [('a', 'b', 1.5), ('a', 'c', 2.5)])
        self.assertEqual(self.A.apply('ainv').apply(abs).to_triples(), self.A.to_triples())

    def test_names_of_the_greatest(self):
        G = self.s.from_edgelist([(1, 2, 5), (1, 3, 7), (2, 3, 2), (3, 1, 4)])
        self.assertEqual(G.reduce_rowwise('argmax').by_node(), {1: 3, 2: 3, 3: 1})
        self.assertEqual(G.reduce_columnwise('argmin').by_node(), {1: 3, 2: 1, 3: 2})
        self.assertEqual(G.reduce_rowwise('argmax').to_list(), [2, 2, 0])
