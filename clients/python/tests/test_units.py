"""Units: a stored whole number x stands for x / unit. Decimals that are read come out as decimals,
jobs carry units, and where two that differ meet it is UnitsDiffer. What stored numbers stand for is
compared with Python's fractions."""
import csv
import functools
import io
import os
import pathlib
import random
import tempfile
from decimal import Decimal
from fractions import Fraction

import numpy
import pytest

import command_line
import support
import spmat
from ready_meanings import BINARY
import spmat_blocks as blocks
from spmat import UnitsDiffer, algorithms, binary

pytestmark = pytest.mark.slow

UNITS = ((1, 1), (1, 100), (100, 1), (100, 100), (100, 1000), (1000, 100), (3, 3), (3, 100))
LEAST, MOST = -2 ** 63, 2 ** 63 - 1


def meanings(names):
    """What built-in operators come to in numbers."""
    return {name: BINARY[name] for name in names.split()}


# Those of values of one unit, which the result has, too; those of one unit that answer a question;
# and those whose values may have any units.
MEET = meanings('plus minus rminus min max any absdiff cmod')
COMPARE = meanings('eq ne lt le gt ge iseq isne')
ONE_OF = meanings('first second')
NUMBER = meanings('pair oneb zero land lor lxor lxnor')
TIMES = meanings('times')
EXACT = {**MEET, **COMPARE, **ONE_OF, **NUMBER, **TIMES}
FOLDS = {**MEET, **ONE_OF}                         # those whose results are as what stands alone
DIVIDE, ON_BITS = ('floordiv', 'cdiv', 'rdiv'), ('band', 'bor', 'bxor', 'bxnor', 'lsh', 'rsh',
                                                 'arsh')


def numbers(matrix):
    """What the entries stand for, exactly, by position."""
    return {at: Fraction(value) / matrix.unit for at, value in matrix.to_dict().items()}


def made(session, entries, unit, shape=(3, 3)):
    """A matrix of stored numbers by position, which are parts of a unit."""
    rows, columns, values = (zip(*((i, j, x) for (i, j), x in entries.items())) if entries
                             else ((), (), ()))
    matrix = session.from_coo(rows, columns, values, *shape)
    matrix.unit = unit
    return matrix


def entries_of(chance, count, size=3):
    """Random entries without 0."""
    cells = chance.sample([(i, j) for i in range(size) for j in range(size)], count)
    return {cell: chance.choice((-1, 1)) * chance.randrange(1, 40) for cell in cells}


class Case(support.InSession):
    def differ(self, call, *words):
        with self.assertRaises(UnitsDiffer) as said:
            call()
        for word in words:
            self.assertIn(word, str(said.exception))

    def either(self, refused, call, want):
        """What a call gives in numbers, or UnitsDiffer."""
        if refused:
            self.differ(call)
        else:
            self.assertEqual(numbers(call()), want)


class Acts(Case):
    """What a user does."""

    def setUp(self):
        self.cents = self.s.from_edgelist([('A', 'B', 1.25), ('B', 'C', 0.5)], scale=100)
        self.mills = self.s.from_edgelist([('A', 'B', 1.25), ('B', 'C', 3)], scale=1000)

    def test_hundredths_and_thousandths_do_not_meet(self):
        self.differ(lambda: self.cents.ewise_add(self.mills), 'a unit of 100,', 'B of 1000;',
                    'A.rescale(1000)')
        self.differ(lambda: self.mills.ewise_add(self.cents), 'B.rescale(1000)')
        for call in (lambda a, b: a.ewise_mult(b, 'min'), lambda a, b: a.mxm(b, 'min_plus'),
                     lambda a, b: a.mxm(b, 'max_min'), lambda a, b: a.update(b, mask=b.S),
                     lambda a, b: a.update(b, 'max'), lambda a, b: a.isequal(b),
                     lambda a, b: a.ewise_mult(b, 'lt'),
                     lambda a, b: a.ewise_add(b, lambda x, y: x + y)):
            self.differ(lambda call=call: call(self.cents, self.mills), 'rescale')
        self.assertEqual(self.cents.rescale(1000).ewise_add(self.mills).to_edgelist(),
                         [('A', 'B', 2.5), ('B', 'C', 3.5)])
        self.assertTrue(issubclass(UnitsDiffer, (spmat.SpmatError, ValueError)))

    def test_masks_have_no_units(self):
        few = self.mills.select('>', 2)
        self.assertEqual(self.cents.dup(mask=few.S).to_edgelist(), [('B', 'C', 0.5)])
        self.assertEqual(self.cents.without(few).to_edgelist(), [('A', 'B', 1.25)])
        self.assertEqual(self.cents.ewise_mult(self.cents, mask=~few.V).to_edgelist(),
                         [('A', 'B', 1.5625)])
        self.assertEqual(self.cents.update(self.cents.apply('plus', right=1),
                                           mask=few.S).to_edgelist(),
                         [('A', 'B', 1.25), ('B', 'C', 1.5)])
        self.assertEqual(self.cents.update(self.mills, mask=few.S, replace=True).to_edgelist(),
                         [('B', 'C', 3.0)])

    def test_numbers_beside_a_matrix_are_numbers(self):
        A = self.cents
        self.assertEqual(A.select('>=', 1.25).to_edgelist(), [('A', 'B', 1.25)])
        self.assertEqual(A.select('valueeq', Decimal('0.50')).to_edgelist(), [('B', 'C', 0.5)])
        self.assertEqual(A.select('<', 1).to_edgelist(), [('B', 'C', 0.5)])
        self.assertEqual(A.apply('plus', right=0.25).to_edgelist(),
                         [('A', 'B', 1.5), ('B', 'C', 0.75)])
        self.assertEqual(A.apply('minus', left=Fraction(3, 2)).to_edgelist(),
                         [('A', 'B', 0.25), ('B', 'C', 1.0)])
        self.assertEqual(A.apply('min', right=1).to_edgelist(), [('A', 'B', 1.0), ('B', 'C', 0.5)])
        self.assertEqual(A.apply('gt', right=0.75).to_edgelist(), [('A', 'B', 1), ('B', 'C', 0)])
        self.assertEqual(A.apply('times', right=3).to_edgelist(),
                         [('A', 'B', 3.75), ('B', 'C', 1.5)])
        self.assertEqual(A.apply('floordiv', right=2).to_edgelist(),
                         [('A', 'B', 0.62), ('B', 'C', 0.25)])
        self.assertEqual(A.apply('cdiv', right=-2).to_edgelist(),
                         [('A', 'B', -0.62), ('B', 'C', -0.25)])
        self.assertEqual(A.apply('lsh', right=1).to_edgelist(), [('A', 'B', 250), ('B', 'C', 100)])
        self.assertEqual(A.select('rowle', 0).to_edgelist(), [('A', 'B', 1.25)])
        self.assertEqual(A.apply('colindex', right=5).to_edgelist(), [('A', 'B', 6), ('B', 'C', 7)])
        for call in (lambda: A.apply('plus', right=0.125), lambda: A.apply('times', right=0.5),
                     lambda: A.apply('max', right=1e17), lambda: A.select('==', float('nan')),
                     lambda: A.select('rowle', 0.5)):
            with self.assertRaises(ValueError):
                call()
        with self.assertRaisesRegex(ValueError, r'1\.255 .*1/100.*A\.rescale\(1000\)'):
            A.apply('minus', right=1.255)
        with self.assertRaises(TypeError):
            A.select('>=', '1.5')

    def test_own_operators_have_stored_numbers(self):
        A = self.cents
        for op in (lambda x: x + 1, spmat.unary(lambda x: x + 1)):
            self.assertEqual((A.apply(op).unit, A.apply(op).to_edgelist()),
                             (1, [('A', 'B', 126), ('B', 'C', 51)]))
        self.assertEqual(A.apply(lambda x, y: x + 2 * y, right=3).to_edgelist(),
                         [('A', 'B', 131), ('B', 'C', 56)])
        self.assertEqual(A.select(lambda x, i, j, k: x > k, 60).to_edgelist(), [('A', 'B', 1.25)])
        self.assertEqual(A.ewise_mult(self.mills, lambda x, y: 8 * x - y).to_edgelist(),
                         [('A', 'B', -250), ('B', 'C', -2600)])
        self.assertEqual(A.mxm(A, ('plus', lambda x, y: x + y + 1)).unit, 1)
        again = A.apply(lambda x: x + 1)
        self.differ(lambda: A.ewise_add(again), 'a unit of 100,', 'B of 1;')
        again.unit = 100
        self.assertEqual(A.ewise_add(again).to_edgelist(), [('A', 'B', 2.51), ('B', 'C', 1.01)])
        # its program is that of a built-in operator, so that its result's unit is known; the number
        # beside it is a stored one all the same
        self.assertEqual(A.apply(lambda x, y: x + y, right=25).to_edgelist(),
                         [('A', 'B', 1.5), ('B', 'C', 0.75)])

    def test_what_keeps_a_unit(self):
        A = self.cents
        B = self.s.from_edgelist([('A', 'B', 2, )], scale=100, bipartite=True)
        for made_ in (A.T, A.T.T, A.dup(), A.apply('ainv'), A.apply('abs'), A.apply('identity'),
                      A['A', :], A[['A', 'B'], :], A[:, ['B']], A.diag(), A['A', :].diag(),
                      A.reduce_rowwise('max'), A.reduce_columnwise(), self.s.adopt(A), A.wait(),
                      spmat.bipartite(B), algorithms.sssp(A, 'A'), A.select('offdiag'),
                      A.apply('nonzero', right=0), A.mxm(A, 'min_plus')):
            self.assertEqual(made_.unit, 100, made_)
        for made_ in (A.apply('one'), A.apply('lnot'), A.apply('sgn'), A.apply('rowindex'),
                      A.mxm(A, 'plus_pair'), A.reduce_rowwise('plus').apply('one')):
            self.assertEqual(made_.unit, 1, made_)
        self.assertEqual(A.mxm(A).to_edgelist(), [('A', 'C', 0.625)])
        self.assertEqual((A['A', 'B'], A['A', 'C'], A.reduce_scalar(), A.reduce_scalar('min'),
                          A.reduce_scalar(raw=True)), (1.25, None, 1.75, 0.5, 175))

    def test_transposes_follow_a_unit_that_is_set(self):
        for sessions in (self.s, blocks.Sessions(2)):
            A = sessions.from_edgelist([('A', 'B', 1.25)], scale=100)
            self.assertEqual(A.T.to_edgelist(), [('B', 'A', 1.25)])
            A.unit = 10
            self.assertEqual((A.T.unit, A.T.to_edgelist(), A.T.T.to_edgelist()),
                             (10, [('B', 'A', 12.5)], [('A', 'B', 12.5)]))
            algorithms.sssp(A, 'A', A.T)
            self.assertEqual((A.unit, A.T.unit), (10, 10))
            if sessions is not self.s:
                sessions.close()

    def test_a_unit_is_a_number_above_0(self):
        A = self.cents.dup()
        for unit, want in ((7, 7), (100.0, 100), (Decimal('1e3'), 1000), (Fraction(4, 2), 2)):
            A.unit = unit
            self.assertEqual((A.unit, type(A.unit)), (want, type(want)))
        for unit in (0, -1, float('nan'), float('inf'), None, 'x', '100', 2.5, Fraction(1, 3)):
            with self.assertRaisesRegex(ValueError, 'a whole number above 0'):
                A.unit = unit

    def test_words(self):
        self.assertIn('unit 100', repr(self.cents))
        self.assertNotIn('unit', repr(self.s.identity(2)))
        self.assertIn('unit=100', repr(self.cents.notes))
        shown = self.cents._repr_html_()
        self.assertIn('>1.25<', shown)
        self.assertNotIn('>125<', shown)

    def test_loops_keep_a_unit(self):
        loop = spmat.loop(lambda x: {'far': x.far.ewise_add(x.far.mxm(self.cents, 'min_plus'),
                                                            'min')}, {'far': self.cents})
        loop.advance(2)
        self.assertEqual(loop.state.far.to_edgelist(),
                         [('A', 'B', 1.25), ('A', 'C', 1.75), ('B', 'C', 0.5)])
        for step in (lambda x: {'far': x.far.ewise_mult(x.far)},
                     lambda x: {'far': x.far.apply('one')}):
            self.differ(lambda step=step: spmat.loop(step, {'far': self.cents}).advance(2), 'far',
                        '100')
        square = spmat.fixpoint(self.cents,
                                lambda x: x.ewise_add(x.mxm(self.cents, 'min_plus'), 'min'))
        self.assertEqual(square.to_edgelist(),
                         [('A', 'B', 1.25), ('A', 'C', 1.75), ('B', 'C', 0.5)])


class Table(Case):
    """All built-in binary operators by all units, in numbers."""

    def pairs(self):
        chance = random.Random(7)
        for first, second in UNITS:
            x, y = entries_of(chance, 5), entries_of(chance, 6)
            yield first, second, x, y, made(self.s, x, first), made(self.s, y, second)

    def test_all_operators_are_here(self):
        known = {binary[name] for name in (*EXACT, *DIVIDE, *ON_BITS)}
        self.assertEqual([name for name in binary.ready() if binary[name] not in known], [])

    def test_both(self):
        for u, v, x, y, A, B in self.pairs():
            for name, model in EXACT.items():
                refused = u != v and name in {**MEET, **COMPARE}
                want = {at: Fraction(model(Fraction(x[at]) / u, Fraction(y[at]) / v))
                        for at in x.keys() & y.keys()}
                with self.subTest(name=name, units=(u, v)):
                    self.either(refused, lambda name=name: A.ewise_mult(B, name), want)
            for name in DIVIDE:
                ratio = Fraction(v) / u if name == 'rdiv' else Fraction(u) / v
                if ratio.denominator == 1:
                    self.assertEqual(A.ewise_mult(B, name).unit, ratio)
                    self.assertEqual(A.ewise_mult(B, name).to_dict(),
                                     made(self.s, x,
                                          1).ewise_mult(made(self.s, y, 1), name).to_dict())
                else:
                    self.differ(lambda name=name: A.ewise_mult(B, name), 'rescale')
            self.assertEqual({A.ewise_mult(B, name).unit for name in ON_BITS}, {1})

    def test_union(self):
        for u, v, x, y, A, B in self.pairs():
            for name, model in EXACT.items():
                want = {**{at: Fraction(one) / u for at, one in x.items()},
                        **{at: Fraction(one) / v for at, one in y.items()},
                        **{at: Fraction(model(Fraction(x[at]) / u, Fraction(y[at]) / v))
                           for at in x.keys() & y.keys()}}
                with self.subTest(name=name, units=(u, v)):
                    self.either(u != v or (u != 1 and name not in FOLDS),
                                lambda name=name: A.ewise_add(B, name), want)

    def test_folds(self):
        for u, _, x, _, A, _ in self.pairs():
            for name, model in EXACT.items():
                rows = {i: [Fraction(one) / u for (row, _), one in sorted(x.items()) if row == i]
                        for i, _ in x}
                want = {(i, 0): Fraction(functools.reduce(model, many)) for i, many in rows.items()}
                with self.subTest(name=name, unit=u):
                    self.either(u != 1 and name not in FOLDS,
                                lambda name=name: A.reduce_rowwise(name), want)

    def test_products(self):
        """The terms have a unit, and the fold has to keep it."""
        for u, v, x, y, A, B in self.pairs():
            for add in ('plus', 'min', 'any', 'times', 'lor', 'second'):
                for mul in ('plus', 'times', 'first', 'second', 'pair', 'eq', 'min', 'land'):
                    unit = (u * Fraction(v) if mul == 'times' else 1 if mul in {**NUMBER, **COMPARE}
                            else v if mul == 'second' else u)
                    terms = {}
                    for (i, k), one in sorted(x.items()):
                        for (row, j), other in sorted(y.items()):
                            if row == k:
                                terms.setdefault((i, j),
                                                 []).append(
                                                     Fraction(EXACT[mul](Fraction(one) / u,
                                                                         Fraction(other) / v)))
                    want = {at: Fraction(functools.reduce(EXACT[add], many))
                            for at, many in terms.items()}
                    refused = ((u != v and mul in {**MEET, **COMPARE})
                               or (unit != 1 and add not in FOLDS))
                    with self.subTest(add=add, mul=mul, units=(u, v)):
                        self.either(refused, lambda ring='%s_%s' % (add, mul): A.mxm(B, ring), want)

    def test_bound(self):
        """A number on either side, which each unit holds."""
        for u, _, x, _, A, _ in self.pairs():
            number = Fraction(6) / u
            for name, model in {**MEET, **COMPARE, **ONE_OF}.items():
                self.assertEqual(numbers(A.apply(name, right=number)),
                                 {at: Fraction(model(Fraction(one) / u, number))
                                  for at, one in x.items()}, name)
                self.assertEqual(numbers(A.apply(name, left=number)),
                                 {at: Fraction(model(number, Fraction(one) / u))
                                  for at, one in x.items()}, name)
            for between in (Fraction(13, 2), Fraction(-20, 3), Fraction(1, 1000)):
                # which no stored number is
                for name in ('lt', 'le', 'gt', 'ge') if u != 1 else ():
                    model, number = COMPARE[name], between / u
                    self.assertEqual(numbers(A.apply(name, right=number)),
                                     {at: int(model(Fraction(one) / u, number))
                                      for at, one in x.items()})
                    self.assertEqual(numbers(A.apply(name, left=number)),
                                     {at: int(model(number, Fraction(one) / u))
                                      for at, one in x.items()})
                    self.assertEqual(A.select('value' + name, number).to_dict(),
                                     {at: one for at, one in x.items()
                                      if model(Fraction(one) / u, number)})
            number = Fraction(6) / u
            self.assertEqual(numbers(A.apply('times', left=-4)),
                             {at: Fraction(-4 * one) / u for at, one in x.items()})
            for sign, model in (('>', COMPARE['gt']), ('<=', COMPARE['le']), ('==', COMPARE['eq']),
                                ('valuene', COMPARE['ne'])):
                self.assertEqual(numbers(A.select(sign, number)),
                                 {at: Fraction(one) / u for at, one in x.items()
                                  if model(Fraction(one) / u, number)})

    def test_blocks_are_alike(self):
        chance = random.Random(11)
        with blocks.Sessions(2) as many:
            for u, v in ((100, 100), (100, 1000), (1, 100), (1000, 10)):
                x, y = entries_of(chance, 12, 5), entries_of(chance, 12, 5)
                for name in (*EXACT, *DIVIDE, 'bor'):
                    for call in (lambda a, b, name=name: a.ewise_mult(b, name),
                                 lambda a, b, name=name: a.ewise_add(b, name),
                                 lambda a, b, name=name: a.reduce_rowwise(name),
                                 lambda a, b, name=name: a.mxm(b, 'min_' + name)):
                        self.assertEqual(*(self.outcome(call, made(s, x, u, (5, 5)),
                                                        made(s, y, v, (5, 5)))
                                           for s in (self.s, many)), (name, u, v))

    def outcome(self, call, A, B):
        try:
            return call(A, B).unit, numbers(call(A, B))
        except UnitsDiffer as fault:
            return str(fault)


class Rescaled(Case):
    def test_exact(self):
        A = self.s.from_edgelist([('A', 'B', 1.25), ('B', 'A', -0.5)], scale=100)
        for unit in (1000, 100, 20, 300, Fraction(100, 25) * 5):
            self.assertEqual((A.rescale(unit).unit, A.rescale(unit).to_edgelist()),
                             (unit, A.to_edgelist()))
        self.assertIs(A.rescale(100), A)
        for unit in (10, 1, 50, 7):
            with self.assertRaisesRegex(ValueError, 'would lose digits .*exact=False'):
                A.rescale(unit)
        for unit in (0, -1, 'x'):
            with self.assertRaisesRegex(ValueError, 'above 0'):
                A.rescale(unit)
        undirected = self.s.from_edgelist([('A', 'B', 1.5)], scale=10, directed=False).rescale(100)
        self.assertEqual((undirected.directed, undirected.nodes, undirected.notes.weighted),
                         (False, ['A', 'B'], True))
        self.assertEqual(self.s.from_coo([], [], [], 2, 2).rescale(10).unit, 10)

    def test_rounding(self):
        """To the nearest, halves to the even one, as Python rounds fractions; also of values at the
        ends of 64 bits."""
        chance = random.Random(3)
        stored = [*range(-12, 13), MOST, LEAST, MOST - 1,
                  *(chance.randrange(LEAST, MOST) for _ in range(40))]
        for sessions in (self.s, blocks.Sessions(2)):
            for before, after in ((100, 10), (100, 1), (1000, 3), (4, 2), (7, 5)):
                A = sessions.from_coo(range(len(stored)), [0] * len(stored), stored)
                A.unit = before
                want = [round(Fraction(x) * after / before) for x in stored]
                self.assertEqual(A.rescale(after, exact=False).to_list(), want, (before, after))
            if sessions is not self.s:
                sessions.close()

    def test_64_bits(self):
        for value, unit in ((MOST, 2), (LEAST, 2), (MOST // 10 + 1, 10), (LEAST // 10 - 1, 10),
                            (1, 1 << 63)):
            A = self.s.from_coo([0], [0], [value], 2, 2)
            for exact in (True, False):
                with self.assertRaisesRegex(ValueError, '64 bits'):
                    A.rescale(unit, exact=exact)
        for value, unit in ((MOST // 10, 10), (-(2 ** 63 // 10), 10), (LEAST // 2, 2),
                            (1, 1 << 62)):
            self.assertEqual(self.s.from_coo([0], [0], [value], 2, 2).rescale(unit).to_dict(),
                             {(0, 0): value * unit})


class OutAndIn(Case):
    """Random decimals through each reader and writer."""

    def setUp(self):
        folder = support.enter(self, tempfile.TemporaryDirectory())
        self.path = os.path.join(folder, 'g.csv')
        chance = random.Random(5)
        names = ['n%d' % k for k in range(12)]
        cells = chance.sample([(a, b) for a in names for b in names if a != b], 60)
        self.edges = [(a, b, chance.randrange(-10 ** 6, 10 ** 6) / 1000) for a, b in cells]

    def write(self, text):
        pathlib.Path(self.path).write_text(text)
        return self.path

    def same(self, matrix, unit=1000):
        self.assertEqual((matrix.unit, sorted(matrix.to_edgelist())), (unit, sorted(self.edges)))

    def test_lists(self):
        for sessions in (self.s, blocks.Sessions(2)):
            G = sessions.from_edgelist(self.edges, scale=1000)
            self.same(G)
            self.assertEqual(sorted(G.to_edgelist(raw=True)),
                             sorted((a, b, round(1000 * x)) for a, b, x in self.edges))
            for path in (self.write(G.to_csv()), self.write(G.to_csv(scale=1000))):
                self.same(sessions.read_graph(path, scale=1000))
                self.same(sessions.read_edgelist(path, scale=1000))
            G.write_edgelist(self.path)
            self.same(sessions.read_graph(self.path, sep=' ', scale=1000))
            self.assertEqual(sessions.read_graph(self.path, sep=' ', values=False,
                                                 scale=1000).unit, 1)
            self.same(sessions.load(self.saved(sessions, G))['G'])
            self.same(sessions.adopt(G))
            self.same(sessions.from_edgelist(self.edges + self.edges, scale=1000, dup_op='first'))
            self.differ(lambda sessions=sessions: sessions.from_edgelist(self.edges + self.edges,
                                                                         scale=1000,
                                                                         dup_op='times'))
            again = sessions.from_edgelist(self.edges + self.edges, scale=1000,
                                           dup_op=lambda x, y: (x + y) // 2)
            self.same(again)                       # the caller says the scale
            self.assertEqual(sessions.from_edgelist([('a', 'b'), ('a', 'b')], scale=1000,
                                                    dup_op='plus').to_edgelist(), [('a', 'b', 2)])
            if sessions is not self.s:
                sessions.close()

    def saved(self, sessions, G):
        sessions.save(self.path + '.zip', G=G, plain=sessions.identity(2))
        self.assertEqual(sessions.load(self.path + '.zip')['plain'].unit, 1)
        return self.path + '.zip'

    def test_by_position(self):
        cells = [(i, j, x) for (i, j), x in {(int(a[1:]), int(b[1:])): x
                                             for a, b, x in self.edges}.items()]
        want = sorted(cells)
        for made_ in (self.s.from_triples(cells, 12, 12, scale=1000),
                      self.s.from_coo(*zip(*cells), 12, 12, scale=1000)):
            self.assertEqual((made_.unit, made_.to_edgelist()), (1000, want))
            self.assertEqual(made_.to_triples(), [(i, j, round(1000 * x)) for i, j, x in want])
            self.assertEqual(list(zip(*made_.to_coo(arrays=False, dtype=float))), want)
            self.assertEqual(made_.to_dict(), {(i, j): round(1000 * x) for i, j, x in want})
        column = self.s.from_coo([0, 2], [0, 0], [1.5, 2], 4, 1, scale=10)
        self.assertEqual((column.to_list(0), column.to_list(dtype=float), column.by_node(),
                          column.by_node(raw=True), column.top(1)),
                         ([15, 0, 20, 0], [1.5, None, 2.0, None], {0: 1.5, 2: 2.0}, {0: 15, 2: 20},
                          [(2, 2.0)]))
        self.assertEqual(self.s.from_coo([0], [1], 0.5, scale=10).to_edgelist(), [(0, 1, 0.5)])
        self.assertEqual(self.s.from_dense([[0.5, 1], [0, -2.25]], 0, scale=100).to_edgelist(),
                         [(0, 0, 0.5), (0, 1, 1.0), (1, 1, -2.25)])
        self.assertEqual(self.s.from_coo([0], [1], 7).to_list(dtype=float), [None, 7.0])
        with self.assertRaisesRegex(TypeError, 'dtype=float'):
            column.to_list(dtype='complex')

    def test_matrix_market(self):
        head = '%%MatrixMarket matrix coordinate '
        for sessions in (self.s, blocks.Sessions(2)):
            for kind, value, want in (('real', '1.25', 1.25), ('integer', '7', 7.0)):
                made_ = sessions.mmread(io.BytesIO(('%s%s symmetric\n2 2 1\n2 1 %s\n'
                                                    % (head, kind, value)).encode()), scale=100)
                self.assertEqual((made_.unit, made_.to_edgelist()),
                                 (100, [(0, 1, want), (1, 0, want)]))
            pattern = sessions.mmread(io.BytesIO((head + 'pattern general\n2 2 1\n2 1\n').encode()),
                                      scale=100)
            self.assertEqual((pattern.unit, pattern.to_edgelist()), (1, [(1, 0, 1)]))
            text = io.BytesIO()
            made_.mmwrite(text)
            self.assertIn(b'2 1 700', text.getvalue())
            if sessions is not self.s:
                sessions.close()

    def test_all_digits_in_text(self):
        """Floats have 53 bits; text has all that stored numbers have."""
        for value, unit, want in ((MOST, 100, '92233720368547758.07'),
                                  (LEAST, 1000, '-9223372036854775.808'), (125, 100, '1.25'),
                                  (100, 100, '1.0'),
                                  (-5, 1000, '-0.005'), (0, 10, '0.0'), (1, 3, repr(1 / 3)),
                                  (970, 10000, '0.097'),
                                  (1, 1 << 40, '0.0000000000009094947017729282379150390625'),
                                  (5, 1, '5')):
            column = made(self.s, {(0, 0): value}, unit, (2, 1))
            self.assertEqual(next(csv.reader([column.to_csv(header=False)])), ['0', want])
            self.assertEqual(column.by_node(), {0: float(Fraction(want)) if unit != 1 else 5})
            self.assertEqual(column.to_csv(raw=True, header=False), '0,%d\n' % value)
        with self.assertRaisesRegex(TypeError, 'raw=True .* scale='):
            column.to_csv(raw=True, scale=10)

    @support.needs('networkx')
    def test_networkx(self):
        import networkx
        graph = networkx.DiGraph()
        graph.add_weighted_edges_from(self.edges)
        G = self.s.from_networkx(graph, scale=1000)
        self.same(G)
        self.assertEqual(dict(G.to_networkx().edges), dict(graph.edges))
        self.assertEqual(G.to_networkx(raw=True).edges[self.edges[0][:2]]['weight'],
                         round(1000 * self.edges[0][2]))
        self.assertEqual(self.s.from_networkx(graph, None, scale=1000).unit, 1)
        for format_ in ('graphml', 'gml'):
            text = io.BytesIO()
            getattr(networkx, 'write_' + format_)(graph, text)
            self.same(self.s.read_graph(io.BytesIO(text.getvalue()), scale=1000))

    @support.needs('pandas', 'pyarrow')
    def test_parquet(self):
        G = self.s.from_edgelist(self.edges, scale=1000)
        G.to_parquet(self.path)
        self.same(self.s.read_graph(self.path, scale=1000))
        G.to_parquet(self.path, raw=True)
        self.assertEqual(self.s.read_graph(self.path).to_edgelist(), G.to_edgelist(raw=True))

    def test_folders(self):
        """Of a folder each file is read by a worker."""
        folder = os.path.join(os.path.dirname(self.path), 'lists')
        os.mkdir(folder)
        for number in range(3):
            with open(os.path.join(folder, '%d.csv' % number), 'w') as file:
                file.writelines('%s,%s,%s\n' % edge for edge in self.edges[number::3])
        with blocks.Sessions(2) as many:
            self.same(many.read_graph(folder, scale=1000))
            self.assertEqual(many.read_graph(folder, values=False, scale=1000).unit, 1)

    @support.needs('matplotlib', 'numpy')
    def test_pictures(self):
        from matplotlib.figure import Figure
        G = self.s.from_edgelist([('a', 'b', 1.25), ('b', 'c', 1500)], scale=100)
        written = {text.get_text() for text in spmat.draw.graph(G, ax=Figure().add_subplot()).texts}
        self.assertTrue({'1.25', '1,500.0'} <= written, written)

    def test_dimacs(self):
        G = self.s.read_graph(io.BytesIO(b'p sp 2 1\na 1 2 1.5\n'), scale=10)
        self.assertEqual((G.unit, G.to_edgelist()), (10, [(1, 2, 1.5)]))

    @support.needs('pandas')
    def test_pandas(self):
        import pandas
        frame = pandas.DataFrame(self.edges, columns=['source', 'target', 'weight'])
        for sessions in (self.s, blocks.Sessions(2)):
            G = sessions.from_pandas_edgelist(frame, edge_attr='weight', scale=1000)
            self.same(G)
            for out in (G.to_pandas(), G.to_pandas_edgelist(), G.to_pandas(scale=1000)):
                self.assertEqual(str(out['weight'].dtype), 'float64')
                self.same(sessions.from_pandas_edgelist(out, edge_attr='weight', scale=1000))
            self.assertEqual(str(G.to_pandas(raw=True)['weight'].dtype), 'int64')
            column = G.reduce_rowwise('max').to_pandas()
            self.assertEqual((str(column.dtype), column.to_dict()),
                             ('float64', G.reduce_rowwise('max').by_node()))
            self.assertEqual(str(sessions.identity(2).to_pandas()['weight'].dtype), 'int64')
            if sessions is not self.s:
                sessions.close()

    @support.needs('scipy')
    def test_arrays(self):
        import scipy.sparse
        table = scipy.sparse.coo_matrix(([1.25, -3.5], ([0, 1], [1, 0])), (2, 2))
        A = self.s.from_scipy_sparse(table, scale=100)
        self.assertEqual((A.unit, A.to_dense().tolist()), (100, [[0, 125], [-350, 0]]))
        for dense in (A.to_dense(float), A.to_dense(dtype='float64'), A.to_dense(numpy.float64),
                      A.to_dense(numpy.dtype('float64')), A.to_dense(0, float),
                      A.to_scipy_sparse(dtype=float).toarray()):
            self.assertEqual((dense.tolist(), dense.dtype), ([[0, 1.25], [-3.5, 0]], numpy.float64))
        self.assertTrue(numpy.isnan(A.to_dense(numpy.nan, float)[0, 0]))
        for dense in (A.to_dense(7), A.to_dense(numpy.int64(7)), A.to_dense(7, int),
                      A.to_dense(fill=7)):
            self.assertEqual((dense.tolist(), dense.dtype), ([[7, 125], [-350, 7]], numpy.int64))
        self.assertEqual(A.to_coo(dtype=float)[2].tolist(), [1.25, -3.5])
        self.assertEqual(A.to_scipy_sparse().dtype, numpy.int64)
        large = made(self.s, {(0, 0): MOST, (0, 1): LEAST}, 1000, (1, 2))
        self.assertEqual(large.to_dense(float).tolist(), [[MOST / 1000, LEAST / 1000]])
        with self.assertRaises(TypeError):
            A.to_dense(complex)


class Algorithms(Case):
    """Lengths have the graph's unit, and counts have none."""
    roads = [('a', 'b', 1.5), ('b', 'c', 0.25), ('a', 'c', 2), ('c', 'd', 4)]

    def both(self):
        for sessions in (self.s, blocks.Sessions(2)):
            yield sessions, sessions.from_edgelist(self.roads,
                                                   scale=100), sessions.from_edgelist(
                                                       self.roads, scale=100, directed=False)
            if sessions is not self.s:
                sessions.close()

    def test_lengths(self):
        far = {'a': 0, 'b': 1.5, 'c': 1.75, 'd': 5.75}
        for _, G, U in self.both():
            self.assertEqual(algorithms.sssp(G, 'a').by_node(), far)
            self.assertEqual(algorithms.sssp(G, 'a', G.T).by_node(), far)
            self.assertEqual(algorithms.sssp(G, 'a', cutoff=1.75).by_node(),
                             {'a': 0, 'b': 1.5, 'c': 1.75})
            self.assertEqual(algorithms.sssp(G, 'a', cutoff=1.749).by_node(), {'a': 0, 'b': 1.5})
            self.assertEqual(algorithms.path_lengths(G, ['a']).to_list(dtype=float),
                             [*far.values()])
            self.assertEqual(algorithms.all_pairs(G).select('rowle', 0).to_edgelist(),
                             [('a', name, length) for name, length in far.items()])
            self.assertEqual(algorithms.longest_paths(G).by_node()['d'], 6)
            forest = algorithms.minimum_spanning_forest(U)
            self.assertEqual((forest.unit, forest.reduce_scalar()), (100, 2 * 5.75))

    def test_paths(self):
        for _, G, _ in self.both():
            path = algorithms.shortest_path(G, 'a', 'd', weighted=True)
            self.assertEqual((list(path), path.lengths, path.length),
                             (['a', 'b', 'c', 'd'], [0, 1.5, 1.75, 5.75], 5.75))
            self.assertEqual(algorithms.shortest_path(G, 'a', 'd').lengths, [0, 1, 2])
            tree = algorithms.shortest_paths(G, 'a', weighted=True)
            self.assertEqual((tree.lengths.by_node()['d'], tree.path('c').length, len(tree)),
                             (5.75, 1.75, 4))
            self.assertEqual(len(algorithms.shortest_paths(G, 'a', weighted=True, cutoff=1.6)), 2)
            self.assertEqual(algorithms.shortest_paths(G, 'a').path('d').lengths, [0, 1, 2])
            self.assertEqual([one.length
                              for one in algorithms.k_shortest_paths(G, 'a', 'd', 2,
                                                                     weighted=True)], [5.75, 6])

    def test_transposes_of_another_unit(self):
        G = self.s.from_edgelist(self.roads, scale=100)
        self.differ(lambda: algorithms.sssp(G, 'a', G.T.rescale(1000)), 'sssp', 'a unit of 100,',
                    'B of 1000;')
        self.assertEqual(algorithms.bfs_levels(G, 'a', G.T.rescale(1000)).by_node(),
                         {'a': 0, 'b': 1, 'c': 1, 'd': 2})

    def test_others_are_as_without_a_unit(self):
        """All algorithms of a graph alone: in whole numbers, and in parts of a unit."""
        for sessions, _, _ in self.both():
            found = {}
            for unit in (1, 100):
                G = sessions.from_edgelist([(a, b, round(100 * x)) for a, b, x in self.roads],
                                           directed=False)
                G.unit = unit
                for name, one in algorithms.registry.ALGORITHMS.items():
                    if algorithms.registry.required(one.function) in (('G',), ('graph',)):
                        for weighted in (
                            {}, {'weighted': True}) if 'weighted' in one.parameters else ({},):
                            found.setdefault((name, *weighted),
                                             []).append(self.outcome(getattr(algorithms, name), G,
                                                                     weighted))
            self.assertGreater(len(found), 15)
            for (name, *weighted), (want, got) in found.items():
                one = algorithms.registry.ALGORITHMS[name]
                if one.lengths:
                    got = (got[0], 1)
                if not (one.reads_unit and weighted):
                    # numbers that aren't in proportion to weights
                    self.assertEqual(want, got, name)

    def outcome(self, function, G, options):
        try:
            return self.plain(function(G, **options))
        except ValueError as fault:
            return str(fault)

    def plain(self, found):
        if isinstance(found, (list, tuple)):
            return [self.plain(one) for one in found]
        for name in ('values', 'labels'):
            if hasattr(getattr(found, name, None), 'to_dict'):
                found = getattr(found, name)
        return (found.to_dict(), found.unit) if hasattr(found, 'to_dict') else repr(found)


class Commands(command_line.CommandLine):
    def setUp(self):
        super().setUp()
        self.write('roads.csv', 'source,target,km\na,b,1.5\nb,c,0.25\na,c,2\nc,d,4\n')
        self.scaled = 'roads.csv', '--scale', '100', '--quiet', '--columns', '0,1,km'

    def test_values_are_those_of_the_file(self):
        for words, want in ((('sssp', '--source', 'a'), 'a 0.0\nb 1.5\nc 1.75\nd 5.75\n'),
                            (('path-lengths', '--source', 'b'), 'b b 0.0\nb c 0.25\nb d 4.25\n'),
                            (('shortest-path', '--source', 'a', '--target', 'd', '--weighted'),
                             'a 0.0\nb 1.5\nc 1.75\nd 5.75\n'),
                            (('shortest-paths', '--source', 'c', '--weighted'),
                             'c 0.0 c\nd 4.0 c\n'),
                            (('k-shortest-paths', '--source', 'b', '--target', 'd', '--k', '1',
                              '--weighted'), '1 b 0.0\n1 c 0.25\n1 d 4.25\n'),
                            (('longest-paths', '--top', '1'), 'd 6.0\n'),
                            (('bfs-levels', '--source', 'a'), 'a 0\nb 1\nc 1\nd 2\n'),
                            (('degrees',), 'a 2\nb 1\nc 1\nd 0\n'),
                            (('sssp', '--source', 'c', '--csv'), 'node,sssp\nc,0.0\nd,4.0\n'),
                            (('sssp', '--source', 'c', '--json'),
                             '[\n{"node": "c", "sssp": 0.0},\n{"node": "d", "sssp": 4.0}\n]\n')):
            self.assertEqual(self.printed(words[0], *self.scaled, *words[1:]), want)
        self.assertIn('2 1 150\n', self.printed('sssp', *self.scaled, '--source', 'a', '--mtx'))
