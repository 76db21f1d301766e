"""Numbers beside a matrix: comparisons with any number, and errors whose advice is tried as it is
written. Units of times: days, seconds and the like differ as any units do, and dates and lengths of
time stand beside them as numbers."""
import copy
import datetime
import decimal
import io
import operator
import os
import pickle
import re
import tempfile
from fractions import Fraction

import numpy
import support
import spmat
import spmat_blocks as blocks
from spmat import UnitsDiffer, algorithms
from spmat.scale import as_unit

COMPARE = {'>': operator.gt, '>=': operator.ge, '<': operator.lt, '<=': operator.le,
           '==': operator.eq, '!=': operator.ne}
NAMES = {'>': 'gt', '>=': 'ge', '<': 'lt', '<=': 'le', '==': 'eq', '!=': 'ne'}
LEAST, MOST = -2 ** 63, 2 ** 63 - 1
NUMBERS = (14.5, -14.5, 0.5, -0.5, 14, -15, 1e30, -1e30, float('inf'), -float('inf'), 2 ** 63,
           2 ** 63 - 1, -2 ** 63, -2 ** 63 - 1, Fraction(1, 3), Fraction(2 ** 64 - 1, 2),
           Fraction(-2 ** 64 - 1, 2), decimal.Decimal('13.999999999999999999'), 10 ** 400,
           decimal.Decimal('-Infinity'))
STORED = (-15, -14, -1, 0, 1, 14, 15, LEAST, MOST)


class Comparisons(support.InSession):
    """Every number has its place among stored ones, as Python tells it."""

    def test_select(self):
        for unit in (1, 100, 7):
            A = self.s.from_coo(range(len(STORED)), [0] * len(STORED), STORED)
            A.unit = unit
            for sign, number in ((sign, number) for sign in COMPARE for number in NUMBERS):
                want = [x for x in STORED if COMPARE[sign](Fraction(x) / unit, number)]
                with self.subTest(unit=unit, sign=sign, number=number):
                    self.assertEqual([x for *_, x in A.select(sign, number).to_triples()], want)
                    self.assertEqual([x for *_, x in A.select('value' + NAMES[sign],
                                                              number).to_triples()], want)

    def test_apply(self):
        for unit in (1, 100):
            A = self.s.from_coo(range(len(STORED)), [0] * len(STORED), STORED)
            A.unit = unit
            for sign, number in ((sign, number) for sign in COMPARE for number in NUMBERS):
                for name in (NAMES[sign], *({'==': ('iseq',), '!=': ('isne',)}.get(sign, ()))):
                    with self.subTest(unit=unit, name=name, number=number):
                        right, left = A.apply(name, right=number), A.apply(name, left=number)
                        self.assertEqual((right.unit, right.to_list()),
                                         (1, [int(COMPARE[sign](Fraction(x) / unit, number))
                                              for x in STORED]))
                        self.assertEqual(left.to_list(),
                                         [int(COMPARE[sign](number, Fraction(x) / unit))
                                          for x in STORED])

    def test_blocks_and_masks(self):
        with blocks.Sessions(2) as many:
            A = many.from_coo(range(9), [0] * 9, STORED)
            self.assertEqual([x for *_, x in A.select('>', 14.5, mask=A.V).to_triples()],
                             [15, MOST])
            self.assertEqual(A.select('<', -1e40).nvals, 0)

    def test_what_is_no_number(self):
        A = self.s.identity(2)
        for number in (float('nan'), decimal.Decimal('nan')):
            with self.assertRaisesRegex(ValueError, 'finite number, not .*[nN]a[nN]'):
                A.select('>', number)
        for number in ('1.5', None, [1]):
            with self.assertRaisesRegex(TypeError, 'expected a number'):
                A.select('>', number)


class Advice(support.InSession):
    """What errors say to write is written, and works."""

    def setUp(self):
        self.cents = self.s.from_edgelist([('A', 'B', 1.25), ('B', 'C', 0.5)], scale=100)
        self.whole = self.s.from_edgelist([('A', 'B', 7), ('B', 'C', 9)])

    def said(self, kind, call):
        words = support.said(kind, call)
        self.assertNotIn('thunk', words)
        return words

    def written(self, words, A, name):
        """The values of a matrix once what stands behind `write` is run."""
        names = {'A': A}
        exec(re.search('write (.*?)( for quotients.*)?$', words)[1], names)
        return [x for *_, x in names[name].to_edgelist()]

    def test_quotients_by_decimals(self):
        A = self.cents
        for call in (lambda: A.apply('minv'), lambda: A.apply('floordiv', left=3),
                     lambda: A.apply('rdiv', right=0.75), lambda: A.apply('cdiv', left=-1)):
            self.assertIn('B = A.dup(); B.unit = 1', self.said(UnitsDiffer, call))

    def test_folds_of_other_units(self):
        for call in (lambda: self.cents.reduce_rowwise('prod'),
                     lambda: self.cents.ewise_add(self.cents, 'eq')):
            self.assertIn(
                'B = A.dup() and B.unit = 1 has the stored whole numbers, and A.rescale(1, '
                'exact=False)', self.said(UnitsDiffer, call))
        self.assertEqual(self.cents.rescale(1, exact=False).reduce_rowwise('prod').by_node(),
                         {'A': 1, 'B': 0})

    def test_fractions_beside_whole_numbers(self):
        A = self.whole
        self.assertIn(
            'right=1.19 is no whole number, as the values of this matrix are: A.rescale(100) '
            'holds it', self.said(ValueError, lambda: A.apply('plus', right=1.19)))
        self.assertEqual([x for *_, x in A.rescale(100).apply('plus', right=1.19).to_edgelist()],
                         [8.19, 10.19])
        self.assertIn('left=0.5 ', self.said(ValueError, lambda: A.apply('minus', left=0.5)))
        words = self.said(ValueError, lambda: A.apply('times', right=1.19))
        self.assertIn('right= of "times"', words)
        self.assertEqual(self.written(words, A, 'B'), [8.33, 10.71])
        for call, want in ((lambda: A.apply('floordiv', right=2.5), [2, 3]),
                           (lambda: A.apply('rdiv', left=2.5), [2, 3])):
            names = {'A': A}
            exec('B = ' + self.said(ValueError, call).partition('write ')[2], names)
            self.assertEqual([x for *_, x in names['B'].to_edgelist()], want)
        for call in (lambda: A.apply('land', right=1.5),
                     lambda: A.apply(lambda x, y: x + y * y, right=1.5),
                     lambda: A.apply('rowindex', right=1.5)):
            self.assertIn('right= ', self.said(ValueError, call))
        self.assertIn('left= of "floordiv"',
                      self.said(ValueError, lambda: A.apply('floordiv', left=22.5)))

    @support.needs('pandas')
    def test_statistics_that_no_fold_is(self):
        A = self.s.from_edgelist([('A', 'B', 7), ('A', 'C', 9), ('A', 'D', 20), ('B', 'C', 5)])
        for name, method, want in (('median', 'median', {'A': 9.0, 'B': 5.0}),
                                   ('nunique', 'nunique', {'A': 3, 'B': 1}), ('var', 'var', 49.0),
                                   ('variance', 'var', 49.0), ('std', 'std', 7.0)):
            for call in (A.reduce_rowwise, A.reduce_columnwise, A.reduce_scalar):
                words = self.said(ValueError, lambda call=call, name=name: call(name))
                self.assertIn('no fold is called %r' % name, words)
                self.assertIn('argmax, argmin, count,', words)
            found = eval(re.search(r': (A\.to_pandas.*?\(\)) has it', words)[1], {'A': A})
            self.assertIn('["weight"].%s() for all' % method, words)
            self.assertEqual(found.to_dict() if isinstance(want, dict) else found['A'], want)
        self.assertIn('near it: plus', self.said(ValueError, lambda: A.reduce_rowwise('pluss')))


SIZES = {'D': 86400 * 10 ** 9, 's': 10 ** 9, 'ms': 10 ** 6, 'us': 10 ** 3, 'ns': 1}


def by_name(session, unit):
    """Departures of two trains, in a unit."""
    return session.from_edgelist([('A', 'B', '2024-05-31T10:15'), ('B', 'C', '2024-05-31T11:00')],
                                 unit=unit)


class Times(support.InSession):
    def setUp(self):
        self.seconds, self.days = by_name(self.s, 's'), by_name(self.s, 'D')

    def test_seconds_and_days_do_not_meet(self):
        for call in (lambda a, b: a.ewise_add(b, 'min'), lambda a, b: a.ewise_mult(b, 'lt'),
                     lambda a, b: a.ewise_mult(b, 'minus'), lambda a, b: a.mxm(b, 'min_plus'),
                     lambda a, b: a.update(b, mask=b.S), lambda a, b: a.update(b, 'max'),
                     lambda a, b: a.isequal(b), lambda a, b: a.isclose(b),
                     lambda a, b: a.ewise_add(b, lambda x, y: x + y),
                     lambda a, b: a.ewise_mult(b, 'floordiv'),
                     lambda a, b: a.ewise_union(b, 'max', 0, 0),
                     lambda a, b: algorithms.sssp(a, 'A', b.T)):
            self.assertIn("a unit of s, and B of D; write B.rescale('s')",
                          support.said(UnitsDiffer, call, self.seconds, self.days))
        with self.assertRaisesRegex(UnitsDiffer, r"write A\.rescale\('s'\)"):
            self.days.ewise_add(self.seconds, 'min')
        self.assertEqual(self.seconds.ewise_mult(self.days.rescale('s'), 'minus').to_edgelist(),
                         [('A', 'B', 36900), ('B', 'C', 39600)])

    def test_loops_keep_a_unit(self):
        waits = self.s.from_edgelist([('A', 'B', 60), ('B', 'C', 120)])
        loop = spmat.loop(lambda x: {'far': x.far.ewise_add(x.far.mxm(waits, 'min_plus'),
                                                            'min')}, {'far': self.seconds})
        loop.advance(2)
        self.assertEqual(repr(loop.state.far.unit), "'s'")

    def test_each_pair_of_units(self):
        for first, second in ((a, b) for a in SIZES for b in SIZES if a != b):
            A, B = by_name(self.s, first), by_name(self.s, second)
            finer = min(first, second, key=SIZES.get)
            with self.assertRaisesRegex(UnitsDiffer, r"rescale\('%s'\)" % finer):
                A.ewise_add(B, 'max')
            both = A.rescale(finer).ewise_add(B.rescale(finer), 'max')
            self.assertEqual(str(both.unit), finer)

    def test_rescale(self):
        with self.assertRaisesRegex(ValueError, '2 of 2 values would lose digits as times in D, '
                                    '.*exact=False cuts them down'):
            self.seconds.rescale('D')
        self.assertEqual(self.seconds.rescale('D', exact=False).to_dict(), self.days.to_dict())
        before = self.s.from_edgelist([('A', 'B', '1969-12-31T23:00')],
                                      unit='s').rescale('D', exact=False)
        self.assertEqual(before.to_edgelist(), [('A', 'B', -1)])        # cut down, as reading does
        self.assertEqual((self.seconds.rescale(1).unit, self.seconds.rescale(1).to_dict()),
                         (1, self.seconds.to_dict()))
        self.assertEqual(self.seconds.rescale(1000).to_edgelist(),
                         [(a, b, float(x)) for a, b, x in self.seconds.to_edgelist()])
        self.assertIs(self.seconds.rescale('s'), self.seconds)
        plain = self.s.identity(2)
        with self.assertRaisesRegex(ValueError, 'no times yet.* A.unit = \'s\''):
            plain.rescale('s')
        plain.unit = 's'
        self.assertEqual(plain.rescale('ms').to_dict(), {(0, 0): 1000, (1, 1): 1000})
        far = self.s.from_coo([0], [0], [10 ** 12])
        far.unit = 'D'
        with self.assertRaisesRegex(ValueError, '64 bits'):
            far.rescale('ns')

    def test_times_and_numbers(self):
        """Numbers without a unit go with times of any; decimals don't."""
        waits = self.s.from_edgelist([('A', 'B', 60), ('B', 'C', 120)])
        self.assertEqual((str(self.seconds.ewise_mult(waits, 'plus').unit),
                          str(waits.ewise_add(self.seconds, 'plus').unit)), ('s', 's'))
        cents = self.s.from_edgelist([('A', 'B', 1.25), ('B', 'C', 0.5)], scale=100)
        with self.assertRaisesRegex(UnitsDiffer,
                                    r'a unit of s, and B of 100; write A\.rescale\(100\)'):
            self.seconds.ewise_mult(cents, 'min')
        self.assertEqual(self.seconds.rescale(100).ewise_mult(cents, 'min').to_edgelist(),
                         cents.to_edgelist())
        self.assertEqual(self.seconds.ewise_mult(cents).unit, 100)
        for call in (lambda A: A.apply('times', right=2), lambda A: A.apply('floordiv', right=60),
                     lambda A: A.apply('minv'), lambda A: A.apply('one'), lambda A: A.ewise_mult(A),
                     lambda A: A.ewise_mult(A, 'eq'), lambda A: A.reduce_rowwise('lor'),
                     lambda A: A.apply(lambda x: x + 1)):
            self.assertEqual(call(self.seconds).unit, 1)

    def test_what_keeps_a_unit(self):
        A = self.seconds
        for made in (A.T, A.dup(), A['A', :], A[['A', 'B'], :], A.diag(), A.reduce_rowwise('max'),
                     A.reduce_columnwise('min'), self.s.adopt(A), A.select('>', 0),
                     A.apply('plus', right=5), A.apply('ainv'), A.apply('min', right=5),
                     A.without(self.s.identity(3)), spmat.concat([[A, A]]),
                     A.mxm(self.s.identity(3), 'min_plus'), A.mxm(A, 'min_second'),
                     pickle.loads(pickle.dumps(A.unit)) and A, copy.deepcopy(A.unit) and A):
            self.assertEqual((str(made.unit), made.unit), ('s', A.unit), made)
        B = self.s.identity(2)
        B.unit = A.unit
        self.assertEqual(B.unit, A.unit)
        days = datetime.timedelta(days=20000)
        for plain in (A.ewise_mult(A, 'minus'), A.apply('minus', right=datetime.date(2024, 1, 1)),
                      A.reduce_rowwise('peak_to_peak'), algorithms.sssp(A, 'A')):
            self.assertEqual(plain.unit, 1)
        for call in (lambda: A.ewise_add(A), lambda: A.mxm(A, 'min_plus'), A.reduce_scalar,
                     lambda: A.apply('plus', left=datetime.date(2024, 1, 1))):
            self.assertIn('a sum of times is no time', support.said(UnitsDiffer, call))
        self.assertEqual(algorithms.sssp(A, 'A', cutoff=days).by_node(),
                         {'A': 0, 'B': 1717150500})
        self.assertEqual(pickle.loads(pickle.dumps(A.unit)), A.unit)

    def test_people_see_dates(self):
        """Text has dates; values in Python are the stored numbers."""
        A = by_name(self.s, 'ns')                  # of more digits than floats have
        A = A.apply('plus', right=1)
        want = [('A', 'B', 1717150500 * 10 ** 9 + 1), ('B', 'C', 1717153200 * 10 ** 9 + 1)]
        self.assertEqual(A.to_edgelist(), want)
        self.assertEqual((A['A', 'B'], A.reduce_scalar('max'), A.top(1)),
                         (want[0][2], want[1][2], [want[1]]))
        self.assertEqual(A.to_csv(header=False), 'A,B,2024-05-31T10:15:00.000000001\n'
                                                 'B,C,2024-05-31T11:00:00.000000001\n')
        self.assertEqual(A.to_csv(header=False, raw=True),
                         ''.join('%s,%s,%d\n' % edge for edge in want))
        self.assertIn('>2024-05-31T10:15:00<', self.seconds._repr_html_())
        self.assertIn('>2024-05-31<', self.days._repr_html_())
        for made in (self.seconds, self.days):
            again = self.s.read_edgelist(io.BytesIO(made.to_csv().encode()), sep=',',
                                         unit=str(made.unit))
            self.assertTrue(again.isequal(made))
        self.assertIn('unit ns', repr(A))
        self.assertEqual(A.to_coo(arrays=False, dtype=float)[2], [float(x) for *_, x in want])

    @support.needs('pandas')
    def test_pandas(self):
        import pandas
        A = self.seconds
        self.assertEqual(str(A.to_pandas_edgelist()['weight'].dtype), 'int64')
        self.assertEqual(str(A.reduce_rowwise('max').to_pandas().dtype), 'int64')
        self.assertEqual(A.select('==',
                                  pandas.Timestamp('2024-05-31 13:00',
                                                   tz='Europe/Berlin')).to_edgelist(),
                         [('B', 'C', 1717153200)])
        self.assertEqual(A.apply('plus', right=pandas.Timedelta('1h')).to_edgelist()[0][2],
                         1717150500 + 3600)
        self.assertEqual(by_name(self.s, 'ns').apply('plus',
                                                     right=pandas.Timedelta(
                                                         1, 'ns')).to_edgelist()[0][2],
                         1717150500 * 10 ** 9 + 1)
        with self.assertRaisesRegex(ValueError, 'expected a time, not NaT'):
            A.select('>', pandas.NaT)

    def test_archives(self):
        with tempfile.TemporaryDirectory() as folder:
            path = os.path.join(folder, 'a.spmat')
            self.s.save(path, seconds=self.seconds, days=self.days)
            found = self.s.load(path)
        with self.assertRaises(UnitsDiffer):
            found['seconds'].ewise_add(found['days'], 'min')
        self.assertTrue(found['days'].isequal(self.days))

    def test_readers(self):
        text = b'from,to,departs\nA,B,2024-05-31 10:15\nB,C,2024-05-31 11:00\n'
        with blocks.Sessions(2) as many:
            for session in (self.s, many):
                for made in (session.read_graph(io.BytesIO(text), sep=',', unit='s'),
                             session.read_edgelist(io.BytesIO(text), sep=',', unit='s'),
                             by_name(session, 's')):
                    self.assertEqual((str(made.unit), made.to_edgelist()),
                                     ('s', self.seconds.to_edgelist()))
                self.assertEqual(session.read_graph(io.BytesIO(text), sep=',', unit='s',
                                                    values=False).unit, 1)

    def test_units_by_name(self):
        self.assertNotEqual(as_unit('s'), as_unit('D'))
        self.assertNotEqual(as_unit('s'), 1)
        self.assertNotEqual(1, as_unit('s'))
        self.assertEqual(len({as_unit('s'), as_unit('s'), as_unit('D'), 1}), 3)
        for wrong in ('h', 'x', '100'):
            with self.assertRaisesRegex(ValueError, 'a whole number above 0, .* or of times "D", "s"'):
                self.seconds.unit = wrong


class Beside(support.InSession):
    """Dates and lengths of time beside a matrix."""

    def test_dates(self):
        zone = datetime.timezone(datetime.timedelta(hours=2))
        moments = (datetime.datetime(2024, 5, 31, 11),
                   datetime.datetime(2024, 5, 31, 13, tzinfo=zone),
                   numpy.datetime64('2024-05-31T11:00'),
                   numpy.datetime64('2024-05-31T11:00:00.000000000'))
        for unit in ('s', 'ms', 'us', 'ns'):
            A = by_name(self.s, unit)
            for moment in moments:
                self.assertEqual([edge[0] for edge in A.select('>=', moment).to_edgelist()], ['B'])
                self.assertEqual([edge[0] for edge in A.select('<', moment).to_edgelist()], ['A'])
                self.assertEqual([edge[0] for edge in A.select('==', moment).to_edgelist()], ['B'])
                self.assertEqual([x for *_, x in A.apply('gt', right=moment).to_edgelist()], [0, 0])
                self.assertEqual([x for *_, x in A.apply('max', right=moment).to_edgelist()],
                                 [A['B', 'C']] * 2)
        days = by_name(self.s, 'D')
        self.assertEqual(days.select('==', datetime.date(2024, 5, 31)).nvals, 2)
        self.assertEqual([days.select(sign, moments[0]).nvals
                          for sign in ('<', '<=', '==', '!=', '>=', '>')], [2, 2, 0, 2, 0, 0])
        with self.assertRaisesRegex(ValueError,
                                    r"right=2024-05-31 11:00:00 is no whole number in times in "
                                    r"D, .*A\.rescale\('s'\) holds it"):
            days.apply('max', right=moments[0])

    def test_lengths(self):
        rides = by_name(self.s, 's').apply('minus', right=datetime.datetime(2024, 5, 31))
        with self.assertRaisesRegex(TypeError, 'A.unit = "s" says'):
            rides.select('>', datetime.timedelta(hours=10.5))
        rides.unit = 's'
        for length in (datetime.timedelta(hours=10.5), numpy.timedelta64(630, 'm'),
                       numpy.timedelta64(37800, 's')):
            self.assertEqual(rides.select('>', length).to_edgelist(), [('B', 'C', 39600)])
            self.assertEqual(rides.apply('plus', right=length).to_edgelist(),
                             [('A', 'B', 74700), ('B', 'C', 77400)])
        self.assertEqual(by_name(self.s, 'D').apply('plus',
                                                    right=numpy.timedelta64(
                                                        2, 'W')).to_edgelist()[0][2], 19874 + 14)
        with self.assertRaisesRegex(ValueError, 'no length that is always the same'):
            rides.select('>', numpy.timedelta64(1, 'M'))
        for gap in (numpy.datetime64('NaT'), numpy.timedelta64('NaT')):
            with self.assertRaisesRegex(ValueError, 'expected a time, not'):
                rides.select('>', gap)

    def test_matrices_without_times(self):
        cents = self.s.from_edgelist([('A', 'B', 1.25)], scale=100)
        for A, words in ((self.s.identity(2), 'numbers'), (cents, 'parts of 1/100')):
            for moment in (datetime.datetime(2024, 5, 31), datetime.date(2024, 5, 31),
                           numpy.datetime64('2024-05-31'), datetime.timedelta(1),
                           numpy.timedelta64(1, 'h')):
                for call in (lambda A=A, moment=moment: A.select('>', moment),
                             lambda A=A, moment=moment: A.apply('plus', right=moment)):
                    with self.assertRaisesRegex(TypeError,
                                                'is a time, and the values of this matrix are '
                                                '%s: A.unit = "s" ' % words):
                        call()
        stamps = self.s.from_edgelist([('A', 'B', 1717150500)])
        stamps.unit = 's'
        self.assertEqual(stamps.select('>', datetime.datetime(2024, 5, 31)).nvals, 1)
        self.assertEqual(Fraction(stamps.unit), 1)
