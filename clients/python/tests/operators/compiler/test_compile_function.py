"""Operators from Python functions beside Python: what they give, on the plain machine and through
the program, and where they are taken."""
import concurrent.futures
import functools
import gc
import os
import pickle
import random
import subprocess
import sys
import unittest
import weakref

import numpy as np

import operator_functions as functions
import support
import spmat
from ready_meanings import MEANINGS
from operator_model import EDGES, READY, SIGNLESS, Plain, differences, meaning, operands_of, signed
from spmat.operators.compiler import compile_function as cache

TIMES = 120


def made(kind, function, **more):
    return READY[kind](function, **more)


class Values(unittest.TestCase):
    def test_each_function(self):
        self.assertGreaterEqual(len(functions.FUNCTIONS), 100)
        for number, (kind, function) in enumerate(functions.FUNCTIONS):
            with self.subTest(number=number, function=getattr(function, '__name__', function)):
                op = made(kind, function)
                self.assertEqual(differences(op, function, kind, TIMES, number), [], op.text)

    def test_index_operators_of_fewer_operands(self):
        for number, (function, whole) in enumerate(functions.SHORT):
            with self.subTest(number=number):
                self.assertEqual(differences(spmat.indexunary(function), whole, 'index', TIMES), [])

    def test_conditions_behind_one_another(self):
        """They make jumps, and not ways: each more is as long as the one before."""
        def sums(count):
            def function(x, y):
                for k in range(count):
                    x += 3 * k + 1 if y >> k & 1 else 0
                return x
            return function
        found = [spmat.binary(sums(count)) for count in (3, 6, 9)]
        for count, op in zip((3, 6, 9), found):
            self.assertEqual(differences(op, sums(count), 'binary', 50), [])
        sizes = [Plain(op).instructions for op in found]
        self.assertEqual(sizes[2] - sizes[1], sizes[1] - sizes[0])

    def test_ways_that_ranges_rule_out(self):
        """No two words are so, and so nothing is raised there."""
        def function(x, y):
            if x > 0 > y:
                assert x > y
            return x - y
        self.assertEqual(differences(spmat.binary(function), function, 'binary', TIMES), [])

    def test_values_on_the_stack(self):
        """Words that are written on one way alone, as well."""
        def function(x, y):
            terms = [x * k ^ y for k in range(1, 60)]
            for at, term in enumerate(terms):
                terms[at] = functions.where(term < y, term, term + at)
            return functools.reduce(lambda a, b: a * 3 + b, terms[::-1])
        op = spmat.binary(function)
        self.assertEqual(differences(op, function, 'binary', TIMES), [])
        self.assertGreater(op.text.count('ldx64 '), 40)

    def test_more_values_than_registers(self):
        plain = Plain(spmat.binary(functions.many))
        self.assertTrue(any(each.spelling.mnemonic == 'ldx64'
                            for each in plain.program.instructions))

    def test_forms_of_compiled_loops(self):
        """What the server runs as compiled loops keeps its form."""
        for function, text in [
            (lambda x: x + 1, 'mov64 r0, r1\nadd64 r0, 1\nexit\n'),
            (lambda x: x - 1, 'mov64 r0, r1\nsub64 r0, 1\nexit\n'),
            (lambda x: 3 * x, 'mov64 r0, r1\nmul64 r0, 3\nexit\n'),
            (lambda x: x << 4, 'mov64 r0, r1\nmul64 r0, 16\nexit\n'),
            (lambda x: x & 255, 'mov64 r0, r1\nand64 r0, 255\nexit\n'),
            (lambda x: 5, 'mov64 r0, 5\nexit\n')]:
            self.assertEqual(spmat.unary(function).text, text)
        for name, function in (('plus', lambda x, y: x + y), ('min', min),
                               ('max', lambda x, y: max(x, y)), ('times', lambda x, y: y * x)):
            self.assertEqual(spmat.binary(function), spmat.binary[name])


class Ready(unittest.TestCase):
    """All built-in operators that Python can spell, written so."""
    MORE = {('unary', 'sgn'): 1,
            **{('binary', name): 1 for name in ('floordiv', 'lxor', 'lxnor', 'absdiff')}}

    def test_behave_as_the_files(self):
        spelled = {'cdiv': spmat.cdiv, 'cmod': spmat.cmod, 'rdiv': lambda x, y: spmat.cdiv(y, x),
                   'minv': lambda x: spmat.cdiv(1, x),
                   'rsh': spmat.rsh, 'lor': lambda x, y: (x | y) != 0,
                   'absdiff': lambda x, y: x - y if x >= y else y - x,
                   'tril': lambda x, i, j, t: j - i <= t, 'triu': lambda x, i, j, t: j - i >= t}
        more, count = {}, 0
        for kind, meanings in MEANINGS.items():
            for name, function in meanings.items():
                own, ready = Plain(made(kind, spelled.get(name, function))), Plain(
                    READY[kind][name])
                dice = random.Random(name)
                for _ in range(TIMES):
                    operands = operands_of(dice, kind)
                    self.assertEqual(own.run(operands)[0], ready.run(operands)[0],
                                     (kind, name, operands))
                count += 1
                if own.instructions > ready.instructions:
                    more[kind, name] = own.instructions - ready.instructions
        self.assertEqual(count, 65)
        self.assertEqual(more, self.MORE)


class Meaning(unittest.TestCase):
    """The table of docs/operators.md, row by row."""

    def gives(self, kind, function, *calls):
        op = made(kind, function)
        for *operands, expected in calls:
            self.assertEqual(Plain(op).run(operands)[0], expected, operands)
            self.assertEqual(op(*operands), expected, operands)

    def test_words(self):
        least, most = -2 ** 63, 2 ** 63 - 1
        self.gives('binary', lambda x, y: x + y, (most, 1, least))
        self.gives('unary', lambda x: -x, (least, least), (5, -5))
        self.gives('unary', abs, (least, least), (-5, 5))
        self.gives('binary', lambda x, y: (x + y) // 2, (most, most, -1))
        self.gives('binary', lambda x, y: x // y, (7, -2, -4), (-7, 2, -4), (7, 0, 0),
                   (least, -1, least), (0, 0, 0))
        self.gives('binary', lambda x, y: x % y, (7, -2, -1), (-7, 2, 1), (7, 0, 7), (-7, 0, -7),
                   (least, -1, 0))
        self.gives('binary', lambda x, y: divmod(x, y)[0] * 100 + divmod(x, y)[1], (7, 2, 301),
                   (7, 0, 7))
        self.gives('binary', lambda x, y: x << y, (1, 63, least), (1, 64, 0), (1, -1, 0), (3, 1, 6))
        self.gives('binary', lambda x, y: x >> y, (-8, 1, -4), (-8, 64, -1), (8, 64, 0),
                   (-8, -1, -1), (8, -1, 0))
        self.gives('unary', lambda x: x ** 3, (3, 27), (1 << 22, 0))
        self.gives('unary', lambda x: x.bit_length(), (0, 0), (255, 8), (-256, 9), (least, 64))
        self.gives('unary', lambda x: x.bit_count(), (0, 0), (255, 8), (-1, 1), (least, 1))
        self.gives('unary', lambda x: ~(x > 3), (4, -2), (3, -1))
        self.gives('unary', lambda x: True + x, (4, 5))
        self.gives('unary', lambda x: 0 < x <= 5, (0, 0), (1, 1), (6, 0))
        self.gives('unary', lambda x: x < 2 ** 70, (most, 1))
        self.gives('unary', lambda x: x * 2 ** 64 + x, (3, 3))
        self.gives('unary', lambda x: round(x) + int(x > 1), (1, 1), (2, 3))
        self.gives('unary', lambda x: (10, 20, 30)[x % 3], (0, 10), (1, 20), (-1, 30))
        self.gives('unary', lambda x: {0: 5, 2: 7}.get(x & 3, -1), (0, 5), (1, -1), (2, 7))

    def test_functions_without_a_sign(self):
        dice = random.Random(5)
        for name, mean in SIGNLESS.items():
            function = getattr(spmat, name)
            for _ in range(TIMES):
                operands = operands_of(dice, 'binary') + ([7] if name == 'where' else [])
                self.assertEqual(signed(function(*operands)), signed(mean(*operands)),
                                 (name, operands))

    def test_words_of_numpy(self):
        k, small, yes, table = np.int64(5), np.uint8(200), np.bool_(True), np.array([3, 1, 4, 1])
        for number, function in enumerate([
            lambda x, y: k + x * k - y, lambda x, y: k - x, lambda x, y: small + x,
            lambda x, y: k // (x | 1) + x % k, lambda x, y: k < x, lambda x, y: x < k,
            lambda x, y: np.int64(3) << (x & 7), lambda x, y: x * yes + yes,
            lambda x, y: table[x & 3] + x, lambda x, y: table.sum() * x, lambda x, y: k == x,
            lambda x, y: k & x | k ^ y, lambda x, y: spmat.where(x > k, k, y),
            lambda x, y: np.int64(7) if x > 3 else np.int8(-3), lambda x, y: max(x, k)]):
            plain, dice = Plain(spmat.binary(function)), random.Random(2)
            for _ in range(50):
                operands = [dice.randrange(-1000, 1000), dice.randrange(-1000, 1000)]
                self.assertEqual(plain.run(operands)[0], int(function(*operands)), number)


class Through(support.InSession):
    """Each function through the program: all of one kind on one matrix of edges and random
    words."""

    def test_each_function(self):
        dice = random.Random(3)
        rows = [operands_of(dice, 'binary') for _ in range(60)] + [[x, y] for x in EDGES[::4]
                                                                   for y in EDGES[::5]]
        x, y = zip(*rows)
        X, Y = (self.s.from_coo([0] * len(rows), range(len(rows)), list(part), 1, len(rows))
                for part in (x, y))
        for number, (kind, function) in enumerate(functions.FUNCTIONS):
            with self.subTest(number=number):
                if kind == 'unary':
                    got, calls = X.apply(function), [[each] for each in x]
                elif kind == 'binary':
                    got, calls = X.ewise_mult(Y, function), rows
                else:
                    got, calls = X.apply(spmat.indexunary(function),
                                         9), [[each, 0, column, 9] for column, each in enumerate(x)]
                self.assertEqual(got.to_list(), [meaning(function, each) for each in calls])


class Taken(support.InSession):
    """Wherever an operator is wanted a function does."""

    def setUp(self):
        self.W = self.s.from_triples([(0, 1, 12), (1, 2, 4)], 3, 3)

    def test_methods_of_a_matrix(self):
        W, toll = self.W, functions.toll
        self.assertEqual(W.apply(lambda x: x * x).to_triples(), [(0, 1, 144), (1, 2, 16)])
        self.assertEqual(W.apply(lambda x, y: x - y, right=2).to_triples(), [(0, 1, 10), (1, 2, 2)])
        self.assertEqual(W.apply(lambda x, y: x - y, left=2).to_triples(),
                         [(0, 1, -10), (1, 2, -2)])
        self.assertEqual(W.apply(lambda x, row, column: x + row + column).to_triples(),
                         [(0, 1, 13), (1, 2, 7)])
        self.assertEqual(W.apply(lambda x, row, column, thunk: x + thunk, right=3).to_triples(),
                         [(0, 1, 15), (1, 2, 7)])
        self.assertEqual(W.apply(abs).to_triples(), W.to_triples())
        self.assertEqual(W.select(lambda x, row, column, thunk: x > thunk, 5).to_triples(),
                         [(0, 1, 12)])
        self.assertEqual(W.select(lambda x: x < 5).to_triples(), [(1, 2, 4)])
        self.assertEqual(W.select(lambda x, row: row == 0).to_triples(), [(0, 1, 12)])
        self.assertEqual(W.mxm(W, (min, toll)).to_triples(), [(0, 2, 16)])
        self.assertEqual(W.mxm(W, spmat.semiring('min', toll)).to_triples(), [(0, 2, 16)])
        self.assertEqual(W.ewise_add(W, toll).to_triples(), [(0, 1, 29), (1, 2, 8)])
        self.assertEqual(W.reduce_rowwise(max).to_list(), [12, 4, None])
        self.assertEqual(W.reduce_columnwise(max).to_list(), [None, 12, 4])
        self.assertEqual(W.reduce_scalar(lambda x, y: x * y), 48)
        self.assertEqual(W.update(W, lambda x, y: x + y).to_triples(), [(0, 1, 24), (1, 2, 8)])
        self.assertEqual(self.s.from_coo([0, 0], [1, 1], [5, 7], 3, 3, dup_op=max).to_triples(),
                         [(0, 1, 7)])
        self.assertTrue(self.s.check(spmat.binary(toll)).accepted)

    def test_what_is_known_of_a_graph_stays(self):
        """A function that becomes a built-in operator is known as that one: a product of an
        undirected graph by it is undirected."""
        def product(x, y):
            return x * y
        G = self.s.from_edgelist([(0, 1), (1, 2)], directed=False)
        for mul in ('times', lambda x, y: x * y, product):
            self.assertIs(G.mxm(G, ('plus', mul)).directed, False)
        self.assertIsNot(G.mxm(G, ('plus', lambda x, y: x * y + x)).directed, False)

    def test_a_step_to_a_fixed_point(self):
        start = self.s.from_triples([(0, 0, 0)], 1, 3)
        found = spmat.fixpoint(start,
                               lambda d: d.ewise_add(d.mxm(self.W, (min, lambda x, y: x + y)), min))
        self.assertEqual(found.to_list(), [0, 12, 16])

    def test_kinds_that_do_not_fit(self):
        with self.assertRaisesRegex(spmat.DomainMismatch, 'a binary one with right= or left='):
            self.W.apply(lambda x, y: x)
        with self.assertRaisesRegex(spmat.CompileError,
                                    'a binary operator is a function of x, y, and this one takes'):
            self.W.reduce_rowwise(lambda x: x)
        with self.assertRaisesRegex(TypeError,
                                    'expected an operator, its name or a function, got 5'):
            self.W.apply(5)


class InBlocks(unittest.TestCase):
    def test_the_operator_travels(self):
        from spmat_blocks import Sessions
        with Sessions(2) as sessions:
            W = sessions.from_triples([(0, 1, 12), (1, 2, 4), (2, 0, 7)], 3, 3)
            self.assertEqual(W.apply(lambda x: x * x).to_triples(),
                             [(0, 1, 144), (1, 2, 16), (2, 0, 49)])
            self.assertEqual(W.mxm(W, (min, functions.toll)).to_triples(),
                             [(0, 2, 16), (1, 0, 11), (2, 1, 24)])
            self.assertEqual(W.reduce_rowwise(max).to_list(), [12, 4, 7])
            self.assertEqual(W.select(lambda x, row, column: column > row).nvals, 2)


class Objects(unittest.TestCase):
    def test_what_is_made(self):
        op = spmat.binary(functions.toll)
        self.assertEqual((op(1, 12), op(2 ** 63 - 1, 1), op.name, op.kind),
                         (18, -2 ** 63, 'toll', 'binary'))
        self.assertEqual(spmat.binary(lambda x, y: op(x, y) + op(y, x)).text,
                         spmat.binary(lambda x, y: functions.toll(x, y)
                                      + functions.toll(y, x)).text)
        self.assertIs(spmat.binary(op), op)
        self.assertIsNone(spmat.unary(lambda x: x + 3).name)
        self.assertEqual(spmat.unary(lambda x: x + 3, name='three').name, 'three')

    def test_decorators(self):
        @spmat.unary
        def twice(x):
            return 2 * x

        @spmat.binary(name='far')
        def distance(x, y):
            return abs(x - y)
        self.assertEqual((twice.name, twice(4), distance.name, distance(4, 9)),
                         ('twice', 8, 'far', 5))

    def test_equal_and_pickled(self):
        op = spmat.binary(lambda x, y: x + 2 * y)
        again = pickle.loads(pickle.dumps(op))
        self.assertEqual((type(again), again), (spmat.Operator, op))
        self.assertEqual(hash(again), hash(op))
        self.assertEqual(op, spmat.asm('binary', op.text))
        self.assertNotEqual(op, spmat.binary.plus)

    def test_made_once(self):
        """Once for each function and kind, in whatever thread; and it is forgotten with the
        function."""
        function = lambda x, y=5: x + 2 * y
        first = cache.text_of_function('unary', function)
        self.assertIs(cache.text_of_function('unary', function), first)
        self.assertNotEqual(cache.text_of_function('binary', function), first)
        self.assertIs(cache.text_of_function('unary', function), first)
        gone = weakref.ref(function)
        del function
        gc.collect()
        self.assertIsNone(gone())

    def test_in_threads(self):
        with concurrent.futures.ThreadPoolExecutor(8) as pool:
            texts = list(pool.map(lambda _: spmat.binary(functions.score).text, range(24)))
        self.assertEqual(set(texts), {spmat.binary(functions.score).text})

    def test_variables_as_they_are(self):
        """A function is made again where a variable that it names has changed."""
        rate = 3

        def scaled(x):
            return x * rate
        self.assertEqual(spmat.unary(scaled)(2), 6)
        rate = 5
        self.assertEqual(spmat.unary(scaled)(2), 10)
        table = [1, 2]
        looked = lambda x: table[x & 1]
        self.assertEqual(spmat.unary(looked)(1), 2)
        table[1] = 7
        self.assertEqual(spmat.unary(looked)(1), 7)

    def test_registered(self):
        try:
            spmat.binary.register_new('tollway', functions.toll)
            self.assertEqual((spmat.binary.tollway(1, 12), 'tollway' in spmat.binary,
                              'tollway' in list(spmat.binary)), (18, True, True))
            self.assertEqual(spmat.semiring.min_tollway.mul, spmat.binary.tollway)
            self.assertEqual(spmat.unary.register_anonymous(lambda x: x + 3, 'three').name, 'three')
            for name, words in (('min', "'min' is the name of a built-in binary operator"),
                                ('a_b', 'letters and digits'), ('1a', 'letters')):
                with self.assertRaisesRegex(ValueError, words):
                    spmat.binary.register_new(name, min)
        finally:
            spmat.binary._known.pop('tollway', None)  # pylint: disable=protected-access


PROGRAM = '''
import functools, spmat
k = 3
def helper(a):
    return a * k if a > 0 else -a

made = [spmat.binary(f) for f in (lambda x, y: helper(x) + y, lambda x, y: min(helper(y), x),
                                  functools.partial(lambda n, x, y: n * x + y, 4))]
made += [spmat.unary(lambda x: sum(x > n for n in range(4)) + [5, 6, 7][x % 3])]
print(''.join(each.text for each in made))
'''


class Places(unittest.TestCase):
    """By `python -c`, at the prompt, in each Python that PYTHONS names, and with any order of
    hashes: the same texts."""

    def run_by(self, words, given=None, **more):
        done = subprocess.run(words, input=given, stdout=subprocess.PIPE, stderr=subprocess.PIPE,
                              universal_newlines=True, check=False,
                              env=dict(os.environ, PYTHONDONTWRITEBYTECODE='1',
                                       PYTHONPATH=support.CLIENT, **more))
        self.assertEqual(done.returncode, 0, done.stderr)
        return done.stdout

    def test_without_source(self):
        first = self.run_by([sys.executable, '-c', PROGRAM])
        self.assertEqual(first.count('exit'), 5)
        self.assertIn(first.strip(),
                      self.run_by([sys.executable, '-q', '-i'],
                                  PROGRAM).replace('>>> ', '').replace('... ', ''))
        for python in os.environ.get('PYTHONS', sys.executable).split(':'):
            for seed in '1', '2':
                self.assertEqual(self.run_by([python, '-c', PROGRAM], PYTHONHASHSEED=seed), first,
                                 python)

    def test_nothing_is_imported_before_it_is_used(self):
        program = (
            'import sys, spmat; spmat.binary.plus; spmat.Session; print([m for m in sys.modules '
            'if "functions" in m and "spmat" in m])')
        self.assertEqual(self.run_by([sys.executable, '-c', program]), '[]\n')
