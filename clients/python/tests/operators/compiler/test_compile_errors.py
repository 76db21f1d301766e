"""What a function is refused for as an operator: which function, where, what isn't possible, and
what to write instead."""
import collections
import math
import os
import random
import statistics
import subprocess
import sys
import unittest

import numpy as np

import support
import spmat

MAKERS = {'unary': spmat.unary, 'binary': spmat.binary, 'index': spmat.indexunary}


def never_none(x):
    if x > 5:
        return 1
    if x > 3:
        print
    else:
        return 2


def counts(x, kept=[]):
    kept.append(x)
    return len(kept)


def endless(x, y):
    while x > 0:
        x -= y
    return x


def forever(x):
    while x != 0:
        pass
    return x


def doubling(x):
    for k in range(20):
        if x % (k + 2) == 0:
            x = x * 3 + k
    return x


def halved(x, y):
    mean = x + y
    return mean / 2


ERRORS = [
    ('unary', lambda x: x / 2,
     'x / y is a float in Python: x // y rounds down, cdiv(x, y) toward 0'),
    ('unary', lambda x: x * 0.5,
     '0.5 is a float, which has no code in an operator: take whole numbers (fixed point'),
    ('unary', lambda x: x * 1e6,
     '1000000.0 is a float, which has no code in an operator: take whole numbers, here 1000000'),
    ('unary', lambda x: x > 0.5, '0.5 is a float'), ('unary', lambda x: 0.5, '0.5 is a float'),
    ('unary', math.sqrt, 'float() is a float'),
    ('unary', lambda x: x + 1j, '1j is a float'),
    ('unary', lambda x: x ** 0.5, 'a power wants a whole number that is known '
     'beforehand'),
    ('unary', lambda x: x ** x, 'a power wants'), ('unary', lambda x: pow(x, 2, 7), 'no modulus'),
    ('unary', lambda x: 2 ** x, '1 << x'),
    ('unary', lambda x: x ** -1, 'a power wants'), ('unary', lambda x: str(x), 'no text'),
    ('unary', lambda x: len('%d' % x), 'leave int() out'),
    ('unary', lambda x: f'{x}', 'no text'), ('unary', print, 'no text'),
    ('unary', lambda x: x + 'a', "str is no whole number: 'a'"),
    ('unary', lambda x: x == 'a', 'str is no whole number'),
    ('unary', lambda x: 'a', 'str is no whole number'),
    ('unary', lambda x: (x, 1), 'tuple is no whole number'),
    ('unary', lambda x: (yield), 'generator is no whole number'),
    ('unary', lambda x: len(x), 'an operand is one number: it has no length and no items'),
    ('unary', lambda x: x[0], 'no items'),
    ('unary', lambda x: sum(x), 'no items'),
    ('unary', lambda x: round(x, -1), '(x + 5) // 10 * 10 rounds to tens'),
    ('unary', never_none,
     'it returns None: end each way with `return` where (x < 6) and not (x < 4)'),
    ('unary', lambda x: None, 'it returns None: end each way with `return`'),
    ('unary', lambda x: sum(range(x)),
     'expected a number here (for an index, range(), or a function in C such as math.isqrt), '
     'but x may be any'),
    ('unary', lambda x: [1, 2][x], 'only what has at most 256 values, as x % 8, becomes one'),
    ('unary', math.isqrt, 'a function in C such as math.isqrt'),
    ('unary', lambda x: int(x),
     'x is whole already, and becomes no int of Python: leave int() out'),
    ('unary', lambda x: x in {1, 2},
     'a set or a dict looks for x by its hash, which only a number has: write `x in (1, 2)`'),
    ('unary', lambda x: {1: 2}[x], 'by its hash'),
    ('unary', lambda x: math.gcd(x, 6), 'expected a number here'),
    ('unary', lambda x: [5, 6][x & 3],
     'it raises IndexError: list index out of range where not ((x & 3) < 2) and ((x & 3) < 3)'),
    ('unary', lambda x: x.imaginary,
     "it raises AttributeError: 'Word' object has no attribute 'imaginary'"),
    ('unary', lambda x: nothing,
     "it raises NameError: name 'nothing' is not defined; an operator has a value for all "
     "operands"),
    ('unary', lambda x: x // 0, 'a division by 0'), ('unary', lambda x: x % 0, 'a division by 0'),
    ('unary', lambda x: x << -1, 'a shift by a negative'),
    ('unary', lambda x: x & 0xffffffffffffffff,
     'leave a mask of 64 bits out: ult, udiv, umod and rsh take words without their sign'),
    ('unary', lambda x: 2 ** 63, '9223372036854775808 is not in -2^63 to 2^63 - 1'),
    ('unary', lambda x: x & 10 ** 500, 'a number of 1661 bits is not in'),
    ('unary', lambda x: random.random() < 0.5, 'at each call'),
    ('unary', lambda x: random.randrange(1 << 40), 'it is not the same at each call'),
    ('unary', counts, 'not the same at each call'),
    ('unary', lambda x: x + 1 if x > random.randrange(1 << 40) else 0,
     'it does something else each time it is called'),
    ('binary', endless, 'a way of more than 256 questions, 257 of them at test_compile_errors.py:'),
    ('unary', forever,
     'a loop has to end by itself, as over range(8), or as the range of its operand does, as x '
     '>>= 1'),
    ('unary', doubling,
     'more than 1024 ways, 20 of them at test_compile_errors.py:%d, `if x %% (k + 2) == 0:`'
     % (doubling.__code__.co_firstlineno + 2)),
    ('unary', lambda x: 1 if (x > 3) is True else 0, '`is`'),
    ('unary', lambda x: 1 if isinstance(x, int) else 0, 'isinstance'),
    ('unary', lambda: 1, 'a unary operator is a function of x, and this one takes ()'),
    ('binary', lambda x: 1, 'a binary operator is a function of x, y, and this one takes (x)'),
    ('unary', lambda x, y: 1, 'this one takes (x, y)'),
    ('index', lambda: 1,
     'an index operator is a function of x, row, column, thunk, or of the first'),
    ('index', lambda a, b, c, d, e: 1, 'this one takes (a, b, c, d, e)'),
    ('unary', lambda x, *, k: 1, 'this one takes (x, *, k)'),
    ('binary', lambda x, y: x @ y, 'it raises TypeError'),
    ('unary', lambda x: exec('raise ValueError(3)'), 'it raises ValueError: 3'),
    ('unary', lambda x: sum(x ^ x * k for k in range(1, 3000)),
     'an operator has at most 4096 slots of code'),]


class Errors(unittest.TestCase):
    def test_each(self):
        for number, (kind, function, words) in enumerate(ERRORS):
            with self.subTest(number=number, words=words):
                with self.assertRaises(spmat.CompileError) as got:
                    print(MAKERS[kind](function).text)
                self.assertIn(words, str(got.exception))
                self.assertRegex(str(got.exception), r'^`[^`]+`( \([^)]*:\d+.*?\))?: ')

    def test_the_line_is_named(self):
        """Of a fault within the function its line, with its text; of one of the whole function the
        line where it begins."""
        with self.assertRaises(spmat.CompileError) as got:
            spmat.binary(halved)
        self.assertRegex(str(got.exception),
                         r'^`halved` \(test_compile_errors.py:\d+, `return mean / 2`\): x / y '
                         r'is a float')
        with self.assertRaises(spmat.CompileError) as got:
            spmat.unary(never_none)
        self.assertRegex(str(got.exception), r'^`never_none` \(test_compile_errors.py:\d+, `def '
                         r'never_none\(x\):`\): it returns None')

    def test_the_line_of_a_result(self):
        """Of a result that is no number the function's own line, and none of the package's."""
        for function in (lambda x: 2.5, lambda x: 'a', lambda x: (x, 1), lambda x: 2 ** 63,
                         lambda x: len(str(x))):
            with self.assertRaises(spmat.CompileError) as got:
                spmat.unary(function)
            self.assertRegex(str(got.exception),
                             r'^`<lambda>` \(test_compile_errors.py:%d, '
                             % function.__code__.co_firstlineno)

    def test_the_line_beside_a_library(self):
        """A fault within Python's library names the line that calls it."""
        def counted(x):
            return collections.Counter([x, 77])[77] + statistics.mean([x, 3])
        for function in (counted, lambda x: statistics.mean([x, 3])):
            with self.assertRaisesRegex(spmat.CompileError, r'\(test_compile_errors.py:\d+, '):
                spmat.unary(function)

    def test_no_function(self):
        with self.assertRaisesRegex(TypeError, "expected a function, got 'x \\+ 1'"):
            spmat.unary('x + 1')
        with self.assertRaisesRegex(spmat.CompileError,
                                    'expected a unary operator, got <binary operator plus>'):
            spmat.unary(spmat.binary.plus)

    def test_a_caught_fault_counts(self):
        def function(x):
            try:
                return x / 2
            except Exception:
                return 0
        with self.assertRaisesRegex(spmat.CompileError, 'x / y is a float'):
            spmat.unary(function)

    def test_before_anything_is_sent(self):
        with spmat.Session() as session:
            A = session.from_triples([(0, 0, 5)], 1, 1)
            sent = session.connection.commands
            with self.assertRaises(spmat.CompileError):
                A.apply(lambda x: x / 2)
            self.assertEqual(session.connection.commands, sent)

    def test_without_the_comparison(self):
        self.assertEqual(spmat.unary(lambda x: 1 if (x > 3) is True else 0, check=False)(5), 0)

    def test_a_word_that_is_kept(self):
        kept = []

        def function(x):
            kept.append(x)
            return kept[0] + x
        spmat.unary(function, check=False)
        with self.assertRaisesRegex(spmat.CompileError, 'a word of an earlier call'):
            spmat.unary(function, check=False)

    def test_errors_of_numpy(self):
        for function, words in [(np.minimum, 'does not support ufuncs'),
                                (lambda x, y: np.where(x > y, x, y),
                                 'numpy makes no array of it .spmat.where, min and max take it'),
                                (lambda x, y: np.float64(2.5) * x, '2.5.* is a float'),
                                (lambda x, y: np.uint64(2 ** 63), 'is not in -2.63')]:
            with self.assertRaisesRegex(spmat.CompileError, words):
                spmat.binary(function)

    def test_at_the_prompt(self):
        """Without source the message names what is known."""
        done = subprocess.run([sys.executable, '-c', 'import spmat\nspmat.unary(lambda x: x / 2)'],
                              stderr=subprocess.PIPE, check=False, universal_newlines=True,
                              env=dict(os.environ, PYTHONPATH=support.CLIENT,
                                       PYTHONDONTWRITEBYTECODE='1'))
        self.assertRegex(done.stderr.strip().split('\n')[-1],
                         r'CompileError: `<lambda>` \(<string>:2.*\): x / y is a float in Python')
