"""Statements and builtins of Python inside an operator: each means what Python means, or is
refused.

A table of functions, each called on edge words beside its operator. Where Python raises, the
operator is not asked, but for errors that the function itself catches.
"""
import ast
import contextlib
import functools
import math
import operator
import textwrap
import unittest
import warnings

import support  # noqa: F401  # pylint: disable=unused-import  # sets the paths
import spmat
from operator_model import signed

EDGES = (0, 1, -1, 2, 3, -3, 5, 7, 8, 10, 63, 64, 76, 77, 78, -77, -76, 100, 1 << 31, -1 << 31,
         1 << 40, (1 << 63) - 1, -1 << 62)

# Bodies of functions of x that mean what Python means; a `;` in the first column parts them.
SAME = '''
y = x ^ x
return y % -1000 + [7, 8][y]
;
try: return 1000 // (x - 77)
except ZeroDivisionError: return -1
;
try: return 1000 % (x - 77)
except ZeroDivisionError: return -1
;
try: return 1000 // (x - 77)
except: return -1
;
try: return sum(divmod(1000, x - 77))
except ArithmeticError: return -1
;
with contextlib.suppress(ZeroDivisionError): return 1000 // (x - 77)
return -5
;
with Swallowing() as v: return v // (x - 77)
return -3
;
try: return helper(1000, x - 77)
except ZeroDivisionError: return -1
;
try: return sum(k // (x - 77) for k in (1, 2))
except ZeroDivisionError: return -1
;
try: return operator.floordiv(5, x - 77)
except ZeroDivisionError: return -1
;
try: a = 1000 // (x - 77)
except ZeroDivisionError: a = 3
else: a += 7
return a
;
try:
    try: return 1000 // (x - 77)
    except ZeroDivisionError as e: raise KeyError from e
except KeyError: return 8
;
s = 0
for k in (1, 2, 77):
    try: s += 100 // (x - k)
    except ZeroDivisionError: s += 1000
return s
;
try: return 5 << x % 40 - 3
except ValueError: return -1
;
try: return x >> x % 40 - 3
except ValueError: return -1
;
try: return x // 0
except ZeroDivisionError: return 4
;
try: return x << -1
except ValueError: return 4
;
try: a = x // (x - 77 or 1)
finally: x = 5
return a
;
try:
    if x == 77: raise ValueError
    return 1
except ValueError: return 2
;
try:
    assert x != 77
    return 1
except AssertionError: return 5
;
try: return [77, 3].index(x)
except ValueError: return 9
;
try: return [1, 2, 3][x % 4]
except IndexError: return -1
;
try: return {1: 2}[x % 4]
except KeyError: return -1
;
try: return next(iter([]))
except StopIteration: return x
;
try: return x.foo
except AttributeError: return 3
;
n = 0
while n < 3:
    if x == 77: break
    n += 1
else: return 5
return 6
;
for k in (3, 77):
    if k == x: break
else: return 5
return k
;
s = 0
for k in range(4):
    if x & 1 << k: continue
    s += k
return s
;
return y if (y := x - 77) else 5
;
a, *b = [x, 1, 2]
return a + sum(b)
;
n = 0
def g():
    nonlocal n
    n += x
g(); g()
return n
;
class C:
    v = x
return C.v + 1
;
y = x
del x
return y
;
def g():
    yield x
    yield x + 1
return sum(g())
;
return 1 if x is None else 0
;
return 1 if x is x else 0
;
return 1 if isinstance(x, float) else 0
;
return 1 if x in (77, 3) else 0
;
return x not in (77, 5)
;
return 1 if x in range(70, 80) else 0
;
return [77, 3, 77].count(x)
;
return 1 if [x, 1] == [77, 1] else 0
;
return 1 if (x, 1) < (77, 1) else 0
;
return sorted([x, 77, 3], key=lambda v: v % 10)[1]
;
return min([x, 77, 3], key=lambda v: v % 10)
;
return functools.reduce(operator.xor, [x, 77, 3])
;
return max([x] * (x % 2), default=3)
;
return bool(x) + 1
;
return 1 if bool(x - 77) is False else 0
;
return ord(chr(x % 200))
;
return len(bytes(x % 5))
;
return round(x, 1) + round(x) - round(x, None)
;
return math.floor(x) - math.ceil(x) + math.trunc(x)
;
return math.prod([x % 100, 2, 3])
;
return math.comb(x % 5, 2)
;
return sum([k * (x % 99) for k in range(4) if k != x])
;
return sum({k: k * (x % 99) for k in range(4)}.values())
;
return sum(a * b for a, b in zip([x % 9, 1], [2, x % 9]))
;
return sum(i * v for i, v in enumerate([x, 77]))
;
return any([x == 77, x == 3])
;
return all([x > 7, x < 100])
;
return sum([1, 2, 3, 4][x % 4:])
;
return len([1] * (x % 4))
;
return next((k for k in (1, 77) if k == x), 0)
;
return eval('x == 77') + 0
;
return locals()['x']
;
return (x == 77 and 5) or 6
;
return (x == 77) ^ True
;
return not x - 77
;
return -(x == 77)
;
return {True: 5, False: 6}[x == 77]
;
return [6, 5][x == 77]
;
return sum([x, 1], 5)
;
return divmod(x, -7)[1]
;
return x // 2 ** 70 + x % 2 ** 70 * 0
;
return x // -2 ** 70
;
return x >> 2 ** 70
;
return x.numerator + x.real - x.conjugate()
'''

# Bodies that are refused, and a part of what is said.
REFUSED = [
    ('if x == 77: raise ValueError\nreturn 1', 'it raises ValueError: where (x == 77)'),
    ('assert x != 77\nreturn 1', 'it raises AssertionError: where (x == 77)'),
    ('try: return 1 // x\nexcept ZeroDivisionError: raise KeyError(5) from None',
     'it raises KeyError: 5 where (x == 0)'),
    ('return 1 if x is 77 else 0', 'asks what only a number answers'),
    ('return 1 if (x == 77) is True else 0', 'asks what only a number answers'),
    ('return 1 if isinstance(x, int) and x == 77 else 0', 'asks what only a number answers'),
    ('return 1 if type(x) is int and x == 77 else 0', 'asks what only a number answers'),
    ('return 1 if hasattr(x, "imag") and x == 77 else 0', 'asks what only a number answers'),
    ('return 1 if repr(x) == "77" else 0', 'asks what only a number answers'),
    ('return 1 if f"{x!r}" == "77" else 0', 'asks what only a number answers'),
    ('return 1 if "%r" % [x] == "[77]" else 0', 'asks what only a number answers'),
    ('return 1 if id(x) == id(77) else 0', 'asks what only a number answers'),
    ('return len(str(x))', 'no text'), ('return len(f"{x}")', 'no text'),
    ('return len(format(x, "d"))', 'no text'),
    ('return 1 if x in {77, 3} else 0', 'by its hash'), ('return {77: 5}.get(x, 0)', 'by its hash'),
    ('return len({x, 77})', 'by its hash'), ('return hash(x)', 'by its hash'),
    ('return int(x)', 'leave int() out'), ('return int(float(x))', 'float() is a float'),
    ('return bin(x).count("1")', 'expected a number here'),
    ('return math.gcd(x, 6)', 'expected a number here'),
    ('return 1 if x in range(70, 100000) else 0', 'more than 256 questions'),
    ('return 1 if x == 77.0 else 0', '77.0 is a float'),
    ('return min(x, math.inf)', 'inf is a float'),
    ('return sum([1, 2, 3][x:])', 'expected a number here'),
    ('try: return x + "a"\nexcept TypeError: return 3', 'str is no whole number'),
    ('return x // 0', 'a division by 0'), ('return x << -1', 'a shift by a negative number'),]


def helper(a, b):
    return a // b


class Swallowing:
    """A context manager that swallows each error."""

    def __enter__(self):
        return 5

    def __exit__(self, *_):
        return True


def function_of(body):
    """A function of x with a body."""
    space = dict(globals())
    with warnings.catch_warnings():
        warnings.simplefilter('ignore')            # Python's own, of `is` beside a number
        # pylint: disable-next=exec-used
        exec('def f(x):\n' + textwrap.indent(body.strip('\n'), '    '), space)
    return space['f']


def differences(function, op):
    """The edges of which Python gives another number than the operator."""
    found = []
    for x in EDGES:
        try:
            expected = function(x)
        except (ZeroDivisionError, ValueError):
            continue
        if signed(expected) != op(x):
            found.append((x, expected, op(x)))
    return found


class Statements(unittest.TestCase):
    def test_what_means_the_same(self):
        bodies = SAME.split('\n;\n')
        self.assertGreater(len(bodies), 75)
        for body in bodies:
            with self.subTest(body=body):
                function = function_of(body)
                self.assertEqual(differences(function, spmat.unary(function)), [])

    def test_what_is_refused(self):
        for body, words in REFUSED:
            with self.subTest(body=body), self.assertRaises(spmat.CompileError) as got:
                spmat.unary(function_of(body))
            self.assertIn(words, str(got.exception).replace(':  ', ': '))

    def test_each_statement_of_python_is_here(self):
        """So that a statement of a later Python is looked at, too."""
        missing = {'AsyncFor', 'AsyncFunctionDef', 'AsyncWith', 'Global', 'Import', 'ImportFrom',
                   'AnnAssign', 'TypeAlias', 'TryStar', 'Match'}
        bodies = SAME.split('\n;\n') + [body for body, _ in REFUSED]
        used = {type(node).__name__ for body in bodies for node in ast.walk(ast.parse(
            'def f(x):\n' + textwrap.indent(body.strip('\n'), '    ')))}
        known = {kind.__name__ for kind in ast.stmt.__subclasses__()}
        self.assertEqual(known - used - missing, {'Pass'} - used)

    def test_without_the_comparison(self):
        """What a function catches is no matter of luck with samples."""
        function = function_of(SAME.split('\n;\n')[0])
        self.assertEqual(differences(function, spmat.unary(function, check=False)), [])


class Warned(unittest.TestCase):
    """What has a meaning by the page that was hardly meant: a warning names the line, once."""

    def warned(self, kind, function, words, *calls):
        with warnings.catch_warnings(record=True) as caught:
            warnings.simplefilter('always')
            op = kind(function)
        self.assertEqual([str(each.message) for each in caught if words not in str(each.message)],
                         [])
        self.assertEqual([(each.category, each.filename) for each in caught],
                         [(RuntimeWarning, __file__)])
        for *operands, expected in calls:
            self.assertEqual(op(*operands), expected, operands)

    def test_division_by_what_is_known_to_be_0(self):
        self.warned(spmat.binary, lambda x, y: x // y if y == 0 else 5,
                    '`<lambda>`: a division by 0 where (y == 0): as an operator x // 0 is 0',
                    (7, 0, 0), (7, 1, 5))
        self.warned(spmat.binary, lambda x, y: x % (y - y), 'a division by 0: as an operator',
                    (7, 5, 7), (-7, 5, -7))

    def test_shift_by_what_is_known_to_be_negative(self):
        self.warned(spmat.binary, lambda x, y: x << y if y < 0 else 5,
                    'a shift by a negative number where (y < 0): as an operator x << y is 0',
                    (7, -1, 0), (7, 1, 5))
        self.warned(spmat.binary, lambda x, y: x >> y if y < 0 else 5, 'the sign of x',
                    (-7, -1, -1))

    def test_numbers_beyond_a_word(self):
        self.warned(spmat.unary, lambda x: 2 ** 64 + 5 >> x,
                    '18446744073709551621 is not in -2^63 to 2^63 - 1: as an operator it is 5',
                    (1, 2))
        self.warned(spmat.unary, lambda x: (2 ** 64 + 5) // x, 'as an operator it is 5', (2, 2))
        self.warned(spmat.unary, lambda x: (2 ** 64 + 5) % x, 'as an operator it is 5', (3, 2))
        for function in (lambda x: spmat.cdiv(2 ** 64 + 5, x),
                         lambda x: spmat.cmod(2 ** 64 + 5, x)):
            self.assertEqual(spmat.unary(function)(3), function(3))
