"""Operators from C by every clang that is installed here: each gives what Python gives, also of
what the older ones have no code for."""
import random
import shutil
import unittest

import support
import spmat
from spmat.operators import c as from_c
from operator_model import EDGES, signed

WORDS = 1 << 64

CLANGS = [name
          for name in ('clang-%d' % number
                       for number in range(from_c.OLDEST, from_c.NEWEST + 1))
          if shutil.which(name)]
# What older clangs have no code of their own for, what they unroll, and what wraps: a function
# each, with what it means.
EACH = """
int64_t quotient(int64_t x, int64_t y) { return y ? x / y : 0; }
int64_t rest(int64_t x, int64_t y) { return y ? x % y : x; }
int64_t halves(int64_t x, int64_t y) {
    int a = x, b = y; return b > 1 ? a / b - a % b : b < -1 ? a / b : 5; }
int64_t tenths(int64_t x, int64_t y) { return x / 10 + y % 7 - x / -3; }
int64_t exact(int64_t x, int64_t y) { return (x >> 5 << 5) / 8 - (y << 3) / 8; }
int64_t shares(uint64_t x, uint64_t y) { return y ? x / y + x % y : x / 1000003; }
int64_t before(uint64_t x, uint64_t y) {
    uint32_t b = y; return (x ? __builtin_clzl(x) : 64) * 100 + (b ? __builtin_clz(b) : 32); }
int64_t behind(uint64_t x, uint64_t y) {
    uint32_t b = y; return (x ? __builtin_ctzl(x) : 64) * 100 + (b ? __builtin_ctz(b) : 32); }
int64_t unrolled(uint64_t x, uint64_t y) {
    int64_t sum = 0;
    #pragma unroll
    for (int at = 0; at < 24; at++) {
        if (x >> at & 1) sum += y >> at; else sum ^= at;
    }
    return sum;
}
int64_t branches(int64_t x, int64_t y) {
    if (x > y) return x > 100 ? x - y : y - x;
    if ((uint64_t)x < (uint64_t)y) return x == 7 ? -1 : (int)x + (short)y;
    return (signed char)x * 3 + __builtin_popcountl(y);
}
int64_t capped(int64_t x, int64_t y) {
    int64_t r; return __builtin_add_overflow(x, y, &r) ? (x < 0 ? INT64_MIN : INT64_MAX) : r; }
"""


def low(x, bits):
    x %= 1 << bits
    return x - (1 << bits) if x >> (bits - 1) else x


def cdiv(x, y):
    return abs(x) // abs(y) * (1 if (x < 0) == (y < 0) else -1)


def halves(x, y):
    a, b = low(x, 32), low(y, 32)
    return cdiv(a, b) - (a - b * cdiv(a, b)) if b > 1 else cdiv(a, b) if b < -1 else 5


def unrolled(x, y):
    total = 0
    for at in range(24):
        total = total + (y % WORDS >> at) if x >> at & 1 else total ^ at
    return total


def branches(x, y):
    if x > y:
        return x - y if x > 100 else y - x
    if x % WORDS < y % WORDS:
        return -1 if x == 7 else low(low(x, 32) + low(y, 16), 32)
    return low(x, 8) * 3 + bin(y % WORDS).count('1')


EACH_MEANS = {
    'quotient': lambda x, y: cdiv(x, y) if y else 0, 'rest': lambda x, y: x - y * cdiv(x, y) if y
    else x, 'halves': halves,
    'tenths': lambda x, y: cdiv(x, 10) + y - 7 * cdiv(y, 7) - cdiv(x, -3),
    'exact': lambda x, y: (x >> 5 << 5) // 8 - cdiv(signed(y << 3), 8),
    'shares': lambda x, y: x % WORDS // (y % WORDS) + x % WORDS % (y % WORDS) if y
    else x % WORDS // 1000003,
    'before': lambda x, y: (64 - (x % WORDS).bit_length()) * 100 + 32
    - (y % (1 << 32)).bit_length(),
    'behind': lambda x, y: ((x & -x).bit_length() - 1 if x else 64) * 100
    + ((y & -y).bit_length() - 1 if y % (1 << 32) else 32),
    'unrolled': unrolled, 'branches': branches,
    'capped': lambda x, y: max(-2 ** 63, min(2 ** 63 - 1, x + y)),
}


class EachClang(unittest.TestCase):
    """Every clang that is installed here, beside Python."""

    @classmethod
    def setUpClass(cls):
        random_ = random.Random(11)
        word = lambda: random_.choice((random_.randrange(-2 ** 63, 2 ** 63),
                                       random_.randrange(-300, 300), 1 << random_.randrange(63)))
        cls.pairs = [(x, y) for x in EDGES for y in EDGES] + [(word(), word()) for _ in range(400)]

    @unittest.skipUnless(CLANGS, 'no clang-14 to clang-%d' % from_c.NEWEST)
    def test_values(self):
        with spmat.Session(program=support.program()) as s:
            X, Y = (s.from_coo([0] * len(self.pairs), range(len(self.pairs)), list(part), 1,
                               len(self.pairs)) for part in zip(*self.pairs))
            for clang in CLANGS:
                compiler = from_c.find(clang)
                made = from_c.compile_source(EACH, compiler)
                for name, meaning in EACH_MEANS.items():
                    if name == 'behind' and compiler.version >= from_c.SIGNED:
                        with self.assertRaisesRegex(spmat.CompileError, 'to a table'):
                            from_c.operator_of(made, EACH, name)
                        continue
                    with self.subTest(clang=clang, name=name):
                        op = from_c.operator_of(made, EACH, name)
                        self.assertEqual(X.ewise_mult(Y, op).to_list(),
                                         [signed(meaning(x, y)) for x, y in self.pairs])

    @unittest.skipUnless(CLANGS, 'no clang-14 to clang-%d' % from_c.NEWEST)
    def test_what_the_machine_lacks(self):
        """It is named by its line, also where the line is divided by functions that stand in for
        it."""
        source = (
            'int64_t f(int64_t x, int64_t y) {\n    int64_t a[2] = {x, y};\n    int64_t q = y ? '
            'x / y : 0;\n' '    return __sync_fetch_and_add(a + (q & 1), x) + a[y & 1];\n}')
        with spmat.Session(program=support.program()) as s:
            for clang in CLANGS:
                op = spmat.c(source, clang=clang)
                with self.subTest(clang=clang), self.assertRaises(spmat.OperatorRefused) as caught:
                    s.full(1, 1).ewise_mult(s.full(1, 1), op).wait()
                self.assertRegex(str(caught.exception),
                                 'line 4 of the C: return __sync_fetch_and_add')

    def test_several_at_once(self):
        """A vector of divisions isn't lowered; the line is named."""
        text = ('x\n  %3 = sdiv <2 x i64> %1, %2, !dbg !7\n!7 = !DILocation(line: 12, column: 3, '
                'scope: !1)\n')
        with self.assertRaisesRegex(spmat.CompileError,
                                    r'clang 16 has no code for a signed division \(line 12\)'):
            from_c.check_lowered(from_c.lower(text), 16)

    def test_no_text(self):
        with self.assertRaisesRegex(TypeError,
                                    'expected the text of a function in C, got function'):
            spmat.c(lambda x: x)
