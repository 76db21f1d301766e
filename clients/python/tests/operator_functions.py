"""Functions as users would write them, with the kind of operator that each becomes."""
import functools
import math
import operator

from operator_model import LEAST, MOST, helper

where, cdiv, cmod, udiv, umod, ult, rsh = map(helper,
                                              ('where', 'cdiv', 'cmod', 'udiv', 'umod', 'ult',
                                               'rsh'))


def toll(x, y):
    return x + y + (5 if y > 10 else 0)


def sign(x):
    return (x > 0) - (x < 0)


def clamp(x, low=0, high=255):
    return max(low, min(high, x))


def grade(x):
    if x >= 90:
        return 5
    elif x >= 75:
        return 4
    elif x >= 60:
        return 3
    return 0


def fee(x, y):
    r = 2 * x if x > 100 else x
    r += 7 if y > 0 else 0
    r += y * y if x > 50 else 0
    return r


def score(x, y):
    s = 0
    if x > 10:
        s += 3
    if y > 20:
        s += 5
    if x & 1:
        s += 7
    if x > y:
        s += 11
    return s


def vote(x, y):
    if rsh(x, 8) == rsh(y, 8):
        return x + 1
    if x & 255 == 0:
        return y
    return x - 1


def move(states, letter):
    out = 0
    if states & 1 and letter & 1:
        out |= 2
    if states & 2:
        if letter & 6:
            out |= 2
        if letter & 8:
            out |= 4
    return out


def collatz(x):
    return 3 * x + 1 if x % 2 else x // 2


def collatz_steps(x):
    n = 0
    while x != 1 and n < 4:
        x, n = 3 * x + 1 if x % 2 else x // 2, n + 1
    return n


def bits(x):
    n = 0
    while x > 0:
        x >>= 1
        n += 1
    return n


def count_bits(x):
    x = x - (rsh(x, 1) & 0x5555555555555555)
    x = (x & 0x3333333333333333) + (rsh(x, 2) & 0x3333333333333333)
    return rsh((x + rsh(x, 4) & 0x0f0f0f0f0f0f0f0f) * 0x0101010101010101, 56)


def crc(x, y):
    c = x ^ y
    for _ in range(8):
        c = rsh(c, 1) ^ (0xEDB88320 if c & 1 else 0)
    return c


def mixed(x):
    x = (x ^ rsh(x, 33)) * 0xff51afd7ed558ccd
    x = (x ^ rsh(x, 33)) * 0xc4ceb9fe1a85ec53
    return x ^ rsh(x, 33)


def isqrt(x):
    r = 0
    for k in range(15, -1, -1):
        r = where((r + (1 << k)) * (r + (1 << k)) <= x, r + (1 << k), r)
    return r


def median(x, row, column, thunk):
    return sorted([x, row, column])[1]


def spread(x, row, column, thunk):
    return max(x, row, column, thunk) - min(x, row, column, thunk)


def many(x, y):
    terms = [x * k + y for k in range(1, 25)]
    s = sum(terms)
    for term in terms[::-1]:
        s ^= term
    return s - sum(3 * term for term in terms)


def digits(x):
    return (x % 10) * 100 + x // 10 % 10 * 10 + x // 100 % 10


def saturating(x, y):
    s = x + y
    if x > 0 and y > 0 and s < 0:
        return 2 ** 63 - 1
    if x < 0 and y < 0 and s >= 0:
        return -2 ** 63
    return s


def gcd_steps(x, y):
    for _ in range(4):
        x, y = y, x % y
    return x


def table(x):
    return [3, 1, 4, 1, 5, 9, 2, 6][x % 8]


def dictionary(x):
    return {0: 5, 1: 7}.get(x % 3, -1)


def quarter(x):
    try:
        return ('a', 'b', 'c').index('abc'[x & 1]) + 10
    finally:
        pass


def nested(x, y):
    def inner(a):
        return a * a if a > y else -a
    return inner(x) + inner(x + 1) * inner(3)


def packed(x, y):
    """The lesser cost of two words of (cost, hops), and of equal costs the fewer hops; both grow
    along a path."""
    cost, hops = (x >> 16) + (y >> 16), (x & 0xffff) + (y & 0xffff)
    return cost << 16 | min(hops, 0xffff)


class Weighted:
    def __init__(self, weight):
        self.weight = weight

    def __call__(self, x, y):
        return self.weight * x + y

    def method(self, x, y):
        return x - self.weight * y


class Whole:
    """As a number of numpy: an index, and no int."""
    dtype = None

    def __init__(self, number):
        self.number = number

    def __index__(self):
        return self.number


LIST = [lambda x, y, k=k: x + k * y for k in range(3)]
FIVE = Whole(5)
NAMED = [
    ('binary', toll), ('unary', sign), ('unary', clamp), ('unary', grade), ('binary', score),
    ('binary', vote), ('binary', move),
    ('unary', collatz), ('unary', collatz_steps), ('unary', bits), ('unary', count_bits),
    ('binary', crc), ('unary', mixed),
    ('unary', isqrt), ('index', median), ('index', spread), ('binary', many), ('unary', digits),
    ('binary', saturating),
    ('binary', gcd_steps), ('unary', table), ('unary', dictionary), ('unary', quarter),
    ('binary', nested), ('binary', packed),
    ('binary', Weighted(7)), ('binary', Weighted(-3).method), ('binary', LIST[0]),
    ('binary', LIST[2]),
    ('binary', functools.partial(lambda k, x, y: k - x * y, 9)), ('binary', operator.add),
    ('binary', min), ('binary', max),
    ('unary', abs), ('unary', operator.neg), ('unary', operator.invert), ('unary', bool),
    ('unary', operator.not_)]
UNARY = [
    lambda x: x // 10, lambda x: x % 10, lambda x: x // -10, lambda x: x % -10,
    lambda x: x // 8 + x % 8, lambda x: x // LEAST + x % LEAST, lambda x: x // MOST + x % MOST,
    lambda x: x // 2 ** 40 % 1000, lambda x: x // -1, lambda x: x // -8 + x % -8,
    lambda x: (x << 70) + (x >> 70) + (x << 3), lambda x: 1 << x, lambda x: -5 >> x,
    lambda x: x ** 5 + x ** 0 + x ** 1, lambda x: x * 0x9E3779B97F4A7C15 ^ x,
    lambda x: abs(x) + abs(-x), lambda x: x < 2 ** 63, lambda x: x > 2 ** 31 - 1,
    lambda x: x <= -2 ** 31 - 1, lambda x: (x == 2 ** 40) - (x < -2 ** 40), lambda x: x + 2 ** 31,
    lambda x: x - 2 ** 31, lambda x: 2 ** 40 - x, lambda x: 7, lambda x: LEAST,
    lambda x: (x >> 5 & 1) + (x >> 40 & 1) + (x & 4 == 4),
    lambda x: sum(x > k for k in (10, 20, 30)), lambda x: any(x == k * k for k in range(5)),
    lambda x: max(range(x & 3), default=9), lambda x: math.prod(range(1, 2 + (x & 3))),
    lambda x: x.bit_length(), lambda x: x.bit_count(), lambda x: x.real + x.conjugate(),
    lambda x: round(x) + round(x, 2), lambda x: pow(x, 3), lambda x: x if x else -1,
    lambda x: (x > 5) * x + (x <= 5) * 7, lambda x: True + x - False,
    lambda x: int(x > 3) * 2 + (x is None), lambda x: [10, 20, 30][x % 3],
    lambda x: (x & 1) * 2 ** 62 * 4]
BINARY = [
    lambda x, y: sum(divmod(x, y)), lambda x, y: divmod(x, 7)[0] - divmod(y, -7)[1],
    lambda x, y: x // y, lambda x, y: x % y, lambda x, y: x // y if y else 0,
    lambda x, y: x % y if y > 0 else x // -3, lambda x, y: 100 // x + 100 % y, lambda x, y: x << y,
    lambda x, y: x >> y, lambda x, y: (x << (y & 63)) ^ (x >> (y & 63)),
    lambda x, y: x > 3 and y < 5, lambda x, y: (x > 3) & (y < 5), lambda x, y: (x > 3) | ~(y < 5),
    lambda x, y: (x > 3) ^ (y < 5), lambda x, y: (x > 3) == (y > 3), lambda x, y: x or y,
    lambda x, y: not (x and y), lambda x, y: 0 < x < y <= 100, lambda x, y: x in (1, 2, 3, y),
    lambda x, y: 5 * (y > 10) + x, lambda x, y: where(y > 10, x, y) * 2 + 1,
    lambda x, y: where((x > 0) & (y > 0), x * y, 0), lambda x, y: x if x == y else x ^ y,
    lambda x, y: int(x > y) + [10, 20][y > 5], lambda x, y: x != y,
    lambda x, y: cdiv(x, y) * 3 + cmod(x, y), lambda x, y: udiv(x, y) + umod(x, 10) + ult(x, y),
    lambda x, y: ult(x, 5) + (not ult(7, y)), lambda x, y: x + FIVE * y - FIVE,
    lambda x, y: round(x) + math.floor(y) + math.trunc(x) - math.ceil(y),
    lambda x, y: sorted([x, y, 5])[1], lambda x, y: where(x, 3, 5) * y,
    lambda x, y: min(x, y, key=abs), lambda x, y: max(0, x - y), lambda x, y: abs(x - y) <= 3]
INDEX = [
    lambda x, row, column, thunk: column - row <= thunk,
    lambda x, row, column, thunk: row // 3 == column // 3, lambda x, row, column, thunk: x
    if (row + column) % 2 else -x, lambda x, row, column, thunk: row * 1000 + column % 7,
    lambda *four: sum(four), lambda x, row, column, thunk: x * (row == column) + thunk
    * (row < column), lambda x, row, column, thunk: row % (thunk & 7 | 1) == 0,
    lambda x, row, column, thunk: (row << 24 | column) + (thunk and x)]
FUNCTIONS = NAMED + [('unary', function)
                     for function in UNARY] + [('binary', function) for function in BINARY] + [
                         ('index', function) for function in INDEX]
# Index operators that take the first operands alone, and what they mean with all four.
SHORT = [
    (lambda x: x * 2, lambda x, row, column, thunk: x * 2),
    (lambda x, row: x + row, lambda x, row, column, thunk: x + row),
    (lambda x, row, column: row < column, lambda x, row, column, thunk: row < column),
    (lambda x, factor=3: x * factor, lambda x, row, column, thunk: x * 3),
    (lambda x, row, column, thunk=5: x + thunk, lambda x, row, column, thunk: x + thunk)]
