"""What each built-in operator means, in Python."""

WORDS = 1 << 64


def quotient(x, y):
    """Rounded toward 0, as in C; 0 by 0."""
    return (abs(x) // abs(y) if (x < 0) == (y < 0) else -(abs(x) // abs(y))) if y else 0


def remainder(x, y):
    return x - y * quotient(x, y)


UNARY = {
    'identity': lambda x: x, 'one': lambda x: 1, 'zero': lambda x: 0, 'ainv': lambda x: -x,
    'bnot': lambda x: ~x,
    'minv': lambda x: quotient(1, x), 'abs': abs, 'lnot': lambda x: not x, 'nonzero': bool,
    'sgn': lambda x: (x > 0) - (x < 0),
}
BINARY = {
    'first': lambda x, y: x, 'second': lambda x, y: y, 'any': lambda x, y: x,
    'pair': lambda x, y: 1, 'oneb': lambda x, y: 1,
    'zero': lambda x, y: 0, 'plus': lambda x, y: x + y, 'minus': lambda x, y: x - y,
    'rminus': lambda x, y: y - x,
    'times': lambda x, y: x * y, 'cdiv': quotient, 'rdiv': lambda x, y: quotient(y, x),
    'cmod': remainder,
    'floordiv': lambda x, y: x // y if y else 0, 'min': min, 'max': max,
    'absdiff': lambda x, y: abs(x - y),
    'band': lambda x, y: x & y, 'bor': lambda x, y: x | y, 'bxor': lambda x, y: x ^ y,
    'bxnor': lambda x, y: ~(x ^ y),
    'lsh': lambda x, y: x << (y & 63), 'rsh': lambda x, y: x % WORDS >> (y & 63),
    'arsh': lambda x, y: x >> (y & 63),
    'land': lambda x, y: x and y and 1, 'lor': lambda x, y: bool(x or y),
    'lxor': lambda x, y: (x == 0) != (y == 0),
    'lxnor': lambda x, y: (x == 0) == (y == 0), 'eq': lambda x, y: x == y,
    'ne': lambda x, y: x != y, 'lt': lambda x, y: x < y,
    'le': lambda x, y: x <= y, 'gt': lambda x, y: x > y, 'ge': lambda x, y: x >= y,
    'iseq': lambda x, y: x == y,
    'isne': lambda x, y: x != y,
}
INDEX = {
    'thunk': lambda x, i, j, t: t, 'nonzero': lambda x, i, j, t: x,
    'rowindex': lambda x, i, j, t: i + t,
    'colindex': lambda x, i, j, t: j + t, 'diagindex': lambda x, i, j, t: j - i + t,
    'tril': lambda x, i, j, t: j <= i + t,
    'triu': lambda x, i, j, t: j >= i + t, 'diag': lambda x, i, j, t: j == i + t,
    'offdiag': lambda x, i, j, t: j != i + t,
    'rowle': lambda x, i, j, t: i <= t, 'rowgt': lambda x, i, j, t: i > t,
    'colle': lambda x, i, j, t: j <= t,
    'colgt': lambda x, i, j, t: j > t, 'valueeq': lambda x, i, j, t: x == t,
    'valuene': lambda x, i, j, t: x != t,
    'valuelt': lambda x, i, j, t: x < t, 'valuele': lambda x, i, j, t: x <= t,
    'valuegt': lambda x, i, j, t: x > t,
    'valuege': lambda x, i, j, t: x >= t,
}
MEANINGS = {'unary': UNARY, 'binary': BINARY, 'index': INDEX}
