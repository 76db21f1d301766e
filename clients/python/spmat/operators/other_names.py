"""Built-in operators by other names: functions of numpy, and names of python-graphblas, that mean a
built-in one exactly, and what to write for those that don't.
"""
from __future__ import annotations

from typing import TYPE_CHECKING, Dict, Tuple

if TYPE_CHECKING:
    import numpy

# Words for built-in operators, where the meaning is the same for all words of 64 bits.
ALIASES: Dict[str, Dict[str, str]] = {
    'unary': {},
    'binary': {'isgt': 'gt', 'isge': 'ge', 'islt': 'lt', 'isle': 'le', 'bitand': 'band',
               'bitor': 'bor', 'bitxor': 'bxor', 'bitxnor': 'bxnor'},
    'index': {}}

# Built-in operators, but for second names of others, each behind the CRC-32 of its kind and its
# instructions. So a function is found to be one without the files of all.
_BY_CHECKSUM = '''
67ec55b7 abs 6dede0d9 ainv 365f7b17 bnot 7245da94 identity 5cdfdc41 lnot 1a3cd74f minv
b9a71398 nonzero baad6fde one 98a47f88 sgn 1cda646a zero 448d0efc absdiff 86a91ec2 arsh
c8ccc1ee band 75d332ef bor e269a570 bxnor 2c7c1922 bxor 22584db5 cdiv 1ce8f9ad cmod 5d32aaa9 eq
674e309f first e0467f89 floordiv d90a5cc3 ge 39933902 gt 1e6822ee land f3016028 le 824c1d7a lor
99aae7a2 lsh 139805e9 lt 3deb857f lxnor 64a49976 lxor daadbc17 max ed5f8cdb min 12f112f6 minus
a2d8b816 ne 6b6a2d83 pair fae01eb7 plus 68aed5cb rdiv 8cb045a1 rminus ae24a933 rsh 56a62a02 second
05fdaacc times cd1d2637 zero 875ff787 colgt 8f351907 colindex 4dcdaead colle 85ca8582 diag
018fcc82 diagindex bac85f7a nonzero 7a20973d offdiag 60425110 rowgt ea522241 rowindex aad0083a rowle
e8f070dd thunk 080c3450 tril 220708bb triu 8e4646c0 valueeq 728cd929 valuege 9215bce8 valuegt
5887e5c2 valuele b81e8003 valuelt 71ac547f valuene
'''.split()
READY_BY_CHECKSUM = dict(zip(_BY_CHECKSUM[::2], _BY_CHECKSUM[1::2]))

UFUNCS: Dict[str, Dict[str, str]] = {
    'unary': {'absolute': 'abs', 'negative': 'ainv', 'positive': 'identity', 'invert': 'bnot',
              'logical_not': 'lnot', 'sign': 'sgn', 'conjugate': 'identity'},
    'binary': {'add': 'plus', 'subtract': 'minus', 'multiply': 'times', 'minimum': 'min',
               'maximum': 'max', 'fmin': 'min', 'fmax': 'max', 'floor_divide': 'floordiv',
               'bitwise_and': 'band', 'bitwise_or': 'bor', 'bitwise_xor': 'bxor',
               'logical_and': 'land', 'logical_or': 'lor', 'logical_xor': 'lxor', 'equal': 'eq',
               'not_equal': 'ne', 'less': 'lt', 'less_equal': 'le', 'greater': 'gt',
               'greater_equal': 'ge'},
    'index': {'equal': 'valueeq', 'not_equal': 'valuene', 'less': 'valuelt',
              'less_equal': 'valuele', 'greater': 'valuegt', 'greater_equal': 'valuege'}}

_DIVISION = 'values are whole numbers: "cdiv" rounds toward 0 and "floordiv" down'
_REMAINDER = '"cmod" has the sign of x, and lambda x, y: x % y that of y; both give x where y is 0'
_POWER = ('lambda x: x ** 3 has a power that is known beforehand; A.power(n) multiplies a matrix '
          'with itself')
_POSITION = ('positions come from "rowindex" and "colindex", as in A.apply("rowindex"), and in '
             'products from "any_firsti", "any_firstj", "any_secondi" and "any_secondj"')
_SHIFT = ('"lsh" shifts left, "arsh" right, by the low 6 bits of y; lambda x, y: x << y gives 0 '
          'for 64 and above')
_AGGREGATE = ('A.reduce_rowwise(%r) and reduce_columnwise(%r) take it as an aggregator, other '
              'methods do not')

# What to write for names that mean what no built-in operator does, or that are called otherwise
# here.
INSTEAD: Dict[str, str] = {
    **dict.fromkeys(('div', 'truediv', 'rtruediv', 'true_divide', 'divide'), _DIVISION),
    'rfloordiv': 'lambda x, y: y // x',
    **dict.fromkeys(('mod', 'remainder', 'fmod', 'modulo'), _REMAINDER),
    **dict.fromkeys(('pow', 'rpow', 'power', 'square'), _POWER),
    **dict.fromkeys(('firsti', 'firstj', 'secondi', 'secondj', 'firsti1', 'firstj1', 'secondi1',
                     'secondj1', 'positioni', 'positionj', 'positioni1', 'positionj1'), _POSITION),
    **dict.fromkeys(('bshift', 'left_shift', 'right_shift', 'shl', 'shr'), _SHIFT),
    'bget': 'lambda x, y: x >> y & 1', 'bset': 'lambda x, y: x | 1 << y',
    'bclr': 'lambda x, y: x & ~(1 << y)',
    **dict.fromkeys(('sum', 'add'), 'it is "plus"'),
    **dict.fromkeys(('prod', 'product', 'mul', 'multiply'), 'it is "times"'),
    **dict.fromkeys(('sub', 'subtract'), 'it is "minus"'),
    **dict.fromkeys(('neg', 'negative'), 'it is "ainv"'),
    'absolute': 'it is "abs"', 'sign': 'it is "sgn"', 'and': 'it is "land", or "band" for bits',
    'or': 'it is "lor", or "bor" for bits', 'not': 'it is "lnot", or "bnot" for bits',
    'maximum': 'it is "max"', 'minimum': 'it is "min"',
    **{name: _AGGREGATE % (name, name) for name in ('argmin', 'argmax')},
    'count': _AGGREGATE % ('count', 'count') +
             '; dup_op="plus" counts edges that are read with values=False',
    'last': _AGGREGATE % ('last', 'last') + '; dup_op="second" keeps the last of edges that repeat',
    'mean': _AGGREGATE % ('mean', 'mean') +
            '; dup_op="plus" adds up, and of values=False it counts',
    'average': '"mean" is an aggregator: A.reduce_rowwise("mean")'}


def is_ufunc(thing: object) -> bool:
    """Whether this is a function of numpy that works entry by entry."""
    return type(thing).__name__ == 'ufunc' and type(thing).__module__ == 'numpy'


def ready_of(kind: str, ufunc: 'numpy.ufunc') -> Tuple[str, str]:
    """The kind and the name of the built-in operator that a function of numpy is. It is of a kind,
    or of the kind of its operands where that one has none. TypeError where no built-in operator has
    its meaning for all words."""
    own = 'unary' if ufunc.nin == 1 else 'binary'
    for wanted in (kind, own):
        name = UFUNCS[wanted].get(ufunc.__name__)
        if name is not None:
            return wanted, name
    write = 'write a function of x%s, such as lambda %s: ..' % (
        ('', 'x') if own == 'unary' else (' and y', 'x, y'))
    raise TypeError('np.%s is no operator on whole numbers of 64 bits: %s' % (
        ufunc.__name__, INSTEAD.get(ufunc.__name__, write)))


# functions of Python and numpy that take many numbers, by the folds of the same answer
_FOLDS = {'sum': 'plus', 'max': 'max', 'amax': 'max', 'min': 'min', 'amin': 'min', 'mean': 'mean',
          'average': 'mean', 'prod': 'times', 'product': 'times', 'any': 'lor', 'all': 'land',
          'argmax': 'argmax', 'argmin': 'argmin', 'ptp': 'peak_to_peak'}


def fold_of(function: object) -> str:
    """The fold that a function of many numbers stands for; nothing of other functions. `max` and
    `min` of Python take two as well."""
    is_known = function is sum or (
        getattr(function, '__module__', '') == 'numpy' and not is_ufunc(function))
    return _FOLDS.get(getattr(function, '__name__', ''), '') if is_known else ''
