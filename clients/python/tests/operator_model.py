"""Python's meaning of an operator's function on words of 64 bits, and the plain machine that runs
what it becomes.

This says what docs/operators.md says of each of Python's operations, apart from the package's own
code.
"""
import operator
import random
import sys

import support
import spmat
from model import signed
from ready_meanings import quotient

sys.path.insert(0, support.TOP)
from reference.assembly import assemble  # noqa: E402
from reference.machine import call  # noqa: E402
from reference.verifier import verify  # noqa: E402

WORD = (1 << 64) - 1
LEAST, MOST = -2 ** 63, 2 ** 63 - 1
EDGES = [0, 1, -1, 2, -2, 3, -3, 5, 7, -7, 8, 10, 11, 31, 32, 63, 64, 65, 100, -100, 255,
         2 ** 31 - 1, 2 ** 31, 2 ** 31 + 1, -2 ** 31, -2 ** 31 - 1, 2 ** 32, 2 ** 62, MOST,
         MOST - 1, LEAST, LEAST + 1]
COUNTS = {'unary': 1, 'binary': 2, 'index': 4}
READY = {'unary': spmat.unary, 'binary': spmat.binary, 'index': spmat.indexunary}


MEANINGS = {
    'add': lambda x, y: x + y, 'sub': lambda x, y: x - y, 'mul': lambda x, y: x * y,
    'and': lambda x, y: x & y, 'or': lambda x, y: x | y, 'xor': lambda x, y: x ^ y,
    'floordiv': lambda x, y: x // y if y else 0, 'mod': lambda x, y: x % y if y else x,
    'lshift': lambda x, y: x << y if 0 <= y < 64 else 0,
    'rshift': lambda x, y: x >> y if 0 <= y < 64 else x >> 63, 'pow': lambda x, y: x ** y,
    'divmod': lambda x, y: (x // y, x % y) if y else (0, x)}

# Of these a number beyond a word wraps before it is divided or shifted.
WRAPPED_FIRST = [MEANINGS[name] for name in ('floordiv', 'mod', 'rshift', 'divmod')]


class Model:
    """A word with the meaning that the page gives to Python's operations: each result wraps; x // 0
    is 0, x % 0 is x; a shift by 64 or more, or by less than 0, leaves nothing of << and the sign of
    >>. It is no int, since True + 3 of ints is an int."""

    def __init__(self, word):
        self.word = signed(word)

    def __index__(self):
        return self.word

    def __bool__(self):
        return self.word != 0

    def __hash__(self):
        return hash(self.word)

    def __neg__(self):
        return Model(-self.word)

    def __invert__(self):
        return Model(~self.word)

    def __abs__(self):
        return Model(abs(self.word))

    def __pos__(self):
        return self

    def __round__(self, digits=0):
        return self

    __trunc__ = __floor__ = __ceil__ = conjugate = __pos__
    real = numerator = property(__pos__)

    def bit_length(self):
        return Model(self.word.bit_length())

    def bit_count(self):
        return Model(bin(self.word).count('1'))


def _plain(value):
    """A number of Python for a word, or for a number of another kind."""
    return value.word if isinstance(value, Model) else operator.index(value)


def _operation(meaning, turned):
    def method(self, other):
        if not hasattr(other, '__index__'):
            return NotImplemented
        number = _plain(other)
        if turned and meaning in WRAPPED_FIRST:
            number = signed(number)
        got = meaning(number, self.word) if turned else meaning(self.word, number)
        return tuple(map(Model, got)) if isinstance(got, tuple) else Model(got)
    return method


for _name, _meaning in MEANINGS.items():
    setattr(Model, '__%s__' % _name, _operation(_meaning, False))
    setattr(Model, '__r%s__' % _name, _operation(_meaning, True))
for _name in ('lt', 'le', 'gt', 'ge', 'eq', 'ne'):
    setattr(Model, '__%s__' % _name, _operation(getattr(operator, _name), False))


# What the functions without a sign in Python mean, by Python's numbers.
SIGNLESS = {
    'where': lambda c, a, b: a if c else b, 'cdiv': quotient,
    'cmod': lambda x, y: x - y * quotient(x, y),
    'udiv': lambda x, y: (x & WORD) // (y & WORD) if y else 0,
    'umod': lambda x, y: (x & WORD) % (y & WORD) if y else x,
    'ult': lambda x, y: (x & WORD) < (y & WORD), 'rsh': lambda x, y: (x & WORD) >> (y & 63)}


def helper(name):
    """A function of `spmat` that has its meaning of the model's words, and of an operator's
    operands the package's."""
    def called(*operands):
        if any(isinstance(each, Model) for each in operands):
            # they take words, so that a number beyond 64 bits wraps first
            return Model(SIGNLESS[name](*(signed(_plain(each)) for each in operands)))
        return getattr(spmat, name)(*operands)
    return called


class Plain:
    """An operator, accepted by the reference implementation's verifier, on its machine."""

    def __init__(self, op):
        self.kind = op.kind
        self.program = assemble(op.text.encode())
        verify(self.program, op.kind)

    @property
    def instructions(self):
        """How many there are: what a call costs in a price."""
        return len(self.program.instructions)

    def run(self, operands):
        """The value and the steps of a call."""
        value, steps = call(self.program, tuple(int(each) & WORD for each in operands))
        return signed(value), steps

    def longest(self):
        """The steps of the longest way, whatever conditions say."""
        most = {}
        for each in reversed(self.program.instructions):
            group, action = each.spelling.group, each.spelling.action
            follow = ([] if group == 'exit' else [each.target] if action == 'ja'
                      else [each.after] + (
                          [each.target] if each.target is not None else []))
            most[each.slot] = 1 + max((most[slot] for slot in follow), default=0)
        return most[0]


def meaning(function, operands):
    """What the function gives of words, by the model."""
    return signed(function(*map(Model, operands)))


def operands_of(dice, kind):
    """Operands of a call: edges, small numbers, and any words; rows and columns as matrices have
    them."""
    out = [dice.choice(EDGES) if dice.random() < 0.6 else dice.randrange(-120, 120)
           if dice.random() < 0.7 else signed(dice.getrandbits(64)) for _ in range(COUNTS[kind])]
    if kind == 'index':
        out[1:3] = [dice.randrange(1 << 24) if dice.random() < 0.4 else dice.randrange(12)
                    for _ in range(2)]
    return out


def differences(op, function, kind, times, seed=1):
    """Calls in which the plain machine says something else of an operator than the model, or takes
    more steps than it has instructions: (operands, what it gave, what was expected)."""
    plain, dice = Plain(op), random.Random(seed)
    found = []
    for _ in range(times):
        operands = operands_of(dice, kind)
        expected = meaning(function, operands)
        got, steps = plain.run(operands)
        if got != expected or steps > plain.instructions:
            found.append((operands, got, expected))
    return found
