"""The ways through a function, and the words that it is called with.

Where Python asks whether a condition holds, a way goes on with True, and the function is run again
for False. What a way knows, by answers and by ranges, answers later questions: a loop ends where
the range of its operand does.

A word is no number yet, and has Python's operations on whole numbers: each operation makes an
expression, and each question (`if`, `and`, `min`) a choice. Operations that the machine doesn't
have as Python means them (floor division and its rest, shifts by any amount) are made here of those
that it has.

An operator has a value for all operands, so x // 0 is 0. But where a function catches what Python
raises there, a way asks whether y is 0, and raises.
"""
from __future__ import annotations

import decimal
import dis
import fractions
import functools
import inspect
import linecache
import operator
import os
from types import CodeType, FrameType
from typing import Any, Callable, Dict, Iterator, List, NoReturn, Optional, Sequence, Set, Tuple

from ...errors import CompileError
from ...integers import LEAST, MOST
from ..assembly import MEANINGS, OPERATIONS, WORDS, wrap
from ..integer_functions import Operand, Whole, cdiv, cmod, rsh, udiv, ult, where, whole
from .expressions import Condition, Graph, Node, text_of
MOST_WAYS, MOST_QUESTIONS, MOST_VALUES = 1024, 256, 256
LONGEST_QUOTE = 60
TOO_MANY_WAYS = ('more than %d ways%s: each further `if` doubles them. where(c, a, b), or a '
                 'comparison as a number, 5 * (x > 3), is no way of its own')
TOO_MANY_QUESTIONS = ('a way of more than %d questions%s: a loop has to end by itself, as over '
                      'range(8), or as the range of its operand does, as x >>= 1')
_PACKAGE = os.path.dirname(os.path.dirname(os.path.dirname(os.path.abspath(__file__)))) + os.sep
_LIBRARY = os.path.dirname(os.path.abspath(os.__file__)) + os.sep

Range = Tuple[int, int]
FULL: Range = (LEAST, MOST)
SIDE: Range = (0, (1 << 31) - 1)                   # of rows and columns
Answers = Sequence[Tuple[Node, bool]]
Line = Tuple[str, int]                             # a file and a line of it
Point = Tuple[Tuple[bool, ...], int]               # the answers so far, and how many such points


class Impure(BaseException):
    """A function did something else when it was run again. The function itself must not catch it,
    so it is no Exception."""


# -- the function at work

def call(function: Callable[..., Any], operands: Sequence[object]) -> Any:
    """Calls the function. Frames above this one are its own."""
    return function(*operands)


def frames() -> Iterator[FrameType]:
    """The frames of the function and of what it calls, innermost first, without this package's."""
    frame = inspect.currentframe()
    while frame is not None and frame.f_code is not call.__code__:
        if not frame.f_code.co_filename.startswith(_PACKAGE):
            yield frame
        frame = frame.f_back


def is_users(file: str) -> bool:
    """Whether code of this file is the user's: neither ours nor of Python's library."""
    of_library = file.startswith(_LIBRARY) and 'site-packages' not in file
    return not (of_library or file.startswith((_PACKAGE, '<__', '<frozen')))   # <__: numpy's


def current_line() -> Optional[Line]:
    """The user's line that is being executed; None where the function isn't written in Python."""
    frame = next((each for each in frames() if is_users(each.f_code.co_filename)), None)
    return (frame.f_code.co_filename, frame.f_lineno) if frame is not None else None


def describe_line(line: Line) -> str:
    """A line for people: its file, its number, and its text where it is known."""
    text = linecache.getline(*line).strip()
    text = text if len(text) <= LONGEST_QUOTE else text[:LONGEST_QUOTE - 3] + '..'
    return '%s:%d%s' % (os.path.basename(line[0]), line[1], ', `%s`' % text if text else '')


@functools.lru_cache(maxsize=4096)
def _has_handler(code: CodeType) -> bool:
    """Whether code has a handler of some kind: `except`, but also `finally`, `with` or a
    generator."""
    if hasattr(code, 'co_exceptiontable'):         # from Python 3.11 on
        return bool(code.co_exceptiontable)
    return any(each.opname.startswith(('SETUP_FINALLY', 'SETUP_WITH', 'SETUP_ASYNC_WITH'))
               for each in dis.get_instructions(code))


# -- one way

class Ranges:
    """The range of each word, from those of its operands. Where a result may not fit in a word its
    range is the full one."""

    def __init__(self) -> None:
        self._known: Dict[Node, Range] = {}

    def of(self, n: Node) -> Range:
        """The least and the greatest number that a word may be."""
        if n not in self._known:
            ends = self._ends(n)
            fits = bool(ends) and LEAST <= min(ends) and max(ends) <= MOST
            self._known[n] = (min(ends), max(ends)) if fits else FULL
        return self._known[n]

    def within(self, n: Node, low: int, high: int) -> None:
        """What is known of a word from now on, beside what was known; nothing where no number is
        left."""
        least, most = self.of(n)
        if max(low, least) <= min(high, most):
            self._known[n] = max(low, least), min(high, most)

    def _ends(self, n: Node) -> Sequence[int]:
        """Numbers between which a result lies, before it wraps; none where nothing is known."""
        if n.op == 'const':
            return (n.number,)
        if n.op == 'arg':
            return ()
        (low, high), (other_low, other_high) = (self.of(each) for each in n.args[-2:])
        exact, positive = other_low == other_high, low >= 0 and other_low > 0
        if n.op in ('add', 'sub', 'mul', *(('arsh', 'lsh', 'sdiv') if exact else ()),
                    *(('div',) if positive else ())):
            return [MEANINGS[n.op](x, y) for x in (low, high) for y in (other_low, other_high)]
        if n.op == 'select':
            return low, high, other_low, other_high
        if n.op in OPERATIONS and OPERATIONS[n.op].bitwise:
            return _of_bits(n.op, (low, high), (other_low, other_high))
        if n.op == 'rsh' and exact and other_low & 63:
            return 0, (high if low >= 0 else WORDS - 1) >> (other_low & 63)
        if n.op == 'mod' and (other_low > 0 or min(low, other_low) >= 0):
            below = other_high - 1 if low < 0 else min(high, other_high - 1)
            return 0, below if low < 0 or other_low else high
        if n.op == 'smod' and exact and other_low:
            return min(0, max(low, 1 - abs(other_low))), max(0, min(high, abs(other_low) - 1))
        return ()


def _of_bits(op: str, one: Range, other: Range) -> Sequence[int]:
    """Of bitwise operations: what is at least 0 keeps its bits within those of the operands."""
    if op == 'and' and max(one[0], other[0]) >= 0:
        return 0, min(top for bottom, top in (one, other) if bottom >= 0)
    if op != 'and' and min(one[0], other[0]) >= 0:
        return 0, (1 << max(one[1], other[1]).bit_length()) - 1
    return ()


class Exploration:
    """What all ways through a function share. `operands` are numbers where these are known.
    `uncaught` has the points, of all ways, at which the function doesn't catch an error of
    Python's."""

    def __init__(self, names: Sequence[str], operands: Optional[Sequence[int]] = None) -> None:
        self.graph, self.names = Graph(), names
        self.operands = ([self.graph.node('arg', number=at) for at in range(len(names))]
                         if operands is None else list(map(self.graph.const, operands)))
        self.uncaught: Set[Point] = set()
        self.warnings: Dict[Tuple[str, Optional[Line]], str] = {}


class Path:
    """One way through a function: what was asked, and what is known by the answers."""

    def __init__(self, exploration: Exploration, plan: Answers) -> None:
        self.shared, self.graph, self.plan = exploration, exploration.graph, plan
        self.taken: List[Tuple[Node, bool]] = []
        self.lines: List[Optional[Line]] = []      # where each question was asked
        self.refused: Optional[CompileError] = None
        self.line: Optional[Line] = None           # where it was refused
        self.asked = 0
        self.points = 0                            # at which an error might have been raised
        self.raised: List[Tuple[Point, Exception]] = []    # and where it was
        self.facts: Dict[Node, bool] = {}
        self.ranges = Ranges()
        for side in exploration.operands[1:3] if len(exploration.operands) == 4 else []:
            if side.op == 'arg':
                self.ranges.within(side, *SIDE)

    def fault(self, text: str) -> CompileError:
        """What is wrong, to be raised. It counts also where the function catches it."""
        if self.refused is None:
            self.refused, self.line = CompileError(text), current_line()
        return self.refused

    def warn(self, what: str, meaning: str) -> None:
        """Notes what the user should look at, though it has a meaning; once for each line."""
        self.shared.warnings.setdefault((what, current_line()), what + self.conditions() + meaning)

    def raise_if_caught(self, condition: Condition, error: Exception) -> None:
        """Raises an error of Python's where a condition holds, if code at work might catch it.
        Where none does, the way is run again without the error."""
        if not any(_has_handler(frame.f_code) for frame in frames()):
            return
        point = tuple(answer for _, answer in self.taken), self.points
        self.points += 1
        if point not in self.shared.uncaught and self.decide(condition):
            self.raised.append((point, error))
            raise error

    def is_uncaught(self, fault: Optional[Exception]) -> bool:
        """Whether what the function raised is such an error, which is noted."""
        points = {point for point, error in self.raised if error is fault}
        self.shared.uncaught |= points
        return bool(points)

    # -- questions

    def truth(self, c: Node) -> Optional[bool]:
        """Whether a condition holds, where this way knows it."""
        if c in self.facts:
            return self.facts[c]
        (low, high), (other_low, other_high) = map(self.ranges.of, c.args)
        if c.op == 'slt' or c.op == 'ult' and min(low, other_low) >= 0:
            return True if high < other_low else False if low >= other_high else None
        if c.op == 'eq':
            if high < other_low or other_high < low:
                return False
            return True if low == high == other_low == other_high else None
        return None

    def holds(self, n: Node) -> bool:
        """Whether a word isn't 0: known, or asked."""
        while n.op == 'select' and n.flag:
            n = n.args[1 if self.decide((n.args[0], True)) else 2]
        return not self.decide(self.graph.condition('eq', n, self.graph.const(0)))

    def decide(self, condition: Condition) -> bool:
        """The answer to a question on this way: known, planned, or True."""
        c, sense = condition
        answer = True if c is None else self.truth(c)
        self.asked += 1
        if c is not None and answer is None:
            answer = self._ask(c)
        if len(self.taken) > MOST_QUESTIONS or self.asked > 20 * MOST_QUESTIONS:
            raise self.fault(TOO_MANY_QUESTIONS % (MOST_QUESTIONS, self.most_asked()))
        return answer == sense

    def _ask(self, c: Node) -> bool:
        """The answer to a question that nothing known answers."""
        planned = len(self.taken) < len(self.plan)
        expected, answer = self.plan[len(self.taken)] if planned else (c, True)
        if expected is not c:
            raise Impure
        self.lines.append(current_line())
        self.taken.append((c, answer))
        self._learn(c, answer)
        return answer

    def _learn(self, c: Node, answer: bool) -> None:
        """Notes an answer, and what it says of ranges and of the other orders of the two words."""
        self.facts[c] = answer
        a, b = c.args
        (low, high), (other_low, other_high) = self.ranges.of(a), self.ranges.of(b)
        within = self.ranges.within
        if c.op == 'slt' and answer:
            within(a, low, min(high, other_high - 1))
            within(b, max(other_low, low + 1), other_high)
        elif c.op == 'slt':
            within(a, max(low, other_low), high)
            within(b, other_low, min(other_high, high))
        elif c.op == 'eq' and answer:
            within(a, max(low, other_low), min(high, other_high))
        elif c.op == 'eq' and other_low == other_high:
            within(a, low + (low == other_low), high - (high == other_low))
        if c.op in ('slt', 'eq') and b.op != 'const':
            three = [self.graph.node('slt', a, b), self.graph.node('slt', b, a),
                     self.graph.node('eq', *sorted((a, b), key=lambda n: n.at))]
            self.facts.update((other, False) for other in three if answer and other is not c)
            still = [other for other in three if self.facts.get(other, True)]
            self.facts.update((other, True) for other in still if len(still) == 1)

    def number(self, n: Node, wants: str) -> int:
        """The number that a word is, asked for by bisection where there are few that it can be."""
        low, high = self.ranges.of(n)
        if high - low >= MOST_VALUES:
            raise self.fault(wants % text_of(n, self.shared.names))
        while low < high:
            middle = (low + high) // 2
            lower = self.decide(self.graph.condition('slt', n, self.graph.const(middle + 1)))
            low, high = (low, middle) if lower else (middle + 1, high)
        return low

    # -- for people

    def most_asked(self) -> str:
        """The line that asks the most questions on this way."""
        lines = [line for line in self.lines if line is not None]
        most = max(sorted(set(lines)), key=lines.count, default=None)
        return ', %d of them at %s' % (lines.count(most), describe_line(most)) if most else ''

    def conditions(self) -> str:
        """The way so far, by its last conditions."""
        words = ['..'] if len(self.taken) > 4 else []
        words += [('' if answer else 'not ') + text_of(c, self.shared.names)
                  for c, answer in self.taken[-4:]]
        return ' where ' + ' and '.join(words) if words else ''


# -- all ways

def explore(shared: Exploration, run: Callable[[Path], Optional[Node]]) -> Node:
    """All ways through a function as one expression, in which what they have in common is merged.
    `run` takes one way, and gives None for one that is to be run again."""
    plan: Answers = []
    done: List[Node] = []                          # the arms of planned questions that are explored
    ways = 0
    while True:
        path = Path(shared, plan)
        root = run(path)
        if root is None:
            continue
        ways, taken = ways + 1, path.taken
        if len(taken) < len(plan):
            raise Impure
        if ways > MOST_WAYS:
            raise CompileError(TOO_MANY_WAYS % (MOST_WAYS, path.most_asked()))
        while taken and not taken[-1][1]:
            root = shared.graph.choice((taken.pop()[0], True), done.pop(), root)
        if not taken:
            return root
        done.append(root)
        plan = taken[:-1] + [(taken[-1][0], False)]


# -- words that are no numbers yet

DIVIDED = 'x / y is a float in Python: x // y rounds down, cdiv(x, y) toward 0'
POWER = 'a power wants a whole number that is known beforehand, at least 0, and no modulus'
POWER_OF_OPERAND = 'a power of an operand has no code, but 2 ** x is 1 << x'
NO_TEXT = ('an operand has no text (str, print, f-strings): it is no number yet when the function '
           'is looked at')
NO_SEVERAL = ('an operand is one number, and a %s holds several (compared by %s): x in '
              'list(values) looks for it among them')
NO_SEQUENCE = ('an operand is one number: it has no length and no items, and numpy makes no array '
               'of it (spmat.where, min and max take it)')
NUMBER = ('expected a number here (for an index, range(), or a function in C such as math.isqrt), '
          'but %%s may be any: only what has at most %d values, as x %%%% 8, becomes one' %
          MOST_VALUES)
WHOLE = '%s is whole already, and becomes no int of Python: leave int() out'
HASHED = ('a set or a dict looks for %s by its hash, which only a number has: write `x in (1, 2)`, '
          'or ask for what has few values, as x %% 8')
OUTSIDE = '%s is not in -2^63 to 2^63 - 1'
UNSIGNED = ('; words wrap by themselves, so leave a mask of 64 bits out: ult, udiv, umod and rsh '
            'take words without their sign')
BY_ZERO = 'a division by 0'
BY_NEGATIVE = 'a shift by a negative number'
AS_DIVIDED = ': as an operator x // 0 is 0, and x % 0 is x'
AS_SHIFTED = ': as an operator x << y is 0, and x >> y the sign of x'
DIVISIONS, SHIFTS = ('floordiv', 'floormod'), ('lshift', 'rshift')


def _operation(name: str) -> Tuple[Any, Any]:
    """An operation, and the one of which this is the right operand."""
    return (lambda self, other: self.operate(name, self, other),
            lambda self, other: self.operate(name, other, self))


def _comparison(name: str) -> Any:
    return lambda self, other: self.compare(name, self.comparable(name, other))


def _refused(text: str) -> Any:
    def method(self: 'Word', *_: object) -> NoReturn:
        raise self.path.fault(text)
    return method


class Word(Operand):
    """A 64-bit word on one way through a function."""
    __slots__ = ('path', 'node')
    __array_ufunc__: None = None                   # numpy's numbers leave operations to this class

    def __init__(self, path: Path, node: Node) -> None:
        self.path, self.node = path, node
        path.ranges.of(node)                       # now, as what is known may change

    def __repr__(self) -> str:
        return text_of(self.node, self.path.shared.names)

    # -- what is asked of a number

    def __bool__(self) -> bool:
        return self.path.holds(self.node)

    def __index__(self) -> int:
        return self.path.number(self.node, NUMBER)

    def __int__(self) -> int:
        return self.path.number(self.node, WHOLE)

    def __hash__(self) -> int:
        return hash(self.path.number(self.node, HASHED))

    def __float__(self) -> float:
        raise self.path.fault(no_number(0.0, 'float()'))

    # -- operations

    __add__, __radd__ = _operation('add')
    __sub__, __rsub__ = _operation('sub')
    __mul__, __rmul__ = _operation('mul')
    __and__, __rand__ = _operation('and')
    __or__, __ror__ = _operation('or')
    __xor__, __rxor__ = _operation('xor')
    __lshift__, __rlshift__ = _operation('lshift')
    __rshift__, __rrshift__ = _operation('rshift')
    __floordiv__, __rfloordiv__ = _operation('floordiv')
    __mod__, __rmod__ = _operation('floormod')
    __lt__, __le__, __gt__ = map(_comparison, ('lt', 'le', 'gt'))
    __ge__, __eq__, __ne__ = map(_comparison, ('ge', 'eq', 'ne'))
    __truediv__ = __rtruediv__ = _refused(DIVIDED)
    __rpow__ = _refused(POWER_OF_OPERAND)
    __str__ = __format__ = _refused(NO_TEXT)
    __iter__ = __len__ = __getitem__ = __contains__ = _refused(NO_SEQUENCE)

    def __neg__(self) -> Any:
        return 0 - self

    def __invert__(self) -> Any:
        return self ^ -1

    def __abs__(self) -> Any:
        return where(self < 0, -self, self)

    def __divmod__(self, other: Whole) -> Any:
        return self // other, self % other

    def __rdivmod__(self, other: Whole) -> Any:
        return other // self, other % self

    def __pow__(self, power: Whole, modulus: Optional[Word] = None) -> Any:
        number = None if isinstance(power, Word) else whole(power)
        if number is None or number < 0 or modulus is not None:
            raise self.path.fault(POWER)
        out, square = 1, self                      # type: Any, Any
        while number:
            out = out * square if number & 1 else out
            number >>= 1
            square = square * square if number else square
        return out

    def __round__(self, digits: Optional[int] = None) -> Any:
        if digits is not None and digits < 0:
            raise self.path.fault('round(x, %d) has no code: (x + 5) // 10 * 10 rounds to tens' %
                                  digits)
        return self

    def __pos__(self) -> Any:
        return self

    __trunc__ = __floor__ = __ceil__ = conjugate = __pos__
    real = numerator = property(__pos__)

    def bit_length(self) -> Any:
        """As of an int of Python: the bits of the number without its sign."""
        rest, count = abs(self), 0                 # type: Any, Any
        for bits in (32, 16, 8, 4, 2, 1):
            more = rsh(rest, bits) != 0
            rest, count = where(more, rsh(rest, bits), rest), count + bits * more
        return count + rest

    def bit_count(self) -> Any:
        """As of an int of Python: how many bits are set in the number without its sign."""
        x = abs(self)
        x = x - (rsh(x, 1) & 0x5555555555555555)
        x = (x & 0x3333333333333333) + (rsh(x, 2) & 0x3333333333333333)
        return rsh((x + rsh(x, 4) & 0x0f0f0f0f0f0f0f0f) * 0x0101010101010101, 56)

    def operate(self, name: str, a: Whole, b: Whole) -> Any:
        if any(not isinstance(each, (Word, int, float, complex, str)) and whole(each) is None
               for each in (a, b)):
            return NotImplemented
        path = self.path
        if not isinstance(b, Word) and name in DIVISIONS + SHIFTS:
            found = self._by_number(name, whole(b))
            if found is not None:
                return found
        x, y = Word(path, node_of(path, a, name)), Word(path, node_of(path, b, name))
        if name in MADE:
            return MADE[name](x, y)
        return Word(path, path.graph.make(name, x.node, y.node))

    def _by_number(self, name: str, k: Optional[int]) -> Any:
        """A division or a shift by a plain number, if Python always raises there, or if no word
        holds the number; else None."""
        if k is None:
            return None
        if k == 0 and name in DIVISIONS:
            self.path.raise_if_caught((None, True), ZeroDivisionError(BY_ZERO))
            raise self.path.fault(BY_ZERO)
        if k < 0 and name in SHIFTS:
            self.path.raise_if_caught((None, True), ValueError(BY_NEGATIVE))
            raise self.path.fault(BY_NEGATIVE)
        if LEAST <= k <= MOST:
            return None
        if name in SHIFTS:
            return 0 * self if name == 'lshift' else self >> 63
        quotient = -(self < 0) if k > 0 else -(self > 0)
        return quotient if name == 'floordiv' else self - quotient * k

    # -- comparisons and choices

    def comparable(self, name: str, other: object) -> Any:
        """What a word is compared with: of another kind of number that is whole the int, so that
        77 is Decimal(77) here, too. What holds several values is refused: Python would call it
        unequal without a word."""
        if isinstance(other, Word) or whole(other) is not None:
            return other
        several = isinstance(other, (list, tuple, set, frozenset, dict))
        if several or hasattr(other, '__array__') and not isinstance(other, float):
            raise self.path.fault(NO_SEVERAL % (type(other).__name__, name))
        if isinstance(other, decimal.Decimal) and other.is_finite():
            other = fractions.Fraction(other)
        return (other.numerator if isinstance(other, fractions.Fraction) and other.denominator == 1
                else other)

    def compare(self, name: str, other: object) -> Any:
        """A comparison with another word or a number: 1 or 0."""
        number = 0 if isinstance(other, Word) else whole(other)
        if number is None and (other is None or not isinstance(other, (str, float))):
            return NotImplemented
        if number is not None and not LEAST <= number <= MOST:
            return getattr(operator, name)(0, number)      # beyond 64 bits it is decided
        path, left, right = self.path, self.node, node_of(self.path, other)
        if name in ('eq', 'ne') and left.flag and right.flag:
            return self ^ Word(path, right) ^ (name == 'eq')
        left, right = (right, left) if name in ('gt', 'le') else (left, right)
        c, sense = path.graph.condition('eq' if name in ('eq', 'ne') else 'slt', left, right)
        return flag(path, (c, sense != (name in ('le', 'ge', 'ne'))))

    def choose(self, condition: Whole, a: Whole, b: Whole) -> Any:
        path = self.path
        c, yes, no = node_of(path, condition), node_of(path, a), node_of(path, b)
        known = path.truth(c.args[0]) if c.op == 'select' else None
        tested = c if known is None else c.args[1 if known else 2]
        return Word(path, path.graph.test(tested, yes, no))


def no_number(value: object, called: str = '') -> str:
    """What is said of a value that is no whole number."""
    if not isinstance(value, (float, complex)):
        return '%s is no whole number: %.40r' % (type(value).__name__, value)
    fix = ' (fixed point: count in thousandths, say)'
    if isinstance(value, float) and value.is_integer() and abs(value) < 1 << 63 and not called:
        fix = ', here %d' % value
    return '%s is a float, which has no code in an operator: take whole numbers%s' % (
        called or repr(value), fix)


def node_of(path: Path, value: object, op: str = 'result') -> Node:
    """The node of a word or a number."""
    if isinstance(value, Word):
        if value.path is not path:
            raise path.fault('a word of an earlier call: an operator keeps nothing from call to '
                             'call')
        return value.node
    number = whole(value)
    if number is None:
        raise path.fault(no_number(value))
    if not LEAST <= number <= MOST and op in ('result', 'and', *DIVISIONS, 'rshift'):
        size = number.bit_length()
        text = OUTSIDE % (number if size < 130 else 'a number of %d bits' % size)
        if op in ('result', 'and'):
            raise path.fault(text + (UNSIGNED if number > 0 and op == 'and' else ''))
        path.warn(text, ': as an operator it is %d' % wrap(number))
    return path.graph.const(number)


def flag(path: Path, condition: Condition) -> Word:
    """1 where a condition holds, else 0; decided where this way knows it."""
    c, sense = condition
    known = None if c is None else path.truth(c)
    decided: Condition = condition if known is None else (None, known == sense)
    return Word(path, path.graph.choice(decided, path.graph.const(1), path.graph.const(0)))


# -- Python's operations by the machine's

def _operate(op: str, x: Word, y: Word) -> Word:
    """The machine's operation, as it is."""
    return Word(x.path, x.path.graph.make(op, x.node, node_of(x.path, y)))


def _less(x: Word, y: Word) -> Word:
    return flag(x.path, x.path.graph.condition('ult', x.node, y.node))


def _is_small(y: Word) -> Any:
    """Whether a shift is by 0 to 63: the machine takes the low 6 bits of an amount."""
    path = y.path
    if path.ranges.of(y.node)[0] < 0:
        negative = path.graph.condition('slt', y.node, path.graph.const(0))
        path.raise_if_caught(negative, ValueError(BY_NEGATIVE))
    low, high = path.ranges.of(y.node)
    if high < 0:
        path.warn(BY_NEGATIVE, AS_SHIFTED)
        return 0
    return low >= 0 and high < 64 or ult(y, 64)


def _shift_left(x: Word, y: Word) -> Any:
    x.path.graph.wrapped |= x.path.ranges.of(y.node)[0] > 63       # Python's number is no word
    return where(_is_small(y), _operate('lsh', x, y), 0)


def _shift_right(x: Word, y: Word) -> Any:
    return _operate('arsh', x, where(_is_small(y), y, 63))


def _divide_simply(op: str, x: Word, y: Word) -> Any:
    """Quotients (div) and rests (mod) that need no look at signs, else None."""
    path, k = x.path, y.node.number if y.node.op == 'const' else 0
    low, high = path.ranges.of(y.node)
    if low <= 0 <= high:
        zero = path.graph.condition('eq', y.node, path.graph.const(0))
        path.raise_if_caught(zero, ZeroDivisionError(BY_ZERO))
        low, high = path.ranges.of(y.node)
    if low == high == 0:
        path.warn(BY_ZERO, AS_DIVIDED)
        return x if op == 'mod' else 0 * x
    if k > 0 and k & (k - 1) == 0:
        return x >> k.bit_length() - 1 if op == 'div' else x & k - 1
    return x.operate(op, x, y) if path.ranges.of(x.node)[0] >= 0 and low >= 0 else None


def _floordiv(x: Word, y: Word) -> Any:
    simple = _divide_simply('div', x, y)
    if simple is not None:
        return simple
    low, high = x.path.ranges.of(y.node)
    if low > 0:                                    # of -x - 1, and back, where x is below 0
        sign = x >> 63
        return udiv(x ^ sign, y) ^ sign
    quotient, rest = cdiv(x, y), cmod(x, y)
    is_less = rest > 0 if high < 0 else (rest != 0) & (y != 0) & ((rest ^ y) < 0)
    return where(is_less, quotient - 1, quotient)


def _floormod(x: Word, y: Word) -> Any:
    simple = _divide_simply('mod', x, y)
    if simple is not None:
        return simple
    low, high = x.path.ranges.of(y.node)
    rest = cmod(x, y)
    other_sign = (rest < 0 if low >= 0 else rest > 0 if high < 0 else
                  (rest != 0) & ((x ^ y) < 0))
    result = where(other_sign, rest + y, rest)
    if low > 0 or high < 0:
        x.path.ranges.within(result.node, *((0, high - 1) if low > 0 else (low + 1, 0)))
    return result


MADE: Dict[str, Callable[[Word, Word], Any]] = {
    'ult': _less, 'lshift': _shift_left, 'rshift': _shift_right, 'floordiv': _floordiv,
    'floormod': _floormod}
"""Python's operations that the machine has not as they are."""
