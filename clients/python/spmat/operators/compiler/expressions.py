"""Expressions of 64-bit words: what a function makes of its operands before it is code.

A node is an operand, a number, an operation of the machine, a choice (`select`) or a condition,
which is used in choices alone. Operations are those of RFC 9669, section 4: they are total, so an
expression may be computed before it is known to be needed. A `Graph` makes each node once, and
simplifies it by what is true of all words. What two arms of a choice have in common is made once:
f(x) or f(y) by a condition is f(x or y by it). So conditions after one another don't double the
code.
"""
from __future__ import annotations

from typing import Any, Dict, List, Optional, Sequence, Set, Tuple

from ...integers import LEAST, MOST
from ..assembly import MEANINGS, OPERATIONS, wrap

CONDITIONS = ('eq', 'slt', 'ult', 'set')
COMMUTE = (*(op for op, each in OPERATIONS.items() if each.commutes), 'eq', 'set')
LEAVES = ('arg', 'const')
SHIFTS = ('lsh', 'rsh', 'arsh')
MOST_HOLES = 3                                     # in which arms may differ and still be merged


class Node:
    """An operation on other nodes. `number` is that of a `const`, and of an `arg` which operand it
    is. `at` counts nodes as they are made, so that operands have a lower one than what is made of
    them. `flag` says that it is seen to be 0 or 1."""
    __slots__ = ('op', 'args', 'number', 'at', 'flag')

    def __init__(self, op: str, args: Tuple[Node, ...], number: int, at: int) -> None:
        self.op, self.args, self.number, self.at = op, args, number, at
        self.flag = op == 'const' and number in (0, 1)
        if op == 'select':
            self.flag = args[1].flag and args[2].flag

    def __repr__(self) -> str:
        if self.op in LEAVES:
            return '%s %d' % (self.op, self.number)
        return '%s(%s)' % (self.op, ', '.join(map(repr, self.args)))


Condition = Tuple[Optional[Node], bool]
"""A condition, and whether it has to hold; without a node, whether it does."""


def negated(condition: Condition) -> Condition:
    """The condition that holds where this one doesn't."""
    return condition[0], not condition[1]


def split_sum(n: Node) -> Tuple[Optional[Node], int]:
    """A node as another one and a number that is added to it; a number as no node and itself."""
    if n.op == 'const':
        return None, n.number
    return (n.args[0], n.args[1].number) if n.op == 'add' and n.args[1].op == 'const' else (n, 0)


def below(root: Node) -> List[Node]:
    """The nodes that one is made of, without conditions, each behind its operands."""
    found: Set[Node] = set()
    wait = [root]
    while wait:
        n = wait.pop()
        if n not in found:
            found.add(n)
            wait.extend(n.args)
    return sorted((n for n in found if n.op not in CONDITIONS), key=lambda n: n.at)


def size(root: Node) -> int:
    """About how many instructions compute this."""
    return sum(1 + (n.op == 'select') * sum(arm.op == 'const' for arm in n.args[1:])
               for n in below(root) if n.op not in LEAVES)


SIGNS = {**{op: each.sign for op, each in OPERATIONS.items() if each.sign},
         'eq': '==', 'slt': '<', 'set': '&'}


def text_of(n: Node, names: Sequence[str], deep: int = 3) -> str:
    """An expression for people, in the words of the function's parameters."""
    if n.op in LEAVES:
        return names[n.number] if n.op == 'arg' else str(n.number)
    parts = [text_of(each, names, deep - 1) if deep else '..' for each in n.args]
    if n.op == 'select':
        return '(%s if %s else %s)' % (parts[1], parts[0], parts[2])
    if n.op in SIGNS:
        return '(%s %s %s)' % (parts[0], SIGNS[n.op], parts[1])
    return '%s(%s)' % (n.op, ', '.join(parts))


# -- nodes, simplified

class Graph:
    """Makes nodes, each once. `wrapped` says whether a number didn't fit in a word."""

    def __init__(self) -> None:
        self.wrapped = False
        self._nodes: Dict[Any, Node] = {}
        # ways that are run again ask the same
        self._chosen: Dict[Tuple[Condition, Node, Node], Node] = {}

    def node(self, op: str, *args: Node, number: int = 0) -> Node:
        """The node of an operation, as it is; of an operand (`arg`), or of a number that fits in a
        word (`const`)."""
        key = op, args, number
        made = self._nodes.get(key)
        if made is None:
            made = self._nodes[key] = Node(op, args, number, len(self._nodes))
        return made

    def const(self, number: int) -> Node:
        """A number, wrapped."""
        word = wrap(number)
        self.wrapped |= word != number
        return self.node('const', number=word)

    # -- operations

    def make(self, op: str, a: Node, b: Node) -> Node:
        """An operation, simplified."""
        if a.op == b.op == 'const':
            return self.const(MEANINGS[op](a.number, b.number))
        if op in COMMUTE and (a.op == 'const' or b.op != 'const' and a.at > b.at):
            a, b = b, a
        if op == 'sub' and b.op == 'const':
            return self.make('add', a, self.const(-b.number))
        if b.op == 'const' and _of_numbers(a):
            return self.select(a.args[0], *(self.make(op, arm, b) for arm in a.args[1:]))
        simpler = self._by_number(op, a, b.number) if b.op == 'const' else self._of_two(op, a, b)
        return simpler or self.node(op, a, b)

    def _by_number(self, op: str, a: Node, k: int) -> Optional[Node]:
        """An operation with a number at its right, where it is something simpler."""
        law = OPERATIONS[op]
        if k == law.neutral or op == 'and' and k == 1 and a.flag:
            return a
        if op in SHIFTS and not 0 <= k < 64:
            return self.make(op, a, self.const(k & 63))
        if k == 0 and op in ('mul', 'and'):
            return self.const(0)
        before = a.args[1].number if a.op == op and a.args[1].op == 'const' else None
        if before is not None and (law.commutes or op == 'arsh'):
            both = min(63, before + k) if op == 'arsh' else MEANINGS[op](before, k)
            return self.make(op, a.args[0], self.const(both))
        return None

    def _of_two(self, op: str, a: Node, b: Node) -> Optional[Node]:
        """An operation of two nodes of which the right one is no number, where it is something
        simpler: choices of 0 swallow operations."""
        law = OPERATIONS[op]
        masks = b.op == 'and' and b.args[1].op == 'const'
        if op in SHIFTS and masks and b.args[1].number & 63 == 63:
            return self.make(op, a, b.args[0])
        if a is b and (law.idempotent or law.cancels):
            return a if law.idempotent else self.const(0)
        if law.bitwise and a.flag and b.flag:
            return self.select(a.args[0], *(self.make(op, arm, b) for arm in a.args[1:]))
        for one, other in ((a, b), (b, a)):
            if _of_numbers(one, zero=True) and (law.commutes or op == 'sub' and one is b):
                arms = [self._with_arm(op, other, arm) for arm in one.args[1:]]
                return self.select(one.args[0], *arms)
        return None

    def _with_arm(self, op: str, n: Node, k: Node) -> Node:
        """An operation with a number that was an arm. The other word stays as it is, so that both
        arms begin with it, and the number is added on one way alone."""
        if n.op != 'const' and op in ('add', 'sub') and k.number:
            return self.node('add', n, k if op == 'add' else self.const(-k.number))
        return self.make(op, n, k)

    # -- conditions

    def condition(self, op: str, a: Node, b: Node) -> Condition:
        """A condition of two words in its one form: numbers stand at the right."""
        if op in COMMUTE and (a.op == 'const' or b.op != 'const' and a.at > b.at):
            a, b = b, a
        if a.op == b.op == 'const':
            return None, bool(MEANINGS[op](a.number, b.number))
        if a is b and op != 'set':
            return None, op == 'eq'
        if a.op == 'const':                        # k < b where not b < k + 1
            if a.number == (MOST if op == 'slt' else -1):
                return None, False
            return negated(self.condition(op, b, self.const(a.number + 1)))
        if b.op != 'const':
            if a is not b:
                return self.node(op, a, b), True
            return negated(self.condition('eq', a, self.const(0)))
        return self._of_number(op, a, b)

    def _of_number(self, op: str, a: Node, b: Node) -> Condition:
        """A condition of a word and a number."""
        k = b.number
        if a.op == 'select' and a.args[1].op == a.args[2].op == 'const':
            yes, no = (bool(MEANINGS[op](arm.number, k)) for arm in a.args[1:])
            return (None, yes) if yes == no else (a.args[0], yes)
        if op == 'slt' and k == LEAST or op in ('ult', 'set') and k == 0:
            return None, False
        one_bit = k > 0 and k & (k - 1) == 0
        if op == 'eq' and a.op == 'and' and (k == 0 or one_bit and a.args[1] is b):
            return self.node('set', *a.args), k != 0
        return self.node(op, a, b), True

    # -- choices

    def select(self, c: Node, yes: Node, no: Node) -> Node:
        """`yes` where a condition holds, else `no`."""
        yes = yes.args[1] if yes.op == 'select' and yes.args[0] is c else yes
        no = no.args[2] if no.op == 'select' and no.args[0] is c else no
        (base, more), (other, less) = split_sum(yes), split_sum(no)
        if base is other and base is not None and more and less:
            yes = self.node('add', no, self.const(more - less))
        return yes if yes is no else self.node('select', c, yes, no)

    def choice(self, condition: Condition, yes: Node, no: Node) -> Node:
        """`select` by a condition that may be negated or decided. What both arms have in common is
        made once, where that is shorter."""
        c, sense = condition
        if c is None or yes is no:
            return yes if sense else no
        key = condition, yes, no
        found = self._chosen.get(key)
        if found is None:
            found = self._chosen[key] = self._choice(c, *((yes, no) if sense else (no, yes)))
        return found

    def _choice(self, c: Node, yes: Node, no: Node) -> Node:
        two_arms = self.select(c, yes, no)
        if yes.op in LEAVES and no.op in LEAVES:
            return two_arms
        try:
            merged = Merge(self, c).of(yes, no)
        except (Different, RecursionError):
            return two_arms
        return merged if size(merged) < size(two_arms) else two_arms

    def test(self, value: Node, yes: Node, no: Node) -> Node:
        """`yes` where a word isn't 0, else `no`."""
        if value.op == 'select' and value.flag:
            return self.choice((value.args[0], True), self.test(value.args[1], yes, no),
                               self.test(value.args[2], yes, no))
        return self.choice(negated(self.condition('eq', value, self.const(0))), yes, no)


def _of_numbers(n: Node, zero: bool = False) -> bool:
    """Whether this is a choice of numbers, or of such choices; with `zero`, of two numbers of which
    one is 0."""
    if n.op != 'select':
        return False
    arms = n.args[1:]
    if zero:
        return all(arm.op == 'const' for arm in arms) and any(arm.number == 0 for arm in arms)
    return all(arm.op == 'const' or
               arm.op == 'select' and arm.args[1].op == arm.args[2].op == 'const' for arm in arms)


# -- two expressions as one

class Different(Exception):
    """Two expressions differ in too many places."""


class Merge:
    """One value where a condition holds and another where it doesn't, as one expression: the
    choices that it has made, and the pairs that it has merged. Raises Different."""

    def __init__(self, graph: Graph, c: Node) -> None:
        self.graph, self.c = graph, c
        self.holes: Set[Node] = set()
        self.known: Dict[Tuple[Node, Node], Node] = {}

    def of(self, a: Node, b: Node) -> Node:
        """Two nodes as one."""
        if a is b:
            return a
        if (a, b) not in self.known:
            self.known[a, b] = self._merge(a, b)
        return self.known[a, b]

    def _merge(self, a: Node, b: Node) -> Node:
        (base, more), (other, less) = split_sum(a), split_sum(b)
        if base is other:
            hole = self._add_hole(self.graph.const(more - less), self.graph.const(0))
            if base is None and less:              # 8 or 5 is 5 and (3 or 0)
                return self.graph.node('add', hole, b)
            return self.graph.make('add', b, hole)
        if a.op != b.op or a.op in LEAVES:
            return self._add_hole(a, b)
        if a.op != 'select':
            return self.graph.make(a.op, *self._pairs(a, b))
        return self._choices(a, b)

    def _choices(self, a: Node, b: Node) -> Node:
        """Two choices as one, by conditions of one form."""
        one, two = a.args[0], b.args[0]
        if one.op != two.op:
            raise Different
        c, sense = (one, True) if one is two else self.graph.condition(
            one.op, *self._pairs(one, two))
        arms = self.of(a.args[1], b.args[1]), self.of(a.args[2], b.args[2])
        if c is None:
            return arms[0 if sense else 1]
        return self.graph.select(c, *(arms if sense else arms[::-1]))

    def _pairs(self, a: Node, b: Node) -> List[Node]:
        """The operands of two operations, pair by pair; crosswise where that leaves one as it
        is."""
        cross = (a.op in COMMUTE and set(a.args) & set(b.args) and
                 a.args[0] is not b.args[0] and a.args[1] is not b.args[1])
        others = b.args[::-1] if cross else b.args
        return [self.of(one, other) for one, other in zip(a.args, others)]

    def _add_hole(self, a: Node, b: Node) -> Node:
        made = self.graph.select(self.c, a, b)
        self.holes.add(made)
        if len(self.holes) > MOST_HOLES:
            raise Different
        return made
