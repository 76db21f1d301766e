"""The instructions of an expression: on numbered words, by its decision graph, and then on
registers and the stack, as assembly text.

Choices whose value is used only as an arm of others make a region: blocks and jumps that end at one
place, with the value in one word. The expression's own region ends at EXIT. Every other node is
computed once, in the lowest block above all that use it.

An instruction is a mnemonic and its operands, which are words, numbers, or text (labels, r10).
Words are numbered: 0 is the result, 1 to 4 are the operands of a call. Code runs forward, so one
pass from its end knows what is needed later.

Words that are needed at one time get different registers; words that are moved into one another get
the same one where they may. Where registers don't suffice, two of them are left free for words on
the stack, which are loaded before they are read, and stored when they are written.
"""
from __future__ import annotations

import collections
from typing import Dict, Iterable, List, Optional, Set, Tuple, Union

from ...errors import CompileError
from .expressions import COMMUTE, LEAVES, Node, below
REGISTERS, PLACES = 10, 64                         # and of 8 bytes on the stack
LOADED = 2                                         # words of the stack in one instruction
FIXED = 5                                          # words with a register of their own number
OPERANDS = 0b11110                                 # as bits: they are there together
FULL = 'more values are needed at a time than the registers and 512 bytes of stack hold'


class Reg(int):
    """The number of a word, and at last of a register."""

    def __repr__(self) -> str:
        return 'r%d' % int(self)

    __str__ = __repr__


Operand = Union[Reg, int, str]
Instruction = Tuple[str, Tuple[Operand, ...]]
"""A mnemonic and its operands; `label` and a name stand where jumps to it lead."""
Code = List[Instruction]


def ins(mnemonic: str, *operands: Operand) -> Instruction:
    """An instruction."""
    return mnemonic, operands


def move(to: Reg, what: Union[Reg, int]) -> Instruction:
    """A move of a word, or of a number."""
    is_wide = not isinstance(what, Reg) and not -1 << 31 <= what < 1 << 31
    return ins('wide' if is_wide else 'mov64', to, what)


def is_jump(each: Instruction) -> bool:
    """Whether this is a jump, conditional or not. Its last operand is a label."""
    return each[0][0] == 'j'


def is_move(each: Instruction) -> bool:
    """Whether this copies a word."""
    return each[0] == 'mov64' and isinstance(each[1][1], Reg)


def word_written(each: Instruction) -> Optional[Reg]:
    """The word that an instruction writes."""
    to = each[1][0] if each[1] and not is_jump(each) else None
    return to if isinstance(to, Reg) else None


def words_read(each: Instruction) -> List[Reg]:
    """The words that an instruction reads."""
    if each[0] == 'exit':
        return [Reg(0)]
    first = 1 if each[0] in ('mov64', 'wide') else 0
    return [operand for operand in each[1][first:] if isinstance(operand, Reg)]


def words_in(each: Instruction) -> List[Reg]:
    """The word that an instruction writes, and those that it reads."""
    to = word_written(each)
    return words_read(each) if to is None else [to, *words_read(each)]


def needed_later(code: Code) -> List[int]:
    """After each instruction the words that are read later, as bits."""
    live = 0
    at: Dict[Operand, int] = {}
    out: List[int] = []
    for each in reversed(code):
        # jumps lead forward, so what a label's code needs is known by then
        if is_jump(each):
            live = at[each[1][-1]] | (0 if each[0] == 'ja' else live)
        elif each[0] == 'exit':
            live = 0
        out.append(live)
        to = word_written(each)
        live &= ~(1 << to) if to is not None else -1
        for word in words_read(each):
            live |= 1 << word
        if each[0] == 'label':
            at[each[1][0]] = live
    return out[::-1]


# -- registers

def allocate(code: Code, words: int) -> Code:
    """The code on registers 0 to 9. CompileError where more words are needed at a time than
    registers and stack hold."""
    apart = _find_interference(code, words)
    places = _assign_places(code, apart, REGISTERS)
    if max(places.values()) >= REGISTERS:          # again, with two registers less for words
        places = _assign_places(code, apart, REGISTERS - LOADED)
    if max(places.values()) >= REGISTERS + PLACES:
        raise CompileError(FULL)
    return [placed for each in code for placed in _add_loads(each, places)]


def _find_interference(code: Code, words: int) -> List[int]:
    """Of each word, as bits, those that it can't share a register with."""
    apart = [0] + [OPERANDS] * (FIXED - 1) + [0] * (words - FIXED)
    for each, live in zip(code, needed_later(code)):
        to = word_written(each)
        if to is None:
            continue
        others = live & ~(1 << to)
        if is_move(each):                          # both have the same value then
            others &= ~(1 << int(each[1][1]))
        apart[to] |= others
        while others:
            highest = others.bit_length() - 1
            apart[highest] |= 1 << to
            others ^= 1 << highest
    return apart


def _assign_places(code: Code, apart: List[int], registers: int) -> Dict[int, int]:
    """A place for each word: one of so many registers, or from REGISTERS on of the stack. Words are
    looked at from the end of the code, so that what moves lead to has its register before what they
    come from."""
    moves: Dict[int, List[int]] = collections.defaultdict(list)
    for each in reversed(code):
        if is_move(each):
            to, source = int(each[1][0]), int(each[1][1])
            moves[source].append(to)
            moves[to].append(source)
    found = {word: word for word in range(FIXED)}
    # a bit for each word, so that one `and` says whether a place is free
    users: Dict[int, int] = collections.defaultdict(int)
    users.update((word, 1 << word) for word in range(FIXED))
    everywhere = [*range(registers), *range(REGISTERS, REGISTERS + len(apart))]
    for each in reversed(code):
        for word in words_in(each):
            if word not in found:
                wanted = [found[other] for other in moves[word] if found.get(other, REGISTERS)
                          < registers]
                found[word] = next(one for one in (*wanted, *everywhere)
                                   if not users[one] & apart[word])
                users[found[word]] |= 1 << word
    return found


def _add_loads(each: Instruction, places: Dict[int, int]) -> Code:
    """An instruction on registers, between the loads and the store of what it has on the stack."""
    spare = [Reg(REGISTERS - 1 - at) for at in range(LOADED)]
    at = {word: Reg(places[word]) if places[word] < REGISTERS else spare.pop()
          for word in dict.fromkeys(words_in(each))}
    spilled = {word: 8 * (REGISTERS - 1 - places[word]) for word in at
               if places[word] >= REGISTERS}
    if is_move(each) and spilled:                  # a load or a store is the move
        at = dict.fromkeys(at, min(at.values()))
    to = word_written(each)
    loads = [ins('ldx64', at[word], 'r10', spilled[word]) for word in dict.fromkeys(
        words_read(each)) if word in spilled]
    stores = [ins('stx64', 'r10', spilled[to], at[to])] if to is not None and to in spilled else []
    operands = tuple(at[operand] if isinstance(operand, Reg) else operand for operand in each[1])
    return [*loads, (each[0], operands), *stores]


# -- without what does nothing

def tidy(code: Code) -> Code:
    """The code without moves to the same register, jumps to the next instruction or to a jump, and
    what no way leads to."""
    code = _drop_repeated_moves(code)
    before: Code = []
    while code != before:
        before, code = code, _thread_jumps(code)
    return code


def _drop_repeated_moves(code: Code) -> Code:
    """The code without moves of what a register holds already, on each way."""
    known: Set[Tuple[str, str]] = set()            # registers, and what was moved there
    at: Dict[Operand, Set[Tuple[str, str]]] = {}   # of a label, what is known at each jump to it
    out: Code = []
    is_reached = True
    for each in code:
        if each[0] == 'label':
            known = at.get(each[1][0], known) & (known if is_reached else at.get(each[1][0], known))
            is_reached = True
        if is_jump(each):
            at[each[1][-1]] = at.get(each[1][-1], known) & known
        is_reached &= each[0] not in ('ja', 'exit')
        to = word_written(each)
        if to is not None:
            pair = str(to), str(each[1][1]) if each[0] in ('mov64', 'wide') else ''
            if pair in known or pair[::-1] in known or pair[0] == pair[1]:
                continue
            known = {other for other in known if pair[0] not in other}
            known |= {pair} if pair[1] else set()
        out.append(each)
    return out


def _thread_jumps(code: Code) -> Code:
    """The code with each jump at its last target."""
    named = {each[1][-1] for each in code if is_jump(each)}
    at = {each[1][0]: number for number, each in enumerate(code) if each[0] == 'label'}
    out: Code = []
    for number, each in enumerate(code):
        is_reached = each[0] == 'label' or not out or out[-1][0] not in ('ja', 'exit')
        if not is_reached or each[0] == 'label' and each[1][0] not in named:
            continue
        if is_jump(each):
            target = _skip_labels(code, at[each[1][-1]])
            if _skip_labels(code, number + 1) == target:
                continue
            there = code[target]
            if there[0] == 'ja':
                each = each[0], (*each[1][:-1], there[1][0])
            elif there[0] == 'exit' and each[0] == 'ja':
                each = there
        out.append(each)
    return out


def _skip_labels(code: Code, number: int) -> int:
    while code[number][0] == 'label':
        number += 1
    return number


def resolve(code: Code) -> Code:
    """The code with numbers of slots in place of labels."""
    slots: Dict[object, int] = {}
    slot = 0
    for each in code:
        if each[0] == 'label':
            slots[each[1][0]] = slot
        slot += size_of(each)
    out: Code = []
    slot = 0
    for each in code:
        slot += size_of(each)
        if is_jump(each):
            each = each[0], (*each[1][:-1], slots[each[1][-1]] - slot)
        if each[0] != 'label':
            out.append(each)
    return out


def size_of(each: Instruction) -> int:
    """The slots of an instruction."""
    return 0 if each[0] == 'label' else 2 if each[0] == 'wide' else 1


def text_of(code: Code) -> str:
    """Assembly text of instructions without labels."""
    return ''.join((each[0] + ' ' + ', '.join(map(str, each[1]))).strip() + '\n' for each in code)


# -- from expressions to instructions

RESULT = Reg(0)
# Of each condition the jumps where it doesn't hold and where it does, and the same with both words
# turned.
JUMPS = {'slt': ('jsge64', 'jslt64', 'jsle64', 'jsgt64'),
         'ult': ('jge64', 'jlt64', 'jle64', 'jgt64'), 'eq': ('jne64', 'jeq64') * 2}
End = Tuple[Node, Node]                            # the choice that a region begins with, a value


class Block:
    """A stretch of code: the block that it is reached through, and the nodes that are computed
    there, users first."""

    def __init__(self, parent: Optional[Block]) -> None:
        self.parent = parent
        self.depth: int = parent.depth + 1 if parent else 0
        self.nodes: List[Node] = []


def find_common(blocks: Iterable[Block]) -> Block:
    """The lowest block through which all are reached."""
    found, *others = blocks
    for other in others:
        while found is not other:
            deeper, higher = (found, other) if found.depth > other.depth else (other, found)
            assert deeper.parent is not None
            found, other = deeper.parent, higher
    return found


class Layout:
    """The regions of an expression, the value that a region's word holds when a choice jumps, and
    the block of each node."""

    def __init__(self, root: Node) -> None:
        self.root = root
        self.nodes = below(root)[::-1]             # users first
        self.choices = [n for n in self.nodes if n.op == 'select']
        self.region: Dict[Node, Node] = {}         # of a choice, the first one of its region
        self.held: Dict[Node, Optional[Node]] = {}     # what the word has when a choice jumps
        self.early: Dict[Node, Node] = {}          # what is moved there just before
        self.blocks: Dict[Union[Node, End], Block] = {}    # of choices' jumps, and of regions' ends
        self.block_of: Dict[Node, Block] = {}      # of each node that is computed, where
        # who uses a node, as which operand, and the choices of which it is an arm
        self.users: Dict[Node, List[Tuple[Node, int]]] = {n: [] for n in self.nodes}
        self.arm_of: Dict[Node, List[Node]] = {n: [] for n in self.nodes}
        for n in self.nodes:
            if n is root or self.users[n] or self.arm_of[n]:       # not a shift that isn't needed
                self._note_users(n)
        self._find_regions()
        self.entry = Block(None)
        for n in self.nodes:
            self._find_block(n, [self.entry] if n is root else self._find_using(n))

    def _note_users(self, n: Node) -> None:
        for at, each in enumerate(words_tested(n.args[0]) if n.op == 'select' else n.args):
            self.users.setdefault(each, []).append((n, at))
        for arm in n.args[1:] if n.op == 'select' else ():
            self.arm_of[arm].append(n)

    def _is_free(self, n: Node) -> bool:
        """Whether a node is there anyhow."""
        return n.op in LEAVES or len(self.users[n]) + len(self.arm_of[n]) > 1

    # -- regions

    def _find_regions(self) -> None:
        for n in self.choices:
            begins = {self.region[user] for user in self.arm_of[n]}
            self.region[n] = begins.pop() if len(begins) == 1 and not self.users[n] else n
        ends: Dict[Node, Set[Node]] = {}           # the values that a choice can end with
        for n in reversed(self.choices):
            ends[n] = set().union(*(ends[arm] if self.is_inner(n, arm) else {arm}
                                    for arm in n.args[1:]))
        for n in self.choices:
            # what its users hold, where all hold the same, is there for nothing
            held = self.held.get(n)
            if held not in ends[n]:
                held = self._choose_early(n, ends)
                if held is not None:
                    self.early[n] = held
            for arm in n.args[1:]:
                if self.is_inner(n, arm):
                    self.held[arm] = held if self.held.get(arm, held) is held else None
            self.held[n] = held

    def is_inner(self, n: Node, arm: Node) -> bool:
        """Whether an arm is a choice of the same region."""
        return arm.op == 'select' and self.region[arm] is self.region[n]

    def _choose_early(self, n: Node, ends: Dict[Node, Set[Node]]) -> Optional[Node]:
        """The value that is moved before a choice jumps: that saves an EXIT."""
        a, b = n.args[1:]
        inner = [arm for arm in (a, b) if self.is_inner(n, arm)]
        if inner:
            both = ends[a] & ends[b] if len(inner) == 2 else {b if inner[0] is a else a}
            free = [each for each in both if self._is_free(each)]
            return min(free, key=lambda each: (each.op != 'const', each.at)) if free else None
        # x + 5 is made of x in place, so that x is moved first
        near = [one for one, other in ((a, b), (b, a)) if one in other.args]
        least = min(near or (b, a), key=lambda each: (not self._is_free(each), each.op == 'const'))
        is_cheap = least.op != 'select' and all(map(self._is_free, least.args))
        # there is no jump where no bit is set
        is_unjumped = n.args[0].op == 'set' and least is b
        return least if self._is_free(least) or is_cheap and not is_unjumped else None

    # -- blocks

    def _find_using(self, n: Node) -> List[Block]:
        """The blocks in which a node has to be there, in a register."""
        is_number = n.op == 'const'
        found = [self.blocks[user] if user.op == 'select' else self.block_of[user]
                 for user, at in self.users[n]
                 # a number stands in the instruction that uses it, or is moved there first anyway
                 if not (is_number and (fits(n.number) or at == 0 and user.op != 'select'))]
        if not is_number:
            found += [self.blocks[choice] for choice, early in self.early.items() if early is n]
            found += [self._find_end(user, n) for user in self.arm_of[n]
                      if self.held[user] is not n and not self.is_inner(user, n)]
        return found

    def _find_end(self, user: Node, n: Node) -> Block:
        """The block in which a region ends with a value that its word doesn't hold yet."""
        region = self.region[user]
        if (region, n) not in self.blocks:
            self.blocks[region, n] = Block(find_common(
                self.blocks[each] for each in self.arm_of[n]
                if self.region[each] is region and self.held[each] is not n))
        return self.blocks[region, n]

    def _find_block(self, n: Node, using: List[Block]) -> None:
        if n.op == 'select' and self.region[n] is not n:
            self.blocks[n] = Block(find_common(self.blocks[user] for user in self.arm_of[n]))
        elif using and n.op != 'arg' and (n.op != 'const' or n is not self.root):
            self.block_of[n] = find_common(using)
            self.block_of[n].nodes.append(n)
            if n.op == 'select':
                self.blocks[n] = Block(self.block_of[n])


def fits(number: int) -> bool:
    """Whether a number stands in an instruction of one slot."""
    return -1 << 31 <= number < 1 << 31


def words_tested(c: Node) -> Tuple[Node, Node]:
    """The two words of a condition: bits are looked at before a shift to the right."""
    a, b = c.args
    if c.op == 'set' and a.op in ('arsh', 'rsh') and b.op == a.args[1].op == 'const':
        bits = b.number << a.args[1].number
        if 0 < bits < 1 << 31:
            return a.args[0], Node('const', (), bits, -1)
    return a, b


class Emission:
    """Writes the instructions of an expression into `out`; `words` counts the words that they
    use."""

    def __init__(self, root: Node) -> None:
        self.root, self.layout = root, Layout(root)
        self.words, self.labels = FIXED, 0
        self.out: List[Instruction] = []
        self.word_of: Dict[Node, Reg] = {}
        self._write_block(self.layout.entry)
        if root.op != 'select':
            self._write_move(RESULT, root)
        self.out.append(ins('exit'))

    def _make_label(self) -> str:
        self.labels += 1
        return 'L%d' % self.labels

    def _find_value(self, n: Node) -> 'Reg | int':
        """The word of a node, or its number where it is written into the instruction."""
        if n.op == 'arg':
            return Reg(n.number + 1)
        return self.word_of[n] if n in self.word_of else n.number

    def _write_move(self, to: Reg, n: Node) -> None:
        self.out.append(move(to, n.number if n.op == 'const' else self._find_value(n)))

    def _write_block(self, block: Block) -> None:
        """The nodes of a block."""
        for n in reversed(block.nodes):
            to = RESULT if n is self.root and n.op == 'select' else Reg(self.words)
            self.words += 1
            if n.op == 'select':
                self._write_region(n, to)
            elif n.op == 'const':
                self._write_move(to, n)
            else:
                self._write_operation(n, to)
            self.word_of[n] = to

    def _write_operation(self, n: Node, to: Reg) -> None:
        """An operation: BPF's change their left word, so that it is moved there first."""
        a, b = n.args
        if n.op == 'sub' and a.op == 'const' and a.number == 0:
            self._write_move(to, b)
            self.out.append(ins('neg64', to))
            return
        if n.op in COMMUTE and b.op not in LEAVES:
            a, b = b, a                            # made last, and so often needed no more
        self._write_move(to, a)
        if n.op == 'add' and b.op == 'const' and -1 << 31 < b.number < 0:
            self.out.append(ins('sub64', to, -b.number))
        else:
            self.out.append(ins(n.op + '64', to, self._find_value(b)))

    # -- regions

    def _write_region(self, first: Node, to: Reg) -> None:
        """The jumps of a region; its value is in a word at the end. A node is written once all
        jumps to it are."""
        layout = self.layout
        labels: Dict[Optional[Node], str] = {None: self._make_label()}
        jumps: Dict[Node, int] = {}                # that lead to a node and are not written yet
        for n in layout.choices:
            for arm in n.args[1:] if layout.region[n] is first else ():
                jumps[arm] = jumps.get(arm, 0) + (layout.held[n] is not arm)
        work = [first]
        while work:
            n = work.pop()
            if n in labels:
                self.out.append(ins('label', labels[n]))
            if layout.region.get(n) is first:
                self._write_block(layout.blocks[n])
                if n in layout.early:
                    self._write_move(to, layout.early[n])
                work += self._write_branch(n, jumps, labels)
                continue
            if (first, n) in layout.blocks:
                self._write_block(layout.blocks[first, n])
            self._write_move(to, n)
            self.out.append(ins('ja', labels[None]))
        self.out.append(ins('label', labels[None]))

    def _write_branch(self, n: Node, jumps: Dict[Node, int],
                labels: Dict[Optional[Node], str]) -> List[Node]:
        """The jump of a choice; the arms that nothing else of the region leads to are written next,
        the last one first. What the region's word holds already needs no arm."""
        sense = self._jumps_where(n, jumps)
        arms = [None if arm is self.layout.held[n] else arm
                for arm in (n.args[1:] if sense else n.args[:0:-1])]
        for arm in arms:
            if arm not in labels:
                labels[arm] = self._make_label()
            if arm is not None:
                jumps[arm] -= 1
        self._write_jump(n.args[0], sense, labels[arms[0]])
        if arms[1] is None or jumps[arms[1]]:
            self.out.append(ins('ja', labels[arms[1]]))
        return [arm for arm in arms if arm is not None and jumps[arm] == 0]

    def _jumps_where(self, n: Node, jumps: Dict[Node, int]) -> bool:
        """Whether a choice jumps where its condition holds, and goes on where it doesn't."""
        c, yes, no = n.args
        held = self.layout.held[n]
        # no jump asks whether bits are 0
        return c.op == 'set' or held is yes or held is not no and jumps[yes] > 1

    def _write_jump(self, c: Node, sense: bool, target: str) -> None:
        a, b = words_tested(c)
        left, right = self._find_value(a), self._find_value(b)
        if c.op == 'set':
            self.out.append(ins('jset64', left, right, target))
        elif b.op != 'const' and a.at > b.at:
            self.out.append(ins(JUMPS[c.op][2 + sense], right, left, target))
        else:
            self.out.append(ins(JUMPS[c.op][sense], left, right, target))
