"""Random operators: programs whose registers, places and stored bytes are followed while they are
written, so that most are accepted."""
import random
import struct
from typing import Dict, List, NamedTuple, Set
from reference.instructions import BY_MNEMONIC, SPELLINGS, TOP, Spelling
from reference.machine import OPERANDS

CORNERS = [0, 1, -1, 2, -2, 3, 7, -8, 15, 16, 31, 32, 33, 63, 64, 65, 127, 128, -128, 255, 256,
           32767, -32768, 65535, 65536, (1 << 31) - 1, -(1 << 31)]
WIDE_CORNERS = CORNERS + [1 << 31, (1 << 32) - 1, 1 << 32, -(1 << 32), (1 << 63) - 1, -(1 << 63),
                          -(1 << 63) + 1]
COMMON = {
    'unary': ['mov64 r0, r1\nadd64 r0, 1\nexit\n', 'mov64 r0, r1\nexit\n', 'mov64 r0, 1\nexit\n',
              'mov64 r0, 7\njsgt64 r1, 7, 1\nexit\nmov64 r0, r1\nexit\n',
              'mov64 r0, r1\nneg64 r0\nexit\n'],
    'binary': ['mov64 r0, r1\nadd64 r0, r2\nexit\n', 'mov64 r0, r1\nsub64 r0, r2\nexit\n',
               'mov64 r0, r1\nmul64 r0, r2\nexit\n',
               'mov64 r0, r1\njsle64 r1, r2, 1\nmov64 r0, r2\nexit\n',
               'mov64 r0, r2\njgt64 r2, r1, 1\nmov64 r0, r1\nexit\n', 'mov64 r0, r1\nexit\n',
               'mov64 r0, r2\nexit\n', 'mov64 r0, 1\nexit\n', 'mov64 r0, r1\nor64 r0, r2\nexit\n',
               'mov64 r0, r1\nand64 r0, r2\nexit\n', 'mov64 r0, r1\nsdiv64 r0, r2\nexit\n',
               'mov64 r0, r1\nmod32 r0, r2\nexit\n'],
    'index': ['mov64 r0, 0\njle64 r2, r3, 1\nmov64 r0, 1\nexit\n', 'mov64 r0, r4\nexit\n',
              'mov64 r0, r1\nsub64 r0, r4\nexit\n',
              'mov64 r0, 1\njeq64 r2, r3, 1\nmov64 r0, 0\nexit\n', 'mov64 r0, r1\nexit\n',
              'mov64 r0, r2\nadd64 r0, r3\nexit\n'],
}
# else a register holds a place, by its distance
UNSET, NUMBER, MIXED = 'unset', 'number', 'mixed'
WORKING = [each for each in SPELLINGS if each.group == 'arithmetic']
CONDITIONS = [each for each in SPELLINGS if each.group == 'jump' and each.action != 'ja']
LOADS = [each for each in SPELLINGS if each.group == 'load']
STORES = [each for each in SPELLINGS if each.group == 'store']


class Line(NamedTuple):
    """An instruction as it is written: its spelling and its fields."""

    spelling: Spelling
    fields: Dict[str, int]

    @property
    def slots(self) -> int:
        return self.spelling.slots


def line(spelling: Spelling, **fields: int) -> Line:
    return Line(spelling, fields)


def spelled(mnemonic: str, *fields: str) -> Spelling:
    return next(each for each in BY_MNEMONIC[mnemonic] if each.fields == fields)


MOVE = spelled('mov64', 'dst', 'src')
SET = spelled('mov64', 'dst', 'imm')
SHIFT = spelled('add64', 'dst', 'imm')
PLUS, XOR = spelled('add64', 'dst', 'src'), spelled('xor64', 'dst', 'src')
WIDE = spelled('wide', 'dst', 'imm')
EXIT = spelled('exit')
SKIP, SKIP_FAR = spelled('ja', 'offset'), spelled('ja32', 'imm')


def immediate(rng: random.Random, bits: int = 32) -> int:
    corners = CORNERS if bits == 32 else WIDE_CORNERS
    if rng.random() < 0.7:
        return rng.choice(corners)
    return rng.randrange(-(1 << (bits - 1)), 1 << (bits - 1)) >> rng.randrange(bits)


class Writer:
    """Writes lines, and knows what each register holds behind them and which bytes of the stack are
    stored. A careless one takes a register here and there that holds something else, or nothing,
    and loads from anywhere."""

    def __init__(self, rng: random.Random, kind: str, careless: bool = False) -> None:
        self.rng = rng
        self.careless = careless
        numbers = range(1, 1 + OPERANDS[kind])
        self.holds: List[object] = [0 if r == TOP else NUMBER if r in numbers else UNSET
                                    for r in range(TOP + 1)]
        self.stored: Set[int] = set()
        self.ever_stored: Set[int] = set()

    def slips(self) -> bool:
        return self.careless and self.rng.random() < 0.07

    def registers(self) -> List[int]:
        """Those that hold a number; or what a careless writer takes for them, most of all those
        that paths set differently."""
        if self.slips():
            return [r for r, held in enumerate(self.holds) if held == MIXED] or list(range(TOP + 1))
        return [r for r, held in enumerate(self.holds) if held == NUMBER]

    def places(self) -> List[int]:
        if self.slips():
            return list(range(TOP + 1))
        return [r for r, held in enumerate(self.holds) if isinstance(held, int)] or [TOP]

    def distance(self, register: int) -> int:
        held = self.holds[register]
        return held if isinstance(held, int) else 0

    def target(self) -> int:
        """A register to write; most likely not an operand."""
        return self.rng.choice([0, 0, 0, 5, 6, 7, 8, 9] + list(range(TOP)))

    def program(self, length: int) -> List[Line]:
        lines = self.block(length, 3)
        numbers = self.registers()
        if self.holds[0] != NUMBER:
            lines.append(line(MOVE, dst=0, src=self.rng.choice(numbers)) if numbers
                         else line(SET, dst=0, imm=immediate(self.rng)))
        if numbers and self.rng.random() < 0.6:
            mixed = self.rng.sample(numbers, min(len(numbers), self.rng.choice([1, 2, 4])))
            lines += [line(self.rng.choice([PLUS, XOR]), dst=0, src=register) for register in mixed]
        return lines + [line(EXIT)]

    def block(self, length: int, depth: int) -> List[Line]:
        lines: List[Line] = []
        while len(lines) < length:
            way = self.rng.random()
            if way < 0.5:
                lines += self.arithmetic()
            elif way < 0.58:
                lines += self.wide()
            elif way < (0.68 if self.careless else 0.62):
                lines += self.place()
            elif way < 0.74:
                lines += self.store()
            elif way < 0.84:
                lines += self.load()
            elif depth:
                lines += self.branch(length - len(lines), depth - 1)
        return lines

    def arithmetic(self) -> List[Line]:
        spelling = self.rng.choice(WORKING)
        numbers = self.registers()
        if not numbers:
            return self.wide()
        fresh = spelling.action.startswith('mov')
        fields = {'dst': self.target() if fresh else self.rng.choice(numbers)}
        if 'src' in spelling.fields:
            fields['src'] = self.rng.choice(numbers)
        if 'imm' in spelling.fields:
            fields['imm'] = immediate(self.rng)
        self.holds[fields['dst']] = NUMBER
        return [Line(spelling, fields)]

    def wide(self) -> List[Line]:
        target = self.target()
        self.holds[target] = NUMBER
        return [line(WIDE, dst=target, imm=immediate(self.rng, 64))]

    def place(self) -> List[Line]:
        """Copies a place, or moves one."""
        source, target = self.rng.choice(self.places()), self.target()
        if source != TOP and self.rng.random() < 0.4:
            to = self.rng.choice([0, -8, -16, -500, -512, -self.rng.randrange(513)])
            moved = line(SHIFT, dst=source, imm=to - self.distance(source))
            self.holds[source] = to
            return [moved]
        self.holds[target] = self.holds[source]
        return [line(MOVE, dst=target, src=source)]

    def store(self) -> List[Line]:
        spelling = self.rng.choice(STORES)
        size = spelling.bits // 8
        base, numbers = self.rng.choice(self.places()), self.registers()
        if 'src' in spelling.fields and not numbers:
            return []
        at = self.rng.choice([-size, -8, -16, -size - self.rng.randrange(24), -512,
                              -size - self.rng.randrange(513 - size)])
        if self.slips():
            at = self.rng.choice([-513, -512, 1 - size, -1, 0])
        self.stored.update(range(at, at + size))
        self.ever_stored.update(range(at, at + size))
        fields = {'dst': base, 'offset': at - self.distance(base)}
        fields.update({'src': self.rng.choice(numbers)} if 'src' in spelling.fields
                      else {'imm': immediate(self.rng)})
        return [Line(spelling, fields)]

    def load(self) -> List[Line]:
        spelling = self.rng.choice(LOADS)
        size = spelling.bits // 8
        stored = self.ever_stored if self.careless and self.rng.random() < 0.3 else self.stored
        where = [at for at in sorted(stored) if all(at + k in stored for k in range(size))]
        if self.slips():
            where = sorted({-size - 512, *self.ever_stored, 1 - size})
        if not where:
            return self.store()
        base, target, at = self.rng.choice(self.places()), self.target(), self.rng.choice(where)
        loaded = line(spelling, dst=target, src=base, offset=at - self.distance(base))
        self.holds[target] = NUMBER
        return [loaded]

    def branch(self, length: int, depth: int) -> List[Line]:
        """A condition over some lines; with what is done otherwise behind them, or an end of the
        program in them, or neither."""
        spelling, numbers = self.rng.choice(CONDITIONS), self.registers()
        if not numbers:
            return []
        fields = {'dst': self.rng.choice(numbers)}
        fields.update({'src': self.rng.choice(numbers)} if 'src' in spelling.fields
                      else {'imm': immediate(self.rng)})
        before = list(self.holds), set(self.stored)
        inner = self.block(self.rng.randrange(1 + min(length, 5)), depth)
        way = self.rng.random()
        if way < 0.2 and self.holds[0] == NUMBER:
            inner.append(line(EXIT))
            self.holds, self.stored = list(before[0]), set(before[1])
            other: List[Line] = []
        elif way < 0.5:
            one = self.holds, self.stored
            self.holds, self.stored = list(before[0]), set(before[1])
            other = self.block(self.rng.randrange(4), depth)
            self.meet(*one)
            skipped = sum(each.slots for each in other)
            inner.append(line(SKIP, offset=skipped) if self.rng.random() < 0.7
                         else line(SKIP_FAR, imm=skipped))
        else:
            other = []
            self.meet(*before)
        fields['offset'] = sum(each.slots for each in inner)
        return [Line(spelling, fields)] + inner + other

    def meet(self, holds: List[object], stored: Set[int]) -> None:
        """What is known where another way comes in."""
        self.holds = [a if a == b else UNSET if UNSET in (a, b) else MIXED
                      for a, b in zip(self.holds, holds)]
        self.stored &= stored


def random_lines(rng: random.Random, kind: str) -> List[Line]:
    length = (rng.choice([0, 1, 2, 3, 4, 5, 6, 8, 10, 14, 20, 30]) if rng.random() < 0.985
              else rng.choice([100, 400]))
    return Writer(rng, kind, rng.random() < 0.12).program(length)


def spoil(rng: random.Random, lines: List[Line]) -> List[Line]:
    """The lines with one or two of them changed, so that the verifier may refuse them."""
    lines = list(lines)
    for _ in range(rng.choice([1, 1, 2])):
        at = rng.randrange(len(lines))
        spelling, fields = lines[at]
        way = rng.randrange(7)
        if way == 0:
            lines.pop(at)
        elif way == 1:
            lines.insert(at, random_line(rng))
        elif way == 2:
            lines[at] = random_line(rng)
        elif way == 3:
            other = rng.randrange(len(lines))
            lines[at], lines[other] = lines[other], lines[at]
        elif spelling.fields:
            field = rng.choice(spelling.fields)
            lines[at] = Line(spelling,
                             {**fields, field: spoilt_field(rng, spelling, field, fields[field])})
        if not lines:
            lines.append(line(EXIT))
    return lines


def spoilt_field(rng: random.Random, spelling: Spelling, field: str, old: int) -> int:
    if field in ('dst', 'src'):
        return rng.choice([TOP, rng.randrange(TOP + 1)])
    if field == 'offset':
        return max(-32768, min(32767, old + rng.choice([-600, -8, -2, -1, 1, 2, 8, 600])))
    return immediate(rng, spelling.bits_of(field))


def random_line(rng: random.Random) -> Line:
    """A line of any form with fields of any content."""
    spelling = rng.choice(SPELLINGS)
    fields = {}
    for field in spelling.fields:
        small = rng.choice([-512, -16, -8, -4, -1, 0, 1, 2, 3])
        fields[field] = (rng.randrange(TOP + 1) if field in ('dst', 'src') else small
                         if field == 'offset' else immediate(rng))
    return Line(spelling, fields)


def code_of(lines: List[Line]) -> bytes:
    """The lines as code (RFC 9669, section 3)."""
    code = b''
    for spelling, given in lines:
        fields = {'dst': 0, 'src': 0, 'offset': spelling.offset, 'imm': spelling.imm, **given}
        imm = fields['imm'] & 0xffffffff
        code += struct.pack('<BBhI', spelling.opcode, fields['src'] << 4 | fields['dst'],
                            fields['offset'], imm)
        if spelling.slots == 2:
            code += struct.pack('<II', 0, fields['imm'] >> 32 & 0xffffffff)
    return code
