"""Assembly text of operators: operations and mnemonics, labels, and the text of code.

docs/bpf.md has the language. A label is a word and a colon before an instruction, or on a line of
its own; a jump may name it in place of its offset. The client turns labels into numbers before it
sends a text. Lines stay where they are, so that refusals name the line that was written.

The operations of arithmetic and the conditions of jumps are those of RFC 9669, section 4. What the
compiler of functions knows of an operation it has from here.
"""
from __future__ import annotations

import re
import struct
from typing import Callable, Dict, Iterator, List, NamedTuple, Optional, Tuple

WORDS = 1 << 64

Meaning = Callable[[int, int], int]


class Operation(NamedTuple):
    """An operation: its code in an opcode, what it gives of two signed words before it wraps, and
    its sign in Python. A `signed` one has the code of the operation on words without sign, and 1 in
    the offset.

    The others are laws of all words, by which expressions become simpler. x op `neutral` is x.
    Where it `commutes`, x op y is y op x, and it associates. Where it is `bitwise`, each bit
    depends on the same bit of both. x op x is x where it is `idempotent`, and 0 where it
    `cancels`."""
    code: int
    value: Meaning
    sign: str = ''
    neutral: Optional[int] = None
    commutes: bool = False
    bitwise: bool = False
    idempotent: bool = False
    cancels: bool = False
    signed: bool = False


def wrap(number: int) -> int:
    """The signed word of 64 bits that a whole number wraps to."""
    low = number & WORDS - 1
    return low - WORDS if low >> 63 else low


def truncated(a: int, b: int) -> int:
    """The quotient rounded toward 0, and 0 of a division by 0."""
    return 0 if b == 0 else abs(a) // abs(b) * (1 if (a < 0) == (b < 0) else -1)


OPERATIONS: Dict[str, Operation] = {
    'add': Operation(0, lambda a, b: a + b, '+', neutral=0, commutes=True),
    'sub': Operation(1, lambda a, b: a - b, '-', neutral=0, cancels=True),
    'mul': Operation(2, lambda a, b: a * b, '*', neutral=1, commutes=True),
    'div': Operation(3, lambda a, b: a % WORDS // (b % WORDS) if b else 0, neutral=1),
    'sdiv': Operation(3, truncated, neutral=1, signed=True),
    'or': Operation(4, lambda a, b: a | b, '|', neutral=0, commutes=True, bitwise=True,
                    idempotent=True),
    'and': Operation(5, lambda a, b: a & b, '&', neutral=-1, commutes=True, bitwise=True,
                     idempotent=True),
    'lsh': Operation(6, lambda a, b: a << (b & 63), '<<', neutral=0),
    'rsh': Operation(7, lambda a, b: a % WORDS >> (b & 63), neutral=0),
    'mod': Operation(9, lambda a, b: a % WORDS % (b % WORDS) if b else a),
    'smod': Operation(9, lambda a, b: a - b * truncated(a, b), signed=True),
    'xor': Operation(10, lambda a, b: a ^ b, '^', neutral=0, commutes=True, bitwise=True,
                     cancels=True),
    'mov': Operation(11, lambda a, b: b),
    'arsh': Operation(12, lambda a, b: a >> (b & 63), '>>', neutral=0),
}
MEANINGS: Dict[str, Meaning] = {
    **{name: each.value for name, each in OPERATIONS.items()},
    'eq': lambda a, b: int(a == b),
    'slt': lambda a, b: int(a < b),
    'ult': lambda a, b: int(a % WORDS < b % WORDS),
    'set': lambda a, b: int(a & b != 0)}
"""What operations, and the conditions by which functions choose, give of two signed words, before
it wraps."""
CONDITIONS = {1: 'jeq', 2: 'jgt', 3: 'jge', 4: 'jset', 5: 'jne', 6: 'jsgt', 7: 'jsge', 10: 'jlt',
              11: 'jle', 12: 'jslt', 13: 'jsle'}
"""Jumps by the codes of their conditions."""


# -- text

ENDS = tuple(name + bits for name in ('le', 'be', 'swap') for bits in ('16', '32', '64'))
SIGNED = ('movs8_32', 'movs16_32', 'movs8_64', 'movs16_64', 'movs32_64')
LOADS = ('ldx8', 'ldx16', 'ldx32', 'ldx64', 'ldsx8', 'ldsx16', 'ldsx32')
WIDTHS = ('64', '32')
# What follows each mnemonic: D and S registers, R a register that is read and written, V a register
# or a number, N a number, J where to jump, B the register of a base.
OPERANDS: Dict[str, str] = {
    **{name + bits: 'DV' if name == 'mov' else 'RV' for name in OPERATIONS for bits in WIDTHS},
    **{name: 'R' for name in ('neg64', 'neg32') + ENDS},
    **{name: 'DS' for name in SIGNED},
    'ja': 'J', 'ja32': 'J',
    **{name + bits: 'SVJ' for name in CONDITIONS.values() for bits in WIDTHS},
    'exit': '',
    **{name: 'DBN' for name in LOADS},
    **{'stx' + bits: 'BNS' for bits in ('8', '16', '32', '64')},
    **{'st' + bits: 'BNN' for bits in ('8', '16', '32', '64')},
    'wide': 'DN'}
FORMS = {'DV': 'rD, rS or rD, NUMBER', 'RV': 'rD, rS or rD, NUMBER', 'R': 'rD', 'DS': 'rD, rS',
         'J': 'OFFSET or LABEL', 'SVJ': 'rD, rS or NUMBER, OFFSET or LABEL', '': '',
         'DBN': 'rD, rBASE, OFFSET', 'BNS': 'rBASE, OFFSET, rS', 'BNN': 'rBASE, OFFSET, NUMBER',
         'DN': 'rD, NUMBER'}
_LABEL = re.compile(r'([ \t]*)([A-Za-z_][A-Za-z0-9_]*):')
_NAME_OF_LABEL = re.compile(r'(?!r[0-9]+\Z)[A-Za-z_][A-Za-z0-9_]*')


class Line(NamedTuple):
    """An instruction of a text: its line's number, its slot, its text without the comment, its
    mnemonic and its operands."""
    number: int
    slot: int
    text: str
    mnemonic: str
    operands: List[str]


def bare(line: str) -> str:
    """A line without its comment."""
    return re.split('[;#]', line, maxsplit=1)[0].strip()


def lines_of(text: str) -> Iterator[Line]:
    """The instructions of a text without labels, whatever is wrong with them."""
    slot = 0
    for number, line in enumerate(map(bare, text.split('\n')), 1):
        if line:
            mnemonic, *rest = line.split(None, 1)
            operands = [operand.strip() for each in rest for operand in each.split(',')]
            yield Line(number, slot, line, mnemonic, operands)
            slot += size_of(mnemonic)


def size_of(mnemonic: str) -> int:
    """The slots of an instruction."""
    return 2 if mnemonic == 'wide' else 1


def without_labels(text: str) -> str:
    """The text with labels as numbers. ValueError, with the line, where one stands twice, or none
    of a name is there."""
    if ':' not in text:
        return text
    lines, places = _cut_labels(text)
    for line in lines_of('\n'.join(lines)) if places else ():
        is_jump = OPERANDS.get(line.mnemonic, '').endswith('J') and line.operands
        if is_jump and _NAME_OF_LABEL.fullmatch(line.operands[-1]):
            lines[line.number - 1] = _numbered(lines[line.number - 1], line, places)
    return '\n'.join(lines)


def _cut_labels(text: str) -> Tuple[List[str], Dict[str, int]]:
    """The lines without their labels, and the slot that each label stands for."""
    lines, places, slot = [], {}, 0  # type: List[str], Dict[str, int], int
    for number, line in enumerate(text.split('\n'), 1):
        while found := _LABEL.match(line):
            if found.group(2) in places:
                raise ValueError('line %d: the label %s: is in the text already' % (
                    number, found.group(2)))
            places[found.group(2)] = slot
            line = found.group(1) + line[found.end():]
        lines.append(line)
        slot += sum(size_of(each.mnemonic) for each in lines_of(line))
    return lines, places


def _numbered(line: str, jump: Line, places: Dict[str, int]) -> str:
    """A jump's line with the number of slots in place of its label."""
    label = jump.operands[-1]
    if label not in places:
        raise ValueError('line %d: no label %s: in the text; there are %s' % (
            jump.number, label, ', '.join(sorted(places))))
    end = line.find(jump.text) + len(jump.text)
    code, comment = line[:end], line[end:]
    return code[:code.rindex(label)] + str(places[label] - jump.slot - 1) + comment


def form_of(mnemonic: str) -> Optional[str]:
    """A mnemonic with its operands in words, None where there is no such mnemonic."""
    if mnemonic not in OPERANDS:
        return None
    return ('%s %s' % (mnemonic, FORMS[OPERANDS[mnemonic]])).strip()


# -- the text of code, for people: what has no mnemonic is written as its bytes

WIDE = 0x18                                        # the opcode


class Slot(NamedTuple):
    """The fields of eight bytes of code."""
    opcode: int
    target: int
    source: int
    offset: int
    immediate: int


def _list_formats() -> Dict[Tuple[int, bool], str]:
    """The texts of instructions by their opcodes, and whether it is the one that a field `offset`
    makes of another one (RFC 9669, section 4.1)."""
    out = {(0x95, False): 'exit', (0x05, False): 'ja {offset}', (0x06, False): 'ja32 {immediate}'}
    for opcode, name in ((0xd4, 'le'), (0xdc, 'be'), (0xd7, 'swap')):
        out[opcode, False] = name + '{immediate} r{target}'
    for width, operation, jump in (('64', 7, 5), ('32', 4, 6)):
        out[0x80 + operation, False] = 'neg%s r{target}' % width
        for by_register, right in ((0, '{immediate}'), (8, 'r{source}')):
            operands = width + ' r{target}, ' + right
            out.update(((each.code << 4 | by_register | operation, each.signed), name + operands)
                       for name, each in OPERATIONS.items())
            out.update(((code << 4 | by_register | jump, False), name + operands + ', {offset}')
                       for code, name in CONDITIONS.items())
        out[0xb8 + operation, True] = 'movs{offset}_%s r{target}, r{source}' % width
    for at, size in enumerate(('32', '16', '8', '64')):
        for opcode, name in ((0x61, 'ldx'), (0x81, 'ldsx')):
            out[opcode + 8 * at, False] = name + size + ' r{target}, r{source}, {offset}'
        for opcode, name, what in ((0x63, 'stx', 'r{source}'), (0x62, 'st', '{immediate}')):
            out[opcode + 8 * at, False] = name + size + ' r{target}, {offset}, ' + what
    return out


_FORMATS = _list_formats()


def lines_of_code(code: bytes) -> List[Tuple[int, str]]:
    """The slot of each instruction, and its text."""
    whole = code[:len(code) // 8 * 8]
    slots = [Slot(opcode, registers & 15, registers >> 4, offset, immediate)
             for opcode, registers, offset, immediate in struct.iter_unpack('<BBhi', whole)]
    out: List[Tuple[int, str]] = []
    at = 0
    while at < len(slots):
        if slots[at].opcode == WIDE and at + 1 < len(slots):
            number = (slots[at + 1].immediate << 32) + slots[at].immediate % (1 << 32)
            out.append((at, 'wide r%d, %d' % (slots[at].target, number)))
            at += 2
        else:
            out.append((at, _text(slots[at]) or code[8 * at:8 * at + 8].hex()))
            at += 1
    return out


def _text(slot: Slot) -> str:
    """The text of an instruction of one slot, empty where it has none."""
    key = slot.opcode, slot.offset != 0
    return _FORMATS.get(key if key in _FORMATS else (slot.opcode, False), '').format(
        **slot._asdict())
