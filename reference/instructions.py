"""The opcode tables, and code in slots of eight bytes (RFC 9669, section 3; docs/bpf.md, "Slots" to
"Fields")."""
import struct
from typing import Dict, Iterator, List, NamedTuple, Optional, Tuple
from .words import Refusal

MOST_SLOTS = 4096
TOP = 10                # the register that holds the top of the stack
NUMBER, PLACE, EITHER = 'number', 'place', 'number or place'


class Spelling(NamedTuple):
    """A line of the tables: how one kind of instruction is written, as assembly text and as code.
    `fields` are the fields of a slot that it uses, in the order of assembly's operands; each other
    field has one fixed content."""

    mnemonic: str
    group: str          # arithmetic, jump, load, store, wide or exit
    action: str         # what it does: the mnemonic without its width
    bits: int           # on how many bits
    opcode: int
    fields: Tuple[str, ...]
    offset: int = 0
    imm: int = 0

    @property
    def slots(self) -> int:
        return 2 if self.group == 'wide' else 1

    def bits_of(self, field: str) -> int:
        """How many bits a number in this field has."""
        return 16 if field == 'offset' else 64 if self.group == 'wide' else 32


ARITHMETIC = ['add', 'sub', 'mul', 'div', 'or', 'and', 'lsh', 'rsh', 'neg', 'mod', 'xor', 'mov',
              'arsh']
CONDITIONS = {'jeq': 1, 'jgt': 2, 'jge': 3, 'jset': 4, 'jne': 5, 'jsgt': 6, 'jsge': 7, 'jlt': 10,
              'jle': 11, 'jslt': 12, 'jsle': 13}
SIZES = {32: 0x00, 16: 0x08, 8: 0x10, 64: 0x18}
OUTSIDE_PROFILE = {0x85, 0xc3, 0xdb, 0x20, 0x28, 0x30, 0x40, 0x48, 0x50}
WIDE = 0x18
IMM, REGISTER = 0x00, 0x08      # the source bit: K and X


def arithmetic() -> Iterator[Spelling]:
    for bits, group in ((32, 4), (64, 7)):
        for code, name in enumerate(ARITHMETIC):
            opcode = code << 4 | group
            if name == 'neg':
                yield Spelling('neg%d' % bits, 'arithmetic', name, bits, opcode, ('dst',))
                continue
            for action, offset in ((name, 0),
                                   ('s' + name, 1)) if name in ('div', 'mod') else ((name, 0),):
                yield Spelling('%s%d' % (action, bits), 'arithmetic', action, bits, opcode | IMM,
                               ('dst', 'imm'), offset)
                yield Spelling('%s%d' % (action, bits), 'arithmetic', action, bits,
                               opcode | REGISTER, ('dst', 'src'), offset)
        for size in (8, 16, 32):
            if size < bits:
                action = 'movs%d' % size
                yield Spelling('%s_%d' % (action, bits), 'arithmetic', action, bits,
                               0xb0 | REGISTER | group, ('dst', 'src'), size)
    for action, opcode in (('le', 0xd4), ('be', 0xdc), ('swap', 0xd7)):
        for bits in (16, 32, 64):
            yield Spelling('%s%d' % (action, bits), 'arithmetic', action, bits, opcode, ('dst',),
                           imm=bits)


def jumps() -> Iterator[Spelling]:
    yield Spelling('ja', 'jump', 'ja', 64, 0x05, ('offset',))
    yield Spelling('ja32', 'jump', 'ja', 32, 0x06, ('imm',))
    yield Spelling('exit', 'exit', 'exit', 64, 0x95, ())
    for bits, group in ((64, 5), (32, 6)):
        for action, code in CONDITIONS.items():
            mnemonic, opcode = '%s%d' % (action, bits), code << 4 | group
            yield Spelling(mnemonic, 'jump', action, bits, opcode | IMM, ('dst', 'imm', 'offset'))
            yield Spelling(mnemonic, 'jump', action, bits, opcode | REGISTER,
                           ('dst', 'src', 'offset'))


def memory() -> Iterator[Spelling]:
    """The base of an access stands in the source field of a load, and in the destination field of a
    store."""
    for bits, size in SIZES.items():
        yield Spelling('ldx%d' % bits, 'load', 'ldx', bits, 0x61 | size, ('dst', 'src', 'offset'))
        if bits < 64:
            yield Spelling('ldsx%d' % bits, 'load', 'ldsx', bits, 0x81 | size,
                           ('dst', 'src', 'offset'))
        yield Spelling('stx%d' % bits, 'store', 'stx', bits, 0x63 | size, ('dst', 'offset', 'src'))
        yield Spelling('st%d' % bits, 'store', 'st', bits, 0x62 | size, ('dst', 'offset', 'imm'))
    yield Spelling('wide', 'wide', 'wide', 64, WIDE, ('dst', 'imm'))


SPELLINGS = [*arithmetic(), *jumps(), *memory()]
BY_OPCODE: Dict[int, List[Spelling]] = {}
BY_MNEMONIC: Dict[str, List[Spelling]] = {}
for _spelling in SPELLINGS:
    BY_OPCODE.setdefault(_spelling.opcode, []).append(_spelling)
    BY_MNEMONIC.setdefault(_spelling.mnemonic, []).append(_spelling)


class Instruction(NamedTuple):
    """An instruction at its slot. `imm` is the whole word of a wide load, read as signed. `reads`
    are the registers that it reads, each with what it wants there, and `writes` is the register
    that it writes."""

    spelling: Spelling
    slot: int
    dst: int
    src: int
    offset: int
    imm: int
    reads: Tuple[Tuple[int, str], ...]
    writes: Optional[int]

    @property
    def after(self) -> int:
        return self.slot + self.spelling.slots

    @property
    def target(self) -> Optional[int]:
        """Where a jump leads: so many slots behind the slot after it."""
        if self.spelling.group != 'jump':
            return None
        return self.after + (self.imm if self.spelling.mnemonic == 'ja32' else self.offset)


def instruction(spelling: Spelling, slot: int, dst: int = 0, src: int = 0, offset: int = 0,
                imm: int = 0) -> Instruction:
    return Instruction(spelling, slot, dst, src, offset, imm, *reads_and_writes(spelling, dst, src))


def reads_and_writes(spelling: Spelling, dst: int,
                     src: int) -> Tuple[Tuple[Tuple[int, str], ...], Optional[int]]:
    """Which registers are read and written. Places are copied by `mov64`, moved by `add64` of a
    number, and bases of accesses."""
    if spelling.group == 'exit':
        return ((0, NUMBER),), None
    if spelling.group == 'load':
        return ((src, PLACE),), dst
    by_register = ((src, NUMBER),) if 'src' in spelling.fields else ()
    if spelling.group == 'store':
        return ((dst, PLACE),) + by_register, None
    if spelling.group == 'jump':
        return (() if spelling.action == 'ja' else ((dst, NUMBER),) + by_register), None
    if spelling.group == 'wide' or spelling.action.startswith('mov'):
        copies = spelling.mnemonic == 'mov64' and by_register
        return ((src, EITHER),) if copies else by_register, dst
    moves = spelling.mnemonic == 'add64' and not by_register
    return ((dst, EITHER if moves else NUMBER),) + by_register, dst


class Program:
    """Instructions one after the other; `at` has each by its slot."""

    def __init__(self, instructions: List[Instruction]) -> None:
        self.instructions = instructions
        self.at = {each.slot: each for each in instructions}
        self.slots = instructions[-1].after


def decode(code: bytes) -> Program:
    """The program that code spells. Refused by V1 to V6: V1 first, then by the first broken slot,
    and there by the lowest rule."""
    slots, rest = divmod(len(code), 8)
    if rest or not 1 <= slots <= MOST_SLOTS:
        raise Refusal('V1', min(slots, MOST_SLOTS))
    instructions: List[Instruction] = []
    while not instructions or instructions[-1].after < slots:
        instructions.append(decode_slot(code, instructions[-1].after if instructions else 0))
    return Program(instructions)


def decode_slot(code: bytes, slot: int) -> Instruction:
    opcode, registers, offset, imm = struct.unpack_from('<BBhi', code, 8 * slot)
    fields = {'dst': registers & 15, 'src': registers >> 4, 'offset': offset, 'imm': imm}
    if opcode in OUTSIDE_PROFILE or (opcode == WIDE and fields['src'] != 0):
        raise Refusal('V3', slot)
    if opcode not in BY_OPCODE:
        raise Refusal('V2', slot)
    if any(fields[register] > TOP for register in ('dst', 'src')
           if register in BY_OPCODE[opcode][0].fields):
        raise Refusal('V4', slot)
    for spelling in BY_OPCODE[opcode]:
        fixed = {'dst': 0, 'src': 0, 'offset': spelling.offset, 'imm': spelling.imm}
        if all(fields[field] == fixed[field] for field in fields if field not in spelling.fields):
            break
    else:
        raise Refusal('V5', slot)
    if opcode == WIDE:
        second = code[8 * slot + 8:8 * slot + 16]
        if second[:4] != bytes(4):
            raise Refusal('V6', slot)
        fields['imm'] = struct.unpack('<q', code[8 * slot + 4:8 * slot + 8] + second[4:])[0]
    return instruction(spelling, slot, **fields)
