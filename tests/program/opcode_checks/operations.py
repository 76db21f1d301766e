"""Each operation and each jump on all pairs of words at the edges, alone and in lanes."""
from typing import Iterator, List, Tuple

from reference.instructions import SPELLINGS, Spelling

from .exchanges import Session
from .lanes import WORDS, laid_out, sessions_of
from .programs import EXIT, MOVE, slot, taken

Made = Tuple[str, List[str], str]

EDGES = sorted({0, 1, 2, 3, 5, 63, 64, (1 << 31) - 1, 1 << 31, (1 << 32) - 1, 1 << 32,
                (1 << 63) - 1, 1 << 63, (1 << 64) - 1, *WORDS})

# The numbers that stand in the code.
NUMBERS = [0, 1, -1, 31, 32, 37, 63, 64, -(1 << 31), (1 << 31) - 1, 0x12345678]

PLACES = [-512, -511, -8, -1]
# R1 and R2 in the words at both ends of the stack
STORED = [slot(0x7b, 10, 1, -512), slot(0x7b, 10, 2, -504), slot(0x7b, 10, 1, -16),
          slot(0x7b, 10, 2, -8)]
# the same words taken together in R0, each behind `ldx64 r3`
TAKEN = [part for place in (-512, -504, -16, -8) for part in (slot(0x79, 3, 10, place), *taken(3))]


def of_arithmetic(spelling: Spelling) -> Iterator[Made]:
    """`mov64 r0, r1` twice, so that the program doesn't know the operator by its code, the
    operation on R0 and, where it reads one, R2 or a number, `exit`."""
    if 'imm' in spelling.fields:
        for number in NUMBERS:
            code = slot(spelling.opcode, 0, 0, spelling.offset, number)
            yield '%s r0, %d' % (spelling.mnemonic, number), [MOVE, MOVE, code, EXIT], 'unary'
    elif 'src' in spelling.fields:
        yield '%s r0, r2' % spelling.mnemonic, [MOVE, MOVE,
                                                slot(spelling.opcode, 0, 2, spelling.offset),
                                                EXIT], 'binary'
    else:
        code = slot(spelling.opcode, 0, 0, spelling.offset, spelling.imm)
        yield '%s r0' % spelling.mnemonic, [MOVE, MOVE, code, EXIT], 'index'


def over_three_slots(jump: str) -> List[str]:
    """A jump over a wide load of R0 and an exit to `add64 r0, 9`."""
    return [MOVE, jump, '18000000ffffffff', '0000000005000000', EXIT, '0700000009000000', EXIT]


def of_jump(spelling: Spelling) -> Iterator[Made]:
    if spelling.action == 'ja':
        by_offset = 'offset' in spelling.fields
        jump = slot(spelling.opcode, offset=2 if by_offset else 0, immediate=0 if by_offset else 2)
        yield spelling.mnemonic, [jump, '18000000ffffffff', '0000000005000000', MOVE, EXIT], 'unary'
    elif 'src' in spelling.fields:
        yield '%s r1, r2, 3' % spelling.mnemonic, over_three_slots(
            slot(spelling.opcode, 1, 2, 3)), 'binary'
    else:
        for number in NUMBERS:
            jump = slot(spelling.opcode, 1, 0, 3, number)
            yield '%s r1, %d, 3' % (spelling.mnemonic, number), over_three_slots(jump), 'unary'


def of_access(spelling: Spelling) -> Iterator[Made]:
    """A load of R0 at each place; a store there, with all words of the stack's ends behind it."""
    for place in PLACES:
        if place + spelling.bits // 8 > 0:
            continue
        if spelling.group == 'load':
            yield ('%s r0, r10, %d' % (spelling.mnemonic, place),
                   [*STORED, slot(spelling.opcode, 0, 10, place), EXIT], 'binary')
        elif 'src' in spelling.fields:
            code = slot(spelling.opcode, 10, 2, place)
            yield '%s r10, %d, r2' % (spelling.mnemonic,
                                      place), [MOVE, *STORED, code, *TAKEN, EXIT], 'binary'
        else:
            for number in NUMBERS:
                code = slot(spelling.opcode, 10, 0, place, number)
                yield '%s r10, %d, %d' % (spelling.mnemonic, place,
                                          number), [MOVE, *STORED, code, *TAKEN, EXIT], 'binary'


def all_of(group: str) -> Iterator[Made]:
    made = {'arithmetic': of_arithmetic, 'jump': of_jump, 'load': of_access,
            'store': of_access}[group]
    for spelling in SPELLINGS:
        if spelling.group == group:
            yield from made(spelling)


def wide_loads() -> Iterator[Made]:
    for word in EDGES:
        low, high = (word & 0xffffffff).to_bytes(4, 'little').hex(), (word >> 32).to_bytes(
            4, 'little').hex()
        yield 'wide r0, %#x' % word, ['18000000' + low, '00000000' + high, EXIT], 'unary'


def sessions() -> Iterator[Session]:
    laid, words, few = laid_out(EDGES), laid_out(WORDS), laid_out(WORDS, [1, 20, 64, 130])
    yield from sessions_of('arithmetic', laid, all_of('arithmetic'))
    yield from sessions_of('jumps', laid, all_of('jump'))
    yield from sessions_of('loads', words, all_of('load'))
    yield from sessions_of('stores of registers', words,
                           (made for made in all_of('store') if made[0].startswith('stx')))
    yield from sessions_of('stores of numbers', few,
                           (made for made in all_of('store') if not made[0].startswith('stx')))
    yield from sessions_of('wide loads', laid_out([0, 1], [1, 64]), wide_loads())
