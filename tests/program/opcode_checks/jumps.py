"""Jumps that part calls which are made together, jumps over one move among them."""
from typing import Dict, Iterator, List, Tuple

from .exchanges import Session
from .lanes import WORDS, laid_out, sessions_of
from .programs import EXIT, MOVE, slot

Made = Tuple[str, List[str], str]

CONDITIONS = [0x10, 0x20, 0x30, 0x40, 0x50, 0x60, 0x70, 0xa0, 0xb0, 0xc0, 0xd0]
CLASSES = {'64': 0x05, '32': 0x06}
REGISTER = 0x08

# Moves into R1, R2 and R3, of numbers and of one another.
MOVES = [
    'b7010000ffffffff',   # mov64 r1, -1
    'b702000007000000',   # mov64 r2, 7
    'b703000000000000',   # mov64 r3, 0
    'bf21000000000000',   # mov64 r1, r2
    'bf12000000000000',   # mov64 r2, r1
    'bf13000000000000',   # mov64 r3, r1
    'bf23000000000000',   # mov64 r3, r2
    'bf31000000000000',   # mov64 r1, r3
    'bf11000000000000',   # mov64 r1, r1
]

# What R1, R2 and R3 hold, in one word.
HELD = [MOVE, slot(0x27, immediate=31), slot(0xaf, 0, 2), slot(0x27, immediate=31),
        slot(0xaf, 0, 3), EXIT]

# What a jump leads over that is no move of a whole word: `add64 r0, r2`, `mov32 r0, r2`, `mov32 r0,
# 7`, `movs8_64 r0, r2`.
OTHERS = ['0f20000000000000', 'bc20000000000000', 'b400000007000000', 'bf20080000000000']

AMONG_OTHERS: Dict[str, List[str]] = {
    # each of four jumps parts the calls; those that go on store, load,
    # compute and exit while the others wait
    'parted': [
        # stx64 r10, -8, r1
        '7b1af8ff00000000',
        # stx64 r10, -16, r2
        '7b2af0ff00000000', MOVE,
        # jsgt64 r1, r2, 6
        '6d21060000000000',
        # stx32 r10, -8, r2
        '632af8ff00000000',
        # ldx64 r0, r10, -8
        '79a0f8ff00000000',
        # jset64 r2, 1, 6
        '4502060001000000',
        # st32 r10, -16, -3
        '620af0fffdffffff',
        # jeq64 r1, 0, 3
        '1501030000000000', EXIT,
        # xor32 r0, r2
        'ac20000000000000',
        # jge32 r0, r1, 1
        '3e10010000000000',
        # neg64 r0
        '8700000000000000',
        # ldx16 r3, r10, -16
        '69a3f0ff00000000',
        # add64 r0, r3
        '0f30000000000000',
        # ldx64 r3, r10, -8
        '79a3f8ff00000000',
        # xor64 r0, r3
        'af30000000000000', EXIT,],
    # two jumps over one move each: R1 is kept between 2 and R2
    'clamped': [
        MOVE,
        # jsle32 r0, r2, 1
        'de20010000000000',
        # mov64 r0, r2
        'bf20000000000000',
        # jsge64 r0, 2, 1
        '7500010002000000',
        # mov64 r0, 2
        'b700000002000000', EXIT,],
    # a jump parts the calls; those that go on jump over one move, and do so
    # again where all have met
    'parted before': [
        MOVE,
        # jset64 r1, 1, 3
        '4501030001000000',
        # add64 r0, 3
        '0700000003000000',
        # jgt64 r0, r2, 1
        '2d20010000000000',
        # mov64 r0, r2
        'bf20000000000000',
        # jsgt64 r0, 9, 1
        '6500010009000000',
        # mov64 r0, 9
        'b700000009000000', EXIT,],
    # a jump over one move, and then one that parts the calls
    'parted after': [
        # mov64 r3, r2
        'bf23000000000000',
        # jlt64 r1, r2, 1
        'ad21010000000000',
        # mov64 r3, r1
        'bf13000000000000', MOVE,
        # jset32 r1, 3, 2
        '4601020003000000',
        # xor64 r0, r3
        'af30000000000000', EXIT,
        # mul64 r0, 5
        '2700000005000000',
        # add64 r0, r3
        '0f30000000000000', EXIT,],
    # a jump over one move, into which another jump leads
    'into the move': [
        MOVE,
        # jeq64 r1, 0, 1
        '1501010000000000',
        # jlt64 r0, r2, 1
        'ad20010000000000',
        # mov64 r0, r2
        'bf20000000000000',
        # jge32 r0, 7, 1
        '3600010007000000',
        # mov64 r0, r1
        'bf10000000000000',
        # add64 r0, r2
        '0f20000000000000', EXIT,],
    # a jump over a move and what follows it
    'further': [
        MOVE,
        # jgt64 r1, r2, 2
        '2d21020000000000',
        # mov64 r0, r2
        'bf20000000000000',
        # add64 r0, 1
        '0700000001000000', EXIT,],
    # a jump over a move and an exit
    'to another exit': [
        MOVE,
        # jne64 r1, r2, 2
        '5d21020000000000',
        # mov64 r0, 3
        'b700000003000000', EXIT,
        # neg64 r0
        '8700000000000000', EXIT,],
    # a place below the top of the stack, stored and loaded through
    'moved places': [
        # mov64 r3, r10
        'bfa3000000000000',
        # add64 r3, -24
        '07030000e8ffffff',
        # stx64 r3, 0, r1
        '7b13000000000000',
        # stx32 r3, 8, r2
        '6323080000000000',
        # ldx32 r0, r3, 2
        '6130020000000000',
        # ldx32 r4, r10, -16
        '61a4f0ff00000000',
        # add64 r0, r4
        '0f40000000000000', EXIT,],
    # `ja 1; mov64 r0, r9; mov64 r0, r1`
    'unreached': ['0500010000000000', 'bf90000000000000', MOVE, EXIT],
}


def over_moves() -> Iterator[Made]:
    """Jumps over each move, by R1 and R2, by R2 and R3, and by R1 and a number. R3 holds 5
    before."""
    for width, group in CLASSES.items():
        for condition in CONDITIONS:
            opcode = condition | group
            for over in MOVES:
                for jump in (slot(opcode | REGISTER, 1, 2, 1), slot(opcode | REGISTER, 2, 3, 1),
                             slot(opcode, 1, 0, 1, 2)):
                    yield '%s bits, %s over %s' % (width, jump,
                                                   over), [slot(0xb7, 3, immediate=5), jump, over,
                                                           *HELD], 'binary'


def conditions_as_numbers() -> Iterator[Made]:
    """R0 is 1 where a condition holds, and else 0."""
    for group in CLASSES.values():
        for condition in CONDITIONS:
            jump = slot(condition | group | REGISTER, 1, 2, 1)
            yield 'number of %s' % jump, [slot(0xb7, immediate=1), jump, slot(0xb7), EXIT], 'binary'


def among_others() -> Iterator[Made]:
    for what, slots in AMONG_OTHERS.items():
        yield what, slots, 'binary'
    for other in OTHERS:
        for offset in (0, 1):
            yield 'over no move: %s' % other, [MOVE, slot(0x2d, 1, 2, offset), other,
                                               EXIT], 'binary'


def around(first: str, jump: str, last: str) -> List[str]:
    """A move, a jump and another move, and then what R1, R2 and R3 hold. R3 holds 5 before, and R4
    what R1 does."""
    return [slot(0xb7, 3, immediate=5), slot(0xbf, 4, 1), first, jump, last, *HELD]


def choices() -> Iterator[Made]:
    """R1, R2 or R3 gets one of two words. Registers that are compared are among those that get the
    word."""
    for group in CLASSES.values():
        for condition in CONDITIONS:
            opcode = condition | group
            for destination in (1, 2, 3):
                first, last = slot(0xb7, destination,
                                   immediate=9), slot(0xb7, destination, immediate=-7)
                for jump in (slot(opcode | REGISTER, 1, 2, 1), slot(opcode | REGISTER, 2, 3, 1),
                             slot(opcode | REGISTER, 4, 4, 1), slot(opcode, 1, 0, 1, 2),
                             slot(opcode, 1, 0, 1, -1)):
                    yield 'choice of R%d by %s' % (destination,
                                                   jump), around(first, jump, last), 'binary'


def moves_around_a_jump() -> Iterator[Made]:
    """What isn't a choice between two words that stand in the code: moves into two registers, of
    what a register holds, or of 32 bits, and what is no move."""
    moves = [slot(0xb7, 3, immediate=9), slot(0xb7, 2, immediate=-7), slot(0xbf, 3, 1),
             slot(0xb4, 3, immediate=-7), slot(0x07, 3, immediate=9)]
    for first in moves:
        for last in moves:
            yield '%s and %s around a jump' % (first,
                                               last), around(first, slot(0x2d, 1, 2, 1),
                                                             last), 'binary'


def into_a_choice() -> Iterator[Made]:
    """A choice behind a jump that leads to its own jump, or to its second move, and so parts the
    calls."""
    for offset in (1, 2, 3):
        for condition in CONDITIONS:
            yield 'into a choice by %02x, %d' % (condition, offset), [
                slot(0xb7, immediate=3), slot(0x45, 1, 0, offset, 1), slot(0xb7, immediate=1),
                slot(condition | 0x0d, 1, 2, 1), slot(0xb7), slot(0x27, immediate=31),
                slot(0x0f, 0, 1), EXIT], 'binary'


def behind_one_another() -> Iterator[Made]:
    """Two choices, and a third one where calls may have parted: a jump leads over it to the end, or
    to an exit of its own."""
    for offset in (3, 4, 5):
        yield 'three choices, %d' % offset, [
            slot(0xb7, immediate=1), slot(0x2d, 1, 2, 1), slot(0xb7), slot(0xb7, 3, immediate=6),
            slot(0x66, 0, 0, 1), slot(0xb7, 3, immediate=11), slot(0x45, 1, 0, offset, 1),
            slot(0xb7, immediate=20), slot(0xcd, 2, 1, 1), slot(0xb7, immediate=30),
            slot(0x0f, 0, 3), EXIT, slot(0x0f, 0, 2), EXIT], 'binary'


def further_behind_a_move() -> Iterator[Made]:
    """A jump behind a move that leads further than over the next one, and a choice that two
    instructions and the end follow."""
    for offset in range(4):
        yield 'behind a move, %d' % offset, [slot(0xb7, immediate=1), slot(0xad, 1, 2, offset),
                                             slot(0xb7), slot(0x07, immediate=5),
                                             slot(0x27, immediate=3), EXIT], 'binary'


def sessions() -> Iterator[Session]:
    laid = laid_out(WORDS)
    for topic, made in (('jumps over a move', over_moves),
                        ('conditions as numbers', conditions_as_numbers),
                        ('jumps among others', among_others), ('choices', choices),
                        ('moves around a jump', moves_around_a_jump),
                        ('jumps into a choice', into_a_choice),
                        ('choices behind one another', behind_one_another),
                        ('jumps behind a move', further_behind_a_move)):
        yield from sessions_of(topic, laid, made())
