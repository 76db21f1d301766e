"""Operations, conditions and the stack, with values that are written down: from the RFC, other
interpreters, and arithmetic by hand."""
from typing import Iterator, List, Sequence, Tuple

from tests.lib.commands import matrix_command, matrix_text, show_reply

from .exchanges import Exchange, Session
from .lanes import signed
from .programs import EXIT, MOVE, ZERO, Words, count_of, upload, uploaded

MOST = (1 << 64) - 1

# Instructions, each behind its name, with its two operands and the value that it gives: `mov64 r0,
# r1`, the instruction, `exit`.
VALUES: List[Tuple[str, str, int, int, int]] = [
    ('sdiv64', '3f20010000000000', 0xfffffffffffffff3, 3, 0xfffffffffffffffc),
    ('sdiv64', '3f20010000000000', 0xfffffffffffffff3, 0, 0),
    ('sdiv64', '3f20010000000000', 0x8000000000000000, MOST, 0x8000000000000000),
    ('smod64', '9f20010000000000', 0xfffffffffffffff3, 3, MOST),
    ('smod64', '9f20010000000000', 0xfffffffffffffff3, 0, 0xfffffffffffffff3),
    ('smod64', '9f20010000000000', 0x8000000000000000, MOST, 0),
    ('mod32 by 0', '9c20000000000000', 0x100000005, 0, 5),
    ('add32', '0400000001000000', 0xffffffff, 0, 0),
    ('be16', 'dc00000010000000', 70196, 0, 13330),
    ('movs8_64', 'bf10080000000000', 255, 0, MOST),
    ('lsh64', '6700000041000000', 3, 0, 6),
    ('neg32', '8400000000000000', 5, 0, 0xfffffffb),
    ('swap64', 'd700000040000000', 1, 0, 0x100000000000000),
    ('sub64', '1f20000000000000', 1, 2, MOST),
    ('mul64', '2f20000000000000', 0x8000000000000003, 2, 6),
    ('div64', '3f20000000000000', MOST, 2, 0x7fffffffffffffff),
    ('div64 by 0', '3f20000000000000', 7, 0, 0),
    ('div64 by -2', '37000000feffffff', MOST, 0, 1),
    ('div32', '3c20000000000000', 0x100000007, 0x200000002, 3),
    ('sdiv32', '3c20010000000000', 0xfffffff3, 3, 0xfffffffc),
    ('sdiv32 wraps', '3c20010000000000', 0x80000000, 0xffffffff, 0x80000000),
    ('smod32', '9c20010000000000', 0xfffffff3, 3, 0xffffffff),
    ('mod64', '9f20000000000000', MOST, 10, 5),
    ('mod64 by 0', '9f20000000000000', 0x10000000000, 0, 0x10000000000),
    ('and64', '57000000f0ffffff', 0x1000000ff, 0, 0x1000000f0),
    ('and32', '54000000f0ffffff', 0x1000000ff, 0, 240),
    ('or64', '4f20000000000000', 4080, 15, 4095),
    ('xor32', 'ac20000000000000', 0x100000003, 0x200000001, 2),
    ('lsh32', '6400000021000000', 0x80000001, 0, 2),
    ('rsh64', '7700000041000000', MOST, 0, 0x7fffffffffffffff),
    ('rsh32', '740000001f000000', 0x180000000, 0, 1),
    ('arsh64', 'c700000002000000', 0xfffffffffffffff3, 0, 0xfffffffffffffffc),
    ('arsh32', 'c40000003f000000', 0x80000000, 0, 0xffffffff),
    ('neg64', '8700000000000000', 5, 0, 0xfffffffffffffffb),
    ('mov64', 'b7000000ffffffff', 5, 0, MOST),
    ('mov32', 'b4000000ffffffff', 5, 0, 0xffffffff),
    ('mov32', 'bc10000000000000', MOST, 0, 0xffffffff),
    ('movs8_32', 'bc10080000000000', 255, 0, 0xffffffff),
    ('movs16_32', 'bc10100000000000', 32768, 0, 0xffff8000),
    ('movs16_64', 'bf10100000000000', 32768, 0, 0xffffffffffff8000),
    ('movs32_64', 'bf10200000000000', 0x80000000, 0, 0xffffffff80000000),
    ('le16', 'd400000010000000', 74565, 0, 9029),
    ('le32', 'd400000020000000', 0x123456789, 0, 0x23456789),
    ('le64', 'd400000040000000', 0xfffffffffffffffe, 0, 0xfffffffffffffffe),
    ('be32', 'dc00000020000000', 0x155112233, 0, 0x33221155),
    ('be64', 'dc00000040000000', 0x1122334455667788, 0, 0x8877665544332211),
    ('swap16', 'd700000010000000', 70196, 0, 13330),
    ('swap32', 'd700000020000000', 0x100000001, 0, 0x1000000),
]

# The words that are compared.
PAIRS = [(1, 2), (MOST, 1), (0x100000001, 1), (0x80000000, 0x80000000),
         (0x8000000000000000, 0x8000000000000000)]

# Conditions, each by its name and its code, and of which pairs of words and of their low halves it
# holds (y) or not (n).
CONDITIONS: List[Tuple[str, str, str, str]] = [
    ('jeq', '1', 'nnnyy', 'nnyyy'),
    ('jgt', '2', 'nyynn', 'nynnn'),
    ('jge', '3', 'nyyyy', 'nyyyy'),
    ('jset', '4', 'nyyyy', 'nyyyn'),
    ('jne', '5', 'yyynn', 'yynnn'),
    ('jsgt', '6', 'nnynn', 'nnnnn'),
    ('jsge', '7', 'nnyyy', 'nnyyy'),
    ('jlt', 'a', 'ynnnn', 'ynnnn'),
    ('jle', 'b', 'ynnyy', 'ynyyy'),
    ('jslt', 'c', 'yynnn', 'yynnn'),
    ('jsle', 'd', 'yynyy', 'yyyyy'),
]

# Jumps that compare R1 with imm, each with a word and whether it is taken.
WITH_IMM: List[Tuple[str, str, int, bool]] = [
    ('jeq64', '15010100ffffffff', MOST, True),
    ('jeq64', '15010100ffffffff', 0xffffffff, False),
    ('jsgt64', '65010100feffffff', MOST, True),
    ('jgt64', '25010100feffffff', 0xffffffff, False),
    ('jeq32', '16010100ffffffff', 0xffffffff, True),
    ('jeq32', '16010100ffffffff', 0x1ffffffff, True),
]

# A store of R1 or of imm and a load, with the word stored and the word that comes back. Bytes -512
# to -505 and -8 to -1 hold 0 before.
KEPT: List[Tuple[str, str, str, int, int]] = [
    ('ldx8', '7b1af8ff00000000', '71a0f8ff00000000', 0x1122334485667788, 136),
    ('ldx16', '7b1af8ff00000000', '69a0f9ff00000000', 0x1122334485667788, 26231),
    ('ldx32', '7b1af8ff00000000', '61a0fcff00000000', 0x1122334485667788, 0x11223344),
    ('ldx64', '7b1af8ff00000000', '79a0f8ff00000000', 0x1122334485667788, 0x1122334485667788),
    ('ldsx8', '7b1af8ff00000000', '91a0f8ff00000000', 0x1122334485667788, 0xffffffffffffff88),
    ('ldsx16', '7b1af8ff00000000', '89a0faff00000000', 0x1122334485667788, 0xffffffffffff8566),
    ('ldsx32', '7b1af8ff00000000', '81a0f8ff00000000', 0x1122334485667788, 0xffffffff85667788),
    ('stx8', '731af8ff00000000', '79a0f8ff00000000', 511, 255),
    ('stx16', '6b1af8ff00000000', '79a0f8ff00000000', 74565, 9029),
    ('stx32', '631af8ff00000000', '79a0f8ff00000000', 0x123456789, 0x23456789),
    ('st8', '720af8fffeffffff', '79a0f8ff00000000', 5, 254),
    ('st16', '6a0af8fffeffffff', '79a0f8ff00000000', 5, 65534),
    ('st32', '620af8fffeffffff', '79a0f8ff00000000', 5, 0xfffffffe),
    ('st64', '7a0af8fffeffffff', '79a0f8ff00000000', 5, 0xfffffffffffffffe),
    ('stx16 at an odd index', '6b1af9ff00000000', '79a0f8ff00000000', 4660, 0x123400),
    ('ldsx8 of the last byte', '731affff00000000', '91a0ffff00000000', 128, 0xffffffffffffff80),
    ('ldsx16 of the last bytes', '6b1afeff00000000', '89a0feff00000000', 32768, 0xffffffffffff8000),
    ('ldsx32 of the first bytes', '631a00fe00000000', '81a000fe00000000', 0x80000000,
     0xffffffff80000000),]

# Programs, each behind its name, with the kind, the operands, the value and the steps.
GIVEN: List[Tuple[str, List[str], str, Words, int, int]] = [
    ('add 1', [MOVE, '0700000001000000', EXIT], 'unary', (41,), 42, 3),
    ('add 1, wrapping', [MOVE, '0700000001000000', EXIT], 'unary', (0x7fffffffffffffff,),
     0x8000000000000000, 3),
    ('wide load', ['1800000001000000', '0000000001000000', EXIT], 'unary', (5,), 0x100000001, 2),
    ('jump to the next slot', [ZERO, '0500000000000000', EXIT], 'unary', (5,), 0, 3),
    ('jump by offset', ['b700000005000000', '0500010000000000', 'b700000006000000', EXIT], 'unary',
     (5,), 5, 3),
    ('jump by imm', ['b700000005000000', '0600000001000000', 'b700000006000000', EXIT], 'unary',
     (5,), 5, 3),
    ("the stack's first bytes", ['7b1a00fe00000000', '79a000fe00000000', EXIT], 'unary',
     (0x123456789abcdef0,), 0x123456789abcdef0, 3),
    ('two halves stored', ['631afcff00000000', '631af8ff00000000', '79a0f8ff00000000', EXIT],
     'unary', (1,), 0x100000001, 4),
    ('a moved place', ['bfa2000000000000', '07020000f8ffffff', '7b12000000000000',
                       '79a0f8ff00000000', EXIT], 'unary', (77,), 77, 5),
    ('diagonal', ['b700000001000000', '1d32010000000000', ZERO, EXIT], 'index', (7, 3, 3, 0), 1, 3),
    ('diagonal', ['b700000001000000', '1d32010000000000', ZERO, EXIT], 'index', (7, 3, 4, 0), 0, 4),
    ('row', ['bf20000000000000', EXIT], 'index', (1, 2, 3, 4), 2, 2),
    ('column', ['bf30000000000000', EXIT], 'index', (1, 2, 3, 4), 3, 2),
    ('thunk', ['bf40000000000000', EXIT], 'index', (1, 2, 3, 4), 4, 2),]


def called(what: str, slots: Sequence[str], kind: str, operands: Words, value: int,
           steps: int) -> Exchange:
    """A call on these operands gives this value in so many steps. The operands of an index operator
    are a word, its row, its column and a thunk."""
    row, column, thunk = operands[1:] if kind == 'index' else (0, 0, 0)
    words = operands[:2] if kind == 'binary' else operands[:1]
    size = max(row, column) + 1
    command = upload('f', slots, kind)
    for name, word in zip('XY', words):
        command += matrix_command(name,
                                  matrix_text(size, size, [(row + 1, column + 1, signed(word))]))
    command += {'unary': b'apply R f X', 'binary': b'both R f X Y',
                'index': b'apply R f X %d' % thunk}[kind] + b'\nrun\nshow R\n'
    reply = uploaded(slots) + b'ok matrix %d %d 1\n' % (size, size) * len(words)
    reply += b'ok queued 1 %d\nok run 1 %d\nR %d %d 1 %d\n' % (count_of(slots), steps, size, size,
                                                               steps)
    return Exchange(what, command,
                    reply
                    + show_reply(matrix_text(size, size, [(row + 1, column + 1, signed(value))])))


def jumped(what: str, jump: str, kind: str, operands: Words, taken: bool) -> Exchange:
    """`mov64 r0, 1`, a jump over one slot, `mov64 r0, 0`, `exit`: 1 in three steps where it is
    taken, and else 0 in four."""
    return called(what, ['b700000001000000', jump, ZERO, EXIT], kind, operands, int(taken),
                  3 if taken else 4)


def conditions() -> Iterator[Exchange]:
    for name, code, words, halves in CONDITIONS:
        for width, opcode, holds in (('64', 'd', words), ('32', 'e', halves)):
            for pair, taken in zip(PAIRS, holds):
                jump = code + opcode + '21010000000000'
                yield jumped('%s%s on %#x and %#x' % (name, width, *pair), jump, 'binary', pair,
                             taken == 'y')
    for name, jump, word, taken in WITH_IMM:
        yield jumped('%s on %#x' % (name, word), jump, 'unary', (word,), taken)


def sessions() -> List[Session]:
    operations = [called('%s on %#x and %#x' % (name, x, y), [MOVE, code, EXIT], 'binary', (x, y),
                         value, 3) for name, code, x, y, value in VALUES]
    stack = [called(name, ['7a0a00fe00000000', '7a0af8ff00000000', store, load, EXIT], 'unary',
                    (word,), value, 5) for name, store, load, word, value in KEPT]
    programs = [called(*row) for row in GIVEN]
    return [Session('values', operations + list(conditions()) + stack + programs, literal=True)]
