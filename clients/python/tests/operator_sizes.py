"""Operators from functions beside assembly that is written by hand. `python3 operator_sizes.py`
prints the table: instructions, and the steps of the longest way."""
import operator_functions as F
import spmat
from operator_functions import rsh
from operator_model import READY, Plain

# A name, a kind, a function, and the same by hand: the name of a built-in operator, or assembly
# with `;` between its lines.
TABLE = [
    ('x + 1', 'unary', lambda x: x + 1, 'mov64 r0, r1; add64 r0, 1; exit'),
    ('min(x, y)', 'binary', min, 'min'),
    ('abs(x - y)', 'binary', lambda x, y: abs(x - y),
     'mov64 r0, r1; sub64 r0, r2; jsge64 r0, 0, 1; neg64 r0; exit'),
    ('(x > 0) - (x < 0)', 'unary', F.sign, 'sgn'),
    ('x + y + (5 if y > 10 else 0)', 'binary', F.toll,
     'mov64 r0, r1; add64 r0, r2; jsle64 r2, 10, 1; add64 r0, 5; exit'),
    ('x + 5 * (y > 10)', 'binary', lambda x, y: x + 5 * (y > 10),
     'mov64 r0, r1; jsle64 r2, 10, 1; add64 r0, 5; exit'),
    ('3 * x + 1 if x % 2 else x // 2', 'unary', F.collatz,
     'mov64 r0, r1; jset64 r1, 1, 2; arsh64 r0, 1; exit; mul64 r0, 3; add64 r0, 1; exit'),
    ('x // y', 'binary', lambda x, y: x // y, 'floordiv'),
    ('x % y', 'binary', lambda x, y: x % y,
     'mov64 r0, r1; smod64 r0, r2; jeq64 r0, 0, 3; xor64 r1, r2; jsge64 r1, 0, 1; add64 r0, r2; '
     'exit'),
    ('x // 10', 'unary', lambda x: x // 10,
     'mov64 r0, r1; sdiv64 r0, 10; smod64 r1, 10; jsge64 r1, 0, 1; sub64 r0, 1; exit'),
    ('x % 10', 'unary', lambda x: x % 10,
     'mov64 r0, r1; smod64 r0, 10; jsge64 r0, 0, 1; add64 r0, 10; exit'),
    ('x * (x - 1) // 2', 'unary', lambda x: x * (x - 1) // 2,
     'mov64 r0, r1; sub64 r0, 1; mul64 r0, r1; arsh64 r0, 1; exit'),
    ('x << y', 'binary', lambda x, y: x << y,
     'mov64 r0, 0; jgt64 r2, 63, 2; mov64 r0, r1; lsh64 r0, r2; exit'),
    ('x > 3 and y < 5', 'binary', lambda x, y: x > 3 and y < 5,
     'mov64 r0, 0; jsle64 r1, 3, 2; jsge64 r2, 5, 1; mov64 r0, 1; exit'),
    ('(x > 3) ^ (y < 5)', 'binary', lambda x, y: (x > 3) ^ (y < 5),
     'mov64 r0, 0; jsle64 r1, 3, 1; mov64 r0, 1; jsge64 r2, 5, 1; xor64 r0, 1; exit'),
    ('0 < x < y <= 100', 'binary', lambda x, y: 0 < x < y <= 100,
     'mov64 r0, 0; jsle64 r1, 0, 3; jsge64 r1, r2, 2; jsgt64 r2, 100, 1; mov64 r0, 1; exit'),
    ('max(0, min(255, x))', 'unary', F.clamp,
     'mov64 r0, r1; jsle64 r1, 255, 1; mov64 r0, 255; jsge64 r1, 0, 1; mov64 r0, 0; exit'),
    ('grade: 3 `elif`', 'unary', F.grade,
     'mov64 r0, 5; jsge64 r1, 90, 5; mov64 r0, 4; jsge64 r1, 75, 3; mov64 r0, 3; jsge64 r1, 60, '
     '1; mov64 r0, 0; exit'),
    ('fee: 3 `if`, 2 of one operand', 'binary', F.fee,
     'mov64 r0, r1; jsle64 r1, 100, 1; add64 r0, r1; jsle64 r2, 0, 1; add64 r0, 7; jsle64 r1, '
     '50, 2; mul64 r2, r2; add64 r0, r2; exit'),
    ('score: 4 `if` behind one another', 'binary', F.score,
     'mov64 r0, 0; jsle64 r1, 10, 1; add64 r0, 3; jsle64 r2, 20, 1; add64 r0, 5; mov64 r3, r1; '
     'and64 r3, 1; mul64 r3, 7; add64 r0, r3; jsle64 r1, r2, 1; add64 r0, 11; exit'),
    ('vote: the majority of labels', 'binary', F.vote,
     'mov64 r3, r1; rsh64 r3, 8; mov64 r4, r2; rsh64 r4, 8; mov64 r0, r1; jeq64 r3, r4, 5; '
     'mov64 r5, r1; and64 r5, 255; jeq64 r5, 0, 4; sub64 r0, 1; exit; add64 r0, 1; exit; mov64 '
     'r0, r2; exit'),
    ('move: an automaton of 3 states', 'binary', F.move,
     'mov64 r0, 0; jset64 r1, 1, 1; ja 3; jset64 r2, 1, 1; ja 1; or64 r0, 2; jset64 r1, 2, 1; '
     'exit; jset64 r2, 6, 1; ja 1; or64 r0, 2; jset64 r2, 8, 1; exit; or64 r0, 4; exit'),
    ('[3, 1, 4, 1, 5, 9, 2, 6][x % 8]', 'unary', F.table,
     'and64 r1, 7; mul64 r1, 4; mov64 r0, 1653937171; rsh64 r0, r1; and64 r0, 15; exit'),
    ('sorted([x, row, column])[1]', 'index', F.median,
     'jsle64 r1, r2, 3; mov64 r0, r1; mov64 r1, r2; mov64 r2, r0; mov64 r0, r3; jsge64 r3, r1, '
     '1; mov64 r0, r1; jsle64 r3, r2, 1; mov64 r0, r2; exit'),
    ('a sum that saturates', 'binary', F.saturating,
     'mov64 r0, r1; add64 r0, r2; mov64 r3, r1; xor64 r3, r2; jslt64 r3, 0, 6; xor64 r2, r0; '
     'jsge64 r2, 0, 4; arsh64 r1, 63; wide r0, 9223372036854775807; xor64 r0, r1; exit'),
    ('crc: 8 turns', 'binary', F.crc, 'mov64 r0, r1; xor64 r0, r2; wide r2, 3988292384; '
     + 'mov64 r1, r0; rsh64 r0, 1; jset64 r1, 1, 1; ja 1; xor64 r0, r2; ' * 8 + 'exit'),
    ('how many bits are set', 'unary', F.count_bits,
     'mov64 r0, r1; rsh64 r0, 1; wide r2, 6148914691236517205; and64 r0, r2; sub64 r1, r0; wide '
     'r2, 3689348814741910323; mov64 r0, r1; and64 r0, r2; rsh64 r1, 2; and64 r1, r2; add64 r0, '
     'r1; mov64 r1, r0; rsh64 r1, 4; add64 r0, r1; wide r2, 1085102592571150095; and64 r0, r2; '
     'wide r2, 72340172838076673; mul64 r0, r2; rsh64 r0, 56; exit'),
    ('column - row <= thunk', 'index', lambda x, row, column, thunk: column - row <= thunk, 'tril'),
    ('row // 3 == column // 3', 'index', lambda x, row, column: row // 3 == column // 3,
     'div64 r2, 3; div64 r3, 3; mov64 r0, 1; jeq64 r2, r3, 1; mov64 r0, 0; exit'),
    ('(cost, hops) in a word', 'binary', lambda x, y: x + (y << 16) + 1,
     'mov64 r0, r2; lsh64 r0, 16; add64 r0, r1; add64 r0, 1; exit'),
    ('mixed: a hash', 'unary', lambda x: (x ^ rsh(x, 33)) * 0x9E3779B97F4A7C15,
     'mov64 r0, r1; rsh64 r0, 33; xor64 r0, r1; wide r1, -7046029254386353131; mul64 r0, r1; '
     'exit'),]


def rows():
    """Of each: its name, kind and function, the operator that it becomes and the one by hand."""
    for name, kind, function, hand in TABLE:
        by_hand = spmat.asm(kind, hand.replace('; ', '\n')) if 'exit' in hand else READY[kind][hand]
        yield name, kind, function, READY[kind](function), by_hand


def main():
    """Prints the table."""
    total = [0, 0]
    print('| Function | From Python | By hand |\n|---|---|---|')
    for name, _, _, op, by_hand in rows():
        made, hand = Plain(op), Plain(by_hand)
        print('| `%s` | %d / %d | %d / %d |' % (name, made.instructions, made.longest(),
                                                hand.instructions, hand.longest()))
        total = [total[0] + made.instructions, total[1] + hand.instructions]
    print('| all %d | %d | %d |' % (len(TABLE), *total))


if __name__ == '__main__':
    main()
