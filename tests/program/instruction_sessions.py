"""Sessions whose x86 instructions are counted, each of one size and of twice that."""
import random
from typing import Callable, Dict, List, Tuple

from tests.lib.commands import (EXIT, INCREMENT, RESULT_IS_OPERAND, add, assembly_command,
                                matrix_command, matrix_text, operator_command)

Entry = Tuple[int, int, int]

SUM = assembly_command('plus', b'mov64 r0, r1\nadd64 r0, r2\nexit\n', 'binary')
LOW = assembly_command('low', b'mov64 r0, 1\njgt64 r2, r3, 1\nmov64 r0, 0\nexit\n', 'index')
PLACE = assembly_command('place', b'mov64 r0, r2\nmul64 r0, r4\nadd64 r0, r3\nexit\n', 'index')
LONG = operator_command('long', RESULT_IS_OPERAND + add(7) * 60 + EXIT)
SHORT = operator_command('inc', INCREMENT)
QUIT = b'quit\n'


def entries(count: int, of_row: int = 8) -> List[Entry]:
    """So many entries at random places, in rows of about so many."""
    side = count // of_row
    chance = random.Random(count)
    places = sorted(chance.sample(range(side * side), count))
    return [(place // side + 1, place % side + 1, chance.randint(-1000000, 1000000))
            for place in places]


def matrix(name: str, of: List[Entry], rows: int, columns: int) -> bytes:
    return matrix_command(name, matrix_text(rows, columns, of))


def square(name: str, count: int) -> bytes:
    return matrix(name, entries(count), count // 8, count // 8)


def turned(name: str, count: int) -> bytes:
    return matrix(name, sorted((column, row, value) for row, column, value in entries(count)),
                  count // 8, count // 8)


def line(name: str, count: int) -> bytes:
    """One row with all its entries."""
    return matrix(name, [(1, column, column) for column in range(1, count + 1)], 1, count)


def two_lines(name: str, count: int) -> bytes:
    return matrix(name, [(row, column, row) for row in (1, 2) for column in range(1, count + 1)], 2,
                  count)


def column(name: str, count: int) -> bytes:
    """A column with an entry in each row."""
    return matrix(name, [(row, 1, row) for row in range(1, count + 1)], count, 1)


def shuffled(count: int) -> bytes:
    text = matrix_text(count // 8, count // 8, entries(count)).split(b'\n')
    body = text[2:-1]
    random.Random(count).shuffle(body)
    return matrix_command('A', b'\n'.join(text[:2] + body) + b'\n')


def twice(count: int) -> bytes:
    """All positions in random order, and then all of them again: the fault is found once half of
    the lines were read again."""
    text = matrix_text(count // 8, count // 8, entries(count // 2)).split(b'\n')
    chance, body = random.Random(count), text[2:-1]
    size = b'%d %d %d' % (count // 8, count // 8, 2 * len(body))
    return matrix_command('A',
                          b'\n'.join([text[0], size] + chance.sample(body, len(body))
                                     + chance.sample(body, len(body))) + b'\n')


def unusual(count: int) -> bytes:
    """Lines of two blanks among the usual ones, comments, and CR LF."""
    text = matrix_text(count // 8, count // 8, entries(count)).split(b'\n')
    body = [entry if number % 3 else entry.replace(b' ', b'  ', 1) + b'\r\n% more'
            for number, entry in enumerate(text[2:-1])]
    return matrix_command('A', b'\n'.join(text[:2] + body) + b'\n')


def branches(slots: int) -> bytes:
    """An operator full of branches, written back both ways."""
    text = b'mov64 r0, r1\n' + b'jeq64 r1, 0, 1\nadd64 r0, 1\n' * (slots // 2 - 1) + b'exit\n'
    return assembly_command('f', text) + b'dis f\ntypes f\n'


def straight(slots: int) -> bytes:
    return operator_command('f', RESULT_IS_OPERAND + add(1) * (slots - 2) + EXIT)


def few_calls(slots: int) -> bytes:
    """A long operator on so few entries that each is called by itself, many times."""
    few = matrix('A', [(1, column, column) for column in range(1, 7)], 1, 6)
    return straight(slots) + few + b'apply B f A\n' * 40 + b'run\n'


def scattered(rows: int, columns: int, of_row: int) -> List[Entry]:
    """So many entries in each row, at random columns."""
    chance = random.Random(rows)
    return [(row + 1, column + 1, chance.randint(-9, 9)) for row in range(rows)
            for column in sorted(chance.sample(range(columns), of_row))]


def crowded_product(rows: int) -> bytes:
    """A product whose rows have entries in most of their columns, which come in no order."""
    a, b = matrix('A', scattered(rows, 256, 16), rows,
                  256), matrix('B', scattered(256, 1024, 64), 256, 1024)
    return SUM + a + b + b'product C plus plus A B\nrun\n'


def flat_product(rows: int) -> bytes:
    """A product of so many rows with nothing but the last, whose price is that of all its
    chunks."""
    return (SUM + matrix('A', [(rows, 1, 1)], rows, 1) + matrix('B', [(1, 1, 1)], 1, 1)
            + b'product C plus plus A B\nrun\n')


def names(count: int) -> bytes:
    numbers = range(count)
    return b''.join(matrix('n%d' % number, [], 1, 1)
                    for number in numbers) + b''.join(b'show n%d\n' % number for number in numbers)


def many_jobs(count: int) -> bytes:
    """Batches of jobs that are queued together."""
    batch = b''.join(b'apply B%d inc A\n' % number for number in range(50)) + b'run\n'
    return SHORT + matrix('A', [(1, 1, 1)], 1, 1) + batch * (count // 50)


SESSIONS: Dict[str, Tuple[Callable[[int], bytes], int]] = {
    'read, by row': (lambda n: square('A', n), 20000),
    'read, shuffled': (shuffled, 10000),
    'read, unusual lines': (unusual, 10000),
    'read, each position twice': (twice, 10000),
    'read and show': (lambda n: square('A', n) + b'show A\n', 10000),
    'apply, long operator': (lambda n: LONG + square('A', n) + b'apply B long A\nrun\n', 20000),
    'apply by place': (lambda n: PLACE + square('A', n) + b'apply B place A 9\nrun\n', 20000),
    'apply under a mask, one row': (lambda n: SHORT + line('A', n) + line('M', n)
                                    + b'apply B inc A mask M\nrun\n', 10000),
    'select': (lambda n: LOW + square('A', n) + b'select B low A 0\nrun\n', 20000),
    'select from a column': (lambda n: LOW + column('A', n) + b'select B low A 0\n' * 8 + b'run\n',
                             10000),
    'union': (lambda n: SUM + square('A', n) + turned('T',
                                                      n)
              + b'union B plus A T\nunion C plus A A\nrun\n', 10000),
    'both under a mask': (lambda n: SUM + square('A', n) + turned('T', n)
                          + b'both B plus A A mask T\nboth C plus A A mask A\nrun\n', 10000),
    'reduce': (lambda n: SUM + square('A', n) + line('L',
                                                     n)
               + b'reduce B plus A\nreduce C plus L\nrun\n', 10000),
    'product': (lambda n: SUM + square('A', n) + b'product B plus plus A A\nrun\n', 5000),
    'product, long rows': (lambda n: SUM + matrix('I', [(1, 1, 1), (1, 2, 1)], 1,
                                                  2) + two_lines('W', n)
                           + b'product B plus plus I W\nrun\n', 10000),
    'product, crowded rows': (crowded_product, 64),
    'product under a mask': (lambda n: SUM + square('A',
                                                    n) + b'product B plus plus A A mask A\nrun\n',
                             5000),
    'rows with nothing': (lambda n: SHORT + matrix('A', [(n, 1, 1)], n,
                                                   1) + b'apply B inc A\nrun\nshow B\n', 200000),
    'an operator of branches': (branches, 2048),
    'a straight operator': (straight, 2048),
    'few calls of a long operator': (few_calls, 2048),
    'product, rows with nothing': (flat_product, 20000),
    'names': (names, 1000),
    'jobs in batches': (many_jobs, 2000),
    'budget': (lambda n: b'budget\n' * n, 5000),
}
# the sessions with refused commands, by the rules that refuse them
REFUSED: Dict[str, List[bytes]] = {'read, each position twice': [b'M8']}
