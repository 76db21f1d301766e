"""Sessions whose texts are one line many times over, made here in place of being kept in
tests/cases.

Some were worked by hand against the specification. They are checked by the digests of their bytes,
so that what is made is what was worked. The others are products by columns, whose replies are those
of the reference implementation in Python (reference).
"""
import functools
import hashlib
import subprocess
import sys
from typing import Callable, Dict, Iterable, List, NamedTuple, Tuple

from tests.lib.commands import (EXIT, INCREMENT, RESULT_IS_OPERAND, instruction, matrix_command,
                                matrix_text, operator_command, run_words, show_reply)
from tests.lib.limits import MOST_SLOTS, MOST_STEPS
from tests.lib.paths import PLAIN_SERVER
from tests.lib.patience import FOR_A_SESSION
from tests.lib.runs import run_session

Entry = Tuple[int, int, int]
# the square of it is the most multiplications of a product
SIDE = 4096
WORKERS = (1, 3, 64)


class LongSession(NamedTuple):
    """What a session is given, the replies that it has to get, and the settings that it runs
    with."""
    given: bytes
    wanted: bytes
    steps: int = MOST_STEPS
    workers: int = 1

    @property
    def digest(self) -> str:
        """The first 16 digits of SHA-256 of both texts."""
        return hashlib.sha256(b'%d %d\n' % (len(self.given), len(self.wanted)) + self.given
                              + self.wanted).hexdigest()[:16]


# -- sessions that were worked by hand

LINE = b'mov64 r0, 0\n'


def assembly(text: bytes, reply: bytes) -> LongSession:
    """One text of assembly; this command has an empty line behind its body."""
    return LongSession(b'asm a unary %d\n' % len(text) + text + b'\n', reply)


def copies(count: int) -> bytes:
    """The code of an operator of so many instructions that gives its first operand."""
    return RESULT_IS_OPERAND * (count - 1) + EXIT


def full_column(rows: int) -> bytes:
    return matrix_text(rows, 1, [(row, 1, 1) for row in range(1, rows + 1)])


def matrices(rows: int) -> Tuple[bytes, bytes]:
    """A full column A, a full row B of 4,096 columns, and the operator `mul`, whose product has
    rows * 4096 terms."""
    given = matrix_command('A', full_column(rows)) + b'\n'
    given += matrix_command('B',
                            matrix_text(1, SIDE,
                                        [(1, column, 1) for column in range(1, SIDE + 1)])) + b'\n'
    return given, b'ok matrix %d 1 %d\nok matrix 1 4096 4096\n' % (rows, rows)


TIMES = RESULT_IS_OPERAND + instruction(0x2f, 0, 2) + EXIT


def outer(rows: int, instructions: int, jobs: bytes, replies: bytes,
          steps: int = MOST_STEPS) -> LongSession:
    """Jobs on these matrices and `mul`, with an operator `add` of so many instructions."""
    given, wanted = matrices(rows)
    given += operator_command('mul', TIMES,
                              'binary') + operator_command('add', copies(instructions), 'binary')
    return LongSession(given + jobs,
                       wanted + b'ok op 3 3\nok op %d %d\n' % (instructions, instructions)
                       + replies, steps)


def mask_before_later_rules() -> LongSession:
    """A mask of the wrong shape is told before an operator that is too long, and before shapes only
    where those fit."""
    given, wanted = matrices(SIDE + 1)
    for name, code in (('mul', TIMES), ('add', copies(3)), ('long', copies(4001))):
        given += operator_command(name, code, 'binary')
    given += (b'product C add mul A B\nproduct C add mul A B mask A\nproduct C add mul A B mask '
              b'B\nproduct C long mul B A mask A\n'
              b'product C mul mul B A mask B\nproduct C mul mul B A\n')
    return LongSession(given,
                       wanted + b'ok op 3 3\nok op 3 3\nok op 4001 4001\nno J7\nno J9\nno J9\nno '
                       b'J5\nno J5\nno J5\n', 5)


def mask_cuts_terms() -> LongSession:
    """A product of too many terms is one of few where its mask stores one position."""
    given, wanted = matrices(SIDE + 1)
    given += matrix_command('M', matrix_text(SIDE + 1, SIDE, [(7, 9, 1)])) + b'\n'
    given += matrix_command('N', matrix_text(SIDE + 1, SIDE - 1, [])) + b'\n'
    given += operator_command('mul', TIMES, 'binary') + operator_command('add', copies(3), 'binary')
    given += (
        b'product C add mul A B\nproduct C add mul A B mask M\nproduct C add mul A B mask N\nrun\n')
    wanted += b'ok matrix 4097 4096 1\nok matrix 4097 4095 0\nok op 3 3\nok op 3 3\n'
    return LongSession(given,
                       wanted + b'no J7\nok queued 1 24576\nno J9\nok run 1 3\nC 4097 4096 1 3\n')


def diagonal_of_600(workers: int) -> LongSession:
    """The chunks of 600 rows, shared by workers."""
    rows = range(1, 601)
    given = matrix_command('A', matrix_text(600, 600, [(row, row, row) for row in rows])) + b'\n'
    given += operator_command('inc', INCREMENT) + b'apply B inc A\nrun\nshow B\n'
    wanted = (
        b'ok matrix 600 600 600\nok op 3 3\nok queued 1 1800\nok run 1 1800\nB 600 600 600 1800\n')
    return LongSession(given,
                       wanted
                       + show_reply(matrix_text(600, 600, [(row, row, row + 1) for row in rows])),
                       workers=workers)


PRODUCT = b'product C add mul A B\n'

WORKED: Dict[str, Tuple[str, Callable[[], LongSession]]] = {
    'assembly-of-4096-slots': ('298bacc3e42dc511',
                               lambda: assembly(b'\n' + LINE * (MOST_SLOTS - 1) + b'exit\n',
                                                b'ok op 4096 4096\n')),
    'assembly-passes-4096-slots': ('fd2345e64706b0db',
                                   lambda: assembly(LINE * MOST_SLOTS + b'exit\n',
                                                    b'no A6 4097\n')),
    'assembly-lower-rule-where-slots-are-passed': ('24afb3c02529a3ac',
                                                   lambda: assembly(LINE * MOST_SLOTS
                                                                    + b'mov64 r0\n',
                                                                    b'no A3 4097\n')),
    'assembly-wide-load-passes-4096-slots': (
        'ebc0b8248b189b16', lambda: assembly(LINE * (MOST_SLOTS - 1) + b'wide r0, 0\nexit\n',
                                             b'no A6 4096\n')),
    'product-price-at-the-limit': ('f78286f3a7ca61da', lambda: outer(
        SIDE, 253, PRODUCT + b'budget\n',
        b'ok queued 1 4294967296\nok budget 4611686014132420608 4294967296 0\n')),
    'product-price-above-the-limit': ('d67caf26df29f5a6', lambda: outer(
        SIDE, 254, PRODUCT + b'budget\n', b'no J8\nok budget 4611686018427387904 0 0\n')),
    'product-price-above-limit-before-allowance': ('f466eb7753150fae',
                                                   lambda: outer(SIDE, 254, PRODUCT, b'no J8\n',
                                                                 5)),
    'product-of-too-many-terms': ('8614dba6b5848a8f',
                                  lambda: outer(SIDE + 1, 253, PRODUCT, b'no J7\n')),
    'product-of-too-many-terms-before-its-price': ('bc9a30448f17fa17', lambda: outer(
        SIDE + 1, 254, PRODUCT + b'product C add mul B B\n', b'no J7\nno J5\n')),
    'mask-of-wrong-shape-before-the-price': ('d657f3d39322a02d', lambda: outer(
        SIDE, 254,
        PRODUCT
        + b'product C add mul A B mask A\nreduce R mul A\nreduce R mul B\nreduce R mul B mask B\n',
        b'no J8\nno J9\nok queued 1 0\nno S8 12285 5\nno J9\n', 5)),
    'mask-of-wrong-shape-before-later-rules': ('db72db14de7201a5', mask_before_later_rules),
    'mask-cuts-terms-of-product': ('5b6b2817bd0a4cab', mask_cuts_terms),
    **{'apply-to-600-rows-by-%d-worker%s' % (workers, 's' * (workers > 1)):
       ('b60013e788b77cf1', functools.partial(diagonal_of_600, workers)) for workers in WORKERS},
}


# -- products by a column, with replies by the reference implementation

OPERATORS = (('plus', 'binary', RESULT_IS_OPERAND + instruction(0x0f, 0, 2) + EXIT),
             ('mul', 'binary', TIMES),
             ('minus', 'binary', RESULT_IS_OPERAND + instruction(0x1f, 0, 2) + EXIT),
             ('odd', 'binary',
              RESULT_IS_OPERAND + instruction(0x1f, 0, 2) + instruction(0xa7, 0, immediate=85)
              + EXIT),
             ('inc', 'unary', INCREMENT),
             ('but', 'index', instruction(0xb7, 0, immediate=1) + instruction(0x5d, 2, 4, offset=1)
              + instruction(0xb7, 0) + EXIT))
PAIRS = (('C1', 'plus', 'mul'), ('C2', 'minus', 'mul'), ('C3', 'odd', 'odd'), ('C4', 'plus', 'odd'))


def value(number: int) -> int:
    """A value of either sign and up to four digits, of which the next number has another."""
    return number * 573 % 2003 - 1001


def column(rows: int, stored: Iterable[int]) -> bytes:
    return matrix_text(rows, 1, [(row, 1, value(row)) for row in stored])


def products(operand: str, mask: str = '') -> bytes:
    """A batch of A times a column, by operators for which the order of terms shows and by such for
    which it doesn't."""
    jobs = ''.join('product %s %s %s A %s%s\n' % (name, add, mul, operand, mask and ' mask ' + mask)
                   for name, add, mul in PAIRS)
    return (jobs + 'run\n' + ''.join('show %s\n' % name for name, _, _ in PAIRS)).encode()


def uneven_rows() -> List[Entry]:
    """Seven rows of 300 columns: all, 64 and 65 in a row (groups of calls have 64), none, the last
    alone, and one or two early ones."""
    stored = {1: range(1, 301), 2: range(41, 105), 3: range(41, 106), 5: (300,), 6: (6,), 7: (6, 7)}
    return [(row, at, value(row * 301 + at)) for row, columns in stored.items() for at in columns]


def by_columns(matrix: bytes, *rest: bytes) -> bytes:
    """What a session is given: operators, A, and what follows."""
    uploads = b''.join(operator_command(name, code, kind) for name, kind, code in OPERATORS)
    return uploads + matrix_command('A', matrix) + b''.join(rest)


def by_the_plain_server(given: bytes, workers: int = 1) -> LongSession:
    done = subprocess.run([sys.executable, PLAIN_SERVER] + run_words(workers=workers), input=given,
                          stdout=subprocess.PIPE, check=True, timeout=FOR_A_SESSION)
    return LongSession(given, done.stdout, workers=workers)


def uneven_by(*rest: bytes) -> LongSession:
    return by_the_plain_server(by_columns(matrix_text(7, 300, uneven_rows()), *rest))


def by_one_column(stored: Iterable[int]) -> LongSession:
    """A column as it was read, and as the result of a job."""
    return uneven_by(matrix_command('B', column(300, stored)), products('B'),
                     b'apply F inc B\nrun\n', products('F'))


def by_a_column_full_but_one() -> LongSession:
    """A column that lacks one entry of 300: results that leave out row 6 or the last, and one that
    was read without row 6."""
    without_six = column(300, (row for row in range(1, 301) if row != 6))
    return uneven_by(matrix_command('B', column(300, range(1, 301))),
                     b'apply F inc B\nrun\nselect G but F 5\nselect H but F 299\nrun\n',
                     products('G'), products('H'), matrix_command('W', without_six), products('W'))


def masked_by_a_column() -> LongSession:
    """Masks that store some rows, none, and all; columns that are full, and that store every other
    row."""
    some, every = [(1, 1, 0), (3, 1, 1), (4, 1, 1),
                   (7, 1, -1)], [(row, 1, row - 1) for row in range(1, 8)]
    return uneven_by(matrix_command('B', column(300, range(1, 301))),
                     matrix_command('M', matrix_text(7, 1, some)), products('B', 'M'),
                     matrix_command('Z', matrix_text(7, 1, [])), products('B', 'Z'),
                     matrix_command('V', column(300, range(2, 301, 2))), products('V', 'M'),
                     matrix_command('U', matrix_text(7, 1, every)), b'apply U inc U\nrun\n',
                     products('V', 'U'))


def by_a_column_of_600(workers: int) -> LongSession:
    """600 rows of two entries, and one of 121, by a column without row 258: chunks of 600 rows,
    shared by workers."""
    stored = {row: sorted({row, (7 * row - 6) % 600 + 1}) for row in range(1, 601)}
    stored[301] = [*range(1, 600, 5), 600]
    matrix = matrix_text(600, 600,
                         [(row, at, value(row * 601 + at)) for row, columns in stored.items()
                          for at in columns])
    return by_the_plain_server(by_columns(matrix,
                                          matrix_command('B',
                                                         column(600,
                                                                (row for row in range(1, 601)
                                                                 if row != 258))),
                                          b'apply F inc B\nrun\n', products('F')), workers)


BY_COLUMNS: Dict[str, Callable[[], LongSession]] = {
    'product-by-a-full-column': lambda: by_one_column(range(1, 301)),
    'product-by-half-a-column': lambda: by_one_column(range(2, 301, 2)),
    'product-by-a-column-full-but-one': by_a_column_full_but_one,
    'masked-product-by-a-column': masked_by_a_column,
    **{'product-by-a-column-on-%s-worker%s' % (word,
                                               's' * (workers > 1)): functools.partial(
                                                   by_a_column_of_600, workers)
       for workers, word in zip(WORKERS, ('one', 'three', '64'))},
}


def worked(name: str) -> LongSession:
    """A session that was worked by hand. ValueError where what is made has other bytes than what
    was worked."""
    digest, make = WORKED[name]
    made = make()
    if made.digest != digest:
        raise ValueError('%s has the digest %s, not %s' % (name, made.digest, digest))
    return made


LONG_SESSIONS: Dict[str, Callable[[], LongSession]] = {**{name: functools.partial(worked, name)
                                                          for name in WORKED}, **BY_COLUMNS}


def case(make: Callable[[], LongSession]) -> Callable[[str], None]:
    """The session as a case of a program on its standard streams."""
    def run(program: str) -> None:
        session = make()
        run_session(program, run_words(session.steps, session.workers), session.given,
                    session.wanted)
    return run


LONG_CASES: Dict[str, Callable[[str], None]] = {name: case(make)
                                                for name, make in LONG_SESSIONS.items()}
