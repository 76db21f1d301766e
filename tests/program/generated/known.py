"""Jobs of each form with operators that the program recognises by their code, and with operators
that are nearly such: another register, another order, another width, one more instruction, a jump
over two. Values and steps are those of the reference implementation in Python (reference)."""
import subprocess
import sys
from typing import Callable, Dict, Iterator

from reference.instructions import SPELLINGS
from tests.lib.commands import assembly_command, matrix_command, matrix_text, run_words
from tests.lib.paths import PLAIN_SERVER
from tests.lib.patience import FOR_A_SESSION
from tests.lib.runs import Wrong, run_session
from tests.program.generated.sizes import many_entries

BY_NUMBER = [each for each in SPELLINGS if each.bits == 64 and {'dst', 'imm'} <= set(each.fields)]
OPERATIONS = [each.action for each in BY_NUMBER if each.group == 'arithmetic']
# Numbers whose sign is extended, or whose width is at its end.
NUMBERS = (0, 1, -7, -2147483648, 2147483647)
CONDITIONS = [each.action[1:] for each in BY_NUMBER if each.group == 'jump']


def numbers() -> Iterator[str]:
    """Texts of operators of any kind that give a number, or nearly do."""
    for number in NUMBERS:
        yield 'mov64 r0, %d\nexit\n' % number
        yield 'mov32 r0, %d\nexit\n' % number
        yield 'mov64 r0, 9\nmov64 r0, %d\nexit\n' % number


def alterations(register: str) -> Iterator[str]:
    """Texts of operators that alter what a register has, by a number or alone, or nearly do."""
    move = 'mov64 r0, %s\n' % register
    yield move + 'exit\n'
    yield 'mov32 r0, %s\nexit\n' % register
    yield move + 'neg64 r0\nexit\n'
    yield move + 'neg32 r0\nexit\n'
    yield 'neg64 %s\n%sexit\n' % (register, move)
    for name in OPERATIONS:
        yield move + '%s64 r0, %s\nexit\n' % (name, register)
        yield move + '%s64 r0, 3\nexit\n' % name
        for number in NUMBERS:
            yield move + '%s64 r0, %d\nexit\n' % (name, number)
        yield move + '%s32 r0, -7\nexit\n' % name
        yield move + '%s64 %s, 3\nexit\n' % (name, register)
        yield move + '%s64 r0, 3\n%s64 r0, -7\nexit\n' % (name, name)


def conditions(left: str, right: str) -> Iterator[str]:
    """Texts of operators that tell by 1 or 0 whether a condition of two registers holds, or nearly
    do."""
    for name in CONDITIONS:
        for width in (64, 32):
            yield 'mov64 r0, 1\nj%s%d %s, %s, 1\nmov64 r0, 0\nexit\n' % (name, width, left, right)
        yield 'mov64 r0, 0\nj%s64 %s, %s, 1\nmov64 r0, 1\nexit\n' % (name, left, right)
        yield 'mov64 r0, 1\nj%s64 r0, %s, 1\nmov64 r0, 0\nexit\n' % (name, right)
        yield 'mov64 r0, 1\nj%s64 %s, 0, 1\nmov64 r0, 0\nexit\n' % (name, left)
        yield 'mov64 r0, 1\nj%s64 %s, %s, 2\nmov64 r0, 0\nadd64 r0, 2\nexit\n' % (name, left, right)


def pairings(first: str, other: str) -> Iterator[str]:
    """Texts of operators on what two registers have, the first of which is moved, and of some that
    nearly are."""
    move = 'mov64 r0, %s\n' % first
    for name in OPERATIONS:
        yield move + '%s64 r0, %s\nexit\n' % (name, other)
        yield move + '%s32 r0, %s\nexit\n' % (name, other)
        yield move + '%s64 r0, %s\nadd64 r0, 1\nexit\n' % (name, other)
        yield 'mov64 r3, %s\n%s64 r3, %s\nmov64 r0, r3\nexit\n' % (first, name, other)
    for name in CONDITIONS:
        for left, right in ((first, other), (other, first), ('r0', other), (other, 'r0'),
                            (first, first)):
            yield move + 'j%s64 %s, %s, 1\nmov64 r0, %s\nexit\n' % (name, left, right, other)
            yield move + 'j%s32 %s, %s, 1\nmov64 r0, %s\nexit\n' % (name, left, right, other)
        yield move + 'j%s64 %s, %s, 1\nmov64 r0, 7\nexit\n' % (name, first, other)
        yield move + 'j%s64 %s, %s, 2\nmov64 r0, %s\nadd64 r0, 1\nexit\n' % (name, first, other,
                                                                             other)


def operators() -> Iterator[str]:
    """Assembly texts of binary operators, each in the spellings that are known and in some that are
    not."""
    yield from numbers()
    for first, other in (('r1', 'r2'), ('r2', 'r1')):
        yield from alterations(first)
        yield from pairings(first, other)
        yield from conditions(first, other)


def unary_operators() -> Iterator[str]:
    """The same of unary operators."""
    yield from numbers()
    yield from alterations('r1')
    yield from conditions('r1', 'r1')


def index_operators() -> Iterator[str]:
    """The same of index operators: on two of their operands, and behind moves that bind one of a
    pair to the number."""
    yield from numbers()
    for register in ('r1', 'r4'):
        yield from alterations(register)
    for first, other in (('r1', 'r4'), ('r4', 'r2'), ('r3', 'r4'), ('r2', 'r3')):
        yield from pairings(first, other)
        yield from conditions(first, other)
    for moves in ('mov64 r2, r4\n', 'mov64 r2, r1\nmov64 r1, r4\n', 'mov64 r1, r4\n',
                  'mov64 r1, r4\nmov64 r2, r1\n', 'mov32 r2, r4\n'):
        for text in (*numbers(), *alterations('r1'), *pairings('r2', 'r1'),
                     *conditions('r1', 'r2')):
            if text.endswith(('r0\nexit\n', 'r1\nexit\n', '-7\nexit\n', '0\nexit\n')):
                yield moves + text


def folds_by_known_operators(program: str) -> None:
    """Each operator reduces rows of no entry, of one, and of up to thirty, with values of both
    signs and all lengths."""
    entries = [entry for entry in many_entries(300, 30) if entry[1] <= entry[0]
               * 3] + [(12, 1, 5), (13, 1, -1), (13, 2, 0)]
    given = matrix_command('A', matrix_text(14, 30, entries))
    assemblies = 0
    for text in operators():
        given += assembly_command('f', text.encode(), 'binary') + b'reduce R f A\nrun\nshow R\n'
        assemblies += 1
    run_as_reference(program, given, b'ok run 1 ', assemblies)


def products_by_known_operators(program: str) -> None:
    """Each operator adds, multiplies, and does both under a mask and where terms are few beside the
    columns. The first factor has rows of no entry, of one, and of up to six; the second a row of no
    entry, and one of more entries than are called together."""
    factor = [(2, 3, -7), (3, 1, 5), (3, 4, 1 << 40), (4, 3, 0), (4, 5, -1),
              (4, 6, 3)] + [(5, k, k * k - 9) for k in range(1, 7)]
    second = [(k, j, value) for k, j, value in many_entries(40, 10)
              if j % 4 != k % 4] + [(6, j, j - 35) for j in range(1, 71)]
    wide = [(k, j * 9973 + k * (k % 2), value) for k, j, value in many_entries(18, 3)]
    mask = [(i, j, 1) for i in (2, 4, 5) for j in range(i, 71, 3)]
    given = assembly_command('plus', b'mov64 r0, r1\nadd64 r0, r2\nexit\n', 'binary')
    given += assembly_command('times', b'mov64 r0, r1\nmul64 r0, r2\nexit\n', 'binary')
    for name, rows, columns, entries in (('A', 5, 6, factor), ('B', 6, 70, second),
                                         ('W', 6, 100000, wide), ('K', 5, 70, mask)):
        given += matrix_command(name, matrix_text(rows, columns, entries))
    assemblies = 0
    for text in operators():
        given += assembly_command('f', text.encode(), 'binary')
        given += (
            b'product P f times A B\nproduct Q plus f A B\nproduct R f f A B mask K\nproduct S '
            b'f f A W\nrun\n')
        given += b'show P\nshow Q\nshow R\nshow S\n'
        assemblies += 1
    run_as_reference(program, given, b'ok run 4 ', assemblies)


def jobs_by_known_operators(program: str) -> None:
    """Each binary operator in unions and intersections, each unary one in an apply, and each index
    one in an apply and a select, with so few calls together that none are made in lanes, and with
    as many as are gathered. The number of an index operator has both signs."""
    entries = [entry for entry in many_entries(90, 30) if entry[1] <= entry[0] * 12]
    few = [(1, 2, 5), (1, 3, -7), (2, 4, 0), (2, 5, 9), (3, 5, 1 << 40), (3, 6, -1)]
    given = b''.join(matrix_command(name, matrix_text(3, 30, matrix))
                     for name, matrix in (('A', entries), ('B', few)))
    assemblies = 0
    forms = {'binary': ('union %s f A B', 'union %s f A A', 'both %s f A B', 'both %s f A A'),
             'unary': ('apply %s f A', 'apply %s f B'),
             'index': ('apply %s f A 4', 'apply %s f B -7', 'select %s f A 3')}
    for kind, texts in (('binary', operators()), ('unary', unary_operators()),
                        ('index', index_operators())):
        names = ['R%d' % number for number in range(len(forms[kind]))]
        for text in texts:
            given += assembly_command('f', text.encode(), kind)
            given += ''.join(form % name + '\n'
                             for form, name in zip(forms[kind], names)).encode() + b'run\n'
            given += ''.join('show %s\n' % name for name in names).encode()
            assemblies += 1
    run_as_reference(program, given, b'ok run ', assemblies)


def run_as_reference(program: str, given: bytes, ran: bytes, times: int) -> None:
    """The program replies to a session what the reference does, which ran so many times."""
    done = subprocess.run([sys.executable, PLAIN_SERVER] + run_words(), input=given,
                          stdout=subprocess.PIPE, check=True, timeout=FOR_A_SESSION)
    if done.stdout.count(ran) != times:
        raise Wrong('the reference ran %d of %d operators' % (done.stdout.count(ran), times))
    run_session(program, run_words(), given, done.stdout)


KNOWN_CASES: Dict[str, Callable[[str], None]] = {
    'folds-by-known-operators': folds_by_known_operators,
    'products-by-known-operators': products_by_known_operators,
    'jobs-by-known-operators': jobs_by_known_operators,
}
