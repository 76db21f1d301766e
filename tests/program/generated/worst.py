"""What costs a server most for what a client sends, with bounds on memory and processor time.
`bench/costs` finds such sessions."""
from typing import Callable, Dict

from tests.lib.commands import (INCREMENT, assembly_command, matrix_command, matrix_text,
                                operator_command)
from tests.lib.costs import Cost, cost_of
from tests.lib.limits import MEGABYTE, MOST_SIDE, MOST_WORKERS
from tests.lib.runs import Wrong, expect

# 8 for a result's row, and the pieces of chunks that wait to be joined
ROW_BYTES = 13
# the program itself, and the stacks of so many threads
BESIDE = 24 * MEGABYTE

OPERATORS = b''.join([operator_command('inc', INCREMENT),
                      assembly_command('plus', b'mov64 r0, r1\nadd64 r0, r2\nexit\n', 'binary'),
                      assembly_command('all', b'mov64 r0, 1\nexit\n', 'index')])


def matrix(name: str, rows: int, columns: int, *entries) -> bytes:
    return matrix_command(name, matrix_text(rows, columns, list(entries)))


def within(what: str, cost: Cost, seconds: float, peak: int) -> None:
    """A session took no more than this, and nothing of it was refused."""
    expect('refusals of ' + what, [], cost.refusals)
    if cost.seconds > seconds or cost.peak > peak:
        raise Wrong('%s: %.2f s of the processor and %d MB, above %.2f s or %d MB'
                    % (what, cost.seconds, cost.peak // MEGABYTE, seconds, peak // MEGABYTE))


def product_of_one_term(program: str) -> None:
    """300 bytes, a price of 6 and one multiplication, into rows of 16,777,216 columns: at most half
    a second, and 40 MB more with 64 workers than with one, which holds no row of the result's
    width."""
    operands = matrix('A', 16384, 1, (16384, 1, 1)) + matrix('G', 1, MOST_SIDE, (1, MOST_SIDE, 1))
    session = operands + OPERATORS + b'product R plus plus A G\nrun\n'
    one = cost_of(program, session)
    within('one worker', one, 0.5, BESIDE)
    within('64 workers', cost_of(program, session, MOST_WORKERS), 0.5, one.peak + 40 * MEGABYTE)


def products_of_few_terms(program: str) -> None:
    """Products whose rows have few terms beside the columns, of many rows and under a mask, on 64
    workers."""
    rows = 65536
    places = [(row, 1, 1) for row in range(1, rows + 1, 97)]
    session = matrix('A', rows, 1, *places) + matrix('G', 1, MOST_SIDE, (1, 1, 1),
                                                     (1, MOST_SIDE, 1)) + OPERATORS
    session += matrix('M', rows, MOST_SIDE, *[(row, MOST_SIDE, 1) for row, _, _ in places])
    session += b'product R plus plus A G\nproduct S plus plus A G mask M\nrun\n'
    within('two products', cost_of(program, session, MOST_WORKERS), 1, BESIDE + 64 * MEGABYTE)


def jobs_over_empty_rows(program: str) -> None:
    """Each form over 1,048,576 rows with one entry, 64 jobs in a batch: so many bytes a row for the
    matrix and each result."""
    rows = 1 << 20
    for job in (b'apply B%d inc A', b'select B%d all A 0', b'union B%d plus A A',
                b'both B%d plus A A mask A', b'reduce B%d plus A'):
        session = matrix('A', rows, 1,
                         (1, 1, 1)) + OPERATORS + b''.join(job % number + b'\n'
                                                           for number in range(64)) + b'run\n'
        within(job.decode(), cost_of(program, session, 2), 20, 65 * rows * ROW_BYTES + BESIDE)


def matrices_of_nothing(program: str) -> None:
    """10,000 matrices without rows bound under one name and shown, and as many names."""
    again = matrix('A', 0, 0) + b'show A\n'
    within('one name', cost_of(program, again * 10000), 1, BESIDE)
    names = b''.join(matrix('n%d' % number, 0, 0) for number in range(10000))
    within('10,000 names', cost_of(program, names), 2, BESIDE)


WORST_CASES: Dict[str, Callable[[str], None]] = {
    'worst: product-of-one-term': product_of_one_term,
    'worst: products-of-few-terms': products_of_few_terms,
    'worst: jobs-over-empty-rows': jobs_over_empty_rows,
    'worst: matrices-of-nothing': matrices_of_nothing,
}
