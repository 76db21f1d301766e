"""Products of rows of few entries, whose terms are few beside the columns: several terms at a
column, in the order of A's row, by operators of which any other order shows; under masks; and batch
after batch, of matrices with more and fewer columns. Replies are those of the reference
implementation."""
import random
from typing import Callable, Dict, List, Tuple

from tests.lib.commands import assembly_command, matrix_command, matrix_text
from tests.program.generated.known import run_as_reference

Entries = List[Tuple[int, int, int]]
SIZES = (300, 70000, 40000, 300000)
BATCHES = 24
OPERATORS = {'plus': b'add64 r0, r2\n', 'minus': b'sub64 r0, r2\n',
             'odd': b'mul64 r0, 3\nadd64 r0, r2\nlsh64 r0, 1\nxor64 r0, r2\n'}


def graph(rng: random.Random, rows: List[int], columns: List[int], side: int) -> Entries:
    """Rows that are named, of one entry to ninety, most of them in columns that others have too."""
    places = {(row, rng.choice(columns) if rng.random() < 0.6
               else rng.randrange(1, side + 1)): rng.randrange(1 << 40)
              for row in rows for _ in range(rng.choice((1, 3, 20, 90)))}
    return [(row, column, value) for (row, column), value in sorted(places.items())]


def left(rng: random.Random, count: int, rows: List[int]) -> Entries:
    return [(i, k, rng.randrange(1 << 40)) for i in range(1, count + 1)
            for k in sorted(rng.sample(rows, rng.choice((0, 1, 2, 7, 40))))]


def products_of_few_terms(program: str) -> None:
    rng = random.Random(57)
    given = b''.join(assembly_command(name, b'mov64 r0, r1\n' + text + b'exit\n', 'binary')
                     for name, text in OPERATORS.items())
    rows, columns = {}, {}
    for side in SIZES:
        rows[side] = sorted(rng.sample(range(1, side + 1), 60))
        columns[side] = rng.sample(range(1, side + 1), 40)
        given += matrix_command('G%d' % side,
                                matrix_text(side, side,
                                            graph(rng, rows[side], columns[side], side)))
    for _ in range(BATCHES):
        side, count = rng.choice(SIZES), rng.choice((1, 2, 5))
        given += matrix_command('A', matrix_text(count, side, left(rng, count, rows[side])))
        job = 'product P %s %s A G%d' % (rng.choice(list(OPERATORS)), rng.choice(list(OPERATORS)),
                                         side)
        if rng.random() < 0.4:
            stored = sorted({(i, rng.choice(columns[side])) for i in range(1, count + 1)
                             for _ in range(15)})
            given += matrix_command('M', matrix_text(count, side, [(i, j, 1) for i, j in stored]))
            job += ' mask M'
        given += job.encode() + b'\nrun\nshow P\n'
    run_as_reference(program, given, b'ok run 1 ', BATCHES)


FEW_TERMS_CASES: Dict[str, Callable[[str], None]] = {
    'products-of-few-terms': products_of_few_terms,
}
