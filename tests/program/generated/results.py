"""Cases on results of batches: as operands of every form, as masks, shown, and read again. A result
keeps its cells in lists of 256 rows, while a matrix that was read keeps them in one. So each job
runs on a result of few rows, of 256 rows, and of one row more or less."""
import random
from typing import Callable, Dict, Optional, Tuple

from tests.lib.commands import assembly_command, matrix_command, run_words, show_reply
from tests.lib.runs import Wrong, run_session
from tests.program.generated.graphs import HIGH, LOW, OPERATORS, Matrix, job_of

HEIGHTS = (0, 1, 255, 256, 257, 513)
WORKERS = (1, 3, 64)
COLUMNS, OTHER_COLUMNS = 5, 4
SHARE = 0.3


class Script:
    """The input of a session with its output, and the matrices that its names stand for."""

    def __init__(self) -> None:
        self.input = b''.join(assembly_command(name, each.text, each.kind)
                              for name, each in OPERATORS.items())
        self.output = b''.join(b'ok op %d %d\n' % (each.length, each.length)
                               for each in OPERATORS.values())
        self.names: Dict[str, Matrix] = {}

    def read(self, name: str, matrix: Matrix) -> None:
        self.names[name] = matrix
        self.input += matrix_command(name, matrix.text())
        self.output += b'ok matrix %d %d %d\n' % (matrix.rows, matrix.columns, len(matrix.cells))

    def run(self, words: str, mask: Optional[str] = None) -> None:
        """A batch of one job, whose result is shown, and whose name stands for it from then on."""
        words += '' if mask is None else ' mask ' + mask
        out, job = words.split()[1], job_of(words, self.names)
        found, line = job.matrix, (out, job.matrix.rows, job.matrix.columns, len(job.matrix.cells),
                                   job.steps)
        self.input += words.encode() + b'\nrun\nshow %s\n' % out.encode()
        self.output += b'ok queued 1 %d\nok run 1 %d\n' % (job.price,
                                                           job.steps) + ('%s %d %d %d %d\n'
                                                                         % line).encode()
        self.output += show_reply(found.text())
        self.names[out] = found


def some_matrix(chance: random.Random, rows: int, columns: int) -> Matrix:
    """A matrix with values at three positions in ten, of both signs and all sizes."""
    return Matrix(rows, columns, {(i, j): chance.randrange(LOW, HIGH) >> chance.randrange(64)
                                  for i in range(rows) for j in range(columns) if chance.random()
                                  < SHARE})


def over_results(script: Script, masks: Tuple[Optional[str], Optional[str]]) -> None:
    """A job of each form on the results R and N, the factor C that was read, and results under
    masks, where names of these are given: one of the shape of R, and one of a single column."""
    name, of_one_column = masks
    for words in ('apply X sixth R', 'apply X place R 3', 'select X below R -1',
                  'union X minus R N', 'union X plus R R', 'both X minus N R'):
        script.run(words, name)
    script.run('reduce Y min R', of_one_column)
    script.run('product Z minus times R C')
    script.run('product Z plus times R C', 'Z')
    script.run('product V minus times W R')
    script.run('product V min plus W R', 'V')


def results_of(height: int, chance: random.Random) -> Script:
    """A session over matrices of so many rows."""
    script = Script()
    script.read('A', some_matrix(chance, height, COLUMNS))
    script.read('B', some_matrix(chance, height, COLUMNS))
    script.read('C', some_matrix(chance, COLUMNS, OTHER_COLUMNS))
    script.read('W', some_matrix(chance, OTHER_COLUMNS, height))
    script.run('apply R sixth A')
    script.run('union N plus B B')
    script.run('reduce K plus N')
    over_results(script, (None, None))
    over_results(script, ('N', 'K'))
    # what was shown of a result is read again, and is the same matrix beside the result
    script.read('S', script.names['R'])
    script.run('both X minus S R')
    script.run('union R min R S', 'R')
    return script


def results_as_operands(program: str) -> None:
    """Matrices of 0, 1, 255, 256, 257 and 513 rows; on 1, 3 and 64 workers the bytes are the
    same."""
    chance = random.Random(34)
    entries = 0
    for height in HEIGHTS:
        script = results_of(height, chance)
        entries += len(script.names['R'].cells)
        for workers in WORKERS:
            run_session(program, run_words(workers=workers), script.input, script.output)
    if entries < 1000:
        raise Wrong('the results have only %d entries' % entries)


RESULT_CASES: Dict[str, Callable[[str], None]] = {'results-as-operands': results_as_operands}
