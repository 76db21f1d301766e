"""Cases about memory in use: bytes for each form of job, for many operators, for rows, for texts
that announce more than they contain, and after a text was shown; and the allocations of a batch.
figures.txt has their bounds."""
from typing import Callable, Dict, List, NamedTuple, Tuple

from tests.lib.commands import (BANNER, INCREMENT, assembly_command, matrix_command, matrix_text,
                                operator_command, run_words)
from tests.lib.figures import BYTES, REQUESTS, look_at
from tests.lib.runs import expect
from tests.lib.witness import Witness
from tests.program.generated.sizes import many_entries, most_held

COUNT = 30000
SIDE = 200
MANY_OPERATORS = 10000
MANY_ROWS = 1 << 22

OPERATORS = b''.join([
    operator_command('inc', INCREMENT),
    assembly_command('plus', b'mov64 r0, r1\nadd64 r0, r2\nexit\n', 'binary'),
    assembly_command('second', b'mov64 r0, r2\nexit\n', 'binary'),
    assembly_command('all', b'mov64 r0, 1\nexit\n', 'index'),
    assembly_command('odd', b'mov64 r0, r3\nand64 r0, 1\nexit\n', 'index')])

JOBS = [
    'apply B inc A', 'apply B all A 0', 'select B all A 0', 'select B odd A 0', 'union B plus A A',
    'union B plus A T', 'both B plus A A', 'both B plus A T', 'product B plus second F D',
    'product B plus plus A T', 'reduce B plus A', 'apply B inc A mask T', 'select B all A 0 mask T',
    'union B plus A T mask A', 'both B plus A T mask A', 'product B plus plus A T mask A',]


class Held(NamedTuple):
    """A session, what its bytes are counted by, how many commands are refused, the status that it
    ends with, and its workers."""
    what: str
    session: bytes
    units: int
    refused: int = 0
    status: int = 0
    workers: int = 1


def operands() -> bytes:
    """A of 30,000 entries, T of as many elsewhere, and F and D, whose product has as many
    multiplications."""
    places = sorted((entry * 7919) % (SIDE * SIDE) for entry in range(COUNT))
    a = [(place // SIDE + 1, place % SIDE + 1, place - COUNT // 2) for place in places]
    t = sorted((column, row, value) for row, column, value in a)
    few = [(row, column, row * column) for row in range(1, SIDE + 1) for column in range(1, 13)]
    flat = [(row, column, row + column) for row in range(1, 13) for column in range(1, 13)]
    return b''.join([matrix_command('A', matrix_text(SIDE, SIDE, a)),
                     matrix_command('T', matrix_text(SIDE, SIDE, t)),
                     matrix_command('F', matrix_text(SIDE, 12, few)),
                     matrix_command('D', matrix_text(12, 12, flat)), OPERATORS])


def job_sessions() -> List[Held]:
    """Each form with its operands, by an entry of A."""
    start = operands()
    return [Held(job, start + job.encode() + b'\nrun\n', COUNT) for job in JOBS]


def size_sessions() -> List[Held]:
    """What is counted by operators, by rows, by entries that were shown, and as a whole."""
    operators = b''.join(operator_command('n%d' % number, INCREMENT)
                         for number in range(MANY_OPERATORS))
    rows = matrix_command('A', matrix_text(MANY_ROWS, 1, [(1, 1, 1)])) + OPERATORS
    promised = BANNER + b'16777216 16777216 16777216\n1 1 1\n'
    large = matrix_text(SIDE, 150, many_entries(COUNT))
    return [
        Held('an operator of three slots', operators, MANY_OPERATORS),
        Held('a row that is mapped', rows + b'apply B inc A\nrun\n', MANY_ROWS),
        Held('a row that is mapped four times',
             rows + b'apply B inc A\napply C inc A\napply D inc A\napply E inc A\nrun\n',
             MANY_ROWS),
        Held('a row that is mapped in four batches, whose results share where rows start',
             rows
             + b'apply B inc A\nrun\napply C inc A\nrun\napply D inc A\nrun\napply E inc A\nrun\n',
             MANY_ROWS), Held('a row that is selected from, joined and reduced',
                              rows + b'select B all A 0\nunion C plus A A\nreduce D plus A\nrun\n',
                              MANY_ROWS),
        Held('a text that declares 16,777,216 entries and has one',
             OPERATORS + matrix_command('A', promised), 1, 1),
        Held('a body of 268,435,456 bytes of which one comes', OPERATORS + b'matrix A 268435456\n%',
             1, 1, 3), Held('an entry that is shown, and mapped behind that',
                            matrix_command('A', large) + OPERATORS
                            + b'show A\napply B inc A\nrun\n', COUNT),
        Held('an entry that is shown, and another that is read behind that',
             matrix_command('A', large) + b'show A\n' + matrix_command('B', large), COUNT),]


def long_rows() -> Held:
    """Eight chunks, each with one row that names all rows of B, on as many workers: what each keeps
    for a row of the result goes by its columns, and not by the multiplications, of which there are
    as many as B has entries."""
    named, columns = 64, 4096
    a = [(chunk * 256 + 1, row, 1) for chunk in range(8) for row in range(1, named + 1)]
    b = [(row, column, 1) for row in range(1, named + 1) for column in range(1, columns + 1)]
    session = matrix_command('A',
                             matrix_text(2048, named,
                                         a)) + matrix_command('B',
                                                              matrix_text(named, columns,
                                                                          b)) + OPERATORS
    return Held('an entry that eight workers multiply',
                session + b'product C plus second A B\nrun\n', len(b), workers=8)


def bytes_of(program: str, sessions: List[Held]) -> List[Tuple[str, float]]:
    with Witness() as witness:
        return [(each.what, most_held(witness, program, each.session, each.refused, each.status,
                                      each.workers) / each.units) for each in sessions]


def all_bytes(program: str) -> List[Tuple[str, float]]:
    return bytes_of(program, job_sessions() + size_sessions() + [long_rows()])


def all_requests(program: str) -> List[Tuple[str, float]]:
    """How many requests for memory a batch of each form makes, beyond those of its session without
    `run`."""
    found, start = [], operands()
    with Witness() as witness:
        for job in JOBS:
            counts = []
            for end in (b'', b'run\n'):
                done, count = witness.run([program] + run_words(),
                                          start + job.encode() + b'\n' + end)
                expect('status', 0, done.returncode)
                expect('refusals', 0, done.stdout.count(b'\nno '))
                counts.append(count.requests)
            found.append((job, float(counts[1] - counts[0])))
    return found


def bytes_held_by_each(program: str) -> None:
    """No session holds a tenth more than it did when figures.txt was written."""
    look_at(BYTES, all_bytes(program))


def requests_of_a_batch(program: str) -> None:
    """A batch makes no more requests for memory than it did when figures.txt was written."""
    look_at(REQUESTS, all_requests(program), 1)


HELD_CASES: Dict[str, Callable[[str], None]] = {
    'bytes-held-by-each': bytes_held_by_each,
    'requests-of-a-batch': requests_of_a_batch,
}
