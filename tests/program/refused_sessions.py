"""The sessions in which tests/program/refused_memory refuses requests for memory, each a list of
commands."""
from typing import Dict, List, NamedTuple, Optional
from tests.lib.commands import (EXIT, INCREMENT, OF_OPERATORS, RESULT_IS_OPERAND, add,
                                assembly_command, instruction, matrix_command, matrix_text,
                                operator_command)

WORKERS = 'session of three workers'
FAILING_CHUNK = 'failing chunk'
OLDER_VERSIONS = 'older versions'
LATE_FAULTS = 'late faults'
# what stands under each name that `session_of_older_versions` ever binds
SHOWN = [b'show %s\n' % name for name in (b'A', b'B', b'C', b'D', b'E')]


# an operator of 700 instructions, by whose price several workers are fed, and of which a call on 41
# takes three
DEAR = b'mov64 r0, r1\njeq64 r0, 41, 697\n' + b'add64 r0, 1\n' * 697 + b'exit\n'
# A chunk of rows with more cells than the room that is taken at once
CHARGED = 'charged forms'
CHARGED_ROWS, CHARGED_COLUMNS, ROOM_AT_ONCE, CALLS_AT_ONCE = 256, 257, 65536, 64
CELLS = CHARGED_ROWS * CHARGED_COLUMNS
FOLDS = CELLS - CHARGED_ROWS


class Charged(NamedTuple):
    """A job over that chunk. A call of each has a cost of its own, and so a run's steps tell which
    job it had: its operator's kind, its command, how many calls it makes, after how many of them
    its rows have outgrown their first room (None where that isn't amid the calls), of one that
    takes room behind its calls another, with the same positions in its result, that takes none
    there, and whether it takes all its room in front of its calls."""

    cost: int
    kind: str
    command: bytes
    calls: int = CELLS
    outgrown: Optional[int] = None
    beside: str = ''
    before: bool = False


# The first three take no room behind their calls: apply without a thunk, and a fold by a short
# operator.
CHARGED_JOBS: Dict[str, Charged] = {
    'copied': Charged(2, 'unary', b'apply P f A\n', before=True),
    'shown': Charged(3, 'unary', b'apply P f A mask A\n', before=True),
    'folded': Charged(4, 'binary', b'reduce P f A\n', FOLDS),
    'apply': Charged(17, 'index', b'apply P f A 5 mask A\n', outgrown=ROOM_AT_ONCE),
    'union': Charged(5, 'binary', b'union P f A A mask A\n', outgrown=ROOM_AT_ONCE),
    'both': Charged(7, 'binary', b'both P f A A mask A\n', outgrown=ROOM_AT_ONCE),
    'select': Charged(9, 'index', b'select P f A 0\n', beside='copied'),
    'sifted': Charged(13, 'index', b'select P f A 0 mask A\n',
                      outgrown=ROOM_AT_ONCE + CALLS_AT_ONCE),
    'reduce': Charged(11, 'binary', b'reduce P f A\n', FOLDS, beside='folded'),
}


def operator_of(cost: int) -> bytes:
    """An operator of so many instructions, of any kind."""
    return b'mov64 r0, r1\n' + b'add64 r0, 1\n' * (cost - 2) + b'exit\n'


class Given(NamedTuple):
    """A session, its workers and steps, and whether the reference implementation also answers it
    with each command left out that is refused."""

    name: str
    commands: List[bytes]
    workers: int = 1
    steps: int = 100000000
    each_compared: bool = True


def first_session() -> List[bytes]:
    text = matrix_text(1, 1, [(1, 1, 41)])
    return [matrix_command('A', text), operator_command('inc', INCREMENT), b'apply B inc A\n',
            b'run\n', b'show B\n', b'quit\n']


def long_session() -> List[bytes]:
    """Each command, with each reply that takes memory, over matrices and operators that outgrow
    their first room."""
    wide = matrix_text(40, 40,
                       [(row, column, row * column) for row in range(1, 41)
                        for column in range(1, 41)])
    line = matrix_text(1, 300, [(1, column, -column) for column in range(1, 301)])
    tall = matrix_text(40, 1, [(row, 1, -row) for row in range(1, 41)])
    many = RESULT_IS_OPERAND + add(1) * 500 + EXIT
    spaced = b'\n\t '.join(INCREMENT[at:at + 2] for at in range(0, len(INCREMENT), 2))
    unset = instruction(0xbf, 0, 3) + EXIT
    descending = line.split(b'\n', 2)[:2] + line.split(b'\n')[-2:1:-1]
    mirrored = (
        b'%%MatrixMarket matrix coordinate pattern symmetric\n% all of the first column\n300 '
        b'300 300\n')
    mirrored += b''.join(b'%d 1\r\n' % row for row in range(1, 301))
    stored = (b'stx64 r10, -8, r1 ; and loaded\n' * 20
              + b'wide r2, -5\njeq64 r1, r2, 1\nldx64 r2, r10, -8\nmov64 r0, r2\nexit')
    return [
        matrix_command('A', wide), matrix_command('line', line),
        matrix_command('line', b'\n'.join(descending)) + b'\n',
        matrix_command('mirrored', mirrored), matrix_command('broken', line[:-2] + b'x'),
        matrix_command('broken', mirrored + b'1 2\n'), operator_command('inc', spaced),
        operator_command('many', many), operator_command('unset', unset),
        operator_command('broken', b'0000000000000000'),
        operator_command('two', INCREMENT, 'binary'), assembly_command('stored', stored),
        assembly_command('broken', stored + b', r0'),
        assembly_command('broken', stored.replace(b'stx64', b'stx32')),
        *(b'%s %s\n' % (word.encode(), name) for name in (b'stored', b'many', b'broken')
          for word in OF_OPERATORS), b'apply B inc A\n', b'apply C many line\n', b'apply B two A\n',
        b'apply B inc line\n', b'budget\n', b'run\n', b'budget\n', b'show B\n', b'show C\n',
        b'show A\n', matrix_command('A', line), operator_command('inc', many), b'dis inc\n',
        assembly_command('inc', stored), b'apply C inc mirrored\n', b'apply D many B\n', b'run\n',
        b'show C\n', b'apply E inc A\n', b'run\n', b'show E\n', b'budget\n',
        matrix_command('A', wide), assembly_command('plus', b'mov64 r0, r1\nadd64 r0, r2\nexit\n',
                                                    'binary'),
        assembly_command('below', b'mov64 r0, 1\njlt64 r3, r2, 1\nmov64 r0, 0\nexit\n', 'index'),
        b'select L below A 0\n', b'apply P below A -1 mask A\n', b'union U plus A A\n',
        b'both V plus A A mask A\n', b'product W plus plus A A\n',
        b'product X plus plus A A mask A\n', matrix_command('column', tall),
        b'product Q plus plus A column\n', b'product R plus plus A column\n', b'reduce Y plus A\n',
        b'run\n', b'union U plus L W mask L\n', b'reduce Z plus U\n', b'run\n', b'show Z\n',
        b'budget\n', b'apply E inc A\n', b'quit\n',]


def session_of_workers() -> List[bytes]:
    """Batches of several chunks and of several jobs, each of which starts threads: by their prices
    they are worth it."""
    diagonal = matrix_text(600, 600, [(place, place, 41) for place in range(1, 601)])
    return [
        matrix_command('A', diagonal),
        assembly_command('inc', DEAR),
        assembly_command('plus', DEAR, 'binary'),
        b'apply B inc A\n',
        b'product C plus plus A A\n',
        b'run\n',
        b'budget\n',
        b'union D plus A A mask A\n',
        b'run\n',
        b'run\n',
        b'show B\n',
        b'show C\n',
        b'show D\n',
        b'budget\n',
        b'quit\n',
    ]


def session_of_a_failing_chunk() -> List[bytes]:
    """One chunk of 256 rows with a multiplication of three steps each, so that 768 steps are spent,
    or fewer where memory is refused."""
    ones = matrix_text(256, 256, [(place, place, 1) for place in range(1, 257)])
    return [
        matrix_command('D', ones),
        assembly_command('sub', b'mov64 r0, r1\nsub64 r0, r2\nexit\n', 'binary'),
        assembly_command('mul', b'mov64 r0, r1\nmul64 r0, r2\nexit\n', 'binary'),
        b'product C sub mul D D\n',
        b'run\n',
        b'show C\n',
        b'run\n',
        b'budget\n',
        b'quit\n',
    ]


def charged_session() -> List[bytes]:
    """A chunk of each form that outgrows the room which it takes before its calls, or takes more
    behind them, in a run of its own."""
    height, width = CHARGED_ROWS, CHARGED_COLUMNS
    full = matrix_text(height, width,
                       [(row, column, 1) for row in range(1, height + 1)
                        for column in range(1, width + 1)])
    commands = [matrix_command('A', full)]
    for job in CHARGED_JOBS.values():
        commands += [assembly_command('f', operator_of(job.cost), job.kind), job.command, b'run\n']
    return commands + [b'budget\n', b'quit\n']


def session_of_no_steps_to_spare() -> List[bytes]:
    """A product that takes nine steps of the twelve that it is priced at, which are all that there
    are: its fold is 10 - 3."""
    return [
        matrix_command('A', matrix_text(1, 2, [(1, 1, 10), (1, 2, 3)])),
        matrix_command('B', matrix_text(2, 1, [(1, 1, 1), (2, 1, 1)])),
        assembly_command('sub', b'mov64 r0, r1\nsub64 r0, r2\nexit\n', 'binary'),
        assembly_command('mul', b'mov64 r0, r1\nmul64 r0, r2\nexit\n', 'binary'),
        b'product C sub mul A B\n',
        b'budget\n',
        b'run\n',
        b'show C\n',
        b'run\n',
        b'budget\n',
        b'quit\n',
    ]


def session_of_older_versions() -> List[bytes]:
    """Names that are bound anew, by uploads and by a batch of which one job's output is an operand
    of all: where that is refused, what stood under them before has to be shown, and to be what
    later jobs use."""
    return [
        matrix_command('A', matrix_text(2, 2, [(1, 1, 41), (2, 1, -5)])),
        matrix_command('C', matrix_text(1, 1, [(1, 1, 7)])),
        operator_command('inc', INCREMENT),
        b'apply B inc A\n',
        b'apply A inc A\n',
        b'apply C inc A\n',
        b'run\n',
        b'run\n',
        *SHOWN,
        operator_command('inc', RESULT_IS_OPERAND + add(2) + EXIT),
        b'apply D inc C\n',
        b'run\n',
        *SHOWN,
        assembly_command('inc', b'mov64 r0, r1\nadd64 r0, 3\nexit\n'),
        matrix_command('C', matrix_text(1, 3, [(1, 2, 1000)])),
        b'apply E inc C\n',
        b'run\n',
        *SHOWN,
        b'dis inc\n',
        b'budget\n',
        b'quit\n',
    ]


def session_with_late_faults() -> List[bytes]:
    """Three texts of one length: the first breaks a rule in its size line, the others in the line
    of their last entry, before which the third gives a position again."""
    late = matrix_text(300, 300, [(row, 301 - row, row) for row in range(1, 301)])[:-1] + b'x\n'
    early = late.replace(b'\n300 300 300\n', b'\n300 300 x00\n', 1)
    again = late.replace(b'\n299 2 299\n', b'\n1 300 299\n', 1)
    return [matrix_command('A', text) for text in (early, late, again)] + [b'quit\n']


SESSIONS = (
    Given('first session', first_session()),
    Given('long session', long_session(), each_compared=False),
    Given(WORKERS, session_of_workers(), workers=3),
    Given(CHARGED, charged_session(), each_compared=False),
    Given(FAILING_CHUNK, session_of_a_failing_chunk()),
    Given('no steps to spare', session_of_no_steps_to_spare(), steps=12),
    Given(OLDER_VERSIONS, session_of_older_versions()),
    Given(LATE_FAULTS, session_with_late_faults()),
)
