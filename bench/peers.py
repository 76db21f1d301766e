"""The part `peers` of bench/run: the clock of jobs beside SuiteSparse:GraphBLAS, on the same
matrices within one run.

Both sides take turns, so that what else the machine does meets both, and the least of all rounds
counts. What both computed is compared.
"""
import hashlib
import os
import shutil
import subprocess
import tempfile
from typing import Callable, Dict, List, NamedTuple, Optional, Tuple

from tests.lib.commands import assembly_command, matrix_command, matrix_text, skewed_entries
from tests.lib.timed import TimedSession

SOURCE = os.path.join(os.path.dirname(os.path.abspath(__file__)), 'peers.c')
THREADS = (1, 4)
NAMES = ('same', 'new')
PASSES = 3
ROUNDS = 5
QUIET = 0.5  # the load average up to which a machine has little else to do
WORD = (1 << 64) - 1

# The name of a form in peers.c, and the job; `out` is where its result's name stands, and the
# others are operators.
FORMS = [
    ('apply', 'apply {out} {inc} A'),
    ('apply-index', 'apply {out} {row} A 5'),
    ('select', 'select {out} {low} A 0'),
    ('union', 'union {out} {plus} A A'),
    ('union-turned', 'union {out} {plus} A T'),
    ('both', 'both {out} {times} A A'),
    ('both-turned', 'both {out} {times} A T'),
    ('reduce', 'reduce {out} {plus} A'),
    ('product', 'product {out} {plus} {times} S S'),
    ('product-min-plus', 'product {out} {min} {plus} S S'),
    ('product-masked', 'product {out} {plus} {times} S S mask S'),
    ('apply-masked', 'apply {out} {inc} A mask T'),
    ('column', 'product {out} {plus} {times} A V'),
    ('column-min-plus', 'product {out} {min} {plus} A V'),
    ('column-half', 'product {out} {plus} {times} A H'),
    ('column-masked', 'product {out} {plus} {times} A V mask K'),
    ('line', 'product {out} {plus} {times} L A'),
]

OPERATORS = {
    'inc': ('unary', 'mov64 r0, r1; add64 r0, 1; exit'),
    'row': ('index', 'mov64 r0, r2; add64 r0, r4; exit'),
    'low': ('index', 'mov64 r0, 1; add64 r2, r4; jsle64 r3, r2, 1; mov64 r0, 0; exit'),
    'plus': ('binary', 'mov64 r0, r1; add64 r0, r2; exit'),
    'times': ('binary', 'mov64 r0, r1; mul64 r0, r2; exit'),
    'min': ('binary', 'mov64 r0, r1; jsle64 r1, r2, 1; mov64 r0, r2; exit'),
}

# Operators that the program doesn't know by their code, of three to five instructions and of ten.
# The library has the same as operators of the user's own. The sums are associative and commutative,
# since the library adds in an order of its own.
OTHERS = {
    'short': dict(OPERATORS, plus=('binary', 'mov64 r0, r1; add64 r0, r2; add64 r0, 5; exit'),
                  times=('binary', 'mov64 r0, r1; mul64 r0, r2; xor64 r0, 85; exit')),
    'long': {
        'inc': ('unary',
                'mov64 r0, r1; add64 r0, 1; xor64 r0, 85; lsh64 r0, 1; sub64 r0, r1; xor64 r0, '
                '51; add64 r0, r1; rsh64 r0, 3; xor64 r0, r1; exit'),
        'row': ('index',
                'mov64 r0, r2; add64 r0, r4; xor64 r0, r3; lsh64 r0, 1; add64 r0, r1; xor64 r0, '
                '51; sub64 r0, r2; rsh64 r0, 2; xor64 r0, r3; exit'),
        'low': ('index',
                'xor64 r1, 5; mul64 r1, 3; and64 r1, 7; xor64 r1, 1; add64 r2, r4; add64 r2, '
                'r1; mov64 r0, 1; jsle64 r3, r2, 1; mov64 r0, 0; exit'),
        'plus': ('binary',
                 'mov64 r3, r2; mov64 r0, r1; xor64 r0, 85; add64 r0, 51; xor64 r3, 85; add64 '
                 'r3, 51; add64 r0, r3; sub64 r0, 51; xor64 r0, 85; exit'),
        'times': ('binary',
                  'mov64 r0, r1; mul64 r0, r2; xor64 r0, 85; add64 r0, r1; lsh64 r0, 1; xor64 '
                  'r0, r2; sub64 r0, r1; rsh64 r0, 3; xor64 r0, r2; exit'),
    },
}
OTHER_FORMS = ['apply', 'apply-index', 'select', 'union', 'both', 'reduce', 'product', 'column']

# The number of a result's entries, and the sum that peers.c makes of them.
Summary = Tuple[int, int]
# Whose operators (spmat's, or the library's `user` or `builtin` ones; or a set of others, behind
# whose it is), the form, the names of results, and the threads.
Key = Tuple[str, str, str, int]


def job(form: str, out: str, operators: str = '') -> bytes:
    """The command for a form, by the operators of a set."""
    names = {name: name + operators for name in OPERATORS}
    return dict(FORMS)[form].format(out=out, **names).encode()


def uploads() -> bytes:
    """The commands that upload all operators."""
    sets = [('', OPERATORS)] + sorted(OTHERS.items())
    return b''.join(assembly_command(name + operators, code.replace('; ', '\n').encode() + b'\n',
                                     kind) for operators, made in sets
                    for name, (kind, code) in made.items())


class Graphs(NamedTuple):
    whole: bytes
    turned: bytes
    factor: bytes
    columns: Dict[str, bytes]
    title: str


def words(size: int, multiple: int = 0) -> List[Tuple[int, int]]:
    """A word for each place, counted from 1, of which a bit of a multiple is set, or for all:
    peers.c makes the same."""
    return [(at + 1, at * 7919 % 2003 - 1000) for at in range(size) if not multiple
            or at * multiple >> 9 & 1]


def columns_of(size: int) -> Dict[str, bytes]:
    """The texts of V, a full column, of H, half of it, of K, another half that serves as a mask,
    and of L, V as a line."""
    full = words(size)
    made = {name: matrix_text(size, 1, [(at, 1, word) for at, word in entries])
            for name, entries in (('V', full), ('H', words(size, 2654435761)),
                                  ('K', words(size, 40503 * 65537)))}
    made['L'] = matrix_text(1, size, [(1, at, word) for at, word in full])
    return made


def graphs() -> Graphs:
    """The texts of A, of A turned, of S, a smaller one for products, and of columns."""
    side, small_side = 1 << 16, 1 << 12
    whole, small = skewed_entries(16, 1 << 20, 3), skewed_entries(12, 1 << 16, 2)
    in_row: Dict[int, int] = {}
    for line, _, _ in small:
        in_row[line] = in_row.get(line, 0) + 1
    title = ('A of %d entries in %d rows, T turned, S of %d rows with %d multiplications, V a full '
             'column, H half of it, K a mask of half its rows, L a full line'
             % (len(whole), side, small_side, sum(in_row.get(column, 0) for _, column, _ in small)))
    turned = sorted((column, line, value) for line, column, value in whole)
    return Graphs(matrix_text(side, side, whole), matrix_text(side, side, turned),
                  matrix_text(small_side, small_side, small), columns_of(side), title)


def summary(text: bytes) -> Summary:
    """What peers.c prints of a result: (row P + column Q + 1) (2 value + 1), summed over the
    entries modulo 2^64."""
    words = list(map(int, text[text.index(b'\n'):].split()[3:]))
    sums = (((row - 1) * 0x9e3779b97f4a7c15 + (column - 1) * 0xc2b2ae3d27d4eb4f + 1)
            * (2 * value + 1) for row, column, value in zip(words[0::3], words[1::3], words[2::3]))
    return len(words) // 3, sum(sums) & WORD


def compiled(folder: str) -> Optional[str]:
    """The program over SuiteSparse:GraphBLAS, or nothing, where it says what lacks."""
    if not shutil.which('cc'):
        print("\nNo C compiler, so nothing is measured beside SuiteSparse:GraphBLAS. Install "
              "Debian's gcc and libgraphblas-dev.")
        return None
    made = os.path.join(folder, 'peers')
    if subprocess.run(['cc', '-E', SOURCE, '-o', os.devnull], stderr=subprocess.DEVNULL,
                      check=False).returncode:
        print("\nNo GraphBLAS.h, so nothing is measured beside SuiteSparse:GraphBLAS. Install "
              "Debian's libgraphblas-dev.")
        return None
    if subprocess.run(['cc', '-O2', SOURCE, '-o', made, '-lgraphblas'], check=False).returncode:
        raise SystemExit('bench: cc refuses %s' % SOURCE)
    return made


class Measured:
    """The least time of each form, in milliseconds, and what each form's result is, which has to be
    the same on every side."""

    def __init__(self) -> None:
        self.least: Dict[Key, float] = {}
        self.results: Dict[Tuple[str, str], Tuple[Summary, Key]] = {}

    def take(self, key: Key, milliseconds: float, result: Summary) -> None:
        operators = key[0].split()[-1]
        expected, by = self.results.setdefault((key[1], operators if operators in OTHERS else ''),
                                               (result, key))
        if result != expected:
            raise SystemExit('bench: results differ (entries, sum): %s is %s, but %s is %s'
                             % (key, result, by, expected))
        self.least[key] = min(milliseconds, self.least.get(key, milliseconds))


class Ours:
    """The built program, with a new session for each form and number of workers."""

    def __init__(self, program: str, given: Graphs) -> None:
        self.program = program
        self.setup = matrix_command('A',
                                    given.whole) + matrix_command('T',
                                                                  given.turned) + matrix_command(
                                                                      'S', given.factor)
        self.setup += b''.join(matrix_command(name, text)
                               for name, text in given.columns.items()) + uploads()
        self.summaries: Dict[bytes, Summary] = {}

    def summary(self, text: bytes) -> Summary:
        """The summary of a text, which is made once for all equal texts."""
        digest = hashlib.sha256(text).digest()
        if digest not in self.summaries:
            self.summaries[digest] = summary(text)
        return self.summaries[digest]

    def measure(self, threads: int, measured: Measured) -> None:
        for form, _ in FORMS:
            for names in NAMES:
                self.measure_form('', form, names, threads, measured)
        for operators in OTHERS:
            for form in OTHER_FORMS:
                self.measure_form(operators, form, NAMES[0], threads, measured)

    def measure_form(self, operators: str, form: str, names: str, threads: int,
                     measured: Measured) -> None:
        outs = ['R%d' % at if names == 'new' else 'R' for at in range(ROUNDS)]
        with TimedSession(self.program, threads, self.setup) as session:
            taken = min(session.seconds(job(form, out, operators) + b'\n') for out in outs)
            shown = session.shown(outs[-1].encode())
        measured.take(('spmat %s' % operators if operators else 'spmat', form, names, threads),
                      taken * 1e3, self.summary(shown))


class Theirs:
    """The program over the library, which reads the matrices from files."""

    def __init__(self, program: str, folder: str, given: Graphs) -> None:
        self.words = [program]
        self.library = ''
        for name, text in (('whole.mtx', given.whole), ('factor.mtx', given.factor)):
            self.words.append(os.path.join(folder, name))
            with open(self.words[-1], 'wb') as file:
                file.write(text)

    def measure(self, threads: int, measured: Measured) -> None:
        said = subprocess.run(self.words + [str(threads), str(ROUNDS)], stdout=subprocess.PIPE,
                              universal_newlines=True, check=True).stdout
        self.library, *lines = said.splitlines()
        for line in lines:
            form, operators, names, milliseconds, entries, total = line.split()
            whose = 'user %s' % operators if operators in OTHERS else operators
            measured.take((whose, form, names, threads), float(milliseconds),
                          (int(entries), int(total)))


def cells(least: Dict[Key, float], form: str, names: str) -> List[str]:
    """The cells of a form behind its name: ours and theirs in milliseconds, and ours divided by
    theirs."""
    ours, user, builtin = ([least[who, form, names, threads] for threads in THREADS]
                           for who in ('spmat', 'user', 'builtin'))
    ratios = [mine / other for theirs in (user, builtin) for mine, other in zip(ours, theirs)]
    return (['%.2f' % taken for taken in ours] + ['%.1f' % (ours[0] / ours[1])]
            + ['%.2f' % taken for taken in user + builtin] + ['%.2f' % ratio for ratio in ratios])


def other_cells(least: Dict[Key, float], form: str, operators: str) -> List[str]:
    """The cells of a form by a set of other operators: ours, theirs, and ours divided by theirs."""
    ours, user = ([least['%s %s' % (who, operators), form, NAMES[0], threads]
                   for threads in THREADS] for who in ('spmat', 'user'))
    return ['%.2f' % taken for taken in ours + user] + ['%.2f' % (mine / other)
                                                        for mine, other in zip(ours, user)]


def say_load(load: float) -> None:
    """Says how busy the machine was when the part began, and what that is worth."""
    processors = len(os.sched_getaffinity(0))
    print('\nLoad average at the start: %.2f, on %d processors.' % (load, processors))
    if load > QUIET:
        print('The machine is busy, maybe with parts of this program that ran before. Ratios for '
              '4 threads say little then, and those for\n'
              '1 thread are rough: end what else runs, wait until `uptime` shows a load average '
              'below %.1f, and measure `peers` alone.' % QUIET)
    if processors < max(THREADS):
        print('There are fewer processors than threads: leave what is said of %d threads out.'
              % max(THREADS))


def peers(program: str, table: Callable[..., None], row: Callable[..., None]) -> None:
    load = os.getloadavg()[0]
    with tempfile.TemporaryDirectory(prefix='spmat-peers-') as folder:
        built = compiled(folder)
        if not built:
            return
        say_load(load)
        given, measured = graphs(), Measured()
        ours, theirs = Ours(program, given), Theirs(built, folder, given)
        for _ in range(PASSES):
            for threads in THREADS:
                theirs.measure(threads, measured)
                ours.measure(threads, measured)
    for names, how in reversed(list(zip(NAMES, ('one name', 'new names')))):
        table('Batches beside %s, results under %s, ms of the best of %d rounds; %s'
              % (theirs.library, how, PASSES * ROUNDS, given.title), 'job', 'spmat, 1 worker',
              '4 workers', 'times faster', "user's operators, 1 thread", '4 threads',
              'built-in, 1 thread', '4 threads', "spmat / user's, 1", '4', 'spmat / built-in, 1',
              '4')
        for form, _ in FORMS:
            row('`%s`' % job(form, 'R').decode(), *cells(measured.least, form, names))
    table('The same by operators that are not known by their code, of 3 to 5 instructions and of '
          '10, beside the user\'s own; one name', 'job', '3 to 5: spmat, 1 worker', '4 workers',
          "user's, 1 thread", '4 threads', "spmat / user's, 1", '4', '10: spmat, 1 worker',
          '4 workers', "user's, 1 thread", '4 threads', "spmat / user's, 1", '4')
    for form in OTHER_FORMS:
        row('`%s`' % job(form, 'R').decode(),
            *(cell for operators in OTHERS
              for cell in other_cells(measured.least, form, operators)))
    print('\nBoth sides computed the same in each of %d forms.' % len(measured.results))
