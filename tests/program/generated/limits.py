"""Sessions at the limits of size: matrices of 16,777,216 entries, rows and columns, operators of
4,096 slots of each kind, and the greatest number of workers. A program that reports "out of
memory", or stops, at a size that no smaller test reaches, is refused.

Inputs and outputs are made piece by piece, because some have 200 MB.
"""
import os
import subprocess
import threading
import time
from typing import Callable, Dict, Iterator, List, Set

from tests.lib.commands import (BANNER, EXIT, RESULT_IS_OPERAND, add, assembly_command, instruction,
                                matrix_command, matrix_text, operator_command, run_words,
                                show_reply, wide_load)
from tests.lib.limits import CHUNK_ROWS, MOST_SIDE, MOST_SLOTS, MOST_WORKERS
from tests.lib.runs import Wrong, expect, run_session, run_streamed, started

FEW = 1000
SIDE = 1 << 12
MOST_TRIES = 5
LINE_BYTES = 1 << 20

OPERATORS = [(b'inc', b'unary', b'mov64 r0, r1\nadd64 r0, 1\nexit\n'),
             (b'plus', b'binary', b'mov64 r0, r1\nadd64 r0, r2\nexit\n'),
             (b'second', b'binary', b'mov64 r0, r2\nexit\n'),
             (b'all', b'index', b'mov64 r0, 1\nexit\n'),
             (b'odd', b'index', b'mov64 r0, r3\nadd64 r0, r4\nand64 r0, 1\nexit\n')]


class Full:
    """A matrix with an entry at each position, whose value goes by its column; its text comes row
    by row."""

    def __init__(self, rows: int, columns: int, value: Callable[[int], int]) -> None:
        self.rows, self.columns, self.count = rows, columns, rows * columns
        self.ends = [b' %d %d\n' % (column, value(column)) for column in range(1, columns + 1)]
        self.head = BANNER + b'%d %d %d\n' % (rows, columns, self.count)
        numbers = columns * sum(len(b'%d' % row) for row in range(1, rows + 1))
        self.length = len(self.head) + rows * sum(map(len, self.ends)) + numbers

    def text(self) -> Iterator[bytes]:
        yield self.head
        for row in range(1, self.rows + 1):
            for at in range(0, self.columns, LINE_BYTES):
                yield (b'%d' % row).join([b''] + self.ends[at:at + LINE_BYTES])

    def command(self, name: bytes) -> Iterator[bytes]:
        yield b'matrix %s %d\n' % (name, self.length)
        yield from self.text()

    def read(self) -> bytes:
        return b'ok matrix %d %d %d\n' % (self.rows, self.columns, self.count)

    def shown(self) -> Iterator[bytes]:
        yield b'ok show %d\n' % self.length
        yield from self.text()


def uploads() -> bytes:
    return b''.join(assembly_command(name.decode(), text, kind.decode())
                    for name, kind, text in OPERATORS)


def uploaded() -> bytes:
    return b''.join(b'ok op %d %d\n' % ((text.count(b'\n'),) * 2) for _, _, text in OPERATORS)


def ran(name: bytes, rows: int, columns: int, entries: int, steps: int) -> bytes:
    return b'ok run 1 %d\n%s %d %d %d %d\n' % (steps, name, rows, columns, entries, steps)


def job(line: bytes, price: int, result: bytes) -> List[bytes]:
    """A job that is queued and run, and what that is answered."""
    return [line + b'\nrun\n', b'ok queued 1 %d\n' % price + result]


def most_entries(program: str) -> None:
    """A matrix of 16,777,216 entries is read, mapped, selected from, joined, reduced, masked and
    shown; a product makes one."""
    a, more = Full(SIDE, SIDE, lambda column: column % 10), Full(SIDE, SIDE,
                                                                 lambda column: column % 10 + 1)
    line, column = Full(1, SIDE, lambda column: column % 10), Full(SIDE, 1, lambda column: 1)
    half = MOST_SIDE // 2
    jobs = [
        job(b'apply B inc A', 3 * MOST_SIDE, ran(b'B', SIDE, SIDE, MOST_SIDE, 3 * MOST_SIDE)),
        job(b'select C all A 0', 2 * MOST_SIDE, ran(b'C', SIDE, SIDE, MOST_SIDE, 2 * MOST_SIDE)),
        job(b'both C second A C', 2 * MOST_SIDE, ran(b'C', SIDE, SIDE, MOST_SIDE, 2 * MOST_SIDE)),
        job(b'apply C inc C mask A', 3 * MOST_SIDE,
            ran(b'C', SIDE, SIDE, MOST_SIDE, 3 * MOST_SIDE)),
        job(b'select C odd A 0', 4 * MOST_SIDE, ran(b'C', SIDE, SIDE, half, 4 * MOST_SIDE)),
        job(b'select D odd A 1', 4 * MOST_SIDE, ran(b'D', SIDE, SIDE, half, 4 * MOST_SIDE)),
        job(b'union A plus C D', 3 * half, ran(b'A', SIDE, SIDE, MOST_SIDE, 0)),
        job(b'union D plus C C', 3 * half, ran(b'D', SIDE, SIDE, half, 3 * half)),
        job(b'reduce R plus A', 3 * (MOST_SIDE - SIDE),
            ran(b'R', SIDE, 1, SIDE, 3 * (MOST_SIDE - SIDE))),
        job(b'product D plus second K L', 5 * MOST_SIDE,
            ran(b'D', SIDE, SIDE, MOST_SIDE, 2 * MOST_SIDE)),
        job(b'product R plus second A K', 5 * MOST_SIDE,
            ran(b'R', SIDE, 1, SIDE, 2 * MOST_SIDE + 3 * (MOST_SIDE - SIDE))),]

    def given() -> Iterator[bytes]:
        yield uploads()
        for name, matrix in ((b'A', a), (b'K', column), (b'L', line)):
            yield from matrix.command(name)
        for commands, _ in jobs:
            yield commands
        yield b'show A\nshow B\nshow D\nshow R\n'

    def wanted() -> Iterator[bytes]:
        yield uploaded() + a.read() + column.read() + line.read() + b''.join(
            replies for _, replies in jobs)
        for matrix in (a, more, a, Full(SIDE, 1, lambda column: SIDE)):
            yield from matrix.shown()

    run_streamed(program, run_words(workers=2), given(), wanted())


def most_columns(program: str) -> None:
    """One row of 16,777,216 columns, all of them stored, through each form; a product makes it."""
    row, more = Full(1, MOST_SIDE,
                     lambda column: column % 10), Full(1, MOST_SIDE, lambda column: column % 10 + 1)
    total = sum(at % 10 for at in range(1, MOST_SIDE + 1))
    jobs = [
        job(b'product B plus second I A', 5 * MOST_SIDE,
            ran(b'B', 1, MOST_SIDE, MOST_SIDE, 2 * MOST_SIDE)),
        job(b'both B second A B', 2 * MOST_SIDE, ran(b'B', 1, MOST_SIDE, MOST_SIDE, 2 * MOST_SIDE)),
        job(b'select B all B 0 mask A', 2 * MOST_SIDE,
            ran(b'B', 1, MOST_SIDE, MOST_SIDE, 2 * MOST_SIDE)),
        job(b'reduce R plus B', 3 * (MOST_SIDE - 1), ran(b'R', 1, 1, 1, 3 * (MOST_SIDE - 1))),
        job(b'apply B inc B', 3 * MOST_SIDE, ran(b'B', 1, MOST_SIDE, MOST_SIDE, 3 * MOST_SIDE)),]

    def given() -> Iterator[bytes]:
        yield uploads() + matrix_command('I', matrix_text(1, 1, [(1, 1, 1)]))
        yield from row.command(b'A')
        for commands, _ in jobs:
            yield commands
        yield b'show R\nshow B\n'

    def wanted() -> Iterator[bytes]:
        yield uploaded() + b'ok matrix 1 1 1\n' + row.read() + b''.join(
            replies for _, replies in jobs)
        yield show_reply(matrix_text(1, 1, [(1, 1, total)]))
        yield from more.shown()

    run_streamed(program, run_words(), given(), wanted())


def few_entries(value: Callable[[int], int], columns: int = MOST_SIDE) -> bytes:
    """The text of a matrix of 16,777,216 rows with 1,000 entries, whose values go by their rows.
    With as many columns, row and column of an entry are one number, so that the matrix times itself
    has as many entries."""
    places = [at * 16777 + 1 for at in range(FEW)]
    return matrix_text(MOST_SIDE, columns,
                       [(place, min(place, columns), value(place)) for place in places])


def most_rows(program: str) -> None:
    """Jobs of 65,536 chunks, over 16,777,216 rows and as many columns with 1,000 entries, on as
    many workers as there may be."""
    count, text = FEW, few_entries
    shape = (MOST_SIDE, MOST_SIDE)
    jobs = [
        (job(b'apply B inc A', 3 * count, ran(b'B', *shape, count, 3 * count)),
         text(lambda value: value + 1)),
        (job(b'select B all A 0', 2 * count, ran(b'B', *shape, count, 2 * count)),
         text(lambda value: value)),
        (job(b'union B plus A A', 3 * count, ran(b'B', *shape, count, 3 * count)),
         text(lambda value: 2 * value)),
        (job(b'both B plus A B mask A', 3 * count, ran(b'B', *shape, count, 3 * count)),
         text(lambda value: 3 * value)),
        (job(b'product B plus second A A', 5 * count, ran(b'B', *shape, count, 2 * count)),
         text(lambda value: value)),
        (job(b'reduce B plus A', 0, ran(b'B', MOST_SIDE, 1, count, 0)),
         text(lambda value: value, 1)),]
    input_ = uploads() + matrix_command('A', text(lambda value: value))
    input_ += b''.join(commands + b'show B\n' for (commands, _), _ in jobs)
    output = uploaded() + b'ok matrix %d %d %d\n' % (*shape, count)
    output += b''.join(replies + show_reply(shown) for (_, replies), shown in jobs)
    run_session(program, run_words(workers=MOST_WORKERS), input_, output)


def results_of_most_rows(program: str) -> None:
    """A result of 16,777,216 rows as operand of each form and as its mask, shown, and read again; a
    reduction as the mask of one."""
    count, text = FEW, few_entries
    shape = (MOST_SIDE, MOST_SIDE)
    more = text(lambda value: value + 1)
    read = b'ok matrix %d %d %d\n' % (*shape, count)
    jobs = [
        (job(b'apply C inc B mask B', 3 * count, ran(b'C', *shape, count, 3 * count)),
         text(lambda value: value + 2)),
        (job(b'select C all B 0 mask C', 2 * count, ran(b'C', *shape, count, 2 * count)), more),
        (job(b'union C plus B A mask B', 3 * count, ran(b'C', *shape, count, 3 * count)),
         text(lambda value: 2 * value + 1)),
        (job(b'both C plus B B', 3 * count, ran(b'C', *shape, count, 3 * count)),
         text(lambda value: 2 * value + 2)),
        (job(b'product C plus second A B mask B', 5 * count, ran(b'C', *shape, count, 2 * count)),
         more),
        (job(b'reduce C plus B', 0, ran(b'C', MOST_SIDE, 1, count, 0)),
         text(lambda value: value + 1, 1)),
        (job(b'reduce C plus B mask C', 0, ran(b'C', MOST_SIDE, 1, count, 0)),
         text(lambda value: value + 1, 1)),
        (job(b'both C plus S B', 3 * count, ran(b'C', *shape, count, 3 * count)),
         text(lambda value: 2 * value + 2)),]
    commands, replies = job(b'apply B inc A', 3 * count, ran(b'B', *shape, count, 3 * count))
    input_ = (uploads() + matrix_command('A', text(lambda value: value)) + commands + b'show B\n'
              + matrix_command('S', more))
    input_ += b''.join(commands + b'show C\n' for (commands, _), _ in jobs)
    output = uploaded() + read + replies + show_reply(more) + read
    output += b''.join(replies + show_reply(shown) for (_, replies), shown in jobs)
    run_session(program, run_words(workers=3), input_, output)


def mask_of_a_million(program: str) -> None:
    """A mask of 1,000,000 entries in the rows of a matrix of as many: each form but `reduce`, of
    which its mask has one column."""
    side, count = 1000, 1000000
    a, b = Full(side, side, lambda column: 1), Full(side, side, lambda column: 2)
    jobs = [
        job(b'apply B inc A mask A', 3 * count, ran(b'B', side, side, count, 3 * count)),
        job(b'select C all A 0 mask B', 2 * count, ran(b'C', side, side, count, 2 * count)),
        job(b'union C plus A B mask A', 3 * count, ran(b'C', side, side, count, 3 * count)),
        job(b'both C plus A B mask A', 3 * count, ran(b'C', side, side, count, 3 * count)),
        job(b'product C plus second A I mask A', 5 * count,
            ran(b'C', side, side, count, 2 * count)),
        job(b'apply M inc K', 3 * count, ran(b'M', count, 1, count, 3 * count)),
        job(b'reduce M plus K mask M', 0, ran(b'M', count, 1, count, 0)),]
    diagonal = matrix_text(side, side, [(place, place, 2) for place in range(1, side + 1)])
    tall = Full(count, 1, lambda column: 5)

    def given() -> Iterator[bytes]:
        yield uploads() + matrix_command('I', diagonal)
        yield from a.command(b'A')
        yield from tall.command(b'K')
        for commands, _ in jobs:
            yield commands
        yield b'show B\nshow C\nshow M\n'

    def wanted() -> Iterator[bytes]:
        yield uploaded() + b'ok matrix %d %d %d\n' % (side, side, side) + a.read() + tall.read()
        yield b''.join(replies for _, replies in jobs)
        for matrix in (b, b, tall):
            yield from matrix.shown()

    run_streamed(program, run_words(workers=3), given(), wanted())


def longest_operators(program: str) -> None:
    """Operators of 4,096 slots of each kind, full of branches, and half of them wide loads: as code
    and as assembly, written back, and called."""
    half = MOST_SLOTS // 4 - 1
    loads = wide_load(3, 5) * half + RESULT_IS_OPERAND + add(1) * (MOST_SLOTS - 2 * half - 2) + EXIT
    lines = b'wide r3, 5\n' * half + b'mov64 r0, r1\n' + b'add64 r0, 1\n' * (
        MOST_SLOTS - 2 * half - 2) + b'exit\n'
    branches = RESULT_IS_OPERAND + (instruction(0x15, 1, offset=1, immediate=-1)
                                    + add(1)) * (MOST_SLOTS // 2 - 1) + EXIT
    branch_lines = b'mov64 r0, r1\n' + b'jeq64 r1, -1, 1\nadd64 r0, 1\n' * (
        MOST_SLOTS // 2 - 1) + b'exit\n'
    input_ = matrix_command('A', matrix_text(1, 1, [(1, 1, 41)]))
    output = b'ok matrix 1 1 1\n'
    jobs = {'unary': b'apply B f A\n', 'index': b'apply B f A 7\n', 'binary': b'both B f A A\n'}
    for kind, call in jobs.items():
        for code, text, added in ((loads, lines, MOST_SLOTS - 2 * half - 2),
                                  (branches, branch_lines, MOST_SLOTS // 2 - 1)):
            count = text.count(b'\n')
            for upload in (operator_command('f', code, kind), assembly_command('f', text, kind)):
                input_ += upload + b'dis f\n' + call + b'run\nshow B\n'
                output += b'ok op %d %d\nok dis %d\n' % (MOST_SLOTS, count, count) + text
                output += b'ok queued 1 %d\n' % count + ran(b'B', 1, 1, 1, count)
                output += show_reply(matrix_text(1, 1, [(1, 1, 41 + added)]))
    run_session(program, run_words(), input_, output)


def longest_types(program: str) -> None:
    """`types` at its longest, 270,000 bytes: all registers but R10 hold places far down the stack,
    at each of some 4,000 slots."""
    start = [b'mov64 r%d, r10' % register
             for register in range(10)] + [b'add64 r%d, -512' % register for register in range(10)]
    rest = MOST_SLOTS - len(start) - 2
    lines = start + [b'st64 r9, 0, 1'] * rest + [b'mov64 r0, 0', b'exit']
    now = {'unary': [b'u', b'n'], 'binary': [b'u', b'n', b'n'],
           'index': [b'u', b'n', b'n', b'n', b'n']}
    input_ = output = b''
    for kind, first in now.items():
        held, tags = first + [b'u'] * (10 - len(first)) + [b'p0'], []
        for slot, _ in enumerate(lines):
            tags.append(list(held))
            if slot < len(start):
                held[slot % 10] = b'p0' if slot < 10 else b'p-512'
            elif slot == len(lines) - 2:
                held[0] = b'n'
        input_ += assembly_command('f', b'\n'.join(lines), kind) + b'types f\n'
        output += b'ok op %d %d\nok types %d\n' % ((MOST_SLOTS,) * 3)
        output += b''.join(b'%d %s\n' % (slot, b' '.join(each)) for slot, each in enumerate(tags))
    if len(output) < 3 * 270000:
        raise Wrong('the replies have %d bytes' % len(output))
    run_session(program, run_words(), input_, output)


def threads_of(child: subprocess.Popen, seen: Set[int]) -> None:
    """Notes how many threads a process has, until it ends."""
    while child.poll() is None:
        try:
            seen.add(len(os.listdir('/proc/%d/task' % child.pid)))
        except OSError:
            return
        time.sleep(0.002)


def threads_seen(program: str, height: int, jobs: int, workers: int) -> int:
    """In how many threads a batch ran at once, of so many jobs over so many rows with a long
    operator."""
    code = RESULT_IS_OPERAND + add(1) * (MOST_SLOTS - 2) + EXIT
    full, seen = Full(height, 40, lambda column: 0), set()
    input_ = b''.join(full.command(b'A')) + operator_command('f', code)
    input_ += b''.join(b'apply B%d f A\n' % number for number in range(jobs)) + b'run\n'
    with started([program] + run_words(workers=workers), stdin=subprocess.PIPE,
                 stdout=subprocess.PIPE) as child:
        watch = threading.Thread(target=threads_of, args=(child, seen))
        watch.start()
        said = child.communicate(input_)[0]
        watch.join()
    expect('refusals', 0, said.count(b'no '))
    return max(seen)


def workers_of_a_batch(program: str) -> None:
    """A batch of 64 chunks has 64 threads where so many workers are asked for, one of one job as
    one of several; a batch of two chunks has two, and with one worker there is one. On a busy
    machine some may find no chunk left when they begin, so that fewer are seen; never more."""
    rows = MOST_WORKERS * CHUNK_ROWS
    for height, jobs, workers, most in ((rows, 1, MOST_WORKERS, MOST_WORKERS),
                                        (rows // 4, 4, MOST_WORKERS, MOST_WORKERS),
                                        (rows // 64, 2, MOST_WORKERS, 2), (rows, 1, 40, 40),
                                        (rows // 16, 4, 3, 3),
                                        (rows // 16, 2, 1, 1)):
        for _ in range(MOST_TRIES):
            seen = threads_seen(program, height, jobs, workers)
            if seen >= most:
                break
        if seen != most:
            raise Wrong('%d jobs of %d chunks on %d workers ran in %d threads'
                        % (jobs, height // CHUNK_ROWS, workers, seen))


LIMIT_CASES: Dict[str, Callable[[str], None]] = {
    'most-entries': most_entries,
    'most-columns': most_columns,
    'most-rows': most_rows,
    'results-of-most-rows': results_of_most_rows,
    'mask-of-a-million': mask_of_a_million,
    'longest-operators': longest_operators,
    'longest-types': longest_types,
    'workers-of-a-batch': workers_of_a_batch,
}
