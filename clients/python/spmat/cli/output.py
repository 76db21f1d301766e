"""What commands print, and how they end.

A result is plain lines, CSV (`--csv`) or JSON (`--json`), all of the same fields and rows. A
command has the options of `form_options`, makes a `Result` of what it found, and hands
`format_lines(options, result)` to `write`. Plain lines have no header, and CSV has one, in words
that `read_graph` knows. JSON is a list with an object a row, or an object alone where the result is
`single`. Rows may come one by one from a generator.

A fault is one line on standard error, and each cause has an exit status. The manual page
spmat-graph(1) has the same list.
"""
from __future__ import annotations

import contextlib
import decimal
import enum
import heapq
import importlib.util
import json
import lzma
import operator
import os
import signal
import socket
import struct
import sys
import zlib
from types import SimpleNamespace
from typing import (IO, Any, Callable, Iterable, Iterator, List, NamedTuple, Optional, Sequence,
                    Tuple, Type, Union)

import click

from ..errors import (MORE_STEPS, BudgetExceeded, Busy, Closed, CompileError, NoThread, NotMade,
                      OutOfMemory, ReadError, Refused, SpmatError, TextRefused, parameters_of)
from ..io.writers import csv_line
from ..matrix import Matrix
from ..progress import Bar

EDGE = ('source', 'target')
NODE = ('node',)
BLANKS, TABS = ' ', '\t'
PROGRAM = 'spmat-graph'                            # what its lines on standard error begin with
# a variable: a fault of the program itself is shown whole
TRACE = 'SPMAT_TRACE'
MORE_STEPS_HERE = 'a greater --steps gives it more'


# -- statuses and faults

class Status(enum.IntEnum):
    """The exit statuses, by cause, and what each means."""
    meaning: str

    def __new__(cls, number: int, meaning: str) -> Status:
        made = int.__new__(cls, number)
        made._value_, made.meaning = number, meaning
        return made

    DONE = 0, 'all went well'
    OTHER = 1, 'the result could not be written, or a Python package is missing'
    WORDS = 2, 'the words of the command line are wrong'
    FILE = 3, 'a file is missing, could not be read, or is no graph that the command takes'
    REFUSED = 4, 'refused by a rule: an operator, a size, a limit'
    BUDGET = 5, 'the budget of steps is spent'
    BUSY = 6, ('too little memory, too few threads, or no seat at the server: try later, or '
               'smaller')
    UNREACHED = 7, 'no program, no server, or the session ended amid the work'
    FAULT = 70, 'a fault of spmat-graph itself'    # EX_SOFTWARE of sysexits.h
    INTERRUPTED = 128 + signal.SIGINT, 'interrupted (Ctrl-C)'
    PIPE = 128 + signal.SIGPIPE, 'whoever read standard output has gone'
    TERMINATED = 128 + signal.SIGTERM, 'terminated (SIGTERM)'


class Ended(Exception):
    """A command ends here, with this status and these words."""

    def __init__(self, status: Status, words: str) -> None:
        super().__init__(words)
        self.status = status


# What a file raises that breaks off, or holds other bytes than its ending says.
UNREADABLE = (EOFError, UnicodeDecodeError, zlib.error, lzma.LZMAError, struct.error, OverflowError)
# The first whose kind a fault is decides.
CAUSES: Tuple[Tuple[Tuple[Type[BaseException], ...], Status], ...] = (
    ((KeyboardInterrupt,), Status.INTERRUPTED),
    ((BrokenPipeError,), Status.PIPE),
    ((click.ClickException,), Status.WORDS),
    ((BudgetExceeded,), Status.BUDGET),
    ((OutOfMemory, NoThread, Busy, MemoryError), Status.BUSY),
    ((Closed, ConnectionError, socket.timeout), Status.UNREACHED),
    ((ReadError, TextRefused), Status.FILE),
    ((Refused, CompileError, SpmatError), Status.REFUSED),
    ((ImportError,), Status.OTHER),
    ((OSError, ValueError, *UNREADABLE), Status.FILE),
)


@contextlib.contextmanager
def reading(file: str) -> Iterator[None]:
    """What is done here reads a file. ReadError names it where a fault doesn't."""
    try:
        yield
    except (OSError, *UNREADABLE) as fault:
        if getattr(fault, 'filename', None) is not None:
            raise
        words = getattr(fault, 'strerror', None) or fault
        raise ReadError(file, None, 'not read: %s' % words) from None


def find_refusal(fault: BaseException) -> BaseException:
    """Find what a fault comes from: of a matrix that was not made the refusal."""
    while isinstance(fault, NotMade) and fault.__cause__ is not None:
        fault = fault.__cause__
    return fault


def status_of(fault: BaseException) -> Status:
    """The exit status of a fault; of a matrix that was not made that of the refusal."""
    last = find_refusal(fault)
    if isinstance(last, Ended):
        return last.status
    return next((status for kinds, status in CAUSES if isinstance(last, kinds)), Status.FAULT)


def describe_os_error(fault: OSError) -> str:
    """What the system says of a fault, and of which file."""
    words = fault.strerror or str(fault)
    return '%s: %s' % (os.fsdecode(fault.filename), words) if fault.filename else words


def words_of(fault: BaseException) -> str:
    """What a fault says, in one line and in the command line's words."""
    if isinstance(fault, KeyboardInterrupt):
        return 'interrupted'
    if isinstance(fault, click.UsageError):
        where = fault.ctx.command_path if fault.ctx is not None else PROGRAM
        return '%s (%s --help)' % (fault.format_message().rstrip('.'), where)
    if isinstance(fault, MemoryError):
        return 'this machine has too little memory for it'
    if isinstance(fault, OSError) and fault.strerror:
        return describe_os_error(fault)
    if isinstance(fault, BudgetExceeded):
        return ' '.join(str(fault.by(MORE_STEPS_HERE)).split())
    words = ' '.join(str(fault).split()) or type(fault).__name__
    if status_of(fault) is Status.FAULT:
        return 'a fault of %s itself: %s: %s (%s=1 shows where)' % (
            PROGRAM, type(fault).__name__, words, TRACE)
    return words + describe_flags(fault)


# Parameters of Python whose flags have other names; '' for what the command line doesn't have.
FLAGS = {'bipartite': '--bipartite or --one-kind', 'check': '',
         'comments': '--comments or --no-comments', 'directed': '--both-ways',
         'header': '--header or --no-header', 'nodelist': '',
         'tls': '--tls, --cacert, --cert or --key', 'token': '', 'values': '--pattern'}


def flag_of(parameter: str) -> str:
    """The flag of a parameter of Python."""
    return FLAGS.get(parameter, '--' + parameter.replace('_', '-'))


def describe_flags(fault: BaseException) -> str:
    """Name the flags for the parameters that an error is about."""
    flags = map(flag_of, parameters_of(find_refusal(fault)))
    found = ', '.join(filter(None, dict.fromkeys(flags)))
    return ' (flags: %s)' % found if found else ''


def show_warning(message: Union[Warning, str], *_: object, **__: object) -> None:
    """Print a warning as one line on standard error, in the command line's words."""
    words = ' '.join(str(message).replace(MORE_STEPS, MORE_STEPS_HERE).split())
    print('%s: %s' % (PROGRAM, words), file=sys.stderr)


def finish(fault: BaseException) -> int:
    """Print a fault on standard error, and give its status; print nothing if nobody reads."""
    status = status_of(fault)
    if status is Status.PIPE:
        # nothing more is to be written to standard output, also not when Python ends
        os.dup2(os.open(os.devnull, os.O_WRONLY), sys.stdout.fileno())
        return status
    if status is Status.FAULT and os.environ.get(TRACE):
        raise fault
    print('%s: %s' % (PROGRAM, words_of(fault)), file=sys.stderr)
    return status


# -- results

class Result(NamedTuple):
    """The names of the fields, and rows of so many: names of vertices, whole numbers, floats where
    a value is a fraction, and decimals where values have a unit. `single` says that there is one
    row, such as a number that is the whole result."""
    fields: Sequence[str]
    rows: Iterable[Sequence[Any]]
    single: bool = False


# -- forms

def format_lines(options: SimpleNamespace, result: Result) -> Iterable[str]:
    """A result in the form that the options ask for."""
    if options.json:
        return _format_json(result)
    return _format_csv(result) if options.csv else _format_plain(result)


def _format_plain(result: Result) -> Iterator[str]:
    """A line a row, its fields separated by blanks, or by tabs where a name has blanks."""
    rows = [[_format_cell(cell) for cell in row] for row in result.rows]
    between = TABS if any(len(cell.split()) != 1 for row in rows for cell in row) else BLANKS
    return (between.join(row) + '\n' for row in rows)


def _format_csv(result: Result) -> Iterator[str]:
    """A header and a line a row. (Quoted where a name has commas, as RFC 4180 has it, with LF at
    the ends of lines.)"""
    yield csv_line(result.fields)
    for row in result.rows:
        yield csv_line(map(_format_cell, row))


def _format_json(result: Result) -> Iterator[str]:
    """An object a row, each on a line of its own."""
    objects = (json.dumps(dict(zip(result.fields, map(_plain_object, row))), ensure_ascii=False)
               for row in result.rows)
    texts = ',\n'.join(objects)
    yield texts + '\n' if result.single else '[\n%s\n]\n' % texts if texts else '[]\n'


def _plain_object(cell: object) -> Any:
    """A cell as JSON has it: whole numbers as such, also those of numpy; names that are no text or
    number by their words."""
    if cell is None or isinstance(cell, (bool, int, float, str, list, dict)):
        return cell
    if isinstance(cell, decimal.Decimal):
        return float(cell)
    return int(cell) if hasattr(cell, '__index__') else str(cell)


def _format_cell(cell: object) -> str:
    """A cell as text: fractions to nine decimals, decimals of the graph's unit as they are."""
    return ('%.9f' % cell if isinstance(cell, float) else format(cell, 'f')
            if isinstance(cell, decimal.Decimal) else '' if cell is None else str(cell))


def is_column(matrix: Matrix) -> bool:
    """Tell a column from a matrix of one vertex: a result's only column has no name."""
    return matrix.ncols == 1 and matrix.column_nodes is None


def list_entries(options: SimpleNamespace, matrix: Matrix, called: str,
                 show: Callable[[int], Any] = int) -> Result:
    """A matrix as rows, one an entry: the names of its row and its column, of a column the row's
    alone. Then what is shown of the value, which is called so. Nothing is asked of the server once
    they are handed out."""
    is_one = is_column(matrix)
    entries: List[Tuple[Any, ...]] = [
        *(matrix.by_node(raw=True).items() if is_one else matrix.to_edgelist(raw=True))]
    if options.top is not None:
        entries = heapq.nlargest(options.top, entries, key=operator.itemgetter(-1))
    return Result((*(NODE if is_one else EDGE), called),
                  [(*entry[:-1], show(entry[-1])) for entry in entries])


# -- where a result goes

def check_output(options: SimpleNamespace) -> None:
    """Say before the work if the words don't go together, or the result can go nowhere."""
    if options.mtx and options.top is not None:
        raise click.UsageError('--top: not with --mtx, which has the whole result')
    folder = os.path.dirname(options.output or '')
    if folder and not os.path.isdir(folder):
        raise Ended(Status.OTHER, '%s: no such folder' % folder)


@contextlib.contextmanager
def writing(path: Optional[str]) -> Iterator[None]:
    """What is done here writes a result, to standard output where there is no path: a failure is
    told as such."""
    try:
        yield
    except BrokenPipeError:
        raise
    except OSError as fault:
        raise Ended(Status.OTHER,
                    '%s: not written: %s' %
                    (path or 'standard output', fault.strerror or fault)) from None


def write(options: SimpleNamespace, lines: Iterable[str]) -> None:
    """Write a result where it goes, now."""
    with writing(options.output), contextlib.ExitStack() as opened:
        file: IO[str] = sys.stdout if options.output is None else opened.enter_context(
            open(options.output, 'w', encoding='utf-8'))
        file.writelines(lines)
        file.flush()


@contextlib.contextmanager
def open_progress(options: SimpleNamespace) -> Iterator[Optional[Bar]]:
    """Show progress if standard error is a terminal and tqdm is installed. Standard output may be
    the same terminal: write to it after this, or clear the bar before."""
    if options.quiet or not sys.stderr.isatty() or importlib.util.find_spec('tqdm') is None:
        yield None
        return
    bar = Bar(file=sys.stderr)
    try:
        yield bar
    finally:
        bar.clear()
