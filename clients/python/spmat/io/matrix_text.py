"""Matrix text as the server reads and writes it: `coordinate integer general`, from triples and
back.

Triples are three arrays of numpy (int64) of one length, indices from 0. The server's own reader and
writer make them and the text, of the `library`. Where there is none, numpy and `re` do, in more
time.
"""
from __future__ import annotations

import re
from typing import Any, List, NamedTuple, Optional, Tuple

import numpy

from .. import limits
from ..integers import LEAST, MOST
from ..library import Answer, load

BANNER = b'%%MatrixMarket matrix coordinate integer general\n'
HEAD_LINES = 2                                     # lines before the first entry in a text of ours
PATTERN = b'%%MatrixMarket matrix coordinate pattern general\n'
EMPTY = BANNER + b'0 0 0\n'
# fewer are written in less time from lists than from arrays
FEW_LINES = 64
# The library goes through all rows: where so many are without an entry, the other way is shorter.
MANY_BLANK_ROWS = 100
SHORTEST_LINE = len(b'1 1 0\n')
# what `spmat_read` answers where memory was refused; below it stands the number of a rule
MEMORY = 13
REFUSED = (1 << 64) - 1
# bytes of the longest line, as the library wants them for each
LINE = 40
# a text as the server writes it
SIZE = rb'(?:0|[1-9]\d{0,7})'
WHOLE = re.compile(re.escape(BANNER) + b' '.join([SIZE] * 3)
                   + rb'\n(?:[1-9]\d{0,7} [1-9]\d{0,7} (?:0|-?[1-9]\d{0,18})\n)*')


class Triples(NamedTuple):
    """Entries by row, column and value, and the two sizes."""
    rows: Any
    columns: Any
    values: Any
    nrows: int
    ncols: int


def is_array(thing: Any) -> bool:
    """Whether this is an array of numpy."""
    return isinstance(thing, numpy.ndarray)


def as_arrays(triples: Triples) -> Triples:
    """The same entries as new arrays of numpy, which the caller may change."""
    rows, columns, values = (numpy.array(many, numpy.int64) for many in triples[:3])
    return Triples(rows, columns, values, triples.nrows, triples.ncols)


def write(triples: Triples, ones: bool = False, symmetric: bool = False) -> bytes:
    """The text of triples, in their order. With `ones` a text without values, each of which is 1,
    is written as `pattern`: a third shorter, and sooner read. With `symmetric` an entry off the
    diagonal stands for its mirror, too."""
    rows, columns, values = [numpy.asarray(many, numpy.int64) for many in triples[:3]]
    nrows, ncols = triples[3:]
    bare = ones and len(values) > 0 and bool((values == 1).all())
    head = (PATTERN if bare else BANNER) + b'%d %d %d\n' % (nrows, ncols, len(rows))
    head = head.replace(b'general', b'symmetric') if symmetric else head
    text = (None if len(rows) < FEW_LINES
            else write_by_library(head, rows, columns, None if bare else values))
    if text is not None:
        return text
    at = (rows + 1).tolist(), (columns + 1).tolist()
    if bare:
        return head + b''.join([b'%d %d\n' % line for line in zip(*at)])
    return head + b''.join([b'%d %d %d\n' % line for line in zip(*at, values.tolist())])


def read(text: bytes) -> Triples:
    """The triples of a text as the server writes it, by ascending row and column. ValueError of a
    text that is none of a matrix."""
    nrows, ncols, nvals, start = head_of(text)
    if nvals * SHORTEST_LINE > len(text) - start:
        raise ValueError('%d entries have no room in %d bytes' % (nvals, len(text) - start))
    if nrows > MANY_BLANK_ROWS * (nvals + MANY_BLANK_ROWS):
        return _read_by_numpy(text)
    found = read_by_library(text, nvals)
    if found is None:
        return _read_by_numpy(text)
    (rows, columns, values), answer = found
    if answer.rule:
        raise ValueError('line %d breaks rule M%d' % (answer.line, answer.rule))
    if (answer.rows, answer.columns, answer.entries) != (nrows, ncols, nvals):
        raise ValueError('the sizes of the text are others than its second line says')
    return Triples(rows, columns, values, nrows, ncols)


def write_by_library(head: bytes, rows: Any, columns: Any, values: Any) -> Optional[bytes]:
    """A head and the lines of entries, without values where these are None. None without a library,
    and where an index is none of a matrix."""
    library = load()
    if library is None:
        return None
    out = numpy.empty(len(head) + LINE * len(rows), numpy.uint8)
    arrays: List[Any] = [numpy.ascontiguousarray(many, numpy.int64)
                         for many in (rows, columns, () if values is None else values)]
    start = library.spmat_write(*(word for many in [*arrays, out]
                                  for word in (many.ctypes.data, len(many))))
    if start == REFUSED:
        return None
    out[start - len(head):start] = numpy.frombuffer(head, numpy.uint8)
    return out[start - len(head):].tobytes()


def read_by_library(text: bytes, count: int) -> Optional[Tuple[Any, Answer]]:
    """Rows, columns (from 0) and values of a text that has so many entries: an array of three rows.
    Then what the library says of the text: the array has its entries if that names no rule. None
    without a library. MemoryError where there is none for the matrix."""
    library = load()
    if library is None:
        return None
    found = numpy.empty((3, count), numpy.int64)
    first, size = found.ctypes.data, 8 * count
    answer = library.spmat_read(text, len(text), first, count, first + size, count,
                                first + 2 * size, count)
    if answer.rule == MEMORY:
        raise MemoryError('no memory to read a text of %d bytes' % len(text))
    return found, answer


def _read_by_numpy(text: bytes) -> Triples:
    """The same without the library, of a text that is written as the server writes it."""
    nrows, ncols, nvals, start = head_of(text)
    if WHOLE.fullmatch(text) is None or max(nrows, ncols) > limits.MOST_SIDE:
        raise ValueError('it is not as the server writes a matrix')
    rows, columns, values = numpy.ascontiguousarray(read_any_lines(text[start:]).T)
    rows, columns = rows - 1, columns - 1
    places = rows * ncols + columns
    if not (len(rows) == nvals and (rows < nrows).all() and (columns < ncols).all()
            and (places[1:] > places[:-1]).all()):
        raise ValueError('its lines are not those of %d entries, in order' % nvals)
    return Triples(rows, columns, values, nrows, ncols)


def read_lines(lines: bytes, width: int = 3) -> Any:
    """The numbers of lines that the client or a server wrote, so many a line: an array with a row
    for each line."""
    numbers = (numpy.fromstring(lines, numpy.int64, sep=' ') if lines
               else numpy.zeros(0, numpy.int64))
    return numbers.reshape(-1, width)


def read_any_lines(lines: bytes, width: int = 3) -> Any:
    """The same of lines of anybody. ValueError of a number beyond 64 bits, and where lines have
    other widths."""
    found = read_lines(lines, width)
    # numpy takes the nearest number that has 64 bits
    if ((found == MOST) | (found == LEAST)).any() and found.ravel().tolist() != list(
        map(int, lines.split())):
        raise ValueError('a number is beyond 64 bits')
    return found


class Head(NamedTuple):
    """What a text says before its entries: rows, columns, entries; and where the entries begin."""
    nrows: int
    ncols: int
    nvals: int
    start: int


def head_of(text: bytes) -> Head:
    """The head of a text as the server writes it."""
    first = text.index(b'\n') + 1
    second = text.index(b'\n', first) + 1
    nrows, ncols, nvals = map(int, text[first:second].split())
    return Head(nrows, ncols, nvals, second)


def swapped(text: bytes) -> bytes:
    """The text of the transpose, from a text as the server writes it."""
    rows, columns, values, nrows, ncols = read(text)
    return write(Triples(columns, rows, values, ncols, nrows))


def mirrored(triples: Triples, symmetry: str) -> Triples:
    """All entries, from those of the lower triangle."""
    if symmetry == 'general':
        return triples
    sign = -1 if symmetry == 'skew-symmetric' else 1
    rows, columns, values, nrows, ncols = triples
    off = rows != columns
    return Triples(numpy.concatenate((rows, columns[off])), numpy.concatenate((columns, rows[off])),
                   numpy.concatenate((values, sign * values[off])), nrows, ncols)


def lowered(triples: Triples, symmetry: str) -> Triples:
    """Entries of the upper triangle in the lower one."""
    if symmetry == 'general':
        return triples
    sign = -1 if symmetry == 'skew-symmetric' else 1
    rows, columns, values, nrows, ncols = triples
    return Triples(numpy.maximum(rows, columns), numpy.minimum(rows, columns),
                   numpy.where(rows < columns, sign * values, values), nrows, ncols)


def start_of_line(text: bytes, at: int) -> int:
    """Where line `at` of a text, from 1, begins: at its end where there is none."""
    start = 0
    for _ in range(at - 1):
        start = text.find(b'\n', start) + 1 or len(text)
    return start


def line_at(text: bytes, at: int) -> str:
    """Line `at` of a text, from 1, cut where it is long; empty where there is none."""
    start = start_of_line(text, at)
    end = text.find(b'\n', start)
    line = text[start:] if end < 0 else text[start:end]
    return line[:100].decode('utf-8', 'replace').strip() + ('..' if len(line) > 100 else '')
