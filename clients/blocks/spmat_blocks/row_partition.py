"""Where the rows of a matrix are cut into blocks, and texts cut at rows.

A cut of n blocks is n + 1 bounds: block k has the rows from bound k to below bound k + 1. Blocks
may have no row. Texts are the server's (`show`): their entries stand by ascending row, so the lines
of some rows are found by halving and are cut out as they are.
"""
from __future__ import annotations

import hashlib
from typing import Any, Callable, Iterable, Iterator, List, NamedTuple, Sequence, Tuple

import numpy

from spmat import limits
from spmat.errors import refusal
from spmat.extending import BANNER, Triples, head_of_text, write_text


# rows or ranges of rows that are counted, to cut there
RANGES = 4096


class Cut(NamedTuple):
    """Where rows are cut: bounds that ascend from 0 to the number of rows."""
    bounds: Tuple[int, ...]

    @property
    def nrows(self) -> int:
        """The rows of the whole."""
        return self.bounds[-1]

    @property
    def blocks(self) -> int:
        """How many blocks there are, those without a row among them."""
        return len(self.bounds) - 1

    def rows(self, block: int) -> Tuple[int, int]:
        """The first row of a block, and the one behind its last."""
        return self.bounds[block], self.bounds[block + 1]

    def ranges(self) -> Iterator[Tuple[int, int]]:
        """`rows` of each block."""
        return zip(self.bounds, self.bounds[1:])

    def label(self, block: int) -> str:
        """A block in words, as errors name it."""
        first, end = self.rows(block)
        rows = 'rows %d to %d' % (first, end - 1) if first < end else 'no rows'
        return 'block %d of %d, %s' % (block, self.blocks, rows)

    def meeting(self, first: int, end: int) -> List[int]:
        """The blocks that have any of the rows from `first` to below `end`."""
        return [k for k, (start, stop) in enumerate(self.ranges())
                if max(start, first) < min(stop, end)]


def check_cut(bounds: Iterable[int], nrows: int) -> Cut:
    """A cut that a caller gives, looked at. ValueError where the bounds don't ascend from 0 to the
    number of rows."""
    cut = Cut(tuple(bounds))
    if (len(cut.bounds) < 2 or cut.bounds[0] != 0 or cut.nrows != nrows
        or any(a > b for a, b in cut.ranges())):
        raise ValueError('a cut ascends from 0 to the %d rows, and this is %s' %
                         (nrows, cut.bounds))
    return cut


def cut_by_entries(counts: Sequence[int], blocks: int) -> Cut:
    """The cut into so many blocks of about as many entries each, by the number of entries of each
    row. A row is never divided, so a row with most of the entries has a block to itself, and others
    may stay without a row."""
    ends: Any = numpy.cumsum(counts)
    total = int(ends[-1]) if len(ends) else 0
    if not total:
        return cut_evenly(len(counts), blocks)
    wanted = total * numpy.arange(1, blocks) / blocks
    at: Any = numpy.searchsorted(ends, wanted)
    before = numpy.where(at > 0, ends[at - 1], 0)
    # a cut is where the entries before it are nearest to so many
    at += wanted - before > ends[at] - wanted
    return Cut((0, *at.tolist(), len(counts)))


def cut_by_ranges(nrows: int, blocks: int, count: Callable[[List[int]], List[Any]]) -> Cut:
    """A cut by entries at some rows, of which there are 4,096 at most. `count` gives how many
    entries of each part of a matrix lie in the rows from each of these to below the next."""
    ranges = max(1, min(RANGES, nrows))
    edges = [nrows * k // ranges for k in range(ranges + 1)]
    found = cut_by_entries([int(sum(many)) for many in zip(*count(edges))], blocks)
    return Cut(tuple(edges[bound] for bound in found.bounds))


def cut_evenly(nrows: int, blocks: int) -> Cut:
    """The cut into so many blocks of about as many rows each, where nothing is known of the
    entries."""
    return Cut(tuple(nrows * k // blocks for k in range(blocks + 1)))


def split_rows(triples: Triples, cut: Cut) -> Iterator[Triples]:
    """The entries of each block, in the order in which they come."""
    rows, columns, values, nrows, ncols = triples
    of = numpy.searchsorted(numpy.array(cut.bounds[1:-1], numpy.int64), rows, side='right')
    # numbers of 16 bits are sorted by their digits, in less time
    order = numpy.argsort(of.astype(numpy.uint16 if cut.blocks < 1 << 16 else numpy.int64),
                          kind='stable')
    ends = numpy.searchsorted(of[order], numpy.arange(cut.blocks + 1)).tolist()
    for first, end in zip(ends, ends[1:]):
        at = order[first:end]
        yield Triples(rows[at], columns[at], values[at], nrows, ncols)


def write_lines(triples: Triples, bare: bool = False) -> Tuple[bytes, int]:
    """The lines of entries, without values where these are `bare` and 1 each; and their number."""
    text = write_text(triples, ones=bare)
    return text[head_of_text(text).start:], len(triples.rows)


def lines_of(text: bytes, first: int, end: int) -> Tuple[bytes, int]:
    """The lines of the entries in the rows from `first` to below `end`, and their number, out of a
    text as the server writes it."""
    nrows, _, _, start = head_of_text(text)
    if first <= 0 and end >= nrows:
        lines = text[start:]
    else:
        at = _line_of_row(text, start, first)
        lines = text[at:_line_of_row(text, at, end)]
    return lines, lines.count(b'\n')


def _line_of_row(text: bytes, start: int, row: int) -> int:
    """Where the first line of a row, or of one behind it, begins at or behind `start`."""
    low, high = start, len(text)
    while low < high:
        middle = text.rfind(b'\n', low, (low + high) // 2) + 1 or low
        if int(text[middle:text.index(b' ', middle)]) - 1 < row:
            low = text.index(b'\n', middle) + 1
        else:
            high = middle
    return low


def head(nrows: int, ncols: int, count: int) -> bytes:
    """What stands before the lines of the entries in a text."""
    return BANNER + b'%d %d %d\n' % (nrows, ncols, count)


def text_of(nrows: int, ncols: int, parts: Sequence[Tuple[bytes, int]]) -> bytes:
    """One text of lines and their numbers. TooLarge where it is longer, or has more entries, than a
    session takes."""
    count, size = sum(part[1] for part in parts), sum(len(part[0]) for part in parts)
    first = head(nrows, ncols, count)
    if count > limits.MOST_SIDE:
        raise refusal('M4', detail='%d entries' % count)
    if len(first) + size > limits.MOST_TEXT:
        raise refusal('S7', detail='the text has %d bytes' % (len(first) + size))
    return b''.join([first, *(part[0] for part in parts)])


# -- texts, and where they lie

class Stored(NamedTuple):
    """Text of a block, or some of its lines: itself, or where it lies in a file and what tells its
    content. Lines also have the number of entries."""
    data: bytes
    entries: int = 0
    path: str = ''
    first: int = 0
    end: int = 0

    def text(self) -> bytes:
        """The text. ValueError where the file has changed since it was written."""
        if not self.path:
            return self.data
        with open(self.path, 'rb') as file:
            file.seek(self.first)
            text = file.read(self.end - self.first)
        if _digest_of(text) != self.data:
            raise ValueError('the file %s has changed since it was written' % self.path)
        return text


def write_texts(texts: Sequence[Stored], path: str) -> List[Stored]:
    """The same texts in a file, one after the other."""
    out, at = [], 0
    with open(path, 'wb') as file:
        for text in texts:
            file.write(text.data)
            end = at + len(text.data)
            out.append(Stored(_digest_of(text.data), text.entries, path, at, end))
            at = end
    return out


def _digest_of(text: bytes) -> bytes:
    return hashlib.blake2b(text, digest_size=32).digest()
