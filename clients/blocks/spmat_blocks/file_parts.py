"""Parts of files that workers read by themselves: ranges of a Matrix Market file or of a list,
whole files, frames of pandas. Their lines are sorted out by the blocks that have their rows.

A line belongs to the range in which it begins, so ranges may end anywhere. Whatever is unusual or
wrong in a range is told as such, and left to whoever reads the file line by line and names the
line. A part of a list has the names that stand in it, and its edges by their numbers there; the
caller's process tells then which vertices these are.

The functions that take a store first are tasks, as those of `worker_tasks` are.
"""
from __future__ import annotations

# each task is given the store of its worker, whether it wants it or not
# pylint: disable=unused-argument

import os
from typing import Any, Callable, List, NamedTuple, Optional, Sequence, Tuple

import numpy

from spmat import Operator
from spmat.errors import ReadError, Refused, TextRefused
from spmat.extending import (BANNER, Edges, HEAD_LINES, LEAST, LIST_FORMATS, Layout, LeftOut,
                             ListForm, ListTable, MOST, MarketKind, PATTERN_BANNER, Request,
                             Triples, check_format, decode_list, edges_of, edges_of_frame,
                             head_of_text, load_file, lower_triangle, mirrored, number_names,
                             read_list, read_market_lines)
from spmat.extending import read_lines as read_entries
from . import row_partition
from .row_partition import Cut, Stored, write_texts
from .worker_store import Piece, Store
from .worker_tasks import source

UNUSUAL = -1
Names = Any
"""An ascending array of whole numbers, or a list of texts and others in the order in which they
first stand."""


class Stamp(NamedTuple):
    """What tells that a file is the one that was looked at: its bytes, and when it was changed."""
    size: int
    changed: int


class Range(NamedTuple):
    """The lines of a file that begin at one of these bytes."""
    path: str
    stamp: Stamp
    first: int
    end: int

    def __str__(self) -> str:
        return 'bytes %d to %d of %s' % (self.first, self.end, self.path)

    def cut(self, first: int, most: int, least: int) -> List[Range]:
        """Ranges of what is left of it from a byte on: of so many bytes at most, and at least so
        many of them."""
        many = max(least, -(-(self.end - first) // most))
        bounds = [first + (self.end - first) * k // many for k in range(many + 1)]
        return [Range(self.path, self.stamp, *both) for both in zip(bounds, bounds[1:])]


def read_stamp(place: int, path: str) -> Optional[Stamp]:
    """What tells a file apart that this worker sees, None where there is none here."""
    try:
        status = os.stat(path)
    except OSError:
        return None
    return Stamp(status.st_size, status.st_mtime_ns)


def read_lines(part: Range) -> bytes:
    """The lines of a range, each with its LF. ValueError where the file isn't the one that was
    looked at."""
    with open(part.path, 'rb') as file:
        status = os.fstat(file.fileno())
        if Stamp(status.st_size, status.st_mtime_ns) != part.stamp:
            raise ValueError('the file %s has changed while it was read' % part.path)
        if part.first:
            file.seek(part.first - 1)
            file.readline()
        text = file.read(max(0, part.end - file.tell()))
        if text and not text.endswith(b'\n'):
            text += file.readline()
    return text if text.endswith(b'\n') or not text else text + b'\n'


# -- lines by blocks

def _write_lines(triples: Triples, bare: bool, cut: Cut, path: str) -> List[Stored]:
    """The lines of each block, in the order of the entries; in a file where a path is given."""
    parts = [Stored(*row_partition.write_lines(block, bare))
             for block in row_partition.split_rows(triples, cut)]
    return write_texts(parts, path) if path else parts


# -- Matrix Market files

class Market(NamedTuple):
    """What the first lines of a Matrix Market file say."""
    kind: MarketKind
    nrows: int
    ncols: int


def split_range(store: Store, part: Range, market: Market, cut: Cut, path: str) -> List[Any]:
    """The lines of a range of a file by blocks, in another file where a path is given. Last comes
    how many lines of the file they are, or `UNUSUAL` if these are to be read one by one."""
    body = read_lines(part)
    triples = read_market_lines(market.kind, body, market.nrows, market.ncols)
    if triples is None:
        return [Stored(b'')] * cut.blocks + [UNUSUAL]
    lines = len(triples.rows)
    triples = mirrored(triples, market.kind.symmetry)
    return [*_write_lines(triples, market.kind.is_bare, cut, path), lines]


# -- lists of edges, and frames

class EdgePart(NamedTuple):
    """Edges of a part: the numbers of sources and targets, by one list of names or, of two kinds of
    vertices, by two; and values or None."""
    codes: List[Any]
    names: List[Names]
    values: Optional[Any]
    summary: str
    left_out: LeftOut


def read_range(part: Range, form: ListForm) -> Optional[Edges]:
    """The edges of lines of a list, which are read in bulk; None where they have to be read line by
    line."""
    try:
        lines = decode_list('', read_lines(part))
        return read_list(ListTable('', lines, lines, 1, form), Layout())
    except ReadError:                              # which the caller's process names
        return None


def read_file(path: str, request: Request) -> Edges:
    """The edges of a file that one worker reads: a list, also packed, or of parquet. ReadError,
    with file and line, where it can't be read."""
    text = load_file(path, request.max_bytes)
    request = request._replace(format='parquet') if text.startswith(b'PAR1') else request
    format = check_format(path, text, request.format)
    if format not in LIST_FORMATS:
        raise ReadError(path, None, 'the files of a folder are lists of edges or parquet, '
                        'and this is one of the format %s: read it by itself' % format)
    return edges_of(path, text, request)[0]


def read_frame(frame: Any, ends: Tuple[Any, Any], value: Any, layout: Layout) -> Edges:
    """The edges of a frame of pandas, or of what computes one, by columns. ValueError, with the
    row, where they can't be read."""
    frame = frame.compute() if hasattr(frame, 'compute') else frame
    return edges_of_frame(frame, ends, value, layout)


def read_edges(store: Store, read: Callable[..., Optional[Edges]], args: Sequence[Any],
               bipartite: bool) -> Optional[EdgePart]:
    """What one of these functions reads, by number. Its arguments come in a plain list: there Dask
    looks for what it has to compute."""
    edges = read(*args)
    if edges is None:
        return None
    codes: List[Any] = []
    names: List[Names] = []
    for columns in ([[edges.sources], [edges.targets]] if bipartite
                    else [[edges.sources, edges.targets]]):
        found, nodes = number_names(columns)
        codes += found
        is_whole = all(type(name) is int and LEAST <= name <= MOST for name in nodes)
        names.append(numpy.array(nodes, numpy.int64) if is_whole else list(nodes))
    return EdgePart(codes, names, edges.values, edges.summary, edges.left_out)


def tell_names(store: Store, part: Optional[EdgePart]) -> Optional[EdgePart]:
    """A part without its edges: its names, and of values whether there are any."""
    return part and part._replace(codes=[], values=part.values is not None)


class To(NamedTuple):
    """Where the edges of a part go: the numbers of its names among all, and the sizes of the
    matrix. Also whether edges lead one way alone, and whether lines have no value."""
    places: List[Any]
    nrows: int
    ncols: int
    directed: bool
    bare: bool


def _triples(part: EdgePart, to: To) -> Triples:
    rows, columns = (to.places[min(at, len(to.places) - 1)][codes].astype(numpy.int64)
                     for at, codes in enumerate(part.codes))
    values = numpy.ones(len(rows), numpy.int64) if part.values is None else part.values
    triples = Triples(rows, columns, values, to.nrows, to.ncols)
    return (triples if to.directed
            else mirrored(lower_triangle(triples, 'symmetric'), 'symmetric'))


def count_rows(store: Store, part: EdgePart, to: To, edges: Sequence[int]) -> Any:
    """How many entries of a part lie in the rows from each edge to below the next."""
    return numpy.histogram(_triples(part, to).rows, numpy.array(edges))[0]


def split_edges(store: Store, part: EdgePart, to: To, cut: Cut, path: str) -> List[Stored]:
    """The lines of each block out of a part, in a file where a path is given."""
    return _write_lines(_triples(part, to), to.bare, cut, path)


# -- blocks of lines

class Fold(NamedTuple):
    """What becomes of edges that share a position: an operator, and whether they have values."""
    op: Optional[Operator]
    weighted: bool


class Repeated(ReadError):
    """An edge with a value is given twice: the numbers of its vertices are known, its line
    isn't."""

    def __init__(self, row: int, column: int) -> None:
        super().__init__('the edges', None,
                         'the edge between %d and %d is there already' % (row, column))
        self.row, self.column = row, column

    def __reduce__(self) -> Tuple[Any, ...]:
        return Repeated, (self.row, self.column)


def make_block(store: Store, bare: bool, shape: Tuple[int, int], parts: Sequence[Stored],
               path: str, fold: Optional[Fold] = None) -> Piece:
    """A block of its lines in several parts, which have no values where it is `bare`. Its text is
    kept in a file where a path is given. What repeats is refused, unless `fold` says what becomes
    of it."""
    text = row_partition.text_of(*shape, [(part.text(), part.entries) for part in parts])
    banner = PATTERN_BANNER if bare else BANNER
    try:
        made = Stored(banner + text[len(BANNER):])
        return source(store, write_texts([made], path)[0] if path else made)
    except TextRefused as fault:
        if fault.rule != 'M8' or fold is None:
            raise
        refused: Refused = fault
    return _fold_lines(store, bare, text, fold, refused)


def _fold_lines(store: Store, bare: bool, text: bytes, fold: Fold, refused: Refused) -> Piece:
    """A block of lines that repeat: they are folded, or count once where they have no values.
    ValueError where a sum is beyond 64 bits."""
    nrows, ncols, _, start = head_of_text(text)
    rows, columns, *values = read_entries(text[start:], 2 if bare else 3).T
    triples = Triples(rows - 1, columns - 1, values[0] if values
                      else numpy.ones(len(rows), numpy.int64), nrows, ncols)
    if fold.op is not None:
        return store.piece(store.session.from_coo(*triples, dup_op=fold.op))
    if fold.weighted:
        assert refused.at is not None
        at = refused.at - HEAD_LINES - 1
        raise Repeated(int(triples.rows[at]), int(triples.columns[at]))
    first = numpy.unique(triples.rows * max(ncols, 1) + triples.columns, return_index=True)[1]
    return store.piece(store.session.from_coo(triples.rows[first], triples.columns[first],
                                              triples.values[first], nrows, ncols))
