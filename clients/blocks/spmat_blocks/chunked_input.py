"""Matrices that come by pieces: files, and edges as a generator gives them. No more than a block of
them is held.

What comes is counted by rows and laid into a file of this machine. Then it is known where to cut,
and each block is read back and made a text of. Where rows come in ascending order, a block lies in
one piece of that file; else the entries are laid into a file for each block first.
"""
from __future__ import annotations

import abc
import contextlib
import itertools
import os
import tempfile
from typing import Any, BinaryIO, Callable, ContextManager, Iterable, Iterator, Optional, Set, Tuple

import numpy

from spmat import limits
from spmat.errors import Refused, refusal
from spmat.extending import (DUP_OP, FileLimit, MarketLine, MarketReader, MarketValues, Metadata,
                             NOTHING, Triples, check_entries, columns_of, find_repeated_line,
                             mirrored, name_of, open_file, refuse_repeated, write_text)
from .engine import Progress
from .row_partition import Cut, split_rows

PIECE = 1 << 23                                    # bytes of a file that are read at a time
CHUNK = 1 << 16                                    # edges of a generator that are taken at a time
WIDTH = 24                                         # bytes of an entry in a spool: three words
ENTRIES = 1 << 18                                  # entries that are sorted out at a time


class Spooled(abc.ABC):
    """Entries whose rows can be counted, and that are given block by block."""
    nrows: int
    ncols: int
    notes: Metadata = NOTHING
    symmetry = 'general'                           # of a file whose other triangle isn't here yet

    @property
    @abc.abstractmethod
    def counts(self) -> Any:
        """The number of entries of each row."""

    @abc.abstractmethod
    def blocks(self, cut: Cut) -> Iterator[Triples]:
        """The entries of each block, in order."""

    def texts(self, cut: Cut,
              fold: Callable[[Triples], Triples] = lambda triples: triples) -> Iterator[bytes]:
        """The text of each block, in order, folded where its positions may repeat: TooLarge where
        one is longer, or has more entries, than a session takes."""
        for block, triples in enumerate(self.blocks(cut)):
            triples = fold(triples)
            if len(triples.rows) > limits.MOST_SIDE:
                raise refusal('M4',
                              detail='%d entries in %s' % (len(triples.rows), cut.label(block)))
            text = write_text(triples)
            if len(text) > limits.MOST_TEXT:
                raise refusal('S7',
                              detail='the text of %s has %d bytes' % (cut.label(block), len(text)))
            yield text


class InMemory(Spooled):
    """Entries that the caller holds already."""

    def __init__(self, triples: Triples) -> None:
        self.nrows, self.ncols = triples.nrows, triples.ncols
        self._triples = triples

    @property
    def counts(self) -> Any:
        return numpy.bincount(self._triples.rows, minlength=self.nrows)

    def blocks(self, cut: Cut) -> Iterator[Triples]:
        return split_rows(self._triples, cut)


class Spool(Spooled):
    """Entries in a file of this machine. To be used in a `with`, or closed."""

    def __init__(self, nrows: int, ncols: int) -> None:
        self.nrows, self.ncols = nrows, ncols
        self._counts = numpy.zeros(nrows, numpy.int64)
        self._file: BinaryIO = tempfile.TemporaryFile()  # type: ignore[assignment]
        self._ascends, self._last = True, 0

    def __enter__(self) -> 'Spool':
        return self

    def __exit__(self, *_: Any) -> None:
        self._file.close()

    @property
    def counts(self) -> Any:
        return self._counts

    def take(self, edges: Iterable[Any]) -> None:
        """Adds edges of a generator: (row, column, value), or chunks that are arrays with these as
        columns."""
        several = iter(edges)
        for first in several:
            if isinstance(first, numpy.ndarray) and first.ndim == 2:
                many: Any = first
            else:
                many = list(itertools.chain([first], itertools.islice(several, CHUNK - 1)))
            self.add(check_entries(*columns_of(many), self.nrows, self.ncols))

    def add(self, triples: Triples) -> None:
        """Adds entries, which are within the sizes."""
        rows = triples.rows
        if len(rows) == 0:
            return
        least = int(rows.min())
        more = numpy.bincount(rows - least)
        self._counts[least:least + len(more)] += more
        self._file.write(_pack(triples))
        if self._ascends:
            self._ascends = self._last <= rows[0] and bool((rows[1:] >= rows[:-1]).all())
            self._last = rows[-1]

    def blocks(self, cut: Cut) -> Iterator[Triples]:
        if self._ascends:
            self._file.seek(0)
            for first, end in cut.ranges():
                yield self._unpack(self._file.read(int(self._counts[first:end].sum()) * WIDTH))
            return
        yield from self._sort_by_blocks(cut)

    def _sort_by_blocks(self, cut: Cut) -> Iterator[Triples]:
        """The blocks, by a file for each."""
        parts = [tempfile.TemporaryFile() for _ in range(cut.blocks)]
        try:
            self._file.seek(0)
            for piece in iter(lambda: self._file.read(ENTRIES * WIDTH), b''):
                for part, triples in zip(parts, split_rows(self._unpack(piece), cut)):
                    part.write(_pack(triples))
            for part in parts:
                part.seek(0)
                yield self._unpack(part.read())
        finally:
            for part in parts:
                part.close()

    def _unpack(self, data: bytes) -> Triples:
        table = numpy.frombuffer(data, numpy.int64).reshape(-1, 3)
        rows, columns, values = (table[:, k].copy() for k in range(3))
        return Triples(rows, columns, values, self.nrows, self.ncols)


def _pack(triples: Triples) -> bytes:
    return numpy.column_stack(triples[:3]).astype(numpy.int64, copy=False).tobytes()


# -- Matrix Market files

def _open(source: Any, limit: FileLimit = FileLimit()) -> ContextManager[Any]:
    is_open = hasattr(source, 'read')
    return contextlib.nullcontext(source) if is_open else open_file(source, limit)


def spool_file(source: Any, values: MarketValues = MarketValues(),
               progress: Progress = None, whole: bool = True,
               limit: FileLimit = FileLimit()) -> Spool:
    """The entries of a file, which is read by pieces; an `array` file at once. What is refused
    names the file. Unless the `whole` is wanted, the other triangle of a symmetric one is left
    out."""
    # 0 where it isn't known
    size = 0 if hasattr(source, 'read') or progress is None else os.path.getsize(source)

    def report(done: int) -> None:
        if progress is not None:
            progress('read', done, size)
    try:
        with _open(source, limit) as file, contextlib.ExitStack() as failing:
            reader = MarketReader(file, values)
            spool = failing.enter_context(Spool(reader.nrows, reader.ncols))
            spool.symmetry = 'general' if whole else reader.kind.symmetry
            for triples in reader.pieces(PIECE, report):
                spool.add(mirrored(triples, reader.kind.symmetry) if whole
                          else triples)
            spool.notes = reader.kind.notes
            failing.pop_all()
    except Refused as fault:
        raise fault.of_file(name_of(source)) from None
    return spool


# -- positions that repeat: a session names the line of a text that nobody but it saw

def _find_repeated(triples: Triples) -> Optional[int]:
    """The first entry whose position an earlier one has, as they were given; None where each
    position stands once."""
    key = triples.rows * max(triples.ncols, 1) + triples.columns
    order = numpy.argsort(key, kind='stable')
    again = order[1:][key[order][1:] == key[order][:-1]]
    return int(again.min()) if len(again) else None


def refuse_triples(triples: Triples, fault: Refused) -> Refused:
    """The refusal of entries that came as lists or arrays."""
    at = _find_repeated(triples)
    return fault if at is None else refuse_repeated(triples, at)


def refuse_line(source: Any, start: Optional[int], spool: Spooled, cut: Cut,
                fault: Refused) -> Refused:
    """The refusal of a file's line, which is found by reading the file once more; where it can't
    be, of the position."""
    again: Set[Tuple[int, int]] = set()            # of each block one
    for triples in spool.blocks(cut):
        at = _find_repeated(triples)
        if at is not None:
            again.add((int(triples.rows[at]), int(triples.columns[at])))
    row, column = min(again, default=(-1, -1))
    named = ('row %d, column %d is given twice; %s' % (row + 1, column + 1, DUP_OP) if again
             else '')
    with contextlib.suppress(OSError, ValueError):
        if start is not None:
            source.seek(start)
        if start is not None or not hasattr(source, 'read'):
            with _open(source) as file:
                return find_repeated_line(file, again) or fault.hinting('M8', named)
    return MarketLine(1, b'').refused('M8', named)
