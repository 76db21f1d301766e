"""What workers do: pure functions of pieces, lines of text and operators, each with the worker's
store before its arguments.

An engine may run a task again, on any worker, and gets the same.
"""
from __future__ import annotations

# each task is given the store of its worker, whether it wants it or not
# pylint: disable=unused-argument

from typing import Any, Callable, Dict, List, Optional, Sequence, Tuple

import numpy

from spmat import Mask, Operator, Semiring, Session
from spmat.errors import BudgetExceeded, Closed, NotMade
from spmat.extending import (Budget, Triples, Vector, check_entries, check_indices, full_entries,
                             head_of_text, read_column, read_row, read_text, write_text)
from . import row_partition
from .engine import AtBlock, Settings
from .row_partition import Stored, write_texts
from .worker_store import Counts, Piece, Store, store_of

# times that a task is begun, where the program ends amid it
ATTEMPTS = 3
Lines = Tuple[bytes, int]
"""Lines of entries, and their number."""
MaskPiece = Tuple[Piece, bool, bool]
"""The matrix of a mask, whether its values count, and whether it is turned round."""


def perform(settings: Settings, place: int, label: str, function: Callable[..., Any],
            args: Sequence[Any]) -> Any:
    """A task with the store of a place here; what comes in it names the block. Where the program
    ends amid it, it is done again by another, some times."""
    for attempt in range(ATTEMPTS):
        try:
            return function(store_of(settings, place), *args)
        except Exception as fault:  # pylint: disable=broad-exception-caught  # it is named, and raised
            if isinstance(fault, AtBlock):
                raise
            cause = fault.__cause__ if isinstance(fault, NotMade) else None
            told = cause if isinstance(cause, Exception) else fault
            if not isinstance(told, Closed) or attempt + 1 == ATTEMPTS:
                raise AtBlock(label, told) from fault
    raise AssertionError


# -- pieces from nothing, or from texts

def source(store: Store, text: Stored) -> Piece:
    """A block from its text, which a session looks at."""
    return store.piece(store.session.from_text(text.text()), text)


def make_piece(store: Store, text: bytes) -> Piece:
    """A block from its text, which is here."""
    return source(store, Stored(text))


def take_text(store: Store, piece: Piece, path: str) -> Stored:
    """A block's text, in a file where a path is given."""
    return write_texts([Stored(piece.text())], path)[0] if path else piece.stored


def full(store: Store, first: int, end: int, shape: Tuple[int, int], value: int) -> Piece:
    """The rows from `first` to below `end` of a matrix with one value everywhere."""
    at = full_entries(end - first, shape[1], value)
    return make_piece(store, write_text(at._replace(rows=at.rows + first, nrows=shape[0])))


def identity(store: Store, first: int, end: int, shape: Tuple[int, int], value: int) -> Piece:
    """The rows from `first` to below `end` of a matrix with one value on its diagonal."""
    rows = check_indices(end - first) + first
    return make_piece(store, write_text(check_entries(rows, rows, value, *shape)))


# -- pieces from pieces

def job(store: Store, method: str, pieces: Sequence[Piece], mask: Optional[MaskPiece],
        args: Sequence[Any], options: Dict[str, Any]) -> Piece:
    """A method of Matrix on blocks, under a mask; of a job's result the price and the steps are
    told."""
    first, *others = [store.matrix(piece) for piece in pieces]
    return store.piece(getattr(first, method)(*others, *args, mask=_mask(store, mask), **options))


def _mask(store: Store, mask: Optional[MaskPiece]) -> Optional[Mask]:
    return None if mask is None else Mask(store.matrix(mask[0]), *mask[1:])


def fold_rows(store: Store, block: Piece, mask: Optional[MaskPiece], ring: Semiring) -> Piece:
    """A row of ones times a block."""
    matrix = store.matrix(block)
    return store.piece(store.session.ones(matrix.nrows).mxm(matrix, ring, mask=_mask(store, mask)))


def hand_on(store: Store, piece: Piece) -> Piece:
    """A piece that has its text, for all who want it."""
    return piece


def push_front(store: Store, block: Piece, front: Vector, ring: Semiring) -> Vector:
    """What comes to each vertex along the edges of a block that leave some vertices: the vertices,
    and a value for each."""
    row = store.session.backend.keep(
        Triples(front.at * 0, front.at, front.values, 1, block.counts.nrows))
    return read_row(row.mxm(store.matrix(block), ring))


def pull_front(store: Store, block: Piece, front: Piece, ring: Semiring) -> Vector:
    """What comes to the vertices whose rows of a transpose a block has: the vertices, and a value
    for each."""
    return read_column(store.matrix(block).mxm(store.matrix(front), ring))


def sum_of(store: Store, sofar: Piece, terms: Piece, add: Operator) -> Piece:
    """The terms of a product by one block of B, joined by ADD to what the blocks of B before it
    gave. Prices and steps are those of all of them."""
    joined = job(store, 'ewise_add', [sofar, terms], None, [add], {})
    three = (sofar.counts, terms.counts, joined.counts)
    joined.counts = joined.counts._replace(price=sum(c.price for c in three),
                                           steps=sum(c.steps for c in three))
    return joined


def lines(store: Store, piece: Piece, first: int, end: int) -> Lines:
    """The lines of some rows of a block, and their number."""
    return row_partition.lines_of(store.text(piece), first, end)


def assemble(store: Store, shape: Tuple[int, int], parts: Sequence[Lines]) -> Piece:
    """A piece of lines, in their order. It has its text, and no session holds it before its first
    use."""
    text = row_partition.text_of(*shape, parts)
    return Piece(Counts(*shape, sum(part[1] for part in parts)), Stored(text))


def join_vector(store: Store, blocks: Sequence[Piece]) -> Piece:
    """The whole of a vector from its blocks."""
    texts = [store.text(block) for block in blocks]
    parts = [(text[head_of_text(text).start:], block.counts.nvals)
             for text, block in zip(texts, blocks)]
    return assemble(store, blocks[0].counts[:2], parts).mark()


def join_lines(store: Store, shape: Tuple[int, int], parts: Sequence[Lines]) -> Piece:
    """A block of lines in any order."""
    return make_piece(store, row_partition.text_of(*shape, parts))


def turn_lines(store: Store, piece: Piece, cut: row_partition.Cut) -> List[Lines]:
    """The lines of the transpose of a block, those of each block of another cut by themselves."""
    rows, columns, values, nrows, ncols = read_text(store.text(piece))
    turned = Triples(columns, rows, values, ncols, nrows)
    return [row_partition.write_lines(part) for part in row_partition.split_rows(turned, cut)]


def pick(store: Store, many: Sequence[Any], at: int) -> Any:
    """One of the results of a task."""
    return many[at]


# -- what is told

def done(store: Store, made: Any) -> None:
    """Nothing, once a task is done."""


def counts_of(store: Store, piece: Piece) -> Counts:
    """The sizes, entries, price and steps of a piece."""
    return piece.counts


def column_counts(store: Store, piece: Piece, edges: Sequence[int]) -> List[int]:
    """How many entries of a block lie in the columns from each edge to below the next."""
    columns = read_text(store.text(piece)).columns
    counts: List[int] = numpy.histogram(columns, numpy.array(edges))[0].tolist()
    return counts


def ask_session(store: Store, method: Callable[[Session, Operator], Any], op: Operator) -> Any:
    """What the session says of an operator, by one of the methods of sessions."""
    return method(store.session, op)


def budget(place: int, settings: Settings) -> Tuple[str, Budget]:
    """The name of the session of a place here, and what it has left, reserved and spent."""
    for attempt in range(ATTEMPTS):
        try:
            store = store_of(settings, place)
            return store.name, store.budget()
        except Closed:
            if attempt + 1 == ATTEMPTS:
                raise
    raise AssertionError


def price_job(store: Store, function: Callable[..., Any], args: Sequence[Any]) -> int:
    """The price of the job that a task makes, which isn't charged: a session without a step, to
    which the operands are sent, tells it as it refuses the job."""
    asking = store.without_steps()
    try:
        function(asking, *args)
    except BudgetExceeded as fault:
        return fault.price
    finally:
        asking.close()
    return 0
