"""Jobs of matrices in row blocks: the same job at each block, the ways of products, the steps of
searches, and what goes from one session to another."""
from __future__ import annotations

from typing import TYPE_CHECKING, Any, Dict, Iterable, List, Optional, Sequence, Tuple

import numpy

from spmat import Operator, Semiring, binary
from spmat.extending import FORMS, Job, Vector, put_column, vector_of
from . import row_partition, worker_tasks
from .row_partition import Cut
from .engine import Work

if TYPE_CHECKING:
    from .backend import BlockHandle, BlocksBackend
    from .matrix import BlockMatrix

FOLDS = (binary.any, binary.first, binary.second, binary.min, binary.max, binary.plus)
BY_ARRAYS: Dict[Operator, str] = {binary.min: 'minimum', binary.max: 'maximum', binary.plus: 'add'}


def job_at(cut: Cut, block: int, job: Job, pieces: Iterable[Any], mask: Optional['BlockHandle'],
           args: Sequence[Any], **options: Any) -> Work:
    """A job at one block, by the method of matrices that makes it, and the jobs before it in the
    same visit."""
    method, visit = FORMS[job.form].method, job.visit
    if visit is not None and visit.method:
        (method, *args), options = visit.method, visit.options
    under = _mask_at(job, mask, block)
    sent = method, list(pieces), under, list(args), options
    return Work(block, cut.label(block), worker_tasks.job, sent)


def _mask_at(job: Job, mask: Optional['BlockHandle'],
             block: int) -> Optional[Tuple[Any, bool, bool]]:
    """A mask at one block, as `Mask` has it."""
    if mask is None:
        return None
    by_value, complement = (False, False) if job.visit is None else job.visit[:2]
    return mask.futures[block], by_value, complement


def make_each(backend: 'BlocksBackend', job: Job) -> 'BlockHandle':
    """A job of any form but a product: each block's by the same rows of all operands."""
    given: Any = job.operands
    first: 'BlockHandle' = given[0]
    operands = [first, *(other.recut_at(first.cut) for other in given[1:])]
    mask = _mask_of(job, first.cut)
    args: List[Any] = [*job.operators, *([] if job.thunk is None else [job.thunk])]
    pieces = zip(*(operand.futures for operand in operands))
    futures = backend.sessions.submit_batch([job_at(first.cut, block, job, some, mask, args)
                                      for block, some in enumerate(pieces)])
    return backend.result(job, first.cut, futures, [*operands, mask])


def multiply(backend: 'BlocksBackend', job: Job) -> 'BlockHandle':
    """A product, by the whole of its second operand or, where the caller says that ADD is
    associative, by its blocks.

    It waits until the blocks are made, so that TooLarge is raised here, but for a product with a
    column, which isn't too large. Where the engine forgets what nobody holds it always waits: the
    caller holds then what a lost block is made of again."""
    operands: Any = job.operands
    a, b = operands
    is_associative, mask = goes_by_blocks(backend, job), _mask_of(job, a.cut)
    blocks = [block for block, (first, end) in enumerate(a.cut.ranges()) if first < end]
    if is_associative:
        made, holds = _multiply_by_blocks(backend, job, blocks, mask), b.holds
    else:
        # a block that is lost is made again from the whole: so what came before B is not
        holds = [b.join_whole()]
        made = _multiply_each(backend, job, blocks, mask, holds[0])
    futures = _fill_blocks(backend, job, a.cut, dict(zip(blocks, made)))
    result = backend.result(job, a.cut, futures, [a, mask], holds)
    if b.shape[1] != 1 or is_associative or backend.sessions.engine.forgets:
        result.counts()
    return result


def _multiply_each(backend: 'BlocksBackend', job: Job, blocks: Sequence[int],
                   mask: Optional['BlockHandle'], piece: Any) -> List[Any]:
    """The futures of the products of some blocks of A with a piece of B."""
    a: Any = job.operands[0]
    parts = job.is_by_parts and backend.halves_products
    return backend.sessions.submit_batch([
        job_at(a.cut, block, job, [a.futures[block], piece], mask, [Semiring(*job.operators)],
               parts=parts) for block in blocks])


def _multiply_by_blocks(backend: 'BlocksBackend', job: Job, blocks: Sequence[int],
                        mask: Optional['BlockHandle']) -> List[Any]:
    """The futures of the products of some blocks of A with one block of B after the other, joined
    by union with ADD in the order of k. A row of ones goes to B's blocks, and a row comes from
    each."""
    operands: Any = job.operands
    a, b = operands
    ring = Semiring(*job.operators)
    terms = (_fold_ones(b, _mask_at(job, mask, blocks[0]), ring) if a.is_ones else
             [_multiply_each(backend, job, blocks, mask, piece) for piece in b.futures])
    made = terms[0]
    for more in terms[1:]:
        made = backend.sessions.submit_batch([
            Work(block, a.cut.label(block), worker_tasks.sum_of, (one, other, ring.add))
            for block, one, other in zip(blocks, made, more)])
    return made


def goes_by_blocks(backend: 'BlocksBackend', job: Job) -> bool:
    """Whether a product goes by the blocks of its second operand."""
    if job.is_associative is None:
        return job.operands[1].shape[1] > 1 and job.operators[0] in backend.sessions.associative
    return job.is_associative


def _mask_of(job: Job, cut: Cut) -> Optional['BlockHandle']:
    mask: Any = job.mask
    found: Optional['BlockHandle'] = None if mask is None else mask.recut_at(cut)
    return found


def _fold_ones(b: 'BlockHandle', under: Optional[Tuple[Any, bool, bool]],
               ring: Semiring) -> List[List[Any]]:
    """The products of a row of ones with each block of B, at that block."""
    works = [Work(block, label, worker_tasks.fold_rows, (piece, under, ring))
             for block, (label, piece) in enumerate(zip(b.labels, b.futures))]
    return [[future] for future in b.backend.sessions.submit_batch(works)]


def _fill_blocks(backend: 'BlocksBackend', job: Job, cut: Cut, made: Dict[int, Any]) -> List[Any]:
    """The futures of all blocks, from those of some: the others have no rows."""
    none = None
    if len(made) < cut.blocks:
        label, task = 'blocks without rows', worker_tasks.assemble
        none = backend.sessions.submit(0, label, task, job.shape, [])
    return [made.get(block, none) for block in range(cut.blocks)]


# -- steps of a search: what comes to each vertex along the edges that leave a front, which the
# client has, as it has the answer
#
# A front of few vertices is pushed: each vertex' edges lie in the block that has its row, and so
# each block gets its own part of the front alone, and a block without any gets nothing. What
# several blocks find for one vertex is folded by the client, in the order of the blocks: for that
# ADD has to be one of `FOLDS`, all of which are associative. A front with edges for a good part of
# all vertices is pulled: each block gets all of it, and answers for its own rows. Either is one
# task a block, and one trip.

def push_front(graph: 'BlockMatrix', front: Vector, ring: Semiring) -> Vector:
    """The terms `mul(front(i), edge)` along the edges (i, j) from the front's vertices, folded by
    `add` for each j."""
    handle, labels = graph.handle, graph.handle.labels
    works = [Work(block, labels[block], worker_tasks.push_front,
                  (handle.futures[block], part, ring))
             for block, part in enumerate(_split_front(graph, front)) if len(part.at)]
    return _fold(_do(handle, works), ring.add)


def pull_front(transpose: 'BlockMatrix', front: Vector, ring: Semiring) -> Vector:
    """The same, by the rows of the transpose; `ring` has its MUL turned round."""
    column: Any = put_column(transpose, front)
    handle = transpose.handle
    whole, labels = column.handle.join_whole(), handle.labels
    works = [Work(k, labels[k], worker_tasks.pull_front, (handle.futures[k], whole, ring))
             for k, (first, end) in enumerate(transpose.cut.ranges()) if first < end]
    return _concatenate(_do(handle, works))


def _do(handle: 'BlockHandle', works: List[Work]) -> List[Vector]:
    """What tasks give, each of which makes one job at its block."""
    sessions = handle.backend.sessions
    return sessions.results(sessions.submit_batch(works), [work.label for work in works])


def _split_front(graph: 'BlockMatrix', front: Vector) -> List[Vector]:
    """The front's vertices by the blocks that have their rows."""
    ends = numpy.searchsorted(front.at, graph.cut.bounds).tolist()
    return [Vector(front.at[first:end], front.values[first:end])
            for first, end in zip(ends, ends[1:])]


def _concatenate(parts: List[Vector]) -> Vector:
    """Vectors of blocks one after the other."""
    return Vector(*map(numpy.concatenate, zip(*parts))) if parts else vector_of([], [])


def _fold(parts: List[Vector], add: Operator) -> Vector:
    """What blocks found, each vertex once, ascending."""
    found = _concatenate(parts)
    if sum(1 for part in parts if len(part.at)) < 2:
        return found
    order = numpy.argsort(found.at, kind='stable')
    at, values = found.at[order], found.values[order]
    first = numpy.flatnonzero(numpy.concatenate(([True], at[1:] != at[:-1])))
    if add in BY_ARRAYS:
        return Vector(at[first], getattr(numpy, BY_ARRAYS[add]).reduceat(values, first))
    last = numpy.append(first[1:], len(at)) - 1
    return Vector(at[first], values[last if add == binary.second else first])


def step_front(graph: 'BlockMatrix', transpose: Optional['BlockMatrix'], front: Vector,
               rings: Tuple[Semiring, Semiring], is_large: bool) -> Vector:
    """What comes to each vertex along the edges from those of a front, which the client has, by
    whichever way is shorter. The second of the rings has its MUL turned round."""
    if transpose is not None and (is_large or rings[0].add not in FOLDS):
        return pull_front(transpose, front, rings[1])
    return push_front(graph, front, rings[0])


# -- what goes from one session to another: other cuts, transposes, whole matrices, and texts that
# stand by themselves. All of it is text, and costs no step.

def _submit_lines(matrix: 'BlockHandle', block: int, first: int, end: int) -> Any:
    """The future of the lines of some rows of a block."""
    label, future = matrix.cut.label(block), matrix.futures[block]
    return matrix.backend.sessions.submit(block, label, worker_tasks.lines, future, first, end)


def read_lines(matrix: 'BlockHandle') -> List[worker_tasks.Lines]:
    """The lines of each block, in order, all asked for at a time."""
    return matrix.ask_each(worker_tasks.lines, 0, matrix.shape[0])


def join_blocks(matrix: 'BlockHandle') -> Any:
    """The future of the whole matrix as one piece. It is joined at one worker, in turn, and goes
    from there to those that want it, each of which has a copy then."""
    if matrix.cut.blocks == 1:
        return matrix.futures[0]
    sessions, label = matrix.backend.sessions, 'the whole of a %dx%d matrix' % matrix.shape
    if matrix.shape[1] == 1:
        blocks = list(matrix.futures)
        return sessions.submit(next(sessions.turns), label, worker_tasks.join_vector, blocks)
    parts = matrix.submit_each(worker_tasks.lines, 0, matrix.shape[0])
    return sessions.submit(next(sessions.turns), label, worker_tasks.assemble, matrix.shape, parts)


def recut_blocks(matrix: 'BlockHandle', cut: Cut) -> 'BlockHandle':
    """The same matrix, cut at other rows. Each new block gets the lines of those that it meets, in
    order."""
    futures, bounds = [], matrix.cut.bounds
    submit = matrix.backend.sessions.submit
    for block, (first, end) in enumerate(cut.ranges()):
        parts = [_submit_lines(matrix, old, max(first, bounds[old]), min(end, bounds[old + 1]))
                 for old in matrix.cut.meeting(first, end)]
        label = cut.label(block)
        futures.append(submit(block, label, worker_tasks.assemble, matrix.shape, parts))
    return matrix.derive(futures, cut, matrix.shape[1])


def transpose_blocks(matrix: 'BlockHandle') -> 'BlockHandle':
    """The transpose: each block's lines turned at its worker, and one part of each joined for each
    block of the transpose."""
    nrows, ncols = matrix.shape
    submit = matrix.backend.sessions.submit
    cut = matrix.cut if nrows == ncols else _cut_of_columns(matrix)
    turned = matrix.submit_each(worker_tasks.turn_lines, cut)
    futures = []
    for block in range(cut.blocks):
        parts = [submit(k, label, worker_tasks.pick, future, block)
                 for k, (label, future) in enumerate(zip(matrix.labels, turned))]
        label = cut.label(block)
        futures.append(submit(block, label, worker_tasks.join_lines, (ncols, nrows), parts))
    return matrix.derive(futures, cut, nrows)


def _cut_of_columns(matrix: 'BlockHandle') -> Cut:
    """A cut of the columns by entries."""
    return row_partition.cut_by_ranges(
        matrix.shape[1], matrix.cut.blocks,
        lambda edges: matrix.ask_each(worker_tasks.column_counts, edges))


def checkpoint_blocks(matrix: 'BlockHandle') -> 'BlockHandle':
    """The same matrix on texts that stand by themselves, one block at a time."""
    sessions, futures = matrix.backend.sessions, []
    for block, label in enumerate(matrix.labels):
        taken = sessions.submit(block, label, worker_tasks.take_text, matrix.futures[block],
                                sessions.new_file())
        futures.append(sessions.submit(block, label, worker_tasks.source,
                                       *sessions.results([taken], [label])))
    made = matrix.derive(futures, matrix.cut, matrix.shape[1])
    made.holds = ()
    made.counts()
    return made
