"""The backend of matrices in row blocks.

A block is a matrix of the whole's shape that has the entries of its own rows alone. So a job is the
same job at the session of each block, and index operators see true rows and columns. Entries,
prices and steps of all blocks together are those of one session's job. Operands and masks that are
cut elsewhere are cut anew first, by text and without steps. Products are in `jobs`.
"""
from __future__ import annotations

import weakref
from typing import (TYPE_CHECKING, Any, Callable, Iterable, Iterator, List, Optional, Sequence,
                    Tuple, Union)

from spmat import Operator
from spmat.errors import SpmatError
from spmat.extending import Backend, Budget, Handle, Job, Triples, as_arrays, most_of, write_text
from . import jobs, row_partition, worker_tasks
from .chunked_input import InMemory, Spooled
from .matrix import BlockMatrix
from .row_partition import Cut, Stored
from .worker_store import Counts, Piece

if TYPE_CHECKING:
    from .sessions import Sessions

# whole matrices that a result holds, so that it is soon made again
HELD = 16
Futures = Union[Sequence[Any], Callable[[], Sequence[Any]]]
"""The futures of blocks, or what gives them when they are first wanted."""


class BlockHandle(Handle):
    """A matrix in row blocks: the futures of its blocks, in order, and where its rows are cut. Of a
    job's result `form` names the job.

    `holds` are futures of other matrices, from which a block that is lost is made again."""

    backend: 'BlocksBackend'
    is_ones = False                                # a row of ones, of which no block was made yet
    turned: Optional['BlockHandle'] = None         # the transpose, which is kept as long as this is

    def __init__(self, backend: 'BlocksBackend', cut: Cut, ncols: int, futures: Futures,
                 holds: Iterable[Any] = (), form: str = '') -> None:
        super().__init__(backend, (cut.nrows, ncols))
        self.cut, self.form = cut, form
        holds = tuple(dict.fromkeys(holds))[-HELD:]
        self.holds: Tuple[Any, ...] = holds if backend.sessions.engine.forgets else ()
        self._futures = futures
        self._counts: Optional[List[Counts]] = None
        self._whole: Any = None

    @property
    def futures(self) -> Sequence[Any]:
        """The blocks."""
        if callable(self._futures):
            self._futures = self._futures()
        return self._futures

    @property
    def labels(self) -> List[str]:
        """The blocks in words, as errors name them."""
        return [self.cut.label(block) for block in range(self.cut.blocks)]

    def submit_each(self, function: Any, *args: Any) -> List[Any]:
        """The futures of a task of each block."""
        submit = self.backend.sessions.submit
        return [submit(block, label, function, future, *args)
                for block, (label, future) in enumerate(zip(self.labels, self.futures))]

    def ask_each(self, function: Any, *args: Any) -> List[Any]:
        """What a task of each block gives."""
        return self.backend.sessions.results(self.submit_each(function, *args), self.labels)

    def counts(self) -> List[Counts]:
        """The sizes, entries, price and steps of each block, once all are made."""
        if self._counts is None:
            try:
                self._counts = self.ask_each(worker_tasks.counts_of)
            except SpmatError:
                # so that `run` doesn't tell a failure that was told
                self.backend.sessions.waiting.pop(self.serial, None)
                raise
            self.nvals = self.most = sum(counts.nvals for counts in self._counts)
            self.price = sum(counts.price for counts in self._counts) if self.form else None
        return self._counts

    @property
    def steps(self) -> Optional[int]:  # type: ignore[override]
        """Of a job's result the steps that the job took, once all blocks are made."""
        return sum(counts.steps for counts in self.counts()) if self.form else None

    @property
    def is_done(self) -> bool:
        """Whether all blocks are made, or have failed, as far as the engine has told. It waits for
        nothing."""
        return not self.waits or all(future.done() for future in self.futures)

    def check_made(self) -> None:
        """Raises what a block was refused for."""
        self.counts()

    def join_whole(self) -> Any:
        """The future of the whole as one piece, or that piece, for all sessions. It is made
        once."""
        if self._whole is None:
            self._whole = jobs.join_blocks(self)
        return self._whole

    def recut_at(self, cut: Cut) -> 'BlockHandle':
        """The same matrix, cut at these rows."""
        return self if cut == self.cut else jobs.recut_blocks(self, cut)

    def derive(self, futures: Sequence[Any], cut: Cut, ncols: int) -> 'BlockHandle':
        """A matrix that is made of this one, and no job's result."""
        made = BlockHandle(self.backend, cut, ncols, futures, self.holds)
        made.most = self.most
        return made


class DeferredBlockHandle(BlockHandle):
    """A column or a row of which the client has the entries: they are sent when a job first wants
    them. A product takes them as one text."""

    is_deferred = True

    def __init__(self, backend: 'BlocksBackend', entries: Triples, cut: Cut) -> None:
        super().__init__(backend, cut, entries.ncols, self._send)
        self.entries, self.nvals = entries, len(entries.rows)
        self.most = self.nvals

    def _send(self) -> List[Any]:
        texts = InMemory(self.entries).texts(self.cut)
        return [self.backend.sessions.put(block, self.cut.label(block), text)
                for block, text in enumerate(texts)]

    def check_made(self) -> None:
        """It is there."""

    def join_whole(self) -> Any:
        if self._whole is None:
            counts = Counts(*self.shape, len(self.entries.rows))
            piece = Piece(counts, Stored(write_text(self.entries))).mark()
            self._whole = self.backend.sessions.share(piece)
        return self._whole

    def recut_at(self, cut: Cut) -> BlockHandle:
        return self if cut == self.cut else DeferredBlockHandle(self.backend, self.entries, cut)


class BlocksBackend(Backend):
    """The jobs of several sessions. `sessions` cut new matrices as the matrix is cut whose backend
    this is."""

    in_one_place = False
    matrix_type = BlockMatrix

    def __init__(self, sessions: 'Sessions') -> None:
        self.session = self.sessions = sessions

    @property
    def halves_products(self) -> bool:  # type: ignore[override]
        """Each block halves its own rows, unless each job is looked at before it is made."""
        return not self.sessions.is_metered

    # -- jobs

    def submit(self, job: Job, name: Optional[str] = None) -> BlockHandle:
        return jobs.multiply(self, job) if job.form == 'product' else jobs.make_each(self, job)

    def result(self, job: Job, cut: Cut, futures: Sequence[Any],
               operands: Iterable[Optional[BlockHandle]],
               wholes: Iterable[Any] = ()) -> BlockHandle:
        """The handle of a job's result. A block that is lost is made again of what its operands
        hold, and of whole matrices."""
        holds = [future for handle in operands if handle is not None for future in handle.holds]
        made = BlockHandle(self, cut, job.shape[1], futures, [*holds, *wholes], job.form)
        # with a visit, entries may lie outside of the mask
        made.most = most_of(job if job.visit is None else job._replace(mask=None), 0).entries
        self.sessions.waiting[made.serial] = made
        return made

    def fuses(self, job: Job) -> bool:
        """Unless each job is looked at before it is made, or a product is made of several."""
        if job.form == 'product' and jobs.goes_by_blocks(self, job):
            return False
        return not self.sessions.is_metered

    step_front = staticmethod(jobs.step_front)

    def wait(self, handle: Handle) -> None:
        handle.check_made()

    # the sessions of the blocks know the prices
    flush = wait

    def length_of(self, op: Operator) -> int:
        return self.sessions.dis(op).count('\n')

    def budget(self) -> Budget:
        return self.sessions.budget()

    # -- matrices

    def put(self, entries: Triples) -> BlockHandle:
        """A matrix of entries by ascending row and column. Those of a column or a row are sent when
        a job wants them."""
        if 1 in (entries.nrows, entries.ncols):
            return DeferredBlockHandle(self, entries, self.sessions.find_cut(entries.nrows))
        held = InMemory(entries)
        return self.load_spool(held, self.sessions.find_cut(held.nrows, held))

    def load_spool(self, spool: Spooled, cut: Cut,
                   fold: Callable[[Triples], Triples] = lambda triples: triples) -> BlockHandle:
        """A matrix of what lies in a spool, block by block."""
        futures = [self.sessions.put(block, cut.label(block), text)
                   for block, text in enumerate(spool.texts(cut, fold))]
        made = BlockHandle(self, cut, spool.ncols, futures)
        made.counts()
        return made

    def put_text(self, text: bytes, name: Optional[str] = None) -> BlockHandle:
        return self.sessions.from_text(text, name).handle

    def read_text(self, handle: Any) -> bytes:
        if isinstance(handle, DeferredBlockHandle):
            return write_text(handle.entries)
        nrows, ncols = handle.shape
        return row_partition.text_of(nrows, ncols, jobs.read_lines(handle))

    def texts(self, handle: Any) -> Iterator[bytes]:
        """The head of the text, and the lines of each block: one block's are held at a time."""
        nrows, ncols = handle.shape
        yield row_partition.head(nrows, ncols, self.count(handle))
        for block, label in enumerate(handle.labels):
            future = self.sessions.submit(block, label, worker_tasks.lines, handle.futures[block],
                                          0, nrows)
            yield self.sessions.results([future], [label])[0][0]

    def read(self, handle: Handle) -> Triples:
        if isinstance(handle, DeferredBlockHandle):
            return as_arrays(handle.entries)
        return super().read(handle)

    def transpose(self, handle: Any) -> Handle:
        """The transpose, by text: each block's lines are turned at its worker, and each block of
        the transpose gets some of each. It is made once, and kept as long as the matrix is."""
        made: Optional[Handle] = handle.turned or (handle.transposed and handle.transposed())
        if made is None:
            made = handle.turned = jobs.transpose_blocks(handle)
            made.transposed = weakref.ref(handle)
        return made
