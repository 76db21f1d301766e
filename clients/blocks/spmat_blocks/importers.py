"""Matrices in blocks from what callers have: text, files, generators."""
from __future__ import annotations

import functools
import io
from typing import Any, Iterable, List, Optional, Sequence, Tuple, Union

from spmat import limits
from spmat.errors import Refused, TextRefused, refusal
from spmat.extending import (BY_POSITIONS, DupOp, FileLimit, Layout, MarketValues, Request, Sources,
                             Triples, as_constant, check_layout, check_length, check_size,
                             check_word, is_plain_market, mirrored, name_of, unit_of_read)
from . import chunked_input, parallel_read, row_partition, worker_tasks
from .backend import BlockHandle, BlocksBackend
from .chunked_input import InMemory, Spool, Spooled
from .matrix import BlockMatrix
from .row_partition import Cut, Stored
from .task_runner import TaskRunner


class Inputs(TaskRunner, Sources[BlockMatrix]):
    """What makes matrices of several sessions."""

    blocks: int
    cut: Optional[Cut]
    backend: BlocksBackend

    def from_edges(self, edges: Iterable[Any], nrows: int, ncols: int, *,
                   cut: Optional[Sequence[int]] = None, dup_op: DupOp = None,
                   name: Optional[str] = None) -> BlockMatrix:
        """A matrix from a generator of entries, of which no more than a block is held.

        Parameters
        ----------
        edges : iterable
            (row, column, value) in any order, or chunks of them: arrays of numpy with these as
            columns. They lie in files while they come.
        nrows, ncols : int
            The sizes.
        cut : sequence of int, optional
            Where the rows are cut, as for `BlockMatrix.recut`.
        dup_op : operator, optional
            Folds the values of a position that repeats, in the order in which they came.
        name : str, optional
            A name for the matrix.

        Returns
        -------
        BlockMatrix
            The matrix.

        Raises
        ------
        TextRefused
            Where a position repeats (M8), and no `dup_op` folds it.
        """
        with Spool(check_size(nrows, 0, 'nrows'), check_size(ncols, 0, 'ncols')) as spool:
            spool.take(edges)
            spool.notes = BY_POSITIONS
            return self._load_spool(spool, cut, name, dup_op)

    def from_text(self, text: Union[bytes, str], name: Optional[str] = None) -> BlockMatrix:
        """A matrix from a Matrix Market text as a session reads it.

        Parameters
        ----------
        text : bytes or str
            The text; see `Session.from_text`.
        name : str, optional
            A name for the matrix.

        Returns
        -------
        BlockMatrix
            The matrix.

        Raises
        ------
        TextRefused
            Where the text breaks a rule: it names the line.
        """
        text = text.encode() if isinstance(text, str) else bytes(text)
        if len(text) > limits.MOST_TEXT:
            raise refusal('S7', detail='the text has %d bytes' % len(text))
        if is_plain_market(text):
            try:
                made = self.mmread(io.BytesIO(text), name=name)
                made.notes = BY_POSITIONS          # as a session's, which reads the text itself
                return made
            except Refused:                        # a session has the words for it
                pass
        self.results([self.submit(0, '', worker_tasks.source, Stored(text))], [''])
        raise AssertionError('a session takes a text that was refused here')

    def mmread(self, source: Any, *, values: bool = True, scale: Optional[float] = None,
               max_bytes: Optional[int] = None, dup_op: DupOp = None,
               cut: Optional[Sequence[int]] = None, name: Optional[str] = None) -> BlockMatrix:
        """Read a Matrix Market file, which may be larger than one session takes.

        It is read by pieces, and no more than a block is held. `array` files, which are small, are
        read at once. `progress('read', done, of)` is called after each piece, with bytes.

        Parameters
        ----------
        source : path or file
            A path (also .gz and .bz2), or a file opened in binary.
        values : bool, default True
            False reads no values, as for `Session.mmread`.
        scale : number, optional
            Values are multiplied by it and rounded, as for `Session.mmread`.
        max_bytes : int, optional
            The most bytes that the file may have, once it is unpacked.
        dup_op : operator, optional
            Folds the values of a position that repeats.
        cut : sequence of int, optional
            Where the rows are cut, as for `BlockMatrix.recut`.
        name : str, optional
            A name for the matrix.

        Returns
        -------
        BlockMatrix
            The matrix.

        Raises
        ------
        TextRefused
            Where the file breaks a rule: it names the file and the line.

        Notes
        -----
        In python-graphblas `io.mmread`.
        """
        unit_of_read(scale, dup_op)
        check_length(source, max_bytes)
        made = (None if dup_op is not None
                else parallel_read.read_matrix_market(self, source,
                                                      MarketValues(values, scale), cut,
                                                      name))
        if made is not None:
            return made
        start = (source.tell() if hasattr(source, 'read') and hasattr(source, 'seekable')
                 and source.seekable() else None)
        limit = FileLimit(max_bytes)
        with chunked_input.spool_file(source, MarketValues(values, scale), self.progress,
                                      dup_op is None, limit) as spool:
            if dup_op is not None:
                return self._fold_file(spool, cut, name, dup_op)
            try:
                return self._load_spool(spool, cut, name)
            except TextRefused as fault:
                if fault.rule != 'M8':
                    raise
                found = chunked_input.refuse_line(
                    source, start, spool, self.find_cut(spool.nrows, spool, cut), fault)
                raise found.of_file(name_of(source)) from None

    def _read(self, path: Any, request: Request, dup_op: DupOp, name: Optional[str]) -> BlockMatrix:
        """The matrix of a file, or of a folder of lists or parquet, by the workers where they see
        it."""
        layout = request.layout
        check_length(path, request.max_bytes)
        made = (None if dup_op is not None or request.directed is False
                or request.format not in (None, 'mtx') else parallel_read.read_matrix_market(
                    self, path, MarketValues(layout.values, layout.scale), None, name))
        if made is not None:
            check_layout(name_of(path), 'mtx', request)
            return self._as_asked(name_of(path), made, request, dup_op, name)
        if request.format in (None, 'edges', 'csv', 'tsv', 'parquet'):
            made = parallel_read.read_list(self, path, request, dup_op, name)
        return super()._read(path, request, dup_op, name) if made is None else made

    def from_dask_dataframe(self, frame: Any, source: Any = 'source', target: Any = 'target',
                            edge_attr: Any = None, *, directed: bool = True,
                            bipartite: Optional[bool] = None, missing: Optional[str] = 'raise',
                            unit: Optional[str] = None, date_format: Optional[str] = None,
                            dup_op: DupOp = None, name: Optional[str] = None) -> BlockMatrix:
        """The adjacency matrix of a `dask.dataframe`.

        Each worker takes its partitions, and the caller's process gets the names alone. By `Dask`
        the partitions are computed by the same cluster.

        Parameters
        ----------
        frame : dask.dataframe.DataFrame
            The table, a row for each edge.
        source, target, edge_attr, directed, bipartite, missing, unit, date_format, dup_op : Any
            As for `from_pandas_edgelist`.
        name : str, optional
            A name for the matrix.

        Returns
        -------
        BlockMatrix
            The matrix, as `from_pandas_edgelist` has it.

        Raises
        ------
        ValueError
            Where edges with values repeat, unless `dup_op` folds them, and where names of some
            partitions are whole numbers and of others aren't.
        """
        layout = Layout(bipartite=bipartite, missing=missing, unit=unit, date_format=date_format)
        return parallel_read.read_frame(self, frame, (source, target), edge_attr,
                                        Request(None, layout, directed), dup_op, name)

    def _fold_file(self, spool: Spool, cut: Optional[Sequence[int]], name: Optional[str],
                   dup_op: DupOp) -> BlockMatrix:
        """A matrix of a file's entries, whose positions may repeat: they are folded as they stand
        in the file, and then the other triangle of a symmetric one is added."""
        with Spool(spool.nrows, spool.ncols) as folded:
            for triples in spool.blocks(row_partition.cut_by_entries(spool.counts, self.blocks)):
                folded.add(mirrored(self._folded(triples, dup_op), spool.symmetry))
            folded.notes = spool.notes._replace(weighted=True)
            return self._load_spool(folded, cut, name)

    def _market(self, file: str, text: bytes, request: Request, dup_op: DupOp,
                name: Optional[str]) -> BlockMatrix:
        layout = request.layout
        try:
            return self.mmread(io.BytesIO(text), values=layout.values, scale=layout.scale,
                               dup_op=dup_op, name=name)
        except Refused as fault:
            raise fault.of_file(file) from None

    def full(self, nrows: int, ncols: int, value: int = 1, *,
             name: Optional[str] = None) -> BlockMatrix:
        """A matrix with one value everywhere, made at the workers.

        Parameters
        ----------
        nrows, ncols : int
            The sizes.
        value : int, default 1
            The value of each entry, a whole number of 64 bits.
        name : str, optional
            A name for the matrix.

        Returns
        -------
        BlockMatrix
            The matrix.
        """
        shape = check_size(nrows, 0, 'nrows'), check_size(ncols, 0, 'ncols')
        return as_constant(self._make_rows(worker_tasks.full, shape, check_word(value, 'value'),
                                           name))

    def ones(self, ncols: int) -> BlockMatrix:
        """A row of ones, which folds columns.

        Parameters
        ----------
        ncols : int
            How many there are.

        Returns
        -------
        BlockMatrix
            The row, which is made at a worker where a job wants it.
        """
        cut = self.find_cut(1)
        submit = functools.partial(self._submit_rows, cut, worker_tasks.full, (1, ncols), 1)
        handle = BlockHandle(self.backend, cut, ncols, submit)
        handle.is_ones = True
        return BlockMatrix(self, handle)

    def identity(self, n: int, value: int = 1, *, name: Optional[str] = None) -> BlockMatrix:
        """A square matrix with one value on its diagonal, made at the workers.

        Parameters
        ----------
        n : int
            The number of rows and columns.
        value : int, default 1
            The value of each entry, a whole number of 64 bits.
        name : str, optional
            A name for the matrix.

        Returns
        -------
        BlockMatrix
            The matrix.
        """
        n = check_size(n, 0, 'n')
        return as_constant(self._make_rows(worker_tasks.identity, (n, n),
                                           check_word(value, 'value'), name))

    def _submit_rows(self, cut: Cut, task: Any, shape: Tuple[int, int], value: int) -> List[Any]:
        return [self.submit(block, cut.label(block), task, first, end, shape, value)
                for block, (first, end) in enumerate(cut.ranges())]

    def _make_rows(self, task: Any, shape: Tuple[int, int], value: int,
                   name: Optional[str]) -> BlockMatrix:
        """A matrix of what a task makes for the rows of each block."""
        cut = self.find_cut(shape[0])
        futures = self._submit_rows(cut, task, shape, value)
        return BlockMatrix(self, BlockHandle(self.backend, cut, shape[1], futures), name)

    def assemble(self, cut: Cut, ncols: int, futures: Sequence[Any],
                 name: Optional[str]) -> BlockMatrix:
        """A matrix of its blocks, once these are made."""
        made = BlockMatrix(self, BlockHandle(self.backend, cut, ncols, futures), name)
        made.wait()
        return made

    def cut_for(self, nrows: int, given: Union[Cut, Sequence[int], None]) -> Optional[Cut]:
        """Where a new matrix is cut: as the caller says, or as the matrix that these sessions cut
        after; None where neither tells."""
        if given is not None:
            return row_partition.check_cut(given.bounds if isinstance(given, Cut) else given, nrows)
        return self.cut if self.cut is not None and self.cut.nrows == nrows else None

    def find_cut(self, nrows: int, spool: Optional[Spooled] = None,
                 given: Union[Cut, Sequence[int], None] = None) -> Cut:
        """Where a new matrix is cut: as `cut_for` has it, or by entries."""
        return self.cut_for(nrows, given) or (
            row_partition.cut_evenly(nrows, self.blocks) if spool is None
            else row_partition.cut_by_entries(spool.counts, self.blocks))

    def _from(self, triples: Triples, dup_op: DupOp = None,
              name: Optional[str] = None) -> BlockMatrix:
        folded = self._folded(triples, dup_op)
        try:
            return self._load_spool(InMemory(folded), None, name)
        except TextRefused as fault:
            raise (chunked_input.refuse_triples(folded, fault) if fault.rule == 'M8'
                   else fault) from None

    def _load_spool(self, spool: Spooled, given: Union[Cut, Sequence[int], None],
                    name: Optional[str], dup_op: DupOp = None) -> BlockMatrix:
        """A matrix of what lies in a spool, block by block, in which each position is folded."""
        made = BlockMatrix(self, self.backend.load_spool(
            spool, self.find_cut(spool.nrows, spool, given),
            functools.partial(self._folded, dup_op=dup_op)), name)
        made.notes = spool.notes
        return made
