"""Files that workers read by themselves, each a part at a time. Matrix Market files and lists (CSV,
TSV, edge lists) that all workers see are read by ranges. The others are folders of lists or of
parquet, and frames of Dask.

Of a Matrix Market file the caller's process reads the first lines, and some lines here and there,
which tell where to cut. Of lists each worker tells the names that stand in its parts. The caller's
process joins these, which is all it gets of the entries, and tells each part the numbers of its
names. Whole numbers ascend, and others have the order in which they first stand, as one session has
it. Then each part's lines go to the blocks. If the sessions have a `folder`, they go through files
there, so that nobody holds more than a range and a block; else from worker to worker.

Whatever is packed, small, unusual or wrong is read by the caller's process, which names the line.
"""
from __future__ import annotations

import functools
import itertools
import os
from typing import TYPE_CHECKING, Any, Callable, List, Optional, Sequence, Tuple, Union

import numpy

from spmat import limits
from spmat.errors import ReadError, Refused, refusal
from spmat.extending import (DupOp, FOLDS, How, LeftOut, ListTable, MarketReader, MarketValues,
                             Metadata, Nodes, Request, SEPARATORS, axis_of, check_direction,
                             check_format, choose_value_column, find, has_dictionaries,
                             lay_out_list, number_ascending, packer_of, start_of_line, unit_of_read)
from . import file_parts, row_partition, worker_tasks
from .engine import Work
from .file_parts import Fold, Market, Range, Repeated, To
from .matrix import BlockMatrix
from .row_partition import Cut

if TYPE_CHECKING:
    from .importers import Inputs

LEAST = 1 << 22                                    # bytes of a file that is read so
MOST = 1 << 25                                     # bytes of a range
SAMPLES, SAMPLE = 512, 1 << 9                      # places that are looked at, and bytes there
HEAD = 1 << 21                                     # bytes that tell how a list is written


def find_shared(sessions: 'Inputs', source: Any) -> Optional[Range]:
    """A file that is large, not packed, and the same for all workers; else None."""
    if not isinstance(source, (str, os.PathLike)):
        return None
    path = os.path.abspath(os.fsdecode(source))
    stamp = file_parts.read_stamp(0, path)
    if stamp is None or stamp.size < LEAST or not os.path.isfile(path):
        return None
    with open(path, 'rb') as file:
        if packer_of(file.read(16)) is not None:
            return None
    stamps = sessions.engine.everywhere(file_parts.read_stamp, path)
    is_shared = all(one == stamp for one in stamps.values())
    return Range(path, stamp, 0, stamp.size) if is_shared else None


class _Parts:
    """Parts that are read, ranges of a file or what errors call others. The places of those of a
    file lie beside one another, as the rows of its blocks do in most files."""

    def __init__(self, sessions: 'Inputs', parts: Sequence[Union[Range, str]]) -> None:
        self.sessions, self.parts, self.labels = sessions, parts, list(map(str, parts))
        self._places = [number * sessions.engine.places // len(parts)
                        for number in range(len(parts))]

    def submit(self, function: Any, *columns: Any) -> List[Any]:
        """The futures of a task for each part, whose arguments are those of each column; one that
        is no list is the argument of all."""
        args = zip(*(column if isinstance(column, list) else [column] * len(self.labels)
                     for column in columns))
        return [self.sessions.submit(place, label, function, *some)
                for place, label, some in zip(self._places, self.labels, args)]

    def new_files(self) -> List[str]:
        """The paths of files for what each part gives; empty where it goes from worker to
        worker."""
        return [self.sessions.new_file() for _ in self.labels]

    def results(self, futures: Sequence[Any]) -> List[Any]:
        """The results of each part in turn; it is told how many bytes of a file were read."""
        out = []
        for future, label, part in zip(futures, self.labels, self.parts):
            out += self.sessions.results([future], [label])
            if self.sessions.progress is not None and isinstance(part, Range):
                self.sessions.progress('read', part.end, part.stamp.size)
        return out

    def make_matrix(self, split: List[Any], bare: bool, shape: Tuple[int, int], cut: Cut,
                    name: Optional[str], fold: Optional[Fold] = None) -> BlockMatrix:
        """The matrix of the lines of each block out of each part. Where they lie in files, that is
        all that goes from one to another."""
        sessions = self.sessions
        lines: List[Any]
        if sessions.spool() is None:
            lines = [self.submit(worker_tasks.pick, split, block) for block in range(cut.blocks)]
        else:
            lines = list(zip(*sessions.results(split, self.labels)))
        works = [Work(block, cut.label(block), file_parts.make_block,
                      (bare, shape, lines[block], sessions.new_file(), fold))
                 for block in range(cut.blocks)]
        futures = (sessions.submit_batch(works) if fold is not None and fold.op is not None
                   else [sessions.submit(*work[:3], *work.args) for work in works])
        return sessions.assemble(cut, shape[1], futures, name)


# -- Matrix Market files

def read_matrix_market(sessions: 'Inputs', source: Any, values: MarketValues,
                       given: Optional[Sequence[int]],
                       name: Optional[str]) -> Optional[BlockMatrix]:
    """The matrix of a Matrix Market file that workers read; None where it is for the caller's
    process to read, and to refuse."""
    file = find_shared(sessions, source)
    if file is None:
        return None
    try:
        with open(file.path, 'rb') as opened:
            head, start = MarketReader(opened, values), opened.tell()
            if head.kind.array:
                return None
            market = Market(head.kind, head.nrows, head.ncols)
            cut = (sessions.cut_for(head.nrows, given)
                   or _cut_by_samples(opened, file.end, market, sessions.blocks))
        if cut is None:
            return None
        ranges = file.cut(start, MOST, sessions.engine.places)
        parts = _Parts(sessions, ranges)
        split = parts.submit(file_parts.split_range, ranges, market, cut, parts.new_files())
        lines = parts.results(parts.submit(worker_tasks.pick, split, -1))
        if min(lines) < 0 or sum(lines) != head.count:
            return None
        made = parts.make_matrix(split, head.kind.is_bare, market[1:], cut, name)
    except Refused:                                # its words are of a text that nobody saw
        return None
    made.notes = head.kind.notes
    return made


def _cut_by_samples(opened: Any, size: int, market: Market, blocks: int) -> Optional[Cut]:
    """A cut by the rows of some lines; None where a line is unusual."""
    rows: List[int] = []
    both = market.kind.symmetry != 'general'
    start = opened.tell()
    for place in range(SAMPLES):
        opened.seek(start + (size - start) * place // SAMPLES)
        lines = opened.read(SAMPLE).split(b'\n')[1:-1]
        try:
            for line in lines:
                fields = line.split(None, 2)
                rows += map(int, fields[:2] if both else fields[:1])
        except ValueError:
            return None
    if not rows:
        return row_partition.cut_evenly(market.nrows, blocks)
    rows.sort()
    inside = [min(max(rows[len(rows) * k // blocks] - 1, 0), market.nrows)
              for k in range(1, blocks)]
    return Cut((0, *inside, market.nrows))


# -- lists of edges, and frames

def read_list(sessions: 'Inputs', path: Any, request: Request, dup_op: DupOp,
              name: Optional[str]) -> Optional[BlockMatrix]:
    """The matrix of a list, or of a folder of files; None where it is for the caller's process to
    read."""
    if isinstance(path, (str, os.PathLike)) and os.path.isdir(path):
        return _read_folder(sessions, os.fspath(path), request, dup_op, name)
    file, layout = find_shared(sessions, path), request.layout
    converts = layout.scale is not None or layout.nodetype or layout.unit
    if (file is None or converts or request.nodelist is not None
        or layout.comments not in (True, None)):
        return None
    try:
        table = _find_table(file.path, request)
        if table is None or (table.question and request.directed is None):
            return None
        ranges = file.cut(start_of_line(table.original, table.first), MOST,
                          sessions.engine.places)
        made = _read_parts(_Parts(sessions, ranges), file_parts.read_range,
                           [[part, table.form] for part in ranges], request, dup_op, name)
    except (Refused, ReadError):                   # whoever reads it line by line names the line
        return None
    if made is not None:
        made.notes = made.notes._replace(
            source=table.left_out.added_to(table.summary.replace(file.path, os.fspath(path))))
    return made


def _find_table(path: str, request: Request) -> Optional[ListTable]:
    """How a list is written; None where the file is of another format."""
    with open(path, 'rb') as file:
        head = file.read(HEAD)
    head = head[:head.rfind(b'\n') + 1] if len(head) == HEAD else head
    layout = request.layout
    if (check_format(path, head, request.format) not in ('edges', 'csv', 'tsv')
        or has_dictionaries(head, layout)):
        return None
    sep = layout.sep or SEPARATORS.get(request.format or '')
    return lay_out_list(path, head, layout._replace(sep=sep))


def _read_folder(sessions: 'Inputs', folder: str, request: Request, dup_op: DupOp,
                 name: Optional[str]) -> Optional[BlockMatrix]:
    """The matrix of the files of a folder, by their names. Those that begin with a dot or a low
    line are passed over, as whoever writes such folders has it."""
    if request.nodelist is not None:
        raise ValueError('nodelist is of a single file, not of a folder')
    paths = [os.path.abspath(os.path.join(folder, file)) for file in sorted(os.listdir(folder))
             if not file.startswith(('.', '_'))]
    found = [path for path in paths if os.path.isfile(path)]
    if not found:
        raise ReadError(folder, None, 'a folder without a file')
    return _read_parts(_Parts(sessions, found), file_parts.read_file,
                       [[path, request] for path in found], request, dup_op, name)


def read_frame(sessions: 'Inputs', frame: Any, ends: Tuple[Any, Any], value: Any,
               request: Request, dup_op: DupOp, name: Optional[str]) -> BlockMatrix:
    """The matrix of the partitions of a frame of Dask, each read as one frame is."""
    value = choose_value_column(frame.columns, ends, value)
    frames, client = list(frame.to_delayed()), getattr(sessions.engine, 'client', None)
    if client is not None:
        frames = client.compute(frames)
    made = _read_parts(_Parts(sessions, ['a part of the frame'] * len(frames)),
                       file_parts.read_frame,
                       [[part, ends, value, request.layout] for part in frames], request, dup_op,
                       name)
    if made is None:
        raise ValueError('some partitions have whole numbers as names, and others have not: '
                         'convert the columns to one type')
    return made


def _read_parts(parts: _Parts, read: Callable[..., Any], args: List[List[Any]], request: Request,
                dup_op: DupOp, name: Optional[str]) -> Optional[BlockMatrix]:
    """The matrix of the edges of all parts, by a function of `file_parts` and its arguments for
    each. None where a part has to be read line by line, or names are of several kinds."""
    directed, bipartite = request.directed is not False, request.bipartite
    check_direction(How(directed, None, bipartite))
    edges = parts.submit(file_parts.read_edges, read, args, bipartite)
    found = parts.results(parts.submit(file_parts.tell_names, edges))
    axes = [] if None in found else [_number_vertices(column)
                                     for column in zip(*(part.names for part in found))]
    if not axes or None in axes:
        return None
    first, last = axes[0][0], axes[-1][0]
    weighted = any(part.values for part in found)
    layout, op = request.layout, None if dup_op is None else find('binary', dup_op)
    unit = unit_of_read(layout.scale, dup_op, layout.unit) if weighted else 1
    to = [To(list(numbers), len(first), len(last), directed, not weighted and op is None)
          for numbers in zip(*(numbers for _, numbers in axes))]
    try:
        made = _make_matrix(parts, edges, to, Fold(op, weighted), name)
    except Repeated as fault:
        ends = first[fault.row], last[fault.column]
        raise ReadError('the edges', None, 'the edge between %r and %r is given twice; %s'
                        % (*ends, FOLDS)) from None
    left_out = functools.reduce(LeftOut.plus, (part.left_out for part in found), LeftOut())
    rows = axis_of(first)
    notes = Metadata(None, None, directed, weighted or op is not None,
                     left_out.added_to(found[0].summary), unit)
    notes = notes.with_axes(rows, rows if last is first else axis_of(last))
    made.notes = notes.with_two_kinds() if bipartite else notes
    return made


def _number_vertices(parts: Sequence[file_parts.Names]) -> Any:
    """All names of rows or columns, and the numbers of those of each part; None where some are
    whole numbers and some aren't."""
    are_whole = [isinstance(names, numpy.ndarray) or all(type(name) is int for name in names)
                 for names in parts if len(names)]
    if any(are_whole) and not all(are_whole):
        return None
    if all(isinstance(names, numpy.ndarray) for names in parts):
        numbers, every = number_ascending(list(parts))
        nodes = Nodes(every.tolist())
    else:
        lists = [list(names) for names in parts]
        found = dict.fromkeys(itertools.chain(*lists))
        # whole numbers, of which some are beyond 64 bits
        nodes = Nodes(sorted(map(int, found)) if all(are_whole) else found)
        numbers = [numpy.array([nodes.places[name] for name in names], numpy.int64)
                   for names in lists]
    if len(nodes) > limits.MOST_SIDE:
        raise refusal('M4', detail='%d vertices' % len(nodes))
    return nodes, [some.astype(numpy.int32) for some in numbers]


def _make_matrix(parts: _Parts, edges: List[Any], to: List[To], fold: Fold,
                 name: Optional[str]) -> BlockMatrix:
    """The matrix of all edges. Those that repeat are folded, or where they have no values count
    once."""
    sessions, shape = parts.sessions, (to[0].nrows, to[0].ncols)
    cut = sessions.cut_for(shape[0], None) or row_partition.cut_by_ranges(
        shape[0], sessions.blocks, lambda rows: sessions.results(
            parts.submit(file_parts.count_rows, edges, to, tuple(rows)), parts.labels))
    split = parts.submit(file_parts.split_edges, edges, to, cut, parts.new_files())
    return parts.make_matrix(split, to[0].bare, shape, cut, name, fold)
