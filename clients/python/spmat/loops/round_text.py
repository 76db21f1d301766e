"""Rounds as text, and the results that come to the client in each of them.

Each round's text is made once for the names that it reads and writes. What a round makes gets a
free name of the loop's, so that nothing is copied where results become the next state; names rotate
by themselves. `run` stands only before a job that wants a result, so the last jobs of a round share
a run with the next round's first.

Where the client decides what is next, as in products of a row with a graph, such a product is all
that the server does in a round. It takes one trip, and its commands are made once, but for the row.
"""
from __future__ import annotations

from typing import (TYPE_CHECKING, Any, Dict, FrozenSet, Iterator, List, NamedTuple, Optional,
                    Sequence, Set, Tuple, Union)

import numpy

from ..prices import stop_estimate
from ..backends.server import ServerHandle
from ..backends.protocol import Handle
from ..backends.trace import Given, Traced, TracedJob, Value
from ..io import matrix_text
from ..io.matrix_text import Triples
from ..limits import QUEUE
from ..matrix import Matrix
from ..operators import Semiring
from ..wire.commands import CommandBatch

if TYPE_CHECKING:
    from ..backends.server import ServerBackend
    from ..session import Session

MOST_TEMPLATES = 512                               # which are kept at a time
NONE = numpy.zeros(0, numpy.int64)
HEAD = len(matrix_text.BANNER)
# bytes of a text that is read in less time alone than together with others
LONG = 1 << 10
# words of the replies to a job and to a run, and of each line of that
QUEUED, RAN, LINE = 4, 4, 5
Source = Union[Matrix, ServerHandle]
"""A matrix of the session, or the owner of what a round made, of which nobody has a matrix yet."""
Sources = Dict[str, Source]
"""The state's matrices by their names in the loop."""


class OwnNames:
    """The owners of names that a loop has taken from its session, and writes again."""

    def __init__(self, backend: 'ServerBackend', size: int) -> None:
        self._backend, self._size = backend, size
        self._own: List[ServerHandle] = []

    def free(self, taken: Set[str]) -> Iterator[ServerHandle]:
        """Those whose names aren't taken, one after the other."""
        yield from [owner for owner in self._own if owner.key not in taken]
        while True:
            made = ServerHandle(self._backend, (0, 0))
            made.note_size(self._size, 0)
            self._own.append(made)
            yield made

    def hand_over(self, owner: ServerHandle) -> None:
        """An owner that a matrix has from now on."""
        if owner in self._own:
            self._own.remove(owner)


class Pending(NamedTuple):
    """A job that is queued and not run: the server's name that it binds, and its results. Also how
    many rounds ago it was asked for, and whether it is to be shown."""
    name: str
    results: Tuple[str, ...]
    back: int
    shown: bool


class Template(NamedTuple):
    """The commands of a round under certain names, as text with `%d` for numbers. Then how many
    words are replied, at which of them the counts of some results stand, and which are shown. These
    are in order, each with how many rounds ago it was asked for. The state behind it has owners of
    what jobs make, names of what was the state's before, and None for what the step has from
    outside. Last come the jobs that are left behind it."""
    text: bytes
    words: int
    counts: List[Tuple[int, int, Tuple[str, ...]]]
    shows: List[Tuple[int, Tuple[str, ...]]]
    commands: int
    after: Dict[str, Union[ServerHandle, str, None]]
    pending: Tuple[Pending, ...]

    def state(self, before: Sources, outside: Dict[str, Matrix]) -> Sources:
        """The state behind a round, of that before it, and of what the step has from outside."""
        return {name: outside[name] if source is None else before[source] if isinstance(source, str)
                else source
                for name, source in self.after.items()}


def key_of(source: Source) -> str:
    """The server's name of a matrix."""
    return source.key if isinstance(source, ServerHandle) else source.handle.key


def keys_of(sources: Sources) -> Tuple[str, ...]:
    """The server's names of a state's matrices."""
    return tuple(map(key_of, sources.values()))


class Renderer:
    """Rounds as text."""

    def __init__(self, backend: 'ServerBackend', show: Sequence[str], size: int) -> None:
        self.backend, self.show = backend, frozenset(show)
        self._templates: Dict[Tuple[Traced, Tuple[str, ...], FrozenSet[str], Tuple[Pending, ...]],
                              Template] = {}
        self.names = OwnNames(backend, size)

    def template(self, traced: Traced, state: Sources, held: FrozenSet[str],
                 pending: Tuple[Pending, ...]) -> Template:
        """The commands of a round that begins with this state, and with jobs that are queued; it
        doesn't write the names that are held."""
        key = (traced, keys_of(state), held, pending)
        if key not in self._templates:
            if len(self._templates) >= MOST_TEMPLATES:
                self._templates.clear()
            self._templates[key] = Writing(self, state, held, pending).write(traced)
        return self._templates[key]

    def hand_over(self, owner: ServerHandle) -> None:
        """An owner that a matrix has from now on: no round writes its name any more."""
        self.names.hand_over(owner)
        self._templates.clear()


class Writing:
    """The text of one round as it is written."""

    def __init__(self, renderer: Renderer, state: Sources, held: FrozenSet[str],
                 pending: Sequence[Pending]) -> None:
        self._renderer, self._state, self._pending = renderer, state, list(pending)
        self._free = renderer.names.free({*keys_of(state), *held, *(job.name for job in pending)})
        self._text: List[bytes] = []
        self._made: Dict[int, ServerHandle] = {}
        self._words = self._commands = 0
        self._counts: List[Tuple[int, int, Tuple[str, ...]]] = []
        self._shows: List[Tuple[int, Tuple[str, ...]]] = []

    def write(self, traced: Traced) -> Template:
        """The commands of a round, whose last jobs stay queued."""
        if not traced.operators:
            upload = self._renderer.backend.upload
            traced.operators = [[upload(op).name for op in job.operators] for job in traced.jobs]
        for number, job in enumerate(traced.jobs):
            self._write_job(number, job, traced.labels[number], traced.operators[number])
        return self._finish({name: self._find_source(traced.out[name]) for name in self._state})

    def write_run(self) -> Template:
        """A run of what is queued, and no round."""
        self._write_run()
        return self._finish({})

    def _finish(self, after: Dict[str, Union[ServerHandle, str, None]]) -> Template:
        left = tuple(job._replace(back=job.back + 1) for job in self._pending)
        return Template(b''.join(self._text), self._words, self._counts, self._shows,
                        self._commands, after, left)

    def _find_source(self, value: Value) -> Union[ServerHandle, str, None]:
        return (None if isinstance(value, Handle) else value.name if isinstance(value, Given)
                else self._made[value.job])

    def _find_key(self, value: Value) -> str:
        """The server's name of a value."""
        return value.key if isinstance(value, Handle) else key_of(
            self._state[value.name] if isinstance(value, Given) else self._made[value.job])

    def _write_job(self, number: int, job: TracedJob, labels: Tuple[str, ...],
                   ops: List[str]) -> None:
        operands = list(map(self._find_key, job.operands))
        mask = None if job.mask is None else self._find_key(job.mask)
        waiting = {one.name for one in self._pending}
        if len(waiting) >= QUEUE or mask in waiting or not waiting.isdisjoint(operands):
            self._write_run()
        owner = self._made[number] = next(self._free)
        words = [job.form, owner.key, *ops, *operands, *(['%d'] if job.is_numbered else []),
                 *([] if mask is None else ['mask', mask])]
        self._text.append(' '.join(words).encode() + b'\n')
        self._words += QUEUED
        self._commands += 1
        shown = not self._renderer.show.isdisjoint(labels)
        self._pending.append(Pending(owner.key, labels, 0, shown))

    def _write_run(self) -> None:
        self._text.append(b'run\n')
        self._words += RAN
        self._commands += 1
        for job in self._pending:
            if job.results:
                self._counts.append((self._words + 3, job.back, job.results))
            self._words += LINE
        for job in self._pending:
            if job.shown:
                self._text.append(b'show %s\n' % job.name.encode())
                self._shows.append((job.back, job.results))
                self._commands += 1
        self._pending = []


# -- what comes back

def split_bodies(replies: bytes) -> Tuple[bytes, List[bytes]]:
    """The replies without the texts that were shown, and these in order."""
    plain: List[bytes] = []
    bodies: List[bytes] = []
    pos = 0
    while True:
        at = replies.find(b'ok show ', pos)
        if at < 0:
            return b''.join([*plain, replies[pos:]]), bodies
        line = replies.index(b'\n', at) + 1
        plain.append(replies[pos:at])
        pos = line + int(replies[at + 8:line])
        bodies.append(replies[line:pos])


def is_refused(replies: bytes) -> bool:
    """Whether one of these replies, without texts, is a refusal."""
    return replies.startswith(b'no ') or b'\nno ' in replies


class Entries(NamedTuple):
    """Entries of rows or columns by round: the round, the place (the column of a row, the row of a
    column, from 0) and the value of each."""
    rounds: Any
    places: Any
    values: Any


class Shown:
    """What was shown of one result. `rounds`, `places` and `values` are those of all its entries,
    up to the round that was asked for last."""

    def __init__(self, shape: Tuple[int, int]) -> None:
        if 1 not in shape:
            raise ValueError(
                'show= is of rows and columns, and this is %dx%d: `loop.state` has the matrix, '
                'or reduce_rowwise() a column of it' % shape)
        self._field = 0 if shape[1] == 1 else 1
        # of rounds: their numbers, how many entries each has, and these
        self._new: List[Tuple[int, int, bytes]] = []
        self._read: List[Entries] = []

    def add(self, number: int, count: int, text: bytes) -> None:
        """The text of a round, as the server writes it."""
        if count:
            self._new.append((number, count, text))

    def drain(self, rounds: bool = True) -> Entries:
        """The entries that came since this was asked last, and weren't read otherwise; rounds where
        they are wanted."""
        new, self._new = self._new, []
        texts = [text for _, _, text in new]
        numbers_of = numpy.repeat(numpy.array([number for number, _, _ in new], numpy.int64),
                                  [count for _, count, _ in new]) if rounds else NONE
        if texts and sum(map(len, texts)) >= LONG * len(texts):
            found = [matrix_text.read(text) for text in texts]
            return Entries(numbers_of, numpy.concatenate([one[self._field] for one in found]),
                           numpy.concatenate([one.values for one in found]))
        lines = matrix_text.read_lines(b''.join(text[text.index(b'\n', HEAD) + 1:]
                                                for text in texts))
        return Entries(numbers_of, lines[:, self._field] - 1, lines[:, 2].copy())

    def entries(self) -> Entries:
        """All entries, by ascending rounds and places."""
        if self._new or not self._read:
            self._read.append(self.drain())
        if len(self._read) > 1:
            self._read = [Entries(*map(numpy.concatenate, zip(*self._read)))]
        return self._read[0]

    @property
    def rounds(self) -> Any:
        """The round of each entry, from 1."""
        return self.entries().rounds

    @property
    def places(self) -> Any:
        """The place of each entry, from 0."""
        return self.entries().places

    @property
    def values(self) -> Any:
        """The value of each entry."""
        return self.entries().values

    def __iter__(self) -> Any:
        return iter(self.entries())

    def __repr__(self) -> str:
        return '<Shown, %d entries>' % len(self.rounds)


class Push:
    """The product of a row with a graph, over a semiring."""

    def __init__(self, graph: Matrix, ring: Semiring) -> None:
        session = graph.session
        self.session, self.graph = session, graph.wait()
        self._names = OwnNames(session.backend, graph.ncols)
        free = self._names.free(set())
        self._row, made = next(free).key.encode(), next(free).key.encode()
        ops = [session.backend.upload(op).name.encode() for op in (ring.add, ring.mul)]
        self._rest = b'product %s %s %s %s\nrun\nshow %s\nbudget\n' % (made, b' '.join(ops),
                                                                       self._row,
                                                                       graph.handle.key.encode(),
                                                                       made)

    def __call__(self, entries: Triples) -> Optional[Entries]:
        """The row that the product is: places and values. None where the server refuses the job,
        whatever for."""
        session = self.session
        if session.backend.queue.limits:           # which hold for jobs that are queued
            return None
        text = matrix_text.write(entries, ones=True)
        batch = CommandBatch(b'matrix %s %d\n%s\n%s' % (self._row, len(text), text, self._rest), 5)
        backend = session.backend
        with backend.lock():
            flush(session)
            session.connection.post(batch)
            backend.queue.runs += 1
            backend.jobs += 1
            replies = session.connection.collect(batch)
            backend.queue.note_budget(*map(int, replies.rsplit(None, 3)[-3:-1]))
        said, bodies = split_bodies(replies)
        if not bodies or is_refused(said):
            return None
        shown = Shown((1, self.graph.ncols))
        shown.add(1, 1, bodies[0])
        return shown.drain(rounds=False)


def flush(session: 'Session') -> None:
    """Sends and runs what waits in a session, so that no other run takes it for its own."""
    queue = session.backend.queue
    stop_estimate()
    session.backend.poison()
    if not queue.is_idle:
        session.run()
    if session.connection.waiting:
        session.connection.exchange()
