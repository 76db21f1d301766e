"""The backend of one session: operators are uploaded, jobs queued, matrices sent and read, over a
connection.

What makes many rounds of its own (`spmat.loops`) also uses the names, the queue and the
connection."""
from __future__ import annotations

import collections
import copy
import functools
import itertools
import os
import re
import weakref
from typing import (Any, Deque, Dict, Iterable, Iterator, List, Mapping, NamedTuple,
                    Optional, Set, Tuple)

from ..errors import BudgetExceeded, OperatorRefused, Refused, SpmatError, refusal
from ..io import matrix_text
from ..io.matrix_text import Triples
from ..limits import MOST_OPERATOR, MOST_PRICE, MOST_SIDE, MOST_TEXT, QUEUE
from ..operators import Operator, diagnostics
from ..wire.commands import (LONGEST_ENTRY, LONGEST_HEAD, NOTHING, Command, Limits, Near, Reply,
                             raise_fault, read_shown, sizes_of_text)
from ..wire.connection import Connection, SessionLock
from ..prices import ESTIMATES, estimate_here, stop_estimate
from .protocol import AMPLE, Backend, Budget, Handle, Job, JobResult, Most, Run, most_of, serial


class Uploaded(NamedTuple):
    """An operator that the server has: its name there, and its instructions."""
    name: str
    instructions: int


class SentMatrix(Command):
    """The command that sends the entries of a matrix that the client has."""

    word, matters = 'matrix', True

    # the line is one of ours
    # pylint: disable-next=super-init-not-called
    def __init__(self, handle: DeferredHandle, text: bytes) -> None:
        self.line, self.body = 'matrix ' + handle.key, text
        self._handle = handle

    def done(self, reply: Reply) -> None:
        sizes = [*self._handle.shape, self._handle.nvals]
        if reply.numbers != sizes:
            raise_fault(self.line, 'ROWS COLUMNS ENTRIES of ' + ' '.join(map(str, sizes)),
                        ['ok', *reply.words])

    def lost(self, cause: BaseException) -> None:
        self._handle.lost = without_frames(cause)


class ShownMatrix(Command):
    """The command that gets the text of a matrix, of which `entries` are read. The session ends
    where it is another's."""

    word = 'show'
    entries: Optional[Triples] = None

    # the line is one of ours
    # pylint: disable-next=super-init-not-called
    def __init__(self, handle: Handle) -> None:
        self.line = 'show ' + handle.key
        self.within = {'BYTES': (0, LONGEST_HEAD + min(handle.most, MOST_SIDE) * LONGEST_ENTRY)}
        self._handle = handle

    def done(self, reply: Reply) -> None:
        self.entries = read_shown(self.line, reply.body, self._handle.shape, self._handle.nvals)


class ServerBackend(Backend):
    """One session's operators, jobs and matrices at the server. `jobs` counts those that were
    submitted."""

    def __init__(self, session: object, connection: Connection, shared: bool) -> None:
        self.session, self.connection = session, connection
        self.names = ServerNames()
        self.queue = Queue(connection, shared)
        self.jobs = 0
        self._lock = connection.lock
        self._operators: Dict[Operator, Uploaded] = {}

    def lock(self) -> SessionLock:
        """One thread at a time, and no Ctrl-C amid."""
        return self._lock

    # pylint: disable-next=dangerous-default-value
    def command(self, line: str, body: Optional[bytes] = None, near: Optional[Near] = None,
                within: Mapping[str, Limits] = NOTHING) -> Reply:
        """Sends what waits and a command; its reply, whose numbers are `within` limits that the
        client knows."""
        self.sweep()
        return self.connection.command(line, body, near, within)

    def sweep(self) -> None:
        """Overwrites large matrices that nobody holds, as no command forgets one."""
        if self.names.dropped:
            for name, text in self.names.settle():
                self.connection.put(Command('matrix ' + name, text))

    def poison(self) -> None:
        """The same before what waits to be sent with the next command, where names that are given
        back are poisoned."""
        if self.names.poisons:
            self.sweep()

    def flush(self, handle: Handle) -> None:
        """Sends the jobs that wait to be sent, so that their prices are known. No run but those
        that stand behind them."""
        with self._lock:
            self.connection.exchange()

    def budget(self) -> Budget:
        """What the budget holds. No run."""
        with self._lock:
            budget = Budget(*self.command('budget').numbers)
            self.queue.note_budget(budget.left)
            return budget

    # -- matrices

    def put(self, entries: Triples) -> Handle:
        """A matrix of entries by ascending row and column, which aren't looked at. The client has
        them; they are sent when a job wants them."""
        return DeferredHandle(self, entries)

    def send(self, entries: Triples, handle: DeferredHandle) -> None:
        """Sends the entries of a matrix that the client has, with the next command, under a name
        that its handle takes."""
        with self._lock:
            self.poison()
            text = matrix_text.write(entries, ones=True)
            handle.key = self.names.take(handle)
            handle.note_size(entries.nrows, len(entries.rows))
            if self.connection.put(SentMatrix(handle, text)):
                self.connection.exchange()

    def put_text(self, text: bytes, name: Optional[str] = None) -> Handle:
        if len(text) > MOST_TEXT:
            raise refusal('S7', detail='the text has %d bytes' % len(text))
        with self._lock:
            self.sweep()
            handle = ServerHandle(self, (0, 0), wished=name)
            reply = self.command('matrix ' + handle.key, text,
                                 lambda rule, at: matrix_text.line_at(text, at),
                                 sizes_of_text(text))
            nrows, ncols, nvals = reply.numbers
            handle.shape = nrows, ncols
            handle.nvals = handle.most = nvals
            handle.note_size(nrows, nvals)
            return handle

    def read_text(self, handle: Handle) -> bytes:
        """The canonical text of a matrix. Runs the queue where it waits."""
        if handle.is_deferred:
            assert isinstance(handle, DeferredHandle)
            return matrix_text.write(handle.entries)
        shown = self._show(handle).answer
        assert isinstance(shown, Reply)
        return shown.body

    def read(self, handle: Handle) -> Triples:
        if handle.is_deferred:
            assert isinstance(handle, DeferredHandle)
            return matrix_text.as_arrays(handle.entries)
        entries = self._show(handle).entries
        assert entries is not None
        return entries

    def _show(self, handle: Handle) -> ShownMatrix:
        """The command that got a matrix, with its reply. Runs the queue where it waits."""
        with self._lock:
            if handle.lost is not None:
                handle.check_made()
            if self.names.dropped:
                self.sweep()
            command, connection = ShownMatrix(handle), self.connection
            if handle.nvals is None:
                self.queue.run_later()
            try:
                connection.exchange(command)
            except Refused as refused:
                raise connection.refused or refused
            if connection.refused is not None:
                raise connection.refused
            return command

    def wait(self, handle: Handle) -> None:
        """Runs the queue where a matrix waits. Raises Closed where the session has ended, and
        NotMade where the run was refused."""
        if handle.waits:
            self._run()
        else:
            self.connection.check_open()
        handle.check_made()

    # -- operators

    def upload(self, op: Operator) -> Uploaded:
        """An operator as this session has it. It is uploaded at its first use; what the server
        refuses is OperatorRefused."""
        if not isinstance(op, Operator):
            raise TypeError('expected an operator, such as spmat.binary.plus, got %r' % (op,))
        with self._lock:
            return self._uploaded(op)

    def _uploaded(self, op: Operator) -> Uploaded:
        if op not in self._operators:
            if len(op.body) > MOST_OPERATOR:
                raise refusal('S7', detail='the operator has %d bytes' % len(op.body))
            name = self._operator_name(op)
            try:
                reply = self.command('%s %s %s' % ('op' if op.text is None else 'asm', name,
                                                   op.kind), op.body, op.line_at)
            except OperatorRefused as refused:
                raise diagnostics.explain_refusal(op, refused) from None
            self._operators[op] = Uploaded(name, reply.numbers[-1])
        return self._operators[op]

    def length_of(self, op: Operator) -> int:
        return self.upload(op).instructions

    def _operator_name(self, op: Operator) -> str:
        """The operator's own name where the server takes it and no other has it, else a number."""
        taken = {uploaded.name for uploaded in self._operators.values()}
        if op.name and op.name not in taken and re.fullmatch('[A-Za-z0-9_]{1,32}', op.name):
            return op.name
        return next(name for name in map('f{}'.format, itertools.count(len(taken) + 1))
                    if name not in taken)

    # -- jobs

    def submit(self, job: Job, name: Optional[str] = None) -> Handle:
        """Queues a job. It takes the versions that its names have when it is submitted, so an
        operand or mask that waits makes the queue run first. So does a full queue, and a budget
        that is too small while jobs wait: then what they don't take comes back, and the job is sent
        once more.

        What is known of its operands' entries may tell that nothing but lack of memory can refuse a
        job. Such a job is sent with the next command that needs an answer, and so is the run before
        it. Any other is sent at once. A job of a call that is priced is only foreseen."""
        estimate = estimate_here() if ESTIMATES else None
        if estimate is not None:
            return estimate.submit(self, job)
        with self._lock:
            words, length = [job.form, ''], 0
            for op in job.operators:
                called, instructions = self._operators.get(op) or self._uploaded(op)
                words.append(called)
                length += instructions
            queue, mask = self.queue, job.mask
            must_run = len(queue.waiting) >= QUEUE
            for handle in job.operands if mask is None else (*job.operands, mask):
                if handle.lost is not None:
                    handle.check_made()
                key = handle.key
                must_run = must_run or key in queue.waiting
                words.append(key)
            if job.thunk is not None:
                words.insert(len(words) - (mask is not None), str(job.thunk))
            if mask is not None:
                words.insert(-1, 'mask')
            if must_run:
                queue.run_later()
            if self.names.poisons:
                self.sweep()
            most = most_of(job, length)
            made = ServerHandle(self, job.shape, None, most.entries, name)
            made.form, made.most_steps, words[1] = job.form, most.steps, made.key
            if queue.add(made, ' '.join(words), most):
                # so that a loop of jobs uses the names of what nobody holds again
                self.sweep()
            self.jobs += 1
            return made

    def run(self) -> Run:
        report = Run()
        self._run(report)
        return report

    def _run(self, report: Optional[Run] = None) -> None:
        """Runs the jobs that wait; what the run settled goes into the report, if one is wanted."""
        with self._lock:
            self.queue.run_later()
            if self.queue.is_idle:
                return
            self.sweep()
            self.queue.report = report
            try:
                self.connection.exchange()
            finally:
                self.queue.report = None
            if self.connection.refused is not None:
                raise self.connection.refused

    def lines_of(self, command: str, op: Operator) -> List[str]:
        """What the server says of an operator: `dis` its code, `types` what the verifier knows
        before each instruction."""
        with self._lock:
            return self.command('%s %s' % (command, self.upload(op).name)).lines


# -- handles of matrices at a server, and the names that it has them under

# a dead matrix of more rows and entries than this is overwritten
SMALL = 65_536
_NAME = re.compile('[A-Za-z0-9][A-Za-z0-9_]{0,31}')
# the variable by which tests have names poisoned that are given back
POISONED = 'SPMAT_POISON_NAMES'
# What a poisoned name stands for: no matrix of a test has these sizes, nor these values.
POISON = (matrix_text.BANNER
          + b'3 16777213 2\n1 16777213 -6148914691236517206\n3 1 6148914691236517205\n')


class ServerHandle(Handle):
    """The owner of a name at the server, `key`, and of a job's result what the queue has to know of
    the job.

    A name has one owner, which takes it as it is made: there is no second one for a name that is
    taken. Whatever has to do with a matrix holds its owner, and the name is given back when nobody
    does. So a queue that holds the handles of its jobs keeps their names taken."""

    backend: 'ServerBackend'
    # of a job's result: the job's form, the most steps that it can take, and whether the command
    # that queues it was refused
    form = ''
    most_steps = 0
    is_refused = False

    def __init__(self, backend: 'ServerBackend', shape: Tuple[int, int],
                 nvals: Optional[int] = None, most: int = MOST_SIDE,
                 wished: Optional[str] = None) -> None:
        super().__init__(backend, shape, nvals, most)
        self.key = backend.names.take(self, wished)

    def note_size(self, rows: int, entries: int) -> None:
        """How large the matrix is that the name stands for now."""
        self.backend.names.note_size(self.key, rows + entries)


class DeferredHandle(ServerHandle):
    """A matrix whose entries the client has. They are sent at the first use of its name, once."""

    is_deferred = True

    # A server's handle takes its name as it is made, and this one at the first use.
    # pylint: disable-next=super-init-not-called
    def __init__(self, backend: 'ServerBackend', entries: Triples) -> None:
        shape = (entries.nrows, entries.ncols)
        # pylint: disable-next=non-parent-init-called
        Handle.__init__(self, backend, shape, len(entries.rows))
        self.entries = entries
        self._key = ''

    @property
    def key(self) -> str:
        """The server's name of the matrix: it is taken, and the matrix sent, where it wasn't."""
        if not self._key:
            self.backend.send(self.entries, self)
        return self._key

    @key.setter
    def key(self, key: str) -> None:
        self._key = key


class ServerNames:
    """The names of one session.

    An owner that nobody holds leaves its name here: that alone happens when it is collected, and
    nothing is sent. The name is used again. What is large is overwritten before, as no command
    forgets a matrix.

    With the variable SPMAT_POISON_NAMES set, each name that is given back is overwritten before the
    next command, with a matrix that nobody could take for another, and isn't used again. So a test
    shows who uses a name that it doesn't own.
    """

    def __init__(self) -> None:
        self.dropped: Deque[str] = collections.deque()    # as their owners were collected
        self.poisons = bool(os.environ.get(POISONED))
        self._free: Deque[str] = collections.deque()
        # rows and entries of what a name stands for, where that is large
        self._large: Set[str] = set()
        self._owners: Dict[str, 'weakref.ref[Handle]'] = {}
        self._count = 0

    def take(self, owner: Handle, wished: Optional[str] = None) -> str:
        """A name for a new matrix, which its owner has until it is collected. It is the one that is
        wished, if the server takes it and no other matrix has it. Otherwise it is one of the
        client's, which begin with an underscore."""
        # of owners first, as one that is collected meanwhile goes from there to `dropped`
        if (wished is not None and wished not in self._owners and wished not in self.dropped
            and _NAME.fullmatch(wished)):
            name = wished
        elif self._free:
            name = self._free.popleft()
        else:
            self._count += 1
            name = '_%d' % self._count
        self._owners[name] = weakref.ref(owner, functools.partial(self._collected, name))
        return name

    def named(self) -> Dict[str, Any]:
        """The matrices that callers gave a name, by it; of two with one name the one whose entries
        came later, and of those with the same entries the first."""
        found = {}
        for key, reference in list(self._owners.items()):
            owner = reference()
            for matrix in reversed(owner.matrices() if owner is not None and not owner.is_deferred
                                   else []):
                if matrix.name and (matrix.name != key or not key.startswith('_')):
                    found[matrix.name] = matrix
        return found

    def _collected(self, name: str, reference: 'weakref.ref[Handle]') -> None:
        # a name that was given back may have another owner by now
        if self._owners.get(name) is reference:
            del self._owners[name]
            self.dropped.append(name)

    def note_size(self, name: str, size: int) -> None:
        """How many rows and entries a name stands for now."""
        if size > SMALL:
            self._large.add(name)
        else:
            self._large.discard(name)

    def settle(self) -> Iterator[Tuple[str, bytes]]:
        """Makes names of collected owners free, and yields those that are to be overwritten before,
        with the text."""
        while self.dropped:
            name = self.dropped.popleft()
            is_large = name in self._large
            self._large.discard(name)
            if self.poisons:
                yield name, POISON
                continue
            if is_large:
                yield name, matrix_text.EMPTY
            if name.startswith('_'):
                self._free.append(name)


# -- the queue: jobs that wait, and what runs them

# the entries and the steps that a line of the reply to `run` ends with
COUNTS = re.compile(r'([0-9]{1,20}) ([0-9]{1,20})')


class Limit:
    """The steps that the jobs of a session may take in a `with`: those that are queued in it.

    Attributes
    ----------
    steps : int
        How many they may take.
    spent : int
        How many they took.
    passed : bool
        Whether a batch wasn't run for it.
    """

    def __init__(self, steps: int) -> None:
        self.steps, self.spent, self.passed = steps, 0, False
        self._begun = next(serial)

    @property
    def left(self) -> int:
        """What may still be spent.

        Returns
        -------
        int
            The difference.
        """
        return self.steps - self.spent

    def counts(self, job: ServerHandle) -> bool:
        """Whether a job is one of these."""
        return job.serial > self._begun

    def check(self, jobs: Iterable[ServerHandle]) -> None:
        """BudgetExceeded where the prices of a batch are above what is left."""
        price = sum(job.price or 0 for job in jobs if self.counts(job))
        if price > self.left:
            self.passed = True
            raise refusal('S8', (price, self.left), detail='the price is %d, and %d are left of '
                          'the limit of %d: what is queued runs when the session next runs jobs'
                          % (price, self.left, self.steps))


class Queue:
    """Jobs that wait to be run, sent or not, and runs that wait to be sent. A job is known by the
    handle of its result, which the queue holds until the job ran.

    `left` is what the budget has for sure: all of it where nobody shares it. `report` gets what a
    run settled, while somebody wants that. Each of the `limits` holds for all jobs."""

    def __init__(self, connection: Connection, shared: bool) -> None:
        self.connection, self.shared = connection, shared
        self.waiting: Dict[str, ServerHandle] = {}
        # runs that aren't answered yet
        self.running = 0
        # entries, at most, of results that aren't known yet
        self.unknown = 0
        # jobs that the server has queued since its last run, as its replies say
        self.queued_there = 0
        self.left = 0
        self.runs = 0
        self.limits: List[Limit] = []
        self.report: Optional[Run] = None

    def __len__(self) -> int:
        return len(self.waiting)

    def note_budget(self, left: int, *_: int) -> None:
        """What the server says of the budget."""
        self.left = left

    @property
    def is_ample(self) -> bool:
        """Whether so much is left that nobody counts steps."""
        return self.left > AMPLE and not self.limits

    @property
    def is_idle(self) -> bool:
        """Whether no job waits, neither for a run nor in one that wasn't sent."""
        return not self.waiting and not self.running

    def add(self, job: ServerHandle, line: str, most: Most) -> bool:
        """Hands a job in. One that can be refused by nothing but lack of memory isn't sent at once.
        Whether what waits was sent then: it was much, or its results could hold so much memory that
        they are better looked at."""
        is_sure = (most.steps <= MOST_PRICE and most.terms <= MOST_SIDE
                   and self.left - most.steps >= (AMPLE if self.shared else 0))
        if not is_sure:
            self._add_now(job, line)
            return False
        self.waiting[job.key] = job
        self.left -= job.most_steps
        self.unknown += job.most
        is_full = self.connection.put(QueuedJob(self, job, line, True))
        if not is_full and self.unknown <= MOST_SIDE:
            return False
        self.connection.exchange()
        return True

    def _add_now(self, job: ServerHandle, line: str) -> None:
        """Hands a job in, and sends it. A budget that is too small while jobs wait gets back what
        these don't take, and the job is sent once more. Where that is interrupted, the job may be
        queued all the same."""
        connection = self.connection
        try:
            connection.exchange(QueuedJob(self, job, line))
            return
        except BudgetExceeded as fault:
            if not self.waiting:
                raise fault.with_advice() from None
        self.run_later()
        connection.exchange()
        if connection.refused is not None:
            raise connection.refused
        try:
            connection.exchange(QueuedJob(self, job, line))
        except BudgetExceeded as fault:
            raise fault.with_advice() from None

    def run_later(self) -> None:
        """A run of what waits, not sent yet. What was sent before and interrupted is answered
        first, as it may wait, too."""
        if self.connection.pending:
            self.connection.settle()
        if self.waiting:
            if ESTIMATES:
                stop_estimate()
            if self.limits:
                self.keep_limits()
            self.connection.put(QueuedRun(self, list(self.waiting.values())))
            self.waiting.clear()
            self.running += 1
            self.runs += 1

    def keep_limits(self) -> None:
        """BudgetExceeded where what waits would pass a limit, by the prices that the server tells
        as it queues the jobs, and by what earlier runs took."""
        self.connection.exchange()
        for limit in self.limits:
            limit.check(self.waiting.values())


class QueuedJob(Command):
    """The command of a job. Where it `matters` to others the job waits for a run already, else from
    the reply on."""

    # the line is one of ours
    # pylint: disable-next=super-init-not-called
    def __init__(self, queue: Queue, job: ServerHandle, line: str, matters: bool = False) -> None:
        self.line, self.word, self.matters = line, job.form, matters
        self.queue, self.job = queue, job

    def done(self, reply: Reply) -> None:
        queue, job = self.queue, self.job
        (position, price), due = reply.numbers, queue.queued_there + 1
        if position != due or price > job.most_steps:
            raise_fault(self.line, 'POSITION of %d and PRICE of 0 to %d'
                        % (due, min(job.most_steps, MOST_PRICE)), ['ok', *reply.words])
        queue.queued_there, job.price = position, price
        if self.matters:
            queue.left += job.most_steps - price
        else:
            queue.waiting[job.key] = job
            queue.left -= price
        if queue.connection.refused is not None:
            _lose(job, queue.connection.refused)

    def lost(self, cause: BaseException) -> None:
        if self.matters:
            self.job.is_refused = True
            self.queue.left += self.job.most_steps
            self.queue.waiting.pop(self.job.key, None)
            _lose(self.job, cause)


class QueuedRun(Command):
    """The command that runs these jobs."""

    line = word = 'run'
    matters = runs = True

    # the line is one of ours
    # pylint: disable-next=super-init-not-called
    def __init__(self, queue: Queue, jobs: List[ServerHandle]) -> None:
        self._queue, self._jobs = queue, jobs

    @property
    def jobs(self) -> int:  # type: ignore[override]
        """How many jobs it runs."""
        return len(self._jobs)

    def done(self, reply: Reply) -> None:
        queue, counts = self._queue, self._read_counts(reply)
        self._end()
        for job, entries, steps in counts:
            assert job.price is not None
            queue.left += job.price - steps
            for limit in queue.limits:
                limit.spent += steps if limit.counts(job) else 0
            if job.shape[0] + entries > SMALL:     # a new name stands for what is small
                job.note_size(job.shape[0], entries)
            if job.lost is None:
                job.nvals, job.most, job.steps = entries, entries, steps
        if queue.report is not None:
            queue.report[:] = [JobResult(next(iter(job.matrices()), None), job.form, job.price or 0,
                                         job.steps or 0) for job, _, _ in counts]

    def _read_counts(self, reply: Reply) -> List[Tuple[ServerHandle, int, int]]:
        """The entries and the steps of each job that was queued. ProtocolError where the lines
        aren't those of these jobs, or where their steps don't add up to what was spent."""
        jobs, counts, spent = [job for job in self._jobs if not job.is_refused], [], 0
        if len(reply.lines) != len(jobs):
            raise_fault('run', '%d lines, one for each job' % len(jobs),
                        ['%d lines' % len(reply.lines)])
        for line, job in zip(reply.lines, jobs):
            start, price = '%s %d %d ' % (job.key, *job.shape), job.price or 0
            most = job.most if job.most < MOST_SIDE else MOST_SIDE
            said = COUNTS.fullmatch(line, len(start)) if line.startswith(start) else None
            entries, steps = map(int, said.groups()) if said is not None else (-1, -1)
            if not (0 <= entries <= most and 0 <= steps <= price):
                raise_fault('run', '`%sENTRIES STEPS`, of up to %d and %d' % (start, most, price),
                            [line])
            counts.append((job, entries, steps))
            spent += steps
        if spent != reply.numbers[1]:
            raise_fault('run', 'STEPS of %d, the sum of its lines' % spent, ['ok', *reply.words])
        return counts

    def lost(self, cause: BaseException) -> None:
        if isinstance(cause, Refused):
            self._queue.left = 0                   # until the server says what is left
            for limit in self._queue.limits:
                limit.spent += getattr(cause, 'spent', None) or 0
        for job in self._jobs:
            _lose(job, cause)
        self._end()

    def _end(self) -> None:
        queue = self._queue
        queue.queued_there = 0
        queue.running -= 1
        # of those that were handed in at once, none was added
        queue.unknown = max(0, queue.unknown - sum(job.most for job in self._jobs))


def _lose(job: ServerHandle, cause: BaseException) -> None:
    """The result is never made. The first cause counts."""
    if job.lost is None:
        job.lost = without_frames(cause)


def without_frames(fault: BaseException) -> BaseException:
    """The same exception without the frames that it came through, which would keep their
    matrices."""
    try:
        return copy.copy(fault).with_traceback(None)
    except Exception:  # pylint: disable=broad-exception-caught  # of whatever can't be copied
        return SpmatError('%s: %s' % (type(fault).__name__, fault))
