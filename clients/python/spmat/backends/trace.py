"""A round of a loop, traced: its step is called with matrices that have shapes and methods and no
entries, and asks for the jobs of the round. They are noted here, and none is run."""
from __future__ import annotations

from typing import TYPE_CHECKING, Any, Dict, List, NamedTuple, NoReturn, Optional, Tuple, Union

from ..io.matrix_text import Triples
from ..limits import MOST_PRICE, MOST_SIDE
from ..matrix import Matrix
from ..matrix_base import alias
from ..operators import Operator
from . import protocol
from .protocol import Backend, Budget, Handle, Job, Most, Run, most_of

if TYPE_CHECKING:
    from ..session import Session

NO_ENTRIES = (
    'a step of a loop is traced, not run: %s has no entries yet. In a step reduce_rowwise() '
    'gives a number as a 1x1 matrix; show=, each= and until= tell what a round came to')
OUTSIDE = (
    'a step makes a matrix that does not depend on the state in each round: such matrices are '
    'to be made before the loop, so that each round takes the same one')
OTHER_ROUND = (
    'a step works on a matrix of another session, of another loop, or of an earlier round: what '
    'a later round is to have goes into the state')


class NotTraced(TypeError):
    """A step asks for what no matrix has while it is traced."""


class NotAlike(ValueError):
    """A step isn't one of its rounds alone. It makes matrices itself in each, or takes some of an
    earlier round. Or it asks for other jobs where it is called again for the same round."""


class Given(NamedTuple):
    """What a round begins with, by its name."""
    name: str


class Made(NamedTuple):
    """What a job of the round makes, by the job's number."""
    job: int


Value = Union[Given, Made, Handle]
"""What a job takes: the last is a matrix from outside of the step."""


class TracedJob(NamedTuple):
    """A job of the step. `is_numbered` says whether it takes a number, which each round has its own
    of; `is_by_parts` whether it is a product that is made by parts where it is too large."""
    form: str
    operators: Tuple[Operator, ...]
    operands: Tuple[Value, ...]
    mask: Optional[Value]
    is_numbered: bool
    is_by_parts: bool
    shape: Tuple[int, int]
    most: Most


class Traced:
    """What some rounds ask for, of which only the numbers differ: jobs, and which values their
    results are. `labels` are the results that each job makes."""

    def __init__(self, jobs: List[TracedJob], out: Dict[str, Value]) -> None:
        self.jobs, self.out = jobs, out
        self.labels = [tuple(name for name, value in out.items() if value == Made(number))
                       for number in range(len(jobs))]
        self.steps = sum(min(job.most.steps, MOST_PRICE) for job in jobs)      # at most
        self.is_sure = all(job.most.terms <= MOST_SIDE and job.most.steps <= MOST_PRICE
                           for job in jobs)
        values = [value for job in jobs for value in (*job.operands, job.mask)]
        self.used = {value.name for value in values if isinstance(value, Given)}
        self.constants = [value for value in (*values, *out.values()) if isinstance(value, Handle)]
        self.is_known = False                      # whether it was looked at
        # what the server calls the operators of each job, once it was written down
        self.operators: List[List[str]] = []


class TraceHandle(Handle):
    """A matrix that a traced step works on; `value` says which."""

    def __init__(self, backend: 'TraceBackend', shape: Tuple[int, int], most: int,
                 value: Union[Given, Made], label: str) -> None:
        super().__init__(backend, shape, None, min(most, MOST_SIDE))
        self.value, self.key = value, label


class Jobs:
    """The jobs that rounds ask for, as a tree: those that begin alike share a branch. So a round
    that is like an earlier one costs a look at each job."""

    def __init__(self, job: Optional[TracedJob] = None) -> None:
        self.job = job
        self.following: Dict[Any, Jobs] = {}
        self.ends: Dict[Any, Traced] = {}
        self.kinds = 0                             # of the root: how many ends there are


class TraceBackend(Backend):
    """What takes the jobs of one round of a traced step, and what its matrices have for their
    session. `ones` are rows of ones that earlier rounds asked for; of a later round no matrix may
    be new that is none of the state's."""

    takes_others = True

    def __init__(self, server_session: 'Session', begun: Jobs, ones: Dict[int, Matrix],
                 is_later: bool) -> None:
        self.server_session = server_session
        self.session = self.backend = self
        self.connection = server_session.connection
        self.at, self.jobs, self.numbers = begun, [], []  # type: Jobs, List[TracedJob], List[int]
        self._ones = ones
        self._last = next(protocol.serial) if is_later else None

    def submit(self, job: Job, name: Optional[str] = None) -> Handle:
        """Notes a job."""
        values = tuple(map(self.value_of, job.operands))
        mask = None if job.mask is None else self.value_of(job.mask)
        is_numbered = job.thunk is not None
        key = (job.form, job.operators, tuple(map(_key, values)), _key(mask), is_numbered,
               job.is_by_parts)
        found = self.at.following.get(key)
        if found is None:
            most = most_of(job, sum(map(self.length_of, job.operators)))
            traced = TracedJob(job.form, job.operators, values, mask, is_numbered, job.is_by_parts,
                               job.shape, most)
            found = self.at.following[key] = Jobs(traced)
        assert found.job is not None
        self.at = found
        self.jobs.append(found.job)
        if job.thunk is not None:
            self.numbers.append(job.thunk)
        made = Made(len(self.jobs) - 1)
        return TraceHandle(self, job.shape, found.job.most.entries, made,
                           name or 'the result of ' + job.form)

    def given(self, name: str, shape: Tuple[int, int]) -> Matrix:
        """What the round begins with, by its name."""
        return Matrix(self.session, TraceHandle(self, shape, shape[0] * shape[1], Given(name),
                                                name))

    def value_of(self, handle: Handle) -> Value:
        """What a matrix is in this round. NotAlike where it is none of it, nor of the session."""
        if isinstance(handle, TraceHandle) and handle.backend is self:
            return handle.value
        if handle.backend is not self.server_session.backend:
            raise NotAlike(OTHER_ROUND)
        handle.check_made()
        if self._last is not None and handle.serial > self._last:
            raise NotAlike(OUTSIDE)
        return handle

    def finish(self, out: Dict[str, Value]) -> Traced:
        """The jobs that were asked for, of which these are the results."""
        key = tuple((name, _key(value)) for name, value in out.items())
        if key not in self.at.ends:
            self.at.ends[key] = Traced(self.jobs, out)
        return self.at.ends[key]

    def run(self) -> Run:
        """Runs stand where a job wants a result: that is seen when the step is written down."""
        return Run()

    def ones(self, ncols: int) -> Matrix:
        """A row of ones, of the session: all rounds have one of a length."""
        if ncols not in self._ones:
            self._ones[ncols] = self.server_session.ones(ncols)
            self._last = None if self._last is None else next(protocol.serial)
        return alias(self._ones[ncols], self._ones[ncols].notes)

    def length_of(self, op: Operator) -> int:
        return self.server_session.backend.length_of(op)

    # -- what only entries would tell

    def read_text(self, handle: Handle) -> NoReturn:
        raise NotTraced(NO_ENTRIES % handle.key)

    read = wait = transpose = flush = read_text

    def put(self, entries: Triples) -> NoReturn:
        self._refuse('put')

    def put_text(self, text: bytes, name: Optional[str] = None) -> NoReturn:
        self._refuse('from_text')

    def budget(self) -> Budget:
        self._refuse('budget')

    def _refuse(self, name: str) -> NoReturn:
        raise NotTraced(
            'a step of a loop is traced, and asks for jobs alone: `%s` of the session is to be '
            'called before the loop' % name)

    def __getattr__(self, name: str) -> NoReturn:
        self._refuse(name)


def _key(value: Optional[Value]) -> Any:
    """What tells values apart: matrices of one handle are one."""
    return id(value) if isinstance(value, Handle) else value
