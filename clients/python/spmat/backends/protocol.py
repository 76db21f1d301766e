"""What a matrix asks of whatever holds it: jobs, entries in, entries out.

A `Matrix` checks shapes, kinds, names and units. Then it hands a `Job` to its backend, which gives
a `Handle` for the result:

    server      one session, over a connection
    blocks      row blocks: a job is the same job at the server of each block
    trace       notes the jobs of a round of a loop, and runs none
"""
from __future__ import annotations

import abc
import itertools
import weakref
from typing import Any, Dict, Iterator, List, NamedTuple, Optional, Tuple, Type

from ..display import table
from ..errors import NotMade
from ..io import matrix_text
from ..io.matrix_text import Triples
from ..limits import MOST_SIDE
from ..operators import Operator
from ..wire.commands import FORMS, Places

# steps that clients of one server don't take from one another within a day
AMPLE = 1 << 56
serial = itertools.count()
UNBOUNDED = 1 << 62                                # steps that no session spends
_PLACES = {name: form.places for name, form in FORMS.items()}
# members of an enum take long to find
_ROWS, _TERMS, _ANY = Places.ROWS, Places.TERMS, Places.ANY


class Budget(NamedTuple):
    """Steps: left, reserved for jobs that wait, spent.

    Attributes
    ----------
    left : int
        The steps that are left.
    reserved : int
        The steps that are reserved for jobs that wait.
    spent : int
        The steps that were spent.

    Notes
    -----
    Over TCP it is one for all sessions of the server.
    """
    left: int
    reserved: int
    spent: int

    def _repr_html_(self) -> str:
        """The budget, with a bar of what is spent and reserved."""
        whole = max(1, sum(self))
        if whole >= UNBOUNDED:
            return '<div><b>Budget</b> without a limit, %s spent</div>' % format(self.spent, ',')
        bar = ''.join('<span style="display:inline-block;height:8px;width:%.1fpx;'
                      'background:%s"></span>' % (240 * part / whole, colour)
                      for part, colour in ((self.spent, '#1f4e79'), (self.reserved, '#b5651d'),
                                           (self.left, '#c9d3dd')))
        return '<div><b>Budget</b> %s left, %s reserved, %s spent<div>%s</div></div>' % (
            *(format(number, ',') for number in (self.left, self.reserved, self.spent)), bar)


class JobResult(NamedTuple):
    """A job that `run` settled.

    Attributes
    ----------
    matrix : Matrix or None
        Its result; None where nobody holds it any more.
    form : str
        Its form as the protocol names it.
    price : int
        The most steps that it could have taken.
    steps : int
        The steps that it took.
    """
    matrix: Optional[Any]
    form: str
    price: int
    steps: int


class Run(List[JobResult]):
    """The jobs that a run settled, in order."""

    def _repr_html_(self) -> str:
        """The jobs of a run: of each its result, its price and its steps."""
        rows = [[at, job.form, 'held by nobody' if job.matrix is None else '%dx%d, %s entries'
                 % (*job.matrix.shape, format(job.matrix.nvals, ',')),
                 format(job.price, ','), format(job.steps, ',')] for at, job in enumerate(self, 1)]
        total = format(sum(job.steps for job in self), ',')
        return '<div><b>Run</b> of %d jobs, %s steps%s</div>' % (
            len(self), total, table(['', 'form', 'result', 'price', 'steps'], rows))


class Handle:
    """What a backend gives for a matrix: its shape, the number of entries `nvals` (None until its
    job ran), and the `most` that these can be. A job's result also has the price, and the steps
    that the job took. `lost` says why it is never made."""

    key = ''                                       # the name at a server, where there is one
    # the entries are sent when a job first wants them
    is_deferred = False
    price: Optional[int] = None
    steps: Optional[int] = None
    lost: Optional[BaseException] = None
    # the transpose, while that is held
    transposed: Optional['weakref.ref[Handle]'] = None

    def __init__(self, backend: 'Backend', shape: Tuple[int, int], nvals: Optional[int] = None,
                 most: int = MOST_SIDE) -> None:
        self.backend, self.shape, self.nvals = backend, shape, nvals
        self.most = most if nvals is None else nvals
        self.facts: Dict[str, Any] = {}            # what algorithms found out about the entries
        self.serial = next(serial)                 # which of two is older
        # of the matrices that callers have of this
        self.holders: List['weakref.ref[Any]'] = []

    @property
    def waits(self) -> bool:
        """Whether this is the result of a job that hasn't run."""
        return self.nvals is None and self.lost is None

    def mirrors(self, other: 'Handle') -> bool:
        """Whether another is known to be the transpose."""
        return any(one.transposed is not None and one.transposed() is two
                   for one, two in ((self, other), (other, self)))

    def check_made(self) -> None:
        """Raises NotMade where the run of this matrix was refused."""
        if self.lost is not None:
            raise NotMade('this matrix was never made: its run was refused (%s)'
                          % self.lost) from self.lost

    def add_matrix(self, matrix: object) -> None:
        """One matrix more that callers have of this."""
        self.holders = [one for one in self.holders if one() is not None]
        self.holders.append(weakref.ref(matrix))

    def matrices(self) -> List[Any]:
        """The matrices that callers have of this."""
        return [matrix for matrix in (one() for one in self.holders) if matrix is not None]


class OneVisit(NamedTuple):
    """What a backend that `fuses` makes in one visit to a session, under a mask of any kind. It is
    a method of matrices, by its name and arguments, or by default that of the job's form. Of the
    jobs before the last nothing comes to the client."""
    by_value: bool
    complement: bool
    method: Tuple[Any, ...] = ()
    options: Dict[str, Any] = {}


class Job(NamedTuple):
    """A job of one of the protocol's forms, under a structural mask or none. `thunk` is the number
    beside an index operator. A product that is too large `is_by_parts` where the caller makes it by
    parts of the rows then; loops want to know. `is_associative` is the caller's word of its ADD,
    which blocks want to know. With a `visit` it is the last of several jobs."""
    form: str
    operators: Tuple[Operator, ...]
    operands: Tuple[Handle, ...]
    shape: Tuple[int, int]
    thunk: Optional[int] = None
    mask: Optional[Handle] = None
    is_by_parts: bool = False
    is_associative: Optional[bool] = None
    visit: Optional[OneVisit] = None


class Most(NamedTuple):
    """What a job can come to: terms that a product may be refused for, steps, entries of the
    result."""
    terms: int
    steps: int
    entries: int


def most_of(job: Job, length: int) -> Most:
    """What a job with operators of so many instructions can come to, by what is known of its
    operands' entries."""
    form, operands, (nrows, ncols), mask = job.form, job.operands, job.shape, job.mask
    places, first = _PLACES[form], operands[0]
    calls, room = first.most, nrows * ncols
    under = MOST_SIDE if mask is None else mask.most
    if places is _ROWS:
        return Most(0, calls * length, min(calls, under, room))
    if len(operands) == 1:
        calls = calls if calls < under else under
        return Most(0, calls * length, calls if calls < room else room)
    second = operands[1]
    if places is _TERMS:
        terms = min(calls * second.shape[1], first.shape[0] * second.most)
        return Most(terms, terms * length, min(terms, under, room))
    entries, calls = calls + second.most, min(calls, second.most, under)
    if places is _ANY:
        return Most(entries, calls * length, min(entries, under, room))
    return Most(0, calls * length, min(calls, room))


class Backend(abc.ABC):
    """What takes jobs and holds their results. `session` is what callers know it by.

    A handle is used with the backend that gave it, or with one of which `takes_others` is set."""

    session: Any
    # whether it looks itself at handles that another backend gave
    takes_others = False
    in_one_place = True                            # whether one session has each matrix whole
    # whether it makes a product `is_by_parts` itself by halves of the rows
    halves_products = False
    # the class of its matrices: `matrix` puts its own here, as that knows this module
    matrix_type: Type[Any]

    @abc.abstractmethod
    def submit(self, job: Job, name: Optional[str] = None) -> Handle:
        """Queues a job; `name` is a wish. Raises a Refused that is known by now; another comes
        where the result is looked at."""

    @abc.abstractmethod
    def put(self, entries: Triples) -> Handle:
        """A matrix of entries by ascending row and column, which aren't looked at. They are sent
        when a job wants them."""

    @abc.abstractmethod
    def put_text(self, text: bytes, name: Optional[str] = None) -> Handle:
        """A matrix from a Matrix Market text, which is read as it is. TextRefused names the
        line."""

    @abc.abstractmethod
    def read_text(self, handle: Handle) -> bytes:
        """The canonical text of a matrix, once it is there."""

    def read(self, handle: Handle) -> Triples:
        """The entries of a matrix, once it is there: arrays of numpy."""
        return matrix_text.read(self.read_text(handle))

    def texts(self, handle: Handle) -> Iterator[bytes]:
        """The same text by pieces, of which one is held at a time."""
        yield self.read_text(handle)

    def run(self) -> Run:
        """Runs the jobs that wait for a run, where any do."""
        return Run()

    @abc.abstractmethod
    def wait(self, handle: Handle) -> None:
        """Returns once the matrix is there. Raises NotMade where its run was refused, Closed where
        the session has ended."""

    def count(self, handle: Handle) -> int:
        """The number of a matrix' entries, once it is there."""
        self.wait(handle)
        assert handle.nvals is not None
        return handle.nvals

    def transpose(self, handle: Handle) -> Handle:
        """The transpose. While it is held, it is made once."""
        made = None if handle.transposed is None else handle.transposed()
        if made is None:
            made = self.put_text(matrix_text.swapped(self.read_text(handle)))
            made.transposed, handle.transposed = weakref.ref(handle), weakref.ref(made)
        return made

    @abc.abstractmethod
    def length_of(self, op: Operator) -> int:
        """The number of an operator's instructions, the most steps that a call takes.
        OperatorRefused where it is refused."""

    @abc.abstractmethod
    def budget(self) -> Budget:
        """What the budget holds."""

    def fuses(self, job: Job) -> bool:
        """Whether it takes this job with a `visit`, and makes the jobs before it itself."""
        _ = job
        return False

    def flush(self, handle: Handle) -> None:
        """Sends what waits to be sent, so that the price of a job is known. No run."""

    def keep(self, entries: Triples) -> Any:
        """The matrix of `put`."""
        return self.matrix_type(self.session, self.put(entries))
