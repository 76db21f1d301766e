"""What a call costs, as far as that is known before its first result."""
from __future__ import annotations

import collections
import threading
from typing import Any, Callable, ChainMap, Dict, List, NamedTuple, NoReturn, Optional

import numpy

from .backends.protocol import Backend, Handle, Job, Most, most_of
from .errors import NotMade
from .limits import MOST_PRICE, MOST_SIDE
from .wire.commands import FORMS, Places


class Looked(Exception):
    """A result is wanted that isn't made."""


class Foreseen(NamedTuple):
    """A job that would be queued.

    Attributes
    ----------
    form : str
        Its form as the protocol names it.
    steps : int
        The most that its price can be.
    """
    form: str
    steps: int


class Estimate:
    """The jobs of a call, which this thread makes, up to the first result that it looks at."""

    def __init__(self) -> None:
        self.jobs: List[Foreseen] = []
        self.complete = True
        self.thread = threading.get_ident()
        self._facts: Dict[int, ChainMap[str, Any]] = {}

    def stop(self) -> NoReturn:
        """Ends what can be foreseen."""
        self.complete = False
        raise Looked()

    def submit(self, backend: Backend, job: Job) -> Handle:
        """The handle of a job's result. Whether the server refuses a job that may be too large is
        only known when it is queued."""
        for handle in job.operands if job.mask is None else (*job.operands, job.mask):
            if handle.lost is not None and not isinstance(handle, ForeseenHandle):
                handle.check_made()
        length = sum(map(backend.length_of, job.operators))
        most = most_of(job, length)
        if job.form == 'product':
            terms = min(most.terms, _count_terms(*job.operands))
            most = Most(terms, terms * length, min(terms, most.entries))
        if most.terms > MOST_SIDE or most.steps > MOST_PRICE:
            self.stop()
        self.jobs.append(Foreseen(job.form, most.steps))
        return ForeseenHandle(backend, job, most)

    def facts_of(self, kept: Dict[str, Any]) -> ChainMap[str, Any]:
        """What is known of a matrix; what is found out while a call is priced isn't kept."""
        return self._facts.setdefault(id(kept), collections.ChainMap({}, kept))


# those that are being told, whatever the thread
ESTIMATES: List[Estimate] = []


def estimate_here() -> Optional[Estimate]:
    """The estimate of this thread, where one of its calls is priced."""
    here = threading.get_ident()
    return next((one for one in reversed(ESTIMATES) if one.thread == here), None)


def stop_estimate() -> None:
    """Ends the estimate of this thread, where there is one: results are awaited now."""
    estimate = estimate_here() if ESTIMATES else None
    if estimate is not None:
        estimate.stop()


class ForeseenHandle(Handle):
    """The result of a job that is only foreseen. Its entries are where `within` has some, if that
    is known."""

    waits = False                                  # for a run: none would make it
    lost = NotMade('this matrix was never made: spmat.price only foresaw its job')

    def __init__(self, backend: Backend, job: Job, most: Most) -> None:
        super().__init__(backend, job.shape, None, most.entries)
        self.price = most.steps
        self.within = _find_source(job)

    def check_made(self) -> None:
        stop_estimate()
        raise NotMade(*self.lost.args)


def _find_source(job: Job) -> Optional[Handle]:
    """The matrix within whose places the result of a job has its entries."""
    sources = {id(one): one for one in map(_source_of, job.operands)}
    places = FORMS[job.form].places
    if job.mask is not None:
        return _source_of(job.mask)
    if places in (Places.ALL, Places.CHOSEN) or (places is Places.ANY and len(sources) == 1):
        return next(iter(sources.values()))
    return None


def _source_of(handle: Handle) -> Optional[Handle]:
    return handle.within if isinstance(handle, ForeseenHandle) else handle


def _count_terms(first: Handle, second: Handle) -> int:
    """The most terms of a product of matrices that are there, or within such."""
    a, b = _source_of(first), _source_of(second)
    if a is None or b is None or a.nvals is None or b.nvals is None:
        return MOST_SIDE + 1
    return int(_count_entries(a, 1) @ _count_entries(b, 0))


def _count_entries(handle: Handle, axis: int) -> Any:
    """The entries of each row (0) or column (1), kept with the matrix."""
    key = 'entries by axis %d' % axis
    if key not in handle.facts:
        handle.facts[key] = numpy.bincount(handle.backend.read(handle)[axis],
                                           minlength=handle.shape[axis])
    return handle.facts[key]


# -- what a caller asks

class Price:
    """The prices of a call's jobs, up to the first result that it looks at.

    Attributes
    ----------
    jobs : list of Foreseen
        These jobs, each with its `form` and the most `steps` that its price can be.
    complete : bool
        Whether these are all jobs of the call. Else it looked at a result, and more may follow.
    """

    def __init__(self, jobs: List[Foreseen], complete: bool) -> None:
        self.jobs, self.complete = jobs, complete

    @property
    def steps(self) -> int:
        """The most that the prices add up to.

        Returns
        -------
        int
            Where the price is `complete`, the call takes no more steps, and no job is refused
            while so many are left.
        """
        return sum(job.steps for job in self.jobs)

    def __repr__(self) -> str:
        return '<Price: %s steps in %d job%s%s>' % (
            format(self.steps, ','), len(self.jobs), '' if len(self.jobs) == 1 else 's',
            '' if self.complete else ', and what follows from it')


def price(call: Callable[[], object]) -> Price:
    """What a call costs, up to the first result that it looks at.

    No job is queued, and no step is spent: `spmat.price(lambda: A.mxm(A, "plus_times"))`.
    `Session.limit` bounds what follows from results, too.

    Parameters
    ----------
    call : callable
        A function that makes the call, without arguments of its own.

    Returns
    -------
    Price
        The most `steps` that its jobs can take, and whether that is `complete`.

    Raises
    ------
    TypeError
        If it isn't given a function.

    See Also
    --------
    Session.limit : Bound a block of calls.
    Matrix.price : The price of one job.
    explain : The cost of an operator.

    Notes
    -----
    If both operands of a product are at hand, its terms are counted; their entries come to the
    client, once. If one waits for a run, the price is the greatest possible one. Jobs in row blocks
    have no price beforehand, so `complete` is False.

    Examples
    --------
    >>> import spmat
    >>> s = spmat.Session()
    >>> A = s.full(100, 100)
    >>> spmat.price(lambda: A.mxm(A, "plus_times")).steps
    6000000
    >>> spmat.price(lambda: A.mxm(A, "any_pair")).steps
    4000000
    """
    if not callable(call):
        raise TypeError('a call is priced before it is made: spmat.price(lambda: f(G)), not '
                        'spmat.price(f(G))')
    made = Estimate()
    ESTIMATES.append(made)
    try:
        call()
    except Looked:
        pass
    finally:
        ESTIMATES.remove(made)
    return Price(made.jobs, made.complete)
