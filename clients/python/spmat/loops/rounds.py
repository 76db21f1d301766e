"""What the rounds of a loop ask for, found out ahead of them.

The step is called once for each round, in order, before the round is sent. So a round is what the
step asks for in it, whatever it makes of the number of the round. What is known of results (names,
units, directions) is known of this round's. A step that is called works on matrices of a
`TraceBackend`: it has all that matrices have.
"""
from __future__ import annotations

import inspect
from typing import (TYPE_CHECKING, Any, Callable, Dict, List, Mapping, NamedTuple, Optional,
                    Sequence, Tuple)

from .. import oversized_jobs
from ..backends.protocol import Handle, Job
from ..backends.trace import (Jobs, Made, NotAlike, NotTraced, TraceBackend, TraceHandle, Traced,
                              TracedJob, Value)
from ..errors import TooLarge, UnitsDiffer
from ..matrix import Matrix
from ..metadata import Metadata

if TYPE_CHECKING:
    from ..session import Session

# of rounds that differ in more than numbers, which are known at a time
MOST_KINDS = 64
# rounds that go together of which a job could be too large
MOST_UNSURE = 4
CHANGED = (
    'the step asked for other jobs for round %d when it was called for it again: what it asks '
    'for has to follow from the state and the number of the round. To go on with another step, '
    'make a loop of `loop.state` with it')


class State(Dict[str, Any]):
    """Matrices by name, also as attributes: `s.front` is `s['front']`."""

    def __getattr__(self, name: str) -> Any:
        try:
            return self[name]
        except KeyError:
            raise AttributeError('no matrix %r in the state of this loop: it has %s'
                                 % (name, ', '.join(self))) from None


Step = Callable[[State, int], Mapping[str, Any]]


def check_state(state: Mapping[str, Any]) -> State:
    """The state as it begins. TypeError or ValueError where it is none."""
    if not isinstance(state, Mapping) or not state:
        raise TypeError('the state of a loop is its matrices by name, such as {"front": F}, not %r'
                        % (state,))
    for name, matrix in state.items():
        if not hasattr(type(matrix), 'mxm') or isinstance(getattr(matrix, 'handle', None),
                                                          TraceHandle):
            raise TypeError('%r of the state is no matrix of a session, but %s'
                            % (name, type(matrix).__name__))
    sessions = {matrix.session for matrix in state.values()}
    if len(sessions) > 1:
        raise ValueError('the matrices of a state are of one session, and here of %d'
                         % len(sessions))
    return State(state)


class RoundJobs(NamedTuple):
    """A round: what it asks for, the numbers of those jobs that take one, in order, and the results
    that are matrices from outside. Also what is known of what it begins with, and of its
    results."""
    traced: Traced
    numbers: Tuple[int, ...]
    outside: Dict[str, Matrix]
    given: Dict[str, Metadata]
    notes: Dict[str, Metadata]


def of_two(step: Callable[..., Mapping[str, Any]]) -> Step:
    """A step that takes the state and the round, of one that may leave out the round. A second
    parameter that has a value by default, as in `def step(s, G=G)`, isn't the round."""
    try:
        parameters = list(inspect.signature(step).parameters.values())
    except (TypeError, ValueError):
        return step
    many = [one for one in parameters if one.kind in (one.POSITIONAL_ONLY,
                                                      one.POSITIONAL_OR_KEYWORD)]
    if (len(many) > 1 and many[1].default is inspect.Parameter.empty) or any(
        one.kind == one.VAR_POSITIONAL for one in parameters):
        return step
    return lambda state, number: step(state)


def results(step: Step, state: State, number: int) -> Dict[str, Any]:
    """What a step makes of a state, by name; names that it leaves out stay. TypeError where it is
    no dict of matrices."""
    got = step(State(state), number)
    if not isinstance(got, Mapping):
        raise TypeError('a step returns its new matrices by name, such as {"front": front}, not %s'
                        % type(got).__name__)
    out = {**state, **got}
    for name, made in out.items():
        if not hasattr(type(made), 'mxm'):
            raise TypeError('what a step returns as %r is no matrix, but %s'
                            % (name, type(made).__name__))
        if name in state and made.shape != state[name].shape:
            raise ValueError('%s is %dx%d before a round and %dx%d behind it'
                             % (name, *state[name].shape, *made.shape))
        if name in state and made.unit != state[name].unit:
            raise UnitsDiffer(
                '%s has a unit of %s before a round and of %s behind it: work on A.rescale(1), '
                'or set A.unit = 1 and work on the stored whole numbers'
                % (name, state[name].unit, made.unit))
    return out


# pylint: disable-next=too-many-instance-attributes
class TracedRounds:
    """The rounds of a step, as it asks for them. Of a step that is known to be `alike` in all
    rounds the first two are enough: the numbers of others are slope * round + start."""

    def __init__(self, session: 'Session', step: Step, state: State, show: Sequence[str],
                 alike: bool) -> None:
        self._session, self._step = session, step
        self.shapes = {name: matrix.shape for name, matrix in state.items()}
        # behind the last round that was asked for
        self._known = {name: matrix.notes for name, matrix in state.items()}
        self._jobs, self._ones = Jobs(), {}        # type: Jobs, Dict[int, Matrix]
        self._ahead: Dict[int, RoundJobs] = {}         # rounds that aren't made
        # what was asked for rounds that the step is called again for
        self._before: Dict[int, RoundJobs] = {}
        self._next, self._begun = 1, False
        self._fault: Optional[Exception] = None    # of the next round
        self.first = self._trace(1, self._known)
        # the shapes of what is shown
        self.shown = {name: self._shape_of(self.first.traced, name, 1) for name in show}
        self._add(self.first)
        self._alike: Optional[Callable[[int], RoundJobs]] = None
        self.ask(2)
        if isinstance(self._fault, (NotTraced, NotAlike)):
            raise self._fault
        if alike:
            self._alike = self._find_alike()

    def ask(self, number: int) -> Optional[RoundJobs]:
        """What a round asks for; rounds are asked for in order. None where the step ends in an
        exception: `check` raises it."""
        if number not in self._ahead and self._fault is None:
            assert number == self._next
            try:
                self._add(self._alike(number) if self._alike is not None
                          else self._trace(number, self._known))
            except Exception as fault:  # pylint: disable=broad-exception-caught
                # it is raised if the loop comes to that round
                self._fault = fault
        return self._ahead.get(number)

    def ask_some(self, first: int, most: int, left: int) -> List[RoundJobs]:
        """What the next rounds ask for, at most so many, that take no more steps than are left
        together; few of which a job could be refused for its size."""
        found: List[RoundJobs] = []
        steps, is_sure = 0, True
        while len(found) < most:
            asked = self.ask(first + len(found))
            if asked is None:
                break
            steps, is_sure = steps + asked.traced.steps, is_sure and asked.traced.is_sure
            if max(1, steps) > left or (len(found) >= MOST_UNSURE and not is_sure):
                break
            found.append(asked)
        return found

    def check(self, number: int) -> None:
        """Raises what the step ends in where it is called for a round, which is the next one that
        is made. Then it is called for it again."""
        fault = self._fault
        if fault is not None and number == self._next:
            self._fault = None
            raise fault

    def note_made(self, number: int) -> None:
        """Rounds up to this one are made."""
        for past in [one for one in self._ahead if one <= number]:
            del self._ahead[past]

    def resume(self, number: int, known: Dict[str, Metadata]) -> None:
        """Goes on behind a round, where `known` is what is known of the state beside its entries.
        The step is called again for the first round that it was called for already: should it ask
        for something else now, it is another step. So it is for all of these where the caller has
        named vertices since."""
        first = self._ahead.get(number + 1)
        if first is None:
            self._known, self._fault = known, None
        elif first.given != known:
            self._before, self._ahead, self._next, self._known = self._ahead, {}, number + 1, known
            self._fault = None
        elif self._begun and self._alike is None:
            self._compare(number + 1, first, self._trace(number + 1, known))
        self._begun = True

    # -- calling the step

    def _add(self, asked: RoundJobs) -> None:
        number = self._next
        before = self._before.pop(number, None)
        if before is not None:
            self._compare(number, before, asked)
        self._ahead[number] = asked
        self._known = {name: asked.notes[name] for name in self.shapes}
        self._next = number + 1

    @staticmethod
    def _compare(number: int, before: RoundJobs, now: RoundJobs) -> None:
        if (before.traced, before.numbers) != (now.traced, now.numbers):
            raise NotAlike(CHANGED % number)

    def _trace(self, number: int, known: Mapping[str, Metadata]) -> RoundJobs:
        """Calls the step for a round."""
        backend = TraceBackend(self._session, self._jobs, self._ones, number > 1)
        given = State((name, backend.given(name, shape)) for name, shape in self.shapes.items())
        for name, matrix in given.items():
            matrix.notes = known[name]
        got = results(self._step, given, number)
        out = {name: backend.value_of(matrix.handle) for name, matrix in got.items()}
        traced = backend.finish(out)
        self._note_kind(traced, number)
        outside = {name: got[name] for name, value in out.items() if isinstance(value, Handle)}
        return RoundJobs(traced, tuple(backend.numbers), outside, dict(known),
                         {name: matrix.notes for name, matrix in got.items()})

    def _note_kind(self, traced: Traced, number: int) -> None:
        """Looks at rounds of a kind that wasn't met before."""
        if traced.is_known:
            return
        if number > 1:
            self._check_results(traced, number)
        for handle in traced.constants:
            handle.backend.wait(handle)
            assert handle.key                      # what the client has is sent by this
        traced.is_known = True
        self._jobs.kinds += 1
        if self._jobs.kinds > MOST_KINDS:
            # such as rounds that have an operator of their own each
            self._jobs = Jobs()

    @staticmethod
    def _shape_of(traced: Traced, name: str, number: int) -> Tuple[int, int]:
        """The shape of a result that is shown. ValueError where no job makes it."""
        value = traced.out.get(name)
        if not isinstance(value, Made):
            raise ValueError('show= names %r, which no job of the step makes%s: it has %s'
                             % (name, ' in round %d' % number if number > 1 else '',
                                ', '.join(traced.out)))
        return traced.jobs[value.job].shape

    def _check_results(self, traced: Traced, number: int) -> None:
        """ValueError where a later round gives other results than the first one."""
        first = self.first.traced
        if traced.out.keys() != first.out.keys():
            raise ValueError(
                'a step returns the same names in each round: it has %s in round %d, and %s in '
                'round 1' % (', '.join(traced.out), number, ', '.join(first.out)))
        for name, shape in self.shown.items():
            here = self._shape_of(traced, name, number)
            if here != shape:
                raise ValueError('%s, which is shown, is %dx%d in round 1 and %dx%d in round %d'
                                 % (name, *shape, *here, number))

    def _find_alike(self) -> Callable[[int], RoundJobs]:
        """What a round asks for, by a line through each number of the first two."""
        self.check(2)
        first, second = self.first, self._ahead[2]
        if first.traced is not second.traced:
            raise NotAlike('a step that is said to be alike in all rounds is not')
        lines = [(b - a, a - (b - a)) for a, b in zip(first.numbers, second.numbers)]
        return lambda number: second._replace(numbers=tuple(slope * number + start
                                                            for slope, start in lines))


# -- a round that is made by itself

def make_round(session: 'Session', asked: RoundJobs, state: State) -> Dict[str, Matrix]:
    """The results of a round whose jobs are handed in one by one."""
    made: List[Matrix] = []
    numbers = iter(asked.numbers)

    def matrix_of(value: Value) -> Matrix:
        if isinstance(value, Handle):
            return Matrix(session, value)
        found: Matrix = made[value.job] if isinstance(value, Made) else state[value.name]
        return found
    for job in asked.traced.jobs:
        operands, mask = (list(map(matrix_of, job.operands)),
                          None if job.mask is None else matrix_of(job.mask))
        made.append(submit_traced(session, job, operands, mask, next(numbers) if job.is_numbered
                                  else None))
    got: Dict[str, Matrix] = {}
    for name, value in asked.traced.out.items():
        got[name] = asked.outside[name] if name in asked.outside else matrix_of(value)
        if isinstance(value, Made):
            got[name].name, got[name].notes = name, asked.notes[name]
    return got


def submit_traced(session: 'Session', job: TracedJob, operands: List[Matrix],
                  mask: Optional[Matrix], thunk: Optional[int]) -> Matrix:
    """A job of a round, by parts where the step asks for it so. Where it is too large, the refusal
    says how large it is."""
    whole = Job(job.form, job.operators, tuple(operand.handle for operand in operands), job.shape,
                thunk, None if mask is None else mask.handle)

    def submit(first: Matrix) -> Matrix:
        part = whole._replace(operands=(first.handle, *whole.operands[1:]))
        return Matrix(session, session.backend.submit(part))
    try:
        return (oversized_jobs.in_parts(operands[0], submit) if job.is_by_parts
                else submit(operands[0]))
    except TooLarge as fault:
        raise oversized_jobs.explained(fault, whole,
                                       operands if mask is None else [*operands, mask]) from None
