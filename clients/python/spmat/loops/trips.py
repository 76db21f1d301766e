"""Rounds that are sent together, two trips at a time: so neither side waits for the other, and a
round costs the client a few microseconds.

While two trips are under way, the names that held the state when the first began aren't written.
Where something in a trip is refused, that state is there as it was.
"""
from __future__ import annotations

import collections
from typing import (TYPE_CHECKING, Any, Callable, Deque, Dict, FrozenSet, List, Mapping, NamedTuple,
                    Optional, Sequence, Tuple, Union)

from ..backends.server import ServerHandle
from ..backends.protocol import AMPLE
from ..backends.trace import Given
from ..matrix import Matrix
from ..metadata import Metadata
from ..wire.commands import CommandBatch
from .round_text import (Pending, Renderer, Sources, Template, Writing, flush, is_refused, keys_of,
                         split_bodies)
from .rounds import RoundJobs, State, TracedRounds, make_round

if TYPE_CHECKING:
    from ..session import Session
    from ..wire.connection import Progress

# of a trip: two of them and their line ends fit into a pipe
MOST_BYTES = 24_000
MOST_ROUNDS = 64                                   # of a trip
# so many trips' steps have to be there: two under way, and one made again
SPARE = 3
Counts = Dict[str, int]
Each = Callable[[int, Counts], Any]


class Place(NamedTuple):
    """How far a loop is: rounds that were made, the state, what is known of it beside, and numbers
    of entries of all results, once there was a round."""
    number: int
    state: Sources
    notes: Dict[str, Metadata]
    counts: Counts


class Round(NamedTuple):
    """What is known of a round: numbers of entries, and the texts that were shown."""
    counts: Counts
    bodies: Dict[str, bytes]


Report = Callable[[int, List[Round]], None]
"""What is told of the rounds of a trip: the number of the first, and what they came to."""


class Until(NamedTuple):
    """An end: the results that it looks at, and whether it is met by their numbers of entries in a
    round and in the one before. Also whether rounds behind it that work on these results cost next
    to nothing."""
    names: Tuple[str, ...]
    met: Callable[[Counts, Counts], bool]
    rests: bool = False


def empty(name: str) -> Until:
    """End a loop when a result has no entry.

    Parameters
    ----------
    name : str
        A result of the step.

    Returns
    -------
    Until
        What `Loop.run` takes.

    See Also
    --------
    steady : Another end.
    loop : A loop.

    Examples
    --------
    >>> import spmat
    >>> spmat.empty("front").names
    ('front',)
    """
    return Until((name,), lambda counts, _: counts[name] == 0, True)


def steady(name: str) -> Until:
    """End a loop when a result has as many entries as in the round before.

    Their values may still change. A loop over values returns the difference, and ends when that is
    `empty`.

    Parameters
    ----------
    name : str
        A result of the step.

    Returns
    -------
    Until
        What `Loop.run` takes.

    See Also
    --------
    empty : Another end.
    loop : A loop.

    Examples
    --------
    >>> import spmat
    >>> spmat.steady("seen").names
    ('seen',)
    """
    return Until((name,), lambda counts, before: counts[name] == before.get(name))


def as_until(end: Union[Until, Callable[[Counts], bool]]) -> Until:
    if isinstance(end, Until):
        return end
    function: Any = end
    if not callable(function):
        raise TypeError(
            'until= is spmat.empty("name"), spmat.steady("name") or a function of the numbers '
            'of entries by name, not %r' % (end,))
    return Until((), lambda counts, _: bool(function(counts)))


def first_met(end: Optional[Until], before: Counts, rounds: Sequence[Round]) -> Optional[int]:
    """The first of some rounds in which an end is met."""
    if end is not None:
        for at, one in enumerate(rounds):
            if end.met(one.counts, before):
                return at
            before = one.counts
    return None


def report_rounds(progress: Optional['Progress'], word: str = 'round', begun: int = 0, of: int = 0,
                  result: Optional[str] = None, each: Optional[Each] = None) -> Report:
    """Tells of the rounds of a loop, of which some were made before it: of all, or of those in
    which a result has entries."""
    def report(first: int, rounds: List[Round]) -> None:
        for number, one in enumerate(rounds, begun + first):
            if each is not None:
                each(number, one.counts)
            if progress is not None and (result is None or one.counts[result]):
                progress(word, number, of)
    return report


class Trip(CommandBatch):
    """Rounds that are sent together, with the state behind them. The last of the templates may be a
    run alone."""

    def __init__(self, start: Place, asked: List[RoundJobs], templates: List[Template],
                 state: Sources) -> None:
        numbers = [one.numbers for one in asked] + [()]
        text = [template.text % some for template, some in zip(templates, numbers)]
        super().__init__(b''.join([*text, b'budget\n']),
                         1 + sum(template.commands for template in templates))
        self.start, self.asked, self.templates, self.state = start, asked, templates, state
        self.steps = sum(one.traced.steps for one in asked)

    @property
    def number(self) -> int:
        """The last of its rounds."""
        return self.start.number + len(self.asked)

    def rounds(self) -> Optional[List[Round]]:
        """What the replies say; None where something was refused."""
        assert self.replies is not None
        said, bodies = split_bodies(self.replies)
        if is_refused(said):
            return None
        out = [Round({}, {}) for _ in self.asked]
        words, base, left = said.split(), 0, iter(bodies)
        for at, template in enumerate(self.templates):
            for back, results in template.shows:
                out[at - back].bodies.update(dict.fromkeys(results, next(left)))
            for word, back, results in template.counts:
                number = int(words[base + word])
                for name in results:
                    out[at - back].counts[name] = number
            base += template.words
        return out


class Trips:
    """A loop's rounds by trips. `place` is what is known; `under_way` are trips that follow it,
    each on the one before."""

    def __init__(self, session: 'Session', rounds: TracedRounds, state: State,
                 show: Sequence[str]) -> None:
        self.session, self.rounds = session, rounds
        size = max((job.shape[0] + job.most.entries for job in rounds.first.traced.jobs), default=0)
        self.renderer = Renderer(session.backend, show, size)
        for matrix in state.values():
            matrix.wait()
            assert matrix.handle.key               # what the client has is sent by this
        self.place = place_of(state, 0)
        self.under_way: Deque[Trip] = collections.deque()
        self._wasted: List[Trip] = []                # behind the end, whose replies nobody wants
        self.trips = 0

    # -- sending

    @property
    def next(self) -> int:
        """The last round that was sent."""
        return self.under_way[-1].number if self.under_way else self.place.number

    def choose_rounds(self, most: int) -> List[RoundJobs]:
        """The next rounds, at most so many, that may go in one trip now, so that nothing in it can
        be refused for lack of steps. None where that can't be said of one. Raises what the step
        ends in where it is called for the next round that is made."""
        queue = self.session.backend.queue
        left = 0 if queue.limits else queue.left - (AMPLE if queue.shared else 0)
        if not self.under_way:
            self.rounds.check(self.place.number + 1)
        return self.rounds.ask_some(self.next + 1, min(most, MOST_ROUNDS), left // SPARE)

    def post(self, asked: List[RoundJobs]) -> None:
        """Sends rounds, or fewer where their text is long."""
        session = self.session
        with session.backend.lock():
            flush(session)
            trip = self._trip(asked)
            if len(trip.text) > MOST_BYTES and len(asked) > 1:
                trip = self._trip(asked[:max(1, len(asked) * MOST_BYTES // len(trip.text))])
            session.connection.post(trip)
            session.backend.queue.runs += trip.text.count(b'run\n')
            session.backend.jobs += sum(len(one.traced.jobs) for one in trip.asked)
            self.under_way.append(trip)
            session.backend.queue.left -= trip.steps
            self.trips += 1

    def _trip(self, asked: List[RoundJobs]) -> Trip:
        """The commands of rounds; at their end all is run."""
        last = self.under_way[-1] if self.under_way else None
        start = self.place if last is None else Place(last.number, last.state, {}, {})
        held: FrozenSet[str] = frozenset().union(
            keys_of(self.place.state), *(keys_of(trip.state) for trip in self.under_way))
        state = start.state
        templates: List[Template] = []
        pending: Tuple[Pending, ...] = ()
        for one in asked:
            templates.append(self.renderer.template(one.traced, state, held, pending))
            state, pending = templates[-1].state(state, one.outside), templates[-1].pending
        if pending:
            templates.append(Writing(self.renderer, state, held, pending).write_run())
        return Trip(start, asked, templates, state)

    # -- what comes back

    def take(self) -> Optional[List[Round]]:
        """What the first trip under way came to. None where something in it was refused: then it is
        as if no trip had been sent. `accept` goes on behind it. KeyboardInterrupt leaves all as it
        was."""
        trip, session = self.under_way[0], self.session
        replies = session.connection.collect(trip)
        try:
            rounds = trip.rounds()
            self._note_budget(replies)
        except (ValueError, IndexError):
            session.connection.end('the replies to a loop are none of spmat', kill=True)
            session.connection.check_open()
            raise
        if rounds is None:
            self.stop()
            self.settle()
            return None
        before = trip.start.counts or self.place.counts
        for one, asked in zip(rounds, trip.asked):
            one.counts.update((name, matrix.nvals) for name, matrix in asked.outside.items())
            one.counts.update((name, before[value.name]) for name, value in asked.traced.out.items()
                              if isinstance(value, Given))
            before = one.counts
        return rounds

    def _note_budget(self, replies: bytes) -> None:
        """What the budget has for sure, as the end of a trip says."""
        others = sum(trip.steps for trip in list(self.under_way)[1:])
        left, reserved = map(int, replies.rsplit(None, 3)[-3:-1])
        self.session.backend.queue.note_budget(left, reserved)
        self.session.backend.queue.left -= others

    def accept(self, rounds: List[Round]) -> None:
        """The first trip under way is what the loop goes on from."""
        trip = self.under_way.popleft()
        notes = {name: trip.asked[-1].notes[name] for name in trip.state}
        self.advance_to(Place(trip.number, trip.state, notes, rounds[-1].counts))

    def stop(self) -> None:
        """Forgets what is under way: the loop is where its first trip began."""
        self._wasted += self.under_way
        self.under_way.clear()

    def settle(self) -> None:
        """Waits for trips that were forgotten, so that the budget is known."""
        if self._wasted:
            last, self._wasted = self._wasted[-1], []
            self._note_budget(self.session.connection.collect(last))

    def advance_to(self, place: Place) -> None:
        """This is what the loop goes on from."""
        self.place = place
        self.rounds.note_made(place.number)

    def resume(self) -> None:
        """Goes on from the state, of which the caller may have named vertices."""
        if not self.under_way:
            self.rounds.resume(self.place.number,
                               {name: source.notes if isinstance(source, Matrix)
                                else self.place.notes[name]
                                for name, source in self.place.state.items()})

    # -- rounds that are made one by one

    def make_one(self) -> Dict[str, Matrix]:
        """The results of the next round, of which each job is handed in by itself, as the step
        asked for it. A refusal leaves the state."""
        number, state = self.place.number + 1, self.matrices()
        self.rounds.check(number)
        asked = self.rounds.ask(number)
        if asked is None:
            self.rounds.check(number)
        assert asked is not None
        got = make_round(self.session, asked, state)
        for matrix in got.values():
            matrix.wait()
        return got

    # -- the state

    def matrices(self) -> State:
        """The state, as matrices that have their names from now on. What the caller has, of the
        state or outside of the step, is itself."""
        place, state = self.place, State()
        with self.session.backend.lock():
            for name, source in place.state.items():
                state[name] = source if isinstance(source, Matrix) else self._matrix(name, source)
        return state

    def _matrix(self, name: str, owner: ServerHandle) -> Matrix:
        """The matrix of what a round made, in the place of its owner."""
        place, found = self.place, owner.matrices()
        if found:
            # it was asked for while later rounds were under way
            made: Matrix = found[0]
        else:
            self.renderer.hand_over(owner)
            owner.nvals = owner.most = place.counts[name]
            owner.shape = self.rounds.shapes[name]
            owner.note_size(owner.shape[0], owner.nvals)
            made = Matrix(self.session, owner, name)
            made.notes = place.notes[name]
        place.state.update((other, made) for other, source in place.state.items()
                           if source is owner)
        return made


def place_of(state: State, number: int) -> Place:
    """A place of matrices."""
    return Place(number, dict(state), {name: matrix.notes for name, matrix in state.items()},
                 count_entries(state))


def advance_place(place: Place, got: Mapping[str, Matrix]) -> Place:
    """The place behind the round that gave these results."""
    state = State((name, got[name]) for name in place.state)
    return place_of(state, place.number + 1)._replace(counts=count_entries(got))


def count_entries(matrices: Mapping[str, Matrix]) -> Counts:
    """The number of entries of each matrix."""
    return {name: matrix.nvals for name, matrix in matrices.items()}
