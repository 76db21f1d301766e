"""Loops whose rounds stay at the server.

A step makes of named matrices, the state, the next ones. It is called ahead of the rounds, and says
which jobs they are. Many rounds go in one trip, and two trips are under way at a time, so that
neither side waits for the other. What ends the loop is seen from the numbers of entries that the
server tells of each result anyway.

Where a trip can't be borne or something in it is refused, the loop goes on round by round from
where the trip began. So each refusal comes in the round, and leaves the state, that it would have
without trips.
"""
from __future__ import annotations

import time
from typing import (TYPE_CHECKING, Any, Callable, Dict, List, Mapping, Optional, Sequence, Set,
                    Union)

from ..errors import NotSettled, Refused
from ..integers import whole
from .round_text import Shown
from .rounds import State, TracedRounds, check_state, of_two, results
from .trips import (Counts, Each, Place, Round, Trips, Until, advance_place, as_until,
                    count_entries, first_met, report_rounds)

if TYPE_CHECKING:
    from ..wire.connection import Progress

FIRST = 4                                          # rounds of the first trip
# seconds of a trip: those that may be in vain grow to the one, others to the other
QUICK, LONG = .002, .05


class Loop:
    """A step that is made again and again: `spmat.loop` makes one.

    Parameters
    ----------
    step : callable
        `step(s, k)` makes of the matrices `s` in round k, from 1, the next ones, by name.
    state : dict
        The matrices that the first round begins with, by name: of one session.
    show : sequence of str, optional
        Results that are rows or columns; their entries come to the client in each round.
    alike : bool, default False
        Whether the step is known to ask for the same jobs in all rounds, but for their numbers.
        Then the first two rounds are enough: other numbers are `slope * round + start`.

    Attributes
    ----------
    number : int
        How many rounds are made.
    state : State
        The matrices behind them, by name: `loop.state.front`, or `loop.state["front"]`.
    shown : dict
        The entries of what is shown, for all rounds, by name: `loop.shown["front"].places`.

    Notes
    -----
    `spmat.loop` says what a step may ask for, and what is raised.
    """

    def __init__(self, step: Callable[..., Mapping[str, Any]], state: Mapping[str, Any],
                 show: Sequence[str] = (), alike: bool = False) -> None:
        self._step, begun = of_two(step), check_state(state)
        # where no trips are; what is known of matrices stands with them
        self._own_place = Place(0, dict(begun), {}, {})
        self._longest_side = max(int(side) for matrix in begun.values() for side in matrix.shape)
        # rounds that are made, where fewer are known by their names
        self._end: Optional[int] = None
        self._careful = False                      # something was refused
        self.shown: Dict[str, Shown] = {}
        self._show = [show] if isinstance(show, str) else list(show)
        self._results: Optional[Set[str]] = None   # of the step, as far as it was called
        self._trips: Optional[Trips] = None
        first = next(iter(begun.values()))
        if all(matrix.in_one_place for matrix in begun.values()):
            rounds = TracedRounds(first.session, self._step, begun, self._show, alike)
            self.shown.update((name, Shown(shape)) for name, shape in rounds.shown.items())
            self._results = set(rounds.first.traced.out)
            self._trips = Trips(first.session, rounds, begun, self._show)
            if not self._trips.choose_rounds(1):
                first.session.budget()             # which may have more than is known

    def __repr__(self) -> str:
        return '<Loop of %s, %d rounds made>' % (', '.join(self._place.state), self.number)

    @property
    def _place(self) -> Place:
        return self._own_place if self._trips is None else self._trips.place

    @property
    def number(self) -> int:
        """How many rounds are made.

        Returns
        -------
        int
            0 before the first one.

        See Also
        --------
        advance : Makes rounds.

        Examples
        --------
        >>> import spmat
        >>> s = spmat.Session()
        >>> A = s.from_triples([(0, 0, 1)], 1, 1)
        >>> doubled = spmat.loop(lambda state: {"A": state.A.apply(lambda x: 2 * x)}, {"A": A})
        >>> doubled.advance(10)
        >>> doubled.number
        10
        """
        return self._place.number if self._end is None else self._end

    @property
    def state(self) -> State:
        """The matrices behind the last round.

        Returns
        -------
        State
            The matrices by name, also as attributes.

        See Also
        --------
        run : Makes rounds until an end is met.

        Notes
        -----
        Where an end was met amid a trip, the trip's rounds up to it are made again for this.

        Examples
        --------
        >>> import spmat
        >>> s = spmat.Session()
        >>> A = s.from_triples([(0, 0, 1)], 1, 1)
        >>> doubled = spmat.loop(lambda state: {"A": state.A.apply(lambda x: 2 * x)}, {"A": A})
        >>> doubled.advance(10)
        >>> doubled.state.A.to_list()
        [1024]
        """
        self._catch_up()
        if self._trips is not None:
            self._trips.settle()
        return self._matrices()

    def _matrices(self) -> State:
        return State(self._place.state) if self._trips is None else self._trips.matrices()

    def run(self, until: Union[Until, Callable[[Counts], bool]], most: Optional[int] = None,
            each: Optional[Each] = None, progress: Optional['Progress'] = None) -> int:
        """Makes rounds until an end is met.

        Parameters
        ----------
        until : Until or callable
            `spmat.empty("front")`, `spmat.steady("known")`, or a function of the numbers of
            entries, a dict by name.
        most : int, optional
            The most rounds. By default one more than rows or columns of the largest matrix.
        each : callable, optional
            `each(k, counts)` is called for each round up to the end, in order.
        progress : callable, optional
            `progress("round", k, 0)` is called likewise.

        Returns
        -------
        int
            The number of rounds that this took.

        Raises
        ------
        NotSettled
            If the end isn't met by then, behind which the state is there: it is a RuntimeError.

        See Also
        --------
        advance : Makes a number of rounds.
        empty, steady : The ends that the server sees.

        Notes
        -----
        A few rounds behind the end may be made in vain, and cost steps. With `empty` these are up
        to 128, else up to those that take 2 ms; with `advance` none.

        Examples
        --------
        >>> import spmat
        >>> s = spmat.Session()
        >>> A = s.from_triples([(0, 0, 40)], 1, 1)
        >>> step = lambda state: {"A": state.A.apply(lambda x: x // 2).select("nonzero")}
        >>> spmat.loop(step, {"A": A}).run(until=spmat.empty("A"), most=10)
        6
        """
        end, begun = as_until(until), self._resumed()
        most = 1 + self._longest_side if most is None else whole(most, 'number of rounds')
        self._check_names(end.names)
        if not self.rounds(end, most, report_rounds(progress, each=each)):
            raise NotSettled(
                'did not converge after %d rounds: most= allows more, and advance() makes '
                'rounds without an end; the state is that behind them' % most)
        return self.number - begun

    def advance(self, rounds: int = 1, each: Optional[Each] = None,
                progress: Optional['Progress'] = None) -> None:
        """Makes so many rounds, none in vain.

        Parameters
        ----------
        rounds : int
            How many.
        each : callable, optional
            As for `run`.
        progress : callable, optional
            As for `run`; the third argument is how many rounds there are to be.

        See Also
        --------
        run : Makes rounds until an end is met.

        Examples
        --------
        >>> import spmat
        >>> s = spmat.Session()
        >>> A = s.from_triples([(0, 0, 1)], 1, 1)
        >>> doubled = spmat.loop(lambda state: {"A": state.A.apply(lambda x: 2 * x)}, {"A": A})
        >>> doubled.advance(3)
        >>> doubled.state.A.to_list()
        [8]
        """
        self._resumed()
        rounds = whole(rounds, 'number of rounds')
        self.rounds(None, rounds, report_rounds(progress, of=rounds, each=each))

    def rounds(self, end: Optional[Until], most: int,
               report: Callable[[int, List[Round]], Any]) -> bool:
        """Makes rounds until an end is met, or so many; whether it was met.

        Parameters
        ----------
        end : Until or None
            The end; None where so many rounds are wanted.
        most : int
            The most rounds.
        report : callable
            `report(first, rounds)` gets all rounds of a trip, of which the first has this number.

        Returns
        -------
        bool
            Whether the end was met.

        See Also
        --------
        run : Makes rounds until an end is met, and says how many.

        Examples
        --------
        >>> import spmat
        >>> s = spmat.Session()
        >>> A = s.from_triples([(0, 0, 1)], 1, 1)
        >>> doubled = spmat.loop(lambda state: {"A": state.A.apply(lambda x: 2 * x)}, {"A": A})
        >>> doubled.rounds(None, 2, lambda first, rounds: None)
        False
        >>> doubled.number
        2
        """
        # rounds behind an end cost next to nothing where they work on what is empty then
        rests = end is None or (end.rests and self._trips is not None
                                and self._trips.rounds.first.traced.used.issuperset(end.names))
        goal, size = self.number + most, FIRST if rests else 1
        before = self._place.counts or count_entries(self._matrices())
        while self.number < goal:
            begun, first = time.monotonic(), self.number + 1
            rounds = self._by_trip(rests, size, goal)
            by_trip = rounds is not None
            rounds = self._by_itself(end) if rounds is None else rounds
            met = first_met(end, before, rounds)
            before = rounds[-1].counts
            kept = rounds if met is None else rounds[:met + 1]
            if by_trip:
                self._accept(rounds, None if met is None else first + met)
            for name in self._show:
                for number, one in enumerate(kept, first):
                    self.shown[name].add(number, one.counts[name], one.bodies[name])
            report(first, kept)
            if met is not None:
                return True
            size = self._next_size(size, rests, time.monotonic() - begun)
        return False

    # -- rounds

    def _by_trip(self, rests: bool, size: int, goal: int) -> Optional[List[Round]]:
        """The rounds of the trip that was sent first. None where they are to be made one by one."""
        trips = self._trips
        if trips is None or self._careful:
            return None
        while len(trips.under_way) < (2 if rests else 1) and trips.next < goal:
            asked = trips.choose_rounds(min(size, goal - trips.next))
            if not asked:
                break
            trips.post(asked)
        if not trips.under_way:
            return None
        rounds_made = trips.take()
        self._careful = rounds_made is None
        return rounds_made

    def _accept(self, rounds: List[Round], end: Optional[int]) -> None:
        """A trip's rounds count, up to an end where it is met."""
        trips = self._trips
        assert trips is not None
        if end is None or end == trips.under_way[0].number:
            trips.accept(rounds)
        else:
            self._end = end
        if end is not None:
            trips.stop()

    def _by_itself(self, end: Optional[Until]) -> List[Round]:
        """One round that is made by itself, where there are no trips by the step."""
        trips, number = self._trips, self.number + 1
        try:
            got = self._by_step(end) if trips is None else trips.make_one()
            bodies = {name: got[name].to_text() for name in self._show}
        except Refused as fault:
            fault.round = number
            raise
        for name in self._show:
            self.shown.setdefault(name, Shown(got[name].shape))
        if trips is None:
            self._own_place = advance_place(self._own_place, got)
        else:
            trips.advance_to(advance_place(trips.place, got))
        return [Round(count_entries(got), bodies)]

    def _by_step(self, end: Optional[Until]) -> Dict[str, Any]:
        """The results of the next round, by the step."""
        got = results(self._step, State(self._place.state), self.number + 1)
        self._results = set(got)
        self._check_names(end.names if end is not None else ())
        for matrix in got.values():
            matrix.wait()
        return got

    def _next_size(self, size: int, rests: bool, took: float) -> int:
        if rests:
            return 2 * size if 2 * took < LONG else size
        return 2 * size if 2 * took < QUICK else size if took < QUICK else max(1, size // 2)

    def _catch_up(self) -> None:
        """Makes the rounds again that came before an end amid a trip."""
        end, self._end = self._end, None
        if end is not None:
            show, self._show = self._show, []
            try:
                self.rounds(None, end - self.number, lambda first, rounds: None)
            finally:
                self._show = show

    def _resumed(self) -> int:
        """The number of rounds that are made, whose state is there to go on from."""
        self._catch_up()
        if self._trips is not None:
            self._trips.resume()
        return self.number

    def _check_names(self, names: Sequence[str]) -> None:
        if self._results is not None:
            for name in names:
                if name not in self._results:
                    raise ValueError('until= looks at %r, which no step returns: it has %s'
                                     % (name, ', '.join(sorted(self._results))))
