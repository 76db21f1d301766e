"""Events with times between vertices, such as payments, messages and trips: what begins at one of
them could have arrived where, and when.

Two vertices may have several events, so these are no edges. A matrix has a column for each event,
with the time at which it begins in the row of the vertex that it leaves. Another one has a row for
each, with the time at which it arrives.
"""
from __future__ import annotations

import datetime
import numbers
from typing import Any, Dict, Iterable, List, NamedTuple, Optional, Tuple, Union

import numpy

from .. import integers
from ..io.arrays import is_frame
from ..integers import MOST, is_gap
from ..io.matrix_text import Triples
from ..loops import Loop, State, empty
from ..loops.trips import report_rounds
from ..matrix import Matrix
from ..metadata import Nodes
from ..operators import Semiring, asm, binary
from ..session import Session
from .searches import LESS, NOT_LESS
from .traversal import Vector, put_column, put_row, vector_of
from ..types import DataFrame, Many, Number, Place, Vertex, Vertices
from .utils import Progress, find_place, find_places

# The time at which an event begins, where that isn't before one is there; else the least number
TAKEN = asm('binary', 'mov64 r0, r2\njsge64 r2, r1, 2\nmov64 r0, 1\nlsh64 r0, 63\nexit\n')
TAKE, ARRIVE = Semiring(binary.any, TAKEN), Semiring(binary.min, binary.second)


class Event(NamedTuple):
    """An event of a path: its row in the table, from 0, what it joins, and its times."""
    row: int
    source: Any
    target: Any
    time: Any
    arrival: Any


class Columns(NamedTuple):
    """Events by columns, with vertices as rows."""
    sources: List[Place]
    targets: List[Place]
    times: List[int]
    arrivals: List[int]


class Arrivals(Dict[Any, Any]):
    """{vertex: the earliest time at which what begins at the source could be there}, with nothing
    of a vertex where it can't arrive.

    `times` is the same as a column of whole numbers: dates as numpy counts them."""

    def __init__(self, events_: 'Events', times: Matrix, sources: List[Place]) -> None:
        moment = events_.clock.moment
        super().__init__((name, moment(time)) for name, time in times.by_node().items())
        self.times, self._events, self._sources = times, events_, sources
        self._before: Optional[Dict[Place, int]] = None

    def path(self, target: Vertex) -> List[Event]:
        """The events by which it arrives at a vertex first, in order: as few as any such way has.

        It asks nothing of the server. Raises ValueError where there is no such vertex, and KeyError
        where nothing arrives there."""
        at, found = find_place(self._events.leave, target), []  # type: Place, List[Event]
        if target not in self:
            raise KeyError(target)
        before = self._last_events()
        while at in before:
            found.append(self._events.event(before[at]))
            at = self._events.columns.sources[before[at]]
        return found[::-1]

    def _last_events(self) -> Dict[Place, int]:
        """The event by which each vertex is reached in time, with as few before it as can be."""
        if self._before is None:
            at, _, times = self.times.to_coo()
            known = dict(zip(at.tolist(), times.tolist()))
            columns, leaving = self._events.columns, {}  # type: Columns, Dict[Place, List[int]]
            for event, (source, target, time, arrival) in enumerate(zip(*columns)):
                if known.get(target) == arrival and source in known and known[source] <= time:
                    leaving.setdefault(source, []).append(event)
            self._before, front = {}, list(self._sources)
            seen = set(front)
            for source in front:                   # which grows meanwhile
                for event in leaving.get(source, ()):
                    target = columns.targets[event]
                    if target not in seen:
                        seen.add(target)
                        self._before[target] = event
                        front.append(target)
        return self._before


class Events:
    """Events between vertices, each with the times at which it begins and arrives; `spmat.events`
    makes them.

    `nodes` are the names of the vertices, and `len` is the number of events. `leave` and `enter`
    are their matrices."""

    def __init__(self, session: Session, names: Nodes, columns: Columns, clock: Clock) -> None:
        self.columns, self.clock, self.nodes = columns, clock, names
        many, count, keep = len(columns.times), len(names), session.backend.keep
        sources, targets, times, arrivals = (numpy.array(one, numpy.int64) for one in columns)
        order = numpy.argsort(sources, kind='stable')
        self.leave = keep(Triples(sources[order], order, times[order], count, many))
        self.enter = keep(Triples(numpy.arange(many), targets, arrivals, many, count))
        self.leave.notes = self.leave.notes._replace(rows=names)
        self.enter.notes = self.enter.notes._replace(columns=names)

    def __len__(self) -> int:
        return len(self.columns.times)

    def __repr__(self) -> str:
        return '<Events: %d between %d vertices>' % (len(self), len(self.nodes))

    def event(self, row: int) -> Event:
        """An event by its row in the table."""
        columns, nodes, moment = self.columns, self.nodes, self.clock.moment
        return Event(row, nodes[columns.sources[row]], nodes[columns.targets[row]],
                     moment(columns.times[row]), moment(columns.arrivals[row]))

    def earliest_arrival(self, source: Vertices, start: Optional[Number] = None,
                         stop: Optional[Number] = None, progress: Progress = None) -> Arrivals:
        """When what begins at a vertex could first be at each other one: money, news, a traveller.

        An event takes it on that begins when it is there, or later.

        Parameters
        ----------
        source
            A vertex by its name, or several.
        start
            When it begins; without it with the first of all events. A date may be text, such as
            "2024-03-01".
        stop
            What would arrive later is left out.
        progress
            `progress('round', k, 0)` is called after each round.

        Returns
        -------
        Arrivals
            {vertex: time}, with `path(vertex)` for the events that lead there, and `times` as a
            column.

        Raises
        ------
        ValueError
            If a source is no vertex.
        TypeError
            If `start` or `stop` is no time as those of the events are.

        Notes
        -----
        There are as many rounds as events on the longest of the earliest ways, and 1. They are a
        loop that stays at the server. Runs: 6 a round, and 2. Steps: up to 9 for each event that
        leaves a vertex whose time changed, and 8 a vertex that these lead to, a round. GraphBLAS:
        `vxm` over any and "in time", then over min and second. networkx has nothing of the kind.
        """
        sources = sorted(set(find_places(self.leave, source)))
        if not sources:
            raise ValueError('expected a vertex to begin with, or several')
        begin = min(self.columns.times) if start is None else self.clock.number(start, 'start')
        end = None if stop is None else self.clock.number(stop, 'stop')
        count, begins = len(self.nodes), vector_of(sources, [begin] * len(sources))
        front = put_row(self.leave, begins)
        if end is not None:
            front = front.select('valuele', end)
        loop = Loop(lambda s: self._advance(s, end), {'front': front, 'known': front})
        loop.rounds(empty('front'), count + 1, report_rounds(progress, result='front'))
        _, at, times = loop.state.known.to_coo()
        found = put_column(self.leave, Vector(at, times))
        found.notes = found.notes._replace(rows=self.nodes)
        return Arrivals(self, found, sources)

    def _advance(self, s: State, end: Optional[int]) -> Dict[str, Matrix]:
        """A round: the events that the front can take, and where they arrive sooner than known."""
        taken = s.front.mxm(self.leave, TAKE).select('valuene', NOT_LESS)
        reached = taken.mxm(self.enter, ARRIVE)
        if end is not None:
            reached = reached.select('valuele', end)
        new = reached.ewise_add(s.known, LESS, mask=reached.S).select('valuene', NOT_LESS)
        return {'front': new, 'known': s.known.ewise_add(new, 'second')}


def events(session: Session, table: DataFrame, source: Vertex = 'source', target: Vertex = 'target',
           time: Vertex = 'time', duration: Union[Vertex, Number] = None) -> Events:
    """Events with times between vertices, from a table: payments, messages, trips.

    Two vertices may have several.

    Parameters
    ----------
    session
        Where they are kept.
    table
        (from, to, time), or (from, to, time, duration), for each event. Or an array of numpy with
        these as its columns. Or a table of pandas, or a dict, with columns by name. Times are whole
        numbers, or dates of Python, numpy or pandas, and come back as they were handed in.
        Durations are 0 or more: numbers in the unit of the times, or timedeltas. Without them an
        event arrives when it begins.
    source, target, time, duration
        What the columns of a table of pandas, or of a dict, are called.

    Returns
    -------
    Events
        `.earliest_arrival(source, start)` says when what begins at a vertex could be where.

    Raises
    ------
    ValueError
        If a name or a time is missing, a duration is below 0, or there is no such column.
    TypeError
        For what is no time.

    See Also
    --------
    Session.from_edgelist : Edges without times.

    Notes
    -----
    No job and no run: two matrices are sent, with an entry for each event.

    Examples
    --------
    >>> import spmat
    >>> s = spmat.Session()
    >>> trips = spmat.events(s, [("Ann", "Bob", 9), ("Bob", "Cid", 10), ("Bob", "Dan", 8)])
    >>> trips.earliest_arrival("Ann", 0)
    {'Ann': 0, 'Bob': 9, 'Cid': 10}
    """
    froms, tos, times, durations = _columns(table, (source, target, time), duration)
    for what, column in (('from', froms), ('to', tos)):
        gap = next((at for at, name in enumerate(column) if is_gap(name)), None)
        if gap is not None:
            raise ValueError('event %d has no vertex that it leads %s: it is %r'
                             % (gap, what, column[gap]))
    begins, clock = read_times(times)
    arrivals = begins
    if durations is not None:
        arrivals = [begin + length for begin, length in zip(begins, clock.lengths(durations))]
    least, most = min(begins, default=0), max(arrivals, default=0)
    if least == NOT_LESS or most > MOST:
        raise ValueError('times are above -2^63, and up to 2^63 - 1, also when events arrive: here '
                         'they are %d to %d' % (least, most))
    names = dict.fromkeys([*froms, *tos])
    nodes = Nodes(sorted(names) if all(type(name) is int for name in names) else names)
    at = nodes.places
    columns = Columns([Place(at[name]) for name in froms], [Place(at[name]) for name in tos],
                      begins, arrivals)
    return Events(session, nodes, columns, clock)


def _columns(table: Any, names: Tuple[Any, Any, Any],
             duration: Any) -> Tuple[List[Any], List[Any], Any, Any]:
    """The columns of a table of events, of which those of durations may be none."""
    if is_frame(table) or isinstance(table, dict):
        wanted = [*names, *([] if duration is None else [duration])]
        missing = [name for name in wanted if name not in table]
        if missing:
            raise ValueError('no column %r: there are %s; source=, target=, time= and duration= '
                             'say which are meant' % (missing[0], ', '.join(map(repr, table))))
        columns = [table[name] for name in wanted]
    elif isinstance(table, numpy.ndarray):
        if table.ndim != 2 or table.shape[1] not in (3, 4):
            raise ValueError('an array of events has 3 columns (from, to, time), or 4 with '
                             'durations, not the shape %r' % (table.shape,))
        columns = list(table.T)
    else:
        columns = _turn_rows(table)
    lengths = [len(column) for column in columns]
    if len(set(lengths)) > 1:
        raise ValueError('columns of one length are expected, not of %s'
                         % ', '.join(map(str, lengths)))
    froms, tos = (column.tolist() if hasattr(column, 'tolist') else list(column)
                  for column in columns[:2])
    return froms, tos, columns[2], columns[3] if len(columns) == 4 else None


def _turn_rows(table: Iterable[Any]) -> List[Any]:
    """Rows as columns."""
    rows = list(map(tuple, table))
    widths = [len(row) for row in rows]
    first = widths[0] if widths else 3
    wrong = next((at for at, width in enumerate(widths) if width not in {first} & {3, 4}), None)
    if wrong is not None:
        raise ValueError('an event is (from, to, time), and either all or none have a duration as '
                         'a fourth field, not %r (event %d)' % (rows[wrong], wrong))
    return [list(column) for column in zip(*rows)] if rows else [[], [], []]


class Clock(NamedTuple):
    """How times are counted. `unit` is that of numpy's datetime64, and empty where times are
    numbers. `zone` is the time zone of dates that have one, which are counted in UTC. `kind` is the
    class of the caller's dates: of Python, numpy or pandas."""
    unit: str = ''
    zone: Optional[datetime.tzinfo] = None
    kind: Any = numpy.datetime64

    def number(self, moment: Any, what: str) -> int:
        """A time as a number; a date may also be text in ISO 8601. TypeError where it is no time as
        those of the events are, ValueError where it is finer than they are."""
        if not self.unit:
            return integers.word(moment, what)
        if not isinstance(moment, str) and _has_zone(moment) != (self.zone is not None):
            raise TypeError('a %s is a date with%s a time zone, as the times of the events are, '
                            'not %r' % (what, 'out' if self.zone is None else '', moment))
        found, exact = _dates([moment], what, self.unit), _dates([moment], what, 'us')
        if self.unit not in ('us', 'ns') and (found != exact).any():
            raise ValueError('a %s is no finer than the times of the events, which are in %s of '
                             'numpy: %r' % (what, self.unit, moment))
        return int(found.astype('int64')[0])

    def moment(self, number: int) -> Any:
        """A number as a time of the caller's kind, and in the caller's time zone."""
        if not self.unit:
            return number
        found = numpy.datetime64(number, self.unit)
        if self.kind is numpy.datetime64:
            return found
        is_pandas = hasattr(self.kind, 'nanosecond')
        moment: Any = self.kind(found) if is_pandas else found.item()
        if self.zone is None:
            return moment
        return moment.replace(tzinfo=datetime.timezone.utc).astimezone(self.zone)

    def lengths(self, durations: Any) -> List[int]:
        """Durations as numbers. TypeError where they are of another kind than the times, ValueError
        where one is below 0, or finer than the times."""
        listed = _listed(durations)
        if self.unit:
            odd = next((one for one in listed
                        if isinstance(one, numbers.Real) and _kind(one) != 'm'), None)
            if odd is not None:
                raise TypeError('a duration is a timedelta where times are dates, not %r' % (odd,))
            found = numpy.asarray(durations, 'timedelta64[%s]' % self.unit)
            if (found != numpy.asarray(durations, 'timedelta64')).any():
                raise ValueError('durations are no finer than the times of the events, which are '
                                 'in %s of numpy' % self.unit)
            listed = found.astype('int64').tolist()
        lengths = [integers.word(one, 'duration of event %d' % at) for at, one in enumerate(listed)]
        wrong = next((at for at, one in enumerate(lengths) if one < 0), None)
        if wrong is not None:
            raise ValueError('event %d has a duration below 0, or none: nothing arrives before it '
                             'begins' % wrong)
        return lengths


def read_times(times: Many) -> Tuple[List[int], Clock]:
    """A column of times as numbers, and how they are counted. ValueError where one is missing,
    TypeError for what is no time."""
    listed = _listed(times)
    gap = next((at for at, one in enumerate(listed) if is_gap(one) or str(one) == 'NaT'), None)
    if gap is not None:
        raise ValueError('event %d has no time: it is %r' % (gap, listed[gap]))
    if not listed or not (hasattr(listed[0], 'isoformat')
                          or 'M' in (_kind(times), _kind(listed[0]))):
        return ([integers.word(one, 'time of event %d' % at) for at, one in enumerate(listed)],
                Clock())
    with_zone = sum(map(_has_zone, listed))
    if with_zone not in (0, len(listed)):
        raise ValueError('%d of %d times have a time zone: either all have one, or none'
                         % (with_zone, len(listed)))
    found = _dates(times if isinstance(times, numpy.ndarray) else listed, 'time')
    is_numpy = isinstance(times, numpy.ndarray) or not hasattr(listed[0], 'isoformat')
    clock = Clock(numpy.datetime_data(found.dtype)[0], getattr(listed[0], 'tzinfo', None),
                  numpy.datetime64 if is_numpy else type(listed[0]))
    return found.astype('int64').tolist(), clock


def _kind(column: Many) -> str:
    """The kind of a column or a number of numpy or pandas: M for dates, m for durations."""
    found: str = getattr(getattr(column, 'dtype', None), 'kind', '')
    return found


def _has_zone(moment: object) -> bool:
    return getattr(moment, 'tzinfo', None) is not None


def _listed(column: Many) -> List[Any]:
    """A column of numpy, pandas or Python as a list, in which dates stay dates."""
    return list(column.tolist() if isinstance(column, numpy.ndarray) and _kind(column) not in 'mM'
                else column)


def _dates(many: Many, what: str, unit: str = '') -> Any:
    """Dates as an array of numpy, in a unit or the finest that they have; with a zone those of UTC.
    """
    if isinstance(many, numpy.ndarray):
        return many.astype('datetime64[%s]' % (unit or numpy.datetime_data(many.dtype)[0]))
    known = str, datetime.date, numpy.datetime64
    wrong = next((one for one in many if not isinstance(one, known)), None)
    if wrong is not None:
        raise TypeError('a %s is a date, as the times of the events are, not %r' % (what, wrong))
    utc = datetime.timezone.utc
    plain = [one.astimezone(utc).replace(tzinfo=None) if _has_zone(one) else one for one in many]
    # numpy itself would take a Timestamp's microseconds alone
    plain = [one.to_datetime64() if hasattr(one, 'to_datetime64') else one for one in plain]
    if any(isinstance(one, numpy.datetime64) for one in plain):
        finest = numpy.datetime_data(numpy.asarray(plain, 'datetime64').dtype)[0]
    else:
        finest = 'us' if any(hasattr(one, 'hour') for one in many) else 'D'
        finest = 'ns' if any(hasattr(one, 'nanosecond') for one in many) else finest
    return numpy.asarray(plain, 'datetime64[%s]' % (unit or finest))
