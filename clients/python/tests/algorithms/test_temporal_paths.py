"""Events with times: when what begins at a vertex could be where, beside plain Python that takes
events in the order of their times."""
import datetime
import random

import numpy

import support
import spmat
import spmat_blocks as blocks


def earliest(events, sources, start, stop=None):
    """The earliest arrivals, by trying all events until nothing changes."""
    found = {source: start for source in sources if stop is None or start <= stop}
    while True:
        before = dict(found)
        for source, target, time, *rest in events:
            arrival = time + sum(rest)
            if source in found and found[source] <= time and (stop is None or arrival <= stop):
                found[target] = min(found.get(target, arrival), arrival)
        if found == before:
            return found


class Test(support.InSession):
    def drawn(self, seed, with_durations):
        chance = random.Random(seed)
        names = chance.choice([list('abcdefgh'), [5, 3, 9, -2, 7, 1, 0, 4],
                               [(0, 1), (1, 0), 'x', 3, 1, 0, 2, 'y']])
        return [(*(chance.choice(names) for _ in range(2)), chance.randrange(-20, 20),
                 *([chance.choice([0, 0, 1, 7])] if with_durations else []))
                for _ in range(chance.randrange(1, 40))]

    def look(self, session, seed):
        events, chance = self.drawn(seed, seed % 3 != 0), random.Random(seed)
        made = spmat.events(session, events)
        sources = chance.sample(made.nodes, 1 if seed % 4 else min(2, len(made.nodes)))
        start, stop = chance.choice([None, -20, 0, 5]), chance.choice([None, None, 3, 15])
        found = made.earliest_arrival(sources if len(sources) > 1 else sources[0], start, stop)
        begin = min(time for _, _, time, *_ in events) if start is None else start
        want = earliest(events, sources, begin, stop)
        with self.subTest(events=events, sources=sources, start=start, stop=stop):
            self.assertEqual(found, want)
            self.assertEqual(found.times.by_node(), want)
            for target in want:
                path, now, at = found.path(target), begin, None
                for event in path:
                    row = events[event.row]
                    self.assertEqual((event.source, event.target, event.time, event.arrival),
                                     (*row[:3], row[2] + sum(row[3:])))
                    self.assertTrue(event.time >= now and (at is None or event.source == at))
                    now, at = event.arrival, event.target
                self.assertEqual((now, at if path else target), (want[target], target))
                self.assertIn(path[0].source if path else target, sources)
            for target in set(made.nodes) - set(want):
                with self.assertRaises(KeyError):
                    found.path(target)

    def test_arrivals(self):
        for seed in range(60):
            self.look(self.s, seed)

    def test_arrivals_in_blocks(self):
        with blocks.Sessions(2) as sessions:
            for seed in range(4):
                self.look(sessions, seed)

    def test_parallel_events_and_one_instant(self):
        made = spmat.events(self.s, [('a', 'b', 1), ('a', 'b', 5), ('b', 'c', 4), ('b', 'c', 5),
                                     ('c', 'b', 5), ('c', 'd', 5), ('a', 'a', 0)])
        self.assertEqual((len(made), made.nodes, repr(made)),
                         (7, ['a', 'b', 'c', 'd'], '<Events: 7 between 4 vertices>'))
        self.assertEqual(made.earliest_arrival('a'), {'a': 0, 'b': 1, 'c': 4, 'd': 5})
        late = made.earliest_arrival('a', start=2)
        self.assertEqual(late, {'a': 2, 'b': 5, 'c': 5, 'd': 5})
        self.assertEqual([event.row for event in late.path('d')], [1, 3, 5])
        self.assertEqual((late.path('a'), made.earliest_arrival('a', 6),
                          made.earliest_arrival('a', 2, stop=1)), ([], {'a': 6}, {}))
        told = []
        made.earliest_arrival('a', progress=lambda *now: told.append(now))
        self.assertEqual(told, [('round', number, 0) for number in range(1, len(told) + 1)])
        self.assertGreater(len(told), 2)

    def test_cost(self):
        """6 runs a round, and 2; 9 steps for each event that leaves a vertex whose time changed,
        and 8 a vertex; up to 128 rounds are sent beyond the end, as time has it, with 8 steps
        each."""
        events = [(at, at + 1, at) for at in range(300)] + [(at, at + 1, 0) for at in range(300)]
        made, told = spmat.events(self.s, events), []
        runs, spent = self.s.runs, self.s.budget().spent
        self.assertEqual(len(made.earliest_arrival(0, progress=lambda *now: told.append(now))), 301)
        self.assertEqual(len(told), 300)
        self.assertLessEqual(self.s.runs - runs, 6 * (len(told) + 128) + 2)
        self.assertLessEqual(self.s.budget().spent - spent, 9 * len(events) + 8 * (301 + 128))

    def test_no_event(self):
        made = spmat.events(self.s, [])
        self.assertEqual((len(made), made.nodes), (0, []))
        with self.assertRaises(ValueError):
            made.earliest_arrival('a')

    def test_what_is_refused(self):
        s = self.s
        for wrong, fault, words in (
            ([('a', 'b', 1), ('a', 'b')], ValueError, r"not \('a', 'b'\) \(event 1\)"),
            ([('a', 'b')], ValueError, 'an event is'),
            ([('a', 'b', 1.5)], ValueError, 'time of event 0 is a whole number'),
            ([('a', 'b', None)], ValueError, 'event 0 has no time'),
            ([('a', 'b', 1, -1)], ValueError, 'event 0 has a duration below 0'),
            ([('a', None, 1)], ValueError, 'event 0 has no vertex that it leads to'),
            ([('a', 'b', 'noon')], TypeError, 'whole number'),
            ([('a', 'b', 2 ** 63 - 1, 1)], ValueError, 'times are above'),
            ([('a', 'b', -2 ** 63)], ValueError, 'times are above'),
            ({'source': ['a'], 'target': ['b']}, ValueError, "no column 'time'"),
            ({'source': ['a'], 'target': ['b'], 'time': [1, 2]}, ValueError,
             'columns of one length')):
            with self.subTest(events=wrong), self.assertRaisesRegex(fault, words):
                spmat.events(s, wrong)
        made = spmat.events(s, [(1, 2, 10)])
        for call in (lambda: made.earliest_arrival(0), lambda: made.earliest_arrival([])):
            with self.assertRaises(ValueError):
                call()
        with self.assertRaisesRegex(TypeError, 'a start is a whole number'):
            made.earliest_arrival(1, datetime.date(2024, 1, 1))

    def test_a_dict_of_columns(self):
        made = spmat.events(self.s, {'payer': [3, 1], 'payee': [1, 2], 'day': [1, 2],
                                     'days': [1, 5]}, 'payer', 'payee', 'day', 'days')
        self.assertEqual(made.earliest_arrival(3), {3: 1, 1: 2, 2: 7})

    def test_dates(self):
        day, hour = datetime.datetime(2024, 3, 1), datetime.timedelta(hours=1)
        rows = [('a', 'b', day), ('b', 'c', day + hour), ('b', 'd', day - hour),
                ('c', 'd', day + 5 * hour)]
        want = {'a': day - hour, 'b': day, 'c': day + hour, 'd': day + 5 * hour}
        found = spmat.events(self.s, rows).earliest_arrival('a')
        self.assertEqual((found, found.path('d')[-1].time), (want, day + 5 * hour))
        self.assertEqual(spmat.events(self.s,
                                      [(*row, hour) for row in rows]).earliest_arrival(
                                          'a', '2024-02-01'),
                         {'a': datetime.datetime(2024, 2, 1), 'b': day + hour, 'c': day + 2 * hour,
                          'd': day + 6 * hour})
        times = numpy.array([row[2] for row in rows], 'datetime64[s]')
        table = {'source': list('abbc'), 'target': list('bcdd'), 'time': times}
        found = spmat.events(self.s, table).earliest_arrival('a', stop=day + hour)
        self.assertEqual(found, {'a': times[2], 'b': times[0], 'c': times[1]})
        self.assertEqual(found.times.by_node()['b'], int(times[0].astype('int64')))
        days = spmat.events(self.s, [('a', 'b', day.date()), ('b', 'c', datetime.date(2024, 3, 9))])
        self.assertEqual(days.earliest_arrival('a'),
                         {'a': day.date(), 'b': day.date(), 'c': datetime.date(2024, 3, 9)})
        for call, fault, words in ((lambda: days.earliest_arrival('a', day + hour), ValueError,
                                    'no finer'), (lambda: days.earliest_arrival('a', 7), TypeError,
                                                  'date'),
                                   (lambda: spmat.events(self.s, [('a', 'b', day, 5)]), TypeError,
                                    'timedelta'),
                                   (lambda: spmat.events(self.s, [('a', 'b', day), ('a', 'b', 5)]),
                                    TypeError, 'date'),
                                   (lambda: spmat.events(self.s,
                                                         dict(table,
                                                              time=numpy.array(['NaT'] * 4,
                                                                               'M8[s]'))),
                                    ValueError, 'event 0 has no time'),
                                   (lambda: spmat.events(self.s,
                                                         [('a', 'b', day),
                                                          ('b', 'c', day.astimezone())]),
                                    ValueError, 'time zone')):
            with self.assertRaisesRegex(fault, words):
                call()

    @support.needs('pandas')
    def test_times_come_back_as_they_came(self):
        """Of one class and zone with those that were handed in: as tuples, columns and tables."""
        import pandas
        zone = datetime.timezone(datetime.timedelta(hours=2))
        stamps = [pandas.Timestamp('2024-03-01 10:00:00.000000001'), pandas.Timestamp('2024-03-02')]
        for first, second in (stamps, [stamp.tz_localize('Europe/Berlin') for stamp in stamps],
                              [datetime.datetime(2024, 3, 1, 10), datetime.datetime(2024, 3, 2)],
                              [datetime.datetime(2024, 3, 1, 10, tzinfo=zone),
                               datetime.datetime(2024, 3, 2, tzinfo=zone)],
                              [datetime.date(2024, 3, 1), datetime.date(2024, 3, 2)],
                              [numpy.datetime64('2024-03-01'), numpy.datetime64('2024-03-02')]):
            columns = {'source': ['a', 'b'], 'target': ['b', 'c'], 'time': [first, second]}
            tables = [[('a', 'b', first), ('b', 'c', second)], columns]
            if isinstance(first, pandas.Timestamp):
                tables += [pandas.DataFrame(columns),
                           {**columns, 'time': pandas.Series([first, second])}]
            for table in tables:
                made = spmat.events(self.s, table)
                found = made.earliest_arrival('a')
                self.assertEqual(dict(found), {'a': first, 'b': first, 'c': second})
                self.assertEqual([type(time) for time in found.values()], [type(first)] * 3)
                self.assertEqual(getattr(found['c'], 'tzinfo', None),
                                 getattr(second, 'tzinfo', None))
                self.assertEqual((made.event(1).time, found.path('c')[-1].arrival),
                                 (second, second))

    @support.needs('pandas')
    def test_tables(self):
        import pandas
        frame = pandas.DataFrame({'from': ['Ann', 'Bob', 'Bob'], 'to': ['Bob', 'Cid', 'Cid'],
                                  'when': pandas.to_datetime(
                                      ['2024-03-02 10:00', '2024-03-01', '2024-03-04 12:30'])})
        found = spmat.events(self.s, frame, 'from', 'to', 'when').earliest_arrival('Ann')
        self.assertEqual(found,
                         {'Ann': pandas.Timestamp('2024-03-01'),
                          'Bob': pandas.Timestamp('2024-03-02 10:00'),
                          'Cid': pandas.Timestamp('2024-03-04 12:30')})
        zoned = frame.assign(when=frame['when'].dt.tz_localize('Europe/Berlin'),
                             days=pandas.to_timedelta([1, 1, 2], 'D'))
        found = spmat.events(self.s, zoned, 'from', 'to', 'when',
                             'days').earliest_arrival('Ann',
                                                      start=pandas.Timestamp('2024-03-02',
                                                                             tz='UTC'))
        self.assertEqual(found['Cid'], pandas.Timestamp('2024-03-06 12:30', tz='Europe/Berlin'))
        self.assertEqual(str(found['Cid'].tz), 'Europe/Berlin')
        array = numpy.array([[1, 2, 5, 1], [2, 3, 5, 0], [2, 3, 6, 0]])
        self.assertEqual(spmat.events(self.s, array).earliest_arrival(1), {1: 5, 2: 6, 3: 6})
        self.assertEqual(spmat.events(self.s, array[:, :3]).earliest_arrival(1), {1: 5, 2: 5, 3: 5})
        with self.assertRaisesRegex(ValueError, 'an array of events'):
            spmat.events(self.s, array[:, :2])
