"""Times as values: whole numbers of a unit since 1970-01-01, from files, lists of edges and tables,
in a session, in blocks and in the shell."""
import datetime
import io
import os
import random

import numpy

import command_line
import support
import spmat
import spmat_blocks as blocks
from spmat.io import values

UTC = datetime.timezone.utc
ONE = datetime.datetime(2024, 1, 2, 3, 4, 5, 678901)
SECONDS = 1704164645


class Times(support.InSession):
    def value(self, value, **how):
        return self.s.from_edgelist([('a', 'b', value)], **how).to_edgelist()[0][2]

    def read(self, text, **how):
        return self.s.read_graph(io.BytesIO(text.encode()),
                                 **{'sep': ',' if ',' in text else ' ', **how})

    def test_units(self):
        for unit, want in (('D', 19724), ('s', SECONDS), ('ms', SECONDS * 1000 + 678),
                           ('us', SECONDS * 10 ** 6 + 678901),
                           ('ns', (SECONDS * 10 ** 6 + 678901) * 1000)):
            self.assertEqual(self.value(ONE, unit=unit), want)
        self.assertEqual(self.value(datetime.date(1969, 12, 31), unit='s'), -86400)
        self.assertEqual(self.value(datetime.datetime(1969, 12, 31, 23, 59, 59, 500000), unit='s'),
                         -1)
        self.assertEqual(self.value(datetime.datetime(2024, 1, 2, 3, 4, 5,
                                                      tzinfo=datetime.timezone(
                                                          datetime.timedelta(hours=1))), unit='s'),
                         SECONDS - 3600)
        self.assertIn('beyond 64 bits in ns: unit="us" has room',
                      self.said(self.value, datetime.date(9999, 1, 1), unit='ns'))
        self.assertIn('"D", "s", "ms", "us", "ns", not \'weeks\'',
                      self.said(self.value, ONE, unit='weeks'))

    def test_random_against_python(self):
        chance = random.Random(1)
        for _ in range(300):
            time = datetime.datetime.fromtimestamp(chance.randrange(-10 ** 10, 10 ** 10),
                                                   UTC) + datetime.timedelta(
                                                       microseconds=chance.randrange(10 ** 6))
            zone = datetime.timezone(
                datetime.timedelta(minutes=chance.choice((0, 0, 60, -330, 825))))
            text = time.astimezone(zone).isoformat(chance.choice(' T'))
            want = (time - datetime.datetime(1970, 1, 1, tzinfo=UTC)) // datetime.timedelta(
                microseconds=1)
            self.assertEqual(values.read_moment(text).nanoseconds, want * 1000, text)
            self.assertEqual(values.read_moment(time).nanoseconds, want * 1000, text)

    def test_text(self):
        for text, want in (('2024-01-02', 1704153600), ('2024-01-02T03:04:05Z', SECONDS),
                           ('2024-01-02 03:04:05.999999999', SECONDS),
                           ('2024-01-02 03:04', SECONDS - 5),
                           ('2024-01-02T03:04:05+0100', SECONDS - 3600), ('17', 17), (' -5 ', -5)):
            self.assertEqual(self.value(text, unit='s'), want, text)
        self.assertEqual(self.value('02.01.2024', unit='D', date_format='%d.%m.%Y'), 19724)
        for text in ('02.01.2024', '2024-13-01', '2024-02-30', 'soon', '1.5', '2024'  '-01'):
            self.assertIn('expected a time, got %r' % text, self.said(self.value, text, unit='s'))
        self.assertIn("date_format='%d.%m.%Y'",
                      self.said(self.value, '2024-01-02', unit='D', date_format='%d.%m.%Y'))
        self.assertIn('unit="s" takes them', self.said(self.value, '2024-01-02', date_format='%Y'))
        self.assertIn('one of both', self.said(self.value, '2024-01-02', unit='s', scale=10))

    def test_text_that_is_no_time(self):
        """Of a file: it isn't understood, and date_format= is the remedy."""
        for text in ('2024-02-30', '2024-5-3', '01/02/2024'):
            said = self.said(self.read, 'from,to,t\na,b,%s\n' % text, unit='D',
                             kind=spmat.ReadError)
            self.assertIn('line 2: expected a time, got %r' % text, said)
            self.assertIn('date_format=', said)

    def test_numbers_far_beyond(self):
        """A date that was written as a number, and milliseconds for seconds, are asked."""
        for unit, value, year in (('D', 20240531, 57386), ('s', 1717150500000, 56384)):
            for given in (value, str(value), numpy.int64(value)):
                self.assertIn('%d is in the year %d as a count of %s' % (value, year, unit),
                              self.said(self.value, given, unit=unit))
            said = self.said(self.read, 'from,to,t\na,b,%d\n' % value, unit=unit)
            self.assertIn('line 2: %d is in the year' % value, said)
            self.assertIn('date_format="%Y%m%d"', said)
        for value in (20240531, '20240531'):
            self.assertEqual(self.value(value, unit='D', date_format='%Y%m%d'), 19874)
        self.assertEqual(self.value(datetime.date(9999, 12, 31), unit='D'), 2932896)
        self.assertEqual(self.value(376199, unit='D'), 376199)       # the last day of 2999

    def test_times_with_a_zone_and_without(self):
        for one, other in (('2024-05-31T10:00Z', '2024-05-31T10:00'),
                           (ONE, ONE.replace(tzinfo=UTC)), ('2024-05-31', '2024-05-31T10:00+0200')):
            for first, second in ((one, other), (other, one)):
                self.assertIn('edge 1: some times have a time zone',
                              self.said(self.s.from_edgelist,
                                        [('a', 'b', first), ('b', 'c', second)], unit='s'))
        self.assertIn('line 3: some times have a time zone', self.said(
            self.read, 'from,to,t\na,b,2024-05-31T10:00Z\nb,c,2024-05-31T10:00\n', unit='s'))

    def test_numbers_beside_dates(self):
        """2024 beside dates is no second of 1970."""
        for values in ((5, ONE), (ONE.replace(tzinfo=UTC), 5), (ONE.date(), 2024)):
            edges = [('a', 'b', values[0]), ('b', 'c', values[1])]
            self.assertIn('edge 1: some times are numbers', self.said(self.s.from_edgelist, edges,
                                                                      unit='s'))
        self.assertIn('line 3: some times are numbers', self.said(
            self.read, 'from,to,t\na,b,2024-05-31\nb,c,2024\n', unit='D'))

    def test_without_a_unit(self):
        """The error says what takes times."""
        for value in (ONE, ONE.date(), '2024-01-02'):
            self.assertIn('edge 0: a value is a whole number, not %r: unit="s" takes times'
                          % (value,), self.said(self.value, value, kind=TypeError))
        self.assertIn('line 2: expected a number as the value, got \'2024-01-02\': unit="s" takes '
                      'times as seconds since 1970-01-01',
                      self.said(self.read, 'from,to,when\na,b,2024-01-02\n', kind=spmat.ReadError))
        self.assertIn('line 2: expected a number as the value, got \'2024-01-02\': unit="s"',
                      self.said(self.read, 'a,b,3\nb,c,2024-01-02\n', kind=spmat.ReadError))

    def test_files(self):
        G = self.read('from,to,amount,date\na,b,3,2024-01-02\nb,c,4,2024-01-02T12:00\n', unit='D',
                      columns=('from', 'to', 'date'))
        self.assertEqual((G.to_edgelist(), G.notes.source),
                         ([('a', 'b', 19724), ('b', 'c', 19724)], 'the text: header: yes; '
                          'source=from, target=to, values=date; '
                          'values in D since 1970-01-01, 1 of 2 '
                          'cut down to a whole one'))
        self.assertEqual(self.read('a b 2024-01-02\nb c 1970-01-02\n', unit='s', header=False).to_edgelist(),
                         [('a', 'b', 1704153600), ('b', 'c', 86400)])
        self.assertEqual(self.read('from,to,timestamp\n1,2,881250949\n', unit='s').to_edgelist(),
                         [(1, 2, 881250949)])
        self.assertEqual(self.read('from,to,x,y\n1,2,5,02/01/24\n', unit='D', columns=(0, 1, 3), header=True,
                                   date_format='%d/%m/%y').to_edgelist(), [(1, 2, 19724)])
        self.assertEqual(self.read('a,b,2024-01-02\nb,c,\n', unit='D', missing='skip', header=False).nvals, 1)
        text = 'from,to,start,end_at\na,b,2024-01-01,2024-01-02\n'
        self.assertIn('say which has the value', self.said(self.read, text, unit='D'))
        self.assertEqual(self.read(text, unit='D', columns=('from', 'to', 'end_at')).to_edgelist(),
                         [('a', 'b', 19724)])
        self.assertIn("line 3: expected a time, got 'soon'",
                      self.said(self.read, 'from,to,when\na,b,2024-01-02\nb,c,soon\n', unit='D'))
        self.assertIn("the value is missing",
                      self.said(self.read, 'from,to,when\na,b,2024-01-02\nb,c,\n', unit='D'))
        with blocks.Sessions(2) as many:
            path = io.BytesIO(b'a b 2024-01-02\nb c 2024-01-03\n')
            self.assertEqual(many.read_graph(path, unit='D', header=False).to_edgelist(),
                             [('a', 'b', 19724), ('b', 'c', 19725)])
            self.assertEqual(many.from_edgelist([('a', 'b', ONE)], unit='s').to_edgelist(),
                             [('a', 'b', SECONDS)])

    @support.needs('pandas', 'numpy')
    def test_pandas(self):
        import pandas
        times = ['2024-01-02 03:04:05.678901234', '2024-01-03', None]
        frame = pandas.DataFrame({'source': list('abc'), 'target': list('bca'),
                                  'when': [pandas.Timestamp(time) for time in times],
                                  'text': times})
        frame['zone'] = frame['when'].dt.tz_localize('Europe/Berlin')
        frame['day'] = [datetime.date(2024, 1, 2), datetime.date(2024, 1, 3), None]
        full = frame.iloc[:2]
        with blocks.Sessions(2) as many:
            for s in (self.s, many):
                read = s.from_pandas_edgelist
                self.assertIn("row 0: a value is a whole number, not Timestamp('2024-01-02 "
                              "03:04:05.678901234'): unit=\"s\"",
                              self.said(read, full, edge_attr='when', kind=TypeError))
                for column, hours in (('when', 0), ('text', 0), ('zone', 1)):
                    got = read(full, edge_attr=column, unit='ns').to_edgelist()
                    self.assertEqual([value for *_, value in got],
                                     [SECONDS * 10 ** 9 + 678901234 - hours * 3600 * 10 ** 9,
                                      (1704240000 - hours * 3600) * 10 ** 9], column)
                self.assertEqual(read(full, edge_attr='day', unit='D').to_edgelist(),
                                 [('a', 'b', 19724), ('b', 'c', 19725)])
                G = read(frame, edge_attr='when', unit='s', missing='skip')
                self.assertEqual((G.nvals, G.notes.source),
                                 (2, 'values in s since 1970-01-01, 1 of 2 cut down to a whole '
                                  'one; 1 row without a value left out'))
                self.assertIn('row 2: the value is missing',
                              self.said(read, frame, edge_attr='when', unit='s'))
        for code, unit, want in (('D', 'D', 19724), ('h', 's', 1704164400), ('M', 'D', 19723),
                                 ('ns', 'us', SECONDS * 10 ** 6)):
            self.assertEqual(self.value(numpy.datetime64(SECONDS * 10 ** 9,
                                                         'ns').astype('datetime64[%s]' % code),
                                        unit=unit), want, code)
        self.assertIn('astype("datetime64[s]")',
                      self.said(self.s.from_coo, [0], [1], numpy.array(['2024-01-02'], 'M8[s]'),
                                kind=TypeError))


class Shell(command_line.CommandLine):
    def test_words(self):
        self.write('calls.csv', 'from,to,when\na,b,1970-01-02\nb,c,1970-01-03T12:00\n')
        self.assertIn('unit="s" takes times as seconds',
                      self.run_words('sssp', 'calls.csv', '--source', 'a').stderr)
        done = self.run_words('sssp', 'calls.csv', '--source', 'a', '--unit', 'D')
        self.assertEqual(done.stdout, 'a 0\nb 1\nc 3\n')
        self.assertIn('values in D since 1970-01-01, 1 of 2 cut down', done.stderr)
        self.write('german.csv', 'from,to,when\na,b,03.01.1970\n')
        self.assertIn('(flags: --date-format)',
                      self.run_words('sssp', 'german.csv', '--source', 'a', '--unit', 'D').stderr)
        self.assertEqual(self.printed('sssp', 'german.csv', '--source', 'a', '--unit', 'D',
                                      '--date-format', '%d.%m.%Y'), 'a 0\nb 2\n')
        self.assertTrue(os.path.exists(os.path.join(self.folder, 'calls.csv')))
