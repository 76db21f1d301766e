"""Lists of edges that workers read: the matrix of one session, its names, its refusals; folders of
files, and frames of Dask."""
import gzip
import os
import pathlib
import random
import re
import tempfile
import unittest
from unittest import mock

import pytest

import alike
import support
import spmat
import spmat_blocks as blocks
from spmat_blocks import parallel_read

pytestmark = pytest.mark.slow

NAMES = {'0 to n - 1': lambda k: k, 'some numbers': lambda k: 7 * k - 30,
         'words': lambda k: 'v%d é' % (k * 37 % 101),
         'long words': lambda k: 'x' * (k % 23) + '_%d' % k}


def a_list(chance, name, delimiter=',', header='source,target,weight', values=True, repeats=False,
           loops=True):
    """The text of a list of random edges."""
    n = chance.randrange(3, 40)
    edges = [(k, (k + 1) % n) for k in range(n)] + [(chance.randrange(n), chance.randrange(n))
                                                    for _ in range(3 * n)]
    edges = [edge for edge in edges if loops or edge[0] != edge[1]]
    if not repeats:
        edges = list({(min(edge), max(edge)): edge for edge in edges}.values())
    chance.shuffle(edges)
    lines = [header.replace(',', delimiter)] if header else []
    lines += [delimiter.join([str(name(i)), str(name(j))]
                             + ([str(chance.randrange(-9, 99))] if values else []))
              for i, j in edges]
    return ('\n'.join(lines) + '\n').encode()


class Lists(unittest.TestCase):
    def setUp(self):
        self.folder = support.enter(self, tempfile.TemporaryDirectory())
        self.path = os.path.join(self.folder, 'graph.csv')
        read, self.by_workers = parallel_read.read_list, []

        def noted(*args):
            made = read(*args)
            self.by_workers.append(made is not None)
            return made
        for module, name, value in ((parallel_read, 'LEAST', 1), (parallel_read, 'MOST', 120),
                                    (parallel_read, 'read_list', noted)):
            support.enter(self, mock.patch.object(module, name, value))
        self.one = support.enter(self, spmat.Session())

    def write(self, text, name='graph.csv'):
        path = os.path.join(self.folder, name)
        os.makedirs(os.path.dirname(path), exist_ok=True)
        pathlib.Path(path).write_bytes(text)

    def same(self, sessions, **options):
        """What blocks read is what one session reads, also what is known of it beside its
        entries."""
        want = self.one.read_graph(self.path, **options)
        got = sessions.read_graph(self.path, **options)
        self.assertEqual(alike.plain(got), alike.plain(want))
        # which blocks don't count
        self.assertEqual(got.notes.source, re.sub('; [0-9]+ edges? given again, counted once', '',
                                                  want.notes.source))
        self.assertEqual(got.notes.columns is got.notes.rows, want.notes.columns is want.notes.rows)

    def test_as_one_session_reads_them(self):
        chance = random.Random(8)
        with blocks.Sessions(2, blocks=3) as several, blocks.Sessions(3) as many:
            for number, (kind, name) in enumerate(NAMES.items()):
                for options in ({}, {'directed': False}, {'bipartite': True}, {'values': False},
                                {'dup_op': 'minus'}, {'dup_op': 'plus', 'directed': False}):
                    repeats = 'dup_op' in options or options.get('values') is False
                    options = {'sep': ',;\t,'[number], **options}
                    self.write(a_list(chance, name, options['sep'],
                                      values=options.get('values', True), repeats=repeats,
                                      header='source,target,weight' if options.get('values', True)
                                      else 'source,target'))
                    for sessions in (several, many):
                        with self.subTest(names=kind, options=options, sessions=sessions):
                            self.same(sessions, **options)
        self.assertEqual(self.by_workers, [True] * 2 * 6 * len(NAMES))

    def test_blanks_without_a_header(self):
        with blocks.Sessions(2) as s:
            self.write(a_list(random.Random(1), NAMES['some numbers'], ' ', '', False, True),
                       'graph.csv')
            self.same(s, sep=' ')
            self.same(s, sep=' ', directed=False)
        self.assertEqual(self.by_workers, [True, True])

    def test_numbers_of_64_bits_and_more(self):
        """As names are in ascending order, whatever parts they stand in, and text beside text."""
        for name in (lambda k: (1 << 63) - 1 - k * k, lambda k: k * k - (1 << 63),
                     lambda k: 5 ** (k + 9), lambda k: 5 ** (k + 9) if k else 'Ann'):
            text = a_list(random.Random(3), name)
            self.write(text)
            lines = text.splitlines(keepends=True)
            for number in range(2):
                self.write(lines[0] + b''.join(lines[1 + number::2]), 'parts/%d.csv' % number)
            want = self.one.read_graph(self.path)
            with blocks.Sessions(3) as s:
                self.same(s)
                self.same(s, bipartite=True)
                if name(0) != 'Ann':
                    got = s.read_graph(os.path.join(self.folder, 'parts'))
                    self.assertEqual((got.nodes, got.to_edgelist()),
                                     (want.nodes, want.to_edgelist()))

    def test_what_is_unusual_or_wrong(self):
        """Is read by the caller's process, which names the line as one session does."""
        good = a_list(random.Random(2), NAMES['some numbers'])
        texts = {'a value that repeats': good + good.splitlines()[1] + b'\n',
                 'a value that is none': good + b'3,4,x\n', 'fields': good + b'3,4\n',
                 'a fraction': good + b'3,4000,1.5\n', 'words among numbers': good + b'Ann,Bob,3\n',
                 'a quoted end of line': good + b'"3\n4",5,6\n', 'no name': good + b',4,5\n'}
        with blocks.Sessions(2) as s:
            for name, text in texts.items():
                self.write(text)
                with self.subTest(name=name):
                    self.assertEqual(alike.outcome(lambda: s.read_graph(self.path)),
                                     alike.outcome(lambda: self.one.read_graph(self.path)))
            self.assertNotIn(True, self.by_workers)
            self.write(good.replace(b',', b', '))
            self.same(s)
            self.same(s, nodelist=[-30, -23, 99], values=False, dup_op=None)
            self.same(s, scale=2)
        self.assertEqual(self.by_workers[len(texts):], [True, False, False])

    def test_repeated_edges_with_values_below_zero(self):
        """Of long parts, whose lines have signs: they are folded, and refused, as one session has
        it."""
        chance = random.Random(6)
        with mock.patch.object(parallel_read, 'MOST', 1 << 15), blocks.Sessions(2) as s:
            for kind, least, most in (('0 to n - 1', -9, 9), ('words', -9, 99999),
                                      ('some numbers', -10 ** 17, 10 ** 17)):
                edges = {(chance.randrange(900), chance.randrange(900)): chance.randint(least, most)
                         for _ in range(2500)}
                lines = ['%s,%s,%d' % (NAMES[kind](i), NAMES[kind](j), value)
                         for (i, j), value in edges.items()]
                self.write('\n'.join(['source,target,weight', *lines, *chance.sample(lines, 7),
                                      '']).encode())
                with self.subTest(least=least, names=kind):
                    for options in ({'dup_op': 'max'}, {'dup_op': 'minus', 'directed': False},
                                    {'dup_op': 'second', 'bipartite': True}):
                        self.same(s, **options)
                    self.assertEqual(alike.outcome(lambda: s.read_graph(self.path)),
                                     alike.outcome(lambda: self.one.read_graph(self.path)))
            self.same(s, dup_op='max', scale=1)
        self.assertEqual(self.by_workers, 3 * [True, True, True, False] + [False])

    def test_matrix_market_by_read_graph(self):
        text = self.one.identity(30).to_text()
        self.write(text)
        with blocks.Sessions(2) as s, mock.patch('spmat_blocks.importers.chunked_input.spool_file',
                                                 side_effect=AssertionError):
            self.assertEqual(s.read_graph(self.path).to_text(), text)
            for words in ({'columns': (0, 1)}, {'nodelist': [0, 1]}, {'unit': 's'}):
                with self.assertRaisesRegex(spmat.ReadError, 'is for a list of edges'):
                    s.read_graph(self.path, **words)

    def test_progress(self):
        self.write(a_list(random.Random(3), NAMES['words']))
        told = []
        with blocks.Sessions(2, progress=lambda *now: told.append(now)) as s:
            s.read_graph(self.path)
        self.assertEqual([now for now in told if now[0] == 'read'][-1],
                         ('read', os.path.getsize(self.path), os.path.getsize(self.path)))

    def test_a_folder(self):
        """Of lists, also packed ones; what their names begin with tells those that are none."""
        text = a_list(random.Random(4), NAMES['words'])
        lines = text.splitlines(keepends=True)
        self.write(text, '_all.csv')
        head, rest = lines[0], lines[1:]
        for number in range(3):
            part = head + b''.join(rest[number * len(rest) // 3:(number + 1) * len(rest) // 3])
            self.write(gzip.compress(part) if number == 1 else part, 'part-%d.csv' % number)
        self.write(b'{}', '.crc')
        want = self.one.read_graph(os.path.join(self.folder, '_all.csv'))
        with blocks.Sessions(2) as s:
            self.assertEqual(alike.plain(s.read_edgelist(self.folder)), alike.plain(want))
            self.assertEqual(alike.plain(s.read_graph(self.folder, directed=False)),
                             alike.plain(self.one.read_graph(os.path.join(self.folder, '_all.csv'),
                                                             directed=False)))
            self.write(head + b'v1,v2,x\n', 'part-3.csv')
            with self.assertRaisesRegex(spmat.ReadError,
                                        r"part-3.csv, line 2: expected a number as the value, got 'x'"):
                s.read_graph(self.folder)
            self.write(head + rest[0], 'part-3.csv')
            with self.assertRaisesRegex(spmat.ReadError,
                                        'the edge between .* is given twice; dup_op='):
                s.read_graph(self.folder)
            self.assertEqual(s.read_graph(self.folder, dup_op='first').nvals, want.nvals)
            self.write(b'', 'part-0.csv')
            self.assertEqual(s.read_graph(self.folder, dup_op='first').nvals,
                             want.nvals - len(rest) // 3 + 1)
            with self.assertRaisesRegex(ValueError, 'nodelist is of a single file'):
                s.read_edgelist(self.folder, nodelist=['v1'])
            with tempfile.TemporaryDirectory() as empty, \
                    self.assertRaisesRegex(spmat.ReadError, 'a folder without a file'):
                s.read_graph(empty)

    def test_sums_beyond_64_bits(self):
        """Values with a unit whose sum would wrap are refused as one session refuses them, by
        whatever worker reads them."""
        half = 'a,b,46000000000000000\nb,c,1\n'
        for number in range(2):
            self.write(('from,to,w\n' + half).encode(), 'part-%d.csv' % number)
        whole = os.path.join(self.folder, '_all.csv')
        self.write(('from,to,w\n' + half + half).encode(), '_all.csv')
        with blocks.Sessions(2) as s:
            for session, path in ((self.one, whole), (s, self.folder)):
                with self.assertRaisesRegex(ValueError, 'row 0, column 1 make a number beyond 64 '
                                            'bits'):
                    session.read_graph(path, scale=110, dup_op='plus')
                self.assertEqual(session.read_graph(path, scale=100, dup_op='plus').to_edgelist(),
                                 [('a', 'b', 92000000000000000), ('b', 'c', 2)])

    @support.needs('pandas', 'pyarrow')
    def test_a_folder_of_parquet(self):
        import pandas
        for number in range(2):
            pandas.DataFrame({'source': [number, 5], 'target': [7, 9 + number],
                              'weight': [1, 2]}).to_parquet(
                                  os.path.join(self.folder, '%d.parquet' % number))
        with blocks.Sessions(2) as s:
            self.assertEqual(sorted(s.read_graph(self.folder).to_edgelist()),
                             [(0, 7, 1), (1, 7, 1), (5, 9, 2), (5, 10, 2)])


class Delayed:
    """A partition of a frame, as `dask.delayed` has it."""

    def __init__(self, frame):
        self.frame = frame

    def compute(self):
        return self.frame


class Parted:
    """A frame in partitions, as `dask.dataframe` has it."""

    def __init__(self, frame, many):
        self.columns, size = frame.columns, -(-len(frame) // many)
        self.parts = [Delayed(frame.iloc[at:at + size]) for at in range(0, len(frame), size)]

    def to_delayed(self):
        return self.parts


@support.needs('pandas', 'numpy')
class Frames(unittest.TestCase):
    def frame(self, name):
        import pandas
        chance = random.Random(5)
        edges = {(chance.randrange(20), chance.randrange(20)): chance.randrange(-5, 9)
                 for _ in range(60)}
        return pandas.DataFrame({'from': [name(i) for i, _ in edges],
                                 'to': [name(j) for _, j in edges], 'km': list(edges.values())})

    def test_partitions(self):
        with spmat.Session() as one, blocks.Sessions(2, blocks=3) as s:
            for kind, name in NAMES.items():
                frame = self.frame(name)
                for attribute, options in ((None, {}), ('km', {}), ('km', {'bipartite': True}),
                                           ('km', {'dup_op': 'max', 'directed': False}),
                                           (None, {'directed': False})):
                    want = one.from_pandas_edgelist(frame, 'from', 'to', attribute, **options)
                    got = s.from_dask_dataframe(Parted(frame, 4), 'from', 'to', attribute,
                                                **options)
                    with self.subTest(names=kind, attribute=attribute, options=options):
                        self.assertEqual(alike.plain(got), alike.plain(want))

    def test_refusals(self):
        import pandas
        frame = self.frame(NAMES['words'])
        with blocks.Sessions(2) as s:
            with self.assertRaisesRegex(KeyError, "no column 'nosuch'"):
                s.from_dask_dataframe(Parted(frame, 2), 'nosuch', 'to')
            with self.assertRaisesRegex(spmat.ReadError,
                                        "the edge between '.*' and '.*' is given twice; dup_op="):
                s.from_dask_dataframe(Parted(pandas.concat([frame, frame]), 3), 'from', 'to', 'km')
            mixed = pandas.concat([frame,
                                   pandas.DataFrame({'from': [1], 'to': [2], 'km': [3]},
                                                    index=[999])])
            parts = Parted(frame, 1)
            parts.parts.append(Delayed(mixed.iloc[-1:].astype({'from': int, 'to': int})))
            with self.assertRaisesRegex(ValueError, 'convert the columns to one type'):
                s.from_dask_dataframe(parts, 'from', 'to')
            with self.assertRaisesRegex(ValueError, 'bipartite'):
                s.from_dask_dataframe(Parted(frame, 2), 'from', 'to', bipartite=True,
                                      directed=False)

    @support.needs('dask.dataframe')
    def test_a_frame_of_dask(self):
        import dask.dataframe
        frame = self.frame(NAMES['words'])
        with spmat.Session() as one, blocks.Sessions(2) as s:
            want = one.from_pandas_edgelist(frame, 'from', 'to', 'km')
            self.assertEqual(alike.plain(s.from_dask_dataframe(
                dask.dataframe.from_pandas(frame, npartitions=3, sort=False), 'from', 'to', 'km')),
                             alike.plain(want))
