"""What goes out of a session: files that keep matrices with their names, and tables, lists and CSV
that are read again."""
import csv
import datetime
import io
import json
import os
import pathlib
import signal
import subprocess
import sys
import tempfile
import zipfile
from unittest import mock

import numpy

import support
import spmat
import spmat_blocks as blocks

PACKAGE = os.path.join(support.TOP, 'clients', 'python')
EDGES = [('Ann', 'Bob', 5), ('Bob', 'Dvořák, Emil', -7), ('Dvořák, Emil', 'Ann', 2 ** 62)]
SAVER = """
import os, signal, sys, spmat
s = spmat.Session()
G = s.from_edgelist([('a', 'b', 3), ('b', 'c', 4)])
ranks = G.reduce_rowwise()
s.save(sys.argv[1], G=G, ranks=ranks)
os.kill(os.getpid(), signal.SIGKILL)
"""


class InAFolder(support.InSession):
    def setUp(self):
        self.folder = support.enter(self, tempfile.TemporaryDirectory())
        self.path = os.path.join(self.folder, 'work.spmat')


def kinds(name):
    """The type of a name with what its repr says beside, and those of its parts, whatever order a
    frozenset tells them in."""
    if isinstance(name, (tuple, frozenset)):
        return type(name).__name__, sorted(map(str, map(kinds, name)))
    return type(name).__name__, repr(name)


class Archives(InAFolder):
    def test_all_that_is_known_comes_back(self):
        G = self.s.from_edgelist(EDGES)
        B = self.s.from_edgelist([(1, 'x'), (2, 'y'), (2, 'x')], bipartite=True)
        U = self.s.from_edgelist([(0, 1), (1, 2)], directed=False)
        T = self.s.from_edgelist([((0, 1), (1, 1)), (None, 2.5)], missing=None)
        waiting, empty = G.reduce_rowwise(), self.s.from_triples([], 3, 5)
        R = self.s.read_graph(io.BytesIO(b'from to\n7 8\n8 9\n'))
        many = {'G': G, 'B': B, 'U': U, 'T': T, 'waiting': waiting, 'empty': empty, 'R': R}
        self.s.save(self.path, **many)
        with spmat.Session() as other:
            found = other.load(self.path)
            self.assertEqual(list(found), list(many))
            for name, matrix in many.items():
                again = found[name]
                self.assertEqual((again.to_text(), again.name), (matrix.to_text(), name))
                self.assertEqual(support.known_of(again), support.known_of(matrix), name)
                self.assertEqual(bool(again.notes.row_kind), name == 'B')
                self.assertEqual(again.row_nodes and list(map(type, again.row_nodes)),
                                 matrix.row_nodes and list(map(type, matrix.row_nodes)))
            self.assertEqual(found['G'].reduce_rowwise().by_node()['Bob'], -7)
            self.assertIs(found['G'].notes.rows, found['G'].notes.columns)
        with blocks.Sessions(2) as many_sessions:
            self.assertEqual(many_sessions.load(self.path)['G'].to_edgelist(), G.to_edgelist())

    def test_those_with_a_name(self):
        with spmat.Session() as s:
            self.assertIn('no matrix has a name', support.said(ValueError, s.save, self.path))
            A = s.from_coo([0], [0], 5, 1, 1, name='A')
            B = A.apply('abs', name='of two words')
            A.apply('ainv')                        # has no name
            s.from_coo([0], [0], 5, 1, 1, name='gone')
            s.save(self.path)
            self.assertEqual({name: matrix.to_dict() for name, matrix in s.load(self.path).items()},
                             {'A': {(0, 0): 5}, 'of two words': {(0, 0): 5}})
            del B

    def test_after_a_kill(self):
        done = subprocess.run([sys.executable, '-c', SAVER, self.path],
                              env=dict(os.environ, PYTHONPATH=PACKAGE), check=False, timeout=100)
        self.assertEqual(done.returncode, -signal.SIGKILL)
        found = self.s.load(self.path)
        self.assertEqual((found['G'].to_edgelist(), found['ranks'].by_node()),
                         ([('a', 'b', 3), ('b', 'c', 4)], {'a': 3, 'b': 4}))

    def test_a_failure_leaves_the_old_file(self):
        self.s.save(self.path, A=self.s.full(1, 1))
        odd = self.s.full(1, 1)
        odd.nodes = [1j]
        self.assertIn("the vertex 1j of B can't be saved",
                      support.said(TypeError, self.s.save, self.path, B=odd))
        self.assertIn('B is no matrix, but int',
                      support.said(TypeError, self.s.save, self.path, B=5))
        self.assertEqual(list(self.s.load(self.path)), ['A'])
        self.assertEqual(os.listdir(self.folder), ['work.spmat'])

    def test_what_is_no_such_file(self):
        self.s.save(self.path, A=self.s.full(2, 2))
        whole = pathlib.Path(self.path).read_bytes()
        for text in (b'', b'from,to\n', whole[:-30], whole[:40] + b'\0' * 20 + whole[60:]):
            pathlib.Path(self.path).write_bytes(text)
            self.assertIn('work.spmat: this is no file that save() wrote',
                          support.said(spmat.ReadError, self.s.load, self.path))
        with zipfile.ZipFile(self.path, 'w') as file:
            file.writestr('matrices.json', json.dumps({'spmat': 9}))
        self.assertIn('its version is 9', support.said(spmat.ReadError, self.s.load, self.path))
        self.assertRaises(FileNotFoundError, self.s.load, self.path + 'x')


    def test_dates_as_names(self):
        """Dates, times and frozensets come back as they were, also in tuples."""
        names = [datetime.date(2024, 1, 2), datetime.datetime(2024, 1, 2, 3, 4, 5, 678),
                 datetime.datetime(2024, 1, 2, tzinfo=datetime.timezone.utc), frozenset(),
                 frozenset({'b', 'a', 3}), ('x', datetime.date(2024, 1, 2), frozenset({(1, 2)}))]
        if support.has('pandas'):
            import pandas
            names += [pandas.Timestamp('2024-05-02 03:04:05.678901234'),
                      pandas.Timestamp('2024-07-02', tz='Europe/Berlin'),
                      pandas.Timestamp('2024-07-03', tz='UTC'), numpy.datetime64('2024-09-02'),
                      numpy.datetime64('2024-10-02T03:04:05.678901234')]
        G = self.s.from_edgelist([(name, 'x', 3) for name in names])
        self.s.save(self.path, G=G)
        with blocks.Sessions(2) as many:
            for s in (self.s, many):
                got = s.load(self.path)['G'].nodes
                self.assertEqual((got, list(map(kinds, got))), (G.nodes, list(map(kinds, G.nodes))))
        self.assertIn('this is a file that save() wrote: s.load(path) reads it',
                      support.said(ValueError, self.s.read_graph, self.path))
        if support.has('pandas'):
            with mock.patch.dict(sys.modules, {'pandas': None}):
                self.assertIn('those of pandas, which is not installed',
                              support.said(spmat.ReadError, self.s.load, self.path))

    def test_no_folder(self):
        """The error names the folder, and not the file that is written meanwhile."""
        G, path = self.s.from_edgelist([('a', 'b', 3)]), os.path.join(self.folder, 'none',
                                                                      'w.spmat')
        for write in (lambda: self.s.save(path, G=G), lambda: G.to_csv(path),
                      lambda: G.write_edgelist(path)):
            with self.assertRaises(FileNotFoundError) as said:
                write()
            self.assertEqual(said.exception.filename, os.path.dirname(path))
            self.assertNotIn('.part', str(said.exception))

    def test_zip(self):
        """One file in a zip archive is read, as pandas reads it."""
        path = os.path.join(self.folder, 'g.zip')
        for members in (['g.csv'], ['folder/', 'folder/g.csv', '__MACOSX/folder/._g.csv'],
                        ['a.csv', 'b.csv'], []):
            with zipfile.ZipFile(path, 'w', zipfile.ZIP_DEFLATED) as file:
                for member in members:
                    file.writestr(member, '' if member.endswith('/') else 'from to w\na b 3\n')
            if len(members) in (1, 3):
                self.assertEqual(self.s.read_graph(path).to_edgelist(), [('a', 'b', 3)])
                with blocks.Sessions(2) as many, open(path, 'rb') as file:
                    self.assertEqual(many.read_graph(file).to_edgelist(), [('a', 'b', 3)])
            elif members:
                self.assertIn('a zip archive of several files',
                              support.said(ValueError, self.s.read_graph, path))
        with zipfile.ZipFile(path, 'w') as file:
            file.writestr('g.mtx', support.BANNER + '2 2 1\n1 2 3\n')
        self.assertEqual(self.s.mmread(path).to_triples(), [(0, 1, 3)])
        whole = bytearray(pathlib.Path(path).read_bytes())
        at = whole.index(b'1 2 3')
        whole[at:at + 5] = b'1 2 4'
        self.assertIn('packed by zip, and damaged',
                      support.said(ValueError, self.s.read_graph, io.BytesIO(bytes(whole))))


class Lists(InAFolder):
    def test_csv(self):
        G = self.s.from_edgelist(EDGES)
        text = G.to_csv()
        self.assertEqual(list(csv.reader(io.StringIO(text)))[:2],
                         [['source', 'target', 'weight'], ['Ann', 'Bob', '5']])
        self.assertTrue(self.s.read_graph(io.BytesIO(text.encode()), sep=',').isequal(G))
        path = os.path.join(self.folder, 'g.csv')
        self.assertIsNone(G.to_csv(path, ('who', 'whom', 'km'), sep=';', scale=2))
        with open(path, encoding='utf-8') as file:
            self.assertEqual(file.read().splitlines()[:2], ['who;whom;km', 'Ann;Bob;2.5'])
        self.assertEqual(G.reduce_rowwise().to_csv(header=False),
                         'Ann,5\nBob,-7\n"Dvořák, Emil",%d\n' % 2 ** 62)
        self.assertEqual(G.reduce_columnwise('max').to_csv(fields=('name', 'most')).splitlines()[0],
                         'name,most')
        self.assertEqual(self.s.from_triples([(1, 0, 3)], 2, 2).to_csv(header=False), '1,0,3\n')
        self.assertIn("expected 2 fields, such as ('node', 'value'), got 3",
                      support.said(ValueError, G.reduce_rowwise().to_csv, fields=('a', 'b', 'c')))
        self.assertIn('No such file',
                      support.said(OSError, G.to_csv, os.path.join(self.folder, 'none', 'g.csv')))

    def test_edge_lists(self):
        G = self.s.from_edgelist(EDGES)
        path = os.path.join(self.folder, 'g.txt')
        self.assertIn("the name 'Dvořák, Emil'", support.said(ValueError, G.write_edgelist, path))
        self.assertFalse(os.path.exists(path))
        G.write_edgelist(path, '\t')
        self.assertTrue(self.s.read_graph(path, sep='\t').isequal(G))
        H = self.s.from_edgelist([(1, 2, 5), (2, 3, 6)])
        H.write_edgelist(path, values=False)
        self.assertEqual(pathlib.Path(path).read_text('utf-8'), '1 2\n2 3\n')

    @support.needs('pandas', 'numpy')
    def test_pandas(self):
        G = self.s.from_edgelist(EDGES)
        frame = G.to_pandas_edgelist()
        self.assertEqual(list(frame.itertuples(index=False, name=None)), EDGES)
        self.assertTrue(self.s.from_pandas_edgelist(frame, edge_attr='weight').isequal(G))
        self.assertEqual(list(G.to_pandas_edgelist('a', 'b', None).columns), ['a', 'b'])
        self.assertEqual(G.to_pandas(scale=2)['weight'].tolist()[0], 2.5)
        column = G.reduce_rowwise().to_pandas()
        self.assertEqual((column.to_dict(), column.dtype, column.index.name),
                         (G.reduce_rowwise().by_node(), 'int64', 'node'))
        self.assertEqual(self.s.from_triples([(1, 0, 3)], 2,
                                             2).to_pandas_edgelist().values.tolist(), [[1, 0, 3]])

    @support.needs('pandas', 'pyarrow')
    def test_parquet(self):
        G, path = self.s.from_edgelist(EDGES), os.path.join(self.folder, 'g.parquet')
        G.to_parquet(path)
        self.assertTrue(self.s.read_graph(path).isequal(G))
