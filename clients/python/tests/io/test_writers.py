"""What is written is read back the same, whatever the names of the vertices are: every writer with
every reader, in a session, in blocks, in the shell."""
import contextlib
import decimal
import enum
import io
import os
import random
import tempfile
import unittest
import uuid
import warnings
from unittest import mock

import numpy
import pytest

import command_line
import support
import spmat
import spmat_blocks as blocks
from spmat_blocks import parallel_read

pytestmark = pytest.mark.slow

SPECIAL = ['#1 fan', '#', '%', '%20x', '%%MatrixMarket matrix', 'a,b', 'a;b', 'a|b', 'a\tb', 'a b',
           ' a', 'a ', '\ta', 'a\t', '"', '"a"', 'a"b', '""', "it's", '007', '1e3', '1.5', '-0',
           '+1', 'nan', 'NA', 'NaN', 'null', 'None', '-', '?', '.', 'True', 'inf', 'Ünï', '日本',
           'e\u0301', '\u00a0a', 'a\u00a0', '\ufeffa', 'source', 'target', 'weight', 'from', 'to',
           'u', 'v', 'node1', 'node2', 'node', 'value', 'p', '<html>', '{', '[1', "{'weight': 3}",
           '12345678901234567890', '1_000', '\u2028', '\x0b', '\x1f', 'x' * 300, '\\N', 'PAR1', '_',
           '0x1', '\x7f', 'p sp 3 4', '#,#', "('a', 1)"]
PIECES = list('ab01 ,;|\t"#%\'.-_') + ['é', '\u00a0', 'nan', '//']
REFUSED = ['', 'a\nb', 'a\rb', '\n', 'a\0b', '\ud800']


class Colour(enum.Enum):
    RED = 1


def names_of(chance):
    """Some names of vertices: special ones, numbers, and what random pieces make."""
    kind = chance.randrange(4)
    if kind == 0:
        return chance.sample(range(-50, 10 ** 6), 6)
    found = set(chance.sample(SPECIAL, chance.randrange(1, 6)))
    while len(found) < 6:
        found.add(''.join(chance.choice(PIECES) for _ in range(chance.randrange(1, 5))))
    return sorted(found) if kind < 3 else sorted(found)[:3] + ['x', 'y']


def edges_of(chance, names, values=True):
    """Some edges with values, each once."""
    found = {(chance.choice(names), chance.choice(names)): chance.choice((1, 7, -3, 10 ** 12, 0))
             if values else 1 for _ in range(chance.randrange(1, 9))}
    return [(*ends, value) for ends, value in found.items()]


def same(edges):
    """Edges in an order of their own, with the types of their names."""
    return sorted(((type(u).__name__, u, type(v).__name__, v, w) for u, v, w in edges), key=repr)


def as_text(edges):
    return [(str(u), str(v), w) for u, v, w in edges]


class ReadBack(unittest.TestCase):
    @classmethod
    def setUpClass(cls):
        cls.one, cls.many = spmat.Session(), blocks.Sessions(2)
        cls.addClassCleanup(cls.one.close)
        cls.addClassCleanup(cls.many.close)

    def setUp(self):
        self.folder = support.enter(self, tempfile.TemporaryDirectory())
        self.path = os.path.join(self.folder, 'graph')
        self.asked = self.warned = self.refused = self.equal = 0

    def check(self, edges, write, asks=False, refuses=False, sep=',', **how):
        """Writes the graph of edges into `self.path` and reads it, in a session and in blocks. The
        edges are the same, or the writer refuses the names, or warns that they come back as text,
        as numbers or as missing, or the reader asks whether there is a header."""
        G = self.one.from_edgelist(edges)
        with warnings.catch_warnings(record=True) as said:
            warnings.simplefilter('always')
            try:
                write(G)
            except ValueError as fault:
                self.assertTrue(refuses, (edges, str(fault)))
                self.assertRegex(str(fault), r'to_csv|save\(\) keeps', edges)
                self.refused += 1
                return
        self.warned += len(said)
        words = ' '.join(str(one.message) for one in said)
        more = {'sep': sep, **({'missing': None} if 'missing=None' in words else {})}
        if 'as text' in words or 'nodetype=str' in words:
            edges, more['nodetype'] = as_text(edges), str
        want = same(edges)
        for s in (self.one, self.many):
            try:
                got = s.read_graph(self.path, **more, **how)
            except spmat.ReadError as fault:
                self.assertTrue(asks, (edges, str(fault)))
                self.assertIn('header=False', str(fault))
                self.asked += 1
                got = s.read_graph(self.path, header=False, **more, **how)
            self.assertEqual(same(got.to_edgelist()), want, edges)
            self.equal += 1

    def random(self, number, rounds, write, values=True, **named):
        chance = random.Random(number)
        for _ in range(rounds):
            edges = edges_of(chance, names_of(chance), values)
            self.check(edges, write, **named)
        self.assertGreater(self.equal, rounds // 3)

    def test_csv(self):
        """With its header: never refused, never asked about."""
        for number, sep in enumerate(',;\t|'):
            self.random(number, 25, lambda G: G.to_csv(self.path, sep=sep), sep=sep)
        self.assertEqual((self.refused, self.asked), (0, 0))

    def test_vertices_without_edges(self):
        """A list doesn't name them: it is said how many these are, and what to do."""
        G = self.one.from_edgelist([('a', 'b', 1)], nodelist=['a', 'b', 'c', 'd'])
        rows = self.one.from_coo([0], [1], nrows=2, ncols=2, nodes=(['a', 'b'], ['x', 'y']))
        for write, sep in ((G.to_csv, ','), (G.write_edgelist, ' ')):
            with self.assertWarnsRegex(UserWarning,
                                       "2 vertices have no edge.*nodelist=G.nodes") as said:
                write(self.path)
            self.assertEqual(said.filename, __file__)
            back = self.one.read_graph(self.path, nodelist=G.nodes, sep=sep)
            self.assertTrue(back.isequal(G) and back.nodes == G.nodes)
        with self.assertWarnsRegex(UserWarning, '2 vertices have no edge'):
            rows.to_csv(self.path)
        with self.assertWarnsRegex(UserWarning, '1 vertex has no edge'):
            self.one.from_coo([0], [2], nrows=3, ncols=3).to_csv(self.path)
        with warnings.catch_warnings():
            warnings.simplefilter('error')
            self.one.from_edgelist([('a', 'b', 1)]).to_csv(self.path)
            G.reduce_rowwise('plus').to_csv(self.path)

    def test_csv_read_by_workers(self):
        with mock.patch.object(parallel_read, 'LEAST', 1), \
                mock.patch.object(parallel_read, 'MOST', 60):
            self.random(5, 40, lambda G: G.to_csv(self.path))

    def test_long_csv(self):
        """Of a list that is read in bulk."""
        for number, name in enumerate(SPECIAL):
            edges = ([('w%dx' % k, 'w%dx' % (k + 1), k) for k in range(5000)] if number % 5 == 0
                     else [('w%dx' % k, 'y', k) for k in range(9)])
            self.check([*edges, (name, 'w0x', 5), ('w1x', name, 6)], lambda G: G.to_csv(self.path))

    def test_without_a_header(self):
        for number, sep in enumerate(',\t'):
            self.random(10 + number, 25, lambda G: G.to_csv(self.path, sep=sep, header=False),
                        asks=True, refuses=True, sep=sep)
        self.assertLess(self.refused, 15)

    def test_edge_lists(self):
        for number, sep in enumerate(' ,\t;'):
            self.random(20 + number, 20, lambda G: G.write_edgelist(self.path, sep),
                        asks=True, refuses=True, sep=sep)
        self.assertGreater(self.refused, 10)                  # by blanks

    def test_edge_lists_without_values(self):
        for number, sep in enumerate(' ,'):
            self.random(30 + number, 25,
                        lambda G: G.write_edgelist(self.path, sep, values=False),
                        values=False, asks=True, refuses=True, sep=sep)

    def test_each_special_name(self):
        for name in SPECIAL:
            for edges in ([(name, 'x', 3), ('x', 'y', 4)], [('x', name, 3)],
                          [(name, name, 3), (name, 'x', 2)]):
                self.check(edges, lambda G: G.to_csv(self.path))
                self.check(edges, lambda G: G.write_edgelist(self.path, ','), asks=True,
                           refuses=True)
                self.check(edges, lambda G: G.write_edgelist(self.path), asks=True, refuses=True,
                           sep=' ')

    def test_refused(self):
        """Before anything is written, also of a column."""
        for name in REFUSED:
            G = self.one.from_edgelist([(name, 'x', 3), ('x', 'y', 4)])
            for write in (G.to_csv, G.write_edgelist, lambda path, G=G: G.write_edgelist(path, ','),
                          spmat.algorithms.degrees(G).to_csv):
                with self.assertRaises(ValueError, msg=repr(name)) as said:
                    write(self.path)
                self.assertIn('save() keeps such names', str(said.exception))
                self.assertFalse(os.path.exists(self.path))
        with self.assertRaisesRegex(ValueError,
                                    "'1' and 1 are written alike|1 and '1' are written alike"):
            self.one.from_edgelist([(1, '1', 3)]).to_csv()
        with self.assertRaisesRegex(ValueError, 'a separator is one character'):
            self.one.from_edgelist([('a', 'b', 3)]).to_csv(sep='::')
        with self.assertRaisesRegex(ValueError, 'would be taken for something else'):
            self.one.from_edgelist([('from', 'to', 3),
                                    ('a', 'b', 2)]).write_edgelist(self.path, values=False)

    def test_names_that_come_back_as_others(self):
        for edges, words in (([('1', '2', 3)], "text such as '1', which is read as numbers"),
                             ([(('row', 1), 'b', 3)], "('row', 1)"),
                             ([(1, 'b', 3)], 'read as text'),
                             ([(1.5, 2.5, 3)], '1.5'), ([(True, 5, 3)], 'True'),
                             ([(numpy.int64(1), 'b', 3)], 'save() keeps them'),
                             ([(decimal.Decimal('1.5'), 'b', 3)], 'no file keeps them'),
                             ([(b'a', uuid.UUID(int=5), 3)], 'no file keeps them'),
                             ([(Colour.RED, 'b', 3)], 'no file keeps them'),
                             ([('a', 'b', 1), ('b', 'nan', 2)], 'missing=None')):
            G = self.one.from_edgelist(edges)
            with self.assertWarns(UserWarning) as said:
                text = G.to_csv()
            self.assertIn(words, str(said.warning))
            self.assertEqual(said.filename, __file__)
            self.assertEqual(self.one.read_graph(io.BytesIO(text.encode()), sep=',', missing=None,
                                                 nodetype=str).to_edgelist(), as_text(edges))
            if 'save() keeps' in str(said.warning) or 'no file' in str(said.warning):
                with contextlib.nullcontext() if 'save()' in str(said.warning) else \
                        self.assertRaisesRegex(TypeError, "can't be saved"):
                    self.one.save(self.path, G=G)
        with warnings.catch_warnings():
            warnings.simplefilter('error')
            self.one.from_edgelist([('a', '1', 3)]).to_csv()
            self.one.from_edgelist([(1, 2, 3)]).to_csv()
            self.one.from_edgelist([(numpy.int32(1), numpy.int32(2), 3)]).to_csv()
            self.one.from_triples([(0, 1, 3)], 2, 2).to_csv()

    def test_types_of_names(self):
        text = b'1 2 3\n2 3 4\n'
        for s in (self.one, self.many):
            self.assertEqual(s.read_graph(io.BytesIO(text), nodetype=str).nodes, ['1', '2', '3'])
            self.assertEqual(s.read_graph(io.BytesIO(text), nodetype=int).nodes, [1, 2, 3])
            with self.assertRaisesRegex(spmat.ReadError,
                                        'line 2: a name is no whole number, and nodetype=int'):
                s.read_edgelist(io.BytesIO(b'1 2\n3 x\n'), nodetype=int)
            with self.assertRaisesRegex(ValueError, 'nodetype is str or int'):
                s.read_edgelist(io.BytesIO(b'1 2\n'), nodetype=float)

    def test_one_vertex(self):
        """A graph of one vertex is no column, and neither is one of two kinds with one vertex of a
        kind."""
        for s in (self.one, self.many):
            G = s.from_edgelist([('a', 'a', 3)])
            self.assertEqual(G.to_csv(), 'source,target,weight\na,a,3\n')
            self.assertEqual(spmat.algorithms.degrees(G).to_csv(), 'node,value\na,1\n')
            self.assertEqual(s.from_edgelist([(0, 0, 5)]).to_csv(), 'source,target,weight\n0,0,5\n')
            B = s.from_edgelist([('a', 'x', 3), ('b', 'x', 4)], bipartite=True)
            self.assertEqual(B.to_csv(), 'source,target,weight\na,x,3\nb,x,4\n')
            self.assertEqual(B.reduce_rowwise().to_csv(), 'node,value\na,3\nb,4\n')
            self.assertEqual(G.select('offdiag').to_csv(), 'source,target,weight\n')
        text = spmat.algorithms.degrees(self.one.from_edgelist([('a', 'b', 3)])).to_csv()
        with self.assertRaisesRegex(spmat.ReadError, "columns=\\('node', 'value'\\)"):
            self.one.read_graph(io.BytesIO(text.encode()), sep=',')

    @support.needs('pandas', 'numpy')
    def test_pandas(self):
        chance = random.Random(40)
        for _ in range(60):
            edges = edges_of(chance, names_of(chance) if chance.random() < .8
                             else [(1, 'a'), 2, 'b', 2.5, 'nan'])
            for s in (self.one, self.many):
                G = s.from_edgelist(edges)
                self.assertEqual(same(s.from_pandas_edgelist(G.to_pandas_edgelist(),
                                                             edge_attr='weight').to_edgelist()),
                                 same(edges))
        self.assertEqual(list(self.one.from_edgelist([('a', 'a', 3)]).to_pandas().columns),
                         ['source', 'target', 'weight'])

    @support.needs('pandas', 'pyarrow')
    def test_parquet(self):
        self.random(41, 40, lambda G: G.to_parquet(self.path), refuses=True)

    def test_saved(self):
        chance = random.Random(42)
        for _ in range(30):
            edges = edges_of(chance, names_of(chance) + REFUSED[:5] + [(1, 'a'), None is None, 2.5])
            for s in (self.one, self.many):
                s.save(self.path, G=s.from_edgelist(edges))
                self.assertEqual(same(s.load(self.path)['G'].to_edgelist()), same(edges))


class Shell(command_line.CommandLine):
    """`--csv` of a graph is read again, by the shell and in Python."""

    def test_names(self):
        chance = random.Random(50)
        with spmat.Session() as s:
            for _ in range(12):
                names = [name for name in names_of(chance) if isinstance(name, int)
                         or name.isprintable()]
                edges = [(u, v, 1) for u in names[:3] for v in names[:3] if u != v]
                if not edges:
                    continue
                with warnings.catch_warnings():
                    warnings.simplefilter('ignore')
                    s.from_edgelist(edges).to_csv(os.path.join(self.folder, 'g.csv'))
                self.write('h.csv', self.printed('k-truss', 'g.csv', '--k', '2', '--csv', '--missing',
                                                'keep'))
                got = s.read_graph(os.path.join(self.folder, 'h.csv'), missing=None).to_edgelist()
                self.assertEqual(same(got),
                                 same(s.read_graph(os.path.join(self.folder, 'g.csv'),
                                                   values=False, missing=None).to_edgelist()),
                                 edges)
                self.assertEqual(same(as_text(got)), same(as_text(edges)))
