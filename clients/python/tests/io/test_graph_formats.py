"""Files of each format: DIMACS, Matrix Market and packed ones, and what other packages write
(GraphML, GEXF, GML, lists of networkx, parquet); what is said where the package isn't there."""
import bz2
import gzip
import io
import os
import pathlib
import random
import sys
import tempfile
from unittest import mock

import support
import spmat
import spmat_blocks as blocks
from spmat.io import formats
from spmat.io.edges import Layout

DATA = os.path.join(os.path.dirname(os.path.dirname(os.path.abspath(__file__))), 'data')

GML = (b'graph [\n  node [ id 3 label "x y" ]\n  node [ id 5 label "z" ]\n  node [ id 9 label '
       b'"alone" ]\n  edge [ source 3 target 5 value 4 ]\n]\n')


def data(name):
    return os.path.join(DATA, name)


class Case(support.InSession):
    def read(self, text, **how):
        return self.s.read_graph(io.BytesIO(text), **how)

    def said(self, text, kind=spmat.ReadError, **how):
        return support.said(kind, self.read, text, **how)


@support.needs('networkx')
class ByNetworkx(Case):
    def written(self, how, graph):
        import networkx
        text = io.BytesIO()
        getattr(networkx, 'write_' + how)(graph, text)
        return text.getvalue()

    def test_what_networkx_writes(self):
        import networkx
        for kind in (networkx.Graph, networkx.DiGraph):
            graph = kind()
            graph.add_weighted_edges_from([('a', 'b', 3), ('b', 'c', 4), ('d', 'a', -2)])
            graph.add_node('alone')
            for how in ('graphml', 'gexf', 'gml'):
                G = self.read(self.written(how, graph))
                want = self.s.from_networkx(graph)
                self.assertEqual((G.nodes, sorted(G.to_edgelist()), G.directed),
                                 (want.nodes, sorted(want.to_edgelist()), graph.is_directed()), how)
                self.assertIn('by networkx; values=weight', G.notes.source)
                self.assertEqual(set(self.read(self.written(how, graph),
                                               values=False).to_coo(arrays=False)[2]), {1})

    def test_weights(self):
        import networkx
        graph = networkx.Graph([('a', 'b', {'weight': .25}), ('b', 'c', {'weight': 1.5})])
        for how in ('graphml', 'gexf', 'gml'):
            text = self.written(how, graph)
            self.assertEqual(sorted(set(self.read(text, scale=4).to_coo(arrays=False)[2])), [1, 6])
            self.assertIn('values times 4, all whole then', self.read(text, scale=4).notes.source)
            self.assertIn('0.25', self.said(text, kind=ValueError))

    def test_gml(self):
        G = self.read(GML)
        self.assertEqual((G.nodes, G.to_edgelist()),
                         (['x y', 'z', 'alone'], [('x y', 'z', 4), ('z', 'x y', 4)]))
        self.assertEqual(self.read(GML.replace(b'label', b'name')).nodes, [3, 5, 9])
        self.assertIn('no GML that networkx reads', self.said(GML[:-3]))
        self.assertIn('no GraphML that networkx reads',
                      self.said(b'<?xml version="1.0"?>\n<graphml><graph>\n'))
        self.assertIn('one kind of vertices', self.said(GML, ValueError, bipartite=True))
        self.assertIn('no file of the format gml', self.said(b'a b\n', format='gml'))

    def test_without_networkx(self):
        with mock.patch.dict(sys.modules, networkx=None):
            self.assertIn('GML needs networkx (extra networkx): pip install networkx',
                          self.said(GML))

    def test_lists(self):
        import networkx
        for graph, edges in ((networkx.DiGraph([(1, 2, {'weight': 3}),
                                                (2, 3, {'weight': 4, 'color': 'red'})]),
                              [(1, 2, 3), (2, 3, 4)]),
                             (networkx.DiGraph([('a', 'b', {}), ('b', 'c', {})]),
                              [('a', 'b', 1), ('b', 'c', 1)])):
            for delimiter in (' ', ',', '\t'):
                text = io.BytesIO()
                networkx.write_edgelist(graph, text, delimiter=delimiter)
                G = self.read(text.getvalue())
                self.assertEqual(G.to_edgelist(), edges)
                self.assertIn("networkx' edge list", G.notes.source)

    def test_times(self):
        import networkx
        graph = networkx.Graph([('a', 'b', {'weight': '2024-05-31'}),
                                ('b', 'c', {'weight': '2024-06-01T12:00'})])
        for text in (*(self.written(how, graph) for how in ('graphml', 'gml')),
                     b"a b {'weight': '2024-05-31'}\nb c {'weight': '2024-06-01T12:00'}\n"):
            self.assertIn('unit="s"', self.said(text))
            G = self.read(text, unit='D')
            self.assertEqual((set(G.to_coo(arrays=False)[2]), str(G.unit)), ({19874, 19875}, 'D'))
            self.assertIn('values in D since 1970-01-01, 1 of 2 cut down', G.notes.source)


class Files(Case):
    def test_dimacs(self):
        G = self.s.read_graph(data('roads.gr'))
        self.assertEqual((G.nodes, G.directed), ([1, 2, 3, 4, 5], True))
        self.assertEqual(G.to_edgelist(), [(1, 2, 7), (1, 3, 2), (2, 4, 1), (3, 2, 3), (3, 4, 8),
                                           (4, 5, 4)])
        H = self.s.read_graph(data('houses.col'))
        self.assertEqual((H.nvals, H.directed, H.nodes), (14, False, [1, 2, 3, 4, 5, 6]))
        self.assertEqual(spmat.algorithms.triangle_count(H), 2)
        self.assertEqual(self.s.read_graph(data('roads.gr'), directed=False).nvals, 12)
        self.assertEqual(self.read(b'p max 3 2\nn 1 s\nn 3 t\na 1 2 5\na 2 3 .5\n', scale=2).to_edgelist(),
                         [(1, 2, 5), (2, 3, 0.5)])

    def test_faults_of_dimacs(self):
        for text, at, words in (
            (b'p sp 2 1\na 1 3 5\n', 2, 'a vertex is 1 to 2, not 3'),
            (b'p sp 2 1\na 01 2 5\n', 2, 'a vertex is 1 to 2, not 01'),
            (b'p sp 2 1\na 1 2-1 5\n', 2, 'a vertex is 1 to 2, not 2-1'),
            (b'p sp 2 1\na 1 2\n', 2, 'an edge of this kind is `a FROM TO VALUE`'),
            (b'p sp 2 1\nc x\na 1 2 3 4\n', 3, 'an edge of this kind is `a FROM TO VALUE`'),
            (b'p sp 2 1\nb 1 2 3\n', 2, 'an edge of this kind is `a FROM TO VALUE`'),
            (b'p sp 2 1\na 1 2 x\n', 2, "expected a number as the value, got 'x'"),
            (b'c\np sp 2 3\na 1 2 7\n', 2, '1 edges stand there, and this line says 3'),
            (b'c\np edge 2 1\na 1 2\n', 3, 'an edge of this kind is `e FROM TO`'),
            (b'c\np sp 2 1\n\na 1 2 .5\n', 4, 'scale='), (b'c\nq\n', 2, 'no graph of DIMACS'),
            (b'p sp 2\n', 1, 'a line `p` says the kind')):
            with self.assertRaises(spmat.ReadError, msg=text) as said:
                self.read(text, format='dimacs')
            self.assertEqual(said.exception.at, at, text)
            self.assertIn(words, str(said.exception))

    def test_known_edges_of_dimacs(self):
        chance = random.Random(12)
        for number in range(200):
            kind, n = ('sp', 'edge')[number % 2], chance.randrange(2, 9)
            edges = {(chance.randrange(1, n + 1), chance.randrange(1, n + 1)):
                     chance.choice((3, -4, 2 ** 60)) for _ in range(chance.randrange(5))}
            lines = [('a %d %d %d' % (*ends, value) if kind == 'sp' else 'e %d %d' % ends)
                     for ends, value in edges.items()]
            for _ in range(chance.randrange(3)):
                lines.insert(chance.randrange(len(lines) + 1),
                             chance.choice(('c x', '', 'n 1 s', 'c', 'c\tone')))
            text = '\n'.join(['c', 'p %s %d %d' % (kind, n, len(edges)), *lines])
            read = formats.read_dimacs('f', text.encode(), Layout())
            self.assertEqual(list(zip(read.sources.tolist(), read.targets.tolist())), list(edges))
            self.assertEqual(None if read.values is None else read.values.tolist(),
                             list(edges.values()) if kind == 'sp' else None)
            self.assertEqual((len(read.nodes), read.directed), (n, kind == 'sp'))

    def test_real_values(self):
        path = data('weights.mtx')
        said = support.said(spmat.TextRefused, self.s.mmread, path)
        self.assertIn("0.5 is a number that is not whole: scale=1000 takes thousandths", said)
        self.assertIn("line 4 of %s: '2 1 0.5'" % path, said)
        self.assertEqual(self.s.mmread(path, scale=10).to_dict()[0, 1], 5)
        G = self.s.mmread(path, values=False)
        self.assertEqual((set(G.to_dict().values()), G.nvals, G.directed), ({1}, 6, False))
        # 1.5, to the even one
        self.assertEqual(self.s.mmread(path, scale=1).to_dict()[2, 0], 2)
        for text in ('coordinate complex hermitian\n2 2 1\n2 1 1 -1\n',
                     'coordinate complex general\n2 2 1\n2 1 nan 0\n',
                     'coordinate real skew-symmetric\n2 2 1\n2 1 x\n'):
            G = self.read(b'%%MatrixMarket matrix ' + text.encode(), values=False)
            self.assertEqual(G.to_dict(), {(1, 0): 1} if 'general' in text
                             else {(0, 1): 1, (1, 0): 1})
        self.assertIn('values=False',
                      self.said(b'%%MatrixMarket matrix coordinate complex general\n2 2 1\n'
                                b'2 1 1 0\n', ValueError))

    def test_paths(self):
        text = pathlib.Path(data('people.csv')).read_bytes()
        want = self.read(text, sep=',')
        with tempfile.TemporaryDirectory() as folder:
            for ending, opener in (('.gz', gzip.open), ('.bz2', bz2.open)):
                path = os.path.join(folder, 'people.csv' + ending)
                with opener(path, 'wb') as file:
                    file.write(text)
                self.assertTrue(self.s.read_graph(path).isequal(want))
        self.assertTrue(self.read(b'\xef\xbb\xbf' + text.replace(b'\n', b'\r\n'), sep=',').isequal(want))

    def test_asked_for(self):
        for text, format, edges in ((b'1 2\n', 'edges', [(1, 2, 1)]),
                                    (b'a b\tc\t1\n', 'tsv', [('a b', 'c', 1)]),
                                    (b'a,b c,1\n', 'csv', [('a', 'b c', 1)])):
            self.assertEqual(self.read(text, format=format).to_edgelist(), edges)
        for text, format, words in ((b'1 2\n', 'xls', 'a format is mtx, edges'),
                                    (b'1 2\n', 'mtx', 'this is no Matrix Market file'),
                                    (support.BANNER.encode() + b'1 1 0\n', 'csv',
                                     'this is a Matrix Market file'),
                                    (b'1 2\n', 'dimacs', 'no graph of DIMACS')):
            self.assertIn(words, self.said(text, ValueError, format=format))
        self.assertIn('this is no Matrix Market file',
                      support.said(ValueError, self.s.mmread, io.BytesIO(b'source,target\n')))

    def test_in_blocks(self):
        with blocks.Sessions(2) as many:
            for name, how in (('people.csv', {}), ('roads.gr', {}), ('houses.col', {}),
                              ('weights.mtx', {'scale': 2}),
                              ('clubs.csv', {'sep': ';', 'header': True, 'bipartite': True}),
                              ('people.csv', {'directed': False})):
                one, other = self.s.read_graph(data(name),
                                               **how), many.read_graph(data(name), **how)
                self.assertEqual((other.to_text(), other.notes[:3]), (one.to_text(), one.notes[:3]))
            self.assertEqual(many.from_edgelist([(0, 1), (0, 1)], dup_op='plus').to_dict(),
                             {(0, 1): 2})
            self.assertIn('line 4 of', support.said(ValueError, many.mmread, data('weights.mtx')))
            self.assertIn('M5', support.said(ValueError, many.read_graph, data('weights.mtx'), dup_op='plus'))


class Lists(Case):
    def test_dictionaries(self):
        self.assertEqual(self.read(b"# c\n1 2 {'weight': 0.5}\n", scale=2).to_edgelist(),
                         [(1, 2, 0.5)])
        self.assertEqual(self.read(b"1 2 {'weight': 5}\n2 3 {}\n").to_edgelist(),
                         [(1, 2, 5), (2, 3, 1)])
        self.assertEqual(self.read(b"1 2 {'weight': 5}\n", values=False).to_edgelist(), [(1, 2, 1)])
        self.assertIn('line 2: an edge is written as networkx writes it',
                      self.said(b"1 2 {'weight': 3}\n2 3\n"))
        self.assertIn('line 1: an edge is written', self.said(b"1 2 {'weight': print(3)}\n"))
        self.assertIn('0.5', self.said(b"1 2 {'weight': 0.5}\n", ValueError))


    def test_edges_without_a_value(self):
        """They count as 1, which the matrix tells, but 1 is no time."""
        said = '1 of 2 edges have no value and count as 1'
        text = b"1 2 {'weight': 5}\n2 3 {}\n"
        for G in (self.read(text), self.s.from_edgelist([(1, 2, 5), (2, 3)]),
                  self.s.from_edgelist([(1, 2, {'weight': 5}), (2, 3, {})])):
            self.assertEqual(G.to_edgelist(), [(1, 2, 5), (2, 3, 1)])
            self.assertTrue(G.notes.source.endswith(said))
        self.assertIn('line 2: the attribute \'weight\': it has no time',
                      self.said(text, unit='s'))
        with self.assertRaisesRegex(ValueError, 'edge 1: it has no time'):
            self.s.from_edgelist([(1, 2, 5), (2, 3)], unit='s')

    def test_phases(self):
        """Progress says which phase it is."""
        seen = []
        with spmat.Session(progress=lambda *told: seen.append(told)) as s:
            s.read_graph(io.BytesIO(b'1 2\n2 3\n'))
        self.assertEqual(seen[:4], [('reading', 0, 8), ('reading', 8, 8), ('names', 0, 2),
                                    ('names', 2, 2)])


class Parquet(Case):
    # what an engine would read: pandas is told what it gives
    TEXT = b'PAR1....'

    @support.needs('pandas')
    def test_columns_are_found(self):
        import pandas
        frame = pandas.DataFrame({'id': [1, 2], 'from': ['a', 'b'], 'to': ['b', 'c'],
                                  'weight': [5, 7]})
        with mock.patch.object(pandas, 'read_parquet', lambda file: frame):
            G = self.read(self.TEXT)
            self.assertEqual((G.to_edgelist(), G.notes.source),
                             ([('a', 'b', 5), ('b', 'c', 7)],
                              'the text: parquet; source=from, target=to, values=weight'))
            self.assertEqual(self.read(self.TEXT, columns=('to', 'from')).to_edgelist(),
                             [('b', 'a', 1), ('c', 'b', 1)])
        odd = pandas.DataFrame({'p': ['a'], 'q': ['b'], 'r': ['c']})
        with mock.patch.object(pandas, 'read_parquet', lambda file: odd):
            self.assertIn("columns=('p', 'q')", self.said(self.TEXT))

    def test_without_an_engine(self):
        with mock.patch.dict(sys.modules, pandas=None):
            self.assertIn('parquet needs pandas (extra files): pip install pandas',
                          self.said(self.TEXT))
