"""What a caller says of a file and its format has no meaning for: it is refused, or honoured, and
never passed over."""
import inspect
import io
import os
import pathlib
import tempfile
from unittest import mock

import spmat
import spmat_blocks as blocks
from spmat.io.edges import Layout
from spmat.io.files import Loaded
from spmat.io.formats import FORMATS
from support import InSession, has, needs

MARKET = '%%%%MatrixMarket matrix coordinate integer %s\n%d %d 1\n2 1 5\n'
GRAPHML = (b'<graphml xmlns="http://graphml.graphdrawing.org/xmlns"><key id="w" for="edge" '
           b'attr.name="weight" attr.type="int"/><graph edgedefault="directed"><node id="a"/>'
           b'<node id="b"/><edge source="a" target="b"><data key="w">5</data></edge></graph>'
           b'</graphml>')
GEXF = (b'<gexf xmlns="http://www.gexf.net/1.2draft" version="1.2"><graph '
        b'defaultedgetype="directed"><nodes><node id="a"/><node id="b"/></nodes><edges>'
        b'<edge id="0" source="a" target="b" weight="5"/></edges></graph></gexf>')
GML = b'graph [\n directed 1 node [ id 0 label "a" ] node [ id 1 label "b" ]\n' \
      b' edge [ source 0 target 1 weight 5 ]\n]\n'
DICTIONARIES = 'dictionaries'
TEXTS = {'mtx': (MARKET % ('general', 2, 2)).encode(), 'edges': b'1 2 5\n', 'csv': b'1,2,5\n',
         'tsv': b'1\t2\t5\n', 'dimacs': b'p sp 2 1\na 1 2 5\n', 'graphml': GRAPHML, 'gexf': GEXF,
         'gml': GML, 'parquet': b'PAR1....', DICTIONARIES: b"1 2 {'weight': 5}\n"}
# What is said of a file, by the keyword: a value that isn't the default, and the formats that have
# nothing of it.
LISTS = {'edges', 'csv', 'tsv'}
GRAPHS = {'dimacs', 'graphml', 'gexf', 'gml'}
OTHERS = {'mtx', *GRAPHS}
SAID = {'values': (False, set()), 'scale': (10, set()), 'directed': (False, set()),
        'bipartite': (True, GRAPHS), 'nodelist': ([1], {'mtx'}), 'max_bytes': (3, set()),
        'dup_op': ('plus', set()), 'name': ('A', set()),
        'sep': (';', {*OTHERS, 'parquet'}), 'columns': ((1, 0), OTHERS),
        'header': (True, {*OTHERS, 'parquet', DICTIONARIES}),
        'comments': ('1', {*OTHERS, 'parquet'}), 'nodetype': (str, {*OTHERS, 'parquet'}),
        'missing': ('skip', {*OTHERS, DICTIONARIES}), 'unit': ('s', {'mtx', 'dimacs'}),
        'date_format': ('%d', {'mtx', 'dimacs'})}
# of what changes nothing of these texts: they fold or leave out nothing
WITHOUT_EFFECT = {'dup_op', 'missing'}


class EachKeyword(InSession):
    def outcome(self, format, how):
        """What is made of a text: everything that is known of it, or the error."""
        frames = mock.patch('spmat.io.formats.import_extra', self.with_a_frame)
        try:
            with frames if format == 'parquet' else mock.patch.dict({}):
                name = {'csv': 'x.csv', 'tsv': 'x.tsv'}.get(format, 'x')
                G = self.s.read_graph(Loaded(name, TEXTS[format]), **how)
            return G.to_triples(), G.notes, G.name, G.nodes and list(map(type, G.nodes))
        except (spmat.ReadError, ValueError) as fault:
            return str(fault)

    @staticmethod
    def with_a_frame(*_):
        import pandas
        frame = pandas.DataFrame({'source': [1], 'target': [2], 'weight': [5]})
        return mock.Mock(read_parquet=lambda file: frame)

    def test_all_are_listed(self):
        arguments = set(inspect.signature(self.s.read_graph).parameters) - {'path', 'format',
                                                                            'layout'}
        self.assertEqual(set(SAID), arguments | {*Layout._fields, 'nodelist', 'max_bytes'})
        self.assertEqual(set(TEXTS), {*FORMATS, DICTIONARIES})

    def test_none_is_passed_over(self):
        for format in TEXTS:
            if (format in ('graphml', 'gexf', 'gml') and not has('networkx')
                    or format == 'parquet' and not has('pandas')):
                continue
            plain = self.outcome(format, {})
            self.assertIsInstance(plain, tuple, format)
            for word, (value, refusing) in SAID.items():
                with self.subTest(format=format, word=word):
                    found = self.outcome(format, {word: value})
                    if format in refusing:
                        self.assertRegex(found, 'one kind of vertices' if word == 'bipartite'
                                         else word + '= is for a list of edges')
                    elif word not in WITHOUT_EFFECT:
                        self.assertNotEqual(found, plain)

    def test_what_is_no_argument(self):
        with self.assertRaisesRegex(TypeError, "read_graph has no argument 'weight'"):
            self.s.read_graph(io.BytesIO(TEXTS['csv']), weight='x')


class MatrixMarket(InSession):
    def read(self, kind='general', nrows=2, ncols=2, **how):
        return self.s.read_graph(io.BytesIO((MARKET % (kind, nrows, ncols)).encode()), **how)

    def test_two_kinds_of_vertices(self):
        for kind in ('general', 'symmetric'):
            B = self.read(kind, bipartite=True)
            self.assertTrue(B.directed)
            with self.assertRaisesRegex(spmat.NamesDiffer, 'two kinds'):
                B.ewise_add(B.T)
            with self.assertRaisesRegex(ValueError, 'one kind of vertices.*spmat.bipartite'):
                spmat.algorithms.connected_components(B)
            self.assertEqual(spmat.bipartite(B).nodes[0], ('row', 0))
        with self.assertRaisesRegex(ValueError, 'directed=True'):
            self.read(bipartite=True, directed=False)
        with self.assertRaisesRegex(spmat.ReadError, 'bipartite=False .* square .* 2x3'):
            self.read(ncols=3, bipartite=False)
        self.assertEqual(self.read(ncols=3, bipartite=True).shape, (2, 3))

    def test_directions(self):
        """A symmetric file has each edge both ways, also for those who call them directed."""
        for kind, edges in (('general', [(1, 0, 5)]), ('symmetric', [(0, 1, 5), (1, 0, 5)])):
            G = self.read(kind, directed=True)
            self.assertEqual((G.to_triples(), G.directed), (edges, True))

    def test_blocks(self):
        with tempfile.TemporaryDirectory() as folder, blocks.Sessions(2) as s, \
                mock.patch('spmat_blocks.parallel_read.LEAST', 1):
            path = os.path.join(folder, 'x.mtx')
            pathlib.Path(path).write_text(MARKET % ('general', 2, 2), 'ascii')
            B = s.read_graph(path, bipartite=True)
            with self.assertRaisesRegex(spmat.NamesDiffer, 'two kinds'):
                B.mxm(B)
            with self.assertRaisesRegex(spmat.ReadError, 'sep= is for a list'):
                s.read_graph(path, sep=',')


class Scales(InSession):
    def test_rounding_is_told(self):
        """By each format that has values."""
        for text in ('%%MatrixMarket matrix coordinate real general\n2 2 2\n1 2 .25\n2 1 3\n',
                     '%%MatrixMarket matrix coordinate real general\n2 2 2\n1 2 1D-2\n2 1 3\n',
                     'p sp 2 2\na 1 2 .25\na 2 1 3\n', 'p sp 2 2\na 1 2 .25\nc\na 2 1 3\n',
                     'a b .25\nb a 3\n', "a b {'weight': .25}\nb a {'weight': 3}\n"):
            G = self.s.read_graph(io.BytesIO(text.encode()), scale=10)
            self.assertRegex(G.notes.source, r'values times 10, 1 of 2 rounded, by at most 0\.05'
                             if '.25' in text else r'values times 10, 1 of 2 rounded')
            self.assertEqual(self.s.read_graph(io.BytesIO(text.encode()), scale=10,
                                               values=False).notes.unit, 1)
            self.assertNotIn('times', self.s.read_graph(io.BytesIO(text.encode()), scale=10,
                                                        values=False).notes.source)


class Indexes(InSession):
    def test_one_size_of_a_square(self):
        """A size that is given is both; two that differ are refused."""
        for kind in ('square', 'symmetric'):
            for sizes in ({'nrows': 5}, {'ncols': 5}, {'nodes': list('abcde')}):
                A = self.s.from_coo([0], [1], 1, **sizes, **{kind: True})
                self.assertEqual(A.shape, (5, 5))
            with self.assertRaisesRegex(ValueError, kind + '=True .* not of 3 rows and 4 columns'):
                self.s.from_coo([0], [1], 1, 3, 4, **{kind: True})
        self.assertEqual(self.s.from_triples([(0, 1, 2)], 5, square=True).shape, (5, 5))


class Lists(InSession):
    def test_two_kinds_have_no_common_list(self):
        with self.assertRaisesRegex(ValueError, 'nodelist= has vertices of one kind'):
            self.s.from_edgelist([('a', 'x')], bipartite=True, nodelist=['a', 'x'])

    @needs('pandas')
    def test_times_that_nothing_has(self):
        """A unit of values where no edge has one: each would be 1 without it."""
        import pandas
        frame = pandas.DataFrame({'source': ['a'], 'target': ['b'], 'at': ['2024-05-31']})
        for read in (lambda **how: self.s.from_edgelist([('a', 'b')], **how),
                     lambda **how: self.s.from_pandas_edgelist(frame, **how),
                     lambda **how: self.s.read_graph(io.BytesIO(b'1 2\n'), **how),
                     lambda **how: self.s.read_graph(io.BytesIO(b'a b {}\n'), **how)):
            self.assertEqual(read().notes.unit, 1)
            with self.assertRaisesRegex(ValueError, 'unit=\'s\' says .* no edge has one'):
                read(unit='s')
        self.assertEqual(self.s.from_edgelist([], unit='s').nvals, 0)

    def test_dictionaries(self):
        text = b"New York;1;{'weight': 5}\n"
        G = self.s.read_graph(io.BytesIO(text), sep=';')
        self.assertEqual(G.to_edgelist(), [('New York', '1', 5)])
        self.assertEqual(self.s.read_graph(io.BytesIO(TEXTS[DICTIONARIES]), nodetype=str).nodes,
                         ['1', '2'])
        with self.assertRaisesRegex(spmat.ReadError, 'nodetype=int'):
            self.s.read_graph(io.BytesIO(text), sep=';', nodetype=int)

    def test_a_folder(self):
        """Its files are read as each by itself is."""
        with tempfile.TemporaryDirectory() as folder, blocks.Sessions(2) as s:
            def written(text):
                pathlib.Path(os.path.join(folder, 'part.csv')).write_bytes(text)
            written(TEXTS[DICTIONARIES])
            self.assertEqual(s.read_graph(folder).to_edgelist(), [(1, 2, 5)])
            with self.assertRaisesRegex(spmat.ReadError, 'max_bytes='):
                s.read_graph(folder, max_bytes=3)
            with self.assertRaisesRegex(spmat.ReadError, 'header= is for a list'):
                s.read_graph(folder, header=True)
            for text in (TEXTS['mtx'], GML):
                written(text)
                with self.assertRaisesRegex(spmat.ReadError, 'lists of edges or parquet'):
                    s.read_graph(folder)
            written(b'Source,Target,Type,Weight\na,b,Undirected,1\n')
            with self.assertRaisesRegex(spmat.ReadError, 'directed=False'):
                s.read_graph(folder)
            with mock.patch('spmat_blocks.parallel_read.LEAST', 1), \
                    self.assertRaisesRegex(spmat.ReadError, 'directed=False'):
                s.read_graph(os.path.join(folder, 'part.csv'))
