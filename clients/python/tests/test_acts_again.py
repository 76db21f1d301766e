"""More of what people do first, beside what pandas, numpy and networkx give for it. A row is what
is done, how, and what is due: a value, a function of what the other package gives, or the words of
an error."""
import datetime
import fractions
import math
import os
import tempfile
import warnings

import numpy
import pytest

import support
from spmat import algorithms
from test_acts import EDGES, Says, directed, edges, frame, of_frame, read, series, shell, undirected
import spmat

pytestmark = pytest.mark.slow

TABLE = numpy.array([[0, 5, 7], [0, 0, -1], [-3, 0, 0]])


def pay():
    return frame(source=[a for a, _, _ in EDGES], target=[b for _, b, _ in EDGES],
                 weight=[v for _, _, v in EDGES])


def table(s):
    return s.from_dense(TABLE, missing=0)


def dense(act):
    return lambda s: act(table(s)).to_dense().tolist()


def by_node(act, graph=directed):
    return lambda s: act(graph(s)).by_node()


def graph(kind):
    import networkx
    made = getattr(networkx, kind)()
    made.add_weighted_edges_from(EDGES)
    return made


def of(function, kind='DiGraph', *words, **named):
    """What a function of networkx gives for the graph."""
    def call():
        import networkx
        found = networkx
        for name in function.split('.'):
            found = getattr(found, name)
        return found(graph(kind), *words, **named)
    return call


def greatest_length():
    """What networkx gives as a diameter by weights, also where its `diameter` takes none (before
    3.0)."""
    found = of('all_pairs_dijkstra_path_length', 'Graph')()
    return max(length for _, lengths in found for length in lengths.values())


def warned(act):
    """The words of what an act warns of."""
    def call(s):
        with warnings.catch_warnings(record=True) as told:
            warnings.simplefilter('always')
            act(s)
        return [str(one.message).partition(':')[0] for one in told]
    return call


def written(s, A):
    with tempfile.TemporaryDirectory() as folder:
        A.mmwrite(os.path.join(folder, 'x.mtx'))


def part_of(s):
    return undirected(s)[['a', 'b', 'c'], ['a', 'b', 'c']]


def named(names):
    def call(s):
        A = table(s)
        A.nodes = names
        return A.nodes
    return call


FRAMES = [
    ('sum by source', by_node(lambda A: A.reduce_rowwise()),
     lambda: pay().groupby('source').weight.sum().to_dict()),
    ('sum by target', by_node(lambda A: A.reduce_columnwise()),
     lambda: pay().groupby('target').weight.sum().to_dict()),
    ('rows by source', by_node(lambda A: A.reduce_rowwise('count')),
     lambda: pay().groupby('source').weight.count().to_dict()),
    ('mean by source', by_node(lambda A: A.reduce_rowwise('mean')),
     lambda: pay().groupby('source').weight.mean().to_dict()),
    ('least by source', by_node(lambda A: A.reduce_rowwise('min')),
     lambda: pay().groupby('source').weight.min().to_dict()),
    ('idxmax by source', by_node(lambda A: A.reduce_rowwise('argmax')),
     {'a': 'c', 'b': 'c', 'c': 'd'}),
    ('mean of all', lambda s: directed(s).reduce_scalar('mean'), lambda: pay().weight.mean()),
    ('the two largest', lambda s: directed(s).top(2), [('a', 'c', 10), ('b', 'c', 3)]),
    ('there and back',
     lambda s: edges(s.from_pandas_edgelist(directed(s).to_pandas_edgelist(), edge_attr='weight')),
     sorted(EDGES)),
    ('int8 that would wrap', of_frame(a=['x', 'x'], b=['y', 'y'], w=numpy.array([100, 100], 'int8'),
                                      dup_op='plus'), [('x', 'y', 200)]),
    ('a column of weights that is not named', warned(lambda s: s.from_pandas_edgelist(pay())),
     ["the column 'weight' is not read, and each edge counts as 1"]),
    ('the same, left out', warned(lambda s: s.from_pandas_edgelist(pay(), edge_attr=False)), []),
    ('a value beyond int64', of_frame(a=['x'], b=['y'], w=numpy.array([2 ** 63], 'uint64')),
     Says('2^63 - 1')),
    ('durations', of_frame(a=['x'], b=['y'], w=numpy.array([1], 'timedelta64[s]')),
     Says('dt.total_seconds()')),
    ('points in time', of_frame(a=['x'], b=['y'], w=[datetime.datetime(2024, 1, 1)]),
     Says('unit="s"')),
    ('two columns of one name',
     lambda s: s.from_pandas_edgelist(frame(source=['a'], target=['b'], more=['c']).set_axis(
         ['source', 'target', 'target'], axis=1)), Says('2 columns are called')),
    ('two values an edge', lambda s: s.from_pandas_edgelist(pay().assign(more=1), edge_attr=True),
     Says("edge_attr='more'")),
    ('no rows', lambda s: s.from_pandas_edgelist(pay()[:0], edge_attr='weight').shape, (0, 0)),
    ('a series by its labels', lambda s: s.from_dense(series([1, 2], ['x', 'y'])).by_node(),
     {'x': 1, 'y': 2}),
    ('a name twice in an index', lambda s: directed(s)[['a', 'a'], :], Says('asked for twice')),
    ('a column by a name twice', lambda s: directed(s)[:, series(['b', 'b'], [0, 1])],
     Says('asked for twice'))]

LISTS = [
    ('a dict of edges', lambda s: s.from_edgelist({('a', 'b'): 3}),
     Says('[(*edge, value) for edge, value in edges.items()]')),
    ('the same, as it says',
     lambda s: edges(s.from_edgelist([(*edge, value) for edge, value in {('a', 'b'): 3}.items()])),
     [('a', 'b', 3)]),
    ('sets as edges', lambda s: s.from_edgelist([{'a', 'b'}]), Says('an edge is (from, to)')),
    ('lists as names', lambda s: s.from_edgelist([([0], [1])]), Says('a tuple of these')),
    ('a graph of networkx as edges', lambda s: s.from_edgelist(graph('DiGraph')),
     Says('an edge is (from, to)')),
    ('edges of a graph', lambda s: edges(s.from_edgelist(graph('DiGraph').edges(data=True))),
     sorted(EDGES)),
    ('a part by its positions, with its names',
     lambda s: (lambda part: edges(s.from_coo(*part.to_coo(), nodes=part.nodes)))(part_of(s)),
     [('a', 'b', 2), ('a', 'c', 10), ('b', 'a', 2), ('b', 'c', 3), ('c', 'a', 10), ('c', 'b', 3)]),
    ('a loop counts once',
     lambda s: algorithms.degrees(s.from_edgelist([(0, 0), (0, 1)], directed=False)).to_list(),
     [2, 1]),
    ('distances of two parts',
     lambda s: algorithms.eccentricity(s.from_edgelist([(0, 1), (2, 3)], directed=False)).to_list(),
     [1, 1, 1, 1]),
    ('an array of edges', lambda s: edges(s.from_edgelist(numpy.array([[0, 1, 5]]))), [(0, 1, 5)]),
    ('an array the other way', lambda s: s.from_edgelist(numpy.array([[0, 1, 2, 3], [1, 2, 3, 0]])),
     Says('an edge is (from, to)')),
    ('fractions',
     lambda s: edges(s.from_edgelist([('a', 'b', fractions.Fraction(1, 2))], scale=10)),
     [('a', 'b', .5)]),
    ('an edge given twice', lambda s: s.from_edgelist([('a', 'b'), ('a', 'b')]).notes.source,
     '1 edge given again, counted once'),
    ('a set of names', named({'x', 'y', 'z'}), Says('names are a list')),
    ('letters as names', named(list('xyz')), ['x', 'y', 'z']),
    ('a dict of names', named({0: 'x', 1: 'y', 2: 'z'}), Says('names are a list')),
    ('a column of names', lambda s: named(series(['x', 'y', 'z'], [3, 4, 5]))(s), ['x', 'y', 'z']),
    ('sep=; of Excel', lambda s: read(s, 'sep=;\nfrom;to;w\na;b;7\n', sep=None), [('a', 'b', 7)]),
    ('a table of a graph', lambda s: read(s, ',a,b\na,0,1\nb,1,0\n'), Says('columns=(')),
    ('a table without names', lambda s: read(s, '0,1,0\n1,0,1\n0,1,0\n'), Says('dup_op')),
    ('lists of neighbours', lambda s: read(s, '0 1 2\n1 2\n', sep=None), Says('line 2')),
    ('a comma after each line', lambda s: read(s, 'from,to,w,\na,b,1,\n'), Says('columns=(')),
    ('a year beside', lambda s: read(s, 'from,to,year,w\na,b,2020,9\n'), Says('columns=(')),
    ('a percentage', lambda s: read(s, 'from,to,w\na,b,5%\n'), Says('expected a number')),
    ('JSON', lambda s: read(s, '[{"source": "a"}]'), Says('json.load')),
    ('UTF-16', lambda s: read(s, 'from,to\na,b\n'.encode('utf-16')), Says('iconv')),
    ('a text of a matrix with a unit',
     warned(lambda s: written(s, s.from_edgelist([('a', 'b', 1.5)], scale=10))),
     ['mmwrite writes the stored whole numbers, which are 10 times what they stand for']),
    ('matrices of two sessions', lambda s: directed(s).ewise_add(directed(spmat.Session())),
     Says('A.session.adopt(B)')),
    ('a table in the shell', shell('degrees', '-', text=',a,b\na,0,1\nb,1,0\n'), (3, []))]

NETWORKX = [
    ('degree', by_node(algorithms.degrees, undirected), of('degree', 'Graph')),
    ('in_degree', lambda s: algorithms.degrees(directed(s).T).by_node(),
     lambda: dict(graph('DiGraph').in_degree())),
    ('strength', by_node(lambda A: A.reduce_rowwise(), undirected),
     of('degree', 'Graph', weight='weight')),
    ('pagerank', by_node(algorithms.pagerank), of('pagerank', weight=None)),
    ('pagerank by values', by_node(lambda A: algorithms.pagerank(A, weighted=True)),
     of('pagerank')),
    ('pagerank from one', by_node(lambda A: algorithms.pagerank(A, personalization={'a': 1})),
     of('pagerank', weight=None, personalization={'a': 1})),
    ('closeness by values', by_node(lambda A: algorithms.closeness(A, weighted=True), undirected),
     of('closeness_centrality', 'Graph', distance='weight')),
    ('betweenness', by_node(algorithms.betweenness, undirected),
     of('betweenness_centrality', 'Graph', normalized=False)),
    ('eigenvector', by_node(algorithms.eigenvector, undirected),
     of('eigenvector_centrality', 'Graph')),
    ('katz', by_node(algorithms.katz), of('katz_centrality', weight=None)),
    ('clustering', by_node(algorithms.clustering, undirected),
     of('clustering', 'Graph')),
    ('core numbers', by_node(algorithms.core_numbers, undirected), of('core_number', 'Graph')),
    ('eccentricity', by_node(algorithms.eccentricity, undirected), of('eccentricity', 'Graph')),
    ('lengths', by_node(lambda A: algorithms.sssp(A, 'a')),
     of('single_source_dijkstra_path_length', 'DiGraph', 'a')),
    ('a diameter by values', lambda s: algorithms.all_pairs(undirected(s)).reduce_scalar('max'),
     greatest_length),
    ('the same, asked for', lambda s: algorithms.diameter(undirected(s), weighted=True),
     Says('all_pairs(W)')),
    ('ego_graph', lambda s: sorted(algorithms.k_hop(undirected(s), 1, ['d']).by_node()),
     lambda: sorted(of('ego_graph', 'Graph', 'd', 1)())),
    ('ego_graph, in its order', lambda s: algorithms.k_hop(undirected(s), 'd', 1),
     Says('k_hop(G, k, sources')),
    ('neighbours of two', lambda s: algorithms.common_neighbours(undirected(s), 0, 33),
     Says('shared_neighbours')),
    ('neighbours of two, as it says',
     lambda s: algorithms.shared_neighbours(undirected(s), ['a'], ['b']).to_list(), [1]),
    ('modularity', lambda s: algorithms.modularity(undirected(s), [{'a', 'b'}, {'c', 'd'}]),
     of('community.modularity', 'Graph', [{'a', 'b'}, {'c', 'd'}], weight=None)),
    ('weight of a tree',
     lambda s: algorithms.minimum_spanning_forest(undirected(s)).reduce_scalar() / 2,
     lambda: of('minimum_spanning_tree', 'Graph')().size('weight')),
    ('to_undirected', lambda s: joined(algorithms.undirected(directed(s)).to_networkx()),
     lambda: joined(graph('DiGraph').to_undirected())),
    ('a part', lambda s: joined(part_of(s).to_networkx()),
     lambda: joined(graph('Graph').subgraph(['a', 'b', 'c']))),
    ('complement',
     lambda s: joined(s.full(4, 4).dup(mask=~undirected(s).S).select('offdiag').to_networkx(
         nodes=list('abcd'))), lambda: joined(of('complement', 'Graph')())),
    ('one side of two kinds',
     lambda s: joined((lambda B: B.mxm(B.T, 'plus_pair').select('offdiag'))(s.from_edgelist(
         [('u1', 'i'), ('u2', 'i')], bipartite=True)).to_networkx()), ('Graph', [['u1', 'u2']]))]

NUMPY = [
    ('A @ A', dense(lambda A: A.mxm(A)), (TABLE @ TABLE).tolist()),
    ('matrix_power', dense(lambda A: A.power(3)), numpy.linalg.matrix_power(TABLE, 3).tolist()),
    ('kron', dense(lambda A: A.kronecker(A)), numpy.kron(TABLE, TABLE).tolist()),
    ('tril', dense(lambda A: A.select('tril')), numpy.tril(TABLE).tolist()),
    ('triu', dense(lambda A: A.select('triu', 1)), numpy.triu(TABLE, 1).tolist()),
    ('hstack', lambda s: spmat.concat([[table(s), table(s)]]).to_dense().tolist(),
     numpy.hstack([TABLE, TABLE]).tolist()),
    ('A - A.T', dense(lambda A: A.ewise_union(A.T, 'minus', 0, 0)), (TABLE - TABLE.T).tolist()),
    ('rows again', dense(lambda A: A[[0, 0], :]), TABLE[[0, 0]].tolist()),
    ('backward', dense(lambda A: A[::-1, :]), TABLE[::-1].tolist()),
    ('a rest', dense(lambda A: A.apply(lambda x: x % 2)), (TABLE % 2).tolist()),
    ('sums of columns', lambda s: table(s).reduce_columnwise().to_dense().ravel().tolist(),
     TABLE.sum(0).tolist()),
    ('nonzero', lambda s: [at.tolist() for at in table(s).to_coo()[:2]],
     [at.tolist() for at in numpy.nonzero(TABLE)])]

TABLES = {'frames': FRAMES, 'lists': LISTS, 'networkx': NETWORKX, 'numpy': NUMPY}


def joined(G):
    """The kind of a graph of networkx, and its edges in an order that no reader chooses."""
    return type(G).__name__, sorted(sorted(edge) for edge in G.edges())


@support.needs('pandas', 'networkx', 'scipy')
class MoreActs(support.InSession):
    def test_acts(self):
        for name_of_table, rows in TABLES.items():
            for name, act, due in rows:
                with self.subTest(table=name_of_table, act=name):
                    self.held(act, due)

    def held(self, act, due):
        if isinstance(due, Says):
            self.assertIn(due, support.said(Exception, act, self.s))
            return
        got, want = act(self.s), due() if callable(due) else due
        if isinstance(want, dict) or type(want).__name__ == 'DegreeView':
            want = dict(want)
            self.assertEqual(set(got), set(want))
            self.assertTrue(all(got[one] == want[one]
                                or math.isclose(got[one], want[one], abs_tol=1e-5) for one in want),
                            (got, want))
        elif isinstance(want, float):
            self.assertAlmostEqual(got, want, 6)
        else:
            self.assertEqual(got, want)
