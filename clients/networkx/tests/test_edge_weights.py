"""networkx functions of weights that are no whole numbers: exact where these are multiples of a
power of ten or two, or rounded as set."""
import fractions
import math
import random

import networkx as nx
import pytest

from networkx_case import NetworkxCase
from spmat_networkx import edge_weights

pytestmark = pytest.mark.slow


def weighted(kind, choices, seed=3, nodes=30, edges=110):
    """A random connected graph with weights of these."""
    r = random.Random(seed)
    graph = kind()
    for i in range(nodes):
        graph.add_edge(i, (i + 1) % nodes, weight=r.choice(choices))
    for _ in range(edges):
        graph.add_edge(r.randrange(nodes), r.randrange(nodes), weight=r.choice(choices))
    return graph


class Weights(NetworkxCase):
    def setUp(self):
        super().setUp()
        self.scale = nx.config.backends.spmat.scale
        self.addCleanup(setattr, nx.config.backends.spmat, 'scale', self.scale)

    def exact(self, graph, unit):
        """The same graph with fractions, whose sums networkx makes without rounding."""
        made = graph.__class__()
        for u, v, weight in graph.edges(data='weight'):
            made.add_edge(u, v, weight=fractions.Fraction(round(weight * unit), unit))
        return made

    def test_lengths(self):
        for kind in (nx.Graph, nx.DiGraph, nx.MultiDiGraph):
            for choices, unit in (((.1, .25, 1.75, 3, .07), 100),
                                  ((1 / 3 - 1 / 3 % 2 ** -20, .5, 2.0 ** -20, 7), 2 ** 20)):
                graph = weighted(kind, choices)
                true = self.exact(graph, unit)
                for function, args in ((nx.single_source_dijkstra_path_length, (0,)),
                                       (nx.single_source_bellman_ford_path_length, (0,)),
                                       (nx.multi_source_dijkstra_path_length, ([0, 5],))):
                    want = {node: float(far) for node, far in function(true, *args).items()}
                    self.assertEqual(function(graph, *args, backend='spmat'), want,
                                     (kind, function))
                self.assertEqual(nx.dijkstra_path_length(graph, 0, 7, backend='spmat'),
                                 float(nx.dijkstra_path_length(true, 0, 7)))
                self.assertEqual({u: dict(far)
                                  for u, far in nx.all_pairs_dijkstra_path_length(
                                      graph, backend='spmat')},
                                 {u: {v: float(d) for v, d in far.items()}
                                  for u, far in nx.all_pairs_dijkstra_path_length(true)})
                if not graph.is_multigraph():
                    self.assertEqual(nx.diameter(graph, weight='weight', backend='spmat'),
                                     float(nx.diameter(true, weight='weight')))
                    self.assertEqual(nx.radius(graph, weight='weight', backend='spmat'),
                                     float(nx.radius(true, weight='weight')))
                    self.assertEqual(nx.wiener_index(graph, 'weight', backend='spmat'),
                                     float(nx.wiener_index(true, 'weight')))
                    self.assertAlmostEqual(nx.average_shortest_path_length(graph, 'weight',
                                                                           backend='spmat'),
                                           float(nx.average_shortest_path_length(true, 'weight')),
                                           12)

    def test_cutoff(self):
        graph = nx.path_graph(6)
        nx.set_edge_attributes(graph, .1, 'weight')
        for cutoff in (.3, .29, 0, math.inf, 2):
            want = [node for node in range(6) if node <= round(min(cutoff, 9) * 100) // 10]
            self.assertEqual(list(nx.single_source_dijkstra_path_length(graph, 0, cutoff,
                                                                        backend='spmat')), want,
                             cutoff)
            self.assertEqual(list(
                dict(nx.all_pairs_dijkstra_path_length(graph, cutoff, backend='spmat'))[0]), want,
                             cutoff)

    def test_what_has_no_unit(self):
        """Trees, longest paths and ranks."""
        graph = weighted(nx.Graph, (.5, .25, 1.125, 2.5, .75))
        # noqa: E731
        same = lambda found: sorted((min(u, v), max(u, v), data['weight']) for u, v, data in found)
        self.assertEqual(same(nx.minimum_spanning_edges(graph, backend='spmat')),
                         same(nx.minimum_spanning_edges(graph)))
        dag = nx.DiGraph((u, v, {'weight': data}) for u, v, data in graph.edges(data='weight')
                         if u < v)
        self.assertEqual(nx.dag_longest_path_length(dag, backend='spmat'),
                         nx.dag_longest_path_length(dag))
        for default in (1, 2, .5, 0, -3, 1 << 70):
            # without weights each edge is so long
            got, want = (nx.dag_longest_path_length(dag, None, default, backend=which)
                         for which in ('spmat', 'networkx'))
            self.assertEqual(got, want)
        ranks = nx.pagerank(graph, backend='spmat', tol=1e-9)
        scaled = nx.Graph((u, v, {'weight': int(data * 8)})
                          for u, v, data in graph.edges(data='weight'))
        self.assertTrue(all(abs(ranks[node] - rank) < 1e-7
                            for node, rank in nx.pagerank(scaled, backend='spmat',
                                                          tol=1e-9).items()))

    def test_uneven_weights(self):
        graph = nx.Graph([(0, 1, {'weight': math.pi}), (1, 2, {'weight': 1e-12})])
        with self.assertRaises(NotImplementedError):
            nx.dijkstra_path_length(graph, 0, 2, backend='spmat')
        self.assertIn('scale = 1e6 rounds them',
                      str(nx.utils.backends._load_backend('spmat').reason('dijkstra_path_length',
                                                                          (graph, 0, 2), {})))
        nx.config.backends.spmat.scale = 1000
        self.assertEqual(nx.dijkstra_path_length(graph, 0, 2, backend='spmat'), 3.142)
        nx.config.backends.spmat.scale = '1e4'
        self.assertEqual(nx.dijkstra_path_length(graph, 0, 2, backend='spmat'), 3.1416)
        for wrong in (-1, .5, 'x', None):
            with self.assertRaises(ValueError):
                nx.config.backends.spmat.scale = wrong

    def test_paths(self):
        """Powers of two are exact in floats, so every path is networkx'; of tenths lengths are the
        true sums."""
        for kind in (nx.Graph, nx.DiGraph, nx.MultiGraph):
            graph = weighted(kind, (.5, .25, 1.75, 3, 4.0, 2 ** -10))
            for function, args in ((nx.dijkstra_path, (0, 7)), (nx.single_source_dijkstra, (0,)),
                                   (nx.single_source_dijkstra_path, (0,)),
                                   (nx.multi_source_dijkstra, ([0, 5],)),
                                   (nx.multi_source_dijkstra_path, ([0, 5],)),
                                   (nx.single_source_bellman_ford, (0,)),
                                   (nx.single_source_bellman_ford_path, (0,)),
                                   (nx.bellman_ford_path, (0, 7)),
                                   (nx.dijkstra_predecessor_and_distance, (0,)),
                                   (nx.bellman_ford_predecessor_and_distance, (0,))):
                if kind is nx.MultiGraph and 'bellman' in function.__name__:
                    # of parallel edges it may take another of two equal paths, also with whole
                    # weights
                    continue
                more = {'weight': 'weight'}
                got, want = function(graph, *args, **more,
                                     backend='spmat'), function(graph, *args, **more)
                self.assertEqual(got, want, (kind, function))
            for cutoff in (2.25, 2.2, 0):
                self.assertEqual(nx.single_source_dijkstra(graph, 0, cutoff=cutoff,
                                                           backend='spmat'),
                                 nx.single_source_dijkstra(graph, 0, cutoff=cutoff), (kind, cutoff))
            self.assertEqual(list(nx.all_shortest_paths(graph, 0, 7, weight='weight',
                                                        backend='spmat')),
                             list(nx.all_shortest_paths(graph, 0, 7, weight='weight')))

    def test_tenths(self):
        graph = weighted(nx.DiGraph, (.1, .3, .7, 1.2))
        true = self.exact(graph, 10)
        for target in (5, 9, 17):
            length, path = nx.single_source_dijkstra(graph, 0, target, backend='spmat')
            self.assertEqual(length, float(nx.dijkstra_path_length(true, 0, target)))
            self.assertEqual(nx.path_weight(true, path, 'weight'),
                             nx.dijkstra_path_length(true, 0, target))

    def test_centralities(self):
        for kind in (nx.Graph, nx.DiGraph):
            for choices in ((.5, .25, 1.75, 3), (.1, .3, 1.2)):
                graph = weighted(kind, choices)
                for function, name in ((nx.closeness_centrality, 'distance'),
                                       (nx.betweenness_centrality, 'weight'),
                                       (nx.harmonic_centrality, 'distance')):
                    if function is nx.betweenness_centrality and .1 in choices:
                        # where sums of floats part paths that are equally long
                        graph = self.exact(graph, 10)
                        got = function(weighted(kind, choices), **{name: 'weight'}, backend='spmat')
                    else:
                        got = function(graph, **{name: 'weight'}, backend='spmat')
                    for node, value in function(graph, **{name: 'weight'}).items():
                        self.assertAlmostEqual(got[node], float(value), 6, (kind, function))
                self.assertEqual(nx.center(weighted(kind, (.5, .25)), weight='weight',
                                           backend='spmat'),
                                 nx.center(weighted(kind, (.5, .25)), weight='weight'))

    def test_units(self):
        """Weights are whole multiples of a unit, by which results are divided again."""
        for found, unit, values in (([.5, 1, 2.25], 4, [2, 4, 9]),
                                    ([1e-9, 3.0], 10 ** 9, [1, 3 * 10 ** 9]),
                                    ([2.0 ** -30], 1 << 30, [1]), ([.1, 5], 10, [1, 50])):
            read = self.read(found)
            self.assertEqual((read.many.tolist(), read.unit), (values, unit))
        for found, words in (([math.pi], 'power of ten or two'), ([2.0 ** -41], 'power of ten'),
                             ([1e-12, .1], 'power of ten or two'), ([.1, 1e22], 'too large'),
                             ([math.nan], 'finite'), ([math.inf, .5], 'finite')):
            with self.assertRaisesRegex(NotImplementedError, words):
                self.read(found)

    def read(self, found):
        key = edge_weights.Key('w', 1, None, nx.config.backends.spmat.scale)
        return edge_weights.read_values([{'w': value} for value in found], key)
