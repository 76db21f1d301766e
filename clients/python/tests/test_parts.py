"""Forests, communities, hops and betweenness, beside plain Python, and beside networkx where it is
there."""
import collections
import heapq
from fractions import Fraction
from unittest import mock

import pytest

import graphs
import support
from spmat import algorithms
from spmat.algorithms import components

try:
    import networkx
except ImportError:
    pass

pytestmark = pytest.mark.slow


def propagated(near, rounds):
    """Each vertex takes the label that most of its neighbours have, of several the least."""
    labels = list(range(len(near)))
    for _ in range(rounds):
        counts = [collections.Counter(labels[j] for j in js) for js in near]
        labels = [min(count, key=lambda label: (-count[label], label)) if count else labels[i]
                  for i, count in enumerate(counts)]
    return labels


def betweenness_by_values(graph):
    """Brandes' algorithm over Dijkstra's, by fractions, a list for each source: each ordered pair
    counts."""
    near = collections.defaultdict(dict)
    for (i, j), value in graph.edges.items():
        near[i][j] = value
    found = []
    for source in range(graph.count):
        far, heap, order = {source: 0}, [(0, source)], []
        while heap:
            length, i = heapq.heappop(heap)
            if length == far[i] and i not in order:
                order.append(i)
                for j, value in near[i].items():
                    if length + value < far.get(j, length + value + 1):
                        far[j] = length + value
                        heapq.heappush(heap, (far[j], j))
        paths, share = collections.Counter({source: 1}), [Fraction(0)] * graph.count
        behind = {i: [j for j, value in near[i].items() if far[i] + value == far[j]] for i in order}
        for i in order:
            for j in behind[i]:
                paths[j] += paths[i]
        for i in reversed(order):
            share[i] = sum((Fraction(paths[i], paths[j]) * (1 + share[j]) for j in behind[i]),
                           Fraction(0))
        share[source] = Fraction(0)
        found.append(share)
    return found


def lightest(edges, count):
    """What a minimum spanning forest weighs, and how many edges it has: Kruskal's algorithm."""
    parents, weight, many = list(range(count)), 0, 0
    def root(i):
        while parents[i] != i:
            i = parents[i]
        return i
    for value, i, j in sorted((value, i, j) for (i, j), value in edges.items() if i < j):
        a, b = root(i), root(j)
        if a != b:
            parents[a], weight, many = b, weight + value, many + 1
    return weight, many


class Parts(graphs.OnGraphs):
    def test_forests(self):
        def look(graph, near, G):
            for edges in (graph.edges,
                          {place: value % 3 - 1 for place, value in graph.edges.items()}):
                W = graph._replace(edges=edges).matrix(self.session)
                found = algorithms.minimum_spanning_forest(W)
                # the client takes over amid the rounds, and when all is done
                for most in (len(edges) // 3, 0):
                    with mock.patch.object(components, 'AT_ONCE', most):
                        self.assertEqual(algorithms.minimum_spanning_forest(W).to_triples(),
                                         found.to_triples())
                forest = found.to_dict()
                self.assertEqual(found.to_triples(), self.session.from_coo(
                    *found.to_coo(), *found.shape).to_triples())
                weight, many = lightest(edges, graph.count)
                self.assertEqual((sum(forest.values()), len(forest)), (2 * weight, 2 * many))
                self.assertTrue(all(edges[place] == value == forest[place[::-1]]
                                    for place, value in forest.items()))
                joined = graphs.Graph('forest', graph.count, forest, False).near()
                for i in range(graph.count):                       # it joins what the graph joins
                    self.assertEqual(set(graphs.levels(joined, i)), set(graphs.levels(near, i)))
        self.each(graphs.UNDIRECTED, look)
        W = self.session.from_triples([(0, 1, 0), (1, 0, 0), (1, 2, 1 << 62), (2, 1, 1 << 62)], 3,
                                      3)
        with self.assertRaisesRegex(ValueError, 'divide'):
            algorithms.minimum_spanning_forest(W)
        with self.assertRaisesRegex(ValueError, 'two values'):
            algorithms.minimum_spanning_forest(self.session.from_triples([(0, 1, 2), (1, 0, 3)], 2,
                                                                         2))

    def test_communities(self):
        def look(graph, near, G):
            for rounds in (1, 2, 5):
                self.assertEqual(algorithms.label_propagation(G, rounds).to_dict(),
                                 {(i, 0): label
                                  for i, label in enumerate(propagated(near, rounds))})
        self.each(graphs.UNDIRECTED, look)
        with self.assertRaises(ValueError):
            algorithms.label_propagation(graphs.UNDIRECTED[2].matrix(self.session), 0)

    def test_hops(self):
        def look(graph, near, G):
            for k in (0, 1, 3):
                want = {(i, j): level for i in range(graph.count)
                        for j, level in graphs.levels(near, i).items() if level <= k}
                self.assertEqual(algorithms.k_hop(G, k).to_dict(), want)
            some = [graph.count - 1, 0] if graph.count > 1 else []
            want = {(row, j): level for row, i in enumerate(some)
                    for j, level in graphs.levels(near, i).items() if level <= 2}
            got = algorithms.k_hop(G, 2, some)
            self.assertEqual((got.shape, got.to_dict()), ((len(some), graph.count), want))
        self.each(graphs.ALL, look)
        with self.assertRaises(ValueError):
            algorithms.k_hop(graphs.UNDIRECTED[2].matrix(self.session), -1)

    def test_betweenness(self):
        def look(graph, near, G):
            by_source = betweenness_by_values(graph._replace(edges=graph.values(False)))
            ways = 1 if graph.directed else 2
            self.near_to(algorithms.betweenness(G), [sum(many) / ways for many in zip(*by_source)],
                         graph.count)
        self.each([graphs.UNDIRECTED[k] for k in (1, 2, 3, 5)]
                  + [graphs.DIRECTED[k] for k in (0, 1, 3)], look)
        G = graphs.UNDIRECTED[2].matrix(self.session)
        for call in (lambda: algorithms.betweenness(G, scale=0),
                     lambda: algorithms.betweenness(G, tolerance=0)):
            with self.assertRaises(ValueError):
                call()

    def near_to(self, got, exact, sources):
        """Whether each number is the exact one, rounded down by less than the tolerance for each
        source."""
        for i, (value, wanted) in enumerate(zip(got.to_list(), exact)):
            self.assertTrue(0 <= wanted - Fraction(value, 1 << 20) < Fraction(sources, 1000),
                            (i, value, wanted))

    def test_betweenness_by_values(self):
        """Beside Dijkstra's and Brandes' algorithms: many values, and few, so that paths of several
        numbers of edges are as long."""
        def look(graph, near, G):
            for most in (23, 3):
                made = graph._replace(edges={place: value % most + 1
                                             for place, value in graph.edges.items()})
                by_source = betweenness_by_values(made)
                ways = 1 if graph.directed else 2
                W = made.matrix(self.session)
                self.near_to(algorithms.betweenness(W, weighted=True),
                             [sum(many) / ways for many in zip(*by_source)], graph.count)
                some = [graph.count - 1, 0] if graph.count > 1 else []
                self.near_to(algorithms.betweenness(W, some, weighted=True),
                             [sum(by_source[i][j] for i in some) for j in range(graph.count)], 2)
        self.each([graphs.UNDIRECTED[k] for k in (0, 1, 2, 3, 5)]
                  + [graphs.DIRECTED[k] for k in (0, 1, 3)], look)

    def test_betweenness_in_batches(self):
        graph = graphs.DIRECTED[2]
        with mock.patch('spmat.algorithms.distances.MOST_AT_ONCE',
                        7 * len(graph.edges)):
            told = []
            got = algorithms.betweenness(graph.matrix(self.session),
                                         progress=lambda *words: told.append(words), weighted=True)
        self.near_to(got, map(sum, zip(*betweenness_by_values(graph))), graph.count)
        self.assertEqual(told, [('source', min(k, 40), 40) for k in range(7, 47, 7)])

    def test_values_of_betweenness(self):
        """Names; lengths that differ by direction; and values that are no lengths."""
        G = self.session.from_edgelist([('a', 'b', 4), ('a', 'c', 1), ('c', 'd', 2), ('d', 'b', 1),
                                        ('b', 'e', 1)])
        for sources, want in ((None, {'a': 0, 'b': 3, 'c': 2, 'd': 3, 'e': 0}),
                              (['c'], {'a': 0, 'b': 1, 'c': 0, 'd': 2, 'e': 0})):
            # a to b, and a to e, by b itself and by c and d
            found = algorithms.betweenness(G, sources, weighted=True)
            self.assertEqual(found.by_node(), want)
            self.assertEqual(dict(zip(G.nodes, found.to_list())),
                             {node: value << 20 for node, value in want.items()})
        edges = {(0, 1): 1, (1, 0): 1, (1, 2): 1, (2, 1): 1, (0, 2): 1, (2, 0): 5}
        self.assertEqual(algorithms.betweenness(graphs.Graph('uneven', 3, edges,
                                                             True).matrix(self.session),
                                                weighted=True).to_list(), [0, 1 << 20, 0])
        loop = self.session.from_triples([(0, 0, 1), (0, 1, 2), (1, 2, 2)], 3, 3)
        self.assertEqual(algorithms.betweenness(loop, weighted=True).to_list(), [0, 1 << 20, 0])
        self.assertEqual(algorithms.betweenness(loop.select('valuegt', 9), weighted=True).to_list(),
                         [0, 0, 0])
        for value, words in ((0, 'lengths of 1 or more, and here is one of 0'), (-3, 'one of -3'),
                             (1 << 60, 'scale the weights')):
            with self.assertRaisesRegex(ValueError, words):
                algorithms.betweenness(self.session.from_triples([(0, 1, 1), (1, 2, value)], 3, 3),
                                       weighted=True)

    def test_too_many_paths(self):
        """A chain of 63 diamonds has 2^63 shortest paths from end to end."""
        pairs = [pair for k in range(63) for pair in ((3 * k, 3 * k + 1), (3 * k, 3 * k + 2),
                                                      (3 * k + 1, 3 * k + 3),
                                                      (3 * k + 2, 3 * k + 3))]
        chain = graphs.directed('diamonds', 190, pairs).matrix(self.session)
        for weighted in (False, True):
            with self.assertRaisesRegex(ValueError, r'more than 2\^62 shortest paths'):
                algorithms.betweenness(chain.apply('one'), [0], weighted=weighted)
            with self.assertRaisesRegex(ValueError, 'from one vertex: shares'):
                algorithms.betweenness(chain.apply('one'), [3 * 18], weighted=weighted)

    def test_ranks_by_weights(self):
        """Weights, what is given anew, and what vertices without edges give, beside the same in
        plain Python."""
        def look(graph, near, G):
            if not graph.count:
                return
            out = [sum(graph.edges[i, j] for j in js) for i, js in enumerate(near)]
            given, taken = [(i % 3 + 1)
                            for i in range(graph.count)], [(i % 5) + 0.5
                                                           for i in range(graph.count)]
            ranks = [1 / graph.count] * graph.count
            for _ in range(250):
                lost = sum(rank for rank, weight in zip(ranks, out) if not weight)
                after = [0.15 * g / sum(given) + 0.85 * lost * t / sum(taken)
                         for g, t in zip(given, taken)]
                for (i, j), weight in graph.edges.items():
                    after[j] += 0.85 * ranks[i] * weight / out[i]
                ranks = after
            got = algorithms.pagerank(G, weighted=True, personalization=dict(enumerate(given)),
                                      dangling=dict(enumerate(taken)))
            self.assertLess(sum(abs(a / 2 ** 40 - b) for a, b in zip(got.to_list(), ranks)),
                            1.001e-6)
        self.each([graphs.UNDIRECTED[k] for k in (0, 1, 3, 5)]
                  + [graphs.DIRECTED[k] for k in (0, 3)], look)

    def test_ranks_that_can_not_be_kept(self):
        G = graphs.UNDIRECTED[3].matrix(self.session)
        with self.assertRaisesRegex(ValueError, r'scale=2\*\*'):
            algorithms.pagerank(G, tolerance=1e-9, scale=1 << 30)
        for call in (lambda: algorithms.pagerank(G, damping=0.12345678),
                     lambda: algorithms.pagerank(G, personalization={0: -1, 1: 3}),
                     lambda: algorithms.pagerank(G, personalization={0: 0}),
                     lambda: algorithms.pagerank(G, personalization={99: 1}),
                     lambda: algorithms.pagerank(G.apply('ainv'), weighted=True)):
            with self.assertRaises(ValueError):
                call()
        self.assertLess(abs(sum(algorithms.pagerank(G, damping=0.8512).to_list()) - 2 ** 40), 34)

    @support.needs('networkx')
    def test_beside_networkx(self):
        karate = networkx.karate_club_graph()
        G = self.session.from_networkx(karate, weight=None)
        self.assertEqual(algorithms.core_numbers(G).by_node(), networkx.core_number(karate))
        want = networkx.betweenness_centrality(karate, normalized=False)
        for node, value in algorithms.betweenness(G).by_node().items():
            self.assertAlmostEqual(value, want[node], places=2)
        W = self.session.from_networkx(karate)
        forest = sum(data['weight'] for _, _, data in networkx.minimum_spanning_edges(karate))
        self.assertEqual(algorithms.minimum_spanning_forest(W).reduce_scalar('plus'), 2 * forest)
