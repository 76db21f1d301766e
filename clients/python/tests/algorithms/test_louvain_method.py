"""Louvain's communities, and the modularity of any, beside a sum over all pairs of vertices and
beside networkx."""
import random

import pytest

import graphs
import support
from spmat import algorithms

pytestmark = pytest.mark.slow


class Louvain(graphs.OnGraphs):
    def slow(self, graph, labels, resolution, weighted):
        """Modularity by all pairs of vertices."""
        edges = dict(graph.values(weighted))
        for i, j in edges:
            edges[i, j] *= 2 if i == j and not graph.directed else 1
        out, come, total = [0] * graph.count, [0] * graph.count, sum(edges.values())
        for (i, j), value in edges.items():
            out[i] += value
            come[j] += value
        return sum(edges.get((i, j), 0) / total - resolution * out[i] * come[j] / total ** 2
                   for i in range(graph.count) for j in range(graph.count)
                   if labels[i] == labels[j])

    def test_modularity(self):
        def look(graph, _, G):
            if not graph.edges:
                return
            for weighted, resolution, parts in ((False, 1, 3), (True, 0.5, 1), (True, 2, 7)):
                labels = [i * i % parts for i in range(graph.count)]
                column = self.s.from_coo(range(graph.count), [0] * graph.count, labels, graph.count,
                                         1)
                self.assertAlmostEqual(algorithms.modularity(G, column, resolution,
                                                             weighted=weighted),
                                       self.slow(graph, labels, resolution, weighted), 12)
        self.each(graphs.ALL, look)

    def test_communities(self):
        """The modularity is that of the labels, no less than that of single vertices, and no vertex
        alone could raise it by going elsewhere by more than the least that a sweep has to gain."""
        def look(graph, near, G):
            if not graph.edges:
                return
            for weighted in (False, True):
                found = algorithms.louvain(G, weighted=weighted)
                labels = found.to_list()
                self.assertAlmostEqual(found.modularity, self.slow(graph, labels, 1, weighted), 12)
                self.assertGreaterEqual(found.modularity,
                                        self.slow(graph, list(range(graph.count)), 1, weighted))
                # the least vertex of each
                self.assertEqual(labels, [labels.index(label) for label in labels])
                parts = {min(graphs.levels(near, i)) for i in range(graph.count)}
                self.assertGreaterEqual(len(set(labels)), len(parts))
        self.each(graphs.UNDIRECTED, look)

    @support.needs('networkx')
    def test_as_good_as_networkx(self):
        """On graphs by chance, skewed ones and grids the modularity is no less than 0.97 times that
        of networkx' own method."""
        import networkx
        chance = random.Random(4)
        skewed = {(int(300 * chance.random() ** 3), chance.randrange(300)) for _ in range(2000)}
        grid = [(20 * r + c, 20 * r + c + step) for r in range(20) for c in range(20)
                for step in (1, 20) if (c if step == 1 else r) < 19]
        even = [(chance.randrange(200), chance.randrange(200)) for _ in range(800)]
        for pairs in (skewed, grid, even):
            made = networkx.Graph((i, j) for i, j in pairs if i != j)
            theirs = [networkx.community.modularity(made,
                                                    networkx.community.louvain_communities(
                                                        made, seed=seed)) for seed in range(3)]
            G = self.s.from_networkx(made, weight=None)
            ours = [algorithms.louvain(G, seed=seed).modularity for seed in range(3)]
            self.assertGreater(sum(ours), .97 * sum(theirs))

    def test_planted(self):
        """Cliques in a ring are found as they are."""
        pairs = [(5 * k + i, 5 * k + j) for k in range(8) for i in range(5)
                 for j in range(i)] + [(5 * k, (5 * k + 6) % 40) for k in range(8)]
        graph = graphs.undirected('ring of cliques', 40, pairs)
        G = graph.matrix(self.s)
        G.nodes = ['v%d' % i for i in range(40)]
        found = algorithms.louvain(G, seed=3)
        self.assertEqual(sorted(map(sorted, found.sets())),
                         sorted(sorted('v%d' % (5 * k + i) for i in range(5)) for k in range(8)))
        self.assertGreater(found.modularity, 0.7)
        self.assertEqual(algorithms.louvain(G, seed=3).labels.to_list(), found.labels.to_list())

    def test_loops(self):
        edges = {(0, 1): 1, (1, 0): 1, (2, 2): 3, (1, 2): 1, (2, 1): 1}
        graph = graphs.Graph('loops', 3, edges, False)
        G = graph.matrix(self.s)
        for weighted in (False, True):
            found = algorithms.louvain(G, weighted=weighted)
            self.assertAlmostEqual(found.modularity,
                                   self.slow(graph, found.labels.to_list(), 1, weighted), 12)

    def test_refused(self):
        for words, call in (
            ('one way', lambda: algorithms.louvain(graphs.DIRECTED[0].matrix(self.s))),
            ('add up to 0', lambda: algorithms.louvain(self.s.from_coo([], [], [], 3, 3))),
            ('0 or more',
             lambda: algorithms.louvain(self.s.from_triples([(0, 1, -1), (1, 0, -1)], 2, 2),
                                        weighted=True)),
            ('for each of 34', lambda: algorithms.modularity(graphs.UNDIRECTED[3].matrix(self.s),
                                                             self.s.full(3, 1)))):
            with self.subTest(words=words), self.assertRaisesRegex(ValueError, words):
                call()

    @support.needs('networkx')
    def test_networkx(self):
        import networkx
        made = networkx.karate_club_graph()
        found = algorithms.louvain(self.s.from_networkx(made), weighted=True)
        sets = [set(some) for some in found.sets()]
        self.assertAlmostEqual(found.modularity,
                               networkx.algorithms.community.modularity(made, sets), 12)
