"""Each algorithm beside plain Python, on graphs of one part and of several, directed and
undirected."""
import random
from unittest import mock

import pytest

import algorithm_calls
import graphs
import support
from spmat import algorithms
from spmat.algorithms import components

pytestmark = pytest.mark.slow


class Algorithms(support.InSession):
    def each(self, some, look):
        """Looks at each graph, by its name: at its neighbours, its matrix, and itself as its
        transpose where it is undirected."""
        for graph in graphs.tried(some):
            with self.subTest(graph=graph.name):
                G = graph.matrix(self.session)
                look(graph, graph.near(), G, None if graph.directed else G)

    def test_degrees(self):
        def look(graph, near, G, _):
            self.assertEqual(algorithms.degrees(G).to_dict(),
                             {(i, 0): len(js) for i, js in enumerate(near)})
        self.each(graphs.ALL, look)

    def test_breadth_first_search(self):
        def look(graph, near, G, GT):
            for source in sorted({0, graph.count // 2, graph.count - 1}) if graph.count else []:
                want = graphs.levels(near, source)
                self.assertEqual(algorithms.bfs_levels(G, source, GT).to_dict(),
                                 {(i, 0): level for i, level in want.items()})
                parents = {(i, 0): min(j for j in range(graph.count) if i in near[j]
                                       and want.get(j) == level - 1)
                           for i, level in want.items() if level}
                parents[source, 0] = source
                self.assertEqual(algorithms.bfs_parents(G, source, GT).to_dict(), parents)
        self.each(graphs.ALL, look)

    def test_connected_components(self):
        def look(graph, near, G, GT):
            both = graphs.both_ways(near)
            want = {(i, 0): min(graphs.levels(both, i)) for i in range(graph.count)}
            for large in (components.LARGE, 0):    # with and without a look at how many are left
                with mock.patch.object(components, 'LARGE', large):
                    self.assertEqual(algorithms.connected_components(G, GT).to_dict(), want)
        self.each(graphs.ALL, look)

    def test_components_of_a_large_graph_without_greatest_neighbours(self):
        """A star, of which the least neighbours join all, is asked for these alone."""
        star = graphs.undirected('star', 60, [(0, i) for i in range(1, 60)]).matrix(self.session)
        algorithms.connected_components(star, star)
        jobs = self.session.jobs
        with mock.patch.object(components, 'LARGE', 0):
            self.assertEqual(set(algorithms.connected_components(star, star).to_list()), {0})
        self.assertEqual(self.session.jobs - jobs, 1)

    def test_shortest_paths(self):
        def look(graph, near, G, GT):
            want = [graphs.shortest(graph.edges, near, i) for i in range(graph.count)]
            for source in sorted({0, graph.count - 1}) if graph.count else []:
                self.assertEqual(algorithms.sssp(G, source, GT).to_dict(),
                                 {(i, 0): length for i, length in want[source].items()})
            self.assertEqual(algorithms.all_pairs(G).to_dict(),
                             {(i, j): length for i, lengths in enumerate(want)
                              for j, length in lengths.items()})
        self.each(graphs.ALL, look)

    def test_lengths_of_all_sizes(self):
        """Lengths of 0, of few bits and of many; few edges, so that the client goes on, and many,
        so that jobs do."""
        chance = random.Random(5)
        for count, each, least, most in ((60, 1, 0, 1), (400, 2, 1, 255), (300, 8, 1, 255),
                                         (300, 6, 0, 3), (200, 3, 7, 1 << 40),
                                         (1500, 4, 1, 9000), (90, 30, 1, 1)):
            places = {(chance.randrange(count), chance.randrange(count))
                      for _ in range(count * each)}
            edges = {place: chance.randint(least, most) for place in sorted(places)}
            graph = graphs.Graph('by chance', count, edges, True)
            want, W = graphs.shortest(edges, graph.near(), 0), graph.matrix(self.session)
            self.assertEqual(algorithms.sssp(W, 0).to_dict(), {(i, 0): x for i, x in want.items()},
                             (count, each, most))
            self.assertTrue(algorithms.sssp(W, 0, check=False).isequal(algorithms.sssp(W, 0)))
            cutoff = sorted(want.values())[len(want) // 2]
            self.assertEqual(algorithms.sssp(W, 0, cutoff=cutoff, check=False).to_dict(),
                             {(i, 0): x for i, x in want.items() if x <= cutoff})
            target = max(want, key=want.__getitem__)
            self.assertEqual(algorithms.sssp(W, 0, target=target, check=False).to_dict()[target, 0],
                             want[target])

    def test_lengths_below_zero(self):
        """Shifting each edge by a potential makes lengths below 0, and shifts each path by that of
        its ends alone."""
        def look(graph, near, G, _):
            potential = [k * 31 % 37 for k in range(graph.count)]
            shifted = {(i, j): value + potential[j] - potential[i]
                       for (i, j), value in graph.edges.items()}
            self.assertLess(min(shifted.values()), 0)
            W = graph._replace(edges=shifted).matrix(self.session)
            want = graphs.shortest(graph.edges, near, 0)
            self.assertEqual(algorithms.sssp(W, 0).to_dict(),
                             {(i, 0): v + potential[i] - potential[0] for i, v in want.items()})
            pairs = algorithms.all_pairs(W).to_dict()
            self.assertEqual({j: v for (i, j), v in pairs.items() if i == 0},
                             {j: v + potential[j] - potential[0] for j, v in want.items()})
        self.each(graphs.DIRECTED, look)

    def test_cycle_of_negative_length(self):
        W = self.session.from_triples([(0, 1, 3), (1, 2, -5), (2, 0, 1), (3, 4, 1)], 5, 5)
        with self.assertRaisesRegex(ValueError, 'negative length'):
            algorithms.sssp(W, 0)
        with self.assertRaisesRegex(ValueError, 'negative length'):
            algorithms.all_pairs(W)
        # which doesn't reach it
        self.assertEqual(algorithms.sssp(W, 3).to_dict(), {(3, 0): 0, (4, 0): 1})

    def test_transitive_closure(self):
        def look(graph, near, G, _):
            want = {(i, j): 1 for i in range(graph.count) for k in near[i]
                    for j in graphs.levels(near, k)}
            self.assertEqual(algorithms.transitive_closure(G).to_dict(), want)
        self.each(graphs.ALL, look)

    def test_triangles(self):
        def look(graph, near, G, _):
            want = graphs.triangles(near)
            self.assertEqual(algorithms.triangle_count(G), sum(want) // 3)
            self.assertEqual(algorithms.triangles(G).to_dict(),
                             {(i, 0): many for i, many in enumerate(want)})
            shares = {(i, 0): 2 * 10 ** 9 * many // max(1, len(near[i]) * (len(near[i]) - 1))
                      for i, many in enumerate(want)}
            self.assertEqual(algorithms.clustering(G).to_dict(), shares)
        self.each(graphs.UNDIRECTED, look)

    def test_pagerank(self):
        def look(graph, near, G, GT):
            ranks = algorithms.pagerank(G, GT)
            self.assertEqual(ranks.nvals, graph.count)
            if graph.count:
                got, want = ranks.to_list(), graphs.pagerank(near)
                self.assertLess(sum(abs(a / 2 ** 40 - b) for a, b in zip(got, want)), 1.001e-6)
        self.each(graphs.ALL, look)

    def test_pagerank_of_another_damping(self):
        graph = graphs.DIRECTED[2]
        got = algorithms.pagerank(graph.matrix(self.session), damping=0.5, tolerance=1e-9,
                                  scale=1 << 52).to_list()
        want = graphs.pagerank(graph.near(), 0.5)
        self.assertLess(sum(abs(a / 2 ** 52 - b) for a, b in zip(got, want)), 1.001e-9)

    def test_maximal_independent_set(self):
        def look(graph, near, G, _):
            sets = set()
            for seed in (0, 1, 2, 7):
                chosen = algorithms.maximal_independent_set(G, seed).to_dict()
                self.assertEqual(algorithms.maximal_independent_set(G, seed).to_dict(), chosen)
                self.assertEqual(set(chosen.values()), {1} if graph.count else set())
                vertices = {i for i, _ in chosen}
                for i in range(graph.count):
                    self.assertEqual(i in vertices, not near[i] & vertices)
                sets.add(frozenset(vertices))
            if graph.name in ('karate', 'grid', 'random'):
                self.assertGreater(len(sets), 1)
        self.each(graphs.UNDIRECTED, look)

    def test_loops(self):
        """What is said to pass over loops does, and ends."""
        graph = graphs.UNDIRECTED[3]
        G, near = graph.matrix(self.session), graph.near()
        looped = G.ewise_add(self.session.from_triples([(i, i, 5) for i in range(0, 34, 2)], 34,
                                                       34), 'first')
        self.assertEqual(algorithms.triangle_count(looped), sum(graphs.triangles(near)) // 3)
        self.assertTrue(algorithms.maximal_independent_set(looped,
                                                           1).isequal(
                                                               algorithms.maximal_independent_set(
                                                                   G, 1)))
        self.assertEqual(algorithms.bfs_levels(looped, 0).to_list(),
                         algorithms.bfs_levels(G, 0).to_list())

    def test_undirected(self):
        def look(graph, near, G, _):
            looped = G.ewise_add(self.session.from_triples([(i, i, 0) for i in range(graph.count)],
                                                           *G.shape), 'first')
            want = {(i, j): 1 for i, js in enumerate(graphs.both_ways(near)) for j in js}
            for transpose in (None, looped.T):
                self.assertEqual(algorithms.undirected(looped, transpose).to_dict(), want)
        self.each(graphs.ALL, look)

    def test_bad_input(self):
        s = self.session
        wide, G = s.from_triples([(0, 1, 1)], 2, 3), s.from_triples([(0, 1, 1), (1, 0, 1)], 2, 2)
        for name in algorithms.__all__:
            if name[0].islower():
                with self.subTest(algorithm=name), self.assertRaisesRegex(ValueError, 'square'):
                    algorithm_calls.call(name, wide)
        for function in (algorithms.bfs_levels, algorithms.bfs_parents, algorithms.sssp):
            for source in (-1, 2, 0.5, '0', None, True):
                with self.assertRaisesRegex(ValueError, 'no vertex'):
                    function(G, source)
                with self.assertRaisesRegex(ValueError, 'no vertex'):
                    function(G, 0, target=source if source is not None else 7)
            with self.assertRaisesRegex(ValueError, 'transpose'):
                function(G, 0, wide)
        for call in (lambda: algorithms.k_truss(G, 1), lambda: algorithms.k_truss(G, 3.5),
                     lambda: algorithms.k_core(G, -1), lambda: algorithms.k_core(G, 1.5),
                     lambda: algorithms.label_propagation(G, 2.5),
                     lambda: algorithms.pagerank(G, damping=1),
                     lambda: algorithms.pagerank(G, tolerance=0),
                     lambda: algorithms.pagerank(G, scale=1 << 53),
                     lambda: algorithms.clustering(G, 0)):
            with self.assertRaises(ValueError):
                call()
