"""Each algorithm beside networkx, on graphs that it brings. Skipped where there is no networkx."""
import pytest

import support
import spmat
from spmat import algorithms

try:
    import networkx
except ImportError:
    pass

pytestmark = pytest.mark.slow


def _graphs():
    """Undirected and directed graphs, without loops."""
    nx = networkx
    undirected = {
        'karate': nx.karate_club_graph(), 'davis': nx.davis_southern_women_graph(),
        'florentine': nx.florentine_families_graph(),
        'miserables': nx.les_miserables_graph(), 'petersen': nx.petersen_graph(),
        'grid': nx.grid_2d_graph(6, 7),
        'two parts and two alone': nx.disjoint_union(nx.disjoint_union(nx.path_graph(9),
                                                                       nx.cycle_graph(5)),
                                                     nx.empty_graph(2)),
        'clustered': nx.powerlaw_cluster_graph(150, 3, 0.4, seed=2),
        'sparse': nx.gnp_random_graph(90, 0.02, seed=6),
    }
    directed = {
        'random': nx.gnp_random_graph(40, 0.06, seed=4, directed=True),
        'scale free': nx.DiGraph(nx.scale_free_graph(80, seed=2)),
        'parts': nx.disjoint_union(nx.gn_graph(25, seed=3),
                                   nx.cycle_graph(6, create_using=nx.DiGraph)),
        'tournament': nx.DiGraph([(i, j) for i in range(12) for j in range(i)]),
    }
    for name, graph in {**undirected, **directed}.items():
        graph = nx.convert_node_labels_to_integers(graph)
        graph.remove_edges_from(list(nx.selfloop_edges(graph)))
        for number, (u, v) in enumerate(sorted(graph.edges())):
            graph[u][v]['length'] = 1 + number * 7919 % 23
        yield name, graph


@support.needs('networkx')
class Networkx(support.InSession):
    def each(self, look, directed=True):
        """Looks at each graph: at it, its matrix, and the matrix as its own transpose where it is
        undirected."""
        for name, graph in _graphs():
            if directed or not graph.is_directed():
                with self.subTest(graph=name):
                    G = self.session.from_networkx(graph, weight=None, nodelist=range(len(graph)))
                    look(graph, G, None if graph.is_directed() else G)

    def test_degrees(self):
        self.each(lambda g, G, _: self.assertEqual(
            algorithms.degrees(G).to_list(0),
            [d for _, d in sorted(g.out_degree() if g.is_directed() else g.degree())]))

    def test_breadth_first_search(self):
        def look(g, G, GT):
            for source in (0, len(g) - 1):
                want = networkx.single_source_shortest_path_length(g, source)
                self.assertEqual(algorithms.bfs_levels(G, source, GT).to_dict(),
                                 {(i, 0): level for i, level in want.items()})
                parents = {i: p
                           for (i, _), p in algorithms.bfs_parents(G, source, GT).to_dict().items()}
                self.assertEqual(set(parents), set(want))
                for i, p in parents.items():
                    self.assertTrue(i == p == source
                                    or (g.has_edge(p, i) and want[p] + 1 == want[i]))
        self.each(look)

    def test_connected_components(self):
        def look(g, G, GT):
            parts = (networkx.weakly_connected_components(g) if g.is_directed()
                     else networkx.connected_components(g))
            want = {(i, 0): min(part) for part in parts for i in part}
            self.assertEqual(algorithms.connected_components(G, GT).to_dict(), want)
        self.each(look)

    def test_shortest_paths(self):
        def look(g, *_):
            W = self.session.from_networkx(g, weight='length', nodelist=range(len(g)))
            want = networkx.single_source_dijkstra_path_length(g, 0, weight='length')
            self.assertEqual(algorithms.sssp(W, 0).to_dict(),
                             {(i, 0): length for i, length in want.items()})
            want = dict(networkx.all_pairs_dijkstra_path_length(g, weight='length'))
            self.assertEqual(algorithms.all_pairs(W).to_dict(),
                             {(i, j): length for i in want for j, length in want[i].items()})
        self.each(look)

    def test_transitive_closure(self):
        def look(g, G, _):
            want = networkx.transitive_closure(networkx.DiGraph(g), reflexive=False)
            self.assertEqual(set(algorithms.transitive_closure(G).to_dict()), set(want.edges()))
        self.each(look)

    def test_triangles(self):
        def look(g, G, _):
            want = networkx.triangles(g)
            self.assertEqual(algorithms.triangles(G).to_list(0), [want[i] for i in range(len(g))])
            self.assertEqual(algorithms.triangle_count(G), sum(want.values()) // 3)
            for i, share in enumerate(algorithms.clustering(G).to_list(0)):
                self.assertAlmostEqual(share / 10 ** 9, networkx.clustering(g, i), delta=1e-9)
        self.each(look, directed=False)

    def test_trusses_and_cores(self):
        def look(g, G, _):
            for k in (2, 3, 4, 5):
                want = networkx.k_truss(g, k).edges()
                self.assertEqual(set(algorithms.k_truss(G, k).to_dict()),
                                 {pair for i, j in want for pair in ((i, j), (j, i))})
            for k in (0, 1, 2, 3, 4):
                core = networkx.k_core(g, k)
                self.assertEqual(algorithms.k_core(G, k).to_dict(),
                                 {(i, 0): d for i, d in core.degree()})
        self.each(look, directed=False)

    @support.needs('scipy')
    def test_pagerank(self):
        def look(g, G, GT):
            want = networkx.pagerank(g, weight=None, tol=1e-12, max_iter=1000)
            got = algorithms.pagerank(G, GT).to_list()
            self.assertLess(sum(abs(got[i] / 2 ** 40 - want[i]) for i in g), 1.01e-6)
        self.each(look)

    def test_maximal_independent_set(self):
        def look(g, G, _):
            chosen = {i for i, _ in algorithms.maximal_independent_set(G, 3).to_dict()}
            self.assertFalse(g.subgraph(chosen).edges())
            self.assertTrue(all(i in chosen or chosen & set(g[i]) for i in g))
        self.each(look, directed=False)
