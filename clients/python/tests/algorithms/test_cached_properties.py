"""Nothing wrong in silence: what a graph has to be is found out, once, and what it isn't is refused
in words that say what to do; and arguments that end searches early."""
import unittest

import graphs
import support
import spmat
import spmat_blocks
from spmat import algorithms
from spmat.algorithms import cached_properties

UNDIRECTED_ALONE = ('triangle_count', 'triangles', 'clustering', 'k_core', 'core_numbers',
                    'k_truss', 'maximal_independent_set', 'label_propagation',
                    'minimum_spanning_forest')
LOOPS_DO_NOT_COUNT = ('triangle_count', 'maximal_independent_set', 'label_propagation',
                      'minimum_spanning_forest')
MORE = {'k_core': (1,), 'k_truss': (3,)}


class Checks(support.InSession):
    def graph(self, *edges, count=4):
        return self.session.from_triples([(i, j, 1 + i + j) for i, j in edges], count, count)

    def test_one_way(self):
        """The graph of the command line's tests: a cycle and an edge, each one way."""
        one_way = self.graph((0, 1), (1, 2), (2, 0), (2, 3))
        for name in UNDIRECTED_ALONE:
            function = getattr(algorithms, name)
            says = r'one way alone: algorithms\.undirected\(G\).*check=False'
            with self.subTest(name), self.assertRaisesRegex(ValueError, says):
                function(one_way, *MORE.get(name, ()))
            function(one_way, *MORE.get(name, ()), check=False)
        for length in (2, 3, 4, 5, 40):
            # a circle that leads one way alone, long or short, even or odd
            circle = self.graph(*((i, (i + 1) % length) for i in range(length)), count=length)
            self.assertGreater(algorithms.minimum_spanning_forest(circle, check=False).nvals, 0)
        both = algorithms.undirected(one_way)
        self.assertEqual(algorithms.triangle_count(both), 1)
        with self.assertRaisesRegex(ValueError, 'GT has to be the transpose'):
            algorithms.bfs_levels(one_way, 0, one_way)
        self.assertEqual(algorithms.bfs_levels(one_way, 0, one_way.T).to_list(), [0, 1, 2, 3])
        with self.assertRaisesRegex(ValueError, 'one way alone'):
            algorithms.connected_components(one_way, one_way)
        self.assertEqual(algorithms.connected_components(one_way).to_list(), [0, 0, 0, 0])

    def test_loops(self):
        loops = algorithms.undirected(self.graph((0, 1), (1, 2), (2, 0),
                                                 (2, 3))).ewise_add(self.graph((1, 1), (3, 3)),
                                                                    'first')
        for name in UNDIRECTED_ALONE:
            function = getattr(algorithms, name)
            with self.subTest(name):
                if name in LOOPS_DO_NOT_COUNT:
                    function(loops)
                    continue
                with self.assertRaisesRegex(ValueError,
                                            r'without loops.*algorithms\.undirected\(G\)'):
                    function(loops, *MORE.get(name, ()))
                function(loops, *MORE.get(name, ()), check=False)

    def test_paid_once(self):
        G = graphs.UNDIRECTED[3].matrix(self.session)
        algorithms.triangles(G)
        before = self.session.budget().spent
        cached_properties.check_undirected(G, False)
        self.assertEqual(self.session.budget().spent, before)
        known = self.session.from_triples([(0, 1, 1), (1, 0, 1)], 2, 2)
        known.notes = known.notes._replace(directed=False)            # as from_networkx notes it
        cached_properties.check_undirected(known, True)
        self.assertEqual(self.session.budget().spent, before)

    def test_both_ways(self):
        """Beside plain Python, on each graph, and on each with one edge less."""
        for graph in graphs.ALL:
            G = graph.matrix(self.session)
            self.assertEqual(cached_properties.is_both_ways(G),
                             all((j, i) in graph.edges for i, j in graph.edges), graph.name)
            if not graph.directed and graph.edges:
                edges = dict(graph.edges)
                del edges[max(edges)]
                self.assertFalse(cached_properties.is_both_ways(
                    graph._replace(edges=edges).matrix(self.session)), graph.name)

    def test_transposes(self):
        for graph in graphs.DIRECTED:
            G = graph.matrix(self.session)
            self.assertTrue(cached_properties.is_transpose(G, G.T))
            self.assertTrue(cached_properties.is_transpose(G, G.T, values=True))
            self.assertTrue(cached_properties.is_transpose(G, G.T.apply('one')))
            self.assertFalse(cached_properties.is_transpose(G, G.T.apply('plus', right=1),
                                                            values=True))
            self.assertFalse(cached_properties.is_transpose(G, G))
            self.assertFalse(cached_properties.is_transpose(G, G.T.select('rowgt', 3)))

    def test_in_blocks(self):
        """There the transpose is used, so it is looked at."""
        with spmat_blocks.Sessions(2) as s:
            G = graphs.DIRECTED[0].matrix(s)
            with self.assertRaisesRegex(ValueError, 'GT has to be the transpose'):
                algorithms.bfs_levels(G, 0, G)
            self.assertEqual(algorithms.bfs_levels(G, 0, G.T).to_dict(),
                             algorithms.bfs_levels(G, 0).to_dict())

    def test_lengths_that_wrap(self):
        far = 1 << 62
        W = self.session.from_triples([(0, 1, far), (1, 2, far), (2, 3, far)], 4, 4)
        with self.assertRaisesRegex(ValueError, r'2\^63 - 1.*check=False'):
            algorithms.sssp(W, 0)
        self.assertEqual(algorithms.sssp(W, 2).to_list(), [None, None, 0, far])
        below = W.apply('ainv')
        with self.assertRaisesRegex(ValueError, r'2\^63 - 1'):
            algorithms.sssp(below, 0)
        self.assertEqual(algorithms.sssp(W, 0, cutoff=far, check=False).to_list()[:2], [0, far])

    def test_where_searches_end(self):
        graph = graphs.UNDIRECTED[4]
        G, near = graph.matrix(self.session), graph.near()
        levels, lengths = graphs.levels(near, 0), graphs.shortest(graph.edges, near, 0)
        for depth in (0, 1, 4, 99):
            self.assertEqual(algorithms.bfs_levels(G, 0, depth=depth).to_dict(),
                             {(i, 0): k for i, k in levels.items() if k <= depth})
        self.assertEqual(algorithms.bfs_levels(G, 0, target=9).to_dict()[9, 0], levels[9])
        for cutoff in (0, 7, 30, 10 ** 9):
            self.assertEqual(algorithms.sssp(G, 0, cutoff=cutoff).to_dict(),
                             {(i, 0): x for i, x in lengths.items() if x <= cutoff})
        for target in (0, 9, 41):
            self.assertEqual(algorithms.sssp(G, 0, target=target).to_dict()[target, 0],
                             lengths[target])
        both = {i: min(k, graphs.levels(near, 41)[i]) for i, k in levels.items()}
        self.assertEqual(algorithms.bfs_levels(G, [0, 41]).to_dict(),
                         {(i, 0): k for i, k in both.items()})
        for call in (lambda: algorithms.bfs_levels(G, 0, depth=-1),
                     lambda: algorithms.bfs_levels(G, [])):
            with self.assertRaises(ValueError):
                call()

    def test_names_of_vertices(self):
        G = self.graph((0, 1), (1, 2), (2, 3))
        G.nodes = ['a', 'b', 'c', 'd']
        self.assertEqual(algorithms.bfs_levels(G, 'b').by_node(), {'b': 0, 'c': 1, 'd': 2})
        self.assertEqual(algorithms.sssp(G, 'c', target='d').by_node(), {'c': 0, 'd': 6})
        # each value is a vertex
        self.assertEqual(algorithms.connected_components(G).by_node(), dict.fromkeys('abcd', 'a'))
        self.assertEqual(algorithms.pagerank(G).nodes, G.nodes)


class Own(unittest.TestCase):
    """Semirings of own operators."""

    def test_semiring(self):
        toll = spmat.asm('binary', 'mov64 r0, r1\nadd64 r0, r2\nadd64 r0, 2\nexit')
        with spmat.Session(program=support.program()) as s:
            W = s.from_triples([(0, 1, 3), (1, 2, 4)], 3, 3)
            self.assertEqual(W.mxm(W, spmat.semiring('min', toll)).to_dict(), {(0, 2): 9})
            self.assertEqual(spmat.semiring('min', 'plus'), spmat.semiring.min_plus)
            with self.assertRaisesRegex(ValueError, 'no built-in binary operator'):
                spmat.semiring('min', 'no_such')
