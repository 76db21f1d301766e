"""Strong components, levels of graphs without cycles, sides, and shared neighbours, beside plain
Python."""
from unittest import mock

import pytest

import graphs
import spmat
from spmat import algorithms

pytestmark = pytest.mark.slow


class Orders(graphs.OnGraphs):
    def test_strongly_connected_components(self):
        def look(graph, near, G):
            reach = [set(graphs.levels(near, i)) for i in range(graph.count)]
            want = {(i, 0): min(j for j in reach[i] if i in reach[j]) for i in range(graph.count)}
            for transpose in (None, G.T if graph.directed else G):
                self.assertEqual(algorithms.strongly_connected_components(G, transpose).to_dict(),
                                 want)
        self.each(graphs.ALL, look)

    def test_chain_of_components(self):
        """Rings that lead to one another are found in few rounds, in whatever order their numbers
        are."""
        edges, count = [], 30
        for ring in range(count):
            a, b = 2 * (ring * 7 % count), 2 * (ring * 7 % count) + 1
            edges += [(a, b), (b, a)] + ([(a, 2 * ((ring + 1) * 7 % count))] if ring + 1 < count
                                         else [])
        G, told = self.session.from_triples([(*edge, 1) for edge in edges], 60, 60), []
        label = algorithms.strongly_connected_components(G, progress=lambda *now: told.append(now))
        self.assertEqual(label.to_list(), [k - k % 2 for k in range(60)])
        self.assertLess(len(told), 15)

    def test_topological_levels(self):
        def look(graph, near, G):
            before = [{i for i in range(graph.count) if j in near[i]} for j in range(graph.count)]
            cyclic = any(i in graphs.levels(near, j) for i in range(graph.count) for j in near[i])
            if cyclic:
                with self.assertRaises(algorithms.CycleError) as fault:
                    algorithms.topological_levels(G)
                cycle = fault.exception.cycle
                self.assertTrue(all(b in near[a] for a, b in zip(cycle, cycle[1:] + cycle[:1])))
                self.assertEqual(len(set(cycle)), len(cycle))
                self.assertIn(str(cycle[0]), str(fault.exception))
                self.assertIsInstance(fault.exception, ValueError)
                return
            level = algorithms.topological_levels(G).to_list()
            self.assertEqual(level,
                             [max((level[i] + 1 for i in before[j]), default=0)
                              for j in range(graph.count)])
        self.each(graphs.ALL, look)
        lower = graphs.DIRECTED[4]._replace(name='lower',
                                            edges={pair: 1 for pair in graphs.DIRECTED[4].edges
                                                   if pair[0] < pair[1]})
        self.each([lower], look)

    def test_longest_paths(self):
        """Of edges of all lengths: where those are below 0 a path begins behind them."""
        for shift in (0, -12):
            edges = {pair: value + shift for pair, value in graphs.DIRECTED[4].edges.items()
                     if pair[0] < pair[1]}
            count, longest = graphs.DIRECTED[4].count, []
            for j in range(count):
                longest.append(max([0] + [longest[i] + value for (i, k), value in edges.items()
                                          if k == j]))
            W = graphs.DIRECTED[4]._replace(edges=edges).matrix(self.session)
            self.assertEqual(algorithms.longest_paths(W).to_list(), longest)
        with self.assertRaises(algorithms.CycleError):
            algorithms.longest_paths(self.session.from_triples([(0, 1, 5), (1, 0, -9)], 3, 3))

    def test_lengths_that_wrap(self):
        """Up to 2^63 - 1 all lengths are told, beyond it is refused; an edge below 0 wraps
        nothing."""
        for last, want in ((-5, (1 << 62) - 5), ((1 << 62) - 1, (1 << 63) - 1)):
            W = self.session.from_triples([(0, 1, 1 << 62), (1, 2, last)], 3, 3)
            self.assertEqual(algorithms.longest_paths(W).to_list(), [0, 1 << 62, want])
        W = self.session.from_triples([(0, 1, 1 << 62), (1, 2, 1 << 62)], 3, 3)
        with self.assertRaisesRegex(ValueError, 'would wrap'):
            algorithms.longest_paths(W)
        self.assertEqual(algorithms.longest_paths(W, check=False).to_list(), [0, 1 << 62, 0])

    def test_long_cycle_is_told_in_part(self):
        ring = self.session.from_triples([(k, (k + 1) % 50, 1) for k in range(50)], 50, 50)
        with self.assertRaises(algorithms.CycleError) as fault:
            algorithms.topological_levels(ring)
        self.assertEqual(len(fault.exception.cycle), 50)
        self.assertTrue(str(fault.exception).endswith('..'))

    def test_path(self):
        """A level's cost follows its own edges: twice the path takes little more than twice the
        steps."""
        spent = []
        for count in (100, 200):
            G = self.session.from_triples([(k, k + 1, 1) for k in range(count - 1)], count, count)
            before = self.session.budget().spent
            self.assertEqual(algorithms.topological_levels(G).to_list(), list(range(count)))
            spent.append(self.session.budget().spent - before)
        self.assertLess(spent[1], 2.5 * spent[0])

    def test_bipartite_sides(self):
        def look(graph, near, G):
            both = graphs.both_ways(near)
            parts = {min(graphs.levels(both, i)) for i in range(graph.count)}
            side = {j: level % 2 for i in parts for j, level in graphs.levels(both, i).items()}
            GT = None if graph.directed else G
            if any(side[i] == side[j] for i, js in enumerate(near) for j in js):
                with self.assertRaisesRegex(ValueError, 'odd cycle: the edge between') as fault:
                    algorithms.bipartite_sides(G, GT)
                i, j = [int(word) for word in str(fault.exception).split() if word.isdigit()]
                self.assertTrue(j in both[i] and side[i] == side[j])
            else:
                self.assertEqual(algorithms.bipartite_sides(G, GT).to_dict(),
                                 {(i, 0): one for i, one in side.items()})
        self.each(graphs.ALL, look)

    def test_shared_neighbours(self):
        def look(graph, near, G):
            GT = G.T if graph.directed else G
            out = [{k for k in js if k != i} for i, js in enumerate(near)]
            shared = {(i, j): len(out[i] & out[j]) for i in range(graph.count)
                      for j in range(graph.count)
                      if i != j and out[i] & out[j]}
            self.assertEqual(algorithms.common_neighbours(G, GT).to_dict(), shared)
            self.assertEqual(algorithms.jaccard(G, GT).to_dict(),
                             {(i, j): 10 ** 9 * many // len(out[i] | out[j])
                              for (i, j), many in shared.items()})
            some = self.session.from_triples([(i, j, 1) for i, j in list(shared)[::3]] + [(0, 0, 1)]
                                             * bool(graph.count), *G.shape)
            self.assertEqual(algorithms.common_neighbours(G, GT, some).to_dict(),
                             {pair: many for pair, many in shared.items()
                              if pair in list(shared)[::3]})
            self.assertEqual(algorithms.jaccard(G, GT, some, 1000).to_dict(),
                             {(i, j): 1000 * shared[i, j] // len(out[i] | out[j])
                              for i, j in list(shared)[::3]})
            some = [pair for pair in ((0, 1), (1, 0), (2, 2), (0, 3), (graph.count - 1, 0))
                    if max(pair) < graph.count]
            firsts, seconds = [i for i, _ in some], [j for _, j in some]
            self.assertEqual(algorithms.shared_neighbours(G, firsts, seconds).to_list(0),
                             [len(near[i] & near[j]) for i, j in some])
        self.each(graphs.ALL, look)
        with self.assertRaisesRegex(ValueError, 'no vertex'):
            algorithms.shared_neighbours(self.session.identity(3), [0], [3])
        with self.assertRaisesRegex(ValueError, '2 vertices, and 1'):
            algorithms.shared_neighbours(self.session.identity(3), [0, 1], [2])
        with self.assertRaisesRegex(ValueError, 'scale'):
            algorithms.jaccard(self.session.identity(3), scale=0)


    def test_squares(self):
        """Also where rows have to be taken some at a time, and with loops, which don't count."""
        def look(graph, near, G):
            out = [js - {i} for i, js in enumerate(near)]
            want = {}
            for i in range(graph.count):
                pairs = [len(out[i] & out[x]) for x in range(graph.count) if x != i]
                want[i, 0] = sum(k * (k - 1) // 2 for k in pairs)
            self.assertEqual(algorithms.squares(G).to_dict(), want)
            looped = G.ewise_add(self.session.identity(graph.count), 'first')
            self.assertEqual(algorithms.squares(looped).to_dict(), want)
            whole, told = spmat.Matrix.mxm, []

            def small(rows, other, *more, **named):
                if rows.nvals > len(graph.edges) // 3:
                    raise spmat.errors.refusal('J7')
                return whole(rows, other, *more, **named)
            with mock.patch.object(spmat.Matrix, 'mxm', small):
                parts = algorithms.squares(G, lambda *now: told.append(now))
            self.assertEqual(parts.to_dict(), want)
            self.assertGreater(len(told), 2)
        self.each(graphs.UNDIRECTED[2:], look)
