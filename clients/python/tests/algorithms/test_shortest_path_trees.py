"""Paths beside plain Python: each is a path of the graph, as short as any, by edges and by their
values; what is refused."""
import itertools
import random
import unittest

import pytest

import graphs
from graphs import by_chance
import spmat
from spmat import algorithms

pytestmark = pytest.mark.slow


class Routes(graphs.OnGraphs):
    def holds(self, graph, path, source, target, far, weighted):
        """A path that is one, and no longer than the shortest."""
        self.assertEqual((path[0], path[-1], len(set(path))), (source, target, len(path)))
        lengths = list(itertools.accumulate((graph.edges[pair] if weighted else 1
                                             for pair in path.edges), initial=0))
        self.assertEqual(path.lengths, lengths)
        self.assertEqual(path.length, far[target])

    def far(self, graph, near, source, weighted):
        return (graphs.shortest(graph.edges, near, source) if weighted
                else graphs.levels(near, source))

    def test_trees(self):
        """A path to each vertex that is reached, and predecessors with the least number; nothing
        else is in the tree."""
        def look(graph, near, G):
            for weighted, source in itertools.product((False, True),
                                                      sorted({0, graph.count // 2} if graph.count
                                                             else ())):
                tree, far = algorithms.shortest_paths(G, source,
                                                      weighted=weighted), self.far(
                                                          graph, near, source, weighted)
                self.assertEqual(tree.lengths.to_dict(),
                                 {(i, 0): length for i, length in far.items()})
                step = graph.edges if weighted else dict.fromkeys(graph.edges, 1)
                parents = {(j, 0): min(i for i in far if (i, j) in step
                                       and far[i] + step[i, j] == far[j]) for j in far
                           if j != source}
                self.assertEqual(tree.predecessors.to_dict(), {**parents, (source, 0): source})
                self.assertEqual((len(tree), tree.source), (len(far), source))
                for target in range(graph.count):
                    self.assertEqual(target in tree, target in far)
                    if target in far:
                        self.holds(graph, tree.path(target), source, target, far, weighted)
                    else:
                        with self.assertRaises(algorithms.NoPath):
                            tree.path(target)
        self.each(graphs.ALL, look)

    def test_pairs(self):
        def look(graph, near, G):
            chance = random.Random(graph.count)
            for weighted, _ in itertools.product((False, True), range(2 if graph.count else 0)):
                source, target = chance.randrange(graph.count), chance.randrange(graph.count)
                far = self.far(graph, near, source, weighted)
                self.assertIs(algorithms.has_path(G, source, target), target in far)
                if target in far:
                    self.holds(graph,
                               algorithms.shortest_path(G, source, target, weighted=weighted),
                               source, target, far, weighted)
                else:
                    with self.assertRaisesRegex(algorithms.NoPath,
                                                'no path leads from %d to %d' % (source, target)):
                        algorithms.shortest_path(G, source, target, weighted=weighted)
        self.each(graphs.ALL, look)

    def test_values_of_all_sizes(self):
        """Values of 0, where edges as long as their ends are apart lie on cycles; below 0; and so
        great that a word has no room for a vertex."""
        for seed, values in enumerate(([0], [0, 1], [0, 0, 3], [1, 2], [1, 1 << 57],
                                       [1 << 57, 1 << 58], [7])):
            graph = by_chance(40, 3, values, seed)
            near, G = graph.near(), graph.matrix(self.s)
            far = graphs.shortest(graph.edges, near, 0)
            tree = algorithms.shortest_paths(G, 0, weighted=True)
            for target in far:
                self.holds(graph, tree.path(target), 0, target, far, True)
            target = max(far, key=far.__getitem__)
            self.holds(graph, algorithms.shortest_path(G, 0, target, weighted=True), 0, target, far,
                       True)
            potential = [k * 31 % 37 for k in range(graph.count)]
            shifted = graph._replace(edges={(i, j): value + potential[j] - potential[i]
                                            for (i, j), value in graph.edges.items()})
            tree, moved = algorithms.shortest_paths(shifted.matrix(self.s), 0,
                                                    weighted=True), {i: x + potential[i]
                                                                     - potential[0]
                                                                     for i, x in far.items()}
            for target in far:
                self.holds(shifted, tree.path(target), 0, target, moved, True)

    def test_cutoff(self):
        graph = graphs.UNDIRECTED[4]
        G, near = graph.matrix(self.s), graph.near()
        for weighted, cutoff in ((False, 3), (True, 20), (False, 0)):
            tree, far = algorithms.shortest_paths(G, 0, weighted=weighted,
                                                  cutoff=cutoff), self.far(graph, near, 0, weighted)
            within = {i: x for i, x in far.items() if x <= cutoff}
            self.assertEqual(tree.lengths.to_dict(), {(i, 0): x for i, x in within.items()})
            self.assertEqual(set(tree.predecessors.to_dict()), {(i, 0) for i in within})
            for target in within:
                self.holds(graph, tree.path(target), 0, target, far, weighted)

    def test_names(self):
        """Vertices by their names, in and out."""
        G = self.s.from_edgelist([('Anna', 'Bob', 12), ('Bob', 'Cid', 3), ('Cid', 'Anna', 7),
                                  ('Cid', 'Dora', 1), ('Anna', 'Dora', 90)])
        self.assertEqual(algorithms.shortest_path(G, 'Anna', 'Dora'), ['Anna', 'Dora'])
        path = algorithms.shortest_path(G, 'Anna', 'Dora', weighted=True)
        self.assertEqual((path, path.lengths, path.length),
                         (['Anna', 'Bob', 'Cid', 'Dora'], [0, 12, 15, 16], 16))
        self.assertEqual(path.edges, [('Anna', 'Bob'), ('Bob', 'Cid'), ('Cid', 'Dora')])
        tree = algorithms.shortest_paths(G, 'Bob', weighted=True)
        self.assertEqual((tree.path('Dora'), tree.lengths.by_node()),
                         (['Bob', 'Cid', 'Dora'], {'Anna': 10, 'Bob': 0, 'Cid': 3, 'Dora': 4}))
        self.assertIn('Anna', tree)
        self.assertEqual(algorithms.k_shortest_paths(G, 'Anna', 'Dora', 2, weighted=True),
                         [path, ['Anna', 'Dora']])
        self.assertEqual(algorithms.path_lengths(G, ['Bob']).to_triples(),
                         [(0, 0, 10), (0, 1, 0), (0, 2, 3), (0, 3, 4)])
        self.assertEqual(algorithms.shared_neighbours(G, ['Anna'], ['Cid']).to_list(), [1])
        with self.assertRaisesRegex(ValueError, "did you mean 'Anna'"):
            algorithms.shortest_path(G, 'anna', 'Dora')
        with self.assertRaisesRegex(algorithms.NoPath, "no path leads from 'Dora' to 'Anna'"):
            algorithms.shortest_path(G, 'Dora', 'Anna')

    def test_refused(self):
        G = self.s.from_triples([(0, 1, 3), (1, 2, -5), (2, 1, 1)], 4, 4)
        for function in (lambda: algorithms.shortest_path(G, 0, 2, weighted=True),
                         lambda: algorithms.shortest_paths(G, 0, weighted=True),
                         lambda: algorithms.k_shortest_paths(G, 0, 2, 2, weighted=True)):
            with self.assertRaisesRegex(ValueError, 'negative length'):
                function()
        for function in (algorithms.shortest_path, algorithms.has_path):
            with self.assertRaisesRegex(ValueError, 'no vertex 4'):
                function(G, 0, 4)
        with self.assertRaisesRegex(ValueError, '1 or more'):
            algorithms.k_shortest_paths(G, 0, 1, 0)

    def test_runs(self):
        """A path by edges takes the runs of its search; one by values 1 more."""
        graph = graphs.UNDIRECTED[4]
        G = graph.matrix(self.s)
        algorithms.sssp(G, 0)
        for function, weighted in ((algorithms.bfs_levels, False), (algorithms.sssp, True)):
            before = self.s.runs
            function(G, 0)
            searched, before = self.s.runs - before, self.s.runs
            algorithms.shortest_paths(G, 0, weighted=weighted)
            self.assertEqual(self.s.runs - before, searched + 1)


class InBlocks(unittest.TestCase):
    def test_blocks(self):
        """The same paths in row blocks."""
        import spmat_blocks as blocks
        graph, zeros = by_chance(60, 3, [1, 2, 9], 3), by_chance(60, 3, [0, 1], 4)
        with spmat.Session() as session, blocks.Sessions(3) as sessions:
            for drawn in (graph, zeros):
                triples = [(i, j, value) for (i, j), value in drawn.edges.items()]
                one, many = session.from_triples(triples, 60,
                                                 60), sessions.from_triples(triples, 60, 60)
                for weighted in (False, True):
                    tree, other = (algorithms.shortest_paths(G, 0, weighted=weighted)
                                   for G in (one, many))
                    self.assertEqual(tree.lengths.to_dict(), other.lengths.to_dict())
                    self.assertEqual({target: other.path(target).length for target in range(60)
                                      if target in other},
                                     {target: tree.path(target).length for target in range(60)
                                      if target in tree})
                    self.assertEqual(algorithms.shortest_path(many, 0, 17,
                                                              weighted=weighted).length,
                                     tree.path(17).length)
            got, want = ([path.length
                          for path in algorithms.k_shortest_paths(G, 0, 5, 3, weighted=True)]
                         for G in (many, one))
            self.assertEqual(got, want)
