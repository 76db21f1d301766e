"""Searches that go on at the server: levels, parents and lengths are those of plain Python,
wherever the loop takes over."""
from unittest import mock

import pytest

import graphs
import support
from spmat import algorithms
from spmat.algorithms import searches, traversal

pytestmark = pytest.mark.slow

SIDE = 12
GRID = graphs.undirected('grid', SIDE * SIDE,
                         [(SIDE * r + c, SIDE * r + c + d) for r in range(SIDE) for c in range(SIDE)
                          for d in (1, SIDE) if (r < SIDE - 1 if d == SIDE else c < SIDE - 1)])
LINE = graphs.undirected('line', 80, [(i, i + 1) for i in range(79)])
SOME = [graphs.UNDIRECTED[2], graphs.UNDIRECTED[3], graphs.UNDIRECTED[5], graphs.UNDIRECTED[7],
        GRID]


class Long(support.InSession):
    def setUp(self):
        super().setUp()
        # the client has no edges
        support.enter(self, mock.patch.object(traversal, 'AT_ONCE', 0))

    def compare(self):
        for after in (0, 1, 3):
            for graph in SOME:
                with self.subTest(after=after, graph=graph.name), \
                        mock.patch.object(traversal, 'LONG', after):
                    self.one(graph, graph.count // 3)

    def one(self, graph, source):
        G, near, told = graph.matrix(self.s), graph.near(), []
        want = graphs.levels(near, source)
        found = algorithms.bfs_levels(G, source, progress=lambda *now: told.append(now))
        self.assertEqual(found.to_dict(), {(i, 0): level for i, level in want.items()})
        self.assertEqual(told, [('level', k, 0) for k in range(1, max(want.values()) + 1)])
        for depth in (0, 1, 4):
            cut = {(i, 0): level for i, level in want.items() if level <= depth}
            self.assertEqual(algorithms.bfs_levels(G, source, depth=depth).to_dict(), cut)
            self.assertEqual(algorithms.bfs_parents(G, source, depth=depth).nvals, len(cut))
        parents = {(i, 0): min(j for j in near[i] if want.get(j) == level - 1) if level else i
                   for i, level in want.items()}
        self.assertEqual(algorithms.bfs_parents(G, source).to_dict(), parents)
        told.clear()
        lengths = algorithms.sssp(G, source, progress=lambda *now: told.append(now))
        self.assertEqual(lengths.to_dict(),
                         {(i, 0): length
                          for i, length in graphs.shortest(graph.edges, near, source).items()})
        self.assertEqual([number for _, number, _ in told], list(range(1, len(told) + 1)))

    def test_models(self):
        self.compare()

    def test_targets(self):
        """A search for one vertex has what is no farther than it, wherever the loop takes over."""
        for after, few in ((0, 1), (1, 8), (3, 1)):
            for graph in [*SOME, LINE]:
                with self.subTest(after=after, few=few, graph=graph.name), \
                        mock.patch.object(traversal, 'LONG', after), \
                        mock.patch.object(searches, 'FEW_ROUNDS', few):
                    self.to_targets(graph, graph.count // 3)

    @mock.patch.object(traversal, 'LONG', 0)
    @mock.patch.object(searches, 'FEW_ROUNDS', 1)
    def test_searches_end_at_their_targets(self):
        G = LINE.matrix(self.s)
        for function in (algorithms.sssp, algorithms.bfs_levels, algorithms.shortest_path):
            steps = []
            for target in (79, 79, 30):            # the first call also looks at the graph
                before = self.s.budget().spent
                function(G, 20, target=target)
                steps.append(self.s.budget().spent - before)
            self.assertLess(1.2 * steps[2], steps[1])

    def to_targets(self, graph, source):
        G, near = graph.matrix(self.s), graph.near()
        want, lengths = graphs.levels(near, source), graphs.shortest(graph.edges, near, source)
        ends = sorted(want, key=want.__getitem__)
        alone = [i for i in range(graph.count) if i not in want]
        for end in {ends[0], ends[len(ends) // 2], ends[-1], *alone[:1]}:
            told, far = [], want.get(end, graph.count)
            found = algorithms.bfs_levels(G, source, progress=lambda *now: told.append(now),
                                          target=end)
            cut = {(i, 0): level for i, level in want.items() if level <= far}
            self.assertEqual(found.to_dict(), cut)
            self.assertEqual(told, [('level', k, 0) for k in range(1, max(cut.values()) + 1)])
            parents = algorithms.bfs_parents(G, source, target=end).to_dict()
            self.assertEqual(parents.keys(), cut.keys())
            self.assertEqual(algorithms.has_path(G, source, end), end in want)
            if end in want:
                self.assertEqual(len(algorithms.shortest_path(G, source, end)), far + 1)
                path = algorithms.shortest_path(G, source, end, weighted=True)
                self.assertEqual(path.lengths[-1], lengths[end])
                self.assertEqual(algorithms.sssp(G, source, target=end).to_dict()[end, 0],
                                 lengths[end])

    def test_directed_graphs_stay_with_the_client(self):
        for graph in graphs.DIRECTED:
            with self.subTest(graph=graph.name), mock.patch.object(traversal, 'LONG', 0):
                G, near = graph.matrix(self.s), graph.near()
                self.assertEqual(algorithms.bfs_levels(G, 0).to_dict(),
                                 {(i, 0): level for i, level in graphs.levels(near, 0).items()})
                self.assertEqual(algorithms.sssp(G, 0).to_dict(),
                                 {(i, 0): length
                                  for i, length in graphs.shortest(graph.edges, near, 0).items()})
