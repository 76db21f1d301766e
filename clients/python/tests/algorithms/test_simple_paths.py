"""The k shortest paths beside all simple paths in plain Python."""
import itertools

import pytest

import graphs
from graphs import by_chance
from spmat import algorithms

pytestmark = pytest.mark.slow


def simple_paths(near, edges, source, target):
    """All paths that pass no vertex twice, as (length, vertices), the shortest first."""
    found, waiting = [], [[source]]
    while waiting:
        path = waiting.pop()
        if path[-1] == target:
            found.append((sum(edges[pair] for pair in zip(path, path[1:])), path))
        else:
            waiting += [path + [j] for j in near[path[-1]] if j not in path]
    return sorted(found)


class SimplePaths(graphs.OnGraphs):
    def test_k_shortest(self):
        """The lengths are those of the k shortest of all simple paths, each once."""
        for seed, values in enumerate(([1], [1, 2, 3], [0, 1], [5])):
            graph = by_chance(8, 2, values, seed)
            near, G = graph.near(), graph.matrix(self.s)
            for weighted, target in itertools.product((False, True), range(1, 8)):
                edges = graph.edges if weighted else dict.fromkeys(graph.edges, 1)
                want = simple_paths(near, edges, 0, target)
                if not want:
                    with self.assertRaises(algorithms.NoPath):
                        algorithms.k_shortest_paths(G, 0, target, 3, weighted=weighted)
                    continue
                for k in (1, 3, 1000):
                    got = algorithms.k_shortest_paths(G, 0, target, k, weighted=weighted)
                    self.assertEqual([path.length for path in got],
                                     [length for length, _ in want[:k]])
                    self.assertEqual(len(set(map(tuple, got))), len(got))
                    self.assertLessEqual({tuple(path) for path in got},
                                         {tuple(path) for _, path in want})

    def test_from_a_vertex_to_itself(self):
        """Also where no edge leads there."""
        G = graphs.directed('one edge', 2, [(0, 1)]).matrix(self.s)
        self.assertEqual([algorithms.k_shortest_paths(G, at, at, 2) for at in (0, 1)],
                         [[[0]], [[1]]])

    def test_k_shortest_below_zero(self):
        edges = {(0, 1): 4, (1, 3): 4, (0, 2): 9, (2, 3): -3, (2, 1): -6, (3, 4): 0}
        G = graphs.Graph('below 0', 5, edges, True).matrix(self.s)
        got = algorithms.k_shortest_paths(G, 0, 4, 9, weighted=True)
        self.assertEqual([(path.length, list(path)) for path in got],
                         [(6, [0, 2, 3, 4]), (7, [0, 2, 1, 3, 4]), (8, [0, 1, 3, 4])])
