"""Eigenvector and Katz centrality, hubs and authorities beside plain Python in fractions
and floats: within the error that is told."""
import math

import pytest

import graphs
import support
from spmat import algorithms

pytestmark = pytest.mark.slow


def comes(edges, numbers):
    """The sum over the edges that lead to each vertex."""
    out = [0.0] * len(numbers)
    for (i, j), value in edges.items():
        out[j] += numbers[i] * value
    return out


def unit(numbers, power=2):
    length = sum(abs(number) ** power for number in numbers) ** (1 / power)
    return [number / length for number in numbers]


def iterated(step, numbers, rounds=5000):
    for _ in range(rounds):
        numbers = step(numbers)
    return numbers


SOME = [graph for graph in graphs.ALL if graph.name in ('karate', 'random', 'round and a tail')]


class Centralities(graphs.OnGraphs):
    def test_eigenvector(self):
        for graph in (graphs.UNDIRECTED[3], graphs.UNDIRECTED[4], graphs.UNDIRECTED[6]):
            for weighted in (False, True):
                edges = graph.values(weighted)
                want = iterated(lambda x: unit([a + b for a, b in zip(x, comes(edges, x))]),
                                [1.0] * graph.count, 3000)
                found = algorithms.eigenvector(graph.matrix(self.s), tolerance=1e-10, rounds=5000,
                                               weighted=weighted)
                self.assertLess(max(abs(value - x)
                                    for value, x in zip(found.by_node().values(), want)), 1e-6)
                self.assertLess(found.error, 1e-7)
                again = comes(edges, want)
                value = sum(a * b for a, b in zip(again, want))
                self.assertLess(math.dist([x / value
                                           for x in comes(edges, list(found.by_node().values()))],
                                          found.by_node().values()), found.error + 1e-9)

    def test_katz(self):
        """No number is farther off than is told, normalized or not."""
        for graph in SOME:
            for weighted, alpha in ((False, 0.03), (True, 0.001)):
                edges = graph.values(weighted)
                want = iterated(lambda x: [1 + alpha * y for y in comes(edges, x)],
                                [1.0] * graph.count, 500)
                for normalized, beta in ((True, 1.0), (False, 1.0), (False, 2.5)):
                    found = algorithms.katz(graph.matrix(self.s), alpha, beta, weighted=weighted,
                                            normalized=normalized, scale=1 << 45)
                    true = unit(want) if normalized else [beta * x for x in want]
                    self.assertLessEqual(found.error, 1e-9 * max(1, *true) + 1 / found.scale)
                    for value, x in zip(found.by_node().values(), true):
                        self.assertLessEqual(abs(value - x), found.error)

    def test_hits(self):
        for graph in SOME:
            back = {(j, i): value for (i, j), value in graph.edges.items()}
            want = iterated(lambda x: unit(comes(back, unit(comes(graph.edges, x)))),
                            [1.0] * graph.count, 3000)
            hubs, authorities = algorithms.hits(graph.matrix(self.s), tolerance=1e-10,
                                                weighted=True, rounds=5000)
            for found, true in ((hubs, unit(want, 1)),
                                (authorities, unit(comes(graph.edges, want), 1))):
                self.assertLess(max(abs(value - x)
                                    for value, x in zip(found.by_node().values(), true)), 1e-7)
                self.assertAlmostEqual(sum(found.by_node().values()), 1)

    def test_refused(self):
        G, none = graphs.UNDIRECTED[3].matrix(self.s), self.s.from_coo([], [], [], 3, 3)
        below = self.s.from_triples([(0, 1, -1), (1, 0, -1)], 2, 2)
        for words, call in (
            ('too great', lambda: algorithms.katz(G, 0.9)),
            ('alpha lies', lambda: algorithms.katz(G, 0)),
            ('can not be kept', lambda: algorithms.katz(G, 0.05, tolerance=1e-14)),
            ('0 or more', lambda: algorithms.katz(below, weighted=True)),
            ('no edge', lambda: algorithms.eigenvector(none)),
            ('no edge', lambda: algorithms.hits(none)),
            ('2 rounds', lambda: algorithms.eigenvector(G, rounds=2)),
            ('scale= of closeness is a whole number from 1 to 2.52, not 0',
             lambda: algorithms.closeness(G, scale=0)),
            ('leave no room',
             lambda: algorithms.eigenvector(self.s.from_triples([(0, 1, 1 << 50), (1, 0, 1 << 50)],
                                                                2, 2), weighted=True))):
            with self.subTest(words=words), self.assertRaisesRegex(ValueError, words):
                call()

    def test_names(self):
        G = self.s.from_edgelist([('a', 'b'), ('b', 'c')])
        self.assertEqual(list(algorithms.katz(G, 0.5).by_node()), ['a', 'b', 'c'])
        self.assertEqual(algorithms.katz(G, 0.5, normalized=False).by_node(),
                         {'a': 1, 'b': 1.5, 'c': 1.75})
        self.assertIn('error', repr(algorithms.closeness(G)))


class Large(support.InSession):
    """Vectors of many vertices."""

    def test_sums_beyond_64_bits(self):
        """Authorities of many vertices add up to more than a word."""
        count = 2000
        G = self.s.from_coo([i for i in range(count) for _ in range(9)],
                            [(i + d) % count for i in range(count) for d in range(1, 10)], 1 << 17,
                            count, count)
        for found in algorithms.hits(G, weighted=True):
            self.assertLess(max(abs(x - 1 / count) for x in found.by_node().values()), 1e-11)
