"""Lengths and distances between many vertices, beside plain Python: what is refused before it
begins, and what rounds take."""
import random
from unittest import mock

import pytest

import graphs
import support
import spmat
from spmat import algorithms
from spmat.algorithms import distances

pytestmark = pytest.mark.slow


class Distances(support.InSession):
    def each(self, look):
        """Looks at each graph: at its distances, its matrix, and its transpose where it has one of
        its own."""
        for graph in graphs.tried(graphs.ALL):
            with self.subTest(graph=graph.name):
                G, near = graph.matrix(self.session), graph.near()
                look(graph, [graphs.levels(near, i) for i in range(graph.count)], G,
                     G.T if graph.directed else G)

    def ring(self, count):
        """A cycle both ways."""
        i = list(range(count))
        j = [(k + 1) % count for k in i]
        return self.session.from_coo(i + j, j + i, 1, count, count)

    def test_counts(self):
        def look(graph, far, G, GT):
            want = {}
            for levels in far:
                for j, level in levels.items():
                    if level:
                        want[level, j] = want.get((level, j), 0) + 1
            got = {(k, j): many for k, column in enumerate(algorithms.distance_counts(G, GT), 1)
                   for (j, _), many in column.to_dict().items()}
            self.assertEqual(got, want)
        self.each(look)

    def test_batches(self):
        """More searches than a batch has bits, and the sign's bit among them."""
        G = self.ring(70)
        with mock.patch.object(distances, 'MOST_WORDS', 1):
            single = [column.to_list() for column in algorithms.distance_counts(G, G)]
        self.assertEqual(single, [[2] * 70] * 34 + [[1] * 70])
        self.assertEqual([column.to_list() for column in algorithms.distance_counts(G, G)], single)

    def test_bits(self):
        numbers = [0, 1, -1, 1 << 63, -(1 << 63), 0x5555, -2, (1 << 62) + 5]
        words = [number - (1 << 64) if number >= 1 << 63 else number for number in numbers]
        column = self.session.from_coo(range(len(words)), [0] * len(words), words)
        self.assertEqual(column.apply(distances.BITS).to_list(),
                         [bin(number & (1 << 64) - 1).count('1') for number in words])

    def test_eccentricity_and_diameter(self):
        def look(graph, far, G, GT):
            want = {(i, 0): max(levels.values()) for i, levels in enumerate(far) if len(levels) > 1}
            self.assertEqual(algorithms.eccentricity(G, GT).to_dict(), want)
            if graph.count and all(len(levels) == graph.count for levels in far):
                exact = max(max(levels.values()) for levels in far)
                self.assertEqual(algorithms.diameter(G, GT), (exact, exact))
                for searches in (1, 2, 5, 100):
                    bounds = algorithms.diameter(G, GT, searches)
                    self.assertLessEqual(bounds.least, exact)
                    self.assertGreaterEqual(bounds.most, exact)
                self.assertEqual(bounds, (exact, exact), 'a search from each vertex')
            else:
                for searches in (None, 3):
                    with self.assertRaisesRegex(ValueError, 'reach|no vertex'):
                        algorithms.diameter(G, GT, searches)
        self.each(look)

    def test_diameter_of_long_paths_takes_few_searches(self):
        side, chance = 24, random.Random(2)
        at = {(i, j): i * side + j for i in range(side) for j in range(side)}
        pairs = [(at[i, j], at[k, m]) for i, j in at for k, m in ((i + 1, j), (i, j + 1))
                 if (k, m) in at]
        cuts = chance.sample([pair for pair in pairs if pair[0] % side and pair[0] >= side], 60)
        grid = graphs.undirected('grid', side * side, [pair for pair in pairs if pair not in cuts])
        exact = max(max(graphs.levels(grid.near(), i).values()) for i in range(grid.count))
        one_way = graphs.directed('one way', side * side,
                                  {*grid.edges, (0, side * side - 1), (5, 300)})
        for graph in (grid, one_way):
            G, told = graph.matrix(self.session), []
            G.nodes = chance.sample(range(side * side), side * side)
            found = (max(max(graphs.levels(graph.near(), i).values()) for i in range(graph.count))
                     if graph is one_way else exact)
            self.assertEqual(algorithms.diameter(G, progress=lambda *now: told.append(now)),
                             (found, found))
            searches = [number for word, number, of in told if word == 'search' and of == 0]
            self.assertEqual(searches, list(range(1, len(searches) + 1)))
            self.assertLess(len(searches), 16)
            self.assertLessEqual(len([now for now in told if now[0] == 'batch']), 2)

    def test_diameter_names_a_vertex_that_is_not_reached(self):
        G = self.session.from_edgelist([('a', 'b'), ('b', 'a'), ('c', 'a')])
        for searches in (None, 1):
            with self.assertRaisesRegex(ValueError,
                                        "there is no diameter, as no path leads from '[ab]' to "
                                        "'c'"):
                algorithms.diameter(G, searches=searches)
            with self.assertRaisesRegex(ValueError,
                                        "there is no diameter, as no path leads to '[ab]' from "
                                        "'c'"):
                algorithms.diameter(G.T, searches=searches)

    def test_path_lengths(self):
        def look(graph, far, G, _):
            near = graph.near()
            for sources in ([0], [graph.count - 1, 0, 0],
                            range(graph.count)) if graph.count else []:
                want = {(row, j): length for row, i in enumerate(sources)
                        for j, length in graphs.shortest(graph.edges, near, i).items()}
                self.assertEqual(algorithms.path_lengths(G, sources).to_dict(), want)
        self.each(look)
        with self.assertRaisesRegex(ValueError, 'no vertex'):
            algorithms.path_lengths(self.ring(3), [0, 3])
        W = self.session.from_triples([(0, 1, 3), (1, 2, -5), (2, 1, 1)], 3, 3)
        with self.assertRaisesRegex(ValueError, 'negative length'):
            algorithms.path_lengths(W, [0])
        with self.assertRaisesRegex(ValueError, '2\\^60'):
            algorithms.path_lengths(self.session.from_triples([(0, 1, 1 << 61)], 2, 2), [0])

    def test_long_lengths(self):
        """Lengths that leave no bit for a mark."""
        long = 1 << 61
        W = self.session.from_triples([(0, 1, long), (1, 2, long), (0, 2, long + long // 2),
                                       (2, 3, -long)], 4, 4)
        self.assertEqual(algorithms.all_pairs(W).to_dict(), {
            (0, 0): 0, (0, 1): long, (0, 2): long + long // 2, (0, 3): long // 2, (1, 1): 0,
            (1, 2): long, (1, 3): 0,
            (2, 2): 0, (2, 3): -long, (3, 3): 0})
        with self.assertRaisesRegex(ValueError, 'negative length'):
            algorithms.all_pairs(self.session.from_triples([(0, 1, -long), (1, 0, long - 1)], 2, 2))
        steps = [(k, k + 1, 3 << 59) for k in range(9)]
        with self.assertRaisesRegex(ValueError, '2\\^63'):
            # where all of them together would wrap
            algorithms.all_pairs(self.session.from_triples(steps, 10, 10))

    def test_rounds(self):
        """A ring is squared while its rows are short, so that rounds are an eighth of its longest
        paths; what is refused in later rounds is refused before the first."""
        told = []
        found = algorithms.all_pairs(self.ring(60), lambda *now: told.append(now))
        self.assertEqual(sorted(found.to_coo(arrays=False)[2]),
                         sorted(min(k, 60 - k) for k in range(60) for _ in range(60)))
        self.assertEqual([number for _, number, _ in told], list(range(1, len(told) + 1)))
        self.assertLessEqual(len(told), 30 // 8 + 2)

    def test_work(self):
        """Each pair is lengthened once by each edge: steps grow as pairs times edges, and not as
        the cube of the vertices."""
        graph = graphs.UNDIRECTED[3]
        G, before = graph.matrix(self.session).apply('one'), self.session.budget().spent
        algorithms.all_pairs(G).wait()
        spent, n, m = self.session.budget().spent - before, graph.count, len(graph.edges)
        self.assertLessEqual(spent, 9 * n * m + 12 * n * n * 8)
        self.assertGreater(spent, n * m)

    def test_refused_before_it_begins(self):
        """A ring whose pairs are more than a matrix holds, and a graph of many that fits."""
        with mock.patch.object(distances, 'MOST_SIDE', 100):
            runs = self.session.runs
            with self.assertRaisesRegex(spmat.TooLarge, '144 pairs.*path_lengths'):
                algorithms.all_pairs(self.ring(12))
            with self.assertRaises(spmat.TooLarge):
                algorithms.transitive_closure(self.ring(12))
            self.assertLess(self.session.runs - runs, 400)
            apart = self.session.from_triples([(2 * k, 2 * k + 1, 1) for k in range(20)], 40, 40)
            self.assertEqual(algorithms.transitive_closure(apart).nvals, 20)
