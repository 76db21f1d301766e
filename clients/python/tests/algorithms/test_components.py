"""Components of all kinds, and searches that look at all vertices."""
import unittest
from unittest import mock

import numpy

import graphs
import spmat_blocks as blocks
from spmat import algorithms
from spmat.algorithms import components, traversal
from support import InSession, enter


def least_of(groups, count):
    """The least vertex of each one's group; of those in none their own number."""
    out = list(range(count))
    for group in groups:
        for at in group:
            out[at] = min(group)
    return out


def reached(near, source):
    return set(graphs.levels(near, source))


def strong_groups(near):
    there = [reached(near, i) for i in range(len(near))]
    return [{j for j in there[i] if i in there[j]} for i in range(len(near))]


class Labelled(unittest.TestCase):
    def test_labels(self):
        """Pairs of vertices, part by part, join what paths join, wherever blocks of labels end."""
        chance = numpy.random.default_rng(3)
        for count in (1, 2, 9, 100):
            for block, few in ((1, 16), (7, 3), (64, 4), (1 << 13, 1 << 30)):
                labels, near = components.Labels(count), [set() for _ in range(count)]
                for many in (count, 1, count // 3, count // 3):
                    before, pairs = labels.of.copy(), chance.integers(0, count, (2, many))
                    for i, j in pairs.T.tolist():
                        near[i].add(j)
                        near[j].add(i)
                    with mock.patch.multiple(components, BLOCK=block, FEW_PAIRS=few):
                        some = labels.join(*pairs)
                    self.assertEqual(labels.of.tolist(),
                                     least_of([reached(near, i) for i in range(count)], count))
                    self.assertEqual(some, not numpy.array_equal(labels.of, before))


class Parts(InSession):
    """Components and strong components as plain Python has them."""

    def test_strong_components(self):
        for graph in graphs.ALL:
            with self.subTest(graph=graph.name):
                G, near = graph.matrix(self.session), graph.near()
                want = least_of(strong_groups(near), graph.count)
                for at_once, most, few, pulls in ((1 << 15, 1 << 18, 1 << 9, 16),
                                                  (1 << 15, 1 << 18, 0, 16), (0, 1 << 18, 0, 16),
                                                  (0, 1 << 18, 0, 1), (0, 0, 0, 1)):
                    if most or graph.count < 40:
                        with mock.patch.multiple(components, AT_ONCE=at_once, SMALL=most,
                                                 FEW=few, PULLS=pulls):
                            G.kept.pop('transpose', None)
                            self.assertEqual(algorithms.strongly_connected_components(G).to_list(),
                                             want)

    def test_blocks(self):
        with blocks.Sessions(3) as many:
            for graph in graphs.ALL:
                G = many.from_triples([(i, j, 1) for i, j in graph.edges], graph.count, graph.count)
                groups = [reached(graphs.both_ways(graph.near()), i) for i in range(graph.count)]
                self.assertEqual(algorithms.connected_components(G).to_list(),
                                 least_of(groups, graph.count), graph.name)
                if graph.name in {one.name for one in graphs.UNDIRECTED[:6]}:
                    forest = algorithms.minimum_spanning_forest(G).to_triples()
                    with mock.patch.object(components, 'AT_ONCE', 0):
                        self.assertEqual(algorithms.minimum_spanning_forest(G).to_triples(), forest)

    def test_many_parts_beside_a_hub(self):
        """Parts whose members have lesser and greater neighbours than the hub, to which only one of
        them has an edge: no more rounds than the logarithm."""
        hub, pairs = 500, []
        for k in range(100):
            low, high = [k, 100 + k, 200 + k], [600 + k, 700 + k, 800 + k]
            part = low + high
            pairs += [(a, b) for a in part for b in part if a < b] + [(300 + k, low[0]),
                                                                      (900 + k, high[0]),
                                                                      (low[1], hub)]
        graph = graphs.undirected('hub', 1001, pairs + [(hub, 499), (hub, 1000)])
        told = []
        got = algorithms.connected_components(graph.matrix(self.session),
                                              progress=lambda *now: told.append(now)).to_list()
        self.assertEqual(got, least_of([reached(graph.near(), hub)], 1001))
        self.assertLessEqual(len(told), 8)

    def test_components_of_a_few_edges(self):
        for seed in range(20):
            edges = sorted(graphs._random_pairs(30, 20 + 3 * seed, seed))
            near = [set() for _ in range(30)]
            for i, j in edges:
                near[i].add(j)
            rows, columns = [i for i, _ in edges], [j for _, j in edges]
            at, labels = components.find_strong_components(numpy.array(rows),
                                                           numpy.array(columns))
            out = list(range(30))
            for i, label in zip(at.tolist(), labels.tolist()):
                out[i] = label
            self.assertEqual(out, least_of(strong_groups(near), 30))
            self.assertEqual(at.tolist(), sorted({*rows, *columns}))


class Scans(InSession):
    """Searches whose large fronts are taken by jobs over all vertices, as on large graphs."""

    def setUp(self):
        super().setUp()
        enter(self, mock.patch.multiple(traversal, SMALL=0, AT_ONCE=0))

    def test_searches(self):
        scanned = []
        step = traversal.Rows.step
        with mock.patch.object(traversal.Rows, 'step', lambda *given, **named: scanned.append(1)
                               or step(*given, **named)):
            for graph in graphs.ALL:
                if not graph.count:
                    continue
                G, near = graph.matrix(self.session), graph.near()
                levels = graphs.levels(near, 0)
                found = algorithms.bfs_levels(G, 0).to_dict()
                self.assertEqual(found, {(i, 0): level for i, level in levels.items()}, graph.name)
                parents = algorithms.bfs_parents(G, 0).to_dict()
                self.assertEqual(set(parents), set(found))
                for (i, _), parent in parents.items():
                    before = [j for j in levels if i in near[j] and levels[j] + 1 == levels[i]]
                    self.assertEqual(parent, min(before, default=0), graph.name)
                ones = algorithms.sssp(G.apply('one'), 0).to_dict()
                self.assertEqual(ones, found, graph.name)
        self.assertGreater(len(scanned), 20)
