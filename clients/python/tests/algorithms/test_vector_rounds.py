"""Rounds of eigenvector and Katz centrality, hubs and authorities: no sum passes a word, a share is
rounded by less than 1, numbers in blocks are those of one session, and looks are few."""
import random
from fractions import Fraction
from unittest import mock

import numpy
import pytest

import graphs
import support
import spmat_blocks as blocks
from spmat import algorithms
from spmat.algorithms import rounds
from spmat.algorithms.rounds import MOST_AHEAD, Rounds, Scale, scale_of
from spmat.algorithms.centralities import Grown, hand_on
from spmat.loops import State
from spmat.operators.evaluation import evaluate

pytestmark = pytest.mark.slow

SIDE = 9
GRID = graphs.undirected('grid', SIDE * SIDE,
                         [(SIDE * r + c, SIDE * r + c + step) for r in range(SIDE)
                          for c in range(SIDE) for step in (1, SIDE) if (c if step == 1 else r)
                          < SIDE - 1])
STAR = graphs.undirected('star and path', 60,
                         [(0, i) for i in range(1, 40)] + [(i, i + 1) for i in range(39, 57)])
ALPHAS = (Fraction(1, 10), Fraction(1, 3), Fraction(1, 8), Fraction(1, 10 ** 6 + 3),
          Fraction(999999, 10 ** 6), Fraction(1, 1 << 61), Fraction(7, 2), Fraction(10 ** 6 + 1, 3))


def random_graph(seed, most=1):
    """A directed or an undirected graph, even or with hubs, some of whose vertices no edge leads
    to."""
    chance = random.Random(seed)
    count = chance.randint(5, 60)
    pairs = {(int(count * chance.random() ** (1 + 2 * (seed % 2))), chance.randrange(count))
             for _ in range(4 * count)}
    make = graphs.undirected if seed % 4 < 2 else graphs.directed
    graph = make('random', count, sorted((i, j) for i, j in pairs if i != j))
    return (graph._replace(edges={edge: chance.randint(1, most) for edge in graph.edges})
            if most > 1 else graph)


def column(session, values):
    return session.from_coo(range(len(values)), [0] * len(values), values, len(values), 1)


class Shares(support.InSession):
    def test_shares(self):
        """Of sums of all sizes: less than 1 away from the exact share, and the same at the
        server."""
        chance = random.Random(1)
        for share in ALPHAS:
            for bits in (3, 31, 40, 42, 47, 58, 61):
                bits = min(bits, 61 - int(share).bit_length())
                sums = [0, 1, (1 << bits) - 1,
                        *(chance.getrandbits(chance.randint(1, bits)) for _ in range(30))]
                units = column(self.s, [1 << 20] * len(sums))
                got = units.ewise_add(column(self.s, sums), hand_on(share)).to_list()
                for x, found in zip(sums, got):
                    self.assertLess(abs(found - (1 << 20) - share * x), 1, (share, x))
                    if share.denominator <= 10 and (share * x).denominator == 1:
                        self.assertEqual(found, (1 << 20) + share * x)

    def test_few_steps(self):
        """No share divides, and one takes 16 instructions."""
        made = hand_on(Fraction(1, 10))
        self.assertEqual(self.s.backend.upload(made).instructions, 16)
        self.assertNotIn('div', made.text)

    def test_scales(self):
        """A factor is rounded down by no more than is said, never wraps, and is the same at the
        server."""
        chance = random.Random(2)
        some = [(1.0, 42), (2.0 ** -19, 42), (2.0 ** -18.3, 42), (2.0 ** -40.2, 20)]
        some += [(chance.choice((1.0, chance.random(), 2.0 ** -chance.uniform(0, 20))),
                  chance.randint(16, 42)) for _ in range(40)]
        for factor, bits in some:
            scale = scale_of(factor, bits)
            self.assertTrue(.9 * factor < scale.value <= factor)
            most = min((1 << 62) - 1, int(2.0 ** bits / scale.value))
            numbers = [0, 1, most, *(chance.randint(0, most) for _ in range(20))]
            got = evaluate(scale.operator('unary', 'mov64 r0, r1\n'),
                           numpy.array(numbers, numpy.int64)).tolist()
            for x, found in zip(numbers, got):
                exact = x * scale.times / Fraction(1 << scale.first + scale.then)
                self.assertTrue(0 <= exact - found < scale.rounding + 1e-9, (scale, x))
            self.assertEqual(column(self.s,
                                    numbers).apply(scale.operator('unary',
                                                                  'mov64 r0, r1\n')).to_list(), got)


class Words(support.InSession):
    """What rounds make is the same in integers without an end."""

    def check(self, graph, weighted):
        """Makes rounds one by one, with each sum looked at."""
        G = graph.matrix(self.s)
        into, out = numpy.zeros((graph.count, graph.count),
                                object), numpy.zeros((graph.count, graph.count), object)
        for (i, j), value in graph.edges.items():
            into[j, i] = out[i, j] = value if weighted else 1
        looked = []

        def advance(one, kind, count):
            read = kind.products.read
            for _ in range(count):
                before = one.state.now
                made, x = kind.make(before), [int(value) for value in read(before)]
                looked.append(1)
                if isinstance(kind, Grown):
                    sums = numpy.array(x, object) + into.dot(x)
                else:
                    sums = out.dot([int(value) >> kind.shift for value in into.dot(x)])
                self.assertLess(max(sums), 1 << 63)
                self.assertEqual([(int(value) >> kind.scale.first) * kind.scale.times
                                  >> kind.scale.then for value in sums],
                                 read(made['now']).tolist())
                one._state = State({'came': before, **made, 'before': before})  # as a loop does
                one.number += 1
        for function in (algorithms.eigenvector, algorithms.hits):
            with mock.patch.object(Rounds, 'advance', advance):
                try:
                    function(G, rounds=200, weighted=weighted)
                except ValueError as fault:
                    self.assertIn('rounds, and numbers still change', str(fault))
        return len(looked)

    def test_rounds(self):
        for seed in range(24):
            most = (1, 9, 10 ** 4, 10 ** 9)[seed // 4 % 4]
            graph = random_graph(seed, most)
            with self.subTest(seed=seed):
                self.assertGreater(self.check(graph, most > 1), 4)
        for graph in (STAR, GRID):
            self.check(graph, False)
        for value in (1 << 20, 3 << 30):           # sums are as great as weights allow
            self.check(graphs.Graph('complete', 12,
                                    {(i, j): value for i in range(12) for j in range(12)}, True),
                       True)

    def test_what_is_little_grows(self):
        """A number of nearly 0 grows by any factor: one that the last round shows to hold for the
        others says nothing of it."""
        for little in (16, 17, 1 << 20):
            room, numbers = rounds.Room(20, 1 << 30), [1 << 20, little, 0]
            room.note(numpy.array([1 << 20, 0, 0]), numpy.array(numbers), Scale(0, 16, 4))
            scale, count = room.choose(1 << 20, 8)
            for _ in range(count):
                numbers = [(x >> scale.first) * scale.times >> scale.then
                           for x in (numbers[0], numbers[2] << 30, numbers[1] << 30)]
                self.assertLessEqual(max(numbers), 1 << 22, little)

    def test_numbers_that_grow(self):
        """Without what a bound says of the next rounds, sums do pass a word: this test would see
        it."""
        with mock.patch.object(rounds.Room, 'choose',
                               lambda room, most, ahead: (Scale(0, 16, 4), 8)), \
                self.assertRaises((AssertionError, OverflowError)):
            self.check(STAR, False)


class AtTheServer(support.InSession):
    CALLS = {'eigenvector': lambda G, **named: [algorithms.eigenvector(G, rounds=300,
                                                                       tolerance=1e-4, **named)],
             'hits': lambda G, **named: list(algorithms.hits(G, tolerance=1e-4, **named)),
             'katz': lambda G, **named: [algorithms.katz(G, 1e-3 if named.get('weighted') else .05,
                                                         **named)]}

    def counted(self, call):
        """What a call comes to, its looks, its rounds by the progress that it tells, and its
        commands."""
        looks, told, real = [], [], Rounds.advance

        def advance(one, kind, count):
            looks.append(count)
            real(one, kind, count)
        before = self.s.connection.commands
        with mock.patch.object(Rounds, 'advance', advance):
            found = call(lambda word, number, of: told.append(number))
        return found, looks, told, self.s.connection.commands - before

    def test_in_blocks(self):
        """Numbers, rounds and errors are those of one session."""
        with blocks.Sessions(2) as many:
            for graph in (GRID, STAR, random_graph(3), random_graph(2, 9)):
                for name, call in self.CALLS.items():
                    weighted = graph.name == 'random'
                    for one, two in zip(call(graph.matrix(self.s), weighted=weighted),
                                        call(graph.matrix(many), weighted=weighted)):
                        self.assertEqual((one.to_list(), one.rounds, one.error),
                                         (two.to_list(), two.rounds, two.error),
                                         (graph.name, name, weighted))

    def test_few_looks(self):
        """Most rounds pass unasked, and each is told of once."""
        for name, call in self.CALLS.items():
            G = GRID.matrix(self.s)
            found, looks, told, commands = self.counted(
                lambda progress, call=call, G=G: call(G, progress=progress))
            self.assertEqual(told, list(range(1, found[0].rounds + 1)), name)
            self.assertGreater(len(told), 12, name)
            self.assertLessEqual(len(looks), 5 + len(told) / MOST_AHEAD, name)
            with mock.patch.object(rounds, 'MOST_AHEAD', 1):
                more = self.counted(lambda progress, call=call, G=G: call(G, progress=progress))[3]
            self.assertLess(commands, more, name)

    def test_vertices_without_edges(self):
        """Of edges that are known to lead both ways they fall out, so that a round takes 2 jobs."""
        G = STAR.matrix(self.s)
        algorithms.triangle_count(G)               # which finds that out
        before, jobs = algorithms.eigenvector(G, tolerance=1e-6), self.s.jobs
        found = algorithms.eigenvector(G, tolerance=1e-6)
        self.assertLessEqual(self.s.jobs - jobs, 2 * found.rounds + 2)
        self.assertEqual(before.to_list(), found.to_list())
        self.assertEqual(found.to_list()[58:], [0, 0])
        self.assertLess(found.error, 1e-3)

    def test_alpha_above_one(self):
        G = self.s.from_triples([(0, 1, 1), (1, 2, 1), (0, 2, 1)], 3, 3)
        self.assertEqual(list(algorithms.katz(G, 3.0, normalized=False).by_node().values()),
                         [1, 4, 16])
        self.assertEqual(list(algorithms.katz(G, 2.5, normalized=False).by_node().values()),
                         [1, 3.5, 12.25])

    @support.needs('networkx')
    def test_beside_networkx(self):
        import networkx
        for seed in range(8):
            made = networkx.gnp_random_graph(40, .15, seed=seed, directed=seed % 2 == 1)
            for number, (u, v) in enumerate(made.edges):
                made[u][v]['weight'] = 1 + number * 7919 % 5
            G = self.s.from_networkx(made)
            for weight in (None, 'weight'):
                pairs = ((algorithms.katz(G, .01, weighted=bool(weight)),
                          networkx.katz_centrality(made, .01, weight=weight, tol=1e-10)),
                         (algorithms.eigenvector(G, tolerance=1e-9, weighted=bool(weight)),
                          networkx.eigenvector_centrality(made, 2000, 1e-10, weight=weight)))
                for found, want in pairs:
                    for node, value in found.by_node().items():
                        self.assertAlmostEqual(value, want[node], 6)
            hubs, authorities = networkx.hits(made)
            for found, want in zip(algorithms.hits(G, weighted=True, tolerance=1e-10, rounds=5000),
                                   (hubs, authorities)):
                for node, value in found.by_node().items():
                    self.assertAlmostEqual(value, abs(want[node]), 6)
