"""What the algorithms say that they cost in runs, that they tell how far they are, and products
that are too large for one job."""
import collections
import functools
import os
import random
import sys
import unittest
from unittest import mock

import pytest

import graphs
import support
import spmat
from spmat import algorithms
from spmat.algorithms import cached_properties, traversal
from spmat.algorithms.registry import ALGORITHMS, Size
from spmat.algorithms.utils import column, loops, nothing, product

pytestmark = pytest.mark.slow

WITHOUT_CYCLES = ('topological_levels', 'longest_paths')       # what refuses a graph with a cycle


class Costs(unittest.TestCase):
    def setUp(self):
        # so few that it matters how many are taken
        self.session = spmat.Session(1 << 50, program=support.program())
        self.graph = graphs.UNDIRECTED[3]
        self.G = self.graph.matrix(self.session)

    def tearDown(self):
        self.session.close()

    def runs(self, function, *more, **named):
        """The runs of a call, its result's among them."""
        before = self.session.runs
        result = function(*more, **named)
        if isinstance(result, spmat.Matrix):
            result.wait()
        return self.session.runs - before

    def bounded(self, graph):
        """The algorithms that say the most runs that they take, each with a call of it on a graph
        that it is for."""
        lower = graphs.directed(graph.name, graph.count, {(i, j) for i, j in graph.edges if i < j})
        for name, one in sorted(ALGORITHMS.items()):
            if one.runs:
                own = lower if name in WITHOUT_CYCLES else graph
                G = own.matrix(self.session)
                given = {'source': 0, 'k': 3, 'GT': G, 'WT': G}
                named = {what: given[what] for what in one.parameters if what in given
                         and own is graph}
                told = []
                if 'progress' in one.parameters:
                    named['progress'] = lambda word, number, of, told=told: told.append(number)
                yield one, own, told, functools.partial(one.function, G, **named)

    def size(self, graph, told):
        """What a bound is reckoned from."""
        return Size(graph.count, len(told))

    def test_runs(self):
        """Each algorithm takes no more runs than it says, and up to 4 for checks, which are made
        once. A number that doesn't depend on the graph stands in the docstring."""
        seen = set()
        for one, graph, told, call in self.bounded(self.graph):
            for checks in (4, 0):
                told.clear()
                took = self.runs(call)
                self.assertLessEqual(took, one.runs(self.size(graph, told)) + checks,
                                     one.function.__name__)
            if one.runs(Size(1, 1)) == one.runs(Size(9, 9)):
                self.assertIn(' %d runs' % one.runs(Size(1, 1)),
                              ' '.join(one.function.__doc__.split()))
            seen.add(one.function.__name__)
        self.assertLessEqual({'degrees', 'bfs_levels', 'k_truss', 'longest_paths'}, seen)

    def counted(self, function, *more, **named):
        """The words and numbers that the progress function is told, and the runs."""
        told = []
        runs = self.runs(function, *more, progress=lambda *now: told.append(now), **named)
        self.assertEqual([number for _, number, _ in told], list(range(1, len(told) + 1)))
        self.assertLessEqual(len({word for word, _, _ in told}), 1)
        return told, runs

    def spent(self, function, *more, **named):
        """The steps of a call."""
        before = self.session.budget().spent
        result = function(*more, **named)
        if isinstance(result, spmat.Matrix):
            result.wait()
        return self.session.budget().spent - before

    def test_checks(self):
        """What is found out of a graph is paid once."""
        for graph in graphs.UNDIRECTED[2:]:
            G, (n, m) = graph.matrix(self.session), (graph.count, len(graph.edges))
            self.assertLessEqual(self.spent(cached_properties.check_undirected, G, False),
                                 18 * m + 5 * n)
            self.assertEqual(self.spent(cached_properties.check_undirected, G, False), 0)
            self.assertLessEqual(self.spent(cached_properties.extremes, G), 8 * m + 4 * n)

    def test_no_more_steps_than_by_columns(self):
        """On a skewed graph of 256 vertices no search takes more steps than it took when all
        vertices were walked along in each level or round, by products with columns; on a uniform
        one no more than when all that changed were pushed at once. So it is where steps are
        counted."""
        session = spmat.Session(1 << 50, program=support.program())
        self.addCleanup(session.close)
        sys.path.append(os.path.join(support.TOP, 'bench'))
        from algorithms import edges_of
        before = {'kron': {'bfs_levels': 3922, 'bfs_parents': 4368, 'connected_components': 88518,
                           'sssp': 119460, 'k_core': 48782},
                  'urand': {'bfs_levels': 5326, 'bfs_parents': 6126, 'connected_components': 63182,
                            'sssp': 108095, 'k_core': 39632}}
        for kind, steps in before.items():
            edges = edges_of(kind, 8)
            places = list(zip(edges.i.tolist(), edges.j.tolist()))
            G = session.from_triples([(i, j, 1) for i, j in places], edges.vertices, edges.vertices)
            W = session.from_coo(edges.i, edges.j, edges.w, edges.vertices, edges.vertices)
            near = collections.Counter(i for i, _ in places)
            source = max(range(edges.vertices), key=lambda i: (near[i], -i))
            cached_properties.is_both_ways(G)
            for name, most in steps.items():
                graph, more = (W if name == 'sssp' else G), {'k_core': (10,),
                                                             'connected_components': (G,)}.get(
                                                                 name, (source,))
                start = session.budget().spent
                getattr(algorithms, name)(graph, *more).wait()
                self.assertLessEqual(session.budget().spent - start, most, name)

    def test_levels(self):
        """1 a level, and 1; 2 more a level with a large front. On a long path no front is large."""
        for number, source in ((1, 0), (3, 16), (4, 0)):
            graph = graphs.UNDIRECTED[number]
            G = graph.matrix(self.session)
            # which is looked at once where a transpose is handed in
            cached_properties.is_both_ways(G)
            deepest = max(graphs.levels(graph.near(), source).values())
            for function, large in ((algorithms.bfs_levels, 3), (algorithms.bfs_parents, 4)):
                told, runs = self.counted(function, G, source, G)
                self.assertEqual(len(told), deepest)
                self.assertLessEqual(runs, large * deepest + large)
                self.assertTrue(all(word == 'level' and of == 0 for word, _, of in told))
        path = graphs.undirected('path', 90, [(i, i + 1) for i in range(89)]).matrix(self.session)
        for function in (algorithms.bfs_levels, algorithms.bfs_parents):
            told, runs = self.counted(function, path, 30)
            # the last front isn't pushed: nobody is left
            self.assertEqual((len(told), runs), (59, 59))
            self.assertEqual(self.counted(function,
                                          graphs.undirected('one more', 91,
                                                            [(i, i + 1) for i in range(89)]).matrix(
                                                                self.session), 30)[1], 60)
            self.assertEqual(self.counted(function, path, 30, depth=7),
                             ([('level', k, 0) for k in range(1, 8)], 7))
            self.assertEqual(self.counted(function, path, 30, target=33)[1], 3)

    def test_long_searches(self):
        """On an ample budget the levels behind the 32nd are a loop: as many steps an edge as is
        said, and a few trips."""
        count = 600
        graph = graphs.undirected('path', count, [(i, i + 1) for i in range(count - 1)])
        with spmat.Session() as session, mock.patch.object(traversal, 'AT_ONCE', 0):
            path = graph.matrix(session)
            cached_properties.is_both_ways(path), cached_properties.extremes(path)
            for function, steps in ((algorithms.bfs_levels, 30), (algorithms.bfs_parents, 40),
                                    (algorithms.sssp, 300)):
                before, told = session.budget().spent, []
                self.assertEqual(function(path, 0, progress=lambda *now: told.append(now)).nvals,
                                 count)
                self.assertLessEqual(session.budget().spent - before, steps * path.nvals, function)
                self.assertGreater(20 * (session.budget().spent - before), steps * path.nvals,
                                   function)
                self.assertEqual([number for _, number, _ in told], list(range(1, len(told) + 1)))

    def test_fronts_alone_are_paid(self):
        """A search along a path costs steps for its edges, and not for all vertices a level: 4 an
        edge, 6 with parents; lengths of paths 7, and 8 once for the least and the greatest."""
        count = 200
        path = graphs.undirected('path', count,
                                 [(i, i + 1) for i in range(count - 1)]).matrix(self.session)
        for function, steps in ((algorithms.bfs_levels, 4), (algorithms.bfs_parents, 6),
                                (algorithms.sssp, 15)):
            self.assertLessEqual(self.spent(function, path, 0), steps * path.nvals, function)
        self.assertLessEqual(self.spent(algorithms.core_numbers, path, check=False),
                             10 * path.nvals)

    def test_what_is_made_once(self):
        """Loops and a column of one value are sent once for a graph, and a column without entries
        when a job wants it. Each caller has a matrix of its own, whose names the next one doesn't
        see."""
        for make in (loops, column):
            first = make(self.G, 3)
            sent = self.session.connection.sent
            again = make(self.G, 3)
            self.assertIs(again.handle, first.handle)
            again.row_nodes = list(map(str, range(self.G.nrows)))
            self.assertEqual((first.row_nodes, make(self.G, 3).row_nodes), (None, None))
            self.assertEqual(self.session.connection.sent, sent)
            self.assertEqual(first.reduce_scalar('plus'), 3 * self.G.nrows)
        commands = self.session.connection.commands
        empty = nothing(self.G)
        self.assertEqual((empty.shape, empty.nvals, self.session.connection.commands - commands),
                         ((self.G.nrows, 1), 0, 0))
        self.assertTrue(column(self.G, 3).ewise_add(empty, 'plus').isequal(column(self.G, 3)))

    def test_squarings(self):
        path = graphs.undirected('path', 12, [(i, i + 1) for i in range(11)]).matrix(self.session)
        for function, more, rest in ((algorithms.all_pairs, (), 8),
                                     (algorithms.path_lengths, ([0, 5],), 8),
                                     (algorithms.transitive_closure, (), 2)):
            # squared four times, which covers all its edges
            told, runs = self.counted(function, path, *more)
            self.assertLessEqual(len(told), 2)
            self.assertLessEqual(runs, 3 * len(told) + 3 * 4 + rest)
            # a square has too many entries, and is tried once
            told, runs = self.counted(function, self.G, *more)
            self.assertGreater(len(told), 3)
            self.assertLessEqual(runs, 3 * len(told) + 3 + rest)

    def test_orders(self):
        """6 a level, and 5; 8 a level, and 9, where lengths are kept; of a loop that makes 12
        rounds at least."""
        lower = graphs.directed('lower', 40, {(i, j) for i, j in graphs.DIRECTED[2].edges if i < j})
        for function, words in ((algorithms.topological_levels, '6 runs per level, and 5'),
                                (algorithms.longest_paths, '8 runs per level, and 9')):
            told, runs = self.counted(function, lower.matrix(self.session))
            self.assertGreater(len(told), 3)
            self.assertLessEqual(runs, ALGORITHMS[function.__name__].runs(self.size(lower, told)))
            self.assertIn(words, function.__doc__)

    def test_searches(self):
        """4 a level of a batch, 5 for the greatest distance, and 3 a batch."""
        levels = max(max(graphs.levels(self.graph.near(), i).values()) for i in range(34))
        for function, many in ((algorithms.distance_counts, 4), (algorithms.eccentricity, 5)):
            told, runs = self.counted(function, self.G, self.G, check=False)
            self.assertEqual((told, runs), ([('batch', 1, 1)], many * levels + 3))

    def test_shortest_paths(self):
        """1 a round, and 4."""
        path = graphs.undirected('path', 90, [(i, i + 1) for i in range(89)]).matrix(self.session)
        told, runs = self.counted(algorithms.sssp, path, 0)
        self.assertLessEqual(runs, len(told) + 4)
        self.assertLessEqual(len(told), 90)
        self.assertEqual(self.counted(algorithms.sssp, path, 0)[1], len(told))
        told, runs = self.counted(algorithms.sssp, self.G, 0)
        self.assertLessEqual(runs, len(told) + 4)

    def test_bands(self):
        """On a grid the nearest vertices are taken first: a third of the steps that it takes to
        push all that changed at once, and half as many rounds again."""
        side, chance = 100, random.Random(8)
        at = [(i * side + j, i * side + j + step) for i in range(side) for j in range(side)
              for step in (1, side) if (j if step == 1 else i) < side - 1]
        edges = {pair: chance.randint(1, 255) for pair in at}
        edges.update({(b, a): length for (a, b), length in list(edges.items())})
        near = graphs.Graph('grid', side * side, edges, False).near()
        known, changed, pushed, rounds = {0: 0}, {0}, 0, 0
        while changed:
            pushed, rounds, reached = pushed + sum(len(near[i]) for i in changed), rounds + 1, {}
            for i in changed:
                for j in near[i]:
                    reached[j] = min(reached.get(j, known[i] + edges[i, j]), known[i] + edges[i, j])
            changed = {j for j, length in reached.items() if j not in known or length < known[j]}
            known.update({j: reached[j] for j in changed})
        W = self.session.from_triples([(i, j, length) for (i, j), length in edges.items()],
                                      side * side, side * side)
        cached_properties.extremes(W)
        told = []
        self.assertLess(3 * self.spent(algorithms.sssp, W, 0, None, lambda *now: told.append(now)),
                        4 * pushed)
        self.assertLess(2 * len(told), 3 * rounds)
        self.assertEqual(algorithms.sssp(W, 0).to_dict(),
                         {(i, 0): length for i, length in known.items()})

    def test_components_of_long_paths(self):
        """2 a round, and 3; no more rounds than the logarithm of the number of vertices, in
        whatever order they stand."""
        for seed in range(3):
            at = list(range(500))
            random.Random(seed).shuffle(at)
            path = graphs.undirected('path', 500,
                                     [(a, b) for a, b in zip(at, at[1:])]).matrix(self.session)
            told, runs = self.counted(algorithms.connected_components, path, path)
            self.assertLessEqual(len(told), 9)
            self.assertLessEqual(runs, 2 * len(told) + 3)

    def test_rounds(self):
        """Of some rounds, and without the checks."""
        for function, more in ((algorithms.k_truss, (4,)), (algorithms.k_core, (4,)),
                               (algorithms.core_numbers, ()),
                               (algorithms.maximal_independent_set, (1,))):
            told, runs = self.counted(function, self.G, *more, check=False)
            self.assertGreater(len(told), 1)
            self.assertLessEqual(runs,
                                 ALGORITHMS[function.__name__].runs(self.size(self.graph, told)),
                                 function.__name__)

    def test_pagerank(self):
        """No more rounds than are known beforehand, and fewer where the ranks have settled."""
        told, runs = self.counted(algorithms.pagerank, self.G, self.G)
        self.assertTrue(all(of == 90 for _, _, of in told))
        self.assertLess(len(told), 45)
        self.assertLessEqual(runs, 3 * len(told) + 8)
        directed = graphs.DIRECTED[1].matrix(self.session)
        told, runs = self.counted(algorithms.pagerank, directed, directed.T, tolerance=1e-3)
        self.assertLessEqual(runs, 4 * len(told) + 8)

    def test_what_is_waited_for_stops_it(self):
        """What the progress function raises ends the work, and the session goes on."""
        def stop(word, number, of):
            if number == 2:
                raise InterruptedError(word)
        with self.assertRaises(InterruptedError):
            algorithms.pagerank(self.G, self.G, progress=stop)
        self.assertEqual(algorithms.triangle_count(self.G), 45)


class Parts(unittest.TestCase):
    """Products of more than 16,777,216 multiplications are too large for one job."""
    def setUp(self):
        self.session = spmat.Session(program=support.program())

    def tearDown(self):
        self.session.close()

    def test_products(self):
        A, B = self.session.full(21, 1000).apply('rowindex',
                                                 right=1), self.session.full(1000, 800).apply(
                                                     'colindex', right=1)
        with self.assertRaises(spmat.TooLarge):
            A.mxm(B)
        want = {(i, j): 1000 * (i + 1) * (j + 1) for i in range(21) for j in range(800)}
        self.assertEqual(product(A, B, 'plus_times').to_dict(), want)
        dear = spmat.asm('binary', 'mov64 r0, r1\n' * 3000 + 'exit')
        with self.assertRaises(spmat.TooLarge) as caught:
            # one row, at a price above 2^32
            product(A.select('rowle', 0), B, spmat.Semiring(dear, dear))
        self.assertEqual(caught.exception.rule, 'J8')

    def test_algorithms(self):
        """A wheel: a ring of 4,200 vertices, each of which is joined to the hub."""
        ring, hub = 4200, 2100
        around = [k + (k >= hub) for k in range(ring)]
        pairs = [(a, b) for k, a in enumerate(around) for b in (around[(k + 1) % ring], hub)]
        G = graphs.undirected('wheel', ring + 1, pairs).matrix(self.session)
        with self.assertRaises(spmat.TooLarge):
            G.mxm(G, 'plus_pair', mask=G.S)
        self.assertEqual(algorithms.triangle_count(G), ring)
        self.assertEqual(algorithms.triangles(G).to_dict(),
                         {(i, 0): ring if i == hub else 2 for i in range(ring + 1)})
        self.assertEqual(algorithms.k_truss(G, 3).nvals, 4 * ring)
        self.assertEqual(algorithms.k_truss(G, 4).nvals, 0)
