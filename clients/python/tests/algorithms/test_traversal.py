"""Rounds with full vectors, where many workers share a product with a column; and vectors out of
matrices: their places and values, full and with gaps."""
import itertools
import unittest
from unittest import mock

import pytest

import graphs
import spmat
import support
from spmat import algorithms
from spmat.algorithms import searches, traversal
from spmat.algorithms.traversal import Columns, HeldRows, Rows

pytestmark = pytest.mark.slow

PAIRS = [(i, j) for i in range(40) for j in range(40) if i != j and (7 * i + 3 * j) % 5 == 0]
SOME_ALONE = graphs.undirected('some vertices have no edge', 50, PAIRS)
SOME_END = graphs.directed('some vertices have no edge that leaves them', 50,
                           PAIRS + [(i, i + 9) for i in range(31, 41)])


def answer_of(call, G, i, j, listens=True):
    """What a call gives, or which error it raises; and what it tells."""
    told = []
    try:
        got = call(G, i, j, (lambda *now: told.append(now)) if listens else None)
    except ValueError as fault:
        got = str(fault)
    return got, told


class ManyWorkers(unittest.TestCase):
    """In a session of four workers, and in one of one worker."""

    @classmethod
    def setUpClass(cls):
        cls.one, cls.many = spmat.Session(workers=1), spmat.Session(workers=4)

    @classmethod
    def tearDownClass(cls):
        cls.one.close()
        cls.many.close()

    def test_answers_are_those_of_one_worker(self):
        def hits(G):
            return algorithms.hits(G, weighted=True, tolerance=1e-4)[0].values
        calls = [algorithms.pagerank, lambda G: algorithms.pagerank(G, weighted=True), hits,
                 lambda G: algorithms.pagerank(G, personalization={0: 1}, dangling={1: 2, 3: 1}),
                 lambda G: algorithms.pagerank(G, G.T, damping=.5),
                 lambda G: algorithms.katz(G, .01).values,
                 lambda G: algorithms.eigenvector(algorithms.undirected(G), tolerance=1e-3).values]
        with mock.patch.multiple(traversal, MANY_ENTRIES=1, MANY_AT_A_VERTEX=0):
            for graph in graphs.tried([SOME_ALONE, SOME_END, graphs.UNDIRECTED[3],
                                       graphs.DIRECTED[-1]]):
                for number, call in enumerate(calls):
                    with self.subTest(graph=graph.name, call=number):
                        one, many = graph.matrix(self.one), graph.matrix(self.many)
                        self.assertIsInstance(traversal.find_flow(many, None, True), Columns)
                        self.assertIsInstance(traversal.find_flow(one, None, True), Rows)
                        self.assertEqual(call(many).to_text(), call(one).to_text())

    def test_a_price_comes_before_the_work(self):
        with mock.patch.multiple(traversal, MANY_ENTRIES=1, MANY_AT_A_VERTEX=0):
            G = SOME_ALONE.matrix(self.many)
            self.assertGreater(spmat.price(lambda: algorithms.pagerank(G)).steps, 0)

    def test_which_sessions_and_graphs_these_are(self):
        with mock.patch.multiple(traversal, MANY_ENTRIES=900):
            for want, graph in ((True, self.many.full(30, 30)), (False, self.one.full(30, 30)),
                                (False, self.many.full(29, 29)),
                                (False, self.many.identity(1000))):
                with self.subTest(want=want, graph=graph):
                    self.assertEqual(traversal.is_shared(graph), want)

    def test_a_session_knows_its_workers(self):
        self.assertEqual([self.one.workers, self.many.workers], [1, 4])
        with support.Relay() as relay, spmat.Session.connect('127.0.0.1', relay.port) as session:
            self.assertIsNone(session.workers)

    def test_a_caller_says_how_many_workers_a_server_has(self):
        with support.Relay(steps=1 << 60) as relay:
            with spmat.Session.connect('127.0.0.1', relay.port) as session:
                with self.assertRaisesRegex(ValueError, 'workers are 1 to 64'):
                    session.workers = 65
                session.workers = 4
                self.assertEqual((session.workers, session.backend.queue.shared), (4, True))
                with mock.patch.multiple(traversal, MANY_ENTRIES=1, MANY_AT_A_VERTEX=0):
                    G = SOME_ALONE.matrix(session)
                    self.assertIsInstance(traversal.find_flow(G, None, True), Columns)
                    got = algorithms.pagerank(G).to_text()
                self.assertEqual(got, algorithms.pagerank(SOME_ALONE.matrix(self.one)).to_text())
        with self.assertRaisesRegex(AttributeError, 'with 1 workers'):
            self.one.workers = 4


class Held(support.InSession):
    """Small graphs, whose edges the client has where nobody counts steps."""

    RINGS = ('any_first', 'min_first', 'min_plus', 'plus_first', 'max_plus')

    def test_pushes_are_those_of_the_server(self):
        """Of fronts of no vertex, of one, of some and of all; also by a ring that numpy lacks."""
        for graph in graphs.ALL:
            G = graph.matrix(self.session)
            for at in ([], [0], range(0, graph.count, 3), range(graph.count)):
                front = traversal.vector_of(at, [5 - 2 * i for i in at])
                for name in self.RINGS:
                    ring = spmat.semiring(*name.split('_'))
                    with self.subTest(graph=graph.name, ring=name, front=len(front.at)):
                        if graph.count > max(at, default=0):
                            one, other = (kind(G).push(front, ring)
                                          for kind in (HeldRows, Rows))
                            self.assertEqual(one.at.tolist(), other.at.tolist())
                            self.assertEqual(one.values.tolist(), other.values.tolist())

    def test_a_search_takes_no_trip(self):
        """Nor do later ones read the edges again."""
        G = SOME_ALONE.matrix(self.session)
        calls = [lambda: algorithms.bfs_levels(G, 0), lambda: algorithms.bfs_parents(G, 0),
                 lambda: algorithms.sssp(G, 0), lambda: algorithms.has_path(G, 0, 9),
                 lambda: algorithms.core_numbers(G, check=False)]
        self.assertIsInstance(traversal.find_traversal(G, None, True), HeldRows)
        for call in calls:
            call()
        before = self.session.connection.commands
        for call in calls:
            call()
        self.assertEqual(self.session.connection.commands, before)

    def test_searches_are_those_of_the_server(self):
        """Paths, from both ends, take the least of several predecessors, as a search from one end
        does, of whose levels someone is told; levels and parents end at a target or a depth."""
        calls = [lambda G, i, j, tell: algorithms.shortest_path(G, i, j, progress=tell),
                 lambda G, i, j, tell: algorithms.has_path(G, i, j),
                 lambda G, i, j, tell: algorithms.bfs_parents(G, i, progress=tell).to_text(),
                 lambda G, i, j, tell: algorithms.bfs_parents(G, [i, j], depth=2).to_text(),
                 lambda G, i, j, tell: algorithms.bfs_levels(G, i, None, tell, target=j).to_text(),
                 lambda G, i, j, tell: algorithms.k_hop(G, 2, [j, i], tell).to_text()]
        for graph in [graphs.by_chance(9, 1, [1], 1), graphs.by_chance(30, 2, [1], 2),
                      graphs.by_chance(40, 5, [1], 3)]:
            held, other = graph.matrix(self.session), graph.matrix(self.session)
            for i, j in itertools.product(range(0, 9, 4), range(0, 9, 2)):
                for number, call in enumerate(calls):
                    with self.subTest(graph=graph.name, i=i, j=j, call=number):
                        got = answer_of(call, held, i, j)
                        with mock.patch.object(traversal, 'AT_ONCE', 0), \
                                mock.patch.object(searches, 'MOST_HELD', 0):
                            want = answer_of(call, other, i, j)
                        self.assertEqual(got, want)
                        self.assertEqual(answer_of(call, held, i, j, False)[0], want[0])

    def test_who_counts_steps_keeps_no_edges(self):
        with spmat.Session(1 << 50) as few:
            lines = traversal.find_traversal(SOME_ALONE.matrix(few), None, True)
            self.assertIs(type(lines), Rows)
        with mock.patch.object(traversal, 'AT_ONCE', 49):
            lines = traversal.find_traversal(SOME_ALONE.matrix(self.session), None, True)
            self.assertIs(type(lines), Rows)


class Vectors(support.InSession):
    def test_arrays(self):
        """Places and values of rows and columns, and the values alone."""
        for places in ([], [0, 1, 2, 3], [1, 3]):
            values = [-7 * i for i in places]
            row = self.s.from_coo([0] * len(places), places, values, 1, 4)
            for read, matrix in ((traversal.read_row, row), (traversal.read_column, row.T)):
                got = read(matrix)
                self.assertEqual((got.at.tolist(), got.values.tolist()), (places, values))
                self.assertEqual(traversal.read_values(matrix).tolist(), values)
        rows, columns = traversal.read_edges(self.s.from_coo([2, 0], [1, 3], 1, 4, 4))
        self.assertEqual((rows.tolist(), columns.tolist()), ([0, 2], [3, 1]))
