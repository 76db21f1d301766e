"""What is within k edges of some vertices, by loops that stay at the server: as plain Python has
it."""
import warnings
from unittest import mock

import pytest

import graphs
import spmat
import support
from spmat import algorithms
from spmat.algorithms import searches
from spmat.loops.trips import Trips

pytestmark = pytest.mark.slow

PATH = graphs.undirected('path', 90, [(i, i + 1) for i in range(89)])
ONE_WAY = graphs.directed('one way', 80,
                          [(i, i + 1) for i in range(79)] + [(i, i + 2) for i in range(0, 70, 7)])


def hops(near, sources, most):
    return {(row, j): level for row, i in enumerate(sources)
            for j, level in graphs.levels(near, i).items() if level <= most}


class Hops(support.InSession):
    def look(self, graph, sources, most):
        told, near = [], graph.near()
        got = algorithms.k_hop(graph.matrix(self.s), most, sources, lambda *now: told.append(now))
        want = hops(near, sources, most)
        self.assertEqual((got.shape, got.to_dict()), ((len(sources), graph.count), want),
                         (graph.name, most))
        self.assertEqual(told, [('level', k, most) for k in range(1, max(want.values()) + 1)])

    def test_levels(self):
        """More levels than a part has, and less; those of a search whose levels in vain would cost
        much."""
        for graph in (PATH, ONE_WAY, graphs.UNDIRECTED[4]):
            for part, small, many in ((32, 1 << 18, (1, 31, 32, 33, 200)), (5, 1 << 18, (5, 64)),
                                      (32, 0, (33,)), (1, 0, (3,))):
                with mock.patch.multiple(searches, GATHERED=part, FEW_PLACES=small, MOST_HELD=0):
                    for most in many:
                        self.look(graph, [0, graph.count // 2, graph.count - 1, 0], most)
            for most in (0, 1, 33, 200):           # where the client has the edges
                self.look(graph, [0, graph.count // 2, graph.count - 1, 0], most)

    def test_trips(self):
        """Three levels take few trips, however many sources: nothing is read between them."""
        G = PATH.matrix(self.s)
        G.wait()
        before, sent = self.s.runs, mock.Mock(wraps=self.s.connection.post)
        with mock.patch.object(self.s.connection, 'post', sent):
            with mock.patch.object(searches, 'MOST_HELD', 0):
                algorithms.k_hop(G, 3, range(90)).wait()
            self.assertEqual(sent.call_count, 1)
            algorithms.k_hop(G, 3, range(90)).wait()
            self.assertEqual(sent.call_count, 1)   # the client has the edges
        # 3 more to see once that each edge leads both ways
        self.assertLessEqual(self.s.runs - before, 5 * 3 + 4 + 3)

    def test_sources_given_twice(self):
        """No two rows have one name; where vertices have none, rows may say the same."""
        G = self.s.from_edgelist([('a', 'b'), ('b', 'c')])
        for call in (lambda: algorithms.k_hop(G, 1, ['b', 'a', 'b']),
                     lambda: algorithms.path_lengths(G, ['b', 'a', 'b'])):
            with self.assertWarnsRegex(UserWarning, "vertex 'b' is given twice.*dict.fromkeys"):
                self.assertEqual((call().shape, call().row_nodes), ((3, 3), None))
        plain = PATH.matrix(self.s)
        self.assertEqual(algorithms.path_lengths(plain, [3, 3]).nrows, 2)

    def test_sources_given_twice_on_a_budget(self):
        """One warning, in the caller's line."""
        with spmat.Session(steps=100_000) as session:
            G = session.from_edgelist([('a', 'b'), ('b', 'c')])
            for call in (lambda: algorithms.k_hop(G, 1, ['b', 'b']),
                         lambda: algorithms.path_lengths(G, ['b', 'b'])):
                with warnings.catch_warnings(record=True) as said:
                    warnings.simplefilter('always')
                    call()
                self.assertEqual([str(one.message)[:27] for one in said],
                                 ["the vertex 'b' is given twi"])
                self.assertEqual(said[0].filename, __file__)

    def test_one_by_one(self):
        """As on a budget that may not do for a trip of rounds."""
        with mock.patch.object(Trips, 'choose_rounds', return_value=[]):
            for graph in (PATH, ONE_WAY, graphs.UNDIRECTED[4]):
                for most in (1, 3, 40, 100):
                    self.look(graph, [3, 0], most)
