"""Trusses, by loops that stay at the server: as plain Python has them."""
from unittest import mock

import pytest

import graphs
from spmat import algorithms
from spmat.algorithms import neighbours as truss
from spmat.loops.trips import Trips

pytestmark = pytest.mark.slow


class Trusses(graphs.OnGraphs):
    def compare(self):
        def look(graph, near, G):
            for k in (2, 3, 4, 5, 7):
                told = []
                self.assertEqual(algorithms.k_truss(G, k, lambda *now: told.append(now)).to_dict(),
                                 graphs.truss(near, k))
                self.assertEqual(told, [('round', number, 0) for number in range(1, len(told) + 1)])
        self.each(graphs.UNDIRECTED, look)

    def test_by_a_loop(self):
        for anew in (0, 1, 4, 1 << 40):            # never counted anew, seldom, as usual, always
            with mock.patch.object(truss, 'ANEW', anew):
                self.compare()

    def test_one_by_one(self):
        with mock.patch.object(Trips, 'choose_rounds', return_value=[]), \
                mock.patch.object(truss, 'ANEW', 0):
            self.compare()

    def test_edges_that_fall_one_after_the_other(self):
        """A torus of triangles, in which each edge stands in two, but for one that is missing: a
        hole grows around it."""
        side = 16
        pairs = [(side * r + c, side * ((r + a) % side) + (c + b) % side) for r in range(side)
                 for c in range(side) for a, b in ((0, 1), (1, 0), (1, 1))]
        graph, told = graphs.undirected('torus', side * side, pairs[1:]), []
        with mock.patch.object(truss, '_count_lost', wraps=truss._count_lost) as counted:
            found = algorithms.k_truss(graph.matrix(self.s), 4, lambda *now: told.append(now))
        self.assertEqual(found.to_dict(), graphs.truss(graph.near(), 4))
        self.assertGreater(len(told), 6)
        # traced, and not made round by round
        self.assertLessEqual(counted.call_count, 3 * 2)
