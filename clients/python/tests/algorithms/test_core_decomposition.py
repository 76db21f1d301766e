"""Core numbers, by pushes, by the client and by a loop at the server: as plain Python has them."""
from unittest import mock

import pytest

import graphs
import spmat
import support
from spmat import algorithms
from spmat.algorithms import communities, traversal

pytestmark = pytest.mark.slow

PATH = graphs.undirected('path', 90, [(i, i + 1) for i in range(89)])


class Cores(graphs.OnGraphs):
    def test_pushes(self):
        """The client has the edges, as it may keep them or all fall; or vertices push."""
        def look(graph, near, G):
            want, k = dict.fromkeys([(i, 0) for i in range(graph.count)], 0), 1
            while graphs.core(near, k):
                want.update(dict.fromkeys([(i, 0) for i in graphs.core(near, k)], k))
                k += 1
            for at_once, most, sparse in ((1 << 15, 0, 16), (0, 1 << 12, 16), (0, 1 << 12, 0),
                                          (0, 0, 16)):
                told = []
                with mock.patch.object(traversal, 'AT_ONCE', at_once), \
                        mock.patch.multiple(communities, MOST_READ=most, SPARSE=sparse):
                    self.assertEqual(algorithms.core_numbers(
                        G, lambda *now: told.append(now)).to_dict(), want, most)
                    for k in range(7):
                        self.assertEqual(
                            algorithms.k_core(G, k).to_dict(),
                            {(i, 0): many for i, many in graphs.core(near, k).items()}, k)
                self.assertEqual(told, [('round', number, 0) for number in range(1, len(told) + 1)])
        self.each(graphs.UNDIRECTED, look)

    def test_no_step_is_taken(self):
        """But by the pushes of a graph whose edges are too many to be read."""
        path = PATH.matrix(self.few)
        before = self.few.budget().spent
        for most, is_free in ((1 << 12, True), (0, False)):
            for at_once in (1 << 12, 0):
                with mock.patch.object(traversal, 'AT_ONCE', at_once), \
                        mock.patch.object(communities, 'MOST_READ', most):
                    self.assertEqual(algorithms.core_numbers(path, check=False).to_list(), [1] * 90)
                self.assertEqual(self.few.budget().spent == before, is_free or at_once > 0)

    def setUp(self):
        super().setUp()
        self.few = support.enter(self, spmat.Session(1 << 50, program=support.program()))
