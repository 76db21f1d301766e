"""Lengths from some vertices of large graphs, which are squared where their rows stay short."""
import pytest

import support
from spmat import algorithms

pytestmark = pytest.mark.slow


class Squares(support.InSession):
    def test_a_graph_with_a_hub_is_not_squared(self):
        """Its square would have an entry for each two vertices, more than a matrix holds."""
        count = 40000
        G = self.s.from_coo([0] * (count - 1) + list(range(1, count)),
                            list(range(1, count)) + [0] * (count - 1), 1, count, count)
        lengths = algorithms.path_lengths(G, [0, 7])
        self.assertEqual((lengths.nvals, lengths.reduce_scalar('plus')),
                         (2 * count, count - 1 + 1 + 2 * (count - 2)))

    def test_long_paths_are(self):
        count = 40000
        G = self.s.from_coo(list(range(count - 1)), list(range(1, count)), 1, count, count)
        told = []
        self.assertEqual(algorithms.path_lengths(G, [count - 600],
                                                 lambda *now: told.append(now)).nvals, 600)
        self.assertLess(len(told), 300)
