"""Closeness beside plain Python, exactly as it is rounded."""
import pytest

import graphs
from spmat import algorithms

pytestmark = pytest.mark.slow


class Closeness(graphs.OnGraphs):
    def test_closeness(self):
        def look(graph, near, G):
            if not graph.count:
                return
            back = [{i for i in range(graph.count) if j in near[i]} for j in range(graph.count)]
            found = algorithms.closeness(G, None if graph.directed else G)
            self.assertEqual(found.error, 1 / found.scale)
            for j, got in enumerate(found.values.to_list()):
                far = graphs.levels(back, j)
                reached, total = len(far) - 1, sum(far.values())
                self.assertEqual(got, reached * reached * found.scale // (total * (graph.count - 1))
                                 if total else 0)
        self.each(graphs.ALL, look)
