"""docs/from_networkx.md: each line of spmat gives what the line of networkx beside it gives."""
import math
import unittest

import support
import spmat
from pages import rows_of
from spmat import algorithms

try:
    import networkx
    import numpy
    import pandas
except ImportError:
    networkx = None

EDGES = [('a', 'b', 4), ('b', 'c', 1), ('a', 'c', 7), ('c', 'd', 2)]
NEAR = 1e-6


# lines of networkx and of spmat
LINES = rows_of('docs/from_networkx.md')


def plain(found):
    """A result as values of Python: a graph as its edges, with 1 for an edge without a weight."""
    if isinstance(found, spmat.Matrix):
        names = list(found.nodes or range(found.nrows))
        return {(names[i], names[j]): x for i, j, x in found.to_triples()}
    if isinstance(found, networkx.Graph):
        both = found.to_directed() if not found.is_directed() else found
        return {(u, v): data.get('weight', 1) for u, v, data in both.edges(data=True)}
    return found


def same(one, other):
    """Whether two results are equal, numbers up to the error of fixed-point results."""
    if isinstance(one, dict) and isinstance(other, dict):
        return one.keys() == other.keys() and all(same(one[key], other[key]) for key in one)
    if isinstance(one, float) or isinstance(other, float):
        return math.isclose(one, other, abs_tol=NEAR)
    return one == other


@unittest.skipIf(networkx is None, 'networkx, numpy or pandas is missing')
class Page(support.InSession):
    def test_each_line(self):
        frame = pandas.DataFrame(EDGES, columns=['from', 'to', 'cost'])
        array = numpy.array([[0, 2, 0], [0, 0, 3], [1, 0, 0]])
        theirs = {'nx': networkx, 'D': networkx.DiGraph(), 'U': networkx.Graph(),
                  'frame': frame, 'array': array}
        theirs['D'].add_weighted_edges_from(EDGES)
        theirs['U'].add_edges_from(edge[:2] for edge in EDGES)
        ours = {'s': self.s, 'al': algorithms, 'frame': frame, 'array': array,
                'D': self.s.from_edgelist(EDGES),
                'U': self.s.from_edgelist([edge[:2] for edge in EDGES], directed=False)}
        for left, right in LINES:
            with self.subTest(networkx=left, spmat=right):
                room = dict(ours, D=theirs['D']) if 'from_networkx' in right else ours
                self.assertTrue(same(plain(self.by_weight(eval(left, dict(theirs)))),
                                     plain(eval(right, dict(room)))))

    def by_weight(self, graph):
        """A graph of networkx whose attribute `cost` is called weight."""
        if isinstance(graph, networkx.Graph):
            for _, _, data in graph.edges(data=True):
                data.setdefault('weight', data.get('cost', 1))
        return graph

    def test_how_many(self):
        self.assertGreaterEqual(len(LINES), 30)
