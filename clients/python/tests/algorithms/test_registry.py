"""What is handed to an algorithm by mistake: an error names the argument, what it is, and what
came."""
import inspect
import warnings

import numpy
import pytest

import spmat
import support
from spmat import algorithms
from spmat.algorithms.registry import ALGORITHMS, required

pytestmark = pytest.mark.slow

# errors of this package's own lines, which say nothing of the call
SLIPS = (AttributeError, KeyError, IndexError, UnboundLocalError, NameError, AssertionError,
         ZeroDivisionError, OverflowError, RecursionError)
WORDS = ('not supported between', 'object is not', 'unsupported operand', 'has no len',
         'not iterable', 'unhashable')
NEEDED = {'source': 'a', 'target': 'c', 'sources': ['a'], 'k': 2, 'firsts': ['a'], 'seconds': ['b'],
          'labels': [{'a', 'b'}, {'c', 'd'}]}
EDGES = [('a', 'b', 2), ('b', 'c', 3), ('a', 'c', 10), ('c', 'd', 1)]
SAYS = (
    (lambda G: algorithms.common_neighbours(G, 0, 33),
     r'GT= of common_neighbours is a matrix, not 0.*shared_neighbours\(G, \[u\], \[v\]\)'),
    (lambda G: algorithms.jaccard(G, 'a', 'b'), 'GT= of jaccard is a matrix, not .a.'),
    (lambda G: algorithms.k_hop(G, 'a', 1),
     r'k= of k_hop is a whole number of 0 or more, not .a.: it is called as k_hop\(G, k, sources=None'),
    (lambda G: algorithms.k_hop(G, 1.5, ['a']), 'k= of k_hop is a whole number of 0 or more, not 1.5'),
    (lambda G: algorithms.diameter(G, weighted=True),
     r'diameter has no weighted=: it counts each edge as 1; all_pairs\(W\)'),
    (lambda G: algorithms.eccentricity(G, weight='weight'),
     r'has no weight=: it counts each edge as 1; all_pairs\(W\)'),
    (lambda G: algorithms.closeness(G, distance='weight'),
     'has no distance=: weighted=True counts the values of edges'),
    (lambda G: algorithms.sssp(G, 'a', weighted=True),
     'sssp has no weighted=: it counts values anyway'),
    (lambda G: algorithms.pagerank(G, alpha=.85),
     "unexpected keyword argument 'alpha'.*damping=0.85"),
    (lambda G: algorithms.triangle_count(G, progress=3), "unexpected keyword argument 'progress'"),
    (lambda G: algorithms.bfs_levels(G, 'a', progress=3), r'progress= of bfs_levels is a function'),
    (lambda G: algorithms.pagerank(G, personalization=['a']),
     'personalization= of pagerank is a dict, a Series or a column of numbers by vertex, not'),
    (lambda G: algorithms.pagerank(G, damping=float('inf')),
     'damping= of pagerank is a finite number, not inf'),
    (lambda G: algorithms.closeness(G, weighted='weight'),
     "weighted= of closeness is True or False, not 'weight'"))


class Arguments(support.InSession):
    def test_words(self):
        G = self.s.from_edgelist(EDGES, directed=False)
        for number, (call, words) in enumerate(SAYS):
            with self.subTest(number=number), \
                    self.assertRaisesRegex((TypeError, ValueError), words):
                call(G)

    def test_lengths_as_the_error_says(self):
        W = self.s.from_edgelist(EDGES, directed=False)
        far = algorithms.all_pairs(W).reduce_rowwise('max')
        self.assertEqual((far.by_node(), far.reduce_scalar('max')),
                         ({'a': 6, 'b': 4, 'c': 5, 'd': 6}, 6))

    def test_whatever_comes(self):
        """Each argument of each algorithm in turn is something else: what is raised is an error of
        the call, if anything is."""
        G, empty = self.s.from_edgelist(EDGES, directed=False), self.s.from_edgelist([])
        others = (33, -1, 1.5, 'zoe', None, [], ['a', 'zoe'], {'a': 1}, [{'a'}, {'b'}], ('a', 'b'),
                  object(), float('nan'), float('inf'), 10 ** 30, numpy.array([1, 2]),
                  self.s.from_coo([0], [1], 1, 3, 3), self.s.from_coo([0], [1], 1, 2, 3), empty,
                  lambda *_: 1, spmat.binary.plus)
        for name, one in ALGORITHMS.items():
            needed = {called: NEEDED[called] for called in required(one.function)[1:]}
            for graph, some in ((G, others), (empty, others[:5])):
                for called in list(inspect.signature(one.function).parameters)[1:]:
                    for other in some:
                        self.look(name, graph, {**needed, called: other})
            for other in others:
                self.look(name, other, needed)

    def look(self, name, graph, named):
        with self.subTest(algorithm=name, graph=repr(graph), named=repr(named)), \
                warnings.catch_warnings():
            warnings.simplefilter('ignore')
            try:
                getattr(algorithms, name)(graph, **named)
            except SLIPS as fault:
                self.fail('%s: %s' % (type(fault).__name__, fault))
            except (TypeError, ValueError, RuntimeError, spmat.SpmatError) as fault:
                self.assertFalse(any(words in str(fault) for words in WORDS), str(fault))
