"""What is said where a budget is too small, and what was found by then."""
import pickle
import unittest
from unittest import mock

import graphs
import support
import spmat
from spmat import algorithms
from spmat.algorithms import traversal


class Budgets(unittest.TestCase):
    def test_too_small(self):
        """The refusal says which algorithm, what it wants, what is left, and what to do, which then
        works."""
        graph = graphs.UNDIRECTED[3]
        with spmat.Session(steps=2800) as session, spmat.Session() as other:
            G = graph.matrix(session)
            G.nodes = ['v%d' % i for i in range(graph.count)]
            with self.assertRaises(spmat.BudgetExceeded) as caught:
                algorithms.triangle_count(G)
            fault = caught.exception
            self.assertEqual(fault.algorithm, 'triangle_count')
            self.assertIn('triangle_count wants a job of up to %s steps, and %d are left'
                          % (format(fault.price, ','), fault.left), str(fault))
            self.assertIn('adopt', str(fault))
            self.assertEqual(str(pickle.loads(pickle.dumps(fault))), str(fault))
            moved = other.adopt(G)
            self.assertEqual((moved.to_triples(), moved.nodes), (G.to_triples(), G.nodes))
            self.assertEqual(algorithms.triangle_count(moved),
                             sum(graphs.triangles(graph.near())) // 3)

    def test_without_algorithm(self):
        with spmat.Session(steps=3) as session, \
                self.assertRaisesRegex(spmat.BudgetExceeded,
                                       'the price is 18, and 3 are left') as caught:
            session.full(3, 3).apply('one').wait()
        self.assertEqual(caught.exception.algorithm, '')

    def test_refused_runs(self):
        """Steps that a refused run took are told."""
        self.assertIn('1,234 steps were spent', str(spmat.errors.refusal('memory', (1234,))))
        self.assertNotIn('spent', str(spmat.errors.refusal('memory')))

    def test_tolerance_of_ranks(self):
        """What is said to do about a tolerance that can't be kept is enough."""
        with spmat.Session() as session:
            W = session.from_triples([(0, 1, 1 << 40), (1, 0, 1 << 40)], 2, 2)
            with self.assertRaisesRegex(ValueError,
                                        'give a tolerance of ([0-9.e-]+) or more') as caught:
                algorithms.pagerank(W, weighted=True, tolerance=1e-9)
            least = float(str(caught.exception).split('give a tolerance of ')[1].split()[0])
            self.assertNotIn('decimals', str(caught.exception))
            algorithms.pagerank(W, weighted=True, tolerance=1.05 * least)


class Partial(unittest.TestCase):
    """What a call has found that is refused amid its work: by a budget, and by a limit."""

    def setUp(self):
        # what is found on a budget takes as many steps without one
        support.enter(self, mock.patch.object(traversal, 'AT_ONCE', 0))

    def refused(self, name, share, *more):
        """The result of a call, and the partial ones of the same call with a share of the steps
        that it takes: as a limit, and as a budget."""
        graph, call = graphs.UNDIRECTED[3], getattr(algorithms, name)
        with spmat.Session() as session:
            whole = call(graph.matrix(session), *more)
            spent = session.budget().spent
        with spmat.Session(steps=int(spent * share)) as session, \
                self.assertRaises(spmat.BudgetExceeded) as caught:
            call(graph.matrix(session), *more)
        session = spmat.Session()
        self.addCleanup(session.close)
        with self.assertRaises(spmat.BudgetExceeded) as also, \
                session.limit(int(spent * share)) as limit:
            call(graph.matrix(session), *more)
        self.assertEqual(also.exception.algorithm, name)
        self.assertTrue(limit.passed)
        self.assertLessEqual(limit.spent, limit.steps)
        self.assertEqual(limit.spent, session.budget().spent)
        self.assertEqual(caught.exception.partial is None, also.exception.partial is None)
        return whole, also.exception.partial

    def test_communities(self):
        _, partial = self.refused('louvain', .85)
        self.assertIsInstance(partial, algorithms.Communities)
        with spmat.Session() as session:
            found = algorithms.modularity(graphs.UNDIRECTED[3].matrix(session),
                                          session.from_coo(range(34), [0] * 34, partial.to_list()))
        self.assertAlmostEqual(found, partial.modularity)
        self.assertGreater(found, 0)

    def test_ranks(self):
        """Each is as near as it says."""
        _, partial = self.refused('pagerank', .8)
        with spmat.Session() as session:
            whole = algorithms.pagerank(graphs.UNDIRECTED[3].matrix(session), tolerance=1e-9)
        one = sum(whole.to_list())
        self.assertLessEqual(sum(abs(a - b)
                                 for a, b in zip(whole.to_list(), partial.to_list())) / one,
                             partial.error)
        self.assertLess(partial.error, .2)
        for name, more in (('eigenvector', ()), ('katz', (.05,))):
            self.assertLess(self.refused(name, .8, *more)[1].error, .2)
        hubs, authorities = self.refused('hits', .8)[1]
        self.assertEqual((hubs.nvals, authorities.nvals), (34, 34))

    def test_others(self):
        _, partial = self.refused('label_propagation', .7)
        self.assertEqual(partial.nvals, 34)
        for name in ('bfs_levels', 'bfs_parents'):
            whole, partial = self.refused(name, .5, 0)
            found = partial.to_dict()
            self.assertTrue(0 < len(found) < 34 and found.items() <= whole.to_dict().items())
        whole, partial = self.refused('sssp', .9, 0)
        self.assertTrue(all(partial.to_dict().get(at, length) >= length
                            for at, length in whole.to_dict().items()))
        self.assertIsNone(self.refused('triangle_count', .97)[1])
