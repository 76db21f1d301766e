"""Rounds of PageRank: shares without a division, and how far ranks are from those that linear
equations have."""
import random

import numpy
import pytest

import graphs
import spmat
import support
from spmat import algorithms
from spmat.algorithms.centralities import BITS, SHARE_OF_ALL, SHARE_ROUNDING, damping_of

pytestmark = pytest.mark.slow

SIDE = 14
GRID = graphs.undirected('grid', SIDE * SIDE,
                         [(SIDE * r + c, SIDE * r + c + step) for r in range(SIDE)
                          for c in range(SIDE) for step in (1, SIDE) if (c if step == 1 else r)
                          < SIDE - 1 and (r + 3 * c) % 19])
DAMPINGS = (.85, .5, .6, .95, .99, .001, .8512, .999999)


def true_ranks(graph, damping, given=None, weighted=False):
    """The solution of the equations; where no edge leaves, as what is given anew."""
    count = graph.count
    share = numpy.full(count, 1 / count) if given is None else numpy.array(given) / sum(given)
    flows = numpy.zeros((count, count))
    for (i, j), value in graph.edges.items():
        flows[j, i] = value if weighted else 1
    out = flows.sum(axis=0)
    flows[:, out > 0] /= out[out > 0]
    flows[:, out == 0] = share[:, None]
    return numpy.linalg.solve(numpy.identity(count) - damping * flows, (1 - damping) * share)


class Ranks(support.InSession):
    def look(self, graph, damping=.85, given=None, weighted=False, **named):
        """The ranks, which are as near as they say, and as that is asked for; the number of
        rounds."""
        told = []
        personalization = None if given is None else dict(enumerate(given))
        found = algorithms.pagerank(graph.matrix(self.s), damping=damping,
                                    personalization=personalization, weighted=weighted,
                                    scale=1 << 52, progress=lambda *now: told.append(now), **named)
        apart = abs(found.to_dense(float) - true_ranks(graph, damping, given, weighted)).sum()
        self.assertLessEqual(apart, found.error + 1e-14, (graph.name, damping))
        self.assertLessEqual(found.error, found.tolerance)
        self.assertEqual([number for _, number, _ in told], list(range(1, len(told) + 1)))
        self.assertEqual(found.rounds, len(told))
        return len(told)

    def test_dampings(self):
        for damping in DAMPINGS[:-1]:
            for graph in (GRID, graphs.UNDIRECTED[3], graphs.DIRECTED[0]):
                self.look(graph, damping, tolerance=1e-5 if damping > .9 else None)

    def test_tolerances(self):
        for tolerance in (.5, .1, 1e-3, 1e-8, 1e-11):
            for graph in (GRID, graphs.UNDIRECTED[3]):
                self.look(graph, tolerance=tolerance)

    def test_the_first_round_is_compared_with_nothing(self):
        self.assertGreaterEqual(self.look(GRID, .001, tolerance=.5), 2)

    def test_edges_of_no_weight(self):
        """A vertex to which nothing comes has an edge of weight 0: with weights it has none.
        Neither answer goes by what was found for the other one."""
        graph = graphs.Graph('no weight', 5, {(0, 1): 0, (1, 2): 3, (2, 1): 1, (2, 3): 2, (3, 2): 4,
                                              (3, 4): 1, (4, 3): 1}, True)
        for order in ((False, True), (True, False)):
            G = graph.matrix(self.s)
            for weighted in order:
                found = algorithms.pagerank(G, weighted=weighted)
                self.assertLess(abs(found.to_dense(float)
                                    - true_ranks(graph, .85, weighted=weighted)).sum(), found.error,
                                order)

    def test_what_is_given_anew(self):
        chance = random.Random(5)
        for graph in (GRID, graphs.UNDIRECTED[3], graphs.DIRECTED[3]):
            for given in ([1] + [0] * (graph.count - 1),
                          [chance.randrange(1, 9) for _ in range(graph.count)]):
                self.look(graph, given=given)
                self.look(graph, given=given, weighted=True)

    def test_a_refusal_amid_rounds(self):
        """The ranks of the last round, with how far they are from the true ones."""
        whole = algorithms.pagerank(GRID.matrix(self.s), tolerance=1e-10)
        with spmat.Session(program=support.program()) as session:
            before = session.budget().spent
            algorithms.pagerank(GRID.matrix(session), tolerance=1e-9)
            spent = session.budget().spent - before
        for share in (.3, .5, .7, .9):
            with spmat.Session(int(share * spent), program=support.program()) as session, \
                    self.assertRaises(spmat.BudgetExceeded) as caught:
                algorithms.pagerank(GRID.matrix(session), tolerance=1e-9)
            partial = caught.exception.partial
            self.assertLessEqual(abs(partial.to_dense(float).ravel() - whole.to_dense(float)).sum(),
                                 partial.error + 1e-9, share)


class Shares(support.InSession):
    def test_a_share_is_a_product_with_a_reciprocal(self):
        """Rounded down, by no more than is said, on numbers of all sizes up to the largest."""
        chance = random.Random(1)
        pairs = [(0, 1), (1, (1 << BITS) - 1), ((1 << 63) - 1, (1 << BITS) - 1), ((1 << 63) - 1, 1),
                 ((1 << 31) - 1, 1 << 31)]
        pairs += [(chance.getrandbits(chance.randint(1, 63)),
                   chance.getrandbits(chance.randint(1, BITS))) for _ in range(500)]
        rank, reciprocal = (self.s.from_coo(range(len(pairs)), [0] * len(pairs), list(column),
                                            len(pairs), 1) for column in zip(*pairs))
        for (x, r), got in zip(pairs, rank.ewise_mult(reciprocal, SHARE_OF_ALL).to_list()):
            short = (x * r >> BITS) - got
            self.assertTrue(0 <= short <= 3, (x, r, got))

    def test_rounding_of_a_share(self):
        """Beside the exact share: the reciprocal is rounded, too."""
        chance = random.Random(2)
        for _ in range(2000):
            parts = damping_of(chance.choice(DAMPINGS))
            out, x = chance.randint(1, 1 << chance.randint(1, 61)), chance.getrandbits(63)
            reciprocal = (parts.parts << BITS) // parts.whole // out
            least = (x * reciprocal >> BITS) - 3               # as the test above holds
            self.assertLess(x * parts.parts / (parts.whole * out) - least,
                            SHARE_ROUNDING + 1e-6 * x / out)

    def test_nothing_wraps(self):
        """Flows and what is given anew stay below 2^63."""
        for damping in DAMPINGS:
            parts = damping_of(damping)
            self.assertLessEqual((1 + 1 / parts.value) * 2.0 ** parts.bits, 2.0 ** 63)
            self.assertGreaterEqual((1 + 1 / parts.value) * 2.0 ** parts.bits, 2.0 ** 61)
