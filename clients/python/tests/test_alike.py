"""What one session has, blocks have: each public method of Session and Matrix and each algorithm
gives the same in both, or is refused alike. `alike` has the calls; a new method or algorithm that
has none there, and isn't listed as absent, fails here."""
import importlib.util
import random
import re
import unittest

import pytest

import alike
import support  # pylint: disable=unused-import  # it names the program
import spmat
import spmat_blocks as blocks
from spmat import algorithms
from spmat_blocks.sessions import OF_ONE_SESSION

pytestmark = pytest.mark.slow

WANTS = {'to_frame': 'pandas', 'head': 'pandas', 'describe': 'pandas', 'to_pandas': 'pandas', 'to_pandas_edgelist': 'pandas', 'to_parquet': 'pyarrow',
         'to_networkx': 'networkx', 'to_scipy_sparse': 'scipy',
         'from_networkx': 'networkx', 'from_scipy_sparse': 'scipy',
         'from_pandas_edgelist': 'pandas'}


def here(name):
    """Whether the module that a method wants is there."""
    return name not in WANTS or importlib.util.find_spec(WANTS[name]) is not None


class Alike(unittest.TestCase):
    @classmethod
    def setUpClass(cls):
        cls.one = spmat.Session()
        cls.addClassCleanup(cls.one.close)
        cls.many = {'3 sessions': blocks.Sessions(3),
                    '2 sessions, 5 blocks': blocks.Sessions(2, blocks=5)}
        for many in cls.many.values():
            cls.addClassCleanup(many.close)

    def same(self, call, *about):
        """A call in one session and in blocks: of a session."""
        want = alike.outcome(lambda: call(self.one))
        for words, many in self.many.items():
            with self.subTest(about=about, blocks=words):
                self.assertEqual(alike.outcome(lambda: call(many)), want)

    def test_nothing_is_forgotten(self):
        self.assertEqual(alike.missing(), ([], [], []))
        self.assertEqual(alike.arguments(), [])

    def test_what_is_absent_says_why(self):
        many = self.many['3 sessions']
        for name, why in OF_ONE_SESSION.items():
            with self.assertRaisesRegex(AttributeError, re.escape(why)):
                getattr(many, name)
        with self.assertRaisesRegex(AttributeError,
                                    "^'BlockMatrix' object has no attribute 'nosuch'$"):
            getattr(many.identity(2), 'nosuch')

    def test_sessions(self):
        for name, calls in alike.SESSIONS.items():
            for number, call in enumerate(calls if here(name) else ()):
                self.same(call, name, number)

    def test_methods(self):
        """On an undirected and on a directed graph, those that take a mask under three kinds of
        masks on either, in turn."""
        kinds = sorted(alike.MASKS)
        for turn, kind in enumerate(('undirected', 'directed')):
            graph = alike.graphs_of(random.Random(1), 9)[kind]
            made = [alike.Made(session, graph, random.Random(2))
                    for session in (self.one, *self.many.values())]
            for name, calls in alike.METHODS.items():
                for number, call in enumerate(calls if here(name) else ()):
                    for mask in kinds[(turn + number) % 2::2] if name in alike.MASKED else ['none']:
                        one, *many = made
                        with self.subTest(graph=kind, method=name, number=number, mask=mask):
                            self.assertEqual(alike.outcome(lambda: call(many[number % 2],
                                                                        alike.MASKS[mask](
                                                                            many[number % 2].K))),
                                             alike.outcome(
                                                 lambda: call(one, alike.MASKS[mask](one.K))))

    def test_algorithms(self):
        """Each on two of the kinds of graphs, in turn, and in either way of blocks."""
        graphs = {kind: [graph(session) for session in (self.one, *self.many.values())]
                  for kind, graph in alike.graphs_of(random.Random(3), 11).items()}
        kinds, turn = list(graphs), 0
        for name, calls in alike.ALGORITHMS.items():
            for number, call in enumerate(calls):
                for kind in (kinds[turn % 4], kinds[(turn + 1 + turn // 4 % 3) % 4]):
                    one, *many = graphs[kind]
                    with self.subTest(graph=kind, algorithm=name, number=number):
                        self.assertEqual(alike.outcome(lambda: call(many[turn % 2])),
                                         alike.outcome(lambda: call(one)))
                    turn += 1


class Directions(unittest.TestCase):
    """Under a complemented mask a result of an undirected graph isn't one, so searches look at its
    transpose."""

    def test_edges_that_lead_one_way(self):
        path = [(0, 1, 1), (1, 2, 1), (2, 3, 1)]
        with spmat.Session() as one, blocks.Sessions(2) as many:
            for session in (one, many):
                G = session.from_edgelist([(i, j) for i, j, _ in path], directed=False)
                self.assertIs(G.directed, False)
                for H in (G.without(G.select('triu', 1)),
                          G.apply('one', mask=~G.select('triu', 1).S),
                          G.dup(mask=~G.select('triu', 1).V)):
                    self.assertIsNone(H.directed)
                    self.assertEqual(algorithms.bfs_levels(H, 0).to_list(), [0, None, None, None])
                    with self.assertRaisesRegex(ValueError, 'an edge leads one way alone'):
                        algorithms.triangle_count(H)
