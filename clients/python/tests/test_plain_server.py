"""Every algorithm gives by the program that is tested what it gives by the reference
implementation, which was written from the documents alone: the same matrices, the same refusals,
the same steps. The calls are those of `alike`, on four kinds of small graphs."""
import os
import random
import sys
import unittest

import alike
import support
import spmat

PLAIN_SERVER = [sys.executable, os.path.join(support.TOP, 'reference', '__main__.py')]
VERTICES = 9
# it makes as many rounds in vain as take a moment, so a slower server makes fewer
BY_THE_CLOCK = {'fixpoint'}


class PlainServer(unittest.TestCase):
    def setUp(self):
        self.sessions = [spmat.Session(program=support.program()),
                         spmat.Session(program=PLAIN_SERVER)]
        for session in self.sessions:
            self.addCleanup(session.close)

    def test_no_algorithm_is_left_out(self):
        self.assertEqual(alike.missing()[2], [])

    def test_algorithms(self):
        """Each call on two kinds of graphs, in turn."""
        graphs = {kind: [graph(session) for session in self.sessions]
                  for kind, graph in alike.graphs_of(random.Random(7), VERTICES).items()}
        kinds = list(graphs)
        answers = 0
        for turn, (name, number, call) in enumerate((name, number, call)
                                                    for name, calls in alike.ALGORITHMS.items()
                                                    for number, call in enumerate(calls)):
            for kind in (kinds[turn % 4], kinds[(turn + 1 + turn // 4 % 3) % 4]):
                spent = [session.budget().spent for session in self.sessions]
                with self.subTest(algorithm=name, number=number, graph=kind):
                    by_program, by_plain = (alike.outcome(lambda G=G: call(G))
                                            for G in graphs[kind])
                    self.assertEqual(by_program, by_plain)
                    took = [session.budget().spent - before
                            for session, before in zip(self.sessions, spent)]
                    if name not in BY_THE_CLOCK:
                        self.assertEqual(took[0], took[1])
                    answers += by_program[0] != 'refused' if isinstance(by_program, tuple) else 1
        self.assertGreater(answers, 90)            # most aren't refused
