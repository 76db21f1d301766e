"""Sessions of this machine: what a program held is taken in again where it was killed."""
import contextlib
import os
import signal
import time
import unittest
from unittest import mock

import pytest

import graphs
import spmat
import support  # pylint: disable=unused-import  # it names the program
from block_pairs import Pair
import spmat_blocks as blocks
from spmat import algorithms
from spmat_blocks import worker_store, worker_tasks

pytestmark = pytest.mark.slow


class Lost(unittest.TestCase):
    """What a program of this machine held is taken in again where the program was killed."""

    def kill(self, s, place=1):
        store = worker_store._stores[s.settings.token, place]
        with contextlib.suppress(ProcessLookupError):
            # it was killed before, and nobody asked since
            os.kill(store.session.connection.process, signal.SIGKILL)

    def test_between_jobs(self):
        """Nothing is computed again: the texts are here."""
        told = []
        with spmat.Session() as one, \
                blocks.Sessions(3, progress=lambda *now: told.append(now)) as s:
            (A, B, K), (X, Y, Z) = Pair(one, s, 'random').sides
            W = X.mxm(Z).ewise_add(X.mxm(Z, 'min_plus'))
            W.wait()
            steps = X.ewise_add(Y).steps
            for place in (1, 0, 2, 1):
                self.kill(s, place)
                before = s.budget().spent
                self.assertEqual(X.ewise_add(Y).to_text(), A.ewise_add(B).to_text())
                self.assertEqual(W.T.to_text(),
                                 A.mxm(K).ewise_add(A.mxm(K, 'min_plus')).T.to_text())
                self.assertEqual(s.budget().spent - before, steps)
            self.assertIn('blocks', [word for word, _, _ in told])

    def test_amid_an_algorithm(self):
        """In each round another program is killed; the answer is right."""
        graph = graphs.UNDIRECTED[-1]
        with spmat.Session() as one, blocks.Sessions(3) as s:
            want = algorithms.pagerank(graph.matrix(one), damping=.6, tolerance=.001).to_text()

            def progress(word, number, of):
                self.kill(s, number % 3)
            got = algorithms.pagerank(graph.matrix(s), damping=.6, tolerance=.001,
                                      progress=progress)
            self.assertEqual(got.to_text(), want)

    def test_a_long_chain(self):
        """Two thousand jobs, each on the last, of which the session holds the last alone."""
        with blocks.Sessions(2) as s:
            X = s.from_triples([(0, 0, 1), (3, 1, 5)], 4, 2)
            for _ in range(2000):
                X = X.apply('plus', right=1)
            X.wait()
            self.assertLess(len(worker_store._stores[s.settings.token, 1]._here), 20)
            self.kill(s)
            self.assertEqual(X.to_dict(), {(0, 0): 2001, (3, 1): 2005})

    def test_a_program_that_dies_again_and_again(self):
        with blocks.Sessions(2) as s:
            X = s.from_coo(range(40), range(40), 1, 40, 40)
            find = worker_tasks.store_of

            def find_dying(settings, place):
                held = find(settings, place)
                if place == 1:
                    self.kill(s)
                    time.sleep(.05)
                return held
            with mock.patch.object(worker_tasks, 'store_of', find_dying), \
                    self.assertRaisesRegex(blocks.BlockFailed,
                                           'block 1 of 2, rows 20 to 39: Closed: ') as caught:
                X.apply('abs').nvals
            self.assertEqual(caught.exception.block, 'block 1 of 2, rows 20 to 39')
