"""A step that is made until it changes nothing, and how many rounds that may take."""
import unittest

import pytest

import spmat
import support  # pylint: disable=unused-import  # it names the program
import spmat_blocks as blocks

pytestmark = pytest.mark.slow


class Fixpoints(unittest.TestCase):
    def cycle(self, s, ends):
        W = s.from_edgelist([('a', 'b', 2), ('b', 'c', -3), ('c', 'a', 0)]
                            + [(chr(99 + k), chr(100 + k), 1) for k in range(ends)])
        start = s.from_coo([0], [W.index('a')], [0], 1, W.ncols, nodes=W.nodes)
        return lambda now: now.ewise_add(now.mxm(W, 'min_plus'), 'min'), start

    def test_no_round_without_end(self):
        """Lengths along a negative cycle fall for ever; by default that ends behind one round more
        than there are vertices."""
        for session in (spmat.Session, lambda: blocks.Sessions(2),
                        lambda: spmat.Session(steps=3000)):
            with session() as s:
                for ends in (0, 4):
                    step, start = self.cycle(s, ends)
                    told = []
                    with self.assertRaisesRegex(spmat.NotSettled,
                                                'after %d rounds: most= allows more'
                                                % (start.ncols + 1)):
                        spmat.fixpoint(start, step, progress=lambda *now: told.append(now))
                    self.assertEqual([number for _, number, _ in told],
                                     list(range(1, start.ncols + 2)))
                    with self.assertRaisesRegex(spmat.NotSettled, 'after 20 rounds'):
                        spmat.fixpoint(start, step, most=20)

    def test_the_last_round(self):
        """A path is as long as it can be: the default does."""
        for session in (spmat.Session, lambda: blocks.Sessions(2)):
            with session() as s:
                W = s.from_coo(range(9), range(1, 10), 2, 10, 10)
                start = s.from_coo([0], [0], [0], 1, 10)
                got = spmat.fixpoint(start,
                                     lambda now: now.ewise_add(now.mxm(W, 'min_plus'), 'min'))
                self.assertEqual(got.to_list(), list(range(0, 20, 2)))

    def test_more_rounds(self):
        with spmat.Session() as s:
            falls = lambda x: x.apply('minus', right=1).apply('max', right=0)
            with self.assertRaises(spmat.NotSettled):
                spmat.fixpoint(s.full(1, 2, 9), falls)
            self.assertEqual(spmat.fixpoint(s.full(1, 2, 9), falls, most=100).to_list(), [0, 0])
            self.assertEqual(spmat.fixpoint(s.full(1, 2, 0), falls, most=1).to_list(), [0, 0])
            with self.assertRaises(TypeError):
                spmat.fixpoint(s.full(1, 2, 9), falls, most='many')

    def test_a_step_of_each_round(self):
        """One that makes matrices itself is called for each round."""
        with spmat.Session() as s:
            got = spmat.fixpoint(s.full(1, 2, 5),
                                 lambda x: x.apply('minus',
                                                   right=1).ewise_add(s.full(1, 2, 2), 'max'),
                                 most=9)
            self.assertEqual(got.to_list(), [2, 2])
