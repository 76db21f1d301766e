"""One budget over blocks: it is charged, and jobs are refused, as in one session; what stays where
a block fails; what others take up."""
import functools
import os
import random
import signal
import subprocess
import sys
import tempfile
import unittest

import pytest

import block_pairs
import spmat
import support
import spmat_blocks as blocks
from spmat import algorithms, limits
from spmat_blocks import task_runner, worker_store

pytestmark = pytest.mark.slow

PACKAGES = os.pathsep.join(os.path.join(support.TOP, 'clients', name)
                           for name in ('python', 'blocks'))
# Each form by one method, without a mask; methods of one job and of several under masks of all
# kinds.
CALLS = {
    **{name: functools.partial(lambda call, A, B, K: call(A, B, K, None), call)
       for name, call in block_pairs.FORMS.items()},
    'mxm S': lambda A, B, K: A.mxm(B, mask=K.S), 'mxm ~V': lambda A, B, K: A.mxm(B, mask=~K.V),
    'apply ~S': lambda A, B, K: A.apply('abs', mask=~K.S),
    'apply V': lambda A, B, K: A.apply('abs', mask=K.V), 'without': lambda A, B, K: A.without(K),
    'without ~V': lambda A, B, K: A.without(~K.V),
    'update S': lambda A, B, K: A.update(B, 'plus', K),
    'update V': lambda A, B, K: A.update(B, None, K.V, True),
    'update ~S': lambda A, B, K: A.update(B, None, ~K.S),
    'dup ~S': lambda A, B, K: A.dup(mask=~K.S),
    'parts': lambda A, B, K: A.mxm(B, parts=True),
    'select ~S': lambda A, B, K: A.select('triu', 1, mask=~K.S),
    'union V': lambda A, B, K: A.ewise_add(B, 'max', mask=K.V),
    'mxv': lambda A, B, K: A.mxv(B.reduce_rowwise('plus')),
}
SAVER = """
import os, signal, sys
import spmat_blocks as blocks
from spmat import algorithms
s = blocks.Sessions(2)
G = s.from_edgelist([('a', 'b'), ('b', 'c'), ('c', 'd')], directed=False)
s.save(sys.argv[1], G=G, levels=algorithms.bfs_levels(G, 'a', G))
os.kill(os.getpid(), signal.SIGKILL)
"""


def outcome(call, *matrices):
    """What a call gives, or what it wants and what is left."""
    try:
        made = call(*matrices).wait()
        return made.to_text(), made.price, made.steps
    except spmat.BudgetExceeded as fault:
        return 'refused', fault.price, fault.left


def some(chance, n):
    return [(*at, x)
            for at, x in {(chance.randrange(n), chance.randrange(n)): chance.randrange(-4, 5)
                          for _ in range(3 * n)}.items()]


class AsOne(unittest.TestCase):
    def test_random_calls(self):
        """Each call of a budget that runs out is made, or refused with price and rest, as in one
        session, and leaves as much."""
        refused = 0
        for seed in range(8):
            chance = random.Random(seed)
            n, steps, several = chance.randrange(3, 14), chance.choice((900, 3000)), chance.choice(
                (2, 3, 5))
            with spmat.Session(steps=steps) as one, \
                    blocks.Sessions(2, blocks=several, steps=steps) as many:
                entries = [some(chance, n) for _ in range(3)]
                sides = [[session.from_triples(each, n, n) for each in entries]
                         for session in (one, many)]
                for _ in range(16):
                    name = chance.choice(list(CALLS))
                    want, got = (outcome(CALLS[name], *side) for side in sides)
                    with self.subTest(seed=seed, blocks=several, call=name):
                        self.assertEqual(got, want)
                        self.assertEqual(many.budget(), one.budget())
                    refused += want[0] == 'refused'
        self.assertGreater(refused, 20)

    def test_refused_before_any_is_charged(self):
        """No block alone wants more than is left."""
        with blocks.Sessions(3, steps=1000) as s:
            X = s.from_coo(range(300), [0] * 300, 1, 300, 1)
            self.assertEqual(s.budget(), spmat.Budget(1000, 0, 0))
            Y = X.apply('identity')
            self.assertEqual((Y.price, Y.steps, s.budget()), (600, 600, spmat.Budget(400, 0, 600)))
            self.assertEqual(list(s.budgets().values()), 3 * [spmat.Budget(400, 0, 200)])
            with self.assertRaisesRegex(spmat.BudgetExceeded,
                                        'the price is 600, and 400 are left') as caught:
                Y.apply('identity')
            fault = caught.exception
            self.assertEqual((fault.price, fault.left, fault.spent_in_all), (600, 400, 600))
            self.assertEqual(s.budget(), spmat.Budget(400, 0, 600))
            # which makes no call
            self.assertEqual((Y.reduce_rowwise().nvals, s.budget().spent), (300, 600))
            first = s.from_coo(range(90), [0] * 90, 1, 300, 1)
            self.assertEqual((X.apply('identity', mask=first.S).nvals, s.budget()),
                             (90, spmat.Budget(220, 0, 780)))

    def test_searches(self):
        """Pushed and pulled fronts, folds and products by blocks are counted, and the algorithm is
        named."""
        ring = [(i, (i + 1) % 60, 1) for i in range(60)] + [((i + 1) % 60, i, 1) for i in range(60)]
        with blocks.Sessions(3) as ample, \
                blocks.Sessions(3, steps=100_000, associative=['plus']) as small:
            G, H = ample.from_triples(ring, 60, 60), small.from_triples(ring, 60, 60)
            for call in (lambda M: algorithms.bfs_levels(M, 0, M),
                         lambda M: algorithms.bfs_levels(M, 5),
                         lambda M: M.mxm(M, associative=True), algorithms.triangle_count,
                         lambda M: M.reduce_scalar('max')):
                before = ample.budget().spent, small.budget().spent
                want, got = call(G), call(H)
                self.assertEqual(got if isinstance(got, int) else got.to_text(),
                                 want if isinstance(want, int) else want.to_text())
                self.assertEqual(small.budget().spent - before[1], ample.budget().spent - before[0])
        with blocks.Sessions(3, steps=100) as least:
            G = least.from_triples(ring, 60, 60)
            with self.assertRaisesRegex(spmat.BudgetExceeded,
                                        'triangle_count wants a job of up to 600 steps, and 100 are '
                                        'left'):
                algorithms.triangle_count(G, check=False)
            self.assertEqual(least.budget(), spmat.Budget(100, 0, 0))

    def test_an_ample_budget_is_not_looked_at(self):
        """Until so much was granted that it might not be ample any more: then it is asked what was
        spent."""
        ledger = task_runner.Ledger(task_runner.AMPLE + 3 * limits.MOST_PRICE)
        self.assertTrue(ledger.is_ample)
        ledger.grant(4)
        self.assertEqual((ledger.is_ample, ledger.is_granted), (False, True))
        ledger.note({'a': spmat.Budget(0, 0, 5), 'b': spmat.Budget(0, 2, 6)})
        self.assertEqual((ledger.is_ample, ledger.is_granted), (True, False))
        self.assertEqual(ledger.budget, spmat.Budget(ledger.steps - 13, 2, 11))
        # the other one was lost
        ledger.note({'b': spmat.Budget(0, 0, 7)})
        self.assertEqual(ledger.budget.spent, 12)


class Apart(unittest.TestCase):
    """What one block meets with leaves the rest as it was."""

    @unittest.skipIf(os.environ.get('SPMAT_CHECKED'),
                     'run-time checks reserve more addresses than any limit leaves')
    def test_little_memory(self):
        """One block's product wants more than its process may take; all that was there is there,
        and the sessions go on."""
        limited = ['sh', '-c', 'ulimit -v 60000; exec "$0" "$@"', support.program()]
        with blocks.Sessions(2, program=limited) as s:
            A = s.from_triples([(0, 0, 1)] + [(i, j, 1) for i in range(2000, 4000)
                                              for j in range(2)], 4000, 2).recut([0, 2000, 4000])
            B = s.full(2, 4000)
            first = A.apply('identity')
            with self.assertRaisesRegex((spmat.OutOfMemory, blocks.BlockFailed),
                                        'block 1 of 2, rows 2000 to 3999'):
                A.mxm(B).nvals
            self.assertEqual((first.nvals, first.isequal(A), B.nvals), (4001, True, 8000))

    def test_a_program_that_is_lost(self):
        """What it had spent stays spent, and what it had made is there."""
        with blocks.Sessions(2, steps=10_000) as s:
            X = s.from_coo(range(100), range(100), 1, 100, 100)
            Y = X.apply('identity')
            self.assertEqual(s.budget().spent, 200)
            os.kill(worker_store._stores[s.settings.token, 1].session.connection.process,
                    signal.SIGKILL)
            self.assertEqual(Y.apply('identity').nvals, 100)
            self.assertEqual(s.budget(), spmat.Budget(10_000 - 400, 0, 400))

    def test_taken_up_by_another_process(self):
        """What blocks save is read by blocks, and by one session, after the process that made it
        was killed."""
        with tempfile.TemporaryDirectory() as folder:
            path = os.path.join(folder, 'work.spmat')
            done = subprocess.run([sys.executable, '-c', SAVER, path],
                                  env=dict(os.environ, PYTHONPATH=PACKAGES), check=False,
                                  timeout=100)
            self.assertEqual(done.returncode, -signal.SIGKILL)
            with spmat.Session() as one, blocks.Sessions(3) as many:
                for session in (one, many):
                    found = session.load(path)
                    self.assertEqual(found['levels'].by_node(), {'a': 0, 'b': 1, 'c': 2, 'd': 3})
                    self.assertEqual((found['G'].directed, found['G'].nodes),
                                     (False, ['a', 'b', 'c', 'd']))
                    self.assertEqual(algorithms.bfs_levels(found['G'], 'd', found['G']).by_node(),
                                     {'d': 0, 'c': 1, 'b': 2, 'a': 3})
