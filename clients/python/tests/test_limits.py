"""`Session.limit`: a batch that would pass it isn't run, and what is below it goes on."""
import threading

import algorithm_calls
import alike
import graphs
import support
import spmat
import spmat_blocks as blocks
from spmat.algorithms.registry import ALGORITHMS


class Limits(support.InSession):
    def setUp(self):
        super().setUp()
        self.s.run()
        self.A = self.s.full(3, 3)

    def spent(self):
        return self.s.budget().spent

    def test_exact(self):
        """The prices of a batch may be all that is left, and not a step more."""
        before = self.spent()
        with self.s.limit(36) as limit:
            self.assertEqual((self.A.apply('one').nvals, self.A.apply('identity').nvals), (9, 9))
        self.assertEqual((limit.spent, limit.left, limit.passed), (36, 0, False))
        with self.assertRaisesRegex(spmat.BudgetExceeded,
                                    'the price is 18, and 17 are left of the limit of 35') as got:
            with self.s.limit(35) as limit:
                made = self.A.apply('one').wait(), self.A.apply('identity')
                made[1].wait()
        self.assertEqual((limit.spent, limit.passed), (18, True))
        self.assertEqual((got.exception.needed, got.exception.left), (18, 17))
        self.assertEqual(self.spent(), before + 54)

    def test_batches(self):
        """Prices of all jobs that wait count together."""
        with self.assertRaises(spmat.BudgetExceeded) as got, self.s.limit(53):
            for _ in range(3):
                self.A = self.A.apply('identity')
        self.assertEqual((got.exception.needed, got.exception.left), (18, 17))
        with self.assertRaises(spmat.BudgetExceeded) as got, self.s.limit(53):
            some = [self.s.full(3, 3).apply('identity') for _ in range(3)]
            some[0].wait()
        self.assertEqual((got.exception.needed, got.exception.left), (54, 53))

    def test_what_a_job_gives_back(self):
        """A run settles each price with what the job took."""
        G = graphs.UNDIRECTED[3].matrix(self.s)
        job = lambda: G.mxm(G, 'plus_pair', mask=G.S)
        price, before = job().price, self.spent()
        self.s.run()
        took = self.spent() - before
        self.assertLess(took, price)
        with self.s.limit(took + price) as limit:
            job().wait()
            job().wait()
        self.assertEqual(limit.spent, 2 * took)

    def test_what_was_queued_goes_on(self):
        """It waits, and the next run of the session makes it."""
        before = self.spent()
        with self.s.limit(17):
            made = self.A.apply('one')
            self.assertRaises(spmat.BudgetExceeded, made.wait)
            self.assertRaises(spmat.BudgetExceeded, made.to_text)
            self.assertRaises(spmat.BudgetExceeded, made.apply, 'identity')
        self.assertEqual((self.spent(), self.s.budget().reserved), (before, 18))
        self.assertEqual((made.nvals, self.spent()), (9, before + 18))

    def test_end(self):
        """What waits at the end has to be within the limit."""
        with self.assertRaises(spmat.BudgetExceeded), self.s.limit(17):
            self.A.apply('one')
        with self.s.limit(18) as limit:
            made = self.A.apply('one')
        self.assertEqual((made.waits, limit.spent), (True, 0))

    def test_jobs_from_before(self):
        """They run within it, and don't count."""
        made = self.A.apply('one')
        with self.s.limit(18) as limit:
            self.assertEqual((made.nvals, limit.spent), (9, 0))
            self.assertEqual((self.A.apply('identity').nvals, limit.spent), (9, 18))

    def test_nested(self):
        with self.s.limit(54) as outer:
            with self.s.limit(18) as inner:
                self.A.apply('one').wait()
            self.A.apply('one').wait()
            with self.assertRaisesRegex(spmat.BudgetExceeded, 'of the limit of 54'), \
                    self.s.limit(1000):
                some = self.A.apply('one'), self.A.apply('identity')
                some[0].wait()
        self.assertEqual((outer.spent, inner.spent), (36, 18))

    def test_exception(self):
        """The limit ends with the block, however that ends."""
        with self.assertRaises(ZeroDivisionError), self.s.limit(17):
            made = self.A.apply('one')
            raise ZeroDivisionError
        self.assertEqual(made.nvals, 9)
        self.assertEqual(self.s.backend.queue.limits, [])

    def test_threads(self):
        """Jobs of all threads count."""
        with self.s.limit(36) as limit:
            other = threading.Thread(target=lambda: self.A.apply('one').wait())
            other.start()
            other.join()
            self.A.apply('one').wait()
            self.assertRaises(spmat.BudgetExceeded, lambda: self.A.apply('one').wait())
        self.assertEqual(limit.spent, 36)

    def test_loops(self):
        """A loop stops in the round that passes it, with the state of the one before."""
        loop = spmat.loop(lambda x: {'far': x.far.apply('plus', right=1)}, {'far': self.A})
        with self.assertRaises(spmat.BudgetExceeded) as got, self.s.limit(5 * 36 + 35) as limit:
            loop.advance(20)
        self.assertEqual((got.exception.round, loop.number, limit.spent), (6, 5, 180))
        self.assertEqual({value for *_, value in loop.state.far.to_triples()}, {6})
        with self.assertRaises(spmat.BudgetExceeded), self.s.limit(100):
            spmat.fixpoint(self.A, lambda x: x.apply('plus', right=1))

    def test_algorithms(self):
        """Each is bounded, and counts all that it spends; below a limit it gives what it gives."""
        graph = graphs.undirected('small', 8, [(0, 1), (1, 2), (2, 3), (3, 4), (4, 5), (0, 5),
                                               (1, 4), (5, 6), (6, 7)])
        for name in ALGORITHMS:
            try:
                want = alike.plain(algorithm_calls.call(name, graph.matrix(self.s)))
            except ValueError:
                continue
            with self.subTest(algorithm=name):
                G, before = graph.matrix(self.s), self.spent()
                with self.s.limit(1e9) as limit:
                    self.assertEqual(alike.plain(algorithm_calls.call(name, G)), want)
                self.assertEqual(self.spent() - before, limit.spent)
                H, before, spent = graph.matrix(self.s), self.spent(), limit.spent
                if spent:
                    with self.assertRaises(spmat.BudgetExceeded), self.s.limit(spent - 1) as limit:
                        alike.plain(algorithm_calls.call(name, H))
                    self.assertLess(limit.spent, spent)
                    self.s.run()

    def test_budgets(self):
        """The budget of the session holds, too."""
        with spmat.Session(steps=20) as session, session.limit(1000):
            A = session.full(3, 3)
            A.apply('one').wait()
            with self.assertRaisesRegex(spmat.BudgetExceeded, '2 are left: open a session'):
                A.apply('one').wait()

    def test_words(self):
        for steps in (1.5, 'many'):
            with self.assertRaisesRegex((TypeError, ValueError), 'number of steps'), \
                    self.s.limit(steps):
                pass
        with blocks.Sessions(1) as many, self.assertRaisesRegex(AttributeError, 'steps= is a'):
            many.limit(3)
