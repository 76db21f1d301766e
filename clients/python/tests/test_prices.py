"""Prices beforehand: a call takes no more, or its price says that it isn't the whole; and nothing
is done for one."""
import random
import threading
import warnings
from unittest import mock

import pytest

import alike
import graphs
import support
import spmat
import spmat_blocks as blocks
from spmat import algorithms
from spmat.algorithms import traversal
from test_alike import here

pytestmark = pytest.mark.slow


class Jobs(support.InSession):
    def test_exact(self):
        """The price of jobs on matrices that are there is the one that the server tells."""
        G = graphs.UNDIRECTED[3].matrix(self.s)
        half = G.select('tril').wait()
        for call in (lambda: G.apply('one'), lambda: G.select('triu'), lambda: G.mxm(half),
                     lambda: half.mxm(G, 'plus_pair'), lambda: G.ewise_mult(G, 'min')):
            priced = spmat.price(call)
            self.assertEqual((priced.steps, priced.complete), (call().price, True))

    def test_operand_that_waits(self):
        """A product of a job's result has a price before and after the job ran."""
        A = self.s.from_triples([(0, 0, 1), (0, 1, 2), (1, 1, 3)], 2, 2)
        B = A.apply('one')
        waits = spmat.price(lambda: B.mxm(B, 'plus_times'))
        within = spmat.price(lambda: A.apply('one').mxm(A.apply('one'), 'plus_times'))
        price = B.mxm(B, 'plus_times').price
        self.assertTrue(waits.complete and within.complete)
        self.assertGreaterEqual(waits.steps, price)
        self.assertEqual(within.steps, price + 12)
        self.assertEqual(spmat.price(lambda: B.mxm(B, 'plus_times')).steps, price)

    def test_words(self):
        G = graphs.UNDIRECTED[3].matrix(self.s)
        self.assertEqual(repr(spmat.price(lambda: G.apply('one'))), '<Price: 312 steps in 1 job>')
        self.assertEqual(repr(spmat.price(lambda: G.apply('one').nvals)),
                         '<Price: 312 steps in 1 job, and what follows from it>')
        self.assertEqual(spmat.price(lambda: G.apply('one')).jobs, [('apply', 312)])
        with self.assertRaises(ZeroDivisionError):
            spmat.price(lambda: 1 // 0)
        self.assertEqual(G.apply('one').nvals, G.nvals)        # jobs are queued again

    def test_comparisons(self):
        """What a comparison comes to depends on numbers of entries."""
        G = graphs.UNDIRECTED[3].matrix(self.s)
        for call in (lambda: G.isequal(G.T), lambda: G.isequal(G.dup())):
            priced, before = spmat.price(call), self.s.budget().spent
            self.assertTrue(call())
            self.assertTrue(priced.steps < self.s.budget().spent - before and not priced.complete)

    def test_too_large(self):
        """Whether a job is refused for its size is known where it is queued."""
        side = 1 << 13
        A = self.s.full(side, 1)
        priced = spmat.price(lambda: A.mxm(A.T, 'plus_times'))
        self.assertEqual((priced.jobs, priced.complete), ([], False))

    def test_threads(self):
        """A price is asked in one thread, and others go on."""
        G, found = self.s.full(3, 3), []

        def call():
            other = threading.Thread(target=lambda: found.append(G.apply('one').nvals))
            other.start()
            other.join()
        self.assertEqual((spmat.price(call).jobs, found), ([], [9]))

    def test_within_another(self):
        G, found = self.s.full(3, 3), []
        outer = spmat.price(lambda: (G.apply('one'), found.append(
            spmat.price(lambda: G.apply('one').apply('ainv'))), G.apply('one')))
        self.assertEqual((len(outer.jobs), len(found[0].jobs)), (2, 2))

    def test_nothing_is_left(self):
        """What was foreseen is no matrix, and nothing that was found out is kept."""
        G, held = graphs.UNDIRECTED[3].matrix(self.s), []
        kept = dict(G.kept)
        for call in (lambda: held.append(G.apply('one')), lambda: algorithms.triangle_count(G),
                     lambda: algorithms.k_core(G, 2)):
            spmat.price(call)
        self.assertEqual(G.kept.keys() - {'entries by axis 0', 'entries by axis 1'}, kept.keys())
        for call in (held[0].to_text, lambda: held[0].nvals, lambda: G.mxm(held[0])):
            with self.assertRaisesRegex(spmat.NotMade, 'spmat.price only foresaw its job'):
                call()

    def test_rounds(self):
        """Rounds are made by what came before: none is foreseen, and none is sent."""
        self.s.run()
        A = self.s.full(3, 3)
        loop = spmat.loop(lambda x: {'far': x.far.ewise_add(A, 'plus')}, {'far': A})
        before = self.s.budget(), loop.number
        for call in (lambda: loop.advance(3), lambda: spmat.fixpoint(A, lambda x: x.apply('one')),
                     lambda: algorithms.bfs_levels(A, 0), self.s.run):
            A.apply('one')
            with mock.patch.object(traversal, 'AT_ONCE', 0):
                priced = spmat.price(call)
            self.assertFalse(priced.complete)
            self.s.run()
        self.assertEqual((self.s.budget().spent - before[0].spent, loop.number), (4 * 18, 0))

    def test_blocks(self):
        """Nothing is told of blocks, and nothing is done."""
        with blocks.Sessions(2) as many:
            A = many.full(4, 4)
            A.wait()
            before = many.budget()
            for call in (lambda: A.apply('one'), lambda: A.mxm(A),
                         lambda: algorithms.bfs_levels(A, 0)):
                priced = spmat.price(call)
                self.assertEqual((priced.steps, priced.complete), (0, False))
            self.assertEqual(many.budget(), before)


class EveryCall(support.InSession):
    """Each public method and algorithm, on matrices that are there, and on such that wait."""

    def look(self, call):
        """Whether the price of a call is the whole: then it takes no more."""
        reserved = self.s.budget()
        asked = self.s.jobs
        try:
            priced = spmat.price(call)
        except Exception:                          # pylint: disable=broad-exception-caught
            self.assertRaises(Exception, call)
            self.s.run()
            return False
        self.assertEqual((self.s.budget(), self.s.jobs), (reserved, asked))
        try:
            call()
        except Exception:                          # pylint: disable=broad-exception-caught
            self.assertFalse(priced.complete)
        self.s.run()
        spent = self.s.budget().spent - reserved.spent - reserved.reserved
        if priced.complete:
            self.assertLessEqual(spent, priced.steps)
        return priced.complete and spent > 0

    def make(self, waits):
        made = alike.Made(self.s, alike.graphs_of(random.Random(1), 9)['directed'],
                          random.Random(2))
        if waits:
            for name, one in vars(made).items():
                if isinstance(one, spmat.Matrix):
                    setattr(made, name, one.dup())
        return made

    def test_methods(self):
        whole = {}
        for waits in (False, True):
            for name, calls in alike.METHODS.items():
                for number, call in enumerate(calls if here(name) else ()):
                    for mask in ('none', 'S') if name in alike.MASKED else ('none',):
                        made = self.make(waits)
                        if not waits:
                            self.s.run()
                        with self.subTest(method=name, number=number, mask=mask, waits=waits):
                            is_whole = self.look(lambda: call(made, alike.MASKS[mask](made.K)))
                            whole[waits] = whole.get(waits, 0) + is_whole
        self.assertGreater(whole[False], 40)
        self.assertGreater(whole[True], 20)

    def test_algorithms(self):
        make = alike.graphs_of(random.Random(3), 11)
        for waits in (False, True):
            for name, calls in alike.ALGORITHMS.items():
                for kind in ('undirected', 'directed'):
                    for number, call in enumerate(calls):
                        G = make[kind](self.s)
                        G = G.dup() if waits else G
                        with self.subTest(algorithm=name, number=number, kind=kind, waits=waits), \
                                warnings.catch_warnings():
                            warnings.simplefilter('ignore')
                            self.look(lambda: call(G))
