"""Jobs on row blocks over threads give the bytes, the prices and the steps of one session."""
import random
import unittest

import pytest

import model
import spmat
import support  # pylint: disable=unused-import  # it names the program
from block_pairs import CASES, FEW, FORMS, MASKS, Pair, entries
import spmat_blocks as blocks
from spmat.algorithms.traversal import swap, vector_of
from spmat_blocks import jobs, worker_tasks

pytestmark = pytest.mark.slow

COUNTS = (1, 2, 5)


class Same(unittest.TestCase):
    def each(self, look):
        for count in COUNTS:
            with spmat.Session() as one, blocks.Sessions(count) as many:
                look(one, many, count)

    def test_forms_and_masks(self):
        def look(one, many, count):
            for case in CASES:
                pair = Pair(one, many, case)
                for number, form in enumerate(FORMS):
                    masks = pair.mask(form, number)
                    for kind, mask in MASKS.items():
                        if kind not in FEW and case != 'random':
                            continue
                        before = [one.budget().spent, many.budget().spent]
                        want = FORMS[form](*pair.sides[0], mask(masks[0])).wait()
                        got = FORMS[form](*pair.sides[1], mask(masks[1])).wait()
                        with self.subTest(sessions=count, case=case, form=form, mask=kind):
                            self.assertEqual(got.to_text(), want.to_text())
                            self.assertEqual(got.nvals, want.nvals)
                            self.assertEqual((got.price, got.steps),
                                             (want.price or 0, want.steps or 0))
                            self.assertEqual(one.budget().spent - before[0],
                                             many.budget().spent - before[1])
        self.each(look)

    def test_a_method_under_a_mask_is_one_visit(self):
        """Of several jobs, too: each block's session makes all of them in one task, and what lies
        between comes to no client."""
        with blocks.Sessions(3) as s:
            A = Pair(s, s, 'random').sides[0][0]
            asked, submit = [], s.engine.submit
            s.engine.submit = (lambda settings, place, label, function, *more: asked.append(
                function) or submit(settings, place, label, function, *more))
            for mask in (A.V, ~A.S, ~A.V):
                for call in (lambda: A.apply('abs', mask=mask), lambda: A.dup(mask=mask),
                             lambda: A.ewise_mult(A, mask=mask), lambda: A.update(A, 'plus', mask),
                             lambda: A.update(A, None, mask, True), lambda: A.update(A, None, A.S)):
                    asked.clear()
                    call().wait()
                    self.assertEqual(asked, [worker_tasks.job] * 3 + [worker_tasks.counts_of] * 3)

    def test_what_is_read(self):
        def look(one, many, count):
            for case in CASES:
                (A, B, K), (X, Y, Z) = Pair(one, many, case).sides
                with self.subTest(sessions=count, case=case):
                    self.assertEqual((X.shape, X.nvals, X.to_dict()),
                                     (A.shape, A.nvals, A.to_dict()))
                    self.assertEqual(X.to_triples(), A.to_triples())
                    self.assertEqual(X.to_coo(arrays=False), A.to_coo(arrays=False))
                    self.assertEqual(X.T.to_text(), A.T.to_text())
                    self.assertEqual([a is b
                                      for a, b in zip(X.T.handle.futures, X.T.handle.futures)],
                                     [True] * X.T.cut.blocks)
                    self.assertEqual(X.diag().to_text(), A.diag().to_text())
                    self.assertEqual(X.without(Y).to_text(), A.without(B).to_text())
                    self.assertTrue(X.isequal(X.apply('identity')))
                    self.assertEqual(X.isequal(Y), A.isequal(B))
                    self.assertFalse(X.isequal(Z.T if X.shape != Z.T.shape else Z))
        self.each(look)

    def test_fold_of_all(self):
        """The value and what is spent."""
        def look(one, many, count):
            for case in CASES:
                (A, _, _), (X, _, _) = Pair(one, many, case).sides
                for op in ('plus', 'times', 'first', 'second'):
                    # all calls take as many steps
                    before = [one.budget().spent, many.budget().spent]
                    with self.subTest(sessions=count, case=case, op=op):
                        self.assertEqual(X.reduce_scalar(op), A.reduce_scalar(op))
                        self.assertEqual(one.budget().spent - before[0],
                                         many.budget().spent - before[1])
                self.assertEqual(X.reduce_scalar('min'), A.reduce_scalar('min'))
        self.each(look)

    def test_products_by_blocks(self):
        """For an associative ADD the same values and steps; `first` doesn't commute."""
        def look(one, many, count):
            for case in CASES:
                (A, _, K), (X, _, Z) = Pair(one, many, case).sides
                M, W = A.mxm(K).select('rowle', 20), X.mxm(Z).select('rowle', 20)
                for ring in ('plus_times', 'times_plus', 'first_minus', 'second_minus'):
                    for mask in (False, True):
                        with self.subTest(sessions=count, case=case, ring=ring, mask=mask):
                            want = A.mxm(K, ring, mask=M.S if mask else None).wait()
                            got = X.mxm(Z, ring, mask=W.S if mask else None, associative=True)
                            self.assertEqual(got.to_text(), want.to_text())
                            self.assertEqual(got.steps, want.steps)
                self.assertEqual(X.mxm(Z, 'min_plus', associative=True).to_text(),
                                 A.mxm(K, 'min_plus').to_text())
                self.assertEqual(X.reduce_columnwise('plus', associative=True).to_text(),
                                 A.reduce_columnwise('plus').to_text())
        self.each(look)

    def test_products_by_blocks_change_others(self):
        """`minus` isn't associative: cut into blocks, 8 - (4 - 2) - .. is another number, and the
        whole gives the right one."""
        row = [(0, k, 1) for k in range(4)]
        column = [(k, 0, x) for k, x in enumerate((8, 4, 2, 1))]
        with blocks.Sessions(2) as s:
            A, B = s.from_triples(row, 1, 4), s.from_triples(column, 4, 1)
            halves = B.recut([0, 2, 4])
            self.assertEqual(A.mxm(halves, 'minus_times').to_list(), [8 - 4 - 2 - 1])
            self.assertEqual(A.mxm(halves, 'minus_times', associative=True).to_list(),
                             [(8 - 4) - (2 - 1)])
            self.assertEqual(A.mxm(halves, 'plus_times', associative=True).to_list(), [15])

    def test_said_once_for_all_products(self):
        with spmat.Session() as one, blocks.Sessions(3, associative=['plus']) as many:
            (A, _, K), (X, _, Z) = Pair(one, many, 'random').sides
            product = X.mxm(Z)
            self.assertEqual(product.to_text(), A.mxm(K).to_text())
            # unions were queued as well
            self.assertGreater(product.price, A.mxm(K).wait().price)
            self.assertEqual(X.mxm(Z, 'minus_times').price, A.mxm(K, 'minus_times').wait().price)
            self.assertEqual(X.mxm(Z, associative=False).price, A.mxm(K).wait().price)

    def test_more_blocks_than_sessions(self):
        with spmat.Session() as one, blocks.Sessions(2, blocks=7) as many:
            (A, B, K), (X, Y, Z) = Pair(one, many, 'random').sides
            self.assertEqual(X.cut.blocks, 7)
            self.assertEqual(X.mxm(Z, 'minus_times').to_text(), A.mxm(K, 'minus_times').to_text())
            self.assertEqual(X.ewise_add(Y, 'minus').T.to_text(),
                             A.ewise_add(B, 'minus').T.to_text())

    def test_columns_are_folded_where_they_lie(self):
        """With `associative=True`, and in `reduce_scalar`, each block is folded at its session, and
        a row comes from each."""
        triples = [(*at, x) for at, x in entries(5, 40, 7, 90).items()]
        mask = [(0, j, j % 2) for j in range(0, 7, 2)]
        with spmat.Session() as one, blocks.Sessions(2, blocks=5) as many:
            sides = [(s.from_triples(triples, 40, 7), s.from_triples(mask, 1, 7))
                     for s in (one, many)]
            asked, submit = [], many.engine.submit
            many.engine.submit = lambda settings, place, label, function, *args: \
                asked.append(function) or submit(settings, place, label, function, *args)
            for op in ('plus', 'min', 'first', 'second', 'times'):
                for kind in ('none', 'S', 'V', '~S'):
                    want, got = (A.reduce_columnwise(op, mask=MASKS[kind](K), associative=True)
                                 for A, K in sides)
                    with self.subTest(op=op, mask=kind):
                        self.assertEqual((got.to_text(), got.cut.nrows), (want.to_text(), 1))
                (A, _), (X, _) = sides
                self.assertEqual(X.reduce_scalar(op), A.reduce_scalar(op))
            self.assertEqual(asked.count(worker_tasks.fold_rows), 5 * 5 * 5)
            # no row of ones goes to a block
            self.assertEqual(asked.count(worker_tasks.full), 0)


class Fronts(unittest.TestCase):
    """A step of a front, pushed and pulled: what one session's product of a row gives."""

    RINGS = ('any_first', 'first_first', 'second_first', 'min_plus', 'max_first', 'plus_times')

    def vector(self, n, many, seed):
        random_ = random.Random(seed)
        at = sorted(random_.sample(range(n), many))
        return vector_of(at, [random_.choice((1, -5, (1 << 62) + 3, -1 << 63, 9)) for _ in at])

    def test_as_a_product_of_a_row(self):
        n = 60
        triples = [(*at, x) for at, x in entries(1, n, n, 500).items()]
        with spmat.Session() as one, blocks.Sessions(3) as many:
            G, X = one.from_triples(triples, n, n), many.from_triples(triples, n, n)
            for ring in map(spmat.semiring, *zip(*(name.split('_') for name in self.RINGS))):
                for number, size in enumerate((0, 1, 9, 50)):
                    front = self.vector(n, size, number)
                    row = one.from_coo([0] * size, front.at.tolist(), front.values.tolist(), 1,
                                       n).mxm(G, ring)
                    want = row.to_coo(arrays=False)[1:]
                    found = jobs.push_front(X, front, ring), jobs.pull_front(X.T, front, swap(ring))
                    for way, got in zip(('push', 'pull'), found):
                        with self.subTest(ring=ring, size=size, way=way):
                            self.assertEqual((got.at.tolist(), got.values.tolist()),
                                             tuple(map(list, want)))

    def test_only_blocks_that_have_the_front_are_asked(self):
        with blocks.Sessions(4) as s:
            X = s.identity(40)
            X.wait()
            asked, submit = [], s.engine.submit
            s.engine.submit = (lambda settings, place, *more: asked.append(place)
                               or submit(settings, place, *more))
            got = jobs.push_front(X, vector_of([11, 12], [1, 1]), spmat.semiring('any', 'first'))
            self.assertEqual((got.at.tolist(), got.values.tolist(), asked), ([11, 12], [1, 1], [1]))


class Steps(unittest.TestCase):
    def test_random_calls(self):
        """Sequences of calls beside finite maps of Python."""
        with blocks.Sessions(3) as s:
            for seed in range(60):
                random_ = random.Random(seed)
                n = random_.randrange(1, 7)
                a = entries(seed, n, n, random_.randrange(12))
                X = s.from_triples([(*at, x) for at, x in a.items()], n, n)
                for _ in range(6):
                    b, op = entries(seed + 1000, n, n,
                                    random_.randrange(12)), random_.choice(list(model.BINARY))
                    Y = s.from_triples([(*at, x) for at, x in b.items()], n, n)     # cut elsewhere
                    X, a = random_.choice((
                        lambda: (X.ewise_add(Y, op), model.union(a, b, op)),
                        lambda: (X.ewise_mult(Y, op), model.both(a, b, op)),
                        lambda: (X.mxm(Y, op + '_plus'), model.product(a, b, op, 'plus')),
                        lambda: (X.T, model.transposed(a)),
                        lambda: (X.dup(mask=~Y.S), model.cut(a, lambda p: p not in b)),
                        lambda: (X.recut(Y.cut), a)))()
                self.assertEqual(X.to_dict(), a, seed)
