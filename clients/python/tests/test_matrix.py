"""Matrices: in and out by the standard library alone, each job, masks, and what a call costs in
jobs and runs."""
import copy
import pickle
import unittest

import support  # noqa: F401 (finds the program)
import spmat
import spmat_blocks as blocks
from spmat import Semiring, asm, binary, code, indexunary, semiring, unary
from spmat.wire import connection

A_MAP = {(0, 0): 5, (0, 2): -3, (1, 1): 0, (2, 0): 7, (2, 2): 2}
B_MAP = {(0, 0): 2, (1, 1): 4, (1, 2): 1, (2, 2): 6}


def triples(entries):
    return [(i, j, value) for (i, j), value in entries.items()]


class Matrices(unittest.TestCase):
    @classmethod
    def setUpClass(cls):
        cls.s = spmat.Session()
        cls.A = cls.s.from_triples(triples(A_MAP), 3, 3)
        cls.B = cls.s.from_triples(triples(B_MAP), 3, 3)

    @classmethod
    def tearDownClass(cls):
        cls.s.close()

    def cost(self, call):
        """The result's entries, and the jobs and runs that it took to have them queued."""
        self.s.run()
        jobs, runs = self.s.jobs, self.s.runs
        result = call()
        jobs, runs = self.s.jobs - jobs, self.s.runs - runs
        return (result.to_dict() if isinstance(result, spmat.Matrix) else result), jobs, runs


class InAndOut(Matrices):
    def test_triples(self):
        s = self.s
        self.assertEqual(s.from_triples([]).shape, (0, 0))
        self.assertEqual(s.from_triples([(1, 4, 2)]).shape, (2, 5))
        ends = s.from_triples(iter([(1, 4, -2 ** 63), (0, 0, 2 ** 63 - 1)]), 7, 8)
        self.assertEqual(ends.to_triples(), [(0, 0, 2 ** 63 - 1), (1, 4, -2 ** 63)])
        self.assertEqual(s.from_coo([0, 1], [1, 0], 4).to_dict(), {(0, 1): 4, (1, 0): 4})
        self.assertEqual(s.from_coo(range(2), (1, 0), [True, 2.0]).to_dict(),
                         {(0, 1): 1, (1, 0): 2})
        self.assertEqual(s.from_coo([0, 0, 1], [1, 1, 0], [2, 9, 4], dup_op='minus').to_dict(),
                         {(0, 1): -7, (1, 0): 4})

    def test_pairs(self):
        """Of two columns the value is 1; `square` makes a graph of them."""
        s, pairs = self.s, [(0, 1), (1, 2), (2, 0), (2, 3)]
        self.assertEqual(s.from_triples(pairs).shape, (3, 4))
        G = s.from_triples(pairs, square=True)
        self.assertEqual((G.shape, G.to_dict()), ((4, 4), dict.fromkeys(pairs, 1)))
        self.assertEqual(s.from_triples([(0, 1), (1, 0, 7)]).to_dict(), {(0, 1): 1, (1, 0): 7})
        self.assertEqual(s.from_coo([5], [2], square=True).shape, (6, 6))
        # a size that is given is both
        self.assertEqual(s.from_coo([1], [2], 1, 9, square=True).shape, (9, 9))
        with self.assertRaisesRegex(ValueError, 'not of 2 rows and 9 columns'):
            s.from_coo([1], [2], 1, 2, 9, square=True)
        self.assertIn('(1, 2, 3, 4) (entry 1)',
                      support.said(ValueError, s.from_triples, [(0, 1), (1, 2, 3, 4)]))

    def test_nothing(self):
        """What has no rows has no values either."""
        s = self.s
        for shape, want in (((0, 1), []), ((1, 0), []), ((1, 1), [None])):
            self.assertEqual(s.from_coo([], [], [], *shape).to_list(), want)
        self.assertEqual(s.from_coo([], [], [], 0, 1).diag().shape, (0, 0))
        self.assertEqual(s.from_coo([], [], [], 1, 0).diag().shape, (0, 0))
        empty = s.from_coo([], [], [], 0, 0)
        self.assertEqual(empty.reduce_rowwise().to_list(), [])
        self.assertEqual(spmat.algorithms.connected_components(empty).to_list(), [])

    def test_repeated(self):
        """The two entries of one position are named as the caller counts them."""
        for rows, columns in (([3, 0, 1, 0], [1, 2, 2, 2]), ((0, 9, 0), (7, 1, 7))):
            with self.assertRaises(spmat.TextRefused) as said:
                self.s.from_coo(rows, columns, 1)
            first = 1 if rows[0] == 3 else 0
            words = 'row 0, column %d is given as entry %d and as entry %d' % (
                columns[-1], first, len(rows) - 1)
            self.assertIn(words, str(said.exception))
            self.assertIn('dup_op=', str(said.exception))

    def test_wrong_triples(self):
        s = self.s
        before = s.connection.commands
        for kind, call in (
            (TypeError, lambda: s.from_triples([(0, 0, 'x')])),
            (TypeError, lambda: s.from_triples([(0, '1', 1)])),
            (ValueError, lambda: s.from_triples([(0, 0, .5)])),
            (ValueError, lambda: s.from_triples([(0, 0, float('nan'))])),
            (ValueError, lambda: s.from_triples([(0, 0, 2 ** 63)])),
            (ValueError, lambda: s.from_triples([(-1, 0, 1)])),
            (ValueError, lambda: s.from_triples([(2, 0, 1)], 2, 2)),
            (ValueError, lambda: s.from_triples([(0, 2, 1)], 2, 2)),
            (ValueError, lambda: s.from_triples([(0,)])),
            (ValueError, lambda: s.from_coo([0, 1], [0], [1, 2])),
            (ValueError, lambda: s.from_coo([0], [0], [1], -1)),
            (TypeError, lambda: s.from_coo([0], [0], None)),
            (TypeError, lambda: s.from_coo([0], [0], [1 + 2j])),
            (spmat.TooLarge, lambda: s.from_coo([0], [0], [1], 1 << 25)),
            (spmat.TooLarge, lambda: s.full(5000, 5000)),
            (ValueError, lambda: s.from_dense([[1, 2], [3]]))):
            with self.assertRaises(kind):
                call()
        self.assertEqual(s.connection.commands, before)    # nothing was sent
        self.assertIn('column 5 is not in 0 to 1 (entry 1)',
                      support.said(ValueError, s.from_triples, [(0, 0, 1), (0, 5, 1)], 2, 2))

    def test_tables(self):
        self.assertEqual(self.s.from_dense([[1, 0], [0, 2], [3, 0]], 0).to_dict(),
                         {(0, 0): 1, (1, 1): 2, (2, 0): 3})
        self.assertEqual(self.s.from_dense([4, 0]).to_dict(), {(0, 0): 4, (1, 0): 0})
        self.assertEqual(self.s.full(2, 3, 7).to_triples(),
                         [(i, j, 7) for i in range(2) for j in range(3)])
        self.assertEqual(self.s.identity(3, 2).to_dict(), {(i, i): 2 for i in range(3)})

    def test_out(self):
        self.assertEqual(self.A.to_triples(), sorted(triples(A_MAP)))
        self.assertEqual(list(zip(*self.A.to_coo(arrays=False))), sorted(triples(A_MAP)))
        self.assertEqual(self.A.to_text().split(b'\n')[1], b'3 3 5')
        self.assertEqual(self.A.reduce_rowwise().to_list(), [2, 0, 9])
        self.assertEqual(self.s.from_triples([(0, 2, 4)], 1, 4).to_list(0), [0, 0, 4, 0])
        with self.assertRaises(spmat.DimensionMismatch):
            self.A.to_list()
        self.assertEqual((self.A.shape, self.A.nvals, self.A.price, self.A.steps),
                         ((3, 3), 5, None, None))

    def test_dtype(self):
        self.assertEqual(self.s.identity(2).dtype, 'INT64')

    def test_not_pickled(self):
        for thing in (self.s, self.A):
            self.assertIn('pickled', support.said(TypeError, pickle.dumps, thing))
        for copied in (copy.copy, copy.deepcopy):
            self.assertIn('A.dup() copies it', support.said(TypeError, copied, self.A))


class Jobs(Matrices):
    def test_apply(self):
        A = self.A
        self.assertEqual(self.cost(lambda: A.apply('ainv')),
                         ({p: -x for p, x in A_MAP.items()}, 1, 0))
        self.assertEqual(A.apply(unary.one).to_dict(), {p: 1 for p in A_MAP})
        self.assertEqual(self.cost(lambda: A.apply('minus', right=3)),
                         ({p: x - 3 for p, x in A_MAP.items()}, 1, 0))
        self.assertEqual(A.apply(binary.minus, left=3).to_dict(),
                         {p: 3 - x for p, x in A_MAP.items()})
        self.assertEqual(A.apply('rowindex').to_dict(), {(i, j): i for i, j in A_MAP})
        self.assertEqual(A.apply(indexunary.colindex, 10).to_dict(),
                         {(i, j): j + 10 for i, j in A_MAP})
        self.assertEqual(A.apply(code('unary', 'b700000007000000 9500000000000000')).to_dict(),
                         {p: 7 for p in A_MAP})
        bound = code('binary', 'bf10000000000000 1f20000000000000 9500000000000000')
        self.assertEqual(A.apply(bound, left=1).to_dict(), {p: 1 - x for p, x in A_MAP.items()})

    def test_bound_with_jumps(self):
        """Jumps are relative, so a program with moves before it is the same program."""
        self.assertEqual(self.A.apply('max', right=1).to_dict(),
                         {p: max(x, 1) for p, x in A_MAP.items()})
        self.assertEqual(self.A.apply('max', left=1).to_dict(),
                         {p: max(1, x) for p, x in A_MAP.items()})
        self.assertEqual(self.A.apply('floordiv', left=-7).to_dict(),
                         {p: -7 // x if x else 0 for p, x in A_MAP.items()})

    def test_select(self):
        self.assertEqual(self.cost(lambda: self.A.select('tril', -1)), ({(2, 0): 7}, 1, 0))
        self.assertEqual(self.A.select('>', 2).to_dict(), {(0, 0): 5, (2, 0): 7})
        self.assertEqual(self.A.select(indexunary.valueeq, 0).to_dict(), {(1, 1): 0})

    def test_joined(self):
        self.assertEqual(self.cost(lambda: self.A.ewise_add(self.B, 'minus')),
                         ({(0, 0): 3, (0, 2): -3, (1, 1): -4, (1, 2): 1, (2, 0): 7, (2, 2): -4}, 1,
                          0))
        self.assertEqual(self.A.ewise_mult(self.B).to_dict(), {(0, 0): 10, (1, 1): 0, (2, 2): 12})

    def test_products(self):
        want = {(0, 0): 10, (0, 2): -18, (1, 1): 0, (1, 2): 0, (2, 0): 14, (2, 2): 12}
        self.assertEqual(self.cost(lambda: self.A.mxm(self.B)), (want, 1, 0))
        for ring in ('min_plus', Semiring('min', 'plus'), semiring.min_plus, (binary.min, 'plus')):
            self.assertEqual(self.A.mxm(self.B, ring).to_dict()[0, 2], 3)
        v = self.s.from_dense([1, 2, 3])
        self.assertEqual((self.A.mxv(v).to_list(), v.T.vxm(self.A).to_list()),
                         ([-4, 0, 13], [26, 0, 3]))

    def test_reductions(self):
        A = self.A
        self.assertEqual(self.cost(lambda: A.reduce_rowwise('minus')),
                         ({(0, 0): 8, (1, 0): 0, (2, 0): 5}, 1, 0))
        A.reduce_columnwise()
        self.assertEqual(self.cost(lambda: A.reduce_columnwise('minus')),
                         ({(0, 0): -2, (0, 1): 0, (0, 2): -5}, 1, 0))
        self.assertEqual(self.cost(A.reduce_scalar), (11, 2, 2))
        self.assertEqual(self.cost(lambda: A.reduce_rowwise('max').wait().reduce_scalar('max')),
                         (7, 2, 2))
        row = self.s.from_triples([(0, 1, 5), (0, 2, 6)], 1, 3)
        self.assertEqual(self.cost(lambda: row.reduce_scalar('times')), (30, 1, 1))
        self.assertEqual(self.s.from_triples([], 3, 3).reduce_scalar(), None)

    def test_results_of_a_run(self):
        with spmat.Session() as s:
            A = s.from_triples([(0, 0, 5), (0, 1, -7)])
            B = A.apply('abs', name='magnitude')
            A.apply('one')                                 # nobody holds it
            self.assertEqual((B.price, B.steps, B.waits), (8, None, True))
            got = s.run()
            self.assertEqual([(job.form, job.price, job.steps) for job in got],
                             [('apply', 8, 7), ('apply', 4, 4)])
            self.assertIs(got[0].matrix, B)
            self.assertEqual((got[1].matrix, B.steps, B.nvals, B.name, s.run()),
                             (None, 7, 2, 'magnitude', []))
            self.assertEqual(s.budget(), spmat.Budget(2 ** 62 - 11, 0, 11))

    def test_looked_at(self):
        op = asm('unary', 'mov64 r0, r1\n; doubled\nadd64 r0, r0\nexit')
        self.assertEqual(self.s.dis(op), 'mov64 r0, r1\nadd64 r0, r0\nexit\n')
        self.assertEqual(self.s.types(op)[0], '0 u n u u u u u u u u p0')

    def test_wrong_calls(self):
        """A wrong type or shape is an exception before anything is sent."""
        A, s = self.A, self.s
        flat = s.from_triples([(0, 0, 1)], 1, 3)
        with spmat.Session() as other:
            foreign = other.from_triples([(0, 0, 1)], 3, 3)
            before = s.connection.commands
            for kind, call in (
                (spmat.DimensionMismatch, lambda: A.ewise_add(flat)),
                (spmat.DimensionMismatch, lambda: A.ewise_mult(flat)),
                (spmat.DimensionMismatch, lambda: flat.T.mxm(flat.T)),
                (spmat.DimensionMismatch, lambda: A.mxv(A)),
                (spmat.DimensionMismatch, lambda: A.vxm(A)),
                (spmat.DimensionMismatch, lambda: A.apply('abs', mask=flat.S)),
                (spmat.DimensionMismatch, lambda: A.mxm(A, mask=~flat.S)),
                (spmat.DimensionMismatch, lambda: A.without(flat)),
                (spmat.DimensionMismatch, lambda: A.update(A, 'plus', flat.V)),
                (spmat.DomainMismatch, lambda: A.apply(binary.plus)),
                (spmat.DomainMismatch, lambda: A.apply(unary.abs, right=1)),
                (spmat.DomainMismatch, lambda: A.apply(indexunary.tril, left=1)),
                (spmat.DomainMismatch, lambda: A.select(unary.abs)),
                (spmat.DomainMismatch, lambda: A.ewise_add(A, unary.abs)),
                (spmat.DomainMismatch, lambda: A.mxm(A, (binary.plus, unary.abs))),
                (spmat.DomainMismatch, lambda: A.reduce_rowwise(unary.abs)),
                (spmat.DomainMismatch, lambda: A.reduce_columnwise(unary.abs)),
                (TypeError, lambda: A.ewise_add(3)),
                (TypeError, lambda: A.mxm(None)), (TypeError, lambda: A.apply(3)),
                (TypeError, lambda: A.apply('abs', mask=3)),
                (TypeError, lambda: A.select('tril', 'x')),
                (TypeError, lambda: A.apply('plus', right=1, left=2)),
                (TypeError, lambda: A.isequal(3)),
                (TypeError, lambda: A.mxm(A, 3)), (TypeError, lambda: A.without(None)),
                (ValueError, lambda: A.apply('no such')), (ValueError, lambda: A.mxm(A, 'plus_no')),
                (ValueError, lambda: A.apply('plus', right=2 ** 63)),
                (ValueError, lambda: A.select('tril', .5)),
                (ValueError, lambda: A.ewise_add(foreign)),
                (ValueError, lambda: A.apply('abs', mask=foreign.S))):
                with self.assertRaises(kind):
                    call()
            self.assertLessEqual(s.connection.commands - before, 4)   # the two transposes
            self.assertIn('3x3 and 1x3', support.said(spmat.DimensionMismatch, A.ewise_add, flat))


class Masks(Matrices):
    def test_each(self):
        A, M = self.A, self.s.from_triples([(0, 0, 0), (0, 2, 1), (1, 0, 3)], 3, 3)
        inside, valued = {(0, 0), (0, 2)}, {(0, 2)}
        for mask, keep, jobs, runs in (
                (M.S, lambda p: p in inside, 1, 0), (M.V, lambda p: p in valued, 2, 1),
                (~M.S, lambda p: p not in inside, 6, 4), (~M.V, lambda p: p not in valued, 7, 4),
                (~~M.S, lambda p: p in inside, 1, 0)):
            want = {p: -x for p, x in A_MAP.items() if keep(p)}
            self.assertEqual(self.cost(lambda: A.apply('ainv', mask=mask)), (want, jobs, runs),
                             mask)
        for call in (lambda how: A.select('tril', 5, **how), lambda how: A.dup(**how),
                     lambda how: A.ewise_mult(A, 'first', **how),
                     lambda how: A.ewise_add(A, 'second', **how),
                     lambda how: A.mxm(self.s.identity(3), **how)):
            self.assertEqual(call({'mask': M.V}).to_dict(), {(0, 2): -3})
            self.assertEqual(call({'mask': ~M.S}).to_dict(),
                             {p: x for p, x in A_MAP.items() if p not in inside})
        column = self.s.from_triples([(1, 0, 4)], 3, 1)
        self.assertEqual(A.reduce_rowwise(mask=column.S).to_dict(), {(1, 0): 0})
        self.assertEqual(A.reduce_columnwise(mask=~column.T.S).to_dict(), {(0, 0): 12, (0, 2): -1})

    def test_without(self):
        M = self.s.from_triples([(0, 0, 0), (0, 2, 1)], 3, 3)
        rest = {p: x for p, x in A_MAP.items() if p not in ((0, 0), (0, 2))}
        self.assertEqual(self.cost(lambda: self.A.without(M)), (rest, 5, 3))
        self.assertEqual(self.cost(lambda: self.A.without(M.V)),
                         ({p: x for p, x in A_MAP.items() if p != (0, 2)}, 6, 4))
        self.assertEqual(self.cost(lambda: self.A.without(~M.S)), ({(0, 0): 5, (0, 2): -3}, 1, 0))


class Made(Matrices):
    """What the client makes of several jobs, and how many: as the docstrings say."""

    def test_update(self):
        A, B, M = self.A, self.B, self.s.from_triples([(0, 0, 1), (1, 2, 0), (2, 0, 5)], 3, 3)
        outside = {p: x for p, x in A_MAP.items() if p not in ((0, 0), (1, 2), (2, 0))}
        union = {**B_MAP, **A_MAP, (0, 0): 7, (1, 1): 4, (2, 2): 8}
        for how, want, jobs, runs in (
            ({}, B_MAP, 1, 0), ({'accum': 'plus'}, union, 1, 0),
            ({'mask': M.S}, {**outside, (0, 0): 2, (1, 2): 1}, 7, 4),
            ({'mask': M.S, 'replace': True}, {(0, 0): 2, (1, 2): 1}, 1, 0),
            ({'mask': M.S, 'accum': 'plus'}, {**outside, (0, 0): 7, (1, 2): 1, (2, 0): 7}, 8, 4),
            ({'mask': M.S, 'accum': 'plus', 'replace': True}, {(0, 0): 7, (1, 2): 1, (2, 0): 7}, 2,
             1),
            ({'mask': ~M.S}, {(0, 0): 5, (2, 0): 7, (1, 1): 4, (2, 2): 6}, 7, 4),
            ({'mask': M.V}, {**outside, (0, 0): 2}, 8, 5),
            ({'mask': M.V, 'accum': 'plus'}, {**outside, (0, 0): 7, (2, 0): 7}, 9, 5),
            ({'mask': ~M.S, 'replace': True}, {(1, 1): 4, (2, 2): 6}, 5, 3),
            ({'mask': ~M.S, 'accum': 'plus', 'replace': True}, {(0, 2): -3, (1, 1): 4, (2, 2): 8},
             6, 4)):
            self.assertEqual(self.cost(lambda: A.update(B, **how)), (want, jobs, runs), how)

    def test_transpose(self):
        A = self.s.from_triples([(0, 2, 5), (1, 0, -1)], 2, 3)
        before = self.s.connection.commands
        self.assertEqual((A.T.to_dict(), A.T.shape), ({(2, 0): 5, (0, 1): -1}, (3, 2)))
        T = A.T
        self.assertEqual(self.cost(lambda: T.T), (A.to_dict(), 0, 0))
        before = self.s.connection.commands
        self.assertEqual((T.T.shape, A.T.shape, self.s.connection.commands),
                         ((2, 3), (3, 2), before))
        self.assertEqual(self.cost(lambda: A.apply('abs').T), ({(2, 0): 5, (0, 1): 1}, 1, 1))
        self.assertGreater(self.s.connection.commands, before)

    def test_diag(self):
        v = self.s.from_triples([(1, 0, 5), (2, 0, 0)], 4, 1)
        self.assertEqual(self.cost(v.diag), ({(1, 1): 5, (2, 2): 0}, 0, 0))
        self.assertEqual((v.T.diag().to_dict(), v.diag().shape), (v.diag().to_dict(), (4, 4)))
        self.assertEqual(self.cost(self.A.diag), ({(0, 0): 5, (1, 0): 0, (2, 0): 2}, 2, 1))

    def test_isequal(self):
        A = self.A
        for other, equal, jobs, runs in ((A, True, 2, 2),
                                         (self.s.from_triples(triples(A_MAP), 3, 3), True, 2, 2),
                                         (self.B, False, 0, 0),
                                         (self.s.from_triples(triples(A_MAP), 3, 4), False, 0, 0),
                                         (self.s.from_triples(triples({**A_MAP, (0, 0): 6}), 3, 3),
                                          False, 2, 2)):
            self.assertEqual(self.cost(lambda: A.isequal(other)), (equal, jobs, runs))
        moved = self.s.from_triples([(2, 1, x) if p == (2, 2) else (*p, x)
                                     for p, x in A_MAP.items()], 3, 3)
        self.assertEqual(self.cost(lambda: A.isequal(moved)), (False, 1, 1))
        self.assertTrue(A.dup().isequal(A))

    def test_repeated_positions(self):
        # noqa: E731
        call = lambda: self.s.from_triples([(0, 0, 9), (0, 0, 1), (1, 1, 5)], dup_op='minus')
        self.assertEqual(self.cost(call), ({(0, 0): 8, (1, 1): 5}, 1, 1))


class Classes(unittest.TestCase):
    def test_classes_name_the_session(self):
        for kind in (spmat.Matrix, blocks.BlockMatrix):
            for name in ('from_coo', 'from_dense', 'from_csr', 'from_dicts'):
                with self.assertRaisesRegex(AttributeError,
                                            r'a matrix belongs to a session.*s\.%s\(\.\.\)' % name):
                    getattr(kind, name)
            with self.assertRaisesRegex(AttributeError, 'has no attribute .nosuch'):
                kind.nosuch
            self.assertFalse(hasattr(kind, 'from_coo'))


class Progress(unittest.TestCase):
    def test_told(self):
        told = []
        with spmat.Session(progress=lambda *what: told.append(what)) as s:
            A = s.full(1000, 300)
            sizes = {of for what, _, of in told if what == 'sent'}
            self.assertEqual(len(sizes), 1)
            self.assertEqual(max(done for what, done, _ in told if what == 'sent'), sizes.pop())
            self.assertGreater(s.connection.sent, connection.PIECE)
            A.apply('abs').wait()
            self.assertEqual([what for what in told if what[0] == 'jobs'],
                             [('jobs', 0, 1), ('jobs', 1, 1)])
            size = len(A.to_text())
            self.assertEqual([what for what in told if what[0] == 'received'][-1],
                             ('received', size, size))

    def test_not_from_within(self):
        """A callback that uses its session would put commands and replies out of step."""
        def progress(what, done, of):
            if what == 'sent':
                s.budget()
        with spmat.Session(progress=progress) as s:
            self.assertIn('from within', support.said(spmat.SpmatError, s.full, 1000, 300))
            self.assertIsNotNone(s.connection.ended)


class Descriptions(unittest.TestCase):
    """Operators and semirings belong to no session: they can be pickled, and are told apart by kind
    and text or code."""

    def test_pickled(self):
        for thing in (unary.abs, asm('binary', 'mov64 r0, r1\nexit', 'f'),
                      code('index', '95' + '00' * 7), binary.plus.bind_right(), semiring.min_plus,
                      Semiring('plus', asm('binary', 'exit'))):
            self.assertEqual(pickle.loads(pickle.dumps(thing)), thing)
            self.assertEqual(hash(pickle.loads(pickle.dumps(thing))), hash(thing))

    def test_told_apart(self):
        self.assertEqual(asm('unary', 'exit', 'f'), asm('unary', 'exit\n', 'g'))
        self.assertNotEqual(asm('unary', 'exit'), asm('binary', 'exit'))
        self.assertEqual(code('unary', '9500000000000000'),
                         code('unary', bytes.fromhex('9500000000000000')))

    def test_ready(self):
        self.assertIn('plus', binary)
        self.assertNotIn('no such', binary)
        self.assertEqual((binary['plus'], binary.plus.name, binary.plus.kind),
                         (binary.plus, 'plus', 'binary'))
        self.assertLess({'tril', 'valuegt'}, set(indexunary))
        self.assertIn('abs', dir(unary))
        for wrong in (lambda: binary.nothing, lambda: semiring.plus, lambda: semiring.plus_nothing):
            with self.assertRaises(AttributeError):
                wrong()

    def test_wrong(self):
        for call in (lambda: asm('ternary', 'exit'), lambda: code('unary', 'xyz'),
                     lambda: spmat.Operator('unary'),
                     lambda: spmat.Operator('unary', text='', code=b'')):
            with self.assertRaises(ValueError):
                call()
        with self.assertRaises(TypeError):
            unary.abs.bind_right()
