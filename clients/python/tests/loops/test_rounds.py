"""Loops whose rounds differ: each is what the step asks for in it, and what is known of the state
is what is known of it in this round."""
import itertools
import os
import unittest

import pytest

import support  # pylint: disable=unused-import  # which finds the program
import spmat
import spmat_blocks as blocks
from spmat import algorithms
from spmat.loops import NotAlike, NotTraced

pytestmark = pytest.mark.slow

OPS = ('plus', 'times', 'max', 'bxor')
WEIGHTS = [7, 3, 3, 9, 1, 4, 11, 2, 5, 5, 8, 13, 6, 2, 17, 3, 1, 9, 4, 10, 12, 3, 5, 8]


def by_hand(step, state, rounds):
    for k in range(1, rounds + 1):
        got = step(spmat.loops.State(state), k)
        state = {name: got.get(name, matrix) for name, matrix in state.items()}
    return state


def other_jobs(x, k):
    """More jobs in some rounds, other masks in some."""
    now = x.x.apply('plus', right=k)
    if k % 3 == 0:
        now = now.ewise_add(x.x.apply('times', right=2), 'minus')
    if k % 5 == 0:
        now = now.dup(mask=x.y.V).ewise_add(x.y, 'first')
    return {'x': now, 'y': x.y.apply('lxor', right=k % 2)}


STEPS = {
    'min': lambda x, k: {'x': x.x.apply('plus', right=min(k, 10))},
    'other operator': lambda x, k: {'x': x.x.apply('plus' if k % 4 else 'times', right=10)},
    'remainder': lambda x, k: {'x': x.x.apply('plus', right=k % 6)},
    'square': lambda x, k: {'x': x.x.apply('plus', right=k * k)},
    'first round': lambda x, k: {'x': x.x.apply('one' if k == 1 else 'ainv')},
    'late round': lambda x, k: {'x': x.x.apply('plus', right=1 if k != 17 else 100)},
    'list': lambda x, k: {'x': x.x.apply('plus', right=WEIGHTS[k])},
    'swap': lambda x, k: {'x': x.y.apply('plus', right=1), 'y': x.x} if k % 2
    else {'y': x.y.apply('plus', right=5)},
    'operators in turn': lambda x, k: {'x': x.x.ewise_add(x.y, OPS[k % len(OPS)]),
                                       'y': x.y.apply('plus', right=k)},
    'other jobs': other_jobs,
    'own operators': lambda x, k: {'x': x.x.apply(spmat.asm('unary',
                                                            'mov64 r0, r1\nadd64 r0, %d\nexit'
                                                            % (k * 3)))},
}


def start(session):
    return {'x': session.from_coo([0, 0, 0], [0, 1, 3], [5, -2, 9], 1, 4),
            'y': session.from_coo([0, 0], [1, 2], [3, 4], 1, 4)}


def values(state):
    return {name: matrix.to_dict() for name, matrix in state.items()}


class Steps(unittest.TestCase):
    def test_as_by_hand(self):
        with spmat.Session() as s, spmat.Session() as other:
            for what, step in STEPS.items():
                loop, made = spmat.loop(step, start(s)), 0
                for rounds in (1, 2, 1, 5, 11):
                    loop.advance(rounds)
                    made += rounds
                    self.assertEqual((values(loop.state), loop.number),
                                     (values(by_hand(step, start(other), made)), made), what)
                self.assertFalse(loop._careful)
                self.assertGreater(loop._trips.trips, 4, what)

    def test_on_budgets(self):
        """Where some rounds are made one by one, and where the budget ends."""
        for what, step in STEPS.items():
            for steps in (90, 300, 700):
                with spmat.Session(steps=steps) as s, spmat.Session() as other:
                    loop = spmat.loop(step, start(s))
                    try:
                        loop.advance(20)
                    except spmat.BudgetExceeded as fault:
                        self.assertEqual(fault.round, loop.number + 1)
                    self.assertEqual(values(loop.state),
                                     values(by_hand(step, start(other), loop.number)),
                                     (what, steps))

    def test_in_blocks(self):
        with blocks.Sessions(2) as many, spmat.Session() as s:
            for what in ('min', 'other operator', 'other jobs', 'swap'):
                loop = spmat.loop(STEPS[what], start(many))
                loop.advance(12)
                self.assertEqual(values(loop.state), values(by_hand(STEPS[what], start(s), 12)),
                                 what)

    def test_ends(self):
        """The end that is met is that of the rounds by hand; what was sent behind it changes
        nothing."""
        with spmat.Session() as s:
            step = lambda x, k: {'x': x.x.select('valuegt' if k % 3 else 'valuege', min(k, 6) - 3),
                                 'y': x.y}
            state = {'x': s.from_coo([0] * 8, range(8), [-3, -2, -1, 0, 1, 2, 3, 4], 1, 8),
                     'y': s.full(1, 8, 1)}
            counts = [by_hand(step, state, rounds)['x'].nvals for rounds in range(1, 12)]
            for end in (lambda numbers: numbers['x'] <= 2, spmat.steady('x')):
                want = next(k for k, (before, now) in enumerate(zip([8] + counts, counts), 1)
                            if (now == before if isinstance(end, tuple) else now <= 2))
                loop = spmat.loop(step, state, show=['x'])
                self.assertEqual(loop.run(end), want)
                self.assertEqual(loop.state.x.to_dict(), by_hand(step, state, want)['x'].to_dict())
                loop.advance(3)
                self.assertEqual(loop.state.x.to_dict(),
                                 by_hand(step, state, want + 3)['x'].to_dict())
                self.assertEqual([int(number) for number in loop.shown['x'].rounds],
                                 [k for k in range(1, want + 4) for _ in range(counts[k - 1])])

    def test_outside_matrices_in_turn(self):
        with spmat.Session() as s:
            A, B = s.full(1, 3, 5), s.full(1, 3, 7)
            step = lambda x, k: {'x': x.x.ewise_add((A, B)[k % 2], 'plus'), 'last': (A, B)[k % 2]}
            loop = spmat.loop(step, {'x': A, 'last': A})
            for rounds in range(1, 9):
                loop.advance()
                self.assertEqual(loop.state.x.to_list(),
                                 by_hand(step, {'x': A, 'last': A}, rounds)['x'].to_list())
                self.assertIs(loop.state.last, (A, B)[rounds % 2])

    def test_folds_of_columns(self):
        """Rows of ones, which the session keeps or not, are no matrices that a step makes."""
        with spmat.Session() as s:
            long = (1 << 20) + 1
            loop = spmat.loop(lambda x, k: {'x': x.x if k % 3 else x.x.apply('plus', right=1),
                                            'sum': x.x.reduce_columnwise('plus')},
                              {'x': s.from_coo([0, long - 1], [0, 0], [1, 2], long, 1)})
            loop.advance(8)
            self.assertEqual(loop.state.x.to_dict(), {(0, 0): 3, (long - 1, 0): 4})


class Calls(unittest.TestCase):
    """How often, and for which rounds, a step is called."""

    def test_once_for_each_round_in_order(self):
        with spmat.Session() as s:
            called = []

            def step(x, k):
                called.append(k)
                return {'x': x.x.apply('plus', right=len(called))}
            loop = spmat.loop(step, {'x': s.full(1, 1, 0)})
            loop.advance(3)
            loop.advance(40)
            self.assertEqual((called, loop.state.x.to_list()), (list(range(1, 44)), [43 * 44 // 2]))

    def test_an_iterator(self):
        with spmat.Session() as s:
            numbers = iter(WEIGHTS)
            loop = spmat.loop(lambda x: {'x': x.x.apply('plus', right=next(numbers))},
                              {'x': s.full(1, 1, 0)})
            loop.advance(20)
            self.assertEqual(loop.state.x.to_list(), [sum(WEIGHTS[:20])])

    def test_what_a_step_ends_in(self):
        """An exception of a round that the loop doesn't come to is none."""
        with spmat.Session() as s:
            few = [1, 1, 2, 3, 5]
            step = lambda x, k: {'x': x.x.apply('plus', right=few[k])}
            loop = spmat.loop(step, {'x': s.full(1, 1, 0)})
            loop.advance(3)
            with self.assertRaises(IndexError):
                loop.advance(3)
            self.assertEqual((loop.number, loop.state.x.to_list()), (4, [11]))
            few += [7, 8]
            loop.advance(2)
            self.assertEqual((loop.number, loop.state.x.to_list()), (6, [26]))
            ends = spmat.loop(lambda x, k: {'x': x.x.select('valuegt', (0, 1, 2, 3)[k])},
                              {'x': s.full(1, 1, 2)})
            self.assertEqual(ends.run(spmat.empty('x')), 2)

    def test_a_step_that_changed(self):
        """Rounds are asked for ahead. Where the step asks for something else when the loop goes on,
        that is said."""
        with spmat.Session() as s:
            floor = [0]
            step = lambda x: {'x': x.x.select('valuegt', floor[0]).apply('minus', right=1)}
            loop = spmat.loop(step, {'x': s.full(1, 3, 6)})
            self.assertEqual(loop.run(spmat.empty('x'), most=9), 7)
            loop = spmat.loop(step, {'x': s.full(1, 3, 6)})
            self.assertEqual(loop.run(lambda counts: True), 1)
            loop.advance(3)
            self.assertEqual(loop.state.x.to_list(), [2] * 3)
            loop = spmat.loop(step, {'x': s.full(1, 3, 6)})
            with self.assertRaises(spmat.NotSettled):
                loop.run(spmat.empty('x'), most=3)
            self.assertEqual(loop.run(spmat.empty('x'), most=50), 4)
            floor[0] = -2
            with self.assertRaisesRegex(NotAlike,
                                        'round 8 when it was called for it again.*make a loop '
                                        'of `loop.state`'):
                loop.advance()
            again = spmat.loop(step, loop.state)
            again.advance()
            self.assertEqual((loop.number, again.state.x.to_dict()), (7, {}))

    def test_matrices_of_other_rounds(self):
        with spmat.Session() as s, spmat.Session() as other:
            G, held = s.full(2, 2), []

            def stashes(x):
                held.append(x.x.apply('ainv'))
                return {'x': held[0]}
            foreign = other.full(1, 2)
            for step, said in ((stashes, 'an earlier round'),
                               (lambda x: {'x': x.x.mxm(G.apply('one'))},
                                'to be made before the loop'),
                               (lambda x, k: {'x': x.x if k < 4 else x.x.mxm(G.apply('one'))},
                                'to be made before the loop'),
                               (lambda x: {'x': x.x.ewise_add(foreign)}, 'of another session')):
                with self.assertRaisesRegex(ValueError, said):
                    spmat.loop(step, {'x': s.full(1, 2)}).advance(6)

    def test_other_results(self):
        with spmat.Session() as s:
            for step, said in ((lambda x, k: {'x': x.x.apply('abs'),
                                              **({'y': x.x.apply('ainv')} if k < 6 else {})},
                                'the same names in each round'),
                               (lambda x, k: {'x': x.x.apply('abs'),
                                              'y': x.x.apply('ainv') if k < 6 else x.x},
                                'no job of the step makes in round 6'),
                               (lambda x, k: {'x': x.x.apply('abs'),
                                              'y': x.x if k > 1 and k == 7 else x.x.reduce_rowwise()
                                              if k > 5 else x.x.apply('abs')},
                                'y, which is shown, is 1x2 in round 1 and 1x1 in round 6')):
                loop = spmat.loop(step, {'x': s.full(1, 2)}, show=['y'])
                loop.advance(5)
                with self.assertRaisesRegex(ValueError, said):
                    loop.advance(2)
                self.assertEqual(loop.number, 5)

    def test_reads_in_a_late_round(self):
        with spmat.Session() as s:
            loop = spmat.loop(lambda x, k: {'x': x.x if k < 5 or x.x.nvals else x.x},
                              {'x': s.full(1, 2)})
            loop.advance(4)
            with self.assertRaises(NotTraced):
                loop.advance()
            got = spmat.fixpoint(s.full(1, 2, 9),
                                 (lambda count: lambda x: x.apply('minus',
                                                                  right=1 if next(count) < 6
                                                                  else min(x.nvals - 2, 0)))(
                                                                      itertools.count()), most=20)
            self.assertEqual(got.to_list(), [3, 3])

    def test_products_by_parts(self):
        with spmat.Session() as s:
            few = s.from_triples([(0, 1, 2), (1, 0, 3)])
            loop = spmat.loop(lambda x: {'x': x.x.mxm(few, parts=True)}, {'x': few})
            loop.advance(3)
            self.assertEqual((loop.state.x.to_dict(), loop._careful),
                             ({(0, 0): 36, (1, 1): 36}, False))

    @unittest.skipIf(os.environ.get('SPMAT_CHECKED'), 'takes minutes with run-time checks')
    def test_products_that_are_too_large(self):
        """They are made by parts, as without a loop."""
        with spmat.Session() as s:
            ones, wide = s.full(5000, 1), s.full(1, 5000)
            mask = s.from_coo(range(5000), range(5000), 1, 5000, 5000)
            loop = spmat.loop(lambda x: {'x': x.x.mxm(wide, 'plus_times', mask=mask.S,
                                                      parts=True).reduce_rowwise('plus')},
                              {'x': ones})
            loop.advance(2)
            self.assertEqual((loop.state.x.isequal(ones), loop._careful), (True, True))


class Known(unittest.TestCase):
    """Names, directions and units of a state are those of its round."""

    def chains(self, s):
        S = s.from_coo([0], [1], [1], 3, 3, symmetric=True)
        D = s.from_triples([(0, 1, 1), (1, 2, 1)], 3, 3)
        N = s.from_edgelist([('a', 'b', 1), ('b', 'c', 2)])
        M = s.from_edgelist([('x', 'y', 1), ('y', 'z', 2)])
        copy = lambda matrix: matrix.apply('identity')
        yield lambda x, k: {'a': copy(x.b), 'b': copy(x.c), 'c': S}, {'a': D, 'b': D, 'c': S}
        yield lambda x, k: {'a': copy(x.b), 'b': copy(x.c), 'c': copy(x.d),
                            'd': D}, {'a': S, 'b': S, 'c': S, 'd': S}
        yield lambda x, k: {'now': copy(x.next), 'next': x.third,
                            'third': x.third}, {'now': N, 'next': N, 'third': M}
        yield lambda x, k: {'a': copy(x.b), 'b': copy(x.a)}, {'a': N, 'b': M}
        yield lambda x, k: {'a': copy(x.a) if k != 6 else copy(x.b), 'b': x.b}, {'a': N, 'b': M}
        yield lambda x, k: {'a': (S, D)[k % 2], 'b': copy(x.a)}, {'a': S, 'b': D}

    def test_as_by_hand(self):
        with spmat.Session() as s:
            for number, (step, state) in enumerate(self.chains(s)):
                for rounds in range(1, 9):
                    for parts in ([rounds], [1] * rounds):
                        loop = spmat.loop(step, state)
                        for part in parts:
                            loop.advance(part)
                        want = by_hand(step, state, rounds)
                        got = {name: (matrix.directed, matrix.row_nodes, matrix.unit,
                                      matrix.to_edgelist()) for name, matrix in loop.state.items()}
                        self.assertEqual(got,
                                         {name: (matrix.directed, matrix.row_nodes, matrix.unit,
                                                 matrix.to_edgelist())
                                          for name, matrix in want.items()}, (number, rounds))

    def test_a_directed_state_is_checked(self):
        with spmat.Session() as s:
            step, state = next(self.chains(s))
            loop = spmat.loop(step, state)
            loop.advance(1)
            self.assertIsNone(loop.state.a.directed)
            for call in (lambda: algorithms.connected_components(loop.state.a, loop.state.a),
                         lambda: algorithms.triangle_count(loop.state.a)):
                with self.assertRaisesRegex(ValueError, 'undirected'):
                    call()

    def test_names_that_are_set_amid(self):
        """The caller names what the loop goes on from."""
        with spmat.Session() as s:
            F = s.full(1, 2, 1)
            loop = spmat.loop(lambda x: {'x': x.x.apply('plus', right=1)}, {'x': F})
            F.nodes = ['a', 'b']
            loop.advance(2)
            self.assertEqual(loop.state.x.by_node(), {'a': 3, 'b': 3})
            loop.run(lambda counts: True)
            loop.state.x.nodes = ['c', 'd']
            loop.advance(3)
            self.assertEqual(loop.state.x.by_node(), {'c': 7, 'd': 7})

    def test_units(self):
        with spmat.Session() as s:
            X = s.full(1, 2, 150)
            X.unit = 100
            step = lambda x, k: {'x': x.x.apply('plus', right=0.5) if k < 4
                                 else x.x.apply('times', right=1)}
            for rounds in (1, 3, 5):
                loop = spmat.loop(step, {'x': X})
                loop.advance(rounds)
                want = by_hand(step, {'x': X}, rounds)['x']
                self.assertEqual((loop.state.x.unit, loop.state.x.to_text()),
                                 (want.unit, want.to_text()))


class Steady(unittest.TestCase):
    def rounds(self, session, name='same'):
        with session as s:
            loop = spmat.loop(lambda x: {'x': x.x.apply('max', right=1), 'same': x.x.apply('abs')},
                              {'x': s.full(1, 3, 9)})
            loop.advance(3)
            return loop.run(until=spmat.steady(name))

    def test_what_is_not_in_the_state(self):
        """As many rounds in one session, in blocks and on every budget."""
        self.assertEqual((self.rounds(spmat.Session()), self.rounds(blocks.Sessions(2))), (1, 1))
        found = set()
        for steps in range(60, 260, 7):
            try:
                found.add(self.rounds(spmat.Session(steps=steps)))
            except spmat.BudgetExceeded:
                pass
        self.assertEqual(found, {1})

    def test_from_the_first_round(self):
        """A result that isn't in the state has no round before the first."""
        for session in (spmat.Session, lambda: blocks.Sessions(2),
                        lambda: spmat.Session(steps=230)):
            with session() as s:
                loop = spmat.loop(lambda x: {'x': x.x.apply('max', right=1),
                                             'same': x.x.apply('abs')}, {'x': s.full(1, 3, 9)})
                self.assertEqual((loop.run(until=spmat.steady('same')),
                                  loop.run(until=spmat.steady('same')),
                                  loop.run(until=spmat.steady('x'))), (2, 1, 1))

    def test_names_that_no_step_returns(self):
        for session in (spmat.Session, lambda: blocks.Sessions(2)):
            with session() as s:
                loop = spmat.loop(lambda x: {'x': x.x.apply('abs')}, {'x': s.full(1, 3, 9)})
                with self.assertRaisesRegex(ValueError,
                                            "looks at 'y', which no step returns: it has x"):
                    loop.run(until=spmat.steady('y'))
