"""A name at the server has one owner: no matrix changes while somebody holds it, and names that a
caller gives are those of one matrix."""
import gc
import os
import random
import subprocess
import sys
import unittest
from unittest import mock

import pytest

import support
import spmat
import spmat_blocks as blocks
from spmat import algorithms
from spmat.backends import server as names
from spmat.algorithms import cached_properties, utils

pytestmark = pytest.mark.slow

POISONED = names.POISONED


def busy(session, count=12):
    """Uploads and jobs that would take any name that is free."""
    gc.collect()
    held = [session.full(2, 2, 200 + k) for k in range(count)]
    return held + [matrix.apply('ainv').wait() for matrix in held]


class Constants(unittest.TestCase):
    """A step may return a matrix from outside, which stays as it is."""

    def test_the_state_is_the_callers_matrix(self):
        with spmat.Session() as s:
            K, X = s.from_triples([(0, 0, 7), (1, 1, 8)], 2, 2), s.from_triples([(0, 0, 1)], 2, 2)
            loop = spmat.loop(lambda x: {'front': x.front.ewise_add(x.base, 'max'), 'base': K,
                                         'same': x.base}, {'front': X, 'base': X, 'same': X})
            loop.advance(3)
            self.assertIs(loop.state.base, K)
            self.assertIs(loop.state.same, K)
            del loop
            held = busy(s)
            self.assertEqual(K.to_triples(), [(0, 0, 7), (1, 1, 8)])
            self.assertEqual(len(held), 24)

    def test_the_caller_lets_the_constant_go(self):
        """The loop's state holds it then."""
        with spmat.Session() as s:
            X = s.full(2, 2, 1)
            loop = spmat.loop((lambda K: lambda x: {'a': x.a.ewise_add(x.b, 'max'),
                                                    'b': K})(s.full(2, 2, 7)), {'a': X, 'b': X})
            loop.advance(2)
            state = loop.state
            del loop
            held = busy(s)
            self.assertEqual((state.a.to_coo(arrays=False)[2], state.b.to_coo(arrays=False)[2],
                              len(held)), ([7] * 4, [7] * 4, 24))

    def test_on_budgets(self):
        """Where some rounds go by trips and others by the step."""
        D = [(0, 0, 7), (1, 1, 8), (2, 2, 9)]
        X, Y = [(0, 0, 1), (0, 1, 1), (0, 2, 1)], [(2, 0, 1), (2, 1, 1), (2, 2, 1), (1, 0, 1),
                                                   (1, 2, 1)]
        for steps in range(20, 130, 5):
            with spmat.Session(steps=steps) as s:
                K = s.from_triples(D, 3, 3)
                # pylint: disable-next=cell-var-from-loop
                loop = spmat.loop(lambda x: {'X': x.X.ewise_add(x.Y, 'any'), 'Y': K},
                                  {'X': s.from_triples(X, 3, 3), 'Y': s.from_triples(Y, 3, 3)})
                for rounds in (4, 1, 4):
                    try:
                        loop.advance(rounds)
                    except spmat.BudgetExceeded:
                        break
                    self.assertIs(loop.state.Y, K)
                self.assertEqual(K.to_triples(), D)

    def test_fixpoint(self):
        with spmat.Session() as s:
            K, X = s.from_triples([(0, 0, 5)], 1, 1), s.full(1, 1, 1)
            self.assertIs(spmat.fixpoint(X, lambda x: K), K)
            self.assertEqual((len(busy(s)), K.to_list(), X.to_list()), (24, [5], [1]))

    def test_the_state_while_rounds_are_under_way(self):
        """A matrix of the state that is asked for amid a trip, and again behind it."""
        with spmat.Session() as s:
            X = s.full(1, 1, 1)
            loop = spmat.loop(lambda x: {'x': x.x.apply('plus', right=1), 'two': x.two},
                              {'x': X, 'two': s.full(1, 1, 2)})
            states = []

            def each(number, counts):
                if number in (1, 5, 9):
                    states.append((loop.number, loop.state))
            loop.advance(40, each=each)
            held = busy(s)
            for number, state in states:
                self.assertEqual((state.x.to_list(), state.two.to_list()), ([1 + number], [2]))
            self.assertEqual((loop.state.x.to_list(), len(held), len(states)), ([41], 24, 3))


class Owners(support.InSession):
    def test_no_second_owner(self):
        """An owner takes its name itself; there is no way to make one of a name that is taken."""
        backend = self.s.backend
        first = names.ServerHandle(backend, (1, 1))
        self.assertNotEqual(first.key, names.ServerHandle(backend, (1, 1)).key)
        taken = names.ServerHandle(backend, (1, 1), wished='taken')
        self.assertEqual(('taken', False),
                         (taken.key, names.ServerHandle(backend, (1, 1), wished='taken').key
                          == 'taken'))

    def test_a_matrix_of_an_owner_goes(self):
        """The name is given back when the last one goes."""
        A = self.s.from_triples([(0, 1, 5), (1, 0, 6)], 2, 2)
        T = A.T
        other, key = A.T, T.handle.key
        del T
        held = busy(self.s)
        self.assertEqual((other.handle.key, other.to_triples(), len(held)),
                         (key, [(0, 1, 6), (1, 0, 5)], 24))
        back = other.T
        del A, held
        busy(self.s)
        self.assertEqual(back.to_triples(), [(0, 1, 5), (1, 0, 6)])

    def test_a_result_that_nobody_holds(self):
        A = self.s.full(2, 2, 3)
        for _ in range(5):
            A.apply('ainv')                        # its job waits, and keeps the name
            B = A.apply('plus', right=1)
            self.assertEqual((len(busy(self.s)), B.to_coo(arrays=False)[2]), (24, [4] * 4))


class Named(unittest.TestCase):
    """What a session, a matrix or an algorithm keeps is handed out as another matrix each time."""

    def each(self):
        for made in (spmat.Session, lambda: blocks.Sessions(2)):
            with made() as s:
                yield s

    def test_ones(self):
        for s in self.each():
            mine = s.ones(3)
            mine.nodes = ['a', 'b', 'c']
            mine.name = 'mine'
            self.assertEqual((s.ones(3).nodes, s.full(1, 3, 5).ewise_mult(s.ones(3)).by_node()),
                             (None, {0: 5, 1: 5, 2: 5}))
            self.assertEqual(mine.by_node(), {'a': 1, 'b': 1, 'c': 1})
            one = s.ones(1)
            one.nodes = ['z']
            self.assertEqual(s.full(1, 4, 2).reduce_columnwise().nodes, None)
            self.assertEqual(s.from_edgelist([('a', 'b')]).reduce_columnwise().nodes, ['a', 'b'])

    def test_ones_cost_one_upload(self):
        with spmat.Session() as s:
            held, before = s.ones(7), s.connection.commands
            self.assertEqual((s.ones(7).shape, held.shape, s.connection.commands),
                             ((1, 7), (1, 7), before))

    def test_transposes(self):
        for s in self.each():
            G = s.from_edgelist([('a', 'b', 3), ('b', 'c', 4)])
            T = G.T
            T.nodes = ['x', 'y', 'z']
            self.assertEqual((G.nodes, G.T.nodes, G.T.T.nodes, T.nodes, T.T.nodes),
                             (['a', 'b', 'c'], ['a', 'b', 'c'], ['a', 'b', 'c'], ['x', 'y', 'z'],
                              ['x', 'y', 'z']))
            self.assertEqual(algorithms.degrees(G.T).by_node(), {'a': 0, 'b': 1, 'c': 1})
            G.nodes = ['c', 'a', 'b']
            self.assertEqual((G.T.to_edgelist(), T.to_edgelist()),
                             ([('a', 'c', 3), ('b', 'a', 4)], [('y', 'x', 3), ('z', 'y', 4)]))

    def test_a_transpose_is_made_once(self):
        with spmat.Session() as s:
            G = s.from_coo([0, 1], [1, 2], [5, 6], 3, 3)
            T, before = G.T, s.connection.commands
            self.assertEqual((G.T.shape, T.T.shape, s.connection.commands),
                             ((3, 3), (3, 3), before))
            self.assertIsNot(G.T, T)
            self.assertTrue(G.T.isequal(T))
            self.assertEqual(algorithms.pagerank(G, GT=G.T).to_list(),
                             algorithms.pagerank(G, GT=T).to_list())

    def test_what_algorithms_keep(self):
        """Columns, loops and facts that are kept with a graph."""
        for s in self.each():
            G = s.from_edgelist([('a', 'b', 3), ('b', 'a', 3), ('b', 'c', 4), ('c', 'b', 4)])
            # pylint: disable=cell-var-from-loop
            for kept in (lambda: utils.column(G, 1), lambda: utils.loops(G, 0),
                         lambda: cached_properties.found(G, 'some', lambda: G.apply('one'))):
                mine = kept()
                mine.nodes = ['x', 'y', 'z']
                self.assertEqual((kept().nodes, mine.nodes), (None, ['x', 'y', 'z']))
                self.assertTrue(kept().isequal(
                    cached_properties.alias(mine, mine.notes._replace(rows=None, columns=None))))
            turned = cached_properties.transpose_of(s.from_edgelist([('a', 'b', 3), ('b', 'c', 4)]),
                                                    None, True)
            self.assertEqual(turned.nodes, ['a', 'b', 'c'])
            for call in (algorithms.bfs_levels, algorithms.sssp):
                found = call(G, 'a')
                found.nodes = ['x', 'y', 'z']
                self.assertEqual(call(G, 'a').nodes, ['a', 'b', 'c'])
            for call in (algorithms.degrees, algorithms.connected_components, algorithms.pagerank,
                         algorithms.clustering, algorithms.core_numbers):
                found = call(G)
                found.nodes = ['x', 'y', 'z']
                self.assertEqual(call(G).nodes, ['a', 'b', 'c'], call.__name__)

    def test_what_a_graph_is_known_to_be(self):
        """Facts are of entries: the transpose of a transpose has those that were found out
        before."""
        with spmat.Session() as s:
            G = s.from_edgelist([('a', 'b', 3), ('b', 'c', 4)])
            self.assertFalse(cached_properties.is_both_ways(G))
            T, jobs = G.T, s.jobs
            self.assertEqual((cached_properties.is_both_ways(T.T), s.jobs), (False, jobs))

    def test_saved_under_their_names(self):
        with spmat.Session() as s:
            G = s.from_edgelist([('a', 'b', 3)], name='G')
            T = G.T
            T.nodes = ['x', 'y']
            back = T.T
            ones = s.ones(2)
            ones.name = 'ones'
            self.assertEqual({name: matrix.nodes
                              for name, matrix in s.backend.names.named().items()},
                             {'G': ['a', 'b'], 'ones': None})
            self.assertEqual((back.nodes, len(s.ones(2).to_list())), (['x', 'y'], 2))


class Drawn:
    """A step of random jobs on three matrices and two from outside: its results are made, or parts
    of the state, or from outside."""

    NAMES = 'abc'
    OPS = ('max', 'min', 'plus', 'first', 'bxor')

    def __init__(self, seed):
        draw = random.Random(seed)
        self.sides = draw.choice([(1, 1), (1, 4), (3, 3)])
        self.texts = [self.entries(draw) for _ in range(5)]
        self.rounds = [[self.source(draw) for _ in self.NAMES]
                       for _ in range(draw.choice([1, 1, 2, 3]))]
        self.lengths = [draw.randint(1, 6) for _ in range(4)]
        self.looks = [draw.random() < .5 for _ in range(4)]
        self.steps = draw.choice([None, None, draw.randint(60, 600)])

    def entries(self, draw):
        places = [(i, j) for i in range(self.sides[0]) for j in range(self.sides[1])
                  if draw.random() < .7]
        return [(i, j, draw.randint(-9, 9)) for i, j in places]

    def source(self, draw):
        given = ('state', draw.choice(self.NAMES))
        one, kind = draw.choice([('state', draw.choice(self.NAMES)),
                                 ('outside', draw.randrange(2))]), draw.random()
        return (one if kind < .4 else ('union', draw.choice(self.OPS), given, one) if kind < .7
                else ('number', draw.choice(self.OPS), given))

    def begin(self, session):
        """The matrices from outside and the state."""
        made = [session.from_triples(entries, *self.sides) for entries in self.texts]
        return made[:2], dict(zip(self.NAMES, made[2:]))

    def step(self, outside):
        def value(x, source, k):
            if source[0] == 'state':
                return x[source[1]]
            if source[0] == 'outside':
                return outside[source[1]]
            if source[0] == 'union':
                return value(x, source[2], k).ewise_add(value(x, source[3], k), source[1])
            return value(x, source[2], k).apply(source[1], right=k % 4)

        def step(x, k):
            return {name: value(x, source, k)
                    for name, source in zip(self.NAMES, self.rounds[k % len(self.rounds)])}
        return step


class Aliasing(unittest.TestCase):
    """Random loops beside rounds by hand, with names poisoned: each matrix that anybody holds stays
    what it was."""

    def compare(self, seed):
        drawn = Drawn(seed)
        with mock.patch.dict(os.environ, {POISONED: '1'}):
            poisoned = spmat.Session(**({} if drawn.steps is None else {'steps': drawn.steps}))
        with poisoned as s, spmat.Session() as other:
            self.assertTrue(s.backend.names.poisons)
            outside, state = drawn.begin(s)
            beside, now = drawn.begin(other)
            held = [(matrix, matrix.to_dict()) for matrix in (*outside, *state.values())]
            loop, step, number = spmat.loop(drawn.step(outside), state), drawn.step(beside), 0
            if seed % 3 == 0:
                state = None                       # then the loop alone holds it
            for rounds, looks in zip(drawn.lengths, drawn.looks):
                try:
                    loop.advance(rounds)
                except spmat.BudgetExceeded:
                    pass
                for number in range(number + 1, loop.number + 1):
                    now = step(now, number)
                if looks:
                    held += [(matrix, now[name].to_dict()) for name, matrix in loop.state.items()]
                    gc.collect()
            held += [(matrix, now[name].to_dict()) for name, matrix in loop.state.items()]
            del loop
            gc.collect()
            self.assertEqual([matrix.to_dict() for matrix, _ in held], [want for _, want in held],
                             seed)
            return s.backend.names._count

    def test_random_loops(self):
        counts = [self.compare(seed) for seed in range(60)]
        self.assertGreater(max(counts), 12)        # so that names were taken and given back

    def test_random_fixpoints(self):
        for seed in range(20):
            drawn = Drawn(1000 + seed)
            with mock.patch.dict(os.environ, {POISONED: '1'}):
                poisoned = spmat.Session()
            with poisoned as s:
                outside, state = drawn.begin(s)
                K, X = outside[0], state['a']
                want = K.to_dict(), X.to_dict()
                # pylint: disable-next=cell-var-from-loop
                step = (lambda x: K, lambda x: x, lambda x: x.ewise_add(K, 'max'),
                        lambda x: K.ewise_add(x, 'min'))[seed % 4]
                got = spmat.fixpoint(X, step)
                here = got.to_dict()
                self.assertTrue(step(got).isequal(got))
                held = [s.full(*drawn.sides, 70 + k).apply('ainv').wait() for k in range(6)]
                self.assertEqual((K.to_dict(), X.to_dict(), got.to_dict(), len(held)),
                                 (*want, here, 6), seed)


class Poisoned(unittest.TestCase):
    """With SPMAT_POISON_NAMES set, whoever uses a name that was given back is found out."""

    def run_with(self, text):
        env = dict(os.environ, **{POISONED: '1', 'PYTHONPATH': support.CLIENT})
        done = subprocess.run([sys.executable, '-c', text], env=env, stdout=subprocess.PIPE,
                              stderr=subprocess.STDOUT, check=False, timeout=100)
        return done.returncode, done.stdout.decode()

    def test_a_name_that_was_given_back(self):
        """One that is read all the same is no matrix that was ever made; and no other gets the
        name."""
        status, said = self.run_with('''
import spmat
with spmat.Session() as s:
    A = s.full(1, 2, 7)
    key = A.handle.key
    del A
    B = s.full(1, 2, 8)
    print(B.handle.key != key, s.connection.command('show ' + key).body.split(b'\\n')[1].decode())
    C = B.apply('ainv')
    key = C.handle.key
    C.wait()
    del C
    D = B.apply('abs')
    print(D.to_list(), s.connection.command('show ' + key).body.split(b'\\n')[1].decode())
''')
        self.assertEqual((status, said.split('\n')[:2]),
                         (0, ['True 3 16777213 2', '[8, 8] 3 16777213 2']))

    def test_off_as_a_rule(self):
        if not os.environ.get(POISONED):
            with spmat.Session() as s:
                A = s.full(2, 2, 7)
                key = A.handle.key
                del A
                self.assertEqual((s.full(2, 2, 8).handle.key, s.backend.names.poisons),
                                 (key, False))
