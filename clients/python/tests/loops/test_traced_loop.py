"""Loops whose rounds stay at the server: what they come to, ends, what is refused amid trips,
names, threads, Ctrl-C, sockets, blocks."""
import gc
import os
import re
import signal
import threading
import unittest
from unittest import mock

import pytest

import graphs
import spmat
import support
from loop_steps import PATH, by_hand, lengths, search, search_step, texts
import spmat_blocks as blocks

pytestmark = pytest.mark.slow

NAME = re.compile('_[0-9]+')                        # of the client, for a matrix


class Rounds(support.InSession):
    def test_a_search(self):
        for graph in graphs.UNDIRECTED[1:] + [PATH]:
            with self.subTest(graph=graph.name):
                told, heard = [], []
                loop = search(self.s, graph)
                rounds = loop.run(spmat.empty('front'), each=lambda *now: heard.append(now),
                                  progress=lambda *now: told.append(now))
                want = graphs.levels(graph.near(), 0)
                self.assertEqual((rounds, loop.number), (max(want.values()) + 1,) * 2)
                shown = loop.shown['front']
                self.assertEqual({0: 0,
                                  **dict(zip(map(int, shown.places), map(int, shown.rounds)))},
                                 want)
                self.assertEqual([int(value) for value in shown.values],
                                 [int(number) for number in shown.rounds])
                self.assertEqual(told, [('round', k, 0) for k in range(1, rounds + 1)])
                self.assertEqual([(k, counts['front']) for k, counts in heard],
                                 [(k, sum(level == k for level in want.values()))
                                  for k in range(1, rounds + 1)])

    def test_the_state_is_that_of_the_end(self):
        """Where an end is met amid a trip, and the rounds behind it change the state."""
        graph = graphs.UNDIRECTED[4]
        state = {'number': self.s.from_coo([0], [0], 0, 1, 64), 'ones': self.s.ones(64)}

        def step(s, k):
            return {'number': s.number.ewise_add(s.ones.select('colle', k), 'plus')}
        for most in range(1, 13):
            want = texts(by_hand(step, state, most)[0])
            loop = spmat.loop(step, state)
            self.assertEqual(loop.run(lambda counts: counts['number'] > most), most)
            self.assertEqual((loop.number, texts(loop.state)), (most, want))
            loop = spmat.loop(step, state)
            loop.advance(most)
            self.assertEqual((loop.number, texts(loop.state)), (most, want))
        loop = search(self.s, graph)
        rounds = loop.run(spmat.empty('front'))
        now, _, _ = by_hand(search_step(graph.matrix(self.s)),
                            {name: self.s.from_coo([0], [0], 0, 1, graph.count)
                             for name in ('front', 'near')}, rounds)
        self.assertEqual(texts(loop.state), texts(now))
        loop.advance(2)
        self.assertEqual(loop.number, rounds + 2)

    def test_what_a_step_may_do(self):
        """Masks, complements, updates, folds of both ways, operators with numbers, swaps,
        constants, 1x1 matrices, what stays."""
        graph = graphs.UNDIRECTED[3]
        G = graph.matrix(self.s)
        start = {'a': G.select('tril'), 'b': G, 'x': self.s.ones(graph.count),
                 'c': self.s.full(graph.count, 1, 3), 'least': self.s.full(1, 1, 9)}

        def step(s, k):
            a = s.a.mxm(G, 'plus_times', mask=~s.b.S).apply('band', right=1023)
            x = s.x.vxm(G, 'plus_first', mask=s.x.V).apply('plus',
                                                           right=3 * k
                                                           - 1).update(s.x, 'max', mask=s.x.S)
            least = x.reduce_rowwise('min')
            near = x.ewise_mult(least.mxm(x, 'any_first'), 'minus').select('valuele', 40 - 2 * k)
            return {'a': s.b, 'b': a.ewise_add(s.b, 'first').select('valuele', 5 * k),
                    'x': x.apply('band', right=255), 'least': least,
                    'c': s.c.ewise_add(G.mxv(s.c, 'max_plus', mask=s.c.S),
                                       'min').without(s.c.select('valuegt', 1 << 40)),
                    'near': near, 'sums': s.b.reduce_rowwise('plus')}
        for rounds in (1, 2, 5, 11):
            loop = spmat.loop(step, start, show=['near', 'sums', 'least'])
            loop.advance(rounds)
            now, _, fault = by_hand(step, start, rounds)
            self.assertIsNone(fault)
            self.assertEqual(texts(loop.state), texts(now))
            before = by_hand(step, start, rounds - 1)[0]
            near = step(spmat.loops.State(before), rounds)['near']
            last = [(int(place), int(value)) for number, place, value in zip(*loop.shown['near'])
                    if number == rounds]
            self.assertEqual(last, [(j, value) for _, j, value in near.to_triples()])
            self.assertEqual(len(loop.shown['least'].values), rounds)
        self.assertFalse(loop._careful)

    def test_ends(self):
        step, state = lengths(self.s, graphs.UNDIRECTED[4])
        loop = spmat.loop(step, state)
        with self.assertRaisesRegex(spmat.NotSettled,
                                    'did not converge after 3 rounds: most= allows more'):
            loop.run(spmat.empty('changed'), most=3)
        self.assertEqual(loop.number, 3)
        more = loop.run(spmat.empty('changed'))
        want = graphs.shortest(graphs.UNDIRECTED[4].edges, graphs.UNDIRECTED[4].near(), 0)
        self.assertEqual(loop.state.known.to_dict(), {(i, 0): length for i, length in want.items()})
        other = spmat.loop(step, state)
        self.assertEqual(other.run(lambda counts: not counts['changed']), 3 + more)
        G = PATH.matrix(self.s)
        grown = spmat.loop(lambda s: {'row': s.row.ewise_add(s.row.mxm(G, 'any_first'), 'first')},
                           {'row': self.s.from_coo([0], [0], 1, 1, 70)})
        self.assertEqual(grown.run(spmat.steady('row')), 70)

    def test_what_is_no_step(self):
        G = PATH.matrix(self.s)
        F = self.s.ones(70)
        for step, kind, said in (
            (lambda s: {'front': s.front if s.front.nvals else s.front}, TypeError,
             'traced, not run: front has no entries yet'),
            (lambda s: {'front': s.front.T}, TypeError,
             'traced, not run: front has no entries yet'),
            (lambda s: {'front': s.front.apply('plus', right=s.front.reduce_scalar())}, TypeError,
             'reduce_rowwise'),
            (lambda s: {'front': s.front.session.full(1, 70)}, TypeError,
             '`full` of the session is to be called before the loop'),
            (lambda s: {'front': s.front.mxm(G.apply('one'), 'any_first')}, ValueError,
             'to be made before the loop'),
            (lambda s: s.front, TypeError,
             'returns its new matrices by name, such as {"front": front}, not Matrix'),
            (lambda s: {'front': 3}, TypeError,
             "what a step returns as 'front' is no matrix, but int"),
            (lambda s: {'front': s.front.reduce_rowwise()}, ValueError,
             'front is 1x70 before a round and 1x1 behind it'),
            (lambda s: {'front': s.back}, AttributeError,
             "no matrix 'back' in the state of this loop: it has front")):
            with self.assertRaisesRegex(kind, said):
                spmat.loop(step, {'front': F})
        for state, show, kind, said in (({}, (), TypeError, 'its matrices by name'),
                                        (F, (), TypeError, 'its matrices by name'),
                                        ({'front': 3}, (), TypeError,
                                         'is no matrix of a session, but int'),
                                        ({'front': F}, ['back'], ValueError,
                                         "names 'back', which no job of the step makes: it has "
                                         "front"),
                                        ({'front': F, 'G': G}, ['H'], ValueError,
                                         'reduce_rowwise')):
            with self.assertRaisesRegex(kind, said):
                spmat.loop(lambda s: {'front': s.front.apply('abs'),
                                      **({'H': s.G.apply('abs')} if 'G' in s else {})}, state, show)
        loop = spmat.loop(lambda s: {'front': s.front.apply('abs')}, {'front': F})
        with self.assertRaisesRegex(ValueError, "looks at 'back'"):
            loop.run(spmat.empty('back'))
        with self.assertRaisesRegex(TypeError, 'spmat.empty'):
            loop.run('front')
        with spmat.Session() as other, self.assertRaisesRegex(ValueError, 'of one session'):
            spmat.loop(lambda s: {}, {'a': F, 'b': other.ones(3)})

    def test_which_parameter_is_the_round(self):
        """The second one, unless it has a value: `G=G` is how functions keep a matrix."""
        start = {'x': self.s.ones(4)}
        for step, want in ((lambda s, k: {'x': s.x.apply('plus', right=k)}, 1 + 1 + 2 + 3),
                           (lambda s, number, more=0: {'x': s.x.apply('plus', right=number + more)},
                            7),
                           (lambda s, more=5: {'x': s.x.apply('plus', right=more)}, 16),
                           (lambda s, *, more=5: {'x': s.x.apply('plus', right=more)}, 16),
                           (lambda *both: {'x': both[0].x.apply('plus', right=both[1])}, 7),
                           (lambda s: {'x': s.x.apply('plus', right=1)}, 4)):
            loop = spmat.loop(step, start)
            loop.advance(3)
            self.assertEqual(loop.state.x.to_list(), [want] * 4)

    @unittest.skipIf(os.environ.get('SPMAT_POISON_NAMES'), 'no name is used again')
    def test_names_are_given_back(self):
        """Loops that are let go leave no names, and a matrix that is held stays as it is."""
        loop = search(self.s, PATH)
        loop.advance(5)
        held = loop.state
        want = texts(held)
        for _ in range(5):
            loop.run(spmat.empty('front'))
            loop = search(self.s, PATH)
            loop.run(spmat.empty('front'))
        self.assertEqual(texts(held), want)
        count = self.s.backend.names._count
        for _ in range(10):
            search(self.s, PATH).run(spmat.empty('front'))
            gc.collect()
        self.assertLessEqual(self.s.backend.names._count, count + 12)

    def test_jobs_between_trips(self):
        """What `each` queues is run, and is not mistaken for a round's."""
        made = []
        G = PATH.matrix(self.s)

        def each(number, counts):
            made.append(G.apply('times', right=number).reduce_rowwise('plus'))
        loop = search(self.s, PATH)
        self.assertEqual(loop.run(spmat.empty('front'), each=each), 70)
        self.assertEqual([one.reduce_scalar() for one in made],
                         [k * sum(PATH.edges.values()) for k in range(1, 71)])
        with self.assertRaises(ZeroDivisionError):
            again = search(self.s, PATH)
            again.run(spmat.empty('front'), each=lambda k, counts: 1 // (k - 20))
        made = again.number
        self.assertGreaterEqual(made, 20)
        self.assertEqual((made + again.run(spmat.empty('front')), again.number), (70, 70))
        self.assertEqual(sorted(map(int, again.shown['front'].places)), list(range(1, 70)))

    def test_what_is_shown(self):
        loop = search(self.s, PATH)
        loop.run(spmat.empty('front'))
        self.assertEqual([many.tolist() for many in loop.shown['front']],
                         [list(range(1, 70)), list(range(1, 70)), list(range(1, 70))])

    def test_threads(self):
        """A loop and other jobs of one session, by threads that take turns."""
        G, want, faults = PATH.matrix(self.s), PATH.matrix(self.s).reduce_scalar(), []

        def work():
            try:
                for k in range(30):
                    if G.apply('plus', right=k).reduce_scalar() != want + k * G.nvals:
                        faults.append(k)
            except Exception as fault:             # pylint: disable=broad-exception-caught
                faults.append(fault)
        threads = [threading.Thread(target=work) for _ in range(2)]
        for thread in threads:
            thread.start()
        for _ in range(3):
            loop = search(self.s, PATH)
            self.assertEqual(loop.run(spmat.empty('front')), 70)
            self.assertEqual(list(map(int, loop.shown['front'].places)), list(range(1, 70)))
        for thread in threads:
            thread.join()
        self.assertEqual(faults, [])

    def test_blocks(self):
        with blocks.Sessions(3) as many:
            for graph in graphs.UNDIRECTED[3:6]:
                step, state = lengths(many, graph)
                loop = spmat.loop(step, state, show=['changed'])
                loop.run(spmat.empty('changed'),
                         each=lambda k, counts: self.assertIn('changed', counts))
                want = graphs.shortest(graph.edges, graph.near(), 0)
                self.assertEqual({i: length for (i, _), length in loop.state.known.to_dict().items()
                                  if length < 1 << 39}, want)

    def test_fixpoint(self):
        for graph in graphs.UNDIRECTED[3:6]:
            step, state = lengths(self.s, graph)
            told = []
            got = spmat.fixpoint(state['known'],
                                 lambda now: step(spmat.loops.State(known=now))['known'],
                                 progress=lambda *now: told.append(now))
            want = graphs.shortest(graph.edges, graph.near(), 0)
            self.assertEqual({i: length for (i, _), length in got.to_dict().items()
                              if length < 1 << 39}, want)
            self.assertEqual([number for _, number, _ in told], list(range(1, len(told) + 1)))


class Refusals(unittest.TestCase):
    """A refusal amid a trip changes nothing: it comes in the round, by the rule, and with the state
    that it has round by round."""

    def compare(self, begin, settings, end, most):
        """A loop, and the same rounds by hand, in sessions of the same kind. The rule and the
        round."""
        with spmat.Session(**settings) as one, spmat.Session(**settings) as other:
            step, state = begin(one)
            loop, rule = spmat.loop(step, state), None
            try:
                loop.run(end, most=most)
            except spmat.Refused as fault:
                rule = (fault.rule, fault.round, str(fault))
            step, state = begin(other)
            now, rounds, fault = by_hand(step, state, most if rule else loop.number)
            self.assertEqual(rule and rule[:2], None if fault is None else (fault.rule, rounds + 1))
            said = None if fault is None else NAME.sub('_', str(fault))
            self.assertEqual(rule and NAME.sub('_', rule[2]), said)
            self.assertEqual((loop.number, texts(loop.state)), (rounds, texts(now)))
            return None if rule is None else rule[:2], loop

    def test_steps(self):
        """S8 in each round: by a budget that ends in it."""
        begin = lambda session: lengths(session, graphs.UNDIRECTED[4])
        with spmat.Session() as s:
            step, state = begin(s)
            spent, now = [], dict(state)
            for number in range(1, 12):
                now = {'known': step(spmat.loops.State(now))['known'].wait()}
                s.run()
                spent.append(s.budget().spent)
        tripped, seen = 0, set()
        for number, (before, after) in enumerate(zip([0] + spent, spent), 1):
            for budget in (before, (before + after) // 2):
                found, loop = self.compare(begin, {'steps': budget}, spmat.empty('changed'), 40)
                self.assertEqual((found[0], found[1] in (number, number + 1)), ('S8', True))
                seen.add(found[1])
                tripped += loop._trips.trips > 0
        self.assertGreaterEqual(len(seen), 10)
        self.assertGreater(tripped, 5)             # so that it isn't all done round by round

    def too_large(self, rule, at):
        """A path of so many vertices to a hub; in the round behind it the product of a column and a
        row is too large by this rule."""
        leaves = 4097 if rule == 'J7' else 1030
        op = 'second' if rule == 'J7' else spmat.asm('binary', 'mov64 r0, r2\n' * 4095 + 'exit\n')
        n = at + leaves
        rows = list(range(at - 1)) + [at - 1] * leaves
        columns = list(range(1, at)) + list(range(at, n))

        def begin(session):
            G, GT = session.from_coo(rows, columns, 1, n,
                                     n), session.from_coo(columns, rows, 1, n, n)
            state = {'row': session.from_coo([0], [0], 1, 1, n),
                     'column': session.from_coo([0], [0], 1, n, 1)}

            def step(s, k):
                row, column = s.row.mxm(G, 'any_first'), GT.mxv(s.column, 'any_second')
                return {'row': row, 'column': column,
                        'square': column.mxm(row, ('any', op)).select('valueeq', k)}
            return step, state
        return begin

    def test_sizes(self):
        """J7 and J8 in each round of a trip."""
        for rule in ('J7', 'J8'):
            for at in (1, 2, 3, 4, 6):
                found, loop = self.compare(self.too_large(rule, at), {}, spmat.empty('row'), 40)
                self.assertEqual(found, (rule, at))
                self.assertGreater(loop._trips.trips, 0)

    def started(self, kilobytes):
        """A session with so much memory, or None."""
        try:
            return spmat.Session(program=['/bin/sh', '-c',
                                          'ulimit -v %d; exec "$0" "$@"' % kilobytes,
                                          support.program()])
        except (spmat.SpmatError, OSError):
            return None

    def test_memory(self):
        """Out of memory: wherever it is refused, the state is that behind so many rounds, and
        what was held is there."""
        least, most = 1000, 1 << 21
        while most - least > 200:
            middle = (least + most) // 2
            session = self.started(middle)
            least, most = (middle, most) if session is None else (least, middle)
            if session is not None:
                session.close()
        if self.started(most) is None:
            self.skipTest('the program does not start with little memory')
        count, refused = 1 << 13, 0

        def begin(session):
            G = session.from_coo([(j - 1) // 2 for j in range(1, count)], list(range(1, count)), 1,
                                 count, count)
            return (lambda s: {'row': s.row.mxm(G, 'any_first').ewise_add(s.row, 'first'),
                               'all': s.all.ewise_add(s.row, 'plus')},
                    {name: session.from_coo([0], [0], 1, 1, count) for name in ('row', 'all')})
        for more in (300, 600, 1000, 1600):
            session = self.started(most + more)
            if session is None:
                continue
            with session, spmat.Session() as other:
                try:
                    step, state = begin(session)
                    loop = spmat.loop(step, state)
                except (spmat.OutOfMemory, spmat.Closed):
                    continue
                try:
                    loop.advance(12)
                except spmat.Refused as fault:
                    refused += 1
                    self.assertEqual((fault.rule, fault.round), ('memory', loop.number + 1))
                except spmat.Closed:
                    self.skipTest('the reference implementation ends where it has no memory left')
                step, state = begin(other)
                want = by_hand(step, state, loop.number)[0]
                for name, matrix in loop.state.items():
                    self.assertEqual(matrix.nvals, want[name].nvals)
                    try:
                        self.assertEqual(matrix.to_text(), want[name].to_text())
                    except spmat.Refused:          # out of memory, too
                        pass
        if not refused:
            self.skipTest('no limit on memory was met amid the loop')

    def test_shared_steps(self):
        """On a budget that others draw on, with less than they could take, rounds are made one by
        one."""
        with support.Relay(steps=100000) as server, spmat.Session.connect(port=server.port) as s:
            loop = search(s, PATH)
            self.assertEqual((loop.run(spmat.empty('front')), loop._trips.trips), (70, 0))


def sizes(body):
    """What a server answers to a matrix."""
    return b'ok matrix ' + body.split(b'\n')[1] + b'\n' if body else b''


class Channels(unittest.TestCase):
    def test_tcp(self):
        """Over a connection, with trips."""
        with support.Relay(steps=1 << 62) as server, spmat.Session.connect(port=server.port) as s:
            loop = search(s, PATH)
            self.assertEqual(loop.run(spmat.empty('front')), 70)
            self.assertGreater(loop._trips.trips, 2)
            self.assertEqual(list(map(int, loop.shown['front'].places)), list(range(1, 70)))

    def test_closed_amid_trips(self):
        """A server that closes the connection amid a loop."""
        def answer(words, body):
            replies = {'run': None, 'matrix': sizes(body),
                       'budget': b'ok budget %d 0 0\n' % (1 << 62)}
            return replies.get(words[0], support.plausible(words, body))
        with support.Scripted(answer) as server, spmat.Session.connect(port=server.port) as s:
            loop = search(s, PATH)
            with self.assertRaises(spmat.Closed):
                loop.run(spmat.empty('front'))
            with self.assertRaises(spmat.Closed):
                loop.state['front'].to_text()

    def test_other_replies(self):
        """Replies that are none of spmat end the session."""
        def answer(words, body):
            replies = {'matrix': sizes(body), 'budget': b'ok budget %d 0 0\n' % (1 << 62),
                       'show': b'ok show 3\nabc'}
            return replies.get(words[0], support.plausible(words, body))
        with support.Scripted(answer) as server, spmat.Session.connect(port=server.port) as s:
            with self.assertRaises(spmat.Closed):
                search(s, PATH).run(spmat.empty('front'))
            self.assertIn('none of spmat', s.connection.ended)

    def test_ctrl_c(self):
        """Ctrl-C amid a trip leaves its replies owed. The session goes on, and so does the loop,
        with all that was found."""
        self.addCleanup(signal.signal, signal.SIGINT,
                        signal.signal(signal.SIGINT, signal.default_int_handler))
        with spmat.Session() as s:
            wait, came = type(s.connection._channel).wait, []

            def stopped(channel):
                came.append(1)
                if len(came) in (2, 5):
                    os.kill(os.getpid(), signal.SIGINT)
                wait(channel)
            loop, interrupted, A = search(s, PATH), 0, s.full(1, 1, 5)
            with mock.patch.object(type(s.connection._channel), 'wait', stopped):
                while True:
                    try:
                        loop.run(spmat.empty('front'))
                        break
                    except KeyboardInterrupt:
                        interrupted += 1
                        self.assertTrue(s.connection.owes)
                        if interrupted == 2:
                            # which waits for what is owed
                            self.assertEqual(A.apply('ainv').to_list(), [-5])
                            self.assertFalse(s.connection.owes)
            self.assertEqual((interrupted, loop.number, s.connection.ended), (2, 70, None))
            self.assertEqual(list(map(int, loop.shown['front'].places)), list(range(1, 70)))
            self.assertEqual(list(map(int, loop.shown['front'].rounds)), list(range(1, 70)))
