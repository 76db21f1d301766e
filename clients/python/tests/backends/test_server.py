"""The rules that a first version of a client gets wrong, each with a test that fails where it is
broken."""
import gc
import os
import signal
import time
import unittest

import support
import spmat
from spmat.wire import transport
from spmat.backends import server as names

USED_AGAIN = unittest.skipIf(os.environ.get(names.POISONED),
                             'no name is used again, and each is overwritten')


class Versions(unittest.TestCase):
    """A job takes the versions that its names have when it is submitted, so what waits is run
    before it is used."""

    def test_operand_that_waits(self):
        with spmat.Session() as s:
            A = s.from_triples([(0, 0, 1), (1, 1, 2)])
            B = A.apply('ainv')
            self.assertEqual((s.runs, B.waits), (0, True))
            C = B.ewise_add(A, 'minus')
            # the run stands before C's job, and goes with it
            self.assertEqual((s.runs, C.waits), (1, True))
            self.assertEqual(C.to_dict(), {(0, 0): -2, (1, 1): -4})
            self.assertEqual((s.runs, B.waits, B.nvals), (2, False, 2))

    def test_mask_that_waits(self):
        with spmat.Session() as s:
            A = s.from_triples([(0, 0, 1), (1, 1, 2)])
            M = A.select('valuegt', 1)
            self.assertEqual(A.apply('one', mask=M.S).to_dict(), {(1, 1): 1})

    @USED_AGAIN
    def test_name_that_was_bound_before(self):
        """Where a name was bound before, the server would silently take the old matrix."""
        with spmat.Session() as s:
            A = s.from_triples([(0, 0, 1)])
            B = A.apply('ainv').wait()
            key = B.handle.key
            del B
            gc.collect()
            C = A.apply('plus', right=6)
            self.assertEqual(C.handle.key, key)
            self.assertEqual(C.apply('identity').to_dict(), {(0, 0): 7})


@USED_AGAIN
class UsedAgain(unittest.TestCase):
    """Names of matrices that nobody holds are used again, but not while a job waits that will bind
    them."""

    def test_not_while_a_job_waits(self):
        with spmat.Session() as s:
            A = s.from_triples([(0, 0, 1), (1, 1, 2)])
            # nobody holds it, and its job waits
            key = A.apply('ainv').handle.key
            gc.collect()
            B = s.from_triples([(0, 1, 5)], 2, 2)
            self.assertNotEqual(B.handle.key, key)
            s.run()
            self.assertEqual(B.to_dict(), {(0, 1): 5})
            self.assertEqual(s.from_triples([(0, 0, 3)]).handle.key, key)

    def test_names_do_not_grow(self):
        with spmat.Session(steps=100_000) as s:
            A = s.from_triples([(0, 0, 1), (1, 1, 2)])
            dear = spmat.asm('unary', 'mov64 r0, r1\n' * 4000 + 'exit')
            for _ in range(300):
                A = A.apply('ainv')
            for _ in range(100):
                with self.assertRaises(spmat.TextRefused):
                    s.from_text('no matrix')
                with self.assertRaises(spmat.BudgetExceeded):
                    s.full(30, 1).apply(dear)
            held = [A] + [s.from_triples([(0, 0, k)]) for k in range(8)]
            # those of the commands that go together
            self.assertLess(max(int(matrix.handle.key[1:]) for matrix in held), 120)

    def test_collecting_sends_nothing(self):
        with spmat.Session() as s:
            held = [s.from_triples([(0, 0, k)]) for k in range(20)]
            before = s.connection.commands
            del held
            gc.collect()
            self.assertEqual(s.connection.commands, before)

    def test_wished_names(self):
        with spmat.Session() as s:
            A = s.from_triples([(0, 0, 1)], name='A')
            # one name for two: the server has two all the same
            B = s.from_triples([(0, 0, 2)], name='A')
            self.assertEqual((A.name, B.name, A.handle.key), ('A', 'A', 'A'))
            self.assertEqual((A.to_dict(), B.to_dict()), ({(0, 0): 1}, {(0, 0): 2}))
            self.assertEqual(s.from_triples([(0, 0, 3)],
                                            name='no name at all, and far too long for one').nvals,
                             1)


@USED_AGAIN
class Overwritten(unittest.TestCase):
    """No command forgets a matrix: what nobody holds and is large is overwritten before the next
    command."""

    def sizes(self, s):
        """How many rows each name stands for, told by the server itself."""
        return {key: s.connection.command('show ' + key).body.split(b'\n')[1]
                for key in ('_1', '_2', '_3')}

    def test_large_ones(self):
        n = names.SMALL + 1
        with spmat.Session() as s:
            A, B = s.from_triples([], n, 1), s.from_triples([(0, 0, 1)], n, 1)
            C = B.apply('ainv').wait()
            self.assertEqual((A.handle.key, B.handle.key, C.handle.key), ('_1', '_2', '_3'))
            del A, C
            gc.collect()
            s.budget()
            self.assertEqual(self.sizes(s), {'_1': b'0 0 0', '_2': b'%d 1 1' % n, '_3': b'0 0 0'})

    def test_results_by_their_entries(self):
        """A result's size is known when it ran, also where its handle was gone by then."""
        with spmat.Session() as s:
            A, B = s.full(300, 1), s.full(1, 300)
            A.mxm(B)                                       # nobody holds it
            gc.collect()
            s.run()
            s.budget()
            self.assertEqual(self.sizes(s)['_3'], b'0 0 0')

    def test_small_ones_stay(self):
        with spmat.Session() as s:
            A = s.from_triples([(0, 0, 1)])
            before = s.connection.commands
            del A
            gc.collect()
            s.budget()
            self.assertEqual(s.connection.commands, before + 1)


class FullQueue(unittest.TestCase):
    """At 64 waiting jobs the queue runs; where the budget is too small it runs too, and the job is
    sent once more."""

    def test_many_jobs(self):
        with spmat.Session() as s:
            A = s.from_triples([(0, 0, 1)])
            out = [A.apply('plus', right=k) for k in range(150)]
            self.assertEqual((s.runs, s.jobs), (2, 150))
            self.assertEqual([matrix.to_triples()[0][2] for matrix in out],
                             [1 + k for k in range(150)])
            self.assertEqual(s.runs, 3)

    def test_budget_comes_back(self):
        with spmat.Session(steps=31) as s:
            A = s.from_triples([(0, 0, 5), (0, 1, 7), (1, 1, 1)])
            # at most 12 steps each, and 9 each are taken
            B, C = A.apply('abs'), A.apply('abs')
            # 12 of 31 - 24 are not left, but of 31 - 18
            D = A.apply('abs')
            self.assertEqual((s.runs, D.price, D.nvals, s.budget().spent), (1, 12, 3, 27))
            with self.assertRaises(spmat.BudgetExceeded) as said:
                A.apply('abs')
            self.assertEqual((said.exception.price, said.exception.left, B.steps, C.steps),
                             (12, 4, 9, 9))

    def test_budget_exceeded(self):
        with spmat.Session(steps=30) as s:
            A = s.from_triples([(0, 0, 5), (0, 1, 7), (1, 1, 1)])
            kept = [A.select('valuegt', 100), A.apply('abs'), A.apply('one')]
            with self.assertRaises(spmat.BudgetExceeded) as said:
                # the queue runs and gives 3 back, but 6 are wanted
                A.apply('identity')
            self.assertEqual((said.exception.price, said.exception.left, s.runs, len(kept)),
                             (6, 3, 1, 3))
            self.assertEqual(kept[1].nvals, 3)


class InStep(unittest.TestCase):
    """One command, one reply. A body that is refused by its length ends the session while it is
    still written."""

    def test_length_refused(self):
        s = spmat.Session()
        with self.assertRaises(spmat.TooLarge) as said:
            s.connection.command('asm big unary', b'; comment\n' * 300000)
        self.assertEqual(said.exception.rule, 'S7')
        self.assertIn('no S7', support.said(spmat.Closed, s.budget))
        s.close()

    def test_length_refused_over_tcp(self):
        with support.Relay() as server:
            with spmat.Session.connect(port=server.port) as s:
                with self.assertRaises(spmat.TooLarge):
                    s.connection.command('asm big unary', b'; comment\n' * 30000)
                self.assertIsNotNone(s.connection.ended)

    def test_length_found_here(self):
        """What is known to be too long isn't sent, and the session goes on."""
        with spmat.Session() as s:
            A = s.from_triples([(0, 0, 1)])
            with self.assertRaises(spmat.TooLarge):
                A.apply(spmat.asm('unary', '; comment\n' * 30000))
            self.assertEqual(s.budget().spent, 0)

    def test_large_texts_both_ways(self):
        """More than pipes hold, into the server and out of it."""
        with spmat.Session() as s:
            text = (support.BANNER + '60000 1 60000\n'
                    + ''.join('%d 1 %d\n' % (k + 1, k) for k in range(60000))).encode()
            A, B = s.from_text(text), s.from_text(text)
            self.assertEqual((A.to_text(), B.to_text()), (text, text))


class RefusedRun(unittest.TestCase):
    """A refused run has emptied the queue: each result of it raises from then on, with that refusal
    as its cause."""

    def test_results_raise(self):
        plausible = support.Plausible()

        def answer(words, body):
            return b'no memory 7\n' if words[0] == 'run' else plausible(words, body)
        with support.Scripted(answer) as server, spmat.Session.connect(port=server.port) as s:
            A = s.from_triples([(0, 0, 1)])
            B, C = A.apply('abs'), A.apply('ainv')
            with self.assertRaises(spmat.OutOfMemory) as said:
                B.wait()
            self.assertEqual((said.exception.spent, said.exception.rule), (7, 'memory'))
            for use in (B.to_text, lambda: C.nvals, lambda: C.apply('abs'),
                        lambda: A.apply('abs', mask=B.S)):
                with self.assertRaises(spmat.NotMade) as said:
                    use()
                self.assertIsInstance(said.exception.__cause__, spmat.OutOfMemory)
            self.assertEqual((s.run(), A.nvals, s.connection.ended), ([], 1, None))
            self.assertIn('never made', repr(C))

    def test_no_thread(self):
        def answer(words, body):
            return b'no thread 3\n' if words[0] == 'run' else support.plausible(words, body)
        with support.Scripted(answer) as server, spmat.Session.connect(port=server.port) as s:
            A = s.from_triples([(0, 0, 1)]).apply('abs')
            with self.assertRaises(spmat.NoThread) as said:
                A.wait()
            self.assertEqual(said.exception.spent, 3)

    @unittest.skipIf(os.environ.get('SPMAT_CHECKED'),
                     'run-time checks reserve more addresses than any limit leaves')
    def test_little_memory(self):
        """The real program under a limit on its memory: the run is refused, and the session goes
        on."""
        program = ['bash', '-c', 'ulimit -v 150000; exec "$0" "$@"', os.environ['SPMAT']]
        with spmat.Session(program=program) as s:
            A, B = s.full(1000, 1), s.full(1, 1000)
            kept = []
            with self.assertRaises(spmat.OutOfMemory) as said:
                for _ in range(40):
                    kept.append(A.mxm(B))
                s.run()
            self.assertIsNotNone(said.exception.spent)
            with self.assertRaises(spmat.NotMade):
                kept[0].wait()
            self.assertEqual(A.apply('ainv').nvals, 1000)


class Interrupted(unittest.TestCase):
    """Ctrl-C while a reply is awaited leaves the session as it is, and closing it then ends it at
    once. Whatever else comes between a command and the whole of its reply ends the session, and the
    child is killed."""

    def busy_session(self):
        s = spmat.Session()
        A = s.full(128, 128)
        long = spmat.asm('binary', 'mov64 r0, r1\n' * 1500 + 'exit')
        return s, [A.mxm(A, spmat.Semiring(long, spmat.binary.times)) for _ in range(40)]

    def test_interrupt(self):
        stopped = []

        def stop(*_):
            stopped.append(time.monotonic())
            raise KeyboardInterrupt
        before = signal.signal(signal.SIGALRM, stop)
        try:
            s, results = self.busy_session()
            process = s.connection._channel.process
            signal.setitimer(signal.ITIMER_REAL, .05)
            with self.assertRaises(KeyboardInterrupt):
                s.run()
            self.assertTrue(s.connection.owes)
            # the batch goes on
            self.assertIsNone(process.poll())
            s.close()
            self.assertEqual(process.returncode, -signal.SIGKILL)
            # it wasn't waited for
            self.assertLess(time.monotonic() - stopped[0], transport.SECONDS_TO_QUIT)
            self.assertIn('while a reply was awaited', support.said(spmat.Closed, s.budget))
            with self.assertRaises(spmat.SpmatError):
                results[0].to_text()
        finally:
            signal.setitimer(signal.ITIMER_REAL, 0)
            signal.signal(signal.SIGALRM, before)

    def test_timeout(self):
        def answer(words, body):
            return time.sleep(10) if words[0] == 'run' else support.plausible(words, body)
        with support.Scripted(answer) as server:
            s = spmat.Session.connect(port=server.port, run_timeout=3)
            A = s.from_triples([(0, 0, 1)]).apply('abs')
            with self.assertRaises(OSError):
                A.wait()
            self.assertIn('timed out', s.connection.ended)
            with self.assertRaises(spmat.Closed):
                s.budget()

    def test_callback_that_raises(self):
        def progress(what, done, of):
            if what == 'received':
                raise RuntimeError('enough')
        with spmat.Session(progress=progress) as s:
            A = s.full(1000, 130)
            with self.assertRaises(RuntimeError):
                A.to_text()
            self.assertIn('RuntimeError (enough)', s.connection.ended)
            with self.assertRaises(spmat.Closed):
                A.to_text()


class Operators(unittest.TestCase):
    """Operators belong to no session: kind and text are the key, and a session uploads each
    once."""

    def test_uploaded_once(self):
        with spmat.Session() as s, spmat.Session() as t:
            A, B = s.from_triples([(0, 0, 3)]), t.from_triples([(0, 0, 4)])
            for matrix, want in ((A, 9), (B, 16)):
                session = matrix.session
                before = session.connection.commands
                ops = [spmat.asm('unary', 'mov64 r0, r1\nmul64 r0, r1\nexit', name)
                       for name in ('square', 'other', None)]
                out = [matrix.apply(op) for op in ops]
                self.assertEqual([m.to_list() for m in out], [[want]] * 3)
                self.assertEqual(session.connection.commands - before, 1 + 3 + 1 + 3)

    def test_same_text_of_two_kinds(self):
        text = 'mov64 r0, r1\nexit'
        with spmat.Session() as s:
            A = s.from_triples([(0, 0, 3)])
            self.assertEqual(A.apply(spmat.asm('unary', text)).to_list(), [3])
            self.assertEqual(A.ewise_mult(A, spmat.asm('binary', text)).to_list(), [3])
            self.assertEqual(A.apply(spmat.asm('index', text)).to_list(), [3])

    def test_one_name_for_two(self):
        with spmat.Session() as s:
            A = s.from_triples([(0, 0, 3)])
            f, g = spmat.asm('unary', 'mov64 r0, 1\nexit',
                             'f'), spmat.asm('unary', 'mov64 r0, 2\nexit', 'f')
            self.assertEqual([A.apply(op).to_list() for op in (f, g, f)], [[1], [2], [1]])
