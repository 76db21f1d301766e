"""Sessions over TCP: a budget for all, `no busy`, closed sockets. Over a relay to the program, and
over `spmat serve` where it has that."""
import os
import socket
import subprocess
import unittest

import support
import spmat
from spmat.wire import connection


class Served:
    """`spmat serve` on a free port; skips the test where the program has no such word."""

    def __init__(self, steps=1000, workers=1):
        self._words = ['--steps', str(steps), '--workers', str(workers)]

    def __enter__(self):
        with socket.socket() as free:
            free.bind(('127.0.0.1', 0))
            self.port = free.getsockname()[1]
        self._process = subprocess.Popen([os.environ['SPMAT'], 'serve', '--port', str(self.port)]
                                         + self._words, stdout=subprocess.PIPE,
                                         stderr=subprocess.PIPE)
        line = self._process.stdout.readline()
        if line != b'listening %d\n' % self.port:
            self._end(terminate=line != b'')               # without a word it ends by itself
            if self._process.returncode == 2:
                raise unittest.SkipTest('the program has no `serve`')
            raise AssertionError('`serve` wrote %r and ended with status %d'
                                 % (line, self._process.returncode))
        return self

    def __exit__(self, *_):
        self._end(terminate=True)

    def _end(self, terminate):
        if terminate:
            self._process.terminate()
        self._process.wait(10)
        self._process.stdout.close()
        self._process.stderr.close()


class Serving(unittest.TestCase):
    def test_one_budget(self):
        """Over TCP the budget is one for all sessions."""
        with Served() as server:
            with spmat.Session.connect(port=server.port) as s, \
                    spmat.Session.connect(port=server.port) as t:
                A, B = s.from_triples([(0, 0, 1)]), t.from_triples([(0, 0, 2)])
                self.assertEqual(A.apply('ainv').to_triples() + B.apply('ainv').to_triples(),
                                 [(0, 0, -1), (0, 0, -2)])
                self.assertEqual((s.budget(), t.budget()), ((994, 0, 6), (994, 0, 6)))
                waits = A.apply('abs')
                self.assertEqual(t.budget().reserved, waits.price)
                with self.assertRaises(ValueError):
                    A.ewise_add(B)

    def test_a_budget_that_others_hold(self):
        with Served(steps=10) as server:
            with spmat.Session.connect(port=server.port) as s, \
                    spmat.Session.connect(port=server.port) as t:
                A, B = s.full(2, 1), t.full(2, 1)
                held = A.apply('abs')                      # at most 8 of 10
                with self.assertRaises(spmat.BudgetExceeded) as said:
                    B.apply('abs')
                self.assertEqual((said.exception.left, held.waits), (2, True))

    def test_busy(self):
        with Served() as server:
            many = [spmat.Session.connect(port=server.port) for _ in range(16)]
            with self.assertRaises(spmat.Busy):
                spmat.Session.connect(port=server.port)
            many.pop().close()
            with spmat.Session.connect(port=server.port) as s:
                self.assertEqual(s.budget().left, 1000)
            for session in many:
                session.close()

    def test_large_texts(self):
        with Served(steps=2 ** 62, workers=2) as server:
            with spmat.Session.connect(port=server.port) as s:
                A = s.full(2000, 100)
                self.assertEqual(A.apply('ainv').reduce_scalar(), -200000)
                self.assertEqual(s.from_text(A.to_text()).nvals, 200000)


class Relayed(unittest.TestCase):
    def test_session(self):
        with support.Relay() as server, spmat.Session.connect('127.0.0.1', server.port) as s:
            A = s.from_triples([(0, 0, 41)])
            self.assertEqual(A.apply('plus', right=1).to_list(), [42])

    def test_busy_is_read_as_the_first_answer(self):
        """`no busy` comes unasked."""
        with support.Relay(seats=1) as server:
            with spmat.Session.connect(port=server.port) as s:
                for _ in range(3):
                    with self.assertRaises(spmat.Busy) as said:
                        spmat.Session.connect(port=server.port)
                    self.assertEqual((said.exception.rule, said.exception.command),
                                     ('busy', 'budget'))
                self.assertEqual(s.budget().left, 1000)

    def test_seat_is_free(self):
        """A session that was closed has given its seat back, so the next connection finds one."""
        with support.Relay(seats=1) as server:
            for _ in range(20):
                with spmat.Session.connect(port=server.port) as s:
                    s.budget()

    def test_busy_ends(self):
        with support.Relay(seats=0) as server:
            raw = connection.Connection.to_server(connection.Address('127.0.0.1', server.port))
            with self.assertRaises(spmat.Busy):
                raw.command('budget')
            self.assertIn('no busy', raw.ended)

    def test_nobody_listens(self):
        with socket.create_server(('127.0.0.1', 0)) as taken:
            port = taken.getsockname()[1]
        self.assertIn('no connection to 127.0.0.1, port %d' % port,
                      support.said(ConnectionRefusedError, spmat.Session.connect, port=port))

    def test_addresses_that_are_none(self):
        for port in (0, 65536, -1):
            self.assertIn('a port is 1 to 65535',
                          support.said(ValueError, spmat.Session.connect, port=port))
        with self.assertRaises(OSError) as said:
            spmat.Session.connect('127.0.0.1:7171', 7171)      # the port belongs behind the comma
        self.assertIn('no connection to 127.0.0.1:7171', str(said.exception))
        self.assertIn("are two arguments: Session.connect('127.0.0.1', 7171)", str(said.exception))

    def test_closed_amid_a_session(self):
        def answer(words, body):
            return None if words[0] == 'show' else support.plausible(words, body)
        with support.Scripted(answer) as server:
            s = spmat.Session.connect(port=server.port)
            A = s.from_triples([(0, 0, 1)])
            self.assertIn('the server closed the connection', support.said(spmat.Closed, A.to_text))
            with self.assertRaises(spmat.Closed):
                A.apply('abs')
            s.close()

    def test_closed_amid_a_reply(self):
        for cut in (b'ok show 100\nabc', b'ok sh', b'ok show 5', b'ok show 1\n'):
            def answer(words, body):
                return support.Last(cut) if words[0] == 'show' else support.plausible(words, body)
            with support.Scripted(answer) as server:
                s = spmat.Session.connect(port=server.port)
                A = s.from_triples([(0, 0, 1)])
                with self.assertRaises(spmat.Closed):
                    A.to_text()
                self.assertIsNotNone(s.connection.ended)

    def test_no_server_of_spmat(self):
        with support.Scripted(lambda words, body: b'HTTP/1.1 400 Bad Request\r\n') as server:
            self.assertIn('none of spmat',
                          support.said(spmat.Closed, spmat.Session.connect, port=server.port))
