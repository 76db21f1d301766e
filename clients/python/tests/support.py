"""What the tests share: the program, a session, TCP between a client and it, and a server whose
replies a test writes."""
import contextlib
import faulthandler
import importlib.util
import multiprocessing
import os
import shutil
import socket
import subprocess
import threading
import time
import unittest

import spmat

TOP = os.path.normpath(os.path.join(os.path.dirname(os.path.abspath(__file__)), '..', '..', '..'))
# the folder that spmat is imported from
CLIENT = os.path.dirname(os.path.dirname(os.path.abspath(spmat.__file__)))
BANNER = '%%MatrixMarket matrix coordinate integer general\n'


def program():
    """The built program: the variable SPMAT, `spmat` on the PATH, or crates/spmat/out/spmat, in
    this order."""
    found = (os.environ.get('SPMAT') or shutil.which('spmat')
             or os.path.join(TOP, 'crates', 'spmat', 'out', 'spmat'))
    if not os.environ.get('SPMAT') and not os.path.exists(found):
        raise FileNotFoundError('the tests want the built program: set SPMAT, or build it')
    return found


os.environ['SPMAT'] = program()


# seconds of a test, on a busy machine and by the program with run-time checks
LONGEST = 900


def _watched(test, result=None, run=unittest.TestCase.run):
    """Runs a test. One that hangs ends all, and tells by names and lines where each thread
    stands."""
    faulthandler.dump_traceback_later(LONGEST, exit=True)
    return run(test, result)


if multiprocessing.parent_process() is None:       # Dask's workers import this, and run no test
    faulthandler.dump_traceback_later(LONGEST, exit=True)      # also while a class is set up
unittest.TestCase.run = _watched


def needs(*modules):
    """Skips a test where a module isn't there, and says which."""
    missing = [module for module in modules if not has(module)]
    return unittest.skipIf(missing, 'no module ' + ', '.join(missing))


def has(module):
    """Whether a module can be imported. Of one in a package the package is looked at first:
    find_spec would raise without it. A folder of tests that is called like a module is none."""
    package = module.rpartition('.')[0]
    found = importlib.util.find_spec(module) if not package or has(package) else None
    return found is not None and found.origin is not None


def enter(test, manager):
    """What a context manager gives, which ends with a test."""
    entered = manager.__enter__()
    test.addCleanup(manager.__exit__, None, None, None)
    return entered


def said(kind, call, *given, **named):
    """The words of the error of a kind that a call ends with."""
    with unittest.TestCase().assertRaises(kind) as caught:
        call(*given, **named)
    return str(caught.exception)


def known_of(matrix):
    """What is known of a matrix, but for the numbers of its kinds of vertices, which are new with
    each that is read."""
    return matrix.notes._replace(row_kind=0, column_kind=0)


class InSession(unittest.TestCase):
    """Tests that share a session: `s`, or `session` where a test has several things of one
    letter."""

    @classmethod
    def setUpClass(cls):
        cls.s = cls.session = spmat.Session()

    @classmethod
    def tearDownClass(cls):
        cls.s.close()

    def said(self, call, *given, kind=ValueError, **named):
        """The words of the error that a call ends with."""
        return said(kind, call, *given, **named)


class OfCells(InSession):
    """Tests on matrices whose entries are given as {(row, column): value}, as models have them."""

    def made(self, cells, nrows, ncols, session=None):
        return (session or self.s).from_triples([(*at, value) for at, value in cells.items()],
                                                nrows, ncols)


class Listener:
    """Accepts connections in a thread, each handled in one of its own; ends with the `with`."""

    def __enter__(self):
        self._listening = socket.create_server(('127.0.0.1', 0))
        self.port = self._listening.getsockname()[1]
        self._open = []
        threading.Thread(target=self._accept, daemon=True).start()
        return self

    def __exit__(self, *_):
        self._listening.close()
        for connection in self._open:
            connection.close()

    def _accept(self):
        while True:
            try:
                connection = self._listening.accept()[0]
            except OSError:
                return
            self._open.append(connection)
            threading.Thread(target=self._handle, args=(connection,), daemon=True).start()

    def _handle(self, connection):
        raise NotImplementedError


class Relay(Listener):
    """A connection is a session of `spmat run`; those above `seats` at a time get `no busy`."""

    def __init__(self, seats=16, steps=1000):
        self._seats = threading.Semaphore(seats)
        self._words = ['run', '--steps', str(steps), '--workers', '1']

    def _handle(self, connection):
        if not self._seats.acquire(blocking=False):
            with connection, contextlib.suppress(OSError):
                connection.sendall(b'no busy\n')
                connection.shutdown(socket.SHUT_WR)
                connection.recv(1 << 16)
            return
        child = subprocess.Popen([os.environ['SPMAT']] + self._words, stdin=connection,
                                 stdout=connection)
        child.wait()
        self._seats.release()
        with connection, contextlib.suppress(OSError):
            connection.shutdown(socket.SHUT_RDWR)


class Last(bytes):
    """A reply after which the connection is closed."""


class Scripted(Listener):
    """Answers commands as `answer(words, body)` says; with None the connection is closed. `seen`
    has the commands' lines."""

    def __init__(self, answer):
        self._answer = answer
        self.seen = []

    def _handle(self, connection):
        with contextlib.suppress(OSError), connection, connection.makefile('rb') as source:
            for line in source:
                words = line.decode('latin-1').split()
                if not words:
                    continue
                body = source.read(int(words[-1])) if words[0] in ('matrix', 'asm', 'op') else None
                self.seen.append(' '.join(words))
                reply = self._answer(words, body)
                if reply is None:
                    return
                connection.sendall(reply)
                if isinstance(reply, Last):
                    return


class Plausible:
    """The same of a server that counts the jobs that wait."""

    def __init__(self):
        self._jobs = 0

    def __call__(self, words, body):
        reply = plausible(words, body)
        if reply.startswith(b'ok queued'):
            self._jobs += 1
            return b'ok queued %d 1\n' % self._jobs
        self._jobs = 0 if words[0] == 'run' else self._jobs
        return reply


def plausible(words, body):
    """What a server might answer, without looking at anything."""
    return {'budget': b'ok budget 100 0 0\n', 'quit': b'ok quit\n', 'run': b'ok run 0 0\n',
            'asm': b'ok op 1 1\n',
            'op': b'ok op 1 1\n', 'matrix': b'ok matrix 1 1 1\n',
            'show': b'ok show 0\n'}.get(words[0], b'ok queued 1 1\n')
