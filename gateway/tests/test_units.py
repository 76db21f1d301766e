"""Engines as units: what starts them, without the unit. tests/packages has them under systemd."""
import contextlib
import os
import resource
import shutil
import signal
import subprocess
import sys
import time
import unittest

from .support import FIRST_SESSION, FOLDER, Gateway, direct, engine_command, folder, until
from .test_sessions import is_running

from spmat_gateway.config import Engine as Settings
from spmat_gateway.engines import Engine, values_of

STARTER = [sys.executable, '-IS', os.path.join(FOLDER, 'spmat_gateway', 'starter.py')]
SESSION = engine_command()[engine_command().index('prlimit'):]


@contextlib.contextmanager
def socket_of_starters(where):
    """A socket file at which each connection starts one; its path."""
    path = os.path.join(where, 'engine.sock')
    with subprocess.Popen(['systemd-socket-activate', '--seqpacket', '--accept', '--inetd', '-l',
                           path, *STARTER], stderr=subprocess.DEVNULL) as process:
        until('it listens', lambda: os.path.exists(path))
        try:
            yield path
        finally:
            process.terminate()


@unittest.skipIf(shutil.which('systemd-socket-activate') is None, 'no systemd-socket-activate')
class Units(unittest.TestCase):
    def serve(self, where, path, command=None, **keys):
        return Gateway(where, command=command or SESSION, engine_socket=path, **keys)

    def test_a_session(self):
        with folder() as where, socket_of_starters(where) as path, self.serve(where,
                                                                             path) as gateway:
            anna = gateway.add('anna')
            before = descriptors(gateway.process.pid)
            with gateway.client(anna) as client:
                client.send(b'budget\n')
                client.line()
                process = gateway.table('sessions')[0]['process']
                self.assertNotEqual(parent_of(process), gateway.process.pid)
                client.send(FIRST_SESSION)
                self.assertEqual(client.rest(), direct(FIRST_SESSION))
            (row,) = gateway.sessions()
            self.assertEqual((row['cause'], row['basis'], row['charged']), ('end', 'exact', 3))
            self.assertGreater(row['processor'], 0)
            until('it is gone', lambda: not os.path.exists('/proc/%d' % process))
            until('all descriptors are closed',
                  lambda: len(os.listdir('/proc/%d/fd' % gateway.process.pid)) == before)

    def test_how_it_ends(self):
        """The starter tells the status, as a process of the gateway's own has it."""
        with folder() as where, socket_of_starters(where) as path:
            tells = 'echo "spmat: start untold=0" >&2; '
            for name, words, cause in (('a', 'exit 3', 'refused'), ('b', 'exit 4', 'engine'),
                                       ('c', 'kill -XCPU $$', 'processor'),
                                       ('d', 'kill -9 $$', 'engine')):
                with self.subTest(words=words), self.serve(
                        where, path, command=['sh', '-c', tells + words]) as gateway:
                    with gateway.client(gateway.add(name)) as client:
                        client.rest()
                    until('it is settled',
                          lambda gateway=gateway: gateway.sessions()[0]['state'] == 'settled')
                    self.assertEqual(gateway.sessions()[0]['cause'], cause)

    def test_a_gateway_that_hangs(self):
        """What it has started ends before its lease does, and by no word of it."""
        with folder() as where, socket_of_starters(where) as path, self.serve(
                where, path, gateway_lease_seconds=6) as gateway:
            with gateway.client(gateway.add('anna')) as client:
                client.ask('budget')
                starter = parent_of(gateway.table('sessions')[0]['process'])
                time.sleep(7)                      # while it lives its engines do
                self.assertTrue(client.ask('budget').startswith('ok budget'))
                gateway.process.send_signal(signal.SIGSTOP)
                try:
                    until('its starter has ended', lambda: not is_running(starter), 6)
                finally:
                    gateway.process.send_signal(signal.SIGCONT)

    def test_nobody_starts_it(self):
        with folder() as where:
            path = os.path.join(where, 'nobody.sock')
            with self.serve(where, path) as gateway, gateway.client(gateway.add('anna')) as client:
                self.assertEqual(client.rest(), b'no engine\n')
                self.assertEqual(gateway.table('users')[0]['reserved'], 0)

    def test_no_program(self):
        with folder() as where, socket_of_starters(where) as path, self.serve(
                where, path, command=['/no/program']) as gateway:
            with gateway.client(gateway.add('anna')) as client:
                self.assertEqual(client.rest(), b'no session engine known 0\n')
            self.assertIn('/no/program', gateway.said())


class Stops(unittest.TestCase):
    def test_after_a_kill(self):
        """What a killed gateway has left elsewhere, its next start ends; once, and before a session
        counts as ended."""
        with folder() as where:
            with Gateway(where, engine_stop=['sh', '-c', 'echo {session} >> %s/stopped' % where],
                         limits_sessions=1) as gateway:
                anna = gateway.add('anna')
                with gateway.client(anna) as client:
                    client.ask('budget')
                    (session,) = [row['id'] for row in gateway.table('sessions')]
                    gateway.kill()
                gateway.start()
                with open(os.path.join(where, 'stopped'), encoding='ascii') as file:
                    self.assertEqual(file.read().split(), [session])
                (row,) = gateway.sessions()
                self.assertEqual((row['state'], row['cause']), ('settled', 'gateway-killed'))


class Starts(unittest.TestCase):
    def test_without_descriptors(self):
        """A start that fails for lack of a descriptor leaves none open."""
        settings, failed = Settings(command=('true',)), 0
        highest = max(map(int, os.listdir('/proc/self/fd')))
        while (filled := os.open('/dev/null', os.O_RDONLY)) < highest:
            self.addCleanup(os.close, filled)      # so that no lower one is free
        self.addCleanup(os.close, filled)
        before = len(os.listdir('/proc/self/fd'))
        least, most = resource.getrlimit(resource.RLIMIT_NOFILE)
        self.addCleanup(resource.setrlimit, resource.RLIMIT_NOFILE, (least, most))
        for more in range(1, 13):
            resource.setrlimit(resource.RLIMIT_NOFILE, (filled + more, most))
            try:
                engine = Engine(settings, values_of('a', 'anna', 1, {}), 60.0)
            except OSError:
                failed += 1
            else:
                for stream in engine.streams:
                    os.close(stream)
                engine.end(10)
            resource.setrlimit(resource.RLIMIT_NOFILE, (least, most))
            self.assertEqual(len(os.listdir('/proc/self/fd')), before)
        self.assertTrue(3 < failed < 12, failed)


def descriptors(process):
    """How many descriptors a process has, once it closes none any more."""
    before = -1
    while (now := len(os.listdir('/proc/%d/fd' % process))) != before:
        before = now
        time.sleep(0.5)
    return now


def parent_of(process):
    """The process that started one."""
    with open('/proc/%d/stat' % process, encoding='ascii') as file:
        return int(file.read().rpartition(')')[2].split()[1])


if __name__ == '__main__':
    unittest.main()
