"""What operators ask: the socket file, metrics, health, and that pages of others command
nothing."""
import http.client
import os
import re
import socket
import subprocess
import sys
import unittest

from spmat_gateway import cli

from .support import FIRST_SESSION, FOLDER, Gateway, folder, until
from .test_sessions import WithGateway


class Socket(WithGateway):
    """The socket file and the command `spmat-gateway`."""

    def post(self, path, headers, body='{}'):
        connection = http.client.HTTPConnection('spmat-gateway')
        connection.sock = socket.socket(socket.AF_UNIX)
        connection.sock.connect(self.gateway.admin)
        connection.request('POST', path, body, headers)
        status = connection.getresponse().status
        connection.close()
        return status

    def test_its_mode(self):
        self.assertEqual(os.stat(self.gateway.admin).st_mode & 0o777, 0o700)

    def test_the_command(self):
        environment = dict(os.environ, PYTHONPATH=FOLDER)
        words = [sys.executable, '-m', 'spmat_gateway', '--admin', self.gateway.admin]
        ran = subprocess.run([*words, 'users'], env=environment, stdout=subprocess.PIPE, text=True,
                             check=True)
        self.assertRegex(ran.stdout, r'^name +group .*\nanna ')
        ran = subprocess.run([*words, 'quota', 'nobody'], env=environment, stderr=subprocess.PIPE,
                             text=True, check=False)
        self.assertEqual((ran.returncode, ran.stderr),
                         (1, 'spmat-gateway: there is no account nobody\n'))

    def test_tables(self):
        with self.gateway.client(self.anna) as client:
            client.ask('budget')
            self.assertRegex(self.gateway.command('sessions'),
                             r'(?s)id .*\n[0-9a-f]{12}  anna  gate     127.0.0.1:\d+ .*1 T')
            self.assertEqual(self.gateway.measure('sessions_running'), 1)
        self.last()
        self.assertRegex(self.gateway.command('ledger', 'anna'),
                         r'[0-9a-f]{12} +anna +\d{4}-.*settled +end +exact')
        self.assertRegex(self.gateway.command('quota', 'anna', '--memory', '1e9'),
                         r'memory +1,000,000,000\n')
        self.assertRegex(self.gateway.command('quota', 'anna', '--memory', 'default'),
                         r'memory +2,147,483,648\n')
        self.assertIn('steps-in-all     no limit', self.gateway.command('quota', 'anna'))

    def test_words_that_are_refused(self):
        for words, said in ((('quota', 'anna', '--workers', '65'), 'workers is 1 to 64'),
                            (('users', 'add', 'Anna'), 'a name is'),
                            (('users', 'add'), 'wants a name'),
                            (('users', 'add', 'x', '--group', '@none'), 'there is no group'),
                            (('users', 'add', 'x', '--certificate', '/no/file'), 'No such file'),
                            (('users', 'join', 'nobody', '--group', '@none'), 'no group'),
                            (('end', ''), 'no session')):
            with self.subTest(words=words):
                self.assertIn(said, self.gateway.command(*words, status=1))
        with self.assertRaises(cli.Failed):
            cli.ask(self.gateway.admin + '.none', 'users')

    def test_nobody_commands_by_a_browser_from_elsewhere(self):
        kind = {'Content-Type': 'application/json'}
        for headers in ({'Host': 'evil.example'},
                        {'Host': 'localhost:1', 'Origin': 'http://evil.example'},
                        {'Host': 'localhost:1', 'Origin': 'http://localhost:1'},
                        {'Origin': 'null'}):
            with self.subTest(headers=headers):
                self.assertEqual(self.post('/api/users', {**kind, **headers}), 403)
        self.assertEqual(self.post('/api/users', {**kind, 'Host': 'localhost:9'}), 200)

    def test_a_socket_file_that_a_killed_gateway_has_left(self):
        with folder() as where:
            path = os.path.join(where, 'gate.sock')
            with socket.socket(socket.AF_UNIX) as gone:
                gone.bind(path)
            with Gateway(where) as gateway:
                self.assertEqual(gateway.admin, path)
                self.assertEqual(gateway.table('users'), [])


class Port(WithGateway):
    """What the port shows: metrics, health and the page, and nothing that changes anything."""

    def test_metrics(self):
        with self.gateway.client(self.anna) as client:
            client.send(FIRST_SESSION)
            client.rest()
        with self.gateway.client('anna wrong') as client:
            client.rest()
        self.last()
        status, text = self.gateway.get('/metrics')
        self.assertEqual(status, 200)
        values = {name: float(value) for name, value in re.findall(r'^(\S+) (\S+)$', text, re.M)}
        self.assertEqual(values['spmat_gateway_steps_total{user="anna"}'], 3)
        self.assertEqual(values['spmat_gateway_sessions_ended_total{cause="end"}'], 1)
        self.assertEqual(values['spmat_gateway_refusals_total{reply="login"}'], 1)
        self.assertEqual(values['spmat_gateway_bytes_total{direction="in"}'], len(FIRST_SESSION))
        self.assertEqual((values['spmat_gateway_sessions_running'],
                          values['spmat_gateway_ledger_up'], values['spmat_gateway_seats']),
                         (0, 1, 64))
        for line in text.splitlines():             # each line is a comment, or a sample
            self.assertRegex(line, r'^(# (HELP|TYPE) (spmat_gateway|process)_\w+ '
                             r'.*|(spmat_gateway|process)_\w+(\{\w+="[^"]*"\})? \S+)$')

    def test_health(self):
        self.assertEqual(self.gateway.get('/healthz'), (200, 'ok\n'))
        self.assertEqual(self.gateway.get('/readyz'), (200, 'ok\n'))

    def test_nothing_changes_anything(self):
        for path in ('/api/sessions', '/api/users', '/api/ledger', '/api/end'):
            self.assertEqual(self.gateway.get(path)[0], 404)
        for path in ('/api/end', '/api/change_user', '/api/quota', '/'):
            self.assertIn(self.gateway.get(path, 'POST', {'Host': 'localhost'})[0], (404, 405))

    def test_the_page(self):
        """What the commands print, as plain text."""
        with self.gateway.client(self.anna) as client:
            client.ask('budget')
            status, text = self.gateway.get('/')
            self.assertEqual(status, 200)
            self.assertRegex(text, r'^gate: ready since \d{4}-\S+Z, 1 of 64 seats taken, ledger up\n')
            sessions, users = (self.gateway.command(name).splitlines()
                               for name in ('sessions', 'users'))
            self.assertEqual([line.split()[:4] for line in text.split('\n\n')[1].splitlines()],
                             [line.split()[:4] for line in sessions])
            self.assertEqual(text.split('\n\n')[2].splitlines(), users)
        connection = http.client.HTTPConnection('127.0.0.1', self.gateway.page)
        connection.request('GET', '/')
        headers = connection.getresponse().headers
        connection.close()
        self.assertEqual((headers.get_content_type(), headers['X-Content-Type-Options']),
                         ('text/plain', 'nosniff'))


class NotReady(unittest.TestCase):
    """A gateway whose ledger can't be had says so, and serves once it can."""

    def test_readiness(self):
        with folder() as where:
            gateway = Gateway(where, gateway_ledger=os.path.join(where, 'none', 'ledger.db'))
            gateway.start(ready=False)
            try:
                until('it lives', lambda: self._status(gateway, '/healthz') == 200)
                self.assertEqual(self._status(gateway, '/readyz'), 503)
                # a folder that comes before the first try is no fault that the gateway outlives
                until('it has tried', lambda: "the ledger doesn't answer" in gateway.said())
                os.mkdir(os.path.join(where, 'none'))
                until('it is ready', gateway.is_ready)
                with gateway.client(gateway.add('anna')) as client:
                    self.assertTrue(client.ask('budget').startswith('ok budget'))
            finally:
                gateway.stop()

    def _status(self, gateway, path):
        try:
            return gateway.get(path)[0]
        except (OSError, http.client.HTTPException):
            return None

    def test_full(self):
        with folder() as where, Gateway(where, gateway_seats=1) as gateway:
            anna = gateway.add('anna')
            with gateway.client(anna) as client:
                client.ask('budget')
                self.assertEqual(gateway.get('/readyz')[0], 503)
                with gateway.client(anna) as second:
                    self.assertEqual(second.rest(), b'no busy\n')
            until('there is a seat again', gateway.is_ready)
            self.assertEqual(gateway.measure('seats'), 1)


if __name__ == '__main__':
    unittest.main()
