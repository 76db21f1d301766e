"""Sessions by a gateway, on the real program: the bytes are those of a session without one, and
each end is told."""
import os
import shutil
import socket
import ssl
import struct
import subprocess
import threading
import time
import unittest
from unittest import mock

from .support import (FIRST_SESSION, LINES, OPERATORS, PATIENCE, Certificates, Client, Gateway,
                      dense, direct, engine_command, folder, limits_memory, sessions_alone, until)

# one word differs: of one word alone a product takes two thirds of the time
BUSY = (OPERATORS + dense(250).replace(b'\n1 1 1\n', b'\n1 1 2\n', 1)
        + b'product B plus times A A\n' * 60)
"""Sixty products of some ninety million steps each, to be run: they take seconds at the least."""
PRICE_OF_BUSY = 60 * 93_750_000


def is_running(process):
    """Whether a process is there, and no zombie."""
    try:
        with open('/proc/%d/stat' % process, encoding='ascii') as file:
            return file.read().rpartition(')')[2].split()[0] != 'Z'
    except FileNotFoundError:
        return False


class WithGateway(unittest.TestCase):
    """A gateway of one class of tests."""
    keys = {}

    @classmethod
    def setUpClass(cls):
        cls._folder = folder()
        cls.where = cls._folder.__enter__()
        cls.gateway = Gateway(cls.where, **cls.keys)
        cls.gateway.start()
        cls.anna = cls.gateway.add('anna')

    @classmethod
    def tearDownClass(cls):
        try:
            cls.gateway.stop()
        finally:
            cls._folder.__exit__(None, None, None)

    def last(self, account='anna'):
        """The last session of an account, once it is settled."""
        until('the session is settled', lambda: self.gateway.sessions(account)[0]['state']
              == 'settled')
        return self.gateway.sessions(account)[0]


class Bytes(WithGateway):
    """The bytes pass through untouched."""

    def test_a_session(self):
        with self.gateway.client(self.anna) as client:
            client.send(FIRST_SESSION)
            self.assertEqual(client.rest(), direct(FIRST_SESSION))
        row = self.last()
        self.assertEqual((row['spent'], row['charged'], row['basis'], row['cause'], row['jobs'],
                          row['bytes_in']),
                         (3, 3, 'exact', 'end', 1, len(FIRST_SESSION)))

    def test_all_in_one_write_or_byte_by_byte(self):
        login = ('login %s\n' % self.anna).encode()
        expected = direct(FIRST_SESSION)
        for pieces in ([login + FIRST_SESSION], [bytes([byte]) for byte in login + FIRST_SESSION]):
            with self.gateway.client() as client:
                client.socket.setsockopt(socket.IPPROTO_TCP, socket.TCP_NODELAY, 1)
                for piece in pieces:
                    client.send(piece)
                self.assertEqual(client.rest(), expected)

    def test_long_texts_and_a_slow_reader(self):
        commands = dense(150) + b'show A\n' * 2 + b'budget\nquit\n'
        expected = direct(commands)
        with self.gateway.client(self.anna) as client:
            client.socket.setsockopt(socket.SOL_SOCKET, socket.SO_RCVBUF, 4096)
            sender = threading.Thread(target=client.send, args=(commands,))
            sender.start()
            time.sleep(0.5)
            self.assertEqual(client.rest(), expected)
            sender.join()
        self.assertEqual(self.last()['bytes_out'], len(expected))

    def test_half_closed(self):
        commands = FIRST_SESSION.replace(b'quit\n', b'budget\n')
        with self.gateway.client(self.anna) as client:
            client.send(commands)
            client.socket.shutdown(socket.SHUT_WR)
            self.assertEqual(client.rest(), direct(commands))

    def test_a_refusal_that_ends_a_session(self):
        for commands in (b'matrix A 99999999999999\nquit\n', LINES + b'matrix A 50\nab',
                         b'a' * 3000 + b'\nbudget\n'):
            with self.gateway.client(self.anna) as client:
                client.send(commands)
                client.socket.shutdown(socket.SHUT_WR)
                self.assertEqual(client.rest(), direct(commands))
            self.assertEqual(self.last()['cause'], 'refused')

    def test_bytes_that_are_no_commands(self):
        garbage = bytes(range(256)) * 40
        with self.gateway.client(self.anna) as client:
            client.send(garbage)
            client.socket.shutdown(socket.SHUT_WR)
            self.assertEqual(client.rest(), direct(garbage))


class Who(WithGateway):
    """Who is let in."""
    keys = {'gateway_login_seconds': 2, 'gateway_per_address': 20}

    def refused(self, login, rest=b'budget\n'):
        with self.gateway.client() as client:
            client.send(login + rest)
            return client.rest()

    def test_wrong_logins(self):
        name, token = self.anna.split()
        boris = self.gateway.add('boris')
        group = self.gateway.add('@all')
        self.assertEqual(group.strip(), '@all')
        for login in ('login anna wrong\n', 'login boris %s\n' % token, 'login nobody %s\n' % token,
                      'login anna\n', 'budget\n', '\n', 'login anna %s more\n' % token,
                      'LOGIN anna %s\n' % token, 'login @all %s\n' % token,
                      'login anna%s\n' % token, 'login ' + 'a' * 5000 + '\n', '\xff\xfe\n',
                      "login anna' %s\n" % token):
            with self.subTest(login=login[:40]):
                self.assertEqual(self.refused(login.encode('latin-1')), b'no login\n')
        with self.gateway.client(boris) as client:
            self.assertTrue(client.ask('budget').startswith('ok budget '))

    def test_a_token_that_was_renewed_and_a_user_that_was_disabled(self):
        old = self.gateway.add('carla')
        new = 'carla ' + self.gateway.command('users', 'renew', 'carla').strip()
        self.assertEqual(self.refused(('login %s\n' % old).encode()), b'no login\n')
        client = self.gateway.client(new)
        self.assertTrue(client.ask('budget').startswith('ok budget '))
        self.gateway.command('users', 'disable', 'carla')
        self.assertIn(client.rest(),
                      (b'no session disabled known 0\n', b'no session disabled exact 0\n'))
        self.assertEqual(self.refused(('login %s\n' % new).encode()), b'no login\n')
        self.gateway.command('users', 'enable', 'carla')
        with self.gateway.client(new) as again:
            self.assertTrue(again.ask('budget').startswith('ok budget '))

    def test_a_token_that_has_ended(self):
        old = self.gateway.add('dora', '--days', '5')
        self.assertRegex(self.gateway.command('users'), r'\ndora .* 20\d\d-\d\d-\d\dT')
        self.gateway.end_tokens()
        self.assertEqual(self.refused(('login %s\n' % old).encode()), b'no login expired\n')
        self.assertEqual(self.refused(b'login dora wrong\n'), b'no login\n')
        self.assertIn("reply='no login expired' untold=0 because='the token of dora ended at "
                      '2001-09-09T01:46:40Z; `spmat-gateway users renew dora` makes a new one',
                      self.gateway.said())
        new = 'dora ' + self.gateway.command('users', 'renew', 'dora', '--days', '0').strip()
        with self.gateway.client(new) as client:
            self.assertTrue(client.ask('budget').startswith('ok budget '))
        type(self).anna = 'anna ' + self.gateway.command('users', 'renew', 'anna').strip()
        ends = {user['name']: user['token_ends'] for user in self.gateway.table('users')}
        self.assertIsNone(ends['dora'])
        self.assertAlmostEqual(ends['anna'] - time.time(), 365 * 86_400, delta=600)
        self.assertIn('days is 0 to', self.gateway.command('users', 'renew', 'dora', '--days', '-1',
                                                           status=1))

    def test_refusals_fill_no_disk(self):
        before = self.gateway.said().count(' refused ')
        began = time.monotonic()
        for _ in range(60):
            self.assertEqual(self.refused(b'login anna wrong\n'), b'no login\n')
        seconds = time.monotonic() - began
        time.sleep(1.1)
        self.refused(b'login anna wrong\n')
        lines = [line for line in self.gateway.said().splitlines() if ' refused ' in line][before:]
        self.assertLessEqual(len(lines), 10 * (seconds + 4))
        told = len(lines) + sum(int(line.split('untold=')[1].split()[0]) for line in lines)
        self.assertGreaterEqual(told, 61)

    def test_who_says_nothing(self):
        began = time.monotonic()
        with self.gateway.client() as client:
            self.assertEqual(client.rest(), b'no login\n')
        self.assertLess(time.monotonic() - began, 10)

    def test_too_many_from_one_address(self):
        clients = [self.gateway.client() for _ in range(25)]
        closed = 0
        for client in clients[20:]:
            closed += client.rest() == b''
            client.close()
        self.assertEqual(closed, 5)
        for client in clients:
            client.close()
        until('there is room again', lambda: self.refused(b'login a b\n') == b'no login\n')

    def test_tokens_are_stored_as_hashes(self):
        token = self.anna.split()[1].encode()
        found = b''
        for name in os.listdir(self.gateway.state):
            with open(os.path.join(self.gateway.state, name), 'rb') as file:
                found += file.read()
            self.assertEqual(os.stat(os.path.join(self.gateway.state, name)).st_mode & 0o077, 0,
                             name)
        self.assertNotIn(token, found)
        self.assertNotIn(token.decode(), self.gateway.said())


@unittest.skipIf(os.geteuid(), 'wants root, to be other users')
class OfThisMachine(unittest.TestCase):
    """Users of this machine, whom the kernel names at a socket file."""

    def ask(self, path, user, commands=FIRST_SESSION):
        """What a user's process reads, by socat as sshd starts it."""
        return subprocess.run(['setpriv', '--reuid', user, '--clear-groups', 'socat', '-t60', '-',
                               'UNIX-CONNECT:' + path], input=commands, stdout=subprocess.PIPE,
                              stderr=subprocess.PIPE, check=False, timeout=60).stdout

    @unittest.skipUnless(shutil.which('socat'), 'no socat')
    def test_who_comes(self):
        with folder() as where:
            os.chmod(where, 0o755)
            path = os.path.join(where, 'local.sock')
            with Gateway(where, gateway_local=path) as gateway:
                os.chmod(gateway.state, 0o700)
                self.assertEqual(self.ask(path, 'daemon'), b'no login\n')
                self.assertIn('there is no user daemon', gateway.said())
                gateway.command('users', 'add', 'daemon')
                self.assertEqual(self.ask(path, 'daemon'), direct(FIRST_SESSION))
                until('it is settled', lambda: gateway.sessions()[0]['state'] == 'settled')
                (row,) = gateway.sessions()
                self.assertEqual((row['account'], row['address'], row['charged']),
                                 ('daemon', 'local', 3))
                # what others say of themselves isn't believed
                self.assertNotIn(b'ok', self.ask(path, 'games', b'login daemon x\nbudget\n'))
                gateway.command('users', 'add', '@institute')
                gateway.command('quota', '@institute', '--session-steps', '5')
                gateway.set(gateway_new_users='@institute')
                gateway.reload()
                self.assertEqual(self.ask(path, 'games', b'budget\nquit\n'),
                                 b'ok budget 5 0 0\nok quit\n')
                gateway.command('users', 'disable', '@institute')
                self.assertEqual(self.ask(path, 'games'), b'no login\n')
                gateway.kill()
                gateway.start()                    # its socket file takes the place of the last one
                self.assertEqual(self.ask(path, 'daemon'), direct(FIRST_SESSION))

    def test_another_file_stays(self):
        with folder() as where:
            path = os.path.join(where, 'notes')
            with open(path, 'w', encoding='ascii') as file:
                file.write('mine')
            gateway = Gateway(where, gateway_local=path)
            gateway.start(ready=False)
            self.assertEqual(gateway.process.wait(20), 1)
            with open(path, encoding='ascii') as file:
                self.assertEqual(file.read(), 'mine')


class Secrets(unittest.TestCase):
    """TLS, with tokens and with certificates."""

    def test_tls(self):
        with folder() as where:
            made = Certificates(where)
            pem, authority = made.make('localhost')
            anna, certificate = made.make('anna')
            boris, boris_certificate = made.make('boris')
            other, _ = made.make('other')
            both = os.path.join(where, 'clients.crt')
            with open(both, 'wb') as out:
                for path in (certificate, boris_certificate):
                    with open(path, 'rb') as file:
                        out.write(file.read())
            with Gateway(where, tls_certificate=pem, tls_clients=both) as gateway:
                self._check(gateway, authority, (anna, certificate), boris, other)

    def test_versions(self):
        """Of TLS 1.2 ciphers with fresh keys and tags alone, and `least` of the file counts."""
        with folder() as where:
            pem, authority = Certificates(where).make('localhost')
            with Gateway(where, tls_certificate=pem) as gateway:
                self.assertEqual(self._spoken(gateway, authority, 'ECDHE+AESGCM'), 'TLSv1.2')
                self.assertIsNone(self._spoken(gateway, authority, 'ECDHE+AES:!AESGCM:!AESCCM'))
                self.assertEqual(self._spoken(gateway, authority), 'TLSv1.3')
                gateway.set(tls_least='1.3')
                gateway.reload()
                self.assertIsNone(self._spoken(gateway, authority, 'ECDHE+AESGCM'))
                self.assertEqual(self._spoken(gateway, authority), 'TLSv1.3')

    @staticmethod
    def _spoken(gateway, authority, ciphers=''):
        """The version that is agreed on with a client, of TLS 1.2 where ciphers are given."""
        context = ssl.create_default_context(cafile=authority)
        if ciphers:
            context.maximum_version = ssl.TLSVersion.TLSv1_2
            context.set_ciphers(ciphers)
        with socket.create_connection(('127.0.0.1', gateway.port), 30) as connection:
            try:
                with context.wrap_socket(connection, server_hostname='localhost') as client:
                    return client.version()
            except OSError:
                return None

    def test_two_addresses(self):
        with folder() as where:
            with Gateway(where) as gateway:
                pass
            gateway.set(gateway_listen=['127.0.0.1:%d' % gateway.port, '[::1]:%d' % gateway.port])
            with gateway:
                anna = gateway.add('anna')
                for host in ('127.0.0.1', '::1'):
                    with Client(gateway.port, anna, host=host) as client:
                        self.assertEqual(client.ask('quit'), 'ok quit')

    def _check(self, gateway, authority, anna, boris, other):
        carla = gateway.add('carla')
        self.assertEqual(gateway.add('anna', '--certificate', anna[1]).strip(), 'anna')
        expected = direct(FIRST_SESSION)
        for login, pem in ((carla, ''), ('', anna[0])):
            with gateway.client(login, authority=authority, pem=pem) as client:
                client.send(FIRST_SESSION)
                self.assertEqual(client.rest(), expected)
        self.assertEqual([row['account'] for row in gateway.sessions()], ['anna', 'carla'])
        with gateway.client('', authority=authority, pem=boris) as client:
            # is trusted, and no user
            self.assertEqual(client.rest(), b'no login\n')
        with self.assertRaises(OSError):
            with gateway.client('', authority=authority, pem=other) as client:
                client.send(b'budget\n')
                self.assertEqual(client.rest(), b'')
                raise ConnectionResetError
        with Client(gateway.port) as client:       # speaks no TLS
            client.send(FIRST_SESSION)
            self.assertNotIn(b'ok', client.rest())
        commands = dense(150) + b'show A\n' * 2 + b'budget\nquit\n'
        with gateway.client(carla, authority=authority) as client:
            self.assertEqual(client.exchange(commands), direct(commands))
        self._check_gone(gateway, carla, authority)

    def _check_gone(self, gateway, carla, authority):
        """A client that is killed amid a batch: its engine ends soon."""
        client = gateway.client(carla, authority=authority)
        client.send(BUSY + b'run\n')
        until('the batch is there', lambda: any(row['queued'] for row in gateway.table('sessions')))
        process = gateway.table('sessions')[0]['process']
        time.sleep(0.2)
        client.close()
        until('the engine has ended', lambda: not is_running(process), 8)
        until('it is settled', lambda: gateway.sessions('carla')[0]['state'] == 'settled')
        self.assertEqual(gateway.sessions('carla')[0]['cause'], 'client-gone')


class Limits(WithGateway):
    """What an account may take, and that the client is told."""

    def test_quotas_of_steps(self):
        dora = self.gateway.add('dora')
        self.gateway.command('quota', 'dora', '--steps-in-all', '10', '--session-steps', '100')
        for left in (10, 7, 4, 1):
            with self.gateway.client(dora) as client:
                self.assertEqual(client.ask('budget'), 'ok budget %d 0 0' % left)
                client.send(FIRST_SESSION)
                self.assertEqual(b'no S8' in client.rest(), left < 3)
        self.gateway.command('quota', 'dora', '--steps-in-all', '9')
        with self.gateway.client(dora) as client:
            self.assertEqual(client.rest(), b'no quota steps-in-all\n')
        self.gateway.command('quota', 'dora', '--steps-in-all', '14', '--steps-a-day', '12')
        with self.gateway.client(dora) as client:
            self.assertEqual(client.ask('budget'), 'ok budget 3 0 0')
        self.gateway.command('quota', 'dora', '--steps-a-day', '9')
        with self.gateway.client(dora) as client:
            self.assertEqual(client.rest(), b'no quota steps-a-day\n')

    def test_a_group_shares_its_quota(self):
        self.gateway.command('users', 'add', '@lab')
        self.gateway.command('quota', '@lab', '--steps-in-all', '10', '--sessions', '2',
                             '--workers', '3')
        erik, fay = (self.gateway.add(name, '--group', '@lab') for name in ('erik', 'fay'))
        self.gateway.command('quota', 'erik', '--session-steps', '6')
        with self.gateway.client(erik) as one:
            self.assertEqual(one.ask('budget'), 'ok budget 5 0 0')
            with self.gateway.client(fay) as other:  # the last seat has all that is left
                self.assertEqual(other.ask('budget'), 'ok budget 5 0 0')
                with self.gateway.client(fay) as third:
                    self.assertEqual(third.rest(), b'no busy\n')
        until('both are settled',
              lambda: all(row['state'] == 'settled' for row in self.gateway.sessions('@lab')))
        self.assertEqual(self.gateway.command('ledger', '--check').strip(),
                         'all sums are those of the sessions')

    def test_seats_of_a_user(self):
        with self.gateway.client(self.anna) as client:
            client.ask('budget')
            self.gateway.command('quota', 'anna', '--sessions', '1')
            with self.gateway.client(self.anna) as second:
                self.assertEqual(second.rest(), b'no busy\n')
        self.gateway.command('quota', 'anna', '--sessions', 'default')
        self.last()

    def test_seconds(self):
        gus = self.gateway.add('gus')
        self.gateway.command('quota', 'gus', '--seconds', '2')
        with self.gateway.client(gus) as client:
            client.send(LINES + b'apply B inc A\nrun\n')
            self.assertEqual(client.rest(),
                             direct(LINES + b'apply B inc A\nrun\n')
                             + b'no session seconds known 3\n')
        self.assertEqual((self.last('gus')['charged'], self.last('gus')['basis']), (3, 'known'))

    def test_silence(self):
        hal = self.gateway.add('hal')
        self.gateway.command('quota', 'hal', '--idle', '1')
        with self.gateway.client(hal) as client:
            self.assertEqual(client.rest(), b'no session idle exact 0\n')

    def test_processor_time(self):
        ida = self.gateway.add('ida')
        self.gateway.command('quota', 'ida', '--processor', '2')
        with self.gateway.client(ida) as client:
            client.send(BUSY + b'run\n')
            self.assertIn(b'no session processor price %d\n' % PRICE_OF_BUSY, client.rest()[-60:])
        self.assertGreater(self.last('ida')['processor'], 1.4)

    @unittest.skipUnless(limits_memory(), 'a program with run-time checks wants all addresses')
    def test_memory(self):
        jo = self.gateway.add('jo')
        self.gateway.command('quota', 'jo', '--memory', str(1 << 28))
        empty = b'matrix A %d\n%s' % (
            66, b'%%MatrixMarket matrix coordinate integer general\n16777216 1 0\n'.ljust(
                66, b'\n'))
        with self.gateway.client(jo) as client:
            client.send(empty + empty.replace(b'matrix A', b'matrix B', 1) + b'quit\n')
            self.assertIn(b'no memory\n', client.rest())

    def test_the_end_by_command(self):
        kim = self.gateway.add('kim')
        with self.gateway.client(kim) as client:
            client.send(BUSY + b'run\n')
            until('the batch is there',
                  lambda: any(row['user'] == 'kim' and row['queued']
                              for row in self.gateway.table('sessions')))
            row = [row for row in self.gateway.table('sessions') if row['user'] == 'kim'][0]
            self.gateway.command('end', row['id'][:8])
            self.assertTrue(client.rest().endswith(b'no session ended price %d\n' % PRICE_OF_BUSY))
            self.assertFalse(is_running(row['process']))
        self.assertIn('no session', self.gateway.command('end', 'ffffffff', status=1))

    def test_a_reset_amid_a_batch(self):
        client = self.gateway.client(self.anna)
        client.send(BUSY + b'run\n')
        until('the batch is there',
              lambda: any(row['queued'] for row in self.gateway.table('sessions')))
        process = self.gateway.table('sessions')[0]['process']
        client.socket.setsockopt(socket.SOL_SOCKET, socket.SO_LINGER, struct.pack('ii', 1, 0))
        client.close()
        until('the engine has ended', lambda: not is_running(process), 8)
        self.assertEqual(self.last()['cause'], 'client-gone')


class Engines(unittest.TestCase):
    """Commands that start nothing, or another program."""

    def ended(self, command):
        with folder() as where, Gateway(where, command=command) as gateway:
            anna = gateway.add('anna')
            with gateway.client(anna) as client:
                client.send(b'budget\n')
                replies = client.rest()
            until('it is settled', lambda: gateway.sessions()[0]['state'] == 'settled')
            self.assertEqual(gateway.command('ledger', '--check').strip(),
                             'all sums are those of the sessions')
            return replies, gateway.sessions()[0], gateway.said()

    def test_no_such_program(self):
        replies, row, said = self.ended(['/no/such/program'])
        self.assertEqual((replies, row['cause'], row['charged']), (b'no engine\n', 'engine', 0))
        self.assertIn('/no/such/program', said)

    def test_a_program_that_fails(self):
        replies, row, said = self.ended(['sh', '-c', 'echo no such host >&2; exit 255'])
        self.assertEqual((replies, row['cause'], row['charged']),
                         (b'no session engine known 0\n', 'engine', 0))
        self.assertIn('no such host', said)

    def test_another_program(self):
        replies, row, said = self.ended(['sh', '-c', 'echo Welcome; exec cat'])
        self.assertEqual((replies, row['cause']), (b'', 'engine'))
        self.assertIn('another program', said)

    def test_a_command_without_the_log(self):
        command = [word for word in engine_command() if word not in ('--log', '--log-every', '1')]
        replies, row, said = self.ended(command)
        self.assertEqual((replies, row['cause'], row['charged']),
                         (b'no session engine known 0\n', 'engine', 0))
        self.assertIn('has no --log', said)

    def test_a_program_of_an_older_release(self):
        words = "error: unexpected argument '--log' found"
        replies, row, said = self.ended(['sh', '-c', 'echo "%s" >&2; exit 2' % words])
        self.assertEqual((replies, row['cause'], row['charged']),
                         (b'no session engine known 0\n', 'engine', 0))
        self.assertIn('the engine ended with status 2: ' + words, said)

    def test_numbers_beyond_all(self):
        """What an engine may say that was taken over: its account ends all the same."""
        most = '9' * 30
        _, row, _ = self.ended(['sh', '-c', 'echo "spmat: start untold=0" >&2; sleep 0.5; '
                                'echo "ok run %s %s"; exec cat >&2' % (most, most)])
        self.assertEqual((row['state'], row['charged']), ('settled', row['reserved']))

    def test_a_fault_while_it_runs(self):
        """Whatever goes wrong, a session is settled and its engine ended."""
        with folder() as where, socket.create_server(('127.0.0.1', 0)) as listener, \
                mock.patch('spmat_gateway.pipe.Pipe.run', side_effect=RuntimeError('a fault')):
            sessions = sessions_alone(where)
            sessions.ledger.beat()
            login = 'anna ' + sessions.ledger.accounts.add('anna')
            with Client(listener.getsockname()[1], login) as client:
                sessions.accept(*listener.accept())
                client.rest()
            (row,) = sessions.ledger.report()
            self.assertEqual((row['state'], row['cause'], sessions.journal.sessions()),
                             ('settled', 'ledger', []))
            sessions.ledger.database.close()

    def test_words_before_the_log(self):
        """What starts an engine elsewhere may write to standard error, too."""
        command = ['sh', '-c', 'echo "job 7 waits" >&2; sleep 0.3; exec "$@"', 'sh',
                   *engine_command()]
        with folder() as where, Gateway(where, command=command) as gateway:
            anna = gateway.add('anna')
            with gateway.client(anna) as client:
                self.assertEqual(client.exchange(FIRST_SESSION), direct(FIRST_SESSION))
            until('it is settled', lambda: gateway.sessions()[0]['state'] == 'settled')
            row = gateway.sessions()[0]
            self.assertEqual((row['charged'], row['basis'], row['cause']), (3, 'exact', 'end'))

    def test_an_engine_that_is_killed_is_charged_by_what_the_file_says(self):
        for unfinished, charged in (('price', 9), ('known', 3)):
            with self.subTest(unfinished), folder() as where, \
                    Gateway(where, gateway_unfinished=unfinished) as gateway:
                self.end_with_a_queue(gateway, unfinished, charged)

    def end_with_a_queue(self, gateway, basis, charged):
        with gateway.client(gateway.add('anna')) as client:
            client.send(LINES + b'apply B inc A\nrun\n')
            for _ in range(5):
                client.line()
            client.send(b'apply B inc A\napply B inc A\n')
            client.line()
            client.line()
            until('what is queued is told', lambda: gateway.table('sessions')[0]['queued'] == 6)
            gateway.command('end', gateway.table('sessions')[0]['id'])
            self.assertEqual(client.line(), 'no session ended %s %d' % (basis, charged))
        row = gateway.sessions()[0]
        self.assertEqual((row['charged'], row['basis'], row['jobs']), (charged, basis, 1))


class Ends(unittest.TestCase):
    """Drain, reload, and a gateway that is killed."""

    def test_drain(self):
        with folder() as where, Gateway(where, gateway_drain_seconds=2) as gateway:
            anna = gateway.add('anna')
            staying, leaving = gateway.client(anna), gateway.client(anna)
            for client in (staying, leaving):
                client.ask('budget')
            gateway.process.terminate()
            until('it isn\'t ready', lambda: gateway.get('/readyz')[0] == 503)
            with gateway.client(anna) as late:
                self.assertEqual(late.rest(), b'no busy\n')
            self.assertEqual(leaving.ask('quit'), 'ok quit')
            self.assertEqual(staying.rest(), b'no session drained known 0\n')
            self.assertEqual(gateway.process.wait(PATIENCE), 0)
            gateway.start()
            self.assertEqual([row['cause'] for row in gateway.sessions()].count('drained'), 1)

    def test_killed(self):
        with folder() as where, Gateway(where) as gateway:
            anna = gateway.add('anna')
            client = gateway.client(anna)
            client.send(LINES + b'apply B inc A\nrun\n')
            for _ in range(5):
                client.line()
            process = gateway.table('sessions')[0]['process']
            gateway.kill()
            self.assertEqual(client.rest(), b'')
            until('the engine has ended', lambda: not is_running(process), 5)
            gateway.start()
            row = gateway.sessions()[0]
            self.assertEqual((row['state'], row['charged'], row['basis'], row['cause']),
                             ('settled', 3, 'known', 'gateway-killed'))
            self.assertEqual(gateway.command('ledger', '--check').strip(),
                             'all sums are those of the sessions')

    def test_reload(self):
        with folder() as where, Gateway(where) as gateway:
            anna = gateway.add('anna')
            with gateway.client(anna) as client:
                client.ask('budget')
                gateway.set(limits_session_steps=77)
                gateway.reload()
                with gateway.client(anna) as other:
                    self.assertEqual(other.ask('budget'), 'ok budget 77 0 0')
                gateway.set(limits_session_steps='many')
                gateway.reload('not reloaded: %s: [limits] session-steps is a whole number'
                               % gateway.file)
                with gateway.client(anna) as other:
                    self.assertEqual(other.ask('budget'), 'ok budget 77 0 0')
                self.assertEqual(client.ask('budget'), 'ok budget 1000000000000 0 0')

    def test_two_gateways_in_one_folder(self):
        with folder() as where, Gateway(where) as gateway:
            other = Gateway(where, name='other')
            other.set(gateway_state=gateway.state)
            other.start(ready=False)
            self.assertEqual(other.process.wait(PATIENCE), 1)
            self.assertIn('another gateway uses', other.said())
            self.assertEqual(gateway.command('users').strip()[:4], 'name')


if __name__ == '__main__':
    unittest.main()
