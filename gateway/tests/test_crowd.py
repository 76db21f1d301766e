"""Nobody keeps the others out: neither a user who wants all seats, nor who connects without a login,
nor who reaches the page."""
import contextlib
import gc
import os
import socket
import ssl
import struct
import threading
import time
import unittest
import weakref
from unittest import mock

from spmat_gateway import gate
from spmat_gateway.gate import Gate
from spmat_gateway.pipe import Pipe
from spmat_gateway.tables import short

from .support import Certificates, Client, Gateway, folder, sessions_alone, until
from .test_sessions import WithGateway


def served(gateway, login, times=10):
    """How often a user is served who connects again and again."""
    count = 0
    for _ in range(times):
        with contextlib.suppress(OSError), gateway.client(login) as client:
            count += client.ask('budget').startswith('ok budget')
            client.ask('quit')
            client.rest()
    return count


class Seats(WithGateway):
    """Seats of users who are known."""
    keys = {'gateway_seats': 4, 'limits_sessions': 2}

    def test_who_has_used_up_a_quota_takes_no_seat(self):
        mallory = self.gateway.add('mallory')
        held = [self.gateway.client(mallory) for _ in range(2)]
        for client in held:
            client.ask('budget')
        # each reads its `no busy`, and then stays
        refused = [self.gateway.client(mallory) for _ in range(8)]
        for client in refused:
            self.assertEqual(client.line(), 'no busy')
        self.assertEqual(self.gateway.measure('sessions_running'), 2)
        self.assertEqual(served(self.gateway, self.anna), 10)
        for client in held + refused:
            client.close()

    def test_a_quota_is_looked_at_before_a_seat(self):
        """Who has nothing left reads so, also where all seats are taken."""
        lea, max_, nora = (self.gateway.add(name) for name in ('lea', 'max', 'nora'))
        self.gateway.command('quota', 'nora', '--steps-in-all', '0')
        held = []
        # one by one, since the last seat is given to nobody who has one
        for login in (lea, lea, max_, self.anna):
            held.append(self.gateway.client(login))
            self.assertRegex(held[-1].ask('budget'), '^ok budget', login)
        with self.gateway.client(nora) as client:
            self.assertEqual(client.rest(), b'no quota steps-in-all\n')
        for client in held:
            client.close()
        until('the seats are free', lambda: not self.gateway.table('sessions'))

    def test_a_seat_is_kept_for_who_has_none(self):
        logins = [self.gateway.add(name) for name in ('boris', 'carla', 'dora')]
        clients = []
        for login, replies in zip(logins, (('ok', 'ok'), ('ok', 'no'), ('ok',))):
            for reply in replies:
                clients.append(self.gateway.client(login))
                self.assertEqual(clients[-1].ask('budget')[:2], reply, login)
        for client in clients:
            client.close()
        until('the seats are free', lambda: not self.gateway.table('sessions'))

    def test_who_quits_has_a_seat_again_at_once(self):
        erik = self.gateway.add('erik')
        self.gateway.command('quota', 'erik', '--sessions', '1')
        for number in range(20):
            client = self.gateway.client(erik)
            self.assertTrue(client.ask('budget').startswith('ok budget'), number)
            if number % 2:
                client.ask('quit')
            client.close()

    def test_sessions_an_hour(self):
        self.gateway.command('users', 'add', '@lab')
        fay, gus = (self.gateway.add(name, '--group', '@lab') for name in ('fay', 'gus'))
        self.gateway.command('quota', 'fay', '--sessions-an-hour', '3')
        self.gateway.command('quota', '@lab', '--sessions-an-hour', '5')
        self.assertEqual([served(self.gateway, login, 5) for login in (fay, gus)], [3, 2])
        with self.gateway.client(gus) as client:
            self.assertEqual(client.rest(), b'no quota sessions-an-hour\n')


class BeforeTheLogin(unittest.TestCase):
    """Connections of nobody."""

    def test_who_says_nothing_keeps_nobody_out(self):
        with folder() as where, Gateway(where, gateway_login_seconds=2) as gateway:
            anna, stop = gateway.add('anna'), threading.Event()

            def silence(address):
                while not stop.is_set():
                    with contextlib.suppress(OSError), socket.socket() as one:
                        one.settimeout(15)
                        one.bind((address, 0))
                        one.connect(('127.0.0.1', gateway.port))
                        one.recv(100)
                    stop.wait(0.02)
            threads = [threading.Thread(target=silence, args=('127.0.0.%d' % (2 + number // 34),),
                                        daemon=True) for number in range(68)]
            for thread in threads:
                thread.start()
            try:
                until('they wait', lambda: gateway.said().count('dropped connections='))
                for _ in range(3):                 # also while they come again
                    self.assertEqual(served(gateway, anna), 10)
                    time.sleep(1)
                self.assertRegex(gateway.said(), r'dropped connections=\d+ waiting=\d+ '
                                 r'most=127\.0\.0\.0/24:\d+')
                self.assertLessEqual(gateway.said().count('dropped connections='), 2)
            finally:
                stop.set()

    def test_one_time_for_all_before_the_login(self):
        with folder() as where:
            pem, authority = Certificates(where).make('localhost')
            with Gateway(where, tls_certificate=pem, gateway_login_seconds=4) as gateway:
                began = time.monotonic()
                plain = socket.create_connection(('127.0.0.1', gateway.port))
                time.sleep(3.5)
                client = ssl.create_default_context(cafile=authority).wrap_socket(
                    plain, server_hostname='localhost')
                with contextlib.suppress(OSError):
                    for _ in range(20):            # a byte, and another one
                        client.send(b'l')
                        time.sleep(0.3)
                until('the place is free', lambda: 'connections_waiting 0.0'
                      in gateway.get('/metrics')[1])
                self.assertLess(time.monotonic() - began, 7.5)
                client.close()

    def test_networks(self):
        """A network's many connections are dropped before those of others, and addresses that are
        to blame once many wait."""
        many, dropped = Gate(), 0
        for number in range(300):
            dropped += many.take('10.0.0.%d' % (number % 250), 32) is None
        self.assertTrue(100 < dropped < 236, dropped)
        self.assertLessEqual(many.count, gate.FULL // 2)
        self.assertEqual(sum(many.take('10.1.%d.1' % number, 32) is None
                             for number in range(5)), 0)
        blamed = Gate()
        for number in range(1, 41):                # each without a login
            blamed.take('2001:db8:1:2::%x' % number, 32).leave()
        places = [blamed.take('192.0.2.%d' % number, 32) for number in range(gate.CROWDED)]
        self.assertTrue(all(places))
        self.assertIsNone(blamed.take('2001:db8:1:2::99', 32))
        self.assertIsNotNone(blamed.take('2001:db8:1:3::1', 32))
        for place in places:
            place.enter()                          # a login, and there is no crowd any more
        self.assertIsNotNone(blamed.take('2001:db8:1:2::99', 32))
        self.assertEqual(blamed.count, 2)

    def test_a_balancer_names_its_client(self):
        with folder() as where, Gateway(where, gateway_proxies=['127.0.0.0/8'],
                                        gateway_per_address=2) as gateway:
            anna = gateway.add('anna')
            clients = [self.proxied(gateway, anna, '203.0.113.%d' % host) for host in (7, 7, 8)]
            for client in clients:
                self.assertTrue(client.ask('budget').startswith('ok budget'))
            self.assertEqual(sorted(row['address'] for row in gateway.table('sessions')),
                             ['203.0.113.7:4711', '203.0.113.7:4711', '203.0.113.8:4711'])
            with self.proxied(gateway, anna, '203.0.113.7') as third:
                self.assertEqual(third.rest(), b'')
            with self.proxied(gateway, anna, '2001:db8::1') as sixth:
                self.assertTrue(sixth.ask('budget').startswith('ok budget'))
            with gateway.client(anna) as other:    # which names nobody
                other.send(b'budget\n' * 10)
                self.assertEqual(other.rest(), b'')
            self.assertIn('no PROXY', gateway.said())
            for client in clients:
                client.close()

    @staticmethod
    def proxied(gateway, login, address):
        client = gateway.client()
        family = socket.AF_INET6 if ':' in address else socket.AF_INET
        own = socket.inet_pton(family, address)
        body = own + own + struct.pack('>HH', 4711, 7173) + b'\x03\x00\x01x'
        client.send(gate.SIGNATURE + struct.pack('>BBH', 0x21, 0x21 if ':' in address else 0x11,
                                                 len(body)) + body)
        client.send(('login %s\n' % login).encode())
        return client


class PageOfStrangers(WithGateway):
    """What anybody can do who reaches the page's port."""

    def test_silent_connections_leave_descriptors(self):
        held = []
        process = self.gateway.process.pid

        def descriptors():
            return len(os.listdir('/proc/%d/fd' % process))
        before = descriptors()
        for _ in range(200):
            held.append(socket.create_connection(('127.0.0.1', self.gateway.page)))
        time.sleep(0.5)
        self.assertLess(descriptors(), before + 100)
        self.assertEqual(served(self.gateway, self.anna, 3), 3)
        for one in held:
            one.close()
        until('it answers again', lambda: self.status() == 200)

    def status(self, **headers):
        with contextlib.suppress(OSError, Exception):
            return self.gateway.get('/', headers=headers)[0]

    def test_the_log_stays_small(self):
        size = os.path.getsize(self.gateway.log)
        for _ in range(100):
            with contextlib.suppress(OSError), socket.create_connection(
                    ('127.0.0.1', self.gateway.page), timeout=2) as one:
                one.sendall(b'\x00' * 100 + b'\r\n\r\n')
                one.recv(10)
        self.assertLess(os.path.getsize(self.gateway.log) - size, 1000)

    def test_no_name_of_others(self):
        for host, status in (('evil.example', 403), ('evil.example:9173', 403),
                             ('127.0.0.1:%d' % self.gateway.page, 200), ('localhost:1', 200),
                             ('gateway:9173', 200), ('[::1]:9173', 200)):
            with self.subTest(host=host):
                self.assertEqual(self.status(Host=host), status)
        self.assertEqual(self.gateway.get('/metrics', headers={'Host': 'evil.example'})[0], 403)
        self.assertEqual(self.gateway.get('/readyz', headers={'Host': 'lb.example'})[0], 200)

    def test_numbers(self):
        for number, shown in ((999_997, '1 M'), (999_499, '999 k'), (999, '999'), (1_000, '1 k'),
                              (999_999_999_999, '1 T'), (1_250_000, '1.25 M'), (0, '0')):
            self.assertEqual(short(number), shown)

    def test_another_file_stays(self):
        with folder() as where:
            path = os.path.join(where, 'notes')
            with open(path, 'w', encoding='ascii') as file:
                file.write('mine')
            gateway = Gateway(where, gateway_admin=path)
            gateway.start(ready=False)
            self.assertEqual(gateway.process.wait(20), 1)
            self.assertIn('already in use', gateway.said())
            with open(path, encoding='ascii') as file:
                self.assertEqual(file.read(), 'mine')


class Memory(WithGateway):
    """Nothing of a session stays."""

    def test_many_sessions(self):
        before = self.resident()
        self.assertEqual(served(self.gateway, self.anna, 100), 100)
        self.assertLess(self.resident() - before, 20_000)

    def test_buffers_wait_for_no_collector(self):
        """A session and its pipe name each other, and the collector counts no bytes."""
        pipes = []

        class Watched(Pipe):
            """A pipe that is known here."""
            def __init__(self, *words):
                super().__init__(*words)
                pipes.append(weakref.ref(self))
        with folder() as where, mock.patch('spmat_gateway.sessions.Pipe', Watched), \
                socket.create_server(('127.0.0.1', 0)) as listener:
            sessions = sessions_alone(where)
            sessions.ledger.beat()
            login = 'anna ' + sessions.ledger.accounts.add('anna')
            gc.disable()
            self.addCleanup(gc.enable)
            with Client(listener.getsockname()[1], login) as client:
                before = threading.active_count()
                sessions.accept(*listener.accept())
                self.assertEqual(client.ask('quit'), 'ok quit')
                client.rest()
            until('its thread has ended', lambda: threading.active_count() == before)
            self.assertEqual([pipe() for pipe in pipes], [None])

    def resident(self):
        with open('/proc/%d/status' % self.gateway.process.pid, encoding='ascii') as file:
            return int(file.read().partition('VmRSS:')[2].split()[0])


if __name__ == '__main__':
    unittest.main()
