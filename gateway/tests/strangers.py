"""Untrusted users at a gateway: good clients, who compare each byte with the program's own, and
hostile ones; and who kills what.

A good client's session is one of a pool, whose replies by the program itself are known. Whatever is
killed, what it has read is the beginning of these replies, and perhaps a line `no session ..`
behind them. What the ledger has charged lies between the steps that the client has read and those
plus the price of what may have been run since. A session that was killed is charged what it had
told, which may be a batch less than what its client has read.
"""
import collections
import contextlib
import os
import random
import re
import signal
import socket
import struct
import threading
import time

from .support import LINES, OPERATORS, Client, dense, direct

STEPS = 10 ** 9
REFUSALS = (b'no busy', b'no ledger', b'no engine')  # the last where systemd takes too long
OPEN_FOR = 30.0
PRICES = re.compile(rb'^ok queued \d+ (\d+)\n', re.M)
SPENT = re.compile(rb'^(?:ok run \d+|no memory|no thread) (\d+)\n', re.M)


def make_scripts(many, seed, size=30):
    """Sessions by chance, as bytes, each with its replies."""
    draw, found = random.Random(seed), []
    for _ in range(many):
        side = draw.randrange(2, size)
        parts = [LINES, OPERATORS, dense(side, 'M')]
        for number in range(draw.randrange(1, 6)):
            jobs = [draw.choice((b'product X%d plus times M M\n', b'union X%d plus M M\n',
                                 b'apply X%d inc M\n', b'reduce X%d plus M\n',
                                 b'apply X%d inc A\n')) % place
                    for place in range(draw.randrange(1, 5))]
            parts += [*jobs, b'run\n',
                      draw.choice((b'show X0\n', b'budget\n', b'dis inc\n', b'nonsense\n',
                                   b'types plus\n'))]
            if number % 2:
                parts.append(b'matrix M 9\nnot that\n')
        script = b''.join(parts) + b'quit\n'
        found.append((script, direct(script, STEPS)))
    return found


class Report:
    """What untrusted users have seen."""

    def __init__(self):
        self.lock = threading.Lock()
        # who, the steps that it has read, those that may have been spent, its last line
        self.sessions = []
        self.whole = self.cut = self.told = self.hostile = self.bytes = self.down = 0
        self.refused = collections.Counter()       # by what they read
        self.faults = []
        self.began = time.monotonic()
        # of each minute the connections of good clients, and those that were served
        self.minutes = collections.defaultdict(lambda: [0, 0])

    def count(self, served):
        """A gateway has taken a good client's connection, and served it or didn't."""
        with self.lock:
            minute = self.minutes[int(time.monotonic() - self.began) // 60]
            minute[0] += 1
            minute[1] += served

    def shares(self):
        """Of the connections of each minute the part that was served."""
        return ['%.2f' % (served / tries) for _, (tries, served) in sorted(self.minutes.items())]

    def fault(self, words):
        with self.lock:
            self.faults.append(words)


def spent_by(replies):
    """The steps of the runs that replies tell of, also of those that were refused."""
    return sum(int(run[1]) for run in SPENT.finditer(replies))


class Good(threading.Thread):
    """Opens a session after another, from an address that no hostile client has."""

    def __init__(self, gateways, login, scripts, report, stop, seed, authority=''):
        super().__init__(daemon=True)
        self._gateways, self._login, self._scripts, self._report, self._stop_at = (
            gateways, login, scripts, report, stop)
        self._draw, self._authority = random.Random(seed), authority
        self._source = '127.77.0.%d' % (1 + seed % 250)

    def run(self):
        while not self._stop_at.is_set():
            try:
                self._session()
            except ConnectionRefusedError:         # the gateway is being started again
                with self._report.lock:
                    self._report.down += 1
                self._stop_at.wait(1.0)
            except OSError:
                self._report.count(False)
                self._stop_at.wait(1.0)

    def _session(self):
        script, expected = self._draw.choice(self._scripts)
        port = self._draw.choice(self._gateways)
        with Client(port, self._login, self._authority, source=self._source) as client:
            address = '%s:%d' % client.socket.getsockname()
            replies = client.exchange(script, OPEN_FOR)
        self._report.count(b'ok ' in replies)
        self._judge(address, expected, replies)
        if b'ok ' not in replies:
            self._stop_at.wait(1.0)

    def _judge(self, address, expected, replies):
        report, line = self._report, b''
        if not expected.startswith(replies):
            body, _, line = replies[:-1].rpartition(b'\n')
            body = body + b'\n' if body else b''
            known = line.startswith(b'no session ') or not body and line in REFUSALS
            if not known or not expected.startswith(body):
                report.fault('other bytes at %s: %r' % (address, replies[-200:]))
                return
            replies = body
        read, most = spent_by(replies), sum(int(one[1]) for one in PRICES.finditer(expected))
        with report.lock:
            report.bytes += len(replies)
            report.whole += replies == expected
            report.cut += replies != expected and not line
            report.told += line.startswith(b'no session')
            report.refused.update([line] * (line in REFUSALS))
            if replies or line.startswith(b'no session') or not line:
                client = (self._login.split()[0], address)
                report.sessions.append((client, read, read if replies == expected else most,
                                        line.decode()))


class Hostile(threading.Thread):
    """Does what nobody should, again and again."""

    def __init__(self, gateways, login, report, stop, seed, authority=''):
        super().__init__(daemon=True)
        self._gateways, self._login, self._report, self._stop_at = gateways, login, report, stop
        self._draw, self._authority = random.Random(seed), authority
        self._kinds = [self.garbage, self.wrong_token, self.silence, self.never_reads,
                       self.reset_amid_a_batch, self.takes_memory, self.many_connections,
                       self.long_login, self.half_tls, self.drips, self.odd_bodies, self.crowd,
                       self.logins]

    def run(self):
        while not self._stop_at.is_set():
            try:
                self._draw.choice(self._kinds)()
            except ConnectionRefusedError:         # as above
                self._stop_at.wait(0.5)
                continue
            except OSError:
                pass
            with self._report.lock:
                self._report.hostile += 1

    def _open(self, login=''):
        client = Client(self._draw.choice(self._gateways), login, authority=self._authority)
        client.socket.settimeout(3)
        return client

    def garbage(self):
        with self._open(self._draw.choice(('', self._login))) as client:
            client.send(os.urandom(self._draw.randrange(1, 200_000)))
            client.rest()

    def wrong_token(self):
        with self._open(self._login[:-1]) as client:
            client.send(b'budget\n')
            if b'ok' in client.rest():
                self._report.fault('a wrong token was taken')

    def silence(self):
        with self._open():
            self._stop_at.wait(1)

    def never_reads(self):
        with self._open(self._login) as client:
            client.socket.setsockopt(socket.SOL_SOCKET, socket.SO_RCVBUF, 2048)
            client.send(OPERATORS + dense(40) + b'show A\n' * 200)
            self._stop_at.wait(1)

    def reset_amid_a_batch(self):
        client = self._open(self._login)
        client.send(OPERATORS + dense(60) + b'product B plus times A A\n' * 20 + b'run\n')
        self._stop_at.wait(self._draw.random())
        client.socket.setsockopt(socket.SOL_SOCKET, socket.SO_LINGER, struct.pack('ii', 1, 0))
        client.close()

    def takes_memory(self):
        text = b'%%MatrixMarket matrix coordinate integer general\n16777216 1 0\n'
        with self._open(self._login) as client:
            for number in range(30):
                client.send(b'matrix Z%d %d\n%s' % (number, len(text), text))
            self._stop_at.wait(0.5)

    def many_connections(self):
        for _ in range(20):
            socket.create_connection(('127.0.0.1', self._draw.choice(self._gateways)),
                                     timeout=3).close()

    def crowd(self):
        """Many that say nothing, by an address of another network."""
        network = self._draw.randrange(1, 250)
        with contextlib.ExitStack() as stack:
            for host in range(1, 60):
                one = stack.enter_context(socket.socket())
                one.settimeout(3)
                one.bind(('127.0.%d.%d' % (network, 1 + host % 8), 0))
                one.connect(('127.0.0.1', self._draw.choice(self._gateways)))
            self._stop_at.wait(2)

    def logins(self):
        """Wrong tokens, one after another."""
        for _ in range(20):
            self.wrong_token()

    def long_login(self):
        with self._open() as client:
            client.send(b'login ' + b'a' * 100_000 + b'\n')
            client.rest()

    def half_tls(self):
        with socket.create_connection(('127.0.0.1', self._draw.choice(self._gateways)),
                                      timeout=3) as plain:
            plain.sendall(b'\x16\x03\x01\x02\x00' + os.urandom(self._draw.randrange(600)))
            self._stop_at.wait(0.5)

    def drips(self):
        with self._open(self._login) as client:
            client.send(b'matrix A 200000000\n')
            for _ in range(5):
                client.send(b' ')
                self._stop_at.wait(0.2)

    def odd_bodies(self):
        with self._open(self._login) as client:
            client.send(self._draw.choice((b'matrix A 99999999999\n', b'op f unary 8\nffffffff',
                                           b'asm f unary 4\nexit\nrun\nshow f\n', b'run\n' * 5000,
                                           b'apply A B C\n' * 5000)))
            client.rest()


class Killer(threading.Thread):
    """Kills an engine, a gateway or the database at random moments, and starts again what isn't
    started by itself. With `hangs` it holds a gateway or the database for some seconds, too; with
    `disks` it fills one of them, and with `clock`, a file, sets a gateway's clock by days."""

    def __init__(self, gateways, postgres, stop, seed, pause, hangs=False, disks=(), clock=''):
        super().__init__(daemon=True)
        self._gateways, self._postgres, self._stop_at = gateways, postgres, stop
        self._draw, self._pause = random.Random(seed), pause
        self._disks, self._clock = disks, clock
        self._kinds = ['engine', 'engine', 'gateway'] + (['database'] if postgres else [])
        if hangs:
            self._kinds += ['held gateway'] + (['held database'] if postgres else [])
        self._kinds += (['full disk'] if disks else []) + (['clock'] if clock else [])
        self.killed = dict.fromkeys(self._kinds, 0)
        self.faults = []

    def run(self):
        while not self._stop_at.wait(self._pause * (0.3 + self._draw.random())):
            kind = self._draw.choice(self._kinds)
            try:
                if self._kill(kind):
                    self.killed[kind] += 1
            except Exception as fault:  # pylint: disable=broad-exception-caught
                # the test looks at it
                self.faults.append('%s: %r' % (kind, fault))

    def _kill(self, kind):
        gateway = self._draw.choice(self._gateways)
        if kind == 'engine':
            running = [row for row in gateway.table('sessions') if row['process']]
            if running:
                with contextlib.suppress(ProcessLookupError):
                    os.kill(self._draw.choice(running)['process'], signal.SIGKILL)
            return bool(running)
        if kind == 'gateway':
            gateway.kill()
            gateway.start()
        elif kind == 'held gateway':
            gateway.process.send_signal(signal.SIGSTOP)
            time.sleep(6 * self._draw.random())
            gateway.process.send_signal(signal.SIGCONT)
        elif kind == 'held database':
            self._postgres.signal(signal.SIGSTOP)
            time.sleep(12 * self._draw.random())
            self._postgres.signal(signal.SIGCONT)
        elif kind == 'full disk':
            with self._draw.choice(self._disks).full():
                time.sleep(6 * self._draw.random())
            if self._postgres:                     # which ends where it can't write its log
                self._postgres.start_if_down()
        elif kind == 'clock':
            with open(self._clock, 'w', encoding='ascii') as file:
                file.write('%d' % (3600 * self._draw.randrange(-72, 73)))
        else:
            self._postgres.kill()
            time.sleep(self._draw.random())
            self._postgres.start()
        return True


def compare(report, rows):
    """What the ledger has charged, beside what the clients have read; the faults.

    A port may serve a client twice. Of two connections by one port, one that has read nothing may
    have been cut before it reserved anything, and then the other's session isn't its own.
    """
    found, by_client = list(report.faults), {}
    for row in rows:
        by_client.setdefault((row['account'], row['address']), []).append(row)
    connections = collections.Counter(client for client, *_ in report.sessions)
    for client, read, most, line in report.sessions:
        candidates = by_client.get(client, [])
        if not read and not line and len(candidates) < connections[client]:
            continue
        if not candidates and read:
            found.append('%s has read %d steps, and is in no ledger' % (client, read))
        elif candidates and not any(is_right(row, read, most, line) for row in candidates):
            found.append('%s has read %d steps, of %d at most, and %r; the ledger has %r'
                         % (client, read, most, line, candidates))
    return found


def is_right(row, read, most, line):
    """Whether a session of the ledger is one of which a client has read so much, and this line at
    its end."""
    told = line.split()[3:]
    return (read <= row['charged'] <= most
            and (not told or told == [row['basis'], str(row['charged'])]
                 or row['state'] != 'settled'))
