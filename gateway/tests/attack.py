"""Untrusted users for a long time: eight good and four hostile clients over TLS. Meanwhile engines,
gateways and the database are killed and held, disks are full and clocks jump. At two gateways that
share PostgreSQL, and at one on SQLite.

`tests/gateway --attack MINUTES` runs it, and `tests/packages --attack MINUTES` in a booted root.
"""
import collections
import contextlib
import os
import signal
import threading
import unittest

from . import booted, strangers
from .support import Certificates, Gateway, Postgres, folder, make_clock, needs_postgres, until

SECONDS = float(os.environ.get('SPMAT_ATTACK_SECONDS', '60'))
SEED = int(os.environ.get('SPMAT_ATTACK_SEED', '3'))
GOOD, HOSTILE = 8, 4
UNITS = bool(os.environ.get('SPMAT_ATTACK_UNITS'))  # the package's, in a booted root
KIND = booted.Unit if UNITS else Gateway
CLOCK = '/usr/local/lib/spmat-clock.so'            # made of clock.c by tests/packages
NAMES = ('spmat-gateway', 'spmat-gateway-two')


class Watch(threading.Thread):
    """Looks each second at memory and descriptors of gateways: at first, at most, in the end."""

    def __init__(self, gateways, stop):
        super().__init__(daemon=True)
        self._gateways, self._stop_at = gateways, stop
        self.first, self.most = self.look(), [0, 0, 0]

    def run(self):
        while not self._stop_at.wait(1.0):
            self.most = list(map(max, self.most, self.look()))

    def look(self):
        """The largest resident memory in MB, descriptors and threads of a gateway."""
        found = [0, 0, 0]
        for gateway in self._gateways:
            with contextlib.suppress(OSError, IndexError):
                path = '/proc/%d/' % gateway.process.pid
                with open(path + 'status', encoding='ascii') as file:
                    text = file.read()
                found = list(map(max, found, [
                    int(text.partition('VmRSS:')[2].split()[0]) >> 10,
                    len(os.listdir(path + 'fd')), int(text.partition('Threads:')[2].split()[0])]))
        return found


def state_of(where, name):
    """The folder of a gateway's ledger and journal."""
    return os.path.join('/var/lib' if UNITS else where, name)


class Attack(unittest.TestCase):
    @contextlib.contextmanager
    def scene(self, *names):
        """A folder, and the disks of it and of gateways of these names. By root they are small."""
        with folder() as where, contextlib.ExitStack() as stack:
            paths = [where, *(state_of(where, name) for name in names)]
            disks = [booted.Disk(path, 512 if path == where else 64)
                     for path in paths if os.geteuid() == 0]
            for disk in disks:
                stack.callback(disk.close)
            yield where, disks

    def gateways(self, where, names, **keys):
        """Gateways, and the file of the first one's clock."""
        pem, self.authority = Certificates(where).make('localhost')
        found = [KIND(where, name, **{
            'limits_session_steps': strangers.STEPS, 'limits_sessions': 20, 'limits_seconds': 20,
            'limits_idle': 5, 'limits_sessions_an_hour': 1_000_000, 'gateway_lease_seconds': 30,
            'gateway_per_address': 200, 'gateway_login_seconds': 15,  # more than it is held
            'tls_certificate': pem, **keys}) for name in names]
        clock, library = ('/run/clock', CLOCK) if UNITS else (where + '/clock', where + '/clock.so')
        if not (os.path.exists(library) if UNITS else make_clock(library)):
            return found, ''
        with open(clock, 'w', encoding='ascii') as file:
            file.write('0')
        found[0].set_clock_by(clock, library)
        return found, clock

    @needs_postgres
    def test_two_gateways_on_postgresql(self):
        with self.scene(*NAMES) as (where, disks):
            postgres = Postgres(where)
            try:
                (one, two), clock = self.gateways(where, NAMES, gateway_ledger=postgres.url)
                with one, two:
                    self.attack([one, two], postgres, disks, clock)
            finally:
                postgres.signal(signal.SIGCONT)
                postgres.stop()

    def test_one_gateway_on_sqlite(self):
        with self.scene(NAMES[0]) as (where, disks):
            (one,), clock = self.gateways(where, NAMES[:1])
            with one:
                self.attack([one], None, disks[1:], clock)

    def attack(self, gateways, postgres, disks, clock):
        report, stop, scripts = strangers.Report(), threading.Event(), strangers.make_scripts(
            40, SEED)
        ports, one = [gateway.port for gateway in gateways], gateways[0]
        kinds = [(strangers.Good, one.add('good%d' % number), (scripts, report))
                 for number in range(GOOD)]
        kinds += [(strangers.Hostile, one.add('bad%d' % number), (report,))
                  for number in range(HOSTILE)]
        threads = [kind(ports, login, *more, stop, SEED + number, self.authority)
                   for number, (kind, login, more) in enumerate(kinds)]
        killer = strangers.Killer(gateways, postgres, stop, SEED, 8.0, True, disks, clock)
        watch = Watch(gateways, stop)
        for thread in [*threads, killer, watch]:
            thread.start()
        stop.wait(SECONDS)
        stop.set()
        for thread in [*threads, killer]:
            thread.join(60)
        for gateway in gateways:
            until('it is ready', gateway.is_ready)
        until('all is settled', lambda: all(row['state'] != 'open' for row in one.sessions()))
        rows = one.sessions()
        faults = strangers.compare(report, rows)
        spent = {user['name']: user['spent'] for user in one.table('users')}
        charged = collections.Counter()
        for row in rows:
            charged[row['account']] += row['charged']
        off = [name for name in spent if spent[name] != charged[name]]
        print('attack: %d s, %d sessions in the ledger, %d good ones read whole (%d bytes '
              'compared), %d cut, %d told, turned away %s, %d found no gateway, %d hostile acts, '
              'killed and held %s, charged %d steps, accounts off %d, faults %d; good ones served, '
              'by minutes: %s; MB, descriptors, threads: %s before, %s at most, %s after' % (
                  SECONDS, len(rows), report.whole, report.bytes, report.cut, report.told,
                  dict(report.refused), report.down, report.hostile, killer.killed,
                  sum(charged.values()), len(off), len(faults), ' '.join(report.shares()),
                  watch.first, watch.most, watch.look()), flush=True)
        self.assertEqual([words[-2_000:] for words in killer.faults + faults], [])
        self.assertEqual(off, [])
        self.assertIn('all sums', one.command('ledger', '--check'))
        until('none waits for the ledger', lambda: all(
            gateway.measure('sessions_unsettled') == 0 for gateway in gateways))


if __name__ == '__main__':
    unittest.main()
