"""Nothing is lost and nothing charged twice where an engine, a gateway or the database is killed at
any moment."""
import os
import threading
import unittest

from . import strangers
from .support import Gateway, Postgres, folder, needs_postgres, until

SECONDS = float(os.environ.get('SPMAT_KILL_SECONDS', '20'))
SEED = int(os.environ.get('SPMAT_KILL_SEED', '1'))


class Kills(unittest.TestCase):
    def attack(self, gateways, postgres=None):
        report, stop, scripts = strangers.Report(), threading.Event(), strangers.make_scripts(
            12, SEED, 14)
        ports, logins = [gateway.port for gateway in gateways], [gateways[0].add('user%d' % number)
                                                                 for number in range(5)]
        threads = [strangers.Good(ports, login, scripts, report, stop, SEED + number)
                   for number, login in enumerate(logins)]
        killer = strangers.Killer(gateways, postgres, stop, SEED, 1.0)
        for thread in [*threads, killer]:
            thread.start()
        stop.wait(SECONDS)
        stop.set()
        for thread in [*threads, killer]:
            thread.join(60)
        self.assertEqual(killer.faults, [])
        for gateway in gateways:
            until('it is ready', gateway.is_ready)
        self.settled(gateways[0])
        rows = gateways[0].sessions()
        self.assertEqual(strangers.compare(report, rows), [])
        # a database that is killed may have settled a session and not said so: its gateway asks again
        until('none waits for the ledger', lambda: all(
            gateway.measure('sessions_unsettled') == 0 for gateway in gateways))
        self.assertIn('all sums', gateways[0].command('ledger', '--check'))
        spent = {user['name']: user['spent'] for user in gateways[0].table('users')}
        for name, steps in spent.items():
            self.assertEqual(steps, sum(row['charged'] for row in rows if row['account'] == name))
        self.assertGreater(report.whole, 5)
        print('kills: %d sessions in the ledger, %d read whole, %d cut, %d told, turned away %s, '
              '%s, %d steps' % (len(rows), report.whole, report.cut, report.told,
                                dict(report.refused), killer.killed, sum(spent.values())))

    def settled(self, gateway):
        until('all is settled', lambda: all(row['state'] != 'open' for row in gateway.sessions()))

    def test_sqlite(self):
        with folder() as where, Gateway(where, limits_session_steps=strangers.STEPS,
                                        limits_sessions=50) as gateway:
            self.attack([gateway])

    @needs_postgres
    def test_postgresql(self):
        """Two gateways share the database."""
        with folder() as where:
            postgres = Postgres(where)
            try:
                keys = {'limits_session_steps': strangers.STEPS, 'limits_sessions': 50,
                        'gateway_ledger': postgres.url,
                        'gateway_lease_seconds': 20}
                with Gateway(where, 'one', **keys) as one, Gateway(where, 'two', **keys) as two:
                    self.attack([one, two], postgres)
            finally:
                postgres.stop()


if __name__ == '__main__':
    unittest.main()
