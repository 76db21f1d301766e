"""The ledger on both databases: reservations, settlements, quotas; each call bears being
repeated."""
import contextlib
import random
import threading
import time
import unittest

from spmat_gateway.accounts import Unknown
from spmat_gateway.config import ConfigError, Limits
from spmat_gateway.database import Database, Unavailable
from spmat_gateway.ledger import Ledger, NoQuota, Outcome
from spmat_gateway.users import Login

from .support import Postgres, folder, needs_postgres

DEFAULTS = Limits(session_steps=100, sessions=3)


class OnSqlite(unittest.TestCase):
    """The same on PostgreSQL below."""

    @classmethod
    def setUpClass(cls):
        cls._folder = folder()
        cls.where = cls._folder.__enter__()
        cls.count = 0

    @classmethod
    def tearDownClass(cls):
        cls._folder.__exit__(None, None, None)

    def url(self):
        type(self).count += 1
        return '%s/%d.db' % (self.where, self.count)

    def setUp(self):
        self.address = self.url()
        self.ledger = self.open('one')
        self.ledger.prepare()

    def open(self, instance):
        database = Database(self.address)
        self.addCleanup(database.close)
        return Ledger(database, instance, instance)

    def account(self, name):
        return [account for account in self.ledger.accounts.all() if account.name == name][0]

    def sums(self, name):
        account = self.account(name)
        return account.spent, account.reserved, account.running

    def tearDown(self):
        self.assertEqual(self.ledger.faults(), [])

    def test_a_session(self):
        self.ledger.accounts.add('anna')
        self.assertEqual(self.ledger.reserve('a' * 32, 'anna', DEFAULTS).steps, 100)
        self.assertEqual(self.sums('anna'), (0, 100, 1))
        self.assertEqual(self.ledger.settle('a' * 32,
                                            Outcome(30, 'exact', 'end', job_count=2)), 30)
        self.assertEqual(self.sums('anna'), (30, 0, 0))
        (row,) = self.ledger.report('anna')
        self.assertEqual((row['charged'], row['basis'], row['jobs']), (30, 'exact', 2))

    def test_each_call_twice(self):
        self.ledger.accounts.add('anna')
        for _ in range(2):
            self.assertEqual(self.ledger.reserve('a' * 32, 'anna', DEFAULTS).steps, 100)
            self.assertEqual(self.sums('anna'), (0, 100, 1))
        self.assertEqual(self.ledger.settle('a' * 32, Outcome(30, 'exact', 'end')), 30)
        for spent in (30, 90):
            self.assertIsNone(self.ledger.settle('a' * 32, Outcome(spent, 'exact', 'end')))
        self.assertIsNone(self.ledger.settle('b' * 32, Outcome(30, 'exact', 'end')))
        self.assertEqual(self.sums('anna'), (30, 0, 0))

    def test_never_more_than_reserved_and_never_less_than_noted(self):
        self.ledger.accounts.add('anna')
        self.ledger.reserve('a' * 32, 'anna', DEFAULTS)
        self.assertEqual(self.ledger.settle('a' * 32, Outcome(5000, 'known', 'end')), 100)
        self.ledger.reserve('b' * 32, 'anna', DEFAULTS)
        self.ledger.note([(40, 1, 1, 'b' * 32)])
        self.assertEqual(self.ledger.settle('b' * 32, Outcome(0, 'known', 'gateway-killed')), 40)

    def test_quotas(self):
        accounts = self.ledger.accounts
        accounts.add('@lab')
        accounts.add('anna', '@lab')
        accounts.add('boris', '@lab')
        accounts.set_quotas('anna', {'steps_in_all': 150, 'workers': 8, 'memory': 1 << 30})
        accounts.set_quotas('@lab', {'steps_a_day': 220, 'workers': 2})
        first = self.ledger.reserve('a' * 32, 'anna', DEFAULTS)
        self.assertEqual((first.steps, first.bounds['workers'], first.bounds['memory']),
                         (100, 2, 1 << 30))
        self.assertEqual(self.ledger.reserve('b' * 32, 'anna', DEFAULTS).steps, 50)
        with self.assertRaises(NoQuota) as none:
            self.ledger.reserve('c' * 32, 'anna', DEFAULTS)
        self.assertEqual(none.exception.quota, 'steps_in_all')
        # of what the group has left a session takes half, or a seat's share
        self.assertEqual(self.ledger.reserve('d' * 32, 'boris', DEFAULTS).steps, 35)
        accounts.set_quotas('@lab', {'sessions': 4})
        self.assertEqual(self.ledger.reserve('e' * 32, 'boris', DEFAULTS).steps, 35)
        accounts.set_quotas('@lab', {'sessions': None})
        with self.assertRaises(NoQuota) as none:
            self.ledger.reserve('f' * 32, 'boris', DEFAULTS)
        self.assertEqual(none.exception.quota, 'steps_a_day')
        self.assertEqual(self.sums('@lab'), (0, 220, 4))
        self.ledger.settle('a' * 32, Outcome(10, 'exact', 'end'))
        self.assertEqual(self.ledger.reserve('f' * 32, 'boris', DEFAULTS).steps, 45)
        self.ledger.settle('d' * 32, Outcome(35, 'exact', 'end'))
        self.ledger.settle('f' * 32, Outcome(45, 'exact', 'end'))
        self.ledger.settle('e' * 32, Outcome(35, 'exact', 'end'))
        accounts.set_quotas('@lab', {'steps_a_day': 125})
        accounts.set_quotas('anna', {'steps_in_all': 1150})
        with self.assertRaises(NoQuota):
            self.ledger.reserve('c' * 32, 'anna', DEFAULTS)      # the group's day is used up
        with self.assertRaises(Unknown):
            accounts.join('anna', None)

    def test_a_new_day_refills(self):
        self.ledger.accounts.add('anna')
        self.ledger.accounts.set_quotas('anna', {'steps_a_day': 100})
        self.ledger.database.today = "'2026-01-01'"
        self.ledger.reserve('a' * 32, 'anna', DEFAULTS)
        with self.assertRaises(NoQuota):
            self.ledger.reserve('b' * 32, 'anna', DEFAULTS)
        self.ledger.database.today = "'2026-01-02'"
        self.assertEqual(self.ledger.reserve('b' * 32, 'anna', DEFAULTS).steps, 100)
        self.ledger.settle('a' * 32, Outcome(60, 'exact', 'end'))
        self.assertEqual(self.ledger.spent_today(), {'anna': (0, 100)})

    def test_seats_and_who_is_disabled(self):
        self.ledger.accounts.add('anna')
        for letter in 'abc':
            self.ledger.reserve(letter * 32, 'anna', DEFAULTS)
        with self.assertRaises(NoQuota) as none:
            self.ledger.reserve('d' * 32, 'anna', DEFAULTS)
        self.assertEqual(none.exception.quota, 'sessions')
        self.ledger.settle('a' * 32, Outcome(0, 'exact', 'end'))
        self.ledger.accounts.enable('anna', False)
        for name in ('anna', 'nobody'):
            with self.assertRaises(NoQuota) as none:
                self.ledger.reserve('d' * 32, name, DEFAULTS)
            self.assertEqual(none.exception.quota, 'enabled')

    def test_logins(self):
        accounts = self.ledger.accounts
        token = accounts.add('anna')
        accounts.add('boris', fingerprint='f' * 64)
        self.assertEqual(accounts.find(Login('anna', token)).name, 'anna')
        self.assertEqual(accounts.find(Login(fingerprint='f' * 64, is_proved=True)).name, 'boris')
        for login in (Login('anna', token + 'x'), Login('anna', ''), Login('boris', ''),
                      Login('nobody', token), Login(), Login(fingerprint='e' * 64, is_proved=True),
                      Login(fingerprint='f' * 64), Login(is_proved=True)):
            self.assertIsNone(accounts.find(login), login)
        with self.assertRaises(Unknown):
            accounts.add('carla', fingerprint='f' * 64)

    def test_a_token_that_ends(self):
        accounts = self.ledger.accounts
        token = accounts.add('anna', days=30)
        self.assertEqual(accounts.find(Login('anna', token)).name, 'anna')
        self.assertAlmostEqual(self.account('anna').token_ends - time.time(), 30 * 86_400, delta=60)
        self.ledger.database.transact(lambda t: t.run('UPDATE accounts SET token_ends = %s - 1'
                                                      % self.ledger.database.now))
        with self.assertRaises(NoQuota) as none:
            accounts.find(Login('anna', token))
        self.assertEqual(none.exception.quota, 'token')
        self.assertRegex(str(none.exception), r'ended at 20\S+Z; `spmat-gateway users renew anna`')
        self.assertIsNone(accounts.find(Login('anna', 'wrong')))  # who learns nothing of it
        again = accounts.renew('anna')
        self.assertIsNone(self.account('anna').token_ends)
        self.assertEqual(accounts.find(Login('anna', again)).name, 'anna')
        accounts.renew('anna', fingerprint='f' * 64, days=30)
        self.assertIsNone(self.account('anna').token_ends)  # a certificate has its own

    def test_names_that_are_proved(self):
        accounts = self.ledger.accounts
        accounts.add('@institute')
        proved = Login('anna', is_proved=True)
        self.assertIsNone(accounts.find(proved))
        self.assertEqual(accounts.find(proved, '@institute').parent, '@institute')
        self.assertIsNone(accounts.find(Login('boris', 'x'), '@institute'))
        self.assertIsNone(accounts.find(Login('anna', '')))  # there is no token that is right
        for name in ('', '@institute', '_apt-get@', 'Anna'):
            with self.subTest(name), contextlib.suppress(Unknown):
                self.assertIsNone(accounts.find(Login(name, is_proved=True), '@institute'))
        accounts.enable('anna', False)
        self.assertIsNone(accounts.find(proved, '@institute'))
        self.assertEqual([account.name for account in accounts.all()], ['@institute', 'anna'])

    def test_words_that_are_refused(self):
        accounts = self.ledger.accounts
        accounts.add('anna')
        for call in (lambda: accounts.add('anna'), lambda: accounts.add('-anna'),
                     lambda: accounts.add('Anna'), lambda: accounts.add(''),
                     lambda: accounts.add('a' * 33), lambda: accounts.add('b', '@none'),
                     lambda: accounts.add('@g', '@g'), lambda: accounts.renew('nobody'),
                     lambda: accounts.enable('nobody', True),
                     lambda: accounts.set_quotas('nobody', {'seconds': 5}),
                     lambda: accounts.join('anna', 'anna')):
            with self.assertRaises(Unknown):
                call()
        for number in (-1, 0, 65):
            with self.assertRaises(ConfigError):
                accounts.set_quotas('anna', {'workers': number})

    def test_a_gateway_that_is_gone_and_comes_back(self):
        other = self.open('two')
        self.ledger.accounts.add('anna')
        self.ledger.beat()
        other.beat()
        self.ledger.reserve('a' * 32, 'anna', DEFAULTS)
        self.ledger.note([(40, 1, 1, 'a' * 32)])
        self.assertEqual(other.settle_lost(60), 0)
        time.sleep(0.3)
        other.beat()
        self.assertEqual(other.settle_lost(0.2), 1)
        self.assertEqual(self.sums('anna'), (40, 0, 0))
        row = self.ledger.report()[0]
        self.assertEqual((row['state'], row['cause'], row['charged']),
                         ('presumed', 'gateway-lost', 40))
        self.assertIsNone(other.settle('a' * 32, Outcome(90, 'known', 'gateway-lost'),
                                       presume=True))
        self.assertEqual(self.ledger.settle('a' * 32, Outcome(55, 'exact', 'end')), 55)
        self.assertEqual(self.sums('anna'), (55, 0, 0))
        self.assertIsNone(self.ledger.settle('a' * 32, Outcome(70, 'exact', 'end')))

    def test_many_at_once(self):
        """Eight threads with a connection each reserve and settle by chance; the model beside says
        what is charged."""
        self.ledger.accounts.add('@lab')
        for name in ('anna', 'boris'):
            self.ledger.accounts.add(name, '@lab')
        self.ledger.accounts.set_quotas('@lab', {'steps_in_all': 4000, 'sessions': 6})
        charged, faults = {}, []

        def work(seed):
            ledger, draw = self.open('w%d' % seed), random.Random(seed)
            for number in range(15):
                session = '%032x' % (1000 * seed + number)
                try:
                    reservation = ledger.reserve(session, draw.choice(('anna', 'boris')), DEFAULTS)
                    spent = draw.randrange(reservation.steps + 1)
                    for _ in range(draw.choice((1, 1, 2))):
                        ledger.settle(session, Outcome(spent, 'exact', 'end'))
                    charged[session] = spent
                except NoQuota:
                    pass
                except Unavailable as fault:
                    faults.append(str(fault))
        threads = [threading.Thread(target=work, args=(seed,)) for seed in range(1, 9)]
        for thread in threads:
            thread.start()
        for thread in threads:
            thread.join()
        self.assertEqual(faults, [])
        self.assertEqual(self.sums('@lab'), (sum(charged.values()), 0, 0))
        self.assertLessEqual(sum(charged.values()), 4000)
        self.assertGreater(len(charged), 30)


@needs_postgres
class OnPostgres(OnSqlite):
    """A database of its own, and a new schema for each test."""

    @classmethod
    def setUpClass(cls):
        super().setUpClass()
        cls.postgres = Postgres(cls.where)

    @classmethod
    def tearDownClass(cls):
        cls.postgres.stop()
        super().tearDownClass()

    def url(self):
        type(self).count += 1
        name = 'test%d' % self.count
        database = Database(self.postgres.url)
        database.transact(lambda t: t.run('CREATE SCHEMA ' + name))
        database.close()
        return self.postgres.url + '?options=-csearch_path%3D' + name


if __name__ == '__main__':
    unittest.main()
