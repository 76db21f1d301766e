"""What happens to the ledger as a database: it hangs, grows, is restored, and is of another
release; and what several gateways tell each other by it."""
import contextlib
import os
import resource
import signal
import socket
import sqlite3
import threading
import time
import unittest
from unittest import mock

from spmat_gateway import ledger as ledger_module, users
from spmat_gateway.config import ConfigError
from spmat_gateway.database import Database, Refused, Unavailable
from spmat_gateway.journal import RECORD, Journal
from spmat_gateway.ledger import TABLES, Ledger, Outcome
from spmat_gateway.users import Login

from .support import LINES, Gateway, Postgres, folder, needs_postgres, sessions_alone, until
from .test_crowd import served
from .test_ledger import DEFAULTS, OnPostgres, OnSqlite
from .test_sessions import is_running

LEASE = 12


class Blocked(threading.Thread):
    """A port that leads to another one, and holds all bytes while `is_open` isn't set."""

    def __init__(self, port):
        super().__init__(daemon=True)
        self._to, self._listener = port, socket.create_server(('127.0.0.1', 0))
        self.port, self.is_open = self._listener.getsockname()[1], threading.Event()

    def __enter__(self):
        self.is_open.set()
        self.start()
        return self

    def __exit__(self, *_):
        self.is_open.set()
        self._listener.close()

    def run(self):
        with contextlib.suppress(OSError):
            while True:
                near, _ = self._listener.accept()
                far = socket.create_connection(('127.0.0.1', self._to))
                for pair in ((near, far), (far, near)):
                    threading.Thread(target=self._copy, args=pair, daemon=True).start()

    def _copy(self, source, target):
        with contextlib.suppress(OSError), source:
            while True:
                piece = source.recv(1 << 16)
                self.is_open.wait()
                if not piece:
                    break
                target.sendall(piece)
            target.shutdown(socket.SHUT_WR)


@needs_postgres
class Shared(unittest.TestCase):
    """Gateways that share a PostgreSQL."""

    @contextlib.contextmanager
    def gateways(self, *names, **keys):
        with folder() as where, contextlib.ExitStack() as stack:
            postgres = Postgres(where)
            stack.callback(postgres.stop)
            stack.callback(postgres.signal, signal.SIGCONT)
            yield (postgres, *[stack.enter_context(Gateway(
                where, name, gateway_ledger=postgres.url, **keys)) for name in names])

    def test_a_database_that_hangs_is_down(self):
        with self.gateways('one', gateway_lease_seconds=LEASE,
                           gateway_drain_seconds=1) as (postgres, one):
            anna = one.add('anna')
            client = one.client(anna)
            client.send(LINES + b'apply B inc A\nrun\n')
            for _ in range(5):
                client.line()
            process = one.table('sessions')[0]['process']
            time.sleep(1.5)                        # until it is noted
            postgres.signal(signal.SIGSTOP)
            began = time.monotonic()
            until('it says so', lambda: one.get('/readyz')[0] == 503, 7)
            until('the log has it', lambda: "doesn't answer: no answer for" in one.said(), 2)
            with one.client(anna) as late:
                self.assertEqual(late.rest(), b'no ledger\n')
            self.assertLess(time.monotonic() - began, 9)
            self.assertEqual(client.rest(), b'no session ledger known 3\n')
            until('the engine has ended', lambda: not is_running(process), LEASE)
            self.assertLess(time.monotonic() - began, LEASE)
            self.assertIn("the ledger doesn't answer", one.said())
            self.assertIn('spmat_gateway_ledger_up 0.0', one.get('/metrics')[1])
            postgres.signal(signal.SIGCONT)
            until('it serves again', one.is_ready, 20)
            until('it is settled', lambda: one.sessions()[0]['state'] == 'settled')
            self.assertEqual((served(one, anna, 3), one.sessions()[-1]['charged']), (3, 3))
            self.assertIn('all sums', one.command('ledger', '--check'))
            postgres.signal(signal.SIGSTOP)
            began = time.monotonic()
            one.process.terminate()
            one.process.wait(60)
            self.assertLess(time.monotonic() - began, 40)

    def test_a_question_ends(self):
        """A database that hangs keeps nobody who asks for longer than told."""
        with self.gateways() as (postgres,):
            database, ended = Database(postgres.url), []
            self.assertEqual(database.rows('SELECT 1'), [(1,)])

            def ask():
                try:
                    database.transact(lambda t: t.rows('SELECT 1'), 2.0)
                except Unavailable as fault:
                    ended.append(str(fault))
            postgres.signal(signal.SIGSTOP)
            thread = threading.Thread(target=ask, daemon=True)
            thread.start()
            thread.join(20)
            self.assertEqual(ended, ['no answer in time'])

    def test_no_session_outlives_its_lease(self):
        """Another gateway presumes the end of a session only once it has ended."""
        with self.gateways('two', gateway_lease_seconds=8) as (postgres, two), folder() as where:
            with Blocked(postgres.port) as line, Gateway(
                    where, 'one', gateway_lease_seconds=8,
                    gateway_ledger=postgres.url.replace(str(postgres.port), str(line.port))) as one:
                client = one.client(one.add('anna'))
                client.ask('budget')
                process = one.table('sessions')[0]['process']
                time.sleep(9)                      # the other one may judge from now on
                line.is_open.clear()
                until('its end is presumed',
                      lambda: two.sessions()[0]['state'] == 'presumed', 20)
                self.assertFalse(is_running(process))
                self.assertEqual(client.rest().split()[2], b'ledger')
                line.is_open.set()
                until('it is settled', lambda: two.sessions()[0]['state'] == 'settled')
                client.close()

    def test_what_an_operator_says_reaches_all(self):
        with self.gateways('one', 'two') as (_, one, two):
            one.command('users', 'add', '@lab')
            anna, dora, erik = one.add('anna'), one.add('dora', '--group', '@lab'), one.add('erik')
            clients = [two.client(anna), one.client(dora), two.client(erik)]
            for client in clients:
                client.ask('budget')
            until('one sees all three', lambda: len(one.table('sessions')) == 3)
            self.assertEqual({row['user']: row['gateway'] for row in one.table('sessions')},
                             {'anna': 'two', 'dora': 'one', 'erik': 'two'})
            began = time.monotonic()
            one.command('users', 'disable', 'anna')
            two.command('users', 'disable', '@lab')
            one.command('end', [row['id'] for row in one.table('sessions')
                                if row['user'] == 'erik'][0][:10])
            self.assertEqual([client.rest().split()[2] for client in clients],
                             [b'disabled', b'disabled', b'ended'])
            self.assertLess(time.monotonic() - began, 6)
            self.assertEqual(served(two, erik, 1), 1)
            for client in clients:
                client.close()

    def test_a_day_is_the_databases(self):
        """Whatever the clock of a gateway says."""
        with self.gateways('one', limits_steps_a_day=100, limits_session_steps=100) as (
                postgres, one):
            one.add('anna')
            ledger = Ledger(Database(postgres.url), 'a' * 32, 'other')
            with mock.patch('time.gmtime', return_value=time.gmtime(0)), \
                    mock.patch('time.time', return_value=0.0):
                self.assertEqual(ledger.reserve('a' * 32, 'anna', DEFAULTS).steps, 100)
            self.assertEqual(one.table('users')[0]['reserved_today'], 100)
            ledger.settle('a' * 32, Outcome(0, 'exact', 'end'))
            ledger.database.close()


    def test_a_journal_that_cannot_grow(self):
        """As on a full disk: a client reads so, and nothing of it stays."""
        with self.gateways('one') as (_, one):
            anna, process = one.add('anna'), one.process.pid
            _, most = resource.prlimit(process, resource.RLIMIT_FSIZE)
            resource.prlimit(process, resource.RLIMIT_FSIZE, (RECORD.size, most))
            with one.client(anna) as client:
                self.assertEqual(client.rest(), b'no ledger\n')
            resource.prlimit(process, resource.RLIMIT_FSIZE, (most, most))
            self.assertEqual(served(one, anna, 3), 3)
            user = one.table('users')[0]
            self.assertEqual((user['running'], user['reserved']), (0, 0))


class Journals(unittest.TestCase):
    """What a journal does without a gateway."""

    def test_a_disk_that_is_full(self):
        with folder() as where:
            journal = Journal(where, 'a' * 32)
            journal.begin()
            with mock.patch('os.pwrite', side_effect=OSError(28, 'No space left on device')):
                self.assertRaises(OSError, journal.open, 'b' * 32)
            self.assertEqual(journal.sessions(), [])
            journal.open('c' * 32)                 # has the place that the other one didn't get
            self.assertEqual(os.path.getsize(os.path.join(where, 'sessions.journal')),
                             2 * RECORD.size)


class OneRow(unittest.TestCase):
    """A session that can't be settled, as the ledger refuses it."""

    def test_it_keeps_nobody_out(self):
        with folder() as where, Gateway(where) as gateway:
            anna, boris = gateway.add('anna'), gateway.add('boris')
            with gateway.client(anna) as client:
                client.ask('budget')
                session = gateway.table('sessions')[0]['id']
                database = sqlite3.connect(os.path.join(gateway.state, 'ledger.db'))
                database.execute("CREATE TRIGGER no BEFORE UPDATE ON sessions WHEN NEW.id = '%s' AND "
                                 "NEW.state = 'settled' BEGIN SELECT RAISE(ABORT, 'no'); END"
                                 % session)
                database.commit()
                client.ask('quit')
            until('it waits', lambda: gateway.measure('sessions_unsettled') == 1)
            for _ in range(20):
                self.assertEqual(gateway.get('/readyz')[0], 200)
                time.sleep(0.2)
            self.assertEqual(served(gateway, boris, 3), 3)
            database.execute('DROP TRIGGER no')
            database.commit()
            database.close()
            until('it is settled', lambda: gateway.sessions('anna')[0]['state'] == 'settled')
            self.assertIn("can't be kept in step", gateway.said())


    def test_it_keeps_no_other_back(self):
        """Of two that wait, the other one is settled."""
        with folder() as where:
            sessions = sessions_alone(where)
            ledger, journal = sessions.ledger, sessions.journal
            ledger.accounts.add('anna')
            for letter in 'bc':                    # the ledger isn't up yet, so they wait
                journal.open(letter * 32)
                ledger.reserve(letter * 32, 'anna', DEFAULTS)
                sessions.settle(letter * 32, 'anna', Outcome(1, 'exact', 'end'))
            ledger.beat()
            ledger.database.transact(lambda t: t.run(
                "CREATE TRIGGER no BEFORE UPDATE ON sessions WHEN NEW.id LIKE 'b%' AND "
                "NEW.state = 'settled' BEGIN SELECT RAISE(ABORT, 'no'); END"))
            self.assertRaises(Refused, sessions.settle_all)
            self.assertEqual({row['id'][0]: row['state'] for row in ledger.report()},
                             {'b': 'open', 'c': 'settled'})
            self.assertEqual((sessions.unsettled, journal.sessions()), (1, ['b' * 32]))
            ledger.database.close()


class Backup(unittest.TestCase):
    """A copy of SQLite's file that was made while a session ran."""

    def test_restore(self):
        keys = {'limits_sessions': 1, 'limits_steps_a_day': 10 ** 9, 'limits_session_steps': 10 ** 9}
        with folder() as where:
            os.makedirs(os.path.join(where, 'new'))
            with Gateway(where, **keys) as gateway:
                anna = gateway.add('anna')
                with gateway.client(anna) as client:
                    client.send(LINES + b'apply B inc A\nrun\n')
                    for _ in range(5):
                        client.line()
                    until('it is noted', lambda: gateway.sessions()[0]['spent'] == 3)
                    with contextlib.closing(sqlite3.connect(gateway.state + '/ledger.db')) as one, \
                            contextlib.closing(sqlite3.connect(where + '/new/ledger.db')) as other:
                        one.backup(other)          # as `sqlite3 ledger.db ".backup FILE"` does
            with Gateway(where, 'new', **keys) as restored:
                user = restored.table('users')[0]
                self.assertEqual([user[key] for key in ('running', 'reserved', 'spent')], [0, 0, 3])
                self.assertEqual(served(restored, anna, 1), 1)
                self.assertIn('all sums', restored.command('ledger', '--check'))


class Kept(OnSqlite):
    """What is kept, checked, repaired and brought to this release; on PostgreSQL below."""

    def test_a_check_beside_logins(self):
        """A check takes no login's connection, however long it takes."""
        self.fill(30_000)
        inside, go_on, faults = threading.Event(), threading.Event(), []

        def slow(t):
            inside.set()
            go_on.wait(60)
            return differences(t)
        differences = ledger_module._differences   # pylint: disable=protected-access
        with mock.patch('spmat_gateway.ledger._differences', slow):
            thread = threading.Thread(target=lambda: faults.extend(self.ledger.faults()))
            thread.start()
            self.assertTrue(inside.wait(60))
            self.ledger.reserve('f' * 32, 'user1', DEFAULTS)
            self.ledger.settle('f' * 32, Outcome(7, 'exact', 'end'))
            go_on.set()
            thread.join()
        self.assertEqual(faults, [])               # it has seen one moment
        began = time.monotonic()
        self.assertEqual(self.ledger.faults(), [])
        self.assertLess(time.monotonic() - began, 5.0)

    def fill(self, many):
        """A hundred users, and their sessions of a year."""
        for number in range(100):
            self.ledger.accounts.add('user%d' % number)
        sql = ('INSERT INTO sessions (id, account, gateway, address, day, began, ended, state, '
               "reserved, spent, charged, basis, cause) VALUES (?, ?, 'x', '127.0.0.1:1', ?, ?, 1, "
               "'settled', 1000, 1, 1, 'exact', 'end')")
        rows = [('%032x' % number, 'user%d' % (number % 100),
                 '2025-%02d-%02d' % (1 + number % 12, 1 + number % 28), float(number))
                for number in range(many)]
        self.ledger.database.transact(lambda t: t.run_each(sql, rows), 120)
        self.ledger.database.transact(lambda t: t.run(
            'INSERT INTO days (account, day, spent) SELECT account, day, SUM(charged) FROM sessions '
            'GROUP BY account, day'))
        self.ledger.database.transact(lambda t: t.run(
            'UPDATE accounts SET spent = (SELECT COALESCE(SUM(charged), 0) FROM sessions '
            'WHERE account = name)'))

    def test_what_is_forgotten(self):
        self.fill(2_000)
        self.ledger.reserve('f' * 32, 'user5', DEFAULTS)
        self.assertEqual(len(self.ledger.report(most=10 ** 6)), 2_001)
        self.assertEqual(self.ledger.prune(7), 2_000)
        self.assertEqual(self.ledger.prune(7), 0)
        self.assertEqual([row['id'] for row in self.ledger.report()], ['f' * 32])
        self.assertEqual(self.sums('user5'), (20, 100, 1))
        self.assertEqual(self.ledger.faults(), [])
        self.ledger.settle('f' * 32, Outcome(3, 'exact', 'end'))
        self.assertEqual(self.sums('user5'), (23, 0, 0))

    def test_a_repair(self):
        accounts = self.ledger.accounts
        accounts.add('@lab')
        accounts.add('anna', '@lab')
        self.ledger.beat()
        for letter in 'abc':
            self.ledger.reserve(letter * 32, 'anna', DEFAULTS)
        self.ledger.note([(40, 1, 1, 'a' * 32)])
        self.ledger.database.transact(lambda t: t.run(
            "UPDATE accounts SET spent = 7, running = 9 WHERE name = '@lab'"))
        self.ledger.database.transact(lambda t: t.run("UPDATE days SET spent = 5 "
                                                      "WHERE account = 'anna'"))
        self.assertEqual(len(self.ledger.faults()), 2)
        words = self.ledger.repair(lambda: ['c' * 32], 60)
        self.assertEqual(words[0], '2 sessions that nobody ran were settled')
        self.assertEqual(self.ledger.faults(), [])
        self.assertEqual((self.sums('anna'), self.sums('@lab')), ((40, 100, 1), (40, 100, 1)))
        self.assertEqual(self.ledger.repair(lambda: ['c' * 32], 60), [])

    def test_sessions_that_no_gateway_knows(self):
        self.ledger.accounts.add('anna')
        self.ledger.beat()
        stranger = self.open('gone')               # which was never seen, as after a restore
        stranger.reserve('a' * 32, 'anna', DEFAULTS)
        self.ledger.reserve('b' * 32, 'anna', DEFAULTS)
        self.assertEqual(self.ledger.settle_lost(60), 1)
        self.assertEqual({row['id'][0]: row['state'] for row in self.ledger.report()},
                         {'a': 'presumed', 'b': 'open'})

    def test_tables_of_the_release_before(self):
        """Version 1, with users, a session that ran and one that runs, becomes this one's."""
        self.address = self.url()
        database = Database(self.address)
        self.addCleanup(database.close)
        with open(TABLES, encoding='ascii') as file:
            first = file.read().split('-- version ')[1]

        def work(t):
            for statement in first.partition('\n')[2].split(';')[:-1]:
                t.run(statement)
            t.run('CREATE INDEX sessions_open ON sessions (gateway, state)')
            t.run("INSERT INTO accounts (name, spent, reserved, running, steps_a_day) "
                  "VALUES ('anna', 30, 100, 1, 1000)")
            t.run("INSERT INTO days VALUES ('anna', '2026-01-01', 30, 100, 2)")
            for letter, state, reserved, charged in (('a', 'settled', 100, 30),
                                                     ('b', 'open', 100, 0)):
                t.run('INSERT INTO sessions (id, account, gateway, day, began, state, reserved, '
                      "charged) VALUES (?, 'anna', 'x', '2026-01-01', 1, ?, ?, ?)", letter * 32,
                      state, reserved, charged)
        database.transact(work)
        self.ledger = self.open('one')
        for _ in range(2):                         # the second time there is nothing to do
            self.ledger.prepare()
            self.assertEqual(self.ledger.faults(), [])
        self.assertEqual(self.account('anna').quotas['steps_a_day'], 1000)
        self.assertIsNone(self.account('anna').quotas['sessions_an_hour'])
        self.assertIsNone(self.account('anna').token_ends)
        self.assertEqual(self.tables() & {'jobs', 'refills'}, set())
        self.ledger.beat()
        self.assertEqual(self.ledger.settle_lost(60), 1)
        self.assertEqual(self.sums('anna'), (30, 0, 0))
        self.assertEqual(self.ledger.reserve('c' * 32, 'anna', DEFAULTS).steps, 100)
        self.ledger.settle('c' * 32, Outcome(1, 'exact', 'end'))
        database.transact(lambda t: t.run("UPDATE marks SET value = '99' WHERE name = 'version'"))
        with self.assertRaisesRegex(ConfigError, 'of a newer release'):
            self.ledger.prepare()
        database.transact(lambda t: t.run("UPDATE marks SET value = '3' WHERE name = 'version'"))

    def test_tables_of_version_2(self):
        """They become this one's; a token of before has no end, and one that is renewed has."""
        self.address = self.url()
        database = Database(self.address)
        self.addCleanup(database.close)
        with open(TABLES, encoding='ascii') as file:
            parts = file.read().split('-- version ')[1:3]

        def work(t):
            for part in parts:
                for statement in part.partition('\n')[2].split(';')[:-1]:
                    t.run(statement)
            t.run("INSERT INTO marks VALUES ('version', '2')")
            t.run("INSERT INTO marks VALUES ('jobs', '2026-01-01')")
            t.run('INSERT INTO accounts (name, token) VALUES (?, ?)', 'anna',
                  users.hash_token('old'))
            t.run("INSERT INTO jobs VALUES ('a', 0, 'B', 1, 1)")
        database.transact(work)
        self.ledger = self.open('one')
        self.ledger.prepare()
        self.assertEqual(self.ledger.accounts.find(Login('anna', 'old')).name, 'anna')
        self.assertEqual(self.tables() & {'jobs', 'refills'}, set())
        token = self.ledger.accounts.renew('anna', days=1)
        self.assertEqual(self.ledger.accounts.find(Login('anna', token)).name, 'anna')
        self.assertAlmostEqual(self.account('anna').token_ends - time.time(), 86_400, delta=60)

    def tables(self):
        """The names of the ledger's tables."""
        sql = ('SELECT tablename FROM pg_tables WHERE schemaname = current_schema()'
               if self.ledger.database.is_shared else 'SELECT name FROM sqlite_master')
        return {name for (name,) in self.ledger.database.rows(sql)}


@needs_postgres
class KeptOnPostgres(Kept, OnPostgres):
    """The same on PostgreSQL."""

    def test_a_database_without_an_encoding(self):
        """Where no locale was set, Debian makes databases of SQL_ASCII."""
        import psycopg
        with psycopg.connect(self.postgres.url, autocommit=True) as connection:
            connection.execute("CREATE DATABASE plain ENCODING 'SQL_ASCII' LC_COLLATE 'C' "
                               "LC_CTYPE 'C' TEMPLATE template0")
        database = Database(self.postgres.url.replace('/postgres', '/plain'))
        self.addCleanup(database.close)
        ledger = Ledger(database, 'b' * 32, 'two')
        ledger.prepare()
        token = ledger.accounts.add('anna')
        self.assertEqual(ledger.accounts.find(Login('anna', token)).name, 'anna')
        ledger.reserve('c' * 32, 'anna', DEFAULTS)
        self.assertEqual(ledger.faults(), [])

    def test_a_start_without_the_right_to_create(self):
        """Once the tables are there, a gateway needs the right to change their rows alone."""
        self.ledger.accounts.add('anna')
        schema = self.address.rpartition('3D')[2]
        for sql in ('CREATE ROLE plain LOGIN', 'GRANT USAGE ON SCHEMA %s TO plain',
                    'GRANT SELECT, INSERT, UPDATE, DELETE ON ALL TABLES IN SCHEMA %s TO plain'):
            self.ledger.database.transact(
                lambda t, sql=sql: t.run(sql % schema if '%' in sql else sql))
        database = Database(self.address.replace('gateway@', 'plain@'))
        self.addCleanup(database.close)
        other = Ledger(database, 'b' * 32, 'two')
        other.prepare()
        other.beat()
        other.reserve('c' * 32, 'anna', DEFAULTS)
        self.assertEqual(other.settle('c' * 32, Outcome(3, 'exact', 'end')), 3)
        with self.assertRaises(Refused):           # which it hasn't, indeed
            database.transact(lambda t: t.run('CREATE TABLE more (a TEXT)'))


def load_tests(loader, _, __):
    """Its own tests alone: those of test_ledger are tried there."""
    found = unittest.TestSuite()
    for kind in (Shared, Journals, OneRow, Backup, Kept, KeptOnPostgres):
        names = [name for name in loader.getTestCaseNames(kind)
                 if not hasattr(OnSqlite, name)]
        found.addTests(map(kind, names))
    return found


if __name__ == '__main__':
    unittest.main()
