"""The ledger: each session reserves steps when it begins, and is settled once when it ends.

A session's row goes from `open` to `settled`. Where its gateway is gone for longer than its lease,
another one settles it as last known: it is `presumed` then, and its own gateway may still settle
it, by which only the difference is booked. Whatever changes a state changes all sums in the same
transaction, and asks first whether that was done before. So each call bears being repeated, and
nothing is lost or booked twice where a gateway or the database is killed.
"""
from __future__ import annotations

import collections
import datetime
import os
import time
from typing import Any, Callable, Dict, Iterable, List, NamedTuple, Optional, Tuple

from .accounts import Account, Accounts, NoQuota, bounds, lineage
from .config import MOST_STEPS, ConfigError, Limits
from .database import Database, Row, Transaction

TABLES = os.path.join(os.path.dirname(__file__), 'tables.sql')
REPORTED = ('id', 'account', 'parent', 'gateway', 'address', 'began', 'ended', 'state', 'reserved',
            'spent', 'charged', 'basis', 'cause', 'runs', 'jobs', 'bytes_in', 'bytes_out',
            'processor')
SECONDS_UNSEEN = 5.0  # of a ledger that is down, whether it says so or hangs
SECONDS_OF_WORK = 600.0                            # for what an operator asks for
AT_ONCE = 200                                      # rows that are forgotten in one transaction
SUMS = ("SELECT account, parent, day, SUM(charged), "
        "SUM(CASE WHEN state = 'open' THEN reserved ELSE 0 END), "
        "SUM(CASE WHEN state = 'open' THEN 1 ELSE 0 END) "
        'FROM sessions WHERE day >= ? GROUP BY account, parent, day')


class Reservation(NamedTuple):
    """What a session may take."""
    steps: int
    bounds: Dict[str, int]


class Outcome(NamedTuple):
    """What a session has taken, as its gateway knows. `basis` says how: `exact`, or `known` or
    `price` of one that was killed."""
    spent: int
    basis: str
    cause: str
    runs: int = 0
    job_count: int = 0
    bytes_in: int = 0
    bytes_out: int = 0
    processor: float = 0.0


class Ledger:
    """Books sessions.

    Parameters
    ----------
    database
        Where.
    instance, name
        This run of this gateway, and the gateway's name.
    """

    def __init__(self, database: Database, instance: str, name: str) -> None:
        self.database, self.instance, self.name = database, instance, name
        self.accounts = Accounts(database)
        self._seen, self._up_since = time.monotonic(), float('inf')

    @property
    def unseen(self) -> float:
        """The seconds since this gateway was last seen."""
        return time.monotonic() - self._seen

    @property
    def up_for(self) -> float:
        """For how long the ledger has answered without a gap; less than nothing where it
        doesn't."""
        return time.monotonic() - self._up_since

    @property
    def is_up(self) -> bool:
        """Whether the ledger has answered a moment ago."""
        return self.up_for >= 0 and self.unseen < SECONDS_UNSEEN

    def lose(self) -> bool:
        """It doesn't answer; whether it did before."""
        before, self._up_since = self._up_since, float('inf')
        return before < float('inf')

    def prepare(self) -> None:
        """Makes the tables, or makes those of an older release this one's. ConfigError where they
        are a newer one's."""
        with open(TABLES, encoding='ascii') as file:
            parts = file.read().split('-- version ')[1:]
        marks = ("SELECT to_regclass('marks')" if self.database.is_shared
                 else "SELECT (SELECT name FROM sqlite_master WHERE name = 'marks')")

        def work(t: Transaction) -> None:
            if self.database.is_shared:            # several gateways may start at once
                t.run('SELECT pg_advisory_xact_lock(7173)')
            version = 0
            if t.rows(marks)[0][0]:
                version = int(_mark(t, 'version'))
            if version > len(parts):
                raise ConfigError('the ledger is of a newer release, with tables of version %d; '
                                  'this one knows %d' % (version, len(parts)))
            for part in parts[version:]:
                for statement in part.partition('\n')[2].split(';')[:-1]:
                    t.run(statement)
            if version < len(parts):
                _set_mark(t, 'version', str(len(parts)))
        self.database.transact(work, SECONDS_OF_WORK)

    # -- a session

    def reserve(self, session: str, name: str, defaults: Limits, address: str = '') -> Reservation:
        """Begins a session: reserves the steps that it may take at most. A second call for a
        session answers the same.

        Raises
        ------
        NoQuota
            Where the account, or its group, has nothing left.
        """
        def work(t: Transaction) -> Reservation:
            _lock(t, name)
            before = t.row('SELECT reserved FROM sessions WHERE id = ?', session)
            if before:
                return Reservation(before[0], bounds(defaults, lineage(t, name)))
            accounts, day, steps = self._find(t, name, defaults)
            for account in accounts:
                _book(t, account.name, day, steps, 0, 1)
                t.run('UPDATE days SET sessions = sessions + 1 WHERE account = ? AND day = ?',
                      account.name, day)
            t.run('INSERT INTO sessions (id, account, parent, gateway, address, day, began, state, '
                  "reserved) VALUES (?, ?, ?, ?, ?, ?, %s, 'open', ?)" % self.database.now, session,
                  name, accounts[0].parent, self.instance, address, day, steps)
            return Reservation(steps, bounds(defaults, accounts))
        return self.database.transact(work)

    def check(self, name: str, defaults: Limits) -> None:
        """Looks whether an account may begin a session now, and books nothing. NoQuota where it may
        not."""
        self.database.transact(lambda t: self._find(t, name, defaults))

    def _find(self, t: Transaction, name: str,
              defaults: Limits) -> Tuple[List[Account], str, int]:
        """An account with its group, the day, and the steps that a session of it may reserve."""
        accounts = lineage(t, name)
        if not accounts:
            raise NoQuota(name, 'enabled')
        day = str(t.rows('SELECT ' + self.database.today)[0][0])
        return accounts, day, min(bounds(defaults, accounts)['session_steps'],
                                  *(self._left(t, account, defaults, day) for account in accounts))

    def _left(self, t: Transaction, account: Account, defaults: Limits, day: str) -> int:
        """The steps that a session may still reserve. NoQuota where there are none, or no seat."""
        seats = account.limit('sessions', defaults)
        hourly = account.limit('sessions_an_hour', defaults)
        if not account.enabled:
            raise NoQuota(account.name, 'enabled')
        if seats is not None and account.running >= seats:
            raise NoQuota(account.name, 'sessions')
        if hourly is not None and t.rows(
                'SELECT COUNT(*) FROM sessions WHERE %s = ? AND began > %s - 3600'
                % ('parent' if account.is_group else 'account', self.database.now),
                account.name)[0][0] >= hourly:
            raise NoQuota(account.name, 'sessions_an_hour')
        row = t.row('SELECT spent + reserved FROM days WHERE account = ? AND day = ?',
                    account.name, day)
        left = MOST_STEPS
        for quota, taken in (('steps_a_day', row[0] if row else 0),
                             ('steps_in_all', account.spent + account.reserved)):
            limit = account.limit(quota, defaults)
            if limit is not None:
                left = min(left, limit - taken)
                if left <= 0:
                    raise NoQuota(account.name, quota)
        if account.is_group:                       # so that a few users don't reserve it whole
            left = max(1, left // (2 if seats is None else seats - account.running))
        return left

    def note(self, spent: Iterable[Tuple[int, int, int, str]]) -> None:
        """Notes what open sessions have spent so far: rows of steps, runs, jobs, and the
        session."""
        rows = list(spent)
        if rows:
            sql = ('UPDATE sessions SET spent = ?, runs = ?, jobs = ? '
                   "WHERE id = ? AND state = 'open'")
            self.database.transact(lambda t: t.run_each(sql, rows))

    def settle(self, session: str, outcome: Outcome, presume: bool = False,
               account: str = '') -> Optional[int]:
        """Ends a session's account. What was charged; None where the session isn't known, or was
        settled before. With `account` it waits for a reservation whose end wasn't seen."""
        def work(t: Transaction) -> Optional[int]:
            if account:
                _lock(t, account)
            row = t.row('SELECT account FROM sessions WHERE id = ?', session)
            if row is None:
                return None
            _lock(t, row[0])
            return self._settle(t, session, outcome, presume)
        return self.database.transact(work)

    def _settle(self, t: Transaction, session: str, outcome: Outcome,
                presume: bool) -> Optional[int]:
        row = t.row('SELECT account, parent, day, state, reserved, spent, charged FROM sessions '
                    'WHERE id = ?', session)
        assert row is not None
        account, parent, day, state, reserved, known, before = row
        if state == 'settled' or (state == 'presumed' and presume):
            return None
        charged = min(max(outcome.spent, known, before), reserved)
        is_first = state == 'open'
        t.run('UPDATE sessions SET state = ?, ended = COALESCE(ended, %s), spent = ?, charged = ?, '
              'basis = ?, cause = ?, runs = ?, jobs = ?, bytes_in = ?, bytes_out = ?, '
              'processor = ? WHERE id = ?' % self.database.now,
              'presumed' if presume else 'settled', max(outcome.spent, known), charged,
              outcome.basis, outcome.cause, outcome.runs, outcome.job_count, outcome.bytes_in,
              outcome.bytes_out, outcome.processor, session)
        for name in (account, parent):
            if name is not None:
                released, left = (-reserved, -1) if is_first else (0, 0)
                _book(t, name, day, released, charged - before, left)
        return int(charged)

    # -- gateways that are gone

    def beat(self) -> None:
        """Says that this gateway lives."""
        began = time.monotonic()
        self.database.transact(lambda t: t.run(
            'INSERT INTO gateways (instance, name, seen) VALUES (?, ?, %s) '
            'ON CONFLICT (instance) DO UPDATE SET seen = excluded.seen' % self.database.now,
            self.instance, self.name))
        self._seen, self._up_since = began, min(began, self._up_since)

    def settle_lost(self, lease: float, cause: str = 'gateway-lost', presume: bool = True) -> int:
        """Settles the open sessions of all gateways that haven't been seen for a lease, or aren't
        known, as last known; how many they were."""
        lost = self.database.rows(
            "SELECT DISTINCT gateway FROM sessions WHERE state = 'open' AND gateway <> ? AND "
            'gateway NOT IN (SELECT instance FROM gateways WHERE seen >= %s - ?)'
            % self.database.now, self.instance, lease)
        return sum(self.settle_all(instance, cause, presume) for (instance,) in lost)

    def settle_all(self, instance: str, cause: str, presume: bool = False) -> int:
        """Settles all open sessions of a gateway's run that is over, as last known; how many they
        were."""
        rows = self.database.rows(
            "SELECT id, spent, runs, jobs FROM sessions WHERE gateway = ? AND state = 'open'",
            instance)
        for session, spent, runs, jobs in rows:
            self.settle(session, Outcome(spent, 'known', cause, runs, jobs), presume)
        self.database.transact(lambda t: t.run('DELETE FROM gateways WHERE instance = ?', instance))
        return len(rows)

    def wishes(self) -> List[Row]:
        """Which sessions of this gateway are to end, and by which cause: an operator has said so at
        another one, or the account or its group was disabled."""
        return self.database.rows(
            "SELECT DISTINCT s.id, COALESCE(s.asked, 'disabled') FROM sessions s "
            'JOIN accounts a ON a.name = s.account OR a.name = s.parent '
            "WHERE s.gateway = ? AND s.state = 'open' AND (a.enabled = 0 OR s.asked IS NOT NULL)",
            self.instance)

    def end_elsewhere(self, session: str, cause: str) -> bool:
        """Asks the gateway of a session to end it; whether there is one that begins so."""
        def work(t: Transaction) -> bool:
            found = t.rows("SELECT id FROM sessions WHERE state = 'open' AND substr(id, 1, ?) = ?",
                           len(session), session) if session else []
            if len(found) == 1:
                t.run('UPDATE sessions SET asked = ? WHERE id = ?', cause, found[0][0])
            return len(found) == 1
        return self.database.transact(work)

    # -- reports

    def report(self, account: str = '', most: int = 50) -> List[Dict[str, Any]]:
        """The last sessions, of all or of one account."""
        where, values = ('WHERE account = ? OR parent = ?', [account] * 2) if account else ('', [])
        rows = self.database.rows('SELECT %s FROM sessions %s ORDER BY day DESC, began DESC LIMIT ?'
                                  % (', '.join(REPORTED), where), *values, most)
        return [dict(zip(REPORTED, row)) for row in rows]

    def spent_today(self) -> Dict[str, Tuple[int, int]]:
        """What each account has spent and reserved today."""
        rows = self.database.rows('SELECT account, spent, reserved FROM days WHERE day = '
                                  + self.database.today)
        return {account: (spent, reserved) for account, spent, reserved in rows}

    def elsewhere(self) -> List[Dict[str, Any]]:
        """The sessions that run at other gateways, as these have noted a second ago."""
        names = ('id', 'user', 'gateway', 'address', 'seconds', 'reserved', 'spent', 'runs', 'jobs')
        rows = self.database.rows(
            'SELECT s.id, s.account, g.name, s.address, %s - s.began, s.reserved, s.spent, s.runs, '
            's.jobs FROM sessions s JOIN gateways g ON g.instance = s.gateway '
            "WHERE s.state = 'open' AND s.gateway <> ?" % self.database.now, self.instance)
        unknown = dict.fromkeys(('queued', 'bytes_in', 'bytes_out', 'process'))
        return [{**unknown, **dict(zip(names, row))} for row in rows]

    # -- what an operator asks for seldom

    def faults(self) -> List[str]:
        """Sums that aren't those of the sessions: there must be none, whatever was killed."""
        def work(t: Transaction) -> List[str]:
            over = t.rows('SELECT id FROM sessions WHERE charged > reserved')
            return ['%s: spent, reserved, running are %s, those of its sessions %s'
                    % (_title(key), *pair) for key, pair in _differences(t).items()] + [
                'session %s was charged more than it reserved' % row[0] for row in over]
        return self.database.read(work, SECONDS_OF_WORK)

    def repair(self, running: Callable[[], Iterable[str]], lease: float) -> List[str]:
        """Settles the open sessions that nobody runs, and sets all sums to those of the sessions;
        what was changed."""
        mine = self.database.rows("SELECT id, spent, runs, jobs FROM sessions WHERE gateway = ? "
                                  "AND state = 'open'", self.instance)
        count, run = self.settle_lost(lease), set(running())
        for session, spent, runs, jobs in mine:
            known = Outcome(spent, 'known', 'repaired', runs, jobs)
            count += session not in run and self.settle(session, known) is not None

        def work(t: Transaction) -> List[str]:
            t.run('UPDATE accounts SET running = running')  # until all is set nobody else books
            changed = _differences(t)
            for (name, day), (_, real) in changed.items():
                if day:
                    _book(t, name, day, 0, 0, 0)
                    t.run('UPDATE days SET spent = ?, reserved = ? WHERE account = ? AND day = ?',
                          *real, name, day)
                else:
                    t.run('UPDATE accounts SET spent = ?, reserved = ?, running = ? '
                          'WHERE name = ?', *real, name)
            return ['%s: spent, reserved, running were %s, and are %s' % (_title(key), *pair)
                    for key, pair in changed.items()]
        words = ['%d sessions that nobody ran were settled' % count] if count else []
        return words + self.database.transact(work, SECONDS_OF_WORK)

    def prune(self, days: int) -> int:
        """Forgets the sessions of days so long past; how many these were. All sums stay."""
        def work(t: Transaction) -> str:
            today, oldest = t.rows("SELECT %s, (SELECT MIN(day) FROM sessions WHERE state = 'open')"
                                   % self.database.today)[0]
            before = datetime.date.fromisoformat(today) - datetime.timedelta(days)
            until = str(min(before.isoformat(), oldest or today))
            _set_mark(t, 'sessions', max(_mark(t, 'sessions'), until))
            return until
        until, count = self.database.transact(work), 0
        sql = 'DELETE FROM sessions WHERE id IN (SELECT id FROM sessions WHERE day < ? LIMIT %d)'
        while found := self.database.transact(lambda t: t.run(sql % AT_ONCE, until)):
            count += found
        return count


def _differences(t: Transaction) -> Dict[Tuple[str, str], Tuple[List[int], List[int]]]:
    """What is booked of accounts, in all and by days, and what their sessions make of it, where
    these differ. Of days whose sessions were forgotten there are the sums alone."""
    since = _mark(t, 'sessions')
    found: Dict[Tuple[str, str], List[int]] = collections.defaultdict(lambda: [0, 0, 0])
    for account, parent, day, *sums in t.rows(SUMS, since):
        for key in ((account, day), (parent, day)):
            found[key] = _add(found[key], sums)
    days = {(name, day): [int(spent), int(reserved)] for name, day, spent, reserved
            in t.rows('SELECT account, day, spent, reserved FROM days')}
    in_all: Dict[str, List[int]] = collections.defaultdict(lambda: [0, 0, 0])
    pairs = {}
    for name, day in {*days, *found}:              # without a group the name is None
        booked = days.get((name, day), [0, 0])
        real = found[name, day] if day >= since else [*booked, 0]
        in_all[name] = _add(in_all[name], real)
        pairs[name, day] = (booked, real[:2])
    for name, *sums in t.rows('SELECT name, spent, reserved, running FROM accounts'):
        pairs[name, ''] = (list(map(int, sums)), in_all[name])
    return {key: pair for key, pair in pairs.items() if key[0] and pair[0] != pair[1]}


def _add(sums: List[int], others: Iterable[Any]) -> List[int]:
    return [one + int(other) for one, other in zip(sums, others)]


def _mark(t: Transaction, name: str) -> str:
    """What the ledger says of itself under a name: its version, or the day before which nothing is
    left."""
    row = t.row('SELECT value FROM marks WHERE name = ?', name)
    return str(row[0]) if row else ''


def _set_mark(t: Transaction, name: str, value: str) -> None:
    t.run('INSERT INTO marks VALUES (?, ?) ON CONFLICT (name) DO UPDATE SET value = excluded.value',
          name, value)


def _title(key: Tuple[str, str]) -> str:
    """An account, or an account on a day."""
    return ' on '.join(filter(None, key))


def _lock(t: Transaction, name: str) -> None:
    """Takes the rows of a user and its group, in this order, until the transaction ends."""
    t.run('UPDATE accounts SET running = running WHERE name = ?', name)
    t.run('UPDATE accounts SET running = running '
          'WHERE name = (SELECT parent FROM accounts WHERE name = ?)', name)


def _book(t: Transaction, account: str, day: str, reserved: int, spent: int, running: int) -> None:
    """Adds to an account's sums, in all and of a day."""
    t.run('UPDATE accounts SET reserved = reserved + ?, spent = spent + ?, running = running + ? '
          'WHERE name = ?', reserved, spent, running, account)
    t.run('INSERT INTO days (account, day) VALUES (?, ?) ON CONFLICT DO NOTHING', account, day)
    t.run('UPDATE days SET reserved = reserved + ?, spent = spent + ? '
          'WHERE account = ? AND day = ?', reserved, spent, account, day)
