"""Accounts in the ledger: users and groups, their tokens and certificates, and their quotas."""
from __future__ import annotations

from typing import Any, Dict, List, NamedTuple, Optional

from . import users
from .config import PER_SESSION, QUOTAS, Limits, checked_quota
from .database import Database, Transaction
from .tables import moment
from .users import GROUP_MARK, Login

COLUMNS = ('name', 'parent', 'enabled', 'token', 'token_ends', 'fingerprint', 'spent', 'reserved',
           'running', *QUOTAS)
SELECT = 'SELECT %s FROM accounts ' % ', '.join(COLUMNS)


class Unknown(ValueError):
    """There is no such account, or one that can't be changed so; the words say what to do."""


class NoQuota(Exception):
    """An account may not begin a session now: `.quota` is used up."""

    def __init__(self, account: str, quota: str, words: str = '') -> None:
        super().__init__(words or '%s has nothing left of %s' % (account, quota.replace('_', '-')))
        self.quota = quota


class Account(NamedTuple):
    """A row: the account, what it has spent and reserved in all, and the quotas of its own."""
    name: str
    parent: Optional[str]
    enabled: int
    token: Optional[str]
    token_ends: Optional[float]
    fingerprint: Optional[str]
    spent: int
    reserved: int
    running: int
    quotas: Dict[str, Optional[int]]

    @property
    def is_group(self) -> bool:
        """Whether it is a group, which has no default quota."""
        return self.name.startswith(GROUP_MARK)

    def limit(self, quota: str, defaults: Limits) -> Optional[int]:
        """A quota, or its default. A group has none but its own."""
        own = self.quotas[quota]
        if own is not None or self.is_group:
            return own
        return int(default) if (default := getattr(defaults, quota)) is not None else None


class Accounts:
    """Finds and changes accounts."""

    def __init__(self, database: Database) -> None:
        self._database = database

    def all(self) -> List[Account]:
        """All accounts, by their names."""
        return self._database.transact(
            lambda t: [_account(row) for row in t.rows(SELECT + 'ORDER BY name')])

    def find(self, login: Login, new_users: str = '') -> Optional[Account]:
        """The account that a login is right for; None where it is for none, or for one that was
        disabled. With `new_users` whose name is proved is added to this group. NoQuota where the
        token has ended."""
        column, value = ('name', login.name) if login.name else ('fingerprint', login.fingerprint)
        sql = SELECT + 'WHERE %s = ?' % column
        rows = self._database.rows(sql, value) if value else []
        if not rows and login.is_proved and users.is_name(login.name) and new_users:
            self.add(login.name, new_users, has_token=False)
            rows = self._database.rows(sql, value)
        account = _account(rows[0]) if rows else None
        stored = account.token if account else None
        if not login.is_proved and not users.is_right(stored, login.token):
            return None
        if account is None or not account.enabled or account.is_group:
            return None
        ends = None if login.is_proved else account.token_ends
        if ends is not None and ends <= self._database.transact(self._now):
            words = 'the token of %s ended at %s; `spmat-gateway users renew %s` makes a new one'
            raise NoQuota(account.name, 'token', words % (account.name, moment(ends), account.name))
        return account

    def add(self, name: str, group: Optional[str] = None, fingerprint: Optional[str] = None,
            days: int = 0, has_token: bool = True) -> str:
        """Adds an account; the token of a new user, which is stored nowhere, and ends after so many
        days, or never."""
        if not users.is_account(name):
            raise Unknown('a name is 1 to 32 of a-z 0-9 _ . -, not %r; a group has an @ before it'
                          % name)
        has_token = has_token and not (name.startswith(GROUP_MARK) or fingerprint)
        token = users.new_token() if has_token else ''

        def work(t: Transaction) -> None:
            _check_group(t, name, group)
            if t.row('SELECT 1 FROM accounts WHERE name = ?', name):
                raise Unknown('there is an account %s already' % name)
            _check_fingerprint(t, name, fingerprint)
            t.run('INSERT INTO accounts (name, parent, fingerprint) VALUES (?, ?, ?)', name, group,
                  fingerprint)
            self._set_token(t, name, token, days)
        self._database.transact(work)
        return token

    def renew(self, name: str, fingerprint: Optional[str] = None, days: int = 0) -> str:
        """Gives a user a new token, or another certificate; the old ones are worth nothing from now
        on."""
        token = '' if fingerprint else users.new_token()

        def work(t: Transaction) -> None:
            if name.startswith(GROUP_MARK):
                raise Unknown('a group has no token: %s' % name)
            _check_fingerprint(t, name, fingerprint)
            _change(t, name, fingerprint=fingerprint)
            self._set_token(t, name, token, days)
        self._database.transact(work)
        return token

    def _set_token(self, t: Transaction, name: str, token: str, days: int) -> None:
        _change(t, name, token=users.hash_token(token) if token else None,
                token_ends=self._now(t) + 86_400 * days if token and days else None)

    def _now(self, t: Transaction) -> float:
        return float(t.rows('SELECT ' + self._database.now)[0][0])

    def enable(self, name: str, enabled: bool) -> None:
        """Lets a user, or all users of a group, in or keeps them out; sessions that run go on."""
        self._database.transact(lambda t: _change(t, name, enabled=int(enabled)))

    def join(self, name: str, group: Optional[str]) -> None:
        """Puts a user into a group, or takes it out. Sessions that run count where they began."""
        def work(t: Transaction) -> None:
            _check_group(t, name, group)
            row = t.row('SELECT running FROM accounts WHERE name = ?', name)
            if row and row[0]:
                raise Unknown('%s has sessions; end them first' % name)
            _change(t, name, parent=group)
        self._database.transact(work)

    def set_quotas(self, name: str, quotas: Dict[str, Optional[int]]) -> None:
        """Sets quotas; None takes one away."""
        values = {quota: None if number is None else checked_quota(quota, number)
                  for quota, number in quotas.items()}
        self._database.transact(lambda t: _change(t, name, **values))


def bounds(defaults: Limits, accounts: List[Account]) -> Dict[str, int]:
    """What one session may take: of each quota the least among the user's and its group's."""
    return {quota: min(limit for account in accounts
                       if (limit := account.limit(quota, defaults)) is not None)
            for quota in PER_SESSION}


def lineage(t: Transaction, name: str) -> List[Account]:
    """A user's account and its group's."""
    rows = t.rows(SELECT + 'WHERE name = ?', name)
    if rows and rows[0][1] is not None:
        rows += t.rows(SELECT + 'WHERE name = ?', rows[0][1])
    return [_account(row) for row in rows]


def _account(row: Any) -> Account:
    head = len(COLUMNS) - len(QUOTAS)
    return Account._make([*row[:head], dict(zip(QUOTAS, row[head:]))])


def _change(t: Transaction, name: str, **values: Any) -> None:
    if not t.run('UPDATE accounts SET %s WHERE name = ?' % ', '.join(key + ' = ?'
                                                                     for key in values),
                 *values.values(), name):
        raise Unknown('there is no account %s; `spmat-gateway users` lists them' % name)


def _check_group(t: Transaction, name: str, group: Optional[str]) -> None:
    if group is None:
        return
    if name.startswith(GROUP_MARK) or not group.startswith(GROUP_MARK):
        raise Unknown('a user is in a group, whose name begins with @; not %s in %s' % (name,
                                                                                        group))
    if not t.row('SELECT 1 FROM accounts WHERE name = ?', group):
        raise Unknown('there is no group %s; `spmat-gateway users add %s` adds it' % (group, group))


def _check_fingerprint(t: Transaction, name: str, fingerprint: Optional[str]) -> None:
    row = t.row('SELECT name FROM accounts WHERE fingerprint = ? AND name <> ?', fingerprint,
                name) if fingerprint else None
    if row:
        raise Unknown('this certificate is of %s already' % row[0])
