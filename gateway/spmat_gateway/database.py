"""Transactions in SQLite or in PostgreSQL, in words that both understand, each within a time."""
from __future__ import annotations

import contextlib
import functools
import selectors
import sqlite3
import threading
import time
from typing import Any, Callable, Iterable, Iterator, List, Optional, Sequence, Tuple, TypeVar

Row = Tuple[Any, ...]
Result = TypeVar('Result')
SERVERS = ('postgresql://', 'postgres://')
SECONDS_TO_WAIT = 10.0                             # for a whole transaction
CONNECTIONS = 8                                    # to a server; a file has one writer anyway
BEGIN = ("BEGIN%s; SET LOCAL statement_timeout = '%ds'; "
         "SET LOCAL idle_in_transaction_session_timeout = '%ds'")


class Unavailable(Exception):
    """The database doesn't answer. Whether the last transaction was committed isn't known."""


class Refused(Unavailable):
    """The database answers, and refuses this transaction; others may well be taken."""


class Transaction:
    """What a transaction can be asked; a value is a `?`."""

    def __init__(self, cursor: Any, mark: str) -> None:
        self._cursor, self._mark = cursor, mark

    def run(self, sql: str, *values: Any) -> int:
        """Runs a statement; how many rows it has changed."""
        self._cursor.execute(sql.replace('?', self._mark), values)
        return int(self._cursor.rowcount)

    def run_each(self, sql: str, rows: Iterable[Sequence[Any]]) -> None:
        """Runs a statement with each of many rows of values."""
        self._cursor.executemany(sql.replace('?', self._mark), list(rows))

    def rows(self, sql: str, *values: Any) -> List[Row]:
        """The rows that a statement finds."""
        self._cursor.execute(sql.replace('?', self._mark), values)
        return list(self._cursor.fetchall())

    def row(self, sql: str, *values: Any) -> Optional[Row]:
        """The first row that a statement finds."""
        return next(iter(self.rows(sql, *values)), None)


class Database:
    """A few connections, which threads take in turns. After a fault they are opened again.

    Parameters
    ----------
    url
        `postgresql://..`, or the path of a file for SQLite.
    """

    def __init__(self, url: str) -> None:
        self.is_shared = url.startswith(SERVERS)
        self._url = url
        self._free: List[Any] = []
        self._places = threading.BoundedSemaphore(CONNECTIONS if self.is_shared else 1)
        self._module: Any = sqlite3
        if self.is_shared:
            import psycopg
            self._module = psycopg
        # the clock of a shared database counts: those of several machines differ
        self.now = ('extract(epoch from clock_timestamp())' if self.is_shared
                    else "((julianday('now') - 2440587.5) * 86400.0)")
        self.today = ("to_char(clock_timestamp() AT TIME ZONE 'UTC', 'YYYY-MM-DD')"
                      if self.is_shared else "strftime('%Y-%m-%d', 'now')")

    def transact(self, work: Callable[[Transaction], Result],
                 seconds: float = SECONDS_TO_WAIT) -> Result:
        """Runs a function in a transaction, whole or not at all.

        Raises
        ------
        Unavailable
            Where the database doesn't answer in time. The work may have been done all the same, so
            it has to bear being done twice.
        """
        if not self._places.acquire(timeout=SECONDS_TO_WAIT):  # pylint: disable=consider-using-with
            raise Unavailable('no connection was free for %d seconds' % SECONDS_TO_WAIT)
        try:
            with self._faults():
                connection = self._take()
                try:
                    result = self._attempt(connection, work, seconds, 'BEGIN IMMEDIATE', '')
                except self._module.Error:
                    connection.close()
                    self.close()                   # what has broken for one has for all
                    raise
                except BaseException:
                    self._free.append(connection)
                    raise
                self._free.append(connection)
                return result
        finally:
            self._places.release()

    def read(self, work: Callable[[Transaction], Result], seconds: float) -> Result:
        """Runs a function on one moment of the database, by a connection of its own: it may take
        long, and nobody waits for it."""
        with self._faults(), contextlib.closing(self._connect()) as connection:
            return self._attempt(connection, work, seconds, 'BEGIN',
                                 ' ISOLATION LEVEL REPEATABLE READ READ ONLY')

    def rows(self, sql: str, *values: Any) -> List[Row]:
        """The rows that one statement finds."""
        return self.transact(lambda t: t.rows(sql, *values))

    def close(self) -> None:
        """Closes the connections that nobody uses."""
        with contextlib.suppress(IndexError, self._module.Error):
            while True:
                self._free.pop().close()

    @contextlib.contextmanager
    def _faults(self) -> Iterator[None]:
        """Tells faults of the database from those of one transaction."""
        try:
            yield
        except (self._module.Error, OSError) as fault:  # OSError: SQLite's file can't be opened
            is_away = isinstance(fault, (self._module.OperationalError,
                                         self._module.InterfaceError, OSError))
            raise (Unavailable if is_away else Refused)(str(fault).strip()
                                                        or type(fault).__name__) from None

    def _attempt(self, connection: Any, work: Callable[[Transaction], Result], seconds: float,
                 begin: str, kind: str) -> Result:
        cursor = connection.cursor()
        if self.is_shared:
            connection.deadline = time.monotonic() + seconds
            begin = BEGIN % (kind, seconds, seconds)
        cursor.execute(begin)
        try:
            result = work(Transaction(cursor, '%s' if self.is_shared else '?'))
            cursor.execute('COMMIT')
            return result
        except BaseException:
            with contextlib.suppress(self._module.Error):  # SQLite's lock outlives a mere close
                cursor.execute('ROLLBACK')
            raise

    def _take(self) -> Any:
        with contextlib.suppress(IndexError):
            return self._free.pop()
        return self._connect()

    def _connect(self) -> Any:
        if self.is_shared:
            return _make_bounded(self._module).connect(
                self._url, autocommit=True, connect_timeout=int(SECONDS_TO_WAIT),
                keepalives_idle=10, prepare_threshold=None, client_encoding='UTF8')
        connection = sqlite3.connect(self._url, SECONDS_TO_WAIT, isolation_level=None,
                                     check_same_thread=False)
        connection.execute('PRAGMA journal_mode = WAL')
        connection.execute('PRAGMA synchronous = FULL')
        return connection


@functools.lru_cache(None)
def _make_bounded(psycopg: Any) -> Any:
    """A class of connections whose waits end at a deadline, also where a server hangs that the
    kernel still answers for."""
    class Bounded(psycopg.Connection):  # type: ignore[misc]
        """One that gives up at `deadline`."""
        deadline = 0.0

        def wait(self, generator: Any, *_: Any, **__: Any) -> Any:
            """Drives what psycopg waits for; `OperationalError` once the time is over."""
            try:
                wanted = next(generator)
                with selectors.PollSelector() as selector:
                    selector.register(self.pgconn.socket, wanted)
                    while True:
                        selector.modify(self.pgconn.socket, wanted)
                        found = selector.select(max(0.0, self.deadline - time.monotonic()))
                        if not found:
                            raise psycopg.OperationalError('no answer in time')
                        wanted = generator.send(found[0][1])
            except StopIteration as ended:
                return ended.value
    return Bounded
