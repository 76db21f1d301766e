"""Sessions: from a connection through login, reservation and engine to the end of its account, in a
thread each."""
from __future__ import annotations

import contextlib
import functools
import logging
import signal
import socket
import threading
import time
import uuid
from typing import Any, Callable, Dict, List, Optional, Tuple, TypeVar

from . import gate, tls, users
from .accounts import NoQuota
from .config import Config
from .database import Refused as LedgerRefused, Unavailable
from .engine_log import EngineLog
from .engines import Engine, stop, values_of
from .gate import Gate, Place
from .journal import Entry, Journal
from .ledger import Ledger, Outcome, Reservation
from .metrics import Metrics
from .pipe import ClientGone, NoAccount, Pipe
from .replies import ReplyCounter
from .tls import Client

SECONDS_TO_ANSWER = 3.0  # for what is left to say to a client whose session was ended
SECONDS_AFTER_CLIENT = 0.25  # for an engine that is in no batch, to end by itself
SECONDS_FOR_A_SEAT = 1.0  # for a session of the same user that is just ending
LINES_A_SECOND = 10                                # of refusals, so that nobody fills a disk
LEASE_OF_ENGINES = 0.75                            # of the gateway's; it ends sessions at a half
ENDED_BY_ITSELF = ('end', 'refused')
REPLIES = {'sessions': 'no busy', 'enabled': 'no login', 'token': 'no login expired'}
Result = TypeVar('Result')
log = logging.getLogger('spmat-gateway')


class Refused(Exception):
    """The client isn't served; the words are the line that it reads."""

    def __init__(self, reply: str, why: str = '') -> None:
        super().__init__(reply)
        self.reply, self.why = reply, why


class Session:
    """One connection. `serve` is called in a thread of its own."""

    def __init__(self, sessions: 'Sessions', address: str, place: Place) -> None:
        self.id, self.address, self.place = uuid.uuid4().hex, address, place
        self.user = ''
        self._sessions, self._config = sessions, sessions.config
        self._told, self._counter = EngineLog(), ReplyCounter()
        self._cause, self._asked_at, self._noted = '', 0.0, 0
        self._reservation: Optional[Reservation] = None
        self.engine: Optional[Engine] = None
        self._pipe: Optional[Pipe] = None

    # -- for others

    @property
    def status(self) -> Optional[Dict[str, Any]]:
        """What it has taken so far, as an operator sees it; None before its engine has begun."""
        told, counter, pipe = self._told, self._counter, self._pipe
        engine, reservation = self.engine, self._reservation
        if pipe is None or engine is None or reservation is None:
            return None
        bytes_in, bytes_out = pipe.counts
        return {'id': self.id, 'user': self.user, 'address': self.address,
                'gateway': self._sessions.ledger.name,
                'seconds': time.monotonic() - self.place.began, 'reserved': reservation.steps,
                'spent': self.spent, 'queued': told.queued, 'runs': counter.runs,
                'jobs': counter.job_count, 'bytes_in': bytes_in, 'bytes_out': bytes_out,
                'process': engine.process}

    @property
    def spent(self) -> int:
        """The steps that it has told of, or that runs took whose replies have passed."""
        return max(self._told.spent, self._counter.spent)

    @property
    def entry(self) -> Entry:
        """What it has spent so far, for the journal and the ledger."""
        told, counter = self._told, self._counter
        # a reply may have passed before the engine's word that its run isn't queued any more
        queued = max(0, told.spent + told.queued - self.spent)
        return Entry(self.id, self.spent, counter.runs, counter.job_count, queued)

    def end(self, cause: str) -> None:
        """Ends it from outside; its own thread does the rest."""
        if not self._cause:
            self._cause, self._asked_at = cause, time.monotonic()
            if self.engine is not None:
                self.engine.signal(signal.SIGTERM)

    # -- its thread

    def serve(self, connection: socket.socket, is_proxied: bool) -> None:
        """Serves the connection until it ends."""
        client: Client = connection
        until = self.place.began + self._config.gateway.login_seconds
        try:
            if is_proxied:
                self._meet(connection, until)
            client = tls.shake_hands(connection, self._sessions.context, until)
            first = self._log_in(client, until)
            self._take_seat()
            try:
                self._serve(client, first)
            finally:
                self._sessions.leave(self)         # before the connection lingers
        except Refused as refused:
            self._sessions.refuse(self, refused.reply, refused.why)
            if refused.reply != 'no connection':
                _say(client, refused.reply, self._patience)
        except (OSError, ValueError) as fault:     # of a handshake, some are a ValueError
            self._sessions.refuse(self, 'no tls', str(fault))
        finally:
            self._pipe = None                      # each refers to the other, and has large buffers
            tls.close(client, self._patience)
            self.place.leave()

    @property
    def _patience(self) -> float:
        """The seconds for last words: few for who hasn't logged in."""
        return SECONDS_TO_ANSWER if self.user else 1.0

    def _meet(self, connection: socket.socket, until: float) -> None:
        """Takes the place of the client for whom a balancer connects, in place of the
        balancer's."""
        address = gate.read_proxy(connection, until)
        if address is not None:
            place = self._sessions.gate.take(address[0], self._config.gateway.per_address)
            if place is None:
                raise Refused('no connection')
            self.place.leave()
            self.place, self.address = place, '%s:%d' % address

    def _log_in(self, client: Client, until: float) -> bytes:
        """Finds the user; what the client has sent behind its login."""
        first = b''
        login = (users.login_by_kernel(client)
                 or tls.login_by_certificate(client, self._config.tls.names))
        if login is None:
            line, first = _read_line(client, until)
            login = users.parse_login(line)
        account = login and self._ask(functools.partial(
            self._sessions.ledger.accounts.find, login, self._config.gateway.new_users))
        if account is None:
            raise Refused('no login', 'there is no user %s, or another token is right' % login.name
                          if login else 'there is no login line')
        self.user = account.name
        self.place.enter()
        return first

    def _take_seat(self) -> None:
        """Takes a seat, once the quotas allow a session. Who has just ended another one gets its
        seat."""
        until = time.monotonic() + SECONDS_FOR_A_SEAT
        while True:
            left = self._sessions.left
            try:
                self._ask(lambda: self._sessions.ledger.check(self.user, self._config.limits))
                if self._sessions.seat(self):
                    return
                raise Refused('no busy', 'all seats are taken, or the gateway is being drained')
            except Refused as refused:
                if refused.reply != 'no busy' or not self._sessions.wait_for_seat(self.user, left,
                                                                                  until):
                    raise

    def _ask(self, question: Callable[[], Result]) -> Result:
        """What the ledger answers before there is a reservation."""
        if not self._sessions.ledger.is_up:
            raise Refused('no ledger', 'it hasn\'t answered for some seconds')
        try:
            return question()
        except NoQuota as none:
            reply = REPLIES.get(none.quota, 'no quota ' + none.quota.replace('_', '-'))
            raise Refused(reply, str(none)) from None
        except Unavailable as fault:
            raise Refused('no ledger', str(fault)) from None

    def _serve(self, client: Client, first: bytes) -> None:
        """Serves a session that has a seat."""
        self._reserve()
        try:
            self._start()
            cause = self._copy(client, first)
        except Refused:
            self._settle(Outcome(0, 'exact', 'engine'))
            raise
        self._finish(client, cause)

    def _reserve(self) -> None:
        """Reserves steps. Where the ledger doesn't answer, whether it did is unknown, and is
        settled once it does."""
        try:
            self._sessions.journal.open(self.id)
            self._reservation = self._ask(lambda: self._sessions.ledger.reserve(
                self.id, self.user, self._config.limits, self.address))
        except OSError as fault:                   # of the journal: the disk is full
            raise Refused('no ledger', str(fault)) from None
        except Refused as refused:
            if refused.reply == 'no ledger':
                self._settle(Outcome(0, 'exact', 'ledger'))
            else:
                self._sessions.journal.close(self.id)
            raise

    def _start(self) -> None:
        assert self._reservation is not None
        reservation = self._reservation
        values = values_of(self.id, self.user, reservation.steps, reservation.bounds)
        try:
            self.engine = Engine(self._config.engine, values, self._sessions.lease_left)
        except OSError as fault:
            raise Refused('no engine', str(fault)) from None
        self._sessions.metrics.begin(self.user, time.monotonic() - self.place.began)
        log.info('begin session=%s user=%s client=%s reserved=%d process=%d', self.id, self.user,
                 self.address, reservation.steps, self.engine.process)

    def _copy(self, client: Client, first: bytes) -> str:
        """Copies until the session ends; why it does, as far as the pipe can know."""
        assert self.engine is not None
        if self._cause:                            # it was ended before there was an engine
            self.engine.signal(signal.SIGTERM)
        self._pipe = Pipe(client, self.engine.streams, self._told, self._charge, self._look, first)
        try:
            if not self._pipe.run(self._deadline):
                self.end('seconds')
                self._pipe.run(self._deadline)     # what the engine has said until now
            return ''
        except ClientGone:
            return 'client-gone'
        except NoAccount as fault:
            log.error('session=%s: the engine\'s command starts another program, or has no --log: '
                      '%s', self.id, fault)
            return 'engine'
        except Exception as fault:                 # pylint: disable=broad-exception-caught
            # mostly of the journal, on a full disk; whatever it is, the session is settled
            log.error('session=%s: its steps can\'t be noted: %r', self.id, fault)
            return 'ledger'

    def _charge(self) -> None:
        """Notes what the session has spent so far."""
        spent = self.spent
        self._sessions.metrics.spend(self.user, spent - self._noted)
        self._noted = spent
        self._sessions.note_soon(self)

    def _look(self, piece: memoryview) -> None:
        """Notes the runs of replies before they go on, so that what a client reads is charged."""
        before = self.spent
        self._counter.look(piece)
        if self.spent > before:
            self._charge()

    def _deadline(self) -> float:
        if self._cause:
            return self._asked_at + SECONDS_TO_ANSWER
        assert self._reservation is not None
        return self.place.began + self._reservation.bounds['seconds']

    def _finish(self, client: Client, cause: str) -> None:
        """Ends the engine, settles the account, and tells the client."""
        assert self.engine is not None and self._pipe is not None
        try:
            if cause == 'client-gone':  # in no batch it ends by itself, and tells what it took
                self._pipe.finish(SECONDS_AFTER_CLIENT)
            status = self.engine.end(SECONDS_TO_ANSWER if self._pipe.ended else 0.0)
            self._pipe.finish(SECONDS_AFTER_CLIENT)
        except Exception as fault:                 # pylint: disable=broad-exception-caught
            log.error('session=%s: its steps can\'t be noted: %r', self.id, fault)
            status = self.engine.end()
        finally:
            self._pipe.close()
        stop(self._config.engine, self.id)
        own = self.engine.cause(self._told)
        cause = self._cause or cause or own
        outcome = self._outcome(cause)
        if own == 'engine' and not self._cause and cause != 'client-gone':
            log.error('session=%s: the engine ended with status %d: %s', self.id, status,
                      self._told.words or 'no word')
        self._settle(outcome)
        self._sessions.leave(self)
        if self._pipe.sent_all and cause not in (*ENDED_BY_ITSELF,
                                                 'client-gone') and self._counter.at_a_boundary:
            _say(client, 'no session %s %s %d' % (cause, outcome.basis, outcome.spent),
                 SECONDS_TO_ANSWER)

    def _outcome(self, cause: str) -> Outcome:
        assert self.engine is not None and self._pipe is not None and self._reservation is not None
        told, counter, queued = self._told, self._counter, self.entry.queued
        spent, basis = self.spent, 'exact' if told.end else 'known'
        if not told.end and self._config.gateway.unfinished == 'price' and queued:
            spent, basis = spent + queued, 'price'
        return Outcome(min(spent, self._reservation.steps), basis, cause, counter.runs,
                       counter.job_count, *self._pipe.counts, self.engine.processor)

    def _settle(self, outcome: Outcome) -> None:
        log.info('end session=%s user=%s cause=%s spent=%d basis=%s runs=%d jobs=%d in=%d out=%d '
                 'processor=%.3f',
                 self.id, self.user, outcome.cause, outcome.spent, outcome.basis, outcome.runs,
                 outcome.job_count, outcome.bytes_in, outcome.bytes_out, outcome.processor)
        self._sessions.settle(self.id, self.user, outcome)


class Sessions:
    """All connections, and what is still to be settled."""

    def __init__(self, config: Config, ledger: Ledger, journal: Journal, metrics: Metrics) -> None:
        self.config, self.ledger, self.journal, self.metrics = config, ledger, journal, metrics
        self.context, self.gate, self.draining = tls.make_context(config.tls), Gate(), False
        self._lock = threading.Condition()         # of which seats are waited for
        self._seated: Dict[str, Session] = {}
        self._unsettled: List[Tuple[str, str, Outcome]] = []
        self._changed: Dict[str, Session] = {}
        self._lines = (0, 0, 0)                    # of refusals: the second, told and untold ones
        self.left = 0                              # how often a seat was given back

    def reload(self, config: Config) -> None:
        """Takes another configuration, for sessions that begin from now on. ConfigError where its
        certificates can't be used."""
        context = tls.make_context(config.tls)
        self.config, self.context = config, context

    def accept(self, connection: socket.socket, address: Tuple[str, int]) -> None:
        """Serves a connection, unless it is one too many."""
        gateway, is_local = self.config.gateway, connection.family == socket.AF_UNIX
        is_proxied = not is_local and gate.is_named(address[0], gateway.proxies)
        place = self.gate.take('' if is_proxied or is_local else address[0], gateway.per_address)
        if place is not None:
            session = Session(self, 'local' if is_local else '%s:%d' % address[:2], place)
            try:
                threading.Thread(target=session.serve, args=(connection, is_proxied), daemon=True,
                                 name=session.id[:12]).start()
                return
            except RuntimeError:                   # no thread more is to be had
                place.leave()
        self.metrics.refuse('no connection')
        connection.close()

    def seat(self, session: Session) -> bool:
        """Takes a seat for a session whose user is known; whether there is one. Some are kept for
        users who have none."""
        gateway = self.config.gateway
        with self._lock:
            kept = gateway.seats // 4 if gateway.seats_kept is None else gateway.seats_kept
            seats = gateway.seats - (kept if self._has_seat(session.user) else 0)
            if self.draining or len(self._seated) >= seats:
                return False
            self._seated[session.id] = session
            return True

    def wait_for_seat(self, user: str, left: int, until: float) -> bool:
        """Waits until a seat is given back since `left` was read, where a session of the user is
        here; whether one was."""
        with self._lock:
            return self.left != left or self._has_seat(user) and self._lock.wait_for(
                lambda: self.left != left, max(0.0, until - time.monotonic()))

    def _has_seat(self, user: str) -> bool:
        return any(other.user == user for other in self._seated.values())

    def refuse(self, session: Session, reply: str, why: str) -> None:
        """Counts a client that is turned away, and tells the log, unless that has many lines."""
        self.metrics.refuse(reply)
        second = int(time.monotonic())
        with self._lock:
            before, lines, untold = self._lines
            lines = lines + 1 if second == before else 1
            self._lines = (second, lines, untold + 1 if lines > LINES_A_SECOND else 0)
            if lines > LINES_A_SECOND:
                return
        log.info('refused client=%s user=%s reply=%r untold=%d because=%r', session.address,
                 session.user or '-', reply, untold, why)

    def leave(self, session: Session) -> None:
        """Gives a session's seat to others."""
        with self._lock:
            if self._seated.pop(session.id, None):
                self.left += 1
                self._lock.notify_all()

    def running(self) -> List[Dict[str, Any]]:
        """The sessions that run."""
        with self._lock:
            sessions = list(self._seated.values())
        return [status for session in sessions if (status := session.status) is not None]

    @property
    def count(self) -> int:
        """How many seats are taken."""
        return len(self._seated)

    @property
    def lease_left(self) -> float:
        """The seconds for which engines go on from now on if this gateway hangs: they end before
        another one presumes so."""
        unseen = self.ledger.unseen if self.ledger.database.is_shared else 0.0
        return max(0.0, LEASE_OF_ENGINES * self.config.gateway.lease_seconds - unseen)

    def renew(self) -> None:
        """Lets the engines go on."""
        with self._lock:
            engines = [session.engine for session in self._seated.values() if session.engine]
        for engine in engines:
            engine.renew(self.lease_left)

    @property
    def unsettled(self) -> int:
        """How many sessions have ended and wait for the ledger."""
        return len(self._unsettled)

    def end(self, session: str, cause: str) -> bool:
        """Ends a session; whether there is one of this name, or of one that begins so."""
        with self._lock:
            found = [other for other in self._seated.values()
                     if other.id.startswith(session)] if session else []
        if len(found) == 1:
            found[0].end(cause)
        return len(found) == 1

    def end_all(self, cause: str) -> None:
        """Ends all sessions."""
        with self._lock:
            found = list(self._seated.values())
        for session in found:
            session.end(cause)

    # -- the ledger

    def settle(self, session: str, user: str, outcome: Outcome) -> None:
        """Settles a session now, or once the ledger answers."""
        self.metrics.end(user, outcome)
        try:
            self._settle(session, user, outcome)
        except Unavailable as fault:
            log.warning('session=%s is settled later, as the ledger doesn\'t answer: %s', session,
                        fault)

    def _settle(self, session: str, user: str, outcome: Outcome) -> None:
        try:
            if not self.ledger.is_up:
                raise Unavailable('it hasn\'t answered for some seconds')
            self.ledger.settle(session, outcome, account=user)
        except Unavailable:
            with self._lock:
                self._unsettled.append((session, user, outcome))
            raise
        self.journal.close(session)

    def settle_all(self) -> None:
        """Settles what is still to be settled. One that the ledger refuses keeps no other back."""
        with self._lock:
            waiting, self._unsettled = self._unsettled, []
        fault = None
        while waiting:
            try:
                self._settle(*waiting.pop(0))
            except LedgerRefused as refused:
                fault = refused
            except Unavailable:
                with self._lock:
                    self._unsettled += waiting
                raise
        if fault:
            raise fault

    def note_soon(self, session: Session) -> None:
        """Notes what a session has spent in the journal now, and in the ledger within a second."""
        self.journal.note(session.entry)
        with self._lock:
            self._changed[session.id] = session

    def note(self) -> None:
        """Tells the ledger what the sessions that run have spent since the last time."""
        with self._lock:
            changed, self._changed = self._changed, {}
        rows = [(entry.spent, entry.runs, entry.jobs, entry.session)
                for entry in (session.entry for session in changed.values())]
        try:
            self.ledger.note(rows)
        except LedgerRefused:                      # one of them; the others are to be noted
            for row in rows:
                with contextlib.suppress(LedgerRefused):
                    self.ledger.note([row])
        except Unavailable:
            with self._lock:
                self._changed = {**changed, **self._changed}
            raise


def _read_line(client: Client, until: float) -> Tuple[bytes, bytes]:
    """The first line without its end, and what came behind it."""
    data = b''
    while b'\n' not in data:
        left = until - time.monotonic()
        if left <= 0 or len(data) > users.LONGEST_LOGIN:
            raise Refused('no login', 'no login line came in time' if left <= 0
                          else 'the first line is too long')
        client.settimeout(left)
        try:
            piece = client.recv(1 << 14)
        except OSError as fault:
            raise Refused('no login', str(fault)) from None
        if not piece:
            raise Refused('no login', 'the client has gone')
        data += piece
    line, _, rest = data.partition(b'\n')
    return line, rest


def _say(client: Client, line: str, seconds: float) -> None:
    """Sends a last line, if the client takes it."""
    with contextlib.suppress(OSError):
        client.settimeout(seconds)
        client.sendall(line.encode() + b'\n')
