"""Keeps the ledger in step with the sessions of a gateway, and says whether it answers.

One thread says each second that this gateway lives, and no other work delays it. A second one
settles and notes, and may wait for a row. Who judges looks at the time of the last answer
alone, so it is no matter which of them hangs.
"""
from __future__ import annotations

import contextlib
import logging
import threading
import time
from concurrent import futures
from typing import Dict, Optional

from . import engines
from .config import ConfigError
from .database import Unavailable
from .ledger import SECONDS_UNSEEN, Outcome
from .sessions import Sessions

SECONDS_AFTER_DRAIN = 20.0
STOPS_AT_ONCE = 16
log = logging.getLogger('spmat-gateway')


class Keeper:
    """Two threads, from `start` to `stop`. `fault` is why the ledger can't be used at all."""

    def __init__(self, sessions: Sessions) -> None:
        self._sessions, self._ledger, self._journal = sessions, sessions.ledger, sessions.journal
        self.is_prepared = False
        self.fault: Optional[ConfigError] = None
        self._renewed = float('-inf')
        self._told: Dict[str, float] = {}
        self._stopping, self._settled = threading.Event(), threading.Event()
        self._threads = [threading.Thread(target=work, daemon=True)
                         for work in (self._keep, self._beat)]

    def start(self) -> None:
        """Begins."""
        for thread in self._threads:
            thread.start()

    def stop(self) -> None:
        """Settles what is left, for some seconds at most."""
        self._stopping.set()
        self._threads[0].join(SECONDS_AFTER_DRAIN)

    def judge(self) -> None:
        """Says so where the ledger hasn't answered for some seconds, and ends the sessions before
        other gateways presume their end. Where this hangs the engines end by themselves."""
        unseen, lease = self._ledger.unseen, self._sessions.config.gateway.lease_seconds
        if time.monotonic() - self._renewed > lease / 16:
            self._renewed = time.monotonic()
            self._sessions.renew()
        if self.is_prepared and unseen > SECONDS_UNSEEN:
            self._lose('no answer for %d seconds' % unseen)
        if self._ledger.database.is_shared and unseen > lease / 2:
            self._sessions.end_all('ledger')

    def _beat(self) -> None:
        """Says each second that this gateway lives, and asks which sessions are to end."""
        while not self._settled.wait(1.0 if self.is_prepared else 0.2):
            try:
                if not self.is_prepared:
                    self._prepare()
                self._ledger.beat()
                for session, cause in self._ledger.wishes():
                    self._sessions.end(session, cause)
            except ConfigError as fault:
                self.fault = fault
                return
            except (Unavailable, OSError) as fault:  # OSError: the journal can't be written
                self._sessions.metrics.ledger_faults.inc()
                self._lose(fault)

    def _lose(self, why: object) -> None:
        if self._ledger.lose() or not self.is_prepared:
            self._tell('doesn\'t answer', why)

    def _tell(self, what: str, why: object) -> None:
        """Writes a line into the log, the same one each minute at most."""
        if time.monotonic() > self._told.get(what, 0.0) + 60:
            self._told[what] = time.monotonic()
            log.error('the ledger %s: %s', what, why)

    def _keep(self) -> None:
        """Keeps the ledger in step, each second, until the gateway stops and all is settled."""
        sessions, until = self._sessions, float('inf')
        while time.monotonic() < until:
            if self._stopping.wait(0.2 if sessions.unsettled else 1.0):
                until = min(until, time.monotonic() + SECONDS_AFTER_DRAIN / 2)
                time.sleep(0.05)
            for work in (sessions.settle_all, sessions.note, self._settle_lost):
                try:
                    if self._ledger.is_up:
                        work()
                except (Unavailable, OSError) as fault:
                    self._tell('can\'t be kept in step', fault)
            if self._stopping.is_set() and not sessions.unsettled:
                break
        self._settled.set()
        with contextlib.suppress(Unavailable):
            self._ledger.settle_all(self._ledger.instance, 'drained')

    def _settle_lost(self) -> None:
        lease = self._sessions.config.gateway.lease_seconds
        # others have a whole lease to be seen, too
        if self._ledger.database.is_shared and self._ledger.up_for > lease:
            lost = self._ledger.settle_lost(lease)
            if lost:
                log.warning('settled %d sessions of a gateway that is gone', lost)

    def _prepare(self) -> None:
        """Makes the tables, and ends and settles what the run before has left."""
        self._ledger.prepare()
        with futures.ThreadPoolExecutor(STOPS_AT_ONCE) as pool:
            for entry in self._journal.left:
                pool.submit(engines.stop, self._sessions.config.engine, entry.session)
        for entry in self._journal.left:
            queued = entry.queued if self._sessions.config.gateway.unfinished == 'price' else 0
            self._ledger.settle(entry.session, Outcome(entry.spent + queued, 'price' if queued
                                                      else 'known', 'gateway-killed', entry.runs,
                                                      entry.jobs))
        if self._journal.left_by:
            self._ledger.settle_all(self._journal.left_by, 'gateway-killed')
        if self._journal.left:
            log.warning('settled %d sessions that were left when the gateway was killed',
                        len(self._journal.left))
        if not self._ledger.database.is_shared:     # as after a restore: nobody else runs these
            self._ledger.settle_lost(0, 'gateway-killed', presume=False)
        self._ledger.beat()
        self._journal.begin()
        self.is_prepared = True
