"""The gateway's process: it listens, drains, and minds signals."""
from __future__ import annotations

import asyncio
import contextlib
import logging
import os
import signal
import socket
import stat
import time
import uuid
from typing import List, Optional

from prometheus_client import Gauge

from . import admin, config as configuration, systemd
from .config import Config, ConfigError
from .database import Database
from .journal import Journal
from .keeper import SECONDS_AFTER_DRAIN, Keeper
from .ledger import Ledger
from .metrics import Metrics
from .sessions import Sessions
from .tls import end_of

BACKLOG = 512
KEEPALIVE = ((socket.TCP_KEEPIDLE, 20), (socket.TCP_KEEPINTVL, 10), (socket.TCP_KEEPCNT, 3),
             (socket.TCP_NODELAY, 1))
log = logging.getLogger('spmat-gateway')


class Server:
    """One run of a gateway.

    Parameters
    ----------
    path
        Its file, which is read again by a reload.
    config
        What the file says.
    """

    def __init__(self, path: str, config: Config) -> None:
        self._path, self.config = path, config
        self.began, self.instance = time.time(), uuid.uuid4().hex
        os.umask(0o077)
        os.makedirs(config.gateway.state, exist_ok=True)
        self.journal = Journal(config.gateway.state, self.instance)
        self.ledger = Ledger(Database(config.ledger), self.instance, config.gateway.name)
        self.metrics = Metrics()
        self.sessions = Sessions(config, self.ledger, self.journal, self.metrics)
        self.keeper = Keeper(self.sessions)
        self._drained: Optional[asyncio.Task[None]] = None
        self._listeners: List[socket.socket] = []
        self._stopped = asyncio.Event()
        sessions = self.sessions
        for name, words, value in (
                ('sessions_running', 'Sessions that run', lambda: sessions.count),
                ('sessions_unsettled', 'Sessions that wait for the ledger',
                 lambda: sessions.unsettled),
                ('connections_waiting', 'Connections before their login',
                 lambda: sessions.gate.count),
                ('ledger_up', 'Whether the ledger answers', lambda: self.ledger.is_up),
                ('seats', 'Sessions that may run at once', lambda: sessions.config.gateway.seats),
                ('certificate_end_seconds', 'When the certificate ends, in seconds since 1970',
                 lambda: end_of(sessions.config.tls))):
            Gauge('spmat_gateway_' + name, words,
                  registry=self.metrics.registry).set_function(value)

    @property
    def is_ready(self) -> bool:
        """Whether a client would be served now."""
        return (bool(self._listeners) and self.ledger.is_up and not self.sessions.draining
                and self.sessions.count < self.sessions.config.gateway.seats)

    async def run(self) -> None:
        """Serves until it is drained."""
        loop = asyncio.get_running_loop()
        gateway = self.config.gateway
        web = await admin.start(self, gateway.admin, gateway.page)
        for number, seconds in ((signal.SIGTERM, None), (signal.SIGINT, 0.0)):
            loop.add_signal_handler(number, self.drain, seconds)
        loop.add_signal_handler(signal.SIGHUP, self.reload)
        self.keeper.start()
        while not (self.keeper.is_prepared or self._stopped.is_set() or self.keeper.fault):
            await asyncio.sleep(0.02)
        if self.keeper.fault:
            raise self.keeper.fault
        if not self._stopped.is_set():
            self._listen()
            systemd.tell('READY=1')
        watch = loop.create_task(self._watch())
        await self._stopped.wait()
        await loop.run_in_executor(None, self.keeper.stop)
        watch.cancel()
        for listener in self._listeners:
            loop.remove_reader(listener)
            listener.close()
        for runner in web:
            await runner.cleanup()
        log.info('stopped')

    async def _watch(self) -> None:
        while True:
            await asyncio.sleep(0.25)
            self.keeper.judge()
            self.sessions.gate.tell()
            systemd.tell('WATCHDOG=1')

    def drain(self, seconds: Optional[float] = None) -> None:
        """Takes no session more, lets those that run end by themselves for some time, ends the
        rest, and stops. A second call shortens the time."""
        seconds = self.sessions.config.gateway.drain_seconds if seconds is None else seconds
        log.info('draining seconds=%g sessions=%d', seconds, self.sessions.count)
        systemd.tell('STOPPING=1')
        self.sessions.draining = True
        if self._drained is not None:
            self._drained.cancel()
        self._drained = asyncio.get_running_loop().create_task(self._drain(seconds))

    def reload(self) -> None:
        """Reads the file again. What can't be used changes nothing."""
        try:
            self.sessions.reload(configuration.read(self._path))
            log.info('reloaded')
        except ConfigError as fault:
            log.error('not reloaded: %s', fault)

    async def _drain(self, seconds: float) -> None:
        await self._until_empty(seconds)
        if self.sessions.count:
            self.sessions.end_all('drained')
            await self._until_empty(SECONDS_AFTER_DRAIN)
        self._stopped.set()

    async def _until_empty(self, seconds: float) -> None:
        until = time.monotonic() + seconds
        while self.sessions.count and time.monotonic() < until:
            await asyncio.sleep(0.02)

    def _listen(self) -> None:
        for text in self.config.gateway.listen:
            host, port = configuration.parse_address('listen', text)
            family = socket.AF_INET6 if ':' in host else socket.AF_INET
            self._serve(text, socket.create_server((host, port), family=family, backlog=BACKLOG))
        path = self.config.gateway.local
        if path:
            listener = socket.socket(socket.AF_UNIX)
            with contextlib.suppress(FileNotFoundError):
                if stat.S_ISSOCK(os.stat(path).st_mode):  # which a killed gateway has left
                    os.unlink(path)
            listener.bind(path)
            os.chmod(path, 0o666)                  # the kernel says who comes
            listener.listen(BACKLOG)
            self._serve(path, listener)

    def _serve(self, address: str, listener: socket.socket) -> None:
        self._listeners.append(listener)
        listener.setblocking(False)
        asyncio.get_running_loop().add_reader(listener, self._accept, listener)
        log.info('listening address=%s tls=%s name=%s', address,
                 'yes' if self.config.tls.certificate else 'no', self.config.gateway.name)

    def _accept(self, listener: socket.socket) -> None:
        for _ in range(BACKLOG):
            try:
                connection, address = listener.accept()
            except BlockingIOError:
                return
            except OSError as fault:  # no descriptor is left; the next turn may have one
                log.error('accept: %s', fault)
                time.sleep(0.01)
                return
            if connection.family != socket.AF_UNIX:
                connection.setsockopt(socket.SOL_SOCKET, socket.SO_KEEPALIVE, 1)
                for name, value in KEEPALIVE:
                    connection.setsockopt(socket.IPPROTO_TCP, name, value)
            self.sessions.accept(connection, address)
