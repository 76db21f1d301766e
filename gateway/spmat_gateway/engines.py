"""Engines: the process of one session, started by the command that the configuration names, here or
by systemd as a unit of its own."""
from __future__ import annotations

import contextlib
import os
import signal
import socket
import subprocess
import time
from typing import Dict, List, Mapping, Optional, Sequence, Tuple

from .config import Engine as Settings
from .engine_log import EngineLog

SECONDS_TO_START = 20.0                            # for systemd, when many start at once
SECONDS_TO_END = 5.0
SECONDS_TO_STOP = 20.0
BY_STATUS = {0: 'end', 3: 'refused', -signal.SIGXCPU: 'processor'}


def fill_in(words: Sequence[str], values: Mapping[str, str]) -> List[str]:
    """A command with what its braces name."""
    return [word.format(**values) for word in words]


def values_of(session: str, user: str, steps: int, bounds: Mapping[str, int]) -> Dict[str, str]:
    """What the braces of a command stand for."""
    return {**{quota: str(bound) for quota, bound in bounds.items()}, 'session': session,
            'user': user, 'steps': str(steps)}


def stop(settings: Settings, session: str) -> None:
    """Runs the command that ends what a session has left elsewhere."""
    if settings.stop:
        with contextlib.suppress(OSError, subprocess.TimeoutExpired):
            subprocess.run(fill_in(settings.stop, {'session': session}), stdin=subprocess.DEVNULL,
                           stdout=subprocess.DEVNULL, stderr=subprocess.DEVNULL,
                           env=_environment(settings), timeout=SECONDS_TO_STOP, check=False,
                           cwd='/')


class Engine:
    """A process `spmat run`, or what starts one elsewhere. `streams` are its standard input, output
    and error as descriptors, which are the caller's.

    Raises
    ------
    OSError
        Where the command can't be started.
    """

    def __init__(self, settings: Settings, values: Mapping[str, str], lease: float) -> None:
        words = fill_in(settings.words, values)
        self.streams, theirs = _pipes()
        try:
            self._process: Child | Unit = (Unit(settings, words, theirs, lease) if settings.socket
                                           else Child(settings, words, theirs))
        except OSError:
            _close(self.streams)
            raise
        finally:
            _close(theirs)
        self.process = self._process.number
        self._status: Optional[int] = None

    @property
    def processor(self) -> float:
        """The seconds of processor that it took, once it has ended."""
        return self._process.processor

    def signal(self, number: int) -> None:
        """Ends it by a signal, if it hasn't been waited for."""
        if self._status is None:
            self._process.signal(number)

    def renew(self, lease: float) -> None:
        """Lets it go on for so many seconds from now, whatever becomes of the gateway."""
        self._process.renew(lease)

    def end(self, seconds: float = 0.0) -> int:
        """Waits, then ends what is left of it; the status, negative for a signal."""
        if not self._wait(seconds):
            self.signal(signal.SIGTERM)
            if not self._wait(SECONDS_TO_END):
                self.signal(signal.SIGKILL)
                self._wait(SECONDS_TO_STOP)
        return -signal.SIGKILL if self._status is None else self._status

    def cause(self, told: EngineLog) -> str:
        """Why it has ended by itself: `end`, `refused`, `idle`, `processor`, or `engine` for a
        fault."""
        if self._status == 1 and told.end == 'idle':
            return 'idle'
        return BY_STATUS.get(-signal.SIGKILL if self._status is None else self._status, 'engine')

    def _wait(self, seconds: float) -> bool:
        until, pause = time.monotonic() + seconds, 0.0005
        while self._status is None:
            self._status = self._process.poll()
            if self._status is None:
                if time.monotonic() >= until:
                    return False
                time.sleep(pause)
                pause = min(2 * pause, 0.05)
        return True


class Child:
    """A process of the gateway's own user, with a process group of its own."""

    def __init__(self, settings: Settings, words: List[str], streams: Sequence[int]) -> None:
        self._process = subprocess.Popen(          # pylint: disable=consider-using-with
            words, stdin=streams[0], stdout=streams[1], stderr=streams[2],
            env=_environment(settings), start_new_session=True, cwd='/')
        self.number, self.processor = self._process.pid, 0.0

    def signal(self, number: int) -> None:
        """Sends a signal to the process and its children."""
        with contextlib.suppress(ProcessLookupError, PermissionError):
            os.killpg(self.number, number)

    def poll(self) -> Optional[int]:
        """Its status, None while it runs."""
        found, status, usage = os.wait4(self.number, os.WNOHANG)
        if not found:
            return None
        self.processor = usage.ru_utime + usage.ru_stime
        self._process.returncode = os.waitstatus_to_exitcode(status)
        return self._process.returncode

    def renew(self, lease: float) -> None:
        """Nobody ends it while the gateway hangs."""


class Unit:
    """A unit of systemd, with a user of its own, whose main process is `starter`."""

    def __init__(self, settings: Settings, words: List[str], streams: Sequence[int],
                 lease: float) -> None:
        variables = ['%s=%s' % pair for pair in settings.environment.items()]
        text = '\0'.join(['%f' % lease, 'env', *variables, *words])
        self._connection = socket.socket(socket.AF_UNIX, socket.SOCK_SEQPACKET)
        self._hung_up, self._status, self.processor = False, -int(signal.SIGKILL), 0.0
        try:
            self._connection.settimeout(SECONDS_TO_START)
            self._connection.connect(settings.socket)
            socket.send_fds(self._connection, [os.fsencode(text)], streams)
            told = self._connection.recv(1 << 12).decode(errors='replace')
            if not told.startswith('started '):
                raise OSError(told[len('fault '):] or '%s: no unit was started; see `journalctl -u '
                              'spmat-engine.socket -u "spmat-engine@*"`' % settings.socket)
            self.number = int(told.split()[1])
            self._connection.setblocking(False)
        except OSError:
            self._connection.close()
            raise

    def signal(self, _: int) -> None:
        """Hangs up: the unit ends."""
        self._hung_up = True
        with contextlib.suppress(OSError):
            self._connection.shutdown(socket.SHUT_WR)

    def renew(self, lease: float) -> None:
        """Its starter ends it where it isn't told so again within the lease."""
        with contextlib.suppress(OSError):         # it has ended
            self._connection.send(b'%f' % lease)

    def poll(self) -> Optional[int]:
        """Its status, None while it runs. A unit to which this has hung up has ended once all of it
        is gone."""
        try:
            told = self._connection.recv(1 << 12).split()
        except BlockingIOError:
            return None
        except OSError:
            told = []
        if told:
            self._status, self.processor = int(told[1]), float(told[2])
            if self._hung_up:
                return None
        self._connection.close()
        return self._status


def _environment(settings: Settings) -> Dict[str, str]:
    return {'PATH': os.environ.get('PATH', os.defpath), 'LANG': 'C.UTF-8', **settings.environment}


def _pipes() -> Tuple[List[int], List[int]]:
    """The gateway's ends of three pipes, and the engine's. OSError where there are no descriptors,
    and then none is left open."""
    made: List[int] = []
    try:
        for _ in range(3):
            made += os.pipe()
    except OSError:
        _close(made)
        raise
    return [made[1], made[2], made[4]], [made[0], made[3], made[5]]


def _close(descriptors: Sequence[int]) -> None:
    for descriptor in descriptors:
        os.close(descriptor)
