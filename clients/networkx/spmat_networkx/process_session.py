"""The one session of a process, as the settings `nx.config.backends.spmat` describe it."""
from __future__ import annotations

import functools
import os
import threading
import time
import warnings
from typing import Any, Callable, Dict, NamedTuple, Optional, Sequence, Tuple, Union

import networkx as nx

from spmat import Session, SpmatError
from spmat.limits import MOST_STEPS, MOST_WORKERS

from .backend_info import DEFAULTS

MOST_DEFAULT_WORKERS = 8
# how long a session that couldn't be opened isn't tried again by priority
SECONDS = 30.0


# -- settings

def _read_number(least: int, most: int, value: Any) -> int:
    word = str(value)                              # a text, too, as the command line takes it
    number = int(word) if word.strip().lstrip('+-').isdigit() else float(word)
    if number != int(number) or not least <= number <= most:
        raise ValueError
    return int(number)


def _read_program(value: Any) -> Any:
    words = tuple(map(os.fsdecode, value if isinstance(value, (list, tuple)) else [value]))
    if not words:
        raise ValueError
    return words if isinstance(value, (list, tuple)) else words[0]


def _read_address(value: str) -> str:
    _, colon, port = value.rpartition(':')
    if value and '/' not in value and not (colon and port.isdigit() and 1 <= int(port) <= 65535):
        raise ValueError
    return value


def _read_flag(value: Any) -> bool:
    return {'true': True, '1': True, 'false': False, '0': False}[str(value).lower()]


# what reads each setting, and what it takes
SETTINGS: Dict[str, Tuple[Callable[[Any], Any], str]] = {
    'program': (_read_program, 'the path of the program, or the words that start it, as a text or '
                'a list'),
    'connect': (_read_address, 'HOST:PORT, as "127.0.0.1:7171", or the path of a socket file, with '
                'a slash'),
    'steps': (functools.partial(_read_number, 0, MOST_STEPS),
              'a whole number, 0 (as many as there can be) to 2^62, also 1e9'),
    'workers': (functools.partial(_read_number, 0, MOST_WORKERS),
                'a whole number, 0 (one for each processor) to %d' % MOST_WORKERS),
    'least_edges': (functools.partial(_read_number, -1, 1 << 62),
                    'a whole number, 0 or more, or -1 (a number for each function)'),
    'scale': (functools.partial(_read_number, 0, 1 << 62),
              'a whole number, 0 (weights are whole multiples of a power of ten or two) or more, '
              'also 1e6'),
    'compare_weights': (_read_flag, 'True or False')}


def check_setting(name: str, value: Any) -> Any:
    """Check a setting, and bring it into one form. ValueError if no session can be opened with
    it."""
    read, meaning = SETTINGS[name]
    try:
        return read(value)
    except (ValueError, TypeError, KeyError, AttributeError, OverflowError):
        raise ValueError('%s is %s, not %r' % (name, meaning, value)) from None


def setting(name: str) -> Any:
    """Look up a setting: the default if networkx doesn't know the backend's settings."""
    return getattr(getattr(nx.config.backends, 'spmat', None), name, DEFAULTS[name])


class Wanted(NamedTuple):
    """What a session is opened with. `connect` is `HOST:PORT` of `spmat serve` or the path of its
    socket file, or empty for a program of one's own."""
    program: Union[str, Sequence[str]]
    connect: str
    steps: int
    workers: int


def read_settings() -> Wanted:
    """Read the settings as they are now; 0 steps are as many as a session can have, 0 workers one
    for each processor, 8 at most."""
    processors = (len(os.sched_getaffinity(0)) if hasattr(os, 'sched_getaffinity')
                  else os.cpu_count() or 1)
    return Wanted(setting('program'), setting('connect'), setting('steps') or MOST_STEPS,
                  setting('workers') or min(MOST_DEFAULT_WORKERS, processors))


# -- the session

class NoSession(RuntimeError):
    """No session can be opened with the settings; the cause is what came of it."""


class Failure(NamedTuple):
    """Settings with which no session could be opened, when that was tried, and what came of it."""
    wanted: Wanted
    when: float
    words: str


class Warned:
    """What calls by priority have met: the last failure, and whether this process was warned."""
    last: Optional[Failure] = None
    is_told = False


_lock = threading.RLock()
_open: Dict[Tuple[int, Wanted], Session] = {}


def session() -> Session:
    """Return the one session of this process that the backend uses.

    A new one is opened at the first call, and after a change of the settings. So it is after the
    last one has ended or its program died, and in a process that was forked off.

    Returns
    -------
    Session

    Raises
    ------
    NoSession
        If there is no program, or one that isn't spmat, or nobody listens, or a server has no seat
        left. It is a RuntimeError.
    """
    with _lock:
        key = (os.getpid(), read_settings())
        held = _open.get(key)
        if held is not None and held.is_open:
            return held
        close()
        # a parent's sessions are forgotten, and left to the parent
        _open.clear()
        try:
            _open[key] = _open_session(key[1])
        except (OSError, SpmatError) as fault:
            raise NoSession('spmat has no session: %s' % _describe(key[1], fault)) from fault
        Warned.last = None
        return _open[key]


def _open_session(wanted: Wanted) -> Session:
    if '/' in wanted.connect:
        return Session.connect(wanted.connect)
    if wanted.connect:
        host, _, port = wanted.connect.rpartition(':')
        return Session.connect(host or '127.0.0.1', int(port))
    return Session(wanted.steps, wanted.workers, wanted.program or None)


def _describe(wanted: Wanted, fault: BaseException) -> str:
    """Say why no session was opened, and which setting that comes from."""
    said = str(fault)
    if isinstance(fault, OSError) and fault.strerror:
        said = fault.strerror + (': ' + str(fault.filename) if fault.filename else '')
    name = 'connect' if wanted.connect else 'program'
    value = getattr(wanted, name)
    return '%s (nx.config.backends.spmat.%s is %r)' % (said, name, value) if value else said


def find_failure() -> Optional[str]:
    """Say why no session can be had, for a call that networkx hands over by itself: None if one is
    open, or can be opened. The first such call of a process warns; after a failure some time passes
    before it is tried again, unless settings change."""
    wanted, now, last = read_settings(), time.monotonic(), Warned.last
    if last is not None and last.wanted == wanted and now - last.when < SECONDS:
        return last.words
    try:
        session()
    except NoSession as fault:
        Warned.last = Failure(wanted, now, str(fault))
        warn(str(fault))
        return str(fault)
    return None


def warn(words: str) -> None:
    """Warn once a process that networkx does the work, although spmat has priority."""
    with _lock:
        is_told, Warned.is_told = Warned.is_told, True
    if not is_told:
        warnings.warn('%s; networkx does the work itself. This is said once' % words,
                      RuntimeWarning, stacklevel=2)


def close() -> None:
    """End this process's session; the next call opens another."""
    with _lock:
        for key in [key for key in _open if key[0] == os.getpid()]:
            _open.pop(key).close()
