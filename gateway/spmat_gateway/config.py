"""The gateway's TOML file: every key, its type and its range. docs/service.md has one with all
keys."""
from __future__ import annotations

import dataclasses
import ipaddress
import math
import os
import re
import socket
import sys
from typing import Any, Dict, Mapping, Optional, Tuple

from .users import GROUP_MARK, is_account

if sys.version_info >= (3, 11):
    import tomllib
else:
    import tomli as tomllib

DEFAULT_PATH = '/etc/spmat-gateway.toml'
DEFAULT_ADMIN = '/run/spmat-gateway/admin.sock'
MOST_STEPS = 1 << 62
MOST_OF_SESSION = 1 << 48                          # so that sums of ten thousand fit 64 bits
MOST_SECONDS = 1_000_000
MOST_DAYS = 100_000
SESSION = ('prlimit', '--as={memory}', '--cpu={processor}:', '--core=0', '--', 'spmat', 'run',
           '--steps', '{steps}', '--workers', '{workers}', '--idle', '{idle}', '--log',
           '--log-every', '1')
ALONE = ('setpriv', '--pdeathsig', 'KILL', *SESSION)  # where systemd doesn't end what is left
WORDS = {'command': ('steps', 'workers', 'memory', 'processor', 'idle', 'seconds', 'user',
                     'session'), 'stop': ('session',)}


class ConfigError(ValueError):
    """The file can't be used; the words say which key, what came and what was expected."""


def _number(default: Optional[int], least: int, most: int) -> Any:
    return dataclasses.field(default=default, metadata={'least': least, 'most': most})


def _choice(*words: str) -> Any:
    return dataclasses.field(default=words[0], metadata={'choices': words})


@dataclasses.dataclass(frozen=True)
class Limits:
    """What an account may take that has no quota of its own. `None` is no limit.

    The first four bound all sessions of an account together, the others each of its sessions.
    """
    steps_a_day: Optional[int] = _number(None, 0, MOST_STEPS)
    steps_in_all: Optional[int] = _number(None, 0, MOST_STEPS)
    sessions: Optional[int] = _number(4, 0, 10_000)
    sessions_an_hour: Optional[int] = _number(3_600, 0, 1_000_000)
    session_steps: Optional[int] = _number(10 ** 12, 1, MOST_OF_SESSION)
    memory: Optional[int] = _number(2 << 30, 1 << 26, 1 << 50)
    workers: Optional[int] = _number(1, 1, 64)
    seconds: Optional[int] = _number(86_400, 1, MOST_SECONDS)
    idle: Optional[int] = _number(3_600, 1, MOST_SECONDS)
    processor: Optional[int] = _number(3_600, 1, MOST_SECONDS)


SHARED = ('steps_a_day', 'steps_in_all', 'sessions', 'sessions_an_hour')
PER_SESSION = tuple(field.name for field in dataclasses.fields(Limits) if field.name not in SHARED)
QUOTAS = SHARED + PER_SESSION


@dataclasses.dataclass(frozen=True)
class Gateway:  # pylint: disable=too-many-instance-attributes
    """Where the gateway listens and keeps its state, and how many it serves."""
    name: str = socket.gethostname()
    state: str = '/var/lib/spmat-gateway'
    listen: Tuple[str, ...] = ('127.0.0.1:7173',)
    ledger: str = ''                               # a file in `state` where it's empty
    admin: str = DEFAULT_ADMIN
    local: str = ''
    page: str = ''
    new_users: str = ''
    seats: int = _number(64, 1, 10_000)
    seats_kept: Optional[int] = _number(None, 0, 10_000)  # a quarter of the seats where it's None
    per_address: int = _number(32, 1, 10_000)
    proxies: Tuple[str, ...] = ()
    login_seconds: int = _number(10, 1, 3_600)
    drain_seconds: int = _number(60, 0, MOST_SECONDS)
    lease_seconds: int = _number(120, 2, MOST_SECONDS)
    token_days: int = _number(365, 0, MOST_DAYS)   # 0 is for good
    unfinished: str = _choice('price', 'known')


@dataclasses.dataclass(frozen=True)
class Tls:
    """The gateway's certificate, and those of its clients."""
    certificate: str = ''
    key: str = ''
    clients: str = ''
    names: str = _choice('fingerprint', 'common-name')
    least: str = _choice('1.2', '1.3')


@dataclasses.dataclass(frozen=True)
class Engine:
    """The command that starts a session, the socket file by which systemd runs it as a unit, and
    the command that stops what the first leaves on another machine."""
    socket: str = ''
    command: Tuple[str, ...] = ()
    stop: Tuple[str, ...] = ()
    environment: Mapping[str, str] = dataclasses.field(default_factory=lambda: {
        'MALLOC_ARENA_MAX': '2', 'MALLOC_TRIM_THRESHOLD_': '1048576',
        'MALLOC_MMAP_THRESHOLD_': '1048576'})

    @property
    def words(self) -> Tuple[str, ...]:
        """The command, or the one that there is without it."""
        return self.command or (SESSION if self.socket else ALONE)


@dataclasses.dataclass(frozen=True)
class Config:
    """A whole file."""
    gateway: Gateway = Gateway()
    tls: Tls = Tls()
    engine: Engine = Engine()
    limits: Limits = Limits()

    @property
    def ledger(self) -> str:
        """The ledger's URL, or the path of its SQLite file."""
        return self.gateway.ledger or os.path.join(self.gateway.state, 'ledger.db')


SECTIONS: Dict[str, Any] = {'gateway': Gateway, 'tls': Tls, 'engine': Engine, 'limits': Limits}


def read(path: str) -> Config:
    """Reads a file.

    Raises
    ------
    ConfigError
        Where it can't be read, or a key isn't what was expected.
    """
    try:
        with open(path, 'rb') as file:
            return parse(tomllib.load(file))
    except OSError as fault:
        raise ConfigError('%s: %s' % (path, fault.strerror)) from None
    except RecursionError:
        raise ConfigError('%s: its brackets are nested too deeply' % path) from None
    except ValueError as fault:                    # what tomllib finds, too
        raise ConfigError('%s: %s' % (path, fault)) from None


def parse(tables: Mapping[str, Any]) -> Config:
    """A file's tables, checked."""
    unknown = set(tables) - set(SECTIONS)
    if unknown:
        raise ConfigError('no table is called [%s]; there are [%s]' % (min(unknown),
                                                                       '], ['.join(SECTIONS)))
    config = Config(**{name: _section(kind, tables, name) for name, kind in SECTIONS.items()})
    for address in config.gateway.listen:
        host, _ = parse_address('listen', address)
        if not config.tls.certificate and host not in ('127.0.0.1', '::1', 'localhost'):
            raise ConfigError('[tls] certificate is missing: without TLS the gateway listens on '
                              'the loopback alone, not on %s' % address)
    if config.gateway.page:
        parse_address('page', config.gateway.page)
    group = config.gateway.new_users
    if group and not (group.startswith(GROUP_MARK) and is_account(group)):
        raise ConfigError('new-users is a group, such as @institute, not %r' % group)
    for network in config.gateway.proxies:
        try:
            ipaddress.ip_network(network)
        except ValueError as fault:
            raise ConfigError('proxies has addresses or networks, such as 10.0.0.0/8: %s'
                              % fault) from None
    _check_words('command', config.engine.command)
    _check_words('stop', config.engine.stop)
    if not tables.get('engine', {}).get('command', True):
        raise ConfigError('[engine] command is empty: it is the command that starts a session')
    return config


def parse_address(key: str, text: str) -> Tuple[str, int]:
    """HOST:PORT in its parts."""
    host, _, port = text.rpartition(':')
    if not host or not port.isdigit() or not 1 <= int(port) <= 65535:
        raise ConfigError('%s is HOST:PORT, such as 0.0.0.0:7173, not %r' % (key, text))
    return host.strip('[]'), int(port)


def _section(kind: Any, tables: Mapping[str, Any], name: str) -> Any:
    table = tables.get(name, {})
    if not isinstance(table, dict):
        raise ConfigError('%s is a table, [%s], not %r' % (name, name, table))
    fields = {field.name.replace('_', '-'): field for field in dataclasses.fields(kind)}
    values: Dict[str, Any] = {}
    for key, value in table.items():
        if key not in fields:
            raise ConfigError('[%s] has no key %s; its keys are %s' % (name, key,
                                                                       ', '.join(fields)))
        values[fields[key].name] = _checked('[%s] %s' % (name, key), value, fields[key])
    return kind(**values)


def _checked(key: str, value: Any, field: 'dataclasses.Field[Any]') -> Any:
    limits = field.metadata
    if 'least' in limits:
        return checked_number(key, value, limits['least'], limits['most'])
    if field.type.startswith('Tuple'):
        if isinstance(value, str) and field.name == 'listen':
            value = [value]
        if not isinstance(value, list) or not all(isinstance(word, str) for word in value):
            raise ConfigError('%s is a list of words, not %r' % (key, value))
        return tuple(value)
    if field.type.startswith('Mapping'):
        if not isinstance(value, dict) or not all(isinstance(word, str) for word in value.values()):
            raise ConfigError('%s is a table of words, not %r' % (key, value))
        return value
    if not isinstance(value, str):
        raise ConfigError('%s is a text, not %r' % (key, value))
    if value not in limits.get('choices', (value,)):
        raise ConfigError('%s is %s, not %r' % (key, ' or '.join(limits['choices']), value))
    return value


def checked_number(key: str, value: Any, least: int, most: int) -> int:
    """A whole number in its range (1e9 is one)."""
    if (isinstance(value, bool) or not isinstance(value, (int, float)) or not math.isfinite(value)
            or value != int(value)):
        raise ConfigError('%s is a whole number, not %r' % (key, value))
    if not least <= value <= most:
        raise ConfigError('%s is %d to %d, not %d' % (key, least, most, value))
    return int(value)


def checked_quota(name: str, value: Any) -> int:
    """A quota's number in its range."""
    field = {field.name: field for field in dataclasses.fields(Limits)}[name]
    return checked_number(name.replace('_', '-'), value, field.metadata['least'],
                          field.metadata['most'])


def _check_words(key: str, words: Tuple[str, ...]) -> None:
    known = re.compile(r'{{|}}|{(?:%s)}' % '|'.join(WORDS[key]))
    for word in words:
        if re.search('[{}]', known.sub('', word)):
            raise ConfigError('[engine] %s: %r has a brace that is none of {%s}; a brace is '
                              'written twice' % (key, word, '}, {'.join(WORDS[key])))
