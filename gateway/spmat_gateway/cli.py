"""The command `spmat-gateway`: it serves, or asks the gateway that runs by its socket file."""
from __future__ import annotations

import argparse
import http.client
import importlib.util
import json
import logging
import socket
import sys
import time
from typing import Any, Dict, List, Optional, Sequence

from . import config as configuration
from .config import DEFAULT_ADMIN, DEFAULT_PATH, QUOTAS, ConfigError
from .tables import LEDGER_COLUMNS, SESSION_COLUMNS, USER_COLUMNS, render

FORMAT = '%(asctime)s.%(msecs)03dZ %(levelname)s %(message)s'


class Failed(Exception):
    """The command has failed; the words go to standard error."""


def ask(path: str, question: str, **asked: Any) -> Any:
    """What the gateway at a socket file answers.

    Raises
    ------
    Failed
        Where nobody listens there, or the gateway refuses.
    """
    connection = http.client.HTTPConnection('spmat-gateway')
    connection.sock = socket.socket(socket.AF_UNIX)
    connection.sock.settimeout(600)                # a check may take long
    words = {key: str(value) for key, value in asked.items() if value is not None}
    try:
        connection.sock.connect(path)
        connection.request('POST', '/api/' + question, json.dumps(words),
                           {'Content-Type': 'application/json'})
        response = connection.getresponse()
        text = response.read().decode().strip()
    except OSError as fault:
        raise Failed('%s: %s; does the gateway run, and are you its user? (--admin PATH)'
                     % (path, fault.strerror or fault)) from None
    finally:
        connection.close()
    if response.status != 200:
        raise Failed(text)
    return json.loads(text)


def parser() -> argparse.ArgumentParser:
    """The words that the command takes."""
    whole = argparse.ArgumentParser(
        prog='spmat-gateway', description='Serves sessions of spmat to untrusted users: TLS, '
        'users, quotas, a process for each session. docs/service.md describes it.')
    whole.add_argument('--admin', default=DEFAULT_ADMIN, metavar='PATH',
                       help='the gateway\'s socket file (%(default)s)')
    whole.add_argument('--json', action='store_true', help='print JSON')
    commands = whole.add_subparsers(required=True, metavar='COMMAND')
    for name, words in (('serve', 'serves until it is drained'),
                        ('check', 'reads the file, and says what is wrong with it')):
        command = commands.add_parser(name, help=words)
        command.set_defaults(run=_serve if name == 'serve' else _check)
        command.add_argument('--config', default=DEFAULT_PATH, metavar='FILE',
                             help='a TOML file (%(default)s)')
    command = commands.add_parser('users', help='lists users and groups, or changes one')
    command.set_defaults(run=_users)
    command.add_argument('action', nargs='?', default='list',
                         choices=('list', 'add', 'renew', 'enable', 'disable', 'join'))
    command.add_argument('name', nargs='?', help='a user, or @GROUP')
    command.add_argument('--group', metavar='@GROUP',
                         help='of `add` and `join`: the group that the user is in')
    command.add_argument('--certificate', metavar='FILE',
                         help='of `add` and `renew`: the user\'s certificate, in place of a token')
    command.add_argument('--days', type=int, metavar='N', help='of `add` and `renew`: when the '
                         'token ends; 0 is never (token-days of the file)')
    commands.add_parser('sessions', help='lists the sessions that run').set_defaults(
        run=lambda options: _print(options, ask(options.admin, 'sessions'), SESSION_COLUMNS))
    command = commands.add_parser('end', help='ends a session')
    command.set_defaults(run=lambda options: ask(options.admin, 'end', id=options.id))
    command.add_argument('id', help='the first digits of its name')
    command = commands.add_parser('quota', help='shows what an account may take, or changes it')
    command.set_defaults(run=_quota)
    command.add_argument('name', help='a user, or @GROUP')
    for quota in QUOTAS:
        command.add_argument('--' + quota.replace('_', '-'), type=_number, metavar='N',
                             help='a number, or `default`')
    command = commands.add_parser('ledger',
                                  help='lists the last sessions and what they were charged')
    command.set_defaults(run=_ledger)
    command.add_argument('account', nargs='?', help='those of a user or a @GROUP alone')
    command.add_argument('--most', type=int, default=50, metavar='N', help='how many (%(default)s)')
    command.add_argument('--check', action='store_true',
                         help='compares all sums with the sessions; status 1 where they differ')
    command.add_argument('--repair', action='store_true',
                         help='settles sessions that nobody runs, and sets the sums')
    command.add_argument('--prune', type=int, metavar='DAYS',
                         help='forgets the sessions of days before; the sums stay')
    return whole


def main(words: Optional[Sequence[str]] = None) -> int:
    """Runs the command; its status."""
    options = parser().parse_args(words)
    try:
        status = options.run(options)
        return status if isinstance(status, int) else 0
    except (Failed, ConfigError) as fault:
        print('spmat-gateway: %s' % fault, file=sys.stderr)
        return 1


def _number(word: str) -> str:
    """A whole number, also 1e9, or `default`."""
    if word == 'default':
        return word
    try:
        number = int(word) if word.lstrip('-').isdigit() else float(word)
        if number == int(number):
            return str(int(number))
    except (ValueError, OverflowError):
        pass
    raise argparse.ArgumentTypeError('a whole number, such as 1000000 or 1e12, or `default`; not %r'
                                     % word)


def _serve(options: argparse.Namespace) -> int:
    import asyncio
    from .server import Server
    logging.Formatter.converter = time.gmtime
    logging.basicConfig(level=logging.INFO, format=FORMAT, datefmt='%Y-%m-%dT%H:%M:%S')
    config = configuration.read(options.config)

    async def serve() -> None:
        await Server(options.config, config).run()
    try:
        asyncio.run(serve())
    except OSError as fault:
        raise Failed(str(fault)) from None
    return 0


def _check(options: argparse.Namespace) -> None:
    from .tls import make_context
    config = configuration.read(options.config)
    make_context(config.tls)
    if config.gateway.ledger.startswith('postgres') and importlib.util.find_spec('psycopg') is None:
        raise Failed('[gateway] ledger: PostgreSQL wants the package python3-psycopg')
    print('%s: nothing is wrong' % options.config)


def _users(options: argparse.Namespace) -> None:
    if options.action == 'list':
        _print(options, ask(options.admin, 'users'), USER_COLUMNS)
        return
    if not options.name:
        raise Failed('users %s wants a name' % options.action)
    asked = {'action': options.action, 'name': options.name, 'group': options.group,
             'days': options.days}
    if options.certificate:
        try:
            with open(options.certificate, encoding='ascii') as file:
                asked['certificate'] = file.read()
        except (OSError, UnicodeDecodeError) as fault:
            raise Failed('%s: %s' % (options.certificate, fault)) from None
    token = ask(options.admin, 'change_user', **asked)['token']
    if token:
        print(json.dumps({'token': token}) if options.json else token)


def _quota(options: argparse.Namespace) -> None:
    account = ask(options.admin, 'quota', name=options.name,
                  **{quota: getattr(options, quota) for quota in QUOTAS})
    if options.json:
        print(json.dumps(account, indent=1))
        return
    for key, value in account.items():
        shown = format(value, ',') if type(value) is int else value
        print('%-16s %s' % (key.replace('_', '-'), 'no limit' if value is None and key in QUOTAS
                            else shown))


def _ledger(options: argparse.Namespace) -> int:
    found = ask(options.admin, 'ledger', account=options.account, most=options.most,
                check=options.check or None, repair=options.repair or None, prune=options.prune)
    if options.json:
        print(json.dumps(found, indent=1))
    elif 'words' in found:
        print('\n'.join(found['words']))
    else:
        _print(options, found['sessions'], LEDGER_COLUMNS)
    return 1 if found.get('faults') else 0


def _print(options: argparse.Namespace, rows: List[Dict[str, Any]],
           columns: Sequence[str]) -> None:
    """Prints rows as a table, or as JSON with all that they have."""
    print(json.dumps(rows, indent=1) if options.json else render(rows, columns).rstrip('\n'))
