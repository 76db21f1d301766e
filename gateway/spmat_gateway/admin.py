"""What operators ask: everything by a socket file of the gateway's user alone, and by a port only
what is to be looked at."""
from __future__ import annotations

import asyncio
import contextlib
import functools
import logging
import os
import re
from typing import TYPE_CHECKING, Any, Awaitable, Callable, Dict, List, Optional

from aiohttp import web
from prometheus_client import generate_latest

from . import tables
from .accounts import Account, Unknown
from .config import MOST_DAYS, QUOTAS, checked_number, parse_address
from .database import Unavailable
from .tls import fingerprint_of_text

if TYPE_CHECKING:
    from .server import Server

Handler = Callable[[web.Request], Awaitable[web.StreamResponse]]
MOST_CONNECTIONS = 64                              # to the port, so that descriptors are left
SECONDS_TO_ANSWER = 30.0                           # of one of those, whatever it asks
log = logging.getLogger('spmat-gateway')
logging.getLogger('aiohttp').setLevel(logging.CRITICAL)  # it writes much for what anybody sends
# an address, or a name without a dot, can't be one that somebody else has led here
OWN = re.compile(r'[^.]*|[\d.]+|\[[\da-f:.]+\]')
HEALTH = ('/healthz', '/readyz')                    # balancers ask by any name


class Failed(Exception):
    """A question can't be answered; the words go to whoever asks."""


async def start(server: 'Server', path: str, address: str) -> List[web.AppRunner]:
    """Serves the socket file, and the port if there is one; what to clean up in the end."""
    runners = [web.AppRunner(make_app(server, True), access_log=None),
               *([_Runner(make_app(server, False), access_log=None)] if address else [])]
    for runner in runners:
        await runner.setup()
    os.makedirs(os.path.dirname(path) or '.', exist_ok=True)
    await web.UnixSite(runners[0], path).start()   # in place of one that a killed gateway has left
    if address:
        await web.TCPSite(runners[1], *parse_address('page', address), backlog=16).start()
    return runners


class _Runner(web.AppRunner):
    """Serves a port that anybody may reach."""

    @property
    def server(self) -> Any:
        """What makes of a connection one that is served."""
        return _Few(super().server)


class _Few:
    """Few connections of a server at once, each for some seconds."""

    def __init__(self, served: Any) -> None:
        self._served, self.shutdown = served, served and served.shutdown

    def __call__(self) -> Any:
        one, is_full = self._served(), len(self._served.connections) >= MOST_CONNECTIONS
        asyncio.get_running_loop().call_later(0.0 if is_full else SECONDS_TO_ANSWER,
                                              lambda: one.transport and one.transport.abort())
        return one


def make_app(server: 'Server', writable: bool) -> web.Application:
    """What is to be looked at, and on the socket the questions and commands of `spmat-gateway`."""
    answers = Answers(server)
    app = web.Application(middlewares=[_guard])
    gateway = server.config.gateway
    app['names'] = (gateway.name, gateway.page.rpartition(':')[0])
    app.router.add_get('/healthz', answers.health)
    app.router.add_get('/readyz', answers.ready)
    app.router.add_get('/metrics', answers.metrics)
    app.router.add_get('/', answers.page)
    if writable:
        for name in ('sessions', 'users', 'ledger', 'end', 'change_user', 'quota'):
            app.router.add_post('/api/' + name, functools.partial(_answer, getattr(answers, name)))
    return app


class Answers:
    """What is asked for, as tables that JSON can say."""

    def __init__(self, server: 'Server') -> None:
        self._server = server

    async def sessions(self, _: Dict[str, str]) -> List[Dict[str, Any]]:
        """The sessions that run here, and at others while the ledger answers."""
        server, found = self._server, self._server.sessions.running()
        if server.ledger.database.is_shared and server.ledger.is_up:
            with contextlib.suppress(Unavailable):
                found += await asyncio.to_thread(server.ledger.elsewhere)
        return sorted(found, key=lambda status: -float(status['seconds']))

    async def end(self, asked: Dict[str, str]) -> Dict[str, Any]:
        """Ends a session, here or at another gateway."""
        session, ledger = asked.get('id', ''), self._server.ledger
        if not (self._server.sessions.end(session, 'ended') or ledger.database.is_shared
                and await asyncio.to_thread(ledger.end_elsewhere, session, 'ended')):
            raise Failed('no session, or several, begin with %s; `spmat-gateway sessions` lists '
                         'them' % asked.get('id'))
        return {}

    async def users(self, _: Dict[str, str]) -> List[Dict[str, Any]]:
        """The accounts, with what they may take and have taken."""
        ledger = self._server.ledger
        accounts, today = await asyncio.to_thread(lambda: (ledger.accounts.all(),
                                                           ledger.spent_today()))
        return [self._describe(account, *today.get(account.name, (0, 0))) for account in accounts]

    async def change_user(self, asked: Dict[str, str]) -> Dict[str, Any]:
        """Adds a user or a group, or changes one; a token where one was drawn."""
        accounts, name, action = self._server.ledger.accounts, asked['name'], asked['action']
        pem, group = asked.get('certificate'), asked.get('group') or None
        fingerprint = fingerprint_of_text(pem) if pem else None
        days = checked_number('days', int(asked.get(
            'days', self._server.sessions.config.gateway.token_days)), 0, MOST_DAYS)
        actions: Dict[str, Callable[[], Optional[str]]] = {
            'add': lambda: accounts.add(name, group, fingerprint, days),
            'renew': lambda: accounts.renew(name, fingerprint, days),
            'enable': lambda: accounts.enable(name, True),
            'disable': lambda: accounts.enable(name, False),
            'join': lambda: accounts.join(name, group)}
        token = await asyncio.to_thread(actions[action])
        return {'token': token or ''}

    async def quota(self, asked: Dict[str, str]) -> Dict[str, Any]:
        """Sets quotas of an account."""
        accounts, name = self._server.ledger.accounts, asked['name']
        quotas = {quota: None if asked[quota] == 'default' else int(asked[quota])
                  for quota in QUOTAS if quota in asked}
        if quotas:
            await asyncio.to_thread(accounts.set_quotas, name, quotas)
        found = [user for user in await self.users({}) if user['name'] == name]
        if not found:
            raise Failed('there is no account %s' % name)
        return found[0]

    async def ledger(self, asked: Dict[str, str]) -> Dict[str, Any]:
        """The last sessions, or what a check finds, a repair or a pruning did."""
        ledger = self._server.ledger
        if asked.get('check'):
            faults = await asyncio.to_thread(ledger.faults)
            return {'words': faults or ['all sums are those of the sessions'], 'faults': faults}
        if asked.get('repair'):
            lease = self._server.sessions.config.gateway.lease_seconds
            return {'words': await asyncio.to_thread(
                ledger.repair, self._server.journal.sessions, lease) or ['nothing was to repair']}
        if asked.get('prune'):
            return {'words': ['forgot %d sessions' % await asyncio.to_thread(
                ledger.prune, int(asked['prune']))]}
        return {'sessions': await asyncio.to_thread(ledger.report, asked.get('account', ''),
                                                    int(asked.get('most', '50')))}

    async def page(self, _: web.Request) -> web.Response:
        """What a browser shows: the sessions and the accounts, these while the ledger answers."""
        server, users = self._server, []
        with contextlib.suppress(Unavailable):
            users = await self.users({})
        words = '%s: %s since %s, %d of %d seats taken, ledger %s' % (
            server.ledger.name, 'ready' if server.is_ready else 'not ready',
            tables.moment(server.began), server.sessions.count,
            server.sessions.config.gateway.seats, 'up' if server.ledger.is_up else 'down')
        return web.Response(text='\n'.join((words + '\n', tables.render(
            await self.sessions({}), tables.SESSION_COLUMNS), tables.render(
                users, tables.USER_COLUMNS))))

    async def health(self, _: web.Request) -> web.Response:
        """Whether the process lives."""
        return web.Response(text='ok\n')

    async def ready(self, _: web.Request) -> web.Response:
        """Whether a client would be served."""
        is_ready = self._server.is_ready
        return web.Response(text='ok\n' if is_ready else 'not now\n',
                            status=200 if is_ready else 503)

    async def metrics(self, _: web.Request) -> web.Response:
        """What is counted."""
        return web.Response(body=generate_latest(self._server.metrics.registry),
                            headers={'Content-Type': 'text/plain; version=0.0.4; charset=utf-8'})

    def _describe(self, account: Account, spent_today: int, reserved_today: int) -> Dict[str, Any]:
        limits = self._server.sessions.config.limits
        described: Dict[str, Any] = {'name': account.name, 'group': account.parent,
                                     'enabled': bool(account.enabled), 'token': bool(account.token),
                                     'token_ends': account.token_ends,
                                     'certificate': account.fingerprint, 'spent': account.spent,
                                     'reserved': account.reserved, 'running': account.running,
                                     'spent_today': spent_today, 'reserved_today': reserved_today,
                                     **{quota: account.limit(quota, limits) for quota in QUOTAS}}
        for left, quota, taken in (('left_today', 'steps_a_day', spent_today + reserved_today),
                                   ('left_in_all', 'steps_in_all', account.spent
                                    + account.reserved)):
            described[left] = None if described[quota] is None else max(0, described[quota] - taken)
        return described


async def _answer(answer: Callable[[Dict[str, str]], Awaitable[Any]],
                  request: web.Request) -> web.StreamResponse:
    """One question of `spmat-gateway`."""
    try:
        asked = await request.json()
        return web.json_response(await answer({key: str(value) for key, value in asked.items()}))
    except (Failed, Unknown, ValueError, KeyError) as fault:
        words = 'missing: %s' % fault if isinstance(fault, KeyError) else str(fault)
        return web.Response(text=words, status=400)
    except Unavailable as fault:
        return web.Response(text='the ledger doesn\'t answer: %s' % fault, status=503)


@web.middleware
async def _guard(request: web.Request, handler: Handler) -> web.StreamResponse:
    """Keeps pages of others from commanding, and from reading, by a browser that reaches this
    one."""
    address = request.headers.get('Host', '')
    host = address.rpartition(':')[0] or address
    if request.method != 'GET' and 'Origin' in request.headers:
        raise web.HTTPForbidden(text='commands come from spmat-gateway, and from no browser\n')
    if not (OWN.fullmatch(host) or host in request.app['names'] or request.path in HEALTH):
        raise web.HTTPForbidden(text='the page has another name; `page` of the file says it\n')
    try:
        response = await handler(request)
    except web.HTTPException:
        raise
    except Exception as fault:                     # pylint: disable=broad-exception-caught
        log.exception('page %s: %s', request.path, fault)
        raise web.HTTPInternalServerError() from None
    response.headers['X-Content-Type-Options'] = 'nosniff'
    response.headers['Cache-Control'] = 'no-store'
    return response
