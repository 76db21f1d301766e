"""How long a session lasts with --session-seconds, and how slowly a command may arrive with
--min-rate."""
import threading
import time
from typing import Callable, Dict, List

from tests.lib.commands import matrix_command
from tests.lib.limits import MOST_SESSIONS, MOST_STEPS
from tests.lib.runs import Wrong, expect
from tests.program.server.hostile import LITTLE_ROOM, full_house, large_matrix, leave
from tests.program.server.logs import Logging
from tests.program.server.server import BUSY, Client, Server, until
from tests.program.server.sessions import (LONG_PRICE, LONG_SECONDS, PRODUCT, UPLOADS, long_uploads,
                                           queue_long_jobs, ran_long_jobs)

LARGE = b'matrix A 200000000\n'


def expect_end_after(client: Client, began: float, least: float, most: float) -> None:
    """The session ends, and nothing more is said, after so long."""
    expect('the end', b'', client.rest())
    waited = time.monotonic() - began
    if not least <= waited <= most:
        raise Wrong('ended after %.2f s' % waited)


def time_is_over(program: str) -> None:
    """With `--session-seconds 2` a silent session ends then, and one that goes on asking; what is
    queued is lost, and the log says why."""
    with Logging(program, steps=12, session_seconds=2) as server:
        began = time.monotonic()
        with server.seated() as silent, server.seated() as asking:
            for command in UPLOADS:
                silent.reply(command)
            silent.expect(PRODUCT, b'ok queued 1 12\n')
            while time.monotonic() - began < 1.5:
                expect('the budget', [0, 12, 0], asking.budget())
                time.sleep(0.1)
            expect_end_after(silent, began, 1.9, 12)
            expect_end_after(asking, began, 1.9, 12)
            expect('ends', ['seconds', 'seconds'],
                   [server.entry(client).end for client in (silent, asking)])
        with server.seated() as other:
            expect('the budget', [12, 0, 0], other.budget())


def a_batch_ends_first(program: str) -> None:
    """A batch that is at work when the time of its session is over ends, and its reply comes; then
    the session ends."""
    seconds, jobs = 6, 32
    with Logging(program, session_seconds=seconds) as server, server.client() as client:
        began = time.monotonic()
        for command, reply in long_uploads():
            client.expect(command, reply)
        queue_long_jobs(client, jobs)
        client.socket.settimeout(LONG_SECONDS)
        expect('reply', ran_long_jobs(jobs), client.reply(b'run\n'))
        while time.monotonic() - began < seconds + 0.5:     # a fast machine
            time.sleep(0.1)
        expect('the end', b'', client.rest())
        entry = server.entry(client)
        expect('end and steps', ('seconds', jobs * LONG_PRICE), (entry.end, entry.steps))


def whoever_reads_slowly_is_ended(program: str) -> None:
    """Whoever takes a reply byte by byte keeps its seat no more than ten seconds beyond the time of
    its session."""
    with Logging(program, session_seconds=1) as server, server.client(LITTLE_ROOM) as slow:
        began = time.monotonic()
        slow.send(matrix_command('A', large_matrix()) + b'show A\n' * 8)
        while not [line for line in list(server.lines) if ' session ' in line]:
            slow.socket.recv(1)
            time.sleep(0.2)
            if time.monotonic() - began > 60:
                raise Wrong('not ended after a minute')
        expect('the end', 'seconds', server.entry(slow).end)


def drip(clients: List[Client], stop: threading.Event, pause: float) -> None:
    """Sends a byte on each connection now and then."""
    while not stop.wait(pause):
        for client in clients:
            try:
                client.send(b'%')
            except OSError:
                pass


def slow_senders_are_cut(program: str) -> None:
    """With `--idle 2 --min-rate 1000`, sixteen that send a byte of a text now and then lose their
    seats, and others get them."""
    with Logging(program, idle=2, min_rate=1000) as server:
        clients = full_house(server)
        with server.client() as late:
            expect('no seat', BUSY, late.rest())
        stop, began = threading.Event(), time.monotonic()
        for client in clients:
            client.send(LARGE)
        dripping = threading.Thread(target=drip, args=(clients, stop, 0.5))
        dripping.start()
        try:
            for client in clients:
                # pylint: disable-next=cell-var-from-loop
                until('its end', lambda: server.entry(client), 30)
            waited = time.monotonic() - began
            expect('ends', ['slow'] * MOST_SESSIONS,
                   [server.entry(client).end for client in clients])
            if waited < 1.8:
                raise Wrong('cut after %.2f s' % waited)
            with server.seated() as other:
                expect('the budget', [MOST_STEPS, 0, 0], other.budget())
        finally:
            stop.set()
            dripping.join()
        leave(clients)
        with server.seated() as other:
            other.expect(b'quit\n', b'ok quit\n')


def slow_lines_are_cut(program: str) -> None:
    """So is one that sends a line so; one that sends whole commands now and then is not."""
    with Logging(program, idle=2, min_rate=1000) as server, server.client() as dripping, \
            server.client() as patient:
        began, end = time.monotonic(), None
        while time.monotonic() - began < 6:
            try:
                dripping.send(b'b')
            except OSError:
                pass
            patient.budget()
            time.sleep(0.5)
        end = server.entry(dripping).end
        expect('the end', 'slow', end)
        patient.expect(b'quit\n', b'ok quit\n')


def fast_senders_are_spared(program: str) -> None:
    """A large text that arrives at some 400,000 bytes a second for longer than the grace, and has
    to come with 20,000, is taken."""
    command = matrix_command('A', large_matrix())
    with Server(program, idle=2, min_rate=20_000) as server, server.client() as client:
        piece = len(command) // 50 + 1
        for at in range(0, len(command), piece):
            client.send(command[at:at + piece])
            time.sleep(0.1)
        expect('the reply', b'ok matrix ', client.replies.reply()[:10])
        client.expect(b'quit\n', b'ok quit\n')
        server.look_at_rest()


TIME_CASES: Dict[str, Callable[[str], None]] = {
    'session-seconds-end-a-session': time_is_over,
    'session-seconds-let-a-batch-end': a_batch_ends_first,
    'session-seconds-end-a-slow-reader': whoever_reads_slowly_is_ended,
    'min-rate-cuts-slow-texts': slow_senders_are_cut,
    'min-rate-cuts-slow-lines': slow_lines_are_cut,
    'min-rate-spares-fast-texts': fast_senders_are_spared,
}
