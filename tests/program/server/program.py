"""The program that serves: its words, its endings, the port that it listens on, and the time that
it gives to silent clients."""
import signal
import socket
import subprocess
import time
from typing import Callable, Dict, List

from tests.lib.commands import matrix_command, show_reply
from tests.lib.limits import MOST_SESSIONS, MOST_STEPS
from tests.lib.patience import FOR_A_REPLY
from tests.lib.runs import Wrong, expect
from tests.program.server.hostile import LITTLE_ROOM, large_matrix
from tests.program.server.server import LOOPBACK, Server, free_port, serve_words, until
from tests.program.server.sessions import (LONG_PRICE, LONG_SECONDS, PRODUCT, UPLOADS, long_uploads,
                                           queue_long_jobs, ran_long_jobs)

NETWORK_FAILED = (
    b"spmat: network failed\nspmat: because listening on 127.0.0.1:%d failed: the address is in "
    b"use\n")
MOST_NUMBER = 1000000


def changed(option: str, value: str) -> List[str]:
    """The words of a command line that is taken, but for one option."""
    words = serve_words(1, sessions=1, idle=1)
    words[words.index(option) + 1] = value
    return words


def without(option: str) -> List[str]:
    words = serve_words(1)
    at = words.index(option)
    return words[:at] + words[at + 2:]


REFUSED_WORDS = [
    ['serve'], ['serve', '--help'], serve_words(1) + ['--port', '2'], serve_words(1) + ['more'],
    serve_words(1) + ['--seats', '3'], serve_words(1) + ['--sessions'], serve_words(1) + ['--idle'],
    without('--port'), without('--steps'), without('--workers'), changed('--port', '0'),
    changed('--port', '65536'), changed('--port', '-1'), changed('--port', 'http'),
    changed('--steps', str(MOST_STEPS + 1)), changed('--steps', '1e6'), changed('--workers', '0'),
    changed('--workers', '65'), changed('--sessions', '0'),
    changed('--sessions', str(MOST_NUMBER + 1)), changed('--idle', '0'),
    changed('--idle', str(MOST_NUMBER + 1)), changed('--idle', '0.5'),
    serve_words(1, session_seconds=0), serve_words(1, session_seconds=MOST_NUMBER + 1),
    serve_words(1, min_rate=0), serve_words(1, min_rate=10 ** 9 + 1),
    serve_words(1, session_steps=0), serve_words(1, session_steps=MOST_STEPS + 1),
    serve_words(1, session_reserve=0), serve_words(1) + ['--session-reserve', 'all'],
    serve_words(1) + ['--log-format', 'xml'], serve_words(1) + ['--log-every', '0'],
    ['run', '--steps', '1', '--workers', '1', '--session-steps', '1'],
    ['run', '--steps', '1', '--workers', '1', '--session-seconds', '1'],
    serve_words(1, log=True) + ['--log'], serve_words(1) + ['--log=yes'],
    serve_words(1) + ['--version'],]


def words_refused(program: str) -> None:
    """A number out of its range, an option that is missing, unknown or given twice: status 2 with a
    text, and no `listening`."""
    for words in REFUSED_WORDS:
        done = subprocess.run([program] + words, stdin=subprocess.DEVNULL, stdout=subprocess.PIPE,
                              stderr=subprocess.PIPE, timeout=FOR_A_REPLY)
        expect('status of %r' % words, 2, done.returncode)
        expect('standard output of %r' % words, b'', done.stdout)
        if not done.stderr:
            raise Wrong('nothing on standard error for %r' % words)


def words_at_their_limits(program: str) -> None:
    """The least and the greatest number of each option are taken."""
    for steps, workers, sessions, idle in ((MOST_STEPS, 64, MOST_NUMBER, MOST_NUMBER),
                                           (0, 1, 1, 1)):
        with Server(program, steps, workers, sessions, idle) as server, server.client() as client:
            expect('budget', [steps, 0, 0], client.budget())


def port_in_use(program: str) -> None:
    """A port that someone listens on: status 1, and no `listening`."""
    with socket.socket() as taken:
        taken.bind((LOOPBACK, 0))
        taken.listen(1)
        port = taken.getsockname()[1]
        done = subprocess.run([program] + serve_words(port), stdin=subprocess.DEVNULL,
                              stdout=subprocess.PIPE, stderr=subprocess.PIPE, timeout=FOR_A_REPLY)
    expect('status, output and error', (1, b'', NETWORK_FAILED % port),
           (done.returncode, done.stdout, done.stderr))


def listening_is_not_written(program: str) -> None:
    """Where the line `listening P` can't be written the program ends."""
    with open('/dev/full', 'wb') as full:
        done = subprocess.run([program] + serve_words(free_port()), stdin=subprocess.DEVNULL,
                              stdout=full, stderr=subprocess.PIPE, timeout=FOR_A_REPLY)
    expect('status and error',
           (1, b'spmat: write failed\nspmat: because No space left on device (os error 28)\n'),
           (done.returncode, done.stderr))


def loopback_alone(program: str) -> None:
    """Other addresses of this machine are not listened on."""
    with Server(program) as server:
        for address in ('127.0.0.2', '::1'):
            try:
                socket.create_connection((address, server.port), 1).close()
            except OSError:
                continue
            raise Wrong('a client of %s is accepted' % address)
        server.look_at_rest()


def ends_after_its_sessions(program: str) -> None:
    """Five sessions one after another, and status 0; however a session ends, it counts."""
    with Server(program, 100, sessions=5) as server:
        for last in (b'quit\n', b'', b'matrix\n', b'op f unary x\n', b'budget\n'):
            with server.client() as client:
                client.send(b'budget\n' + last)
                client.send_no_more()
                expect('the first reply', b'ok budget 100 0 0\n', client.rest()[:18])
        server.expect_end(0)


def ends_when_running_sessions_have_ended(program: str) -> None:
    """With two sessions of which the first stays, the end waits for it, and a third client has no
    session."""
    with Server(program, sessions=2) as server, server.seated() as first:
        with server.seated() as second:
            second.expect(b'quit\n', b'ok quit\n')
            expect('the end', b'', second.rest())
        time.sleep(0.3)
        expect('whether it runs', True, server.runs())
        with server.client() as third:
            third.socket.settimeout(0.3)
            try:
                third.send(b'budget\n')
                said = third.replies.line()
            except (OSError, Wrong):
                said = b''
            expect('what a third client reads', b'', said)
        first.expect(b'budget\n', b'ok budget %d 0 0\n' % MOST_STEPS)
        first.send_no_more()
        expect('the end', b'', first.rest())
        server.expect_end(0)


def turned_away_is_not_counted(program: str) -> None:
    """Connections that got `no busy` are no sessions: seventeen sessions are served beside ten of
    them."""
    with Server(program, sessions=MOST_SESSIONS + 1) as server:
        clients = [server.seated() for _ in range(MOST_SESSIONS)]
        for _ in range(10):
            with server.client() as another:
                expect('in a full house', b'no busy\n', another.rest())
        clients[0].expect(b'quit\n', b'ok quit\n')
        expect('the end', b'', clients[0].rest())
        clients.append(server.seated())
        for client in clients:
            client.close()
        server.expect_end(0)


def starts_again_on_its_port(program: str) -> None:
    """Once a server that had sessions has ended, another listens on its port at once."""
    with Server(program, sessions=1) as server:
        with server.client() as client:
            client.expect(b'quit\n', b'ok quit\n')
            expect('the end', b'', client.rest())
        server.expect_end(0)
        server.start(serve_words(server.port, sessions=1))
        expect('line', b'listening %d\n' % server.port, server.line_of_output())
        with server.client() as client:
            client.expect(b'quit\n', b'ok quit\n')
        server.expect_end(0)


def ends_by_a_signal(program: str) -> None:
    """SIGTERM and SIGINT end the server and its sessions at once; nothing is said."""
    for number in (signal.SIGTERM, signal.SIGINT):
        with Server(program) as server, server.seated() as client:
            server.signal(number)
            server.expect_end(-number)
            try:
                expect('behind the end', b'', client.rest())
            except ConnectionResetError:
                pass


def idle_ends_a_silent_session(program: str) -> None:
    """With `--idle 1` silent sessions end, amid a body too; what they reserved is there again, and
    their seats."""
    with Server(program, 12, idle=1) as server:
        silent = [server.seated() for _ in range(MOST_SESSIONS - 1)]
        began = time.monotonic()
        for command in UPLOADS:
            silent[0].reply(command)
        silent[0].expect(PRODUCT, b'ok queued 1 12\n')
        silent[1].send(b'matrix A 100\n%')
        with server.client() as other:
            until('12 steps left again', lambda: other.budget() == [12, 0, 0])
            waited = time.monotonic() - began
            if waited < 0.9:
                raise Wrong('a session was ended after %.2f s' % waited)
            for client in silent:
                expect('the end', b'', client.rest())
                client.close()
            # a client that asks isn't silent, so its own session goes on
            until('seats given back', lambda: other.budget() == [12, 0, 0]
                  and server.threads() == server.at_rest[0] + 1)
            other.expect(b'quit\n', b'ok quit\n')
        server.look_at_rest()


def idle_spares_those_who_send(program: str) -> None:
    """With `--idle 1` a client that sends a byte each half second, for longer than that, has its
    reply."""
    with Server(program, idle=1) as server, server.client() as client:
        for byte in b'quit\n':
            client.send(bytes([byte]))
            time.sleep(0.4)
        expect('reply', b'ok quit\n', client.replies.reply())
        server.look_at_rest()


def idle_spares_a_long_batch(program: str) -> None:
    """With `--idle 2` a session whose batch takes longer than that goes on behind it."""
    uploads = long_uploads()
    with Server(program, idle=2) as server, server.client() as client:
        for command, reply in uploads:
            client.expect(command, reply)
        client.socket.settimeout(LONG_SECONDS)
        jobs, spent, taken = 1, 0, 0.0
        while taken < 2.5:
            queue_long_jobs(client, jobs)
            began = time.monotonic()
            expect('reply', ran_long_jobs(jobs), client.reply(b'run\n'))
            taken = time.monotonic() - began
            spent += jobs * LONG_PRICE
            jobs = min(64, jobs * 2)
        expect('budget', [MOST_STEPS - spent, 0, spent], client.budget())
        client.expect(b'quit\n', b'ok quit\n')
        server.look_at_rest()


def idle_ends_whoever_takes_nothing(program: str) -> None:
    """With `--idle 3` a client that takes nothing of its replies loses its seat. One that takes
    them now and then has them all, though its session has ended by then where it sent nothing
    more."""
    text = large_matrix()
    times = 8
    with Server(program, idle=3) as server, server.client(LITTLE_ROOM) as deaf, \
            server.client() as slow:
        for client in (deaf, slow):
            client.send(matrix_command('A', text) + b'show A\n' * times)
            client.replies.line()
        for _ in range(times):
            time.sleep(0.5)
            if slow.replies.reply() != show_reply(text):
                raise Wrong('a reply to show is another')
        slow.close()
        until('both seats given back', lambda: server.threads() == server.at_rest[0])
        server.look_at_rest()


def idle_spares_a_stopped_process(program: str) -> None:
    """With `--idle 2` a process that is stopped and goes on ends no session for it: neither within
    the time, nor where input came while it was stopped for longer."""
    with Server(program, idle=2) as server, server.client() as client, server.client() as other:
        for each in (client, other):
            each.budget()
        for _ in range(3):
            time.sleep(0.1)
            server.stopped(0.1)
        for each in (client, other):
            each.budget()
        server.signal(signal.SIGSTOP)
        for each in (client, other):
            each.send(b'budget\n')
        time.sleep(2.5)
        server.signal(signal.SIGCONT)
        for each in (client, other):
            expect('reply', b'ok budget %d 0 0\n' % MOST_STEPS, each.replies.reply())
            each.expect(b'quit\n', b'ok quit\n')
        server.look_at_rest()


PROGRAM_CASES: Dict[str, Callable[[str], None]] = {
    'words-refused': words_refused,
    'words-at-their-limits': words_at_their_limits,
    'port-in-use': port_in_use,
    'listening-is-not-written': listening_is_not_written,
    'loopback-alone': loopback_alone,
    'ends-after-its-sessions': ends_after_its_sessions,
    'ends-when-running-sessions-have-ended': ends_when_running_sessions_have_ended,
    'turned-away-is-not-counted': turned_away_is_not_counted,
    'starts-again-on-its-port': starts_again_on_its_port,
    'ends-by-a-signal': ends_by_a_signal,
    'idle-ends-a-silent-session': idle_ends_a_silent_session,
    'idle-spares-those-who-send': idle_spares_those_who_send,
    'idle-spares-a-long-batch': idle_spares_a_long_batch,
    'idle-ends-whoever-takes-nothing': idle_ends_whoever_takes_nothing,
    'idle-spares-a-stopped-process': idle_spares_a_stopped_process,
}
