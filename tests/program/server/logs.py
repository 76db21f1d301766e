"""What a server tells of its sessions on standard error, with --log: a line for each that starts or
ends, for each client turned away, and for refusals."""
import fcntl
import json
import os
import re
import resource
import subprocess
import threading
import time
from concurrent.futures import ThreadPoolExecutor
from typing import Callable, Dict, List, NamedTuple, Optional

from tests.lib.commands import assembly_command, matrix_command, matrix_text
from tests.lib.limits import MOST_SESSIONS, MOST_STEPS
from tests.lib.paths import TOP
from tests.lib.patience import CHECKED
from tests.lib.ports import free_port
from tests.lib.runs import Wrong, expect
from tests.program.server.hostile import LITTLE_ROOM, full_house, large_matrix
from tests.program.server.server import BUSY, Client, Server, serve_words, until
from tests.program.server.sessions import PRODUCT, UPLOADED, UPLOADS

TIME = r'spmat: time=\d{4}-\d\d-\d\dT\d\d:\d\d:\d\d\.\d{3}Z '
LINE = re.compile(TIME + r'session id=(\d+|none) client=127\.0\.0\.1:(\d+) '
                  r'end=([a-z-]+|refused-S\d) '
                  r'seconds=(\d+\.\d{3}) in=(\d+) out=(\d+) commands=(\d+) jobs=\d+ '
                  r'steps=(\d+) refused=(\d+) untold=(\d+) untold_steps=(\d+)')
START = re.compile(TIME + r'start id=(\d+) client=127\.0\.0\.1:(\d+) untold=(\d+)')
REFUSED = re.compile(TIME + r'refused id=\d+ client=127\.0\.0\.1:(\d+) '
                     r'rule=([AJMSV]\d+|memory|thread)(?: price=(\d+) left=(\d+))? untold=(\d+)')
RUNS = re.compile(TIME + r'runs id=(\d+) client=127\.0\.0\.1:(\d+) seconds=\d+\.\d{3} state=(\w+) '
                  r'jobs=(\d+) reserved=(\d+) steps=(\d+) in=(\d+) out=(\d+)')
SERVER = re.compile(TIME + r'server-(start|end) address=127\.0\.0\.1:(\d+)((?: [a-z_]+=\S+)+)')
# how many lines wait for standard error at most
QUEUE = 1024


class Entry(NamedTuple):
    """What a line tells: who, how it ended, and how much there was of it. `number` is that of the
    session, None for a client that was turned away."""
    number: Optional[int]
    port: int
    end: str
    seconds: float
    received: int
    sent: int
    commands: int
    steps: int
    refused: int
    untold: int
    untold_steps: int


def entry_of(line: str) -> Entry:
    """What a line of the log tells."""
    told = LINE.fullmatch(line)
    if not told:
        raise Wrong('no line of the log: %.200r' % line)
    number, port, end, seconds, *numbers = told.groups()
    return Entry(None if number == 'none' else int(number), int(port), end, float(seconds),
                 *map(int, numbers))


def entries_of(lines: List[str]) -> List[Entry]:
    """What the log tells of ends, in order."""
    return [entry_of(line) for line in lines
            if not any(form.fullmatch(line) for form in (START, REFUSED, RUNS, SERVER))]


class Logging(Server):
    """A server with a log, whose lines are read as they come."""

    def __init__(self, program: str, **settings: int) -> None:
        self.lines: List[str] = []
        super().__init__(program, log=True, **settings)
        self.reader = threading.Thread(target=self.read_lines, daemon=True)
        self.reader.start()

    def __exit__(self, *error: object) -> None:
        # the reader ends with the server. Once standard error is closed, the number of its
        # descriptor may be another file's
        self.close()
        self.reader.join()
        super().__exit__(*error)

    def read_lines(self) -> None:
        held = b''
        while True:
            piece = os.read(self.child.stderr.fileno(), 1 << 16)
            if not piece:
                return
            *whole, held = (held + piece).split(b'\n')
            self.lines += [line.decode() for line in whole]

    def entry(self, client: Client) -> Entry:
        """What the log tells of a client's session, once it does."""
        port = client.socket.getsockname()[1]

        def found() -> Optional[Entry]:
            return next((each for each in entries_of(list(self.lines)) if each.port == port), None)
        return until('a line of the log for %d' % port, found)


def expect_entry(server: Logging, client: Client, end: str, received: int, sent: int, commands: int,
                 steps: int = 0, refused: int = 0) -> None:
    entry = server.entry(client)
    expect('the line of the log', (end, received, sent, commands, steps, refused),
           tuple(entry[2:3] + entry[4:9]))


def each_end_has_its_line(program: str) -> None:
    """How it ended, what came and went, how many commands were taken and what was spent: of each
    end that a client can bring about."""
    refused = [(b'matrix\n', b'no S2\n', 'refused-S2'),
               (b'matrix A 9\nxx', b'no S5\n', 'refused-S5'),
               (b'x' * 1025 + b'\n', b'no S6\n', 'refused-S6'),
               (b'matrix A 268435457\n', b'no S7\n', 'refused-S7')]
    with Logging(program, steps=MOST_STEPS) as server:
        with server.client() as client:
            client.expect(b'quit\n', b'ok quit\n')
            expect_entry(server, client, 'quit', 5, 8, 1)
        with server.client() as client:
            client.send(b'\n  \nfoo\n')
            client.send_no_more()
            expect('the reply', b'no S1\n', client.rest())
            expect_entry(server, client, 'input-end', 8, 6, 1, refused=1)
        for data, reply, end in refused:
            with server.client() as client:
                client.send(data)
                client.send_no_more()
                expect('the reply', reply, client.rest())
                entry = server.entry(client)
                expect('the line of the log', (end, len(reply), 1, 0, 1),
                       (entry.end, entry.sent, entry.commands, entry.steps, entry.refused))
                # what came behind the refusal is read away when the connection is closed, and is no
                # part of the session
                expect('whether all that was read is counted', True,
                       0 < entry.received <= len(data))
        with server.client() as client:
            for command, reply in zip(UPLOADS, UPLOADED):
                client.expect(command, reply)
            client.expect(PRODUCT, b'ok queued 1 12\n')
            client.expect(b'run\n', b'ok run 1 9\nC 1 1 1 9\n')
            client.expect(PRODUCT, b'ok queued 1 12\n')
            client.expect(b'quit\n', b'ok quit\n')
            sent = b''.join(
                UPLOADED) + 2 * b'ok queued 1 12\n' + b'ok run 1 9\nC 1 1 1 9\nok quit\n'
            received = b''.join(UPLOADS) + 2 * PRODUCT + b'run\nquit\n'
            expect_entry(server, client, 'quit', len(received), len(sent), 8, 9)


def time_and_busy(program: str) -> None:
    """A session of half a second takes as long in the log; one that waits too long is told as idle;
    who is turned away, as that."""
    with Logging(program, idle=2) as server:
        with server.client() as client:
            time.sleep(0.5)
            client.expect(b'quit\n', b'ok quit\n')
            entry = server.entry(client)
            expect('whether %.3f s are half a second' % entry.seconds, True,
                   0.45 <= entry.seconds < 1.9)
        clients = full_house(server)
        with server.client() as another:
            expect('the seventeenth', BUSY, another.rest())
            expect_entry(server, another, 'no-busy', 0, 8, 0)
        for client in clients:
            expect('the end', b'', client.rest())
            expect_entry(server, client, 'idle', 7, 22 + len(str(MOST_STEPS)) - 7, 1)
            client.close()


def broken_off(program: str) -> None:
    """A client that resets its connection: amid a body the read has failed, amid a reply the
    write."""
    text = large_matrix()
    with Logging(program) as server:
        client = server.client()
        client.send(b'budget\nmatrix A 1000000\n%')
        client.replies.reply()
        time.sleep(0.2)
        port = client.socket.getsockname()[1]
        client.reset()
        end = until('a line',
                    lambda: [e for e in entries_of(list(server.lines)) if e.port == port])[0]
        expect('end and commands', ('read-failed', 1), (end.end, end.commands))
        client = server.client(LITTLE_ROOM)
        client.reply(matrix_command('A', text))
        # more than the buffers of a connection take, so that the server waits to write
        client.send(b'show A\n' * 8)
        client.replies.taken(1)
        time.sleep(0.5)
        port = client.socket.getsockname()[1]
        client.reset()
        end = until('a line',
                    lambda: [e for e in entries_of(list(server.lines)) if e.port == port])[0]
        expect('end, and whether a command was cut short', ('write-failed', True),
               (end.end, 2 <= end.commands < 9))


def sixteen_end_at_once(program: str) -> None:
    """Sixteen sessions that end at one moment leave sixteen whole lines, one for each; twenty
    times, in four seconds at least, as a second has only a hundred such lines."""
    with Logging(program) as server:
        for turn in range(20):
            time.sleep(0.2)
            clients = full_house(server)
            ports = {client.socket.getsockname()[1] for client in clients}
            with ThreadPoolExecutor(MOST_SESSIONS) as together:
                list(together.map(lambda client: client.send(b'quit\n'), clients))
            for client in clients:
                server.entry(client)
                client.close()
            told = entries_of(list(server.lines))
            lost = ports - {entry.port for entry in told if entry.end == 'quit'}
            if lost or sum(entry.end == 'quit' for entry in told) != (turn + 1) * MOST_SESSIONS:
                raise Wrong('turn %d: %d lines, none for %r' % (turn, len(told), lost))


def quick_sessions(port: int, count: int, pause: float = 0) -> None:
    """So many sessions one after another, of which each has its reply, and so many seconds before
    each."""
    for _ in range(count):
        time.sleep(pause)
        with Client(port) as client:
            client.expect(b'quit\n', b'ok quit\n')
            expect('the end', b'', client.rest())


def untold_in(line: str) -> int:
    """How many lines before this one were only counted."""
    told = re.search(r' untold=(\d+)', line)
    return int(told.group(1)) if told else 0


def start_with(program: str, error: int, sessions: int) -> 'subprocess.Popen[bytes]':
    """A server with a log on this descriptor, or on none where it is negative."""
    def prepared() -> None:
        if error < 0:
            os.close(2)
    child = subprocess.Popen([program] + serve_words(free_port(), sessions=sessions, log=True),
                             stdin=subprocess.DEVNULL, stdout=subprocess.PIPE,
                             stderr=None if error < 0 else error, preexec_fn=prepared)
    return child


def port_of(child: 'subprocess.Popen[bytes]') -> int:
    """The port of the line `listening P`."""
    line = child.stdout.readline().split()
    expect('line', b'listening', line[0] if line else b'')
    return int(line[1])


def nobody_reads_the_log(program: str) -> None:
    """Where nobody takes the lines, each session is served all the same. Those that fit no more are
    counted, as are those beyond a second's hundred of a kind: once they are read, the lines and
    what they count are two for each session. At 80 a second most would have lines."""
    sessions = QUEUE // 2 + 200
    reads, writes = os.pipe()
    fcntl.fcntl(writes, fcntl.F_SETPIPE_SZ, 4096)
    child = start_with(program, writes, sessions)
    os.close(writes)
    try:
        quick_sessions(port_of(child), sessions, 1 / 80)
        with os.fdopen(reads, 'rb') as log:
            lines = log.read().decode().splitlines()
        expect('status', 0, child.wait(60))
    finally:
        child.kill()
        child.stdout.close()
    kept = [line for line in lines if not SERVER.fullmatch(line)]
    expect('whether each is a line', True,
           all(START.fullmatch(line) or entry_of(line) for line in kept))
    untold = sum(map(untold_in, lines))
    expect('lines and untold ones', 2 * sessions, len(kept) + untold)
    if not untold or len(kept) < QUEUE:
        raise Wrong('%d lines, %d untold' % (len(kept), untold))


def log_that_is_closed(program: str) -> None:
    """Where standard error is closed, or a pipe that nobody holds, each session is served, and the
    status is 0."""
    for closed in (True, False):
        reads, writes = os.pipe()
        child = start_with(program, -1 if closed else writes, 20)
        os.close(writes)
        try:
            port = port_of(child)
            os.close(reads)
            quick_sessions(port, 20)
            expect('status', 0, child.wait(60))
        finally:
            child.kill()
            child.stdout.close()


def silent_without_the_flag(program: str) -> None:
    """Without --log nothing is said on standard error, and there is no thread but the sessions'."""
    with Server(program, sessions=3) as server:
        expect('threads', 1, server.threads())
        quick_sessions(server.port, 3)
        server.expect_end(0)


def starts_and_refusals(program: str) -> None:
    """A line when a session starts, and one for each refusal, of steps with its price and what is
    left, but at most ten in a second: the others are counted, in the next such line and in that of
    the end."""
    many = 300
    with Logging(program, steps=12) as server, server.client() as client:
        port = client.socket.getsockname()[1]
        until('the start',
              lambda: any(told and int(told.group(2)) == port
                          for told in map(START.fullmatch, list(server.lines))))
        for command, reply in zip(UPLOADS, UPLOADED):
            client.expect(command, reply)
        client.expect(PRODUCT, b'ok queued 1 12\n')
        client.expect(b'foo\n', b'no S1\n')
        client.send(PRODUCT * many)
        for _ in range(many):
            expect('reply', b'no S8 12 0\n', client.replies.reply())
        time.sleep(1.1)
        client.expect(PRODUCT, b'no S8 12 0\n')
        client.expect(b'run\n', b'ok run 1 9\nC 1 1 1 9\n')
        client.expect(b'quit\n', b'ok quit\n')
        expect('refused', many + 2, server.entry(client).refused)
        told = [match.groups() for match in map(REFUSED.fullmatch, list(server.lines)) if match]
        expect('what refusals tell', {(str(port), 'S1', None, None), (str(port), 'S8', '12', '0')},
               {groups[:4] for groups in told})
        expect('refusals that are told or counted', many + 2,
               len(told) + sum(int(groups[4]) for groups in told))
        if len(told) > 60:
            raise Wrong('%d lines of refusals' % len(told))


def memory_that_is_refused(program: str) -> None:
    """A command that is refused memory has a line; names that read like a refusal have none. A
    program with run-time checks wants all addresses for itself, so it is not tried there."""
    if os.environ.get(CHECKED):
        return
    with Logging(program, limits={resource.RLIMIT_AS: 1 << 30}) as server, \
            server.client() as client:
        client.expect(matrix_command('no', matrix_text(1, 1, [(1, 1, 41)])), b'ok matrix 1 1 1\n')
        client.expect(assembly_command('memory', b'mov64 r0, r1\nexit\n', 'unary'), b'ok op 2 2\n')
        client.expect(b'apply no memory no\n', b'ok queued 1 2\n')
        client.expect(b'run\n', b'ok run 1 2\nno 1 1 1 2\n')
        client.reply(b'show no\n')
        replies = [client.reply(matrix_command('A%d' % turn, large_matrix_of_rows()))
                   for turn in range(12)]
        refused = replies.count(b'no memory\n')
        expect('whether some are refused and some are taken', True, 0 < refused < 12)
        client.expect(b'quit\n', b'ok quit\n')
        expect('refused', refused, server.entry(client).refused)
        told = [match.groups() for match in map(REFUSED.fullmatch, list(server.lines)) if match]
        expect('what refusals tell', {('memory', None, None)}, {groups[1:4] for groups in told})


def large_matrix_of_rows() -> bytes:
    """A short text of a matrix that takes 134 MB."""
    return matrix_text(1 << 24, 1, [])


def log_in_json(program: str) -> None:
    """With `--log-format json` each line is an object, with the same numbers."""
    child = subprocess.Popen([program] + serve_words(free_port(), 12, sessions=1)
                             + ['--log-format', 'json'], stdin=subprocess.DEVNULL,
                             stdout=subprocess.PIPE, stderr=subprocess.PIPE)
    with Client(port_of(child)) as client:
        name = '%s:%d' % client.socket.getsockname()
        for command in UPLOADS:
            client.reply(command)
        client.expect(PRODUCT, b'ok queued 1 12\n')
        client.expect(PRODUCT, b'no S8 12 0\n')
        client.expect(b'quit\n', b'ok quit\n')
    objects = [json.loads(line) for line in child.communicate(timeout=60)[1].splitlines()]
    for told in objects:
        if told['event'].startswith('server-'):
            expect('the address of the server', True,
                   bool(re.fullmatch(r'127\.0\.0\.1:\d+', told.pop('address'))))
            told['client'] = name
        expect('time', True,
               bool(re.fullmatch(r'\d{4}-\d\d-\d\dT\d\d:\d\d:\d\d\.\d{3}Z', told.pop('time'))))
        expect('client', name, told.pop('client'))
        expect('the number of the session', None if told['event'].startswith('server-') else 1,
               told.pop('id', None))
    seconds = objects[3].pop('seconds')
    expect('whether a session has seconds', True, isinstance(seconds, float) and 0 <= seconds < 60)
    received = sum(map(len, UPLOADS)) + 2 * len(PRODUCT) + 5
    sent = sum(map(len, UPLOADED)) + len(b'ok queued 1 12\nno S8 12 0\nok quit\n')
    expect('the log',
           [{'event': 'server-start', 'version': version(), 'steps': 12, 'workers': 1,
             'sessions': 1, 'idle': None, 'session_seconds': None, 'min_rate': None,
             'session_steps': None, 'session_reserve': None},
            {'event': 'start', 'untold': 0},
            {'event': 'refused', 'rule': 'S8', 'price': 12, 'left': 0, 'untold': 0},
            {'event': 'session', 'end': 'quit', 'in': received, 'out': sent, 'commands': 7,
             'jobs': 1, 'steps': 0, 'refused': 1, 'untold': 0, 'untold_steps': 0},
            {'event': 'server-end', 'end': 'sessions', 'sessions': 1, 'turned_away': 0,
             'refused': 1, 'steps': 0, 'left': 12, 'untold': 0, 'untold_steps': 0}], objects)


def version() -> str:
    """The version of the program, by the file VERSION."""
    with open(os.path.join(TOP, 'VERSION')) as file:
        return file.read().strip()


LOG_CASES: Dict[str, Callable[[str], None]] = {
    'log-of-each-end': each_end_has_its_line,
    'log-of-time-and-busy': time_and_busy,
    'log-of-broken-off': broken_off,
    'log-of-sixteen-at-once': sixteen_end_at_once,
    'log-that-nobody-reads': nobody_reads_the_log,
    'log-that-is-closed': log_that_is_closed,
    'log-of-starts-and-refusals': starts_and_refusals,
    'log-of-refused-memory': memory_that_is_refused,
    'log-in-json': log_in_json,
    'no-log-without-the-flag': silent_without_the_flag,
}
