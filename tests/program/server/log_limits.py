"""What a log says of its server, how many lines each kind of event may have in a second, and how
sessions that run stand."""
import os
import signal
import subprocess
import time
from typing import Callable, Dict, List

from tests.lib.commands import assembly_command, matrix_command, matrix_text
from tests.lib.patience import CHECKED, FOR_A_REPLY
from tests.lib.ports import free_port
from tests.lib.runs import Wrong, expect
from tests.program.server.hostile import LITTLE_ROOM, full_house
from tests.program.server.logs import (REFUSED, RUNS, SERVER, START, Entry, Logging, entries_of,
                                       port_of, quick_sessions, untold_in, version)
from tests.program.server.server import BUSY, Client, serve_words, until
from tests.program.server.sessions import LONG_SECONDS, PRODUCT, UPLOADED, UPLOADS

# how many lines of a kind a second may have
MANY, FEW = 100, 10


def fields_of(line: str) -> Dict[str, str]:
    """The fields of a line of the server itself, but the time and the address."""
    told = SERVER.fullmatch(line)
    if not told:
        raise Wrong('no line of a server: %.200r' % line)
    return dict(field.split('=') for field in told.group(3).split())


def last_of(server: Logging) -> Dict[str, str]:
    """The fields of the last line of a server, once it has ended."""
    expect('status', 0, server.child.wait(60))
    server.reader.join(60)
    return fields_of(server.lines[-1])


def server_starts_and_ends(program: str) -> None:
    """The first line has the version, the budget and the settings; the last why the server ended,
    what it served, and what is left."""
    with Logging(program, steps=100, sessions=2, idle=60, session_steps=50) as server:
        with server.client() as client:
            for command in UPLOADS:
                client.reply(command)
            client.expect(PRODUCT, b'ok queued 1 12\n')
            client.expect(b'run\n', b'ok run 1 9\nC 1 1 1 9\n')
            client.expect(PRODUCT, b'ok queued 1 12\n')
            client.expect(b'foo\n', b'no S1\n')
            client.expect(b'quit\n', b'ok quit\n')
        quick_sessions(server.port, 1)
        last = last_of(server)
        expect('the first line', {'version': version(), 'steps': '100', 'workers': '1',
                                  'sessions': '2', 'idle': '60', 'session_seconds': 'none',
                                  'min_rate': 'none', 'session_steps': '50',
                                  'session_reserve': 'none'}, fields_of(server.lines[0]))
        expect('the last line', {'end': 'sessions', 'sessions': '2', 'turned_away': '0',
                                 'refused': '1', 'steps': '9', 'left': '91',
                                 'untold': '0', 'untold_steps': '0'}, last)


def few(lines: List[str], most: int, seconds: float) -> None:
    """So many lines at most came in each of so many seconds, and of the one that was begun."""
    if len(lines) > most * (int(seconds) + 2):
        raise Wrong('%d lines in %.1f seconds' % (len(lines), seconds))


def many_turned_away(program: str) -> None:
    """Of clients that are turned away ten a second have lines; the others are counted, in the next
    such line or in the last of all."""
    many = 500
    with Logging(program, sessions=17) as server:
        clients = full_house(server)
        began = time.monotonic()
        for _ in range(many):
            with server.client() as another:
                expect('one more', BUSY, another.rest())
        seconds = time.monotonic() - began
        for client in clients:
            client.expect(b'quit\n', b'ok quit\n')
            client.close()
        until('a seat',
              lambda: any(entry.end == 'quit' for entry in entries_of(list(server.lines))))
        with server.seated() as client:
            client.expect(b'quit\n', b'ok quit\n')
        last = last_of(server)
        away = [line for line in server.lines if ' end=no-busy ' in line]
        few(away, FEW, seconds)
        expect('all that are counted', last['turned_away'],
               str(len(away) + sum(map(untold_in, away)) + int(last['untold'])))
        expect('whether all are', True, int(last['turned_away']) >= many)


def many_sessions(program: str) -> None:
    """Of sessions that start, of batches, and of sessions that end, a hundred a second have lines;
    the others are counted, with their steps."""
    many = 600
    data = (matrix_command('A', matrix_text(1, 1, [(1, 1, 41)]))
            + assembly_command('f', b'mov64 r0, r1\nexit\n', 'unary')
            + b'apply B f A\nrun\nquit\n')
    with Logging(program, sessions=many) as server:
        began = time.monotonic()
        for _ in range(many):
            with server.client() as client:
                client.send(data)
                client.rest()
        seconds = time.monotonic() - began
        last = last_of(server)
        starts = [line for line in server.lines if START.fullmatch(line)]
        ends = [line for line in server.lines if ' end=quit ' in line]
        few(starts, MANY, seconds)
        few(ends, MANY, seconds)
        few([line for line in server.lines if RUNS.fullmatch(line)], MANY, seconds)
        expect('all sessions', str(many), last['sessions'])
        expect('all that are counted', 2 * many,
               len(starts) + len(ends) + sum(map(untold_in, server.lines)))
        told = sum(entry.steps + entry.untold_steps for entry in entries_of(server.lines))
        expect('all steps', (2 * many, str(2 * many)),
               (told + int(last['untold_steps']), last['steps']))
        if seconds < 4 and len(starts) == many:
            raise Wrong('%d starts have lines in %.1f seconds' % (many, seconds))


def refused_by_each_rule(program: str) -> None:
    """A refusal of any kind has its line, with the rule by which it was refused; a name that reads
    like one has none."""
    refused = [(b'foo\n', 'S1'), (b'drop\n', 'S1'),
               (matrix_command('A', b'%%MatrixMarket matrix coordinate real general\n1 1 0\n'),
                'M2'),
               (assembly_command('f', b'mov64 r9\n', 'unary'), 'A'),
               (assembly_command('f', b'ja -1\n', 'unary'), 'V'),
               (b'apply B g A\n', 'S4'), (b'show !\n', 'S3')]
    with Logging(program) as server, server.client() as client:
        client.expect(matrix_command('no', matrix_text(1, 1, [(1, 1, 41)])), b'ok matrix 1 1 1\n')
        client.expect(assembly_command('f', b'mov64 r0, r1\nexit\n', 'unary'), b'ok op 2 2\n')
        client.expect(b'apply no f no\n', b'ok queued 1 2\n')
        client.expect(b'run\n', b'ok run 1 2\nno 1 1 1 2\n')
        for command, rule in refused:
            reply = client.reply(command)
            expect('the refusal of %.40r' % command, True, reply.startswith(b'no ' + rule.encode()))
        client.expect(b'quit\n', b'ok quit\n')
        expect('refused', len(refused), server.entry(client).refused)
        rules = [match.group(2) for match in map(REFUSED.fullmatch, list(server.lines)) if match]
        expect('the rules', True, len(rules) == len(refused)
               and all(told.startswith(rule) for told, (_, rule) in zip(rules, refused)))


def told_every_second(program: str) -> None:
    """With `--log-every 1` a line a second and session tells how it stands: what it is at, its
    jobs, what it has reserved and spent, and what came and went. One that holds a job waits, one is
    amid a body, and one has run its job."""
    child = subprocess.Popen([program] + serve_words(free_port(), 100, sessions=3)
                             + ['--log-every', '1'], stdin=subprocess.DEVNULL,
                             stdout=subprocess.PIPE, stderr=subprocess.PIPE)
    port = port_of(child)
    with Client(port) as one, Client(port) as other, Client(port) as third:
        clients = one, other, third
        for client in clients:
            for command in UPLOADS:
                client.reply(command)
            client.expect(PRODUCT, b'ok queued 1 12\n')
        one.expect(b'run\n', b'ok run 1 9\nC 1 1 1 9\n')
        third.send(b'matrix A 1000\n%%Matrix')
        time.sleep(3.5)
        names = [str(client.socket.getsockname()[1]) for client in clients]
        third.send_no_more()
        for client in (one, other):
            client.expect(b'quit\n', b'ok quit\n')
        third.rest()
    lines = child.communicate(timeout=60)[1].decode().splitlines()
    told = [match.groups() for match in map(RUNS.fullmatch, lines) if match]
    received, sent = sum(map(len, UPLOADS)) + len(PRODUCT), sum(map(len, UPLOADED)) + len(
        b'ok queued 1 12\n')
    wanted = [('waiting', '0', '0', '9', str(received + 4),
               str(sent + len(b'ok run 1 9\nC 1 1 1 9\n'))),
              ('waiting', '1', '12', '0', str(received), str(sent)),
              ('reading', '1', '12', '0', str(received + 22), str(sent))]
    for name, numbers in zip(names, wanted):
        # the line of a batch comes while its session runs
        last = [groups[2:] for groups in told if groups[1] == name and groups[2] != 'running'][1:]
        expect('what is told of a session', {numbers}, set(last))
        expect('whether it is told each second', True, 1 <= len(last) <= 4)


def told_while_it_runs(program: str) -> None:
    """A session that runs a long batch is told as running, with its jobs; one whose client takes no
    reply as writing."""
    rows = 1 << 16
    slow = b'mov64 r0, r1\n' + b'add64 r0, 1\n' * 4000 + b'exit\n'
    text = matrix_text(rows, 1, [(row, 1, 1) for row in range(1, rows + 1)])
    with Logging(program, log_every=1) as server, server.client() as one, \
            server.client(LITTLE_ROOM) as other:
        def is_told(client: Client, *words: str) -> None:
            start = (str(client.socket.getsockname()[1]),) + words
            until('%r is told' % (start,),
                  lambda: any(told and told.groups()[1:1 + len(start)] == start
                              for told in map(RUNS.fullmatch, list(server.lines))), 4 * FOR_A_REPLY)
        for client in (one, other):
            client.reply(matrix_command('A', text))
        one.reply(assembly_command('f', slow, 'unary'))
        for _ in range(60):
            one.reply(b'apply B f A\n')
        one.send(b'run\n')
        is_told(one, 'running', '60')
        # more than the buffers of a connection take, so that the server waits to write
        other.send(b'show A\n' * 16)
        is_told(other, 'writing', '0')


def comes_again_from_its_port(program: str) -> None:
    """A client resets its connection while its batch runs, and connects again from the same port.
    The server then has two sessions of one address. Each has a number of its own, and its line has
    what it took."""
    rows, slots = 1 << 14, 4096
    jobs = 16
    if os.environ.get(CHECKED):
        rows, jobs = 1 << 11, 1
    text = matrix_text(rows, 1, [(row, 1, 1) for row in range(1, rows + 1)])
    slow = b'mov64 r0, r1\n' + b'add64 r0, 1\n' * (slots - 2) + b'exit\n'
    price = jobs * rows * slots
    with Logging(program) as server, server.client() as other:
        old = server.client()
        port = old.socket.getsockname()[1]
        old.reply(matrix_command('A', text))
        old.reply(assembly_command('f', slow, 'unary'))
        for _ in range(jobs):
            old.reply(b'apply B f A\n')
        old.send(b'run\n')
        until('the batch is priced', lambda: other.budget()[1] == price)
        old.reset()
        with Client(server.port, near=port) as new:
            for command in UPLOADS:
                new.reply(command)
            new.expect(PRODUCT, b'ok queued 1 12\n')
            new.expect(b'run\n', b'ok run 1 9\nC 1 1 1 9\n')
            new.expect(b'quit\n', b'ok quit\n')
        until('the lines of both', lambda: len(ends_of(server, port)) == 2, LONG_SECONDS)
        ends = {entry.end == 'quit': entry for entry in ends_of(server, port)}
    received = sum(map(len, UPLOADS)) + len(PRODUCT + b'run\nquit\n')
    expect('the line of the new session', (9, received, len(UPLOADS) + 3),
           (ends[True].steps, ends[True].received, ends[True].commands))
    expect('the steps of the old session', price, ends[False].steps)
    starts = [int(told.group(1)) for told in map(START.fullmatch, server.lines)
              if told and int(told.group(2)) == port]
    expect('the numbers of both, in the order of their starts', starts,
           [ends[False].number, ends[True].number])
    expect('how many numbers they have', 2, len(set(starts)))


def told_before_a_signal(program: str) -> None:
    """A server that SIGTERM ends has told what each session had spent by the reply to its last
    batch."""
    with Logging(program) as server, server.client() as one, server.client() as other:
        for client, batches in ((one, 3), (other, 2)):
            for command in UPLOADS:
                client.reply(command)
            for _ in range(batches):
                client.expect(PRODUCT, b'ok queued 1 12\n')
                client.expect(b'run\n', b'ok run 1 9\nC 1 1 1 9\n')
        client.expect(PRODUCT, b'ok queued 1 12\n')
        until('the line of the last batch', lambda: len(batches_of(server, other)) == 2)
        server.child.terminate()
        expect('status', -signal.SIGTERM, server.child.wait(60))
        server.reader.join(60)
        expect('the steps after each batch', (['9', '18', '27'], ['9', '18']),
               (batches_of(server, one), batches_of(server, other)))
        expect('lines of ends', [], entries_of(server.lines))


def batches_of(server: Logging, client: Client) -> List[str]:
    """The steps that the log tells of a client's session, after each of its batches."""
    port = str(client.socket.getsockname()[1])
    return [told.group(6) for told in map(RUNS.fullmatch, list(server.lines))
            if told and told.group(2) == port]


def ends_of(server: Logging, port: int) -> List[Entry]:
    """What the log says of the sessions of an address that have ended."""
    return [entry for entry in entries_of(list(server.lines)) if entry.port == port]


LIMIT_CASES: Dict[str, Callable[[str], None]] = {
    'log-of-the-server': server_starts_and_ends,
    'log-of-many-turned-away': many_turned_away,
    'log-of-many-sessions': many_sessions,
    'log-of-refused-rules': refused_by_each_rule,
    'log-every-second': told_every_second,
    'log-of-a-batch': told_while_it_runs,
    'log-of-one-address-twice': comes_again_from_its_port,
    'log-before-a-signal': told_before_a_signal,
}
