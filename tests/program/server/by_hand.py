"""Tests of `spmat serve` that are run by hand: very many sessions, and servers under limits of the
system."""
import resource
import time
from typing import Callable, Dict, List

from tests.lib.commands import INCREMENT, matrix_command, matrix_text, operator_command, show_reply
from tests.lib.limits import MEGABYTE, MOST_SESSIONS
from tests.lib.runs import Wrong, expect
from tests.program.server.server import BUSY, Client, Server, until

MANY = '--many'
MANY_SESSIONS = 50000
# what resident memory may grow by, from a tenth of the sessions to all of them
FLAT = MEGABYTE // 2
# the stack of a session's thread takes some 8 MB of address space, so that some of sixteen start
ADDRESS_SPACE = 60 * MEGABYTE
# standard streams, the listener, and five connections
FEW_DESCRIPTORS = 9


def whole_session(client: Client) -> None:
    """Each kind of command, with a batch."""
    text, mapped = matrix_text(1, 1, [(1, 1, 41)]), matrix_text(1, 1, [(1, 1, 42)])
    client.send(matrix_command('A', text) + operator_command('inc', INCREMENT)
                + b'apply B inc A\nrun\nshow B\nquit\n')
    expect('replies', b'ok matrix 1 1 1\nok op 3 3\nok queued 1 3\nok run 1 3\nB 1 1 1 3\n'
           + show_reply(mapped) + b'ok quit\n', client.rest())


def many_sessions(program: str, count: int = MANY_SESSIONS) -> None:
    """Sessions one after another, each with a batch: resident memory doesn't grow, nor do threads
    and descriptors."""
    with Server(program) as server:
        began, resident = time.monotonic(), 0
        for number in range(count):
            with server.client() as client:
                whole_session(client)
            if (number + 1) % (count // 10) == 0:
                resident = resident or server.status('VmRSS')
                print('    %d sessions, %.0f s, %d kB resident, %d threads, %d descriptors' % (
                    number + 1, time.monotonic() - began, server.status('VmRSS') >> 10,
                    server.threads(), server.descriptors()), flush=True)
        grown = server.status('VmRSS') - resident
        if grown > FLAT:
            raise Wrong('resident memory grew by %d kB from %d to %d sessions'
                        % (grown >> 10, count // 10, count))
        with server.client() as client:
            expect('spent', 3 * count, client.budget()[2])
        until('threads and descriptors given back',
              lambda: (server.threads(), server.descriptors()) == server.at_rest)


def asked(server: Server) -> bytes:
    """What a client that asks for the budget and quits reads."""
    with server.client() as client:
        client.send(b'budget\nquit\n')
        return client.rest()


def seated_or_turned_away(server: Server, count: int) -> List[Client]:
    """So many clients, of which those are answered that were not turned away."""
    seated = []
    for _ in range(count):
        client = server.client()
        if client.reply(b'budget\n') == BUSY:
            expect('behind no busy', b'', client.rest())
            client.close()
        else:
            seated.append(client)
    return seated


def little_address_space(program: str) -> None:
    """Where no thread can be started a client reads `no busy`; those that have a seat go on, and
    later ones get theirs."""
    with Server(program, limits={resource.RLIMIT_AS: ADDRESS_SPACE}) as server:
        for _ in range(3):
            seated = seated_or_turned_away(server, MOST_SESSIONS)
            print('    %d of %d clients have a session under %d MB of address space'
                  % (len(seated), MOST_SESSIONS, ADDRESS_SPACE // MEGABYTE))
            if not 0 < len(seated) < MOST_SESSIONS:
                raise Wrong('the limit shows nothing')
            for client in seated:
                client.expect(b'quit\n', b'ok quit\n')
                expect('the end', b'', client.rest())
                client.close()
            for _ in range(3 * MOST_SESSIONS):
                until('an answer', lambda: asked(server) == b'ok budget %d 0 0\nok quit\n'
                      % server.steps)
        server.look_at_rest()


def refused_threads_are_no_sessions(program: str) -> None:
    """A client that was turned away since no thread could be started is none of the sessions after
    which the server ends."""
    with Server(program, sessions=MOST_SESSIONS,
                limits={resource.RLIMIT_AS: ADDRESS_SPACE}) as server:
        seated = seated_or_turned_away(server, MOST_SESSIONS)
        first = len(seated)
        for client in seated:
            client.expect(b'quit\n', b'ok quit\n')
            client.close()
        for _ in range(MOST_SESSIONS - first):
            expect('whether it runs', True, server.runs())
            until('an answer', lambda: asked(server).endswith(b'ok quit\n'))
        server.expect_end(0)


def few_descriptors(program: str) -> None:
    """Where no connection can be accepted the server says so, once the sessions that run have
    ended."""
    with Server(program, limits={resource.RLIMIT_NOFILE: FEW_DESCRIPTORS}) as server:
        clients = [server.client() for _ in range(FEW_DESCRIPTORS)]
        answered = []
        for client in clients:
            client.send(b'budget\n')
            if not client.says_nothing(0.5):
                answered.append(client)
        print('    %d of %d clients have a session with %d descriptors'
              % (len(answered), len(clients), FEW_DESCRIPTORS))
        for client in answered:
            expect('whether it runs', True, server.runs())
            expect('reply', b'ok budget %d 0 0\n' % server.steps, client.replies.reply())
            client.expect(b'budget\n', b'ok budget %d 0 0\n' % server.steps)
            client.expect(b'quit\n', b'ok quit\n')
            client.close()
        server.expect_end(
            1, b"spmat: network failed\nspmat: because accepting a connection failed: Too many "
            b"open files (os error 24)\n")
        for client in clients:
            client.close()


def limits(program: str) -> None:
    for part in (little_address_space, refused_threads_are_no_sessions, few_descriptors):
        began = time.monotonic()
        part(program)
        print('    %s, %.1f s' % (part.__name__.replace('_', '-'), time.monotonic() - began),
              flush=True)


BY_HAND: Dict[str, Callable[..., None]] = {MANY: many_sessions, '--limits': limits}
