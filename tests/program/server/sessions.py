"""Sessions over TCP that do as they should: the sessions of tests/cases/, a purse that several
share, and seats."""
import functools
import re
from concurrent.futures import ThreadPoolExecutor
from typing import Callable, Dict, List, NamedTuple, Optional, Tuple

from tests.lib.commands import (EXIT, INCREMENT, RESULT_IS_OPERAND, add, assembly_command,
                                case_file, case_folders, matrix_command, matrix_text,
                                operator_command, run_words, show_reply)
from tests.lib.limits import MOST_SESSIONS, MOST_STEPS
from tests.lib.runs import Wrong, difference, expect
from tests.program.generated.long_sessions import LONG_SESSIONS
from tests.program.server.server import BUSY, Client, Server, until

CLIENTS_AT_ONCE = 4
ENDED_BY_ITS_SESSION = (b'0', b'3')
# a job of 2 ** 29 steps, which takes some tenths of a second, and far longer where the machine is
# busy
LONG_ROWS, LONG_SLOTS = 1 << 17, 4096
LONG_PRICE = LONG_ROWS * LONG_SLOTS
LONG_SECONDS = 300.0

A, B = matrix_text(1, 2, [(1, 1, 10), (1, 2, 3)]), matrix_text(2, 1, [(1, 1, 1), (2, 1, 1)])
UPLOADS = [matrix_command('A', A), matrix_command('B', B),
           assembly_command('sub', b'mov64 r0, r1\nsub64 r0, r2\nexit\n', 'binary'),
           assembly_command('mul', b'mov64 r0, r1\nmul64 r0, r2\nexit\n', 'binary')]
UPLOADED = [b'ok matrix 1 2 2\n', b'ok matrix 2 1 2\n', b'ok op 3 3\n', b'ok op 3 3\n']
PRODUCT = b'product C sub mul A B\n'


class Session(NamedTuple):
    """A session of tests/cases/, or one that is made: what it is given, its replies, and the
    settings that it runs with."""
    name: str
    given: bytes
    wanted: bytes
    steps: int
    workers: int

    @property
    def shows_its_budget(self) -> bool:
        """Whether it would have other replies where others spend the same budget."""
        return (self.steps != MOST_STEPS or re.search(rb'^(ok budget|no S8) ', self.wanted,
                                                      re.M) is not None)


def folder_session(name: str) -> Optional[Session]:
    """A case of tests/cases/; none where it isn't a session, or not one that standard input alone
    gives."""
    words = (case_file(name, 'args') or '\n'.join(run_words()).encode()).decode().split()
    settings = dict(zip(words[1::2], words[2::2]))
    if words[:1] != ['run'] or (case_file(name, 'status')
                                or b'0').strip() not in ENDED_BY_ITS_SESSION:
        return None
    return Session(name, case_file(name, 'in') or b'', case_file(name, 'out') or b'',
                   int(settings['--steps']), int(settings['--workers']))


def all_sessions() -> List[Session]:
    """The sessions of tests/cases/, and those whose texts are made."""
    found = [session for session in map(folder_session, case_folders()) if session is not None]
    found += [Session(name, *make()) for name, make in LONG_SESSIONS.items()]
    return sorted(found)


def converse(server: Server, session: Session) -> None:
    with server.client() as client:
        said = client.converse(session.given)
    if said != session.wanted:
        raise Wrong('%s: %s' % (session.name, difference(session.wanted, said)))


def alone(program: str, session: Session) -> None:
    """A case that needs a budget of its own, beside nobody."""
    with Server(program, session.steps, session.workers) as server:
        converse(server, session)


def sessions_of_the_cases(program: str) -> None:
    """Every session, four clients at a time, gets the bytes that `run` gives: at one server for
    each number of workers, or, where it shows what is left of the budget, at a server of its
    own."""
    sessions = all_sessions()
    shared: Dict[int, List[Session]] = {}
    for session in sessions:
        if not session.shows_its_budget:
            shared.setdefault(session.workers, []).append(session)
    with ThreadPoolExecutor(CLIENTS_AT_ONCE) as clients:
        for workers, together in sorted(shared.items()):
            with Server(program, workers=workers) as server:
                list(clients.map(functools.partial(converse, server), together))
                server.look_at_rest()
        list(clients.map(functools.partial(alone, program),
                         [session for session in sessions if session.shows_its_budget]))
    if len(sessions) < 250 or sum(map(len, shared.values())) < 200:
        raise Wrong('only %d sessions, %r of them at one server'
                    % (len(sessions), {w: len(n) for w, n in shared.items()}))


def purse_of_twelve(program: str) -> None:
    """What one session reserves the other's `budget` shows, and is not there for the other's job,
    until the first runs."""
    with Server(program, 12) as server, server.client() as one, server.client() as other:
        for client in (one, other):
            for command, reply in zip(UPLOADS, UPLOADED):
                client.expect(command, reply)
        one.expect(PRODUCT, b'ok queued 1 12\n')
        other.expect(b'budget\n', b'ok budget 0 12 0\n')
        other.expect(PRODUCT, b'no S8 12 0\n')
        one.expect(b'run\n', b'ok run 1 9\nC 1 1 1 9\n')
        other.expect(b'budget\n', b'ok budget 3 0 9\n')
        one.expect(b'show C\n', show_reply(matrix_text(1, 1, [(1, 1, 7)])))
        other.expect(b'show C\n', b'no S4\n')
        one.expect(b'quit\n', b'ok quit\n')
        other.expect(b'quit\n', b'ok quit\n')
        server.look_at_rest()


ENDINGS: List[Tuple[str, Callable[[Client], object]]] = [
    ('quit', lambda client: client.expect(b'quit\n', b'ok quit\n')),
    ('no more input', Client.send_no_more),
    ('the end amid a body', lambda client: (client.send(b'matrix A 10\n12345'),
                                            client.send_no_more())),
    ('a refusal that ends it', lambda client: client.expect(b'op f unary x\n', b'no S2\n')),
    ('a line too long', lambda client: client.expect(b'x' * 1026, b'no S6\n')),
    ('closed', Client.close),
    ('reset', Client.reset),
    ('reset amid a body', lambda client: (client.send(b'matrix A 10\n12345'), client.reset())),]


def reservations_end_with_their_session(program: str) -> None:
    """However a session with a queued job ends, its price is there for the others again, with
    nothing spent."""
    with Server(program, 12) as server, server.client() as other:
        for what, end in ENDINGS:
            client = server.client()
            for command in UPLOADS:
                client.reply(command)
            client.expect(PRODUCT, b'ok queued 1 12\n')
            expect('budget beside a queued job', [0, 12, 0], other.budget())
            end(client)
            until('12 steps left after ' + what, lambda: other.budget() == [12, 0, 0])
            client.close()
        other.expect(b'quit\n', b'ok quit\n')
        server.look_at_rest()


def sums_session(server: Server, number: int, spent: List[int]) -> None:
    """One of many sessions: each reply to `budget` adds up to the allowance and counts what this
    session has reserved."""
    entries = number % 40 + 1
    price = entries * 3
    with server.seated() as client:
        def look(reserved_here: int) -> None:
            left, reserved, used = client.budget()
            expect('left, reserved and spent', server.steps, left + reserved + used)
            if reserved < reserved_here:
                raise Wrong('%d reserved in all, %d by one session' % (reserved, reserved_here))
        look(0)
        text = matrix_text(1, 40, [(1, at + 1, at) for at in range(entries)])
        client.expect(matrix_command('A', text), b'ok matrix 1 40 %d\n' % entries)
        client.expect(operator_command('inc', INCREMENT), b'ok op 3 3\n')
        for turn in range(3):
            client.expect(b'apply B inc A\n', b'ok queued 1 %d\n' % price)
            look(price)
            client.expect(b'run\n', b'ok run 1 %d\nB 1 40 %d %d\n' % (price, entries, price))
            spent[number] += price
            look(0)
        client.expect(b'apply B inc A\n', b'ok queued 1 %d\n' % price)
        look(price)
        # a third each quit, stop sending, and go without a word; what is queued is settled with
        # nothing
        if number % 3 == 0:
            client.expect(b'quit\n', b'ok quit\n')
        elif number % 3 == 1:
            client.send_no_more()
            expect('the end', b'', client.rest())


def sums_over_two_hundred_sessions(program: str) -> None:
    """200 clients at once for 16 seats; those that get `no busy` try again. At the end what they
    ran for is spent, and no more."""
    count = 200
    spent = [0] * count
    with Server(program, 1 << 20, 2) as server:
        with ThreadPoolExecutor(count) as clients:
            list(clients.map(lambda number: sums_session(server, number, spent), range(count)))
        with server.seated() as client:
            until('nothing reserved', lambda: client.budget()[1] == 0)
            expect('what is spent', sum(spent), client.budget()[2])
        server.look_at_rest()


def sixteen_and_a_seventeenth(program: str) -> None:
    """Sixteen sessions that each got a reply; the seventeenth reads `no busy` and the end, whether
    it sent something or not."""
    with Server(program) as server:
        seated = [server.client() for _ in range(MOST_SESSIONS)]
        for client in seated:
            expect('budget', [MOST_STEPS, 0, 0], client.budget())
        for sends in (b'', b'budget\n', b'budget\n' * 5000):
            with server.client() as another:
                another.send(sends)
                expect('the seventeenth', BUSY, another.rest())
        for client in seated:
            client.expect(b'quit\n', b'ok quit\n')
            expect('the end', b'', client.rest())
            client.close()
        server.look_at_rest()


def a_seat_that_is_free_at_once(program: str) -> None:
    """In a full house, 200 times: one quits and reads its end, and whoever connects then has a
    seat, never `no busy`."""
    with Server(program) as server:
        seated = [server.seated() for _ in range(MOST_SESSIONS)]
        for turn in range(200):
            place = turn % MOST_SESSIONS
            seated[place].expect(b'quit\n', b'ok quit\n')
            expect('the end', b'', seated[place].rest())
            seated[place].close()
            seated[place] = server.client()
            seated[place].expect(b'budget\n', b'ok budget %d 0 0\n' % MOST_STEPS)
        for client in seated:
            client.close()
        server.look_at_rest()


def long_uploads() -> List[Tuple[bytes, bytes]]:
    """What binds the operands of jobs that take long, with the replies."""
    text = matrix_text(LONG_ROWS, 1, [(row, 1, row) for row in range(1, LONG_ROWS + 1)])
    code = RESULT_IS_OPERAND + add(1) * (LONG_SLOTS - 2) + EXIT
    return [(matrix_command('A', text), b'ok matrix %d 1 %d\n' % (LONG_ROWS, LONG_ROWS)),
            (operator_command('long', code), b'ok op %d %d\n' % (LONG_SLOTS, LONG_SLOTS))]


def queue_long_jobs(client: Client, count: int) -> None:
    for position in range(1, count + 1):
        client.expect(b'apply B long A\n', b'ok queued %d %d\n' % (position, LONG_PRICE))


def ran_long_jobs(count: int) -> bytes:
    """The reply to `run`."""
    line = b'B %d 1 %d %d\n' % (LONG_ROWS, LONG_ROWS, LONG_PRICE)
    return b'ok run %d %d\n' % (count, count * LONG_PRICE) + line * count


def batches_on_as_many_workers_as_asked(program: str) -> None:
    """While a session runs a long batch it has a thread for each worker; meanwhile others are
    answered, and come and go."""
    jobs = 4
    with Server(program, workers=3) as server, server.client() as client, server.client() as other:
        for command, reply in long_uploads():
            client.expect(command, reply)
        queue_long_jobs(client, jobs)
        other.budget()
        client.socket.settimeout(LONG_SECONDS)
        client.send(b'run\n')
        until('threads of an acceptor, two sessions and two workers more',
              lambda: server.threads() == server.at_rest[0] + 4)
        for _ in range(20):
            expect('budget beside a batch', [MOST_STEPS - jobs * LONG_PRICE, jobs * LONG_PRICE, 0],
                   other.budget())
            with server.seated() as third:
                third.expect(b'quit\n', b'ok quit\n')
        if not client.says_nothing(0):
            raise Wrong('the batch ended before others were answered 20 times')
        expect('reply', ran_long_jobs(jobs), client.replies.reply())
        for each in (client, other):
            each.expect(b'quit\n', b'ok quit\n')
        server.look_at_rest()


def sessions_keep_to_themselves(program: str) -> None:
    """The same name stands for each session's own matrix, and a full queue of one is not
    another's."""
    with Server(program) as server:
        clients = [server.client() for _ in range(MOST_SESSIONS)]
        texts = [matrix_text(1, 1, [(1, 1, number)]) for number in range(MOST_SESSIONS)]
        for client, text in zip(clients, texts):
            client.expect(matrix_command('A', text), b'ok matrix 1 1 1\n')
            client.expect(operator_command('inc', INCREMENT), b'ok op 3 3\n')
        for position in range(64):
            clients[0].expect(b'apply B inc A\n', b'ok queued %d 3\n' % (position + 1))
        clients[0].expect(b'apply B inc A\n', b'no J6\n')
        clients[1].expect(b'apply B inc A\n', b'ok queued 1 3\n')
        for client, text in zip(clients, texts):
            client.expect(b'show A\n', show_reply(text))
            client.close()
        server.look_at_rest()


SESSION_CASES = {
    'sessions-of-the-cases': sessions_of_the_cases,
    'purse-of-twelve': purse_of_twelve,
    'reservations-end-with-their-session': reservations_end_with_their_session,
    'sums-over-two-hundred-sessions': sums_over_two_hundred_sessions,
    'sixteen-and-a-seventeenth': sixteen_and_a_seventeenth,
    'a-seat-that-is-free-at-once': a_seat_that_is_free_at_once,
    'batches-on-as-many-workers-as-asked': batches_on_as_many_workers_as_asked,
    'sessions-keep-to-themselves': sessions_keep_to_themselves,
}
