"""Clients that do harm, by mistake or on purpose. After each the server answers a new client, has
as many threads and descriptors as before, and nothing reserved."""
import time
from concurrent.futures import ThreadPoolExecutor
from typing import Callable, Dict, List

from tests.lib.commands import case_file, matrix_command, matrix_text, show_reply
from tests.lib.limits import MEGABYTE, MOST_MATRIX_BYTES, MOST_SESSIONS
from tests.lib.runs import Wrong, difference, expect
from tests.program.server.server import BUSY, Client, Server, until

# some 2 MB of text, more than the buffers of a connection take where a client has little room, so
# that the server waits to write it
LARGE_SIDE = 1 << 17
LITTLE_ROOM = 4096
IDLE_SECONDS, LITTLE_TIME = 1.0, 0.2


def large_matrix() -> bytes:
    """The text of a matrix whose `show` no connection takes at once."""
    return matrix_text(LARGE_SIDE, 1, [(row, 1, row) for row in range(1, LARGE_SIDE + 1)])


def full_house(server: Server) -> List[Client]:
    return [server.seated() for _ in range(MOST_SESSIONS)]


def leave(clients: List[Client]) -> None:
    for client in clients:
        client.close()


def silent(server: Server) -> None:
    """Sixteen that connect and say nothing: no processor time is spent on them, and a seventeenth
    is told that there is no seat."""
    clients = [server.client() for _ in range(MOST_SESSIONS)]
    until('a thread for each', lambda: server.threads() == server.at_rest[0] + MOST_SESSIONS)
    before = server.processor_seconds()
    time.sleep(IDLE_SECONDS)
    spent = server.processor_seconds() - before
    if spent > LITTLE_TIME:
        raise Wrong('%.2f s of the processor in %.1f s of silence' % (spent, IDLE_SECONDS))
    with server.client() as another:
        expect('the seventeenth', BUSY, another.rest())
    leave(clients)


def slow(server: Server) -> None:
    """A session that comes a byte at a time has the same replies; another is answered meanwhile."""
    data, want = case_file('first-run', 'in') or b'', (case_file('first-run', 'out') or b'')
    with server.client() as client, server.seated() as other:
        for at in range(len(data)):
            client.send(data[at:at + 1])
            if at % 16 == 0:
                other.budget()
        said = client.rest()
    if said != want:
        raise Wrong(difference(want, said))


def half_closed(server: Server) -> None:
    """Whoever sends all and closes that side gets all replies, of which most are still to be
    written by then."""
    text = large_matrix()
    reply = show_reply(text)
    with server.client() as client:
        client.expect(matrix_command('A', text), b'ok matrix %d 1 %d\n' % (LARGE_SIDE, LARGE_SIDE))
        client.send(b'show A\n' * 3 + b'budget\nshow A')
        client.send_no_more()
        time.sleep(LITTLE_TIME)
        said = client.rest()
    if said != reply * 3 + b'ok budget %d 0 0\n' % server.steps + reply:
        raise Wrong('%d bytes of replies, of %d' % (len(said), 4 * len(reply) + 32))


def reset_amid_a_body(server: Server) -> None:
    for sent in (0, 1, 4000, 500000):
        client = server.client()
        client.send(b'matrix A 1000000\n' + b'%' * sent)
        time.sleep(LITTLE_TIME if sent else 0)
        client.reset()


def reset_amid_a_reply(server: Server) -> None:
    """With a reply half read, and with nothing of it read."""
    for read in (100000, 1, 0):
        client = server.client(LITTLE_ROOM)
        client.expect(matrix_command('A', large_matrix()),
                      b'ok matrix %d 1 %d\n' % (LARGE_SIDE, LARGE_SIDE))
        client.send(b'show A\n')
        client.replies.taken(read)
        time.sleep(LITTLE_TIME)
        client.reset()


def closed_with_replies_unread(server: Server) -> None:
    for count in (1, 100, 1000):
        client = server.client()
        client.send(b'budget\n' * count)
        time.sleep(LITTLE_TIME)
        client.close()


def body_announced_and_not_sent(server: Server) -> None:
    """Sixteen bodies of the greatest length of which nothing comes take no room; where the input
    ends, the reply is `no S5`."""
    with server.seated():
        before = server.status('VmHWM')
    # the seat of the session above may be given back only now
    clients = full_house(server)
    for client in clients:
        client.send(b'budget\nmatrix A %d\n%%%%Matrix' % MOST_MATRIX_BYTES)
        expect('budget', b'ok budget %d 0 0\n' % server.steps, client.replies.reply())
    time.sleep(LITTLE_TIME)
    taken = server.status('VmHWM') - before
    if taken > 16 * MEGABYTE:
        raise Wrong('%d MB for bodies that did not come' % (taken // MEGABYTE))
    for client in clients[1:]:
        client.send_no_more()
        expect('the replies', b'no S5\n', client.rest())
        client.close()
    clients[0].reset()


def body_that_is_refused(server: Server) -> None:
    """What comes behind a refusal that ends the session doesn't take the refusal back."""
    with server.client() as client:
        client.send(b'matrix A %d\n' % (MOST_MATRIX_BYTES + 1) + b'%' * 100000)
        expect('the replies', b'no S7\n', client.rest())
    with server.client() as client:
        client.send(b'budget\nquit\nmore\n' * 1000)
        expect('the replies', b'ok budget %d 0 0\nok quit\n' % server.steps, client.rest())


def flood_of_a_full_house(server: Server) -> None:
    """While sixteen have seats, 400 clients by 40 at once all read `no busy` and their end, and the
    sixteen are answered."""
    clients = full_house(server)

    def turned_away(number: int) -> bytes:
        with server.client() as another:
            if number % 2:
                another.send(b'budget\n')
            return another.rest()

    with ThreadPoolExecutor(40) as flood:
        refused = [flood.submit(turned_away, number) for number in range(400)]
        for turn in range(100):
            expect('budget', [server.steps, 0, 0], clients[turn % MOST_SESSIONS].budget())
        for each in refused:
            expect('one of the flood', BUSY, each.result())
    leave(clients)


def connected_and_reset(server: Server) -> None:
    """300 that connect and reset at once, some before they are accepted."""
    for _ in range(300):
        server.client().reset()


def full_house_that_resets(server: Server) -> None:
    """Sixteen sessions end at one moment, five times."""
    for _ in range(5):
        clients = full_house(server)
        for client in clients:
            client.reset()


def reads_nothing(server: Server) -> None:
    """Sessions whose replies nobody reads wait without processor time, and others are answered; all
    of them end by a reset."""
    clients = [server.client(LITTLE_ROOM) for _ in range(MOST_SESSIONS - 1)]
    for client in clients:
        client.socket.setblocking(False)

    def nothing_more_goes() -> bool:
        return not any([pushed(client, b'budget\n' * 1000) for client in clients])

    until('the commands of all fill their connections', lambda: nothing_more_goes()
          and settled(server))
    before = server.processor_seconds()
    time.sleep(IDLE_SECONDS)
    spent = server.processor_seconds() - before
    if spent > LITTLE_TIME:
        raise Wrong('%.2f s of the processor for sessions that wait to write' % spent)
    with server.seated() as other:
        for _ in range(100):
            other.budget()
    for client in clients:
        client.reset()


def pushed(client: Client, data: bytes) -> bool:
    """Whether a connection that doesn't wait took some of this."""
    try:
        return client.socket.send(data) > 0
    except BlockingIOError:
        return False


def settled(server: Server) -> bool:
    """Whether the server took no processor time for a moment."""
    before = server.processor_seconds()
    time.sleep(LITTLE_TIME)
    return server.processor_seconds() == before


def stopped_amid_sessions(server: Server) -> None:
    """A process that is stopped and goes on while it waits for input, for a body, and to write,
    ends none of its sessions."""
    text = large_matrix()
    with server.seated() as waiting, server.client() as amid, server.client(LITTLE_ROOM) as unread:
        amid.send(b'matrix A %d\n' % len(text) + text[:1000])
        unread.expect(matrix_command('A', text), b'ok matrix %d 1 %d\n' % (LARGE_SIDE, LARGE_SIDE))
        unread.send(b'show A\n')
        for _ in range(5):
            time.sleep(LITTLE_TIME / 4)
            server.stopped(LITTLE_TIME / 4)
        expect('budget', [server.steps, 0, 0], waiting.budget())
        amid.send(text[1000:])
        expect('reply', b'ok matrix %d 1 %d\n' % (LARGE_SIDE, LARGE_SIDE), amid.replies.reply())
        if unread.replies.reply() != show_reply(text):
            raise Wrong('a reply that was being written has changed')


def on_a_server(harm: Callable[[Server], None]) -> Callable[[str], None]:
    """A case: harm is done to a server with a batch's worth of steps, which then has to be as it
    was."""
    def case(program: str) -> None:
        with Server(program, 1 << 40, 2) as server:
            harm(server)
            server.look_at_rest()
    return case


HOSTILE_CASES: Dict[str, Callable[[str], None]] = {
    'hostile: ' + name: on_a_server(harm) for name, harm in [
        ('silent', silent), ('slow', slow), ('half-closed', half_closed),
        ('reset-amid-a-body', reset_amid_a_body),
        ('reset-amid-a-reply', reset_amid_a_reply),
        ('closed-with-replies-unread', closed_with_replies_unread),
        ('body-announced-and-not-sent', body_announced_and_not_sent),
        ('body-that-is-refused', body_that_is_refused),
        ('flood-of-a-full-house', flood_of_a_full_house),
        ('connected-and-reset', connected_and_reset),
        ('full-house-that-resets', full_house_that_resets), ('reads-nothing', reads_nothing),
        ('stopped-amid-sessions', stopped_amid_sessions)]
}
