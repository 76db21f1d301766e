"""What one session may take of the budget that all share: `--session-steps` and
`--session-reserve`."""
from typing import Callable, Dict

from tests.lib.runs import expect
from tests.program.server.server import Client, Server
from tests.program.server.sessions import PRODUCT, UPLOADED, UPLOADS

RAN = b'ok run 1 9\nC 1 1 1 9\n'


def uploaded(server: Server) -> Client:
    """A client whose session has what PRODUCT wants. That job has a price of 12 steps and takes
    9."""
    client = server.client()
    for command, reply in zip(UPLOADS, UPLOADED):
        client.expect(command, reply)
    return client


def queued(client: Client, place: int) -> None:
    client.expect(PRODUCT, b'ok queued %d 12\n' % place)


def spends_its_share(program: str) -> None:
    """With `--session-steps 30` a session spends and reserves 30 steps at most, and is told what it
    may still take. Others have shares of their own, and a new session has a new one."""
    with Server(program, 1000, session_steps=30) as server:
        with uploaded(server) as one, uploaded(server) as other:
            queued(one, 1)
            queued(one, 2)
            one.expect(PRODUCT, b'no S8 12 6\n')
            one.expect(b'budget\n', b'ok budget 976 24 0\n')
            queued(other, 1)
            one.expect(b'run\n', b'ok run 2 18\nC 1 1 1 9\nC 1 1 1 9\n')
            queued(one, 1)
            one.expect(PRODUCT, b'no S8 12 0\n')
            one.expect(b'run\n', RAN)
            one.expect(PRODUCT, b'no S8 12 3\n')
            other.expect(b'run\n', RAN)
            queued(other, 1)
            other.expect(b'budget\n', b'ok budget 952 12 36\n')
            for client in (one, other):
                client.expect(b'quit\n', b'ok quit\n')
        with uploaded(server) as another:
            queued(another, 1)
            another.expect(b'run\n', RAN)
        server.look_at_rest()


def reserves_its_share(program: str) -> None:
    """With `--session-reserve 24` a session reserves 24 steps at most at once, and spends as much
    as there is."""
    with Server(program, 100, session_reserve=24) as server:
        with uploaded(server) as client:
            for _ in range(5):
                queued(client, 1)
                queued(client, 2)
                client.expect(PRODUCT, b'no S8 12 0\n')
                client.expect(b'run\n', b'ok run 2 18\nC 1 1 1 9\nC 1 1 1 9\n')
            client.expect(PRODUCT, b'no S8 12 10\n')
            client.expect(b'quit\n', b'ok quit\n')
        server.look_at_rest()


def told_the_lesser(program: str) -> None:
    """Where both shares and the budget bound a session, it is told the least of what they leave."""
    with Server(program, 40, session_steps=33, session_reserve=20) as server:
        with uploaded(server) as one, uploaded(server) as other:
            queued(one, 1)
            one.expect(PRODUCT, b'no S8 12 8\n')
            one.expect(b'run\n', RAN)
            queued(one, 1)
            one.expect(b'run\n', RAN)
            queued(one, 1)
            one.expect(PRODUCT, b'no S8 12 3\n')
            other.expect(PRODUCT, b'no S8 12 10\n')
            one.expect(b'run\n', RAN)
            queued(other, 1)
            other.expect(PRODUCT, b'no S8 12 1\n')
            for client in (one, other):
                client.expect(b'quit\n', b'ok quit\n')
        server.look_at_rest()


def three_that_queue_leave_the_rest(program: str) -> None:
    """Three sessions that fill their queues and never run hold no more than their shares, and a
    fourth works on."""
    with Server(program, 1000, session_reserve=100) as server:
        silent = [uploaded(server) for _ in range(3)]
        for client in silent:
            for place in range(1, 9):
                queued(client, place)
            client.expect(PRODUCT, b'no S8 12 4\n')
        with uploaded(server) as worker:
            worker.expect(b'budget\n', b'ok budget 712 288 0\n')
            for _ in range(20):
                queued(worker, 1)
                worker.expect(b'run\n', RAN)
            worker.expect(b'quit\n', b'ok quit\n')
        for client in silent:
            client.close()
        server.look_at_rest()


SHARE_CASES: Dict[str, Callable[[str], None]] = {
    'share-of-the-steps': spends_its_share,
    'share-of-the-reservations': reserves_its_share,
    'share-told-the-lesser': told_the_lesser,
    'share-of-three-that-queue': three_that_queue_leave_the_rest,
}
