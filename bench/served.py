"""The part `served` of bench/run: what `spmat serve` takes beside a bare echo server on the same
machine, within one run.

Run as a program this is that echo server: a thread for each connection, which sends back what
comes.
"""
import os
import socketserver
import subprocess
import sys
import time
from typing import Callable, List, Tuple

from tests.lib.limits import MOST_SESSIONS
from tests.lib.runs import expect
from tests.program.server.server import LOOPBACK, Client, Server, free_port, until
from tests.program.server.sessions import (LONG_PRICE, LONG_SECONDS, long_uploads, queue_long_jobs,
                                           ran_long_jobs)

BUDGET = b'budget\n'
TIMES = 3
ROUNDS = 4000
CONNECTIONS = 1000
BATCHES = 4
PIECE = 4096


class EchoHandler(socketserver.BaseRequestHandler):
    def setup(self) -> None:
        self.request.setsockopt(6, 1, 1)  # TCP_NODELAY, as spmat sets it

    def handle(self) -> None:
        while True:
            data = self.request.recv(PIECE)
            if not data:
                return
            self.request.sendall(data)


class EchoServer(socketserver.ThreadingTCPServer):
    allow_reuse_address = True
    daemon_threads = True
    request_queue_size = 128


class Echo:
    """A server of another kind, in a process of its own, with clients as `Server` has them."""

    def __init__(self) -> None:
        self.port = free_port()
        self.child = subprocess.Popen([sys.executable, os.path.abspath(__file__), str(self.port)],
                                      stdout=subprocess.PIPE)
        self.child.stdout.readline()

    def __enter__(self) -> 'Echo':
        return self

    def __exit__(self, *_: object) -> None:
        self.child.kill()
        self.child.wait()
        self.child.stdout.close()

    def client(self) -> Client:
        return Client(self.port)


def per_second(count: int, work: Callable[[], None]) -> float:
    """How many a second, of the best of three times."""
    taken = []
    for _ in range(TIMES):
        began = time.monotonic()
        work()
        taken.append(time.monotonic() - began)
    return count / min(taken)


def round_trips(client_of: Callable[[], Client], connections: int) -> float:
    """Lines that are sent and answered a second, on so many connections side by side."""
    clients = [client_of() for _ in range(connections)]

    def work() -> None:
        for _ in range(ROUNDS // connections):
            for client in clients:
                client.send(BUDGET)
            for client in clients:
                client.replies.line()
    try:
        return per_second(ROUNDS, work)
    finally:
        for client in clients:
            client.close()


def connects(client_of: Callable[[], Client], answer: bytes) -> float:
    """Connections a second, one after another, each with one line that is answered and an end."""
    def work() -> None:
        for _ in range(CONNECTIONS):
            with client_of() as client:
                client.send(b'quit\n')
                client.send_no_more()
                expect('answer', answer, client.rest())
    return per_second(CONNECTIONS, work)


def kilobytes_of_a_session(server: Server) -> Tuple[float, float]:
    """Resident memory and address space of a session that has asked for the budget alone."""
    server.seated().close()
    until('rest', lambda: server.threads() == 1)
    before = server.status('VmRSS'), server.status('VmSize')
    clients = [server.seated() for _ in range(MOST_SESSIONS)]
    after = server.status('VmRSS'), server.status('VmSize')
    for client in clients:
        client.close()
    return (after[0] - before[0]) / MOST_SESSIONS / 1024, (after[1]
                                                           - before[1]) / MOST_SESSIONS / 1024


def batches(server: Server) -> Tuple[float, float]:
    """Seconds of a batch in each of four sessions one after another, and of all four at once."""
    clients = [server.client() for _ in range(BATCHES)]
    for client in clients:
        client.socket.settimeout(LONG_SECONDS)
        for command, reply in long_uploads():
            client.expect(command, reply)

    def run_all(at_once: bool) -> float:
        for client in clients:
            queue_long_jobs(client, 1)
        began = time.monotonic()
        for client in clients:
            client.send(b'run\n')
            if not at_once:
                expect('reply', ran_long_jobs(1), client.replies.reply())
        for client in clients if at_once else []:
            expect('reply', ran_long_jobs(1), client.replies.reply())
        return time.monotonic() - began

    one_by_one, at_once = (min(run_all(together) for _ in range(TIMES))
                           for together in (False, True))
    for client in clients:
        client.close()
    return one_by_one, at_once


def served(program: str, table: Callable[..., None], row: Callable[..., None]) -> None:
    with Server(program) as server, Echo() as echo:
        table('Sessions over TCP beside an echo server in Python, on %d processors'
              % len(os.sched_getaffinity(0)), 'what, a second', '`spmat serve`', 'echo',
              'times as many')
        for what, measured, answer in [
            ('round trips of `budget`, 1 connection', lambda of, _: round_trips(of, 1), None),
            ('round trips of `budget`, 16 connections',
             lambda of, _: round_trips(of, MOST_SESSIONS), None),
            ('connections with `quit`', connects, (b'ok quit\n', b'quit\n'))]:
            ours, theirs = (measured(of, answer and answer[side])
                            for side, of in enumerate((server.client, echo.client)))
            until('rest', lambda: server.threads() == 1)
            row(what, '%.0f' % ours, '%.0f' % theirs, '%.2f' % (ours / theirs))
        resident, space = kilobytes_of_a_session(server)
        until('rest', lambda: server.threads() == 1)
        table('A session that does nothing', 'what', 'KB')
        row('resident memory', '%.0f' % resident)
        row('address space', '%.0f' % space)
        one_by_one, at_once = batches(server)
        table('Batches of %d steps, one in each of %d sessions with 1 worker'
              % (LONG_PRICE, BATCHES), 'one after another, s', 'at once, s', 'times faster')
        row('%.2f' % one_by_one, '%.2f' % at_once, '%.2f' % (one_by_one / at_once))


def main(words: List[str]) -> None:
    with EchoServer((LOOPBACK, int(words[0])), EchoHandler) as server:
        print('listening', flush=True)
        server.serve_forever()


if __name__ == '__main__':
    main(sys.argv[1:])
