"""A server of the built program on a port of the loopback, what it takes of the system, and its
clients."""
import os
import resource
import select
import signal
import socket
import struct
import subprocess
import time
from typing import Callable, Dict, List, Optional, TypeVar

from tests.lib.limits import MOST_STEPS
from tests.lib.patience import FOR_A_REPLY
from tests.lib.ports import LOOPBACK, free_port
from tests.lib.replies import Replies
from tests.lib.runs import Wrong, expect

BUSY = b'no busy\n'
PIECE = 1 << 16
PORTS_TRIED = 5

Held = TypeVar('Held')


def serve_words(port: int, steps: int = MOST_STEPS, workers: int = 1,
                sessions: Optional[int] = None, idle: Optional[int] = None, log: bool = False,
                **shares: int) -> List[str]:
    """The words of the command line that serve sessions over TCP; `shares` are `session_steps` and
    `session_reserve`."""
    words = ['serve', '--port', str(port), '--steps', str(steps), '--workers', str(workers)]
    words += [] if sessions is None else ['--sessions', str(sessions)]
    words += [] if idle is None else ['--idle', str(idle)]
    for name, number in shares.items():
        words += ['--' + name.replace('_', '-'), str(number)]
    return words + (['--log'] if log else [])


def until(what: str, holds: Callable[[], Held], seconds: float = FOR_A_REPLY) -> Held:
    """Waits until something holds, and answers it."""
    end = time.monotonic() + seconds
    while True:
        held = holds()
        if held:
            return held
        if time.monotonic() > end:
            raise Wrong('%s: not in %g seconds' % (what, seconds))
        time.sleep(0.005)


def given_back(budget: List[int]) -> Optional[List[int]]:
    """What is left, reserved and spent, once nothing is reserved."""
    return budget if budget[1] == 0 else None


class Server:
    """A server that was started and said that it listens; it is killed where the block ends, if it
    didn't end before."""

    def __init__(self, program: str, steps: int = MOST_STEPS, workers: int = 1,
                 sessions: Optional[int] = None, idle: Optional[int] = None, log: bool = False,
                 limits: Optional[Dict[int, int]] = None, **shares: int) -> None:
        self.program, self.steps, self.limits = program, steps, limits or {}
        for _ in range(PORTS_TRIED):
            self.port = free_port()
            self.start(serve_words(self.port, steps, workers, sessions, idle, log, **shares))
            line = self.line_of_output()
            if line:
                break
            # someone else took the port in between
            self.child.wait(FOR_A_REPLY)
        if line != b'listening %d\n' % self.port:
            self.close()
            raise Wrong('expected listening %d, got %.60r and %.60r'
                        % (self.port, line, self.child.stderr.read()))
        self.at_rest = (self.threads(), self.descriptors())

    def start(self, words: List[str]) -> None:
        def prepared() -> None:
            for what, most in self.limits.items():
                resource.setrlimit(what, (most, most))
            # a shell lets what it starts in the background ignore it
            signal.signal(signal.SIGINT, signal.SIG_DFL)
        self.child = subprocess.Popen([self.program] + words, stdin=subprocess.DEVNULL,
                                      stdout=subprocess.PIPE, stderr=subprocess.PIPE, bufsize=0,
                                      preexec_fn=prepared)

    def line_of_output(self) -> bytes:
        line = b''
        while not line.endswith(b'\n'):
            if not select.select([self.child.stdout], [], [], FOR_A_REPLY)[0]:
                raise Wrong('says nothing in %g seconds' % FOR_A_REPLY)
            byte = self.child.stdout.read(1)
            if not byte:
                break
            line += byte
        return line

    def __enter__(self) -> 'Server':
        return self

    def __exit__(self, *_: object) -> None:
        self.close()
        self.child.stdout.close()
        self.child.stderr.close()

    def close(self) -> None:
        self.child.kill()
        self.child.wait()

    def signal(self, number: int) -> None:
        self.child.send_signal(number)

    def stopped(self, seconds: float) -> None:
        """Stops the process for a while, and lets it go on."""
        self.signal(signal.SIGSTOP)
        time.sleep(seconds)
        self.signal(signal.SIGCONT)

    def expect_end(self, status: int, said: bytes = b'') -> None:
        """The server ends by itself, with this status and these words on standard error."""
        try:
            expect('status of the server', status, self.child.wait(FOR_A_REPLY))
        except subprocess.TimeoutExpired:
            raise Wrong('the server has not ended in %g seconds' % FOR_A_REPLY) from None
        expect('standard output behind listening', b'', self.child.stdout.read())
        expect('standard error', said, self.child.stderr.read())

    def runs(self) -> bool:
        return self.child.poll() is None

    def threads(self) -> int:
        return len(os.listdir('/proc/%d/task' % self.child.pid))

    def descriptors(self) -> int:
        return len(os.listdir('/proc/%d/fd' % self.child.pid))

    def status(self, field: str) -> int:
        """A number of bytes of /proc/PID/status."""
        with open('/proc/%d/status' % self.child.pid) as file:
            return next(int(line.split()[1]) << 10 for line in file if line.startswith(field + ':'))

    def processor_seconds(self) -> float:
        with open('/proc/%d/stat' % self.child.pid) as file:
            fields = file.read().rsplit(')', 1)[1].split()
        return (int(fields[11]) + int(fields[12])) / os.sysconf('SC_CLK_TCK')

    def client(self, room: int = 0) -> 'Client':
        """A client that has connected. Where room is given, the system takes in little more than so
        many bytes for it."""
        return Client(self.port, room)

    def seated(self) -> 'Client':
        """A client that has a seat, which its reply to `budget` shows. One that gets `no busy`
        tries again."""
        def try_once() -> Optional['Client']:
            client = self.client()
            if client.reply(b'budget\n') != BUSY:
                return client
            client.close()
            return None
        return until('a seat', try_once)

    def look_at_rest(self) -> None:
        """A new client is answered, nothing stays reserved, and threads and descriptors are where
        they were at the start."""
        if not self.runs():
            raise Wrong('the server ended, status %d, %.100r'
                        % (self.child.wait(), self.child.stderr.read()))
        with self.seated() as client:
            # a client that closes its end doesn't wait for its session to end, so what it reserved
            # may be given back later
            left, _, spent = until('reservations given back', lambda: given_back(client.budget()))
            expect('left and spent', self.steps, left + spent)
            expect('quit', b'ok quit\n', client.reply(b'quit\n'))
            expect('the end', b'', client.rest())
        until('threads and descriptors %r given back, %r at rest'
              % ((self.threads(), self.descriptors()), self.at_rest),
              lambda: (self.threads(), self.descriptors()) == self.at_rest)


class Client:
    """A connection to a server, from the port `near` where one is given."""

    def __init__(self, port: int, room: int = 0, near: int = 0) -> None:
        self.socket = socket.socket()
        if near:
            self.socket.setsockopt(socket.SOL_SOCKET, socket.SO_REUSEADDR, 1)
            self.socket.bind((LOOPBACK, near))
        if room:
            self.socket.setsockopt(socket.SOL_SOCKET, socket.SO_RCVBUF, room)
        self.socket.settimeout(FOR_A_REPLY)
        self.socket.connect((LOOPBACK, port))
        self.socket.setsockopt(socket.IPPROTO_TCP, socket.TCP_NODELAY, 1)
        self.replies = Replies(self.more)

    def __enter__(self) -> 'Client':
        return self

    def __exit__(self, *_: object) -> None:
        self.close()

    def close(self) -> None:
        self.socket.close()

    def reset(self) -> None:
        """Ends the connection by a reset, in both directions."""
        self.socket.setsockopt(socket.SOL_SOCKET, socket.SO_LINGER, struct.pack('ii', 1, 0))
        self.socket.close()

    def more(self) -> bytes:
        piece = self.socket.recv(PIECE)
        if not piece:
            raise Wrong('the connection ended where a reply was due')
        return piece

    def send(self, data: bytes) -> None:
        self.socket.sendall(data)

    def send_no_more(self) -> None:
        self.socket.shutdown(socket.SHUT_WR)

    def reply(self, command: bytes) -> bytes:
        """The whole reply to a command. A server that is full may have closed the connection before
        it came."""
        try:
            self.send(command)
        except OSError:
            pass
        return self.replies.reply()

    def expect(self, command: bytes, reply: bytes) -> None:
        expect('%.60r' % command, reply, self.reply(command))

    def budget(self) -> List[int]:
        """What is left, reserved and spent."""
        words = self.reply(b'budget\n').split()
        expect('reply to budget', [b'ok', b'budget'], words[:2])
        return [int(word) for word in words[2:]]

    def rest(self) -> bytes:
        """All that comes until the server ends the connection."""
        pieces = [self.replies.rest()] if self.replies.has_more else []
        while True:
            piece = self.socket.recv(PIECE)
            if not piece:
                return b''.join(pieces)
            pieces.append(piece)

    def says_nothing(self, seconds: float) -> bool:
        """Whether nothing comes for a while, neither a reply nor the end."""
        return not self.replies.has_more and not select.select([self.socket], [], [], seconds)[0]

    def converse(self, data: bytes) -> bytes:
        """Sends all that there is, takes in replies meanwhile, sends no more, and answers all that
        came until the end. Where the server ends the session before all is sent, the rest is not
        sent."""
        self.socket.setblocking(False)
        unsent: Optional[memoryview] = memoryview(data)
        pieces, end = [], time.monotonic() + FOR_A_REPLY
        while True:
            ready, free, _ = select.select([self.socket], [] if unsent is None else [self.socket],
                                           [], 1)
            if free:
                unsent = self.sent_some(unsent)
            if ready:
                piece = self.socket.recv(PIECE)
                if not piece:
                    return b''.join(pieces)
                pieces.append(piece)
            if ready or free:
                end = time.monotonic() + FOR_A_REPLY
            elif time.monotonic() > end:
                raise Wrong('nothing moves for %g seconds' % FOR_A_REPLY)

    def sent_some(self, unsent: memoryview) -> Optional[memoryview]:
        """What is left to send; none where all is sent or can't be."""
        try:
            unsent = unsent[self.socket.send(unsent):]
            if unsent:
                return unsent
            self.send_no_more()
        except OSError:
            pass
        return None
