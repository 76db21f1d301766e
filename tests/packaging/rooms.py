"""What the tests of packaging/ share: folders, ports, processes that listen, and sessions over what
stands in front of them."""
import contextlib
import os
import shutil
import socket
import subprocess
import sys
import tempfile
import time
import unittest
from typing import Any, Callable, Dict, Iterator, List, Optional, Sequence

from tests.lib.paths import CLIENT, PROGRAM
from tests.lib.patience import CHECKED, FOR_A_REPLY
from tests.lib.ports import free_port

sys.path.insert(0, CLIENT)

PATH = os.pathsep.join([os.environ.get('PATH', ''), '/usr/sbin', '/sbin'])
FIRST_SESSION = (b'matrix A 62\n%%MatrixMarket matrix coordinate integer general\n1 1 1\n1 1 41\n'
                 b'asm inc unary 30\nmov64 r0, r1\nadd64 r0, 1\nexit\napply B inc A\nrun\nshow '
                 b'B\nquit\n')
LAST_REPLIES = b'1 1 42\nok quit\n'


def program() -> str:
    """The program that the tests are about: the variable SPMAT, or the built one."""
    return os.path.abspath(os.environ.get('SPMAT') or PROGRAM)


def is_checked() -> bool:
    """Whether the program has run-time checks, which want all addresses and calls of their own (the
    variable SPMAT_CHECKED)."""
    return bool(os.environ.get(CHECKED))


def found(name: str) -> Optional[str]:
    """The path of a program of this machine, those of /usr/sbin among them."""
    return shutil.which(name, path=PATH)


def needs(*names: str) -> Callable[[Any], Any]:
    """Skips what wants programs that aren't there, and names them."""
    missing = [name for name in names if found(name) is None]
    return unittest.skipIf(bool(missing), 'no ' + ', no '.join(missing))


def until(what: str, happens: Callable[[], bool], seconds: float = FOR_A_REPLY) -> None:
    """Waits for something."""
    end = time.monotonic() + seconds
    while not happens():
        if time.monotonic() > end:
            raise AssertionError('%s doesn\'t happen in %g seconds' % (what, seconds))
        time.sleep(0.02)


def listens(port: int) -> bool:
    """Whether a connection to a port is taken."""
    try:
        socket.create_connection(('127.0.0.1', port), 1).close()
    except OSError:
        return False
    return True


def converse(connection: socket.socket, data: bytes) -> bytes:
    """Sends all, sends no more, and takes in what comes until the end."""
    with connection:
        connection.settimeout(FOR_A_REPLY)
        connection.sendall(data)
        connection.shutdown(socket.SHUT_WR)
        return b''.join(iter(lambda: connection.recv(1 << 16), b''))


class Room(unittest.TestCase):
    """A test with a folder of its own, whose processes end with it."""

    def setUp(self) -> None:
        self.stack = contextlib.ExitStack()
        self.addCleanup(self.stack.close)
        self.folder = self.stack.enter_context(tempfile.TemporaryDirectory(prefix='spmat-'))

    def file(self, name: str) -> str:
        return os.path.join(self.folder, name)

    def write(self, name: str, text: str, mode: int = 0o600) -> str:
        with open(self.file(name), 'w', encoding='utf-8') as file:
            file.write(text)
        os.chmod(self.file(name), mode)
        return self.file(name)

    def log(self, name: str) -> str:
        with open(self.file(name + '.log'), encoding='utf-8', errors='replace') as file:
            return file.read()

    def start(self, name: str, words: Sequence[str], ready: Callable[[], bool],
              **settings: Any) -> 'subprocess.Popen[bytes]':
        """Starts a process that runs until the test ends, and waits until it is ready. What it says
        goes to `name`.log."""
        log = self.stack.enter_context(open(self.file(name + '.log'), 'wb'))
        child = subprocess.Popen(list(words), stdin=subprocess.DEVNULL, stdout=log, stderr=log,
                                 cwd=self.folder, **settings)
        self.stack.callback(ended, child)

        def is_ready() -> bool:
            if child.poll() is not None:
                raise AssertionError('%s ended with status %d: %s'
                                     % (name, child.returncode, self.log(name)))
            return ready()
        until(name + ' is ready', is_ready)
        return child

    def serve(self, *words: str) -> int:
        """Starts `spmat serve` with these words behind the port, which is answered."""
        port = free_port()
        self.start('serve', [program(), 'serve', '--port', str(port), '--steps', '1000000',
                             '--workers', '1'] + list(words),
                   lambda: 'listening %d\n' % port in self.log('serve'))
        return port


def ended(child: 'subprocess.Popen[bytes]') -> None:
    """Ends a process and waits for it."""
    child.terminate()
    try:
        child.wait(5)
    except subprocess.TimeoutExpired:
        child.kill()
        child.wait()


def settings_of(text: str) -> Dict[str, List[str]]:
    """The settings of a unit: the values of each name, in order."""
    out: Dict[str, List[str]] = {}
    for line in lines_of(text):
        name, _, value = line.partition('=')
        out.setdefault(name, []).append(value)
    return out


def lines_of(text: str) -> Iterator[str]:
    """The lines of a file of settings, without comments and heads."""
    return (line for line in text.splitlines() if line and line[0] not in '#;[')
