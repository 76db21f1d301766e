"""The bytes of a session: a child process, or a connection to a server. Also the program that the
first one runs: where it is found, and the command of that name of a wheel that carries it."""
from __future__ import annotations

# a channel is open as long as its session, and each is asked alike
# pylint: disable=consider-using-with,unused-argument

import os
import select
import shlex
import shutil
import socket
import subprocess
import sys
import tempfile
import time
import urllib.parse
from typing import TYPE_CHECKING, List, NamedTuple, Optional, Sequence, Union

from ..errors import Closed, about
from ..integers import real, shown, whole
from .commands import PIECE

if TYPE_CHECKING:
    import ssl

Program = Union[str, Sequence[str]]
PACKAGE = os.path.dirname(os.path.dirname(os.path.abspath(__file__)))
# Bytes that are read at a time, as many as a pipe holds: memory for more is mapped anew for each
# read, which takes longer than most commands.
MOST_READ = 1 << 16
SECONDS_TO_QUIT = 5.0
TIMED_OUT = (
    'timed out: the command and its whole reply took longer than timeout= (or run_timeout=) says')
GATEWAY_PORT = 7173
# Waits until its input ends, which is when nobody holds the other end any more, and then ends a
# process.
WATCHER = 'read -r _; kill -9 "$0"'

MOST_SECONDS = ((1 << 31) - 1) // 1000             # poll counts milliseconds in 32 bits


class Timeouts(NamedTuple):
    """How many seconds a command and its whole reply may take, and one that runs jobs; None without
    end."""
    command: Optional[float] = None
    run: Optional[float] = None


def checked_seconds(seconds: Optional[float], what: str = 'timeout') -> Optional[float]:
    """A number of seconds as a float, or None. TypeError or ValueError where it isn't above 0, or
    is more than a system waits for."""
    found = None if seconds is None else real(seconds, what)
    if found is not None and not 0 < found <= MOST_SECONDS:
        raise ValueError('%s is a number of seconds above 0, up to %d, or None for no end, not %s'
                         % (what, MOST_SECONDS, shown(seconds)))
    return found


class Awaited:
    """What bytes are awaited of, and when what is sent or awaited has to be done."""

    is_closed = False
    _poll: select.poll

    def __init__(self, timeouts: Timeouts) -> None:
        self.timeouts = Timeouts(*map(checked_seconds, timeouts))
        self._until: Optional[float] = None        # by the monotonic clock

    def _watch(self, file: int) -> None:
        """What tells when something of a file can be read. A session has one, as to make one takes
        longer than to ask it."""
        self._poll = select.poll()
        self._poll.register(file, select.POLLIN)

    def begin(self, runs: bool) -> None:
        """A command begins, or its reply is awaited; `runs` where the server may take as long as
        its jobs do."""
        seconds = self.timeouts.run if runs else self.timeouts.command
        self._until = None if seconds is None else time.monotonic() + seconds

    def seconds_left(self) -> Optional[float]:
        """How many seconds are left, None without end. socket.timeout where none are."""
        if self._until is None:
            return None
        left = self._until - time.monotonic()
        if left <= 0:
            raise socket.timeout(TIMED_OUT)
        return left

    def wait(self) -> None:
        """Waits until `receive` has something. socket.timeout where that takes longer than the
        deadline says."""
        if self._until is None:
            self._poll.poll()
            return
        seconds = self.seconds_left()
        if not self._poll.poll(None if seconds is None else 1000 * seconds):
            raise socket.timeout(TIMED_OUT)


class Watcher:
    """Ends a process when this one ends, however it does: where it is killed amid a batch, nothing
    else would end the other before the batch does. A shell waits for the end of a pipe that this
    process holds. (A signal upon the parent's death, Linux' PR_SET_PDEATHSIG, comes when the thread
    ends that started the child.) Where there is no shell nobody watches."""

    def __init__(self, process: int) -> None:
        self._shell: Optional['subprocess.Popen[bytes]'] = None
        reading, self._held = os.pipe()
        try:
            self._shell = subprocess.Popen(['/bin/sh', '-c', WATCHER, str(process)], stdin=reading,
                                           stdout=subprocess.DEVNULL, stderr=subprocess.DEVNULL,
                                           start_new_session=True)
        except OSError:
            pass
        finally:
            os.close(reading)

    def stop(self) -> None:
        """Watches no more. Before the process that is watched has been waited for, as its number
        may be another's then."""
        if self._shell is not None:
            self._shell.kill()
            self._shell.wait()
            self._shell = None
            os.close(self._held)


class Child(Awaited):
    """The bytes of a process `spmat run`. It has a process group of its own, so a Ctrl-C at a
    terminal doesn't reach it."""

    def __init__(self, words: Sequence[str]) -> None:
        super().__init__(Timeouts())
        self._owner = os.getpid()
        self._said = tempfile.TemporaryFile()
        try:
            self.process = subprocess.Popen(list(words), stdin=subprocess.PIPE,
                                            stdout=subprocess.PIPE, stderr=self._said,
                                            bufsize=PIECE, start_new_session=True)
        except BaseException:
            self._said.close()
            raise
        assert self.process.stdout is not None
        self._output = self.process.stdout.fileno()
        self._watch(self._output)
        self._watcher = Watcher(self.process.pid)

    def receive(self) -> bytes:
        """What came; nothing at the end."""
        return os.read(self._output, MOST_READ)

    def write(self, piece: Union[bytes, memoryview]) -> None:
        """Writes a piece, however long that takes: the program reads as it can."""
        assert self.process.stdin is not None
        self.process.stdin.write(piece)
        self.process.stdin.flush()

    def fault(self, answered: bool) -> Closed:
        """Why there is no reply: the status, and the words on standard error."""
        try:
            status = self.process.wait(SECONDS_TO_QUIT)
        except subprocess.TimeoutExpired:
            return Closed('the program closed its output')
        self._said.seek(0)
        said = self._said.read().decode('utf-8', 'replace').strip()
        return Closed('the program ended with status %d%s' % (status, ': ' + said if said else ''))

    def close(self, kill: bool = False) -> None:
        """Ends the process and waits for it. In a process that was forked off nothing is ended."""
        self.is_closed, mine = True, os.getpid() == self._owner
        if mine:
            self._watcher.stop()
        if kill and mine:
            self.process.kill()
        assert self.process.stdin is not None and self.process.stdout is not None
        for close in (self.process.stdin.close, self.process.stdout.close, self._said.close):
            try:
                close()
            except OSError:
                pass
        if mine:
            try:
                self.process.wait(SECONDS_TO_QUIT)
            except subprocess.TimeoutExpired:
                self.process.kill()
                self.process.wait()


class Address(NamedTuple):
    """Where a server listens: a host and a port, with what speaks TLS where something in front of
    the server does. Or a socket file, where the host has a slash, which has neither."""
    host: str
    port: int
    tls: Optional[ssl.SSLContext] = None
    login: bytes = b''

    @classmethod
    def of_gateway(cls, url: str, token: Optional[str] = None, ca: Optional[str] = None,
                   tls: Optional[ssl.SSLContext] = None) -> Address:
        """The address `spmat://USER@HOST:PORT` of a gateway, which speaks TLS, with the line that
        logs in there.

        Parameters
        ----------
        token
            The user's token (default: the variable SPMAT_TOKEN). An address without a user wants
            none: `tls` has a certificate.
        ca
            A file with who signs the gateway's certificate (default: those whom the system trusts).

        Raises
        ------
        ValueError
            Where this is no such address, or there is neither a token nor a certificate.
        """
        import ssl as speaker
        parts = urllib.parse.urlsplit(url)
        if parts.scheme != 'spmat' or not parts.hostname or parts.path not in (
            '', '/') or parts.password:
            raise ValueError(
                'a gateway is spmat://USER@HOST:PORT, such as spmat://anna@localhost:7173, with '
                'the token in token= or in the variable SPMAT_TOKEN; not %r' % url)
        login = 'login %s %s\n' % (parts.username, token or os.environ.get('SPMAT_TOKEN', ''))
        if len(login.split()) != 3 if parts.username else not tls:
            raise about(ValueError(
                'a gateway wants a token of the user (token=, or the variable SPMAT_TOKEN), '
                'without blanks; or no user, and a certificate in tls='), 'token', 'tls')
        return cls(parts.hostname, parts.port or GATEWAY_PORT,
                   tls or speaker.create_default_context(cafile=ca),
                   login.encode() if parts.username else b'')

    def __str__(self) -> str:
        return self.host if self.is_file() else '%s, port %d' % (self.host, self.port)

    def is_file(self) -> bool:
        return '/' in self.host and '://' not in self.host

    def connected(self, timeout: Optional[float]) -> socket.socket:
        """A connection. ValueError where this is no address, OSError where nobody listens there, or
        lets nobody in."""
        if self.is_file() and self.tls is not None:
            raise about(ValueError('tls= is for a host and a port, and %s is a socket file'
                                   % self.host), 'tls')
        if not self.is_file() and not 1 <= whole(self.port, 'port') <= 65535:
            raise ValueError('a port is 1 to 65535, not %s' % shown(self.port))
        opened: Optional[socket.socket] = None
        what = ''
        try:
            if self.is_file():
                opened = socket.socket(socket.AF_UNIX)
                opened.settimeout(timeout)
                opened.connect(self.host)
                return opened
            opened = socket.create_connection((self.host, self.port), timeout)
            # a command is sent at once, and not with the next
            opened.setsockopt(socket.IPPROTO_TCP, socket.TCP_NODELAY, 1)
            if self.tls is None:
                return opened
            what = 'TLS was refused: '
            return self.tls.wrap_socket(opened, server_hostname=self.host)
        except BaseException as fault:
            if opened is not None:
                opened.close()
            if isinstance(fault, OSError):
                raise _name_address(fault, self, what) from None
            raise


class Socket(Awaited):
    """The bytes of a connection to a server, or to what stands in front of it."""

    def __init__(self, address: Address, timeouts: Timeouts) -> None:
        super().__init__(timeouts)
        self._has_tls = address.tls is not None
        self._socket = address.connected(self.timeouts.command)
        self._watch(self._socket.fileno())
        if address.login:
            self._socket.sendall(address.login)

    def wait(self) -> None:
        # TLS may have taken it in already
        if not (self._has_tls and self._socket.pending()):  # type: ignore[attr-defined]
            super().wait()

    def receive(self) -> bytes:
        """What came; nothing at the end. socket.timeout where a piece of TLS doesn't come whole in
        time."""
        self._socket.settimeout(self.seconds_left())
        return self._socket.recv(MOST_READ)

    def write(self, piece: Union[bytes, memoryview]) -> None:
        """Writes a piece. socket.timeout where that takes longer than the deadline says."""
        self._socket.settimeout(self.seconds_left())
        self._socket.sendall(piece)

    def fault(self, answered: bool) -> Closed:
        """Why there is no reply, as far as a client can know."""
        if answered:
            return Closed('the server closed the connection: it has ended, or it ended this '
                          'session (--idle, or a limit of what stands in front)')
        if self._has_tls:
            return about(Closed('TLS was refused: the other side closed the connection before a '
                                'first answer. It wants a certificate that it knows (tls= with '
                                'load_cert_chain), or has no place left'), 'tls')
        return about(Closed('the server closed the connection before a first answer: it has no '
                            'place left, ended at its start, or what stands in front refused this '
                            'client (where it speaks TLS, give tls=)'), 'tls')

    def close(self, kill: bool = False) -> None:
        """Closes the connection; unless `kill`, once the server has: it gives the session's seat to
        others before."""
        self.is_closed = True
        if not kill:
            try:
                self._socket.settimeout(SECONDS_TO_QUIT)
                self._socket.shutdown(socket.SHUT_WR)
                for _ in range(64):
                    if not self._socket.recv(PIECE):
                        break
            except OSError:
                pass
        try:
            self._socket.close()
        except OSError:
            pass


Channel = Union[Child, Socket]


def _name_address(fault: OSError, address: Address, what: str) -> OSError:
    """The same fault, with the address and what was refused in its words."""
    words = 'no connection to %s: %s%s' % (address, what, fault.strerror or fault)
    host, _, port = address.host.rpartition(':')
    if isinstance(fault, socket.gaierror) and port.isdigit():
        words += '; host and port are two arguments: Session.connect(%r, %s)' % (host, port)
    return type(fault)(words) if fault.errno is None else type(fault)(fault.errno, words)


# -- the program

def carried() -> Optional[str]:
    """The path of the program in this package, or None: a wheel for one kind of machine has one, a
    checkout and a Debian package have none."""
    path = os.path.join(PACKAGE, 'carried', 'spmat')
    return path if os.access(path, os.X_OK) else None


def _describe_plain_server() -> str:
    """What else there is in a checkout, in words."""
    top = os.path.dirname(os.path.dirname(os.path.dirname(PACKAGE)))
    path = os.path.join(top, 'reference', '__main__.py')
    return ('. For small graphs the reference implementation of this checkout does: SPMAT=' + path
            if os.path.exists(path) else '')


def program_words(program: Optional[Program] = None) -> List[str]:
    """The words that start the program: those given, the variable SPMAT, the program that this
    package carries, or `spmat` on the PATH, in this order. Words in one text are split as a shell
    does, unless the whole text is a file. FileNotFoundError where there is none."""
    found = program or os.environ.get('SPMAT') or carried() or shutil.which('spmat')
    if not found:
        raise about(FileNotFoundError(
            'no program `spmat`: this package carries none (a wheel for Linux on x86_64 does; '
            'this is %s on %s). Give program=, set the variable SPMAT, or put it on the PATH%s'
            % (os.uname().sysname, os.uname().machine, _describe_plain_server())), 'program')
    if not isinstance(found, str):
        return [os.fspath(word) for word in found]
    if os.path.isdir(found) and not shutil.which(found):
        raise FileNotFoundError('expected a program, got the folder %s%s'
                                % (found, _describe_plain_server()))
    return [found] if os.path.exists(found) else shlex.split(found)


def start_program(program: Optional[Program], words: Sequence[str]) -> Child:
    """The process of a program with these words behind it. An OSError where it can't be started
    says what names it."""
    found = program_words(program)
    try:
        return Child([*found, *words])
    except OSError as fault:
        named = ('program=' if program else 'the variable SPMAT' if os.environ.get('SPMAT')
                 else 'the PATH')
        raise about(type(fault)(
            fault.errno, '%s names the program %s, which can not be started: %s%s'
            % (named, found[0], fault.strerror, _describe_plain_server())),
                    *(('program',) if program else ())) from None


def main() -> None:
    """The command `spmat` of a wheel: becomes the program that the wheel carries."""
    path = carried()
    if path is None:
        sys.exit('spmat: this package carries no program')
    os.execv(path, ['spmat'] + sys.argv[1:])
