"""Commands of a session with their whole replies.

A `Connection` sends commands and reads their replies before it sends more, so neither side waits
for the other with full pipes. What can hardly be refused waits to be sent with the next command, so
that a loop of jobs and runs takes one trip for many. Where something is refused all the same, what
was sent behind it may have used names that stand for older matrices. All of that is lost, and says
so when it is looked at.

A command that Ctrl-C interrupts is simply still pending: its reply is read before more is sent, and
then it is done. Whatever else comes between a command and the whole of its reply ends the session,
since commands and replies would be out of step from then on. That may be a timeout, a fault of a
callback, or a second Ctrl-C while commands are being sent. A child that was started here is then
killed, as nothing cancels a batch.
"""
from __future__ import annotations

import collections
import os
import socket
import threading
import weakref
from signal import SIGINT
from typing import (Any, Callable, Deque, Iterable, Iterator, List, Mapping, Optional, Tuple, Type,
                    Union)

from ..errors import OF_GATEWAY, Closed, ProtocolError, Refused, SpmatError, about
from ..integers import shown, whole
from ..limits import MOST_STEPS, MOST_WORKERS
from .commands import (NOTHING, PIECE, WORDS_WITH_BODY, Command, CommandBatch, Incoming, Limits,
                       Near, Reply, read_refusal)
from .transport import Address, Channel, Child, Program, Socket, Timeouts, start_program

try:
    # the same without enums, which would take a third of what a job costs here
    import _signal as signal  # type: ignore[import]
except ImportError:
    import signal

ENDS = ('S5', 'S6', 'S7', 'busy', *OF_GATEWAY)
# for a command to a server and its whole reply, where its jobs don't run
SECONDS = 60.0
MOST_WAITING = 200                                 # commands, whose replies fit into a pipe
MOST_BYTES = 1 << 22                               # of commands that wait

Progress = Callable[[str, int, int], None]
Handler = Callable[[int, Any], Any]


def checked_settings(steps: float, workers: float) -> Tuple[int, int]:
    """The settings as whole numbers (1e9 is one). TypeError or ValueError where the program would
    refuse its words."""
    many, threads = whole(steps, 'number of steps'), whole(workers, 'number of workers')
    if not 0 <= many <= MOST_STEPS:
        raise ValueError('steps are 0 to %d (2^62), not %s' % (MOST_STEPS, shown(many)))
    if not 1 <= threads <= MOST_WORKERS:
        raise ValueError('workers are 1 to %d, not %s' % (MOST_WORKERS, shown(threads)))
    return many, threads


class SessionLock:
    """The turn of one thread, in a `with`, in which commands are made and what they do is noted. In
    another `with` within it nothing more happens.

    A session stays in step as long as each command is sent whole and each reply read whole. So what
    Python does on SIGINT, which is to raise KeyboardInterrupt wherever it is, is put off until the
    command stands and nothing of its reply is in hands. A second Ctrl-C is not put off. Only the
    main thread gets signals, so only there anything is done.

    What comes between a command and the note of it ends the session; Ctrl-C is put off until the
    note is made, or the reply is awaited. Closed where the session has ended."""

    def __init__(self, connection: Connection) -> None:
        self._connection = connection
        self._main = threading.main_thread().ident
        self._depth = 0
        # what would handle Ctrl-C, whether one was put off, and whether it may come
        self.before: Optional[Handler] = None
        self.held = self.lets = False

    def __enter__(self) -> None:
        connection = self._connection
        # pylint: disable-next=consider-using-with  # __exit__ releases it
        connection.turn.acquire()
        self._depth += 1
        if self._depth > 1:
            return
        try:
            if threading.get_ident() == self._main:
                before = signal.getsignal(SIGINT)
                if callable(before):
                    self.before, self.held, self.lets = before, False, False
                    signal.signal(SIGINT, self.handle_interrupt)
            connection.check_open()
        except BaseException:
            self._leave(Exception)                 # nothing was begun
            raise

    def __exit__(self, kind: Optional[Type[BaseException]], *_: object) -> None:
        connection, before = self._connection, None
        try:
            if (kind is not None and self._depth == 1 and not issubclass(kind, Exception)
                and not connection.owes):
                connection.end('amid its work came ' + kind.__name__, kill=True)
        finally:
            try:
                if self._depth == 1 and self.before is not None:
                    before, self.before = self.before, None
                    signal.signal(SIGINT, before)
            finally:
                self._depth -= 1
                connection.turn.release()
        if before is not None and self.held and kind is None:
            self.held = False
            before(SIGINT, None)

    _leave = __exit__

    def handle_interrupt(self, number: int, frame: object) -> None:
        """Hands a Ctrl-C on, or puts it off."""
        before = self.before
        if before is not None and (self.lets or self.held):
            self.held = self.lets = False
            before(number, frame)
        else:
            self.held = True


# all that a session has to know to stay in step
# pylint: disable-next=too-many-instance-attributes
class Connection:
    """One session's commands and replies, in step. `command` takes turns among threads: one waits
    until another has its reply."""

    def __init__(self, channel: Channel, progress: Optional[Progress] = None) -> None:
        # what a session ends by alone: all else takes the lock, which takes the turn as well
        self.turn = threading.RLock()
        self.lock = SessionLock(self)
        self.progress = progress
        self.commands, self.sent = 0, 0
        self._channel = channel
        self.incoming = Incoming(self._take_in,
                                 lambda done, of: self.tell('received', done, of))
        # the first refusal of the last exchange that mattered
        self.refused: Optional[Refused] = None
        self._waiting: List[Command] = []
        self._waiting_bytes = 0
        # sent, and not answered
        self.pending: Deque[Union[Command, CommandBatch]] = collections.deque()
        self._owner = os.getpid()
        self._ended: Optional[str] = None
        # whether the deadline stands of the reply that is awaited
        self._is_timed = False
        self._amid = False
        self._last = weakref.finalize(self, channel.close, True)

    @classmethod
    def to_child(cls, steps: float = MOST_STEPS, workers: int = 1,
                 program: Optional[Program] = None,
                 progress: Optional[Progress] = None) -> Connection:
        """Starts `spmat run --steps STEPS --workers WORKERS`."""
        steps, workers = checked_settings(steps, workers)
        words = ['run', '--steps', str(steps), '--workers', str(workers)]
        return cls(start_program(program, words), progress)

    @classmethod
    def to_server(cls, address: Address, timeouts: Timeouts = Timeouts(SECONDS, None),
                  progress: Optional[Progress] = None) -> Connection:
        """Connects to a server."""
        return cls(Socket(address, timeouts), progress)

    @property
    def ended(self) -> Optional[str]:
        """Why the session has ended, or None while it goes on."""
        return self._ended

    @property
    def process(self) -> Optional[int]:
        """The number of the process that was started for this session, and of its group; None of a
        server's session."""
        return self._channel.process.pid if isinstance(self._channel, Child) else None

    def usable(self) -> bool:
        """Whether a command can be sent, as far as can be seen without sending one. The session has
        to go on, in this process, and the program that was started for it must not have ended."""
        if self._ended is not None or os.getpid() != self._owner:
            return False
        return not isinstance(self._channel, Child) or self._channel.process.poll() is None

    def check_open(self) -> None:
        """Raises Closed where the session has ended, and in a process that was forked off the
        session's."""
        if self._ended is None and self._channel.is_closed:
            # by `_last`, before whoever asks now
            self._ended = 'the interpreter ends'
        if self._ended is not None:
            raise Closed('the session has ended: ' + self._ended)
        if os.getpid() != self._owner:
            raise SpmatError(
                'a session belongs to the process that opened it: open another one here')

    def command(self, line: str, body: Optional[bytes] = None, near: Optional[Near] = None,
                within: Mapping[str, Limits] = NOTHING) -> Reply:
        """Sends a command, with the length of its body where it has one, and reads the whole reply.
        Raises Refused for `no ..` and Closed where the session has ended. `near` gives the line
        that stands at a place of the body, for the refusal's words, and `within` the limits of the
        reply's numbers that the client knows."""
        with self.lock:
            reply = self.exchange(Command(line, body, near, within))
        assert reply is not None
        return reply

    def put(self, command: Command) -> bool:
        """One command more that waits to be sent with the next. Its reply has to be short, as none
        is read before all is sent. Whether it is time to send what waits."""
        self._waiting.append(command)
        self._waiting_bytes += len(command.line) + len(command.body or b'')
        return len(self._waiting) >= MOST_WAITING or self._waiting_bytes >= MOST_BYTES

    @property
    def waiting(self) -> int:
        """How many commands wait to be sent."""
        return len(self._waiting)

    def exchange(self, last: Optional[Command] = None) -> Optional[Reply]:
        """Sends what waits and one command more in one go, and reads the reply of each; that of the
        last. The caller has the lock. Raises what the last is refused by, and Closed where the
        session ends before all are answered. KeyboardInterrupt while replies are awaited leaves
        what isn't answered pending."""
        if last is None and not self._waiting and not self.pending:
            return None
        jobs = sum(command.jobs for command in self._waiting) if self.progress else 0
        if jobs:
            self.tell('jobs', 0, jobs)
        self._begin()
        try:
            self.refused = None
            if self.pending:
                self._read_replies()
                self.check_open()
            sent, self._waiting, self._waiting_bytes = self._waiting, [], 0
            if last is not None:
                sent.append(last)
            self.commands += len(sent)
            self.pending.extend(sent)
            self._send(self._pieces_of(sent))
            self._read_replies()
        finally:
            self._amid = False
        if self._ended is not None and any(command.answer is None for command in sent):
            self.check_open()
        answer = last.answer if last is not None else None
        if isinstance(answer, Refused):
            raise answer
        if jobs:
            self.tell('jobs', jobs, jobs)
        return answer

    def post(self, batch: CommandBatch) -> None:
        """Sends commands whose replies nobody waits for: `collect` takes them, or whoever sends
        next. Replies of any length may come; two such at a time, of half a pipe's bytes each, never
        make both sides wait."""
        with self.lock:
            self._begin()
            try:
                self.commands += batch.commands
                self.pending.append(batch)
                self._send([batch.text])
            finally:
                self._amid = False

    def collect(self, batch: CommandBatch) -> bytes:
        """The replies to commands that were posted. KeyboardInterrupt leaves them pending. Closed
        where they never come."""
        if batch.replies is None:
            self.settle(batch)
            self.check_open()
        assert batch.replies is not None
        return batch.replies

    def _begin(self) -> None:
        """A command begins, one at a time. Raises Closed where the session has ended, and
        SpmatError amid another command."""
        if self._ended is not None:
            self.check_open()
        if self._amid:
            raise SpmatError(
                'a session can not be used from within its own command, such as by a progress '
                'callback')
        self._amid = True

    @property
    def owes(self) -> bool:
        """Whether replies are still to come, of commands that were interrupted or posted."""
        return bool(self.pending)

    @property
    def received(self) -> int:
        """How many bytes have come."""
        return self.incoming.received

    def settle(self, last: Optional[CommandBatch] = None) -> None:
        """Waits for the replies of commands that were interrupted or posted, up to the last that is
        meant, or of all. Raises Closed where the session has ended."""
        with self.lock:
            self._begin()
            try:
                self._read_replies(last)
            finally:
                self._amid = False

    def _read_replies(self, last: Optional[CommandBatch] = None) -> None:
        """Reads the replies to what is pending, in order, up to the last that is meant, and does
        what they say. KeyboardInterrupt leaves the rest pending; what else comes ends the
        session."""
        pending = self.pending
        while pending:
            # which knows what its own reply is
            first: Any = pending[0]
            self._is_timed = False
            try:
                reply = first.read(self.incoming)
            except KeyboardInterrupt:
                raise
            except BaseException as fault:
                self.end(_words_of(fault), kill=True, cause=fault)
                raise
            if not pending:                        # a callback has ended the session
                return
            pending.popleft()
            try:
                if isinstance(reply, str):
                    self._note_refusal(first, reply)
                else:
                    first.done(reply)
            except ProtocolError as fault:
                first.lost(fault)
                self.end(_words_of(fault), kill=True, cause=fault)
                raise
            except BaseException:
                # of a signal's handler, say: what stands behind it isn't noted
                self.end('an exception came while its replies were noted', kill=True)
                raise
            if first is last:
                return

    def _take_in(self) -> None:
        """Takes in what comes next of the reply to what is pending first. Closed where nothing
        does."""
        channel, lock = self._channel, self.lock
        if not self._is_timed:
            self._is_timed = True
            channel.begin(self.pending[0].runs)
        try:
            # nothing would be lost while it waits, so what was put off comes here
            lock.lets = lock.before is not None
            try:
                if lock.held and lock.lets:
                    lock.handle_interrupt(SIGINT, None)
                channel.wait()
            finally:
                lock.lets = False
            piece = channel.receive()
        except socket.timeout:
            raise
        except OSError as fault:
            why = channel.fault(self.incoming.received > 0)
            raise about(Closed('%s (%s)' % (why, fault)), *why.parameters) from fault
        if not piece:
            raise channel.fault(self.incoming.received > 0)
        self.incoming.bytes += piece
        self.incoming.received += len(piece)

    def end(self, why: str, kill: bool = False, cause: Optional[BaseException] = None) -> None:
        """Marks the session as ended, and closes its channel. What is pending is lost, by this
        cause."""
        with self.turn:
            if self._ended is None:
                self._ended = why
                self._last.detach()
                self._channel.close(kill)
                cause = cause or SpmatError('the session ended before it was answered')
                while self.pending:
                    self.pending.popleft().lost(cause)

    def quit(self) -> None:
        """Ends the session in good order, or at once where a reply is owed; nothing where it has
        ended already."""
        with self.turn:
            self._waiting, self._waiting_bytes = [], 0     # which isn't sent any more
            if self.pending:
                self.end('it was closed while a reply was awaited', kill=True)
            if self._ended is None and os.getpid() == self._owner:
                try:
                    self.command('quit')
                except SpmatError:
                    pass
            # nothing where the interpreter has closed the channel already
            self.end('it was closed')

    def _pieces_of(self, commands: Iterable[Command]) -> Iterator[Union[bytes, memoryview]]:
        """The bytes of commands: small ones together, large bodies by pieces."""
        small: List[bytes] = []
        for command in commands:
            line, body = command.line.encode(), command.body
            if body is None:
                small.append(line + b'\n')
                continue
            small.append(b'%s %d\n' % (line, len(body)))
            if len(body) < PIECE:
                small += [body, b'\n']
                continue
            yield b''.join(small)
            view = memoryview(body)
            for at in range(0, len(body), PIECE):
                yield view[at:at + PIECE]
                self.tell('sent', min(at + PIECE, len(body)), len(body))
            small = [b'\n']
        yield b''.join(small)

    def _send(self, pieces: Iterable[Union[bytes, memoryview]]) -> None:
        """Sends what is pending from now on. What comes meanwhile ends the session; but where the
        server has ended it, its last reply says why, and is read next."""
        self._channel.begin(False)
        try:
            for piece in pieces:
                self._channel.write(piece)
                self.sent += len(piece)
        except BaseException as fault:
            if isinstance(fault, OSError) and not isinstance(fault, socket.timeout):
                return
            self.end(_words_of(fault), kill=True, cause=fault)
            raise

    def tell(self, what: str, done: int, of: int) -> None:
        """Calls the progress callback, where there is one."""
        if self.progress is not None:
            self.progress(what, done, of)

    def _note_refusal(self, command: Command, reply: str) -> None:
        """Does what a refusal says."""
        refused = command.answer = read_refusal(reply, command)
        words = command.line.split()
        # a body may stand behind a line that was refused for its words, and be taken for commands
        is_out_of_step = (refused.rule == 'S2'
                          and len(words) != WORDS_WITH_BODY.get(words[0], len(words)))
        if refused.rule in ENDS or is_out_of_step:
            self.end('it was answered `%s`' % reply, cause=refused)
        command.lost(refused)
        if command.matters and self.refused is None:
            self.refused = refused


def _words_of(fault: BaseException) -> str:
    """Why a session ended amid a command, in words."""
    if isinstance(fault, Closed):
        return str(fault)
    if isinstance(fault, KeyboardInterrupt):
        return (
            'Ctrl-C came twice, or before a command was sent whole: what the session held is lost')
    return 'amid a command came %s%s' % (type(fault).__name__,
                                         ' (%s)' % fault if str(fault) else '')
