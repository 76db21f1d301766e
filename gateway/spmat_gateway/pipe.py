"""The bytes of one session, both ways, untouched.

A session has a thread of its own, which waits by `poll` and copies by large buffers. The standard
library's reads and writes (also those of TLS) let other threads work meanwhile.
"""
from __future__ import annotations

import contextlib
import fcntl
import os
import select
import ssl
import time
from typing import Callable, Iterable, List, Sequence, Tuple

from .engine_log import EngineLog
from .tls import Client

PIECE = 1 << 16
PIPE_SIZE = 1 << 20
SECONDS_TO_TELL = 5.0  # for an engine that answers, to tell that it has begun
SET_PIPE_SIZE = 1031                               # F_SETPIPE_SZ, which Python names from 3.10 on
BROKEN = select.POLLERR | select.POLLNVAL
WANTS = (ssl.SSLWantReadError, ssl.SSLWantWriteError, BlockingIOError)


class ClientGone(Exception):
    """The client's connection has broken, or ended without the word that TLS has for it."""


class NoAccount(Exception):
    """An engine answers that tells nothing of what it takes: its command starts another program, or
    has no `--log`."""


class _Way:
    """One direction: a buffer, and what of it hasn't been written yet."""

    def __init__(self, first: bytes) -> None:
        self.buffer = memoryview(bytearray(PIECE))
        self.rest, self.count = memoryview(first), len(first)
        self.ended = False                         # its source has ended
        self.closed = False                        # so has its target, or was told of it


class Pipe:
    """Copies between a client and the standard streams of an engine until the engine's output ends.

    Parameters
    ----------
    client
        The connection, after its handshake.
    streams
        The engine's standard input, output and error, as descriptors that this pipe owns from now
        on.
    told
        What is fed with what the engine writes to standard error.
    on_told
        Called where that tells something new.
    on_replies
        Called with each piece before it is sent to the client.
    first
        What the client has sent before, behind its login.
    """

    def __init__(self, client: Client, streams: Sequence[int], told: EngineLog,
                 on_told: Callable[[], None], on_replies: Callable[[memoryview], None],
                 first: bytes) -> None:
        self._client, self._told = client, told
        self._input, self._output, self._errors = streams
        self._on_told, self._on_replies = on_told, on_replies
        self._errors_ended = False
        self._up, self._down = _Way(first), _Way(b'')
        self._poll = select.poll()
        client.setblocking(False)
        for descriptor in streams:
            os.set_blocking(descriptor, False)
            with contextlib.suppress(OSError):     # a user's pipes have a size together
                fcntl.fcntl(descriptor, SET_PIPE_SIZE, PIPE_SIZE)

    @property
    def ended(self) -> bool:
        """Whether the engine's output has ended."""
        return self._down.ended

    @property
    def sent_all(self) -> bool:
        """Whether the client was sent all that the engine has said."""
        return self._down.ended and not self._down.rest

    @property
    def counts(self) -> Tuple[int, int]:
        """How many bytes the client has sent, and how many the engine."""
        return self._up.count, self._down.count

    def run(self, deadline: Callable[[], float]) -> bool:
        """Copies until the engine's output has ended and is sent.

        Returns
        -------
        bool
            False where the time of `deadline()` passed before.

        Raises
        ------
        ClientGone
            Where nobody is there any more for whom the session goes on.
        NoAccount
            Where the engine answers and doesn't tell what it takes.
        """
        self._write_up()
        up, down, client, watched = self._up, self._down, self._client.fileno(), None
        while not self.sent_all:
            state = (not up.rest, up.ended, not down.rest, down.ended, self._input,
                     self._errors_ended)
            if state != watched:                   # seldom, as each side mostly takes all at once
                self._watch()
                watched = state
            left = deadline() - time.monotonic()
            if left <= 0:
                return False
            pending = not up.rest and not up.ended and self._has_decrypted()
            patience = 0 if pending else min(1000.0 * left, 1000.0) + 1
            for descriptor, event in self._poll.poll(patience):
                if descriptor == client:
                    self._serve_client(event)
                elif descriptor == self._output:
                    self._read_down()
                elif descriptor == self._errors:
                    self._read_errors()
                else:
                    self._write_up()
            if pending:
                self._read_up()
        return True

    def finish(self, seconds: float) -> None:
        """Ends the engine's input, and reads its last replies for nobody, and what it tells at its
        end, for so long at most."""
        until, down = time.monotonic() + seconds, self._down
        self._close_input()
        while not (down.ended and self._errors_ended):
            found = _readable([stream for stream, ended in ((self._output, down.ended),
                                                            (self._errors, self._errors_ended))
                               if not ended], until)
            if self._output in found:
                self._fill_down()
            if self._errors in found:
                self._read_errors()
            if not found:
                return

    def close(self) -> None:
        """Closes the engine's streams; the client's connection is its owner's."""
        for descriptor in (self._input, self._output, self._errors):
            if descriptor >= 0:
                os.close(descriptor)
        self._input = self._output = self._errors = -1

    def _has_decrypted(self) -> bool:
        return isinstance(self._client, ssl.SSLSocket) and self._client.pending() > 0

    def _watch(self) -> None:
        """Registers what each side waits for. Who waits for nothing isn't registered, as a hang-up
        would wake for ever; the client always is, to see that it has gone."""
        up, down, self._poll = self._up, self._down, select.poll()
        client = select.POLLOUT if down.rest else 0
        if not up.rest and not up.ended:
            client |= select.POLLIN
        self._poll.register(self._client.fileno(), client)
        if self._input >= 0 and up.rest:
            self._poll.register(self._input, select.POLLOUT)
        if not down.rest and not down.ended:
            self._poll.register(self._output, select.POLLIN)
        if not self._errors_ended:
            self._poll.register(self._errors, select.POLLIN)

    def _serve_client(self, event: int) -> None:
        if event & BROKEN:
            raise ClientGone('the connection has broken')
        if event & select.POLLHUP and self._up.ended:
            raise ClientGone('the client has closed the connection')
        if self._down.rest:
            self._write_down()
        if event & (select.POLLIN | select.POLLHUP):
            self._read_up()

    def _read_up(self) -> None:
        up = self._up
        while not up.rest and not up.ended:
            try:
                count = self._client.recv_into(up.buffer)
            except WANTS:
                return
            except OSError as fault:               # TLS that ends without its word for it, too
                raise ClientGone(str(fault)) from None
            up.ended = not count
            up.count += count
            up.rest = up.buffer[:count]
            self._write_up()
            if not self._has_decrypted():
                return

    def _write_up(self) -> None:
        up = self._up
        try:
            while up.rest and not up.closed:
                up.rest = up.rest[os.write(self._input, up.rest):]
        except BlockingIOError:
            return
        except OSError:  # the engine reads no more; what it says still counts
            up.closed = up.ended = True
        if up.closed:
            up.rest = up.buffer[:0]
        if up.ended and not up.rest:
            self._close_input()
            up.closed = True

    def _close_input(self) -> None:
        if self._input >= 0:
            os.close(self._input)
            self._input = -1

    def _read_errors(self) -> None:
        try:
            piece = os.read(self._errors, PIECE)
        except BlockingIOError:
            return
        except OSError:
            piece = b''
        self._errors_ended = not piece
        if self._told.feed(piece or b'\n'):
            self._on_told()

    def _await_account(self) -> None:
        """Waits until the engine, which answers, has told that it has begun, or tells no more."""
        until = time.monotonic() + SECONDS_TO_TELL
        while not (self._told.begun or self._errors_ended) and _readable([self._errors], until):
            self._read_errors()

    def _read_down(self) -> None:
        if not self._told.begun:
            self._await_account()
        rest = self._fill_down()
        if rest and not self._told.begun:
            raise NoAccount(self._told.words)
        self._down.rest = rest
        self._write_down()

    def _fill_down(self) -> memoryview:
        """What the engine says next, once it is counted."""
        down = self._down
        try:
            count = os.readv(self._output, [down.buffer])
        except BlockingIOError:
            return down.buffer[:0]
        except OSError:
            count = 0
        down.ended = not count
        down.count += count
        if count:
            self._on_replies(down.buffer[:count])
        return down.buffer[:count]

    def _write_down(self) -> None:
        down = self._down
        try:
            while down.rest:
                down.rest = down.rest[self._client.send(down.rest):]
        except WANTS:
            return
        except OSError as fault:
            raise ClientGone(str(fault)) from None


def _readable(streams: Iterable[int], until: float) -> List[int]:
    """Which of these can be read, or have ended; none where the time passed before."""
    poll = select.poll()
    for stream in streams:
        poll.register(stream, select.POLLIN)
    return [stream for stream, _ in poll.poll(max(0.0, 1000 * (until - time.monotonic())))]
