"""Starts one engine where systemd keeps it: the main process of a unit spmat-engine@.service.

systemd starts it for each connection to spmat-engine.socket. The gateway sends the words of the
command and the three standard streams, reads what becomes of the engine, and ends it by hanging up:
with this process gone, systemd ends all that is left of the unit. So neither side signals the
other, whose user it isn't. A gateway that hangs doesn't renew the engine's lease, and the engine
ends.
"""
from __future__ import annotations

import contextlib
import os
import select
import signal
import socket
import time

LONGEST_COMMAND = 1 << 16
LONGEST_NUMBER = 64
STANDARD_INPUT = 0


def start(connection: socket.socket) -> None:
    """Starts what the gateway asks for, and tells its end."""
    words, streams, _, _ = socket.recv_fds(connection, LONGEST_COMMAND, 3)
    if not words:
        return
    lease, *command = os.fsdecode(words).split('\0')
    try:
        engine = os.posix_spawnp(command[0], command, os.environ, file_actions=[
            (os.POSIX_SPAWN_DUP2, stream, number) for number, stream in enumerate(streams)])
    except OSError as fault:
        connection.send(b'fault %s: %s' % (os.fsencode(command[0]), str(fault.strerror).encode()))
        return
    for stream in streams:
        os.close(stream)
    connection.send(b'started %d' % engine)
    await_end(engine, connection, float(lease))
    ended, status, usage = os.wait4(engine, os.WNOHANG)
    if ended:
        found = os.waitstatus_to_exitcode(status), usage.ru_utime + usage.ru_stime
    else:                                          # its clock, as by clock_getcpuclockid(3)
        found = -signal.SIGTERM, time.clock_gettime(~engine << 3 | 2)
    connection.send(b'ended %d %f' % found)


def await_end(engine: int, connection: socket.socket, lease: float) -> None:
    """Waits until the engine has ended, the gateway hangs up, or the lease has run out."""
    poll = select.poll()
    poll.register(os.pidfd_open(engine), select.POLLIN)
    poll.register(connection, select.POLLIN)
    while {descriptor for descriptor, _ in poll.poll(1000 * lease)} == {connection.fileno()}:
        told = os.read(connection.fileno(), LONGEST_NUMBER)
        if not told:
            return
        lease = float(told)


if __name__ == '__main__':
    with socket.socket(fileno=os.dup(STANDARD_INPUT)) as gateway:
        with contextlib.suppress(BrokenPipeError, ConnectionResetError):  # it has gone
            start(gateway)
