"""The program as `rt try` compiles it: with run-time checks (bounds, sums that wrap, bad accesses),
and with no proof.

`rt try` runs what it compiled and keeps none of it. So it is asked to run a server for one session;
the file that runs is copied, and the session is had.
"""
import os
import shlex
import shutil
import socket
import subprocess
import tempfile
import time
from typing import Iterator, List, Optional

from tests.lib.paths import TOP
from tests.lib.patience import CHECKED
from tests.lib.ports import LOOPBACK, free_port
from tests.lib.runs import Wrong

SECONDS_TO_COMPILE = 1800
SECONDS_TO_LISTEN = 30


def checked_program(folder: str) -> str:
    """Compiles the program, and answers the path in `folder` by which it is run. Says by `Wrong`
    what stands in the way."""
    port = free_port()
    serve = ['serve', '--port', str(port), '--steps', '0', '--workers', '1', '--sessions', '1']
    with tempfile.TemporaryFile('w+', errors='replace') as told:
        with subprocess.Popen(['rt', 'try', '--'] + serve, cwd=os.path.join(TOP, 'crates', 'spmat'),
                              stdin=subprocess.DEVNULL, stdout=told,
                              stderr=subprocess.STDOUT) as compiler:
            words = _running(compiler, serve)
            path = None if words is None else _copy(words, folder)
            if path:
                _quit(port, compiler)
        if path is None:
            told.seek(0)
            raise Wrong('rt try ran no program:\n' + told.read()[-4000:])
    os.environ[CHECKED] = '1'
    return path


def _running(compiler: 'subprocess.Popen[bytes]', serve: List[str]) -> Optional[List[str]]:
    """The words, up to the path of the program, by which the server was started; None where `rt
    try` ended without it."""
    end = time.monotonic() + SECONDS_TO_COMPILE
    while compiler.poll() is None:
        for pid in _below(compiler.pid):
            words = _words_of(pid)
            started, rest = words[:-len(serve)], words[-len(serve):]
            if rest == serve and started and os.path.isfile(started[-1]) and os.access(
                started[-1], os.X_OK):
                return started
        if time.monotonic() > end:
            compiler.kill()
        time.sleep(0.05)
    return None


def _quit(port: int, compiler: 'subprocess.Popen[bytes]') -> None:
    """Has the one session that the server waits for, so that it ends."""
    end = time.monotonic() + SECONDS_TO_LISTEN
    while compiler.poll() is None:
        try:
            with socket.create_connection((LOOPBACK, port), SECONDS_TO_LISTEN) as connection:
                connection.sendall(b'quit\n')
                connection.recv(64)
            return
        except OSError:
            if time.monotonic() > end:
                compiler.kill()
            time.sleep(0.05)


def _below(pid: int) -> Iterator[int]:
    """The processes that a process started, and those that they started."""
    parents = {int(name): _parent(name) for name in os.listdir('/proc') if name.isdigit()}
    waiting = [pid]
    while waiting:
        above = waiting.pop()
        children = [child for child, parent in parents.items() if parent == above]
        yield from children
        waiting += children


def _parent(name: str) -> int:
    """The process that started a process; 0 where that one is gone."""
    try:
        with open('/proc/%s/stat' % name, encoding='ascii', errors='replace') as file:
            return int(file.read().rpartition(')')[2].split()[1])
    except OSError:
        return 0


def _words_of(pid: int) -> List[str]:
    try:
        with open('/proc/%d/cmdline' % pid, 'rb') as file:
            return os.fsdecode(file.read()).split('\0')[:-1]
    except OSError:
        return []


def _copy(words: List[str], folder: str) -> str:
    """Copies the program, with a script beside it where a loader is named before its path."""
    copy = os.path.join(folder, 'spmat-with-checks')
    shutil.copy(words[-1], copy)
    if len(words) == 1:
        return copy
    script = os.path.join(folder, 'spmat')
    with open(script, 'w', encoding='utf-8') as file:
        file.write('#!/bin/sh\nexec %s "$@"\n' % ' '.join(map(shlex.quote, words[:-1] + [copy])))
    os.chmod(script, 0o755)
    return script
