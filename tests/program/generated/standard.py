"""What the program does on its standard streams besides a session: its version, how long `run`
waits for a silent client, and its log."""
import json
import os
import re
import select
import socket
import subprocess
import time
from typing import Callable, Dict, List

from tests.lib.commands import assembly_command, matrix_command, matrix_text, run_words
from tests.lib.paths import TOP
from tests.lib.patience import FOR_A_SESSION
from tests.lib.runs import Wrong, expect, started

TIME_IS_OVER = '\nspmat: because the idle timeout expired\n'
LITTLE_TIME = 0.3


def version_is_told(program: str) -> None:
    """`--version` and `-V` on standard output with status 0: the version of the file VERSION, which
    is the client's too."""
    with open(os.path.join(TOP, 'VERSION')) as file:
        version = file.read().strip()
    for word in ('--version', '-V'):
        done = subprocess.run([program, word], stdin=subprocess.DEVNULL, stdout=subprocess.PIPE,
                              stderr=subprocess.PIPE, timeout=FOR_A_SESSION)
        expect(word, (0, 'spmat %s\n' % version, ''),
               (done.returncode, done.stdout.decode(), done.stderr.decode()))


def version_is_not_written(program: str) -> None:
    """Where standard output takes nothing, the status is 1."""
    with open('/dev/full', 'wb') as full:
        done = subprocess.run([program, '--version'], stdout=full, stderr=subprocess.PIPE,
                              timeout=FOR_A_SESSION)
    expect('status and error',
           (1, b'spmat: write failed\nspmat: because No space left on device (os error 28)\n'),
           (done.returncode, done.stderr))


def waiting(seconds: int) -> List[str]:
    return run_words() + ['--idle', str(seconds)]


def expect_idle_end(child: 'subprocess.Popen[bytes]', words: str, least: float,
                    began: float) -> None:
    """The program ends by itself, no sooner than it may, and says why."""
    expect('status', 1, child.wait(FOR_A_SESSION))
    expect('standard error', (words + TIME_IS_OVER).encode(), child.stderr.read())
    waited = time.monotonic() - began
    if waited < least:
        raise Wrong('ended after %.2f s' % waited)


def idle_ends_a_silent_pipe(program: str) -> None:
    """With `--idle 1` a client that holds a pipe and sends nothing, or half a body, is ended after
    a second."""
    for sent, reply in ((b'', b''),
                        (b'budget\nmatrix A 100\n%', b'ok budget 4611686018427387904 0 0\n')):
        with started([program] + waiting(1), stdin=subprocess.PIPE, stdout=subprocess.PIPE,
                     stderr=subprocess.PIPE, bufsize=0) as child:
            began = time.monotonic()
            child.stdin.write(sent)
            expect_idle_end(child, 'spmat: read failed', 0.9, began)
            expect('replies', reply, child.stdout.read())


def idle_ends_a_silent_socket(program: str) -> None:
    """The same where both streams are one socket, as systemd gives it."""
    ours, theirs = socket.socketpair()
    with ours, started([program] + waiting(1), stdin=theirs, stdout=theirs,
                       stderr=subprocess.PIPE) as child:
        theirs.close()
        began = time.monotonic()
        ours.sendall(b'budget\n')
        expect('reply', b'ok budget 4611686018427387904 0 0\n', ours.recv(4096))
        expect_idle_end(child, 'spmat: read failed', 0.9, began)
        expect('the end', b'', ours.recv(4096))


def idle_spares_those_who_send(program: str) -> None:
    """With `--idle 1` a client that sends a byte each half second, for longer than that, has its
    replies; so has one whose input is a file, which never waits."""
    with started([program] + waiting(1), stdin=subprocess.PIPE, stdout=subprocess.PIPE,
                 stderr=subprocess.PIPE, bufsize=0) as child:
        for byte in b'quit\n':
            child.stdin.write(bytes([byte]))
            time.sleep(0.4)
        expect('reply', b'ok quit\n', child.stdout.read())
        expect('status', 0, child.wait(FOR_A_SESSION))
    with open(os.path.join(TOP, 'VERSION'), 'rb') as file:
        done = subprocess.run([program] + waiting(1), stdin=file, stdout=subprocess.PIPE,
                              stderr=subprocess.PIPE, timeout=FOR_A_SESSION)
    expect('a file', (0, b'no S1\n', b''), (done.returncode, done.stdout, done.stderr))


def idle_ends_whoever_takes_nothing(program: str) -> None:
    """With `--idle 1` a client that takes nothing of a reply for so long is ended; one that takes
    it piece by piece is not, and what it takes is the reply without a byte lost."""
    side = 20000
    text = matrix_text(side, 1, [(row, 1, row) for row in range(1, side + 1)])
    data = matrix_command('A', text) + b'show A\n' * 4
    for takes in (False, True):
        with started([program] + waiting(1), stdin=subprocess.PIPE, stdout=subprocess.PIPE,
                     stderr=subprocess.PIPE, bufsize=0) as child:
            began = time.monotonic()
            child.stdin.write(data)
            child.stdin.close()
            if takes:
                want = b'ok matrix %d 1 %d\n' % (side,
                                                 side) + 4 * (b'ok show %d\n' % len(text) + text)
                got, end = b'', time.monotonic() + 3
                while time.monotonic() < end:
                    got += child.stdout.read(4096)
                    time.sleep(LITTLE_TIME)
                got += child.stdout.read()
                expect('whether all replies came', True, got == want)
                expect('status', 0, child.wait(FOR_A_SESSION))
            else:
                expect_idle_end(child, 'spmat: write failed', 0.9, began)


def without_idle_silence_is_no_end(program: str) -> None:
    """Without the option a silent client keeps its session."""
    with started([program] + run_words(), stdin=subprocess.PIPE, stdout=subprocess.PIPE,
                 bufsize=0) as child:
        time.sleep(1.5)
        expect('whether it runs', None, child.poll())
        expect('whether it says something', [], select.select([child.stdout], [], [], 0)[0])
        child.stdin.write(b'quit\n')
        expect('reply', b'ok quit\n', child.stdout.read())


def fields_of(line: str) -> Dict[str, str]:
    """What a line of a log says, with the name of its event."""
    told = re.fullmatch(
        r'spmat: time=\d{4}-\d\d-\d\dT\d\d:\d\d:\d\d\.\d{3}Z ([a-z-]+)((?: [a-z_]+=\S+)+)', line)
    if not told:
        raise Wrong('no line of a log: %.200r' % line)
    return dict((field.split('=', 1) for field in told.group(2).split()), event=told.group(1))


def expect_fields(line: str, **wanted: object) -> None:
    fields = fields_of(line)
    for name, value in wanted.items():
        expect('%s in %r' % (name, line), str(value), fields.get(name))


def log_of_a_session(program: str) -> None:
    """`run --log` tells on standard error what it was asked for, each refusal, and what the session
    took."""
    data = matrix_command('A',
                          matrix_text(1, 1, [(1, 1, 41)])) + assembly_command(
                              'f', b'mov64 r0, r1\nadd64 r0, 1\nexit\n', 'unary')
    data += b'apply B f A\nrun\napply B f A\napply A f B\nfoo\nquit\n'
    done = subprocess.run([program] + run_words(100) + ['--log'], input=data,
                          stdout=subprocess.PIPE, stderr=subprocess.PIPE, timeout=FOR_A_SESSION)
    plain = subprocess.run([program] + run_words(100), input=data, stdout=subprocess.PIPE,
                           stderr=subprocess.PIPE, timeout=FOR_A_SESSION)
    expect('status and replies', (plain.returncode, plain.stdout, b''),
           (done.returncode, done.stdout, plain.stderr))
    lines = done.stderr.decode().splitlines()
    expect('events', ['server-start', 'start', 'runs', 'refused', 'session', 'server-end'],
           [fields_of(line)['event'] for line in lines])
    expect_fields(lines[0], address='stdin', steps=100, workers=1, sessions=1, idle='none',
                  session_steps='none')
    expect_fields(lines[1], id=1, client='stdin', untold=0)
    expect_fields(lines[2], id=1, client='stdin', steps=3)
    expect_fields(lines[3], id=1, client='stdin', rule='S1')
    expect_fields(lines[4], id=1, client='stdin', end='quit', commands=8, jobs=3, steps=3, refused=1,
                  **{'in': len(data), 'out': len(done.stdout)})
    expect_fields(lines[5], address='stdin', end='sessions', sessions=1, refused=1, steps=3,
                  left=97)


def log_of_each_batch(program: str) -> None:
    """It tells how it stands before the reply of each batch, and with `--log-every 1` each second.
    One that is killed has told what it had spent; `--idle` is told as the end."""
    words = [program] + run_words(1000) + ['--log-every', '1', '--log-format', 'json']
    data = matrix_command('A',
                          matrix_text(1, 1, [(1, 1, 41)])) + assembly_command(
                              'f', b'mov64 r0, r1\nadd64 r0, 1\nexit\n', 'unary')
    with started(words, stdin=subprocess.PIPE, stdout=subprocess.PIPE, stderr=subprocess.PIPE,
                 bufsize=0) as child:
        child.stdin.write(data)
        for _ in range(2):
            child.stdout.readline()
        for spent in (3, 6, 9):
            child.stdin.write(b'apply B f A\nrun\n')
            for _ in range(3):
                child.stdout.readline()
            time.sleep(LITTLE_TIME)
        child.stdin.write(b'apply B f A\n')
        child.stdout.readline()
        time.sleep(1.5)
        child.kill()
        told = [json.loads(line) for line in child.stderr.read().splitlines()]
    runs = [line for line in told if line['event'] == 'runs']
    steps = [line['steps'] for line in runs]
    expect('the steps, in order', sorted(steps), steps)
    expect('what was told of batches', {3, 6, 9}, set(steps) - {0})
    expect('the last line', (9, 3, 1, 'waiting'),
           tuple(runs[-1][name] for name in ('steps', 'reserved', 'jobs', 'state')))
    with started([program] + waiting(1) + ['--log'], stdin=subprocess.PIPE, stdout=subprocess.PIPE,
                 stderr=subprocess.PIPE) as child:
        expect('status', 1, child.wait(FOR_A_SESSION))
        lines = child.stderr.read().decode().splitlines()
    expect_fields(lines[2], client='stdin', end='idle', steps=0)
    expect_fields(lines[3], event='server-end', end='sessions')
    expect('what is said as without a log', 'spmat: read failed' + TIME_IS_OVER[:-1],
           '\n'.join(lines[4:]))


STANDARD_CASES: Dict[str, Callable[[str], None]] = {
    'version-is-told': version_is_told,
    'version-is-not-written': version_is_not_written,
    'run-idle-ends-a-silent-pipe': idle_ends_a_silent_pipe,
    'run-idle-ends-a-silent-socket': idle_ends_a_silent_socket,
    'run-idle-spares-those-who-send': idle_spares_those_who_send,
    'run-idle-ends-whoever-takes-nothing': idle_ends_whoever_takes_nothing,
    'run-without-idle': without_idle_silence_is_no_end,
    'run-log-of-a-session': log_of_a_session,
    'run-log-of-each-batch': log_of_each_batch,
}
