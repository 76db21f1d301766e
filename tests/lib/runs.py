"""Runs a session of a program, and compares its output and its end with what is expected."""
import contextlib
import os
import resource
import subprocess
import threading
from typing import Any, Iterable, Iterator, List

from tests.lib.patience import CHECKED, FOR_A_SESSION

# of a program that asks for far more than a case needs, so that it takes no machine down
MOST_ADDRESS_SPACE = 8 << 30
LONGEST = 5 * FOR_A_SESSION                              # for one that is too large to be held


class Wrong(Exception):
    """What a program got wrong, in one line."""


def difference(want, got):
    """The first line in which two texts differ."""
    wanted, found = want.split(b'\n'), got.split(b'\n')
    for number in range(max(len(wanted), len(found))):
        a = wanted[number] if number < len(wanted) else None
        b = found[number] if number < len(found) else None
        if a != b:
            return 'line %d: expected %.100r, got %.100r' % (number + 1, a, b)
    return 'no difference'


def expect(what, want, got):
    if want != got:
        raise Wrong('%s: expected %r, got %.200r' % (what, want, got))


def bounded() -> None:
    """Sets the limit on address space, in the program before it begins. One with run-time checks
    reserves far more addresses than it uses, so none is set where the variable CHECKED says that
    the program is such a one."""
    if os.environ.get(CHECKED):
        return
    resource.setrlimit(resource.RLIMIT_AS, (MOST_ADDRESS_SPACE, MOST_ADDRESS_SPACE))


@contextlib.contextmanager
def started(words: List[str], seconds: float = FOR_A_SESSION,
            **settings: Any) -> 'Iterator[subprocess.Popen[bytes]]':
    """A program that is killed where it takes so long, or what looks at it fails. So nobody reads
    from it or waits for it without an end."""
    child = subprocess.Popen(words, **settings)
    timer = threading.Timer(seconds, child.kill)
    timer.daemon = True
    timer.start()
    try:
        with child:
            try:
                yield child
            except BaseException:
                child.kill()
                raise
    finally:
        timer.cancel()


def run_session(program, words, data, want, status=0):
    """One session, from its input to its output and exit status."""
    done = subprocess.run([program] + words, input=data, stdout=subprocess.PIPE,
                          stderr=subprocess.PIPE, timeout=FOR_A_SESSION, preexec_fn=bounded)
    if done.stdout != want:
        raise Wrong(difference(want, done.stdout))
    expect('status', status, done.returncode)
    if status == 2 and not done.stderr:
        raise Wrong('nothing on standard error')


def feed(child: subprocess.Popen, given: Iterable[bytes]) -> None:
    """Writes an input piece by piece; a program that ended before takes no more."""
    try:
        for piece in given:
            child.stdin.write(piece)
        child.stdin.close()
    except BrokenPipeError:
        pass


def run_streamed(program: str, words: List[str], given: Iterable[bytes], wanted: Iterable[bytes],
                 status: int = 0) -> None:
    """One session whose input and output are too large to be held whole: both are made piece by
    piece while it runs."""
    with started([program] + words, LONGEST, stdin=subprocess.PIPE, stdout=subprocess.PIPE,
                 stderr=subprocess.PIPE, preexec_fn=bounded) as child:
        feeder = threading.Thread(target=feed, args=(child, given), daemon=True)
        feeder.start()
        at = 0
        for want in wanted:
            got = child.stdout.read(len(want))
            if got != want:
                raise Wrong('from byte %d of the output: %s' % (at, difference(want, got)))
            at += len(want)
        expect('behind the output', b'', child.stdout.read())
        expect('status', status, child.wait(FOR_A_SESSION))
        feeder.join(FOR_A_SESSION)
