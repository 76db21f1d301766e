"""The two servers that are compared: the reference in this process, and a program."""
import io
import os
import signal
import subprocess
from typing import List, NamedTuple
from reference.session import Session as Served
from tests.lib.commands import run_words
from tests.lib.patience import FOR_A_FUZZED_SESSION


class Session(NamedTuple):
    """The input in pieces, the numbers of the command line, and how many bytes are handed over at
    once (0: all)."""

    pieces: List[bytes]
    steps: int
    workers: int
    at_once: int = 0

    @property
    def data(self) -> bytes:
        return b''.join(self.pieces)

    @property
    def words(self) -> List[str]:
        return run_words(self.steps, self.workers)


class Answer(NamedTuple):
    """What a server wrote, and its exit status."""

    out: bytes
    status: int


def reference_answer(session: Session, served=Served) -> Answer:
    """What the reference, or another class of its shape, makes of a session."""
    sink = io.BytesIO()
    status = served(session.steps).serve(io.BytesIO(session.data), sink)
    return Answer(sink.getvalue(), status)


class Program:
    """A program that serves standard input and output."""

    def __init__(self, path: str) -> None:
        self.path = os.path.abspath(path)
        signal.signal(signal.SIGALRM, overdue)

    def start(self, session: Session) -> 'Running':
        return Running(self.path, session)

    def answer(self, session: Session) -> Answer:
        return self.start(session).answer()


class Running:
    """A program that runs. Output goes to files in memory, and so does input that isn't handed over
    in pieces, so that nothing else has to run beside it."""

    def __init__(self, path: str, session: Session) -> None:
        self.session = session
        self.sink, self.told = in_memory(b''), in_memory(b'')
        source = subprocess.PIPE if session.at_once else in_memory(session.data)
        self.child = subprocess.Popen([path] + session.words, stdin=source, stdout=self.sink,
                                      stderr=self.told, bufsize=0)
        if not session.at_once:
            source.close()

    def answer(self) -> Answer:
        """What the program wrote when it has ended."""
        signal.alarm(FOR_A_FUZZED_SESSION)
        try:
            if self.session.at_once:
                self.hand_over()
            status = self.child.wait()
        except TimeoutError:
            self.child.kill()
            status = self.child.wait()
            self.told.write(b'not ended after %d seconds\n' % FOR_A_FUZZED_SESSION)
        finally:
            signal.alarm(0)
        return Answer(written(self.sink) + written(self.told), status)

    def hand_over(self) -> None:
        try:
            for at in range(0, len(self.session.data), self.session.at_once):
                self.child.stdin.write(self.session.data[at:at + self.session.at_once])
        except BrokenPipeError:
            pass        # a session that was ended by a refusal reads no further
        self.child.stdin.close()


def overdue(*_) -> None:
    raise TimeoutError


def in_memory(data: bytes):
    file = os.fdopen(os.memfd_create('fuzz'), 'w+b', buffering=0)
    file.write(data)
    file.seek(0)
    return file


def written(file) -> bytes:
    with file:
        file.seek(0)
        return file.read()
