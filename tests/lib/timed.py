"""A session of the built program whose batches are timed, from `run` to its answer; bench/run uses
it."""
import subprocess
import time

from tests.lib.commands import run_words
from tests.lib.replies import Replies

PIECE = 1 << 16


class TimedSession:
    """`spmat run` with so many workers, which is sent a setup and then jobs, one a batch."""

    def __init__(self, program: str, workers: int, setup: bytes) -> None:
        self.child = subprocess.Popen([program] + run_words(workers=workers), stdin=subprocess.PIPE,
                                      stdout=subprocess.PIPE)
        self.replies = Replies(self._more)
        self.child.stdin.write(setup)

    def __enter__(self) -> 'TimedSession':
        return self

    def __exit__(self, *_: object) -> None:
        self.child.stdin.close()
        self.child.stdout.close()
        self.child.wait()

    def _more(self) -> bytes:
        piece = self.child.stdout.read1(PIECE)
        if not piece:
            raise SystemExit('bench: the program ended before it answered')
        return piece

    def reply(self, start: bytes) -> bytes:
        """The next reply that starts so. Those before it are replies to the setup, of which none
        may be a refusal."""
        self.child.stdin.flush()
        while True:
            got = self.replies.reply()
            if got.startswith(start):
                return got
            if got.startswith(b'no '):
                raise SystemExit('bench: a session is refused: %s' % got)

    def seconds(self, job: bytes) -> float:
        """The time that passes from `run` to its reply, of a batch of one job."""
        self.child.stdin.write(job)
        self.reply(b'ok queued')
        start = time.monotonic()
        self.child.stdin.write(b'run\n')
        self.child.stdin.flush()
        answered = self.replies.reply()
        taken = time.monotonic() - start
        if not answered.startswith(b'ok run'):
            raise SystemExit('bench: a batch is refused: %s' % answered)
        return taken

    def shown(self, name: bytes) -> bytes:
        """The text of a matrix."""
        self.child.stdin.write(b'show %s\n' % name)
        return self.reply(b'ok show').partition(b'\n')[2]
