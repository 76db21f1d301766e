"""What a session costs a server: processor seconds and peak memory, beside the bytes that it
sends."""
import os
import re
import subprocess
import threading
from typing import List, NamedTuple

from tests.lib.commands import run_words
from tests.lib.patience import FOR_A_SESSION
from tests.lib.replies import Replies
from tests.lib.runs import Wrong, bounded

PIECE = 1 << 20
LAST = b'ok budget '


class Cost(NamedTuple):
    """Seconds of the processor, bytes that were resident at most, and the refusals in the
    replies."""
    seconds: float
    peak: int
    refusals: List[bytes]


def replies_until_last(child: subprocess.Popen) -> List[bytes]:
    """Reads replies up to the one to `budget`, which no other reply of these sessions holds, and
    answers the refusals."""
    def more() -> bytes:
        piece = child.stdout.read1(PIECE)
        if not piece:
            raise Wrong('the program ended, status %d' % child.wait(FOR_A_SESSION))
        return piece

    replies, refusals = Replies(more), []
    while True:
        reply = replies.reply()
        if reply.startswith(LAST):
            return refusals
        if reply.startswith(b'no '):
            refusals.append(reply.rstrip(b'\n'))


def cost_of(program: str, session: bytes, workers: int = 1) -> Cost:
    """Runs a session, and answers what it took."""
    child = subprocess.Popen([program] + run_words(workers=workers), stdin=subprocess.PIPE,
                             stdout=subprocess.PIPE, preexec_fn=bounded)
    try:
        feeder = threading.Thread(target=give, args=(child, session), daemon=True)
        feeder.start()
        refusals = replies_until_last(child)
        feeder.join(FOR_A_SESSION)
        # not by its resource usage, which counts what the Python that started it had before
        with open('/proc/%d/status' % child.pid) as status:
            peak = int(re.search(r'VmHWM:\s+(\d+) kB', status.read()).group(1)) << 10
        child.stdin.close()
        _, status, usage = os.wait4(child.pid, 0)
        child.returncode = os.waitstatus_to_exitcode(status)
        return Cost(usage.ru_utime + usage.ru_stime, peak, refusals)
    finally:
        if child.returncode is None:
            child.kill()
            child.wait()
        child.stdout.close()


def give(child: subprocess.Popen, session: bytes) -> None:
    """Writes a session with a `budget` at its end, and leaves the input open."""
    try:
        child.stdin.write(session + b'budget\n')
        child.stdin.flush()
    except BrokenPipeError:
        pass
