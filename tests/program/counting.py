"""Counts the x86 instructions of sessions by valgrind's callgrind."""
import os
import re
import shutil
import subprocess
import tempfile
from concurrent.futures import ThreadPoolExecutor
from typing import List, Tuple

from tests.lib.commands import run_words
from tests.lib.patience import FOR_A_COMMAND
from tests.lib.runs import Wrong, expect
from tests.program.instruction_sessions import QUIT, REFUSED, SESSIONS

CALLGRIND = ['valgrind', '--tool=callgrind', '--callgrind-out-file=' + os.devnull]


def instructions_of(program: str, session: bytes, refusals: List[bytes]) -> int:
    """Those of a session, some of whose commands are refused by these rules."""
    with tempfile.TemporaryFile() as given:
        given.write(session + QUIT)
        given.seek(0)
        done = subprocess.run(CALLGRIND + [program] + run_words(), stdin=given,
                              stdout=subprocess.PIPE, stderr=subprocess.PIPE, timeout=FOR_A_COMMAND)
    expect('status', 0, done.returncode)
    expect('refusals', refusals, re.findall(rb'^no (\S+)', done.stdout, re.M))
    return int(re.search(rb'Collected : (\d+)', done.stderr).group(1))


def all_instructions(program: str) -> List[Tuple[str, float]]:
    """The instructions of each session, by its name and size."""
    if shutil.which('valgrind') is None:
        raise Wrong('there is no valgrind, which counts the instructions')
    runs = [(name, size * times, make) for name, (make, size) in SESSIONS.items()
            for times in (1, 2)]
    with ThreadPoolExecutor(os.cpu_count()) as at_once:
        counts = at_once.map(lambda run: instructions_of(program, run[2](run[1]),
                                                         REFUSED.get(run[0], [])), runs)
        return [('%s, %d' % (name, size), float(count))
                for (name, size, _), count in zip(runs, counts)]
