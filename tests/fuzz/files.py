#!/usr/bin/env python3
"""files SECONDS [--seed N] [--program PATH] [--case K]
 Reads files that untrusted users may have written: of each format, altered byte by byte, cut,
nested, packed, with headers of many columns, long lines and huge numbers. Each ends as a graph or
as a refusal that names the file (ReadError, TextRefused, TooLarge), within little memory and time;
another exception, a hang or a crash is a fault. File k of a seed is always the same; --case reads
it alone.
"""
import argparse
import io
import os
import queue
import random
import resource
import subprocess
import sys
import threading
import time
import traceback

# modules are named from the top
sys.path[0] = os.path.dirname(os.path.dirname(os.path.dirname(os.path.realpath(__file__))))

from tests.fuzz.hostile_files import case_of
from tests.lib.paths import CLIENT, PLAIN_SERVER

# bytes beyond those that Python and its packages have to begin with
MEMORY = 3 << 29
HANGS = 150.0                                      # seconds of one file, on a busy machine


def arguments(words):
    parser = argparse.ArgumentParser(description=__doc__,
                                     formatter_class=argparse.RawDescriptionHelpFormatter)
    parser.add_argument('seconds', type=float)
    parser.add_argument('--seed', type=int, default=random.randrange(1 << 32))
    parser.add_argument('--program', default=os.environ.get('SPMAT', PLAIN_SERVER))
    parser.add_argument('--case', type=int)
    parser.add_argument('--most', type=int, default=1 << 60)
    parser.add_argument('--child', type=int, help=argparse.SUPPRESS)
    return parser.parse_args(words)


# -- the process that reads

def read_files(given):
    """Reads one file after the other. It says the number of each before it is read, and what came
    of it behind."""
    sys.path[:1] = [CLIENT, sys.path[0]]
    import spmat
    with spmat.Session(10 ** 12, program=given.program) as session:
        read_one(session, given.seed, 0)           # which imports all that readers need
        bound_memory()
        ends, number = time.monotonic() + given.seconds, given.child
        while time.monotonic() < ends and number < given.most:
            print('file %d' % number, flush=True)
            print(read_one(session, given.seed, number), flush=True)
            number += 1
    print('end', flush=True)


def bound_memory():
    with open('/proc/self/statm', encoding='ascii') as file:
        pages = int(file.read().split()[0])
    resource.setrlimit(resource.RLIMIT_AS, (pages * resource.getpagesize() + MEMORY,) * 2)


def read_one(session, seed, number):
    """What comes of a file: `graph`, `refused`, or `fault` with the lines of where it came from."""
    import spmat
    case = case_of(seed, number)
    try:
        case.read(session, io.BytesIO(case.data))
    except (spmat.ReadError, spmat.TextRefused, spmat.TooLarge):
        return 'refused'
    except Exception:  # pylint: disable=broad-exception-caught  # whatever it is, it is the finding
        return 'fault %s' % repr(traceback.format_exc())
    return 'graph'


# -- the process that watches

class Watch:
    """Starts processes that read, one after the other where one hangs or dies, and counts what
    comes of files."""

    def __init__(self, given):
        self.given, self.counts, self.faults = given, {'graph': 0, 'refused': 0}, []

    def run(self):
        """All files, until the time is over."""
        ends, first = time.monotonic() + self.given.seconds, 0
        while (first is not None and time.monotonic() < ends and first < self.given.most
               and not self.faults):
            first = self._watched(first, ends - time.monotonic())

    def _watched(self, first, seconds):
        """The next file to be read, where a process ended before its time; else None."""
        words = [sys.executable, os.path.realpath(__file__), str(seconds), '--seed',
                 str(self.given.seed), '--program', self.given.program, '--child', str(first),
                 '--most', str(self.given.most)]
        with subprocess.Popen(words, stdout=subprocess.PIPE, stderr=subprocess.DEVNULL,
                              text=True) as child:
            lines = queue.Queue()
            threading.Thread(target=self._pass_on, args=(child.stdout, lines), daemon=True).start()
            number = first
            while True:
                try:
                    line = lines.get(timeout=HANGS + (60 if number == first else 0))
                except queue.Empty:
                    child.kill()
                    self.faults.append('file %d hangs' % number)
                    return number + 1
                if line.startswith('file '):
                    number = int(line.split()[1])
                elif line.startswith('fault '):
                    self.faults.append('file %d: %s' % (number,
                                                        line[6:].strip().encode().decode(
                                                            'unicode_escape')))
                elif line.strip() in self.counts:
                    self.counts[line.strip()] += 1
                elif line.startswith('end'):
                    return None
                elif not line:
                    self.faults.append('file %d ends the process, with status %d'
                                       % (number, child.wait()))
                    return number + 1

    @staticmethod
    def _pass_on(stream, lines):
        for line in stream:
            lines.put(line)
        lines.put('')


def main(words):
    given = arguments(words)
    if given.child is not None:
        return read_files(given)
    if given.case is not None:
        sys.path[:1] = [CLIENT, sys.path[0]]
        import spmat
        case = case_of(given.seed, given.case)
        print(case.name, case.data[:2000])
        with spmat.Session(program=given.program) as session:
            print(case.read(session, io.BytesIO(case.data)))
        return 0
    watch = Watch(given)
    print('files: seed %d' % given.seed, flush=True)
    watch.run()
    print('files: %d read, %d graphs, %d refused; faults: %d' % (
        sum(watch.counts.values()) + len(watch.faults), watch.counts['graph'],
        watch.counts['refused'], len(watch.faults)))
    for fault in watch.faults:
        print(fault)
    return 1 if watch.faults or not watch.counts['graph'] or not watch.counts['refused'] else 0


if __name__ == '__main__':
    sys.exit(main(sys.argv[1:]))
