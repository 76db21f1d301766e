#!/usr/bin/env python3
"""tests/fuzz/blocks.py SECONDS [--seed N] [--dask] [--kills] [--weather slow|budget|memory]

Compares blocks with one session on random graphs for SECONDS seconds: every public method of
Session and Matrix and every algorithm, by the calls of clients/python/tests/alike.py, in 1, 2, 3
and 7 blocks, over threads, or with --dask over three workers of Dask. --kills kills a program, or
with Dask a worker or its program, at a random moment of each algorithm. --weather also makes a
program slow (it stands still most of the time), ends the budget during the work, or gives programs
little memory; a call may then be refused for that. The last line has kinds, counts and differences;
the status is 1 if there are any differences. The same seed gives the same graphs. It needs SPMAT,
or `spmat` on the PATH."""
import argparse
import collections
import contextlib
import logging
import os
import random
import signal
import sys
import tempfile
import threading
import time

# modules are named from the top
sys.path[0] = os.path.dirname(os.path.dirname(os.path.dirname(os.path.realpath(__file__))))

# pylint: disable-next=wrong-import-position
from tests.lib.paths import BLOCKS, CLIENT, CLIENT_TESTS  # noqa: E402
from tools import numpy_python  # noqa: E402  # pylint: disable=wrong-import-position

numpy_python.use()
sys.path[:0] = [CLIENT, CLIENT_TESTS, BLOCKS]
os.environ['PYTHONPATH'] = os.pathsep.join(sys.path[:3])       # also for Dask's workers

import alike  # noqa: E402  # pylint: disable=wrong-import-position
import spmat  # noqa: E402  # pylint: disable=wrong-import-position
import spmat_blocks as blocks  # noqa: E402  # pylint: disable=wrong-import-position
from spmat_blocks import worker_store  # noqa: E402  # pylint: disable=wrong-import-position


WORKERS = 3


def programs_here(settings):
    """The processes of the programs of this process."""
    return [store.session.connection.process for (token, _), store
            in list(worker_store._stores.items()) if token == settings.token]


def programs_of(session):
    """The processes of the programs of all workers."""
    engine = session.engine
    if isinstance(engine, blocks.Threads):
        return programs_here(session.settings)
    found = engine.client.run(programs_here, session.settings, on_error='ignore').values()
    return [process for many in found if isinstance(many, list) for process in many]


# what weather may have said of a call
WORDS = {'slow': (), 'budget': ('BudgetExceeded',), 'memory': ('OutOfMemory', 'BlockFailed')}


def stutter(processes, end):
    """Lets a process run for a fifth of the time."""
    while time.monotonic() < end():
        for signal_, seconds in ((signal.SIGSTOP, .08), (signal.SIGCONT, .02)):
            for process in processes()[:1]:
                with contextlib.suppress(ProcessLookupError):
                    os.kill(process, signal_)
            time.sleep(seconds)


class Comparison:
    """Counts what was compared, and what differed."""

    def __init__(self, one, many, options, end):
        self.one, self.many, self.kills, self.weather, self.end = (one, many, options.kills,
                                                                   options.weather, end)
        self.counts, self.differ, self.killed, self.longest = (collections.Counter(),
                                                               collections.Counter(), 0, 0.0)

    def look(self, kind, about, want, call, words):
        """One call in blocks."""
        begun = time.monotonic()
        got = alike.outcome(call)
        self.longest = max(self.longest, time.monotonic() - begun)
        if self.weather and isinstance(got,
                                       tuple) and got[:1] == (
                                           'refused',) and got[1] in WORDS[self.weather]:
            kind = 'refused'
        self.counts[kind] += 1
        if got != want and kind != 'refused':
            self.differ[kind] += 1
            print('DIFFERS', kind, about, words, str(want)[:300], str(got)[:300], flush=True)

    def round(self, seed):
        """All calls on the graphs of a seed."""
        chance = random.Random(seed)
        for kind, graph in alike.graphs_of(random.Random(seed),
                                           chance.choice((3, 9, 20, 60))).items():
            words, session = chance.choice(list(self.many.items()))
            one = alike.Made(self.one, graph, random.Random(seed))
            try:
                made = alike.Made(session, graph, random.Random(seed))
            except spmat.SpmatError:
                if self.weather != 'memory':
                    raise
                self.counts['not loaded'] += 1
                continue
            for name, calls in () if self.kills else alike.METHODS.items():
                mask = alike.MASKS[chance.choice(list(alike.MASKS)) if name in alike.MASKED
                                   else 'none']
                for number, call in enumerate(calls):
                    self.look('method', (seed, kind, name, number),
                              alike.outcome(lambda: call(one, mask(one.K))),
                              lambda: call(made, mask(made.K)), words)
            for name, calls in alike.ALGORITHMS.items():
                for number, call in enumerate(calls):
                    if time.monotonic() > self.end:
                        return
                    want = alike.outcome(lambda: call(one.G))
                    with self.killing(chance, session):
                        self.look('algorithm', (seed, kind, name, number), want,
                                  lambda: call(made.G), words)

    @contextlib.contextmanager
    def killing(self, chance, session):
        """A kill amid what is done meanwhile, where kills are wanted."""
        if not self.kills:
            yield
            return
        self.replace_lost(session.engine)
        timer = threading.Timer(chance.random() * .2, self.kill, (chance, session))
        timer.start()
        yield
        timer.join()

    @staticmethod
    def replace_lost(engine):
        """Has the cluster begin other workers for those that their nannies lost, as Dask does under
        load."""
        if isinstance(engine, blocks.Threads):
            return
        cluster, client = engine.client.cluster, engine.client
        lost = WORKERS - len(client.scheduler_info()['workers'])
        if lost > 0:
            with contextlib.suppress(Exception):
                client.wait_for_workers(WORKERS, timeout=10)
        lost = WORKERS - len(client.scheduler_info()['workers'])
        if lost > 0:
            cluster.scale(len(cluster.workers) + lost)
            with contextlib.suppress(Exception):
                client.wait_for_workers(WORKERS, timeout=60)

    def programs(self):
        """The programs of the first of the blocks that are compared."""
        return programs_of(next(iter(self.many.values())))

    def kill(self, chance, session):
        """Kills a program, or a worker of Dask."""
        client, processes = getattr(session.engine, 'client', None), []
        if client is not None and chance.random() < .5:
            processes = [process for process in client.run(os.getpid, on_error='ignore').values()
                         if isinstance(process, int)]
        processes = processes or programs_of(session)
        if client is not None:
            client.wait_for_workers(1, timeout=60)
        with contextlib.suppress(ProcessLookupError):
            if processes:
                os.kill(chance.choice(processes), signal.SIGKILL)
                self.killed += 1


def settings(weather, chance):
    """What sessions are opened with."""
    if weather == 'budget':
        return {'steps': chance.choice((30_000, 90_000))}
    return ({'program': ['sh', '-c', 'ulimit -v 7000; exec "$0" "$@"',
                         spmat.wire.transport.program_words(None)[0]]}
            if weather == 'memory' else {})


def sessions(stack, options):
    """Blocks to compare with, by what they are."""
    more = settings(options.weather, random.Random(options.seed))
    if not options.dask:
        return {'%d sessions, %s blocks' % (count,
                                            several
                                            or count): stack.enter_context(
                                                blocks.Sessions(count, blocks=several, **more))
                for count, several in ((1, None), (2, None), (3, None), (2, 7))}
    from distributed import Client, LocalCluster
    folder = stack.enter_context(tempfile.TemporaryDirectory())
    cluster = stack.enter_context(LocalCluster(n_workers=WORKERS, threads_per_worker=1,
                                               dashboard_address=None, local_directory=folder,
                                               silence_logs=logging.CRITICAL))
    client = stack.enter_context(Client(cluster))
    return {'Dask, %d blocks'
            % count: stack.enter_context(blocks.Sessions(blocks.Dask(client), blocks=count, **more))
            for count in (2, 3, 7)}


def main():
    parser = argparse.ArgumentParser(description=__doc__,
                                     formatter_class=argparse.RawDescriptionHelpFormatter)
    parser.add_argument('seconds', type=float)
    parser.add_argument('--seed', type=int, default=1)
    parser.add_argument('--dask', action='store_true')
    parser.add_argument('--kills', action='store_true')
    parser.add_argument('--weather', choices=list(WORDS))
    options = parser.parse_args()
    with contextlib.ExitStack() as stack:
        one, many = stack.enter_context(spmat.Session()), sessions(stack, options)
        seed, comparison = options.seed, Comparison(one, many, options,
                                                    time.monotonic() + options.seconds)
        if options.weather == 'slow':
            threading.Thread(target=stutter, args=(comparison.programs, lambda: comparison.end),
                             daemon=True).start()
        while time.monotonic() < comparison.end:
            comparison.round(seed)
            seed += 1
        print('blocks: seeds %d to %d, compared %s, killed %d, longest %.1f s, differences %d' % (
            options.seed, seed - 1, dict(comparison.counts), comparison.killed, comparison.longest,
            sum(comparison.differ.values())), flush=True)
        sys.stdout.flush()
        os._exit(1 if comparison.differ else 0)


if __name__ == '__main__':
    main()
