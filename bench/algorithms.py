#!/usr/bin/env python3
"""algorithms.py [PATH_TO_SPMAT] [--scale N] [--sizes 1|2] [--even] [--workers W] [--rounds R]
[--graphs kron,..] [--only sssp,..] [--without sssp,..] [--no-pairs] [--figures FILE]
[--processor]

Whole algorithms of the Python client beside what an analyst would take instead, on the same edges,
by the clock: from a graph that is loaded to an answer in numpy. Wants numpy; the peers are scipy,
igraph, networkx (for graphs of up to 20,000 vertices) and SuiteSparse:GraphBLAS
(python3-suitesparse-graphblas of Debian), and one that isn't installed is said and left out.
`bench/run algorithms` finds a Python that has numpy.

Graphs: kron (R-MAT, skewed), urand (uniform), road (a grid with one edge in twenty missing: long
paths), directed (uniform, one way alone), dag (the directed one's edges from lower to higher
vertices); about 2^N vertices, eight edges each (road: two). The second size has four times as many
vertices. Algorithms that look at each pair of vertices have graphs of a sixteenth of the vertices;
with --even of as many as all, and --no-pairs leaves them out.

The first table has how many times as long as the best peer a call took. The second, which goes to
FILE where one is named, has a line for each: the first call, which finds out what is then kept with
the graph, the least of the calls behind it, the server's processor time of a call, each peer, the
ratio to the best of them, and how many times longer the second size took. Answers are compared with
the peers' where there is one right answer; status 1 says that one differs. With --processor the
processor's time counts, of client and server together: on a machine that does other work the clock
says little.
"""
from __future__ import annotations

import argparse
import os
import sys
import time
from typing import Any, Callable, Dict, Iterator, List, NamedTuple, Optional, Sequence, Tuple, Type

TOP = os.path.dirname(os.path.dirname(os.path.realpath(__file__)))
sys.path[:1] = [os.path.join(TOP, 'clients', 'python')] + sys.path[:1] * (__name__ != '__main__')
# last: bench/networkx.py isn't networkx
sys.path.append(os.path.dirname(os.path.realpath(__file__)))

import ratios                                                        # noqa: E402
import spmat                                                         # noqa: E402
from algorithm_graphs import GRAPHS, asked_of, edges_of              # noqa: E402
from algorithm_peers import Peer, found_peers                        # noqa: E402
from algorithm_tasks import TASKS, Ours, Task                        # noqa: E402

# seconds: what takes longer is measured once more, or once in all
SLOW, LONG = 2.0, 20.0


class Timed(NamedTuple):
    """Seconds of the first call, the least of the others (or of it, where it was long), and of all
    together; how many calls there were, and the answer."""
    first: float
    least: float
    total: float
    calls: int
    answer: Any


class Line(NamedTuple):
    """What was measured of one task on one graph: its names, seconds of the first call and the
    least of those behind it, the server's processor time of a call, and as a share of what passes,
    the peers' seconds, and the names of those whose answer differs."""
    task: str
    graph: str
    vertices: int
    entries: int
    first: float
    least: float
    server: float
    share: float
    peers: Dict[str, float]
    differs: List[str]

    @property
    def ratio(self) -> Optional[float]:
        """How many times as long as the best peer."""
        return self.least / max(min(self.peers.values()), 1e-6) if self.peers else None


def timed(rounds: int, call: Callable[[], Any], clock: Callable[[], float]) -> Timed:
    """Calls once, and then again and again."""
    began = clock()
    answer = call()
    seconds = [clock() - began]
    for _ in range(rounds if seconds[0] < SLOW else min(rounds, 1) if seconds[0] < LONG else 0):
        began = clock()
        call()
        seconds.append(clock() - began)
    return Timed(seconds[0], min(seconds[1:] or seconds), sum(seconds), len(seconds), answer)


def server_seconds(session: Any) -> float:
    """The processor time of a session's program, on all its threads: Linux has a clock for each
    process."""
    return time.clock_gettime(~session.connection._channel.process.pid << 3 | 2)


def measured(task: Task, ours: Ours, peers: Sequence[Peer], graph: str,
             options: argparse.Namespace) -> Line:
    """One task by us and by each peer that has it."""
    session, rounds = ours.G.session, options.rounds
    clock = time.process_time if options.processor else time.perf_counter
    before = server_seconds(session)
    own = timed(rounds, lambda: task.call(ours),
                lambda: clock() + (server_seconds(session) if options.processor else 0))
    server = server_seconds(session) - before
    seconds, differs = {}, []
    for peer in peers:
        call = peer.calls().get(task.name)
        if call is not None:
            took = timed(rounds, call, clock)
            seconds[peer.name] = min(took.first, took.least)
            if not task.same(own.answer, took.answer):
                differs.append(peer.name)
    return Line(task.name, graph, ours.G.nrows, ours.G.nvals, own.first, own.least,
                server / own.calls, server / own.total, seconds, differs)


def measured_on(graph: str, scale: int, tasks: Sequence[Task], kinds: Sequence[Type[Peer]],
                options: argparse.Namespace) -> Iterator[Line]:
    """Some tasks on one graph."""
    edges = edges_of(graph, scale)
    asked, n = asked_of(edges), edges.vertices
    peers = [kind(edges, asked) for kind in kinds]
    with spmat.Session(workers=options.workers, program=[options.program]) as session:
        ours = Ours(session.from_coo(edges.i, edges.j, 1, n, n),
                    session.from_coo(edges.i, edges.j, edges.w, n, n), asked, edges.directed)
        for task in tasks:
            yield measured(task, ours, peers, graph, options)


def all_lines(kinds: Sequence[Type[Peer]], options: argparse.Namespace) -> Iterator[Line]:
    """All lines, graph by graph."""
    only = options.only.split(',') if options.only else None
    without = options.without.split(',')
    for graph in options.graphs.split(','):
        tasks = [task for task in TASKS if graph in task.graphs and task.name not in without
                 and (only is None or task.name in only)]
        tasks = [task for task in tasks if not task.smaller] if options.no_pairs else tasks
        tasks = [task._replace(smaller=0) for task in tasks] if options.even else tasks
        for smaller in sorted({task.smaller for task in tasks}):
            for size in range(options.sizes):
                yield from measured_on(graph, options.scale + 2 * size - smaller,
                                       [task for task in tasks if task.smaller == smaller], kinds,
                                       options)


def figures(lines: Sequence[Line]) -> Iterator[str]:
    """The lines of the table of figures."""
    yield ('| graph | what | first call | later calls | server | peers | times the best | times '
           'the size before |')
    yield '|---' * 8 + '|'
    before: Dict[Tuple[str, str], Line] = {}
    for line in lines:
        peers = ', '.join('%s %.6f' % item
                          for item in sorted(line.peers.items(), key=lambda item: item[1]))
        smaller = before.get((line.graph, line.task))
        cells = ['%s: %d vertices, %d entries' % (line.graph, line.vertices, line.entries),
                 line.task, '%.6f' % line.first, '%.6f' % line.least, '%.6f' % line.server,
                 peers or '-', '-' if line.ratio is None else '%.2f' % line.ratio,
                 '%.1f' % (line.least / smaller.least) if smaller is not None else '']
        before[line.graph, line.task] = line
        yield '| ' + ' | '.join(cells) + ' |' + (' differs from ' + ', '.join(line.differs)
                                                 if line.differs else '')


def wanted() -> argparse.Namespace:
    """What the command line asks for."""
    words = argparse.ArgumentParser(description=(__doc__ or '').split('\n\n')[1],
                                    usage=(__doc__ or '').split('\n\n', maxsplit=1)[0])
    words.add_argument('program', nargs='?',
                       default=os.path.join(TOP, 'crates', 'spmat', 'out', 'spmat'))
    for name, value in (('scale', 14), ('sizes', 2), ('workers', 4), ('rounds', 3)):
        words.add_argument('--' + name, type=int, default=value)
    words.add_argument('--graphs', default=','.join(GRAPHS))
    words.add_argument('--only', default='')
    words.add_argument('--without', default='')
    words.add_argument('--figures')
    for name in ('even', 'no-pairs', 'processor'):
        words.add_argument('--' + name, action='store_true')
    return words.parse_args()


def main() -> int:
    """Measures, and prints the tables. Status 1 where an answer differs."""
    options = wanted()
    kinds, missing = found_peers()
    lines: List[Line] = []
    for line in all_lines(kinds, options):
        lines.append(line)
        print(list(figures([line]))[-1], file=sys.stderr, flush=True)
    left_out = '; not installed: ' + ', '.join(missing) if missing else ''
    clock = 'processor seconds of both sides' if options.processor else 'seconds'
    raw = 'Whole algorithms, %d workers, %s%s.\n\n%s\n' % (options.workers, clock, left_out,
                                                           '\n'.join(figures(lines)))
    print('Whole algorithms, %d workers: times as long as the best peer%s.\n\n%s'
          % (options.workers, left_out, ratios.algorithms(raw)))
    if options.figures:
        with open(options.figures, 'w', encoding='utf-8') as file:
            file.write(raw)
    else:
        print('\n' + raw)
    return 1 if any(line.differs for line in lines) else 0


if __name__ == '__main__':
    sys.exit(main())
