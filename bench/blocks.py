#!/usr/bin/env python3
"""bench/blocks.py [--graphs rmat:1000000 grid:500]
       [--sides one:1 one:4 threads:1 threads:2 threads:4 dask:1 dask:2 dask:4 scipy:1]
       [--parts load degrees mxv bfs components pagerank triangles sssp]
       [--client FOLDER] [--rounds N] [--table FILE..]

What blocks cost beside one session, and beside scipy in one process: a line of JSON for each part
as it ends, then a table of seconds and of ratios to the first side. `one:4` is one session of four
workers, `threads:4` four sessions of this machine, `dask:4` four workers of Dask. `rmat:1000000` is
a power-law graph (R-MAT) with that many entries, an eighth as many vertices, both ways; `grid:500`
one of 500 by 500 vertices. `--client` is the folder of another version of the client, to compare
with (`git worktree add` of an older commit). Each side runs in a process of its own, which tells
the most memory that it, its programs and its workers took together. It wants numpy, for Dask
`distributed`, and SPMAT or `spmat` on the PATH. `--table` prints the table of lines that were
written before."""
from __future__ import annotations

import argparse
import contextlib
import json
import logging
import os
import subprocess
import sys
import tempfile
import threading
import time

GRAPHS = ('rmat:1000000', 'rmat:4000000', 'grid:500')
SIDES = ('one:1', 'one:4', 'threads:1', 'threads:2', 'threads:4', 'dask:1', 'dask:2', 'dask:4',
         'scipy:1')
PARTS = ('load', 'degrees', 'mxv', 'bfs', 'components', 'pagerank', 'triangles', 'sssp')
CLIENTS = os.path.normpath(os.path.join(os.path.dirname(os.path.abspath(__file__)), '..', 'clients'))
CLIENT, BLOCKS = (os.path.join(CLIENTS, name) for name in ('python', 'blocks'))


def rmat(entries, seed=1):
    """A power-law graph: rows, columns, values and the number of vertices."""
    import numpy
    chance, scale = numpy.random.default_rng(seed), max(4, (entries // 8).bit_length() - 1)
    n, keys = 1 << scale, numpy.zeros(0, numpy.int64)
    order = chance.permutation(n)
    while len(keys) < entries // 2:
        many = int((entries // 2 - len(keys)) * 1.3) + 1000
        i, j = numpy.zeros(many, numpy.int64), numpy.zeros(many, numpy.int64)
        for _ in range(scale):
            draw = chance.random(many)
            i, j = 2 * i + (draw > .76), 2 * j + (((draw > .57) & (draw <= .76)) | (draw > .95))
        i, j = order[i], order[j]
        keys = numpy.unique(numpy.concatenate((keys,
                                               (numpy.minimum(i, j) * n
                                                + numpy.maximum(i, j))[i != j])))
    keys = chance.permutation(keys)[:entries // 2]
    return both(keys // n, keys % n, n)


def grid(side):
    """A grid of side by side vertices."""
    import numpy
    at = numpy.arange(side * side).reshape(side, side)
    return both(numpy.concatenate((at[:, :-1].ravel(), at[:-1].ravel())),
                numpy.concatenate((at[:, 1:].ravel(), at[1:].ravel())), side * side)


def both(i, j, n):
    """Edges both ways, ascending, with values of 1 to 255."""
    import numpy
    values = numpy.random.default_rng(2).integers(1, 256, len(i))
    rows, columns, values = numpy.concatenate((i, j)), numpy.concatenate((j, i)), numpy.concatenate(
        (values, values))
    order = numpy.argsort(rows * n + columns)
    return rows[order], columns[order], values[order], n


def graph(name):
    """A graph by its name."""
    kind, size = name.split(':')
    return (rmat if kind == 'rmat' else grid)(int(size))


def descendants():
    """This process and all below it."""
    parents = {}
    for number in filter(str.isdigit, os.listdir('/proc')):
        with contextlib.suppress(OSError):
            with open('/proc/%s/stat' % number, encoding='utf-8', errors='replace') as file:
                parents[int(number)] = int(file.read().rsplit(')', 1)[1].split()[1])
    found, todo = set(), [os.getpid()]
    while todo:
        found.add(todo.pop())
        todo += [process for process, parent in parents.items() if parent in found
                 and process not in found]
    return found


class Memory(threading.Thread):
    """The most memory that this process and those below it have taken together."""

    def __init__(self):
        super().__init__(daemon=True)
        self.most = 0

    def run(self):
        while True:
            taken = 0
            for process in descendants():
                with contextlib.suppress(OSError, IndexError):
                    with open('/proc/%d/statm' % process, encoding='utf-8') as file:
                        taken += int(file.read().split()[1]) * 4096
            self.most = max(self.most, taken)
            time.sleep(.1)


def of_spmat(sessions, held, parts):
    """What is done by spmat: each part's name, and a function of no arguments that gives a
    number."""
    from spmat import algorithms
    rows, columns, values, n = held
    source, made = int(rows[0]), {}

    def load():
        made['G'] = sessions.from_coo(rows, columns, 1, n, n).wait()
        made['W'] = (sessions.from_coo(rows, columns, values, n, n).wait() if 'sssp' in parts
                     else None)
        made['x'] = sessions.full(n, 1, 3).wait()
        return made['G'].nvals
    yield 'load', load
    yield 'degrees', lambda: algorithms.degrees(made['G']).reduce_scalar('max')
    yield 'mxv', lambda: made['G'].mxv(made['x']).reduce_scalar('max')
    yield 'bfs', lambda: sum(algorithms.bfs_levels(made['G'], source, made['G'],
                                                   check=False).entries(arrays=False)[2])
    yield 'components', lambda: len(set(algorithms.connected_components(made['G'], made['G'],
                                                                        check=False).entries(
                                                                            arrays=False)[2]))
    yield 'pagerank', lambda: algorithms.pagerank(made['G'], made['G'], scale=1 << 44,
                                                  check=False).reduce_scalar('max')
    yield 'triangles', lambda: algorithms.triangle_count(made['G'], check=False)
    yield 'sssp', lambda: sum(algorithms.sssp(made['W'], source, made['W'],
                                              check=False).entries(arrays=False)[2])


def of_scipy(held):
    """The same by scipy."""
    import numpy
    import scipy.sparse
    from scipy.sparse import csgraph
    rows, columns, values, n = held
    source, made = int(rows[0]), {}

    def load():
        made['A'] = scipy.sparse.csr_matrix((numpy.ones(len(rows), numpy.int64), (rows, columns)),
                                            (n, n))
        made['W'] = scipy.sparse.csr_matrix((values.astype(float), (rows, columns)), (n, n))
        return made['A'].nnz

    def ranks():
        degrees = numpy.asarray(made['A'].sum(1)).ravel().astype(float)
        share, ranks, turned = numpy.where(degrees > 0, 1 / numpy.maximum(degrees, 1),
                                           0), numpy.full(n, 1 / n), made['A'].T.tocsr()
        for number in range(200):
            new = .85 * (turned @ (ranks * share)) + .15 / n + .85 * ranks[degrees == 0].sum() / n
            if abs(new - ranks).sum() < 1e-6:
                return number
            ranks = new
        return 200

    def triangles():
        lower = scipy.sparse.tril(made['A'], -1).tocsr()
        return int((lower @ lower).multiply(lower).sum())
    yield 'load', load
    yield 'degrees', lambda: int(numpy.diff(made['A'].indptr).max())
    yield 'mxv', lambda: int((made['A'] @ numpy.full(n, 3)).max())
    yield 'bfs', lambda: len(csgraph.breadth_first_order(made['A'], source)[0])
    yield 'components', lambda: int(csgraph.connected_components(made['A'], False)[0])
    yield 'pagerank', ranks
    yield 'triangles', triangles
    # of those that are reached
    yield 'sssp', lambda: int(
        numpy.ma.masked_invalid(csgraph.dijkstra(made['W'], indices=source)).sum())


@contextlib.contextmanager
def sessions_of(kind, many):
    """One session, or several."""
    import spmat
    import spmat_blocks as blocks
    if kind == 'one':
        with spmat.Session(workers=many) as session:
            yield session
    elif kind == 'threads':
        with blocks.Sessions(many) as sessions:
            yield sessions
    else:
        import dask
        from distributed import Client, LocalCluster
        settings = {'distributed.scheduler.work-stealing': False,
                    'distributed.scheduler.active-memory-manager.start': False}
        with dask.config.set(settings), tempfile.TemporaryDirectory() as folder, LocalCluster(
            n_workers=many, threads_per_worker=1, dashboard_address=None, memory_limit=0,
            silence_logs=logging.ERROR, local_directory=folder) as cluster, \
                Client(cluster) as client, \
                blocks.Sessions(blocks.Dask(client), folder=folder) as sessions:
            yield sessions


def measure(options):
    """One side on one graph: a line for each part, the best of several rounds."""
    held, (kind, many), memory = graph(options.graphs[0]), options.sides[0].split(':'), Memory()
    with contextlib.ExitStack() as stack:
        work = (of_scipy(held) if kind == 'scipy'
                else of_spmat(stack.enter_context(sessions_of(kind, int(many))), held,
                              options.parts))
        memory.start()
        for part, call in work:
            if part == 'load' or part in options.parts:
                best, answer = float('inf'), None
                for _ in range(1 if part == 'load' else options.rounds):
                    begun = time.perf_counter()
                    answer = call()
                    best = min(best, time.perf_counter() - begun)
                print(json.dumps({'graph': options.graphs[0], 'side': options.sides[0],
                                  'part': part, 'seconds': round(best, 4), 'answer': answer,
                                  'MB': memory.most // 1000000}), flush=True)


def table(lines):
    """The lines as a table for each graph: seconds, and behind them the ratio to the first side. A
    number that differs is shown."""
    for name in dict.fromkeys(line['graph'] for line in lines):
        of = {(line['part'], line['side']): line for line in lines if line['graph'] == name}
        sides, parts = (list(dict.fromkeys(key[at] for key in of)) for at in (1, 0))
        print('\n%s\n\n| | %s |\n|%s' % (name, ' | '.join(sides), ' --- |' * (len(sides) + 1)))
        for part in parts:
            first, cells = of.get((part, sides[0])), []
            for side in sides:
                line = of.get((part, side))
                differs = (line and first and 'scipy' not in side
                           and line['answer'] != first['answer'])
                cells.append('' if line is None else '%.3g (%.2g)%s'
                             % (line['seconds'], line['seconds'] / first['seconds'] if first else 1,
                                ' DIFFERS' if differs else ''))
            print('| %s | %s |' % (part, ' | '.join(cells)))
        most = [max(line['MB'] for line in of.values() if line['side'] == side) for side in sides]
        print('| MB, at most | %s |' % ' | '.join(map(str, most)))


def main():
    parser = argparse.ArgumentParser(description=__doc__,
                                     formatter_class=argparse.RawDescriptionHelpFormatter)
    for name, usual in (('graphs', GRAPHS), ('sides', SIDES), ('parts', PARTS)):
        parser.add_argument('--' + name, nargs='+', default=usual)
    parser.add_argument('--client', default=CLIENT)
    parser.add_argument('--rounds', type=int, default=1)
    parser.add_argument('--table', nargs='+')
    parser.add_argument('--inner', action='store_true', help=argparse.SUPPRESS)
    options = parser.parse_args()
    if options.inner:
        measure(options)
        return
    lines = []
    for path in options.table or ():
        with open(path, encoding='utf-8') as file:
            lines += [json.loads(line) for line in file if line.startswith('{')]
    for name in () if options.table else options.graphs:
        for side in options.sides:
            path = os.pathsep.join((options.client, BLOCKS))
            words = [sys.executable, '-W', 'ignore', os.path.abspath(__file__), '--inner',
                     '--graphs', name, '--sides', side, '--rounds', str(options.rounds), '--parts',
                     *options.parts]
            done = subprocess.run(words, env=dict(os.environ, PYTHONPATH=path),
                                  stdout=subprocess.PIPE, text=True, check=False)
            print(done.stdout, end='', flush=True)
            lines += [json.loads(line) for line in done.stdout.splitlines() if line.startswith('{')]
    table(lines)


if __name__ == '__main__':
    main()
