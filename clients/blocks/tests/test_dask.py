"""Row blocks over processes of Dask's `distributed`: the answers of one session, also where a
worker is killed amid the work."""
import contextlib
import gc
import logging
import os
import re
import shutil
import signal
import stat
import subprocess
import sys
import tempfile
import time
import unittest
from unittest import mock

import pytest

import block_pairs
import pathlib
import graphs
import spmat
import support
from dask_probes import computed_again, program_of, uploads_of, use_program
import spmat_blocks as blocks
from spmat import algorithms
from spmat_blocks import parallel_read, worker_tasks

pytestmark = pytest.mark.slow

WORKERS = 3
FOLDER = os.path.dirname(os.path.dirname(os.path.abspath(blocks.__file__)))
# for workers that are started anew, on a busy machine
SECONDS = 200
GRAPH = graphs.UNDIRECTED[-1]


class Answering:
    """What `Dask` asks of a client: workers that answer as it is told."""

    def __init__(self, *answers):
        self.answers = list(answers)

    def scheduler_info(self):
        return {'workers': {'a': None, 'b': None}}

    def run(self, *_, **__):
        return self.answers.pop(0)


class Unreached(unittest.TestCase):
    """Workers that are lost while all are asked, as Dask's client tells of them: a connection that
    failed is a value among the answers."""

    def told(self, *answers):
        client = Answering(*answers)
        try:
            return blocks.Dask(client).everywhere(worker_tasks.budget)
        finally:
            self.assertEqual(client.answers, [])

    def test_the_others_tell(self):
        self.assertEqual(self.told({'a': OSError('Timed out trying to connect'), 'b': (7, None)}),
                         {'b': 7})
        self.assertEqual(self.told({'a': (5, None), 'b': ConnectionResetError(104, 'reset')}),
                         {'a': 5})

    def test_nobody_answers(self):
        with self.assertRaisesRegex(OSError, 'closed'):
            self.told({'a': OSError('closed'), 'b': OSError('closed')})

    def test_what_is_wrong_is_raised(self):
        for fault in (ValueError('wrong'), FileNotFoundError(2, 'no program')):
            with self.assertRaises(type(fault)):
                self.told({'a': (1, None), 'b': (None, fault)})


@support.needs('distributed')
class Page(unittest.TestCase):
    def test_the_cluster_of_the_page(self):
        """The block of docs/scaling.md that makes a cluster prints what it says."""
        with open(os.path.join(support.TOP, 'docs', 'scaling.md'), encoding='utf-8') as file:
            shown = [re.sub('^    ', '', block, flags=re.M)
                     for block in re.findall(r'(?:^    .*\n)+', file.read(), re.M)]
        lines, said = next(pair for pair in zip(shown, shown[1:])
                           if pair[0].startswith('from distributed'))
        with tempfile.TemporaryDirectory() as folder:
            path = os.path.join(folder, 'example.py')
            pathlib.Path(path).write_text(lines, 'utf-8')
            path_of_packages = os.pathsep.join((support.CLIENT, FOLDER))
            printed = subprocess.run([sys.executable, path], stdout=subprocess.PIPE,
                                     stderr=subprocess.DEVNULL, check=True, timeout=SECONDS,
                                     env=dict(os.environ, PYTHONPATH=path_of_packages)
                                     ).stdout.decode()
        self.assertEqual(printed, said)


@support.needs('distributed')
class Dask(unittest.TestCase):
    @classmethod
    def setUpClass(cls):
        cls.ends = contextlib.ExitStack()
        cls.addClassCleanup(lambda: cls.ends.close())
        cls.start()

    @classmethod
    def start(cls):
        """A cluster for all tests: to start one takes as long as all of them."""
        import dask
        from distributed import Client, LocalCluster
        cls.ends.close()
        cls.ends.enter_context(dask.config.set({'distributed.scheduler.allowed-failures': 1,
                                                'distributed.scheduler.work-stealing': False,
                                                'distributed.scheduler.active-memory-manager.start':
                                                False}))
        folder = cls.ends.enter_context(tempfile.TemporaryDirectory())
        cls.cluster = cls.ends.enter_context(LocalCluster(n_workers=WORKERS, threads_per_worker=1,
                                                          dashboard_address=None,
                                                          local_directory=folder,
                                                          silence_logs=logging.CRITICAL))
        cls.client = cls.ends.enter_context(Client(cls.cluster))

    def setUp(self):
        # until those that were killed have been started anew, and answer
        end = time.monotonic() + 15
        while len(self.client.run(os.getpid, on_error='ignore')) < WORKERS:
            if time.monotonic() > end:
                self.start()
                break
            time.sleep(.1)
        gc.collect()                                                   # what earlier tests held
        self.one = support.enter(self, spmat.Session())

    @contextlib.contextmanager
    def sessions(self, engine=None, **settings):
        with blocks.Sessions(engine or blocks.Dask(self.client), **settings) as s:
            yield s

    def worker_of(self, matrix, block=1):
        """The address of a worker that has a block of a matrix."""
        future = matrix.handle.futures[block]
        return self.client.who_has([future])[future.key][0]

    def kill(self, address):
        """Kills a worker."""
        pid = self.client.run(os.getpid, workers=[address])[address]
        os.kill(pid, signal.SIGKILL)

    def test_forms(self):
        with self.sessions() as many:
            for case in ('random', 'more blocks than rows', 'one row with most entries'):
                pair = block_pairs.Pair(self.one, many, case)
                for number, form in enumerate(('apply with an index', 'union', 'product', 'reduce',
                                               'update')):
                    masks = pair.mask(form, number)
                    for kind in ('none', ('S', '~V')[number % 2]):
                        mask = block_pairs.MASKS[kind]
                        want = block_pairs.FORMS[form](*pair.sides[0], mask(masks[0])).wait()
                        got = block_pairs.FORMS[form](*pair.sides[1], mask(masks[1]))
                        with self.subTest(case=case, form=form, mask=kind):
                            self.assertEqual((got.to_text(), got.price, got.steps),
                                             (want.to_text(), want.price, want.steps))
                (A, B, K), (X, Y, Z) = pair.sides
                self.assertEqual(X.T.to_text(), A.T.to_text())
                self.assertEqual(X.mxm(Z, 'first_plus', associative=True).to_text(),
                                 A.mxm(K, 'first_plus').to_text())
                self.assertEqual(X.ewise_add(Y.recut([0, X.nrows]), 'minus').to_text(),
                                 A.ewise_add(B, 'minus').to_text())
                self.assertEqual(X.reduce_scalar('plus'), A.reduce_scalar('plus'))
            self.assertEqual(len(many.budgets()), WORKERS)

    def test_algorithms(self):
        """The same, and as many steps as blocks beside one another take in threads."""
        some = [lambda M: algorithms.bfs_levels(M, 0, M),
                lambda M: algorithms.connected_components(M, M)]
        others = [lambda M: algorithms.sssp(M, 0, M),
                  lambda M: algorithms.pagerank(M, M, damping=.4, tolerance=.1)]
        with self.sessions() as many, self.sessions(blocks.Threads(WORKERS)) as near:
            G, X, Y = (GRAPH.matrix(s) for s in (self.one, many, near))
            self.assertEqual([algorithms.triangle_count(M) for M in (X, Y)],
                             2 * [algorithms.triangle_count(G)])
            for function in some + others:
                self.assertEqual([function(M).to_text() for M in (X, Y)],
                                 2 * [function(G).to_text()])
            self.assertEqual(many.budget().spent, near.budget().spent)
            self.assertGreater(many.budget().spent, 0)

    def test_where_the_operands_are_nothing_moves(self):
        """No block's text does, however many there are; two whole matrices of one content are taken
        in once by each session."""
        for count in (WORKERS, 4 * WORKERS):
            with self.subTest(blocks=count), self.sessions(blocks=count) as s:
                X = GRAPH.matrix(s)
                Y = X.apply('identity').wait()
                before = self.uploads(s)
                for _ in range(3):
                    made = [X.ewise_add(Y), X.apply('minus', right=2, mask=~X.V),
                            X.update(Y, 'plus', X.S), X.select('tril'), X.reduce_rowwise()]
                    self.assertGreater(sum(matrix.nvals for matrix in made), 0)
                self.assertEqual(self.uploads(s) - before, 0)
                X.mxm(X, mask=X.S).nvals
                self.assertEqual(self.uploads(s) - before, WORKERS)
                X.mxm(X, 'min_plus', mask=X.S).nvals
                # made anew, and of the same content
                X.mxm(Y, mask=X.S).nvals
                self.assertEqual(self.uploads(s) - before, WORKERS)

    def test_workers_of_places(self):
        """A place stays with its worker; one that comes gets the place of one that is lost, and
        without any a place goes to another."""
        assign = blocks.dask.assign_workers
        self.assertEqual(assign(['a', 'b', 'c'], ['a', 'b', 'c', 'd']), ['a', 'b', 'c'])
        self.assertEqual(assign(['a', 'b', 'c'], ['a', 'c', 'd']), ['a', 'd', 'c'])
        self.assertEqual(assign(['a', 'b', 'c'], ['a', 'c']), ['a', 'a', 'c'])
        self.assertEqual(assign(['a', 'a', 'c'], ['a', 'c', 'd']), ['a', 'd', 'c'])
        self.assertEqual(assign(['a', 'b'], []), ['a', 'b'])

    def uploads(self, sessions):
        return sum(sessions.engine.everywhere(uploads_of, sessions.settings).values())

    def test_a_file_that_workers_read(self):
        """By ranges, from worker to worker or through a folder; the caller's process reads no
        line."""
        text = GRAPH.matrix(self.one).to_text()
        for given in (False, True):
            with tempfile.TemporaryDirectory() as folder, \
                    mock.patch.multiple(parallel_read, LEAST=1, MOST=100):
                path = os.path.join(folder, 'graph.mtx')
                pathlib.Path(path).write_bytes(text)
                with self.sessions(folder=folder if given else None) as s, \
                        mock.patch.object(blocks.chunked_input, 'spool_file',
                                          side_effect=AssertionError):
                    self.assertEqual(s.mmread(path).to_text(), text)
                self.assertEqual(os.listdir(folder), ['graph.mtx'])

    # -- a worker is killed

    def test_killed_amid_bfs(self):
        want = algorithms.bfs_levels(GRAPH.matrix(self.one), 0).to_text()
        with self.sessions() as s:
            again = self.client.run_on_scheduler(computed_again)
            levels, G = [], GRAPH.matrix(s)

            def progress(word, number, of):
                levels.append(number)
                if number == 2:
                    self.kill(self.worker_of(G))
            got = algorithms.bfs_levels(G, 0, progress=progress).to_text()
            self.assertEqual(got, want)
            self.assertGreater(max(levels), 2)
            self.assert_again(again, 'spmat_source')

    def test_killed_amid_triangle_count(self):
        """When the lower triangles are there and the products are asked for."""
        from distributed import wait
        test = self

        class Killing(blocks.Dask):
            killed = 0

            def submit(self, settings, place, label, function, *args):
                amid = (function is worker_tasks.job and args[0] == 'mxm' and place == 1
                        and not self.killed)
                if amid:
                    wait(args[1])
                    address = test.client.who_has(args[1][:1])[args[1][0].key][0]
                future = super().submit(settings, place, label, function, *args)
                if amid:
                    test.kill(address)
                    self.killed += 1
                return future
        want = algorithms.triangle_count(GRAPH.matrix(self.one))
        with self.sessions(Killing(self.client)) as s:
            again = self.client.run_on_scheduler(computed_again)
            self.assertEqual(algorithms.triangle_count(GRAPH.matrix(s)), want)
            self.assertEqual(s.engine.killed, 1)
            self.assert_again(again, 'spmat_source', 'spmat_job')

    def assert_again(self, before, *kinds):
        after = self.client.run_on_scheduler(computed_again)
        for kind in kinds:
            self.assertGreater(after.get(kind, 0), before.get(kind, 0), after)

    def test_what_is_computed_again(self):
        """Rounds that a product's operand went through are not: however many there were, it is a
        few tasks."""
        with self.sessions() as s:
            before = sum(self.client.run_on_scheduler(computed_again).values())
            G = GRAPH.matrix(s)

            def progress(word, number, of):
                if number == 8:                    # of ten, all of which are wanted
                    self.kill(self.worker_of(G))
            got = algorithms.pagerank(G, G, damping=.6, tolerance=.001, progress=progress).to_text()
            again = sum(self.client.run_on_scheduler(computed_again).values()) - before
            self.assertEqual(got, algorithms.pagerank(GRAPH.matrix(self.one), damping=.6,
                                                      tolerance=.001).to_text())
            self.assertGreater(again, 0)
            self.assertLess(again, 50)                                 # of some 250

    def test_checkpoint(self):
        """In a folder that all workers see: what came before is not computed again."""
        with tempfile.TemporaryDirectory() as folder, self.sessions(folder=folder) as s:
            X = GRAPH.matrix(s)
            # the blocks that came from here
            self.assertEqual(len(os.listdir(folder)), WORKERS)
            Y = X.apply('plus', right=1).apply('times', right=3).checkpoint()
            del X
            again = self.client.run_on_scheduler(computed_again)
            self.kill(self.worker_of(Y))
            self.assertEqual(Y.apply('minus', right=3).reduce_scalar('plus'),
                             3 * sum(GRAPH.edges.values()))
            after = self.client.run_on_scheduler(computed_again)
            self.assertGreater(after.get('spmat_source', 0), again.get('spmat_source', 0))
            self.assertEqual(after.get('spmat_job', 0), again.get('spmat_job', 0))
        self.assertFalse(os.path.exists(folder))

    def kill_program(self, address, settings):
        """Kills the program below a worker, as the system does where there is no memory left."""
        os.kill(self.client.run(program_of, settings, workers=[address])[address], signal.SIGKILL)

    def test_program_killed(self):
        """The program is killed, not the worker, which stays: a new session takes in the texts, and
        later jobs go on."""
        with self.sessions() as s:
            X = GRAPH.matrix(s)
            before = sorted(self.client.scheduler_info()['workers'])
            levels = algorithms.bfs_levels(X, 0).to_text()
            count = algorithms.triangle_count(X)
            for block in (1, 0):
                self.kill_program(self.worker_of(X, block), s.settings)
                self.assertEqual(algorithms.triangle_count(X), count)
                self.assertEqual(algorithms.bfs_levels(X, 0).to_text(), levels)
                self.assertEqual(X.to_text(), GRAPH.matrix(self.one).to_text())
            self.assertEqual(sorted(self.client.scheduler_info()['workers']), before)
            self.assertEqual(sorted(s.budgets()), before)

    def test_killed_again_and_again(self):
        """A session whose opening kills its worker, as where the system has no memory left."""
        with self.sessions(program=['sh', '-c', 'kill -9 $PPID'], blocks=1) as s:
            with self.assertRaisesRegex(blocks.BlockFailed,
                                        'block 0 of 1, rows 0 to 2: KilledWorker'):
                s.from_triples([(0, 0, 1)], 3, 3)

    def test_the_only_worker_is_lost(self):
        """Its tasks go to the one that its nanny starts, which they never wished for."""
        from distributed import Client, LocalCluster
        with tempfile.TemporaryDirectory() as folder, LocalCluster(
            n_workers=1, threads_per_worker=1, dashboard_address=None, local_directory=folder,
            silence_logs=logging.CRITICAL) as cluster, \
                Client(cluster) as client, blocks.Sessions(blocks.Dask(client)) as s:
            X = s.identity(3).wait()
            os.kill(client.run(os.getpid).popitem()[1], signal.SIGKILL)
            self.assertEqual(X.apply('identity').to_text(), self.one.identity(3).to_text())

    # -- limits and versions

    @unittest.skipIf(os.environ.get('SPMAT_CHECKED'),
                     'run-time checks reserve more addresses than any limit leaves')
    def test_little_memory(self):
        limited = ['sh', '-c', 'ulimit -v 60000; exec "$0" "$@"', support.program()]
        with self.sessions(program=limited) as s:
            A = s.from_triples([(0, 0, 1)] + [(i, j, 1) for i in range(2000, 4000)
                                              for j in range(2)], 4000, 2).recut([0, 2000, 4000])
            with self.assertRaisesRegex((spmat.OutOfMemory, blocks.BlockFailed),
                                        'block 1 of 2, rows 2000 to 3999'):
                A.mxm(s.full(2, 4000)).nvals
            self.assertEqual(A.select('rowle', 1999).nvals, 1)         # the others go on

    def test_budget(self):
        """It is one for all workers, and a job is refused before any is charged."""
        with self.sessions(steps=1000) as s:
            X = s.from_triples([(i, 0, 1) for i in range(4)] + [(9, j, 1) for j in range(300)], 10,
                               300)
            Y = X.apply('identity')
            self.assertEqual((Y.steps, s.budget()), (608, spmat.Budget(392, 0, 608)))
            with self.assertRaisesRegex(spmat.BudgetExceeded,
                                        'the price is 608, and 392 are left') as caught:
                Y.apply('identity')
            self.assertEqual((caught.exception.price, caught.exception.left,
                              caught.exception.spent_in_all), (608, 392, 608))
            few = s.from_triples([(9, j, 1) for j in range(100)], 10, 300)
            self.assertEqual((Y.apply('identity', mask=few.S).steps, s.budget()),
                             (200, spmat.Budget(192, 0, 808)))

    def test_versions(self):
        """A worker whose program is another file is refused at the start, by name, and at its first
        task where it comes later."""
        with tempfile.TemporaryDirectory() as folder:
            other = shutil.copy(support.program(), os.path.join(folder, 'spmat'))
            with open(other, 'ab') as file:
                file.write(b'\0')
            os.chmod(other, os.stat(other).st_mode | stat.S_IXUSR)
            address = sorted(self.client.scheduler_info()['workers'])[-1]
            self.client.run(use_program, other, workers=[address])
            try:
                with self.assertRaisesRegex(blocks.VersionMismatch,
                                            'different versions.*' + address):
                    blocks.Sessions(blocks.Dask(self.client))
            finally:
                self.client.run(use_program, support.program(), workers=[address])
        with self.sessions() as s:
            s.settings.__dict__['version'] = (spmat.__version__, 'another')
            with self.assertRaisesRegex(blocks.VersionMismatch, 'this worker has another version'):
                s.full(3, 3).nvals

    def test_no_workers(self):
        from distributed import Client, LocalCluster
        with LocalCluster(n_workers=0, processes=False, dashboard_address=':0') as cluster, \
                Client(cluster) as client:
            with self.assertRaisesRegex(ValueError, 'no workers yet'):
                blocks.Dask(client)
