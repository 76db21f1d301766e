"""bench/algorithms.py: it has a task for each algorithm of the client, and what it times is
right."""
import inspect
import os
import re
import subprocess
import sys
import unittest
from unittest import mock

import pytest

import support
from spmat import algorithms

pytestmark = pytest.mark.slow

BENCH = os.path.join(support.TOP, 'bench')
if os.path.isdir(BENCH):
    # for these two alone: it also has a module `networkx`
    with mock.patch.object(sys, 'path', [*sys.path, BENCH]):
        import algorithm_graphs
        import algorithm_tasks
NAMES = [name for name in algorithms.__all__ if inspect.isfunction(getattr(algorithms, name))]


@unittest.skipUnless(os.path.isdir(BENCH), 'bench/ is not beside the client')
class Tasks(unittest.TestCase):
    def test_each_algorithm_has_one(self):
        self.assertEqual(set(map(algorithm_tasks.algorithm_of, algorithm_tasks.TASKS)), set(NAMES))

    def test_one_that_is_made_of_the_decorator(self):
        """It gives what the task by hand does, of each algorithm that has such a one."""
        edges = algorithm_graphs.edges_of('urand', 3)
        asked, n = algorithm_graphs.asked_of(edges), edges.vertices
        with support.spmat.Session() as s:
            ours = algorithm_tasks.Ours(*(s.from_coo(edges.i, edges.j, values, n, n)
                                          for values in (1, edges.w)), asked, False)
            for name in ('bfs_levels', 'sssp', 'degrees', 'triangle_count', 'shared_neighbours'):
                by_hand = next(task for task in algorithm_tasks.BY_HAND if task.name == name)
                made = algorithm_tasks.made_task(name)
                self.assertTrue(by_hand.same(made.call(ours), by_hand.call(ours)), name)
                self.assertLessEqual(set(by_hand.graphs), set(made.graphs), name)

    def test_answers_are_those_of_the_peers(self):
        """Once through all tasks, on graphs of 64 vertices; status 1 were an answer that
        differs."""
        words = [sys.executable, os.path.join(BENCH, 'algorithms.py'), os.environ['SPMAT'],
                 '--scale', '6', '--sizes', '1', '--rounds', '0']
        done = subprocess.run(words, stdout=subprocess.PIPE, stderr=subprocess.PIPE, text=True,
                              check=False)
        self.assertEqual(done.returncode, 0, done.stderr)
        table, figures = done.stdout.split('\n\nWhole algorithms, 4 workers, seconds')
        measured = {line.split(' | ')[1] for line in figures.splitlines() if line.startswith('| ')
                    and ' vertices, ' in line}
        said = {line.split(' | ')[0][2:].replace('`', '') for line in table.splitlines()[4:]}
        self.assertEqual(measured, said)
        self.assertEqual({name for name in NAMES
                          if not any(re.match(r'%s\b' % name, task) for task in said)}, set())
