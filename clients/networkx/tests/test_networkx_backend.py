"""spmat as a backend of networkx: what is left to networkx, sessions, imports.
The functions themselves are compared by tests/networkx/compare."""
import copy
import os
import subprocess
import sys
import unittest
from unittest import mock

import networkx
import pytest

import support
import spmat
from networkx_case import NetworkxCase
from spmat_networkx import graph, process_session
from spmat_networkx.backend import (DECLINED, NOT_DIRECTED, NOT_MULTI, SIGNED, backend,
                                    find_function, read_signature)
from spmat_networkx.backend_info import DEFAULTS, SERVED, info

pytestmark = pytest.mark.slow
DISTRIBUTION = os.path.dirname(os.path.dirname(os.path.abspath(__file__)))


def settings(**values):
    """`nx.config.backends.spmat` with other values for a while; a session of its own before and
    after."""
    return networkx.config.backends.spmat(**values)


class Left(NetworkxCase):
    """What is left to networkx, and the reason."""

    def reason(self, name, *args, **kwargs):
        return backend.reason(name, args, kwargs)

    def test_reasons(self):
        path, digraph = networkx.path_graph(4), networkx.DiGraph([(0, 1)])
        half = networkx.Graph([(0, 1, {'weight': 1.5})])
        uneven = networkx.Graph([(0, 1, {'weight': 1 / 3})])
        below = networkx.DiGraph([(0, 1, {'weight': -1})])
        hidden = networkx.Graph([(0, 1, {'weight': None})])
        large = networkx.Graph([(0, 1, {'weight': 1 << 60})])
        for words, name, args, kwargs in (
            ('is a function', 'single_source_dijkstra_path_length', (path, 0),
             {'weight': lambda u, v, d: 1}),
            ('power of ten or two', 'single_source_dijkstra_path_length', (uneven, 0), {}),
            ('below 0', 'single_source_dijkstra_path_length', (below, 0), {}),
            ('whole number', 'dijkstra_path_length', (hidden, 0, 1), {}),
            ('64 bits', 'dijkstra_path_length', (large, 0, 1), {}),
            ('cube roots', 'clustering', (path,), {'weight': 'weight'}),
            ('directed', 'square_clustering', (digraph,), {}),
            ('multigraphs', 'core_number', (networkx.MultiGraph(path),), {}),
            ('given', 'eccentricity', (path,), {'sp': {}}),
            ('another order', 'minimum_spanning_tree', (path,), {'algorithm': 'prim'}),
            ('some sources', 'betweenness_centrality', (path,), {'k': 1}),
            ('no graph', 'triangles', ({},), {})):
            with self.subTest(name=name, words=words):
                self.assertIn(words, str(self.reason(name, *args, **kwargs)))
        self.assertIsNone(self.reason('single_source_bellman_ford_path_length', below, 0))
        self.assertIsNone(self.reason('single_source_dijkstra_path_length', half, 0))
        self.assertIsNone(self.reason('single_source_dijkstra_path_length', uneven, 0, weight=None))
        self.assertIsNone(self.reason('triangles', path))
        # what it can't take networkx refuses itself
        for function, graph in ((networkx.triangles, digraph),
                                (networkx.in_degree_centrality, path)):
            with self.assertRaises(networkx.NetworkXNotImplemented):
                function(graph, backend='spmat')
        # networkx says better what is missing
        self.assertIsNone(self.reason('triangles'))

    def test_the_reason_is_told(self):
        """Where backend= asks for spmat the error says why it doesn't do it, and with a priority
        networkx does it."""
        uneven = networkx.Graph([(0, 1, {'weight': 1 / 3}), (1, 2, {'weight': 1.0})])
        for function, words in ((networkx.dijkstra_path, 'power of ten or two'),
                                (networkx.shortest_path_length, 'power of ten or two')):
            with self.assertRaises(NotImplementedError) as caught:
                function(uneven, 0, 2, weight='weight', backend='spmat')
            told = '%s %s' % (caught.exception, caught.exception.__cause__)
            self.assertIn(words, told)
            self.assertIn('scale = 1e6', told)
        with self.assertRaises(NotImplementedError) as caught:
            networkx.clustering(uneven, weight='weight', backend='spmat')
        self.assertIn('clustering is left to networkx: weights are folded by cube roots',
                      str(caught.exception.__cause__))

    def test_what_never_pays_is_networkx(self):
        """Functions that never paid are not served: networkx answers, unless spmat is asked for by
        name."""
        path = networkx.path_graph(5)
        for function, args, want in ((networkx.shortest_path, (0, 4), [0, 1, 2, 3, 4]),
                                     (networkx.has_path, (0, 4), True),
                                     (networkx.is_bipartite, (), True),
                                     (networkx.is_regular, (), False)):
            with self.subTest(function=function.__name__):
                self.assertNotIn(function.__name__, SERVED)
                with networkx.config(backend_priority=['spmat']), settings(least_edges=0):
                    self.assertEqual(function(path, *args), want)
                with networkx.config(fallback_to_nx=True):
                    # a graph on the server is converted back
                    self.assertEqual(function(graph(path), *args), want)
                with self.assertRaises(NotImplementedError):
                    function(path, *args, backend='spmat')

    def test_networkx_does_it(self):
        """With a priority, a call that is left is done by networkx; with backend= it is refused."""
        uneven = networkx.Graph([(0, 1, {'weight': 1 / 3})])
        with networkx.config(backend_priority=['spmat']), settings(least_edges=0):
            self.assertEqual(networkx.single_source_dijkstra_path_length(uneven, 0),
                             {0: 0, 1: 1 / 3})
        with self.assertRaisesRegex(NotImplementedError, 'spmat'):
            networkx.single_source_dijkstra_path_length(uneven, 0, backend='spmat')

    def test_floyd_warshall_of_a_negative_cycle(self):
        """networkx gives what its rounds leave; so it does it."""
        with self.assertRaisesRegex(NotImplementedError, 'floyd_warshall'):
            networkx.floyd_warshall(networkx.Graph([(0, 1, {'weight': -2})]), backend='spmat')
        path = networkx.DiGraph([(0, 1, {'weight': -2}), (1, 2, {'weight': 1})])
        self.assertEqual(networkx.floyd_warshall(path, backend='spmat'),
                         networkx.floyd_warshall(path, backend='networkx'))

    def test_subclass_with_another_adjacency(self):
        class Anti(networkx.Graph):
            def __getitem__(self, node):
                return {other: {} for other in set(self._adj) - set(self._adj[node]) - {node}}
        self.assertIn('adjacency', str(self.reason('is_connected', Anti(networkx.path_graph(3)))))

    def test_should_run(self):
        small = networkx.path_graph(4)
        self.assertIn('3 edges', str(backend.should_run('triangles', (small,), {})))
        self.assertIs(backend.should_run('triangles', (graph(small),), {}), True)
        with settings(least_edges=3):
            self.assertIs(backend.should_run('triangles', (small,), {}), True)
        self.assertIn('at hand', str(backend.should_run('is_tree', (networkx.path_graph(4),), {})))
        self.assertTrue(all(served.pays.again <= served.pays.first for served in SERVED.values()))
        made = networkx.gnm_random_graph(1000, 1500, seed=1)
        self.assertIn('edges', str(backend.should_run('triangles', (made,), {})))
        networkx.number_of_selfloops(made, backend='spmat')    # it is on the server from now on
        self.assertIs(backend.should_run('triangles', (made,), {}), True)
        self.assertIn('1500 edges', str(backend.should_run('is_tree', (made,), {})))

    def test_too_large(self):
        """What the server has no room for is networkx' work, and a budget's end is nobody's."""
        path = networkx.path_graph(30)
        for fault, raised in ((spmat.errors.refusal('J7'), NotImplementedError),
                              (spmat.errors.refusal('memory'), NotImplementedError),
                              (spmat.errors.refusal('S8', (5, 3)), spmat.BudgetExceeded)):
            with mock.patch('spmat.algorithms.triangles', side_effect=fault):
                with self.assertRaises(raised):
                    networkx.triangles(path, backend='spmat')

    def test_the_table_is_right(self):
        """Each module has what the table says; what is declined names functions and arguments."""
        for name, served in SERVED.items():
            place = find_function(name).__module__
            self.assertTrue(place == 'spmat_networkx.' + served.module
                            or place.startswith(served.module + '.'), (name, place))
        self.assertLessEqual(NOT_DIRECTED | NOT_MULTI | SIGNED, set(SERVED))
        for name, argument in DECLINED:
            self.assertIn(argument, read_signature(name).parameters)

    def test_names(self):
        """Each function that is named is served, is one of networkx', and has its line in the
        docstring."""
        registered = networkx.utils.backends._registered_algorithms
        self.assertLessEqual(set(SERVED), set(registered))
        self.assertEqual(set(SERVED), {name for name in registered if hasattr(backend, name)})
        self.assertIn('spmat', networkx.triangles.__doc__)
        self.assertEqual(set(info()['default_config']), set(DEFAULTS))
        self.assertEqual({name: getattr(networkx.config.backends.spmat, name) for name in DEFAULTS},
                         DEFAULTS)


class Sessions(NetworkxCase):
    def setUp(self):
        super().setUp()
        process_session.close()

    def test_one(self):
        first = process_session.session()
        networkx.triangles(networkx.path_graph(4), backend='spmat')
        self.assertIs(process_session.session(), first)

    def test_settings(self):
        """Each change of the settings is another session; its budget is what they say."""
        with settings(steps=12345, workers=2):
            held = process_session.session()
            self.assertEqual(held.budget().left, 12345)
        self.assertIsNot(process_session.session(), held)
        self.assertIsNotNone(held.connection.ended)

    def test_budget(self):
        """A budget that is used up isn't networkx' work: a notebook that is not to hang doesn't."""
        many = networkx.complete_graph(12)
        with settings(steps=40), self.assertRaises(spmat.BudgetExceeded) as caught:
            networkx.triangles(many, backend='spmat')
        self.assertEqual((caught.exception.algorithm, caught.exception.left), ('triangles', 40))
        self.assertIn('a greater nx.config.backends.spmat.steps opens another session',
                      str(caught.exception))
        self.assertNotIn('adopt', str(caught.exception))

    def test_missing_attributes(self):
        """What networkx graphs have and one on the server hasn't is said to be with the former."""
        held = graph(networkx.cycle_graph(5))
        for name in ('edges', 'degree', 'subgraph'):
            with self.assertRaisesRegex(AttributeError, "'%s' is with the networkx graph" % name):
                getattr(held, name)
        with self.assertRaisesRegex(AttributeError, "'SpmatGraph' object has no attribute 'edgs'"):
            getattr(held, 'edgs')
        self.assertEqual(networkx.triangles(copy.deepcopy(held)), networkx.triangles(held))

    def test_dead_child(self):
        """Where the program dies, between calls or amid one, another is started."""
        ring = networkx.cycle_graph(5)
        held = graph(ring)
        want = networkx.triangles(held)
        process = process_session.session().connection._channel.process
        process.kill()
        process.wait()
        self.assertEqual(networkx.triangles(held), want)
        process_session.session().connection._channel.process.kill()
        self.assertEqual(networkx.triangles(held), want)

    @unittest.skipUnless(hasattr(os, 'fork'), 'no fork')
    def test_fork(self):
        """A process that is forked off has a session of its own, and the parent's goes on."""
        held = graph(networkx.complete_graph(4))
        networkx.triangles(held)
        first = process_session.session()
        child = os.fork()
        if child == 0:
            try:
                good = networkx.triangles(held)[0] == 3 and process_session.session() is not first
                process_session.close()
            finally:
                os._exit(0 if good else 1)
        self.assertEqual(os.waitpid(child, 0)[1], 0)
        self.assertIs(process_session.session(), first)
        self.assertEqual(networkx.triangles(held)[0], 3)

    def test_server(self):
        """`connect` is a server's address."""
        with support.Relay() as relay, settings(connect='127.0.0.1:%d' % relay.port):
            self.assertEqual(networkx.triangles(networkx.complete_graph(3), backend='spmat'),
                             {0: 1, 1: 1, 2: 1})
            process_session.close()


class Imports(NetworkxCase):
    def run_python(self, code):
        env = {**os.environ, 'PYTHONPATH': os.pathsep.join(sys.path)}
        return subprocess.run([sys.executable, '-c', code], env=env, stdout=subprocess.PIPE,
                              stderr=subprocess.PIPE, text=True)

    def test_nothing_before_it_is_asked(self):
        """networkx' import brings what names the functions, and nothing else of spmat."""
        ran = self.run_python('import sys, networkx; print(sorted(name for name in sys.modules if '
                              'name.startswith("spmat")))')
        self.assertEqual(ran.stdout, "['spmat_networkx', 'spmat_networkx.backend_info']\n",
                         ran.stderr)

    def test_quiet_end(self):
        """A process that ends with a session open says nothing."""
        ran = self.run_python(
            'import networkx as nx; print(nx.triangles(nx.complete_graph(3), backend="spmat"))')
        self.assertEqual((ran.stdout, ran.stderr, ran.returncode), ('{0: 1, 1: 1, 2: 1}\n', '', 0))

    def test_entry_points(self):
        """What a PYTHONPATH finds is what an installation has."""
        wanted = {}
        with open(os.path.join(DISTRIBUTION, 'spmat_networkx.dist-info', 'entry_points.txt')) as file:
            for line in file:
                if line.startswith('['):
                    group = line.strip()[1:-1]
                elif '=' in line:
                    wanted[group] = tuple(part.strip() for part in line.split('='))
        with open(os.path.join(DISTRIBUTION, 'pyproject.toml')) as file:
            text = file.read()
        for group, (name, place) in wanted.items():
            self.assertIn('[project.entry-points."%s"]\n%s = "%s"\n' % (group, name, place), text)
