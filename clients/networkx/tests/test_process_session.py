"""What networkx is told where spmat can't run, and what its settings take."""
import contextlib
import pickle
import warnings
from unittest import mock

import networkx

import spmat
from networkx_case import NetworkxCase
from spmat_networkx import graph, process_session
from spmat_networkx.backend_info import DEFAULTS

NO_SESSION = ({'program': '/no/such/program'}, {'program': ['/no/such/program', 'run']},
              {'program': '/bin/true'}, {'program': '/bin/echo hello'},
              {'connect': '127.0.0.1:9'}, {'connect': '/no/such.sock'})
CAUSES = ('/no/such/program', '/no/such/program', 'status 0', 'none of spmat', 'Connection refused',
          'No such file')


@contextlib.contextmanager
def settings(**values):
    """Other settings for a while, and a process that wasn't told of anything yet."""
    with networkx.config.backends.spmat(**values), \
            mock.patch.object(process_session.Warned, 'is_told', False), \
            mock.patch.object(process_session.Warned, 'last', None):
        yield


class Case(NetworkxCase):
    def setUp(self):
        super().setUp()
        process_session.close()
        self.addCleanup(process_session.close)
        self.graph = networkx.complete_graph(4)


class NoSession(Case):
    def test_backend(self):
        """Where spmat is asked for and can't run, the cause is raised."""
        for values, words in zip(NO_SESSION, CAUSES):
            with self.subTest(**values), settings(**values), \
                    self.assertRaisesRegex(RuntimeError, words) as caught:
                networkx.triangles(self.graph, backend='spmat')
            self.assertIsInstance(caught.exception, process_session.NoSession)
            self.assertIsNotNone(caught.exception.__cause__)

    def test_on_server(self):
        """A graph that was handed to spmat isn't computed elsewhere."""
        held = graph(self.graph)
        with settings(program='/no/such/program'), \
                self.assertRaisesRegex(RuntimeError, '/no/such/program'):
            networkx.triangles(held)

    def test_priority(self):
        """With priority networkx does the work, and a process is told once."""
        for values, words in zip(NO_SESSION, CAUSES):
            with self.subTest(**values), settings(least_edges=0, **values), \
                    networkx.config(backend_priority=['spmat']), \
                    warnings.catch_warnings(record=True) as told:
                warnings.simplefilter('always')
                for _ in range(3):
                    self.assertEqual(networkx.triangles(self.graph), dict.fromkeys(range(4), 3))
                self.assertEqual([warning.category for warning in told], [RuntimeWarning])
                self.assertIn(words, str(told[0].message))
                self.assertIn('networkx does the work', str(told[0].message))

    def test_tried_again(self):
        """A failure isn't tried again at once, and is when settings change, or some time has
        passed."""
        with networkx.config(backend_priority=['spmat']), warnings.catch_warnings(), \
                mock.patch.object(process_session, '_open_session',
                                  side_effect=FileNotFoundError('gone')) as opened:
            warnings.simplefilter('ignore')
            with settings(least_edges=0):
                for _ in range(3):
                    networkx.triangles(self.graph)
                self.assertEqual(opened.call_count, 1)
                with networkx.config.backends.spmat(workers=1):
                    networkx.triangles(self.graph)
                self.assertEqual(opened.call_count, 2)
                process_session.Warned.last = process_session.Warned.last._replace(
                    when=-2 * process_session.SECONDS)
                networkx.triangles(self.graph)
                self.assertEqual(opened.call_count, 3)

    def test_dies_twice(self):
        """A program that dies amid a call, and so does the next: with priority networkx does it."""
        gone = spmat.errors.Closed('the program ended with status 9')
        with mock.patch('spmat.algorithms.triangles', side_effect=gone):
            with settings(), self.assertRaisesRegex(RuntimeError, 'status 9'):
                networkx.triangles(self.graph, backend='spmat')
            with settings(least_edges=0), networkx.config(backend_priority=['spmat']), \
                    self.assertWarnsRegex(RuntimeWarning, 'status 9'):
                self.assertEqual(networkx.triangles(self.graph), dict.fromkeys(range(4), 3))

    def test_full_server(self):
        """A server without a seat is no session either."""
        busy = spmat.errors.refusal('busy')
        with settings(), mock.patch.object(process_session, '_open_session', side_effect=busy), \
                self.assertRaisesRegex(RuntimeError, 'as many sessions'):
            networkx.triangles(self.graph, backend='spmat')


class Settings(Case):
    def test_refused(self):
        """What can be no setting is refused where it is set, and nothing changes."""
        held = networkx.config.backends.spmat
        for name, values in (('steps', ('many', 1.5, -1, 1 << 63, None)),
                             ('workers', ('two', 65, -1)), ('least_edges', ('x', -2, 0.5)),
                             ('connect', ('foo', 123, 'host:', 'host:0', 'host:65536', None)),
                             ('program', (5, None, [], ['a', 1]))):
            for value in values:
                with self.subTest(name=name, value=value):
                    with self.assertRaisesRegex(ValueError, name):
                        held(**{name: value})
                    with self.assertRaisesRegex(ValueError, name):
                        setattr(held, name, value)
                    self.assertEqual(getattr(held, name), DEFAULTS[name])

    def test_taken(self):
        """Numbers are also taken as the command line takes them."""
        for name, value, kept in (('steps', '1e9', 10 ** 9), ('steps', 1e9, 10 ** 9),
                                  ('workers', '2', 2), ('least_edges', '0', 0),
                                  ('connect', 'localhost:7171', 'localhost:7171'),
                                  ('connect', ':7171', ':7171'), ('connect', '/run/s', '/run/s'),
                                  ('program', ['a', 'b'], ('a', 'b')), ('program', 'a b', 'a b')):
            with self.subTest(name=name, value=value), \
                    networkx.config.backends.spmat(**{name: value}) as held:
                self.assertEqual(getattr(held, name), kept)
        self.assertEqual({name: getattr(held, name) for name in DEFAULTS}, DEFAULTS)

    def test_used(self):
        with networkx.config.backends.spmat(steps='1e6'):
            self.assertEqual(process_session.session().budget().left, 10 ** 6)

    def test_pickle(self):
        held = networkx.config.backends.spmat
        self.assertEqual(pickle.loads(pickle.dumps(held)), held)
