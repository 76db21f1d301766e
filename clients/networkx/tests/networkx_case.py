"""What the tests of networkx' backend share. Modules that import this are skipped where networkx is
older than 3.3, which has no settings, or doesn't find the backend."""
import unittest
import warnings

import support  # noqa: F401  # finds the program

try:
    import networkx
    from networkx.utils.backends import backends
    FOUND = 'spmat' in backends and hasattr(networkx, 'config')
except ImportError:
    FOUND = False
if not FOUND:
    raise unittest.SkipTest('no networkx 3.3 or above that finds the backend')

from spmat_networkx import process_session


class NetworkxCase(unittest.TestCase):
    """Tests without what networkx says of its cache, that leave no session."""

    def setUp(self):
        caught = warnings.catch_warnings()
        caught.__enter__()
        self.addCleanup(caught.__exit__, None, None, None)
        warnings.simplefilter('ignore')

    @classmethod
    def tearDownClass(cls):
        process_session.close()
