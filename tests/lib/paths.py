"""Where things are, each once for what is in tests/ and bench/; clients/python/tests has its own,
as it also runs elsewhere."""
import glob
import os
from typing import Dict

TOP = os.path.dirname(os.path.dirname(os.path.dirname(os.path.abspath(__file__))))
CASES = os.path.join(TOP, 'tests', 'cases')
CLIENT = os.path.join(TOP, 'clients', 'python')
CLIENT_TESTS = os.path.join(CLIENT, 'tests')
BLOCKS = os.path.join(TOP, 'clients', 'blocks')
NETWORKX = os.path.join(TOP, 'clients', 'networkx')
# the folders of the distributions of Python packages, the client's first; each has its tests
DISTRIBUTIONS = (CLIENT, BLOCKS, NETWORKX)
# the PYTHONPATH by which a checkout has what is installed
PYTHON_PATH = os.pathsep.join(DISTRIBUTIONS)
PROGRAM = os.path.join(TOP, 'crates', 'spmat', 'out', 'spmat')
LIBRARY = os.path.join(TOP, 'crates', 'spmat_lib', 'out', 'libspmat.so')
PLAIN_SERVER = os.path.join(TOP, 'reference', '__main__.py')


def client_test_modules(folder: str = CLIENT) -> Dict[str, str]:
    """The paths of the modules of the tests of a distribution, by their names, which are unique
    over all folders."""
    paths = glob.glob(os.path.join(folder, 'tests', '**', 'test_*.py'), recursive=True)
    return {os.path.basename(path)[:-3]: path for path in sorted(paths)}
