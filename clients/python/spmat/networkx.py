"""The old name of `spmat_networkx`, the backend of networkx, which is a distribution of its own."""
import sys

from .extras import import_extra

sys.modules[__name__] = import_extra('spmat_networkx', 'spmat.networkx')
