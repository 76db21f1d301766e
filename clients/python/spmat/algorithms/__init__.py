"""Graph algorithms, in LAGraph's names.

A graph is a square Matrix: an entry (i, j) is an edge from vertex i to vertex j. Vertices count
from 0, or have the names that the matrix carries. An undirected graph has both (i, j) and (j, i);
`undirected` makes one of any graph. A result with a value for each vertex is a column, whose
`to_list()` has the values and `by_node()` the values by name.

Each docstring has a line on the cost. A *step* is one instruction of an operator, and the budget
pays for steps; a *run* is a round trip to the server. `spmat.price(lambda: pagerank(G))` tells what
a call on your graph costs.

Searches, cores and components keep a number for each vertex at the client. They ask the server only
for the edges of the vertices that changed. So a round costs what these edges cost. While many
vertices change at a time, the server does it all.

Of a graph of up to 65,536 edges the client reads the edges once, and keeps them. Cores, strong
components and forests ask the server for nothing else. Nor do searches, `degrees` and `modularity`,
if the budget is above 2^56 steps, as by default.

If the values of a graph have a unit, lengths of paths and spanning forests have it too; levels,
counts and shares have none.

Each algorithm checks once that the graph is of the right kind, by a job or two, and keeps the
answer with the matrix. A ValueError says what to do; `check=False` leaves the check out.
"""
# each file names its own algorithms
# pylint: disable=wildcard-import,unused-wildcard-import

from typing import TYPE_CHECKING, NoReturn

from ..unsupported_syntax import ALGORITHMS as FOREIGN_NAMES, missing_attribute
from .centralities import *
from .communities import *
from .components import *
from .distances import *
from .neighbours import *
from .registry import ALGORITHMS, table
from .results import *
from .searches import *
from .utils import *

TYPES = ('Bounds', 'Centrality', 'Communities', 'CycleError', 'NoPath', 'Path', 'PathTree',
         'Progress')
__all__ = sorted([*TYPES, *ALGORITHMS], key=str.lower)
__doc__ = '%s\n%s\n' % (__doc__, '\n'.join(table()))


if not TYPE_CHECKING:                              # which knows all names that there are
    def __getattr__(name: str) -> NoReturn:
        raise missing_attribute('module %r' % __name__, name, FOREIGN_NAMES)


def __dir__() -> list[str]:
    """What is offered after a dot: the algorithms, and not the modules that they stand in."""
    return sorted(__all__)
