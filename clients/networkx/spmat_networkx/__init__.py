"""spmat as a backend of networkx (3.2 or above): `nx.triangles(G, backend="spmat")`.

networkx finds it by the entry points `networkx.backend_info` and `networkx.backends`, and asks for
the first when it is imported. Nothing of spmat is imported before a function is called with this
backend. docs/networkx.md has the functions, what is left to networkx, and what it takes.

`nx.config.backends.spmat` has the settings of the one session that a process has: `program`,
`connect`, `steps`, `workers`, and `least_edges`. `spmat_networkx.graph(G)` is G on the server, to
be handed to networkx' functions in its place. `graph(G).matrix()` is its adjacency matrix, for
operators of one's own, and `session()` is the session."""
from __future__ import annotations

import importlib
import os
from typing import TYPE_CHECKING, Any

if TYPE_CHECKING:
    from .process_session import session
    from .spmat_graph import SpmatGraph, graph


def _read_version() -> str:
    with open(os.path.join(os.path.dirname(os.path.abspath(__file__)), 'VERSION'),
              encoding='ascii') as file:
        return file.read().strip()


__version__ = _read_version()
__all__ = ['SpmatGraph', 'graph', 'session']
_PLACES = {'SpmatGraph': 'spmat_graph', 'graph': 'spmat_graph', 'session': 'process_session'}
OLDEST = (3, 2)                                    # the oldest networkx that dispatches


def __getattr__(name: str) -> Any:
    if name not in _PLACES:
        raise AttributeError('module %r has no attribute %r' % (__name__, name))
    _check_networkx()
    return getattr(importlib.import_module('.' + _PLACES[name], __name__), name)


def _check_networkx() -> None:
    """ImportError if the networkx that is installed is too old to have backends."""
    import networkx
    if tuple(map(int, networkx.__version__.split('.')[:2])) < OLDEST:
        raise ImportError('expected networkx 3.2 or newer, which dispatches to backends, got %s: '
                          'pip install "networkx>=3.2"' % networkx.__version__)
