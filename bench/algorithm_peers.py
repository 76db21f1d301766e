"""What an analyst would take in place of spmat, by the same names of tasks. `found_peers` says
which libraries are installed."""
from __future__ import annotations

import importlib
import importlib.util
from typing import Any, Callable, Dict, List, Tuple, Type

from algorithm_graphs import Asked, Edges

# By name: the module that has to be installed, and where the peer stands.
PEERS = {'scipy': ('scipy', 'scipy_peer'), 'igraph': ('igraph', 'igraph_peer'),
         'networkx': ('networkx', 'networkx_peer'),
         'graphblas': ('suitesparse_graphblas', 'graphblas_peer')}


class Peer:
    """A library with a graph loaded."""
    name = ''

    def __init__(self, edges: Edges, asked: Asked) -> None:
        self.edges, self.asked = edges, asked
        self.load()

    def load(self) -> None:
        """Makes the library's own graph; its time isn't counted."""

    def calls(self) -> Dict[str, Callable[[], Any]]:
        """What is called for each task that the library has."""
        return {}


def found_peers() -> Tuple[List[Type[Peer]], List[str]]:
    """Those that are installed, and the names of the others."""
    kinds: List[Type[Peer]] = []
    missing: List[str] = []
    for name, (wanted, module) in PEERS.items():
        if importlib.util.find_spec(wanted) is None:
            missing.append(name)
        else:
            kinds.append(getattr(importlib.import_module(module), name.capitalize()))
    return kinds, missing
