"""Shortest paths from one node or some: their lengths, which the server finds, and their nodes. The
client walks along the edges that are as long as their ends are apart, in networkx' order, so that
of equal paths it takes those that networkx takes."""
from __future__ import annotations

# networkx calls these by the names of its own arguments
# pylint: disable=missing-function-docstring

import heapq
import itertools
import math
from typing import Any, Dict, Iterator, List, NamedTuple, Optional, Sequence, Set, Tuple

import numpy
from networkx import NetworkXNoPath, NetworkXUnbounded, NodeNotFound

from spmat import Matrix, algorithms, fixpoint
from spmat.errors import NotSettled

from .backend import find_original
from .edge_weights import scale_cutoff, unscale
from .spmat_graph import SpmatGraph

NEGATIVE = 'Negative cycle detected.'
Lengths = Dict[Any, Any]
Paths = Dict[Any, List[Any]]


class Query(NamedTuple):
    """Lengths by edges or by an attribute; how far; to one node alone; against the edges."""
    weight: Any = None
    cutoff: Any = None
    target: Any = None
    back: bool = False


def by_weights(weight: Any, cutoff: Any) -> Query:
    """A search that keeps lengths up to a cutoff. Counted in edges these are whole, and searches by
    edges round their depth up, so it is rounded down here."""
    if weight is None and cutoff is not None and not math.isinf(cutoff):
        cutoff = math.floor(cutoff)
    return Query(weight, cutoff)


def need(G: SpmatGraph, node: Any, said: str = 'Node %s not found in graph') -> None:
    if node not in G:
        raise NodeNotFound(said % (node,))


def need_some(G: SpmatGraph, sources: Any) -> None:
    """Refuse no source, and one that is no node."""
    if not sources:
        raise ValueError('sources must not be empty')
    for source in sources:
        need(G, source)


def unit_of(G: SpmatGraph, weight: Any) -> Optional[int]:
    """How many units of lengths are 1; None if lengths are whole."""
    return None if weight is None else G.values(weight).unit


def scaled(found: Lengths, unit: Optional[int]) -> Lengths:
    """Lengths in whole units as networkx has them."""
    return found if unit is None else {node: length / unit for node, length in found.items()}


# -- lengths

def measure(G: SpmatGraph, sources: Sequence[Any], query: Query) -> Tuple[Any, Any]:
    """The indices of the nodes that are reached, ascending, and how far they are, in whole units;
    as arrays. NetworkXUnbounded for a cycle of negative length."""
    at = [G.index[source] for source in sources]
    until = None if query.target is None else G.index[query.target]
    if query.weight is None:
        is_far = query.cutoff is None or math.isinf(query.cutoff)
        column = algorithms.bfs_levels(G.matrix(back=query.back), at, G.both, target=until,
                                       depth=None if is_far else max(0, math.ceil(query.cutoff)),
                                       check=False)
        rows, _, far = column.entries(arrays=True)
        return rows, far
    rows, _, far = _measure_by_weights(G, at, query, until).entries(arrays=True)
    if query.cutoff is not None:
        is_near = far <= scale_cutoff(query.cutoff, unit_of(G, query.weight))
        is_near |= numpy.isin(rows, at)
        rows, far = rows[is_near], far[is_near]
    return rows, far


def _measure_by_weights(G: SpmatGraph, at: List[int], query: Query, until: Optional[int]) -> Matrix:
    try:
        if len(at) > 1:
            return _relax(G, query, G.spots(map(G.nodes.__getitem__, at), 0))
        W = G.matrix(query.weight, back=query.back)
        return algorithms.sssp(W, at[0], None if G.is_directed() else W, target=until)
    except (NotSettled, ValueError):
        raise NetworkXUnbounded(NEGATIVE) from None


def _relax(G: SpmatGraph, query: Query, start: Matrix) -> Matrix:
    """Lengths from all entries of a column, in rounds over all edges (Bellman and Ford)."""
    near = G.matrix(query.weight, back=not query.back)
    near = near.ewise_add(near.session.identity(len(G), 0), 'min')
    return fixpoint(start, lambda far: near.mxv(far, 'min_plus'))


def lengths(G: SpmatGraph, sources: Sequence[Any], query: Query) -> Lengths:
    """{node: the length of the shortest path} from some nodes, nearest first."""
    rows, far = measure(G, sources, query)
    order = far.argsort(kind='stable')
    nearest_first = dict(zip(map(G.nodes.__getitem__, rows[order].tolist()), far[order].tolist()))
    return scaled(nearest_first, unit_of(G, query.weight))


def length_to(G: SpmatGraph, source: Any, target: Any, query: Query) -> Optional[Any]:
    """The length of the shortest path between two nodes, None if no path leads."""
    rows, far = measure(G, [source], query._replace(target=target))
    found = far[rows == G.index[target]].tolist()
    return unscale(found[0], unit_of(G, query.weight)) if found else None


def single_source_shortest_path_length(G: SpmatGraph, source: Any, cutoff: Any) -> Lengths:
    need(G, source, 'Source %s is not in G')
    return lengths(G, [source], Query(cutoff=cutoff))


def single_target_shortest_path_length(G: SpmatGraph, target: Any, cutoff: Any) -> Lengths:
    need(G, target, 'Target %s is not in G')
    return lengths(G, [target], Query(cutoff=cutoff, back=True))


def multi_source_dijkstra_path_length(G: SpmatGraph, sources: Any, cutoff: Any,
                                      weight: Any) -> Lengths:
    need_some(G, sources)
    return lengths(G, list(sources), by_weights(weight, cutoff))


def single_source_bellman_ford_path_length(G: SpmatGraph, source: Any, weight: Any) -> Lengths:
    need(G, source, 'Source %s not in G')
    return lengths(G, [source], Query(weight))


def _length_between(G: SpmatGraph, source: Any, target: Any, query: Query, said: str) -> Any:
    """The length of the shortest path from a node that is there. NetworkXNoPath without one."""
    if source == target:
        return 0
    far = length_to(G, source, target, query) if target in G else None
    if far is None:
        raise NetworkXNoPath(said % (target, source))
    return far


def dijkstra_path_length(G: SpmatGraph, source: Any, target: Any, weight: Any) -> Any:
    need(G, source)
    return _length_between(G, source, target, Query(weight), 'Node %s not reachable from %s')


def bellman_ford_path_length(G: SpmatGraph, source: Any, target: Any, weight: Any) -> Any:
    need(G, source, 'Source %s not in G')
    return _length_between(G, source, target, Query(weight), 'node %s not reachable from %s')


def negative_edge_cycle(G: SpmatGraph, weight: Any) -> bool:
    if not len(G.rows) or weight is None or G.values(weight).least >= 0:
        return False
    try:
        _relax(G, Query(weight), G.column(0))
    except NotSettled:
        return True
    return False


# -- paths

class SearchTree(NamedTuple):
    """What a search finds, by index: the nodes in the order in which they are found, with their
    lengths. Before each one stand all nodes that a shortest path comes by, in the order in which
    these were found."""
    G: SpmatGraph
    starts: Set[int]
    far: Dict[int, int]
    before: Dict[int, List[int]]
    unit: Optional[int]

    def name_lengths(self) -> Lengths:
        """{node: length}."""
        return scaled({self.G.nodes[at]: far for at, far in self.far.items()}, self.unit)

    def name_predecessors(self) -> Dict[Any, List[Any]]:
        """{node: the nodes before it}."""
        nodes = self.G.nodes
        return {nodes[at]: [nodes[i] for i in self.before[at]] for at in self.far}

    def list_paths(self, back: bool = False) -> Paths:
        """{node: path} from the nearest source; to it if `back` is set."""
        nodes, paths = self.G.nodes, {}  # type: Any, Dict[int, List[Any]]
        for at in self.far:
            rest = [] if at in self.starts else paths[self.before[at][0]]
            paths[at] = [nodes[at], *rest] if back else [*rest, nodes[at]]
        return {nodes[at]: path for at, path in paths.items()}

    def reach(self, target: Any, said: str) -> Tuple[Any, List[Any]]:
        """The length and the nodes of a shortest path to a node. NetworkXNoPath in these words if
        there is none."""
        at = self.G.index[target] if target in self.G else -1
        if at not in self.far:
            raise NetworkXNoPath(said)
        walked = [at]
        while walked[-1] not in self.starts:
            walked.append(self.before[walked[-1]][0])
        return unscale(self.far[at], self.unit), [self.G.nodes[i] for i in reversed(walked)]


def search(G: SpmatGraph, sources: Sequence[Any], query: Query,
           is_signed: bool = False) -> SearchTree:
    """Search from some nodes, in the order of Dijkstra's search, or if weights may be negative of
    Bellman and Ford's. NetworkXUnbounded for a cycle of negative length."""
    if query.target is not None and (query.target not in G or len(sources) > 1):
        query = query._replace(target=None)
    rows, values = measure(G, sources, query)
    far = dict(zip(rows.tolist(), values.tolist()))
    starts = [G.index[source] for source in sources]
    near = _find_tight_edges(G, rows, values, query)
    order: Dict[int, int] = {}
    before: Dict[int, List[int]] = {at: [] for at in starts}
    seen = set(starts)
    number = itertools.count()
    heap = [(0, next(number), at) for at in starts]
    while heap:
        at = heapq.heappop(heap)[2]
        order[at] = far[at]
        for to in near.get(at, ()):
            before.setdefault(to, []).append(at)
            if to not in seen:
                seen.add(to)
                # the one goes by lengths, the other by edges
                heapq.heappush(heap, (0 if is_signed else far[to], next(number), to))
    return SearchTree(G, set(starts), order, before, unit_of(G, query.weight))


def _find_tight_edges(G: SpmatGraph, at: Any, far: Any, query: Query) -> Dict[int, List[int]]:
    """For each node that was found those that edges lead to which are as long as their ends are
    apart, in the graph's order."""
    is_turned = query.back and G.is_directed()
    rows, columns = (G.columns, G.rows) if is_turned else (G.rows, G.columns)
    length, is_known = numpy.zeros(len(G), numpy.int64), numpy.zeros(len(G), bool)
    length[at], is_known[at] = far, True
    weights = 1 if query.weight is None else G.values(query.weight).many
    tight = is_known[rows] & is_known[columns] & (length[rows] + weights == length[columns])
    near: Dict[int, List[int]] = {}
    for i, j in zip(rows[tight].tolist(), columns[tight].tolist()):
        near.setdefault(i, []).append(j)
    return near


def single_source_shortest_path(G: SpmatGraph, source: Any, cutoff: Any) -> Paths:
    need(G, source, 'Source %s not in G')
    return search(G, [source], Query(cutoff=cutoff)).list_paths()


def single_target_shortest_path(G: SpmatGraph, target: Any, cutoff: Any) -> Paths:
    need(G, target, 'Target %s not in G')
    return search(G, [target], Query(cutoff=cutoff, back=True)).list_paths(back=True)


def predecessor(G: SpmatGraph, source: Any, target: Any, cutoff: Any, return_seen: Any) -> Any:
    need(G, source, 'Source %s not in G')
    found = search(G, [source], Query(cutoff=max(1, cutoff) if cutoff else None))
    before, seen = found.name_predecessors(), found.name_lengths()
    if target is None:
        return (before, seen) if return_seen else before
    return (before.get(target, []), seen.get(target, -1)) if return_seen else before.get(target, [])


def multi_source_dijkstra(G: SpmatGraph, sources: Any, target: Any, cutoff: Any,
                          weight: Any) -> Any:
    need_some(G, sources)
    if target in sources:
        return 0, [target]
    found = search(G, list(sources), by_weights(weight, cutoff)._replace(target=target))
    if target is None:
        return found.name_lengths(), found.list_paths()
    return found.reach(target, 'No path to %s.' % (target,))


def dijkstra_predecessor_and_distance(G: SpmatGraph, source: Any, cutoff: Any, weight: Any) -> Any:
    need(G, source, 'Node %s is not found in the graph')
    found = search(G, [source], by_weights(weight, cutoff))
    return found.name_predecessors(), found.name_lengths()


def single_source_bellman_ford(G: SpmatGraph, source: Any, target: Any, weight: Any) -> Any:
    need(G, source, 'Node %s is not found in the graph' if source == target
         else 'Source %s not in G')
    if source == target:
        return 0, [source]
    said = 'Node %s not reachable from %s' % (target, source)
    if target is not None and target not in G:
        raise NetworkXNoPath(said)
    found = search(G, [source], Query(weight, target=target), True)
    if target is not None:
        return found.reach(target, said)
    return found.name_lengths(), found.list_paths()


def bellman_ford_predecessor_and_distance(G: SpmatGraph, source: Any, weight: Any) -> Any:
    need(G, source, 'Node %s is not found in the graph')
    # an edge of negative length from a node to itself, wherever it is
    if weight is not None and (G.values(weight).many[G.rows == G.columns] < 0).any():
        raise NetworkXUnbounded(NEGATIVE)
    # of which networkx reads no edge, not even one of length 0
    if len(G) == 1:
        return {source: []}, {source: 0}
    found = search(G, [source], Query(weight), True)
    return found.name_predecessors(), found.name_lengths()


def all_shortest_paths(G: SpmatGraph, source: Any, target: Any, weight: Any,
                       method: str) -> Iterator[List[Any]]:
    # networkx goes along the nodes before each, and asks here for these
    yield from find_original('all_shortest_paths')(G, source, target, weight, method)
