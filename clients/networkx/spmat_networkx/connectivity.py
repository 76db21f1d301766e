"""Degrees; components, weak and strong, and what a node reaches; trees; graphs without cycles, and
closures."""
from __future__ import annotations

# networkx calls these by the names of its own arguments
# pylint: disable=missing-function-docstring

from typing import Any, Dict, Iterator, List, Set, Tuple

import networkx as nx
import numpy
from networkx import NetworkXError, NetworkXPointlessConcept, NetworkXUnfeasible

from spmat import Matrix, algorithms

from .edge_weights import unscale
from .process_session import session
from .spmat_graph import SpmatGraph

UNFEASIBLE = 'Graph contains a cycle or graph changed during iteration'


def need_nodes(G: SpmatGraph, said: str = 'Connectivity is undefined for the null graph.') -> None:
    if not len(G):
        raise NetworkXPointlessConcept(said)


def choose_nodes(G: SpmatGraph, nodes: Any, values: List[Any]) -> Any:
    """Values by index as networkx gives them: of one node, of some, or of all."""
    if nodes is None:
        return dict(zip(G, values))
    if nodes in G:
        return values[G.index[nodes]]
    return {node: values[G.index[node]] for node in G.nbunch_iter(nodes)}


# -- degrees

def count_edges(G: SpmatGraph, side: str = 'in+out') -> List[int]:
    """The edges at each node, by index: those that come 'in', those that lead 'out', or both. Of an
    undirected graph all are the same, and loops count twice."""
    both = (G.rows, G.columns) if G.is_directed() else (G.rows,)
    sides = {'out': (G.rows,), 'in': (G.columns,), 'in+out': both}[side]
    # numbers of parallel edges are added up as floats, which hold them exactly
    counted = [numpy.bincount(ends, G.counts, len(G)) for ends in sides]
    degrees: List[int] = numpy.sum(counted, axis=0).astype(numpy.int64).tolist()
    if not G.is_directed():
        for i, many in G.loops.items():
            degrees[i] += many
    return degrees


def _share(G: SpmatGraph, degrees: List[int]) -> Dict[Any, Any]:
    if len(G) <= 1:
        return {node: 1 for node in G}
    share = 1.0 / (len(G) - 1.0)
    return dict(zip(G, [d * share for d in degrees]))


def degree_centrality(G: SpmatGraph) -> Dict[Any, Any]:
    return _share(G, count_edges(G))


def in_degree_centrality(G: SpmatGraph) -> Dict[Any, Any]:
    return _share(G, count_edges(G, 'in'))


def out_degree_centrality(G: SpmatGraph) -> Dict[Any, Any]:
    return _share(G, count_edges(G, 'out'))


def isolates(G: SpmatGraph) -> Iterator[Any]:
    return iter([node for node, d in zip(G, count_edges(G)) if d == 0])


def number_of_selfloops(G: SpmatGraph) -> int:
    return sum(G.loops.values())


def s_metric(G: SpmatGraph) -> float:
    near = count_edges(G)
    column = G.column(near)
    flow = G.many().mxv(column, 'plus_times').ewise_mult(column, 'times').to_list(0)
    return float((sum(flow) + sum(near[i] ** 2 * loops for i, loops in G.loops.items())) // 2)


def average_neighbor_degree(G: SpmatGraph, source: str, target: str, nodes: Any,
                            weight: Any) -> Dict[Any, Any]:
    if weight is not None and (G.is_multigraph() or G.is_directed()):
        raise NotImplementedError('weights of directed graphs and multigraphs')
    if {source, target} - {'out', 'in', 'in+out'}:
        raise NotImplementedError('source and target are out, in or in+out')
    if not G.is_directed() and (source, target) != ('out', 'out'):
        raise NetworkXError('source and target arguments are only supported for directed graphs')
    degrees = G.column(count_edges(G, target))
    found = [0] * len(G)
    for side, back in (('out', False), ('in', True)):
        if side in source:
            near = G.matrix(weight, back=back).mxv(degrees, 'plus_times').to_list(0)
            found = [a + b for a, b in zip(found, near)]
    own = count_edges(G, source)
    if weight is not None:
        W = G.matrix(weight)
        own = [a + b for a, b in zip(W.reduce_rowwise('plus').to_list(0), W.diag().to_list(0))]
    return {node: found[i] / own[i] if own[i] else 0.0
            for node, i in ((node, G.index[node]) for node in G.nbunch_iter(nodes))}


def overall_reciprocity(G: SpmatGraph) -> float:
    if G.is_multigraph() or not G.is_directed():
        raise NotImplementedError('of a DiGraph alone')
    if not len(G.rows):
        raise NetworkXError('Not defined for empty graphs')
    return G.simple.ewise_mult(G.AT, 'pair').nvals / len(G.rows)


def reciprocity(G: SpmatGraph, nodes: Any) -> Any:
    if nodes is None:
        return overall_reciprocity(G)
    if G.is_multigraph() or not G.is_directed():
        raise NotImplementedError('of a DiGraph alone')
    both = G.A.ewise_mult(G.AT, 'pair').reduce_rowwise('plus').to_list(0)
    shares = [2 * both[i] / d if d else None for i, d in enumerate(count_edges(G))]
    if nodes in G and shares[G.index[nodes]] is None:
        raise NetworkXError('Not defined for isolated nodes.')
    return choose_nodes(G, nodes, shares)


# -- components

def find_labels(G: SpmatGraph) -> List[int]:
    """The least index of each one's component, edges leading both ways; kept with the graph."""
    return G.hold_answer('labels', lambda: algorithms.connected_components(
        G.A, G.both, check=False).to_list(0))


def find_strong_labels(G: SpmatGraph) -> List[int]:
    """The least index of each one's strong component; kept with the graph."""
    return G.hold_answer('strong labels', lambda: algorithms.strongly_connected_components(
        G.A, G.AT, check=False).to_list(0))


def group_nodes(G: SpmatGraph, found: List[int]) -> List[Set[Any]]:
    """Sets of nodes by their labels, in the order of their first nodes, which are the labels."""
    labels = numpy.array(found, numpy.int64)
    order = labels.argsort(kind='stable')
    nodes = list(map(G.nodes.__getitem__, order.tolist()))
    ends = [0, *(numpy.flatnonzero(numpy.diff(labels[order], append=-1)) + 1).tolist()]
    return [set(nodes[start:end]) for start, end in zip(ends, ends[1:])]


def connected(G: SpmatGraph) -> bool:
    return not any(find_labels(G))                 # all of them are node 0's


def connected_components(G: SpmatGraph) -> Iterator[Set[Any]]:
    return iter(group_nodes(G, find_labels(G)))


def number_connected_components(G: SpmatGraph) -> int:
    return len(set(find_labels(G)))


def is_connected(G: SpmatGraph) -> bool:
    need_nodes(G)
    return connected(G)


# of directed graphs the same, as labels take edges both ways
weakly_connected_components = connected_components
number_weakly_connected_components = number_connected_components
is_weakly_connected = is_connected


def node_connected_component(G: SpmatGraph, n: Any) -> Set[Any]:
    found = find_labels(G)
    mine = found[G.index[n]]
    return {node for node, label in zip(G.nodes, found) if label == mine}


def condense(G: SpmatGraph) -> Tuple[List[Set[Any]], Matrix]:
    """The strong components in the order of their first nodes, and which of them has an edge to
    which."""
    found = find_strong_labels(G)
    number: Dict[int, int] = {}
    at = [number.setdefault(label, len(number)) for label in found]
    inside = session().from_coo(range(len(G)), at, 1, len(G), len(number))
    out = inside.T.mxm(G.A, 'any_pair', parts=True)
    between = out.mxm(inside, 'any_pair', parts=True)
    return group_nodes(G, found), between.select('offdiag')


def strongly_connected_components(G: SpmatGraph) -> Iterator[Set[Any]]:
    found, between = condense(G)
    level: List[int] = algorithms.topological_levels(between).to_list()
    return iter(
        [found[at] for at in sorted(range(len(found)), key=level.__getitem__, reverse=True)])


def number_strongly_connected_components(G: SpmatGraph) -> int:
    return len(set(find_strong_labels(G)))


def all_reached(G: SpmatGraph) -> bool:
    """Whether a path leads from each node to each."""
    if not G.is_directed():
        return connected(G)
    return all(algorithms.bfs_levels(A, 0, check=False).nvals == len(G) for A in (G.A, G.AT))


def is_semiconnected(G: SpmatGraph) -> bool:
    need_nodes(G)
    found, between = condense(G)
    longest = algorithms.topological_levels(between).reduce_scalar('max') or 0
    return longest == len(found) - 1               # a path by way of all components


def attracting_components(G: SpmatGraph) -> Iterator[Set[Any]]:
    found, between = condense(G)
    leaves = set(between.reduce_rowwise('first').entries(arrays=False)[0])
    return iter([part for at, part in enumerate(found) if at not in leaves])


# -- what a node reaches

def _find_reached(G: SpmatGraph, sources: List[Any],
                  back: bool = False) -> Tuple[List[int], List[int]]:
    """The indices of the nodes that some reach, or that reach them, ascending, and how many edges
    are between. NetworkXError if one is no node."""
    for source in sources:
        if source not in G:
            raise NetworkXError('The node %s is not in the graph.' % (source,))
    found = algorithms.bfs_levels(G.matrix(back=back), [G.index[source] for source in sources],
                                  G.both, check=False)
    rows, _, levels = found.entries(arrays=False)
    return rows, levels


def descendants(G: SpmatGraph, source: Any) -> Set[Any]:
    return set(map(G.nodes.__getitem__, _find_reached(G, [source])[0])) - {source}


def ancestors(G: SpmatGraph, source: Any) -> Set[Any]:
    return set(map(G.nodes.__getitem__, _find_reached(G, [source], back=True)[0])) - {source}


def bfs_layers(G: SpmatGraph, sources: Any) -> Iterator[List[Any]]:
    starts = [sources] if sources in G else list(sources)
    at, levels = _find_reached(G, starts) if starts else ([], [])
    layers: List[List[Any]] = [[] for _ in range(max(levels, default=-1) + 1)]
    for i, level in zip(at, levels):
        layers[level].append(G.nodes[i])
    return iter(layers)


# -- trees

def is_forest(G: SpmatGraph) -> bool:
    need_nodes(G, 'G has no nodes.')
    many = G.number_of_edges()
    return many < len(G) and many == len(G) - number_connected_components(G)


def is_arborescence(G: SpmatGraph) -> bool:
    return bool(nx.is_tree(G)) and max(count_edges(G, 'in')) <= 1


def is_branching(G: SpmatGraph) -> bool:
    return is_forest(G) and max(count_edges(G, 'in')) <= 1


# -- graphs without cycles, closures and walks

def _is_cyclic(G: SpmatGraph) -> bool:
    try:
        algorithms.topological_levels(G.A)
        return False
    except algorithms.CycleError:
        return True


def _add_edges(G: SpmatGraph, matrix: Matrix) -> Any:
    """A copy of the networkx graph with an edge at each entry that it hasn't one at."""
    closed = G.to_networkx()
    had: Set[Tuple[int, int]] = set(zip(G.rows.tolist(), G.columns.tolist()))
    rows, columns, _ = matrix.entries(arrays=False)
    closed.add_edges_from([(G.nodes[i], G.nodes[j]) for i, j in zip(rows, columns)
                           if (i, j) not in had and (G.is_directed() or i <= j)])
    return closed


def transitive_closure(G: SpmatGraph, reflexive: Any) -> Any:
    if reflexive not in {None, True, False}:
        raise NetworkXError('Incorrect value for the parameter `reflexive`')
    closed = algorithms.transitive_closure(G.A)
    if reflexive is None or not G.is_directed():
        closed = closed.select('offdiag')
    if reflexive:
        closed = closed.ewise_add(session().identity(len(G)), 'first')
    return _add_edges(G, closed)


def transitive_closure_dag(G: SpmatGraph) -> Any:
    if _is_cyclic(G):
        raise NetworkXUnfeasible(UNFEASIBLE)
    return _add_edges(G, algorithms.transitive_closure(G.A))


def transitive_reduction(G: SpmatGraph) -> Any:
    if _is_cyclic(G):
        raise NetworkXError('Directed Acyclic Graph required for transitive_reduction')
    longer = G.A.mxm(algorithms.transitive_closure(G.A), 'any_pair', mask=G.A.S, parts=True)
    rows, columns, _ = G.A.without(longer).entries(arrays=False)
    reduced = nx.DiGraph()
    reduced.add_nodes_from(G)
    reduced.add_edges_from((G.nodes[i], G.nodes[j]) for i, j in zip(rows, columns))
    return reduced


def number_of_walks(G: SpmatGraph, walk_length: int) -> Dict[Any, Dict[Any, int]]:
    if walk_length < 0:
        raise ValueError('`walk_length` cannot be negative: %s' % walk_length)
    walks = session().identity(len(G))
    for _ in range(walk_length):
        walks = walks.mxm(G.many(), 'plus_times', parts=True)
    return {u: {v: found.get(v, 0) for v in G} for u, found in G.rows_of(walks)}


def dag_longest_path_length(G: SpmatGraph, weight: Any, default_weight: Any) -> Any:
    if not len(G):
        raise NotImplementedError('no node')
    try:
        levels = algorithms.longest_paths(G.matrix(weight, default_weight, 'max'))
        far = levels.reduce_scalar('max') or 0
    except algorithms.CycleError:
        raise NetworkXUnfeasible(UNFEASIBLE) from None
    # then each edge is as long as one without the attribute
    if weight is None:
        return far * default_weight if far and default_weight > 0 else 0
    return unscale(far, G.values(weight, default_weight, 'max').unit)
