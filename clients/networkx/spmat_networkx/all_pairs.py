"""Lengths of the shortest paths between all nodes, and centralities."""
from __future__ import annotations

# networkx calls these by the names of its own arguments
# pylint: disable=missing-function-docstring

import itertools
import math
import operator
from typing import Any, Callable, Dict, Iterator, List, Mapping, Optional, Tuple

import networkx as nx
import numpy
from networkx import NetworkXError, NetworkXNoPath, NetworkXPointlessConcept

from spmat import Matrix, algorithms
from spmat.limits import MOST_SIDE

from .backend import find_original
from .connectivity import all_reached, connected
from .edge_weights import scale_cutoff, unscale
from .shortest_paths import (Lengths, NEGATIVE, Query, length_to, lengths, need, scaled, unit_of)
from .spmat_graph import SpmatGraph

BLOCK = MOST_SIDE // 4                             # pairs of a block of sources
METHODS = (None, 'unweighted', 'dijkstra', 'bellman-ford', 'floyd-warshall', 'floyd-warshall-numpy')
Blocks = Iterator[Tuple[int, Matrix]]


def shortest_path_length(G: SpmatGraph, source: Any, target: Any, weight: Any, method: str) -> Any:
    if method not in ('dijkstra', 'bellman-ford'):
        raise ValueError('method not supported: %s' % method)
    query = Query(weight)
    if method == 'bellman-ford' and weight is not None and source is not None:
        # of these networkx looks at the target last
        need(G, source, 'Source %s not in G')
        if target is not None and target not in G:
            raise NetworkXNoPath('node %s not reachable from %s' % (target, source))
    for node in (source, target):
        if node is not None:
            need(G, node, 'Node %s is not in G')
    if source is None and target is None:
        return pairs(G, query)
    if source is None or target is None:
        return lengths(G, [target if source is None else source],
                       query._replace(back=source is None))
    far = length_to(G, source, target, query)
    if far is None:
        raise NetworkXNoPath('No path between %s and %s.' % (source, target))
    return far


# -- between all nodes

def blocks(G: SpmatGraph, query: Query) -> Blocks:
    """All lengths by rows: the first source of each block, and the lengths from its sources; to
    them if the query is against the edges. NetworkXUnbounded for a negative cycle."""
    count = len(G)
    if count ** 2 <= MOST_SIDE:
        try:
            found = algorithms.all_pairs(G.matrix(query.weight))
        except ValueError as fault:
            if 'negative' not in str(fault):
                raise
            raise nx.NetworkXUnbounded(NEGATIVE) from None
        yield 0, found.T if query.back and G.is_directed() else found
        return
    if query.weight is not None and G.values(query.weight).least < 0:
        raise NotImplementedError('lengths below 0 of so many nodes')
    W, size = G.matrix(query.weight, back=query.back), max(1, BLOCK // count)
    for first in range(0, count, size):
        yield first, algorithms.path_lengths(W, range(first, min(first + size, count)))


def pairs(G: SpmatGraph, query: Query,
          whole: Callable[[float], int] = math.floor) -> Iterator[Tuple[Any, Lengths]]:
    """(node, {node: length}) for each node, nearest first, up to the query's cutoff, rounded."""
    found = blocks(G, query)
    # the first block is made at the call, so that it raises here
    found = itertools.chain([next(found)], found)
    unit = unit_of(G, query.weight)
    cutoff = scale_cutoff(query.cutoff, unit)
    most = None if cutoff is None or math.isinf(cutoff) else whole(max(cutoff, 0))
    return ((node, scaled(dict(sorted(row.items(), key=operator.itemgetter(1))), unit))
            for first, far in found
            for node, row in G.rows_of(far if most is None else far.select('valuele', most), first))


def all_pairs_shortest_path_length(G: SpmatGraph, cutoff: Any) -> Iterator[Tuple[Any, Lengths]]:
    # by edges a cutoff of 2.5 is one of 3 in networkx, by weights one of 2
    return pairs(G, Query(cutoff=cutoff), math.ceil)


def all_pairs_dijkstra_path_length(G: SpmatGraph, cutoff: Any,
                                   weight: Any) -> Iterator[Tuple[Any, Lengths]]:
    return pairs(G, Query(weight, cutoff=cutoff))


def all_pairs_bellman_ford_path_length(G: SpmatGraph,
                                       weight: Any) -> Iterator[Tuple[Any, Lengths]]:
    return pairs(G, Query(weight))


def floyd_warshall(G: SpmatGraph, weight: Any) -> Dict[Any, Dict[Any, Any]]:
    never = float('inf')
    try:
        return {u: {v: row.get(v, never) for v in G}
                for u, row in pairs(G, Query(weight))}
    except nx.NetworkXUnbounded:
        raise NotImplementedError(
            'a cycle of negative length, which networkx passes over') from None


def power(G: SpmatGraph, k: int) -> Any:
    if k <= 0:
        raise ValueError('k must be a positive integer')
    H = nx.Graph()
    H.add_nodes_from(G)
    for node, row in pairs(G, Query(cutoff=k)):
        H.add_edges_from((node, far) for far in row if G.index[node] < G.index[far])
    return H


# -- sums of lengths

def _distance_counts(G: SpmatGraph) -> Iterator[Tuple[int, Matrix]]:
    """How many nodes are so many edges from each one, by that number."""
    return enumerate(algorithms.distance_counts(G.A, G.AT, check=False), 1)


def sum_lengths(G: SpmatGraph, query: Query) -> Tuple[List[int], List[int]]:
    """How many nodes reach each one, itself too, and the sum of their distances, by index."""
    many, total = numpy.zeros((2, len(G)), numpy.int64)
    if query.weight is None:
        many += 1
        for level, counts in _distance_counts(G):
            at, _, values = counts.entries(arrays=True)
            many[at] += values
            total[at] += level * values
    else:
        for first, far in blocks(G, query._replace(back=True)):
            for sums, found in ((many, far.apply('one')), (total, far)):
                at, _, values = found.reduce_rowwise('plus').entries(arrays=True)
                sums[first + at] = values
    return many.tolist(), total.tolist()


def average_shortest_path_length(G: SpmatGraph, weight: Any, method: Optional[str]) -> float:
    if method not in METHODS:
        raise ValueError('method not supported: %s' % method)
    n = len(G)
    if n == 0:
        raise NetworkXPointlessConcept(
            'the null graph has no paths, thus there is no average shortest path length')
    if n == 1:
        return 0
    if not all_reached(G):
        raise NetworkXError('Graph is not strongly connected.' if G.is_directed()
                            else 'Graph is not connected.')
    query = Query(None if method == 'unweighted' else weight)
    return sum(sum_lengths(G, query)[1]) / (n * (n - 1) * (unit_of(G, query.weight) or 1))


def wiener_index(G: SpmatGraph, weight: Any) -> float:
    if not len(G):
        raise NetworkXPointlessConcept('Connectivity is undefined for the null graph.')
    if not all_reached(G):
        return float('inf')
    total, unit = sum(sum_lengths(G, Query(weight))[1]), unit_of(G, weight)
    length: float = unscale(total, unit)
    return length if G.is_directed() else total / (2 * (unit or 1))


def closeness_centrality(G: SpmatGraph, u: Any, distance: Any, wf_improved: bool) -> Any:
    if u is not None:
        need(G, u, 'Source %s is not in G')
        far = lengths(G, [u], Query(distance, back=True))
        return _closeness(len(far), sum(far.values()), len(G), wf_improved)
    many, total = sum_lengths(G, Query(distance))
    unit = unit_of(G, distance) or 1
    return {node: _closeness(m, t / unit, len(G), wf_improved)
            for node, m, t in zip(G, many, total)}


def _closeness(reached: int, total: float, count: int, wf_improved: bool) -> float:
    if total <= 0 or count <= 1:
        return 0.0
    found = (reached - 1.0) / total
    return found * ((reached - 1.0) / (count - 1)) if wf_improved else found


def harmonic_centrality(G: SpmatGraph, nbunch: Any, distance: Any,
                        sources: Any) -> Dict[Any, Any]:
    wanted, starts = set(G.nbunch_iter(nbunch)), set(G.nbunch_iter(sources))
    found: Dict[Any, Any] = dict.fromkeys(wanted, 0)
    if distance is None and len(starts) == len(G):
        for level, counts in _distance_counts(G):
            for node, many in G.named(counts).by_node().items():
                if node in found:
                    found[node] += many / level
        return found
    for source in starts:
        for node, far in lengths(G, [source], Query(distance)).items():
            if far and node in found:
                found[node] += 1 / far
    return found


def global_efficiency(G: SpmatGraph) -> float:
    n = len(G)
    shares = sum((counts.reduce_scalar('plus') or 0) / level
                 for level, counts in _distance_counts(G))
    return shares / (n * (n - 1)) if n > 1 else 0


# -- the greatest length

def find_eccentricities(G: SpmatGraph, weight: Any) -> Lengths:
    """{node: the length of the longest of its shortest paths}. NetworkXError if one doesn't reach
    all."""
    if not len(G):
        return {}
    if not all_reached(G):
        raise NetworkXError('Found infinite path length because the ' + (
            'digraph is not strongly connected' if G.is_directed() else 'graph is not connected'))
    if weight is None:
        return dict(zip(G, algorithms.eccentricity(G.A, G.AT, check=False).to_list(0)))
    found: List[int] = []
    for _, far in blocks(G, Query(weight)):
        found.extend(far.reduce_rowwise('max').to_list(0))
    return scaled(dict(zip(G, found)), unit_of(G, weight))


def eccentricity(G: SpmatGraph, v: Any, weight: Any) -> Any:
    nodes = list(G.nbunch_iter(v))
    if v is None:
        return find_eccentricities(G, weight)
    if G.is_directed() or (nodes and not connected(G)):
        raise NotImplementedError('some nodes of a graph in which not all are reached')
    found = ({node: max(lengths(G, [node], Query(weight)).values()) for node in nodes}
             if not nodes or len(nodes) < len(G) // 8 else find_eccentricities(G, weight))
    return found[v] if v in G else {node: found[node] for node in nodes}


def _judge_eccentricities(name: str) -> Callable[..., Any]:
    """Make a function of networkx that takes eccentricities, and asks for them if they aren't
    given."""
    def judge(G: SpmatGraph, e: Any, weight: Any) -> Any:
        if name == 'center' and not len(G):
            raise NotImplementedError('no node')
        found = find_eccentricities(G, weight) if e is None else e
        return find_original(name)(G, found)
    return judge


diameter = _judge_eccentricities('diameter')
radius = _judge_eccentricities('radius')
periphery = _judge_eccentricities('periphery')
center = _judge_eccentricities('center')


# -- flows and ranks

ROUNDS = 100                                       # networkx' own max_iter
ONE = 1 << 40                                      # units of a rank
LARGEST_TOLERANCE = 0.25
# units of a path in which betweenness is counted, where the nodes leave room
PATHS = 1 << 30
# what each source adds to the error besides, as a share of all nodes
ROUNDING = 1e-9
# how near to networkx' a number is, as networkx' tests want it
DIGITS = 1e-7


def _weigh_nodes(G: SpmatGraph, given: Optional[Mapping[Any, Any]],
                 name: str) -> Optional[Dict[int, float]]:
    """Weights of nodes by index; networkx takes no notice of those that the graph hasn't."""
    if given is None:
        return None
    if not given or min(given.values()) < 0 or not sum(given.values()):
        raise NotImplementedError('%s with a weight above 0, and none below' % name)
    found = {G.index[node]: weight for node, weight in given.items() if node in G}
    if not sum(found.values()):
        raise NotImplementedError('weights of no node')
    return found


def pagerank(G: SpmatGraph, alpha: float, personalization: Any, max_iter: int, tol: float,
             weight: Any, dangling: Any) -> Dict[Any, float]:
    # who gives fewer wants to see whether it converges, as networkx sees it
    if max_iter < ROUNDS:
        raise NotImplementedError('fewer than %d rounds' % ROUNDS)
    if not 0 < alpha < 1 or tol <= 0:
        raise NotImplementedError('alpha between 0 and 1, and tol above 0')
    starts = _weigh_nodes(G, personalization, 'personalization')
    ends = _weigh_nodes(G, dangling, 'dangling')
    if not len(G):
        return {}
    values = G.values(weight, fold='plus') if weight is not None else None
    weighted = (G.counts is not None
                or (values is not None and (values.least, values.most) != (1, 1)))
    graph = G.many() if weight is None else G.matrix(weight, fold='plus') if weighted else G.A
    try:
        found = algorithms.pagerank(graph, None, alpha, min(len(G) * tol / 2, LARGEST_TOLERANCE),
                                    ONE, weighted=weighted, check=False, personalization=starts,
                                    dangling=ends)
    # a damping of more digits, or a tolerance that whole numbers don't keep
    except ValueError as fault:
        raise NotImplementedError(str(fault)) from fault
    return {node: value / ONE for node, value in zip(G, found.to_list(0))}


def betweenness_centrality(G: SpmatGraph, normalized: bool, weight: Any) -> Dict[Any, float]:
    count = len(G)
    if not normalized and count * (ROUNDING + 1 / PATHS) > DIGITS:
        raise NotImplementedError('sums over so many nodes, which whole numbers keep to fewer '
                                  'digits')
    if weight is not None and len(G.rows) and G.values(weight).least < 1:
        raise NotImplementedError(
            'weights below 1: along edges of length 0 networkx counts paths by the order in '
            'which it meets them')
    if count < 3:
        return dict.fromkeys(G, 0.0)
    unit = min(PATHS, (1 << 61) // count ** 2)
    try:
        found = algorithms.betweenness(G.simple if weight is None else G.matrix(weight),
                                       range(count), ROUNDING * count if normalized else ROUNDING,
                                       unit, weighted=weight is not None)
    # more shortest paths than whole numbers tell apart
    except ValueError as fault:
        raise NotImplementedError(str(fault)) from fault
    ways = 1 if G.is_directed() else 2             # each two nodes were counted in both orders
    share = 1 / ((count - 1) * (count - 2)) if normalized else 1 / ways
    return {node: many / unit * share for node, many in zip(G, found.to_list(0))}
