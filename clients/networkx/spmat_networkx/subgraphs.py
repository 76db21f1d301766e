"""Parts of graphs: triangles and squares, cores and trusses, independent sets, and spanning trees
of the edges that Kruskal's algorithm takes, in its order."""
from __future__ import annotations

# networkx calls these by the names of its own arguments
# pylint: disable=missing-function-docstring

from collections import Counter
from typing import Any, Callable, Dict, Iterable, Iterator, List, Optional, Tuple

import numpy
from networkx import NetworkXNotImplemented, NetworkXUnfeasible

from spmat import algorithms

from .connectivity import choose_nodes
from .process_session import session
from .spmat_graph import SpmatGraph

NO_LOOPS = ('Input graph %s self loops which is not permitted; '
            'Consider using G.remove_edges_from(nx.selfloop_edges(G)).')
Cores = Dict[Any, int]


# -- triangles and squares

def _check_is_simple(G: SpmatGraph) -> None:
    if G.is_multigraph():
        raise NetworkXNotImplemented('not implemented for multigraph type')


def _count_triangles(G: SpmatGraph) -> List[int]:
    found: List[int] = algorithms.triangles(G.near, check=False).to_list(0)
    return found


def _count_neighbours(G: SpmatGraph) -> List[int]:
    """Neighbours other than the node itself."""
    others: List[int] = numpy.bincount(G.rows[G.rows != G.columns], minlength=len(G)).tolist()
    return others


def triangles(G: SpmatGraph, nodes: Any) -> Any:
    if nodes is not None:
        _check_is_simple(G)
    return choose_nodes(G, nodes, _count_triangles(G))


def transitivity(G: SpmatGraph) -> float:
    _check_is_simple(G)
    closed = 6 * algorithms.triangle_count(G.simple, check=False)
    return closed / sum(d * (d - 1) for d in _count_neighbours(G)) if closed else 0


def clustering(G: SpmatGraph, nodes: Any) -> Any:
    _check_is_simple(G)
    if G.is_directed():
        return choose_nodes(G, nodes, _cluster_directed(G))
    shares = [2 * t / (d * (d - 1)) if t else 0
              for t, d in zip(_count_triangles(G), _count_neighbours(G))]
    return choose_nodes(G, nodes, shares)


def _cluster_directed(G: SpmatGraph) -> List[float]:
    """Triangles in which each side counts once for each direction that it has: the diagonal of a
    cube."""
    back = G.AT.select('offdiag') if G.loops else G.AT
    ways = G.simple.ewise_add(back, 'plus')
    three = ways.mxm(ways, 'plus_times', mask=ways.S, parts=True).ewise_mult(ways, 'times')
    total, both = ways, G.simple.ewise_mult(back, 'pair')
    return [t / ((d * (d - 1) - 2 * b) * 2) if t else 0
            for t, d, b in zip(*(found.reduce_rowwise('plus').to_list(0)
                                 for found in (three, total, both)))]


def generalized_degree(G: SpmatGraph, nodes: Any) -> Any:
    _check_is_simple(G)
    shared = G.simple.mxm(G.simple, 'plus_pair', mask=G.simple.S, parts=True)
    rows, _, values = shared.entries(arrays=False)
    found: List[Dict[int, int]] = [Counter() for _ in G]
    for i, many in zip(rows, values):
        found[i][many] += 1
    for d, had in zip(_count_neighbours(G), found):
        if d > sum(had.values()):
            had[0] = d - sum(had.values())
    return choose_nodes(G, nodes, found)


def square_clustering(G: SpmatGraph, nodes: Any) -> Any:
    A = G.simple
    squares = algorithms.squares(A, check=False).to_list(0)
    next_to = A.mxv(algorithms.degrees(A), 'plus_second').to_list(0)
    shares: List[float] = []
    for s, n, near, t in zip(squares, _count_neighbours(G), next_to, _count_triangles(G)):
        potential = (n - 1) * near - n * (n - 1) - 2 * t - s
        shares.append(s / potential if n > 1 and potential > 0 else 0)
    return choose_nodes(G, nodes, shares)


# -- cores and trusses

def _check_loops(G: SpmatGraph, said: str = 'has') -> None:
    if G.loops:
        raise NetworkXNotImplemented(NO_LOOPS % said)


def _name_cores(G: SpmatGraph) -> Cores:
    """{node: core number}; the numbers are kept with the graph."""
    _check_loops(G)
    return dict(zip(G, G.hold_answer('cores', lambda: _find_cores(G))))


def _find_cores(G: SpmatGraph) -> List[int]:
    """Core numbers by index; of a directed graph each direction counts."""
    if not G.is_directed():
        return algorithms.core_numbers(G.A, check=False).to_list(0)
    near = G.A.ewise_add(G.AT, 'plus')             # each k's peeling goes on from that of k - 1
    core, k, left = [0] * len(G), 0, G.column(1)
    while left.nvals:
        k, had = k + 1, -1
        while left.nvals != had:
            had = left.nvals
            left = near.mxv(left, 'plus_first', mask=left.S).select('valuege', k)
        for i in left.entries(arrays=False)[0]:
            core[i] = k
    return core


def core_number(G: SpmatGraph) -> Cores:
    return _name_cores(G)


def _cut_part(G: SpmatGraph, core: Optional[Cores], k: Optional[int],
              keep: Callable[[int, int], bool],
              default: Callable[[Iterable[int]], int] = max) -> Any:
    """The part of the networkx graph whose nodes' core numbers are kept beside k."""
    found = _name_cores(G) if core is None else core
    wanted = default(found.values()) if k is None else k
    return G.to_networkx({node for node, number in found.items() if keep(number, wanted)})


def k_core(G: SpmatGraph, k: Optional[int], core_number: Optional[Cores]) -> Any:
    if core_number is None and k is not None and k >= 1 and not G.is_directed() and not G.loops:
        return G.to_networkx(set(G.named(algorithms.k_core(G.A, k, check=False)).by_node()))
    return _cut_part(G, core_number, k, lambda number, k: number >= k)


def k_shell(G: SpmatGraph, k: Optional[int], core_number: Optional[Cores]) -> Any:
    return _cut_part(G, core_number, k, lambda number, k: number == k)


def k_crust(G: SpmatGraph, k: Optional[int], core_number: Optional[Cores]) -> Any:
    return _cut_part(G, core_number, k, lambda number, k: number <= k,
                     lambda numbers: max(numbers) - 1)


def k_corona(G: SpmatGraph, k: int, core_number: Optional[Cores]) -> Any:
    core = _name_cores(G) if core_number is None else core_number
    inside = G.spots([v for v in core if core[v] >= k])
    near = G.named(G.A.mxv(inside, 'plus_pair')).by_node()
    return G.to_networkx({v for v in core if core[v] == k == near.get(v, 0)})


def k_truss(G: SpmatGraph, k: int) -> Any:
    _check_loops(G)
    left = algorithms.k_truss(G.A, k, check=False) if k >= 3 else G.A
    rows, columns, _ = left.entries(arrays=False)
    return G.to_networkx(set(map(G.nodes.__getitem__, rows)), (rows, columns))


def onion_layers(G: SpmatGraph) -> Dict[Any, int]:
    _check_loops(G, 'contains')
    degrees = numpy.bincount(G.rows, minlength=len(G))
    heads = numpy.split(G.columns, numpy.cumsum(degrees)[:-1])
    alive, core, layer = numpy.arange(len(G)), 0, 0
    found: Dict[Any, int] = {}
    while len(alive):
        core, layer = max(core, int(degrees[alive].min())), layer + 1
        is_outer = degrees[alive] <= core
        outer, alive = alive[is_outer], alive[~is_outer]
        found.update((G.nodes[i], layer) for i in outer.tolist())
        degrees -= numpy.bincount(numpy.concatenate([heads[i] for i in outer.tolist()]),
                                  minlength=len(G))
    return found


def maximal_independent_set(G: SpmatGraph, nodes: Any, seed: Any) -> List[Any]:
    chosen = set(nodes) if nodes else {seed.choice(G.nodes)}
    if not chosen.issubset(G.index):
        raise NetworkXUnfeasible('%s is not a subset of the nodes of G' % chosen)
    column = G.spots(chosen)
    near = G.A.mxv(column, 'any_pair')
    if near.ewise_mult(column, 'pair').nvals:
        raise NetworkXUnfeasible('%s is not an independent set of G' % chosen)
    free = G.column(1).without(near.ewise_add(column, 'any'))
    keep = free.diag()
    rest = keep.mxm(G.A, 'any_pair', parts=True).mxm(keep, 'any_pair', parts=True)
    more = algorithms.maximal_independent_set(rest, seed.getrandbits(32),
                                              check=False).ewise_mult(free, 'first')
    return list(chosen) + list(G.named(more).by_node())


# -- spanning trees

def _find_forest(G: SpmatGraph, weight: Any, sign: int) -> List[Tuple[int, int, int]]:
    """Row, column and entry of each edge of the forest, in the order in which Kruskal's algorithm
    takes them; the greatest weights first if the sign is -1. Where an edge stands in that order is
    its weight here, so that no two weigh the same, and there is one such forest."""
    entries = numpy.flatnonzero(G.rows < G.columns)        # each edge once, without loops
    if weight is not None:
        entries = entries[(sign * G.values(weight).many[entries]).argsort(kind='stable')]
    ends, order = (G.rows[entries], G.columns[entries]), numpy.arange(len(entries))
    graph = session().from_coo(numpy.concatenate(ends), numpy.concatenate(ends[::-1]),
                               numpy.concatenate((order, order)), len(G), len(G))
    try:
        forest = algorithms.minimum_spanning_forest(graph, check=False)
    except ValueError as fault:                    # more edges and nodes than 62 bits tell apart
        raise NotImplementedError(str(fault)) from fault
    rows, columns, places = forest.entries(arrays=False)
    taken = sorted((place, i, j) for i, j, place in zip(rows, columns, places) if i < j)
    return [(i, j, int(entries[place])) for place, i, j in taken]


def _list_edges(G: SpmatGraph, weight: Any, sign: int, data: bool) -> Iterator[Tuple[Any, ...]]:
    nodes, had = G.nodes, G.edge_data
    return iter([(nodes[i], nodes[j], had[at] if had else {}) if data else (nodes[i], nodes[j])
                 for i, j, at in _find_forest(G, weight, sign)])


def minimum_spanning_edges(G: SpmatGraph, weight: Any, data: bool) -> Iterator[Tuple[Any, ...]]:
    return _list_edges(G, weight, 1, data)


def maximum_spanning_edges(G: SpmatGraph, weight: Any, data: bool) -> Iterator[Tuple[Any, ...]]:
    return _list_edges(G, weight, -1, data)


def _make_tree(G: SpmatGraph, weight: Any, sign: int) -> Any:
    tree = G.to_networkx(links=((), ()))
    tree.add_edges_from(_list_edges(G, weight, sign, True))
    return tree


def minimum_spanning_tree(G: SpmatGraph, weight: Any) -> Any:
    return _make_tree(G, weight, 1)


def maximum_spanning_tree(G: SpmatGraph, weight: Any) -> Any:
    return _make_tree(G, weight, -1)
