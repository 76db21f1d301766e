"""What is timed of whole algorithms: each algorithm of the client, in a call from a graph that is
loaded to an answer in numpy.

An algorithm without a task here has one that is made of its signature and its decorator. One whose
answer differs from a peer's fails a test of the client, `test_bench`.
"""
from __future__ import annotations

from typing import Any, Callable, NamedTuple, Tuple

import numpy

from algorithm_graphs import Asked
from spmat import algorithms
from spmat.algorithms.cached_properties import found
from spmat.algorithms.registry import ALGORITHMS, Wanted, required
from spmat.algorithms.traversal import put_all

# powers of two by which graphs have fewer vertices where each pair of them counts
SMALLER = 4
ALPHA = 0.001                                      # of Katz' centrality, below any graph's limit
# its tolerance: a finer one has no room beside the degrees of the skewed graph
KATZ = 1e-7
CORE, TRUSS, HOPS, PATHS = 8, 4, 2, 4


class Ours(NamedTuple):
    """A graph in a session, without and with weights, what is asked of it, and whether edges lead
    one way alone."""
    G: Any
    W: Any
    asked: Asked
    directed: bool

    @property
    def back(self) -> Any:
        """What is handed in as the transpose."""
        return None if self.directed else self.G


def column(matrix: Any, missing: int = -1) -> Any:
    """An answer in numpy, with a number where there is no entry."""
    return matrix.to_dense(missing).ravel()


def shares(matrix: Any) -> Any:
    """Numbers of vertices divided by their sum."""
    found = (numpy.asarray(matrix, float) if not hasattr(matrix, 'to_dense')
             else column(matrix, 0).astype(float))
    return found / max(found.sum(), 1e-300)


def summed(matrix: Any) -> Tuple[int, int]:
    """How many entries a matrix has, and their sum."""
    _, _, values = matrix.entries()
    return len(values), int(numpy.sum(values))


# -- when two answers are the same

def parts_alike(a: Any, b: Any) -> bool:
    """Whether two labellings part the vertices alike."""
    pairs = len(numpy.unique(numpy.asarray(a, numpy.int64) * len(a)
                             + numpy.asarray(b, numpy.int64)))
    return len(numpy.unique(a)) == len(numpy.unique(b)) == pairs


def equal(a: Any, b: Any) -> bool:
    """Whether two answers are the same numbers."""
    return bool(numpy.array_equal(numpy.asarray(a, float), numpy.asarray(b, float)))


def near(a: Any, b: Any) -> bool:
    """Whether shares, or ranks, differ by less than a ten thousandth in all."""
    return float(numpy.abs(numpy.asarray(a) - numpy.asarray(b)).sum()) < 1e-4


def close(a: Any, b: Any) -> bool:
    """Whether numbers are the same but for rounding."""
    return bool(numpy.allclose(numpy.asarray(a, float), numpy.asarray(b, float), rtol=1e-5,
                               atol=1e-2))


def alike(a: Any, b: Any) -> bool:
    """Whether two answers are of the same vertices: which of several parents is free."""
    return bool(numpy.array_equal(numpy.asarray(a) >= 0, numpy.asarray(b) >= 0))


def free(a: Any, b: Any) -> bool:
    """Of what has no one right answer."""
    return len(numpy.atleast_1d(a)) > 0 and b is not None


# -- tasks

EVEN, ONE_WAY = ('kron', 'urand', 'road'), ('directed',)
EACH = EVEN + ONE_WAY
# where powers of a graph settle soon: a grid's take thousands of rounds
MIXED = ('kron', 'urand', 'directed')


class Task(NamedTuple):
    """What is measured: its name, ours, when two answers are the same, the graphs that it is for,
    and by how many powers of two these are smaller."""
    name: str
    call: Callable[[Ours], Any]
    same: Callable[[Any, Any], bool]
    graphs: Tuple[str, ...] = EVEN
    smaller: int = 0


def tree(g: Ours) -> Any:
    """The lengths of a tree of shortest paths, with the vertices before the last ones."""
    found = algorithms.shortest_paths(g.W, g.asked.source, weighted=True)
    column(found.predecessors)
    return column(found.lengths)


def levels(g: Ours) -> Any:
    """How many vertices are how far from one another, by the number of edges from 1 on."""
    return [int(column(found, 0).sum()) for found in algorithms.distance_counts(g.G, g.back)]


def modularity(g: Ours) -> float:
    """That of communities of 64 vertices each, which the client has, as those of `louvain`."""
    return algorithms.modularity(g.G, found(g.G, 'communities of 64', lambda: put_all(
        g.G, numpy.arange(g.G.nrows) >> 6)))


SEARCHES = (
    Task('bfs_levels', lambda g: column(algorithms.bfs_levels(g.G, g.asked.source, g.back)), equal,
         EACH),
    Task('bfs_parents', lambda g: column(algorithms.bfs_parents(g.G, g.asked.source, g.back)),
         alike, EACH), Task('sssp', lambda g: column(algorithms.sssp(g.W, g.asked.source)), equal,
                            EACH),
    Task('k_hop', lambda g: algorithms.k_hop(g.G, HOPS, g.asked.some).nvals, equal, EACH),
    Task('k_hop of one', lambda g: algorithms.k_hop(g.G, HOPS, [g.asked.source]).nvals, equal,
         EACH), Task('has_path', lambda g: algorithms.has_path(g.G, g.asked.source, g.asked.target),
                     equal, EACH),
    Task('shortest_path',
         lambda g: algorithms.shortest_path(g.G, g.asked.source, g.asked.target).length, equal,
         EACH),
    Task('shortest_path, weighted',
         lambda g: algorithms.shortest_path(g.W, g.asked.source, g.asked.target,
                                            weighted=True).length, equal, EACH),
    Task('shortest_paths, weighted', tree, equal, EACH),
    Task('k_shortest_paths',
         lambda g: [len(path)
                    for path in algorithms.k_shortest_paths(g.G, g.asked.source, g.asked.target,
                                                            PATHS)], equal, EACH),
    Task('path_lengths', lambda g: algorithms.path_lengths(g.W, g.asked.some).to_dense(-1), equal,
         EACH), Task('all_pairs', lambda g: algorithms.all_pairs(g.W).to_dense(-1), equal, EACH,
                     SMALLER),
    Task('transitive_closure', lambda g: algorithms.transitive_closure(g.G).select('offdiag').nvals,
         equal, EACH, SMALLER), Task('distance_counts', levels, equal, EACH, SMALLER),
    Task('eccentricity', lambda g: column(algorithms.eccentricity(g.G, g.back), 0), equal, EACH,
         SMALLER), Task('diameter', lambda g: algorithms.diameter(g.G, g.G).least, equal,
                        ('urand',), SMALLER),)

PARTS = (
    Task('connected_components', lambda g: column(algorithms.connected_components(g.G, g.back)),
         parts_alike, EACH),
    Task('strongly_connected_components',
         lambda g: column(algorithms.strongly_connected_components(g.G)), parts_alike,
         ('directed', 'dag')),
    Task('bipartite_sides', lambda g: column(algorithms.bipartite_sides(g.G, g.G)), alike,
         ('road',)),
    Task('topological_levels', lambda g: column(algorithms.topological_levels(g.G)), equal,
         ('dag',)), Task('longest_paths', lambda g: column(algorithms.longest_paths(g.W)), equal,
                         ('dag',)),
    Task('minimum_spanning_forest',
         lambda g: (algorithms.minimum_spanning_forest(g.W).reduce_scalar('plus') or 0) // 2,
         equal), Task('core_numbers', lambda g: column(algorithms.core_numbers(g.G)), equal),
    Task('k_core', lambda g: algorithms.k_core(g.G, CORE).nvals, equal),
    Task('k_truss', lambda g: algorithms.k_truss(g.G, TRUSS).nvals // 2, equal),
    Task('maximal_independent_set', lambda g: column(algorithms.maximal_independent_set(g.G)),
         free), Task('label_propagation', lambda g: column(algorithms.label_propagation(g.G)),
                     free), Task('louvain', lambda g: column(algorithms.louvain(g.G).labels), free),
    Task('modularity', modularity, close),)

COUNTS = (
    Task('degrees', lambda g: column(algorithms.degrees(g.G), 0), equal, EACH),
    Task('undirected', lambda g: algorithms.undirected(g.G).nvals, equal, ONE_WAY),
    Task('triangle_count', lambda g: algorithms.triangle_count(g.G), equal),
    Task('triangles', lambda g: column(algorithms.triangles(g.G), 0), equal),
    Task('clustering', lambda g: column(algorithms.clustering(g.G), 0) / 1e9, close),
    Task('squares', lambda g: column(algorithms.squares(g.G), 0), equal, EVEN, SMALLER),
    Task('common_neighbours', lambda g: summed(algorithms.common_neighbours(g.G, g.back)), equal,
         EACH, SMALLER),
    Task('jaccard of edges', lambda g: summed(algorithms.jaccard(g.G, g.G, pairs=g.G))[1] / 1e9,
         close),
    Task('shared_neighbours',
         lambda g: column(algorithms.shared_neighbours(g.G, g.asked.firsts, g.asked.seconds), 0),
         equal, EACH),)

RANKS = (
    Task('pagerank', lambda g: shares(algorithms.pagerank(g.G, g.back)), near, EACH),
    Task('betweenness', lambda g: column(algorithms.betweenness(g.G)) / 2.0 ** 20, close, MIXED,
         SMALLER),
    Task('closeness', lambda g: column(algorithms.closeness(g.G, g.back).values) / 2.0 ** 40, close,
         EACH, SMALLER),
    Task('eigenvector', lambda g: shares(algorithms.eigenvector(g.G, g.back).values), near, MIXED),
    Task('katz', lambda g: shares(algorithms.katz(g.G, ALPHA, GT=g.back, tolerance=KATZ).values),
         near, EACH), Task('hits', lambda g: shares(algorithms.hits(g.G, g.back)[0].values), near,
                           MIXED),)
BY_HAND = SEARCHES + PARTS + COUNTS + RANKS


def made_task(name: str) -> Task:
    """The task of an algorithm by its name: a call with what it has to be given, and the transpose
    where it takes one, on the graphs that its decorator wants."""
    algorithm = ALGORITHMS[name]

    def call(g: Ours) -> Any:
        asked = {'source': g.asked.source, 'sources': g.asked.some, 'target': g.asked.target,
                 'firsts': g.asked.firsts, 'seconds': g.asked.seconds, 'k': HOPS, 'GT': g.back}
        given = {parameter: asked[parameter] for parameter in algorithm.parameters[1:]
                 if parameter == 'GT' or parameter in required(algorithm.function)}
        found = getattr(algorithms, name)(g.W if algorithm.values else g.G, **given)
        return column(found) if getattr(found, 'shape', ())[1:] == (1,) else found
    return Task(name, call, free, EACH if algorithm.wanted is Wanted.ANY else EVEN, SMALLER)


def algorithm_of(task: Task) -> str:
    """The algorithm that a task is named after: `k_hop` of "k_hop of one"."""
    return task.name.replace(',', ' ').split()[0]


TASKS = BY_HAND + tuple(made_task(name) for name in sorted(
    {*ALGORITHMS} - set(map(algorithm_of, BY_HAND))))
