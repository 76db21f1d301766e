"""Communities and dense parts: modularity, label propagation, the Louvain method, and cores, in
which each vertex has so many neighbours."""
from __future__ import annotations

from fractions import Fraction
from typing import (Any, Dict, Hashable, Iterable, Iterator, List, Mapping, NamedTuple, Optional,
                    Sequence, Set, Tuple, Union, cast)

import numpy

from ..integers import shown
from ..io.matrix_text import Triples
from ..matrix import Matrix
from ..metadata import Nodes, VERTICES, joined
from ..operators import Semiring, asm, binary
from ..types import Array, Place
from .cached_properties import check_weights, extremes, has_loops, is_both_ways
from .components import Seed, draw_on_paper, generator_of, label_components
from .registry import BOTH_WAYS, WITHOUT_LOOPS, algorithm
from .results import Communities, Result, as_result, keep_partial
from .traversal import (Edges, Vector, find_traversal, held_edges, is_ample, is_small, is_whole,
                        keep, load_edges, put_all, put_column, put_known, read_column, spread)
from .utils import Progress, beside, contract, count_edges, find_place, name_of, product, tell

__all__ = ['core_numbers', 'k_core', 'label_propagation', 'louvain', 'modularity']

ROUNDS = 10                            # of label propagation
MOST_SUM = 1 << 62                     # of all edges: loops count twice
SHOWN = 3                              # vertices without a community that are named
Partition = Union[Matrix, Mapping[Any, Hashable], Iterable[Iterable[Any]]]
"""A column with any number for each vertex' community, as `louvain` gives it; {vertex: community},
or a Series of pandas by vertex; or a list of sets, or lists, of vertices."""
BATCHES = 8                            # parts of the vertices that decide one after the other
LEAST = 1e-7                           # what a level has to gain
ENOUGH = 1e-4                          # .. and a sweep, for that another one follows
MOST_LEVELS = 16
SWEEPS = 20                            # of one level, at most
FLOAT_BITS = 53                        # of all weights together, which are compared as floats


@algorithm('communities, by a vertex of each', are_vertices=True, wanted=BOTH_WAYS,
           ranges={'rounds': (1, None)})
def label_propagation(G: Matrix, rounds: int = ROUNDS, progress: Progress = None, *,
                      check: bool = True) -> Matrix:
    """The community of each vertex of an undirected graph, as a column of labels.

    Each vertex begins with itself as its label. In each round every vertex takes the label most
    common among its neighbours, and of several the least. The rounds end when no label changes.

    Parameters
    ----------
    G : Matrix
        An undirected graph; loops don't count.
    rounds : int, default 10
        The most rounds.
    progress : callable, optional
        `progress('round', k, rounds)` is called after each round.
    check : bool, default True
        Whether to check that the graph is undirected: once, 13 steps per edge and 5 per vertex.

    Returns
    -------
    Matrix
        A column with a vertex for each; `.sets()` has the communities.

    Raises
    ------
    ValueError
        If `rounds` is below 1, or the graph is directed.
    BudgetExceeded
        If the budget runs out; `partial` has the labels of the last round.

    See Also
    --------
    louvain : Communities of great modularity.
    modularity : How good communities are.

    Notes
    -----
    Cost: per round, up to 5 steps per edge and 9 per distinct label among a vertex's neighbours, in
    3 runs. 4 steps per edge once.

    GraphBLAS: G times a matrix with a one at each vertex's label; then the greatest of each row.
    LAGraph: `LAGraph_cdlp`, as LDBC Graphalytics defines it. networkx:
    `label_propagation_communities` breaks ties by another rule.

    Examples
    --------
    >>> import spmat
    >>> from spmat.algorithms import label_propagation
    >>> G = spmat.Session().from_edgelist(
    ...     [(0, 1), (0, 2), (1, 2), (2, 3), (3, 4), (3, 5), (4, 5)], directed=False)
    >>> label_propagation(G).to_list()
    [0, 0, 0, 2, 2, 2]
    """
    count = G.nrows
    graph, own = G.select('offdiag', 0), numpy.arange(count)
    # how many have a label, and of those with as many the least label, in one number
    best = asm('index', 'mov64 r0, r1\nmul64 r0, %d\nadd64 r0, %d\nsub64 r0, r3\nexit\n'
               % (max(count, 1), count - 1))

    def next_labels(labels: Array) -> Array:
        have = keep(G, Triples(own, labels, numpy.ones_like(own), count, count))
        words = product(graph, have, 'plus_pair').apply(best, right=0).reduce_rowwise('max')
        at, values = read_column(words)
        taken = labels.copy()
        taken[at] = count - 1 - values % count
        return taken
    labels = own
    for number in range(1, rounds + 1):
        with keep_partial(lambda: None if labels is own else beside(G, put_all(G, labels))):
            before, labels = labels, next_labels(labels)
        tell(progress, 'round', number, rounds)
        if numpy.array_equal(before, labels):
            break
    return beside(G, put_all(G, labels))


# -- modularity

def double_loops(graph: Matrix, weighted: bool) -> Matrix:
    """The values that count, those of loops twice, as both ends of a loop are at its vertex."""
    values = graph if weighted else graph.apply('one')
    return values.ewise_add(values.select('diag'), 'plus') if has_loops(graph) else values


def number_labels(labels: Array) -> Tuple[Array, int]:
    """Labels as numbers from 0 on, by their first vertices, and how many there are."""
    _, first, which = numpy.unique(labels, return_index=True, return_inverse=True)
    ranks = numpy.empty(len(first), numpy.int64)
    ranks[numpy.argsort(first)] = numpy.arange(len(first))
    return ranks[which.reshape(-1)], len(first)


@algorithm('how many more edges lie within communities than by chance', command=False)
def modularity(G: Matrix, labels: Partition, resolution: float = 1.0, *,
               weighted: bool = False) -> float:
    """The modularity of communities.

    That is the share of edges inside communities, minus `resolution` times an expected share. The
    latter is that of edges drawn at random between vertices of the same degrees.

    Parameters
    ----------
    G : Matrix
        The graph. Loops count as networkx has them.
    labels : Matrix, dict, or list of sets
        The communities: the result of `louvain`, or another column with a number per community; a
        dict {vertex: community}; or sets or lists of vertices.
    resolution : float, default 1.0
        The weight of the expected share.
    weighted : bool, default False
        Whether values count as weights; otherwise each edge counts as 1.

    Returns
    -------
    float
        Exact up to the last rounding.

    Raises
    ------
    ValueError
        If a vertex is in no community or in two, or isn't in the graph; if values add up to 0, or
        could pass 2^62.
    TypeError
        If communities have another form.

    See Also
    --------
    louvain : Communities of great modularity.
    label_propagation : Communities by labels.

    Notes
    -----
    Cost: up to 22 steps per edge, in 12 runs.

    networkx: `modularity`.

    Examples
    --------
    >>> import spmat
    >>> from spmat.algorithms import modularity
    >>> G = spmat.Session().from_edgelist(
    ...     [(0, 1), (0, 2), (1, 2), (2, 3), (3, 4), (3, 5), (4, 5)], directed=False)
    >>> round(modularity(G, [{0, 1, 2}, {3, 4, 5}]), 3)
    0.357
    """
    numbers, many = number_communities(G, labels)
    least, most = extremes(G) if weighted else (1, 1)
    if max(most, -least) * max(1, G.nvals) >= MOST_SUM:
        raise ValueError('weights add up to less than 2^62: here %d are %d to %d; divide them'
                         % (G.nvals, least, most))
    rows, columns, values = _edges_between(G, weighted, numbers, many)
    out, come = (_add_up(ends, values, many) for ends in (rows, columns))
    inside, drawn = int(values[rows == columns].sum()), sum(a * b for a, b in zip(out, come))
    return float(compute_modularity(inside, sum(out), drawn, resolution))


def _edges_between(G: Matrix, weighted: bool, numbers: Array,
                   many: int) -> Tuple[Array, Array, Array]:
    """The edges from community to community, those of a small graph one by one."""
    if not (is_small(G) and is_ample(G)):
        graph = double_loops(G, weighted) if is_both_ways(G) else G if weighted else G.apply('one')
        folded = contract(graph, (numpy.arange(len(numbers)), numbers), many, 'plus')
        return folded.to_coo()
    edges = held_edges(G)
    tails, heads = edges.tails, edges.heads
    values = edges.values if weighted else numpy.ones_like(heads)
    values = values * (1 + (tails == heads)) if is_both_ways(G) else values
    return numbers[tails], numbers[heads], values


def _add_up(at: Array, values: Array, count: int) -> List[int]:
    if int(numpy.abs(values).sum()) < 1 << FLOAT_BITS:
        return [int(one) for one in numpy.bincount(at, values, count)]
    sums = numpy.zeros(count, numpy.int64)
    numpy.add.at(sums, at, values)
    return sums.tolist()  # type: ignore[no-any-return]


def compute_modularity(inside: int, total: int, drawn: int, resolution: float) -> Fraction:
    """Of what lies inside communities, of all, and of the products of what leaves and enters each,
    added up."""
    if total <= 0:
        raise ValueError('modularity is of graphs whose edges weigh something: here all of them '
                         'add ' 'up to %d' % total)
    return Fraction(inside, total) - Fraction(resolution) * Fraction(drawn, total * total)


def number_communities(graph: Matrix, partition: Partition) -> Tuple[Array, int]:
    """The community of each vertex as a number from 0 on, and how many there are. ValueError where
    a vertex has none, or several, or isn't one of the graph's; TypeError for what has none of the
    forms."""
    if hasattr(partition, 'to_coo') and hasattr(partition, 'nodes'):
        rows, values = _read_column(graph, cast(Matrix, partition))
        if numpy.array_equal(rows, numpy.arange(graph.nrows)):
            return number_labels(values)
        members: Iterable[Tuple[int, Any]] = zip(rows, values.tolist())
    else:
        members = _read_members(graph, partition)
    found: Dict[int, Any] = {}
    for at, community in members:
        if at in found:
            raise ValueError('the vertex %r is in a community twice: each has to be in one'
                             % (name_of(graph, Place(at)),))
        found[at] = community
    missing = [at for at in range(graph.nrows) if at not in found]
    if missing:
        some = ', '.join(repr(name_of(graph, Place(at))) for at in missing[:SHOWN])
        raise ValueError('%d of %d vertices are in no community (%s%s): each has to be in one' % (
            len(missing), graph.nrows, some, ', ..' if len(missing) > SHOWN else ''))
    numbers: Dict[Any, int] = {}
    labels = [numbers.setdefault(found[at], len(numbers)) for at in range(graph.nrows)]
    return numpy.array(labels, numpy.int64), len(numbers)


def _read_members(graph: Matrix, partition: Any) -> Iterable[Tuple[int, Any]]:
    """The row of each vertex that has a community, and that."""
    if hasattr(partition, 'items'):                # a mapping, or a Series
        pairs = partition.items()
    else:
        pairs = [(vertex, number) for number, vertices in enumerate(_listed(partition))
                 for vertex in _listed(vertices)]
    return [(int(find_place(graph, vertex)), community) for vertex, community in pairs]


def _listed(given: object) -> Iterable[Any]:
    """Some vertices, or some sets of them. TypeError for what is neither."""
    if isinstance(given, (str, bytes)) or not hasattr(given, '__iter__'):
        raise TypeError('communities are a column as louvain gives it, {vertex: community}, or a '
                        'list of sets of vertices: %s is no such set' % shown(given))
    return given


def _read_column(graph: Matrix, column: Matrix) -> Tuple[Sequence[int], Array]:
    """The rows of vertices, and what a column says of them: by name where its vertices have other
    names than the graph's, or another order."""
    rows, _, values = column.to_coo()
    names, others = column.nodes, graph.nodes
    if names is not None and others is not None and column.ncols == 1 and [*names] != [*others]:
        return [int(find_place(graph, names[at])) for at in rows.tolist()], values
    if column.shape != (graph.nrows, 1):
        raise ValueError('labels are a column with a community for each of %d vertices, and this '
                         'one is %dx%d' % (graph.nrows, *column.shape))
    joined(graph.notes, column.notes, VERTICES)
    return rows.tolist(), values


# -- Louvain's method


class _Edges(NamedTuple):
    """Edges by the vertices that they leave, ascending, without loops."""
    rows: Array
    columns: Array
    values: Array

    def select(self, some: Array) -> '_Edges':
        """Those for which a flag is set."""
        return _Edges(self.rows[some], self.columns[some], self.values[some])


class _Level:
    """One level: a graph whose vertices move between communities. The client has its edges."""

    def __init__(self, graph: Matrix, resolution: float) -> None:
        rows, columns, values = graph.to_coo()
        self.count, self.resolution, self.total = graph.nrows, resolution, int(values.sum())
        self.weights = numpy.bincount(rows, values, self.count)
        self._loops = int(values[rows == columns].sum())
        self.edges = _Edges(rows, columns, values.astype(float)).select(rows != columns)
        self.labels = numpy.arange(self.count)
        self._sums, self._sizes = self.weights.copy(), numpy.ones(self.count, numpy.int64)

    def modularity(self) -> float:
        """That of the communities, exact up to the last rounding."""
        rows, columns, values = self.edges
        inside = int(values[self.labels[rows] == self.labels[columns]].sum()) + self._loops
        drawn = sum(int(many) ** 2 for many in self._sums.tolist())
        return float(compute_modularity(inside, self.total, drawn, self.resolution))

    def settle(self, seed: int) -> float:
        """Sweeps while these gain; the modularity of the best communities, which are kept."""
        turns = draw_on_paper(self.count, seed)[self.edges.rows] % BATCHES
        batches = [self.edges.select(turns == number) for number in range(BATCHES)]
        best, labels = self.modularity(), self.labels.copy()
        moves = numpy.ones(self.count, bool)
        for _ in range(SWEEPS):
            moves = self._sweep(batches, moves)
            if not moves.any():
                break
            found = self.modularity()
            gained = found - best
            if gained > 0:
                best, labels = found, self.labels.copy()
            if gained < ENOUGH:
                break
        self.labels = labels
        return best

    def _sweep(self, batches: List[_Edges], moves: Array) -> Array:
        """Lets each vertex that may move go where it gains most, batch after batch. Which may move
        next: those beside one that went."""
        before = self.labels.copy()
        for batch in batches:
            some = batch if moves.all() else batch.select(moves[batch.rows])
            if len(some.rows):
                self._move(some)
        went = self.labels != before
        beside_ = numpy.zeros(self.count, bool)
        beside_[self.edges.columns[went[self.edges.rows]]] = True
        return beside_

    def _move(self, edges: _Edges) -> None:
        """Moves the vertices that some edges leave, all at once."""
        keys = edges.rows * self.count + self.labels[edges.columns]
        ranks = numpy.argsort(keys, kind='stable')
        keys = keys[ranks]
        starts = _find_starts(keys)
        near = numpy.add.reduceat(edges.values[ranks], starts)    # of a vertex to a community
        at, label = numpy.divmod(keys[starts], self.count)
        firsts = _find_starts(at)
        counts = numpy.diff(numpy.append(firsts, len(at)))
        weight, is_own = self.weights[at], label == self.labels[at]
        scale = self.resolution / self.total
        gains = near - scale * weight * (self._sums[label] - weight * is_own)
        best = numpy.maximum.reduceat(gains, firsts)
        vertices = at[firsts]
        own = self.labels[vertices]
        stays = -scale * weight[firsts] * (self._sums[own] - weight[firsts])
        stays[numpy.repeat(numpy.arange(len(firsts)), counts)[is_own]] = gains[is_own]
        tops = numpy.flatnonzero(gains == numpy.repeat(best, counts))
        tops = tops[_find_starts(at[tops])]        # of several best the least label
        self._go(vertices, label[tops], best > stays + 1e-12)

    def _go(self, vertices: Array, labels: Array, gains: Array) -> None:
        """Moves vertices that gain by it. Of two that are alone and want to join each other one
        stays."""
        own = self.labels[vertices]
        alone = (self._sizes[own] == 1) & (self._sizes[labels] == 1)
        goes = gains & ~(alone & (labels > own))
        vertices, labels, own = vertices[goes], labels[goes], own[goes]
        weights = self.weights[vertices]
        for change, community in ((-1, own), (1, labels)):
            self._sums += change * numpy.bincount(community, weights, self.count)
            self._sizes += change * numpy.bincount(community, minlength=self.count)
        self.labels[vertices] = labels


def _find_starts(ascending: Array) -> Array:
    """Where each number of an ascending array, which isn't empty, begins."""
    differ = numpy.ones(len(ascending), bool)
    numpy.not_equal(ascending[1:], ascending[:-1], out=differ[1:])
    return numpy.flatnonzero(differ)


class _Reached(NamedTuple):
    """The best communities that were found: a number for each vertex, their modularity, and after
    how many levels."""
    labels: Array
    modularity: float
    levels: int

    def communities(self, G: Matrix) -> Communities:
        """The same, each by its least vertex."""
        _, first, which = numpy.unique(self.labels, return_index=True, return_inverse=True)
        return as_result(Communities, beside(G, put_all(G, first[which.reshape(-1)])),
                         modularity=self.modularity, levels=self.levels)


@algorithm('communities of great modularity, by a vertex of each', are_vertices=True,
           tells=lambda result: 'modularity %.6f' % result.modularity, wanted=BOTH_WAYS,
           says='Communities by Louvain\'s method; their modularity is told on standard error.')
def louvain(G: Matrix, resolution: float = 1.0, seed: Seed = 0, progress: Progress = None, *,
            weighted: bool = False, check: bool = True) -> Communities:
    """Communities of great modularity in an undirected graph, by Louvain's method.

    Parameters
    ----------
    G : Matrix
        An undirected graph. Loops count.
    resolution : float, default 1.0
        A greater one gives smaller communities.
    seed : int, None, or a generator of random or numpy, default 0
        Draws the order in which vertices move. None draws a new one at each call.
    progress : callable, optional
        `progress('level', k, 0)` is called after each level.
    weighted : bool, default False
        Whether values count as weights, 0 or more; otherwise each edge counts as 1.
    check : bool, default True
        Whether to check that the graph is undirected: once, 13 steps per edge.

    Returns
    -------
    Communities
        A column of labels with their `modularity`. A label is the least vertex of its community;
        `.sets()` has the communities.

    Raises
    ------
    ValueError
        If the graph is directed, a value is below 0, or the values add up to nothing, or to 2^53 or
        more.
    BudgetExceeded
        If the budget runs out; `partial` has the best communities by then, with their modularity.

    See Also
    --------
    modularity : How good communities are.
    label_propagation : A faster method.

    Notes
    -----
    In each sweep, an eighth of the vertices at a time move to the neighbouring community that gains
    most; the seed draws the order. Sweeps end when the modularity gains no more. Each community
    then becomes a vertex of the next level. There are up to 16 levels of up to 20 sweeps.

    Cost: up to 20 steps per edge of a level, and 3 runs per level.

    networkx: `louvain_communities`. igraph: `community_multilevel`.

    Examples
    --------
    >>> import spmat
    >>> from spmat.algorithms import louvain
    >>> G = spmat.Session().from_edgelist(
    ...     [(0, 1), (0, 2), (1, 2), (2, 3), (3, 4), (3, 5), (4, 5)], directed=False)
    >>> louvain(G).sets()
    [{0, 1, 2}, {3, 4, 5}]
    """
    count = G.nrows
    if weighted:
        check_weights(G, FLOAT_BITS)
    graph, chance = double_loops(G, weighted), generator_of(seed)
    level = _Level(graph, resolution)
    now = _Reached(numpy.arange(count), level.modularity(), 0)
    with keep_partial(lambda: now.communities(G) if now.levels else None):
        while now.levels < MOST_LEVELS:
            found = level.settle(chance.getrandbits(32))
            numbers, many = number_labels(level.labels)
            tell(progress, 'level', now.levels + 1)
            if found <= now.modularity + LEAST:
                return now._replace(levels=now.levels + 1).communities(G)
            now = _Reached(numbers[now.labels], found, now.levels + 1)
            graph = contract(graph, (numpy.arange(len(numbers)), numbers), many, 'plus')
            level = _Level(graph, resolution)
    return now.communities(G)


# -- cores

COUNTS = Semiring(binary.plus, binary.first)
GONE = UNKNOWN = -1
MOST_READ = 1 << 22                            # edges that are read where all vertices fall
SPARSE = 16                                    # so many vertices for an edge are many


class Peeling:
    """The vertices that are left of a graph, with their degrees there. Where the client has the
    edges it looks at those of the vertices that fall. Else these push one each along their edges:
    their neighbours lose so much, and nobody else is looked at."""

    def __init__(self, G: Matrix, progress: Progress, edges: Optional[Edges]) -> None:
        self.lines, self.edges = find_traversal(G, G, False), edges
        self.progress, self.number = progress, 0
        self.left = (spread(read_column(count_edges(G)), G.nrows) if edges is None
                     else numpy.diff(edges.starts))
        self.alive = numpy.flatnonzero(self.left)

    def least(self) -> Optional[int]:
        """The least degree among those that are left, None where nobody is. Vertices of degree 0
        aren't counted."""
        self.alive = self.rest()
        return int(self.left[self.alive].min()) if len(self.alive) else None

    def rest(self) -> Array:
        """Those that are left, and have a neighbour."""
        rest: Array = self.alive[self.left[self.alive] > 0]
        return rest

    def peel(self, k: int) -> Iterator[Array]:
        """Takes away those with fewer than k neighbours, until none is left; who they were, by
        rounds. A vertex whose last neighbour falls is left with degree 0, and falls, too."""
        had = self.left[self.alive]
        fallen, many = self.alive[(had > 0) & (had < k)], int((had > 0).sum())
        while len(fallen):
            self.left[fallen] = GONE
            many -= len(fallen)
            yield fallen
            # nobody looks at the edges of the last ones
            fallen = self._lose(fallen, k) if many else fallen[:0]
            self.number += 1
            tell(self.progress, 'round', self.number)

    def _lose(self, fallen: Array, k: int) -> Array:
        """The neighbours of those that fall lose them; who falls by it."""
        at, lost = self._count(fallen)
        stays = self.left[at] != GONE
        at = at[stays]
        self.left[at] -= lost[stays]
        falls: Array = at[self.left[at] < k]
        return falls

    def _count(self, fallen: Array) -> Vector:
        """The vertices to which those that fall have edges, and how many."""
        if self.edges is None:
            return self.lines.push(Vector(fallen, numpy.ones_like(fallen)), COUNTS)
        heads = self.edges.heads[self.edges.leaving(fallen)[1]]
        heads = heads[self.left[heads] != GONE]
        if SPARSE * len(heads) > len(self.left):
            counts = numpy.bincount(heads, minlength=len(self.left))
            at = numpy.flatnonzero(counts)
            return Vector(at, counts[at])
        heads.sort()
        firsts = numpy.flatnonzero(numpy.diff(heads, prepend=-1))
        return Vector(heads[firsts], numpy.diff(firsts, append=len(heads)))


class Core(Result):
    """The vertices of a core: a column with the number of neighbours that each has there. It is a
    matrix, but for `sets()`."""

    graph: Any

    def sets(self) -> List[Set[Any]]:
        """The connected components of the core, as sets of vertices, by their names where the graph
        has any, the largest first. Costs: those of `connected_components` of the core, and 2
        runs."""
        at = self.to_coo()[0]
        part = _among(self.graph, at)
        labels = label_components(part, part, None, False)
        names = self.nodes
        labels.nodes = Nodes(at.tolist() if names is None else [names[vertex] for vertex in at])
        found: List[Set[Any]] = labels.sets()
        return found


@algorithm('vertices with k neighbours or more', wanted=WITHOUT_LOOPS, ranked=True,
           runs=lambda g: 3 * g.rounds + 3, ranges={'k': (0, None)})
def k_core(G: Matrix, k: int, progress: Progress = None, *, check: bool = True) -> Core:
    """The vertices of the largest part of a graph in which each has at least k neighbours.

    Parameters
    ----------
    G : Matrix
        An undirected graph without loops.
    k : int
        The least number of neighbours in the core; with 0, all vertices are left.
    progress : callable, optional
        `progress('round', i, 0)` is called after each round.
    check : bool, default True
        Whether to check that the graph is undirected and has no loops: once, 18 steps per edge and
        5 per vertex.

    Returns
    -------
    Core
        A column with the numbers of neighbours in the core; `.sets()` has the core's components.

    Raises
    ------
    ValueError
        If k is below 0, the graph has loops, or the graph is directed.

    See Also
    --------
    core_numbers : The greatest k of each vertex.
    k_truss : The same with triangles.

    Notes
    -----
    Each round removes vertices with too few neighbours, and looks at their neighbours alone.

    Cost: up to 5 steps per edge, and 1 run per round. A graph of up to 65,536 edges takes 1 run:
    the client reads it.

    GraphBLAS: `vxm` over plus and first. LAGraph: `LAGraph_KCore`. networkx: `k_core`.

    Examples
    --------
    >>> import spmat
    >>> from spmat.algorithms import k_core
    >>> G = spmat.Session().from_edgelist(
    ...     [(0, 1), (0, 2), (1, 2), (2, 3), (3, 4), (3, 5), (4, 5)], directed=False)
    >>> k_core(G, 2).by_node()
    {0: 2, 1: 2, 2: 3, 3: 3, 4: 2, 5: 2}
    """
    peeling = Peeling(G, progress, held_edges(G) if is_small(G) else None)
    for _ in peeling.peel(k):
        pass
    at = numpy.flatnonzero(peeling.left >= k)
    return as_result(Core, beside(G, put_column(G, Vector(at, peeling.left[at]))), graph=G)


@algorithm('the greatest k of a core with each vertex', wanted=WITHOUT_LOOPS, ranked=True,
           runs=lambda g: 3 * g.rounds + 3)
def core_numbers(G: Matrix, progress: Progress = None, *, check: bool = True) -> Matrix:
    """The core number of each vertex, as a column: the greatest k whose k-core contains it.

    Parameters
    ----------
    G : Matrix
        An undirected graph without loops.
    progress : callable, optional
        `progress('round', i, 0)` is called after each round.
    check : bool, default True
        As for `k_core`.

    Returns
    -------
    Matrix
        A column; 0 for a vertex without neighbours.

    Raises
    ------
    ValueError
        If the graph has loops, or the graph is directed.
    BudgetExceeded
        If the budget runs out; `partial` has an entry for each vertex whose number is known.

    See Also
    --------
    k_core : The core for one k.
    degrees : The number of neighbours.

    Notes
    -----
    The graph is peeled once, for all k, by the client, which reads the edges.

    Cost: no step, and 1 run; on a graph of more than 4,194,304 edges up to 10 steps per edge, and 1
    run per round.

    LAGraph: `LAGraph_KCore` for all k. networkx: `core_number`. igraph: `coreness`.

    Examples
    --------
    >>> import spmat
    >>> from spmat.algorithms import core_numbers
    >>> G = spmat.Session().from_edgelist(
    ...     [(0, 1), (0, 2), (1, 2), (2, 3), (3, 4), (3, 5), (4, 5)], directed=False)
    >>> core_numbers(G).to_list()
    [2, 2, 2, 2, 2, 2]
    """
    is_read = is_whole(G) and G.nvals <= MOST_READ
    peeling = Peeling(G, progress, held_edges(G) if is_small(G)
                      else load_edges(G) if is_read else None)
    cores: Array = numpy.zeros(G.nrows, numpy.int64)
    cores[peeling.alive] = UNKNOWN
    with keep_partial(lambda: beside(G, put_known(G, cores, UNKNOWN))):
        k = peeling.least()
        while k is not None:
            for fallen in peeling.peel(k + 1):
                cores[fallen] = k
            k = peeling.least()
    return beside(G, put_all(G, cores))


def _among(graph: Matrix, at: Array) -> Matrix:
    """The graph of some vertices alone, which have the numbers from 0 on."""
    many = len(at)
    return graph if many == graph.nrows else contract(graph, (at, numpy.arange(many)), many, 'any')
