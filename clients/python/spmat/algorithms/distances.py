"""Distances and centrality by paths: the lengths of all paths, how far the farthest vertex is, how
many vertices are how far, betweenness and closeness."""
from __future__ import annotations

import functools
import itertools
from typing import Any, Callable, Dict, List, Mapping, NamedTuple, Optional, Tuple, Union

import numpy

from .. import metadata
from ..errors import about, refusal
from ..integers import shown
from ..limits import MOST_SIDE
from ..loops import Loop, State, empty
from ..matrix import Matrix
from ..matrix_base import is_same, with_unit, without_names
from ..operators import Operator, Semiring, asm, binary
from ..types import Array, Place, Vertices
from .cached_properties import extremes, is_both_ways, is_transpose, transpose_of
from .components import label_strong_components
from .registry import algorithm
from .results import Centrality, as_centrality, unit_of
from .searches import CYCLE, LENGTHEN, REACHED, TOO_LONG, Search, run_search
from .traversal import NONE, find_traversal, is_whole, put_all, read_column, read_row, spread
from .utils import (Progress, beside, count_edges, find_places, find_sources, loops, mark_rows,
                    name_of, name_rows, nothing, product, tell, warn_of_repeated)

__all__ = ['all_pairs', 'betweenness', 'Bounds', 'closeness', 'diameter', 'distance_counts',
           'eccentricity', 'path_lengths', 'transitive_closure']

# entries a row up to which the graph is squared, so that one push covers more edges
SHORT = 16
GROWTH = 3              # and only where a square has no more than so many times the entries
# of a graph with more entries than MANY it is asked first whether a square has more than DEAR
# multiplications for each
MANY, DEAR = 1 << 16, 64
MOST_HALF = (1 << 62) - 1
MARKED_BOUND = 1 << 61  # what lengths stay below for that a bit of each may be a mark
# 1 on the diagonal where the value is below 0, else 0
BELOW_ZERO = asm('index', 'mov64 r0, 0\njne64 r2, r3, 2\njsge64 r1, 0, 1\nmov64 r0, 1\nexit\n')
# Lengths are doubled, and the lowest bit is a mark: 1 where the length is less than what was known
# before.
MARK_SUM = asm('binary', 'mov64 r0, r1\nadd64 r0, r2\nor64 r0, 1\nexit\n', 'marked_sum')
IS_MARKED = asm('index', 'mov64 r0, r1\nand64 r0, 1\nexit\n', 'marked')
UNMARK = asm('unary', 'mov64 r0, r1\nand64 r0, -2\nexit\n', 'unmark')
LENGTHS = Semiring(binary.min, MARK_SUM)
ANY_PAIR = Semiring(binary.any, binary.pair)


class Way(NamedTuple):
    """How what is known spreads: by terms of a known entry and one of `reach`, marked. In their
    union with what is known the marked ones are new. Last, the known ones without marks."""
    terms: Semiring
    join: str
    is_new: Operator
    unmark: Operator


BY_LENGTH = Way(LENGTHS, 'min', IS_MARKED, UNMARK)
BY_REACH = Way(ANY_PAIR, 'first', asm('index', 'mov64 r0, r1\nexit\n', 'marked_reach'),
               asm('unary', 'mov64 r0, 0\nexit\n', 'unmark_reach'))


def _is_dear(near: Matrix) -> bool:
    """Whether a square has so many multiplications that it would hardly be sparse: of large graphs
    in which a few rows are long."""
    if near.nvals <= MANY:
        return False
    terms = near.mxv(near.apply('one').reduce_rowwise('plus'),
                     'plus_second').reduce_scalar('plus') or 0
    return terms > DEAR * near.nvals


def _squared(near: Matrix, way: Way) -> Tuple[Matrix, int]:
    """What lies within so many edges: `near`, squared while its rows are short, and that number. A
    push by it spares rounds."""
    edges = 1
    while near.nvals <= SHORT * near.nrows and edges < near.nrows and not _is_dear(near):
        further = near.ewise_add(product(near, near, way.terms), way.join)
        fresh, joined = further.select(way.is_new), further.apply(way.unmark)
        if fresh.nvals == 0 or joined.nvals > GROWTH * near.nvals:
            break
        near, edges = joined, 2 * edges
    return near, edges


def _spread(start: Matrix, fresh: Matrix, reach: Matrix, way: Way, progress: Progress,
            most: int = 1 << 62, signed: bool = False) -> Matrix:
    """What is known from the start on, when nothing new is added. In each round what is new is
    pushed by `reach`, so an entry is multiplied again only where it changed. Raises ValueError for
    a cycle of negative length."""
    known, number = start, 0
    while fresh.nvals:
        joined = known.ewise_add(product(fresh, reach, way.terms), way.join)
        fresh, known = joined.select(way.is_new), joined.apply(way.unmark)
        number += 1
        below = fresh.select(BELOW_ZERO, 0) if signed and fresh.nrows == fresh.ncols else None
        fresh.nvals                                                        # runs the batch
        if number > most or (below is not None and below.nvals):
            raise ValueError(CYCLE)
        tell(progress, 'round', number)
    return known


def _check_room(W: Matrix) -> None:
    """Raises TooLarge where the parts of the graph whose vertices all reach one another have more
    pairs than a matrix may hold."""
    if W.nrows ** 2 <= MOST_SIDE or not is_whole(W):
        return
    sizes = numpy.bincount(read_column(label_strong_components(W)).values)
    pairs = sum(many * many for many in sizes.tolist())
    if pairs > MOST_SIDE:
        raise refusal('J7', detail='%d pairs of vertices have a path: path_lengths takes some '
                      'sources at a time' % pairs)


@algorithm('lengths of shortest paths between all', values=True, lengths=True, plot=None)
def all_pairs(W: Matrix, progress: Progress = None) -> Matrix:
    """The length of the shortest path from each vertex (the row) to each (the column).

    Parameters
    ----------
    W : Matrix
        The graph; an entry's value is the length of its edge, and may be negative.
    progress : callable, optional
        `progress('round', k, 0)` is called after each round.

    Returns
    -------
    Matrix
        No entry where no path leads.

    Raises
    ------
    ValueError
        If there is a cycle of negative length, or lengths could pass 2^63.
    TooLarge
        If the result has more than 16,777,216 entries, as 4,097 vertices that all reach one another
        would give.

    See Also
    --------
    path_lengths : Lengths from some sources.
    transitive_closure : Only which vertices are reached.
    sssp : Lengths from one source.

    Notes
    -----
    Each round multiplies the lengths that changed in the previous round by the edges. While rows
    are short, the graph is squared first, so that a round covers 2, 4 or more edges of a path.

    Cost: per round, up to 9 steps per edge behind a changed pair and 12 per entry of the result, in
    3 runs. 8 runs once.

    A graph of more than 65,536 entries takes 6 more runs.

    GraphBLAS: `mxm` over min and plus. networkx: `all_pairs_bellman_ford_path_length`.

    Examples
    --------
    >>> import spmat
    >>> from spmat.algorithms import all_pairs
    >>> W = spmat.Session().from_triples(
    ...     [(0, 1, 2), (1, 2, 1), (2, 3, 4), (0, 3, 8)], 4, 4)
    >>> all_pairs(W)[0, 3]
    7
    """
    _check_room(W)
    least, most = extremes(W)
    if max(most, -least) * max(1, W.nrows) >= MARKED_BOUND:
        return _undirected_as(W, _by_squaring(W, progress))
    near = W.apply('times', right=2).ewise_add(loops(W, 0), 'min')
    reach, edges = _squared(near, BY_LENGTH)
    if least < 0:
        _check_cycles(reach)
    known = _spread(reach, reach, reach, BY_LENGTH, progress, W.nrows // edges + 2, least < 0)
    return _undirected_as(W, known.apply('arsh', right=1))


def _undirected_as(W: Matrix, lengths: Matrix) -> Matrix:
    """Lengths between all vertices, which are the same both ways where the graph is undirected."""
    lengths.notes = lengths.notes._replace(directed=metadata.even(W.notes))
    return lengths


def _by_squaring(W: Matrix, progress: Progress) -> Matrix:
    """All lengths where they leave no bit for a mark: the whole matrix squared until nothing
    changes."""
    count, lengths = W.nrows, W.ewise_add(loops(W, 0), 'min')
    for number in range(1, max(1, (count - 1).bit_length()) + 1):
        _check_sums(lengths)
        longer = product(lengths, lengths, 'min_plus')
        settled = longer.isequal(lengths)
        tell(progress, 'round', number)
        if settled:
            break
        lengths = longer
    _check_cycles(lengths)
    return lengths


def _check_sums(lengths: Matrix) -> None:
    """Raises ValueError where two lengths that are added would wrap, or there is a cycle of
    negative length already."""
    least, most = extremes(lengths)
    if max(most, -least) <= MOST_HALF:
        return
    _check_cycles(lengths)
    if product(lengths, lengths, TOO_LONG).reduce_scalar('max'):
        raise ValueError('lengths could pass 2^63 - 1: some are %d to %d, and two are added; '
                         'divide the values' % (least, most))


def _check_cycles(lengths: Matrix) -> None:
    if lengths.select(BELOW_ZERO, 0).nvals:
        raise ValueError(CYCLE)


@algorithm('lengths of shortest paths from some vertices', values=True, lengths=True, plot=None,
           hints={'sources': 'all_pairs(W) has the lengths from all vertices'})
def path_lengths(W: Matrix, sources: Vertices, progress: Progress = None) -> Matrix:
    """The length of the shortest path from each of some vertices to each vertex.

    Parameters
    ----------
    W : Matrix
        The graph; an entry's value is the length of its edge, and may be negative.
    sources : list of vertices
        Where paths begin.
    progress : callable, optional
        `progress('round', k, 0)` is called after each round.

    Returns
    -------
    Matrix
        A row for each source in their order; no entry where no path leads. Sources and the vertices
        that they reach make up to 16,777,216 entries. If a source is given twice, rows have no
        names, and a warning says so.

    Raises
    ------
    ValueError
        If a source is no vertex, lengths along a path could reach 2^60 in size, or a source reaches
        a cycle of negative length.

    See Also
    --------
    all_pairs : Lengths from all vertices.
    sssp : Lengths from one source.

    Notes
    -----
    It works as `all_pairs` does, on a row per source.

    Cost: up to 9 steps per edge behind a changed pair and 12 per entry of the result, per round,
    with 3 runs per round.

    GraphBLAS: `mxm` over min and plus. networkx: `multi_source_dijkstra_path_length`.

    Examples
    --------
    >>> import spmat
    >>> from spmat.algorithms import path_lengths
    >>> W = spmat.Session().from_triples(
    ...     [(0, 1, 2), (1, 2, 1), (2, 3, 4), (0, 3, 8)], 4, 4)
    >>> path_lengths(W, [0, 2]).to_dict()
    {(0, 0): 0, (0, 1): 2, (0, 2): 3, (0, 3): 7, (1, 2): 0, (1, 3): 4}
    """
    rows = find_places(W, sources)
    warn_of_repeated(W, rows)
    return name_rows(W, lengths_from(mark_rows(W, rows, 0), reach_of(W), progress), rows)


def reach_of(W: Matrix) -> Tuple[Matrix, int]:
    """How far what lies within so many edges is, and that number. ValueError where lengths of paths
    could be too large."""
    least, most = extremes(W)
    if max(most, -least) * max(1, W.nrows) >= MARKED_BOUND:
        raise ValueError('lengths of paths beyond 2^60: scale the weights')
    return _squared(W.apply('times', right=2).ewise_add(loops(W, 0), 'min'), BY_LENGTH)


def lengths_from(start: Matrix, reach: Tuple[Matrix, int], progress: Progress = None) -> Matrix:
    """As `path_lengths`, of a matrix with a 0 at the source of each row."""
    near, edges = reach
    known = _spread(start, start, near, BY_LENGTH, progress, start.ncols // edges + 2)
    return known.apply('arsh', right=1)


@algorithm('which vertices reach which', plot='spy')
def transitive_closure(G: Matrix, progress: Progress = None) -> Matrix:
    """An entry 1 from each vertex to each that a path of at least one edge leads to.

    Parameters
    ----------
    G : Matrix
        The graph; an entry (i, j) is an edge from i to j.
    progress : callable, optional
        `progress('round', k, 0)` is called after each round.

    Returns
    -------
    Matrix
        Rows are where paths begin, columns where they end.

    Raises
    ------
    TooLarge
        If the result has more than 16,777,216 entries.

    See Also
    --------
    all_pairs : The lengths of these paths.
    has_path : One pair.

    Notes
    -----
    It works as `all_pairs` does. Each pair is multiplied once by the edges behind it.

    Cost: up to 4 steps per edge behind a pair and 8 per entry of the result, per round, with 3 runs
    per round.

    GraphBLAS: `mxm` over any and pair. networkx: `transitive_closure`.

    Examples
    --------
    >>> import spmat
    >>> from spmat.algorithms import transitive_closure
    >>> W = spmat.Session().from_triples(
    ...     [(0, 1, 2), (1, 2, 1), (2, 3, 4), (0, 3, 8)], 4, 4)
    >>> transitive_closure(W).nvals
    6
    """
    _check_room(G)
    near, _ = _squared(G.apply('zero'), BY_REACH)
    return _spread(near, near, near, BY_REACH, progress).apply('one')


# -- distances in edges, 64 searches to a word
#
# A search is a bit. A word at a vertex has the bits of the searches that came to it; a product
# over "or" moves 64 of them along an edge at once, so that all searches together cost what n / 64
# of them would.

WORD = 64
# words at a vertex: more make the matrices larger, and nothing faster
MOST_WORDS = 32
# pairs of searches that may leave three quarters of the vertices, before all of these are searched
# from
PATIENCE = 6
# pairs of searches for the diameter
MOST_PAIRS = 32
# what counts values
BY_VALUES = {'weighted': 'all_pairs(W).reduce_rowwise("max") has the greatest length from each '
                       'vertex by values, and reduce_scalar("max") of it that of all'}
NEW = asm('binary', 'mov64 r0, r2\nxor64 r0, -1\nand64 r0, r1\nexit\n', 'new_bits')
MOVED, PUSHED = Semiring(binary.bor, binary.second), Semiring(binary.bor, binary.first)
BITS = asm('unary', '''\
mov64 r2, r1
rsh64 r2, 1
wide r3, %d
and64 r2, r3
sub64 r1, r2
mov64 r2, r1
rsh64 r2, 2
wide r3, %d
and64 r2, r3
and64 r1, r3
add64 r1, r2
mov64 r0, r1
rsh64 r0, 4
add64 r0, r1
wide r3, %d
and64 r0, r3
wide r3, %d
mul64 r0, r3
rsh64 r0, 56
exit
''' % (0x5555555555555555, 0x3333333333333333, 0x0f0f0f0f0f0f0f0f, 0x0101010101010101), 'bits')

Visit = Callable[[int, Matrix], None]


class Bounds(NamedTuple):
    """What a number is at least and at most.

    Attributes
    ----------
    least, most : int
        The bounds.
    """
    least: int
    most: int


def _words(count: int, entries: int) -> int:
    """Words at a vertex in one batch: as many as one job can push."""
    return max(1, min(-(-count // WORD), MOST_SIDE // max(1, entries), MOST_WORDS))


def _bits(many: int) -> List[int]:
    """The bit of each of so many searches, in the words that they share."""
    return [1 << k % WORD if k % WORD < WORD - 1 else -1 << WORD - 1 for k in range(many)]


def _searches(G: Matrix, GT: Matrix, visit: Visit, progress: Progress) -> None:
    """Searches from all vertices along the edges of G, a batch at a time. `visit(level, fresh)`
    gets a matrix of words: those searches that come to a vertex (the row) with so many edges, and
    not with fewer."""
    count, words = G.nrows, _words(G.nrows, G.nvals)
    batch = words * WORD
    for first in range(0, count, batch):
        at = list(range(first, min(first + batch, count)))
        front = without_names(G.session.from_coo(at, [k // WORD for k in range(len(at))],
                                                 _bits(len(at)), count, words))
        seen, level = G.session.full(count, words, 0).ewise_add(front, 'bor'), 0
        while True:
            moved = GT.mxm(front, MOVED)
            front = moved.ewise_mult(seen, NEW).select('nonzero')
            if front.nvals == 0:
                break
            level += 1
            seen = seen.ewise_add(front, 'bor')
            visit(level, front)
        tell(progress, 'batch', first // batch + 1, -(-count // batch))


def _farthest(G: Matrix, sources: List[Place]) -> int:
    """How many edges lead to the vertex that is the farthest from any of some. The searches from
    these push along the edges, a word a row. Where each edge leads both ways, what the last two
    levels found is all that an edge may lead back to."""
    many, both_ways = len(sources), is_both_ways(G)
    start = without_names(G.session.from_coo([k // WORD for k in range(many)],
                                             list(map(int, sources)), _bits(many), -(-many // WORD),
                                             G.nrows))

    def step(s: State) -> Dict[str, Matrix]:
        moved = s.front.mxm(G, PUSHED)
        new = moved.ewise_add(s.near, NEW, mask=moved.S).select('nonzero')
        return {'front': new, 'near': new.ewise_add(s.front if both_ways else s.near, 'bor')}
    loop = Loop(step, {'front': start, 'near': start})
    loop.rounds(empty('front'), G.nrows + 1, lambda first, rounds: None)
    return loop.number - 1                         # the last round found nothing


def _list_counts(found: List[Matrix], given: Mapping[str, Any]) -> List[Tuple[Any, int, int]]:
    """A row for each vertex and distance, with a count."""
    counts = sorted((i, distance, count) for distance, column in enumerate(found, 1)
                    for i, _, count in column.to_triples())
    return [(name_of(given['G'], Place(i)), distance, count) for i, distance, count in counts]


@algorithm('from how many vertices paths lead to each', plot=None, rows=_list_counts,
           fields=('node', 'distance', 'vertices'),
           says='From how many vertices paths lead to each: vertex, number of edges, number of '
                'vertices.')
def distance_counts(G: Matrix, GT: Optional[Matrix] = None, progress: Progress = None, *,
                    check: bool = True) -> List[Matrix]:
    """At each distance, the number of vertices from which paths lead to each vertex.

    Parameters
    ----------
    G : Matrix
        The graph; an entry (i, j) is an edge from i to j.
    GT : Matrix, optional
        The transpose. By default the client makes it, once; for an undirected graph, pass G.
    progress : callable, optional
        `progress('batch', k, n)` is called after each batch of searches.
    check : bool, default True
        Whether to check that `GT` is the transpose: by 4 jobs, once.

    Returns
    -------
    list of Matrix
        Column k - 1 has, for each vertex, how many vertices have a shortest path of k edges to it.
        It has no entry if none has. For paths that leave each vertex, pass the transpose first, and
        G second.

    Raises
    ------
    ValueError
        If `GT` isn't the transpose.

    See Also
    --------
    eccentricity : The greatest distance of each vertex.
    closeness : A centrality by distances.
    all_pairs : The distances themselves.

    Notes
    -----
    Searches run from 64 vertices at once, or from up to 32 times 64 if one product has room for
    them.

    Cost: up to 3 steps per edge and 40 per vertex, per level and 64 searches; 4 runs per level of a
    batch.

    GraphBLAS: `mxm` over "or" and second. networkx: `closeness_centrality`, `harmonic_centrality`,
    `wiener_index` and `average_shortest_path_length` are sums of these columns.

    Examples
    --------
    >>> import spmat
    >>> from spmat.algorithms import distance_counts
    >>> G = spmat.Session().from_edgelist(
    ...     [(0, 1), (0, 2), (1, 2), (2, 3), (3, 4), (3, 5), (4, 5)], directed=False)
    >>> [column.to_list() for column in distance_counts(G)]
    [[2, 2, 3, 3, 2, 2], [1, 1, 2, 2, 1, 1], [2, 2, None, None, 2, 2]]
    """
    return count_distances(G, GT, progress, check)


def count_distances(G: Matrix, GT: Optional[Matrix], progress: Progress,
                    check: bool) -> List[Matrix]:
    """The columns of `distance_counts`."""
    GT = transpose_of(G, GT, check)
    found: List[Matrix] = []

    def visit(level: int, fresh: Matrix) -> None:
        many = fresh.apply(BITS).reduce_rowwise('plus')
        if level > len(found):
            found.append(many)
        else:
            found[level - 1] = found[level - 1].ewise_add(many, 'plus')
    _searches(G, GT, visit, progress)
    return [beside(G, many) for many in found]


@algorithm('edges from each vertex to the farthest one', ranked=True, hints=BY_VALUES)
def eccentricity(G: Matrix, GT: Optional[Matrix] = None, progress: Progress = None, *,
                 check: bool = True) -> Matrix:
    """The number of edges of the longest of the shortest paths from each vertex, as a column.

    Parameters
    ----------
    G : Matrix
        The graph; an entry (i, j) is an edge from i to j.
    GT : Matrix, optional
        The transpose. By default the client makes it, once; for an undirected graph, pass G.
    progress : callable, optional
        `progress('batch', k, n)` is called after each batch of searches.
    check : bool, default True
        Whether to check that `GT` is the transpose: by 4 jobs, once.

    Returns
    -------
    Matrix
        A column; no entry where no path begins. For a vertex that doesn't reach all others, it is
        the greatest distance to one that it reaches; networkx refuses such graphs.

    Raises
    ------
    ValueError
        If `GT` isn't the transpose.

    See Also
    --------
    diameter : The greatest of all.
    distance_counts : Numbers of vertices by distance.

    Notes
    -----
    Cost: that of `distance_counts`, with 5 runs per level of a batch.

    networkx: `eccentricity`. igraph: `eccentricity`.

    Examples
    --------
    >>> import spmat
    >>> from spmat.algorithms import eccentricity
    >>> G = spmat.Session().from_edgelist(
    ...     [(0, 1), (0, 2), (1, 2), (2, 3), (3, 4), (3, 5), (4, 5)], directed=False)
    >>> eccentricity(G).to_list()
    [3, 3, 2, 2, 3, 3]
    """
    GT = transpose_of(G, GT, check)
    found = [nothing(G)]

    def visit(level: int, fresh: Matrix) -> None:
        found[0] = found[0].ewise_add(fresh.reduce_rowwise('first').apply('second', right=level),
                                      'max')
    # along the edges
    _searches(GT, G, visit, progress)              # pylint: disable=arguments-out-of-order
    return beside(G, found[0])


@algorithm('edges between the two that are farthest apart', plot=None, fields=('least', 'most'),
           rows=lambda found, _: found.least if found.least == found.most else [found],
           hints=BY_VALUES)
def diameter(G: Matrix, GT: Optional[Matrix] = None, searches: Optional[int] = None,
             progress: Progress = None, *, check: bool = True) -> Bounds:
    """The number of edges of the longest of all shortest paths, as bounds.

    Parameters
    ----------
    G : Matrix
        The graph; an entry (i, j) is an edge from i to j.
    GT : Matrix, optional
        The transpose. By default the client makes it, once; for an undirected graph, pass G.
    searches : int, optional
        How many pairs of searches to make, one each way. The bounds may then differ; by default
        they are equal, and exact.
    progress : callable, optional
        `progress('search', k, searches)` is called after each pair, with 0 for no number, and
        `progress('batch', k, n)` after each batch.
    check : bool, default True
        Whether to check that `GT` is the transpose: by 4 jobs, once.

    Returns
    -------
    Bounds
        The number is from `least` to `most`.

    Raises
    ------
    ValueError
        If the graph has no vertex, some vertex doesn't reach all others, or `GT` isn't the
        transpose.

    See Also
    --------
    eccentricity : The number of each vertex.
    bfs_levels : One search.

    Notes
    -----
    Known distances bound all others (Takes and Kosters). Searches go on from the vertices that may
    have the greatest and the least, while that pays. The rest is searched in batches, as by
    `eccentricity`: few vertices on graphs of long paths, most on random ones.

    Cost: two `bfs_levels` per pair of searches, and a `distance_counts` of the vertices left.

    networkx: `diameter`. igraph: `diameter`.

    Examples
    --------
    >>> import spmat
    >>> from spmat.algorithms import diameter
    >>> G = spmat.Session().from_edgelist(
    ...     [(0, 1), (0, 2), (1, 2), (2, 3), (3, 4), (3, 5), (4, 5)], directed=False)
    >>> diameter(G)
    Bounds(least=3, most=3)
    """
    if G.nrows == 0:
        raise ValueError('the graph has no vertex')
    GT = transpose_of(G, GT, check)
    many = read_column(count_edges(G))
    most_joined = Place(int(many.at[many.values.argmax()]) if len(many.at) else 0)
    bounds = Eccentricities(most_joined, G.nrows, functools.partial(_both_levels, G, GT))
    left = bounds.narrow_while_it_pays(searches, progress)
    if searches is None:
        _search_left(G, bounds, progress)
    return Bounds(bounds.greatest,
                  int(bounds.most.max()) if searches is not None and left else bounds.greatest)


def _both_levels(G: Matrix, GT: Matrix, start: Place) -> Tuple[Array, Array]:
    """The distances from a vertex, and to it. ValueError where some vertex isn't reached, or
    doesn't reach it."""
    there = run_search(find_traversal(G, GT, False), Search([start]), False)
    back = there
    if not is_same(GT, G):
        back = run_search(find_traversal(GT, G, False), Search([start]), False)
    for levels, words in ((there, 'from %r to %r'), (back, 'to %r from %r')):
        if levels.min() == NONE:
            other = Place(int(levels.argmin()))
            raise ValueError('a vertex does not reach all others: there is no diameter, as no '
                             'path leads %s' % (words % (name_of(G, start), name_of(G, other))))
    return there, back


class Eccentricities:
    """What is known of the greatest distance from each vertex: at the `least`, and at the `most`;
    and the `greatest` that was found. `levels(v)` tells the distances from a vertex, and to it."""

    def __init__(self, start: Place, count: int,
                 levels: Callable[[Place], Tuple[Array, Array]]) -> None:
        self._levels, self._next, self._searched = levels, start, set[Place]()
        self.least, self.most = numpy.zeros(count, numpy.int64), numpy.full(count, count - 1)
        self.greatest = 0

    def left(self) -> Array:
        """The vertices that could have a greater distance than was found, those first that could
        have the greatest."""
        at = numpy.flatnonzero(self.most > self.greatest)
        ranked: Array = at[numpy.argsort(-self.most[at], kind='stable')]
        return ranked

    def narrow_while_it_pays(self, searches: Optional[int], progress: Progress) -> int:
        """Narrows the bounds by so many pairs of searches, or as long as it pays; how many vertices
        could have a greater distance then."""
        last, least_left = 0, len(self.most) + 1
        for number in itertools.count(1):
            self._narrow()
            left = len(self.left())
            tell(progress, 'search', number, searches or 0)
            if not left or number == searches:
                break
            if 4 * left < 3 * least_left:
                last, least_left = number, left
            if searches is None and (left <= WORD or number - last >= PATIENCE
                                     or number == MOST_PAIRS):
                break
        return left

    def _narrow(self) -> None:
        """Narrows all bounds by the distances from one vertex and to it, and chooses the next."""
        there, back = self._levels(self._next)
        far = int(there.max())
        self.greatest = max(self.greatest, far, int(back.max()))
        # a path to any vertex may go by the start; and the farthest one of it is no nearer than the
        # triangle allows
        self.most = numpy.minimum(self.most, back + far)
        self.least = numpy.maximum(self.least, numpy.maximum(far - there, back))
        self._searched.add(self._next)
        self._next = Place(int(self.most.argmax()))
        if len(self._searched) % 2 == 0 and Place(int(self.least.argmin())) not in self._searched:
            self._next = Place(int(self.least.argmin()))


def _search_left(G: Matrix, bounds: Eccentricities, progress: Progress) -> None:
    """Searches from all vertices that could have a greater distance than was found."""
    left = list(map(Place, bounds.left().tolist()))
    size = _words(len(left), G.nvals) * WORD
    batches = -(-len(left) // size)
    for number in range(batches):
        batch = left[number * size:(number + 1) * size]
        if bounds.most[int(batch[0])] > bounds.greatest:
            bounds.greatest = max(bounds.greatest, _farthest(G, batch))
        tell(progress, 'batch', number + 1, batches)


# -- closeness


# -- centralities by shortest paths

PATHS = Semiring(binary.plus, binary.first)
MOST_PATHS = 1 << 62
MOST_AT_ONCE = 1 << 22                             # entries of a batch
SCALE, CLOSENESS_SCALE = 1 << 20, 1 << 40
MOST_SUM = 1 << 62                                 # of the lengths to a vertex


class Fixed(NamedTuple):
    """How shares of paths are written as whole numbers: those of a path in units of 2^-bits,
    results in units of 1/scale. Then how many paths from one vertex keep what is lost by rounding
    below the tolerance."""
    bits: int
    scale: int
    most: int


class Batch:
    """Searches from some vertices, a row each. `front` has what each found at the last level, with
    the numbers of shortest paths that lead there."""

    def __init__(self, G: Matrix, sources: List[Place]) -> None:
        self.graph, self.both_ways = G, is_both_ways(G)
        self.front = mark_rows(G, sources, 1)
        self.marks = [self.front.apply('zero')]

    def advance(self) -> None:
        """Takes each search a level farther. A neighbour of what was found last is new, or was
        found in the last two levels, where each edge leads both ways; else in any before."""
        reached = product(self.front, self.graph, PATHS)
        for mark in self.marks:
            reached = reached.ewise_add(mark, 'zero')
        self.front = reached.select('nonzero')
        new = self.front.apply('zero')
        self.marks = [self.marks[-1],
                      new] if self.both_ways else [self.marks[0].ewise_add(new, 'first')]

    def back(self, shares: Matrix, counts: Matrix) -> Matrix:
        """What the next vertices on shortest paths have, added up, at those that have counts."""
        return product(shares, transpose_of(self.graph, None, False), PATHS, counts)


class Edges:
    """A graph by its edges, numbered in the order of their entries: from which vertex each leads,
    with its value, and to which; both also transposed. A product of a row for each search with
    these has a column for each edge, or for each vertex again."""

    def __init__(self, G: Matrix) -> None:
        tails, heads, values = G.to_coo()
        self.many = len(tails)
        self.leave = without_names(G.session.from_coo(tails, range(self.many), values, G.nrows,
                                                      self.many))
        self.enter = without_names(G.session.from_coo(range(self.many), heads, 1, self.many,
                                                      G.nrows))
        self.tails, self.heads = self.leave.T, self.enter.T
        self.reach = reach_of(G)


class Tight:
    """Searches from some vertices along the edges of shortest paths, by values. `front` has how
    many of so many edges lead to each vertex: one with shortest paths of several numbers of edges
    is found as often."""

    def __init__(self, edges: Edges, sources: List[Place], count: int) -> None:
        self._edges, many = edges, len(sources)
        rows = list(map(int, sources))
        self.front = without_names(edges.leave.session.from_coo(range(many), rows, 1, many, count))
        lengths = lengths_from(self.front.apply('zero'), edges.reach)
        there = product(lengths, edges.heads, REACHED)
        longer = product(lengths, edges.leave, LENGTHEN)
        self._tight = longer.ewise_mult(there, 'eq').select('nonzero')

    def advance(self) -> None:
        """Takes each search an edge farther."""
        self.front = product(product(self.front, self._edges.leave, REACHED, self._tight),
                             self._edges.enter, PATHS)

    def back(self, shares: Matrix, counts: Matrix) -> Matrix:
        """What the next vertices on shortest paths have, added up, at those that have counts."""
        return product(product(shares, self._edges.heads, REACHED, self._tight), self._edges.tails,
                       PATHS, counts)


@algorithm('shortest paths through each vertex', scale=SCALE, ranked=True,
           ranges={'scale': (1, 1 << 30)},
           says='How many shortest paths between two other vertices go through each vertex: for '
           'each two vertices the share of their shortest paths. Of an undirected graph each two '
           'vertices count once. With --source only paths from these count. With --weighted values '
           'of edges are lengths, 1 or more.')
def betweenness(G: Matrix, sources: Optional[Vertices] = None, tolerance: float = 1e-3,
                scale: int = SCALE, progress: Progress = None, *,
                weighted: bool = False) -> Centrality:
    """The betweenness of each vertex: how many shortest paths of two others go through it.

    Parameters
    ----------
    G : Matrix
        The graph; an entry (i, j) is an edge from i to j.
    sources : list of vertices, optional
        Count only paths from these, each direction by itself, as LAGraph does. By default paths
        from all vertices count, each pair of an undirected graph once.
    tolerance : float, default 1e-3
        Each number is too small by less than this and one unit per source; otherwise the call is
        refused.
    scale : int, default 2**20
        The units of 1, up to 2^30.
    progress : callable, optional
        `progress('source', k, n)` is called after each batch of sources.
    weighted : bool, default False
        Whether values are lengths, 1 or more; otherwise each edge has length 1.

    Returns
    -------
    Centrality
        A column in units of 1/scale: the shares of the shortest paths of all pairs, added up.
        `error` is the most by which a number is too small.

    Raises
    ------
    ValueError
        If there are too many paths, `scale` isn't 1 to 2^30, or with `weighted` a value is below 1
        or lengths are beyond 2^60.

    See Also
    --------
    closeness : A centrality by distances.
    pagerank : A centrality by links.

    Notes
    -----
    Brandes' algorithm in fixed point: a search from each source, forth and back. Paths are counted
    in 62 bits, so a graph with too many shortest paths is refused, such as a grid of 35 by 35.

    Cost: up to 10 steps per edge and 30 per vertex, per source; 12 runs per level of a batch of
    4,194,304 / n sources.

    A directed graph takes 20 more steps per vertex and level. With weights a batch has 4,194,304 /
    m sources of m edges, and the cost of `path_lengths` is added.

    LAGraph: `LAGr_Betweenness`. networkx: `betweenness_centrality` with `normalized=False`.

    Examples
    --------
    >>> import spmat
    >>> from spmat.algorithms import betweenness
    >>> G = spmat.Session().from_edgelist(
    ...     [(0, 1), (0, 2), (1, 2), (2, 3), (3, 4), (3, 5), (4, 5)], directed=False)
    >>> betweenness(G).by_node()
    {0: 0.0, 1: 0.0, 2: 6.0, 3: 6.0, 4: 0.0, 5: 0.0}
    """
    at, count = find_sources(G, sources), G.nrows
    if not 0 < tolerance < 1:
        raise about(ValueError('a tolerance lies between 0 and 1, and this one is %s'
                               % shown(tolerance)), 'tolerance')
    if count * len(at) * scale >= 1 << 62:
        raise ValueError('%d sources of %d vertices are too many for a scale of %d'
                         % (len(at), count, scale))
    edges = _edges(G) if weighted else None
    bits = 62 - count.bit_length()
    fixed = Fixed(bits, scale, int(tolerance * 2 ** bits))
    wide = max(count, edges.many if edges is not None else 1, 1)
    sums, size = numpy.zeros(count, numpy.int64), max(1, MOST_AT_ONCE // wide)
    paths = 0
    for first in range(0, len(at), size):
        some = at[first:first + size]
        paths = max(paths, _add(G, some, fixed, sums, edges))
        tell(progress, 'source', first + len(some), len(at))
    made, error = put_all(G, sums), _lost(len(at), count, paths, fixed)
    if sources is None and is_both_ways(G) and (not weighted or is_transpose(G, G, True)):
        made, error = made.apply('cdiv', right=2), error / 2 + 1 / scale
    return as_centrality(beside(G, made), scale, error, tolerance=tolerance)


def _lost(sources: int, count: int, paths: int, fixed: Fixed) -> float:
    """How far from the true one a number is at most. Each source may lose a unit of a share for
    each path, and one of the result. Where the one is no multiple of the other, a share of the
    number itself is lost, too, which is up to the number of pairs."""
    whole, rest = divmod(1 << fixed.bits, fixed.scale)
    units = sources * (paths / (1 << fixed.bits) + 1 / fixed.scale)
    return units + (sources * count / whole if rest else 0)


def _edges(G: Matrix) -> 'Edges':
    """The edges of a graph, whose values are lengths. ValueError where one is below 1."""
    least = extremes(G)[0]
    if least < 1 and G.nvals:
        raise ValueError('with weighted=True values are lengths of 1 or more, and here is one of '
                         '%d: along edges of 0 or less shortest paths have no number' % least)
    return Edges(G)


def _add(G: Matrix, sources: List[Place], fixed: Fixed, sums: Array,
         edges: Optional['Edges']) -> int:
    """Adds what the paths from some sources give to each vertex; the most shortest paths that one
    of these has."""
    search: Union[Batch, Tight] = Batch(G, sources) if edges is None else Tight(
        edges, sources, G.nrows)
    levels, total, paths = _counted(search, fixed, G.nvals)
    if len(levels) < 3:
        return 0
    if edges is not None:
        # what is behind a vertex doesn't depend on the number of edges up to it
        levels = [counts.ewise_mult(total, 'second') for counts in levels]
    inverse = asm('unary', 'wide r0, %d\ndiv64 r0, r1\nexit\n' % (1 << fixed.bits))
    share = asm('binary', 'mov64 r0, r1\nmul64 r0, r2\nwide r3, %d\ndiv64 r0, r3\nexit\n'
                % max(1, (1 << fixed.bits) // fixed.scale))
    shares = levels[-1].apply(inverse)
    through: Optional[Matrix] = None
    for counts in reversed(levels[1:-1]):
        came = search.back(shares, counts)
        here = came.ewise_mult(counts, share)
        through = here if through is None else through.ewise_add(here, 'first')
        shares = counts.apply(inverse).ewise_add(came, 'plus')
    assert through is not None
    at, values = read_row(through.reduce_columnwise('plus'))
    sums[at] += values
    return paths


def _counted(search: Union[Batch, Tight], fixed: Fixed,
             edges: int) -> Tuple[List[Matrix], Matrix, int]:
    """The numbers of paths that a search finds, level by level and in all, and the most of one
    source. ValueError where there are too many."""
    levels: List[Matrix] = []
    total, greatest, count = search.front, 1, search.front.ncols
    while search.front.nvals:
        if levels:
            total = total.ewise_add(search.front, 'plus')
        levels.append(search.front)
        # what came before, and a path along each edge that enters
        greatest *= min(count, max(1, edges)) + 1
        if greatest * count >= MOST_PATHS:
            greatest = total.reduce_scalar('max') or 0
            if greatest * count >= MOST_PATHS:
                raise ValueError('there are more than 2^62 shortest paths: they can not be counted '
                                 'in 64 bits')
        search.advance()
    paths = total.reduce_rowwise('plus').reduce_scalar('max') or 0
    if paths > fixed.most:
        raise ValueError('%d shortest paths from one vertex: shares would be rounded by more than '
                         'the tolerance; give a greater one' % paths)
    return levels, total, paths


# -- closeness

class Reach(NamedTuple):
    """Of each vertex, how many others reach it, and what their distances add up to."""
    others: Array
    total: Array


@algorithm('how near each vertex is to those that reach it', scale=CLOSENESS_SCALE,
           ranked=True, reads_unit=True, ranges={'scale': (1, 1 << 52)}, says='How near each '
           'vertex is to those that reach it: of r of n vertices, at distances that add up to d, '
           '(r - 1)/d times (r - 1)/(n - 1). With --weighted values of edges are lengths, 0 or '
           'more.')
def closeness(G: Matrix, GT: Optional[Matrix] = None, scale: int = CLOSENESS_SCALE,
              progress: Progress = None, *, weighted: bool = False,
              check: bool = True) -> Centrality:
    """The closeness centrality of each vertex, as a column in units of 1/scale.

    Parameters
    ----------
    G : Matrix
        The graph; an entry (i, j) is an edge from i to j.
    GT : Matrix, optional
        The transpose. By default the client makes it, once; for an undirected graph, pass G.
    scale : int, default 2**40
        The units of 1, up to 2^52.
    progress : callable, optional
        `progress('batch', k, n)` is called after each batch of searches.
    weighted : bool, default False
        Whether a distance is a sum of values, 0 or more; otherwise it is a number of edges.
    check : bool, default True
        Whether to check that `GT` is the transpose: by 4 jobs, once.

    Returns
    -------
    Centrality
        Say r of n vertices reach a vertex (itself included), at distances that add up to d. Its
        number is (r - 1)/d times (r - 1)/(n - 1), and 0 if no other reaches it. No number is
        farther from the true one than `error`.

    Raises
    ------
    ValueError
        If `scale` isn't 1 to 2^52, a length is below 0, lengths could add up to 2^62, or `GT` isn't
        the transpose.

    See Also
    --------
    distance_counts : Numbers of vertices by distance.
    betweenness : A centrality by paths.

    Notes
    -----
    Cost: that of `distance_counts`; with `weighted`, that of `path_lengths` from all vertices and 8
    steps per length.

    networkx: `closeness_centrality`, with `distance=` where values count. igraph: `closeness`,
    without the second factor.

    Examples
    --------
    >>> import spmat
    >>> from spmat.algorithms import closeness
    >>> G = spmat.Session().from_edgelist(
    ...     [(0, 1), (0, 2), (1, 2), (2, 3), (3, 4), (3, 5), (4, 5)], directed=False)
    >>> closeness(G, G, 1000).by_node()
    {0: 0.5, 1: 0.5, 2: 0.714, 3: 0.714, 4: 0.5, 5: 0.5}
    """
    count = G.nrows
    unit = unit_of(G, GT) if weighted else 1
    stored = with_unit(G, 1)
    G, GT = stored, stored if GT is G else None if GT is None else with_unit(GT, 1)
    reach = _sum_lengths(G, GT, progress, check) if weighted else _sum_edges(G, GT, progress, check)
    found = [r ** 2 * unit * scale // (d * max(1, count - 1)) if d else 0
             for r, d in zip(reach.others.tolist(), reach.total.tolist())]
    if max(found, default=0) >= 1 << 63:
        raise ValueError('a number of %.3g has no place in 64 bits in units of 1/%d: give a '
                         'smaller scale=' % (max(found) / scale, scale))
    return as_centrality(beside(G, put_all(G, found)), scale, 1 / scale)


def _sum_edges(G: Matrix, GT: Optional[Matrix], progress: Progress, check: bool) -> Reach:
    """By numbers of edges."""
    others, total = numpy.zeros((2, G.nrows), numpy.int64)
    for level, column in enumerate(count_distances(G, GT, progress, check), 1):
        at, values = read_column(column)
        others[at] += values
        total[at] += level * values
    return Reach(others, total)


def _sum_lengths(G: Matrix, GT: Optional[Matrix], progress: Progress, check: bool) -> Reach:
    """By values. Lengths to a vertex are those from it against the edges."""
    count, (least, most) = G.nrows, extremes(G)
    if least < 0:
        raise ValueError('with weighted=True values are lengths of 0 or more, and here is one of %d'
                         % least)
    reach = reach_of(transpose_of(G, GT, check, values=True))
    size = max(1, MOST_AT_ONCE // max(1, count))
    others, total = numpy.zeros((2, count), numpy.int64)
    for first in range(0, count, size):
        some = [Place(row) for row in range(first, min(first + size, count))]
        lengths = lengths_from(mark_rows(G, some, 0), reach)
        if most * count ** 2 >= MOST_SUM and (lengths.reduce_scalar('max')
                                              or 0) * count >= MOST_SUM:
            raise ValueError('lengths to one vertex could add up to more than 2^62: divide the '
                             'values')
        part = slice(first, first + len(some))
        others[part] = spread(read_column(lengths.apply('one').reduce_rowwise('plus')),
                              len(some)) - 1
        total[part] = spread(read_column(lengths.reduce_rowwise('plus')), len(some))
        tell(progress, 'batch', first // size + 1, -(-count // size))
    return Reach(others, total)
