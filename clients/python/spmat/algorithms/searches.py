"""Searches and shortest paths: by the number of edges from one vertex, or from many at once with a
row for each. They also go by values, as lengths, as the vertices of paths, and as trees."""
from __future__ import annotations

import functools
import heapq
import math
from typing import Any, Callable, Dict, Iterable, List, Mapping, NamedTuple, Optional, Set, Tuple

import numpy

from ..io.matrix_text import Triples
from ..loops import Loop, State, empty
from ..loops.trips import Round, report_rounds
from ..matrix import Matrix
from ..operators import Operator, Semiring, asm, binary
from ..scale import to_decimals
from ..types import Array, Place, Vertex, Vertices
from .cached_properties import extremes, found, is_both_ways, transpose_of
from .registry import algorithm
from .results import keep_partial, of_vertices, unless_empty
from .traversal import (NONE, SHORTEST, HeldRows, Levels, Traversal, Unseen, Vector, find_traversal,
                        find_vectors, held_edges, held_rows, is_ample, is_small, join, keep,
                        put_known, put_unsorted, select_known, vector_of)
from .utils import (Progress, beside, find_place, find_places, find_sources, mark_rows,
                    name_of, name_rows, names_of, product, tell, warn_of_repeated)

__all__ = ['bfs_levels', 'bfs_parents', 'has_path', 'k_hop', 'k_shortest_paths', 'NoPath', 'Path',
           'PathTree', 'shortest_path', 'shortest_paths', 'sssp']

REACHED = Semiring(binary.any, binary.first)
LEAST = Semiring(binary.min, binary.first)
# from a level to the next
ANY_NEXT = Semiring(binary.any, asm('binary', 'mov64 r0, r1\nadd64 r0, 1\nexit\n', 'next_level'))
KEPT = 1 << 10                                     # vertices of a front that isn't sent again
GATHERED = 32                                      # levels after which what was found is gathered
# rounds of a loop that looks for a target before its first look, and of one without a target
FEW_ROUNDS, MOST_ROUNDS = 8, 1 << 40
# places of searches from many whose levels in vain, behind the last one, cost little
FEW_PLACES = 1 << 18
# edges, of all searches together, that the client looks at in less time than a loop takes
MOST_HELD = 1 << 18


class Search(NamedTuple):
    """What a search looks for: its sources, how far it goes, at which vertex it stops, and who is
    told."""
    sources: List[Place]
    depth: Optional[int] = None
    target: Optional[Place] = None
    progress: Progress = None

    def is_over(self, level: int, numbers: Array) -> bool:
        """Whether a search is as far as it is wanted."""
        return level == self.depth or self.is_found(numbers)

    def is_found(self, numbers: Array) -> bool:
        """Whether the vertex has a number at which a search stops."""
        return self.target is not None and int(numbers[int(self.target)]) != NONE


class Reached(NamedTuple):
    """How far a search is: the level, the vertices of it, and those of the level before."""
    level: int
    front: Array
    before: Array

    @property
    def near(self) -> Array:
        """What an edge from the front may lead back to."""
        return numpy.concatenate((self.front, self.before))


def continue_search(G: Matrix, numbers: Array, reached: Reached, search: Search,
                    parents: bool) -> None:
    """Goes on with a search at the server. A vertex of the front has its level as its value, or its
    number plus one.

    A round has to do with what the state holds. Where each edge leads both ways that is little. A
    vertex that is found has been found in the last two levels, or no edge leads to it from the
    front."""
    level, front, near = reached.level, reached.front, reached.near
    begun = front + 1 if parents else numpy.full(len(front), level)
    state = {'front': put_unsorted(G, front, begun),
             'near': put_unsorted(G, near, near if parents else numpy.full(len(near), level))}

    def next_levels(s: State, k: int) -> Dict[str, Matrix]:
        new = s.front.mxm(G, ANY_NEXT).ewise_add(s.near, 'zero').select('valueeq', level + k)
        return {'front': new, 'near': new.ewise_add(s.front, 'any')}

    def next_parents(s: State) -> Dict[str, Matrix]:
        came = s.front.mxm(G, LEAST)
        new = came.ewise_add(s.near, 'zero', mask=came.S).select('nonzero')
        front = new.apply('colindex', right=1)
        return {'front': front, 'near': front.ewise_add(s.front, 'any'), 'new': new}
    shown = 'new' if parents else 'front'
    step: Callable[..., Dict[str, Matrix]] = next_levels
    if parents:
        step = next_parents
    loop = Loop(step, state, [shown], alike=True)
    tells = report_rounds(search.progress, 'level', level, result=shown)

    def heard(first: int, rounds: List[Round]) -> None:
        new = loop.shown[shown].drain()
        if search.is_found(numbers):               # these rounds were in vain
            return
        last = first + len(rounds) - 1
        if search.target is not None:
            last = int(new.rounds[new.places == int(search.target)].min(initial=last))
        near = new.rounds <= last
        numbers[new.places[near]] = new.values[near] - 1 if parents else new.rounds[near] + level
        tells(first, rounds[:last - first + 1])
    while not search.is_over(level + loop.number, numbers):
        most = look_ahead(search.target, loop.number)
        if search.depth is not None:
            most = min(most, search.depth - level - loop.number)
        if loop.rounds(empty('front'), most, heard):
            return


def look_ahead(target: Optional[Place], number: int) -> int:
    """How many rounds a loop makes before the next look at whether the target is found, which may
    be in vain by then: a quarter of those before."""
    return MOST_ROUNDS if target is None else max(FEW_ROUNDS, number // 4)


def run_search(lines: Traversal, search: Search, parents: bool,
               numbers: Optional[Array] = None) -> Array:
    """The level of each vertex that is found, or its parent; NONE for the others. They are noted in
    `numbers`, where these are given. Once all are found nobody looks at the edges that are left.
    """
    if numbers is None:
        numbers = numpy.full(lines.count, NONE)
    if isinstance(lines, HeldRows):
        _search_held(lines.graph, search, parents, numbers)
        return numbers
    front = numpy.array(search.sources, numpy.int64)
    unseen, before = Unseen(lines, front), front[:0]
    matrix: Optional[Matrix] = None
    numbers[front] = front if parents else 0
    level, left = 0, len(numbers) - len(front)
    while left and not search.is_over(level, numbers):
        if lines.may_loop(level):
            continue_search(lines.graph, numbers, Reached(level, front, before), search, parents)
            break
        new, matrix = _next_front(lines, numbers, front, matrix, unseen, parents)
        if not len(new.at):
            break
        level, left = level + 1, left - len(new.at)
        numbers[new.at] = new.values if parents else level
        unseen.note(new.at, matrix)
        if matrix is not None:                     # a small front is sent, which takes no step
            matrix = None if len(new.at) < KEPT else lines.number(matrix) if parents else matrix
        front, before = new.at, front
        tell(search.progress, 'level', level)
    return numbers


def _next_front(lines: Traversal, numbers: Array, front: Array, matrix: Optional[Matrix],
                unseen: Unseen, parents: bool) -> Tuple[Vector, Optional[Matrix]]:
    """Those that an edge leads to and that weren't seen; where the front is large, under a mask of
    these, with a matrix of them."""
    ring = LEAST if parents else REACHED
    start = Vector(front, front if parents else numpy.ones_like(front))
    if lines.pays_scan(len(front)):
        reached = lines.step(lines.put(start) if matrix is None else matrix, ring, unseen.mask())
        return lines.read(reached), reached
    got = lines.push(start, ring)
    keep = numbers[got.at] == NONE
    return Vector(got.at[keep], got.values[keep] if parents else got.values), None


def _search_held(G: Matrix, search: Search, parents: bool, numbers: Array) -> None:
    """`run_search` by the client."""
    levels = Levels(held_rows(G), map(int, search.sources))
    end = NONE if search.target is None else int(search.target)
    level = 0
    while (level != search.depth and end not in levels.seen and len(levels.seen) < G.nrows
           and levels.advance()):
        level += 1
        tell(search.progress, 'level', level)
    levels.note(numbers)
    if parents:
        edges = held_edges(G)
        # backwards, so that the least of several is put last
        leads = numpy.flatnonzero(numbers[edges.heads] == (numbers + 1)[edges.tails])[::-1]
        numbers[edges.heads[leads]] = edges.tails[leads]
        numbers[search.sources] = search.sources


def find_route(G: Matrix, start: Place, end: Place) -> List[Place]:
    """The vertices of a shortest path, of several predecessors the least; none where there is no
    path. The client searches from both ends, each time from where fewer vertices are in front."""
    back = held_rows(G, back=True)
    there, here = Levels(held_rows(G), [int(start)]), Levels(back, [int(end)])
    while there.found[-1].isdisjoint(here.found[-1]):
        is_less = len(there.found[-1]) <= len(here.found[-1])
        if not (there if is_less else here).advance():
            return []
    # on from where they met, along what leads to the end
    there.found[-1] &= here.found.pop()
    while here.found:
        there.advance()
        there.found[-1] &= here.found.pop()
    found = [int(end)]
    for level in there.found[-2::-1]:
        found.append(min(level.intersection(back[found[-1]])))
    return list(map(Place, found[::-1]))


def make_column(G: Matrix, missing: int, search: Callable[[Array], object]) -> Matrix:
    """The column of what a search notes of each vertex, where that isn't `missing`; of one that is
    refused amid its work that of what was known before."""
    numbers = numpy.full(G.nrows, missing)

    def column() -> Matrix:
        return beside(G, put_known(G, numbers, missing))
    with keep_partial(lambda: unless_empty(column())):
        search(numbers)
    return column()


def _search_column(G: Matrix, source: Vertices, GT: Optional[Matrix], progress: Progress,
                   depth: Optional[int], target: Optional[Vertex], check: bool,
                   parents: bool) -> Matrix:
    """The column of the search that a caller asks for. ValueError where a source or the target is
    no vertex."""
    many = find_places(G, source)
    if not many:
        raise ValueError('a search wants a vertex to begin with')
    end = None if target is None else find_place(G, target)
    search = Search(sorted(set(many)), depth, end, progress)
    return make_column(G, NONE, lambda numbers: run_search(find_traversal(G, GT, check), search,
                                                           parents, numbers))


@algorithm('edges from a vertex to each other one', plot='levels',
           runs=lambda g: 3 * (g.rounds + 1), ranges={'depth': (0, None)},
           hints={'weighted': 'sssp(W, source) has lengths by values'})
def bfs_levels(G: Matrix, source: Vertices, GT: Optional[Matrix] = None, progress: Progress = None,
               *, depth: Optional[int] = None, target: Optional[Vertex] = None,
               check: bool = True) -> Matrix:
    """How many edges lead from the source to each vertex, as a column.

    Parameters
    ----------
    G : Matrix
        The graph; an entry (i, j) is an edge from i to j.
    source : vertex or list of vertices
        Where the search begins. Of several sources the nearest counts.
    GT : Matrix, optional
        The transpose; only row blocks use it.
    progress : callable, optional
        `progress('level', k, 0)` is called after each level.
    depth : int, optional
        The most levels to search.
    target : vertex, optional
        The search ends as soon as the level of this vertex is known.
    check : bool, default True
        Whether to check that `GT` is the transpose: by 4 jobs, once.

    Returns
    -------
    Matrix
        A column with 0 at the source, and no entry where no path leads.

    Raises
    ------
    ValueError
        If a source is no vertex, `depth` is below 0, or `GT` isn't the transpose.
    BudgetExceeded
        If the budget runs out; `partial` has the levels found by then.

    See Also
    --------
    bfs_parents : The tree of such a search.
    sssp : Lengths by the values of edges.
    k_hop : Several searches of a few levels.

    Notes
    -----
    A breadth-first search. Each level follows the edges that leave the previous one; the client
    remembers which vertices it has seen.

    Cost: up to 4 steps per edge that leaves a reached vertex, and 1 run per level. On a small graph
    the client searches by itself.

    A level with a large front takes 4 steps per vertex and 2 more runs. On a budget of more than
    2^56 steps, levels after the 32nd of an undirected graph run as a loop on the server. That takes
    less time, with 4 runs per level and up to 30 steps per edge.

    GraphBLAS: `vxm` over any and first. LAGraph: `LAGr_BreadthFirstSearch`. networkx:
    `single_source_shortest_path_length`.

    Examples
    --------
    >>> import spmat
    >>> from spmat.algorithms import bfs_levels
    >>> G = spmat.Session().from_edgelist(
    ...     [(0, 1), (0, 2), (1, 2), (2, 3), (3, 4), (3, 5), (4, 5)], directed=False)
    >>> bfs_levels(G, 0).to_list()
    [0, 1, 1, 2, 3, 3]
    """
    return _search_column(G, source, GT, progress, depth, target, check, False)


@algorithm('the tree of a breadth-first search', are_vertices=True,
           runs=lambda g: 4 * (g.rounds + 1), ranges={'depth': (0, None)},
           hints={'weighted': 'shortest_paths(G, source, weighted=True) has a tree by values'})
def bfs_parents(G: Matrix, source: Vertices, GT: Optional[Matrix] = None,
                progress: Progress = None, *, depth: Optional[int] = None,
                target: Optional[Vertex] = None, check: bool = True) -> Matrix:
    """The vertex from which a breadth-first search reaches each vertex, as a column.

    Parameters
    ----------
    G : Matrix
        The graph; an entry (i, j) is an edge from i to j.
    source : vertex or list of vertices
        Where the search begins.
    GT : Matrix, optional
        The transpose; only row blocks use it.
    progress : callable, optional
        `progress('level', k, 0)` is called after each level.
    depth : int, optional
        The most levels to search.
    target : vertex, optional
        The search ends as soon as the parent of this vertex is known.
    check : bool, default True
        Whether to check that `GT` is the transpose: by 4 jobs, once.

    Returns
    -------
    Matrix
        A column of vertices: of several possible parents the least, at a source the source itself,
        and no entry where no path leads.

    Raises
    ------
    ValueError
        If a source is no vertex, `depth` is below 0, or `GT` isn't the transpose.
    BudgetExceeded
        If the budget runs out; `partial` has the parents found by then.

    See Also
    --------
    bfs_levels : The number of edges to each vertex.
    shortest_paths : The same tree, with its paths.

    Notes
    -----
    It searches as `bfs_levels` does.

    Cost: up to 6 steps per edge that leaves a reached vertex, and 1 run per level.

    A level with a large front takes 7 steps per vertex and 3 more runs. As a loop on the server it
    takes 5 runs, and up to 40 steps per edge.

    GraphBLAS: `vxm` over min and first. LAGraph: `LAGr_BreadthFirstSearch`. networkx:
    `bfs_predecessors`.

    Examples
    --------
    >>> import spmat
    >>> from spmat.algorithms import bfs_parents
    >>> G = spmat.Session().from_edgelist(
    ...     [(0, 1), (0, 2), (1, 2), (2, 3), (3, 4), (3, 5), (4, 5)], directed=False)
    >>> bfs_parents(G, 0).to_list()
    [0, 0, 0, 2, 3, 3]
    """
    return _search_column(G, source, GT, progress, depth, target, check, True)


@algorithm('the vertices within k edges of some', plot=None, says='Which vertices lie within '
           'k edges of each source (of all vertices without --source): source, vertex, number of '
           'edges; 0 at the source itself.', flags={'k': ['--depth']}, ranges={'k': (0, None)},
           hints={'k': 'the number of edges stands before the vertices; in networkx, '
                        'ego_graph(G, n, radius) has it behind them'})
def k_hop(G: Matrix, k: int, sources: Optional[Vertices] = None,
          progress: Progress = None) -> Matrix:
    """The vertices within k edges of each source, with the numbers of edges.

    Parameters
    ----------
    G : Matrix
        The graph; an entry (i, j) is an edge from i to j.
    k : int
        Vertices lie at most so many edges away.
    sources : list of vertices, optional
        Where the searches begin. Without it all vertices.
    progress : callable, optional
        `progress('level', i, k)` is called after each level.

    Returns
    -------
    Matrix
        A row for each source, in their order, with the numbers of edges; 0 at the source. If a
        source is given twice, rows have no names, and a warning says so.

    Raises
    ------
    ValueError
        If k is below 0, or a source is no vertex.
    TooLarge
        If the result has more than 16,777,216 entries.

    See Also
    --------
    bfs_levels : One search, to its end.
    path_lengths : Lengths by the values of edges.

    Notes
    -----
    All searches advance together, one level per product. In one session the levels run as a loop on
    the server.

    Cost: up to 4 steps per edge that leaves a vertex found and 12 per entry of the result; 5 runs
    per level, and 4.

    A directed graph takes 6 more steps per entry and level. Whether the graph is undirected is
    checked once: 13 steps per edge and 5 per vertex.

    GraphBLAS: `mxm` over any, with a row per source. networkx: `single_source_shortest_path_length`
    with a cutoff; `ego_graph(G, n, radius)` has the vertices of `k_hop(G, radius, [n])`.

    Examples
    --------
    >>> import spmat
    >>> from spmat.algorithms import k_hop
    >>> G = spmat.Session().from_edgelist(
    ...     [(0, 1), (0, 2), (1, 2), (2, 3), (3, 4), (3, 5), (4, 5)], directed=False)
    >>> k_hop(G, 1, [2]).to_dict()
    {(0, 0): 1, (0, 1): 1, (0, 2): 0, (0, 3): 1}
    """
    at = find_sources(G, sources)
    warn_of_repeated(G, at)
    lines = find_traversal(G, None, False)
    if not isinstance(lines, HeldRows) or not _are_few(G, k, len(at)):
        return name_rows(G, _find_hops(G, k, at, progress), at)
    return name_rows(G, keep(G, _search_hops(G, k, at, progress)), at)


def _are_few(G: Matrix, k: int, many: int) -> bool:
    """Whether searches, so many, look at so few edges that the client makes them."""
    if many * G.nrows > MOST_HELD:
        return False
    most: int = found(G, 'most edges', lambda: int(numpy.diff(held_edges(G).starts).max(initial=2)))
    return bool(many * min(G.nvals, most ** min(k, 16)) <= MOST_HELD)


def _search_hops(G: Matrix, k: int, sources: List[Place], progress: Progress) -> Triples:
    """The levels of searches from some vertices, a row each, by the client."""
    searches, count = [Levels(held_rows(G), [int(one)]) for one in sources], max(1, G.nrows)
    level = 0
    while level < k and sum(one.advance() for one in searches):
        level += 1
        tell(progress, 'level', level, k)
    found = {number * count + at: level for number, one in enumerate(searches)
             for level, some in enumerate(one.found) for at in some}
    places, values = (numpy.fromiter(some, numpy.int64, len(found))
                      for some in (found, found.values()))
    ranks = places.argsort()
    rows, columns = numpy.divmod(places[ranks], count)
    return Triples(rows, columns, values[ranks], len(sources), G.nrows)


def _find_hops(G: Matrix, k: int, sources: List[Place], progress: Progress) -> Matrix:
    """The levels of searches from some vertices, a row each. `near` is what an edge from the front
    may lead to again: where each edge leads both ways what the last two levels found, else all.
    There `recent` has what isn't among `found` yet, so that a level costs no walk along all."""
    found, both_ways, level = mark_rows(G, sources, 0), is_both_ways(G), 0
    state = State(dict.fromkeys(('front', 'near', 'recent')[:3 if both_ways else 2], found))
    rests = found.nrows * found.ncols <= FEW_PLACES

    def step(s: State, number: int) -> Dict[str, Matrix]:
        new = product(s.front, G, ANY_NEXT).ewise_add(s.near, 'zero').select('valueeq',
                                                                             level + number)
        if both_ways:
            return {'front': new, 'near': new.ewise_add(s.front, 'any'),
                    'recent': s.recent.ewise_add(new, 'first')}
        return {'front': new, 'near': s.near.ewise_add(new, 'first')}
    while level < k and state.front.nvals:
        loop = Loop(step, state)
        loop.rounds(empty('front')._replace(rests=rests), min(GATHERED, k - level),
                    report_rounds(progress, 'level', level, k, 'front'))
        state, level = loop.state, level + loop.number
        if both_ways:
            found = found.ewise_add(state.recent, 'first')
            state.update(recent=state.front)
    reached: Matrix = found if both_ways else state.near
    return reached


# -- shortest paths

CYCLE = 'a cycle of negative length: paths along it have no least length'
WRAPS = ('a path is longer than 2^63 - 1, and its length would wrap: divide the values '
         '(check=False takes them as they come)')
MOST = UNREACHED = (1 << 63) - 1
# 1 where x + y isn't between the least and the greatest number, else 0: the sum has another sign
# than both, or is one of these
TOO_LONG = Semiring(binary.max, asm('binary', '''mov64 r0, r1
add64 r0, r2
xor64 r1, r0
xor64 r2, r0
and64 r1, r2
mov64 r3, r0
add64 r3, 1
mov64 r4, r0
xor64 r4, -1
and64 r3, r4
or64 r1, r3
mov64 r3, r0
sub64 r3, 1
xor64 r3, -1
and64 r3, r0
or64 r1, r3
rsh64 r1, 63
mov64 r0, r1
exit
'''))
# x where it is less than y, else the least number
LESS = asm('binary', 'mov64 r0, r1\njslt64 r1, r2, 2\nmov64 r0, 1\nlsh64 r0, 63\nexit\n')
NOT_LESS = -1 << 63
# whether x is less than the thunk, and not the least number
NEARER = asm('index',
             'sub64 r1, 1\nsub64 r4, 1\nmov64 r0, 1\njslt64 r1, r4, 1\nmov64 r0, 0\nexit\n')
BY_JOBS = 8                    # a front is large where its edges are an eighth of the vertices
BACK = 8                       # rounds with a small front before the client takes over again
# a band is as wide as so many edges of the greatest length, by degree
WIDE = 8
# Lengths are doubled. The lowest bit says that a vertex waits to be pushed.
WAITS = asm('index', 'mov64 r0, r1\nand64 r0, 1\nexit\n', 'waits')
PUSHED = asm('binary', 'mov64 r0, r1\nsub64 r0, 1\nexit\n', 'pushed')
# the second number where it is no more than so much above the first one, or where it is; else -1
NEAR = 'mov64 r0, r2\nsub64 r2, r1\nwide r3, %d\njsle64 r2, r3, 1\nmov64 r0, -1\nexit\n'
BEYOND_NEAR = NEAR.replace('jsle64', 'jsgt64')
BEYOND = 1 << 61                                   # above twice any length
UNROLLED = 8                   # rounds of such a loop between two looks at what is final
# what a length above the number of a vertex stays below
WORD = 1 << 62
IS_SUM = Semiring(binary.any, binary.eq)
LENGTHEN = Semiring(binary.any, binary.plus)
BY_TRIP = 1 << 11              # edges that are read in the time of a trip
# the length of a path, its vertices, how far along it they are, and at which of them it leaves
# another
Route = Tuple[int, List[Place], List[int], int]


class Query(NamedTuple):
    """What else a caller asks of a search for lengths: how long paths may be, and at which vertex
    it may end. Also whether lengths that could wrap are looked for, and who is told."""
    cutoff: Optional[int] = None
    target: Optional[Place] = None
    check: bool = True
    progress: Progress = None


class Waiting(NamedTuple):
    """Lengths of which some aren't final: the vertices that wait to be pushed, and the others that
    could be reached again."""
    waiting: Array
    near: Array


def continue_lengths(W: Matrix, known: Array, some: Waiting, heaviest: int, query: Query,
                     number: int) -> None:
    """Goes on with lengths of shortest paths, where no edge is negative; `number` rounds were made.

    Those that wait and are less than the heaviest edge above the least of them are pushed together.
    The least is a matrix of one entry, which a product holds against all of a row."""
    twice: Matrix = found(W, 'doubled', lambda: W.apply('times', right=2))
    beyond = W.session.full(1, 1, BEYOND)          # the least where nobody waits: then all is final

    in_reach = Semiring(binary.any, asm('binary', NEAR % (2 * heaviest)))
    open_, final = (Semiring(binary.any, asm('binary', text % (-2 * heaviest - 2)))
                    for text in (BEYOND_NEAR, NEAR))

    def push_waiting(now: Matrix) -> Matrix:
        waiting = now.select(WAITS)
        active = waiting.reduce_rowwise('min').mxm(waiting, in_reach).select('valuege', 0)
        return now.ewise_add(active, PUSHED).ewise_add(active.mxm(twice, 'min_plus'), 'min')

    def step(s: State) -> Any:
        now = s.lengths
        for _ in range(UNROLLED):
            now = push_waiting(now)
        least = now.select(WAITS).reduce_rowwise('min').ewise_add(beyond, 'min')
        return {'lengths': least.mxm(now, open_).select('valuege', 0),
                'final': least.mxm(now, final).select('valuege', 0)}
    at = numpy.concatenate(some)
    doubled = 2 * known[at]
    doubled[:len(some.waiting)] += 1
    loop = Loop(step, {'lengths': put_unsorted(W, at, doubled)}, ['final'], alike=True)
    is_found = False

    def heard(first: int, rounds: List[Round]) -> None:
        nonlocal is_found
        new = loop.shown['final'].drain()
        known[new.places] = new.values >> 1
        is_found |= query.target is not None and bool((new.places == int(query.target)).any())
        for at in range(UNROLLED * (first - 1), UNROLLED * (first - 1 + len(rounds))):
            tell(query.progress, 'round', number + 1 + at)
    while not is_found:
        if loop.rounds(empty('lengths'), look_ahead(query.target, loop.number), heard):
            return


class Lengths:
    """The lengths that are `known`, and the vertices whose length changed and that weren't taken
    since. The client has them, or for large fronts on an ample budget the session. Those within a
    band, up to its `end`, are the front; others wait as `far`, where a vertex may stand several
    times. Where an edge is negative, or a path could be too long, the band has no end."""

    def __init__(self, lines: Traversal, source: Place, query: Query, known: Array) -> None:
        self.lines, self.query, self.known = lines, query, known
        self.known[int(source)] = 0
        self.front = vector_of([source], [0])
        self.far: List[Array] = []
        least, self.heaviest = _extremes(lines.graph, query)
        self.ascends = least >= 0
        # no edge is negative, and lengths can be doubled
        self.may_stay = query.cutoff is None and least >= 0 and (
            4 * (self.heaviest + 1) * (lines.count + 1) < BEYOND)
        graph, self.width, self.end = lines.graph, 0, MOST
        if self.ascends and self.heaviest * lines.count < MOST:
            wide = WIDE * self.heaviest * graph.nrows // max(1, graph.nvals)
            self.width = self.end = min(MOST, max(1, wide))
        # no length is farther from 0 than the one, no edge longer than the other
        self.longest, self.edge = 0, max(abs(least), abs(self.heaviest)) if query.check else 0
        self.number = 0

    def search(self) -> None:
        """Rounds until no length changes. They may become a loop at the server."""
        lines, progress = self.lines, self.query.progress
        while len(self.front.at):
            # large fronts stay in the session: less to write and to read, and some more steps
            if lines.pays_scan(len(self.front.at), BY_JOBS) and is_ample(lines.graph):
                self.advance_by_jobs()
            elif self.may_stay and lines.may_loop(self.number):
                if self.number:
                    tell(progress, 'round', self.number)
                continue_lengths(lines.graph, self.known, self.open(), self.heaviest, self.query,
                                 self.number)
                return
            else:
                self.advance()
        tell(progress, 'round', self.number)

    def begin_round(self, read_front: Callable[[], Vector]) -> None:
        """Says to who waits that a round has ended, and refuses what wraps or goes on for ever."""
        if self.longest + self.edge >= MOST:
            front = read_front()
            self.longest = max(-int(front.values.min()), int(front.values.max()))
            if self.longest + self.edge >= MOST and self.lines.push(front, TOO_LONG).values.any():
                raise ValueError(WRAPS)
        if self.number > self.lines.count:
            raise ValueError(CYCLE)
        if self.number:
            tell(self.query.progress, 'round', self.number)
        self.number += 1
        self.longest += self.edge

    def limit(self) -> int:
        """No path longer than this is of any use; only where no edge is negative."""
        cutoff, target = self.query.cutoff, self.query.target
        if not self.ascends:
            return MOST
        limit = MOST if cutoff is None else min(MOST, cutoff)
        return limit if target is None else min(limit, int(self.known[int(target)]))

    def advance(self) -> None:
        """Lengthens the front by an edge, and keeps those that are shorter than what was known."""
        self.begin_round(lambda: self.front)
        at, values = self.lines.push(self.front, SHORTEST)
        shorter = (values < self.known[at]) & (values <= self.limit())
        at, values = at[shorter], values[shorter]
        self.known[at] = values
        self.divide(Vector(at, values))
        if not len(self.front.at) and self.far:
            self.take(self.waiting())

    def divide(self, changed: Vector) -> None:
        """Those within the band are the front; the others wait."""
        near = changed.values < self.end
        self.front = Vector(changed.at[near], changed.values[near])
        if len(self.front.at) < len(near):
            self.far.append(changed.at[~near])

    def waiting(self) -> Vector:
        """The vertices that wait behind the band, with their lengths. Those that came into it since
        were taken in it."""
        at = join(self.far).at
        values = self.known[at]
        keep = (values >= self.end) & (values <= self.limit())
        return Vector(at[keep], values[keep])

    def take(self, waiting: Vector) -> None:
        """The next band: from the least length on of vertices that wait."""
        self.far = []
        self.end = min(MOST, int(waiting.values.min(initial=MOST - self.width)) + self.width)
        self.divide(waiting)

    def open(self) -> Waiting:
        """The vertices that wait, and those whose lengths could be looked at again, in an
        undirected graph."""
        waiting = join([self.front.at, *([self.waiting().at] if self.far else [])]).at
        least = int(self.known[waiting].min()) - self.heaviest
        near = numpy.flatnonzero((self.known >= least) & (self.known != UNREACHED))
        return Waiting(waiting, numpy.setdiff1d(near, waiting, assume_unique=True))

    def advance_by_jobs(self) -> None:
        """Rounds with known lengths in the session, until none changes or fronts have become
        small."""
        lines, small, cutoff = self.lines, 0, self.query.cutoff
        known, front = lines.put(select_known(self.known, UNREACHED)), lines.put(self.front)
        while front.nvals and small < BACK:
            self.begin_round(functools.partial(lines.read, front))
            reached = lines.step(front, SHORTEST)
            if self.ascends and cutoff is not None:
                reached = reached.select('valuele', cutoff)
            shorter = reached.ewise_add(known, LESS, mask=reached.S)
            known = known.ewise_add(reached, 'min')
            front = shorter.select(NEARER, self.end)
            if self.width and not front.nvals:     # the next band: all else that changed was taken
                front = known.select('valuege', self.end)
                least = front.reduce_scalar('min')
                if least is not None:
                    self.end = min(MOST, least + self.width)
                    front = front.select('valuelt', self.end)
            small = 0 if lines.pays_scan(front.nvals, BY_JOBS) else small + 1
        lengths, self.front = lines.read(known), lines.read(front)
        self.known[lengths.at] = lengths.values
        self.far = [lengths.at[lengths.values >= self.end]]
        if not len(self.front.at):
            self.take(self.waiting())


def _extremes(graph: Matrix, query: Query) -> Tuple[int, int]:
    """The least and the greatest length of an edge, where a search looks at them."""
    looks = query.check or query.cutoff is not None or query.target is not None
    return extremes(graph) if looks else (-1, 0)


def find_lengths(W: Matrix, source: Place, WT: Optional[Matrix], query: Query,
                 known: Optional[Array] = None) -> Array:
    """`sssp` from a row, for functions within: the length of each vertex, or UNREACHED. They are
    noted in `known`, where that is given."""
    known = numpy.full(W.nrows, UNREACHED) if known is None else known
    cutoff, least = query.cutoff, _extremes(W, query)[0]
    if cutoff is not None and cutoff < 0 <= least:
        return known                               # the source is farther
    Lengths(find_traversal(W, WT, query.check, values=True), source, query, known).search()
    if cutoff is not None and least < 0:
        known[known > cutoff] = UNREACHED
    return known


@algorithm('lengths of shortest paths from a vertex', values=True, lengths=True,
           runs=lambda g: g.rounds + 8)
def sssp(W: Matrix, source: Vertex, WT: Optional[Matrix] = None, progress: Progress = None, *,
         cutoff: Optional[int] = None, target: Optional[Vertex] = None,
         check: bool = True) -> Matrix:
    """The length of the shortest path from the source to each vertex, as a column.

    Parameters
    ----------
    W : Matrix
        The graph; an entry's value is the length of its edge, and may be negative.
    source : vertex
        Where the paths begin.
    WT : Matrix, optional
        The transpose; only row blocks use it.
    progress : callable, optional
        `progress('round', k, 0)` is called after each round.
    cutoff : int, optional
        Vertices farther away are left out.
    target : vertex, optional
        The vertex to find. Without negative edges the search ends as soon as its length is known;
        other lengths may then be missing, or too long.
    check : bool, default True
        Whether to check that `WT` is the transpose, and that no length could pass 2^63.

    Returns
    -------
    Matrix
        A column with 0 at the source, and no entry where no path leads.

    Raises
    ------
    ValueError
        If the source is no vertex, or reaches a cycle of negative length, if lengths could wrap,
        or `WT` isn't the transpose.
    BudgetExceeded
        If the budget runs out; `partial` has the lengths known by then, each of a path, though
        maybe not of the shortest.

    See Also
    --------
    bfs_levels : Lengths as numbers of edges.
    shortest_path : One path.
    shortest_paths : The tree of all paths.
    path_lengths : Lengths from several sources.

    Notes
    -----
    Each round lengthens, by one edge, the paths to vertices whose length has changed. Without
    negative edges, the nearest vertices come first, one band of lengths at a time (delta-stepping).

    Cost: up to 7 steps per edge that leaves a changed vertex, and 1 run, per round. Once 8 steps
    per edge and 4 per vertex.

    There are as many rounds as edges on the longest of the shortest paths, and some more with
    bands. On a budget of more than 2^56 steps, rounds after the 32nd of an undirected graph run as
    a loop on the server. That takes less time, and up to 300 steps per edge.

    GraphBLAS: `vxm` over min and plus (Bellman and Ford; Meyer and Sanders). LAGraph:
    `LAGr_SingleSourceShortestPath`. networkx: `single_source_bellman_ford_path_length`.

    Examples
    --------
    >>> import spmat
    >>> from spmat.algorithms import sssp
    >>> W = spmat.Session().from_triples(
    ...     [(0, 1, 2), (1, 2, 1), (2, 3, 4), (0, 3, 8)], 4, 4)
    >>> sssp(W, 0).to_list()
    [0, 2, 3, 7]
    """
    until = None if target is None else find_place(W, target)
    query, at = Query(cutoff, until, check, progress), find_place(W, source)
    return make_column(W, UNREACHED, lambda known: find_lengths(W, at, WT, query, known))


# -- paths as the vertices that they go through

class NoPath(ValueError):
    """No path leads from the one vertex to the other."""
    __module__ = 'spmat.algorithms'


class Path(List[Any]):
    """The vertices of a path in order, by their names where the graph has any.

    Attributes
    ----------
    lengths : list
        How far along the path each vertex is: the sum of the values of the edges up to there, or
        their number. These are floats where the values have a unit.
    """

    def __init__(self, vertices: Iterable[Vertex], lengths: Iterable[int]) -> None:
        super().__init__(vertices)
        self.lengths: List[Any] = list(lengths)

    def set_unit(self, unit: int) -> None:
        """Make the stored lengths what they stand for.

        Parameters
        ----------
        unit : number
            What they are parts of.
        """
        self.lengths = to_decimals(self.lengths, unit)

    @property
    def length(self) -> Any:
        """The length of the whole path.

        Returns
        -------
        number
            That of its last vertex.
        """
        return self.lengths[-1]

    @property
    def edges(self) -> List[Tuple[Any, Any]]:
        """The edges of the path.

        Returns
        -------
        list of tuple
            Pairs of vertices, in order.
        """
        return list(zip(self, self[1:]))


class PathTree:
    """A shortest path from one vertex to each that it reaches.

    Attributes
    ----------
    source : Any
        The vertex.
    lengths : Vector
        A column with the length of each path.
    predecessors : Vector
        A column with the vertex before each on its path: at the source itself.
    """

    def __init__(self, graph: Matrix, source: Place, far: Array, parents: Array) -> None:
        self._graph, self._from, self._far, self._parents = graph, source, far, parents
        self.source = name_of(graph, source)
        self.lengths = beside(graph, put_known(graph, far, UNREACHED))
        self.predecessors = of_vertices(beside(graph, put_known(graph, parents, NONE)))

    def __repr__(self) -> str:
        return '<PathTree from %r to %d vertices>' % (self.source, len(self))

    def __contains__(self, target: Vertex) -> bool:
        """Whether a path leads to a vertex.

        Parameters
        ----------
        target : vertex
            The vertex.

        Returns
        -------
        bool
            Whether the source reaches it. ValueError where there is no such vertex.
        """
        return bool(self._far[int(find_place(self._graph, target))] != UNREACHED)

    def __len__(self) -> int:
        """How many vertices the source reaches.

        Returns
        -------
        int
            Their number, with the source.
        """
        return int(numpy.count_nonzero(self._far != UNREACHED))

    def path(self, target: Vertex) -> Path:
        """The path to a vertex, of which nothing is asked of the server.

        Parameters
        ----------
        target : vertex
            The vertex.

        Returns
        -------
        Path
            The vertices from the source to it.

        Raises
        ------
        NoPath
            If no path leads there.
        ValueError
            If there is no such vertex.
        """
        at = find_place(self._graph, target)
        if target not in self:
            raise NoPath('no path leads from %r to %r' % (self.source, target))
        found = _make_path(self._graph, _follow(self._parents, self._from, at), self._far)
        found.set_unit(self.lengths.unit)
        return found

    def set_unit(self, unit: int) -> None:
        """Say what the lengths are parts of.

        Parameters
        ----------
        unit : number
            The unit of the graph's values.
        """
        self.lengths.unit = unit


def _follow(parents: Array, source: Place, target: Place) -> List[Place]:
    """The path to a vertex, from the vertices before each."""
    found = [target]
    while found[-1] != source:
        found.append(Place(parents[int(found[-1])]))
        if found[-1] == NONE or len(found) > len(parents):
            raise AssertionError('the vertices before each make no path to %d' % target)
    return found[::-1]


def _find_vertices(lines: Traversal, start: Place, end: Place, progress: Progress) -> List[Place]:
    """The vertices of a shortest path by edges; none where there is none."""
    if isinstance(lines, HeldRows) and progress is None:
        return find_route(lines.graph, start, end)
    parents = run_search(lines, Search([start], None, end, progress), True)
    return [] if parents[int(end)] == NONE else _follow(parents, start, end)


def _make_path(graph: Matrix, vertices: List[Place], far: Array) -> Path:
    return Path(names_of(graph, vertices), [int(far[int(at)]) for at in vertices])


def find_distances(G: Matrix, source: Place, GT: Optional[Matrix], weighted: bool,
                   query: Query) -> Array:
    """How far each vertex is from the source, by edges or by their values; UNREACHED where none
    leads there."""
    cutoff, target, check, progress = query
    if weighted:
        return find_lengths(G, source, GT, query)
    levels: Array = numpy.full(G.nrows, NONE)
    if cutoff is None or cutoff >= 0:              # else the source is farther
        search = Search([source], cutoff, target, progress)
        run_search(find_traversal(G, GT, check), search, False, levels)
    levels[levels == NONE] = UNREACHED
    return levels


def _parents(lines: Traversal, source: Place, far: Array, weighted: bool) -> Array:
    """The vertex before each on a shortest path to it, of several the least. Edges may be 0 long,
    or less, or lengths may leave no room for the number of a vertex in a word. Then it is one on a
    path of as few edges as any of the shortest."""
    parents, lengths = numpy.full(lines.count, NONE), select_known(far, UNREACHED)
    if not len(lengths.at):
        return parents
    least, most = extremes(lines.graph) if weighted else (1, 1)
    bits = max(1, lines.count - 1).bit_length()
    longest = int(lengths.values.max()) + most
    if least <= 0 or longest << bits >= WORD:
        # the edges that stand on shortest paths: those as long as the difference of their ends
        ends = keep(lines.graph, Triples(lengths.at, lengths.at, lengths.values, lines.count,
                                         lines.count))
        tight = product(product(ends, lines.graph, LENGTHEN), ends, IS_SUM).select('nonzero')
        return run_search(find_vectors(tight, None, False), Search([source]), True)
    ring = Semiring(binary.min, _lengthen(bits, lines.is_column)) if weighted else LEAST
    words = lengths.values << bits | lengths.at
    at, values = lines.read(lines.step(lines.put(Vector(lengths.at, words)), ring))
    inside = far[at] != UNREACHED                  # with a cutoff an edge may lead to what isn't
    parents[at[inside]] = values[inside] & ((1 << bits) - 1)
    parents[int(source)] = int(source)
    return parents


def _lengthen(bits: int, edge_first: bool) -> Operator:
    """A length above the number of a vertex, longer by an edge, which is the second operand or the
    first."""
    edge, length = ('r1', 'r2') if edge_first else ('r2', 'r1')
    return asm('binary', 'mov64 r0, %s\nlsh64 r0, %d\nadd64 r0, %s\nexit\n' % (edge, bits, length))


@algorithm('the vertices of a shortest path', plot='route',
           rows=lambda path, _: list(zip(path, path.lengths)), fields=('node', 'length'),
           lengths=True, says='The vertices of a shortest path from one vertex to another, in '
           'order, with how far along it each is.')
def shortest_path(G: Matrix, source: Vertex, target: Vertex, GT: Optional[Matrix] = None,
                  progress: Progress = None, *, weighted: bool = False, check: bool = True) -> Path:
    """A shortest path from one vertex to another.

    Parameters
    ----------
    G : Matrix
        The graph; an entry (i, j) is an edge from i to j.
    source : vertex
        Where the path begins.
    target : vertex
        Where it ends. The search ends as soon as it is known.
    GT : Matrix, optional
        The transpose; only row blocks use it.
    progress : callable, optional
        It is called as by `bfs_levels` and `sssp`.
    weighted : bool, default False
        Whether a length is a sum of values, which may be negative; otherwise it is a number of
        edges.
    check : bool, default True
        Whether to check that `GT` is the transpose: by 4 jobs, once.

    Returns
    -------
    Path
        The vertices in order, with their `lengths` along the path. Of several possible predecessors
        the least is taken.

    Raises
    ------
    NoPath
        If no path leads there; it is a ValueError.
    ValueError
        If one of them is no vertex, or the source reaches a cycle of negative length.

    See Also
    --------
    shortest_paths : Paths to all vertices.
    k_shortest_paths : Several paths.
    has_path : Whether there is one.

    Notes
    -----
    Cost: that of `bfs_parents` up to the target, or with `weighted` that of `sssp`, and 4 steps per
    edge.

    Where an edge has a length of 0 or less, or lengths are very great, add the cost of
    `bfs_parents` and 10 steps per edge.

    networkx: `shortest_path`, `dijkstra_path`.

    Examples
    --------
    >>> import spmat
    >>> from spmat.algorithms import shortest_path
    >>> G = spmat.Session().from_edgelist(
    ...     [(0, 1), (0, 2), (1, 2), (2, 3), (3, 4), (3, 5), (4, 5)], directed=False)
    >>> shortest_path(G, 0, 5)
    [0, 2, 3, 5]
    """
    start, end = find_place(G, source), find_place(G, target)
    if not weighted:
        vertices = _find_vertices(find_vectors(G, GT, check), start, end, progress)
        if not vertices:
            raise NoPath('no path leads from %r to %r' % (source, target))
        return Path(names_of(G, vertices), range(len(vertices)))
    far = find_distances(G, start, GT, True, Query(None, end, check, progress))
    if far[int(end)] == UNREACHED:
        raise NoPath('no path leads from %r to %r' % (source, target))
    parents = _parents(find_vectors(G, GT, check, True), start, far, True)
    return _make_path(G, _follow(parents, start, end), far)


def _list_tree(found: PathTree, _: Mapping[str, Any]) -> List[Tuple[Any, Any, Any]]:
    """A row for each vertex: its length, and the vertex before it."""
    before = found.predecessors.by_node()
    return [(name, length, before[name]) for name, length in found.lengths.by_node().items()]


@algorithm('a shortest path to each vertex, as a tree', plot=None, rows=_list_tree,
           fields=('node', 'length', 'predecessor'), lengths=True, says='A shortest path to each '
           'vertex that is reached: vertex, length, and the vertex before it; that is the source '
           'itself there.')
def shortest_paths(G: Matrix, source: Vertex, GT: Optional[Matrix] = None,
                   progress: Progress = None, *, weighted: bool = False,
                   cutoff: Optional[int] = None, check: bool = True) -> PathTree:
    """A shortest path from one vertex to each that it reaches, as a tree.

    Parameters
    ----------
    G : Matrix
        The graph; an entry (i, j) is an edge from i to j.
    source : vertex
        Where the paths begin.
    GT : Matrix, optional
        The transpose; only row blocks use it.
    progress : callable, optional
        It is called as by `bfs_levels` and `sssp`.
    weighted : bool, default False
        Whether a length is a sum of values, which may be negative; otherwise it is a number of
        edges.
    cutoff : int, optional
        Vertices farther away are left out.
    check : bool, default True
        Whether to check that `GT` is the transpose: by 4 jobs, once.

    Returns
    -------
    PathTree
        `.path(target)` is one of the paths; `.lengths` and `.predecessors` are columns.

    Raises
    ------
    ValueError
        If the source is no vertex, or reaches a cycle of negative length, or lengths could wrap.

    See Also
    --------
    shortest_path : One path.
    sssp : The lengths alone.
    bfs_parents : The tree as a column.

    Notes
    -----
    Cost: that of `bfs_levels`, or with `weighted` that of `sssp`, and 4 steps per edge that leaves
    a reached vertex.

    networkx: `single_source_shortest_path`, `single_source_dijkstra`.

    Examples
    --------
    >>> import spmat
    >>> from spmat.algorithms import shortest_paths
    >>> W = spmat.Session().from_triples(
    ...     [(0, 1, 2), (1, 2, 1), (2, 3, 4), (0, 3, 8)], 4, 4)
    >>> shortest_paths(W, 0, weighted=True).path(3)
    [0, 1, 2, 3]
    """
    at = find_place(G, source)
    far = find_distances(G, at, GT, weighted, Query(cutoff, None, check, progress))
    return PathTree(G, at, far, _parents(find_vectors(G, GT, check, weighted), at, far, weighted))


@algorithm('whether a path leads from one vertex to another', plot=None,
           rows=lambda leads, _: [('yes' if leads else 'no',)], fields=('has_path',),
           says='Prints yes where a path leads from one vertex to another, else no.')
def has_path(G: Matrix, source: Vertex, target: Vertex, GT: Optional[Matrix] = None, *,
             check: bool = True) -> bool:
    """Whether a path leads from one vertex to another.

    Parameters
    ----------
    G : Matrix
        The graph; an entry (i, j) is an edge from i to j.
    source : vertex
        Where a path begins.
    target : vertex
        Where it ends.
    GT : Matrix, optional
        The transpose; only row blocks use it.
    check : bool, default True
        Whether to check that `GT` is the transpose: by 4 jobs, once.

    Returns
    -------
    bool
        Whether there is one.

    Raises
    ------
    ValueError
        If one of them is no vertex.

    See Also
    --------
    shortest_path : The path.
    transitive_closure : All pairs.

    Notes
    -----
    Cost: that of `bfs_levels` up to the target, in steps and runs.

    networkx: `has_path`.

    Examples
    --------
    >>> import spmat
    >>> from spmat.algorithms import has_path
    >>> W = spmat.Session().from_triples(
    ...     [(0, 1, 2), (1, 2, 1), (2, 3, 4), (0, 3, 8)], 4, 4)
    >>> has_path(W, 3, 0)
    False
    """
    start, end = find_place(G, source), find_place(G, target)
    lines = find_traversal(G, GT, check)
    if isinstance(lines, HeldRows):
        return bool(find_route(G, start, end))
    levels = run_search(lines, Search([start], None, end), False)
    return int(levels[int(end)]) != NONE


class Spurs:
    """Searches by the client for paths to one vertex around what is barred. Rows of a large graph
    are fetched as they are met, until to read all would have taken less. Lengths to the target
    that leave out what is barred say where to look first (A*)."""

    def __init__(self, lines: Traversal, back: Matrix, target: Place, home: Array,
                 weighted: bool) -> None:
        self.target, self.home = target, home.tolist()
        self._lines, self._weighted = lines, weighted
        self._rows: Dict[Place, List[Tuple[Place, int]]] = {}
        # from where an edge leads to the target, where all edges are read
        self._last: Optional[Set[Place]] = None
        if is_small(back):
            edges = held_edges(back)
            part = slice(*edges.starts[int(target):int(target) + 2].tolist())
            self._last = set(map(Place, edges.heads[part].tolist()))

    def near(self, i: Place) -> List[Tuple[Place, int]]:
        """Where the edges of a vertex lead, and how long they are; those alone from where the
        target is reached. 1 run, once, until all edges are read."""
        if i not in self._rows:
            at, values = self._read_row(int(i))
            far = values if self._weighted else numpy.ones_like(at)
            self._rows[i] = [(j, edge) for j, edge in zip(map(Place, at.tolist()), far.tolist())
                             if self.home[int(j)] != UNREACHED]
        return self._rows[i]

    def _read_row(self, i: int) -> Vector:
        graph = self._lines.graph
        if not is_small(graph) and len(self._rows) * BY_TRIP < graph.nvals:
            return self._lines.push(vector_of([i], [0]), LENGTHEN)
        edges = held_edges(graph)
        part = slice(*edges.starts[i:i + 2].tolist())
        return Vector(edges.heads[part], edges.values[part])

    def search(self, start: Place, barred: Set[Place], not_first: Set[Place],
               most: float = math.inf) -> Optional[Tuple[List[Place], List[int]]]:
        """The vertices of the shortest path that enters no barred vertex, leaves the start for none
        of some, and is no longer than `most`, and how far along it they are. None where there is
        none."""
        closed = barred | {start} if self.target in not_first else barred
        if start != self.target and self._last is not None and self._last <= closed:
            return None                            # no edge is left that leads to the target
        far: Dict[Place, int] = {start: 0}
        before: Dict[Place, Place] = {}
        done: Set[Place] = set()
        heap = [(self.home[int(start)], self.home[int(start)], start)]
        while heap:
            _, _, i = heapq.heappop(heap)
            if i == self.target:
                found = [i]
                while found[-1] != start:
                    found.append(before[found[-1]])
                return found[::-1], [far[one] for one in found[::-1]]
            if i in done:
                continue
            done.add(i)
            for j, edge in self.near(i):
                if j in barred or j in done or (i == start and j in not_first):
                    continue
                home = self.home[int(j)]
                if far[i] + edge + home <= most and (j not in far or far[i] + edge < far[j]):
                    far[j], before[j] = far[i] + edge, i
                    heapq.heappush(heap, (far[j] + home, home, j))
        return None


@algorithm('the k shortest paths', plot=None, rows=lambda found, _: [
    (number, *step) for number, one in enumerate(found, 1) for step in zip(one, one.lengths)],
           ranges={'k': (1, None)},
           fields=('path', 'node', 'length'), lengths=True, says='The k shortest paths that pass '
           'no vertex twice, a line for each vertex: the number of its path, from 1, the vertex, '
           'and how far along the path it is.')
def k_shortest_paths(G: Matrix, source: Vertex, target: Vertex, k: int, GT: Optional[Matrix] = None,
                     *, weighted: bool = False, check: bool = True) -> List[Path]:
    """The k shortest paths from one vertex to another that pass no vertex twice.

    Parameters
    ----------
    G : Matrix
        The graph; an entry (i, j) is an edge from i to j.
    source : vertex
        Where the paths begin.
    target : vertex
        Where they end.
    k : int
        How many paths, at most.
    GT : Matrix, optional
        The transpose. By default the client makes it, once; for an undirected graph, pass G.
    weighted : bool, default False
        Whether a length is a sum of values; otherwise it is a number of edges.
    check : bool, default True
        Whether to check that `GT` is the transpose: by 4 jobs, once.

    Returns
    -------
    list of Path
        The shortest first; fewer than k where there are fewer.

    Raises
    ------
    NoPath
        If there is none; it is a ValueError.
    ValueError
        If k is below 1, or as `shortest_path` does.

    See Also
    --------
    shortest_path : The shortest one.

    Notes
    -----
    Yen's algorithm, at the client, with lengths to the target as a bound. networkx and igraph have
    the whole graph at hand, and are faster.

    Cost: one `bfs_levels` or `sssp`, then 5 steps per edge of each vertex met on the way, and 1 run
    each. A graph of up to 65,536 edges takes 1 run for all.

    Of a larger graph the client reads all edges once it has met a vertex for each 2,048 of them.

    networkx: `shortest_simple_paths`.

    Examples
    --------
    >>> import spmat
    >>> from spmat.algorithms import k_shortest_paths
    >>> G = spmat.Session().from_edgelist(
    ...     [(0, 1), (0, 2), (1, 2), (2, 3), (3, 4), (3, 5), (4, 5)], directed=False)
    >>> k_shortest_paths(G, 0, 3, 2)
    [[0, 2, 3], [0, 1, 2, 3]]
    """
    start, end = find_place(G, source), find_place(G, target)
    back = transpose_of(G, GT, check, values=weighted)
    # one session needs no transpose to search, nor to look whether G is that of `back`
    home = find_distances(back, end, None if G.in_one_place else G, weighted, Query(check=check))
    lines = find_vectors(G, back, False, weighted)
    spurs = Spurs(lines, back, end, home, weighted)
    if home[int(start)] == UNREACHED:
        raise NoPath('no path leads from %r to %r' % (source, target))
    first = spurs.search(start, set(), set())
    assert first is not None
    found: List[Route] = [(first[1][-1], *first, 0)]
    waiting: List[Route] = []
    while len(found) < k:
        _wait_for_deviations(spurs, found, waiting, k - len(found))
        if not waiting:
            break
        found.append(heapq.heappop(waiting))
    return [Path(names_of(G, vertices), far) for _, vertices, far, _ in found]


def _wait_for_deviations(spurs: Spurs, found: List[Route], waiting: List[Route],
                         many: int) -> None:
    """The shortest paths that leave the last one that was found, and go where none did, are put to
    those that wait, of which so many are wanted. At the vertices before the one at which the last
    path left another they were looked for with that one."""
    _, last, far, left = found[-1]
    for at in range(left, len(last) - 1):
        root = last[:at + 1]
        taken = {path[at + 1] for _, path, _, _ in found if path[:at + 1] == root}
        longest = heapq.nsmallest(many, waiting)[-1][0] if len(waiting) >= many else math.inf
        tail = spurs.search(root[-1], set(root[:-1]), taken, longest - far[at])
        if tail is not None:
            further = far[:at] + [far[at] + one for one in tail[1]]
            heapq.heappush(waiting, (further[-1], root[:-1] + tail[0], further, at))
