"""Components, orders and trees: components, the two sides of a bipartite graph, independent sets,
what must come before what, and minimum spanning forests."""
from __future__ import annotations

import random
from typing import Any, Callable, Dict, Iterator, List, NamedTuple, Optional, Tuple, Union

import numpy

from ..io.matrix_text import Triples
from ..loops import Loop, State, empty
from ..loops.fixpoint import fixpoint
from ..loops.trips import Round, report_rounds
from ..matrix import Matrix
from ..matrix_base import is_same
from ..metadata import of_copy
from ..operators import Semiring, asm, binary
from ..types import Array, Place
from .cached_properties import (check_undirected, extremes, found, is_both_ways, is_transpose,
                                transpose_of)
from .registry import BOTH_WAYS, algorithm
from .searches import LEAST, MOST, WRAPS, Search, run_search
from .traversal import (NONE, Columns, Traversal, Vector, find_traversal, find_vectors, is_ample,
                        keep, put_all, put_column, read_column, read_edges, read_row, read_values,
                        spread, vector_of)
from .utils import (Progress, beside, column, contract, loops, mark_rows, name_of, nothing,
                    product, rows_of, tell)

__all__ = ['bipartite_sides', 'connected_components', 'CycleError', 'longest_paths',
           'maximal_independent_set', 'minimum_spanning_forest', 'strongly_connected_components',
           'topological_levels']

GREATEST = Semiring(binary.max, binary.first)
# Of so many vertices on it pays to see how many are left before greatest neighbours are asked for.
LARGE = 1 << 14
FEW_OTHERS = 8                                     # few are left where that is one of so many
FEW_PAIRS = 16                                     # pairs of labels are few where that is
BLOCK = 1 << 13                                    # vertices whose labels stay in a cache
PAIRED = asm('binary', 'mov64 r0, r1\nlsh64 r0, 32\nor64 r0, r2\nexit\n', 'paired')
DONE = -1                                          # the part of a vertex whose component is known
# edges of a graph that the client looks at by itself, and of what is left of a larger one
AT_ONCE, SMALL = 1 << 15, 1 << 18
# rounds against the edges before the transpose pays
PULLS = 16
# times that all edges are looked at for ends of paths, or for what one vertex reaches
SWEEPS = 32
FEW = 1 << 9                                       # edges that Tarjan's algorithm is quick with


class Labels:
    """The label of each vertex: the least vertex that it is known to be joined with."""

    def __init__(self, count: int) -> None:
        self.of: Array = numpy.arange(count)
        self._has_neighbour = numpy.zeros(count, bool)

    def join(self, first: Array, second: Array) -> bool:
        """Joins the components of each two vertices; whether any two were apart. Labels that aren't
        their own label any more are followed to their ends, which are lower ones."""
        is_first = not self._has_neighbour.any()   # then each vertex is its own label
        self._has_neighbour[first] = True
        a, b = (first, second) if is_first else (self.of.take(first), self.of.take(second))
        some = False
        while True:
            differ = numpy.flatnonzero(a != b)
            if not len(differ):
                return some
            some = True
            if len(differ) < len(a):
                a, b = a.take(differ), b.take(differ)
            if FEW_PAIRS * len(a) < len(self.of):
                self._join_few(a, b)
                return True
            high, low = numpy.maximum(a, b), numpy.minimum(a, b)
            self.of[high] = low
            # of several one counts; the others come again
            lost = numpy.flatnonzero(self.of.take(high) != low)
            self._settle()
            a, b = (self.of.take(ends.take(lost)) for ends in (high, low))

    def _join_few(self, a: Array, b: Array) -> None:
        """Joins labels in pairs, among themselves: then all vertices are looked at once."""
        some, at = numpy.unique(numpy.concatenate((a, b)), return_inverse=True)
        at = at.reshape(-1)                        # which numpy 2.0 shapes as what it was given
        among = Labels(len(some))
        among.join(at[:len(a)], at[len(a):])
        ends = numpy.arange(len(self.of))
        ends[some] = some.take(among.of)
        self.of = ends.take(self.of)

    def _settle(self) -> None:
        """Each vertex gets the label at the end of its chain. Labels only go down, so what leads
        out of a block leads to an end; a chain within it is halved each time."""
        for start in range(0, len(self.of), BLOCK):
            labels = self.of[start:start + BLOCK]
            ends = self.of.take(labels)
            while not numpy.array_equal(ends, labels):
                labels[:] = ends
                ends = self.of.take(labels)

    def others(self) -> Array:
        """The vertices outside the greatest component, but for those without a neighbour."""
        if not len(self.of):
            return self.of
        greatest = numpy.argmax(numpy.bincount(self.of))
        return numpy.flatnonzero((self.of != greatest) & self._has_neighbour)


class Neighbours:
    """The least and the greatest neighbour of each vertex, or of some, along edges of both
    directions. Each answer is vertices, and a vertex that each is to be joined with."""

    def __init__(self, graph: Matrix, transpose: Optional[Matrix], check: bool) -> None:
        self.ways: List[Traversal] = [Columns(graph)]
        if transpose is not None and is_same(transpose, graph):
            if check:
                check_undirected(graph, loops=True)
        elif not is_both_ways(graph):
            self.ways.append(find_vectors(graph, transpose, check))

    def all(self) -> Iterator[List[Vector]]:
        """The least ones of all vertices, and then the greatest ones. Of a small graph one run
        makes both, of a large one each has its own, when it is asked for."""
        count = self.ways[0].count
        more = 10 ** len(str(count))               # numbers of as many digits are sooner read
        if count >= LARGE:
            least_ones = [lines.read(lines.step(lines.numbers(more), LEAST)) for lines in self.ways]
            yield [Vector(one.at, one.values - more) for one in least_ones]
            yield [Vector(one.at, read_values(lines.step(lines.numbers(more), GREATEST)) - more)
                   for lines, one in zip(self.ways, least_ones)]
        elif len(self.ways) == 1 and is_ample(self.ways[0].graph):
            lines = self.ways[0]                   # both are read as one where nobody counts steps
            least, greatest = (lines.step(lines.numbers(more), ring) for ring in (LEAST, GREATEST))
            at, pairs = lines.read(least.ewise_mult(greatest, PAIRED))
            yield [Vector(at, (pairs >> 32) - more), Vector(at, (pairs & 0xffffffff) - more)]
        else:
            made = [[lines.step(lines.numbers(), ring) for ring in (LEAST, GREATEST)]
                    for lines in self.ways]
            yield [one for lines, both in zip(self.ways, made) for one in _read_alike(lines, both)]

    def join(self, some: Array, labels: Labels) -> bool:
        """Joins some vertices with what has another label among their neighbours; whether there was
        any. In a component that has such a neighbour one vertex at least is joined with one."""
        if len(self.ways) > 1:
            every = Vector(numpy.arange(len(labels.of)), labels.of)
            return _join([got for lines in self.ways
                          for got in _look_from(some, lines, lines.put(every))], labels)
        columns, graph = self.ways[0], self.ways[0].graph
        push = find_vectors(graph, graph, False)
        front = push.put(Vector(some, labels.of[some]))
        near = _read_alike(push, [push.step(front, ring) for ring in (LEAST, GREATEST)])
        if not _join(near, labels):
            return False
        at = near[0].at
        around = columns.put(Vector(at, labels.of[at]))
        _join(_look_from(some, columns, around), labels)
        return True


def _look_from(some: Array, lines: Traversal, labels: Matrix) -> List[Vector]:
    """The least and the greatest label among the neighbours of some vertices."""
    mask = lines.put(Vector(some, numpy.ones_like(some)))
    return _read_alike(lines, [lines.step(labels, ring, mask) for ring in (LEAST, GREATEST)])


def _join(found_labels: List[Vector], labels: Labels) -> bool:
    joined = [labels.join(got.at, got.values) for got in found_labels]      # all of them
    return any(joined)


def _read_alike(lines: Traversal, made: List[Matrix]) -> List[Vector]:
    """Vectors that have entries at the same vertices."""
    first = lines.read(made[0])
    return [first] + [Vector(first.at, read_values(one)) for one in made[1:]]


@algorithm("the least vertex of each one's component", are_vertices=True,
           runs=lambda g: 2 * g.rounds + 3 + (g.vertices >= LARGE))
def connected_components(G: Matrix, GT: Optional[Matrix] = None, progress: Progress = None, *,
                         check: bool = True) -> Matrix:
    """The component of each vertex, as a column: its least vertex. Directions don't count.

    Of a directed graph these are the weak components.

    Parameters
    ----------
    G : Matrix
        The graph; an entry (i, j) is an edge from i to j.
    GT : Matrix, optional
        For an undirected graph, G itself; by default the client finds out. Only row blocks use
        another transpose.
    progress : callable, optional
        `progress('round', k, 0)` is called after each round.
    check : bool, default True
        Whether to check that the graph is undirected where `GT` is G.

    Returns
    -------
    Matrix
        A column with a vertex for each; `.sets()` has the components.

    Raises
    ------
    ValueError
        If `GT` is G, and the graph is directed. (With `check=False`, the neighbours are those that
        edges lead to.)

    See Also
    --------
    strongly_connected_components : Components by paths that go both ways.
    bipartite_sides : The two sides of a bipartite graph.

    Notes
    -----
    Each vertex is joined with its least and its greatest neighbour, and the client follows these to
    their ends. Each later round looks only at vertices outside the greatest component, and at least
    halves the number of components. So the number of rounds is at most the logarithm of the number
    of vertices, however long the paths are.

    Cost: up to 10 steps per edge and 6 per vertex in the first round, in 2 runs. Later rounds take
    20 steps per edge outside the greatest component, in 2 runs.

    A directed graph takes 10 more steps per edge. Whether the graph is undirected is checked once:
    13 steps per edge and 5 per vertex.

    GraphBLAS: `mxv` over min and second, max and second. LAGraph: `LAGr_ConnectedComponents`
    (FastSV). networkx: `connected_components`, `weakly_connected_components`.

    Examples
    --------
    >>> import spmat
    >>> from spmat.algorithms import connected_components
    >>> G = spmat.Session().from_edgelist(
    ...     [(0, 1), (0, 2), (1, 2), (2, 3), (3, 4), (3, 5), (4, 5)], directed=False)
    >>> connected_components(G).to_list()
    [0, 0, 0, 0, 0, 0]
    """
    return label_components(G, GT, progress, check)


def label_components(G: Matrix, GT: Optional[Matrix], progress: Progress, check: bool) -> Matrix:
    """The least vertex of each one's component, as a column."""
    count = G.nrows
    near, labels, number = Neighbours(G, GT, check), Labels(count), 1
    for each in near.all():
        _join(each, labels)
        others = labels.others()
        if count >= LARGE and FEW_OTHERS * len(others) <= count:
            break
    tell(progress, 'round', 1)
    while len(others) and near.join(others, labels):
        number += 1
        tell(progress, 'round', number)
        others = labels.others()
    return beside(G, put_all(G, labels.of))


@algorithm('two sides without an edge inside one')
def bipartite_sides(G: Matrix, GT: Optional[Matrix] = None, progress: Progress = None, *,
                    check: bool = True) -> Matrix:
    """A side, 0 or 1, for each vertex, as a column: each edge leads from one side to the other.

    Parameters
    ----------
    G : Matrix
        The graph; an entry (i, j) is an edge from i to j.
    GT : Matrix, optional
        The transpose. By default the client makes it, once; for an undirected graph, pass G.
    progress : callable, optional
        It is called as by `connected_components`.
    check : bool, default True
        Whether to check that `GT` is the transpose: by 4 jobs, once.

    Returns
    -------
    Matrix
        A column; the least vertex of each component is on side 0.

    Raises
    ------
    ValueError
        If there are no such sides: the message names an edge whose two ends would be on one side.
        If `GT` isn't the transpose.

    See Also
    --------
    connected_components : The components.
    maximal_independent_set : Vertices of which no two are neighbours.

    Notes
    -----
    The search begins at the least vertex of each component.

    Cost: that of `connected_components` and of a `bfs_levels`, with 15 steps per edge, 30 per
    vertex and 7 runs more.

    networkx: `bipartite.color`.

    Examples
    --------
    >>> import spmat
    >>> from spmat.algorithms import bipartite_sides
    >>> W = spmat.Session().from_triples(
    ...     [(0, 1, 2), (1, 2, 1), (2, 3, 4), (0, 3, 8)], 4, 4)
    >>> bipartite_sides(W).to_list()
    [0, 1, 0, 1]
    """
    count = G.nrows
    if count == 0:
        return nothing(G)
    back = transpose_of(G, GT, check)
    near = G if is_same(back, G) else G.ewise_add(back, 'first')
    own = column(G, 0).apply('rowindex', right=0)
    least = label_components(near, near, progress, False)
    firsts = rows_of(least.ewise_mult(own, 'eq').select('nonzero'))
    levels = run_search(find_traversal(near, near, False), Search(firsts), False)
    side = put_all(G, levels & 1)
    low, high = near.mxv(side, 'min_second'), near.mxv(side, 'max_second')
    for among in (low, high):
        wrong = among.ewise_mult(side, 'eq').select('nonzero')
        if wrong.nvals:
            raise ValueError('an odd cycle: ' + _edge(G, near, side, rows_of(wrong)[0]))
    return beside(G, side)


def _edge(G: Matrix, near: Matrix, side: Matrix, at: Place) -> str:
    """An edge of a vertex to one of its own side, in words."""
    row = mark_rows(near, [at], 1).mxm(near, 'any_pair').to_coo()[1].tolist()
    sides = side.to_list()
    other = next(Place(vertex) for vertex in row if sides[vertex] == sides[int(at)])
    names = name_of(G, at), name_of(G, other)
    return 'the edge between %r and %r joins vertices of one side' % names


class Parts:
    """What is known of each vertex: the least vertex of its component, where that is known, and a
    number that those share which could be in one component."""

    def __init__(self, count: int) -> None:
        self.count = count
        self.label: Array = numpy.arange(count)
        self.part: Array = numpy.zeros(count, numpy.int64)

    def close(self, vertices: Array, labels: Array) -> None:
        """These have their components, by the least vertices."""
        self.label[vertices], self.part[vertices] = labels, DONE

    def divide(self, forward: Array, backward: Array) -> None:
        """Those that one vertex reaches, and those that reach it. Who is both is in its component;
        no other is in one component with somebody who isn't the same of both."""
        kind = numpy.zeros(self.count, numpy.int64)
        kind[forward] += 1
        kind[backward] += 2
        self.part = numpy.where(self.part == DONE, DONE, 4 * self.part + kind)
        both = numpy.flatnonzero(kind == 3)
        self.close(both, both[:1])


@algorithm("the least vertex of each one's strong component", are_vertices=True)
def strongly_connected_components(G: Matrix, GT: Optional[Matrix] = None, progress: Progress = None,
                                  *, check: bool = True) -> Matrix:
    """The strongly connected component of each vertex, as a column: its least vertex.

    Two vertices are in one component if a path leads from each to the other.

    Parameters
    ----------
    G : Matrix
        The graph; an entry (i, j) is an edge from i to j.
    GT : Matrix, optional
        The transpose. By default the client makes it if a search against the edges has more than 16
        levels.
    progress : callable, optional
        `progress('round', k, 0)` is called after each round.
    check : bool, default True
        Whether to check that `GT` is the transpose: by 4 jobs, once.

    Returns
    -------
    Matrix
        A column with a vertex for each; `.sets()` has the components.

    Raises
    ------
    ValueError
        If `GT` isn't the transpose.

    See Also
    --------
    connected_components : Components by paths in either direction.
    topological_levels : Levels of a graph without cycles.

    Notes
    -----
    Where each edge leads both ways, they are those of `connected_components`. Else two searches
    from the vertex with the most edges find the first component. The client finishes what is left
    by Tarjan's algorithm, once that is 262,144 edges or fewer. A larger rest is first trimmed of
    vertices that are on no cycle, and then searched from many vertices at once.

    Cost: two searches (`bfs_levels`) and 10 runs; with many components 6 runs more per level of
    trimming.

    networkx: `strongly_connected_components`.

    Examples
    --------
    >>> import spmat
    >>> from spmat.algorithms import strongly_connected_components
    >>> W = spmat.Session().from_triples(
    ...     [(0, 1, 2), (1, 2, 1), (2, 3, 4), (0, 3, 8)], 4, 4)
    >>> strongly_connected_components(W).to_list()
    [0, 1, 2, 3]
    """
    if GT is not None:
        transpose_of(G, GT, check)
    return label_strong_components(G, GT, progress)


def label_strong_components(G: Matrix, GT: Optional[Matrix] = None,
                            progress: Progress = None) -> Matrix:
    """The least vertex of each one's strong component, as a column."""
    count = G.nrows
    if count == 0:
        return nothing(G)
    if G.nvals > AT_ONCE and G.directed is not True and is_both_ways(G):
        return label_components(G, G, progress, False)
    parts, near, number = Parts(count), G, 0
    back: Optional[Matrix] = None
    while near.nvals > (SMALL if number else AT_ONCE):
        if number == 0:
            _search_around(G, GT, parts)
        else:
            back = near.T if back is None else _inside(back, parts)
            _close_ends(near, back, parts)
            near, back = _inside(near, parts), _inside(back, parts)
            _close_colours(near, back, parts, number)
        near, number = _inside(near, parts), number + 1
        tell(progress, 'round', number)
    if near.nvals or not number:
        parts.close(*find_strong_components(*read_edges(near)))
        tell(progress, 'round', number + 1)
    return beside(G, put_all(G, parts.label))


def _search_around(G: Matrix, GT: Optional[Matrix], parts: Parts) -> None:
    """The component of the vertex with the most edges, by those that leave it times those that lead
    to it."""
    middle: Optional[Place] = found(G, 'most joined', lambda: _find_most_joined(G))
    if middle is None:
        return
    parts.divide(_search(G, middle), _reaching(G, GT, middle))


def _search(G: Matrix, start: Place) -> Array:
    """The vertices that one reaches."""
    levels = run_search(find_traversal(G, None, False), Search([start]), False)
    return numpy.flatnonzero(levels != NONE)


def _find_most_joined(G: Matrix) -> Optional[Place]:
    """The vertex with the most edges of both directions; None where no vertex has edges of both."""
    outgoing = G.mxv(column(G, 1), 'plus_pair')
    incoming = G.session.ones(G.nrows).mxm(G, 'plus_pair')
    scores = spread(read_column(outgoing), G.nrows)
    scores *= spread(read_row(incoming), G.nrows)
    best = int(scores.argmax())
    return Place(best) if scores[best] else None


def _reaching(G: Matrix, GT: Optional[Matrix], middle: Place) -> Array:
    """The vertices from which a path leads to one. Without a transpose all vertices look along
    their edges, a few times."""
    back = GT if GT is not None else G.kept.get('transpose')
    if back is None:
        pulled = _pull(G, middle)
        if pulled is not None:
            return pulled
        back = transpose_of(G, None, False)
    return _search(back, middle)


def _pull(G: Matrix, middle: Place) -> Optional[Array]:
    """The same against the edges: in each round those vertices look along their edges that weren't
    seen. None where that takes too many rounds."""
    start = put_column(G, vector_of([middle], [1]))

    def step(s: State) -> Dict[str, Matrix]:
        front = G.mxv(s.front, 'any_pair', mask=s.unseen.S)
        return {'front': front, 'unseen': _subtract(s.unseen, front)}
    loop = Loop(step, {'front': start, 'unseen': _subtract(column(G, 1), start)}, ['front'], True)
    # a round behind the end would look at the edges of all that weren't seen
    end = empty('front')._replace(rests=False)
    if not loop.rounds(end, PULLS, lambda first, rounds: None):
        return None
    reached: Array = loop.shown['front'].drain().places
    return numpy.append(reached, int(middle))


def _subtract(some: Matrix, gone: Matrix) -> Matrix:
    """A column of ones without those entries where another has some."""
    return some.ewise_add(gone, 'zero').select('nonzero')


def _inside(G: Matrix, parts: Parts) -> Matrix:
    """The edges between two vertices of one part whose components aren't known."""
    at = numpy.flatnonzero(parts.part != DONE)
    diagonal = keep(G, Triples(at, at, parts.part[at], parts.count, parts.count))
    same = product(product(diagonal, G, 'any_first'), diagonal, 'any_minus')
    return same.select('valueeq', 0).apply('one')


def _close_ends(near: Matrix, back: Matrix, parts: Parts) -> None:
    """The vertices that no cycle leads to, or that lead to none, are components of their own."""
    for way in (near, back):
        gone = numpy.flatnonzero((find_topological_levels(way) != NONE) & (parts.part != DONE))
        parts.close(gone, gone)


def _close_colours(near: Matrix, back: Matrix, parts: Parts, seed: int) -> None:
    """The components of those vertices whose score is the least of all that reach them."""
    at = numpy.flatnonzero(parts.part != DONE)
    own = draw_numbers(put_column(near, Vector(at, numpy.ones_like(at))), seed)
    taken = back.ewise_add(loops(back, 1), 'first')
    colour = fixpoint(own, lambda score: taken.mxv(score, 'min_second'))
    first = colour.ewise_mult(own, 'eq').select('nonzero')
    colours = colour.diag()
    there = product(near, colours, 'any_second')
    same = product(colours, near, 'any_first').ewise_mult(there, 'eq').select('nonzero')
    reached = fixpoint(first, lambda had: had.ewise_add(same.mxv(had, 'any_pair'), 'first'))
    at, values = read_column(colour.ewise_mult(reached, 'first'))
    # rows ascend: the first with a value is the least
    _, where, which = numpy.unique(values, return_index=True, return_inverse=True)
    parts.close(at, at[where][which.reshape(-1)])


# -- what the client does by itself with a few edges, where a trip would cost more than the work

def find_strong_components(rows: Array, columns: Array) -> Tuple[Array, Array]:
    """The vertices with an edge of the given ones, whose rows ascend, and the least vertex of each
    one's strongly connected component. Vertices that no edge leads to, or none leaves, are taken
    off, and the component of the one with the most edges; the others by Tarjan's algorithm."""
    vertices, first, second = _renumber(rows, columns)
    parts = Parts(len(vertices))
    first, second = _trim(first, second, parts.count)
    if len(first) > FEW:
        leave, enter = (numpy.bincount(ends, minlength=parts.count) for ends in (first, second))
        middle = int((leave * enter).argmax())
        there, back = _reach(first, second, middle), _reach(second, first, middle)
        if there is not None and back is not None:
            parts.divide(there, back)
            keeps = (parts.part[first] == parts.part[second]) & (parts.part[first] != DONE)
            first, second = _trim(first[keeps], second[keeps], parts.count)
    inner, first, second = _renumber(first, second)
    parts.close(inner, inner[_tarjan(first, second, len(inner))])
    return vertices, vertices[parts.label]


def _renumber(rows: Array, columns: Array) -> Tuple[Array, Array, Array]:
    """The vertices that have edges, and the edges between their numbers among these."""
    is_end = numpy.zeros(1 + max(rows.max(initial=-1), columns.max(initial=-1)), bool)
    is_end[rows] = is_end[columns] = True
    numbers = numpy.cumsum(is_end) - 1
    return numpy.flatnonzero(is_end), numbers[rows], numbers[columns]


def _trim(first: Array, second: Array, count: int) -> Tuple[Array, Array]:
    """The edges without those that lead to a vertex that none leaves, or leave one that none leads
    to."""
    for _ in range(SWEEPS):
        keeps = numpy.bincount(second, minlength=count)[first] > 0
        keeps &= numpy.bincount(first, minlength=count)[second] > 0
        if keeps.all():
            break
        first, second = first[keeps], second[keeps]
    return first, second


def _reach(first: Array, second: Array, start: int) -> Optional[Array]:
    """The vertices that one reaches; None where paths are long."""
    seen = numpy.zeros(1 + max(first.max(), second.max()), bool)
    seen[start], many = True, 0
    for _ in range(SWEEPS):
        seen[second[seen[first]]] = True
        before, many = many, numpy.count_nonzero(seen)
        if many == before:
            return numpy.flatnonzero(seen)
    return None


def _tarjan(first: Array, second: Array, count: int) -> List[int]:
    """The least vertex of each one's component. `first` ascends. Tarjan's algorithm as Pearce has
    it, with a list for the calls."""
    ends = numpy.cumsum(numpy.bincount(first, minlength=count)).tolist()
    following, heads = [0, *ends[:-1]], second.tolist()
    number, low, out = [0] * count, [0] * count, list(range(count))
    met, open_ = 0, []  # type: int, List[int]
    for root in range(count):
        path = [] if low[root] else [root]
        while path:
            at = path[-1]
            if not low[at]:
                met += 1
                number[at] = low[at] = met
            if following[at] < ends[at]:
                there = heads[following[at]]
                following[at] += 1
                if not low[there]:
                    path.append(there)
                elif low[there] < low[at]:
                    low[at] = low[there]
                continue
            path.pop()
            open_.append(at)
            if low[at] == number[at]:              # all behind it on the stack are its component
                begin = len(open_) - 1
                while begin and low[open_[begin - 1]] >= low[at]:
                    begin -= 1
                least = min(open_[begin:])
                for member in open_[begin:]:
                    out[member], low[member] = least, count + 1
                del open_[begin:]
            elif low[at] < low[path[-1]]:
                low[path[-1]] = low[at]
    return out


# -- independent sets, by Luby's algorithm; and numbers that a seed draws for all vertices

THERE = Semiring(binary.first, binary.zero)        # "one of them is a neighbour", marked 0
# Of place p in a row or a column the number p + 1, three times multiplied by an odd number and
# folded: within 32 bits each of these steps can be taken back, and makes 0 of 0 alone. So no two
# places have the same number, and none has 0.
FACTOR, HALF = 739982445, (1 << 32) - 1
_MIXED = asm('index', f'''mov64 r0, r2
add64 r0, r3
add64 r0, 1
mul32 r0, r4
mov64 r5, r0
rsh64 r5, 16
xor64 r0, r5
rsh64 r4, 32
or64 r4, 1
mul32 r0, r4
mov64 r5, r0
rsh64 r5, 15
xor64 r0, r5
mul32 r0, {FACTOR}
mov64 r5, r0
rsh64 r5, 16
xor64 r0, r5
exit
''', 'drawn')


Seed = Union[None, int, random.Random, Any]
"""As networkx has it: a whole number, None for another draw at each call, a `random.Random`, or a
`RandomState` or `Generator` of numpy."""


def generator_of(seed: Seed) -> random.Random:
    """What a seed draws from. TypeError for what is no seed."""
    if isinstance(seed, random.Random):
        return seed
    if seed is None or (hasattr(seed, '__index__') and not isinstance(seed, bool)):
        return random.Random(None if seed is None else int(seed))
    # of numpy, new and old
    draw: Optional[Any] = getattr(seed, 'integers', None) or getattr(seed, 'randint', None)
    if draw is None:
        raise TypeError('a seed is a whole number, None, a random.Random, or a generator of numpy, '
                        'not %r' % (seed,))
    return random.Random(int(draw(1 << 62)))


def draw_numbers(vector: Matrix, seed: Seed) -> Matrix:
    """A number from 1 to 2^32 - 1 in place of each value of a row or a column, by the seed and its
    place, made by the session. No two places have the same. 1 job, 18 steps an entry."""
    return vector.apply(_MIXED, right=generator_of(seed).getrandbits(62) | 1)


def draw_on_paper(count: int, seed: int) -> Array:
    """The same numbers, made by the client."""
    thunk = generator_of(seed).getrandbits(62) | 1
    drawn = numpy.arange(1, count + 1, dtype=numpy.uint32)
    for factor, bits in ((thunk & HALF, 16), (thunk >> 32 | 1, 15), (FACTOR, 16)):
        drawn *= numpy.uint32(factor)
        drawn ^= drawn >> numpy.uint32(bits)
    return drawn.astype(numpy.int64)


@algorithm('vertices of which no two are neighbours', wanted=BOTH_WAYS,
           runs=lambda g: 7 * g.rounds + 3)
def maximal_independent_set(G: Matrix, seed: Seed = 0, progress: Progress = None, *,
                            check: bool = True) -> Matrix:
    """Vertices of which no two are neighbours, and to which none can be added.

    Parameters
    ----------
    G : Matrix
        An undirected graph; loops don't count.
    seed : int, None, or a generator of random or numpy, default 0
        Decides which of the possible sets is found. None draws a new one at each call.
    progress : callable, optional
        `progress('round', k, 0)` is called after each round.
    check : bool, default True
        Whether to check that the graph is undirected: once, 13 steps per edge and 5 per vertex.

    Returns
    -------
    Matrix
        A column of ones.

    Raises
    ------
    ValueError
        If the graph is directed.

    See Also
    --------
    bipartite_sides : Two sides without edges inside.
    louvain : Communities.

    Notes
    -----
    Luby's algorithm: a vertex joins the set if its random score is the greatest among its
    neighbours. The number of rounds is about the logarithm of the number of vertices.

    Cost: up to 10 steps per edge and 16 per vertex, per round, with 7 runs per round.

    Preparation takes 5 steps per edge, 22 per vertex and 3 runs.

    LAGraph: `LAGraph_MaximalIndependentSet`. networkx: `maximal_independent_set`.

    Examples
    --------
    >>> import spmat
    >>> from spmat.algorithms import maximal_independent_set
    >>> G = spmat.Session().from_edgelist(
    ...     [(0, 1), (0, 2), (1, 2), (2, 3), (3, 4), (3, 5), (4, 5)], directed=False)
    >>> maximal_independent_set(G).nvals
    2
    """
    graph = G.select('offdiag', 0)
    lines = find_vectors(graph, graph, False)
    left = draw_numbers(lines.fill(1), seed)
    chosen, number = lines.put(vector_of([], [])), 0
    while left.nvals:
        best = lines.step(left, GREATEST, mask=left)
        # who has no neighbour left keeps its score, which isn't 0
        won = left.ewise_add(best, 'gt').select('nonzero', 0)
        near = lines.step(won, THERE, mask=left)
        chosen = chosen.ewise_add(won, 'first')
        gone = won.apply('zero').ewise_add(near, 'first')
        left = left.ewise_add(gone, 'zero').select('nonzero', 0)
        number += 1
        tell(progress, 'round', number)
    at = lines.read(chosen).at
    return beside(G, put_column(G, Vector(at, numpy.ones_like(at))))


# -- levels of a directed graph without cycles, or its cycle

# An edge takes one from what the vertex that it leads to still waits for.
TAKEN = Semiring(binary.plus, asm('binary', 'mov64 r0, -1\nexit\n', 'minus_one'))
LEFT = Semiring(binary.any, binary.plus)           # what was taken, and how many there were
# 1 where a length of 0 or above and that of an edge wrap, else 0: the sum is below 0, and the edge
# isn't
WRAPPED = Semiring(binary.max, asm('binary', '''mov64 r0, r1
add64 r0, r2
xor64 r2, -1
and64 r0, r2
rsh64 r0, 63
exit
''', 'wrapped'))

SHOWN = 20                                         # vertices of a cycle in the words of an error


class CycleError(ValueError):
    """A directed graph has a cycle.

    Attributes
    ----------
    cycle : list
        Its vertices in their order, by their names where the graph has any. Each has an edge to the
        next, and the last to the first.
    """
    __module__ = 'spmat.algorithms'

    def __init__(self, cycle: List[Any]) -> None:
        is_short = len(cycle) <= SHOWN
        shown = [*map(repr, cycle[:SHOWN]), repr(cycle[0]) if is_short else '..']
        super().__init__('the graph has a cycle: ' + ' -> '.join(shown))
        self.cycle = cycle


class Order:
    """Vertices in the order in which no edge leads to them any more from one that isn't taken yet,
    with a number for each that is taken.

    `front` is the row of those that are to be taken first, `waiting` that of the others that an
    edge leads to from the front. A step's cost follows the edges that leave the front, and the
    vertices that wait for more of theirs."""

    def __init__(self, G: Matrix) -> None:
        self.graph = G
        incoming = G.session.ones(G.nrows).mxm(G, 'plus_pair')
        self.waits_for = incoming.diag()
        every = G.session.ones(G.nrows).apply('zero').ewise_add(incoming, 'second')
        self.front = every.select('valueeq', 0)
        self.numbers: Array = numpy.full(G.nrows, NONE)
        self.numbers[self.front.to_coo()[1]] = 0

    def take(self, s: State) -> Tuple[Matrix, Matrix, Matrix]:
        """Takes the front away: the next one, those that have edges left, of the vertices that an
        edge led to, and how many."""
        taken = s.waiting.ewise_add(s.front.mxm(self.graph, TAKEN), 'plus')
        left = taken.mxm(self.waits_for, LEFT)
        still = left.select('nonzero')
        return left.select('valueeq', 0), still, taken.ewise_mult(still, 'first')

    def run(self, step: Callable[[State], Dict[str, Matrix]], more: Dict[str, Matrix],
            progress: Progress) -> Array:
        """Makes all rounds, of which each vertex has the number, or its value in `lengths`; NONE
        where a cycle leads to it."""
        name = 'lengths' if more else 'front'
        begin = {'front': self.front, 'waiting': self.front.select('nonzero'), **more}
        tells = report_rounds(progress, 'level')

        def heard(first: int, rounds: List[Round]) -> None:
            if any(one.counts.get('wrapped') for one in rounds):
                raise ValueError(WRAPS)
            new = loop.shown[name].drain()
            self.numbers[new.places] = new.values if more else new.rounds
            tells(first, rounds)
        if (self.numbers != NONE).any():
            loop = Loop(step, begin, [name], alike=True)
            loop.rounds(empty('front'), self.graph.nrows + 1, heard)
        return self.numbers


def find_topological_levels(G: Matrix, progress: Progress = None) -> Array:
    """The levels of the vertices that no cycle leads to: those without an edge that comes in, those
    that have one from these alone, and so on. NONE for others."""
    order_ = Order(G)

    def step(s: State) -> Dict[str, Matrix]:
        front, _, waiting = order_.take(s)
        return {'front': front, 'waiting': waiting}
    return order_.run(step, {}, progress)


def _column(G: Matrix, numbers: Array) -> Matrix:
    """The numbers as a column. CycleError where a vertex has none."""
    rest = numpy.flatnonzero(numbers == NONE)
    if len(rest):
        raise CycleError(_find_cycle(G, rest))
    return beside(G, put_all(G, numbers))


@algorithm('levels of a graph without cycles',
           runs=lambda g: 6 * min(4 * g.rounds + 12, g.rounds + 128) + 5)
def topological_levels(G: Matrix, progress: Progress = None) -> Matrix:
    """The number of edges of the longest path that ends at each vertex, as a column.

    An edge leads from a lower level to a higher one, so vertices by ascending levels are in a
    topological order.

    Parameters
    ----------
    G : Matrix
        A directed graph without cycles.
    progress : callable, optional
        `progress('level', k, 0)` is called after each level.

    Returns
    -------
    Matrix
        A column with the level of each vertex, from 0.

    Raises
    ------
    CycleError
        If there is a cycle; `cycle` shows one. It is a ValueError.

    See Also
    --------
    longest_paths : The same with lengths of edges.
    strongly_connected_components : Where there are cycles.

    Notes
    -----
    Levels run as a loop on the server.

    Cost: up to 12 steps per edge and 30 per vertex for all levels; 6 runs per level, and 5.

    GraphBLAS: rows of counts by `vxm` over plus. networkx: `topological_generations`.

    Examples
    --------
    >>> import spmat
    >>> from spmat.algorithms import topological_levels
    >>> W = spmat.Session().from_triples(
    ...     [(0, 1, 2), (1, 2, 1), (2, 3, 4), (0, 3, 8)], 4, 4)
    >>> topological_levels(W).to_list()
    [0, 1, 2, 3]
    """
    if G.nrows == 0:
        return beside(G, nothing(G))
    return _column(G, find_topological_levels(G, progress))


@algorithm('lengths of longest paths in a graph without cycles', values=True, lengths=True,
           ranked=True, runs=lambda g: 8 * min(4 * g.rounds + 12, g.rounds + 128) + 9)
def longest_paths(W: Matrix, progress: Progress = None, *, check: bool = True) -> Matrix:
    """The length of the longest path that ends at each vertex, as a column.

    Parameters
    ----------
    W : Matrix
        A directed graph without cycles; an entry's value is the length of its edge.
    progress : callable, optional
        `progress('level', k, 0)` is called after each level.
    check : bool, default True
        Whether to refuse lengths that would pass 2^63 - 1; otherwise they wrap.

    Returns
    -------
    Matrix
        A column. A path may begin anywhere, so no length is below 0.

    Raises
    ------
    CycleError
        If there is a cycle; `cycle` shows one. It is a ValueError.
    ValueError
        If a length would wrap.

    See Also
    --------
    topological_levels : The same, counted in edges.
    sssp : Shortest paths.

    Notes
    -----
    Cost: up to 32 steps per edge and 60 per vertex for all levels; 8 runs per level, and 9.

    networkx: `dag_longest_path_length` is the greatest of these lengths.

    Examples
    --------
    >>> import spmat
    >>> from spmat.algorithms import longest_paths
    >>> W = spmat.Session().from_triples(
    ...     [(0, 1, 2), (1, 2, 1), (2, 3, 4), (0, 3, 8)], 4, 4)
    >>> longest_paths(W).to_list()
    [0, 2, 3, 8]
    """
    count = W.nrows
    if count == 0:
        return beside(W, nothing(W))
    may_wrap = check and count * extremes(W)[1] > MOST
    order_ = Order(W)

    def step(s: State) -> Dict[str, Matrix]:
        best = s.best.ewise_add(s.lengths.mxm(W, 'max_plus'), 'max')
        front, still, waiting = order_.take(s)
        out = {'front': front, 'waiting': waiting, 'best': best.ewise_mult(still, 'first'),
               'lengths': best.ewise_mult(front, 'first').apply('max', right=0)}
        return {**out, 'wrapped': s.lengths.mxm(W, WRAPPED).select('nonzero')} if may_wrap else out
    lengths = order_.front.apply('zero')
    more = {'lengths': lengths, 'best': lengths.select('nonzero')}
    return _column(W, order_.run(step, more, progress))


def _find_cycle(G: Matrix, rest: Array) -> List[Any]:
    """The names of a cycle among the vertices that have no level. Each of them has an edge from
    another one: walked back by the least of these they meet one twice."""
    count = G.nrows
    left = keep(G, Triples(rest, rest, rest, count, count))
    sources = G.session.ones(count).apply('zero').mxm(left, 'any_second').mxm(G, 'min_first')
    _, columns, values = sources.to_coo()
    before = dict(zip(columns.tolist(), values.tolist()))
    at, seen = int(rest[0]), {}  # type: int, Dict[int, int]
    walk: List[int] = []
    while at not in seen:
        seen[at] = len(walk)
        walk.append(at)
        at = before[at]
    return [name_of(G, Place(vertex)) for vertex in walk[seen[at]:][::-1]]


# -- minimum spanning forests, by Boruvka's algorithm

EVEN = 10 ** 18                                    # below it numbers of edges have as many digits


class Code(NamedTuple):
    """Edges as one number each, which ascends with their weights: (weight - least) * count^2 +
    i * count + j, where `least` is the least weight or less. It is the same for both directions of
    an edge."""
    least: int
    vertices: int

    def ends(self, words: Array) -> Tuple[Array, Array]:
        """The two vertices of each edge."""
        square = self.vertices ** 2
        places = words - words // square * square  # `%` takes far longer
        first = places // self.vertices
        return first, places - first * self.vertices

    def words(self, rows: Array, columns: Array, weights: Array) -> Array:
        """The number of each edge."""
        i, j = numpy.minimum(rows, columns), numpy.maximum(rows, columns)
        numbers: Array = ((weights - self.least) * self.vertices + i) * self.vertices + j
        return numbers

    def encode(self, W: Matrix) -> Matrix:
        """The numbers of the edges of a graph."""
        text = ('wide r5, %d\nsub64 r1, r5\nmov64 r0, r1\nwide r5, %d\nmul64 r0, r5\n'
                'jsle64 r2, r3, 3\nmov64 r5, r2\nmov64 r2, r3\nmov64 r3, r5\n'
                'mul64 r2, %d\nadd64 r0, r2\nadd64 r0, r3\nexit\n'
                % (self.least, self.vertices ** 2, self.vertices))
        return W.apply(asm('index', text), right=0)


class Forest:
    """The edges that were taken, by their numbers, and the components that they join."""

    def __init__(self, code: Code, progress: Progress) -> None:
        self.code, self.progress = code, progress
        self.labels = Labels(code.vertices)
        self.taken: List[Array] = []

    def take(self, words: Array) -> None:
        """A round is over, which takes these edges."""
        self.labels.join(*self.code.ends(words))
        self.taken.append(words)
        tell(self.progress, 'round', len(self.taken))

    def shrink(self, left: Matrix) -> Array:
        """Rounds by jobs on all edges, until few are left: their numbers."""
        roots: Array = numpy.arange(left.nrows)    # the least vertex of each row's component
        while left.nvals > AT_ONCE:
            rows, words = read_column(left.reduce_rowwise('min'))
            own, chosen = roots[rows], numpy.zeros_like(self.labels.of)
            chosen[own] = words
            one = self.labels.of[self.code.ends(words)[0]]
            # an edge that the components of both its ends chose counts once
            self.take(words[(own == one) | (chosen[one] != words)])
            ends, is_root = self.labels.of[own], numpy.zeros(self.code.vertices, bool)
            is_root[ends] = True
            roots = numpy.flatnonzero(is_root)
            numbers = numpy.cumsum(is_root) - 1    # numpy.unique sorts, for six times as long
            # one vertex for each component, and the lightest edge between each two
            left = contract(left, (rows, numbers[ends]), len(roots), 'min').select('offdiag', 0)
        return read_values(left)

    def finish(self, words: Array) -> None:
        """Rounds by the client on a few edges."""
        words, lightest = numpy.unique(words), numpy.zeros_like(self.labels.of)
        first, second = self.code.ends(words)
        while True:
            one, other = self.labels.of[first], self.labels.of[second]
            apart = numpy.flatnonzero(one != other)
            if not len(apart):
                return
            words, first, second = words[apart], first[apart], second[apart]
            ends = numpy.stack((one[apart], other[apart]), axis=1).ravel()
            # words ascend, and of several that are assigned the last counts
            lightest[ends[::-1]] = numpy.arange(len(ends))[::-1] // 2
            is_lightest = numpy.zeros(len(words), bool)
            is_lightest[lightest[ends]] = True
            self.take(words[is_lightest])

    def entries(self) -> Triples:
        """The edges, both ways."""
        words, count = numpy.concatenate([numpy.zeros(0, numpy.int64),
                                          *self.taken]), self.code.vertices
        (i, j), above = self.code.ends(words), words // count ** 2
        most = int(above.max(initial=0)) + 1
        # numbers of places and weights: to sort these takes less time than to rank places
        numbers = numpy.concatenate([(a * count + b) * most + above for a, b in ((i, j), (j, i))])
        numbers.sort()
        places = numbers // most
        rows, weights = places // count, numbers - places * most + self.code.least
        return Triples(rows, places - rows * count, weights, count, count)


@algorithm('the lightest edges that join what is joined', wanted=BOTH_WAYS, values=True,
           plot='spy', rows=lambda matrix, _: matrix.select('triu'), lengths=True,
           says='The edges of a minimum spanning forest of an undirected graph, each once, with '
           'their weights, which may be negative. Of edges of one weight the one with the lesser '
           'vertices is taken. Loops don\'t count. --both-ways takes each edge of a list both '
           'ways.')
def minimum_spanning_forest(W: Matrix, progress: Progress = None, *, check: bool = True) -> Matrix:
    """The edges of a minimum spanning forest of an undirected graph, both ways.

    Parameters
    ----------
    W : Matrix
        An undirected graph; values are weights, which may be negative. Loops don't count.
    progress : callable, optional
        `progress('round', k, 0)` is called after each round.
    check : bool, default True
        Whether to check that each edge leads both ways with one value: once, 55 steps per edge and
        15 per vertex.

    Returns
    -------
    Matrix
        The edges with their weights. Of edges of equal weight, the one with the lesser vertices is
        taken.

    Raises
    ------
    ValueError
        If the graph is directed, or the two values of an edge differ. Also if weights and vertices
        are too many to be told apart in 62 bits. That is where (greatest - least weight + 1) times
        the square of the number of vertices is above 2^62.

    See Also
    --------
    connected_components : The components that its trees span.

    Notes
    -----
    Borůvka's algorithm. In each round every component takes its lightest outgoing edge, and the
    graph shrinks to one vertex per component. So the number of rounds is at most the logarithm of
    the number of vertices. The client finishes once 32,768 edges or fewer are left.

    Cost: per round, up to 14 steps per edge and 20 per edge of the shrunken graph, in 5 runs. A
    graph of few edges takes neither.

    LAGraph: `LAGraph_msf`. networkx: `minimum_spanning_edges`.

    Examples
    --------
    >>> import spmat
    >>> from spmat.algorithms import minimum_spanning_forest
    >>> G = spmat.Session().from_edgelist(
    ...     [(0, 1), (0, 2), (1, 2), (2, 3), (3, 4), (3, 5), (4, 5)], directed=False)
    >>> minimum_spanning_forest(G).nvals // 2
    5
    """
    count = W.nrows
    if check:
        if not found(W, 'values both ways', lambda: is_transpose(W, W, values=True)):
            raise ValueError('expected an undirected graph, but an edge has two values: '
                             'W.ewise_add(W.T, "min") has the lesser; '
                             'check=False leaves this check out')
    least, most = extremes(W)
    span = (most - least + 1) * max(count, 1) ** 2
    if span > 1 << 62:
        raise ValueError('weights of %d to %d are too many for %d vertices: divide them'
                         % (least, most, count))
    power = 10 ** len(str(span))                   # numbers of as many digits are sooner read
    if power < EVEN and least > -EVEN:
        least -= -(-power // max(count, 1) ** 2)
    code = Code(least, count)
    forest = Forest(code, progress)
    if W.nvals > AT_ONCE:
        words = forest.shrink(code.encode(W.select('offdiag', 0)))
    else:
        i, j, weights = W.to_coo()
        once = i < j if check else i != j          # where an edge may lead one way alone
        words = code.words(i[once], j[once], weights[once])
    forest.finish(words)
    made = keep(W, forest.entries())
    made.notes = of_copy(W.notes)._replace(directed=False)
    return made
