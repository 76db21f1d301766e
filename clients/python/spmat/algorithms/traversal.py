"""The one policy of traversal: how what flows along edges gets from vertex to vertex.

An algorithm says what a step is: a semiring, a front or a full vector, and whether values matter.
This module decides by the sizes and by where the graph is how the step is made:

- One session has the graph: vectors are rows, and a front is *pushed*. A row times a graph costs
  what the edges cost that leave the row's vertices, however many vertices there are.
- In blocks a row would bring the whole graph to one block. There the client has the front, and
  each step is one trip to the blocks that have to do with it. Full vectors are columns, which are
  *pulled* along the rows of the transpose.
- Of a small graph the client has the edges, which it reads once, where nobody counts steps: it
  pushes fronts by itself, in less time than a trip takes.
- A full vector that flows through a large graph round after round is a column, too, where many
  workers share a product: they share its rows.

In one session a search always pushes. Under a mask of the vertices that weren't seen both ways take
the same steps. On graphs of 65,536 vertices and a million edges pulling took 1.1 to 1.8 times as
long by the clock. A pull looks at all rows, and needs the front as a column, which is sent.
"""
from __future__ import annotations

import itertools
from typing import Any, Dict, Iterable, List, NamedTuple, Optional, Sequence, Tuple, Union, cast

import numpy

from ..io.matrix_text import Triples
from ..loops.round_text import Push
from ..matrix import Matrix
from ..operators import Semiring, binary
from .cached_properties import found, is_both_ways, transpose_of
from ..types import Array

# From so many on a full column takes less time than a full row by the clock. With three entries at
# a vertex it takes 1.7 times a row's time of processors, which three workers share.
MANY_WORKERS, MANY_ENTRIES, MANY_AT_A_VERTEX = 3, 500_000, 3
# Of fewer vertices all that a front reaches is read in less time than a mask is made.
SMALL = 1 << 15
SWAPPED = {binary.first: binary.second, binary.second: binary.first}
# rounds after which a search is taken for a long one
LONG = 32
# edges, or vertices, of a small graph
AT_ONCE = 1 << 16
SHORTEST = Semiring(binary.min, binary.plus)
NONE = -1                                          # of a vertex that a search hasn't found


class Vector(NamedTuple):
    """Vertices, ascending, and a value for each."""
    at: Array
    values: Array


def vector_of(at: Sequence[Any], values: Sequence[int]) -> Vector:
    """A vector of a few numbers."""
    return Vector(numpy.array(at, numpy.int64), numpy.array(values, numpy.int64))


class Traversal:
    """How what fronts have moves along the edges of a graph. Where the session keeps vectors, these
    are matrices beside the graph: columns, or rows."""

    has_matrices = True                            # whether the session keeps vectors
    is_full = False                                # whether these had better have all vertices
    is_column = False

    def __init__(self, graph: Matrix) -> None:
        self.graph, self.count = graph, graph.nrows

    def push(self, front: Vector, ring: Semiring) -> Vector:
        """What comes to each vertex j along the edges (i, j) from the front's vertices i.

        The terms are `mul(front(i), edge)`, folded by `add`. `mul` is `first`, `second`, or
        commutative."""
        return self.read(self.step(self.put(front), ring))

    def pays_scan(self, front: int, part: int = 4) -> bool:
        """Whether a front of so many vertices has so many edges that jobs over all vertices pay.

        They do from a `part`-th of the vertices on, by the mean degree. They take less steps than
        pushes, and of a small graph more time: where nobody counts steps it always pushes."""
        if not self.has_matrices or part * front * self.graph.nvals < self.count * self.count:
            return False
        return self.count >= SMALL or not is_ample(self.graph)

    def may_loop(self, rounds: int) -> bool:       # pylint: disable=unused-argument
        """Whether a search of so many rounds goes on in a loop at the server: one costs what its
        front has, and the client nothing."""
        return False

    # -- vectors that the session keeps

    def put(self, vector: Vector) -> Matrix:
        """A matrix of a vector."""
        return (put_column if self.is_column else put_row)(self.graph, vector)

    def fill(self, value: int) -> Matrix:
        """A matrix with a value for every vertex."""
        sides = (self.count, 1) if self.is_column else (1, self.count)
        return self.graph.session.full(*sides, value)

    def ones(self) -> Matrix:
        """A vector of ones, kept with the graph."""
        held: Matrix = found(self.graph, type(self).__name__ + ' of ones', lambda: self.fill(1))
        return held

    def numbers(self, more: int = 0) -> Matrix:
        """A vector of the vertices' own numbers, plus `more`, kept with the graph."""
        held: Matrix = found(self.graph, '%s of numbers from %d' % (type(self).__name__, more),
                             lambda: self.number(self.ones(), more))
        return held

    def number(self, vector: Matrix, more: int = 0) -> Matrix:
        """A vector whose values are the vertices' own numbers, plus `more`."""
        return vector.apply('rowindex' if self.is_column else 'colindex', right=more)

    def read(self, matrix: Matrix) -> Vector:
        """The vector that a matrix is."""
        return (read_column if self.is_column else read_row)(matrix)

    def step(self, front: Matrix, ring: Semiring, mask: Optional[Matrix] = None) -> Matrix:
        """`push`, of a matrix, under the structure of a mask."""
        return front.mxm(self.graph, ring, mask=None if mask is None else mask.S)

    def turn(self, transpose: Matrix) -> 'Traversal':
        """The same against the edges."""
        return type(self)(transpose)

    def wants_full(self, vector: Matrix) -> bool:  # pylint: disable=unused-argument
        """Whether a vector that isn't full had better have zeros for the other vertices."""
        return False


class Rows(Traversal):
    """Vectors as rows, which push."""

    def __init__(self, graph: Matrix) -> None:
        super().__init__(graph)
        self._pushes: Dict[Semiring, Push] = {}

    def push(self, front: Vector, ring: Semiring) -> Vector:
        """By one trip; as a job where it is refused, so that the error is that of a job."""
        if ring not in self._pushes:
            self._pushes[ring] = Push(self.graph, ring)
        row = Triples(numpy.zeros_like(front.at), front.at, front.values, 1, self.count)
        got = self._pushes[ring](row)
        if got is None:
            return super().push(front, ring)
        return Vector(got.places, got.values)

    def may_loop(self, rounds: int) -> bool:
        return rounds >= LONG and is_ample(self.graph) and is_both_ways(self.graph)


class Edges(NamedTuple):
    """The edges of a graph at the client: where those of each vertex begin, by ascending vertices,
    from where to where each leads, and its value."""
    starts: Array
    tails: Array
    heads: Array
    values: Array

    def leaving(self, at: Array) -> Tuple[Array, Array]:
        """How many edges leave each of some vertices, and the places of these edges."""
        begin = self.starts[at]
        many = self.starts[at + 1] - begin
        ends = numpy.cumsum(many)
        places = (begin - ends + many).repeat(many)
        return many, places + numpy.arange(len(places))


class HeldRows(Rows):
    """Rows beside a graph whose edges the client has, which it pushes by itself."""

    def push(self, front: Vector, ring: Semiring) -> Vector:
        """Lengths by no trip."""
        if ring != SHORTEST:
            return super().push(front, ring)
        edges = held_edges(self.graph)
        many, places = edges.leaving(front.at)
        heads, lengths = edges.heads[places], front.values.repeat(many) + edges.values[places]
        ranks = heads.argsort(kind='stable')
        heads = heads[ranks]
        firsts = numpy.flatnonzero(numpy.diff(heads, prepend=-1))
        return Vector(heads[firsts], numpy.minimum.reduceat(lengths[ranks], firsts)
                      if len(firsts) else heads)

    def pays_scan(self, front: int, part: int = 4) -> bool:
        return False

    def may_loop(self, rounds: int) -> bool:
        return False


class Columns(Traversal):
    """Vectors as columns, which pull along the rows of the transpose."""

    is_full = is_column = True

    def __init__(self, graph: Matrix, transpose: Optional[Matrix] = None) -> None:
        super().__init__(graph)
        self.transpose = graph if transpose is None else transpose

    def step(self, front: Matrix, ring: Semiring, mask: Optional[Matrix] = None) -> Matrix:
        return self.transpose.mxv(front, swap(ring), mask=None if mask is None else mask.S)

    def turn(self, transpose: Matrix) -> 'Columns':
        return Columns(transpose, self.graph)

    def wants_full(self, vector: Matrix) -> bool:
        """The server prices a product with a column that isn't full by a walk along the graph."""
        return self.graph.in_one_place and bool(vector.nvals < self.count)


class BlockFronts(Traversal):
    """Fronts that the client has, beside a graph in blocks: each push is one trip to the blocks
    that have to do with it. Without a transpose all fronts are pushed."""

    has_matrices = False

    def __init__(self, graph: Matrix, transpose: Optional[Matrix]) -> None:
        super().__init__(graph)
        self.transpose = transpose

    def push(self, front: Vector, ring: Semiring) -> Vector:
        graph, backend = self.graph, cast(Any, self.graph.session.backend)
        is_large = 4 * len(front.at) * graph.nvals >= self.count * self.count
        rings = ring, swap(ring)
        reached: Vector = backend.step_front(graph, self.transpose, front, rings, is_large)
        return reached


# -- which way to go

def find_traversal(G: Matrix, GT: Optional[Matrix], check: bool, values: bool = False) -> Traversal:
    """How a search goes through a graph. `GT` is the transpose, with `values` if these matter.

    A transpose that is given is looked at, also where none is needed."""
    if G.in_one_place:
        if GT is not None:
            transpose_of(G, GT, check, values)
        return HeldRows(G) if is_small(G) and is_ample(G) else Rows(G)
    if GT is not None:
        return BlockFronts(G, transpose_of(G, GT, check, values))
    both = is_both_ways(G) if not values else G.directed is False
    return BlockFronts(G, G if both else None)


def find_vectors(G: Matrix, GT: Optional[Matrix], check: bool, values: bool = False) -> Traversal:
    """As `find_traversal`, where the session keeps all vectors: in blocks these are columns."""
    if G.in_one_place:
        return find_traversal(G, GT, check, values)
    return Columns(G, transpose_of(G, GT, check, values))


def find_flow(G: Matrix, GT: Optional[Matrix], check: bool, values: bool = False) -> Traversal:
    """How full vectors flow through a graph round after round."""
    if is_shared(G):
        return Columns(G, transpose_of(G, GT, check, values))
    return find_vectors(G, GT, check, values)


def is_small(graph: Matrix) -> bool:
    """Whether a graph has so few edges that the client may keep them."""
    return bool(max(graph.nrows, graph.nvals) <= AT_ONCE)


def is_whole(graph: Matrix) -> bool:
    """Whether one session has the graph, so that its sizes limit what comes of it."""
    return graph.in_one_place


def is_ample(graph: Matrix) -> bool:
    """Whether one session has the graph, with a budget so large that nobody counts its steps."""
    return graph.in_one_place and bool(graph.session.backend.queue.is_ample)


def is_shared(graph: Matrix) -> bool:
    """Whether so many workers share a product with a full column that it beats one with a full row,
    which one worker makes. Of a server's session that isn't known."""
    if not graph.in_one_place or (graph.session.workers or 1) < MANY_WORKERS:
        return False
    return graph.nvals >= max(MANY_ENTRIES, MANY_AT_A_VERTEX * graph.nrows)


def swap(ring: Semiring) -> Semiring:
    """The semiring of the same product with its operands swapped."""
    return Semiring(ring.add, SWAPPED.get(ring.mul, ring.mul))


class Unseen:
    """The vertices that a search hasn't seen, as a mask. It is made when it is first wanted, and
    what was seen since is taken out when it is wanted next: 2 runs, and a walk along all
    vertices."""

    def __init__(self, lines: Traversal, seen: Array) -> None:
        self._lines = lines
        self._since: List[Array] = [seen]
        self._last: Optional[Matrix] = None
        self._held: Optional[Matrix] = None

    def note(self, at: Array, matrix: Optional[Matrix]) -> None:
        """More vertices are seen, which are those of a matrix, if that is given."""
        self._last = matrix if not self._since else None
        self._since.append(at)

    def mask(self) -> Matrix:
        """The vertices that weren't seen."""
        now = self._held if self._held is not None else self._lines.ones()
        if self._since:
            marks = self._last if self._last is not None else self._lines.put(join(self._since))
            now = now.ewise_add(marks, 'zero').select('nonzero')
        self._held, self._since, self._last = now, [], None
        return now


# -- vectors and matrices

def join(parts: Sequence[Array]) -> Vector:
    """The vertices of several parts, each once, with ones."""
    at = numpy.unique(numpy.concatenate(parts))
    return Vector(at, numpy.ones_like(at))


def put_row(graph: Matrix, vector: Vector) -> Matrix:
    """A vector as a row beside a graph."""
    zeros = numpy.zeros_like(vector.at)
    return keep(graph, Triples(zeros, vector.at, vector.values, 1, graph.nrows))


def put_unsorted(graph: Matrix, at: Array, values: Array) -> Matrix:
    """A row of vertices in any order, each once."""
    ranks = numpy.argsort(at, kind='stable')
    return put_row(graph, Vector(at[ranks], values[ranks]))


def put_column(graph: Matrix, vector: Vector) -> Matrix:
    """A vector as a column beside a graph."""
    zeros = numpy.zeros_like(vector.at)
    return keep(graph, Triples(vector.at, zeros, vector.values, graph.nrows, 1))


def put_known(graph: Matrix, numbers: Array, missing: int) -> Matrix:
    """The numbers of all vertices as a column, without those that are `missing`."""
    return put_column(graph, select_known(numbers, missing))


def select_known(numbers: Array, missing: int) -> Vector:
    """The vertices whose numbers aren't `missing`."""
    at = numpy.flatnonzero(numbers != missing)
    return Vector(at, numbers[at])


def put_all(graph: Matrix, values: Union[Sequence[int], Array]) -> Matrix:
    """A column with a value for each vertex of a graph."""
    found_values = numpy.asarray(values, numpy.int64)
    return put_column(graph, Vector(numpy.arange(len(found_values)), found_values))


def keep(graph: Matrix, entries: Triples) -> Matrix:
    """A matrix of entries by ascending row and column, beside a graph."""
    made: Matrix = graph.session.backend.keep(entries)
    return made


def read_entries(matrix: Matrix) -> Triples:
    """The entries of a matrix, by ascending row and column."""
    found: Triples = matrix.session.backend.read(matrix.handle)
    return found


def read_row(matrix: Matrix) -> Vector:
    """The vector that a row is."""
    entries = read_entries(matrix)
    return Vector(entries.columns, entries.values)


def read_column(matrix: Matrix) -> Vector:
    """The vector that a column is."""
    entries = read_entries(matrix)
    return Vector(entries.rows, entries.values)


def load_edges(graph: Matrix) -> Edges:
    """The edges of a graph, which are read now."""
    tails, heads, values = read_entries(graph)[:3]
    return Edges(numpy.searchsorted(tails, numpy.arange(graph.nrows + 1)), tails, heads, values)


def held_edges(graph: Matrix) -> Edges:
    """The edges of a graph, which are read once, and kept while it is held."""
    edges: Edges = found(graph, 'edges', lambda: load_edges(graph))
    return edges


def held_rows(graph: Matrix, back: bool = False) -> List[List[int]]:
    """Where the edges of each vertex lead, or from where edges lead to it, kept as the edges."""
    def split() -> List[List[int]]:
        edges, names = held_edges(graph), list(range(graph.nrows))
        near, far = (edges.heads, edges.tails) if back else (edges.tails, edges.heads)
        ranks = near.argsort(kind='stable')
        starts = numpy.searchsorted(near[ranks], numpy.arange(graph.nrows + 1)).tolist()
        # one object for each vertex: many would take longer to look up
        ends = [names[at] for at in far[ranks].tolist()]
        return [ends[begin:end] for begin, end in zip(starts, starts[1:])]
    is_turned = back and graph.directed is not False
    rows: List[List[int]] = found(graph, 'rows back' if is_turned else 'rows', split)
    return rows


class Levels:
    """A search along rows that the client has: the vertices that it found at each level."""

    def __init__(self, rows: List[List[int]], sources: Iterable[int]) -> None:
        self.rows, self.found = rows, [set(sources)]
        self.seen = self.found[0].copy()

    def advance(self) -> bool:
        """Whether another level has a vertex."""
        near = map(self.rows.__getitem__, self.found[-1])
        self.found.append(set[int]().union(*near) - self.seen)
        self.seen |= self.found[-1]
        return bool(self.found[-1])

    def note(self, numbers: Array) -> None:
        """Writes the level of each vertex that was found."""
        at = numpy.fromiter(itertools.chain.from_iterable(self.found), numpy.int64, len(self.seen))
        numbers[at] = numpy.arange(len(self.found)).repeat(list(map(len, self.found)))


def read_edges(graph: Matrix) -> Tuple[Array, Array]:
    """Where the edges of a graph begin and end, by ascending vertices."""
    if is_small(graph):
        edges = held_edges(graph)
        return edges.tails, edges.heads
    entries = read_entries(graph)
    return entries.rows, entries.columns


def read_values(matrix: Matrix) -> Array:
    """The values of a vector whose places are known."""
    found: Array = read_entries(matrix).values
    return found


def spread(vector: Vector, count: int) -> Array:
    """The values of a vector by vertex, 0 where there is none."""
    numbers = numpy.zeros(count, numpy.int64)
    numbers[vector.at] = vector.values
    return numbers
