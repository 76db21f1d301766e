"""What the algorithms share: vertices and columns, and products by parts."""
from __future__ import annotations

import warnings
from typing import Any, Callable, Iterable, List, Optional, Tuple, cast

import numpy

from .. import metadata
from ..io.matrix_text import Triples
from ..job_operators import Ring
from ..matrix import Matrix
from ..matrix_base import common_session, without_names
from ..types import Array, Place, Vertex, Vertices
from .cached_properties import found

__all__ = ['Progress']

Progress = Optional[Callable[[str, int, int], None]]
"""Called as a session's `progress` is: with a word ('level' or 'round'), the number of those that
have ended, and of how many; 0 where that isn't known."""


def check_graph(graph: Matrix, transpose: Optional[Matrix] = None) -> None:
    """TypeError where a graph is no matrix, ValueError where it isn't square, or its transpose is
    of another size; NamesDiffer where the transpose has other names."""
    if not hasattr(type(graph), 'mxm'):
        raise TypeError('a graph is a matrix of a session, as read_graph, from_edgelist or '
                        'from_networkx makes it, not %s' % type(graph).__name__)
    if graph.nrows != graph.ncols:
        raise ValueError('a graph is a square matrix; this one has %d rows and %d columns: of two '
                         'kinds of vertices spmat.bipartite(B) is the graph'
                         % (graph.nrows, graph.ncols))
    metadata.check_one_kind(graph.notes)
    if transpose is None or transpose is graph:
        return
    common_session(graph.session, transpose.session)
    if transpose.shape != graph.shape:
        raise ValueError('GT has to be the transpose: it has %d rows and %d columns, and the graph '
                         '%d vertices' % (transpose.nrows, transpose.ncols, graph.nrows))
    metadata.joined(graph.notes, transpose.notes, metadata.TRANSPOSE)


# -- vertices

def find_place(graph: Matrix, vertex: Vertex) -> Place:
    """The row of a vertex. ValueError where there is no such vertex."""
    return Place(graph.index(vertex))


def find_places(graph: Matrix, vertices: Vertices) -> List[Place]:
    """The rows of one vertex, or of several in their order. A tuple that is a name is one vertex.
    ValueError where one isn't there."""
    is_one = isinstance(vertices, (str, bytes)) or not isinstance(vertices, Iterable)
    if is_one or vertices in (graph.notes.rows or ()):
        return [find_place(graph, cast(Vertex, vertices))]
    return [find_place(graph, vertex) for vertex in cast(Iterable[Vertex], vertices)]


def find_sources(graph: Matrix, sources: Optional[Vertices]) -> List[Place]:
    """The rows of the vertices that are meant: all where none are named."""
    return list(map(Place, range(graph.nrows))) if sources is None else find_places(graph, sources)


def warn_of_repeated(graph: Matrix, rows: List[Place]) -> None:
    """Warns where a vertex that has a name is given twice: each would have a row of its name, and
    no two rows have one name, so that none has."""
    if graph.notes.axis(metadata.ROWS).has_names and len(set(rows)) < len(rows):
        twice = next(row for at, row in enumerate(rows) if row in rows[:at])
        warnings.warn('the vertex %r is given twice, and no two rows have one name: the rows of '
                      'the result have none; list(dict.fromkeys(names)) has each once'
                      % (name_of(graph, twice),), stacklevel=5)


def rows_of(column: Matrix) -> List[Place]:
    """The rows in which a column has entries."""
    return list(map(Place, column.to_coo()[0].tolist()))


def name_of(graph: Matrix, at: Place) -> Any:
    """The name of the vertex in a row, where the graph has names, else its number."""
    return int(at) if graph.nodes is None else graph.nodes[int(at)]


def names_of(graph: Matrix, rows: List[Place]) -> List[Any]:
    """The names of the vertices in some rows, where the graph has names, else their numbers."""
    names = graph.nodes
    return [int(at) if names is None else names[int(at)] for at in rows]


def beside(graph: Matrix, result: Matrix) -> Matrix:
    """A column that says something of each vertex, with the graph's names of its vertices."""
    result.notes = metadata.of_vertices(result.notes, graph.notes)
    return result


def name_pairs(graph: Matrix, result: Matrix, asked: Optional[Matrix] = None) -> Matrix:
    """A matrix that says the same of each two vertices in either order, of those that are `asked`
    about or of all, with the graph's names of its vertices."""
    rows, columns = (graph.notes.axis(axis) for axis in (metadata.ROWS, metadata.COLUMNS))
    directed = False if asked is None else metadata.even(asked.notes)
    result.notes = result.notes._replace(directed=directed).with_axes(rows, columns)
    return result


def name_rows(graph: Matrix, result: Matrix, rows: List[Place]) -> Matrix:
    """A matrix with a row for each of some vertices and a column for each vertex, with their names.
    Rows have none where a vertex stands twice. A row for each vertex of an undirected graph makes
    an undirected one, as distances are the same either way."""
    if len(rows) == graph.nrows and rows == list(range(graph.nrows)):
        result.notes = result.notes._replace(directed=metadata.even(graph.notes))
    vertices = metadata.vertices_of(graph.notes)
    if vertices is not None:
        result.notes = result.notes.with_axes(vertices.part([int(at) for at in rows]), vertices)
    return result


def mark_rows(like: Matrix, at: List[Place], value: int) -> Matrix:
    """A matrix with a row for each of some vertices, which has one entry, at the vertex."""
    made = like.session.from_coo(range(len(at)), list(map(int, at)), value, len(at), like.nrows)
    return without_names(made)


# -- columns

def column(like: Matrix, value: int) -> Matrix:
    """A column of one value, with a row for each vertex of a graph. It is kept with the graph."""
    made: Matrix = found(like, 'column of %d' % value,
                         lambda: like.session.full(like.nrows, 1, value))
    return made


def nothing(like: Matrix) -> Matrix:
    """A column without entries."""
    none = numpy.zeros(0, numpy.int64)
    made: Matrix = like.session.backend.keep(Triples(none, none, none, like.nrows, 1))
    return made


def count_edges(graph: Matrix) -> Matrix:
    """How many edges leave each vertex, as a column without those that none leaves."""
    return graph.apply('one').reduce_rowwise('plus')


def loops(like: Matrix, value: int) -> Matrix:
    """A loop of one value at each vertex: a diagonal matrix. It is kept with the graph."""
    made: Matrix = found(like, 'loops of %d' % value,
                         lambda: like.session.identity(like.nrows, value))
    return made


def product(a: Matrix, b: Matrix, semiring: Ring, mask: Optional[Matrix] = None) -> Matrix:
    """`a.mxm(b, semiring, mask=mask.S)`, by parts where that is too large.

    Where it is refused (over 16,777,216 multiplications), it is made by halves of the rows of `a`,
    their halves, and so on, joined as they come. In blocks each block does so by itself. Runs:
    those that the operands need, and up to 3 for each halving. Raises TooLarge where a single row
    is too expensive (its price above 2^32)."""
    return a.mxm(b, semiring, mask=None if mask is None else mask.S, parts=True)


def contract(graph: Matrix, groups: Tuple[Array, Array], many: int, add: str) -> Matrix:
    """The graph whose vertices are groups, so many, of some vertices of a graph: these, ascending,
    and the number of each one's group. Values of edges between two groups are folded. Runs: 2, more
    where a product is made by parts."""
    rows, numbers = groups
    ones, ranks = numpy.ones_like(rows), numpy.argsort(numbers, kind='stable')
    keep = graph.session.backend.keep
    tall = keep(Triples(rows, numbers, ones, graph.nrows, many))
    wide = keep(Triples(numbers[ranks], rows[ranks], ones, many, graph.nrows))
    return product(wide, product(graph, tall, (add, 'first')), (add, 'second'))


def tell(progress: Progress, word: str, number: int, of: int = 0) -> None:
    """Tells who waits that something has ended."""
    if progress is not None:
        progress(word, number, of)
