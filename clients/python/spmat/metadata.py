"""What is known of a matrix beside its entries: the names of its rows and columns, whether it is
undirected, whether it has weights.

Sessions note it of what they read, and each job hands on what stays true of its result, as
`result_metadata` has it. It is kept by the client alone: the server knows numbers.
"""
from __future__ import annotations

# pylint finds neither the members of a named tuple with methods, nor how many values a list has
# pylint: disable=unsubscriptable-object,no-member,no-value-for-parameter

import difflib
import enum
import functools
import itertools
import numbers
import re
from collections import Counter
from collections.abc import KeysView, Mapping, Set
from typing import (TYPE_CHECKING, Any, Collection, Dict, Iterable, Iterator, List, NamedTuple,
                    Optional, Sequence, Tuple, cast)

import numpy

from .errors import NamesDiffer
from .types import NodesLike, Vertex

FEW_NAMES = 6                                      # so many names are listed where one isn't found
FEW_NEAR, LIKE = 2, .7                             # so many names that are so much alike
TRUTHS = (bool, numpy.bool_)
NUMBER = re.compile(r'[+-]?[0-9]+(\.[0-9]*)?')     # as names write one


class Nodes(Sequence[Any]):
    """Names by index, and the index of a name, in which no name stands twice. Nothing changes one:
    `list(G.nodes)` is a list that can be changed.

    It is a sequence that equals a list, or a tuple, of the same names, as networkx' views and
    pandas' indexes are of theirs."""

    def __init__(self, names: Iterable[Vertex], is_cut: int = 0) -> None:
        # whether it is the one row, or column, that was cut from a graph: 1 by a list, 2 by itself
        self.is_cut = is_cut
        self._names: List[Any] = names._names if isinstance(names, Nodes) else list(names)
        # one object for all lists that were found equal to this one
        self.equal_lists: object = self

    def __len__(self) -> int:
        return len(self._names)

    def __getitem__(self, at: Any) -> Any:
        """The name at a place, or a list of those of a slice."""
        return self._names[at]

    def __iter__(self) -> Iterator[Any]:
        return iter(self._names)

    def __contains__(self, name: object) -> bool:
        try:
            return name in self.places
        except TypeError:                          # what has no hash is no name
            return False

    def __eq__(self, other: object) -> bool:
        """Whether another sequence has the same names in the same order."""
        if isinstance(other, (Nodes, list, tuple)):
            return self is other or self._names == list(other)
        return NotImplemented

    def __hash__(self) -> int:
        return hash(tuple(self._names))

    def __add__(self, other: Iterable[Vertex]) -> List[Any]:
        return [*self._names, *other]

    def __radd__(self, other: Iterable[Vertex]) -> List[Any]:
        return [*other, *self._names]

    def __repr__(self) -> str:
        return repr(self._names)

    if not TYPE_CHECKING:                          # which knows all attributes that there are
        def __getattr__(self, name: str) -> Any:
            if hasattr(list, name):
                raise AttributeError('names of vertices have no %r, as nothing changes them: '
                                     'list(G.nodes) is a list that can be changed, and G.nodes = '
                                     'names gives the vertices others' % name)
            raise AttributeError('%r object has no attribute %r' % ('Nodes', name))

    @functools.cached_property
    def places(self) -> Dict[Any, int]:
        """The index of each name."""
        return {name: at for at, name in enumerate(self)}

    @functools.cached_property
    def numbered(self) -> bool:
        """Whether some name is a number, or text of one, so that a number isn't taken for an
        index."""
        return any(NUMBER.fullmatch(name) is not None if isinstance(name, str)
                   else isinstance(name, numbers.Number) for name in self)

    @functools.cached_property
    def are_counted(self) -> bool:
        """Whether the names are just the numbers 0 to n - 1, in this order."""
        # most lists are told by their ends, which are looked at first
        if self and (self[0] != 0 or self[-1] != len(self) - 1):
            return False
        return self._names == list(range(len(self)))

    def equals(self, other: 'Nodes') -> bool:
        """Whether two lists have the same names in the same order. Two that have are compared once:
        both know it from then on."""
        mine, theirs = self.equal_lists, other.equal_lists
        if mine is not theirs:
            if not self == other:
                return False
            other.equal_lists = mine
        return True

    def at(self, name: Vertex) -> int:
        """The index of a name. KeyError where there is none."""
        try:
            return self.places[name]
        except TypeError:                          # what has no hash is no name
            raise KeyError(name) from None


class VertexUnit(int):
    """What values are that are vertices: each stored number is the place of a name. As a number it
    is 1; it equals the unit of the same names alone."""

    names: Nodes
    kind: int                                      # of these vertices, as `Axis` has it

    def __new__(cls, names: Nodes, kind: int = 0) -> 'VertexUnit':
        made = super().__new__(cls, 1)
        made.names, made.kind = names, kind
        return made

    def __reduce__(self) -> Tuple[Any, ...]:
        return VertexUnit, (self.names, self.kind)

    def __eq__(self, other: object) -> bool:
        return isinstance(other, VertexUnit) and self.axis.agrees(other.axis)

    def __ne__(self, other: object) -> bool:
        return not self == other

    def __hash__(self) -> int:
        return hash(VertexUnit)

    def __str__(self) -> str:
        return 'vertices'

    __repr__ = __str__

    @property
    def axis(self) -> 'Axis':
        """What the vertices are called."""
        return Axis(self.names, kind=self.kind)


def place_of(names: Nodes, node: Vertex) -> Optional[int]:
    """The place of a vertex among names; None where it is none of them. A truth value, or a
    fraction, is no whole number that equals it."""
    try:
        place = names.at(node)
    except KeyError:
        return None
    return place if isinstance(names[place], TRUTHS) == isinstance(node, TRUTHS) else None


def check_names(names: Nodes) -> None:
    """ValueError where a name stands twice, or has an end of line in it, so that it couldn't be
    written into a list."""
    if len(names.places) != len(names):
        name = next(name for name, count in Counter(names).items() if count > 1)
        raise ValueError('the name %r stands twice, at %d and at %d: names of vertices differ'
                         % (name, names.index(name), names.index(name, names.index(name) + 1)))
    wrong = next((name for name in names if isinstance(name, str)
                  and ('\n' in name or '\r' in name)), None)
    if wrong is not None:
        raise ValueError(
            'the name %r has an end of line in it, and lists have a line for each vertex' % wrong)


class Unnamed(enum.IntEnum):
    """What rows, or columns, are called that have no list of names."""
    # whatever those beside them are: of constants, and of what the client makes for itself
    ANYTHING = 0
    # the same, and rows and columns alike: of square constants, and of diagonals
    ALIKE = 1
    POSITIONS = 2                                  # nothing: the caller made the matrix by indexes
    NUMBERS = 3                                    # 0 to n - 1, by whoever read the graph


class Axis(NamedTuple):
    """What the rows of a matrix are called, or its columns: their names, or where they have no list
    of them what else."""
    names: Optional[Nodes] = None
    unnamed: Unnamed = Unnamed.ANYTHING
    # where a matrix was read with vertices of two kinds: k of its rows, and -k of its columns
    kind: int = 0

    @property
    def has_names(self) -> bool:
        """Whether these are vertices that whoever read them calls by a name or a number."""
        return self.names is not None or self.unnamed is Unnamed.NUMBERS

    def is_other_kind(self, other: 'Axis') -> bool:
        """Whether these are rows and columns that were read as vertices of two kinds."""
        return self.kind != 0 and self.kind == -other.kind

    def agrees(self, other: 'Axis') -> bool:
        """Whether both can mean the same vertices."""
        if self.is_other_kind(other):
            return False
        if self.names is None or other.names is None:
            names, else_ = (self.names, other) if other.names is None else (other.names, self)
            return names is None or else_.unnamed <= Unnamed.ALIKE or names.are_counted
        return self.names is other.names or self.names.equals(other.names)

    def with_other(self, other: 'Axis') -> 'Axis':
        """What both are called that agree."""
        if self.names is None and other.names is None:
            found = self if self.unnamed >= other.unnamed else other
        else:
            found = other if self.names is None else self
        kind = self.kind or other.kind
        return found if found.kind == kind else found._replace(kind=kind)

    @property
    def cut(self) -> int:
        """How the one row or column was cut from a graph, as `Nodes` has it; 0 of any others."""
        return 0 if self.names is None else self.names.is_cut

    def part(self, places: Sequence[int], one: bool = False) -> 'Axis':
        """What some of the rows, or columns, are called, in this order, or the `one` that is asked
        for by itself: nothing where one stands there twice."""
        if not self.has_names:
            return self.alone()
        if len(set(places)) < len(places):
            return Axis(None, Unnamed.POSITIONS)
        if len(places) == 1:
            return self._replace(names=Nodes([self.listed(places[0] + 1)[places[0]]], 1 + one),
                                 unnamed=Unnamed.ANYTHING)
        if self.names is None:
            return axis_of(Nodes(places))._replace(kind=self.kind)
        is_all = len(places) == len(self.names) and list(places) == list(range(len(places)))
        return self if is_all else self._replace(names=Nodes(self.names[at] for at in places))

    def listed(self, count: int) -> Sequence[Any]:
        """The names of so many rows, or columns: a list, or where they have none the numbers."""
        return range(count) if self.names is None else self.names

    def alone(self) -> 'Axis':
        """The same of rows whose columns may be called otherwise."""
        return Axis() if self.names is None and self.unnamed is Unnamed.ALIKE else self


def axis_of(names: Nodes) -> Axis:
    """What the vertices of a graph are called by whoever reads it: names that are just 0 to n - 1
    need no list."""
    are_plain = names.are_counted and set(map(type, names)) <= {int}
    return Axis(None, Unnamed.NUMBERS) if are_plain else Axis(names)


ROWS, COLUMNS = 0, 1
Axes = Tuple[Axis, Axis]


def list_of_names(names: Iterable[Vertex]) -> List[Any]:
    """Names as a list. TypeError for a set, which has no order, and for a dict, whose values would
    be lost."""
    if isinstance(names, (str, bytes)):
        raise TypeError('names are a list, one for each vertex, and not the text %r: write [%r, ..]'
                        % (names, names))
    if isinstance(names, (Set, Mapping)) and not isinstance(names, KeysView):
        raise TypeError(
            'names are a list, one for each vertex in their order, and not a %s: write list(..)'
            % type(names).__name__)
    return list(names)


def given_axis(names: Optional[Iterable[Vertex]], count: int) -> Axis:
    """What so many vertices are called by a caller who made a matrix by indexes. ValueError where
    there are more or fewer names, or they can't be told apart."""
    if names is None:
        return Axis(None, Unnamed.POSITIONS)
    found = names if isinstance(names, Nodes) else Nodes(list_of_names(names))
    if found is not names:
        check_names(found)
    if len(found) != count:
        raise ValueError('%d names for %d vertices' % (len(found), count))
    return Axis(found)


def axes_of(nodes: NodesLike, shape: Tuple[int, int]) -> Axes:
    """What rows and columns are called by a caller: both of a square matrix, the longer side of a
    vector by one list, of any matrix by a pair. ValueError where sizes don't fit."""
    (nrows, ncols), pair = shape, _pair(nodes)
    if pair is not None:
        return given_axis(pair[0], nrows), given_axis(pair[1], ncols)
    if nodes is None:
        return given_axis(None, nrows), given_axis(None, ncols)
    if nrows != ncols and 1 not in shape:
        raise ValueError(
            'rows and columns of a matrix of %dx%d have names of their own: row_nodes and '
            'column_nodes, or nodes=(rows, columns) where it is made' % shape)
    count = max(shape) if 0 not in shape else 0 if 1 in shape else nrows
    axis = given_axis(nodes, count)
    return axis if nrows == count else Axis(), axis if ncols == count else Axis()


def sizes_of(nodes: Optional[Collection[Vertex]], nrows: Optional[int],
             ncols: Optional[int]) -> Tuple[Optional[int], Optional[int]]:
    """Rows and columns, where a caller doesn't say how many those that have names."""
    if nodes is None:
        return nrows, ncols
    pair = _pair(nodes)
    count = len(nodes)
    rows, columns = pair if pair is not None else (nodes if ncols in (None, 1, count) else None,
                                                   nodes if nrows in (None, 1, count) else None)
    return (len(rows) if nrows is None and rows is not None else nrows,
            len(columns) if ncols is None and columns is not None else ncols)


def _pair(nodes: Optional[Collection[Any]]) -> Optional[Tuple[Any, Any]]:
    """The names of rows and of columns, where these are given each by themselves: a tuple of two
    lists, of which one may be None."""
    def is_list(many: object) -> bool:
        return (hasattr(many, '__len__') and hasattr(many, '__getitem__')
                and not isinstance(many, (str, bytes, tuple)))
    is_pair = (isinstance(nodes, tuple) and len(nodes) == 2
               and all(many is None or is_list(many) for many in nodes))
    return cast(Tuple[Any, Any], nodes) if is_pair else None


class Metadata(NamedTuple):
    """The names of the rows and of the columns, where they have any. Whether an entry (i, j) may
    stand without one of (j, i), or with one of another value, and whether the values are weights
    that the caller gave. None: not known. `source` says what was taken of the file or table that
    the matrix was read from, and is empty for results. `unit` says what a stored number stands for.
    `unnamed_rows` and `unnamed_columns` say what those are called that have no names."""
    rows: Optional[Nodes] = None
    columns: Optional[Nodes] = None
    directed: Optional[bool] = None
    weighted: Optional[bool] = None
    source: str = ''
    unit: int = 1
    unnamed_rows: Unnamed = Unnamed.ANYTHING
    unnamed_columns: Unnamed = Unnamed.ANYTHING
    # which of two kinds of vertices they are, as `Axis` has it
    row_kind: int = 0
    column_kind: int = 0

    @property
    def value_names(self) -> Optional[Nodes]:
        """The names of the vertices that values are, where they are such."""
        return self.unit.names if isinstance(self.unit, VertexUnit) else None

    def __repr__(self) -> str:
        sides = ['None' if names is None else '<%d names>' % len(names)
                 for names in (self.rows, self.columns)]
        return 'Metadata(rows=%s, columns=%s, directed=%r, weighted=%r, source=%r, unit=%s%s)' % (
            *sides, self.directed, self.weighted, self.source, self.unit,
            ', values are vertices' if self.value_names is not None else '')

    def names(self, axis: int) -> Optional[Nodes]:
        """The names of the rows, with an axis of 1 those of the columns."""
        return self.columns if axis else self.rows

    def axis(self, axis: int) -> Axis:
        """What the rows are called, with an axis of 1 the columns."""
        return (Axis(self.columns, self.unnamed_columns, self.column_kind) if axis
                else Axis(self.rows, self.unnamed_rows, self.row_kind))

    def with_axes(self, rows: Axis, columns: Axis) -> 'Metadata':
        """The same of a matrix whose rows and columns are called so."""
        return self._replace(rows=rows.names, columns=columns.names, unnamed_rows=rows.unnamed,
                             unnamed_columns=columns.unnamed, row_kind=rows.kind,
                             column_kind=columns.kind)

    def with_nodes(self, nodes: Any, shape: Tuple[int, int]) -> 'Metadata':
        """The same of a matrix whose vertices a caller calls otherwise. A pair of lists names rows
        and columns of the kinds that they are, one list those of one kind."""
        rows, columns = axes_of(nodes, shape)
        if _pair(nodes) is not None:
            rows = rows._replace(kind=self.row_kind)
            columns = columns._replace(kind=self.column_kind)
        return self.with_axes(rows, columns)

    def with_two_kinds(self) -> 'Metadata':
        """The same of a matrix whose rows and columns are vertices of two kinds."""
        kind = new_kind()
        return self._replace(row_kind=kind, column_kind=-kind)


_KINDS = itertools.count(1)


def new_kind() -> int:
    """A number that no other two kinds of vertices have."""
    return next(_KINDS)


NOTHING = Metadata()
ALIKE = Metadata(unnamed_rows=Unnamed.ALIKE, unnamed_columns=Unnamed.ALIKE)
BY_POSITIONS = Metadata(unnamed_rows=Unnamed.POSITIONS, unnamed_columns=Unnamed.POSITIONS)


SHOWN_NAMES = 3                                    # of two lists that differ
ALIGN = (
    'spmat.align(A, B) brings both to the same names, and nodelist=A.nodes reads B with those of A')
ONE_KIND = ('where they are one kind, read the matrix without bipartite=True, or set B.nodes = '
            'B.row_nodes before')
GATHER = 'B[A.column_nodes, :] has the rows of the second in the order of the columns of the first'
POSITIONS = (
    'what was made by positions has no names: v.nodes = G.nodes says that it has those of G, as '
    'nodes=G.nodes of from_coo, from_triples and from_dense does')
# What has to agree, by form of job: the rows (0) or columns (1) of the first, those of the second,
# and what both are in words.
Pairs = Tuple[Tuple[int, int, str], ...]
ELEMENTWISE: Pairs = ((ROWS, ROWS, 'the rows of the two matrices'),
                      (COLUMNS, COLUMNS, 'the columns of the two matrices'))
PRODUCT: Pairs = ((COLUMNS, ROWS, 'the columns of the first and the rows of the second'),)
MASK: Pairs = ((ROWS, ROWS, 'the rows of the result and of the mask'),
               (COLUMNS, COLUMNS, 'the columns of the result and of the mask'))
TRANSPOSE: Pairs = ((ROWS, COLUMNS, 'the rows of the graph and the columns of its transpose'),
                    (COLUMNS, ROWS, 'the columns of the graph and the rows of its transpose'))
VERTICES: Pairs = ((ROWS, ROWS, 'the vertices of the graph and the rows of the column'),)


def joined(first: Metadata, second: Metadata, pairs: Pairs, remedy: str = '') -> List[Axis]:
    """What each pair of rows or columns of two matrices is called that have to mean the same
    vertices. NamesDiffer where two can't, with a remedy where the caller has one.

    Rows that were cut from a graph, each alone, go together though their names differ, and so do
    columns: what is made of them has no name there."""
    out = []
    for i, j, words in pairs:
        a, b = first.axis(i), second.axis(j)
        if a.agrees(b):
            out.append(a.with_other(b))
        elif _are_cut(a, b) and not (_is_vertex(first) and _is_vertex(second)):
            out.append(Axis())
        else:
            raise names_differ(words, a, b, remedy or _remedy(first, second, (a, b), pairs))
    return out


def names_differ(words: str, a: Axis, b: Axis, remedy: str) -> NamesDiffer:
    """The error for two rows, columns or values that can't mean the same vertices."""
    if a.is_other_kind(b) and a._replace(kind=0).agrees(b):
        return NamesDiffer('%s are vertices of two kinds, though they have the same names; %s'
                           % (words, ONE_KIND))
    return NamesDiffer('%s have different names: %s; %s'
                       % (words, describe_differences(a, b), remedy))


def _remedy(first: Metadata, second: Metadata, axes: Axes, pairs: Pairs) -> str:
    """What to do about names that differ."""
    if not all(axis.has_names for axis in axes):
        return POSITIONS
    return (GATHER if pairs is PRODUCT and None in (vertices_of(first), vertices_of(second))
            else ALIGN)


def describe_differences(a: Axis, b: Axis) -> str:
    """The first names that differ of two lists, with their places. Where there is no list, they are
    the places."""
    count = len(a.names if a.names is not None else b.names or ())
    both = zip(*(range(count) if axis.names is None else axis.names for axis in (a, b)))
    words = ['position %r' if axis.names is None and axis.unnamed is Unnamed.POSITIONS else '%r'
             for axis in (a, b)]
    found = ('%d: %s and %s' % (at, words[0] % (one,), words[1] % (other,))
             for at, (one, other) in enumerate(both) if one is not other and one != other)
    return (', '.join(itertools.islice(found, SHOWN_NAMES))
            or '%d and %d names' % tuple(len(axis.names or ()) for axis in (a, b)))


def hint_of(first: Metadata, second: Metadata) -> str:
    """What to do about two matrices with vertices of their own whose sizes differ, behind a
    semicolon; else nothing."""
    return ('; ' + ALIGN if all(axis.has_names for one in (first, second)
                                for axis in (one.axis(ROWS), one.axis(COLUMNS))) else '')


def _are_cut(a: Axis, b: Axis) -> bool:
    """Whether each is one row, or one column, that was cut from a graph, or made by positions."""
    lists = [axis.names for axis in (a, b) if axis.names is not None]
    return bool(lists) and all(names.is_cut for names in lists)


def along(shape: Tuple[int, int], notes: Metadata) -> int:
    """Whether a vector is seen along its rows (0) or its columns (1). One of a single entry is seen
    along those that have names, or if neither has, along the row or the column that was cut."""
    if shape != (1, 1):
        return ROWS if shape[1] == 1 else COLUMNS
    rows, columns = notes.axis(ROWS), notes.axis(COLUMNS)
    if rows.has_names and columns.has_names:
        return COLUMNS if rows.cut > columns.cut else ROWS
    return COLUMNS if rows.names is None and columns.names is not None else ROWS


def is_line(shape: Tuple[int, int], notes: Metadata) -> bool:
    """Whether a matrix of one row, or one column, is seen as a vector. One of a single entry is,
    where that has just one name, or its row and its column were not cut alike."""
    rows, columns = notes.axis(ROWS), notes.axis(COLUMNS)
    return 1 in shape and (shape != (1, 1) or rows.cut != columns.cut
                           or (rows.names is None) != (columns.names is None))


def _is_vertex(notes: Metadata) -> bool:
    """Whether a matrix of one row, or column, is a graph of one vertex, which has one name."""
    sides = notes.axis(ROWS), notes.axis(COLUMNS)
    return all(axis.has_names for axis in sides) and sides[0].agrees(sides[1])


def even(*both: Metadata) -> Optional[bool]:
    """What is known of directions, where what two symmetric matrices make is symmetric."""
    return False if all(one.directed is False for one in both) else None


def of_copy(first: Metadata) -> Metadata:
    """What is known of a copy, which is a job."""
    return NOTHING if first is NOTHING else first._replace(directed=even(first), source='')


TWO_KINDS = ('a graph has one kind of vertices, and rows and columns of this matrix are two kinds: '
             'spmat.bipartite(B) is the graph of both, and B.mxm(B.T, "plus_pair") says how many '
             'neighbours two rows share')


def check_one_kind(graph: Metadata) -> None:
    """ValueError where the rows and the columns of a square matrix are vertices of two kinds."""
    rows, columns = graph.axis(ROWS), graph.axis(COLUMNS)
    if rows.is_other_kind(columns) or (rows.has_names and columns.has_names
                                       and not rows.agrees(columns)):
        raise ValueError(TWO_KINDS)


def of_vertices(first: Metadata, graph: Metadata) -> Metadata:
    """What is known of a column, of which nothing is known but that it says something of each
    vertex of a graph."""
    axis = vertices_of(graph)
    return first if axis is None else first.with_axes(axis, first.axis(COLUMNS))


def vertices_of(graph: Metadata) -> Optional[Axis]:
    """What the vertices of a square matrix are called: its rows and its columns; None where these
    differ."""
    rows, columns = graph.axis(ROWS), graph.axis(COLUMNS)
    return rows.with_other(columns) if rows.agrees(columns) else None


def suggest_names(node: Vertex, names: Sequence[Vertex]) -> str:
    """The names that a wrong one may have meant, in words; nothing where none is like it."""
    other = (int(node) if isinstance(node, str) and node.isdecimal()
             else None if isinstance(node, str) else str(node))
    if other is not None and other in names:
        return 'did you mean %r? %r and %r are two names' % (other, node, other)
    if not isinstance(node, str):
        return ''
    folded = {name.casefold(): name for name in names if isinstance(name, str)}
    found = [folded[word] for word in difflib.get_close_matches(node.casefold(), folded, FEW_NEAR,
                                                                LIKE)]
    return 'did you mean %s?' % ' or '.join(map(repr, found)) if found else ''


def abbreviate_names(names: Sequence[Vertex]) -> str:
    """Some names in words."""
    first = names[0] if names else None
    if len(names) > 1 and type(first) is int and names == list(range(first, first + len(names))):
        return '%d to %d' % (first, first + len(names) - 1)
    some = ', '.join(map(repr, names[:FEW_NAMES]))
    return some + (', .. (%d)' % len(names) if len(names) > FEW_NAMES else '')
