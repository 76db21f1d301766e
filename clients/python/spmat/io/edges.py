"""Edges by name as a matrix: which vertices there are, which entry an edge is, what is left out,
and what becomes of edges that repeat.

Names that are whole numbers come in ascending order, others as they first stand. Where the names
are just 0 to n - 1 they are the vertices, and the matrix has no names besides. Edges come from
files (`edge_lists`, `formats`), and here from lists, tables of pandas and graphs of networkx.
"""
from __future__ import annotations

import bisect
import contextlib
import itertools
import operator
import os
import re
from typing import (Any, Callable, Dict, Iterable, List, Mapping, NamedTuple, Optional, Sequence,
                    Tuple, Union)

import numpy

from ..errors import about, parameters_of, refusal, warn_user
from ..extras import import_extra
from ..integers import MOST, is_gap, shown
from ..limits import MOST_SIDE
from ..metadata import Metadata, Nodes, axis_of, list_of_names
from ..types import Array, DataFrame, NxGraph, Vertex
from .arrays import columns_of_frame, is_frame, is_series
from .matrix_text import Triples, lowered
from .values import RAISE, SKIP, SKIPS, TAKES, Clock, Rounding, is_time, whole_numbers

FOLDS = ('dup_op="plus" adds their values up, "min" or "max" keeps the least or the greatest, '
         '"first" or "second" the one that comes first or last')
WHOLE = re.compile('0|-?[1-9][0-9]*')              # a whole number, as Python writes it
# whole numbers in a range of so many times their count are numbered by a table
DENSE = 8


Comments = Union[bool, str, Sequence[str], None]
"""True: lines above the first row that begin with # or %. A text or several: whatever stands behind
one, in any line. None: nothing."""
Column = Union[int, str]
# what numpy has of its own where Python has a number or a text
PLAIN = (numpy.integer, numpy.floating, numpy.str_)


class Layout(NamedTuple):
    """How a list is written. None: by what stands in it. `columns` are those of the two names, and
    perhaps of the value: numbers from 0, or words of the header. `bipartite` says whether sources
    and targets are two kinds of vertices; None where nobody said it, which is asked where the
    header names two. `missing` None takes nothing for missing; `nodetype` is str or int where names
    are to be these. Values are times in `unit`, where that is given, and written in
    `date_format`."""
    sep: Optional[str] = None
    header: Optional[bool] = None
    columns: Optional[Sequence[Column]] = None
    values: bool = True
    scale: Optional[float] = None
    bipartite: Optional[bool] = None
    comments: Comments = True
    missing: Optional[str] = RAISE
    nodetype: Optional[type] = None
    unit: Optional[str] = None
    date_format: Optional[str] = None

    def check(self) -> None:
        """ValueError for words that say nothing, or don't go together."""
        if self.missing not in (RAISE, SKIP, None):
            raise about(ValueError('missing is "raise", "skip" or None, which takes nothing for '
                                   'missing; not ' + shown(self.missing)), 'missing')
        if self.nodetype not in (None, str, int):
            raise about(ValueError('nodetype is str or int, or None for whole numbers where all '
                                   'are; not %r' % (self.nodetype,)), 'nodetype')
        self.clock()

    def clock(self) -> Optional[Clock]:
        """What makes numbers of times; None where values are no times. ValueError for words that
        don't go together."""
        if self.unit is None and self.date_format is not None:
            raise about(ValueError('date_format= says how times are written: unit="s" takes them'),
                        'date_format', 'unit')
        if self.unit is not None and self.scale is not None:
            raise about(ValueError('values are times (unit=) or numbers (scale=): one of both'),
                        'unit', 'scale')
        return None if self.unit is None else Clock(self.unit, self.date_format)


class LeftOut(NamedTuple):
    """What reading leaves out. It counts lines that are comments, lines that end in one, and rows
    that lack a name or a value. It also counts edges of other vertices than those of `nodelist`,
    and edges that repeat one that counts once. `notes.source` says it, so that nothing is lost in
    silence."""
    comments: int = 0
    ends: int = 0
    names: int = 0
    values: int = 0
    others: int = 0
    repeats: int = 0

    def plus(self, other: LeftOut) -> LeftOut:
        """What two parts of a graph leave out together."""
        return LeftOut(*(one + more for one, more in zip(self, other)))

    def __str__(self) -> str:
        words = ('comment line%s passed over', 'comment%s at the end of a line passed over',
                 'row%s without a name left out', 'row%s without a value left out',
                 'edge%s of vertices outside nodelist left out', 'edge%s given again, counted once')
        return '; '.join('%d %s' % (count, what % ('' if count == 1 else 's'))
                         for count, what in zip(self, words) if count)

    def added_to(self, words: str) -> str:
        """Words on what was read, with these."""
        return '; '.join(part for part in (words, str(self)) if part)


class Names(NamedTuple):
    """A column of names: the number of each, and the names by number, in the order in which they
    first stand."""
    codes: Any
    names: List[Any]

    def __len__(self) -> int:
        return len(self.codes)

    def tolist(self) -> List[Any]:
        """The names themselves."""
        return list(map(self.names.__getitem__, self.codes.tolist()))


class Edges(NamedTuple):
    """Edges in order: from where, to where (arrays of whole numbers, `Names`, or lists), and their
    values, or None where they have none. `fault(k, words)` is the error of edge k. `summary` says
    what was taken of a file, and `left_out` what was not. `question` has to be answered where
    nobody said which way edges lead. A file of a graph says by itself what its vertices are,
    `nodes`, and whether its edges lead one way, `directed`."""
    sources: Any
    targets: Any
    values: Any
    fault: Callable[[int, str], Exception]
    summary: str = ''
    left_out: LeftOut = LeftOut()
    question: str = ''
    nodes: Optional[Sequence[Any]] = None
    directed: Optional[bool] = None


class How(NamedTuple):
    """What becomes of edges. Each stands both ways unless they are `directed`. `nodelist` has the
    vertices, in order, or is None for those that there are. With `bipartite`, sources and targets
    are vertices of two kinds, rows and columns."""
    directed: bool = True
    nodelist: Optional[Sequence[Any]] = None
    bipartite: bool = False


class Graph(NamedTuple):
    """The entries of a matrix, of an undirected graph those of the lower triangle alone, and what
    is known of it. Entries of one position may stand there again; `count_once` gives the graph
    without these."""
    triples: Triples
    notes: Metadata
    count_once: Callable[[], Graph]


# -- edges as a matrix

def check_direction(how: How) -> None:
    """ValueError for edges between vertices of two kinds that are to lead both ways, or whose
    vertices are given as if they were of one kind."""
    if how.bipartite and how.nodelist is not None:
        raise ValueError('nodelist= has vertices of one kind, and bipartite=True takes two: '
                         'B[row_names, column_names] takes some of each')
    if how.bipartite and not how.directed:
        raise about(ValueError(
            'a bipartite matrix has rows and columns of two kinds, so an edge has no second '
            'direction: directed=True'), 'bipartite', 'directed')


def graph_of(edges: Edges, how: How) -> Graph:
    """The matrix of edges. TooLarge where there are too many vertices."""
    check_direction(how)
    if how.nodelist is not None:
        edges, rows, columns, first = _among(edges, how.nodelist)
        second = first
    elif how.bipartite:
        ((rows,), first), ((columns,),
                           second) = number_names([edges.sources]), number_names([edges.targets])
    else:
        (rows, columns), first = number_names([edges.sources, edges.targets])
        second = first
    for names in (first, second):
        if len(names) > MOST_SIDE:
            raise refusal('M4', detail='%d vertices' % len(names))
    values = numpy.ones(len(rows), numpy.int64) if edges.values is None else edges.values
    triples = Triples(rows, columns, values, len(first), len(second))
    if not how.directed:
        triples = lowered(triples, 'symmetric')
    axis = axis_of(first)
    notes = Metadata(None, None, how.directed, edges.values is not None,
                     edges.left_out.added_to(edges.summary))
    notes = notes.with_axes(axis, axis if second is first else axis_of(second))
    notes = notes.with_two_kinds() if how.bipartite else notes
    return Graph(triples, notes, lambda: _keep_first(triples, notes, edges, (first, second)))


def _among(edges: Edges, nodelist: Sequence[Vertex]) -> Tuple[Edges, Any, Any, Nodes]:
    """The edges between some vertices, the numbers of their ends, and the vertices."""
    names = Nodes(list_of_names(nodelist))
    if isinstance(nodelist, range) and nodelist.step == 1 and all(isinstance(column, numpy.ndarray)
                                                                  for column in edges[:2]):
        # of DIMACS, whose few edges may have many vertices
        rows, columns = (column - nodelist.start for column in edges[:2])
    else:
        if len(names.places) != len(names):
            raise ValueError('a node stands twice in nodelist')
        rows, columns = (_find_names(column, names) for column in edges[:2])
    if len(rows) and len(names) and (rows < 0).all() and (columns < 0).all():
        known = [column.names[int(column.codes[0])] if isinstance(column, Names) else column[0]
                 for column in edges[:2]]
        kinds = '' if type(names[0]) is type(known[0]) else ": 1 and '1' differ"
        raise ValueError('no name of nodelist is a vertex of an edge: it has %r, and the first '
                         'edge is from %r to %r%s' % (names[0], *known, kinds))
    inside = numpy.flatnonzero((rows >= 0) & (rows < len(names)) & (columns >= 0)
                               & (columns < len(names)))
    values = None if edges.values is None else edges.values[inside]
    left_out = edges.left_out._replace(others=len(rows) - len(inside))
    return (edges._replace(values=values,
                           fault=lambda at, words: edges.fault(int(inside[at]), words),
                           left_out=left_out), rows[inside], columns[inside], names)


def _find_names(column: Any, names: Nodes) -> Any:
    """The number of each name of a column among some, -1 where it isn't there."""
    (codes,), known = number_names([column])
    return (numpy.array([names.places.get(name, -1) for name in known], numpy.int64)[codes]
            if len(codes) else codes)


def number_names(columns: Sequence[Any]) -> Tuple[List[Any], Nodes]:
    """The vertices' numbers in each column, and their names."""
    if all(isinstance(column, numpy.ndarray) for column in columns):
        found, ascending = number_ascending(list(columns))
        return found, Nodes(ascending.tolist())
    if all(isinstance(column, Names) and not all(type(name) is int for name in column.names)
           for column in columns):
        if len(columns) > 1:
            # of both kinds of ends, so that each name is in use
            return [column.codes for column in columns], Nodes(columns[0].names)
        codes, seen = import_extra('pandas', 'a list of edges').factorize(columns[0].codes)
        return [codes], Nodes(map(columns[0].names.__getitem__, seen.tolist()))
    lists = [plain_names(column) for column in columns]
    if all(type(name) is int for many in lists for name in many):
        nodes = Nodes(sorted(set().union(*lists)))
    else:
        nodes = Nodes(_first_seen(name for edge in zip(*lists) for name in edge))
    return [numpy.fromiter(map(nodes.places.__getitem__, many), numpy.int64, len(many))
            for many in lists], nodes


def plain_names(names: Union[Iterable[Any], Array]) -> List[Any]:
    """Names as a list, numbers and texts of numpy as those of Python."""
    found = names.tolist() if hasattr(names, 'tolist') else list(names)
    return [name.item() if isinstance(name, PLAIN) else name for name in found]


def _first_seen(names: Iterable[Vertex]) -> Dict[Any, None]:
    """Each name once. TypeError for one that has no hash, such as a list."""
    found: Dict[Any, None] = {}
    for name in names:
        try:
            found[name] = None
        except TypeError:
            raise TypeError(
                'a name is text, a number, a date or a tuple of these, which can be looked up, '
                'and not %r' % (name,)) from None
    return found


def number_ascending(columns: List[Array]) -> Tuple[List[Any], Any]:
    """Whole numbers as numbers of an ascending list of those that there are, and the list."""
    count = sum(map(len, columns))
    if not count:
        return [numpy.zeros(0, numpy.int64) for _ in columns], numpy.zeros(0, numpy.int64)
    least, most = min(int(column.min()) for column in columns
                      if len(column)), max(int(column.max()) for column in columns if len(column))
    if most - least >= DENSE * count + 1024:
        names, codes = numpy.unique(numpy.concatenate(columns), return_inverse=True)
        return list(numpy.split(codes.reshape(-1),
                                numpy.cumsum([len(column) for column in columns])[:-1])), names
    columns = [column - least for column in columns] if least else columns
    seen = numpy.zeros(most - least + 1, bool)
    for column in columns:
        seen[column] = True
    names = numpy.flatnonzero(seen) + least
    if len(names) == len(seen):
        return columns, names
    place = numpy.cumsum(seen) - 1
    return [place[column] for column in columns], names


def _keep_first(triples: Triples, notes: Metadata, edges: Edges,
                names: Tuple[Nodes, Nodes]) -> Graph:
    """The graph with each entry once, the first of those at a position. The error of an edge that
    is given again, with both edges, where edges have values."""
    rows, columns = triples.rows, triples.columns
    kept = numpy.sort(numpy.unique(rows * max(triples.ncols, 1) + columns, return_index=True)[1])
    repeats = len(rows) - len(kept)
    if repeats and edges.values is not None:
        moved = numpy.flatnonzero(kept != numpy.arange(len(kept)))
        again = int(moved[0]) if len(moved) else len(kept)
        before = int(numpy.flatnonzero((rows[:again] == rows[again])
                                       & (columns[:again] == columns[again]))[0])
        where = str(edges.fault(before, '')).partition(': ')[0]
        ends = names[0][int(rows[again])], names[1][int(columns[again])]
        raise about(edges.fault(again, 'the edge between %r and %r is there already, with %s; %s'
                                % (*ends, where, FOLDS)), 'dup_op')
    left_out = edges.left_out._replace(repeats=repeats)
    once = Graph(Triples(rows[kept], columns[kept], triples.values[kept], *triples[3:]),
                 notes._replace(source=left_out.added_to(edges.summary)), lambda: once)
    return once


def code_names(sources: Union[List[Any], Array], targets: Union[List[Any], Array],
               are_shared: bool = False) -> Tuple[Names, Names]:
    """Two arrays of objects as numbers of those that there are, in the order in which they first
    stand. Where they `are_shared`, most that are equal are one object, as pandas reads text. It
    needs pandas."""
    pandas = import_extra('pandas', 'a list of edges')
    both = numpy.empty(2 * len(sources), object)
    both[0::2], both[1::2] = sources, targets
    if are_shared and len(both):
        # Addresses are told apart in less time than texts, of which few are left then.
        objects, _ = pandas.factorize(numpy.fromiter(map(id, both), numpy.int64, len(both)))
        first = numpy.empty(int(objects.max()) + 1, numpy.int64)
        first[objects[::-1]] = numpy.arange(len(both) - 1, -1, -1)
        codes, unique = pandas.factorize(both[first])
        codes = codes[objects]
    else:
        codes, unique = pandas.factorize(both)
    names = plain_names(unique)
    return Names(codes[0::2], names), Names(codes[1::2], names)


# -- edges from lists, as networkx gives and takes them

ABSENT = object()                                  # the value of an edge that has none
Neighbours = Dict[Any, Any]


def list_edges(edges: Iterable[Any]) -> List[Any]:
    """Edges as a list. TypeError for a dict, whose values would be lost, and for what has no order
    or no hash; ValueError for other lengths."""
    if isinstance(edges, Mapping):
        raise TypeError(
            'edges are a list, and a dict would lose its values: from_edgelist([(*edge, value) '
            'for edge, value in edges.items()]) takes {(from, to): value}; '
            'networkx.from_dict_of_lists and from_dict_of_dicts take neighbours, and '
            'from_networkx the graph')
    if isinstance(edges, (str, os.PathLike)):
        raise TypeError('edges are a list of (from, to) or (from, to, value), not %r: '
                        'read_graph(path) reads a file' % (edges,))
    many: List[Any] = edges.tolist() if hasattr(edges, 'tolist') else list(edges)
    for at, edge in enumerate(many):
        if not hasattr(edge, '__getitem__') or len(edge) not in (2, 3):
            kind = ValueError if hasattr(edge, '__getitem__') else TypeError
            raise kind('an edge is (from, to) or (from, to, value), not %r (edge %d)' % (edge, at))
    return many


def edges_of_list(edges: Any, layout: Layout) -> Edges:
    """The edges (from, to), (from, to, value) or (from, to, {'weight': value}), as networkx gives
    and takes them. Or those of a table of pandas with two or three columns, by position."""
    if is_frame(edges):
        width = len(edges.columns) if layout.values else 2
        of_frame = list(columns_of_frame(edges)[:width])
        if width > 2 and of_frame[2].dtype == object:     # of {'weight': value}, it may be
            of_frame[2] = [_value_of((None, None, value)) for value in of_frame[2].tolist()]
        return _edges_of_columns(of_frame, layout, 'edge', range(len(edges)))
    many = list_edges(edges)
    columns: List[Any] = [[edge[0] for edge in many], [edge[1] for edge in many]]
    if layout.values and any(len(edge) == 3 for edge in many):
        columns.append([_value_of(edge) for edge in many])
    return _edges_of_columns(columns, layout, 'edge', range(len(many)))


def _edges_of_columns(columns: Sequence[Any], layout: Layout, what: str,
                      places: Sequence[Any]) -> Edges:
    """The edges of two columns of names, and perhaps one of values: lists, or columns of pandas.
    Errors call one by `what` and its place. Those that lack a name or the value are left out."""
    layout.check()
    kept, left_out = _find_complete(columns, layout.missing, what, places)
    if len(kept) < len(places):
        columns = [column.iloc[kept] if is_series(column) else [column[at] for at in kept.tolist()]
                   for column in columns]

    def wrong(at: int, why: Exception) -> Exception:
        is_span = len(columns) > 2 and getattr(columns[2], 'dtype', None) == 'm8[ns]'
        return about(type(why)('%s %r: %s%s' % (
            what, places[kept[at]], why, ': frame[%r].dt.total_seconds() has seconds'
            % (columns[2].name,) if is_span else '')), *parameters_of(why))
    values, done = ((None, '') if len(columns) < 3
                    else convert_values(_list_values(columns[2], layout), layout, wrong))
    sources, targets = _names_of(columns[:2])
    found = Edges(sources, targets, values, lambda at, words: wrong(at, ValueError(words)), done,
                  left_out)
    check_times(layout, found)
    return found


def check_times(layout: Layout, edges: Edges) -> None:
    """ValueError where values are said to be times, and no edge has a value: each would be 1."""
    if layout.unit is not None and layout.values and edges.values is None and len(edges.sources):
        raise about(ValueError(
            'unit=%r says in what values are counted, and no edge has one: name the column that '
            'has them, or leave unit= out' % layout.unit), 'unit', 'columns')


def convert_values(values: Any, layout: Layout,
                   wrong: Callable[[int, Exception], Exception]) -> Tuple[Any, str]:
    """Numbers or times as an array of whole numbers, and what was done to them. `wrong` makes the
    error of one, of its place and of an error that doesn't name it. What is ABSENT of a list is 1,
    as networkx has it, but for times, of which 1 is none."""
    absent = ([at for at, value in enumerate(values) if value is ABSENT]
              if isinstance(values, list) else [])
    clock = layout.clock()
    if absent and clock is not None:
        raise about(wrong(absent[0], ValueError(
            'it has no time, and values are times: give each edge one, or leave unit= out')),
                    'unit')
    if clock is not None:
        found = clock.read(values, lambda at, words: wrong(at, ValueError(words)))
        return found, str(clock)
    if absent:
        values = [1 if value is ABSENT else value for value in values]

    def wrong_or_time(at: int, why: Exception) -> Exception:
        value = values[at]
        if not isinstance(value, (int, float)) and is_time(value):
            why = about(TypeError('a value is a whole number, not %r: %s' % (value, TAKES)), 'unit')
        return wrong(at, why)
    rounding = Rounding(layout.scale)
    found = whole_numbers(values, rounding, wrong_or_time)
    return found, _join(str(rounding), describe_absent(len(absent), len(values)))


def _join(*words: str) -> str:
    return '; '.join(filter(None, words))


def describe_absent(count: int, of: int, what: str = 'value') -> str:
    """How many edges count as 1 for lack of a value, in words; nothing of none."""
    return '%d of %d edges have no %s and count as 1' % (count, of, what) if count else ''


def _find_complete(columns: Sequence[Any], missing: Optional[str], what: str,
                   places: Sequence[Any]) -> Tuple[Any, LeftOut]:
    """The edges of which no name and no value is missing, and how many others there are. ValueError
    where these aren't to be left out; with `missing` None names aren't looked at."""
    gone, counts = numpy.zeros(len(places), bool), []
    for some, part in ((columns[:2] if missing is not None else [], 'a name'),
                       (columns[2:], 'the value')):
        gaps = numpy.zeros(len(places), bool)
        for column in some:
            gaps |= _gaps_of(column)
        gaps &= ~gone
        if gaps.any() and missing != SKIP:
            name = ', missing=None takes it for a name' if (
                what, part) == ('edge', 'a name') else ''
            raise about(ValueError('%s %r: %s is missing: %s%s' % (
                what, places[int(gaps.argmax())], part, SKIPS % what, name)), 'missing')
        gone |= gaps
        counts.append(int(gaps.sum()))
    return numpy.flatnonzero(~gone), LeftOut(names=counts[0], values=counts[1])


def _gaps_of(column: Any) -> Any:
    """Where a column has None, NaN or what pandas and numpy have in their place."""
    if is_series(column):
        return column.isna().to_numpy()
    if set(map(type, column)) <= {int, str, tuple, bool}:
        return numpy.zeros(len(column), bool)
    # numpy's NaN of any width and its NaT differ from themselves
    return numpy.array([is_gap(one) or (hasattr(one, 'dtype') and bool(operator.ne(one, one)))
                        for one in column], bool)


def _value_of(edge: Sequence[Any]) -> Any:
    value = edge[2] if len(edge) == 3 else ABSENT
    return value.get('weight', ABSENT) if isinstance(value, dict) else value


# -- edges from tables of pandas

def choose_value_column(columns: Sequence[Vertex], ends: Tuple[Vertex, Vertex],
                        edge_attr: Any) -> Any:
    """The column of values that `edge_attr` means, or None: a name, a list of one, or True where
    there is one column beside the names. ValueError where it means several, KeyError where a column
    isn't there."""
    known = list(columns)
    if edge_attr is None:
        _warn_of_weights(known, ends)
    edge_attr = None if edge_attr is False else edge_attr
    if edge_attr is True:
        edge_attr = [column for column in known if column not in ends]
        if not edge_attr:
            raise ValueError(
                'edge_attr=True takes the columns beside %r and %r, and there are none: '
                'edge_attr=None' % ends)
    if isinstance(edge_attr, (list, tuple)) and not (isinstance(edge_attr, tuple)
                                                     and edge_attr in known):
        if len(edge_attr) != 1:
            raise ValueError('a matrix has one value for each edge: %s'
                             % (' or '.join('edge_attr=%r' % (one,) for one in edge_attr)
                                or 'edge_attr=None'))
        edge_attr = edge_attr[0]
    for column in (*ends, *(() if edge_attr is None else (edge_attr,))):
        if column not in known:
            raise KeyError('no column %r: there are %s' % (column, ', '.join(map(repr, known))))
        if known.count(column) > 1:
            raise ValueError(
                '%d columns are called %r: frame.columns = [..] gives each a name of its own'
                % (known.count(column), column))
    return edge_attr


def _warn_of_weights(columns: Sequence[Vertex], ends: Tuple[Vertex, Vertex]) -> None:
    """Warns of a column that is called as weights of edges are, and isn't read."""
    weight = next((one for one in columns if one not in ends and isinstance(one, str)
                   and one.lower() in ('weight', 'weights')), None)
    if weight is not None:
        warn_user('the column %r is not read, and each edge counts as 1: edge_attr=%r takes its '
                  'values, edge_attr=False leaves them out' % (weight, weight), UserWarning)


def edges_of_frame(frame: DataFrame, ends: Tuple[Vertex, Vertex], attribute: Vertex,
                   layout: Layout) -> Edges:
    """The edges of a table: two columns of names, and one of values. TypeError for what is no table
    of pandas, and KeyError where a column isn't there. ValueError, with the row, where a name or a
    value is missing, or a value isn't whole."""
    if not is_frame(frame):
        raise TypeError('expected a table of pandas, got %s: from_edgelist takes a list of edges, '
                        'read_graph a file' % type(frame).__name__)
    attribute = choose_value_column(frame.columns, ends, attribute)
    columns = [frame[column] for column in (*ends, *(() if attribute is None else (attribute,)))]
    if layout.missing is None:                     # of which lists alone make a name
        layout = layout._replace(missing=RAISE)
    return _edges_of_columns(columns, layout, 'row', frame.index)


def _list_values(column: Any, layout: Layout) -> Any:
    """A column of values: an array of numbers, else a list of whatever it has."""
    if not is_series(column):
        return column
    is_plain = layout.unit is None and (column.dtype.kind in 'ib' or column.dtype == 'float64')
    return column.to_numpy(None if column.dtype.kind == 'f' else 'int64') if is_plain \
        else column.tolist()


def _names_of(columns: Sequence[Any]) -> Sequence[Any]:
    """Two columns of names: as numbers, where both of pandas' are whole numbers, else as codes of
    those that there are; lists as they are."""
    if not all(map(is_series, columns)):
        return columns
    if all(column.dtype.kind in 'iu' for column in columns):
        wide = any(len(column) and int(column.max()) > MOST for column in columns)
        first, second = (column.to_numpy(column.dtype.kind + '8') for column in columns)
        if wide:
            # as Python's numbers, since arrays of int64 would wrap
            return first.tolist(), second.tolist()
        return first.astype('int64', copy=False), second.astype('int64', copy=False)
    # pandas has no code for what is missing, and none for what has no hash
    if not any(column.isna().any() for column in columns):
        with contextlib.suppress(TypeError):
            return code_names(*(column.astype(object).to_numpy() for column in columns))
    return [column.tolist() for column in columns]


# -- graphs of networkx

def triples_of_graph(graph: NxGraph, weight: Optional[str], nodelist: Optional[Sequence[Vertex]],
                     folds: bool = False,
                     scale: Optional[float] = None) -> Tuple[Triples, Metadata]:
    """The triples of a graph, and its nodes. Entry (i, j) is the edge from node i to node j; an
    undirected edge stands both ways, a loop once. Edges that leave `nodelist` are left out.
    Parallel edges are entries of one position where the caller folds them. Weights are multiplied
    by a scale and rounded. TypeError where it is no graph, or the weight no attribute; ValueError
    names the edge with parallel ones, or with a weight that isn't whole."""
    if not hasattr(graph, 'adjacency') or not hasattr(graph, 'is_multigraph'):
        raise TypeError('expected a graph of networkx, got %s' % type(graph).__name__)
    if callable(weight):
        raise TypeError(
            'weight is the name of an edge attribute, or None for ones; what a function gives '
            'for each edge has to be put into an attribute first: '
            'networkx.set_edge_attributes(G, values, "w"), and weight="w"')
    # views of networkx may count others than they give, so what they give is copied
    near = {node: many if type(many) is dict else dict(many.items())
            for node, many in graph.adjacency()}
    nodes = Nodes(near if nodelist is None else list_of_names(nodelist))
    _check_nodes(nodes, near)
    blocks = list(near.values())
    if nodelist is not None:
        blocks = [{end: held for end, held in near[node].items() if end in nodes.places}
                  for node in nodes]
    counts, ends, held = (_list_parallel(blocks, nodes, folds) if graph.is_multigraph() else (
        list(map(len, blocks)), list(itertools.chain.from_iterable(blocks)),
        [data for block in blocks for data in block.values()] if weight is not None else []))

    def wrong(at: int, why: Exception) -> Exception:
        row = bisect.bisect_right(list(itertools.accumulate(counts)), at)
        return about(type(why)('the edge from %r to %r: %s' % (nodes[row], ends[at], why)),
                     *parameters_of(why))
    rounding = Rounding(scale)
    values = (numpy.ones(len(ends), numpy.int64) if weight is None
              else whole_numbers([data.get(weight, 1) for data in held], rounding, wrong, 'weight'))
    is_plain = all(type(node) is int for node in nodes) and nodes == list(range(len(nodes)))
    columns = ends if is_plain else map(nodes.places.__getitem__, ends)
    triples = Triples(numpy.arange(len(counts)).repeat(counts),
                      numpy.fromiter(columns, numpy.int64, len(ends)), values, len(nodes),
                      len(nodes))
    weighted = weight is not None and any(weight in data for data in held)
    return triples, Metadata(nodes, nodes, bool(graph.is_directed()), weighted,
                             _join(str(rounding) if weight is not None else '',
                                   _describe_absent(held, weight)))


def _describe_absent(held: List[Any], weight: Optional[str]) -> str:
    """How many edges count as 1, as networkx has it, since they lack the attribute that was asked
    for. An edge that stands both ways has one dictionary."""
    absent = {id(data) for data in held if weight not in data} if weight is not None else set()
    return describe_absent(len(absent), len(set(map(id, held))) if absent else 0,
                           'attribute %r' % weight)


def _check_nodes(nodes: Nodes, near: Dict[Any, Neighbours]) -> None:
    """ValueError for nodes that stand twice, or not in the graph; TooLarge for too many."""
    if len(nodes.places) != len(nodes):
        raise ValueError('a node stands twice in nodelist')
    for node in nodes:
        if node not in near:
            raise ValueError('no node of the graph: %r' % (node,))
    if len(nodes) > MOST_SIDE:
        raise refusal('M4', detail='%d nodes' % len(nodes))


def _list_parallel(blocks: List[Neighbours], nodes: Nodes,
                   folds: bool) -> Tuple[List[int], List[Any], List[Any]]:
    """Of each node of a multigraph the number of its edges; where each edge leads, and what it
    holds. ValueError where there are parallel ones and nobody folds them."""
    counts: List[int] = []
    ends: List[Any] = []
    held: List[Any] = []
    for node, block in zip(nodes, blocks):
        before = len(ends)
        for end, keys in block.items():
            if len(keys) > 1 and not folds:
                raise about(ValueError(
                    '%d edges lead from %r to %r: dup_op= says how parallel ones are folded, '
                    'such as "plus", "min" or "first"' % (len(keys), node, end)), 'dup_op')
            ends.extend([end] * len(keys))
            held.extend(keys.values())
        counts.append(len(ends) - before)
    return counts, ends, held
