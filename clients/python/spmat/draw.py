"""Pictures of matrices and graphs, by matplotlib.

Each function draws on the axes `ax`, and returns them. Without `ax` it draws on pyplot's current
axes if these are empty, and else on a new figure, which a notebook shows and `plt.savefig` writes.
With `path` it writes a figure that pyplot doesn't keep; the path's ending chooses the format (.png,
.svg, .pdf).

Little comes out of a large matrix. The server counts the entries in a raster, and the client draws
the counts.
"""
from __future__ import annotations

import collections
import errno
import math
import os
from types import MappingProxyType
from typing import (Any, Dict, FrozenSet, List, Mapping, NamedTuple, Optional, Sequence, Tuple,
                    Union, cast)

import numpy

from . import integers
from .errors import refusal
from .extras import import_extra
from .matrix import Matrix
from .matrix_base import without_names
from .metadata import VERTICES, VertexUnit, check_one_kind, joined, vertices_of
from .scale import to_exact
from .types import Array, Axes, Path, Vertex

__all__ = ['check', 'degree_histogram', 'graph', 'levels', 'raster', 'route', 'spy', 'values']

Look = Union[str, float, Mapping[Vertex, Any], Sequence[Any], Matrix, None]
"""What vertices look like: one word or number for all, or one for each."""
XY = Tuple[float, float]
Edge = Tuple[int, int]
RASTER = 256               # rows and columns that `spy` draws one by one, and cells of more
MOST_LINED_ROWS = 64       # rows and columns of a matrix whose squares have lines between them
MOST_NAMES = 40            # an axis of more rows or columns has names at round numbers alone
MOST_BARS = 41             # of more degrees there are points on logarithmic axes, of values ranges
SHORT, LONG = 3, 24        # letters of a name that fits into a dot, and of one beside a dot
MOST_VALUES = 12           # of more different values a colour bar shows the range
MOST_HUES = 9              # of more groups the smallest share a grey
INK, PALE, GREY, WARM, LINE = '#1f4e79', '#c9d3dd', '#5a6672', '#b5651d', '#9aa7b4'
LEAST_AREA, MOST_AREA = 20., 500.                  # of dots that have a size, in square points
LARGE, MIDDLE, SMALL = 225., 64., 16.              # areas of other dots
MOST_LABELS, LARGEST = 60, 5                       # of more vertices the largest have names
SIZE, DPI = (9, 6), 120    # of a figure, in inches, and dots an inch
MOST_VERTICES, MOST_EDGES = 1000, 5000             # of a whole graph
MOST_ARROWS = 700          # a graph of more edges has plain lines
MOST_EDGE_VALUES = 40      # a graph of more edges shows none of their values
MOST_LEVELED, MOST_LEVELED_EDGES = 150, 700        # vertices and edges of levels, one by one
CROWDED = 45               # vertices one above another that leave no room for names
PLURALS = {'entry': 'entries', 'vertex': 'vertices'}


def __dir__() -> List[str]:
    return __all__


# -- axes, texts and ticks

def _open_axes(ax: Optional[Axes], path: Optional[Path]) -> Any:
    """Choose the axes to draw on: the caller's, or pyplot's. What goes to a file has a figure that
    pyplot doesn't keep, since pyplot holds each figure until somebody closes it. Each figure of
    ours has one size, so that pictures fit beside one another."""
    if ax is not None:
        return ax
    if path is not None:
        figure = import_extra('matplotlib.figure', 'a picture').Figure
        return figure(figsize=SIZE, dpi=DPI, layout='constrained').add_subplot()
    pyplot = import_extra('matplotlib.pyplot', 'a picture')
    if pyplot.get_fignums() and not pyplot.gca().has_data():
        return pyplot.gca()                        # as plt.figure(figsize=..) left it
    return pyplot.figure(figsize=SIZE, layout='constrained').add_subplot()


def _finish(ax: Axes, path: Optional[Path], counts: Mapping[str, int], *more: str) -> Any:
    """Write how many of what there are above a picture, write its figure to a path, if there is
    one, and return the axes."""
    ax.set_title(', '.join([*(_count(number, word) for word, number in counts.items()),
                            *filter(None, more)]), fontsize=10)
    if path is not None:
        ax.figure.savefig(path)
    return ax


def _count(number: int, word: str) -> str:
    """Write a number of things in words: ``1 vertex``, ``2 vertices``."""
    return '%s %s' % (format(number, ','), word if number == 1 else PLURALS.get(word, word + 's'))


def _count_others(number: int, words: str) -> str:
    """Write how many vertices a picture leaves out; nothing if it has all."""
    return words % format(number, ',') if number else ''


def _shorten(name: object) -> str:
    """Write a name in at most LONG letters."""
    return str(name) if len(str(name)) <= LONG else str(name)[:LONG - 2] + '..'


def _add_note(ax: Axes, text: str, at: Any, off: XY, **look: Any) -> None:
    """Write a small text, so many points off a position, with a white edge round its letters, so
    that lines below don't hide them."""
    halo = import_extra('matplotlib.patheffects', 'a picture').withStroke(
        linewidth=2, foreground='white')
    ax.annotate(text, at, xytext=off, textcoords='offset points',
                **{'ha': 'center', 'fontsize': 7, 'path_effects': [halo], 'zorder': 4, **look})


def _set_log_ticks(axis: Any) -> None:
    """Write 1, 2 and 5 times the powers of ten in digits on a logarithmic axis."""
    ticker = import_extra('matplotlib.ticker', 'a picture')
    axis.set_major_locator(ticker.LogLocator(subs=(1, 2, 5)))
    axis.set_major_formatter('{x:,.0f}')
    axis.set_minor_locator(ticker.NullLocator())


def _set_name_ticks(axis: Any, names: Optional[Sequence[Vertex]], count: int, first: int) -> None:
    """Write names or numbers of rows or columns on an axis: each name of a few, of more those at
    round numbers."""
    def name_tick(position: float, _: object) -> str:
        at = round(position) - first
        return ('{:,}'.format(at + first) if names is None
                else _shorten(names[at]) if 0 <= at < count else '')
    axis.get_major_locator().set_params(integer=True)
    if names is not None and count <= MOST_NAMES:
        axis.set_ticks(range(first, first + count))
    axis.set_major_formatter(name_tick)
    if names is not None and axis.axis_name == 'x':
        axis.set_tick_params(rotation=90)


def _draw_bars(ax: Axes, at: Any, heights: Any, label: str, **look: Any) -> None:
    """Draw how many vertices there are of what, a bar each."""
    ax.bar(at, heights, color=INK, **look)
    ax.xaxis.get_major_locator().set_params(integer=not look)
    ax.yaxis.get_major_locator().set_params(integer=True)
    ax.set_xlabel(label)
    ax.set_ylabel('vertices')


# -- what vertices look like

def _values_of(G: Matrix, given: Look, what: str) -> Dict[int, Any]:
    """What a caller gives for vertices, by position. DimensionMismatch if a column or a sequence
    isn't as long as the graph has vertices, TypeError if it is none of these."""
    if isinstance(given, Matrix):
        if given.shape not in ((G.nrows, 1), (1, G.nrows)):
            raise refusal('J5', detail='%s: expected a column of %d rows, a value for each vertex, '
                          'got %dx%d' % (what, G.nrows, *given.shape))
        given = given.by_node()
    elif hasattr(given, 'to_dict'):                # a Series of pandas
        given = cast(Any, given).to_dict()
    if isinstance(given, Mapping):
        return {G.index(vertex): value for vertex, value in given.items()}
    if given is None or isinstance(given, (str, int, float)) or not hasattr(given, '__len__'):
        raise TypeError('%s: expected a column, a dict or a value for each vertex, got %r'
                        % (what, given))
    if len(given) != G.nrows:
        raise refusal('J5', detail='%s: expected %d values, one for each vertex, got %d'
                      % (what, G.nrows, len(given)))
    return dict(enumerate(given))


class _Colours(NamedTuple):
    """A colour for each vertex, and what explains it. That is pairs of a colour and a text for a
    legend, or the scale of a colour bar, whose numbers may all be whole."""
    dots: List[Any]
    legend: Sequence[Tuple[Any, str]] = ()
    title: Optional[str] = None
    scale: Any = None
    is_whole: bool = False

    def explain(self, ax: Axes) -> None:
        """Add a legend, or a bar, beside the axes."""
        for colour, text in self.legend:
            ax.plot([], [], 'o', markersize=8, color=colour, label=text)
        if self.legend:
            ax.legend(loc='upper left', bbox_to_anchor=(1, 1), frameon=False, fontsize=8,
                      title=self.title, title_fontsize=8)
        if self.scale is not None:
            bar = ax.figure.colorbar(self.scale, ax=ax, fraction=.04, pad=.02)
            bar.ax.yaxis.get_major_locator().set_params(integer=self.is_whole)


def _choose_colours(G: Matrix, color: Look) -> _Colours:
    """Choose a colour for each vertex: groups and names by hues, a few whole numbers by shades,
    others by a scale. Vertices without a value are pale."""
    from .algorithms.results import Communities    # algorithms are slow to import
    if color is None or isinstance(color, str):
        return _Colours([color or INK] * G.nrows)
    values, scale = _values_of(G, color, 'color'), None
    are_groups = isinstance(color, Communities)
    are_numbers = not are_groups and all(isinstance(value, (int, float, numpy.number))
                                         for value in values.values())
    distinct = sorted(set(values.values())) if are_numbers else []
    is_whole = all(value == int(value) for value in distinct)
    if not are_numbers:
        colours, legend = _choose_hues(values)
    elif is_whole and len(distinct) <= MOST_VALUES:
        colours = dict(zip(distinct, _shade(numpy.linspace(0, 1, len(distinct)))))
        legend = [(colours[value], format(int(value), ',')) for value in distinct]
    else:
        bounds = import_extra('matplotlib.colors', 'a picture').Normalize(distinct[0], distinct[-1])
        scale = import_extra('matplotlib.cm', 'a picture').ScalarMappable(bounds, 'viridis_r')
        colours, legend = {value: scale.to_rgba(value) for value in distinct}, []
    pale = [(PALE, 'no value')] if len(values) < G.nrows else []
    return _Colours([colours[values[i]] if i in values else PALE for i in range(G.nrows)],
                    [*legend, *pale], 'community (vertices)' if are_groups else None, scale,
                    is_whole)


def _choose_hues(values: Mapping[int, Any]) -> Tuple[Dict[Any, Any], List[Tuple[Any, str]]]:
    """Give the largest groups a hue each. A legend names a group by its value, with its size."""
    sizes = collections.Counter(values.values()).most_common()
    hues = list(import_extra('matplotlib', 'a picture').colormaps['tab10'].colors)
    del hues[7]                                    # a grey
    colours = {value: hue for (value, _), hue in zip(sizes[:MOST_HUES], hues)}
    legend = [(hue, '%s (%s)' % (_shorten(value), format(size, ',')))
              for (value, size), hue in zip(sizes, colours.values())]
    others = len(sizes) - len(colours)
    return ({**dict.fromkeys(values.values(), GREY), **colours},
            legend + ([(GREY, _count(others, 'other'))] if others else []))


def _shade(shares: Array) -> Any:
    """Colours of numbers from 0 to 1, without the lightest, which are hard to see on white."""
    return import_extra('matplotlib', 'a picture').colormaps['viridis_r'](.08 + .85 * shares)


def _choose_areas(G: Matrix, size: Look) -> Any:
    """Choose the area of each vertex' dot, which grows with its value. Short names of few vertices
    fit into the dots. ValueError for a value below 0."""
    if size is None:
        longest = max((len(str(name)) for name in G.nodes or range(G.nrows)), default=0)
        return numpy.full(G.nrows, SMALL if G.nrows > MOST_LABELS
                          else LARGE if longest <= SHORT else MIDDLE)
    if isinstance(size, (int, float)):
        return numpy.full(G.nrows, float(size))
    values, numbers = _values_of(G, size, 'size'), numpy.zeros(G.nrows)
    numbers[list(values)] = [float(value) for value in values.values()]
    if (numbers < 0).any():
        raise ValueError('size: expected numbers of 0 or more, got %g' % numbers.min())
    return LEAST_AREA + (MOST_AREA - LEAST_AREA) * numbers / numpy.max(numbers, initial=1e-300)


def _choose_texts(G: Matrix, labels: Look, weights: Array) -> Dict[int, str]:
    """Choose what stands at each vertex: its name, or of many vertices the names of those with the
    greatest weights."""
    names: Sequence[Any] = G.nodes or range(G.nrows)
    if labels is None and G.nrows > MOST_LABELS:
        return {int(i): str(names[i]) for i in numpy.argsort(-weights, kind='stable')[:LARGEST]}
    if labels is None or isinstance(labels, bool):
        return {} if labels is False else {i: str(name) for i, name in enumerate(names)}
    return {i: str(text) for i, text in _values_of(G, labels, 'labels').items()}


def _choose_positions(G: Matrix, pos: Look, lines: Sequence[Edge]) -> Any:
    """Choose an x and a y for each vertex: the caller's, or by springs, from a fixed start, so that
    a graph has the same picture each time. ValueError if one is missing."""
    if pos is None:
        networkx = import_extra('networkx', 'a picture of a graph')
        springs = networkx.Graph(lines)
        springs.add_nodes_from(range(G.nrows))
        found = networkx.spring_layout(springs, iterations=100 if G.nrows <= 300 else 50, seed=1)
    else:
        found = _values_of(G, pos, 'pos')
    missing = next((i for i in range(G.nrows) if i not in found), None)
    if missing is not None:
        raise ValueError('pos: expected a position of each vertex, and %r has none'
                         % (missing if G.nodes is None else G.nodes[missing]))
    return numpy.array([found[i] for i in range(G.nrows)], float).reshape(G.nrows, 2)


# -- dots and edges

class _Edges(NamedTuple):
    """The stored values of a graph's edges; those between two vertices, of two that lead both ways
    one, unless the graph is directed."""
    values: Dict[Edge, int]
    lines: List[Edge]
    is_directed: bool


def _edges_of(G: Matrix) -> _Edges:
    """Read the edges of a graph."""
    values = {(i, j): value for i, j, value in G.to_triples()}
    pairs = sorted((i, j) for i, j in values if i != j)
    is_directed = any((j, i) not in values for i, j in pairs)
    return _Edges(values, [(i, j) for i, j in pairs if is_directed or i < j], is_directed)


def _draw_edges(ax: Axes, at: Any, edges: _Edges, areas: Array,
                looks: Mapping[Edge, Mapping[str, Any]] = MappingProxyType({})) -> None:
    """Draw edges as lines or arrows that end at the rims of dots, bent if another leads back; very
    many as plain lines. Some may have looks of their own."""
    if len(edges.lines) > MOST_ARROWS:
        many = import_extra('matplotlib.collections', 'a picture').LineCollection
        ax.add_collection(many([(at[i], at[j]) for i, j in edges.lines], colors=LINE, zorder=1,
                               linewidths=.4))
        return
    arrow = import_extra('matplotlib.patches', 'a picture').FancyArrowPatch
    room = numpy.floor(numpy.sqrt(areas) / 2 + .5)                 # in points
    for i, j in edges.lines:
        bend = .12 if edges.is_directed and (j, i) in edges.values else 0
        look: Dict[str, Any] = {'color': GREY if edges.is_directed else LINE, 'linewidth': .8,
                                'bend': bend, **looks.get((i, j), {})}
        ax.add_patch(arrow(at[i], at[j], arrowstyle='-|>' if edges.is_directed else '-',
                           mutation_scale=9, shrinkA=room[i], shrinkB=room[j],
                           connectionstyle='arc3,rad=%g' % look.pop('bend'), **look))


def _draw_edge_values(ax: Axes, at: Any, edges: _Edges, G: Matrix) -> None:
    """Write the values that a caller gave for few edges beside them."""
    for i, j in edges.lines if G.notes.weighted and len(edges.lines) <= MOST_EDGE_VALUES else ():
        share = .3 if edges.is_directed and (j, i) in edges.values else .5
        middle = numpy.asarray(at[i]) + share * numpy.subtract(at[j], at[i])
        value = to_exact(edges.values[i, j], G.unit)
        _add_note(ax, value if isinstance(value, str) else format(value, ','), middle, (0, -3),
                  color=WARM, zorder=3)


def _draw_dots(ax: Axes, at: Any, colours: Sequence[Any], areas: Array) -> None:
    """Draw vertices."""
    at = numpy.asarray([at[i] for i in range(len(areas))], float).reshape(-1, 2)
    ax.scatter(*at.T, s=areas, c=colours, edgecolors='white',
               linewidths=1 if len(at) <= 150 else .5, zorder=2)


def _draw_labels(ax: Axes, at: Any, texts: Mapping[int, str], colours: Sequence[Any],
                 areas: Array) -> None:
    """Write the names of vertices: into their dots if all are short, else above them."""
    to_rgb = import_extra('matplotlib.colors', 'a picture').to_rgb
    are_short = max(map(len, texts.values()), default=0) <= SHORT
    for i, text in texts.items():
        if are_short and areas[i] >= LARGE / 2:
            ax.annotate(text, at[i], ha='center', va='center', fontsize=7, zorder=3,
                        color='white' if sum(to_rgb(colours[i])) < 1.6 else 'black')
        else:
            _add_note(ax, _shorten(text), at[i], (0, 1 + math.sqrt(areas[i]) / 2), va='bottom',
                      fontsize=7 if len(texts) <= MOST_LABELS else 5.5)


def _hide_axes(ax: Axes, *sides: str) -> None:
    """Leave some sides of the frame alone."""
    ax.set_yticks([])
    for side in {'left', 'right', 'top', 'bottom'}.difference(sides):
        ax.spines[side].set_visible(False)
    if not sides:
        ax.set_axis_off()


# -- columns of vertices: levels of a search, and two kinds

def _is_small(G: Matrix) -> bool:
    """Tell whether the levels of a graph show each vertex."""
    return G.nrows <= MOST_LEVELED and G.nvals <= 2 * MOST_LEVELED_EDGES


def _order_columns(columns: List[List[int]], edges: _Edges) -> Dict[int, XY]:
    """Place vertices in columns in which few edges cross: each column goes by the mean height of
    neighbours in the one before."""
    near: Dict[int, List[int]] = collections.defaultdict(list)
    for i, j in edges.lines:
        near[i].append(j)
        near[j].append(i)
    at: Dict[int, XY] = {}
    for x, column in enumerate(columns):
        def height(i: int, before: int = x - 1) -> float:
            found = [at[j][1] for j in near[i] if j in at and at[j][0] == before]
            return -sum(found) / len(found) if found else 0.
        for place, i in enumerate(sorted(column, key=height)):
            at[i] = float(x), (len(column) - 1) / 2 - place
    return at


def _draw_columns(G: Matrix, level: Mapping[int, int], ax: Optional[Axes], path: Optional[Path],
                  marked: FrozenSet[Edge] = frozenset()) -> Any:
    """Draw a column of vertices for each level, and those that aren't reached after the last. Edges
    within a column are arcs, and marked ones are thick."""
    edges, deepest = _edges_of(G), max(level.values(), default=-1)
    columns = [[i for i in range(G.nrows) if level.get(i, deepest + 1) == one]
               for one in range(deepest + 2)]
    at = _order_columns(columns, edges)
    looks: Dict[Edge, Dict[str, Any]] = {}
    for i, j in edges.lines:
        ways = {(i, j)} if edges.is_directed else {(i, j), (j, i)}
        goes_on = any(level.get(end) == level.get(start, -9) + 1 for start, end in ways)
        color, width = ((WARM, 2.4) if ways & marked else (INK, .8) if goes_on else (LINE, .6))
        looks[i, j] = {'color': color, 'linewidth': width, 'zorder': 1 + bool(ways & marked) / 2}
        if at[i][0] == at[j][0]:
            looks[i, j]['bend'] = .25 if edges.is_directed or at[i][1] > at[j][1] else -.25
    shades = _shade(numpy.linspace(0, 1, deepest + 1))
    colours = [shades[level[i]] if i in level else PALE for i in range(G.nrows)]
    areas = _choose_areas(G, None if G.nrows <= MOST_LABELS else MIDDLE)
    ax = _open_axes(ax, path)
    _draw_edges(ax, at, edges, areas, looks)
    _draw_dots(ax, at, colours, areas)
    if max(map(len, columns), default=0) <= CROWDED or G.nrows <= MOST_LABELS:
        _draw_labels(ax, at, _choose_texts(G, True, areas), colours, areas)
    if len(level) < G.nrows:
        _add_note(ax, 'not reached', (deepest + 1, 0), (0, -14), color=GREY,
                  xycoords=('data', 'axes fraction'))
    ax.set_xticks(range(deepest + 1))
    ax.set_xlabel('level')
    ax.margins(.08)
    _hide_axes(ax, 'bottom')
    return ax


def _draw_two_kinds(G: Matrix, ax: Optional[Axes], path: Optional[Path]) -> Any:
    """Draw rows and columns as two columns of vertices, with a line for each entry."""
    values = {(i, G.nrows + j): value for i, j, value in G.to_triples()}
    edges, count = _Edges(values, list(values), False), G.nrows + G.ncols
    at = _order_columns([list(range(G.nrows)), list(range(G.nrows, count))], edges)
    areas = numpy.full(count, MIDDLE)
    ax = _open_axes(ax, path)
    _draw_edges(ax, at, edges, areas)
    _draw_edge_values(ax, at, edges, G)
    _draw_dots(ax, at, [INK] * G.nrows + [WARM] * G.ncols, areas)
    names = [*(G.row_nodes or range(G.nrows)), *(G.column_nodes or range(G.ncols))]
    for i, name in enumerate(names if count <= 2 * MOST_LABELS else ()):
        side = 1 if i >= G.nrows else -1
        _add_note(ax, _shorten(name), at[i], (8 * side, -3), ha='left' if side > 0 else 'right')
    ax.set_xlim(-.5, 1.5)
    _hide_axes(ax)
    return _finish(ax, path, {'row': G.nrows, 'column': G.ncols, 'edge': len(values)})


def _draw_chain(names: Sequence[str], values: Sequence[Any], ax: Axes) -> None:
    """Draw vertices from left to right, ten to a row, with what their edges have."""
    at = [(k % 10, -(k // 10)) for k in range(len(names))]
    areas, lines = numpy.full(len(at), MIDDLE), list(zip(range(len(at)), range(1, len(at))))
    _draw_edges(ax, at, _Edges({}, lines, True), areas, dict.fromkeys(lines, {'color': WARM}))
    for (i, j), value in zip(lines, values):
        _add_note(ax, format(value, ','), numpy.add(at[i], at[j]) / 2, (0, 5), color=GREY)
    _draw_dots(ax, at, [INK] * len(at), areas)
    for name, place in zip(names, at):
        _add_note(ax, _shorten(name), place, (0, -17))
    ax.margins(.1)
    _hide_axes(ax)


# -- the pictures

def check(path: Path) -> None:
    """Check that a picture can be written to a path, before the work for it begins.

    Parameters
    ----------
    path : str or os.PathLike
        Where the picture will go.

    Raises
    ------
    ImportError
        If matplotlib is missing.
    ValueError
        If matplotlib has no format for the path's ending.
    FileNotFoundError
        If the path's folder doesn't exist.

    See Also
    --------
    graph : Draw a graph.

    Examples
    --------
    >>> from spmat import draw
    >>> draw.check("graph.png")
    """
    figure = import_extra('matplotlib.figure', 'a picture').Figure()
    endings = figure.canvas.get_supported_filetypes()
    ending = os.path.splitext(path)[1][1:].lower()
    if ending and ending not in endings:
        raise ValueError('%s: a picture ends in .png, .svg, .pdf or another of %s'
                         % (os.fspath(path), ', '.join(sorted(endings))))
    folder = os.path.dirname(path) or '.'
    if not os.path.isdir(folder):
        raise FileNotFoundError(errno.ENOENT, 'no such folder', os.fspath(folder))


def raster(A: Matrix, rows: int = RASTER, columns: int = RASTER) -> Matrix:
    """Count the entries of a matrix in each cell of a raster.

    Parameters
    ----------
    A : Matrix
        Any matrix.
    rows, columns : int
        The raster's size; never more than A's.

    Returns
    -------
    Matrix
        The counts; cells without an entry of A have none.

    See Also
    --------
    spy : Draws it.

    Notes
    -----
    2 jobs in 2 runs: two products, of as many multiplications as A has entries. In the GraphBLAS
    this is P A Q over plus, with P and Q that gather rows and columns.

    Examples
    --------
    >>> import spmat
    >>> from spmat import draw
    >>> G = spmat.Session().from_edgelist([("Ann", "Bob"), ("Bob", "Cid")])
    >>> draw.raster(G, 1, 1).to_triples()
    [(0, 0, 2)]
    """
    cells = [min(integers.whole(many, what), side) for many, what, side in zip(
        (rows, columns), ('number of rows', 'number of columns'), A.shape)]
    groups, places = ([numpy.arange(side) * many // max(1, side) for side, many in
                       zip(A.shape, cells)], [numpy.arange(side) for side in A.shape])
    P = without_names(A.session.from_coo(groups[0], places[0], 1, cells[0], A.nrows))
    Q = without_names(A.session.from_coo(places[1], groups[1], 1, A.ncols, cells[1]))
    return P.mxm(A, 'plus_pair').mxm(Q, 'plus_first')


def spy(A: Matrix, path: Optional[Path] = None, size: int = RASTER, first: int = 0, *,
        ax: Optional[Axes] = None) -> Any:
    """Draw where the entries of a matrix are.

    Up to `size` rows and columns, each entry is a square. Above that, the colours of a raster of
    `size` by `size` cells say how many entries each cell has, as a colour bar shows.

    Parameters
    ----------
    A : Matrix
        Any matrix.
    path : str or os.PathLike, optional
        Where to write the picture.
    size : int
        The most rows and columns to draw one by one.
    first : int
        The number of the first row and column, if they have no names.
    ax : matplotlib.axes.Axes, optional
        Where to draw.

    Returns
    -------
    matplotlib.axes.Axes

    See Also
    --------
    raster : The numbers behind it.
    graph : The graph itself.

    Notes
    -----
    1 run, or 2 for a raster. In matplotlib `spy`.

    Examples
    --------
    >>> import spmat
    >>> from spmat import draw
    >>> G = spmat.Session().from_edgelist([("Ann", "Bob"), ("Bob", "Cid")])
    >>> axes = draw.spy(G, "spy.png")
    """
    size, first = integers.whole(size, 'size'), integers.word(first, 'first number')
    ax = _open_axes(ax, path)
    is_small = max(A.shape) <= size
    shown = A.apply('one') if is_small else raster(A, size, size)
    rows, columns, values = shown.entries(arrays=True)
    table = numpy.full(shown.shape, numpy.nan)
    table[rows, columns] = values
    left, right, bottom = first - .5, first + A.ncols - .5, first + A.nrows - .5
    frame = {'extent': (left, right, bottom, left), 'interpolation': 'nearest',
             'aspect': 'equal' if 3 * min(A.shape) > max(A.shape) else 'auto'}
    if len(values) and is_small:
        colors = import_extra('matplotlib.colors', 'a picture')
        ax.imshow(table, cmap=colors.ListedColormap([INK]), **frame)
    elif len(values):
        cell = [-(-side // cells) for side, cells in zip(A.shape, shown.shape)]
        _draw_counts(ax, table, cell, frame)
    ax.xaxis.tick_top()
    ax.tick_params(labelsize=8)
    _set_name_ticks(ax.xaxis, A.column_nodes, A.ncols, first)
    _set_name_ticks(ax.yaxis, A.row_nodes, A.nrows, first)
    if max(A.shape) <= MOST_LINED_ROWS:
        ax.vlines([left + j for j in range(1, A.ncols)], left, bottom, color='white', linewidth=1)
        ax.hlines([left + i for i in range(1, A.nrows)], left, right, color='white', linewidth=1)
    return _finish(ax, path, {'row': A.nrows, 'column': A.ncols, 'entry': A.nvals})


def _draw_counts(ax: Axes, table: Array, cell: Sequence[int], frame: Dict[str, Any]) -> None:
    """Draw the counts of a raster, with a colour bar."""
    colors = import_extra('matplotlib.colors', 'a picture')
    least = int(numpy.nanmin(table))
    image = ax.imshow(table, cmap=colors.ListedColormap(_shade(numpy.linspace(0, 1, 256))),
                      norm=colors.LogNorm(least, max(least + 1, int(numpy.nanmax(table)))), **frame)
    label = 'entries in a cell of %s by %s' % tuple(format(side, ',') for side in cell)
    bar = ax.figure.colorbar(image, ax=ax, fraction=.046, pad=.03, label=label)
    _set_log_ticks(bar.ax.yaxis)


def degree_histogram(A: Matrix, path: Optional[Path] = None, *, ax: Optional[Axes] = None) -> Any:
    """Draw how many vertices have how many edges that leave them.

    Degrees up to 40 have a bar each; above that, there are points on logarithmic axes, and a line
    at the mean. The title says how many vertices have no edge.

    Parameters
    ----------
    A : Matrix
        A graph, or any matrix: its rows are counted.
    path : str or os.PathLike, optional
        Where to write the picture.
    ax : matplotlib.axes.Axes, optional
        Where to draw.

    Returns
    -------
    matplotlib.axes.Axes

    See Also
    --------
    graph : The graph itself.
    degrees : The numbers.

    Notes
    -----
    2 runs; one column comes out.

    Examples
    --------
    >>> import spmat
    >>> from spmat import draw
    >>> G = spmat.Session().from_edgelist([("Ann", "Bob"), ("Bob", "Cid")])
    >>> axes = draw.degree_histogram(G, "degrees.png")
    """
    ax = _open_axes(ax, path)
    degrees = A.apply('one').reduce_rowwise('plus').entries(arrays=True)[2]
    counts = numpy.bincount(degrees, minlength=1)
    at = numpy.flatnonzero(counts)
    if len(counts) <= MOST_BARS:
        _draw_bars(ax, at, counts[at], 'degree')
        ax.set_xlim(0, len(counts))
    else:
        ax.loglog(at, counts[at], 'o', markersize=3.5, color=INK, alpha=.8, markeredgewidth=0)
        _set_log_ticks(ax.xaxis)
        _set_log_ticks(ax.yaxis)
        ax.grid(True, which='major', alpha=.3)
        mean = A.nvals / A.nrows
        ax.axvline(mean, color=WARM, linewidth=1)
        _add_note(ax, 'mean %.1f' % mean, (mean, 1), (4, -12), ha='left', color=WARM,
                  xycoords=('data', 'axes fraction'))
        ax.set_xlabel('degree')
        ax.set_ylabel('vertices')
    return _finish(ax, path, {'vertex': A.nrows, 'entry': A.nvals},
                   _count_others(A.nrows - len(degrees), '%s of degree 0'))


def _is_drawable(G: Matrix) -> bool:
    """Tell whether a picture shows each vertex and edge of a graph."""
    return G.nrows <= MOST_VERTICES and G.nvals <= 2 * MOST_EDGES


def _has_two_kinds(G: Matrix) -> bool:
    """Tell whether the rows and the columns of a matrix are vertices of two kinds. ValueError if it
    has more than a picture shows."""
    has_two = G.nrows != G.ncols or vertices_of(G.notes) is None
    if has_two and (G.nrows + G.ncols > MOST_LEVELED or G.nvals > MOST_LEVELED_EDGES):
        raise ValueError('a picture of two kinds of vertices shows up to %d vertices and %d '
                         'edges, and this has %d and %d: draw.spy shows any'
                         % (MOST_LEVELED, MOST_LEVELED_EDGES, G.nrows + G.ncols, G.nvals))
    if not has_two and not _is_drawable(G):
        raise ValueError(
            'a picture of a graph shows up to %s vertices and %s edges, and this has %s and %s: '
            'draw.spy and draw.degree_histogram show any, draw.graph(G[some, some]) a part'
            % tuple(format(n, ',') for n in (MOST_VERTICES, MOST_EDGES, G.nrows, G.nvals)))
    return has_two


def graph(G: Matrix, path: Optional[Path] = None, *, color: Look = None, size: Look = None,
          labels: Look = None, pos: Look = None, ax: Optional[Axes] = None) -> Any:
    """Draw a graph: a dot for each vertex, and a line or an arrow for each edge.

    A matrix whose rows and columns are two kinds of vertices is drawn as two columns.

    Parameters
    ----------
    G : Matrix
        A graph of up to 1,000 vertices and 5,000 edges. Of two kinds: up to 150 vertices and 700
        edges.
    path : str or os.PathLike, optional
        Where to write the picture.
    color : Matrix, dict, sequence or str, optional
        A value for each vertex, such as `core_numbers` or `louvain` gives, or the name of one
        colour. Communities and names have a hue each, and up to 12 different whole numbers a shade
        each, in a legend. Other numbers have a colour bar. Vertices without a value are pale.
    size : Matrix, dict, sequence or float, optional
        A number for each vertex, such as `pagerank` gives: the area of its dot grows with it. One
        number is the area of each dot, in square points.
    labels : bool, Matrix, dict or sequence, optional
        What to write at the vertices. True means their names, and False nothing. By default, up to
        60 vertices have their names. Of more, the five that are largest have: by `size`, or by
        their edges.
    pos : dict, optional
        ``{vertex: (x, y)}``, such as a layout of networkx gives. By default it is networkx'
        `spring_layout`, with vertices that edges join near one another.
    ax : matplotlib.axes.Axes, optional
        Where to draw.

    Returns
    -------
    matplotlib.axes.Axes

    Raises
    ------
    ValueError
        If G is too large to draw, a size is below 0, or something is given for the vertices of two
        kinds.
    DimensionMismatch
        If a column or a sequence hasn't a value for each vertex.

    See Also
    --------
    levels : The levels of a search.
    route : A path.
    spy : Where the entries are.

    Notes
    -----
    1 run. Up to 40 edges show their values, if the caller gave any. In networkx `draw`.

    Examples
    --------
    >>> import spmat
    >>> from spmat import draw
    >>> G = spmat.Session().from_edgelist([("Ann", "Bob"), ("Bob", "Cid")])
    >>> axes = draw.graph(G, "graph.png", size=spmat.algorithms.pagerank(G))
    """
    if _has_two_kinds(G):
        if any(given is not None for given in (color, size, labels, pos)):
            raise ValueError('color, size, labels and pos are of graphs with one kind of vertices: '
                             'spmat.bipartite(B) is the graph of both kinds')
        return _draw_two_kinds(G, ax, path)
    edges = _edges_of(G)
    colours, areas = _choose_colours(G, color), _choose_areas(G, size)
    degrees = numpy.bincount([end for line in edges.lines for end in line], minlength=G.nrows)
    texts = _choose_texts(G, labels, degrees if size is None else areas)
    at = _choose_positions(G, pos, edges.lines)
    ax = _open_axes(ax, path)
    _draw_edges(ax, at, edges, areas)
    _draw_edge_values(ax, at, edges, G)
    _draw_dots(ax, at, colours.dots, areas)
    _draw_labels(ax, at, texts, colours.dots, areas)
    colours.explain(ax)
    ax.margins(.08)
    _hide_axes(ax)
    loops = sum(i == j for i, j in edges.values)
    return _finish(ax, path, {'vertex': G.nrows, 'edge': len(edges.lines)},
                   '%s not shown' % _count(loops, 'loop') if loops else '')


def values(G: Matrix, found: Matrix, path: Optional[Path] = None, *,
           ax: Optional[Axes] = None) -> Any:
    """Draw a value for each vertex, such as most algorithms give.

    Up to 1,000 vertices and 5,000 edges, this is the drawing of `graph` in the values' colours. Of
    a larger graph bars say how many vertices have a value: each value has a bar, or each of 41
    ranges. Where values are vertices, such as those of communities, the bars are the sizes of the
    largest groups.

    Parameters
    ----------
    G : Matrix
        A graph.
    found : Matrix
        A column with a value for each vertex, or for some, such as `algorithms.pagerank` gives.
    path : str or os.PathLike, optional
        Where to write the picture.
    ax : matplotlib.axes.Axes, optional
        Where to draw.

    Returns
    -------
    matplotlib.axes.Axes

    Raises
    ------
    DimensionMismatch
        If the column hasn't a row for each vertex.

    Notes
    -----
    1 run of a graph that is drawn; else none.

    See Also
    --------
    graph, degree_histogram, levels

    Examples
    --------
    >>> import spmat
    >>> from spmat import algorithms, draw
    >>> G = spmat.Session().from_edgelist([("Ann", "Bob"), ("Bob", "Cid")])
    >>> axes = draw.values(G, algorithms.closeness(G), "closeness.png")
    """
    check_one_kind(G.notes)
    if _is_drawable(G):
        return graph(G, path, color=found, ax=ax)
    held = list(_values_of(G, found, 'values').values())
    ax = _open_axes(ax, path)
    counts = collections.Counter(held)
    if isinstance(found.unit, VertexUnit):
        sizes = [size for _, size in counts.most_common(MOST_BARS)]
        _draw_bars(ax, range(1, len(sizes) + 1), sizes, 'groups, the largest first')
    elif len(counts) <= MOST_BARS and all(value == int(value) for value in counts):
        _draw_bars(ax, list(counts), list(counts.values()), 'value')
    else:
        heights, ends = numpy.histogram(numpy.array(held, float), MOST_BARS)
        _draw_bars(ax, ends[:-1], heights, 'value', width=numpy.diff(ends), align='edge')
    return _finish(ax, path, {'vertex': G.nrows, 'entry': G.nvals},
                   _count_others(G.nrows - len(held), '%s without a value'))


def levels(G: Matrix, found: Matrix, path: Optional[Path] = None, *,
           ax: Optional[Axes] = None) -> Any:
    """Draw the levels of a breadth-first search.

    Up to 150 vertices and 700 edges, each vertex and each edge is drawn, a level a column. Above
    that, each level has a bar, which says how many vertices it has.

    Parameters
    ----------
    G : Matrix
        A graph.
    found : Matrix
        What `algorithms.bfs_levels` gave.
    path : str or os.PathLike, optional
        Where to write the picture.
    ax : matplotlib.axes.Axes, optional
        Where to draw.

    Returns
    -------
    matplotlib.axes.Axes

    Raises
    ------
    ValueError
        If `found` isn't a column with a row for each vertex.

    See Also
    --------
    bfs_levels : Finds them.
    graph : The graph itself.

    Notes
    -----
    1 run.

    Examples
    --------
    >>> import spmat
    >>> from spmat import draw
    >>> G = spmat.Session().from_edgelist([("Ann", "Bob"), ("Bob", "Cid")])
    >>> axes = draw.levels(G, spmat.algorithms.bfs_levels(G, "Ann"), "levels.png")
    """
    check_one_kind(G.notes)
    if found.shape != (G.nrows, 1) or G.nrows != G.ncols:
        raise ValueError('levels are a column with a row for each vertex, as bfs_levels gives it')
    joined(G.notes, found.notes, VERTICES)
    level = {i: value for (i, _), value in found.to_dict().items()}
    if _is_small(G):
        ax = _draw_columns(G, level, ax, path)
    else:
        ax, counts = _open_axes(ax, path), numpy.bincount(list(level.values()))
        _draw_bars(ax, range(len(counts)), counts, 'level')
    return _finish(ax, path, {'vertex': G.nrows, 'entry': G.nvals,
                              'level': max(level.values(), default=-1) + 1},
                   _count_others(G.nrows - len(level), '%s not reached'))


def route(G: Matrix, found: Sequence[Any], path: Optional[Path] = None, *,
          ax: Optional[Axes] = None) -> Any:
    """Draw a path of a graph.

    Up to 150 vertices and 700 edges, this is the drawing of `levels` from the path's first vertex,
    and the path's edges are thick. Above that, the path's vertices are drawn alone, with the values
    of their edges.

    Parameters
    ----------
    G : Matrix
        A graph.
    found : sequence
        What `algorithms.shortest_path` gave, or other vertices that edges join in this order.
    path : str or os.PathLike, optional
        Where to write the picture.
    ax : matplotlib.axes.Axes, optional
        Where to draw.

    Returns
    -------
    matplotlib.axes.Axes

    Raises
    ------
    ValueError
        If one of `found` is no vertex, or no edge leads from one to the next.

    See Also
    --------
    shortest_path : Finds one.
    graph : The graph itself.

    Examples
    --------
    >>> import spmat
    >>> from spmat import draw
    >>> G = spmat.Session().from_edgelist([("Ann", "Bob"), ("Bob", "Cid")])
    >>> axes = draw.route(G, spmat.algorithms.shortest_path(G, "Ann", "Cid"), "route.png")
    """
    from .algorithms import bfs_levels             # algorithms are slow to import
    check_one_kind(G.notes)
    if not len(found):
        raise ValueError('a path has a vertex or more')
    vertices = [G.index(vertex) for vertex in found]
    values = [G[i, j] for i, j in zip(found, found[1:])]
    for edge, value in zip(zip(found, found[1:]), values):
        if value is None:
            raise ValueError('no edge leads from %r to %r' % edge)
    if _is_small(G):
        level = {i: value for (i, _), value in bfs_levels(G, found[0]).to_dict().items()}
        ax = _draw_columns(G, level, ax, path, frozenset(zip(vertices, vertices[1:])))
    else:
        ax = _open_axes(ax, path)
        _draw_chain([str(vertex) for vertex in found], values, ax)
    return _finish(ax, path, {}, 'from %s to %s: %s' % (found[0], found[-1],
                                                        _count(len(values), 'edge')))
