"""A networkx graph as matrices of the process's session, made when they are first asked for."""
from __future__ import annotations

import functools
import itertools
from typing import (Any, Callable, Container, Dict, Iterable, Iterator, List, Optional, Sequence,
                    Tuple)

import networkx as nx
import numpy

from spmat import Matrix, algorithms

from . import edge_weights
from .edge_weights import Key, Values
from .process_session import session, setting

# what a weight times the nodes stays below: networkx' integers don't wrap
BOUND = 1 << 61


class SpmatGraph:
    """A graph that networkx' functions run with spmat.

    Its matrices have a row and a column for each node, in the graph's order. It doesn't change with
    the graph that it was made of. If it is pickled or copied, it leaves its matrices out, and makes
    them anew.

    Parameters
    ----------
    graph : networkx.Graph
        The graph to read.

    Attributes
    ----------
    nodes : list
        The nodes, in the graph's order.
    rows, columns : numpy.ndarray
        Where the graph has edges, in the order of its adjacency. An undirected edge has two such
        entries, a loop one; parallel edges share theirs.
    counts : numpy.ndarray or None
        How many edges each entry has; None if each has one.
    loops : dict
        The number of edges from a node to itself, by its index.
    """
    __networkx_backend__ = 'spmat'

    def __init__(self, graph: Any) -> None:
        adjacency = edge_weights.list_neighbours(graph)
        self.nodes = list(graph)
        self.kind = graph.__class__
        self._directed, self._multigraph = graph.is_directed(), graph.is_multigraph()
        degrees = list(map(len, adjacency.values()))
        self.rows = numpy.repeat(numpy.arange(len(degrees), dtype=numpy.int64), degrees)
        ends: Iterable[Any] = itertools.chain.from_iterable(adjacency.values())
        if not (set(map(type, self.nodes)) <= {int}
                and self.nodes == list(range(len(self.nodes)))):
            ends = map(self.index.__getitem__, ends)
        self.columns = numpy.fromiter(ends, numpy.int64, len(self.rows))
        counts = numpy.ones(len(self.rows), numpy.int64)
        if self._multigraph:
            counts = numpy.array([len(keys) for near in adjacency.values()
                                  for keys in near.values()], numpy.int64)
        at = self.rows == self.columns
        self.loops = dict(zip(self.rows[at].tolist(), counts[at].tolist()))
        self.counts = counts if (counts > 1).any() else None
        self.graph: Dict[Any, Any] = {}
        self.node_data: Optional[Dict[Any, Dict[Any, Any]]] = None
        self.edge_data: Optional[List[Any]] = None
        self._values: Dict[Key, Values] = {}
        self._matrices: Dict[Any, Matrix] = {}
        self._answers: Dict[str, List[int]] = {}

    @functools.cached_property
    def index(self) -> Dict[Any, int]:
        """The number of each node."""
        return {node: at for at, node in enumerate(self.nodes)}

    # -- what networkx asks of a graph

    def __len__(self) -> int:
        return len(self.nodes)

    def __iter__(self) -> Iterator[Any]:
        return iter(self.nodes)

    def __contains__(self, node: Any) -> bool:
        try:
            return node in self.index
        except TypeError:
            return False

    def __repr__(self) -> str:
        return '<SpmatGraph of a %s with %d nodes and %d edges>' % (
            self.kind.__name__, len(self), self.number_of_edges())

    def is_directed(self) -> bool:
        return bool(self._directed)

    def is_multigraph(self) -> bool:
        return bool(self._multigraph)

    order = number_of_nodes = __len__
    has_node = __contains__

    def number_of_edges(self) -> int:
        ends = len(self.rows) if self.counts is None else int(self.counts.sum())
        return ends if self._directed else (ends + sum(self.loops.values())) // 2

    def nbunch_iter(self, nbunch: Any = None) -> Iterator[Any]:
        """As a networkx graph's: all nodes, one, or those of many that are in the graph."""
        return iter(nx.Graph.nbunch_iter(self, nbunch))

    @property
    def _adj(self) -> Dict[Any, int]:
        """What networkx' `nbunch_iter` asks: which are nodes, and in what order."""
        return self.index

    def __getattr__(self, name: str) -> Any:
        """Says where that is which networkx graphs have, and this one hasn't."""
        if not name.startswith('_') and hasattr(nx.Graph, name):
            raise AttributeError(
                "%r is with the networkx graph that this one was made of: this one stays on the "
                "server, for networkx' functions, as nx.triangles(H), and for H.matrix()" % name)
        raise AttributeError('%r object has no attribute %r' % (type(self).__name__, name))

    def __getstate__(self) -> Dict[str, Any]:
        """networkx keeps this object in `G.__networkx_cache__`, and copies and pickles it with
        G."""
        return {**self.__dict__, '_matrices': {}}

    # -- attributes

    def keep_attributes(self, graph: Any, nodes: bool, edges: bool, of_graph: bool) -> None:
        """Hold on to attributes of the graph that this one was made of."""
        if nodes and self.node_data is None:
            self.node_data = dict(graph.nodes(data=True))
        if edges and self.edge_data is None:
            data = edge_weights.list_edge_data(graph)
            if len(data) != len(self.rows):
                raise NotImplementedError('the graph was changed since it was converted')
            self.edge_data = data
        if of_graph:
            self.graph = dict(graph.graph)

    def has_values_of(self, graph: Any, names: List[Any]) -> bool:
        """Tell whether the graph that this one was made of still has the values of these edge
        attributes that it had then."""
        known = {key: values.read for key, values in self._values.items() if key.name in names}
        data = edge_weights.list_edge_data(graph) if known else []
        return all(edge_weights.list_attribute(data, key) == read for key, read in known.items())

    def _make_key(self, name: Any, default: Any, fold: str) -> Key:
        return Key(name, default, fold if self._multigraph else None, setting('scale'))

    def values(self, name: Any, default: Any = 1, fold: str = 'min') -> Values:
        """Read an edge attribute at each entry: of parallel edges the least ('min'), the greatest
        or their sum. NotImplementedError if one is no multiple of a unit (`edge_weights`), or the
        length of a path could pass 64 bits."""
        key = self._make_key(name, default, fold)
        if key not in self._values:
            if self.edge_data is None:
                raise NotImplementedError('the edge attribute %r was not converted' % (name,))
            found = edge_weights.read_values(self.edge_data, key)
            if max(found.most, -found.least) * (len(self) + 1) >= BOUND:
                raise NotImplementedError('the edge attribute %r: lengths of paths beyond 64 bits'
                                          % (name,))
            self._values[key] = found
        return self._values[key]

    # -- matrices

    def hold(self, key: Any, make: Callable[[], Matrix]) -> Matrix:
        """Make a matrix, or take the one that was made of this key in the session that is open."""
        held = self._matrices.get(key)
        if held is None or held.session is not session():
            self._matrices[key] = held = make()
        return held

    def hold_answer(self, key: str, make: Callable[[], List[int]]) -> List[int]:
        """Make an answer by index that several functions use; callers don't change it."""
        if key not in self._answers:
            self._answers[key] = make()
        return self._answers[key]

    def _put(self, key: Any, values: Callable[[], Any], back: bool) -> Matrix:
        """A matrix of these values, turned round if `back` is set and the graph is directed."""
        is_turned = back and self._directed
        ends = (self.columns, self.rows) if is_turned else (self.rows, self.columns)

        def make() -> Matrix:
            made = session().from_coo(*ends, values(), len(self), len(self))
            made.directed = self.is_directed()
            return made
        return self.hold((key, is_turned), make)

    def matrix(self, weight: Optional[Any] = None, default: Any = 1, fold: str = 'min',
               back: bool = False) -> Matrix:
        """Return the adjacency matrix.

        Parameters
        ----------
        weight : str, optional
            The edge attribute whose values the matrix has; ones without it.
        default : int
            The value of an edge without that attribute.
        fold : {'min', 'max', 'plus'}
            What makes one value of those of parallel edges.
        back : bool
            Whether to turn edges round.

        Returns
        -------
        Matrix
            At (i, j) the value of the edges from node i to node j.

        Raises
        ------
        NotImplementedError
            If a value is no multiple of a unit, or lengths of paths could pass 64 bits.
        """
        if weight is None:
            return self._put(None, lambda: 1, back)
        return self._put(self._make_key(weight, default, fold),
                         lambda: self.values(weight, default, fold).many, back)

    @property
    def A(self) -> Matrix:
        """Ones where there is an edge."""
        return self.matrix()

    @property
    def AT(self) -> Matrix:
        """Ones where there is an edge, turned round."""
        return self.matrix(back=True)

    def many(self) -> Matrix:
        """How many edges lead from i to j."""
        return self.A if self.counts is None else self._put('many', lambda: self.counts, False)

    @property
    def both(self) -> Optional[Matrix]:
        """The transpose for algorithms that take one: the graph itself if it is undirected, and
        none if it isn't."""
        return None if self._directed else self.A

    @property
    def simple(self) -> Matrix:
        """Ones without loops."""
        if not self.loops:
            return self.A
        return self.hold('simple', lambda: self.A.select('offdiag'))

    @property
    def near(self) -> Matrix:
        """Ones both ways, without loops."""
        if not self._directed:
            return self.simple
        return self.hold('near', lambda: algorithms.undirected(self.A, self.AT))

    def spots(self, nodes: Iterable[Any], value: int = 1) -> Matrix:
        """A column with entries at some nodes."""
        at = sorted({self.index[node] for node in nodes})
        return session().from_coo(at, [0] * len(at), value, len(self), 1)

    def column(self, values: Any) -> Matrix:
        """A column of one value, or of a value for each node."""
        return session().from_coo(range(len(self)), [0] * len(self), values, len(self), 1)

    # -- results

    def named(self, result: Matrix) -> Matrix:
        """A column or a row, with the nodes as its names."""
        result.nodes = self.nodes
        return result

    def rows_of(self, matrix: Matrix, first: int = 0) -> Iterator[Tuple[Any, Dict[Any, int]]]:
        """A matrix as (node, {node: value}), a pair for each row; row 0 is node `first`."""
        rows, columns, values = matrix.entries(arrays=True)
        ends = numpy.searchsorted(rows, numpy.arange(matrix.nrows + 1)).tolist()
        near, found = list(map(self.nodes.__getitem__, columns.tolist())), values.tolist()
        for i, (start, end) in enumerate(zip(ends, ends[1:])):
            yield self.nodes[first + i], dict(zip(near[start:end], found[start:end]))

    def to_networkx(self, keep: Optional[Container[Any]] = None,
                    links: Optional[Tuple[Sequence[int], Sequence[int]]] = None) -> Any:
        """Make a networkx graph of the nodes in `keep`, or all, with the attributes that were
        converted. It has the edges between them, or those at the rows and columns in `links`."""
        graph = self.kind()
        graph.graph.update(self.graph)
        data = self.node_data
        graph.add_nodes_from((node, dict(data[node]) if data else {}) for node in self
                             if keep is None or node in keep)
        rows, columns = self.rows, self.columns
        chosen = numpy.ones(len(rows), bool) if self._directed else rows <= columns
        if keep is not None:
            is_in = numpy.array([node in keep for node in self], bool)
            chosen &= is_in[rows] & is_in[columns]
        if links is not None:
            i, j = (numpy.array(ends, numpy.int64) for ends in links)
            chosen &= numpy.isin(rows * len(self) + columns, i * len(self) + j)
        graph.add_edges_from(self._list_edges(numpy.flatnonzero(chosen)))
        return graph

    def _list_edges(self, chosen: Any) -> Iterator[Tuple[Any, ...]]:
        """What `add_edges_from` takes for each of these entries."""
        data, counts = self.edge_data, self.counts
        for at, i, j in zip(chosen.tolist(), self.rows[chosen].tolist(),
                            self.columns[chosen].tolist()):
            u, v = self.nodes[i], self.nodes[j]
            if not self._multigraph:
                yield u, v, dict(data[at]) if data else {}
                continue
            keys = data[at] if data else {key: {} for key in range(1 if counts is None
                                                                   else counts[at])}
            for key, had in keys.items():
                yield u, v, key, dict(had)


def graph(G: Any) -> SpmatGraph:
    """Put a graph on the server, to be handed to networkx' functions in its place.

    Parameters
    ----------
    G : networkx.Graph
        A graph, also directed, or a multigraph. It is read at once, with all its attributes.

    Returns
    -------
    SpmatGraph
        The graph on the server. It doesn't change with `G`.

    Raises
    ------
    NotImplementedError
        If G is no graph of networkx' own kinds.

    Examples
    --------
    >>> import networkx as nx, spmat_networkx
    >>> H = spmat_networkx.graph(nx.karate_club_graph())
    >>> nx.number_connected_components(H)
    1
    """
    from .backend import convert_from_nx           # which imports this module
    return convert_from_nx(G, preserve_edge_attrs=True, preserve_node_attrs=True,
                           preserve_graph_attrs=True)
