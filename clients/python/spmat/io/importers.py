"""Matrices from arrays, tables, dicts, graphs, files and other sessions. What sessions and sessions
in blocks share."""
from __future__ import annotations

import abc
from typing import (Any, Dict, Generic, Iterable, List, Mapping, Optional, Sequence, TypeVar,
                    Union)

import numpy

from .. import scale as scales
from ..errors import ReadError, Refused, TextRefused, TooLarge, about
from ..matrix import Matrix
from ..metadata import NOTHING, Axes, axes_of, sizes_of
from ..operators import READY, Op, find
from ..types import DataFrame, Exact, Many, NodesLike, NxGraph, Path, Source, Vertex, spmatrix
from . import archive, arrays, files
from .edges import (Column, Comments, Graph, How, Layout, check_direction, edges_of_frame,
                    edges_of_list, graph_of, triples_of_graph)
from .files import name_of
from .formats import Request, check_format, check_layout, read
from .matrix_text import Triples, lowered, mirrored
from .values import Rounding

Made = TypeVar('Made', bound=Matrix)
DupOp = Optional[Op]


class Sources(abc.ABC, Generic[Made]):
    """What makes matrices, once triples and Matrix Market texts can be sent."""

    backend: Any                                   # takes the jobs of the matrices

    @abc.abstractmethod
    def _from(self, triples: Triples, dup_op: DupOp = None, name: Optional[str] = None) -> Made:
        """A matrix of triples, those of one position folded by an operator where one is given."""

    def _both_ways(self, triples: Triples, name: Optional[str] = None) -> Made:
        """A square matrix of triples, each of which stands for its mirror, too. Each position, or
        its mirror, is given once."""
        return self._from(mirrored(triples, 'symmetric'), name=name)

    def from_coo(self, rows: Iterable[int], columns: Iterable[int], values: Many = 1,
                 nrows: Optional[int] = None, ncols: Optional[int] = None, *, square: bool = False,
                 symmetric: bool = False, scale: Optional[float] = None, dup_op: DupOp = None,
                 name: Optional[str] = None, nodes: NodesLike = None) -> Made:
        """A matrix from rows, columns and values.

        Parameters
        ----------
        rows, columns : sequence of int
            The positions of the entries, from 0: lists, arrays of numpy, or columns of pandas.
        values : sequence or number
            Whole numbers of 64 bits, or one for all.
        nrows, ncols : int, optional
            The sizes. By default the least that fit, or the lengths of `nodes`.
        square : bool
            Make the matrix square: one given size counts for both, and by default both are the
            least that fit.
        symmetric : bool
            Put each entry (i, j) at (j, i) as well: an undirected graph whose edges are each given
            once, in either direction. This loads faster.
        scale : number, optional
            Multiply values by this, and round them to the nearest. It becomes the matrix's `unit`;
            `notes.source` says what the rounding did.
        dup_op : operator, optional
            Combines the values of a repeated position, in their order.
        name : str, optional
            A name for the matrix.
        nodes : sequence, optional
            The names of the vertices, such as `G.nodes`; or a tuple of two lists, for rows and
            columns, either of which may be None. With one list the matrix is square, unless it has
            one row or column. Without names it combines with matrices that have none, or just 0 to
            n - 1.

        Returns
        -------
        Matrix
            The matrix.

        Raises
        ------
        ValueError
            If a value isn't a whole number of 64 bits, or a place is out of range; it names the
            entry.
        TextRefused
            If a position repeats (M8) without a `dup_op`.

        See Also
        --------
        from_triples : From tuples.
        from_edgelist : By name.
        Matrix.to_coo : The other way.

        Notes
        -----
        Cost: 1 job and 1 run if a position repeats, else none. In python-graphblas
        `Matrix.from_coo`.

        Examples
        --------
        >>> import spmat
        >>> s = spmat.Session()
        >>> s.from_coo([0, 0, 1], [0, 2, 2], [1, -2, 3], nrows=2, ncols=3).to_triples()
        [(0, 0, 1), (0, 2, -2), (1, 2, 3)]
        """
        nrows, ncols = sizes_of(nodes, nrows, ncols)
        rounding = Rounding(scale)
        unit, is_square = scales.of_read(scale, dup_op), square or symmetric
        if is_square:                              # where one size is given it is both
            nrows, ncols = (ncols if nrows is None else nrows), (nrows if ncols is None else ncols)
        triples = arrays.checked(rows, columns, values, nrows, ncols, rounding)
        if is_square and nrows is None:
            triples = triples._replace(nrows=max(triples.nrows, triples.ncols),
                                       ncols=max(triples.nrows, triples.ncols))
        if is_square and triples.nrows != triples.ncols:
            raise ValueError('%s=True is of a square matrix, not of %d rows and %d columns' % (
                'symmetric' if symmetric else 'square', triples.nrows, triples.ncols))
        axes = axes_of(nodes, (triples.nrows, triples.ncols))
        triples = self._folded(triples, dup_op)
        if not symmetric:
            made = self._from(triples, name=name)
            return _note_values(made, rounding, unit, axes)
        made = _note_values(self._both_ways(triples, name), rounding, unit, axes)
        made.notes = made.notes._replace(directed=False)
        return made

    def from_triples(self, triples: Iterable[Sequence[Any]], nrows: Optional[int] = None,
                     ncols: Optional[int] = None, *, square: bool = False,
                     scale: Optional[float] = None, dup_op: DupOp = None,
                     name: Optional[str] = None, nodes: NodesLike = None) -> Made:
        """A matrix from triples.

        Parameters
        ----------
        triples : iterable
            (row, column, value), or (row, column), whose value is 1; or an array of numpy or a
            table of pandas with these as its columns. `from_edgelist` takes names.
        nrows, ncols : int, optional
            The sizes, as for `from_coo`.
        square : bool, default False
            Make the matrix square: one given size counts for both, and by default both are the
            least that fit.
        scale : number, optional
            Multiply values by this, and round them, as for `from_coo`.
        dup_op : operator, optional
            Combines the values of a repeated position, as for `from_coo`.
        name : str, optional
            A name for the matrix.
        nodes : sequence, optional
            The names of the vertices, as for `from_coo`.

        Returns
        -------
        Matrix
            The matrix.

        See Also
        --------
        from_coo : Three lists.
        from_edgelist : By name.
        Matrix.to_triples : The other way.

        Examples
        --------
        >>> import spmat
        >>> s = spmat.Session()
        >>> s.from_triples([(0, 0, 1), (1, 2, 3)], 2, 3).to_dict()
        {(0, 0): 1, (1, 2): 3}
        """
        return self.from_coo(*arrays.columns_of(triples), nrows, ncols, square=square, scale=scale,
                             dup_op=dup_op, name=name, nodes=nodes)

    def from_dense(self, rows: object, missing: object = None, *, missing_value: object = None,
                   scale: Optional[float] = None, name: Optional[str] = None,
                   nodes: NodesLike = None) -> Made:
        """A matrix from a table.

        Parameters
        ----------
        rows : table
            A list of rows, an array of numpy, or a table or column of pandas. Labels of pandas are
            the names of rows and columns unless they are positions. Of one dimension it is a
            column.
        missing, missing_value : value, optional
            The value that means no entry, under either name; NaN covers None and NA, too. Masked
            cells are no entries either.
        scale : number, optional
            Multiply values by this, and round them, as for `from_coo`.
        name : str, optional
            A name for the matrix.
        nodes : sequence, optional
            The names of the vertices, as for `from_coo`.

        Returns
        -------
        Matrix
            The matrix, in which each other cell is an entry.

        Raises
        ------
        ValueError
            If a cell holds no value; it names the cell.

        See Also
        --------
        from_coo : Entries alone.
        Matrix.to_dense : The other way.

        Notes
        -----
        In python-graphblas `Matrix.from_dense`.

        Examples
        --------
        >>> import spmat
        >>> s = spmat.Session()
        >>> s.from_dense([[1, 0], [0, 2]], missing=0).to_triples()
        [(0, 0, 1), (1, 1, 2)]
        """
        table = arrays.table_of(rows)
        cells = arrays.from_dense(table.cells, missing if missing is not None else missing_value)
        made = self.from_coo(*cells, scale=scale, name=name, nodes=nodes)
        if nodes is None and (table.rows is not None or table.columns is not None):
            made.notes = made.notes._replace(rows=table.rows, columns=table.columns)
        return made

    def from_csr(self, indptr: Many, columns: Many, values: Many = 1, nrows: Optional[int] = None,
                 ncols: Optional[int] = None, *, scale: Optional[float] = None,
                 dup_op: DupOp = None, name: Optional[str] = None) -> Made:
        """A matrix from compressed rows.

        Parameters
        ----------
        indptr : sequence of int
            For each row, where its entries begin; then the number of entries.
        columns : sequence of int
            The columns of the entries.
        values : sequence or number
            Their values, or one for all.
        nrows, ncols : int, optional
            The sizes, as for `from_coo`.
        scale : number, optional
            Multiply values by this, and round them, as for `from_coo`.
        dup_op : operator, optional
            Combines the values of a repeated position, as for `from_coo`.
        name : str, optional
            A name for the matrix.

        Returns
        -------
        Matrix
            The matrix.

        Raises
        ------
        ValueError
            If `indptr` descends, or doesn't end at the number of entries.

        See Also
        --------
        from_csc : Compressed columns.
        Matrix.to_csr : The other way.

        Notes
        -----
        In python-graphblas `Matrix.from_csr`.

        Examples
        --------
        >>> import spmat
        >>> s = spmat.Session()
        >>> s.from_csr([0, 2, 3], [0, 2, 2], [1, -2, 3]).to_triples()
        [(0, 0, 1), (0, 2, -2), (1, 2, 3)]
        """
        rows, nrows = arrays.expand(indptr, columns, nrows, 'row')
        return self.from_coo(rows, columns, values, nrows, ncols, scale=scale, dup_op=dup_op,
                             name=name)

    def from_csc(self, indptr: Many, rows: Many, values: Many = 1, nrows: Optional[int] = None,
                 ncols: Optional[int] = None, *, scale: Optional[float] = None,
                 dup_op: DupOp = None, name: Optional[str] = None) -> Made:
        """A matrix from compressed columns, as `from_csr` has it of rows.

        Parameters
        ----------
        indptr : sequence of int
            For each column, where its entries begin; then the number of entries.
        rows : sequence of int
            The rows of the entries.
        values : sequence or number, default 1
            Their values, or one for all.
        nrows, ncols : int, optional
            The sizes, as for `from_coo`.
        scale : number, optional
            Multiply values by this, and round them, as for `from_coo`.
        dup_op : operator, optional
            Combines the values of a repeated position, as for `from_coo`.
        name : str, optional
            A name for the matrix.

        Returns
        -------
        Matrix
            The matrix.

        Raises
        ------
        ValueError
            If `indptr` descends, or doesn't end at the number of entries.

        See Also
        --------
        from_csr : Compressed rows.
        Matrix.to_csc : The other way.

        Notes
        -----
        In python-graphblas `Matrix.from_csc`.

        Examples
        --------
        >>> import spmat
        >>> s = spmat.Session()
        >>> s.from_csc([0, 1, 1, 3], [0, 0, 1], [1, -2, 3]).to_triples()
        [(0, 0, 1), (0, 2, -2), (1, 2, 3)]
        """
        columns, ncols = arrays.expand(indptr, rows, ncols, 'column')
        return self.from_coo(rows, columns, values, nrows, ncols, scale=scale, dup_op=dup_op,
                             name=name)

    def from_dicts(self, nested: Mapping[int, Mapping[int, Exact]], nrows: Optional[int] = None,
                   ncols: Optional[int] = None, *, order: str = 'rowwise',
                   scale: Optional[float] = None, name: Optional[str] = None) -> Made:
        """A matrix from a dict for each row.

        Parameters
        ----------
        nested : dict
            {row: {column: value}}. Rows and columns are numbers from 0; `from_edgelist` takes
            names.
        nrows, ncols : int, optional
            The sizes, as for `from_coo`.
        order : str, default 'rowwise'
            "columnwise" takes {column: {row: value}}.
        scale : number, optional
            Multiply values by this, and round them, as for `from_coo`.
        name : str, optional
            A name for the matrix.

        Returns
        -------
        Matrix
            The matrix.

        See Also
        --------
        from_triples : From tuples.
        Matrix.to_dicts : The other way.

        Notes
        -----
        In python-graphblas `Matrix.from_dicts`.

        Examples
        --------
        >>> import spmat
        >>> s = spmat.Session()
        >>> s.from_dicts({0: {0: 1, 2: -2}, 1: {2: 3}}).to_triples()
        [(0, 0, 1), (0, 2, -2), (1, 2, 3)]
        """
        rows, columns, values = arrays.from_dicts(nested, order)
        return self.from_coo(rows, columns, values, nrows, ncols, scale=scale, name=name)

    def from_scipy_sparse(self, matrix: spmatrix, *, scale: Optional[float] = None,
                          name: Optional[str] = None) -> Made:
        """A matrix from one of scipy.sparse.

        Parameters
        ----------
        matrix : sparse matrix or array
            Of any format; entries of one position are added up, as scipy has it.
        scale : number, optional
            Multiply values by this, and round them, as for `from_coo`.
        name : str, optional
            A name for the matrix.

        Returns
        -------
        Matrix
            The matrix.

        Raises
        ------
        ValueError
            If a value isn't whole.

        See Also
        --------
        from_csr : Three arrays.
        Matrix.to_scipy_sparse : The other way.

        Notes
        -----
        In python-graphblas `io.from_scipy_sparse`.

        Examples
        --------
        >>> import scipy.sparse
        >>> import spmat
        >>> s = spmat.Session()
        >>> s.from_scipy_sparse(scipy.sparse.eye(2, dtype=int)).to_triples()
        [(0, 0, 1), (1, 1, 1)]
        """
        rows, columns, values, shape = arrays.from_scipy(matrix)
        return self.from_coo(rows, columns, values, *shape, scale=scale, name=name)

    def vector_from_coo(self, indices: Iterable[int], values: Many = 1, size: Optional[int] = None,
                        *, scale: Optional[float] = None, dup_op: DupOp = None,
                        name: Optional[str] = None, nodes: NodesLike = None) -> Any:
        """A vector, a column, from indexes and values.

        Parameters
        ----------
        indices : sequence of int
            The places of the entries, from 0.
        values : sequence or number
            Whole numbers of 64 bits, or one for all.
        size : int, optional
            How many entries there can be; without it the greatest index and 1, or as many as there
            are names.
        scale, dup_op, name
            As `from_coo` has them.
        nodes : list, optional
            The names of the vertices.

        Returns
        -------
        Vector
            A column.

        Raises
        ------
        ValueError
            As `from_coo` raises it.

        See Also
        --------
        from_coo : A matrix.
        Vector.to_coo : The other way.

        Notes
        -----
        As `from_coo` takes jobs. In python-graphblas `Vector.from_coo`.

        Examples
        --------
        >>> import spmat
        >>> s = spmat.Session()
        >>> s.vector_from_coo([0, 2], [5, 7], size=4).to_coo()
        (array([0, 2]), array([5, 7]))
        """
        at = arrays.plain_column(indices, 'row')
        made = self.from_coo(at, numpy.zeros(len(at), numpy.int64), values, size, 1, scale=scale,
                             dup_op=dup_op, name=name, nodes=nodes)
        from ..vector import as_vector             # which is a matrix
        return as_vector(made)

    def from_networkx(self, graph: NxGraph, weight: Optional[str] = 'weight',
                      nodelist: Optional[Sequence[Vertex]] = None, *, scale: Optional[float] = None,
                      dup_op: DupOp = None, name: Optional[str] = None) -> Made:
        """The adjacency matrix of a networkx graph.

        Parameters
        ----------
        graph : networkx graph
            The graph. Entry (i, j) is the edge from node i to node j; an undirected edge stands
            both ways.
        weight : str, optional
            The edges' attribute that has their values. An edge without it has 1, as in networkx,
            also with a scale, and `notes.source` counts these; with None each has 1.
        nodelist : sequence, optional
            The nodes, in order; all of the graph's unless given. They are the matrix' `nodes`.
        scale : number, optional
            Multiply values by this, and round them, as for `from_coo`.
        dup_op : operator, optional
            Combines the values of parallel edges.
        name : str, optional
            A name for the matrix.

        Returns
        -------
        Matrix
            A square matrix.

        Raises
        ------
        ValueError
            If a weight isn't whole, or edges are parallel and no `dup_op` folds them; it names
            the edge.

        See Also
        --------
        from_edgelist : Edges from a list.
        Matrix.to_networkx : The other way.

        Notes
        -----
        Cost: 1 job and 1 run if edges are parallel, else none. In python-graphblas
        `io.from_networkx`.

        Examples
        --------
        >>> import networkx
        >>> import spmat
        >>> s = spmat.Session()
        >>> s.from_networkx(networkx.path_graph(3)).to_edgelist()
        [(0, 1, 1), (1, 0, 1), (1, 2, 1), (2, 1, 1)]
        """
        triples, notes = triples_of_graph(graph, weight, nodelist, dup_op is not None, scale)
        unit = scales.of_read(scale, dup_op) if weight is not None else 1
        triples = self._folded(triples, dup_op)
        made = self._from(triples, name=name)
        made.notes = notes._replace(unit=unit)
        return made

    def from_edgelist(self, edges: Union[Iterable[Sequence[Any]], DataFrame], *,
                      directed: bool = True, nodelist: Optional[Sequence[Vertex]] = None,
                      values: bool = True, scale: Optional[float] = None,
                      bipartite: Optional[bool] = None, missing: Optional[str] = 'raise',
                      unit: Optional[str] = None, date_format: Optional[str] = None,
                      dup_op: DupOp = None, name: Optional[str] = None) -> Made:
        """The adjacency matrix of edges by name.

        Edges lead one way, or with `directed=False` both.

        Parameters
        ----------
        edges : iterable
            (from, to), (from, to, value), or (from, to, {'weight': value}); or a table of pandas.
            Among edges with values, one without counts as 1; `notes.source` says how many do.
        directed : bool, default True
            False makes each edge lead both ways.
        nodelist : sequence, optional
            The vertices in the order you want, with those that have no edge. Edges of other
            vertices are left out.
        values : bool, default True
            False reads no values.
        scale : number, optional
            Multiply values by this, and round them to the nearest, as for `from_coo`.
        bipartite : bool, optional
            True makes rows and columns two kinds of vertices, such as users and items, each with
            its own names. No method takes one kind for the other, also where their names are equal.
            It doesn't go with `nodelist`.
        missing : str, optional
            None and NaN are missing names and values. "raise", the default, refuses them. "skip"
            leaves their edges out, and counts them in `notes.source`. With None, None is a name as
            any other.
        unit : str, optional
            Says that values are times: dates of Python, numpy and pandas, or text. It is what is
            counted since 1970-01-01 (UTC): "D", "s", "ms", "us" or "ns".
        date_format : str, optional
            The format of times in text; by default ISO 8601.
        dup_op : operator, optional
            Combines the values of an edge that is given several times; "plus" counts an edge
            without values as often as it is given.
        name : str, optional
            A name for the matrix.

        Returns
        -------
        Matrix
            A square matrix, of two kinds of vertices a rectangular one. Its `nodes` are the names:
            whole numbers ascending, others as they first stand; just 0 to n - 1 need no names.

        Raises
        ------
        ValueError
            If an edge with values is given twice without a `dup_op`, a name or a value is missing,
            or a value isn't whole. Without values, an edge that is given twice counts once.
        TypeError
            If a name isn't hashable, such as a list.
        TooLarge
            If there are more than 16,777,216 vertices (M4).

        See Also
        --------
        from_pandas_edgelist : From a table.
        read_edgelist : From a file.
        from_triples : By position.

        Notes
        -----
        Cost: 1 job and 1 run if an edge is given twice, else none. GraphBLAS: `Matrix_build`. In
        networkx and python-graphblas `from_edgelist`.

        Examples
        --------
        >>> import spmat
        >>> s = spmat.Session()
        >>> G = s.from_edgelist([("Ann", "Bob", 5), ("Bob", "Cid", 7)])
        >>> G.nodes
        ['Ann', 'Bob', 'Cid']
        >>> G["Ann", "Bob"]
        5
        """
        layout = Layout(values=values, scale=scale, missing=missing, unit=unit,
                        date_format=date_format)
        how = How(directed, nodelist, bool(bipartite))
        return self._graph(graph_of(edges_of_list(edges, layout), how), layout, dup_op, name)

    def from_pandas_edgelist(self, frame: DataFrame, source: Vertex = 'source',
                             target: Vertex = 'target',
                             edge_attr: Optional[Vertex] = None, *,
                             scale: Optional[float] = None, directed: bool = True,
                             nodelist: Optional[Sequence[Vertex]] = None,
                             bipartite: Optional[bool] = None, missing: Optional[str] = 'raise',
                             unit: Optional[str] = None, date_format: Optional[str] = None,
                             dup_op: DupOp = None, name: Optional[str] = None) -> Made:
        """The adjacency matrix of a table of pandas.

        Parameters
        ----------
        frame : pandas.DataFrame
            The table, a row for each edge.
        source, target : column, default 'source' and 'target'
            The columns that have the names of the vertices.
        edge_attr : column or bool, optional
            The column that has the values. None: 1 each, with a warning where a column is called
            weight. False: 1 each. True: the one other column. A list of one column is taken too.
        scale : number, optional
            Multiply values by this, and round them.
        directed : bool, default True
            False makes each edge lead both ways.
        nodelist : sequence, optional
            The vertices in another order, as for `from_edgelist`.
        bipartite : bool, optional
            Whether rows and columns are two kinds of vertices, such as users and items.
        missing : str, optional
            "raise", the default, refuses missing names and values, "skip" leaves their rows out, as
            for `from_edgelist`.
        unit, date_format : str, optional
            Values are times, as `from_edgelist` has it.
        dup_op : operator, optional
            Combines the values of an edge that is given several times.
        name : str, optional
            A name for the matrix.

        Returns
        -------
        Matrix
            A square matrix, of two kinds of vertices a rectangular one, with names as
            `from_edgelist` has it.

        Raises
        ------
        KeyError
            If a column isn't there.
        ValueError
            If a name or a value is missing, or a value isn't whole. Also if an edge with values is
            given twice and no `dup_op` folds it. It names the row.

        See Also
        --------
        from_edgelist : From a list.
        Matrix.to_pandas_edgelist : The other way.

        Notes
        -----
        Cost: 1 job and 1 run if an edge is given twice, else none. GraphBLAS: `Matrix_build`. In
        networkx `from_pandas_edgelist`.

        Examples
        --------
        >>> import pandas
        >>> import spmat
        >>> frame = pandas.DataFrame([("Ann", "Bob", 5), ("Bob", "Cid", 7)],
        ...                          columns=["payer", "payee", "amount"])
        >>> s = spmat.Session()
        >>> G = s.from_pandas_edgelist(frame, "payer", "payee", "amount")
        >>> G.to_edgelist()
        [('Ann', 'Bob', 5), ('Bob', 'Cid', 7)]
        """
        layout = Layout(scale=scale, missing=missing, unit=unit, date_format=date_format)
        edges = edges_of_frame(frame, (source, target), edge_attr, layout)
        how = How(directed, nodelist, bool(bipartite))
        return self._graph(graph_of(edges, how), layout, dup_op, name)

    def from_igraph(self, graph: Any, weight: Optional[str] = 'weight', *,
                    scale: Optional[float] = None, dup_op: DupOp = None,
                    name: Optional[str] = None) -> Made:
        """The adjacency matrix of a graph of igraph.

        Parameters
        ----------
        graph : igraph.Graph
            The graph. Where its vertices have the attribute `name`, these are the matrix' `nodes`.
        weight : str, optional
            The edges' attribute that has their values. A graph without it has 1 at each edge.
        scale, dup_op, name
            As `from_edgelist` has them.

        Returns
        -------
        Matrix
            A square matrix.

        Raises
        ------
        TypeError
            If this is no graph of igraph.
        ValueError
            As `from_edgelist` raises it.

        See Also
        --------
        from_networkx : A graph of networkx.
        from_edgelist : Edges from a list.

        Notes
        -----
        As `from_edgelist` takes jobs. In networkx `from_igraph` of igraph's `to_networkx`.

        Examples
        --------
        >>> import igraph                                  # doctest: +SKIP
        >>> import spmat
        >>> s = spmat.Session()
        >>> s.from_igraph(igraph.Graph.Ring(4)).nvals       # doctest: +SKIP
        8
        """
        for wanted in ('get_edgelist', 'vcount', 'is_directed', 'vs', 'es'):
            if not hasattr(graph, wanted):
                raise TypeError('expected a graph of igraph, got %s' % type(graph).__name__)
        named = 'name' in graph.vs.attributes()
        names = list(graph.vs['name']) if named else list(range(graph.vcount()))
        ends = [(names[i], names[j]) for i, j in graph.get_edgelist()]
        weighted = weight is not None and weight in graph.es.attributes()
        edges: List[Any] = ([(*end, value) for end, value in zip(ends, graph.es[weight])]
                            if weighted else ends)
        return self.from_edgelist(edges, directed=bool(graph.is_directed()), nodelist=names,
                                  scale=scale if weighted else None, dup_op=dup_op, name=name)

    def read_edgelist(self, path: Source, *, sep: Optional[str] = None,
                      header: Optional[bool] = None, columns: Optional[Sequence[Column]] = None,
                      values: bool = True, scale: Optional[float] = None, directed: bool = True,
                      nodelist: Optional[Sequence[Vertex]] = None, bipartite: Optional[bool] = None,
                      comments: Comments = True, missing: Optional[str] = 'raise',
                      nodetype: Optional[type] = None, unit: Optional[str] = None,
                      date_format: Optional[str] = None, max_bytes: Optional[int] = None,
                      dup_op: DupOp = None, name: Optional[str] = None) -> Made:
        r"""Read a list of edges as an adjacency matrix.

        Each line is an edge: two names and perhaps a value. If the arguments leave two readings
        open, an error asks which is meant.

        Parameters
        ----------
        path : path or file
            A path, also of a packed file (gzip, bzip2, xz, zip, zstd), or a file opened in binary.
        sep : str, optional
            The separator of fields, " " for blanks. By default a comma in a `.csv`, a tab in a
            `.tsv`, and blanks elsewhere.
        header : bool, optional
            Whether the first line names columns. Without it a line does that has no number where a
            column below has numbers. So does one with source and target, from and to, src and dst,
            origin and destination, sender and receiver, or parent and child.
        columns : sequence of str or int, optional
            The columns of the two names, and of the value, by the header's words or from 0. Without
            them two columns are the names, and a third one has the values. In a header of more
            columns these words have the names, and weight or value the values.
        values : bool
            False reads no values.
        scale : number, optional
            Multiply values by this, and round them. By default they have to be whole.
        directed : bool
            False makes each edge lead both ways.
        nodelist : sequence, optional
            The vertices, in order. Edges of other vertices are left out.
        bipartite : bool, optional
            Whether rows and columns are two kinds of vertices, such as users and items.
        comments : bool, str or sequence of str
            True: lines above the first row that begin with # or %, unless they are written as the
            rows are. A text, or several, begins a comment in any line, but for quoted fields; with
            None nothing is a comment.
        missing : str, optional
            "raise" refuses missing names and values, "skip" leaves their lines out. Names are
            missing where pandas takes them to be (nan, NA, null, nothing), unless this is None.
        nodetype : type, optional
            With str names are text; int refuses others than whole numbers, and takes 2.0 for 2.
            Without it names are whole numbers where all are.
        unit, date_format : str, optional
            Values are times, as `from_edgelist` has it.
        max_bytes : int, optional
            The most bytes that the file may have, once it is unpacked. Without it a packed file of
            more than 256 MiB may have at most 100 times its packed length.
        dup_op : operator, optional
            Combines the values of an edge that is given several times.
        name : str, optional
            A name for the matrix.

        Returns
        -------
        Matrix
            A square matrix, of two kinds of vertices a rectangular one. `notes.source` says what
            was taken of the file, and counts what was left out.

        Raises
        ------
        HeaderUnclear
            If the first line may name the columns or be an edge; it has both calls.
        ReadError
            If the file isn't such a list, or leaves open what is meant: it names the file, the
            line, and the argument that tells. It is a ValueError.
        ImportError
            If pandas is missing (extra `files`).

        See Also
        --------
        read_graph : A file of any format.
        from_edgelist : Edges from a list.
        Matrix.write_edgelist : Writes one.

        Notes
        -----
        In networkx `read_edgelist`, in pandas `read_csv`.

        Examples
        --------
        >>> import spmat
        >>> with open("payments.csv", "w") as file:
        ...     count = file.write("payer,payee,amount\nAnn,Bob,5\nBob,Cid,7\n")
        ...
        >>> s = spmat.Session()
        >>> G = s.read_edgelist("payments.csv", columns=("payer", "payee", "amount"))
        >>> G.to_edgelist()
        [('Ann', 'Bob', 5), ('Bob', 'Cid', 7)]
        """
        layout = Layout(sep, header, columns, values, scale, bipartite, comments, missing,
                        nodetype, unit, date_format)
        return self._read(path, Request('edges', layout, directed, nodelist, max_bytes), dup_op,
                          name)

    def read_graph(self, path: Source, format: Optional[str] = None, *, values: bool = True,
                   scale: Optional[float] = None, directed: Optional[bool] = None,
                   bipartite: Optional[bool] = None, dup_op: DupOp = None,
                   name: Optional[str] = None, **layout: Any) -> Made:
        r"""Read a file of any format as an adjacency matrix.

        Parameters
        ----------
        path : path or file
            A path, also of a packed file, or a file opened in binary.
        format : str, optional
            'mtx' (Matrix Market, see `mmread`), 'edges', 'csv' or 'tsv' (see `read_edgelist`), or
            'dimacs' (.gr, .max, .col; vertices are named from 1). Also 'graphml', 'gexf' and 'gml'
            (by networkx), and 'parquet' (by pandas). Without it the content tells.
        values : bool, default True
            False reads no values, as for `read_edgelist`.
        scale : number, optional
            Values are multiplied by it and rounded, as for `read_edgelist`.
        directed : bool, optional
            Without it the file tells: a DIMACS graph of edges `e` is undirected, the edges of a
            list lead one way. False makes each edge lead both ways. With True an edge stands as it
            is written; of a symmetric Matrix Market file that is both ways.
        bipartite : bool, optional
            Whether rows and columns are two kinds of vertices, as for `read_edgelist`, also of a
            square Matrix Market file. DIMACS, GraphML, GEXF and GML have one kind.
        dup_op : operator, optional
            Combines the values of an edge that is given several times.
        name : str, optional
            A name for the matrix.
        **layout
            `sep`, `header`, `columns`, `comments`, `missing`, `nodetype`, `unit`,
            `date_format`, `nodelist` and `max_bytes` of `read_edgelist`, where they have a meaning
            for the format. A packed Matrix Market file has at most 268,435,456 bytes once it is
            unpacked, unless `max_bytes` says otherwise.

        Returns
        -------
        Matrix
            The matrix, with the names of its vertices.

        Raises
        ------
        ReadError
            If the file is of no such format, or damaged, or an argument has no meaning for its
            format. It names the file and line, or the argument. It is a ValueError.
        TextRefused
            If a Matrix Market file breaks a rule of these.

        See Also
        --------
        read_edgelist : A list of edges.
        mmread : A Matrix Market file.
        load : What save wrote.

        Notes
        -----
        Cost: 1 job and 1 run if an edge is given twice, else none.

        Examples
        --------
        >>> import spmat
        >>> with open("roads.txt", "w") as file:
        ...     count = file.write("1 2 30\n2 3 40\n")
        ...
        >>> s = spmat.Session()
        >>> s.read_graph("roads.txt").to_edgelist()
        [(1, 2, 30), (2, 3, 40)]
        """
        nodelist, max_bytes = layout.pop('nodelist', None), layout.pop('max_bytes', None)
        for word in layout.keys() - set(Layout._fields):
            raise TypeError('read_graph has no argument %r: help(s.read_graph) lists them' % word)
        known = Layout(values=values, scale=scale, bipartite=bipartite, **layout)
        return self._read(path, Request(format, known, directed, nodelist, max_bytes), dup_op, name)

    def adopt(self, matrix: Matrix, *, name: Optional[str] = None) -> Made:
        """A copy of a matrix of another session, with its names.

        Parameters
        ----------
        matrix : Matrix
            The matrix. Its session's budget may be spent: reading takes no step.
        name : str, optional
            A name for the copy.

        Returns
        -------
        Matrix
            A matrix of this session, with the same shape, entries and names.

        See Also
        --------
        Matrix.dup : A copy in the same session.
        save : Into a file.

        Notes
        -----
        No job: the entries come to the client and go to this session. GraphBLAS:
        `Matrix_extractTuples`, and `Matrix_build`.

        Examples
        --------
        >>> import spmat
        >>> first, second = spmat.Session(), spmat.Session()
        >>> second.adopt(first.full(1, 2, 7)).to_triples()
        [(0, 0, 7), (0, 1, 7)]
        """
        rows, columns, values = matrix.entries()
        made = self._from(Triples(rows, columns, values, *matrix.shape), name=name)
        made.notes = matrix.notes
        return made

    def save(self, path: Path, **matrices: Made) -> None:
        """Write matrices with the names of their vertices into one file.

        A file that is there is replaced once the new one is whole.

        Parameters
        ----------
        path : path
            The file to write.
        **matrices : Matrix
            The matrices by name, as in ``save(path, G=G, ranks=ranks)``. Without any, all that were
            made with a `name=` and are still held.

        Raises
        ------
        TypeError
            If a name of a vertex is no text, number or date, or tuple or frozenset of these;
            nothing is written then.
        ValueError
            If there is no matrix to save.

        See Also
        --------
        load : Reads the file.
        Matrix.mmwrite : A file for other programs.

        Notes
        -----
        The file is a zip archive of Matrix Market texts and a `matrices.json`. `load` reads it.

        Examples
        --------
        >>> import spmat
        >>> s = spmat.Session()
        >>> G = s.from_edgelist([("Ann", "Bob", 5), ("Bob", "Cid", 7)])
        >>> s.save("graphs.spmat", G=G)
        >>> spmat.Session().load("graphs.spmat")["G"].to_edgelist()
        [('Ann', 'Bob', 5), ('Bob', 'Cid', 7)]
        """
        for name, matrix in matrices.items():
            if not isinstance(matrix, Matrix):
                raise TypeError('%s is no matrix, but %s' % (name, type(matrix).__name__))
        matrices = matrices or self._named()
        if not matrices:
            raise ValueError('no matrix has a name: save(path, A=A, B=B) names them here, '
                             'name="A" where they are made')
        archive.write(path, matrices)

    def load(self, path: Path) -> Dict[str, Made]:
        """Read the matrices of a file that `save` wrote.

        What the file says is held against the sizes of its matrices before the first of them is
        made.

        Parameters
        ----------
        path : path
            The file to read.

        Returns
        -------
        dict
            The matrices by name, with the names of their vertices.

        Raises
        ------
        ReadError
            If `save` didn't write the file, or it is damaged.

        See Also
        --------
        save : Writes the file.
        read_graph : Files of other programs.

        Notes
        -----
        No job.

        Examples
        --------
        >>> import spmat
        >>> s = spmat.Session()
        >>> G = s.from_edgelist([("Ann", "Bob", 5), ("Bob", "Cid", 7)])
        >>> s.save("graphs.spmat", G=G)
        >>> sorted(spmat.Session().load("graphs.spmat"))
        ['G']
        """
        found = {}
        for called, text, known in archive.read(path):
            try:
                found[called] = self._market('%s of %s' % (called, name_of(path)), text,
                                             Request('mtx'), None, called)
            except (TextRefused, TooLarge) as fault:
                raise ReadError(name_of(path), None,
                                'the entries of %s: %s' % (called, fault)) from None
            found[called].notes = known
        return found

    def _named(self) -> Dict[str, Made]:
        """The matrices that callers named and hold."""
        return {}

    @abc.abstractmethod
    def _market(self, file: str, text: bytes, request: Request, dup_op: DupOp,
                name: Optional[str]) -> Made:
        """A matrix of a Matrix Market text."""

    def _read(self, path: Source, request: Request, dup_op: DupOp, name: Optional[str]) -> Made:
        file, text = name_of(path), files.load(path, request.max_bytes)
        if check_format(file, text, request.format) == 'mtx':
            check_layout(file, 'mtx', request)
            return self._as_asked(file, self._market(file, text, request, dup_op, name), request,
                                  dup_op, name)
        return self._graph(read(file, text, request, self._tell), request.layout, dup_op, name)

    def _as_asked(self, file: str, matrix: Made, request: Request, dup_op: DupOp,
                  name: Optional[str]) -> Made:
        """A matrix of a Matrix Market file, whose rows and columns are of one kind or of two, and
        whose entries lead one way or both, as the caller says."""
        check_direction(How(request.directed is not False, None, request.bipartite))
        if request.layout.bipartite is False and matrix.nrows != matrix.ncols:
            raise about(ReadError(file, None, 'bipartite=False is of a square matrix, and this one '
                                  'is %dx%d: leave it out' % matrix.shape), 'bipartite')
        if request.directed is False and matrix.directed is not False:
            return self._both_ways_of(file, matrix, dup_op, name)
        if request.bipartite or request.directed:
            notes = matrix.notes._replace(directed=True)
            matrix.notes = notes.with_two_kinds() if request.bipartite else notes
        return matrix

    def _both_ways_of(self, file: str, matrix: Made, dup_op: DupOp, name: Optional[str]) -> Made:
        """A matrix whose entries lead both ways, though its file is `general`. ReadError where an
        edge has two values and nothing folds them."""
        if matrix.nrows != matrix.ncols:
            raise about(ReadError(file, None, 'directed=False is of a square matrix, and this one '
                                  'is %dx%d' % matrix.shape), 'directed')
        lower = lowered(Triples(*matrix.entries(), *matrix.shape), 'symmetric')
        try:
            made = self._both_ways(self._folded(lower, dup_op), name)
        except ValueError as fault:
            raise about(ReadError(file, None,
                                  'an edge stands both ways (%s): dup_op= folds its two values'
                                  % fault), 'dup_op') from None
        made.notes = matrix.notes._replace(directed=False)
        return made

    def _tell(self, what: str, done: int, of: int) -> None:
        """Tells of long work, where somebody listens."""

    def _graph(self, graph: Graph, layout: Layout, dup_op: DupOp, name: Optional[str]) -> Made:
        """A matrix of edges, those that share a position folded where an operator is given."""
        unit = (scales.of_read(layout.scale, dup_op, layout.unit) if graph.notes.weighted
                else graph.notes.unit)
        if dup_op is not None:
            folded = self._folded(graph.triples, dup_op)
            graph = graph._replace(triples=folded, notes=graph.notes._replace(weighted=True))
        try:
            made = self._of_graph(graph, name)
        except Refused:
            # The server refuses a position that is given again. To look for one beforehand, in
            # every list, takes a sort of all edges: a quarter of the time of reading them.
            once = graph.count_once()
            if dup_op is not None or len(once.triples.rows) == len(graph.triples.rows):
                raise
            graph = once
            made = self._of_graph(graph, name)
        made.notes = graph.notes._replace(unit=unit)
        return made

    def _of_graph(self, graph: Graph, name: Optional[str]) -> Made:
        """A matrix of entries; of an undirected graph the other direction of each is added."""
        if graph.notes.directed is False:
            return self._both_ways(graph.triples, name)
        return self._from(graph.triples, name=name)

    def _folded(self, triples: Triples, dup_op: DupOp) -> Triples:
        """Each position once: values that share one are folded by the server, in a matrix with a
        row for each such position. ValueError where one would wrap at 64 bits."""
        if dup_op is None:
            return triples
        op = find('binary', dup_op)
        named = next((name for name in arrays.EXACT if READY['binary'][name] == op), '')

        def fold(many: Triples) -> Any:
            matrix: Any = self._from(many)         # which has methods that its base here lacks
            return matrix.reduce_rowwise(op).entries()[2]
        return arrays.unrepeated(triples, fold, named)


def _note_values(made: Made, rounding: Rounding, unit: int, axes: Axes) -> Made:
    """A matrix that the caller made by indexes, with what its rows and columns are called, what
    rounding did to its values, and what they are parts of."""
    made.notes = NOTHING.with_axes(*axes)
    if rounding.scale is not None:
        made.notes = made.notes._replace(source=str(rounding), unit=unit)
    return made
