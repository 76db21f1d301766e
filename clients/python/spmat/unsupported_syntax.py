"""What Python, numpy and other libraries do with matrices and spmat doesn't, or calls otherwise:
signs, functions and attributes. Each raises an error that says what to write in its place."""
from __future__ import annotations

# the signs raise, so none gives what Python wants of it
# pylint: disable=invalid-length-returned,non-iterator-returned,abstract-method

import importlib
from typing import TYPE_CHECKING, Any, Callable, Dict, Mapping, NoReturn

from .operators import other_names

def _by_name(sentences: Dict[str, str]) -> Dict[str, str]:
    """What to write for each name; a sentence may repeat it, as {}."""
    return {name: words.replace('{}', name) for words, names in sentences.items()
            for name in names.split()}


# of numpy, scipy, pandas and networkx: what to write, and for which names
MATRIX = _by_name({
    'A.T': 'transpose',
    'A.ewise_add(B)': 'add',
    'A.ewise_mult(B)': 'multiply',
    'A.mxm(B) for a matrix, A.mxv(v) for a column': 'dot matmul',
    'A.mxm(B) to join edges, or A.to_pandas_edgelist().merge(..)': 'merge',
    'A.reduce_scalar("{}"), or A.reduce_rowwise("{}") for each row': 'max mean min',
    'A.reduce_scalar(), or A.reduce_rowwise() for each row': 'sum',
    'A.reduce_rowwise("{}")': 'argmax argmin',
    'A.reduce_rowwise("plus") for each row, or A.to_pandas_edgelist().groupby("source")': 'groupby',
    'A.nvals, or A.reduce_rowwise("count") for each row': 'count',
    'A.nvals, in which an undirected edge counts twice': 'nnz number_of_edges',
    'A.nvals / (A.nrows * A.ncols)': 'density',
    'A.nrows, A.ncols or A.nvals; spmat.Vector(A).size of a column or a row': 'size',
    'A.nrows': 'number_of_nodes',
    'A.nodes': 'vertices',
    'A.nodes = names, in the order of A.nodes': 'rename',
    'A.column_nodes': 'columns',
    'A.apply(f)': 'map',
    'A.select(">", 3)': 'filter',
    'A.select(f) with a function f, or names in A.nodes': 'isin',
    'A.assign(3, [i], [j]), as nothing changes a matrix': 'setElement',
    'A.without(B), as nothing changes a matrix': 'removeElement',
    's.from_coo(rows, columns, values), as nothing changes a matrix': 'build',
    's.from_triples([], nrows, ncols), as nothing changes a matrix': 'clear',
    'A.dup()': 'copy',
    'A.diag()': 'diagonal',
    'A["a", "b"], A["a", :], A[:, names] by names; A.to_frame().loc[..]': 'loc',
    'A.to_frame().iloc[..], or A[rows, columns]': 'iloc',
    'A[names, names] with the names that are kept, or A.select("!=", 3)':
    'drop remove_node remove_nodes_from',
    'A[nodes, nodes]': 'subgraph',
    'A[node, :].by_node()': 'neighbors successors',
    'A[:, node].by_node()': 'predecessors',
    'A.get(u, v) is not None': 'has_edge',
    'A.to_edgelist()': 'edges',
    'for row, column, value in A.to_edgelist()': 'iterrows itertuples',
    'A: what is missing has no entry': 'dropna',
    'A.to_frame(fill=0), or A.to_list(0) of a column': 'fillna',
    'A.top(3)': 'nlargest',
    'A.apply("ainv").top(3)': 'nsmallest',
    'A.top(A.nvals)': 'sort_values',
    'A.to_pandas().tail()': 'tail',
    'A.describe()["std"]': 'std',
    'A.to_pandas_edgelist()["weight"].value_counts()': 'value_counts',
    'A.to_dense()': 'to_numpy toarray todense',
    'A.to_dense(), or A.entries()': 'values',
    'A.to_dense(float) for an array of other numbers': 'astype',
    'A.to_coo(), A.to_csr(), or A.to_scipy_sparse()': 'tocoo tocsr',
    'A.to_list() of a column or a row, A.to_triples() of any matrix': 'tolist',
    'spmat.draw.spy(A), or spmat.draw.graph(A)': 'plot',
    'spmat.algorithms.degrees(A)': 'degree',
    'spmat.algorithms.undirected(A)': 'to_undirected'})
SESSION = _by_name({
    's.identity(n)': 'eye',
    's.from_dense(array)': 'from_array from_numpy',
    's.from_dense(values), which is a column': 'from_list vector',
    's.from_pandas_edgelist(frame, source, target)': 'from_pandas',
    's.from_scipy_sparse(M)': 'from_scipy',
    's.read_graph(path)': 'from_csv open read_csv',
    's.from_triples([], nrows, ncols)': 'zeros'})
# of python-graphblas' package
PACKAGE = _by_name({
    's.from_edgelist(edges) of a session s: a graph is a matrix': 'Graph',
    'numbers of Python, which are scalars here': 'Scalar',
    'spmat_blocks.Sessions(count)': 'Sessions',
    'aggregators as names, as in A.reduce_rowwise("count")': 'agg',
    'spmat.Session.connect(host, port)': 'connect',
    'nothing: all values are whole numbers of 64 bits': 'dtypes',
    'binary operators for folds, as in A.reduce_rowwise("plus")': 'monoid',
    'operators as names, as in A.ewise_add(B, "plus")': 'op',
    'C.update(B, mask=M.S, replace=True)': 'replace',
    'spmat.concat(tiles), A.split(sizes) and A.reshape(nrows, ncols)': 'ss'})
# of networkx
ALGORITHMS = _by_name({
    'algorithms.clustering(G).reduce_scalar("mean")': 'average_clustering',
    'algorithms.clustering(G), which is local': 'transitivity',
    'algorithms.all_pairs(G), and the mean of its lengths': 'average_shortest_path_length',
    'algorithms.all_pairs(W)': 'floyd_warshall',
    'algorithms.sssp(W, source) for lengths, algorithms.shortest_path(W, source, target) for a '
    'path': 'bellman_ford dijkstra',
    'algorithms.sssp(W, source) by values, algorithms.bfs_levels(G, source) by edges':
    'shortest_path_length',
    'algorithms.betweenness(G)': 'betweenness_centrality',
    'algorithms.closeness(G)': 'closeness_centrality',
    'algorithms.eigenvector(G)': 'eigenvector_centrality',
    'algorithms.degrees(G)': 'degree degree_centrality',
    'algorithms.core_numbers(G)': 'core_number',
    'algorithms.k_hop(G, radius, [n])': 'ego_graph',
    'algorithms.louvain(G)': 'louvain_communities',
    'algorithms.minimum_spanning_forest(W)': 'minimum_spanning_tree',
    'algorithms.topological_levels(G)': 'topological_sort',
    'algorithms.connected_components(G)': 'weakly_connected_components',
    'G.nvals / (G.nrows * (G.nrows - 1))': 'density'})
REFUSED = 'a %s has no %s: write %s'
RAISES = """Raises
------
TypeError
    Write %s."""


def missing_attribute(owner: str, name: str, names: Mapping[str, str]) -> AttributeError:
    """Make the error for an attribute that isn't there.

    Parameters
    ----------
    owner : str
        What lacks it, as the subject of the sentence: ``"'Matrix' object"``.
    name : str
        The attribute.
    names : mapping of str to str
        What to write in place of names of other libraries.

    Returns
    -------
    AttributeError
        The error. It says what to write where `names` knows it, and of a name of an algorithm or
        of a session's method where that is.
    """
    words = names.get(name) or ('' if name.startswith('_') else _find_elsewhere(name))
    return AttributeError('%s has no attribute %r%s' % (owner, name, words and ': write ' + words))


def _find_elsewhere(name: str) -> str:
    """What to write for an algorithm or a session's method that is looked up somewhere else."""
    def load(module: str) -> Any:
        return importlib.import_module(module, __package__)
    if name in load('.algorithms').ALGORITHMS:
        return 'spmat.algorithms.%s(G)' % name
    if hasattr(load('.session').Session, name):
        return 's.%s(..) of a session: with spmat.Session() as s' % name
    return ''


def refusing(sign: str, instead: str, owner: str = 'matrix') -> Callable[..., Any]:
    """Make a method that raises TypeError, with what to write in place of a sign, as its docstring
    says, too.

    Parameters
    ----------
    sign : str
        What Python calls the method for.
    instead : str
        What to write.
    owner : str, default 'matrix'
        What has no such sign.

    Returns
    -------
    callable
        The method.
    """
    def method(*_: object, **__: object) -> NoReturn:
        raise TypeError(REFUSED % (owner, sign, instead))
    method.__doc__ = 'A %s has no %s.\n\n%s' % (owner, sign, RAISES % instead)
    return method


_is_equal = refusing('==', 'A.isequal(B) for all of both, A.select("valueeq", 3) for some entries, '
                     'A.ewise_mult(B, "eq") entry by entry, or A is B')
_is_unequal = refusing('!=', 'not A.isequal(B), A.select("valuene", 3), A.ewise_mult(B, "ne"), or '
                       'A is not B')


class Signs:
    """Signs that Python knows and the protocol doesn't: each says what to write."""

    # -- between matrices, or a matrix and a number

    def __eq__(self, other: object) -> Any:
        """Whether this is the same matrix object.

        Parameters
        ----------
        other : object
            The matrix itself.

        Returns
        -------
        bool
            True.

        Raises
        ------
        TypeError
            Beside anything else: `isequal` compares entries.
        """
        return other is self or _is_equal(self)    # weak references ask whether it is itself

    def __ne__(self, other: object) -> Any:
        """Whether this is another matrix object, as `==` has it.

        Parameters
        ----------
        other : object
            The matrix itself.

        Returns
        -------
        bool
            False.
        """
        return other is not self and _is_unequal(self)

    # a matrix is itself in sets, dicts and weak references
    __hash__ = object.__hash__

    __matmul__ = __rmatmul__ = refusing('@', 'A.mxm(B), or A.mxm(B, "min_plus") over another '
                                        'semiring')
    __add__ = __radd__ = refusing('+', 'A.ewise_add(B), or A.apply("plus", right=3) for a number')
    __sub__ = __rsub__ = refusing(
        '-', 'A.ewise_union(B, "minus", 0, 0), or A.apply("minus", right=3) for a number')
    __mul__ = __rmul__ = refusing(
        '*', 'A.ewise_mult(B), A.mxm(B) for the product, or A.apply("times", right=3)')
    __floordiv__ = __rfloordiv__ = refusing(
        '//', 'A.ewise_mult(B, "floordiv"), or A.apply("floordiv", right=3)')
    __truediv__ = __rtruediv__ = refusing(
        '/', 'A.ewise_mult(B, "cdiv"), or A.apply("cdiv", right=3): values are whole numbers')
    __mod__ = __rmod__ = refusing(
        '%', 'A.apply(lambda x: x % 3), or "cmod", which has the sign of x')
    __pow__ = __rpow__ = refusing('**', 'A.power(2), or A.apply(lambda x: x ** 2) of each value')
    __divmod__ = __rdivmod__ = refusing(
        'divmod()', 'A.apply("floordiv", right=3) and A.apply(lambda x: x % 3)')
    __and__ = __rand__ = refusing('&', 'A.ewise_mult(B, "land"), or A.S & B.S for masks')
    __or__ = __ror__ = refusing('|', 'A.ewise_add(B, "lor"), or A.S | B.S for masks')
    __xor__ = __rxor__ = refusing('^', 'A.ewise_add(B, "lxor"), or A.S ^ B.S for masks')
    __lshift__ = __rlshift__ = refusing(
        '<<', 'C = A.mxm(B), C.update(B, accum="plus", mask=M.S), or A.apply("lsh", right=3)')
    __rshift__ = __rrshift__ = refusing('>>', 'A.apply("arsh", right=3)')
    __lt__ = refusing('<', 'A.select("<", 3), or A.ewise_mult(B, "lt")')
    __le__ = refusing('<=', 'A.select("<=", 3), or A.ewise_mult(B, "le")')
    __gt__ = refusing('>', 'A.select(">", 3), or A.ewise_mult(B, "gt")')
    __ge__ = refusing('>=', 'A.select(">=", 3), or A.ewise_mult(B, "ge")')

    # -- of one matrix

    __neg__ = refusing('sign -', 'A.apply("ainv")')
    __pos__ = refusing('sign +', 'A, or A.dup() for a copy')
    __invert__ = refusing('~', '~A.S for a mask, A.apply("bnot"), or A.apply("lnot") for truth')
    __abs__ = refusing('abs()', 'A.apply("abs")')
    __round__ = refusing('round()', 'A: values are whole numbers')
    __len__ = refusing('len()', 'A.nrows, A.ncols, or A.nvals for the number of entries')
    __bool__ = refusing('truth value', 'A.nvals > 0 for whether it has entries, A is not None, or '
                        'A.isequal(B)')
    __iter__ = refusing('iteration', 'for row, column, value in A.to_triples()')
    __contains__ = refusing('in', 'A.get(i, j) is not None for an entry, name in A.nodes for a '
                            'name, or A.select("==", 3).nvals for a value')
    __setitem__ = refusing('assignment, since nothing changes one',
                           'A = A.assign(B, rows, columns), or B = A.update(C, mask=C.S)')
    __delitem__ = refusing('del, since nothing changes one', 'A.without(B) or A.select("!=", 3)')

    # -- other libraries

    if not TYPE_CHECKING:                          # which knows all attributes that there are
        def __getattr__(self, name: str) -> Any:
            raise missing_attribute('%r object' % type(self).__name__, name, MATRIX)

    __array__ = refusing('array of its own', 'A.to_dense(), A.to_coo() or A.to_scipy_sparse()')

    def __array_ufunc__(self, ufunc: Any, *_: object, **__: object) -> NoReturn:
        """A matrix is no operand of a function of numpy.

        Parameters
        ----------
        ufunc : numpy.ufunc
            The function.

        Raises
        ------
        TypeError
            With the method that does the same.
        """
        name = other_names.UFUNCS['unary' if ufunc.nin == 1 else 'binary'].get(ufunc.__name__)
        if name is None:
            instead = 'A.apply(f) or A.ewise_mult(B, f) with a function f of your own; %s' % (
                other_names.INSTEAD.get(ufunc.__name__) or 'A.to_dense() gives an array')
        elif ufunc.nin == 1:
            instead = 'A.apply("%s")' % name
        else:
            instead = ('A.ewise_mult(B, "{0}"), A.ewise_add(B, "{0}"), or A.apply("{0}", right=3) '
                       'for a number'.format(name))
        raise TypeError(REFUSED % ('matrix', 'np.%s()' % ufunc.__name__, instead))
