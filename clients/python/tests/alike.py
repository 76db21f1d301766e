"""What one session has, in calls: each public method of Session and Matrix, and each algorithm.
`test_alike` makes each of them in one session and in blocks, and finds out by introspection whether
one is missing here."""
import inspect
import io
import os
import pathlib
import re
import tempfile

import numpy

import graphs
import spmat
import spmat_blocks as blocks
from algorithm_calls import labels_of
from spmat import algorithms
from spmat_blocks.sessions import OF_ONE_SESSION

THREE = 'ABK'                                      # square matrices of random values; K is a mask
MASKS = {'none': lambda M: None, 'S': lambda M: M.S, 'V': lambda M: M.V, '~S': lambda M: ~M.S,
         '~V': lambda M: ~M.V}
MINUS = spmat.asm('binary', 'mov64 r0, r1\nsub64 r0, r2\nexit\n', 'less')
GREATER = spmat.asm('unary', 'mov64 r0, r1\nadd64 r0, 1\nexit\n', 'greater')
WRONG = spmat.asm('unary', 'ldx64 r0, r1, 0\nexit\n', 'wrong')


def stored(kept):
    """What a file has that `mmwrite` writes."""
    into = io.BytesIO()
    kept.mmwrite(into)
    return into.getvalue()


def _parquet(matrix):
    """What a parquet file has that `to_parquet` writes."""
    import pandas
    with tempfile.TemporaryDirectory() as folder:
        matrix.to_parquet(os.path.join(folder, 'graph.parquet'))
        return pandas.read_parquet(os.path.join(folder, 'graph.parquet')).to_dict('list')


def _edgelist(matrix):
    """What `write_edgelist` writes."""
    into = io.StringIO()
    matrix.write_edgelist(into)
    return into.getvalue()


def _saved(session):
    """Matrices that are saved, and loaded again."""
    with tempfile.TemporaryDirectory() as folder:
        path = os.path.join(folder, 'graphs.zip')
        session.save(path, G=session.from_edgelist([('a', 'b', 2), ('b', 'c', 3)]),
                     few=session.from_coo([0, 4], [1, 0], 3, 9, 2))
        return session.load(path)


def _hundredths(matrix):
    """A copy whose stored numbers are hundredths."""
    made = matrix.dup()
    made.unit = 100
    return made


def _first(names):
    return names[0] if names else 0


# By the names of methods: what is called on a graph G, matrices A, B, a mask K, a column C and a
# row R.
METHODS = {
    'S': [lambda g, mask: g.A.apply('abs', mask=g.K.S)],
    'V': [lambda g, mask: g.A.apply('abs', mask=g.K.V)],
    'T': [lambda g, mask: [g.A.T, g.C.T, g.R.T, g.G.T, g.A.select('rowle', 3).T.T]],
    'apply': [lambda g, mask: g.G.apply('one', mask=mask),
              lambda g, mask: g.G.apply(GREATER, mask=mask),
              lambda g, mask: g.G.apply('minus', right=3, mask=mask),
              lambda g, mask: g.A.apply('minus', left=3, mask=mask),
              lambda g, mask: g.G.apply('rowindex', right=2, mask=mask),
              lambda g, mask: g.G.apply('plus'), lambda g, mask: g.A.apply(WRONG).nvals],
    'assign': [lambda g, mask: g.A.assign(7, [0, 2], [1, 3], mask=mask),
               lambda g, mask: g.A.assign(g.B[[1, 0], :], [1, 4], accum='plus', mask=mask),
               lambda g, mask: g.G.assign(g.R, 1),
               lambda g, mask: g.A.assign(g.B, mask=mask, replace=True),
               lambda g, mask: g.A.assign(g.B, [1])],
    'by_node': [lambda g, mask: [g.C.by_node(), g.R.by_node()], lambda g, mask: g.A.by_node()],
    'column_nodes': [lambda g, mask: g.G.column_nodes],
    'diag': [lambda g, mask: [g.G.diag(), g.C.diag(), g.R.diag(), g.A.diag(1), g.A.diag(-2),
                              g.C.diag(1), g.R.diag(-1)]],
    'dtype': [lambda g, mask: g.A.dtype],
    'directed': [lambda g, mask: [g.G.directed, g.A.directed, g.G.T.directed]],
    'dup': [lambda g, mask: g.G.dup(mask=mask), lambda g, mask: g.A.dup(mask=mask)],
    'ewise_add': [lambda g, mask: g.G.ewise_add(g.B, 'minus', mask=mask),
                  lambda g, mask: g.G.ewise_add(g.G, mask=mask),
                  lambda g, mask: g.A.ewise_add(g.C)],
    'ewise_mult': [lambda g, mask: g.G.ewise_mult(g.B, MINUS, mask=mask),
                   lambda g, mask: g.G.ewise_mult(g.K, mask=mask)],
    'ewise_union': [lambda g, mask: g.A.ewise_union(g.B, 'minus', 1, 2, mask=mask),
                    lambda g, mask: g.A.ewise_union(g.C, 'minus', 1, 2)],
    'get': [lambda g, mask: [g.A.get(1, 2), g.A.get(1, 2, 9), g.C.get(2, default=5), g.R.get(3)],
            lambda g, mask: g.A.get(1)],
    'in_one_place': [lambda g, mask: isinstance(g.G.in_one_place, bool)],
    'is_vector': [lambda g, mask: g.G.is_vector],
    'index': [lambda g, mask: g.G.index(_first(g.G.nodes)), lambda g, mask: g.G.index('nobody')],
    'is_named': [lambda g, mask: g.A.is_named],
    'isclose': [lambda g, mask: [g.A.isclose(g.A.dup()), g.A.isclose(g.B),
                                 g.A.isclose(g.A.apply('plus', right=1), 0, 1)]],
    'isequal': [lambda g, mask: [g.A.isequal(g.B), g.A.isequal(g.A.dup()), g.A.isequal(g.C)]],
    'kronecker': [lambda g, mask: g.C.kronecker(g.R, 'minus'), lambda g, mask: g.G.kronecker(g.C)],
    'mmwrite': [lambda g, mask: stored(g.G)],
    'mxm': [lambda g, mask: g.G.mxm(g.B, 'min_plus', mask=mask),
            lambda g, mask: g.G.mxm(g.G, 'plus_times', mask=mask),
            lambda g, mask: g.A.mxm(g.B, (MINUS, 'times'), mask=mask, parts=True),
            lambda g, mask: g.C.mxm(g.C), lambda g, mask: g.A.mxm(g.B, 'min_secondi1', mask=mask)],
    'mxv': [lambda g, mask: g.G.mxv(g.C, 'max_plus'), lambda g, mask: g.G.mxv(g.C, mask=~g.C.S),
            lambda g, mask: g.G.mxv(g.A)],
    'new': [lambda g, mask: g.A.apply('abs').new()],
    'nodes': [lambda g, mask: [g.G.nodes, g.A.nodes, g.G.reduce_rowwise().nodes]],
    'notes': [lambda g, mask: list(g.G.notes)],
    'nvals': [lambda g, mask: [g.G.nvals, g.G.apply('one').nvals]],
    'power': [lambda g, mask: [g.A.power(3), g.A.power(0), g.A.power(1, 'min_plus')],
              lambda g, mask: g.R.power(2)],
    'price': [lambda g, mask: [g.G.price, g.G.apply('one').price, g.G.mxm(g.G).price, g.A.T.price]],
    'steps': [lambda g, mask: [(lambda made: (made.wait(), made.steps)[1])(g.G.apply('one')),
                               g.A.T.steps]],
    'reduce_columnwise': [lambda g, mask: g.G.reduce_columnwise(MINUS),
                          lambda g, mask: g.G.reduce_columnwise('plus', mask=g.R.S),
                          lambda g, mask: [g.A.reduce_columnwise(name)
                                           for name in ('count', 'argmin', 'mean')]],
    'reduce_rowwise': [lambda g, mask: g.G.reduce_rowwise(MINUS),
                       lambda g, mask: g.G.reduce_rowwise('max', mask=~g.C.V),
                       lambda g, mask: [g.A.reduce_rowwise(name)
                                        for name in ('count', 'argmax', 'mean', 'last',
                                                     'peak_to_peak')]],
    'reduce_scalar': [lambda g, mask: [g.G.reduce_scalar(op)
                                       for op in ('plus', 'first', 'second', 'max')],
                      lambda g, mask: g.A.select('rowgt', 99).reduce_scalar()],
    'reshape': [lambda g, mask: [g.C.reshape(1, -1), g.R.reshape(3, -1, 'columnwise')],
                lambda g, mask: g.A.reshape(5, 2)],
    'resize': [lambda g, mask: [g.A.resize(3, 12), g.G.resize(12, 4)]],
    'row_nodes': [lambda g, mask: g.G.row_nodes],
    'select': [lambda g, mask: g.G.select('triu', 1, mask=mask),
               lambda g, mask: g.G.select('>', 2, mask=mask), lambda g, mask: g.G.select('abs')],
    'sets': [lambda g, mask: [list(map(sorted, one.sets())) for one in (g.C, g.R)],
             lambda g, mask: g.A.sets()],
    'shape': [lambda g, mask: [g.G.shape, g.C.shape, g.R.shape]],
    'split': [lambda g, mask: g.A.split(4, [2, g.A.ncols - 2]), lambda g, mask: g.A.split([1, 2])],
    'to_csc': [lambda g, mask: [list(map(int, many)) for many in g.G.to_csc()]],
    'to_csr': [lambda g, mask: [list(map(int, many)) for many in g.G.to_csr()]],
    'to_dicts': [lambda g, mask: [g.G.to_dicts(), g.A.to_dicts('columnwise')]],
    'to_csv': [lambda g, mask: [g.G.to_csv(), g.C.to_csv()]],
    'to_pandas': [lambda g, mask: [g.G.to_pandas().to_dict('list'), g.C.to_pandas().to_dict()]],
    'to_pandas_edgelist': [lambda g, mask: g.G.to_pandas_edgelist().to_dict('list')],
    'to_frame': [lambda g, mask: g.G.to_frame().fillna(0).to_dict()],
    'head': [lambda g, mask: g.G.head(3).to_dict('list'), lambda g, mask: g.C.head(2).to_dict()],
    'describe': [lambda g, mask: g.G.describe().fillna(0).to_dict()],
    'to_parquet': [lambda g, mask: _parquet(g.G)],
    'write_edgelist': [lambda g, mask: _edgelist(g.G)],
    'entries': [lambda g, mask: g.G.entries(arrays=False)],
    'to_coo': [lambda g, mask: g.G.to_coo(arrays=False),
               lambda g, mask: [list(map(int, many)) for many in g.G.to_coo()]],
    'to_dense': [lambda g, mask: g.G.to_dense(7).tolist()],
    'to_dict': [lambda g, mask: g.G.to_dict()],
    'to_edgelist': [lambda g, mask: g.G.to_edgelist()],
    'to_list': [lambda g, mask: [g.C.to_list(), g.R.to_list(-1)], lambda g, mask: g.A.to_list()],
    'to_networkx': [lambda g, mask: sorted(map(repr, g.G.to_networkx().edges(data=True)))],
    'to_scipy_sparse': [lambda g, mask: g.G.to_scipy_sparse().toarray().tolist()],
    'to_text': [lambda g, mask: g.G.to_text()],
    'to_triples': [lambda g, mask: g.G.to_triples()],
    'top': [lambda g, mask: [g.G.top(3), g.C.top(2)]],
    'rescale': [lambda g, mask: [_hundredths(g.G).rescale(1000), g.G.rescale(0.5, exact=False),
                                 _hundredths(g.A).rescale(7, exact=False)],
                lambda g, mask: g.G.rescale(0.01), lambda g, mask: g.G.rescale(1 << 63)],
    'unit': [lambda g, mask: [g.G.unit, _hundredths(g.G).mxm(_hundredths(g.B)).unit,
                              _hundredths(g.G).apply('one').unit],
             lambda g, mask: _hundredths(g.G).ewise_add(g.B),
             lambda g, mask: _hundredths(g.A).select('>=', 0.015)],
    'update': [lambda g, mask: g.G.update(g.B, None, mask),
               lambda g, mask: g.G.update(g.B, 'minus', mask),
               lambda g, mask: g.G.update(g.K, None, mask, True),
               lambda g, mask: g.G.update(g.G, 'plus', mask, True)],
    'vxm': [lambda g, mask: g.R.vxm(g.G, 'min_plus'), lambda g, mask: g.R.vxm(g.G, mask=g.R.V),
            lambda g, mask: g.A.vxm(g.G)],
    'wait': [lambda g, mask: g.A.apply('abs').wait()],
    'waits': [lambda g, mask: [g.G.nvals and g.G.waits]],
    'without': [lambda g, mask: g.G.without(g.K if mask is None else mask),
                lambda g, mask: g.G.without(g.G.select('triu', 1)),
                lambda g, mask: g.A.without(None)],
    '__getitem__': [lambda g, mask: [g.A[1, 2], g.A[1, :], g.A[:, 3], g.A[[2, 0], :],
                                     g.A[0:3, 1::2]], lambda g, mask: g.G[_first(g.G.nodes), :],
                    lambda g, mask: g.A['nobody', 0],
                    lambda g, mask: [g.A[g.K.V], g.A[g.C.S, :], g.A[:, ~g.R.V],
                                     g.A[[i % 2 == 0 for i in range(g.A.nrows)], -2:],
                                     g.A[[1, 1], ...]], lambda g, mask: g.A[[True], :],
                    lambda g, mask: g.A[-1, :], lambda g, mask: g.A[g.K]],
}
# under each kind of mask
MASKED = ('apply', 'assign', 'dup', 'ewise_add', 'ewise_mult', 'ewise_union', 'mxm', 'select',
          'update', 'without')


class Made:
    """The same graph and matrices, in one session or in blocks."""

    def __init__(self, session, graph, random_):
        self.session = session
        self.G = graph(session)
        n = self.G.nrows
        self.A, self.B, self.K, self.C, self.R = (
            session.from_triples(some(random_, nrows, ncols, many), nrows, ncols)
            for nrows, ncols, many in ((n, n, 3 * n), (n, n, 3 * n), (n, n, 2 * n), (n, 1, n),
                                       (1, n, n)))


def some(random_, nrows, ncols, many):
    """Random entries with values around 0."""
    found = ({(random_.randrange(nrows), random_.randrange(ncols)): random_.randrange(-2, 5)
              for _ in range(many)} if nrows and ncols else {})
    return [(*at, value) for at, value in found.items()]


# -- what sessions have

TEXT = b'%%MatrixMarket matrix coordinate integer general\n5 5 4\n1 2 3\n5 1 -1\n2 2 7\n4 5 2\n'
REPEATS = TEXT.replace(b'5 5 4', b'5 5 6') + b'2 2 5\n1 2 9\n'
SYMMETRIC = b'%%MatrixMarket matrix coordinate integer symmetric\n4 4 3\n2 1 3\n4 3 -1\n2 2 7\n'
SKEW = b'%%MatrixMarket matrix coordinate real skew-symmetric\n4 4 3\n2 1 3\n2 1 5\n4 3 1.5\n'
PATTERN = b'%%MatrixMarket matrix coordinate pattern general\n3 4 2\n1 4\n3 2\n'
DENSE = b'%%MatrixMarket matrix array integer general\n2 2\n1\n2\n3\n4\n'
SHORT = TEXT.replace(b'5 5 4', b'5 5 9')
OUTSIDE = TEXT.replace(b'4 5 2', b'6 5 2')
EDGES = b'source,target,weight\na,b,3\nb,c,1\na,b,4\nc,a,2\n'


def _file(text, read, name='graph.mtx'):
    """What reading a file gives."""
    with tempfile.TemporaryDirectory() as folder:
        path = os.path.join(folder, name)
        pathlib.Path(path).write_bytes(text)
        try:
            return read(path)
        except Exception as fault:                 # the folder has another name each time
            if isinstance(fault, (spmat.Refused, spmat.ReadError)):
                raise fault.with_traceback(None) from None
            raise type(fault)(*fault.args) from None


def _networkx():
    import networkx
    graph = networkx.Graph()
    graph.add_weighted_edges_from([('a', 'b', 3), ('b', 'c', 1), ('c', 'd', 2)])
    return graph


def _scipy():
    import scipy.sparse
    return scipy.sparse.csr_matrix(numpy.arange(12).reshape(3, 4) % 5)


def _pandas():
    import pandas
    return pandas.DataFrame({'source': [1, 1, 2], 'target': [2, 3, 3], 'w': [4, 5, 6]})


def _told(check):
    return str(check)


SESSIONS = {
    'backend': [lambda s: s.backend.takes_others],
    'adopt': [lambda s: s.adopt(s.from_edgelist([('a', 'b', 2), ('b', 'c', 3)]))],
    'budget': [lambda s: s.budget().reserved],
    'check': [lambda s: _told(s.check(MINUS)), lambda s: _told(s.check(WRONG))],
    'close': [lambda s: callable(s.close)],
    'dis': [lambda s: s.dis(MINUS)],
    'from_coo': [lambda s: s.from_coo([0, 4, 2], [1, 0, 2], [5, 6, 7]),
                 lambda s: s.from_coo([0, 4], [1, 0], 3, 9, 2, name='few'),
                 lambda s: s.from_coo([0, 4, 4, 0], [1, 1, 1, 1], [5, 6, 7, 9], square=True,
                                      dup_op='minus'),
                 lambda s: s.from_coo([0, 3, 3, 0], [1, 1, 1, 1], 1),
                 lambda s: s.from_coo([], [], [], 0, 4), lambda s: s.from_coo([9], [0], 1, 3, 3),
                 lambda s: s.from_coo([0], [0], [1.5])],
    'from_dense': [lambda s: s.from_dense([[1, 0, 2], [0, 3, 0]], 0)],
    'from_csc': [lambda s: s.from_csc([0, 1, 3], [2, 0, 1], [5, 6, 7]),
                 lambda s: s.from_csc([0, 2], [1])],
    'from_csr': [lambda s: s.from_csr([0, 1, 3], [2, 0, 1], [5, 6, 7], ncols=4),
                 lambda s: s.from_csr([0, 2, 1], [1, 1])],
    'from_dicts': [lambda s: s.from_dicts({0: {1: 5, 2: 6}, 3: {0: 7}}),
                   lambda s: s.from_dicts({0: {1: 5}}, 2, 2, order='columnwise')],
    'from_edgelist': [lambda s: s.from_edgelist([('a', 'b', 2), ('b', 'c', 3)]),
                      lambda s: s.from_edgelist([('a', 'b'), ('c', 'a')], directed=False),
                      lambda s: s.from_edgelist([('a', 'x', 1), ('b', 'x', 2)], bipartite=True),
                      lambda s: s.from_edgelist([('a', 'b', 1), ('a', 'b', 2)])],
    'from_networkx': [lambda s: s.from_networkx(_networkx()),
                      lambda s: s.from_networkx(_networkx(), weight=None)],
    'from_pandas_edgelist': [lambda s: s.from_pandas_edgelist(_pandas(), edge_attr='w')],
    'from_igraph': [lambda s: s.from_igraph(graphs.IGraph()),
                    lambda s: s.from_igraph(graphs.IGraph(), weight=None)],
    'vector_from_coo': [lambda s: s.vector_from_coo([0, 2], [5, 7], 4)],
    'from_scipy_sparse': [lambda s: s.from_scipy_sparse(_scipy())],
    'from_text': [lambda s: s.from_text(TEXT), lambda s: s.from_text(SYMMETRIC),
                  lambda s: s.from_text(PATTERN.decode()), lambda s: s.from_text(REPEATS),
                  lambda s: s.from_text(SHORT), lambda s: s.from_text(OUTSIDE),
                  lambda s: s.from_text(DENSE), lambda s: s.from_text(b'nothing')],
    'from_triples': [lambda s: s.from_triples([(0, 1, 5), (3, 0, 2)]),
                     lambda s: s.from_triples([(0, 1, 5), (0, 1, 2)])],
    'full': [lambda s: s.full(5, 2, -3), lambda s: s.full(0, 3)],
    'identity': [lambda s: s.identity(6, 4)],
    'load': [_saved],
    'save': [_saved],
    'mmread': [lambda s: _file(TEXT, s.mmread), lambda s: _file(SYMMETRIC, s.mmread),
               lambda s: _file(PATTERN, s.mmread), lambda s: _file(DENSE, s.mmread),
               lambda s: _file(REPEATS, lambda path: s.mmread(path, dup_op='minus')),
               lambda s: _file(REPEATS, s.mmread),
               lambda s: _file(SKEW, lambda path: s.mmread(path, scale=2, dup_op='times')),
               lambda s: _file(SKEW, lambda path: s.mmread(path, scale=2)),
               lambda s: s.mmread(io.BytesIO(TEXT)),
               lambda s: _file(TEXT, lambda path: s.mmread(path, values=False)),
               lambda s: _file(SHORT, s.mmread), lambda s: _file(OUTSIDE, s.mmread),
               lambda s: _file(EDGES, s.mmread)],
    'ones': [lambda s: s.ones(5)],
    'read_edgelist': [lambda s: _file(EDGES, lambda path: s.read_edgelist(path, dup_op='plus'),
                                      'graph.csv'),
                      lambda s: _file(EDGES, s.read_edgelist, 'graph.csv')],
    'read_graph': [lambda s: _file(EDGES,
                                   lambda path: s.read_graph(path, directed=False, dup_op='minus'),
                                   'graph.csv'), lambda s: _file(TEXT, s.read_graph),
                   lambda s: _file(REPEATS, lambda path: s.read_graph(path, dup_op='plus')),
                   lambda s: _file(REPEATS, s.read_graph)],
    'run': [lambda s: _run(s)],
    'types': [lambda s: s.types(MINUS)],
    'workers': [lambda s: s.workers],
}


def _run(session):
    """The jobs that a run tells."""
    A = session.from_triples([(0, 1, 5), (3, 0, 2)], 4, 4)
    session.run()
    held = [A.apply('abs'), A.ewise_add(A), A.mxm(A), A.reduce_rowwise(), A.select('diag')]
    told = session.run()
    return [(job.matrix is matrix, job.form, job.price, job.steps)
            for job, matrix in zip(told, held)], len(session.run())


# -- algorithms: by the kind of graph that they want

def _some(G):
    names = G.nodes
    return list(names[:3]) if names else list(range(min(3, G.nrows)))


ALGORITHMS = {
    'all_pairs': [lambda G: algorithms.all_pairs(G)],
    'betweenness': [lambda G: algorithms.betweenness(G),
                    lambda G: algorithms.betweenness(G, _some(G)),
                    lambda G: algorithms.betweenness(G, weighted=True),
                    lambda G: algorithms.betweenness(G.apply('one'), _some(G), weighted=True)],
    'bfs_levels': [lambda G: algorithms.bfs_levels(G, _some(G)[0]),
                   lambda G: algorithms.bfs_levels(G, _some(G), depth=2),
                   lambda G: algorithms.bfs_levels(G, _some(G)[0], G.T),
                   lambda G: algorithms.bfs_levels(G, _some(G)[0], G.select('tril', -1)),
                   lambda G: algorithms.bfs_levels(G, 'nobody')],
    'bfs_parents': [lambda G: algorithms.bfs_parents(G, _some(G)[0]),
                    lambda G: algorithms.bfs_parents(G, _some(G)[1], depth=1)],
    'bipartite_sides': [lambda G: algorithms.bipartite_sides(G)],
    'closeness': [lambda G: algorithms.closeness(G),
                  lambda G: algorithms.closeness(G, weighted=True)],
    'clustering': [lambda G: algorithms.clustering(G),
                   lambda G: algorithms.clustering(algorithms.undirected(G))],
    'common_neighbours': [lambda G: algorithms.common_neighbours(G)],
    'connected_components': [lambda G: algorithms.connected_components(G),
                             lambda G: algorithms.connected_components(G, G.select('diag'))],
    'core_numbers': [lambda G: algorithms.core_numbers(algorithms.undirected(G)),
                     lambda G: algorithms.core_numbers(G)],
    'degrees': [lambda G: algorithms.degrees(G)],
    'diameter': [lambda G: algorithms.diameter(G), lambda G: algorithms.diameter(G, searches=2)],
    'distance_counts': [lambda G: algorithms.distance_counts(G)],
    'eccentricity': [lambda G: algorithms.eccentricity(G)],
    'eigenvector': [lambda G: algorithms.eigenvector(algorithms.undirected(G))],
    'hits': [lambda G: algorithms.hits(algorithms.undirected(G))],
    'katz': [lambda G: algorithms.katz(G, .05)],
    'louvain': [lambda G: algorithms.louvain(algorithms.undirected(G))],
    'modularity': [lambda G: algorithms.modularity(algorithms.undirected(G), labels_of(G))],
    'jaccard': [lambda G: algorithms.jaccard(G)],
    'k_core': [lambda G: algorithms.k_core(algorithms.undirected(G), 2)],
    'k_hop': [lambda G: algorithms.k_hop(G, 2)],
    'k_truss': [lambda G: algorithms.k_truss(algorithms.undirected(G), 3)],
    'label_propagation': [lambda G: algorithms.label_propagation(algorithms.undirected(G), 4)],
    'longest_paths': [lambda G: algorithms.longest_paths(G),
                      lambda G: algorithms.longest_paths(G.select('triu', 1))],
    'maximal_independent_set': [lambda G: algorithms.maximal_independent_set(
        algorithms.undirected(G), 3)],
    'minimum_spanning_forest': [lambda G: algorithms.minimum_spanning_forest(G),
                                lambda G: algorithms.minimum_spanning_forest(
                                    algorithms.undirected(G))],
    'pagerank': [lambda G: algorithms.pagerank(G, damping=.6, tolerance=.001),
                 lambda G: algorithms.pagerank(G, None, .5, .01, weighted=True),
                 lambda G: algorithms.pagerank(G, None, .5, .01, personalization={_some(G)[0]: 1},
                                               dangling={_some(G)[1]: 2})],
    'path_lengths': [lambda G: algorithms.path_lengths(G, _some(G))],
    'shared_neighbours': [lambda G: algorithms.shared_neighbours(G, _some(G), _some(G)[::-1])],
    'has_path': [lambda G: algorithms.has_path(G, _some(G)[0], _some(G)[2])],
    'k_shortest_paths': [lambda G: algorithms.k_shortest_paths(G, _some(G)[0], _some(G)[2], 3)],
    'shortest_path': [lambda G: algorithms.shortest_path(G, _some(G)[0], _some(G)[2])],
    'shortest_paths': [lambda G: [getattr(algorithms.shortest_paths(G, _some(G)[0]), what)
                                  for what in ('lengths', 'predecessors')]],
    'squares': [lambda G: algorithms.squares(algorithms.undirected(G))],
    'sssp': [lambda G: algorithms.sssp(G, _some(G)[0]),
             lambda G: algorithms.sssp(G.apply('one'), _some(G)[1], cutoff=3)],
    'strongly_connected_components': [lambda G: algorithms.strongly_connected_components(G)],
    'topological_levels': [lambda G: algorithms.topological_levels(G),
                           lambda G: algorithms.topological_levels(G.select('triu', 1))],
    'transitive_closure': [lambda G: algorithms.transitive_closure(G)],
    'triangle_count': [lambda G: algorithms.triangle_count(G),
                       lambda G: algorithms.triangle_count(algorithms.undirected(G))],
    'triangles': [lambda G: algorithms.triangles(algorithms.undirected(G))],
    'undirected': [lambda G: algorithms.undirected(G)],
    # and what takes graphs, or goes round, outside of `algorithms`
    'bipartite': [lambda G: spmat.bipartite(G)],
    'fixpoint': [lambda G: spmat.fixpoint(G.apply('one'),
                                          lambda d: d.ewise_add(d.mxm(G, 'any_pair'), 'first'),
                                          most=99)],
}


# -- graphs

def _edges(random_, count, many, forward=False, loops=False):
    out = {}
    for _ in range(many):
        i, j = random_.randrange(count), random_.randrange(count)
        if forward and i > j:
            i, j = j, i
        if loops or i != j:
            out[i, j] = random_.randrange(1, 9)
    return out


def graphs_of(random_, count):
    """Graphs by what they are: each a function of a session."""
    names = ['v%d' % (7 * at % 101) for at in range(count)]
    kinds = {'directed': _edges(random_, count, 2 * count),
             'undirected': _edges(random_, count, 2 * count),
             'forward': _edges(random_, count, 2 * count, True),
             'with loops': _edges(random_, count, 2 * count, loops=True)}

    def made(kind):
        def make(session):
            edges = [(names[i], names[j], x) for (i, j), x in kinds[kind].items()]
            if kind == 'undirected':
                edges = [(a, b, x) for a, b, x in {(min(a, b), max(a, b)): (a, b, x)
                                                   for a, b, x in edges}.values()]
                return session.from_edgelist([(a, b) for a, b, _ in edges], directed=False,
                                             nodelist=names)
            if kind == 'with loops':
                return session.from_triples([(i, j, x) for (i, j), x in kinds[kind].items()], count,
                                            count)
            return session.from_edgelist(edges, nodelist=names)
        return make
    return {kind: made(kind) for kind in kinds}


# -- comparing

# of what algorithms return
KNOWN = ('error', 'rounds', 'modularity', 'levels')


def plain(found):
    """What was found as values that can be compared: of a matrix its text, all that is known
    beside, its price and its steps."""
    if hasattr(found, 'to_text') and hasattr(found, 'mxm'):
        found.wait()
        notes = found.notes
        return ('matrix', found.to_text(), notes.rows, notes.columns, notes.directed,
                notes.weighted, notes.unit, [getattr(found, what, None) for what in KNOWN])
    if isinstance(found, (list, tuple)):
        return [plain(one) for one in found]
    if (type(found).__module__.startswith('spmat.algorithms') and hasattr(found, '__dict__')
        and not isinstance(found, Exception)):
        return type(found).__name__, repr(found), {name: plain(value)
                                                   for name, value in vars(found).items()
                                                   if hasattr(value, 'to_text')
                                                   or isinstance(value, (int, float, str))}
    if isinstance(found, dict):
        return {repr(key): plain(value) for key, value in found.items()}
    return found


def outcome(call):
    """What a call gives, or how it is refused, without what blocks add to the words."""
    try:
        return plain(call())
    except Exception as fault:
        words = re.sub(
            r'(; )?block \d+ of \d+, (rows \d+ to \d+|no rows)|; all sessions have spent '
            r'\d+|/\S*/|(?<=matrix )_\d+', '', str(fault))
        rule = getattr(fault, 'rule', None)
        return (('refused', type(fault).__name__, rule) if rule in ('M8',)
                else ('refused', type(fault).__name__, rule, re.sub(r' \(\)', '', words)))


def public(kind):
    """The public names of a class that a caller uses, those that it sets among them."""
    return {name for name in dir(kind)
            if not name.startswith('_')} | ({'__getitem__'} if hasattr(kind, '__getitem__')
                                            else set())


def missing():
    """Names of Session, Matrix and `algorithms` that neither stand here, nor among what blocks say
    that they don't have."""
    functions = {name for name in algorithms.__all__
                 if inspect.isfunction(getattr(algorithms, name))}
    return (sorted(public(spmat.Session) - set(SESSIONS) - set(OF_ONE_SESSION)),
            sorted(public(spmat.Matrix) - set(METHODS)), sorted(functions - set(ALGORITHMS)))


def arguments():
    """Arguments of methods in one session that the same methods of blocks don't have."""
    out = []
    for one, many in ((spmat.Session, blocks.Sessions), (spmat.Matrix, blocks.BlockMatrix)):
        for name in sorted(public(one) & public(many)) + ['__init__'] * (one is spmat.Session):
            if callable(getattr(one, name)) and callable(getattr(many, name)):
                lacks = set(inspect.signature(getattr(one, name)).parameters) - set(
                    inspect.signature(getattr(many, name)).parameters)
                out += ['%s.%s(%s)' % (one.__name__, name, each) for each in sorted(lacks)]
    return out
