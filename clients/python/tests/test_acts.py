"""What people do first, and what they expect: acts of an analyst, of a networkx user and of a
python-graphblas user. A row is what is done, how, and what is due: a value, or the words of an
error. Nothing that comes out otherwise than expected may come out without a word."""
import contextlib
import decimal
import functools
import io
import math
import operator
import os
import tempfile
import warnings

import numpy
import pytest

import support
import spmat
import spmat_blocks
from spmat import algorithms
from spmat.cli import main

pytestmark = pytest.mark.slow

PAY = 'from,to,amount\nann,bob,10\nbob,cid,20\nann,cid,5\n'
EDGES = [('a', 'b', 2), ('b', 'c', 3), ('a', 'c', 10), ('c', 'd', 1)]
TWO = [('a', 'b', 1), ('b', 'c', 2)]


class Says(str):
    """An error is due, and says this."""


def edges(A):
    """The edges of a matrix in an order that no reader chooses."""
    return sorted(A.to_edgelist(), key=repr)


def read(s, text, **how):
    """The edges of a text."""
    data = text if isinstance(text, bytes) else text.encode()
    return edges(s.read_graph(io.BytesIO(data), **{'sep': ',', **how}))


def written(values, scale=None, **more):
    """A matrix of one edge that ends in a value, by the session that is handed over."""
    return lambda s: s.from_edgelist([('a', 'b', values)], scale=scale, **more)


def on(value, act, scale=None):
    """What an act makes of a matrix with one value."""
    return lambda s: edges(act(written(value, scale)(s)))


def months(s):
    return s.from_edgelist(TWO), s.from_edgelist([('b', 'a', 5), ('a', 'd', 7)])


def aligned(act):
    return lambda s: act(*spmat.align(*months(s)))


def directed(s):
    return s.from_edgelist(EDGES)


def undirected(s):
    return s.from_edgelist(EDGES, directed=False)


def frame(**columns):
    import pandas
    return pandas.DataFrame(columns)


def series(values, index):
    import pandas
    return pandas.Series(values, index=index)


def of_frame(**how):
    """The edges of a table with columns a, b and perhaps w."""
    given = {name: how.pop(name) for name in ('a', 'b', 'w') if name in how}
    return lambda s: edges(s.from_pandas_edgelist(frame(**given), 'a', 'b',
                                                  'w' if 'w' in given else None, **how))


def mine(s):
    """A matrix of three rows with a stored 0 and a value below 0."""
    return s.from_coo([0, 0, 1, 2], [1, 2, 2, 0], [5, 7, 0, -3], 3, 3)


def mask(s):
    return s.from_coo([0, 1], [1, 2], [1, 0], 3, 3)


def entries(act):
    return lambda s: act(mine(s), mask(s)).to_dict()


def there_and_back(s, name, **matrices):
    path = os.path.join(tempfile.mkdtemp(), name)
    s.save(path, **matrices)
    return {name: edges(A) for name, A in s.load(path).items()}


def after_rounds(step, start, rounds):
    """What a loop has after so many rounds."""
    loop = spmat.loop(step, {'x': start})
    loop.advance(rounds)
    return loop.state.x.to_list()


def in_blocks(act):
    def call(_):
        with spmat_blocks.Sessions(spmat_blocks.Threads(2)) as s:
            return act(s)
    return call


def budget(steps, act):
    def call(_):
        with spmat.Session(steps=steps) as s:
            return act(s)
    return call


def shell(*words, text=PAY):
    """The status and the lines of a command on a file."""
    def call(_):
        with tempfile.NamedTemporaryFile('w', suffix='.csv') as file, contextlib.redirect_stdout(
                io.StringIO()) as out, contextlib.redirect_stderr(io.StringIO()):
            file.write(text)
            file.flush()
            try:
                status = main([file.name if word == '-' else word for word in words])
            except SystemExit as ended:
                status = ended.code or 0
        return int(status), out.getvalue().splitlines()
    return call


FRAMES = [
    ('float amounts', of_frame(a=['x'], b=['y'], w=[1.25]), Says('scale=')),
    ('float amounts in cents', of_frame(a=['x'], b=['y'], w=[1.25], scale=100), [('x', 'y', 1.25)]),
    ('a sum of floats', of_frame(a=['x'], b=['y'], w=[.1 + .2], scale=100), [('x', 'y', .3)]),
    ('decimals', of_frame(a=['x'], b=['y'], w=[decimal.Decimal('1.25')], scale=100),
     [('x', 'y', 1.25)]),
    ('amounts as text', of_frame(a=['x'], b=['y'], w=['12']), Says("whole number, not '12'")),
    ('truth as a value', of_frame(a=['x', 'y'], b=['y', 'z'], w=[True, False]),
     [('x', 'y', 1), ('y', 'z', 0)]),
    ('a row twice', of_frame(a=['x', 'x'], b=['y', 'y'], w=[1, 2]), Says('dup_op=')),
    ('a row twice, counted', of_frame(a=['x', 'x'], b=['y', 'y'], dup_op='plus'), [('x', 'y', 2)]),
    ('an id is missing', of_frame(a=[1, 2], b=[2, math.nan]), Says('missing="skip"')),
    ('ids of floats and of ints', lambda s: algorithms.connected_components(s.from_pandas_edgelist(
        frame(a=[1, 2], b=[2., 3.]), 'a', 'b', directed=False)).sets(), [{1, 2, 3}]),
    ('ids beyond int64', of_frame(a=numpy.array([2 ** 63 + 1], 'uint64'), b=[5]),
     [(2 ** 63 + 1, 5, 1)]),
    ('a table with gaps', lambda s: s.from_dense(frame(p=[1, math.nan], q=[2, 3])),
     Says('missing')),
    ('filter by labels', lambda s: edges(s.from_edgelist(TWO)[
        series([False, False, True], ['c', 'b', 'a']), :]), [('a', 'b', 1)]),
    ('filter by other labels', lambda s: s.from_edgelist(TWO)[series([True] * 3, [7, 8, 9]), :],
     Says('do not name the rows')),
    ('a list of names from a frame', lambda s: edges(s.from_edgelist(TWO)[
        frame(n=['b'])['n'], :]), [('b', 'c', 2)]),
    ('a set as an index', lambda s: s.from_edgelist(TWO)[{'b'}, :], Says('write list(..)')),
    ('one index', lambda s: s.from_edgelist(TWO)['a'], Says('an index is two')),
    ('from the end', lambda s: s.from_edgelist(TWO)[-1, :], Says('count from the end in slices')),
    ('names below 0', lambda s: edges(s.from_edgelist([(-1, 5, 3), (5, -2, 4)])[[-1], :]),
     [(-1, 5, 3)]),
    ('names 1 and "1"', lambda s: s.from_edgelist([(1, '1', 5)]).nodes, [1, '1']),
    ('if A', lambda s: bool(s.from_edgelist(TWO).select('>', 5)),
     Says('truth value: write A.nvals')),
    ('"a" in A', lambda s: 'a' in s.from_edgelist(TWO), Says('name in A.nodes')),
    ('dict of a column', lambda s: dict(algorithms.degrees(directed(s))), Says('iteration')),
    ('a name that is not there', lambda s: algorithms.degrees(directed(s))['zoe'], Says("'zoe'")),
    ('sum of matrices', lambda s: sum(months(s)), Says('ewise_add')),
    ('a column minus a vector, in numpy',
     lambda s: directed(s).reduce_rowwise().to_dense() - algorithms.degrees(directed(s)).to_dense(),
     Says('ravel()')),
    ('out minus in, in numpy',
     lambda s: directed(s).reduce_rowwise().to_dense() - directed(s).reduce_columnwise().to_dense(),
     Says('ravel()')),
    ('rows by their sums, in numpy', lambda s: (lambda A: (A.to_dense() / (
        A.reduce_rowwise().to_dense(1))).sum())(s.full(2, 2, 3)), 2.0)]

MONTHS = [
    ('add two months', lambda s: months(s)[0].ewise_add(months(s)[1]), Says('spmat.align(A, B)')),
    ('their shapes', aligned(lambda a, b: (a.shape, b.shape)), ((4, 4), (4, 4))),
    ('what changed', aligned(lambda a, b: edges(a.ewise_union(b, 'minus', 0, 0))),
     [('a', 'b', 1), ('a', 'd', -7), ('b', 'a', -5), ('b', 'c', 2)]),
    ('what is new', aligned(lambda a, b: edges(b.without(a))), [('a', 'd', 7), ('b', 'a', 5)]),
    ('what both know', lambda s: [edges(A) for A in spmat.align(*months(s), how='inner')],
     [[('a', 'b', 1)], [('b', 'a', 5)]]),
    ('join by a product', lambda s: edges(s.from_edgelist([('u', 'i', 2)], bipartite=True).mxm(
        s.from_edgelist([('i', 'c', 1)], bipartite=True))), [('u', 'c', 2)]),
    ('out less in', lambda s: (lambda A: A.reduce_rowwise().ewise_union(
        A.reduce_columnwise().T, 'minus', 0, 0).by_node())(months(s)[0]),
     {'a': 1, 'b': 1, 'c': -2}),
    ('ranks beside a frame', lambda s: frame(n=['a', 'd']).set_index('n').join(
        algorithms.degrees(months(s)[0]).to_pandas()).fillna(-1).values.tolist(), [[1.0], [-1.0]]),
    ('nodes stay where edges go', lambda s: s.from_edgelist(TWO).select('>', 5).nodes,
     ['a', 'b', 'c'])]

UNITS = [
    ('above a decimal', lambda s: edges(s.from_edgelist(
        [('a', 'b', 1.25), ('b', 'c', 2)], scale=100).select('>', 1.5)), [('b', 'c', 2.0)]),
    ('above a decimal, without a unit', on(1, lambda A: A.select('>', 1.5)), []),
    ('above nan', on(1, lambda A: A.select('>', math.nan)), Says('finite')),
    ('plus a decimal', on(9, lambda A: A.apply('plus', right=2.5), 10), [('a', 'b', 11.5)]),
    ('twice', on(9, lambda A: A.apply('times', right=2), 10), [('a', 'b', 18.0)]),
    ('at most a number', on(9.5, lambda A: A.apply('min', right=9), 10), [('a', 'b', 9.0)]),
    ('mean', lambda s: s.from_edgelist([('a', 'b', 1.5), ('b', 'a', 2)], scale=10).reduce_scalar(
        'mean'), 1.75),
    ('count', lambda s: written(1.5, 10)(s).reduce_scalar('count'), 1),
    ('beside whole numbers', lambda s: written(1.5, 10)(s).ewise_add(written(2)(s)),
     Says('rescale(10)')),
    ('set one', on(1.5, lambda A: A.assign(7.5, ['a'], ['b']), 10), [('a', 'b', 7.5)]),
    ('to CSV', lambda s: written(1.5, 10)(s).to_csv(), 'source,target,weight\na,b,1.5\n'),
    ('product of units', lambda s: s.from_edgelist([('a', 'a', 1.5)], scale=10).power(
        2).to_edgelist(), [('a', 'a', 2.25)]),
    ('scale 0', written(1.5, 0), Says('a scale is a number above 0')),
    ('infinite', written(math.inf, 10), Says('beyond 64 bits'))]

FILES = [
    ('Excel, with a mark', lambda s: read(s, b'\xef\xbb\xbffrom,to,amount\nx,y,10\n'),
     [('x', 'y', 10)]),
    ('an old Mac', lambda s: read(s, 'from,to,amount\rx,y,1\ry,z,2\r'),
     [('x', 'y', 1), ('y', 'z', 2)]),
    ('a header that ends as on an old Mac', lambda s: read(s, 'source,target\rx,y\ny,z\n'),
     [('x', 'y', 1), ('y', 'z', 1)]),
    ('capitals and blanks', lambda s: read(s, ' SOURCE ; Target;WEIGHT \na;b;7\n', sep=';'),
     [('a', 'b', 7)]),
    ('columns in another order', lambda s: read(s, 'weight,target,source\n7,b,a\n'),
     [('a', 'b', 7)]),
    ('the index of a frame', lambda s: read(s, ',source,target,weight\n0,a,b,7\n'),
     [('a', 'b', 7)]),
    ('a header that nobody knows',
     lambda s: read(s, 'account,counterparty\nx,y\ny,z\n'), Says('header=True')),
    ('the same, told', lambda s: read(s, 'account,counterparty\nx,y\ny,z\n', header=True),
     [('x', 'y', 1), ('y', 'z', 1)]),
    ('no header', lambda s: read(s, 'x,y\ny,z\n', header=False), [('x', 'y', 1), ('y', 'z', 1)]),
    ('a header amid, of two files', lambda s: read(s, 'source,target\na,b\nsource,target\nb,c\n'),
     Says('header=False')),
    ('Gephi, undirected', lambda s: read(s, 'Source,Target,Type,Weight\n1,2,Undirected,3\n'),
     Says('directed=False')),
    ('Gephi, told', lambda s: read(s, 'Source,Target,Type,Weight\n1,2,Undirected,3\n',
                                   directed=False), [(1, 2, 3), (2, 1, 3)]),
    ('thousands', lambda s: read(s, 'source,target,weight\na,b,"1,000"\n'), Says('thousands separators')),
    ('a currency', lambda s: read(s, 'source,target,amount\na,b,5 EUR\n'), Says('expected a number')),
    ('text as a value', lambda s: read(s, 'source,target,weight\na,b,high\n'), Says('expected a number')),
    ('a total at the end', lambda s: read(s, PAY + 'Total,,35\n'), Says('a name is empty')),
    ('a short row', lambda s: read(s, PAY + 'cid,dora\n'), Says('2 fields')),
    ('a date beside the amount', lambda s: read(s, 'from,to,date,amount\na,b,2024-01-01,5\n'),
     Says('columns=')),
    ('1 and 01', lambda s: read(s, 'source,target\n1,01\n'), [('1', '01', 1)]),
    ('phone numbers', lambda s: read(s, 'source,target\n+49171,0171\n'), [('+49171', '0171', 1)]),
    ('account numbers', lambda s: read(s, 'source,target\n12345678901234567890123,5\n'),
     [(12345678901234567890123, 5, 1)]),
    ('authors and papers', lambda s: read(s, 'author,paper\n1,1\n', bipartite=True), [(1, 1, 1)]),
    ('hashtags', lambda s: read(s, 'source,target\n#a,b\n'), [('#a', 'b', 1)]),
    ('some vertices alone', lambda s: s.read_graph(io.BytesIO(PAY.encode()), nodelist=[
        'ann', 'bob'], sep=',').notes.source.rpartition('; ')[2],
     '2 edges of vertices outside nodelist left out'),
    ('callee before caller', lambda s: read(s, 'callee,caller\na,b\n', columns=(
        'caller', 'callee')), [('b', 'a', 1)]),
    ('a file again', lambda s: there_and_back(s, 'x', G=s.from_edgelist([('a', (1, 2), 5)])),
     {'G': [('a', (1, 2), 5)]})]

SHELL = [
    ('ranks', shell('pagerank', '-', '--top', '1'), (0, ['cid 0.520869350'])),
    ('lengths', shell('sssp', '-', '--source', 'ann'), (0, ['ann 0', 'bob 10', 'cid 5'])),
    ('nobody', shell('bfs-levels', '-', '--source', 'zoe'), (2, [])),
    ('triangles of a directed graph', shell('triangle-count', '-'), (3, [])),
    ('triangles', shell('triangle-count', '-', '--undirected'), (0, ['1'])),
    ('too few steps', shell('pagerank', '-', '--steps', '10'), (5, [])),
    ('names with commas', shell('degrees', '-', '--csv', text='source,target\n"Doe, J",b\n'),
     (0, ['node,degrees', '"Doe, J",1', 'b,0']))]

OPERATORS = [
    ('half', on(5, lambda A: A.apply(lambda x: x / 2)), Says('x // y rounds down')),
    ('half, down', on(-5, lambda A: A.apply(lambda x: x // 2)), [('a', 'b', -3)]),
    ('half, toward 0', on(-5, lambda A: A.apply('cdiv', right=2)), [('a', 'b', -2)]),
    ('rest', on(-5, lambda A: A.apply(lambda x: x % 3)), [('a', 'b', 1)]),
    ('nothing below 10', on(9, lambda A: A.apply(lambda x: x if x > 9 else None)), Says('None')),
    ('by chance', on(9, lambda A: A.apply(lambda x: x + int.from_bytes(os.urandom(1), 'big'))),
     Says('not the same at each call')),
    ('a partial', on(9, lambda A: A.apply(functools.partial(lambda k, x: x - k, 2))),
     [('a', 'b', 7)]),
    ('a root', on(9, lambda A: A.apply(math.sqrt)), Says('float')),
    ('one operand of two', on(9, lambda A: A.apply('plus')), Says('right= or left=')),
    ('from 10', on(3, lambda A: A.apply('minus', left=10)), [('a', 'b', 7)]),
    ('C', on(-3, lambda A: A.apply(spmat.c('long f(long x) { return x * x; }'))), [('a', 'b', 9)]),
    ('C of 32 bits', on(3, lambda A: A.apply(spmat.c('int f(int x) { return x; }'))),
     Says('32 bits')),
    ('C of floats', on(3, lambda A: A.apply(spmat.c('double f(double x) { return x; }'))),
     Says('floating-point')),
    ('a loop that depends on the round', lambda s: after_rounds(
        lambda x, k: {'x': x.x.apply('plus', right=min(k, 2))}, s.full(1, 1, 0), 4), [7]),
    ('a loop that asks for a number', lambda s: after_rounds(
        lambda x: {'x': x.x.apply('plus', right=1) if x.x.nvals else x.x}, s.full(1, 1, 0), 3),
     Says('traced, not run')),
    ('a fixed point that there is not', lambda s: spmat.fixpoint(
        s.full(1, 1, 0), lambda x: x.apply('plus', right=1)), Says('it still changes'))]

GRAPHBLAS = [
    ('M.S', entries(lambda A, M: A.dup(mask=M.S)), {(0, 1): 5, (1, 2): 0}),
    ('M.V', entries(lambda A, M: A.dup(mask=M.V)), {(0, 1): 5}),
    ('~M.V', entries(lambda A, M: A.dup(mask=~M.V)), {(0, 2): 7, (1, 2): 0, (2, 0): -3}),
    ('an array as a mask', entries(lambda A, M: A.dup(mask=numpy.eye(3, dtype=bool))),
     Says('a mask is A.S')),
    ('M.S & ~A.V', entries(lambda A, M: A.dup(mask=M.S & ~A.V)), {(1, 2): 0}),
    ('A - M where one has entries', entries(lambda A, M: A.ewise_add(M, 'minus')),
     {(0, 1): 4, (0, 2): 7, (1, 2): 0, (2, 0): -3}),
    ('accumulate', entries(lambda A, M: A.update(M, 'plus')),
     {(0, 1): 6, (0, 2): 7, (1, 2): 0, (2, 0): -3}),
    ('a number where M is true', entries(lambda A, M: A.assign(9, mask=M.V)),
     {(0, 1): 9, (0, 2): 7, (1, 2): 0, (2, 0): -3}),
    ('A[0, 1] = 5', lambda s: operator.setitem(mine(s), (0, 1), 5), Says('A = A.assign')),
    ('A @ B', lambda s: mine(s) @ mine(s), Says('A.mxm(B)')),
    ('A == B', lambda s: mine(s) == mine(s), Says('isequal')),
    ('stored zeros count', lambda s: (mine(s).nvals, mine(s).select('nonzero').nvals), (4, 3)),
    ('a sum of nothing', lambda s: s.from_coo([], [], [], 3, 3).reduce_scalar('plus'), None),
    ('argmax', lambda s: mine(s).reduce_rowwise('argmax').to_list(), [2, 2, 0]),
    ('places beyond the end', lambda s: mine(s)[1:99, :].shape, (2, 3)),
    ('a slice of names that are numbers', lambda s: s.from_edgelist([(1, 2), (2, 3)])[0:2, :],
     Says('could be a name or a position')),
    ('a product that does not fit', lambda s: mine(s).mxm(s.identity(2)), Says('J5')),
    ('a list for a vector', lambda s: mine(s).mxv([1, 2, 3]), Says('expected a matrix')),
    ('an entry twice', lambda s: s.from_coo([0, 0], [0, 0], [1, 2]), Says('dup_op=')),
    ('a row below 0', lambda s: s.from_coo([-1], [0], [1]), Says('below 0')),
    ('np.minimum', entries(lambda A, M: A.ewise_mult(M, numpy.minimum)), {(0, 1): 1, (1, 2): 0}),
    ('np.divide', lambda s: mine(s).ewise_mult(mask(s), numpy.divide), Says('"floordiv" down')),
    ('names twice', lambda s: setattr(mine(s), 'nodes', ['a', 'a', 'b']), Says('stands twice'))]

GRAPHS = [
    ('levels from a name', lambda s: algorithms.bfs_levels(directed(s), numpy.str_('a')).by_node(),
     {'a': 0, 'b': 1, 'c': 1, 'd': 2}),
    ('an id as text', lambda s: algorithms.bfs_levels(s.from_edgelist([(1, 2)]), '1'),
     Says("no vertex '1'")),
    ('what is not reached', lambda s: algorithms.sssp(directed(s), 'd').to_list(),
     [None, None, None, 0]),
    ('a path by values', lambda s: algorithms.shortest_path(
        directed(s), 'a', 'c', weighted=True), ['a', 'b', 'c']),
    ('a transpose that is none', lambda s: algorithms.bfs_levels(directed(s), 'a', directed(s)),
     Says('has to be the transpose')),
    ('triangles of a directed graph', lambda s: algorithms.triangle_count(directed(s)),
     Says('algorithms.undirected(G)')),
    ('a tree of a directed graph', lambda s: algorithms.minimum_spanning_forest(directed(s)),
     Says('undirected')),
    ('communities that leave one out', lambda s: algorithms.modularity(
        undirected(s), [{'a', 'b'}, {'c'}]), Says("'d'")),
    ('85 percent', lambda s: algorithms.pagerank(directed(s), damping=85), Says('0 and 1')),
    ('a diameter of two parts', lambda s: algorithms.diameter(s.from_edgelist(
        [(0, 1), (2, 3)], directed=False)), Says('no path leads')),
    ('core of names', lambda s: algorithms.k_core(undirected(s), 2).sets(), [{'a', 'b', 'c'}]),
    ('ten steps', budget(10, lambda s: algorithms.pagerank(s.from_coo([0, 1], [1, 0]))),
     Says('pagerank wants a job')),
    ('steps as text', lambda s: spmat.Session(steps='1000'), Says("not '1000'")),
    ('a price is free', budget(10 ** 6, lambda s: (lambda G: (spmat.price(
        lambda: algorithms.pagerank(G)).steps > 0, s.budget().spent))(directed(s))), (True, 0)),
    ('filter in blocks', in_blocks(lambda s: edges(s.from_edgelist(TWO)[
        numpy.array([False, True, False]), :])), [('b', 'c', 2)]),
    ('other names in blocks', in_blocks(lambda s: s.from_edgelist([('a', 'b', 1)]).ewise_add(
        s.from_edgelist([('b', 'a', 1)]))), Says('spmat.align')),
    ('if A, in blocks', in_blocks(lambda s: bool(s.identity(3))), Says('truth value'))]


def networks():
    """Acts of a networkx user: what is asked, by which graph, and what is changed before it is
    asked again."""
    import networkx as nx

    def weighted():
        G = nx.Graph()
        G.add_weighted_edges_from(EDGES)
        return G

    def length(G):
        return nx.dijkstra_path_length(G, 'a', 'd', backend='spmat')

    def triangles(G):
        return nx.triangles(G, backend='spmat')
    yield 'a new edge', weighted(), length, lambda G: G.add_edge('a', 'd', weight=1), (6, 1)
    yield 'a weight by G[u][v]', weighted(), length, lambda G: G['a']['b'].update(weight=0), (6, 4)
    yield 'weights of all', weighted(), length, lambda G: nx.set_edge_attributes(
        G, 1, 'weight'), (6, 2)
    yield 'a weight that goes', weighted(), length, lambda G: G['a']['b'].pop('weight'), (6, 5)
    yield 'an edge for another', weighted(), lambda G: triangles(G)['a'], lambda G: (
        G.remove_edge('a', 'b'), G.add_edge('b', 'd')), (1, 0)
    yield 'a vertex more', weighted(), lambda G: nx.number_connected_components(
        G, backend='spmat'), lambda G: G.add_node('z'), (1, 2)
    yield 'other names', weighted(), lambda G: sorted(triangles(G)), lambda G: nx.relabel_nodes(
        G, {'a': 'x'}, copy=False), (['a', 'b', 'c', 'd'], ['b', 'c', 'd', 'x'])
    whole = nx.complete_graph(4)
    yield 'a view of edges', whole, lambda G: triangles(nx.restricted_view(G, [3], [])), (
        lambda G: G.remove_edge(0, 1)), ({0: 1, 1: 1, 2: 1}, {0: 0, 1: 0, 2: 0})
    held = nx.complete_graph(4)
    view = held.edge_subgraph([(0, 1), (1, 2), (0, 2)])
    yield 'a view that is held', held, lambda _: triangles(view), (
        lambda G: G.remove_edge(0, 1)), ({0: 1, 1: 1, 2: 1}, {0: 0, 1: 0, 2: 0})
    half = nx.Graph([('a', 'b', {'weight': .5}), ('b', 'd', {'weight': .25})])
    yield 'halves', half, length, lambda G: G['a']['b'].update(weight=.125), (.75, .375)


TABLES = {'frames': FRAMES, 'months': MONTHS, 'units': UNITS, 'files': FILES, 'shell': SHELL,
          'operators': OPERATORS, 'graphblas': GRAPHBLAS, 'graphs': GRAPHS}


@support.needs('pandas')
class Acts(support.InSession):
    def held(self, name, act, due):
        """What an act gives is what is due; where that is an error, it says so."""
        if not isinstance(due, Says):
            self.assertEqual(act(self.s), due)
            return
        self.assertIn(due, support.said(Exception, act, self.s), name)

    def test_acts(self):
        for table, rows in TABLES.items():
            for name, act, due in rows:
                with self.subTest(table=table, act=name), warnings.catch_warnings():
                    warnings.simplefilter('error', spmat.MaskWarning)
                    self.held(name, act, due)

    @support.needs('networkx.utils.backends')
    def test_networkx(self):
        with warnings.catch_warnings():
            warnings.simplefilter('ignore')
            for name, graph, ask, change, due in networks():
                with self.subTest(act=name):
                    first = ask(graph)
                    change(graph)
                    self.assertEqual((first, ask(graph)), due)
