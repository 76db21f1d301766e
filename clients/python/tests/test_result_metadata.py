"""Names of vertices, directions and weights: what results carry on of what they are made of."""
import contextlib
import io
import random
import tempfile
import unittest

import pytest

import support
import spmat
import spmat_blocks as blocks
from spmat import algorithms
from spmat.metadata import Nodes

pytestmark = pytest.mark.slow

NAMES = ['ann', 'bob', 'cid', 'dee']
PAIRS = [(0, 1), (1, 2), (2, 0), (2, 3)]


class Names(unittest.TestCase):
    @classmethod
    def setUpClass(cls):
        cls.s = spmat.Session()
        cls.blocks = blocks.Sessions(2)

    @classmethod
    def tearDownClass(cls):
        cls.s.close()
        cls.blocks.close()

    def graphs(self):
        """The same graph in one session and in blocks, with names."""
        for s in (self.s, self.blocks):
            G = s.from_coo([i for i, _ in PAIRS], [j for _, j in PAIRS], 1, 4, 4)
            G.nodes = NAMES
            yield G

    def test_results_have_them(self):
        for G in self.graphs():
            column = G.reduce_rowwise()
            for result in (G.T, G.apply('plus', right=1), G.select('tril'), G.ewise_add(G.T),
                           G.ewise_mult(G), G.mxm(G), column, G.dup(), G.apply('one', mask=~G.T.S),
                           G.update(G.T, mask=G.T.S), G.mxv(column), G.without(G.T), column.diag(),
                           G.diag(), G.reduce_columnwise(), G.mxm(G, mask=G.S)):
                self.assertEqual(result.nodes, NAMES, result)
            self.assertEqual(column.by_node(), {'ann': 1, 'bob': 1, 'cid': 2})
            self.assertEqual(G.reduce_columnwise().by_node(), dict.fromkeys(NAMES, 1))
            self.assertEqual(G.select('tril').to_edgelist(), [('cid', 'ann', 1)])
            self.assertEqual(column.top(2), [('cid', 2), ('ann', 1)])
            self.assertEqual(G.top(1), [('ann', 'bob', 1)])

    def test_rows_and_columns_of_their_own(self):
        """A product with the transpose has the names of its alike sides."""
        for s in (self.s, self.blocks):
            B = s.from_coo([0, 1, 1], [0, 0, 2], 1, 2, 3)
            B.notes = B.notes._replace(rows=Nodes(['x', 'y']), columns=Nodes(NAMES[:3]))
            self.assertEqual((B.row_nodes, B.column_nodes, B.nodes), (['x', 'y'], NAMES[:3], None))
            self.assertEqual((B.mxm(B.T).nodes, B.T.mxm(B).nodes), (['x', 'y'], NAMES[:3]))
            self.assertEqual((B.reduce_rowwise().nodes, B.reduce_columnwise().nodes),
                             (['x', 'y'], NAMES[:3]))
            self.assertEqual(B.T.to_edgelist(), [('ann', 'x', 1), ('ann', 'y', 1), ('cid', 'y', 1)])
            with self.assertRaises(ValueError):
                B.nodes = ['x', 'y']
        C = self.s.full(2, 2)
        C.notes = C.notes._replace(rows=Nodes('xy'), columns=Nodes('ab'))
        self.assertIsNone(C.nodes)

    def test_different_names_are_refused(self):
        G, H = self.s.full(2, 2), self.s.full(2, 2)
        G.nodes, H.nodes = list('ab'), list('ba')
        with self.assertRaises(spmat.NamesDiffer):
            G.ewise_add(H)
        H.nodes = list('ab')
        self.assertEqual(G.ewise_add(H).nodes, ['a', 'b'])
        self.assertEqual(G.ewise_mult(self.s.full(2, 2)).nodes, ['a', 'b'])
        with self.assertRaises(ValueError):
            G.nodes = list('abc')

    def test_vertices_by_name(self):
        G = next(self.graphs())
        self.assertEqual([G.index(name) for name in NAMES], [0, 1, 2, 3])
        self.assertEqual(G.index(2), 2)                      # no name is a number
        for wrong in ('eve', 4, -1, 1.0, True, ['ann'], None):
            with self.assertRaises(ValueError, msg=wrong) as said:
                G.index(wrong)
            self.assertIn('no vertex %r' % (wrong,), str(said.exception))
        self.assertIn("they are 'ann', 'bob', 'cid', 'dee'", self.said(G, 'eve'))
        self.assertIn("no vertex 'Bobb': did you mean 'bob'?", self.said(G, 'Bobb'))
        G.nodes = [10, 20, 30, 40]
        self.assertEqual(G.index(30), 2)
        self.assertIn('no vertex 2: they are 10, 20, 30, 40', self.said(G, 2))
        G.nodes = None
        self.assertEqual(G.index(2), 2)
        self.assertIn('0 to 3', self.said(G, 4))

    def said(self, G, node):
        with self.assertRaises(ValueError) as said:
            G.index(node)
        return str(said.exception)

    def test_directions(self):
        """A result is known to be undirected where each entry that has a mirror keeps one of the
        same value."""
        for s in (self.s, self.blocks):
            G = s.from_coo([0, 1, 1, 2], [1, 0, 2, 1], [5, 5, 7, 7], 3, 3)
            self.assertIsNone(G.directed)
            G.notes = G.notes._replace(directed=False)
            known = (G.T, G.apply('ainv'), G.apply('plus', right=3), G.apply('minus', left=3),
                     G.select('valuege', 6), G.select('offdiag'), G.ewise_add(G, 'minus'),
                     G.ewise_mult(G.apply('one'), 'first'), G.mxm(G, 'plus_times', mask=G.S),
                     G.dup(mask=G.S), G.ewise_add(s.full(3, 3)))
            unknown = (G.apply('rowindex'), G.select('tril'), G.select('offdiag', 1),
                       G.mxm(G, 'plus_first'), G.mxm(G.apply('one')), G.reduce_rowwise(),
                       G.apply(spmat.asm('index', 'mov64 r0, r2\nexit')))
            for result in known:
                self.assertIs(result.directed, False)
                self.assertTrue(result.isequal(result.T))
            for result in unknown:
                self.assertIsNone(result.directed)

    @support.needs('networkx')
    def test_networkx_in_blocks(self):
        import networkx
        graph = networkx.Graph([('a', 'b'), ('b', 'c')])
        back = self.blocks.from_networkx(graph).to_networkx()
        self.assertEqual((type(back), dict(back.adjacency())),
                         (networkx.Graph, dict(graph.adjacency())))


SAME = [('a', 'b', 1), ('b', 'a', 2), ('c', 'c', 3)]
NUMBERS = [(0, 1, 1), (1, 0, 2), (2, 2, 3)]
OTHERS = [('a', 'x', 1), ('b', 'y', 2), ('c', 'z', 3)]


class TwoKinds(support.InSession):
    def refused(self, call):
        with self.assertRaisesRegex(ValueError,
                                    'a graph has one kind of vertices, .* spmat.bipartite'):
            call()

    def test_algorithms_and_networkx(self):
        for edges in (SAME, NUMBERS, OTHERS):
            B = self.s.from_edgelist(edges, bipartite=True)
            self.assertIsNone(B.nodes)
            for matrix in (B, B.T, B.apply('one'), B.select('>', 1), B.dup(mask=B.S),
                           B.ewise_add(B), B.mxm(B.T).mxm(B)):
                # pylint: disable-next=cell-var-from-loop
                self.refused(lambda: algorithms.bfs_levels(matrix, 0))
                # pylint: disable-next=cell-var-from-loop
                self.refused(lambda: algorithms.connected_components(matrix))
                self.refused(matrix.to_networkx)
            self.assertEqual(len(B.to_networkx(nodes=range(3)).edges), 3)

    def test_one_kind(self):
        """Both kinds as one graph, and what two rows share."""
        for edges in (SAME, NUMBERS):
            B = self.s.from_edgelist(edges, bipartite=True)
            both = spmat.bipartite(B)
            self.assertEqual(len(algorithms.bfs_levels(both, 0).by_node()), 2)
            shared = B.mxm(B.T, 'plus_pair')
            self.assertEqual(algorithms.degrees(shared).to_list(), [1, 1, 1])
            self.assertEqual(B.T.mxm(B, 'plus_pair').to_networkx().number_of_nodes(), 3)
            self.assertEqual(self.s.from_edgelist(edges).to_networkx().number_of_nodes(), 3)

    def test_files(self):
        file = io.BytesIO(b'source,target,weight\na,b,1\nb,a,2\n')
        self.refused(self.s.read_edgelist(file, bipartite=True, sep=',').to_networkx)
        with tempfile.TemporaryDirectory() as path:
            self.s.save(path + '/two.spmat', B=self.s.from_edgelist(SAME, bipartite=True))
            self.refused(self.s.load(path + '/two.spmat')['B'].to_networkx)


EDGES = [('a', 'b', 2), ('b', 'c', 3), ('a', 'c', 10), ('c', 'd', 1)]


def operations(s, G, U):
    """What is known to be undirected, of a graph that leads one way and of one that is
    undirected."""
    two, turned = ['a', 'b'], ['d', 'c', 'b', 'a']
    yield 'undirected', algorithms.undirected(G)
    yield 'undirected, of a transpose', algorithms.undirected(G, G.T)
    yield 'undirected, which is its own transpose', algorithms.undirected(U, U)
    yield 'the greater of both ways', G.ewise_add(G.T, 'max')
    yield 'both ways, in the other order', G.T.ewise_add(G, 'plus')
    yield 'edges both ways alone', G.ewise_mult(G.T, 'min')
    yield 'what two rows share', G.mxm(G.T, 'plus_pair')
    yield 'under a mask', G.mxm(G.T, 'plus_pair', mask=U.S)
    yield 'one triangle, and its mirror', (lambda L: L.ewise_add(L.T, 'plus'))(U.select('tril'))
    yield 'a part', U[two, two]
    yield 'in another order', U[turned, turned]
    yield 'a filter', U[[True, False, True, False], [True, False, True, False]]
    yield 'by slices', U['a':'c', 'a':'c']
    yield 'a tile', U.split(2, 2)[1][1]
    yield 'fewer vertices', U.resize(3, 3)
    yield 'more vertices', U.resize(6, 6)
    yield 'of pairs', U.kronecker(U.select('>', 2))
    yield 'a power', U.power(3)
    yield 'a power of 0', G.power(0)
    yield 'one value', U.apply('thunk', right=7)
    yield 'a union with defaults', U.ewise_union(U.select('>', 2), 'minus', 0, 0)
    yield 'loops for all', U.ewise_add(s.identity(4))
    yield 'what is not there', s.full(4, 4).dup(mask=~U.S)
    yield 'a tree', algorithms.minimum_spanning_forest(U)
    yield 'a truss', algorithms.k_truss(both_ways(s), 3)
    yield 'a truss of 2', algorithms.k_truss(both_ways(s), 2)
    yield 'a core', (lambda c: U[c.V, c.V])(algorithms.k_core(U, 2))
    yield 'common neighbours', algorithms.common_neighbours(G)
    yield 'common neighbours of some', algorithms.common_neighbours(G, pairs=U)
    yield 'shares', algorithms.jaccard(G)
    yield 'lengths', algorithms.all_pairs(U)
    yield 'lengths from all', algorithms.path_lengths(U, list('abcd'))
    yield 'hops', algorithms.k_hop(U, 1)
    yield 'what is reached', algorithms.transitive_closure(U)
    yield 'turned', U.T
    yield 'as it is', spmat.align(U, s.from_edgelist([('x', 'a', 2)], directed=False))[0]


def both_ways(s):
    """Edges both ways, of which nobody said so."""
    made = s.from_edgelist([(i, j, v) for a, b, v in EDGES for i, j in ((a, b), (b, a))])
    made.notes = made.notes._replace(directed=None)
    return made


def others(s, G, U):
    """What isn't known to be undirected."""
    yield 'less the other way', G.ewise_add(G.T, 'minus')
    yield 'the first of both', G.mxm(G.T, 'plus_first')
    yield 'another matrix', G.ewise_add(G.dup().T, 'max')
    yield 'another order', U[list('abcd'), list('dcba')]
    yield 'of a directed one', G[['a', 'b'], ['a', 'b']]
    yield 'a tile beside', U.split(2, 2)[0][1]
    yield 'a power of another ring', U.power(3, 'plus_first')
    yield 'a power that may wrap', U.power(3, 'min_plus')
    yield 'hops from some', algorithms.k_hop(U, 1, list('dcba'))
    yield 'neighbours of pairs in one order', algorithms.common_neighbours(G, pairs=G)
    yield 'a transpose that is none', algorithms.undirected(G, G.dup())
    yield 'a truss that nobody checks', algorithms.k_truss(both_ways(s), 3, check=False)


BINARY = ('plus', 'times', 'min', 'max', 'minus', 'first', 'second', 'any', 'pair', 'eq', 'gt',
          'cdiv')
# of two matrices of one size, and a source of chance
STEPS = (
    lambda A, B, chance: A.ewise_add(B, chance.choice(BINARY)),
    lambda A, B, chance: A.ewise_mult(B, chance.choice(BINARY)),
    lambda A, B, chance: A.mxm(B, 'plus_'
                               + chance.choice(('times', 'pair', 'first', 'plus', 'minus'))),
    lambda A, B, chance: A.apply(chance.choice(('rowindex', 'thunk', 'tril', 'offdiag', 'plus',
                                                'minus')), chance.choice((0, 1))),
    lambda A, B, chance: A.select(chance.choice(('tril', 'offdiag', 'valuegt', 'rowle')),
                                  chance.choice((0, 1))),
    lambda A, B, chance: A[::-1, ::chance.choice((1, -1))], lambda A, B, chance: A.T,
    lambda A, B, chance: A.update(B, chance.choice((None, 'plus', 'first')),
                                  mask=chance.choice((None, B.S, ~A.S, ~B.V)),
                                  replace=chance.random() < .5),
    lambda A, B, chance: A.dup(mask=chance.choice((~B.S, B.V, A.S & B.S, A.S ^ B.S, A.S | ~B.S))),
    lambda A, B, chance: A.power(chance.randint(0, 3),
                                 chance.choice(('plus_times', 'any_pair', 'min_plus'))),
    lambda A, B, chance: A.kronecker(B).resize(A.nrows, A.nrows),
    lambda A, B, chance: A.ewise_union(B, 'minus', 0, 1),
    lambda A, B, chance: A.assign(5, mask=B.S))


class Undirected(unittest.TestCase):
    def test_chance(self):
        """Whatever is said to be undirected after a chain of methods is its own transpose."""
        chance, known = random.Random(5), 0
        with spmat.Session() as s:
            for _ in range(20):
                count = chance.randint(2, 5)
                places = sorted({tuple(sorted(chance.choices(range(count), k=2)))
                                 for _ in range(6)})
                values = [chance.randint(-3, 3) for _ in places]
                made = [s.from_coo(*zip(*places), values, count, count, symmetric=one)
                        for one in (False, True)] + [s.identity(count), s.full(count, count)]
                for _ in range(20):
                    A = chance.choice(made)
                    with contextlib.suppress(spmat.NamesDiffer):
                        found = chance.choice(STEPS)(A, chance.choice((A, A.T, *made)), chance)
                        made.append(found)
                        known += found.directed is False
                        self.assertTrue(found.directed is not False
                                        or found.to_text() == found.T.to_text(), found)
        self.assertGreater(known, 100)

    def graphs(self):
        for session in (spmat.Session(), blocks.Sessions(2)):
            with session as s:
                yield s, s.from_edgelist(EDGES), s.from_edgelist(EDGES, directed=False)

    def test_known(self):
        for s, G, U in self.graphs():
            for name, made in operations(s, G, U):
                with self.subTest(made=name, session=type(s).__name__):
                    self.assertIs(made.directed, False)
                    self.assertEqual(made.to_text(), made.T.to_text())

    def test_unknown(self):
        for s, G, U in self.graphs():
            for name, made in others(s, G, U):
                with self.subTest(made=name, session=type(s).__name__):
                    self.assertIsNone(made.directed)

    @support.needs('networkx')
    def test_networkx(self):
        import networkx
        with spmat.Session() as s:
            G = s.from_edgelist(EDGES)
            self.assertEqual(type(algorithms.undirected(G).to_networkx()), networkx.Graph)
            self.assertEqual(type(G.ewise_add(G.T, 'max').to_networkx()), networkx.Graph)
            self.assertEqual(type(G.to_networkx()), networkx.DiGraph)
