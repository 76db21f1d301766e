"""Sessions of row blocks: whole algorithms as in one session, refusals that name the block, and
what a matrix in blocks is."""
import unittest

import pytest

import graphs
import spmat
import support  # pylint: disable=unused-import  # it names the program
import spmat_blocks as blocks
from spmat import algorithms
from spmat_blocks import worker_store

pytestmark = pytest.mark.slow

BY_FRONTS = ('components', 'bfs_levels', 'bfs_parents', 'sssp', 'core')


class Algorithms(unittest.TestCase):
    """Unchanged, and as in one session: results and what is spent."""

    def each(self, many_graphs, *functions):
        for count in (2, 5):
            # with steps that are counted: else the client keeps the edges of one small graph
            with spmat.Session(steps=10**9) as one, blocks.Sessions(count) as many:
                for graph in many_graphs:
                    for function in functions:
                        both = graph.matrix(one), graph.matrix(many)
                        for matrix in both:
                            # what blocks alone want to know is found out by either
                            algorithms.cached_properties.is_both_ways(matrix)
                            algorithms.cached_properties.extremes(matrix)
                        before = [one.budget().spent, many.budget().spent]
                        want, got = function(both[0], graph), function(both[1], graph)
                        with self.subTest(graph=graph.name, function=function.__name__,
                                          sessions=count):
                            self.assertEqual(got if isinstance(got, int) else got.to_text(),
                                             want if isinstance(want, int) else want.to_text())
                            spent = one.budget().spent - before[0], many.budget().spent - before[1]
                            if function.__name__ == 'pagerank':
                                # a row is folded by a reduction, a column by a product
                                self.assertLess(abs(spent[0] - spent[1]), 0.1 * max(spent))
                            elif function.__name__ in BY_FRONTS:
                                # what blocks find for one vertex is folded by the client
                                self.assertLessEqual(spent[1], spent[0])
                            else:
                                self.assertEqual(*spent)

    def test_of_directed_graphs(self):
        def bfs_levels(G, graph):
            return algorithms.bfs_levels(G, 0)

        def bfs_parents(G, graph):
            return algorithms.bfs_parents(G, 0)

        def sssp(G, graph):
            return algorithms.sssp(G, 0)

        def components(G, graph):
            return algorithms.connected_components(G)

        def pagerank(G, graph):
            return algorithms.pagerank(G, damping=.6, tolerance=.001)

        def closure(G, graph):
            return algorithms.transitive_closure(G)
        self.each(graphs.DIRECTED[::2], bfs_levels, bfs_parents, sssp, components, pagerank,
                  closure)

    def test_of_undirected_graphs(self):
        def triangle_count(G, graph):
            return algorithms.triangle_count(G)

        def truss(G, graph):
            return algorithms.k_truss(G, 3)

        def core(G, graph):
            return algorithms.k_core(G, 2)

        def independent(G, graph):
            return algorithms.maximal_independent_set(G)

        def clustering(G, graph):
            return algorithms.clustering(G)
        self.each([graph for graph in graphs.UNDIRECTED if graph.count > 1], triangle_count, truss,
                  core, independent, clustering)

    def test_known_answers(self):
        with blocks.Sessions(3) as s:
            for graph in graphs.UNDIRECTED[2:]:
                near, G = graph.near(), graph.matrix(s)
                self.assertEqual(algorithms.triangle_count(G), sum(graphs.triangles(near)) // 3)
                self.assertEqual({i: x
                                  for (i, _), x in algorithms.bfs_levels(G, 1,
                                                                         G).to_dict().items()},
                                 graphs.levels(near, 1))

    def test_a_product_that_is_too_large_for_one_job(self):
        """Each block may cost as much as one session's job; beyond that, the algorithms make the
        product by halves."""
        # and takes 3 steps
        dear = spmat.asm('binary', 'mov64 r0, r1\njeq64 r1, r1, 4000\n' + 4000 * 'mov64 r0, r2\n'
                         + 'exit\n')
        with spmat.Session() as one, blocks.Sessions(2) as many:
            with self.assertRaisesRegex(spmat.TooLarge, 'J8'):
                one.full(1200, 32).mxm(one.full(32, 32), ('plus', dear))
            B = many.full(32, 32)
            self.assertEqual(many.full(1200, 32).mxm(B, ('plus', dear)).nvals, 1200 * 32)
            larger = many.full(2400, 32)
            with self.assertRaisesRegex(spmat.TooLarge, 'J8.*block 0 of 2, rows 0 to 1199'):
                larger.mxm(B, ('plus', dear))
            made = algorithms.utils.product(larger, B, spmat.Semiring('plus', dear))
            self.assertEqual((made.nvals, made.reduce_scalar('plus')), (2400 * 32, 2400 * 32 * 32))


class Closing(unittest.TestCase):
    def test_nothing_is_opened_again(self):
        with blocks.Sessions(2) as s:
            A = s.full(4, 4).apply('ainv')
            self.assertEqual(A.reduce_scalar(), -16)
        for call in (lambda: A.apply('abs').nvals, A.reduce_scalar, A.to_triples, s.budget,
                     lambda: s.from_triples([(0, 0, 1)], 2, 2).nvals,
                     lambda: s.check(spmat.unary.abs),
                     lambda: algorithms.connected_components(A)):
            with self.assertRaisesRegex(spmat.Closed, 'they were closed'):
                call()
        self.assertNotIn(s.settings.token, {token for token, _ in worker_store._stores})
        s.close()                                  # does nothing more

    def test_another_of_the_same_engine(self):
        threads = blocks.Threads(2)
        blocks.Sessions(threads).close()
        with blocks.Sessions(threads) as s:
            self.assertEqual(s.full(4, 4).apply('ainv').reduce_scalar(), -16)


class Refusals(unittest.TestCase):
    def test_no_number_of_sessions(self):
        for count in ('2', 2.5, [2]):
            with self.assertRaisesRegex(TypeError, r'Sessions\(4\), Sessions\(Threads\(4\)\)'):
                blocks.Sessions(count)

    def test_found_where_the_method_is_called(self):
        with blocks.Sessions(2) as s, blocks.Sessions(2) as other, spmat.Session() as one:
            X = s.from_triples([(0, 0, 1), (3, 2, 1)], 4, 3)
            for call in (lambda: X.ewise_add(X.T), lambda: X.mxm(X), lambda: X.mxv(X),
                         lambda: X.vxm(X), lambda: X.apply('abs', mask=X.T.S)):
                with self.assertRaises(spmat.DimensionMismatch):
                    call()
            for call in (lambda: X.apply(spmat.binary.plus), lambda: X.select(spmat.binary.plus),
                         lambda: X.ewise_add(X, spmat.unary.abs)):
                with self.assertRaises(spmat.DomainMismatch):
                    call()
            A = one.from_triples([(0, 0, 1), (1, 1, 1)], 4, 3)
            for call in (lambda: X.ewise_add(A), lambda: A.ewise_add(X),
                         lambda: X.apply('abs', mask=A.S), lambda: X.isequal(A),
                         lambda: X.ewise_add(other.full(4, 3))):
                with self.assertRaisesRegex(ValueError, 'another session'):
                    call()
            for call in (lambda: X.ewise_add(3), lambda: X.without(None)):
                with self.assertRaises(TypeError):
                    call()
            with self.assertRaisesRegex(ValueError, 'no built-in unary'):
                X.apply('nosuch')

    def test_the_block_is_named(self):
        with blocks.Sessions(3) as s:
            X = s.from_triples([(i, i, i) for i in range(9)], 9, 9)
            wrong = spmat.asm('unary', 'ldx64 r0, r1, 0\nexit', 'f')
            with self.assertRaisesRegex(spmat.OperatorRefused,
                                        r'V14.*block 0 of 3, rows 0 to 2') as caught:
                X.apply(wrong).nvals
            self.assertEqual(caught.exception.block, 'block 0 of 3, rows 0 to 2')
            self.assertEqual((caught.exception.rule, caught.exception.at), ('V14', 0))
            self.assertEqual(X.apply('abs').nvals, 9)                           # the sessions go on

    def test_settings(self):
        for wrong in ({'steps': -1}, {'workers': 0}, {'blocks': 0}, {'engine': 0}, {'engine': 65}):
            with self.assertRaises(ValueError):
                blocks.Sessions(**wrong)
        with self.assertRaises(FileNotFoundError):
            blocks.Sessions(2, program='/no/such/program')

    def test_matrices_that_are_cut_elsewhere_are_of_the_same_sessions(self):
        """A loop takes them together, whatever objects tell how they are cut; it takes none of
        other sessions."""
        with blocks.Sessions(2) as s, blocks.Sessions(2) as t:
            A = s.from_triples([(0, 0, 1), (1, 0, 2), (2, 0, 3), (3, 0, 4)], 4, 1)
            B, C = A.recut([0, 1, 4]), t.from_triples([(0, 0, 1)], 4, 1)
            # both are held, so that neither is where the other was
            of_a, of_b = A.session, B.session
            self.assertIsNot(of_a, of_b)
            self.assertEqual((of_a, hash(of_a)), (of_b, hash(of_b)))
            self.assertNotEqual(of_a, C.session)
            loop = spmat.loop(lambda state: {'a': state.a.ewise_mult(state.b, 'minus')},
                              {'a': A, 'b': B})
            loop.advance(1)
            self.assertEqual(loop.state.a.to_list(), [0, 0, 0, 0])
            with self.assertRaisesRegex(ValueError, 'of one session, and here of 2'):
                spmat.loop(lambda state: {'a': state.a}, {'a': A, 'c': C})

    def test_pickling(self):
        import pickle
        with blocks.Sessions(2) as s:
            with self.assertRaisesRegex(TypeError, 'belongs to its session'):
                pickle.dumps(s.full(3, 3))


class OneClass(unittest.TestCase):
    """Matrices in blocks are those of one session, on another backend."""

    def test_no_method_is_written_again(self):
        own = {name for name in vars(blocks.BlockMatrix) if not name.startswith('__')}
        self.assertEqual(own & set(dir(spmat.Matrix)), {'_repr_html_'})

    def test_what_it_is(self):
        with blocks.Sessions(3) as s:
            X = s.from_triples([(i, (i + 1) % 9, 1) for i in range(9)], 9, 9)
            column = X.reduce_rowwise()
            for one in (X, X.T, X.mxm(X), X.without(X.T), column, X.recut([0, 4, 9]),
                        X.checkpoint()):
                self.assertIsInstance(one, spmat.Matrix)
                self.assertIsInstance(one, blocks.BlockMatrix)
                self.assertIs(one.in_one_place, False)
            levels = algorithms.bfs_levels(X, 0)
            self.assertIsInstance(levels, spmat.Vector)
            self.assertEqual((levels[3], levels.cut, levels.to_dense().shape), (3, X.cut, (9,)))
            self.assertEqual(X.blocks.recut([0, 4, 9]).blocks.cut, blocks.Cut((0, 4, 9)))
            self.assertEqual((X.blocks.cut, X.blocks.counts(), X.blocks.sessions),
                             (X.cut, X.counts(), X.sessions))
