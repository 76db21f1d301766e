"""Matrices brought to the same names."""
import spmat
from test_metadata import EDGES, NAMES, Both, named


class Align(Both):
    """Matrices brought to the same names."""

    def test_union_and_intersection(self):
        for s in self.each():
            A = s.from_edgelist([('a', 'b', 1), ('b', 'c', 2)])
            B = s.from_edgelist([('c', 'b', 3), ('d', 'c', 4), ('b', 'd', 5)])
            one, two = spmat.align(A, B)
            self.assertEqual((one.nodes, two.nodes, one.nodes is two.nodes),
                             (['a', 'b', 'c', 'd'],) * 2 + (True,))
            self.assertEqual(sorted(one.ewise_add(two).to_edgelist()),
                             [('a', 'b', 1), ('b', 'c', 2), ('b', 'd', 5), ('c', 'b', 3),
                              ('d', 'c', 4)])
            one, two = spmat.align(A, B, how='inner')
            self.assertEqual((one.nodes, one.to_edgelist(), two.to_edgelist()),
                             (['b', 'c'], [('b', 'c', 2)], [('c', 'b', 3)]))
            self.assertIs(one.row_nodes, two.column_nodes)

    def test_what_has_the_names_stays(self):
        for s in self.each():
            A, B = named(s, NAMES), named(s, list(NAMES))
            one, two = spmat.align(A, B)
            self.assertIs(one, A)
            self.assertIs(two.nodes, A.nodes)
            self.assertEqual(two.to_edgelist(), B.to_edgelist())

    def test_kinds_of_names(self):
        for s in self.each():
            numbers = s.from_edgelist([(0, 1), (1, 2)])
            for other, names in ((s.from_edgelist([(7, 1)]), [0, 1, 2, 7]),
                                 (s.from_edgelist([('x', 1)]), [0, 1, 2, 'x']),
                                 (s.from_edgelist([((1, 2), (3,))]), [0, 1, 2, (1, 2), (3,)])):
                one, two = spmat.align(numbers, other)
                self.assertEqual((one.nodes, two.nodes), (names, names))
                self.assertEqual(one.to_edgelist(), numbers.to_edgelist())
                self.assertEqual(two.to_edgelist(), other.to_edgelist())
            more = s.from_edgelist([(3, 0), (1, 2)])
            one, two = spmat.align(numbers, more)
            self.assertEqual((one.shape, one.nodes, one[[2, 3], :].row_nodes),
                             ((4, 4), None, [2, 3]))

    def test_two_kinds_and_vectors(self):
        for s in self.each():
            A, B = s.from_edgelist([('u', 'i', 1), ('v', 'j', 2)],
                                   bipartite=True), s.from_edgelist([('w', 'j', 3), ('u', 'k', 4)],
                                                                    bipartite=True)
            one, two = spmat.align(A, B)
            self.assertEqual((one.row_nodes, one.column_nodes, one.shape),
                             (['u', 'v', 'w'], ['i', 'j', 'k'], (3, 3)))
            self.assertEqual(one.ewise_add(two).nvals, 4)
            G, column = named(s, NAMES), s.from_edgelist([('Cid', 'Dee', 9)]).reduce_rowwise()
            G, column = spmat.align(G, column)
            self.assertEqual((G.nodes, column.shape, column.by_node()),
                             ([*NAMES, 'Dee'], (4, 1), {'Cid': 9}))
            self.assertEqual(G.mxv(column).nodes, [*NAMES, 'Dee'])
            with self.assertRaisesRegex(ValueError, 'align graphs with graphs'):
                spmat.align(G, A)

    def test_what_is_known_stays(self):
        for s in self.each():
            A = s.from_edgelist([('a', 'b', 1.25)], directed=False, scale=100)
            B = s.from_edgelist([('b', 'c', 2.5)], directed=False, scale=100)
            one, two = spmat.align(A, B)
            self.assertEqual((one.directed, two.directed, one.unit, two.unit, two['b', 'c']),
                             (False, False, 100, 100, 2.5))

    def test_empty_and_single(self):
        for s in self.each():
            none, one = s.from_edgelist([]), s.from_edgelist([('a', 'a', 4)])
            self.assertEqual([G.nodes for G in spmat.align(none, one)], [['a'], ['a']])
            self.assertEqual([G.shape for G in spmat.align(none, one, how='inner')],
                             [(0, 0), (0, 0)])
            self.assertEqual(spmat.align(one), (one,))
            self.assertEqual(spmat.align(), ())

    def test_refused(self):
        for s in self.each():
            A = named(s, NAMES)
            self.differ(lambda: spmat.align(A, s.from_triples(EDGES, 3, 3)), 'without names',
                        'v.nodes = G.nodes')
            self.differ(lambda: spmat.align(A, s.identity(3)), 'without names')
            for wrong in (lambda: spmat.align(A, A, how='left'), lambda: spmat.align([A, A]),
                          lambda: spmat.align(A, 3)):
                with self.assertRaises((ValueError, TypeError)):
                    wrong()
