"""Graphs of networkx as matrices and back: weights, parallel edges, parts, names. Skipped where
there is no networkx."""
import datetime
import random
import unittest

import numpy

from support import InSession, needs, said
import spmat
from spmat.io import edges


@needs('networkx')
class Networkx(InSession):
    def test_graphs(self):
        import networkx
        G = networkx.Graph([('a', 'b'), ('b', 'c'), ('c', 'c')])
        A = self.s.from_networkx(G)
        self.assertEqual((A.nodes, A.to_dict()),
                         (['a', 'b', 'c'], {(0, 1): 1, (1, 0): 1, (1, 2): 1, (2, 1): 1, (2, 2): 1}))
        self.assertTrue(networkx.is_isomorphic(A.to_networkx(directed=False), G))
        self.assertEqual(set(A.to_networkx(directed=False).edges), set(G.edges))
        D = networkx.gnp_random_graph(20, .2, seed=1, directed=True)
        B = self.s.from_networkx(D)
        self.assertEqual(set(B.to_dict()), set(D.edges))
        self.assertEqual(set(B.to_networkx().edges), set(D.edges))
        self.assertEqual(set(B.to_networkx().nodes), set(D.nodes))

    def test_weights(self):
        import networkx
        G = networkx.DiGraph()
        G.add_edge(0, 1, weight=5, cost=7)
        G.add_edge(1, 2)
        self.assertEqual(self.s.from_networkx(G).to_dict(), {(0, 1): 5, (1, 2): 1})
        self.assertEqual(self.s.from_networkx(G, 'cost').to_dict(), {(0, 1): 7, (1, 2): 1})
        self.assertEqual(self.s.from_networkx(G, None).to_dict(), {(0, 1): 1, (1, 2): 1})
        self.assertEqual(self.s.from_networkx(G).to_networkx()[0][1], {'weight': 5})
        self.assertEqual(self.s.from_networkx(G).to_networkx(weight='w', nodes='xyz')['x']['y'],
                         {'w': 5})
        G.add_edge(2, 0, weight=.5)
        with self.assertRaises(ValueError):
            self.s.from_networkx(G)

    def test_edges_without_the_attribute(self):
        """They have 1, as in networkx, also in parts of a unit, and are counted."""
        import networkx
        for kind, edges in ((networkx.Graph, 3), (networkx.DiGraph, 3), (networkx.MultiGraph, 3)):
            G = kind([(0, 1, {'weight': 2.5}), (1, 2), (2, 2)])
            A = self.s.from_networkx(G, scale=10)
            self.assertEqual((A[0, 1], A[1, 2], A[2, 2]), (2.5, 1, 1))
            self.assertEqual(A.notes.source, 'values times 10, all whole then; 2 of 3 edges have '
                             "no attribute 'weight' and count as 1")
            A = self.s.from_networkx(G, 'wieght')
            self.assertEqual((set(A.to_dict().values()), A.notes.weighted, A.notes.source),
                             ({1}, False, "3 of 3 edges have no attribute 'wieght' and count as 1"))
            self.assertEqual(self.s.from_networkx(G, None, scale=10).notes.source, '')
        self.assertEqual(self.s.from_networkx(networkx.empty_graph(3)).notes.source, '')

    def test_nodelist(self):
        import networkx
        G = networkx.path_graph(4)
        self.assertEqual(self.s.from_networkx(G, nodelist=[2, 1]).to_dict(), {(0, 1): 1, (1, 0): 1})
        for wrong in ([1, 1], [1, 9]):
            with self.assertRaises(ValueError):
                self.s.from_networkx(G, nodelist=wrong)

    def test_multigraphs(self):
        import networkx
        G = networkx.MultiGraph()
        G.add_weighted_edges_from([(0, 1, 5), (0, 1, 7), (1, 1, 2), (1, 1, 3)])
        self.assertIn('dup_op=', said(ValueError, self.s.from_networkx, G))
        self.assertEqual(self.s.from_networkx(G, dup_op='plus').to_dict(),
                         {(0, 1): 12, (1, 0): 12, (1, 1): 5})
        self.assertEqual(self.s.from_networkx(G, dup_op='min').to_dict(),
                         {(0, 1): 5, (1, 0): 5, (1, 1): 2})

    def test_multigraphs_without_parallel_edges(self):
        import networkx
        for kind in (networkx.MultiGraph, networkx.MultiDiGraph):
            G = kind([('a', 'b', {'weight': 3}), ('b', 'c', {'weight': 4}),
                      ('c', 'c', {'weight': 5})])
            simple = (networkx.DiGraph if G.is_directed() else networkx.Graph)(G)
            self.assertEqual(self.s.from_networkx(G).to_dict(),
                             self.s.from_networkx(simple).to_dict())
            G.add_edge('b', 'c')
            self.assertIn("2 edges lead from 'b' to 'c'", said(ValueError, self.s.from_networkx, G))

    def test_wrong_weights_name_their_edge(self):
        import networkx
        G = networkx.path_graph(200)
        for value, kind in ((1.5, ValueError), ('x', TypeError), (2 ** 63, ValueError),
                            (None, TypeError), (float('nan'), ValueError),
                            (datetime.date(2024, 5, 31), TypeError)):
            H = networkx.relabel_nodes(G, {150: 'here', 151: 'there'})
            H['here']['there']['weight'] = value
            with self.assertRaises(kind) as caught:
                self.s.from_networkx(H)
            self.assertIn("the edge from 'here' to 'there': ", str(caught.exception))
            self.assertNotIn('unit=', str(caught.exception))     # which from_networkx doesn't have
        for weight in (lambda u, v, d: 1, len):
            self.assertIn('set_edge_attributes',
                          said(TypeError, self.s.from_networkx, G, weight=weight))

    def test_beside_networkx(self):
        """Random graphs of each kind, with and without numpy's columns: the entries that networkx
        lists."""
        import networkx
        r = random.Random(4)
        for number in range(60):
            kind = (networkx.Graph, networkx.DiGraph, networkx.MultiGraph,
                    networkx.MultiDiGraph)[number % 4]
            G = kind()
            names = r.choice((list(range(12)), [3 * k - 7 for k in range(12)],
                              ['v%d' % k for k in range(12)]))
            G.add_nodes_from(r.sample(names, 12))
            for _ in range(r.randrange(40)):
                G.add_edge(r.choice(names), r.choice(names),
                           **r.choice(({}, {'weight': r.randrange(9)}, {'weight': 2.0})))
            chosen = r.choice((None, r.sample(names, 7)))
            want = {}
            for u, v, value in G.edges(data='weight', default=1):
                if chosen is None or (u in chosen and v in chosen):
                    for pair in {(u, v), (u, v) if G.is_directed() else (v, u)}:
                        want[pair] = want.get(pair, 0) + value
            A = self.s.from_networkx(G, nodelist=chosen, dup_op='plus')
            self.assertEqual({(u, v): value for u, v, value in A.to_edgelist()}, want)
            self.assertEqual(A.nodes, list(G) if chosen is None else chosen)
            self.assertEqual(A.directed, G.is_directed())

    def test_views(self):
        """Views count other neighbours than they give, and some graphs have another adjacency than
        they keep."""
        import networkx
        G = networkx.MultiGraph([(0, 1), (0, 1), (1, 2), (2, 3)])
        view = networkx.subgraph_view(G, filter_edge=lambda u, v, k: k == 0 and {u, v} != {1, 2})
        self.assertEqual(set(self.s.from_networkx(view).to_dict()),
                         {(0, 1), (1, 0), (2, 3), (3, 2)})
        self.assertEqual(set(
            self.s.from_networkx(networkx.path_graph(4).subgraph([0, 1, 3])).to_edgelist()),
                         {(0, 1, 1), (1, 0, 1)})

    def test_there_and_back(self):
        """What comes back is what went: directed or not, with weights or without, by its names."""
        import networkx
        for kind in (networkx.Graph, networkx.DiGraph):
            G = kind([('a', 'b'), ('b', 'c'), ('c', 'c')])
            back = self.s.from_networkx(G).to_networkx()
            self.assertEqual((type(back), list(back), dict(back.adjacency())),
                             (kind, list(G), dict(G.adjacency())))
            networkx.set_edge_attributes(G, 7, 'weight')
            back = self.s.from_networkx(G).to_networkx()
            self.assertEqual(dict(back.adjacency()), dict(G.adjacency()))
            self.assertEqual(self.s.from_networkx(G, None).to_networkx().edges['a', 'b'], {})
            self.assertEqual(self.s.from_networkx(G).to_networkx(weight=None).edges['a', 'b'], {})
            self.assertIs(type(self.s.from_networkx(G).to_networkx(directed=True)),
                          networkx.DiGraph)
            self.assertEqual(self.s.from_networkx(G).apply('plus',
                                                           right=1).to_networkx().edges['a', 'b'],
                             {'weight': 8})

    def test_out_of_range(self):
        with self.assertRaises(spmat.DimensionMismatch):
            self.s.full(1, 2).to_networkx()
        with self.assertRaises(ValueError):
            self.s.full(2, 2).to_networkx(nodes='abc')


class Nodelists(InSession):
    def test_names_that_nobody_has(self):
        """A nodelist of which no name is known is a mistake; where some are, the others have no
        edge."""
        for pairs, nodelist, words in (([(1, 2), (2, 3)], ['1', '2'], "1 and '1' differ"),
                                       ([('a', 'b')], ['A', 'B'], "from 'a' to 'b'")):
            self.assertIn(words, said(ValueError, self.s.from_edgelist, pairs, nodelist=nodelist))
        self.assertEqual(self.s.from_edgelist([(1, 2), (2, 3)], nodelist=[3, 7]).shape, (2, 2))
        self.assertEqual(self.s.from_edgelist([], nodelist=['x']).nodes, ['x'])
        self.assertEqual(self.s.from_edgelist([(1, 2)], nodelist=[]).shape, (0, 0))


class FromPython(InSession):
    def test_edgelists(self):
        G = self.s.from_edgelist([('a', 'b'), ('b', 'c', 7), ('c', 'a', {'weight': 5})])
        self.assertEqual((G.to_edgelist(), G.directed),
                         ([('a', 'b', 1), ('b', 'c', 7), ('c', 'a', 5)], True))
        self.assertEqual(self.s.from_edgelist([(5, 6), (6, 5)], directed=False).to_edgelist(),
                         [(5, 6, 1), (6, 5, 1)])
        self.assertEqual(self.s.from_edgelist([]).shape, (0, 0))
        self.assertEqual(self.s.from_edgelist([((0, 1), (1, 1))]).nodes, [(0, 1), (1, 1)])
        self.assertIn('edge 1', self.said(self.s.from_edgelist, [(1, 2), (1, 2, 3, 4)]))
        self.assertIn('edge 1: the edge between 1 and 2 is there already, with edge 0',
                      self.said(self.s.from_edgelist, [(1, 2, 3), (1, 2, 4)]))
        self.assertIn('0.5', self.said(self.s.from_edgelist, [(1, 2, .5)]))
        self.assertEqual(self.s.from_edgelist([(1, 2, .5)], values=False).to_edgelist(),
                         [(1, 2, 1)])

    def test_arrays(self):
        G = self.s.from_edgelist(numpy.array([[0, 1], [1, 2], [2, 0], [2, 3]]))
        self.assertEqual((G.shape, G.nvals, G.nodes), ((4, 4), 4, None))

    @needs('pandas', 'numpy')
    def test_pandas(self):
        import pandas
        frame = pandas.DataFrame({'who': ['a', 'b', 'c'], 'whom': ['b', 'c', 'a'],
                                  'sum': [1.5, 2, 3]}, index=[10, 20, 30])
        G = self.s.from_pandas_edgelist(frame, 'who', 'whom', 'sum', scale=2)
        self.assertEqual(G.to_edgelist(), [('a', 'b', 1.5), ('b', 'c', 2), ('c', 'a', 3)])
        self.assertEqual(self.s.from_pandas_edgelist(frame, 'who', 'whom', directed=False).nvals, 6)
        self.assertIn('row 10: a value is a whole number, not 1.5',
                      self.said(self.s.from_pandas_edgelist, frame, 'who', 'whom', 'sum'))
        self.assertIn("no column 'source'", self.said(self.s.from_pandas_edgelist, frame,
                                                      kind=KeyError))
        numbers = pandas.DataFrame({'source': [3, 5], 'target': [5, 9]})
        self.assertEqual(self.s.from_pandas_edgelist(numbers).nodes, [3, 5, 9])
        missing = pandas.DataFrame({'source': ['a', None], 'target': ['b', 'c']})
        self.assertIn('row 1: a name is missing', self.said(self.s.from_pandas_edgelist, missing))

    def test_numbering(self):
        """Whole numbers are numbered ascending, by a table or by sorting; others in the order in
        which they are first seen."""
        r = random.Random(13)
        for span in (5, 50, 1 << 50):
            columns = [numpy.array([r.randrange(-span, span) for _ in range(40)]) for _ in 'ab']
            codes, ascending = edges.number_ascending(columns)
            self.assertEqual(ascending.tolist(),
                             sorted({*columns[0].tolist(), *columns[1].tolist()}))
            self.assertTrue(all((ascending[code] == column).all()
                                for code, column in zip(codes, columns)))
        keys = [r.randrange(7) for _ in range(60)]
        found, seen = edges.number_names([edges.Names(numpy.array(keys), list('abcdefg'))])
        self.assertEqual(list(seen), list(dict.fromkeys('abcdefg'[key] for key in keys)))
        self.assertEqual([seen[code] for code in found[0]], ['abcdefg'[key] for key in keys])
