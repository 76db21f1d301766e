"""Names that can't be broken: lists handed out, columns whose values are vertices, and matrices of
one row or one column."""
import decimal
import math
import os
import random
import tempfile
import unittest
import warnings

import numpy
import pandas

import graphs
import support
import spmat
from spmat import algorithms as al

NAMES = ['Cid', 'Bob', 'Ann']


class HandedOut(support.InSession):
    """What a matrix hands out of its names changes nothing."""

    def test_lists_are_views(self):
        G = self.session.from_edgelist([('Cid', 'Bob', 1), ('Bob', 'Ann', 2)])
        ranks = al.pagerank(G)
        seen = spmat.events(self.session, [('Cid', 'Bob', 1, 2), ('Bob', 'Ann', 3, 4)])
        for names in (G.nodes, G.row_nodes, G.column_nodes, ranks.nodes, G.T.nodes, seen.nodes):
            for call in (lambda: names.sort(), lambda: names.reverse(), lambda: names.append('x'),
                         lambda: names.remove('Bob'), lambda: names.clear(), lambda: names.pop(),
                         lambda: names.extend('x'), lambda: names.insert(0, 'x')):
                self.assertIn('list(G.nodes)', support.said(AttributeError, call))
            for call in (lambda: random.shuffle(names), lambda: names.__setitem__(0, 'x')):
                with self.assertRaises((TypeError, AttributeError)):
                    call()
            with self.assertRaises(TypeError):
                names[0] = 'x'
            with self.assertRaises(TypeError):
                del names[0]
        self.assertEqual(G.to_edgelist(), [('Cid', 'Bob', 1), ('Bob', 'Ann', 2)])
        self.assertEqual(al.bfs_levels(G, 'Cid').by_node(), {'Cid': 0, 'Bob': 1, 'Ann': 2})

    def test_they_are_sequences(self):
        names = self.session.from_edgelist([('Cid', 'Bob', 1), ('Bob', 'Ann', 2)]).nodes
        self.assertEqual(names, NAMES)
        self.assertEqual(NAMES, names)
        self.assertEqual(names, tuple(NAMES))
        self.assertNotEqual(names, NAMES[::-1])
        self.assertEqual((len(names), names[0], names[-1], names[:2], list(reversed(names))),
                         (3, 'Cid', 'Ann', ['Cid', 'Bob'], NAMES[::-1]))
        self.assertEqual((names.index('Bob'), names.count('Bob'), 'Ann' in names, 'x' in names),
                         (1, 1, True, False))
        self.assertEqual(names + ['x'], [*NAMES, 'x'])
        self.assertEqual(sorted(names), sorted(NAMES))
        self.assertEqual({names: 1}[self.session.from_edgelist([('Cid', 'Bob'),
                                                               ('Bob', 'Ann')]).nodes], 1)
        changed = list(names)
        changed.sort()
        self.assertEqual(names, NAMES)
        self.assertEqual(repr(names), repr(NAMES))

    def test_a_string_is_no_list_of_names(self):
        G = self.session.from_triples([(0, 1, 5)], 3, 3)
        self.assertIn("['abc'", support.said(TypeError, lambda: setattr(G, 'nodes', 'abc')))


class VertexValues(support.InSession):
    """Columns whose values are vertices speak names."""

    def setUp(self):
        super().setUp()
        self.G = self.session.from_edgelist([(1, 2), (2, 3), (3, 4)], directed=False)
        self.parents = al.bfs_parents(self.G, 1)
        self.parts = al.connected_components(
            self.session.from_edgelist([(1, 2), (3, 4)], directed=False))

    def test_values_are_names(self):
        p, c = self.parents, self.parts
        self.assertEqual((p[4], p.get(4), p[4, 0], p.get(4, 0)), (3, 3, 3, 3))
        self.assertEqual((c[3], c[4], c.by_node()[3]), (3, 3, 3))
        walk, at = [], 4
        while at != 1:
            walk.append(at)
            at = p[at]
        self.assertEqual(walk, [4, 3, 2])
        self.assertEqual(c.reduce_scalar('max'), 3)
        self.assertEqual(c.reduce_scalar('min'), 1)
        self.assertEqual(c.top(1), [(3, 3)])
        self.assertEqual(p.to_pandas().to_dict(), {1: 1, 2: 1, 3: 2, 4: 3})
        self.assertEqual(p.describe().to_dict(), {'count': 4, 'unique': 3, 'top': 1, 'freq': 2})
        self.assertEqual(dict(p.by_node()), {1: 1, 2: 1, 3: 2, 4: 3})

    def test_names_beside_them(self):
        c = self.parts
        self.assertEqual(c.select('==', 3).by_node(), {3: 3, 4: 3})
        self.assertEqual(c.select('!=', 3).by_node(), {1: 1, 2: 1})
        self.assertEqual(c.select('valueeq', 1).by_node(), {1: 1, 2: 1})
        self.assertEqual(c.apply('eq', right=3).by_node(), {1: 0, 2: 0, 3: 1, 4: 1})
        self.assertEqual(c.apply('ne', left=3).by_node(), {1: 1, 2: 1, 3: 0, 4: 0})
        self.assertEqual(c.apply('second', right=4).by_node(), dict.fromkeys((1, 2, 3, 4), 4))
        self.assertEqual(c.assign(2, [3]).by_node(), {1: 1, 2: 1, 3: 2, 4: 3})
        self.assertEqual(c.ewise_union(c.select('==', 3), 'second', 1, 1).by_node(),
                         {1: 1, 2: 1, 3: 3, 4: 3})
        self.assertIn('no vertex 0', support.said(ValueError, lambda: c.select('==', 0)))
        self.assertIn('no vertex 9', support.said(ValueError, lambda: c.assign(9, [3])))

    def test_text(self):
        c = al.connected_components(self.session.from_edgelist([('a', 'b'), ('c', 'd')],
                                                              directed=False))
        self.assertEqual(c.select('==', 'c').by_node(), {'c': 'c', 'd': 'c'})
        self.assertIn('no vertex 0', support.said(ValueError, lambda: c.select('==', 0)))

    def test_arithmetic_is_refused(self):
        p, G = self.parents, self.G
        for call in (lambda: p.apply('plus', right=1), lambda: p.apply('times', right=2),
                     lambda: p.apply('abs'), lambda: p.apply('ainv'), lambda: p.reduce_scalar(),
                     lambda: p.reduce_scalar('mean'), lambda: p.rescale(10),
                     lambda: p.ewise_add(p), lambda: p.ewise_mult(p), lambda: p.select('>', 2),
                     lambda: p.apply('lt', right=2), lambda: G.mxv(p), lambda: p.kronecker(p),
                     lambda: p.reduce_columnwise('plus'), lambda: p.ewise_mult(G[:, 1], 'max'),
                     lambda: p.ewise_mult(G[:, 1], 'eq'), lambda: p.apply('nonzero')):
            self.assertIn('.unit = 1', support.said(spmat.UnitsDiffer, call))
        self.assertIn('c.S', support.said(ValueError, lambda: p.V))
        numbers = p.dup()
        numbers.unit = 1
        self.assertEqual(numbers.apply('plus', right=1).by_node(), {1: 1, 2: 1, 3: 2, 4: 3})

    def test_what_takes_no_value_is_allowed(self):
        p, G = self.parents, self.G
        self.assertEqual(p.apply('one').by_node(), {1: 1, 2: 1, 3: 1, 4: 1})
        self.assertEqual(p.ewise_mult(G[:, 2], 'second').by_node(), {1: 1, 3: 1})
        self.assertEqual(p.ewise_mult(G[:, 2], 'first').by_node(), {1: 1, 3: 2})
        self.assertEqual(p.reduce_scalar('count'), 4)
        self.assertEqual(G.mxv(p, 'min_second').by_node(), {1: 1, 2: 1, 3: 1, 4: 2})
        self.assertEqual(G.mxv(p, 'plus_pair').by_node(), {1: 1, 2: 2, 3: 2, 4: 1})
        self.assertEqual(p.dup(mask=G[:, 2].S).by_node(), {1: 1, 3: 2})
        self.assertEqual(p.ewise_mult(p, 'eq').by_node(), dict.fromkeys((1, 2, 3, 4), 1))
        self.assertTrue(p.isequal(p.dup()))

    def test_other_lists(self):
        s = self.session
        A = s.from_edgelist([('x', 'a', 5), ('x', 'b', 7), ('y', 'a', 9), ('y', 'b', 1)],
                            bipartite=True)
        B = s.from_edgelist([('x', 'q', 5), ('x', 'r', 7), ('y', 'r', 9), ('y', 'q', 1)],
                            bipartite=True)
        a, b = A.reduce_rowwise('argmax'), B.reduce_rowwise('argmax')
        self.assertEqual((a.by_node(), b.by_node()), ({'x': 'b', 'y': 'a'}, {'x': 'r', 'y': 'r'}))
        for call in (lambda: a.ewise_mult(b, 'eq'), lambda: a.ewise_add(b, 'first'),
                     lambda: a.ewise_mult(b, 'max'), lambda: a.isequal(b), lambda: a.isclose(b),
                     lambda: a.update(b, mask=b.S), lambda: a.assign(b, ['x', 'y'])):
            self.assertIn("'a' and 'q'", support.said(spmat.NamesDiffer, call))
        self.assertEqual(a.ewise_mult(b, 'first').by_node(), {'x': 'b', 'y': 'a'})
        C = s.from_edgelist([('x', 'a', 5), ('y', 'b', 7), ('y', 'c', 9)], bipartite=True)
        self.assertIn('have different names: 2 and 3 names', support.said(
            spmat.NamesDiffer, a.ewise_mult, C.reduce_rowwise('argmax'), 'eq'))

    def test_forms(self):
        """Whatever gives the entries another place keeps what their values are."""
        p = self.parents
        self.assertEqual(p.diag().to_edgelist(), [(1, 1, 1), (2, 2, 1), (3, 3, 2), (4, 4, 3)])
        self.assertEqual(p.T.by_node(), p.by_node())
        self.assertEqual(p.reshape(2, 2).to_edgelist(), [(0, 0, 1), (0, 1, 1), (1, 0, 2),
                                                         (1, 1, 3)])
        self.assertEqual(spmat.concat([[p, p]]).to_edgelist()[-1], (4, 1, 3))
        self.assertEqual(p[[4, 2]].by_node(), {4: 3, 2: 1})
        self.assertEqual(p.split(2)[1][0].by_node(), {3: 2, 4: 3})
        self.assertEqual(spmat.bipartite(p).to_edgelist()[-1][2], 3)
        wide = spmat.align(p, self.session.from_edgelist([(0, 5)]))[0]
        self.assertEqual(wide.by_node(), p.by_node())

    def test_positional_products(self):
        s = self.session
        G = s.from_edgelist([(1, 2, 5), (2, 3, 6), (1, 3, 7)])
        self.assertEqual(G.mxm(G, 'min_secondi').to_edgelist(), [(1, 3, 2)])
        self.assertEqual(G.mxm(G, 'min_firstj').to_edgelist(), [(1, 3, 2)])
        self.assertEqual(G.mxm(G, 'min_firsti').to_edgelist(), [(1, 3, 1)])
        self.assertEqual(G.mxm(G, 'min_secondj').to_edgelist(), [(1, 3, 3)])
        self.assertEqual(G.mxm(G, 'min_secondi1').to_edgelist(), [(1, 3, 2)])
        plain = s.from_triples([(0, 1, 5), (1, 2, 6)], 3, 3)
        self.assertEqual(plain.mxm(plain, 'min_secondi').to_triples(), [(0, 2, 1)])

    def test_loops_and_algorithms_take_places(self):
        c = self.parts
        G = self.session.from_edgelist([(1, 2), (3, 4)], directed=False)
        self.assertAlmostEqual(al.modularity(G, c), .5)
        found = spmat.fixpoint(c, lambda d: d.ewise_add(G.mxv(d, 'min_second'), 'min'))
        self.assertEqual(found.by_node(), c.by_node())

    def test_own_functions_are_told(self):
        with self.assertWarns(UserWarning) as told:
            self.parents.apply(lambda x: x + 1)
        self.assertIn('places', str(told.warning))


class OneRow(support.InSession):
    """Names are compared where there is one row, or one column."""

    def setUp(self):
        super().setUp()
        s = self.session
        self.tea = s.from_edgelist([('Ann', 'tea', 1), ('Bob', 'tea', 2)], bipartite=True)
        self.jam = s.from_edgelist([('Ann', 'jam', 10), ('Bob', 'jam', 20)], bipartite=True)

    def test_names_are_compared(self):
        tea, jam = self.tea, self.jam
        other = self.session.from_edgelist([('Ann', 'x', 1), ('Bob', 'x', 2)], bipartite=True)
        for call in (lambda: tea.ewise_add(jam), lambda: tea.ewise_mult(jam),
                     lambda: tea.without(jam.S), lambda: tea.dup(mask=jam.S),
                     lambda: tea.update(jam), lambda: (tea.S & jam.S),
                     lambda: tea.T.ewise_add(jam.T), lambda: tea.dup(mask=~jam.S)):
            self.assertIn("0: 'tea' and 'jam'", support.said(spmat.NamesDiffer, call))
        for call in (lambda: tea.isequal(other), lambda: tea.isclose(other)):
            self.assertIn("0: 'tea' and 'x'", support.said(spmat.NamesDiffer, call))

    def test_align(self):
        a, b = spmat.align(self.tea, self.jam)
        self.assertEqual(a.ewise_add(b).to_edgelist(),
                         [('Ann', 'tea', 1), ('Ann', 'jam', 10), ('Bob', 'tea', 2),
                          ('Bob', 'jam', 20)])
        a, b = spmat.align(self.tea.T, self.jam.T)
        self.assertEqual(a.ewise_add(b).row_nodes, ['tea', 'jam'])

    def test_inner_side(self):
        s = self.session
        buys = s.from_edgelist([('Ann', 'i1'), ('Bob', 'i1')], bipartite=True)
        kinds = s.from_edgelist([('i2', 'Books')], bipartite=True)
        self.assertIn("'i1' and 'i2'",
                      support.said(spmat.NamesDiffer, lambda: buys.mxm(kinds, 'plus_pair')))

    def test_cut_from_one_graph(self):
        G = self.session.from_edgelist([('Ann', 'x', 1), ('Bob', 'x', 2), ('Bob', 'Ann', 4)])
        both = G['Ann', :].ewise_add(G['Bob', :])
        self.assertEqual((both.by_node(), both.row_nodes), ({'x': 3, 'Ann': 4}, None))
        self.assertEqual(G[['Ann'], :].ewise_add(G[['Bob'], :]).by_node(), {'x': 3, 'Ann': 4})
        self.assertEqual(G[:, 'x'].ewise_mult(G[:, 'Ann']).by_node(), {'Bob': 8})
        self.assertEqual(G['Bob', :].without(G['Ann', :].S).by_node(), {'Ann': 4})
        row = self.session.from_edgelist([('tea', 'Ann', 1), ('tea', 'x', 1), ('tea', 'Bob', 1)],
                                         bipartite=True)[:, G.nodes]
        with self.assertRaises(spmat.NamesDiffer):
            G['Ann', :].ewise_add(row)

    def test_single_entries_are_seen_as_longer_vectors_are(self):
        """A row of one column is a row, whatever else it is cut to."""
        s, tea = self.session, self.tea
        G = s.from_edgelist([('a', 'b', 1), ('b', 'c', 2), ('a', 'c', 7)])
        N = s.from_edgelist([(0, 1, 1), (1, 2, 2), (0, 2, 7)])
        for part, wanted in ((tea['Bob', :], {'tea': 2}), (tea[['Bob'], :], {'tea': 2}),
                             (tea['Bob', ['tea']], {'tea': 2}), (tea[['Bob'], 'tea'], {'Bob': 2}),
                             (tea.T['tea', ['Bob']], {'Bob': 2}), (tea.T[:, 'Bob'], {'tea': 2}),
                             (G['a', ['c']], {'c': 7}), (G[['a'], 'c'], {'a': 7}),
                             (G['a', :][:, ['c']], {'c': 7}), (G[:, 'c'][['a'], :], {'a': 7}),
                             (spmat.Vector(G['a', :])[['c']], {'c': 7}),
                             (spmat.Vector(G[:, 'c'])[['a']], {'a': 7}),
                             (N[0, [2]], {2: 7}), (N[[0], 2], {0: 7}), (N[:, 2][[0], :], {0: 7})):
            (name, value), = wanted.items()
            self.assertEqual((part.by_node(), part.nodes, part.get(name)),
                             (wanted, [name], value))
            self.assertEqual((part.top(1), part.to_pandas().to_dict()), ([(name, value)], wanted))
        self.assertEqual(tea[:, 'tea'].ewise_add(self.jam[:, 'jam']).by_node(),
                         {'Ann': 11, 'Bob': 22})
        with tempfile.TemporaryDirectory() as folder:
            path = os.path.join(folder, 'cut.spmat')
            s.save(path, one=tea['Bob', :], row=G['a', :], tea=tea)
            found = s.load(path)
        self.assertEqual(found['one'].by_node(), {'tea': 2})
        self.assertEqual(found['row'].ewise_add(G['b', :]).by_node(), {'b': 1, 'c': 9})
        self.assertEqual(found['tea'].column_nodes, ['tea'])

    def test_one_column_folded(self):
        r = self.tea.reduce_columnwise('plus')
        self.assertEqual((r.by_node(), r.top(1), r.to_pandas().to_dict(), r.nodes),
                         ({'tea': 3}, [('tea', 3)], {'tea': 3}, ['tea']))
        self.assertEqual((r['tea'], r.get('tea')) if r.is_vector
                         else (spmat.Vector(r)['tea'], r.get('tea')), (3, 3))
        self.assertEqual(self.tea.T.reduce_rowwise('plus').by_node(), {'tea': 3})


class Numbers(support.InSession):
    """What numbers a matrix gives."""

    def test_single_values_are_divided(self):
        S = self.session.from_edgelist([('a', 'b', 0.5), ('b', 'a', 3.25)], scale=100)
        self.assertEqual(S['a', 'b'], float(S[['a'], ['b']]))
        self.assertEqual((float(S[['a'], ['b']]), int(S[['b'], ['a']])), (0.5, 3))
        self.assertAlmostEqual(float(al.pagerank(S)[['a'], :]), al.pagerank(S)['a'])

    def test_growing_tells_of_names(self):
        s = self.session
        H = s.from_edgelist([(1, 2, 5), (2, 3, 6)])
        with self.assertWarns(UserWarning) as told:
            grown = H.resize(4, 4)
        self.assertIn('nodes=', str(told.warning))
        self.assertIsNone(grown.nodes)
        with warnings.catch_warnings():
            warnings.simplefilter('error')
            named = H.resize(4, 4, nodes=[1, 2, 3, 9])
            H.resize(2, 2)
            self.assertIsNone(s.from_triples([(0, 1, 5)], 2, 2).resize(3, 3).nodes)
            s.from_edgelist([(0, 1, 5)]).resize(3, 3)
        self.assertEqual(al.bfs_levels(named, 1).by_node(), {1: 0, 2: 1, 3: 2})

    def test_counts_have_every_vertex(self):
        s = self.session
        G = s.from_edgelist([('a', 'b'), ('b', 'c'), ('a', 'c'), ('c', 'd')], directed=False)
        self.assertAlmostEqual(al.clustering(G).reduce_scalar('mean'), 7 / 12)
        chain = al.degrees(s.from_edgelist([('a', 'b'), ('b', 'c')]))
        self.assertAlmostEqual(chain.reduce_scalar('mean'), 2 / 3, 5)
        self.assertEqual(chain.select('==', 0).by_node(), {'c': 0})
        self.assertEqual(al.triangles(G).by_node(), {'a': 1, 'b': 1, 'c': 1, 'd': 0})

    def test_two_values_of_an_edge(self):
        G = self.session.from_edgelist([('a', 'b', 1), ('b', 'a', 9)])
        self.assertIn('two values', support.said(ValueError,
                                                 lambda: G.to_networkx(directed=False)))
        self.assertEqual(len(G.to_networkx(directed=False, weight=None).edges), 1)
        H = self.session.from_edgelist([('a', 'b', 4), ('b', 'a', 4), ('b', 'c', 2)])
        self.assertEqual(dict(H.to_networkx(directed=False).edges), {
            ('a', 'b'): {'weight': 4}, ('b', 'c'): {'weight': 2}})

    def test_which_way_distances_are_counted(self):
        first = al.distance_counts.__doc__.partition('\n')[0]
        self.assertIn('paths lead to each', first)


class Kinds(support.InSession):
    """Names of numpy and pandas, several kinds of names, and columns of vertices of two graphs."""

    def test_numbers_of_numpy_are_whole_numbers(self):
        numbers, others = (numpy.array([5, 9]), numpy.array([9, 7])), ([5, 9], [9, 7])
        frames = [pandas.DataFrame({'source': pandas.Series(one, dtype=kind),
                                    'target': pandas.Series(two, dtype=kind)})
                  for one, two in (numbers,) for kind in (object, 'category')]
        made = [self.session.from_edgelist(zip(*numbers)), self.session.from_edgelist(zip(*others)),
                *map(self.session.from_pandas_edgelist, frames)]
        for G in made:
            self.assertEqual(list(G.nodes), [5, 7, 9])
            self.assertEqual({type(name) for name in G.nodes}, {int})
        self.assertIsNone(self.session.from_edgelist(zip(numpy.array([2, 0]), numpy.array([0, 1]))
                                                     ).nodes)

    def test_numbers_that_are_text(self):
        """1 is not the second of '1', '2', '3': it is no name."""
        G = self.session.from_edgelist([('1', '2', 5), ('2', '3', 7)])
        seen = spmat.events(self.session, [('1', '2', 3)])
        for call in (lambda: G.index(1), lambda: G[1, '2'], lambda: G.get(1, '2'),
                     lambda: G[[1, 2], :], lambda: al.bfs_levels(G, 1), lambda: G.assign(9, 1, 2),
                     lambda: al.pagerank(G, personalization={1: 1}),
                     lambda: al.bfs_parents(G, '1').select('==', 1),
                     lambda: seen.earliest_arrival(1)):
            self.assertIn("did you mean '1'? 1 and '1' are two names",
                          support.said(ValueError, call))
        self.assertIn("slice of names, such as '1':'3'", support.said(ValueError, lambda: G[0:2, :]))
        self.assertIn("no vertex 0: they are '1', '2', '3'",
                      support.said(ValueError, lambda: G[0, :]))
        self.assertEqual(G['1':'2', :].to_edgelist(), [('1', '2', 5), ('2', '3', 7)])
        for names in (['1.0', '2.0'], ['-1', '+2'], ['x', '3']):
            H = self.session.from_coo([0], [1], 5, 2, 2, nodes=names)
            self.assertRaises(ValueError, H.index, 0)
        H = self.session.from_edgelist([(1, 2, 5)])
        self.assertIn("did you mean 1? '1' and 1 are two names",
                      support.said(ValueError, lambda: H['1', 2]))
        self.assertEqual(self.session.from_edgelist([('a', 'b', 5)])[0, 1], 5)

    def test_tables_whose_columns_say_another_order(self):
        frame = pandas.DataFrame({'weight': [7], 'source': [1], 'target': [2]})
        with self.assertRaisesRegex(ValueError, r"frame\['source', 'target', 'weight'\]|"
                                                r"frame\[\['source', 'target', 'weight'\]\]"):
            self.session.from_edgelist(frame)
        found = self.session.from_edgelist(frame[['source', 'target', 'weight']])
        self.assertEqual(found.to_edgelist(), [(1, 2, 7)])
        with self.assertRaisesRegex(ValueError, 'in order'):
            self.session.from_triples(pandas.DataFrame({'value': [7], 'row': [1], 'column': [0]}),
                                      2, 2)

    def test_names_of_several_kinds_in_pandas(self):
        G = self.session.from_edgelist([(2 ** 53 + 1, 0.5)])
        self.assertEqual(list(al.degrees(G).to_pandas().index), [2 ** 53 + 1, 0.5])
        H = self.session.from_edgelist([(1, 2, 5), (2, None, 6)], missing=None)
        for found in (al.degrees(H).to_pandas().index, H.to_frame().index, H.to_frame().columns):
            self.assertEqual(list(found), [1, 2, None])
        self.assertEqual(list(H.to_pandas_edgelist()['target']), [2, None])
        self.assertEqual(H.to_pandas_edgelist()['source'].dtype, object)

    def test_text_as_nodelist(self):
        with self.assertRaisesRegex(TypeError, 'not the text'):
            self.session.from_edgelist([('Ann', 'n'), ('A', 'n')], nodelist='An')

    def test_columns_of_vertices_are_aligned(self):
        one = self.session.from_edgelist([('Ann', 'Dee'), ('Bob', 'Ann'), ('Cid', 'Dee')],
                                         directed=False)
        two = self.session.from_edgelist([('Dee', 'Bob'), ('Ann', 'Dee'), ('Cid', 'Bob')],
                                         directed=False)
        p, q = al.bfs_parents(one, 'Dee'), al.bfs_parents(two, 'Dee')
        with self.assertRaisesRegex(spmat.NamesDiffer, 'align'):
            p.ewise_mult(q, 'eq')
        wanted = {name: int(parent == q.by_node()[name]) for name, parent in p.by_node().items()
                  if name in q.by_node()}
        before = p.by_node(), q.by_node()
        p, q = spmat.align(p, q)
        self.assertEqual((p.by_node(), q.by_node()), before)
        self.assertEqual(p.ewise_mult(q, 'eq').by_node(), wanted)

    def test_values_that_are_no_whole_numbers(self):
        G = self.session.from_edgelist([('a', 'b', decimal.Decimal('3'))])
        self.assertEqual(G['a', 'b'], 3)
        with self.assertRaisesRegex(ValueError, 'scale=1000'):
            self.session.from_edgelist([('a', 'b', decimal.Decimal('3.25'))])
        with self.assertRaises(ValueError) as caught:
            self.session.from_edgelist([('a', 'b', math.inf)])
        self.assertNotIn('scale=', str(caught.exception))

    def test_who_is_no_vertex_has_no_entry(self):
        v = al.degrees(self.session.from_edgelist([('Ann', 'Bob')]))
        self.assertTrue('Ann' in v)
        self.assertFalse('zoe' in v)


class Refusals(support.InSession):
    """What is refused says what to do."""

    def test_positions_in_functions(self):
        G = self.session.from_edgelist([(1, 2, 5), (2, 3, 6), (1, 3, 7)])
        for call in (lambda: G.select(lambda x, i, j: i == 1),
                     lambda: G.apply(lambda x, i, j: i + j)):
            with self.assertWarns(UserWarning) as told:
                call()
            self.assertIn('from 0', str(told.warning))
        with warnings.catch_warnings():
            warnings.simplefilter('error')
            G.select(spmat.indexunary(lambda x, i, j: i == 1))
            G.select(lambda x: x > 5)
            self.session.from_edgelist([('a', 'b')]).select(lambda x, i, j: i == 1)

    def test_functions_of_numpy(self):
        import numpy
        G = self.session.from_edgelist([(1, 2, 5), (2, 3, 6), (1, 3, 7)])
        for function, name in ((numpy.sum, 'plus'), (numpy.max, 'max'), (numpy.min, 'min'),
                               (numpy.mean, 'mean'), (numpy.prod, 'times'), (numpy.any, 'lor')):
            self.assertIn('"%s"' % name,
                          support.said((TypeError, ValueError, spmat.CompileError),
                                       lambda: G.reduce_rowwise(function)))

    def test_assigned_rows_of_other_names(self):
        s = self.session
        G = s.from_edgelist([(1, 2), (2, 3), (4, 5), (5, 1)])
        H = s.from_edgelist([(1, 2), (2, 3), (4, 5), (5, 1)])
        words = support.said(spmat.NamesDiffer, lambda: G.assign(H[[1, 2], :], [4, 5]))
        self.assertIn('the rows that are set', words)
        self.assertNotIn('first', words)

    def test_the_call_that_was_written(self):
        """What joins tiles, or parts, is no operator that the caller wrote."""
        s = self.session
        cents, tenths = (s.from_edgelist([('a', 'b', 0.5), ('b', 'a', 1.5)], scale=scale)
                         for scale in (100, 10))
        p = al.bfs_parents(s.from_edgelist([('a', 'b')], directed=False), 'a')
        q = al.bfs_parents(s.from_edgelist([('x', 'b')], directed=False), 'x')
        q.nodes = p.nodes
        for name, call in (('concat', lambda: spmat.concat([[cents, tenths]])),
                           ('concat', lambda: spmat.concat([[p, q]])),
                           ('concat', lambda: spmat.concat([[p], [tenths[:, 'a']]])),
                           ('assign', lambda: cents.assign(tenths[['a'], :], ['a'])),
                           ('assign', lambda: cents.assign(tenths[:, ['a']], None, ['a'])),
                           ('assign', lambda: cents.assign(tenths, mask=tenths.S)),
                           ('assign', lambda: cents.assign(tenths[['a'], :], ['a'], mask=cents.S)),
                           ('assign', lambda: p.assign(q[['a'], :], ['a'])),
                           ('assign', lambda: p.assign(tenths[['a'], 'a'], ['a'])),
                           ('update', lambda: cents.update(tenths, mask=tenths.S)),
                           ('update', lambda: p.update(q, mask=q.S)),
                           ('plus', lambda: cents.assign(tenths, accum='plus'))):
            with warnings.catch_warnings():
                warnings.simplefilter('ignore')
                words = support.said((spmat.UnitsDiffer, spmat.NamesDiffer), call)
            self.assertIn(name, words)
            self.assertNotIn('first', words)
        with self.assertRaisesRegex(ValueError, r'spmat\.bipartite\(B\) is the graph'):
            al.pagerank(s.from_edgelist([('Ann', 'tea'), ('Bob', 'tea')], bipartite=True))
        three = s.full(3, 3)
        self.assertIn('2x2 places are set', support.said(ValueError, cents.assign, three))
        self.assertIn('in `update`', support.said(spmat.SpmatError, cents.update, three))
        self.assertEqual(cents.assign(tenths).to_edgelist(), tenths.to_edgelist())
        self.assertEqual(spmat.concat([[cents, tenths.rescale(100)]]).to_edgelist(raw=True)[1][2],
                         50)

    def test_truth_values_are_no_vertices(self):
        G = self.session.from_edgelist([(1, 2), (2, 3)])
        for call in (lambda: G.index(True), lambda: al.bfs_levels(G, True), lambda: G[True, 2],
                     lambda: G.index(1.5)):
            with self.assertRaises((TypeError, ValueError)):
                call()

    def test_dates_are_not_added(self):
        import datetime
        T = self.session.from_edgelist([('a', 'b', datetime.date(2024, 5, 31)),
                                        ('b', 'c', datetime.date(2024, 6, 2))], unit='D')
        day = datetime.date(2024, 1, 1)
        for call in (lambda: T.reduce_scalar(), lambda: T.reduce_rowwise(),
                     lambda: T.apply('plus', right=day)):
            self.assertIn('time', support.said((ValueError, TypeError), call))
        later = T.apply('plus', right=datetime.timedelta(days=1))
        self.assertEqual(later.reduce_scalar('max') - T.reduce_scalar('max'), 1)


class Wanted(support.InSession):
    """What was looked for and not found."""

    def test_frames(self):
        G = self.session.from_edgelist([('a', 'b', 5), ('b', 'c', 6), ('a', 'c', 7)])
        frame = G.to_frame()
        self.assertEqual((list(frame.index), list(frame.columns)), (['a', 'b', 'c'],) * 2)
        self.assertEqual(frame.loc['a', 'c'], 7)
        self.assertEqual(frame.loc['c', 'a'], 0)
        self.assertTrue(self.session.from_dense(frame, missing=0).isequal(G))
        self.assertEqual(list(G.head(2).to_numpy()[:, 0]), ['a', 'a'])
        told = G.describe()
        self.assertEqual((told['count'], told['min'], told['max'], told['mean']), (3, 5, 7, 6))

    def test_vectors(self):
        v = self.session.vector_from_coo([0, 3], [5, 6], 4)
        self.assertEqual((v.to_list(), v.size), ([5, None, None, 6], 4))
        v = self.session.vector_from_coo([0, 1], 1, nodes=['a', 'b', 'c'])
        self.assertEqual(v.by_node(), {'a': 1, 'b': 1})

    def test_graphs_of_igraph(self):
        """What igraph gives: edges by number, attributes of vertices and of edges."""
        G = self.session.from_igraph(graphs.IGraph())
        self.assertEqual((G.nodes, G.directed), (['b', 'a', 'c'], False))
        self.assertEqual(G.to_edgelist(), [('b', 'a', 5), ('a', 'b', 5), ('a', 'c', 6),
                                           ('c', 'a', 6)])
        self.assertIn('igraph', support.said(TypeError, lambda: self.session.from_igraph(3)))

    def test_personalization(self):
        import pandas
        G = self.session.from_edgelist([('a', 'b', 5), ('b', 'c', 6)])
        wanted = al.pagerank(G, personalization={'a': 5}).by_node()
        for given in (pandas.Series({'a': 5}), G[:, 'b']):
            self.assertEqual(al.pagerank(G, personalization=given).by_node(), wanted)

    def test_hints(self):
        G = self.session.from_edgelist([('a', 'b', 5)])
        for name, word in (('average_clustering', 'mean'), ('density', 'nvals'),
                           ('betweenness_centrality', 'betweenness')):
            self.assertIn(word, support.said(AttributeError, lambda: getattr(al, name)))
        for name in ('loc', 'iloc', 'groupby', 'merge', 'columns', 'dropna', 'fillna', 'iterrows',
                     'density', 'nsmallest', 'nlargest', 'sort_values', 'value_counts', 'isin'):
            self.assertIn('write', support.said(AttributeError, lambda: getattr(G, name)), name)


if __name__ == '__main__':
    unittest.main()
