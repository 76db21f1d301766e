"""Two kinds of vertices, which never meet though their names are equal: people and things that are
both called 1 to n."""
import json
import os
import tempfile
import zipfile

import support
import spmat
from spmat import algorithms as al
from test_metadata import Both

# who bought what, and how often: both lists of names are equal
SOLD = [(1, 1, 5), (1, 2, 3), (2, 2, 7)]
# vertices that are just 0 to n - 1 have no list of names
COUNTED = [(0, 0, 5), (0, 1, 3), (1, 1, 7)]
WORDS = 'vertices of two kinds, though they have the same names'


class TwoKinds(Both):
    def each_matrix(self):
        for s in self.each():
            for edges in (SOLD, COUNTED, [(str(u), str(v), x) for u, v, x in SOLD]):
                yield s.from_edgelist(edges, bipartite=True)

    def test_they_never_meet(self):
        for B in self.each_matrix():
            things = B.T
            self.assertIsNone(B.nodes)
            u, v = (row for row, _, _ in (B.to_edgelist()[0], B.to_edgelist()[-1]))
            people, pairs = B.reduce_rowwise(), B.kronecker(B)
            for call in (lambda: B.mxm(B), lambda: B.ewise_add(things), lambda: B.power(2),
                         lambda: B.ewise_mult(things, 'min'), lambda: B.dup(mask=things.S),
                         lambda: B.dup(mask=~things.S), lambda: B.without(things.S),
                         lambda: B.S & things.S, lambda: B.isequal(things),
                         lambda: B.isclose(things), lambda: B.update(things),
                         lambda: B.mxv(people), lambda: people.T.mxm(things),
                         lambda: B[u, :].ewise_add(things[u, :]),
                         lambda: B[[u], :].ewise_add(things[[u], :]),
                         lambda: B[[u, v], :].mxm(B), lambda: B.assign(things[[u], :], [u]),
                         lambda: spmat.concat([[B, things]]), lambda: spmat.concat([[B], [things]]),
                         lambda: B[B.reduce_columnwise().S, :],
                         lambda: B.select('tril').mxm(B.apply('one')), lambda: pairs.mxm(pairs)):
                self.assertIn(WORDS, support.said(spmat.NamesDiffer, call))
            self.assertIn('one of each is called', support.said(spmat.NamesDiffer, spmat.align, B,
                                                                things))

    def test_each_kind_goes_with_itself(self):
        for B in self.each_matrix():
            (u, _, _), (v, w, _) = B.to_edgelist()[0], B.to_edgelist()[-1]
            shared = B.mxm(B.T)
            self.assertEqual(shared.to_edgelist(), [(u, u, 34), (u, v, 21), (v, u, 21), (v, v, 49)])
            self.assertEqual(al.connected_components(shared).sets(), [{u, v}])
            self.assertEqual(B.T.mxv(B.reduce_rowwise()).by_node(), {u: 40, w: 73})
            self.assertEqual(B.mxv(B.reduce_columnwise().T).by_node(), {u: 55, v: 70})
            self.assertEqual(shared.mxm(B).to_edgelist(), [(u, u, 170), (u, w, 249), (v, u, 105),
                                                           (v, w, 406)])
            self.assertEqual(B[B.reduce_rowwise().S, :].to_edgelist(), B.to_edgelist())
            self.assertEqual(B[:, u].ewise_add(shared[:, u]).by_node(), {u: 39, v: 21})
            self.assertEqual(B[u, :].ewise_add(B[v, :]).by_node(), {u: 5, w: 10})
            self.assertTrue(B.T.T.isequal(B))

    def test_one_list_is_not_another(self):
        """What was read apart is told by its names alone."""
        for s in self.each():
            B = s.from_edgelist(SOLD, bipartite=True)
            kinds = s.from_edgelist([(1, 'tea'), (2, 'jam')], bipartite=True)
            self.assertEqual(B.mxm(kinds).to_edgelist(), [(1, 'tea', 5), (1, 'jam', 3),
                                                          (2, 'jam', 7)])
            later = s.from_edgelist([(2, 1, 4), (1, 2, 1)], bipartite=True)
            later = later[[1, 2], [1, 2]]
            self.assertEqual(B.ewise_add(later).to_edgelist(), [(1, 1, 5), (1, 2, 4), (2, 1, 4),
                                                                (2, 2, 7)])
            self.assertIn(WORDS, support.said(spmat.NamesDiffer, later.ewise_add(B).mxm, later))
            friends = s.from_edgelist([(1, 2, 1), (2, 1, 1)])
            self.assertEqual(friends.mxm(B).to_edgelist(), [(1, 2, 7), (2, 1, 5), (2, 2, 3)])

    def test_values(self):
        """The greatest thing of each person is no person."""
        for s in self.each():
            B = s.from_edgelist([(str(u), str(v), x) for u, v, x in SOLD], bipartite=True)
            things, people = B.reduce_rowwise('argmax'), B.mxm(B.T).reduce_rowwise('argmax')
            self.assertEqual((things.by_node(), people.by_node()),
                             ({'1': '1', '2': '2'}, {'1': '1', '2': '2'}))
            for call in (lambda: things.ewise_mult(people, 'eq'), lambda: things.isequal(people),
                         lambda: spmat.concat([[things, people]])):
                self.assertIn(WORDS, support.said(spmat.NamesDiffer, call))
            self.assertEqual(things.ewise_mult(things, 'eq').by_node(), {'1': 1, '2': 1})

    def test_who_means_one_kind_says_so(self):
        for B in self.each_matrix():
            one = B.dup()
            one.nodes = B.row_nodes
            self.assertEqual(one.mxm(one).to_triples(), [(0, 0, 25), (0, 1, 36), (1, 1, 49)])
            self.assertIsNotNone(al.pagerank(one))
            renamed = B.dup()
            renamed.row_nodes = renamed.column_nodes = ['p', 'q']
            self.assertIn(WORDS, support.said(spmat.NamesDiffer, renamed.mxm, renamed))

    def test_names_that_stand_apart_are_brought_together(self):
        """The graph of people and things, where no two have one name."""
        for s in self.each():
            B = s.from_edgelist([('Ann', 'tea', 5), ('Bob', 'jam', 7)], bipartite=True)
            one, two = spmat.align(B, B.T)
            self.assertEqual(one.ewise_add(two).to_edgelist(),
                             [('Ann', 'tea', 5), ('Bob', 'jam', 7), ('tea', 'Ann', 5),
                              ('jam', 'Bob', 7)])

    def test_files(self):
        with tempfile.TemporaryDirectory() as folder:
            path = os.path.join(folder, 'sold.spmat')
            for B in self.each_matrix():
                B.session.save(path, B=B, people=B.reduce_rowwise(), best=B.reduce_rowwise('argmax'))
                found = B.session.load(path)
                for call in (lambda: found['B'].mxm(found['B']),
                             lambda: found['B'].mxv(found['people'])):
                    self.assertIn(WORDS, support.said(spmat.NamesDiffer, call))
                self.assertEqual(found['B'].T.mxv(found['people']).to_list(), [40, 73])
                # those of another file are others
                self.assertEqual(B.ewise_add(found['B'], 'minus').reduce_scalar(), 0)
                self.assertEqual(found['best'].ewise_mult(B.reduce_rowwise('argmax'), 'eq')
                                 .to_list(), [1, 1])

    def test_damaged_files(self):
        s = next(self.each())
        B = s.from_edgelist(SOLD, bipartite=True)
        with tempfile.TemporaryDirectory() as folder:
            path = os.path.join(folder, 'sold.spmat')
            s.save(path, B=B)
            with zipfile.ZipFile(path) as file:
                parts = {name: file.read(name) for name in file.namelist()}
            for what, wrong in [('kinds', kinds) for kinds in (
                    None, 5, [1, -1], [1, -1, 0, 0], [1.5, 0, 0], [True, 0, 0], ['1', 0, 0])] + [
                        ('cut', cut) for cut in (None, 1, [1], [1, 3], [-1, 0], [True, 0])]:
                contents = json.loads(parts['matrices.json'])
                contents['matrices']['B'][what] = wrong
                with zipfile.ZipFile(path, 'w') as file:
                    for name, text in parts.items():
                        file.writestr(name, json.dumps(contents) if name == 'matrices.json'
                                      else text)
                self.assertIn('%s: expected' % what, support.said(spmat.ReadError, s.load, path))
