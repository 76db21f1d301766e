"""Matrices whose vertices have different names: no job combines them by position. What is called
alike is combined, and keeps its names."""
import os
import pickle
import tempfile
import unittest

import pytest

import alike
import support  # noqa: F401 (finds the program)
import spmat
import spmat_blocks as blocks
from spmat import algorithms

pytestmark = pytest.mark.slow

NAMES = ['Ann', 'Bob', 'Cid']
EDGES = [(0, 1, 5), (1, 2, 3), (2, 0, 2), (2, 2, 1)]
# What a second matrix may be called beside one with these names, and whether that agrees.
SECONDS = {
    'the same list': (lambda s, A: named(s, A.nodes), True),
    'an equal list': (lambda s, A: named(s, list(NAMES)), True),
    'another order': (lambda s, A: named(s, ['Ann', 'Cid', 'Bob']), False),
    'other names': (lambda s, A: named(s, ['x', 'y', 'z']), False),
    'numbers': (lambda s, A: s.from_edgelist(EDGES), False),
    'numbers as names': (lambda s, A: named(s, [0, 1, 2]), False),
    'positions': (lambda s, A: s.from_triples(EDGES, 3, 3), False),
    'a constant': (lambda s, A: s.full(3, 3, 2), True),
}
OPERATIONS = {
    'ewise_add': lambda A, B: A.ewise_add(B),
    'ewise_add, turned round': lambda A, B: B.ewise_add(A, 'min'),
    'ewise_mult': lambda A, B: A.ewise_mult(B),
    'mxm': lambda A, B: A.mxm(B),
    'mxm, by parts': lambda A, B: A.mxm(B, 'min_plus', parts=True),
    'mxm, turned round': lambda A, B: B.mxm(A),
    'mxm, under a mask': lambda A, B: A.mxm(A, mask=B.S),
    'mxv': lambda A, B: A.mxv(B.reduce_rowwise()),
    'mxv, under a mask': lambda A, B: A.mxv(A.reduce_rowwise(), mask=B.reduce_rowwise().S),
    'vxm': lambda A, B: B.reduce_columnwise().vxm(A),
    'apply, under S': lambda A, B: A.apply('one', mask=B.S),
    'apply, under V': lambda A, B: A.apply('one', mask=B.V),
    'apply, under ~S': lambda A, B: A.apply('one', mask=~B.S),
    'apply, under ~V': lambda A, B: A.apply('one', mask=~B.V),
    'apply, under a matrix': lambda A, B: A.apply('plus', right=1, mask=B),
    'select, under S': lambda A, B: A.select('valuegt', 0, mask=B.S),
    'ewise_add, under ~S': lambda A, B: A.ewise_add(A, mask=~B.S),
    'ewise_mult, under V': lambda A, B: A.ewise_mult(A, mask=B.V),
    'reduce_rowwise, under S': lambda A, B: A.reduce_rowwise(mask=B.reduce_rowwise().S),
    'reduce_rowwise, under ~S': lambda A, B: A.reduce_rowwise(mask=~B.reduce_rowwise().S),
    'reduce_columnwise, under S': lambda A, B: A.reduce_columnwise(mask=B.reduce_columnwise().S),
    'dup, under S': lambda A, B: A.dup(mask=B.S),
    'dup, under ~V': lambda A, B: A.dup(mask=~B.V),
    'without': lambda A, B: A.without(B),
    'without V': lambda A, B: A.without(B.V),
    'without ~S': lambda A, B: A.without(~B.S),
    'update': lambda A, B: A.update(B),
    'update, with accum': lambda A, B: A.update(B, 'plus'),
    'update, under another mask': lambda A, B: A.update(A, None, B.S),
    'update, under ~V': lambda A, B: A.update(A, 'plus', ~B.V),
    'update, of another': lambda A, B: A.update(B, None, A.S),
    'update, replaced': lambda A, B: A.update(A, None, B.S, True),
    'update, of another, replaced': lambda A, B: A.update(B, 'plus', A.S, True),
    'rows added': lambda A, B: A[0, :].ewise_add(B[1, :]),
    'columns multiplied': lambda A, B: A[:, 1].ewise_mult(B[:, 1]),
    'a column of a transpose': lambda A, B: A.T.mxv(B.T.reduce_rowwise()),
    'parts': lambda A, B: first_two(A).ewise_add(first_two(B)),
    'masks joined': lambda A, B: (A.S & B.V).matrix,
    'masks added': lambda A, B: A.dup(mask=A.S | B.S),
    'masks taken away': lambda A, B: A.dup(mask=A.S - B.S),
    'diagonals': lambda A, B: A.mxm(B.reduce_rowwise().diag(), 'any_first'),
}
PREDICATES = {
    'isequal': lambda A, B: A.isequal(B),
    'isequal of columns': lambda A, B: A.reduce_rowwise().isequal(B.reduce_rowwise()),
    'a transpose of others': lambda A, B: algorithms.bfs_levels(A, 0 if A.nodes is None
                                                                else A.nodes[0], B.T,
                                                                check=False).nvals,
    'a mask of pairs': lambda A, B: algorithms.common_neighbours(A, pairs=B).nvals,
}


def named(s, names):
    """The graph with names."""
    made = s.from_triples(EDGES, 3, 3)
    made.nodes = names
    return made


def first_two(A):
    """The first two rows."""
    return A[list(A.row_nodes or range(3))[:2], :]


class Both(unittest.TestCase):
    """Tests in one session and in blocks."""

    @classmethod
    def setUpClass(cls):
        cls.one, cls.blocks = spmat.Session(), blocks.Sessions(2)
        cls.sessions = {'session': cls.one, 'blocks': cls.blocks}

    @classmethod
    def tearDownClass(cls):
        cls.one.close()
        cls.blocks.close()

    def each(self):
        """Each of the two."""
        for kind, s in self.sessions.items():
            with self.subTest(kind):
                yield s

    def differ(self, call, *words):
        """Names differ, and the error says so in these words."""
        with self.assertRaises(spmat.NamesDiffer) as said:
            call()
        for word in words:
            self.assertIn(word, str(said.exception))
        return str(said.exception)


class Operations(Both):
    """Each operation of two matrices, beside each kind of names."""

    def test_named_beside_each_kind(self):
        for s in self.each():
            A = named(s, NAMES)
            for kind, (make, agrees) in SECONDS.items():
                B = make(s, A)
                for name, call in {**OPERATIONS, **PREDICATES}.items():
                    with self.subTest(operation=name, second=kind):
                        if not agrees:
                            self.differ(lambda: call(A, B), 'have different names')
                        elif name in PREDICATES:
                            self.assertIsNotNone(call(A, B))
                        else:
                            self.check_names(call(A, B), NAMES)

    def check_names(self, result, names):
        """A result has these names, or of a part those that it has."""
        for axis, count in enumerate(result.shape):
            if count > 1:
                self.assertEqual((result.row_nodes, result.column_nodes)[axis], names[:count])

    def test_without_names_beside_each_kind(self):
        """Numbers, positions and constants agree with one another, and with names that are just 0
        to n - 1."""
        for s in self.each():
            kinds = [SECONDS[kind][0](s, None) for kind in ('numbers', 'numbers as names',
                                                            'positions', 'a constant')]
            for A in kinds:
                for B in kinds:
                    for name, call in OPERATIONS.items():
                        with self.subTest(operation=name, first=A, second=B):
                            self.assertIn(call(A, B).nodes, (None, [0, 1, 2], [0, 1]))

    def test_one_session_and_blocks_say_the_same(self):
        for kind, (make, agrees) in SECONDS.items():
            if agrees:
                continue
            for name, call in OPERATIONS.items():
                with self.subTest(operation=name, second=kind):
                    said = [self.differ(lambda s=s: call(named(s, NAMES), make(s, None)))
                            for s in self.sessions.values()]
                    self.assertEqual(*said)

    def test_nothing_is_queued(self):
        """A refused operation has asked for no job."""
        s = self.one
        A, B = named(s, NAMES), named(s, ['Ann', 'Cid', 'Bob'])
        for name in ('apply, under V', 'apply, under ~V', 'without', 'without V',
                     'update, under ~V', 'update, replaced', 'ewise_add', 'mxm'):
            with self.subTest(name):
                before = s.jobs
                self.differ(lambda: OPERATIONS[name](A, B))
                self.assertEqual(s.jobs, before)


class Words(Both):
    """What the error says."""

    def test_three_names(self):
        for s in self.each():
            A, B = s.full(5, 5), s.full(5, 5)
            A.nodes, B.nodes = ['Ann', 'Bob', 'Cid', 'Dee',
                                'Eve'], ['Ann', 'Cid', 'Bob', 'Eve', 'Dee']
            said = self.differ(lambda: A.ewise_add(B), 'rows',
                               "1: 'Bob' and 'Cid', 2: 'Cid' and 'Bob', 3: 'Dee' and 'Eve'",
                               'spmat.align(A, B)', 'nodelist=')
            self.assertNotIn('4: ', said)

    def test_rows_and_columns(self):
        for s in self.each():
            A, B = (s.from_edgelist([(u, i, 1), (v, j, 1)], bipartite=True)
                    for u, v, i, j in (('u', 'v', 'i', 'j'), ('u', 'v', 'j', 'i')))
            self.differ(lambda: A.ewise_mult(B), 'the columns of the two matrices',
                        "0: 'i' and 'j', 1: 'j' and 'i'")
            self.differ(lambda: A.mxm(B.T), 'the columns of the first and the rows of the second',
                        'B[A.column_nodes, :]')
            self.assertEqual(A.mxm(B.T[A.column_nodes, :], 'plus_pair').to_edgelist(),
                             [('u', 'v', 1), ('v', 'u', 1)])
            self.differ(lambda: A.dup(mask=B.S), 'the columns of the result and of the mask')

    def test_positions_and_numbers(self):
        for s in self.each():
            A = named(s, NAMES)
            self.differ(lambda: A.ewise_add(s.from_edgelist(EDGES)),
                        "0: 'Ann' and 0, 1: 'Bob' and 1", 'spmat.align')
            self.differ(lambda: A.mxv(s.from_dense([1, 2, 3])), "0: 'Ann' and position 0",
                        'v.nodes = G.nodes', 'nodes=G.nodes', 'from_coo')

    def test_other_sizes_have_the_hint(self):
        for s in self.each():
            A, B = named(s, NAMES), s.from_edgelist([('x', 'y', 1)])
            for call in (lambda: A.ewise_add(B), lambda: A.dup(mask=B.S),
                         lambda: A.ewise_mult(s.from_edgelist([(0, 1)]))):
                self.assertIn('spmat.align(A, B)', support.said(spmat.DimensionMismatch, call))
            with self.assertRaises(spmat.DimensionMismatch) as said:
                s.full(2, 2).ewise_add(A)
            self.assertNotIn('align', str(said.exception))

    def test_kind_of_error(self):
        fault = spmat.NamesDiffer('names')
        self.assertIsInstance(fault, spmat.SpmatError)
        self.assertIsInstance(fault, ValueError)
        self.assertNotIsInstance(fault, spmat.Refused)
        self.assertEqual(str(pickle.loads(pickle.dumps(fault))), 'names')


class Months(Both):
    """What an analyst meets first: two lists of edges, each with the names in its own order."""

    def test_two_months(self):
        for s in self.each():
            jan = s.from_edgelist([('Ann', 'Bob', 100), ('Bob', 'Cid', 50)])
            feb = s.from_edgelist([('Cid', 'Ann', 7), ('Ann', 'Bob', 900)])
            for call in (lambda: jan.ewise_add(feb), lambda: jan.dup(mask=feb.S),
                         lambda: jan.without(feb), lambda: jan.update(feb),
                         lambda: jan.isequal(feb), lambda: jan.mxv(feb.reduce_rowwise()),
                         lambda: jan[:, 'Ann'].ewise_add(feb[:, 'Ann'])):
                self.differ(call, "0: 'Ann' and 'Cid', 1: 'Bob' and 'Ann', 2: 'Cid' and 'Bob'")
            jan, feb = spmat.align(jan, feb)
            self.assertEqual(jan.ewise_add(feb).to_edgelist(),
                             [('Ann', 'Bob', 1000), ('Bob', 'Cid', 50), ('Cid', 'Ann', 7)])
            self.assertEqual(jan.dup(mask=feb.S).to_edgelist(), [('Ann', 'Bob', 100)])
            self.assertEqual(jan.without(feb).to_edgelist(), [('Bob', 'Cid', 50)])
            again = s.from_edgelist([('Cid', 'Ann', 7), ('Ann', 'Bob', 900)], nodelist=jan.nodes)
            self.assertEqual(jan.ewise_add(again).nodes, NAMES)

    def test_two_kinds(self):
        for s in self.each():
            users = s.from_edgelist([('u1', 'i1'), ('u2', 'i2')], bipartite=True)
            kinds = s.from_edgelist([('i2', 'Books'), ('i1', 'Music')], bipartite=True)
            self.differ(lambda: users.mxm(kinds, 'plus_pair'), "0: 'i1' and 'i2'")
            self.assertEqual(users.mxm(kinds[users.column_nodes, :], 'plus_pair').to_edgelist(),
                             [('u1', 'Music', 1), ('u2', 'Books', 1)])

    def test_numbers(self):
        for s in self.each():
            m1, m2 = s.from_edgelist([(0, 1), (1, 2)]), s.from_edgelist([(1, 2), (2, 3)])
            self.differ(lambda: m1.ewise_add(m2), '0: 0 and 1, 1: 1 and 2, 2: 2 and 3')
            m1, m2 = spmat.align(m1, m2)
            self.assertEqual(m1.ewise_add(m2).to_edgelist(), [(0, 1, 1), (1, 2, 2), (2, 3, 1)])
            m3 = s.from_edgelist([(2, 1), (1, 0)])
            self.assertEqual(s.from_edgelist([(0, 1), (1, 2)]).ewise_add(m3).nvals, 4)


class Labels(Both):
    """Parts, diagonals and transposes have the names of what they are made of."""

    def test_parts_of_numbered_graphs(self):
        for s in self.each():
            G = s.from_edgelist([(0, 1, 5), (2, 3, 7), (3, 2, 8)])
            self.assertIsNone(G.nodes)
            self.assertEqual(G[[2, 3], [2, 3]].to_edgelist(), [(2, 3, 7), (3, 2, 8)])
            self.assertEqual(G[[2, 3], [2, 3]].nodes, [2, 3])
            self.assertEqual(G[2:, :].to_edgelist(), [(2, 3, 7), (3, 2, 8)])
            self.assertEqual(G[2, :].by_node(), {3: 7})
            self.assertEqual(G[[3, 2], :].row_nodes, [3, 2])
            self.assertEqual(G[[2, 3], [2, 3]].reduce_rowwise().by_node(), {2: 7, 3: 8})
            self.assertEqual(algorithms.degrees(G)[[2, 3], 0].by_node(), {2: 1, 3: 1})
            self.assertEqual(algorithms.bfs_levels(G, 2)[[2, 3], 0].by_node(), {2: 0, 3: 1})
            self.assertEqual(G.T[[2, 3], :].row_nodes, [2, 3])
            self.assertEqual(G[[0, 1], [0, 1]].ewise_add(
                s.from_edgelist([(0, 1, 1)])).to_edgelist(), [(0, 1, 6)])
            self.differ(lambda: G[[2, 3], [2, 3]].ewise_add(s.from_edgelist([(0, 1, 1)])),
                        '0: 2 and 0')

    def test_parts_by_position(self):
        for s in self.each():
            G = s.from_triples([(0, 1, 5), (2, 3, 7), (3, 2, 8)], 4, 4)
            self.assertEqual(G[[2, 3], [2, 3]].to_edgelist(), [(0, 1, 7), (1, 0, 8)])
            self.assertIsNone(G[[2, 3], [2, 3]].nodes)

    def test_diagonals(self):
        for s in self.each():
            G = s.from_edgelist([('a', 'b', 1), ('b', 'a', 7), ('b', 'c', 2)])
            self.assertEqual(G['b', :].diag().to_edgelist(), [('a', 'a', 7), ('c', 'c', 2)])
            self.assertEqual(G[:, 'a'].diag().to_edgelist(), [('b', 'b', 7)])
            self.assertEqual(G.diag().nodes, ['a', 'b', 'c'])

    def test_transposes_after_other_names(self):
        for s in self.each():
            G = s.from_edgelist([(0, 1), (1, 2), (1, 0)])
            before = G.T
            G.nodes = ['a', 'b', 'c']
            self.assertEqual((G.T.nodes, G.T.T.nodes), (['a', 'b', 'c'],) * 2)
            self.assertEqual(algorithms.degrees(G.T).by_node(), {'a': 1, 'b': 1, 'c': 1})
            self.assertEqual(algorithms.distance_counts(G)[0].nodes, ['a', 'b', 'c'])
            G.nodes = ['c', 'a', 'b']
            self.assertEqual(G.T.to_edgelist(), [('c', 'a', 1), ('a', 'c', 1), ('b', 'a', 1)])
            self.assertEqual(algorithms.distance_counts(G)[0].nodes, ['c', 'a', 'b'])
            self.assertIsNone(before.nodes)

    def test_vectors(self):
        """The one row of a row, and the one column of a column, aren't compared; a graph of one
        vertex is."""
        for s in self.each():
            G = s.from_edgelist([('a', 'b', 1), ('b', 'a', 7), ('b', 'b', 2)])
            both = G['a', :].ewise_add(G['b', :])
            self.assertEqual((both.by_node(), both.row_nodes), ({'a': 7, 'b': 3}, None))
            self.assertEqual(G['a', :].ewise_add(G['a', :]).row_nodes, ['a'])
            self.assertEqual(G[:, 'a'].mxm(G['b', :]).to_edgelist(),
                             [('b', 'a', 49), ('b', 'b', 14)])
            self.differ(lambda: s.from_edgelist([('a', 'a', 1)]).ewise_add(
                s.from_edgelist([('b', 'b', 1)])), "0: 'a' and 'b'")

    def test_constants(self):
        for s in self.each():
            G = named(s, NAMES)
            self.assertEqual(G.mxm(s.identity(3)).to_edgelist(), G.to_edgelist())
            self.assertEqual(s.identity(3).mxm(G).to_edgelist(), G.to_edgelist())
            self.assertEqual(s.identity(3).ewise_add(G, 'first').nodes, NAMES)
            self.assertEqual(G.mxv(s.full(3, 1)).nodes, NAMES)
            self.assertEqual(s.ones(3).vxm(G).nodes, NAMES)
            ones = s.ones(3)
            ones.nodes = ['x', 'y', 'z']
            self.assertIsNone(s.ones(3).nodes)
            self.assertEqual(G.reduce_columnwise().nodes, NAMES)

    def test_kept_elsewhere(self):
        """What vertices are called stays in files and in other sessions."""
        for s in self.each():
            G = s.from_edgelist([(0, 1, 5), (2, 3, 7), (3, 2, 8)])
            with tempfile.TemporaryDirectory() as folder:
                path = os.path.join(folder, 'graphs.spmat')
                s.save(path, G=G, H=named(s, NAMES), P=s.from_triples(EDGES, 3, 3))
                found = s.load(path)
            for H in (found['G'], s.adopt(G), G.dup()):
                self.assertEqual(H[[2, 3], [2, 3]].nodes, [2, 3])
            self.assertEqual(found['H'].nodes, NAMES)
            self.assertIsNone(found['P'][[1, 2], [1, 2]].nodes)
            self.differ(lambda: found['P'].ewise_add(found['H']), 'position 0')

    def test_loops(self):
        G, H = named(self.one, NAMES), named(self.one, ['Ann', 'Cid', 'Bob'])
        start = G['Ann', :]
        self.differ(lambda: spmat.loop(lambda s: {'front': s.front.mxm(H, 'any_first')},
                                       {'front': start}).advance(1), "1: 'Bob' and 'Cid'")
        self.differ(lambda: spmat.fixpoint(start, lambda d: d.ewise_add(d.mxm(H), 'max')),
                    "1: 'Bob' and 'Cid'")
        loop = spmat.loop(lambda s: {'front': s.front.mxm(G, 'any_first')}, {'front': start})
        loop.advance(2)
        self.assertEqual(loop.state.front.nodes, NAMES)


class Given(Both):
    """Names that a caller gives to what is made by indexes."""

    def test_nodes(self):
        for s in self.each():
            G = named(s, NAMES)
            self.assertEqual(G.mxv(s.from_dense([1, 2, 3], nodes=G.nodes)).nodes, NAMES)
            self.assertEqual(G.mxv(s.from_coo([0, 2], [0, 0], 1, ncols=1, nodes=G.nodes)).nodes,
                             NAMES)
            self.assertEqual(s.from_coo([0], [1], 1, 1, nodes=G.nodes).vxm(G).nodes, NAMES)
            self.assertEqual(s.from_triples([(0, 1, 4)], nodes=NAMES).ewise_add(G).nodes, NAMES)
            B = s.from_coo([0, 1], [2, 0], 1, nodes=(['u', 'v'], NAMES))
            self.assertEqual((B.shape, B.row_nodes, B.mxm(G).column_nodes),
                             ((2, 3), ['u', 'v'], NAMES))
            self.assertEqual(s.from_coo([0, 1], [2, 0], 1, nodes=(None, NAMES)).mxm(G).row_nodes,
                             None)
            v = s.from_dense([1, 2, 3])
            v.nodes = G.nodes
            self.assertEqual(G.mxv(v).nodes, NAMES)
            B.row_nodes, B.column_nodes = ['x', 'y'], None
            self.assertEqual((B.row_nodes, B.column_nodes), (['x', 'y'], None))

    def test_tuples_as_names(self):
        for s in self.each():
            G = s.from_triples([(0, 1, 4)], nodes=(('a', 1), ('b', 2)))
            self.assertEqual(G.nodes, [('a', 1), ('b', 2)])
            self.differ(lambda: G.ewise_add(s.from_edgelist([(('b', 2), ('a', 1))])),
                        "0: ('a', 1) and ('b', 2)")

    def test_wrong(self):
        for s in self.each():
            for call in (lambda: s.from_triples(EDGES, 3, 3, nodes=['a', 'b']),
                         lambda: s.from_triples(EDGES, 3, 3, nodes=['a', 'b', 'a']),
                         lambda: s.from_coo([0], [1], 1, 2, 3, nodes=NAMES),
                         lambda: s.from_coo([0], [1], 1, 2, 3, nodes=(NAMES, NAMES))):
                with self.assertRaises(ValueError):
                    call()


class Algorithms(unittest.TestCase):
    """Each algorithm's matrices have the names of the graph's vertices."""

    def matrices(self, found):
        """The matrices of an answer."""
        if hasattr(found, 'mxm'):
            return [found]
        parts = (found if isinstance(found, (list, tuple))
                 else [getattr(found, name, None)
                       for name in ('values', 'labels', 'lengths', 'predecessors')])
        return ([one for part in parts if hasattr(part, 'mxm') or isinstance(part, (list, tuple))
                 or hasattr(part, 'values') for one in self.matrices(part)] if parts else [])

    def test_all(self):
        names, looked_at = ['Ann', 'Bob', 'Cid', 'Dee', 'Eve', 'Fay'], set()
        edges = [(0, 1, 3), (1, 2, 1), (2, 3, 4), (3, 4, 1), (4, 5, 5), (5, 0, 2), (1, 4, 6)]
        with spmat.Session() as s:
            for directed in (True, False):
                G = s.from_edgelist([(names[i], names[j], value) for i, j, value in edges],
                                    directed=directed, nodelist=names)
                for name, calls in alike.ALGORITHMS.items():
                    for call in calls:
                        try:
                            found = call(G)
                        except (spmat.SpmatError, ValueError):
                            continue
                        for matrix in self.matrices(found):
                            with self.subTest(algorithm=name, directed=directed):
                                looked_at.add(name)
                                for axis, count in enumerate(matrix.shape):
                                    if count == len(names):
                                        self.assertEqual((matrix.row_nodes,
                                                          matrix.column_nodes)[axis], names)
        self.assertIn('minimum_spanning_forest', looked_at)
        self.assertGreater(len(looked_at), 25)

    def test_forest(self):
        with spmat.Session() as s:
            forest = algorithms.minimum_spanning_forest(
                s.from_edgelist([(1, 2, 5), (2, 3, 4), (3, 4, 1)], directed=False))
            self.assertEqual(forest.select('triu').to_edgelist(), [(1, 2, 5), (2, 3, 4), (3, 4, 1)])
            self.assertIs(forest.directed, False)
