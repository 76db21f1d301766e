"""What every algorithm gives has one shape: columns with the names of the graph, fractions by their
unit, groups as sets of vertices."""
import inspect
import math
import random
from fractions import Fraction

import pytest

import algorithm_calls
import graphs
import support
import spmat
from algorithm_calls import GIVEN
from spmat import algorithms
from spmat.algorithms.registry import ALGORITHMS
from spmat.algorithms.results import BOUND, CHANGE, RESIDUAL

pytestmark = pytest.mark.slow

NAMES = ['Ann', ('Bob', 2), 'Cid', 'd', 7, 'Eva', 'Flo', 'Gus', 'Hal']
# two parts, and one alone
EDGES = [(0, 1, 4), (1, 2, 1), (0, 2, 7), (2, 3, 2), (3, 4, 5), (5, 6, 3), (6, 7, 1), (5, 7, 2)]
FORWARD = ('topological_levels', 'longest_paths')

# By the shape of the result: a column of numbers, of vertices, of groups; a matrix of pairs;
# something else.
NUMBERS = ('betweenness', 'bfs_levels', 'bipartite_sides', 'closeness', 'clustering',
           'core_numbers', 'degrees', 'eccentricity', 'eigenvector', 'k_core', 'katz',
           'longest_paths', 'maximal_independent_set', 'pagerank', 'squares', 'sssp',
           'topological_levels', 'triangles')
VERTICES = ('bfs_parents', 'connected_components', 'label_propagation', 'louvain',
            'strongly_connected_components')
SQUARE = ('all_pairs', 'common_neighbours', 'jaccard', 'k_hop', 'k_truss',
          'minimum_spanning_forest', 'path_lengths', 'transitive_closure', 'undirected')
COUNTED = ('betweenness', 'closeness', 'clustering', 'eigenvector', 'katz', 'pagerank')
OTHERS = ('diameter', 'distance_counts', 'has_path', 'hits', 'k_shortest_paths', 'modularity',
          'shared_neighbours', 'shortest_path', 'shortest_paths', 'triangle_count')
GROUPS = ('bipartite_sides', 'connected_components', 'k_core', 'label_propagation', 'louvain',
          'maximal_independent_set', 'strongly_connected_components')


def graph_for(session, name, named):
    """A graph that an algorithm is for, with or without names."""
    edges = (EDGES if name != 'bipartite_sides'
             else [edge for edge in EDGES if edge[:2] not in ((0, 2), (5, 7))])
    both = [] if name in FORWARD else [(j, i, value) for i, j, value in edges]
    G = session.from_triples(edges + both, len(NAMES), len(NAMES))
    if named:
        G.nodes = NAMES
    return G


def called(G, name, named, **more):
    """The result of an algorithm on a graph, whose vertices are given by their names where it has
    any."""
    given = {what: [NAMES[i] for i in at] if isinstance(at, list) else NAMES[at]
             for what, at in GIVEN.items()
             if named and what != 'k' and what in ALGORITHMS[name].parameters}
    return algorithm_calls.call(name, G, **{**given, **more})


class Shapes(support.InSession):
    def test_all_are_here(self):
        self.assertEqual(sorted((*NUMBERS, *VERTICES, *SQUARE, *OTHERS)), sorted(ALGORITHMS))

    def test_columns(self):
        for name in (*NUMBERS, *VERTICES):
            with self.subTest(name=name):
                plain, named = (called(graph_for(self.s, name, some), name, some)
                                for some in (False, True))
                for found in (plain, named):
                    self.assertIsInstance(found, spmat.Matrix)
                    self.assertEqual(found.shape, (9, 1))
                    self.assertEqual(found.unit != 1, name in COUNTED
                                     or found is named and name in VERTICES)
                self.assertIsNone(plain.nodes)
                self.assertEqual(named.nodes, NAMES)
                self.assertEqual(plain.to_list(), named.to_list())
                shown = ((lambda value: NAMES[value]) if name in VERTICES
                         else (lambda value: value if plain.unit == 1 else value / plain.unit))
                stored = {i: value for i, value in enumerate(plain.to_list()) if value is not None}
                self.assertEqual(named.by_node(),
                                 {NAMES[i]: shown(value) for i, value in stored.items()})
                self.assertEqual(named.by_node(raw=True),
                                 {NAMES[i]: value for i, value in stored.items()})
                self.assertEqual(plain.by_node(),
                                 {i: value if plain.unit == 1 else value / plain.unit
                                  for i, value in stored.items()})
                most = sorted(stored, key=lambda i: -stored[i])[:3]
                self.assertEqual(named.top(3), [(NAMES[i], shown(stored[i])) for i in most])
                self.assertEqual(named.to_edgelist(),
                                 [(NAMES[i], 0, shown(value)) for i, value in stored.items()])
                self.assertIn('values are vertices' if name in VERTICES else '9',
                              repr(named) if name != 'louvain' else named._repr_html_())

    @support.needs('pandas')
    def test_pandas(self):
        for name in ('pagerank', 'closeness', 'bfs_parents', 'degrees', 'louvain'):
            with self.subTest(name=name):
                found = called(graph_for(self.s, name, True), name, True)
                self.assertEqual(found.to_pandas().to_dict(), found.by_node())
                self.assertEqual(found.to_pandas().dtype.kind, 'f' if name in COUNTED else 'O'
                                 if name in VERTICES else 'i')
                self.assertEqual(list(found.to_pandas_edgelist()['weight']),
                                 list(found.by_node().values()))

    def test_arrays(self):
        found = called(graph_for(self.s, 'katz', True), 'katz', True)
        self.assertEqual(found.to_dense(float).ravel().tolist(), list(found.by_node().values()))
        self.assertEqual(found.to_dense().ravel().tolist(), found.to_list())

    def test_matrices_of_pairs(self):
        for name in SQUARE:
            with self.subTest(name=name):
                plain, named = (called(graph_for(self.s, name, some), name, some)
                                for some in (False, True))
                self.assertEqual(named.to_triples(), plain.to_triples())
                rows = ([NAMES[i] for i in GIVEN['sources']]
                        if 'sources' in ALGORITHMS[name].parameters else NAMES)
                self.assertEqual((named.row_nodes, named.column_nodes), (rows, NAMES))
                self.assertEqual(named.unit, 10 ** 9 if name == 'jaccard' else 1)
                shown = (lambda value: value / 10 ** 9) if name == 'jaccard' else int
                self.assertEqual(named.to_edgelist(),
                                 [(rows[i], NAMES[j], shown(value))
                                  for i, j, value in plain.to_triples()])

    def test_others(self):
        G = graph_for(self.s, '', True)
        hubs, authorities = algorithms.hits(G)
        self.assertEqual([set(one.by_node()) for one in (hubs, authorities)], [set(NAMES)] * 2)
        self.assertEqual([one.nodes for one in algorithms.distance_counts(G)], [NAMES] * 3)
        tree = algorithms.shortest_paths(G, 'Ann', weighted=True)
        self.assertEqual(tree.predecessors.by_node(),
                         {'Ann': 'Ann', ('Bob', 2): 'Ann', 'Cid': ('Bob', 2), 'd': 'Cid', 7: 'd'})
        self.assertEqual(tree.lengths.by_node(), {'Ann': 0, ('Bob', 2): 4, 'Cid': 5, 'd': 7, 7: 12})

    def test_what_jobs_make_of_vertices(self):
        """Copies, parts and choices stay vertices; no number is made of them but by comparison."""
        G = graph_for(self.s, '', True)
        found = algorithms.bfs_parents(G, 'Ann')
        want = {'Ann': 'Ann', ('Bob', 2): 'Ann', 'Cid': 'Ann', 'd': 'Cid', 7: 'd'}
        self.assertEqual(found.by_node(), want)
        for same in (found.dup(), found.T, found.select('valuene', 7),
                     found.ewise_add(found, 'max'), found.apply('identity'),
                     found.dup(mask=found.S), found.update(found, mask=found.S),
                     found.ewise_mult(algorithms.degrees(G), 'first'), found.reduce_rowwise('max'),
                     found.T.T):
            self.assertEqual(same.by_node(), want)
        self.assertEqual(found[['d', 'Cid'], :].by_node(), {'d': 'Cid', 'Cid': 'Ann'})
        self.assertEqual(found.ewise_mult(found, 'second').by_node(), want)
        self.assertEqual(set(found.ewise_mult(found, 'eq').by_node().values()), {1})
        for call in (lambda: found.apply('plus', right=0), lambda: found.ewise_add(found, 'plus'),
                     lambda: G.mxv(found, 'plus_second'), lambda: found.reduce_rowwise('plus')):
            self.assertRaises(spmat.UnitsDiffer, call)
        self.assertEqual(found.to_csv(header=False).splitlines()[:2],
                         ['Ann,Ann', '"(\'Bob\', 2)",Ann'])
        self.assertIn('Ann', found._repr_html_())

    def test_saved(self):
        import os
        import tempfile
        G = self.s.from_edgelist([('a', 'b'), ('b', 'c'), ('d', 'e')], directed=False)
        with tempfile.TemporaryDirectory() as folder:
            path = os.path.join(folder, 'found.spmat')
            self.s.save(path, parents=algorithms.bfs_parents(G, 'c'), ranks=algorithms.pagerank(G))
            again = self.s.load(path)
        self.assertEqual(again['parents'].by_node(), {'a': 'b', 'b': 'c', 'c': 'c'})
        self.assertEqual(again['ranks'].by_node(), algorithms.pagerank(G).by_node())

    def test_weights_are_told(self):
        """An algorithm by whose argument values count says what counts without."""
        for name, one in ALGORITHMS.items():
            if 'weighted' in one.parameters:
                text = ' '.join(inspect.getdoc(one.function).split())
                self.assertRegex(text, r'weighted : bool, default False Whether [^:]*; otherwise ', name)


class Sets(support.InSession):
    def test_groups(self):
        for name in GROUPS:
            with self.subTest(name=name):
                plain, named = (called(graph_for(self.s, name, some), name, some).sets()
                                for some in (False, True))
                self.assertEqual(named, [{NAMES[i] for i in some} for some in plain])
                self.assertEqual(list(map(len, plain)), sorted(map(len, plain), reverse=True))
                self.assertEqual(sum(map(len, plain)), len(set().union(*plain)))
        self.assertEqual(called(graph_for(self.s, '', True), 'connected_components', True).sets(),
                         [set(NAMES[:5]), set(NAMES[5:8]), {NAMES[8]}])
        self.assertEqual(called(graph_for(self.s, '', True), 'k_core', True).sets(),
                         [set(NAMES[:3]), set(NAMES[5:8])])
        self.assertEqual(algorithms.k_core(graph_for(self.s, '', True), 9).sets(), [])
        self.assertEqual(algorithms.k_core(graph_for(self.s, '', True), 0).sets(),
                         [set(NAMES[:5]), set(NAMES[5:8]), {NAMES[8]}])

    def test_sides(self):
        found = called(graph_for(self.s, 'bipartite_sides', True), 'bipartite_sides', True)
        one, other = found.sets()
        for i, j, _ in graph_for(self.s, 'bipartite_sides', True).to_edgelist():
            self.assertNotEqual(i in one, j in one)
        self.assertEqual(len(one) + len(other), 9)

    def test_small_and_wrong(self):
        self.assertEqual(algorithms.connected_components(self.s.from_coo([], [], [], 0, 0)).sets(),
                         [])
        self.assertEqual(algorithms.connected_components(self.s.from_coo([], [], [], 1, 1)).sets(),
                         [{0}])
        with self.assertRaises(spmat.DimensionMismatch):
            graph_for(self.s, '', True).sets()

    @support.needs('networkx')
    def test_networkx(self):
        import networkx
        made = networkx.gnp_random_graph(40, .04, seed=3)
        made = networkx.relabel_nodes(made, {i: 'v%d' % i for i in made})
        found = algorithms.connected_components(self.s.from_networkx(made)).sets()
        self.assertEqual(sorted(map(sorted, found)),
                         sorted(map(sorted, networkx.connected_components(made))))
        directed = networkx.gnp_random_graph(40, .05, seed=4, directed=True)
        found = algorithms.strongly_connected_components(self.s.from_networkx(directed)).sets()
        self.assertEqual(sorted(map(sorted, found)),
                         sorted(map(sorted, networkx.strongly_connected_components(directed))))


class Modularity(support.InSession):
    def test_forms(self):
        G = self.s.from_edgelist([('a', 'b', 2), ('b', 'c', 3), ('a', 'c', 1), ('c', 'd', 1),
                                  ('d', 'e', 9), ('f', 'e', 2), ('d', 'f', 1)], directed=False)
        found = algorithms.louvain(G)
        column = self.s.from_coo(range(6), [0] * 6, [5, 5, 5, 9, 9, 9], 6, 1)
        with self.assertRaises(spmat.NamesDiffer):
            algorithms.modularity(G, column)       # made by positions beside a graph with names
        column.nodes = G.nodes
        turned = self.s.from_coo(range(6), [0] * 6, [9, 9, 9, 5, 5, 5], 6, 1)
        turned.nodes = list('fedcba')              # other rows: names decide
        forms = [found, found.labels, column, turned,
                 dict.fromkeys('abc', 'left') | dict.fromkeys('def', None),
                 [set('abc'), set('def')],
                 [list('abc'), list('fed')], (set('abc'), frozenset('def')),
                 iter([set('def'), set('abc')])]
        for number, form in enumerate(forms):
            with self.subTest(form=number):
                self.assertAlmostEqual(algorithms.modularity(G, form), found.modularity, 14)
        self.assertNotEqual(algorithms.modularity(G, found, weighted=True), found.modularity)

    @support.needs('pandas')
    def test_series(self):
        import pandas
        G = self.s.from_edgelist([(5, 6), (6, 7), (7, 5), (8, 9)], directed=False)
        series = pandas.Series({9: 'x', 8: 'x', 7: 'y', 6: 'y', 5: 'y'})
        self.assertEqual(algorithms.modularity(G, series),
                         algorithms.modularity(G, [{5, 6, 7}, {8, 9}]))

    @support.needs('networkx')
    def test_networkx(self):
        import networkx
        made = networkx.les_miserables_graph()
        G = self.s.from_networkx(made)
        parts = networkx.algorithms.community.label_propagation_communities(made)
        parts = [set(some) for some in parts]
        for weight, weighted in ((None, False), ('weight', True)):
            self.assertAlmostEqual(algorithms.modularity(G, parts, weighted=weighted),
                                   networkx.algorithms.community.modularity(made, parts, weight),
                                   12)

    def test_refused(self):
        G = self.s.from_edgelist([('a', 'b'), ('b', 'c'), ('c', 'd')], directed=False)
        huge = self.s.from_triples([(0, 1, 1 << 61), (1, 0, 1 << 61)], 2, 2)
        for kind, words, call in (
            (ValueError, r"2 of 4 vertices are in no community \('c', 'd'\)",
             lambda: algorithms.modularity(G, [{'a', 'b'}])),
            (ValueError, "'b' is in a community twice",
             lambda: algorithms.modularity(G, [{'a', 'b'}, {'b', 'c', 'd'}])),
            (ValueError, "no vertex 'x'", lambda: algorithms.modularity(G, {'a': 1, 'x': 2})),
            (ValueError, 'in no community', lambda: algorithms.modularity(G, {})),
            (TypeError, 'list of sets', lambda: algorithms.modularity(G, [0, 0, 1, 1])),
            (TypeError, 'list of sets', lambda: algorithms.modularity(G, ['ab', 'cd'])),
            (TypeError, 'list of sets', lambda: algorithms.modularity(G, 3)),
            (TypeError, 'list of sets', lambda: algorithms.modularity(G, None)),
            (ValueError, 'a column with a community for each of 4',
             lambda: algorithms.modularity(G, G)),
            (ValueError, 'less than 2',
             lambda: algorithms.modularity(huge, [{0}, {1}], weighted=True))):
            with self.subTest(words=words), self.assertRaisesRegex(kind, words):
                call()


def random_graph(seed, most=7, weights=(1, 9)):
    """A random graph of few vertices: their number and the edges."""
    chance = random.Random(seed)
    count = chance.randrange(2, most + 1)
    share = chance.choice((.2, .5, .8))
    edges = {(i, j): chance.randint(*weights) for i in range(count) for j in range(count)
             if chance.random() < share}
    if seed % 2:
        edges = {**edges, **{(j, i): value for (i, j), value in edges.items()}}
        edges = {(i, j): edges[min(i, j), max(i, j)] for i, j in edges}
    return count, edges or {(0, 1): 1}


def solved(rows):
    """The solution of linear equations in fractions, given with their right sides."""
    rows, count = [list(map(Fraction, row)) for row in rows], len(rows)
    for at in range(count):
        pivot = next(row for row in range(at, count) if rows[row][at])
        rows[at], rows[pivot] = rows[pivot], rows[at]
        rows[at] = [x / rows[at][at] for x in rows[at]]
        for other in range(count):
            if other != at and rows[other][at]:
                rows[other] = [x - rows[other][at] * y for x, y in zip(rows[other], rows[at])]
    return [row[-1] for row in rows]


class Errors(support.InSession):
    """What `error` says is so, beside solutions in fractions."""

    def matrix(self, count, edges):
        return self.s.from_triples([(i, j, value) for (i, j), value in edges.items()], count, count)

    def check(self, found, want, slack=Fraction(0)):
        self.assertEqual(found.measure, BOUND)
        off = max(abs(Fraction(stored) / found.unit - x)
                  for stored, x in zip(found.to_list(0), want))
        self.assertLessEqual(off, Fraction(found.error) + slack)
        self.assertIn('error at most', repr(found))

    def test_katz(self):
        for seed in range(24):
            count, edges = random_graph(seed)
            weighted = seed % 3 == 0
            heaviest = max(sum(value if weighted else 1 for (_, to), value in edges.items()
                               if to == j) for j in range(count))
            alpha = Fraction(1, 2 * heaviest + 3 + seed)
            rows = [[Fraction(int(i == j)) - alpha * (edges.get((i, j), 0) if weighted
                                                      else int((i, j) in edges))
                     for i in range(count)] + [1] for j in range(count)]
            true = solved(rows)
            for normalized in (False, True):
                length = Fraction(math.sqrt(sum(x * x for x in true))) if normalized else 1
                found = algorithms.katz(self.matrix(count, edges), float(alpha), weighted=weighted,
                                        normalized=normalized,
                                        tolerance=(1e-3, 1e-6, None)[seed % 3])
                self.check(found, [x / length for x in true], Fraction(1, 10 ** 15))

    def test_pagerank(self):
        for seed in range(24):
            count, edges = random_graph(seed)
            weighted, damping = bool(seed % 3), Fraction(85, 100)
            value = (lambda edge, edges=edges: edges[edge]) if weighted else lambda edge: 1
            out = [sum(value(edge) for edge in edges if edge[0] == i) for i in range(count)]
            chosen = ([Fraction(1 + i, count * (count + 1) // 2) for i in range(count)]
                      if seed % 4 == 1 else [Fraction(1, count)] * count)
            lost = [Fraction(int(i == 0)) for i in range(count)] if seed % 4 == 2 else chosen
            rows = []
            for j in range(count):
                row = [Fraction(int(i == j)) - damping
                       * (lost[j] if not out[i] else Fraction(value((i, j)), out[i])
                          if (i, j) in edges else 0) for i in range(count)]
                rows.append(row + [(1 - damping) * chosen[j]])
            found = algorithms.pagerank(
                self.matrix(count, edges), weighted=weighted,
                tolerance=(1e-2, 1e-5, None)[seed % 3],
                personalization={i: float(x) for i, x in enumerate(chosen)} if seed % 4 == 1
                else None, dangling={0: 1} if seed % 4 == 2 else None)
            self.check(found, solved(rows))
            self.assertLessEqual(found.error, found.tolerance)

    def test_closeness(self):
        for seed in range(16):
            count, edges = random_graph(seed, 9, (0, 9))
            for weighted in (False, True):
                far = {(i, j): 0 if i == j else math.inf for i in range(count)
                       for j in range(count)}
                far.update({edge: min(far[edge], value if weighted else 1)
                            for edge, value in edges.items()})
                for k in range(count):
                    far = {(i, j): min(far[i, j], far[i, k] + far[k, j]) for i, j in far}
                to = [[far[i, j] for i in range(count) if far[i, j] < math.inf]
                      for j in range(count)]
                want = [Fraction((len(some) - 1) ** 2, sum(some) * (count - 1)) if sum(some)
                        else Fraction(0) for some in to]
                G = self.matrix(count, edges)
                self.check(algorithms.closeness(G, weighted=weighted), want)
                self.check(algorithms.closeness(G, G.T, weighted=weighted, scale=1000), want)

    @support.needs('networkx')
    def test_closeness_beside_networkx(self):
        import networkx
        for seed in range(8):
            made = networkx.gnp_random_graph(20, .12, seed=seed, directed=seed % 2 == 0)
            for number, (u, v) in enumerate(made.edges):
                made[u][v]['weight'] = 1 + number * 7919 % 23
            G = self.s.from_networkx(made)
            for weighted, distance in ((False, None), (True, 'weight')):
                want = networkx.closeness_centrality(made, distance=distance)
                for node, value in algorithms.closeness(G, weighted=weighted).by_node().items():
                    self.assertAlmostEqual(value, want[node], 11)

    def test_betweenness(self):
        for seed in range(12):
            count, edges = random_graph(seed, 8)
            for weighted in (False, True):
                want = [Fraction(0)] * count
                for i in range(count):
                    for j in range(count):
                        paths = shortest(count, edges, i, j, weighted) if i != j else []
                        for path in paths:
                            for at in path[1:-1]:
                                want[at] += Fraction(1, len(paths))
                both = all((j, i) in edges and (not weighted or edges[j, i] == edges[i, j])
                           for i, j in edges)
                for scale in (1 << 20, 1000):
                    found = algorithms.betweenness(self.matrix(count, edges), weighted=weighted,
                                                   scale=scale)
                    self.check(found, [x / 2 if both else x for x in want])

    def test_clustering(self):
        graph = graphs.UNDIRECTED[3]
        near = graph.near()
        want = [Fraction(sum(j in near[k] for j in near[i] for k in near[i]),
                         max(1, len(near[i]) * (len(near[i]) - 1))) for i in range(34)]
        self.check(algorithms.clustering(graph.matrix(self.s)), want)
        self.check(algorithms.clustering(graph.matrix(self.s), scale=100), want)

    def test_residuals_are_called_so(self):
        """Of the karate club the true vector is farther away than the residual: so that is no
        error, and isn't called one."""
        graph = graphs.UNDIRECTED[3]
        G = graph.matrix(self.s)
        found = algorithms.eigenvector(G)
        self.assertEqual((found.measure, found.tolerance), (RESIDUAL, 1e-6))
        self.assertRegex(repr(found), r'residual \S+, \d+ rounds>$')
        x = [value / found.unit for value in found.to_list()]
        again = [sum(x[i] for i in near) for near in graph.near()]
        value = sum(a * b for a, b in zip(x, again))
        self.assertAlmostEqual(math.dist([y / value for y in again], x), found.error, 9)
        hubs, authorities = algorithms.hits(G)
        self.assertEqual((hubs.measure, authorities.measure), (CHANGE, CHANGE))
        self.assertIn('last change', repr(hubs))
        for one in (found, hubs):
            self.assertNotIn('error', repr(one))
            self.assertGreater(one.rounds, 3)

    def test_older_names(self):
        found = algorithms.eigenvector(graphs.UNDIRECTED[3].matrix(self.s))
        self.assertIs(found.values, found)
        self.assertEqual((found.scale, found.unit), (1 << 40, 1 << 40))
        self.assertIsInstance(found, algorithms.Centrality)
        self.assertIsInstance(algorithms.louvain(graphs.UNDIRECTED[3].matrix(self.s)),
                              algorithms.Communities)


def shortest(count, edges, start, end, weighted):
    """All shortest paths between two vertices, by all paths."""
    found, least = [], math.inf
    waiting = [((start,), 0)]
    while waiting:
        path, length = waiting.pop()
        if length > least:
            continue
        if path[-1] == end:
            found, least = (found + [path], least) if length == least else ([path], length)
            continue
        for j in range(count):
            if (path[-1], j) in edges and j not in path:
                waiting.append(((*path, j), length + (edges[path[-1], j] if weighted else 1)))
    return found


class Heavy(support.InSession):
    """Weights from 1 to very large ones: a tolerance is chosen that is kept, and told; one that a
    caller gives and that can't be kept is refused."""

    def graph(self, most, count=12):
        chance = random.Random(most)
        edges = [(i, j, chance.randint(1, most)) for i in range(count) for j in range(count)
                 if i != j and chance.random() < .4]
        return self.s.from_triples(edges, count, count), edges

    def test_katz(self):
        for most in (1, 1000, 10 ** 6, 10 ** 9, 10 ** 12, 10 ** 15):
            with self.subTest(most=most):
                G, edges = self.graph(most)
                heaviest = max(sum(value for _, to, value in edges if to == j) for j in range(12))
                alpha = Fraction(1, 2 * heaviest)
                found = algorithms.katz(G, float(alpha), weighted=True, normalized=False)
                value = {(i, j): x for i, j, x in edges}
                want = solved([[int(i == j) - alpha * value.get((i, j), 0) for i in range(12)] + [1]
                               for j in range(12)])
                off = max(abs(Fraction(x, found.unit) - y) for x, y in zip(found.to_list(), want))
                self.assertLessEqual(off, found.error + 1e-15)
                self.assertLessEqual(found.error,
                                     found.tolerance * max(map(float, want)) + 1 / found.unit)
                self.assertLess(found.tolerance, 1e-6)

    def test_many_neighbours(self):
        """A vertex with so many neighbours that rounding takes more than the usual tolerance; and a
        chain of weights that hands on far more than one, which no eigenvalue forbids."""
        count = 5000
        G = self.s.from_coo(range(1, count), [0] * (count - 1), 1, count, count)
        found = algorithms.katz(G, normalized=False)
        self.assertGreater(found.tolerance, 1e-9)
        self.assertLessEqual(abs(found.by_node()[0] - (1 + .1 * (count - 1))), found.error)
        with self.assertRaisesRegex(ValueError, 'can not be kept'):
            algorithms.katz(G, tolerance=1e-9)
        chain = self.s.from_triples([(0, 1, 10 ** 6), (1, 2, 30)], 3, 3)
        found = algorithms.katz(chain, weighted=True, normalized=False)
        self.assertEqual(found.by_node(), {0: 1.0, 1: 100001.0, 2: 300004.0})

    def test_too_great(self):
        G, _ = self.graph(1000)
        with self.assertRaisesRegex(ValueError, 'too great.*near') as caught:
            algorithms.katz(G, weighted=True)
        near = float(str(caught.exception).rsplit(' ', 1)[1])
        algorithms.katz(G, .9 * near, weighted=True)
        with self.assertRaisesRegex(ValueError, 'too great|too few'):
            algorithms.katz(G, 1.2 * near, weighted=True)

    def test_others(self):
        for most in (1, 10 ** 6, 10 ** 9, 10 ** 11):
            G, _ = self.graph(most)
            for call in (algorithms.eigenvector, lambda G, **named: algorithms.hits(G, **named)[0],
                         algorithms.pagerank, algorithms.closeness):
                with self.subTest(most=most, call=call):
                    found = call(G, weighted=True)
                    self.assertTrue(all(0 <= value <= 1 for value in found.by_node().values()))
            if most > 10 ** 10:
                for call in (algorithms.hits, algorithms.pagerank):
                    with self.assertRaisesRegex(ValueError, 'can not be kept'):
                        call(G, weighted=True, tolerance=1e-12)

    def test_units(self):
        """Values in decimals mean the same, whatever they are stored as."""
        edges = [('a', 'b', 0.5), ('b', 'c', 1.25), ('c', 'a', 2), ('c', 'd', 0.25),
                 ('d', 'a', 3.5)]
        found = [[call(self.s.from_edgelist(edges, scale=scale)) for call in (
            lambda G: algorithms.closeness(G, weighted=True),
            lambda G: algorithms.katz(G, .1, weighted=True, normalized=False),
            lambda G: algorithms.pagerank(G, weighted=True),
            lambda G: algorithms.betweenness(G, weighted=True),
            lambda G: algorithms.eigenvector(G, weighted=True))] for scale in (4, 100, 10 ** 6)]
        for other in found[1:]:
            for one, two in zip(found[0], other):
                for node, value in one.by_node().items():
                    self.assertAlmostEqual(value, two.by_node()[node], 5)
        self.assertAlmostEqual(found[0][0].by_node()['b'], 9 / (3 * (0.5 + 2.5 + 4)), 9)
        with self.assertRaises(spmat.UnitsDiffer):
            G = self.s.from_edgelist(edges, scale=100)
            GT = G.T.dup()
            GT.unit = 1000
            algorithms.closeness(G, GT, weighted=True)

    def test_closeness_refused(self):
        for words, edges in (('0 or more', [(0, 1, -1)]),
                             ('add up to', [(0, 1, 1 << 58), (0, 2, 1 << 58), (2, 3, 1)])):
            count = 40 if words == 'add up to' else 2
            with self.subTest(words=words), self.assertRaisesRegex(ValueError, words + '|beyond'):
                algorithms.closeness(self.s.from_triples(edges, count, count), weighted=True)
