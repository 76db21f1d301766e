"""Vertices by names of all kinds: whatever a graph's vertices are called, algorithms and commands
answer for the vertices that are meant. Where names are numbers, a row that was taken for a name
would be another vertex."""
import itertools
import json
import os
import pathlib
import random
import shutil
import subprocess
import tempfile
import unittest

import pytest

import support
import spmat
from command_line import CommandLine
import spmat_blocks as blocks
from algorithm_calls import labels_of
from spmat import algorithms
from spmat.algorithms.registry import ALGORITHMS, BOTH_WAYS, WITHOUT_LOOPS

pytestmark = pytest.mark.slow

COUNT = 7
NAMES = {
    'a permutation of 0 to n - 1': [3, 0, 6, 1, 5, 2, 4], 'from 1': [1, 2, 3, 4, 5, 6, 7],
    'below 0': [-1, 3, -4, 0, 5, -2, 1],
    'floats': [1.5, 0.0, 3.0, -2.0, 1.0, 6.5, 2.0], 'text': ['b', 'a', 'g', 'd', 'c', 'f', 'e'],
    'numbers as text': ['3', '0', '6', '1', '5', '2', '4'],
    'tuples': [(0, 1), (1, 0), (2,), (), (0, 0), (1, 1), ('a', 2)],
    'a mixture': [4, 'a', (1, 2), 0, -1, 2, 'b']}
VERTICES = {'source': 2, 'target': 5, 'sources': [4, 0, 6], 'firsts': [0, 3, 5],
            'seconds': [1, 6, 2]}
NO_CYCLE = ('topological_levels', 'longest_paths')


class Drawn:
    """A random graph by its edges, as an algorithm wants it."""

    def __init__(self, name, seed, count=COUNT):
        chance, wanted = random.Random(seed), ALGORITHMS[name].wanted
        self.count, self.both = (count, wanted in (BOTH_WAYS, WITHOUT_LOOPS)
                                 or name == 'bipartite_sides' or seed % 2 == 0)
        loops = wanted is not WITHOUT_LOOPS and name not in (*NO_CYCLE, 'bipartite_sides')
        pairs = [(i, j) for i, j in itertools.product(range(count), repeat=2) if chance.random()
                 < .35 and (loops or i != j)]
        if name in NO_CYCLE:
            self.both, pairs = False, [(i, j) for i, j in pairs if (3 * i) % count < (3 * j)
                                       % count]
        if name == 'bipartite_sides':
            pairs = [(i, j) for i, j in pairs if i % 2 != j % 2]
        if name == 'diameter':
            pairs = sorted({*pairs, *((i, (i + 1) % count) for i in range(count))})
        self.values = {pair: chance.randrange(1, 9) for pair in pairs}
        if self.both:
            self.values.update({(j, i): value for (i, j), value in [*self.values.items()]
                                if i <= j})
            self.values.update({(j, i): value for (i, j), value in [*self.values.items()] if i > j
                                and (j, i) not in self.values})

    def matrix(self, session, names, back=False):
        """The graph, or its transpose, with these names or none."""
        at = sorted((j, i, value) if back else (i, j, value)
                    for (i, j), value in self.values.items())
        made = session.from_coo([i for i, _, _ in at], [j for _, j, _ in at],
                                [value for _, _, value in at], self.count, self.count)
        made.nodes = names
        return made


def call(name, graph, names, turned):
    """What an algorithm answers, whose vertices are asked for by their names."""
    given = {}
    for parameter in ALGORITHMS[name].parameters[1:]:
        if parameter in VERTICES:
            at = VERTICES[parameter]
            given[parameter] = names[at] if isinstance(at, int) else [names[one] for one in at]
    if 'k' in ALGORITHMS[name].parameters:
        given['k'] = 2
    if name == 'modularity':
        given['labels'] = labels_of(graph)
    if name == 'pagerank':
        given['personalization'] = {names[1]: 1, names[4]: 2}
    if turned is not None:
        given['WT' if name == 'sssp' else 'GT'] = turned
    return getattr(algorithms, name)(graph, **given)


def by_rows(found, names):
    """An answer with rows in place of names, for a comparison with that of a graph without
    names."""
    row = {name: at for at, name in enumerate(names)}
    if hasattr(found, 'to_coo'):
        return found.shape, found.to_triples()
    if isinstance(found, algorithms.Path):
        return [row[one] for one in found], found.lengths
    if isinstance(found, algorithms.PathTree):
        return row[found.source], by_rows(found.lengths,
                                          names), by_rows(found.predecessors, names), [
                                              by_rows(found.path(one), names) for one in names
                                              if one in found]
    if isinstance(found, (algorithms.Centrality, algorithms.Communities)):
        return by_rows(found.values if isinstance(found, algorithms.Centrality) else found.labels,
                       names)
    if isinstance(found, (list, tuple)) and not isinstance(found, algorithms.Bounds):
        return [by_rows(one, names) for one in found]
    return found


def outcome(name, graph, names, turned=None):
    """The answer by rows, or which error it is; and the answer itself."""
    try:
        found = call(name, graph, names, turned)
    except ValueError as fault:
        return type(fault).__name__, None
    return by_rows(found, names), found


def columns_of(found):
    """The matrices with a row for each vertex in an answer."""
    if hasattr(found, 'to_coo'):
        return [found] if found.nrows == COUNT else []
    if isinstance(found, algorithms.PathTree):
        return [found.lengths, found.predecessors]
    if isinstance(found, (algorithms.Centrality, algorithms.Communities)):
        return columns_of(found.values if isinstance(found, algorithms.Centrality)
                          else found.labels)
    return ([one for part in found for one in columns_of(part)] if isinstance(found, (list, tuple))
            else [])


class Test(support.InSession):
    def compare(self, session, name, seed, names):
        """The answer of a graph with names, renamed, is that of the same graph without, whichever
        way it has its transpose."""
        drawn = Drawn(name, seed)
        due, _ = outcome(name, drawn.matrix(session, None), range(COUNT))
        ways = ['no transpose']
        if {'GT', 'WT'} & set(ALGORITHMS[name].parameters):
            ways += ['G.T', 'another transpose']
        for way in ways[seed % len(ways):][:1]:
            graph = drawn.matrix(session, names)
            turned = (None if way == 'no transpose' else graph.T if way == 'G.T'
                      else drawn.matrix(session, names, back=True))
            got, found = outcome(name, graph, names, turned)
            with self.subTest(algorithm=name, names=names, seed=seed, transpose=way,
                              edges=drawn.values):
                self.assertEqual(got, due)
                for one in columns_of(found):
                    self.assertEqual((one.row_nodes, one.column_nodes if one.ncols > 1 else names),
                                     (names, names))

    def test_each_algorithm(self):
        kinds = itertools.cycle(NAMES.values())
        for number, name in enumerate(sorted(ALGORITHMS)):
            for seed in range(number,
                              number
                              + (len(NAMES) if set(VERTICES) & set(ALGORITHMS[name].parameters)
                                 else 3)):
                self.compare(self.s, name, seed, next(kinds))

    def test_each_algorithm_in_blocks(self):
        kinds = itertools.cycle([NAMES['a permutation of 0 to n - 1'], NAMES['below 0'],
                                 NAMES['tuples']])
        with blocks.Sessions(3) as sessions:
            for number, name in enumerate(sorted(ALGORITHMS)):
                for seed in (2 * number, 2 * number + 1):
                    self.compare(sessions, name, seed, next(kinds))

    def test_strong_components_of_more_edges_than_the_client_looks_at(self):
        chance, count = random.Random(4), 700
        layers = {(i, j) for i, j in (chance.sample(range(count), 2) for _ in range(11000))
                  if i % 9 < j % 9}
        for more in (set(), {(8, 9), (9, 18), (18, 0), (17, 27)}):
            edges = sorted(layers | more)
            self.assertGreater(len(edges), 4096)
            graph = self.s.from_coo([i for i, _ in edges], [j for _, j in edges], 1, count, count)
            due = algorithms.strongly_connected_components(graph).to_list()
            self.assertEqual(len(set(due)) == count, not more)
            names = chance.sample(range(1, count + 1), count)
            named = self.s.from_edgelist([(names[i], names[j]) for i, j in edges], nodelist=names)
            for turned in (None, named.T):
                found = algorithms.strongly_connected_components(named, turned)
                self.assertEqual((found.to_list(), found.nodes), (due, names))

    def test_rows_of_results_are_named_by_their_sources(self):
        names = NAMES['from 1']
        graph = self.s.from_edgelist([(1, 2, 5), (2, 3, 6)], nodelist=names)
        for found in (algorithms.path_lengths(graph, [3, 1]),
                      algorithms.path_lengths(graph, (3, 1))):
            self.assertEqual(found.to_edgelist(), [(3, 3, 0), (1, 1, 0), (1, 2, 5), (1, 3, 11)])
        self.assertEqual(algorithms.k_hop(graph, 0, [2, 1]).to_edgelist(), [(2, 2, 0), (1, 1, 0)])
        self.assertEqual(algorithms.k_hop(graph, 1).nodes, names)
        self.assertEqual(algorithms.path_lengths(graph, 2).to_edgelist(), [(2, 2, 0), (2, 3, 6)])
        twice = algorithms.path_lengths(graph, [2, 2])
        self.assertEqual((twice.row_nodes, twice.column_nodes), (None, names))

    def test_a_tuple_is_a_vertex_where_it_is_a_name(self):
        graph = self.s.from_edgelist([((0, 1), (1, 0)), ((1, 0), 0), (0, 1)])
        self.assertEqual(algorithms.bfs_levels(graph, (0, 1)).by_node(),
                         {(0, 1): 0, (1, 0): 1, 0: 2, 1: 3})
        self.assertEqual(algorithms.bfs_levels(graph, [(0, 1)]).by_node(),
                         {(0, 1): 0, (1, 0): 1, 0: 2, 1: 3})
        self.assertEqual(algorithms.bfs_levels(graph, (0, (1, 0))).by_node(),
                         {(1, 0): 0, 0: 0, 1: 1})
        for wrong in ((0, 2), 'ab', b'ab', 2, None):
            with self.assertRaisesRegex(ValueError, 'no vertex'):
                algorithms.bfs_levels(graph, wrong)

    def test_errors_name_vertices_by_their_names(self):
        for names in (['a', 'b', 'c'], [1, 2, 3], [2, 0, 1], [(0, 'x'), (1, 'x'), (2, 'x')]):
            ring = self.s.from_coo([0, 1, 2], [1, 2, 0], 1, 3, 3)
            ring.nodes = names
            for function in (algorithms.topological_levels, algorithms.longest_paths):
                with self.assertRaises(algorithms.CycleError) as fault:
                    function(ring)
                cycle = fault.exception.cycle
                first = names.index(cycle[0])
                self.assertEqual(cycle, names[first:] + names[:first])
                self.assertEqual(str(fault.exception),
                                 'the graph has a cycle: '
                                 + ' -> '.join(map(repr, [*cycle, cycle[0]])))
            with self.assertRaises(ValueError) as odd:
                algorithms.bipartite_sides(ring)
            self.assertIn(str(odd.exception),
                          ['an odd cycle: the edge between %r and %r joins vertices of one side'
                           % pair for pair in itertools.permutations(names, 2)])
            with self.assertRaisesRegex(algorithms.NoPath, 'no path leads from'):
                algorithms.shortest_path(ring.select('triu'), names[2], names[0])

    def test_a_cutoff_below_0_leaves_out_the_source(self):
        for value, far in ((2, {}), (-2, {1: -2})):
            graph = self.s.from_coo([0], [1], value, 2, 2)
            self.assertEqual(algorithms.sssp(graph, 0, cutoff=-1).by_node(), far)
            tree = algorithms.shortest_paths(graph, 0, weighted=True, cutoff=-1)
            self.assertEqual((tree.lengths.by_node(), 0 in tree, 1 in tree),
                             (far, False, bool(far)))
            self.assertEqual(len(algorithms.shortest_paths(graph, 0, cutoff=-1)), 0)
            self.assertEqual(algorithms.sssp(graph, 0, cutoff=0).by_node(), {0: 0, **far})

    def test_all_pairs_refuses_sums_that_wrap(self):
        least = -2 ** 63
        for value in (least, least + 1, least + 5, -2 ** 62 - 1, -1):
            with self.assertRaisesRegex(ValueError, 'a cycle of negative length'):
                algorithms.all_pairs(self.s.from_coo([0, 1], [0, 2], [value, 3], 3, 3))
        for values in ([-2 ** 62 - 5, -2 ** 62 - 5], [2 ** 62, 2 ** 62]):
            with self.assertRaisesRegex(ValueError, 'lengths could pass'):
                algorithms.all_pairs(self.s.from_coo([0, 1], [1, 2], values, 3, 3))
        far = algorithms.all_pairs(self.s.from_coo([0, 2], [1, 3], [2 ** 63 - 2, 2 - 2 ** 63], 4,
                                                   4))
        self.assertEqual(far.select('offdiag').to_triples(),
                         [(0, 1, 2 ** 63 - 2), (2, 3, 2 - 2 ** 63)])

    @unittest.skipUnless(shutil.which('mypy'), 'no mypy')
    def test_type_checkers_refuse_a_row_for_a_vertex(self):
        text = (
            'from typing import Hashable, List\nfrom spmat import Matrix\nfrom spmat.algorithms '
            'import bfs_levels, k_hop, sssp\n'
            'from spmat.algorithms.searches import Search\nfrom spmat.types import Place\n'
            'def f(G: Matrix, row: Place, rows: List[Place], name: Hashable) -> None:\n'
            '    bfs_levels(G, name)\n    bfs_levels(G, [name, 3])\n    Search([row])\n    '
            'sssp(G, 3, target="a")\n'
            '    bfs_levels(G, row)\n    bfs_levels(G, rows)\n    sssp(G, row)\n    k_hop(G, 2, '
            'rows)\n    Search([name])\n    Search([3])\n')
        with tempfile.TemporaryDirectory() as folder:
            path = os.path.join(folder, 'mixed.py')
            pathlib.Path(path).write_text(text)
            done = subprocess.run(['mypy', '--strict', '--cache-dir', folder, path],
                                  stdout=subprocess.PIPE, text=True, check=False,
                                  env=dict(os.environ, MYPYPATH=support.CLIENT), timeout=300)
        wrong = [int(line.split(':')[1]) for line in done.stdout.splitlines()
                 if line.startswith(path) and ': error: ' in line]
        self.assertEqual(wrong, [11, 12, 13, 14, 15, 16], done.stdout)


# vertices in order
EDGES = [(0, 1, 3), (1, 2, 1), (2, 3, 4), (3, 4, 1), (4, 5, 5), (0, 3, 2), (1, 4, 6), (2, 5, 3),
         (5, 6, 1)]
TRIANGLES = [(0, 2, 7), (3, 5, 1)]
GRAPHS = {'market': [1, 2, 3, 4, 5, 6, 7], 'dimacs': [1, 2, 3, 4, 5, 6, 7],
          'numbers': [-3, 0, 1, 2, 4, 8, 9], 'text': ['0', 'b b', '2', 'a', '1', '6', 'x']}
WORDS = {'source': ['--source', 2], 'sources': ['--source', 4, '--source', 1],
         'target': ['--target', 5], 'firsts': ['--pair', 1, 3, '--pair', 5, 3],
         'k': ['--k', '2']}
# whose target says alone where the search ends
ENDS_EARLIER = ('bfs-levels', 'bfs-parents', 'sssp')
VERTEX_FIELDS = ('node', 'source', 'target', 'predecessor')


class Commands(CommandLine):
    def graph(self, kind, names, edges):
        """A file of the graph, and the words that read it."""
        named = [(names[i], names[j], value) for i, j, value in edges]
        if kind == 'market':
            self.write(kind, '%%%%MatrixMarket matrix coordinate integer general\n%d %d %d\n%s' % (
                len(names), len(names), len(edges), ''.join('%s %s %d\n' % one for one in named)))
            return [kind]
        if kind == 'dimacs':
            self.write(kind, 'p sp %d %d\n%s' % (len(names), len(edges),
                                                 ''.join('a %s %s %d\n' % one for one in named)))
            return [kind, '--format', 'dimacs']
        self.write(kind, ''.join('%s\t%s\t%d\n' % one for one in named))
        return [kind, '--no-header', '--columns', '0,1,2', '--sep', '\t']

    def answer(self, command, kind, names, edges):
        """What a command says of the graph, as objects."""
        from spmat.cli.algorithm_commands import COMMANDS
        algorithm, words = COMMANDS[command], []
        for option in algorithm.parameters:
            if option == 'target' and command in ENDS_EARLIER:
                continue
            words += [str(names[word]) if isinstance(word, int) else word
                      for word in WORDS.get(option, ())]
        more = (['--undirected'] if algorithm.wanted is WITHOUT_LOOPS
                or command in ('diameter', 'katz') else ['--both-ways'] if algorithm.wanted
                is BOTH_WAYS else [])
        said = json.loads(self.printed(command, *self.graph(kind, names, edges), *more, '--json',
                                       '--quiet', *words))
        return said if isinstance(said, list) else [said], algorithm

    def test_each_command(self):
        from spmat.cli.algorithm_commands import COMMANDS
        for command in COMMANDS:
            edges = EDGES if command == 'bipartite-sides' else EDGES + TRIANGLES
            due, algorithm = self.answer(command, 'rows', list(range(7)), edges)
            fields = [*VERTEX_FIELDS,
                      *([command.replace('-', '_')] if algorithm.are_vertices else [])]
            self.assertTrue(due, command)
            for kind, names in GRAPHS.items():
                if kind == 'dimacs' and not set(WORDS) & set(algorithm.parameters):
                    continue                       # its names are those of the Matrix Market file
                renamed = [{field: names[value] if field in fields else value
                            for field, value in row.items()} for row in due]
                with self.subTest(command=command, graph=kind):
                    self.assertEqual(self.answer(command, kind, names, edges)[0], renamed)

    def test_a_graph_of_one_vertex(self):
        self.write('one.mtx', '%%MatrixMarket matrix coordinate integer general\n1 1 1\n1 1 5\n')
        for command, words in (('all-pairs', []), ('path-lengths', ['--source', '1']),
                               ('k-hop', ['--k', '2']), ('transitive-closure', [])):
            self.assertEqual(self.printed(command, 'one.mtx', *words),
                             '1 1 %d\n' % (command == 'transitive-closure'))
        self.assertEqual(self.printed('sssp', 'one.mtx'), '1 0\n')
        self.assertEqual(json.loads(self.printed('degrees', 'one.mtx', '--json')),
                         [{'node': 1, 'degrees': 1}])

    def test_a_word_that_is_no_vertex(self):
        self.write('numbers', '-3 2\n2 7\n')
        self.assertEqual(self.printed('has-path', 'numbers', '--source=-3', '--target', '7'),
                         'yes\n')
        for word in ('--3', '3-', '\u00b2', '8', ''):
            self.refused('bfs-levels', 'numbers', '--source=' + word, status=2)
