"""Words that contradict each other, or would do nothing: each is refused, or told on standard
error; and both ways are Python's."""
import io
import os

import support
from command_line import CommandLine, flags_of
from spmat.algorithms.registry import ALGORITHMS
from spmat.cli.algorithm_commands import COMMANDS, NO_OPTIONS
from spmat.cli.output import Status

FILES = {'r.csv': 'A,B,3\nB,A,4\nA,B,10\n', 'r3.csv': 'A,B,1\nB,C,1\nA,C,10\n',
         'loop.csv': 'A,B,3\nB,A,4\nC,C,2\n',
         'roads.csv': 'from_junction,to_junction,length_km\na,b,1.5\nb,c,2.5\na,c,9\n',
         'g.mtx': '%%MatrixMarket matrix coordinate integer general\n3 3 4\n1 2 3\n2 1 4\n3 3 '
         '2\n2 3 7\n'}


class Words(CommandLine):
    def setUp(self):
        super().setUp()
        for name, text in FILES.items():
            self.write(name, text)

    def refuses(self, *words, says):
        done = self.run_words(*words)
        self.assertEqual((done.returncode, done.stdout), (Status.WORDS, ''), words)
        for part in says:
            self.assertIn(part, done.stderr)

    def prints(self, *words, lines, says=''):
        done = self.run_words(*words)
        self.assertEqual((done.returncode, done.stdout.splitlines()), (Status.DONE, lines),
                         done.stderr)
        self.assertIn(says, done.stderr)

    def test_values_that_undirected_drops(self):
        for words in (['shortest-path', 'r3.csv', '--source', 'A', '--target', 'C', '--weighted'],
                      ['minimum-spanning-forest', 'r3.csv'],
                      ['sssp', 'r3.csv', '--source', 'A'], ['all-pairs', 'r3.csv'],
                      ['pagerank', 'r3.csv', '--weighted']):
            self.refuses(*words, '--undirected', says=['--undirected drops', '--both-ways'])
        self.prints('sssp', 'r3.csv', '--source', 'A', '--undirected', '--pattern',
                    lines=['A 0', 'B 1', 'C 1'])
        self.prints('sssp', 'r3.csv', '--source', 'A', '--both-ways', lines=['A 0', 'B 1', 'C 2'])
        self.prints('minimum-spanning-forest', 'r3.csv', '--both-ways', lines=['A B 1', 'B C 1'])

    def test_values_that_pattern_leaves_out(self):
        for words in (['--scale', '10'], ['--columns', '0,1,2'], ['--weighted']):
            self.refuses('pagerank', 'r3.csv', '--pattern', *words, says=[words[0], '--pattern'])

    def test_values_that_are_not_used(self):
        words = ['shortest-path', 'roads.csv', '--columns', 'from_junction,to_junction,length_km',
                 '--scale', '10', '--both-ways', '--source', 'a', '--target', 'c']
        self.prints(*words, lines=['a 0', 'c 1'],
                    says='--scale: values of edges are read, and shortest-path does not use '
                    'them: --weighted does')
        self.assertNotIn('use them', self.run_words(*words, '--quiet').stderr)
        self.assertNotIn('use them', self.run_words(*words, '--weighted').stderr)
        self.prints('degrees', 'r3.csv', '--columns', '0,1,2', lines=['A 2', 'B 1', 'C 0'],
                    says='degrees does not use them')
        self.assertNotIn('use them', self.run_words('degrees', 'r3.csv', '--columns', '0,1').stderr)

    def test_both_ways_folds_as_python_does(self):
        with support.spmat.Session() as session:
            for file, op in (('r.csv', 'plus'), ('r.csv', 'max'), ('loop.csv', 'plus'),
                             ('loop.csv', 'first'), ('g.mtx', 'plus'), ('g.mtx', 'min')):
                G = session.read_graph(os.path.join(self.folder, file), directed=False,
                                       dup_op=op)
                names = [int(name) + 1 if file == 'g.mtx' else name
                         for name in (G.nodes or range(G.nrows))]
                got = support.spmat.algorithms.sssp(G, names[0] if G.nodes else 0).to_dict()
                want = ['%s %d' % (names[i], value) for (i, _), value in got.items()]
                self.prints('sssp', file, '--both-ways', '--dup-op', op, '--source', str(names[0]),
                            lines=want)
        self.prints('sssp', 'r.csv', '--both-ways', '--dup-op', 'plus', '--source', 'A',
                    lines=['A 0', 'B 17'])
        self.prints('sssp', 'loop.csv', '--both-ways', '--source', 'A', lines=['A 0', 'B 3'])

    def test_weighted_wherever_the_function_has_it(self):
        for name, algorithm in ALGORITHMS.items():
            if algorithm.command:
                done = self.run_words(name.replace('_', '-'), '--help')
                self.assertEqual((done.returncode, '--weighted' in done.stdout),
                                 (0, 'weighted' in algorithm.parameters), name)
        plain, weighted = (self.run_words('pagerank', 'r3.csv', *more).stdout
                           for more in ([], ['--weighted']))
        self.assertNotEqual(plain, weighted)

    def test_options_that_hide_others(self):
        for words in (['--header', '--no-header'], ['--bipartite', '--one-kind'],
                      ['--comments', '#', '--no-comments'],
                      ['--undirected', '--both-ways'], ['--columns', '0,1', '--columns', '1,0'],
                      ['--scale', '2', '--scale', '3']):
            self.refuses('degrees', 'r3.csv', *words,
                         says=[words[-1] if words[-1][0] == '-' else words[0]])
        self.refuses('sssp', 'r3.csv', '--source', 'A', '--source', 'B',
                     says=['--source: given twice'])
        self.assertEqual(self.run_words('betweenness', 'r3.csv', '--source', 'A', '--source',
                                        'B').returncode, Status.DONE)

    def test_words_of_a_process_beside_a_server(self):
        for words in (['--workers', '3'], ['--steps', '100'], ['--program', 'x']):
            self.refuses('degrees', 'r3.csv', '--connect', '127.0.0.1:9', *words,
                         says=[words[0], '--connect'])

    def test_words_of_lists_on_other_files(self):
        for words in (['--columns', '0,1'], ['--sep', ','], ['--header']):
            self.assertIn('is for a list of edges', self.refused('degrees', 'g.mtx', *words))

    def test_undirected_bipartite(self):
        self.prints('degrees', 'r3.csv', '--bipartite', '--undirected',
                    lines=["('row', 'A')\t2", "('row', 'B')\t1", "('column', 'B')\t1",
                           "('column', 'C')\t2"])

    def test_forms_that_hide_others(self):
        for words in (['--csv', '--json'], ['--json', '--mtx'], ['--mtx', '--csv']):
            self.refuses('degrees', 'r3.csv', *words, says=[*words, 'not with'])

    def test_a_bare_word(self):
        """It is taken for the vertex of an option, which is named."""
        for command, flag in ((['bfs-levels'], '--source A'), (['k-hop', '--k', '1'], '--source A'),
                              (['shared-neighbours', '--pair', 'A', 'B'], '--pair A'),
                              (['degrees'], '')):
            self.refuses(*command, 'r3.csv', 'A', says=['unexpected argument: A', flag])

    def test_depth(self):
        """Of searches by edges alike."""
        for command in ('bfs-levels', 'bfs-parents', 'k-hop'):
            self.assertIn('--depth', self.run_words(command, '--help').stdout)
        self.prints('bfs-levels', 'r3.csv', '--source', 'A', '--depth', '0', lines=['A 0'])
        for flag in ('--depth', '--k'):
            self.prints('k-hop', 'r3.csv', '--source', 'B', flag, '1', lines=['B B 0', 'B C 1'])
        self.refuses('bfs-levels', 'r3.csv', '--depth', '-1', says=['--depth: depth= of bfs_levels is a whole number of 0 or more'])

    def test_several_sources(self):
        both = ['--source', 'A', '--source', 'C']
        self.prints('bfs-levels', 'r3.csv', *both, lines=['A 0', 'B 1', 'C 0'])
        self.prints('k-hop', 'r3.csv', *both, '--k', '0', lines=['A A 0', 'C C 0'])

    def test_what_an_algorithm_refuses(self):
        """A value that it takes not is a wrong word, by its flag."""
        for command, words in (('pagerank', ['--damping', '1']), ('pagerank', ['--tolerance', '0']),
                               ('katz', ['--alpha', '0']), ('k-hop', ['--k', '-1']),
                               ('k-truss', ['--both-ways', '--k', '1']),
                               ('eigenvector', ['--rounds', '0']),
                               ('label-propagation', ['--both-ways', '--rounds', '0'])):
            self.refuses(command, 'r3.csv', *words, says=['spmat-graph: ' + words[-2]])

    def test_options_of_the_signature(self):
        """Each parameter that the shell can give is an option, told by the docstring."""
        for name, algorithm in COMMANDS.items():
            flags = flags_of(name)
            for called in algorithm.parameters[1:]:
                if called not in (*NO_OPTIONS, 'firsts', 'personalization', 'dangling'):
                    flag = '--' + called.replace('_', '-').replace('sources', 'source')
                    self.assertIn(flag, flags, name)
                    self.assertGreater(len(algorithm.describe(called)), 4, (name, called))

    def test_what_k_means(self):
        said = [' '.join(self.run_words(name, '--help').stdout.split())
                for name in ('k-core', 'k-truss', 'k-hop', 'k-shortest-paths')]
        self.assertEqual([word in text
                          for text, word in zip(said,
                                                ('neighbours in the core', 'triangles',
                                                 'edges away', 'How many paths'))], [True] * 4)
        for words in ('largest part of a graph in which each has', 'Cost: ', 'LAGraph_KCore'):
            self.assertIn(words, said[0])


class Files(support.InSession):
    def test_directed_of_matrix_market(self):
        text = FILES['g.mtx'].encode()
        with self.assertRaisesRegex(ValueError, 'dup_op='):
            self.s.read_graph(io.BytesIO(text), directed=False)
        G = self.s.read_graph(io.BytesIO(text), directed=False, dup_op='plus')
        self.assertEqual((G.to_triples(), G.directed),
                         ([(0, 1, 7), (1, 0, 7), (1, 2, 7), (2, 1, 7), (2, 2, 2)], False))

    def test_words_of_lists(self):
        for words in ({'columns': (0, 1)}, {'sep': ','}, {'header': True},
                      {'nodelist': ['a', 'b', 'c']}, {'unit': 's'}, {'date_format': '%d'}):
            with self.assertRaisesRegex(ValueError, '%s= is for a list of edges' % list(words)[0]):
                self.s.read_graph(io.BytesIO(FILES['g.mtx'].encode()), **words)
