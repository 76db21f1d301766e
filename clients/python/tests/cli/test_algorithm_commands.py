"""The command line: in this process, and as a process of its own where something is handed in by
standard input."""
import contextlib
import os
import pty
import signal
import subprocess
import sys
import time

import support
from command_line import PACKAGE, CommandLine
from processes import alive, gone
from spmat.cli.output import Status

DATA = os.path.join(PACKAGE, 'tests', 'data')
KARATE = os.path.join(support.TOP, 'docs', 'karate.mtx')
GRAPH = (
    '%%MatrixMarket matrix coordinate pattern symmetric\n6 6 7\n2 1\n3 1\n3 2\n4 3\n5 4\n6 4\n6 '
    '5\n')
COLUMN = (
    '%%MatrixMarket matrix coordinate integer general\n6 1 6\n1 1 2\n2 1 2\n3 1 3\n4 1 3\n5 1 '
    '2\n6 1 2\n')


class Commands(CommandLine):
    def setUp(self):
        super().setUp()
        self.write('graph.mtx', GRAPH)

    def test_numbers_columns_and_matrices(self):
        self.assertEqual(self.printed('triangle-count', 'graph.mtx'), '2\n')
        self.assertEqual(self.printed('degrees', 'graph.mtx'), '1 2\n2 2\n3 3\n4 3\n5 2\n6 2\n')
        self.assertEqual(self.printed('degrees', 'graph.mtx', '--mtx'), COLUMN)
        self.assertEqual(self.printed('k-truss', 'graph.mtx', '--k', '3').splitlines()[:2],
                         ['1 2 1', '1 3 1'])

    def test_vertices_count_from_1(self):
        self.assertEqual(self.printed('bfs-levels', 'graph.mtx', '--source', '6'),
                         '1 3\n2 3\n3 2\n4 1\n5 1\n6 0\n')
        self.assertEqual(self.printed('bfs-parents', 'graph.mtx', '--undirected'),
                         '1 1\n2 1\n3 1\n4 3\n5 4\n6 4\n')
        self.assertEqual(self.printed('connected-components', 'graph.mtx'),
                         ''.join('%d 1\n' % row for row in range(1, 7)))
        self.assertIn('no vertex 7: they are 1 to 6',
                      self.refused('bfs-levels', 'graph.mtx', '--source', '7', status=Status.WORDS))

    def test_graphs_of_another_kind(self):
        """What is for undirected graphs says so, in place of a number that means nothing."""
        head = '%%MatrixMarket matrix coordinate pattern general\n'
        self.write('round.mtx', head + '3 3 3\n1 2\n2 3\n3 1\n')
        self.write('loop.mtx', head + '3 3 7\n1 1\n1 2\n2 1\n2 3\n3 2\n3 1\n1 3\n')
        for words in (['triangle-count'], ['triangles'], ['clustering'], ['k-truss', '--k', '3'],
                      ['k-core', '--k', '2'],
                      ['maximal-independent-set']):
            self.assertIn('an edge leads one way alone: --undirected',
                          self.refused(*words, 'round.mtx'))
            self.assertNotEqual(self.printed(*words, 'round.mtx', '--undirected'), '')
            if words[0] in ('triangle-count', 'maximal-independent-set'):
                self.printed(*words, 'loop.mtx')
            else:
                self.assertIn('from a vertex to itself: --undirected',
                              self.refused(*words, 'loop.mtx'))
        self.assertEqual(self.printed('triangle-count', 'round.mtx', '--undirected'), '1\n')
        self.assertEqual(self.printed('triangle-count', 'loop.mtx'), '1\n')
        self.assertEqual(self.printed('bfs-levels', 'round.mtx'), '1 0\n2 1\n3 2\n')

    def test_lists_by_name(self):
        """An edge list, CSV, TSV and DIMACS file for every command, with the names of the file."""
        for command, want in (
            (['degrees', 'people.csv'], ['Anna\t1', 'Béla\t1', 'Clara\t2', 'Dvořák, Emil\t1',
                                         'Flora\t1', 'Gustav\t1']),
            (['bfs-levels', 'friends.tsv', '--no-header', '--source', 'bob'],
             ['ann 2', 'bob 0', 'cid 1', 'dee 2']),
            (['bfs-levels', 'friends.tsv', '--no-header'], ['ann 0', 'bob 1', 'cid 2', 'dee 3']),
            (['bfs-parents', 'friends.tsv', '--no-header', '--source', 'cid'],
             ['ann cid', 'bob ann', 'cid cid', 'dee cid']),
            (['connected-components', 'edges.txt'], ['0 0', '1 0', '2 0', '3 0']),
            (['sssp', 'roads.gr', '--source', '1'], ['1 0', '2 5', '3 2', '4 6', '5 10']),
            (['sssp', 'lengths.txt', '--scale', '1000', '--source', '205'],
             ['101 3.25', '205 0.0', '330 1.25', '412 11.375']),
            (['bfs-levels', 'lengths.txt', '--source', '205'],
             ['101 2', '205 0', '330 1', '412 2']),
            (['triangle-count', 'houses.col'], ['2']), (['triangle-count', 'weights.mtx'], ['1']),
            (['triangle-count', 'lengths.txt', '--undirected'], ['1']),
            (['sssp', 'weights.mtx', '--scale', '2', '--source', '2'], ['1 0.5', '2 0.0', '3 2.0']),
            (['sssp', 'weights.mtx', '--pattern', '--source', '2'], ['1 1', '2 0', '3 1']),
            (['transitive-closure', 'roads.gr'], ['1 2 1', '1 3 1', '1 4 1', '1 5 1', '2 4 1',
                                                  '2 5 1', '3 2 1', '3 4 1', '3 5 1', '4 5 1']),
            (['degrees', 'clubs.csv', '--sep', ';', '--header', '--bipartite'],
             ['ann 2', 'bob 2', 'cid 1', 'chess 2', 'rowing 3']),
            (['degrees', 'clubs.csv', '--sep', ';', '--header', '--one-kind'],
             ['ann 2', 'chess 0', 'bob 2', 'rowing 0', 'cid 1']),
            (['degrees', 'people.csv', '--columns', 'to,from'],
             ['Béla\t1', 'Anna\t1', 'Clara\t1', 'Dvořák, Emil\t2', 'Flora\t1', 'Gustav\t1']),
            (['degrees', 'people.csv', '--columns', '1,0', '--no-header'],
             ['to\t1', 'from\t0', 'Béla\t1', 'Anna\t1', 'Clara\t1', 'Dvořák, Emil\t2',
              'Flora\t1', 'Gustav\t1'])):
            words = [os.path.join(DATA, word) if os.path.exists(os.path.join(DATA, word)) else word
                     for word in command]
            self.assertEqual(self.printed(*words).splitlines(), want, command)

    def test_faults_of_lists(self):
        self.write('bad.csv', 'a,b,1\nb,c\n')
        self.assertIn('bad.csv, line 2: 2 fields, and the first line has 3',
                      self.refused('degrees', 'bad.csv'))
        self.assertIn('standard input, line 1: 0.5 is a number that is not whole',
                      self.refused('sssp', '-', text='a b 0.5\n'))
        self.assertIn('this is no Matrix Market file',
                      self.refused('degrees', 'bad.csv', '--format', 'mtx'))
        self.assertIn("no vertex eve: they are 'ann', 'bob'",
                      self.refused('bfs-levels', os.path.join(DATA, 'friends.tsv'), '--no-header',
                                   '--source', 'eve', status=Status.WORDS))
        self.assertIn('is empty', self.refused('degrees', '-', text='\n'))
        self.assertIn('--bipartite', self.refused('degrees', '-', text=COLUMN))
        self.assertIn('line 3 of standard input: ',
                      self.refused('degrees', '-', text=GRAPH.replace('2 1\n', 'x 1\n')))
        done = self.run_words('triangle-count', 'graph.mtx', '--plot', 'x.png')
        self.assertEqual(done.returncode, 2)
        self.assertIn('No such option: --plot (spmat-graph triangle-count --help)', done.stderr)
        self.assertEqual(self.printed('triangle-count', 'graph.mtx', '--steps', '1e6', '--workers',
                                      '1'), '2\n')
        self.assertIn("Invalid value for '--steps': '1.5' is no whole number",
                      self.run_words('degrees', 'graph.mtx', '--steps', '1.5').stderr)

    def test_paths(self):
        """Vertices of a path with how far along it they are; a tree; the vertices of some paths;
        yes and no."""
        self.write('roads.csv',
                   'from,to,km\nAnna,Bob,12\nBob,Cid,3\nCid,Anna,7\nCid,Dora Li,1\nAnna,Dora '
                   'Li,90\n')
        ends = ['--source', 'Anna', '--target', 'Dora Li']
        for words, wanted in ((['shortest-path', *ends], 'Anna\t0\nDora Li\t1\n'),
                              (['shortest-path', *ends, '--weighted'],
                               'Anna\t0\nBob\t12\nCid\t15\nDora Li\t16\n'),
                              (['shortest-paths', '--source', 'Bob', '--weighted'],
                               'Anna\t10\tCid\nBob\t0\tBob\nCid\t3\tBob\nDora Li\t4\tCid\n'),
                              (['k-shortest-paths', *ends, '--k', '9', '--weighted'],
                               '1\tAnna\t0\n1\tBob\t12\n1\tCid\t15\n1\tDora '
                               'Li\t16\n2\tAnna\t0\n2\tDora Li\t90\n'),
                              (['has-path', *ends], 'yes\n'),
                              (['has-path', '--source', 'Dora Li', '--target', 'Anna'], 'no\n')):
            self.assertEqual(self.printed(words[0], 'roads.csv', *words[1:]), wanted)
        self.assertIn("no path leads from 'Dora Li' to 'Anna'",
                      self.refused('shortest-path', 'roads.csv', '--source', 'Dora Li', '--target',
                                   'Anna'))

    def test_fractions(self):
        shares = self.printed('clustering', 'graph.mtx').splitlines()
        self.assertEqual(shares[:3], ['1 1.000000000', '2 1.000000000', '3 0.333333333'])
        lines = self.printed('pagerank', 'graph.mtx', '--undirected').splitlines()
        ranks = [float(line.split()[1]) for line in lines]
        best = self.printed('pagerank', 'graph.mtx', '--undirected', '--top', '2').splitlines()
        self.assertEqual(best, sorted(lines, key=lambda line: -float(line.split()[1]))[:2])
        self.assertAlmostEqual(sum(ranks), 1, places=6)

    def test_standard_input_and_output_file(self):
        self.assertEqual(self.printed('degrees', '-', '--output', 'd.txt', text=GRAPH), '')
        self.assertEqual(self.read('d.txt').splitlines()[2], '3 3')

    def test_faults_are_one_line(self):
        self.assertIn('nothere.mtx', self.refused('degrees', 'nothere.mtx'))
        self.assertIn('M6', self.refused('degrees', '-', text=GRAPH.replace('6 5\n', '9 5\n')))
        self.assertIn('HOST:PORT', self.refused('degrees', 'graph.mtx', '--connect', 'here',
                                                status=Status.WORDS))
        self.assertIn('square', self.refused('degrees', '-', text=COLUMN))
        self.assertIn('none: no such folder',
                      self.refused('degrees', 'graph.mtx', '--output', 'none/d.txt',
                                   status=Status.OTHER))
        self.assertIn('S8', self.refused('triangle-count', 'graph.mtx', '--steps', '3',
                                         status=Status.BUDGET))
        self.assertEqual(self.run_words('nothing').returncode, 2)
        self.assertEqual(self.run_words('k-core', 'graph.mtx').returncode, 2)

    def test_version(self):
        with open(os.path.join(support.TOP, 'VERSION'), encoding='ascii') as file:
            self.assertEqual(self.printed('--version'),
                             'spmat %s, the client\n' % file.read().strip())

    def test_help_has_examples(self):
        self.assertIn('spmat-graph triangle-count', self.printed('--help'))
        for command in ('degrees', 'bfs-levels', 'k-truss', 'spy', 'draw'):
            told = self.printed(command, '--help')
            self.assertIn('Example: spmat-graph %s ' % command, told)
            self.assertNotIn('progress(', told)

    @support.needs('matplotlib', 'numpy')
    def test_pictures(self):
        for words in (['spy', 'graph.mtx'], ['draw', 'graph.mtx', '--weights'],
                      ['degrees', 'graph.mtx'], ['bfs-levels', 'graph.mtx'],
                      ['k-truss', 'graph.mtx', '--k', '3']):
            self.printed(*words, '--plot', 'picture.png')
            with open(os.path.join(self.folder, 'picture.png'), 'rb') as file:
                self.assertEqual(file.read(8), b'\x89PNG\r\n\x1a\n')
            os.remove(os.path.join(self.folder, 'picture.png'))

    def test_terminated_amid_a_command(self):
        """SIGTERM ends the program too, which may be amid a long batch."""
        # the second one waits
        silent = (
            "sh -c 'read line; echo ok budget 1 0 0; read line; echo $$ > number; exec sleep 100'")
        with subprocess.Popen([sys.executable, '-m', 'spmat', 'degrees', 'graph.mtx', '--program',
                               silent], cwd=self.folder, env=dict(os.environ, PYTHONPATH=PACKAGE),
                              stderr=subprocess.PIPE) as process:
            end = time.monotonic() + 30
            while not os.path.exists(os.path.join(self.folder,
                                                  'number')) or not self.read('number').strip():
                self.assertLess(time.monotonic(), end)
                time.sleep(.01)
            child = int(self.read('number'))
            self.assertTrue(alive(child))
            process.terminate()
            self.assertEqual((process.communicate(timeout=30)[1], process.returncode),
                             (b'', 128 + signal.SIGTERM))
        self.assertTrue(gone(child))

    def test_a_karate_club(self):
        """The graph of the README."""
        levels = self.printed('bfs-levels', KARATE, '--source', '17').split('\n')
        self.assertEqual([sum(line.endswith(' %d' % level) for line in levels)
                          for level in range(7)], [1, 2, 3, 12, 8, 8, 0])

    def shown(self, *words):
        """What a terminal is sent."""
        end, its = pty.openpty()
        with subprocess.Popen([sys.executable, '-m', 'spmat', *words], cwd=self.folder,
                              stdin=subprocess.DEVNULL, stdout=its, stderr=its,
                              env=dict(os.environ, PYTHONPATH=PACKAGE)):
            os.close(its)
            said = b''
            with contextlib.suppress(OSError):             # the end, once the other side is closed
                while True:
                    said += os.read(end, 1 << 16)
        os.close(end)
        return said.decode()

    @support.needs('tqdm')
    def test_results_on_a_terminal(self):
        """They begin their line, where the bar was."""
        # enough to be sent in pieces
        self.write('long.mtx', GRAPH + ('%' + 1000 * '-' + '\n') * 1100)
        shown = self.shown('triangle-count', 'long.mtx')
        for bar in ('jobs', 'sent'):
            self.assertIn(bar + ': ', shown)
        self.assertRegex(shown, r'\d+%')
        self.assertRegex(shown, '[\r\n]2\r\n')
        self.assertEqual(self.shown('triangle-count', 'graph.mtx', '--quiet'), '2\r\n')

    def test_no_progress_in_a_pipe(self):
        self.assertEqual(self.run_words('bfs-levels', 'graph.mtx').stderr, '')
