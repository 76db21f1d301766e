"""How commands end: a status for each cause, one line on standard error, and no traceback whatever
a file holds."""
import bz2
import gzip
import lzma
import os
import pathlib
import re
import signal
import socket
import subprocess
import sys
import threading
import time
from unittest import mock

import support
from command_line import PACKAGE, CommandLine
from spmat import errors
from spmat.cli import output
from spmat.cli.output import Status

GRAPH = '%%MatrixMarket matrix coordinate pattern symmetric\n3 3 3\n2 1\n3 1\n3 2\n'
LIST = b'a,b\nb,c\n'
# Files that are no graph, each with a word of what has to be said.
ODD = {
    'cut.csv.gz': (gzip.compress(LIST)[:20], 'cut.csv.gz: '),
    'cut.csv.bz2': (bz2.compress(LIST)[:30], 'cut.csv.bz2: '),
    'no.csv.gz': (b'or', 'no.csv.gz'),
    'no.csv.bz2': (b'or', 'no.csv.bz2'),
    'wrong.csv.gz': (gzip.compress(LIST)[:-8] + b'\0' * 8, 'wrong.csv.gz: '),
    'broken.csv.gz': (gzip.compress(os.urandom(99))[:20] + b'\xff' * 80, 'broken.csv.gz: '),
    'cut.csv.xz': (lzma.compress(LIST)[:30], 'cut.csv.xz: '),
    'latin.csv': ('café,b\n'.encode('latin-1'), 'latin.csv, line 1: no UTF-8'),
    'wide.csv': ('a,b\n'.encode('utf-16'), 'wide.csv: '),
    'random.csv': (bytes(range(256)) * 40, 'random.csv'),
    'empty.csv': (b'', 'empty.csv'),
    'blank.csv': (b' \n\n', 'blank.csv'),
    'quote.csv': (b'a,"b\n' * 3, 'quote.csv'),
    'one.csv': (b'a\nb\n', 'one.csv'),
    'ragged.csv': (b'a,b,1\nb,c,d,e\n', 'ragged.csv, line 2'),
    'head.mtx': (b'%%MatrixMarket matrix coordinate integer general\n', 'head.mtx'),
    'short.mtx': (b'%%MatrixMarket matrix coordinate integer general\n3 3 3\n1 1 1\n', 'short.mtx'),
    'bytes.mtx': (b'%%MatrixMarket matrix coordinate integer general\n\xff\xfe\n', 'bytes.mtx'),
}


class Ends(CommandLine):
    def setUp(self):
        super().setUp()
        self.write('graph.mtx', GRAPH)

    def ends(self, status, *words, text=None, says=''):
        """A command ends with this status, and says one line."""
        done = self.run_words(*words, text=text)
        self.assertEqual(done.returncode, status, done.stderr)
        said = self.faults(done)
        self.assertEqual(said.count('\n'), 1, done.stderr)
        self.assertTrue(said.startswith('spmat-graph: '), done.stderr)
        self.assertIn(says, said)

    def test_done(self):
        self.assertEqual(self.run_words('triangle-count', 'graph.mtx').returncode, Status.DONE)
        self.assertEqual(self.run_words('--help').returncode, Status.DONE)

    def test_not_written(self):
        self.ends(Status.OTHER, 'degrees', 'graph.mtx', '--output', 'none/x',
                  says='none: no such folder')
        self.ends(Status.OTHER, 'degrees', 'graph.mtx', '--output', '.',
                  says='.: not written: Is a directory')
        with open('/dev/full', 'w', encoding='utf-8') as full:
            done = subprocess.run([sys.executable, '-m', 'spmat', 'degrees', 'graph.mtx'],
                                  cwd=self.folder, stdout=full, stderr=subprocess.PIPE,
                                  env=dict(os.environ, PYTHONPATH=PACKAGE), check=False)
        self.assertEqual((done.returncode, done.stderr.splitlines()[0]),
                         (Status.OTHER,
                          b'spmat-graph: standard output: not written: No space left on device'))

    def test_a_package_that_is_missing(self):
        with mock.patch.dict(sys.modules, {'matplotlib': None}):
            self.ends(Status.OTHER, 'degrees', 'graph.mtx', '--plot', 'x.png', says='matplotlib')

    def test_words(self):
        self.write('list.csv', 'ann,bob,1\nbob,cid,1\n')
        for words in (['nothing'], [], ['degrees'], ['k-core', 'graph.mtx'],
                      ['degrees', 'graph.mtx', '--steps', '-1'],
                      ['degrees', 'graph.mtx', '--workers', '0'],
                      ['degrees', 'graph.mtx', '--workers', 'two'],
                      ['degrees', 'graph.mtx', '--connect', 'here'],
                      ['degrees', 'graph.mtx', '--connect', 'here:99999'],
                      ['degrees', 'graph.mtx', '--tls'],
                      ['degrees', 'graph.mtx', '--connect', '/tmp/s', '--cacert', 'x'],
                      ['degrees', 'graph.mtx', '--connect', 'h:1', '--key', 'x'],
                      ['pagerank', 'graph.mtx', '--damping', '1'],
                      ['pagerank', 'graph.mtx', '--tolerance', '0'],
                      ['k-hop', 'graph.mtx', '--k', '-1'],
                      ['degrees', 'graph.mtx', '--delimiter', ', '],
                      ['degrees', 'graph.mtx', '--undirected', '--both-ways'],
                      ['path-lengths', 'graph.mtx'], ['bfs-levels', 'list.csv', '--source', 'eve']):
            with self.subTest(words=words):
                self.assertEqual(self.run_words(*words).returncode, Status.WORDS)
        self.ends(Status.WORDS, 'serve', says='spmat serve')
        self.ends(Status.WORDS, 'run', says='spmat run')
        for word, meant in (('page-rank', 'pagerank'), ('pagerang', 'pagerank'),
                            ('betweenness_centrality', 'betweenness'), ('ego_graph', 'k-hop'),
                            ('dijkstra', 'sssp')):
            self.ends(Status.WORDS, word, says='did you mean %s?' % meant)

    def test_files(self):
        for name, (data, says) in ODD.items():
            self.write(name, data)
            with self.subTest(name=name):
                self.ends(Status.FILE, 'degrees', name, says=says)

    def test_what_is_no_file(self):
        os.mkdir(os.path.join(self.folder, 'folder'))
        self.ends(Status.FILE, 'degrees', 'folder', says='folder: ')
        self.ends(Status.FILE, 'degrees', 'nothere.csv',
                  says='nothere.csv: No such file or directory')
        self.ends(Status.FILE, 'degrees', '/dev/null', says='/dev/null: it is empty')
        with socket.socket(socket.AF_UNIX) as bound:
            bound.bind(os.path.join(self.folder, 'bound'))
            self.ends(Status.FILE, 'degrees', 'bound', says='bound: ')

    def test_a_pipe_by_name(self):
        """What a FIFO gives is read as a file's."""
        path = os.path.join(self.folder, 'pipe')
        os.mkfifo(path)
        for data, status in ((GRAPH.encode(), Status.DONE), (b'\0\1', Status.FILE)):
            def write(data=data):
                pathlib.Path(path).write_bytes(data)
            writer = threading.Thread(target=write)
            writer.start()
            self.assertEqual(self.run_words('degrees', 'pipe').returncode, status)
            writer.join()

    def test_a_size_above_the_limit(self):
        self.write('huge.mtx',
                   '%%MatrixMarket matrix coordinate integer general\n99999999999999999999 1 '
                   '1\n1 1 1\n')
        self.ends(Status.REFUSED, 'degrees', 'huge.mtx', says='M4')

    def test_graphs_of_another_kind(self):
        self.write('way.csv', 'a,b,1\nb,c,1\n')
        self.write('round.csv', 'a,b,1\nb,a,1\n')
        self.ends(Status.FILE, 'triangle-count', 'way.csv', says='--undirected')
        self.ends(Status.FILE, 'topological-levels', 'round.csv', says='cycle')

    def test_budget(self):
        self.ends(Status.BUDGET, 'triangle-count', 'graph.mtx', '--steps', '3',
                  says='are left: a greater --steps gives it more\n')
        done = self.run_words('pagerank', '-', '--steps', '200', text=GRAPH)
        self.assertEqual(done.returncode, Status.BUDGET)
        fault, = done.stderr.splitlines()
        self.assertRegex(fault, '^spmat-graph: S8: .* are left: a greater --steps gives it more$')

    def test_too_little(self):
        """No seat, no memory, no thread."""
        with support.Scripted(lambda words, body: support.Last(b'no busy\n')) as server:
            self.ends(Status.BUSY, 'degrees', 'graph.mtx', '--connect',
                      '127.0.0.1:%d' % server.port, says='busy')
        for reply, says in ((b'no memory\n', 'out of memory'),
                            (b'no memory 12\n', 'after 12 steps'),
                            (b'no thread 34\n', 'to 34 steps')):
            def answer(words, body, reply=reply):
                return reply if words[0] in ('matrix', 'run') else support.plausible(words, body)
            with support.Scripted(answer) as server:
                self.ends(Status.BUSY, 'degrees', 'graph.mtx', '--connect',
                          '127.0.0.1:%d' % server.port, says=says)

    def test_nobody_there(self):
        with socket.create_server(('127.0.0.1', 0)) as taken:
            port = taken.getsockname()[1]
        self.ends(Status.UNREACHED, 'degrees', 'graph.mtx', '--connect', '127.0.0.1:%d' % port,
                  says='no connection to 127.0.0.1')
        self.ends(Status.UNREACHED, 'degrees', 'graph.mtx', '--connect', self.folder + '/none',
                  says='no connection to')
        self.ends(Status.UNREACHED, 'degrees', 'graph.mtx', '--program', '/none/spmat',
                  says='/none/spmat')
        self.ends(Status.UNREACHED, 'degrees', 'graph.mtx', '--program', 'false', says='status 1')
        with support.Scripted(lambda words, body: support.plausible(words, body)
                              if words[0] == 'budget' else None) as server:
            self.ends(Status.UNREACHED, 'degrees', 'graph.mtx', '--connect',
                      '127.0.0.1:%d' % server.port, says='closed the connection')

    def test_a_fault_of_its_own(self):
        with mock.patch('spmat.cli.algorithm_commands.read_graph', side_effect=KeyError('x')):
            self.ends(Status.FAULT, 'degrees', 'graph.mtx',
                      says="a fault of spmat-graph itself: KeyError: 'x' (SPMAT_TRACE=1 shows "
                      "where)")
            with mock.patch.dict(os.environ, {output.TRACE: '1'}), self.assertRaises(KeyError):
                self.run_words('degrees', 'graph.mtx')

    def test_what_was_not_made(self):
        """A result that a refused run was to make has the refusal's status."""
        fault = errors.NotMade('this matrix was not made')
        fault.__cause__ = errors.refusal('memory', [7])
        self.assertEqual(output.status_of(fault), Status.BUSY)

    def signalled(self, number):
        """The status of a command that waits for standard input, and gets a signal."""
        with subprocess.Popen([sys.executable, '-m', 'spmat', 'degrees', '-'], cwd=self.folder,
                              stdin=subprocess.PIPE, stdout=subprocess.PIPE, stderr=subprocess.PIPE,
                              env=dict(os.environ, PYTHONPATH=PACKAGE)) as process:
            children = '/proc/%d/task/%d/children' % (process.pid, process.pid)
            end = time.monotonic() + 60
            while time.monotonic() < end:
                with open(children, encoding='ascii') as file:
                    if file.read().strip():
                        # the program has begun, so all of Python is there
                        break
                time.sleep(.02)
            time.sleep(.3)
            process.send_signal(number)
            said = process.communicate(timeout=60)[1]
        return process.returncode, said

    def test_signals(self):
        # what a shell began in the background ignores SIGINT, and so would its children
        self.addCleanup(signal.signal, signal.SIGINT,
                        signal.signal(signal.SIGINT, signal.default_int_handler))
        self.assertEqual(self.signalled(signal.SIGINT),
                         (Status.INTERRUPTED, b'spmat-graph: interrupted\n'))
        self.assertEqual(self.signalled(signal.SIGTERM), (Status.TERMINATED, b''))

    def test_a_reader_who_goes(self):
        self.write('many.txt', ''.join('%d %d\n' % (n, n + 1) for n in range(20000)))
        with subprocess.Popen([sys.executable, '-m', 'spmat', 'degrees', 'many.txt', '--quiet'],
                              cwd=self.folder, stdout=subprocess.PIPE, stderr=subprocess.PIPE,
                              env=dict(os.environ, PYTHONPATH=PACKAGE)) as process:
            process.stdout.readline()
            process.stdout.close()
            self.assertEqual((process.stderr.read(), process.wait(timeout=60)), (b'', Status.PIPE))

    def test_the_manual_has_each(self):
        with open(os.path.join(support.TOP, 'packaging', 'man', 'spmat-graph.1'),
                  encoding='utf-8') as file:
            section = file.read().split('.SH EXIT STATUS')[1].split('.SH')[0]
        told = dict(re.findall(r'^\.B (\d+)\n(.*)$', section.replace('\\-', '-'), re.M))
        self.assertEqual({int(number) for number in told}, {int(status) for status in Status})
        self.assertTrue(all(status.meaning for status in Status))
