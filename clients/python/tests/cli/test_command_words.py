"""What the command line offers: every algorithm, with names in its results; errors in its own
words; TLS; completion."""
import os
import re
import shutil
import socket
import ssl
import subprocess
import sys
import threading
import unittest

import support
from command_line import PACKAGE, CommandLine, flags_of
from spmat import algorithms, errors
from spmat.cli import COMPLETION, output
from spmat.cli.algorithm_commands import COMMANDS, PICTURES, describe
from spmat.cli.output import Status
from spmat.io.edges import Layout

# What of the module is no algorithm: types, and what the flag --undirected does.
NO_COMMAND = {'Bounds', 'Centrality', 'Communities', 'CycleError', 'modularity',
              'NoPath', 'Path', 'PathTree', 'Progress', 'undirected'}
ROADS = 'from,to,km\nann,bob,5\nbob,cid,7\ncid,ann,2\ncid,dee,4\n'


class Words(CommandLine):
    def setUp(self):
        super().setUp()
        self.write('roads.csv', ROADS)

    def test_every_algorithm(self):
        public = {name for name in algorithms.__all__ if name not in NO_COMMAND}
        self.assertEqual(public - {algorithm.function.__name__
                                   for algorithm in COMMANDS.values()}, set())
        for name, algorithm in COMMANDS.items():
            self.assertIn(algorithm.function.__name__.replace('_', '-'),
                          (name, name.replace('in-', '')))

    def test_results_have_names(self):
        for words, want in (
            (['in-degrees'], ['ann 1', 'bob 1', 'cid 1', 'dee 1']),
            (['in-degrees', '--top', '1'], ['ann 1']),
            (['betweenness'], ['ann 1.000000000', 'bob 2.000000000', 'cid 3.000000000',
                               'dee 0.000000000']),
            (['betweenness', '--source', 'ann'],
             ['ann 0.000000000', 'bob 2.000000000', 'cid 1.000000000', 'dee 0.000000000']),
            (['betweenness', '--both-ways'],
             ['ann 0.000000000', 'bob 0.000000000', 'cid 2.000000000', 'dee 0.000000000']),
            (['betweenness', '--both-ways', '--weighted'],
             ['ann 1.000000000', 'bob 0.000000000', 'cid 2.000000000', 'dee 0.000000000']),
            (['core-numbers', '--undirected'], ['ann 2', 'bob 2', 'cid 2', 'dee 1']),
            (['label-propagation', '--undirected'], ['ann ann', 'bob ann', 'cid ann', 'dee ann']),
            (['minimum-spanning-forest', '--both-ways'], ['ann bob 5', 'ann cid 2', 'cid dee 4']),
            (['k-hop', '--k', '1', '--source', 'cid'], ['cid ann 1', 'cid cid 0', 'cid dee 1']),
            (['k-hop', '--k', '1', '--source', 'dee', '--source', 'ann'],
             ['dee dee 0', 'ann ann 0', 'ann bob 1']),
            (['path-lengths', '--source', 'bob'],
             ['bob ann 9', 'bob bob 0', 'bob cid 7', 'bob dee 11']),
            (['shared-neighbours', '--undirected', '--pair', 'ann', 'bob', '--pair', 'dee', 'cid'],
             ['ann bob 1', 'dee cid 0']),
            (['distance-counts', '--undirected'], ['ann 1 2', 'ann 2 1', 'bob 1 2', 'bob 2 1',
                                                   'cid 1 3', 'dee 1 1', 'dee 2 2'])):
            with self.subTest(words=words):
                self.assertEqual(self.printed(words[0], 'roads.csv', *words[1:]).splitlines(), want)
        self.write('dag.csv', 'a,b,5\nb,c,7\na,c,2\n')
        self.assertEqual(self.printed('longest-paths', 'dag.csv').splitlines(),
                         ['a 0', 'b 5', 'c 12'])
        self.write('square.csv', 'a,b,1\nb,c,1\nc,d,1\nd,a,1\nd,e,1\n')
        self.assertEqual(self.printed('squares', 'square.csv', '--undirected').splitlines(),
                         ['a 1', 'b 1', 'c 1', 'd 1', 'e 0'])

    def test_help_speaks_no_python(self):
        for name, algorithm in COMMANDS.items():
            with self.subTest(name=name):
                told = describe(algorithm)
                self.assertGreater(len(told.split()), 5)
                self.assertNotRegex(told,
                                    r'progress|check=|ValueError|\bNone\b|`GT|G\.T|as a column| $')

    def test_flags_of_parameters(self):
        """Each parameter that an error is about is followed by its flag, once; no text is
        searched."""
        about = errors.about
        for fault, want in (
            (about(errors.ReadError('f', 1, 'what?'), 'columns', 'values', 'columns'),
             ' (flags: --columns, --pattern)'),
            (about(errors.ReadError('f', None, 'twice'), 'dup_op', 'header'),
             ' (flags: --dup-op, --header or --no-header)'),
            (about(ValueError('no'), 'tls'), ' (flags: --tls, --cacert, --cert or --key)'),
            (about(ValueError('no'), 'check'), ''), (ValueError('columns= of it'), ''),
            (errors.BudgetExceeded('S8', (5, 3)), ' (flags: --steps)')):
            with self.subTest(fault=fault):
                self.assertEqual(output.describe_flags(fault), want)

    def test_each_parameter_has_a_flag(self):
        known = flags_of(*COMMANDS)
        for name in ('steps', 'program', 'workers', 'tls', 'format', 'directed', 'dup_op',
                     *Layout._fields):
            flags = output.FLAGS.get(name, '--' + name.replace('_', '-'))
            with self.subTest(name=name):
                self.assertLessEqual(set(re.findall('--[a-z-]+', flags)), known)

    def test_faults_of_files_in_flags(self):
        self.write('four.csv', 'x,y,1,2\nu,v,3,4\n')
        self.write('frac.csv', 'a,b,0.5\n')
        self.write('twice.csv', 'a,b,1\na,b,2\n')
        self.write('complex.mtx',
                   '%%MatrixMarket matrix coordinate complex general\n1 1 1\n1 1 1 1\n')
        for name, flags in (('four.csv', ['--columns']), ('frac.csv', ['--scale', '--pattern']),
                            ('twice.csv', ['--dup-op']),
                            ('complex.mtx', ['--pattern'])):
            with self.subTest(name=name):
                said = self.refused('sssp', name)
                for flag in flags:
                    self.assertIn(flag, said)

    def program_on_path(self):
        """A folder with a command spmat-graph, as a package installs it, for PATH."""
        path = os.path.join(self.folder, 'spmat-graph')
        self.write('spmat-graph', '#!%s\nfrom spmat.cli import run\nrun()\n' % sys.executable)
        os.chmod(path, 0o755)
        return dict(os.environ, PATH=self.folder + os.pathsep + os.environ['PATH'],
                    PYTHONPATH=PACKAGE)

    def test_bash(self):
        """bash completes by what click prints for it."""
        environment = self.program_on_path()
        script = self.shell_script('bash', environment)
        for line, want in (('spmat-graph page', ['pagerank']),
                           ('spmat-graph k-', ['k-core', 'k-hop', 'k-shortest-paths', 'k-truss']),
                           ('spmat-graph degrees --conn', ['--connect']),
                           ('spmat-graph degrees g --format d', ['dimacs'])):
            with self.subTest(line=line):
                asked = ('source ./script; COMP_WORDS=($1); COMP_CWORD=$((${#COMP_WORDS[@]} - 1)); '
                         '_spmat_graph_completion spmat-graph; printf "%s\\n" "${COMPREPLY[@]}"; '
                         'complete -p spmat-graph')
                self.write('script', script)
                done = subprocess.run(['bash', '-c', asked, 'bash', line], cwd=self.folder,
                                      stdout=subprocess.PIPE, stderr=subprocess.PIPE, text=True,
                                      check=False, env=environment)
                *words, registered = done.stdout.splitlines()
                self.assertEqual((sorted(words), done.stderr), (want, ''))
                self.assertIn('_spmat_graph_completion spmat-graph', registered)

    def shell_script(self, shell, environment):
        """What a shell sources."""
        return subprocess.run(['spmat-graph'], cwd=self.folder, stdout=subprocess.PIPE, text=True,
                              check=True, env={**environment, COMPLETION: shell + '_source'}).stdout

    @unittest.skipIf(shutil.which('zsh') is None, 'no program zsh')
    def test_zsh(self):
        """zsh sources it and completes by it, in a terminal of its own (zpty)."""
        self.write('completion', self.shell_script('zsh', self.program_on_path()))
        script = r'''zmodload zsh/zpty; zpty z zsh -f
            zpty -w z 'PS1=; autoload -U compinit; compinit -u -d $PWD/dump; source ./completion; PS1="rea""dy>"'
            zpty -r z got '*ready>*'
            for line in "$@"; do zpty -w -n z "$line"$'\t'; sleep 4; zpty -w -n z $'\x15'; zpty -w z "echo do''ne"; zpty -r z got '*done*'
                print -r -- $got; done'''
        done = subprocess.run(['zsh', '-f', '-c', script, 'zsh', 'spmat-graph pager',
                               'spmat-graph degrees --both-w'], cwd=self.folder,
                              stdout=subprocess.PIPE, stderr=subprocess.PIPE, text=True,
                              errors='replace', timeout=90, check=False, env=self.program_on_path())
        self.assertEqual(done.stderr, '')
        self.assertIn('spmat-graph pagerank', done.stdout)
        self.assertIn('spmat-graph degrees --both-ways', done.stdout)

    def test_the_manual(self):
        """It names each command, and no option that isn't there."""
        with open(os.path.join(support.TOP, 'packaging', 'man', 'spmat-graph.1'),
                  encoding='utf-8') as file:
            page = file.read().replace('@COMMANDS@', subprocess.run(
                [sys.executable, os.path.join(support.TOP, 'tools', 'manual_commands')],
                stdout=subprocess.PIPE, text=True, check=True).stdout)
        page = page.replace('\\-', '-').replace('\\~', ' ')
        section = page.split('.SH COMMANDS')[1].split('.SH')[0]
        told = {word for line in re.findall(r'^\.B (.*)$', section, re.M)
                for word in line.split(', ')}
        self.assertEqual(told - {'spmat-graph', '--help'}, {*COMMANDS, *PICTURES})
        options = set(re.findall(r'--[a-z][a-z-]*', page))
        self.assertEqual(options - flags_of(*COMMANDS, *PICTURES) - {'--version'}, set())
        self.assertEqual(flags_of('degrees') - options - {'-h'}, set())


class SecretRelay(support.Relay):
    """A TLS connection is a session of `spmat run`."""

    def __init__(self, context):
        super().__init__(steps=10 ** 6)
        self._context = context

    def _handle(self, connection):
        try:
            secret = self._context.wrap_socket(connection, server_side=True)
        except OSError:
            return
        with secret, subprocess.Popen([os.environ['SPMAT']] + self._words, stdin=subprocess.PIPE,
                                      stdout=subprocess.PIPE) as child:
            threading.Thread(target=self._send, args=(secret, child), daemon=True).start()
            for piece in iter(lambda: child.stdout.read1(1 << 16), b''):
                secret.sendall(piece)
            secret.shutdown(socket.SHUT_RDWR)

    @staticmethod
    def _send(secret, child):
        try:
            for piece in iter(lambda: secret.recv(1 << 16), b''):
                child.stdin.write(piece)
                child.stdin.flush()
        except (OSError, ValueError):
            pass
        try:
            child.stdin.close()
        except OSError:
            pass


@unittest.skipIf(shutil.which('openssl') is None, 'no program openssl')
class Secret(CommandLine):
    """A server that knows anna alone."""

    def setUp(self):
        super().setUp()
        self.write('roads.csv', ROADS)
        script = os.path.join(support.TOP, 'packaging', 'stunnel', 'certificate')
        for name in ('localhost', 'anna', 'boris'):
            subprocess.run(['sh', script, name], cwd=self.folder, check=True,
                           stderr=subprocess.DEVNULL)
        self.context = ssl.SSLContext(ssl.PROTOCOL_TLS_SERVER)
        self.context.load_cert_chain(os.path.join(self.folder, 'localhost.pem'))
        self.context.load_verify_locations(os.path.join(self.folder, 'anna.crt'))
        self.context.verify_mode = ssl.CERT_REQUIRED

    def test_a_command_over_tls(self):
        with SecretRelay(self.context) as server:
            where = ['--connect', 'localhost:%d' % server.port]
            known = [*where, '--cacert', 'localhost.crt']
            self.assertEqual(self.printed('triangle-count', 'roads.csv', '--undirected', *known,
                                          '--tls', '--cert', 'anna.pem'), '1\n')
            for words, status, says in (
                (known, Status.UNREACHED, '--cert'),
                (known + ['--cert', 'boris.pem'], Status.UNREACHED, 'TLS was refused'),
                (where + ['--tls'], Status.UNREACHED, 'certificate verify failed'),
                (['--connect', '127.0.0.1:%d' % server.port, '--cacert', 'localhost.crt', '--cert',
                  'anna.pem'], Status.UNREACHED, '127.0.0.1'),
                (where, Status.UNREACHED, '--tls'), (where + ['--cacert', 'none.crt'], Status.FILE,
                                                     'none.crt: No such file'),
                (where + ['--cacert', 'roads.csv'], Status.FILE,
                 'roads.csv: no certificates in PEM format'),
                (known + ['--cert', 'localhost.crt'], Status.FILE,
                 'localhost.crt: no certificate with its key'),
                (known + ['--cert', 'anna.crt', '--key', 'none.pem'], Status.FILE,
                 'none.pem: No such file')):
                with self.subTest(words=words[2:]):
                    self.assertIn(says, self.refused('degrees', 'roads.csv', *words, status=status))
