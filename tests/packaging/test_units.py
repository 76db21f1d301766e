"""The units for systemd: what systemd says of them, their words, their list of calls, and a process
for each client."""
import os
import re
import shlex
import signal
import socket
import subprocess
import sys
import threading
from typing import Any, Dict, List, Sequence, Set, Tuple

from tests.lib.paths import TOP
from tests.lib.patience import FOR_A_REPLY
from tests.lib.ports import free_port
from tests.packaging.pages import snippet, text_of
from tests.packaging.rooms import (FIRST_SESSION, LAST_REPLIES, Room, converse, found, is_checked,
                                   lines_of, needs, program, settings_of, until)
import spmat

sys.path.insert(0, os.path.join(TOP, 'gateway'))
from spmat_gateway.config import ALONE, SESSION    # pylint: disable=wrong-import-position

SERVICES = ('spmat.service', 'spmat@.service')
GATEWAY, ENGINE = 'spmat-gateway.service', 'spmat-engine@.service'
UNITS = SERVICES + ('spmat.socket', GATEWAY, ENGINE, 'spmat-engine.socket', 'spmat-engines.slice')
# of 100, as systemd-analyze counts
MOST_EXPOSED = {'spmat.service': 12, 'spmat@.service': 5, GATEWAY: 15, ENGINE: 5}
STARTER = os.path.join(TOP, 'gateway', 'spmat_gateway', 'starter.py')
# Calls of Python, for which it has a way without them.
HARMLESS = {'epoll_create1', 'fadvise64', 'getcwd', 'set_mempolicy', 'sysinfo'}
# Calls of what starts the program, before systemd's filter stands.
BEFORE = {'execve'}


def words_of(service: str, name: str) -> List[str]:
    """The words behind the program that a unit gives by itself, in its variable of this name."""
    (words,) = (value.strip('"').partition('=')[2]
                for value in settings_of(text_of('packaging/systemd/' + service))['Environment']
                if value.startswith('"%s=' % name))
    return shlex.split(words)


def allocator_of(service: str) -> Dict[str, str]:
    """The variables by which a unit has the C library give memory back."""
    (line,) = (value
               for value in settings_of(text_of('packaging/systemd/' + service))['Environment']
               if value.startswith('MALLOC_'))
    return dict(pair.split('=') for pair in line.split())


class Units(Room):
    def setUp(self) -> None:
        super().setUp()
        for name in UNITS:
            changes = ({'/usr/bin/spmat': program()} if name in SERVICES
                       else {'/usr/bin/spmat-gateway': program()} if name == GATEWAY
                       else {'/usr/lib/python3/dist-packages/spmat_gateway/starter.py': STARTER}
                       if name == ENGINE else {})
            self.write(name, snippet('systemd/' + name, changes), 0o644)

    @needs('systemd-analyze')
    def test_systemd_takes_them(self) -> None:
        said = subprocess.run(['systemd-analyze', 'verify', '--man=no']
                              + [self.file(name) for name in UNITS], stdout=subprocess.PIPE,
                              stderr=subprocess.STDOUT, text=True, timeout=FOR_A_REPLY, check=False)
        self.assertEqual((said.returncode, said.stdout), (0, ''))

    @needs('systemd-analyze')
    def test_systemd_sees_that_the_program_is_missing(self) -> None:
        for name in SERVICES:
            path = self.write('missing-' + name,
                              snippet('systemd/' + name, {'/usr/bin/spmat': '/nowhere/spmat'}),
                              0o644)
            said = subprocess.run(['systemd-analyze', 'verify', '--man=no', path],
                                  stdout=subprocess.PIPE, stderr=subprocess.STDOUT, text=True,
                                  timeout=FOR_A_REPLY, check=False)
            self.assertNotEqual(said.returncode, 0)
            self.assertIn('/nowhere/spmat is not executable', said.stdout)

    @needs('systemd-analyze')
    def test_exposure(self) -> None:
        for name, most in MOST_EXPOSED.items():
            said = subprocess.run(['systemd-analyze', 'security', '--offline=yes', '--no-pager',
                                   '--threshold=%d' % most, self.file(name)],
                                  stdout=subprocess.PIPE, text=True, timeout=FOR_A_REPLY,
                                  check=False)
            self.assertEqual(said.returncode, 0, said.stdout[-300:])
            self.assertRegex(said.stdout, r'Overall exposure level for \S+: [01]\.\d')

    def test_words(self) -> None:
        """/etc/default/spmat has the words that the units have without it, and the program takes
        them."""
        default = dict(line.split('=', 1)
                       for line in lines_of(text_of('packaging/systemd/spmat.default')))
        self.assertEqual(shlex.split(default['SERVE'].strip('"')),
                         words_of('spmat.service', 'SERVE'))
        self.assertEqual(shlex.split(default['SESSION'].strip('"')),
                         words_of('spmat@.service', 'SESSION'))
        said = subprocess.run([program(), 'run'] + words_of('spmat@.service', 'SESSION'),
                              input=b'budget\n', stdout=subprocess.PIPE, timeout=FOR_A_REPLY,
                              check=False)
        self.assertEqual(said.stdout, b'ok budget 1000000000000 0 0\n')
        port, words = free_port(), words_of('spmat.service', 'SERVE')
        words[words.index('--port') + 1] = str(port)
        self.start('serve', [program(), 'serve'] + words,
                   lambda: 'listening %d\n' % port in self.log('serve'))

    def test_limits(self) -> None:
        """What is refused comes before what ends the process, and threads have room."""
        for name in SERVICES:
            settings = settings_of(text_of('packaging/systemd/' + name))
            space, resident = ({'G': 1024, 'M': 1}[value[-1]] * int(value[:-1])
                               for value in (settings['LimitAS'][0], settings['MemoryMax'][0]))
            self.assertLess(space, resident)
        words = words_of('spmat.service', 'SERVE')
        tasks = int(settings_of(text_of('packaging/systemd/spmat.service'))['TasksMax'][0])
        self.assertGreater(tasks, 16 * int(words[words.index('--workers') + 1]) + 2)


class Memory(Room):
    """What sessions that ended had allocated has gone back, under the units' variables: a mixed
    load leaves little, and what fits into a fresh server fits again."""

    LIMIT = 3_000_000                              # of address space, in KB
    EMPTY = b'%%MatrixMarket matrix coordinate integer general\n16777216 1 0\n'
    """A matrix of 134 MB that is quickly sent."""

    def setUp(self) -> None:
        super().setUp()
        if is_checked():
            self.skipTest('a program with run-time checks wants all addresses')
        self.port = free_port()
        for service in SERVICES:
            self.assertEqual(allocator_of(service), allocator_of(SERVICES[0]))
        words = ['env'] + ['%s=%s' % pair for pair in allocator_of(SERVICES[0]).items()]
        words += ['prlimit', '--as=%d' % (1024 * self.LIMIT), program(), 'serve', '--port',
                  str(self.port), '--steps', '1000000000000', '--workers', '1']
        self.server = self.start('memory', words, lambda: 'listening' in self.log('memory')).pid

    def resident(self) -> int:
        """The resident memory of the server in KB."""
        with open('/proc/%d/status' % self.server, encoding='ascii') as file:
            return int(re.findall(r'VmRSS:\s+(\d+)', file.read())[0])

    def fitting(self) -> int:
        """How many large matrices one session can hold."""
        commands = b''.join(b'matrix Z%d %d\n%s' % (number, len(self.EMPTY), self.EMPTY)
                            for number in range(40)) + b'quit\n'
        with socket.create_connection(('127.0.0.1', self.port)) as client:
            client.sendall(commands)
            with client.makefile('rb') as replies:
                return replies.read().count(b'ok matrix')

    def mixed(self, seed: int) -> None:
        """A session as users have them: texts, products, results, some of them large."""
        size = 20_000 + 5_000 * (seed % 5)
        rows = b''.join(b'%d %d %d\n' % (row + 1, row * 7 % size + 1, row) for row in range(size))
        text = b'%%%%MatrixMarket matrix coordinate integer general\n%d %d %d\n%s' % (
            size, size, size, rows)
        plus = b'asm plus binary 32\nmov64 r0, r1\nadd64 r0, r2\nexit\n\n'
        jobs = b''.join(b'union B%d plus A A\nproduct C%d plus plus A A\nrun\nshow B%d\n'
                        % (number, number, number) for number in range(4))
        with socket.create_connection(('127.0.0.1', self.port)) as client:
            sender = threading.Thread(target=client.sendall,
                                      args=(plus + b'matrix A %d\n%s' % (len(text), text) + jobs
                                            + b'quit\n',))
            sender.start()
            with client.makefile('rb') as replies:
                self.assertTrue(replies.read().endswith(b'ok quit\n'))
            sender.join()

    def test_memory_comes_back(self) -> None:
        fresh = self.fitting()
        self.assertGreater(fresh, 18)
        for _ in range(3):
            threads = [threading.Thread(target=self.mixed, args=(seed,)) for seed in range(12)]
            for thread in threads:
                thread.start()
            for thread in threads:
                thread.join()
        until('the memory is given back', lambda: self.resident() < 60_000)
        self.assertGreaterEqual(self.fitting(), fresh - 1)
        until('the memory is given back', lambda: self.resident() < 60_000)


@needs('strace')
class Calls(Room):
    """The calls of a program that serves and of one that runs a session are on the units' lists."""

    def setUp(self) -> None:
        super().setUp()
        if is_checked():
            self.skipTest('a program with run-time checks has calls of its own')
        if subprocess.run([str(found('strace')), '-qq', '-o', '/dev/null', 'true'],
                          stderr=subprocess.DEVNULL, check=False).returncode:
            self.skipTest('nothing can be traced here')

    def calls(self, service: str) -> Set[str]:
        """What a process calls until it ends, that isn't on the list."""
        with open(self.file('trace'), encoding='utf-8') as file:
            called = set(re.findall(r'^\d+ +(?:<\.\.\. )?([a-z]\w*)[( ]', file.read(), re.M))
        self.assertIn('write', called)
        listed = ' '.join(
            settings_of(text_of('packaging/systemd/' + service))['SystemCallFilter']).split()
        return called - set(listed) - BEFORE

    def traced(self, words: List[str]) -> List[str]:
        return [str(found('strace')), '-f', '-qq', '-o', self.file('trace'), program()] + words

    def test_session(self) -> None:
        words = ['run'] + words_of('spmat@.service', 'SESSION')
        said = subprocess.run(self.traced(words), input=FIRST_SESSION, stdout=subprocess.PIPE,
                              timeout=FOR_A_REPLY, check=False)
        self.assertTrue(said.stdout.endswith(LAST_REPLIES))
        self.assertEqual(self.calls('spmat@.service'), set())

    def test_server(self) -> None:
        port, words = free_port(), ['serve'] + words_of('spmat.service',
                                                        'SERVE') + ['--sessions', '4']
        for option, value in (('--port', str(port)), ('--idle', '5')):
            words[words.index(option) + 1] = value
        child = self.start('serve', self.traced(words), lambda: 'listening' in self.log('serve'))
        for _ in range(2):
            self.assertTrue(converse(socket.create_connection(('127.0.0.1', port), FOR_A_REPLY),
                                     FIRST_SESSION).endswith(LAST_REPLIES))
        with spmat.Session.connect(port=port, timeout=FOR_A_REPLY) as s:
            A = s.full(2000, 2)
            self.assertEqual(A.apply('ainv').reduce_scalar(), -4000)
            silent = socket.create_connection(('127.0.0.1', port), FOR_A_REPLY)
        with silent:
            self.assertEqual(child.wait(FOR_A_REPLY), 0)
        self.assertEqual(self.calls('spmat.service'), set())


def group_of_calls(name: str) -> Set[str]:
    """The calls of one of systemd's groups, as `@system-service`."""
    said = subprocess.run([str(found('systemd-analyze')), 'syscall-filter', name],
                          stdout=subprocess.PIPE, text=True, timeout=FOR_A_REPLY, check=True)
    calls: Set[str] = set()
    for word in re.findall(r'^    ([@\w-]+)$', said.stdout, re.M):
        calls |= group_of_calls(word) if word.startswith('@') else {word}
    return calls


def allowed_calls(service: str) -> Set[str]:
    """The calls that a unit's filter allows. Its lines apply in order."""
    calls: Set[str] = set()
    for line in settings_of(text_of('packaging/systemd/' + service))['SystemCallFilter']:
        for word in line.lstrip('~').split():
            named = group_of_calls(word) if word.startswith('@') else {word}
            calls = calls - named if line.startswith('~') else calls | named
    return calls


@needs('strace', 'setpriv', 'prlimit', 'systemd-analyze')
class Starts(Room):
    """What starts a session calls nothing that the unit in which it runs forbids."""

    def words(self, command: Sequence[str]) -> List[str]:
        values = {'memory': '2000000000', 'processor': '100', 'steps': '1000', 'workers': '1',
                  'idle': '100'}
        words = [word.format(**values) for word in command]
        place = words.index('spmat')
        # a program with run-time checks has calls of its own
        return words[:place] + (['true'] if is_checked() else [program()] + words[place + 1:])

    def calls(self, words: List[str], **settings: Any) -> Set[str]:
        """What commands call until they end."""
        said = subprocess.run([str(found('strace')), '-f', '-qq', '-o', self.file('trace'), *words],
                              stdout=subprocess.DEVNULL, timeout=FOR_A_REPLY, check=False,
                              **settings)
        self.assertEqual(said.returncode, 0)
        with open(self.file('trace'), encoding='utf-8') as file:
            called = set(re.findall(r'^\d+ +([a-z]\w*)\(', file.read(), re.M))
        self.assertLess({'execve', 'prlimit64'}, called)
        return called

    def test_beside_the_gateway(self) -> None:
        with open(self.write('first', FIRST_SESSION.decode()), encoding='utf-8') as first:
            called = self.calls(self.words(ALONE), stdin=first)
        self.assertEqual(called - allowed_calls(GATEWAY), set())

    def test_a_unit(self) -> None:
        ours, theirs = socket.socketpair(socket.AF_UNIX, socket.SOCK_SEQPACKET)
        pipes = [os.pipe() for _ in range(3)]
        os.write(pipes[0][1], FIRST_SESSION)
        os.close(pipes[0][1])
        streams = [pipes[0][0], pipes[1][1], pipes[2][1]]
        with ours, theirs:
            words = '\0'.join(['60.0', 'env', 'LANG=C.UTF-8', *self.words(SESSION)])
            socket.send_fds(ours, [words.encode()], streams)
            called = self.calls(['/usr/bin/python3', '-IS', STARTER], stdin=theirs)
            self.assertTrue(ours.recv(99).startswith(b'started '))
            self.assertTrue(ours.recv(99).startswith(b'ended 0 '))
        for descriptor in (*streams, pipes[1][0], pipes[2][0]):
            os.close(descriptor)
        self.assertEqual(called - allowed_calls(ENGINE) - HARMLESS, set())
        self.assertFalse({'socket', 'kill', 'ptrace', 'tkill', 'tgkill'} & allowed_calls(ENGINE))


@needs('systemd-socket-activate')
class Sockets(Room):
    """A process for each client of a socket file, as spmat.socket has it."""

    def setUp(self) -> None:
        super().setUp()
        self.path = self.file('spmat.sock')
        self.server = self.start('socket', [str(found('systemd-socket-activate')), '--accept',
                                            '--inetd', '-l', self.path, program(), 'run']
                                 + words_of('spmat@.service', 'SESSION'),
                                 lambda: 'Listening on' in self.log('socket'))

    def test_sessions_have_budgets_of_their_own(self) -> None:
        with spmat.Session.connect(self.path, timeout=FOR_A_REPLY) as s, \
                spmat.Session.connect(self.path, timeout=FOR_A_REPLY) as t:
            self.assertEqual(s.from_triples([(0, 0, 41)]).apply('plus', right=1).to_list(), [42])
            self.assertEqual((s.budget().spent, t.budget().spent), (4, 0))

    def test_a_client_that_sends_no_more_gets_all_replies(self) -> None:
        connection = socket.socket(socket.AF_UNIX)
        connection.connect(self.path)
        self.assertTrue(converse(connection, FIRST_SESSION).endswith(LAST_REPLIES))

    def test_a_session_that_is_killed_ends_no_other(self) -> None:
        with spmat.Session.connect(self.path, timeout=FOR_A_REPLY) as s:
            t = spmat.Session.connect(self.path, timeout=FOR_A_REPLY)
            os.kill(self.newest_session(), signal.SIGKILL)
            with self.assertRaises(spmat.Closed):
                t.budget()
            self.assertEqual(s.from_triples([(0, 0, 41)]).apply('plus', right=1).to_list(), [42])

    def newest_session(self) -> int:
        """The process that the last client has."""
        sessions = [(born, int(name)) for name in os.listdir('/proc') if name.isdigit()
                    for parent, born in [parent_and_birth(int(name))] if parent == self.server.pid]
        self.assertEqual(len(sessions), 2)
        return max(sessions)[1]


def parent_and_birth(process: int) -> Tuple[int, int]:
    """The parent of a process, and when it was started, in ticks; zeros where it has ended."""
    try:
        with open('/proc/%d/stat' % process, encoding='utf-8', errors='replace') as file:
            fields = file.read().rsplit(')', 1)[1].split()
        return int(fields[1]), int(fields[19])
    except OSError:
        return 0, 0


class Package(Room):
    def test_the_group_of_the_socket_is_made(self) -> None:
        group = settings_of(text_of('packaging/systemd/spmat.socket'))['SocketGroup'][0]
        self.assertIn('g %s -' % group, list(lines_of(text_of('packaging/systemd/spmat.sysusers'))))
        self.assertNotIn(group, [name.partition('.')[0].rstrip('@') for name in UNITS],
                         'DynamicUser= makes a group of the unit\'s name')
