"""What the gateway's tests share: a gateway, a database, certificates, and a client that sees
bytes."""
import contextlib
import io
import json
import os
import re
import select
import shutil
import signal
import socket
import sqlite3
import ssl
import subprocess
import sys
import tempfile
import time
import unittest

FOLDER = os.path.dirname(os.path.dirname(os.path.abspath(__file__)))
TOP = os.path.dirname(FOLDER)
PROGRAM = os.path.abspath(os.environ.get('SPMAT')
                          or os.path.join(TOP, 'crates', 'spmat', 'out', 'spmat'))
CERTIFICATE = os.path.join(TOP, 'packaging', 'stunnel', 'certificate')
PATIENCE = 60.0
WANTS = (ssl.SSLWantReadError, ssl.SSLWantWriteError, BlockingIOError)
sys.path.insert(0, FOLDER)

from spmat_gateway import cli, config              # pylint: disable=wrong-import-position
from spmat_gateway.database import Database        # pylint: disable=wrong-import-position
from spmat_gateway.journal import Journal          # pylint: disable=wrong-import-position
from spmat_gateway.ledger import Ledger            # pylint: disable=wrong-import-position
from spmat_gateway.metrics import Metrics          # pylint: disable=wrong-import-position
from spmat_gateway.sessions import Sessions        # pylint: disable=wrong-import-position

LINES = ('matrix A 62\n%%MatrixMarket matrix coordinate integer general\n1 1 1\n1 1 41\n'
         'asm inc unary 30\nmov64 r0, r1\nadd64 r0, 1\nexit\n').encode()
FIRST_SESSION = LINES + b'apply B inc A\nrun\nshow B\nquit\n'
OPERATORS = ('asm plus binary 32\nmov64 r0, r1\nadd64 r0, r2\nexit\n\n'
             'asm times binary 32\nmov64 r0, r1\nmul64 r0, r2\nexit\n\n').encode()


@contextlib.contextmanager
def folder():
    """A folder of a test's own."""
    made = tempfile.mkdtemp(prefix='spmat-gateway-')
    try:
        yield made
    finally:
        shutil.rmtree(made, ignore_errors=True)


def free_port():
    """A port that nobody listens on now."""
    with socket.socket() as asked:
        asked.bind(('127.0.0.1', 0))
        return asked.getsockname()[1]


def until(what, happens, seconds=PATIENCE):
    """Waits for something."""
    end = time.monotonic() + seconds
    while not happens():
        if time.monotonic() > end:
            raise AssertionError('not within %g seconds: %s' % (seconds, what))
        time.sleep(0.01)


def has_module(name):
    """Whether a module can be imported."""
    return subprocess.run([sys.executable, '-c', 'import ' + name], stderr=subprocess.DEVNULL,
                          check=False).returncode == 0


def postgres_programs():
    """The folder of PostgreSQL's programs, None where there is none."""
    base = '/usr/lib/postgresql'
    versions = sorted(os.listdir(base), key=int) if os.path.isdir(base) else []
    return os.path.join(base, versions[-1], 'bin') if versions else None


HAS_POSTGRES = postgres_programs() is not None and has_module('psycopg')
needs_postgres = unittest.skipUnless(HAS_POSTGRES, 'no PostgreSQL, or no psycopg')


def limits_memory():
    """Whether the program can be given a limit of address space: one with run-time checks can't."""
    words = ['prlimit', '--as=2147483648', PROGRAM, '--version']
    return subprocess.run(words, stdout=subprocess.DEVNULL, stderr=subprocess.DEVNULL,
                          check=False).returncode == 0


def engine_command(*before):
    """The default command of engines, with the program that is tested."""
    space = ['--as={memory}'] if limits_memory() else []
    return [*before, 'setpriv', '--pdeathsig', 'KILL', 'prlimit', *space, '--cpu={processor}:',
            '--core=0', '--', PROGRAM, 'run', '--steps', '{steps}', '--workers', '{workers}',
            '--idle', '{idle}', '--log', '--log-every', '1']


def dense(size, name='A'):
    """The command that uploads a matrix without a hole: its square takes 4 * size^3 steps or so."""
    rows = ['%d %d 1' % (i, j) for i in range(1, size + 1) for j in range(1, size + 1)]
    text = '%%%%MatrixMarket matrix coordinate integer general\n%d %d %d\n%s\n' % (
        size, size, size * size, '\n'.join(rows))
    return ('matrix %s %d\n%s' % (name, len(text), text)).encode()


def direct(commands, steps=10 ** 12):
    """The replies of the program itself, without a gateway."""
    return subprocess.run([PROGRAM, 'run', '--steps', str(steps), '--workers', '1'], input=commands,
                          stdout=subprocess.PIPE, check=False, timeout=600).stdout


def sessions_alone(where):
    """The sessions of a gateway in this process, on a new ledger that isn't up yet."""
    settings = config.Config(config.Gateway(state=where),
                             engine=config.Engine(command=tuple(engine_command())))
    ledger, journal = Ledger(Database(settings.ledger), 'a' * 32, ''), Journal(where, 'a' * 32)
    ledger.prepare()
    journal.begin()
    return Sessions(settings, ledger, journal, Metrics())


class Certificates:
    """Keys and certificates, made by the script that the documents name."""

    def __init__(self, where):
        self.where = where

    def make(self, name):
        """The certificate with its key, and the certificate alone."""
        subprocess.run(['sh', CERTIFICATE, name], cwd=self.where, stderr=subprocess.DEVNULL,
                       check=True)
        return tuple(os.path.join(self.where, name + end) for end in ('.pem', '.crt'))


class Client:
    """A connection that sends and reads bytes."""

    def __init__(self, port, login='', authority='', pem='', host='127.0.0.1', source=''):
        plain = socket.create_connection((host, port), timeout=PATIENCE,
                                         source_address=(source, 0) if source else None)
        self.socket = plain
        if authority:
            context = ssl.create_default_context(cafile=authority)
            if pem:
                context.load_cert_chain(pem)
            self.socket = context.wrap_socket(plain, server_hostname='localhost')
        self.buffer = b''
        if login:
            self.send(('login %s\n' % login).encode())

    def __enter__(self):
        return self

    def __exit__(self, *_):
        self.close()

    def send(self, data):
        self.socket.sendall(data)

    def line(self):
        """The next line, without its end; nothing at the end."""
        while b'\n' not in self.buffer:
            piece = self.socket.recv(1 << 16)
            if not piece:
                line, self.buffer = self.buffer, b''
                return line.decode()
            self.buffer += piece
        line, _, self.buffer = self.buffer.partition(b'\n')
        return line.decode()

    def rest(self):
        """All that comes until the end."""
        pieces = [self.buffer]
        while True:
            try:
                piece = self.socket.recv(1 << 18)
            except ConnectionResetError:
                piece = b''
            if not piece:
                self.buffer = b''
                return b''.join(pieces)
            pieces.append(piece)

    def exchange(self, data, seconds=PATIENCE):
        """Sends bytes and reads until the end, in one thread: two on one connection of TLS end in a
        crash."""
        self.socket.settimeout(0)
        rest, pieces, end = memoryview(data), [self.buffer], time.monotonic() + seconds
        while time.monotonic() < end:
            try:
                pieces.append(self.socket.recv(1 << 16))
                if not pieces[-1]:
                    break
                continue
            except WANTS:
                pass
            except OSError:
                break
            try:
                if rest:
                    rest = rest[self.socket.send(rest[:1 << 16]):]
                    continue
            except WANTS:
                pass
            except OSError:
                rest = rest[:0]
            select.select([self.socket], [self.socket] if rest else [], [], 0.5)
        self.buffer = b''
        return b''.join(pieces)

    def ask(self, command):
        """Sends one command without a body, and reads one line."""
        self.send(command.encode() + b'\n')
        return self.line()

    def close(self):
        self.socket.close()


class Postgres:
    """A PostgreSQL of its own, in a folder, as a user without rights."""

    def __init__(self, where, flags=''):
        self.data, self.port = os.path.join(where, 'postgres'), free_port()
        self._as = (['setpriv', '--reuid=postgres', '--regid=postgres', '--clear-groups']
                    if os.geteuid() == 0 else [])
        os.chmod(where, 0o755)
        os.makedirs(self.data)
        if self._as:
            shutil.chown(self.data, 'postgres', 'postgres')
        self._run('initdb', '-D', self.data, '-A', 'trust', '-U', 'gateway', '--no-sync',
                  '--locale=C.UTF-8', '-E', 'UTF8')
        self.flags = '-p %d -c listen_addresses=127.0.0.1 -c unix_socket_directories= %s' % (
            self.port, flags)
        self.start()
        self.url = 'postgresql://gateway@127.0.0.1:%d/postgres' % self.port

    def start(self):
        """Starts it, also after it was killed."""
        self._run('pg_ctl', '-D', self.data, '-w', '-l', os.path.join(self.data, 'log'), '-o',
                  self.flags, 'start')

    def start_if_down(self):
        """Waits until it answers, and starts it where it has ended, as it does on a full disk."""
        def answers():
            if self._run('pg_ctl', '-D', self.data, 'status', check=False).returncode:
                self.start()
            return self._run('pg_isready', '-h', '127.0.0.1', '-p', str(self.port),
                             check=False).returncode == 0
        until('PostgreSQL answers', answers)

    def kill(self):
        """Kills it at once, with all that it does."""
        processes = self.signal(signal.SIGKILL)
        until('PostgreSQL is dead', lambda: not os.path.exists('/proc/%d' % processes[0]))
        os.unlink(os.path.join(self.data, 'postmaster.pid'))

    def signal(self, number):
        """Sends a signal to all its processes, as SIGSTOP, by which it hangs; the processes."""
        with open(os.path.join(self.data, 'postmaster.pid'), encoding='ascii') as file:
            process = int(file.readline())
        children = subprocess.run(['ps', '-o', 'pid=', '--ppid', str(process)],
                                  stdout=subprocess.PIPE, text=True, check=False)
        processes = [process, *map(int, children.stdout.split())]
        for one in processes:
            with contextlib.suppress(ProcessLookupError):
                os.kill(one, number)
        return processes

    def stop(self):
        """Ends it."""
        self._run('pg_ctl', '-D', self.data, '-m', 'immediate', 'stop', check=False)

    def _run(self, name, *words, check=True):
        return subprocess.run([*self._as, os.path.join(postgres_programs(), name), *words],
                              stdout=subprocess.DEVNULL, stderr=subprocess.DEVNULL, check=check,
                              cwd='/', timeout=120)


def make_clock(path):
    """Makes the library by which a process has the clock that a file tells; whether there is a
    compiler."""
    with contextlib.suppress(FileNotFoundError):
        return subprocess.run(['cc', '-O1', '-shared', '-fPIC', '-o', path, os.path.join(
            FOLDER, 'tests', 'clock.c')], check=False).returncode == 0
    return False


def toml(value):
    """A value as TOML has it."""
    if isinstance(value, dict):
        return '{%s}' % ', '.join('%s = %s' % (key, toml(one)) for key, one in value.items())
    return json.dumps(value)


class Gateway:
    """A gateway's process, by default without TLS, on SQLite. Keys of its file are words, as
    `gateway_seats=3`."""

    def __init__(self, where, name='gate', command=None, **keys):
        self.where, self.name, self.port, self.page = where, name, free_port(), free_port()
        self.state = os.path.join(where, name)
        self.admin, self.file, self.log = (self.state + end for end in ('.sock', '.toml', '.log'))
        self.tables = {'gateway': {'name': name, 'state': self.state,
                                   'listen': '127.0.0.1:%d' % self.port, 'admin': self.admin,
                                   'page': '127.0.0.1:%d' % self.page},
                       'engine': {'command': command or engine_command()}, 'tls': {}, 'limits': {}}
        self.variables = {'PYTHONPATH': FOLDER}
        self.set(**keys)
        self.process = None

    def set(self, **keys):
        """Sets keys of the file, and writes it."""
        for key, value in keys.items():
            table, _, name = key.partition('_')
            self.tables[table][name.replace('_', '-')] = value
        with open(self.file, 'w', encoding='utf-8') as file:
            for table, values in self.tables.items():
                file.write('[%s]\n%s' % (table,
                                         ''.join('%s = %s\n' % (key, toml(value))
                                                 for key, value in values.items())))

    def set_clock_by(self, path, library):
        """Lets its clock go by a file from its next start on."""
        self.variables.update(LD_PRELOAD=library, CLOCK_BY=path)

    def __enter__(self):
        self.start()
        return self

    def __exit__(self, *_):
        self.stop()

    def start(self, ready=True):
        """Starts it, and waits until it serves."""
        with open(self.log, 'ab') as log:
            self.process = subprocess.Popen([sys.executable, '-m', 'spmat_gateway', 'serve',
                                             '--config', self.file], stdout=log, stderr=log,
                                            env={**os.environ, **self.variables})
        if ready:
            until('the gateway is ready: ' + self.said(), self.is_ready)

    def is_ready(self):
        """Whether it serves. A gateway that has ended fails the test with its log."""
        if self.process.poll() is not None:
            raise AssertionError('the gateway has ended:\n' + self.said()[-4000:])
        with contextlib.suppress(OSError):
            return self.get('/readyz')[0] == 200
        return False

    def kill(self):
        """Kills it at once."""
        self.process.kill()
        self.process.wait()

    def stop(self):
        """Ends it; its status."""
        if self.process is not None and self.process.poll() is None:
            self.process.send_signal(signal.SIGINT)
            try:
                self.process.wait(PATIENCE)
            except subprocess.TimeoutExpired:
                self.kill()
                raise
        return self.process.returncode if self.process else None

    def reload(self, says='reloaded'):
        """Lets it read its file again, and waits for what it says of that."""
        before = self.said().count(' %s' % says)
        self.process.send_signal(signal.SIGHUP)
        until(says, lambda: self.said().count(' %s' % says) > before)

    def measure(self, name):
        """A number of its metrics."""
        return float(re.search(r'^spmat_gateway_%s (\S+)$' % name, self.get('/metrics')[1],
                               re.M).group(1))

    def said(self):
        """Its log."""
        with open(self.log, encoding='utf-8', errors='replace') as file:
            return file.read()

    def command(self, *words, status=0):
        """What `spmat-gateway` prints."""
        out = io.StringIO()
        with contextlib.redirect_stdout(out), contextlib.redirect_stderr(out):
            ended = cli.main(['--admin', self.admin, *words])
        if ended != status:
            raise AssertionError('status %d of %s: %s' % (ended, words, out.getvalue()))
        return out.getvalue()

    def table(self, *words):
        """The same as data."""
        return json.loads(self.command('--json', *words))

    def add(self, name, *words):
        """Adds a user; what its login line says."""
        return '%s %s' % (name, self.command('users', 'add', name, *words).strip())

    def end_tokens(self):
        """Lets all tokens end, as time does."""
        with contextlib.closing(sqlite3.connect(self.state + '/ledger.db')) as database:
            database.execute('UPDATE accounts SET token_ends = 1000000000')
            database.commit()

    def sessions(self, account=''):
        """The sessions of the ledger, the last one first."""
        return self.table('ledger', *([account] if account else []), '--most', '100000')['sessions']

    def get(self, path, method='GET', headers=None):
        """Status and text of a page at its port."""
        import http.client
        connection = http.client.HTTPConnection('127.0.0.1', self.page, timeout=PATIENCE)
        try:
            connection.request(method, path, headers=headers or {})
            response = connection.getresponse()
            return response.status, response.read().decode()
        finally:
            connection.close()

    def client(self, login='', **words):
        """A connection to it."""
        return Client(self.port, login, **words)
