#!/usr/bin/python3
"""What tests/packages runs in a root that was booted, as root: the gateway's unit and its engines',
after the commands of docs/service.md, whose text is beside this file.

A line for each thing that was tried, `ok` or `FAILED`.
"""
import contextlib
import json
import os
import re
import shutil
import socket
import subprocess
import sys
import time
import traceback

import spmat

HERE = os.path.dirname(os.path.abspath(__file__))
FILE = '/etc/spmat-gateway.toml'
AUTHORITY = '/etc/spmat-gateway/graphs.example.crt'
UNIT = 'spmat-gateway.service'
# What an engine that was taken over would look at; it tells what it could.
SPY = '''#!/usr/bin/python3
import ctypes, os, socket, sqlite3, sys
found = []
def tried(what, act):
    try:
        got = act()
    except Exception:
        return
    if got != []:
        found.append('%s: %s' % (what, got))
gateway = int(sys.argv[1])
tried('key of TLS', lambda: open('/etc/spmat-gateway/server.pem').read()[:20])
tried('file', lambda: open('/etc/spmat-gateway.toml').read()[:20])
tried('ledger', lambda: sqlite3.connect('file:/var/lib/spmat-gateway/ledger.db?mode=rw', uri=True).execute('SELECT count(*) FROM accounts').fetchall())
tried('processes', lambda: [name for name in os.listdir('/proc') if name.isdigit() and open('/proc/%s/status' % name).read() and os.stat('/proc/' + name).st_uid != os.getuid()])
tried('memory', lambda: open('/proc/%d/maps' % gateway).read()[:20])
tried('signal', lambda: os.kill(gateway, 0))
tried('network', lambda: socket.create_connection(('127.0.0.1', 7173), 2))
tried('socket of the gateway', lambda: socket.socket(socket.AF_UNIX).connect('/run/spmat-gateway/admin.sock'))
tried('socket of engines', lambda: socket.socket(socket.AF_UNIX).connect('/run/spmat-engine.sock'))
tried('a file', lambda: open('/var/tmp/../../etc/x', 'w'))
tried('a user', lambda: os.setuid(0))
sys.stderr.write('spmat: start untold=0\\n')
print('user %d, could %s' % (os.getuid(), found), flush=True)
'''


def tried(what, act):
    """Tries one thing."""
    try:
        told = act()
        print('ok: gateway: %s%s' % (what, ' (%s)' % told if told else ''), flush=True)
    except Exception:                              # pylint: disable=broad-except
        print('FAILED: gateway: %s\n%s' % (what, traceback.format_exc()), flush=True)
        print(run('journalctl', '-b', '-n', '12', '--no-pager', '-o', 'cat', status=None))


def run(*words, status=0, given=''):
    """What a command prints."""
    said = subprocess.run(words, input=given, stdout=subprocess.PIPE, stderr=subprocess.STDOUT,
                          text=True, check=False, timeout=150)
    if status is not None:
        assert said.returncode == status, (words, said.returncode, said.stdout)
    return said.stdout


def table(*words):
    return json.loads(run('spmat-gateway', '--json', *words))


def until(what, happens, seconds=30):
    """Waits for something; after how many seconds it came."""
    began = time.monotonic()
    while True:
        with contextlib.suppress(OSError, AssertionError):
            if happens():
                return '%.1f s' % (time.monotonic() - began)
        assert time.monotonic() - began < seconds, what
        time.sleep(0.1)


def show(unit, *names):
    """Properties of a unit."""
    lines = run('systemctl', 'show', unit, *('-p' + name for name in names)).splitlines()
    found = dict(line.split('=', 1) for line in lines)
    return [found[name] for name in names]


def write(path, text, mode=0o644):
    with open(path, 'w', encoding='utf-8') as file:
        file.write(text)
    os.chmod(path, mode)


@contextlib.contextmanager
def changed(old, new, reload=True):
    """The gateway's file with one word replaced, for a while."""
    with open(FILE, encoding='utf-8') as file:
        before = file.read()
    assert old in before, old
    try:
        put(before.replace(old, new, 1), reload)
        yield
    finally:
        put(before, reload)


def put(text, reload=True):
    """Writes the gateway's file, whose owner and mode stay."""
    with open(FILE, 'w', encoding='utf-8') as file:
        file.write(text)
    if reload:
        run('systemctl', 'reload', UNIT)
        time.sleep(0.5)                            # the signal is behind the command


class Trial:
    """Tokens by name, as the commands of the page print them."""

    def __init__(self):
        with open(os.path.join(HERE, 'service.md'), encoding='utf-8') as file:
            page = file.read()
        begin = page.index('## From nothing')
        blocks = re.findall(r'(?:^    .*\n)+', page[begin:], re.M)
        self.commands = [line[4:] for line in blocks[0].splitlines()
                         if not line.startswith('    apt install')]
        self.first = re.sub('^    ', '', blocks[1], flags=re.M)
        self.graph = blocks[2].strip()
        self.institutes = [re.sub('^    ', '', block, flags=re.M) for block in re.findall(
            r'(?:^    .*\n)+', page[page.index('## Accounts of your institute'):], re.M)[:4]]
        self.tokens = {}

    def session(self, name='anna'):
        """A session of a user."""
        return spmat.Session.connect('spmat://%s@graphs.example' % name, token=self.tokens[name],
                                     ca=AUTHORITY, timeout=30)

    def answers(self, name='anna'):
        """Whether a session answers 42."""
        with self.session(name) as s:
            return s.from_triples([(0, 0, 41)], 1, 1).apply('plus', right=1).to_list() == [42]

    def answers_soon(self, name='anna', seconds=30):
        def answers():
            with contextlib.suppress(spmat.SpmatError):
                return self.answers(name)
            return False
        return until('a session answers', answers, seconds)

    # -- the page

    def page(self):
        """Each command of the page, by one shell; nothing but the tokens is printed."""
        began = time.monotonic()
        script = ''.join('%s || exit 9\n' % line for line in self.commands[:-1])
        last = self.commands[-1]
        said = subprocess.run(['sh', '-c', script.replace('/certificate graphs.example',
                                                          '/certificate graphs.example '
                                                          '2> /dev/null') + last],
                              stdout=subprocess.PIPE, stderr=subprocess.PIPE, text=True,
                              check=False, timeout=120)
        assert said.returncode == 0, said
        self.tokens = dict(line.split() for line in said.stdout.splitlines())
        assert sorted(self.tokens) == ['anna', 'boris', 'carla'], said
        return '%d commands, %.1f s' % (len(self.commands), time.monotonic() - began)

    def first_session(self):
        text = self.first.replace('".."', repr(self.tokens['anna'])).replace(
            '"graphs.example.crt"', repr(AUTHORITY))
        said = run(sys.executable, '-c', text)
        assert said.startswith('Budget('), said
        assert self.answers()
        (row,) = [row for row in table('ledger', 'anna')['sessions'] if row['charged']]
        assert (row['basis'], row['charged']) == ('exact', 4), row
        assert row['processor'] > 0, row

    def graph_command(self):
        write('/root/graph.csv', 'source,target\n1,2\n2,3\n3,1\n')
        said = subprocess.run(self.graph.replace('graphs.example.crt', AUTHORITY), shell=True,
                              cwd='/root', env=dict(os.environ, SPMAT_TOKEN=self.tokens['anna']),
                              stdout=subprocess.PIPE, stderr=subprocess.STDOUT, text=True,
                              check=False)
        assert said.returncode == 0 and '0.333' in said.stdout, said

    @staticmethod
    def modes():
        for path in (FILE, '/etc/spmat-gateway/server.pem', '/var/lib/spmat-gateway/ledger.db'):
            assert os.stat(path).st_mode & 0o7 == 0, path

    @staticmethod
    def kind():
        kind, watchdog, limit = show(UNIT, 'Type', 'WatchdogUSec', 'StartLimitIntervalUSec')
        assert (kind, watchdog, limit) == ('notify', '1min', '0'), (kind, watchdog, limit)

    # -- engines

    def engine_unit(self):
        """An engine's process is in a unit of its own, with its limits."""
        with self.session() as s:
            s.budget()
            (row,) = table('sessions')
            process = row['process']
            unit = run('ps', '-o', 'unit=', '-p', str(process)).strip()
            assert unit.startswith('spmat-engine@'), unit
            (user, memory, tasks, family, longest) = show(
                unit, 'DynamicUser', 'MemoryMax', 'TasksMax', 'PrivateNetwork', 'RuntimeMaxUSec')
            assert (user, tasks, family, longest) == ('yes', '72', 'yes', '1d'), (user, memory)
            with open('/proc/%d/status' % process, encoding='ascii') as file:
                status = file.read()
            uid = int(re.findall(r'Uid:\s+(\d+)', status)[0])
            assert uid not in (0, int(run('id', '-u', 'spmat-gateway'))), uid
            assert re.search(r'Seccomp:\s+2', status) and re.search(r'NoNewPrivs:\s+1', status)
            with open('/proc/%d/limits' % process, encoding='ascii') as file:
                limits = file.read()
            assert re.search(r'Max address space\s+2000000000 ', limits), limits
            assert re.search(r'Max cpu time\s+1800 ', limits), limits
            assert re.search(r'Max open files\s+16 ', limits), limits
        until('the unit is gone', lambda: show(unit, 'ActiveState') == ['inactive'], 10)
        return unit

    def spy(self):
        """An engine that was taken over reaches nothing of the gateway."""
        write('/usr/local/bin/spy', SPY, 0o755)
        gateway, = show(UNIT, 'MainPID')
        with changed('[engine]', '[engine]\ncommand = ["/usr/local/bin/spy", "%s"]' % gateway):
            with self.plain() as connection:
                said = connection.makefile().readline().strip()
        assert said.endswith('could []'), said
        return said

    def plain(self, name='anna'):
        """A connection that sends and reads bytes."""
        import ssl
        context = ssl.create_default_context(cafile=AUTHORITY)
        connection = context.wrap_socket(socket.create_connection(('graphs.example', 7173), 30),
                                         server_hostname='graphs.example')
        connection.sendall(b'login %s %s\n' % (name.encode(), self.tokens[name].encode()))
        return connection

    def busy(self, name='anna'):
        """A connection whose engine is amid a batch of minutes, and the engine's process."""
        rows = ''.join('%d %d 1\n' % (i, j) for i in range(1, 251) for j in range(1, 251))
        text = '%%%%MatrixMarket matrix coordinate integer general\n250 250 62500\n' + rows
        operators = ('asm plus binary 32\nmov64 r0, r1\nadd64 r0, r2\nexit\n\n'
                     'asm times binary 32\nmov64 r0, r1\nmul64 r0, r2\nexit\n\n')
        jobs = ''.join('product B%d plus times A A\n' % number for number in range(60))
        connection = self.plain(name)
        connection.sendall(('matrix A %d\n' % len(text.replace('%%%%', '%%'))
                            + text.replace('%%%%', '%%') + operators + jobs + 'run\n').encode())
        until('it runs', lambda: any(row['user'] == name and row['queued']
                                     for row in table('sessions')), 60)
        (row,) = [row for row in table('sessions') if row['user'] == name]
        return connection, row['process'], row['id']

    def end_of_one(self):
        connection, process, session = self.busy()
        with connection:
            run('spmat-gateway', 'end', session)
            took = until('the engine is gone', lambda: not os.path.exists('/proc/%d' % process), 15)
            said = connection.makefile().read()
            assert 'no session ended price' in said, said[-200:]
        return took

    def kill(self):
        """The gateway is killed: the engine amid a batch ends, and the next start settles it and
        runs `stop`."""
        with changed('[engine]', '[engine]\nstop = ["touch", "/var/lib/spmat-gateway/{session}"]'):
            connection, process, session = self.busy()
            run('systemctl', 'kill', '-s', 'KILL', '--kill-who=main', UNIT)
            took = until('the engine is gone', lambda: not os.path.exists('/proc/%d' % process), 15)
            connection.close()
            self.answers_soon()
        assert os.path.exists('/var/lib/spmat-gateway/' + session)
        (row,) = [row for row in table('ledger', 'anna')['sessions'] if row['id'] == session]
        assert (row['state'], row['cause']) == ('settled', 'gateway-killed'), row
        assert 'all sums' in run('spmat-gateway', 'ledger', '--check')
        return took

    def together(self):
        """Six engines at once, and all are gone at the end."""
        held = [self.session(name) for name in ('anna', 'boris', 'carla') for _ in range(2)]
        assert [s.budget().spent for s in held] == [0] * 6
        units = run('systemctl', 'list-units', '--no-legend', 'spmat-engine@*').splitlines()
        assert len(units) == 6, units
        for s in held:
            s.close()
        until('no unit is left', lambda: not run('systemctl', 'list-units', '--all', '--no-legend',
                                                 'spmat-engine@*').strip())

    def many(self):
        """Twenty sessions, one after another."""
        began = time.monotonic()
        for _ in range(20):
            with self.session() as s:
                s.budget()
        return '%.0f ms each' % (1000 * (time.monotonic() - began) / 20)

    def alone(self):
        """Without `socket` a session is a process of the gateway's own unit."""
        with changed('socket = "/run/spmat-engine.sock"\n', ''):
            with self.session() as s:
                s.budget()
                (row,) = table('sessions')
                unit = run('ps', '-o', 'unit=', '-p', str(row['process'])).strip()
                assert unit == UNIT, unit
            assert self.answers()

    @staticmethod
    def exposure():
        """What systemd counts of each unit, of 10 at most."""
        found = []
        for unit, most in ((UNIT, 1.5), ('spmat-engine@a.service', 0.5), ('spmat.service', 1.2),
                           ('spmat@a.service', 0.5)):
            said = run('systemd-analyze', 'security', '--no-pager', unit)
            found.append('%s %s' % (unit, re.findall(r'Overall exposure level for \S+: ([\d.]+)',
                                                     said)[0]))
            assert float(found[-1].split()[1]) <= most, said[-500:]
        return ', '.join(found)

    # -- starts

    def restart(self):
        run('systemctl', 'restart', UNIT)
        assert self.answers()                      # without a pause

    def taken_port(self):
        run('systemctl', 'stop', UNIT)
        with socket.create_server(('0.0.0.0', 7173)):
            run('systemctl', 'start', UNIT, status=1)
            time.sleep(15)
            assert 'Address already in use' in run('journalctl', '-b', '-o', 'cat', '-u', UNIT)
            (state, restarts) = show(UNIT, 'ActiveState', 'NRestarts')
            assert state == 'activating' and int(restarts) > 1, (state, restarts)
        return self.answers_soon()

    def wrong_file(self):
        with changed('[gateway]', '[gateway]\nseets = 3', reload=False):
            run('systemctl', 'restart', UNIT, status=1)
            time.sleep(8)
            assert show(UNIT, 'ActiveState') == ['activating']
            assert 'has no key seets' in run('journalctl', '-b', '-o', 'cat', '-u', UNIT)
        return self.answers_soon()

    def hangs(self):
        """A gateway that stands still, and that no watchdog ends yet: the unit of an engine amid a
        batch ends within its lease."""
        with changed('[gateway]', '[gateway]\nlease-seconds = 8'):
            connection, process, _ = self.busy()
            unit = run('ps', '-o', 'unit=', '-p', str(process)).strip()
            gateway, = show(UNIT, 'MainPID')
            os.kill(int(gateway), 19)
            try:
                took = until('the engine is gone', lambda: not os.path.exists('/proc/%d' % process),
                             8)
                until('its unit is gone', lambda: show(unit, 'ActiveState') == ['inactive'], 4)
            finally:
                os.kill(int(gateway), 18)
            connection.close()
            assert show(UNIT, 'MainPID') == [gateway]
        self.answers_soon()
        assert 'all sums' in run('spmat-gateway', 'ledger', '--check')
        return took

    def stuck(self):
        """A gateway that stands still is ended by the watchdog, and started again."""
        os.makedirs('/run/systemd/system/%s.d' % UNIT, exist_ok=True)
        write('/run/systemd/system/%s.d/soon.conf' % UNIT, '[Service]\nWatchdogSec=4s\n')
        run('systemctl', 'daemon-reload')
        run('systemctl', 'restart', UNIT)
        before, = show(UNIT, 'MainPID')
        os.kill(int(before), 19)
        took = until('another runs', lambda: show(UNIT, 'MainPID', 'ActiveState')[0] not in
                     ('0', before) and show(UNIT, 'ActiveState') == ['active'], 40)
        shutil.rmtree('/run/systemd/system/%s.d' % UNIT)
        run('systemctl', 'daemon-reload')
        run('systemctl', 'restart', UNIT)
        assert self.answers()
        return took

    def token_that_ends(self):
        """The client reads why, and the log names whose it was."""
        assert '20' in run('spmat-gateway', 'users'), 'when tokens end'
        self.tokens['erik'] = run('spmat-gateway', 'users', 'add', 'erik', '--days', '1').strip()
        assert self.answers('erik')
        run('runuser', '-u', 'spmat-gateway', '--', sys.executable, '-c',
            'import sqlite3\nwith sqlite3.connect("/var/lib/spmat-gateway/ledger.db") as ledger: '
            'ledger.execute("UPDATE accounts SET token_ends = 1e9 WHERE name = \'erik\'")')
        with self.plain('erik') as connection:
            assert connection.makefile().readline() == 'no login expired\n'
        assert 'the token of erik ended at 2001' in run('journalctl', '-b', '-o', 'cat', '-u', UNIT)
        self.tokens['erik'] = run('spmat-gateway', 'users', 'renew', 'erik').strip()
        assert self.answers('erik')

    def institute(self):
        """The page's way for accounts of this machine: at the socket file, and by sshd with PAM."""
        with open(FILE, encoding='utf-8') as file:
            before = file.read()
        keys, unit, said, client = self.institutes
        put(before.replace('[gateway]\n', keys, 1), reload=False)
        run('sh', '-ec', unit)
        run('groupadd', 'graphs')
        run('useradd', '-m', '-s', '/bin/sh', '-G', 'graphs', 'fay')
        write('/etc/ssh/sshd_config.d/spmat.conf', said)
        os.makedirs('/root/.ssh', exist_ok=True)
        run('ssh-keygen', '-q', '-t', 'ed25519', '-N', '', '-f', '/root/.ssh/id_ed25519')
        run('sh', '-ec', 'install -d -m 700 -o fay -g fay ~fay/.ssh; install -m 600 -o fay -g fay '
            '/root/.ssh/id_ed25519.pub ~fay/.ssh/authorized_keys')
        run('systemctl', 'restart', 'ssh')
        write('/root/.ssh/config', 'Host *\nStrictHostKeyChecking no\nLogLevel ERROR\n')
        local = ('import spmat\nwith spmat.Session.connect("/run/spmat-gateway/local.sock") as s: '
                 'print(s.budget())')
        assert run('runuser', '-u', 'fay', '--', sys.executable, '-c', local).startswith('Budget(')
        assert run(sys.executable, '-c', client.replace('dora@', 'fay@')).startswith('Budget(')
        rows = table('ledger', 'fay')['sessions']
        assert [(row['parent'], row['address']) for row in rows] == [('@institute', 'local')] * 2
        assert run('ssh', '-T', 'fay@graphs.example', 'id', given='id\n') == 'no S1\n'  # no shell
        run('spmat-gateway', 'users', 'disable', 'fay')
        assert 'no login' in run('ssh', '-T', 'fay@graphs.example', status=None)
        shutil.rmtree('/etc/systemd/system/%s.d' % UNIT)
        run('systemctl', 'daemon-reload')
        put(before, reload=False)
        run('systemctl', 'restart', UNIT)

    # -- PostgreSQL

    def postgres(self):
        run('systemctl', 'start', 'postgresql')
        until('PostgreSQL answers', lambda: run('runuser', '-u', 'postgres', '--', 'psql', '-c',
                                                'SELECT 1'))
        run('runuser', '-u', 'postgres', '--', 'createuser', 'spmat-gateway')
        run('runuser', '-u', 'postgres', '--', 'createdb', '-O', 'spmat-gateway', 'gateway')
        with open(FILE, encoding='utf-8') as file:
            text = file.read()
        put(text.replace('seats = 10\n', 'seats = 10\nledger = "postgresql:///gateway?'
                         'host=/var/run/postgresql"\n'), reload=False)
        run('spmat-gateway', 'check')
        run('systemctl', 'restart', UNIT)
        self.tokens['dora'] = run('spmat-gateway', 'users', 'add', 'dora').strip()
        assert self.answers('dora')
        (row,) = table('ledger', 'dora')['sessions']
        assert (row['state'], row['basis'], row['charged']) == ('settled', 'exact', 4), row
        assert 'all sums' in run('spmat-gateway', 'ledger', '--check')

    def postgres_away(self):
        run('systemctl', 'stop', 'postgresql@*')
        with self.plain('dora') as connection:
            assert connection.makefile().readline() == 'no ledger\n'
        run('systemctl', 'restart', 'postgresql')
        return self.answers_soon('dora', 60)

    def postgres_missing(self):
        """Without psycopg the check says what to install; with it the unit goes on by itself."""
        import psycopg
        folder = os.path.dirname(psycopg.__file__)
        os.rename(folder, '/root/psycopg')
        try:
            assert 'python3-psycopg' in run('spmat-gateway', 'check', status=1)
            run('systemctl', 'restart', UNIT, status=1)
            time.sleep(8)
            assert show(UNIT, 'ActiveState') == ['activating']
        finally:
            shutil.move('/root/psycopg', folder)
        return self.answers_soon('dora')


def main():
    with open('/etc/hosts', 'a', encoding='ascii') as file:
        file.write('127.0.0.1 graphs.example\n')
    trial = Trial()
    began = time.monotonic()
    tried('the commands of the page', trial.page)
    tried('the first session of the page', trial.first_session)
    tried('the page\'s command line', trial.graph_command)
    print('ok: gateway: a newcomer\'s commands took %.0f s' % (time.monotonic() - began))
    tried('no file of it is for all', trial.modes)
    tried('the unit tells when it is up, and is watched', trial.kind)
    tried('a session is a unit of its own user', trial.engine_unit)
    tried('an engine reaches nothing of the gateway', trial.spy)
    tried('six sessions are six units', trial.together)
    tried('twenty sessions', trial.many)
    tried('an operator ends a batch', trial.end_of_one)
    tried('the gateway is killed amid a batch', trial.kill)
    tried('sessions of the gateway\'s own unit', trial.alone)
    tried('what each unit exposes', trial.exposure)
    tried('a restart serves at once', trial.restart)
    tried('a port that is taken for a while', trial.taken_port)
    tried('a file that is wrong for a while', trial.wrong_file)
    tried('a gateway that hangs holds no engine', trial.hangs)
    tried('a process that stands still', trial.stuck)
    tried('a token that ends', trial.token_that_ends)
    tried('accounts of the machine, by its socket file and by ssh', trial.institute)
    tried('PostgreSQL by its socket', trial.postgres)
    tried('PostgreSQL that is away for a while', trial.postgres_away)
    tried('psycopg that is missing for a while', trial.postgres_missing)


if __name__ == '__main__':
    main()
