"""Sessions on other machines, by engines that exist, ssh and Slurm, and gateways behind a balancer.
`tests/gateway --all` tries them.

Each test starts what it needs by itself, as root: hosts in network namespaces, munge and a
controller with two nodes, HAProxy.
"""
import contextlib
import json
import os
import re
import shutil
import signal
import socket
import subprocess
import threading
import time
import unittest

from .support import (FIRST_SESSION, LINES, PROGRAM, TOP, Certificates, Client, Gateway, Postgres,
                      direct, folder, free_port, limits_memory, until)

ASKED = bool(os.environ.get('SPMAT_GATEWAY_ALL'))
PATH = os.pathsep.join([os.environ.get('PATH', ''), '/usr/sbin', '/sbin'])
SESSION = ' '.join([PROGRAM,
                    'run --steps {steps} --workers {workers} --idle {idle} --log --log-every 1'])


def needs(*names):
    """Skips what wants root and programs."""
    missing = [name for name in names if shutil.which(name, path=PATH) is None]
    why = ('by hand: --all' if not ASKED else 'wants root' if os.geteuid()
           else 'no ' + ', no '.join(missing))
    return unittest.skipIf(not ASKED or bool(os.geteuid()) or bool(missing), why)


def run(*words, check=True):
    """Runs a command of this machine; what it prints."""
    return subprocess.run(words, env=dict(os.environ, PATH=PATH), stdout=subprocess.PIPE,
                          stderr=subprocess.STDOUT, text=True, check=check, timeout=120).stdout


class Started(unittest.TestCase):
    """Processes of a test, which end with it."""

    def start(self, *words, **settings):
        """Starts a program that stays."""
        process = subprocess.Popen(words, env=dict(os.environ, PATH=PATH, **settings),
                                   stdout=subprocess.DEVNULL, stderr=subprocess.DEVNULL,
                                   start_new_session=True)
        self.addCleanup(self.kill, process)
        return process

    @staticmethod
    def kill(process):
        """Kills a program with its children, as a machine that dies does."""
        with contextlib.suppress(ProcessLookupError):
            os.killpg(process.pid, signal.SIGKILL)
        process.wait()

    def spend(self, client):
        """A run of three steps, and its reply."""
        client.send(LINES + b'apply B inc A\nrun\n')
        lines = [client.line() for _ in range(5)]
        self.assertEqual(lines[-2:], ['ok run 1 3', 'B 1 1 1 3'])

    def check(self, gateway, charged):
        """The ledger, once all is settled: what each account is charged."""
        until('all is settled',
              lambda: all(row['state'] == 'settled' for row in gateway.sessions()))
        self.assertEqual({user['name']: user['spent'] for user in gateway.table('users')}, charged)
        self.assertIn('all sums', gateway.command('ledger', '--check'))


@needs('ip', 'sshd', 'ssh', 'ssh-keygen')
class Hosts(Started):
    """ssh to two hosts, each in a network of its own. A user's name is the host's."""

    def network(self, number):
        """A host's network; its address."""
        name, near, far = ('spmat%s%d' % (end, number) for end in ('h', 'n', 'f'))
        run('ip', 'netns', 'del', name, check=False)
        run('ip', 'netns', 'add', name)
        self.addCleanup(run, 'ip', 'netns', 'del', name, check=False)
        run('ip', 'link', 'add', near, 'type', 'veth', 'peer', 'name', far)
        self.addCleanup(run, 'ip', 'link', 'del', near, check=False)
        run('ip', 'link', 'set', far, 'netns', name)
        run('ip', 'addr', 'add', '10.77.%d.1/24' % number, 'dev', near)
        run('ip', 'link', 'set', near, 'up')
        for words in (('addr', 'add', '10.77.%d.2/24' % number, 'dev', far),
                      ('link', 'set', far, 'up'), ('link', 'set', 'lo', 'up')):
            run('ip', '-n', name, *words)
        return name, near, '10.77.%d.2' % number

    def hosts(self, where):
        """Two hosts with sshd; the file for ssh, and what ends each."""
        key, found, lines = os.path.join(where, 'key'), {}, []
        run('ssh-keygen', '-q', '-t', 'ed25519', '-N', '', '-f', key)
        run('ssh-keygen', '-q', '-t', 'ed25519', '-N', '', '-f', key + '.host')
        os.makedirs('/run/sshd', exist_ok=True)
        for number in (1, 2):
            name, near, address = self.network(number)
            settings = os.path.join(where, 'sshd%d' % number)
            with open(settings, 'w', encoding='ascii') as file:
                file.write('HostKey %s.host\nPidFile none\nUsePAM no\nPermitRootLogin '
                           'prohibit-password\nStrictModes no\n'
                           'AuthorizedKeysFile %s.pub\nListenAddress %s\n' % (key, key, address))
            process = self.start('ip', 'netns', 'exec', name, shutil.which('sshd', path=PATH), '-D',
                                 '-e', '-f', settings)
            lines.append(
                'Host host%d\nHostName %s\nUser root\nIdentityFile %s\nStrictHostKeyChecking '
                'no\nUserKnownHostsFile /dev/null\n'
                'LogLevel ERROR\nBatchMode yes\nServerAliveInterval 1\nServerAliveCountMax '
                '2\nConnectTimeout 5\n' % (number, address, key))
            found['host%d' % number] = (process, near, name)
        with open(key + '.config', 'w', encoding='ascii') as file:
            file.write('\n'.join(lines))
        for number in (1, 2):
            until('sshd answers',
                  lambda number=number: run('ssh', '-F', key + '.config', 'host%d' % number, 'echo',
                                            'yes', check=False).strip() == 'yes')
        return key + '.config', found

    def test_a_host_that_dies(self):
        with folder() as where:
            settings, hosts = self.hosts(where)
            command = ['ssh', '-F', settings, '{user}', 'exec ' + SESSION]
            with Gateway(where, command=command) as gateway:
                logins = [gateway.add(name) for name in hosts]
                with gateway.client(logins[0]) as client:
                    client.send(FIRST_SESSION)
                    self.assertEqual(client.rest(), direct(FIRST_SESSION))
                lost, staying = gateway.client(logins[0]), gateway.client(logins[1])
                for client in (lost, staying):
                    self.spend(client)
                _, near, name = hosts['host1']
                # nothing is told any more, as by a machine without power
                run('ip', 'link', 'set', near, 'down')
                began = time.monotonic()
                self.assertEqual(lost.rest(), b'no session engine known 3\n')
                self.assertLess(time.monotonic() - began, 15)
                self.assertEqual(staying.ask('budget').split()[-1], '3')
                with gateway.client(logins[0]) as client:
                    self.assertEqual(client.rest(), b'no session engine known 0\n')
                self.assertEqual(staying.ask('quit'), 'ok quit')
                self.check(gateway, {'host1': 6, 'host2': 3})
                for process in run('ip', 'netns', 'pids', name).split():
                    with contextlib.suppress(ProcessLookupError):
                        os.kill(int(process), signal.SIGKILL)


@needs('slurmctld', 'slurmd', 'munged', 'srun', 'scancel')
class Slurm(Started):
    """One controller and two nodes on this machine."""

    def cluster(self, where):
        """Starts it; its file, and the nodes' processes."""
        host, ports = socket.gethostname().partition('.')[0], [free_port() for _ in range(3)]
        path, secret = os.path.join(where, 'slurm.conf'), os.path.join(where, 'munge.key')
        os.chmod(where, 0o755)
        with open(secret, 'wb') as file:
            file.write(os.urandom(1024))
        os.chmod(secret, 0o400)
        munge = os.path.join(where, 'munge')
        os.makedirs(munge)
        for owned in (secret, munge):
            shutil.chown(owned, 'munge', 'munge')
        self.start('setpriv', '--reuid=munge', '--regid=munge', '--clear-groups', 'munged', '-F',
                   '--key-file=' + secret, '--socket=%s/s' % munge, '--pid-file=%s/pid' % munge,
                   '--log-file=%s/log' % munge, '--seed-file=%s/seed' % munge)
        nodes = ''.join(
            'NodeName=n%d NodeHostname=%s NodeAddr=127.0.0.1 Port=%d CPUs=4 RealMemory=2500\n'
            % (number, host, ports[number]) for number in (1, 2))
        with open(path, 'w', encoding='ascii') as file:
            file.write(
                'ClusterName=try\nSlurmctldHost=%s(127.0.0.1)\nSlurmctldPort=%d\nSlurmUser=root\n'
                'SlurmdUser=root\nAuthType=auth/munge\nAuthInfo=socket=%s/s\n'
                'StateSaveLocation=%s/state\nSlurmdSpoolDir=%s/%%n\nSlurmctldPidFile=%s/ctld.pid\n'
                'SlurmdPidFile=%s/%%n.pid\nProctrackType=proctrack/linuxproc\n'
                'TaskPlugin=task/none\nSelectType=select/cons_tres\nReturnToService=2\n'
                'SlurmdTimeout=10\nMpiDefault=none\nKillWait=2\n%sPartitionName=p Nodes=n1,n2 '
                'Default=YES\n' % (host, ports[0], munge, where, where, where, where, nodes))
        os.makedirs(os.path.join(where, 'state'))
        until('munge answers', lambda: os.path.exists(munge + '/s'))
        self.start('slurmctld', '-D', SLURM_CONF=path)
        found = {}
        for node in ('n1', 'n2'):
            os.makedirs(os.path.join(where, node))
            found[node] = self.start('slurmd', '-D', '-N', node, SLURM_CONF=path)
        os.environ['SLURM_CONF'] = path
        self.addCleanup(os.environ.pop, 'SLURM_CONF', None)
        until('both nodes are idle', lambda: run('sinfo', '-h', '-N', '-o', '%t',
                                                 check=False).split() == ['idle', 'idle'])
        return path, found

    def test_two_nodes_and_one_that_dies(self):
        with folder() as where:
            path, nodes = self.cluster(where)
            command, stop = self.lines_of_the_page()
            with Gateway(where, command=command, engine_stop=stop,
                         engine_environment={'SLURM_CONF': path}) as gateway:
                logins = [gateway.add(node) for node in nodes]
                for login in logins:
                    with gateway.client(login) as client:
                        client.send(FIRST_SESSION)
                        self.assertEqual(client.rest(), direct(FIRST_SESSION))
                lost, staying = (gateway.client(login) for login in logins)
                for client in (lost, staying):
                    self.spend(client)
                self.assertEqual(sorted(run('squeue', '-h', '-t', 'R', '-o', '%N').split()),
                                 ['n1', 'n2'])
                for process in self.of_node(where, 'n1', nodes['n1']):
                    with contextlib.suppress(ProcessLookupError):
                        os.kill(process, signal.SIGKILL)
                self.assertRegex(lost.rest(), rb'^(no session engine known 3\n)?$')
                self.assertEqual(staying.ask('budget').split()[-1], '3')
                gateway.command('end', gateway.table('sessions')[0]['id'])
                self.assertEqual(staying.rest(), b'no session ended known 3\n')
                until('no job is left', lambda: not run('squeue', '-h', '-o', '%N', '-w',
                                                        'n2').split())
                self.check(gateway, {'n1': 6, 'n2': 6})

    @staticmethod
    def lines_of_the_page():
        """The commands of docs/service.md for Slurm, with the program that is tested, on the node
        of the user's name."""
        with open(os.path.join(TOP, 'docs', 'service.md'), encoding='utf-8') as file:
            found = re.search(r'    command = (\["srun".*?\])\n    stop = (\[.*?\])\n', file.read(),
                              re.S)
        command, stop = (json.loads(text) for text in found.groups())
        command[command.index('spmat')] = PROGRAM
        command.insert(1, '--nodelist={user}')
        if not limits_memory():
            command.remove('--as={memory}')
        return command, stop

    @staticmethod
    def of_node(where, node, process):
        """The node's slurmd, what it has started for steps, and their children."""
        lines = [line.split(None, 2) for line in run('ps', '-eo', 'pid=,ppid=,args=').splitlines()]
        found = {process.pid} | {int(pid) for pid, _, words in lines if 'slurmstepd' in words
                                 and os.path.exists('/proc/%s/environ' % pid)
                                 and Slurm.belongs(where, node, pid)}
        while True:
            more = {int(pid) for pid, parent, _ in lines if int(parent) in found} - found
            if not more:
                return sorted(found)
            found |= more

    @staticmethod
    def belongs(where, node, pid):
        """Whether a step's process writes into a node's folder."""
        try:
            return any('%s/%s/' % (where, node) in os.readlink(entry.path)
                       for entry in os.scandir('/proc/%s/fd' % pid))
        except OSError:
            return False


@needs('haproxy')
class Balanced(Started):
    """Two gateways behind HAProxy share PostgreSQL; one of them is killed."""

    def test_a_gateway_that_dies(self):
        with folder() as where:
            pem, authority = Certificates(where).make('localhost')
            postgres = Postgres(where)
            self.addCleanup(postgres.stop)
            keys = {'gateway_ledger': postgres.url, 'gateway_lease_seconds': 3,
                    'tls_certificate': pem, 'limits_sessions': 100}
            with Gateway(where, 'one', **keys) as one, Gateway(where, 'two', **keys) as two:
                port = self.balance(where, one, two)
                anna = one.add('anna')
                clients = [Client(port, anna, authority=authority) for _ in range(6)]
                for client in clients:
                    self.spend(client)
                counts = [gateway.measure('sessions_running') for gateway in (one, two)]
                self.assertEqual(sum(counts), 6)
                self.assertTrue(all(counts), counts)
                one.kill()
                ended = [client.rest() == b'' for client in clients if not self.goes_on(client)]
                self.assertEqual(len(ended), counts[0])
                until('the balancer knows', lambda: self.serves(port, anna, authority))
                until('the other has settled them',
                      lambda: [row['state'] for row in two.sessions()].count('presumed')
                      == counts[0])
                self.assertIn('all sums', two.command('ledger', '--check'))
                # its journal is right to the step, and the other's presumption was, too
                one.start()
                for client in clients:
                    client.close()
                self.check(two, {'anna': 18})

    def test_a_restart_that_nobody_notices(self):
        """docs/service.md: the balancer is told first, then one gateway after the other drains."""
        with folder() as where:
            pem, authority = Certificates(where).make('localhost')
            postgres = Postgres(where)
            self.addCleanup(postgres.stop)
            keys = {'gateway_ledger': postgres.url, 'tls_certificate': pem, 'limits_sessions': 100}
            with Gateway(where, 'one', **keys) as one, Gateway(where, 'two', **keys) as two:
                port, anna = self.balance(where, one, two), one.add('anna')
                said, going = [], threading.Event()
                going.set()

                def come_and_go():
                    while going.is_set():
                        with Client(port, anna, authority=authority) as client:
                            said.append(client.exchange(FIRST_SESSION))
                threads = [threading.Thread(target=come_and_go) for _ in range(3)]
                for thread in threads:
                    thread.start()
                for gateway in (one, two):
                    self.ask(where, 'set server spmat/%s state drain' % gateway.name)
                    until('its clients have gone', lambda name=gateway.name: re.search(
                        '^spmat,%s,[^,]*,[^,]*,0,' % name, self.ask(where, 'show stat'), re.M))
                    gateway.process.send_signal(signal.SIGTERM)
                    self.assertEqual(gateway.process.wait(90), 0)
                    gateway.start()
                    self.ask(where, 'set server spmat/%s state ready' % gateway.name)
                    until('the balancer knows', lambda name=gateway.name: re.search(
                        '^spmat,%s,.*,UP,' % name, self.ask(where, 'show stat'), re.M))
                going.clear()
                for thread in threads:
                    thread.join()
                self.assertGreater(len(said), 20)
                self.assertEqual(set(said), {direct(FIRST_SESSION)})
                self.check(two, {'anna': 3 * len(said)})

    @staticmethod
    def ask(where, command):
        """What the balancer says to a command."""
        with socket.socket(socket.AF_UNIX) as connection:
            connection.connect(os.path.join(where, 'haproxy.sock'))
            connection.sendall(command.encode() + b'\n')
            return b''.join(iter(lambda: connection.recv(1 << 16), b'')).decode()

    @staticmethod
    def goes_on(client):
        """Whether a session still answers."""
        try:
            return client.ask('budget').startswith('ok budget')
        except OSError:
            return False

    @staticmethod
    def serves(port, login, authority):
        """Whether a new client is served."""
        try:
            with Client(port, login, authority=authority) as client:
                return client.ask('quit') == 'ok quit'
        except OSError:
            return False

    def balance(self, where, *gateways):
        """Starts HAProxy as docs/service.md has it; its port."""
        port, path = free_port(), os.path.join(where, 'haproxy.cfg')
        with open(path, 'w', encoding='ascii') as file:
            file.write('global\n  stats socket %s/haproxy.sock level admin\n'
                       'defaults\n  mode tcp\nlisten spmat\n  bind 127.0.0.1:%d\n  timeout connect '
                       '5s\n  timeout client 1d\n  timeout server 1d\n'
                       '  option httpchk GET /readyz\n  default-server check inter 1s fall 2\n'
                       % (where, port))
            for gateway in gateways:
                file.write('  server %s 127.0.0.1:%d port %d\n'
                           % (gateway.name, gateway.port, gateway.page))
        self.start('haproxy', '-db', '-f', path)
        until('it listens', lambda: self.listens(port))
        return port

    @staticmethod
    def listens(port):
        """Whether somebody does."""
        with contextlib.suppress(OSError), socket.create_connection(('127.0.0.1', port), timeout=1):
            return True
        return False


if __name__ == '__main__':
    unittest.main()
