"""The lines for authorized_keys, by sshd: what a key can do, and that it can do nothing else."""
import os
import subprocess
from typing import List

from tests.lib.patience import FOR_A_REPLY
from tests.lib.ports import free_port
from tests.packaging.pages import snippet
from tests.packaging.rooms import Room, found, is_checked, listens, needs, program
import spmat

CONFIGURATION = """Port %d
ListenAddress 127.0.0.1
HostKey %s
AuthorizedKeysFile %s
PidFile none
UsePAM no
StrictModes no
PasswordAuthentication no
PermitRootLogin prohibit-password
Subsystem sftp internal-sftp
"""
PRIVATE = '/run/sshd'                              # sshd of root wants this folder


class Sshd(Room):
    """An sshd on a port of its own, for one key."""

    def start_sshd(self, line: str) -> None:
        for name in ('host', 'key', 'probe'):
            subprocess.run(['ssh-keygen', '-q', '-t', 'ed25519', '-N', '', '-f', self.file(name)],
                           stdin=subprocess.DEVNULL, check=True, timeout=FOR_A_REPLY)
        self.write('authorized_keys', line.replace('ssh-ed25519 AAAA...', self.public('key'))
                   + self.public('probe') + '\n')
        if os.getuid() == 0 and not os.path.isdir(PRIVATE):
            os.mkdir(PRIVATE, 0o755)
            self.stack.callback(os.rmdir, PRIVATE)
        self.port = free_port()
        self.write('sshd_config', CONFIGURATION % (self.port, self.file('host'),
                                                   self.file('authorized_keys')))
        self.start('sshd', [str(found('sshd')), '-D', '-e', '-f', self.file('sshd_config')],
                   lambda: listens(self.port))
        if subprocess.run(self.words('127.0.0.1', 'true', key='probe'), stdin=subprocess.DEVNULL,
                          stderr=subprocess.DEVNULL, timeout=FOR_A_REPLY, check=False).returncode:
            self.skipTest('no session by sshd here, whatever the key may do')

    def public(self, name: str) -> str:
        with open(self.file(name + '.pub'), encoding='ascii') as file:
            return ' '.join(file.read().split()[:2])

    def words(self, *words: str, key: str = 'key') -> List[str]:
        """The words of a client with a key."""
        settings = ('BatchMode=yes', 'IdentitiesOnly=yes', 'StrictHostKeyChecking=no',
                    'UserKnownHostsFile=/dev/null', 'LogLevel=ERROR', 'ExitOnForwardFailure=yes')
        return (['ssh', '-F', 'none', '-i', self.file(key), '-p', str(self.port)]
                + [word for setting in settings for word in ('-o', setting)] + list(words))

    def said(self, *words: str) -> 'subprocess.CompletedProcess[bytes]':
        return subprocess.run(self.words(*words), input=b'budget\nquit\n', stdout=subprocess.PIPE,
                              stderr=subprocess.PIPE, timeout=FOR_A_REPLY, check=False)

    def refuses_to_listen(self) -> None:
        """The key opens no port of the server's machine."""
        for port in (str(free_port()), '0'):
            said = self.said('-N', '-R', '%s:127.0.0.1:%d' % (port, self.port), '127.0.0.1')
            self.assertEqual(said.returncode, 255)
            self.assertIn(b'remote port forwarding failed', said.stderr)

    def refuses_ports(self, *ports: int) -> None:
        """The key leads to none of these ports."""
        for port in ports:
            said = self.said('-W', '127.0.0.1:%d' % port, '127.0.0.1')
            self.assertEqual((said.returncode, said.stdout), (255, b''))
            self.assertIn(b'forwarding failed', said.stderr)


@needs('sshd', 'ssh', 'ssh-keygen')
class OfSessions(Sshd):
    def start_sessions(self, path: str) -> None:
        changes = {'/usr/bin/spmat': path}
        if is_checked() and path == program():
            changes['ulimit -v 2000000; '] = ''
        self.start_sshd(snippet('ssh/session.authorized_keys', changes))

    def test_session(self) -> None:
        self.start_sessions(program())
        with spmat.Session(steps=5, workers=64,
                           program=self.words('-T', '127.0.0.1', 'spmat')) as s:
            self.assertEqual(s.budget(), (10 ** 12, 0, 0))
            self.assertEqual(s.from_triples([(0, 0, 41)]).apply('plus', right=1).to_list(), [42])

    def test_every_command_is_a_session(self) -> None:
        self.start_sessions(program())
        for words in (['127.0.0.1', 'id'], ['127.0.0.1'], ['127.0.0.1', 'sh', '-c', 'id'],
                      ['-s', '127.0.0.1', 'sftp']):
            self.assertEqual(self.said('-T', *words).stdout,
                             b'ok budget 1000000000000 0 0\nok quit\n')

    def test_limits(self) -> None:
        """Address space and the processor's time are bounded, and the words are the line's."""
        self.start_sessions(self.write('tell', '#!/bin/sh\nulimit -v\nulimit -t\necho "$@"\n',
                                       0o755))
        said = self.said('-T', '127.0.0.1', 'spmat', 'run', '--steps', '7', '--workers', '64')
        self.assertEqual(said.stdout,
                         b'2000000\n3600\nrun --steps 1000000000000 --workers 1 --idle 3600\n')

    def test_no_ports(self) -> None:
        self.start_sessions(program())
        self.refuses_to_listen()
        self.refuses_ports(self.port)


@needs('sshd', 'ssh', 'ssh-keygen')
class OfTunnels(Sshd):
    def setUp(self) -> None:
        super().setUp()
        self.served = self.serve()
        self.start_sshd(snippet('ssh/tunnel.authorized_keys',
                                {'127.0.0.1:7171': '127.0.0.1:%d' % self.served}))

    def test_session(self) -> None:
        here = free_port()
        self.start('tunnel', self.words('-N', '-L', '%d:127.0.0.1:%d' % (here, self.served),
                                        '127.0.0.1'), lambda: listens(here))
        with spmat.Session.connect(port=here, timeout=FOR_A_REPLY) as s:
            self.assertEqual(s.from_triples([(0, 0, 41)]).apply('plus', right=1).to_list(), [42])

    def test_no_commands(self) -> None:
        for words in (['127.0.0.1', 'id'], ['127.0.0.1']):
            said = self.said('-T', *words)
            self.assertEqual((said.returncode, said.stdout), (1, b''))

    def test_no_other_ports(self) -> None:
        self.refuses_to_listen()
        self.refuses_ports(self.port)
