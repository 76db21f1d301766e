"""spmat-health: a server that answers, one whose seats are all taken, one that hangs, none."""
import os
import signal
import socket
import subprocess
import time
from typing import List, Tuple

from tests.lib.paths import TOP
from tests.lib.patience import FOR_A_REPLY
from tests.lib.ports import free_port
from tests.packaging.rooms import Room, found, needs, program
import spmat

HEALTH = os.path.join(TOP, 'packaging', 'spmat-health')
SEATS = 16


def health(*words: object) -> Tuple[int, str]:
    """The status of the check, and its line."""
    said = subprocess.run([HEALTH] + [str(word) for word in words], stdin=subprocess.DEVNULL,
                          stdout=subprocess.PIPE, stderr=subprocess.PIPE, text=True,
                          timeout=FOR_A_REPLY, check=False)
    assert said.stderr == '', said.stderr
    return said.returncode, said.stdout


@needs('bash', 'timeout')
class Health(Room):
    def tells(self, wanted: Tuple[int, str], *words: object) -> None:
        """The check tells this. On a machine with much else to do five seconds may be short, so it
        has three tries."""
        told = health(*words)
        for _ in range(2):
            if told != wanted:
                told = health(*words)
        self.assertEqual(told, wanted)

    def test_a_server_that_answers(self) -> None:
        port = self.serve()
        self.tells((0, '%d: 1000000 steps left\n' % port), port)

    def test_all_seats_taken(self) -> None:
        port = self.serve()
        seats: List[spmat.Session] = [spmat.Session.connect(port=port) for _ in range(SEATS)]
        for _ in range(20):
            for words in ((port,), (port, 1), (port, 2000000)):
                # steps that weren't looked at are no success
                self.tells(
                    (2, '%d: it takes no session: all seats are taken, or there is no memory or '
                     'thread\n' % port), *words)
        for session in seats:
            session.close()
        self.tells((0, '%d: 1000000 steps left\n' % port), port)

    def test_a_spent_budget(self) -> None:
        port = self.serve()
        self.tells((0, '%d: 1000000 steps left\n' % port), port, 1000000)
        with spmat.Session.connect(port=port) as s:
            s.full(1, 1).apply('ainv').to_list()
        self.tells((1, '%d: 999997 steps left\n' % port), port, 1000000)

    def test_a_server_that_hangs(self) -> None:
        port = free_port()
        child = self.start('serve', [program(), 'serve', '--port', str(port), '--steps', '5',
                                     '--workers', '1'], lambda: 'listening' in self.log('serve'))
        os.kill(child.pid, signal.SIGSTOP)
        began = time.monotonic()
        self.assertEqual(health(port), (1, '%d: no answer\n' % port))
        self.assertLess(time.monotonic() - began, 15)
        os.kill(child.pid, signal.SIGCONT)

    def test_no_server(self) -> None:
        port = free_port()
        self.assertEqual(health(port), (1, '%d: no answer\n' % port))

    def answered(self, replies: bytes, wanted: Tuple[int, str], *words: str) -> None:
        """A server that says this, whatever it is asked, is told so."""
        with socket.create_server(('127.0.0.1', 0)) as other:
            port = other.getsockname()[1]
            with subprocess.Popen([HEALTH, str(port), *words], stdout=subprocess.PIPE,
                                  text=True) as child:
                other.settimeout(FOR_A_REPLY)
                with other.accept()[0] as connection:
                    connection.sendall(replies)
                    connection.shutdown(socket.SHUT_WR)
                    connection.settimeout(FOR_A_REPLY)
                    while connection.recv(4096):
                        pass
                self.assertEqual(child.communicate(timeout=FOR_A_REPLY),
                                 ('%d: %s\n' % (port, wanted[1]), None))
                self.assertEqual(child.returncode, wanted[0])

    def test_something_else(self) -> None:
        self.answered(b'HTTP/1.1 400 Bad Request\r\n', (1, 'no answer'))
        self.answered(b'ok budget 5 0 0\nok budget 5 0 0\n', (1, 'no answer'))
        self.answered(b'ok budget 5 0 0\n', (1, 'no answer'))

    def test_a_session_without_memory(self) -> None:
        """Too few steps are told first: they don't come back, and memory may."""
        replies = b'ok budget 5 0 0\nno memory\nok quit\n'
        self.answered(replies, (2, 'no memory, 5 steps left'))
        self.answered(replies, (2, 'no memory, 5 steps left'), '5')
        self.answered(replies, (1, '5 steps left'), '6')

    @needs('socat', 'systemd-socket-activate')
    def test_a_socket_file(self) -> None:
        path = self.file('spmat.sock')
        self.assertEqual(health(path), (1, '%s: no answer\n' % path))
        self.start('socket', [str(found('systemd-socket-activate')), '--accept', '--inetd', '-l',
                              path, program(), 'run', '--steps', '7', '--workers', '1'],
                   lambda: 'Listening on' in self.log('socket'))
        self.tells((0, '%s: 7 steps left\n' % path), path)
