"""TLS in front of `spmat serve`, by stunnel with the documents' files: who comes in, who doesn't,
and that no reply is lost."""
import os
import shutil
import signal
import socket
import ssl
import subprocess
import sys
import threading
from typing import Dict, Optional

from tests.lib.paths import TOP
from tests.lib.patience import FOR_A_REPLY
from tests.lib.ports import free_port
from tests.packaging.pages import snippet
from tests.packaging.rooms import (FIRST_SESSION, LAST_REPLIES, Room, converse, found, listens,
                                   needs, until)
import spmat

SERVER = 'localhost'
# What only a service of Debian has: an account, and a folder for the number of its process.
OF_SERVICE = {'setuid = stunnel4\nsetgid = stunnel4\n': 'foreground = yes\n',
              'pid = /run/stunnel4/spmat.pid\n': 'pid =\n'}


@needs('stunnel4', 'openssl')
class Stunnel(Room):
    """A server that knows anna; boris has a certificate, too."""

    def setUp(self) -> None:
        super().setUp()
        self.served = self.serve()
        for name in (SERVER, 'anna', 'boris'):
            subprocess.run([os.path.join(TOP, 'packaging', 'stunnel', 'certificate'), name],
                           cwd=self.folder, check=True, stdin=subprocess.DEVNULL,
                           stderr=subprocess.DEVNULL, timeout=FOR_A_REPLY)
        shutil.copy(self.file(SERVER + '.pem'), self.file('server.pem'))
        shutil.copy(self.file(SERVER + '.crt'), self.file('server.crt'))
        shutil.copy(self.file('anna.crt'), self.file('clients.crt'))
        self.port = free_port()
        self.server = self.stunnel('server', {'accept = 7172': 'accept = 127.0.0.1:%d' % self.port,
                                              'connect = 127.0.0.1:7171': 'connect = 127.0.0.1:%d'
                                              % self.served}, self.port)

    def stunnel(self, name: str, changes: Dict[str, str], port: int) -> 'subprocess.Popen[bytes]':
        text = snippet('stunnel/%s.conf' % name,
                       {**OF_SERVICE, **changes, '/etc/stunnel/': self.folder + '/'})
        return self.start(name, [str(found('stunnel4')), self.write(name + '.conf', text)],
                          lambda: listens(port))

    def session(self, name: Optional[str], known: str = SERVER) -> spmat.Session:
        """A session of the Python client over TLS, by the certificate of this name."""
        tls = ssl.create_default_context(cafile=self.file(known + '.crt'))
        if name is not None:
            tls.load_cert_chain(self.file(name + '.pem'))
        return spmat.Session.connect(SERVER, self.port, tls=tls, timeout=FOR_A_REPLY)

    def test_the_python_of_the_document(self) -> None:
        text = snippet('stunnel/session.py', {'"HOST", 7172': '"%s", %d' % (SERVER, self.port)})
        environment = {**os.environ, 'PYTHONPATH': os.path.join(TOP, 'clients', 'python')}
        said = subprocess.run([sys.executable, '-c', text], cwd=self.folder, env=environment,
                              stdout=subprocess.PIPE, timeout=FOR_A_REPLY, check=False)
        self.assertEqual(said.stdout, b'[42]\n')

    def test_who_is_not_known(self) -> None:
        for name in ('boris', None):
            with self.assertRaises(spmat.Closed) as said:
                self.session(name)
            self.assertIn('TLS was refused', str(said.exception))
        with self.assertRaises(ssl.SSLCertVerificationError):
            self.session('anna', known='boris')

    def test_without_tls(self) -> None:
        with self.assertRaises(spmat.Closed) as said:
            spmat.Session.connect(port=self.port, timeout=FOR_A_REPLY)
        self.assertIn('tls=', str(said.exception))

    def test_who_is_added(self) -> None:
        """SIGHUP, as `systemctl reload` sends, lets one more in; sessions go on."""
        with self.session('anna') as s:
            with open(self.file('clients.crt'), 'ab') as clients, \
                    open(self.file('boris.crt'), 'rb') as boris:
                clients.write(boris.read())
            self.server.send_signal(signal.SIGHUP)
            until('boris comes in', lambda: self.comes_in('boris'))
            self.assertEqual(s.from_triples([(0, 0, 41)]).apply('plus', right=1).to_list(), [42])

    def comes_in(self, name: str) -> bool:
        try:
            self.session(name).close()
        except (OSError, spmat.Closed):
            # stunnel reads its files at some moment after the signal
            return False
        return True

    def test_the_client_side(self) -> None:
        """Programs of the client's machine connect to its stunnel. Who has shut its side gets all
        replies."""
        here = free_port()
        self.stunnel('client', {'accept = 127.0.0.1:7171': 'accept = 127.0.0.1:%d' % here,
                                'connect = HOST:7172': 'connect = %s:%d' % (SERVER, self.port)},
                     here)
        with spmat.Session.connect(port=here, timeout=FOR_A_REPLY) as s:
            self.assertEqual(s.from_triples([(0, 0, 41)]).apply('plus', right=1).to_list(), [42])
        said = converse(socket.create_connection(('127.0.0.1', here), FOR_A_REPLY), FIRST_SESSION)
        self.assertTrue(said.endswith(LAST_REPLIES), said)

    def test_a_long_batch_is_no_silence(self) -> None:
        """Both files set the two times to more than a batch takes."""
        for name in ('server', 'client'):
            for setting in ('TIMEOUTidle', 'TIMEOUTclose'):
                self.assertIn('\n%s = 86400\n' % setting, snippet('stunnel/%s.conf' % name, {}))


@needs('openssl')
class Certificates(Room):
    """packaging/stunnel/certificate names a host or a person as such, and an address as an address,
    which clients compare with it."""

    def test_names_and_addresses(self) -> None:
        for name, told in (('localhost', 'DNS:localhost'), ('anna', 'DNS:anna'),
                           ('10.example.org', 'DNS:10.example.org'),
                           ('127.0.0.1', 'IP Address:127.0.0.1'),
                           ('2001:db8::7', 'IP Address:2001:DB8:0:0:0:0:0:7')):
            subprocess.run([os.path.join(TOP, 'packaging', 'stunnel', 'certificate'), name],
                           cwd=self.folder, check=True, stdin=subprocess.DEVNULL,
                           stderr=subprocess.DEVNULL, timeout=FOR_A_REPLY)
            said = subprocess.run(['openssl', 'x509', '-in', self.file(name + '.crt'), '-noout',
                                   '-ext', 'subjectAltName'], stdout=subprocess.PIPE, text=True,
                                  check=True, timeout=FOR_A_REPLY)
            self.assertEqual(said.stdout.splitlines()[-1].strip(), told)

    def test_a_client_compares_the_address(self) -> None:
        """A server with the certificate of 127.0.0.1 is known at this address, and one with that of
        another address isn't."""
        for name, known in (('127.0.0.1', True), ('127.0.0.2', False)):
            subprocess.run([os.path.join(TOP, 'packaging', 'stunnel', 'certificate'), name],
                           cwd=self.folder, check=True, stdin=subprocess.DEVNULL,
                           stderr=subprocess.DEVNULL, timeout=FOR_A_REPLY)
            context = ssl.SSLContext(ssl.PROTOCOL_TLS_SERVER)
            context.load_cert_chain(self.file(name + '.pem'))
            with socket.create_server(('127.0.0.1', 0)) as server:
                thread = threading.Thread(target=shake_hands, args=(server, context))
                thread.start()
                tls = ssl.create_default_context(cafile=self.file(name + '.crt'))
                with socket.create_connection(server.getsockname(), FOR_A_REPLY) as client:
                    try:
                        tls.wrap_socket(client, server_hostname='127.0.0.1').close()
                        self.assertTrue(known)
                    except ssl.SSLCertVerificationError as error:
                        self.assertFalse(known)
                        self.assertIn('IP address mismatch', str(error))
                thread.join()


def shake_hands(server: socket.socket, context: ssl.SSLContext) -> None:
    """Accepts one client and shakes hands with it, as far as it does."""
    with server.accept()[0] as connection:
        try:
            context.wrap_socket(connection, server_side=True).close()
        except OSError:
            pass
