"""The client in JavaScript of docs/write_a_client.md: what it prints is what the page says."""
import os
import re
import subprocess

from tests.lib.paths import TOP
from tests.lib.patience import FOR_A_REPLY
from tests.lib.ports import free_port
from tests.packaging.pages import text_of
from tests.packaging.rooms import Room, listens, needs, program

CLIENT = os.path.join('packaging', 'clients', 'client.mjs')


@needs('node')
class JavaScript(Room):
    def said(self, port: int) -> 'subprocess.CompletedProcess[str]':
        return subprocess.run(['node', CLIENT, str(port)], cwd=TOP, stdout=subprocess.PIPE,
                              stderr=subprocess.PIPE, text=True, timeout=FOR_A_REPLY, check=False)

    def test_what_it_prints(self) -> None:
        blocks = re.findall(r'(?:^    .*\n)+', text_of('docs/write_a_client.md'), re.M)
        done = self.said(self.serve())
        self.assertEqual(done.stderr, '')
        self.assertEqual(done.stdout, re.sub('^    ', '', blocks[-1], flags=re.M))

    def test_a_refusal(self) -> None:
        port = free_port()
        self.start('server', [program(), 'serve', '--port', str(port), '--steps', '5',
                              '--workers', '1'], lambda: listens(port))
        done = self.said(port)
        self.assertEqual(done.returncode, 1)
        self.assertIn('apply B inc A: no S8', done.stderr)
