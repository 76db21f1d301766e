"""The end of a server: spmat-drain lets sessions end by themselves, and a server that ignores
SIGHUP goes on."""
import os
import re
import signal
import subprocess
import time
from typing import List

from tests.lib.paths import TOP
from tests.lib.patience import FOR_A_REPLY
from tests.lib.ports import free_port
from tests.packaging.pages import text_of
from tests.packaging.rooms import Room, needs, program, settings_of, until
import spmat

DRAIN = os.path.join(TOP, 'packaging', 'spmat-drain')


@needs('bash')
class Drain(Room):
    def server(self, before: List[str], *words: str) -> 'subprocess.Popen[bytes]':
        """A server on a port of its own, `self.port`."""
        self.port = free_port()
        return self.start('serve', before + [program(), 'serve', '--port', str(self.port),
                                             '--steps', '1000000', '--workers', '1'] + list(words),
                          lambda: 'listening %d\n' % self.port in self.log('serve'))

    def drain(self, child: 'subprocess.Popen[bytes]', seconds: int) -> 'subprocess.Popen[bytes]':
        drain = subprocess.Popen([DRAIN, str(child.pid), str(seconds)], stdin=subprocess.DEVNULL,
                                 stdout=subprocess.PIPE, stderr=subprocess.STDOUT)
        self.addCleanup(drain.stdout.close)
        self.addCleanup(drain.wait)
        self.addCleanup(drain.kill)
        return drain

    def expect_account(self, drain: 'subprocess.Popen[bytes]', cut_off: int, steps: int) -> None:
        """The line that it prints has the budget as it was at the end."""
        said = drain.stdout.read().decode()
        told = re.fullmatch(r'spmat: time=\d{4}-\d\d-\d\dT\d\d:\d\d:\d\d\.\d{3}Z server-end '
                            r'address=127\.0\.0\.1:%d end=drain cut_off=(\d+) steps=(\d+) '
                            r'reserved=0 '
                            r'left=(\d+)\n' % self.port, said)
        if told is None:
            self.fail('it says %r' % said)
        self.assertEqual(tuple(map(int, told.groups())), (cut_off, steps, 1000000 - steps))

    def is_busy(self) -> bool:
        """Whether a new client is told that there is no seat."""
        try:
            spmat.Session.connect(port=self.port, timeout=FOR_A_REPLY).close()
        except spmat.Refused as refused:
            return refused.rule == 'busy'
        return False

    def test_sessions_end_by_themselves(self) -> None:
        child = self.server([], '--idle', '2')
        with spmat.Session.connect(port=self.port, timeout=FOR_A_REPLY) as s:
            A = s.from_triples([(0, 0, 41)])
            drain = self.drain(child, 600)
            until('new clients are turned away', self.is_busy)
            for _ in range(6):                      # longer than a silent seat would be kept
                time.sleep(0.5)
                self.assertEqual(A.apply('plus', right=1).to_list(), [42])
            self.assertTrue(self.is_busy())
            self.assertIsNone(drain.poll())
            spent = s.budget().spent
            self.assertGreater(spent, 0)
        self.assertEqual((drain.wait(FOR_A_REPLY), child.wait(FOR_A_REPLY)), (0, -signal.SIGTERM))
        self.expect_account(drain, 0, spent)

    def test_the_time_is_over(self) -> None:
        child = self.server([])
        with spmat.Session.connect(port=self.port, timeout=FOR_A_REPLY) as s:
            drain = self.drain(child, 2)
            self.assertEqual(drain.wait(FOR_A_REPLY), 1)
            self.expect_account(drain, 1, 0)
            self.assertEqual(child.wait(FOR_A_REPLY), -signal.SIGTERM)
            with self.assertRaises(spmat.Closed):
                s.budget()

    def test_what_is_no_server(self) -> None:
        for words, said in ((['0'], 'no process 0'),
                            ([str(os.getpid())], "%d isn't spmat serve --port P" % os.getpid())):
            told = subprocess.run([DRAIN] + words, stdout=subprocess.PIPE, stderr=subprocess.STDOUT,
                                  text=True, timeout=FOR_A_REPLY, check=False)
            self.assertEqual((told.returncode, told.stdout), (2, 'spmat-drain: %s\n' % said))

    def test_the_unit_ignores_sighup_and_drains(self) -> None:
        """By the words of the unit: a SIGHUP changes nothing, and what ends the server is what the
        unit names."""
        settings = settings_of(text_of('packaging/systemd/spmat.service'))
        before = settings['ExecStart'][0].split('/usr/bin/spmat serve')[0].split()
        self.assertEqual(before, ['/usr/bin/env', '--ignore-signal=HUP'])
        child = self.server(before)
        child.send_signal(signal.SIGHUP)
        with spmat.Session.connect(port=self.port, timeout=FOR_A_REPLY) as s:
            self.assertEqual(s.budget().spent, 0)
        self.assertIsNone(child.poll())
        words = settings['ExecStop'][0].split()
        self.assertEqual(words[:2], ['-+/usr/bin/spmat-drain', '$MAINPID'])
        self.assertLess(int(words[2]), int(settings['TimeoutStopSec'][0].rstrip('s')))
        self.assertEqual(self.drain(child, int(words[2])).wait(FOR_A_REPLY), 0)
        self.assertEqual(child.wait(FOR_A_REPLY), -signal.SIGTERM)
