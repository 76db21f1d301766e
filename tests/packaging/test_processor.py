"""What the program says on a processor that is too old for it, by QEMU (Debian's qemu-user, if it
is there)."""
import subprocess
import unittest

from tests.lib.patience import FOR_A_REPLY
from tests.packaging.rooms import needs, program

# without SSE4.2 and POPCNT, and the first of Intel's that has both
TOO_OLD, OLD_ENOUGH = ('core2duo', 'kvm64'), 'Nehalem'


@needs('qemu-x86_64')
class Processor(unittest.TestCase):
    def on(self, processor: str) -> 'subprocess.CompletedProcess[str]':
        return subprocess.run(['qemu-x86_64', '-cpu', processor, program(), '--version'],
                              stdout=subprocess.PIPE, stderr=subprocess.PIPE, text=True,
                              timeout=FOR_A_REPLY, check=False)

    def test_too_old(self) -> None:
        for processor in TOO_OLD:
            with self.subTest(processor=processor):
                done = self.on(processor)
                self.assertEqual((done.returncode, done.stdout), (127, ''))
                self.assertIn('x86-64-v2', done.stderr)

    def test_old_enough(self) -> None:
        self.assertEqual(self.on(OLD_ENOUGH).returncode, 0)


if __name__ == '__main__':
    unittest.main()
