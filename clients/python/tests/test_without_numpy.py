"""What a Python without numpy is told."""
import subprocess
import sys
import unittest

import support

HIDDEN = '''
import importlib.util
found = importlib.util.find_spec
importlib.util.find_spec = lambda name, *more: None if name == 'numpy' else found(name, *more)
import spmat
'''


class WithoutNumpy(unittest.TestCase):
    def test_the_error_says_what_to_type(self):
        done = subprocess.run([sys.executable, '-c', HIDDEN], env={'PYTHONPATH': support.CLIENT},
                              stderr=subprocess.PIPE, text=True, check=False, timeout=100)
        self.assertEqual(done.returncode, 1)
        self.assertRegex(done.stderr,
                         r'(?m)^ImportError: spmat needs numpy \(1\.22 or newer\), and \S+ has '
                         r'none\. To have it: pip install numpy; or on Debian apt install '
                         r'python3-numpy')
