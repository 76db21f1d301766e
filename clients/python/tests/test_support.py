"""What the tests share does what they think that it does."""
import os
import subprocess
import sys
import unittest

import support

HANGS = """
import threading, unittest
import support
support.LONGEST = 1

class Hangs(unittest.TestCase):
    def test_short(self):
        pass

    def test_that_waits_for_ever(self):
        threading.Event().wait()

unittest.main()
"""


class Watch(unittest.TestCase):
    def test_a_test_that_hangs_is_named(self):
        folder = os.path.dirname(os.path.abspath(__file__))
        path = os.pathsep.join([folder, os.path.join(support.TOP, 'clients', 'python')])
        done = subprocess.run([sys.executable, '-c', HANGS], env=dict(os.environ, PYTHONPATH=path),
                              stdout=subprocess.PIPE, stderr=subprocess.STDOUT, text=True,
                              timeout=100)
        self.assertEqual(done.returncode, 1)
        self.assertIn('in test_that_waits_for_ever', done.stdout)
        self.assertNotIn('in test_short', done.stdout)
