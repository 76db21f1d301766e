"""What the tests of the command line share: commands in a folder, in this process, or in one of
their own where text is handed in."""
import contextlib
import io
import os
import subprocess
import sys
import tempfile
import unittest

import support
from spmat.cli import main
from spmat.cli.algorithm_commands import make_command
from spmat.cli.output import Status

PACKAGE = os.path.join(support.TOP, 'clients', 'python')


def flags_of(*names):
    """The words of all options of some commands."""
    return {word for name in names for one in make_command(name).params
            for word in (*one.opts, *one.secondary_opts) if word.startswith('-')} | {'--help', '-h'}


class CommandLine(unittest.TestCase):
    """Tests that run commands in a folder of their own."""

    def setUp(self):
        self.folder = support.enter(self, tempfile.TemporaryDirectory())

    def write(self, name, text):
        with open(os.path.join(self.folder, name), 'wb' if isinstance(text, bytes)
                  else 'w') as file:
            file.write(text)

    def read(self, name):
        with open(os.path.join(self.folder, name)) as file:
            return file.read()

    def run_words(self, *words, text=None):
        if text is not None:
            return subprocess.run([sys.executable, '-m', 'spmat', *words], cwd=self.folder,
                                  input=text, stdout=subprocess.PIPE, stderr=subprocess.PIPE,
                                  text=True, timeout=300, env=dict(os.environ, PYTHONPATH=PACKAGE),
                                  check=False)
        here = os.getcwd()
        os.chdir(self.folder)
        try:
            with contextlib.redirect_stdout(io.StringIO()) as stdout, \
                    contextlib.redirect_stderr(io.StringIO()) as stderr:
                try:
                    status = main(list(words))
                except SystemExit as ended:
                    status = ended.code or 0
        finally:
            os.chdir(here)
        return subprocess.CompletedProcess(words, status, stdout.getvalue(), stderr.getvalue())

    def printed(self, *words, text=None):
        done = self.run_words(*words, text=text)
        self.assertEqual((done.returncode, self.faults(done)), (0, ''))
        return done.stdout

    def faults(self, done):
        """Standard error, less the words on which columns of a list were read and on rounding."""
        return ''.join(line for line in done.stderr.splitlines(True)
                       if ': header: ' not in line and not line.startswith('values times '))

    def refused(self, *words, text=None, status=Status.FILE):
        done = self.run_words(*words, text=text)
        self.assertEqual(done.returncode, status, done.stderr)
        self.assertEqual(self.faults(done).count('\n'), 1, done.stderr)
        return self.faults(done)
