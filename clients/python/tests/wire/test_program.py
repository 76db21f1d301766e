"""Which program a session starts, and the command `spmat` of a wheel that carries one."""
import os
import pathlib
import re
import shutil
import subprocess
import sys
import tempfile
import unittest
from unittest import mock

import support
import spmat
from spmat.wire import transport

TELL = '#!/bin/sh\necho "$0 $*"\n'


class Order(unittest.TestCase):
    """`program=`, SPMAT, the package's own, the PATH."""

    def setUp(self):
        folder = tempfile.TemporaryDirectory(prefix='spmat-')
        self.addCleanup(folder.cleanup)
        self.folder = folder.name
        for name in ('own', 'spmat'):
            pathlib.Path(os.path.join(self.folder, name)).write_text(TELL, 'ascii')
            os.chmod(os.path.join(self.folder, name), 0o755)

    def words(self, given=None, own=None, **variables):
        environment = {'PATH': os.path.dirname(shutil.which('sh')), **variables}
        with mock.patch.dict(os.environ, environment, clear=True), \
                mock.patch.object(transport, 'carried', lambda: own):
            return transport.program_words(given)

    def test_each_comes_before_those_behind_it(self):
        own, found = os.path.join(self.folder, 'own'), os.path.join(self.folder, 'spmat')
        self.assertEqual(self.words('given', own, SPMAT='told', PATH=self.folder), ['given'])
        self.assertEqual(self.words(None, own, SPMAT='told', PATH=self.folder), ['told'])
        self.assertEqual(self.words(None, own, PATH=self.folder), [own])
        self.assertEqual(self.words(None, None, PATH=self.folder), [found])

    def test_a_folder(self):
        """A folder is no program, but one of the name of a program on the PATH stands in nobody's
        way."""
        os.mkdir(os.path.join(self.folder, 'here'))
        os.mkdir(os.path.join(self.folder, 'here', 'own'))
        self.addCleanup(os.chdir, os.getcwd())
        os.chdir(os.path.join(self.folder, 'here'))
        with self.assertRaisesRegex(FileNotFoundError, 'expected a program, got the folder own'):
            self.words('own')
        self.assertEqual(self.words('own', PATH=self.folder), ['own'])

    def test_none(self):
        self.assertIn('this package carries none', support.said(FileNotFoundError, self.words))

    def test_words_in_one_text(self):
        self.assertEqual(self.words('ssh -T "a b" spmat'), ['ssh', '-T', 'a b', 'spmat'])
        self.assertEqual(self.words(['ssh', 'x y']), ['ssh', 'x y'])

    def test_what_names_one_that_does_not_start(self):
        for given, named in ((None, 'the variable SPMAT'), ('/no/such', 'program=')):
            with mock.patch.dict(os.environ, SPMAT='/no/such'):
                said = support.said(FileNotFoundError, lambda: spmat.Session(program=given))
            self.assertIn('%s names the program /no/such, which can not be started: No such file'
                          % named, said)

    def test_a_checkout_carries_none(self):
        self.assertIsNone(transport.carried())


class Carried(unittest.TestCase):
    """A copy of the package with a program in it, as a wheel has it."""

    def setUp(self):
        folder = tempfile.TemporaryDirectory(prefix='spmat-')
        self.addCleanup(folder.cleanup)
        self.folder = folder.name
        shutil.copytree(os.path.dirname(spmat.__file__), os.path.join(self.folder, 'spmat'))
        os.mkdir(os.path.join(self.folder, 'spmat', 'carried'))
        self.own = os.path.join(self.folder, 'spmat', 'carried', 'spmat')
        pathlib.Path(self.own).write_text(TELL, 'ascii')

    def ran(self, text):
        environment = {'PYTHONPATH': self.folder, 'PATH': os.path.dirname(shutil.which('sh'))}
        return subprocess.run([sys.executable, '-c', text, 'run', '--steps', '5'], cwd=self.folder,
                              env=environment, stdout=subprocess.PIPE, stderr=subprocess.PIPE,
                              text=True, check=False, timeout=100)

    def test_it_is_found(self):
        os.chmod(self.own, 0o755)
        said = self.ran('from spmat.wire.transport import program_words as w; print(w())')
        self.assertEqual(said.stdout.strip(),
                         str([os.path.realpath(self.own)]).replace(os.path.realpath(self.folder),
                                                                   self.folder))

    def test_the_command_becomes_it(self):
        os.chmod(self.own, 0o755)
        said = self.ran('from spmat.wire.transport import main; main()')
        self.assertEqual(said.stdout, '%s run --steps 5\n' % self.own)

    def test_what_cannot_be_started_is_none(self):
        os.chmod(self.own, 0o644)
        said = self.ran('from spmat.wire.transport import main; main()')
        self.assertEqual((said.returncode, said.stderr),
                         (1, 'spmat: this package carries no program\n'))

    def test_none_at_all(self):
        """What to do is told; in a checkout also where the reference implementation is, and it
        starts."""
        os.chmod(self.own, 0o644)
        open_one = 'import spmat; spmat.Session()'
        said = self.ran(open_one).stderr
        self.assertIn('set the variable SPMAT, or put it on the PATH\n', said)
        environment = {'PYTHONPATH': os.path.join(support.TOP, 'clients', 'python'),
                       'PATH': os.path.dirname(shutil.which('sh'))}
        said = subprocess.run([sys.executable, '-c', open_one], env=environment,
                              stderr=subprocess.PIPE, text=True, timeout=100).stderr
        plain = re.search(r'reference implementation of this checkout does: SPMAT=(.*)',
                          said).group(1)
        with spmat.Session(program=[sys.executable, plain]) as s:
            self.assertEqual(s.full(2, 2).nvals, 4)
