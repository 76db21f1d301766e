"""Progress bars: what is done, and that a bar goes when something else begins."""
import io
import sys
import unittest
from unittest import mock

import support
import spmat
from spmat.progress import Bar


@support.needs('tqdm')
class Bars(unittest.TestCase):
    def setUp(self):
        self.stream = io.StringIO()
        self.bar = Bar(file=self.stream, mininterval=0, ascii=True)
        self.addCleanup(self.bar.clear)

    def test_what_is_done(self):
        self.bar('jobs', 1, 4)
        self.bar('jobs', 3, 4)
        shown = self.stream.getvalue().split('\r')
        self.assertIn('jobs:  75%', shown[-1])
        self.assertIn('3/4', shown[-1])
        self.assertIn('jobs:   0%', shown[1])

    def test_something_else(self):
        """Another bar begins in the same line, which is clear before."""
        self.bar('sent', 5, 5)
        self.bar('jobs', 1, 2)
        shown = [part.strip() for part in self.stream.getvalue().split('\r')]
        first = next(at for at, part in enumerate(shown) if part.startswith('jobs:   0%'))
        self.assertEqual(shown[first - 2:first], ['', ''])
        self.assertTrue(shown[-1].startswith('jobs:  50%'), shown)
        self.bar.clear()
        self.assertEqual(self.stream.getvalue().split('\r')[-2].strip(), '')

    def test_an_unknown_end(self):
        self.bar('again', 7, 0)
        self.assertIn('again: 7it', self.stream.getvalue())

    def test_in_a_session(self):
        with spmat.Session(program=support.program(), progress=self.bar) as session:
            session.full(30, 30).apply('ainv').nvals
        self.assertIn('jobs: 100%', self.stream.getvalue())


class WithoutTqdm(unittest.TestCase):
    def test_what_is_said(self):
        with mock.patch.dict(sys.modules, {'tqdm': None, 'tqdm.auto': None}):
            with self.assertRaisesRegex(ImportError,
                                        r'a progress bar needs tqdm \(extra cli\): pip install '
                                        r'tqdm'):
                Bar()
