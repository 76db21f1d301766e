"""What the READMEs and the client's page print is what they say, and the client's README leads
somewhere from a wheel, too."""
import os
import re
import subprocess
import sys
import tempfile
import time
import unittest

import support
import spmat
from pages import blocks_of, printed, text_of


def has_backends():
    """Whether networkx is here, in a version that asks backends."""
    try:
        import networkx
    except ImportError:
        return False
    return hasattr(networkx, 'config')


CLIENT = os.path.join('clients', 'python', 'README.md')
OTHERS = [os.path.join(*names, 'README.md')
          for names in (('clients', 'blocks'), ('clients', 'networkx'), ('gateway',))]
LONGEST = 60                                       # lines of a wheel's README
# a page of the site, which stands in the repository under the same name
OF_SITE = re.compile(r'https://[^/]+/((?:docs/)?\w+)\.html$')


class Page(unittest.TestCase):
    def printed(self, lines):
        with tempfile.TemporaryDirectory() as folder:
            return printed(lines, folder)

    def test_what_they_print(self):
        for page, least in ((CLIENT, 1), ('docs/python.md', 5)):
            blocks = blocks_of(text_of(page))
            pairs = [(lines, said) for lines, said in zip(blocks, blocks[1:])
                     if lines.startswith('import') and 'print(' in lines]
            self.assertGreaterEqual(len(pairs), least)
            for lines, said in pairs:
                if not lines.startswith('import networkx') or has_backends():
                    self.assertEqual(self.printed(lines), said)

    def test_in_a_wheel(self):
        """A wheel has its README and nothing beside it: links are whole addresses, of pages that
        the site has."""
        for name, least in ((CLIENT, 6), *((other, 1) for other in OTHERS)):
            text = text_of(name)
            self.assertLessEqual(text.count('\n'), LONGEST)
            links = re.findall(r'\]\(([^)]+)\)', text)
            self.assertGreaterEqual(len(links), least)
            for link in links:
                page = OF_SITE.match(link)
                self.assertIsNotNone(page, link)
                self.assertTrue(os.path.exists(os.path.join(support.TOP, page.group(1) + '.md')),
                                link)

    def test_first_command(self):
        """What a newcomer runs first, by the reference implementation: within ten seconds on a
        machine that does nothing else."""
        blocks = blocks_of(text_of('README.md'))
        command, said = next(pair for pair in zip(blocks, blocks[1:])
                             if pair[0].startswith('PYTHONPATH='))
        begun = time.process_time() + sum(os.times()[2:4])
        # this Python is the one that has numpy
        path = os.pathsep.join([os.path.dirname(sys.executable), os.environ['PATH']])
        done = subprocess.run(['sh', '-c', command], cwd=support.TOP,
                              env={**os.environ, 'PATH': path}, stdout=subprocess.PIPE, check=True,
                              timeout=100)
        self.assertEqual(done.stdout.decode(), said)
        self.assertLess(time.process_time() + sum(os.times()[2:4]) - begun, 10)

    def test_what_the_repository_prints(self):
        blocks = blocks_of(text_of('README.md'))
        lines, said = next(pair for pair in zip(blocks, blocks[1:]) if pair[0].startswith('import'))
        self.assertEqual(self.printed(lines), said)

    def test_refusal(self):
        blocks = blocks_of(text_of('docs/python.md'))
        lines, said = next(pair for pair in zip(blocks, blocks[1:])
                           if pair[1].startswith('spmat.OperatorRefused'))
        with self.assertRaises(spmat.OperatorRefused) as fault:
            self.printed(lines)
        self.assertEqual('spmat.OperatorRefused: %s' % fault.exception,
                         ' '.join(said.split()))
