"""The reference of the client is made of its docstrings: it leaves nothing public out, and each
entry has its sections in one order."""
import os
import pathlib
import re
import subprocess
import sys
import tempfile
import unittest

import support
import spmat
from spmat import algorithms

TOOL = os.path.join(support.TOP, 'tools', 'api_page')
SECTIONS = ('| Argument |', '**Returns**', '**Cost.**', '**Elsewhere.**', '**Raises.**')


def made(*words):
    """What tools/api_page prints and ends with."""
    return subprocess.run([sys.executable, TOOL, *words], stdout=subprocess.PIPE,
                          stderr=subprocess.STDOUT, text=True, timeout=60)


class First(unittest.TestCase):
    def test_each_module_may_be_the_first_that_a_program_asks_for(self):
        """Names are imported when they are asked for, so modules that name one another in a circle
        fail for some orders alone."""
        places = spmat._PLACES                         # pylint: disable=protected-access
        first = {module: name for name, module in places.items()}
        for module, name in first.items():
            with self.subTest(module=module):
                done = subprocess.run([sys.executable, '-c', 'import spmat; spmat.' + name],
                                      env={**os.environ, 'PYTHONPATH': support.CLIENT},
                                      stderr=subprocess.PIPE, text=True, check=False, timeout=100)
                self.assertEqual((done.returncode, done.stderr), (0, ''))


class Page(unittest.TestCase):
    @classmethod
    def setUpClass(cls):
        with tempfile.TemporaryDirectory() as room:
            path = os.path.join(room, 'api.md')
            done = made(path)
            if done.returncode:
                raise AssertionError(done.stdout)
            cls.page = pathlib.Path(path).read_text('utf-8')
        cls.entries = {part.partition('`')[2].partition('`')[0]: part
                       for part in re.split(r'^(?=#)', cls.page, flags=re.M)
                       if part.startswith('#### ')}

    def test_every_algorithm_says_its_cost(self):
        done = made('--check')
        self.assertEqual((done.returncode, done.stdout),
                         (0, 'reference: every algorithm says its cost\n'))

    def test_nothing_is_left_out(self):
        names = [re.match(r'[\w.]+(\[)?', heading).group(0) for heading in self.entries]
        for name in ('s.from_coo', 's.read_graph', 's.read_edgelist', 's.from_edgelist', 's.mmread',
                     's.check', 's.run', 's.budget', 'A.mxm', 'A.apply', 'A.select', 'A.top',
                     'A.by_node', 'A.to_networkx', 'A.nodes', 'A[', 'spmat.asm', 'spmat.loop',
                     'spmat.c', 'draw.spy', 'blocks.Sessions',
                     *('algorithms.%s' % name for name in algorithms.__all__
                       if callable(getattr(algorithms, name)) and name != 'Progress')):
            self.assertEqual(names.count(name), 1, name)
        for name in dir(spmat.errors):
            if isinstance(getattr(spmat.errors, name),
                          type) and issubclass(getattr(spmat.errors, name),
                                               spmat.SpmatError) and name[0] != '_':
                self.assertIn(name, self.page)

    def test_sections(self):
        """Their order is the same everywhere, and a product has what its docstring and its
        signature say."""
        for heading, text in self.entries.items():
            at = [text.index(section) for section in SECTIONS if section in text]
            self.assertEqual(at, sorted(at), heading)
        (product,) = (text for heading, text in self.entries.items()
                      if heading.startswith('A.mxm('))
        self.assertIn('| `other` | `Matrix` | required |', product)
        self.assertIn("| `op` | `Ring` | `'plus_times'` |", product)
        self.assertIn('**Returns** `Matrix`', product)
        self.assertRegex(product, r'\*\*Elsewhere\.\*\* In the GraphBLAS GrB_mxm')
        (search,) = (text for heading, text in self.entries.items()
                     if heading.startswith('algorithms.bfs_levels('))
        self.assertRegex(search, r'\*\*Cost\.\*\* up to 4 steps per edge')
        self.assertRegex(search, r'\*\*Raises\.\*\* ValueError ')
        self.assertNotRegex(search.partition('**Cost.**')[0], r'Cost:|Raises')

    def test_links_lead_somewhere(self):
        headings = {re.sub('[^a-z0-9 _-]', '', title.lower()).replace(' ', '-')
                    for title in re.findall(r'^#+ (.*)$', self.page, re.M)}
        for link in re.findall(r'\]\(#([^)]+)\)', self.page):
            self.assertIn(link, headings)
