"""What is installed: pyproject.toml names each folder of the package, and what it needs; Debian's
packages need the same."""
import os
import pathlib
import re
import sys
import tempfile
import unittest
from unittest import mock

import spmat
from spmat import extras

import support


def list_folders():
    """The packages as they lie in folders, with dots."""
    held = [folder for folder, _, files in os.walk(os.path.join(support.CLIENT, 'spmat'))
            if '__init__.py' in files]
    return sorted(os.path.relpath(folder, support.CLIENT).replace(os.sep, '.') for folder in held)


def read_project():
    """The text of pyproject.toml."""
    return pathlib.Path(os.path.join(support.CLIENT, 'pyproject.toml')).read_text('utf-8')


def list_packages():
    """The packages that pyproject.toml names."""
    return sorted(re.findall(r'"([^"]+)"', re.search(r'^packages = \[(.*?)\]', read_project(),
                                                     re.M | re.S).group(1)))


def read_extras():
    """The extras of pyproject.toml, and what each wants, without versions."""
    table = re.search(r'^\[project\.optional-dependencies\]\n(.*?)\n\n', read_project(),
                      re.M | re.S).group(1)
    return {name: [re.match(r'[\w-]+(\[[\w,-]+\])?', want).group()
                   for want in re.findall(r'"([^"]+)"', wants)]
            for name, wants in re.findall(r'^(\w+) = \[(.*)\]$', table, re.M)}


class Packages(unittest.TestCase):
    def test_all_are_installed(self):
        self.assertIn('spmat.cli', list_folders())
        self.assertEqual(list_packages(), list_folders())

    def test_what_is_required(self):
        self.assertIn('\ndependencies = ["numpy>=1.22", "click>=8.1"]\n', read_project())

    def test_each_extra_brings_its_modules(self):
        found = read_extras()
        for module, extra in extras.EXTRAS.items():
            if extra.extra:
                with self.subTest(module=module):
                    self.assertIn(extra.project, found[extra.extra])
        # none brings a name of ours, by which whoever registered it would run code at the reader;
        # that of spmat itself is met by the file that is being installed
        self.assertEqual([project for projects in found.values() for project in projects
                          if project.startswith('spmat') and not project.startswith('spmat[')], [])

    def test_all_is_every_extra(self):
        found = read_extras()
        self.assertEqual(found['all'],
                         ['spmat[%s]' % ','.join(name for name in found
                                                 if name not in ('all', 'arrays', 'graphs'))])

    def test_names_of_1_0(self):
        found = read_extras()
        self.assertEqual([found['arrays'], found['graphs']],
                         [['spmat[scipy]'], ['spmat[networkx]']])
        self.assertLessEqual({'pictures', 'dask'}, set(found))

    @unittest.skipUnless(os.path.isdir(os.path.join(support.TOP, 'packaging')),
                         'an installed client has no packaging')
    def test_debian_recommends_the_same(self):
        """Those of the client, and of the package of row blocks that it recommends."""
        with open(os.path.join(support.TOP, 'packaging', 'debian', 'control'),
                  encoding='utf-8') as file:
            packages = {text.partition('\n')[0]: text.split('Description:')[0]
                        for text in file.read().split('Package: ')[1:]}
        self.assertRegex(packages['python3-spmat'],
                         r'(?m)^Depends: .*\bpython3-click \(>= 8\.1\), python3-numpy$')
        recommended = {word for name in ('python3-spmat', 'python3-spmat-blocks')
                       for word in re.findall(r'[\w-]+', re.search(
                           r'^Recommends: (.*?)(?:^\w|\Z)', packages[name], re.M | re.S).group(1))}
        self.assertLessEqual({extra.debian for extra in extras.EXTRAS.values() if extra.debian},
                             recommended)


class Missing(unittest.TestCase):
    def test_a_module_that_is_here(self):
        self.assertIs(extras.import_extra('os', 'nothing'), os)

    def test_the_error_says_what_to_type(self):
        extras.EXTRAS['no_such_module'] = extras.Extra('files', 'no-such-project', 'python3-none')
        self.addCleanup(extras.EXTRAS.pop, 'no_such_module')
        with self.assertRaises(ImportError) as raised:
            extras.import_extra('no_such_module.part', 'a picture')
        self.assertEqual(str(raised.exception),
                         'a picture needs no_such_module (extra files): pip install '
                         'no-such-project, or on Debian '
                         "apt install python3-none (No module named 'no_such_module')")
        self.assertEqual(raised.exception.name, 'no_such_module')

    def test_parquet_without_an_engine(self):
        """One line, which says what to type, before anything is written."""
        with spmat.Session() as s, tempfile.TemporaryDirectory() as folder:
            G, path = s.from_edgelist([('a', 'b', 1)]), os.path.join(folder, 'x.parquet')
            hidden = {name: None for name in ('pyarrow', 'fastparquet')}
            with mock.patch.dict(sys.modules, hidden), \
                    mock.patch('importlib.util.find_spec', lambda name: None):
                for call in (lambda: G.to_parquet(path),
                             lambda: G.reduce_rowwise().to_parquet(path)):
                    with self.assertRaisesRegex(ImportError,
                                                r'^to_parquet needs pyarrow \(extra parquet\): '
                                                r'pip install pyarrow \(') as raised:
                        call()
                    self.assertNotIn('\n', str(raised.exception))
            self.assertEqual(os.listdir(folder), [])

    def test_results_for_packages_that_are_missing(self):
        with spmat.Session() as s:
            G = s.from_edgelist([('a', 'b', 1)])
            for module, call in (('pandas', G.to_pandas), ('pandas', G.to_pandas_edgelist),
                                 ('networkx', G.to_networkx), ('scipy.sparse', G.to_scipy_sparse)):
                with self.subTest(module=module), mock.patch.dict(sys.modules, {module: None}):
                    with self.assertRaisesRegex(ImportError,
                                                r'^to_\w+ needs %s \(extra \w+\): pip install'
                                                % module.partition('.')[0]):
                        call()

    def test_without_a_package_of_debian_or_an_extra(self):
        self.assertEqual(extras.describe_missing('pyarrow', 'parquet'),
                         'parquet needs pyarrow (extra parquet): pip install pyarrow')
        self.assertEqual(extras.describe_missing('spmat_blocks', 'spmat.blocks'),
                         'spmat.blocks needs spmat_blocks, a wheel of the release: pip install '
                         './spmat_blocks-*.whl, or on Debian apt install python3-spmat-blocks')
