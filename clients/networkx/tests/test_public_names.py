"""The backend uses spmat as anyone may."""
import os
import pathlib
import tempfile
import unittest

import public_names

PACKAGE = os.path.join(os.path.dirname(os.path.dirname(os.path.abspath(__file__))),
                       'spmat_networkx')


class PublicNames(unittest.TestCase):
    def test_the_package(self):
        self.assertGreater(sum(module == 'spmat' for name in os.listdir(PACKAGE)
                               if name.endswith('.py')
                               for _, module, _ in public_names.list_imports(
                                   os.path.join(PACKAGE, name))), 3)
        self.assertEqual(list(public_names.find_private(PACKAGE)), [])

    def test_what_is_found(self):
        lines = ('import spmat', 'from spmat import Matrix, algorithms, errors',
                 'import spmat.wire.connection', 'from spmat import integers',
                 'from spmat import metadata', 'from spmat.errors import _x', 'import os')
        with tempfile.TemporaryDirectory() as folder:
            pathlib.Path(os.path.join(folder, 'some.py')).write_text('\n'.join(lines), 'utf-8')
            found = list(public_names.find_private(folder))
        self.assertEqual([one.split(': ')[0] for one in found],
                         ['some.py:3', 'some.py:4', 'some.py:5', 'some.py:6'])
