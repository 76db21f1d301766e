"""Row blocks use spmat as anyone may."""
import os
import unittest

import public_names

PACKAGE = os.path.join(os.path.dirname(os.path.dirname(os.path.abspath(__file__))), 'spmat_blocks')


class PublicNames(unittest.TestCase):
    def test_the_package(self):
        self.assertGreater(sum(module == 'spmat' for name in os.listdir(PACKAGE)
                               if name.endswith('.py')
                               for _, module, _ in public_names.list_imports(
                                   os.path.join(PACKAGE, name))), 3)
        self.assertEqual(list(public_names.find_private(PACKAGE)), [])


if __name__ == '__main__':
    unittest.main()
