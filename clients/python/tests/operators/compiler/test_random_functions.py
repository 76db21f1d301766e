"""Random functions beside Python: some, of a seed that `SEED` may name; tests/fuzz/functions.py has
as many as one likes."""
import os
import unittest

import random_comparison

COUNT = 150


class Random(unittest.TestCase):
    def test_each(self):
        seed = os.environ.get('SEED', '1')
        found = random_comparison.compared(seed, COUNT)
        self.assertEqual(found.fault, '')
        self.assertGreater(found.functions, COUNT * 2 // 3)
        self.assertGreater(found.calls, 20 * COUNT)
