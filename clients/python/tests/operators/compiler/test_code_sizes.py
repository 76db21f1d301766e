"""How long operators from functions are beside assembly that is written by hand."""
import random
import sys
import unittest

import operator_sizes
from operator_model import Plain, meaning, operands_of


class Sizes(unittest.TestCase):
    # where a way has fewer questions, as one is answered by another, the ways are apart; tables and
    # automata are searched by jumps. No way is longer for it.
    MORE = {'fee: 3 `if`, 2 of one operand': 9, 'score: 4 `if` behind one another': 8,
            'move: an automaton of 3 states': 5, '[3, 1, 4, 1, 5, 9, 2, 6][x % 8]': 13}
    if sys.version_info >= (3, 13):                # there sorted asks in another order
        MORE['sorted([x, row, column])[1]'] = 3

    def test_at_most_one_instruction_more(self):
        self.assertGreaterEqual(len(operator_sizes.TABLE), 30)
        for name, kind, function, op, by_hand in operator_sizes.rows():
            with self.subTest(name):
                made, hand, dice = Plain(op), Plain(by_hand), random.Random(1)
                for _ in range(100):
                    operands = operands_of(dice, kind)
                    expected = meaning(function, operands[:3] if name.startswith('row //')
                                       else operands)
                    self.assertEqual((made.run(operands)[0], hand.run(operands)[0]),
                                     (expected, expected), operands)
                self.assertLessEqual(made.instructions, hand.instructions + self.MORE.get(name, 1))
                self.assertLessEqual(made.longest(), hand.longest() + 1)
