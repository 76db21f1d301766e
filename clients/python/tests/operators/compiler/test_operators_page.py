"""docs/operators.md on Python: its blocks print what stands below them, and each row of its table
says what operators give."""
import os
import re
import unittest

import support
import spmat
from operator_model import Plain
from pages import blocks_of, printed, text_of

PAGE = 'docs/operators.md'
ROW = re.compile(r'^\| `([^`]+)` \| [^|]+ \| (`\(.+) \|$', re.M)
CALL = re.compile(r'`\(([-\d, ]+)\)` gives (-?\d+)')


@unittest.skipUnless(os.path.exists(os.path.join(support.TOP, PAGE)), 'the package stands without the repository')
class Page(unittest.TestCase):
    def test_blocks(self):
        blocks = blocks_of(text_of(PAGE))
        found = [(block, blocks[at + 1]) for at, block in enumerate(blocks)
                 if block.startswith('import spmat')]
        self.assertGreaterEqual(len(found), 2)
        for block, said in found:
            self.assertEqual(printed(block), said)

    def test_meanings(self):
        """Each call of each row, on the plain machine and by calling the operator."""
        rows, calls = ROW.findall(text_of(PAGE).split('\n## From Python\n')[1].split('\n## ')[0]), 0
        self.assertGreaterEqual(len(rows), 20)
        for expression, examples in rows:
            for operands, expected in CALL.findall(examples):
                numbers = [int(number) for number in operands.split(',')]
                make = spmat.unary if len(numbers) == 1 else spmat.binary
                op = make(eval('lambda %s: %s' % ('x, y'[:1 if len(numbers) == 1 else 4],
                                                  expression), {'spmat': spmat}))
                with self.subTest(expression=expression, operands=operands):
                    self.assertEqual((Plain(op).run(numbers)[0], op(*numbers)),
                                     (int(expected), int(expected)))
                calls += 1
        self.assertGreaterEqual(calls, 35)
