"""What is said of jobs that are larger than a server makes, and products by parts."""
import os
import unittest

import pytest

import support
import spmat
import spmat_blocks as blocks
from spmat import oversized_jobs
from spmat.backends.protocol import Job
from spmat.errors import refusal

pytestmark = pytest.mark.slow


class Limits(support.InSession):
    def setUp(self):
        self.ones, self.wide = self.s.full(5000, 1), self.s.full(1, 5000)

    def test_a_product_too_large(self):
        with self.assertRaises(spmat.TooLarge) as said:
            self.ones.mxm(self.wide)
        self.assertEqual(said.exception.rule, 'J7')
        self.assertIn('25,000,000 multiplications, and 16,777,216 is the most of a job: mxm(.., '
                      'parts=True) makes it by parts of the rows', str(said.exception))
        self.assertIn('(in `product`)', str(said.exception))
        some = self.s.from_coo(range(4000), [0] * 4000, 1, 5000, 5000)
        self.assertIn('20,000,000 multiplications',
                      support.said(spmat.TooLarge, self.ones.mxm, self.wide, mask=some.S))
        few = self.s.from_coo(range(5), [0] * 5, 1, 5000, 5000)
        self.assertEqual(self.ones.mxm(self.wide, mask=few.S).nvals, 5)
        job = Job('union', (spmat.binary.plus,), (self.ones.handle, self.ones.handle),
                  self.ones.shape)
        union = oversized_jobs.explained(refusal('J7', command='union a b c'), job,
                                         [self.ones, self.ones])
        self.assertIn(
            '10,000 entries of both together, and 16,777,216 is the most of a job: select() '
            'some rows', str(union))

    def test_a_price_too_high(self):
        dear = spmat.asm('binary', 'mov64 r0, r1\n' * 4000 + 'exit')
        with self.assertRaises(spmat.TooLarge) as said:
            self.s.full(1100, 1).mxm(self.s.full(1, 1100), (spmat.binary.plus, dear))
        self.assertEqual(said.exception.rule, 'J8')
        self.assertIn(
            'up to 1,210,000 calls of 4004 instructions, which are 4,844,840,000 steps, and '
            '4,294,967,296 is the most of a job', str(said.exception))

    @unittest.skipIf(os.environ.get('SPMAT_CHECKED'), 'takes minutes with run-time checks')
    def test_by_parts(self):
        """What is too large is made by parts, under every mask, and is what small parts give; a
        lack of steps stays one."""
        mask = self.s.from_coo(range(5000), [7 * k % 5000 for k in range(5000)], 1, 5000, 5000)
        before = self.s.jobs
        got = self.ones.mxm(self.wide, 'plus_times', mask=mask.S, parts=True)
        self.assertEqual(got.to_dict(), dict.fromkeys(mask.to_dict(), 1))
        self.assertGreater(self.s.jobs, before + 2)
        dear = spmat.Semiring(spmat.binary.plus,
                              spmat.asm('binary', 'mov64 r0, r1\n' * 4000 + 'exit'))
        few = self.s.from_coo([1099, 3], [5, 7], 1, 1100, 1100)
        tall, flat = self.s.full(1100, 1, 3), self.s.full(1, 1100)
        self.assertEqual(tall.mxm(flat, dear, mask=few.S, parts=True).to_dict(),
                         {(1099, 5): 3, (3, 7): 3})
        few = self.s.from_triples([(0, 1, 2), (1, 0, 3)])
        before = self.s.jobs
        self.assertEqual(few.mxm(few, parts=True).to_dict(), {(0, 0): 6, (1, 1): 6})
        self.assertEqual(self.s.jobs, before + 1)

    @unittest.skipIf(os.environ.get('SPMAT_CHECKED'), 'takes minutes with run-time checks')
    def test_in_blocks(self):
        with blocks.Sessions(2) as many:
            ones, wide = many.full(8200, 1), many.full(1, 8200)
            mask = many.from_coo(range(8200), [7 * k % 8200 for k in range(8200)], 1, 8200, 8200)
            with self.assertRaises(spmat.TooLarge):
                ones.mxm(wide, mask=mask.S)
            for associative in (False, True):
                got = ones.mxm(wide, mask=mask.S, parts=True, associative=associative)
                self.assertEqual(got.to_dict(), dict.fromkeys(mask.to_dict(), 1))
