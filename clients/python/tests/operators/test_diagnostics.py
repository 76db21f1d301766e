"""What is said and shown of operators: registers and ways of one that is refused, how a line may be
mended, what one was written as, and what it costs."""
import random
import unittest

import pytest

import operator_functions as functions
import support
import spmat
from reference_code import code_of
from spmat.operators import diagnostics as dataflow
from spmat.operators.c import FromC

pytestmark = pytest.mark.slow

LEFT_UNSET = '''; r6 is set on one way alone
mov64 r3, r1
jeq64 r1, 0, skip
mov64 r6, 5
skip:
add64 r3, r6
mov64 r0, r3
exit
'''
TWO_PLACES = '''mov64 r2, r10
stx64 r10, -8, r1
stx64 r10, -16, r1
add64 r2, -16
jeq64 r1, 0, 1
add64 r2, 8
ldx64 r0, r2, 0
exit
'''


class Case(support.InSession):
    def refusal(self, kind, text):
        with self.assertRaises(spmat.OperatorRefused) as said:
            self.s.types(spmat.asm(kind, text))
        return said.exception


class Registers(Case):
    def test_unset(self):
        fault = self.refusal('unary', LEFT_UNSET)
        self.assertEqual((fault.rule, fault.at, fault.text_line), ('V11', 3, 6))
        self.assertIn("slot 3, line 6: 'add64 r3, r6'", str(fault))
        self.assertIn("r6 is unset where 'jeq64 r1, 0, 1' (slot 1) jumps", str(fault))
        self.assertIn('r0 is unset on each way that leads here',
                      str(self.refusal('binary', 'exit')))

    def test_set_differently(self):
        said = str(self.refusal('unary', TWO_PLACES))
        self.assertIn(
            "r2 is the stack's top less 16 where 'jeq64 r1, 0, 1' (slot 4) jumps, and the "
            "stack's top less 8 where 'jeq64 r1, 0, 1' (slot 4) doesn't jump", said)
        said = str(self.refusal('unary',
                                'mov64 r2, r10\njeq64 r1, 0, 1\nmov64 r2, 1\nmov64 r0, r2\nexit'))
        self.assertIn(
            "r2 is the stack's top where 'jeq64 r1, 0, 1' (slot 1) jumps, and a number where "
            "'jeq64 r1, 0, 1' (slot 1) doesn't " 'jump', said)

    def test_of_code(self):
        code = (
            'bf130000000000001501010000000000b706000005000000'
            '0f63000000000000bf300000000000009500000000000000')
        self.assertIn('r6 is unset where',
                      support.said(spmat.OperatorRefused, self.s.types, spmat.code('unary', code)))

    def test_rows_up_to_there(self):
        """What is known of one that is refused, as `types` has it of one that is accepted."""
        check = self.s.check(spmat.asm('unary', LEFT_UNSET))
        self.assertFalse(check)
        self.assertEqual((check.accepted, check.refusal.rule, len(check.rows)), (False, 'V11', 4))
        self.assertEqual(check.rows[3], ['3', 'add64 r3, r6', '-', 'n', '-', 'n', '-', '-', '-',
                                         '-', '-', '-', 'p0'])
        self.assertIn('V11', str(check))
        good = self.s.check(spmat.binary.min)
        self.assertTrue(good)
        self.assertEqual((good.instructions, good.refusal), (4, None))
        self.assertIn('binary: 4 instructions, so a call takes at most 4 steps', str(good))
        self.assertEqual(self.s.check(spmat.asm('unary', 'mov r0, r1\nexit')).rows, [])
        self.assertEqual(self.s.check(spmat.code('unary', 'ff00000000000000')).rows, [])

    def test_all_that_is_known(self):
        """The client reckons the same as the verifier, of text and of code: for built-in operators
        and for random ones."""
        r = random.Random(3)
        ops = [ready[name] for ready in (spmat.unary, spmat.binary, spmat.indexunary)
               for name in ready]
        while len(ops) < 160:
            text = self.random_text(r)
            op = spmat.asm(r.choice(('unary', 'binary', 'index')), text)
            if self.s.check(op):
                ops.append(op)
        for op in ops:
            want = self.s.types(op)
            text = self.s.dis(op)
            for same in (spmat.asm(op.kind, text), spmat.code(op.kind, code_of(text))):
                steps = dataflow.steps_of(same)
                before = dataflow.walk(op.kind, steps)
                got = ['%d %s' % (step.slot, ' '.join(map(dataflow.tag, before[step.slot]))
                                  if step.slot in before else '-') for step in steps]
                self.assertEqual(got, want, op.text)

    def random_text(self, r):
        lines = ['mov64 r0, r1', 'mov64 r2, r10']
        for _ in range(r.randrange(9)):
            lines.append(r.choice(('add64 r2, -8', 'mov64 r3, r2', 'mov64 r4, 7',
                                   'jeq64 r0, 0, %d' % r.randrange(3), 'neg64 r0', 'mov32 r5, r0',
                                   'stx64 r10, -8, r0', 'ldx64 r6, r10, -8', 'wide r7, 5',
                                   'ja %d' % r.randrange(2), 'add64 r0, r1', 'mov64 r0, r4',
                                   'movs8_64 r3, r0', 'jlt32 r1, r0, 1', 'le16 r0', 'mov64 r3, 1')))
        return '\n'.join(lines + ['mov64 r0, r1', 'mov64 r0, r1', 'exit'])


class Lines(Case):
    def test_how_to_mend(self):
        for text, rule, at, words in (
            ('mov r0, r1\nexit', 'A2', 1, 'end in their width, as mov64 or mov32'),
            ('EXIT', 'A2', 1, 'as exit'),
            ('add r0, 1\nexit', 'A2', 1, 'as add64 or add32'),
            ('mov64 r0\nexit', 'A3', 1, 'it is written `mov64 rD, rS or rD, NUMBER`'),
            ('mov64 r0, r1 // x\nexit', 'A3', 1, 'comments begin with ; or #'),
            ('mov64 r0, 0x1f\nexit', 'A3', 1, 'numbers are decimal: 31'),
            ('mov64 r0, r1\njeq64 r1, 0, end\nexit', 'A3', 2, 'a label is a line `end:`'),
            ('mov64 r0 r1\nexit', 'A3', 1, 'commas part'),
            ('mov64 r0, r11\nexit', 'A4', 1, 'registers are r0 to r10'),
            ('mov64 r0, 2147483648\nexit', 'A5', 1, '`wide rD, NUMBER`'),
            ('; nothing\n', 'A6', 2, 'A6: no instruction at all, line 2'),
            ('mov64 r0, r1\n' * 4097, 'A6', 4097, 'A6: more than 4,096 slots, line 4097'),
            ('mov64 r0, r1 ; ' + 1100 * 'x' + '\nexit', 'A1', 1, 'on lines of its own')):
            fault = self.refusal('unary', text)
            self.assertEqual((fault.rule, fault.at), (rule, at), text[:40])
            self.assertIn(words, str(fault))

    def test_operators_say_who_they_are(self):
        self.assertEqual(repr(spmat.asm('unary', 'mov64 r0, r1\nexit')),
                         "<unary operator 'mov64 r0, r1 ..'>")
        self.assertEqual(repr(spmat.binary.plus), '<binary operator plus>')
        self.assertEqual(repr(spmat.code('unary', '95' + 14 * '0')), '<unary operator of 1 slots>')


class Shown(unittest.TestCase):
    def test_code_of(self):
        listing = spmat.code_of(functions.toll)
        self.assertEqual((listing.language, listing.operator.kind), ('Python', 'binary'))
        self.assertIn('def toll(x, y):\n    return x + y + (5 if y > 10 else 0)', listing.source)
        self.assertEqual(listing.assembly, spmat.binary(functions.toll).text)
        self.assertEqual(listing.columns()[:2], [['slot', 'instruction', 'R0', 'R1', 'R2'],
                                                 ['0', 'mov64 r0, r1', '-', 'n', 'n']])
        self.assertTrue(str(listing).startswith('def toll(x, y):'))
        self.assertIn('5 instructions: a price counts 5 steps a call, and a call takes at most 5',
                      str(listing))
        for function, kind in ((lambda x: x, 'unary'), (lambda x, y: x, 'binary'),
                               (lambda x, row, column: x, 'index'), (min, 'binary')):
            self.assertEqual(spmat.code_of(function).operator.kind, kind)
        self.assertEqual(spmat.code_of(lambda x, row: x + row, 'index').operator.kind, 'index')
        self.assertEqual(spmat.code_of('min').operator, spmat.binary.min)
        self.assertEqual(spmat.code_of('tril').operator, spmat.indexunary.tril)

    def test_in_a_notebook(self):
        shown = spmat.binary(functions.toll)._repr_html_()
        self.assertIn('from Python', shown)
        self.assertIn('return x + y + (5 if y &gt; 10 else 0)', shown)
        self.assertIn('add64 r0, 5', shown)
        self.assertIn('mov64 r0, r1',
                      spmat.code('unary', 'bf100000000000009500000000000000')._repr_html_())
        self.assertIn('the lesser of x and y', spmat.binary.min._repr_html_())
        self.assertIn('mov r0', spmat.asm('unary', 'mov r0')._repr_html_())

    def test_operators_from_c(self):
        op = FromC('unary', code=bytes.fromhex('bf100000000000009500000000000000'), name='f',
                   source=('int64_t f(int64_t x) { return x; }',))
        self.assertEqual(spmat.code_of(op).language, 'C')
        shown = op._repr_html_()
        self.assertIn('int64_t f(int64_t x) { return x; }', shown)
        self.assertIn('mov64 r0, r1', shown)
        self.assertNotIn('bf10', shown)

    def test_explain(self):
        told = spmat.explain(functions.vote)
        self.assertEqual((told.instructions, told.longest), (14, 10))
        self.assertRegex(str(told), r'(?s)^binary operator vote, 14 instructions: .*at most '
                         r'10\n.*reduce_rowwise +14 steps for each entry')
        self.assertIn('apply', str(spmat.explain('abs')))

    def test_a_price_is_what_is_explained(self):
        with spmat.Session() as session:
            A = session.from_triples([(0, 0, 1), (0, 1, 2), (1, 0, 3)], 2, 2)
            for made, op, calls in ((A.ewise_mult(A, functions.toll), functions.toll, 3),
                                    (A.ewise_add(A, functions.toll), functions.toll, 3),
                                    (A.reduce_rowwise(functions.toll), functions.toll, 1),
                                    (A.apply(functions.grade), functions.grade, 3)):
                self.assertEqual(made.price, calls * spmat.explain(op).instructions)
            self.assertEqual(A.mxm(A, (min, functions.toll)).price, 5 * (4 + 5))
