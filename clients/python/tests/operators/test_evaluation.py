"""Operators called in the client's process, by its library and without it: what they give is what
the server gives."""
import os
import random
import subprocess
import sys
import unittest
from unittest import mock

import numpy

import support
import spmat
from spmat import library, operators
from spmat.operators import diagnostics, evaluation
from spmat.operators.evaluation import assemble, evaluate

wants_library = unittest.skipUnless(library.load(), 'no library: tools/build makes it')

EDGES = [0, 1, -1, 2, -3, 7, 31, 63, 64, 1 << 31, (1 << 32) + 5, -(1 << 32), (1 << 63) - 1,
         -(1 << 63)]
WIDTHS = '''mov64 r0, r1
{name}32 r0, r2
exit
'''
JUMPS = '''mov64 r0, 1
{name} r1, r2, 2
mov64 r0, 2
ja 1
add64 r0, 40
exit
'''
UNKNOWN = ('swap64 r0', 'movs8_64 r0, r1', 'lsh32 r0, r1', 'jeq32 r0, 0, 0')
ON_STACK = ('stx64 r10, -8, r2\nldsx16 r0, r10, -6', 'st8 r10, -1, -5\nldx8 r0, r10, -1',
            'stx32 r10, -512, r1\nmov64 r3, r10\nadd64 r3, -512\nldx32 r0, r3, 0')
TEXT = """mov64 r0, r1
mov64 r3, 7
jslt64 r2, -70, 2  ; a comment
wide r3, -9223372036854775807
xor32 r0, r3
stx16 r10, -2, r0
ldsx16 r0, r10, -2
exit
"""
ODD = '\0\t\n\r ,;:+-019rRx\x7f'
SHORT_OF_MEMORY = """
import resource, numpy, spmat
from spmat.operators.evaluation import evaluate
op = spmat.code('unary', bytes.fromhex('bf10000000000000') * 4095 + bytes.fromhex('95') + bytes(7))
evaluate(op, numpy.arange(3))
with open('/proc/self/statm') as file:
    used = int(file.read().split()[0]) * resource.getpagesize()
resource.setrlimit(resource.RLIMIT_AS, (used, -1))
try:
    evaluate(op, numpy.arange(3))
except MemoryError as fault:
    print(fault)
"""


def without_library():
    return mock.patch.object(evaluation, 'load', lambda: None)


def pairs(count=60):
    chance = random.Random(1)
    some = [(x, y) for x in EDGES for y in EDGES]
    some += [(chance.getrandbits(64) - (1 << 63), chance.getrandbits(64) - (1 << 63))
             for _ in range(count)]
    return [numpy.array(part, numpy.int64) for part in zip(*some)]


class Evaluation(support.InSession):
    def check(self, op):
        """Calls a binary operator on all pairs, here and at the server."""
        x, y = pairs()
        at = range(len(x))
        first, second = (self.s.from_coo(at, [0] * len(x), part, len(x), 1) for part in (x, y))
        self.assertEqual(evaluate(op, x, y).tolist(), first.ewise_mult(second, op).to_list(), op)

    def test_ready_operators(self):
        for name in operators.binary:
            with self.subTest(name):
                self.check(getattr(spmat.binary, name))

    def test_operations(self):
        for name in operators.assembly.OPERATIONS:
            for width in ('64', '32'):
                if width == '32' and name in ('arsh', 'lsh', 'rsh', 'sdiv', 'smod'):
                    continue
                for right in ('r2', '10', '-3', '0'):
                    with self.subTest(name + width, right=right):
                        self.check(spmat.asm('binary', 'mov64 r0, r1\n%s%s r0, %s\nexit\n'
                                             % (name, width, right)))

    def test_numbers(self):
        """With a number in place of the second register."""
        for name in operators.assembly.OPERATIONS:
            for number in (0, 7, -3):
                with self.subTest(name, number=number):
                    if number or name not in ('div', 'mod', 'sdiv', 'smod'):
                        number = number % 64 if name in ('lsh', 'rsh', 'arsh') else number
                        self.check(spmat.asm('binary', 'mov64 r0, r1\n%s64 r0, %d\nexit\n'
                                             % (name, number)))

    def test_jumps(self):
        for name in operators.assembly.CONDITIONS.values():
            with self.subTest(name):
                self.check(spmat.asm('binary', JUMPS.format(name=name + '64')))

    def test_index_operators(self):
        """With the row, the column and a thunk."""
        op = spmat.asm('index', 'mov64 r0, r1\nmul64 r0, r2\nneg64 r0\nsub64 r0, r3\n'
                                'wide r5, -9223372036854775807\nxor64 r0, r5\nadd64 r0, r4\nexit\n')
        A = self.s.from_coo([0, 1, 5], [3, 2, 0], [7, -4, 1 << 62], 6, 4)
        rows, columns, values = A.to_coo()
        self.assertEqual(evaluate(op, values, rows, columns, numpy.full(3, 11)).tolist(),
                         A.apply(op, right=11).to_coo()[2].tolist())

    def test_code(self):
        """An operator without a text."""
        op = spmat.code('unary', 'bf10000000000000070000000300000095' + 14 * '0')
        self.assertEqual(evaluate(op, numpy.array([1, 5])).tolist(), [4, 8])

    def test_what_is_not_known(self):
        with without_library():
            for line in UNKNOWN:
                op = spmat.asm('unary', 'mov64 r0, r1\n%s\nexit\n' % line)
                with self.subTest(line), self.assertRaises(NotImplementedError):
                    evaluate(op, numpy.array([1]))


class WithoutLibrary(Evaluation):
    """The same by the machine in Python."""

    def setUp(self):
        super().setUp()
        self.enterContext(without_library())


@wants_library
class ByLibrary(support.InSession):
    def refusal_of(self, op):
        """The rule that an operator breaks in the library, and where; None of one that is taken."""
        try:
            evaluate(op, *numpy.zeros((len(diagnostics.GIVEN[op.kind]), 0), numpy.int64))
        except ValueError as fault:
            _, at, _, _, rule = str(fault).split()
            return rule, int(at)
        return None

    def check(self, op):
        """Whether an operator is taken: the server says so too, or refuses it at the same place."""
        refused = self.s.check(op).refusal
        said = refused and (refused.rule, refused.at)
        self.assertEqual(self.refusal_of(op), said, (op.text, op.code))
        return said is None

    def test_all_instructions(self):
        """Those that the machine in Python doesn't know, too."""
        x, y = pairs()
        words = [self.s.from_coo(range(len(x)), [0] * len(x), part, len(x), 1) for part in (x, y)]
        for line in (*UNKNOWN, *ON_STACK):
            op = spmat.asm('binary', 'mov64 r0, r1\n%s\nexit\n' % line)
            with self.subTest(line):
                self.assertEqual(evaluate(op, x, y).tolist(),
                                 words[0].ewise_mult(words[1], op).to_list())

    def test_texts(self):
        """Of each text that is cut or altered the library says what the server says."""
        taken = 0
        for at in range(len(TEXT)):
            for text in (TEXT[:at], TEXT[:at] + TEXT[at + 1:], TEXT[:at] + TEXT[at] + TEXT[at:],
                         TEXT[:at] + ODD[at % len(ODD)] + TEXT[at + 1:]):
                taken += self.check(spmat.Operator('binary', text=text))
        self.assertGreater(taken, 20)
        for text in ('', '\n; nothing\n', 'exit\n' * 4097, 'x' * 1025):
            self.assertFalse(self.check(spmat.Operator('unary', text=text)))

    def test_code(self):
        """So too of code with a byte of another value, and of code that is cut."""
        code = assemble(TEXT.encode())
        taken = 0
        for at, byte in enumerate(code):
            for other in {byte ^ 1, byte ^ 0x80, 255, 0}:
                altered = code[:at] + bytes([other]) + code[at + 1:]
                taken += self.check(spmat.code('binary', altered))
        self.assertGreater(taken, 20)
        for cut in (0, 1, 7, 8, len(code) - 8):
            self.assertFalse(self.check(spmat.code('binary', code[:cut])))

    def test_kinds(self):
        """An operator that needs more operands than it gets is refused."""
        self.assertEqual(self.refusal_of(spmat.asm('unary', 'mov64 r0, r2\nexit\n')), ('V11', 0))

    def test_arrays_that_do_not_fit(self):
        """No call is made where operands, values and steps aren't of one number of calls."""
        code, words = assemble(b'mov64 r0, r1\nexit\n'), numpy.full(8, 7)
        at = words.ctypes.data
        for words_of_call, operands, values, steps in (
                (0, 0, 0, 0), (3, 3, 1, 1), (5, 5, 1, 1), (1, 2, 1, 1), (1, 2, 2, 1), (2, 3, 1, 1),
                (2, 2, 2, 2), (2, 2, 1, 2), (4, 4, 2, 2), (4, 6, 1, 1), (4, 8, 2, 1)):
            verdict = library.load().spmat_call(words_of_call, code, len(code), at, operands,
                                                at, values, at, steps)
            self.assertEqual((verdict.rule, verdict.at, verdict.size), (18, 0, 0))
        self.assertEqual(words.tolist(), [7] * 8)

    def test_steps(self):
        """The library counts the steps of each call, and the instructions of the operator."""
        code = assemble(b'jsgt64 r1, 3, 1\nadd64 r1, 9\nmov64 r0, r1\nexit\n')
        words, found = numpy.array([3, 4, -1]), numpy.empty((2, 3), numpy.int64)
        verdict = library.load().spmat_call(1, code, len(code), words.ctypes.data, 3,
                                            found.ctypes.data, 3, found.ctypes.data + 24, 3)
        self.assertEqual((verdict.rule, verdict.at, verdict.size), (0, 0, 4))
        self.assertEqual(found.tolist(), [[12, 4, 8], [4, 3, 4]])

    def test_code_that_has_no_room(self):
        out = numpy.full(16, 7, numpy.uint8)
        verdict = library.load().spmat_assemble(b'mov64 r0, r1\nexit\n', 18, out.ctypes.data, 15)
        self.assertEqual((verdict.rule, verdict.size, set(out.tolist())), (0, 16, {7}))

    def test_memory(self):
        """Where memory is refused the library says so, and nothing else happens."""
        child = subprocess.run([sys.executable, '-c', SHORT_OF_MEMORY], capture_output=True,
                               text=True, timeout=60, check=False,
                               env={**os.environ, 'PYTHONPATH': os.pathsep.join(sys.path)})
        self.assertEqual((child.returncode, child.stderr, child.stdout),
                         (0, '', 'no memory for the operator\n'))
