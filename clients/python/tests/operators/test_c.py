"""Operators from C: ten functions whose code is kept beside their source, and all that is refused
before a server is asked.

`c/NAME.c` is a source, `c/NAME.hex` the code that clang 19 made of it. `PYTHONPATH=.. python3
test_c.py --write` makes the code anew.
"""
import os
import pathlib
import pickle
import random
import re
import shutil
import struct
import subprocess
import sys
import tempfile
import unittest
from unittest import mock

import support
import spmat
from model import signed
from ready_meanings import quotient
from spmat.operators import c as from_c

FOLDER = os.path.join(os.path.dirname(os.path.abspath(__file__)), 'c')
PAGE = os.path.join(support.TOP, 'docs', 'operators.md')
WORDS = 1 << 64


def gcd(x, y):
    x, y = x % WORDS, y % WORDS
    for _ in range(16):
        if y:
            x, y = y, x % y
    return x


def root(x):
    low, high = 0, 1 << 32
    while low + 1 < high:
        middle = (low + high) // 2
        low, high = (middle, high) if middle * middle <= x % WORDS else (low, middle)
    return low


def mix(x):
    x = (x + 0x9e3779b97f4a7c15) % WORDS
    x = (x ^ x >> 30) * 0xbf58476d1ce4e5b9 % WORDS
    x = (x ^ x >> 27) * 0x94d049bb133111eb % WORDS
    return x ^ x >> 31


def share(x, y):
    if y == 0:
        return 0
    size_x, size_y = signed(abs(x)), signed(abs(y))
    parts = quotient(signed(2000 * size_x + size_y), signed(2 * size_y))
    return parts if (x < 0) == (y < 0) else -parts


def packed(x, y):
    low = lambda word: (word & 0xffffffff) - (word & 0x80000000) * 2
    if x >> 32 != y >> 32:
        return x if x >> 32 < y >> 32 else y
    return x if low(x) < low(y) else y


def band(x, i, j, t):
    return x if abs(j - i) <= t else -1 if j < i else 1


MEANINGS = {
    'gcd': ('binary', gcd), 'bits': ('unary', lambda x: bin(x % WORDS).count('1')),
    'root': ('unary', root), 'mix': ('unary', mix),
    'saturated': ('binary', lambda x, y: max(-2 ** 63, min(2 ** 63 - 1, x + y))),
    'zeros': ('unary', lambda x: 64 - (x % WORDS).bit_length()), 'share': ('binary', share),
    'grade': ('unary', lambda x: {0: 17, 1: 4, 2: 99, 3: -5, 4: 1234567890123, 5: 8}.get(x, x)),
    'packed': ('binary', packed),
    'band': ('index', band),
}
EDGES = [0, 1, -1, 2, 3, 4, 5, 6, -2, 7, 10, 127, -128, 2 ** 31 - 1, 2 ** 31, -2 ** 31, 2 ** 32 + 3,
         2 ** 62, -2 ** 63, 2 ** 63 - 1]


def read(name):
    return pathlib.Path(os.path.join(FOLDER, name)).read_text('ascii')


def has_clang():
    try:
        return bool(from_c.find())
    except spmat.CompileError:
        return False


wants_clang = unittest.skipUnless(has_clang(), 'no clang of 14 or above')


class Values(support.InSession):
    """What the functions give, through the program."""
    @classmethod
    def setUpClass(cls):
        super().setUpClass()
        random_ = random.Random(3)
        word = lambda: random_.choice((random_.randrange(-2 ** 63, 2 ** 63),
                                       random_.randrange(-40, 40)))
        pairs = [(x, y) for x in EDGES for y in EDGES] + [(word(), word()) for _ in range(300)]
        cls.x, cls.y = zip(*pairs)
        size = len(pairs)
        cls.X, cls.Y = (cls.session.from_coo([0] * size, range(size), list(part), 1, size)
                        for part in (cls.x, cls.y))
        cls.cells = [(k // 20, k % 20, x) for k, x in enumerate(cls.x[:400])]
        cls.A = cls.session.from_triples(cls.cells, 20, 20)

    def look(self, name, op):
        kind, meaning = MEANINGS[name]
        self.assertEqual(op.kind, kind)
        if kind == 'unary':
            self.assertEqual(self.X.apply(op).to_list(), [signed(meaning(x)) for x in self.x], name)
        elif kind == 'binary':
            self.assertEqual(self.X.ewise_mult(self.Y, op).to_list(),
                             [signed(meaning(x, y)) for x, y in zip(self.x, self.y)], name)
            self.assertEqual(self.X.apply(op, right=7).to_list(),
                             [signed(meaning(x, 7)) for x in self.x], name)
        else:
            for t in (0, 3, -1, 100):
                want = [(i, j, signed(meaning(x, i, j, t))) for i, j, x in self.cells]
                self.assertEqual(self.A.apply(op, right=t).to_triples(), want)

    def test_kept_code(self):
        """The code that is kept, so that no clang is wanted."""
        self.assertEqual(sorted(os.listdir(FOLDER)),
                         sorted(name + end for name in MEANINGS for end in ('.c', '.hex')))
        for name, (kind, _) in MEANINGS.items():
            self.look(name, spmat.code(kind, read(name + '.hex'), name))

    @wants_clang
    def test_compiled_anew(self):
        for name in MEANINGS:
            op = spmat.c(read(name + '.c'))
            self.assertEqual(op.name, name)
            self.look(name, op)

    @wants_clang
    def test_one_of_several(self):
        """Named where there are several; those that it calls are part of it."""
        source = ('static inline int64_t sq(int64_t x) { return x * x; }\n'
                  'int64_t norm(int64_t x, int64_t y) { return sq(x) + sq(y); }\n')
        want = [signed(x * x + y * y) for x, y in zip(self.x, self.y)]
        self.assertEqual(self.X.ewise_mult(self.Y, spmat.c(source)).to_list(), want)
        more = source + 'uint64_t third(uint64_t x) { return x / 3; }\n'
        self.assertEqual(self.X.apply(spmat.c(more, 'third')).to_list(),
                         [signed(x % WORDS // 3) for x in self.x])
        self.assertEqual(spmat.c(more, name='norm').code, spmat.c(source).code)

    @unittest.skipUnless(shutil.which('clang-19') and shutil.which('llvm-objcopy-19')
                         and os.path.exists(PAGE), 'no clang-19')
    def test_by_shell(self):
        """The commands of docs/operators.md make an operator and show it; `spmat.c` makes the
        same."""
        with open(PAGE, encoding='utf-8') as file:
            _, script, shown = file.read().split('\n## Operators from C\n')[1].split('\n\n    ', 2)
        script, shown = ('\n'.join(line.strip() for line in text.split('\n\n')[0].split('\n'))
                         + '\n' for text in (script, shown))
        send = 'send() { printf \'%s %d\\n\' "$1" "$(wc -c < "$2")"; cat "$2"; echo; }\n'
        with tempfile.TemporaryDirectory() as folder:
            os.symlink(os.path.abspath(support.program()), os.path.join(folder, 'spmat'))
            path = {**os.environ, 'PATH': folder + os.pathsep + os.environ['PATH']}
            done = subprocess.run(['sh', '-c', send + script], cwd=folder, env=path,
                                  stdout=subprocess.PIPE, universal_newlines=True, timeout=100)
            self.assertEqual(done.stdout, shown)
        source = 'int64_t gap(int64_t x, int64_t y) { return x > y ? x - y : 0; }'
        self.assertEqual(self.session.dis(spmat.c(source)).strip(), shown.split('\n', 2)[2].strip())

    @wants_clang
    def test_types_by_another_name(self):
        """It is the type that counts, not how it is spelt; headers, macros and comments don't
        matter."""
        source = ('#include <stdint.h>\ntypedef long long word;\n#define LIKE(T) const T\n/* int '
                  'f(int x) { */\n'
                  'word f(LIKE(uint64_t) x, volatile int64_t y) { return x - y; }')
        op = spmat.c(source)
        self.assertEqual(op.kind, 'binary')
        self.assertEqual(self.X.ewise_mult(self.Y, op).to_list(),
                         [signed(x - y) for x, y in zip(self.x, self.y)])

    @wants_clang
    def test_refused_by_the_server(self):
        """It quotes the line of the C."""
        source = ('int64_t pick(int64_t x) {\n    int64_t a[4] = {x, x * 3, x - 9, x ^ 77};\n    '
                  'return a[x & 3];\n}')
        with self.assertRaises(spmat.OperatorRefused) as caught:
            self.X.apply(spmat.c(source))
        self.assertEqual(caught.exception.rule, 'V13')
        self.assertRegex(str(caught.exception), r'line 3 of the C: return a\[x & 3\];')

    @wants_clang
    def test_description(self):
        """Operators can be pickled and compared, and are uploaded once."""
        op, same = (spmat.c('int64_t same_twice(int64_t x) { return %s; }' % sum_)
                    for sum_ in ('x + 9', '9 + x'))
        self.assertEqual(op, same)
        copied = pickle.loads(pickle.dumps(op))
        self.assertEqual((op, op.name), (copied, copied.name))
        self.assertEqual(self.session.backend.upload(op), self.session.backend.upload(copied))


REFUSED = [
    ('int64_t a(int64_t x) { return x; }\nint64_t b(int64_t x) { return x; }',
     'which of the functions a, b'),
    ('static int64_t f(int64_t x) { return x; }', 'no function'),
    ('', 'no function'),
    ('int f(int64_t x) { return x; }',
     'the result of `f` is `int`, which has 32 bits; it has to be `int64_t`'),
    ('void f(int64_t x) { }', 'the result of `f` is void'),
    ('float f(float x) { return x; }', 'the result of `f` is a floating-point number'),
    ('int64_t f(int64_t x, short y) { return x; }',
     'parameter 2 of `f` is `short`, which has 16 bits'),
    ('int64_t f(_Bool x) { return x; }', 'parameter 1 of `f` is `_Bool`, which has 8 bits'),
    ('int64_t f(int64_t *x) { return *x; }', 'parameter 1 of `f` is a pointer'),
    ('enum e { A, B };\nint64_t f(enum e x) { return x; }',
     'parameter 1 of `f` is an enum of 32 bits'),
    ('int64_t f(void) { return 1; }', '0 parameters; an operator has 1'),
    ('int64_t f(int64_t x, int64_t y, int64_t z) { return x; }', '3 parameters; an operator has 1'),
    ('int64_t f(int64_t a, int64_t b, int64_t c, int64_t d, int64_t e) { return a; }',
     '5 parameters; an operator has 1'),
    ('int64_t f(int64_t a, int64_t b, int64_t c, int64_t d, int64_t e, int64_t g) { return a; }',
     '1, 2 or 4 parameters'),
    ('__int128 f(int64_t x) { return x; }', 'has to be one number of 64 bits'),
    ('struct s { long a; };\nstruct s f(int64_t x) { struct s r = {x}; return r; }',
     'has to be one number of 64 bits'),
    ('int64_t f(int64_t x) {\n    return x\n}', "operator.c:2:13: error: expected ';'"),
    ('int64_t f(int64_t x) { return g(x); }', 'define the function above it'),
    ('extern int64_t g(int64_t);\nint64_t f(int64_t x) {\n    return 5 + g(x);\n}',
     r'line 3 of the C: return 5 \+ g\(x\);\), to `g`'),
    ('static __attribute__((noinline)) int64_t g(int64_t x) { return x * x + 3; }\n'
     'int64_t f(int64_t x) { return 5 + g(x) + g(x + 1); }', 'calls a function.*always_inline'),
    ('static int64_t n;\nint64_t f(int64_t x) { return n += x; }', 'to a variable'),
    ('int64_t n;\nint64_t f(int64_t x) { return n += x; }', 'to `n`'),
    ('static const int64_t t[] = {3, 1, 4, 1, 5, 9, 2, 6};\nint64_t f(int64_t x) { return '
     't[x & 7]; }', 'to a table'),
    ('int64_t f(int64_t x) { return x * 1.5; }', 'fixed point'),
    ('int64_t f(uint64_t x, uint64_t y) { return ((unsigned __int128)x * y) >> 64; }', '128-bit'),
    ('int64_t f(int64_t x) {\n    int64_t s = 0;\n    for (int64_t i = 0; i < x; i++) s += i '
     '* i;\n    return s;\n}',
     'a loop that it adds up by a formula: give the loop a constant count'),
    ('int64_t f(uint64_t x, uint64_t y) {\n    while (y) {\n        uint64_t t = x % y; x = '
     'y; y = t;\n    }\n    return x;\n}',
     r'a loop that was left \(line 2 of the C: while \(y\) \{\).*#pragma unroll'),
    ('int64_t f(int64_t x) { if (x) return 1; }',
     'end each way through the function with `return`'),
    ('int64_t f(int64_t x) { int64_t y; return x + y; }', 'uninitialized'),
    ('int64_t f(int64_t x) { return x / 0; }', 'division by zero'),
    ('int64_t f(int64_t x) { return x << 64; }', 'shift count'),
    ('int64_t f(int64_t x) { volatile int64_t a[100]; a[x & 63] = x; return a[3]; }',
     '512 bytes of stack'),
    ('int64_t f(int64_t x) { int64_t a[x]; a[0] = 1; return a[x - 1]; }', 'has to be a constant'),
    ('#include <stdio.h>\nint64_t f(int64_t x) { return x; }', 'error'),]


class Refusals(unittest.TestCase):
    @wants_clang
    def test_words(self):
        for source, words in REFUSED:
            with self.subTest(source=source):
                with self.assertRaisesRegex(spmat.CompileError, '(?s)' + words) as caught:
                    spmat.c(source)
                self.assertNotRegex(str(caught.exception), 'PLEASE|Stack dump|/tmp')

    @wants_clang
    def test_lines_of_sections(self):
        """Each section counts its bytes from 0."""
        loop = '{ int64_t y = x;\n\n  while (x++ < 9) y *= y + x;\n  return y; }\n'
        source = ('int64_t f(int64_t x) %s__attribute__((section("op"))) int64_t g(int64_t x) %s'
                  % (loop, loop))
        for name, line in (('f', 3), ('g', 7)):
            with self.subTest(name), self.assertRaisesRegex(
                    spmat.CompileError, r'left \(line %d of the C: while' % line):
                spmat.c(source, name=name)

    @wants_clang
    def test_a_name_that_is_not_there(self):
        with self.assertRaisesRegex(spmat.CompileError, 'no function `g` was compiled, but f'):
            spmat.c('int64_t f(int64_t x) { return x; }', name='g')

    def stand_in(self, folder, said):
        path = os.path.join(folder, 'clang-stand-in')
        pathlib.Path(path).write_text('#!/bin/sh\n%s\n' % said)
        os.chmod(path, 0o755)
        return path

    def test_compilers(self):
        """No clang, an old one, another program, and one without a BPF target."""
        source = 'int64_t f(int64_t x) { return x; }'
        with self.assertRaisesRegex(spmat.CompileError,
                                    'no program clang-of-nobody.*clang 14 or above'):
            spmat.c(source, clang='clang-of-nobody')
        with tempfile.TemporaryDirectory() as folder:
            new = 'test "$1" = --version && echo clang version 19.1.7 && exit; '
            for said, words in (('echo Debian clang version 13.0.1',
                                 'is clang 13: .*clang 14 or above'),
                                ('echo gcc 12.2.0', 'does not say that it is clang'),
                                ('echo Apple clang version 17.0.0', 'no BPF target'),
                                (new + 'echo "error: unable to create target: No available targets '
                                 'are compatible" >&2; exit 1', 'this clang has no BPF target'),
                                (new + 'while test "$1" != -o; do shift; done; echo > "$2"',
                                 "what clang made can't be read")):
                with self.assertRaisesRegex(spmat.CompileError, '(?s)' + words):
                    spmat.c(source, clang=self.stand_in(folder, said))

    @wants_clang
    def test_broken_object_files(self):
        """Front parts of an object file, and ones with other bytes and bits, are an operator or end
        in CompileError alone."""
        source = read('gcd.c')
        data = from_c.compile_source(source, from_c.find())
        self.assertEqual(from_c.operator_of(data, source).kind, 'binary')
        dice, refused = random.Random(5), 0
        for number in range(600):
            broken = bytearray(data[:dice.randrange(len(data))] if number % 6 == 0 else data)
            for _ in range(dice.randrange(1, 4) if number % 6 else 0):
                at = dice.randrange(len(data)) if number % 2 else dice.choice(self.heads(data))
                broken[at] = dice.choice((broken[at] ^ 1 << dice.randrange(8), dice.randrange(256),
                                          0, 255))
            try:
                from_c.operator_of(bytes(broken), source)
            except spmat.CompileError:
                refused += 1
        self.assertGreater(refused, 100)

    def heads(self, data):
        """Bytes of the file's head, of those of its sections, and of the symbols, where a change
        matters most."""
        start, = struct.unpack_from('<Q', data, 40)
        size, count = struct.unpack_from('<HH', data, 58)
        tables = [struct.unpack_from('<IIQQQQ', data, start + size * number)
                  for number in range(count)]
        found = [*range(64), *range(start, start + size * count)]
        for _, kind, _, _, offset, length in tables:
            found += (range(offset, offset + length) if kind in (2, 9)
                      else range(offset, offset + min(length, 24)))
        return found

    @wants_clang
    def test_sizes_of_code_that_are_cut(self):
        """A function whose size is no number of slots, or beyond its section."""
        source = 'int64_t f(int64_t x) { return x + 1; }'
        data = from_c.compile_source(source, from_c.find())
        code = from_c.operator_of(data, source).code
        # of a global function's symbol: 0x12 0, its section, its place (0), its size
        found = re.search(rb'\x12\x00..\x00{8}' + re.escape(struct.pack('<Q', len(code))), data,
                          re.S)
        for size in (len(code) - 3, len(code) + 4096, 1 << 62):
            with self.subTest(size=size), \
                    self.assertRaisesRegex(spmat.CompileError, 'the code of `f` is cut off'):
                from_c.operator_of(data[:found.end() - 8] + struct.pack('<Q', size)
                                   + data[found.end():], source)

    def test_without_pyelftools(self):
        with mock.patch.dict(sys.modules,
                             {'elftools': None, 'elftools.elf': None,
                              'elftools.elf.elffile': None}):
            with self.assertRaisesRegex(ImportError,
                                        r'an operator in C needs elftools \(extra c\): pip '
                                        r'install pyelftools'):
                from_c.operator_of(b'', 'int64_t f(int64_t x) { return x; }')


def write():
    for name in MEANINGS:
        digits = spmat.c(read(name + '.c')).code.hex()
        with open(os.path.join(FOLDER, name + '.hex'), 'w', encoding='ascii') as file:
            file.write(''.join(digits[at:at + 128] + '\n' for at in range(0, len(digits), 128)))
        print(name, len(digits) // 16)


if __name__ == '__main__' and sys.argv[1:] == ['--write']:
    write()
