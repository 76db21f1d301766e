"""C of untrusted users: each trick by which clang would read a file leaks without the guard, and is
refused with it."""
import os
import pathlib
import subprocess
import tempfile
import time
import unittest
from unittest import mock

import support
import spmat
from spmat.operators import c as from_c

SECRET = 86753099                                  # eight bytes, as an instruction has
IDENTITY = 'int64_t f(int64_t x) { return x; }'

# Sources that read the file @SECRET@ (a number) or see whether it is there, if nothing guards: what
# follows is the least version of clang that knows the trick. The operator then has the number in
# its code, or the object file has it.
LEAKS = {
    '#include': ('int64_t f(int64_t x) { return\n#include "@SECRET@"\n; }', 14),
    '#include behind a comment': (
        'int64_t f(int64_t x) { return\n/* a */ # /* b */ include "@SECRET@"\n; }', 14),
    '#include over two lines': ('int64_t f(int64_t x) { return\n#inc\\\nlude "@SECRET@"\n; }', 14),
    '#include over two lines with a space': (
        'int64_t f(int64_t x) { return\n#inc\\ \nlude "@SECRET@"\n; }', 14),
    '#include over two lines of CR': (
        'int64_t f(int64_t x) { return\n#inc\\\r\nlude "@SECRET@"\n; }', 14),
    '#include after a carriage return': (
        'int64_t f(int64_t x) { return // a\r#include "@SECRET@"\r; }', 14),
    '#include by a digraph': ('int64_t f(int64_t x) { return\n%:include "@SECRET@"\n; }', 14),
    '#include of a macro': (
        '#define FILE "@SECRET@"\nint64_t f(int64_t x) { return\n#include FILE\n; }', 14),
    '#include_next': ('int64_t f(int64_t x) { return\n#include_next "@SECRET@"\n; }', 14),
    '#import': ('int64_t f(int64_t x) { return\n#import "@SECRET@"\n; }', 14),
    '#embed': ('int64_t f(int64_t x) { static const unsigned char s[] = {\n#embed "@SECRET@"\n}; '
               'return s[0] == 56 ? 86753099 : x; }', 19),
    '__has_include': (
        '#if __has_include("@SECRET@")\n#define Y 86753099\n#else\n#define Y 1\n#endif\n'
        'int64_t f(int64_t x) { return Y; }', 14),
    '__has_embed': ('#if __has_embed("@SECRET@")\n#define Y 86753099\n#else\n#define Y 1\n#endif\n'
                    'int64_t f(int64_t x) { return Y; }', 19),
    '.incbin of __asm__': ('__asm__(".incbin \\"@SECRET@\\"");\n' + IDENTITY, 14),
    '.incbin of asm': ('asm(".incbin \\"@SECRET@\\"");\n' + IDENTITY, 14),
    '.incbin of __asm': ('__asm(".incbin \\"@SECRET@\\"");\n' + IDENTITY, 14),
    '.incbin in a function': (
        'int64_t f(int64_t x) { __asm__ volatile(".incbin \\"@SECRET@\\""); return x; }', 14),
    '.incbin of a pasted name': ('#define A(x) __as##x\nA(m__)(".incbin \\"@SECRET@\\"");\n'
                                 + IDENTITY, 14),
}
# What is refused as well, though no clang with our flags reads a file for it.
REFUSED = {
    'a trigraph': '??=include "@SECRET@"\n' + IDENTITY,
    'a letter by its number': '\\u0061sm(".incbin \\"@SECRET@\\"");\n' + IDENTITY,
    'a pragma': '#pragma GCC dependency "@SECRET@"\n' + IDENTITY,
    'a pragma that only begins as unroll': '#pragma unroll 4 clang\n' + IDENTITY,
    'another pragma': '#pragma clang loop unroll(full)\n' + IDENTITY,
    '_Pragma': '_Pragma("GCC dependency \\"@SECRET@\\"")\n' + IDENTITY,
    '_Pragma without quotes': '_Pragma(unroll)\n' + IDENTITY,
    'a macro': '#define A 5\nint64_t f(int64_t x) { return x + A; }',
    'a line marker': '# 1 "@SECRET@"\nint64_t f(int64_t x) { return x +; }',
    '#line': '#line 7\n' + IDENTITY,
    'assembly': 'int64_t f(int64_t x) { __asm__ volatile(goto); return x; }',
    'a name by asm': 'int64_t f(int64_t x) asm(g);',
    '_asm': 'int64_t f(int64_t x) { _asm nop; return x; }',
    '__builtins that nobody knows': 'int64_t f(int64_t x) { return __has_feature(modules); }',
    'a string': 'int64_t f(int64_t x) { return "abc"[x & 1]; }',
    'a character': "int64_t f(int64_t x) { return x + 'a'; }",
    'a backslash in a comment': '// a \\\n' + IDENTITY,
    'a NUL': 'int64_t f(int64_t x) { return x;\0 }',
    'a form feed': '\f#include "@SECRET@"\n' + IDENTITY,
    'a name beside ASCII': 'int64_t f(int64_t x) { int64_t \u0430sm = x; return \u0430sm; }',
    'an @': '@import a;\n' + IDENTITY,
    'length': IDENTITY + ' ' * (1 << 16),
}
FINE = [
    IDENTITY, 'int64_t f(int64_t x) { return x > INT64_MAX - 5 ? INT64_MIN : x + UINT32_MAX; }',
    '/* a # comment */\nstatic inline __attribute__((always_inline)) int64_t g(int64_t x) { '
    'return x * x; }\n' 'int64_t f(int64_t x) { return g(x) + g(x + 1); // asm\n}',
    'int64_t f(uint64_t x) {\n    int64_t n = 0;\n    #pragma unroll\n    for (int k = 0; k < '
    '8; k++) n += x >> k & 1;\n' '    return n;\n}',
    'int64_t f(int64_t x) {\r\n    return x / 3 + x % 7; // a\r\n}',
    'int64_t f(uint64_t x) { return __builtin_popcountll(x); }',]


def compilers():
    """Every clang that is installed here, oldest first."""
    found = []
    for number in range(from_c.OLDEST, from_c.NEWEST + 1):
        try:
            found.append(from_c.find('clang-%d' % number))
        except spmat.CompileError:
            pass
    return found


class Guarded(unittest.TestCase):
    """The secret is a file of this test's own."""

    def setUp(self):
        folder = support.enter(self, tempfile.TemporaryDirectory())
        self.path = os.path.join(folder, 'secret')
        pathlib.Path(self.path).write_text(str(SECRET), 'ascii')
        self.compilers = compilers()
        if not self.compilers:
            self.skipTest('no clang-14 or above')

    def leaks(self, source, compiler):
        """Whether the secret comes out by a source that is compiled without the guard."""
        try:
            made = from_c.compile_source(source, compiler)
            if str(SECRET).encode() in made:
                return True
            code = from_c.operator_of(made, source).code
        except spmat.CompileError as fault:
            return str(SECRET) in str(fault)
        return SECRET.to_bytes(4, 'little') in code

    def test_each_trick(self):
        """It leaks without the guard, by each clang that knows it, and is refused with it before
        clang is asked."""
        for name, (source, least) in LEAKS.items():
            source = source.replace('@SECRET@', self.path)
            for compiler in self.compilers:
                with self.subTest(trick=name, clang=compiler.version):
                    if compiler.version >= least:
                        self.assertTrue(self.leaks(source, compiler))
                    with mock.patch.object(from_c, 'compile_source',
                                           side_effect=AssertionError('clang is asked')):
                        with self.assertRaisesRegex(spmat.CompileError,
                                                    'which untrusted C may not have') as got:
                            spmat.c(source, clang=compiler.path, untrusted=True)
                    self.assertNotIn(str(SECRET), str(got.exception))

    def test_what_else_is_refused(self):
        for name, source in REFUSED.items():
            with self.subTest(name), \
                    self.assertRaisesRegex(spmat.CompileError,
                                           r'line \d+ of the C has .*untrusted'):
                spmat.c(source.replace('@SECRET@', self.path), untrusted=True)

    def test_what_is_fine(self):
        """It becomes the operator that it is without the guard."""
        for source in FINE:
            for compiler in self.compilers:
                with self.subTest(source=source, clang=compiler.version):
                    self.assertEqual(spmat.c(source, clang=compiler.path, untrusted=True),
                                     spmat.c(source, clang=compiler.path))

    def test_lines_stay(self):
        source = '/* one\n two */\nint64_t f(int64_t x) {\n    return x +;\n}'
        with self.assertRaisesRegex(spmat.CompileError,
                                    'operator.c:4:15: error: expected expression'):
            spmat.c(source, untrusted=True)

    def test_an_error_in_a_file(self):
        """What clang says of an included file isn't shown, as it quotes the file."""
        pathlib.Path(self.path).write_text('root:x:0:0:%d:/bin/sh\n' % SECRET, 'ascii')
        with self.assertRaisesRegex(spmat.CompileError,
                                    r'secret:1:\d+: error: in an included file') as got:
            spmat.c('#include "%s"\n%s' % (self.path, IDENTITY))
        self.assertNotIn('root', str(got.exception))
        self.assertNotIn(str(SECRET), str(got.exception))


BOMB = ('int64_t f(uint64_t x) {\n    uint64_t n = 0;\n' + ''.join(
    '    #pragma unroll\n    for (int %s = 0; %s < 60; %s++)\n' % (k, k, k) for k in 'abc') +
        '    n = (n ^ a * x) * (b + n) + c;\n    return n;\n}')


class Limits(unittest.TestCase):
    def setUp(self):
        if not compilers():
            self.skipTest('no clang-14 or above')

    def ends(self, limits, words, **more):
        """The bomb ends clang, soon, in a CompileError, and no clang of ours is left."""
        name = 'UNTRUSTED' if more else 'TRUSTED'
        start = time.monotonic()
        with mock.patch.object(from_c, name, limits), \
                self.assertRaisesRegex(spmat.CompileError, words):
            spmat.c(BOMB, **more)
        self.assertLess(time.monotonic() - start, 60)
        left = subprocess.run(['ps', '-o', 'args=', '--ppid', str(os.getpid())],
                              stdout=subprocess.PIPE, universal_newlines=True, check=True).stdout
        self.assertNotIn('clang', left)

    def test_time(self):
        self.ends(from_c.Limits(seconds=2), 'clang took more than 2 seconds')
        self.ends(from_c.Limits(seconds=2, processor=60), 'clang took more than 2 seconds',
                  untrusted=True)

    def test_processor(self):
        self.ends(from_c.Limits(seconds=60, processor=1), 'clang refused it', untrusted=True)

    def test_memory(self):
        self.ends(from_c.Limits(seconds=60, processor=30, memory=150 << 10), 'clang refused it',
                  untrusted=True)

    def test_what_is_set(self):
        """The limits of a command are those that are asked for."""
        words = from_c.Limits(seconds=9, processor=7, memory=1 << 20, file=100).words()
        said = subprocess.run([*words, 'sh', '-c', 'ulimit -t; ulimit -v; ulimit -f'],
                              stdout=subprocess.PIPE, universal_newlines=True, check=True).stdout
        self.assertEqual(said.split(), ['7', str(1 << 20), '200'])
        self.assertEqual((from_c.UNTRUSTED.processor, from_c.UNTRUSTED.seconds,
                          from_c.TRUSTED.seconds), (10, 20, 300))
