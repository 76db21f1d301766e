"""Operators from C: clang compiles a function for BPF, and its code is cut out of the object file.

What an operator can't be is refused here, in words, before a server sees it: see `c`.
"""
from __future__ import annotations

import io
import os
import re
import shutil
import signal
import struct
import subprocess
import tempfile
from dataclasses import dataclass, field
from typing import Any, Dict, Iterator, List, Match, NamedTuple, Optional, Tuple

from ..errors import CompileError
from ..extras import import_extra
from . import Operator

KINDS = {1: 'unary', 2: 'binary', 4: 'index'}
CALL = 0x85                                        # the opcode
LONGEST_UNTRUSTED = 1 << 16                        # characters
# Names with two underscores at the front that an untrusted user's function may use: of each other
# one nobody knows what the next clang makes of it.
UNDERSCORED = re.compile(r'__attribute(__)?|__inline(__)?|__int128|__builtin_\w+|__always_inline__')
UNROLL = re.compile(r'\s*#\s*pragma\s+unroll\s*(\(?\s*\d+\s*\)?)?\s*')
FORBIDDEN = re.compile(r'_*asm_*|_Pragma')
NO_TABLE = ('`%s` reaches outside itself%s, to %s',
            'a table or constant in memory: write it as code (a `switch`, or arithmetic)',
            'a variable: nothing is kept from call to call',
            '`%s`: operators call no function and share no variable; `static inline` makes a '
            'function part of them')
CALLS = '`%s` calls a function%s: make that one `static inline __attribute__((always_inline))`'
LOOPS = ('`%s` has a loop that was left%s: operators have no loops. Give `for` a constant count '
         'and `#pragma unroll`, and no `break`')


@dataclass(frozen=True, repr=False)
class FromC(Operator):
    """An operator from C. It knows the line of the source that each slot comes from, for refusals
    by a server. `places` has slots, and the line from there on."""
    source: Tuple[str, ...] = field(default=(), compare=False, repr=False)
    places: Tuple[Tuple[int, int], ...] = field(default=(), compare=False, repr=False)

    def line_of(self, slot: int) -> str:
        """The line that a slot comes from, with its number, empty where it isn't known."""
        number = next((line for at, line in reversed(self.places) if at <= slot), 0)
        quoted = self.source[number - 1].strip() if 0 < number <= len(self.source) else ''
        return 'line %d of the C: %s' % (number, quoted) if quoted else ''

    def line_at(self, rule: str, at: int) -> str:
        return (self.line_of(at) if rule.startswith('V') else '') or super().line_at(rule, at)

    def origin(self) -> Tuple[str, str]:
        return 'C', '\n'.join(self.source)

    def where(self, slot: int) -> str:
        """The line that a slot comes from, in brackets."""
        return ' (%s)' % self.line_of(slot) if self.line_of(slot) else ''


def c(source: str, name: Optional[str] = None, *, clang: Optional[str] = None,
      untrusted: bool = False) -> Operator:
    """Make an operator of a function in C, by clang 14 or above.

    Parameters
    ----------
    source : str
        A function whose operands and result are `int64_t` or `uint64_t` (both are there without an
        `#include`). One of one parameter is a unary operator, of two a binary one, of four (x, row,
        column, thunk) an index operator. Functions that it calls are `static inline`.
    name : str, optional
        Which function is meant, where the source has several.
    clang : str, optional
        The compiler. By default it is what the variable SPMAT_CLANG names, or the newest clang on
        the PATH.
    untrusted : bool, default False
        Whether an untrusted user wrote the source. Then it may have no directive but `#pragma
        unroll`, so no macro and no include, and no assembly, no quotes and no backslash. So clang
        reads no other file. It has 10 seconds of a processor, 20 in all, and 4 GiB of memory.

    Returns
    -------
    Operator
        It belongs to no session, and can be pickled.

    Raises
    ------
    CompileError
        Before a server is asked. There is no clang, an old one, or one without a BPF target, or
        clang refuses the text. There are several functions and no name. A result or a parameter has
        not 64 bits, or there is another number of parameters. There is a call, a global variable, a
        table, or a loop that was left.
    ImportError
        If pyelftools is missing (extra `c`).

    See Also
    --------
    asm : From assembly text.
    unary : From a Python function.

    Notes
    -----
    Sums, differences and products wrap. Division by 0 and a shift of 64 or more are
    undefined in C, so ask first: `y ? x / y : 0`. A loop needs a constant count, `#pragma unroll`
    before it, and no `break`. A server may refuse the rest, as OperatorRefused: an array that is
    indexed by a variable (V13), a stack byte that isn't set (V16).

    Without `untrusted`, compiling means that clang reads what the source includes, as you may:
    don't compile an untrusted user's source so. (The code that comes out can only compute, whoever
    wrote it.)

    Examples
    --------
    >>> import spmat
    >>> gap = "int64_t gap(int64_t x, int64_t y) { return x > y ? x - y : 0; }"
    >>> spmat.c(gap)                                # doctest: +SKIP
    <binary operator gap>
    """
    if not isinstance(source, str):
        more = (' (spmat.unary, binary and indexunary take operators written in Python)'
                if callable(source) else '')
        raise TypeError('expected the text of a function in C, got %s%s' % (
            type(source).__name__, more))
    compiler = find(clang)
    text = without_tricks(source) if untrusted else source
    return operator_of(compile_source(text, compiler, trusted=not untrusted), source, name)


# -- C of untrusted users

def without_tricks(source: str) -> str:
    """The source without comments. CompileError where it has what could make clang read a file: any
    directive but `#pragma unroll`, assembly, or a name of clang's own that isn't known as harmless.

    No backslash, no trigraph and no digraph is left before comments are taken off. So lines are
    lines and tokens are tokens (phases 1 and 2 of a translation have nothing to do). No quote is,
    so a comment is a comment (phase 3)."""
    source = source.replace('\r\n', '\n')
    if len(source) > LONGEST_UNTRUSTED:
        raise _untrusted(1, 'more than %d characters' % LONGEST_UNTRUSTED)
    for pattern, what in (('\\\\', 'a backslash'), (r'\?\?', '`??`, a trigraph'),
                          ('%:', '`%:`, which means #'), ('["\']', 'a quote'),
                          (r'[^\n\t -~]', 'a character beside printable ASCII'),
                          ('[@$`]', 'a sign that C has no use for')):
        found = re.search(pattern, source)
        if found:
            raise _untrusted(1 + source.count('\n', 0, found.start()), what)
    code = re.sub(r'//[^\n]*|/\*.*?\*/', lambda comment: ' ' + '\n' * comment.group().count('\n'),
                  source, flags=re.S)
    for number, line in enumerate(code.split('\n'), 1):
        if '#' in line and not UNROLL.fullmatch(line):
            raise _untrusted(number, 'a directive that is not `#pragma unroll`')
        for word in re.findall(r'[A-Za-z_]\w*', line):
            if FORBIDDEN.fullmatch(word) or word[:2] == '__' and not UNDERSCORED.fullmatch(word):
                raise _untrusted(number, '`%s`' % word)
    return code


def _untrusted(line: int, what: str) -> CompileError:
    return CompileError('line %d of the C has %s, which untrusted C may not have: functions of '
                        'whole numbers, without directives, macros, quotes, assembly and '
                        'backslashes' % (line, what))


# -- the function in the object file

def operator_of(made: bytes, source: str, name: Optional[str] = None) -> Operator:
    """The operator of a function in the object file that clang made of a source. CompileError where
    it can't be one."""
    try:
        object_file = ObjectFile(made)
    except Malformed as fault:
        raise CompileError("what clang made can't be read: %s" % fault) from None
    function = _choose(object_file, name)
    kind = _kind(function.name, object_file)
    end = function.start + len(function.code)
    lines = object_file.lines.get(function.section, [])
    places = tuple(((at - function.start) // 8, line) for at, line in lines
                   if function.start <= at < end)
    operator = FromC(kind, code=function.code, name=function.name,
                     source=tuple(source.split('\n')), places=places)
    _check_code(operator, function.outside)
    return operator


def _choose(object_file: ObjectFile, name: Optional[str]) -> Function:
    """The function that is meant: the one of that name, or the only one that isn't static."""
    functions = object_file.functions
    if name is not None:
        if name not in functions:
            raise CompileError('no function `%s` was compiled%s; is it `static`, or misspelt?' % (
                name, ', but ' + ', '.join(sorted(functions)) if functions else ''))
        return functions[name]
    seen = sorted(function.name for function in functions.values() if function.seen)
    if not seen:
        raise CompileError("the source has no function (a `static` one is nobody's operator)")
    if len(seen) > 1:
        raise CompileError('which of the functions %s is the operator? Give name=, or make the '
                           'others `static inline`' % ', '.join(seen))
    return functions[seen[0]]


def _kind(function: str, object_file: ObjectFile) -> str:
    """The kind of operator that a function's types make it."""
    if function not in object_file.types:
        raise CompileError('clang said nothing of the types of `%s`: is it written in C?' %
                           function)
    result, *parameters = object_file.types[function]
    if result:
        raise CompileError('the result of `%s` is %s; it has to be `int64_t` or `uint64_t`' % (
            function, result))
    for number, fault in enumerate(parameters, 1):
        if fault:
            raise CompileError('parameter %d of `%s` is %s; each has to be `int64_t` or '
                               '`uint64_t`' % (number, function, fault))
    if len(parameters) not in KINDS:
        raise CompileError('`%s` has %d parameters; an operator has 1 (x), 2 (x, y) or 4 (x, row, '
                           'column, thunk)' % (function, len(parameters)))
    return KINDS[len(parameters)]


def _check_code(operator: FromC, outside: List[Tuple[int, str]]) -> None:
    """Refuses what reaches outside, calls, and loops."""
    name = operator.name
    for place, symbol in outside:
        text, table, variable, other = NO_TABLE
        what = (table if symbol.startswith('.rodata') else variable if symbol.startswith('.') else
                other % symbol)
        raise CompileError(text % (name, operator.where(place // 8), what))
    slots = list(struct.iter_unpack('<BBhi', operator.code or b''))
    at = 0
    while at < len(slots):
        opcode, _, offset, immediate = slots[at]
        if opcode == CALL:
            raise CompileError(CALLS % (name, operator.where(at)))
        is_jump = opcode & 7 in (5, 6) and opcode != 0x95
        jump = immediate if opcode == 0x06 else offset if is_jump else 0
        if jump < 0:
            raise CompileError(LOOPS % (name, operator.where(at + 1 + jump)))
        at += 2 if opcode == 0x18 else 1


# -- clang for BPF: finding one, and running it within limits

OLDEST, NEWEST = 14, 29
SIGNED = 18                                        # from this clang on its code divides with signs
ROUNDS = 3                                         # in which an older one's text is lowered
MOST_SAID = 1 << 16                                # of what clang says, as characters
STDINT = """
typedef signed char int8_t; typedef short int16_t; typedef int int32_t; typedef long int64_t;
typedef unsigned char uint8_t; typedef unsigned short uint16_t; typedef unsigned uint32_t;
typedef unsigned long uint64_t;
#define INT64_MAX 9223372036854775807L
#define INT64_MIN (-INT64_MAX - 1)
#define UINT64_MAX 18446744073709551615UL
#define INT32_MAX 2147483647
#define INT32_MIN (-INT32_MAX - 1)
#define UINT32_MAX 4294967295U
"""
# What C leaves undefined and clang would compile into something is an error; so is a function that
# nobody declared.
ERRORS = ('return-type', 'uninitialized', 'sometimes-uninitialized', 'division-by-zero',
          'shift-count-overflow', 'shift-count-negative', 'array-bounds',
          'implicit-function-declaration')
FLAGS = ['--target=bpfel', '-O2', '-gdwarf-4', '-ffreestanding', '-fno-jump-tables', '-fwrapv',
         '-fno-crash-diagnostics', '-fno-color-diagnostics', '-Wno-everything',
         *('-Werror=' + name for name in ERRORS)]
GET = ('On Debian: apt-get install clang-19. The variable SPMAT_CLANG names one that is not on the '
       'PATH.')
HINTS = (
    ("built-in function '__(mul|div|mod|udiv|umod)ti",
     '128-bit numbers have no code here: split the words, or use 64 bits. clang makes one of a '
     'loop that it adds up by a formula: give the loop a constant count'),
    ('unable to allocate function return|only small returns|aggregate returns|StructRet',
     'the result has to be one number of 64 bits'),
    ("built-in function '__",
     'floating point has no code here: scale to whole numbers (fixed point)'),
    ('stack arguments are not supported|too many arg', 'an operator has 1, 2 or 4 parameters'),
    ('stack limit( of [0-9]+ bytes)? is exceeded',
     'an operator has 512 bytes of stack: no larger arrays'),
    ('file not found', 'there is no C library for operators, so no <stdlib.h> and the like: '
     '<stdint.h>, <stddef.h>, <stdbool.h> and <limits.h> are there'),
    ('dynamic stack allocation', 'the size of an array has to be a constant'),
    ('implicit-function-declaration', 'an operator calls nothing outside itself: define the '
     'function above it, `static inline`'),
    ('-Wreturn-type', 'end each way through the function with `return`'),
    ('No available targets|[Uu]nknown target|unable to create target',
     'this clang has no BPF target. ' + GET),
)


class Compiler(NamedTuple):
    """A clang: its path, and the first number of its version."""
    path: str
    version: int


class Limits(NamedTuple):
    """What a run of clang may take: seconds in all; seconds of a processor, KiB of memory and KiB
    of a file where they are limited."""
    seconds: int
    processor: Optional[int] = None
    memory: Optional[int] = None
    file: Optional[int] = None

    def words(self) -> List[str]:
        """The words before a command that set the limits, for it and all that it starts."""
        given = {'t': self.processor, 'v': self.memory, 'f': self.file and 2 * self.file}
        shell = ''.join('ulimit -%s %s && ' % each for each in given.items() if each[1])
        return ['/bin/sh', '-c', shell + 'exec "$@"', 'sh']


TRUSTED = Limits(seconds=300)
UNTRUSTED = Limits(seconds=20, processor=10, memory=4 << 20, file=32 << 10)


def find(path: Optional[str] = None) -> Compiler:
    """The clang that is used: `path`, or the variable SPMAT_CLANG, or the newest `clang-NN` on the
    PATH, or `clang`. CompileError where there is none, or one older than 14."""
    given = path or os.environ.get('SPMAT_CLANG')
    numbered = ['clang-%d' % number for number in range(NEWEST, OLDEST - 1, -1)]
    for name in [given] if given else numbered + ['clang']:
        found = shutil.which(name)
        if found:
            version = _version(found)
            if version < OLDEST:
                raise CompileError('%s is clang %d: operators from C want clang %d or above. %s' % (
                    found, version, OLDEST, GET))
            return Compiler(found, version)
    raise CompileError('%s: operators from C want clang %d or above. %s' % (
        'no program %s' % given if given else 'no clang on the PATH', OLDEST, GET))


def _version(path: str) -> int:
    said = subprocess.run([path, '--version'], stdout=subprocess.PIPE, stderr=subprocess.STDOUT,
                          universal_newlines=True, check=False).stdout
    numbers = re.search(r'clang version (\d+)', said)
    if not numbers:
        raise CompileError('%s does not say that it is clang: %.100r' % (path, said))
    if said.startswith('Apple'):
        raise CompileError('%s is clang of Apple, which has no BPF target: take one of LLVM (brew '
                           'install llvm)' % path)
    return int(numbers.group(1))


# -- running it

class Run:
    """The runs of clang that make one object file, in a folder of their own. Without `trusted` it
    looks for no header anywhere, hears of no variable of the environment, and the limits are tight.
    Which directives the source has is `c.without_tricks`' matter."""

    def __init__(self, compiler: Compiler, trusted: bool, folder: str) -> None:
        self.compiler, self.trusted, self.folder = compiler, trusted, folder
        self.limits = TRUSTED if trusted else UNTRUSTED
        bare = {'PATH': os.defpath, 'LC_ALL': 'C', 'TMPDIR': folder}
        self.environment = None if trusted else bare

    def clang(self, words: List[str], name: str) -> str:
        """Runs clang, which makes a file of this name in the folder; its path."""
        made, said = os.path.join(self.folder, name), os.path.join(self.folder, 'said')
        command = [self.compiler.path] + FLAGS + words + ['-o', made]
        with open(said, 'w', encoding='utf-8') as file:
            with subprocess.Popen(self.limits.words() + command, stdin=subprocess.DEVNULL,
                                  stdout=subprocess.DEVNULL, stderr=file, start_new_session=True,
                                  env=self.environment) as process:
                status = _wait(process, self.limits.seconds)
        if status:
            with open(said, encoding='utf-8', errors='replace') as file:
                raise CompileError(_describe(file.read(MOST_SAID), status))
        return made


def _wait(process: 'subprocess.Popen[bytes]', seconds: int) -> int:
    """The status with which a process ends, which is killed with all that it started when its time
    is over."""
    try:
        return process.wait(seconds)
    except subprocess.TimeoutExpired:
        raise CompileError('clang took more than %d seconds, and was ended: has the function fewer '
                           'loops to unroll, with smaller counts?' % seconds) from None
    finally:
        if process.returncode is None:
            os.killpg(process.pid, signal.SIGKILL)


def compile_source(source: str, compiler: Compiler, trusted: bool = True) -> bytes:
    """The object file of a source. CompileError with clang's own words, and a hint where one is
    known."""
    with tempfile.TemporaryDirectory(prefix='spmat-c-') as folder:
        run = Run(compiler, trusted, folder)
        path = os.path.join(folder, 'operator.c')
        with open(path, 'w', encoding='utf-8') as file:
            # types and numbers of <stdint.h>, and for an older clang functions by which it divides
            file.write(STDINT + ('' if compiler.version >= SIGNED else HELPERS)
                       + '#line 1 "operator.c"\n' + source + '\n')
        words = [path] if trusted else ['-nostdinc', path]
        if compiler.version >= SIGNED:
            made = run.clang(['-mcpu=v4', '-c', *words], 'operator.o')
        else:
            made = _without_signs(run, words)
        with open(made, 'rb') as object_file:
            return object_file.read()


def _describe(said: str, status: int) -> str:
    """What clang said, without what helps nobody, and what to do about it. What it says of an
    included file is left out, as it quotes that file."""
    kept: List[str] = []
    wanted = False
    for line in said.split('\n'):
        place = re.match(r'(.*?:\d+:\d+): (fatal )?(error|warning|note|remark):', line)
        if place and not place.group(1).startswith('operator.c:'):
            wanted, line = False, '%s: error: in an included file' % place.group(1)
            kept += [line] if place.group(3) == 'error' and line not in kept else []
        elif place or re.match(r'.*\b(error|warning|note|remark):', line) or line.startswith(
                ('PLEASE', 'Stack dump', 'clang')):
            wanted = 'error:' in line and not line.startswith('clang') and line not in kept
        elif re.match(r'\d+ (error|warning)s? generated|In file included', line):
            wanted = False
        if wanted and line.strip():
            kept.append(line.replace('fatal error: error in backend: ', 'error: '))
    said = re.sub('.*Program arguments:.*', '', said)      # they name our own flags
    hints = [hint for pattern, hint in HINTS if re.search(pattern, said)]
    if not kept:
        kept = ['it ended with status %d, without an error; if it was given too little memory or '
                'time, the function has too many loops to unroll' % status]
    return 'clang refused it:\n' + '\n'.join(kept[:12]) + ('\n' + hints[0] if hints else '')


# -- what clang 14 to 17 has no code for

# Read before the operator's source. They have no lines of their own, so that a refusal names the
# line that divides.
HELPERS = r'''
#define SPMAT_PART static inline __attribute__((always_inline, used, nodebug))
SPMAT_PART unsigned long spmat_size(long x) {
    return x < 0 ? 0 - (unsigned long)x : (unsigned long)x;
}
SPMAT_PART long spmat_sdiv(long x, long y) {
    unsigned long size = spmat_size(x) / spmat_size(y);
    return (long)((x < 0) != (y < 0) ? 0 - size : size);
}
SPMAT_PART long spmat_srem(long x, long y) {
    unsigned long size = spmat_size(x) % spmat_size(y);
    return (long)(x < 0 ? 0 - size : size);
}
SPMAT_PART long spmat_count(unsigned long x) {
    x -= (x >> 1) & 0x5555555555555555UL;
    x = (x & 0x3333333333333333UL) + ((x >> 2) & 0x3333333333333333UL);
    return (long)(((x + (x >> 4)) & 0x0f0f0f0f0f0f0f0fUL) * 0x0101010101010101UL >> 56);
}
SPMAT_PART long spmat_ctlz(unsigned long x) {
    x |= x >> 1; x |= x >> 2; x |= x >> 4; x |= x >> 8; x |= x >> 16; x |= x >> 32;
    return 64 - spmat_count(x);
}
SPMAT_PART long spmat_cttz(unsigned long x) { return spmat_count(~x & (x - 1)); }
'''
DIVISION = re.compile(
    r'^  (%[\w.]+) = (sdiv|srem)(?: exact)? i(\d+) ([^,\n]+), ([^,\n]+)(.*)$', re.M)
ZEROS = re.compile(
    r'^  (%[\w.]+) = (?:tail )?call (?:range\([^)]*\) )?i(\d+) @llvm\.(ctlz|cttz)\.i\d+'
    r'\(i\d+ (?:noundef )?([^,\n]+), i1 \w+\)(.*)$', re.M)
# The functions themselves, once they are where they were called, and the list that kept them: BPF
# code of a function without lines ends clang.
PARTS = re.compile(r'^define internal [^\n]*@spmat_\w+\(.*?^}\n|'
                   r'^@llvm\.(compiler\.)?used = [^\n]*@spmat_[^\n]*\n', re.M | re.S)
DEBUG = re.compile(r', !dbg (!\d+)')
LINE = re.compile(r'^(!\d+) = (?:distinct )?!DILocation\(line: (\d+)', re.M)
LACKING = {'sdiv': 'a signed division', 'srem': 'a signed remainder',
           'ctlz': 'a count of leading zeros', 'cttz': 'a count of trailing zeros'}


def _without_signs(run: Run, source: List[str]) -> str:
    """The object file that an older clang makes: its optimised text is lowered until all of it has
    code."""
    words = source
    for turn in range(ROUNDS):
        path = run.clang(['-mcpu=v3', '-S', '-emit-llvm', *words], 'operator.%d.ll' % turn)
        with open(path, encoding='utf-8') as file:
            text = file.read()
        if not (DIVISION.search(text) or ZEROS.search(text)):
            break
        words = [path]
        with open(path, 'w', encoding='utf-8') as file:
            file.write(lower(text))
    check_lowered(text, run.compiler.version)
    with open(path, 'w', encoding='utf-8') as file:
        file.write(PARTS.sub('', text))
    return run.clang(['-mcpu=v3', '-Xclang', '-disable-llvm-passes', '-c', path], 'operator.o')


def lower(text: str) -> str:
    """The text with calls of the functions where it has what older clangs have no code for."""
    return ZEROS.sub(_count_zeros, DIVISION.sub(_divide, text))


def check_lowered(text: str, version: int) -> None:
    """CompileError where a text still has such an instruction, as one of several words at once,
    which isn't looked for elsewhere."""
    for number, line in enumerate(text.split('\n')):
        found = re.search(r'= (sdiv|srem) |@llvm\.(ctlz|cttz)\.', line)
        if found and number and not line.startswith('declare'):
            debug = DEBUG.search(line)
            lines: Dict[str, str] = dict(LINE.findall(text))
            of = lines.get(debug.group(1)) if debug else None
            what = LACKING[found.group(1) or found.group(2)]
            raise CompileError('clang %d has no code for %s%s: write it otherwise, or take clang '
                               '%d or above. %s' % (version, what, ' (line %s)' % of if of else '',
                                                    SIGNED, GET))


def _join_instructions(instructions: List[str], rest: str) -> str:
    """The lines of instructions that take the place of one, from which `rest` tells where it comes
    from."""
    debug = DEBUG.search(rest)
    return '\n'.join('  %s%s' % (each, debug.group(0) if debug else '') for each in instructions)


def _resize(name: str, how: str, word: str, width: str, to: str) -> str:
    """What makes a word of another number of bits, or of as many."""
    return '%s = %s i%s %s to i%s' % (name, how if width != to else 'bitcast', width, word, to)


def _list_parts(name: str) -> Tuple[str, str, str]:
    """Names beside that of a result, of what it is made of."""
    x, y, made = ('%%"spmat.%s.%s"' % (name[1:], part) for part in ('x', 'y', 'made'))
    return x, y, made


def _divide(found: Match[str]) -> str:
    name, what, width, first, second, rest = found.groups()
    x, y, made = _list_parts(name)
    return _join_instructions([
        _resize(x, 'sext', first, width, '64'), _resize(y, 'sext', second, width, '64'),
        '%s = call i64 @spmat_%s(i64 %s, i64 %s)' % (made, what, x, y),
        _resize(name, 'trunc', made, '64', width)], rest)


def _count_zeros(found: Match[str]) -> str:
    """Of a word of fewer bits those before it are taken off, or a bit above them ends the count."""
    name, width, what, word, rest = found.groups()
    x, y, made = _list_parts(name)
    end = 1 << int(width) if what == 'cttz' and width != '64' else 0
    before = 64 - int(width) if what == 'ctlz' else 0
    counted = made[:-1] + '.all"'
    return _join_instructions([
        _resize(x, 'zext', word, width, '64'), '%s = or i64 %s, %d' % (y, x, end),
        '%s = call i64 @spmat_%s(i64 %s)' % (counted, what, y),
        '%s = sub i64 %s, %d' % (made, counted, before),
        _resize(name, 'trunc', made, '64', width)], rest)


# -- object files of clang's BPF target

PASSED_OVER = ('DW_TAG_typedef', 'DW_TAG_const_type', 'DW_TAG_volatile_type',
               'DW_TAG_restrict_type', 'DW_TAG_atomic_type')
MOST_NAMES = 64                                    # of one type: a broken file goes in a circle
INTEGERS = (2, 5, 6, 7, 8)                         # encodings of DWARF: bool, numbers, characters
NO_INTEGERS = {'DW_TAG_pointer_type': 'a pointer', 'DW_TAG_array_type': 'an array',
         'DW_TAG_structure_type': 'a struct', 'DW_TAG_union_type': 'a union',
         'DW_TAG_enumeration_type': 'an enum', 'DW_TAG_base_type': 'a floating-point number'}


class Malformed(ValueError):
    """Bytes that are no object file of clang's BPF target."""


class Function(NamedTuple):
    """A function of an object file: its code, and where it starts in its section. Then the symbols
    that it reaches by relocation, each with the byte of its code at which it does. Last, whether
    other files see it (`static` ones aren't seen)."""
    name: str
    section: str
    start: int
    code: bytes
    outside: List[Tuple[int, str]]
    seen: bool


class ObjectFile:
    """What is read of an object file: its functions by name. `types` says of each function, in
    words, what is wrong with its result and with each parameter as an integer of 64 bits. `lines`
    has by section the byte from which on a line's code stands, with the line. Raises Malformed
    where it is none, ImportError without pyelftools."""

    def __init__(self, data: bytes) -> None:
        reader = import_extra('elftools.elf.elffile', 'an operator in C')
        self.types: Dict[str, List[str]] = {}
        self.lines: Dict[str, List[Tuple[int, int]]] = {}
        try:
            file = reader.ELFFile(io.BytesIO(data))
            if file.elfclass != 64 or not file.little_endian:
                raise ValueError('not a little-endian ELF64 object')
            sections = list(file.iter_sections())
            self.functions = {each.name: each for each in _functions(sections)}
            if file.has_dwarf_info():
                # pyelftools knows no relocations of BPF; the numbers in their place are right for
                # the one file of source, each within its section
                self._read_dwarf(file.get_dwarf_info(relocate_dwarf_sections=False),
                                 _sections_of_lines(sections))
        except Exception as fault:  # pylint: disable=broad-exception-caught  # of any kind
            raise Malformed('a broken object file: %s' % fault) from None

    def _read_dwarf(self, dwarf: Any, sections: Iterator[str]) -> None:
        for unit in dwarf.iter_CUs():
            for entry in unit.get_top_DIE().iter_children():
                if entry.tag == 'DW_TAG_subprogram' and 'DW_AT_name' in entry.attributes:
                    parameters = [each for each in entry.iter_children()
                                  if each.tag == 'DW_TAG_formal_parameter']
                    self.types[_name_of(entry)] = list(map(_describe_fault, [entry, *parameters]))
            section = ''
            for state in (each.state for each in dwarf.line_program_for_CU(unit).get_entries()):
                if state is not None:
                    section = section or next(sections, '')
                    if state.line and not state.end_sequence:
                        self.lines.setdefault(section, []).append((state.address, state.line))
                    section = '' if state.end_sequence else section
        for lines in self.lines.values():
            lines.sort(key=lambda line: line[0])


def _bytes_of(section: Any) -> bytes:
    """The bytes of a section that has some in the file."""
    if section['sh_type'] in ('SHT_NULL', 'SHT_NOBITS') or section.compressed:
        return b''
    return bytes(section.data())


def _functions(sections: List[Any]) -> Iterator[Function]:
    """The functions in the symbols of an object file."""
    for table in sections:
        if table['sh_type'] != 'SHT_SYMTAB':
            continue
        symbols = list(table.iter_symbols())
        names = [each.name or _section_name(sections, each['st_shndx']) for each in symbols]
        for symbol in symbols:
            at = symbol['st_shndx']
            if symbol['st_info']['type'] != 'STT_FUNC' or not isinstance(at, int):
                continue
            start, code = symbol['st_value'], _bytes_of(sections[at])
            end = start + symbol['st_size']
            outside = [(place - start, names[number])
                       for place, number in _relocations(sections, at) if start <= place < end]
            if len(code[start:end]) != symbol['st_size'] or symbol['st_size'] % 8 or start % 8:
                raise ValueError('the code of `%s` is cut off' % symbol.name)
            yield Function(symbol.name, sections[at].name, start, code[start:end], outside,
                           symbol['st_info']['bind'] != 'STB_LOCAL')


def _section_name(sections: List[Any], at: Any) -> str:
    return str(sections[at].name) if isinstance(at, int) and at < len(sections) else ''


def _relocations(sections: List[Any], at: int) -> Iterator[Tuple[int, int]]:
    """The byte and the symbol's number of each relocation of a section."""
    for table in sections:
        if table['sh_type'] in ('SHT_REL', 'SHT_RELA') and table['sh_info'] == at:
            for each in table.iter_relocations():
                yield each['r_offset'], each['r_info_sym']


def _sections_of_lines(sections: List[Any]) -> Iterator[str]:
    """The section of each sequence of lines in their order: a sequence begins with an address in
    it, which a relocation names."""
    tables = [each for each in sections if each['sh_type'] == 'SHT_SYMTAB']
    for at, section in enumerate(sections):
        if section.name == '.debug_line':
            for _, number in sorted(_relocations(sections, at)):
                yield _section_name(sections, tables[0].get_symbol(number)['st_shndx'])


def _name_of(entry: Any) -> str:
    return str(entry.attributes['DW_AT_name'].value.decode('utf-8', 'replace'))


def _describe_fault(entry: Any) -> str:
    """What is wrong with the type of a result or a parameter, which has to be an integer of 64
    bits, in words; nothing where it is one."""
    names: List[str] = []
    while len(names) < MOST_NAMES:
        if 'DW_AT_type' not in entry.attributes:
            return 'void'
        entry = entry.get_DIE_from_attribute('DW_AT_type')
        names.append(_name_of(entry) if 'DW_AT_name' in entry.attributes else '')
        if entry.tag not in PASSED_OVER:
            break
    name = next((name for name in names if name), '')
    size = entry.attributes['DW_AT_byte_size'].value if entry.tag != 'DW_TAG_pointer_type' else 8
    if entry.tag == 'DW_TAG_base_type' and entry.attributes['DW_AT_encoding'].value in INTEGERS:
        return '' if size == 8 else '`%s`, which has %d bits' % (name, 8 * size)
    bits = ' of %d bits' % (8 * size) if entry.tag == 'DW_TAG_enumeration_type' else ''
    return '%s%s%s' % (NO_INTEGERS.get(entry.tag, 'no number'), bits,
                       ' (`%s`)' % name if name else '')
