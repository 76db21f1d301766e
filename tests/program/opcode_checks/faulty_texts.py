"""Assembly text that is refused, with the rule and the line that are written down, and what is
accepted beside it."""
from typing import Iterator, List, Tuple

from reference.assembly import assemble, disassemble
from reference.verifier import verify
from reference.words import Refusal
from tests.lib.commands import assembly_command

from .exchanges import Exchange, Session

# Lines, each behind the rule that it breaks.
FAULTS = """\
A2 mov r0, 1
A2 mov65 r0, 1
A2 mov16 r0, 1
A2 MOV64 r0, 1
A2 mov64r0, 1
A2 mov640 r0, 1
A2 exit,
A2 exit64
A2 ja64 1
A2 wide64 r0, 1
A2 ldsx64 r0, r1, 0
A2 le8 r0
A2 movs32_32 r0, r1
A2 neg r0
A2 64
A2 ,
A2 call 1
A3 mov64
A3 mov64 r0
A3 mov64 r0,
A3 mov64 r0,,1
A3 mov64 r0, 1,
A3 mov64 r0, 1, 2
A3 mov64 0, 1
A3 mov64 r0 1
A3 mov64 r0, 1 2
A3 mov64 r0, x
A3 mov64 r0, 0x1
A3 mov64 r0, -
A3 mov64 r0, +-1
A3 mov64 R0, 1
A3 mov64 r, 1
A3 mov64 r1x, 1
A3 exit ,
A3 exit r0
A3 neg64 r0, r1
A3 movs8_64 r0, 1
A3 ja r11
A3 wide r0, r11
A3 st64 r10, -8, r01
A3 stx64 r10, r1, -8
A3 jeq64 r0, 1, r1
A3 stx8 r10, 1, r1, 2, 3
A3 add64 r01, x
A4 mov64 r11, 1
A4 mov64 r0, r01
A4 mov64 r11, 99999999999
A4 stx8 r10, 99999, r99999999999999999999999
A5 mov64 r0, 2147483648
A5 mov64 r0, 4294967295
A5 mov64 r0, -2147483649
A5 ja 32768
A5 ldx8 r0, r1, -32769
A5 ja32 -2147483649
A5 wide r0, 9223372036854775808
A5 wide r0, -9223372036854775809
A5 wide r0, 99999999999999999999999999999999999999999999
"""

# Lines that break their rule and every higher one where 4,096 slots stand before them.
LOWEST = """\
A2 mov r11 , 2147483648, x
A3 mov64 r11, 2147483648, x
A4 mov64 r11, 2147483648
A5 mov64 r1, 2147483648
A6 mov64 r1, 214748364
"""

# Ways to write one line.
WAYS = ['add64 r0,1', '  \t add64 \t r0  ,   +1  ; a comment; another',
        'add64 r0, 0000000000000000000000000000000000000000000000001# a comment',
        '\r\n \n; no\r\nadd64 r0, 1\r\n\n']

# What a line of 1,020 blanks comes to with each of these behind them, where a program begins with
# the line.
ENDS: List[Tuple[str, str]] = [('exit', 'V11 0'), ('exit\r\n', 'V11 0'), ('exit;', 'A1 1'),
                               ('exit\r', 'A1 1')]

# Texts with no instruction, with the line that is named.
EMPTY: List[Tuple[str, int]] = [('', 1), ('\n', 2), ('; no', 2), ('\n\r\n\t\n# no', 5)]

# What a text of 4,094 slots comes to with each of these behind them.
NEARLY: List[Tuple[str, str]] = [('exit\nexit\n', 'ok op 4096 4096'),
                                 ('wide r0, 1\n', 'no V10 4094'),
                                 ('exit\n\nwide r0, 1\nx', 'no A6 4097')]

# Text of which each prefix is assembled or refused.
PREFIXED = '; twice\n\tmov64 r0, r1 # x\r\n\nwide r2, -5\nadd64 r0, +7;\nexit'


def refused(what: str, text: str, fault: str) -> Exchange:
    return Exchange(what, assembly_command('f', text.encode()), b'no %s\n' % fault.encode())


def rows_of(table: str) -> Iterator[Tuple[str, str]]:
    """The rule of each row, and the line behind it."""
    for row in table.splitlines():
        rule, _, line = row.partition(' ')
        yield rule, line


def lines() -> Iterator[Exchange]:
    for rule, line in rows_of(FAULTS):
        yield refused(line, 'exit\n\n; three\n%s\nx' % line, rule + ' 4')
    full = 'exit\n' * 4096
    for rule, line in [*rows_of(LOWEST), ('A1', 'x' * 1025)]:
        yield refused('%.40s behind 4,096 slots' % line, full + line + '\n', rule + ' 4097')


def texts() -> Iterator[Exchange]:
    for way in WAYS:
        text = 'mov64 r0, r1\n%s\nexit\n' % way
        yield Exchange(repr(way), assembly_command('f', text.encode()) + b'dis f\n',
                       b'ok op 3 3\nok dis 3\nmov64 r0, r1\nadd64 r0, 1\nexit\n')
    yield Exchange('ja -0', assembly_command('f', b'mov64 r0, 0\nja -0\nexit') + b'dis f\n',
                   b'ok op 3 3\nok dis 3\nmov64 r0, 0\nja 0\nexit\n')
    for end, fault in ENDS:
        yield refused('1,020 blanks and %r' % end, ' ' * 1020 + end, fault)
    for text, line in EMPTY:
        yield refused(repr(text), text, 'A6 %d' % line)
    head = 'mov64 r0, r1\n' + 'exit\n' * 4093
    for end, reply in NEARLY:
        yield Exchange('4,094 slots and %r' % end, assembly_command('f', (head + end).encode()),
                       reply.encode() + b'\n')


def longest() -> Exchange:
    """A text of 262,144 bytes and 4,032 slots, of which no path leads to the last but the first
    line's."""
    line = 'add64 r0, -2147483648 ; and a comment to the end of the line.../\n'
    front = 'mov64 r0, r1 ; and a comment to the end of the line............/\n'
    text = front + line * 4030 + 'exit' + ' ' * (262144 - 4031 * len(line) - len('exit\n')) + '\n'
    written = 'mov64 r0, r1\n' + 'add64 r0, -2147483648\n' * 4030 + 'exit\n'
    return Exchange('262,144 bytes', assembly_command('f', text.encode()) + b'dis f\n',
                    b'ok op 4032 4032\nok dis 4032\n' + written.encode())


def outcome(text: bytes) -> bytes:
    """What the reference implementation replies to `asm` and then `dis`."""
    try:
        operator = verify(assemble(text), 'unary')
    except Refusal as refusal:
        return b'%s\nno S4\n' % str(refusal).encode()
    written = disassemble(operator.program)
    return b'ok op %d %d\nok dis %d\n%s\n' % (operator.program.slots, operator.length, len(written),
                                              '\n'.join(written).encode())


def prefixes() -> Iterator[Exchange]:
    """Each prefix under a name of its own, since a refused one binds nothing."""
    text = PREFIXED.encode()
    for length in range(len(text) + 1):
        name = 'p%d' % length
        yield Exchange('the first %d bytes' % length,
                       assembly_command(name, text[:length]) + b'dis %s\n' % name.encode(),
                       outcome(text[:length]))


def sessions() -> List[Session]:
    return [Session('refused text', [*lines(), *texts(), longest()], literal=True),
            Session('prefixes of text', list(prefixes()))]
