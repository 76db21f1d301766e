"""Each opcode with the least and the greatest of its fields, as code and as text.

The instruction stands in a slot to which no path leads: `mov64 r0, r1`, a jump over it, the
instruction, `exit`. So all that it may be is accepted, but for jumps back (V7) or out of the code
(V8) and writes to R10 (V9). What `dis` makes of the code is assembled, and disassembled again.
"""
import struct
from itertools import product
from typing import Iterator, List, Tuple

from reference.assembly import disassemble
from reference.instructions import SPELLINGS, Spelling, decode
from reference.verifier import verify
from reference.words import Refusal
from tests.lib.commands import assembly_command
from tests.lib.limits import MOST_SLOTS

from .exchanges import Exchange, Session
from .programs import EXIT, MOVE, slot, upload, uploaded

# Lines, each behind the slot that it stands for.
LINES = """\
0700000001000000 add64 r0, 1
0f10000000000000 add64 r0, r1
14030000ffffffff sub32 r3, -1
2c43000000000000 mul32 r3, r4
37010000ffffff7f div64 r1, 2147483647
3701010000000080 sdiv64 r1, -2147483648
3c21010000000000 sdiv32 r1, r2
4fa9000000000000 or64 r9, r10
7c30000000000000 rsh32 r0, r3
9701010003000000 smod64 r1, 3
bf10000000000000 mov64 r0, r1
b400000007000000 mov32 r0, 7
c70000003f000000 arsh64 r0, 63
8705000000000000 neg64 r5
bc21080000000000 movs8_32 r1, r2
bf21200000000000 movs32_64 r1, r2
d401000010000000 le16 r1
dc01000020000000 be32 r1
d701000040000000 swap64 r1
0500030000000000 ja 3
0600000000000100 ja32 65536
1d21050000000000 jeq64 r1, r2, 5
4601ff7f02000000 jset32 r1, 2, 32767
de21ffff00000000 jsle32 r1, r2, -1
7121ffff00000000 ldx8 r1, r2, -1
8921040000000000 ldsx16 r1, r2, 4
7b1a00fe00000000 stx64 r10, -512, r1
6a0afeff01020000 st16 r10, -2, 513
9500000000000000 exit
"""
EXITS = 7

# What is refused of these lines where seven `exit` stand behind them, and why.
REFUSED = {'ja32 65536': 'V8 2', 'jset32 r1, 2, 32767': 'V8 2', 'jsle32 r1, r2, -1': 'V7 2'}

LEAST_AND_GREATEST = {'dst': [0, 10], 'src': [0, 10], 'offset': [-(1 << 15), (1 << 15) - 1],
                      'imm': [-(1 << 31), (1 << 31) - 1]}
WIDE_VALUES = [-(1 << 63), (1 << 63) - 1, 4294967297]


def both_ways(what: str, slots: List[str], lines: List[str]) -> Exchange:
    """Code that is accepted, the text that is written of it, and that text assembled and written
    again."""
    text = ''.join(line + '\n' for line in lines).encode()
    command = upload('f', slots, 'unary') + b'dis f\n' + assembly_command('g', text) + b'dis g\n'
    return Exchange(what, command, 2 * (uploaded(slots) + b'ok dis %d\n' % len(lines) + text))


def refused(what: str, slots: List[str], lines: List[str], fault: str) -> Exchange:
    """Code that is refused, and so is its text."""
    text = ''.join(line + '\n' for line in lines).encode()
    return Exchange(what, upload('f', slots, 'unary') + assembly_command('g', text),
                    2 * (b'no %s\n' % fault.encode()))


def written_down() -> Iterator[Exchange]:
    for row in LINES.splitlines():
        code, _, line = row.partition(' ')
        slots = [MOVE, slot(0x05, offset=1), code] + [EXIT] * EXITS
        lines = ['mov64 r0, r1', 'ja 1', line] + ['exit'] * EXITS
        yield (refused(line, slots, lines, REFUSED[line]) if line in REFUSED
               else both_ways(line, slots, lines))
    yield both_ways('wide r0, 4294967297', ['1800000001000000', '0000000001000000', EXIT],
                    ['wide r0, 4294967297', 'exit'])


def fields_of(spelling: Spelling) -> Iterator[Tuple[int, int, int, int]]:
    """All of the least and the greatest destination, source, offset and imm of an instruction, and
    jumps to the next slot."""
    choices = [LEAST_AND_GREATEST[field] if field in spelling.fields
               else [getattr(spelling, field, 0)] for field in ('dst', 'src', 'offset', 'imm')]
    if spelling.group == 'wide':
        choices[3] = WIDE_VALUES
    if spelling.group == 'jump':
        to = 3 if spelling.mnemonic == 'ja32' else 2
        choices[to] = [*choices[to], 0, -1]
    return product(*choices)


def slots_of(spelling: Spelling, dst: int, src: int, offset: int, imm: int) -> List[str]:
    if spelling.group == 'wide':
        low, high = struct.unpack('<ii', struct.pack('<q', imm))
        return [slot(spelling.opcode, dst, src, offset, low), slot(0, immediate=high)]
    return [slot(spelling.opcode, dst, src, offset, imm)]


def at_the_ends() -> Iterator[Exchange]:
    for spelling in SPELLINGS:
        for fields in fields_of(spelling):
            code = slots_of(spelling, *fields)
            slots = [MOVE, slot(0x05, offset=len(code)), *code, EXIT]
            program = decode(bytes.fromhex(''.join(slots)))
            lines = disassemble(program)
            try:
                verify(program, 'unary')
            except Refusal as refusal:
                yield refused(lines[2], slots, lines, str(refusal)[len('no '):])
            else:
                yield both_ways(lines[2], slots, lines)


def longest_jumps() -> Iterator[Exchange]:
    """Each jump from slot 1 to slot 4,095, the last."""
    furthest = MOST_SLOTS - 3
    for spelling in SPELLINGS:
        if spelling.group == 'jump':
            offset, imm = (0, furthest) if spelling.mnemonic == 'ja32' else (furthest, 0)
            slots = [MOVE, slot(spelling.opcode, 1 if 'dst' in spelling.fields else 0,
                                1 if 'src' in spelling.fields else 0, offset, imm)]
            line = disassemble(decode(bytes.fromhex(''.join(slots))))[1]
            yield both_ways(line, slots + [EXIT] * (MOST_SLOTS - 2),
                            ['mov64 r0, r1', line] + ['exit'] * (MOST_SLOTS - 2))


def sessions() -> Iterator[Session]:
    yield Session('lines and slots', list(written_down()), literal=True)
    yield Session('fields', list(at_the_ends()))
    yield Session('longest jumps', list(longest_jumps()))
