"""Code that is refused, with the rule and the slot that are written down, and neighbours that are
accepted."""
from typing import Iterator, List, Optional, Tuple

from reference.instructions import BY_OPCODE, OUTSIDE_PROFILE

from .exchanges import Exchange, Session
from .programs import EXIT, MOVE, ZERO, slot, upload, uploaded

WIDE_LOAD = ['1800000001000000', '0000000000000000']

# Slots with the rule of code that each breaks.
BROKEN: List[Tuple[str, str]] = [
    ('ff00000000000000', 'V2'),
    ('8f00000000000000', 'V2'),
    ('8500000001000000', 'V3'),
    ('1810000000000000', 'V3'),
    ('bfb0000000000000', 'V4'),
    ('bfb0010000000000', 'V4'),
    ('3700020001000000', 'V5'),
    ('9500000001000000', 'V5'),
    ('d400000018000000', 'V5'),
    ('bc10200000000000', 'V5'),
    ('05b0000000000000', 'V5'),
    ('1800000001000000', 'V6'),
    ('180b000001000000', 'V4'),
    ('181b000001000000', 'V3'),
    ('8400000001000000', 'V5'),
    ('8410000000000000', 'V5'),
]

# The opcodes that the RFC knows and the profile leaves out.
LEFT_OUT = {0x20, 0x28, 0x30, 0x40, 0x48, 0x50, 0x85, 0xc3, 0xdb}

# The 116 opcodes of the profile.
KNOWN = bytes.fromhex("""
04 05 06 07 0c 0f
14 15 16 17 18 1c 1d 1e 1f
24 25 26 27 2c 2d 2e 2f
34 35 36 37 3c 3d 3e 3f
44 45 46 47 4c 4d 4e 4f
54 55 56 57 5c 5d 5e 5f
61 62 63 64 65 66 67 69 6a 6b 6c 6d 6e 6f
71 72 73 74 75 76 77 79 7a 7b 7c 7d 7e 7f
81 84 87 89
91 94 95 97 9c 9f
a4 a5 a6 a7 ac ad ae af
b4 b5 b6 b7 bc bd be bf
c4 c5 c6 c7 cc cd ce cf
d4 d5 d6 d7 dc dd de
""")

# Programs, each behind its name, with the kind and what is found before any path is looked at: the
# rule and the slot, or nothing.
SLOT_FAULTS: List[Tuple[str, List[str], str, Optional[str]]] = [
    ('back', [ZERO, '0500ffff00000000', EXIT], 'unary', 'V7 1'),
    ('before the program', [ZERO, '1500f0ff00000000', EXIT], 'unary', 'V7 1'),
    ('to the next slot', [ZERO, '0500000000000000', EXIT], 'unary', None),
    ('into a wide load', ['0500010000000000', '1800000001000000', '0000000000000000', EXIT],
     'unary', 'V8 0'),
    ('over a wide load', [ZERO, '0500020000000000', '1800000001000000', '0000000000000000', EXIT],
     'unary', None),
    ('past the end', [ZERO, '1500010000000000', EXIT], 'unary', 'V8 1'),
    ('R10 written', ['b70a000000000000', EXIT], 'unary', 'V9 0'),
    ('a store through R10', [ZERO, '7b0af8ff00000000', EXIT], 'unary', None),
    ('no exit', [ZERO], 'unary', 'V10 0'),
    ('a wide load at the end', ['1800000001000000', '0000000000000000'], 'unary', 'V10 0'),
    ('the whole slot pass before the typing', ['bf50000000000000', ZERO], 'unary', 'V10 1'),
    ('a jump back in the last slot', [ZERO, '1500feff00000000'], 'unary', 'V7 1'),
    ('a jump out of the last slot', [ZERO, '1500000000000000'], 'unary', 'V8 1'),
    ('R10 written in the last slot', ['b70a000000000000'], 'unary', 'V9 0'),]

# Programs with what is found on a path.
PATH_FAULTS: List[Tuple[str, List[str], str, Optional[str]]] = [
    ('unset on one way', ['1501010000000000', ZERO, EXIT], 'unary', 'V11 2'),
    ('unset on a way that no operand takes', [ZERO, '5500010000000000', EXIT, 'bf20000000000000',
                                              EXIT], 'unary', 'V11 3'),
    ('R2 of a unary operator', ['bf20000000000000', EXIT], 'unary', 'V11 0'),
    ('R2 of a binary operator', ['bf20000000000000', EXIT], 'binary', None),
    ('R4 of a binary operator', ['bf40000000000000', EXIT], 'binary', 'V11 0'),
    ('R4 of an index operator', ['bf40000000000000', EXIT], 'index', None),
    ('a place or a number', ['1501020000000000', 'bfa3000000000000', '0500010000000000',
                             'bf23000000000000', 'bf30000000000000', EXIT], 'binary', 'V12 4'),
    ('two places', ['bfa2000000000000', '1501010000000000', '07020000f8ffffff', '7920000000000000',
                    EXIT], 'unary', 'V12 3'),
    ('two places, not read', ['bfa2000000000000', '1501010000000000', '07020000f8ffffff', ZERO,
                              EXIT], 'unary', None),
    ('a place as the value', ['bfa0000000000000', EXIT], 'unary', 'V13 1'),
    ('a place copied and moved', ['bfa2000000000000', '07020000f8ffffff', '7b12000000000000',
                                  '79a0f8ff00000000', EXIT], 'unary', None),
    ('a number as a base', ['7910000000000000', EXIT], 'unary', 'V14 0'),
    ('a place above the top', ['bfa1000000000000', '0701000001000000', ZERO, EXIT], 'unary',
     'V15 1'),
    ('the end of an access above the top', ['7b1af9ff00000000', ZERO, EXIT], 'unary', 'V15 0'),
    ('the lowest bytes', ['7b1a00fe00000000', '79a000fe00000000', EXIT], 'unary', None),
    ('below the stack, though not stored either', ['71a0fffd00000000', EXIT], 'unary', 'V15 0'),
    ('stored on one way', ['1501010000000000', '7b1af8ff00000000', '79a0f8ff00000000', EXIT],
     'unary', 'V16 2'),
    ('stored on both ways', ['1501020000000000', '7b1af8ff00000000', '0500010000000000',
                             '7a0af8ff00000000', '79a0f8ff00000000', EXIT], 'unary', None),
    ('half stored', ['631afcff00000000', '79a0f8ff00000000', EXIT], 'unary', 'V16 1'),
    ('stored by halves', ['631afcff00000000', '631af8ff00000000', '79a0f8ff00000000', EXIT],
     'unary', None),]

# Instructions that break two rules, with the one that is named: R3 is mixed, R5 unset, R1 a number.
LOWEST: List[Tuple[str, str, str]] = [
    ('unset and mixed', '0f53000000000000', 'V11'),
    ('unset and a place', '0fa5000000000000', 'V11'),
    ('unset, and a number as a base', '7b51000000000000', 'V11'),
    ('unset, and below the stack', '7b5afffd00000000', 'V11'),
    ('mixed and a place', '1d3a000000000000', 'V12'),
    ('mixed, and a number as a base', '7b31000000000000', 'V12'),
    ('a place stored through a number', '7ba1000000000000', 'V13'),
    ('a place stored below the stack', '7baafffd00000000', 'V13'),
]

# Instructions in slot 0 that break a rule, alone or with others, with the one that is named: R1 is
# a number, R5 unset.
FIRST: List[Tuple[str, str, str]] = [
    ('R10 from an unset register', 'bf5a000000000000', 'V9'),
    ('a place stored through a number', '7ba1000000000000', 'V13'),
    ('a place stored through an unset base', '7ba5000000000000', 'V11'),
    ('a store through an unset base', '7b15000000000000', 'V11'),
    ('an unset register stored below the stack', '7b5afffd00000000', 'V11'),
    ('ja32 beyond 16 bits', '0600000000000100', 'V8'),
    ('ja32 back beyond 16 bits', '060000000000ffff', 'V7'),
    ('mov32 of a place', 'bca0000000000000', 'V13'),
    ('movs8_64 of a place', 'bfa0080000000000', 'V13'),
    ('add64 of a place', '0fa1000000000000', 'V13'),
    ('a place compared with imm', '150a010000000000', 'V13'),
    ('ldsx8 at the top', '91a0000000000000', 'V15'),
    ('ldsx16 over the top', '89a0ffff00000000', 'V15'),
    ('ldsx32 over the top', '81a0fdff00000000', 'V15'),
]

# Code whose length breaks a rule, in hexadecimal digits, with the slot that is named.
LENGTHS: List[Tuple[str, str, int]] = [('no slot', '', 0),
                                       ('a byte too few', MOVE + '07000000010000', 1),
                                       ('a byte', '95', 0), ('a byte too many', EXIT + '00', 1),
                                       ('4,097 slots', EXIT * 4097, 4096),
                                       ('4,096 slots and a byte', EXIT * 4096 + '95', 4096)]


def verdict(what: str, slots: List[str], kind: str, fault: Optional[str]) -> Exchange:
    """Code is refused by a rule and a slot, or accepted."""
    return Exchange(what, upload('f', slots, kind), uploaded(slots) if fault is None
                    else b'no %s\n' % fault.encode())


def code_faults() -> Iterator[Exchange]:
    for broken, rule in BROKEN:
        yield verdict(broken, [broken], 'unary', rule + ' 0')
        yield verdict(broken + ' behind a wide load', WIDE_LOAD + [broken], 'unary', rule + ' 2')
    yield verdict('a wide load in a wide load', [WIDE_LOAD[0], '1800000000000000'], 'unary', 'V6 0')
    for what, digits, at in LENGTHS:
        yield verdict(what, [digits], 'unary', 'V1 %d' % at)


def opcodes() -> Iterator[Exchange]:
    """Each byte as an opcode whose register fields are 11: a known one is refused for these or as
    unused, and none is accepted."""
    for opcode in range(256):
        digits = slot(opcode, 11, 11)
        if opcode in LEFT_OUT or opcode == 0x18:
            rule = 'V3'
        elif opcode not in KNOWN:
            rule = 'V2'
        else:
            rule = 'V4' if {'dst', 'src'} & set(BY_OPCODE[opcode][0].fields) else 'V5'
        yield verdict('opcode %02x' % opcode, [digits], 'unary', rule + ' 0')


def verifier_faults() -> Iterator[Exchange]:
    for row in SLOT_FAULTS + PATH_FAULTS:
        yield verdict(*row)
    for what, code, rule in LOWEST:
        mixed = ['bfa3000000000000', '1501010000000000', 'b703000000000000', code, ZERO, EXIT]
        yield verdict(what, mixed, 'unary', rule + ' 3')
    for what, code, rule in FIRST:
        yield verdict(what, [code, ZERO, EXIT], 'unary', rule + ' 0')


def sessions() -> List[Session]:
    if set(BY_OPCODE) != set(KNOWN) or OUTSIDE_PROFILE != LEFT_OUT:
        raise ValueError('the reference implementation has another table of opcodes')
    return [Session('refused code', [*code_faults(), *opcodes(), *verifier_faults()], literal=True)]
