"""Operators as clients upload them: assembly text and hexadecimal code, written in many ways, valid
and spoilt."""
import random
from typing import Dict, List
from .operators import EXIT, SET, Line, code_of, line
from .texts import altered, blanks, ended, number, parted

from tests.lib.limits import LONGEST_LINE, MOST_SLOTS

NO_MNEMONICS = ['mov', 'EXIT', 'add16', 'ldsx64', 'movs32_32', 'ja64', 'r0', 'exit,', 'jsgt',
                'st128', 'neg', 'wide64', 'call', '1']
NO_OPERANDS = ['', 'x', 'r', 'R1', '0x1', '1.5', '-', '+', '- 1', 'r1x', 'r-1', '1 2', '--1',
               'r1 r2', '\xe9']
BLANKS = [' ', '\t', '\r\n', '\n', '\r', ' \t ']
NO_REGISTERS = ['r11', 'r01', 'r00', 'r16', 'r99999999999999999999', 'r010']


def assembly_text(rng: random.Random, lines: List[Line]) -> bytes:
    """The lines as assembly text, as `dis` would write it or with blanks, comments and other ways
    to write a number."""
    plain = rng.random() < 0.5
    texts = []
    for each in lines:
        if not plain and rng.random() < 0.15:
            texts.append(blanks(rng) + rng.choice(['', '; ' + 'word ' * rng.randrange(4), '#',
                                                   '#;\xff']))
        texts.append(line_text(rng, each, plain))
    if rng.random() < 0.12:
        texts = spoilt_lines(rng, texts, lines)
    text = ended(rng, [each.encode('latin-1') for each in texts], plain)
    return altered(rng, text) if rng.random() < 0.06 else text


def line_text(rng: random.Random, each: Line, plain: bool) -> str:
    operands = []
    for field in each.spelling.fields:
        content = each.fields[field]
        operands.append('r%d' % content if field in ('dst', 'src') else str(content) if plain
                        else number(rng, content))
    if plain:
        return (each.spelling.mnemonic + ' ' + ', '.join(operands)).rstrip()
    text = ','.join(blanks(rng) + operand + blanks(rng) for operand in operands)
    comment = rng.choice(['', '', '', ';', ' # r1, 2', '; why'])
    return blanks(rng) + each.spelling.mnemonic + (parted(rng) + text if operands
                                                   else blanks(rng)) + comment


def spoilt_lines(rng: random.Random, texts: List[str], lines: List[Line]) -> List[str]:
    """The text's lines with one that breaks a rule, for the most part a chosen one."""
    at = rng.randrange(len(texts))
    rule = rng.choice(['A1', 'A2', 'A3', 'A3', 'A3', 'A4', 'A4', 'A5', 'A5', 'A6'])
    if rule == 'A1':
        length = rng.choice([LONGEST_LINE - 1, LONGEST_LINE, LONGEST_LINE + 1, LONGEST_LINE + 2,
                             5000])
        texts[at] = texts[at].split(';')[0] + ';'
        texts[at] += rng.choice(['x', ' ', ';']) * (length - len(texts[at]))
    elif rule == 'A2':
        texts[at] = rng.choice(NO_MNEMONICS) + rng.choice(['', ' r0', ' r0, 1',
                                                           ' r0, r11, 99999999999'])
    elif rule == 'A6':
        return spoilt_length(rng, texts)
    else:
        mnemonic, operands = rng.choice(lines).spelling.mnemonic, ['r0', 'r1',
                                                                   '1'][:rng.randrange(4)]
        if rng.random() < 0.8:
            each = rng.choice(lines)
            mnemonic, operands = each.spelling.mnemonic, line_text(rng, each,
                                                                   True).split(' ', 1)[1:]
            operands = operands[0].split(', ') if operands else []
        wrong: Dict[str, List[str]] = {'A3': NO_OPERANDS, 'A4': NO_REGISTERS,
                                       'A5': [str(rng.choice([-1, 1]) << rng.choice(
                                           [15, 16, 31, 32, 63, 64, 200])), '-32769', '32768',
                                              '2147483648', '-2147483649', '9223372036854775808']}
        for _ in range(rng.choice([1, 1, 2])):
            if operands and rng.random() < 0.85:
                operands[rng.randrange(len(operands))] = rng.choice(wrong[rule])
            elif operands and rng.random() < 0.5:
                operands.pop()
            else:
                operands.append(rng.choice(['r3', '4', 'r11', '99999999999999999999']))
        texts[at] = mnemonic + ' ' + ', '.join(operands)
    return texts


def spoilt_length(rng: random.Random, texts: List[str]) -> List[str]:
    """No instructions, or as many slots as there may be, or about one more."""
    if rng.random() < 0.9:
        return ['' if rng.random() < 0.5 else '; ' + each
                for each in texts[:rng.randrange(len(texts))]]
    more = MOST_SLOTS - 1 + rng.choice([-1, 0, 0, 1])
    body = ['wide r0, %d' % rng.randrange(9)] * rng.choice([0, 1, 2047])
    body += ['mov64 r0, 1'] * (more - 2 * len(body))
    return body + ['exit']


def hexadecimal(rng: random.Random, lines: List[Line]) -> bytes:
    """The lines' code, in digits of either case, with or without blanks; or spoilt."""
    if rng.random() < 0.004:
        lines = [line(SET, dst=0, imm=1)] * (MOST_SLOTS - 1 + rng.choice([0, 1])) + [line(EXIT)]
    code = code_of(lines)
    if rng.random() < 0.12:
        code = spoilt_code(rng, code)
    digits = code.hex()
    if rng.random() < 0.4:
        digits = digits.upper()
        for _ in range(rng.choice([0, 1, 4, 20])):
            at = rng.randrange(len(digits) + 1)
            digits = digits[:at] + rng.choice(BLANKS) + digits[at:].swapcase()
    if rng.random() < 0.02:
        digits = rng.choice([digits[:-1], digits + '0', digits + 'g', digits + '\v', '', ' \t\r\n'])
    return digits.encode()


def spoilt_code(rng: random.Random, code: bytes) -> bytes:
    """Code that breaks a rule of slots, most likely."""
    at = 8 * rng.randrange(len(code) // 8)
    way = rng.randrange(9)
    if way == 0:
        return code[:rng.randrange(len(code))]
    if way == 1:
        return code + bytes(rng.randrange(1, 9))
    if way == 2:
        return code[:at] + bytes([rng.randrange(256)]) + code[at + 1:]
    if way == 3:
        outside = rng.choice([0x85, 0xc3, 0xdb, 0x20, 0x28, 0x30, 0x40, 0x48, 0x50, 0x18, 0x00,
                              0xff])
        return code[:at] + bytes([outside]) + code[at + 1:]
    if way == 4:
        return code[:at + 1] + bytes([rng.randrange(256)]) + code[at + 2:]
    if way == 5:
        return code[:at + 2] + bytes([rng.choice([0, 1, 2, 8, 16, 32]),
                                      rng.choice([0, 0, 1])]) + code[at + 4:]
    if way == 6:
        return code[:at + 4] + bytes([rng.choice([0, 1, 16, 24, 32, 64]), 0, 0, 0]) + code[at + 8:]
    wide = bytes([0x18, rng.choice([0, 0, 0, 11, 16]), rng.choice([0, 0, 0, 1]), 0, 1, 2, 3, 4])
    second = bytes([0, 0, 0, rng.choice([0, 1]), 5, 6, 7, 8]) if rng.random() < 0.7 else b''
    return code[:at] + wide + second + (code[at:] if rng.random() < 0.7 else b'')
