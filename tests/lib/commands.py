"""The parts of a session: commands, matrix texts and operator code."""
import functools
import glob
import os
import random
import struct
from typing import Dict

from tests.lib.limits import MOST_STEPS
from tests.lib.paths import CASES


def run_words(steps=MOST_STEPS, workers=1):
    """The words of the command line that serve a session."""
    return ['run', '--steps', str(steps), '--workers', str(workers)]


@functools.lru_cache(maxsize=None)
def case_folders() -> Dict[str, str]:
    """The folder of each case of tests/cases/, by its name; they stand by subject, and no two have
    one name."""
    folders = sorted(os.path.dirname(path)
                     for path in glob.glob(os.path.join(CASES, '**', 'in'), recursive=True))
    found = {os.path.basename(folder): folder for folder in folders}
    if len(found) < len(folders):
        raise ValueError('two cases have one name: %s' % (set(folders) - set(found.values())))
    return found


def case_file(name, part):
    """The bytes of a file of a case, none where it has no such file."""
    path = os.path.join(case_folders()[name], part)
    if not os.path.exists(path):
        return None
    with open(path, 'rb') as file:
        return file.read()


def instruction(opcode, destination=0, source=0, offset=0, immediate=0):
    """The 16 hexadecimal digits of one slot (RFC 9669, section 3)."""
    return struct.pack('<BBhi', opcode, source << 4 | destination, offset, immediate).hex().encode()


# The commands that tell of an operator, and all that are answered in lines.
OF_OPERATORS = ('dis', 'types')
WITH_LINES = ('run', *OF_OPERATORS)

BANNER = b'%%MatrixMarket matrix coordinate integer general\n'
RESULT_IS_OPERAND = instruction(0xbf, 0, 1)
EXIT = instruction(0x95)


def add(number):
    """r0 += number"""
    return instruction(0x07, 0, immediate=number)


def wide_load(register, word):
    """The two slots that load a word of 64 bits."""
    return instruction(0x18, register,
                       immediate=signed(word,
                                        32)) + instruction(0, immediate=signed(word >> 32, 32))


def signed(word, bits):
    """The signed reading of the low bits of a word."""
    word &= (1 << bits) - 1
    return word - (1 << bits) if word >> (bits - 1) else word


INCREMENT = RESULT_IS_OPERAND + add(1) + EXIT


def matrix_text(rows, columns, entries):
    """The canonical text of a matrix; entries are (row, column, value) from 1, by ascending row and
    column."""
    size = '%d %d %d\n' % (rows, columns, len(entries))
    return BANNER + (size + ''.join('%d %d %d\n' % entry for entry in entries)).encode()


def skewed_entries(scale, edges, seed):
    """Entries of a graph by a power law (R-MAT with .57 .19 .19 .05), in order. They are the same
    each time."""
    chance = random.Random(seed)
    places = set()
    for _ in range(edges):
        at = to = 0
        for _ in range(scale):
            quarter = chance.random()
            at = at * 2 + (quarter >= .76)
            to = to * 2 + (.57 <= quarter < .76 or quarter >= .95)
        places.add((at, to))
    return [(at + 1, to + 1, chance.randint(-1000000, 1000000)) for at, to in sorted(places)]


def matrix_command(name, text):
    return b'matrix %s %d\n' % (name.encode(), len(text)) + text


def operator_command(name, body, kind='unary'):
    return b'op %s %s %d\n' % (name.encode(), kind.encode(), len(body)) + body + b'\n'


def assembly_command(name, text, kind='unary'):
    return b'asm %s %s %d\n' % (name.encode(), kind.encode(), len(text)) + text + b'\n'


def show_reply(text):
    return b'ok show %d\n' % len(text) + text
