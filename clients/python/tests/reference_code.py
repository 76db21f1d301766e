"""Code of assembly text, by the reference implementation's assembler."""
import importlib
import struct
import sys

import support


def code_of(text):
    """The bytes of a program that a text stands for."""
    if support.TOP not in sys.path:
        sys.path.insert(0, support.TOP)
    program = importlib.import_module('reference.assembly').assemble(text.encode())
    return b''.join(map(_encoded, program.instructions))


def _encoded(each):
    spelling = each.spelling
    offset = each.offset if 'offset' in spelling.fields else spelling.offset
    imm = each.imm if 'imm' in spelling.fields else spelling.imm
    low = (imm & 0xffffffff) - (1 << 32 if imm & 0x80000000 else 0)
    first = struct.pack('<BBhi', spelling.opcode, each.dst | each.src << 4, offset, low)
    return first if spelling.slots == 1 else first + struct.pack('<Ii', 0, imm >> 32)
