"""Assembly text, both ways (docs/bpf.md, "Assembly text")."""
import re
from typing import List
from .instructions import BY_MNEMONIC, MOST_SLOTS, TOP, Instruction, Program, Spelling, instruction
from .words import LONGEST_LINE, Refusal, fits, is_value, lines_of

COMMENT, REGISTER = re.compile(rb'[;#]'), re.compile(rb'r[0-9]+')
MNEMONIC_AND_REST = re.compile(rb'([^ \t]+)(.*)', re.DOTALL)
REGISTERS = {b'r%d' % number: number for number in range(TOP + 1)}


def assemble(text: bytes) -> Program:
    """The program that a text stands for. Refused by the first faulty line, and there by the lowest
    of A1 to A6."""
    instructions: List[Instruction] = []
    lines = lines_of(text)
    for number, line in enumerate(lines, 1):
        if len(line) > LONGEST_LINE:
            raise Refusal('A1', number)
        code = COMMENT.split(line)[0].strip(b' \t')
        if code:
            instructions.append(read_line(code, number, instructions[-1].after if instructions
                                          else 0))
            if instructions[-1].after > MOST_SLOTS:
                raise Refusal('A6', number)
    if not instructions:
        raise Refusal('A6', len(lines) + 1)
    return Program(instructions)


def read_line(code: bytes, number: int, slot: int) -> Instruction:
    mnemonic, rest = MNEMONIC_AND_REST.fullmatch(code).groups()
    spellings = BY_MNEMONIC.get(mnemonic.decode('latin-1'))
    if spellings is None:
        raise Refusal('A2', number)
    operands = [operand.strip(b' \t') for operand in rest.split(b',')] if rest else []
    spelling = next((each for each in spellings if has_form(each, operands)), None)
    if spelling is None:
        raise Refusal('A3', number)
    fields = {'offset': spelling.offset, 'imm': spelling.imm}
    given = list(zip(spelling.fields, operands))
    for field, operand in given:
        if is_register_word(operand):
            if operand not in REGISTERS:
                raise Refusal('A4', number)
            fields[field] = REGISTERS[operand]
    for field, operand in given:
        if not is_register_word(operand):
            if not fits(int(operand), spelling.bits_of(field)):
                raise Refusal('A5', number)
            fields[field] = int(operand)
    return instruction(spelling, slot, **fields)


def is_register_word(operand: bytes) -> bool:
    return REGISTER.fullmatch(operand) is not None


def has_form(spelling: Spelling, operands: List[bytes]) -> bool:
    """Whether there is an operand for each field, a register where one is wanted, and a number
    elsewhere."""
    return len(operands) == len(spelling.fields) and all(
        is_register_word(operand) if field in ('dst', 'src') else is_value(operand)
        for field, operand in zip(spelling.fields, operands))


def disassemble(program: Program) -> List[str]:
    """The lines of the canonical text."""
    return [(each.spelling.mnemonic + ' ' + ', '.join(operand_text(each, field)
                                                      for field in each.spelling.fields)).rstrip()
            for each in program.instructions]


def operand_text(each: Instruction, field: str) -> str:
    return ('r%d' if field in ('dst', 'src') else '%d') % getattr(each, field)
