"""Operators, called in this process: by the server's own verifier and machine, of the library
(`library`). Where there is none, a machine in Python makes one call after the other.
"""
from __future__ import annotations

import functools
import operator
from typing import Any, Callable, Dict, List

import numpy

from ..library import load
from ..types import Array
from . import assembly
from .operator import Operator

HALF = (1 << 32) - 1
# what the library answers where memory was refused; below it stands the number of a rule
MEMORY = 17
# bytes of the code of the longest program
MOST_CODE = 8 * 4096
HOLDS: Dict[str, Callable[[int, int], bool]] = {
    'eq': operator.eq, 'ne': operator.ne, 'gt': operator.gt, 'ge': operator.ge, 'lt': operator.lt,
    'le': operator.le, 'set': lambda a, b: a & b != 0}


def evaluate(op: Operator, *operands: Array) -> Any:
    """What an operator gives of each of some operands.

    Parameters
    ----------
    op : Operator
        The operator, which a server would accept.
    *operands : array of int64
        The operands, in the order of its registers from r1 on.

    Returns
    -------
    array of int64
        A value for each.

    Raises
    ------
    ValueError
        For an operator that the verifier refuses.
    NotImplementedError
        Without the library, for an instruction that isn't known here: of memory, of the order of
        bytes, of signs.
    """
    words = numpy.stack(operands, axis=1)
    if load() is not None:
        return _call(_code_of(op), words)
    program = _program_of(op)
    return numpy.array([_run(program, row) for row in words.tolist()], numpy.int64)


# -- by the library

@functools.lru_cache(4096)
def _code_of(op: Operator) -> bytes:
    return assemble(op.text.encode()) if op.text is not None else op.code or b''


def assemble(text: bytes) -> bytes:
    """The code of a text of assembly, by the library. ValueError where it is none of a program."""
    code = numpy.empty(MOST_CODE, numpy.uint8)
    verdict = load().spmat_assemble(text, len(text), code.ctypes.data, len(code))
    _check(verdict, 'line %d breaks rule A%d')
    return code[:verdict.size].tobytes()


def _call(code: bytes, words: Array) -> Array:
    """The values of an operator that takes as many words as an array has columns."""
    count, arity = words.shape
    found = numpy.empty((2, count), numpy.int64)   # the values, and the steps of each call
    first = found.ctypes.data
    verdict = load().spmat_call(arity, code, len(code), words.ctypes.data, words.size,
                                first, count, first + 8 * count, count)
    _check(verdict, 'slot %d breaks rule V%d')
    values: Array = found[0]
    return values


def _check(verdict: Any, refusal: str) -> None:
    if verdict.rule == MEMORY:
        raise MemoryError('no memory for the operator')
    if verdict.rule:
        raise ValueError(refusal % (verdict.at, verdict.rule))


# -- without it

@functools.lru_cache(4096)
def _program_of(op: Operator) -> Dict[int, assembly.Line]:
    text = op.text if op.text is not None else '\n'.join(line for _, line in op.lines())
    return {line.slot: line for line in assembly.lines_of(text)}


def _run(program: Dict[int, assembly.Line], words: List[int]) -> int:
    """The value of a call. Words of the stack are kept as registers, by their places."""
    registers = {'r%d' % number: word for number, word in enumerate(words, 1)}
    slot = 0
    while program[slot].mnemonic != 'exit':
        line = program[slot]
        slot += assembly.size_of(line.mnemonic)
        try:
            if not line.mnemonic.startswith('j'):
                registers[_target(line)] = assembly.wrap(_value(line, registers))
            elif _jumps(line, registers):
                slot += int(line.operands[-1])
        except LookupError:
            raise NotImplementedError(line.text) from None
    return registers['r0']


def _word(operand: str, registers: Dict[str, int]) -> int:
    return registers[operand] if operand.startswith('r') else assembly.wrap(int(operand))


def _jumps(line: assembly.Line, registers: Dict[str, int]) -> bool:
    """Whether a jump is taken."""
    if line.mnemonic == 'ja':
        return True
    name = line.mnemonic[1:-2]
    a, b = (_word(each, registers) for each in line.operands[:2])
    if line.mnemonic.endswith('32'):
        raise KeyError(line.mnemonic)
    if name in HOLDS:
        return HOLDS[name](a % assembly.WORDS, b % assembly.WORDS)
    return HOLDS[name[1:]](a, b)


def _target(line: assembly.Line) -> str:
    """Where an instruction writes: a register, or a whole word of the stack."""
    if line.mnemonic not in ('ldx64', 'stx64'):
        return line.operands[0]
    target, base, offset = (line.operands if line.mnemonic == 'ldx64' else
                            ('', *line.operands[:2]))
    if base != 'r10' or int(offset) % 8:
        raise KeyError(line.mnemonic)
    return target or 'r10' + offset


def _value(line: assembly.Line, registers: Dict[str, int]) -> int:
    """What an instruction writes, before it wraps."""
    name, target = line.mnemonic[:-2], line.operands[0]
    if name in ('ldx', 'stx'):
        return _word('r10' + line.operands[2] if name == 'ldx' else line.operands[2], registers)
    if line.mnemonic == 'wide':
        return _word(line.operands[1], registers)
    if name == 'neg':
        return -registers[target]
    b = _word(line.operands[1], registers)
    a = b if name == 'mov' else registers[target]
    if line.mnemonic.endswith('64'):
        return assembly.OPERATIONS[name].value(a, b)
    if name in ('arsh', 'lsh', 'rsh', 'sdiv', 'smod'):
        raise KeyError(line.mnemonic)              # of 32 bits, which have their own sign
    return assembly.OPERATIONS[name].value(a & HALF, b & HALF) & HALF
