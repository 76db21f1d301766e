"""The vectors of rfc9669.txt: each of the 116 opcodes with the values that the RFC gives it.

They were worked out from the RFC's text and from no definition of this project. Each vector is
called alone, and in one go with the others of its instruction.
"""
import os
from typing import Dict, Iterator, List, NamedTuple, Tuple

from .exchanges import Exchange, Session
from .lanes import Laid
from .programs import count_of, upload, uploaded

OPCODES = 116
TOGETHER = 64
VECTORS = os.path.join(os.path.dirname(os.path.realpath(__file__)), 'rfc9669.txt')


class Vectors(NamedTuple):
    """An instruction with its operands, and the value of each pair."""

    code: str
    text: str
    pairs: List[Tuple[int, int]]
    values: List[int]


class Section(NamedTuple):
    """Instructions, and what stands before and after each: digits and texts."""

    name: str
    before: List[Tuple[str, str]]
    after: List[Tuple[str, str]]
    vectors: List[Vectors]


def sections_of(lines: List[str]) -> Iterator[Section]:
    """The sections of a file of vectors."""
    section = Section('', [], [], [])
    for line in lines:
        if line.startswith('#') or not line.strip():
            continue
        if line.startswith('['):
            if section.name:
                yield section
            section = Section(line.strip('[]\n'), [], [], [])
        elif line.startswith(('before ', 'after ')):
            where, code, text = line.rstrip('\n').split(' ', 2)
            (section.before if where == 'before' else section.after).append((code, text))
        elif line.startswith(' '):
            for vector in line.split():
                operands, value = vector.split('>')
                x, _, y = operands.partition(',')
                section.vectors[-1].pairs.append((int(x, 16), int(y or '0', 16)))
                section.vectors[-1].values.append(int(value, 16))
        else:
            code, text = line.rstrip('\n').split(' ', 1)
            section.vectors.append(Vectors(code, text, [], []))
    yield section


def slots_of(code: str) -> List[str]:
    """The slots of some digits."""
    return [code[at:at + 16] for at in range(0, len(code), 16)]


def exchange_of(section: Section, vectors: Vectors) -> Exchange:
    """An instruction is uploaded, told as text, and called on its operands."""
    whole = [*section.before, (vectors.code, vectors.text), *section.after]
    slots = [slot for code, _ in whole for slot in slots_of(code)]
    pairs = (vectors.pairs * TOGETHER)[:TOGETHER]
    values = vectors.values + (vectors.values * TOGETHER)[:TOGETHER]
    laid = Laid([[pair] for pair in vectors.pairs] + [pairs])
    count = count_of(slots)
    # a jump that is taken leaves out the one instruction behind it
    steps = sum(count - (section.name == 'jump' and value) for value in values)
    operands = laid.uploads()
    told = ''.join(text + '\n' for _, text in whole).encode()
    command = upload('f', slots, 'binary') + b'dis f\nboth R f X Y\nrun\nshow R\n'
    reply = uploaded(slots) + b'ok dis %d\n' % count + told
    reply += laid.outcome(values, count, steps)
    return Exchange(vectors.text, operands.command + command, operands.reply + reply)


def sessions() -> Iterator[Session]:
    """A session for each section. Says by `ValueError` that an opcode has no vector."""
    with open(VECTORS, encoding='ascii') as file:
        sections = list(sections_of(file.readlines()))
    found: Dict[str, int] = {}
    for section in sections:
        for vectors in section.vectors:
            found[vectors.code[:2]] = found.get(vectors.code[:2], 0) + len(vectors.pairs)
    if len(found) != OPCODES or not all(found.values()):
        raise ValueError('vectors for %d opcodes of %d' % (len(found), OPCODES))
    for section in sections:
        exchanges = [exchange_of(section, vectors) for vectors in section.vectors]
        yield Session('rfc9669 ' + section.name, exchanges, literal=True)
