"""What an operator may be, and what is known before each of its instructions (docs/bpf.md, "What
the verifier checks").

All ways into a slot come from lower slots, since jumps go forward. So one pass in ascending order
follows all paths: what is known at a slot is what all ways into it have in common.
"""
from typing import Dict, List, NamedTuple, Optional, Tuple, Union
from .instructions import EITHER, NUMBER, PLACE, TOP, Instruction, Program
from .machine import OPERANDS
from .words import Refusal

STACK = 512
UNSET, NUMBER_TAG, MIXED = 'u', 'n', 'm'
Tag = Union[str, int]       # a place's tag is its distance


class Known(NamedTuple):
    """What is known before an instruction: the tag of each register, and a bit for each byte of the
    stack that all paths stored."""

    tags: Tuple[Tag, ...]
    stored: int


class Operator(NamedTuple):
    """An operator that was accepted; `known` has what is known at each slot to which a path
    leads."""

    kind: str
    program: Program
    known: Dict[int, Known]

    @property
    def length(self) -> int:
        return len(self.program.instructions)


def verify(program: Program, kind: str) -> Operator:
    for each in program.instructions:
        rule = shape_fault(each, program)
        if rule:
            raise Refusal(rule, each.slot)
    numbers = range(1, 1 + OPERANDS[kind])
    entry = Known(tuple(0 if r == TOP else NUMBER_TAG if r in numbers else UNSET
                        for r in range(TOP + 1)), 0)
    known = {0: entry}
    for each in program.instructions:
        if each.slot in known:
            before = known[each.slot]
            rule = path_fault(each, before)
            if rule:
                raise Refusal(rule, each.slot)
            for slot in ways(each):
                known[slot] = joined(known.get(slot), after(each, before))
    return Operator(kind, program, known)


def shape_fault(each: Instruction, program: Program) -> Optional[str]:
    """V7 to V10: what is wrong with an instruction whether a path leads to it or not."""
    if each.target is not None and each.target <= each.slot:
        return 'V7'
    if each.target is not None and each.target not in program.at:
        return 'V8'
    if each.writes == TOP:
        return 'V9'
    if each is program.instructions[-1] and each.spelling.group != 'exit':
        return 'V10'
    return None


def ways(each: Instruction) -> List[int]:
    """The slots to which paths go on from an instruction, whatever its condition says."""
    if each.spelling.group == 'exit':
        return []
    if each.target is None:
        return [each.after]
    return [each.target] if each.spelling.action == 'ja' else [each.after, each.target]


def path_fault(each: Instruction, known: Known) -> Optional[str]:
    """V11 to V16: the lowest rule that an instruction breaks where so much is known."""
    faults = []
    for register, wanted in each.reads:
        tag = known.tags[register]
        if tag == UNSET:
            faults.append(11)
        elif tag == MIXED:
            faults.append(12)
        elif wanted == NUMBER and tag != NUMBER_TAG:
            faults.append(13)
        elif wanted == PLACE and tag == NUMBER_TAG:
            faults.append(14)
    if not faults:
        faults = stack_faults(each, known)
    return 'V%d' % min(faults) if faults else None


def stack_faults(each: Instruction, known: Known) -> List[int]:
    if each.spelling.group in ('load', 'store'):
        place, size = accessed(each, known)
        if not (-STACK <= place and place + size <= 0):
            return [15]
        needed = marks(place, size)
        return [16] if each.spelling.group == 'load' and known.stored & needed != needed else []
    to = written_tag(each, known)
    return [15] if isinstance(to, int) and not -STACK <= to <= 0 else []


def accessed(each: Instruction, known: Known) -> Tuple[int, int]:
    """The place and the number of bytes of a load or store."""
    base = known.tags[each.src if each.spelling.group == 'load' else each.dst]
    return base + each.offset, each.spelling.bits // 8


def marks(place: int, size: int) -> int:
    return ((1 << size) - 1) << (place + STACK)


def written_tag(each: Instruction, known: Known) -> Tag:
    """What the register that an instruction writes holds then."""
    if each.reads and each.reads[0][1] == EITHER:
        tag = known.tags[each.reads[0][0]]
        return tag if tag == NUMBER_TAG or each.spelling.action == 'mov' else tag + each.imm
    return NUMBER_TAG


def after(each: Instruction, known: Known) -> Known:
    tags, stored = list(known.tags), known.stored
    if each.writes is not None:
        tags[each.writes] = written_tag(each, known)
    if each.spelling.group == 'store':
        stored |= marks(*accessed(each, known))
    return Known(tuple(tags), stored)


def joined(one: Optional[Known], other: Known) -> Known:
    """What two ways into a slot have in common."""
    if one is None:
        return other
    tags = [a if a == b else UNSET if UNSET in (a, b) else MIXED
            for a, b in zip(one.tags, other.tags)]
    return Known(tuple(tags), one.stored & other.stored)


def types_text(operator: Operator) -> List[str]:
    """The lines of `types`."""
    lines = []
    for each in operator.program.instructions:
        known = operator.known.get(each.slot)
        tags = (['p%d' % tag if isinstance(tag, int) else tag for tag in known.tags] if known
                else ['-'])
        lines.append(' '.join([str(each.slot)] + tags))
    return lines
