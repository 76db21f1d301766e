"""Code from slots, each written as the sixteen hexadecimal digits of its eight bytes, and the
commands that upload it."""
from typing import Dict, Iterable, List, Sequence, Tuple

from reference.instructions import Program, decode
from reference.machine import call
from tests.lib.commands import EXIT as EXIT_DIGITS
from tests.lib.commands import instruction, operator_command

Words = Tuple[int, ...]

EXIT = EXIT_DIGITS.decode()
MOVE = 'bf10000000000000'       # mov64 r0, r1
ZERO = 'b700000000000000'       # mov64 r0, 0


def slot(opcode: int, destination: int = 0, source: int = 0, offset: int = 0,
         immediate: int = 0) -> str:
    """The digits of a slot."""
    return instruction(opcode, destination, source, offset, immediate).decode()


def taken(register: int) -> List[str]:
    """Slots by which R0 depends on all that a register holds: `xor64 r0, rN; mul64 r0, 31`."""
    return [slot(0xaf, 0, register), slot(0x27, immediate=31)]


def count_of(slots: Sequence[str]) -> int:
    """How many instructions stand in these slots: a wide load takes two."""
    count, at = 0, 0
    while at < len(slots):
        at += 2 if slots[at].startswith('18') else 1
        count += 1
    return count


def upload(name: str, slots: Sequence[str], kind: str) -> bytes:
    return operator_command(name, ''.join(slots).encode(), kind)


def uploaded(slots: Sequence[str]) -> bytes:
    """The reply to code that is accepted."""
    return b'ok op %d %d\n' % (len(slots), count_of(slots))


class Machine:
    """The reference implementation's machine on one program. What was called before is
    remembered."""

    def __init__(self, slots: Sequence[str]) -> None:
        self.program: Program = decode(bytes.fromhex(''.join(slots)))
        self.known: Dict[Words, Tuple[int, int]] = {}

    def call(self, operands: Words) -> Tuple[int, int]:
        """The value and the steps of a call."""
        outcome = self.known.get(operands)
        if outcome is None:
            outcome = self.known[operands] = call(self.program, operands)
        return outcome

    def calls(self, operands: Iterable[Words]) -> Tuple[List[int], int]:
        """The values of calls, and the sum of their steps."""
        outcomes = [self.call(each) for each in operands]
        return [value for value, _ in outcomes], sum(steps for _, steps in outcomes)
