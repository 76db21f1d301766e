"""Loads and stores of each size at each of the 512 places of the stack, alone and in lanes that
part."""
from typing import Iterator, List, Tuple

from .exchanges import Session
from .lanes import WORD, Laid, pair_of, sessions_of
from .programs import EXIT, MOVE, slot, taken

from tests.lib.limits import STACK_BYTES

PLACES_A_PROGRAM = 16

# The opcodes of loads with the bytes that each reads.
LOADS = [(0x71, 1), (0x69, 2), (0x61, 4), (0x79, 8), (0x91, 1), (0x89, 2), (0x81, 4)]

# The opcodes of stores of a register and of a number, with the register and the bytes that each
# writes: the most first, so that each leaves some of those before.
STORES = [(0x7b, 0x7a, 2, 8), (0x63, 0x62, 1, 4), (0x6b, 0x6a, 2, 2), (0x73, 0x72, 1, 1)]

# The words of the calls, of which some part them.
WORDS = [0x0102030405060788, 0xf1e2d3c4b5a69781, WORD - 1, 0x8000000080008080, 0x7fffffff7fff7f7f,
         0, 0x1122334455667788, 0xfedcba9876543210]

TAKEN = taken(3)


def loads(place: int) -> List[str]:
    """Loads of each size at a place that end within the stack, each taken into R0."""
    return [part for opcode, size in LOADS if place + size <= 0
            for part in (slot(opcode, 3, 10, place), *TAKEN)]


def parted(slots: List[str]) -> List[str]:
    """Slots that a jump lets some calls pass over: those of which R1 is odd."""
    return [slot(0x45, 1, 0, len(slots), 1), *slots]


def at_place(place: int) -> List[str]:
    """Bytes are stored around a place; those at it are loaded in all calls and in some, stored in
    all and in some, and then all are loaded."""
    around = min(max(place - 8, -STACK_BYTES), -24)
    windows = [around, around + 8, around + 16]
    slots = [slot(0x7b, 10, 1, window) for window in windows]
    slots += loads(place) + parted(loads(place))
    for register, number, source, size in STORES:
        if place + size <= 0:
            slots += [slot(register, 10, source, place),
                      *parted([slot(number, 10, 0, place, -0x12345678)])]
    return slots + [part for window in windows for part in (slot(0x79, 3, 10, window), *TAKEN)]


def programs() -> Iterator[Tuple[str, List[str], str]]:
    for first in range(-STACK_BYTES, 0, PLACES_A_PROGRAM):
        places = range(first, first + PLACES_A_PROGRAM)
        yield 'places from %d' % first, [MOVE,
                                         *(code for place in places for code in at_place(place)),
                                         EXIT], 'binary'


def sessions() -> Iterator[Session]:
    pairs = [pair_of(WORDS, 7 * lane + 64) for lane in range(64)]
    yield from sessions_of('places of the stack', Laid([pairs, pairs[:1], pairs[1:2]]), programs())
