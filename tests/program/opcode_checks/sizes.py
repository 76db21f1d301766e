"""Operators as long as they may be, and code of all sizes."""
from typing import Iterator, List

from .exchanges import Exchange, Session
from .lanes import Laid, all_pairs, sessions_of
from .programs import EXIT, MOVE, ZERO, slot, upload, uploaded
from .values import called

from tests.lib.limits import MOST_SLOTS

WIDE_LOAD = ['1800000007000000', '0000000009000000']

# Stores of 0 at four places.
STORES = [slot(0x7a, 10, 0, place) for place in (-8, -16, -24, -512)]


def long_with_jump(skipped: int) -> List[str]:
    """An operator of 4,096 slots: a test at slot 1 that jumps over so many slots where x is y, and
    additions of 1."""
    return [MOVE, slot(0x1d, 1, 2, skipped), *[slot(0x07, immediate=1)] * 4093, EXIT]


def branches(store_of: List[str], count: int) -> List[str]:
    """So many branches, each over a store."""
    return [part for number in range(count)
            for part in (slot(0x15, 1, 0, 1, number), store_of[number % len(store_of)])]


def long_calls() -> Iterator[Exchange]:
    yield called('over 4,093 slots', long_with_jump(4093), 'binary', (5, 5), 5, 3)
    yield called('through 4,093 slots', long_with_jump(4093), 'binary', (5, 6), 4098, 4096)
    # 2,047 branches over stores into four places: 2^2047 ways
    yield called('2,047 branches', [*branches(STORES, 2047), ZERO, EXIT], 'unary', (7,), 0, 4095)
    # a byte that was stored on all ways but one is loaded at the end
    one_way = [*branches([slot(0x72, 10, 0, -1)], 2046), ZERO, ZERO, slot(0x71, 0, 10, -1), EXIT]
    yield Exchange('one way of many', upload('f', one_way, 'unary'), b'no V16 4094\n')


def all_sizes() -> Iterator[Exchange]:
    """Code of each multiple of eight slots, and of the sizes around powers of two."""
    sizes = {*range(8, MOST_SLOTS + 1, 8), *(1 << power for power in range(1, 13)),
             *((1 << power) - 1 for power in range(2, 13))}
    for size in sorted(sizes):
        code = [MOVE, *[slot(0x07, immediate=1)] * (size - 2), EXIT]
        yield Exchange('%d slots' % size, upload('f', code, 'unary'), uploaded(code))
    loads = WIDE_LOAD * (MOST_SLOTS // 2 - 1)
    yield called('2,047 wide loads', [*loads, ZERO, EXIT], 'unary', (5,), 0, 2049)
    yield Exchange('2,048 wide loads', upload('f', loads + WIDE_LOAD, 'unary'), b'no V10 4094\n')
    yield Exchange('half a wide load', upload('f', loads + WIDE_LOAD[:1], 'unary'), b'no V6 4094\n')


def sessions() -> Iterator[Session]:
    yield Session('sizes', list(long_calls()), literal=True)
    yield Session('code of all sizes', list(all_sizes()))
    laid = Laid([all_pairs([0, (1 << 64) - 1]), [(0, 0)], [(0, 5)],
                 [(5, 6)] * 16 + [(5, 5)] * 16 + [(6, 5)] * 32])
    yield from sessions_of('long operators', laid,
                           ((('over %d slots' % skipped), long_with_jump(skipped), 'binary')
                            for skipped in (256, 4093)))
