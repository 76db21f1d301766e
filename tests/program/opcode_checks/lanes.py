"""Operands laid out as matrices, so that calls are made alone and up to 64 at once.

The program makes the calls of a job in the order of its entries, up to 64 at once, and begins anew
with each chunk of 256 rows. So each group of operands stands in the first row of a chunk of its
own: a group of one is called alone, one of 64 in one go, one of 130 in three.
"""
from itertools import islice
from typing import Iterable, Iterator, List, NamedTuple, Sequence, Tuple

from tests.lib.commands import matrix_command, show_reply
from tests.lib.limits import CHUNK_ROWS

from .exchanges import Exchange, Session
from .programs import Machine, Words, count_of, upload, uploaded

WORD = 1 << 64
THUNK = 7
PROGRAMS_A_SESSION = 50

# How many calls stand in a group: below the counts from which on they are made in lanes, and above.
COUNTS = [1, *range(8, 31), 63, 64, 65, 128, 130]


def signed(word: int) -> int:
    return word - WORD if word >> 63 else word

# Words that test signs, halves and bytes.
WORDS = [0, 1, WORD - 1, 0x80000000, 0xffffffff80000000, (1 << 63) - 1, 1 << 63, 2, 63, 0x100000007,
         0x0102030405060708, 0xf1e2d3c4b5a69788]


class Laid(NamedTuple):
    """Pairs of words in groups. X holds the first of each pair, and Y the second."""

    groups: List[List[Tuple[int, int]]]

    @property
    def rows(self) -> int:
        return CHUNK_ROWS * len(self.groups)

    @property
    def columns(self) -> int:
        return max(len(group) for group in self.groups)

    @property
    def entries(self) -> int:
        return sum(len(group) for group in self.groups)

    def places(self) -> Iterator[Tuple[int, int, Tuple[int, int]]]:
        """The row and the column of each pair, from 0."""
        for number, group in enumerate(self.groups):
            for column, pair in enumerate(group):
                yield CHUNK_ROWS * number, column, pair

    def text(self, values: Sequence[int]) -> bytes:
        """The canonical text of a matrix with a value at each place."""
        head = '%%%%MatrixMarket matrix coordinate integer general\n%d %d %d\n' % (
            self.rows, self.columns, self.entries)
        lines = ['%d %d %d\n' % (row + 1, column + 1, signed(value))
                 for (row, column, _), value in zip(self.places(), values)]
        return (head + ''.join(lines)).encode()

    def uploads(self) -> Exchange:
        pairs = [pair for _, _, pair in self.places()]
        command = b''.join(matrix_command(name, self.text([pair[side] for pair in pairs]))
                           for side, name in enumerate('XY'))
        reply = b'ok matrix %d %d %d\n' % (self.rows, self.columns, self.entries)
        return Exchange('operands', command, 2 * reply)

    def operands(self, kind: str) -> List[Words]:
        """The operands of each call of an operator of a kind."""
        if kind == 'unary':
            return [(x,) for _, _, (x, _) in self.places()]
        if kind == 'binary':
            return [pair for _, _, pair in self.places()]
        return [(x, row, column, THUNK) for row, column, (x, _) in self.places()]

    def outcome(self, values: Sequence[int], length: int, steps: int) -> bytes:
        """The replies to the job R of an operator of this length at all places, to `run` and to
        `show R`."""
        reply = b'ok queued 1 %d\nok run 1 %d\n' % (self.entries * length, steps)
        reply += b'R %d %d %d %d\n' % (self.rows, self.columns, self.entries, steps)
        return reply + show_reply(self.text(values))

    def exchange(self, what: str, slots: Sequence[str], kind: str) -> Exchange:
        """An operator is uploaded and called on all operands; what it gives and costs is what the
        machine says."""
        values, steps = Machine(slots).calls(self.operands(kind))
        job = {'unary': b'apply R f X', 'binary': b'both R f X Y',
               'index': b'apply R f X %d' % THUNK}[kind]
        reply = uploaded(slots) + self.outcome(values, count_of(slots), steps)
        return Exchange(what, upload('f', slots, kind) + job + b'\nrun\nshow R\n', reply)


def pair_of(words: Sequence[int], number: int) -> Tuple[int, int]:
    """The pair of this number among all pairs of words, in an order in which neighbours differ."""
    count = len(words)
    return words[number % count], words[(number // count + number) % count]


def all_pairs(words: Sequence[int]) -> List[Tuple[int, int]]:
    return [(x, y) for x in words for y in words]


def laid_out(words: Sequence[int], counts: Sequence[int] = COUNTS) -> Laid:
    """All pairs of words in one group; then in each count a group of pairs that differ, and one of
    pairs that are alike."""
    groups = [all_pairs(words)]
    for count in counts:
        groups.append([pair_of(words, 7 * lane + count) for lane in range(count)])
        groups.append([(5, 6)] * count)
    return Laid(groups)


def sessions_of(topic: str, laid: Laid,
                programs: Iterable[Tuple[str, Sequence[str], str]]) -> Iterator[Session]:
    """Sessions in which programs, each behind what it is about and before its kind, are called on
    all operands."""
    waiting = iter(programs)
    while True:
        exchanges = [laid.exchange(*each) for each in islice(waiting, PROGRAMS_A_SESSION)]
        if not exchanges:
            return
        yield Session(topic, [laid.uploads(), *exchanges])
