"""Folds of short and long rows: one row alone, and many rows at once."""
from typing import Dict, Iterator, List, Sequence, Tuple

from tests.lib.commands import matrix_command, matrix_text, show_reply

from .exchanges import Exchange, Session
from .lanes import CHUNK_ROWS, WORD, WORDS, signed
from .programs import EXIT, MOVE, Machine, count_of, slot, upload, uploaded

# How many words stand in a row. Rows of the first list stand alone in their chunk, those of the
# second together in one.
ALONE = [1, 2, 3, 4, 13, 66, 1001]
TOGETHER = [*range(1, 70), 1001, 130, 2, 1, 5]

OPERATORS: Dict[str, List[str]] = {
    # differences are not associative
    'difference': [MOVE, slot(0x1f, 0, 2), EXIT],
    # registers that a call leaves are no operands of the next
    'registers are left': [MOVE, slot(0xbf, 1, 2), slot(0x27, 1, immediate=3), slot(0x1f, 0, 1),
                           slot(0xb7, 2, immediate=7), slot(0xbf, 5), EXIT],
    # the stack keeps its bytes from call to call, and each call stores
    # those that it loads
    'stacks are left': [slot(0x7b, 10, 1, -8), slot(0x73, 10, 2, -5), slot(0x7b, 10, 2, -512),
                        slot(0x79, 0, 10, -8), slot(0x61, 3, 10, -510), slot(0x27, immediate=31),
                        slot(0x0f, 0, 3), EXIT],
    # calls of one fold cost steps of their own
    'steps differ': [MOVE, slot(0x45, 2, 0, 2, 1), slot(0x07, immediate=5), slot(0xaf, 0, 2), EXIT],
}


def row_of(count: int) -> List[int]:
    return [7] + [(WORDS[at % len(WORDS)] + at // len(WORDS)) % WORD for at in range(count - 1)]


def rows() -> Dict[int, List[int]]:
    """The words of each row that isn't empty."""
    placed = {CHUNK_ROWS * number: row_of(count) for number, count in enumerate(ALONE)}
    first = CHUNK_ROWS * len(ALONE)
    placed.update((first + 3 * number, row_of(count)) for number, count in enumerate(TOGETHER))
    return placed


def folded(machine: Machine, words: Sequence[int]) -> Tuple[int, int]:
    """What a fold comes to, and the sum of its steps."""
    value, steps = words[0], 0
    for word in words[1:]:
        value, taken = machine.call((value, word))
        steps += taken
    return value, steps


def reduced(what: str, slots: List[str], size: int, placed: Dict[int, List[int]]) -> Exchange:
    """All rows of the matrix X, of so many rows, are folded."""
    machine = Machine(slots)
    results = {row: folded(machine, words) for row, words in placed.items()}
    steps = sum(taken for _, taken in results.values())
    calls = sum(len(words) - 1 for words in placed.values())
    text = matrix_text(size, 1,
                       [(row + 1, 1, signed(value)) for row, (value, _) in sorted(results.items())])
    reply = uploaded(slots) + b'ok queued 1 %d\nok run 1 %d\nR %d 1 %d %d\n' % (
        calls * count_of(slots), steps, size, len(placed), steps)
    return Exchange(what, upload('f', slots, 'binary') + b'reduce R f X\nrun\nshow R\n',
                    reply + show_reply(text))


def written_down() -> Iterator[Exchange]:
    """Differences of rows of two and of four words, and of one."""
    entries = [(1, 1, 9), (1, 2, 2), (2, 1, 100), (2, 2, 10), (2, 5, 40), (2, 8, 30), (4, 3, -5)]
    yield Exchange('rows', matrix_command('X', matrix_text(4, 8, entries)), b'ok matrix 4 8 7\n')
    reply = b'ok op 3 3\nok queued 1 12\nok run 1 12\nR 4 1 3 12\n'
    yield Exchange('differences',
                   upload('f', OPERATORS['difference'], 'binary') + b'reduce R f X\nrun\nshow R\n',
                   reply + show_reply(matrix_text(4, 1, [(1, 1, 7), (2, 1, 20), (4, 1, -5)])))


def sessions() -> Iterator[Session]:
    yield Session('folds', list(written_down()), literal=True)
    placed = rows()
    size, columns = max(placed) + 1, max(map(len, placed.values()))
    entries = [(row + 1, at + 1, signed(word)) for row, words in placed.items()
               for at, word in enumerate(words)]
    given = Exchange('rows', matrix_command('X', matrix_text(size, columns, entries)),
                     b'ok matrix %d %d %d\n' % (size, columns, len(entries)))
    yield Session('folds of rows',
                  [given,
                   *(reduced(what, slots, size, placed) for what, slots in OPERATORS.items())])
