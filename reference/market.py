"""Matrix text, both ways (docs/protocol.md, "Matrix text")."""
from typing import Dict, List, Tuple
from .matrix import Matrix
from .words import (LONGEST_LINE, WORD, Refusal, fits, is_number, is_value, lines_of, signed,
                    words_of)

BANNER = b'%%MatrixMarket'
MOST = 16777216
MOST_SYMMETRIC = 8388608


class Reader:
    """Reads the lines of a text in order. What is faulty in a line is refused with that line."""

    def __init__(self, text: bytes) -> None:
        self.lines = lines_of(text)
        self.number = 0

    def next_line(self, missing: str) -> List[bytes]:
        """The words of the next line; where there is none, it is the fault that is named for it."""
        self.number += 1
        if self.number > len(self.lines):
            raise self.fault(missing)
        if len(self.lines[self.number - 1]) > LONGEST_LINE:
            raise self.fault('M11')
        return words_of(self.lines[self.number - 1])

    def next_words(self, missing: str) -> List[bytes]:
        """The words of the next line that isn't passed over."""
        while True:
            words = self.next_line(missing)
            if words and not words[0].startswith(b'%'):
                return words

    def fault(self, rule: str) -> Refusal:
        return Refusal(rule, self.number)


def read(text: bytes) -> Matrix:
    """The matrix that a text stands for, or the refusal of its first faulty line."""
    reader = Reader(text)
    pattern, symmetric = read_banner(reader)
    rows, columns, entries = read_sizes(reader, symmetric)
    cells: Dict[int, Dict[int, int]] = {}
    for _ in range(entries):
        i, j, word = read_entry(reader, rows, columns, pattern)
        if j in cells.get(i, {}):
            raise reader.fault('M8')
        cells.setdefault(i, {})[j] = word
        if symmetric:
            cells.setdefault(j, {})[i] = word
    while reader.number < len(reader.lines):
        words = reader.next_line('')
        if words and not words[0].startswith(b'%'):
            raise reader.fault('M10')
    return Matrix(rows, columns, cells)


def read_banner(reader: Reader) -> Tuple[bool, bool]:
    """Whether the text is a pattern, and whether it is symmetric."""
    words = reader.next_line('M1')
    if len(words) != 5 or words[0] != BANNER:
        raise reader.fault('M1')
    kind, layout, field, symmetry = [word.lower() for word in words[1:]]
    allowed = (b'matrix',), (b'coordinate',), (b'integer', b'pattern'), (b'general', b'symmetric')
    if any(word not in known for word, known in zip((kind, layout, field, symmetry), allowed)):
        raise reader.fault('M2')
    return field == b'pattern', symmetry == b'symmetric'


def read_sizes(reader: Reader, symmetric: bool) -> Tuple[int, int, int]:
    words = reader.next_words('M3')
    if len(words) != 3 or not all(is_number(word) for word in words):
        raise reader.fault('M3')
    rows, columns, entries = [int(word) for word in words]
    if max(rows, columns, entries) > MOST or (symmetric and entries > MOST_SYMMETRIC):
        raise reader.fault('M4')
    if symmetric and rows != columns:
        raise reader.fault('M12')
    return rows, columns, entries


def read_entry(reader: Reader, rows: int, columns: int, pattern: bool) -> Tuple[int, int, int]:
    """A position, from 0, and its word."""
    words = reader.next_words('M9')
    if len(words) != (2 if pattern else 3) or not all(is_number(word)
                                                      for word in words[:2]) or not all(
                                                          map(is_value, words[2:])):
        raise reader.fault('M5')
    i, j, value = int(words[0]), int(words[1]), 1 if pattern else int(words[2])
    if not (1 <= i <= rows and 1 <= j <= columns):
        raise reader.fault('M6')
    if not fits(value):
        raise reader.fault('M7')
    return i - 1, j - 1, value & WORD


def write(matrix: Matrix) -> bytes:
    """The canonical text."""
    lines = ['%%MatrixMarket matrix coordinate integer general',
             '%d %d %d' % (matrix.rows, matrix.columns, matrix.entries)]
    lines += ['%d %d %d' % (i + 1, j + 1, signed(word)) for i, row in matrix.cells.items()
              for j, word in row.items()]
    return ''.join(line + '\n' for line in lines).encode()
