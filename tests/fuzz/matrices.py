"""Random matrices, their texts in many ways, and spoilt texts."""
import random
from typing import Dict, List, NamedTuple, Tuple
from .operators import WIDE_CORNERS
from .texts import altered, blanks, ended, number, parted

from tests.lib.limits import LONGEST_LINE, MOST_SIDE

SIZES = [0, 1, 1, 2, 2, 3, 3, 4, 5, 6, 9, 17, 30, 64, 65, 100, 255, 256, 257, 300, 513, 700]
LARGE = [1500, 5000, 20000, 70000]
MOST_FULL = 130
COUNTS = [0, 1, 2, 3, 5, 8, 12, 20, 30, 50, 70, 130]

Positions = Dict[Tuple[int, int], int]


class Written(NamedTuple):
    """A matrix before it is written: sizes, its entries from 1, and the words of line 1 behind
    `coordinate`."""

    rows: int
    columns: int
    entries: List[Tuple[int, int, int]]
    pattern: bool
    symmetric: bool


def value(rng: random.Random) -> int:
    way = rng.random()
    if way < 0.5:
        return rng.randrange(-9, 10)
    if way < 0.8:
        return rng.choice(WIDE_CORNERS)
    return rng.randrange(-(1 << 63), 1 << 63) >> rng.randrange(63)


def index(rng: random.Random, size: int) -> int:
    """An index from 1. Some come often, so that the entries of two large matrices have positions in
    common."""
    if size > 9 and rng.random() < 0.6:
        return min(size, rng.choice([1, 2, 3, 64, 65, 256, 257, size]))
    return rng.randrange(size) + 1


def random_matrix(rng: random.Random, rows: int, columns: int) -> Written:
    """A matrix of these sizes with some entries; here and there with all that it can have, or with
    all of them in one row, in one column or on the diagonal."""
    pattern, symmetric = rng.random() < 0.1, rows == columns and rng.random() < 0.2
    way = rng.random()
    positions: Positions = {}
    if way < 0.2 and rows * columns <= MOST_FULL:
        positions = {(i + 1, j + 1): value(rng) for i in range(rows) for j in range(columns)}
    row, column = rng.randrange(rows + 1) or 1, rng.randrange(columns + 1) or 1
    for _ in range(min(rng.choice(COUNTS), rows * columns)):
        i, j = index(rng, rows), index(rng, columns)
        if way < 0.3:
            i = row
        elif way < 0.4:
            j = column
        elif way < 0.5:
            j = min(i, columns)
        positions[i, j] = value(rng)
    if symmetric:
        positions = {(max(at), min(at)): positions[at] for at in positions}
    return Written(rows, columns, [(*at, positions[at]) for at in sorted(positions)], pattern,
                   symmetric)


def matrix_text(rng: random.Random, matrix: Written) -> bytes:
    """The matrix as a text, as `show` would write it or in another way, or spoilt."""
    plain = rng.random() < 0.5
    entries = list(matrix.entries)
    if not plain:
        rng.shuffle(entries)
    lines = [banner(rng, matrix, plain), joined(rng, [matrix.rows, matrix.columns, len(entries)],
                                                plain)]
    for i, j, word in entries:
        if matrix.symmetric and rng.random() < 0.3:
            i, j = j, i
        lines.append(joined(rng, [i, j] if matrix.pattern else [i, j, word], plain))
    if not plain:
        for _ in range(rng.choice([0, 0, 1, 3])):
            lines.insert(rng.randrange(1, len(lines) + 1),
                         rng.choice(['', ' ', '%', '% 1 1 1', '\t%%x', '%\xff\0']))
    if rng.random() < 0.14:
        lines = spoilt(rng, lines, matrix)
    text = ended(rng, [line.encode('latin-1') for line in lines], plain)
    return altered(rng, text) if rng.random() < 0.05 else text


def banner(rng: random.Random, matrix: Written, plain: bool) -> str:
    words = ['matrix', 'coordinate', 'pattern' if matrix.pattern else 'integer',
             'symmetric' if matrix.symmetric else 'general']
    if not plain:
        words = [rng.choice([word, word.upper(), word.title()]) for word in words]
    words.insert(0, '%%MatrixMarket')
    return ' '.join(words) if plain else blanks(rng) + parted(rng).join(words) + blanks(rng)


def joined(rng: random.Random, numbers: List[int], plain: bool) -> str:
    if plain:
        return ' '.join(map(str, numbers))
    return blanks(rng) + parted(rng).join(number(rng, each) for each in numbers) + blanks(rng)


def spoilt(rng: random.Random, lines: List[str], matrix: Written) -> List[str]:
    """The lines with one that breaks a rule, for the most part a chosen one."""
    rule = rng.choice(list(SPOILERS))
    return SPOILERS[rule](rng, list(lines), matrix)


def spoil_line_1(rng: random.Random, lines: List[str], matrix: Written) -> List[str]:
    words = lines[0].split()
    lines[0] = rng.choice(['', '%', ' '.join(words[:-1]), ' '.join(words + ['x']),
                           lines[0].replace('%%Matrix', '%%matrix'), lines[0][1:]])
    return lines if rng.random() < 0.8 else []


def spoil_word_of_line_1(rng: random.Random, lines: List[str], matrix: Written) -> List[str]:
    words = lines[0].split()
    others = ['real', 'array', 'complex', 'hermitian', 'skew-symmetric', 'vector', 'integer',
              'general', 'symmetrical']
    words[rng.randrange(1, 5)] = rng.choice(others)
    lines[0] = ' '.join(words)
    return lines


def spoil_sizes(rng: random.Random, lines: List[str], matrix: Written) -> List[str]:
    wrong = ['2 -2 0', '2 2', '2 2 0 0', 'x 2 0', '2 2 1.0', '+ 2 0', '-1 1 1', '2,2 0 0',
             '99999999999999999999 -1 0']
    lines[1] = rng.choice(wrong)
    return lines if rng.random() < 0.8 else lines[:1] + rng.choice([[], [''], ['%', '']])


def spoil_limits(rng: random.Random, lines: List[str], matrix: Written) -> List[str]:
    sizes = [str(matrix.rows), str(matrix.columns), str(len(matrix.entries))]
    limits = [MOST_SIDE + 1, MOST_SIDE + 1, MOST_SIDE // 2, MOST_SIDE // 2 + 1, 1 << 32, 1 << 64,
              (1 << 64) + 1, 10 ** 40]
    sizes[rng.randrange(3)] = str(rng.choice(limits))
    lines[1] = ' '.join(sizes)
    if rng.random() < 0.5:
        lines[0] = '%%MatrixMarket matrix coordinate integer symmetric'
        lines[1] = '%d %d %d' % (matrix.rows, matrix.rows, MOST_SIDE // 2 + rng.choice([0, 1, 1]))
    return lines


def spoil_shape(rng: random.Random, lines: List[str], matrix: Written) -> List[str]:
    lines[0] = '%%MatrixMarket matrix coordinate integer symmetric'
    lines[1] = '%d %d %d' % (matrix.rows, matrix.columns + rng.choice([0, 1]), len(matrix.entries))
    return lines


def spoil_entry(rng: random.Random, lines: List[str], matrix: Written) -> List[str]:
    """An entry with a word that isn't right, in its form or in its size, or with a wrong number of
    words."""
    at = rng.randrange(2, len(lines)) if len(lines) > 2 else 1
    words = lines[at].split() or ['1']
    wrong = ['x', '-', '+', '-1', '0', '1.0', '1e3', '', '7 7', str(matrix.rows + 1),
             str(matrix.columns + 1), '0' * 40 + '1', '9223372036854775807', '9223372036854775808',
             '-9223372036854775808', '-9223372036854775809', '1' * 80]
    words[rng.randrange(len(words))] = rng.choice(wrong)
    lines[at] = ' '.join(words)
    return lines


def spoil_count(rng: random.Random, lines: List[str], matrix: Written) -> List[str]:
    """A line twice, a line too few or too many, or one that is nothing."""
    at = rng.randrange(2, len(lines)) if len(lines) > 2 else 1
    way = rng.randrange(5)
    if way == 0:
        lines[at] = lines[-1]
    elif way == 1:
        lines.pop(at)
    elif way == 2:
        lines.append(rng.choice([lines[at], 'foo', '1 1 1', '%', '', '1']))
    else:
        lines.insert(rng.randrange(2, len(lines) + 1), lines[at])
        lines[1] = '%d %d %d' % (matrix.rows, matrix.columns, len(matrix.entries) + 1)
    return lines


def spoil_length(rng: random.Random, lines: List[str], matrix: Written) -> List[str]:
    """A line that is as long as it may be, or about that."""
    at = rng.randrange(len(lines) + 1)
    line = rng.choice([lines[at] if at < len(lines) else '', '%', ''])
    length = rng.choice([LONGEST_LINE - 1, LONGEST_LINE, LONGEST_LINE + 1, LONGEST_LINE + 2, 3000])
    lines[at:at + 1] = [line + rng.choice(['%', ' ', '1'])[:1] * (length - len(line))]
    return lines


SPOILERS = {'M1': spoil_line_1, 'M2': spoil_word_of_line_1, 'M3': spoil_sizes, 'M4': spoil_limits,
            'M5 M6 M7': spoil_entry,
            'M8 M9 M10': spoil_count, 'M11': spoil_length, 'M12': spoil_shape}
