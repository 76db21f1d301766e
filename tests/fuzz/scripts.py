"""Random sessions. A session consists of pieces, one command with its body each, so that it can be
cut down to what matters."""
import random
import re
from typing import Dict, List, Optional, Tuple
from reference.prices import FORMS
from tests.lib.commands import OF_OPERATORS, assembly_command, matrix_command, matrix_text
from tests.lib.limits import LONGEST_LINE, MOST_SIDE, MOST_STEPS
from . import matrices, operators, texts, uploads
from .programs import Session, reference_answer

KINDS = ['unary', 'binary', 'binary', 'index']
MATRIX_NAMES = ['A', 'B', 'C', 'D', 'E', 'M', 'f', 'a_long_name_of_32_letters_012345']
OPERATOR_NAMES = ['f', 'g', 'h', 'p', 'q', 'A', 'an_operator_with_32_letters_0123']
NO_NAMES = ['a-b', 'x' * 33, '\xe9', 'A,', '%', 'a\0', '.']
NO_COMMANDS = ['foo', 'RUN', 'run,', 'Quit', '\xff', 'mask', '%%MatrixMarket', 'matrixA', '1',
               'a' * 900]
NO_LENGTHS = ['x', '-1', '+1', '18446744073709551616', '1.0', '268435456', '268435457', '262144',
              '262145', '9' * 60, '0x1']
NO_THUNKS = ['x', '-', '9223372036854775808', '-9223372036854775809', '1.0', 'mask', '--1']
MOST_WORK = 40000       # steps that a session may take, so that it doesn't take long


class Script:
    """Writes a session, and follows which names most likely stand for what."""

    def __init__(self, rng: random.Random) -> None:
        self.rng = rng
        self.pieces: List[bytes] = []
        large = rng.random() < 0.03
        self.sizes = [rng.choice(matrices.LARGE if large else matrices.SIZES)
                      for _ in range(rng.choice([1, 2, 2, 3]))]
        self.shapes: Dict[str, Tuple[int, int]] = {}
        self.kinds: Dict[str, str] = {}
        self.results: Dict[str, Tuple[int, int]] = {}

    def write(self) -> List[bytes]:
        for _ in range(self.rng.choice([1, 2, 3])):
            self.matrix()
        for kind in self.rng.sample(['unary', 'binary', 'index'], self.rng.choice([1, 2, 3])):
            self.operator(kind)
        acts = [self.matrix] * 3 + [self.operator] * 4 + [self.job] * 10 + [self.run] * 3 + [
            self.show] * 3 + [self.look] * 2
        acts += [self.budget] + [self.wrong] * 1
        for _ in range(self.rng.choice([2, 5, 10, 20, 30])):
            self.rng.choice(acts)()
        if self.rng.random() < 0.01:
            self.many_jobs()
        if self.rng.random() < 0.007:
            self.large_product()
        if self.rng.random() < 0.001:
            self.most_rows()
        if self.rng.random() < 0.8:
            self.run()
            for name in list(self.shapes)[-3:]:
                self.command(['show', name])
        if self.rng.random() < 0.3:
            self.command(['quit'])
        return self.pieces

    def command(self, words: List[str], body: Optional[bytes] = None) -> None:
        """Adds a command, here and there with other blanks, with CR and LF, or with a fault in its
        words."""
        rng = self.rng
        if rng.random() < 0.03:
            words = self.spoil(list(words))
        way = rng.random()
        line = (' '.join(words) if way < 0.8 else texts.blanks(rng) + texts.parted(rng).join(words)
                + texts.blanks(rng))
        if rng.random() < 0.004:
            line = line.ljust(rng.choice([LONGEST_LINE - 1, LONGEST_LINE, LONGEST_LINE + 1,
                                          LONGEST_LINE + 2]))
        piece = line.encode('latin-1') + (b'\n' if way < 0.9 else b'\r\n')
        if body is not None:
            piece += body + rng.choice([b'', b'\n', b'\n', b'\r\n'])
        if rng.random() < 0.03:
            piece += rng.choice([b'\n', b' \t\n', b'\r\n', b'\n\n'])
        self.pieces.append(piece)

    def upload(self, words: List[str], body: bytes) -> None:
        length = str(len(body))
        if self.rng.random() < 0.008:
            near = str(max(0, len(body) + self.rng.choice([-20, -1, 1, 20])))
            length = self.rng.choice(NO_LENGTHS + [near, length.zfill(30)] * 4)
        self.command(words + [length], body)

    def matrix(self, shape: Optional[Tuple[int, int]] = None) -> str:
        rng = self.rng
        name = rng.choice(MATRIX_NAMES)
        rows, columns = shape or (rng.choice(self.sizes), rng.choice(self.sizes))
        self.upload(['matrix', name],
                    matrices.matrix_text(rng, matrices.random_matrix(rng, rows, columns)))
        self.shapes[name] = rows, columns
        return name

    def operator(self, kind: Optional[str] = None) -> str:
        rng = self.rng
        name, kind = rng.choice(OPERATOR_NAMES), kind or rng.choice(KINDS)
        if rng.random() < 0.3:
            self.upload(['asm', name, kind], rng.choice(operators.COMMON[kind]).encode())
        else:
            lines = operators.random_lines(rng, kind)
            if rng.random() < 0.08:
                lines = operators.spoil(rng, lines)
            if rng.random() < 0.5:
                self.upload(['asm', name, kind], uploads.assembly_text(rng, lines))
            else:
                self.upload(['op', name, kind], uploads.hexadecimal(rng, lines))
        self.kinds[name] = kind
        return name

    def operator_of(self, kind: str) -> str:
        """The name of an operator of a kind, most likely."""
        names = [name for name, known in self.kinds.items() if known == kind
                 or self.rng.random() < 0.01]
        return self.rng.choice(names or OPERATOR_NAMES)

    def matrix_of(self, rows: Optional[int] = None, columns: Optional[int] = None) -> str:
        """The name of a matrix of these sizes, most likely; one is sent where there is none."""
        names = [name for name, shape in self.shapes.items() if rows in (None, shape[0])
                 and columns in (None, shape[1]) or self.rng.random() < 0.01]
        if names and self.rng.random() < 0.95:
            return self.rng.choice(names)
        size = self.rng.choice(self.sizes)
        return self.matrix((size if rows is None else rows, size if columns is None else columns))

    def job(self) -> None:
        rng = self.rng
        command = rng.choice(list(FORMS))
        form = rng.choice(FORMS[command])
        if form.kind not in self.kinds.values() and rng.random() < 0.9:
            self.common_operator(form.kind)
        a = self.matrix_of()
        rows, columns = self.shapes.get(a, (1, 1))
        words = [self.operator_of(form.kind) for _ in range(form.operators)] + [a]
        if command == 'product':
            b = self.matrix_of(columns)
            words.append(b)
            columns = self.shapes.get(b, (1, 1))[1]
        elif form.matrices == 2:
            words.append(self.matrix_of(rows, columns))
        if form.folds_rows:
            columns = 1
        if form.has_thunk:
            words.append(texts.number(rng, matrices.value(rng)) if rng.random() < 0.97
                         else rng.choice(NO_THUNKS))
        if rng.random() < 0.35:
            words += ['mask', self.matrix_of(rows, columns)]
        out = rng.choice(MATRIX_NAMES)
        self.results[out] = rows, columns
        self.command([command, out] + words)

    def common_operator(self, kind: str) -> None:
        name = self.rng.choice(OPERATOR_NAMES)
        self.upload(['asm', name, kind], self.rng.choice(operators.COMMON[kind]).encode())
        self.kinds[name] = kind

    def run(self) -> None:
        self.command(['run'])
        self.shapes.update(self.results)
        self.results = {}

    def show(self) -> None:
        self.command(['show', self.rng.choice(list(self.shapes) or MATRIX_NAMES)])

    def look(self) -> None:
        self.command([self.rng.choice(OF_OPERATORS),
                      self.rng.choice(list(self.kinds) or OPERATOR_NAMES)])

    def budget(self) -> None:
        self.command(['budget'])

    def wrong(self) -> None:
        """A command that doesn't exist, a name that stands for nothing, or an empty line."""
        way = self.rng.randrange(4)
        if way == 0:
            self.command([self.rng.choice(NO_COMMANDS)] + ['x'] * self.rng.randrange(3))
        elif way == 1:
            self.command([self.rng.choice(['show', *OF_OPERATORS]), 'Z'])
        elif way == 2:
            self.command(['reduce', 'R', self.rng.choice(['f', 'Z']),
                          self.rng.choice(MATRIX_NAMES + ['Z'])])
        else:
            self.command([self.rng.choice(['', ' ', '\t'])])

    def spoil(self, words: List[str]) -> List[str]:
        """The words with one of them wrong."""
        rng = self.rng
        at = rng.randrange(len(words))
        way = rng.randrange(7)
        if way == 0:
            words.pop(at)
        elif way == 1:
            words.insert(at, rng.choice(['x', '0', 'mask', words[at]]))
        elif way == 2:
            words += ['mask', rng.choice(MATRIX_NAMES + ['Z'])]
        elif way == 3 and 'mask' in words:
            words[words.index('mask')] = rng.choice(['MASK', 'masks', 'x'])
        elif way == 4 and len(words) > 2:
            words[2] = rng.choice(KINDS + ['Unary', 'x', 'ternary', ''])
        elif len(words) > 1:
            words[rng.randrange(1, len(words))] = rng.choice(NO_NAMES + ['Z', 'Z'])
        return words

    def many_jobs(self) -> None:
        """As many jobs as may wait, and some more."""
        self.pieces.append(matrix_command('A', matrix_text(2, 2, [(1, 1, 5), (1, 2, 6)])))
        self.pieces.append(assembly_command('f',
                                            self.rng.choice(operators.COMMON['binary']).encode(),
                                            'binary'))
        for _ in range(self.rng.choice([60, 70])):
            self.command(['reduce', self.rng.choice(MATRIX_NAMES), 'f', 'A'])

    def most_rows(self) -> None:
        """Matrices with as many rows or columns as there may be."""
        for name in ('A', 'B'):
            rows, columns = self.rng.choice([(MOST_SIDE, 1), (1, MOST_SIDE),
                                             (MOST_SIDE, MOST_SIDE)])
            self.pieces.append(matrix_command(name,
                                              matrix_text(rows, columns, [(rows, columns, 5)])))
            self.shapes[name] = rows, columns
        for _ in range(3):
            self.job()
        self.run()

    def large_product(self) -> None:
        """A product whose result could be too large, or whose price is the greatest that may be, or
        about that."""
        rows, length = self.rng.choice([(4096, 253), (4096, 253), (4096, 254), (4097, 253),
                                        (4097, 254)])
        for name, shape in (('A', (rows, 1)), ('B', (1, 4096))):
            entries = [(i + 1, j + 1, 1) for i in range(shape[0]) for j in range(shape[1])]
            self.pieces.append(matrix_command(name, matrix_text(*shape, entries)))
        for name, text in (('p', 'mov64 r0, r1\n' * (length - 1) + 'exit\n'),
                           ('q', 'mov64 r0, r1\nmul64 r0, r2\nexit\n')):
            self.pieces.append(assembly_command(name, text.encode(), 'binary'))
        self.pieces.append(b'product C p q A B\n')


def random_session(seed: str) -> Session:
    """The session of a seed. Its budget stands for enough, for too little, or for about what its
    jobs ask for."""
    rng = random.Random(seed)
    pieces = Script(rng).write()
    if rng.random() < 0.25:
        pieces = alter(rng, pieces)
    steps = MOST_WORK if rng.random() < 0.85 else rng.choice([0, 1, 10, 100, 1000])
    session = Session(pieces, steps, rng.choice([1, 3, 64]),
                      rng.choice([0] * 15 + [1, 2, 7, 100, 4096]))
    if rng.random() < 0.25:
        replies = reference_answer(session).out
        prices = [int(price) for price in re.findall(rb'^ok queued [0-9]+ ([0-9]+)$', replies,
                                                     re.MULTILINE)]
        if not re.search(rb'^no S8 ', replies, re.MULTILINE):
            asked = sum(prices[:rng.randrange(len(prices) + 1)]) + rng.choice([-1, 0, 0, 1])
            session = session._replace(steps=rng.choice([MOST_STEPS, max(0, asked), max(0, asked)]))
    return session


def alter(rng: random.Random, pieces: List[bytes]) -> List[bytes]:
    """The pieces with some bytes changed, some pieces left out, repeated or moved, or the end cut
    off."""
    pieces = list(pieces)
    for _ in range(rng.choice([1, 1, 2, 4])):
        at, other = rng.randrange(len(pieces)), rng.randrange(len(pieces))
        way = rng.randrange(8)
        if way == 0 and len(pieces) > 1:
            pieces.pop(at)
        elif way == 1:
            pieces.insert(at, pieces[other])
        elif way == 2:
            pieces[at], pieces[other] = pieces[other], pieces[at]
        elif way == 3:
            pieces = pieces[:at] + [pieces[at][:rng.randrange(len(pieces[at]) + 1)]]
        else:
            pieces[at] = texts.altered(rng, pieces[at])
    return pieces
