"""Each built-in operator, through the program, beside what Python says of it; and the table of
docs/operators.md beside the files."""
import collections
import os
import pathlib
import random
import re
import subprocess
import sys
import unittest
import zlib

import support
import spmat
from operator_model import signed
from ready_meanings import BINARY, INDEX, MEANINGS, UNARY
from spmat.result_metadata import COMMUTE
from spmat.operators import other_names

FOLDER = os.path.join(os.path.dirname(os.path.abspath(spmat.__file__)), 'operators')
READY = {'unary': spmat.unary, 'binary': spmat.binary, 'index': spmat.indexunary}
# built-in operators that another one does the same as, by its own name
SECOND_NAMES = ('any', 'iseq', 'isne', 'oneb')


EDGES = [0, 1, -1, 2, -2, 3, 7, -7, 31, 32, 63, 64, 65, 2 ** 31 - 1, 2 ** 31, -2 ** 31, 2 ** 32,
         2 ** 62, -2 ** 63, 1 - 2 ** 63, 2 ** 63 - 1]
THUNKS = [0, 1, -1, 2, -3, 5, 2 ** 31, 2 ** 63 - 1, -2 ** 63]


def file_of(kind, name):
    return pathlib.Path(os.path.join(FOLDER, kind, name + '.asm')).read_text('ascii')


def instructions(text):
    return [line for line in text.split('\n') if line and not line.startswith(';')]


class ReadyOperators(support.InSession):
    @classmethod
    def setUpClass(cls):
        super().setUpClass()
        random_ = random.Random(1)
        word = lambda: random_.choice((random_.randrange(-2 ** 63, 2 ** 63),
                                       random_.randrange(-20, 20)))
        pairs = [(x, y) for x in EDGES for y in EDGES] + [(word(), word()) for _ in range(200)]
        cls.x, cls.y = zip(*pairs)
        size = len(pairs)
        cls.X, cls.Y = (cls.session.from_coo([0] * size, range(size), list(part), 1, size)
                        for part in (cls.x, cls.y))

    def test_files_have_a_meaning_here(self):
        for kind, meanings in MEANINGS.items():
            self.assertEqual(READY[kind].ready(), sorted(meanings))
            self.assertEqual(sorted(READY[kind]), sorted(meanings))
        with open(os.path.join(support.TOP, 'docs', 'operators.md'), encoding='utf-8') as page:
            self.assertIn('%d operators are [built in]' % sum(map(len, MEANINGS.values())),
                          page.read())

    def test_unary(self):
        for name, meaning in UNARY.items():
            self.assertEqual(self.X.apply(name).to_list(), [signed(meaning(x)) for x in self.x],
                             name)

    def test_binary(self):
        for name, meaning in BINARY.items():
            want = [signed(meaning(x, y)) for x, y in zip(self.x, self.y)]
            self.assertEqual(self.X.ewise_mult(self.Y, name).to_list(), want, name)

    def test_operands_in_either_order(self):
        """What is noted to commute does, and each other operator has two words of which it tells
        the order."""
        for name, meaning in BINARY.items():
            turned = all(signed(meaning(x, y)) == signed(meaning(y, x))
                         for x, y in zip(self.x, self.y))
            self.assertEqual(turned, name in COMMUTE, name)

    def test_bound(self):
        """A binary operator whose right or left operand is a thunk."""
        for name, meaning in BINARY.items():
            for t in THUNKS:
                self.assertEqual(self.X.apply(name, right=t).to_list(),
                                 [signed(meaning(x, t)) for x in self.x], (name, t))
                self.assertEqual(self.X.apply(name, left=t).to_list(),
                                 [signed(meaning(t, x)) for x in self.x], (name, t))

    def test_index(self):
        entries = [(k // 12, k % 12, x)
                   for k, x in enumerate(self.x[:144])] + [(299, 3, 5), (4, 2 ** 24 - 1, 5)]
        A = self.session.from_triples(entries, 300, 2 ** 24)
        entries.sort()
        for name, meaning in INDEX.items():
            for t in THUNKS:
                applied = [(i, j, signed(meaning(x, i, j, t))) for i, j, x in entries]
                selected = [(i, j, x) for i, j, x in entries if meaning(x, i, j, t)]
                self.assertEqual(A.apply(name, right=t).to_triples(), applied, (name, t))
                self.assertEqual(A.select(name, t).to_triples(), selected, (name, t))

    def test_files(self):
        """Each is a comment with its meaning and its instructions, which are what the server has of
        it."""
        for kind in MEANINGS:
            for name in READY[kind].ready():
                text = file_of(kind, name)
                self.assertRegex(text, r'\A; .{1,100}\n([a-z0-9]+( [^;#\n]+)?\n)*exit\n\Z',
                                 (kind, name))
                self.assertEqual(self.session.dis(READY[kind][name]).strip().split('\n'),
                                 instructions(text), (kind, name))


def tables():
    """Kind, name, meaning and instructions of each row of the tables of docs/operators.md."""
    with open(os.path.join(support.TOP, 'docs', 'operators.md'), encoding='utf-8') as file:
        section = file.read().split('\n## Built-in operators\n')[1].split('\n## ')[0]
    kind = None
    for line in section.split('\n'):
        head = re.match(r'\| `(unary|binary|index)` \|', line)
        row = re.match(r'\| `(\w+)` \| (.+?) \| (\d+) \|', line)
        if head:
            kind = head[1]
        elif row:
            yield kind, row[1], row[2], int(row[3])


@unittest.skipUnless(os.path.exists(os.path.join(support.TOP, 'docs', 'operators.md')),
                     'the package stands without the repository')
class Table(unittest.TestCase):
    def test_table_is_that_of_the_files(self):
        rows = list(tables())
        files = [(kind, name, file_of(kind, name)) for kind in MEANINGS for name in READY[kind].ready()]
        want = [(kind, name, text.split('\n')[0][2:], len(instructions(text)))
                for kind, name, text in files]
        self.assertEqual(sorted(rows), sorted(want))


class Texts(unittest.TestCase):
    """A function is found to be a built-in operator by its instructions."""

    def test_each_has_a_text_of_its_own(self):
        """Second names aside, so that a text is one operator; and it is found by its checksum."""
        checksums = {}
        for kind, ready in READY.items():
            texts = collections.defaultdict(list)
            for name in ready.ready():
                texts[ready[name].bare_text].append(name)
            for text, names_of_one in texts.items():
                with self.subTest(kind=kind, names=names_of_one):
                    name, = (name for name in names_of_one if name not in SECOND_NAMES)
                    checksums['%08x' % zlib.crc32(('%s\n%s' % (kind, text)).encode())] = name
        self.assertEqual(other_names.READY_BY_CHECKSUM, checksums)

    def test_functions_that_are_ready(self):
        for made, name in ((spmat.binary(lambda x, y: x + y), 'plus'),
                           (spmat.binary(lambda x, y: x), 'first'),
                           (spmat.unary(lambda x: ~x), 'bnot')):
            self.assertEqual((made.name, made.text), (name, READY[made.kind][name].text))
        self.assertEqual(spmat.binary(lambda x, y: y + 3 * x).name, None)

    def test_which_files_are_read(self):
        """None for a function that is no built-in operator, and that of the built-in one for
        another."""
        program = ('import builtins, spmat\nopened = []\nreal = open\n'
                   'def counting(name, *more, **words):\n'
                   '    opened.append(str(name)); return real(name, *more, **words)\n'
                   'builtins.open = counting\n'
                   'def count(): return sum(name.endswith(".asm") for name in opened)\n'
                   'spmat.binary(lambda x, y: x + 2 * y)\nfirst = count()\n'
                   'spmat.binary(lambda x, y: x + y)\nprint(first, count())\n')
        done = subprocess.run([sys.executable, '-c', program], stdout=subprocess.PIPE, check=True,
                              universal_newlines=True,
                              env=dict(os.environ, PYTHONPATH=support.CLIENT))
        self.assertEqual(done.stdout, '0 1\n')


class Semirings(unittest.TestCase):
    def test_semirings_complete(self):
        found = dir(spmat.semiring)
        self.assertIn('min_plus', found)
        self.assertEqual(sum('_' in name and not name.startswith('_') for name in found),
                         len(list(spmat.binary)) ** 2)
