"""Matrix text by the library `spmat_lib`, and without it: the same entries, texts and refusals."""
import os
import random
import resource
import subprocess
import sys
import unittest
from unittest import mock

import numpy

import spmat
from spmat import library
from spmat.io import matrix_text
from spmat.io.matrix_text import Triples
from spmat.wire import commands

TEXT = matrix_text.BANNER + b'3 12 5\n1 1 41\n1 12 0\n2 3 -7\n3 1 9223372036854775807\n3 10 -10\n'
ODD = b'\x00\t\n\r +-0159%,.e\xff'
HAS_LIBRARY = library.load() is not None
wants_library = unittest.skipUnless(HAS_LIBRARY, 'no library: tools/build makes it')
SHORT_OF_MEMORY = """
import resource, numpy
from spmat.io import matrix_text
count = 1 << 20
places = numpy.arange(count)
text = matrix_text.write(matrix_text.Triples(places * 0, places, places, 1, count))
with open('/proc/self/statm') as file:
    used = int(file.read().split()[0]) * resource.getpagesize()
resource.setrlimit(resource.RLIMIT_AS, (used + 24 * count + (4 << 20), -1))
try:
    matrix_text.read(text)
except MemoryError as fault:
    print(fault)
"""


def without_library():
    return mock.patch.object(matrix_text, 'load', lambda: None)


def listed(triples):
    return [part.tolist() for part in triples[:3]] + list(triples[3:])


def outcome(read, text):
    """The entries that a text has, or None where it is refused."""
    try:
        return listed(read(text))
    except (ValueError, spmat.ProtocolError):
        return None


def shown(text):
    return commands.read_shown('show A', text, (3, 12), 5)


def altered(text):
    """A text with each byte left out, doubled, or replaced; and each beginning of it."""
    for at in range(len(text)):
        yield text[:at]
        yield text[:at] + text[at + 1:]
        yield text[:at] + text[at:at + 1] + text[at:]
        for byte in ODD:
            yield text[:at] + bytes([byte]) + text[at + 1:]


def some_entries(count, seed):
    """Entries by ascending row and column, whose values have every length and both signs."""
    random_ = random.Random(seed)
    places = sorted(random_.sample(range(5 * count), count))
    ends = [0, 9, -10, 10 ** 8, 10 ** 16 - 1, 2 ** 63 - 1, -2 ** 63]
    values = [random_.choice(ends) if k % 5 == 0
              else random_.randrange(-1 << random_.randrange(1, 63), 1 << 40) for k in range(count)]
    columns = max(1, count // 3)
    return Triples(numpy.array([k // columns for k in places], numpy.int64),
                   numpy.array([k % columns for k in places], numpy.int64),
                   numpy.array(values, numpy.int64), 5 * count // columns + 1, columns)


@wants_library
class BothWays(unittest.TestCase):
    """What the library reads and writes, numpy does."""

    def test_entries(self):
        for count in (0, 1, 2, 63, 64, 500, 20000):
            triples = some_entries(count, seed=count)
            text = matrix_text.write(triples)
            self.assertEqual(listed(matrix_text.read(text)), listed(triples))
            ones = triples._replace(values=numpy.ones(count, numpy.int64))
            written = [matrix_text.write(ones, ones=bare, symmetric=alike)
                       for bare in (False, True) for alike in (False, True)]
            with without_library():
                self.assertEqual(matrix_text.write(triples), text)
                self.assertEqual(listed(matrix_text.read(text)), listed(triples))
                self.assertEqual([matrix_text.write(ones, ones=bare, symmetric=alike)
                                  for bare in (False, True) for alike in (False, True)], written)

    def test_order_of_the_arrays(self):
        """Lines are written as entries come, also where a position comes twice."""
        places = numpy.array([5, 3, 3] * 100)
        triples = Triples(places, places[::-1].copy(), places * -9, 6, 6)
        text = matrix_text.write(triples)
        self.assertEqual(text.split(b'\n')[2:5], [b'6 4 -45', b'4 4 -27', b'4 6 -27'])
        with without_library():
            self.assertEqual(matrix_text.write(triples), text)

    def test_indices_of_no_matrix(self):
        for index in (-1, 1 << 24, (1 << 63) - 1):
            column = numpy.arange(100)
            column[50] = index
            self.assertIsNone(matrix_text.write_by_library(b'', numpy.arange(100), column, None))
            self.assertIsNone(matrix_text.write_by_library(b'', column, numpy.arange(100), None))
        self.assertIsNone(matrix_text.write_by_library(b'', numpy.arange(100), numpy.arange(99), None))
        self.assertIsNone(matrix_text.write_by_library(b'', column, column, numpy.arange(99)))

    def test_many_blank_rows(self):
        text = matrix_text.BANNER + b'16777216 1 2\n7 1 5\n16777216 1 6\n'
        with mock.patch.object(matrix_text, 'read_by_library') as used:
            self.assertEqual(listed(matrix_text.read(text))[:3], [[6, 16777215], [0, 0], [5, 6]])
        used.assert_not_called()


@wants_library
class Altered(unittest.TestCase):
    """Texts with one fault, through ctypes and without it."""

    def test_replies(self):
        """Of a short reply only the text that the server writes is taken, both ways."""
        taken = 0
        for text in altered(TEXT):
            got = outcome(shown, text)
            with without_library():
                self.assertEqual(outcome(shown, text), got, text)
            taken += got is not None
        self.assertEqual(outcome(shown, TEXT), listed(matrix_text.read(TEXT)))
        self.assertGreater(taken, 20)

    def test_texts(self):
        """The library takes what the format allows, and numpy what the server writes. No text has
        other entries by one of them."""
        both = refused = 0
        for text in altered(TEXT):
            got = outcome(matrix_text.read, text)
            with without_library():
                plain = outcome(matrix_text.read, text)
            self.assertIn(plain, (None, got), text)
            both, refused = both + (plain is not None), refused + (got is None)
        self.assertGreater(both, 20)
        self.assertGreater(refused, 500)

    def test_long_texts(self):
        """A byte amid a text that isn't compared as a whole."""
        random_ = random.Random(7)
        triples = some_entries(3000, seed=1)
        text = matrix_text.write(triples)
        start = matrix_text.head_of(text).start
        self.assertGreater(len(text), commands.LOOKED_AT_WHOLE)
        for _ in range(100):
            at = random_.randrange(start, len(text))
            other = text[:at] + bytes([random_.choice(ODD)]) + text[at + 1:]
            got = outcome(matrix_text.read, other)
            with without_library():
                self.assertIn(outcome(matrix_text.read, other), (None, got))

    def test_rules(self):
        for text, rule, line in ((b'', 1, 1), (b'%%MatrixMarket matrix array real general\n', 2, 1),
                                 (matrix_text.BANNER + b'3 3\n', 3, 2),
                                 (matrix_text.BANNER + b'3 16777217 0\n', 4, 2),
                                 (matrix_text.BANNER + b'3 3 2\n1 1 1\n1 2\n', 5, 4),
                                 (matrix_text.BANNER + b'3 3 1\n1 4 1\n', 6, 3),
                                 (matrix_text.BANNER + b'3 3 1\n1 1 9223372036854775808\n', 7, 3),
                                 (matrix_text.BANNER + b'3 3 2\n1 1 1\n1 1 1\n', 8, 4),
                                 (matrix_text.BANNER + b'3 3 2\n1 1 1\n', 9, 4),
                                 (matrix_text.BANNER + b'3 3 0\n1 1 1\n', 10, 3),
                                 (matrix_text.BANNER + b'3 3 0\n' + b'%' * 1025, 11, 3),
                                 (matrix_text.BANNER.replace(b'general', b'symmetric')
                                  + b'3 4 0\n', 12, 2)):
            _, answer = matrix_text.read_by_library(text, 0)
            self.assertEqual((answer.rule, answer.line, answer.entries), (rule, line, 0), text)

    def test_arrays_that_are_too_short(self):
        """They are left as they are, whatever a text says of its entries."""
        with mock.patch.object(numpy, 'empty', lambda size, kind: numpy.full(size, 7, kind)):
            found, answer = matrix_text.read_by_library(TEXT, 4)
        self.assertEqual((answer.rule, answer.rows, answer.columns, answer.entries), (0, 3, 12, 5))
        self.assertTrue((found == 7).all())

    def test_memory(self):
        """A reader that gets no memory says so, and nothing else happens."""
        child = subprocess.run([sys.executable, '-c', SHORT_OF_MEMORY], capture_output=True,
                               text=True, timeout=60, check=False,
                               env={**os.environ, 'PYTHONPATH': os.pathsep.join(sys.path)})
        self.assertEqual((child.returncode, child.stderr), (0, ''))
        self.assertRegex(child.stdout, r'^no memory to read a text of \d+ bytes\n$')
        self.assertEqual(resource.getrlimit(resource.RLIMIT_AS)[0], resource.RLIM_INFINITY)


class Found(unittest.TestCase):
    """Which file is the library."""

    def setUp(self):
        library.load.cache_clear()
        self.addCleanup(library.load.cache_clear)

    def named(self, path):
        return mock.patch.dict(os.environ, {library.VARIABLE: path})

    def test_the_one_that_is_named(self):
        """A step of the gate names the library that it built: that one is loaded, and reads."""
        path = os.environ.get(library.VARIABLE)
        if not path:
            self.skipTest('SPMAT_LIBRARY names none')
        self.assertEqual(library.find(), path)
        with mock.patch.object(matrix_text, 'read_by_library', wraps=matrix_text.read_by_library) as used:
            self.assertEqual(matrix_text.read(TEXT).nrows, 3)
        used.assert_called_once()
        self.assertIsNotNone(matrix_text.read_by_library(TEXT, 5))

    def test_none(self):
        with self.named(''):
            self.assertIsNone(library.load())
            self.assertEqual(matrix_text.read(TEXT).ncols, 12)

    def test_no_library(self):
        for path in ('/nonexistent/libspmat.so', __file__, 'libc.so.6'):
            with self.named(path), self.assertRaisesRegex(OSError, 'SPMAT_LIBRARY names no library '
                                                          'of spmat'):
                library.load()

    def test_places(self):
        """Where no variable names one, the first that is there is taken, but none that is
        damaged."""
        with mock.patch.dict(os.environ):
            os.environ.pop(library.VARIABLE, None)
            with mock.patch.object(library, 'PLACES', ('/nonexistent/one', __file__)):
                self.assertEqual(library.find(), __file__)
                self.assertIsNone(library.load())
            with mock.patch.object(library, 'PLACES', ()):
                self.assertIsNone(library.find())

    @wants_library
    def test_another_interface(self):
        with mock.patch.object(library, 'INTERFACE', 1):
            self.assertIsNone(library.load())
