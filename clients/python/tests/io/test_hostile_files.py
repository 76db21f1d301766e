"""Files of untrusted users: each is a graph or is refused, in little time and memory, and nothing
else of the machine is touched."""
import bz2
import gzip
import io
import json
import lzma
import os
import pathlib
import subprocess
import sys
import tempfile
import time
import unittest
import zipfile
from unittest import mock

import support
import spmat
from spmat.io import files

MARKET = b'%%MatrixMarket matrix coordinate integer general\n'
SOUND = {'entries': '0.mtx', 'rows': None, 'columns': None, 'unnamed': ['positions', 'positions'],
         'directed': None, 'weighted': None, 'source': ''}
# What a file says of a matrix of two rows and two columns, and what is said of it.
WRONG = [
    ({'rows': {'first': 0, 'count': 10 ** 10}}, '10000000000 names from 0 on, for 2 vertices'),
    ({'rows': {'first': 0, 'count': 10 ** 30}}, 'names from 0'),
    ({'rows': {'first': 0, 'count': -4}}, '-4 names'),
    ({'rows': {'first': 10 ** 30, 'count': 2}}, '2 names from'),
    ({'rows': {'first': 'a', 'count': 2}}, 'whole numbers'),
    ({'rows': {'first': True, 'count': 2}}, 'whole numbers'), ({'rows': {}}, 'first'),
    ({'rows': ['a', 'b', 'c']}, '3 names for 2 vertices'),
    ({'rows': ['a', 'a']}, "the name 'a' stands twice"), ({'rows': 'ab'}, 'expected list'),
    ({'rows': [[[]], {'a': 1}]}, 'damaged'),
    ({'rows': ['a', 'b'], 'columns': 'rows', 'values': ['a']}, 'are vertices'),
    ({'rows': [{'datetime64': '2024', 'unit': 'V1000000000'}, 1]}, 'no kind of times'),
    ({'rows': [{'date': 5}, 1]}, 'damaged'),
    ({'directed': {'a': 1}}, 'directed: expected bool'),
    ({'weighted': 'x'}, 'weighted: expected bool'), ({'source': None}, 'source: expected str'),
    ({'unit': '1e999999999'}, 'a unit is a number above 0'), ({'unit': '-1'}, 'a unit is'),
    ({'unit': 'x'}, 'a unit is'),
    ({'unnamed': ['x', 'y']}, "'X'"), ({'unnamed': ['numbers']}, 'expected two words'),
    ({'unnamed': 'numbers'}, 'expected list'),
    ({'values': {'first': 0, 'count': 5}}, 'are vertices, and there are 5'),
    ({'entries': 'none'}, 'none'), ({'entries': 7}, 'entries: expected str')]


class Archives(support.InSession):
    """`load`: what a file says is held against the sizes of its matrices before anything is
    made."""

    def setUp(self):
        self.folder = (self.enterContext(tempfile.TemporaryDirectory())
                       if hasattr(self, 'enterContext') else tempfile.mkdtemp())
        self.path = os.path.join(self.folder, 'w.spmat')

    def write(self, contents, text=MARKET + b'2 2 1\n1 1 5\n', odd=()):
        with zipfile.ZipFile(self.path, 'w', zipfile.ZIP_DEFLATED) as file:
            file.writestr('matrices.json', contents if isinstance(contents, str)
                          else json.dumps({'spmat': 2, 'matrices': contents}))
            file.writestr('0.mtx', text)
            for name, data in odd:
                file.writestr(name, data)

    def refused(self):
        """What is said of the file, which is refused before a matrix is made."""
        before = self.s.connection.commands
        with self.assertRaises(spmat.ReadError) as said:
            self.s.load(self.path)
        self.assertEqual(self.s.connection.commands, before)
        self.assertIn(self.path, str(said.exception))
        return str(said.exception)

    def test_counts_and_kinds(self):
        self.write({'G': SOUND})
        self.assertEqual(self.s.load(self.path)['G'].to_triples(), [(0, 0, 5)])
        for about, said in WRONG:
            with self.subTest(about):
                self.write({'first': SOUND, 'G': {**SOUND, **about}} if 'values' not in about
                           else {'G': {**SOUND, **about}})
                self.assertIn(said, self.refused())

    def test_contents(self):
        """Nests, blanks without end, and what is no dictionary."""
        for contents in ('[' * 100000, '{"spmat": 2, "matrices": ' + '[' * 100000, '1', '{}',
                         '{"spmat": 2}', '{"spmat": 2, "matrices": [1]}',
                         '{"spmat": 2, "matrices": {"G": 1}}', '{"spmat": 9}', ' ' * 5_000_000):
            with self.subTest(contents[:40]):
                self.write(contents)
                self.refused()

    def test_texts(self):
        """Entries that are none, of sizes that none has, or packed beyond what texts are."""
        for text in (b'', b'x', MARKET, MARKET + b'2 2\n', MARKET + b'x y z\n',
                     MARKET + b'-1 2 0\n'):
            self.write({'G': SOUND}, text)
            self.refused()
        for text in (MARKET + b'2 2 1\n9 9 1\n', MARKET + b'2 2 2\n1 1 1\n1 1 1\n'):
            # the server reads these
            self.write({'G': SOUND}, text)
            with self.assertRaises(spmat.ReadError):
                self.s.load(self.path)
        self.write({'G': SOUND}, MARKET + b'2 2 0\n' + b'\n' * 5_000_000)
        with mock.patch.object(spmat.io.archive, 'SMALL', 1 << 20):
            self.assertIn('unpacks to more than 100 times its length', self.refused())

    def test_damage(self):
        """Each byte of a file, altered, gives what was saved or a ReadError."""
        self.s.save(self.path, G=self.s.from_edgelist([('a', 'b', 3), ('b', 'c', 4)]))
        whole = pathlib.Path(self.path).read_bytes()
        for at in range(0, len(whole), 3):
            with open(self.path, 'wb') as file:
                file.write(whole[:at] + bytes([whole[at] ^ 0x41]) + whole[at + 1:])
            try:
                self.s.load(self.path)
            except spmat.ReadError:
                pass


class Packed(support.InSession):
    """Files that unpack to far more than they are."""

    def test_max_bytes(self):
        text = b'a,b,1\n' * 1000 + b'c,d,2\n'
        for pack in (lambda data: data, gzip.compress, bz2.compress, lzma.compress):
            for read in (self.s.read_graph, self.s.read_edgelist):
                with self.assertRaisesRegex(spmat.ReadError,
                                            'more than 6,005 bytes.*max_bytes= says'):
                    read(io.BytesIO(pack(text)), max_bytes=6005, dup_op='plus', sep=',')
                self.assertEqual(read(io.BytesIO(pack(text)), max_bytes=6006, dup_op='plus',
                                      sep=',').nvals, 2)
        with self.assertRaisesRegex(spmat.ReadError, 'more than 60 bytes'):
            self.s.mmread(io.BytesIO(MARKET + b'1 1 1\n1 1 100000\n'), max_bytes=60)
        for wrong, kind in ((0, ValueError), ('7', TypeError), (1.5, TypeError), (True, TypeError)):
            self.assertRaises(kind, self.s.read_graph, io.BytesIO(text), max_bytes=wrong)

    def test_matrix_market(self):
        """A packed one has at most the bytes that a session takes, and that is seen while it is
        unpacked."""
        text = MARKET + b'1 1 1\n1 1 1\n' + b'\n' * (1 << 15)
        with mock.patch.object(files, 'MOST_TEXT', 1 << 14), \
                mock.patch.object(files, 'PIECE', 1 << 12):
            for read in (self.s.read_graph, self.s.mmread):
                with self.assertRaisesRegex(spmat.ReadError, 'more than 16,384 bytes'):
                    read(io.BytesIO(gzip.compress(text)))
                self.assertEqual(read(io.BytesIO(gzip.compress(text)), max_bytes=1 << 17).nvals, 1)
                self.assertEqual(read(io.BytesIO(text)).nvals, 1)

    def test_bombs(self):
        """Six gigabytes of empty lines in less than a megabyte are refused in the time that a
        hundred megabytes take."""
        bomb = lzma.compress(b'\n' * (1 << 24)) * 400
        begun = time.monotonic()
        with self.assertRaisesRegex(spmat.ReadError, 'unpacks to more than 100 times its length'):
            self.s.read_graph(io.BytesIO(bomb))
        self.assertLess(time.monotonic() - begun, 30)


class Wide(support.InSession):
    """Headers of many columns: linear time, and a question where nobody can know which are
    meant."""

    def test_wide(self):
        for count in (250, 10000):
            columns = ','.join('c%d' % at for at in range(count))
            row = ','.join(['1'] * (count + 2))
            begun = time.monotonic()
            for heads, said in (('source,target', 'say which has the value, or values=False'),
                                ('left_x,right_x', 'say which have the names'),
                                ('p,q', 'columns=')):
                with self.assertRaisesRegex(spmat.ReadError, said) as refusal:
                    self.s.read_graph(io.BytesIO(('%s,%s\n%s\n' % (heads, columns, row)).encode()),
                                      sep=',')
                self.assertLess(len(str(refusal.exception)), 1000)
            text = 'source,target,%s\n%s\n' % (columns, row)
            self.assertEqual(self.s.read_graph(io.BytesIO(text.encode()), columns=(0, 1),
                                               sep=',').nvals, 1)
            self.assertLess(time.monotonic() - begun, 40)

    def test_known_words(self):
        """Thousands of columns that may each be an end are not held against each other."""
        head = ','.join('from_x%d,to_x%d' % (at, at) for at in range(5000))
        begun = time.monotonic()
        with self.assertRaisesRegex(spmat.ReadError, '10000 columns: say which'):
            self.s.read_graph(io.BytesIO((head + '\n' + ','.join('1' * 10000)).encode()),
                              sep=',')
        self.assertLess(time.monotonic() - begun, 10)


class Written(support.InSession):
    """Files are written under names that nobody can guess, and no link is followed."""

    def test_links(self):
        G = self.s.from_edgelist([('a', 'b', 1)])
        with tempfile.TemporaryDirectory() as folder:
            victim, path = os.path.join(folder, 'victim'), os.path.join(folder, 'out')
            for write in (G.to_csv, G.write_edgelist, G.mmwrite,
                          lambda path: self.s.save(path, G=G)):
                pathlib.Path(victim).write_text('precious', 'ascii')
                with mock.patch.object(files.secrets, 'token_hex', lambda count: 'known'):
                    os.symlink(victim, path + '.known.part')
                    self.assertRaises(FileExistsError, write, path)
                    self.assertTrue(os.path.islink(path + '.known.part'))
                    os.remove(path + '.known.part')
                write(path)
                self.assertFalse(os.path.islink(path))
                self.assertEqual(pathlib.Path(victim).read_text('ascii'), 'precious')
                self.assertEqual(sorted(os.listdir(folder)), ['out', 'victim'])


@unittest.skipUnless(os.path.exists(os.path.join(support.TOP, 'tests', 'fuzz')), 'no repository')
class Fuzz(unittest.TestCase):
    def test_some_files(self):
        """Files of each format, altered, cut, nested and packed: a graph of each, or a refusal.
        tests/fuzz/files.py goes on with others."""
        fuzzer = os.path.join(support.TOP, 'tests', 'fuzz', 'files.py')
        done = subprocess.run([sys.executable, fuzzer, '120', '--seed', '7', '--most', '150',
                               '--program', support.program()], check=False, capture_output=True,
                              text=True, env={**os.environ, 'PYTHONPATH': support.CLIENT})
        self.assertEqual(done.returncode, 0, done.stdout)
        self.assertIn('faults: 0', done.stdout)
