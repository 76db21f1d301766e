"""Files that workers read by ranges: the matrix of one session, or its refusal; what is changed,
lost, and told meanwhile."""
import os
import pathlib
import random
import signal
import tempfile
import unittest
from unittest import mock

import pytest

import alike
import support
import spmat
import spmat_blocks as blocks
from spmat_blocks import file_parts, parallel_read, worker_store
from spmat.io import matrix_market

pytestmark = pytest.mark.slow

SYMMETRIES = ('general', 'symmetric', 'skew-symmetric')


def a_text(chance, field='integer', symmetry='general', n=None, order='ascending'):
    """A Matrix Market text with random entries."""
    n = chance.randrange(5, 60) if n is None else n
    places = {(chance.randrange(n), chance.randrange(n)) for _ in range(6 * n)}
    if symmetry != 'general':
        places = {(max(at), min(at)) for at in places if symmetry == 'symmetric' or at[0] != at[1]}
    places = sorted(places)
    if order != 'ascending':
        chance.shuffle(places)
    value = {'integer': lambda: ' %d' % chance.randrange(-9, 9),
             'real': lambda: ' %.1f' % chance.randrange(-9, 9), 'pattern': lambda: ''}[field]
    wide = order == 'zeros'
    lines = ''.join(('%08d %04d' if wide else '%d %d') % (i + 1, j + 1) + value() + '\n'
                    for i, j in places)
    return ('%%%%MatrixMarket matrix coordinate %s %s\n%% said\n%d %d %d\n'
            % (field, symmetry, n, n, len(places)) + lines).encode()


class Files(unittest.TestCase):
    def setUp(self):
        folder = support.enter(self, tempfile.TemporaryDirectory())
        self.path = os.path.join(folder, 'graph.mtx')
        for module, name, value in ((parallel_read, 'LEAST', 1), (parallel_read, 'MOST', 300)):
            support.enter(self, mock.patch.object(module, name, value))
        self.one = support.enter(self, spmat.Session())
        self.by_workers = []
        read = parallel_read.read_matrix_market

        def noted(*args):
            made = read(*args)
            self.by_workers.append(made is not None)
            return made
        support.enter(self, mock.patch.object(parallel_read, 'read_matrix_market', noted))

    def refused_or_read(self, session):
        """What a session makes of the file: its text, or the rule, the line and the file that are
        named; the words of M7 differ."""
        try:
            return session.mmread(self.path).to_text()
        except spmat.Refused as fault:
            return fault.rule, fault.at, fault.line, fault.file

    def write(self, text):
        pathlib.Path(self.path).write_bytes(text)

    def test_as_one_session_reads_them(self):
        """Of each kind and order, in ranges of 300 bytes, by workers."""
        chance = random.Random(5)
        kinds = [(field, symmetry, order) for field in ('integer', 'real', 'pattern')
                 for symmetry in SYMMETRIES for order in ('ascending', 'shuffled', 'zeros')
                 if (field, symmetry) != ('pattern', 'skew-symmetric')]
        with blocks.Sessions(2, blocks=3) as several, blocks.Sessions(3) as many:
            for kind in kinds:
                self.write(a_text(chance, *kind[:2], order=kind[2]))
                for options in ({}, {'values': False}, {'scale': 3}):
                    want = alike.outcome(lambda: self.one.mmread(self.path, **options))
                    for sessions in (several, many):
                        with self.subTest(kind=kind, options=options):
                            self.assertEqual(
                                alike.outcome(lambda: sessions.mmread(self.path, **options)), want)
        self.assertEqual(self.by_workers, [True] * 6 * len(kinds))

    def test_large_numbers(self):
        """Rows of eight digits, and values of nineteen, which numbers of floats don't tell
        apart."""
        head = b'%%MatrixMarket matrix coordinate integer general\n16777216 16777216 3\n'
        with blocks.Sessions(2) as s:
            for lines in (
                b'9 1 -9223372036854775808\n9999999 16777216 9223372036854775807\n16777216 2 '
                b'9007199254740993\n',
                b'16777216 2 9007199254740993\n9999999 16777216 -5\n9 1 -7\n'):
                self.write(head + lines)
                self.assertEqual(sorted(s.mmread(self.path).to_triples()),
                                 sorted(self.one.mmread(self.path).to_triples()))
            self.assertTrue(self.by_workers[0])

    def test_what_is_unusual_or_wrong(self):
        """Is read by the caller's process, which names the line as one session does."""
        head = b'%%MatrixMarket matrix coordinate integer general\n9 9 4\n'
        bodies = {'comment': b'1 1 1\n2 2 2\n% said\n3 3 3\n4 4 4\n',
                  'blank line': b'1 1 1\n\n2 2 2\n3 3 3\n4 4 4\n',
                  'sign': b'1 1 1\n+2 2 2\n3 3 3\n4 4 4\n',
                  'repeats': b'1 1 1\n2 2 2\n2 2 5\n4 4 4\n', 'too few': b'1 1 1\n2 2 2\n',
                  'too many': b'1 1 1\n2 2 2\n3 3 3\n4 4 4\n5 5 5\n',
                  'outside': b'1 1 1\n2 2 2\n3 3 3\n10 4 4\n',
                  'column outside': b'1 1 1\n2 12 2\n3 3 3\n5 4 4\n',
                  'no row': b'0 1 1\n2 1 2\n3 3 3\n5 4 4\n',
                  'no number': b'1 1 1\n2 2 x\n3 3 3\n4 4 4\n',
                  'few fields': b'1 1 1\n2 2\n3 3 3\n4 4 4\n',
                  'large value': b'1 1 1\n2 2 2\n3 3 9223372036854775808\n4 4 4\n',
                  'long row': b'1 1 1\n2 2 2\n000000003 3 3\n4 4 4\n',
                  'wrong shuffled': b'4 4 4\n1 1 1\n2 2-2\n3 3 3\n',
                  'word': b'1x 1 1\n2 2 2\n3 3 3\n4 4 4\n'}
        with blocks.Sessions(2) as s, mock.patch.object(parallel_read, 'MOST', 12):
            for name, body in bodies.items():
                for text in (head + body, (head + body).replace(b'\n', b'\r\n'),
                             (head + body)[:-1]):
                    self.write(text)
                    with self.subTest(name=name, text=text):
                        self.assertEqual(self.refused_or_read(s), self.refused_or_read(self.one))
        self.assertEqual({name for number, name in enumerate(bodies)
                          if any(self.by_workers[3 * number:3 * number + 3])},
                         {'blank line', 'sign', 'long row'})

    def test_a_cut_that_is_asked_for(self):
        self.write(a_text(random.Random(1), n=20))
        with blocks.Sessions(3) as s:
            self.assertEqual(s.mmread(self.path, cut=[0, 4, 4, 20]).cut.bounds, (0, 4, 4, 20))
            A = s.identity(20)
            self.assertEqual(A.session.mmread(self.path).cut, A.cut)
            with self.assertRaisesRegex(ValueError, 'a cut ascends from 0 to the 20 rows'):
                s.mmread(self.path, cut=[0, 4, 19])
        self.assertEqual(self.by_workers, [True, True])

    def test_a_cut_by_some_lines(self):
        """Blocks get about as many entries, though few lines are looked at."""
        chance = random.Random(2)
        with blocks.Sessions(4) as s:
            for order in ('ascending', 'shuffled'):
                self.write(a_text(chance, n=4000, order=order))
                made = [counts.nvals for counts in s.mmread(self.path).blocks.counts()]
                self.assertLess(max(made), 1.2 * sum(made) / 4)

    def test_progress(self):
        told = []
        self.write(a_text(random.Random(3), n=200))
        with blocks.Sessions(2, progress=lambda *now: told.append(now)) as s:
            s.mmread(self.path)
        read, size = [now[1:] for now in told if now[0] == 'read'], os.path.getsize(self.path)
        self.assertEqual((read[-1], {of for _, of in read}), ((size, size), {size}))
        self.assertEqual(read, sorted(read))
        self.assertGreater(len(read), 5)

    @staticmethod
    def kill_programs(s):
        for (token, _), store in list(worker_store._stores.items()):
            if token == s.settings.token:
                os.kill(store.session.connection.process, signal.SIGKILL)

    def test_lost_and_changed(self):
        """A killed program's block is read again from what was laid aside, also where the file is
        gone; that has to be as it was."""
        self.write(a_text(random.Random(4), n=50))
        want = self.one.mmread(self.path).to_text()
        with blocks.Sessions(2) as s:
            G = s.mmread(self.path)
            os.remove(self.path)
            self.kill_programs(s)
            self.assertEqual(G.to_text(), want)
            for path in s.files:
                with open(path, 'r+b') as file:
                    file.write(b'7')
            self.kill_programs(s)
            with self.assertRaisesRegex(ValueError, 'has changed since it was written'):
                G.to_text()

    def test_a_file_that_changes_meanwhile(self):
        self.write(a_text(random.Random(4), n=50))
        stamp = file_parts.read_stamp(None, self.path)
        part = file_parts.Range(self.path, stamp, 0, stamp.size).cut(80, 1000, 2)[0]
        self.write(a_text(random.Random(5), n=50))
        with self.assertRaisesRegex(ValueError, 'has changed while it was read'):
            file_parts.read_lines(part)

    def test_ranges(self):
        """Each line is in one range, wherever ranges end."""
        chance = random.Random(6)
        for _ in range(200):
            lines = [b'x' * chance.randrange(9) + b'\n' for _ in range(chance.randrange(1, 20))]
            text = b''.join(lines)[:-1 if chance.random() < .3 else None]
            self.write(b'head\n' + text)
            stamp = file_parts.read_stamp(None, self.path)
            whole = file_parts.Range(self.path, stamp, 0, stamp.size)
            parts = whole.cut(5, chance.randrange(1, 40), chance.randrange(1, 5))
            found = b''.join(map(file_parts.read_lines, parts))
            self.assertEqual(found, text if text.endswith(b'\n') or not text else text + b'\n')

    def test_packed_and_small_files_stay_with_the_caller(self):
        import gzip
        text = a_text(random.Random(7), n=50)
        with blocks.Sessions(2) as s:
            self.write(gzip.compress(text))
            self.assertEqual(s.mmread(self.path).to_text(), self.one.mmread(self.path).to_text())
            self.write(text)
            with open(self.path, 'rb') as file:
                self.assertIsNone(parallel_read.find_shared(s, file))
            with mock.patch.object(parallel_read, 'LEAST', len(text) + 1):
                self.assertIsNone(parallel_read.read_matrix_market(s, self.path,
                                                                   matrix_market.Values(), None,
                                                                   None))
        self.assertEqual(self.by_workers, [False, False])
