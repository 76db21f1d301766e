"""What an engine tells of its session: what the gateway takes of it, however its bytes are cut."""
import random
import subprocess
import unittest

from spmat_gateway.engine_log import EngineLog

from .support import LINES, OPERATORS, PROGRAM, dense

MANY = LINES + OPERATORS + dense(8) + b''.join((
    b'apply B inc A\napply C inc A\nrun\n', b'show B\ndis inc\nno such\nbudget\n',
    b'product D plus times A A\nrun\nrun\nquit\n'))
END = (b'spmat: time=2026-11-27T02:03:44.515Z session id=1 client=stdin end=quit seconds=12.345 '
       b'in=1234 out=567 commands=12 jobs=3 steps=9000 refused=1 untold=0 untold_steps=0\n')
RUNS = (b'spmat: time=2026-11-27T02:04:32.170Z runs id=1 client=stdin seconds=60.001 '
        b'state=running jobs=2 reserved=24 steps=8000 in=1 out=5\n')


def take(pieces):
    told = EngineLog()
    for piece in pieces:
        told.feed(piece)
    return told


class Telling(unittest.TestCase):
    def test_what_a_session_tells(self):
        words = [PROGRAM, 'run', '--steps', '1000000', '--workers', '1', '--log', '--log-every',
                 '1']
        done = subprocess.run(words, input=MANY, stdout=subprocess.PIPE, stderr=subprocess.PIPE,
                              check=True, timeout=60)
        spent = int([line for line in done.stdout.split(b'\n')
                     if line.startswith(b'ok run')][-2].split()[3]) + sum(
                         int(line.split()[3]) for line in done.stdout.split(b'\n')
                         if line.startswith(b'ok run 2'))
        told = take([done.stderr])
        self.assertEqual((told.spent, told.queued, told.end, told.begun, told.words),
                         (spent, 0, 'quit', True, ''))
        draw = random.Random(1)
        for _ in range(100):
            cuts = sorted(draw.randrange(len(done.stderr)) for _ in range(draw.choice((1, 3, 40))))
            again = take([done.stderr[start:end]
                          for start, end in zip([0, *cuts], [*cuts, len(done.stderr)])])
            self.assertEqual((again.spent, again.end, again.words), (told.spent, told.end, ''))

    def test_one_that_runs(self):
        told = EngineLog()
        self.assertTrue(told.feed(RUNS))
        self.assertEqual((told.spent, told.queued, told.end, told.begun), (8000, 24, '', True))
        self.assertFalse(told.feed(RUNS))
        self.assertTrue(told.feed(END))
        self.assertEqual((told.spent, told.queued, told.end), (9000, 0, 'quit'))
        told.feed(RUNS)
        self.assertEqual(told.spent, 9000)

    def test_other_words_are_kept(self):
        told = take([b'Warning: Permanently added HOST\n', RUNS,
                     b'spmat: read failed\nspmat: because ', b'the idle timeout expired\n'])
        self.assertEqual(told.words,
                         'Warning: Permanently added HOST\nspmat: read failed\nspmat: because '
                         'the idle timeout expired')

    def test_odd_lines(self):
        for odd in (b'spmat: runs steps=x reserved=-3\n', b'x' * 100_000 + b'\n', b'\xff\xfe\n',
                    b'\n' * 50_000, b'spmat: session steps=%d\n' % 10 ** 40):
            told = take([odd, END])
            self.assertIn(told.spent, (9000, 1 << 62))
            self.assertLess(len(told.words), 2001)


if __name__ == '__main__':
    unittest.main()
