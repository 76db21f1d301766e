"""The counter of replies: what it says of a session is what the session says of itself, however its
bytes are cut."""
import random
import types
import unittest

from spmat_gateway.config import Config
from spmat_gateway.gate import Gate
from spmat_gateway.replies import ReplyCounter
from spmat_gateway.sessions import Session

from .support import FIRST_SESSION, LINES, OPERATORS, dense, direct

MANY = LINES + OPERATORS + dense(8) + b''.join((
    b'apply B inc A\napply C inc A\nrun\n', b'show B\ndis inc\ntypes inc\nno such\nbudget\n',
    b'product D plus times A A\nshow A\nrun\nrun\n',
    b'apply E inc D\nshow D\ndis plus\nrun\nbudget\nquit\n'))


def count(pieces):
    counter = ReplyCounter()
    for piece in pieces:
        counter.look(memoryview(piece))
    return counter


class Counting(unittest.TestCase):
    def test_what_a_session_says_of_itself(self):
        replies = direct(MANY)
        counter = count([replies])
        spent = int([line for line in replies.split(b'\n')
                     if line.startswith(b'ok budget')][-1].split()[4])
        self.assertEqual((counter.runs, counter.job_count, counter.spent), (4, 4, spent))
        self.assertTrue(counter.at_a_boundary)

    def test_however_it_is_cut(self):
        replies, whole = direct(MANY), count([direct(MANY)])
        draw = random.Random(1)
        for _ in range(300):
            cuts = sorted(draw.randrange(len(replies)) for _ in range(draw.choice((1, 3, 40, 400))))
            counter = count([replies[start:end]
                             for start, end in zip([0, *cuts], [*cuts, len(replies)])])
            self.assertEqual((counter.runs, counter.job_count, counter.spent,
                              counter.at_a_boundary),
                             (whole.runs, whole.job_count, whole.spent, True))
        self.assertEqual(count([bytes([byte]) for byte in replies]).job_count, whole.job_count)

    def test_a_boundary_is_where_a_line_would_be_read_as_a_reply(self):
        replies = direct(FIRST_SESSION)
        counter, bounds = ReplyCounter(), set()
        for at, byte in enumerate(replies):
            counter.look(memoryview(bytes([byte])))
            if counter.at_a_boundary:
                bounds.add(at + 1)
        ends = [replies.index(end) + len(end) for end in (b'ok matrix 1 1 1\n', b'ok op 3 3\n',
                                                          b'ok queued 1 3\n', b'B 1 1 1 3\n',
                                                          b'1 1 42\n', b'ok quit\n')]
        self.assertEqual(bounds, set(ends))

    def test_text_that_looks_like_replies(self):
        counter = count([b'ok show 14\nok run 1 1000\n'
                         + b'ok dis 2\nok run 1 9\nok run 1 9\nok run 0 5\n'])
        self.assertEqual((counter.runs, counter.at_a_boundary), (1, True))

    def test_a_refused_run_counts(self):
        counter = count(
            [b'ok queued 1 50\nno memory 7\nno memory\nok queued 1 20\nno thread 3\nno S8 100 4\n'])
        self.assertEqual((counter.runs, counter.at_a_boundary), (2, True))

    def test_looking_ends_at_what_is_no_reply(self):
        counter = ReplyCounter()
        for piece in (b'ok run 1 3\nA 1 1 1 3\n', b'Welcome\n', b'ok run 1 4\nA 1 1 1 4\n'):
            counter.look(memoryview(piece))
        self.assertEqual((counter.runs, counter.job_count, counter.at_a_boundary), (1, 1, False))

    def test_another_program(self):
        for text in (b'Welcome to HOST\n', b'ok run x y\n', b'ok\n', b'a' * 70_000, b'\n'):
            counter = count([text, b'ok run 0 0\n'])
            self.assertEqual((counter.runs, counter.at_a_boundary), (0, False), text[:40])


class Charged(unittest.TestCase):
    def test_a_run_isnt_charged_by_its_price_and_by_its_reply(self):
        """A reply may pass before the engine's word that its run waits no more."""
        session = Session(types.SimpleNamespace(config=Config()), '127.0.0.1:1',
                          Gate().take('127.0.0.1', 1))
        session._told.feed(b'spmat: runs reserved=100 steps=5\n')
        self.assertEqual((session.entry.spent, session.entry.queued), (5, 100))
        session._counter.look(memoryview(b'ok run 0 35\n'))
        self.assertEqual((session.entry.spent, session.entry.queued), (35, 70))
        session._told.feed(b'spmat: runs reserved=0 steps=40\n')
        self.assertEqual((session.entry.spent, session.entry.queued), (40, 0))


if __name__ == '__main__':
    unittest.main()
