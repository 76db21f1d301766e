"""A server that answers falsely, or what drops, repeats and swaps replies on the way: the client
says so and ends the session, or is right."""
import os
import re
import socket
import subprocess
import time
import unittest
from concurrent.futures import ThreadPoolExecutor

import spmat
import support

ENTRIES = [(0, 0, 41), (0, 2, 5), (1, 1, -7)]
NUMBERS = ('-1', '0', '1', '2', '3', '7', '63', '65', '4097', '16777217', '4294967297', '9' * 19,
           '9' * 27, '1' * 5000, '+1', '1.0', 'x', '')
SECONDS = 0.5
DRIP = 0.2
AT_ONCE = 16


def act(s):
    """What a client does: matrices in, jobs, a run, matrices out. What a user sees of it."""
    A = s.from_triples(ENTRIES, 2, 3, name='A')
    B = A.apply(spmat.asm('unary', 'mov64 r0, r1\nadd64 r0, 1\nexit\n', name='inc'), name='B')
    C = A.ewise_add(B, 'plus', name='C')
    r = C.reduce_rowwise('plus', name='r')
    return [[list(map(int, part)) for part in matrix.to_coo()]
            for matrix in (C, r)] + [A.shape, C.shape, r.shape, A.nvals, C.nvals, r.nvals]


class Recorder:
    """A server's replies to the commands of a session, one by one."""

    def __init__(self):
        self.replies, self.words = [], []
        self.child = subprocess.Popen([os.environ['SPMAT'], 'run', '--steps', '1000000',
                                       '--workers', '1'], stdin=subprocess.PIPE,
                                      stdout=subprocess.PIPE)

    def answer(self, words, body):
        """The reply to a command."""
        self.child.stdin.write(' '.join(words).encode() + b'\n' + (body or b'')
                               + (b'\n' if body is not None else b''))
        self.child.stdin.flush()
        reply = self.child.stdout.readline()
        said = reply.split()
        if said[:2] == [b'ok', b'show']:
            reply += self.child.stdout.read(int(said[2]))
        elif said[:2] == [b'ok', b'run']:
            reply += b''.join(self.child.stdout.readline() for _ in range(int(said[2])))
        self.replies.append(reply)
        self.words.append(words)
        return reply

    def close(self):
        self.child.stdin.close()
        self.child.wait()
        self.child.stdout.close()


def changed(reply):
    """Replies that are nearly this one: each number and each word another, a word more or less, a
    line more or less."""
    fields = re.split(rb'([ \n])', reply)
    for at in range(0, len(fields), 2):
        if re.fullmatch(rb'-?\d+', fields[at]):
            near = (str(int(fields[at]) + 1), str(int(fields[at]) - 1))
            for number in (*NUMBERS, *near):
                yield b''.join([*fields[:at], number.encode(), *fields[at + 1:]])
        elif fields[at]:
            yield b''.join([*fields[:at], b'other', *fields[at + 1:]])
            yield b''.join([*fields[:at], *fields[at + 2:]])
    yield reply[:-1] + b' 1\n'
    lines = reply.splitlines(True)
    for at in range(1, len(lines)):
        yield b''.join(lines[:at] + lines[at + 1:])
        yield b''.join(lines[:at] + lines[at:at + 1] * 2 + lines[at + 1:])


def is_matter_of_trust(command, reply, other):
    """Whether a reply is one that nobody but the server could contradict: what its budget holds,
    and other entries of the same matrix."""
    if command == 'budget':
        return re.fullmatch(rb'ok budget( \d{1,19}){3}\n', other) is not None
    if command != 'show' or other.splitlines()[:3] != reply.splitlines()[:3]:
        return False
    entries = [tuple(map(int, line.split())) for line in other.splitlines()[3:]
               if re.fullmatch(rb'\d{1,8} \d{1,8} -?\d{1,19}', line)]
    rows, columns, count = map(int, reply.splitlines()[2].split())
    places = [entry[:2] for entry in entries]
    return (len(entries) == count == len(other.splitlines()) - 3 and places == sorted(set(places))
            and all(1 <= row <= rows and 1 <= column <= columns and -1 << 63 <= value < 1 << 63
                    for row, column, value in entries))


def faulty_scripts(replies, words):
    """Lists of replies, each with a fault, and what the fault is."""
    for at, reply in enumerate(replies):
        for other in changed(reply):
            if not is_matter_of_trust(words[at][0], reply, other):
                yield 'reply %d, %r for %r' % (at, other[:90],
                                               reply[:90]), replies[:at] + [
                                                   other] + replies[at + 1:]
        yield 'reply %d twice' % at, replies[:at] + [reply * 2] + replies[at + 1:]
        if at + 1 < len(replies):
            yield 'replies %d and %d swapped' % (at, at
                                                 + 1), replies[:at] + [replies[at + 1],
                                                                       reply] + replies[at + 2:]
        for other in set(replies) - {reply}:
            yield 'reply %d: %r for %r' % (at, other[:60],
                                           reply[:60]), replies[:at] + [other] + replies[at + 1:]


class False_(unittest.TestCase):
    """A server whose replies are changed."""

    @classmethod
    def setUpClass(cls):
        recorder = Recorder()
        with support.Scripted(recorder.answer) as server, \
                spmat.Session.connect('127.0.0.1', server.port, timeout=60) as s:
            cls.right = act(s)
        recorder.close()
        quits = [at for at, words in enumerate(recorder.words) if words == ['quit']]
        cls.replies, cls.words = recorder.replies[:quits[0]], recorder.words

    def outcome(self, script, timeout=SECONDS):
        """What the act gives by these replies: its results, or the exception that ended the
        session."""
        rest = iter(script)

        def answer(words, body):
            return next(rest, b'ok quit\n')
        with support.Scripted(answer) as server:
            try:
                s = spmat.Session.connect('127.0.0.1', server.port, timeout=timeout,
                                          run_timeout=timeout)
            except (spmat.Closed, socket.timeout) as fault:
                return fault
            try:
                return act(s)
            except (spmat.Closed, socket.timeout) as fault:
                self.assertIsNotNone(s.connection.ended)
                return fault
            finally:
                s.connection.end('the test is over', kill=True)

    def test_each_fault_is_seen_or_does_no_harm(self):
        count = seen = 0
        faults, scripts = zip(*faulty_scripts(self.replies, self.words))
        with ThreadPoolExecutor(AT_ONCE) as pool:  # most of them wait until it is too late
            outcomes = list(pool.map(self.outcome, scripts))
        for fault, got in zip(faults, outcomes):
            count += 1
            if isinstance(got, BaseException):
                seen += 1
            else:
                self.assertEqual(got, self.right, fault)
        self.assertGreater(count, 1000)
        self.assertGreater(seen, count * 9 // 10)

    def test_a_reply_that_is_dropped_ends_in_time(self):
        for at in range(len(self.replies)):
            with self.subTest(at=at):
                began = time.monotonic()
                got = self.outcome(self.replies[:at] + [b''] + self.replies[at + 1:], timeout=1.0)
                self.assertIsInstance(got, (spmat.Closed, socket.timeout))
                self.assertLess(time.monotonic() - began, 30)

    def test_the_true_replies_give_the_right_answer(self):
        self.assertEqual(self.outcome(self.replies), self.right)

    def test_the_error_names_the_command_and_both_replies(self):
        at = next(at for at, words in enumerate(self.words) if words[0] == 'matrix')
        got = self.outcome(self.replies[:at] + [b'ok budget 1000000 0 0\n'] + self.replies[at + 1:])
        self.assertIsInstance(got, spmat.ProtocolError)
        self.assertRegex(str(got),
                         r'`matrix \w+`.*expected `ok matrix ROWS COLUMNS ENTRIES`, got `ok '
                         r'budget 1000000 0 0`')


class Slow(unittest.TestCase):
    """Replies that never end, or come too slowly."""

    def wait_for(self, error, replies, timeout=1.0):
        """The seconds until the act ends with an error."""
        def answer(words, body):
            return replies.get(words[0], support.plausible(words, body))
        with support.Scripted(answer) as server:
            began = time.monotonic()
            with self.assertRaises(error):
                act(spmat.Session.connect('127.0.0.1', server.port, timeout=timeout,
                                          run_timeout=timeout))
            return time.monotonic() - began

    def test_a_drip_is_no_reply(self):
        class Dripping(support.Listener):
            """A server that sends a byte now and then."""

            def _handle(self, connection):
                with connection:
                    for byte in b'ok budget 9 0 0':
                        try:
                            connection.sendall(bytes([byte]))
                        except OSError:
                            return
                        time.sleep(DRIP)
        with Dripping() as server:
            began = time.monotonic()
            with self.assertRaises(socket.timeout):
                spmat.Session.connect('127.0.0.1', server.port, timeout=1.0)
            self.assertLess(time.monotonic() - began, 20)

    def test_more_jobs_than_were_asked_for(self):
        self.wait_for(spmat.ProtocolError, {'matrix': b'ok matrix 2 3 3\n', 'asm': b'ok op 3 3\n',
                                            'apply': b'ok queued 1 9\n',
                                            'run': b'ok run 99999999999 1\n' + b'\n' * 100000})

    def test_a_text_of_any_length(self):
        def answer(words, body):
            return {'matrix': b'ok matrix 2 3 3\n',
                    'show': b'ok show 99999999999999\n' + b'y\n'
                    * 100000}.get(words[0], support.plausible(words, body))
        with support.Scripted(answer) as server:
            s = spmat.Session.connect('127.0.0.1', server.port, timeout=5)
            text = (
                b'%%MatrixMarket matrix coordinate integer general\n2 3 3\n1 1 41\n1 3 5\n2 2 -7\n')
            with self.assertRaisesRegex(spmat.ProtocolError, 'BYTES'):
                s.from_text(text).to_text()
            self.assertIsNotNone(s.connection.ended)


class Shown(unittest.TestCase):
    """What came is bounded, and is shown without what a terminal would do at it."""

    def said_of(self, command, reply, call):
        """What the error says of a reply to a command."""
        def answer(words, body):
            return {'asm': b'ok op 3 3\n', command: reply}.get(words[0],
                                                               support.plausible(words, body))
        with support.Scripted(answer) as server:
            with self.assertRaises(spmat.ProtocolError) as said:
                call(spmat.Session.connect('127.0.0.1', server.port, timeout=5))
            return str(said.exception)

    def test_lines_of_any_length(self):
        for behind in (b'exit\n', b''):            # also before the lines behind it have come
            said = self.said_of('dis', b'ok dis 2\n' + b'a' * 1100 + b'\n' + behind,
                                lambda s: s.dis(spmat.unary.abs))
            self.assertIn('a line of a reply is none of spmat: `aaa', said)

    def test_escape_codes(self):
        for command, reply, call in (
            ('budget', b'ok \x1b[31mbudget 1 2 3\n', lambda s: s.budget()),
            ('budget', b'no \x1b]0;title\x07\xff\n', lambda s: s.budget()),
            ('budget', b'\x1b[2J' * (1 << 14), lambda s: s.budget()),
            ('dis', b'ok dis 1\n\x1b[31mexit\n', lambda s: s.dis(spmat.unary.abs)),
            ('types', b'ok types 1\n0 \x1b[31m\n', lambda s: s.types(spmat.unary.abs))):
            said = self.said_of(command, reply, call)
            self.assertTrue(said.isprintable(), said)
            self.assertIn('\\x', said)
