"""How sessions end: closed, dead children, Ctrl-C, threads, other processes."""
import contextlib
import gc
import os
import signal
import subprocess
import sys
import threading
import time
import unittest

import support
import spmat
from processes import alive, gone
from spmat.wire.commands import Command

ENVIRONMENT = dict(os.environ, PYTHONPATH=support.CLIENT)


def child_of(session):
    return session.connection._channel.process


class Closing(unittest.TestCase):
    def test_closed(self):
        with spmat.Session() as s:
            A = s.from_triples([(0, 0, 1)])
            B = A.apply('abs')
        self.assertEqual(child_of(s).returncode, 0)
        for call in (s.budget, A.to_text, lambda: B.nvals, lambda: A.apply('abs'),
                     lambda: s.from_triples([])):
            self.assertIn('it was closed', support.said(spmat.Closed, call))
        s.close()

    def test_closed_by_an_exception(self):
        with self.assertRaises(ZeroDivisionError):
            with spmat.Session() as s:
                raise ZeroDivisionError
        self.assertEqual(child_of(s).returncode, 0)

    def test_forgotten(self):
        """A session that nobody closed leaves no process behind."""
        s = spmat.Session()
        process = child_of(s).pid
        self.assertTrue(alive(process))
        del s
        gc.collect()
        self.assertTrue(gone(process))

    def test_forgotten_at_exit(self):
        script = (
            'import spmat; s = spmat.Session(); print(s.connection._channel.process.pid); A = '
            's.full(2, 2)')
        done = subprocess.run([sys.executable, '-c', script], env=ENVIRONMENT, capture_output=True,
                              text=True, timeout=60)
        self.assertEqual((done.returncode, done.stderr), (0, ''))
        self.assertTrue(gone(int(done.stdout)))


    def test_closed_by_a_handler_at_exit(self):
        """One that was registered before the first session runs after the channel was closed:
        nothing is said."""
        script = (
            'import atexit; kept = []; atexit.register(lambda: kept[0].close()); import spmat; '
            'kept.append(spmat.Session())')
        done = subprocess.run([sys.executable, '-c', script], env=ENVIRONMENT, capture_output=True,
                              text=True, timeout=60)
        self.assertEqual((done.returncode, done.stdout, done.stderr), (0, '', ''))

    def test_used_by_a_handler_at_exit(self):
        script = (
            'import atexit, spmat\ndef late():\n try: kept[0].budget()\n except spmat.Closed as '
            'fault: print(fault)\n'
            'kept = []; atexit.register(late); kept.append(spmat.Session())')
        done = subprocess.run([sys.executable, '-c', script], env=ENVIRONMENT, capture_output=True,
                              text=True, timeout=60)
        self.assertEqual((done.returncode, done.stderr), (0, ''))
        self.assertIn('the interpreter ends', done.stdout)


class Programs(unittest.TestCase):
    def test_dead_child(self):
        s = spmat.Session()
        A = s.from_triples([(0, 0, 1)])
        child_of(s).kill()
        self.assertIn('status -9', support.said(spmat.Closed, A.to_text))
        with self.assertRaises(spmat.Closed):
            s.budget()

    def test_what_the_program_said(self):
        with self.assertRaises(spmat.Closed) as said:
            spmat.Session(program=[os.environ['SPMAT'], 'run', '--no-such-word'])
        self.assertIn('status 2', str(said.exception))
        self.assertRegex(str(said.exception), '(?i)usage|unexpected')
        with self.assertRaises(spmat.Closed) as said:
            spmat.Session(program=['sh', '-c', 'echo spmat: no memory >&2; exit 1'])
        self.assertIn('status 1: spmat: no memory', str(said.exception))

    def test_no_program(self):
        with self.assertRaises(FileNotFoundError):
            spmat.Session(program='/no/such/program')
        before = os.environ.pop('SPMAT')
        path, os.environ['PATH'] = os.environ['PATH'], ''
        try:
            self.assertIn('SPMAT', support.said(FileNotFoundError, spmat.Session))
        finally:
            os.environ['SPMAT'], os.environ['PATH'] = before, path

    def test_order(self):
        """program= before SPMAT; words in one text are split as a shell does."""
        log = 'echo wrapped >&2; exec "$0" "$@"'
        with spmat.Session(program="sh -c '%s' %s" % (log, os.environ['SPMAT'])) as s:
            self.assertEqual(s.budget().spent, 0)
            child_of(s).kill()
            self.assertIn('wrapped', support.said(spmat.Closed, s.budget))

    def test_settings(self):
        for wrong in ({'steps': -1}, {'steps': 2 ** 62 + 1}, {'workers': 0}, {'workers': 65}):
            with self.assertRaises(ValueError):
                spmat.Session(**wrong)
        with spmat.Session(steps=0, workers=64) as s:
            self.assertEqual(s.budget(), (0, 0, 0))


# A shell lets what it starts in the background ignore an interrupt, and Python then raises nothing.
AMID_A_RUN = '''
import signal, spmat, sys
signal.signal(signal.SIGINT, signal.default_int_handler)
with spmat.Session() as s:
    A = s.full(4, 4)
    before = A.apply("ainv")
    kept = [A.mxm(A)]
    print(s.connection._channel.process.pid, flush=True)
    sys.stdin.readline()
    try:
        s.run()
    except KeyboardInterrupt:
        print("interrupted", s.connection.ended, s.connection.owes, flush=True)
    %s
'''


class Interrupts(unittest.TestCase):
    def setUp(self):
        # a shell starts what runs in the background with SIGINT ignored, and Python then leaves it
        # so
        self.addCleanup(signal.signal, signal.SIGINT,
                        signal.signal(signal.SIGINT, signal.default_int_handler))

    @contextlib.contextmanager
    def amid_a_run(self, script):
        """A client that waits for its run, and its program, which was stopped before it."""
        with subprocess.Popen([sys.executable, '-c', script], env=ENVIRONMENT,
                              stdin=subprocess.PIPE, stdout=subprocess.PIPE, text=True) as client:
            process = int(client.stdout.readline())
            os.kill(process, signal.SIGSTOP)
            client.stdin.write('go\n')
            client.stdin.flush()
            time.sleep(.3)
            self.assertTrue(alive(process))
            yield client, process

    def interrupted(self, script, meanwhile=lambda process: None):
        """What a client prints that gets a SIGINT amid its run, whose program stands still for as
        long as that takes."""
        with self.amid_a_run(script) as (client, process):
            client.send_signal(signal.SIGINT)
            said = client.stdout.readline()
            meanwhile(process)
            with contextlib.suppress(ProcessLookupError):
                os.kill(process, signal.SIGCONT)
            said += client.stdout.read()
        self.assertEqual(client.returncode, 0)
        self.assertTrue(gone(process))
        return said

    def test_ctrl_c(self):
        """A SIGINT to the client amid a run: the session goes on, nothing is lost, and what comes
        next waits for the run."""
        said = self.interrupted(AMID_A_RUN
                                % ('print(before.to_coo(arrays=False)[2][:2], kept[0].nvals, '
                                   's.runs, A.nvals, s.connection.owes)'))
        self.assertEqual(said.splitlines(), ['interrupted None True', '[-1, -1] 16 1 16 False'])

    def test_ctrl_c_and_closed(self):
        """Closing a session whose reply is owed waits for nothing: the program is ended."""
        said = self.interrupted(AMID_A_RUN % ('s.close(); print(s.connection.ended)'))
        self.assertEqual(said.splitlines(),
                         ['interrupted None True', 'it was closed while a reply was awaited'])

    def test_ctrl_c_and_dead(self):
        """Where the program ends before the reply, the results were never made."""
        script = AMID_A_RUN % ('''
    try: kept[0].nvals
    except spmat.SpmatError as fault: print(type(fault).__name__, "status -9" in str(fault))
    try: before.nvals
    except spmat.SpmatError as fault: print(type(fault).__name__)''')
        said = self.interrupted(script, lambda process: os.kill(process, signal.SIGKILL))
        self.assertEqual(said.splitlines(), ['interrupted None True', 'Closed True', 'Closed'])

    def test_each_command(self):
        """Ctrl-C amid each kind of command, by a server that answers late: the next commands are in
        step, and what was queued is known."""
        late = threading.Event()
        answers = {'matrix': b'ok matrix 1 1 1\n', 'asm': b'ok op 3 3\n',
                   'budget': b'ok budget 9 0 0\n',
                   'show': b'ok show 61\n%%MatrixMarket matrix coordinate integer general\n1 1 '
                   b'1\n1 1 5\n', 'quit': b'ok quit\n'}
        slow = []

        def answer(words, body):
            if words[0] in slow:
                slow.clear()
                os.kill(os.getpid(), signal.SIGINT)
                late.wait(10)
            if words[0] == 'run':
                return b'ok run %d %d\n' % (len(jobs),
                                            2 * len(jobs)) + b''.join(
                                                b'%s 1 1 1 2\n' % name.encode() for name in jobs)
            if words[0] == 'apply':
                jobs.append(words[1])
                return b'ok queued %d 3\n' % len(jobs)
            return answers[words[0]]
        for command, call in (('budget', lambda s, A: s.budget()),
                              ('show', lambda s, A: A.to_text()),
                              ('matrix', lambda s, A: s.full(1, 1)),
                              ('asm', lambda s, A: A.apply('sgn')),
                              ('apply', lambda s, A: A.apply('ainv'))):
            with support.Scripted(answer) as server, spmat.Session.connect(port=server.port) as s:
                jobs = []
                A = s.full(1, 1)
                B = A.apply('abs')
                late.clear()
                slow.append(command)
                with self.assertRaises(KeyboardInterrupt, msg=command):
                    call(s, A)
                self.assertTrue(s.connection.owes, command)
                late.set()
                self.assertEqual(s.budget().left, 9)
                self.assertFalse(s.connection.owes)
                C = A.apply('abs')
                done = s.run()
                self.assertEqual([job.steps for job in done], [2] * len(jobs))
                self.assertEqual(len(jobs), 3 if command == 'apply' else 2)
                self.assertEqual((B.nvals, C.steps, A.to_coo(arrays=False)[2]), (1, 2, [5]))
                self.assertNotIn(C.handle.key, [name for name in jobs if name != C.handle.key])

    def test_amid_a_job(self):
        """A job whose reply is owed is among those of the next run, also where another job asks for
        that run."""
        late, jobs, slow = threading.Event(), [], []

        def answer(words, body):
            if words[0] == 'apply':
                if slow:
                    slow.clear()
                    os.kill(os.getpid(), signal.SIGINT)
                    late.wait(10)
                jobs.append(words[1])
                return b'ok queued %d 3\n' % len(jobs)
            if words[0] == 'run':
                lines = [b'%s 1 1 1 2\n' % name.encode() for name in jobs]
                jobs.clear()
                return b'ok run %d %d\n' % (len(lines), 2 * len(lines)) + b''.join(lines)
            return {'matrix': b'ok matrix 1 1 1\n', 'asm': b'ok op 3 3\n',
                    'budget': b'ok budget 9 0 0\n', 'quit': b'ok quit\n'}[words[0]]
        with support.Scripted(answer) as server, spmat.Session.connect(port=server.port) as s:
            A = s.full(1, 1)
            B = A.apply('abs')
            slow.append(True)
            with self.assertRaises(KeyboardInterrupt):
                A.apply('ainv')
            late.set()
            C = B.apply('abs')
            self.assertEqual((s.runs, B.nvals, C.nvals, s.runs, s.connection.ended),
                             (1, 1, 1, 2, None))

    def test_amid_sending(self):
        """Put off until the command stands; what is sent whole is answered."""
        def answer(words, body):
            if words[0] == 'matrix' and len(body) > 1 << 20:
                sent.append(len(body))
            return {'matrix': b'ok matrix 1 1 0\n'}.get(words[0]) or support.plausible(words, body)
        sent = []

        def progress(what, done, of):
            if what == 'sent' and done < of:
                os.kill(os.getpid(), signal.SIGINT)
        with support.Scripted(answer) as server:
            s = spmat.Session.connect(port=server.port, progress=progress)
            text = support.BANNER + '%' + 'x' * (3 << 19) + '\n1 1 0\n'
            with self.assertRaises(KeyboardInterrupt):
                s.from_text(text)
            self.assertIsNone(s.connection.ended)
            self.assertEqual(s.budget().left, 100)
            self.assertEqual(sent, [len(text)])
            s.close()

    def test_twice(self):
        """A second one amid sending isn't put off: the session is lost, and says so."""
        def progress(what, done, of):
            if what == 'sent' and done < of:
                os.kill(os.getpid(), signal.SIGINT)
                os.kill(os.getpid(), signal.SIGINT)
        with support.Scripted(support.plausible) as server:
            s = spmat.Session.connect(port=server.port, progress=progress)
            with self.assertRaises(KeyboardInterrupt):
                s.from_text(support.BANNER + '%' + 'x' * (5 << 19) + '\n1 1 0\n')
            self.assertIn('Ctrl-C came twice', s.connection.ended)
            with self.assertRaises(spmat.Closed):
                s.budget()

    def test_handlers_are_put_back(self):
        before = signal.getsignal(signal.SIGINT)
        with spmat.Session() as s:
            s.budget()
            self.assertEqual(signal.getsignal(signal.SIGINT), before)
            seen = []
            signal.signal(signal.SIGINT, lambda *_: seen.append(1))
            try:
                s.full(2, 2)
                os.kill(os.getpid(), signal.SIGINT)
                self.assertEqual(seen, [1])
            finally:
                signal.signal(signal.SIGINT, before)

    def test_what_waits_is_sent_later(self):
        """Ctrl-C while the reply to an earlier command is awaited leaves what waits to be sent, and
        the earlier one pending."""
        tried = []

        class Slow(Command):
            def read(self, incoming):
                if not tried:
                    tried.append(1)
                    raise KeyboardInterrupt
                return super().read(incoming)
        with spmat.Session() as s:
            B = s.full(2, 2).apply('ainv')
            slow = Slow('budget')
            s.connection.pending.append(slow)
            s.connection._send(s.connection._pieces_of([slow]))
            with self.assertRaises(KeyboardInterrupt):
                B.wait()
            self.assertEqual((s.connection.owes, slow.answer, s.connection.ended),
                             (True, None, None))
            self.assertEqual((B.nvals, slow.answer.words[0], s.connection.owes),
                             (4, 'budget', False))

    def test_exception_while_replies_are_noted(self):
        """One that a handler of another signal raises ends the session, as what stands behind it
        was never noted."""
        class Noted(Command):
            def done(self, reply):
                raise TimeoutError('an alarm')
        with spmat.Session() as s:
            B = s.full(2, 2).apply('ainv')
            s.connection.put(Noted('budget'))
            with self.assertRaisesRegex(TimeoutError, 'an alarm'):
                s.budget()
            for ask in (s.budget, s.run, lambda: B.nvals):
                with self.assertRaisesRegex(spmat.Closed, 'while its replies were noted'):
                    ask()

    def test_ctrl_c_of_a_terminal(self):
        """A Ctrl-C at a terminal goes to all processes of the client's group: the program isn't one
        of them."""
        with spmat.Session() as s:
            self.assertNotEqual(os.getpgid(child_of(s).pid), os.getpgrp())

    def test_killed_amid_a_run(self):
        """Where the client is killed amid a batch, the program ends at once, also when another
        thread started it."""
        script = AMID_A_RUN % 'pass'
        for body in (script,
                     'import threading\n\ndef work():\n'
                     + ''.join('    %s\n' % line for line in script.splitlines()
                               if 'signal' not in line)
                     + '    time.sleep(60)\n\nimport spmat, sys, '
                     'time\nthreading.Thread(target=work).start()\n'):
            with self.amid_a_run(body) as (client, process):
                client.kill()
                self.assertTrue(gone(process, 5))

    def test_nobody_watches_in_the_end(self):
        """A session that is closed leaves no process behind, and one that a thread opened lives
        longer than the thread."""
        opened = []
        thread = threading.Thread(target=lambda: opened.append(spmat.Session()))
        thread.start()
        thread.join()
        s = opened[0]
        time.sleep(.1)
        self.assertEqual(s.full(2, 2).nvals, 4)
        shell = s.connection._channel._watcher._shell.pid
        self.assertTrue(alive(shell))
        s.close()
        self.assertTrue(gone(shell))
        self.assertEqual(child_of(s).returncode, 0)

    def test_killed_client(self):
        """Where the client is killed, the program reads the end of its input, and ends."""
        script = (
            'import spmat, time; s = spmat.Session(); print(s.connection._channel.process.pid, '
            'flush=True); time.sleep(60)')
        with subprocess.Popen([sys.executable, '-c', script], env=ENVIRONMENT,
                              stdout=subprocess.PIPE) as client:
            process = int(client.stdout.readline())
            client.kill()
        self.assertTrue(gone(process))


class Others(unittest.TestCase):
    def test_threads_take_turns(self):
        with spmat.Session() as s:
            A = s.from_triples([(i, i, i + 1) for i in range(20)])
            wrong = []

            def work(k):
                try:
                    for t in range(30):
                        B = A.apply('times', right=k)
                        C = (A.apply('plus', right=t, mask=~B.S) if t % 10 == 0
                             else B.ewise_add(A, 'minus'))
                        want = {} if t % 10 == 0 else {(i, i): (i + 1) * (k - 1) for i in range(20)}
                        if C.to_dict() != want:
                            wrong.append((k, t))
                except BaseException as fault:
                    wrong.append(fault)
            threads = [threading.Thread(target=work, args=(k,)) for k in range(4)]
            for thread in threads:
                thread.start()
            for thread in threads:
                thread.join()
            self.assertEqual(wrong, [])
            self.assertEqual(A.nvals, 20)

    def test_two_sessions(self):
        with spmat.Session() as s, spmat.Session() as t:
            A, B = s.from_triples([(0, 0, 1)]), t.from_triples([(0, 0, 2)])
            self.assertEqual((A.to_list(), B.to_list()), ([1], [2]))
            with self.assertRaises(ValueError):
                A.ewise_add(B)

    @unittest.skipUnless(hasattr(os, 'fork'), 'no fork')
    def test_forked(self):
        """A session belongs to the process that opened it; one that is forked off says so, and ends
        nothing."""
        with spmat.Session() as s:
            A = s.from_triples([(0, 0, 1)])
            child = os.fork()
            if child == 0:
                status = 1
                try:
                    s.budget()
                except spmat.SpmatError as fault:
                    status = 0 if 'process' in str(fault) else 2
                s.close()
                os._exit(status)
            self.assertEqual(os.waitpid(child, 0)[1], 0)
            self.assertEqual(A.apply('ainv').to_list(), [-1])
