"""The gate's run: what it notes, what ends it, and what it says of packages that are missing."""
import contextlib
import importlib.machinery
import importlib.util
import io
import os
import unittest
from typing import Any, Tuple
from unittest import mock

from tests.lib.paths import TOP
from tools import packages
from tools.releasing import gate


def gate_program() -> Any:
    """The module of tools/test."""
    loader = importlib.machinery.SourceFileLoader('gate_program',
                                                  os.path.join(TOP, 'tools', 'test'))
    spec = importlib.util.spec_from_loader('gate_program', loader)
    assert spec is not None
    made = importlib.util.module_from_spec(spec)
    loader.exec_module(made)
    return made


class Gate(unittest.TestCase):
    def ended(self, ci: str, fault: str = '',
              without: Tuple[packages.Package, ...] = ()) -> Tuple[int, str]:
        """The status of a gate and its last line, where each step but `fault` passes."""
        program, noted = gate_program(), []

        def whole(run: gate.Run) -> None:
            run.step('one', ['true'])
            run.step('two', ['false' if fault else 'true'])
        with mock.patch.object(program, 'whole', whole), \
                mock.patch.object(packages, 'missing', lambda: list(without)), \
                mock.patch.object(gate.Run, 'note', lambda run: noted.append(run) or {}), \
                mock.patch.dict(os.environ, CI=ci), \
                mock.patch('sys.argv', ['test']), contextlib.redirect_stdout(io.StringIO()) as told:
            status = program.main()
        self.assertEqual(len(noted), 1 if status == 0 else 0)
        self.told = told.getvalue()
        return status, self.told.splitlines()[-1]

    def test_last_lines(self) -> None:
        without = packages.PACKAGES[:2]
        self.assertEqual(self.ended(''), (0, 'test: 2 passed, 0 failed, 0 skipped'))
        self.assertEqual(self.ended('true'), (0, 'test: 2 passed, 0 failed, 0 skipped'))
        self.assertEqual(self.ended('', 'two'), (1, 'test: 1 passed, 1 failed, 0 skipped'))
        self.assertIn('test: FAILED: two: status 1 after 0 s', self.told)
        self.assertEqual(self.ended('', without=without),
                         (0, 'test: 2 passed, 0 failed, 2 skipped'))
        self.assertIn('apt-get install -y --no-install-recommends mypy pylint', self.told)
        self.assertEqual(self.ended('true', without=without),
                         (1, 'test: 2 passed, 1 failed, 2 skipped'))
        self.assertIn('with CI set nothing may be left out', self.told)

    def test_a_step_that_hangs(self) -> None:
        run = gate.Run()
        with contextlib.redirect_stdout(io.StringIO()), \
                self.assertRaisesRegex(gate.Failed, 'slow: it hung'):
            run.step('slow', ['sleep', '60'], most=1)
        self.assertEqual(run.steps, [])

    def test_steps_side_by_side(self) -> None:
        """What each says stands together, and after a fault nothing begins. The fault repeats the
        last lines that tell of no success, as others may say more behind them."""
        run = gate.Run()
        slow = gate.Command('slow', ['sh', '-c', 'echo a; sleep 1; echo b'])
        quick = gate.Command('quick', ['echo', 'c'])
        with contextlib.redirect_stdout(io.StringIO()) as told:
            run.side_by_side([slow, quick])
        self.assertEqual(told.getvalue().splitlines(),
                         ['== quick: echo c', 'c', '-- quick: 0 s',
                          '== slow: ' + ' '.join(slow.words), 'a', 'b', '-- slow: 1 s'])
        self.assertEqual([step.name for step in run.steps], ['quick', 'slow'])
        with contextlib.redirect_stdout(io.StringIO()) as told, \
                self.assertRaisesRegex(gate.Failed, r'\Abad: status 3 after \d s\nwhy\Z'):
            # it fails once the next one has begun
            bad = gate.Command('bad', ['sh', '-c',
                                       'echo a: passed; sleep 0.5; echo why >&2; exit 3'])
            run.side_by_side([bad, slow, quick, quick])
        self.assertEqual([step.name for step in run.steps], ['quick', 'slow', 'slow'])
        self.assertIn(gate.heading(bad) + '\na: passed\nwhy\n', told.getvalue())

    def test_packages(self) -> None:
        """One that is here is seen, and one that isn't, by program or by module."""
        for package, there in ((packages.Package('x', 'y', program='sh'), True),
                               (packages.Package('x', 'y', program='no-such-program'), False),
                               (packages.Package('x', 'y', module='json'), True),
                               (packages.Package('x', 'y', module='no_such_module'), False)):
            self.assertEqual(package.is_there(), there)

    def test_every_step_is_known(self) -> None:
        """What a release asks for is what the program runs."""
        with open(os.path.join(TOP, 'tools', 'test'), encoding='utf-8') as file:
            text = file.read()
        program = gate_program()
        made = {command.name for command in [*program.program_commands(),
                                             *program.other_commands()]}
        self.assertLessEqual({'served', 'odd texts'}, made.intersection(program.TIMED))
        for name in gate.STEPS:
            self.assertTrue(name in made or "run.step('%s'" % name in text, name)
