"""Copies of the repository: a commit of their own, and a program that passed the gate."""
import os
import shutil
import stat
import subprocess
import sys
import tempfile
import unittest
from typing import Any, Dict, Optional

from tests.lib import paths
from tests.lib.paths import TOP
from tests.lib.patience import FOR_A_COMMAND

PROGRAM = os.path.relpath(paths.PROGRAM, TOP)
LIBRARY = os.path.relpath(paths.LIBRARY, TOP)
WHO = {'GIT_%s_%s' % (role, what): value for role in ('AUTHOR', 'COMMITTER')
       for what, value in (('NAME', 'nobody'), ('EMAIL', 'nobody@localhost'),
                           ('DATE', '2026-01-02T03:04:05Z'))}
# A program that says its version, where the built one isn't wanted.
TELLS = '#!/bin/sh\necho "spmat %s"\n'
# What a release doesn't look at, and what it does look at in there.
LEFT_OUT = ('bench/', 'crates/', 'reference/', 'tests/')
LOOKED_AT = ('crates/command_line/src/version.rt', 'crates/spmat/stdin', 'crates/spmat/stdout')
RT = '#!/bin/sh\necho "%s"\n'


def copied(name: str) -> bool:
    return ((name in LOOKED_AT or not name.startswith(LEFT_OUT))
            and os.path.lexists(os.path.join(TOP, name)))


class Copy:
    """A copy of this tree's files in a folder, committed. Of another copy, where one is given."""

    def __init__(self, folder: str, of: Optional['Copy'] = None) -> None:
        self.top = folder
        self.environment: Dict[str, str] = {**os.environ, **WHO}
        if of is not None:
            shutil.copytree(of.top, folder, symlinks=True)
            return
        names = subprocess.run(['git', 'ls-files', '-z', '--cached', '--others',
                                '--exclude-standard'], cwd=TOP, stdout=subprocess.PIPE, check=True,
                               text=True).stdout.strip('\0').split('\0')
        for name in filter(copied, names):
            os.makedirs(os.path.dirname(self.path(name)), exist_ok=True)
            shutil.copy2(os.path.join(TOP, name), self.path(name), follow_symlinks=False)
        self.git('init', '-q')
        self.commit()

    def path(self, name: str) -> str:
        return os.path.join(self.top, name)

    def git(self, *words: str) -> str:
        return subprocess.run(('git',) + words, cwd=self.top, env=self.environment,
                              stdout=subprocess.PIPE, check=True, text=True).stdout.strip()

    def commit(self) -> None:
        self.git('add', '-A')
        self.git('commit', '-q', '--allow-empty', '-m', 'a copy')

    def toolchain(self, told: str) -> None:
        """Puts a command `rt` on the PATH that tells of this toolchain, and does nothing else."""
        folder = self.path('out')                  # which git doesn't look at
        os.makedirs(folder, exist_ok=True)
        self.write('out/rt', RT % told, 0o755)
        self.environment['PATH'] = folder + os.pathsep + os.environ['PATH']

    def text(self, name: str) -> str:
        with open(self.path(name), encoding='utf-8') as file:
            return file.read()

    def write(self, name: str, text: str, mode: Optional[int] = None) -> None:
        os.makedirs(os.path.dirname(self.path(name)), exist_ok=True)
        with open(self.path(name), 'w', encoding='utf-8') as file:
            file.write(text)
        if mode is not None:
            os.chmod(self.path(name), mode)

    def replace(self, name: str, old: str, new: str) -> None:
        text = self.text(name)
        assert old in text, (name, old)
        self.write(name, text.replace(old, new), stat.S_IMODE(os.stat(self.path(name)).st_mode))

    def release(self, *words: str) -> 'subprocess.CompletedProcess[str]':
        return subprocess.run([self.path('tools/release')] + list(words), cwd=self.top,
                              env=self.environment, stdout=subprocess.PIPE,
                              stderr=subprocess.STDOUT, text=True, check=False,
                              timeout=FOR_A_COMMAND)

    def pass_gate(self, amid: str = '', steps: str = 'gate.STEPS') -> None:
        """A run of the gate in which each step does nothing; `amid` is a command of the shell that
        runs before the note."""
        text = (
            'from tools.releasing import gate\nrun = gate.Run()\nfor name in %s: run.step(name, '
            '["true"])\n'
            'import subprocess\nsubprocess.run(%r, shell=True, check=True)\nrun.note()'
            % (steps, amid or 'true'))
        subprocess.run([sys.executable, '-c', text], cwd=self.top, env=self.environment,
                       stdout=subprocess.DEVNULL, check=True, timeout=FOR_A_COMMAND)


def needs_git(of: Any) -> Any:
    """Skips what wants git, and a tree that git knows."""
    return unittest.skipUnless(shutil.which('git') and os.path.exists(os.path.join(TOP, '.git')),
                               'no git here')(of)


class InCopy(unittest.TestCase):
    """A test with folders of its own."""

    def folder(self) -> str:
        made = tempfile.TemporaryDirectory(prefix='spmat-release-')
        self.addCleanup(made.cleanup)
        return os.path.join(made.name, 'tree')
