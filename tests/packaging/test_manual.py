"""The manual pages written by hand say what the programs take."""
import os
import re
import shutil
import subprocess
import unittest
from typing import Set

from tests.lib.paths import TOP
from tests.lib.patience import FOR_A_REPLY
from tests.packaging.pages import text_of
from tests.packaging.rooms import Room, program

OPTION = r'--[a-z-]+'


def helped(*words: str) -> Set[str]:
    """The options that `--help` tells of."""
    said = subprocess.run([program()] + list(words) + ['--help'], stdout=subprocess.PIPE,
                          stderr=subprocess.STDOUT, text=True, timeout=FOR_A_REPLY, check=False)
    return set(re.findall(OPTION, said.stdout))


def plain(page: str) -> str:
    """A page of the manual without what troff makes of it."""
    return text_of('packaging/man/' + page).replace('\\-', '-').replace('\\~', ' ')


class Manual(Room):
    def test_options(self) -> None:
        section = plain('spmat.1').split('.SH OPTIONS')[1].split('.SH')[0]
        described = set(re.findall(r'^\.BI? (%s)' % OPTION, section, re.M))
        self.assertEqual(described, helped() | helped('run') | helped('serve'))

    def test_synopsis(self) -> None:
        synopsis = plain('spmat.1').split('.SH SYNOPSIS')[1].split('.SH')[0].split('.br\n')
        for part in synopsis[:2]:
            command = re.search(r'\.B spmat (\w+)', part)
            assert command is not None
            self.assertEqual(set(re.findall(OPTION, part)), helped(command.group(1)) - {'--help'})

    def test_statuses(self) -> None:
        """Those of docs/protocol.md."""
        section = plain('spmat.1').split('.SH EXIT STATUS')[1].split('.SH')[0]
        table = text_of('docs/protocol.md').split('| Status | When |')[1].split('\n\n')[0]
        self.assertEqual(re.findall(r'^\.B (\d+)$', section, re.M),
                         re.findall(r'^\| (\d+) \|', table, re.M))


class Completion(Room):
    """What completes the words of `spmat` asks its help for them."""

    def completed(self, *words: str) -> Set[str]:
        """What bash offers for the last word."""
        script = (
            'source "$0"; spmat() { "$PROGRAM" "$@"; }; COMP_WORDS=("$@"); COMP_CWORD=$(($# - '
            '1)); _spmat spmat; printf "%s\\n" "${COMPREPLY[@]}"')
        said = subprocess.run(['bash', '-c', script,
                               os.path.join(TOP, 'packaging/completion/spmat.bash'), *words],
                              stdout=subprocess.PIPE, env=dict(os.environ, PROGRAM=program()),
                              text=True, timeout=FOR_A_REPLY, check=True)
        return set(said.stdout.split())

    def test_bash(self) -> None:
        self.assertEqual(self.completed('spmat', ''),
                         {'run', 'serve', 'help', '--help', '--version'})
        for command in ('run', 'serve'):
            self.assertEqual(self.completed('spmat', command, '--'), helped(command))
        self.assertEqual(self.completed('spmat', 'serve', '--por'), {'--port'})

    @unittest.skipIf(shutil.which('zsh') is None, 'no zsh')
    def test_zsh(self) -> None:
        subprocess.run(['zsh', '-n', os.path.join(TOP, 'packaging/completion/spmat.zsh')],
                       timeout=FOR_A_REPLY, check=True)
