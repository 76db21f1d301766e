"""The gate's run, and what it notes at its end of the program that passed it: the commit, the
toolchain, the program's SHA-256, and the steps.

Only a run writes the note, of the steps that it ran itself: there is no command that does. (Whoever
owns a machine can write any file on it. What this keeps out is a release that nobody tried.)
"""
import datetime
import json
import os
import shutil
import subprocess
import tempfile
import threading
import time
from concurrent.futures import ThreadPoolExecutor
from typing import Any, Dict, IO, List, Mapping, NamedTuple, Optional, Sequence

from tools.releasing import tree

NOTE = os.path.join('crates', 'spmat', 'out', 'passed.json')
UNKNOWN = 'none'
# A run that lacks one of these is none of the gate.
STEPS = ('documents', 'definitions', 'release --check', 'a fresh clone', 'rt ci', 'refused memory',
         'little memory', 'cases', 'served', 'instructions', 'odd texts', 'altered code', 'opcodes',
         'fuzzer', 'client', 'client, without its library', 'spmat-blocks', 'spmat-networkx',
         'networkx', 'snippets', 'release')
MOST_SECONDS = 20 * 60                             # of a step that has no other limit
LINES_OF_A_FAULT = 20                              # that are repeated behind what other steps said


class Failed(Exception):
    """A step failed: its words say which, and how."""


class Command(NamedTuple):
    """What is to be run as a step: its name, its words, its variables beside those that there are,
    the most seconds that it may take, and its folder."""
    name: str
    words: Sequence[str]
    environment: Mapping[str, str] = {}
    most: Optional[int] = MOST_SECONDS
    folder: str = tree.TOP


class Step(NamedTuple):
    """What was run, and how long it took."""
    name: str
    seconds: int


class Run:
    """A run of the gate. What was run by `step` or `side_by_side` is noted by `note`."""

    def __init__(self) -> None:
        self.began = state()
        self.steps: List[Step] = []
        self._printing = threading.Lock()

    def step(self, name: str, words: Sequence[str], environment: Optional[Mapping[str, str]] = None,
             most: Optional[int] = MOST_SECONDS, folder: str = tree.TOP) -> None:
        """Runs a command. Failed where it fails, or takes more seconds than it may: a gate without
        an end tells nothing."""
        command = Command(name, words, environment or {}, most, folder)
        print(heading(command), flush=True)
        self._record(command, run_timed(command))

    def side_by_side(self, commands: Sequence[Command], at_once: int = 2) -> None:
        """Runs commands, some at once, and prints what each said when it ends. Failed where one
        fails: what hasn't begun by then doesn't."""
        faults: List[Failed] = []
        with ThreadPoolExecutor(at_once) as pool:
            list(pool.map(lambda command: faults or self._run_captured(command, faults), commands))
        if faults:
            raise faults[0]

    def _run_captured(self, command: Command, faults: List[Failed]) -> None:
        """Runs a command, and prints what it said. A fault is added to the others, with the last
        lines that tell of no success."""
        seconds, fault = None, ''
        with tempfile.TemporaryFile('w+', errors='replace') as said:
            try:
                seconds = run_timed(command, said)
            except Failed as failed:
                fault = str(failed)
            said.seek(0)
            lines = said.read().rstrip('\n').split('\n')
        with self._printing:
            print('\n'.join([heading(command), *lines]), flush=True)
            if seconds is not None:
                self._record(command, seconds)
        if fault:
            told = [line for line in lines if ': passed' not in line][-LINES_OF_A_FAULT:]
            faults.append(Failed('\n'.join([fault, *told])))

    def _record(self, command: Command, seconds: int) -> None:
        print('-- %s: %d s' % (command.name, seconds), flush=True)
        self.steps.append(Step(command.name, seconds))

    def note(self) -> Dict[str, Any]:
        """Writes the note. Where the state is another one than at the beginning, it names no
        commit."""
        toolchain = tree.toolchain()
        note = {'commit': self.began if self.began == state() else UNKNOWN,
                'toolchain': ' logic '.join(toolchain) if toolchain else UNKNOWN,
                'program': tree.sum_of(tree.path_of(tree.PROGRAM)),
                'library': tree.sum_of(tree.path_of(tree.LIBRARY)),
                'ended': datetime.datetime.now(datetime.timezone.utc).strftime(
                    '%Y-%m-%dT%H:%M:%SZ'),
                'steps': {step.name: step.seconds for step in self.steps}}
        with open(tree.path_of(NOTE), 'w', encoding='utf-8') as file:
            json.dump(note, file, indent=1)
            file.write('\n')
        return note


def heading(command: Command) -> str:
    """The line that begins what a step says."""
    return '== %s: %s' % (command.name, ' '.join(command.words))


def run_timed(command: Command, said: Optional[IO[str]] = None) -> int:
    """Runs a command, which says what it says to a file or on the screen. The seconds that it took.
    (At SIGABRT Python tells where it stood.)"""
    begun = time.monotonic()
    limited = ([] if command.most is None else ['timeout', '--signal=ABRT', '--kill-after=30',
                                                str(command.most)])
    status = subprocess.run([*limited, *command.words], cwd=command.folder,
                            env={**os.environ, 'PYTHONFAULTHANDLER': '1', **command.environment},
                            stdout=said, stderr=subprocess.STDOUT if said else None,
                            check=False).returncode
    seconds = round(time.monotonic() - begun)
    if status:
        raise Failed('%s: %s after %d s' % (command.name,
                                            'it hung' if status == 124 else 'status %d' % status,
                                            seconds))
    return seconds


def state() -> str:
    """What is about to be tried: the commit, or `none` where files differ from it, as then no
    commit says what was tried."""
    if shutil.which('git') is None or not os.path.exists(tree.path_of('.git')) or tree.changed():
        return UNKNOWN
    return tree.commit()


def read() -> Dict[str, Any]:
    """The note, empty where no gate has passed here."""
    if not os.path.exists(tree.path_of(NOTE)):
        return {}
    with open(tree.path_of(NOTE), encoding='utf-8') as file:
        note: Dict[str, Any] = json.load(file)
    return note


def faults() -> List[str]:
    """Why the program that lies here isn't the one that passed the gate at this commit, by this
    toolchain."""
    missing = [name for name in (tree.PROGRAM, tree.LIBRARY)
               if not os.path.exists(tree.path_of(name))]
    if missing:
        return ['there is no %s: tools/build makes it, and tools/test passes it' % name
                for name in missing]
    note = read()
    if not note:
        return ['no gate has passed here: tools/test writes %s at its end' % NOTE]
    out = []
    if note.get('commit') != tree.commit():
        out.append('the gate passed commit %s, and this is %s'
                   % (note.get('commit'), tree.commit()))
    out += ['%s is not the %s that passed the gate' % (name, kind)
            for kind, name in (('program', tree.PROGRAM), ('library', tree.LIBRARY))
            if note.get(kind) != tree.sum_of(tree.path_of(name))]
    toolchain = tree.toolchain()
    here = ' logic '.join(toolchain) if toolchain else UNKNOWN
    if note.get('toolchain') != here:
        out.append('the gate passed by %s, and the toolchain here is %s'
                   % (note.get('toolchain'), here))
    missing = [name for name in STEPS if name not in note.get('steps', {})]
    if missing:
        out.append('the gate that is noted didn\'t run %s' % ', '.join(missing))
    return out
