"""Crates that `rt ci` proves in a folder of their own, and the prover's words over what it leaves
there: the statements of each crate, without their proofs."""
import os
import re
import shutil
import subprocess
import time
from concurrent.futures import FIRST_COMPLETED, Future, ThreadPoolExecutor, wait
from typing import Callable, Dict, Iterable, List, NamedTuple, Sequence

from paths import CRATES, TOP

# what a proof reads of a crate, and what the program is run on
PARTS = ('src', 'specs', 'proofs', 'data', 'args', 'stdin', 'stdout', 'status')


class Crate(NamedTuple):
    """A line of crates.txt: what stands before the colon, and the libraries that it names."""
    head: str
    libraries: List[str]


def listed() -> Dict[str, Crate]:
    """The crates of crates.txt by their names."""
    with open(os.path.join(TOP, 'crates.txt'), encoding='utf-8') as file:
        lines = [line.split('#')[0].partition(':') for line in file]
    return {head.split()[0]: Crate(head, libraries.split())
            for head, colon, libraries in lines if colon}


def below(name: str, crates: Dict[str, Crate]) -> List[str]:
    """A crate of the repository, and those that it stands on."""
    found, waiting = [], [name]
    while waiting:
        one = waiting.pop()
        if one in crates and one not in found:
            found.append(one)
            waiting += crates[one].libraries
    return sorted(found)


def kit() -> str:
    """The folder of the toolchain."""
    return os.path.dirname(os.path.dirname(os.path.realpath(shutil.which('rt') or '')))


def copy_crate(name: str, to: str) -> None:
    """Copies a crate, with nothing that a proof doesn't read."""
    os.makedirs(to)
    for part in PARTS:
        path = os.path.join(CRATES, name, part)
        if os.path.isdir(path):
            shutil.copytree(path, os.path.join(to, part))
        elif os.path.isfile(path):
            shutil.copy(path, to)


def lay_out(folder: str, tops: Iterable[str]) -> None:
    """Copies crates and those below them."""
    crates = listed()
    names = sorted({name for top in tops for name in below(top, crates)})
    with open(os.path.join(folder, 'crates.txt'), 'w', encoding='utf-8') as file:
        file.writelines('%s: %s\n' % (crates[name].head, ' '.join(crates[name].libraries))
                        for name in names)
    shutil.copy(os.path.join(TOP, 'HANDLES'), folder)
    for name in names:
        copy_crate(name, os.path.join(folder, 'crates', name))


class Proof(NamedTuple):
    """What `rt ci` came to with a crate and those below it: whether all are proved, and its words."""
    is_proved: bool
    said: str

    @property
    def is_kept(self) -> bool:
        """Whether the next run finds it proved."""
        return not re.search('^rt: note: .*, so (nothing is kept|what came after is not kept)',
                             self.said, re.M)


def run_gate(folder: str, *names: str) -> Proof:
    """Runs `rt ci` in a folder, on some crates and those below them, or on all."""
    ran = subprocess.run(['rt', 'ci', *names], cwd=folder, stdin=subprocess.DEVNULL,
                         stdout=subprocess.PIPE, stderr=subprocess.STDOUT, text=True,
                         errors='replace', check=False)
    return Proof(ran.returncode == 0, ran.stdout)


def told(name: str, proof: Proof) -> str:
    """What is printed of a crate."""
    if not proof.is_proved:
        return '%s: refused' % name
    if re.search('^rt: %s is kept' % name, proof.said, re.M):
        return '%s: proved before' % name
    count = re.search(r'^== %s\n(?:(?!== ).*\n)*?logic=proved functions=(\d+)' % name, proof.said,
                      re.M)
    return '%s: proved%s' % (name, ', %s functions' % count.group(1) if count else '')


def lines_of(name: str) -> int:
    """How many lines a crate has, with its definitions and proofs."""
    count = 0
    for part in ('src', 'specs', 'proofs'):
        for folder, _, names in os.walk(os.path.join(CRATES, name, part)):
            for file_name in names:
                with open(os.path.join(folder, file_name), encoding='utf-8') as file:
                    count += sum(1 for _ in file)
    return count


def lengths_of_chains(names: Iterable[str], crates: Dict[str, Crate]) -> Dict[str, int]:
    """The lines of each crate with the longest chain of crates above it."""
    lines = {name: lines_of(name) for name in names}

    def length(name: str) -> int:
        return lines[name] + max((length(above) for above in lines
                                  if name in crates[above].libraries), default=0)
    return {name: length(name) for name in lines}


def prove_upward(tops: Iterable[str], prove_one: Callable[[str], Proof]) -> bool:
    """Proves crates and those below them, each by `prove_one` once those below it are proved, those
    with the longest chain above them first, and half as many at a time as there are processors.
    Prints a line for each; of one that is refused all that the prover said. False if one is refused.
    Where a machine keeps no proofs, for lack of disk, say, crates are left to the run of all."""
    began, crates = time.monotonic(), listed()
    waiting = {name for top in tops for name in below(top, crates)}
    chains = lengths_of_chains(waiting, crates)
    running: Dict['Future[Proof]', str] = {}
    at_once, is_proved = max(1, (os.cpu_count() or 1) // 2), True
    with ThreadPoolExecutor(at_once) as workers:
        while waiting or running:
            left = waiting.union(running.values())
            ready = [name for name in waiting if left.isdisjoint(set(below(name, crates)) - {name})]
            ready.sort(key=chains.__getitem__, reverse=True)
            for name in ready[:at_once - len(running)]:
                waiting.remove(name)
                running[workers.submit(prove_one, name)] = name
            for one in wait(running, return_when=FIRST_COMPLETED).done:
                name, proof = running.pop(one), one.result()
                print('%s, %d s' % (told(name, proof), time.monotonic() - began), flush=True)
                if not proof.is_proved:
                    print(proof.said)
                    is_proved = False
                    waiting -= {above for above in waiting if name in below(above, crates)}
                elif waiting and not proof.is_kept:  # each crate above would prove those below it anew
                    print('no proof is kept on this machine: %d more in one run' % len(waiting))
                    waiting.clear()
    return is_proved


def prove(folder: str, tops: Iterable[str]) -> bool:
    """Proves and builds crates and those below them, as the gate does, where they are laid out.

    Each crate has an `rt ci` of its own. For `rt ci` gives a proof those processors alone that no
    other proof waits for as it begins. Of all crates at once it would prove the longest chain on
    one processor."""
    began = time.monotonic()
    if not prove_upward(tops, lambda name: run_gate(folder, name)):
        return False
    # builds the programs, and leaves the statements of all crates in the folder
    whole = run_gate(folder)
    print(('%d s' % (time.monotonic() - began)) if whole.is_proved else whole.said)
    return whole.is_proved


def statements(name: str, folder: str) -> str:
    """The folder in which `rt ci` leaves the statements of a crate of a folder."""
    return os.path.join(folder, 'crates', name, 'out', 'rlib')


def prover_words(name: str, folder: str) -> List[str]:
    """What the prover is told of a crate, to be read in its own folder: its libraries, by their
    statements in `folder`, and the logic."""
    crates, top = listed(), os.path.join(folder, 'crates', name)
    root = 'src/main.rt' if os.path.exists(os.path.join(top, 'src', 'main.rt')) else 'src/lib.rt'
    words = ['--crate-name', name, root, '-L', 'dependency=%s/rlibs' % kit(), '--links', name + '=',
             '--antt-project', kit() + '/rattle/logic/antt-project.json',
             '--logic-built', kit() + '/logic_built']
    if 'staticlib' in crates[name].head.split():
        words += ['--crate-type', 'staticlib']
    for library in sorted({'std', *crates[name].libraries}):
        place = statements(library, folder) if library in crates else kit() + '/rlibs'
        words += ['--extern', '%s=%s/%s.rlib' % (library, place, library)]
    for library in below(name, crates):
        if library != name:
            words += ['-L', 'dependency=' + statements(library, folder)]
    return words


def run_prover(verb: str, words: Sequence[str], folder: str) -> 'subprocess.CompletedProcess[str]':
    """What the prover came to in a crate's folder, and what it said."""
    return subprocess.run([kit() + '/bin/rattle', verb, *words], cwd=folder,
                          stdin=subprocess.DEVNULL, stdout=subprocess.PIPE,
                          stderr=subprocess.STDOUT, text=True, errors='replace', check=False)
