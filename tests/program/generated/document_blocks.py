"""Runs the code blocks of a page as a reader would paste them, and compares what each prints with
the block that stands below it.

A block is indented by four spaces. Behind a line that ends in `prints` it is what the block before
it prints, and behind one that ends in `ends with` the last that it says on standard error, however
that is cut into lines; else its first word says what it is: Python (`import`, `from`) or shell.
Each runs by itself, at a place that looks like the top of the repository, and those of a page in
one folder, so that files stay.
"""
import os
import re
import subprocess
import sys
import tempfile
from typing import List, NamedTuple, Optional
from tests.lib.paths import PYTHON_PATH, TOP
from tests.lib.patience import FOR_A_SESSION
from tests.lib.runs import Wrong, difference

PYTHON = ('import', 'from')
SHELL = ('send()', 'export', 'python3', 'printf', 'PATH', 'cd', 'tools/', 'tests/', 'bench/', '{')
# Blocks that run elsewhere: the gate runs the package's tests itself, and these run what wants Dask
# or networkx.
ELSEWHERE = ('python3 -m pytest', 'from distributed', 'import networkx')


class Block(NamedTuple):
    """A block of a page, the line at which it begins, and what it prints, or ends with where it
    fails, if that is said."""
    line: int
    text: str
    printed: Optional[str] = None
    last: Optional[str] = None

    def words(self) -> Optional[List[str]]:
        """The command line that runs it, None where it runs elsewhere."""
        first = self.text.lstrip('$ ')
        if first.startswith(ELSEWHERE):
            return None
        word = re.split(r'[\s=]', first, 1)[0]
        if word in PYTHON:
            return [sys.executable, '-c', self.text]
        if first.startswith(SHELL):
            return ['sh', '-c', self.text]
        raise Wrong('line %d: a block that is neither Python, nor shell, nor what one prints: %.40r'
                    % (self.line, self.text))


def runs(page: str) -> List[Block]:
    """The blocks of a page, as a reader of the page sees them: indented lines that only blank ones
    part are one block."""
    with open(os.path.join(TOP, page), encoding='utf-8') as file:
        lines = file.read().split('\n')
    found: List[Block] = []
    at, prose = 0, ''
    while at < len(lines):
        if not lines[at].startswith('    '):
            prose = lines[at] if lines[at].strip() else prose
            at += 1
            continue
        end = at
        for number in range(at, len(lines)):
            if lines[number].startswith('    '):
                end = number + 1
            elif lines[number].strip():
                break
        text = ''.join(line[4:] + '\n' for line in lines[at:end])
        if prose.endswith('prints') and found and found[-1].printed is None:
            found[-1] = found[-1]._replace(printed=text)
        elif prose.endswith('ends with') and found and found[-1].last is None:
            found[-1] = found[-1]._replace(last=text)
        else:
            found.append(Block(at + 1, text))
        at, prose = end, ''
    return found


def check_page(page: str, program: str) -> None:
    """Runs each block of a page. Wrong where one fails, or prints other than the page says; where
    it says nothing, all is right."""
    blocks = runs(page)
    if not any(block.printed for block in blocks):
        raise Wrong('%s has no block that prints' % page)
    with tempfile.TemporaryDirectory(prefix='spmat-page-') as folder:
        os.makedirs(os.path.join(folder, 'crates', 'spmat', 'out'))
        os.symlink(program, os.path.join(folder, 'crates', 'spmat', 'out', 'spmat'))
        for name in ('clients', 'docs'):
            os.symlink(os.path.join(TOP, name), os.path.join(folder, name))
        environment = {**os.environ, 'SPMAT': program, 'TMPDIR': folder,
                       'PYTHONPATH': os.pathsep.join(filter(None,
                                                            [PYTHON_PATH,
                                                             os.environ.get('PYTHONPATH')]))}
        for block in blocks:
            words = block.words()
            if words is None:
                continue
            done = subprocess.run(words, cwd=folder, env=environment, stdout=subprocess.PIPE,
                                  stderr=subprocess.PIPE, timeout=FOR_A_SESSION)
            last = done.stderr.decode('utf-8', 'replace').strip().split('\n')[-1]
            if bool(done.returncode) != (block.last is not None) or (block.last is not None
                                                                     and block.last.split()
                                                                     != last.split()):
                raise Wrong('%s, line %d: status %d: %s' % (page, block.line, done.returncode,
                                                            last))
            if block.printed is not None and done.stdout != block.printed.encode():
                raise Wrong('%s, line %d: %s' % (page, block.line,
                                                 difference(block.printed.encode(), done.stdout)))


def page_case(page: str):
    """The case of a page."""
    return lambda program: check_page(page, os.path.abspath(program))
