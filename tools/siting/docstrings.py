"""The client's docstrings as reStructuredText: backticks mark code, and what is indented behind an
empty line is code."""
import inspect
import itertools
import re
from typing import Any, List

from tools.siting.pages import language

CODE = re.compile(r'(?<![`:\w])`([^`\n]+)`(?![`\w_])')
LINK = re.compile(r'\[([^\]]+)\]\((https?://[^)\s]+)\)')
UNDERLINE = re.compile(r'^(-{3,}|={3,})\s*$')


def process(_app: Any, what: str, name: str, thing: Any, options: Any, lines: List[str]) -> None:
    """What Sphinx calls with the lines of a docstring, which it takes back changed. Of an object
    that is called as a function, these are the call's."""
    del name, options
    if what == 'function' and not inspect.isroutine(thing):
        lines[:] = (inspect.getdoc(type(thing).__call__) or '').split('\n')
    lines[:] = converted(lines)


def converted(lines: List[str]) -> List[str]:
    """The lines with literals, code blocks and tables as reStructuredText has them. Sections of
    numpydoc stay as they are."""
    out: List[str] = []
    in_code = in_sections = False
    for at, line in enumerate(lines):
        in_sections = (in_sections or (at + 1 < len(lines) and bool(UNDERLINE.match(lines[at + 1]))
                                       and bool(line.strip())))
        is_indented = line.startswith('    ') and bool(line.strip())
        if is_indented and not in_code and not in_sections and (not out or not out[-1].strip()):
            out += ['.. code-block:: '
                    + language(list(itertools.takewhile(str.strip, map(str.strip, lines[at:])))),
                    '']
            in_code = True
        elif line.strip() and not line.startswith('    '):
            in_code = False
        if line.startswith('|'):
            out.append('| ' + literal(line.strip('| ')))    # a row of a table, as a line of its own
        else:
            out.append(line if in_code else literal(line))
    return out


def literal(line: str) -> str:
    """A line whose marks for code and links are those of reStructuredText."""
    return LINK.sub(r'`\1 <\2>`__', CODE.sub(r'``\1``', line)) if '>>>' not in line else line
