"""The files of packaging/ that the documents print word for word.

A line that ends in a link to the file and a colon, `[packaging/NAME](../packaging/NAME):`, stands
before a block that is the file.
"""
import os
import re
from typing import Dict, Iterator, List, NamedTuple

from tests.lib.paths import TOP

PAGES = ('README.md', 'docs/server.md', 'docs/service.md', 'docs/write_a_client.md')
INTRODUCED = re.compile(r'\[(packaging/[^\]]+)\]\((?:\.\./)?\1\):$')
INDENT = '    '


class Block(NamedTuple):
    """A block of a page that is to be a file: the lines `first` up to `end` of the page."""
    page: str
    file: str
    first: int
    end: int


def text_of(path: str) -> str:
    """The text of a file of the repository."""
    with open(os.path.join(TOP, path), encoding='utf-8') as file:
        return file.read()


def snippet(path: str, changes: Dict[str, str]) -> str:
    """A file of packaging/ with words changed, so that it can be tried here. KeyError where it
    doesn't have one of them."""
    text = text_of(os.path.join('packaging', path))
    for old, new in changes.items():
        if old not in text:
            raise KeyError('packaging/%s has no %r' % (path, old))
        text = text.replace(old, new)
    return text


def indented(text: str) -> List[str]:
    """The lines of a block that shows a file."""
    return [INDENT + line if line else '' for line in text.rstrip('\n').split('\n')]


def blocks(page: str) -> Iterator[Block]:
    """The blocks of a page that are to be files, in order."""
    lines = text_of(page).split('\n')
    for number, line in enumerate(lines):
        found = INTRODUCED.search(line)
        if found:
            first = end = number + 2
            while end < len(lines) and (lines[end].startswith(INDENT)
                                        or (not lines[end] and lines[end + 1:end + 2] != ['']
                                            and ''.join(lines[end + 1:end + 2]).startswith(
                                                INDENT))):
                end += 1
            yield Block(page, found.group(1), first, end)


def is_file(block: Block) -> bool:
    """Whether the block shows the file as it is."""
    return text_of(block.page).split('\n')[block.first:block.end] == indented(text_of(block.file))


def rewrite(page: str) -> int:
    """Puts the files into a page as they are now; answers how many blocks were others."""
    lines = text_of(page).split('\n')
    old = [block for block in blocks(page) if not is_file(block)]
    for block in reversed(old):
        lines[block.first:block.end] = indented(text_of(block.file))
    with open(os.path.join(TOP, page), 'w', encoding='utf-8') as file:
        file.write('\n'.join(lines))
    return len(old)
