"""Pages of the repository in tests: their blocks, what these print, and the rows of tables of
two."""
import contextlib
import io
import os
import pathlib
import re

import support


def text_of(page):
    """A page by its path in the repository."""
    return pathlib.Path(os.path.join(support.TOP, page)).read_text('utf-8')


def blocks_of(text):
    """The blocks of a page, which are indented, in order. A block may have blank lines."""
    return [re.sub('^    ', '', block, flags=re.M)
            for block in re.findall(r'^    .*\n(?:    .*\n|\n(?=    ))*', text, re.M)]


def rows_of(page):
    """The rows of tables whose two cells are code."""
    return re.findall(r'^\| `(.*?)` \| `(.*?)` \|$', text_of(page), re.M)


@contextlib.contextmanager
def inside(folder=support.TOP):
    """Works in a folder."""
    before = os.getcwd()
    os.chdir(folder)
    try:
        yield
    finally:
        os.chdir(before)


def printed(block, folder=support.TOP):
    """What a block prints that runs in a folder."""
    with inside(folder), contextlib.redirect_stdout(io.StringIO()) as said:
        exec(block, {})  # pylint: disable=exec-used
    return said.getvalue()
