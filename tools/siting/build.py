"""Builds the site: lays out what Sphinx reads, runs it, and fixes the theme that Debian has."""
import glob
import os
import re
import shutil
import subprocess
import sys
import tempfile
from typing import Dict, List

from tools.paths import TOP
from tools.siting import gallery, pages, reference

# Debian's furo has its style import a sheet of a web server, and its script a module, which no
# browser reads from a file. Its compiler of styles also dropped the rule that a reader who prefers
# dark gets it unasked.
DARK = re.compile(r'body\[data-theme="dark"\] (\{[^}]*\})')
NORMALIZE = '/usr/share/nodejs/normalize.css/normalize.css'
IMPORTED_STYLE = '@import url(/javascript/normalize.css/normalize.css);'
IMPORTED_SCRIPT = 'import Gumshoe from "./gumshoe-patched.js";'
PROGRAMS = (os.path.join(TOP, 'crates', 'spmat', 'out', 'spmat'),
            os.path.join(TOP, 'reference', '__main__.py'))
# What the theme's pages lack for whoever hears them: a way past the list of pages, and the level of
# that list's headings.
HEARD = (('<body>', '<body>\n<a class="skip" href="#content">Skip to content</a>'),
         ('<article role="main">', '<article role="main" id="content">'),
         ('<p class="caption" role="heading">', '<p class="caption" role="heading" aria-level="2">'))
# names in code of more letters than these may go on in the next line, behind a sign that separates them
MOST_IN_LINE = 16
CODE = re.compile(r'<code class="((?:xref [\w -]+ )?docutils literal notranslate)">(.*?)</code>')
WORD = re.compile(r'(?<=<span class="pre">)[^<]+')
PART_OF_NAME = re.compile(r'(?<=[A-Za-z0-9)][_/(,=.])(?=["\'\w])')
# pages that only the site has
CRATES = 'crates.md'
MADE = {'How-to': ('gallery',), 'Reference': ('reference/index',)}
GROUP, LISTED = re.compile(r'^## (.*)$', re.M), re.compile(r'^- \[[^\]]*\]\(([^)]+\.md)\)', re.M)


def lay_out(folder: str) -> None:
    """Puts what Sphinx reads into a folder."""
    site = pages.Site(folder)
    site.add_pages()
    shutil.copy(os.path.join(TOP, 'site', 'conf.py'), folder)
    shutil.copytree(os.path.join(TOP, 'site', 'static'), os.path.join(folder, 'static'))
    os.makedirs(os.path.join(folder, 'extra'), exist_ok=True)
    site.write('gallery.md', pages.in_languages(gallery.page()))
    gallery.draw(os.path.join(folder, 'gallery'))
    for name, text in reference.texts().items():
        site.write(name, text)
    with open(os.path.join(folder, 'index.md'), 'a', encoding='utf-8') as file:
        file.write(contents())
    site.write(CRATES, crates_page(site.pages))


def groups() -> Dict[str, List[str]]:
    """The pages of each group, in the order of the list of pages."""
    parts = GROUP.split(read(os.path.join(TOP, pages.CONTENTS)))[1:]
    folder = os.path.dirname(pages.CONTENTS)
    found = {title: [os.path.normpath(os.path.join(folder, path))[:-len('.md')]
                     for path in LISTED.findall(text)]
             for title, text in zip(parts[::2], parts[1::2])}
    return {title: [*listed, *MADE.get(title, ())] for title, listed in found.items()}


def contents() -> str:
    """The lists of pages that the side of the site shows; the crates stand on a page of their
    own."""
    listed = groups()
    listed[list(listed)[-1]].append(CRATES[:-len('.md')])
    return ''.join('\n```{toctree}\n:caption: %s\n:hidden:\n:maxdepth: 1\n\n%s\n```\n' % (
        title, '\n'.join(name for name in names if name != 'README'))
                   for title, names in listed.items())


def crates_page(names: List[str]) -> str:
    """The page of all crates, which leads to the README of each."""
    crates = sorted(name[:-len('.md')] for name in names if name.startswith('crates/'))
    return ('---\nnosearch: true\n---\n\n# Crates\n\nEach crate has a page: what it promises, what '
            'is proved, what is only tested, and how to change it.\n\n```{toctree}\n:maxdepth: 1\n\n'
            '%s\n```\n' % '\n'.join(crates))


def build(folder: str) -> None:
    """Builds the site into a folder."""
    program = next(path for path in (os.environ.get('SPMAT', ''), *PROGRAMS) if path
                   and os.path.exists(path))
    os.environ.update(SPMAT=program, SPMAT_TOP=TOP)
    with tempfile.TemporaryDirectory(prefix='spmat-site-') as room:
        lay_out(room)
        words = [sys.executable, '-m', 'sphinx', '-q', '-W', '--keep-going', '-b', 'html', '-d',
                 os.path.join(room, '_build'), room, folder]
        if subprocess.run(words, check=False).returncode:
            raise RuntimeError('Sphinx has warnings: see above')
    mend_theme(folder)


def read(path: str) -> str:
    with open(path, encoding='utf-8') as file:
        return file.read()


def inline(path: str, line: str, other: str) -> None:
    """Puts a file in place of the line that imports it, where the line is there."""
    text = read(path)
    if line in text:
        with open(path, 'w', encoding='utf-8') as file:
            file.write(text.replace(line, read(other)))


def breakable(text: str) -> str:
    """A page whose long names in code may go on in the next line."""
    def parted(found: 're.Match[str]') -> str:
        kinds, words = found.groups()
        if len(re.sub(r'<[^>]*>', '', words)) <= MOST_IN_LINE:
            return found.group(0)
        return '<code class="%s long">%s</code>' % (kinds, WORD.sub(
            lambda word: PART_OF_NAME.sub('<wbr>', word.group(0)), words))
    return CODE.sub(parted, text)


def mend_theme(folder: str) -> None:
    """Has each file of the theme hold all that it needs."""
    static = os.path.join(folder, '_static')
    style = os.path.join(static, 'styles', 'furo.css')
    inline(style, IMPORTED_STYLE, NORMALIZE)
    dark = DARK.search(read(style))
    if dark and 'prefers-color-scheme' not in read(style):
        with open(style, 'a', encoding='utf-8') as file:
            file.write(
                '\n@media (prefers-color-scheme: dark) { body:not([data-theme="light"]) %s }\n'
                % dark.group(1))
    inline(os.path.join(static, 'scripts', 'furo.js'), IMPORTED_SCRIPT,
           os.path.join(static, 'scripts', 'gumshoe-patched.js'))
    for page in glob.glob(os.path.join(folder, '**', '*.html'), recursive=True):
        text = read(page)
        for line, other in HEARD:
            text = text.replace(line, other)
        with open(page, 'w', encoding='utf-8') as file:
            file.write(breakable(text))


