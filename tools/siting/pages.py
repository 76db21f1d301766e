"""The repository's pages as the site has them: links to files that aren't pages lead to copies, and
blocks have a language."""
import os
import re
import shutil
import subprocess
from typing import Callable, Dict, List, Tuple

from tools.paths import TOP
from tools.releasing.look import homepage

PATTERNS = ('*.md', 'docs/*.md', 'clients/*/README.md', 'gateway/README.md', 'bench/README.md',
            'crates/*/README.md')
CONTENTS = 'docs/README.md'
# pages for those who change spmat, which would crowd what others search for
NOT_SEARCHED = ('crates/', 'CHANGELOG.md', 'docs/DECISIONS.md', 'THIRD-PARTY.md', 'docs/README.md')
MOST_LETTERS = 160                                 # of what a search engine shows of a page
LINK = re.compile(r'(!?)\[((?:[^\]\[]|\[[^\]]*\])*)\]\(([^)\s]+)\)')
BLOCK = re.compile(r'(?:^|(?<=\n\n))((?:    [^\n]*\n|\n(?=    ))+)')
# what a link is called in the repository that leads to a page
FILE_NAME = re.compile(r'`?(?:docs/)?\w+\.md`?')
# the words by which readers search for what stands below, in a comment of the page
INDEXED = re.compile(r'^<!-- index: (.*) -->$', re.M)
PYTHON = re.compile(r'(import |from \w+ import|with |def |@|for |print\(|[A-Za-z_, ]+ = '
                    r'.*[(.]|spmat\.(?!\w+: )|nx\.|s\.|G\.|A\.)')
SHELL = re.compile(
    r'(\$ |[A-Z_]+=\S+ |export |tools/|tests/|bench/|spmat |spmat-|python3? |pip |apt|sudo |ssh '
    r'|exec |cd |rt |printf|socat|systemctl|openssl|curl|cat |for \w+ in|clang|git '
    r'|mkdir|chmod|useradd|cp |rm )')


def tracked(pattern: str) -> List[str]:
    """The files of the repository that match a pattern."""
    said = subprocess.run(['git', 'ls-files', '--', ':(glob)' + pattern], cwd=TOP,
                          stdout=subprocess.PIPE, check=True, text=True).stdout
    return [name for name in said.splitlines() if os.path.exists(os.path.join(TOP, name))]


def all_pages() -> List[str]:
    return [name for pattern in PATTERNS for name in tracked(pattern)]


def staged_name(page: str) -> str:
    """Where a page stands in the site: the README is its first page."""
    return 'index.md' if page == 'README.md' else page


def description(text: str) -> str:
    """What a search engine shows of a page: its first sentences."""
    first = next((part for part in re.split(r'\n\s*\n', text)
                  if re.match(r'[A-Z*`]', part)), '')
    plain = re.sub(r'!?\[([^\]]*)\]\([^)]*\)', r'\1', ' '.join(first.split()))
    plain = re.sub(r'[*`"\\]', '', plain)
    if len(plain) <= MOST_LETTERS:
        return plain
    cut = plain[:MOST_LETTERS]
    sentence = cut.rfind('. ')
    return cut[:sentence + 1] if sentence > 40 else cut.rsplit(' ', 1)[0] + ' ..'


def head(page: str, text: str) -> str:
    """What stands above a page for Sphinx: its description, and whether the search leaves it
    out."""
    told = description(text)
    lines = ['myst:', '  html_meta:', '    "description lang=en": "%s"' % told] if told else []
    lines += ['nosearch: true'] if page.startswith(NOT_SEARCHED) else []
    # the list of pages is what the side of the site shows
    lines += ['orphan: true'] if page == CONTENTS else []
    return '\n'.join(['---', *lines, '---', '', '']) if lines else ''


class Site:
    """The folder that Sphinx reads. `copied` are the repository's files that pages link to, by
    their names."""

    def __init__(self, folder: str) -> None:
        self.folder = folder
        self.pages = all_pages()
        self.copied: Dict[str, str] = {}

    def write(self, name: str, text: str) -> None:
        path = os.path.join(self.folder, name)
        os.makedirs(os.path.dirname(path), exist_ok=True)
        with open(path, 'w', encoding='utf-8') as file:
            file.write(text)

    def add_pages(self) -> None:
        """Lays out all pages."""
        for page in self.pages:
            with open(os.path.join(TOP, page), encoding='utf-8') as file:
                text = file.read()
            laid = in_languages(self.relinked(page, text))
            self.write(staged_name(page), head(page, text) + indexed(laid))

    def relinked(self, page: str, text: str) -> str:
        """A page whose links lead to where the site has what they mean. Links in code stay."""
        def link(found: 're.Match[str]') -> str:
            mark, words, target = found.groups()
            where = self.target(page, target, bool(mark))
            if not where:
                return words
            if FILE_NAME.fullmatch(words):
                # a reader of the site sees no files
                words = self.title(page, target) or words
            if '/source/' in where:
                # by a bare address MyST would look for a page
                return '<a href="%s">%s</a>' % (where,
                                                re.sub('`([^`]+)`', r'<code>\1</code>', words))
            return '%s[%s](%s)' % (mark, words, where)
        return outside_code(text, lambda part: LINK.sub(link, part))

    def title(self, page: str, target: str) -> str:
        """The title of the page that a link of a page leads to, without what is said behind a
        colon; nothing where it leads to no page."""
        path = os.path.normpath(os.path.join(os.path.dirname(page), target.partition('#')[0]))
        if path not in self.pages:
            return ''
        with open(os.path.join(TOP, path), encoding='utf-8') as file:
            return file.readline().lstrip('# ').strip().partition(':')[0]

    def target(self, page: str, target: str, is_picture: bool) -> str:
        """Where a link of a page leads in the site; nowhere in a tree that lacks the file, as a
        release's may."""
        target = self.at_home(page, target)
        if re.match(r'[a-z]+:|#', target):
            return target
        path, _, anchor = target.partition('#')
        name = os.path.normpath(os.path.join(os.path.dirname(page), path))
        here = os.path.dirname(staged_name(page))
        if os.path.isdir(os.path.join(TOP, name)) and name + '/README.md' in self.pages:
            name += '/README.md'
        if name in self.pages:
            return os.path.relpath(staged_name(name),
                                   here or '.') + ('#' + anchor if anchor else '')
        if not os.path.exists(os.path.join(TOP, name)):
            return ''
        if is_picture:
            os.makedirs(os.path.join(self.folder, os.path.dirname(name)), exist_ok=True)
            shutil.copy(os.path.join(TOP, name), os.path.join(self.folder, name))
            return os.path.relpath(name, here or '.')
        return self.source(here, name)

    def at_home(self, page: str, target: str) -> str:
        """A link to the page that an address of the homepage means: the README of a wheel has such
        addresses, as nothing stands beside it. Any other link as it is."""
        path, mark, anchor = target.partition('#')
        name = path.replace(homepage(), '', 1).replace('.html', '.md')
        if not target.startswith(homepage()) or name not in self.pages:
            return target
        return os.path.relpath(name, os.path.dirname(page) or '.') + mark + anchor

    def source(self, here: str, name: str) -> str:
        """A link to the copy of a file of the repository, or to the list of a folder's files."""
        if name not in self.copied:
            path = os.path.join(TOP, name)
            # a notebook keeps its ending, by which a browser hands it on
            to = 'source/%s' % name if name.endswith('.ipynb') else 'source/%s.txt' % name
            if os.path.isdir(path):
                self.write('extra/' + to, ''.join(one + '\n' for one in tracked(name + '/**')))
            else:
                os.makedirs(os.path.dirname(os.path.join(self.folder, 'extra', to)), exist_ok=True)
                shutil.copy(path, os.path.join(self.folder, 'extra', to))
            self.copied[name] = to
        return '%s%s' % ('../' * (here.count('/') + 1) if here else './', self.copied[name])


def outside_code(text: str, change: Callable[[str], str]) -> str:
    """A page in which everything but code is changed."""
    parts = re.split(r'(^(?:```|~~~)[\s\S]*?^(?:```|~~~)$|(?:^    [^\n]*\n)+|`[^`\n]+`(?!\]))',
                     text, flags=re.M)
    return ''.join(part if at % 2 and not part.startswith('[') else change(part)
                   for at, part in enumerate(parts))


def indexed(text: str) -> str:
    """A page whose words for searchers are entries of the site's index, which its search finds
    before any word of a text."""
    return INDEXED.sub(r'```{index} \1\n```\n', text)


def in_languages(text: str) -> str:
    """A page whose indented blocks are fenced, with the language that they are in; within lists
    they stay."""
    lines, out, at = text.split('\n'), [], 0  # type: List[str], List[str], int
    in_list = False
    while at < len(lines):
        line = lines[at]
        if re.match(r'\s*([-*]|\d+\.) ', line):
            in_list = True
        elif line.strip() and not line.startswith(' '):
            in_list = False
        if line.startswith('    ') and not in_list and (not out or not out[-1].strip()):
            block, at = taken(lines, at)
            out += ['```' + language(block), *block, '```']
            continue
        out.append(line)
        at += 1
    return '\n'.join(out)


def taken(lines: List[str], at: int) -> Tuple[List[str], int]:
    """The lines of an indented block, and where it ends."""
    block: List[str] = []
    while at < len(lines) and (lines[at].startswith('    ') or not lines[at].strip()):
        block.append(lines[at][4:])
        at += 1
    while block and not block[-1].strip():
        block.pop()
        at -= 1
    return block, at


def language(block: List[str]) -> str:
    """What a block is written in, by how it begins."""
    first = next((line for line in block if line.strip() and not line.startswith('#')), '')
    return 'bash' if SHELL.match(first) else 'python' if PYTHON.match(first) else 'text'
