"""The Debian packages, `spmat`, `python3-spmat` and `spmat-doc`, and the manual pages, which are
made of the documents."""
import email.utils
import glob
import os
import re
import shutil
import subprocess
import tempfile
from typing import Dict

from tools.releasing import site, tree

PACKAGING = 'packaging/debian/'
# The manual pages of section 7: a document each, and what it is about.
PAGES = {
    'protocol': 'commands, replies and refusals of a session of spmat',
    'operators': 'operators of spmat from Python functions and from C, and built-in ones',
    'bpf': 'the instructions and the assembly text of operators, and what the verifier of spmat '
    'wants',
    'server': 'how to run a server of spmat for others',
    'limits': 'what a session of spmat takes, and how to bound it',
    'service': 'how to run a service of spmat for untrusted users',
}
# The first session of the program, and what it prints.
FIRST_SESSION = ('crates/spmat/stdin', 'crates/spmat/stdout')
# Those of section 1, which are written by hand.
BY_HAND = ('spmat', 'spmat-health', 'spmat-drain', 'spmat-graph', 'spmat-gateway')
CHANGES = """spmat (%s) unstable; urgency=medium

  * %s

 -- %s  %s
"""
WANTED = {'lowdown': 'lowdown', 'dh': 'debhelper', 'dh_python3': 'dh-python',
          'dpkg-buildpackage': 'dpkg-dev'}


class Missing(Exception):
    """What makes packages isn't there; its words name what to install."""


def check_tools() -> None:
    """Raises Missing where a program that makes packages isn't there."""
    missing = [package for program, package in WANTED.items()
               if shutil.which(program, path=system_path()) is None]
    if not glob.glob('/usr/share/perl5/Debian/Debhelper/Buildsystem/pybuild.pm'):
        missing.append('dh-python')
    if missing:
        raise Missing('to make Debian packages, install %s, pybuild-plugin-pyproject, python3-all'
                      % ', '.join(sorted(set(missing))))


def system_path() -> str:
    """The PATH of Debian's own programs: its Python makes packages, and no other one of this
    machine."""
    return '/usr/sbin:/usr/bin:/sbin:/bin'


def manual(name: str) -> str:
    """A page of the manual: one of section 1, or one of section 7, made of the document by
    lowdown."""
    date = email.utils.formatdate(tree.commit_time(), usegmt=True).split()
    date_told = ' '.join(date[1:4])
    if name in BY_HAND:
        page = tree.text_of('packaging/man/%s.1' % name)
        if '@COMMANDS@' in page:
            page = page.replace('@COMMANDS@\n', tree.printed('tools/manual_commands'))
        return page.replace('@VERSION@', tree.version()).replace('@DATE@', date_told)
    # Without --parse-no-super 2^64 becomes 264.
    made = subprocess.run(['lowdown', '-s', '--parse-no-super', '-Tman', '-m',
                           'title=spmat-' + name, '-m', 'section=7', '-m', 'date=' + date_told,
                           '-m', 'source=spmat ' + tree.version(), '-m', 'volume=spmat'],
                          input=without_links(tree.text_of('docs/%s.md' % name)),
                          stdout=subprocess.PIPE, check=True, text=True,
                          env=dict(os.environ, PATH=system_path())).stdout
    return re.sub(r'^(\.TH .*\n)', lambda head: head.group(1) + '.SH NAME\nspmat-%s \\- %s\n'
                  % (name, PAGES[name]), made, 1, re.M)


def without_links(page: str) -> str:
    """A document for a reader who can follow no link: other pages of the manual are named as such,
    and lists of headings left out."""
    page = re.sub(r'^- \[[^\]]*\]\(#[^)]*\)\n', '', page, flags=re.M)
    page = re.sub(r'\[[^\]]*\]\((%s)\.md(?:#[^)]*)?\)' % '|'.join(PAGES), r'spmat-\1(7)', page)
    return re.sub(r'\[([^\]]*)\]\([^)\s]*\)', r'\1', page)


def manuals() -> Dict[str, str]:
    """The pages of the manual by the names of their files."""
    return {**{name + '.1': manual(name) for name in BY_HAND},
            **{'spmat-%s.7' % name: manual(name) for name in PAGES}}


def changes() -> str:
    """The changelog as Debian has it: one entry, of this version."""
    maintainer = re.search(r'^Maintainer: (.*)$', tree.text_of(PACKAGING + 'control'), re.M)
    assert maintainer is not None
    date = email.utils.formatdate(tree.commit_time(), localtime=False)
    return CHANGES % (tree.version(), 'What changed stands in /usr/share/doc/spmat/CHANGELOG.md.',
                      maintainer.group(1), date.replace('-0000', '+0000'))


def goes_in(name: str) -> bool:
    """Whether packages are made of a file, or tried with it."""
    return (any(one.has(name) for one in tree.DISTRIBUTIONS)
            or name.startswith(('docs/', 'packaging/')) or os.path.dirname(name) == ''
            or name in FIRST_SESSION)


def lay_out(stage: str) -> None:
    """The commit's files that go into packages, with packaging/debian as the folder `debian` and
    what is made for it."""
    for name in filter(goes_in, tree.files()):
        tree.copy(name, os.path.join(stage, name))
    debian = os.path.join(stage, 'debian')
    shutil.copytree(os.path.join(stage, PACKAGING), debian)
    for path in glob.glob(os.path.join(stage, 'packaging/systemd/*')):
        shutil.copy(path, debian)
    os.mkdir(os.path.join(debian, 'man'))
    for name, text in {'../' + tree.REFERENCE: tree.reference(), 'changelog': changes(),
                       'copyright': copyright_text(),
                       **{'man/' + page: text for page, text in manuals().items()}}.items():
        with open(os.path.join(debian, name), 'w', encoding='utf-8') as file:
            file.write(text)


def copyright_text() -> str:
    """The licence and the notices of third parties, as Debian wants to have them in one file."""
    licence = tree.text_of('LICENSE')
    holder = re.search(r'^Copyright \(c\) (.*)$', licence, re.M)
    assert holder is not None
    terms = licence[holder.end():].strip()
    notices = tree.text_of('THIRD-PARTY.md').strip()
    return (
        'Format: https://www.debian.org/doc/packaging-manuals/copyright-format/1.0/\n'
        'Upstream-Name: spmat\n\n'
        'Files: *\nCopyright: %s\nLicense: Expat\nComment:\n%s\n\n'
        'License: Expat\n%s\n' % (holder.group(1), field(notices), field(terms)))


def field(text: str) -> str:
    """A text as the lines of a field."""
    return '\n'.join(' ' + (line or '.') for line in text.split('\n'))


def make(to: str, program: str) -> None:
    """Writes the packages into a folder. Missing where this machine can't make them."""
    check_tools()
    with tempfile.TemporaryDirectory(prefix='spmat-debian-') as room:
        stage = os.path.join(room, 'spmat')
        lay_out(stage)
        site.lay_out(stage)
        environment = dict(os.environ, SPMAT_PROGRAM=program,
                           SPMAT_LIBRARY=tree.path_of(tree.LIBRARY),
                           SOURCE_DATE_EPOCH=str(tree.commit_time()), PATH=system_path(),
                           LC_ALL='C.UTF-8')
        environment.pop('PYTHONPATH', None)
        ran = subprocess.run(['dpkg-buildpackage', '-b', '-us', '-uc'], cwd=stage, env=environment,
                             stdout=subprocess.PIPE, stderr=subprocess.STDOUT, text=True,
                             errors='replace', check=False)
        if ran.returncode:
            raise RuntimeError('dpkg-buildpackage failed:\n' + ran.stdout[-4000:])
        for path in glob.glob(os.path.join(room, '*.deb')):
            shutil.copy(path, to)
