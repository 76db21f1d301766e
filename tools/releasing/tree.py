"""The repository as a release sees it: its version, its commit, its files, and the toolchain of
this machine."""
import hashlib
import os
import re
import shutil
import subprocess
import sys
from typing import List, NamedTuple, Optional

from tools.paths import TOP


class Distribution(NamedTuple):
    """What pip installs under one name: its folder, which has pyproject.toml, and its package."""
    folder: str
    package: str

    @property
    def version_file(self) -> str:
        """The file that tells its version."""
        return '%s%s/VERSION' % (self.folder, self.package)

    def has(self, name: str) -> bool:
        """Whether a file belongs to what is installed: tests don't, nor what makes a checkout look
        installed."""
        left_out = ('tests/', 'benchmarks/', self.package + '.dist-info/')
        return name.startswith(self.folder) and not name.startswith(
            tuple(self.folder + part for part in left_out))


CLIENT = Distribution('clients/python/', 'spmat')
DISTRIBUTIONS = (CLIENT, Distribution('clients/blocks/', 'spmat_blocks'),
                 Distribution('clients/networkx/', 'spmat_networkx'),
                 Distribution('gateway/', 'spmat_gateway'))
# made for releases and packages; the repository has none
REFERENCE = 'docs/api.md'
PROGRAM = os.path.join('crates', 'spmat', 'out', 'spmat')
LIBRARY = os.path.join('crates', 'spmat_lib', 'out', 'libspmat.so')
# The files that carry the version into what is made.
VERSIONS = ('VERSION', *(one.version_file for one in DISTRIBUTIONS))
# What is added to the version, by `mark_untested`.
MARKS: List[str] = []


class Toolchain(NamedTuple):
    """The name of a toolchain, and that of its logic, as `rt version` and the documents tell
    them."""
    kit: str
    logic: str


def path_of(name: str) -> str:
    """The path of a file of the repository."""
    return os.path.join(TOP, name)


def text_of(name: str) -> str:
    """The text of a file of the repository."""
    with open(path_of(name), encoding='utf-8') as file:
        return file.read()


def bytes_of(path: str) -> bytes:
    with open(path, 'rb') as file:
        return file.read()


def sum_of(path: str) -> str:
    """The SHA-256 of a file."""
    return hashlib.sha256(bytes_of(path)).hexdigest()


def told(*words: str) -> str:
    """What a command prints, run at the top."""
    return subprocess.run(words, cwd=TOP, stdout=subprocess.PIPE, check=True,
                          text=True).stdout.strip()


def plain_version() -> str:
    """The version, as the file VERSION has it."""
    return text_of('VERSION').strip()


def version() -> str:
    """The version of what is made: that of the file VERSION, with a mark where no gate has
    passed."""
    return plain_version() + ''.join(MARKS)


def mark_untested() -> None:
    """Has the version tell that no gate has passed, of which commit it is, and whether files differ
    from it. So marked it is a version for pip and for dpkg, later than the plain one and earlier
    than the next."""
    MARKS[:] = ['+untested.g' + commit()[:7] + ('.changed' if changed() else '')]


def copy(name: str, path: str) -> None:
    """Copies a file of the repository, of which those of the version have it with its mark."""
    os.makedirs(os.path.dirname(path), exist_ok=True)
    shutil.copy(path_of(name), path)
    if name in VERSIONS:
        with open(path, 'w', encoding='ascii') as file:
            file.write(version() + '\n')


def commit() -> str:
    return told('git', 'rev-parse', 'HEAD')


def commit_time() -> int:
    """When the commit was made, in seconds since 1970: the time that everything in a release
    bears."""
    return int(told('git', 'log', '-1', '--format=%ct'))


def changed() -> List[str]:
    """What differs from the commit: a line each for files that were changed, and for files that git
    doesn't know."""
    return told('git', 'status', '--porcelain').splitlines()


def files() -> List[str]:
    """The files of the commit, in order."""
    return sorted(told('git', 'ls-files', '-z').strip('\0').split('\0'))


def toolchain() -> Optional[Toolchain]:
    """The toolchain of this machine, None where it has none."""
    if shutil.which('rt') is None:
        return None
    found = re.match(r'(\S+) logic (\S+)', told('rt', 'version'))
    return Toolchain(*found.groups()) if found else None


def kit_folder() -> Optional[str]:
    """Where the toolchain of this machine lies."""
    found = shutil.which('rt')
    return os.path.dirname(os.path.dirname(os.path.realpath(found))) if found else None


def printed(script: str) -> str:
    """What one of the repository's scripts prints."""
    environment = dict(os.environ, PYTHONDONTWRITEBYTECODE='1')
    return subprocess.run([sys.executable, path_of(script)], cwd=TOP, env=environment,
                          stdout=subprocess.PIPE, check=True, text=True, encoding='utf-8').stdout


def reference() -> str:
    """The reference of the Python client, as tools/api_page makes it from the docstrings."""
    return printed('tools/api_page')
