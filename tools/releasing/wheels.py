"""The wheels: of the Python client one for every machine, and one for Linux on x86_64 that carries
the program and the client's library; of each other distribution one.

setuptools makes the first; the second is the same with these and the command `spmat` added.
Both are packed here, so that their bytes depend on their files alone, and not on the folder, the
time or the user.
"""
import base64
import hashlib
import io
import os
import shutil
import subprocess
import sys
import tempfile
import zipfile
from typing import Dict, NamedTuple

from tools.releasing import tree

# The C library of 2.34 is the oldest that has what the program calls.
PLATFORM = 'manylinux_2_34_x86_64'
# of entry_points.txt, as setuptools writes it
SECTION = b'[console_scripts]\n'
COMMAND = b'spmat = spmat.wire.transport:main\n'
ANY = 'py3-none-any'
TIME = (1980, 1, 1, 0, 0, 0)


class Entry(NamedTuple):
    """A file of a wheel, and whether it is a program."""
    data: bytes
    is_program: bool = False


class NoSetuptools(Exception):
    """No Python here has setuptools and wheel."""


def builder() -> str:
    """A Python that can make wheels without the network."""
    for python in (sys.executable, '/usr/bin/python3'):
        if shutil.which(python) and subprocess.run([python, '-c', 'import setuptools, wheel, pip'],
                                                   stderr=subprocess.DEVNULL,
                                                   check=False).returncode == 0:
            return python
    raise NoSetuptools(
        'no Python here has pip, setuptools and wheel (Debian: python3-pip, python3-setuptools, '
        'python3-wheel)')


def made_by_setuptools(one: tree.Distribution) -> Dict[str, Entry]:
    """The files of a distribution's wheel for every machine, as setuptools makes it of the commit's
    files, but for its list of them."""
    with tempfile.TemporaryDirectory(prefix='spmat-wheel-') as room:
        stage = os.path.join(room, 'source')
        for name in tree.files():
            if one.has(name):
                tree.copy(name, os.path.join(stage, name[len(one.folder):]))
        subprocess.run([builder(), '-m', 'pip', 'wheel', '--quiet', '--no-index', '--no-deps',
                        '--no-build-isolation', '--no-cache-dir', '-w', room, stage], check=True)
        (path,) = (os.path.join(room, name) for name in os.listdir(room) if name.endswith('.whl'))
        with zipfile.ZipFile(path) as held:
            return {name: Entry(held.read(name)) for name in held.namelist()
                    if not name.endswith('/RECORD')}


def information(name: str, package: str = 'spmat') -> str:
    """The path of a file that tells of a wheel."""
    return '%s-%s.dist-info/%s' % (package, tree.version(), name)


def with_notices(files: Dict[str, Entry], package: str = 'spmat') -> Dict[str, Entry]:
    """The same wheel, with the licence."""
    return {**files, information('LICENSE', package): Entry(tree.bytes_of(tree.path_of('LICENSE')))}


def with_program(files: Dict[str, Entry], program: str) -> Dict[str, Entry]:
    """The same wheel, with the program and its command, for one kind of machine."""
    kind = files[information('WHEEL')].data.decode()
    assert 'Tag: %s\n' % ANY in kind and 'Root-Is-Purelib: true\n' in kind, kind
    kind = kind.replace('Tag: %s\n' % ANY,
                        'Tag: py3-none-%s\n' % PLATFORM).replace('Root-Is-Purelib: true',
                                                                 'Root-Is-Purelib: false')
    points = files[information('entry_points.txt')].data
    assert points.count(SECTION) == 1, points
    points = points.replace(SECTION, SECTION + COMMAND)
    return {**files, information('WHEEL'): Entry(kind.encode()),
            information('entry_points.txt'): Entry(points),
            information('THIRD-PARTY.md'): Entry(tree.bytes_of(tree.path_of('THIRD-PARTY.md'))),
            'spmat/carried/' + os.path.basename(tree.LIBRARY): Entry(
                tree.bytes_of(tree.path_of(tree.LIBRARY))),
            'spmat/carried/spmat': Entry(tree.bytes_of(program), is_program=True)}


def record(files: Dict[str, Entry], package: str) -> bytes:
    """The list of a wheel's files, with their SHA-256 and lengths."""
    def line(name: str) -> str:
        code = base64.urlsafe_b64encode(hashlib.sha256(files[name].data).digest()).rstrip(
            b'=').decode()
        return '%s,sha256=%s,%d\n' % (name, code, len(files[name].data))
    return (''.join(map(line, sorted(files))) + information('RECORD', package) + ',,\n').encode()


def packed(files: Dict[str, Entry], package: str = 'spmat') -> bytes:
    """A wheel's bytes, which depend on its files alone."""
    told = io.BytesIO()
    with zipfile.ZipFile(told, 'w', zipfile.ZIP_DEFLATED, compresslevel=9) as wheel:
        for name, entry in sorted({**files,
                                   information('RECORD',
                                               package): Entry(record(files, package))}.items(),
                                  key=lambda pair: ('.dist-info/' in pair[0], pair[0])):
            about = zipfile.ZipInfo(name, TIME)
            about.compress_type = zipfile.ZIP_DEFLATED
            about.create_system = 3                                 # Unix, whose modes pip keeps
            about.external_attr = (0o100755 if entry.is_program else 0o100644) << 16
            wheel.writestr(about, entry.data)
    return told.getvalue()


def make(to: str, program: str) -> None:
    """Writes the wheels into a folder. NoSetuptools where no Python here can."""
    for one in tree.DISTRIBUTIONS:
        files = with_notices(made_by_setuptools(one), one.package)
        wheels = {ANY: files}
        if one == tree.CLIENT:
            wheels['py3-none-' + PLATFORM] = with_program(files, program)
        for kind, held in wheels.items():
            name = '%s-%s-%s.whl' % (one.package, tree.version(), kind)
            with open(os.path.join(to, name), 'wb') as file:
                file.write(packed(held, one.package))
