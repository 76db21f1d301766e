"""What tools/release makes of the built program: the same bytes from two folders, and what they
hold; and that it can be installed."""
import glob
import hashlib
import json
import lzma
import os
import re
import shutil
import subprocess
import sys
import tarfile
import tempfile
import unittest
import zipfile
from typing import Dict, List

from tests.lib.paths import TOP
from tests.lib.patience import FOR_A_COMMAND
from tests.releases.copies import LIBRARY, PROGRAM, Copy, needs_git
from tools.releasing import look, tree

# the Debian packages too, and every Python of this machine
WHOLE = False
# what each distribution wants of others, as METADATA has it
NEEDED = {'spmat': r'(?:numpy ?\(?>=1\.22|click ?\(?>=8\.1)', 'spmat_blocks': r'numpy ?\(?>=1\.22',
          'spmat_networkx': r'networkx ?\(?>=3\.2', 'spmat_gateway': r'aiohttp ?\(?>=3\.8'}
FIRST_SESSION = re.compile(
    r'\n\n((?:    import spmat\n)(?:    .*\n|\n(?=    ))+)\nprints\n\n((?:    .*\n)+)')


def sum_of(data: bytes) -> str:
    return hashlib.sha256(data).hexdigest()


def pythons() -> List[str]:
    """The Pythons of this machine that the client can use, which have numpy and click; one alone
    unless all are asked for."""
    found = [sys.executable, '/usr/bin/python3']
    if WHOLE:
        found = sorted(glob.glob(os.path.expanduser('~/.pyenv/versions/*/bin/python3'))) + [
            '/usr/bin/python3']
    asked = 'import sys, venv, click, numpy; sys.exit(sys.version_info < (3, 9))'
    return [python for python in found if os.path.exists(python)
            and subprocess.run([python, '-c', asked], stderr=subprocess.DEVNULL,
                               check=False).returncode == 0]


def first_session() -> List[str]:
    """The README's first session, and what it prints."""
    with open(os.path.join(TOP, 'README.md'), encoding='utf-8') as file:
        found = FIRST_SESSION.search(file.read())
    assert found is not None
    return [re.sub('^    ', '', text, flags=re.M) for text in found.groups()]


def name_toolchain_of_this_machine(copy: Copy) -> None:
    """Has the documents of a copy name the kit that is here, as a release has to: a machine may
    have another one of the same logic."""
    here = tree.toolchain()
    assert here is not None
    named = next(kit for kit in look.toolchains() if kit.startswith('rattle-kit-'))
    for path in look.PROVED:
        copy.write(path, copy.text(path).replace(named, here.kit))
    copy.commit()


@needs_git
class Made(unittest.TestCase):
    """Both releases are made once, for all tests."""
    kinds: List[str]
    rooms: List['tempfile.TemporaryDirectory[str]'] = []
    made: List[Dict[str, bytes]] = []
    folder: str

    @classmethod
    def setUpClass(cls) -> None:
        program = os.path.abspath(os.environ.get('SPMAT') or os.path.join(TOP, PROGRAM))
        if not os.access(program, os.X_OK):
            raise unittest.SkipTest('no program %s' % program)
        if not os.path.exists(os.path.join(TOP, LIBRARY)):
            raise unittest.SkipTest('no library: tools/build makes it')
        if shutil.which('rt') is None:
            raise unittest.SkipTest('no rt')
        cls.kinds = cls.parts()
        cls.rooms = [tempfile.TemporaryDirectory(prefix=prefix)
                     for prefix in ('spmat-one-', 'spmat-the-other-folder-')]
        cls.made = []
        first = None
        for room in cls.rooms:
            copy = first = Copy(os.path.join(room.name, 'tree'), first)
            for path, name in ((program, PROGRAM), (os.path.join(TOP, LIBRARY), LIBRARY)):
                os.makedirs(os.path.dirname(copy.path(name)), exist_ok=True)
                shutil.copy(path, copy.path(name))
            if not cls.made:                       # the other folder is a copy of this one
                name_toolchain_of_this_machine(copy)
            copy.pass_gate()
            cls.folder = os.path.join(room.name, 'made')
            told = copy.release('--to', cls.folder, '--only', *cls.kinds)
            if told.returncode:
                raise AssertionError(told.stdout)
            cls.made.append({name: cls.bytes_of(os.path.join(cls.folder, name))
                             for name in sorted(os.listdir(cls.folder))})

    @classmethod
    def tearDownClass(cls) -> None:
        for room in cls.rooms:
            room.cleanup()

    @staticmethod
    def bytes_of(path: str) -> bytes:
        with open(path, 'rb') as file:
            return file.read()

    @staticmethod
    def parts() -> List[str]:
        """What can be made here."""
        asked = {'debian': 'from tools.releasing import debian; debian.check_tools()',
                 'wheels': 'from tools.releasing import wheels; wheels.builder()',
                 'archive': 'import shutil, sys; sys.exit(shutil.which("lowdown") is None)',
                 'bill': '',
                 'site': 'import os, sys; sys.exit(not os.path.exists("/usr/bin/sphinx-build"))'}
        if not WHOLE:
            del asked['debian'], asked['site']
        return [part for part, text in asked.items()
                if subprocess.run([sys.executable, '-c', text], cwd=TOP, stderr=subprocess.DEVNULL,
                                  check=False).returncode == 0]

    def wants(self, part: str) -> None:
        if part not in self.kinds:
            self.skipTest('nothing here makes %s' % part if WHOLE or part not in ('debian', 'site')
                          else 'tests/release --all makes it')

    def one(self, form: str) -> bytes:
        (name,) = (name for name in self.made[0] if re.fullmatch(form, name))
        return self.made[0][name]

    def program(self) -> bytes:
        return self.bytes_of(os.path.join(self.rooms[0].name, 'tree', PROGRAM))

    def library(self) -> bytes:
        return self.bytes_of(os.path.join(self.rooms[0].name, 'tree', LIBRARY))

    def test_the_same_bytes_from_two_folders(self) -> None:
        for name in sorted(set(self.made[0]) | set(self.made[1])):
            with self.subTest(name=name):
                self.assertEqual(sum_of(self.made[0].get(name, b'')),
                                 sum_of(self.made[1].get(name, b'')))

    def test_sums(self) -> None:
        lines = self.one('SHA256SUMS').decode().splitlines()
        self.assertEqual({name: total for total, name in (line.split('  ') for line in lines)},
                         {name: sum_of(data) for name, data in self.made[0].items()
                          if name != 'SHA256SUMS'})

    def test_the_bill(self) -> None:
        told = json.loads(self.one(r'spmat-[\d.]+\.cdx\.json'))
        self.assertEqual((told['bomFormat'], told['specVersion']), ('CycloneDX', '1.5'))
        self.assertEqual(told['metadata']['component']['hashes'][0]['content'],
                         sum_of(self.program()))
        self.assertEqual(told['metadata']['component']['externalReferences'],
                         [{'type': 'website', 'url': look.homepage()}])
        known = [part['bom-ref'] for part in told['components']] + ['release']
        self.assertEqual(len(known), len(set(known)))
        links = {link['ref']: link['dependsOn'] for link in told['dependencies']}
        self.assertEqual(sorted(links), sorted(known))
        self.assertEqual({name for names in links.values() for name in names} - set(known), set())
        reached, left = set(), ['release']
        while left:
            reached.add(left[-1])
            left.extend(name for name in links[left.pop()] if name not in reached)
        self.assertEqual(reached, set(known))
        self.assertIn({'name': 'spmat:library', 'value': sum_of(self.library())},
                      told['metadata']['component']['properties'])
        for name in ('clap', 'strsim', 'hex', 'itoa', 'thiserror', 'crossbeam_utils', 'bpf_verify',
                     'glibc'):
            self.assertIn(name, known)

    def test_the_site(self) -> None:
        self.wants('site')
        with tarfile.open(os.path.join(self.folder,
                                       next(name for name in self.made[0]
                                            if name.endswith('-site.tar.xz')))) as held:
            names = [name.partition('/')[2] for name in held.getnames()]
        for name in ('index.html', 'gallery.html', 'reference/index.html', 'searchindex.js',
                     'docs/protocol.html'):
            self.assertIn(name, names)

    def test_the_archive(self) -> None:
        self.wants('archive')
        path = os.path.join(self.folder,
                            next(name for name in self.made[0] if name.endswith('x86_64.tar.xz')))
        with lzma.open(path) as data, tarfile.open(fileobj=data) as held:
            names = {member.name.partition('/')[2]: member for member in held}
            program = held.extractfile(names['bin/spmat'])
            assert program is not None
            self.assertEqual(sum_of(program.read()), sum_of(self.program()))
        self.assertEqual(names['bin/spmat'].mode, 0o755)
        for name in ('share/man/man1/spmat.1', 'share/man/man7/spmat-server.7',
                     'lib/systemd/system/spmat@.service', 'share/doc/spmat/THIRD-PARTY.md',
                     'share/doc/spmat/docs/protocol.md', 'share/doc/spmat/docs/api.md',
                     'bin/spmat-health', 'bin/spmat-drain',
                     'share/bash-completion/completions/spmat', 'share/zsh/site-functions/_spmat'):
            self.assertIn(name, names)
        self.assertNotIn('share/man/man1/spmat-graph.1', names)

    def test_the_wheels(self) -> None:
        self.wants('wheels')
        for name in self.made[0]:
            if not name.endswith('.whl'):
                continue
            with zipfile.ZipFile(os.path.join(self.folder, name)) as held:
                self.assertIsNone(held.testzip())
                carried = 'spmat/carried/spmat'
                self.assertEqual(carried in held.namelist(), 'manylinux_2_34_x86_64' in name)
                if carried in held.namelist():
                    self.assertEqual(sum_of(held.read(carried)), sum_of(self.program()))
                    self.assertEqual(sum_of(held.read('spmat/carried/libspmat.so')),
                                     sum_of(self.library()))
                    self.assertEqual(held.getinfo(carried).external_attr >> 16 & 0o777, 0o755)
                about = held.read(next(entry for entry in held.namelist()
                                       if entry.endswith('/METADATA'))).decode()
                needed = NEEDED[name.split('-')[0]]
                self.assertRegex(about, r'(?m)^Requires-Dist: %s\)?$' % needed)
                self.assertRegex(about, r'(?m)^(Home-page|Project-URL: Homepage,|Project-URL: '
                                 r'homepage,) ?:? ?%s$' % re.escape(look.homepage()))
                listed = held.read(next(entry for entry in held.namelist()
                                        if entry.endswith('/RECORD'))).decode().splitlines()
                self.assertEqual(sorted(line.split(',')[0] for line in listed),
                                 sorted(held.namelist()))

    def test_a_fresh_environment(self) -> None:
        """`pip install` of the wheel, and then the README's first session, with nothing else but
        numpy and click."""
        self.wants('wheels')
        usable = pythons()
        self.assertTrue(usable, 'no Python here has numpy, click and venv')
        for python in usable if WHOLE else usable[:1]:
            with self.subTest(python=python), \
                    tempfile.TemporaryDirectory(prefix='spmat-venv-') as room:
                self.use_in_fresh(python, room)

    def use_in_fresh(self, python: str, room: str) -> None:
        """Installs the wheel for a Python, and uses what it brings."""
        text, printed = first_session()
        self.ran(room, [python, '-m', 'venv', '--system-site-packages', 'env'])
        self.ran(room, ['env/bin/pip', 'install', '-q', '--no-index', '--disable-pip-version-check',
                        '--find-links', self.folder, 'spmat'])
        self.assertEqual(self.ran(room, ['env/bin/python', '-c', text]), printed)
        with open(os.path.join(TOP, 'VERSION'), encoding='ascii') as file:
            self.assertEqual(self.ran(room,
                                      ['env/bin/python', '-c',
                                       'import spmat; print(spmat.__version__)']), file.read())
        karate = os.path.join(TOP, 'docs', 'karate.mtx')
        self.assertEqual(self.ran(room, ['env/bin/spmat-graph', 'triangle-count', karate]), '45\n')
        asked = 'from spmat import library as t; print(t.load() is not None, t.find())'
        self.assertRegex(self.ran(room, ['env/bin/python', '-c', asked]),
                         r'^True .*/env/.*/spmat/carried/libspmat\.so\n$')
        self.use_others(room)
        self.assertEqual(self.ran(room, ['env/bin/spmat', 'run', '--steps', '5', '--workers', '1'],
                                  'budget\n'), 'ok budget 5 0 0\n')

    def use_others(self, room: str) -> None:
        """Installs the distributions that are built on the client, and looks up what they tell."""
        self.ran(room, ['env/bin/pip', 'install', '-q', '--no-index', '--no-deps',
                        '--disable-pip-version-check', '--find-links', self.folder,
                        'spmat-blocks', 'spmat-networkx'])
        asked = ('import importlib.metadata as m; d = m.distribution("spmat-networkx"); '
                 'print(sorted({point.group for point in d.entry_points}), '
                 'd.version == m.version("spmat"))')
        self.assertEqual(self.ran(room, ['env/bin/python', '-c', asked]),
                         "['networkx.backend_info', 'networkx.backends'] True\n")
        asked = ('import spmat; from spmat import blocks; s = blocks.Sessions(2); '
                 'print(s.identity(3).nvals, blocks.__name__); s.close()')
        self.assertEqual(self.ran(room, ['env/bin/python', '-c', asked]), '3 spmat_blocks\n')

    def ran(self, room: str, words: List[str], given: str = '') -> str:
        """What a command prints in an environment with nothing in it; it says nothing on standard
        error."""
        told = subprocess.run(words, cwd=room, env={'PATH': '/usr/bin:/bin', 'HOME': room},
                              input=given, stdout=subprocess.PIPE, stderr=subprocess.PIPE,
                              text=True, timeout=FOR_A_COMMAND, check=False)
        self.assertEqual((told.returncode, told.stderr), (0, ''), words)
        return told.stdout

    def test_the_packages(self) -> None:
        self.wants('debian')
        names = [name for name in self.made[0] if name.endswith('.deb')]
        self.assertEqual([re.sub(r'_[\d.]+_', '_', name) for name in names],
                         ['python3-spmat-blocks_all.deb', 'python3-spmat-networkx_all.deb',
                          'python3-spmat_all.deb',
                          'spmat-doc_all.deb', 'spmat-gateway_all.deb', 'spmat_amd64.deb'])
        with tempfile.TemporaryDirectory(prefix='spmat-deb-') as room:
            for name in names:
                subprocess.run(['dpkg-deb', '-x', os.path.join(self.folder, name), room],
                               check=True)
            self.assertEqual(sum_of(self.bytes_of(os.path.join(room, 'usr/bin/spmat'))),
                             sum_of(self.program()))
            self.assertEqual(self.bytes_of(os.path.join(room, 'usr/lib/spmat/libspmat.so')),
                             self.library())
            for path in ('usr/share/man/man1/spmat.1.gz', 'usr/share/man/man7/spmat-protocol.7.gz',
                         'usr/share/man/man7/spmat-operators.7.gz',
                         'usr/share/man/man7/spmat-bpf.7.gz',
                         'usr/share/man/man7/spmat-limits.7.gz',
                         'usr/share/man/man7/spmat-server.7.gz', 'usr/bin/spmat-health',
                         'usr/bin/spmat-drain', 'etc/default/spmat',
                         'usr/lib/sysusers.d/spmat.conf',
                         'usr/lib/python3/dist-packages/spmat/VERSION',
                         'usr/share/doc/spmat/copyright', 'usr/share/doc/spmat/CHANGELOG.md',
                         'usr/share/doc/spmat/docs/api.md', 'usr/bin/spmat-graph',
                         'usr/share/man/man1/spmat-graph.1.gz',
                         'usr/share/bash-completion/completions/spmat',
                         'usr/share/bash-completion/completions/spmat-graph',
                         'usr/share/doc/spmat-doc/html/index.html',
                         'usr/share/zsh/vendor-completions/_spmat',
                         'usr/share/zsh/vendor-completions/_spmat-graph', 'usr/bin/spmat-gateway',
                         'usr/lib/python3/dist-packages/spmat_gateway/VERSION',
                         'usr/share/man/man1/spmat-gateway.1.gz',
                         'usr/lib/sysusers.d/spmat-gateway.conf',
                         'usr/share/man/man7/spmat-service.7.gz'):
                self.assertTrue(os.path.exists(os.path.join(room, path)), path)
            (told,) = glob.glob(os.path.join(
                room, 'usr/lib/python3/dist-packages/spmat_networkx-*.dist-info'))
            with open(os.path.join(told, 'entry_points.txt'), encoding='ascii') as file:
                self.assertIn('spmat = spmat_networkx.backend:backend', file.read())
            units = {os.path.basename(path)
                     for path in glob.glob(os.path.join(room, '*/systemd/system/*')) +
                     glob.glob(os.path.join(room, 'usr/lib/systemd/system/*'))}
            self.assertEqual(units, {'spmat.service', 'spmat@.service', 'spmat.socket',
                                     'spmat-gateway.service'})
