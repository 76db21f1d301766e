"""What tools/release refuses, each once; and that a tree with nothing against it is taken."""
import json
import os
import re
import shutil
import subprocess
import tempfile
import unittest
import zipfile

from tests.lib.paths import TOP
from tests.releases.copies import LIBRARY, PROGRAM, TELLS, Copy, InCopy, needs_git


def documented() -> str:
    """The toolchain that the documents name, as `rt version` tells it."""
    with open(os.path.join(TOP, 'CHANGELOG.md'), encoding='utf-8') as file:
        found = re.search(r'(rattle-kit-\w+), logic (\w+)', file.read())
    assert found is not None
    return '%s logic %s' % found.groups()


@needs_git
class Refusals(InCopy):
    room: 'tempfile.TemporaryDirectory[str]'
    first: Copy

    @classmethod
    def setUpClass(cls) -> None:
        cls.room = tempfile.TemporaryDirectory(prefix='spmat-release-')
        cls.first = Copy(os.path.join(cls.room.name, 'tree'))

    @classmethod
    def tearDownClass(cls) -> None:
        cls.room.cleanup()

    def setUp(self) -> None:
        self.copy = Copy(self.folder(), self.first)
        self.copy.toolchain(documented())
        self.version = self.copy.text('VERSION').strip()
        self.copy.write(PROGRAM, TELLS % self.version, 0o755)
        self.copy.write(LIBRARY, 'a library')
        self.copy.pass_gate()

    def refused(self, said: str) -> None:
        """No release is made, and one of the lines says why."""
        made = self.copy.release('--to', self.copy.path('out/made'))
        self.assertEqual(made.returncode, 1, made.stdout)
        self.assertIn(said, made.stdout)
        self.assertFalse(os.path.exists(self.copy.path('out/made')))

    def checked(self, said: str) -> None:
        """The gate's look refuses it, too."""
        made = self.copy.release('--check')
        self.assertEqual(made.returncode, 1, made.stdout)
        self.assertIn(said, made.stdout)

    def passed_again(self) -> None:
        self.copy.commit()
        self.copy.pass_gate()

    def test_nothing_stands_against_it(self) -> None:
        made = self.copy.release('--only', 'archive', '--to', self.copy.path('out/made'))
        if 'lowdown' not in made.stdout:
            self.assertEqual(made.returncode, 0, made.stdout)
        self.assertEqual(self.copy.release('--check').returncode, 0)

    def test_keys(self) -> None:
        """A key in the repository could be committed, and one that isn't there signs nothing."""
        self.copy.write('out/key', 'secret')
        for key, said in ((self.copy.path('out/key'), 'lies in the repository'),
                          ('/nonexistent/key', 'there is no key /nonexistent/key')):
            made = self.copy.release('--only', 'bill', '--key', key, '--to',
                                     self.copy.path('out/made'))
            self.assertEqual(made.returncode, 1, made.stdout)
            self.assertIn(said, made.stdout)
            self.assertFalse(os.path.exists(self.copy.path('out/made')))

    @unittest.skipIf(shutil.which('minisign') is None, 'no minisign')
    def test_signature(self) -> None:
        """SHA256SUMS is signed, and a changed one isn't what was signed."""
        folder = self.folder()
        public, secret = (os.path.join(folder, name) for name in ('public', 'secret'))
        subprocess.run(['minisign', '-G', '-W', '-p', public, '-s', secret], check=True,
                       stdout=subprocess.DEVNULL)
        made = self.copy.release('--only', 'wheels', '--key', secret, '--to',
                                 self.copy.path('out/made'))
        if 'no Python here' in made.stdout:
            self.skipTest('no Python here makes wheels')
        self.assertEqual(made.returncode, 0, made.stdout)
        sums = self.copy.path('out/made/SHA256SUMS')
        verify = ['minisign', '-V', '-q', '-p', public, '-m', sums]
        self.assertEqual(subprocess.run(verify, check=False).returncode, 0)
        with open(sums, 'a', encoding='ascii') as file:
            file.write('0  more\n')
        self.assertNotEqual(subprocess.run(verify, check=False).returncode, 0)

    def test_untested(self) -> None:
        """Without a gate, of changed files, the version tells so; what stands against every release
        stands against this."""
        os.remove(self.copy.path('crates/spmat/out/passed.json'))   # as if no gate had passed
        self.copy.write('README.md', self.copy.text('README.md') + '\nmore\n')
        mark = self.version + '+untested.g%s' % self.copy.git('rev-parse', '--short=7', 'HEAD')
        for end in ('.changed', ''):
            made = self.copy.release('--untested', '--only', 'wheels', '--to',
                                     self.copy.path('out/made' + end))
            self.copy.git('checkout', '-q', 'README.md')
            if 'no Python here' in made.stdout:
                continue
            self.assertEqual(made.returncode, 0, made.stdout)
            name = 'spmat-%s-py3-none-any.whl' % (mark + end)
            self.assertIn(name, made.stdout)
            with zipfile.ZipFile(self.copy.path('out/made%s/%s' % (end, name))) as wheel:
                self.assertEqual(wheel.read('spmat/VERSION').decode(), mark + end + '\n')
                self.assertIn('\nVersion: %s\n' % (mark + end),
                              wheel.read('spmat-%s.dist-info/METADATA' % (mark + end)).decode())
        self.copy.replace('CHANGELOG.md', '## ' + self.version, '## 0.9.7')
        made = self.copy.release('--untested', '--to', self.copy.path('out/other'))
        self.assertEqual(made.returncode, 1, made.stdout)
        self.assertIn('CHANGELOG.md says 0.9.7', made.stdout)
        os.remove(self.copy.path(PROGRAM))
        self.copy.git('checkout', '-q', 'CHANGELOG.md')
        made = self.copy.release('--untested', '--to', self.copy.path('out/none'))
        self.assertEqual(made.returncode, 1, made.stdout)
        self.assertIn('there is no program', made.stdout)

    def test_a_tree_that_is_not_clean(self) -> None:
        self.copy.write('docs/more.md', 'more\n')
        self.refused('the tree is not clean: ?? docs/more.md')

    def test_places_that_tell_another_version(self) -> None:
        self.copy.replace('CHANGELOG.md', '## ' + self.version, '## 0.9.7')
        self.passed_again()
        self.refused('VERSION is %s, and CHANGELOG.md says 0.9.7' % self.version)
        self.checked('CHANGELOG.md says 0.9.7')

    def test_a_program_of_another_version(self) -> None:
        name = 'crates/command_line/src/version.rt'
        self.copy.write(name, 'pub const VERSION: &str = "%s";\n' % self.version)
        self.copy.write(PROGRAM, TELLS % '0.9.7', 0o755)
        self.passed_again()
        self.refused('the program says of its version: b\'spmat 0.9.7')
        self.copy.replace(name, '"%s"' % self.version, '"0.9.7"')
        self.checked('version.rt says 0.9.7')

    def test_documents_that_name_another_version(self) -> None:
        self.copy.replace('docs/server.md', 'spmat_%s_amd64.deb' % self.version,
                          'spmat_0.9.7_amd64.deb')
        self.copy.replace('gateway/README.md', 'spmat_gateway-%s-' % self.version,
                          'spmat_gateway-0.9.6-')
        self.checked('docs/server.md (0.9.7) says 0.9.7')
        self.checked('gateway/README.md (0.9.6) says 0.9.6')

    def test_a_client_with_a_version_of_its_own(self) -> None:
        self.copy.write('clients/python/spmat/VERSION', '0.9.7\n')
        self.checked('clients/python/spmat/VERSION says 0.9.7')
        self.copy.write('clients/python/spmat/VERSION', '')
        self.checked('clients/python/spmat/VERSION has no version')

    def test_a_program_that_did_not_pass(self) -> None:
        self.copy.write(PROGRAM, TELLS % self.version + '# another\n', 0o755)
        self.refused('is not the program that passed the gate')

    def test_another_library(self) -> None:
        self.copy.write(LIBRARY, 'another library')
        self.refused('is not the library that passed the gate')
        os.remove(self.copy.path(LIBRARY))
        self.refused('there is no ' + LIBRARY)

    def test_a_commit_that_did_not_pass(self) -> None:
        self.copy.commit()
        self.refused('the gate passed commit')

    def test_no_gate(self) -> None:
        os.remove(self.copy.path('crates/spmat/out/passed.json'))
        self.refused('no gate has passed here')

    def test_a_gate_amid_which_something_changed(self) -> None:
        for change in ('echo more > docs/more.md',
                       'git add -A; git commit -q --allow-empty -m "another"'):
            self.copy.pass_gate(change)
            with open(self.copy.path('crates/spmat/out/passed.json'), encoding='utf-8') as file:
                self.assertEqual(json.load(file)['commit'], 'none')
            self.refused('the gate passed commit none')

    def test_a_gate_that_left_steps_out(self) -> None:
        """What ran is noted, and no command notes what didn't."""
        self.copy.pass_gate(steps='gate.STEPS[:-2]')
        self.refused('the gate that is noted didn\'t run snippets, release')
        for words in (['--passed', 'none'], ['--state']):
            self.assertEqual(self.copy.release(*words).returncode, 2)

    def test_another_toolchain(self) -> None:
        """The gate's look only says it, as one may try a newer toolchain."""
        self.copy.toolchain('rattle-kit-99z logic 0123456789abcdef')
        self.refused('the toolchain here is rattle-kit-99z')
        self.refused('the gate passed by ' + documented())
        looked = self.copy.release('--check')
        self.assertEqual(looked.returncode, 0, looked.stdout)
        self.assertIn('note: the toolchain here is rattle-kit-99z', looked.stdout)

    def test_documents_that_name_two_toolchains(self) -> None:
        kit = documented().split()[0]
        self.copy.replace('README.md', kit, 'rattle-kit-99z')
        self.checked('rattle-kit-99z in README.md')

    def test_a_notice_that_is_missing(self) -> None:
        self.copy.replace('THIRD-PARTY.md', '## strsim', '## another')
        self.checked('THIRD-PARTY.md has no heading for strsim')

    def test_a_library_that_is_not_listed(self) -> None:
        self.copy.replace('crates.txt', 'spmat: command_line', 'spmat: regex command_line')
        self.checked('regex')

    def test_homepages_that_differ(self) -> None:
        self.copy.replace('clients/python/pyproject.toml', 'Homepage = "https://',
                          'Homepage = "https://another.')
        self.checked('clients/python/pyproject.toml names the homepage https://another.')
        self.copy.replace('clients/blocks/README.md', '(https://', '(https://another.')
        self.checked('clients/blocks/README.md names the homepage https://another.')
        self.copy.replace('packaging/debian/control', 'Homepage: ', 'Vcs-Git: ')
        self.checked('README.md names the homepage')

    def test_data_without_a_source(self) -> None:
        self.copy.replace('docs/karate.mtx', 'Zachary', 'somebody')
        self.checked('docs/karate.mtx doesn\'t name its source')
