"""The documents lead to each file of packaging/ that users take: they print the short ones word for
word, and link to the others."""
import glob
import gzip
import os
import re
import subprocess
import tempfile
import unittest
from typing import List, Set

from tests.lib.paths import TOP
from tests.packaging.pages import PAGES, blocks, is_file, text_of

PRINTED = ('clients/client.mjs', 'gateway/spmat-gateway.toml', 'ssh/*', 'stunnel/session.py')
LINKED = ('ssh/*', 'stunnel/*', 'systemd/*.service', 'systemd/*.socket', 'spmat-health',
          'gateway/*.toml', 'gateway/*.yml', 'Containerfile', 'compose.yaml')
UNITS = ('systemd/*.service', 'systemd/*.socket')
# What the page calls by a name of this kind, and isn't a setting: variables of /etc/default/spmat.
OTHER_SETTINGS = {'SERVE', 'SESSION'}


def files_of(forms: 'tuple[str, ...]') -> List[str]:
    """The files of packaging/ that have one of these names, from the top of the repository."""
    return sorted(os.path.relpath(path, TOP) for form in forms
                  for path in glob.glob(os.path.join(TOP, 'packaging', form)))


def settings(text: str) -> Set[str]:
    """The settings that units have, each at the beginning of a line."""
    return set(re.findall(r'^([A-Z][A-Za-z]+)=', text, re.M))


class Pages(unittest.TestCase):
    def test_each_block_is_its_file(self) -> None:
        for page in PAGES:
            for block in blocks(page):
                with self.subTest(page=page, file=block.file):
                    self.assertTrue(is_file(block),
                                    'tests/snippets --write puts the file into the page')

    def test_short_files_are_printed_once(self) -> None:
        self.assertEqual(files_of(PRINTED),
                         sorted(block.file for page in PAGES for block in blocks(page)))

    def test_each_file_is_linked(self) -> None:
        page = text_of('docs/server.md') + text_of('docs/service.md')
        for file in files_of(LINKED):
            with self.subTest(file=file):
                self.assertIn('](../%s)' % file, page)

    def test_settings_that_the_page_names_are_those_of_the_units(self) -> None:
        """What users are told of a setting, they find in a unit."""
        named = set(re.findall(r'`([A-Z][A-Za-z]+)=[^`]*`', text_of('docs/server.md')))
        self.assertGreater(len(named), 9)
        self.assertEqual(named - set().union(*(settings(text_of(file)) for file in files_of(UNITS)))
                         - OTHER_SETTINGS, set())

    def test_the_payments_of_the_tutorial(self) -> None:
        """The file is what the tool makes."""
        with tempfile.TemporaryDirectory() as folder:
            made = os.path.join(folder, 'payments.csv.gz')
            subprocess.run([os.path.join(TOP, 'tools', 'payments'), made], check=True)
            with gzip.open(made) as one, gzip.open(os.path.join(TOP, 'docs',
                                                                'payments.csv.gz')) as other:
                self.assertEqual(one.read(), other.read())


if __name__ == '__main__':
    unittest.main()
