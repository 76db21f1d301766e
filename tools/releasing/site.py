"""The site as a release brings it: one folder, in an archive."""
import os
import shutil
import subprocess
import tempfile
from typing import Dict

from tools import packages
from tools.releasing import archive, tree


def build(folder: str) -> None:
    """Builds the site into a folder, by the Python that has Sphinx. RuntimeError says why it can't
    be built."""
    told = subprocess.run([packages.DISTRIBUTION, tree.path_of('tools/site'), folder],
                          stdout=subprocess.PIPE, stderr=subprocess.STDOUT, text=True,
                          errors='replace', check=False,
                          env=dict(os.environ, SOURCE_DATE_EPOCH=str(tree.commit_time()),
                                   PYTHONHASHSEED='0'))
    if told.returncode:
        raise RuntimeError('the site could not be built:\n' + told.stdout[-4000:])


def files(folder: str) -> Dict[str, bytes]:
    """The files below a folder, by their names there."""
    paths = [os.path.join(where, name) for where, _, names in os.walk(folder) for name in names]
    return {os.path.relpath(path, folder): tree.bytes_of(path) for path in paths}


def make(to: str, _program: str) -> None:
    """Writes the archive of the site into a folder."""
    top = 'spmat-%s-site' % tree.version()
    with tempfile.TemporaryDirectory(prefix='spmat-site-') as room:
        build(os.path.join(room, top))
        with open(os.path.join(to, top + '.tar.xz'), 'wb') as file:
            file.write(archive.packed(top, files(os.path.join(room, top)), tree.commit_time()))


def lay_out(stage: str) -> None:
    """Puts the site where the package spmat-doc takes it from."""
    build(os.path.join(stage, 'html'))
    shutil.rmtree(os.path.join(stage, 'html', '.doctrees'), ignore_errors=True)
