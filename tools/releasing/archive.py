"""The program with its manual, units and documents, as a tar.xz for machines whose packages are
others than Debian's."""
import glob
import io
import lzma
import os
import tarfile
from typing import Dict

from tools.releasing import tree

# Where the files of packaging/ go, below the prefix.
PLACES = {'packaging/systemd/*.service': 'lib/systemd/system/',
          'packaging/systemd/*.socket': 'lib/systemd/system/',
          'packaging/systemd/*.sysusers': 'lib/sysusers.d/',
          'packaging/ssh/*': 'share/doc/spmat/ssh/',
          'packaging/stunnel/*': 'share/doc/spmat/stunnel/', 'docs/*.md': 'share/doc/spmat/docs/',
          'docs/*.mtx': 'share/doc/spmat/docs/',
          'packaging/systemd/*.default': 'share/doc/spmat/', '*.md': 'share/doc/spmat/',
          'LICENSE': 'share/doc/spmat/',
          'packaging/spmat-health': 'bin/', 'packaging/spmat-drain': 'bin/'}
# Files that shells look for by the program's name.
COMPLETION = {'packaging/completion/spmat.bash': 'share/bash-completion/completions/spmat',
              'packaging/completion/spmat.zsh': 'share/zsh/site-functions/_spmat'}
# a page of the Python client, which isn't in the archive
CLIENT = 'spmat-graph.'


def files(program: str, pages: Dict[str, str]) -> Dict[str, bytes]:
    """The files of the archive by their names below its one folder."""
    found = {'bin/spmat': tree.bytes_of(program)}
    for form, to in PLACES.items():
        for path in glob.glob(tree.path_of(form)):
            found[to + os.path.basename(path).replace('.sysusers', '.conf')] = tree.bytes_of(path)
    found['share/doc/spmat/' + tree.REFERENCE] = tree.reference().encode()
    found.update((to, tree.bytes_of(tree.path_of(path))) for path, to in COMPLETION.items())
    for name, text in pages.items():
        if name.startswith(CLIENT):
            continue
        found['share/man/man%s/%s' % (name[-1], name)] = text.encode()
    return found


def packed(top: str, held: Dict[str, bytes], time: int) -> bytes:
    """The bytes of an archive, which depend on its files and its time alone."""
    told = io.BytesIO()
    with tarfile.open(fileobj=told, mode='w', format=tarfile.USTAR_FORMAT) as tar:
        for name, data in sorted(held.items()):
            about = tarfile.TarInfo('%s/%s' % (top, name))
            about.size, about.mtime = len(data), time
            about.mode = (0o755 if name.startswith('bin/') or name.endswith('/certificate')
                          else 0o644)
            tar.addfile(about, io.BytesIO(data))
    return lzma.compress(told.getvalue(), preset=9)


def make(to: str, program: str, pages: Dict[str, str]) -> None:
    """Writes the archive into a folder."""
    top = 'spmat-%s-linux-x86_64' % tree.version()
    with open(os.path.join(to, top + '.tar.xz'), 'wb') as file:
        file.write(packed(top, files(program, pages), tree.commit_time()))
