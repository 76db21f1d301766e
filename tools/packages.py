"""Debian's packages that the gate wants beside the toolchain and Python, what each is for, and
installing those that are missing."""
import os
import re
import shutil
import subprocess
import sys
import time
from typing import Dict, List, NamedTuple

from tools.numpy_python import DISTRIBUTION

MODULES = ('import sys, importlib.util; sys.exit(importlib.util.find_spec(sys.argv[1]) is None)')
FIRST_OPTIONS = ('apt-get', 'install', '-y', '--no-install-recommends')
SERVERS = {'openssh-server', 'postgresql'}
SIZES = re.compile(r'^(?:Need to get|After this operation,) .*$', re.M)
# before each try, in seconds: a mirror that doesn't answer often does a minute later
PAUSES = (0, 60)


class Package(NamedTuple):
    """A package, what is left out without it, and how it is seen: a program, or a module of the
    distribution's Python. Quick tests install few of them, a tenth of the bytes of all."""
    name: str
    of: str
    program: str = ''
    module: str = ''
    is_quick: bool = False

    def is_there(self) -> bool:
        """Whether what it brings is here, from wherever."""
        if self.program:
            return shutil.which(self.program,
                                path=os.environ.get('PATH', '') + ':/usr/sbin:/sbin') is not None
        python = DISTRIBUTION if os.path.exists(DISTRIBUTION) else sys.executable
        return subprocess.run([python, '-c', MODULES, self.module], check=False).returncode == 0


PACKAGES = (
    Package('mypy', 'the client\'s types', program='mypy'),
    Package('pylint', 'the client\'s style', program='pylint'),
    Package('valgrind', 'counts of instructions', program='valgrind'),
    Package('python3-pytest', 'the client\'s tests, and networkx\' own', module='pytest', is_quick=True),
    Package('python3-pytest-xdist', 'quick tests, side by side', module='xdist', is_quick=True),
    Package('python3-numpy', 'the client', module='numpy', is_quick=True),
    Package('python3-click', 'the client\'s commands', module='click', is_quick=True),
    Package('python3-scipy', 'matrices of scipy', module='scipy'),
    Package('python3-pandas', 'lists that pandas reads, and frames', module='pandas', is_quick=True),
    Package('python3-networkx', 'the networkx backend', module='networkx', is_quick=True),
    Package('python3-matplotlib', 'pictures', module='matplotlib'),
    Package('python3-distributed', 'row blocks on Dask', module='distributed'),
    Package('python3-pyelftools', 'operators in C', module='elftools'),
    Package('python3-tqdm', 'progress bars', module='tqdm'),
    Package('openssh-server', 'SSH in front of a server', program='sshd'),
    Package('openssh-client', 'SSH in front of a server', program='ssh'),
    Package('stunnel4', 'TLS in front of a server', program='stunnel4'),
    Package('openssl', 'TLS in front of a server', program='openssl'),
    Package('socat', 'a socket file in front of a server', program='socat'),
    Package('strace', 'a socket file in front of a server', program='strace'),
    Package('systemd', 'units', program='systemd-analyze'),
    Package('zsh', 'completion by zsh', program='zsh'),
    Package('minisign', 'signed releases', program='minisign'),
    Package('nodejs', 'a client in JavaScript', program='node'),
    Package('python3-aiohttp', 'the gateway', module='aiohttp'),
    Package('python3-prometheus-client', 'the gateway', module='prometheus_client'),
    Package('python3-psycopg', 'the gateway on PostgreSQL', module='psycopg'),
    Package('postgresql', 'the gateway on PostgreSQL', program='pg_ctlcluster'),
    Package('python3-sphinx', 'the site', module='sphinx'),
    Package('python3-myst-parser', 'the site', module='myst_parser'),
    Package('python3-numpydoc', 'the site', module='numpydoc'),
    Package('python3-sphinx-copybutton', 'the site', module='sphinx_copybutton'),
    Package('furo', 'the site', module='furo'),
    Package('chromium', 'the site in a browser', program='chromium'),
    Package('chromium-driver', 'the site in a browser', program='chromedriver'),
    Package('python3-selenium', 'the site in a browser', module='selenium'),
)


def missing(quick: bool = False) -> List[Package]:
    """Those that aren't here; of quick tests alone, if asked."""
    return [package for package in PACKAGES if (package.is_quick or not quick)
            and not package.is_there()]


def line(packages: List[Package]) -> str:
    """What installs packages, to type."""
    return ' '.join([*FIRST_OPTIONS, *(package.name for package in packages)])


def announce(words: List[str], environment: Dict[str, str]) -> None:
    """Says how much a command of apt-get would install, and asks it to install nothing."""
    asked = ['--assume-no' if word == '-y' else word for word in words]
    said = subprocess.run(asked, env=environment, stdout=subprocess.PIPE, text=True,
                          stderr=subprocess.DEVNULL, check=False).stdout
    told = SIZES.findall(said)
    print('installing %d packages for the tests, and what they need: %s' % (
        len(words) - words.index(FIRST_OPTIONS[-1]) - 1, ' '.join(told) or 'apt-get tells no size'))
    if SERVERS & set(words):
        print('Debian starts some of these as it installs them: ' + ', '.join(
            sorted(SERVERS & set(words))))
    print(end='', flush=True)


def install(quick: bool = False) -> None:
    """Installs what is missing, of quick tests alone if asked, and says beforehand how much that
    is. What can't be had is named, and left out."""
    for seconds in PAUSES:
        wanted = missing(quick)
        if not wanted:
            return
        if shutil.which('apt-get') is None or os.geteuid() != 0:
            print('not installed, as this is no root of Debian: ' + line(wanted), file=sys.stderr,
                  flush=True)
            return
        time.sleep(seconds)
        environment = {**os.environ, 'DEBIAN_FRONTEND': 'noninteractive', 'LC_ALL': 'C'}
        subprocess.run(['apt-get', 'update'], env=environment, check=False)
        words = line(wanted).split()
        announce(words, environment)
        if subprocess.run(words, env=environment, check=False).returncode:
            for package in wanted:
                # one that can't be had doesn't keep the others out
                subprocess.run(words[:4] + [package.name], env=environment, check=False)
