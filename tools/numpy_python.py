"""The Python that the client wants: one with numpy, which sees the newest networkx of this
machine."""
import importlib.util
import os
import subprocess
import sys
from typing import Dict, Optional, Tuple

# the Python that Debian's packages serve, whatever comes first on the PATH
DISTRIBUTION = '/usr/bin/python3'
OLDEST_NETWORKX = (3, 2)                           # the oldest that dispatches to backends
# set where a script was started again, so that none is for ever
_AGAIN = 'SPMAT_NUMPY_PYTHON'


def use() -> None:
    """Starts this script again by a distribution's Python where this one has no numpy. Programs
    that it starts find that Python as `python3`, and networkx of this one where the other's is too
    old to have backends."""
    if importlib.util.find_spec('numpy') is not None or os.environ.get(_AGAIN) or not _has_numpy(
        DISTRIBUTION):
        return
    sys.stdout.flush()
    os.execve(DISTRIBUTION, [DISTRIBUTION, *sys.argv], environment())


def environment() -> Dict[str, str]:
    """The variables for programs that are to find that Python and that networkx."""
    found = dict(os.environ,
                 PATH=os.pathsep.join([os.path.dirname(DISTRIBUTION),
                                       os.environ.get('PATH', os.defpath)]))
    found[_AGAIN] = '1'
    newer = _newer_networkx()
    if newer:
        found['PYTHONPATH'] = os.pathsep.join(filter(None, [os.environ.get('PYTHONPATH'), newer]))
    return found


def _has_numpy(python: str) -> bool:
    return (os.path.exists(python) and subprocess.run([python, '-c', 'import numpy'],
                                                      stderr=subprocess.DEVNULL,
                                                      check=False).returncode == 0)


def _networkx(python: str) -> Optional[Tuple[str, str]]:
    """The version of a Python's networkx and the folder that it is in; None where it has none."""
    asked = 'import networkx; print(networkx.__version__, networkx.__path__[0])'
    told = subprocess.run([python, '-c', asked], stdout=subprocess.PIPE, stderr=subprocess.DEVNULL,
                          text=True, check=False)
    version, _, path = told.stdout.strip().partition(' ')
    return (version, path) if told.returncode == 0 else None


def _newer_networkx() -> Optional[str]:
    """A folder with this Python's networkx alone, where it has backends and the distribution's has
    none."""
    here, there = _networkx(sys.executable), _networkx(DISTRIBUTION)
    if here is None or not _dispatches(here[0]) or (there is not None and _dispatches(there[0])):
        return None
    version, path = here
    # Outside the checkout: `rt ci` copies that, and takes no link.
    cache = os.environ.get('XDG_CACHE_HOME') or os.path.join(os.path.expanduser('~'), '.cache')
    folder = os.path.join(cache, 'spmat', 'networkx-' + version)
    os.makedirs(folder, exist_ok=True)
    for name in ('networkx', 'networkx-%s.dist-info' % version):
        source, link = os.path.join(os.path.dirname(path), name), os.path.join(folder, name)
        if os.path.isdir(source) and not os.path.islink(link):
            os.symlink(source, link)
    return folder


def _dispatches(version: str) -> bool:
    return tuple(map(int, version.split('.')[:2])) >= OLDEST_NETWORKX
