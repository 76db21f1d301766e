"""Import modules that only some calls need, with an error that says how to install one that is
missing."""
from __future__ import annotations

import importlib
from typing import Any, Dict, NamedTuple


class Extra(NamedTuple):
    """What brings a module: an extra of spmat, a project of pip, and a Debian package ('' if Debian
    has none). Our own distributions have no extra, and a file in place of a project: pip would look
    for their names where anybody may register them."""
    extra: str
    project: str
    debian: str


# pyproject.toml lists the same extras, and packaging/debian/control the same packages
EXTRAS: Dict[str, Extra] = {
    'distributed': Extra('dask', 'distributed', 'python3-distributed'),
    'elftools': Extra('c', 'pyelftools', 'python3-pyelftools'),
    'matplotlib': Extra('pictures', 'matplotlib', 'python3-matplotlib'),
    'networkx': Extra('networkx', 'networkx', 'python3-networkx'),
    'pandas': Extra('files', 'pandas', 'python3-pandas'),
    'pyarrow': Extra('parquet', 'pyarrow', ''),
    'scipy': Extra('scipy', 'scipy', 'python3-scipy'),
    'spmat_blocks': Extra('', './spmat_blocks-*.whl', 'python3-spmat-blocks'),
    'spmat_networkx': Extra('', './spmat_networkx-*.whl', 'python3-spmat-networkx'),
    'tqdm': Extra('cli', 'tqdm', 'python3-tqdm'),
    'zstandard': Extra('files', 'zstandard', 'python3-zstandard'),
}


def describe_missing(module: str, purpose: str) -> str:
    """Say what a missing module is needed for, and what to type.

    Parameters
    ----------
    module : str
        A key of `EXTRAS`.
    purpose : str
        What needs it, as the subject of the sentence: ``"a picture"``.

    Returns
    -------
    str
        A sentence for an error.

    Examples
    --------
    >>> describe_missing('matplotlib', 'a picture')
    'a picture needs matplotlib (extra pictures): pip install matplotlib, or on Debian apt install
    python3-matplotlib'
    """
    extra = EXTRAS[module]
    debian = ', or on Debian apt install ' + extra.debian if extra.debian else ''
    origin = ' (extra %s)' % extra.extra if extra.extra else ', a wheel of the release'
    return '%s needs %s%s: pip install %s%s' % (purpose, module, origin, extra.project, debian)


def import_extra(module: str, purpose: str) -> Any:
    """Import a module that isn't a dependency of spmat.

    Parameters
    ----------
    module : str
        The module's name. It may have dots; its first part is a key of `EXTRAS`.
    purpose : str
        What needs it, as the subject of the error: ``"a picture"``.

    Returns
    -------
    module
        The module.

    Raises
    ------
    ImportError
        If the module is missing or broken. The text names the extra and what to type; `name` is the
        module's name.
    """
    try:
        return importlib.import_module(module)
    except ImportError as fault:
        first = module.partition('.')[0]
        raise ImportError('%s (%s)' % (describe_missing(first, purpose), fault),
                          name=first) from fault
