"""The libraries of others that are compiled into the program, with their licences. THIRD-PARTY.md
has the notices."""
import os
import re
from typing import Dict, List, NamedTuple

from tools.releasing import tree

NOTICES = 'THIRD-PARTY.md'


class Part(NamedTuple):
    """A library that the toolchain has as a port: its name there, the original and its version, its
    licence, and the notice's file."""
    name: str
    original: str
    licence: str
    notice: str


EITHER = 'MIT OR Apache-2.0'
PARTS = [
    Part('arrayvec', 'arrayvec 0.7.8', EITHER, 'LICENSE-MIT'),
    Part('clap', 'clap_builder 4.6.7, clap_lex 1.1.1', EITHER, 'LICENSE-MIT'),
    Part('crossbeam_utils', 'crossbeam-utils 0.8.23', EITHER, 'LICENSE-MIT'),
    Part('hex', 'hex 0.4.3', EITHER, 'LICENSE-MIT'),
    Part('itoa', 'itoa 1.0.18', EITHER, 'LICENSE'),
    Part('jiff', 'jiff 0.2.39', 'MIT OR Unlicense', 'LICENSE-MIT'),
    Part('strsim', 'strsim 0.11.1', 'MIT', 'LICENSE'),
    Part('thiserror', 'thiserror 2.0.21', EITHER, 'LICENSE'),
]
# Libraries of the toolchain's own, beside core and std: they are no ports, and have no licence
# file.
OWN = ('atomic_table', 'libc', 'os')
STANDARD = ('core', 'std')
# What these have of others, as the first lines of their files say: the file below the toolchain's
# libraries, or a folder, what the part is, and its licence.
INSIDE = {
    'core/src/dec2flt/mod.rt': ('fast-float2', 'fast-float2 0.2.4', EITHER),
    'core/src/char': ('Unicode', 'data of Unicode', 'Unicode-3.0'),
    'core/src/str/two_way.rt': ('memchr', 'memchr 2.8.3', 'Unlicense OR MIT'),
}
LICENSED = re.compile(rb'\b[Ll]icen[cs]e|\bUnlicense\b|[Cc]opyright')
# Crates without code, which state laws and examples.
LAWS = ('session_laws', 'worked_rows')
# What a library of the toolchain stands on, beside its standard library, and crates.txt doesn't
# name. The ports jiff_core, jiff_tz and so on are of jiff itself.
BELOW = {'clap': ['strsim'], 'jiff': ['arrayvec']}


def crates() -> List[str]:
    """The crates of the repository that are in the program: those with code, and without tests, in
    order."""
    return sorted(name for name in graph() if not name.endswith('_tests')
                  and not name.startswith('test_') and name not in LAWS)


def graph() -> Dict[str, List[str]]:
    """What each crate of crates.txt names."""
    lines = [line.split(':') for line in tree.text_of('crates.txt').splitlines() if ':' in line
             and not line.startswith('#')]
    return {head.split()[0]: names.split() for head, names in lines}


def named() -> List[str]:
    """The libraries of the toolchain that the crates of the program name, and those below them."""
    own = graph()
    found = {name for crate in crates() for name in own[crate] if name not in own}
    return sorted(found | {below for name in found for below in BELOW.get(name, [])})


def faults() -> List[str]:
    """What is missing in the list of parts or in the notices."""
    out = []
    listed, found = [part.name for part in PARTS], [name for name in named() if name not in OWN]
    if found != listed:
        out.append('the program has the libraries %s, and tools/releasing/parts.py lists %s'
                   % (', '.join(found), ', '.join(listed)))
    notices, kit = tree.text_of(NOTICES), tree.kit_folder()
    for part in PARTS:
        if not re.search(r'^#+ .*\b%s\b' % part.name, notices, re.M):
            out.append('%s has no heading for %s' % (NOTICES, part.name))
        path = os.path.join(kit, 'rattle', part.name, part.notice) if kit else None
        if path and os.path.exists(path) and quoted(path) not in notices:
            out.append('%s doesn\'t have the notice of %s as the toolchain has it'
                       % (NOTICES, part.name))
    out += ['%s has no heading for %s' % (NOTICES, name) for name, _, _ in INSIDE.values()
            if not re.search(r'^#+ .*\b%s\b' % name, notices, re.M)]
    return out + (unlisted(os.path.join(kit, 'rattle')) if kit else [])


def unlisted(libraries: str) -> List[str]:
    """Files of the toolchain's own libraries that speak of a licence and that INSIDE lacks."""
    out = []
    for library in (*STANDARD, *OWN):
        for folder, _, names in os.walk(os.path.join(libraries, library)):
            for name in sorted(names):
                path = os.path.relpath(os.path.join(folder, name), libraries)
                if not any(path == known or path.startswith(known + '/') for known in INSIDE):
                    if LICENSED.search(tree.bytes_of(os.path.join(folder, name))):
                        out.append("the toolchain's %s speaks of a licence: expected it in INSIDE "
                                   'of tools/releasing/parts.py, and its notice in %s'
                                   % (path, NOTICES))
    return out


def quoted(path: str) -> str:
    """The text of a licence as the notices have it: indented, as it is otherwise."""
    with open(path, encoding='utf-8') as file:
        return ''.join(('    ' + line).rstrip() + '\n' for line in file.read().strip().split('\n'))
