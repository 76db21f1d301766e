"""What stands against a release: `faults` of a tree that is being worked on, and what beside that
has to hold for a release."""
import os
import re
import subprocess
from typing import Dict, List, Optional

from tools.releasing import gate, parts, tree

# Where the version stands beside VERSION, as nothing reads it there: each with a form for it.
PROGRAMS = 'crates/command_line/src/version.rt'
# copies: the gate's prover refuses a tree with links
COPIES = tuple(one.version_file for one in tree.DISTRIBUTIONS)
PLACES = {'CHANGELOG.md': r'^## (\d[^ \n]*)', PROGRAMS: r'^pub const VERSION: &str = "(.+)";$',
          'docs/log.md': r' version=(\S+)', 'docs/protocol.md': r', such as `spmat (\S+)`',
          **dict.fromkeys(COPIES, r'^(.+)$')}
# Names of files of a release, in the documents.
RELEASED = r'\bspmat(?:[_-][a-z]+)?[_-](\d+(?:\.\d+)+)[_-]'
# What stands in a wheel: whoever reads it there has no other file of the repository.
PACKED = tuple(one.folder + 'README.md' for one in tree.DISTRIBUTIONS)
DOCUMENTS = ('README.md', 'docs/server.md', 'docs/service.md', *PACKED)
# Where the homepage stands: whoever publishes puts theirs into each.
HOMEPAGES = {'packaging/debian/control': r'^Homepage: (\S+)$',
             **{one.folder + 'pyproject.toml': r'^Homepage = "(\S+)"$'
                for one in tree.DISTRIBUTIONS},
             'README.md': r'<(https://\S+)>', **dict.fromkeys(PACKED, r'\((https://[^/)]+/)')}
# Where the toolchain that proves is named.
PROVED = ('README.md', 'CHANGELOG.md', 'docs/proved.md')


def places() -> Dict[str, str]:
    """The version that each place tells which doesn't read VERSION."""
    found = {}
    for path, form in PLACES.items():
        match = (re.search(form, tree.text_of(path), re.M) if os.path.exists(tree.path_of(path))
                 else None)
        if match:
            found[path] = match.group(1)
    for path in DOCUMENTS:
        found.update(('%s (%s)' % (path, told), told)
                     for told in re.findall(RELEASED, tree.text_of(path)))
    return found


def version_faults() -> List[str]:
    """Places that tell another version than VERSION does."""
    version = tree.plain_version()
    out = ['VERSION is %s, and %s says %s' % (version, path, other)
           for path, other in sorted(places().items()) if other != version]
    if not re.fullmatch(r'\d+\.\d+\.\d+', version):
        out.append('VERSION is three numbers with points between them, not %r' % version)
    if 'CHANGELOG.md' not in places():
        out.append('CHANGELOG.md has no heading with a version')
    out.extend('%s has no version' % path for path in COPIES if path not in places())
    return out


def toolchains() -> Dict[str, str]:
    """The toolchains that the documents name, kits and logics, each with the places where."""
    found: Dict[str, List[str]] = {}
    for path in PROVED:
        for kind, name in re.findall(r'(rattle-kit-|logic )`?(\w+)', tree.text_of(path)):
            if kind == 'rattle-kit-' or re.fullmatch('[0-9a-f]{16}', name):
                found.setdefault(kind + name, []).append(path)
    return {name: ', '.join(sorted(set(where))) for name, where in sorted(found.items())}


def toolchain_faults() -> List[str]:
    """Documents that name no toolchain, or not all the same one."""
    told = toolchains()
    if len(told) == 2 and all(any(path in where for where in told.values()) for path in PROVED):
        return []
    return ['the documents don\'t name one toolchain and its logic each: '
            + '; '.join('%s in %s' % pair for pair in told.items())]


def other_toolchain() -> Optional[str]:
    """How the toolchain of this machine differs from the one that the documents name, None where it
    doesn't."""
    here = tree.toolchain()
    if here is None:
        return 'there is no toolchain here (rt)'
    if set(toolchains()) == {here.kit, 'logic ' + here.logic}:
        return None
    return 'the toolchain here is %s, logic %s, and the documents name %s' % (
        here.kit, here.logic, ', '.join(toolchains()))


def homepage() -> str:
    """The homepage, as the packages name it; nothing where they name none."""
    path, form = next(iter(HOMEPAGES.items()))
    found = re.search(form, tree.text_of(path), re.M)
    return found.group(1) if found else ''


def homepage_faults() -> List[str]:
    """Places that name another homepage than the packages do, or none."""
    told = {path: re.findall(form, tree.text_of(path), re.M) for path, form in HOMEPAGES.items()}
    return ['%s names the homepage %s, and packaging/debian/control %s'
            % (path, ' '.join(sorted(set(found))) or 'nowhere', homepage() or 'none')
            for path, found in told.items() if not homepage() or set(found) != {homepage()}]


def source_faults() -> List[str]:
    """Data of others that doesn't say where it comes from."""
    return ([] if 'Zachary' in tree.text_of('docs/karate.mtx')
            else ['docs/karate.mtx doesn\'t name its source'])


def faults() -> List[str]:
    """What stands against a release of this tree, whatever was changed in it since its last commit,
    and before any gate has passed."""
    return (version_faults() + toolchain_faults() + homepage_faults() + parts.faults()
            + source_faults())


def program_faults() -> List[str]:
    """A program that tells another version, or that runs on another kind of machine."""
    path = tree.path_of(tree.PROGRAM)
    if not os.path.exists(path) or PROGRAMS not in places():
        return []
    told = subprocess.run([path, '--version'], stdout=subprocess.PIPE, stderr=subprocess.DEVNULL,
                          check=False).stdout
    return ([] if told == b'spmat %s\n' % tree.plain_version().encode()
            else ['the program says of its version: %r' % told])


def release_faults() -> List[str]:
    """What stands against a release, all of it."""
    out = ['the tree is not clean: ' + line for line in tree.changed()[:10]]
    other = other_toolchain()
    return out + faults() + ([other] if other else []) + gate.faults() + program_faults()


def untested_faults() -> List[str]:
    """What stands against packages of a tree that no gate has passed: as `faults`, and that there
    is no program."""
    return faults() + [
        'there is no %s %s: %s makes it' % (kind, name, how)
        for kind, name, how in (('program', tree.PROGRAM, '`rt run` in crates/spmat'),
                                ('library', tree.LIBRARY, 'tools/build --library'))
        if not os.path.exists(tree.path_of(name))] + program_faults()
