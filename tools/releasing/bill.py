"""The list of what is in the program, in the form of CycloneDX 1.5: crates, libraries of others,
the toolchain, and how they stand on one another."""
import datetime
import json
import os
import re
import subprocess
import uuid
from typing import Any, Dict, List

from tools.releasing import look, parts, tree

# that of names which are addresses (RFC 9562)
SPACE = uuid.UUID('6ba7b811-9dad-11d1-80b4-00c04fd430c8')
C_LIBRARIES = ('c/libos_c.a', 'c/liblibc_c.a')


def hashes(path: str) -> List[Dict[str, str]]:
    return [{'alg': 'SHA-256', 'content': tree.sum_of(path)}]


def logic_of(program: str) -> str:
    """The logic that proved a program, as the program itself has it, whole."""
    found = re.search(rb'rattle logic=(\w+)', tree.bytes_of(program))
    return found.group(1).decode() if found else 'none'


def tools() -> List[Dict[str, Any]]:
    """The programs that proved and compiled, those that are here."""
    toolchain, kit = tree.toolchain(), tree.kit_folder()
    if toolchain is None or kit is None:
        return []
    clang = os.path.join(kit, 'toolchain', 'bin', 'clang')
    version = subprocess.run([clang, '--version'], stdout=subprocess.PIPE, text=True,
                             check=True).stdout.split()[2]
    return [{'type': 'application', 'name': 'rattle', 'version': '%s logic %s' % toolchain,
             'hashes': hashes(os.path.join(kit, 'bin', 'rattle'))},
            {'type': 'application', 'name': 'clang', 'version': version, 'hashes': hashes(clang)}]


def of_crate(name: str) -> Dict[str, Any]:
    return {'type': 'library', 'bom-ref': name, 'name': name, 'version': tree.version(),
            'licenses': [{'expression': 'MIT'}]}


def of_part(part: parts.Part) -> Dict[str, Any]:
    """A library that the toolchain has as a port."""
    return {'type': 'library', 'bom-ref': part.name, 'name': part.name,
            'licenses': [{'expression': part.licence}],
            'description': 'a port of ' + part.original}


def of_own() -> List[Dict[str, Any]]:
    """The libraries of the toolchain's own that the program names, without a licence as they have
    none, and what its standard library has of others."""
    return [{'type': 'library', 'bom-ref': name, 'name': name, 'description': 'of the toolchain, '
             'which says nothing of its licence'}
            for name in dict.fromkeys((*parts.STANDARD, *parts.named()))
            if name in (*parts.OWN, *parts.STANDARD)] + [
                {'type': 'library', 'bom-ref': name, 'name': name,
                 'licenses': [{'expression': licence}], 'description': 'in core: ' + original}
                for name, original, licence in parts.INSIDE.values()]


def of_c() -> List[Dict[str, Any]]:
    """What is C: the toolchain's few functions, and the library that is linked when the program
    starts."""
    kit = tree.kit_folder()
    own = [{'type': 'library', 'bom-ref': os.path.basename(path), 'name': os.path.basename(path),
            'hashes': hashes(os.path.join(kit, path))} for path in C_LIBRARIES if kit]
    return own + [{'type': 'library', 'bom-ref': 'glibc', 'name': 'glibc', 'version': '2.34',
                   'scope': 'required',
                   'licenses': [{'expression': 'LGPL-2.1-or-later'}],
                   'description': 'linked when the program starts; 2.34 or newer'}]


def dependencies(components: List[Dict[str, Any]]) -> List[Dict[str, Any]]:
    """What each component stands on."""
    graph = parts.graph()
    inside = {'core': [name for name, _, _ in parts.INSIDE.values()]}
    below = {name: sorted(graph.get(name, []) + parts.BELOW.get(name, []) + inside.get(name, []))
             for name in (part['bom-ref'] for part in components)}
    links = [{'ref': name, 'dependsOn': names} for name, names in sorted(below.items())]
    whole = ['spmat', 'spmat_lib', 'glibc', *parts.STANDARD] + [part['bom-ref'] for part in components
                                  if part['bom-ref'].endswith('.a')]
    return [{'ref': 'release', 'dependsOn': sorted(whole)}] + links


def bill(program: str) -> str:
    """The list, as JSON."""
    components = ([of_crate(name) for name in parts.crates()]
                  + [of_part(part) for part in parts.PARTS] + of_own() + of_c())
    of = {'type': 'application', 'bom-ref': 'release', 'name': 'spmat', 'version': tree.version(),
          'hashes': hashes(program),
          'licenses': [{'expression': 'MIT'}],
          'externalReferences': [{'type': 'website', 'url': look.homepage()}],
          'properties': [{'name': 'spmat:commit', 'value': tree.commit()},
                         {'name': 'spmat:logic', 'value': logic_of(program)},
                         {'name': 'spmat:library',
                          'value': tree.sum_of(tree.path_of(tree.LIBRARY))}]}
    time = datetime.datetime.fromtimestamp(tree.commit_time(),
                                           datetime.timezone.utc).strftime('%Y-%m-%dT%H:%M:%SZ')
    told = {'bomFormat': 'CycloneDX', 'specVersion': '1.5',
            'serialNumber': 'urn:uuid:%s' % uuid.uuid5(SPACE,
                                                       '%s %s'
                                                       % (tree.commit(), tree.sum_of(program))),
            'version': 1,
            'metadata': {'timestamp': time, 'tools': {'components': tools()}, 'component': of},
            'components': components, 'dependencies': dependencies(components)}
    return json.dumps(told, indent=1) + '\n'
