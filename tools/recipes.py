"""Holds the recipes of CONTRIBUTING.md to the repository: each file in which a sample of its kind
stands is named by the recipe."""
import fnmatch
import os
import re
from typing import Dict, Iterator, List

# what a sample is called in code, by the recipe's heading
SAMPLES = {
    'An opcode': r"\bXor\b|'xor'|\bxor64\b",
    'A form of job': r"\bReduce\b|'reduce'|b'reduce'|\breduce_(rows|region)\b",
    # (a type of bpf_verify is called Types as well)
    'A command': r"\bTypes (?:\{ |: \()?(?:name|words)\b|[.:]Types\b|, "
    r"Types\b|'types'|b'types\b|\btypes_text\b",
    'A built-in operator': r'\babsdiff\b',
    'An algorithm': r'\bk_core\b',
    'A file format': r'\bread_dimacs\b',
    'A rule of refusal': r'\bSymmetricNotSquare\b|\bM12\b',
}
FOLDERS = ['bench', 'clients', 'crates', 'docs', 'reference', 'tests']
# generated, mutants, sessions as bytes, and pages that speak of the whole
PASSED_OVER = re.compile(
    r'(^|/)(out|mutants|must-fail|__pycache__|[.][^/]*)/|^tests/cases/|^bench/\w+\.txt$'
    r'|\.(svg|png|mtx|hex|pyc)$|README\.md$|^docs/(DECISIONS|performance|examples|scaling)\.md$')
# built-in operators are named by algorithms and by one another, opcodes by the operators of tests
USES = {'A built-in operator': re.compile(r'^clients/(python/spmat/algorithms|networkx)/|^bench/'),
        'An opcode': re.compile(
            r'\.asm$|^bench/|^clients/python/spmat/algorithms/|^crates/(form|job)_tests/'),
        'A form of job': re.compile(r'^bench/'), 'A command': re.compile(r'^bench/|^tests/gateway')}


def files_of(top: str) -> Iterator[str]:
    """The files that are looked at, from the top."""
    for folder in FOLDERS:
        for at, _, names in os.walk(os.path.join(top, folder)):
            for name in names:
                path = os.path.relpath(os.path.join(at, name), top)
                if not PASSED_OVER.search(path):
                    yield path


def text_of(path: str) -> str:
    with open(path, encoding='utf-8', errors='replace') as file:
        return file.read()


def expanded(name: str) -> List[str]:
    """A path with `{a,b}` in it as paths without."""
    found = re.fullmatch(r'(.*)\{([^}]*)\}(.*)', name)
    return ([found.group(1) + part + found.group(3) for part in found.group(2).split(',')] if found
            else [name])


def sections(page: str) -> Dict[str, str]:
    """The recipes of the page, by their headings."""
    parts = re.split(r'^### (.*)$', page.partition('## Recipes')[2].partition('\n## ')[0],
                     flags=re.M)
    return dict(zip(parts[1::2], parts[2::2]))


def faults(top: str) -> Iterator[str]:
    """A line for each file that a recipe lacks, for each path of a recipe that isn't there, and for
    each recipe that isn't."""
    recipes = sections(text_of(os.path.join(top, 'CONTRIBUTING.md')))
    texts = {path: text_of(os.path.join(top, path)) for path in files_of(top)}
    for kind, sample in SAMPLES.items():
        if kind not in recipes:
            yield 'no recipe "%s"' % kind
            continue
        named = [path for name in re.findall(r'`([\w./{},*-]+/[\w./{},*-]+)`', recipes[kind])
                 for path in expanded(name)]
        yield from ('%s: no file %s' % (kind, path) for path in named if path.count('/') > 1
                    and not os.path.exists(os.path.join(top, path)))
        for path, text in sorted(texts.items()):
            if re.search(sample, text) and not (kind in USES
                                                and USES[kind].search(path)) and not is_named(
                                                    path, named):
                yield '%s: %s isn\'t named, though %s stands in it' % (kind, path, sample)


def is_named(path: str, named: List[str]) -> bool:
    """Whether a recipe names a file, or a folder that it stands in."""
    return any(path.startswith(name.rstrip('/') + '/') or fnmatch.fnmatch(path, name)
               for name in named)
