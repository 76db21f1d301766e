"""Holds numbers that stand on several pages to one value, and to the repository where it has
them."""
import os
import re
from typing import Dict, Iterator, List, NamedTuple, Optional, Tuple

Texts = Dict[str, str]
PYTHON = 'clients/python/pyproject.toml'
LIMITS = 'clients/python/spmat/limits.py'


class Number(NamedTuple):
    """A number that pages repeat: what it is of, how pages write it (its first group is the
    number), and where the repository has it: a file with a pattern."""
    what: str
    written: str
    source: Optional[Tuple[str, str]] = None


NUMBERS = (
    Number('the most rows, columns and entries', r'\b(16,\d{3},\d{3})\b',
           (LIMITS, r'^MOST_SIDE = (\S+)')),
    Number('the most bytes of a matrix text', r'\b(268,\d{3},\d{3})\b',
           (LIMITS, r'^MOST_TEXT = (\S+)')),
    Number('the most steps of a job', r'\b(4,29\d,\d{3},\d{3})\b'),
    Number("the slots of an operator's code", r'([\d,]+) slots\b(?! of)',
           (LIMITS, r'^MOST_SLOTS = (\S+)')),
    Number('the jobs of a queue', r'\b(\d+) (?:such )?jobs (?:of 4|wait|takes)',
           (LIMITS, r'^QUEUE = (\S+)')),
    Number("the bytes of an operator's stack", r'\b(\d+) bytes of stack|stack of (\d+) bytes'),
    Number('the opcodes', r'\b(\d+) opcodes'),
    Number('the version of the toolchain', r'(rattle-kit-\w+)'),
    Number('the Python that the client needs',
           r'Python (3\.\d+)(?= or newer| for the client| and the Rattle)',
           (PYTHON, r'^requires-python = ">=(\S+)"')),
    Number('the numpy that the client needs', r'numpy (?:\| )?(1\.\d+)(?= or newer)',
           (PYTHON, r'^dependencies = \["numpy>=([\d.]+)')),
    Number('the networkx that the backend needs',
           r'networkx (?:\()?(3\.\d)(?= or (?:newer|above)|, an)',
           ('clients/networkx/pyproject.toml', r'"networkx>=([\d.]+)"')),
    Number('the C library that the program needs', r'glibc (2\.\d+)',
           ('tools/releasing/bill.py', r"'name': 'glibc', 'version': '([\d.]+)'")),
    Number('the functions of networkx that are served', r'\b(\d+) functions(?= of networkx)'),
    Number('the steps a second', r'\b(\d+ to \d+) million (?:steps )?(?:per|a) second'),
    Number('the mutants', r'\b(\d{3}) (?=edits of \d+ crates|others by hand)'),
    Number('how long the gate takes', r'\bunder (\w+ hours)'),
    Number('the steps of a chunk', r'\beach (\d{3},000) (?:of its )?steps'),
    Number('the sessions whose instructions are counted', r'\b(\d+) sessions(?=\W+at one size| \||'
           r', and 10%)'),
)


def plain(number: str) -> str:
    """A number without what only separates its digits."""
    return re.sub(r'(?<=\d)[,_](?=\d)', '', number)


def found_in(text: str, number: Number) -> List[str]:
    """How a page gives a number, each time that it does."""
    words = ' '.join(text.split())
    return [plain(next(filter(None, match.groups()))) for match in re.finditer(number.written, words)]


def faults(top: str, texts: Texts) -> Iterator[Tuple[str, str]]:
    """What differs between pages, or from the repository: each with its page. `texts` has the pages
    by their paths."""
    for number in NUMBERS:
        given = {page: found for page, text in sorted(texts.items())
                 for found in [found_in(text, number)] if found}
        if len(given) < 2:
            yield 'tools/repeated_numbers.py', ('%s: expected several pages with it, got %s: take the '
                                                'number out of NUMBERS, or mend its pattern'
                                                % (number.what, ', '.join(given) or 'none'))
            continue
        first, (wanted, *_) = next(iter(given.items()))
        if number.source:
            first, pattern = number.source
            with open(os.path.join(top, first), encoding='utf-8') as file:
                counted = re.search(pattern, file.read(), re.M)
            if counted is None:
                yield first, '%s: nothing there is written as %s' % (number.what, pattern)
                continue
            wanted = plain(counted.group(1))
        for page, found in given.items():
            yield from ((page, '%s: %s, where %s has %s' % (number.what, one, first, wanted))
                        for one in found if one != wanted)
