"""The page itself: each public name of the client under its subject."""
import inspect
import re
import sys
from typing import Any, Callable, Dict, Iterator, List, Sequence

from tools.paths import BLOCKS, CLIENT
from tools.reference import docstrings, subjects

sys.path[:0] = [CLIENT, BLOCKS]

import spmat                                       # noqa: E402 (found by the line above)
import spmat_blocks as blocks  # noqa: E402
from spmat import algorithms, draw, errors, extending, limits  # noqa: E402

HEAD = """# Reference of the Python client, spmat %s

Every public name by subject, made from the docstrings; `help(spmat.Session)` and its kin print the
same. [examples.md](examples.md) shows the client at work, and [operators.md](operators.md)
describes operators. In the headings `s` is a session and `A` a matrix.

Each entry says what it does, then its arguments, what it returns, its cost (runs are round trips
that compute; steps are what the budget pays), the name elsewhere, and what it raises. A section is
left out where there is nothing to say. """
READY = ('Built-in operators are `spmat.unary`, `spmat.binary` and `spmat.indexunary`; '
         '`spmat.semiring.min_plus` joins any two binary names. '
         '[operators.md](operators.md#built-in-operators) lists them.')


def entry(heading: str, thing: Any, function: Callable[..., Any] = lambda: None, *,
          is_called: bool = True) -> str:
    """What the page says of one name: its heading, and the fixed sections."""
    sections = docstrings.sections_of(thing)
    arguments = docstrings.arguments_of(function) if is_called else []
    head = docstrings.called(heading, arguments, function) if is_called else heading
    parts = ['#### `%s`' % head, sections['text'], '\n'.join(docstrings.table(arguments))]
    answer = '' if inspect.isclass(thing) else docstrings.returned(function)
    if answer:
        parts.append('**Returns** `%s`' % answer)
    parts += ['**%s.** %s' % (title, sections[name])
              for title, name in (('Cost', 'cost'), ('Elsewhere', 'elsewhere'),
                                  ('Raises', 'raises')) if sections[name]]
    return '\n\n'.join(part for part in parts if part)


def member(kind: Any, name: str, of: str) -> str:
    """The entry of a member of a class."""
    found = getattr(kind, name)
    if isinstance(inspect.getattr_static(kind, name), property):
        return entry('%s.%s' % (of, name), found, found.fget, is_called=False)
    if name == '__getitem__':
        return entry('%s[rows, columns]' % of, found, found, is_called=False)
    return entry('%s.%s' % (of, name), found, found)


def public(kind: Any) -> List[str]:
    """The members of a class that users call, each by its first name."""
    names = [name for name in sorted(dir(kind))
             if (name == '__getitem__' or not name.startswith('_'))
             and getattr(getattr(kind, name), '__name__', name) == name]
    return [name for name in names if inspect.getdoc(getattr(kind, name))
            and (callable(getattr(kind, name)) or isinstance(inspect.getattr_static(kind, name),
                                                             property))]


def function(module: Any, name: str, of: str) -> str:
    """The entry of a function of a module, or of a class that it brings: what users raise, catch or
    take fields from isn't called."""
    found = getattr(module, name)
    return entry(of + name, found, found, is_called=not inspect.isclass(found)
                 or name in subjects.BLOCKS)


def chapter(title: str, text: str, parts: Iterator[str]) -> str:
    """A heading, what is said of the whole, and the entries."""
    return '\n\n'.join(['## ' + title, text, *parts])


def below(found: Sequence[subjects.Subject], one: Callable[[str], str]) -> Iterator[str]:
    """The entries of some subjects, each behind its heading."""
    for subject in found:
        yield '### ' + subject.title
        yield from map(one, subject.names)


def algorithm_modules() -> Dict[str, str]:
    """In which module each algorithm is."""
    found = {name: getattr(algorithms, name) for name in algorithms.__all__}
    return {name: thing.__module__.rpartition('.')[2] for name, thing in found.items()
            if callable(thing) and inspect.getdoc(thing)
            and str(thing.__module__).startswith('spmat')}


def operators() -> List[str]:
    """The functions of the package itself."""
    found = {name: getattr(spmat, name) for name in spmat.__all__}
    listed = {name for subject in subjects.OPERATORS for name in subject.names}
    return [name for name, thing in found.items() if name in listed or inspect.isfunction(thing)]


def described(kind: type) -> str:
    """A class's docstring as prose."""
    return docstrings.without_heads(inspect.getdoc(kind) or '')


def page() -> str:
    """The whole page."""
    session, matrix = public(spmat.Session), public(spmat.Matrix)
    parts = [
        HEAD % spmat.__version__, chapter('Sessions', described(spmat.Session),
                                          below(subjects.with_others(subjects.SESSION, session),
                                                lambda name: member(spmat.Session, name, 's'))),
        chapter('Matrices', described(spmat.Matrix),
                below(subjects.with_others(subjects.MATRIX, matrix),
                      lambda name: member(spmat.Matrix, name, 'A'))),
        chapter('Masks', described(spmat.Mask), iter(())),
        chapter('Operators and loops', READY,
                below(subjects.with_others(subjects.OPERATORS, operators()),
                      lambda name: function(spmat, name, 'spmat.'))),
        chapter('A loop', described(spmat.Loop),
                map(lambda name: member(spmat.Loop, name, 'loop'), public(spmat.Loop))),
        chapter('Algorithms', inspect.getdoc(algorithms) or '',
                below(subjects.algorithms_by_subject(algorithm_modules()),
                      lambda name: function(algorithms, name, 'algorithms.'))),
        chapter('Pictures', inspect.getdoc(draw) or '',
                map(lambda name: function(draw, name, 'draw.'), subjects.PICTURES)),
        chapter('Row blocks over several sessions', inspect.getdoc(blocks) or '',
                map(lambda name: function(blocks, name, 'blocks.'), subjects.BLOCKS)),
        chapter('Exceptions', inspect.getdoc(errors) or '', iter(())),
        chapter('Limits', inspect.getdoc(limits) or '', iter(())),
        chapter('Distributions that are built on spmat', inspect.getdoc(extending) or '',
                iter((extending_names(),)))]
    parts.insert(1, contents('\n'.join(parts)))
    return re.sub(r'\n{3,}', '\n\n', '\n\n'.join(parts)).rstrip() + '\n'


def extending_names() -> str:
    """The names of `spmat.extending`, each with the first sentence that its docstring says."""
    lines = []
    for name in extending.__all__:
        thing = getattr(extending, name)
        said = (inspect.getdoc(thing) or '') if callable(thing) else ''
        sentence = re.split(r'(?<=[.])\s', ' '.join(said.split('\n\n')[0].split()))[0]
        lines.append('- `%s`%s' % (name, ': ' + sentence if sentence else ', a constant'))
    return '\n'.join(lines)


def contents(text: str) -> str:
    """Links to the chapters and the subjects of a page."""
    lines = []
    for level, title in re.findall(r'^(##|###) (.*)$', text, re.M):
        anchor = re.sub(r'[^a-z0-9 _-]', '', title.lower()).replace(' ', '-')
        lines.append('%s- [%s](#%s)' % ('  ' * (len(level) - 2), title, anchor))
    return '\n'.join(lines)


def faults() -> List[str]:
    """Algorithms whose docstring says no cost."""
    names = [name for name in algorithm_modules() if inspect.isfunction(getattr(algorithms, name))]
    return ['algorithms.%s says no cost' % name for name in names
            if not docstrings.sections_of(getattr(algorithms, name))['cost']]
