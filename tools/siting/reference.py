"""The reference of the Python client as pages of the site: each public name under its subject, from
its docstring."""
import inspect
import re
from typing import Any, Dict, Iterable, List, Sequence

from tools.reference import page, subjects
from tools.reference.page import algorithms, blocks, draw, errors, extending_names, spmat
from tools.siting.pages import in_languages

FOLDER, BUILT_INS, ALGORITHMS = 'reference', 'built-in-operators', 'algorithms'
BUILT_IN = """Each of these is an attribute, `spmat.binary.plus`. Wherever an operator is wanted, its name will
do: `A.ewise_add(B, "plus")`. `spmat.select` has the index operators that `select` takes, and the signs
`==`, `!=`, `<`, `<=`, `>` and `>=`. An operator of your own is a function of Python, `A.apply(lambda x: x * x)`,
or a text of assembly, `spmat.asm`: [Write operators](../docs/operators.md)."""
SELECT = """The index operators by which `Matrix.select` keeps entries, by name: ``spmat.select.tril``. They are
   those of `spmat.indexunary`, and a sign may stand for a comparison: ``A.select(">=", 3)``."""
SEMIRINGS = """`spmat.semiring.min_plus`, or `"min_plus"`, joins any two binary names: the first adds, the second
multiplies. A custom semiring of your own functions is `spmat.Semiring("plus", lambda x, y: max(x, y))`."""


def heading(words: str, line: str) -> List[str]:
    return ['', words, line * len(words), '']


def directive(name: str, of: str, *options: str) -> List[str]:
    """The lines of a directive, whose options may have values: `members`, `members: price, left`."""
    told = (option.partition(': ') for option in options)
    return ['.. %s:: %s' % (name, of),
            *(('   :%s: %s' % (option, value)).rstrip() for option, _, value in told), '']


def member(kind: Any, of: str, name: str) -> List[str]:
    """A member of a class."""
    is_property = isinstance(inspect.getattr_static(kind, name), property)
    return directive('autoproperty' if is_property else 'automethod', '%s.%s' % (of, name))


def class_page(kind: Any, of: str, found: Sequence[subjects.Subject]) -> List[str]:
    """A class, and its members by subject."""
    lines = directive('autoclass', of, 'no-members')
    for subject in found:
        lines += heading(subject.title, '-')
        for name in subject.names:
            lines += member(kind, of, name)
    return lines


def functions(module: str, names: Iterable[str], where: Any) -> List[str]:
    lines: List[str] = []
    for name in names:
        kind = getattr(where, name)
        is_class = inspect.isclass(kind)
        lines += directive('autoclass' if is_class else 'autofunction', '%s.%s' % (module, name),
                           *([members(kind)] if is_class else []))
    return lines


def members(kind: type) -> str:
    """The option by which Sphinx lists the members of a class. Of an exception these are what it
    tells: its methods are for the client that raises it."""
    if not issubclass(kind, BaseException):
        return 'members'
    told = [name for name, member in vars(kind).items() if isinstance(member, property)]
    return 'members: ' + ', '.join(told) if told else 'no-members'


def by_subject(module: str, found: Sequence[subjects.Subject], where: Any) -> List[str]:
    lines: List[str] = []
    for subject in found:
        lines += heading(subject.title, '-') + functions(module, subject.names, where)
    return lines


def exceptions() -> List[str]:
    """The exceptions that the package raises."""
    names = [name for name in spmat.__all__ if inspect.isclass(getattr(spmat, name))
             and issubclass(getattr(spmat, name), BaseException)]
    return ['.. automodule:: spmat.errors', '   :no-members:',
            ''] + functions('spmat', names, spmat)


def built_in(kind: str) -> List[str]:
    """A table of the built-in operators of a kind: what each gives, and the most steps of a
    call."""
    found = getattr(spmat, kind)
    lines = ['', '| `spmat.%s` | What it gives | Steps a call, at most |' % kind, '|---|---|---|']
    for name in found:
        text = found[name].text
        code = [line for line in text.splitlines() if line and not line.startswith(';')]
        lines.append('| `%s` | %s | %d |' % (name, text.splitlines()[0].lstrip('; '), len(code)))
    return lines


def operators_page() -> str:
    """The built-in operators, and what else may be given for one."""
    lines = ['# Built-in operators', '', BUILT_IN]
    for kind in ('unary', 'binary', 'indexunary'):
        lines += ['', '## `spmat.%s`' % kind, *built_in(kind)]
    return '\n'.join([*lines, '', '## A semiring', '', SEMIRINGS, ''])


def algorithms_page() -> str:
    """All algorithms in one table, behind what the examples of the reference begin with."""
    text = in_languages(inspect.getdoc(algorithms) or '')
    linked = re.sub(r'^\| `(\w+)(\(.*?\))`', r'| {py:func}`\1\2 <spmat.algorithms.\1>`', text,
                    flags=re.M)
    return '# All algorithms in one table\n\n%s\n' % linked


def pages() -> Dict[str, List[str]]:
    """The pages by their names, in order: each its title, and its lines."""
    session, matrix = page.public(spmat.Session), page.public(spmat.Matrix)
    found = {
        'sessions': ['Sessions', *class_page(spmat.Session, 'spmat.Session',
                                             subjects.with_others(subjects.SESSION, session))],
        'matrices': ['Matrices and masks',
                     *class_page(spmat.Matrix, 'spmat.Matrix',
                                 subjects.with_others(subjects.MATRIX, matrix)),
                     *heading('Masks', '-'), *directive('autoclass', 'spmat.Mask')],
        'operators': ['Operators and loops',
                      page.READY.replace('[operators.md](operators.md#built-in-operators)',
                                         ':doc:`/docs/operators`'), '',
                      *heading('Make operators of functions', '-'),
                      *(line for name in ('unary', 'binary', 'indexunary')
                        for line in directive('autofunction', 'spmat.' + name)),
                      *directive('py:data', 'spmat.select'), '   ' + SELECT,
                      *by_subject('spmat',
                                  subjects.with_others(subjects.OPERATORS, page.operators()),
                                  spmat), *heading('A loop', '-'),
                      *directive('autoclass', 'spmat.Loop', 'members'),
                      *heading('What an operator and a semiring are', '-'),
                      *directive('autoclass', 'spmat.Operator', 'members'),
                      *directive('autoclass', 'spmat.Semiring')],
        'results': ['Vectors, budgets, results of jobs',
                    *(line for name in ('Vector', 'Budget', 'JobResult')
                      for line in directive('autoclass', 'spmat.' + name))],
        BUILT_INS: [], ALGORITHMS: [],
    }
    for subject in subjects.algorithms_by_subject(page.algorithm_modules()):
        name = 'algorithms-' + '-'.join(subject.title.lower().replace(',', '').split())
        title = subject.title[:1].lower() + subject.title[1:]
        found[name] = ['Algorithms: ' + title, '.. index:: ' + title.replace(' and ', ', '), '',
                       *functions('spmat.algorithms', subject.names, algorithms)]
    found['draw'] = ['Pictures', '.. index:: plot, picture', '', '.. automodule:: spmat.draw', '   :no-members:', '',
                     *functions('spmat.draw', pictures(), draw)]
    found['blocks'] = ['Row blocks', '.. automodule:: spmat_blocks', '   :no-members:', '',
                       *functions('spmat_blocks', subjects.BLOCKS, blocks)]
    found['errors'] = ['Exceptions', *exceptions()]
    found['limits'] = ['Limits', '.. automodule:: spmat.limits', '   :no-members:', '']
    found['extending'] = ['Distributions that are built on spmat',
                          '.. automodule:: spmat.extending', '   :no-members:', '',
                          *extending_names().replace('`', '``').split('\n'), '']
    return found


def pictures() -> List[str]:
    """The functions that draw."""
    names: Sequence[str] = getattr(draw, '__all__', subjects.PICTURES)
    return [name for name in names if inspect.isfunction(getattr(draw, name))]


def texts() -> Dict[str, str]:
    """The pages' texts by the names of their files, the list of them first."""
    found = pages()
    listed = ['Reference of the Python client', '==============================', '',
              '``help(spmat.Session)`` and its kin print the same. Runs are round trips that '
              'compute; steps are what the budget pays.', '', '.. toctree::', '   :maxdepth: 2', '',
              *('   ' + name for name in found), '']
    out = {FOLDER + '/index.rst': '\n'.join(listed)}
    for name, lines in found.items():
        if lines:
            out['%s/%s.rst' % (FOLDER, name)] = '\n'.join([*heading(lines[0], '='),
                                                           *lines[1:]]) + '\n'
    out['%s/%s.md' % (FOLDER, BUILT_INS)] = operators_page()
    out['%s/%s.md' % (FOLDER, ALGORITHMS)] = algorithms_page()
    assert errors is not None
    return out
