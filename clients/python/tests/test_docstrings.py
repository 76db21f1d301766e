"""The docstrings of the algorithms, as numpydoc has them, and their examples."""
import contextlib
import doctest
import inspect
import os
import re
import sys
import tempfile
import unittest

import spmat
import spmat_blocks as blocks
import support
from spmat import algorithms, draw
from spmat.algorithms.registry import ALGORITHMS
from support import needs

sys.path.append(support.TOP)

from tools.prose import sentences                  # noqa: E402

# What numpydoc looks for: sections in their order, each parameter with its type and what it means,
# a summary of one line, and what is returned.
CHECKS = ('GL03', 'GL05', 'GL06', 'GL07', 'GL08', 'SS01', 'SS02', 'SS03', 'SS04', 'PR01', 'PR02',
          'PR03', 'PR04', 'PR07', 'PR08', 'PR09', 'PR10', 'RT01', 'RT03', 'RT04', 'RT05', 'EX01')


class Docstrings(unittest.TestCase):
    @needs('numpydoc')
    def test_numpydoc(self):
        from numpydoc.validate import validate
        for name in ALGORITHMS:
            with self.subTest(algorithm=name):
                errors = validate('spmat.algorithms.' + name)['errors']
                self.assertEqual([(code, said) for code, said in errors if code in CHECKS], [])

    def test_costs(self):
        """Notes have one line on the cost, in steps and runs, or by that of another algorithm."""
        for name, one in ALGORITHMS.items():
            notes = inspect.getdoc(one.function).split('\nNotes\n-----\n')[1].split(
                '\nExamples\n')[0]
            costs = [' '.join(said.split()) for said in notes.split('\n\n')
                     if said.startswith('Cost: ')]
            self.assertEqual(len(costs), 1, name)
            self.assertRegex(costs[0], r'steps?\b.*\bruns?\b|\bruns?\b.*\bsteps?\b|'
                             r'`(%s)`' % '|'.join(ALGORITHMS), name)
            self.assertLess(len(costs[0]), 200, name)

    def test_lines_are_short(self):
        for name, one in ALGORITHMS.items():
            long = [line for line in (one.function.__doc__ or '').split('\n') if len(line) > 100]
            with self.subTest(algorithm=name):
                self.assertEqual(long, [])


# What help() shows of every object, with Python's own words.
OF_OBJECTS = re.compile('__(init|new|repr|str|reduce|hash|eq|ne|getnewargs|getattr|setattr|delattr'
                        '|exit)__')


def public_names():
    """All that a user calls, by its name, and what of each class is this package's: methods,
    properties and signs, inherited ones, too."""
    found = {}
    for module in (spmat, algorithms, draw):
        for name in module.__all__:
            found['%s.%s' % (module.__name__, name)] = getattr(module, name)
    found = {name: one for name, one in found.items() if inspect.isroutine(one)
             or inspect.isclass(one)}
    # whose own names are those of one session and its matrices
    for here, there in ((blocks.Sessions, spmat.Session), (blocks.BlockMatrix, spmat.Matrix)):
        found.update(('blocks.%s.%s' % (here.__name__, name), one)
                     for name, one in members(here) if hasattr(there, name))
    for name, one in list(found.items()):
        if inspect.isclass(one):
            found.update(('%s.%s' % (name, called), member) for called, member in members(one))
    return found


def members(kind):
    """The names and functions of a class, where they are written in this package."""
    for name in dir(kind):
        one = inspect.getattr_static(kind, name)
        one = getattr(one, '__func__', one)
        function = one.fget if isinstance(one, property) else one
        if (inspect.isfunction(function) and function.__module__.startswith('spmat')
                and (name[0] != '_' or name[:2] == '__') and not OF_OBJECTS.fullmatch(name)):
            yield name, one


def wanted_sections(one):
    """The sections that a docstring has to have, each by any of some names."""
    if inspect.isclass(one):
        own = vars(one).get('__init__') or vars(one).get('__new__')
        is_made = own is not None and not issubclass(one, BaseException)
        return [('Parameters', 'Attributes')] if is_made else []
    function = one.fget if isinstance(one, property) else one
    signature = inspect.signature(function)
    parameters = [name for name, parameter in signature.parameters.items()
                  if name not in ('self', 'cls') and not (
                      name.startswith('_') and parameter.kind in (parameter.VAR_POSITIONAL,
                                                                  parameter.VAR_KEYWORD))]
    returns = {'NoReturn': ('Raises',), 'None': ()}.get(
        str(signature.return_annotation), ('Returns', 'Yields'))
    return ([('Parameters',)] if parameters else []) + ([returns] if returns else [])


class Sections(unittest.TestCase):
    def test_each_public_name(self):
        """Whatever takes arguments says which, and whatever gives something says what."""
        found = public_names()
        self.assertLessEqual({'spmat.Matrix.to_csv', 'spmat.Matrix.__add__', 'spmat.Vector.mxm',
                              'spmat.Session.read_graph', 'spmat.algorithms.PathTree.path',
                              'blocks.Sessions.mmread'}, set(found))
        for name, one in found.items():
            lines = (inspect.getdoc(one) or '').split('\n')
            heads = {line for line, below in zip(lines, lines[1:])
                     if line and below == '-' * len(line)}
            for names in wanted_sections(one):
                with self.subTest(name=name):
                    self.assertTrue(heads.intersection(names),
                                    'no section %s' % ' or '.join(names))

    def test_signs_say_what_to_write(self):
        self.assertEqual(inspect.getdoc(spmat.Matrix.__abs__),
                         'A matrix has no abs().\n\nRaises\n------\nTypeError\n'
                         '    Write A.apply("abs").')


MOST_OF_SENTENCE = 25                              # words, as tools/check_documents has it
HEADED = re.compile(r'[\w*]+(, [\w*]+)*( : .*)?|-{3,}')


def prose(text):
    """A docstring as a page has its prose: without examples, each parameter by itself."""
    out, section = [], ''
    lines = text.split('\n')
    for line, below in zip(lines, lines[1:] + ['']):
        if line and below == '-' * len(line):
            section = line
        is_left_out = section == 'Examples' or section and HEADED.fullmatch(line)
        out.append('' if is_left_out or line == section else
                   re.sub('^    ', '', line) if section else line)
    return '\n'.join(out)


class Sentences(unittest.TestCase):
    def test_a_long_one_is_seen(self):
        words = ' '.join(['word'] * 26)
        for text in ('Sum.\n\n%s.' % words,
                     'Sum.\n\nParameters\n----------\na : int\n    %s.' % words):
            self.assertEqual([length for _, length in sentences(prose(text))], [1, 26])

    def test_are_short(self):
        """No sentence that users read is longer than those of the pages."""
        read = {**public_names(), 'spmat': spmat, 'spmat.errors': spmat.errors,
                'spmat.algorithms': algorithms, 'spmat.draw': draw, 'spmat_blocks': blocks,
                **{'spmat_blocks.' + name: getattr(blocks, name) for name in blocks.__all__}}
        for name, one in read.items():
            if re.search(r'__(?!getitem)\w+__$', name):
                continue               # a message, with what to write for a sign
            long = [sentence for sentence, length in sentences(prose(inspect.getdoc(one) or ''))
                    if length > MOST_OF_SENTENCE]
            with self.subTest(name=name):
                self.assertEqual(long, [])


# Whose functions, methods and properties have an example each. Python's own names have none.
WITH_EXAMPLES = re.compile(r'spmat\.((algorithms|draw|Session|Matrix|Vector|Loop|Operator)\.)?'
                           r'[a-zA-Z]\w*$')
OPTIONAL = ('matplotlib', 'networkx', 'pandas', 'scipy')


def examples_of(name, one):
    """The doctests of one name's own docstring."""
    finder = doctest.DocTestFinder(recurse=False)
    tests = finder.find(one, name, module=False, globs={})
    return [test for test in tests if test.examples]


@needs(*OPTIONAL)
class Examples(unittest.TestCase):
    def setUp(self):
        stack = contextlib.ExitStack()
        self.addCleanup(stack.close)
        folder = stack.enter_context(tempfile.TemporaryDirectory())
        self.addCleanup(os.chdir, os.getcwd())
        os.chdir(folder)

    def test_as_pasted(self):
        """Each example runs in a new Python, with nothing before it, in an empty folder."""
        runner = doctest.DocTestRunner(verbose=False)
        ran = 0
        called = {'spmat.' + name: type(getattr(spmat, name)).__call__
                  for name in ('unary', 'semiring')}
        for name, one in {**public_names(), **called}.items():
            for test in examples_of(name, one):
                said = []
                runner.run(test, out=said.append)
                with self.subTest(name=name):
                    self.assertEqual(said, [])
                ran += 1
        self.assertGreater(ran, 160)

    def test_each_has_one(self):
        """Functions and methods that a user calls have an example, and say what is near them."""
        for name, one in public_names().items():
            if inspect.isclass(one) or not WITH_EXAMPLES.match(name):
                continue
            text = inspect.getdoc(one) or ''
            with self.subTest(name=name):
                self.assertIn('>>>', text)
                self.assertIn('See Also', text)
