"""Refusals as exceptions: their classes, what they quote, and their sentences beside those of the
documents."""
import copy
import importlib
import io
import os
import pathlib
import pickle
import re
import traceback
import unittest

import support
import spmat
from spmat import errors
from spmat.io.edges import Layout


def rows_of(page):
    """The cells of each row of the tables of a document, without backticks."""
    with open(os.path.join(support.TOP, 'docs', page), encoding='utf-8') as file:
        for line in file:
            if line.startswith('|'):
                yield [cell.replace('`', '').replace('\\|', '|').strip()
                       for cell in re.split(r'(?<!\\)\|', line.strip())[1:-1]]


def documented():
    """The sentence of each rule, and how to mend what breaks it, as docs/protocol.md and
    docs/bpf.md have them."""
    sentences, mends = {}, {}
    for page in ('protocol.md', 'bpf.md'):
        for cells in rows_of(page):
            if re.fullmatch(r'[AMV]\d+', cells[0]):
                sentences[cells[0]] = cells[1]
                if len(cells) == 6:
                    mends[cells[0]] = cells[4]
            reply = re.fullmatch(r'no ([SJ]\d+|memory|thread|busy)( SPENT)?( PRICE LEFT)?',
                                 cells[0])
            if reply:
                sentences[reply.group(1) + (reply.group(2) or '')] = cells[1]
    return sentences, mends


class Sentences(unittest.TestCase):
    def test_as_the_documents_have_them(self):
        sentences, mends = documented()
        sentences.setdefault('busy', errors.SENTENCES['busy'])
        self.maxDiff = None
        self.assertEqual({rule: said for rule, said in errors.SENTENCES.items()
                          if rule not in errors.OF_GATEWAY}, sentences)
        self.assertEqual(errors.MENDS, mends)

    def test_of_a_gateway(self):
        """docs/service.md has a row, or a sentence, for each refusal that only a gateway gives."""
        page = pathlib.Path(os.path.join(support.TOP, 'docs', 'service.md')).read_text('utf-8')
        for rule in errors.OF_GATEWAY:
            with self.subTest(rule=rule):
                self.assertIn('`no %s' % rule, page)
                self.assertIn(rule, errors.SENTENCES)
                self.assertTrue(issubclass(errors.class_of(rule), spmat.Refused))

    def test_each_rule_has_a_class(self):
        self.assertEqual({rule: errors.class_of(rule.split()[0]) for rule in errors.SENTENCES
                          if rule not in errors.OF_GATEWAY}, {
                              **{'S%d' % k: spmat.Refused for k in (1, 2, 3, 4, 5, 6)},
                              'J6': spmat.Refused,
                              **{'A%d' % k: spmat.OperatorRefused for k in range(1, 7)},
                              **{'V%d' % k: spmat.OperatorRefused for k in range(1, 17)},
                              **{'M%d' % k: spmat.TextRefused for k in range(1, 13)},
                              'S9': spmat.OperatorRefused,
                              **{rule: spmat.TooLarge for rule in ('M4', 'S7', 'J7', 'J8')},
                              'J4': spmat.DomainMismatch,
                              'J5': spmat.DimensionMismatch, 'J9': spmat.DimensionMismatch,
                              'S8': spmat.BudgetExceeded, 'memory': spmat.OutOfMemory,
                              'memory SPENT': spmat.OutOfMemory, 'thread SPENT': spmat.NoThread,
                              'busy': spmat.Busy})

    def test_other_names(self):
        """Some have two names, and are caught by either."""
        for name, other in (('NotMade', 'ResultLost'), ('NoThread', 'ThreadUnavailable')):
            self.assertIs(getattr(spmat, other), getattr(spmat, name))
            self.assertIs(getattr(errors, other), getattr(errors, name))
            self.assertLessEqual({name, other}, set(spmat.__all__))
            self.assertIn(other, errors.__doc__)
        with self.assertRaises(spmat.ThreadUnavailable):
            raise errors.refusal('thread', (3,))


class Words(unittest.TestCase):
    def refused(self, kind, rule, call):
        with self.assertRaises(kind) as said:
            call()
        self.assertEqual(said.exception.rule, rule)
        self.assertIn(rule, str(said.exception))
        self.assertIn(said.exception.said or said.exception.sentence, str(said.exception))
        return said.exception

    def test_operators(self):
        with spmat.Session() as s:
            A = s.from_triples([(0, 0, 1)])
            for rule, at, line, op in (
                ('A2', 2, 'nop', spmat.asm('unary', '; a comment\n  nop\nexit')),
                ('A3', 1, 'mov64 r0', spmat.asm('unary', 'mov64 r0\nexit')),
                ('A4', 1, 'mov64 r0, r11', spmat.asm('unary', 'mov64 r0, r11\nexit')),
                ('A6', 2, '', spmat.asm('unary', '\n')),
                ('V7', 0, 'ja -1', spmat.asm('unary', 'ja -1\nexit')),
                ('V14', 2, 'ldx64 r0, r1, 0',
                 spmat.asm('unary', '; x\nwide r2, 9\n\nldx64 r0, r1, 0  ; no\nexit')),
                ('V11', 0, 'exit', spmat.asm('unary', 'exit')),
                ('V1', 0, '00', spmat.code('unary', '00')),
                ('V2', 1, 'ff00000000000000',
                 spmat.code('unary', 'bf10000000000000 ff00000000000000'))):
                fault = self.refused(spmat.OperatorRefused, rule, lambda: A.apply(op))
                self.assertEqual((fault.at, fault.line), (at, line))
                self.assertIn('unary', fault.command)
                self.assertIn(line, str(fault))
            self.assertEqual(A.apply('abs').nvals, 1)

    def test_the_whole_message(self):
        with spmat.Session() as s:
            A = s.from_triples([(0, 0, 1)])
            op = spmat.asm('unary', 'wide r2, 9\nldx64 r0, r1, 0\nexit', 'f')
            fault = self.refused(spmat.OperatorRefused, 'V14', lambda: A.apply(op))
            self.assertEqual(str(fault),
                             "V14: expected a place in the stack, found a number, slot 2, line "
                             "2: 'ldx64 r0, r1, 0' "
                             '(in `asm f unary`); to fix it: load and store through R10, or a '
                             'copy of it')

    def test_texts(self):
        with spmat.Session() as s:
            for rule, at, line, text in (
                ('M1', 1, 'hello', 'hello'),
                ('M2', 1, '%%MatrixMarket matrix array real general',
                 '%%MatrixMarket matrix array real general\n'),
                ('M5', 4, '1 x 5', support.BANNER + '% a comment\n2 2 1\n1 x 5\n'),
                ('M6', 3, '3 1 5', support.BANNER + '2 2 1\r\n3 1 5\r\n'),
                ('M9', 3, '', support.BANNER + '2 2 1\n')):
                fault = self.refused(spmat.TextRefused, rule, lambda: s.from_text(text))
                self.assertEqual((fault.at, fault.line), (at, line))
                self.assertIsInstance(fault, ValueError)
            self.refused(spmat.TooLarge, 'M4',
                         lambda: s.from_text(support.BANNER + '16777217 1 0\n'))
            fault = self.refused(spmat.TextRefused, 'M8',
                                 lambda: s.from_triples([(0, 0, 1), (0, 1, 1), (0, 0, 2)]))
            self.assertEqual(str(fault),
                             'M8: the position was given before, or in symmetric its mirror; '
                             'row 0, column 0 is given as entry 0 and as entry 2; dup_op= folds '
                             'the values of a position that repeats')

    def test_jobs(self):
        with spmat.Session() as s:
            A = s.from_triples([(0, 0, 1)], 2, 2)
            ones, wide = s.full(5000, 1), s.full(1, 5000)
            self.refused(spmat.TooLarge, 'J7', lambda: ones.mxm(wide))
            dear = spmat.asm('binary', 'mov64 r0, r1\n' * 4000 + 'exit')
            self.refused(spmat.TooLarge, 'J8',
                         lambda: s.full(1100, 1).mxm(s.full(1, 1100), spmat.Semiring('plus', dear)))
            self.assertEqual(A.apply('abs').nvals, 1)

    def test_budget(self):
        with spmat.Session(steps=3) as s:
            A = s.from_triples([(0, 0, 1), (0, 1, 1)])
            fault = self.refused(spmat.BudgetExceeded, 'S8', lambda: A.apply('abs'))
            self.assertEqual((fault.price, fault.left), (8, 3))
            self.assertIn('the price is 8, and 3 are left', str(fault))


PLAIN = 'a,b,1\nb,c,2\n'
# texts that can't be read, by calls of which the error names parameters
UNREADABLE = (
    ('a,b,0.5\n', {}), ('a,b,x\n', {'header': False}), ('a,b,\n', {}), ('a,,1\n', {}),
    ('a,b,2024-05-31\n', {'header': False}), ('a,b,1\na,b,2\n', {}),
    ('from,to\nann,bob\nfrom,x\n', {}),
    ('x,y,1,2\nu,v,3,4\n', {}), ('ann\n', {}), ('a;b;1\n', {}), ('#a,b,1\nc,d,2\n', {}),
    ('%x,y,1\na,b,1\n# b,c,d\n', {'comments': None}),
    (PLAIN, {'columns': (0, 7)}), (PLAIN, {'columns': ('ann', 'bob')}),
    (PLAIN, {'columns': ('ann', 'bob'), 'header': False}), (PLAIN, {'columns': (0,)}),
    (PLAIN, {'sep': '--'}), (PLAIN, {'unit': 'weeks'}), (PLAIN, {'date_format': '%d'}),
    (PLAIN, {'unit': 's', 'scale': 2}), (PLAIN, {'scale': -1}), (PLAIN, {'missing': 'never'}),
    (PLAIN, {'nodetype': int}), (PLAIN, {'nodetype': float}), (PLAIN, {'comments': ''}),
    (PLAIN, {'format': 'gml'}), ('a,b,soon\n', {'unit': 's', 'header': False}),
    ('a,b\nb,c\n', {'unit': 's', 'header': False}), ('a,b,20240531\n', {'unit': 'D'}),
    ('1,2.0\n2,3.0\n', {'header': False}),
    (support.BANNER + '2 2 1\n1 2 3\n', {'sep': ','}),
    (support.BANNER + '2 3 1\n1 2 3\n', {'bipartite': False}),
    (support.BANNER + '2 3 1\n1 2 3\n', {'directed': False}),
    (support.BANNER + '2 2 2\n1 2 3\n2 1 4\n', {'directed': False}),
    (support.BANNER + '2 2 2\n1 2 3\n1 2 4\n', {}),
    ('%%MatrixMarket matrix coordinate complex general\n1 1 1\n1 1 1 1\n', {}))


class Parameters(support.InSession):
    def test_of_files(self):
        """An error has the names of all parameters that its words speak of."""
        known = {'format', 'directed', 'dup_op', *Layout._fields}
        for text, given in UNREADABLE:
            with self.subTest(text=text, given=given):
                with self.assertRaises((TypeError, ValueError, spmat.SpmatError)) as caught:
                    self.s.read_graph(io.BytesIO(text.encode()), **{
                        'sep': None if text.startswith('%%Matrix') else ',', **given})
                found = errors.parameters_of(caught.exception)
                self.assertTrue(found, caught.exception)
                # without calls that are written out
                words = re.sub(r's\.read_graph\(.*?\)', '', str(caught.exception))
                said = set(re.findall(r'(?<![\w"\'])([a-z_]+)=', words))
                self.assertLessEqual(said & known, set(found), caught.exception)

    def test_kept_in_copies(self):
        fault = errors.about(errors.about(spmat.ReadError('f', 1, 'what?'), 'sep'), 'header', 'sep')
        for other in (fault, pickle.loads(pickle.dumps(fault)), copy.copy(fault)):
            self.assertEqual(other.parameters, ('sep', 'header'))
        self.assertEqual(spmat.ReadError('f', 1, 'what?').parameters, ())


class Shown(unittest.TestCase):
    def test_in_a_traceback(self):
        try:
            raise spmat.ReadError('f', 1, 'what?')
        except spmat.ReadError:
            self.assertIn('spmat.ReadError: f, line 1: what?', traceback.format_exc())

    def test_by_the_name_that_users_import(self):
        for place, names in (('spmat', errors.__all__),
                             ('spmat.algorithms', ('NoPath', 'CycleError')),
                             ('spmat_blocks', ('BlockFailed', 'VersionMismatch'))):
            for name in names:
                kind = getattr(importlib.import_module(place), name, None)
                if isinstance(kind, type):
                    with self.subTest(name=name):
                        self.assertEqual(kind.__module__, place)


class Pickled(unittest.TestCase):
    """Exceptions cross processes, and copies of them say the same."""

    def test_pickled(self):
        for fault in (errors.refusal('V14', [2], 'asm f unary', 'ldx64 r0, r1, 0'),
                      errors.refusal('S8', [8, 3], 'apply B f A'),
                      errors.refusal('J9', command='apply', detail='2x2'),
                      errors.refusal('memory', [7], 'run'), spmat.Closed('it ended'),
                      errors.refusal('S4', command='show B')):
            for other in (pickle.loads(pickle.dumps(fault)), copy.copy(fault)):
                self.assertEqual((type(other), str(other), vars(other)),
                                 (type(fault), str(fault), vars(fault)))
