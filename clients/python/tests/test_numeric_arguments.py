"""Numbers that don't fit, in each place of a public call that takes a number: what is refused is
refused by this package, in words on what came. Signatures say which places there are."""
import inspect
import itertools
import linecache
import os
import re
import warnings
from decimal import Decimal
from fractions import Fraction

import numpy

import spmat
import support
import spmat_blocks as blocks
from spmat import algorithms, draw

HERE = tuple(os.path.dirname(package.__file__) for package in (spmat, blocks))
VAST = 10 ** 400                                   # beyond floats
LONG = 10 ** 5000                                  # beyond what Python writes as text
NUMBERS = (VAST, -VAST, LONG, 2 ** 63, -2 ** 63 - 1, 2 ** 31, -1, 0, float('nan'), float('inf'),
           -float('inf'), 1.5, 1e300, Decimal('NaN'), Decimal('1e400'), Decimal('Infinity'),
           Decimal('1.5'), Fraction(1, 3), Fraction(VAST), Fraction(VAST, 3), numpy.int64(-5),
           numpy.uint64(2 ** 64 - 1), numpy.float32('nan'), numpy.float64('inf'),
           numpy.float64(1.5), 1j)
NUMERIC = re.compile(r'(Optional\[)?(int|float|Number)\]?')
# that take numbers too, though their types don't say so
BESIDE = {'left_default', 'right_default', 'missing', 'missing_value', 'fill', 'fill_value',
          'default', 'unit', 'seed', 'source', 'sources', 'target', 'firsts', 'seconds', 'labels',
          'row', 'column', 'values'}
# Numbers of rounds are no bounds of anything, and powers take as many products as bits.
WORK = {'power': 99, 'advance': 99}
# what isn't called with numbers: it reads files or tables, which have tests of their own, or ends
# the session
LEFT_OUT = {'mmread', 'read_graph', 'read_edgelist', 'from_pandas_edgelist', 'from_networkx',
            'from_igraph', 'limit',
            'from_scipy_sparse', 'load', 'save', 'close', 'connect', 'to_parquet', 'to_csv',
            'write_edgelist', 'mmwrite', 'to_pandas', 'to_pandas_edgelist', 'from_text', 'rounds'}


def is_bare(fault):
    """Whether an error comes from elsewhere than a `raise` of this package."""
    last = fault.__traceback__
    while last.tb_next is not None:
        last = last.tb_next
    path = last.tb_frame.f_code.co_filename
    return (not path.startswith(HERE) or 'Exceeds the limit' in str(fault)
            or not linecache.getline(path, last.tb_lineno).strip().startswith('raise'))


class EachNumber(support.InSession):
    def setUp(self):
        self.named = self.s.from_edgelist([('a', 'b', 2), ('b', 'c', 3), ('c', 'a', 4)])
        self.A = A = self.s.from_coo([0, 1, 2], [1, 2, 0], [1, 2, 3], 3, 3)
        self.v = v = self.s.from_coo([0, 1, 2], [0, 0, 0], [1, 2, 3], 3, 1)
        # what else a call takes, by the name of the parameter
        self.filled = {
            'G': self.named, 'W': self.named, 'A': A, 'B': A, 'matrix': A, 'other': A, 'vector': v,
            'op': 'plus', 'nrows': 3, 'ncols': 3, 'n': 3, 'k': 1, 'source': 'a', 'target': 'b',
            'sources': ['a'], 'firsts': ['a'], 'seconds': ['b'], 'labels': v, 'node': 0,
            'rows': [0, 1], 'columns': [1, 0], 'indptr': [0, 1, 2], 'nested': {0: {1: 1}},
            'triples': [(0, 1, 2)], 'edges': [('a', 'b', 1)], 'step': lambda m: m, 'value': 1,
            'until': spmat.empty('x'), 'left_default': 0, 'right_default': 0, 'unit': 1, 'what': 1,
            'indices': [0, 1], 'mask': A.S, 'row_sizes': [1, 2], 'row': 0, 'column': 0}

    def try_each(self, label, call, numbers=NUMBERS):
        """A call with each number: it is done, or refused in words."""
        for number in numbers:
            with self.subTest(call=label, number=type(number).__name__), warnings.catch_warnings():
                warnings.simplefilter('ignore')
                try:
                    call(number)
                except Exception as fault:
                    self.assertFalse(is_bare(fault), '%s: %r' % (type(fault).__name__, fault))

    def sweep(self, label, function, **more):
        """A function with each number in each of its places that take one; how many these are."""
        parameters = [one for one in inspect.signature(function).parameters.values()
                      if one.name != 'self' and one.kind not in (one.VAR_KEYWORD,
                                                                 one.VAR_POSITIONAL)]
        places = [one.name for one in parameters
                  if NUMERIC.fullmatch(str(one.annotation)) or one.name in BESIDE]
        given = {one.name: {**self.filled, **more}[one.name] for one in parameters
                 if one.default is one.empty and places}
        most = WORK.get(function.__name__, VAST * LONG)
        for place in places:
            self.try_each('%s(%s=)' % (label, place),
                          lambda number: function(**{**given, place: number}),
                          [one for one in NUMBERS if not isinstance(one, int) or one <= most])
        return len(places)

    def test_methods(self):
        found = 0
        for thing in (self.A, self.v, self.s):
            for name in dir(type(thing)):
                method = getattr(type(thing), name)
                if not name.startswith('_') and callable(method) and name not in LEFT_OUT:
                    more = {'rows': [[1, 2], [3, 4]]} if name == 'from_dense' else (
                        {'op': 'valuege'} if name == 'select' else {})
                    found += self.sweep(name, getattr(thing, name), **more)
        self.assertGreater(found, 70)

    def test_functions(self):
        found = sum(self.sweep(name, getattr(algorithms, name)) for name in algorithms.__all__
                    if inspect.isfunction(getattr(algorithms, name)))
        self.assertGreater(found, 50)
        self.sweep('fixpoint', spmat.fixpoint)

    @support.needs('matplotlib')
    def test_pictures(self):
        self.assertEqual([self.sweep(name, getattr(draw, name)) for name in ('raster', 'spy')],
                         [2, 2])

    def test_loops(self):
        with spmat.Session(steps=3000) as s:
            x = s.from_coo([0, 1], [0, 0], [1, 2], 2, 1)
            loop = spmat.loop(lambda state: {'x': state.x.apply('abs')}, {'x': x})
            self.assertEqual([self.sweep(name, getattr(loop, name)) for name in ('run', 'advance')],
                             [1, 1])

    def test_sessions(self):
        def opened(kind):
            return lambda **settings: kind(**settings).close()
        for kind, name in itertools.product((spmat.Session, blocks.Sessions), ('steps', 'workers')):
            self.try_each('%s(%s=)' % (kind.__name__, name),
                          lambda number: opened(kind)(**{name: number}))
        for name in ('engine', 'blocks'):
            self.try_each('Sessions(%s=)' % name,
                          lambda number: opened(blocks.Sessions)(**{name: number}))
        for name in ('port', 'timeout', 'run_timeout'):
            self.try_each('connect(%s=)' % name,
                          lambda number: spmat.Session.connect(**{'port': 1, name: number}))
        with self.assertRaisesRegex(ValueError, 'timeout is a number of seconds .* not -1'):
            spmat.Session.connect(port=1, timeout=-1)

    def test_operators_and_indices(self):
        calls = {
            '>': lambda A, x: A > x, '==': lambda A, x: A == x, '+': lambda A, x: A + x,
            'i': lambda A, x: A[x], 'ij': lambda A, x: A[x, 0], 'row': lambda A, x: A[x, :],
            'from': lambda A, x: A[x:, :], 'to': lambda A, x: A[:x, :],
            'step': lambda A, x: A[::x, :], 'list': lambda A, x: A[[x], :],
            'split': lambda A, x: A.split([1, x]), 'assign': lambda A, x: A.assign(1, [x]),
            'set': lambda A, x: A.__setitem__((0, 0), x),
            'unit': lambda A, x: setattr(A.dup(), 'unit', x),
            **{op: lambda A, x, op=op: A.apply(op, right=x) for op in
               ('plus', 'times', 'cdiv', 'lsh', 'rowindex')},
            **{op + ' of decimals': lambda A, x, op=op: A.rescale(100).apply(op, right=x)
               for op in ('plus', 'times', 'cdiv', 'rdiv')},
            'select': lambda A, x: A.rescale(100).select('>', x),
            'tril': lambda A, x: A.select('tril', x)}
        for (name, call), A in itertools.product(calls.items(), (self.A, self.named, self.v)):
            self.try_each(name, lambda number: call(A, number))
        for scale in (None, 100):
            self.try_each('a value', lambda number: self.s.from_coo([0, 1], [0, 1], [1, number],
                                                                    scale=scale))
        self.try_each('an edge', lambda number: self.s.from_edgelist([('a', 'b', number)]))
        self.try_each('a constant', lambda number: self.A.apply(lambda x: x + number))

    def test_words(self):
        for call, words in (
                (lambda: self.A.apply('times', right=VAST),
                 r'right= of "times" is a whole number of 64 bits, not 1000\d*\.\. \(401 char'),
                (lambda: self.A.rescale(100).apply('times', right=VAST), 'right= of "times" is a'),
                (lambda: self.A.select('tril', LONG), 'not a number of more than 4300 digits'),
                (lambda: algorithms.pagerank(self.named, damping=float('nan')),
                 'damping= of pagerank is a finite number, not nan'),
                (lambda: self.A.index(0, axis=2), 'axis is 0 for a row or 1 for a column, not 2'),
                (lambda: self.s.from_coo([0], [0], [1], scale=float('nan')),
                 'a scale is a number above 0, such as 1000 for thousandths, not nan'),
                (lambda: spmat.Session(workers=99), 'workers are 1 to 64, not 99')):
            with self.assertRaisesRegex(ValueError, words):
                call()
        # decimals and fractions are numbers
        self.assertEqual(algorithms.pagerank(self.named, damping=Decimal('0.5')).to_list(),
                         algorithms.pagerank(self.named, damping=.5).to_list())
