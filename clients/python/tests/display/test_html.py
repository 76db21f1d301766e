"""What a notebook shows of matrices, operators, budgets and runs."""
import html.parser
import io
import threading
import time
import re
from unittest import mock

import support
import spmat
import spmat_blocks as blocks
from spmat import operators
from spmat import display, submatrices


class Parser(html.parser.HTMLParser):
    """Sees that each tag is closed in turn, and keeps the words and the tags."""

    def __init__(self, text):
        super().__init__()
        self.open, self.tags, self.words = [], [], []
        self.feed(text)
        assert not self.open, self.open

    def handle_starttag(self, tag, attributes):
        self.tags.append(tag)
        self.open.append(tag)

    def handle_endtag(self, tag):
        assert self.open.pop() == tag, tag

    def handle_data(self, data):
        self.words.append(data)


class Html(support.InSession):
    def seen(self, thing):
        parser = Parser(thing._repr_html_())
        return ' '.join(parser.words), parser.tags

    def test_matrices(self):
        G = self.s.from_edgelist([('a<b', 'c', 5), ('c', 'a<b', 7)], directed=True)
        words, tags = self.seen(G)
        self.assertIn('Matrix  2 × 2, 2 entries, directed, named', words)
        self.assertIn('a<b', words)
        self.assertEqual(tags.count('td'), 4)
        wide = self.s.from_coo([0, 99], [5, 299], [-1, 2], 100, 300)
        words, tags = self.seen(wide)
        self.assertIn('100 × 300, 2 entries', words)
        self.assertIn('-1', words)
        self.assertEqual(self.seen(self.s.from_coo([], [], [], 0, 0))[1].count('td'), 0)

    def test_what_waits_is_run(self):
        """It shows its values; at a prompt it says what runs it."""
        A = self.s.full(3, 3, 7)
        before = self.s.runs
        waiting = A.apply('ainv')
        self.assertIn('queued: .wait() runs it', repr(waiting))
        self.assertEqual(self.s.runs, before)
        words, tags = self.seen(waiting)
        self.assertIn('3 × 3, 9 entries', words)
        self.assertEqual((words.split().count('-7'), tags.count('td'), self.s.runs),
                         (9, 9, before + 1))

    def test_size_in_a_notebook(self):
        """A notebook keeps every byte."""
        A = self.s.from_coo([k % 997 for k in range(4000)], [k % 991 for k in range(4000)], 1, 1000,
                            1000, dup_op='plus')
        self.assertLess(len(A._repr_html_()), 10_000)

    def test_masks(self):
        """Are told in a line, as at a prompt: which matrix, where, and whether around it."""
        A = self.s.from_triples([(0, 0, 5), (0, 1, 0), (1, 2, 3)], 2, 3)
        for mask, told in ((A.S, '%r.S'), (~A.S, '~%r.S'), (A.V, '%r.V'), (~A.V, '~%r.V')):
            self.assertFalse(hasattr(mask, '_repr_html_'))
            self.assertEqual(repr(mask), told % A)

    def test_semirings(self):
        words, tags = self.seen(spmat.semiring.min_plus)
        self.assertIn('min_plus', words)
        self.assertIn('add64 r0, r2', words)
        self.assertEqual(tags.count('tr'), 3)
        words, _ = self.seen(spmat.semiring)
        self.assertIn('the shortest path', words)
        for name in operators.USES:
            self.assertEqual(repr(spmat.semiring[name]), '<semiring %s>' % name)
        self.assertIn('plus_times, ', repr(spmat.semiring))

    def test_what_is_offered(self):
        """After `spmat.algorithms.` come the algorithms alone."""
        self.assertEqual(dir(spmat.algorithms), sorted(spmat.algorithms.__all__))
        self.assertIn('pagerank', dir(spmat.algorithms))
        self.assertNotIn('facts', dir(spmat.algorithms))

    def test_large_ones(self):
        """Of many entries the server is asked for the corner: it is the one of few."""
        A = self.s.from_triples([(i, 7 * i % 90, i) for i in range(90)] + [(89, 3, 4)], 90, 90)
        few = self.seen(A)
        with mock.patch.object(display, 'FEW', 10), spmat.Session(steps=0) as poor:
            self.assertEqual(self.seen(A), few)
            words, tags = self.seen(poor.full(9, 9))
            self.assertIn('81 entries', words)
            self.assertIn('S8', words)
            self.assertNotIn('td', tags)

    def test_jobs_of_large_ones(self):
        """One job, and a call for each entry of the corner alone."""
        with spmat.Session() as s, mock.patch.object(display, 'FEW', 10):
            A, before = s.full(30, 40).wait(), s.runs
            A._repr_html_()
            self.assertEqual(s.runs - before, 1)
            spent = s.budget().spent
            self.assertEqual(submatrices.take_cells(A, range(8), range(8)).to_triples(),
                             [(i, j, 1) for i in range(8) for j in range(8)])
            self.assertLessEqual(s.budget().spent - spent, 3 * 64)

    def test_row_blocks(self):
        """Are shown by their sizes: a notebook asks no session."""
        with blocks.Sessions(3) as s:
            G = s.from_edgelist([('a<b', 'c', 5), ('c', 'a<b', 7), ('c', 'd', 9)], directed=True)
            self.assertIsNone(G._repr_html_)
            self.assertIn('3x3, 3 blocks', repr(G))

    def test_lost_ones(self):
        with spmat.Session() as s:
            A = s.full(1, 1)
        self.assertIn('the session has ended', self.seen(A)[0])

    def test_digits_of_decimals(self):
        """Decimals have six digits, and short ones as many as they have."""
        G = self.s.from_edgelist([('a', 'b', 1), ('b', 'c', 1)])
        words, _ = self.seen(spmat.algorithms.pagerank(G))
        found = re.findall(r'0\.\d+', words)
        self.assertEqual(len(found), 3)
        self.assertEqual({len(number) for number in found}, {8})
        words, _ = self.seen(self.s.from_edgelist([('a', 'b', 12.25)], scale=100))
        self.assertIn('12.25', words)

    def test_operators_budgets_and_runs(self):
        op = spmat.asm('unary', 'mov64 r0, r1 ; <x>\nexit')
        self.assertIn('unary operator', self.seen(op)[0])
        self.assertIn('mov64 r0, r1 ; <x>', self.seen(op)[0])
        self.assertIn('mov64 r0, r1',
                      self.seen(spmat.code('unary', 'bf100000000000009500000000000000'))[0])
        words, tags = self.seen(self.s.check(op))
        self.assertIn('accepted', words)
        self.assertEqual(tags.count('tr'), 3)
        words, _ = self.seen(self.s.check(spmat.asm('binary', 'mov64 r0, r7\nexit')))
        self.assertIn('refused', words)
        self.assertIn('r7 is unset', words)
        self.assertIn('without a limit, ', self.seen(self.s.budget())[0])
        with spmat.Session(program=support.program(), steps=10) as s:
            self.assertIn('10 left, ', self.seen(s.budget())[0])
        self.s.run()
        A = self.s.full(2, 2)
        B = A.apply('ainv', name='B')
        A.apply('abs')
        words, tags = self.seen(self.s.run())
        self.assertIn('of 2 jobs', words)
        self.assertIn('2x2, 4 entries', words)
        self.assertEqual((B.nvals, tags.count('tr')), (4, 3))

    @support.needs('matplotlib', 'numpy')
    def test_pictures(self):
        from matplotlib import pyplot
        from spmat import draw
        A = self.s.from_triples([(0, 1, 1), (1, 0, 1)])
        written = io.BytesIO()
        for axes in (draw.spy(A), draw.degree_histogram(A),
                     draw.levels(A, spmat.algorithms.bfs_levels(A, 0))):
            axes.figure.savefig(written)
            self.assertIn(axes.figure.number, pyplot.get_fignums())        # a notebook shows these
        self.assertEqual(written.getvalue()[:8], b'\x89PNG\r\n\x1a\n')
        pyplot.close('all')
