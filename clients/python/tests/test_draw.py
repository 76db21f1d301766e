"""Pictures: that they are written, for graphs small, large and empty, and show what is there.
Skipped without matplotlib."""
import collections
import os
import subprocess
import sys
import tempfile
import unittest
from unittest import mock

import numpy

import graphs
import support
import spmat
from spmat import algorithms, draw
from spmat.algorithms.registry import ALGORITHMS, required


def ink(path, colour):
    """The share of a picture's points that have a colour."""
    from matplotlib import image
    points = image.imread(path)[:, :, :3]
    wanted = [int(colour[at:at + 2], 16) / 255 for at in (1, 3, 5)]
    return (abs(points - wanted).max(axis=2) < .01).mean()


@support.needs('matplotlib')
class Pictures(unittest.TestCase):
    def setUp(self):
        self.session = spmat.Session(program=support.program())
        self.folder = tempfile.TemporaryDirectory(prefix='spmat-pictures-')
        self.path = os.path.join(self.folder.name, 'picture.png')

    def tearDown(self):
        self.session.close()
        self.folder.cleanup()

    def drawn(self, function, *more):
        if os.path.exists(self.path):
            os.remove(self.path)
        function(*more, self.path)
        with open(self.path, 'rb') as file:
            self.assertEqual(file.read(8), b'\x89PNG\r\n\x1a\n')
        return self.path

    def test_every_graph(self):
        for graph in (graphs.UNDIRECTED[0], graphs.UNDIRECTED[1], graphs.UNDIRECTED[5],
                      graphs.DIRECTED[3]):
            G = graph.matrix(self.session)
            self.drawn(draw.spy, G)
            self.drawn(draw.degree_histogram, G)
            found = (algorithms.bfs_levels(G, 0) if graph.count
                     else self.session.from_coo([], [], [], 0, 1))
            self.drawn(draw.levels, G, found)

    def test_values(self):
        """A small graph in the values' colours; of a larger one bars, which count each vertex that
        has a value."""
        small = graphs.UNDIRECTED[4].matrix(self.session)
        self.drawn(draw.values, small, algorithms.degrees(small))
        rows = list(range(1200))
        others = [row + 1 - 2 * (row % 2) for row in rows]
        large = self.session.from_coo(rows, others, 1, 1200, 1200)
        few = self.session.from_coo(rows[:900], [0] * 900, [row % 3 for row in rows[:900]], 1200, 1)
        many = self.session.from_coo(rows, [0] * 1200, [row * row for row in rows], 1200, 1)
        large.nodes = ['v%d' % row for row in rows]
        labels = algorithms.connected_components(large)
        for column, bars, vertices in ((few, 3, 900), (many, draw.MOST_BARS, 1200),
                                       (labels, draw.MOST_BARS, 2 * draw.MOST_BARS)):
            self.drawn(draw.values, large, column)
            ax = draw.values(large, column)
            self.assertEqual((len(ax.patches), sum(bar.get_height() for bar in ax.patches)),
                             (bars, vertices))
        self.assertIn('300 without a value', draw.values(large, few).get_title())
        with self.assertRaises(spmat.DimensionMismatch):
            draw.values(large, self.session.from_coo([0], [0], [1], 7, 1))

    def test_values_of_each_algorithm(self):
        """Each algorithm whose result has one value a vertex says what draws it."""
        G = graphs.UNDIRECTED[4].matrix(self.session)
        dag = self.session.from_coo([0, 1], [1, 2], 1, 3, 3)
        given = {'source': 0, 'sources': [0], 'target': 1, 'k': 2, 'firsts': [0], 'seconds': [1]}
        for name, algorithm in ALGORITHMS.items():
            if algorithm.command and name != 'bipartite_sides':
                graph = dag if name in ('topological_levels', 'longest_paths') else G
                found = getattr(algorithms, name)(graph, **{
                    called: given[called] for called in required(algorithm.function)[1:]})
                for one in found if algorithm.parts else [found]:
                    is_column = isinstance(one, spmat.Matrix) and one.shape == (graph.nrows, 1)
                    with self.subTest(name=name):
                        self.assertEqual(algorithm.plot in ('values', 'levels', 'degree_histogram'),
                                         is_column)
                        if is_column:
                            self.drawn(getattr(draw, algorithm.plot), graph, *(
                                [one] if algorithm.plot != 'degree_histogram' else []))

    def test_route(self):
        """A path's edges have a colour of their own, and longer paths more of it; above 150
        vertices the path alone is drawn."""
        G = graphs.UNDIRECTED[4].matrix(self.session)
        short, long = (ink(self.drawn(draw.route, G, algorithms.shortest_path(G, 0, end)),
                           draw.WARM) for end in (1, 41))
        self.assertGreater(short, 0)
        self.assertGreater(long, 3 * short)
        many = self.session.from_coo(range(199), range(1, 200), range(199), 200, 200)
        for vertices in ([0], [3, 4], range(30)):
            self.drawn(draw.route, many, vertices)
        with self.assertRaisesRegex(ValueError, 'no edge leads from 3 to 5'):
            draw.route(many, [3, 5])
        with self.assertRaisesRegex(ValueError, 'no vertex 200'):
            draw.route(many, [3, 200])
        with self.assertRaisesRegex(ValueError, 'a vertex or more'):
            draw.route(many, [])

    def test_squares(self):
        """Twice the entries have twice the ink."""
        half = self.session.full(40, 40).select('tril', -1)
        whole = half.ewise_add(half.T, 'first')
        less, more = (ink(self.drawn(draw.spy, A), draw.INK) for A in (half, whole))
        self.assertAlmostEqual(more / less, 2, delta=.05)
        self.assertGreater(more, .3)
        self.assertEqual(ink(self.drawn(draw.spy, self.session.from_coo([], [], [], 40, 40)),
                             draw.INK), 0)

    def test_vectors(self):
        """A result of an algorithm is a vector, and is drawn as its column."""
        G = graphs.UNDIRECTED[4].matrix(self.session)
        found = algorithms.core_numbers(G)
        self.assertGreater(ink(self.drawn(draw.spy, found), draw.INK), 0)
        self.drawn(draw.degree_histogram, found)

    def test_raster(self):
        rows, columns = [i * i % 700 for i in range(700)], [i * 37 % 300 for i in range(700)]
        A = self.session.from_coo(rows, columns, 1, 700, 300, dup_op='first')
        want = collections.Counter((i * 8 // 700, j * 5 // 300) for i, j in A.to_dict())
        self.assertEqual(draw.raster(A, 8, 5).to_dict(), want)
        self.assertEqual(draw.raster(A, 7000, 3000).to_dict(), A.apply('one').to_dict())
        self.drawn(draw.spy, A)

    def test_large_graphs(self):
        """A bar for each level."""
        tree = graphs.undirected('tree', 3280, [(i, (i - 1) // 3) for i in range(1, 3280)])
        pairs = [(i, i + 1) for i in range(900) if i % 30 < 29] + [(i, i + 30) for i in range(870)]
        grid = graphs.undirected('grid', 900, pairs)
        for graph in (tree, grid):
            G = graph.matrix(self.session)
            found = algorithms.bfs_levels(G, 0, G)
            at = {i: level for (i, _), level in found.to_dict().items()}
            want = collections.Counter(at.values())
            ax = draw.levels(G, found)
            self.assertEqual({round(bar.get_x() + bar.get_width() / 2): bar.get_height()
                              for bar in ax.patches}, want)
            self.assertEqual(ax.get_title(), '%s vertices, %s entries, %d levels' % (
                format(G.nrows, ','), format(G.nvals, ','), len(want)))
            self.drawn(draw.levels, G, found)
            self.drawn(draw.degree_histogram, G)

    def test_numbers_of_rows(self):
        """The first row has the number that is asked for; nothing else of the picture changes."""
        from matplotlib.axes import Axes
        A, seen = self.session.full(3, 2), []
        real = Axes.imshow

        def look_at(axes, *more, **look):
            seen.append(look['extent'])
            return real(axes, *more, **look)
        with mock.patch.object(Axes, 'imshow', look_at):
            draw.spy(A, self.path)
            draw.spy(A, self.path, first=1)
        self.assertEqual(seen, [(-.5, 1.5, 2.5, -.5), (.5, 2.5, 3.5, .5)])
        self.assertGreater(ink(self.path, draw.INK), .2)

    def texts(self, axes):
        """The words of a picture's texts and ticks, once it is drawn."""
        axes.figure.savefig(self.path)
        ticks = [tick.get_text() for axis in (axes.xaxis, axes.yaxis)
                 for tick in axis.get_ticklabels()]
        return [text.get_text() for text in axes.texts] + ticks + [axes.get_title()]

    def test_names_on_axes(self):
        """`spy` has the names of rows and columns, of a few each, of many at round places."""
        G = self.session.from_edgelist([('Ann', 'Bob', 3),
                                        ('Bob', 'A name of more than twenty-four letters', 2)],
                                       directed=True)
        told = self.texts(draw.spy(G))
        for name in ('Ann', 'Bob', 'A name of more than tw..'):
            self.assertEqual(told.count(name), 2)
        self.assertEqual(told[-1], '3 rows, 3 columns, 2 entries')
        many = self.session.from_edgelist([('n%d' % i, 'n%d' % (i + 1), 1) for i in range(399)],
                                          directed=True)
        told = self.texts(draw.spy(many))
        self.assertIn('n100', told)
        self.assertNotIn('100', told)

    def test_names_of_levels(self):
        """All within their circles where all are short, else all above; edges end at the rim."""
        from matplotlib.patches import FancyArrowPatch
        for names, room, place in ((['a', 'b', 'c'], 8, (0, 0)),
                                   (['Ann', 'Bob', 'Dora'], 4, (0, 5))):
            G = self.session.from_edgelist(list(zip(names, names[1:], [1, 1])), directed=True)
            axes = draw.levels(G, algorithms.bfs_levels(G, names[0]))
            self.assertEqual({text.get_text() for text in axes.texts}, set(names))
            self.assertEqual({tuple(text.xyann) for text in axes.texts if text.xyann != text.xy}
                             or {(0, 0)}, {place})
            self.assertEqual({patch.shrinkA for patch in axes.patches
                              if isinstance(patch, FancyArrowPatch)}, {room})

    def test_graph(self):
        """The graph itself: names, values of few edges, loops told, neighbours near one another."""
        G = self.session.from_edgelist([('Ann', 'Bob', 3), ('Bob', 'Dora', 77),
                                        ('Dora', 'Dora', 5)], directed=True)
        told = self.texts(draw.graph(G))
        self.assertEqual(sorted(told[:5]), ['3', '77', 'Ann', 'Bob', 'Dora'])
        self.assertEqual(told[-1], '3 vertices, 2 edges, 1 loop not shown')
        for graph in (graphs.UNDIRECTED[0], graphs.UNDIRECTED[1], graphs.UNDIRECTED[5],
                      graphs.DIRECTED[3]):
            self.drawn(draw.graph, graph.matrix(self.session))
        sides = [(i, j) for part in (0, 10) for i in range(part, part + 10)
                 for j in range(part, i)] + [(0, 10)]
        G = self.session.from_edgelist(sides, directed=False)
        at, again = (draw.graph(G).collections[-1].get_offsets() for _ in range(2))
        self.assertEqual(at.tolist(), again.tolist())
        self.assertLessEqual(abs(at).max(), 1)
        within, across = (sum(abs(at[i] - at[j]).sum() for i, j in pairs) / len(pairs)
                          for pairs in (sides[:-1],
                                        [(i, j) for i in range(10) for j in range(10, 20)]))
        self.assertLess(2 * within, across)
        many = self.session.from_coo(range(900), [i // 2 for i in range(900)], 1, 900, 900)
        self.assertGreater(ink(self.drawn(draw.graph, many), draw.INK), 0)
        with self.assertRaisesRegex(ValueError,
                                    'up to 1,000 vertices and 5,000 edges, and this has 1,001 '
                                    'and 0'):
            draw.graph(self.session.from_coo([], [], [], 1001, 1001))

    def test_two_kinds(self):
        """Rows and columns of two kinds are two columns of vertices, each with its name; the other
        pictures refuse them with the algorithms' sentence."""
        B = self.session.from_edgelist([('u%d' % (i % 3), 'i%d' % (i * 2 % 3), 5 + i)
                                        for i in range(5)], bipartite=True, dup_op='plus')
        self.assertEqual(B.nrows, B.ncols)
        told = self.texts(draw.graph(B))
        for name in ('u0', 'u1', 'u2', 'i0', 'i1', 'i2'):
            self.assertEqual(told.count(name), 1)
        self.assertEqual(told[-1], '3 rows, 3 columns, 3 edges')
        self.assertEqual(self.texts(draw.graph(self.session.full(2, 4)))[-1],
                         '2 rows, 4 columns, 8 edges')
        for draws in (lambda: draw.levels(B, B.reduce_rowwise('plus')),
                      lambda: draw.route(B, ['u0', 'i0'])):
            with self.assertRaisesRegex(ValueError, 'two kinds: spmat.bipartite'):
                draws()
        with self.assertRaisesRegex(ValueError, 'color, size, labels and pos are of graphs with '
                                    'one kind'):
            draw.graph(B, color='red')
        with self.assertRaisesRegex(ValueError, 'up to 150 vertices and 700 edges'):
            draw.graph(self.session.full(2, 200))

    def test_largest_names(self):
        """Above 60 vertices the five largest have their names: by their edges, or by size."""
        star = [('hub%d' % (i % 5), 'leaf%d' % i) for i in range(80)]
        G = self.session.from_edgelist(star, directed=False)
        named = [text for text in self.texts(draw.graph(G)) if text.startswith(('hub', 'leaf'))]
        self.assertEqual(sorted(named), ['hub%d' % i for i in range(5)])
        sizes = {name: int(name.startswith('leaf7')) for name in G.nodes}
        named = [text for text in self.texts(draw.graph(G, size=sizes))
                 if text.startswith(('hub', 'leaf'))]
        self.assertEqual(len(named), 5)
        self.assertTrue(all(name.startswith('leaf7') for name in named))

    def test_one_size(self):
        from matplotlib import image
        G = graphs.UNDIRECTED[4].matrix(self.session)
        shapes = {image.imread(self.drawn(*drawn)).shape[:2] for drawn in (
            (draw.spy, G), (draw.graph, G), (draw.degree_histogram, G),
            (draw.levels, G, algorithms.bfs_levels(G, 0)))}
        self.assertEqual(shapes, {(720, 1080)})

    def test_whole_numbers_on_a_bar(self):
        """A colour bar of whole numbers has whole numbers."""
        G = self.session.from_edgelist([(i, i + 1) for i in range(30)], directed=False)
        ax = draw.graph(G, color=algorithms.bfs_levels(G, 0))
        bar = next(one for one in ax.figure.axes if one is not ax)
        self.assertTrue(all(float(at).is_integer() for at in bar.get_yticks()))

    def test_round_numbers(self):
        """Of many degrees the axes have 1, 2 and 5 times the powers of ten, in digits."""
        star = self.session.from_coo([0] * 1200, range(1200), 1, 1200, 1200)
        told = self.texts(draw.degree_histogram(star.ewise_add(self.session.from_coo(
            range(1, 61), range(1, 61), 1, 1200, 1200), 'first')))
        for word in ('1', '10', '100', '1,000'):
            self.assertIn(word, told)
        self.assertTrue(any(text == 'mean 1.1' for text in told))

    def test_check(self):
        draw.check(self.path)
        draw.check('picture')                          # matplotlib's own ending is added
        for kind, path, words in ((ValueError, 'picture.of-no-kind', 'a picture ends in .png'),
                                  (FileNotFoundError,
                                   os.path.join(self.folder.name, 'none', 'a.png'),
                                   'no such folder')):
            self.assertIn(words, support.said(kind, draw.check, path))

    def test_formats_and_bad_input(self):
        G = graphs.UNDIRECTED[2].matrix(self.session)
        for ending in ('svg', 'pdf'):
            path = os.path.join(self.folder.name, 'picture.' + ending)
            draw.spy(G, path)
            self.assertGreater(os.path.getsize(path), 1000)
        with self.assertRaises(ValueError):
            draw.levels(G, G, self.path)
        with self.assertRaises(ValueError):
            draw.spy(G, os.path.join(self.folder.name, 'picture.of-no-kind'))

    def test_axes_of_the_caller(self):
        """Each function draws on the axes that it gets, and returns them."""
        from matplotlib.figure import Figure
        G = graphs.UNDIRECTED[4].matrix(self.session)
        calls = ((draw.spy,), (draw.degree_histogram,), (draw.graph,),
                 (draw.levels, algorithms.bfs_levels(G, 0)),
                 (draw.route, algorithms.shortest_path(G, 0, 5)))
        for function, *more in calls:
            with self.subTest(function=function.__name__):
                left, right = Figure().subplots(1, 2)
                self.assertIs(function(G, *more, ax=right), right)
                self.assertTrue(right.has_data())
                self.assertFalse(left.has_data())
                # a path gets the figure of the axes
                function(G, *more, self.path, ax=left)
                self.assertTrue(left.has_data())
                self.assertGreater(os.path.getsize(self.path), 0)

    def test_pyplot_shows_it(self):
        """`plt.savefig` writes what was drawn last; a figure of the caller that is empty is drawn
        on."""
        import matplotlib
        matplotlib.use('Agg')
        from matplotlib import pyplot
        G = graphs.UNDIRECTED[3].matrix(self.session)
        self.addCleanup(pyplot.close, 'all')
        for start in (lambda: None, lambda: pyplot.figure(figsize=(3, 3))):
            figure = start()
            axes = draw.spy(G)
            self.assertIs(axes, pyplot.gca())
            if figure is not None:
                self.assertIs(axes.figure, figure)
            pyplot.savefig(self.path)
            self.assertGreater(ink(self.path, draw.INK), 0)
            pyplot.close('all')
        # nothing is drawn over a picture
        first, second = draw.spy(G), draw.degree_histogram(G)
        self.assertIsNot(first.figure, second.figure)

    def test_pyplot_is_left_alone(self):
        from matplotlib import pyplot
        before = pyplot.get_fignums()
        self.drawn(draw.spy, graphs.UNDIRECTED[3].matrix(self.session))
        self.assertEqual(pyplot.get_fignums(), before)


@support.needs('matplotlib', 'networkx')
class Looks(support.InSession):
    """Colours, sizes and texts of vertices."""

    def setUp(self):
        from matplotlib.figure import Figure
        self.ax = Figure().add_subplot()
        self.G = self.s.from_edgelist([('Ann', 'Bob'), ('Bob', 'Cid'), ('Cid', 'Ann'),
                                       ('Cid', 'Dora')], directed=False)

    def dots(self):
        """The vertices as they are drawn: colours and areas."""
        from matplotlib.collections import PathCollection
        (found,) = [part for part in self.ax.collections if isinstance(part, PathCollection)]
        return found.get_facecolors().tolist(), found.get_sizes().tolist()

    def legend(self):
        """The words of the legend, and the colours beside them."""
        from matplotlib.colors import to_rgba
        found = self.ax.get_legend()
        return {text.get_text(): list(to_rgba(line.get_color()))
                for text, line in zip(found.get_texts(), found.get_lines())}

    def test_few_numbers_have_a_legend(self):
        draw.graph(self.G, color=algorithms.core_numbers(self.G), ax=self.ax)
        self.assertEqual(list(self.legend()), ['1', '2'])
        self.assertEqual(self.dots()[0], [self.legend()[core] for core in ('2', '2', '2', '1')])

    def test_fractions_have_a_colour_bar(self):
        found = algorithms.pagerank(self.G)
        draw.graph(self.G, color=found, ax=self.ax)
        self.assertIsNone(self.ax.get_legend())
        (bar,) = [axes for axes in self.ax.figure.axes if axes is not self.ax]
        low, high = bar.get_ylim()
        self.assertAlmostEqual(low, min(found.by_node().values()))
        self.assertAlmostEqual(high, max(found.by_node().values()))

    def test_communities_have_hues(self):
        G = self.s.from_edgelist([(i, j) for part in (0, 5) for i in range(part, part + 5)
                                  for j in range(part, i)] + [(0, 5)], directed=False)
        draw.graph(G, color=algorithms.louvain(G), ax=self.ax)
        self.assertEqual(list(self.legend()), ['0 (5)', '5 (5)'])
        self.assertEqual(self.ax.get_legend().get_title().get_text(), 'community (vertices)')
        colours, _ = self.dots()
        self.assertEqual(colours, [self.legend()[word] for word in ['0 (5)'] * 5 + ['5 (5)'] * 5])

    def test_many_groups_share_a_grey(self):
        G = self.s.from_coo(range(29), range(1, 30), 1, 30, 30)
        draw.graph(G, color=['group %d' % (i // 2) for i in range(30)], ax=self.ax)
        self.assertEqual(len(self.legend()), 10)
        self.assertEqual(list(self.legend())[-1], '6 others')

    def test_vertices_without_a_value(self):
        from matplotlib.colors import to_rgba
        draw.graph(self.G, color={'Ann': 3}, ax=self.ax)
        self.assertEqual(list(self.legend()), ['3', 'no value'])
        self.assertEqual(self.dots()[0][1:], [list(to_rgba(draw.PALE))] * 3)

    def test_one_colour_and_one_size(self):
        from matplotlib.colors import to_rgba
        draw.graph(self.G, color='red', size=90, ax=self.ax)
        self.assertEqual(self.dots(), ([list(to_rgba('red'))] * 4, [90] * 4))
        self.assertIsNone(self.ax.get_legend())

    def test_sizes_grow_with_values(self):
        draw.graph(self.G, size={'Ann': 0, 'Bob': 1, 'Cid': 2}, ax=self.ax)
        sizes = self.dots()[1]
        self.assertEqual((sizes[0], sizes[3]), (draw.LEAST_AREA, draw.LEAST_AREA))
        self.assertAlmostEqual(sizes[1] - sizes[0], sizes[2] - sizes[1])
        self.assertEqual(sizes[2], draw.MOST_AREA)

    def test_texts(self):
        for labels, want in ((None, {'Ann', 'Bob', 'Cid', 'Dora'}), (False, set()),
                             ({'Bob': 'B'}, {'B'}),
                             (numpy.arange(4) * 10, {'0', '10', '20', '30'})):
            self.ax.clear()
            draw.graph(self.G, labels=labels, ax=self.ax)
            self.assertEqual({text.get_text() for text in self.ax.texts}, want)

    def test_positions(self):
        where = {'Ann': (0, 0), 'Bob': (1, 0), 'Cid': (0, 1), 'Dora': (5, 5)}
        draw.graph(self.G, pos=where, ax=self.ax)
        from matplotlib.collections import PathCollection
        (found,) = [part for part in self.ax.collections if isinstance(part, PathCollection)]
        self.assertEqual(found.get_offsets().tolist(),
                         [list(map(float, where[name])) for name in self.G.nodes])

    def test_a_series(self):
        pandas = support.has('pandas') and __import__('pandas')
        if not pandas:
            self.skipTest('no module pandas')
        draw.graph(self.G, color=pandas.Series({'Ann': 'x', 'Bob': 'x', 'Cid': 'y', 'Dora': 'y'}),
                   ax=self.ax)
        self.assertEqual(list(self.legend()), ['x (2)', 'y (2)'])

    def test_what_is_refused(self):
        for given, kind, words in (({'color': [1, 2]}, spmat.DimensionMismatch,
                                    'color: expected 4 values, one for each vertex, got 2'),
                                   ({'size': self.s.full(3, 1)}, spmat.DimensionMismatch,
                                    'expected a column of 4 rows'),
                                   ({'size': [1, -1, 1, 1]}, ValueError,
                                    'size: expected numbers of 0 or more, got -1'),
                                   ({'color': {'Eve': 1}}, ValueError, 'Eve'),
                                   ({'labels': 3}, TypeError, 'labels: expected a column'),
                                   ({'pos': {'Ann': (0, 0)}}, ValueError,
                                    "pos: expected a position of each vertex, and 'Bob' has none")):
            with self.subTest(given=given):
                with self.assertRaisesRegex(kind, words) as said:
                    draw.graph(self.G, ax=self.ax, **given)
                self.assertNotIn('does not know', str(said.exception))


class Names(unittest.TestCase):
    def test_its_functions_alone(self):
        self.assertEqual(dir(draw), ['check', 'degree_histogram', 'graph', 'levels', 'raster',
                                     'route', 'spy', 'values'])

    def test_matplotlib_waits(self):
        """The module is there without matplotlib, and doesn't import it."""
        code = ('import sys, spmat; spmat.draw.spy; print("matplotlib" in sys.modules, "networkx" '
                'in sys.modules)')
        self.assertEqual(subprocess.run([sys.executable, '-c', code], stdout=subprocess.PIPE,
                                        text=True, check=True).stdout, 'False False\n')


class WithoutMatplotlib(unittest.TestCase):
    def test_what_is_said(self):
        with mock.patch.dict(sys.modules, {'matplotlib': None, 'matplotlib.figure': None}):
            with self.assertRaises(ImportError) as said:
                draw.check('picture.png')
        self.assertIn('a picture needs matplotlib (extra pictures): pip install matplotlib',
                      str(said.exception))

    def test_the_rest_works(self):
        """Nothing but the picture wants it: the module is there without it."""
        with spmat.Session(program=support.program()) as session:
            self.assertEqual(session.full(2, 2).nvals, 4)
        self.assertTrue(callable(draw.spy))
