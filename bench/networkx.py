#!/usr/bin/env python3
"""networkx.py EDGES [--limit SECONDS] [--seconds SECONDS] [--processors] [--figures FILE]
[FUNCTION..]: the clock of networkx' functions with and without the backend, of all that are served,
or of those that are named.

A random graph of EDGES edges between EDGES / 10 nodes with skewed degrees, whole weights from 1 to
9; of functions of directed graphs the same edges, each one way; of those without cycles from the
lower node to the higher. Prints a table in Markdown: networkx, the backend with the conversion
(first) and for a graph that is on the server (again, no answer kept), igraph from its own graph,
where it is installed, and how often networkx' time the second is. The least of several calls
counts. A call is ended after `--limit` seconds (5), and stands as `>5`; after `--seconds` in all
(900) what is left isn't timed. Where both ended the answers are compared, and a difference is
status 1. `--processors` counts what processors spend on client and server together, where the clock
of a busy machine says nothing (Linux alone). With `--figures` the times are also written into that
file's table, in the column of this size; bench/ratios.py makes the table of bench/README.md from
bench/networkx.txt.
"""
import argparse
import contextlib
import glob
import os
import random
import signal
import sys
import time
import warnings

HERE = os.path.dirname(os.path.abspath(__file__))
# or this file were networkx
sys.path[:] = [place for place in sys.path if os.path.abspath(place or '.') != HERE]

import networkx as nx                               # noqa: E402

try:
    import igraph
except ImportError:
    igraph = None

# seconds: what is faster is timed several times, and the least counts
TIMED_AGAIN = 0.2
MOST_TIMES = 5
MISSING = '-'
# nodes up to which answers with a number for each pair are asked for
MOST_PAIRED = 2000
HEAD = '| Seconds |'                                # of the table of figures


class OutOfTime(Exception):
    """A call took longer than its limit."""


def random_edges(edges, seed=1):
    """Pairs of nodes, each once, the lower one first, whose ends are drawn as n * u^2, so that
    degrees are skewed."""
    count, rng, found = max(edges // 10, 10), random.Random(seed), set()
    while len(found) < edges:
        i, j = int(count * rng.random() ** 2), int(count * rng.random() ** 2)
        if i != j:
            found.add((min(i, j), max(i, j)))
    pairs = sorted(found)
    rng.shuffle(pairs)
    return count, pairs


class Graphs:
    """The graphs of a size, each made when it is first asked for."""

    def __init__(self, edges):
        self.count, self.pairs = random_edges(edges)
        self._made = {}

    def graph(self, kind):
        """A 'graph'; its greatest component, 'joined'; a 'digraph' and a 'dag' of its edges."""
        if kind not in self._made and kind == 'joined':
            graph = self.graph('graph')
            most = max(nx.connected_components(graph, backend='networkx'), key=len)
            self._made[kind] = (graph if len(most) == len(graph)
                                else graph.subgraph(sorted(most)).copy())
        if kind not in self._made:
            rng = random.Random(2)
            made = nx.Graph() if kind == 'graph' else nx.DiGraph()
            made.add_nodes_from(range(self.count))
            for i, j in self.pairs:
                turned, weight = kind == 'digraph' and rng.random() < 0.5, rng.randint(1, 9)
                made.add_edge(*((j, i) if turned else (i, j)), weight=weight)
            self._made[kind] = made
        return self._made[kind]

    def igraph(self, kind):
        """The same in igraph."""
        if ('igraph', kind) not in self._made:
            graph = self.graph(kind)
            places = {node: at for at, node in enumerate(graph)}
            edges = [(places[u], places[v]) for u, v in graph.edges()]
            self._made['igraph', kind] = igraph.Graph(len(graph), edges, edge_attrs={
                'weight': [weight for _, _, weight in graph.edges(data='weight')]},
                                                      directed=graph.is_directed())
        return self._made['igraph', kind]


# whose answers have a number for each pair
PAIRED = ('all_pairs_', 'floyd_warshall', 'number_of_walks', 'power', 'transitive_')
DIRECTED = set('''attracting_components in_degree_centrality is_arborescence is_branching
    is_semiconnected is_weakly_connected negative_edge_cycle number_strongly_connected_components
    number_weakly_connected_components out_degree_centrality overall_reciprocity reciprocity
    strongly_connected_components transitive_closure weakly_connected_components'''.split())
ACYCLIC = {'dag_longest_path_length', 'transitive_closure_dag', 'transitive_reduction'}
JOINED = {'average_shortest_path_length', 'center', 'diameter', 'eccentricity', 'periphery',
          'radius', 'wiener_index'}
PEERS = {
    'betweenness_centrality': lambda g, _: g.betweenness(),
    'closeness_centrality': lambda g, _: g.closeness(),
    'clustering': lambda g, _: g.transitivity_local_undirected(mode='zero'),
    'average_clustering': lambda g, _:
    g.transitivity_avglocal_undirected(mode='zero'),
    'transitivity': lambda g, _: g.transitivity_undirected(),
    'connected_components': lambda g, _: g.connected_components().membership,
    'core_number': lambda g, _: g.coreness(),
    'degree_centrality': lambda g, _: g.degree(), 'diameter': lambda g, _: g.diameter(),
    'eccentricity': lambda g, _: g.eccentricity(),
    'harmonic_centrality': lambda g, _: g.harmonic_centrality(),
    'is_connected': lambda g, _: g.is_connected(), 'is_tree': lambda g, _: g.is_tree(),
    'minimum_spanning_tree': lambda g, _: g.spanning_tree(weights='weight'),
    'pagerank': lambda g, _: g.pagerank(),
    'radius': lambda g, _: g.radius(),
    'average_shortest_path_length': lambda g, _: g.average_path_length(),
    'single_source_shortest_path_length': lambda g, middle: g.distances(middle)[0],
    'single_source_dijkstra_path_length': lambda g, middle: g.distances(middle,
                                                                        weights='weight')[0],
}


def arguments(name, middle, far, count):
    """What a function is called with besides the graph."""
    some = list(range(0, count, 7))
    one, two = {'source': middle}, {'source': middle, 'target': far}
    return {
        'ancestors': one, 'bellman_ford_path_length': two, 'bfs_layers': {'sources': [middle]},
        'descendants': one,
        'dijkstra_path_length': two, 'k_core': {'k': 5}, 'k_corona': {'k': 5},
        'k_crust': {'k': 12}, 'k_shell': {'k': 12}, 'k_truss': {'k': 4},
        'maximal_independent_set': {'seed': 1},
        'multi_source_dijkstra_path_length': {'sources': some[:9]}, 'node_connected_component':
        {'n': middle}, 'number_of_walks': {'walk_length': 3}, 'pagerank': {'weight': None},
        'power': {'k': 2},
        'shortest_path_length': one, 'single_source_bellman_ford_path_length': one,
        'single_source_dijkstra_path_length': one, 'single_source_shortest_path_length': one,
        'single_target_shortest_path_length': {'target': middle},
    }.get(name, {})


def functions(graphs):
    """What is timed: each function that is served, with a kind of graph and arguments; some with
    directed graphs, too."""
    from spmat_networkx.backend_info import SERVED
    middle = max(range(3), key=lambda node: sum(node in pair for pair in graphs.pairs[:1000]))
    found = []
    for name in sorted(SERVED):
        kind = ('digraph' if name in DIRECTED else 'dag' if name in ACYCLIC else 'joined'
                if name in JOINED else 'graph')
        given = arguments(name, middle, graphs.count - 1, graphs.count)
        found.append((name, kind, given))
        if name in ('average_clustering', 'pagerank', 'single_source_shortest_path_length',
                    'single_source_bellman_ford_path_length'):
            found.append((name, 'digraph', {**given, 'weight': 'weight'} if name == 'pagerank'
                          else given))
    return found


def whole_answer(answer):
    """An answer with nothing left to compute."""
    return list(answer) if hasattr(answer, '__next__') else answer


class Clock:
    """What is timed by."""
    read = staticmethod(time.perf_counter)

    @staticmethod
    def of_processors():
        """Seconds that processors spent on this process and on the program of its session."""
        from spmat_networkx import process_session
        spent = time.process_time()
        for held in list(process_session._open.values()):
            for place in glob.glob('/proc/%d/task/*/schedstat'
                                   % held.connection._channel.process.pid):
                with contextlib.suppress(OSError), open(place) as file:
                    spent += int(file.read().split()[0]) / 1e9
        return spent


def seconds(work, limit, before=lambda: None):
    """The least seconds of some calls, and the answer; nothing where one takes longer than the
    limit. What is refused is raised."""
    def stop(*_):
        left = limit - (Clock.read() - start)
        if left <= 0:
            raise OutOfTime
        signal.setitimer(signal.ITIMER_REAL, max(left, 0.01))
    best, answer, began, start = None, None, time.perf_counter(), 0
    previous = signal.signal(signal.SIGALRM, stop)
    try:
        for _ in range(MOST_TIMES):
            before()
            signal.setitimer(signal.ITIMER_REAL, limit)
            start = Clock.read()
            answer = whole_answer(work())
            took = Clock.read() - start
            signal.setitimer(signal.ITIMER_REAL, 0)
            best = took if best is None else min(best, took)
            if time.perf_counter() - began > TIMED_AGAIN:
                break
        return best, answer
    except OutOfTime:
        from spmat_networkx import process_session
        process_session.close()                            # whose jobs were cut short
        return None, None
    finally:
        signal.setitimer(signal.ITIMER_REAL, 0)
        signal.signal(signal.SIGALRM, previous)


def told(took, limit):
    return ('>%g' % limit if took is None else '%.1g' % took if took < 0.001 else '%.2g' % took
            if took < 9.5 else '%.0f' % took)


def plain(answer):
    """An answer to be compared."""
    if hasattr(answer, 'adj'):
        return sorted(answer), sorted(map(sorted, answer.edges()))
    if isinstance(answer, list) and answer and isinstance(answer[0], set):
        return sorted(map(sorted, answer))
    return answer


def equal(name, one, other):
    if name == 'maximal_independent_set':
        return True                                 # which one is by chance
    if name == 'betweenness_centrality':
        return all(abs(one[v] - other[v]) < 1e-7 for v in other)
    if name == 'pagerank':
        return sum(abs(one[v] - other[v]) for v in other) < 1e-5 * len(other)
    if name == 'bfs_layers':
        return list(map(sorted, one)) == list(map(sorted, other))
    one, other = plain(one), plain(other)
    if isinstance(other, dict) and other and isinstance(next(iter(other.values())), float):
        return (one.keys() == other.keys()
                and all(abs(one[v] - other[v]) <= 1e-9 * max(1, abs(other[v])) for v in other))
    return (one == other
            or (isinstance(other, float) and abs(one - other) <= 1e-9 * max(1, abs(other))))


class Table:
    """The times of one size."""

    def __init__(self, edges, limit, whole):
        from spmat_networkx.backend import backend
        self.backend, self.limit, self.end = backend, limit, time.perf_counter() + whole
        self.graphs, self.held, self.wrong, self.edges, self.cells = Graphs(
            edges), {}, [], edges, {}

    def on_server(self, kind):
        if kind not in self.held:
            self.held[kind] = self.backend.convert_from_nx(self.graphs.graph(kind),
                                                           preserve_edge_attrs=True,
                                                           preserve_node_attrs=True,
                                                           preserve_graph_attrs=True)
        return self.held[kind]

    def conversion(self):
        """Conversion beside numpy's own reading of the edges."""
        graph, limit = self.graphs.graph('graph'), 60
        print('| conversion of a Graph | s |\n|---|---|')
        try:
            import itertools
            import numpy
            adjacency = graph._adj
            took, _ = seconds(lambda: numpy.fromiter(
                itertools.chain.from_iterable(adjacency.values()), numpy.int64), limit)
            print('| numpy: the ends of the edges, by their adjacency | %s |' % told(took, limit))
            took, _ = seconds(lambda: numpy.array(list(graph.edges())), limit)
            print('| numpy: array(list(G.edges())) | %s |' % told(took, limit))
        except ImportError:
            print('numpy is not there')
        from spmat_networkx.spmat_graph import SpmatGraph
        took, _ = seconds(lambda: SpmatGraph(graph), limit)
        print('| the backend: positions | %s |' % told(took, limit))
        took, _ = seconds(lambda: SpmatGraph(graph).A, limit)
        print('| and the matrix on the server | %s |' % told(took, limit))
        from spmat_networkx.process_session import session
        for weight in (None, 'weight'):
            took, _ = seconds(lambda: session().from_networkx(graph, weight=weight), limit)
            print('| Session.from_networkx, weight=%r | %s |' % (weight, told(took, limit)),
                  flush=True)

    def networkx(self, work):
        """networkx' seconds and answer; MISSING where it wants a newer scipy."""
        try:
            return seconds(work, self.limit)
        except (AttributeError, ImportError):
            return MISSING, None

    def row(self, name, kind, kwargs):
        """The seconds of networkx, of the backend with the conversion and again, and of igraph."""
        function, graph = public(name), self.graphs.graph(kind)
        held, peer = self.on_server(kind), PEERS.get(name) if igraph else None
        first, _ = seconds(lambda: function(graph, backend='spmat', **kwargs), self.limit)
        warm, _ = seconds(lambda: function(held, **kwargs), self.limit)
        again, got = ((None, None) if warm is None
                      else seconds(lambda: function(held, **kwargs), self.limit,
                                   held._answers.clear))
        theirs, wanted = self.networkx(lambda: function(graph, backend='networkx', **kwargs))
        if got is not None and wanted is not None and not equal(name, got, wanted):
            self.wrong.append(name)
        other = MISSING
        if peer:
            made, middle = self.graphs.igraph(kind), kwargs.get('source')
            other = told(seconds(lambda: peer(made, middle), self.limit)[0], self.limit)
        if theirs == MISSING:
            return [MISSING, told(first, self.limit), told(again, self.limit), other, '']
        ratio = ('' if again is None else '%.2g' % (theirs / again) if theirs
                 else '> %.2g' % (self.limit / again))
        return [told(took, self.limit) for took in (theirs, first, again)] + [other, ratio]

    def print(self, names):
        """All rows; `cells` has them by function."""
        if not names:
            self.conversion()
        print('\n| %d edges: function | networkx | spmat, first call | again | igraph | networkx '
              '/ again |' % self.edges)
        print('|---|---|---|---|---|---|')
        for name, kind, kwargs in functions(self.graphs):
            if names and name not in names:
                continue
            label = '`%s`%s' % (name, ', directed' if kind == 'digraph' and name not in DIRECTED
                                else '')
            if self.graphs.count > MOST_PAIRED and name.startswith(PAIRED):
                found = ['an answer for each pair']
            elif time.perf_counter() > self.end:
                found = ['not timed']
            else:
                try:
                    found = self.row(name, kind, kwargs)
                except (NotImplementedError, nx.NetworkXException) as fault:
                    found = ['%s: %.60s' % (type(fault).__name__, fault)]
            print('| %s | %s |' % (label, ' | '.join(found)), flush=True)
            self.cells[label] = ' / '.join(found[:4]) if len(found) > 1 else MISSING
        print('answers that differ: %s' % (self.wrong or 'none'))


def public(name):
    """The function that users call."""
    return next(getattr(place, name) for place in (nx, nx.bipartite, nx.tournament,
                                                   nx.algorithms.dag) if hasattr(place, name))


def put(path, edges, cells):
    """Writes the times of one size into the table of a file whose head has that number of edges."""
    with open(path, encoding='utf-8') as file:
        lines = file.read().split('\n')
    start = next(at for at, line in enumerate(lines) if line.startswith(HEAD))
    end = next(at for at in range(start, len(lines)) if not lines[at].startswith('|'))
    head = [cell.strip() for cell in lines[start].split('|')[1:-1]]
    column = head.index('{:,} edges'.format(edges))
    rows = {row[0]: row for row in ([cell.strip() for cell in line.split('|')[1:-1]]
                                    for line in lines[start + 2:end])}
    for name, cell in cells.items():
        rows.setdefault(name, [name] + [MISSING] * (len(head) - 1))[column] = cell
    lines[start + 2:end] = ['| %s |' % ' | '.join(rows[name]) for name in sorted(rows)]
    with open(path, 'w', encoding='utf-8') as file:
        file.write('\n'.join(lines))


def main():
    warnings.simplefilter('ignore')
    parser = argparse.ArgumentParser(description=__doc__,
                                     formatter_class=argparse.RawDescriptionHelpFormatter)
    parser.add_argument('edges', type=int)
    parser.add_argument('--limit', type=float, default=5.0)
    parser.add_argument('--seconds', type=float, default=900.0)
    parser.add_argument('--processors', action='store_true')
    parser.add_argument('--figures')
    parser.add_argument('names', nargs='*', metavar='FUNCTION')
    given = parser.parse_intermixed_args()
    nx.config.cache_converted_graphs = False
    if given.processors:
        Clock.read = staticmethod(Clock.of_processors)
    table = Table(given.edges, given.limit, given.seconds)
    table.print(set(given.names))
    if given.figures:
        put(given.figures, given.edges, table.cells)
    sys.exit(1 if table.wrong else 0)


if __name__ == '__main__':
    main()
