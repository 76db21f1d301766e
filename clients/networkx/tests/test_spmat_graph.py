"""Graphs of networkx on the server: what is converted and kept, how it comes back, and graphs that
change after spmat has read them: through a view, or by the dict of an edge, of which networkx
notices nothing."""
import copy
import pickle
from unittest import mock

import networkx as nx
import pytest

from networkx_case import NetworkxCase
from spmat_networkx import graph
from spmat_networkx.backend import convert_to_nx
from spmat_networkx.spmat_graph import SpmatGraph

pytestmark = pytest.mark.slow


def labelled(kind):
    """A graph with labels, loops, attributes of all three kinds, and parallel edges where it may
    have them."""
    made = kind(name='all')
    made.add_node('alone', size=3)
    made.add_node('a', size=1)
    made.add_edge('a', 'b', weight=2, colour='red')
    made.add_edge('b', ('c', 1), weight=5)
    made.add_edge('b', 'b', length=7)
    made.add_edge('b', 'a', weight=1)
    made.add_edge(('c', 1), 'a')
    return made


class Conversion(NetworkxCase):
    def test_back_again(self):
        """A graph that was converted comes back with its kind, order, labels, loops, parallel edges
        and attributes."""
        for kind in (nx.Graph, nx.DiGraph, nx.MultiGraph, nx.MultiDiGraph):
            with self.subTest(kind=kind.__name__):
                made = labelled(kind)
                back = convert_to_nx(graph(made))
                self.assertIs(type(back), kind)
                self.assertEqual(list(back.nodes(data=True)), list(made.nodes(data=True)))
                self.assertEqual({u: dict(near) for u, near in back.adj.items()},
                                 {u: dict(near) for u, near in made.adj.items()})
                self.assertEqual(list(back.edges), list(made.copy().edges))
                self.assertEqual(back.graph, made.graph)
                back.add_edge('a', 'b', weight=100)
                self.assertNotEqual(back.number_of_edges() and back['a']['b'], made['a']['b'])

    def test_what_networkx_asks(self):
        for kind in (nx.Graph, nx.DiGraph, nx.MultiGraph, nx.MultiDiGraph):
            made = labelled(kind)
            held = graph(made)
            self.assertEqual((len(held), list(held), held.number_of_edges(), held.order()),
                             (len(made), list(made), made.number_of_edges(), made.order()))
            self.assertEqual((held.is_directed(), held.is_multigraph()),
                             (made.is_directed(), made.is_multigraph()))
            self.assertIn('a', held)
            self.assertNotIn([], held)
            self.assertEqual(list(held.nbunch_iter(['b', 'a', 'none'])), ['b', 'a'])

    def test_views(self):
        """A view of a multigraph says that nodes have more neighbours than it gives."""
        made = nx.MultiGraph([(0, 1), (0, 1), (0, 2), (1, 2), (2, 3), (0, 0)])
        view = nx.subgraph_view(made, filter_edge=lambda u, v, key: key == 0
                                      and {u, v} != {0, 2})
        held = graph(view)
        self.assertEqual(held.matrix().to_triples(), [(0, 0, 1), (0, 1, 1), (1, 0, 1), (1, 2, 1),
                                                      (2, 1, 1), (2, 3, 1), (3, 2, 1)])
        self.assertEqual(held.number_of_edges(), view.number_of_edges())
        self.assertEqual(list(nx.connected_components(held)),
                         list(nx.connected_components(view)))

    def test_plain_numbers(self):
        """No answer holds a number of numpy, which networkx' own tests refuse."""
        made, found = nx.gnm_random_graph(40, 90, seed=1), []
        nx.set_edge_attributes(made, 2, 'weight')
        for name in ('triangles', 'clustering', 'core_number', 'closeness_centrality',
                     'degree_centrality', 'pagerank', 'floyd_warshall', 'generalized_degree',
                     'harmonic_centrality', 'average_neighbor_degree'):
            answer = getattr(nx, name)(made, backend='spmat')
            while isinstance(answer, dict):
                self.assertLessEqual(set(map(type, answer)), {int})
                answer = next(iter(answer.values()))
            found.append(type(answer))
        self.assertLessEqual(set(found), {int, float})

    def test_matrix(self):
        """The matrices of a graph, for operators of one's own."""
        made = nx.MultiDiGraph([(0, 1, {'w': 4}), (0, 1, {'w': 3}), (1, 2, {'w': 9})])
        held = graph(made)
        self.assertEqual(held.matrix().to_triples(), [(0, 1, 1), (1, 2, 1)])
        self.assertEqual(held.matrix('w').to_triples(), [(0, 1, 3), (1, 2, 9)])
        self.assertEqual(held.matrix('w', fold='plus').to_triples(), [(0, 1, 7), (1, 2, 9)])
        self.assertEqual(held.matrix('w', fold='max', back=True).to_triples(),
                         [(1, 0, 4), (2, 1, 9)])
        self.assertEqual(held.many().to_triples(), [(0, 1, 2), (1, 2, 1)])
        self.assertIs(held.matrix(), held.matrix())

    def test_graphs_come_back_with_attributes(self):
        """Functions that give a part of the graph keep what it holds."""
        made = nx.relabel_nodes(nx.complete_graph(4), 'abcd'.__getitem__)
        made.graph['name'] = 'four'
        made.add_edge('a', 'tail', weight=3)
        nx.set_node_attributes(made, 5, 'size')
        for function, args in ((nx.k_core, (2,)), (nx.k_truss, (3,)),
                               (nx.k_shell, (1,)),
                               (nx.transitive_closure, ()),
                               (nx.minimum_spanning_tree, ()),
                               (nx.maximum_spanning_tree, ())):
            got, want = (function(made, *args, backend=which) for which in ('spmat', 'networkx'))
            self.assertEqual((type(got), got.graph, got._node, got._adj),
                             (type(want), want.graph, want._node, want._adj))

    def test_a_graph_of_one_node(self):
        """Its matrices have one column, as vectors have."""
        for kind, function, args in ((nx.Graph, nx.k_truss, (3,)),
                                     (nx.Graph, nx.minimum_spanning_tree, ()),
                                     (nx.Graph, nx.power, (2,)),
                                     (nx.DiGraph, nx.transitive_closure, ()),
                                     (nx.DiGraph, nx.transitive_reduction, ())):
            one = kind()
            one.add_node('a')
            with self.subTest(function=function.__name__):
                got, want = (function(one, *args, backend=which) for which in ('spmat', 'networkx'))
                self.assertEqual(got._adj, want._adj)
        one = nx.Graph()
        one.add_node('a')
        self.assertEqual(dict(nx.all_pairs_shortest_path_length(one, backend='spmat')),
                         {'a': {'a': 0}})
        self.assertEqual(nx.floyd_warshall(one, backend='spmat'), {'a': {'a': 0}})

    def test_spanning_edges(self):
        """Of edges of one weight those that Kruskal's algorithm takes, in its order, with the
        graph's own attributes."""
        made = nx.relabel_nodes(nx.gnm_random_graph(40, 200, seed=3),
                                      lambda node: 'v%d' % (node * 7 % 40))
        made.add_edge('v1', 'v1', weight=-9)
        for at, (u, v) in enumerate(made.edges()):
            if at % 5:
                made[u][v]['weight'] = at * 11 % 4 - 1
        for function in (nx.minimum_spanning_edges, nx.maximum_spanning_edges):
            got, want = (list(function(made, backend=which)) for which in ('spmat', 'networkx'))
            self.assertEqual(got, want)
            self.assertTrue(all(one[2] is other[2] for one, other in zip(got, want)))
            got, want = (list(function(made, data=False, weight=None, backend=which))
                         for which in ('spmat', 'networkx'))
            self.assertEqual(got, want)
        with self.assertRaises(NotImplementedError):
            nx.minimum_spanning_edges(made, algorithm='prim', backend='spmat')

    def test_betweenness(self):
        """As near as networkx' tests want it, or left to nx."""
        for made in (nx.gnm_random_graph(40, 100, seed=2),
                     nx.gnm_random_graph(40, 140, seed=2, directed=True)):
            for normalized in (True, False):
                got, want = (nx.betweenness_centrality(made, normalized=normalized,
                                                             backend=which)
                             for which in ('spmat', 'networkx'))
                self.assertEqual(list(got), list(want))
                self.assertLess(max(abs(got[node] - want[node]) for node in want), 1e-7)
        many = nx.path_graph(100)
        for args in ({'normalized': False}, {'k': 3, 'seed': 1}, {'endpoints': True}):
            with self.assertRaises(NotImplementedError):
                nx.betweenness_centrality(many, backend='spmat', **args)

    def test_betweenness_by_weights(self):
        for kind in (nx.Graph, nx.DiGraph, nx.MultiDiGraph):
            made = kind(nx.gnm_random_graph(40, 120, seed=3,
                                                  directed=kind is not nx.Graph))
            for number, (_, _, data) in enumerate(made.edges(data=True)):
                if number % 7:                             # where there is none it is 1
                    data['far'] = (number * 5 % 4 + 1) * (1 if number % 2 else 1.0)
            if made.is_multigraph():
                made.add_edges_from([(u, v, {'far': 2}) for u, v in list(made.edges())[:40]])
            for normalized in (True, False):
                got, want = (nx.betweenness_centrality(made, normalized=normalized,
                                                             weight='far', backend=which)
                             for which in ('spmat', 'networkx'))
                self.assertEqual(list(got), list(want))
                self.assertLess(max(abs(got[node] - want[node]) for node in want), 1e-7)
        for length in (0, -1, 1 / 3):
            with self.assertRaises(NotImplementedError):
                nx.betweenness_centrality(nx.Graph([(0, 1),
                                                                (1, 2, {'weight': length})]),
                                                weight='weight', backend='spmat')

    def test_betweenness_by_fractions(self):
        """The two ways round a square are equally long, and a quarter more or less makes one of
        them the shorter."""
        for last, shares in ((.5, [1 / 6, 1 / 6, 1 / 6, 1 / 6]), (.25, [1 / 3, 0, 0, 1 / 3]),
                             (.75, [0, 1 / 3, 1 / 3, 0])):
            square = nx.Graph()
            square.add_weighted_edges_from([(0, 1, .5), (1, 2, .5), (2, 3, .5), (3, 0, last)])
            for backend in ('spmat', 'networkx'):
                got = nx.betweenness_centrality(square, weight='weight', backend=backend)
                self.assertEqual([round(got[node], 6) for node in square],
                                 [round(share, 6) for share in shares], (backend, last))

    def test_once(self):
        """Ten calls convert a graph once, whatever attributes they ask for, until it is changed."""
        made = nx.gnm_random_graph(30, 60, seed=1)
        nx.set_edge_attributes(made, 3, 'far')
        with mock.patch.object(SpmatGraph, '__init__', autospec=True,
                               side_effect=SpmatGraph.__init__) as read:
            for _ in range(3):
                nx.triangles(made, backend='spmat')
                nx.single_source_dijkstra_path_length(made, 0, weight='far', backend='spmat')
                nx.k_core(made, 2, backend='spmat')
            nx.single_source_dijkstra_path_length(made, 0, weight=None, backend='spmat')
            self.assertEqual(read.call_count, 1)
            made.add_edge(0, 'new', far=5)
            self.assertEqual(nx.single_source_dijkstra_path_length(made, 'new', weight='far',
                                                                         backend='spmat')[0], 5)
            self.assertEqual(read.call_count, 2)

    def test_late_weights(self):
        """A graph that was converted with all attributes answers for weights later on."""
        made = nx.path_graph(3)
        nx.set_edge_attributes(made, {(0, 1): 4, (1, 2): 2.0}, 'w')
        held = graph(made)
        found = nx.single_source_dijkstra_path_length(held, 0, weight='w')
        self.assertEqual(found, {0: 0, 1: 4, 2: 6})
        self.assertIs(type(found[2]), float)       # one of the weights was
        self.assertEqual(nx.single_source_dijkstra_path_length(held, 0, weight='none'),
                         {0: 0, 1: 1, 2: 2})

    def test_pickle_and_copies(self):
        """G can be pickled and copied after a call, and so can what is on the server."""
        made = labelled(nx.Graph)
        want = nx.clustering(made, backend='spmat')
        for other in (pickle.loads(pickle.dumps(made)), copy.deepcopy(made), copy.copy(made)):
            self.assertEqual(other.adj, made.adj)
            self.assertEqual(nx.clustering(other, backend='spmat'), want)
        held = graph(made)
        held.matrix()
        other = pickle.loads(pickle.dumps(held))
        self.assertEqual(nx.clustering(other), want)
        self.assertEqual(convert_to_nx(other).adj, made.adj)


class Changes(NetworkxCase):
    def same(self, function, graph, *args, **more):
        got, want = function(graph, *args, **more,
                             backend='spmat'), function(graph, *args, **more, backend='networkx')
        self.assertEqual(got, want, (function, graph))
        return got

    def test_views(self):
        base, directed = nx.complete_graph(6), nx.gnp_random_graph(9, .5, seed=2, directed=True)
        for view, graph, function in ((base.subgraph([0, 1, 2, 3]), base, nx.triangles),
                                      (base.edge_subgraph([(0, 1), (1, 2), (0, 2)]), base,
                                       nx.transitivity),
                                      (nx.subgraph_view(base, filter_node=lambda node: node < 5),
                                       base, nx.triangles),
                                      (nx.restricted_view(base, [5], []), base, nx.triangles),
                                      (base.to_directed(as_view=True), base,
                                       nx.number_strongly_connected_components),
                                      (directed.reverse(copy=False), directed,
                                       nx.in_degree_centrality),
                                      (directed.to_undirected(as_view=True), directed,
                                       nx.triangles)):
            before = self.same(function, view)
            removed = list(graph.edges(0))
            graph.remove_edges_from(removed)
            after = self.same(function, view)
            self.assertNotEqual(before, after)
            graph.add_edges_from(removed)
            self.same(function, view)

    def test_views_with_a_priority(self):
        base = nx.complete_graph(6)
        view = base.subgraph([0, 1, 2, 3])
        with nx.config(backend_priority=['spmat']):
            before = nx.config.backends.spmat.least_edges
            self.addCleanup(setattr, nx.config.backends.spmat, 'least_edges', before)
            nx.config.backends.spmat.least_edges = 0
            self.assertEqual(nx.transitivity(view), 1)
            base.remove_edge(0, 1)
            self.assertEqual(nx.transitivity(view), .75)

    def test_weights_by_the_dict_of_an_edge(self):
        for kind in (nx.Graph, nx.DiGraph, nx.MultiGraph):
            graph = kind()
            graph.add_weighted_edges_from([(0, 1, 3), (1, 2, 5), (0, 2, 9)])
            self.assertEqual(self.same(nx.dijkstra_path_length, graph, 0, 2), 8)
            for edge in graph.edges(data=True):
                if edge[:2] == (1, 2):
                    edge[2]['weight'] = 100
            self.assertEqual(self.same(nx.dijkstra_path_length, graph, 0, 2), 9)
            for *_, held in graph.edges(data=True):
                held.pop('weight')
            self.assertEqual(self.same(nx.dijkstra_path_length, graph, 0, 2), 1)

    def test_weights_are_not_compared_where_nobody_wants_it(self):
        graph = nx.Graph()
        graph.add_weighted_edges_from([(0, 1, 3), (1, 2, 5)])
        self.addCleanup(setattr, nx.config.backends.spmat, 'compare_weights', True)
        nx.config.backends.spmat.compare_weights = False
        self.assertEqual(nx.dijkstra_path_length(graph, 0, 2, backend='spmat'), 8)
        graph[1][2]['weight'] = 100
        self.assertEqual(nx.dijkstra_path_length(graph, 0, 2, backend='spmat'), 8)
        nx.config.backends.spmat.compare_weights = True
        self.assertEqual(nx.dijkstra_path_length(graph, 0, 2, backend='spmat'), 103)
        for wrong in ('x', None, 3):
            with self.assertRaises(ValueError):
                nx.config.backends.spmat.compare_weights = wrong

    def test_what_did_not_change_is_kept(self):
        graph = nx.gnm_random_graph(50, 200, seed=4)
        nx.set_edge_attributes(graph, 2, 'weight')
        nx.dijkstra_path_length(graph, 0, 7, backend='spmat')
        kept = graph.__networkx_cache__['backends']['spmat']
        made = list(kept.values())
        nx.dijkstra_path_length(graph, 0, 9, backend='spmat')
        nx.pagerank(graph, backend='spmat')
        self.assertTrue(any(one is made[0]
                            for one in graph.__networkx_cache__['backends']['spmat'].values()))

    def test_exceptions(self):
        loop = nx.Graph([(0, 0, {'weight': -1})])
        loop.add_nodes_from([1, 2])
        path = nx.path_graph(3)
        more = {'weight': 'weight', 'method': 'bellman-ford'}
        for function, args, fault in ((nx.all_shortest_paths, (loop, 1, 2), nx.NetworkXUnbounded),
                                      (nx.all_shortest_paths, (loop, 7, 2), nx.NodeNotFound),
                                      (nx.shortest_path_length, (path, 0, 9), nx.NetworkXNoPath),
                                      (nx.shortest_path_length, (path, 9, 0), nx.NodeNotFound),
                                      (nx.shortest_path_length, (path, 9, 9), nx.NodeNotFound)):
            for backend in ('spmat', 'networkx'):
                with self.assertRaises(fault, msg=(function, backend)):
                    list(function(*args, **more, backend=backend))
