"""networkx, for small graphs: Python all the way."""
from __future__ import annotations

import itertools
from typing import Any, Callable, Dict

import numpy

from algorithm_peers import Peer
from algorithm_tasks import ALPHA, CORE, HOPS, PATHS, TRUSS

MOST_NODES = 20_000                                # above which it takes seconds for anything
MOST_FOR_PAIRS = 1 << 11                           # .. and for what looks at each pair of vertices


class Networkx(Peer):
    """networkx."""
    name = 'networkx'

    def load(self) -> None:
        import networkx
        self.library, e = networkx, self.edges
        self.graph = networkx.DiGraph() if e.directed else networkx.Graph()
        if e.vertices <= MOST_NODES:
            self.graph.add_nodes_from(range(e.vertices))
            self.graph.add_weighted_edges_from(zip(e.i.tolist(), e.j.tolist(), e.w.tolist()))

    def column(self, found: Any, missing: int = -1) -> Any:
        """What is said of vertices, with a number where nothing is."""
        found = dict(found)
        out = numpy.full(self.edges.vertices, missing, float)
        out[list(found)] = list(found.values())
        return out

    def shares(self, found: Any) -> Any:
        """Numbers of vertices divided by their sum."""
        numbers = self.column(found)
        return numbers / numbers.sum()

    def parts(self, groups: Any) -> Any:
        """A number for each part."""
        return self.column({i: number for number, group in enumerate(groups) for i in group})

    def calls(self) -> Dict[str, Callable[[], Any]]:
        if self.edges.vertices > MOST_NODES:
            return {}
        return {**self.searches(), **(self.one_way() if self.edges.directed else self.both_ways()),
                **(self.of_pairs() if self.edges.vertices <= MOST_FOR_PAIRS else {})}

    def searches(self) -> Dict[str, Callable[[], Any]]:
        """Searches and ranks."""
        nx, graph, asked = self.library, self.graph, self.asked

        def levels(source: int, cutoff: Any = None) -> Any:
            return nx.single_source_shortest_path_length(graph, source, cutoff)

        def parents() -> Any:
            return self.column({asked.source: asked.source,
                                **dict(nx.bfs_predecessors(graph, asked.source))})
        return {
            'bfs_levels': lambda: self.column(levels(asked.source)), 'bfs_parents': parents,
            'sssp': lambda: self.column(nx.single_source_dijkstra_path_length(graph, asked.source)),
            'k_hop': lambda: sum(len(levels(source, HOPS)) for source in asked.some),
            'k_hop of one': lambda: len(levels(asked.source, HOPS)),
            'has_path': lambda: nx.has_path(graph, asked.source, asked.target),
            'shortest_path': lambda: len(nx.shortest_path(graph, asked.source, asked.target)) - 1,
            'shortest_path, weighted': lambda: nx.bidirectional_dijkstra(graph, asked.source,
                                                                         asked.target)[0],
            'shortest_paths, weighted': lambda: self.column(
                nx.dijkstra_predecessor_and_distance(graph, asked.source)[1]),
            'k_shortest_paths': lambda: [len(path)
                                         for path in itertools.islice(nx.shortest_simple_paths(
                                             graph, asked.source, asked.target), PATHS)],
            'degrees': lambda: self.column(graph.out_degree() if self.edges.directed
                                           else graph.degree()),
            'pagerank': lambda: self.shares(nx.pagerank(graph, weight=None, tol=1e-7 / len(graph),
                                                        max_iter=1000)),
            'katz': lambda: self.shares(nx.katz_centrality(graph, ALPHA, weight=None)),
        }

    def one_way(self) -> Dict[str, Callable[[], Any]]:
        """Of directed graphs."""
        nx, graph, asked = self.library, self.graph, self.asked
        calls = {
            'connected_components': lambda: self.parts(nx.weakly_connected_components(graph)),
            'strongly_connected_components': lambda: self.parts(
                nx.strongly_connected_components(graph)),
            'undirected': lambda: 2 * graph.to_undirected().number_of_edges(),
            'shared_neighbours': lambda: [len(set(graph[a]) & set(graph[b]))
                                          for a, b in zip(asked.firsts, asked.seconds)]}
        if bool((self.edges.i < self.edges.j).all()):
            calls['topological_levels'] = lambda: self.parts(nx.topological_generations(graph))
        return calls

    def both_ways(self) -> Dict[str, Callable[[], Any]]:
        """Of undirected graphs."""
        nx, graph, asked, e = self.library, self.graph, self.asked, self.edges

        def communities() -> Any:
            return [range(first, min(first + 64, e.vertices)) for first in range(0, e.vertices, 64)]

        def chosen() -> Any:
            return self.column(dict.fromkeys(nx.maximal_independent_set(graph, seed=1), 1))
        return {
            'connected_components': lambda: self.parts(nx.connected_components(graph)),
            'core_numbers': lambda: self.column(nx.core_number(graph)),
            'k_core': lambda: nx.k_core(graph, CORE).number_of_nodes(),
            'k_truss': lambda: nx.k_truss(graph, TRUSS).number_of_edges(),
            'minimum_spanning_forest': lambda: sum(
                w for _, _, w in nx.minimum_spanning_tree(graph).edges(data='weight')),
            'bipartite_sides': lambda: self.column(nx.bipartite.color(graph)),
            'maximal_independent_set': chosen,
            'label_propagation': lambda: self.parts(
                nx.community.label_propagation_communities(graph)),
            'modularity': lambda: nx.community.modularity(graph, communities(), weight=None),
            'shared_neighbours': lambda: [len(list(nx.common_neighbors(graph, a, b))) if a != b
                                          else graph.degree(a)
                                          for a, b in zip(asked.firsts, asked.seconds)],
            'triangles': lambda: self.column(nx.triangles(graph)),
            'triangle_count': lambda: sum(nx.triangles(graph).values()) // 3,
            'clustering': lambda: self.column(nx.clustering(graph)),
        }

    def of_pairs(self) -> Dict[str, Callable[[], Any]]:
        """What looks at each pair of vertices."""
        nx, graph = self.library, self.graph
        calls = {'closeness': lambda: self.column(nx.closeness_centrality(graph)),
                 'betweenness': lambda: self.column(
                     nx.betweenness_centrality(graph, normalized=False)),
                 'transitive_closure': lambda: sum(
                     len(there) - 1 for _, there in nx.all_pairs_shortest_path_length(graph))}
        return (calls if self.edges.directed else dict(calls, diameter=lambda: nx.diameter(graph),
                                                       louvain=lambda: self.parts(
                                                           nx.community.louvain_communities(
                                                               graph, weight=None, seed=1))))
