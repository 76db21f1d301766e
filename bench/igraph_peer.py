"""igraph, whose algorithms are compiled."""
from __future__ import annotations

from typing import Any, Callable, Dict

import numpy

from algorithm_peers import Peer
from algorithm_tasks import CORE, HOPS, PATHS
from scipy_peer import reached


class Igraph(Peer):
    """igraph."""
    name = 'igraph'

    def load(self) -> None:
        import igraph
        e = self.edges
        once = numpy.ones(len(e.i), bool) if e.directed else e.i < e.j
        self.graph = igraph.Graph(n=e.vertices, edges=numpy.stack([e.i[once], e.j[once]], 1),
                                  directed=e.directed)
        self.weights = e.w[once].tolist()

    def calls(self) -> Dict[str, Callable[[], Any]]:
        graph, e = self.graph, self.edges
        calls = {**self.searches(), **self.ranks(),
                 'connected_components': lambda: numpy.array(
                     graph.connected_components(mode='weak').membership),
                 'strongly_connected_components': lambda: numpy.array(
                     graph.connected_components(mode='strong').membership),
                 'degrees': lambda: numpy.array(graph.outdegree()),
                 'modularity': lambda: graph.modularity((numpy.arange(e.vertices) >> 6).tolist(),
                                                        directed=True)}
        if e.directed:
            return dict(calls, undirected=self.undirected)
        return {**calls, **self.parts()}

    def undirected(self) -> int:
        """Entries of the graph without its directions."""
        other = self.graph.copy()
        other.to_undirected(mode='collapse')
        return 2 * int(other.ecount())

    def searches(self) -> Dict[str, Callable[[], Any]]:
        """Searches, and lengths of paths."""
        graph, asked, weights = self.graph, self.asked, self.weights
        calls: Dict[str, Callable[[], Any]] = {
            'bfs_levels': lambda: reached(numpy.array(graph.distances(asked.source)[0], float)),
            'bfs_parents': self.parents,
            'sssp': lambda: reached(numpy.array(graph.distances(asked.source, weights=weights)[0],
                                                float)),
            'k_hop': lambda: sum(graph.neighborhood_size(asked.some, order=HOPS, mode='out')),
            'k_hop of one': lambda: graph.neighborhood_size(asked.source, order=HOPS, mode='out'),
            'has_path': lambda: bool(
                numpy.isfinite(graph.distances(asked.source, asked.target)[0][0])),
            'shortest_path': lambda: len(graph.get_shortest_paths(asked.source, asked.target)[0])
            - 1,
            'shortest_path, weighted': lambda: int(graph.distances(asked.source, asked.target,
                                                                   weights=weights)[0][0]),
            'k_shortest_paths': lambda: [len(path)
                                         for path in graph.get_k_shortest_paths(
                                             asked.source, asked.target, PATHS)],
            'path_lengths': lambda: reached(
                numpy.array(graph.distances(asked.some, weights=weights), float)),
        }
        if self.edges.vertices <= 1 << 13:
            calls.update({'all_pairs': lambda: reached(numpy.array(graph.distances(weights=weights),
                                                                   float)),
                          'eccentricity': lambda: numpy.array(graph.eccentricity(mode='out')),
                          'diameter': graph.diameter, 'distance_counts': self.counts,
                          'betweenness': lambda: numpy.array(graph.betweenness())})
        return calls

    def parents(self) -> Any:
        """Where a search comes from, -1 where it doesn't come."""
        found = numpy.maximum(numpy.array(self.graph.bfs(self.asked.source, mode='out')[2]), -1)
        found[self.asked.source] = self.asked.source
        return found

    def counts(self) -> Any:
        """How many pairs are how far: each of an undirected graph counts both ways."""
        bins = [int(count) for _, _, count in self.graph.path_length_hist().bins()]
        return bins if self.edges.directed else [2 * count for count in bins]

    def ranks(self) -> Dict[str, Callable[[], Any]]:
        """Which vertices matter."""
        graph = self.graph

        def shares(found: Any) -> Any:
            return numpy.array(found) / numpy.sum(found)
        return {'pagerank': lambda: numpy.array(graph.pagerank()),
                'eigenvector': lambda: shares(graph.eigenvector_centrality()),
                'hits': lambda: shares(graph.hub_score())}

    def parts(self) -> Dict[str, Callable[[], Any]]:
        """Of undirected graphs."""
        graph, weights = self.graph, self.weights

        def clustering() -> Any:
            return numpy.array(graph.transitivity_local_undirected(mode='zero'))

        def triangles() -> Any:
            out = numpy.array(graph.degree())
            return numpy.rint(clustering() * out * (out - 1) / 2).astype(numpy.int64)
        return {'bipartite_sides': lambda: numpy.array(graph.is_bipartite(return_types=True)[1],
                                                       int),
                'minimum_spanning_forest': lambda: int(sum(weights[edge]
                                                           for edge in graph.spanning_tree(
                                                               weights, return_tree=False))),
                'core_numbers': lambda: numpy.array(graph.coreness()),
                'k_core': lambda: int((numpy.array(graph.coreness()) >= CORE).sum()),
                'label_propagation': lambda: numpy.array(
                    graph.community_label_propagation().membership),
                'louvain': lambda: numpy.array(graph.community_multilevel().membership),
                'clustering': clustering, 'triangles': triangles,
                'triangle_count': lambda: int(triangles().sum() // 3)}
