"""What networkx asks when it is imported: the functions that are served, and the settings with
their defaults. It imports nothing of spmat."""
from __future__ import annotations

from typing import Any, Dict, List, NamedTuple

DEFAULTS: Dict[str, Any] = {'program': '', 'connect': '', 'steps': 0, 'workers': 0,
                            'least_edges': -1, 'scale': 0, 'compare_weights': True}
"""`nx.config.backends.spmat`: the words that start the program (empty: the variable SPMAT, the one
that this package carries, or `spmat` on the PATH), or `HOST:PORT` or the socket file of a server;
the session's budget of steps (0: 2^62) and its threads (0: one for each processor, 8 at most); from
how many edges on networkx hands work over by itself (-1: a number for each function); what weights
that are no whole numbers are multiplied by before they are rounded (0: they have to be whole
multiples of a power of ten or two, and then nothing is rounded); whether weights of a graph that
was converted are compared at each call, since `G[u][v]['weight'] = 5` leaves no trace that networkx
would see."""

NEVER = 1 << 62


class Pays(NamedTuple):
    """From how many edges on it pays to hand a function over: for a graph that has to be converted,
    and for one that is on the server. `work` says of which functions that is so;
    `tools/networkx_table` writes all of it into docs/networkx.md."""
    first: int
    again: int
    work: str


MUCH = Pays(2_000, 1_000, 'work that grows faster than the edges')
PRODUCTS = Pays(10_000, 8_000, 'some products with the whole graph')
WEIGHTS = Pays(100_000, 8_000, 'paths by weights, spanning trees, forests')
ROUNDS = Pays(100_000, 50_000, 'rounds in which few nodes change at a time')
WALK = Pays(1_000_000, 40_000, 'one walk over the edges, as a conversion is')
KNOWN = Pays(NEVER, 10_000, 'known from the conversion, or paths node by node')
CLASSES = (MUCH, PRODUCTS, WEIGHTS, ROUNDS, WALK, KNOWN)


class Served(NamedTuple):
    """Where a function is, and when it pays."""
    module: str
    pays: Pays


# the functions of each module, by when they pay; those of networkx itself are made of others here
_TABLE: Dict[str, Dict[Pays, str]] = {
    'all_pairs': {
        MUCH: 'all_pairs_dijkstra_path_length all_pairs_bellman_ford_path_length floyd_warshall '
              'power average_shortest_path_length wiener_index closeness_centrality '
              'harmonic_centrality global_efficiency eccentricity diameter radius periphery center '
              'betweenness_centrality',
        PRODUCTS: 'all_pairs_shortest_path_length pagerank',
        WALK: 'shortest_path_length'},
    'connectivity': {
        MUCH: 'overall_reciprocity reciprocity transitive_closure',
        PRODUCTS: 's_metric transitive_closure_dag transitive_reduction number_of_walks',
        WEIGHTS: 'average_neighbor_degree is_forest is_branching',
        ROUNDS: 'strongly_connected_components number_strongly_connected_components '
                'is_semiconnected attracting_components dag_longest_path_length',
        WALK: 'connected_components number_connected_components is_connected '
              'node_connected_component weakly_connected_components '
              'number_weakly_connected_components is_weakly_connected descendants ancestors '
              'bfs_layers',
        KNOWN: 'degree_centrality in_degree_centrality out_degree_centrality isolates '
               'number_of_selfloops is_arborescence'},
    'subgraphs': {
        MUCH: 'triangles transitivity clustering generalized_degree square_clustering',
        PRODUCTS: 'k_core k_truss',
        WEIGHTS: 'minimum_spanning_edges maximum_spanning_edges minimum_spanning_tree '
                 'maximum_spanning_tree',
        ROUNDS: 'core_number k_shell k_crust k_corona onion_layers maximal_independent_set'},
    'shortest_paths': {
        WEIGHTS: 'multi_source_dijkstra dijkstra_predecessor_and_distance '
                 'single_source_bellman_ford bellman_ford_predecessor_and_distance '
                 'multi_source_dijkstra_path_length single_source_bellman_ford_path_length '
                 'bellman_ford_path_length negative_edge_cycle',
        WALK: 'single_source_shortest_path_length single_target_shortest_path_length',
        KNOWN: 'single_source_shortest_path single_target_shortest_path predecessor '
               'all_shortest_paths dijkstra_path_length'},
    'networkx': {
        MUCH: 'average_clustering',
        WEIGHTS: 'multi_source_dijkstra_path single_source_dijkstra single_source_dijkstra_path '
                 'single_source_dijkstra_path_length single_source_bellman_ford_path',
        KNOWN: 'bellman_ford_path dijkstra_path is_tree number_of_isolates'},
}
SERVED: Dict[str, Served] = {
    name: Served(module, pays) for module, classes in _TABLE.items()
    for pays, names in classes.items() for name in names.split()}
"""Each function that is served."""


def info() -> Dict[str, Any]:
    """Answer the entry point networkx.backend_info.

    Returns
    -------
    dict
        The functions that are served, each with a line for its docstring, and the settings.
    """
    return {'backend_name': 'spmat', 'project': 'spmat-networkx', 'package': 'spmat_networkx',
            'short_summary': 'Sparse matrices of 64-bit integers by verified operators, within '
            'a budget of steps.',
            'functions': {name: {'additional_docs': _describe(served.pays)}
                          for name, served in SERVED.items()},
            'default_config': _settings_class()(**DEFAULTS)}


def _describe(pays: Pays) -> str:
    """Say when networkx hands a function over."""
    first = '' if pays.first == NEVER else 'from %d edges on, ' % pays.first
    return ('Taken by itself %sfrom %d edges on for a graph that was converted before, and '
            'wherever backend="spmat" is given.' % (first, pays.again))


# -- settings

_classes: List[Any] = []                           # the class of the settings, once it is defined


def _settings_class() -> Any:
    """Define the class of the settings. It waits for the first use: networkx imports this module
    while it is imported itself, and has the base class from 3.3 on."""
    from networkx.utils.configs import Config      # pylint: disable=import-error
    if _classes:                                   # importing networkx may have called this
        return _classes[0]

    class Settings(Config):                         # type: ignore[misc]  # networkx has no types
        """The settings as networkx holds them. Setting one raises ValueError if no session could be
        opened with it."""
        program: Any
        connect: str
        steps: int
        workers: int
        least_edges: int
        scale: Any
        compare_weights: bool

        def _on_setattr(self, key: str, value: Any) -> Any:
            default = DEFAULTS.get(key)
            if type(value) is type(default) and value == default:
                return value
            from .process_session import check_setting     # not while networkx is imported
            return check_setting(key, value)
    Settings.__qualname__ = 'Settings'             # by which pickle finds it here
    _classes.append(Settings)
    return Settings


def __getattr__(name: str) -> Any:
    if name == 'Settings':
        return _settings_class()
    raise AttributeError('module %r has no attribute %r' % (__name__, name))
