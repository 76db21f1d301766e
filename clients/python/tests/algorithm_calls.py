"""A call of each algorithm on a graph of some vertices, with what it has to be given."""
from spmat import algorithms
from spmat.algorithms.registry import ALGORITHMS

GIVEN = {'source': 0, 'target': 4, 'k': 2, 'sources': [1, 3], 'firsts': [0], 'seconds': [3]}


def labels_of(G):
    """Three communities of a graph, as a column with its names."""
    return G.session.from_coo(range(G.nrows), [0] * G.nrows, [i % 3 for i in range(G.nrows)],
                              G.nrows, 1, nodes=G.nodes)


def call(name, G, **more):
    """What an algorithm gives of a graph; with names of vertices, or whatever else is said."""
    parameters = ALGORITHMS[name].parameters
    given = {what: value for what, value in GIVEN.items() if what in parameters}
    if 'labels' in parameters and 'labels' not in more:
        given['labels'] = labels_of(G)
    return getattr(algorithms, name)(G, **{**given, **more})
