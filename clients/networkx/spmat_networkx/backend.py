"""The entry point networkx.backends: an object with the functions that are served, which converts
graphs, and says of a call whether it can and should be run."""
from __future__ import annotations

# networkx calls these by its own arguments
# pylint: disable=unused-argument

import contextlib
import functools
import importlib
import inspect
import threading
from typing import Any, Callable, Dict, List, Mapping, Optional, Tuple, Union

import networkx as nx

from spmat import errors

from . import process_session
from .backend_info import NEVER, SERVED
from .spmat_graph import SpmatGraph

MORE_STEPS = (
    'a greater nx.config.backends.spmat.steps opens another session, and 0 gives the most that '
    'there are')
FALLS_BACK = (errors.TooLarge, errors.OutOfMemory, errors.NoThread)
# arguments that name an edge attribute where a function reads any
WEIGHTS = ('weight', 'distance')
# how a function takes the weights of parallel edges together, if not by the shortest, as paths do
FOLDS = {'pagerank': 'plus', 'dag_longest_path_length': 'max'}
# where `__networkx_cache__` of a graph has its conversion, besides where networkx keeps it
CACHE_KEY = 'spmat: the graph on the server'

_SPANNING = ('minimum_spanning_edges maximum_spanning_edges minimum_spanning_tree '
             'maximum_spanning_tree')
# What isn't served of some graphs that networkx itself takes, or took in some version.
NOT_DIRECTED = frozenset(('transitivity square_clustering s_metric ' + _SPANNING).split())
NOT_MULTI = frozenset(('core_number k_core k_shell k_crust k_corona k_truss onion_layers power '
                       'dag_longest_path_length ' + _SPANNING).split())
# Functions whose weights may be below 0.
SIGNED = frozenset((
    'all_pairs_bellman_ford_path_length floyd_warshall single_source_bellman_ford_path_length '
    'bellman_ford_path_length negative_edge_cycle single_source_bellman_ford '
    'single_source_bellman_ford_path bellman_ford_path bellman_ford_predecessor_and_distance '
    'all_shortest_paths average_neighbor_degree dag_longest_path_length ' + _SPANNING).split())
# Arguments that are served by their defaults alone, and why.
DECLINED: Dict[Tuple[str, str], str] = {
    (name, argument): reason for names, argument, reason in (
        ('eccentricity', 'sp', 'lengths that are given'),
        ('clustering average_clustering', 'weight', 'weights are folded by cube roots'),
        ('transitive_closure_dag', 'topo_order', 'an order that is given decides what is closed'),
        ('bellman_ford_predecessor_and_distance', 'target',
         'one target, of which networkx gives more'),
        ('pagerank', 'nstart', 'ranks to begin with'),
        ('betweenness_centrality', 'k',
         'some sources, which networkx weighs otherwise from version to version'),
        ('betweenness_centrality', 'endpoints', 'the ends of paths'),
        (_SPANNING, 'algorithm',
         'other algorithms take other edges of one weight, in another order'),
    ) for name in names.split()}

# whether networkx hands this thread's call over by itself
_handed = threading.local()


# -- conversion

def check_adjacency(graph: Any) -> None:
    """NotImplementedError, with the reason, if a graph can't be read by its adjacency, and has not
    been."""
    if find_conversion(graph) is not None:
        return
    if not isinstance(graph, nx.Graph):
        raise NotImplementedError('no graph of networkx: %s' % type(graph).__name__)
    if type(graph).__getitem__ is not nx.Graph.__getitem__ or not hasattr(graph, '_adj'):
        raise NotImplementedError('a %s, whose neighbours are not those of its adjacency'
                                  % type(graph).__name__)


def _is_view(graph: Any) -> bool:
    """Whether a graph shows another one, whose changes clear nothing that networkx keeps with this
    one."""
    return '_graph' in getattr(graph, '__dict__', {})


def _find_cache(graph: Any) -> Dict[Any, Any]:
    """Where networkx keeps what was made of a graph until it is changed; a dict of one's own if it
    keeps nothing."""
    keeps = nx.config.cache_converted_graphs and not _is_view(graph)
    kept: Optional[Dict[Any, Any]] = getattr(graph, '__networkx_cache__', None) if keeps else None
    return {} if kept is None else kept


def find_conversion(graph: Any) -> Optional[SpmatGraph]:
    """Find the conversion of a graph that is kept with it, whatever attributes it was for."""
    return graph if isinstance(graph, SpmatGraph) else _find_cache(graph).get(CACHE_KEY)


def _convert(graph: Any) -> SpmatGraph:
    """Convert a graph, or find its conversion. NotImplementedError if it is none of networkx'
    own."""
    made = find_conversion(graph)
    if made is None:
        check_adjacency(graph)
        made = _find_cache(graph)[CACHE_KEY] = SpmatGraph(graph)
    return made


def forget_changed(graph: Any, attributes: List[Any]) -> None:
    """Have networkx forget what was made of a graph if the values of an edge attribute have changed
    since, as by `G[u][v]["weight"] = 5`, of which networkx notices nothing. Views are never
    kept."""
    if isinstance(graph, SpmatGraph) or not hasattr(graph, 'adjacency'):
        return
    if _is_view(graph):
        graph.__networkx_cache__ = None            # networkx keeps nothing with it then
        return
    made = find_conversion(graph)
    if (made is not None and process_session.setting('compare_weights')
            and not made.has_values_of(graph, attributes)):
        graph.__networkx_cache__.clear()


def convert_from_nx(graph: Any, *, edge_attrs: Optional[Dict[str, Any]] = None,
                    node_attrs: Optional[Dict[str, Any]] = None, preserve_edge_attrs: bool = False,
                    preserve_node_attrs: bool = False, preserve_graph_attrs: bool = False,
                    name: Optional[str] = None, graph_name: Optional[str] = None) -> SpmatGraph:
    """Convert a networkx graph, as networkx asks a backend to.

    Parameters
    ----------
    graph : networkx.Graph or SpmatGraph
        The graph. If a SpmatGraph is kept with it, that one is taken.
    edge_attrs, node_attrs : dict, optional
        Attributes that the function reads, with their defaults.
    preserve_edge_attrs, preserve_node_attrs, preserve_graph_attrs : bool
        Whether to convert all attributes.
    name, graph_name : str, optional
        The names of the function and of its argument.

    Returns
    -------
    SpmatGraph

    Raises
    ------
    NotImplementedError
        If this is no graph of networkx' own kinds; networkx does the work itself then.
    """
    made = _convert(graph)
    if made is not graph:
        made.keep_attributes(graph, preserve_node_attrs or bool(node_attrs),
                             preserve_edge_attrs or bool(edge_attrs), preserve_graph_attrs)
    return made


def convert_to_nx(thing: Any, *, name: Optional[str] = None) -> Any:
    """Convert a SpmatGraph back, with the attributes that were converted, as `G.copy()` gives it.

    Parameters
    ----------
    thing : object
        A SpmatGraph, or anything else, which is returned as it is.
    name : str, optional
        The name of the function that gave it.
    """
    return thing.to_networkx() if isinstance(thing, SpmatGraph) else thing


# -- calls

class Backend:
    """The object that networkx calls: a function for each that is served, and what networkx asks of
    a backend."""
    Graph = SpmatGraph
    convert_from_nx = staticmethod(convert_from_nx)
    convert_to_nx = staticmethod(convert_to_nx)

    @staticmethod
    def can_run(name: str, args: Any, kwargs: Dict[str, Any]) -> bool:
        """True: why a call is left to networkx say `should_run` and the function, whose words
        networkx shows, while of what this says it shows nothing. Forgets what was made of a graph
        whose weights changed since."""
        _handed.over = False
        with contextlib.suppress(TypeError):
            arguments = bind(name, args, kwargs)
            forget_changed(next(iter(arguments.values())), _list_weights(name, arguments))
        return True

    @staticmethod
    def reason(name: str, args: Any, kwargs: Dict[str, Any]) -> Optional[str]:
        """Say why a call is left to networkx: arguments, kinds of graphs and weights for which the
        answer would differ. None if it isn't, or its arguments don't fit, which networkx says
        better."""
        try:
            check_call(name, bind(name, args, kwargs))
        except NotImplementedError as fault:
            return str(fault)
        except TypeError:
            pass
        return None

    @staticmethod
    def should_run(name: str, args: Any, kwargs: Dict[str, Any]) -> Union[bool, str]:
        """Whether a call pays: True, or why not, in words. The graph must have enough edges, or be
        on the server, the answer must be networkx', and a session be had. networkx asks this only
        of calls that it hands over by itself."""
        graph = args[0] if args else next(iter(kwargs.values()))
        said = (_is_too_small(name, graph) or Backend.reason(name, args, kwargs)
                or process_session.find_failure())
        _handed.over = said is None
        return said or True

    def __getattr__(self, name: str) -> Callable[..., Any]:
        if name not in SERVED:
            raise AttributeError('spmat serves no function %s' % name)
        found = functools.partial(serve, name)
        setattr(self, name, found)
        return found


backend = Backend()


@functools.lru_cache(maxsize=None)
def find_function(name: str) -> Callable[..., Any]:
    """Find what serves networkx' function of a name; its module is imported when it is first asked
    for. Some are networkx' own, made of others that are served."""
    if SERVED[name].module == 'networkx':
        return find_original(name)
    module = importlib.import_module('.' + SERVED[name].module, __package__)
    function: Callable[..., Any] = getattr(module, name)
    return function


@functools.lru_cache(maxsize=None)
def _list_parameters(name: str) -> Tuple[str, ...]:
    """The arguments that the function of a name reads: those of the others are networkx'
    defaults, or decide nothing here."""
    return tuple(inspect.signature(find_function(name)).parameters)


def serve(name: str, /, *args: Any, **kwargs: Any) -> Any:
    """Run a call of a function.

    Parameters
    ----------
    name : str
        The name of networkx' function.
    *args, **kwargs
        Its arguments, with graphs that `convert_from_nx` gave.

    Returns
    -------
    object
        What networkx' function returns.

    Raises
    ------
    NotImplementedError
        If the call is left to networkx, also if the server has no room for it: networkx does the
        work itself.
    BudgetExceeded
        If the session's budget is spent.
    NoSession
        If there is no session, unless networkx handed the call over by itself: then networkx does
        the work.
    """
    arguments, is_handed = bind(name, args, kwargs), getattr(_handed, 'over', False)
    try:
        check_call(name, arguments)
    except NotImplementedError as fault:
        raise NotImplementedError('%s is left to networkx: %s' % (name, fault)) from None
    try:
        return _answer(name, {key: arguments[key] for key in _list_parameters(name)})
    except process_session.NoSession as fault:
        if not is_handed:
            raise
        process_session.warn(str(fault))
        raise NotImplementedError('%s: %s' % (name, fault)) from fault


def _answer(name: str, arguments: Dict[str, Any]) -> Any:
    """What a call gives. If the program died before it, or in it, once more with another; NoSession
    if that one dies, too."""
    for is_last in (False, True):
        try:
            return find_function(name)(**arguments)
        except errors.BudgetExceeded as fault:
            left = 'the price is %d, and %d are left: %s' % (fault.price, fault.left, MORE_STEPS)
            told = errors.BudgetExceeded(fault.rule, fault.numbers, fault.command, detail=left)
            told.algorithm, told.partial = fault.algorithm, fault.partial
            raise told from None
        except FALLS_BACK as fault:
            raise NotImplementedError('%s: %s' % (name, fault)) from fault
        except errors.Closed as fault:
            if is_last:
                raise process_session.NoSession('spmat has no session: %s' % fault) from fault
    return None


# -- what is left to networkx

def _is_too_small(name: str, graph: Any) -> Optional[str]:
    """Say why it doesn't pay to hand a call over; None if it does, or the graph is on the
    server."""
    if isinstance(graph, SpmatGraph):
        return None
    least = process_session.setting('least_edges')
    if least < 0:
        pays = SERVED[name].pays
        least = pays.first if find_conversion(graph) is None else pays.again
    if least == NEVER:
        return 'networkx has it at hand'
    many = _count_edges(graph, least)
    return None if many >= least else 'only %d edges' % many


def _count_edges(graph: Any, enough: int) -> int:
    """The number of a graph's edges; of a large graph no more than that they are enough."""
    if not hasattr(graph, 'adjacency'):
        return int(graph.number_of_edges())
    ends = 0
    for _, near in graph.adjacency():
        ends += len(near)
        if ends >= 2 * enough:
            break
    return ends if graph.is_directed() else ends // 2


def find_original(name: str) -> Callable[..., Any]:
    """Find networkx' own function, which is not handed to a backend."""
    # pylint takes networkx' functions for undecorated ones
    function: Callable[..., Any] = getattr(nx, name).orig_func  # pylint: disable=no-member
    return function


@functools.lru_cache(maxsize=None)
def read_signature(name: str) -> inspect.Signature:
    """Read the arguments of networkx' function, with their defaults."""
    return inspect.signature(find_original(name))


def bind(name: str, args: Any, kwargs: Mapping[str, Any]) -> Dict[str, Any]:
    """The arguments of a call by their names, defaults too. TypeError if they don't fit."""
    bound = read_signature(name).bind(*args, **kwargs)
    bound.apply_defaults()
    return bound.arguments


def _list_weights(name: str, arguments: Mapping[str, Any]) -> List[Any]:
    """The edge attributes that a call names."""
    function = getattr(nx, name)
    if function.edge_attrs is None and not function.preserve_edge_attrs:
        return []
    return [arguments[key] for key in WEIGHTS if arguments.get(key) is not None]


def check_call(name: str, arguments: Dict[str, Any]) -> None:
    """NotImplementedError, with the reason, if a call is left to networkx."""
    graph = next(iter(arguments.values()))
    check_adjacency(graph)
    if graph.is_directed() and name in NOT_DIRECTED:
        raise NotImplementedError('not of directed graphs')
    if graph.is_multigraph() and name in NOT_MULTI:
        raise NotImplementedError('not of multigraphs')
    for key, value in arguments.items():
        if (name, key) in DECLINED and value != read_signature(name).parameters[key].default:
            raise NotImplementedError(DECLINED[name, key])
    for attribute in _list_weights(name, arguments):
        if callable(attribute):
            raise NotImplementedError('a weight is a function, and not the name of an edge '
                                      'attribute')
        # what is read of the values stays with the conversion, which follows
        made = _convert(graph)
        if made is not graph:
            made.keep_attributes(graph, False, True, False)
        found = made.values(attribute, arguments.get('default_weight', 1), FOLDS.get(name, 'min'))
        if name not in SIGNED and found.least < 0:
            raise NotImplementedError('the edge attribute %r has values below 0' % attribute)
