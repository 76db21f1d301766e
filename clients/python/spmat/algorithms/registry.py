"""The list of algorithms, which their modules fill. `@algorithm(..)` above a function makes it one
of `spmat.algorithms`, a row of the table that its help begins with, and a command of the command
line. It looks at the arguments before the first job, each by its annotation, so that an error names
the argument, what it is and what came."""
from __future__ import annotations

import datetime
import decimal
import enum
import functools
import inspect
import math
import numbers
import re
from fractions import Fraction
from typing import (Any, Callable, Dict, Iterator, List, Mapping, NamedTuple, Optional, Sequence,
                    Tuple, TypeVar, cast)

import numpy

from .. import scale as scales
from ..errors import BudgetExceeded, about
from ..integers import real, shown, whole
from ..matrix import Matrix
from ..matrix_base import with_unit
from ..types import Exact
from ..vector import as_matrix, as_vector
from .cached_properties import check_undirected
from .results import of_vertices, with_zeros
from .utils import check_graph

F = TypeVar('F', bound=Callable[..., Any])


class Wanted(enum.Enum):
    """Which graphs an algorithm is for: of others its result would mean nothing."""
    ANY = 'any'
    BOTH_WAYS = 'each edge leads both ways'
    WITHOUT_LOOPS = 'each edge leads both ways, and none from a vertex to itself'


BOTH_WAYS, WITHOUT_LOOPS = Wanted.BOTH_WAYS, Wanted.WITHOUT_LOOPS


class Size(NamedTuple):
    """What the runs of a call grow with: a graph's vertices, and the rounds, or levels, that
    `progress` was told."""
    vertices: int
    rounds: int


Runs = Callable[[Size], int]
"""The most runs of a call, without the checks that are made once for a graph."""
Rows = Callable[[Any, Mapping[str, Any]], Any]


class Algorithm(NamedTuple):
    """An algorithm: its function, and what it gives in a few words. The command line, the manual
    page and the bench read the rest from here, from the signature and from the docstring.

    Attributes
    ----------
    scale : int
        What a value is counted in; 1 where it is a whole number.
    are_vertices, counts : bool
        Whether a value is a vertex; whether each vertex has an entry, also one that counts nothing.
    plot : str or None
        The function of `draw` that draws the result: `values` where each vertex has one.
    wanted : Wanted
        Which graphs it is for.
    values, lengths, reads_unit : bool
        Whether values of edges count; whether results are in their unit; whether the function
        itself looks at that unit.
    ranked : bool
        Whether the greatest values can be asked for alone.
    fields : sequence of str
        The fields of a row, where a command prints a list.
    rows : callable, optional
        What a command prints, of the result and the arguments by their names: a number, rows, or a
        matrix. Without it the result itself.
    parts : sequence of str
        What the results are, where there are several: a command prints the first, and has a flag
        for each other one.
    tells : callable, optional
        What a command says of the result on standard error.
    flags : mapping
        Further names of options, by the parameter: ``{'k': ['--depth']}``.
    says : str
        What the command says of itself, where that isn't what the function says.
    command : bool
        Whether it is a command.
    runs : callable, optional
        What the docstring says of its runs, for tests: on a graph whose rounds are few, and whose
        products aren't made by parts.
    hints : mapping
        What may have been meant by an argument that is wrong, or that it hasn't.
    ranges : mapping
        The least and the greatest whole number that a parameter may be. The greatest is a power of
        two, or None.
    """
    function: Callable[..., Any]
    gives: str
    scale: int = 1
    are_vertices: bool = False
    counts: bool = False
    plot: Optional[str] = 'values'
    wanted: Wanted = Wanted.ANY
    values: bool = False
    ranked: bool = False
    fields: Sequence[str] = ()
    rows: Optional[Rows] = None
    parts: Sequence[str] = ()
    tells: Optional[Callable[[Any], str]] = None
    flags: Mapping[str, Sequence[str]] = {}
    lengths: bool = False
    reads_unit: bool = False
    says: str = ''
    command: bool = True
    runs: Optional[Runs] = None
    hints: Mapping[str, str] = {}
    ranges: Mapping[str, Tuple[int, Optional[int]]] = {}

    @property
    def signature(self) -> Mapping[str, inspect.Parameter]:
        """What the function takes, by name."""
        return inspect.signature(self.function).parameters

    @property
    def parameters(self) -> List[str]:
        """The names of what the function takes."""
        return list(self.signature)

    def describe(self, parameter: str) -> str:
        """What the docstring says of a parameter: its first sentence."""
        found = re.search(r'^(?:\w+, )*%s\b[^\n]*:.*\n((?:    .*\n?)+)' % parameter,
                          inspect.getdoc(self.function) or '', re.M)
        words = ' '.join(found.group(1).split()) if found else ''
        return re.split(r'(?<=\w)\.(?= [A-Z]|$)', words)[0]

    def uses_values(self, weighted: bool) -> bool:
        """Whether the values of edges count."""
        return self.values or weighted

    @property
    def elsewhere(self) -> str:
        """Its name in LAGraph, empty where it has none there."""
        found = re.search(r'LAGraph:\s+`(\w+)`', inspect.getdoc(self.function) or '')
        return found.group(1) if found else ''


ALGORITHMS: Dict[str, Algorithm] = {}


def algorithm(gives: str, **more: Any) -> Callable[[F], F]:
    """Makes a function an algorithm; see `Algorithm` for what may be said of it."""
    def register(function: F) -> F:
        one = ALGORITHMS[function.__name__] = Algorithm(function, gives, **more)
        bind = checks_arguments(one)

        @functools.wraps(function)
        def call(*args: Any, **named: Any) -> Any:
            given = bind(args, named)
            graph = next(iter(given.arguments.values()))
            check_graph(graph, given.arguments.get('GT', given.arguments.get('WT')))
            try:
                if one.wanted is not Wanted.ANY and given.arguments.get('check', True):
                    check_undirected(graph, one.wanted is BOTH_WAYS)
                found = _in_unit(one, given)
            except BudgetExceeded as fault:
                if not fault.algorithm and len(fault.numbers) >= 2:
                    fault.name_algorithm(function.__name__)
                raise
            if one.are_vertices:
                of_vertices(found)
            found = with_zeros(found, graph) if one.counts else found
            return tuple(map(as_vector, found)) if type(found) is tuple else as_vector(found)
        return cast(F, call)
    return register


def table() -> Iterator[str]:
    """The lines of a table of all algorithms."""
    yield from ('| Function | What it gives | LAGraph |', '|---|---|---|')
    for name, one in sorted(ALGORITHMS.items()):
        yield '| `%s(%s)` | %s | %s |' % (name, ', '.join(required(one.function)), one.gives, '`%s`'
                                          % one.elsewhere if one.elsewhere else '')


def required(function: F) -> Tuple[str, ...]:
    """The parameters that have to be given."""
    return tuple(name for name, one in inspect.signature(function).parameters.items()
                 if one.default is one.empty)


# -- what callers hand in

Bind = Callable[[Tuple[Any, ...], Mapping[str, Any]], inspect.BoundArguments]
Read = Callable[[Any], Any]
"""Gives what is worked with, such as a number of Python for one of numpy. TypeError or ValueError
where it is of another kind."""
LONGEST = 60                                       # words on what came
WEIGHTS = ('weight', 'weights', 'weighted', 'distance')


def _is_matrix(one: object) -> bool:
    return hasattr(type(one), 'mxm')


def _is_number(one: object) -> bool:
    return isinstance(one, numbers.Number) and not isinstance(one, complex)


def _finite(one: object) -> Any:
    """A finite number: a decimal as a fraction, which goes with floats."""
    real(one, 'it')
    return Fraction(one) if isinstance(one, decimal.Decimal) else one


def _length(one: object) -> Any:
    """What bounds lengths, which are times where the values of edges are."""
    if isinstance(one, (datetime.timedelta, numpy.timedelta64)) or one in (math.inf, -math.inf):
        return one
    return one if isinstance(one, int) else _finite(one)


def _such(holds: Callable[[Any], bool]) -> Read:
    """What reads things of a kind."""
    def read(one: Any) -> Any:
        if not holds(one):
            raise TypeError
        return one
    return read


def _weights(one: Any) -> Mapping[Any, Any]:
    """Numbers by vertex: a mapping, a Series of pandas, or a column."""
    if _is_matrix(one):
        return one.by_node()  # type: ignore[no-any-return]
    if not isinstance(one, Mapping) and not hasattr(one, 'iloc'):
        raise TypeError
    return dict(one.items())


KINDS: Dict[str, Tuple[str, Read]] = {
    'Matrix': ('a matrix', _such(_is_matrix)),
    'int': ('a whole number', whole),
    'float': ('a finite number', _finite),
    'bool': ('True or False', _such(lambda one: isinstance(one, (int, numpy.bool_)))),
    'Weights': ('a dict, a Series or a column of numbers by vertex', _weights),
    'Progress': ('a function of (what, done, of)', _such(callable)),
    'cutoff': ('a number, or a time of a matrix of times', _length)}


def _within(kind: Tuple[str, Read], least: int, most: Optional[int]) -> Tuple[str, Read]:
    """Numbers of a kind within a range."""
    what, read = kind

    def number(one: Any) -> Any:
        found = read(one)
        if found < least or (most is not None and found > most):
            raise ValueError
        return found
    more = (' of %d or more' % least if most is None
            else ' from %d to 2^%d' % (least, most.bit_length() - 1))
    return what + more, number


def checks_arguments(algorithm: Algorithm) -> Bind:
    """What looks at the arguments of a call of an algorithm.

    Parameters
    ----------
    algorithm : Algorithm
        The algorithm. The annotations of its parameters say what they are.

    Returns
    -------
    callable
        A function of the positional and the named arguments, which gives these as the algorithm
        takes them. It raises TypeError where one is of another kind, or there is no such argument,
        and ValueError for another number.
    """
    signature = inspect.signature(algorithm.function)
    kinds: Dict[str, Tuple[str, Read]] = {}
    for called, parameter in list(signature.parameters.items())[1:]:
        annotation = str(parameter.annotation).replace('Optional[', '').rstrip(']')
        found = KINDS.get(called, KINDS.get(annotation))
        if found is not None:
            kinds[called] = (_within(found, *algorithm.ranges[called])
                             if called in algorithm.ranges else found)
    optional = {called for called, parameter in signature.parameters.items()
                if parameter.default is None}

    def bind(args: Tuple[object, ...], named: Mapping[str, object]) -> inspect.BoundArguments:
        try:
            bound = signature.bind(*args, **named)
        except TypeError as fault:
            raise TypeError(_unknown(algorithm, signature, str(fault), named)) from None
        given = bound.arguments
        for called, one in given.items():
            if called not in kinds or (one is None and called in optional):
                given[called] = as_matrix(one)
                continue
            what, read = kinds[called]
            try:
                given[called] = as_matrix(read(one))
            except (TypeError, ValueError):
                kind = ValueError if _is_number(one) and 'number' in what else TypeError
                raise about(kind('%s= of %s is %s, not %s: %s' % (
                    called, algorithm.function.__name__, what, _shorten_repr(one),
                    _advice(algorithm, called, signature))), called) from None
        return bound
    return bind


def _shorten_repr(one: object) -> str:
    """What came, in a few words."""
    words = shown(one)
    is_long = '\n' in words or (len(words) > LONGEST and not _is_number(one))
    return 'of type ' + type(one).__name__ if is_long else words


def _unknown(algorithm: Algorithm, signature: inspect.Signature, said: str,
             named: Mapping[str, object]) -> str:
    """What is said of a call whose arguments are others than the function has."""
    name = algorithm.function.__name__
    wrong = next((called for called in named if called not in signature.parameters), None)
    if wrong not in WEIGHTS:
        return '%s: %s' % (said, _advice(algorithm, wrong or '', signature))
    if 'weighted' in signature.parameters:
        return ('%s has no %s=: weighted=True counts the values of edges, which are the weights'
                % (name, wrong))
    is_plain = next(iter(signature.parameters)) == 'G'
    why = 'it counts each edge as 1' if is_plain else 'it counts values anyway'
    words = ['%s has no %s=: %s' % (name, wrong, why), algorithm.hints.get('weighted')]
    return '; '.join(filter(None, words))


def _advice(algorithm: Algorithm, called: str, signature: inspect.Signature) -> str:
    """How the function is called, and what may have been meant."""
    words = ', '.join(one.name if one.default is one.empty else '%s=%r' % (one.name, one.default)
                      for one in signature.parameters.values())
    hint = algorithm.hints.get(called)
    return 'it is called as %s(%s)%s' % (algorithm.function.__name__, words,
                                         '; ' + hint if hint else '')


# -- units of values

def _in_unit(algorithm: Algorithm, given: inspect.BoundArguments) -> Any:
    """What an algorithm gives, which takes graphs of any unit. UnitsDiffer where a graph and its
    transpose have two, and values count."""
    some = given.arguments
    if algorithm.reads_unit or not any(isinstance(one, Matrix) and one.unit != 1
                                       for one in some.values()):
        return algorithm.function(**some)
    graph = next(iter(some.values()))
    unit = graph.unit if isinstance(graph, Matrix) else 1
    counts = algorithm.values or bool(some.get('weighted'))
    for other in (some.get('GT'), some.get('WT')) if counts else ():
        if isinstance(other, Matrix):
            scales.common('%s of a graph and its transpose' % algorithm.function.__name__, unit,
                          other.unit)
    if counts and algorithm.lengths and some.get('cutoff') is not None:
        some['cutoff'] = _floor(some['cutoff'], unit)
    # so that a graph that is its own transpose stays so
    views: Dict[int, Any] = {}
    for name, one in some.items():
        if isinstance(one, Matrix):
            some[name] = views.setdefault(id(one), with_unit(one, 1))
    found = algorithm.function(**some)
    if not counts or not algorithm.lengths or isinstance(unit, scales.TimeUnit):
        return found                               # a sum of times is no time
    return _mark_unit(found, unit)


def _floor(cutoff: Optional[Exact], unit: int) -> Any:
    """The greatest stored number that is no farther."""
    try:
        return math.floor(scales.exact_in(cutoff, unit))
    except (TypeError, ValueError):                # the algorithm says what is wrong with it
        return cutoff


def _mark_unit(found: object, unit: int) -> Any:
    """A result whose lengths are in a unit: a matrix, a path, a tree of paths, or a list of these.
    """
    if isinstance(found, Matrix):
        found.unit = unit
    elif hasattr(found, 'set_unit'):
        found.set_unit(unit)
    elif isinstance(found, list):
        for one in found:
            _mark_unit(one, unit)
    return found
