"""An edge attribute of a networkx graph as whole numbers of 64 bits.

Weights that are whole multiples of a power of ten, as 0.25 is of 0.01, or of a power of two, are
computed with exactly. Lengths of paths are then the floats nearest to the true sums, where networkx
adds floats one by one. Of paths that are equally long it takes the one that networkx takes. Where
floats that are added one by one differ in the last bit, networkx may take another of them. With the
setting `scale` all weights are multiplied by it and rounded.
"""
from __future__ import annotations

import fractions
import itertools
import math
import numbers
import operator
from typing import Any, Dict, Iterable, List, NamedTuple, Optional, Tuple

import numpy

# units are 1 over a divisor of one of these
MOST_DECIMAL, MOST_BINARY = 10 ** 9, 1 << 40
UNEVEN = ('the edge attribute %r has values that are no whole multiples of a power of ten or two: '
          'nx.config.backends.spmat.scale = 1e6 rounds them')
FOLDS: Dict[str, Any] = {'min': min, 'max': max, 'plus': sum}


class Key(NamedTuple):
    """What decides the values of an edge attribute: its name, and the value where an edge has none.
    Then the fold of parallel edges (None if a graph can't have any), and the scale that is set."""
    name: Any
    default: Any
    fold: Optional[str]
    scale: float


class Values(NamedTuple):
    """An edge attribute at each entry of the matrix: whole numbers as an array, and the least and
    the greatest of them. `unit` is how many of them are 1: None if all were whole numbers, 1 if one
    was a float. `read` is what the graph has."""
    many: Any
    least: int
    most: int
    unit: Optional[int]
    read: List[Any]


def list_neighbours(graph: Any) -> Dict[Any, Dict[Any, Any]]:
    """The neighbours of each node, in the graph's order. Views may count others than they give, so
    what they give is copied."""
    return {node: near if type(near) is dict else dict(near.items())
            for node, near in graph.adjacency()}


def list_edge_data(graph: Any) -> List[Any]:
    """List the attributes at each entry: networkx' dict of an edge, or of a multigraph {key:
    dict}."""
    return [data for near in list_neighbours(graph).values() for data in near.values()]


def list_attribute(data: List[Any], key: Key) -> List[Any]:
    """List an edge attribute as the graph has it, each parallel edge by itself."""
    held = data if key.fold is None else [had for keys in data for had in keys.values()]
    return [had.get(key.name, key.default) for had in held]


def read_values(data: List[Any], key: Key) -> Values:
    """Read an edge attribute as whole numbers.

    Raises
    ------
    NotImplementedError
        If a value is no whole multiple of a power of ten or two.
    """
    found = list_attribute(data, key)
    try:
        whole, unit = _make_whole(found, key)
        if key.fold is not None:
            each = iter(whole)
            whole = [FOLDS[key.fold](itertools.islice(each, len(keys))) for keys in data]
        many = numpy.fromiter(whole, numpy.int64, len(whole))
    except (TypeError, ValueError, OverflowError) as fault:
        raise NotImplementedError('the edge attribute %r: %s' % (key.name, fault)) from None
    least, most = (int(many.min()), int(many.max())) if len(many) else (0, 0)
    return Values(many, least, most, unit, found)


def _make_whole(found: List[Any], key: Key) -> Tuple[List[int], Optional[int]]:
    """Values as whole numbers, and how many of these are 1."""
    kinds = set(map(type, found))
    if kinds <= {int}:
        return found, None
    try:
        are_floats = any(issubclass(kind, float) for kind in kinds)
        return list(map(_to_int, found)), 1 if are_floats else None
    except ValueError:
        different = set(found)
        known, unit = (_round(different, key.scale) if key.scale
                       else _find_multiples(different, key.name))
        return [known[value] for value in found], unit


def _to_int(value: Any) -> int:
    """A whole number as an int. TypeError for what is no number, ValueError if it isn't whole."""
    if hasattr(value, '__index__'):
        return operator.index(value)
    if not isinstance(value, numbers.Real):
        raise TypeError('a weight is a whole number, or a float, not %r' % (value,))
    if value % 1 != 0:
        raise ValueError('%r is not whole' % (value,))
    return int(value)


def _round(values: Iterable[Any], scale: float) -> Tuple[Dict[Any, int], int]:
    """Each value times the scale, rounded."""
    if scale != int(scale):
        raise NotImplementedError('nx.config.backends.spmat.scale is %r, and results are divided '
                                  'by a whole one alone' % scale)
    return {value: round(_make_exact(value, MOST_DECIMAL) * int(scale))
            for value in values}, int(scale)


def _find_multiples(values: Iterable[Any], name: Any) -> Tuple[Dict[Any, int], int]:
    """Each value as a whole multiple of a unit."""
    for limit in (MOST_DECIMAL, MOST_BINARY):
        exact = {value: _make_exact(value, limit) for value in values}
        unit = math.lcm(*(number.denominator for number in exact.values()))
        if limit % unit == 0:
            return {value: int(number * unit) for value, number in exact.items()}, unit
    raise NotImplementedError(UNEVEN % (name,))


def _make_exact(value: Any, limit: int) -> fractions.Fraction:
    """A weight as it is stored, or as it is written if units are decimal: the float .1 is stored as
    0.1000000000000000055, and who wrote it meant a tenth."""
    if hasattr(value, '__index__'):
        return fractions.Fraction(int(value))
    number = float(value)
    if not math.isfinite(number):
        raise ValueError('a weight is a finite number, not %r' % (value,))
    return fractions.Fraction(repr(number) if limit == MOST_DECIMAL else number)


def unscale(length: int, unit: Optional[int]) -> Any:
    """A length, or a sum of lengths, as networkx has it: a whole number, or a float if one of the
    weights was."""
    return length if unit is None else length / unit


def scale_cutoff(cutoff: Any, unit: Optional[int]) -> Any:
    """The length up to which paths count, in whole units."""
    if cutoff is None or unit in (None, 1) or math.isinf(cutoff):
        return cutoff
    # written or stored, as the weights were read that have this unit
    limit = MOST_BINARY if MOST_DECIMAL % (unit or 1) else MOST_DECIMAL
    return math.floor(_make_exact(cutoff, limit) * (unit or 1))
