"""What a graph is known to be: found out by jobs where it is first asked, and kept with the matrix,
so that it is paid once."""
from __future__ import annotations

import random
from typing import Any, Callable, Optional, Tuple, cast

from ..prices import ESTIMATES, estimate_here
from ..matrix import Matrix
from ..metadata import NOTHING
from ..matrix_base import alias, is_same
from ..operators import asm
from ..result_metadata import of_transpose

# Of an entry (i, j) a number that is that of (j, i) with the other sign. The thunk is an odd number
# drawn at random. The entries of a graph whose edges all lead both ways add up to 0; those of any
# other but by chance.
_BOTH_WAYS = asm('index', '''add64 r2, r4
add64 r3, r4
mov64 r0, r2
mul64 r0, r3
mov64 r5, r0
rsh64 r5, 29
xor64 r0, r5
sub64 r2, r3
mul64 r0, r2
exit
''')
_HASH = '''mov64 r0, r2
mul64 r0, r4
mov64 r5, r0
rsh64 r5, 32
xor64 r0, r5
add64 r0, r3
mul64 r0, r4
mov64 r5, r0
rsh64 r5, 29
xor64 r0, r5
%sexit
'''
_TURN = 'mov64 r5, r2\nmov64 r2, r3\nmov64 r3, r5\n'
_WITH_VALUE = 'mul64 r0, r4\nxor64 r0, r1\nmul64 r0, r4\nmov64 r5, r0\nrsh64 r5, 29\nxor64 r0, r5\n'
# A number of each entry's place, or of its place and value; and the same of the transpose's entry.
_PLACES = asm('index', _HASH % ''), asm('index', _TURN + _HASH % '')
_VALUES = asm('index', _HASH % _WITH_VALUE), asm('index', _TURN + _HASH % _WITH_VALUE)
ONE_WAY = 'expected an undirected graph, but an edge leads one way alone'
LOOPS = 'expected a graph without loops, but there is an edge from a vertex to itself'
UNDIRECTED = (': algorithms.undirected(G) is the graph without directions, weights and loops; '
              'check=False leaves this check out')


def found(graph: Matrix, name: str, find: Callable[[], Any]) -> Any:
    """A fact of a graph's entries: as it was found before, or as it is found now. Of a matrix
    another one each time, without names."""
    estimate = estimate_here() if ESTIMATES else None
    kept = graph.kept if estimate is None else estimate.facts_of(graph.kept)
    if name not in kept:
        kept[name] = find()
    fact = kept[name]
    return alias(fact, NOTHING) if isinstance(fact, Matrix) else fact


def _odd() -> int:
    return random.SystemRandom().getrandbits(62) | 1


def is_both_ways(graph: Matrix) -> bool:
    """Whether each edge leads both ways, whatever the values. 2 jobs (13 steps an edge and 5 a
    vertex) fold numbers that are drawn at random. A graph of another kind passes by a chance of
    less than one in 2^30."""
    if graph.directed is False:
        return True
    known: bool = found(graph, 'both ways',
                        lambda: not graph.apply(_BOTH_WAYS, _odd()).reduce_scalar('plus'))
    return known


def has_loops(graph: Matrix) -> bool:
    """Whether an edge leads from a vertex to itself. 1 job (5 steps an edge)."""
    known: bool = found(graph, 'loops', lambda: graph.select('diag').nvals > 0)
    return known


def extremes(graph: Matrix) -> Tuple[int, int]:
    """The least and the greatest value, 0 where there is none. 4 jobs (8 steps an edge and 4 a
    vertex)."""
    known: Tuple[int, int] = found(graph, 'extremes', lambda: (
        graph.reduce_scalar('min', raw=True) or 0, graph.reduce_scalar('max', raw=True) or 0))
    return known


def check_weights(graph: Matrix, bits: int = 62) -> None:
    """ValueError where a value is below 0, or all together could be 2^bits or more."""
    least, most = extremes(graph)
    if least < 0 or most * max(1, graph.nvals) >= 1 << bits:
        raise ValueError('weights are 0 or more, and add up to less than 2^%d: here they are %d to '
                         '%d' % (bits, least, most))


def check_undirected(graph: Matrix, loops: bool) -> None:
    """ValueError where an edge leads one way alone, or, unless they are allowed, from a vertex to
    itself."""
    if not is_both_ways(graph):
        raise ValueError(ONE_WAY + UNDIRECTED)
    if not loops and has_loops(graph):
        raise ValueError(LOOPS + UNDIRECTED)


def is_transpose(graph: Matrix, other: Matrix, values: bool = False) -> bool:
    """Whether another matrix is the transpose: its places, and where `values` is set its values. 4
    jobs (up to 24 steps an edge), as `is_both_ways`."""
    if is_same(other, graph) and not values:
        return is_both_ways(graph)
    if graph.nvals != other.nvals:
        return False
    thunk, (straight, turned) = _odd(), _VALUES if values else _PLACES
    own, theirs = graph.apply(straight, thunk), other.apply(turned, thunk)
    return bool(own.reduce_scalar('plus') == theirs.reduce_scalar('plus'))


def transpose_of(graph: Matrix, given: Optional[Matrix], check: bool,
                 values: bool = False) -> Matrix:
    """The transpose: the one that is given (a ValueError where it isn't), or the graph itself
    where each edge leads both ways. Else one is made, and kept while the graph is held."""
    if given is not None:
        held = graph.kept.get('transpose')
        if check and not ((held is not None and is_same(held, given))
                          or is_transpose(graph, given, values)):
            raise ValueError('GT has to be the transpose, and is not: G.T is, and G itself where '
                             'each edge leads both ways; check=False leaves this check out')
        return given
    if not values and is_both_ways(graph):
        return graph
    made: Any = found(graph, 'transpose', lambda: graph.T)
    made.notes = of_transpose(cast(Any, graph).notes)
    result: Matrix = made
    return result
