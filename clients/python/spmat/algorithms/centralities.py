"""Centrality by links: PageRank, eigenvector and Katz centrality, hubs and authorities, by rounds
in whole numbers, with how far off they may be."""
from __future__ import annotations

import math
from fractions import Fraction
from typing import Any, Callable, Dict, List, Mapping, NamedTuple, Optional, Tuple, cast

import numpy

from ..errors import about
from ..integers import shown
from ..matrix import Matrix
from ..matrix_base import with_unit
from ..operators import Operator, Semiring, asm, binary
from ..scale import exact_number
from ..types import Array
from .cached_properties import check_weights, found, is_both_ways
from .registry import algorithm
from .results import CHANGE, RESIDUAL, Centrality, as_centrality, keep_partial, unit_of
from .rounds import SPARE, Process, Products, Room, Rounds, Scale, Vectors, settle
from .traversal import Traversal, Vector, find_flow, put_all, put_column, read_column, vector_of
from .utils import Progress, beside, count_edges, find_place, tell

__all__ = ['eigenvector', 'hits', 'katz', 'pagerank']

# -- PageRank in fixed point
#
# What comes to a vertex along its edges is its flow. Its rank is the damping times the flow and
# what it is given anew. Along each unit of weight it hands on a share of its rank: that is a
# product with a reciprocal, which is kept with the graph, and a shift. So no round divides. A round
# makes the distance from the true flows less by the damping: so how far its result is from them
# follows from what it changed.

# the units of a rank of 1, unless there are too many vertices for it
ONE = 1 << 40
MOST_SCALE = 52                                    # bits
MOST_ROUNDS = 1 << 62                              # each takes ranks nearer, so few are made
TOLERANCE, MOST_TOLERANCE = 1e-6, .25              # the usual one; and a greater one is none
# what a few operations on floats take, as a share
FLOATS = 2.0 ** -50
DIGITS = (3, 4, 5, 6)                              # decimals that a damping may have
# bits of a reciprocal; and of half a factor or constant, so that products of halves fit into a word
BITS, HALF = 62, 31
# of a share: rounded down, its three products, and its reciprocal, which a rank of 2 ** 63 takes
# four times
SHARE_ROUNDING = 7
# rsh64 knows no sign, and neither factor has one; r0 is the rank, and r2 the reciprocal
SHARE = '''mov64 r3, r0
rsh64 r3, {half}
and64 r0, {mask}
mov64 r4, r2
rsh64 r4, {half}
and64 r2, {mask}
mul64 r0, r4
rsh64 r0, {half}
mul64 r2, r3
rsh64 r2, {half}
mul64 r3, r4
add64 r0, r2
add64 r0, r3
exit
'''.format(half=HALF, mask=(1 << HALF) - 1)
SHARE_OF_ALL = asm('binary', 'mov64 r0, r1\n' + SHARE)
Weights = Mapping[Any, float]


def given_by(graph: Matrix, weights: Optional[Weights], unit: int) -> Vector:
    """What each vertex is given of one unit: in proportion to its weight, or all the same.
    ValueError where a key is no vertex, a weight is negative, or all are 0."""
    count = graph.nrows
    if weights is None:
        return Vector(numpy.arange(count), numpy.full(count, unit // count))
    total = float(sum(weights.values()))
    if not 0 < total < math.inf or min(weights.values()) < 0:
        raise ValueError('weights of vertices are 0 or more, and one is above 0')
    values = numpy.zeros(count, numpy.int64)
    for key, weight in weights.items():
        values[int(find_place(graph, key))] = int(unit * (float(weight) / total))
    return Vector(numpy.arange(count), values)


def out_weights(lines: Traversal, weighted: bool) -> Matrix:
    """The weight of the edges that leave each vertex, or their number, beside the graph; kept with
    it."""
    graph = lines.graph

    def find() -> Matrix:
        if not weighted and not lines.is_full and is_both_ways(graph):
            return lines.step(lines.ones(), Semiring(binary.plus, binary.first))
        out = graph.reduce_rowwise('plus').select('nonzero') if weighted else count_edges(graph)
        return out if lines.is_full else lines.put(read_column(out))
    made: Matrix = found(graph, '%s of edges as %s'
                         % ('weights' if weighted else 'numbers', type(lines).__name__), find)
    return made


class Damping(NamedTuple):
    """A damping as a fraction in whole numbers."""
    parts: int
    whole: int

    @property
    def value(self) -> float:
        """The damping."""
        return self.parts / self.whole

    @property
    def bits(self) -> int:
        """The bits of a rank of 1, so that flows and what is given anew never add up to 2 ** 63."""
        return BITS - math.ceil(math.log2((1 + 1 / self.value) / 2))


def damping_of(damping: float) -> Damping:
    """A damping as a fraction. ValueError where it isn't between 0 and 1, or has more than six
    decimals."""
    for digits in DIGITS:
        whole = 10 ** digits
        parts = round(damping * whole)
        if 0 < parts < whole and abs(damping * whole - parts) < 1e-6:
            return Damping(parts, whole)
    raise about(ValueError('the damping lies between 0 and 1, and has at most %d decimals: not %r'
                           % (DIGITS[-1], damping)), 'damping')


class System:
    """A graph along whose edges ranks flow: each vertex gives each edge that leaves it the share of
    its rank that the edge has of the weight of all. Ranks of vertices that no edge leaves are lost.
    `bits` are the units of ranks."""

    def __init__(self, lines: Traversal, out: Matrix, weighted: bool, damping: Damping) -> None:
        self.damping, self.lines, self.bits = damping, lines, damping.bits
        self.fills = lines.wants_full(out)         # then all vertices have shares
        self._weighted, self._out = weighted, out
        self._ring = Semiring(binary.plus, binary.times if weighted else binary.first)
        self.reciprocals: Matrix = found(lines.graph, 'reciprocals of %d/%d of %s, %s' % (
            *damping, type(lines).__name__, weighted), self._find_reciprocals)

    def _find_reciprocals(self) -> Matrix:
        """The damping, divided by the weight of the edges that leave each vertex."""
        out = self._out.ewise_add(self.lines.ones(), 'first') if self.fills else self._out
        unit = (self.damping.parts << BITS) // self.damping.whole
        return out.apply(asm('unary', 'wide r0, %d\ndiv64 r0, r1\nexit\n' % unit))

    def flow(self, shares: Matrix) -> Matrix:
        """What comes to each vertex of the shares that others hand on."""
        return self.lines.step(shares, self._ring)

    def shares(self, ranks: Matrix) -> Matrix:
        """The shares of ranks, which all vertices have."""
        return ranks.ewise_mult(self.reciprocals, SHARE_OF_ALL)

    def shares_of(self, rank: int) -> Matrix:
        """The shares of one rank."""
        text = 'mov64 r2, r1\nwide r0, %d\n%s' % (rank, SHARE)
        return self.reciprocals.apply(asm('unary', text))

    def factors(self, flow: Matrix, base: int) -> Matrix:
        """The reciprocals of the vertices to which something comes, and of others the shares of
        what they are given anew. They are kept with the graph, whose edges say to whom something
        comes."""
        def find() -> Matrix:
            reached = flow.ewise_mult(self.reciprocals, 'second')
            return reached.ewise_add(self.shares_of(base), 'first')
        made: Matrix = found(self.lines.graph, 'factors of %d for %d/%d of %s, %s' % (
            base, *self.damping, type(self.lines).__name__, self._weighted), find)
        return made

    def rounding(self, count: int, weight: int) -> float:
        """What rounding may take of all ranks together in one round, where edges weigh so much."""
        damping = self.damping.value
        return (damping * (SHARE_ROUNDING * weight + count) + count) / 2.0 ** self.bits

    def rank(self, flow: float) -> float:
        """The ranks of flows, as shares of all."""
        return flow * self.damping.value / 2.0 ** self.bits


class Flowing(NamedTuple):
    """A round of flows. Where all vertices are given the same anew, an operator adds that to a
    flow, and turns it into shares by its vertex' factor. Else what they are given is added before.
    """
    system: System
    given: Matrix
    turn: Optional[Operator]

    def make(self, numbers: Matrix) -> Dict[str, Matrix]:
        """The next flows."""
        shares = (self.system.shares(self.given.ewise_add(numbers, 'plus')) if self.turn is None
                  else numbers.ewise_add(self.given, self.turn))
        return {'now': self.system.flow(shares)}


class Ranking(Process):
    """Rounds of a system, where each vertex is given so much in all."""

    first = 5

    def __init__(self, system: System, given: Vector, aim: float, progress: Progress) -> None:
        damping = system.damping
        self.system = system
        self.anew = scaled(given, damping.whole - damping.parts, damping.parts)
        most = max(1, math.ceil(math.log(aim / 2) / math.log(damping.value)))
        begun = scaled(given, damping.whole, damping.parts)
        is_even = bool((given.values == given.values[0]).all())
        flow = system.flow(system.shares_of(int(begun.values[0])) if is_even
                           else system.shares(system.lines.put(begun)))
        tell(progress, 'round', 1, most)
        super().__init__(Rounds(flow, 1, progress, most), aim, MOST_ROUNDS)
        self._step = self._step_of(flow, is_even)
        # at the last look: a bound of the distance, and what all ranks add up to
        self._bound, self._looked, self.total = 2 * damping.value, 1, 0.0

    def _step_of(self, flow: Matrix, is_even: bool) -> Flowing:
        system = self.system
        if not is_even:
            return Flowing(system, system.lines.put(self.anew), None)
        base = int(self.anew.values[0])
        turn = asm('binary', 'wide r0, %d\nadd64 r0, r1\n%s' % (base, SHARE))
        return Flowing(system, system.factors(flow, base), turn)

    @property
    def distance(self) -> float:
        """How far ranks that add up to one may be from the true ones. By what is lost distances
        grow as shares."""
        since = self.system.damping.value ** (self.rounds.number - self._looked)
        return self._bound * since * (1 if self.total > 1 - 1e-9 else 2 / max(self.total, 1e-300))

    def look(self) -> float:
        """The distance, by what the last round changed; the first one has none before it."""
        state, damping = self.rounds.state, self.system.damping.value
        number = self.rounds.number
        if number == 1:
            return math.inf
        apart = state.now.ewise_mult(state.before, 'absdiff')
        change = self.system.rank(apart.reduce_scalar('plus') or 0)
        self._bound = min(self._bound * damping ** (number - self._looked),
                          change * damping / (1 - damping))
        self._looked = number
        self.total = self.system.rank((state.now.reduce_scalar('plus') or 0)
                                      + int(self.anew.values.sum()))
        return self.distance

    def choose(self, ahead: int) -> Tuple[Flowing, int]:
        """The step, as often as the distance may ask for."""
        wanted = math.inf
        if self.rounds.number > 1:
            wanted = math.log(self.aim / self.distance) / math.log(self.system.damping.value)
        return self._step, max(1, min(ahead, math.ceil(min(wanted, ahead))))

    def ranks(self) -> Array:
        """The rank of each vertex in units of 2 ** -bits."""
        at, came = self.system.lines.read(self.rounds.state.now)
        ranks = self.anew.values.astype(float)
        ranks[at] += came
        return ranks * self.system.damping.value


def scaled(vector: Vector, times: int, by: int) -> Vector:
    """Values times a number by another, rounded down."""
    values = vector.values
    return Vector(vector.at, values // by * times + values % by * times // by)


class Aim(NamedTuple):
    """How far ranks may be from the true ones, all together; how much of that rounding takes; and
    the units of a rank of 1 that are told."""
    tolerance: float
    rounding: float
    scale: int

    @property
    def rest(self) -> float:
        """What rounds may leave."""
        return self.tolerance - self.rounding


def find_aim(system: System, weight: int, tolerance: Optional[float], scale: Optional[int]) -> Aim:
    """What is aimed at. Where no tolerance is given it is 1e-6, or the least that can be kept.
    Where no scale is, it is 2^40, or up to 2^52 if the tolerance needs that many bits. ValueError
    where rounding takes more than half of a tolerance, or the least says nothing."""
    count = system.lines.count
    # in as many rounds as there may be
    flows = 2 * system.rounding(count, weight) / (1 - system.damping.value) + FLOATS
    if tolerance is None:
        tolerance = max(TOLERANCE, 4.1 * flows)
        if tolerance >= MOST_TOLERANCE:
            raise ValueError('weights that add up to %d leave ranks no digits: divide the weights'
                             % weight)
    wanted = math.ceil(math.log2(2 * max(1, count) / tolerance))
    if scale is None:
        scale = 1 << max(ONE.bit_length() - 1, min(MOST_SCALE, wanted))
    result = count / (2.0 * scale)
    if flows > tolerance / 4:
        raise ValueError('a tolerance of %g can not be kept: rounding takes up to %.2g, by %d '
                         'vertices and weights that add up to %d, and a quarter of the tolerance '
                         'is for it: give a tolerance of %.2g or more, or smaller weights'
                         % (tolerance, flows, count, weight, 4.1 * flows))
    if result > tolerance / 4:
        raise ValueError('a tolerance of %g wants ranks in smaller units: scale=2**%d, or more%s'
                         % (tolerance, wanted, '' if wanted <= 52 else ', which is above 2^52'))
    return Aim(tolerance, flows + result, scale)


@algorithm('the PageRank of each vertex', scale=ONE, ranked=True,
           ranges={'scale': (1, 1 << MOST_SCALE)},
           runs=lambda g: 4 * g.rounds + 8)
def pagerank(G: Matrix, GT: Optional[Matrix] = None, damping: float = 0.85,
             tolerance: Optional[float] = None, scale: Optional[int] = None,
             progress: Progress = None, *, weighted: bool = False,
             personalization: Optional[Weights] = None, dangling: Optional[Weights] = None,
             check: bool = True) -> Centrality:
    """The PageRank of each vertex, as a column in units of 1/scale.

    Parameters
    ----------
    G : Matrix
        The graph; an entry (i, j) is an edge from i to j.
    GT : Matrix, optional
        The transpose. Row blocks use it, and large graphs in a session of three workers or more; by
        default the client makes it.
    damping : float, default 0.85
        The share of a rank that goes on along edges; at most six decimals.
    tolerance : float, optional
        The most that all ranks together differ from the true ones, rounding included: 1e-6 by
        default. With very great weights it is the least that rounding allows; the result's
        `tolerance` says what it was. A tolerance that can't be met is refused.
    scale : int, optional
        The units of a rank of 1, up to 2^52. The default is 2^40, or with more than 549,755
        vertices the least power of two that meets the tolerance.
    progress : callable, optional
        `progress('round', k, n)` is called after each round. There are at most n, 90 by default:
        log(tolerance / 2) / log(damping). Graphs with many vertices without outgoing edges may take
        more.
    weighted : bool, default False
        Whether a vertex shares its rank among its edges by their values; otherwise each edge counts
        as 1.
    personalization : dict, Series or column, optional
        A weight for each vertex, 0 for those it doesn't name: how the new rank of each round is
        shared out. By default all vertices get the same.
    dangling : dict, Series or column, optional
        How the rank of vertices without outgoing edges is shared out; as by `personalization` by
        default.
    check : bool, default True
        Whether values are checked not to be negative (4 jobs, once), and `GT` to be the transpose.

    Returns
    -------
    Centrality
        A column of ranks, which add up to `scale`. `error` bounds how far all ranks together are
        from the true ones.

    Raises
    ------
    ValueError
        If damping, tolerance, scale or weights are out of range, values are negative, or `GT` isn't
        the transpose.
    BudgetExceeded
        If the budget runs out; `partial` has the ranks of the last round with their `error`, but
        with `dangling`.

    See Also
    --------
    eigenvector : The eigenvector centrality.
    katz : Another damped centrality.
    hits : Hubs and authorities.

    Notes
    -----
    Power iteration in whole numbers, as a loop on the server. Every few rounds the client asks
    whether the tolerance is met, and ends the rounds as soon as it is.

    Cost: up to 5 steps per edge and 16 per vertex, per round, with 2 runs per round, and 11.

    With weights a round takes 6 steps per edge and 18 per vertex, and with `personalization` a run
    more. `dangling` doubles all of it. Preparation takes 5 steps per edge and 55 per vertex, and
    each question 15 per vertex and 3 runs.

    GraphBLAS: `vxm` over plus and first, damped. LAGraph: `LAGr_PageRank`. networkx: `pagerank`.

    Examples
    --------
    >>> import spmat
    >>> from spmat.algorithms import pagerank
    >>> G = spmat.Session().from_edgelist(
    ...     [(0, 1), (0, 2), (1, 2), (2, 3), (3, 4), (3, 5), (4, 5)], directed=False)
    >>> [round(rank, 3) for rank in pagerank(G).by_node().values()]
    [0.146, 0.146, 0.208, 0.208, 0.146, 0.146]
    """
    count = G.nrows
    if tolerance is not None and not 0 < tolerance < 1:
        raise about(ValueError('a tolerance lies between 0 and 1, and this one is %s'
                               % shown(tolerance)), 'tolerance')
    parts = damping_of(damping)
    if count == 0:
        return as_centrality(put_column(G, vector_of([], [])), scale or ONE, 0.0,
                             tolerance=tolerance, rounds=0)
    lines = find_flow(G, GT, check, values=weighted)
    out = out_weights(lines, weighted)
    weight = _weight(G, out, weighted, check)
    system = System(lines, out, weighted, parts)
    aim = find_aim(system, weight, tolerance, scale)
    unit, begun = 1 << system.bits, cast(List[Ranking], [])

    def partial() -> Optional[Centrality]:
        if not begun or dangling is not None:
            return None
        one = begun[0]
        ranks = one.ranks()
        one.total = float(ranks.sum()) / 2.0 ** system.bits
        return _column(G, ranks, aim, aim.rounding + one.distance, one.rounds.number)
    with keep_partial(partial):
        begun.append(Ranking(system, given_by(G, personalization, unit), aim.rest, progress))
        settle(begun[0])
        ranking, ranks = begun[0], begun[0].ranks()
    if dangling is None or ranking.total > 1 - 1e-9:
        return _column(G, ranks, aim, aim.rounding + ranking.distance, ranking.rounds.number)
    others = Ranking(system, given_by(G, dangling, unit), aim.rest, progress)
    settle(others)
    lost, again = _lost(ranking.total, parts), _lost(others.total, parts)
    share = parts.value * lost / (1 - parts.value - parts.value * again)
    return _column(G, ranks + share * others.ranks(), aim, aim.tolerance,
                   ranking.rounds.number + others.rounds.number)


def _lost(total: float, damping: Damping) -> float:
    """What vertices have that no edge leaves, from what all have: all = 1 - damping, and damping
    times what isn't lost."""
    return total - (total - (1 - damping.value)) / damping.value


def _weight(G: Matrix, out: Matrix, weighted: bool, check: bool) -> int:
    """What all edges weigh together. ValueError where a value is negative, or they add up to too
    much."""
    if not weighted:
        return G.nvals
    if check:
        check_weights(G)
    return out.reduce_scalar('plus') or 0


def _column(G: Matrix, ranks: Array, aim: Aim, error: float, rounds: int) -> Centrality:
    """Ranks that add up to one, in units of 1/scale."""
    shares = numpy.rint(ranks * (aim.scale / float(ranks.sum()))).astype(numpy.int64)
    return as_centrality(beside(G, put_all(G, shares)), aim.scale, error, tolerance=aim.tolerance,
                         rounds=rounds)


# -- eigenvector and Katz centrality, hubs and authorities

# of the greatest number of a vector, or fewer where sums leave no room
MOST_BITS = 40
ROUNDS = 1000
LEAST_BITS = 16
RANGES = {'scale': (1, 1 << 52), 'rounds': (1, None)}
# bits by which numbers may grow, and so many more where they do
ROOM, MORE_ROOM = 16, 8
USUAL = 1e-9                                       # tolerance
# bits that a product of great weights leaves out, and that sums of great weights have
LEFT_OUT, HEAVY = 32, 20
# x y / 2^32, rounded down, of numbers from 0 on whose product may have more than 64 bits
HIGH = asm('binary', '''mov64 r3, r1
rsh64 r3, 32
mov64 r4, r2
rsh64 r4, 32
mov32 r1, r1
mov32 r2, r2
mov64 r0, r3
mul64 r0, r4
lsh64 r0, 32
mul64 r3, r2
add64 r0, r3
mul64 r4, r1
add64 r0, r4
mul64 r1, r2
rsh64 r1, 32
add64 r0, r1
exit
''', 'high_product')
# r1, and r2 times a constant of 62 bits, of which those behind the point are left out
WIDE = '''mov64 r3, r2
rsh64 r3, 31
and64 r2, {mask}
mov64 r4, r2
mul64 r4, {low}
rsh64 r4, 31
mov64 r0, r3
mul64 r0, {high}
mul64 r3, {low}
mul64 r2, {high}
add64 r3, r2
add64 r3, r4
rsh64 r3, 31
add64 r0, r3
add64 r0, r1
exit
'''
WHOLE = 'wide r5, %d\nmul64 r5, r2\nadd64 r1, r5\n'


class Grown(NamedTuple):
    """Numbers, and what comes to each vertex of them. `everywhere` says whether something comes to
    each one that has a number."""
    products: Products
    everywhere: bool
    scale: Scale

    def make(self, numbers: Matrix) -> Dict[str, Matrix]:
        """The product, and a union, whose copies a second operator has to scale."""
        flow = self.products.comes(numbers)
        if self.everywhere:
            scaled = self.scale.operator('binary', 'mov64 r0, r1\nadd64 r0, r2\n')
            return {'now': numbers.ewise_add(flow, scaled)}
        scaled = self.scale.operator('unary', 'mov64 r0, r1\n')
        return {'now': numbers.ewise_add(flow, 'plus').apply(scaled)}


class Mutual(NamedTuple):
    """Hubs, from the authorities that come from hubs, which are told in units of 2^`shift`. `zeros`
    is what they are added to, where columns had better be full."""
    products: Products
    shift: int
    zeros: Optional[Matrix]
    scale: Scale

    def make(self, numbers: Matrix) -> Dict[str, Matrix]:
        """Two products, and what scales each, if need be."""
        came = self.products.comes(numbers)
        if self.shift:
            came = came.apply(asm('unary', 'mov64 r0, r1\nrsh64 r0, %d\nexit\n' % self.shift))
        now = self.products.leads(self._filled(came))
        scaled = self.scale.operator('unary', 'mov64 r0, r1\n')
        return {'now': self._filled(now.apply(scaled)), 'came': came}

    def _filled(self, numbers: Matrix) -> Matrix:
        return numbers if self.zeros is None else self.zeros.ewise_add(numbers, 'plus')


def find_products(G: Matrix, GT: Optional[Matrix], weighted: bool, check: bool) -> Products:
    """The products of a graph. ValueError where a value is below 0, or they add up to too much."""
    if weighted:
        check_weights(G)
    return Products(find_flow(G, GT, check, weighted), weighted, GT)


def _bits(heaviest: int) -> int:
    """How many bits a number may have so that no sum of them passes 62, where the edges of no
    vertex weigh more than so much. ValueError where these are too few."""
    bits = min(MOST_BITS, 60 - heaviest.bit_length())
    if bits < LEAST_BITS:
        raise ValueError('edges of one vertex that weigh %d leave no room for fixed point: divide '
                         'the weights' % heaviest)
    return bits


def keep_tolerance(tolerance: Optional[float], usual: float, bits: int,
                   rounding: float = 1) -> float:
    """The tolerance of a caller; without one the usual one, or where rounding takes more, which is
    so much of a number's last bit, the least that can be kept. ValueError where that of the caller
    can't be."""
    least = 8 * rounding / (1 << bits)
    if tolerance is None:
        return max(usual, least)
    if not tolerance >= least:
        raise about(ValueError('a tolerance of %g can not be kept here: rounding takes up to %.2g; '
                               'give a greater one, or none' % (tolerance, least)), 'tolerance')
    return tolerance


def put_numbers(G: Matrix, numbers: Array, scale: int) -> Matrix:
    """Numbers as a column in units of 1/scale. ValueError where one is too great for that."""
    most = float(numbers.max(initial=0))
    if most * scale >= 1 << 63:
        raise ValueError('a number of %.3g has no place in 64 bits in units of 1/%d: give a '
                         'smaller scale=' % (most, scale))
    return beside(G, put_all(G, numpy.rint(numbers * scale).astype(numpy.int64)))


def greatest_of(numbers: Array) -> int:
    """The greatest number, 0 where there is none."""
    return int(numbers.max(initial=0))


def _scale(numbers: Array, bits: int) -> Array:
    """Numbers by a power of two, so that the greatest has so many bits behind its first one;
    nothing but zeros stays as it is. Digits that this takes are left out."""
    shift = greatest_of(numbers).bit_length() - 1 - bits
    scaled: Array = numbers >> shift if shift >= 0 else numbers << -shift
    return scaled


def norm_of(numbers: Array) -> float:
    """The length of a vector."""
    floats = numbers.astype(float)
    return math.sqrt(float(floats @ floats))


class Power(Process):
    """Rounds whose numbers are scaled, up to one whose result changes by less than `aim`, or by no
    more than rounding takes and no less than at the look before. `make` makes a step of a scale,
    and `found` a result of the process."""

    rounds: Vectors

    def __init__(self, rounds: Vectors, room: Room, make: Callable[[Scale], Any],
                 ends: Tuple[float, float, int], found: Callable[['Power'], Any]) -> None:
        aim, self._rounding, limit = ends
        super().__init__(rounds, aim, limit)
        self.moved = self._last = math.inf
        self._room, self._make, self._found = room, make, found
        self._scale: Optional[Scale] = None

    def look(self) -> float:
        """How far numbers of length 1 moved in the last round."""
        rounds = self.rounds
        if self._scale is not None:
            self._room.note(rounds.before, rounds.now, self._scale)
        now, before = rounds.now, rounds.before
        moved = (float(abs(now / norm_of(now) - before / norm_of(before)).sum())
                 if greatest_of(now) else 0.0)
        self._last, self.moved = self.moved, moved if rounds.number else math.inf
        return self.moved

    def ends(self, distance: float) -> bool:
        """Whether they rest."""
        return distance < self.aim or self._last <= distance < self._rounding

    def choose(self, ahead: int) -> Tuple[Any, int]:
        """A step that leaves numbers room for so many rounds, or for fewer."""
        self._scale, count = self._room.choose(greatest_of(self.rounds.now), ahead)
        return self._make(self._scale), count

    def describe(self, distance: float) -> str:
        """That they don't rest."""
        return ('%d rounds, and numbers still change by %.2g, more than %g: give more rounds= or a '
                'greater tolerance=' % (self.limit, distance, self.aim))

    def show(self) -> Any:
        """The numbers of the last look."""
        return self._found(self) if self.rounds.number else None


@algorithm('eigenvector centrality', scale=ONE, ranked=True, ranges=RANGES,
           says='Numbers of which each is in proportion to the sum of those of the vertices that '
                'lead to it, whose squares add up to 1.')
def eigenvector(G: Matrix, GT: Optional[Matrix] = None, tolerance: Optional[float] = None,
                scale: int = ONE, rounds: int = ROUNDS, progress: Progress = None, *,
                weighted: bool = False, check: bool = True) -> Centrality:
    """The eigenvector centrality of each vertex, as a column in units of 1/scale.

    Each number is proportional to the sum of the numbers of the vertices that lead to it. Their
    squares add up to 1.

    Parameters
    ----------
    G : Matrix
        The graph; an entry (i, j) is an edge from i to j.
    GT : Matrix, optional
        The transpose. Row blocks use it, and large graphs in a session of three workers or more; by
        default the client makes it.
    tolerance : float, optional
        Rounds end when all numbers together change by less than this times the number of vertices:
        1e-6 by default. With very great weights it is the least that rounding allows; the result's
        `tolerance` says what it was.
    scale : int, default 2**40
        The units of 1, up to 2^52.
    rounds : int, default 1000
        The most rounds.
    progress : callable, optional
        `progress('round', k, 0)` is called after each round.
    weighted : bool, default False
        Whether values count as weights, 0 or more; otherwise each edge counts as 1.
    check : bool, default True
        Whether to check that `GT` is the transpose: by 4 jobs, once.

    Returns
    -------
    Centrality
        `error` is the residual (2-norm), and no bound: how far one more product, divided by the
        eigenvalue, would move the vector. In an undirected graph the true vector is about as far as
        the residual divided by the relative gap to the next eigenvalue.

    Raises
    ------
    ValueError
        If `rounds` rounds are too few, the graph has no edge, or a value is below 0. Also if a
        tolerance can't be kept, or a number is out of range.
    BudgetExceeded
        If the budget runs out; `partial` has the latest numbers that the client has; its `error` is
        the last change.

    See Also
    --------
    pagerank : A damped centrality.
    katz : Another one.
    hits : Hubs and authorities.

    Notes
    -----
    Power iteration of G + 1 in whole numbers, as a loop on the server. The client looks at the
    numbers at least every eighth round.

    Cost: up to 6 steps per edge and 8 per vertex, per round, with 2 or 3 runs per round.

    networkx: `eigenvector_centrality`. igraph: `eigenvector_centrality`, whose greatest is 1.

    Examples
    --------
    >>> import spmat
    >>> from spmat.algorithms import eigenvector
    >>> G = spmat.Session().from_edgelist(
    ...     [(0, 1), (0, 2), (1, 2), (2, 3), (3, 4), (3, 5), (4, 5)], directed=False)
    >>> [round(number, 3) for number in eigenvector(G).by_node().values()]
    [0.354, 0.354, 0.5, 0.5, 0.354, 0.354]
    """
    if not G.nvals:
        raise ValueError('the graph has no edge: each number is an eigenvector of it')
    products = find_products(G, GT, weighted, check)
    ones, weights = products.fill(1), products.sums()
    bits = _bits(greatest_of(weights))
    kept = keep_tolerance(tolerance, 1e-6, bits)
    everywhere = bool(weights.all()) or (products.is_mutual and not products.lines.is_full)
    # where nothing comes to a vertex its number is 0 in the end, and nothing comes from it
    start = numpy.where(weights > 0, ones + weights, 0) if products.is_mutual else ones + weights
    tell(progress, 'round', 1)

    def show(last: Power) -> Centrality:
        numbers = last.rounds.now
        return as_centrality(put_numbers(G, numbers / norm_of(numbers), scale), scale, last.moved,
                             CHANGE, tolerance=kept, rounds=last.rounds.number)
    power = Power(Vectors(products, ones, _scale(start, bits), 1, progress),
                  Room(bits, 1 + greatest_of(weights)),
                  lambda factor: Grown(products, everywhere, factor),
                  (kept * products.count, 0, rounds), show)
    settle(power)
    with keep_partial(power.show):
        product = power.rounds.product()
    found, norm = power.rounds.now, norm_of(power.rounds.now)
    value = float(found.astype(float) @ product.astype(float)) / norm ** 2
    residual = norm_of(product / value - found) / norm if value else math.inf
    return as_centrality(put_numbers(G, found / norm, scale), scale, residual, RESIDUAL,
                         tolerance=kept, rounds=power.rounds.number)


def sum_of(numbers: Array) -> float:
    """All numbers, added up as floats."""
    return float(numbers.sum(dtype=float))


@algorithm('hubs and authorities', parts=('hubs', 'authorities'), scale=ONE, ranked=True,
           ranges=RANGES, says='An authority\'s number is in proportion to those of the hubs that '
           'lead to it, a hub\'s to those of the authorities that it leads to.')
def hits(G: Matrix, GT: Optional[Matrix] = None, tolerance: Optional[float] = None,
         scale: int = ONE, rounds: int = ROUNDS, progress: Progress = None, *,
         weighted: bool = False, check: bool = True) -> Tuple[Centrality, Centrality]:
    """Hubs and authorities (HITS), as two columns in units of 1/scale.

    An authority's number is proportional to the sum of the hubs that lead to it. A hub's is
    proportional to the sum of the authorities it leads to.

    Parameters
    ----------
    G : Matrix
        The graph; an entry (i, j) is an edge from i to j.
    GT : Matrix, optional
        The transpose. By default the client makes it if the graph is directed or weighted.
    tolerance : float, optional
        Rounds end when the numbers of all hubs together change by less than this: 1e-8 by default.
        With very great weights it is the least that rounding allows; the result's `tolerance` says
        what it was.
    scale : int, default 2**40
        The units of 1, up to 2^52.
    rounds : int, default 1000
        The most rounds.
    progress : callable, optional
        `progress('round', k, 0)` is called after each round.
    weighted : bool, default False
        Whether values count as weights, 0 or more; otherwise each edge counts as 1.
    check : bool, default True
        Whether to check that `GT` is the transpose: by 4 jobs, once.

    Returns
    -------
    tuple of Centrality
        Hubs and authorities; each column adds up to 1. `error` is no bound, but the last change:
        how far the numbers of all hubs together still moved.

    Raises
    ------
    ValueError
        If `rounds` rounds are too few, the graph has no edge, or a value is below 0. Also if a
        tolerance can't be kept, or a number is out of range.
    BudgetExceeded
        If the budget runs out; `partial` has the hubs of the last round, and the authorities that
        they come from.

    See Also
    --------
    eigenvector : One number per vertex.
    pagerank : A damped centrality.

    Notes
    -----
    Kleinberg's algorithm in whole numbers, as a loop on the server. The graph decides how far the
    true numbers are.

    Cost: up to 12 steps per edge and 8 per vertex, per round, with 3 or 4 runs per round.

    networkx: `hits`. igraph: `hub_score`, `authority_score`.

    Examples
    --------
    >>> import spmat
    >>> from spmat.algorithms import hits
    >>> W = spmat.Session().from_triples(
    ...     [(0, 1, 2), (1, 2, 1), (2, 3, 4), (0, 3, 8)], 4, 4)
    >>> [round(number, 3) for number in hits(W)[0].by_node().values()]
    [0.618, 0.0, 0.382, 0.0]
    """
    if not G.nvals:
        raise ValueError('the graph has no edge: it has neither hubs nor authorities')
    products = find_products(G, GT, weighted, check)
    weights = products.sums()
    leaving = weights if products.goes_both_ways else products.leaving()
    ends = greatest_of(weights), greatest_of(leaving)
    bits = _bits(max(ends))
    kept = keep_tolerance(tolerance, 1e-8, bits)
    # authorities have as many bits as their sums leave
    shift = max(0, bits + SPARE + sum(end.bit_length() for end in ends) - 62)
    products.find_transpose()
    has_gaps = not (weights.all() and leaving.all())
    zeros = products.lines.fill(0) if products.lines.is_full and has_gaps else None
    start = products.fill(1 << bits)
    made = Vectors(products, start, start, 0, progress)

    def show(last: Power, authorities: Optional[Array] = None) -> Tuple[Centrality, Centrality]:
        came = products.read(made.state.came) if authorities is None else authorities
        numbers = products.read(made.state.now) if authorities is None else made.now
        hubs, others = (as_centrality(
            put_numbers(G, kind / max(1.0, sum_of(kind)), scale), scale, last.moved, CHANGE,
            tolerance=max(kept, last.moved), rounds=made.number) for kind in (numbers, came))
        return hubs, others
    power = Power(made, Room(bits, ends[0] * ends[1] / 2.0 ** shift, ends[1]),
                  lambda factor: Mutual(products, shift, zeros, factor),
                  (kept, 8 * products.count / (1 << bits) if tolerance is None else 0, rounds),
                  show)
    settle(power)
    with keep_partial(power.show):
        return show(power, made.product())


class Handed(NamedTuple):
    """A share of what comes to each vertex, by a semiring, and what each has anyhow, which `units`
    has. The share is a whole number and a constant of 62 bits, which is rounded up. So all is
    rounded by less than 1, of sums that have up to 62 bits."""
    products: Products
    operator: Operator
    ring: Optional[Semiring]
    units: Matrix

    def make(self, numbers: Matrix) -> Dict[str, Matrix]:
        """The product, and a union."""
        return {'now': self.units.ewise_add(self.products.comes(numbers, self.ring),
                                            self.operator)}


def hand_on(share: Fraction) -> Operator:
    """What makes a number of what a vertex has anyhow, and of a share of a sum."""
    whole, constant = divmod(math.ceil(share * (1 << 2 * HALF)), 1 << 2 * HALF)
    mask = (1 << HALF) - 1
    text = WIDE.format(low=constant & mask, high=constant >> HALF, mask=mask)
    return asm('binary', (WHOLE % whole if whole else '') + text)


class _Way(NamedTuple):
    """How Katz' numbers are handed on along an edge: what share of a sum, by which semiring, and
    what rounding takes of a number. `spare` are the bits that sums don't have, as products leave
    them out."""
    share: Fraction
    rounding: float
    ring: Optional[Semiring] = None
    spare: int = 0

    def bits(self, heaviest: int, room: int) -> int:
        """How many bits the least number has, where others have so many more."""
        more = max(0, heaviest.bit_length() - self.spare) + int(self.share).bit_length()
        return min(MOST_BITS, 61 - room - more)

    def least(self, heaviest: int) -> float:
        """The least distance that is told, where numbers are about one."""
        return self.rounding / 2.0 ** self.bits(heaviest, ROOM)


def _exact_alpha(alpha: float, beta: float, unit: int) -> Fraction:
    """What is handed on along an edge of one unit. ValueError where it, or beta, is out of range.
    """
    try:
        exact = exact_number(alpha) / unit
    except (TypeError, ValueError):
        exact = Fraction(0)
    if not 1 << 20 > exact > Fraction(1, 1 << 62) or not beta > 0 or beta == math.inf:
        raise about(ValueError('alpha lies between 2^-62 and 2^20, by the unit of the weights, and '
                               'beta is above 0: not %r and %r' % (alpha, beta)), 'alpha', 'beta')
    return exact


def _way(products: Products, exact: Fraction, heaviest: int) -> _Way:
    """How so much is handed on along an edge: by plain products, or by products that leave out 32
    bits, whichever keeps more. Sums of plain products leave few bits where weights are great."""
    ways = [_Way(exact, 1)]
    if heaviest >> HEAVY:
        share = exact * (1 << LEFT_OUT)
        many = greatest_of(products.sums(Semiring(binary.plus, binary.oneb)))
        ways.append(_Way(share, 1 + float(share) * many, Semiring(binary.plus, HIGH), LEFT_OUT))
    return min(ways, key=lambda way: way.least(heaviest))


@algorithm('Katz centrality', scale=ONE, ranked=True, reads_unit=True, ranges=RANGES,
           says='Numbers of which each is 1 and alpha times the sum of those of the vertices that '
                'lead to it, divided so that the squares add up to 1.')
def katz(G: Matrix, alpha: float = 0.1, beta: float = 1.0, GT: Optional[Matrix] = None,
         tolerance: Optional[float] = None, scale: int = ONE, rounds: int = ROUNDS,
         progress: Progress = None, *, weighted: bool = False, normalized: bool = True,
         check: bool = True) -> Centrality:
    """The Katz centrality of each vertex, as a column in units of 1/scale.

    Each number is `beta` plus `alpha` times the sum of the numbers of the vertices that lead to it.

    Parameters
    ----------
    G : Matrix
        The graph; an entry (i, j) is an edge from i to j.
    alpha : float, default 0.1
        The share that an edge passes on. It has to be less than 1 divided by the greatest
        eigenvalue; otherwise numbers would grow for ever, and the call is refused.
    beta : float, default 1.0
        What each vertex has to begin with.
    GT : Matrix, optional
        The transpose. Row blocks use it, and large graphs in a session of three workers or more; by
        default the client makes it.
    tolerance : float, optional
        Rounds end when each number is known to this share of itself: 1e-9 by default. With very
        great sums it is the least that rounding allows; the result's `tolerance` says what it was.
    scale : int, default 2**40
        The units of 1, up to 2^52.
    rounds : int, default 1000
        The most rounds.
    progress : callable, optional
        `progress('round', k, 0)` is called after each round.
    weighted : bool, default False
        Whether values count as weights, 0 or more; otherwise each edge counts as 1.
    normalized : bool, default True
        Whether numbers are scaled so that their squares add up to 1.
    check : bool, default True
        Whether to check that `GT` is the transpose: by 4 jobs, once.

    Returns
    -------
    Centrality
        `error` is a bound: no number is farther from the true one.

    Raises
    ------
    ValueError
        If `rounds` rounds are too few, `alpha` is too great, or a value is below 0. Also if a
        tolerance can't be kept, or a number is out of range.
    BudgetExceeded
        If the budget runs out; `partial` has the numbers of the last round with a known `error`.

    See Also
    --------
    eigenvector : Its limit for a great alpha.
    pagerank : Numbers divided among edges.

    Notes
    -----
    Rounds run as a loop on the server.

    Cost: up to 6 steps per edge and 19 per vertex, per round, with 2 runs per round. Very great
    weights take 20 steps per edge more.

    networkx: `katz_centrality`.

    Examples
    --------
    >>> import spmat
    >>> from spmat.algorithms import katz
    >>> G = spmat.Session().from_edgelist(
    ...     [(0, 1), (0, 2), (1, 2), (2, 3), (3, 4), (3, 5), (4, 5)], directed=False)
    >>> [round(number, 3) for number in katz(G).by_node().values()]
    [0.395, 0.395, 0.434, 0.434, 0.395, 0.395]
    """
    count = G.nrows
    exact = _exact_alpha(alpha, beta, unit_of(G, GT) if weighted else 1)
    products = find_products(with_unit(G, 1), GT if GT is None else with_unit(GT, 1), weighted,
                             check)
    heaviest = greatest_of(products.sums()) if count else 0
    way, room = _way(products, exact, heaviest), ROOM
    if way.bits(heaviest, room) < LEAST_BITS:
        raise ValueError('edges of one vertex that weigh %d leave no room for fixed point: divide '
                         'the weights' % heaviest)
    while True:
        bits = way.bits(heaviest, room)
        kept = keep_tolerance(tolerance, USUAL, bits, way.rounding)

        def show(now: 'Growth', bits: int = bits, kept: float = kept) -> Centrality:
            numbers = now.rounds.before
            found = numbers / (norm_of(numbers) if normalized else (1 << bits) / beta)
            share = 2 * now.moved / max(1 - now.moved, FLOATS) if normalized else now.moved
            return as_centrality(put_numbers(G, found, scale), scale,
                                 (share + FLOATS) * float(found.max(initial=0)) + .5 / scale,
                                 tolerance=max(kept, share), rounds=now.rounds.number)
        growth = Growth(products, way, (bits, bits + room),
                        (kept / (2 + kept if normalized else 1), tolerance is None, rounds), show,
                        progress)
        settle(growth)
        if not growth.is_beyond:
            return show(growth)
        room += MORE_ROOM
        if way.bits(heaviest, room) < LEAST_BITS:
            raise ValueError('alpha=%g is too great for this graph: numbers grow on and on. It has '
                             'to be less than 1 divided by the greatest eigenvalue%s, and by their '
                             'growth that is near %.3g'
                             % (alpha, ' of the weights' if weighted else '',
                                alpha / max(1.0, sum_of(growth.rounds.now)
                                           / sum_of(growth.rounds.before))))


class Growth(Process):
    """Rounds of Katz' numbers, where the least has some bits, and the greatest may have so many.

    One more round takes each number nearer to the true ones, by the norm in which these are one. So
    if `off`, the change in that norm, is below 1, the numbers before were at most off / (1 - off)
    away."""

    rounds: Vectors

    # pylint: disable-next=too-many-arguments
    def __init__(self, products: Products, way: _Way, bits: Tuple[int, int],
                 ends: Tuple[float, bool, int], found: Callable[['Growth'], Centrality],
                 progress: Progress) -> None:
        self._way, self._unit, self._most, self._found = way, 1 << bits[0], bits[1], found
        aim, self._may_rest, limit = ends
        start = products.fill(self._unit)
        super().__init__(Vectors(products, start, start, 0, progress), aim, limit)
        self._step = Handed(products, hand_on(way.share), way.ring, self.rounds.state.now)
        self.off = math.inf
        self.is_beyond = False                     # what numbers have room for

    @property
    def moved(self) -> float:
        """How far the numbers before are from the true ones, as a share of each."""
        return self.off / (1 - self.off) if self.off < 1 else math.inf

    def look(self) -> float:
        """How far they are."""
        now, before = self.rounds.now, self.rounds.before
        if self.rounds.number or not len(now):
            changed = int(abs(now - before).max(initial=0))
            self.off = (changed + self._way.rounding) / self._unit if len(now) else 0.0
        self.is_beyond = bool(greatest_of(now) >> self._most)
        return self.moved

    def ends(self, distance: float) -> bool:
        """Whether they are near enough, or rest, or pass what they have room for."""
        rests = self._may_rest and self.off < .25 and bool((self.rounds.now
                                                            == self.rounds.before).all())
        if rests or distance <= self.aim:
            self.is_beyond = False
            return True
        return self.is_beyond

    def choose(self, ahead: int) -> Tuple[Handed, int]:
        """As many rounds as can't take numbers beyond their room, but one in any case. None makes a
        number greater by more than the last round did, but for rounding."""
        if not self.rounds.number:
            return self._step, 1
        now, before = self.rounds.now, self.rounds.before
        growth = float((now / before).max()) * (1 + self._way.rounding / self._unit) * (1 + FLOATS)
        most, count = float(greatest_of(now)) * growth, 1
        while count < ahead and most * growth < 2.0 ** self._most:
            most, count = most * growth, count + 1
        return self._step, count

    def describe(self, distance: float) -> str:
        """That they go on."""
        return ('%d rounds are too few for this alpha, which is near 1 divided by the greatest '
                'eigenvalue or above it: give a smaller one, a greater tolerance=, or more rounds='
                % self.limit)

    def show(self) -> Optional[Centrality]:
        """The numbers whose distance is known."""
        return self._found(self) if self.off < 1 else None
