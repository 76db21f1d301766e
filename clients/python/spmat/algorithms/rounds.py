"""The engine of rounds in which numbers flow through a graph: those of PageRank, eigenvector and
Katz centrality, hubs and authorities.

A step makes the next numbers by jobs. Rounds between two looks are a loop that stays at the server.
A look measures, by the norm of its algorithm, how near the numbers are; by how fast that shrinks
the engine knows when to look next.
"""
from __future__ import annotations

import math
from typing import Any, Dict, NamedTuple, Optional, Protocol, Tuple

import numpy

from ..loops import Loop, State
from ..loops.trips import report_rounds
from ..matrix import Matrix
from ..operators import Operator, Semiring, asm, binary
from .cached_properties import is_both_ways, transpose_of
from .results import keep_partial
from .traversal import Columns, Traversal, Vector, spread
from ..types import Array
from .utils import Progress

MOST_AHEAD = 8                                     # rounds between two looks
# bits of a factor, and of a number that it multiplies
FACTOR, MULTIPLIED = 5, 57
# by how many bits the greatest number of a round may pass those that it is to have
SPARE = 2
# what numbers may be more than their bound, as those that are nearly 0 grow by any factor
LITTLE = 16
ABOVE = 1 + 2.0 ** -30                             # what floats take of a bound


class Step(Protocol):
    """What a round makes of numbers. Equal steps ask for the same jobs."""

    def make(self, numbers: Matrix) -> Dict[str, Matrix]:
        """The next ones as `now`, and what else there is of the round."""


class Rounds:
    """Numbers, and rounds of them. `number` is that of the last round, of so many where that is
    known."""

    def __init__(self, now: Matrix, number: int, progress: Progress, of: int = 0) -> None:
        self.number, self._progress, self._of = number, progress, of
        self._state = State({'now': now, 'before': now, 'came': now})
        self._step: Optional[Step] = None
        self._loop: Optional[Loop] = None

    def advance(self, step: Step, count: int) -> None:
        """So many rounds."""
        if self._loop is None or step != self._step:
            self._loop = Loop(lambda s: {**step.make(s.now), 'before': s.now}, self.state,
                              alike=True)
            self._step = step
        self._loop.rounds(None, count, report_rounds(
            self._progress, begun=self.number - self._loop.number, of=self._of))
        self.number += count

    @property
    def state(self) -> State:
        """The numbers behind the last round, also after one that was refused: as `now`, `before`,
        and `came`."""
        return self._state if self._loop is None else self._loop.state


class Process:
    """What an algorithm has for the engine: its rounds, the distance that is enough, and the most
    rounds."""

    first = 1                                      # rounds before the first look

    def __init__(self, rounds: Rounds, aim: float, limit: int) -> None:
        self.rounds, self.aim, self.limit = rounds, aim, limit

    def look(self) -> float:
        """How far the numbers are from the true ones, by the norm of the algorithm."""
        raise NotImplementedError

    def ends(self, distance: float) -> bool:
        """Whether that is enough."""
        return distance <= self.aim

    def choose(self, ahead: int) -> Tuple[Step, int]:
        """The next step, and how many rounds of it, no more than are wanted."""
        raise NotImplementedError

    def describe(self, distance: float) -> str:
        """What is said where the rounds are too few."""
        return 'too few rounds for %.2g' % distance

    def show(self) -> Any:
        """What was found by the last look."""


def settle(process: Process) -> None:
    """Rounds up to the look that ends them. ValueError where there are too few."""
    rounds, last = process.rounds, (0, math.inf)
    while True:
        distance = process.look()
        if process.ends(distance):
            return
        if rounds.number >= process.limit:
            raise ValueError(process.describe(distance))
        ahead = min(MOST_AHEAD, max(process.first, rounds.number))
        if process.aim < distance < last[1] < math.inf:
            rate = math.log(distance / last[1]) / (rounds.number - last[0])
            ahead = min(ahead, math.ceil(math.log(process.aim / distance) / rate))
        last = rounds.number, distance
        with keep_partial(process.show):
            rounds.advance(*process.choose(max(1, min(ahead, process.limit - rounds.number))))


class Products:
    """Products of a graph with numbers: what comes to each vertex, and what it leads to."""

    def __init__(self, lines: Traversal, weighted: bool,
                 transpose: Optional[Matrix] = None) -> None:
        self.lines, self.graph, self.count = lines, lines.graph, lines.count
        self.ring = Semiring(binary.plus, binary.times if weighted else binary.first)
        self._is_weighted, self._transpose = weighted, transpose
        self._turned: Optional[Traversal] = None

    def fill(self, value: int) -> Array:
        """The same number for each vertex."""
        return numpy.full(self.count, value)

    def sums(self, ring: Optional[Semiring] = None) -> Array:
        """The sum over the edges that lead to each vertex of 1, or what a semiring makes of it."""
        return self.read(self.comes(self.put(self.fill(1)), ring))

    def comes(self, numbers: Matrix, ring: Optional[Semiring] = None) -> Matrix:
        """The sum over the edges that lead to each vertex."""
        return self.lines.step(numbers, ring or self.ring)

    @property
    def goes_both_ways(self) -> bool:
        """Whether what leads to a vertex also leaves it, so that both sums are one."""
        return not self._is_weighted and is_both_ways(self.graph)

    def leaving(self) -> Array:
        """The sum over the edges that leave each vertex of 1. A column beside the graph itself is
        pulled along its edges, which wants no transpose."""
        ones = Vector(numpy.arange(self.count), self.fill(1))
        return spread(Columns(self.graph).push(ones, self.ring), self.count)

    def leads(self, numbers: Matrix) -> Matrix:
        """The sum over the edges that leave each vertex, once the transpose was found."""
        assert self._turned is not None
        return self._turned.step(numbers, self.ring)

    def find_transpose(self) -> None:
        """Finds the way against the edges."""
        alike = self._is_weighted and self.graph.kept.get('values both ways')
        self._turned = self.lines if alike else self.lines.turn(
            transpose_of(self.graph, self._transpose, False, self._is_weighted))

    @property
    def is_mutual(self) -> bool:
        """Whether it is known without a job that something comes to each vertex that leads to
        another one, and the other way round."""
        known = self.graph.directed is False or bool(self.graph.kept.get('both ways'))
        return known and not self._is_weighted

    def put(self, numbers: Array) -> Matrix:
        """Numbers as a matrix: a row has no 0, and a column is full."""
        at = numpy.arange(self.count) if self.lines.is_full else numpy.flatnonzero(numbers)
        return self.lines.put(Vector(at, numbers[at]))

    def read(self, matrix: Matrix) -> Array:
        """The numbers that a matrix has."""
        return spread(self.lines.read(matrix), self.count)


class Vectors(Rounds):
    """Rounds whose numbers a look brings to the client: `now`, and `before` of the round before."""

    def __init__(self, products: Products, before: Array, now: Array, number: int,
                 progress: Progress) -> None:
        super().__init__(products.put(now), number, progress)
        self.products, self.before, self.now = products, before, now

    def advance(self, step: Step, count: int) -> None:
        super().advance(step, count)
        read = self.products.read
        self.before, self.now = (self.now if count == 1 else read(self.state.before),
                                 read(self.state.now))

    def product(self) -> Array:
        """What comes to each vertex from the numbers of the last round."""
        return self.products.read(self.products.comes(self.state.now))


class Scale(NamedTuple):
    """A factor of up to 1: a product between two shifts, which rounds down."""
    first: int
    times: int
    then: int

    @property
    def value(self) -> float:
        """The factor."""
        return self.times / 2.0 ** (self.first + self.then)

    @property
    def rounding(self) -> float:
        """What it may take of a number."""
        return 1 + self.value * ((1 << self.first) - 1)

    def operator(self, kind: str, begin: str) -> Operator:
        """The factor times what some instructions leave in r0."""
        first = 'rsh64 r0, %d\n' % self.first if self.first else ''
        return asm(kind, '%s%smul64 r0, %d\nrsh64 r0, %d\nexit\n' % (begin, first, self.times,
                                                                     self.then))


def scale_of(factor: float, bits: int) -> Scale:
    """The greatest scale up to a factor that is 1 or less, of numbers that it makes ones of so many
    bits or fewer."""
    part, power = math.frexp(factor)
    times, shift = int(part * (1 << FACTOR)), FACTOR - power
    first = max(0, bits + shift - times.bit_length() + 1 - MULTIPLIED)
    return Scale(first, times, shift - first)


class Room:
    """How numbers stay within a word where they aren't looked at for some rounds. `norm` is by how
    much a round that isn't scaled may multiply the greatest number, and `lost` what rounding takes
    of a number before it is scaled.

    If none of a round's numbers is more than r times the one before it, and a little, this holds
    for the next rounds as well (Collatz and Wielandt). Only the little grows, by the norm."""

    def __init__(self, bits: int, norm: float, lost: float = 0) -> None:
        self.bits, self.norm, self.lost, self._ratio = bits, norm, lost, norm
        self._rounding = 1.0                       # of the round that the ratio is known of

    def note(self, before: Array, now: Array, scale: Scale) -> None:
        """Two rounds that follow, and the scale of the second one."""
        some = before > 0
        self._ratio, self._rounding = self.norm, self._taken(scale)
        if not (now[~some] > LITTLE).any():
            ratio = float(((now[some] - LITTLE) / before[some]).max(initial=0))
            self._ratio = min(self.norm, max(1e-9, ratio) / scale.value * ABOVE)

    def choose(self, most: int, ahead: int) -> Tuple[Scale, int]:
        """The scale of the next rounds, where `most` is the greatest number, and how many they are:
        no more than are wanted."""
        for count in range(ahead, 0, -1):
            scale = self._aimed(most, count, self._ratio)
            if self._holds(scale, most, count):
                return scale, count
        return self._aimed(most, 1, self.norm), 1

    def _aimed(self, most: int, count: int, ratio: float) -> Scale:
        """What takes the greatest number to its bits, and one more, in so many rounds."""
        wanted = (2.0 ** (self.bits + 1) / max(1, most)) ** (1 / count)
        return scale_of(min(1.0, min(2.0, wanted) / ratio), self.bits + SPARE)

    def _taken(self, scale: Scale) -> float:
        return scale.rounding + scale.value * self.lost

    def _holds(self, scale: Scale, most: float, count: int) -> bool:
        """Whether no number of so many rounds has more bits than are spared."""
        factor, little = scale.value, float(LITTLE)
        rounding = max(self._rounding, self._taken(scale))
        for _ in range(count):
            little = factor * (self._ratio * rounding + self.norm * little)
            most = factor * self._ratio * most * ABOVE + little
            if most > 2.0 ** (self.bits + SPARE):
                return False
        return True
