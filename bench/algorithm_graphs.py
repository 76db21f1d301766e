"""The graphs that whole algorithms are timed on, and what is asked of them."""
from __future__ import annotations

from typing import Any, List, NamedTuple

import numpy

GRAPHS = ('kron', 'urand', 'road', 'directed', 'dag')
SOURCES = 16                                       # where searches from several vertices begin
PAIRS = 1000                                       # pairs of vertices of which something is asked


class Edges(NamedTuple):
    """A graph: how many vertices, from and to which edges lead, their weights, and whether they
    lead one way alone."""
    vertices: int
    i: Any
    j: Any
    w: Any
    directed: bool


class Asked(NamedTuple):
    """What is asked of a graph: the vertex with the most edges, one that is far from it, some
    others, and two vertices each of some pairs."""
    source: int
    target: int
    some: List[int]
    firsts: List[int]
    seconds: List[int]


def edges_of(kind: str, scale: int) -> Edges:
    """A graph, the same each time."""
    chance, n = numpy.random.default_rng(7), 1 << scale
    if kind == 'road':
        side = 1 << scale // 2
        n, at = side * side, numpy.arange(side * side).reshape(side, side)
        i, j = numpy.concatenate([at[:, :-1].ravel(), at[:-1].ravel()]), numpy.concatenate(
            [at[:, 1:].ravel(), at[1:].ravel()])
        kept = chance.random(len(i)) > 0.05
        i, j = i[kept], j[kept]
    elif kind == 'kron':
        i, j = numpy.zeros(8 * n, numpy.int64), numpy.zeros(8 * n, numpy.int64)
        for _ in range(scale):
            r = chance.random(8 * n)
            i, j = 2 * i + (r >= 0.76), 2 * j + (((r >= 0.57) & (r < 0.76)) | (r >= 0.95))
    else:
        i, j = chance.integers(0, n, 8 * n), chance.integers(0, n, 8 * n)
    i, j = i[i != j], j[i != j]
    if kind in ('directed', 'dag'):
        key = numpy.unique((i * n + j)[i < j] if kind == 'dag' else i * n + j)
        return Edges(n, key // n, key % n, chance.integers(1, 256, len(key)), True)
    key = numpy.unique(numpy.minimum(i, j) * n + numpy.maximum(i, j))
    i, j, w = key // n, key % n, chance.integers(1, 256, len(key))
    return Edges(n, numpy.concatenate([i, j]), numpy.concatenate([j, i]), numpy.concatenate([w, w]),
                 False)


def asked_of(edges: Edges) -> Asked:
    """What is asked of a graph, the same each time."""
    chance, out = numpy.random.default_rng(11), numpy.bincount(edges.i, minlength=edges.vertices)
    source, alive = int(numpy.argmax(out)), numpy.flatnonzero(out)
    ranks = numpy.argsort(edges.i, kind='stable')
    rows, starts = edges.j[ranks], numpy.concatenate((numpy.zeros(1, numpy.int64),
                                                      numpy.cumsum(out)))
    seen, front, target = numpy.zeros(edges.vertices, bool), numpy.array([source]), source
    while len(front):
        seen[front], target = True, int(front[0])
        near = numpy.unique(numpy.concatenate([rows[starts[at]:starts[at + 1]] for at in front]))
        front = near[~seen[near]]
    pairs = chance.choice(alive, (2, PAIRS))
    return Asked(source, target, alive[::max(1, len(alive) // SOURCES)][:SOURCES].tolist(),
                 pairs[0].tolist(), pairs[1].tolist())
