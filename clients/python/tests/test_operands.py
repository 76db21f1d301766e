"""Matrices of two sessions: each method says so before it looks at shapes or names, and what to
do."""
import unittest

import spmat
import support  # noqa: F401 (finds the program)
from spmat import algorithms

EDGES = [('a', 'b', 2), ('b', 'c', 3)]
CALLS = {
    'ewise_add': lambda A, B: A.ewise_add(B), 'ewise_mult': lambda A, B: A.ewise_mult(B),
    'mxm': lambda A, B: A.mxm(B),
    'mxv': lambda A, B: A.mxv(B.reduce_rowwise()), 'mask': lambda A, B: A.dup(mask=B.S),
    'complement': lambda A, B: A.dup(mask=~B.S),
    'mask of masks': lambda A, B: A.S & B.S, 'without': lambda A, B: A.without(B.S),
    'update': lambda A, B: A.update(B),
    'update under a mask': lambda A, B: A.update(A, mask=B.S), 'assign': lambda A, B: A.assign(B),
    'assign a part': lambda A, B: A.assign(
        B[['a'], :], ['a']), 'assign under a mask': lambda A, B: A.assign(3, mask=B.S),
    'ewise_union': lambda A, B: A.ewise_union(
        B, 'minus', 0, 0), 'positions': lambda A, B: A.mxm(B, 'any_secondi'),
    'a transpose': lambda A, B: algorithms.bfs_levels(A, 'a', B),
    'pairs': lambda A, B: algorithms.common_neighbours(A, pairs=B)}


class TwoSessions(unittest.TestCase):
    def test_all(self):
        with spmat.Session() as one, spmat.Session() as other:
            A = one.from_edgelist(EDGES)
            for more in ([], [('c', 'd', 1)]):
                B = other.from_edgelist(EDGES + more)
                for name, call in CALLS.items():
                    with self.subTest(call=name, more=more), \
                            self.assertRaisesRegex(ValueError,
                                                   r'in two sessions.*A\.session\.adopt\(B\)'):
                        call(A, B)
            B = A.session.adopt(other.from_edgelist(EDGES))
            self.assertEqual(A.ewise_add(B).to_edgelist(), [('a', 'b', 4), ('b', 'c', 6)])
