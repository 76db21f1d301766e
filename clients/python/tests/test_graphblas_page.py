"""docs/graphblas.md: each line of spmat runs, and gives what plain Python gives."""
import ast

import support
import model
import spmat
from pages import inside, rows_of

A = {(0, 1): 2, (1, 2): 3, (2, 0): -4, (2, 2): 1}
B = {(0, 1): 5, (1, 1): 1, (2, 0): 1, (2, 2): -2}
C = {(0, 0): 9, (1, 1): 8, (2, 0): 7}
M = {(0, 1): 1, (1, 2): 0, (2, 0): 6}
V = {(0, 0): 1, (2, 0): 6}
AB = model.product(A, B, 'plus', 'times')
CUBE = model.product(model.product(A, A, 'plus', 'times'), A, 'plus', 'times')


def outside(cells, mask):
    """The entries where a mask has none."""
    return model.cut(cells, lambda at: at not in mask)


WANT = {
    's.from_coo(rows, cols, vals, nrows=3, ncols=3)': A,
    's.from_coo([0, 0], [1, 1], [2, 3], dup_op="plus")': {(0, 1): 5},
    's.from_coo([0, 2], [0, 0], [1, 6], 3, 1)': V,
    's.from_dense([[0, 2], [3, 0]], missing_value=0)': {(0, 1): 2, (1, 0): 3},
    's.from_csr([0, 1, 3], [1, 0, 1], [5, 6, 7])': {(0, 1): 5, (1, 0): 6, (1, 1): 7},
    's.from_dicts({0: {1: 5}}, nrows=3, ncols=3)': {(0, 1): 5},
    's.from_coo([], [], [], 3, 3)': {}, 's.mmread("docs/karate.mtx").nvals': 156,
    'C = A.mxm(B, "min_plus")': model.product(A, B, 'min', 'plus'),
    'C = A.mxm(B, mask=M.S)': model.cut(AB, lambda at: at in M),
    'C = C.update(A.mxm(B), mask=M.S)': {**outside(C, M), **model.cut(AB, lambda at: at in M)},
    'C = C.update(A.mxm(B), accum="plus")': model.union(C, AB, 'plus'),
    'C = C.update(A.ewise_mult(B), "plus", ~M.V)': {
        **model.cut(C, lambda at: M.get(at)),
        **model.cut(model.union(C, model.both(A, B, 'times'), 'plus'), lambda at: not M.get(at))},
    'w = A.mxv(v, "plus_times")': model.product(A, V, 'plus', 'times'),
    'w = v.T.vxm(A)': model.product(model.transposed(V), A, 'plus', 'times'),
    'C = A.mxm(B.T, "any_secondi")': {(0, 0): 1, (0, 1): 1, (1, 2): 2, (2, 2): 0},
    'A.ewise_add(B, "minus")': model.union(A, B, 'minus'),
    'A.ewise_union(B, "minus", 0, 0)': {at: A.get(at, 0) - B.get(at, 0) for at in {**A, **B}},
    'A.ewise_mult(B, "times")': model.both(A, B, 'times'),
    'A.apply("abs")': {at: abs(x) for at, x in A.items()},
    'A.apply("plus", right=3)': {at: x + 3 for at, x in A.items()},
    'A.apply(lambda x: x * x)': {at: x * x for at, x in A.items()},
    'A.apply("rowindex")': {(i, j): i for i, j in A},
    'A.select(">", 2)': {(1, 2): 3}, 'A.select("tril", -1)': {(2, 0): -4},
    'A.reduce_rowwise("plus")': {(0, 0): 2, (1, 0): 3, (2, 0): -3},
    'A.reduce_rowwise("count")': {(0, 0): 1, (1, 0): 1, (2, 0): 2},
    'A.reduce_columnwise("argmax")': {(0, 0): 2, (0, 1): 0, (0, 2): 1},
    'A.reduce_scalar("max")': 3, 'A.reduce_scalar("mean")': .5,
    'A.kronecker(B, "times")': {(3 * i + k, 3 * j + l): x * y for (i, j), x in A.items()
                                for (k, l), y in B.items()},
    'A.power(3, "plus_times")': CUBE, 'A[0, 1]': 2, 'A.get(0, 0, 7)': 7,
    'A[[2, 0], :]': {(0, 0): -4, (0, 2): 1, (1, 1): 2}, 'A[1, :]': {(0, 2): 3},
    'C = C.assign(9, [0, 2], [1])': {**C, (0, 1): 9, (2, 1): 9},
    'C = C.assign(A[[0, 1], :], [2, 0], accum="plus")': {**C, (2, 1): 2, (0, 2): 3},
    'C = C.assign(v, 0)': {(0, 0): 1, (0, 2): 6, (1, 1): 8, (2, 0): 7},
    'C = C.assign(7, mask=M.S)': {**C, **dict.fromkeys(M, 7)},
    'A.dup(mask=M.S & ~B.S)': {(1, 2): 3}, 'A.diag(1)': {(0, 0): 2, (1, 0): 3},
    'v.diag()': {(0, 0): 1, (2, 2): 6},
    'spmat.concat([[A, B]])': {**A, **{(i, j + 3): y for (i, j), y in B.items()}},
    'A.split([1, 2], [3])': [[{(0, 1): 2}], [{(0, 2): 3, (1, 0): -4, (1, 2): 1}]],
    'A = A.resize(2, 3)': {(0, 1): 2, (1, 2): 3},
    'A = A.reshape(1, 9)': {(0, 3 * i + j): x for (i, j), x in A.items()},
    'A.nvals, A.shape, A.dtype': (4, (3, 3), 'INT64'),
    'A.isequal(A.dup())': True, 'A.isclose(B, abs_tol=100)': False,
    'A.to_dicts()': {0: {1: 2}, 1: {2: 3}, 2: {0: -4, 2: 1}}, 'A.wait()': A}


# lines of python-graphblas and of spmat
LINES = rows_of('docs/graphblas.md')


def plain(found):
    """What a line gives, as values of Python."""
    if isinstance(found, spmat.Matrix):
        return found.to_dict()
    return [[tile.to_dict() for tile in row] for row in found] if isinstance(found, list) else found


class Page(support.InSession):
    def test_each_line(self):
        support.enter(self, inside())
        rows, cols = zip(*A)
        for theirs, ours in LINES:
            with self.subTest(line=ours):
                ast.parse(theirs)
                made = {name: self.s.from_triples([(*at, x) for at, x in cells.items()], 3, ncols)
                        for name, cells, ncols in (('A', A, 3), ('B', B, 3), ('C', C, 3),
                                                   ('M', M, 3), ('v', V, 1))}
                room = {'s': self.s, 'spmat': spmat, 'rows': rows, 'cols': cols,
                        'vals': list(A.values()), **made}
                target, sign, right = ours.partition(' = ')
                exec(ours if sign else 'found = %s' % ours, room)
                self.assertEqual(plain(room[target if sign else 'found']), WANT[ours])
                self.assertTrue(right or not sign)

    def test_nothing_is_left_out(self):
        ours = [line for _, line in LINES]
        self.assertEqual(sorted(ours), sorted(WANT))
        self.assertGreaterEqual(len(ours), 40)
