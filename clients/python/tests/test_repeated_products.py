"""Products with one matrix several times, beside numpy: once products have walked half of its
entries, a server reads its columns by themselves, and its words only where they are multiplied."""
import numpy
import pytest

from support import InSession

pytestmark = pytest.mark.slow

SIZE = 256
EDGES = 9000                       # more than the 4,096 from which on columns are listed
ROUNDS = 3
ABSENT = numpy.int64(2) ** 62

# the term of two words, and the fold of terms over the middle of a product
TERMS = {'times': lambda x, y: x * y, 'first': lambda x, y: x + 0 * y,
         'second': lambda x, y: 0 * x + y, 'pair': lambda x, y: 0 * x + 0 * y + 1,
         'plus': lambda x, y: x + y, 'minus': lambda x, y: x - y}
FOLDS = {'plus': (numpy.add, 0), 'min': (numpy.minimum, ABSENT), 'max': (numpy.maximum, -ABSENT)}


def wanted(a, b, add, mul):
    """The words of a product of two pairs of words and of where they stand, and where it has any."""
    (x, x_stands), (y, y_stands) = a, b
    fold, none = FOLDS[add]
    words = numpy.full((x.shape[0], y.shape[1]), none, numpy.int64)
    stands = numpy.zeros(words.shape, bool)
    for k in range(x.shape[1]):
        both = numpy.outer(x_stands[:, k], y_stands[k])
        words = numpy.where(both, fold(words, TERMS[mul](x[:, k, None], y[k])), words)
        stands |= both
    return words, stands


class RepeatedProducts(InSession):
    """Each product three times: before the columns are listed, and after."""

    def graph(self, seed, words):
        """A matrix of random edges, with its words and where they stand."""
        r = numpy.random.default_rng(seed)
        at = r.choice(SIZE * SIZE, EDGES, replace=False)
        dense = numpy.zeros(SIZE * SIZE, numpy.int64)
        stands = numpy.zeros(SIZE * SIZE, bool)
        dense[at], stands[at] = r.choice(words, EDGES), True
        rows, columns = numpy.divmod(at, SIZE)
        made = self.s.from_coo(rows, columns, dense[at], nrows=SIZE, ncols=SIZE)
        return made, (dense.reshape(SIZE, SIZE), stands.reshape(SIZE, SIZE))

    def check(self, product, words, stands):
        got_rows, got_columns, got = product.to_coo()
        rows, columns = numpy.nonzero(stands)
        self.assertTrue((got_rows == rows).all() and (got_columns == columns).all())
        self.assertTrue((got == words[rows, columns]).all())

    def test_under_a_mask(self):
        M, (_, open_at) = self.graph(1, [1])
        for words in ([1], [-3], [1, 2, 5]):
            for add, mul in (('plus', 'times'), ('plus', 'first'), ('plus', 'second'),
                             ('plus', 'pair'), ('min', 'plus'), ('max', 'minus'),
                             ('min', 'first'), ('max', 'second')):
                # by operators that the server knows, and by the same with an instruction more
                (A, a), (B, b) = self.graph(2, [1, 2, 5]), self.graph(3, words)
                want, stands = wanted(a, b, add, mul)
                costs = set()
                for _ in range(ROUNDS):
                    for mask, passing in ((M.S, open_at), (~M.S, ~open_at)):
                        C = A.mxm(B, add + '_' + mul, mask=mask)
                        self.check(C, want, stands & passing)
                        costs.add((passing is open_at, C.steps))
                self.assertEqual(len(costs), 2, (words, add, mul))

    def test_by_a_full_column(self):
        r = numpy.random.default_rng(4)
        column = r.integers(-4, 5, (SIZE, 1))
        for words in ([1], [7], [1, 2, 5]):
            for add, mul in (('plus', 'times'), ('plus', 'second'), ('min', 'second'),
                             ('plus', 'first'), ('max', 'plus'), ('min', 'minus')):
                A, a = self.graph(5, words)
                x = self.s.from_dense(column)
                want, stands = wanted(a, (column, numpy.ones((SIZE, 1), bool)), add, mul)
                costs = set()
                for _ in range(ROUNDS):
                    y = A.mxm(x, add + '_' + mul)
                    self.check(y, want, stands)
                    costs.add(y.steps)
                self.assertEqual(len(costs), 1, (words, add, mul))
