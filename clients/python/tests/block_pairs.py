"""The same matrices in one session and in blocks, the forms of jobs on them, and their masks."""
import random

import spmat

def entries(seed, nrows, ncols, many, rows=None):
    """Random entries, in some rows alone where these are given."""
    random_ = random.Random(seed)
    rows = range(nrows) if rows is None else rows
    return ({(random_.choice(rows), random_.randrange(ncols)): random_.randrange(-4, 5)
             for _ in range(many)} if nrows and ncols else {})


def one_long_row(seed):
    """A row with most of the entries, and others with a few."""
    return {**entries(seed, 30, 40, 25), **entries(seed + 1, 30, 40, 150, [17])}


# The sizes, the entries of A and B, and those of K, which A and B are multiplied by.
CASES = {
    'random': (40, 30, entries(1, 40, 30, 220), entries(2, 40, 30, 200), entries(3, 30, 25, 150)),
    'empty blocks': (60, 20, entries(4, 60, 20, 60, [21, 22, 50]), entries(5, 60, 20, 60),
                     entries(6, 20, 9, 60)),
    'more blocks than rows': (3, 8, entries(7, 3, 8, 12), entries(8, 3, 8, 12),
                              entries(9, 8, 4, 16)),
    'one row': (1, 50, entries(10, 1, 50, 30), entries(11, 1, 50, 20), entries(12, 50, 6, 90)),
    'one row with most entries': (30, 40, one_long_row(13), entries(15, 30, 40, 90),
                                  entries(16, 40, 10, 100)),
    'no entries': (12, 5, {}, entries(17, 12, 5, 10), {}),
    'no rows': (0, 5, {}, {}, entries(18, 5, 3, 6)),
}
# not associative, its steps differ
HASTY = spmat.asm('binary', 'mov64 r0, r1\njsgt64 r1, r2, 1\nmov64 r0, r2\nadd64 r0, 1\nexit\n')

# Each form by one method: of A, B, K and a mask of the result's shape.
FORMS = {
    'apply': lambda A, B, K, mask: A.apply('abs', mask=mask),
    'apply with a number right': lambda A, B, K, mask: A.apply('minus', right=3, mask=mask),
    'apply with a number left': lambda A, B, K, mask: A.apply('minus', left=3, mask=mask),
    'apply with an index': lambda A, B, K, mask: A.apply('rowindex', right=7, mask=mask),
    'select': lambda A, B, K, mask: A.select('tril', -1, mask=mask),
    'select by row': lambda A, B, K, mask: A.select('rowgt', 1, mask=mask),
    'union': lambda A, B, K, mask: A.ewise_add(B, HASTY, mask=mask),
    'both': lambda A, B, K, mask: A.ewise_mult(B, 'minus', mask=mask),
    'dup': lambda A, B, K, mask: A.dup(mask=mask),
    'update': lambda A, B, K, mask: A.update(B, 'minus', mask),
    'update and replace': lambda A, B, K, mask: A.update(B, None, mask, True),
    'product': lambda A, B, K, mask: A.mxm(K, (HASTY, spmat.binary.minus), mask=mask),
    'reduce': lambda A, B, K, mask: A.reduce_rowwise(HASTY, mask=mask),
    'fold of columns': lambda A, B, K, mask: A.reduce_columnwise(HASTY, mask=mask),
}
MASKS = {'none': lambda M: None, 'S': lambda M: M.S, '~V': lambda M: ~M.V, 'V': lambda M: M.V,
         '~S': lambda M: ~M.S}
FEW = ('none', 'S', '~V')                          # masks for all cases; the others for the first


class Pair:
    """The same matrices in one session and in several."""

    def __init__(self, one, many, case):
        nrows, ncols, a, b, k = CASES[case]
        wide = max([j for _, j in k], default=0) + 1
        self.sides = []
        for s in (one, many):
            A = s.from_triples([(*at, x) for at, x in a.items()], nrows, ncols)
            here = s if s is one else A.session                    # the others cut as A is
            self.sides.append((A, here.from_triples([(*at, x) for at, x in b.items()], nrows,
                                                    ncols),
                               s.from_triples([(*at, x) for at, x in k.items()], ncols, wide)))
        self.one, self.many = one, many

    def mask(self, form, seed):
        """A mask of the result's shape, on either side."""
        shape = FORMS[form](*self.sides[0], None).wait().shape
        triples = [(*at, x) for at, x in entries(seed, *shape,
                                                 3 + shape[0] * shape[1] // 3).items()]
        return [s.from_triples(triples, *shape) for s in (self.one, self.many)]
