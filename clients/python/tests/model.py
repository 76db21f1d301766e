"""Matrices as finite maps of Python, {(row, column): value}, and the client's methods on them: what
random calls are compared with."""
import ready_meanings


def signed(value):
    """The number within 64 bits that a value wraps to."""
    return (int(value) + 2 ** 63) % 2 ** 64 - 2 ** 63


UNARY = {name: ready_meanings.UNARY[name] for name in ('identity', 'one', 'ainv', 'abs', 'bnot',
                                                       'lnot')}
BINARY = {name: ready_meanings.BINARY[name] for name in ('plus', 'minus', 'times', 'min', 'max',
                                                         'first', 'second', 'cdiv', 'ne')}
ASSOCIATIVE = ('plus', 'times', 'min', 'max', 'first', 'second')
INDEX = {name: ready_meanings.INDEX[name] for name in ('tril', 'triu', 'rowle', 'valuegt',
                                                       'offdiag', 'rowindex')}


def fold(op, values):
    out = values[0]
    for value in values[1:]:
        out = signed(BINARY[op](out, value))
    return out


def folded(op, terms):
    """From lists of terms by position."""
    return {position: fold(op, values) for position, values in terms.items()}


def union(a, b, op):
    return {p: signed(BINARY[op](a[p], b[p])) if p in a and p in b else a.get(p, b.get(p))
            for p in {**a, **b}}


def both(a, b, op):
    return {p: signed(BINARY[op](a[p], b[p])) for p in a if p in b}


def product(a, b, add, mul):
    rows, terms = {}, {}
    for (k, j), y in sorted(b.items()):
        rows.setdefault(k, []).append((j, y))
    for (i, k), x in sorted(a.items()):
        for j, y in rows.get(k, ()):
            terms.setdefault((i, j), []).append(signed(BINARY[mul](x, y)))
    return folded(add, terms)


def by_rows(a, op):
    terms = {}
    for (i, j), x in sorted(a.items()):
        terms.setdefault((i, 0), []).append(x)
    return folded(op, terms)


def by_columns(a, op):
    return transposed(by_rows(transposed(a), op))


def transposed(a):
    return {(j, i): x for (i, j), x in a.items()}


def cut(a, keep):
    return {p: x for p, x in a.items() if keep(p)}


def updated(a, b, accum, keep, replace):
    inside = cut(union(a, b, accum) if accum else b, keep)
    return inside if replace else {**cut(a, lambda p: not keep(p)), **inside}


def some(random_, nrows, ncols, share=.4, least=-3, most=4):
    """Random entries."""
    return {(i, j): random_.randint(least, most) for i in range(nrows) for j in range(ncols)
            if random_.random() < share}


MASKS = ('none', 'S', 'V', '~S', '~V')


def mask_of(matrix, cells, kind):
    """A mask of a kind, and whether it lets a position through."""
    if kind == 'none':
        return None, lambda at: True
    inside = (lambda at: bool(cells.get(at))) if kind[-1] == 'V' else (lambda at: at in cells)
    mask = matrix.V if kind[-1] == 'V' else matrix.S
    return (~mask, lambda at: not inside(at)) if kind[0] == '~' else (mask, inside)
