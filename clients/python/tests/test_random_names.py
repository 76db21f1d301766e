"""Random expressions on columns whose values are vertices, on matrices of one row or one column, and
on two kinds of vertices with equal names, beside a model in plain Python that knows names alone.
Often names are the numbers 1 to n.

`SPMAT_SECONDS=600 python3 -m pytest tests/test_random_names.py` goes on for as long."""
import os
import random
import tempfile
import time
import warnings

import support
import spmat
from spmat import algorithms

SECONDS = float(os.environ.get('SPMAT_SECONDS', '4'))
NAMES = ([1, 2, 3, 4], [4, 2, 1, 3], list('abcd'), ['b', 1, 2, 'c'], [0, 1, 2, 3])
REFUSED = 'refused'


class Column:
    """The model: names of rows, values by name, and the names that values may be."""

    def __init__(self, names, values, among):
        self.names, self.values, self.among = names, values, among

    def with_values(self, values):
        return Column(self.names, values, self.among)

    def rank(self, name):
        return self.among.index(name)


def chooses(op, column, x, y):
    """One of two vertices, by an operator that chooses."""
    if op in ('first', 'second'):
        return x if op == 'first' else y
    return (min if op == 'min' else max)(x, y, key=column.rank)


class Walk:
    """A column of a session beside its model."""

    def __init__(self, session, chance):
        self.session, self.chance = session, chance
        self.names, self.among = (list(chance.choice(NAMES)) for _ in range(2))
        self.one, self.two = self.column(self.among), self.column(self.among)
        self.other = self.column([*reversed(self.among)])

    def column(self, among):
        """A column of vertices: the greatest of each row of a matrix of two kinds."""
        best = {name: self.chance.choice(among) for name in self.names if self.chance.random() < .8}
        rows = [(self.names.index(name), column, 9 if other == best[name] else 1)
                for name in best for column, other in enumerate(among)]
        B = self.session.from_triples(rows, len(self.names), len(among),
                                      nodes=(self.names, among))
        return B.reduce_rowwise('argmax'), Column(self.names, best, among)

    def step(self):
        """What an expression gives, and what the model says of it."""
        name = self.chance.choice([step for step in dir(self) if step.startswith('do_')])
        return (name, *getattr(self, name)())

    # -- each gives a call and what it should give

    def do_read(self):
        (v, m), at = self.one, self.chance.choice(self.names)
        read = self.chance.choice([lambda: spmat.Vector(v)[at], lambda: v.get(at),
                                   lambda: v.by_node().get(at),
                                   lambda: v.to_pandas().to_dict().get(at)])
        return read, m.values.get(at)

    def do_select(self):
        (v, m), name = self.one, self.chance.choice([*self.among, 7, 'z'])
        sign = self.chance.choice(('==', '!='))
        if name not in m.among:
            return lambda: v.select(sign, name).by_node(), REFUSED
        return (lambda: v.select(sign, name).by_node(),
                {at: x for at, x in m.values.items() if (x == name) is (sign == '==')})

    def do_compare(self):
        (v, m), name = self.one, self.chance.choice(self.among)
        how = self.chance.choice([{'right': name}, {'left': name}])
        return (lambda: v.apply('eq', **how).by_node(),
                {at: int(x == name) for at, x in m.values.items()})

    def do_bound(self):
        (v, m), name = self.one, self.chance.choice(self.among)
        op = self.chance.choice(('first', 'second', 'min', 'max'))
        return (lambda: v.apply(op, right=name).by_node(),
                {at: chooses(op, m, x, name) for at, x in m.values.items()})

    def do_assign(self):
        (v, m), name = self.one, self.chance.choice([*self.among, 7])
        rows = self.chance.sample(self.names, 2)
        if name not in m.among:
            return lambda: v.assign(name, rows).by_node(), REFUSED
        return (lambda: v.assign(name, rows).by_node(),
                {at: name if at in rows else m.values[at] for at in self.names
                 if at in rows or at in m.values})

    def do_meet(self):
        (v, m), (w, n) = self.one, self.two
        op = self.chance.choice(('first', 'second', 'min', 'max'))
        return (lambda: v.ewise_mult(w, op).by_node(),
                {at: chooses(op, m, x, n.values[at]) for at, x in m.values.items()
                 if at in n.values})

    def do_join(self):
        (v, m), (w, n) = self.one, self.two
        op = self.chance.choice(('first', 'second', 'min', 'max'))
        return (lambda: v.ewise_add(w, op).by_node(),
                {at: chooses(op, m, m.values[at], n.values[at]) if at in m.values
                 and at in n.values else m.values.get(at, n.values.get(at))
                 for at in self.names if at in m.values or at in n.values})

    def do_same(self):
        (v, m), (w, n) = self.one, self.two
        return (lambda: v.ewise_mult(w, 'eq').by_node(),
                {at: int(x == n.values[at]) for at, x in m.values.items() if at in n.values})

    def do_other_lists(self):
        (v, _), (w, _) = self.one, self.other
        call = self.chance.choice([lambda: v.ewise_mult(w, 'eq'), lambda: v.ewise_add(w, 'min'),
                                   lambda: v.isequal(w), lambda: v.update(w, mask=w.S)])
        return call, REFUSED

    def do_arithmetic(self):
        v, m = self.one
        plain = m.among == [0, 1, 2, 3]
        call = self.chance.choice([lambda: v.apply('plus', right=1), lambda: v.reduce_scalar('plus'),
                                   lambda: v.ewise_mult(v, 'times'), lambda: v.select('>', 1),
                                   lambda: v.reduce_scalar('mean')])
        return (call, REFUSED) if not plain else (lambda: True, True)

    def do_fold(self):
        v, m = self.one
        op = self.chance.choice(('min', 'max'))
        return (lambda: v.reduce_scalar(op),
                (min if op == 'min' else max)(m.values.values(), key=m.rank) if m.values else None)

    def do_part(self):
        v, m = self.one
        some = self.chance.sample(self.names, 2)
        return (lambda: v[some, :].by_node(),
                {at: m.values[at] for at in some if at in m.values})

    def do_form(self):
        v, m = self.one
        call = self.chance.choice([lambda: v.T.by_node(), lambda: v.diag().diag().by_node(),
                                   lambda: v.dup().by_node(), lambda: v.T.T.by_node(),
                                   lambda: spmat.concat([[v]]).by_node()])
        return call, m.values

    def do_one_column(self):
        """Two matrices of one column: the same name, or names that differ."""
        title, other = self.chance.choice('pq'), self.chance.choice('pq')
        A, B = ({name: self.chance.randrange(9) for name in self.names} for _ in range(2))
        a, b = (self.session.from_edgelist([(name, word, x) for name, x in one.items()],
                                           bipartite=True)
                for one, word in ((A, title), (B, other)))
        call = self.chance.choice([lambda: a.ewise_add(b), lambda: a.dup(mask=b.S),
                                   lambda: a.T.ewise_mult(b.T, 'plus')])
        if title != other:
            return call, REFUSED
        return (lambda: sorted(a.ewise_add(b).to_edgelist(), key=repr),
                sorted(((name, title, A[name] + B[name]) for name in self.names), key=repr))

    def do_fold_of_one_column(self):
        A = {name: self.chance.randrange(9) for name in self.names}
        a = self.session.from_edgelist([(name, 'p', x) for name, x in A.items()], bipartite=True)
        return lambda: a.reduce_columnwise('plus').by_node(), {'p': sum(A.values())}

    def do_assign_part(self):
        """Some rows are set to those of another column, and lose what it hasn't."""
        (v, m), (w, n) = self.one, self.two
        rows = self.chance.sample(self.names, 2)
        return (lambda: v.assign(w[rows, :], rows).by_node(),
                {at: (n if at in rows else m).values[at] for at in self.names
                 if at in (n if at in rows else m).values})

    def do_mask(self):
        (v, m), (w, n) = self.one, self.two
        inside = {at: x for at, x in m.values.items() if at in n.values}
        outside = {at: x for at, x in m.values.items() if at not in n.values}
        return self.chance.choice([
            (lambda: v.dup(mask=w.S).by_node(), inside),
            (lambda: v.dup(mask=~w.S).by_node(), outside),
            (lambda: v.without(w.S).by_node(), outside),
            (lambda: v[w.S, :].by_node(), inside),
            (lambda: v.update(w, mask=w.S).by_node(), {**m.values, **n.values}),
            (lambda: v.update(w, mask=~v.S).by_node(), {**n.values, **m.values})])

    def do_tiles(self):
        """What is split, or cut, and put together again."""
        (v, m), some = self.one, self.chance.randrange(1, len(self.names))
        first, last = self.names[:some], self.names[some:]
        return self.chance.choice([
            (lambda: spmat.concat([[v[first, :]], [v[last, :]]]).by_node(), m.values),
            (lambda: spmat.concat(v.split([some, len(last)])).by_node(), m.values),
            (lambda: spmat.concat([[v[last, :]], [v[first, :]]]).by_node(), m.values)])

    def do_align(self):
        """A column with other vertices, and values from another list."""
        (v, m), (w, n) = self.one, self.other
        kept = self.chance.sample(self.names, 3)

        def call():
            one, two = spmat.align(v, w[kept, :], how=how)
            return one.by_node(), two.by_node(), one.ewise_mult(two, 'eq').by_node()
        how = self.chance.choice(('outer', 'inner'))
        theirs = {at: x for at, x in n.values.items() if at in kept}
        return call, ({at: x for at, x in m.values.items() if how == 'outer' or at in kept}, theirs,
                      {at: int(x == theirs[at]) for at, x in m.values.items() if at in theirs})

    def do_save(self):
        (v, m), chance = self.one, self.chance

        def call():
            with tempfile.TemporaryDirectory() as folder:
                path = os.path.join(folder, 'x.spmat')
                v.session.save(path, v=v, w=self.two[0])
                found = v.session.load(path)
            return found['v'].by_node(), found['v'].ewise_mult(self.two[0], 'eq').by_node()
        if chance.random() < .7:                   # it takes longer than others
            return self.do_same()
        return call, (m.values, self.do_same()[1])

    def graph(self, share, **how):
        """A graph between the names, beside its edges."""
        edges = {(u, v): self.chance.randrange(9) for u in self.names for v in self.names
                 if self.chance.random() < share}
        return self.session.from_edgelist([(*at, x) for at, x in edges.items()],
                                          nodelist=self.names, **how), edges

    def do_product(self):
        """The least vertex among those of the neighbours, and the first vertex between two."""
        (v, m), (G, edges) = self.one, self.graph(.5)
        ends = {u: [m.values[w] for w in self.names if (u, w) in edges and w in m.values]
                for u in self.names}
        between = {(u, w): next((x for x in self.names if (u, x) in edges and (x, w) in edges),
                                None) for u in self.names for w in self.names}
        return self.chance.choice([
            (lambda: G.mxv(v, 'min_second').by_node(),
             {u: min(some, key=m.rank) for u, some in ends.items() if some}),
            (lambda: {(u, w): x for u, w, x in G.mxm(G, 'min_secondi').to_edgelist()},
             {at: x for at, x in between.items() if x is not None})])

    def do_search(self):
        """Parents lead back to the source, and each component is called by one of its own."""
        G, edges = self.graph(.4)
        source = self.chance.choice(self.names)
        levels, front = {source: 0}, [source]
        for u in front:
            for w in self.names:
                if (u, w) in edges and w not in levels:
                    levels[w] = levels[u] + 1
                    front.append(w)

        def call():
            parents = algorithms.bfs_parents(G, source)
            seen = parents.by_node()
            return (set(seen), all(seen[w] == parents[w] and (w == source == seen[w] or (
                levels[seen[w]] == levels[w] - 1 and (seen[w], w) in edges)) for w in seen))
        return call, (set(levels), True)

    def do_components(self):
        U, edges = self.graph(.3)
        U = algorithms.undirected(U)
        group = {u: {u} for u in self.names}
        for u, w in edges:
            group[u] |= group[w]
            for x in group[u]:
                group[x] = group[u]

        def call():
            found = algorithms.connected_components(U)
            named = found.by_node()
            return all(named[u] in group[u] and {w for w in named if named[w] == named[u]}
                       == set(found.select('==', named[u]).by_node()) == group[u] for u in named)
        return call, True

    def do_two_kinds(self):
        """People and things of the same names: each goes with itself alone."""
        sold = {(u, u): 1 for u in self.names}
        sold.update({(self.chance.choice(self.names), self.chance.choice(self.names)):
                     self.chance.randrange(9) for _ in range(4)})
        B = self.session.from_edgelist([(*at, x) for at, x in sold.items()], bipartite=True)
        wrong = self.chance.choice([
            lambda: B.mxm(B), lambda: B.ewise_add(B.T), lambda: B.dup(mask=B.T.S),
            lambda: B.mxv(B.reduce_rowwise()), lambda: B.without(B.T.S), lambda: B.isequal(B.T),
            lambda: B[B.reduce_columnwise().S, :], lambda: spmat.concat([[B, B.T]])])
        if self.chance.random() < .5:
            return wrong, REFUSED
        shared = {}
        for (u, x), many in sold.items():
            for (w, y), times in sold.items():
                if x == y:
                    shared[u, w] = shared.get((u, w), 0) + many * times
        return lambda: {(u, w): x for u, w, x in B.mxm(B.T).to_edgelist()}, shared

    def do_cut(self):
        """Two rows of one graph go together."""
        G, edges = self.graph(.6)
        u, v = self.chance.sample(self.names, 2)
        return (lambda: G[u, :].ewise_add(G[v, :]).by_node(),
                {w: edges.get((u, w), 0) + edges.get((v, w), 0) for w in self.names
                 if (u, w) in edges or (v, w) in edges})


class Names(support.InSession):
    def test_chance(self):
        """Nothing that is compared differs, and nothing is answered that should be refused."""
        number, refused, began = 0, 0, time.monotonic()
        chance = random.Random(int(os.environ.get('SPMAT_SEED', '11')))
        while time.monotonic() < began + SECONDS or number < 20:
            walk = Walk(self.session, chance)
            for _ in range(12):
                name, call, wanted = walk.step()
                number += 1
                with self.subTest(step=name, number=number, names=walk.names, among=walk.among), \
                        warnings.catch_warnings():
                    warnings.simplefilter('ignore')
                    if wanted == REFUSED:
                        refused += 1
                        with self.assertRaises((ValueError, spmat.SpmatError)):
                            call()
                    else:
                        self.assertEqual(call(), wanted)
        print('random names: %d steps, %d of them refused, %.0f s' % (
            number, refused, time.monotonic() - began))
