"""docs/loops.md: each block prints what stands below it, and that is what plain Python gives."""
import ast
import unittest

import graphs
from pages import blocks_of, printed, text_of


def parts():
    """The heading, the block and what it prints, of each part of the page that has blocks."""
    for part in text_of('docs/loops.md').split('\n## ')[1:]:
        if blocks_of(part):
            yield (part.split('\n', 1)[0], *blocks_of(part)[:2])


class Page(unittest.TestCase):
    @classmethod
    def setUpClass(cls):
        cls.said = {heading: said for heading, _, said in parts()}

    def test_what_it_prints(self):
        found = list(parts())
        self.assertEqual(len(found), 3)
        for heading, block, want in found:
            self.assertEqual(printed(block), want, heading)

    def test_steps(self):
        levels = graphs.levels(graphs.UNDIRECTED[3].near(), 16)
        near = sorted(vertex for vertex, level in levels.items() if level <= 2)
        self.assertEqual(self.said['Who is within two hops, on a budget'].splitlines()[0],
                         str(near))

    def test_toll(self):
        edges = {('a', 'b'): 12, ('b', 'd'): 4, ('a', 'c'): 9, ('c', 'd'): 10, ('d', 'e'): 30,
                 ('e', 'a'): 1}
        known = {'a': 0}
        for _ in range(5):
            for (one, other), length in edges.items():
                if one in known:
                    longer = known[one] + length + 5 * (length > 10)
                    known[other] = min(known.get(other, longer), longer)
        rounds, said = self.said['Shortest paths with a toll'].splitlines()[-1].split(' ', 1)
        self.assertEqual((rounds, ast.literal_eval(said)), ('4', known))

    def test_peeling(self):
        weights = {('Ann', 'Bob'): 30, ('Bob', 'Cid'): 25, ('Cid', 'Ann'): 20, ('Cid', 'Dee'): 15,
                   ('Dee', 'Eva'): 20, ('Eva', 'Flo'): 5}
        left, lines, number = {name for pair in weights for name in pair}, [], 0
        while True:
            number += 1
            strength = {name: sum(weight for pair, weight in weights.items() if name in pair
                                  and left.issuperset(pair)) for name in left}
            thin = sorted(name for name in left if strength[name] < 40)
            if not thin:
                break
            lines += ['round %d without %s' % (number, name) for name in thin]
            left.difference_update(thin)
        self.assertEqual(self.said['Peeling by weight'].splitlines(), [*lines, str(sorted(left))])
