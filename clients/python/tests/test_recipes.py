"""The eleven questions of docs/examples.md: each block prints what stands below it, and that is
what plain Python gives."""
import ast
import collections
import itertools
import re
import unittest

import graphs
from graphs import KARATE_PAIRS
from pages import blocks_of, printed, text_of

NEAR = collections.defaultdict(set)
for _i, _j in KARATE_PAIRS:
    NEAR[_i].add(_j)
    NEAR[_j].add(_i)


def recipes():
    """The heading, the block and what it prints, of each recipe."""
    page = text_of('docs/examples.md').split('\n## Eleven questions\n')[1].split('\n## ')[0]
    for part in page.split('\n### ')[1:]:
        yield part.split('\n', 1)[0], blocks_of(part)


class Recipes(unittest.TestCase):
    @classmethod
    def setUpClass(cls):
        cls.said = {heading: blocks[1] for heading, blocks in recipes()}

    def value(self, heading):
        """What a recipe prints, as a value of Python."""
        return ast.literal_eval(self.said[heading])

    def test_what_they_print(self):
        found = list(recipes())
        self.assertEqual(len(found), 11)
        for heading, blocks in found:
            self.assertEqual(len(blocks), 2, heading)
            self.assertEqual(printed(blocks[0]), blocks[1], heading)

    def test_pagerank(self):
        ranks = graphs.pagerank([NEAR[i] for i in range(34)])
        best = sorted(range(34), key=lambda i: -ranks[i])[:5]
        self.assertEqual(self.said['The most important vertices'],
                         ''.join('%d %.5f\n' % (i, ranks[i]) for i in best))

    def test_cycles_of_four(self):
        count = sum(1 for a, b, c, d in itertools.permutations(range(34), 4) if a < b and a < c
                    and a < d and b < d and b in NEAR[a] and c in NEAR[b] and d in NEAR[c]
                    and a in NEAR[d])
        self.assertEqual(self.value('Cycles of four edges'), count)

    def test_friends_of_friends(self):
        knows = {'Ann': 'Bob Cid', 'Bob': 'Ann Dee Cid', 'Cid': 'Ann Dee Eva Bob', 'Dee': 'Bob Cid',
                 'Eva': 'Cid Flo', 'Flo': 'Eva'}
        near = {name: set(others.split()) for name, others in knows.items()}
        common = {name: len(near[name] & near['Ann']) for name in near if name != 'Ann'
                  and name not in near['Ann']}
        want = [(name, count) for name, count in sorted(common.items(), key=lambda pair: -pair[1])
                if count]
        self.assertEqual(self.value('Friends of friends'), want)

    def test_when_money_could_have_arrived(self):
        payments = [('Ann', 'Bob', 9), ('Ann', 'Bob', 3), ('Bob', 'Cid', 5), ('Bob', 'Dee', 2),
                    ('Cid', 'Dee', 8), ('Cid', 'Eva', 4)]
        there, way = {'Ann': 1}, {'Ann': []}
        for source, target, time in sorted(payments, key=lambda payment: payment[2]):
            if there.get(source, time + 1) <= time and time < there.get(target, time + 1):
                there[target], way[target] = time, [*way[source], (source, time)]
        self.assertEqual(self.said['When money from one account could have reached another'],
                         '%s %s\n' % (there, way['Dee']))

    def test_tolls(self):
        edges = {('a', 'b'): 12, ('b', 'd'): 4, ('a', 'c'): 9, ('c', 'd'): 10, ('d', 'e'): 30}
        near = {u: [(v, length + 5 * (length > 10)) for (w, v), length in edges.items() if w == u]
                for u in 'abcde'}
        want, todo = {'a': 0}, ['a']
        while todo:
            u = todo.pop()
            for v, length in near[u]:
                if want[u] + length < want.get(v, 1 << 60):
                    want[v] = want[u] + length
                    todo.append(v)
        self.assertEqual(self.value('Shortest paths with your own operator'), want)

    def test_within_two_steps(self):
        self.assertEqual(self.value('Who is within two steps'),
                         sorted({16} | NEAR[16] | {k for j in NEAR[16] for k in NEAR[j]}))

    def test_votes(self):
        labels = list(range(34))
        for _ in range(4):
            new = []
            for i in range(34):
                leader, votes = None, 0
                for j in sorted(NEAR[i]):
                    # Boyer and Moore; the first term stands as it is
                    if leader is None:
                        leader, votes = labels[j], 1
                    elif labels[j] == leader:
                        votes += 1
                    elif votes == 0:
                        leader, votes = labels[j], 1
                    else:
                        votes -= 1
                new.append(leader)
            labels = new
        self.assertEqual(self.value('Communities by the vote of neighbours'), labels)

    def test_jaccard(self):
        share = {(i, j): 1000 * len(NEAR[i] & NEAR[j]) // len(NEAR[i] | NEAR[j]) for i in range(34)
                 for j in range(i + 1, 34)
                 if NEAR[i] & NEAR[j]}
        best = sorted(share.items(), key=lambda pair: (-pair[1], pair[0]))[:3]
        self.assertEqual(self.said['Similar vertices: Jaccard'],
                         '%d %s\n' % (len(share), [(*pair, value) for pair, value in best]))

    def test_levels_of_tasks(self):
        waits = {'dress': ['wash'], 'eat': ['cook'], 'cook': ['shop'], 'go': ['dress', 'eat'],
                 'shop': ['wash'], 'wash': []}

        def level(task):
            return max((1 + level(other) for other in waits[task]), default=0)
        self.assertEqual(self.value('Levels of tasks that wait for others'),
                         {task: level(task) for task in waits})

    def test_patterns(self):
        edges = [('p', 'q', 'a'), ('q', 'r', 'b'), ('r', 'q', 'c'), ('r', 's', 'd'),
                 ('q', 't', 'd'), ('t', 'p', 'a'), ('s', 't', 'b')]
        want = set()
        for start in 'pqrst':
            words = {(start, '')}
            for _ in range(9):
                # longer words bring nothing new among five vertices
                words |= {(v, word + letter) for end, word in words for u, v, letter in edges
                          if u == end}
            want |= {(start, end) for end, word in words if re.fullmatch('a[bc]*d', word)}
        self.assertEqual(set(self.value('Paths that spell a pattern')), want)

    def test_widest(self):
        pipes = {('a', 'b'): 4, ('b', 'd'): 9, ('a', 'c'): 6, ('c', 'd'): 5, ('d', 'e'): 7}
        ways = [['a', 'b'], ['a', 'c'], ['a', 'b', 'd'], ['a', 'c', 'd'], ['a', 'b', 'd', 'e'],
                ['a', 'c', 'd', 'e']]
        want = {}
        for way in ways:
            want[way[-1]] = max(want.get(way[-1], 0),
                                min(pipes[edge] for edge in zip(way, way[1:])))
        self.assertEqual(self.value('The widest path'), want)
