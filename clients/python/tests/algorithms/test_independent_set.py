"""Seeds of algorithms that draw, what networkx takes for one; and the numbers that they draw."""
import random

import numpy

import support
from spmat import algorithms
from spmat.algorithms import components


class Seeds(support.InSession):
    def setUp(self):
        edges = [(i, (i * k) % 41) for i in range(1, 41) for k in (2, 3, 7) if i != (i * k) % 41]
        self.G = algorithms.undirected(self.s.from_edgelist(edges, nodelist=range(41),
                                                            dup_op='first'))

    def calls(self, seed):
        return (algorithms.louvain(self.G, seed=seed).labels.to_list(),
                algorithms.maximal_independent_set(self.G, seed).to_list())

    def test_the_same_seed_draws_the_same(self):
        self.assertEqual(self.calls(7), self.calls(7))
        self.assertEqual(self.calls(random.Random(7)), self.calls(random.Random(7)))
        self.assertEqual(algorithms.maximal_independent_set(self.G, 7).to_list(),
                         algorithms.maximal_independent_set(self.G, random.Random(7)).to_list())

    def test_a_generator_goes_on(self):
        chance = random.Random(3)
        self.assertGreater(len({tuple(algorithms.maximal_independent_set(self.G, chance).to_list())
                                for _ in range(6)}), 1)

    def test_none_draws_anew(self):
        self.assertGreater(len({tuple(algorithms.maximal_independent_set(self.G, None).to_list())
                                for _ in range(8)}), 1)

    def test_numpy(self):
        for make in (numpy.random.default_rng, numpy.random.RandomState):
            self.assertEqual(self.calls(make(5)), self.calls(make(5)))
        self.assertEqual(self.calls(numpy.int64(7)), self.calls(7))

    def test_what_is_no_seed(self):
        for wrong in ('x', 1.5, True, [1]):
            for function in (algorithms.louvain, algorithms.maximal_independent_set):
                with self.assertRaisesRegex(TypeError, 'a seed is a whole number'):
                    function(self.G, seed=wrong)


class Drawn(support.InSession):
    def test_each_once(self):
        for seed in (0, 1, -5, 1 << 70):
            values = components.draw_numbers(self.s.ones(5000), seed).to_list()
            self.assertEqual(len(set(values)), 5000)
            self.assertTrue(0 < min(values) and max(values) < 1 << 32)
            self.assertEqual(values,
                             [value
                              for value in components.draw_numbers(self.s.full(5000, 1, 7),
                                                                        seed).to_list()])
            self.assertLess(abs(sum(values) / 5000 / (1 << 31) - 1), .05)
            up = sum(a < b for a, b in zip(values, values[1:]))
            self.assertLess(abs(up - 2500), 200)                           # no more than by chance

    def test_the_client_draws_the_same(self):
        for seed in (0, 1, -5, 1 << 70):
            made = components.draw_numbers(self.s.full(1, 3000), seed).to_dense(0)[0]
            self.assertEqual(list(made), components.draw_on_paper(3000, seed).tolist())

    def test_a_text_is_no_seed(self):
        with self.assertRaisesRegex(TypeError, "a seed is a whole number, .*, not 'x'"):
            components.draw_numbers(self.s.ones(5), 'x')

    def test_seeds(self):
        first, second = (components.draw_numbers(self.s.ones(2000), seed).to_list()
                         for seed in (1, 2))
        self.assertLess(sum(a == b for a, b in zip(first, second)), 3)
        self.assertLess(abs(sum(a < b for a, b in zip(first, second)) - 1000), 150)
