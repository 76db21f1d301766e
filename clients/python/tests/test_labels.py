"""Every algorithm on a graph whose vertices have names: they are taken wherever a vertex is asked
for, and the answers are those of numbers."""
import unittest

import pytest

import alike
import support  # noqa: F401 (finds the program)
import spmat

pytestmark = pytest.mark.slow

LABELS = ['Ann', 'Bob', 'Cid', 'Dee', 'Eve', 'Fay', 'Gus', 'Hal', 'Ida']
EDGES = {'a ring, chords and a tail': [(0, 1, 3), (1, 2, 1), (2, 3, 4), (3, 4, 1), (4, 5, 5),
                                       (5, 0, 2), (1, 4, 6), (2, 5, 3), (5, 6, 1), (6, 7, 2)],
         'no cycle': [(0, 1, 2), (0, 2, 1), (1, 3, 3), (2, 3, 1), (3, 4, 2), (2, 5, 4), (4, 6, 1),
                      (5, 6, 2), (7, 8, 1)]}


def numbered(found):
    """What an algorithm gave, with numbers in place of names."""
    if hasattr(found, 'to_text') and hasattr(found, 'mxm'):
        return found.shape, found.to_triples()
    if isinstance(found, str) and found in LABELS:
        return LABELS.index(found)
    if isinstance(found, (list, tuple)):
        return [numbered(one) for one in found]
    if isinstance(found, dict):
        return {numbered(key): numbered(value) for key, value in found.items()}
    if type(found).__module__.startswith('spmat.algorithms'):
        return {name: numbered(value) for name, value in vars(found).items()
                if isinstance(value, (int, float, list)) or hasattr(value, 'mxm')}
    return found


def outcome(call, G):
    """What a call comes to: its answer, or the kind of its refusal."""
    try:
        return numbered(call(G))
    except (spmat.SpmatError, ValueError) as fault:
        return type(fault).__name__


def columns_of(found):
    """The columns of an answer that have a row for each vertex."""
    if hasattr(found, 'to_text') and found.shape == (len(LABELS), 1):
        return [found]
    return ([one for part in found for one in columns_of(part)] if isinstance(found, (list, tuple))
            else [])


class Labels(unittest.TestCase):
    def test_algorithms(self):
        answers = 0
        with spmat.Session() as session:
            for kind, edges in EDGES.items():
                rows, columns, values = zip(*edges)
                both = [session.from_coo(rows, columns, values, len(LABELS), len(LABELS))
                        for _ in range(2)]
                both[1].nodes = LABELS
                for name, calls in alike.ALGORITHMS.items():
                    for number, call in enumerate(calls):
                        with self.subTest(graph=kind, algorithm=name, number=number):
                            by_number, by_name = (outcome(call, G) for G in both)
                            self.assertEqual(by_name, by_number)
                            answers += not isinstance(by_name, str)
        self.assertGreater(answers, 90)            # most aren't refused

    def test_answers_have_names(self):
        """A column that says something of each vertex has the names of the vertices."""
        with spmat.Session() as session:
            rows, columns, values = zip(*EDGES['a ring, chords and a tail'])
            G = session.from_coo(rows, columns, values, len(LABELS), len(LABELS))
            G.nodes = LABELS
            for name, calls in alike.ALGORITHMS.items():
                for number, call in enumerate(calls):
                    try:
                        found = columns_of(call(G))
                    except (spmat.SpmatError, ValueError):
                        continue
                    for column in found:
                        with self.subTest(algorithm=name, number=number):
                            self.assertEqual(column.nodes, LABELS)
