"""What commands print: one result as plain lines, as CSV and as JSON."""
import csv
import io
import json
import types
import unittest

import command_line
import support
from spmat.cli import algorithm_commands, output

GRAPH = (
    '%%MatrixMarket matrix coordinate pattern symmetric\n6 6 7\n2 1\n3 1\n3 2\n4 3\n5 4\n6 4\n6 '
    '5\n')
ROWS = [('Anna', 'Dvořák, Emil', 3), ('a "b"', 'c', -2)]


def printed(result, **forms):
    options = types.SimpleNamespace(**dict({'json': False, 'csv': False}, **forms))
    return ''.join(output.format_lines(options, result))


class Forms(unittest.TestCase):
    def test_rows(self):
        result = output.Result(('source', 'target', 'weight'), ROWS)
        self.assertEqual(printed(result), 'Anna\tDvořák, Emil\t3\na "b"\tc\t-2\n')
        self.assertEqual(list(csv.reader(io.StringIO(printed(result, csv=True)))),
                         [['source', 'target', 'weight'], ['Anna', 'Dvořák, Emil', '3'],
                          ['a "b"', 'c', '-2']])
        text = printed(result, json=True)
        self.assertEqual(json.loads(text),
                         [dict(zip(('source', 'target', 'weight'), row)) for row in ROWS])
        self.assertEqual(text.count('\n'), 4)      # an object a line

    def test_a_column_of_fractions(self):
        result = output.Result(('node', 'rank'), [(1, .25), (2, 1 / 3)])
        self.assertEqual(printed(result), '1 0.250000000\n2 0.333333333\n')
        self.assertEqual(printed(result, csv=True), 'node,rank\n1,0.250000000\n2,0.333333333\n')
        self.assertEqual(json.loads(printed(result, json=True)),
                         [{'node': 1, 'rank': .25}, {'node': 2, 'rank': 1 / 3}])

    def test_a_number(self):
        result = output.Result(('triangles',), [(45,)], single=True)
        self.assertEqual((printed(result), printed(result, csv=True)), ('45\n', 'triangles\n45\n'))
        self.assertEqual(printed(result, json=True), '{"triangles": 45}\n')

    def test_nothing(self):
        result = output.Result(('node', 'level'), [])
        self.assertEqual((printed(result), printed(result, csv=True),
                          json.loads(printed(result, json=True))), ('', 'node,level\n', []))

    def test_names_that_json_has_not(self):
        result = output.Result(('node', 'value'), [(('row', 1), None)])
        self.assertEqual(json.loads(printed(result, json=True)),
                         [{'node': "('row', 1)", 'value': None}])
        self.assertEqual(printed(result, csv=True), 'node,value\n"(\'row\', 1)",\n')


class EveryCommand(command_line.CommandLine):
    """Each command has both forms, which say what its plain lines say."""

    def forms(self, *words):
        """The fields and rows of a command as CSV and as JSON has them, and its plain lines."""
        header, *rows = csv.reader(io.StringIO(self.printed(*words, '--csv')))
        objects = json.loads(self.printed(*words, '--json'))
        objects = objects if isinstance(objects, list) else [objects]
        self.assertEqual([list(one) for one in objects], [header] * len(objects), words)
        self.assertEqual(len(objects), len(rows), words)
        return header, objects, rows, self.printed(*words)

    def setUp(self):
        super().setUp()
        self.write('graph.mtx', GRAPH)
        self.write('graph.csv', 'from,to,w\na,b c,2\nb c,a,2\nb c,d,3\nd,b c,3\na,d,4\nd,a,4\n')
        self.write('path.csv', 'from,to,w\na,b c,2\nb c,d,3\n')

    def test_algorithms(self):
        words = {'k': ['--k', '2'], 'sources': ['--source', 'a'], 'firsts': ['--pair', 'a', 'd'],
                 'target': ['--target', 'd']}
        for name, algorithm in algorithm_commands.COMMANDS.items():
            more = [word for option in algorithm.parameters for word in words.get(option, [])]
            graph = ('path.csv' if name in ('topological-levels', 'longest-paths',
                                            'bipartite-sides') else 'graph.csv')
            fields, objects, rows, plain = self.forms(name, graph, *more, '--quiet')
            between = '\t' if any(' ' in cell for row in rows for cell in row) else ' '
            self.assertEqual(plain, ''.join(between.join(row) + '\n' for row in rows), name)
            for one, row in zip(objects, rows):
                self.assertEqual(['%.9f' % cell if isinstance(cell, float) else str(cell)
                                  for cell in one.values()], row, name)
            self.assertEqual(len(set(fields)), len(fields), name)

    def test_the_greatest(self):
        fields, objects, _, _ = self.forms('degrees', 'graph.mtx', '--top', '2')
        self.assertEqual((fields, objects),
                         (['node', 'degrees'],
                          [{'node': 3, 'degrees': 3}, {'node': 4, 'degrees': 3}]))
        self.assertIn('--top', self.run_words('degrees', 'graph.mtx', '--top', '2', '--mtx').stderr)
        self.assertEqual(self.run_words('degrees', 'graph.mtx', '--csv', '--json').returncode, 2)

    def test_what_is_written_is_read_again(self):
        text = self.printed('k-truss', 'graph.mtx', '--k', '3', '--csv')
        self.assertEqual(text.splitlines()[:2], ['source,target,k_truss', '1,2,1'])
        self.write('truss.csv', text)
        self.assertEqual(self.printed('degrees', 'truss.csv'),
                         self.printed('degrees', 'truss.csv', '--columns', 'source,target'))

    @support.needs('matplotlib')
    def test_spy(self):
        self.assertEqual(json.loads(self.printed('spy', 'graph.mtx', '--plot', 'p.png', '--json')),
                         {'rows': 6, 'columns': 6, 'entries': 14})
