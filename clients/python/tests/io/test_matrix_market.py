"""Matrix texts: those that the client writes and reads, and files of every field that can be had as
whole numbers."""
import bz2
import fractions
import gzip
import io
import os
import random
import tempfile
import unittest
import warnings
from unittest import mock

import numpy

import support
import spmat
from spmat.io import matrix_market, matrix_text


def text_of(head, *lines):
    return ('%%MatrixMarket matrix ' + head + '\n'
            + ''.join(line + '\n' for line in lines)).encode()


class Files(support.InSession):
    def read(self, text, **how):
        return self.s.mmread(io.BytesIO(text), **how)

    def test_what_the_server_reads(self):
        text = text_of('coordinate integer symmetric', '% a comment', '', '3 3 2', '2 1 +007',
                       ' 3\t3 -1 ')
        self.assertEqual(self.read(text).to_dict(), {(0, 1): 7, (1, 0): 7, (2, 2): -1})
        self.assertEqual(self.read(text_of('COORDINATE Pattern general', '2 3 1', '2 3')).to_dict(),
                         {(1, 2): 1})

    def test_real(self):
        text = text_of('coordinate real general', '% c', '2 2 3', '1 1 1.0', '', '1 2 -2.5e1',
                       '2 2 3E+2', '% the end')
        self.assertEqual(self.read(text).to_dict(), {(0, 0): 1, (0, 1): -25, (1, 1): 300})
        big = text_of('coordinate double symmetric', '2 2 2', '1 1 9223372036854775807',
                      '1 2 -9223372036854775808.0')
        self.assertEqual(self.read(big).to_dict(),
                         {(0, 0): 2 ** 63 - 1, (0, 1): -2 ** 63, (1, 0): -2 ** 63})
        unsigned = text_of('coordinate unsigned-integer general', '1 1 1', '1 1 7')
        self.assertEqual(self.read(unsigned).to_dict(), {(0, 0): 7})

    def test_fields_of_values_that_are_not_read(self):
        for field, lines in (('integer', ('2 3 4', '1 2')), ('real', ('2 3 x', '1 2')),
                             ('complex', ('2 3 1 0', '1 2 3')), ('complex', ('2 3 1 0', '1 2'))):
            for given in (lines, lines[::-1]):
                text = text_of('coordinate %s general' % field, '3 3 2', *given)
                with self.assertRaises(spmat.Refused) as caught:
                    self.read(text, values=False)
                self.assertEqual(caught.exception.rule, 'M5')
                self.assertIn('line %d ' % (3 + given.index(lines[1])), str(caught.exception))
        for value in ('x', '\xe9', '\u0663', '1\0', '1.5'):
            text = text_of('coordinate real general', '3 3 1', '2 3 ' + value)
            self.assertEqual(self.read(text, values=False).to_dict(), {(1, 2): 1})

    def test_letters_of_other_scripts(self):
        for field, how in (('real', {}), ('real', {'scale': 10}), ('integer', {'scale': 10})):
            for line in ('2 3 \u0663', '2 3 \xe9', '2 \u0663 1', '\uff12 3 1'):
                with self.assertRaises(spmat.Refused) as caught:
                    self.read(text_of('coordinate %s general' % field, '3 3 1', line), **how)
                self.assertEqual(caught.exception.rule, 'M5')
                self.assertIn(repr(line), str(caught.exception))
                self.assertNotIn('\ufffd', str(caught.exception))

    def test_array(self):
        self.assertEqual(self.read(text_of('array integer general', '2 3', *'123456')).to_dict(),
                         {(0, 0): 1, (1, 0): 2, (0, 1): 3, (1, 1): 4, (0, 2): 5, (1, 2): 6})
        self.assertEqual(self.read(text_of('array real general', '2 1', '1.0', '0')).to_dict(),
                         {(0, 0): 1, (1, 0): 0})
        self.assertEqual(self.read(text_of('array integer symmetric', '2 2', '1', '2',
                                           '3')).to_dict(),
                         {(0, 0): 1, (1, 0): 2, (0, 1): 2, (1, 1): 3})
        self.assertEqual(self.read(text_of('array integer skew-symmetric', '3 3', '1', '2',
                                           '3')).to_dict(),
                         {(1, 0): 1, (0, 1): -1, (2, 0): 2, (0, 2): -2, (2, 1): 3, (1, 2): -3})
        self.assertEqual(self.read(text_of('array integer general', '0 5')).shape, (0, 5))

    def test_skew_symmetric(self):
        text = text_of('coordinate integer skew-symmetric', '3 3 2', '2 1 5', '1 3 7')
        self.assertEqual(self.read(text).to_dict(), {(1, 0): 5, (0, 1): -5, (2, 0): -7, (0, 2): 7})
        text = text_of('coordinate real skew-symmetric', '2 2 1', '2 1 5.0')
        self.assertEqual(self.read(text).to_dict(), {(1, 0): 5, (0, 1): -5})

    def test_repeated_positions(self):
        text = text_of('coordinate integer general', '2 2 5', '1 1 10', '1 2 1', '1 1 3', '2 2 2',
                       '1 1 4')
        for op, want in (('plus', 17), ('minus', 3), ('first', 10), ('second', 4), ('max', 10),
                         ('times', 120)):
            before = self.s.jobs, self.s.runs
            self.assertEqual(self.read(text, dup_op=op).to_dict(),
                             {(0, 0): want, (0, 1): 1, (1, 1): 2}, op)
            self.assertEqual((self.s.jobs, self.s.runs), (before[0] + 1, before[1] + 1))
        own = spmat.asm('binary', 'mov64 r0, r1\nmul64 r0, 100\nadd64 r0, r2\nexit')
        self.assertEqual(self.read(text, dup_op=own).to_dict()[0, 0], 100304)
        mirrored = text_of('coordinate integer symmetric', '2 2 2', '2 1 10', '1 2 1')
        self.assertEqual(self.read(mirrored, dup_op='minus').to_dict(), {(1, 0): 9, (0, 1): 9})
        skew = text_of('coordinate integer skew-symmetric', '2 2 2', '2 1 10', '1 2 1')
        self.assertEqual(self.read(skew, dup_op='plus').to_dict(), {(1, 0): 9, (0, 1): -9})
        pattern = text_of('coordinate pattern general', '2 2 3', '1 1', '2 2', '1 1')
        self.assertEqual(self.read(pattern, dup_op='plus').to_dict(), {(0, 0): 2, (1, 1): 1})
        before = self.s.jobs
        self.assertEqual(self.read(text_of('coordinate integer general', '1 1 1', '1 1 4'),
                                   dup_op='plus').nvals, 1)
        self.assertEqual(self.s.jobs, before)
        with self.assertRaises(spmat.DomainMismatch):
            self.read(text, dup_op=spmat.unary.abs)
        for repeats in (text, mirrored, skew, text.replace(b'integer', b'real')):
            with self.assertRaises(spmat.TextRefused) as said:
                self.read(repeats)
            self.assertEqual(said.exception.rule, 'M8')
            self.assertIn('dup_op= folds', str(said.exception))

    def test_refused_with_their_line(self):
        real, array, skew = ('coordinate real general', 'array integer general',
                             'coordinate integer skew-symmetric')
        for rule, at, line, text in (
            ('M1', 1, 'hello', b'hello\n1 1 0\n'),
            *(('M2', 1, '%%MatrixMarket matrix ' + head, text_of(head, '1 1 1', '1 1 2 3'))
              for head in (
                  'coordinate complex general', 'array real hermitian', 'array pattern general',
                  'vector real general')),
            ('M3', 3, '1 1', text_of(real, '% c', '1 1')),
            ('M3', 2, '1 1 x', text_of(real, '1 1 x')),
            ('M3', 2, '', text_of(real)),
            ('M4', 2, '16777217 1 0', text_of(real, '16777217 1 0')),
            ('M4', 2, '5000 5000', text_of(array, '5000 5000')),
            ('M5', 3, '1 1', text_of(real, '1 1 1', '1 1')),
            ('M5', 4, '1 1 2.5', text_of(real, '2 2 2', '2 2 1.0', '1 1 2.5')),
            ('M5', 3, '1 1 x', text_of(real, '1 1 1', '1 1 x')),
            ('M5', 3, '1 -1 5', text_of(real, '1 1 1', '1 -1 5')),
            ('M5', 3, '1 1 1_0', text_of(real, '1 1 1', '1 1 1_0')),
            ('M5', 3, '1 1 2-1', text_of(real, '1 1 1', '1 1 2-1')),
            ('M5', 3, '1 1 1.0.0', text_of(real, '1 1 1', '1 1 1.0.0')),
            ('M5', 3, '1 1 5e', text_of(real, '1 1 1', '1 1 5e')),
            ('M5', 4, '1 2', text_of(array, '2 1', '1', '1 2')),
            ('M5', 3, '1.0', text_of(array, '1 1', '1.0')),
            ('M6', 3, '2 1 5', text_of(real, '1 1 1', '2 1 5')),
            ('M6', 3, '2 2 5', text_of(skew, '2 2 1', '2 2 5')),
            ('M7', 3, '1 1 1e300', text_of(real, '1 1 1', '1 1 1e300')),
            ('M7', 3, '1 1 inf', text_of(real, '1 1 1', '1 1 inf')),
            ('M7', 3, '1 1 9223372036854775808', text_of(real, '1 1 1', '1 1 9223372036854775808')),
            ('M7', 3, '2 1 -9223372036854775808',
             text_of(skew, '2 2 1', '2 1 -9223372036854775808')),
            ('M8', 6, '1 1 3.0', text_of(real, '% c', '2 2 3', '1 1 1.0', '2 1 1.0', '1 1 3.0')),
            ('M8', 4, '1 2 3.0', text_of('coordinate real symmetric', '2 2 2', '2 1 1.0',
                                         '1 2 3.0')),
            ('M8', 4, '1 2 3', text_of('coordinate integer symmetric', '2 2 2', '2 1 1', '1 2 3')),
            ('M9', 4, '', text_of(real, '2 2 2', '1 1 1')),
            ('M9', 4, '', text_of(array, '2 1', '1')),
            ('M10', 4, '2 2 2', text_of(real, '2 2 1', '1 1 1', '2 2 2')),
            ('M12', 2, '2 3 0', text_of('coordinate real symmetric', '2 3 0'))):
            with self.assertRaises(ValueError, msg=text) as said:
                self.read(text)
            fault = said.exception
            self.assertEqual((fault.rule, fault.at, fault.line), (rule, at, line), text)
            self.assertIn('line %d' % at, str(fault))
        self.assertEqual(self.s.budget().reserved, 0)      # and the session goes on

    def test_paths(self):
        A = self.s.from_triples([(0, 1, -5), (2, 0, 7)], 3, 2)
        with tempfile.TemporaryDirectory() as folder:
            path = os.path.join(folder, 'a.mtx')
            A.mmwrite(path)
            for ending, opener in (('.gz', gzip.open), ('.bz2', bz2.open)):
                with opener(path + ending, 'wb') as file:
                    A.mmwrite(file)
            for ending in ('', '.gz', '.bz2'):
                self.assertTrue(self.s.mmread(path + ending).isequal(A))
            with open(path, 'rb') as file:
                self.assertTrue(self.s.mmread(file).isequal(A))
            with open(path) as file, self.assertRaises(TypeError):
                self.s.mmread(file)
        self.assertEqual(self.read(b'\xef\xbb\xbf' + A.to_text()).nvals, 2)
        with self.assertRaises(FileNotFoundError):
            self.s.mmread('/no/such/file.mtx')


class Lines(unittest.TestCase):
    """All lines are read at once; what is taken is what a reader takes that goes line by line."""

    @staticmethod
    def read_one_by_one(text):
        """The entries, or the rule and the number of the first line that breaks one."""
        try:
            reader, found = matrix_market.Reader(io.BytesIO(text)), []
        except spmat.TextRefused as fault:
            return fault.rule, fault.at
        kind, cells = reader.kind, [(j, i) for i in range(reader.ncols)
                                    for j in range(reader.nrows)]
        if kind.symmetry != 'general':
            cells = [(j, i) for j, i in cells if j > i or (kind.symmetry == 'symmetric' and j == i)]
        for line in reader.lines():
            fields = [field.decode() for field in line.fields]
            places, value = (fields[:0], fields) if kind.array else (fields[:2], fields[2:])
            if len(found) == reader.count:
                return 'M10', line.number
            if len(fields) != kind.width or not all(field.isdigit() for field in places):
                return 'M5', line.number
            if kind.field == 'integer' and not value[0].lstrip('+-').isdigit():
                return 'M5', line.number
            number = fractions.Fraction(1)
            if value:
                try:
                    number = fractions.Fraction(value[0])
                except ValueError:
                    return 'M5', line.number
            if number.denominator > 1:
                return 'M5', line.number
            if not -2 ** 63 <= number < 2 ** 63:
                return 'M7', line.number
            i, j = cells[len(found)] if kind.array else (int(places[0]) - 1, int(places[1]) - 1)
            if not (0 <= i < reader.nrows and 0 <= j < reader.ncols) or (
                i == j and kind.symmetry == 'skew-symmetric'):
                return 'M6', line.number
            is_turned = i < j and kind.symmetry != 'general'
            sign = -1 if is_turned and kind.symmetry == 'skew-symmetric' else 1
            found.append((j, i, sign * int(number)) if is_turned else (i, j, int(number)))
        if len(found) < reader.count:
            return 'M9', text.count(b'\n') + 1
        return found

    def pair(self, text):
        """What both ways give: entries, or the rule and the line of the refusal."""
        try:
            triples, _ = matrix_market.parse(text)
            got = list(zip(*(part.tolist() for part in triples[:3])))
        except spmat.TextRefused as fault:
            got = fault.rule, fault.at
        self.assertEqual(got, self.read_one_by_one(text), text)
        return got

    def test_both_ways(self):
        r = random.Random(5)
        kept = 0
        for _ in range(3000):
            form = r.choice(('coordinate', 'coordinate', 'array'))
            field = r.choice(('real', 'integer', 'pattern'))
            symmetry = r.choice(('general', 'symmetric', 'skew-symmetric'))
            n, m = r.randrange(1, 4), r.randrange(1, 4)
            m = m if symmetry == 'general' else n
            values = {'real': ('1.0', '2', '-3e1', '+4.', '0.5', 'nan', '1e17', '-.0'),
                      'pattern': ('',),
                      'integer': ('1', '-22', '+3', '0', '9223372036854775807', '1.0',
                                  '9223372036854775808')}[field]
            lines = []
            count = r.randrange(0, 4)
            for _ in range(count):
                i, j = r.randrange(1, n + 1), r.randrange(1, m + 1)
                lines.append(('' if form == 'array' else '%d %d ' % (i, j)) + r.choice(values))
            head = '%d %d' % (n, m) if form == 'array' else '%d %d %d' % (n, m, count)
            for _ in range(r.choice((0, 0, 1))):
                line = r.choice(('', '% c', '1 1', '1 1 1 1', '0 1 1', '4 1 1', '1 1 1', '1\t1\r',
                                 'x'))
                lines.insert(r.randrange(len(lines) + 1), line)
            kept += isinstance(self.pair(text_of(' '.join((form, field, symmetry)), head, *lines)),
                               list)
        self.assertGreater(kept, 500)

    def test_taken(self):
        """Whole lines are read in one go."""
        for columns, text in ((2, text_of('coordinate real general', '2 2 2', '1 1 1.0',
                                          '2 2 -2e0')),
                              (1, text_of('array real general', '2 1', '1', '2')),
                              (2, text_of('coordinate pattern symmetric', '2 2 1', '2 1')),
                              (2, text_of('array integer symmetric', '2 2', '1', '2', '3'))):
            file = io.BytesIO(text)
            reader = matrix_market.Reader(file)
            self.assertIsNotNone(matrix_market.read_lines(reader.kind, file.read(), 2, columns))

    def test_what_parts_fields(self):
        """Blanks of any kind part fields, and nothing else does."""
        text = text_of('coordinate real general', '2 2 2', '1\x0b1\t\x0c2.0\r', '2 2\r3')
        self.assertEqual(self.pair(text), [(0, 0, 2), (1, 1, 3)])
        for entry in ('1 1 2\0', '1 1 "2"', '1 1 \u0662', '1,1,2', '1 1 True', '1 1 2 % two'):
            with self.assertRaises(spmat.TextRefused, msg=entry) as said:
                matrix_market.parse(text_of('coordinate real general', '2 2 2', '2 2 2', entry))
            self.assertEqual((said.exception.rule, said.exception.at), ('M5', 4), entry)

    def test_without_warnings_of_numpy(self):
        """A field that numpy warns of is refused by its rule, also where warnings are errors."""
        for entry in ('1 1 2-1', '1 1 --2', '1e99 1 2', '1 1e999 2'):
            with warnings.catch_warnings():
                warnings.simplefilter('error')
                with self.assertRaises(spmat.TextRefused, msg=entry) as said:
                    matrix_market.parse(text_of('coordinate real general', '1 1 2', entry, '1 1 3'))
            self.assertEqual((said.exception.rule, said.exception.at), ('M5', 3), entry)

    def test_by_pieces(self):
        """Pieces of any size give the same entries, and refuse the same line."""
        lines = ['%d %d %d' % (i % 7 + 1, i // 7 + 1, i) for i in range(40)]
        for text in (text_of('coordinate integer general', '7 7 40', *lines),
                     text_of('coordinate real symmetric', '7 7 41', *lines),
                     text_of('coordinate integer general', '7 7 40', *lines[:20], '% c', '',
                             *lines[20:]), text_of('coordinate integer general', '7 7 39', *lines),
                     text_of('coordinate integer general', '7 7 40', *lines[:-1], '8 1 1')):
            found = []
            for size in (-1, 1, 30, 100, 1 << 20):
                try:
                    entries = [entry
                               for triples in matrix_market.Reader(io.BytesIO(text)).pieces(size)
                               for entry in zip(*(part.tolist() for part in triples[:3]))]
                    found.append(entries)
                except ValueError as fault:
                    found.append(str(fault))
            self.assertEqual(found, [found[0]] * 5)


class Texts(unittest.TestCase):
    @staticmethod
    def listed(triples):
        return [*(part.tolist() for part in triples[:3]), *triples[3:]]

    def test_there_and_back(self):
        triples = matrix_text.Triples(*map(numpy.array, ([0, 2], [5, 0], [-2 ** 63, 2 ** 63 - 1])),
                                      3, 6)
        text = matrix_text.write(triples)
        self.assertEqual(text, b'%%MatrixMarket matrix coordinate integer general\n3 6 2\n'
                               b'1 6 -9223372036854775808\n3 1 9223372036854775807\n')
        self.assertEqual(self.listed(matrix_text.read(text)), self.listed(triples))
        self.assertEqual(matrix_text.swapped(text), b'%%MatrixMarket matrix coordinate integer '
                         b'general\n6 3 2\n6 1 -9223372036854775808\n1 3 9223372036854775807\n')
        self.assertEqual(self.listed(matrix_text.read(matrix_text.EMPTY)), [[], [], [], 0, 0])

    def test_line_at(self):
        text = b'one\n\nthree\r\n' + b'x' * 200
        self.assertEqual([matrix_text.line_at(text, k) for k in range(1, 7)],
                         ['one', '', 'three', 'x' * 100 + '..', '', ''])
