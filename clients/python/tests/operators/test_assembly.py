"""Assembly text of operators: labels, the form of each mnemonic, and the text of code."""
import itertools

import reference_code
import support
import spmat
from spmat.operators import assembly


class Case(support.InSession):
    def refusal(self, kind, text):
        with self.assertRaises(spmat.OperatorRefused) as said:
            self.s.types(spmat.asm(kind, text))
        return said.exception


class Labels(Case):
    def test_numbers_in_their_place(self):
        op = spmat.asm('binary',
                       'start: mov64 r0, r1\njsgt64 r1, r2, big  ; the greater\nmov64 r0, '
                       'r2\nwide r3, 7\nja end\nbig:\n  add64 r0, 1\nend: exit\n')
        self.assertEqual(op.text,
                         ' mov64 r0, r1\njsgt64 r1, r2, 4  ; the greater\nmov64 r0, r2\nwide '
                         'r3, 7\nja 1\n\n  add64 r0, 1\n exit\n')
        A = self.s.from_coo([0, 0], [0, 1],
                            [5, 3]).ewise_add(self.s.from_coo([0, 0], [0, 1], [4, 9]), op)
        self.assertEqual(A.to_list(), [6, 9])
        self.assertEqual(spmat.asm('unary', 'ja end\nend: mov64 r0, r1\nexit').text,
                         'ja 0\n mov64 r0, r1\nexit\n')
        self.assertEqual(spmat.asm('unary', '# a: b\nmov64 r0, r1\nexit').text,
                         '# a: b\nmov64 r0, r1\nexit\n')

    def test_wrong(self):
        for text, words in (('ja end\nmov64 r0, r1\nfin: exit',
                             'line 1: no label end: in the text; there are fin'),
                            ('a: mov64 r0, r1\na: exit',
                             'line 2: the label a: is in the text already')):
            self.assertIn(words, support.said(ValueError, spmat.asm, 'unary', text))
        back = self.refusal('unary', 'mov64 r0, r1\nback: add64 r0, 1\nja back\nexit')
        self.assertEqual((back.rule, back.text_line), ('V7', 3))


class Mnemonics(Case):
    def test_each_mnemonic_has_a_form(self):
        """The table of mnemonics is the server's: each is taken in its form, with wrong operands it
        isn't."""
        for mnemonic, form in assembly.OPERANDS.items():
            self.assertIn(mnemonic, assembly.form_of(mnemonic))
            operands = {'D': 'r2', 'S': 'r1', 'R': 'r1', 'V': '1', 'N': '-8', 'J': '0', 'B': 'r10'}
            bits = {'ldx16': '-8', 'st64': '1'}
            line = (mnemonic + ' ' + ', '.join(operands[letter] for letter in form)).strip()
            ready = 'st64 r10, -8, 1\nmov64 r0, 0\n'
            check = self.s.check(spmat.asm('unary', ready + line + '\nexit'))
            self.assertTrue(check, (line, bits, check.refusal))
            fault = self.refusal('unary', ready + line + (', 1' if form else ' 1') + '\nexit')
            self.assertEqual((fault.rule, fault.at), ('A3', 3), line)

    def test_code_as_assembly(self):
        """Each mnemonic with each form of its operands, as code and back."""
        forms = {'D': ['r3'], 'R': ['r3'], 'S': ['r4'], 'B': ['r10'], 'V': ['r4', '-7'],
                 'N': ['-8'], 'J': ['2']}
        lines = [(name + ' ' + ', '.join(operands)).strip()
                 for name, form in assembly.OPERANDS.items()
                 for operands in itertools.product(*(forms[letter] for letter in form))]
        self.assertGreater(len(lines), 116)
        op = spmat.code('unary', reference_code.code_of('\n'.join(lines) + '\n'))
        self.assertEqual([text for _, text in op.lines()], lines)
        wide = spmat.code('unary',
                          reference_code.code_of(
                              'wide r1, -9223372036854775807\nwide r2, 4294967297\nexit\n'))
        self.assertEqual(wide.lines(),
                         [(0, 'wide r1, -9223372036854775807'), (2, 'wide r2, 4294967297'),
                          (4, 'exit')])
        self.assertEqual(spmat.code('unary', 'ff00000000000000').lines(), [(0, 'ff00000000000000')])
