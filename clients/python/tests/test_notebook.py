"""docs/first_session.ipynb is docs/start.md as a notebook: its cells are the page's blocks, and its
outputs what the page says that they give. The case `notebook` of tests/program/cases runs them."""
import json
import os
import pathlib
import re
import unittest

import support

DOCS = os.path.join(support.TOP, 'docs')
# what a notebook needs and the page doesn't: the folder above
FIRST = 'import os\n'
LARGEST = 200_000                                  # bytes, pictures included


def text_of(name):
    return pathlib.Path(os.path.join(DOCS, name)).read_text('utf-8')


def blocks():
    """The blocks of Python of the page, each with what the page has behind it: that it prints, or
    ends with, some lines."""
    page = text_of('start.md')
    found = re.findall(r'^((?:    .*\n|\n(?=    ))+)\n(?:(prints|ends with)\n\n'
                       r'((?:    .*\n|\n(?=    ))+))?', page, re.M)
    return [(re.sub('^    ', '', code, flags=re.M).strip('\n'), how,
             re.sub('^    ', '', said, flags=re.M))
            for code, how, said in found if code.lstrip().startswith('import ')]


class Notebook(unittest.TestCase):
    def setUp(self):
        self.cells = json.loads(text_of('first_session.ipynb'))['cells']
        code = [cell for cell in self.cells if cell['cell_type'] == 'code']
        self.assertTrue(''.join(code[0]['source']).startswith(FIRST))
        self.code = code[1:]

    def test_its_cells_are_the_blocks_of_the_page(self):
        self.assertEqual([''.join(cell['source']) for cell in self.code],
                         [code for code, _, _ in blocks()])
        self.assertGreater(len(self.code), 5)

    def test_its_outputs_are_what_the_page_says(self):
        for cell, (_, how, said) in zip(self.code, blocks()):
            printed = ''.join(''.join(output['text']) for output in cell['outputs']
                              if output['output_type'] == 'stream')
            faults = [output for output in cell['outputs'] if output['output_type'] == 'error']
            self.assertEqual(printed, said if how == 'prints' else '')
            self.assertEqual([fault['traceback'][0].split() for fault in faults],
                             [said.split()] if how == 'ends with' else [])

    def test_it_shows_pictures_and_is_small(self):
        shown = [output for cell in self.code for output in cell['outputs']
                 if 'image/png' in output.get('data', {})]
        self.assertEqual(len(shown), 2)
        self.assertLess(os.path.getsize(os.path.join(DOCS, 'first_session.ipynb')), LARGEST)

    def test_its_prose_is_that_of_the_page(self):
        page = ' '.join(text_of('start.md').split())
        told = [paragraph for cell in self.cells if cell['cell_type'] == 'markdown'
                for paragraph in ''.join(cell['source']).split('\n\n')]
        own = ('```', 'Start Jupyter')             # a block, and what the page doesn't need
        missing = [paragraph for paragraph in told if not paragraph.startswith(own)
                   and ' '.join(paragraph.split()) not in page]
        self.assertEqual(missing, [])
        self.assertGreater(len(told), 15)
