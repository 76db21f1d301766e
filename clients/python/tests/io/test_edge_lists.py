"""Lists of edges: what is read of them, what is asked, what is refused and at which line; in a
session, in blocks and in the shell."""
import bz2
import contextlib
import gzip
import inspect
import io
import lzma
import os
import pathlib
import pickle
import random
import re
import tempfile
import threading
import unittest
import warnings
from decimal import Decimal
from unittest import mock

import numpy
import pytest

import command_line
from command_line import flags_of
import support
import spmat
from pages import blocks_of, printed, text_of
import spmat_blocks as blocks
from spmat_blocks import parallel_read
from spmat.cli import main
from spmat.io import edge_lists, edges
from spmat.io.edges import Layout
from spmat.io.files import Loaded

pytestmark = pytest.mark.slow

DATA = os.path.join(os.path.dirname(os.path.dirname(os.path.abspath(__file__))), 'data')
AB = [('a', 'b', 7), ('b', 'c', 8)]
PLAIN = [('a', 'b', 1), ('b', 'c', 1)]
NUMBERED = [(1, 2, 7), (2, 3, 8)]
NO_HEADER = 'header: no; source=column 0, target=column 1, '
HOLES = 'from,to,w\na,b,3\nb,c,\nc,d,NA\n,d,4\nnan,e,5\nx,f,6\nd,null,7\n'
# A file's text, what is told of it, and its edges. One with commas is a .csv.
READ = [
    # a usual pair of words, in whatever columns
    ('from,to,w\na,b,7\nb,c,8\n', 'header: yes; source=from, target=to, values=w', AB),
    ('w,from,to\n7,a,b\n8,b,c\n', 'header: yes; source=from, target=to, values=w', AB),
    ('to,from,w\nb,a,7\nc,b,8\n', 'header: yes; source=from, target=to, values=w', AB),
    ('weight,target,source\n7,b,a\n8,c,b\n',
     'header: yes; source=source, target=target, values=weight', AB),
    ('id,FROM,To,Weight\n1,a,b,7\n2,b,c,8\n',
     'header: yes; source=FROM, target=To, values=Weight', AB),
    ('Source,Target,Type,Id,Label,Weight\na,b,Directed,0,,7\nb,c,Directed,1,,8\n',
     'header: yes; source=Source, target=Target, values=Weight', AB),
    ('src,dst\na,b\nb,c\n', 'header: yes; source=src, target=dst, no values', PLAIN),
    ('origin,destination\na,b\nb,c\n',
     'header: yes; source=origin, target=destination, no values', PLAIN),
    ('sender,receiver\na,b\nb,c\n', 'header: yes; source=sender, target=receiver, no values',
     PLAIN),
    ('parent,child\na,b\nb,c\n', 'header: yes; source=parent, target=child, no values', PLAIN),
    ('source target weight\na b 7\nb c 8\n',
     'header: yes; source=source, target=target, values=weight', AB),
    ('"from","to","w"\n"a","b",7\n"b","c",8\n', 'header: yes; source=from, target=to, values=w',
     AB),
    ('from,to\n', 'header: yes; source=from, target=to, no values', []),
    # words over numbers
    ('u,v\n1,2\n2,3\n', 'header: yes; source=u, target=v, no values', [(1, 2, 1), (2, 3, 1)]),
    ('FromNodeId ToNodeId\n1 2\n2 3\n',
     'header: yes; source=FromNodeId, target=ToNodeId, no values', [(1, 2, 1), (2, 3, 1)]),
    ('x,y,weight\na,b,7\nb,c,8\n', 'header: yes; source=x, target=y, values=weight', AB),
    # no header
    ('a,b,7\nb,c,8\n', NO_HEADER + 'values=column 2', AB),
    ('a 7\nb 8\n', NO_HEADER + 'no values', [('a', '7', 1), ('b', '8', 1)]),
    ('1 2 7\n2 3 8', NO_HEADER + 'values=column 2', NUMBERED),
    ('\ufeff1,2,7\r\n2,3,8\r\n', NO_HEADER + 'values=column 2', NUMBERED),
    ('1 2\r2 3\r', NO_HEADER + 'no values', [(1, 2, 1), (2, 3, 1)]),
    ('# FromNodeId ToNodeId\n1 2\n2 3\n', NO_HEADER + 'no values; 1 comment line passed over',
     [(1, 2, 1), (2, 3, 1)]),
    ('% sym unweighted\n\n# 78 34 34\n1 2\n2 3\n',
     NO_HEADER + 'no values; 2 comment lines passed over', [(1, 2, 1), (2, 3, 1)]),
    # a header that begins with #
    ('# 3 nodes\n#id,from,to,weight\n1,a,b,7\n2,b,c,8\n',
     'header: yes; source=from, target=to, values=weight; 1 comment line passed over', AB),
    ('#to from w\nb a 7\nc b 8\n', 'header: yes; source=from, target=to, values=w', AB),
    # below the first row nothing is a comment
    ('from,to\n#a,b\n%20x,c\n#a,#1 fan\n', 'header: yes; source=from, target=to, no values',
     [('#a', 'b', 1), ('#a', '#1 fan', 1), ('%20x', 'c', 1)]),
    # quotation marks keep what stands between them
    ('" a","b ",7\nb ,"c, d",8\n', NO_HEADER + 'values=column 2',
     [(' a', 'b ', 7), ('b ', 'c, d', 8)]),
    ('a , b ,7\nb,c,8\n', NO_HEADER + 'values=column 2', AB),
    ('a,"e ""f""",7\n', NO_HEADER + 'values=column 2', [('a', 'e "f"', 7)]),
    # a line for Excel
    ('sep=;\nfrom;to;w\na;b;7\nb;c;8\n', 'header: yes; source=from, target=to, values=w', AB),
    ('"sep=;"\r\nfrom;to;w\r\na;b;7\r\nb;c;8\r\n',
     'header: yes; source=from, target=to, values=w', AB),
]
# A text, the line that is named, and words of the refusal.
REFUSED = [
    # a header, or an edge
    ('manager,report\nann,bob\nann,cid\n', 1, 'header=True'),
    ('a,b\nb,c\n', 1, "header=True) takes it for names, s.read_graph('"),
    ('Ann Bob\n', 1, 'header=False) for an edge'), ('from,to\nto,from\n', 1, 'header=False'),
    ('a,knows,b\nb,likes,c\n', 1, 'header=True'), ('a 1\n2 3\n4 5\n', 1, 'header=False'),
    ('NA,DE\nDE,FR\n', 1, 'header=False'),
    # more than two columns, and no known word
    ('id,payer,payee,w\n1,a,b,7\n2,b,c,8\n', 1,
     "4 columns: say which have the names, and which the value, as columns=('id', 'payer') or "
     "columns=('id', 'payer', 'w') does"),
    ('p,q,r\na,b,3\n', 1, "columns=('p', 'q', 'r')"),
    ('w,x,y\n7,1,2\n', 1, "columns=('w', 'x', 'y')"),
    ('a b 1 2\nb c 3 4\n', 1, 'columns=(0, 1, 3)'), ('1,a,b,7\n2,b,c,8\n', 1, 'columns=(0, 1)'),
    ('source,target,from,to\na,b,c,d\n', 1, "4 columns: say which have the names"),
    ('from,to,cost,distance\na,b,1,2\n', 1,
     "say which has the value, or values=False, as columns=('from', 'to')"),
    ('from,from,x\na,b,1\n', 1, 'columns=(0, 1, 2)'),
    ('node,value\na,7\n', 1, "columns=('node', 'value')"), ('alone\n', 1, 'one field'),
    (',a,b\na,0,7\nb,7,0\n', 1, 'columns=('),
    # what separates the fields
    ('a;b;7\nb;c;8\n', 1, "semicolons may part the fields, or blanks: sep=';' or sep=' '"),
    ('a, b;7\nb, c;8\n', 1, "sep=';' or sep=','"), ('New York\tRome\n', 1, "sep='\\t' or sep=' '"),
    ('from|to|w\na|b|7\n', 1, "sep='|' or sep=' '"),
    # values and names that are missing or no numbers
    ('from,to,w\na,b,7\nb,c,NA\n', 3,
     "the value is missing ('NA'): fill it in, or missing=\"skip\" leaves the line out; "
     "values=False reads no values"),
    ('from,to,amount\na,b,7\nb,c,\n', 3, "the value is missing ('')"),
    ('a,b,7\nb,c,null\n', 2, "the value is missing ('null')"),
    ('a,b,NA\nb,c,8\n', 1, "header=True"),
    ('from,to\n1,2\n3,NA\n', 3,
     "a name is missing ('NA'): missing=\"skip\" leaves the line out, missing=None takes it for "
     "a name"),
    ('from,to\n1,2\n"3","-"\n', 3, "a name is missing ('-')"),
    ('person,knows\n1,2\n2,\n3,4\n', 3, 'a name is empty'),
    ('from,to\na,b\n,c\n', 3, 'a name is empty: missing="skip" leaves the line out'),
    ('from,to\na,b\n"","c"\n', 3, 'a name is empty'),
    ('from,to\na,b\nb,nan\n', 3, "a name is missing ('nan')"),
    ('from,to\n"NULL","DE"\n"DE","FR"\n', 2, "a name is missing ('NULL')"),
    # one column that pandas wrote from numbers with a gap
    ('source,target\n1,2.0\n2,3.0\n3,4.0\n', 2, 'nodetype=int takes 2.0 for 2'),
    ('source,target\n1.0,2\n2.0,3\n', 2, 'nodetype=str for another name'),
    # a comment, or a row
    ('#python,#java\n#go,b\na,b\n', 1,
     'comments="#" passes over such lines, comments=None reads them'),
    ('a b 1\n# c 2\n', 2, 'comments="#" passes over'), ('#a b\n#b c\n', 1, 'a comment or a row'),
    ('% made today\n%20x,b,3\na,b,3\n', 2, 'comments="%" passes over'),
    ('a,b,3\n# said,so\n', 2,
     '2 fields, and the first line has 3 (commas part them); comments="#" passes over lines '
     'that begin so'),
    ('from,to,kind\na,b,friend\n', 2, "expected a number as the value, got 'friend'"),
    ('from,to,w\na,b,"1,000"\nb,c,8\n', 2, 'without thousands separators'),
    ('from,to,w\na,b,$5\nb,c,8\n', 2, "expected a number as the value, got '$5'"),
    ('from,to,w\na,b,0.5\n', 2, 'scale=1000'), ('from,to,w\na,b,1_0\n', 2, "got '1_0'"),
    ('from,to,when\na,b,2024-05-03\n', 2, "got '2024-05-03': unit=\"s\" takes times"),
    ('from,to\n"c\nd",e\n', 2, 'a name has an end of line in it'),
    ('from,to\na,b\nc\n', 3, '1 field, and the first line has 2'),
    ('from,to,w\na,b,3,9\nb,c,4\n', 2, '4 fields, and the first line has 3'),
    ('from to\n1 2 3\n', 2, '3 fields, and the first line has 2'),
    ('from,to,w\na,b,1\n"c,d,3\n', 3, 'a quotation does not end'),
    ('a b 5\n\nb c\n', 3, '2 fields, and the first line has 3 (blanks part them)'),
    # what is no list
    ('<?xml version="1.0"?>\n<note><to>a</to></note>\n', None,
     'got XML that is neither GraphML nor GEXF'),
    ('<!DOCTYPE html>\n<html><body>404</body></html>\n', None, 'HTML'),
    ('{"nodes": [{"id": 1}], "links": []}\n', None, 'JSON'),
    ('[[1, 2], [2, 3]]\n', None, 'JSON'), ('digraph G {\n a -> b;\n}\n', None, 'DOT'),
    ('*Vertices 2\n1 "a"\n2 "b"\n*Arcs\n1 2 1\n', None, 'Pajek'),
    (b'\x89PNG\r\n\x1a\n\0\0', None, 'binary data'), (b'%PDF-1.7\n', None, 'binary data'),
    (b'PK\x03\x04 xl/workbook.xml', None, 'zip archive'),
    (b'PK\x03\x04\0\0', None, 'zip archive'), (b'\x93NUMPY\x01\0', None, 'binary data'),
    (b'SQLite format 3\0', None, 'binary data'),
    (b'\x80\x04\x95\0', None, 'binary data'), ('a,b\n'.encode('utf-16'), None, 'iconv -f utf-16'),
    (b'\x7fELF\x02', None, 'binary data'),
    (b'a b\n\0\x01\x02', None, 'binary data'), (b'a,b\n\xe9,c\n', 2, 'no UTF-8 (byte e9)'),
    (b'a b\n\xe9 c\n', 2, 'iconv -f latin1'),
    (b'1 2\n' * 2000 + b'a\0 b\n', 2001, 'a byte 0'),
    (gzip.compress(b'a b\n' * 50)[:20], None, 'packed by gzip, and cut off'),
    (bz2.compress(b'a b\n' * 50)[:30], None, 'packed by bzip2, and cut off'),
    (lzma.compress(b'a b\n' * 50)[:40], None, 'packed by xz, and cut off'),
    (gzip.compress(b'a b\n')[:-8] + b'\1' * 8, None, 'packed by gzip, and damaged'),
]


def coded(text):
    return text.encode() if isinstance(text, str) else text


def name_of(text):
    """A .csv where the first row has commas."""
    rows = [line for line in coded(text).split(b'\n') if line.strip() and line[:1] not in b'#%']
    return 'list.csv' if b',' in (rows or [coded(text)])[0] else 'list.txt'


class Case(support.InSession):
    def read(self, text, **how):
        return self.s.read_graph(Loaded(name_of(text), coded(text)), **how)

    def edges(self, text, **how):
        return self.read(text, **how).to_edgelist()

    def refused(self, text, **how):
        with self.assertRaises(spmat.ReadError, msg=text) as said:
            self.read(text, **how)
        return said.exception


class Tables(Case):
    def test_read(self):
        for text, told, found in READ:
            G = self.read(text)
            self.assertEqual(G.to_edgelist(), found, text)
            self.assertEqual(G.notes.source, '%s: %s' % (name_of(text), told), text)
            self.assertTrue(repr(G).endswith(', %d entries; %s: %s>' % (len(found), name_of(text),
                                                                      told)), repr(G))
            self.assertEqual(G.T.notes.source + G.apply('abs').notes.source
                             + G.reduce_rowwise().notes.source, '')

    def test_refused(self):
        reserved = self.s.budget().reserved
        for text, line, words in REFUSED:
            fault = self.refused(text)
            self.assertEqual((fault.file, fault.at), (name_of(text), line), (text, str(fault)))
            self.assertIn(words, str(fault), text)
            again = pickle.loads(pickle.dumps(fault))
            self.assertEqual((type(again), str(again), again.at),
                             (type(fault), str(fault), fault.at))
        self.assertEqual(self.s.budget().reserved, reserved)

    def test_what_is_asked_can_be_called(self):
        """Of a first line that may be either, both calls stand in the words; of columns, examples."""
        with tempfile.TemporaryDirectory() as folder:
            path = os.path.join(folder, 'staff.csv')
            for text, how, edges_of_calls in (
                ('manager,report\nann,bob\nann,cid\n', {},
                 ([('ann', 'bob', 1), ('ann', 'cid', 1)],
                  [('manager', 'report', 1), ('ann', 'bob', 1), ('ann', 'cid', 1)])),
                ('x;likes;y\na;knows;b\n', {'sep': ';', 'columns': (0, 2)},
                 ([('a', 'b', 1)], [('x', 'y', 1), ('a', 'b', 1)]))):
                pathlib.Path(path).write_text(text, 'utf-8')
                with self.assertRaises(spmat.HeaderUnclear) as asked:
                    self.s.read_edgelist(path, **how)
                calls = re.findall(r's\.read_graph\(.*?header=\w+\)', str(asked.exception))
                self.assertEqual(len(calls), 2)
                for call, found in zip(calls, edges_of_calls):
                    made = eval(call, {'s': self.s})  # pylint: disable=eval-used
                    self.assertEqual(made.to_edgelist(), found)
                self.assertEqual(asked.exception.parameters, ('header',))
            said = self.said(self.read, 'id,payer,payee,w\n1,a,b,7\n')
            for columns in re.findall(r'columns=(\(.*?\))', said):
                self.read('id,payer,payee,w\n1,a,b,7\n', columns=eval(columns))

    def test_what_the_caller_says(self):
        text = 'id,who,whom,amount,when\n1,a,b,5,x\n2,b,c,6,y\n'
        for columns, found in ((('who', 'whom', 'amount'), [('a', 'b', 5), ('b', 'c', 6)]),
                               (('who', 'whom'), [('a', 'b', 1), ('b', 'c', 1)]),
                               ((2, 1, 3), [('b', 'a', 5), ('c', 'b', 6)])):
            self.assertEqual(self.edges(text, columns=columns), found)
        self.assertIn("no column 'sum': there are 'id', 'who'",
                      self.said(self.read, text, columns=('who', 'whom', 'sum')))
        self.assertIn('no column 7: there are 0 to 4', self.said(self.read, text, columns=(0, 7)))
        self.assertIn('want a header', self.said(self.read, text, columns=('who', 'whom'),
                                                 header=False))
        self.assertIn("2 columns are called 'a'",
                      self.said(self.read, 'a,a,b\n1,2,3\n', columns=('a', 'b')))
        self.assertIn('columns are two', self.said(self.read, text, columns=(1,)))
        self.assertEqual(self.edges('a b 1 2 3\n', columns=(0, 1)), [('a', 'b', 1)])
        for how, found in (({'header': False}, [('from', 'to', 1), ('a', 'b', 1)]),
                           ({'header': True}, [('a', 'b', 1)]), ({'values': False}, [('a', 'b', 1)])):
            self.assertEqual(self.edges('from,to\na,b\n', **how), found)
        self.assertEqual(self.edges('from,to,kind\na,b,x\n', values=False), [('a', 'b', 1)])
        self.assertEqual(self.edges('from,to,cost,w\na,b,1,2\n', columns=('from', 'to', 'w')),
                         [('a', 'b', 2)])

    def test_what_parts_fields(self):
        for name, text, how in (('x.csv', 'a,b,7\n', {}), ('x.CSV.gz', 'a,b,7\n', {}),
                                ('x.tsv', 'a\tb\t7\n', {}), ('x', 'a  b\t 7\n', {'sep': ' '}),
                                ('x', 'a b 7\n', {}), ('x', 'a|b|7\n', {'sep': '|'}),
                                ('x.csv', 'a;b;7\n', {'sep': ';'}), ('x', 'a,b,7\n', {'sep': ','}),
                                ('x', 'a,b,7\n', {'format': 'csv'}),
                                ('x.csv', 'a\tb\t7\n', {'format': 'tsv'})):
            got = self.s.read_graph(Loaded(name, text.encode()), **how)
            self.assertEqual(got.to_edgelist(), [('a', 'b', 7)], (name, text))
        for sep in ('::', 'é', '"', '\n'):
            self.assertIn('a separator is one ASCII character',
                          self.said(self.read, 'a b 1\n', sep=sep))
        self.assertEqual(self.edges('sep=;,b,1\nc,d,2\n'), [('sep=;', 'b', 1), ('c', 'd', 2)])

    def test_names_of_vertices(self):
        G = self.s.full(2, 2)
        for names, words in ((['x', 'x'], "the name 'x' stands twice, at 0 and at 1"),
                             (['x', 'y\nz'], 'an end of line')):
            with self.assertRaises(ValueError) as said:
                G.nodes = names
            self.assertIn(words, str(said.exception))
        self.assertIsNone(G.nodes)


class Read(Case):
    def test_files(self):
        G = self.s.read_graph(os.path.join(DATA, 'people.csv'))
        self.assertEqual(G.nodes, ['Anna', 'Béla', 'Clara', 'Dvořák, Emil', 'Flora', 'Gustav'])
        self.assertEqual(G['Clara', 'Dvořák, Emil'], 1)
        self.assertEqual(G.top(2), [('Anna', 'Béla', 12), ('Clara', 'Anna', 7)])
        U = self.s.read_edgelist(os.path.join(DATA, 'people.csv'), directed=False)
        self.assertEqual((U.nvals, U.directed), (14, False))
        self.assertTrue(U.isequal(G.ewise_add(G.T, 'first')))
        self.assertEqual(self.s.read_graph(os.path.join(DATA, 'friends.tsv'),
                                           header=False).to_edgelist(),
                         [('ann', 'bob', 1), ('bob', 'cid', 1), ('cid', 'ann', 1),
                          ('cid', 'dee', 1)])
        G = self.s.read_graph(os.path.join(DATA, 'edges.txt'))
        self.assertEqual((G.shape, G.nodes, G.to_dict()),
                         ((4, 4), None, dict.fromkeys([(0, 1), (1, 2), (2, 0), (2, 3)], 1)))
        G = self.s.read_edgelist(os.path.join(DATA, 'lengths.txt'), scale=1000)
        self.assertEqual(G.to_edgelist(), [(101, 205, 0.5), (205, 330, 1.25), (330, 101, 2),
                                           (330, 412, 10.125)])

    def test_two_kinds_of_vertices(self):
        B = self.s.read_edgelist(os.path.join(DATA, 'clubs.csv'), sep=';', header=True, bipartite=True)
        self.assertEqual((B.shape, B.row_nodes, B.column_nodes, B.nodes),
                         ((3, 2), ['ann', 'bob', 'cid'], ['chess', 'rowing'], None))
        self.assertEqual(B.mxm(B.T, 'plus_pair').select('triu', 1).to_edgelist(),
                         [('ann', 'bob', 2), ('ann', 'cid', 1), ('bob', 'cid', 1)])
        self.assertEqual(B.reduce_columnwise().by_node(), {'chess': 2, 'rowing': 3})
        G = spmat.bipartite(B)
        self.assertEqual((G.shape, G.nodes, G.directed),
                         ((5, 5), ['ann', 'bob', 'cid', 'chess', 'rowing'], False))
        self.assertEqual(G['ann', :].by_node(), {'chess': 1, 'rowing': 1})
        self.assertTrue(G.isequal(G.T))
        self.assertIn('directed=True', self.said(self.s.read_edgelist, os.path.join(DATA, 'clubs.csv'), sep=';',
                                                 header=True, bipartite=True, directed=False))
        # one name, two vertices
        same = self.s.read_edgelist(io.BytesIO(b'1 1\n2 1\n2 2\n'), bipartite=True)
        self.assertEqual((same.shape, same.to_edgelist()),
                         ((2, 2), [(1, 1, 1), (2, 1, 1), (2, 2, 1)]))
        self.assertEqual(spmat.bipartite(same).nodes,
                         [('row', 1), ('row', 2), ('column', 1), ('column', 2)])

    def test_names(self):
        """Whole numbers ascend, as they would be written; anything else is text, in the order in
        which it comes."""
        self.assertEqual(self.read('30 4\n4 7\n').nodes, [4, 7, 30])
        self.assertEqual(self.read('30 04\n04 7\n').nodes, ['30', '04', '7'])
        self.assertEqual(self.read('-1 1\n').nodes, [-1, 1])
        self.assertEqual(self.read('1.0 2\n', nodetype=str).nodes, ['1.0', '2'])
        self.assertEqual(self.read('b a\na c\n', header=False).nodes, ['b', 'a', 'c'])
        self.assertEqual(self.read('1 2\n2 3\n', nodelist=[3, 2, 1, 9]).to_edgelist(),
                         [(2, 3, 1), (1, 2, 1)])
        self.assertEqual(self.read('a b\nb c\nc d\n', header=False, nodelist=['c', 'b']).to_edgelist(),
                         [('b', 'c', 1)])
        self.assertIn('twice', self.said(self.read, 'a b 1\n', nodelist=['a', 'a']))
        self.assertEqual(self.read('').shape, (0, 0))
        self.assertEqual(self.read('# nothing\n\n').shape, (0, 0))

    def test_values(self):
        self.assertEqual(self.edges('a b 2.0\nb c -3e2\n'), [('a', 'b', 2), ('b', 'c', -300)])
        self.assertEqual(self.edges('a b 9223372036854775807\n'), [('a', 'b', 2 ** 63 - 1)])
        # of which pandas reads the last bit wrong
        self.assertEqual(self.edges('a b 7358111619511751.0\n'), [('a', 'b', 7358111619511751)])
        self.assertEqual(self.edges('a b 0.29\nb c 1.005\nc d -2.5\n', scale=100),
                         [('a', 'b', 0.29), ('b', 'c', 1), ('c', 'd', -2.5)])
        self.assertEqual(self.edges('a b 0.5\nb c 1.5\n', scale=1), [('a', 'b', 0), ('b', 'c', 2)])
        for scale in (0, -1, float('nan'), float('inf')):
            self.assertIn('above 0', self.said(self.read, 'a b 1\n', scale=scale))

    def test_edges_that_repeat(self):
        text = 'a b\nb c\na b\n'
        self.assertEqual(self.edges(text, header=False), [('a', 'b', 1), ('b', 'c', 1)])
        self.assertEqual(self.edges(text, header=False, dup_op='plus'), [('a', 'b', 2), ('b', 'c', 1)])
        self.assertEqual(self.edges('a b\nb a\n', header=False, directed=False), [('a', 'b', 1), ('b', 'a', 1)])
        weighted = '# c\na b 5\nb a 7\na b 6\n'
        said = self.said(self.read, weighted)
        self.assertEqual(said,
                         "list.txt, line 4: the edge between 'a' and 'b' is there already, with "
                         "list.txt, line 2; "
                         'dup_op="plus" adds their values up, "min" or "max" keeps the least or '
                         'the greatest, "first" or "second" the one that comes first or last: '
                         '\'a b 6\'')
        self.assertEqual(self.edges(weighted, dup_op='plus'), [('a', 'b', 11), ('b', 'a', 7)])
        self.assertIn('line 3', self.said(self.read, weighted, directed=False))
        self.assertEqual(self.edges(weighted, directed=False, dup_op='minus'),
                         [('a', 'b', -8), ('b', 'a', -8)])
        self.assertEqual(self.edges('a a 4\n', directed=False), [('a', 'a', 4)])

    def test_against_known_edges(self):
        """Edges written in many ways, quoted or not, between blank lines, are what is read."""
        r = random.Random(13)
        names = ('a', 'b', 'Ünïcødé', 'x y', 'seventeen letters', '7', '-7', '07', '0', '-0', '+1',
                 '12345678901234567', '123456789012345678901', '1.5', '日本', "it's", 'n' * 40,
                 'a#b', '%', '\u00a0a', 'p"q', '1e5', 'True', 'inf')
        for number in range(500):
            sep = r.choice((' ', ',', '\t', ';', '|'))
            few = r.sample([name for name in names if sep != ' ' or len(name.split(' ')) == 1],
                           r.randrange(2, 5))
            if number % 3 == 0:
                few = [str(r.randrange(-5, 99)) for _ in range(4)]
            rows = [(r.choice(few), r.choice(few), r.choice((1, -2, 70, 2 ** 62)))
                    for _ in range(r.randrange(1, 7))]

            def write(field, sep=sep):
                quoted = sep != ' ' and (sep in field or field[:1] == '"' or r.random() < .2)
                return '"%s"' % field.replace('"', '""') if quoted else field
            lines = [r.choice((sep, ' ' + sep + ' ')).join([*map(write, row[:2]), str(row[2])])
                     for row in rows]
            for _ in range(r.choice((0, 0, 1))):
                lines.insert(r.randrange(len(lines) + 1), r.choice(('', '  ')))
            text = r.choice(('\n', '\r\n')).join(lines) + r.choice(('', '\n'))
            layout = Layout(sep, header=False, comments=None)
            taken = edge_lists.read_edges(edge_lists.lay_out('f', text.encode(), layout), layout)
            known = [name for row in rows for name in row[:2]]
            kind = int if all(map(edges.WHOLE.fullmatch, known)) else str
            self.assertEqual([list(map(kind, some)) for some in zip(*rows)][:2],
                             [list(taken.sources if isinstance(taken.sources, list)
                                   else taken.sources.tolist()),
                              list(taken.targets if isinstance(taken.targets, list)
                                   else taken.targets.tolist())], text)
            self.assertEqual(taken.values.tolist(), [row[2] for row in rows], text)

    def test_widths(self):
        """A line of another length is named where only some columns are read, too."""
        for sep in ',', ' ':
            lines = [sep.join(('%d' % k, '%d' % (k + 1), 'x', '5')) for k in range(3000)]
            for odd in (sep.join('1234567'), sep.join('123')):
                text = '\n'.join([*lines[:2000], '', odd, *lines[2000:]])
                for columns in ((0, 1), (0, 1, 3)):
                    with mock.patch.object(edge_lists, 'PIECE', 100):
                        fault = self.refused(text, sep=sep, columns=columns)
                    self.assertEqual(fault.at, 2002, text[:9])
            whole = '\n'.join([*lines[:2000], '', *lines[2000:]])
            with mock.patch.object(edge_lists, 'PIECE', 100):
                self.assertEqual(self.read(whole, sep=sep, columns=(0, 1)).nvals, 3000)
        self.assertEqual(self.edges('a,"b,c",5\nb,c,6\n', columns=(0, 2), header=False),
                         [('a', '5', 1), ('b', '6', 1)])
        self.assertEqual(self.refused('a,"b,c",5\nb,c,6,7\n', columns=(0, 2), header=False).at, 2)

    def test_gaps_of_pandas(self):
        """A whole column beside one that pandas made floats of, since an id is missing."""
        text = 'source,target\n1,2.0\n2,3.0\n3,\n'
        for how in ({}, {'missing': 'skip'}):
            with self.assertRaises(spmat.ReadError):
                self.read(text, **how)
        self.assertEqual(self.edges(text, missing='skip', nodetype=int), [(1, 2, 1), (2, 3, 1)])
        self.assertEqual(self.edges(text, missing='skip', nodetype=str),
                         [('1', '2.0', 1), ('2', '3.0', 1)])
        self.assertEqual(self.edges('1.0 2.0\n3.5 4.0\n'), [('1.0', '2.0', 1), ('3.5', '4.0', 1)])
        self.assertIn('nodetype=int was asked for',
                      self.said(self.read, '1 2\n3 4.5\n', nodetype=int))


class Repeated(Case):
    def test_edges_that_count_once(self):
        """Edges without values that are given again, also in the other direction where that is the
        same edge, are counted."""
        again = [('a', 'b'), ('b', 'a'), ('a', 'b'), ('b', 'c'), ('c', 'c')]
        for directed, words in ((True, '1 edge given again, counted once'),
                                (False, '2 edges given again, counted once')):
            G = self.s.from_edgelist(again, directed=directed)
            self.assertEqual(G.notes.source, words)
            H = self.read('a,b\nb,a\na,b\nb,c\nc,c\n', directed=directed, header=False)
            self.assertEqual((H.notes.source.rpartition('; ')[2], H.to_edgelist()),
                             (words, G.to_edgelist()))
        self.assertEqual(self.s.from_edgelist(again[:2]).notes.source, '')
        self.assertEqual(self.s.from_edgelist(again, dup_op='plus').notes.source, '')

    @support.needs('pandas')
    def test_weights_that_nobody_reads(self):
        import pandas
        frame = pandas.DataFrame({'source': ['a', 'b'], 'target': ['b', 'c'], 'Weight': [5, 6]})
        with self.assertWarnsRegex(UserWarning,
                                   "'Weight' is not read, .*: edge_attr='Weight' takes its "
                                   "values, edge_attr=False leaves them out") as told:
            self.assertEqual(self.s.from_pandas_edgelist(frame).to_edgelist(),
                             [('a', 'b', 1), ('b', 'c', 1)])
        self.assertEqual(told.filename, __file__)
        with warnings.catch_warnings():
            warnings.simplefilter('error')
            self.assertEqual(self.s.from_pandas_edgelist(frame, edge_attr=False).to_edgelist(),
                             [('a', 'b', 1), ('b', 'c', 1)])
            self.assertEqual(self.s.from_pandas_edgelist(frame, edge_attr='Weight').to_edgelist(),
                             [('a', 'b', 5), ('b', 'c', 6)])
            self.assertEqual(self.s.from_pandas_edgelist(frame.drop(columns='Weight')).nvals, 2)


class Comments(Case):
    def test_what_the_caller_says(self):
        """A text that begins a comment does so in any line, also behind a row, but for what is
        quoted."""
        text = '// made by hand\na,b,3 # of May\n#c,d,4\n"#q","x // y",5 // "said"\nd,"e ""#""",6\n'
        G = self.read(text, comments=('#', '//'), sep=',')
        self.assertEqual(G.to_edgelist(), [('a', 'b', 3), ('#q', 'x // y', 5), ('d', 'e "#"', 6)])
        self.assertTrue(G.notes.source.endswith(
            '; 2 comment lines passed over; 2 comments at the end of a line passed over'),
                        G.notes.source)
        G = self.s.read_edgelist(io.BytesIO(b'a b 1\n#c d 2\nd e#f 3\n'), comments=None)
        self.assertEqual(G.to_edgelist(), [('a', 'b', 1), ('#c', 'd', 2), ('d', 'e#f', 3)])
        self.assertNotIn('comment', G.notes.source)
        self.assertEqual(self.read('#a,b,1\nc,d,2\n', comments=[]).nvals, 2)
        G = self.read('a b 1\n#c d 2\n', comments='#')
        self.assertEqual((G.to_edgelist(), G.notes.source.rpartition('; ')[2]),
                         ([('a', 'b', 1)], '1 comment line passed over'))
        self.assertEqual(self.read('#id,from,to\n1,a,b\n', comments=None,
                                   values=False).to_edgelist(), [('a', 'b', 1)])
        self.assertIn('1,000', self.said(self.read, 'a,b,3\nc,d,"1,000" # c\n', comments='#'))

    def test_wrong_words(self):
        for comments in ('', ('#', ''), '\n', '"'):
            self.assertIn('what begins a comment', self.said(self.read, 'a,b\n', comments=comments))
        with self.assertRaises(TypeError):
            self.read('a,b\n', comments=(1,))

    def test_places_stay(self):
        text = b'# one\r\n\r\n  % two\r\na,b\r\n#c,d\r\n'
        plain, found = edge_lists.blank_comments(text, True)
        self.assertEqual((len(plain), plain[-12:], found.comments), (len(text), text[-12:], 2))
        self.assertEqual(self.refused('# one\n\n% two\na,b,1\nc,d\n').at, 5)

    def test_lists_of_networkx(self):
        text = "# made by networkx\na b {'weight': 3}\n#b c {'weight': 4}\n"
        G = self.read(text)
        self.assertEqual((G.to_edgelist(), G.notes.source.rpartition('; ')[2]),
                         ([('a', 'b', 3), ('#b', 'c', 4)], '1 comment line passed over'))
        self.assertEqual(self.read(text, comments='#').to_edgelist(), [('a', 'b', 3)])

    def test_empty(self):
        for text, said in (('# nothing\n\n', '1 comment line passed over'), ('', ''),
                           ('#\n%\n', '2 comment lines passed over')):
            G = self.read(text)
            self.assertEqual((G.shape, G.notes.source), ((0, 0), said), text)
        self.assertEqual(self.read('#from,to,weight\n').shape, (0, 0))
        self.assertIn('comments=None', self.said(self.read, '#python,#java\n#go,b\n'))

    def test_matrix_market_has_its_own(self):
        G = self.read('%%MatrixMarket matrix coordinate integer general\n% said\n2 2 1\n1 2 3\n')
        self.assertEqual(G.to_triples(), [(0, 1, 3)])


class Missing(Case):
    def test_lists(self):
        self.assertIn('line 3: the value is missing',
                      self.said(self.read, 'from,to,w\na,b,3\nb,c,\n'))
        self.assertIn("line 5: a name is empty", self.said(self.read, HOLES))
        G = self.read(HOLES, missing='skip')
        self.assertEqual(G.to_edgelist(), [('a', 'b', 3), ('x', 'f', 6)])
        self.assertEqual(G.nodes, ['a', 'b', 'x', 'f'])
        self.assertTrue(G.notes.source.endswith(
            '; 3 rows without a name left out; 2 rows without a value left out'), G.notes.source)
        self.assertEqual(self.read('1 2\n3 NA\n? 4\n', missing='skip').to_edgelist(), [(1, 2, 1)])
        self.assertEqual(self.read('nan,b\nNA,nan\n', missing=None, header=False).nodes, ['nan', 'b', 'NA'])
        self.assertEqual(self.read('a,b,1\nb,c,NA\n', missing='skip', values=False).nvals, 2)
        self.assertIn('expected a number', self.said(self.read, 'a,b,1\nb,c,\n', missing='drop')
                      + self.said(self.read, 'a,b,1\nb,c,x\n', missing='skip'))
        self.assertIn('missing is "raise", "skip" or None',
                      self.said(self.read, 'a,b\n', missing='drop'))
        G = self.read('a,b,1.5\nb,c,NA\nc,d,.25\n', missing='skip', scale=100)
        self.assertIn('values times 100, all whole then; 1 row without a value left out',
                      G.notes.source)

    def test_lists_of_edges(self):
        edges = [('a', 'b', 3), ('a', None, 3), ('b', 'c', None), (float('nan'), 'd', 4),
                 ('c', 'd', {'weight': Decimal('NaN')}), ('nan', 'c', 5)]
        with blocks.Sessions(2) as many:
            for s in (self.s, many):
                self.assertIn('edge 1: a name is missing: missing="skip" leaves the edge out',
                              self.said(s.from_edgelist, edges))
                self.assertIn('edge 2: the value is missing',
                              self.said(s.from_edgelist, [edges[0], edges[5], edges[2]]))
                G = s.from_edgelist(edges, missing='skip')
                self.assertEqual((G.to_edgelist(), G.notes.source),
                                 ([('a', 'b', 3), ('nan', 'c', 5)],
                                  '2 rows without a name left out; 2 rows without a value left '
                                  'out'))
                self.assertEqual(s.from_edgelist([('a', None)], missing=None).nodes, ['a', None])
                self.assertIn('edge 3: the edge between',
                              self.said(s.from_edgelist,
                                        [('a', 'b', 1), (None, 'b', 1), ('c', 'a', 1),
                                         ('a', 'b', 2)], missing='skip'))
                self.assertEqual(s.from_edgelist([('a', 'b', .5), ('b', 'c', None)], missing='skip',
                                                 scale=10).nvals, 1)

    @support.needs('pandas', 'numpy')
    def test_tables(self):
        import pandas
        frame = pandas.DataFrame({'source': ['a', 'b', None, 'd'], 'target': ['b', 'c', 'd', 'a'],
                                  'whole': pandas.array([1, None, 3, 4], dtype='Int64'),
                                  'some': [.5, 2.0, 3.0, float('nan')]}, index=[10, 20, 30, 40])
        with blocks.Sessions(2) as many:
            for s in (self.s, many):
                self.assertIn('row 30: a name is missing: missing="skip" leaves the row out',
                              self.said(s.from_pandas_edgelist, frame))
                self.assertIn('row 20: the value is missing: missing="skip"',
                              self.said(s.from_pandas_edgelist, frame[:2], edge_attr='whole'))
                G = s.from_pandas_edgelist(frame, edge_attr='whole', missing='skip')
                self.assertEqual((G.to_edgelist(), G.notes.source),
                                 ([('a', 'b', 1), ('d', 'a', 4)],
                                  '1 row without a name left out; 1 row without a value left out'))
                G = s.from_pandas_edgelist(frame, edge_attr='some', missing='skip', scale=2)
                self.assertEqual(G.notes.source,
                                 'values times 2, all whole then; 1 row without a name left '
                                 'out; 1 row without a value left out')
                self.assertIn('row 10: a value is a whole number, not 0.5',
                              self.said(s.from_pandas_edgelist, frame, edge_attr='some',
                                        missing='skip'))

    @support.needs('pandas', 'numpy')
    def test_columns_of_values(self):
        """As networkx has them: a name, a list of one, True."""
        import pandas
        frame = pandas.DataFrame({'source': ['a'], 'target': ['b'], 'amount': [3]})
        read = self.s.from_pandas_edgelist
        for edge_attr in ('amount', ['amount'], ('amount',), True):
            self.assertEqual(read(frame, edge_attr=edge_attr).to_edgelist(), [('a', 'b', 3)])
        wide = frame.assign(fee=[4], **{'("x",)': [1]})
        self.assertIn("edge_attr='amount' or edge_attr='fee'",
                      self.said(read, wide, edge_attr=True)
                      + self.said(read, wide, edge_attr=['amount', 'fee']))
        self.assertIn('there are none: edge_attr=None',
                      self.said(read, frame[['source', 'target']], edge_attr=True))
        with self.assertRaisesRegex(KeyError, "no column 'tax'"):
            read(frame, edge_attr=['tax'])
        tuples = pandas.DataFrame({('x', 'y'): [5], 'source': ['a'], 'target': ['b']},
                                  columns=pandas.Index([('x', 'y'), 'source', 'target'],
                                                       tupleize_cols=False))
        self.assertEqual(read(tuples, edge_attr=('x', 'y')).to_edgelist(), [('a', 'b', 5)])

    def test_long_lists(self):
        """What is read in bulk without holes is read line by line with them, to the same end."""
        lines = ['from,to,w', *('w%dx,w%dx,%d' % (k, k + 1, k) for k in range(9000))]
        want = self.read('\n'.join(lines))
        G = self.read('\n'.join([*lines, 'a,b,', 'NA,b,3', '#c,nan,4', '']), missing='skip')
        self.assertEqual((G.to_text(), G.nodes), (want.to_text(), want.nodes))
        self.assertTrue(G.notes.source.endswith(
            '; 2 rows without a name left out; 1 row without a value left out'))
        self.assertEqual(self.read('\n'.join([*lines, '#c,d,4', '" e",f,5'])).to_edgelist()[-2:],
                         [('#c', 'd', 4), (' e', 'f', 5)])
        self.assertIn('line 9002: this line may be a comment or a row',
                      self.said(self.read, '\n'.join([*lines, '# 1 4']).replace(',', ' ')))

    def test_words(self):
        one, more = edges.LeftOut(1, 1, 1, 1), edges.LeftOut(2, 0, 3)
        self.assertEqual(str(one.plus(more)),
                         '3 comment lines passed over; 1 comment at the end of a line passed '
                         'over; 4 rows without a name left out; 1 row without a value left out')
        self.assertEqual((str(edges.LeftOut()), edges.LeftOut().added_to('x'), one.added_to('')),
                         ('', 'x', str(one)))


class Blocks(unittest.TestCase):
    def test_as_one_session_has_it(self):
        """Of a file that workers read, and of a folder, whose parts are counted together."""
        with tempfile.TemporaryDirectory() as folder, \
                mock.patch.object(parallel_read, 'LEAST', 1), \
                spmat.Session() as one, blocks.Sessions(2) as many:
            path = os.path.join(folder, 'graph.csv')
            for text, how in (('# c\n% d\na,b,3\n#c,d,4\n', {}), (HOLES, {'missing': 'skip'}),
                              ('#id,from,to\n1,a,b\n', {'values': False}), ('a,b,1\n#c,d,1\n', {'comments': '#'}),
                              ('a,b,1\n#c,d,1\n', {'comments': None}),
                              ('user,item\n1,1\n1,2\n', {'bipartite': True})):
                pathlib.Path(path).write_text(text, 'utf-8')
                got, want = many.read_graph(path, **how), one.read_graph(path, **how)
                self.assertEqual((got.to_edgelist(), support.known_of(got)),
                                 (want.to_edgelist(), support.known_of(want)), text)
            for text in (HOLES, 'manager,report\na,b\n', '#a,b\nc,d\n'):
                pathlib.Path(path).write_text(text, 'utf-8')
                said = []
                for s in (many, one):
                    with self.assertRaises(spmat.ReadError, msg=text) as fault:
                        s.read_graph(path)
                    said.append(str(fault.exception))
                self.assertEqual(said[0], said[1])
            parts = os.path.join(folder, 'parts')
            os.mkdir(parts)
            for number in range(2):
                with open(os.path.join(parts, '%d.csv' % number), 'w', encoding='utf-8') as file:
                    file.write('# part\nfrom,to,w\na,b%d,1\nb,c,\nNA,c,2\n' % number)
            if support.has('numpy'):
                G = many.read_graph(parts, missing='skip')
                self.assertEqual(G.to_edgelist(), [('a', 'b0', 1), ('a', 'b1', 1)])
                self.assertTrue(
                    G.notes.source.endswith(
                        '; 2 comment lines passed over; 2 rows without a name left out; 2 rows '
                        'without a value left out'))


class Shell(command_line.CommandLine):
    def test_words(self):
        self.write('tags.csv', '# made today\nsource,target\n#a,b\nb,c\n#a,c\n')
        done = self.run_words('triangle-count', 'tags.csv', '--undirected')
        self.assertEqual((done.stdout, done.stderr),
                         ('1\n', 'tags.csv: header: yes; source=source, '
                          'target=target, no values; 1 comment line '
                          'passed over\n'))
        self.assertEqual(self.run_words('degrees', 'tags.csv', '--comments', '#').stdout,
                         'b 1\nc 0\n')
        self.write('rows.csv', '#a,b,1\n%c,d,2\n')
        done = self.run_words('degrees', 'rows.csv')
        self.assertEqual(done.returncode, 3)
        self.assertIn("(flags: --comments or --no-comments)", done.stderr)
        self.assertEqual(self.run_words('degrees', 'rows.csv', '--no-comments').stdout,
                         '#a 1\nb 0\n%c 1\nd 0\n')
        self.write('holes.csv', HOLES)
        self.assertIn('a name is empty: missing="skip" leaves the line out',
                      self.run_words('degrees', 'holes.csv', '--columns', 'to,from').stderr)
        self.write('nan.csv', 'from,to\na,nan\n')
        self.assertIn('missing="skip" leaves the line out, missing=None takes it for a name',
                      self.run_words('degrees', 'nan.csv').stderr)
        self.assertEqual(self.run_words('degrees', 'nan.csv', '--missing', 'keep').stdout,
                         'a 1\nnan 0\n')
        done = self.run_words('sssp', 'holes.csv', '--missing', 'skip', '--source', 'a')
        self.assertEqual((done.stdout, done.returncode), ('a 0\nb 3\n', 0))
        self.assertIn('3 rows without a name left out; 2 rows without a value left out',
                      done.stderr)
        self.write('staff.csv', 'manager,report\nann,bob\n')
        self.assertIn('(flags: --header or --no-header)', self.run_words('degrees', 'staff.csv').stderr)
        self.assertEqual(self.run_words('degrees', 'staff.csv', '--header').stdout,
                         'ann 1\nbob 0\n')
        self.write('staff.txt', 'manager;report\nann;bob\n')
        self.assertIn('(flags: --sep)', self.run_words('degrees', 'staff.txt').stderr)
        self.assertEqual(self.run_words('degrees', 'staff.txt', '--sep', ';', '--no-header').stdout,
                         'manager 1\nreport 0\nann 1\nbob 0\n')


class ByTheCommandLine(unittest.TestCase):
    """The same files: never a traceback, and one line that says what was taken, or what is
    wrong."""

    def setUp(self):
        self.folder = support.enter(self, tempfile.TemporaryDirectory())

    def degrees(self, name, text=None, command='degrees'):
        path = os.path.join(self.folder, name)
        if text is not None:
            pathlib.Path(path).write_bytes(coded(text))
        with contextlib.redirect_stdout(io.StringIO()) as stdout, \
                contextlib.redirect_stderr(io.StringIO()) as stderr:
            status = main([command, path])
        return status, stdout.getvalue(), stderr.getvalue()

    def test_each_file(self):
        for number, (text, told, _) in enumerate(READ):
            name = '%d%s' % (number, name_of(text)[-4:])
            status, _, stderr = self.degrees(name, text)
            self.assertEqual(status, 0, text)
            plain = re.sub(r', (values=.*?|no values)(;|$)', r', no values\2', told)
            self.assertEqual(stderr, '%s: %s\n' % (os.path.join(self.folder, name), plain))
        for number, (text, line, _) in enumerate(REFUSED):
            name = 'r%d%s' % (number, name_of(text)[-4:])
            status, stdout, stderr = self.degrees(name, text, 'sssp')
            self.assertNotEqual(status, 0, text)
            self.assertEqual(stdout, '', text)
            self.assertIn('%s%s: ' % (name, '' if line is None else ', line %d' % line), stderr)
            self.assertEqual(stderr.count('\n'), 1, stderr)

    def test_what_is_no_file_of_bytes(self):
        self.assertIn('expected a file, got a folder', self.degrees('')[2])
        self.assertIn('No such file', self.degrees('nothere.csv')[2])
        self.assertIn('it is empty', self.degrees('empty.csv.gz', gzip.compress(b''))[2])
        path = os.path.join(self.folder, 'fifo')
        os.mkfifo(path)

        def write():
            pathlib.Path(path).write_bytes(gzip.compress(b'from to\na b\n'))
        writer = threading.Thread(target=write)
        writer.start()
        self.assertEqual(self.degrees('fifo')[:2], (0, 'a 1\nb 0\n'))
        writer.join()

    def test_packed_by_content(self):
        """The first bytes say how a file is packed, whatever its name."""
        for pack in (gzip.compress, bz2.compress, lzma.compress, bytes):
            for ending in ('', '.gz', '.bz2', '.xz'):
                self.assertEqual(self.degrees('packed.csv' + ending, pack(b'from,to\na,b\n'))[:2],
                                 (0, 'a 1\nb 0\n'))


class Page(unittest.TestCase):
    """docs/files.md: each block prints what stands below it, and each argument and flag of its
    table is there."""

    page = text_of('docs/files.md')

    def test_blocks(self):
        blocks = blocks_of(self.page)
        self.assertEqual(len(blocks) % 2, 0)
        self.assertGreaterEqual(len(blocks), 10)
        for block, said in zip(blocks[::2], blocks[1::2]):
            self.assertEqual(printed(block), said)

    def test_flags(self):
        told = set(re.findall(r'--[a-z][a-z-]*', self.page))
        self.assertEqual(told - flags_of('degrees'), set())
        for argument in re.findall(r'^\| `(\w+)=', self.page, re.M):
            self.assertIn(argument, {*inspect.signature(spmat.Session.read_graph).parameters,
                                     *Layout._fields}, argument)
