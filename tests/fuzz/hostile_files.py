"""Files that untrusted users may have written: a file of each format, and what makes a hostile one
of it. File k of a seed is always the same."""
import bz2
import gzip
import io
import json
import lzma
import os
import random
import tempfile
import zipfile
from typing import Any, Callable, Dict, NamedTuple

from tests.fuzz import texts

BANNER = '%%MatrixMarket matrix '
# bytes that a bomb unpacks to: more than any reader takes without being asked
BOMB = 300_000_000


class Case(NamedTuple):
    """A file, what it is in words, and what reads it."""
    name: str
    data: bytes
    read: Callable[[Any, Any], Any]


def case_of(seed: int, number: int) -> Case:
    """File `number` of a seed."""
    rng = random.Random('%d %d' % (seed, number))
    make = rng.choices(list(MAKERS), list(MAKERS.values()))[0]
    return make(rng)


def read_as(**given: Any) -> Callable[[Any, Any], Any]:
    """Reads a file as these words say; a matrix of it is looked at."""
    return lambda session, file: session.read_graph(file, **given).shape


# -- files as they should be

def name(rng: random.Random) -> str:
    return rng.choice(['a', 'b', 'c', 'Bern', 'Zürich', 'x y', '1', '2', '17', '-3', '007', 'NA',
                       '', '#1', '%', '"', '日本', '9' * 20, '1.5'])


def field(rng: random.Random, delimiter: str) -> str:
    word = name(rng)
    quoted = rng.random() < .2 and delimiter != ' '
    return ('"%s"' % word.replace('"', '""') if quoted else word.replace(delimiter, '_')
            if delimiter != ' ' else word.replace(' ', '_') or 'e')


def value(rng: random.Random) -> str:
    return rng.choice(['1', '2', '-7', '3.5', '1e3', '1e-3', '', 'NA', 'x', '9' * 30, '1e999999',
                       '9' * 5000, 'inf', '0x10', '1_000', '1,5', '2024-05-31'])


HEADS = (['source', 'target', 'weight', 'note'], ['from', 'to', 'amount', 'date'],
         ['node1', 'node2', 'w', 'id'], ['user', 'item', 'rating', 'time'])
WORDS = ['source', 'target', 'weight', 'date', 'from', 'to', 'id', 'user', 'item', 'x', 'node1',
         'v1', '']


def edge_list(rng: random.Random) -> bytes:
    """A list of edges: mostly one that is read, else one with whatever names and values there
    are."""
    delimiter, width, tidy = rng.choice([',', '\t', ';', '|',
                                         ' ']), rng.choice([2, 3, 3, 3, 4]), rng.random() < .6
    heads = rng.choice(HEADS)[:width] if tidy else [rng.choice(WORDS) for _ in range(width)]
    lines = [delimiter.join(heads)] if width == 4 or rng.random() < .6 else []
    for _ in range(rng.choice([1, 3, 20, 5, 3000 if rng.random() < .2 else 5])):
        ends = [str(rng.randrange(50)) if tidy else field(rng, delimiter) for _ in range(2)]
        more = [str(rng.randrange(9)) if tidy or rng.random() < .9 else value(rng)
                for _ in range(width - 2)]
        lines.append(delimiter.join(ends + [one.replace(delimiter, '') or '0' for one in more]))
    comment = ['# a comment', '% ', '#source,target'][:rng.choice([0, 0, 0, 2, 3])]
    return texts.ended(rng, [line.encode() for line in comment + lines], rng.random() < .7)


def dictionaries(rng: random.Random) -> bytes:
    lines = ["%d %d {'weight': %s}" % (rng.randrange(9), rng.randrange(9),
                                       rng.choice(['1', '2.0', '[' * rng.choice([1, 500, 100000]),
                                                   "{'a': 1}", 'x']))
             for _ in range(rng.randrange(1, 6))]
    return '\n'.join(lines).encode()


def market(rng: random.Random) -> bytes:
    form, kind = rng.choice(['coordinate', 'coordinate',
                             'array']), rng.choice(['integer', 'real', 'pattern', 'complex',
                                                    'unsigned-integer', 'double'])
    symmetry = rng.choice(['general', 'general', 'symmetric', 'skew-symmetric', 'hermitian'])
    rows, columns, count = rng.choice([1, 2, 3, 5]), rng.choice([1, 2, 3, 5]), rng.randrange(6)
    if symmetry != 'general':
        columns = rows
    count = min(count, rows)
    numbers = {'pattern': 0, 'complex': 2}.get(kind, 1)
    lines = [BANNER + '%s %s %s' % (form, kind, symmetry), '% a comment']
    huge = rng.random() < .05
    lines.append(' '.join(str(10 ** rng.choice([5, 9, 30]) if huge else one)
                          for one in ((rows, columns) if form == 'array'
                                      else (rows, columns, count))))
    for _ in range(rows * columns if form == 'array' else count):
        place = ([] if form == 'array' else [str(rng.randrange(1, rows + 1)),
                                             str(rng.randrange(1, columns + 1))])
        lines.append(' '.join(place + [value(rng) if rng.random() < .03
                                       else str(rng.randrange(-9, 9)) for _ in range(numbers)]))
    return texts.ended(rng, [line.encode() for line in lines], rng.random() < .7)


def dimacs(rng: random.Random) -> bytes:
    kind, letter = rng.choice([('sp', 'a'), ('max', 'a'), ('col', 'e'), ('edge', 'e')])
    edges = rng.randrange(6)
    count = rng.choice([edges, edges, edges, 10 ** 12])
    lines = ['c a comment', 'p %s %d %d' % (kind, rng.choice([5, 5, 5, 10 ** 5, 10 ** 30]), count)]
    lines += ['%s %d %d%s' % (letter, rng.randrange(1, 6), rng.randrange(1, 6),
                              ' %s' % value(rng) if letter == 'a' else '') for _ in range(edges)]
    return '\n'.join(lines).encode()


def graphml(rng: random.Random) -> bytes:
    depth = rng.choice([0, 0, 0, 2000, 200000])
    inner = ''.join('<edge source="%d" target="%d"><data key="d0">%s</data></edge>'
                    % (rng.randrange(5), rng.randrange(5), rng.choice(['1', '2', 'x', '']))
                    for _ in range(rng.randrange(5)))
    return ('<?xml version="1.0"?><graphml><key id="d0" for="edge" attr.name="weight" '
            'attr.type="%s"/><graph edgedefault="directed">%s%s%s</graph></graphml>'
            % (rng.choice(['int', 'double', 'string', 'none']), '<data>' * depth, inner,
               '</data>' * depth)).encode()


def gexf(rng: random.Random) -> bytes:
    return ('<gexf version="1.2"><graph defaultedgetype="%s"><nodes><node id="0" label="a"/><node '
            'id="1" label="b"/></nodes><edges><edge id="0" source="0" target="%d" '
            'weight="%s"/></edges></graph></gexf>' % (
                rng.choice(['directed', 'undirected', 'x']), rng.randrange(3),
                rng.choice(['1', '2.0', 'x']))).encode()


def gml(rng: random.Random) -> bytes:
    depth = rng.choice([0, 0, 0, 500, 100000])
    return ('graph [ directed 1 node [ id 0 label "a" ] node [ id 1 label "b" ] edge [ source 0 '
            'target %d weight %s ] %s %s ]' % (
                rng.randrange(3), rng.choice(['1', '2.5', '"x"', '-']), 'a [ ' * depth,
                ']' * depth)).encode()


READERS = (edge_list, edge_list, edge_list, dictionaries, market, market, dimacs, graphml, gexf,
           gml)


def words_for(rng: random.Random) -> Dict[str, Any]:
    """What a caller may say of a list."""
    given: Dict[str, Any] = {}
    for key, choices in {'header': (True, False),
                         'columns': ((0, 1), (0, 1, 2), ('source', 'target')), 'values': (False,),
                         'scale': (10, 1000),
                         'directed': (False, True), 'bipartite': (True, False),
                         'comments': ('#', None, ('#', '//')), 'missing': ('skip', None),
                         'nodetype': (str, int), 'dup_op': ('plus', 'min'),
                         'sep': (',', ' ', '\t', '|'), 'unit': ('s', 'D')}.items():
        if rng.random() < .12:
            given[key] = rng.choice(choices)
    if 'unit' in given:
        given.pop('scale', None)
    if given.get('columns') == ('source', 'target'):           # which wants a header
        given.pop('header', None)
    if given.get('bipartite'):
        given.pop('directed', None)
    return given


# -- what makes hostile ones of them

def plain(rng: random.Random) -> Case:
    make = rng.choice(READERS)
    given = words_for(rng) if make is edge_list and rng.random() < .4 else {}
    given.update({'dup_op': 'min'} if rng.random() < .7 else {})
    data = make(rng)
    if make is edge_list and rng.random() < .8:
        given.setdefault('sep', next((sep for sep in ',;\t|' if sep.encode() in data), ' '))
    return Case(make.__name__, data, read_as(**given))


def flipped(rng: random.Random) -> Case:
    case = plain(rng)
    return case._replace(name='flipped ' + case.name, data=texts.altered(rng, case.data))


def packed(rng: random.Random) -> Case:
    """Packed, altered once that is done, and cut off."""
    case = plain(rng)
    data = rng.choice([gzip.compress, bz2.compress, lzma.compress, zipped])(case.data)
    data = texts.altered(rng, data) if rng.random() < .6 else data
    return case._replace(name='packed ' + case.name, data=data)


def zipped(data: bytes) -> bytes:
    out = io.BytesIO()
    with zipfile.ZipFile(out, 'w', zipfile.ZIP_DEFLATED) as file:
        file.writestr('a.csv', data)
    return out.getvalue()


def bomb(rng: random.Random) -> Case:
    """A little file that unpacks to a large one, of lines or of one line, or to a Matrix Market
    file."""
    start = rng.choice([b'', b'a,b\n', b'a b',
                        BANNER.encode() + b'coordinate integer general\n1 1 1\n1 1 1\n'])
    piece, count = rng.choice([b'\n', b' ', b'1', b'\0']) * (1 << 20), BOMB >> 20
    if rng.random() < .2:
        return Case('bomb', zipped(start + piece * count), read_as())
    pack = rng.choice([gzip.compress, bz2.compress, lzma.compress])
    return Case('bomb', pack(start) + pack(piece) * count, read_as())


def wide(rng: random.Random) -> Case:
    """Columns without end, with the words of headers in them."""
    count = rng.choice([150, 1000, 20000])
    word = rng.choice(['c%d', 'from_%d', 'node%d', 'a', '', 'weight', 'source target %d',
                       'to_x_%d'])
    names = [word % at if '%' in word else word for at in range(count)]
    for one in rng.choice([(), ('source', 'target'), ('left_node', 'right_node'),
                           ('user', 'item')]):
        names[rng.randrange(count)] = one
    delimiter = rng.choice([',', ';', '\t', ' '])
    rows = [delimiter.join(names)] + [delimiter.join(rng.choice(['1', 'x', '2.5'])
                                                     for _ in range(count))
                                      for _ in range(rng.randrange(3))]
    return Case('wide', '\n'.join(rows).encode(), read_as(**words_for(rng)))


def long(rng: random.Random) -> Case:
    """One thing a million times: quotation marks, blanks, digits, comments, ends of lines."""
    unit = rng.choice(['"', '""', ',"', 'a,"b""\n', ' ', '\t', '1', '#', '#a\n', '\n', '\r', '\r\n',
                       ',', 'a,b\n"', '{', "1 2 {'weight': 1}}", '(', '9', '1e', 'p ', 'a"b,c\n',
                       '\x00', '\x0b', '\u3000', '[', '<a>', '- '])
    start = rng.choice(['', 'a,b\n', 'source,target,weight\na,b,', 'a b ', '"', '# x\n',
                        BANNER + 'coordinate real general\n', 'p sp 5 1\n', '<graphml>', 'graph ['])
    return Case('long', (start + unit * rng.choice([1000, 100000, 1000000])).encode(),
                read_as(**words_for(rng)))


def archive(rng: random.Random) -> Case:
    """What `save` writes, with other things in its contents, or altered."""
    odd = rng.choice([None, True, -1, 10 ** 10, 10 ** 30, 'x', [], ['a'], ['a', 'a'], ['a', 'b'],
                      [['a'], 1], {'first': 0, 'count': 10 ** 10},
                      {'first': 0, 'count': 2}, {'first': 0, 'count': -4},
                      {'first': 'a', 'count': 2}, {'frozenset': [1]}, [{'date': 'x'}, 1],
                      [{'datetime64': '2024', 'unit': 'V1000000000'}, 1],
                      [{'Timestamp': 'x', 'zone': 'y'}, 2], '1e999999999', {'a': 1}, 'rows',
                      'positions'])
    about = {'entries': '0.mtx', 'rows': None, 'columns': None,
             'unnamed': ['positions', 'positions'], 'directed': None, 'weighted': None,
             'source': ''}
    about[rng.choice([*about, 'unit', 'values'])] = odd
    contents = {'spmat': rng.choice([1, 2, 2, 2, 3, 'x']),
                'matrices': {rng.choice(['G', '', 'run', 'a b', 'x' * 100]): about}}
    words = json.dumps(contents)
    if rng.random() < .2:
        words = rng.choice(['[' * 100000, '{"spmat": 1, "matrices": ' + '[' * 100000, '1',
                            ' ' * (BOMB if rng.random() < .02 else 5000000)])
    text = rng.choice(['coordinate integer general\n2 2 1\n1 1 5\n',
                       'coordinate integer general\n100000 100000 0\n',
                       'array real general\n1 1\n7\n', 'x'])
    out = io.BytesIO()
    with zipfile.ZipFile(out, 'w', zipfile.ZIP_DEFLATED) as file:
        file.writestr('matrices.json', words)
        file.writestr('0.mtx', BANNER + text)
    data = texts.altered(rng, out.getvalue()) if rng.random() < .3 else out.getvalue()
    return Case('archive', data, _load)


def _load(session: Any, file: Any) -> Any:
    with tempfile.TemporaryDirectory() as folder:
        path = os.path.join(folder, 'w.spmat')
        with open(path, 'wb') as out:
            out.write(file.read())
        return {called: (matrix.shape, matrix.nodes and len(matrix.nodes), repr(matrix))
                for called, matrix in session.load(path).items()}


# What makes files, and how often.
MAKERS = {plain: 30, flipped: 40, packed: 20, wide: 4, long: 8, archive: 20, bomb: .3}
