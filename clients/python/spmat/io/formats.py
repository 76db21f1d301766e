"""Graphs in files that say by themselves what their vertices are: GraphML, GEXF and GML by
networkx, and those of the DIMACS challenges. Files of pandas (parquet); and lists as networkx
writes them, with a dictionary of attributes behind each edge.

DIMACS has shortest paths (`p sp`, arcs `a`), maximum flow (`p max`, arcs `a`), and colouring or
cliques (`p edge`, `p col`, edges `e`). Vertices count from 1, and are named so. Sources: the ninth
DIMACS implementation challenge's file formats (.gr); the first's (.max); the second's (.col, .clq).
"""
from __future__ import annotations

import ast
import functools
import io
import json
import re
from types import ModuleType
from typing import Any, Callable, Dict, List, NamedTuple, Optional, Sequence, Tuple

import numpy

from ..errors import ReadError, about, parameters_of, refusal
from ..extras import describe_missing, import_extra
from ..limits import MOST_SIDE
from . import edge_lists
from .edge_lists import (WEIGHTS, Form, Table, as_text, blank_comments, choose_columns,
                         convert_names, describe_columns, read_edges)
from .edges import (ABSENT, Edges, Graph, How, Layout, check_times, code_names, convert_values,
                    edges_of_frame, graph_of)
from .files import is_market
from .matrix_text import line_at, start_of_line

CALLED = {'graphml': 'GraphML', 'gexf': 'GEXF', 'gml': 'GML'}
ARCS = {'sp': b'a', 'max': b'a', 'edge': b'e', 'edges': b'e', 'col': b'e'}
# lines of comments, and those that tell of single vertices
PASSED = re.compile(rb'(?m)^[ \t]*[cnxdv](?:[ \t\r][^\n]*)?$')


def read_graph(format: str, file: str, text: bytes, layout: Layout) -> Edges:
    """The graph of a GraphML, GEXF or GML file. ReadError where networkx isn't there, or takes it
    for none."""
    try:
        networkx = import_extra('networkx', CALLED[format])
    except ImportError as fault:
        raise ReadError(file, None, str(fault)) from None
    try:
        found = (_read_gml(networkx, text) if format == 'gml'
                 else getattr(networkx, 'read_' + format)(io.BytesIO(text)))
        many = list(found.edges(data=True))
    except Exception as fault:  # pylint: disable=broad-exception-caught
        # of XML, of numbers, of networkx' own
        raise ReadError(file, None,
                        'no %s that networkx reads (%s: %s)'
                        % (CALLED[format], type(fault).__name__, fault)) from None

    def fault_of(at: int, words: str) -> ReadError:
        return ReadError('%s, the edge from %r to %r' % (file, many[at][0], many[at][1]), None,
                         words)
    values, attribute, done = _values_of([data for _, _, data in many], layout, fault_of)
    summary = '%s: %s by networkx; %s%s' % (file, CALLED[format], 'values=' + attribute if attribute
                                            else 'no values', done)
    return Edges([u for u, _, _ in many], [v for _, v, _ in many], values, fault_of, summary,
                 nodes=list(found), directed=bool(found.is_directed()))


def _values_of(held: List[Any], layout: Layout,
               fault_of: Callable[[int, str], ReadError]) -> Tuple[Any, str, str]:
    """The values of edges by their attributes, the attribute that has them, and what was done to
    them; None and nothing where there is none. ReadError names the edge."""
    attribute = next((name for name in WEIGHTS if layout.values
                      and any(name in data for data in held)), None)
    if attribute is None:
        return None, '', ''
    found, done = convert_values(
        [data.get(attribute, ABSENT) for data in held], layout,
        lambda at, why: about(fault_of(at, 'the attribute %r: %s' % (attribute, why)),
                              *parameters_of(why)))
    return found, attribute, '; ' + done if done else ''


def _read_gml(networkx: ModuleType, text: bytes) -> Any:
    """By its labels, or where it has none by its numbers."""
    try:
        return networkx.read_gml(io.BytesIO(text))
    except networkx.NetworkXError:
        return networkx.read_gml(io.BytesIO(text), label='id')


def read_table(file: str, text: bytes, layout: Layout) -> Edges:
    """The edges of a parquet file, whose columns are found as those of a list with a header."""
    try:
        frame = import_extra('pandas', 'parquet').read_parquet(io.BytesIO(text))
    except ImportError as fault:
        raise ReadError(file, None,
                        describe_missing('pandas' if fault.name == 'pandas' else 'pyarrow',
                                         'parquet')) from None
    except Exception as fault:  # pylint: disable=broad-exception-caught  # each engine has its own
        raise ReadError(file, None, 'no parquet file that pandas reads (%s)' % fault) from None
    names = [str(name) for name in frame.columns]
    ends, value = choose_columns(names, True, layout, lambda words: ReadError(file, None, words))
    try:
        edges = edges_of_frame(frame, (frame.columns[ends[0]], frame.columns[ends[1]]),
                               False if value is None else frame.columns[value], layout)
    except (TypeError, ValueError) as fault:
        raise about(ReadError(file, None, str(fault)), *parameters_of(fault)) from None
    summary = '%s: parquet; %s' % (
        file, describe_columns(names, True, (*ends, value)).partition('; ')[2])
    return edges._replace(summary=summary + ('; ' + edges.summary if edges.summary else ''),
                          fault=lambda at, words: ReadError(
                              '%s, row %d' % (file, at), None, words))


def _line_of(sep: Optional[str]) -> 're.Pattern[str]':
    """A line with a dictionary: what separates its fields, or blanks or commas."""
    part = '[\\s,]+' if sep is None else re.escape(sep)
    name = '([^\\s,]+)' if sep is None else '([^%s]+)' % part
    return re.compile(name + part + name + part + r'(\{.*\})\s*')


def has_dictionaries(text: bytes, layout: Layout) -> bool:
    """Whether the first edge of a list has a dictionary behind it, as networkx' `write_edgelist`
    writes it."""
    if layout.columns is not None:
        return False
    for line in io.BytesIO(blank_comments(text[:1 << 16], layout.comments)[0]):
        if line.strip():
            words = line.decode('utf-8', 'replace')
            return _line_of(layout.sep).fullmatch(words) is not None
    return False


def read_dictionaries(file: str, text: bytes, layout: Layout) -> Edges:
    """The edges of a list as networkx writes it. ReadError names the line."""
    plain, left_out = blank_comments(as_text(file, text), layout.comments)
    form = _line_of(layout.sep)
    numbers: List[int] = []
    ends: List[Tuple[str, str]] = []
    held: List[Any] = []
    for number, line in enumerate(plain.split(b'\n'), 1):
        if line.strip():
            source, target, data = _split_line(file, number, line, form)
            numbers.append(number)
            ends.append((source, target))
            held.append(data)

    def fault_of(at: int, words: str) -> ReadError:
        return ReadError(file, numbers[at], words, line_at(text, numbers[at]))
    values, _, done = _values_of(held, layout, fault_of)
    summary = "%s: networkx' edge list; source=column 0, target=column 1, %s%s" % (
        file, 'no values' if values is None else 'values=weight', done)
    coded = code_names([source for source, _ in ends], [target for _, target in ends])
    columns = convert_names(*coded, layout.nodetype, fault_of)
    return Edges(*columns, values, fault_of, summary, left_out)


def _split_line(file: str, number: int, line: bytes,
                form: 're.Pattern[str]') -> Tuple[str, str, Any]:
    """The names and the dictionary of a line."""
    parts = form.fullmatch(line.decode('utf-8'))
    try:
        data = ast.literal_eval(parts.group(3)) if parts else None
    except (ValueError, SyntaxError, RecursionError, MemoryError):     # of deep nests, too
        data = None
    if parts is None or not isinstance(data, dict):
        raise ReadError(file, number,
                        "an edge is written as networkx writes it, `1 2 {'weight': 3}`",
                        line_at(line, 1))
    return parts.group(1), parts.group(2), data


# -- DIMACS

class Problem(NamedTuple):
    """The line `p`: the kind of problem, the sizes, and the line's number."""
    kind: str
    vertices: int
    edges: int
    number: int

    @property
    def directed(self) -> bool:
        """Whether an edge leads one way."""
        return ARCS[self.kind] == b'a'


def is_dimacs(text: bytes) -> bool:
    """Whether a text is one, by its first line that is no comment."""
    for line in io.BytesIO(text[:1 << 20]):
        if line.split()[:1] not in ([], [b'c']):
            return re.match(rb'p\s+[a-z]+\s+\d+\s+\d+\s*$', line) is not None
    return False


def read_dimacs(file: str, text: bytes, layout: Layout) -> Edges:
    """The edges of a graph of DIMACS. ReadError names the line."""
    text = as_text(file, text)
    problem = problem_of(file, text)
    body = text[start_of_line(text, problem.number + 1):]
    table = Table(file, text, PASSED.sub(b'', body), problem.number + 1,
                  Form(None, 4 if problem.directed else 3, (1, 2),
                       3 if problem.directed and layout.values else None))
    plain = Layout(scale=layout.scale, comments=None, missing=None)
    try:
        edges = read_edges(table, plain)
    except ReadError as fault:
        raise _find_fault(table, problem) or fault from None
    if len(re.findall(rb'(?m)^[ \t]*%s[ \t]' % ARCS[problem.kind], table.body)) != len(
            edges.sources) or not all(
                isinstance(end, numpy.ndarray) and ((end >= 1) & (end <= problem.vertices)).all()
                for end in edges[:2]):
        raise _find_fault(table, problem) or AssertionError('a line was wrong, and none is')
    if len(edges.sources) != problem.edges:
        raise ReadError(file, problem.number, '%d edges stand there, and this line says %d' % (
            len(edges.sources), problem.edges), line_at(text, problem.number))
    return edges._replace(nodes=range(1, problem.vertices + 1), directed=problem.directed)


def _find_fault(table: Table, problem: Problem) -> Optional[ReadError]:
    """The error of the first line that is no edge between vertices."""
    letter = ARCS[problem.kind].decode()
    for at, (_, (first, *fields)) in enumerate(table.rows()):
        if first != letter or len(fields) != table.form.width - 1:
            return table.fault(at, 'an edge of this kind is `%s FROM TO%s`' % (
                letter, ' VALUE' if problem.directed else ''), True)
        for word in fields[:2]:
            if not (word.isdigit() and 1 <= int(word) <= problem.vertices and word[0] != '0'):
                return table.fault(at, 'a vertex is 1 to %d, not %s' % (problem.vertices, word))
    return None


def problem_of(file: str, text: bytes) -> Problem:
    """What the line `p` says."""
    for number, line in enumerate(text.split(b'\n'), 1):
        words = line.decode('utf-8', 'replace').split()
        if words and words[0] == 'p':
            if (len(words) != 4 or words[1] not in ARCS
                or not (words[2].isdigit() and words[3].isdigit())):
                raise ReadError(file, number,
                                'a line `p` says the kind (%s), the vertices and the edges'
                                % ', '.join(sorted(ARCS)), line_at(text, number))
            if int(words[2]) > MOST_SIDE:
                raise refusal('M4', detail='%s vertices (line %d of %s)' % (words[2], number, file))
            return Problem(words[1], int(words[2]), int(words[3]), number)
        if words and words[0] != 'c':
            raise ReadError(file, number,
                            'no graph of DIMACS: a line `p KIND VERTICES EDGES` comes first',
                            line_at(text, number))
    raise ReadError(file, None, 'no graph of DIMACS: it has no line `p KIND VERTICES EDGES`')


# -- which format a file has

PARTED = {'edges': None, 'csv': ',', 'tsv': '\t'}
OF_LISTS = (*PARTED, 'parquet')     # which have columns
START = 1 << 16                                    # bytes that are looked at
GML = re.compile(rb'(creator\s|version\s|comment\s|directed\s|graph\s*\[)', re.I)
HTML = re.compile(rb'<!doctype\s+html|<html\b', re.I)
MARKUP = re.compile(rb'<([?!/]|[A-Za-z][\w:.-]*[\s/>])')
DOT_OR_PAJEK = re.compile(
    rb'(strict\s+)?(di)?graph(\s+[\w"]+)?\s*\{|\*\s*(vertices|network|arcs|edges)\b', re.I)
NO_TEXT = re.compile(rb'[\x00-\x08\x0e-\x1f\x7f-\xc1\xf5-\xff]')       # no text in UTF-8 begins so
Progress = Callable[[str, int, int], object]


class Request(NamedTuple):
    """What a caller asks of a file: its format, or None for what its content says; how a list is
    written; what becomes of its edges. `directed` None is as the file has it: DIMACS says, and a
    list's edges lead one way. `max_bytes` bounds the file, unpacked."""
    format: Optional[str] = None
    layout: Layout = Layout()
    directed: Optional[bool] = None
    nodelist: Optional[Sequence[object]] = None
    max_bytes: Optional[int] = None

    @property
    def bipartite(self) -> bool:
        """Whether sources and targets are two kinds of vertices."""
        return bool(self.layout.bipartite)


# -- which format a file has

class GraphFormat(NamedTuple):
    """A format that says by itself what its vertices are and which way edges lead. It has its name
    for callers, what texts call it, whether bytes look like it, and what reads these. A module and
    a row here are all that a new one needs."""
    name: str
    called: str
    is_like: Callable[[bytes], bool]
    read: Callable[[str, bytes, Layout], Edges]


def _find_root(text: bytes) -> Optional[str]:
    """The name of the root of a text in XML, where it is GraphML or GEXF."""
    start = text[:START].lstrip()
    root = re.search(rb'<(?:\w+:)?(graphml|gexf)\b', start) if start.startswith(b'<') else None
    return root.group(1).decode() if root is not None and not HTML.search(start[:4096]) else None


def _is_gml(text: bytes) -> bool:
    start = text[:START].lstrip()
    return bool(GML.match(start) and re.search(rb'^[ \t]*(graph|node)\s*\[', start, re.M | re.I))


GRAPH_FORMATS: Dict[str, GraphFormat] = {one.name: one for one in (
    GraphFormat('dimacs', 'DIMACS', is_dimacs, read_dimacs),
    *(GraphFormat(name, called, is_like, functools.partial(read_graph, name))
      for (name, called), is_like in zip(CALLED.items(), (
          lambda text: _find_root(text) == 'graphml', lambda text: _find_root(text) == 'gexf',
          _is_gml))),
)}
FORMATS = ('mtx', 'edges', 'csv', 'tsv', *GRAPH_FORMATS, 'parquet')
# what a sentence lists that says what can be read
READABLE = ', '.join(['an edge list', 'CSV', 'TSV',
                      *(one.called for one in GRAPH_FORMATS.values())])
EXPECTED = 'expected %s or Matrix Market, got ' % READABLE


def format_of(text: bytes) -> str:
    """Which format a text has, by its beginning: `mtx`, `parquet`, or the first of GRAPH_FORMATS
    that it is like; else `edges`."""
    if is_market(text):
        return 'mtx'
    if text[:4] == b'PAR1':
        return 'parquet'
    return next((name for name, one in GRAPH_FORMATS.items() if one.is_like(text)), 'edges')


def describe_other(text: bytes) -> Optional[str]:
    """What a file is, in words, where it is known to be no list of edges; else None."""
    start = text[:START]
    if start.startswith(b'PK\x03\x04') and b'matrices.json' in start:
        return 'this is a file that save() wrote: s.load(path) reads it'
    if start[:2] in (b'\xff\xfe', b'\xfe\xff'):
        return EXPECTED + 'text in UTF-16: `iconv -f utf-16 -t utf-8` makes UTF-8 of it'
    if start.startswith(b'PK\x03\x04'):
        return (EXPECTED
                + 'a zip archive of several files, or a damaged one: unpack it, and read one of '
                'them')
    if b'\0' in start[:4096] or start.startswith(b'%PDF') or NO_TEXT.match(start):
        return EXPECTED + 'binary data'
    start = start.lstrip()
    if MARKUP.match(start):
        return EXPECTED + ('a page in HTML, perhaps in place of the file that was asked for'
                           if HTML.search(start[:4096]) else 'XML that is neither GraphML nor GEXF')
    if start[:1] in (b'{', b'[') and _is_json(start, len(text) > START):
        return (EXPECTED + 'JSON: json.load reads it, and from_edgelist takes its edges, or '
                'networkx.node_link_graph and from_networkx')
    if DOT_OR_PAJEK.match(start):
        return (EXPECTED + 'a graph in DOT or of Pajek: networkx.nx_pydot.read_dot or '
                'networkx.read_pajek reads it, and from_networkx takes it')
    return None


def _is_json(start: bytes, cut: bool) -> bool:
    """Whether a text begins with a value of JSON that fills its line, or goes on behind what is
    looked at."""
    words = start.decode('utf-8', 'replace')
    try:
        end = json.JSONDecoder().raw_decode(words)[1]
    except json.JSONDecodeError as fault:
        return (cut and re.match(r'[\[{]\s*[\[{"]', words) is not None
                and fault.pos > len(words) // 2)
    except RecursionError:
        return True
    return not words[end:].partition('\n')[0].strip(' \t\r,')


def check_format(file: str, text: bytes, format: Optional[str]) -> str:
    """The format that a caller names, or the content's. ValueError for none of `FORMATS`, ReadError
    for a file that is no Matrix Market file and was to be one, or is one and was not."""
    if format is not None and format not in FORMATS:
        raise ValueError('a format is %s, or None for what stands in the file; not %r'
                         % (', '.join(FORMATS), format))
    found = format_of(text)
    if format == 'mtx' and found != 'mtx':
        raise about(ReadError(
            file, 1, 'this is no Matrix Market file, which begins with %%MatrixMarket; '
            'read_graph(), and the command line without --format mtx, read ' + READABLE,
            line_at(text, 1)), 'format')
    if format not in (None, 'mtx') and found == 'mtx':
        raise about(ReadError(file, 1, 'this is a Matrix Market file, and %s was asked for'
                              % format, line_at(text, 1)), 'format')
    if format in (*CALLED, 'parquet') and found != format:
        raise about(ReadError(file, 1, 'this is no file of the format %s' % format,
                              line_at(text, 1)), 'format')
    other = describe_other(text) if found == 'edges' else None
    if other is not None:
        raise ReadError(file, None, other)
    return found if format is None else format


# What is said of columns of text, and where it has no meaning: there it is refused, since the words
# would do nothing.
OF_TEXT = ('sep', 'header', 'comments', 'nodetype')
OF_COLUMNS = (*OF_TEXT, 'columns', 'missing')
DICTIONARIES = "networkx' edge list"
NOT_OF: Dict[str, Sequence[str]] = {
    'mtx': (*OF_COLUMNS, 'unit', 'date_format', 'nodelist'),
    'dimacs': (*OF_COLUMNS, 'unit', 'date_format'),
    **dict.fromkeys(CALLED, OF_COLUMNS),
    'parquet': OF_TEXT, DICTIONARIES: ('header', 'missing')}


def check_layout(file: str, format: str, request: Request) -> None:
    """ReadError where a caller says of a file what has no meaning for its format. None, and that
    nothing is a comment, is true of each."""
    asked = {**request.layout._asdict(), 'nodelist': request.nodelist}
    named = [name for name in NOT_OF.get(format, ()) if asked[name] is not None
             and asked[name] not in (getattr(Layout(), name, None), [])]
    if named:
        mends = {'unit': 'G.unit = %r says of the matrix that it has times' % request.layout.unit,
                 'nodelist': 'G[nodelist, nodelist] takes these of the matrix'}
        raise about(ReadError(file, None,
                              named[0] + '= is for a list of edges%s, and this is a file of the '
                              'format %s; %s' % ('' if format in ('mtx', *GRAPH_FORMATS)
                                                 else ' in columns of text', format,
                                                 mends.get(named[0], 'leave it out'))), named[0])


# -- reading it

def read(file: str, text: bytes, request: Request, tell: Optional[Progress] = None) -> Graph:
    """The matrix of a file of another format than Matrix Market; of an undirected graph the lower
    triangle alone. `tell` is told of the phases: 'reading' of the bytes, 'names' of the edges."""
    tell = tell if tell is not None else lambda what, done, of: None
    tell('reading', 0, len(text))
    edges, how = edges_of(file, text, request)
    count = len(edges.sources)
    tell('reading', len(text), len(text))
    tell('names', 0, count)
    graph = graph_of(edges, how)
    tell('names', count, count)
    return graph


def edges_of(file: str, text: bytes, request: Request) -> Tuple[Edges, How]:
    """The edges of a file, and what becomes of them. ReadError where the caller asks for what the
    file doesn't have."""
    format, layout = check_format(file, text, request.format), request.layout
    if format in PARTED and has_dictionaries(text, layout):
        format = DICTIONARIES
    check_layout(file, format, request)
    how = How(request.directed is not False, request.nodelist, request.bipartite)
    if format not in GRAPH_FORMATS:
        edges = LIST_READERS[format](file, text, layout)
        if edges.question and request.directed is None:
            raise about(ReadError(file, None, edges.question), 'directed')
    elif how.bipartite:
        raise about(ReadError(file, None, '%s has one kind of vertices: bipartite=True is for '
                              'lists and Matrix Market; leave it out' % format), 'bipartite')
    else:
        edges = GRAPH_FORMATS[format].read(file, text, layout)
        how = how._replace(
            directed=bool(edges.directed if request.directed is None else request.directed),
            nodelist=edges.nodes if how.nodelist is None else how.nodelist)
    try:
        check_times(layout, edges)
    except ValueError as fault:
        raise about(ReadError(file, None, str(fault)), *parameters_of(fault)) from None
    return edges, how


def _read_list(sep: Optional[str], file: str, text: bytes, layout: Layout) -> Edges:
    """The edges of a list, whose format may say what separates the fields."""
    layout = layout._replace(sep=sep if layout.sep is None else layout.sep)
    return edge_lists.read_edges(edge_lists.lay_out(file, text, layout), layout)


LIST_READERS: Dict[str, Callable[[str, bytes, Layout], Edges]] = {
    'parquet': read_table, DICTIONARIES: read_dictionaries,
    **{name: functools.partial(_read_list, sep) for name, sep in PARTED.items()}}
