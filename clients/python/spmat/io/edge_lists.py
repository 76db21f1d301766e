"""Lists of edges: a line has the names of two vertices, and perhaps a value.

The caller says how a list is written, and pandas reads it. What is left open and could mean two
things is asked, never guessed: `HeaderUnclear` has both calls. A refusal names the line, which is
found by counting once something is wrong.
"""
from __future__ import annotations

import csv
import io
import itertools
import re
from typing import (Any, Callable, Dict, Iterator, List, Mapping, Match, NamedTuple, Optional,
                    Sequence, Tuple, Union)

import numpy

from ..errors import HeaderUnclear, ReadError, about
from ..extras import import_extra
from ..types import Array
from .arrays import PAIRS
from .edges import WHOLE, Comments, Edges, Layout, LeftOut, Names, code_names
from .files import ENDINGS
from .matrix_text import line_at, start_of_line
from .values import (LONGEST, NO_NAMES, SKIP, SKIPS, TAKES, Rounding, is_missing, is_number,
                     is_time, scaled_array, whole_values)

WEIGHTS = ('weight', 'value')                      # columns that have the values of edges
SEPARATORS = {'.csv': ',', '.tsv': '\t'}
CALLED = {'\t': 'tabs', ',': 'commas', ';': 'semicolons', '|': 'bars', None: 'blanks'}
BLANKS = ' \t'
SAMPLE, LONG = 100, 1 << 20                        # lines, and bytes, that are looked at first
PIECE = 1 << 20                                    # bytes whose marks are looked at together
MINUS, PLUS, POINT, ZERO, EXPONENT = b'-+.0e'
FEW = 20                                           # columns that an error shows of many
FLOAT = re.compile(r'(?:%s)(?:\.0)?' % WHOLE.pattern)
FOR_EXCEL = re.compile(rb'"?sep=([,;|\t])"?(?=\r?\n)', re.I)
ABOVE = re.compile(rb'(?:[ \t\r]*(?:[#%][^\n]*)?\n)*(?:[ \t]*[#%][^\n]*\Z)?')
ATTACHED = re.compile('[#%]+[^ \t#%]')             # a comment, or a name that begins so
QUOTED = rb'(?m)(?:^|(?<=[,;|\t])) *"[^"]*(?:""[^"]*)*"'
VALUELESS = 'the value is missing (%%r): fill it in, or %s; values=False reads no values' % (
    SKIPS % 'line')
ASK_FLOATS = ('one column has whole numbers, and each name of the other ends in .0, as pandas '
              'writes a column with a gap: nodetype=int takes 2.0 for 2, nodetype=str for another '
              'name')


class Form(NamedTuple):
    """How the lines of edges are written: what separates their fields (None: blanks and tabs), and
    how many there are. Then the places of the two names, and that of the value or None."""
    sep: Optional[str]
    width: int
    ends: Tuple[int, int] = (0, 1)
    value: Optional[int] = None

    @property
    def columns(self) -> List[int]:
        """The columns that are read, ascending."""
        return sorted({*self.ends, *(() if self.value is None else (self.value,))})


class Table(NamedTuple):
    """A list to be read: its name for errors, its bytes as they are, the lines of its edges and the
    number of the first one. Then how these are written, what is taken, in words, and what is passed
    over. Last, what is to be asked if the list itself says that its edges have no direction."""
    file: str
    original: bytes
    body: bytes
    first: int
    form: Form
    summary: str = ''
    left_out: LeftOut = LeftOut()
    question: str = ''

    def rows(self) -> Iterator[Tuple[int, List[str]]]:
        """The lines of the edges."""
        return rows_of(self.file, self.body, self.form.sep, self.first)

    def fault(self, row: int, words: str, of_width: bool = False) -> ReadError:
        """The error of an edge, by its place among all rows. Words `of_width` say what is wrong
        with the number of its fields, too."""
        number, fields = next(itertools.islice(self.rows(), row, None))
        return (ReadError(self.file, number, words, line_at(self.original, number)) if of_width
                else self._fault_of(number, fields, words))

    def _fault_of(self, number: int, fields: List[str], words: str) -> ReadError:
        parameters: Tuple[str, ...] = ()
        if len(fields) != self.form.width and '\n' in fields[-1]:
            words = 'no list of fields (a quotation does not end)'
        elif len(fields) != self.form.width:
            words = '%d field%s, and the first line has %d (%s part them)' % (
                len(fields), '' if len(fields) == 1 else 's', self.form.width,
                CALLED.get(self.form.sep, repr(self.form.sep)))
            if fields[0].startswith(('#', '%')):
                words += '; comments="%s" passes over lines that begin so' % fields[0][0]
                parameters = ('comments',)
        return about(ReadError(self.file, number, words, line_at(self.original, number)),
                     *parameters)

    def odd_line(self, why: object = 'it has lines of several lengths') -> ReadError:
        """The error of the first line that has more or fewer fields than the first one."""
        return next((self._fault_of(*row, '') for row in self.rows()
                     if len(row[1]) != self.form.width),
                    ReadError(self.file, None, 'no list that pandas reads (%s)' % why))

    def check_widths(self) -> None:
        """ReadError where a line has more or fewer fields than the first one."""
        sep = self.form.sep
        are_even = (all(len(fields) == self.form.width for _, fields in self.rows())
                    if sep is not None and b'"' in self.body
                    else _are_even(self.body, self.form.width, sep))
        if not are_even:
            raise self.odd_line()


# -- comments

def blank_comments(text: bytes, comments: Comments) -> Tuple[bytes, LeftOut]:
    """A list with blanks in place of its comments, byte by byte, so that lines and places stay, and
    how many there were. TypeError and ValueError for what says nothing of comments."""
    if comments is True:
        end = _end_of_comments(text)
        head, count = re.subn(rb'[#%][^\n]*', _blanks_for, text[:end])
        return (head + text[end:] if count else text), LeftOut(count)
    marks = ([] if comments is None or comments is False else [comments]
             if isinstance(comments, str) else list(comments))
    if not all(isinstance(mark, str) for mark in marks):
        raise about(TypeError(
            'comments is a text such as "#", several of them, or None for no comments; not %r'
            % (comments,)), 'comments')
    if any(not mark or '\n' in mark or '"' in mark for mark in marks):
        raise about(ValueError('what begins a comment is a text without quotes and ends of lines, '
                               'not %r' % (comments,)), 'comments')
    starts = [mark.encode() for mark in marks]
    if not any(start in text for start in starts):
        return text, LeftOut()
    counts = [0, 0]

    def replace(found: Match[bytes]) -> bytes:
        if found.group(1) is None:                 # a quoted field
            return found.group()
        counts[text[text.rfind(b'\n', 0, found.start()) + 1:found.start()].strip() != b''] += 1
        return _blanks_for(found)
    plain = re.sub(QUOTED + rb'|((?:%s)[^\n]*)' % b'|'.join(map(re.escape, starts)), replace, text)
    return plain, LeftOut(*counts)


def _end_of_comments(text: bytes) -> int:
    """Where the first row begins, behind blank lines and lines that begin with # or %."""
    found = ABOVE.match(text)
    return found.end() if found else 0


def _blanks_for(found: Match[bytes]) -> bytes:
    return b' ' * len(found.group())


def _ask_comment(file: str, number: int, line: str) -> ReadError:
    """The error of a line that begins as comments do, and is written as the rows are."""
    return about(ReadError(file, number,
                           'this line may be a comment or a row: comments="%s" passes over such '
                           'lines, comments=None reads them' % line.lstrip()[0], line), 'comments')


# -- lines, split into fields

def as_text(file: str, text: bytes) -> bytes:
    """A text whose lines end in LF. ReadError where it isn't UTF-8, or has a byte 0, at which
    pandas would cut a name."""
    if b'\r' in text:                              # by itself it ends the lines of old Macs
        text = re.sub(rb'\r(?!\n)', b'\n', text)
    zero = text.find(b'\0')
    if zero >= 0:
        raise ReadError(file, text.count(b'\n', 0, zero) + 1, 'a byte 0, so this is no text')
    try:
        if not text.isascii():
            text.decode('utf-8')
    except UnicodeDecodeError as fault:
        raise ReadError(file, text.count(b'\n', 0, fault.start) + 1,
                        'no UTF-8 (byte %02x): convert it, as iconv -f latin1 -t utf-8 does'
                        % text[fault.start]) from None
    return text


def rows_of(file: str, text: bytes, sep: Optional[str],
            first: int = 1) -> Iterator[Tuple[int, List[str]]]:
    """Each line that has fields, with its number; a quoted field may have ends of lines."""
    lines = io.StringIO(text.decode('utf-8', 'replace'), newline='\n')
    if sep is None:
        for number, line in enumerate(lines, first):
            fields = re.findall('[^ \t\r\n]+', line)
            if fields:
                yield number, fields
        return
    reader = csv.reader(lines, delimiter=sep, skipinitialspace=True)
    number = first
    try:
        for fields in reader:
            if len(fields) > 1 or (fields and fields[0].strip(BLANKS)):
                yield number, [field.rstrip(BLANKS) for field in fields]
            number = first + reader.line_num
    except csv.Error as fault:                     # a field of more than 131,072 characters
        raise ReadError(file, number, 'no list of fields (%s)' % fault,
                        line_at(text, number - first + 1)) from None


def _first_rows(file: str, text: bytes, sep: Optional[str]) -> List[Tuple[int, List[str]]]:
    """The first lines that have fields."""
    rows: List[Tuple[int, List[str]]] = []
    try:
        rows.extend(itertools.islice(rows_of(file, _head_of(text), sep), SAMPLE))
    except ReadError:                              # it comes again; a quotation may only end later
        if not rows:
            raise
    return rows


def _head_of(text: bytes) -> bytes:
    """The first whole lines of a long text."""
    return text if len(text) <= LONG else text[:text.rfind(b'\n', 0, LONG) + 1 or LONG]


def _are_even(body: bytes, width: int, sep: Optional[str]) -> bool:
    """Whether each line that isn't blank has so many fields, none of which is quoted."""
    start = 0
    while start < len(body):
        end = body.find(b'\n', start + PIECE) + 1 or len(body)
        piece = body[start:end]
        marks = numpy.frombuffer(piece, numpy.uint8)
        parts = marks > 32 if sep is None else marks == ord(sep)
        if sep is None:                            # the first byte of each field
            parts[1:] &= marks[:-1] <= 32
        ends = numpy.flatnonzero(marks == 10) + 1
        starts = numpy.append(0, ends[:-1] if len(ends) and ends[-1] == len(piece) else ends)
        counts = numpy.add.reduceat(parts, starts, dtype=numpy.int64)
        for odd in numpy.flatnonzero(counts != width - (sep is not None)).tolist():
            if piece[starts[odd]:(piece.find(b'\n', starts[odd]) + 1 or len(piece))].strip():
                return False
        start = end
    return True


# -- how a list is written

def lay_out(file: str, text: bytes, layout: Layout) -> Table:
    """How a list is written, by what the caller says and by its first lines. ReadError where that
    can mean two things."""
    layout.check()
    text = as_text(file, text)
    plain, left_out = blank_comments(text, layout.comments)
    excel = FOR_EXCEL.match(plain)
    if excel is not None:                          # a first line that says what separates fields
        plain = b' ' * excel.end() + plain[excel.end():]
        layout = layout._replace(sep=layout.sep or excel.group(1).decode())
    sep = _choose_separator(file, plain, layout.sep)
    rows = _first_rows(file, plain, sep)
    above = _header_above(file, text, rows, sep, layout) if layout.comments is True else None
    if not rows:
        return Table(file, text, b'', 1, Form(sep, 2), left_out=left_out)
    number, first = rows[0] if above is None else above
    below = [fields for _, fields in (rows[1:] if above is None else rows)]

    def ask(words: str, kind: type = ReadError) -> ReadError:
        error: ReadError = kind(file, number, words, ', '.join(first[:FEW]) + (
            ', ..' if len(first) > FEW else ''))
        return error
    header = above is not None or _choose_header(file, first, below, layout, ask)
    ends, value = choose_columns(first, header, layout, ask)
    # a quoted header may have several lines
    at = (rows[1][0] if len(rows) > 1 else 0) if header and above is None else rows[0][0]
    body = plain[start_of_line(plain, at):] if at else b''
    return Table(file, text, body, at, Form(sep, len(first), ends, value),
                 '%s: %s' % (file, describe_columns(first, header, (*ends, value))),
                 left_out._replace(comments=left_out.comments - (above is not None)),
                 _ask_direction(first, below) if header else '')


def _choose_separator(file: str, text: bytes, given: Optional[str]) -> Optional[str]:
    """What separates the fields: as the caller says, else a comma in a `.csv`, a tab in a `.tsv`,
    and blanks (None) elsewhere. ReadError where the first line looks otherwise."""
    if given is not None:
        if not given.strip(' '):
            return None
        if len(given) != 1 or not given.isascii() or given in '"\n\r':
            raise about(ValueError('a separator is one ASCII character, or blanks, not %r'
                                   % (given,)), 'sep')
        return given
    name = file.lower()
    for ending in ENDINGS:
        name = name[:-len(ending)] if name.endswith(ending) else name
    sep = SEPARATORS.get(name[-4:])
    lines = enumerate(io.BytesIO(_head_of(text)), 1)
    number, first = next(((number, line) for number, line in lines if line.strip()), (1, b''))
    line = first.decode('utf-8', 'replace').strip(' \r\n')
    line = re.sub('"[^"]*"', '', line)
    for other in ',;|\t':
        often = line.count(other)
        if other != sep and often and (
            other == '\t' and ' ' in line.strip() if sep is None and other == '\t'
            else sep is None or often >= line.count(sep)):
            said = '%s may part the fields, or %s: sep=%r or sep=%r says it' % (
                CALLED[other], CALLED[sep], other, sep or ' ')
            raise about(ReadError(file, number, said, line_at(text, number)), 'sep')
    return sep


def _header_above(file: str, text: bytes, rows: Sequence[Tuple[int, List[str]]],
                  sep: Optional[str], layout: Layout) -> Optional[Tuple[int, List[str]]]:
    """The header where it begins with # or %, as `#id,from,to`: the comment above the first row,
    with a usual pair and as many fields. ReadError for a comment that may as well be an edge: it is
    written as the rows are, without a blank behind its mark."""
    lines = list(enumerate(text[:_end_of_comments(text)].decode('utf-8').split('\n'), 1))
    lines = [(number, line.strip()) for number, line in lines if line.strip()]
    for number, line in lines:
        marked, fields = ([fields for _, fields in rows_of(file, part.encode(), sep)] or [[]]
                          for part in (line, line.lstrip('#%')))
        width = len(rows[0][1]) if rows else len(marked[0])
        is_attached = ATTACHED.match(line) is not None
        may_be_header = layout.header is not False and (sep is not None or is_attached)
        if (may_be_header and number == lines[-1][0] and len(fields[0]) == width
            and find_pairs(fields[0]) and not (rows and find_pairs(rows[0][1]))):
            return number, fields[0]
        if is_attached and len(marked[0]) == width > 1:
            raise _ask_comment(file, number, line)
    return None


def find_pairs(fields: Sequence[str]) -> List[Tuple[int, int]]:
    """The places of the usual pairs of words among fields."""
    words = [field.strip().lower() for field in fields]
    return [(words.index(one), words.index(other)) for one, other in PAIRS
            if words.count(one) == words.count(other) == 1]


Ask = Callable[..., ReadError]


def _choose_header(file: str, first: List[str], below: List[List[str]], layout: Layout,
                   ask: Ask) -> bool:
    """Whether the first line names the columns. HeaderUnclear where it may as well be an edge."""
    named = [column for column in layout.columns or () if isinstance(column, str)]
    if named and layout.header is False:
        raise about(ValueError('columns by name want a header: header=True, or columns by number, '
                               'from 0'), 'header', 'columns')
    if layout.header is not None or named:
        return layout.header is not False
    columns = list(zip(*(fields for fields in below if len(fields) == len(first))))
    is_headed = any(_is_numeric(column) and not is_number(field) and not is_missing(field)
                    for field, column in zip(first, columns))
    has_numbers = any(map(is_number, first))
    pairs = find_pairs(first)
    is_usual = bool(pairs) and {first[at] for at in pairs[0]}.isdisjoint(itertools.chain(*below))
    if len(first) < 2 or (has_numbers and not is_headed):
        return False
    if not has_numbers and (is_headed or is_usual):
        return True
    given = ''.join(', %s=%s' % (name, getattr(value, '__name__', repr(value)))
                    for name, value in layout._asdict().items()
                    if name != 'header' and value != getattr(Layout(), name))
    call = 's.read_graph(%s%s, header=%%s)' % (
        'file' if file == 'the text' else repr(file), given)
    raise ask('the first line may name the columns or be an edge: %s takes it for names, %s for an '
              'edge' % (call % True, call % False), HeaderUnclear)


def _is_numeric(fields: Sequence[str]) -> bool:
    """Whether a column has a number, and only missing ones beside."""
    numbers = sum(map(is_number, fields))
    return numbers > 0 and numbers == sum(not is_missing(field) for field in fields)


def choose_columns(first: List[str], header: bool, layout: Layout,
                   ask: Ask) -> Tuple[Tuple[int, int], Optional[int]]:
    """The places of the two names, and of the value or None: those that the caller names, or a
    usual pair of the header, or the only ones there are. What `ask` makes of words where others may
    be meant."""
    if layout.columns is not None:
        if len(layout.columns) not in (2, 3):
            raise about(ValueError('columns are two, of the names, or three, with that of the '
                                   'value'), 'columns')
        source, target, *rest = [_find_column(first, column, ask) for column in layout.columns]
        return (source, target), rest[0] if rest and layout.values else None
    words = [field.strip().lower() for field in first] if header else [''] * len(first)
    pairs, width = find_pairs(words), len(first)
    if width < 2:
        raise about(ask('an edge has two names, and this line one field: sep= says what separates '
                        'fields'), 'sep')
    if not (len(pairs) == 1 or (not pairs and width == 2 and words[1] not in WEIGHTS)
            or (not pairs and width == 3 and (not header or words[2] in WEIGHTS))):
        raise _ask_columns(first, header, 'which have the names, and which the value', ask)
    ends = pairs[0] if pairs else (0, 1)
    others = [at for at in range(width) if at not in ends] if layout.values else []
    others = others if len(others) < 2 else [at for at in others if words[at] in WEIGHTS] or others
    if len(others) > 1:
        raise about(_ask_columns(first, header, 'which has the value, or values=False', ask),
                    'columns', 'values')
    return ends, others[0] if others else None


def _ask_columns(first: List[str], header: bool, what: str, ask: Ask) -> ReadError:
    """The error of columns of which several may be meant, with examples of what says it."""
    names: Sequence[Any] = first if header and len(set(first)) == len(first) else range(len(first))
    pairs = find_pairs(first) if header else []
    ends = [names[at] for at in (pairs[0] if pairs else (0, 1))]
    value = [name for name in names if name not in ends][-1:]
    calls = dict.fromkeys('columns=(%s)' % ', '.join(map(repr, some))
                          for some in (ends, ends + value))
    return about(ask('%d columns: say %s, as %s does' % (len(first), what, ' or '.join(calls))),
                 'columns')


def _find_column(first: List[str], column: Union[int, str], ask: Ask) -> int:
    """The place of a column that the caller names."""
    if isinstance(column, str):
        if column not in first:
            raise about(ask('no column %r: there are %s' % (
                column, ', '.join(map(repr, first[:FEW])) + (
                    ', .. (%d)' % len(first) if len(first) > FEW else ''))), 'columns')
        if first.count(column) > 1:
            raise about(ask('%d columns are called %r: columns by number, from 0, tell them apart'
                            % (first.count(column), column)), 'columns')
        return first.index(column)
    if not 0 <= column < len(first):
        raise about(ask('no column %d: there are 0 to %d' % (column, len(first) - 1)), 'columns')
    return int(column)


def describe_columns(first: List[str], header: bool, chosen: Sequence[Optional[int]]) -> str:
    """What is taken, in words."""
    source, target, *value = ['column %d' % at if not header else first[at] if first[at].replace(
        ' ', '').isalnum() or first[at].isidentifier() else repr(first[at])
        for at in chosen if at is not None]
    return 'header: %s; source=%s, target=%s, %s' % (
        'yes' if header else 'no', source, target, 'values=' + value[0] if value else 'no values')


def _ask_direction(first: List[str], below: List[List[str]]) -> str:
    """What is asked of a list whose column `Type` has the word "Undirected", as Gephi writes it;
    else nothing."""
    at = next((at for at, field in enumerate(first) if field.strip().lower() == 'type'), None)
    if at is None or all(fields[at:at + 1] not in (['Undirected'], ['undirected'])
                         for fields in below):
        return ''
    return ('the column %r has edges that are "Undirected": directed=False takes each one '
            'both ways, directed=True as it is written' % first[at])


# -- the edges

def read_columns(body: bytes, sep: Optional[str], width: int,
                 kinds: Optional[Mapping[int, type]] = None,
                 wanted: Sequence[int] = ()) -> Dict[int, Any]:
    """Columns of lines by their numbers, all or some, as pandas has them: numbers where each field
    is one, but for `kinds`. ValueError of a line with more fields, where all are wanted."""
    # pandas would cut all lines to the length of a first one that is longer
    first = (sep or ' ').join('0' * width).encode()
    frame = import_extra('pandas', 'a list of numbers or edges').read_csv(
        io.BytesIO(b'%s\n%s' % (first, body)), sep=sep or r'\s+', header=None, names=range(width),
        index_col=False, dtype=kinds, na_filter=False, low_memory=False, engine='c',
        usecols=wanted if 0 < len(wanted) < width else None, skipinitialspace=sep is not None,
        quoting=csv.QUOTE_NONE if sep is None else csv.QUOTE_MINIMAL)
    return {at: frame[at].to_numpy()[1:] for at in wanted or range(width)}


def read_edges(table: Table, layout: Layout) -> Edges:
    """The edges of a list whose columns are known."""
    return _Reading(table, layout).edges()


class _Reading:
    """A list while it is read: its columns, and which of its rows are kept. None: all, until
    `missing="skip"` leaves some out."""

    def __init__(self, table: Table, layout: Layout) -> None:
        self._table, self._layout = table, layout
        self._kept: Any = None

    def edges(self) -> Edges:
        """The edges. ReadError names the line of what is wrong."""
        table, layout = self._table, self._layout
        if not table.body or table.body.isspace():
            none = numpy.zeros(0, numpy.int64)
            return Edges(none, none, None if table.form.value is None else none, self._fault,
                         table.summary, table.left_out, table.question)
        columns = self._parse({} if layout.nodetype is not str
                              else dict.fromkeys(table.form.ends, object))
        if len(table.form.columns) < table.form.width:
            table.check_widths()
        ends = [columns[at] for at in table.form.ends]
        are_whole = all(end.dtype.kind == 'i' for end in ends) and _are_as_written(table.body)
        coded: Any = None
        if not are_whole:
            if any(end.dtype.kind != 'O' for end in ends):
                ends = list(map(self._parse(dict.fromkeys(table.form.ends, object),
                                            sorted(set(table.form.ends))).get, table.form.ends))
            coded = code_names(ends[0], ends[1], True)
        fields = self._fields(columns)
        left_out = self._leave_out(coded, fields)
        values, done = self._values(columns, fields)
        if coded is not None:
            ends = list(self._names(coded))
        elif self._kept is not None:
            ends = [end[self._kept] for end in ends]
        return Edges(ends[0], ends[1], values, self._fault,
                     '; '.join(filter(None, (table.summary, done))), left_out, table.question)

    def _parse(self, kinds: Mapping[int, type], wanted: Sequence[int] = ()) -> Any:
        """Columns by their numbers, as pandas has them."""
        form = self._table.form
        try:
            return read_columns(self._table.body, form.sep, form.width, kinds,
                                wanted or form.columns)
        except (ValueError, OverflowError) as fault:
            raise self._table.odd_line(fault) from None

    def _fault(self, at: int, words: str) -> ReadError:
        """The error of an edge, by its place among those that are kept."""
        return self._table.fault(at if self._kept is None else int(self._kept[at]), words)

    def _fields(self, columns: Mapping[int, Array]) -> Any:
        """The values as they are written, where they aren't numbers that pandas reads exactly."""
        at, scale = self._table.form.value, self._layout.scale
        if at is None or (self._layout.unit is None and columns[at].dtype.kind in 'iuf'
                          and scaled_array(columns[at], Rounding(scale)) is not None):
            return None
        return self._parse({at: object}, [at])[at]

    def _leave_out(self, coded: Optional[Tuple[Names, Names]], fields: Optional[Array]) -> LeftOut:
        """Leaves out what isn't complete, and says how many rows that are. ReadError where it is to
        be refused."""
        missing, left_out = self._layout.missing, self._table.left_out
        if missing is None:
            return left_out
        nameless = _find_nameless(*coded) if coded is not None else numpy.zeros(1, bool)
        valueless = (numpy.zeros(1, bool) if fields is None
                     else numpy.fromiter(map(is_missing, fields), bool, len(fields)) & ~nameless)
        gone = nameless | valueless
        if not gone.any():
            return left_out
        self._table.check_widths()
        if missing != SKIP and nameless.any():
            at = int(nameless.argmax())
            name = next(filter(is_missing, (end.names[end.codes[at]] for end in coded or ())))
            skip = SKIPS % 'line'
            raise about(self._fault(
                at, 'a name is missing (%r): %s, missing=None takes it for a name' % (name, skip)
                if name else 'a name is empty: ' + skip), 'missing')
        if missing == SKIP:
            self._kept = numpy.flatnonzero(~gone)
            return left_out._replace(names=int(nameless.sum()), values=int(valueless.sum()))
        return left_out

    def _values(self, columns: Mapping[int, Array], fields: Optional[Array]) -> Tuple[Any, str]:
        """Values as whole numbers, and what was done to them."""
        at, clock, rounding = self._table.form.value, self._layout.clock(), Rounding(
            self._layout.scale)
        if at is None:
            return None, ''
        column = columns[at] if fields is None else fields
        column = column if self._kept is None else column[self._kept]
        if fields is None:
            return scaled_array(column, rounding), str(rounding)

        def fault(at: int, words: str) -> ReadError:
            value = column[at]
            if self._layout.missing is not None and is_missing(value):
                return about(self._fault(at, VALUELESS % value), 'missing', 'values')
            if clock is None and is_time(value):
                words = 'expected a number as the value, got %r: %s' % (value, TAKES)
                return about(self._fault(at, words), 'unit')
            return self._fault(at, words)
        if clock is not None:
            return clock.read(column.tolist(), fault), str(clock)
        return whole_values(column.tolist(), fault, rounding), str(rounding)

    def _names(self, coded: Tuple[Names, Names]) -> Tuple[Any, Any]:
        """The names of both columns, as whole numbers where all are, unless text is wanted."""
        codes, names = [end.codes for end in coded], coded[0].names
        if self._kept is not None:
            both = numpy.stack([end[self._kept] for end in codes], 1).reshape(-1)
            both, seen = import_extra('pandas', 'a list of edges').factorize(both)
            codes, names = [both[0::2], both[1::2]], [names[at] for at in seen.tolist()]
        if self._table.form.sep is not None and any(name[-1:] in BLANKS for name in names):
            codes, names = self._strip(codes, names)
        self._check_names(codes, names)
        return convert_names(Names(codes[0], names), Names(codes[1], names), self._layout.nodetype,
                             self._fault)

    def _strip(self, codes: List[Array], names: List[str]) -> Tuple[List[Any], List[str]]:
        """Names without blanks at their ends, unless quoted ones have some."""
        sep = re.escape((self._table.form.sep or '').encode())
        if b'"' in self._table.body and re.search(rb'[ \t]" *(?:%s|\n|\Z)' % sep, self._table.body):
            return codes, names
        found: Dict[str, int] = {}
        places = numpy.array([found.setdefault(name.rstrip(BLANKS), len(found)) for name in names])
        return [places[end] for end in codes], list(found)

    def _check_names(self, codes: List[Array], names: List[str]) -> None:
        """ReadError for names that no list has, or of which two may be one."""
        ended = next((at for at, name in enumerate(names) if '\n' in name), None)
        if ended is not None:
            raise self._fault(_first_row(codes, ended), 'a name has an end of line in it')
        if self._layout.comments is True and self._table.form.sep is None:
            for at in [at for at, name in enumerate(names) if not name.strip('#%')]:
                for row in numpy.flatnonzero(codes[0] == at)[:1].tolist():
                    error = self._fault(row, '')
                    raise _ask_comment(error.file, error.at or 0, error.line)
        first = [names[int(end[0])] for end in codes] if names else []
        if self._layout.nodetype is None and any(name.endswith('.0') for name in first):
            used = [[names[at] for at in numpy.unique(end).tolist()] for end in codes]
            if any(all(map(WHOLE.fullmatch, one)) and all(
                name.endswith('.0') and FLOAT.fullmatch(name) for name in other)
                   for one, other in (used, used[::-1])):
                raise about(self._fault(0, ASK_FLOATS), 'nodetype')


def _first_row(codes: Sequence[Array], at: int) -> int:
    """The first edge that has a name, by the name's number."""
    return int(((codes[0] == at) | (codes[1] == at)).argmax())


def convert_names(sources: Names, targets: Names, wanted: Optional[type],
                  fault: Callable[[int, str], ReadError]) -> Tuple[Any, Any]:
    """Two columns of names by one list, as whole numbers where all are, unless text is wanted.
    ReadError where one isn't, and numbers are wanted."""
    names, form = sources.names, WHOLE if wanted is None else FLOAT
    odd = next((at for at, name in enumerate(names) if not form.fullmatch(name)), None)
    if odd is not None and wanted is int:
        raise about(fault(_first_row((sources.codes, targets.codes), odd),
                          'a name is no whole number, and nodetype=int was asked for'), 'nodetype')
    if odd is not None or wanted is str or not names:
        return sources, targets
    numbers = [int(name.partition('.')[0]) for name in names]
    try:
        found = numpy.array(numbers, numpy.int64)
    except OverflowError:                          # beyond 64 bits, as numbers of Python
        first, second = ([numbers[at] for at in end.codes.tolist()] for end in (sources, targets))
        return first, second
    return found[sources.codes], found[targets.codes]


def _find_nameless(sources: Names, targets: Names) -> Any:
    """Whether a name is missing, of each edge: where nothing or what pandas takes for NaN stands in
    its place, or anything like these among numbers alone."""
    names = sources.names
    absent = [at for at, name in enumerate(names) if len(name) <= LONGEST and is_missing(name)]
    if not absent:
        return numpy.zeros(len(sources), bool)
    others = set(range(len(names))).difference(absent)
    if not others or not all(is_number(names[at]) for at in others):
        absent = [at for at in absent if names[at].strip() in NO_NAMES]
    return numpy.isin(sources.codes, absent) | numpy.isin(targets.codes, absent)


def _are_as_written(body: bytes) -> bool:
    """Whether no number begins with 0 or +, but 0 itself: names are numbers where they are written
    as numbers are."""
    for start in range(0, len(body), PIECE):       # each with the bytes before and behind it
        marks = numpy.frombuffer(b'\n' * (start == 0) + body[max(0, start - 1):start + PIECE + 1]
                                 + b'\n' * (start + PIECE >= len(body)), numpy.uint8)
        before, at, behind = marks[:-2], marks[1:-1], marks[2:]
        is_digit = marks - ZERO < 10               # below 0 bytes begin at 255 again
        goes_on = is_digit[2:] | ((before == MINUS) & (behind != POINT))
        if ((at == ZERO) & goes_on & ~is_digit[:-2] & (before != POINT)).any():
            return False
        if ((at == PLUS) & (before | 32 != EXPONENT)).any():
            return False
    return True
