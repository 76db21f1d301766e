"""Matrix Market files of every field that can be had as whole numbers.

The server reads `coordinate`, `integer` or `pattern`, `general` or `symmetric`. Here the others are
read: `real` (and `double`) with whole values, `unsigned-integer`, `array`, and `skew-symmetric`.
What breaks a rule of matrix text is refused by that rule as the server would (TextRefused, which is
a ValueError), with the line of the file.
"""
from __future__ import annotations

import functools
import io
import itertools
import re
from typing import (Any, Callable, Collection, Dict, Iterator, List, Mapping, NamedTuple, Optional,
                    Tuple)

import numpy

from ..errors import Refused, about, refusal
from ..integers import LEAST
from ..limits import MOST_SIDE
from ..metadata import BY_POSITIONS, Metadata
from ..scale import as_unit
from . import edge_lists, files
from .arrays import DUP_OP
from .matrix_text import Triples, line_at, lowered
from .values import BEYOND, Rounding, scaled_array, whole_values

FIELDS = {'integer': 'integer', 'unsigned-integer': 'integer', 'pattern': 'pattern', 'real': 'real',
          'double': 'real', 'complex': 'complex'}
SYMMETRIES = ('general', 'symmetric', 'skew-symmetric')
# what separates fields beside blanks and tabs, and what no number has, as pandas is to read it
NEITHER = bytes([0, *range(128, 256)])
PLAIN = bytes.maketrans(b'\r\v\f' + NEITHER, b'   ' + b'x' * len(NEITHER))
COMMENT = re.compile(rb'(?m)^[ \t]*%[^\n]*')
NO_MARKET = (
    'this is no Matrix Market file, which begins with %%MatrixMarket: read_graph reads other '
    'formats, too')
COMMAND = 'mmread'                                 # what refusals of a file name as their command


class Values(NamedTuple):
    """What is read of values: nothing, so that each entry is 1; or whole numbers, multiplied by a
    scale and rounded where there is one, which `rounding` counts."""
    read: bool = True
    scale: Optional[float] = None
    rounding: Optional[Rounding] = None


class Line(NamedTuple):
    """A line of a file, and its number from 1."""
    number: int
    text: bytes

    @property
    def fields(self) -> List[bytes]:
        """What stands between blanks; nothing of a comment."""
        fields = self.text.split()
        return [] if fields and fields[0].startswith(b'%') else fields

    def refused(self, rule: str, detail: str = '') -> Refused:
        """The refusal of this line."""
        return refusal(rule, [self.number], COMMAND, line_at(self.text, 1), detail)

    def number_of(self, field: bytes, rule: str) -> int:
        """A field that is a whole number without a sign, or with +; refused by a rule otherwise."""
        if not field.lstrip(b'+').isdigit() or field.count(b'+') > 1:
            raise self.refused(rule)
        return int(field)


class Kind(NamedTuple):
    """The words of line 1 behind `matrix`, and what is read of values."""
    array: bool
    field: str
    symmetry: str
    values: Values = Values()

    @property
    def width(self) -> int:
        """The fields of an entry's line."""
        return {'pattern': 0, 'complex': 2}.get(self.field, 1) + (0 if self.array else 2)

    @property
    def wants_digits(self) -> bool:
        """Whether values are written as whole numbers are."""
        return self.field == 'integer' and self.values.scale is None

    @property
    def is_bare(self) -> bool:
        """Whether each entry is 1."""
        return self.field == 'pattern' or not self.values.read

    @property
    def notes(self) -> Metadata:
        """What is known of the matrix."""
        scale = None if self.is_bare else self.values.scale
        return BY_POSITIONS._replace(directed=False if self.symmetry == 'symmetric' else None,
                                     weighted=not self.is_bare,
                                     source=('' if scale is None
                                             else str(self.values.rounding or '')),
                                     unit=1 if scale is None else as_unit(scale))


def is_plain(text: bytes) -> bool:
    """Whether the server is to read this text as it is: where it takes line 1, and where line 1 is
    nothing that is read here."""
    words = text.split(b'\n', 1)[0].decode('utf-8', 'replace').split()
    if len(words) != 5 or words[0] != '%%MatrixMarket' or words[1].lower() != 'matrix':
        return True
    return (words[2].lower() == 'coordinate' and words[3].lower() in ('integer', 'pattern')
            and words[4].lower() in SYMMETRIES[:2])


def kind_of(text: bytes, values: Values = Values()) -> Kind:
    """What line 1 says. M1 or M2 where it is of no kind that can be had as whole numbers."""
    line = Line(1, text.split(b'\n', 1)[0])
    words = line.text.decode('utf-8', 'replace').split()
    if words[:1] != ['%%MatrixMarket']:
        raise line.refused('M1').of_file(said=NO_MARKET)
    if len(words) != 5:
        raise line.refused('M1')
    form, field, symmetry = (word.lower() for word in words[2:])
    if (words[1].lower() != 'matrix' or form not in ('coordinate', 'array')
        or symmetry not in (*SYMMETRIES, 'hermitian')):
        raise line.refused('M2')
    if field not in FIELDS or (form, field) == ('array', 'pattern'):
        raise line.refused('M2',
                           'values are whole numbers: real, integer or pattern (of coordinate)')
    if values.read and (symmetry == 'hermitian' or field == 'complex'):
        raise about(line.refused('M2', 'values are whole numbers, and these are complex: '
                                 'values=False reads none'), 'values')
    if (field, symmetry) == ('pattern', 'skew-symmetric'):
        raise line.refused('M2', 'a pattern has no signs')
    if not values.read and symmetry != 'general':
        symmetry = 'symmetric'                     # the places alone
    return Kind(form == 'array', FIELDS[field], symmetry, values)


class Reader:
    """A file that is read by pieces. `kind`, `nrows`, `ncols` and `count`, the entries, are what
    its first lines say. It may have more entries than one session takes."""

    def __init__(self, file: Any, values: Values = Values()) -> None:
        self._file, self._number = file, 0
        self.kind = kind_of(files.without_mark(self._next().text), values)
        line = self._next()
        while line.text and not line.fields:
            line = self._next()
        if len(line.fields) != (2 if self.kind.array else 3):
            raise (line if line.text else Line(self._number + 1, b'')).refused('M3')
        self.nrows, self.ncols, *rest = (line.number_of(field, 'M3') for field in line.fields)
        self.count = rest[0] if rest else {
            'general': self.nrows * self.ncols, 'symmetric': self.nrows * (self.nrows + 1) // 2,
            'skew-symmetric': self.nrows * (self.nrows - 1) // 2}[self.kind.symmetry]
        self._sizes = line
        if max(self.nrows, self.ncols) > MOST_SIDE:
            raise line.refused('M4')
        if self.kind.symmetry != 'general' and self.nrows != self.ncols:
            raise line.refused('M12')
        if self.kind.array and self.count > MOST_SIDE:
            raise line.refused('M4', '%d values' % self.count)

    def _next(self) -> Line:
        text = self._file.readline()
        if not isinstance(text, bytes):
            raise TypeError('open the file in binary: open(path, "rb")')
        self._number += 1 if text else 0
        return Line(self._number, text)

    def check_count(self) -> None:
        """M4 where one matrix of a session can't have the entries."""
        if self.count > MOST_SIDE:
            raise self._sizes.refused('M4')

    def lines(self) -> Iterator[Line]:
        """The lines of the entries, one by one."""
        line = self._next()
        while line.text:
            if line.fields:
                yield line
            line = self._next()

    def pieces(self, size: int = -1,
               progress: Callable[[int], None] = lambda done: None) -> Iterator[Triples]:
        """The entries of each piece of about so many bytes, as they stand there; of an `array` all
        at once. Those of the upper triangle are put into the lower one, unless the file is
        `general`. `progress` is told how many bytes were read."""
        had, done, size = 0, 0, -1 if self.kind.array else size
        for piece in iter(functools.partial(self._file.read, size), b''):
            piece += self._file.readline()
            triples = read_lines(self.kind, piece, self.nrows, self.ncols)
            if triples is None or len(triples.values) > self.count - had:
                raise self._find_fault(piece, self.count - had)
            had, done = had + len(triples.rows), done + len(piece)
            self._number += piece.count(b'\n') + (not piece.endswith(b'\n'))
            yield lowered(triples, self.kind.symmetry)
            progress(done)
        if had < self.count:
            raise Line(self._number + 1, b'').refused('M9')

    def _find_fault(self, piece: bytes, left: int) -> Refused:
        """The refusal of the first line of a piece that breaks a rule, found by halves; of the
        first line that is too many, where all before it are right."""
        lines = [line for line in itertools.starmap(Line, enumerate(piece.split(b'\n'),
                                                                    self._number + 1))
                 if line.fields]

        def are_right(first: int, end: int) -> bool:
            part = b'\n'.join(line.text for line in lines[first:end])
            return read_lines(self.kind, part, self.nrows, self.ncols) is not None
        first, end = 0, min(left, len(lines))
        if are_right(first, end):
            return lines[left].refused('M10')
        while end - first > 1:
            middle = (first + end) // 2
            first, end = (middle, end) if are_right(first, middle) else (first, middle)
        return self._refusal_of(lines[first])

    def _refusal_of(self, line: Line) -> Refused:
        """The refusal of a line that can't be read, by the first rule that it breaks."""
        kind, fields = self.kind, line.fields
        if len(fields) != kind.width:
            return line.refused('M5')
        try:
            places = [line.number_of(field, 'M5') for field in fields[:0 if kind.array else 2]]
            if not kind.is_bare:
                word = fields[len(places)].decode('utf-8', 'replace')
                if not word.isascii() or (kind.wants_digits
                                          and re.fullmatch(r'[+-]?\d+', word) is None):
                    return line.refused('M5')
                whole_values([word], lambda _, words: line.refused(
                    'M7' if BEYOND in words else 'M5').of_file(said=words),
                             Rounding(kind.values.scale))
        except Refused as fault:
            return fault
        if any(not 1 <= place <= size for place, size in zip(places, (self.nrows, self.ncols))):
            return line.refused('M6')
        if kind.symmetry == 'skew-symmetric' and places[:1] == places[1:]:
            return line.refused('M6', 'the diagonal of a skew-symmetric matrix is empty')
        return line.refused('M7')                  # the least number of a skew-symmetric one


def parse(text: bytes, values: Values = Values()) -> Tuple[Triples, str]:
    """The entries of a file as they stand there, and its symmetry. Unless that is `general`, those
    of the other triangle are put into the lower one (negated, if it is `skew-symmetric`). Then
    `mirrored` gives the whole."""
    reader = Reader(io.BytesIO(text), values)
    reader.check_count()
    none = numpy.zeros(0, numpy.int64)
    triples = Triples(none, none, none, reader.nrows, reader.ncols)
    for piece in reader.pieces():                  # one, unless there is no entry
        triples = piece
    return triples, reader.kind.symmetry


def find_repeated(file: Any, wanted: Optional[Collection[Tuple[int,
        int]]] = None) -> Optional[Refused]:
    """The refusal (M8) of the first line whose position was given before; where some positions are
    `wanted`, of these alone."""
    reader = Reader(file, Values(read=False))
    seen: Dict[Tuple[int, int], int] = {}
    for line in reader.lines():
        at = line.number_of(line.fields[0], 'M5') - 1, line.number_of(line.fields[1], 'M5') - 1
        if wanted is None or at in wanted or at[::-1] in wanted:
            at = at if reader.kind.symmetry == 'general' else (max(at), min(at))
            if at in seen:
                return about(line.refused('M8', 'it was first given in line %d; %s'
                                          % (seen[at], DUP_OP)), 'dup_op')
            seen[at] = line.number
    return None


# -- entries

def _grid(symmetry: str, nrows: int, ncols: int) -> Tuple[Any, Any]:
    """The positions of an `array`'s values, in order: by columns, of a symmetric one the lower
    triangle."""
    if symmetry == 'general':
        at = numpy.arange(nrows * ncols)
        return at % max(nrows, 1), at // max(nrows, 1)
    columns, rows = numpy.triu_indices(nrows, 0 if symmetry == 'symmetric' else 1)
    return rows, columns


def read_lines(kind: Kind, lines: bytes, nrows: int, ncols: int) -> Optional[Triples]:
    """The entries of whole lines as they stand there, of an `array` from its first place on. None
    where a line breaks a rule."""
    body = lines.translate(PLAIN)
    body = COMMENT.sub(b'', body) if b'%' in body else body
    if not body or body.isspace():
        none = numpy.zeros(0, numpy.int64)
        return Triples(none, none, none, nrows, ncols)
    try:
        columns = edge_lists.read_columns(body, None, kind.width)
        values = _read_values(kind, body, columns)
    except (ValueError, OverflowError):            # of what pandas doesn't read, or is no number
        return None
    if kind.array:
        i, j = (end[:len(values)] for end in _grid(kind.symmetry, nrows, ncols))
    elif columns[0].dtype.kind == columns[1].dtype.kind == 'i':
        i, j = columns[0] - 1, columns[1] - 1
    else:
        return None
    is_wrong = (i < 0) | (i >= nrows) | (j < 0) | (j >= ncols)
    if kind.symmetry == 'skew-symmetric':          # the least number has no negative
        is_wrong |= (i == j) | (values[:len(i)] == LEAST)
    return None if is_wrong.any() else Triples(i, j, values, nrows, ncols)


def _read_values(kind: Kind, body: bytes, columns: Mapping[int, Any]) -> Any:
    """The values of lines as whole numbers. ValueError where one isn't."""
    at, rounding = 0 if kind.array else 2, kind.values.rounding or Rounding(kind.values.scale)
    if kind.is_bare:
        last = columns[kind.width - 1]
        if last.dtype == object and '' in last:    # which pandas has for what is missing
            raise ValueError('a line with too few fields')
        return numpy.ones(len(last), numpy.int64)
    found = scaled_array(columns[at], rounding)
    if kind.wants_digits and columns[at].dtype.kind != 'i':
        raise ValueError('values that are not whole')
    if found is None:
        fields = edge_lists.read_columns(body, None, kind.width, {at: object})[at].tolist()
        return whole_values(fields, lambda _, words: ValueError(words), rounding)
    return found
