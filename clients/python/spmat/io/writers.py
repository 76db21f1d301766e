"""What a matrix holds, written out with its names: CSV, lists of edges, parquet, tables of pandas.

Rows and columns have their names, or numbers from 0 where they have none. Values are what stored
numbers stand for, unless `raw` is set; `scale` divides these by another number. Methods of matrices
say the rest."""
from __future__ import annotations

import contextlib
import importlib.util
import io
import itertools
import os
import tempfile
from typing import (IO, TYPE_CHECKING, Any, Callable, Dict, Iterable, Iterator, List, Optional,
                    Sequence, Tuple, cast)

import numpy

from ..errors import ReadError, warn_user
from ..extras import import_extra
from ..integers import real
from ..metadata import along, is_line, vertices_of
from ..scale import is_whole, to_decimal, to_decimals, to_text
from ..types import Array, Path, Target, Vertex
from . import edge_lists, files
from .archive import can_save
from .edges import WHOLE, Layout
from .formats import describe_other, format_of, has_dictionaries
from .values import check_scale, is_missing

if TYPE_CHECKING:
    from ..matrix import Matrix

EDGE = ('source', 'target', 'weight')
NODE = ('node', 'value')
# lines that are looked at before they are written
SAMPLE = 200


def is_vector(matrix: Matrix) -> bool:
    """Whether this is a column or a row, and not a graph that was read, or of one vertex."""
    return matrix.notes.directed is None and is_line(matrix.shape, matrix.notes)


def columns_of(matrix: Matrix, scale: Optional[float], raw: bool,
             shown: Callable[[int, int], Any]) -> Tuple[List[Any], ...]:
    """Names and values, as they are shown: of a column or a row (names, values), of another
    matrix (sources, targets, values)."""
    rows, columns, values = matrix.entries(arrays=False)
    unit, vertices = _divisor(matrix, scale, raw), _vertices(matrix, scale, raw)
    if vertices is not None:
        values = list(map(vertices.__getitem__, values))
    elif scale is not None:
        values = [value / scale for value in values]
    elif unit != 1:
        values = [shown(value, unit) for value in values]
    sides = [(matrix.notes.rows, rows), (matrix.notes.columns, columns)]
    if is_vector(matrix):
        sides = [sides[along(matrix.shape, matrix.notes)]]
    return (*(list(end) if known is None else list(map(known.__getitem__, end))
              for known, end in sides), list(values))


def _divisor(matrix: Matrix, scale: Optional[float], raw: bool) -> Any:
    """What stored numbers are divided by. TypeError where callers want two things."""
    if raw and scale is not None:
        raise TypeError(
            'raw=True writes the stored whole numbers, and scale= divides them: one of both')
    if check_scale(scale) is not None:
        real(scale, 'scale=')                  # by which arrays are divided
    return scale if scale is not None else 1 if raw else matrix.notes.unit


def _vertices(matrix: Matrix, scale: Optional[float], raw: bool) -> Optional[Sequence[Any]]:
    """The names of the vertices that values are, where these are written."""
    return None if raw or scale is not None else matrix.notes.value_names


def to_csv(matrix: Matrix, target: Optional[Target], fields: Optional[Sequence[str]], sep: str, *,
           header: bool, scale: Optional[float], raw: bool) -> Optional[str]:
    """See `Matrix.to_csv`."""
    known = NODE if is_vector(matrix) else EDGE
    fields = known if fields is None else fields
    if len(fields) != len(known):
        raise ValueError('expected %d fields, such as %r, got %d'
                         % (len(known), known, len(fields)))
    lines = _lines(matrix, columns_of(matrix, scale, raw, to_text), sep, fields if header else None)
    if target is None:
        return ''.join(lines)
    with _opened(target) as file:
        file.writelines(lines)
    return None


def _lines(matrix: Matrix, columns: Sequence[List[Any]], sep: str,
           fields: Optional[Sequence[str]]) -> Iterable[str]:
    """The lines of a list, which is looked at before anything is written."""
    count = 1 if is_vector(matrix) else 2
    ends, values = columns[:count], columns[count:]
    lines = write_lines(ends, values, sep, fields)
    if count == 1:
        return lines
    warn_of_isolated(_count_isolated(matrix, *ends))
    first = list(itertools.islice(lines, SAMPLE))
    check_reading(sep, first, fields is not None, len(columns))
    warn_of_types(dict.fromkeys(itertools.chain(*ends)))
    return itertools.chain(first, lines)


def _count_isolated(matrix: Matrix, sources: Iterable[Vertex], targets: Iterable[Vertex]) -> int:
    """How many vertices have no edge, so that a list of edges doesn't name them."""
    named = set(sources), set(targets)
    if matrix.nrows == matrix.ncols and vertices_of(matrix.notes) is not None:
        return matrix.nrows - len(named[0] | named[1])
    return matrix.nrows + matrix.ncols - len(named[0]) - len(named[1])


def write_edgelist(matrix: Matrix, target: Target, sep: str, values: bool, *,
                   scale: Optional[float], raw: bool) -> None:
    """See `Matrix.write_edgelist`."""
    columns = columns_of(matrix, scale, raw, to_text)
    lines = _lines(matrix, columns if values else columns[:-1], sep, None)
    with _opened(target) as file:
        file.writelines(lines)


def to_pandas(matrix: Matrix, *, scale: Optional[float], raw: bool) -> Any:
    """See `Matrix.to_pandas`."""
    pandas = import_extra('pandas', 'to_pandas')
    if not is_vector(matrix):
        return to_pandas_edgelist(matrix, EDGE, scale=scale, raw=raw)
    names, values = columns_of(matrix, scale, raw, to_decimal)
    kind: Any = 'int64' if scale is None and (raw or is_whole(matrix.notes.unit)) else 'float64'
    if _vertices(matrix, scale, raw) is not None:
        kind = None if values else object
    if kind is None and len({type(value) for value in values}) > 1:
        kind = object
    return pandas.Series(values, index_of(names, NODE[0]), kind, NODE[1])


def index_of(names: Iterable[Vertex], title: Optional[str] = None) -> Any:
    """Names as an index of pandas, which would make floats of whole numbers beside None or
    floats."""
    pandas, several = import_extra('pandas', 'to_pandas'), list(names)
    kind = object if len({type(name) for name in several}) > 1 else None
    return pandas.Index(several, kind, name=title, tupleize_cols=False)


def to_frame(matrix: Matrix, fill: object, raw: bool) -> Any:
    """See `Matrix.to_frame`."""
    pandas = import_extra('pandas', 'to_frame')
    rows, columns, values = matrix.entries(arrays=True)
    shown = numpy.asarray(to_decimals(values, 1 if raw else matrix.unit),
                          object if _vertices(matrix, None, raw) is not None else None)
    table = numpy.full(matrix.shape, fill, numpy.result_type(shown, numpy.asarray(fill)))
    table[rows, columns] = shown
    sides = [index_of(matrix.notes.axis(axis).listed(count))
             for axis, count in enumerate(matrix.shape)]
    return pandas.DataFrame(table, *sides)


def to_pandas_edgelist(matrix: Matrix, fields: Sequence[Optional[str]], *, scale: Optional[float],
                       raw: bool) -> Any:
    """See `Matrix.to_pandas_edgelist`; `fields` are its first three arguments."""
    pandas = import_extra('pandas', 'to_pandas_edgelist')

    def take(names: Optional[Sequence[Vertex]], at: Array) -> Any:
        """The names at some places, as an array."""
        return at if names is None else index_of(names).take(at).to_numpy()
    source, target, edge_attr = fields
    rows, columns, values = matrix.entries(arrays=True)
    table: Dict[Optional[str], Any] = {source: take(matrix.notes.rows, rows),
                             target: take(matrix.notes.columns, columns)}
    if edge_attr is not None:
        unit, vertices = _divisor(matrix, scale, raw), _vertices(matrix, scale, raw)
        shown = values / scale if scale is not None else to_decimals(values, unit)
        table[edge_attr] = shown if vertices is None else take(vertices, values)
    return pandas.DataFrame(table)


def to_parquet(matrix: Matrix, path: Path, *, scale: Optional[float], raw: bool) -> None:
    """See `Matrix.to_parquet`."""
    if not any(importlib.util.find_spec(engine) for engine in ('pyarrow', 'fastparquet')):
        import_extra('pyarrow', 'to_parquet')
    table = to_pandas(matrix, scale=scale, raw=raw)
    if is_vector(matrix):
        table = table.to_frame().reset_index()
    else:
        warn_of_isolated(_count_isolated(matrix, table.iloc[:, 0], table.iloc[:, 1]))
    path = os.path.abspath(os.fspath(path))
    with tempfile.TemporaryDirectory(dir=os.path.dirname(path)) as folder:
        # as fastparquet writes to paths alone
        part = os.path.join(folder, 'part')
        table.to_parquet(part, index=False)
        os.replace(part, path)


@contextlib.contextmanager
def _opened(target: Target) -> Iterator[IO[str]]:
    """A path opened for text, or a file that is open. A path is written anew at the end alone, so
    that a failure leaves the old file."""
    if hasattr(target, 'write'):
        yield cast(IO[str], target)
        return
    with files.replacing(os.fspath(cast(Path, target))) as binary, \
            io.TextIOWrapper(binary, 'utf-8', newline='') as file:
        yield file
        file.flush()


# -- lines of lists of edges, of which reading gives the same edges again: names are quoted where
# they have to be, and refused where no list has them

MARKS = ('#', '%', '\ufeff')                       # what a line begins with that is no row
OTHERWISE = 'save() keeps such names, or set others, as G.nodes = names'


def quote(text: str, sep: str) -> str:
    """A field in quotation marks where it needs them. It does for what separates fields, for blanks
    at its ends, and where it may be taken for a comment or for a missing name."""
    needs = (sep in text or '"' in text or text[:1] in (' ', '\t', *MARKS)
             or text[-1:] in (' ', '\t') or is_missing(text) or '\n' in text or '\r' in text)
    return '"%s"' % text.replace('"', '""') if needs else text


def csv_line(cells: Iterable[str], sep: str = ',') -> str:
    """A line of CSV."""
    return sep.join(quote(cell, sep) if cell else '' for cell in cells) + '\n'


def write_lines(ends: Sequence[Sequence[Any]], values: Sequence[Sequence[Any]], sep: str,
                 fields: Optional[Sequence[str]]) -> Iterator[str]:
    """Lines of names and values whose fields are separated by `sep`, with a header where there are
    fields. ValueError, before the first line, for names that no such list has."""
    if len(sep) != 1:
        raise ValueError('a separator is one character, not %r' % (sep,))
    texts = {name: str(name) for name in dict.fromkeys(itertools.chain(*ends))}
    _check_names(texts, sep)
    written = {name: quote(text, sep) if sep != ' ' else text for name, text in texts.items()}
    columns: List[Iterable[str]] = [map(written.__getitem__, end) for end in ends]
    columns += [map(str, many) for many in values]
    return itertools.chain([] if fields is None else [csv_line(fields, sep)],
                           (sep.join(row) + '\n' for row in zip(*columns)))


def _check_names(texts: Dict[Vertex, str], sep: str) -> None:
    """ValueError for names that no list separated so has."""
    by_text: Dict[str, Any] = {}
    for name, text in texts.items():
        if by_text.setdefault(text, name) is not name:
            raise ValueError('the names %r and %r are written alike: %s'
                             % (by_text[text], name, OTHERWISE))
        if '\n' in text or '\r' in text or '\0' in text or not text:
            wrong = 'is empty' if not text else 'has an end of line or a zero in it'
            raise ValueError('the name %r %s, and lists have a line for each edge: %s'
                             % (name, wrong, OTHERWISE))
        try:
            text.encode()
        except UnicodeEncodeError:
            raise ValueError('the name %r has no form in UTF-8: %s' % (name, OTHERWISE)) from None
        if sep == ' ' and text.split() != [text]:
            raise ValueError('the name %r has what separates the fields in it: another sep=, or '
                             'to_csv, which quotes' % (name,))
        if sep == ' ' and (text.startswith(MARKS) or is_missing(text)):
            raise ValueError(
                'the name %r would be taken for a comment, or for a missing name: another '
                'sep=, or to_csv, which quotes' % (name,))


def check_reading(sep: str, lines: Sequence[str], header: bool, width: int) -> None:
    """ValueError where the first lines of a list would be read otherwise than they are written,
    without a word."""
    text, layout = ''.join(lines).encode(), Layout(sep=sep)
    if not lines:
        return
    format = format_of(text)
    taken = 'a file of the format ' + format if format != 'edges' else describe_other(text)
    taken = taken or ('a dictionary of attributes' if has_dictionaries(text, layout) else None)
    if taken is None:
        try:
            table = edge_lists.lay_out('', text, layout)
        except ReadError:                          # which asks, and says what to answer
            return
        if (table.first, table.form.ends, table.form.value) == (
            1 + header, (0, 1), 2 if width > 2 else None) or not table.body:
            return
        taken = table.summary.partition(': ')[2]
    raise ValueError(
        'this list would be taken for something else (%s): to_csv() with its own fields, which '
        'has a header, is read as it is' % taken)


def warn_of_types(names: Iterable[Vertex]) -> None:
    """Warns where names come back as others: text that reads as whole numbers or as missing, and
    what is neither text nor a whole number."""
    names = list(names)
    others = [name for name in names if type(name) is not str]
    if not others and names and all(WHOLE.fullmatch(str(name)) for name in names):
        warn_user('the names are text such as %r, which is read as numbers: nodetype=str reads '
                  'it as text' % (names[0],), UserWarning)
    elif others and (len(others) < len(names) or any(
        isinstance(name, bool) or not isinstance(name, (int, numpy.integer)) for name in others)):
        odd = next((name for name in others if not can_save(name)), others[0])
        warn_user('names such as %r are read as text: %s' % (
            odd, 'save() keeps them as they are' if can_save(odd) else
            'no file keeps them, and G.nodes = list(map(str, G.nodes)) makes text of them'),
                  UserWarning)
    missing = next((name for name in names if is_missing(str(name))), None)
    if missing is not None:
        warn_user('names such as %r are read as missing ones: missing=None reads them as names'
                  % (missing,), UserWarning)


def warn_of_isolated(count: int) -> None:
    """Warns where vertices have no edge, and so no line, so that a list read back lacks them."""
    if count:
        warn_user(
            '%d vert%s no edge, and a list of edges doesn\'t name them: save() keeps them, and '
            'nodelist=G.nodes reads the list with them' % (count,
                                                           'ex has' if count == 1 else 'ices have'),
            UserWarning)
