"""Files that keep matrices with their names, so that a later session goes on with them.

Such a file is a zip archive. Its `matrices.json` says of each matrix what it is called, the names
of its vertices, and what is known of it. It also names the member that has the entries, as Matrix
Market text. Other programs can write and read it, too.
"""
from __future__ import annotations

import collections
import contextlib
import datetime
import importlib
import io
import json
import lzma
import os
import re
import struct
import zipfile
import zlib
from typing import TYPE_CHECKING, Any, Dict, Iterator, Mapping, Optional, Tuple

import numpy

from ..errors import ReadError, SpmatError, TextRefused, TooLarge
from ..integers import MOST
from ..limits import MOST_SIDE, MOST_TEXT
from ..metadata import COLUMNS, ROWS, Metadata, Nodes, Unnamed, VertexUnit, new_kind
from ..scale import as_unit
from ..types import Path
from . import matrix_market
from .files import RATIO, SMALL, replacing
from .values import UNITS

if TYPE_CHECKING:
    from ..matrix import Matrix

CONTENTS = 'matrices.json'
VERSION = 2                                        # 1 has no units, and no values that are vertices
# a longer one would take long to make a number of
UNIT = re.compile('[1-9][0-9]{0,99}')
HEAD = 1 << 16                                     # bytes in which the sizes of a matrix stand
# bytes of `matrices.json` that may be packed as well as they like
FEW_CONTENTS = 1 << 22
# of names, beside dates, and tuples and frozensets of these
KINDS = (str, int, float, bool, type(None))
TIMES = ('date', 'datetime', 'datetime64', 'Timestamp')
DATETIME64 = re.compile(r'[<>=|]?M8\[\d{0,4}[a-zA-Z]{1,2}\]')


def write(path: Path, matrices: Mapping[str, Matrix]) -> None:
    """Writes matrices with their names; a file that is there is replaced at the end. TypeError,
    before anything is written, for a name of a vertex that is no text, number, date, or tuple or
    frozenset of these."""
    contents: Dict[str, Any] = {'spmat': 1, 'matrices': {}}
    for number, (name, matrix) in enumerate(matrices.items()):
        contents['matrices'][name] = about = _describe(name, matrix.notes)
        about['entries'] = '%d.mtx' % number
        if 'unit' in about or 'values' in about:
            # a client that knows none of them doesn't read the file
            contents['spmat'] = VERSION
    with replacing(os.fspath(path)) as part, \
            zipfile.ZipFile(part, 'w', zipfile.ZIP_DEFLATED, compresslevel=1) as file:
        file.writestr(CONTENTS, json.dumps(contents, ensure_ascii=False))
        for number, matrix in enumerate(matrices.values()):
            file.writestr('%d.mtx' % number, matrix.to_text())


def _describe(name: str, notes: Metadata) -> Dict[str, Any]:
    """What is known of a matrix, as JSON has it."""
    def encode(names: Optional[Nodes]) -> Any:
        return 'rows' if names is notes.rows else encode_names(names, name)
    about = {'rows': encode_names(notes.rows, name), 'columns': encode(notes.columns),
             'unnamed': [notes.unnamed_rows.name.lower(), notes.unnamed_columns.name.lower()],
             'directed': notes.directed, 'weighted': notes.weighted, 'source': notes.source}
    if notes.unit != 1 and notes.value_names is None:
        about['unit'] = str(notes.unit)
    if notes.value_names is not None:
        about['values'] = encode(notes.value_names)
    kinds = [notes.row_kind, notes.column_kind, getattr(notes.unit, 'kind', 0)]
    if any(kinds):
        about['kinds'] = kinds
    cuts = [notes.axis(axis).cut for axis in (ROWS, COLUMNS)]
    if any(cuts):
        about['cut'] = cuts
    return about


def read(path: Path) -> Iterator[Tuple[str, bytes, Metadata]]:
    """The name of each matrix, its text and what is known of it. ReadError where the file is none
    that `save` wrote, or is damaged: what it says of all matrices is held against their sizes
    before the first of them is given."""
    with open(path, 'rb') as plain_file, _faults_of(os.fspath(path)), \
            zipfile.ZipFile(plain_file) as file:
        for name, entries, notes in list(_list_members(file)):
            text = file.read(entries)
            if notes.value_names is not None:
                _check_vertices(name, text, len(notes.value_names))
            yield name, text, notes


@contextlib.contextmanager
def _faults_of(file: str) -> Iterator[None]:
    """Whatever is wrong with a file as a ReadError that names it."""
    try:
        yield
    except (ReadError, MemoryError):
        raise
    except ImportError as fault:
        raise ReadError(file, None,
                        'the names of its vertices are those of %s, which is not installed'
                        % fault.name) from None
    except (TextRefused, TooLarge) as fault:
        raise ReadError(file, None, str(fault)) from None
    except (zipfile.BadZipFile, zlib.error, lzma.LZMAError, struct.error, LookupError, ValueError,
            AttributeError, TypeError, EOFError, RuntimeError, OverflowError, OSError) as fault:
        if isinstance(fault, SpmatError):
            raise
        raise ReadError(file, None, 'this is no file that save() wrote, or it is damaged (%s)'
                        % fault) from None


def _list_members(file: zipfile.ZipFile) -> Iterator[Tuple[str, str, Metadata]]:
    """What each matrix of a file is called, which member has its entries, and what is known of it,
    held against their size."""
    _check_packed(file.getinfo(CONTENTS), FEW_CONTENTS)
    contents = expect(json.loads(file.read(CONTENTS)), dict, CONTENTS)
    if contents.get('spmat') not in (1, VERSION):
        raise ReadError(file.filename or '', None,
                        'its version is %r, and this client reads versions 1 and %d' % (
                            contents.get('spmat'), VERSION))
    kinds: Dict[int, int] = collections.defaultdict(new_kind)
    for called, about in expect(contents['matrices'], dict, 'matrices').items():
        entries = expect(expect(about, dict, called)['entries'], str, 'entries')
        info = file.getinfo(entries)
        if info.file_size > MOST_TEXT:
            raise ValueError('the text of %s has %d bytes, and a session takes %d'
                             % (called, info.file_size, MOST_TEXT))
        _check_packed(info, SMALL)
        with file.open(entries) as text:
            sizes = matrix_market.Reader(io.BytesIO(text.read(HEAD)))
        notes = _read_notes(about, (sizes.nrows, sizes.ncols))
        yield called, entries, _with_kinds(notes, about.get('kinds', [0, 0, 0]), kinds)


def _check_packed(info: zipfile.ZipInfo, few: int) -> None:
    """ValueError for a member that is long, and far longer than it is packed."""
    if info.file_size > few and info.file_size > RATIO * info.compress_size:
        raise ValueError('%s unpacks to more than %d times its length' % (info.filename, RATIO))


def _read_notes(about: Dict[str, Any], shape: Tuple[int, int]) -> Metadata:
    """What is known of a matrix of these sizes. ValueError where it can't be."""
    rows = decode_names(about['rows'], shape[0])
    columns = decode_names(about['columns'], shape[1], rows)
    cuts = expect(about.get('cut', [0, 0]), list, 'cut')
    if len(cuts) != 2 or any(type(cut) is not int or not 0 <= cut <= 2 for cut in cuts):
        raise ValueError('cut: expected two numbers from 0 to 2, of rows and of columns, not %.40r'
                         % (cuts,))
    rows, columns = (names if names is None or not cut else Nodes(names, cut)
                     for names, cut in zip((rows, columns), cuts))
    vertices = decode_names(about.get('values'), None, rows)
    # which older files don't say
    words = expect(about.get('unnamed', ['positions', 'positions']), list, 'unnamed')
    if len(words) != 2:
        raise ValueError('unnamed: expected two words, of rows and of columns, got %d' % len(words))
    first, second = (Unnamed[expect(word, str, 'unnamed').upper()] for word in words)
    for what in ('directed', 'weighted'):
        if about[what] is not None:
            expect(about[what], bool, what)
    unit = about.get('unit', '1')
    if unit not in UNITS and UNIT.fullmatch(str(unit)) is None:
        raise ValueError('a unit is a number above 0, not %.40r' % (unit,))
    return Metadata(rows, columns, about['directed'], about['weighted'],
                 expect(about['source'], str, 'source'),
                 as_unit(unit if unit in UNITS else int(unit)) if vertices is None
                 else VertexUnit(vertices), first, second)


def _with_kinds(notes: Metadata, given: Any, known: Dict[int, int]) -> Metadata:
    """What is known of a matrix, with the kinds of vertices that a file numbers: numbers of this
    process stand for those of the file."""
    given = expect(given, list, 'kinds')
    if len(given) != 3 or any(type(kind) is not int for kind in given):
        raise ValueError('kinds: expected three whole numbers, of rows, columns and values, not '
                         '%.40r' % (given,))
    rows, columns, values = ((1 if kind > 0 else -1) * known[abs(kind)] if kind else 0
                             for kind in given)
    unit = (notes.unit if notes.value_names is None else VertexUnit(notes.value_names, values))
    return notes._replace(row_kind=rows, column_kind=columns, unit=unit)


def _check_vertices(matrix: str, text: bytes, count: int) -> None:
    """ValueError where a value that stands for a vertex is the number of none."""
    values = matrix_market.parse(text)[0].values
    if ((values < 0) | (values >= count)).any():
        raise ValueError('the values of %s are vertices, and there are %d of these'
                         % (matrix, count))


# -- names of vertices as JSON has them: text, numbers, dates, and tuples and frozensets of these

def expect(thing: object, kind: type, what: str) -> Any:
    """A thing of the kind that it has to be of. ValueError where it isn't."""
    if not isinstance(thing, kind):
        raise ValueError('%s: expected %s, got %.40r' % (what, kind.__name__, thing))
    return thing


def encode_names(names: Optional[Nodes], matrix: str) -> Any:
    """Names as JSON has them: a tuple as a list; of whole numbers that follow one another the first
    and their number."""
    if names is None:
        return None
    if len(names) > 1 and type(names[0]) is int and names == list(
        range(names[0], names[0] + len(names))) and set(map(type, names)) == {int}:
        return {'first': names[0], 'count': len(names)}
    return [_encode_name(name, matrix) for name in names]


def can_save(name: object) -> bool:
    """Whether `save` keeps a name of a vertex as it is."""
    try:
        _encode_name(name, '')
    except TypeError:
        return False
    return True


def _encode_name(name: Any, matrix: str) -> Any:
    if isinstance(name, tuple):
        return [_encode_name(part, matrix) for part in name]
    if isinstance(name, frozenset):
        return {'frozenset': sorted((_encode_name(part, matrix) for part in name), key=repr)}
    kind = type(name).__name__
    if kind in TIMES and type(name).__module__.partition('.')[0] in ('datetime', 'numpy', 'pandas'):
        if kind == 'datetime64':
            return {kind: str(name), 'unit': name.dtype.str}
        zone = next(filter(None, (getattr(getattr(name, 'tz', None), word, None)
                                  for word in ('key', 'zone'))), None)
        return {kind: name.isoformat(), **({'zone': zone} if zone else {})}
    # a number of numpy
    name = name.item() if isinstance(name, numpy.generic) else name
    if type(name) not in KINDS:
        raise TypeError(
            "the vertex %r of %s can't be saved: names are text, numbers, dates, or tuples and "
            "frozensets of these; G.nodes = [str(name) "
            'for name in G.nodes] makes text of them' % (name, matrix))
    return name


def decode_names(names: Any, count: Optional[int],
                 rows: Optional[Nodes] = None) -> Optional[Nodes]:
    """Names of so many vertices, or of any number of them; those of the rows where it says so.
    ValueError where there are others, or one stands twice."""
    if names == 'rows':
        if rows is not None and count not in (None, len(rows)):
            raise ValueError('%d names for %s vertices' % (len(rows), count))
        return rows
    if names is None:
        return None
    if isinstance(names, dict):
        first, many = names['first'], names['count']
        if type(first) is not int or type(many) is not int:
            raise ValueError('names are counted by whole numbers, not by %.40r' % (names,))
        if not 0 <= many <= MOST_SIDE or abs(first) > MOST or count not in (None, many):
            raise ValueError('%d names from %d on, for %s vertices' % (many, first, count))
        return Nodes(range(first, first + many))
    if count not in (None, len(expect(names, list, 'names'))):
        raise ValueError('%d names for %s vertices' % (len(names), count))
    found = Nodes(map(_decode_name, names))
    if len(found.places) != len(found):
        twice = next(name for name, many in collections.Counter(found).items() if many > 1)
        raise ValueError('the name %r stands twice' % (twice,))
    return found


def _decode_name(name: object) -> Any:
    if isinstance(name, dict):
        return (frozenset(map(_decode_name, name['frozenset'])) if 'frozenset' in name
                else _decode_time(name))
    return tuple(map(_decode_name, name)) if isinstance(name, list) else name


def _decode_time(name: Dict[str, str]) -> Any:
    """A date or a time of Python, numpy or pandas. ImportError where the module isn't there."""
    if 'date' in name:
        return datetime.date.fromisoformat(name['date'])
    if 'datetime' in name:
        return datetime.datetime.fromisoformat(name['datetime'])
    if 'datetime64' in name:
        if DATETIME64.fullmatch(name['unit']) is None:
            raise ValueError('no kind of times: %.40r' % name['unit'])
        return numpy.array([name['datetime64']], name['unit'])[0]
    time = importlib.import_module('pandas').Timestamp(expect(name['Timestamp'], str, 'Timestamp'))
    return time.tz_convert(expect(name['zone'], str, 'zone')) if 'zone' in name else time
