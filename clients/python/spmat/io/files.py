"""Files, as bytes in and bytes out: also packed ones, by gzip, bzip2, xz and zip (one file), and by
zstd where Python or a package has it.

How a file is packed is seen from its first bytes, whatever its name. What can't be read is a
ReadError, a ValueError, that names the file; that there is no file, or that nobody may read it, is
an OSError as for `open`.
"""
from __future__ import annotations

import bz2
import contextlib
import gzip
import importlib
import io
import lzma
import os
import re
import secrets
import struct
import zipfile
import zlib
from typing import IO, Any, Callable, Iterator, NamedTuple, Optional

from ..errors import ReadError
from ..limits import MOST_TEXT
from ..types import Source

ENDINGS = ('.gz', '.bz2', '.xz', '.zst', '.zip')
LONGEST_MARK = 10
# of Python 3.14, of PyPI, of PyPI and Debian
ZSTD_MODULES = ('compression.zstd', 'backports.zstd', 'zstandard')
UTF8_MARK = b'\xef\xbb\xbf'
MARKET = b'%%matrixmarket'
PIECE = 1 << 22                                    # bytes that are unpacked at a time
# A file that unpacks to more than both is taken for a bomb, unless the caller says how long it may
# be. Lists of edges pack to a fifth or a tenth of their length.
SMALL, RATIO = 1 << 28, 100
# What damaged zip archives make the standard library raise as they are opened; RuntimeError also
# where a password is missing.
DAMAGED_ZIP = (zipfile.BadZipFile, struct.error, RuntimeError, ValueError, IndexError,
               OverflowError, EOFError, OSError)


class Packer(NamedTuple):
    """What packs files: its name, and what opens a file that is open already and unpacks what is
    read of it."""
    name: str
    open: Callable[[IO[bytes]], IO[bytes]]


def _open_zstd(file: IO[bytes]) -> IO[bytes]:
    for name in ZSTD_MODULES:
        try:
            module = importlib.import_module(name)
        except ImportError:
            continue
        opened_file: IO[bytes] = module.open(file, 'rb')
        return opened_file
    raise ImportError(
        'it is packed by zstd, which Python has from 3.14 on: install the package zstandard, or '
        'unpack it by `zstd -d`')


def _open_zip(file: IO[bytes]) -> IO[bytes]:
    """The one file of a zip archive, as pandas reads it, but for folders and what macOS adds. Any
    other archive is given as it is, and refused by what it is."""
    whole, names = io.BytesIO(file.read()), []
    with contextlib.suppress(*DAMAGED_ZIP), zipfile.ZipFile(whole) as archive:
        names = [name for name in archive.namelist()
                 if not name.endswith('/') and not name.startswith('__MACOSX/')]
    if len(names) == 1 and not names[0].endswith('.npy'):
        try:
            with zipfile.ZipFile(whole) as archive:
                # which is read when the archive is closed: the bytes are held here
                return archive.open(names[0])
        except DAMAGED_ZIP as fault:               # also a way of packing that Python has not
            raise zipfile.BadZipFile(str(fault)) from None
    whole.seek(0)
    return whole


# What packed a file, by its first bytes.
PACKERS = (
    (re.compile(rb'\x1f\x8b'),
     Packer('gzip', lambda file: gzip.open(file, 'rb'))),  # type: ignore[arg-type, return-value]
    (re.compile(rb'BZh.(1AY&SY|\x17rE8P\x90)', re.S),
     Packer('bzip2', lambda file: bz2.open(file, 'rb'))),
    (re.compile(rb'\xfd7zXZ\0'), Packer('xz', lambda file: lzma.open(file, 'rb'))),
    (re.compile(rb'PK\x03\x04'), Packer('zip', _open_zip)),
    (re.compile(rb'\x28\xb5\x2f\xfd'), Packer('zstd', _open_zstd)),
)


def packer_of(start: bytes) -> Optional[Packer]:
    """What packed a file, by its first bytes; None where nothing did."""
    return next((packer for mark, packer in PACKERS if mark.match(start)), None)


def name_of(source: object) -> str:
    """What errors call a path or an open file."""
    if isinstance(source, (str, os.PathLike)):
        return os.fsdecode(source)
    name = getattr(source, 'name', None)
    return name if isinstance(name, str) else 'the text'


class Loaded(io.BytesIO):
    """The bytes of a file that was read already, under its name."""

    def __init__(self, name: str, data: bytes) -> None:
        super().__init__(data)
        self.name = name


# -- reading

Look = Callable[[int, bytes], None]


class _Counted(io.RawIOBase):
    """A file whose first bytes were read already, and that counts what is read of it. `look` sees
    each piece, and how many bytes there were with it."""

    def __init__(self, file: IO[bytes], start: bytes = b'', look: Optional[Look] = None) -> None:
        super().__init__()
        self._file, self._start, self._look, self.count = file, start, look, 0

    def readable(self) -> bool:
        return True

    def readinto(self, target: Any) -> int:
        """The next bytes, into a buffer."""
        piece = self._next(len(target))
        target[:len(piece)] = piece
        return len(piece)

    def readall(self) -> bytes:
        """All bytes that are left."""
        return b''.join(iter(lambda: self._next(PIECE), b''))

    def _next(self, size: int) -> bytes:
        piece = self._start[:size] or self._file.read(size) or b''
        self._start = self._start[len(piece):] if self._start else b''
        self.count += len(piece)
        if self._look is not None:
            self._look(self.count, piece)
        return piece


class Limit(NamedTuple):
    """How many bytes a file may have, unpacked, unless the caller says it. A packed Matrix Market
    file may have `market`. Another one above `SMALL` may have so many times its length as `RATIO`
    says."""
    max_bytes: Optional[int] = None
    market: Optional[int] = None

    def look(self, name: str, packed: Optional[_Counted]) -> Look:
        """What looks at the length of a file while it is read, so that what is too long is seen
        before it fills the memory."""
        most = self.max_bytes

        def look(count: int, piece: bytes) -> None:
            nonlocal most
            if count == len(piece) and packed is not None and most is None and is_market(piece):
                most = self.market
            if most is not None and count > most:
                raise too_long(name, most, packed is not None)
            if (most is None and packed is not None and count > SMALL
                and count > RATIO * packed.count):
                raise ReadError(name, None,
                                'it unpacks to more than %d times its length: max_bytes= says how '
                                'many bytes it may have' % RATIO)
        return look


def is_market(text: bytes) -> bool:
    """Whether a text begins as Matrix Market files do."""
    return without_mark(text[:20])[:len(MARKET)].lower() == MARKET


def too_long(name: str, most: int, packed: bool = False) -> ReadError:
    """The error of a file that has more bytes than it may have."""
    return ReadError(name, None, 'it has more than %s bytes%s: max_bytes= says how many it may have'
                     % (format(most, ','), ', once it is unpacked' if packed else ''))


@contextlib.contextmanager
def opened(source: Source, limit: Limit = Limit()) -> Iterator[IO[bytes]]:
    """A path, or a file that is open in binary, unpacked as it is read. ReadError where it can't be
    unpacked, is a folder, or has more bytes than it may have."""
    name = name_of(source)
    check_max_bytes(limit.max_bytes)
    with contextlib.ExitStack() as stack:
        plain: Any
        if hasattr(source, 'read'):
            plain = source
        elif isinstance(source, (list, tuple, dict)):
            raise TypeError('expected a path or a file that is open in binary, got a %s: '
                            'from_edgelist(edges) takes edges' % type(source).__name__)
        else:
            try:
                plain = stack.enter_context(open(source, 'rb'))
            except IsADirectoryError:
                raise ReadError(name, None, 'expected a file, got a folder') from None
        start = plain.read(LONGEST_MARK)
        if isinstance(start, str):
            raise TypeError('open the file in binary: open(path, "rb")')
        packer = packer_of(start)
        if packer is None and limit.max_bytes is None and plain is not source and plain.seekable():
            plain.seek(0)
            yield plain                            # whose bytes are read at once, and not copied
        elif packer is None:
            yield io.BufferedReader(_Counted(plain, start, limit.look(name, None)))
        else:
            packed = _Counted(plain, start)
            whole: Any = io.BufferedReader(packed)
            with _faults_named(name, packer):
                unpacked = stack.enter_context(packer.open(whole))
                yield io.BufferedReader(_Counted(unpacked, b'', limit.look(name, packed)))


@contextlib.contextmanager
def _faults_named(name: str, packer: Packer) -> Iterator[None]:
    """What goes wrong while a packed file is read, as a ReadError with its name."""
    try:
        yield
    except EOFError:
        raise ReadError(name, None, 'it is packed by %s, and cut off: its end is missing'
                        % packer.name) from None
    except ImportError as fault:
        raise ReadError(name, None, str(fault)) from None
    except (zlib.error, lzma.LZMAError, zipfile.BadZipFile, OSError) as fault:
        if isinstance(fault, OSError) and fault.errno is not None:
            raise
        cut = 'end' in str(fault) and 'marker' in str(fault)
        raise ReadError(name, None, 'it is packed by %s, and %s' % (
            packer.name, 'cut off: its end is missing' if cut else 'damaged (%s)'
            % fault)) from None


def check_max_bytes(max_bytes: Optional[int]) -> None:
    """TypeError and ValueError for what is no number of bytes."""
    if max_bytes is not None and (isinstance(max_bytes, bool)
                                  or not hasattr(max_bytes, '__index__')):
        raise TypeError('max_bytes is a number of bytes, or None, not %r' % (max_bytes,))
    if max_bytes is not None and max_bytes < 1:
        raise ValueError('max_bytes is 1 or more, not %d' % max_bytes)


def check_length(source: object, max_bytes: Optional[int]) -> None:
    """ReadError for a path whose file has more bytes already than it may have once it is
    unpacked."""
    check_max_bytes(max_bytes)
    if (max_bytes is not None and isinstance(source, (str, os.PathLike))
        and os.path.isfile(source) and os.path.getsize(source) > max_bytes):
        raise too_long(name_of(source), max_bytes)


def load(source: Source, max_bytes: Optional[int] = None) -> bytes:
    """The bytes of a path, or of a file opened in binary, unpacked, without a byte-order mark.
    ReadError where there are more than `max_bytes`, as soon as that is seen. Without it a packed
    Matrix Market file has at most the bytes that a session takes."""
    with opened(source, Limit(max_bytes, MOST_TEXT)) as file:
        return without_mark(file.read())


def without_mark(text: bytes) -> bytes:
    """A text without a byte-order mark."""
    return text[3:] if text[:3] == UTF8_MARK else text


# -- writing

# A link of this name, or a file, is an error, where the system can tell.
CREATE_ANEW = os.O_WRONLY | os.O_CREAT | os.O_EXCL | sum(
    getattr(os, flag, 0) for flag in ('O_NOFOLLOW', 'O_CLOEXEC', 'O_BINARY'))


@contextlib.contextmanager
def replacing(path: str) -> Iterator[IO[bytes]]:
    """A file opened in binary that takes the place of another one at the end; nothing is left of it
    where something fails. What is no plain file, as a pipe, is written itself.

    It lies beside that one under a name that nobody can guess, and is made anew, so that no link or
    file of somebody else is written."""
    if os.path.exists(path) and not os.path.isfile(path):
        with open(path, 'wb') as file:
            yield file
        return
    part = '%s.%s.part' % (path, secrets.token_hex(8))
    try:
        descriptor = os.open(part, CREATE_ANEW, 0o666)
    except OSError as fault:
        # the folder is what is missing, or closed
        fault.filename = (os.path.dirname(path) or os.curdir)
        raise
    try:
        with os.fdopen(descriptor, 'wb') as file:
            yield file
        os.replace(part, path)
    except BaseException:
        with contextlib.suppress(OSError):
            os.remove(part)
        raise
