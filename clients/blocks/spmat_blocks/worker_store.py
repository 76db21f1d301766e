"""What a worker keeps: one session of its own, and in it the matrices of the pieces that came
there.

A `Piece` is what a task gives: a block, or a whole matrix that products want at each worker. It is
a text, which any worker can take in. A worker's session takes in the text of a piece at its first
use, each content once, and keeps what it made itself. So where a task's operands are there, nothing
moves. A session that has ended by itself loses nothing: the next one takes in the texts that tasks
want.
"""
from __future__ import annotations

import hashlib
import os
import shutil
import threading
import uuid
import weakref
from dataclasses import replace
from typing import Any, Dict, List, NamedTuple, Optional, Set, Tuple

from spmat import Matrix, Session, __version__
from spmat.errors import Closed
from spmat.extending import Budget, Program, program_words
from .engine import Settings, Version, VersionMismatch
from .row_partition import Stored

# bytes that a piece counts for at least, to engines that move data
LEAST_SIZE = 64


class Counts(NamedTuple):
    """What is told of a piece: its sizes and entries, and of a job's result its price and steps."""
    nrows: int
    ncols: int
    nvals: int
    price: int = 0
    steps: int = 0


class Piece:
    """A block, or a whole matrix, as a text, which is here or in a file. `is_ordered` says whether
    its lines ascend, as the server writes them."""

    def __init__(self, counts: Counts, stored: Stored, is_ordered: bool = True,
                 digest: Optional[bytes] = None) -> None:
        self.counts, self.stored, self.is_ordered, self._digest = counts, stored, is_ordered, digest

    def text(self) -> bytes:
        """The text."""
        return self.stored.text()

    def digest(self) -> bytes:
        """What tells contents apart: two pieces of one text have the same."""
        if self._digest is None:
            self._digest = hashlib.blake2b(self.text(), digest_size=32).digest()
        return self._digest

    def mark(self) -> 'Piece':
        """The same piece, told apart by a mark of its own and not by its content, which takes
        longer."""
        self._digest = uuid.uuid4().bytes
        return self

    def __reduce__(self) -> Any:
        return Piece, (self.counts, self.stored, self.is_ordered, self._digest)

    def __sizeof__(self) -> int:
        """About the bytes of its text, so that engines know what moving it takes."""
        return LEAST_SIZE + len(self.stored.data)


class Store:
    """One worker's session, and which piece is which matrix in it."""

    def __init__(self, settings: Settings, before: Optional['Store'] = None) -> None:
        """Opens the session; `before` is one that has ended here, whose name it has, and whose
        steps stay spent."""
        if settings.version is not None and version_of(0, settings.program) != settings.version:
            raise VersionMismatch(
                'this worker has another version than the others: %s, and %s is expected' %
                (_describe_version(version_of(0, settings.program)),
                 _describe_version(settings.version)))
        self.settings = settings
        self.name: str = uuid.uuid4().hex if before is None else before.name
        # with those before it here, as far as it is known
        self.spent: int = 0 if before is None else before.spent
        self.session = Session(max(0, settings.steps - self.spent), settings.workers,
                               settings.program)
        self._lock = threading.Lock()
        self._here: 'weakref.WeakKeyDictionary[Piece, Matrix]' = weakref.WeakKeyDictionary()
        self._contents: 'weakref.WeakValueDictionary[bytes, Matrix]' = weakref.WeakValueDictionary()
        self.uploads = 0

    def matrix(self, piece: Piece) -> Matrix:
        """The piece as a matrix of this session. Its text is taken in where it isn't there, each
        content once."""
        with self._lock:
            found = self._here.get(piece)
            if found is None:
                digest = piece.digest()
                found = self._contents.get(digest)
                if found is None:
                    found = self._contents[digest] = self.session.from_text(piece.text())
                    self.uploads += 1
                self._here[piece] = found
            return found

    def piece(self, matrix: Matrix, stored: Optional[Stored] = None) -> Piece:
        """A matrix of this session as a piece, once it is made; of a text, where it was made of
        one."""
        # the text first: it comes with the job, by one trip
        text = stored or Stored(matrix.to_text())
        counts = Counts(matrix.nrows, matrix.ncols, matrix.nvals, matrix.price or 0,
                        matrix.steps or 0)
        self.spent += counts.steps
        piece = Piece(counts, text, stored is None)
        self._here[piece] = matrix
        return piece

    def text(self, piece: Piece) -> bytes:
        """The text of a piece, in which lines ascend."""
        return piece.text() if piece.is_ordered else self.matrix(piece).to_text()

    def budget(self) -> Budget:
        """What this session and those before it here have spent, and what this one has reserved and
        left."""
        left, reserved, _ = self.session.budget()
        self.spent = max(0, self.settings.steps - left - reserved)
        return Budget(left, reserved, self.spent)

    def without_steps(self) -> 'Store':
        """Another session that can't take a step, for whoever closes it."""
        return Store(replace(self.settings, steps=0, version=None))

    def close(self) -> None:
        """Ends the session."""
        self.session.close()


# -- the sessions of this process

_stores: Dict[Tuple[str, int], Store] = {}
_closed: Set[str] = set()
_lock = threading.Lock()


def store_of(settings: Settings, place: int) -> Store:
    """The store of a place here, opened at its first use, and anew where its program has ended.
    Closed where the sessions were closed."""
    with _lock:
        if settings.token in _closed:
            raise Closed('the sessions have ended: they were closed')
        held = _stores.get((settings.token, place))
        if held is None or not held.session.is_open:
            _stores[settings.token, place] = held = Store(settings, held)
        return held


def close_store(place: int, settings: Settings) -> None:
    """Ends the session of a place, where there is one."""
    with _lock:
        _closed.add(settings.token)
        store = _stores.pop((settings.token, place), None)
    if store is not None:
        store.close()


# -- versions

def version_of(place: int, program: Optional[Program] = None) -> Version:  # pylint: disable=unused-argument
    """What tells a version here: that of this package, and the SHA-256 of the program's file. That
    says more than the version that the program tells, as two builds of one source may differ. Where
    the program is started by several words (a shell, a wrapper), each word that is a file counts,
    and each other word as it stands. FileNotFoundError where the first is none."""
    said = hashlib.sha256()
    for number, word in enumerate(program_words(program)):
        path = shutil.which(word) or word
        if os.path.isfile(path):
            with open(path, 'rb') as file:
                said.update(b'file ' + hashlib.sha256(file.read()).digest())
        elif number == 0:
            raise FileNotFoundError('no program %s' % word)
        else:
            said.update(b'word %d %s' % (len(word), word.encode()))
    return __version__, said.hexdigest()


def agree(versions: Dict[str, Version]) -> Version:
    """The version that all workers have, by their names, and this process, too. Raises
    VersionMismatch, which names them, where they differ."""
    told: Dict[Version, List[str]] = {}
    for worker, version in versions.items():
        told.setdefault(version, []).append(worker)
    if len(told) > 1:
        parts = ['%s has %s' % (', '.join(sorted(workers)), _describe_version(version))
                 for version, workers in sorted(told.items())]
        raise VersionMismatch('workers have different versions of spmat: ' + '; '.join(parts))
    version = next(iter(told))
    if version[0] != __version__:
        raise VersionMismatch('the workers have client %s, and this process has %s' %
                              (version[0], __version__))
    return version


def _describe_version(version: Version) -> str:
    return 'client %s with program %s' % (version[0], version[1][:16])
