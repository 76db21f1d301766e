"""What open sessions have spent, in a file beside the ledger: it outlives the gateway's death to
the step.

A run's reply reaches the client only after its steps are in this file. A write of a record is one
call of the system, and costs about a microsecond, which a transaction for each run doesn't.
"""
from __future__ import annotations

import fcntl
import os
import struct
import threading
from typing import Dict, List, NamedTuple

from .config import ConfigError

RECORD = struct.Struct('<16sQQQQ')  # session, steps, runs, jobs, the price of what is queued
NOBODY = bytes(16)
MAGIC = 0x7173


class Entry(NamedTuple):
    """What a session has spent as last known."""
    session: str
    spent: int
    runs: int
    jobs: int
    queued: int


class Journal:
    """The file of one run of a gateway. Records of the run before are in `.left`, whose instance is
    `.left_by`.

    Parameters
    ----------
    folder
        Where it lies; one gateway at a time uses a folder.
    """

    def __init__(self, folder: str, instance: str) -> None:
        self._path = os.path.join(folder, 'sessions.journal')
        self._lock = threading.Lock()
        self._free: List[int] = []
        self._slots: Dict[str, int] = {}
        self._guard = os.open(os.path.join(folder, 'lock'), os.O_CREAT | os.O_RDWR | os.O_CLOEXEC,
                              0o600)
        try:
            fcntl.flock(self._guard, fcntl.LOCK_EX | fcntl.LOCK_NB)
        except OSError:
            os.close(self._guard)
            raise ConfigError('another gateway uses %s' % folder) from None
        self._instance = instance
        self.left_by, self.left = self._read()
        self._file = -1

    def begin(self) -> None:
        """Begins this run's file in place of the last one's, whose sessions have to be settled
        before."""
        path = self._path + '.new'
        self._file = os.open(path, os.O_CREAT | os.O_RDWR | os.O_TRUNC | os.O_CLOEXEC, 0o600)
        os.write(self._file, RECORD.pack(bytes.fromhex(self._instance), MAGIC, 0, 0, 0))
        os.rename(path, self._path)

    def open(self, session: str) -> None:
        """Makes room for a session, before it reserves. OSError where the disk has none."""
        with self._lock:
            slot = self._free[-1] if self._free else len(self._slots) + 1
            os.pwrite(self._file, RECORD.pack(bytes.fromhex(session), 0, 0, 0, 0),
                      RECORD.size * slot)
            self._slots[session] = slot
            del self._free[-1:]

    def note(self, entry: Entry) -> None:
        """Notes what a session has spent so far."""
        os.pwrite(self._file, RECORD.pack(bytes.fromhex(entry.session), *entry[1:]),
                  RECORD.size * self._slots[entry.session])

    def close(self, session: str) -> None:
        """Forgets a session, after it was settled."""
        with self._lock:
            slot = self._slots.pop(session)
            os.pwrite(self._file, RECORD.pack(NOBODY, 0, 0, 0, 0), RECORD.size * slot)
            self._free.append(slot)

    def sessions(self) -> List[str]:
        """The sessions that aren't settled."""
        with self._lock:
            return list(self._slots)

    def _read(self) -> 'tuple[str, List[Entry]]':
        try:
            with open(self._path, 'rb') as file:
                data = file.read()
        except FileNotFoundError:
            return '', []
        records = [RECORD.unpack_from(data, at) for at in range(0, len(data) - RECORD.size + 1,
                                                                RECORD.size)]
        if not records or records[0][1] != MAGIC:
            return '', []
        return records[0][0].hex(), [Entry(record[0].hex(), *record[1:]) for record in records[1:]
                                     if record[0] != NOBODY]
