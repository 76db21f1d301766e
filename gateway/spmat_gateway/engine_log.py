"""What an engine tells of its session: the lines of `spmat run --log`, by which it is charged.

docs/log.md describes these lines. Whatever else an engine writes to standard error, as ssh does, is
kept for the gateway's own log.
"""
from __future__ import annotations

import re
from typing import Dict

from .config import MOST_STEPS

LINE = re.compile(r'spmat: (?:time=\S+ )?(server-start|start|refused|session|runs|server-end)'
                  r'((?: [a-z_]+=\S+)+)')
LONGEST_LINE = 4_096
LONGEST_WORDS = 2_000


class EngineLog:
    """What a session has told so far: `spent` steps, and `queued` ones that its jobs have reserved.
    `end` says how it ended, once it has."""

    def __init__(self) -> None:
        self.spent = self.queued = 0
        self.begun = False
        self.end = ''
        self._begun_line, self._words = b'', ''

    @property
    def words(self) -> str:
        """The beginning of what else the engine wrote."""
        return self._words.strip()

    def feed(self, piece: bytes) -> bool:
        """Takes the next bytes. Whether they tell something new of the steps."""
        before = (self.spent, self.queued, self.end)
        *lines, rest = (self._begun_line + piece).split(b'\n')
        self._begun_line = rest[:LONGEST_LINE]
        for line in lines:
            self._take(line.decode('utf-8', 'replace'))
        return (self.spent, self.queued, self.end) != before

    def _take(self, line: str) -> None:
        told = LINE.fullmatch(line)
        if told is None:
            self._words = (self._words + line + '\n')[:LONGEST_WORDS]
            return
        event = told.group(1)
        fields = dict(field.split('=', 1) for field in told.group(2).split())
        self.begun = True
        if event in ('session', 'runs', 'server-end'):
            self.spent = max(self.spent, _number(fields, 'steps'))
            self.queued = _number(fields, 'reserved')
        if event == 'session':
            self.end = fields.get('end', '')


def _number(fields: Dict[str, str], name: str) -> int:
    """A field's number, 0 where there is none."""
    text = fields.get(name, '0')
    return min(int(text), MOST_STEPS) if text.isascii() and text.isdigit() else 0
