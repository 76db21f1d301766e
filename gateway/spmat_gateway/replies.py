"""What the replies that pass say of a session: its runs, its jobs, and the steps that these took.
Nothing is held back, and nothing is changed.

The counter follows the lines of docs/protocol.md. The bytes of a `show`, and the lines of `dis` and
`types`, are passed over by the length that their first line announces.
"""
from __future__ import annotations

from .config import MOST_STEPS

LONGEST_LINE = 1 << 16


class ReplyCounter:
    """Counts runs, jobs and steps, up to the first bytes that are no reply."""

    def __init__(self) -> None:
        self.runs = self.job_count = self.spent = 0
        self._bytes_to_skip = self._lines_to_skip = 0
        self._begun = b''
        self._lost = False

    @property
    def at_a_boundary(self) -> bool:
        """Whether all replies so far are whole, so that another line would be read as a reply."""
        return not (self._begun or self._bytes_to_skip or self._lines_to_skip or self._lost)

    def look(self, piece: memoryview) -> None:
        """Takes the next bytes."""
        start = self._skip(len(piece))
        text, start = self._begun + bytes(piece[start:]), 0
        while not self._lost and (end := text.find(b'\n', start)) >= 0:
            try:
                self._take(text[start:end])
            except (IndexError, ValueError):
                self._lost = True
            start = end + 1
            start += self._skip(len(text) - start)
        self._begun = text[start:]
        self._lost = self._lost or len(self._begun) > LONGEST_LINE

    def _skip(self, most: int) -> int:
        """How many of the next bytes are a body's."""
        skipped = min(self._bytes_to_skip, most)
        self._bytes_to_skip -= skipped
        return skipped

    def _take(self, line: bytes) -> None:
        """Takes a line: of a body, or the first of a reply."""
        if self._lines_to_skip:
            self._lines_to_skip -= 1
            return
        words = line.split()
        if words[0] == b'no':
            if words[1] in (b'memory', b'thread') and len(words) == 3:  # of a run
                self._take_run(int(words[2]))
        elif words[0] != b'ok':
            raise ValueError
        elif words[1] == b'show':
            self._bytes_to_skip = int(words[2])
        elif words[1] in (b'run', b'dis', b'types'):
            self._lines_to_skip = int(words[2])
            if words[1] == b'run':                 # each of its lines is a job
                self.job_count = min(self.job_count + self._lines_to_skip, MOST_STEPS)
                self._take_run(int(words[3]))

    def _take_run(self, spent: int) -> None:
        self.runs += 1
        self.spent = min(self.spent + spent, MOST_STEPS)
