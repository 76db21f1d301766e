"""Cuts a server's output into the replies to commands."""
from typing import Callable

from tests.lib.commands import WITH_LINES

LINES_FOLLOW = [[b'ok', word.encode()] for word in WITH_LINES]


class Replies:
    """What a server wrote, taken in by pieces of any size. `more` answers the next piece, which
    isn't empty, or says by an exception that there is none."""

    def __init__(self, more: Callable[[], bytes]) -> None:
        self.more = more
        self.piece = b''
        self.at = 0             # where the piece goes on that was taken in last

    def rest(self) -> bytes:
        """What is left of the piece that was taken in last, and else the next one."""
        if self.at == len(self.piece):
            self.piece, self.at = self.more(), 0
        rest, self.at = self.piece[self.at:], len(self.piece)
        return rest

    @property
    def has_more(self) -> bool:
        """Whether something of the piece that was taken in last is left."""
        return self.at < len(self.piece)

    def put_back(self, count: int) -> None:
        """Gives so many of the bytes back that came last."""
        self.at -= count

    def taken(self, length: int) -> bytes:
        """So many of the next bytes."""
        pieces, have = [], 0
        while have < length:
            pieces.append(self.rest())
            have += len(pieces[-1])
        if have > length:
            pieces[-1] = pieces[-1][:length - have]
            self.put_back(have - length)
        return b''.join(pieces)

    def line(self) -> bytes:
        """The next line, with its LF."""
        if self.at < len(self.piece):
            end = self.piece.find(b'\n', self.at) + 1
            if end:
                line, self.at = self.piece[self.at:end], end
                return line
        pieces = [self.rest()]
        while b'\n' not in pieces[-1]:
            pieces.append(self.rest())
        end = pieces[-1].index(b'\n') + 1
        self.put_back(len(pieces[-1]) - end)
        pieces[-1] = pieces[-1][:end]
        return b''.join(pieces)

    def reply(self) -> bytes:
        """The next whole reply: a line, with the text or the lines that it announces."""
        first = self.line()
        words = first.split()
        if words[:2] == [b'ok', b'show']:
            return first + self.taken(int(words[2]))
        if words[:2] in LINES_FOLLOW:
            return first + b''.join(self.line() for _ in range(int(words[2])))
        return first
