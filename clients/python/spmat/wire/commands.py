"""What is sent to a server, and what it answers: the commands of the protocol, of which jobs are
some, and a command with its whole reply. Replies to batches of commands are read as one. Source:
docs/protocol.md.

A server, or what stands between, may say anything: a reply is looked at before it is believed. Each
has the words that the protocol gives for its command, with numbers within the limits of the
protocol, and within what the client knows of what it asked. The first reply that has not ends the
session, since commands and replies are out of step from then on.

Bytes that came stay here until a reply is there whole. So whatever comes while one is awaited
(Ctrl-C), the next call goes on where this one was.
"""
from __future__ import annotations

import enum
import re
from types import MappingProxyType
from typing import (Callable, Dict, List, Mapping, NamedTuple, NoReturn, Optional, Sequence, Tuple,
                    Union)

from ..errors import OF_GATEWAY, ProtocolError, Refused, is_placed, refusal
from ..io import matrix_text
from ..io.matrix_text import BANNER, Triples
from ..limits import MOST_PRICE, MOST_SIDE, MOST_SLOTS, MOST_STEPS, QUEUE


class Places(enum.Enum):
    """Where the result of a job has entries; under a mask only where the mask has some too. The
    bounds of what a job takes follow from it."""
    ALL = 'where all operands have one'
    CHOSEN = 'where all operands have one, if the operator says so'
    ANY = 'where any operand has one'
    ROWS = 'in one column, for each row that is not empty'
    TERMS = 'where a row of the first operand meets a column of the second'


class Form(NamedTuple):
    """A form of job. `operators`, `operands` and `thunk` are what stands behind OUT in its command,
    in words; its operators are of one of these `kinds`. Its results have entries at `places`, and
    `method` is that of matrices which queues such a job."""
    operators: str
    operands: str
    kinds: Tuple[str, ...]
    places: Places
    method: str
    thunk: str = ''

    @property
    def names(self) -> int:
        """How many names behind OUT have to stand for something, but for the mask's."""
        return len(self.operators.split()) + len(self.operands.split())

    @property
    def words(self) -> str:
        """What stands behind the name of the form."""
        return ' '.join(filter(None, ('OUT', self.operators, self.operands, self.thunk,
                                      '[mask M]')))


class Behind(enum.Enum):
    """What comes behind the first line of an `ok` reply: as many of these as its third word
    says."""
    LINES = 'lines'
    BYTES = 'bytes'


class Syntax(NamedTuple):
    """How a command is written behind its name, how its reply is written behind `ok`, and what the
    reply brings. LEN is the length of a body, which comes behind the line."""
    words: str = ''
    reply: str = ''
    brings: Optional[Behind] = None

    @property
    def has_body(self) -> bool:
        """Whether a body comes behind the line."""
        return 'LEN' in self.words.split()


FORMS: Dict[str, Form] = {
    'apply': Form('OP', 'A', ('unary', 'index'), Places.ALL, 'apply', '[THUNK]'),
    'select': Form('OP', 'A', ('index',), Places.CHOSEN, 'select', 'THUNK'),
    'union': Form('OP', 'A B', ('binary',), Places.ANY, 'ewise_add'),
    'both': Form('OP', 'A B', ('binary',), Places.ALL, 'ewise_mult'),
    'product': Form('ADD MUL', 'A B', ('binary',), Places.TERMS, 'mxm'),
    'reduce': Form('OP', 'A', ('binary',), Places.ROWS, 'reduce_rowwise'),
}
COMMANDS: Dict[str, Syntax] = {
    'matrix': Syntax('NAME LEN', 'matrix ROWS COLUMNS ENTRIES'),
    'asm': Syntax('NAME KIND LEN', 'op SLOTS INSTRUCTIONS'),
    'op': Syntax('NAME KIND LEN', 'op SLOTS INSTRUCTIONS'),
    'dis': Syntax('NAME', 'dis LINES', Behind.LINES),
    'types': Syntax('NAME', 'types LINES', Behind.LINES),
    **{name: Syntax(form.words, 'queued POSITION PRICE') for name, form in FORMS.items()},
    'run': Syntax('', 'run JOBS STEPS', Behind.LINES),
    'show': Syntax('NAME', 'show BYTES', Behind.BYTES),
    'budget': Syntax('', 'budget LEFT RESERVED SPENT'),
    'quit': Syntax('', 'quit'),
}
WORDS_WITH_BODY = {name: len(syntax.words.split()) for name, syntax in COMMANDS.items()
                   if syntax.has_body}
"""The commands that have a body, with how many words stand before its length."""


# -- whether a reply answers its command

LONGEST_NUMBER = 20                                # digits: 2^64 - 1 has as many
# bytes of a text that is compared with what the client writes of its entries
LOOKED_AT_WHOLE = 1 << 13
# of a matrix text: its first line has 47 bytes, the second up to 27
LONGEST_HEAD = 80
# two indices, a value with its sign, two blanks and LF
LONGEST_ENTRY = 8 + 1 + 8 + 1 + 20 + 1
_HEAD = re.compile(rb'%s(\d{1,8}) (\d{1,8}) (\d{1,8})\n' % re.escape(BANNER))
_REFUSAL = re.compile(
    r'no (?:(?:[ASVMJ]\d{1,2}|busy|memory|thread|stuck)(?: [A-Z]?\d{1,20}){0,3}|(?:%s)(?: '
    r'[\x20-\x7e]{0,200})?)' % '|'.join(OF_GATEWAY))

Limits = Tuple[int, int]
"""The least and the greatest that a number may be."""

LIMITS: Dict[str, Limits] = {
    'ROWS': (0, MOST_SIDE), 'COLUMNS': (0, MOST_SIDE), 'ENTRIES': (0, MOST_SIDE),
    'SLOTS': (1, MOST_SLOTS), 'INSTRUCTIONS': (1, MOST_SLOTS),
    'LINES': (0, MOST_SLOTS), 'POSITION': (1, QUEUE), 'PRICE': (0, MOST_PRICE), 'JOBS': (0, QUEUE),
    'STEPS': (0, MOST_STEPS),
    'BYTES': (0, LONGEST_HEAD + MOST_SIDE * LONGEST_ENTRY), 'LEFT': (0, MOST_STEPS),
    'RESERVED': (0, MOST_STEPS), 'SPENT': (0, MOST_STEPS),
}
NOTHING: Mapping[str, Limits] = MappingProxyType({})

REPLIES: Dict[str, Tuple[str, Dict[str, Limits]]] = {
    name: (syntax.reply.split()[0], {one: LIMITS[one] for one in syntax.reply.split()[1:]})
    for name, syntax in COMMANDS.items()}
"""By command the first word behind `ok`, and the names of the numbers behind that, with their
limits."""


def sizes_of_text(text: bytes) -> Mapping[str, Limits]:
    """What the reply to `matrix` can say of a Matrix Market text that the server takes. That is its
    size line, and up to twice as many entries where it is symmetric. Nothing of a text without a
    size line."""
    first = at = text.find(b'\n') + 1
    while 0 < at < len(text):
        end = text.find(b'\n', at)
        end = len(text) if end < 0 else end
        line = text[at:end].strip()
        if line and not line.startswith(b'%'):
            sizes = [int(word) for word in line.split() if word.isdigit()
                     and len(word) < LONGEST_NUMBER]
            if len(sizes) != 3:
                return NOTHING
            most = 2 * sizes[2] if b'symmetric' in text[:first].lower() else sizes[2]
            return {'ROWS': (sizes[0], sizes[0]), 'COLUMNS': (sizes[1], sizes[1]),
                    'ENTRIES': (sizes[2], most)}
        at = end + 1
    return NOTHING


def read_shown(command: str, text: bytes, shape: Tuple[int, int],
               entries: Optional[int]) -> Triples:
    """The entries of a text. ProtocolError where it isn't that of a matrix of this shape, with so
    many entries, where that is known. A short one has to be as the server writes it, byte by byte,
    and a longer one as the format allows."""
    head = _HEAD.match(text)
    if head is None:
        raise_fault(command,
                    'a text that begins with `%s` and three sizes' % BANNER.decode().strip(),
                    [text[:100].decode('ascii', 'replace')])
    rows, columns, count = map(int, head.groups())
    if (rows, columns) != shape or (entries is not None and count != entries):
        raise_fault(command,
                    'a text of %d rows and %d columns%s'
                    % (*shape, '' if entries is None else ' with %d entries' % entries),
                    ['%d %d %d' % (rows, columns, count)])
    try:
        found = matrix_text.read(text)
        # the library takes entries in any order
        if len(text) <= LOOKED_AT_WHOLE and matrix_text.write(found) != text:
            raise ValueError('it is not as the server writes it')
    except ValueError as fault:
        raise_fault(command, 'the entries of %d rows and %d columns, in order, with values of 64 '
                    'bits' % shape, ['%d bytes: %s' % (len(text), fault)])
    return found


def raise_fault(command: str, expected: str, words: Sequence[str]) -> NoReturn:
    """Raises ProtocolError of a reply that doesn't answer a command."""
    raise ProtocolError('the reply does not answer the command `%.80s`: expected %s, got `%s`'
                        % (command, expected, visible(' '.join(words))))


def visible(text: str) -> str:
    """The beginning of what came, without what a terminal would do at it."""
    return text[:MOST_SHOWN].encode('ascii', 'backslashreplace').decode('ascii').translate(ESCAPED)


# -- commands and their replies

PIECE = 1 << 20
LONGEST_LINE = 1 << 16
# of each line behind the reply to `run`, `dis` or `types`
MOST_BEHIND = 1 << 10
# letters of a reply that an error shows, and control codes as they are shown
MOST_SHOWN = 200
ESCAPED = {code: '\\x%02x' % code for code in [*range(32), 127]}
# bytes of the replies to a batch, unless it says fewer
MOST_REPLIES = 1 << 28

# gives the line that stands at a place that a rule names
Near = Callable[[str, int], str]


class Reply(NamedTuple):
    """An `ok` reply: the words behind `ok`, which of them are numbers, and the lines or the bytes
    that it brings: those of `run`, `dis` and `types`, and of `show`."""
    words: List[str]
    numbers: List[int]
    lines: List[str]
    body: bytes


class Command:
    """A command, of which nothing is done with the reply but that it is kept. A class of its own
    says otherwise of jobs, of runs, and of texts.

    Parameters
    ----------
    line
        Its words, without the length of its body.
    body
        The bytes that come behind the line, where it has some.
    near
        Gives the line that stands at a place of the body, for the words of a refusal.
    within
        Limits of the reply's numbers, by their names, that the client knows.

    Attributes
    ----------
    answer
        The reply, or the refusal, once it is there.
    matters
        Whether a refusal makes everything behind it doubtful.
    runs
        Whether the server may take as long as its jobs do.
    jobs
        How many jobs it runs.
    """

    line = word = ''
    body: Optional[bytes] = None
    near: Optional[Near] = None
    within: Mapping[str, Limits] = NOTHING
    matters = runs = False
    jobs = 0
    answer: Union[Reply, Refused, None] = None

    def __init__(self, line: str, body: Optional[bytes] = None, near: Optional[Near] = None,
                 within: Mapping[str, Limits] = NOTHING, matters: bool = False) -> None:
        words = line.split(None, 1)
        if '\n' in line or not words:
            raise ValueError('a command is one line with words')
        self.line, self.word, self.body, self.near = line, words[0], body, near
        if (self.word in WORDS_WITH_BODY) != (body is not None):
            raise ValueError('`matrix`, `asm` and `op` have a body, and no other command')
        self.within, self.matters, self.runs = within, matters, self.word == 'run'

    def read(self, incoming: Incoming) -> Union[Reply, str]:
        """The next reply with all that it brings, or the line of a refusal, once it is there whole.
        Closed where it can't come any more. The first line is checked before more is awaited:
        ProtocolError where it doesn't answer this command."""
        came = incoming.bytes
        end = came.find(b'\n', 0, LONGEST_LINE) + 1 or incoming.await_line()
        words = came[:end].decode('ascii', 'replace').split()
        numbers = self._numbers_of(words)
        if numbers is None:
            del came[:end]
            return ' '.join(words)
        brings, start = COMMANDS[self.word].brings, end
        body, lines = b'', []  # type: bytes, List[str]
        if brings is Behind.LINES:
            end, lines = incoming.await_lines(start, numbers[0])
        elif brings is Behind.BYTES:
            end = start + numbers[0]
            if len(came) < end:
                incoming.await_bytes(end, numbers[0])
            body = bytes(memoryview(came)[start:end])
        del came[:end]
        self.answer = reply = Reply(words[1:], numbers, lines, body)
        return reply

    def _numbers_of(self, words: Sequence[str]) -> Optional[List[int]]:
        """The numbers of the first line of an `ok` reply, of which these are the words; None of a
        refusal. ProtocolError where the line doesn't answer this command."""
        if not words or words[0] != 'ok':
            if not _REFUSAL.fullmatch(' '.join(words)):
                raise ProtocolError('the reply to `%.80s` is none of spmat: `%s`'
                                    % (self.line, visible(' '.join(words))))
            return None
        if self.word not in REPLIES:
            # a command of a session script, which only a refusal can answer
            raise_fault(self.line, 'a refusal, since there is no such command', words)
        first, names = REPLIES[self.word]
        if len(words) != 2 + len(names) or words[1] != first:
            raise_fault(self.line, '`ok %s`' % COMMANDS[self.word].reply, words)
        numbers = []
        for (name, limits), word in zip(names.items(), words[2:]):
            least, most = self.within.get(name, limits)
            # int() takes blanks and letters of other scripts, and texts of any length
            number = int(word) if len(word) <= LONGEST_NUMBER and word.isdigit() else -1
            if not least <= number <= most:
                asked = '%d to %d' % (least, most) if least != most else '%d' % least
                raise_fault(self.line, '%s of %s' % (name, asked), words)
            numbers.append(number)
        return numbers

    def done(self, reply: Reply) -> None:
        """Notes what the reply says. ProtocolError where it says what it can't."""

    def lost(self, cause: BaseException) -> None:
        """There is no reply: it was a refusal, or the session has ended."""


class CommandBatch:
    """Commands whose replies are read as one; the last is `budget`. `replies` has them, once they
    are there; `most` is how many bytes they can have."""

    runs = True                                    # the server may take as long as its jobs do
    matters = False

    def __init__(self, text: bytes, commands: int, most: int = MOST_REPLIES) -> None:
        self.text, self.commands, self.most = text, commands, most
        self.replies: Optional[bytes] = None

    def read(self, incoming: Incoming) -> bytes:
        """All replies, up to that of `budget`. ProtocolError where they are longer than `most`."""
        return incoming.through(b'ok budget ', self.most)

    def done(self, replies: bytes) -> None:
        """Keeps the replies."""
        self.replies = replies

    def lost(self, _: BaseException) -> None:
        """They never come. Whoever collects them hears that the session has ended."""


class Incoming:
    """What has come and was not taken. `more` takes in what comes next, and raises Closed where
    nothing does; `tell(done, of)` is called as a long reply comes."""

    def __init__(self, more: Callable[[], None], tell: Callable[[int, int], None]) -> None:
        self.bytes = bytearray()
        self.more, self._tell = more, tell
        # of replies that are read as one: the place up to which the last line wasn't found
        self._looked = 0
        self.received = 0

    def through(self, mark: bytes, most: int) -> bytes:
        """All that comes up to the end of the line with a mark, which stands in no other reply,
        once it is there. ProtocolError where that is more than `most` bytes."""
        while True:
            if len(self.bytes) > most:
                raise ProtocolError(
                    'the replies to a loop have more than %d bytes, the most that its commands '
                    'can be answered with' % most)
            at = self.bytes.find(mark, self._looked)
            end = self.bytes.find(b'\n', at) if at >= 0 else -1
            if end >= 0:
                out = bytes(memoryview(self.bytes)[:end + 1])
                del self.bytes[:end + 1]
                self._looked = 0
                return out
            # the mark may have come in part
            self._looked = max(0, len(self.bytes) - len(mark)) if at < 0 else at
            self.more()

    def await_line(self) -> int:
        """The place behind the first line, once it is there."""
        end = 0
        while not end:
            if len(self.bytes) >= LONGEST_LINE:
                raise ProtocolError('the reply is none of spmat: `%s`'
                                    % visible(self.bytes[:MOST_SHOWN].decode('latin-1')))
            self.more()
            end = self.bytes.find(b'\n', 0, LONGEST_LINE) + 1
        return end

    def await_bytes(self, end: int, size: int) -> None:
        """Returns once there are bytes up to a place, at which a body of this size ends."""
        while len(self.bytes) < end:
            before = len(self.bytes)
            self.more()
            if size >= PIECE and (before // PIECE != len(self.bytes) // PIECE
                                  or len(self.bytes) >= end):
                self._tell(min(size, size - (end - len(self.bytes))), size)

    def await_lines(self, start: int, count: int) -> Tuple[int, List[str]]:
        """The place behind so many lines that begin at a place, and the lines, once they are there.
        ProtocolError where they are no lines that a server writes."""
        looked = start
        while self.bytes.count(b'\n', start) < count:
            came = self.bytes[looked:].decode('latin-1').split('\n')
            _check_lines(came)
            looked = len(self.bytes) - len(came[-1])
            self.more()
        lines = self.bytes[start:].decode('latin-1').split('\n', count)[:count]
        _check_lines(lines)
        return start + sum(map(len, lines)) + count, lines


def _check_lines(lines: List[str]) -> None:
    """ProtocolError where some lines of a reply have letters, or a length, that none has."""
    whole = ''.join(lines)
    if len(whole) <= MOST_BEHIND and whole.isascii() and whole.isprintable():
        return
    for line in lines:
        if len(line) > MOST_BEHIND or not (line.isascii() and line.isprintable()):
            raise ProtocolError('a line of a reply is none of spmat: `%s`' % visible(line))


def read_refusal(reply: str, command: Command) -> Refused:
    """The exception of a reply `no ..` to a command."""
    words, near = reply.split(), command.near
    rule = words[1] if len(words) > 1 else ''
    numbers = [int(word) for word in words[2:] if word.isdigit()]
    line = near(rule, numbers[0]) if near is not None and numbers and is_placed(rule) else ''
    detail = (_describe_form(command.line) if rule in ('S1', 'S2') else ' '.join(words[2:])
              if rule in OF_GATEWAY else '')
    return refusal(rule, numbers, command.line, line, detail)


def _describe_form(line: str) -> str:
    """How the command of a line is written, in words; of a line that is no command's all there
    are."""
    word = line.split()[0] if line.split() else ''
    if word in COMMANDS:
        words = COMMANDS[word].words
        return 'it is written `%s`%s' % (('%s %s' % (word, words)).strip(),
                                         '; KIND is unary, binary or index' if 'KIND' in words
                                         else '')
    return 'commands are ' + ', '.join(COMMANDS)
