"""Commands with the replies that they must have, and how a session of them is run."""
import os
import subprocess
import tempfile
from typing import Iterator, List, NamedTuple, Tuple

from tests.lib.commands import run_words
from tests.lib.patience import FOR_A_SESSION
from tests.lib.replies import Replies
from tests.lib.runs import bounded


class Exchange(NamedTuple):
    """One or several commands, what they are about, and all that must be answered."""

    what: str
    command: bytes
    reply: bytes


class Session(NamedTuple):
    """Exchanges one after the other. The expected replies are `literal` where they are written
    down, and then the reference implementation is held to them too."""

    topic: str
    exchanges: List[Exchange]
    literal: bool = False

    @property
    def data(self) -> bytes:
        return b''.join(each.command for each in self.exchanges)

    @property
    def wanted(self) -> bytes:
        return b''.join(each.reply for each in self.exchanges)


class Answer(NamedTuple):
    """What a server wrote on standard output, what it said on standard error, and its exit
    status."""

    out: bytes
    told: bytes
    status: int


def answer_of(program: str, session: Session) -> Answer:
    """What a program makes of a session. One that doesn't end has no exit status, and so is
    wrong."""
    try:
        done = subprocess.run([program] + run_words(), input=session.data, stdout=subprocess.PIPE,
                              stderr=subprocess.PIPE, timeout=FOR_A_SESSION, preexec_fn=bounded,
                              check=False)
    except subprocess.TimeoutExpired as late:
        return Answer(late.stdout or b'', b'not ended after %d seconds' % FOR_A_SESSION, -1)
    return Answer(done.stdout, done.stderr, done.returncode)


class Ended(Exception):
    """An output has no further reply."""


def replies_in(out: bytes) -> Iterator[bytes]:
    """The whole replies of an output, one by one."""
    pieces = [out] if out else []

    def more() -> bytes:
        if not pieces:
            raise Ended
        return pieces.pop()

    replies = Replies(more)
    while True:
        try:
            yield replies.reply()
        except (Ended, ValueError, IndexError):
            return


def first_difference(wanted: bytes, found: bytes) -> str:
    """The first line in which two replies differ."""
    wants, founds = wanted.splitlines(), found.splitlines()
    for number, (want, got) in enumerate(zip(wants, founds), 1):
        if want != got:
            return 'line %d of the reply: wanted %.120r, got %.120r' % (number, want, got)
    return 'wanted %d lines, got %d' % (len(wants), len(founds))


def differences(session: Session, out: bytes) -> List[Tuple[Exchange, str]]:
    """The exchanges that were answered otherwise, each with its first difference."""
    found, given = [], replies_in(out)
    for each in session.exchanges:
        replies = b''.join(next(given, b'') for _ in replies_in(each.reply))
        if replies != each.reply:
            found.append((each, first_difference(each.reply, replies)))
    return found


def told_of(who: str, session: Session, answer: Answer) -> List[str]:
    """A line for each difference between what a server answered and what it must answer; none where
    all is well."""
    if answer.out == session.wanted and not answer.status and not answer.told:
        return []
    lines = ['%s, %s, %s: %s' % (who, session.topic, each.what, line)
             for each, line in differences(session, answer.out)]
    if answer.status or answer.told or not lines:
        lines.insert(0, '%s, %s: status %d, %d bytes of %d, %.200r'
                     % (who, session.topic, answer.status, len(answer.out), len(session.wanted),
                        answer.told))
    return lines


def kept(session: Session) -> str:
    """The name of a temporary file that keeps the input of a session."""
    handle, name = tempfile.mkstemp(prefix='spmat-opcodes-%s-' % session.topic.replace(' ', '-'))
    with os.fdopen(handle, 'wb') as file:
        file.write(session.data)
    return name
