"""A session: commands, their replies, and refusals in their order (docs/protocol.md, "Commands",
"The budget" and "Refusals")."""
import re
from typing import BinaryIO, Callable, Dict, List, NamedTuple, Optional, Tuple
from . import assembly, market
from .instructions import decode
from .machine import OPERANDS
from .matrix import Matrix
from .operations import result_of
from .prices import FORMS, Job, price_of
from .verifier import Operator, types_text, verify
from .words import LONGEST_LINE, WORD, Refusal, fits, is_digits, is_value, words_of

MOST_JOBS = 64
MOST_BYTES = {'matrix': 268435456, 'asm': 262144, 'op': 262144}
WORDS = {'matrix': 3, 'asm': 4, 'op': 4, 'dis': 2, 'types': 2, 'show': 2, 'run': 1, 'budget': 1,
         'quit': 1}
LINES: Dict[str, Callable[[Operator], List[str]]] = {'dis': lambda operator: assembly.disassemble(
    operator.program),
                                                     'types': types_text}
# how a session stands; those that ended have the exit status
GOES_ON, ENDED_BY_CLIENT, ENDED_BY_REFUSAL = None, 0, 3


class Queued(NamedTuple):
    job: Job
    price: int


class Fatal(Refusal):
    """A refusal behind which commands can't be told from bodies any more: the session ends."""


class Session:
    """What a session keeps: matrices, operators, queued jobs, and its budget."""

    def __init__(self, steps: int) -> None:
        self.matrices: Dict[str, Matrix] = {}
        self.operators: Dict[str, Operator] = {}
        self.queue: List[Queued] = []
        self.left, self.spent = steps, 0

    @property
    def reserved(self) -> int:
        return sum(queued.price for queued in self.queue)

    def serve(self, source: BinaryIO, sink: BinaryIO) -> int:
        """Serves commands until the session ends, and answers the exit status."""
        while True:
            reply, status = self.turn(source)
            if reply is not None:
                sink.write(reply)
                sink.flush()
            if status is not GOES_ON:
                return status

    def turn(self, source: BinaryIO) -> Tuple[Optional[bytes], Optional[int]]:
        """The reply to the next command, if it has one, and how the session stands then."""
        try:
            line = read_line(source)
            if line is None:
                return None, ENDED_BY_CLIENT
            words = [word.decode('latin-1') for word in words_of(line)]
            if not words:
                return None, GOES_ON
            return self.answer(words, source), ENDED_BY_CLIENT if words == ['quit'] else GOES_ON
        except Fatal as refusal:
            return b'%s\n' % str(refusal).encode(), ENDED_BY_REFUSAL
        except Refusal as refusal:
            return b'%s\n' % str(refusal).encode(), GOES_ON

    def answer(self, words: List[str], source: BinaryIO) -> bytes:
        command = words[0]
        if command in FORMS:
            return self.submit(words)
        if command not in WORDS:
            raise Refusal('S1')
        if command in MOST_BYTES:
            return self.upload(words, read_body(words, source))
        if len(words) != WORDS[command]:
            raise Refusal('S2')
        if command == 'show' or command in LINES:
            return self.tell(command, name_of(words[1]))
        if command == 'run':
            return self.run()
        if command == 'budget':
            return b'ok budget %d %d %d\n' % (self.left, self.reserved, self.spent)
        return b'ok quit\n'

    def upload(self, words: List[str], body: bytes) -> bytes:
        """Binds a name to a matrix or an operator."""
        if words[0] == 'matrix':
            name = name_of(words[1])
            matrix = market.read(body)
            self.matrices[name] = matrix
            return b'ok matrix %d %d %d\n' % (matrix.rows, matrix.columns, matrix.entries)
        if words[2] not in OPERANDS:
            raise Refusal('S2')
        name = name_of(words[1])
        program = assembly.assemble(body) if words[0] == 'asm' else decode(code_of(body))
        self.operators[name] = verify(program, words[2])
        return b'ok op %d %d\n' % (program.slots, len(program.instructions))

    def tell(self, command: str, name: str) -> bytes:
        if command == 'show':
            text = market.write(bound(self.matrices, name))
            return b'ok show %d\n' % len(text) + text
        operator = bound(self.operators, name)
        lines = LINES[command](operator)
        return b'ok %s %d\n' % (command.encode(),
                                len(lines)) + ''.join(line + '\n' for line in lines).encode()

    def submit(self, words: List[str]) -> bytes:
        """Queues a job and reserves its price."""
        job = self.job_of(words)
        if job is None:
            raise Refusal('J6')
        price = price_of(job)
        if price > self.left:
            raise Refusal('S8', price, self.left)
        self.left -= price
        self.queue.append(Queued(job, price))
        return b'ok queued %d %d\n' % (len(self.queue), price)

    def job_of(self, words: List[str]) -> Optional[Job]:
        """The job that a command asks for: None where no more jobs can wait. Refused by S2, S3, S4
        in this order."""
        words, mask = without_mask(words)
        form = next((form for form in FORMS[words[0]] if len(words) == 2 + form.operators
                     + form.matrices + form.has_thunk), None)
        if form is None:
            raise Refusal('S2')
        thunk = word_of(words.pop()) if form.has_thunk else 0
        command, out, *names = words
        for name in [out, *names] + ([] if mask is None else [mask]):
            name_of(name)
        operators = [bound(self.operators, name) for name in names[:form.operators]]
        matrices = [bound(self.matrices, name) for name in names[form.operators:]]
        masked_by = None if mask is None else bound(self.matrices, mask)
        if len(self.queue) == MOST_JOBS:
            return None
        return Job(command, form, out, operators, matrices, thunk, masked_by)

    def run(self) -> bytes:
        """Runs the queued jobs, binds their results in order, and settles their prices."""
        lines, spent = [], 0
        for job, price in self.queue:
            matrix, steps = result_of(job)
            self.matrices[job.out] = matrix
            self.left += price - steps
            spent += steps
            lines.append('%s %d %d %d %d\n' % (job.out, matrix.rows, matrix.columns, matrix.entries,
                                               steps))
        self.queue, self.spent = [], self.spent + spent
        return b'ok run %d %d\n' % (len(lines), spent) + ''.join(lines).encode()


def read_line(source: BinaryIO) -> Optional[bytes]:
    """The next line without its end; None at the end of the input. No more is read of a line that
    is too long."""
    line = source.readline(LONGEST_LINE + len(b'\r\n'))
    if not line:
        return None
    if line.endswith(b'\n'):
        line = line[:-2] if line.endswith(b'\r\n') else line[:-1]
    if len(line) > LONGEST_LINE:
        raise Fatal('S6')
    return line


def read_body(words: List[str], source: BinaryIO) -> bytes:
    """The body of `matrix`, `asm` or `op`. Refused by S2, S7, S5 in this order."""
    if len(words) != WORDS[words[0]] or not is_digits(words[-1].encode('latin-1')) or int(
        words[-1]) > WORD:
        raise Fatal('S2')
    length = int(words[-1])
    if length > MOST_BYTES[words[0]]:
        raise Fatal('S7')
    body = source.read(length)
    if len(body) < length:
        raise Fatal('S5')
    return body


def code_of(body: bytes) -> bytes:
    """The code that a body of hexadecimal digits stands for."""
    digits = re.sub(rb'[ \t\r\n]', b'', body)
    if not re.fullmatch(rb'([0-9a-fA-F]{2})*', digits):
        raise Refusal('S9')
    return bytes.fromhex(digits.decode())


def name_of(word: str) -> str:
    if not re.fullmatch('[A-Za-z0-9_]{1,32}', word):
        raise Refusal('S3')
    return word


def bound(names: Dict, name: str):
    if name not in names:
        raise Refusal('S4')
    return names[name]


def word_of(word: str) -> int:
    """The word of a THUNK."""
    if not is_value(word.encode('latin-1')) or not fits(int(word)):
        raise Refusal('S2')
    return int(word) & WORD


def without_mask(words: List[str]) -> Tuple[List[str], Optional[str]]:
    """The words of a job without `mask M`, and M. These two are looked for where there are more
    words than the longest form has. So one word behind the matrix of `apply` is a THUNK, whatever
    it is."""
    longest = 2 + max(form.operators + form.matrices + form.has_thunk for form in FORMS[words[0]])
    if len(words) <= longest:
        return words, None
    if words[-2] != 'mask':
        raise Refusal('S2')
    return words[:-2], words[-1]
