"""When replies come: before the session asks for more input, before a long batch runs, and before
the text that a `show` prints. So a client that sends many commands at once may wait for any
reply."""
import os
import select
import subprocess
from typing import Callable, ContextManager, Dict

from tests.lib.commands import EXIT, RESULT_IS_OPERAND, add, matrix_command, matrix_text, run_words
from tests.lib.patience import CHECKED
from tests.lib.runs import expect, started

BUDGET = b'ok budget 4611686018427387904 0 0\n'
SLOTS = 4096
# of a batch that takes a second or so; run-time checks make it some hundred times as long
ENTRIES = 1 << 10 if os.environ.get(CHECKED) else 1 << 17


def session(program: str) -> 'ContextManager[subprocess.Popen[bytes]]':
    """A session whose input is held open, so that replies come though more may be asked for."""
    return started([program] + run_words(), stdin=subprocess.PIPE, stdout=subprocess.PIPE,
                   bufsize=0)


def whole(child: 'subprocess.Popen[bytes]', want: bytes) -> None:
    """The next bytes of the output are these, however they are cut into pieces. What they are read
    by ends with the program, which is killed where they don't come."""
    got = b''
    while len(got) < len(want):
        piece = child.stdout.read(len(want) - len(got))
        if not piece:
            break
        got += piece
    expect('replies', want, got)


def end(child: 'subprocess.Popen[bytes]') -> None:
    child.stdin.write(b'quit\n')
    whole(child, b'ok quit\n')


def come_before_input_is_asked_for(program: str) -> None:
    """One command, many in one piece, and a command whose line or body is not whole yet: all before
    it have their replies."""
    text = matrix_text(1, 1, [(1, 1, 41)])
    with session(program) as child:
        for count in (1, 3, 200):
            child.stdin.write(b'budget\n' * count)
            whole(child, BUDGET * count)
        child.stdin.write(b'budget\nbudget\nbud')
        whole(child, BUDGET * 2)
        child.stdin.write(b'get\n' + matrix_command('A', text)[:-3])
        whole(child, BUDGET)
        child.stdin.write(text[-3:] + b'budget\n')
        whole(child, b'ok matrix 1 1 1\n' + BUDGET)
        end(child)


def come_before_a_long_batch(program: str) -> None:
    """Commands in one piece, the last of which runs a batch of some hundred million steps: the
    replies to the others come while it runs."""
    operator = RESULT_IS_OPERAND + add(1) * (SLOTS - 2) + EXIT
    with session(program) as child:
        child.stdin.write(matrix_command('A',
                                         matrix_text(ENTRIES, 1,
                                                     [(row, 1, row)
                                                      for row in range(1, ENTRIES + 1)])))
        whole(child, b'ok matrix %d 1 %d\n' % (ENTRIES, ENTRIES))
        child.stdin.write(b'op long unary %d\n%s\nbudget\napply B long A\nrun\n'
                          % (len(operator) + 1, operator))
        price = ENTRIES * SLOTS
        whole(child, b'ok op %d %d\n' % (SLOTS, SLOTS) + BUDGET + b'ok queued 1 %d\n' % price)
        expect('whether the batch has ended', [], select.select([child.stdout], [], [], 0)[0])
        whole(child, b'ok run 1 %d\nB %d 1 %d %d\n' % (price, ENTRIES, ENTRIES, price))
        end(child)


def come_before_a_text(program: str) -> None:
    """Commands in one piece, one of which shows a text of more bytes than a pipe holds: the replies
    before it can be read first."""
    side = 20000
    text = matrix_text(side, 1, [(row, 1, row) for row in range(1, side + 1)])
    with session(program) as child:
        child.stdin.write(matrix_command('A', text) + b'budget\nshow A\nbudget\n')
        whole(child, b'ok matrix %d 1 %d\n' % (side, side) + BUDGET + b'ok show %d\n' % len(text))
        whole(child, text + BUDGET)
        end(child)


PROMPT_CASES: Dict[str, Callable[[str], None]] = {
    'replies-before-input-is-asked-for': come_before_input_is_asked_for,
    'replies-before-a-long-batch': come_before_a_long_batch,
    'replies-before-a-text': come_before_a_text,
}
