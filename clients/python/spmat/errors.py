"""What goes wrong, as exceptions that are told apart by what a user can do about them.

    SpmatError
        Closed               the session has ended; open another one
            ProtocolError        what the server sent isn't a reply to the command
        CompileError         a function can't be an operator: why, and on which line
        ReadError            a file, or a line of it, isn't what was to be read; a ValueError
            HeaderUnclear        the first line of a list names its columns, or is an edge: say
                                 header=True or header=False
        UnitsDiffer          values of two units meet: `A.rescale(unit)` gives one matrix the
                             other's; a ValueError
        NamesDiffer          two matrices have different names for their vertices: `align(A, B)`
                             gives both the same; a ValueError
        NotMade              this matrix was the result of a run that was refused; its cause says
                             why. Also called ResultLost
        Refused              the server answered `no ..`, or would have
            OperatorRefused      fix the operator (rules A1 to A6, V1 to V16, S9)
            TextRefused          fix the matrix text (M1 to M12)
            TooLarge             cut the work into parts (M4, S7, J7, J8)
            DimensionMismatch    shapes don't fit (J5, J9)
            DomainMismatch       the operator is of another kind than expected (J4)
            BudgetExceeded       the job needs more steps than are left (S8)
            OutOfMemory          the server has too little memory
            NoThread             the server could start too few threads; fewer workers may do. Also
                                 called ThreadUnavailable
            Busy                 the server has as many sessions as it serves; try later

Each refusal has its rule, the place (a line or a slot) and the line there. It has the rule's
sentence, too, in the words of docs/protocol.md and docs/bpf.md.
"""
from __future__ import annotations

import copy
import sys
import warnings
from typing import Any, Dict, Optional, Sequence, Tuple, Type, TypeVar

__all__ = ['BudgetExceeded', 'Busy', 'Closed', 'CompileError',
           'DimensionMismatch', 'DomainMismatch', 'HeaderUnclear', 'MORE_STEPS', 'MaskWarning',
           'NamesDiffer', 'NoThread', 'NotMade', 'NotSettled', 'OperatorRefused', 'OutOfMemory',
           'ProtocolError', 'ReadError', 'Refused', 'ResultLost',
           'SpmatError', 'TextRefused', 'ThreadUnavailable', 'TooLarge', 'UnitsDiffer',
           'about', 'class_of', 'parameters_of', 'refusal', 'warn_user']

MORE_STEPS = 'open a session with more steps, and other.adopt(G) takes a matrix there'
Fault = TypeVar('Fault', bound=BaseException)
AnyRefused = TypeVar('AnyRefused', bound='Refused')


def parameters_of(fault: BaseException) -> Tuple[str, ...]:
    """The parameters of a call that an error is about, by their names."""
    found: Tuple[str, ...] = getattr(fault, 'parameters', ())
    return found


def about(fault: Fault, *parameters: str) -> Fault:
    """Note with an error which more parameters of a call it is about, and give it back."""
    noted = dict.fromkeys((*parameters_of(fault), *parameters))
    fault.parameters = tuple(noted)  # type: ignore[attr-defined]
    return fault


def warn_user(words: str, kind: Type[Warning]) -> None:
    """Warns of the line that called this package, whatever lies between."""
    # as warnings find the line
    frame, level = sys._getframe(1), 2  # pylint: disable=protected-access
    package = __name__.partition('.')[0]
    while frame.f_back is not None and frame.f_globals.get('__name__', '').split('.')[0] == package:
        frame, level = frame.f_back, level + 1
    warnings.warn(words, kind, stacklevel=level)


class SpmatError(Exception):
    """Everything that this package raises of its own.

    It is the base of the errors. `NotSettled`, a RuntimeError, and the warnings stand apart. The
    list at the top of `spmat.errors` says what to do about each.

    Attributes
    ----------
    parameters : tuple of str
        The parameters of a call that it is about, such as ``columns``.
    """

    parameters: Tuple[str, ...] = ()


class Closed(SpmatError):
    """The session has ended.

    It ends by `close`, by a refusal, or as the program or the connection is gone. The words have
    what the program said. Each call that needs the session raises this from then on. Open another
    session, and make the matrices there anew."""


class ProtocolError(Closed):
    """What came is no reply to the command that was sent.

    The other side is no server of spmat, or something between drops, repeats or swaps replies. The
    session is ended, as commands and replies are out of step. Look whether the address is a
    server's, and what lies between; then open another session."""


class MaskWarning(UserWarning):
    """A matrix was given as a mask.

    It means its structure, `A.S`, where the C API of the GraphBLAS means its values, `A.V`. Write
    `mask=A.S` or `mask=A.V`, which give no warning."""


class ReadError(SpmatError, ValueError):
    """A file isn't what was to be read.

    Calls that read a file raise it. Mend the line, or give the arguments that the words name. It is
    a ValueError, too.

    Attributes
    ----------
    file : str
        Its name.
    at : int or None
        The line, from 1, or None.
    words : str
        What is wrong.
    line : str
        What stands there, or empty.
    """

    def __init__(self, file: str, at: Optional[int], words: str, line: str = '') -> None:
        self.file, self.at, self.words, self.line = file, at, words, line
        place = file if at is None else '%s, line %d' % (file, at)
        super().__init__('%s: %s%s' % (place, words, ': %r' % line if line else ''))

    def __reduce__(self) -> Tuple[Any, ...]:
        return type(self), (self.file, self.at, self.words, self.line), vars(self)


class HeaderUnclear(ReadError):
    """The first line of a list may name its columns, or be an edge.

    The words have both calls: with ``header=True``, and with ``header=False``. Make one of them. It
    is a ReadError, too, and a ValueError."""

    parameters = ('header',)


class NamesDiffer(SpmatError, ValueError):
    """Two matrices that a job would combine have different names for their rows or columns.

    By position the values of different vertices would meet. `spmat.align` brings matrices to the
    same names, and `nodelist=` reads one with the names of another. Rows and columns of a matrix
    that was read with `bipartite=True` differ also where their names are equal. It is a ValueError,
    too. In pandas such tables are aligned; python-graphblas knows no names."""


class NotMade(SpmatError):
    """The result of a job whose run was refused, so that it never came to be.

    A call that wants such a matrix raises it. The refusal is the cause, `__cause__`: do about it
    what its class says, and ask for the job again. `ResultLost` is the same class."""


ResultLost = NotMade


class UnitsDiffer(SpmatError, ValueError):
    """Numbers of two units would meet, or a result would have two units.

    Such units are hundredths and thousandths. The words say what to write; `A.rescale(unit)` gives
    one matrix the other's. It is a ValueError, too."""


class CompileError(SpmatError):
    """A function of Python or C that can't be an operator, or that clang refused.

    It is raised where the operator is made, or before it is first used; no server was asked. The
    words say what to do."""


class NotSettled(RuntimeError):
    """More rounds than there can be, or than were allowed.

    `Loop.run`, `fixpoint` and algorithms that go by rounds raise it. Allow more rounds, by `most=`
    of the first two, or look whether the rounds come to an end at all. The state of a `Loop` is
    that behind the rounds that were made. It is a RuntimeError, and no `SpmatError`."""


# -- refusals, by the rules of docs/protocol.md and docs/bpf.md, in their words

SENTENCES: Dict[str, str] = {
    'S1': "unknown command: the first word is no command's, whatever follows it",
    'S2': 'a wrong number of words, a malformed or out-of-range KIND, LEN or THUNK, or another '
    'word where mask was expected',
    'S3': 'a name that is not 1 to 32 letters, digits or underscores',
    'S4': 'the name of an operand, an operator or the mask is not bound',
    'S5': 'the input ends within a body',
    'S6': 'a line too long',
    'S7': 'LEN above 268,435,456 for matrix, above 262,144 for asm and op',
    'S8': 'fewer steps are left than the price',
    'S9': 'a body of op that is not an even number of hexadecimal digits',
    'A1': 'a line of over 1,024 bytes, comment included, LF and CR not counted',
    'A2': 'unknown mnemonic',
    'A3': 'too few or too many operands, or one of the wrong form: expected a register, or a '
    'number',
    'A4': 'r with digits that is none of r0 to r10',
    'A5': 'a number out of range for its field',
    'A6': 'more than 4,096 slots, at the line that passes them; no instruction at all, at the '
    'number of lines plus 1',
    'V1': 'the length is 0, no multiple of 8, or over 4,096 slots (looked at first)',
    'V2': 'unknown opcode',
    'V3': 'outside the profile: opcodes 85, c3, db, 20, 28, 30, 40, 48, 50, and 18 with a '
    'source field other than 0',
    'V4': 'a register field that is used is above 10',
    'V5': "a field that is not used isn't 0, or a reserved value of offset or imm",
    'V6': "a wide load in the last slot, or whose second slot's first 32 bits aren't 0",
    'V7': 'a jump to its own slot or before it',
    'V8': 'a jump out of the code, or into the second slot of a wide load',
    'V9': 'R10 is written',
    'V10': 'the last instruction is no EXIT',
    'V11': 'a register is read that some path leaves unset',
    'V12': 'a register is read that two paths set differently: to a number and a place in the '
    'stack, or to two places',
    'V13': 'expected a number, found a place in the stack',
    'V14': 'expected a place in the stack, found a number',
    'V15': 'an access, or a moved place, outside the stack',
    'V16': "a load of a byte that some path hasn't stored",
    'M1': "line 1 is missing, doesn't have five words, or its first isn't %%MatrixMarket in "
    "this case",
    'M2': 'another word of line 1 is none of matrix, coordinate, integer or pattern, general or '
    'symmetric',
    'M3': "the size line is missing, or isn't three numbers without -",
    'M4': 'rows, columns or entries above 16,777,216, or in symmetric entries above 8,388,608',
    'M5': 'an entry line has the wrong number of fields, or a field that is no number (an index '
    'has no -)',
    'M6': 'an index is 0 or above its size',
    'M7': 'a value is outside -2^63 to 2^63 - 1',
    'M8': 'the position was given before, or in symmetric its mirror',
    'M9': 'too few entries; the line named is the number of lines plus 1, as for a missing line '
    '1 or size line',
    'M10': "a line behind the last entry that isn't passed over, whatever it holds",
    'M11': 'a line of over 1,024 bytes, LF and CR not counted',
    'M12': 'symmetric, and rows differ from columns (after M4)',
    'J4': 'an operator is of another kind than the job takes',
    'J5': "the operands' shapes don't fit",
    'J6': '64 jobs wait already',
    'J7': 'the result could be too large',
    'J8': 'the price is above 4,294,967,296',
    'J9': "the mask's shape is not the result's",
    'memory': 'out of memory for what the command needs',
    'memory SPENT': 'run: out of memory, after SPENT steps',
    'thread SPENT': 'run: a thread could not be started for a worker; those that were started '
    'went on, up to SPENT steps',
    'busy': 'the server has as many sessions as it serves',
    'login': 'the gateway knows no such user, or another token is right; `expired`: this one was '
    'right, and an operator of the gateway can renew it',
    'quota': 'this user, or its group, has used up a quota',
    'ledger': 'the gateway can book no session now; try later',
    'engine': 'the gateway could not start a session',
    'session': 'the gateway has ended the session; it says why, how the steps are known, and '
    'how many it charges',
}
# what to do about a broken rule
MENDS: Dict[str, str] = {
    'V7': 'jump forward, and write a loop out',
    'V8': 'count from the slot after the jump, two slots for a wide',
    'V9': 'copy R10, and move the copy',
    'V10': 'end with exit',
    'V11': 'set it on all paths, as at the start; EXIT reads R0',
    'V12': 'read it on each path, before they meet',
    'V13': 'places are copied (mov64), moved (add64 of a number) and used as bases, and nothing '
    'else',
    'V14': 'load and store through R10, or a copy of it',
    'V15': 'b bytes want a place from -512 to -b',
    'V16': 'store it on all paths first',
}
# by which a gateway ends a session, or lets it not begin; the words behind say more
OF_GATEWAY = ('login', 'quota', 'ledger', 'engine', 'session')


def is_placed(rule: str) -> bool:
    """Whether refusals by this rule name a line or a slot: A1, V7, M5."""
    return rule[:1] in ('A', 'V', 'M') and rule[1:].isdigit()


class Refused(SpmatError):
    """A refusal: the server answered `no ..`, or would have.

    Its subclasses tell apart what can be done. A refusal that the client foresees is the same
    exception, raised before the job is sent.

    Attributes
    ----------
    rule : str
        The rule as the documents name it: 'J5'; 'memory', 'thread', 'busy'.
    sentence : str
        The rule in words.
    at : int or None
        The line (M and A rules) or slot (V rules), or None.
    line : str
        What stands there.
    command : str
        The command's line.
    numbers : tuple of int
        All numbers of the reply.
    round : int or None
        Of a loop the round that it came in.
    detail : str
        What is known beside, such as the shapes, or a hint; else empty.
    file : str
        The file whose line is meant, or empty.
    said : str
        Other words for the sentence, or empty.
    text_line : int or None
        The line of the text that a slot comes from, or None.
    """

    round: Optional[int] = None

    def __init__(self, rule: str, numbers: Sequence[int] = (), command: str = '', line: str = '',
                 detail: str = '') -> None:
        self.rule, self.numbers = rule, tuple(numbers)
        self.command, self.line, self.detail = command, line, detail or self._describe_numbers()
        # copies and pickles are made of these arguments, and of what is set behind them
        super().__init__(rule, self.numbers, command, line, self.detail)
        self.at: Optional[int] = self.numbers[0] if self.numbers and is_placed(rule) else None
        self.file, self.said = '', ''
        self.text_line: Optional[int] = None
        of_run = rule + ' SPENT'                   # of a run that was refused, where numbers came
        key = of_run if rule not in SENTENCES or self.numbers and of_run in SENTENCES else rule
        self.sentence = SENTENCES.get(key, 'a refusal that this client does not know')

    def _describe_numbers(self) -> str:
        """Say what the numbers of the reply mean."""
        return ''

    def __str__(self) -> str:
        return self.message()

    def message(self) -> str:
        """What is said of it, as `str` gives it.

        Returns
        -------
        str
            The rule and its sentence, where it was broken, and how to fix it.
        """
        text = '%s: %s' % (self.rule, self.said or self.sentence)
        if self.rule in ('memory', 'thread') and self.numbers:
            text = text.replace('SPENT', '%d' % self.numbers[0])
        if self.at is not None:
            text += ', %s %d' % ('slot' if self.rule.startswith('V') else 'line', self.at)
            text += ' of ' + self.file if self.file else ''
            text += ', line %d' % self.text_line if self.text_line is not None else ''
            text += ": '%s'" % self.line if self.line else ''
        text += ' (in `%s`)' % self.command if self.command and not self.file else ''
        more = [self.detail] if self.detail else []
        more += ['to fix it: ' + MENDS[self.rule]] if self.rule in MENDS else []
        return '; '.join([text] + more)

    def _replace(self: AnyRefused, **changes: Any) -> AnyRefused:
        out = copy.copy(self)
        vars(out).update(changes)
        return out

    def of_file(self, file: str = '', said: str = '') -> 'Refused':
        """This refusal, of a line of a file.

        Parameters
        ----------
        file : str, optional
            The file's name.
        said : str, optional
            Other words for its sentence.

        Returns
        -------
        Refused
            A copy.
        """
        return self._replace(file=file or self.file, said=said or self.said)

    def on_line(self, number: Optional[int], detail: str = '') -> 'Refused':
        """This refusal of a slot, with the line of the text that it comes from.

        Parameters
        ----------
        number : int or None
            The line.
        detail : str, optional
            A hint.

        Returns
        -------
        Refused
            A copy.
        """
        return self._replace(text_line=number, detail=detail or self.detail)

    def hinting(self, rule: str, hint: str) -> 'Refused':
        """This refusal, with a hint if it is by this rule and has none yet.

        Parameters
        ----------
        rule : str
            The rule.
        hint : str
            What to do.

        Returns
        -------
        Refused
            A copy, or itself.
        """
        return self if self.rule != rule or self.detail else self._replace(detail=hint)


class OperatorRefused(Refused):
    """An operator breaks a rule.

    The rules are those of assembly text (A1 to A6), of code (V1 to V6, S9) and of the verifier (V7
    to V16). Fix the operator at the line or slot `at`, where `line` stands. `Session.check` finds
    it out before a job does."""


class TextRefused(Refused, ValueError):
    """A matrix text breaks a rule (M1 to M12 but M4).

    Fix the text at the line `at`. It is a ValueError, too."""


class TooLarge(Refused, ValueError):
    """Sizes, a body, a price or the possible result of a job above a limit (M4, S7, J7, J8).

    Cut the work into parts, such as some rows at a time. It is a ValueError, too."""


class DimensionMismatch(Refused, ValueError):
    """Shapes of operands (J5) or of the mask (J9) don't fit.

    Look at the `shape` of both. It is a ValueError, too. In python-graphblas the same name."""


class DomainMismatch(Refused, TypeError):
    """An operator of another kind than the job takes (J4).

    Give an operator of the kind that the method names: unary, binary or index. It is a TypeError,
    too. In python-graphblas the same name."""


class _Spent(Refused):
    def _describe_numbers(self) -> str:
        return '%s steps were spent' % format(self.numbers[0], ',') if self.numbers else ''

    @property
    def spent(self) -> Optional[int]:
        """The steps that a refused run took.

        Returns
        -------
        int or None
            None where another command was refused.
        """
        return self.numbers[0] if self.numbers else None


class OutOfMemory(_Spent):
    """The server has no memory for what the command needs.

    Let go of matrices that nobody needs, cut the work into parts, or take a server with more
    memory. In python-graphblas the same name."""


class NoThread(_Spent):
    """A run could not start a thread for a worker.

    The threads that were started went on, up to `spent` steps. A session of fewer workers may do.
    `ThreadUnavailable` is the same class."""


ThreadUnavailable = NoThread


class Busy(Refused):
    """The server has as many sessions as it serves, and closed the connection.

    It is raised where a session is opened. Try later. A gateway that can book no session now is
    busy, too."""


class BudgetExceeded(Refused):
    """A job's price is above what is left of the budget, also after the queue was run. Or prices of
    jobs that wait are above what is left of a `Session.limit`.

    Open a session with more steps, and `other.adopt(G)` takes a matrix there.

    Attributes
    ----------
    algorithm : str
        The function of `spmat.algorithms` that wants it, or empty.
    partial : Any
        What that function had found by then, where that means something: a result of the same kind,
        as the function's docstring says, else None. Reading it takes no steps.
    """

    algorithm = ''
    parameters = ('steps',)
    partial: Any = None

    def _describe_numbers(self) -> str:
        return ('the price is %d, and %d are left' % tuple(self.numbers[:2])
                if len(self.numbers) >= 2 else '')

    def with_advice(self) -> 'BudgetExceeded':
        """This refusal of a job, with what can be done.

        Returns
        -------
        BudgetExceeded
            A copy.
        """
        return self._replace(
            detail='the price is %d, and %d are left: %s' % (self.price, self.left, MORE_STEPS))

    def name_algorithm(self, name: str) -> None:
        """Note which algorithm wanted the job.

        Parameters
        ----------
        name : str
            The function of `spmat.algorithms`.
        """
        wanted = '%s wants a job of up to %s steps' % (name, format(self.price, ','))
        self.algorithm, self.detail = name, self.detail.replace('the price is %d' % self.price,
                                                                wanted, 1)

    def by(self, way: str) -> 'BudgetExceeded':
        """This refusal, with another way to more steps, for callers who have no session.

        Parameters
        ----------
        way : str
            The way, in words.

        Returns
        -------
        BudgetExceeded
            A copy.
        """
        return self._replace(detail=self.detail.replace(MORE_STEPS, way))

    @property
    def price(self) -> int:
        """The most steps that the job can take.

        Returns
        -------
        int
            Of a limit those of all jobs that wait.
        """
        return self.numbers[0]

    @property
    def needed(self) -> int:
        """The steps that have to be left.

        Returns
        -------
        int
            The least: `price`.
        """
        return self.numbers[0]

    @property
    def left(self) -> int:
        """The steps that were left.

        Returns
        -------
        int
            Those when the job was refused.
        """
        return self.numbers[1]


_CLASSES: Dict[str, Type[Refused]] = {
    'J4': DomainMismatch, 'J5': DimensionMismatch, 'J9': DimensionMismatch, 'J7': TooLarge,
    'J8': TooLarge, 'M4': TooLarge, 'S7': TooLarge, 'S8': BudgetExceeded, 'S9': OperatorRefused,
    'memory': OutOfMemory, 'thread': NoThread, 'busy': Busy, 'ledger': Busy}
_FAMILIES: Dict[str, Type[Refused]] = {'A': OperatorRefused, 'V': OperatorRefused, 'M': TextRefused}


def class_of(rule: str) -> Type[Refused]:
    """The exception of a rule."""
    family = _FAMILIES.get(rule[:1], Refused) if is_placed(rule) else Refused
    return _CLASSES.get(rule, family)


def refusal(rule: str, numbers: Sequence[int] = (), command: str = '', line: str = '',
            detail: str = '') -> Refused:
    """The exception of a rule, for a refusal that the client foresees."""
    return class_of(rule)(rule, numbers, command, line, detail)


# tracebacks, repr and pickles name them as callers import them
for _one in map(globals().__getitem__, __all__):
    if isinstance(_one, type):
        _one.__module__ = 'spmat'
