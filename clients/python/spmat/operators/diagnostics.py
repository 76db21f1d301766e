"""An operator for people: what a server's check says of it, how one that is refused may be mended,
and what it was written as, its instructions and its price.

What registers hold before each instruction is what the verifier finds, reckoned here (`walk`); only
`Session.check` asks a server.
"""
from __future__ import annotations

import difflib
import re
from dataclasses import dataclass
from typing import Any, Dict, List, NamedTuple, Optional, Tuple

from .. import display as html
from ..errors import OperatorRefused
from . import KINDS, READY, Op, Operator, assembly, find

STACK_TOP, REGISTERS = 10, 11
GIVEN = {'unary': (1,), 'binary': (1, 2), 'index': (1, 2, 3, 4)}
UNSET, NUMBER = 'u', 'n'
MOST_KINDS = 8                                     # of one register at one slot: more help nobody

Way = Tuple[Tuple[int, bool], ...]
"""The conditional jumps on a way: their slots, and whether each was taken."""
State = List[Dict[str, Way]]
"""For each register what it may hold (u, n, p-8), and a way on which it does."""


class Step(NamedTuple):
    """An instruction: its slot, the slots that may follow, the registers that it reads, and the one
    that it writes. What it leaves there is a register whose content it copies, with what is added
    to it, or None for a number. Then its text, and whether it is a choice."""
    slot: int
    next: Tuple[int, ...]
    reads: Tuple[int, ...]
    writes: Optional[int]
    copies: Optional[Tuple[int, int]]
    text: str

    @property
    def chooses(self) -> bool:
        """Whether this is a conditional jump."""
        return len(self.next) == 2


def walk(kind: str, steps: List[Step]) -> Dict[int, State]:
    """What each register may hold before each instruction that a path leads to."""
    start: State = [{UNSET: ()} for _ in range(REGISTERS)]
    for register in GIVEN[kind]:
        start[register] = {NUMBER: ()}
    start[STACK_TOP] = {'p0': ()}
    before: Dict[int, State] = {0: start}
    for step in steps:
        if step.slot in before:
            after = _apply_step(step, before[step.slot])
            for number, slot in enumerate(step.next):
                _merge_state(before, slot, after,
                             ((step.slot, number == 1),) if step.chooses else ())
    return before


def _apply_step(step: Step, state: State) -> State:
    if step.writes is None or step.writes >= REGISTERS:
        return state
    out = list(state)
    if step.copies is None or step.copies[0] >= REGISTERS:
        out[step.writes] = {NUMBER: min(state[step.writes].values(), key=len, default=())}
    else:
        source, more = step.copies
        out[step.writes] = {_add(kind, more): way for kind, way in state[source].items()}
    return out


def _add(kind: str, by: int) -> str:
    """What a register holds to which a number is added."""
    return 'p%d' % (int(kind[1:]) + by) if kind.startswith('p') else kind


def _merge_state(before: Dict[int, State], slot: int, after: State, choice: Way) -> None:
    """Adds what comes to a slot to what was known to come there."""
    held = before.setdefault(slot, [{} for _ in range(REGISTERS)])
    for known, new in zip(held, after):
        for kind, way in new.items():
            if kind not in known and len(known) < MOST_KINDS:
                known[kind] = way + choice


def tag(kinds: Dict[str, Way]) -> str:
    """What the verifier says of a register that may hold these: `u` where some path leaves it
    unset, `m` where paths set it differently, else what it holds."""
    return UNSET if UNSET in kinds or not kinds else next(iter(kinds)) if len(kinds) == 1 else 'm'


# -- steps

def steps_of(operator: Operator) -> List[Step]:
    """The instructions of an operator whose text or code stands for a program. What has no mnemonic
    reads and writes nothing: a server refuses it."""
    text = operator.text
    if text is None:
        text = ''.join(line + '\n' for _, line in operator.lines())
    return [_step_of_line(line) for line in assembly.lines_of(text)]


def _step_of_line(line: assembly.Line) -> Step:
    form = assembly.OPERANDS.get(line.mnemonic, '')
    reads: List[int] = []
    writes: Optional[int] = None
    jump: Optional[int] = None
    for letter, operand in zip(form, line.operands):
        register = int(operand[1:]) if operand[:1] == 'r' and operand[1:].isdigit() else None
        if register is not None and letter in 'SRVB':
            reads.append(register)
        if register is not None and letter in 'DR':
            writes = register
        if letter == 'J':
            jump = int(operand) if _is_number(operand) else 0
    copies = None
    if line.mnemonic == 'mov64' and reads:
        copies = reads[0], 0
    elif line.mnemonic == 'add64' and len(reads) == 1 and _is_number(line.operands[1]):
        copies = reads[0], int(line.operands[1])
    return Step(line.slot, _following(line, jump),
                tuple(reads if line.mnemonic != 'exit' else [0]), writes, copies, line.text)


def _is_number(text: str) -> bool:
    return text.lstrip('+-').isdigit()


def _following(line: assembly.Line, jump: Optional[int]) -> Tuple[int, ...]:
    """The slots that may follow an instruction, which may jump over so many."""
    after = line.slot + assembly.size_of(line.mnemonic)
    if line.mnemonic == 'exit':
        return ()
    if jump is None:
        return (after,)
    return (after + jump,) if line.mnemonic in ('ja', 'ja32') else (after, after + jump)


# -- in words

COMMENTS = 'comments begin with ; or #'
# How to mend a line, by the rule of assembly text that it breaks; A2 and A3 go on.
REPAIRS = {'A1': 'put the comment on lines of its own',
           'A2': 'mnemonics are in lower case and end in their width, as ',
           'A3': 'it is written ', 'A4': 'registers are r0 to r10',
           'A5': 'offsets are -32768 to 32767, other numbers -2147483648 to 2147483647; '
                 '`wide rD, NUMBER` takes 64 bits',
           'A6': '`exit` ends each operator, with its value in r0'}
HEADS = ['slot', 'instruction'] + ['R%d' % number for number in range(REGISTERS)]
UNREACHED = 'no way leads here'
BOTH = 'each position at which both have an entry (row by row, the fewer of both)'
# Of each method the calls that its price counts, as docs/protocol.md has them.
CALLS = {
    'unary': {'apply': 'each entry'},
    'index': {'apply, select': 'each entry'},
    'binary': {'ewise_mult': BOTH, 'ewise_add': BOTH,
               'reduce_rowwise': 'each entry of a row but its first',
               'mxm': 'each multiplication, be it MUL or ADD (which takes one call less for each '
                      'entry of the result)'}}
KNOWN = 'before each instruction: - unset, n a number, pK the stack\'s top plus K'


# -- checked by a server

@dataclass(frozen=True)
class Check:
    """What a server says of an operator: whether it is `accepted`, or else its `refusal`.
    `instructions` is the most steps that a call takes. `rows` has of each instruction the slot, the
    text and what R0 to R10 hold before it (- for nothing), up to the one that is refused. It prints
    as a table. True where it is accepted."""
    operator: Operator
    refusal: Optional[OperatorRefused]
    rows: List[List[str]]

    @property
    def accepted(self) -> bool:
        """Whether the verifier takes it."""
        return self.refusal is None

    @property
    def instructions(self) -> int:
        """The number of its instructions, and the most steps that a call takes."""
        return len(self.rows)

    def __bool__(self) -> bool:
        return self.accepted

    def __str__(self) -> str:
        count = len(self.rows)
        said = '%s: %d instructions, so a call takes at most %d steps' % (
            self.operator.kind, count, count)
        last = said if self.refusal is None else str(self.refusal)
        return '\n'.join([*table(self.rows), last])

    __repr__ = __str__

    def _repr_html_(self) -> str:
        return show_check(self)


def table(rows: List[List[str]]) -> List[str]:
    """Instructions beside what is known before each, in columns."""
    if not rows:
        return []
    whole = [HEADS, *rows]
    # what no way leads to has one cell for all registers, which is wider than one of them
    widths = [max(len(row[at]) for row in whole if at < 2 or len(row) == len(HEADS))
              for at in range(len(HEADS))]
    return _align_columns(whole, widths)


def _align_columns(rows: List[List[str]], widths: List[int]) -> List[str]:
    return ['  '.join(cell.ljust(width) for cell, width in zip(row, widths)).rstrip()
            for row in rows]


def _make_row(slot: str, text: str, tags: List[str]) -> List[str]:
    """The row of an instruction. There are no tags where no way leads."""
    return [slot, text, *([tag.replace('u', '-') for tag in tags] or [UNREACHED])]


def rows_of(lines: List[str], types: List[str]) -> List[List[str]]:
    """The rows of an operator that is accepted, from what `dis` and `types` answer."""
    return [_make_row(slot, line, [] if tags == ['-'] else tags)
            for line, (slot, *tags) in zip(lines, map(str.split, types))]


def rows_before(operator: Operator, slot: Optional[int] = None) -> List[List[str]]:
    """The rows up to the instruction of a slot, or all, as the client reckons them."""
    steps = steps_of(operator)
    before = walk(operator.kind, steps)
    return [_make_row(str(step.slot), step.text,
                      list(map(tag, before.get(step.slot, ()))))
            for step in steps if slot is None or step.slot <= slot]


def explain_refusal(operator: Operator, refused: OperatorRefused) -> OperatorRefused:
    """A refusal with what can be told of this operator: the line, the register and the way of V11
    and V12, and how to mend a line."""
    if refused.at is None or refused.detail:
        return refused
    number, detail, said = None, '', ''
    if refused.rule in ('V11', 'V12'):
        detail = register_of(operator, refused.rule, refused.at)
    if operator.text is not None and refused.rule.startswith('V'):
        number = next((line.number for line in assembly.lines_of(operator.text)
                       if line.slot == refused.at), None)
    if operator.text is not None and refused.rule.startswith('A'):
        detail = suggest_repair(operator.text, refused.rule, refused.at)
    if operator.text is not None and refused.rule == 'A6':     # it has one of two faults
        said = 'more than 4,096 slots' if operator.bare_text else 'no instruction at all'
    out = refused.of_file(said=said).on_line(number, detail)
    assert isinstance(out, OperatorRefused)
    return out


def register_of(operator: Operator, rule: str, slot: int) -> str:
    """The register that is read there and unset on some path, or set differently on two, with the
    paths."""
    steps = steps_of(operator)
    step = next((step for step in steps if step.slot == slot), None)
    state = walk(operator.kind, steps).get(slot)
    if step is None or state is None:
        return ''
    texts = {step.slot: step.text for step in steps}
    for register in step.reads:
        kinds = state[register] if register < REGISTERS else {}
        if rule == 'V11' and UNSET in kinds:
            return 'r%d is unset %s' % (register, _describe_way(kinds[UNSET], texts))
        if rule == 'V12' and UNSET not in kinds and len(kinds) > 1:
            (one, first), (other, second) = list(kinds.items())[:2]
            return 'r%d is %s %s, and %s %s' % (
                register, _content(one), _describe_way(first, texts), _content(other),
                _describe_way(second, texts))
    return ''


def _content(kind: str) -> str:
    if kind == NUMBER:
        return 'a number'
    return "the stack's top" if kind == 'p0' else "the stack's top less %d" % -int(kind[1:])


def _describe_way(way: Way, texts: 'dict[int, str]') -> str:
    """A way in words: by its last few jumps."""
    if not way:
        return 'on each way that leads here'
    jumps = ["'%s' (slot %d) %s" % (texts.get(slot, ''), slot, 'jumps' if taken else "doesn't jump")
             for slot, taken in way[-3:]]
    return 'where ' + ('.. ' if len(way) > 3 else '') + ' and '.join(jumps)


def suggest_repair(text: str, rule: str, at: int) -> str:
    """How to mend a line that breaks a rule of assembly text."""
    lines = text.split('\n')
    line = lines[at - 1] if 0 < at <= len(lines) else ''
    given = next(assembly.lines_of(line), None)
    mnemonic, operands = (given.mnemonic, given.operands) if given else ('', [])
    if rule == 'A6' and any(map(assembly.bare, lines)):
        return 'an instruction is a slot, and a `wide` takes two'
    mend = REPAIRS.get(rule, '')
    if '//' in line and rule in ('A2', 'A3'):
        mend = COMMENTS
    elif rule == 'A2':
        low = mnemonic.lower()
        near = ([name for name in (low, low + '64', low + '32') if name in assembly.OPERANDS]
                or difflib.get_close_matches(low, assembly.OPERANDS, 3))
        mend += ' or '.join(near) or 'mov64, add32'
    elif rule == 'A3':
        mend += '`%s`%s' % (assembly.form_of(mnemonic), _describe_odd_operand(operands))
    return mend and 'to fix it: ' + mend


def _describe_odd_operand(operands: List[str]) -> str:
    for operand in operands:
        if len(operand.split()) > 1:
            return '; commas part operands'
        if operand[:2].lower() == '0x':
            is_number = re.fullmatch('[0-9a-fA-F]+', operand[2:])
            return '; numbers are decimal' + (': %d' % int(operand, 16) if is_number else '')
        if operand[:1].isalpha() and not (operand[:1] == 'r' and operand[1:].isdigit()):
            label = '; a label is a line `%s:`, and only a jump may name it' % operand
            return label if operand.isidentifier() else ''
    return ''


# -- listed and priced, without a server

@dataclass(frozen=True)
class Listing:
    """An operator beside its source: `language` and `source` as it was written, `rows` of its
    instructions (slot, text, what R0 to R10 hold before it). It prints as both, one below the
    other, and shows them side by side in a notebook."""
    operator: Operator
    language: str
    source: str
    rows: List[List[str]]

    @property
    def assembly(self) -> str:
        """The instructions, a line each."""
        return ''.join(row[1] + '\n' for row in self.rows)

    def columns(self) -> List[List[str]]:
        """The rows without registers that hold nothing anywhere, under a row of heads."""
        whole = [[*row, *[''] * (len(HEADS) - len(row))] for row in self.rows]
        used = [0, 1] + [at for at in range(2, len(HEADS) - 1)
                         if any(row[at] not in ('-', '') for row in whole)]
        return [[row[at] for at in used] for row in [HEADS, *whole]]

    def __str__(self) -> str:
        source = self.source.rstrip('\n') + '\n\n' if self.language != 'assembly' else ''
        cells = self.columns()
        widths = [max(len(row[at]) for row in cells) for at in range(len(cells[0]))]
        return '%s%s\n%s' % (source, '\n'.join(_align_columns(cells, widths)), steps(self.operator))

    __repr__ = __str__

    def _repr_html_(self) -> str:
        return show_listing(self)


def find_operator(op: Op, kind: Optional[str] = None) -> Operator:
    """An operator that is given as itself, as a function, or by name. Without a kind a function is
    looked at for its number of parameters, and a name in all kinds."""
    if isinstance(op, Operator):
        return op
    if kind is not None:
        if kind not in KINDS:
            raise ValueError('a kind is unary, binary or index, not %r' % (kind,))
        return find(kind, op)
    if isinstance(op, str):
        kinds = ('binary', 'unary', 'index')
        return find(next((kind for kind in kinds if op in READY[kind]), 'binary'), op)
    from .compiler import kind_by_parameters
    return find(kind_by_parameters(op), op)


def code_of(op: Op, kind: Optional[str] = None) -> Listing:
    """Show what an operator was written as, and its instructions.

    Parameters
    ----------
    op : Operator, callable or str
        An operator, a function, or the name of a built-in operator.
    kind : {'unary', 'binary', 'index'}, optional
        Which kind of operator is meant; by default a function's number of parameters says so, and a
        name is looked for in all kinds.

    Returns
    -------
    Listing
        The source (Python, C or assembly), the instructions, and what is known of the registers
        before each. It prints, and a notebook shows it.

    Raises
    ------
    CompileError
        If the function can't be an operator.

    See Also
    --------
    explain : What it costs.
    Session.dis : As the server has it.

    Examples
    --------
    >>> import spmat
    >>> print(spmat.code_of("plus").assembly, end="")
    mov64 r0, r1
    add64 r0, r2
    exit
    """
    found = find_operator(op, kind)
    language, source = found.origin()
    return Listing(found, language, source, rows_before(found))


def longest_way(op: Operator) -> int:
    """The steps of an operator's longest way, whatever its conditions say."""
    most: Dict[int, int] = {}
    for step in reversed(steps_of(op)):
        most[step.slot] = 1 + max((most.get(slot, 0) for slot in step.next), default=0)
    return most.get(0, 0)


def steps(op: Operator) -> str:
    """An operator's length and its longest way, in a line."""
    count, longest = len(op.lines()), longest_way(op)
    return '%d instructions: a price counts %d steps a call, and a call takes at most %d' % (
        count, count, longest)


@dataclass(frozen=True)
class Explained:
    """What an operator costs. `instructions` are the steps that a price counts for a call, and
    `longest` the most that a call takes. It also says which calls each method's price counts."""
    operator: Operator
    instructions: int
    longest: int

    def __str__(self) -> str:
        counted = CALLS[self.operator.kind]
        rows = ['%-15s %d steps for %s' % (methods, self.instructions, calls)
                for methods, calls in counted.items()]
        name = ' ' + self.operator.name if self.operator.name else ''
        first = '%s operator%s, %s' % (self.operator.kind, name, steps(self.operator))
        return '\n'.join([first, *rows])

    __repr__ = __str__


def explain(op: Op, kind: Optional[str] = None) -> Explained:
    """Tell what an operator costs. What a job costs is its result's `price`, before it runs.

    Parameters
    ----------
    op : Operator, callable or str
        An operator, a function, or the name of a built-in operator.
    kind : {'unary', 'binary', 'index'}, optional
        Which kind of operator is meant, as for `code_of`.

    Returns
    -------
    Explained
        The steps of its longest way, those that a price counts for a call, and for which calls each
        method counts them. It prints.

    Raises
    ------
    CompileError
        If the function can't be an operator.

    See Also
    --------
    code_of : The instructions.
    price : The cost of a call.

    Examples
    --------
    >>> import spmat
    >>> spmat.explain("plus").instructions
    3
    """
    found = find_operator(op, kind)
    return Explained(found, len(found.lines()), longest_way(found))


def list_operator(op: Operator) -> Any:
    """The listing of an operator, or None where its text stands for no program."""
    try:
        return code_of(op)
    except (ValueError, IndexError, KeyError):
        return None


# -- in notebooks

def show_operator(op: Operator) -> str:
    """An operator that no server was asked about: its source beside its instructions."""
    shown = list_operator(op)
    if shown is not None:
        return show_listing(shown)
    return '<div><b>%s operator</b> %s%s</div>' % (
        html.text_of(op.kind), html.text_of(op.name or ''), html.code(op.origin()[1]))


def show_listing(shown: Listing) -> str:
    """An operator's source beside its instructions, with what is known of the registers before
    each."""
    heads, *rows = shown.columns()
    known = '<div>%s%s</div>' % (html.table(heads, rows),
                                 '<small>%s</small>' % html.text_of(KNOWN))
    about = '%s<div style="color:#1f4e79">%s</div>' % (html.beside(html.code(shown.source), known),
                                                       html.text_of(steps(shown.operator)))
    return '<div><b>%s operator</b> %s <small>from %s</small>%s</div>' % (
        html.text_of(shown.operator.kind), html.text_of(shown.operator.name or ''),
        html.text_of(shown.language), about)


def show_check(found: Check) -> str:
    """An operator beside what the verifier knows before each instruction; the one that is refused
    last."""
    heads = ['slot', 'instruction'] + ['R%d' % number for number in range(11)]
    rows = [row if len(row) == len(heads) else [*row[:2], 'no way leads here', *[''] * 10]
            for row in found.rows]
    said = ('at most %d steps a call' % found.instructions if found.refusal is None
            else html.text_of(found.refusal))
    colour = '#1f4e79' if found.accepted else '#b5651d'
    return ('<div><b>%s operator</b> %s <span style="color:%s">%s</span>%s<div '
            'style="color:%s">%s</div></div>' % (
                html.text_of(found.operator.kind), html.text_of(found.operator.name or ''), colour,
                'accepted' if found.accepted else 'refused',
                html.table(heads, rows) if rows else '', colour, said))
