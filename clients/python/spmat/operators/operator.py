"""An operator: a program with a kind, as assembly text or code."""
from __future__ import annotations

from dataclasses import dataclass, field
from typing import Iterator, List, Optional, Tuple, Union

from .assembly import lines_of, lines_of_code, without_labels

KINDS = ('unary', 'binary', 'index')
# What is put before a binary operator, so that an operand of it is the thunk: as text and as code.
_RIGHT = (('mov64 r2, r4', 'bf42000000000000'),)
_LEFT = (('mov64 r2, r1', 'bf12000000000000'), ('mov64 r1, r4', 'bf41000000000000'))


@dataclass(frozen=True, eq=False)
class Operator:
    """A program and its kind.

    It belongs to no session, and can be pickled. A session uploads each program once, at its first
    use, whatever object it comes in. Operators that differ in their names alone are equal.

    Parameters
    ----------
    kind : {'unary', 'binary', 'index'}
        Whether it is called with x, with x and y, or with x, row, column and thunk.
    text : str, optional
        Assembly text (docs/bpf.md), or else `code`.
    code : bytes, optional
        BPF code, 8 bytes a slot.
    name : str, optional
        For people, and for the session's messages.

    See Also
    --------
    asm, code : Make one of assembly text or code.
    unary, binary, indexunary : Make one of a Python function.
    c : Make one of a function in C.
    """
    kind: str
    text: Optional[str] = None
    code: Optional[bytes] = None
    name: Optional[str] = field(default=None, compare=False)

    def __post_init__(self) -> None:
        if self.kind not in KINDS:
            raise ValueError('a kind is unary, binary or index, not %r' % (self.kind,))
        if (self.text is None) == (self.code is None):
            raise ValueError('an operator has assembly text, or code')

    def __eq__(self, other: object) -> bool:
        if not isinstance(other, Operator):
            return NotImplemented
        return self.kind == other.kind and self.text == other.text and self.code == other.code

    def __hash__(self) -> int:
        return hash((self.kind, self.text, self.code))

    def __repr__(self) -> str:
        first = '' if self.text is None else next((line for _, line in self.slots()), '')
        unnamed = "'%s ..'" % first if first else 'of %d slots' % (len(self.code or b'') // 8)
        return '<%s operator %s>' % (self.kind, self.name or unnamed)

    def _repr_html_(self) -> str:
        from .diagnostics import show_operator     # which knows operators, and is seldom needed
        return show_operator(self)

    @property
    def body(self) -> bytes:
        """What is uploaded: the assembly text, or the code in hexadecimal.

        Returns
        -------
        bytes
            The text, or two digits for each byte of the code.

        See Also
        --------
        bare_text : The instructions alone.

        Examples
        --------
        >>> import spmat
        >>> spmat.asm("unary", "mov64 r0, r1\\nexit").body
        b'mov64 r0, r1\\nexit\\n'
        """
        return self.text.encode() if self.text is not None else (self.code or b'').hex().encode()

    @property
    def bare_text(self) -> str:
        """The instructions of the text, a line each, without comments.

        Returns
        -------
        str
            The lines; empty where there is code alone.

        See Also
        --------
        body : What is uploaded.

        Examples
        --------
        >>> import spmat
        >>> spmat.asm("unary", "mov64 r0, r1  ; a copy\\nexit").bare_text
        'mov64 r0, r1\\nexit\\n'
        """
        return ''.join(line + '\n' for _, line in self.slots())

    def line_at(self, rule: str, at: int) -> str:
        """The line that a refusal names.

        Parameters
        ----------
        rule : str
            The rule: A rules name lines of the text, V rules slots, of which `wide` has two.
        at : int
            The number of the line, from 1, or of the slot, from 0.

        Returns
        -------
        str
            The line. Where there is code alone, the slot's hexadecimal digits. Empty where there is
            none.

        See Also
        --------
        lines : All lines, with their slots.

        Examples
        --------
        >>> import spmat
        >>> spmat.asm("unary", "mov64 r0, r1\\nexit").line_at("V11", 1)
        'exit'
        """
        if self.text is None:
            return (self.code or b'')[8 * at:8 * at + 8].hex() if rule.startswith('V') else ''
        if rule.startswith('A'):
            lines = self.text.split('\n')
            return lines[at - 1].strip() if 0 < at <= len(lines) else ''
        return next((line for slot, line in self.slots() if slot == at), '')

    def slots(self) -> Iterator[Tuple[int, str]]:
        """The slot of each instruction of the text, with its line, without comments.

        Yields
        ------
        slot : int
            The slot, from 0; `wide` takes two.
        line : str
            The instruction.

        See Also
        --------
        lines : The same, also where there is code alone.

        Examples
        --------
        >>> import spmat
        >>> list(spmat.asm("unary", "mov64 r0, r1\\nexit").slots())
        [(0, 'mov64 r0, r1'), (1, 'exit')]
        """
        for line in lines_of(self.text or ''):
            yield line.slot, line.text

    def lines(self) -> List[Tuple[int, str]]:
        """The slot of each instruction, and its assembly text: of code, too.

        Returns
        -------
        list of tuple
            A slot and a line for each instruction, in order.

        See Also
        --------
        origin : The source.

        Examples
        --------
        >>> import spmat
        >>> spmat.code("unary", "bf100000000000009500000000000000").lines()
        [(0, 'mov64 r0, r1'), (1, 'exit')]
        """
        return lines_of_code(self.code or b'') if self.text is None else list(self.slots())

    def origin(self) -> Tuple[str, str]:
        """The language that it was written in, and its source.

        Returns
        -------
        tuple of str
            Both: 'assembly' and the assembly text, where nothing else is known.

        See Also
        --------
        lines : The instructions, whatever it was written in.

        Examples
        --------
        >>> import spmat
        >>> spmat.asm("unary", "mov64 r0, r1\\nexit").origin()
        ('assembly', 'mov64 r0, r1\\nexit\\n')
        """
        if self.text is not None:
            return 'assembly', self.text
        return 'assembly', ''.join(text + '\n' for _, text in self.lines())

    def bind_right(self) -> Operator:
        """Make OP(x, thunk) of a binary OP, as an index operator; one instruction more.

        Returns
        -------
        Operator
            The index operator, whose name ends in `_right` where this one has a name.

        Raises
        ------
        TypeError
            If this isn't a binary operator.

        See Also
        --------
        bind_left : The other side.

        Examples
        --------
        >>> import spmat
        >>> spmat.binary.minus.bind_right()
        <index operator minus_right>
        """
        return self._after(_RIGHT, '_right')

    def bind_left(self) -> Operator:
        """Make OP(thunk, x) of a binary OP, as an index operator; two instructions more.

        Returns
        -------
        Operator
            The index operator, whose name ends in `_left` where this one has a name.

        Raises
        ------
        TypeError
            If this isn't a binary operator.

        See Also
        --------
        bind_right : The other side.

        Examples
        --------
        >>> import spmat
        >>> spmat.binary.minus.bind_left()
        <index operator minus_left>
        """
        return self._after(_LEFT, '_left')

    def _after(self, moves: Tuple[Tuple[str, str], ...], tail: str) -> Operator:
        """The program with moves before it. Jumps are relative and go forward, so they stay."""
        if self.kind != 'binary':
            raise TypeError('a binary operator can be bound, and this is %s' % self.kind)
        name = self.name and self.name + tail
        if self.text is not None:
            lines = ''.join(line + '\n' for line, _ in moves)
            return Operator('index', text=lines + self.text, name=name)
        slots = bytes.fromhex(''.join(digits for _, digits in moves))
        return Operator('index', code=slots + (self.code or b''), name=name)


def asm(kind: str, text: str, name: Optional[str] = None) -> Operator:
    """Make an operator of assembly text.

    Parameters
    ----------
    kind : {'unary', 'binary', 'index'}
        Whether it is called with x, with x and y, or with x, row, column and thunk.
    text : str
        The instructions, as docs/bpf.md has them. A jump may name a label: a word and a colon
        before an instruction or on a line of its own, `jeq64 r2, 0, end` and `end: exit`.
    name : str, optional
        For people, and for the session's messages.

    Returns
    -------
    Operator

    Raises
    ------
    ValueError
        If a jump names a label that isn't there, or one is there twice, with the line. Nothing else
        is looked at before the operator's first use, or `Session.check`.

    See Also
    --------
    code : From BPF code.
    c : From C.
    Session.check : What the verifier says.

    Examples
    --------
    >>> import spmat
    >>> spmat.asm("binary", "mov64 r0, r1\\nadd64 r0, r2\\nexit", "sum")
    <binary operator sum>
    """
    text = without_labels(text)
    return Operator(kind, text=text if text.endswith('\n') else text + '\n', name=name)


def code(kind: str, data: Union[str, bytes, bytearray], name: Optional[str] = None) -> Operator:
    """Make an operator of BPF code.

    Parameters
    ----------
    kind : {'unary', 'binary', 'index'}
        Whether it is called with x, with x and y, or with x, row, column and thunk.
    data : bytes or str
        8 bytes a slot, or as hexadecimal text.
    name : str, optional
        For people, and for the session's messages.

    Returns
    -------
    Operator

    Raises
    ------
    ValueError
        If the text isn't hexadecimal.

    See Also
    --------
    asm : From assembly text.
    c : From C.

    Examples
    --------
    >>> import spmat
    >>> spmat.code("unary", "bf100000000000009500000000000000", "same")
    <unary operator same>
    """
    try:
        digits = bytes.fromhex(data) if isinstance(data, str) else bytes(data)
    except ValueError as fault:
        if 'hex' not in str(fault):
            raise
        raise ValueError('code is bytes, or text of two hexadecimal digits a byte: %s' %
                         fault) from None
    return Operator(kind, code=digits, name=name)
