"""Operators: programs with a kind, as descriptions that belong to no session and can be pickled.

A session uploads an operator at its first use, and each operator once, whatever object it comes in.
Two descriptions of the same kind and the same text or code are equal. The built-in ones are one
file each, `KIND/NAME.asm` beside this one, in the assembly text of docs/operators.md, by
python-graphblas' names: `unary.abs`, `binary.plus`, `indexunary.tril`, and `semiring.min_plus` for
any two binary names. Wherever an operator is wanted its name does as well, `A.apply("abs")`, and so
does a function of Python: `A.apply(lambda x: x * x)`.
"""
from __future__ import annotations

import difflib
import os
from dataclasses import dataclass
from typing import Any, Callable, Dict, Iterator, List, Optional, Tuple, Union, cast, overload

from ..display import table, text_of
from . import other_names
from .operator import KINDS, Operator, asm, code

__all__ = ['KINDS', 'Op', 'Operator', 'BuiltIns', 'READY', 'Semiring', 'Semirings', 'asm', 'binary',
           'code', 'find', 'find_semiring', 'indexunary', 'select', 'semiring', 'unary']

_FOLDER = os.path.dirname(os.path.abspath(__file__))
_SIGNS = {'==': 'valueeq', '!=': 'valuene', '<': 'valuelt', '<=': 'valuele', '>': 'valuegt',
          '>=': 'valuege'}

Op = Union[str, Operator, Callable[..., Any]]
"""What is given for an operator: itself, the name of a built-in one, or a function."""


@dataclass(frozen=True)
class Semiring:
    """Two binary operators for products: terms `mul(a, b)`, folded by `add` with ascending index.

    Parameters
    ----------
    add : Operator, str or callable
        What folds terms: an operator, the name of a built-in one, or a function.
    mul : Operator, str or callable
        What makes a term of two entries, given likewise.

    Examples
    --------
    >>> import spmat
    >>> spmat.Semiring("min", "plus")
    <semiring min_plus>
    """
    add: Operator
    mul: Operator

    def __post_init__(self) -> None:
        object.__setattr__(self, 'add', find('binary', self.add))
        object.__setattr__(self, 'mul', find('binary', self.mul))

    def __repr__(self) -> str:
        return '<semiring %s_%s>' % (self.add.name or '?', self.mul.name or '?')

    def _repr_html_(self) -> str:
        """Its two operators, with their instructions."""
        rows = [[part, op.name or 'of its own', ' ; '.join(line for _, line in op.slots())
                 if op.text is not None else '%d slots of code' % (len(op.code or b'') // 8)]
                for part, op in (('add', self.add), ('mul', self.mul))]
        return '<div><b>Semiring</b> %s%s</div>' % (
            text_of('%s_%s' % (self.add.name or '?', self.mul.name or '?')),
            table(['', 'operator', 'instructions'], rows))


class BuiltIns:
    """The built-in operators of one kind, by name: `binary.plus`, `binary['plus']`, `'plus' in
    binary`; iterating gives the names. Called with a function it makes an operator of it."""

    def __init__(self, kind: str) -> None:
        self._kind = kind
        self._known: Dict[str, Operator] = {}      # those that were asked for or registered

    def __repr__(self) -> str:
        return '<built-in %s operators: %s>' % (self._kind, ', '.join(self))

    @overload
    def __call__(self, function: Callable[..., Any], *, name: Optional[str] = None,
                 check: bool = True) -> Operator: ...

    @overload
    def __call__(self, *, name: Optional[str] = None,
                 check: bool = True) -> Callable[[Callable[..., Any]], Operator]: ...

    def __call__(self, function: object = None, *, name: Optional[str] = None,
                 check: bool = True) -> Any:
        """Make an operator of this kind of a Python function; also as a decorator.

        Parameters
        ----------
        function : callable
            A function of x (unary), of x and y (binary), or of x, row, column and thunk or the
            first of these (index).
        name : str, optional
            For people and messages; by default the function's name.
        check : bool, default True
            Whether the code is called beside the function before it is first used: on edges, random
            words, and the numbers that the function names.

        Returns
        -------
        Operator
            It stays callable: of ints it gives what the server's operator does.

        Raises
        ------
        CompileError
            If the function can't be an operator: why, on which line, and what to write instead.

        See Also
        --------
        asm : An operator of assembly text.
        c : An operator of a function in C.
        explain : What an operator costs.
        semiring : Two binary operators.

        Notes
        -----
        The client calls the function now, with symbolic operands, once for each path through it.
        Globals, closures and defaults are as they are now. It may use Python's operations on whole
        numbers but /, and comparisons, if, and, or, not, min, max, sorted, try and functions. Loops
        have to end by themselves. Each result wraps to 64 bits; x // 0 is 0 and x % 0 is x, where
        no `except` says otherwise. docs/operators.md has all that it may do. In python-graphblas
        `BinaryOp.register_anonymous`.

        Examples
        --------
        >>> import spmat
        >>> toll = spmat.binary(lambda x, y: x + y + (5 if y > 10 else 0))
        >>> toll(1, 12)
        18
        >>> spmat.unary(lambda x: x * x)(7)
        49
        """
        if function is None:
            return lambda function: self(function, name=name, check=check)
        from .compiler import operator_of          # only now, as it takes time to load
        return operator_of(self._kind, cast(Any, function), name, check)

    def register_anonymous(self, func: Callable[..., Any], name: Optional[str] = None) -> Operator:
        """Make an operator of a function, as python-graphblas has it: `binary(func, name=name)`."""
        return self(func, name=name)

    def register_new(self, name: str, func: Callable[..., Any]) -> Operator:
        """Make an operator of a function, and give it a name in this process.

        Parameters
        ----------
        name : str
            Letters and digits, and no built-in operator's name.
        func : callable
            The function, as when this is called with it.

        Returns
        -------
        Operator
            From now on it is `binary.NAME`, `"NAME"` wherever an operator is wanted, and
            `"min_NAME"` for a semiring. In python-graphblas `BinaryOp.register_new`.

        Raises
        ------
        ValueError
            If the name can't be one, or is a built-in operator's.
        CompileError
            If the function can't be an operator.
        """
        if not (name.isascii() and name.isalnum() and name.isidentifier()):
            raise ValueError('a name has letters and digits and begins with a letter, as "toll" '
                             '(`_` parts the names of a semiring), not %r' % name)
        if os.path.isfile(self._file(name)):
            raise ValueError('%r is the name of a built-in %s operator: take another one' % (
                name, self._kind))
        self._known[name] = registered = self(func, name=name)
        return registered

    def _file(self, name: str) -> str:
        return os.path.join(_FOLDER, self._kind, name + '.asm')

    def _find(self, name: str) -> Optional[Operator]:
        """The operator of a name, or of one that another name stands for; None where none has
        it."""
        if name not in self._known:
            name = other_names.ALIASES[self._kind].get(name, name)
        if name not in self._known and name.isidentifier() and os.path.isfile(self._file(name)):
            with open(self._file(name), encoding='ascii', newline='') as file:
                self._known[name] = asm(self._kind, file.read(), name)
        return self._known.get(name)

    def __getitem__(self, name: str) -> Operator:
        found = self._find(name)
        if found is None:
            raise KeyError(name)
        return found

    def __getattr__(self, name: str) -> Operator:
        found = None if name.startswith('_') else self._find(name)
        if found is None:
            raise AttributeError('no built-in %s operator %r' % (self.__dict__.get('_kind'), name))
        return found

    def __contains__(self, name: object) -> bool:
        return isinstance(name, str) and self._find(name) is not None

    def ready(self) -> List[str]:
        """The names of the built-in operators, without those that were registered."""
        files = os.listdir(os.path.join(_FOLDER, self._kind))
        return sorted(file[:-4] for file in files if file.endswith('.asm'))

    def __iter__(self) -> Iterator[str]:
        return iter(sorted({*self.ready(), *self._known}))

    def __dir__(self) -> List[str]:
        return [*self, 'register_anonymous', 'register_new']


# Semirings that are asked for most, with what a product of theirs tells.
USES = {'plus_times': 'the product of linear algebra; how many paths, by their weights',
        'plus_pair': 'how many paths of two edges', 'any_pair': 'whether there is a path',
        'min_plus': 'the shortest path', 'max_plus': 'the longest path',
        'max_min': 'the widest path',
        'min_second': 'the least value of a neighbour',
        'plus_second': "the sum of the neighbours' values"}


class Semirings:
    """`semiring.min_plus` is Semiring(binary.min, binary.plus): any two built-in binary names,
    joined by `_`. `semiring(add, mul)` is one of two binary operators, own ones, by name or as
    functions: `semiring("min", lambda x, y: x + y + 1)`."""

    def __repr__(self) -> str:
        return '<semirings of any two binary operators, joined by _: %s, ..>' % ', '.join(USES)

    def _repr_html_(self) -> str:
        return '<div><b>Semirings</b> of any two binary operators, joined by _%s</div>' % table(
            ['', 'what a product tells'], list(USES.items()))

    def __call__(self, add: Op, mul: Op) -> Semiring:
        """Make a semiring of two binary operators.

        Parameters
        ----------
        add, mul : Operator, str or callable
            What folds the terms of an entry, by ascending index, and what makes a term.

        Returns
        -------
        Semiring
            Wherever a semiring is wanted, its name or the pair will do, too.

        See Also
        --------
        binary : A binary operator of a function.

        Examples
        --------
        >>> import spmat
        >>> spmat.semiring("min", lambda x, y: x + y + 1)
        <semiring min_?>
        """
        return Semiring(find('binary', add), find('binary', mul))

    def __getitem__(self, name: str) -> Semiring:
        add, _, mul = name.partition('_')
        if add not in binary or mul not in binary:
            raise KeyError(name)
        return Semiring(binary[add], binary[mul])

    def __getattr__(self, name: str) -> Semiring:
        try:
            return self[name]
        except KeyError:
            raise AttributeError('no semiring %r: expected two built-in binary names, joined by _' %
                                 name) from None

    def __dir__(self) -> List[str]:
        pairs = ('%s_%s' % (add, mul) for add in binary for mul in binary)
        return sorted({*super().__dir__(), *pairs})


unary, binary, indexunary = BuiltIns('unary'), BuiltIns('binary'), BuiltIns('index')
semiring = Semirings()
select = indexunary
READY = {'unary': unary, 'binary': binary, 'index': indexunary}


def find(kind: str, op: Op) -> Operator:
    """An operator that is given as itself, by the name of a built-in one of this kind, or as a
    function. TypeError for anything else, ValueError for a name that no built-in one has,
    CompileError for a function that can't be one. An operator of another kind is given back as it
    is."""
    if isinstance(op, Operator):
        return op
    fold = other_names.fold_of(op)
    if fold:
        raise ValueError('%s takes many numbers, and an operator takes two: "%s" folds them' % (
            getattr(op, '__name__', op), fold))
    if not isinstance(op, str):
        if not callable(op):
            raise TypeError('expected an operator, its name or a function, got %r' % (op,))
        if other_names.is_ufunc(op):
            kind, name = other_names.ready_of(kind, cast(Any, op))
            return READY[kind][name]
        if op is abs and kind == 'unary':          # so that its result has a unit, as "abs" has
            return unary.abs
        return READY[kind](op)
    name = _SIGNS.get(op, op) if kind == 'index' else op
    if name not in READY[kind]:
        raise ValueError('no built-in %s operator is called %r%s' % (kind, op, _instead(kind, op)))
    return READY[kind][name]


def _instead(kind: str, name: str) -> str:
    """What may have been meant by a name that no built-in operator of a kind has: the kinds that
    know it, or names like it."""
    others = [other for other in KINDS if other != kind and name in READY[other]]
    if others:
        kinds = ' and '.join(('an ' if other == 'index' else 'a ') + other for other in others)
        can_bind = kind == 'unary' and 'binary' in others
        return ', but %s one is%s' % (
            kinds, ': bind an operand by right= or left=' if can_bind else '')
    if name in other_names.INSTEAD:
        return ': ' + other_names.INSTEAD[name]
    if '\n' in name:
        return ': spmat.asm(%r, text) makes one of assembly text' % kind
    sign, _, number = name.partition(' ')
    if kind == 'index' and sign in _SIGNS:
        return ': the number stands apart, as in A.select("%s", %s)' % (sign, number)
    near = difflib.get_close_matches(name, READY[kind], 3)
    return '; near it: ' + ', '.join(near) if near else ''


def find_semiring(op: Union[str, Semiring, Tuple[Op, Op]]) -> Semiring:
    """A semiring that is given as itself, by its name, or as a pair of operators, names or
    functions. TypeError and ValueError as `find`."""
    if isinstance(op, Semiring):
        return op
    if isinstance(op, tuple) and len(op) == 2:
        return Semiring(*op)  # type: ignore[arg-type]
    if not isinstance(op, str):
        raise TypeError('expected a semiring or its name, got %r' % (op,))
    try:
        return semiring[op]
    except KeyError:
        wrong = next((name for name in op.split('_', 1) if name not in binary), '')
        words = _instead('binary', wrong) if '_' in op and wrong else ''
        raise ValueError('no semiring is called %r: expected two built-in binary names, joined by '
                         '_%s' % (op, '; %r is none%s' % (wrong, words) if words else '')) from None
