"""Operators from Python functions.

A function is called with words that are no numbers yet. Each operation makes a shared, simplified
expression (`expressions`), and each truth of a condition forks the run, with what is known by then
answered (`exploration`). The expression's decision graph becomes blocks and forward jumps, on
registers and then the stack, and assembly text (`emission`). `compile_function` goes through these
steps, calls the code beside the function before its first use, and knows when a function has to be
compiled again.

No source is needed, so a function may come from a file, a notebook, `python3 -c` or the prompt, and
what it calls may be any Python.
"""
from __future__ import annotations

import functools
import inspect
import textwrap
import zlib
from typing import Any, Callable, Optional, Tuple

import numpy

from ...errors import CompileError
from .. import Operator, READY
from ..assembly import wrap
from ..evaluation import evaluate
from ..integer_functions import Operand, whole
from ..other_names import READY_BY_CHECKSUM
from .compile_function import NAMES, find_positional, name_of, text_of_function
from .exploration import call


class FromFunction(Operator):
    """An operator from a function, which stays callable: of ints it gives what the server's
    operator does, and in another operator's function it is a part of that one. A pickle has the
    operator alone."""
    function: Callable[..., Any]

    # as a dataclass it would take 0.5 ms more to import
    def __init__(self, kind: str, text: str, name: Optional[str],
                 function: Callable[..., Any]) -> None:
        super().__init__(kind, text=text, name=name)
        vars(self).update(function=function)

    def __call__(self, *operands: object) -> Any:
        numbers = [None if isinstance(each, Operand) else whole(each) for each in operands]
        if None in numbers or len(numbers) != len(NAMES[self.kind]):
            return call(self.function, operands)
        words = [numpy.array([wrap(number or 0)]) for number in numbers]
        return int(evaluate(self, *words)[0])

    def origin(self) -> Tuple[str, str]:
        source = source_of(self.function)
        return ('Python', source) if source else super().origin()

    def __reduce__(self) -> Tuple[Any, ...]:
        return Operator, (self.kind, self.text, self.code, self.name)


def operator_of(kind: str, function: Callable[..., Any], name: Optional[str] = None,
                check: bool = True) -> Operator:
    """The operator of a kind from a function. An operator that is given is given back, where it is
    of this kind."""
    if isinstance(function, Operator):
        if function.kind != kind:
            raise CompileError('expected %s %s operator, got %r' % (
                'an' if kind == 'index' else 'a', kind, function))
        return function
    if not callable(function):
        raise TypeError('expected a function, got %r' % (function,))
    text = text_of_function(kind, function, name, check)
    called = name or (None if name_of(function) == '<lambda>' else name_of(function))
    ready = _find_ready(kind, text)
    if ready is not None:                          # what is known of it is known of this one, too
        text, called = ready.body.decode(), called or ready.name
    return FromFunction(kind, text, called, function)


@functools.lru_cache(maxsize=1024)
def _find_ready(kind: str, text: str) -> Optional[Operator]:
    """The built-in operator of a kind that has these instructions; None where none has."""
    name = READY_BY_CHECKSUM.get('%08x' % zlib.crc32(('%s\n%s' % (kind, text)).encode()))
    found = READY[kind][name] if name is not None else None
    return found if found is not None and found.bare_text == text else None


def source_of(function: Callable[..., Any]) -> str:
    """The source of a function, as far as it is known: that of a lambda is its statement's."""
    while isinstance(function, functools.partial):
        function = function.func
    try:
        return textwrap.dedent(inspect.getsource(function))
    except (OSError, TypeError):                   # typed at the prompt, or written in C
        return ''


def kind_by_parameters(function: Callable[..., Any]) -> str:
    """The kind of operator that a function's parameters make it: of one, of two, and of three or
    four."""
    names, least, most = find_positional(function)
    count = min(len(names), max(least, 1)) if names or not most else 2
    return {1: 'unary', 2: 'binary'}.get(count, 'index')


def kind_of(function: Callable[..., Any], bound: bool) -> str:
    """The kind of operator that a function is wanted as by `apply`: unary, or where an operand is
    bound binary; of three or four parameters (x, row, column, thunk) index."""
    _, least, most = find_positional(function)
    if least <= (2 if bound else 1) <= most:
        return 'binary' if bound else 'unary'
    return 'index' if least in (3, 4) else 'binary'
