"""An operator from a function: its ways are explored, and become expressions, blocks, instructions
on registers, and text. Before its first use the code is compared with the function.
"""
from __future__ import annotations

import builtins
import dis
import functools
import inspect
import math
import operator
import random
import threading
import types
import warnings
from typing import Any, Callable, Dict, Hashable, List, Mapping, Optional, Sequence, Set, Tuple

import numpy

from ...errors import CompileError
from ...integers import LEAST, MOST
from .. import integer_functions
from ..assembly import wrap
from ..evaluation import evaluate
from ..integer_functions import whole
from ..operator import Operator
from .emission import Emission, Reg, allocate, ins, resolve, size_of, text_of, tidy
from .exploration import (Exploration, Impure, Line, Path, Word, call, describe_line, explore,
                          is_users, node_of)
from .expressions import Node, below

NAMES = {'unary': ('x',), 'binary': ('x', 'y'), 'index': ('x', 'row', 'column', 'thunk')}
KINDS = {'unary': 'a unary operator is a function of x',
         'binary': 'a binary operator is a function of x, y',
         'index': 'an index operator is a function of x, row, column, thunk, or of the first of '
                  'these'}
MOST_SLOTS = 4096
ANY_NUMBER = 1 << 20                               # of operands
TOO_LONG = '%d instructions in %d slots, and an operator has at most %d slots of code'
IMPURE = ('it does something else each time it is called: an operator is made of operands alone, '
          'without random numbers, clocks, files, or variables that it changes')
DIFFERENT = ('of %s it gives %d, and as an operator %d: it is not the same at each call, or asks '
             'what only a number answers (`is`, isinstance, type(), repr())')
RAISES = 'it raises %s: %s%s; an operator has a value for all operands'
NO_RESULT = 'it returns None: end each way with `return`'
MOST_SHIFT = 30                                    # by which a shift is a product with a number
CALLS = 32                                         # by which code is compared with its function
MOST_NAMED = 6                                     # numbers of the function's that are compared
MOST_SIDE = 1 << 24                                # of rows and columns
EDGES = (0, 1, -1, MOST, LEAST, 2, 64, 63, -3, 7, 10, 100, -100, 1 << 31, -1 << 31, 1 << 40, 5, 3,
         -40, 30, 1 << 62, 12, 255, -8, 1000, 77, -7, 8, 19, -1 << 40, 4, -2)
Function = Callable[..., Any]


def name_of(function: Function) -> str:
    """What a function is called in words."""
    inner = getattr(function, 'func', None)        # of a partial function
    return str(getattr(function, '__name__', None) or getattr(inner, '__name__', None) or
               type(function).__name__)


def compile_function(kind: str, function: Function, name: Optional[str] = None,
                     check: bool = True) -> str:
    """The assembly text of a function as an operator of a kind. CompileError says what can't be
    one, where, and what to write instead. Where something has a meaning that hardly was meant, as a
    division by a word that is known to be 0, a RuntimeWarning names the line."""
    called = name or name_of(function)
    try:
        names = parameters(kind, function)
        operands = [*names, *NAMES[kind][len(names):]]
        shared = Exploration(operands)
        root = explore(shared, functools.partial(_take_way, function, len(names)))
        text = _write_code(root)
        if check:
            _compare(kind, function, names, text,
                     {n.number for n in below(root) if n.op == 'const'})
    except (CompileError, Impure) as fault:
        place = getattr(fault, 'place', None) or _find_definition(function)
        raise CompileError('`%s`%s: %s' % (called, ' (%s)' % place if place else '',
                                           IMPURE if isinstance(fault, Impure) else fault)
                           ) from fault.__cause__
    for (_, line), warning in shared.warnings.items():
        words = '`%s`: %s' % (called, warning)
        if line is None:
            warnings.warn(words, RuntimeWarning)
        else:
            warnings.warn_explicit(words, RuntimeWarning, *line)
    return text


def _write_code(root: Node) -> str:
    """The assembly text of an expression."""
    emission = Emission(root)
    code = resolve(tidy(allocate(emission.out, emission.words)))
    if len(code) == 3 and code[1][0] == 'lsh64':   # the server runs a product as a compiled loop
        to, by = code[1][1]
        if isinstance(by, int) and not isinstance(by, Reg) and by <= MOST_SHIFT:
            code[1] = ins('mul64', to, 1 << by)
    slots = sum(map(size_of, code))
    if slots > MOST_SLOTS:
        raise CompileError(TOO_LONG % (len(code), slots, MOST_SLOTS))
    return text_of(code)


# -- parameters

def parameters(kind: str, function: Function) -> List[str]:
    """The names of the operands that a function takes. An index operator's may take the first ones
    alone; there parameters with defaults keep these, unless it takes all four."""
    names, least, most = find_positional(function)
    wanted = NAMES[kind]
    count = len(wanted)
    if kind == 'index' and not least <= count <= most:
        count = max(1, least)
    if count > len(wanted) or not least <= count <= most:
        raise CompileError('%s, and this one takes %s' % (KINDS[kind], inspect.signature(function)))
    return [*names, *wanted[len(names):]][:count]


def find_positional(function: Function) -> Tuple[List[str], int, int]:
    """The names of a function's positional parameters, and how many operands it takes at the least
    and at the most. Any number where it doesn't say (some that are written in C). Where a keyword
    is wanted without a default, no number of operands is enough."""
    if type(function) is types.FunctionType and not vars(function):
        # at each use of a function that was compiled before, and `signature` takes 10 us
        plain, variable, _ = inspect.getargs(function.__code__)
        if variable is None and not function.__code__.co_kwonlyargcount:
            return plain, len(plain) - len(function.__defaults__ or ()), len(plain)
    try:
        found = list(inspect.signature(function).parameters.values())
    except ValueError:
        return [], 0, ANY_NUMBER
    names = [each for each in found
             if each.kind in (each.POSITIONAL_ONLY, each.POSITIONAL_OR_KEYWORD)]
    least = sum(each.default is each.empty for each in names)
    if any(each.kind == each.KEYWORD_ONLY and each.default is each.empty for each in found):
        least = ANY_NUMBER
    has_more = any(each.kind == each.VAR_POSITIONAL for each in found)
    return [each.name for each in names], least, ANY_NUMBER if has_more else len(names)


# -- one way

def _take_way(function: Function, used: int, path: Path) -> Optional[Node]:
    """One way through a function: its result, or None where it is to be run again."""
    result, raised = None, None                    # type: Any, Optional[Exception]
    try:
        result = call(function, [Word(path, node) for node in path.shared.operands[:used]])
    except Exception as fault:  # pylint: disable=broad-exception-caught  # whatever it raises
        raised = fault
    if path.is_uncaught(raised):
        return None
    if path.refused is None and raised is not None:
        raise _locate_fault(RAISES % (type(raised).__name__, raised, path.conditions()),
                      _find_raise(raised)) from raised
    if path.refused is not None:
        raise _locate_fault(str(path.refused) + path.conditions(), path.line)
    if result is None:
        raise _locate_fault(NO_RESULT + path.conditions(), None)
    try:
        node = node_of(path, result)
    except CompileError as fault:                  # its line is none of the function's
        raise _locate_fault(str(fault) + path.conditions(), None) from None
    while node.op == 'select' and path.truth(node.args[0]) is not None:
        node = node.args[1 if path.truth(node.args[0]) else 2]
    return path.graph.const(0) if path.ranges.of(node) == (0, 0) else node


def _locate_fault(text: str, line: Optional[Line]) -> CompileError:
    fault = CompileError(text)
    fault.place = describe_line(line) if line else ''  # type: ignore[attr-defined]
    return fault


def _find_raise(fault: BaseException) -> Optional[Line]:
    """The line of the user's that raised."""
    at, line = fault.__traceback__, None
    while at is not None:
        if is_users(at.tb_frame.f_code.co_filename):
            line = at.tb_frame.f_code.co_filename, at.tb_lineno
        at = at.tb_next
    return line


# -- the function's own code

def _find_definition(function: Function) -> str:
    """The line at which a function begins, a partial one, a method, or an object that can be
    called."""
    inner = inspect.unwrap(getattr(function, 'func', function))
    code = getattr(inner, '__code__', None) or getattr(type(inner).__call__, '__code__', None)
    return describe_line((code.co_filename, code.co_firstlineno)) if code is not None else ''


# -- the comparison

def _compare(kind: str, function: Function, names: Sequence[str], text: str,
             numbers: Set[int]) -> None:
    """Compares the values of a function with those of its code. CompileError where they differ.

    The function is called twice: with words that are known, which wrap as an operator's do, and
    where nothing wrapped with plain ints. The second finds what a function asks that only a number
    answers. Calls are on edges, on random words, and on `numbers` and those beside them. It is no
    proof."""
    samples = _make_samples(len(NAMES[kind]), numbers)
    results = evaluate(Operator(kind, text=text), *numpy.array(samples, numpy.int64).T)
    run = functools.partial(_take_way, function, len(names))
    for sample, result in zip(samples, results.tolist()):
        operands = sample[:len(names)]
        shared = Exploration(names, operands)
        try:
            expected: List[Optional[int]] = [explore(shared, run).number]
        except CompileError:                       # it fails where an operator has an answer
            continue
        # a number beyond 64 bits has another value in Python, and may be too large to make
        if not shared.graph.wrapped:
            expected.append(_call_plainly(function, operands))
        for value in expected:
            if value is not None and result != wrap(value):
                raise CompileError(DIFFERENT % (', '.join(map(str, operands)), value, result))


def _call_plainly(function: Function, operands: Sequence[int]) -> Optional[int]:
    """What a function gives of numbers; None where it fails, as by a division by 0, which an
    operator answers."""
    try:
        return whole(call(function, operands))
    except Exception:  # pylint: disable=broad-exception-caught  # whatever a function raises
        return None


def _make_samples(count: int, numbers: Set[int]) -> List[List[int]]:
    """Operands of calls, of which one is a number of the expression, one beside it, or an edge; the
    same each time."""
    dice = random.Random(count)
    named = sorted(numbers.difference(EDGES), key=abs)[:MOST_NAMED]
    wanted = [*(near for each in named for near in (each, each - 1, each + 1)), *EDGES]
    samples = []
    for at, number in enumerate(wanted[:CALLS]):
        operands = [dice.choice(wanted) if dice.random() < 0.4 else dice.randrange(-40, 40)
                    for _ in range(count)]
        operands[at % count] = number
        operands[1:3] = [each % MOST_SIDE for each in operands[1:3]] if count == 4 else (
            operands[1:3])
        samples.append([wrap(each) for each in operands])
    return samples


# -- compiled functions, as long as they say the same

PLAIN = (int, bool, str, bytes, type(None))
MOST_ITEMS = 1024                                  # of a table: more are too many for each use
MOST_KEPT = 1024                                   # functions
# functions of these modules give the same of the same arguments
PURE = (builtins.__name__, math.__name__, operator.__name__, '_operator')
# .. but these reach what no name shows
DYNAMIC = ('eval', 'exec', 'globals', 'locals', 'vars', 'getattr', 'dir', 'open', 'input', 'id',
           'hash')
HEAP_TYPE = 1 << 9                                 # Py_TPFLAGS_HEAPTYPE: attributes can be set

_kept: Dict[Hashable, str] = {}
_lock = threading.Lock()


class _Unknown(Exception):
    """What a function does depends on something that can change unseen."""


def text_of_function(kind: str, function: Function, name: Optional[str] = None,
                     check: bool = True) -> str:
    """The assembly text of a function as an operator of a kind: of functions that say the same it
    is made once."""
    try:
        key = kind, check, _describe(function, [])
    except (_Unknown, RecursionError):
        return compile_function(kind, function, name, check)
    text = _kept.get(key)
    if text is None:
        text = compile_function(kind, function, name, check)
        with _lock:
            if len(_kept) >= MOST_KEPT:
                del _kept[next(iter(_kept))]
            _kept[key] = text
    return text


def _describe(value: Any, met: List[Any]) -> Hashable:
    """What decides what a function does, as a key: of the functions and modules that were met
    their numbers. Raises _Unknown."""
    kind = type(value)                             # a subclass may have attributes that change
    if kind in PLAIN:
        return kind, value
    if kind in (types.FunctionType, types.ModuleType) and value in met:
        return met.index(value)
    if kind is types.FunctionType:
        met.append(value)
        return _describe_function(value, met)
    if kind in (tuple, list) and len(value) <= MOST_ITEMS:
        return (kind, *(_describe(each, met) for each in value))
    if kind is dict and len(value) <= MOST_ITEMS:
        return (kind, *((_describe(key, met), _describe(each, met)) for key, each in value.items()))
    is_builtin = kind is types.BuiltinFunctionType and value.__module__ in PURE
    if is_builtin and value.__name__ not in DYNAMIC or (
            kind is type and not value.__flags__ & HEAP_TYPE):
        return id(value), kind, value.__name__     # it lives as long as Python
    raise _Unknown


def _describe_function(function: types.FunctionType, met: List[Any]) -> Hashable:
    """The key of a function of Python; of one of this package itself."""
    if vars(integer_functions).get(function.__name__) is function:
        return function
    if vars(function) or not _shows_all(function.__code__):
        raise _Unknown
    held: List[Any] = [function.__defaults__, function.__kwdefaults__]
    for cell in function.__closure__ or ():
        try:
            held.append(cell.cell_contents)
        except ValueError:                         # nothing is in it yet
            raise _Unknown from None
    names = _list_names(function.__code__)
    held += _find_named(function.__globals__, names) + _find_named(vars(builtins), names)
    for value in held:                             # which grows by what modules have
        if type(value) is types.ModuleType and value not in met:
            if '__getattr__' in vars(value) and value.__name__ != __name__.partition('.')[0]:
                raise _Unknown
            met.append(value)
            held += _find_named(vars(value), names)
    return (function.__code__, *(_describe(each, met) for each in held))


def _find_named(space: Mapping[str, Any], names: List[str]) -> List[Any]:
    """What a module has under some names, which may be those of attributes of other things."""
    return [each for name in names if name in space for each in (name, space[name])]


@functools.lru_cache(maxsize=4096)
def _shows_all(code: types.CodeType) -> bool:
    """Whether the names of code show all that it reaches: it imports nothing, and asks for no
    `__globals__` and the like."""
    return not any(name.startswith('__') for name in code.co_names) and not any(
        each.opname == 'IMPORT_NAME' for each in dis.get_instructions(code)) and all(
            _shows_all(each) for each in code.co_consts if isinstance(each, types.CodeType))


@functools.lru_cache(maxsize=4096)
def _list_names(code: types.CodeType) -> List[str]:
    """The names that code refers to, and the code inside it."""
    inner = [name for each in code.co_consts if isinstance(each, types.CodeType)
             for name in _list_names(each)]
    return [*code.co_names, *inner]
