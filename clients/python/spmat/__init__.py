"""A client of spmat, the job server for sparse matrices of 64-bit integers whose operators are
verified programs.

    with spmat.Session() as s:
        A = s.from_triples([(0, 1, 5), (1, 2, 7)], 3, 3)
        print(A.mxm(A).to_triples())

Begin with `Session` and `Matrix`. `unary`, `binary` and `indexunary` make operators of functions
and hold the built-in ones, as `semiring` does. `asm`, `code` and `c` make operators of assembly
text, code and C. `algorithms` has those of LAGraph, and `draw` pictures. `errors` says what is
raised.
"""
from __future__ import annotations

import importlib
import importlib.util
import pathlib
import sys
from typing import TYPE_CHECKING, Any, Dict, List

from .errors import (BudgetExceeded, Busy, Closed, CompileError, DimensionMismatch, DomainMismatch,
                     HeaderUnclear, MaskWarning, NamesDiffer, NoThread, NotMade, NotSettled,
                     OperatorRefused, OutOfMemory, ProtocolError, ReadError, Refused, ResultLost,
                     SpmatError, TextRefused, ThreadUnavailable, TooLarge, UnitsDiffer)

if TYPE_CHECKING:
    from . import algorithms, draw
    from .algorithms.temporal_paths import events
    from .alignment import align
    from .backends.protocol import Budget, JobResult
    from .loops import Loop, empty, loop, steady
    from .loops.fixpoint import fixpoint
    from .mask import Mask
    from .matrix import Matrix
    from .operators import (Operator, Semiring, asm, binary, code, indexunary, select, semiring,
                            unary)
    from .operators.c import c
    from .operators.integer_functions import cdiv, cmod, rsh, udiv, ult, umod, where
    from .operators.diagnostics import code_of, explain
    from .prices import price
    from .session import Session
    from .submatrices import bipartite, concat
    from .vector import Vector

if importlib.util.find_spec('numpy') is None:
    raise ImportError(
        'spmat needs numpy (1.22 or newer), and %s has none. To have it: pip install numpy; or '
        'on Debian apt install python3-numpy, which is for /usr/bin/python3' % sys.executable)

# of the repository, or of what is installed
__version__ = pathlib.Path(__file__).with_name('VERSION').read_text('ascii').strip()
__all__ = ['Budget', 'BudgetExceeded', 'Busy', 'Closed', 'CompileError',
           'DimensionMismatch', 'DomainMismatch', 'HeaderUnclear', 'JobResult', 'Loop', 'Mask',
           'MaskWarning', 'Matrix', 'NamesDiffer', 'NoThread', 'NotMade', 'NotSettled', 'Operator',
           'OperatorRefused', 'OutOfMemory', 'ProtocolError', 'ReadError',
           'Refused', 'ResultLost', 'Semiring', 'Session', 'SpmatError', 'TextRefused',
           'ThreadUnavailable', 'TooLarge', 'UnitsDiffer', 'Vector', 'algorithms', 'align', 'asm',
           'binary', 'bipartite', 'c', 'cdiv', 'cmod', 'code', 'code_of', 'concat', 'draw', 'empty',
           'events', 'explain', 'fixpoint', 'indexunary', 'loop', 'price', 'rsh', 'select',
           'semiring', 'steady', 'udiv', 'ult', 'umod', 'unary', 'where']

# Each name is imported when it is first asked for: networkx imports this package to ask for its
# backend's names, and a program that makes a session doesn't wait for pictures.
_PLACES: Dict[str, str] = {name: module for module, names in {
    'alignment': 'align',
    'operators.c': 'c',
    'backends.protocol': 'Budget JobResult',
    'loops': 'Loop empty loop steady',
    'mask': 'Mask',
    'matrix': 'Matrix',
    'operators': 'Operator Semiring asm binary code indexunary select semiring unary',
    'operators.integer_functions': 'cdiv cmod rsh udiv ult umod where',
    'operators.diagnostics': 'code_of explain',
    'prices': 'price',
    'loops.fixpoint': 'fixpoint',
    'algorithms.temporal_paths': 'events',
    'session': 'Session',
    'vector': 'Vector',
    'submatrices': 'bipartite concat'}.items() for name in names.split()}


def __getattr__(name: str) -> Any:
    if name in _PLACES:
        found = getattr(importlib.import_module('.' + _PLACES[name], __name__), name)
    else:
        found = None if name.startswith('_') else _module(name)
    if found is None:
        from .unsupported_syntax import PACKAGE, missing_attribute  # only where one is missing
        raise missing_attribute('module %r' % __name__, name, PACKAGE)
    globals()[name] = found
    return found


def _module(name: str) -> Any:
    """A module of this package, or None where it has none of this name."""
    try:
        return importlib.import_module('.' + name, __name__)
    except ModuleNotFoundError as fault:
        if fault.name != '%s.%s' % (__name__, name):
            raise
        return None


def __dir__() -> List[str]:
    return sorted({*globals(), *__all__})
