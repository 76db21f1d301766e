"""The library of the server's own proved code, `libspmat.so`, loaded by ctypes: matrix text
(`io.matrix_text`) and calls of operators (`operators.evaluation`).

It is the file of the variable SPMAT_LIBRARY (none, where that is empty), or the first that is there
of three. One is in this package, as a wheel for one kind of machine has it. The others are that of
a checkout, as `tools/build` makes it, and that of the Debian package `spmat`. One of another
interface is passed over. Without a library numpy and Python do the same, in more time.
"""
from __future__ import annotations

import ctypes
import functools
import os
from typing import Any, Optional

VARIABLE = 'SPMAT_LIBRARY'
NAME = 'libspmat.so'
INTERFACE = 2
PACKAGE = os.path.dirname(os.path.abspath(__file__))
PLACES = (os.path.join(PACKAGE, 'carried', NAME),
          os.path.join(PACKAGE, '..', '..', '..', 'crates', 'spmat_lib', 'out', NAME),
          os.path.join('/usr/lib/spmat', NAME))


class Answer(ctypes.Structure):
    """What `spmat_read` answers: the sizes; or the rule that a text breaks, and the line."""
    _fields_ = [(name, ctypes.c_uint64) for name in ('rule', 'line', 'rows', 'columns', 'entries')]


class Verdict(ctypes.Structure):
    """What is answered of an operator: its size; or the rule that it breaks, and where."""
    _fields_ = [(name, ctypes.c_uint64) for name in ('rule', 'at', 'size')]


def find() -> Optional[str]:
    """The path of the library; None where there is none."""
    named = os.environ.get(VARIABLE)
    if named is not None:
        return named or None
    return next((path for path in PLACES if os.path.exists(path)), None)


@functools.lru_cache(maxsize=None)
def load() -> Any:
    """The library, loaded once; None where there is none of this interface. OSError where the
    variable names a file that isn't one."""
    path = find()
    if path is None:
        return None
    try:
        library = ctypes.CDLL(path)
        library.spmat_version.restype = ctypes.c_uint64
        is_known = library.spmat_version() == INTERFACE
    except (OSError, AttributeError) as fault:
        if os.environ.get(VARIABLE):
            raise OSError('the variable %s names no library of spmat: %s'
                          % (VARIABLE, fault)) from None
        return None
    if not is_known:
        return None
    text, array = (ctypes.c_char_p, ctypes.c_size_t), (ctypes.c_void_p, ctypes.c_size_t)
    library.spmat_read.argtypes = (*text, *array, *array, *array)
    library.spmat_read.restype = Answer
    library.spmat_write.argtypes = (*array, *array, *array, *array)
    library.spmat_write.restype = ctypes.c_uint64
    library.spmat_assemble.argtypes = (*text, *array)
    library.spmat_assemble.restype = Verdict
    library.spmat_call.argtypes = (ctypes.c_uint64, *text, *array, *array, *array)
    library.spmat_call.restype = Verdict
    return library
