#!/usr/bin/env python3
"""walk.py

Walks through one product as a call graph: how many Python functions of the package `A.mxm(v)` and
its `to_list()` call, in how many modules, how deep, and how often they turn back into a module that
was left before. Then what a job costs this process, in microseconds of a processor: alone, and with
its run and count. Counts are of the second call, as the first one fills caches. The program is that
of the variable SPMAT.
"""
from __future__ import annotations

import collections
import os
import sys
import time
from typing import Any, Callable, Counter, List, NamedTuple

CLIENT = os.path.dirname(os.path.dirname(os.path.realpath(__file__)))
sys.path.insert(0, CLIENT)
import spmat  # noqa: E402

PACKAGE = os.path.join(CLIENT, 'spmat') + os.sep
JOBS, REPEATS = 60, 40


class Walk(NamedTuple):
    """How many calls there were, of each module in the order in which it was entered first; how
    deep they went, and how often one led back into a module that was left before."""
    calls: int
    modules: Counter[str]
    depth: int
    back: int


def walk(act: Callable[[], Any]) -> Walk:
    """The calls of the package's own functions in an act."""
    modules: Counter[str] = collections.Counter()
    stack: List[str] = []
    last, depth, back = '', 0, 0

    def note(frame: Any, event: str, _: Any) -> None:
        nonlocal last, depth, back
        path = frame.f_code.co_filename
        if not path.startswith(PACKAGE):
            return
        if event == 'return' and stack:
            stack.pop()
        elif event == 'call':
            module = path[len(PACKAGE):-len('.py')]
            back += module != last and module in modules
            modules[module] += 1
            stack.append(module)
            last, depth = module, max(depth, len(stack))
    sys.setprofile(note)
    try:
        act()
    finally:
        sys.setprofile(None)
    return Walk(sum(modules.values()), modules, depth, back)


def product(session: spmat.Session) -> Callable[[], Any]:
    """A product that is read, with all caches warm."""
    A = session.from_coo([0, 0, 1, 2, 3], [1, 2, 2, 3, 0], [1, 2, 3, 4, 5], 4, 4)
    v = session.from_coo([0, 1, 2, 3], [0] * 4, [1, 2, 3, 4], 4, 1)

    def act() -> Any:
        return A.mxm(v).to_list()
    act()
    return act


def microseconds(session: spmat.Session) -> List[float]:
    """What a job takes here without its run; and with it, and its count."""
    A = session.from_coo([0, 1], [1, 0], [1, 2], 2, 2)
    A.apply('ainv').wait()
    found = []
    for ask in (lambda made: None, lambda made: made.nvals):
        best = float('inf')
        for _ in range(REPEATS):
            begun = time.process_time()
            for _ in range(JOBS):
                ask(A.apply('ainv'))
            best = min(best, time.process_time() - begun)
            session.run()
        found.append(1e6 * best / JOBS)
    return found


def main() -> None:
    with spmat.Session() as session:
        found = walk(product(session))
        print('A.mxm(v).to_list(): %d calls, %d modules, %d deep, %d turns back'
              % (found.calls, len(found.modules), found.depth, found.back))
        for module, calls in found.modules.items():
            print('    %3d %s' % (calls, module))
        alone, counted = microseconds(session)
        print('a job %.1f us of this processor; with its run and count %.1f us' % (alone, counted))


if __name__ == '__main__':
    main()
