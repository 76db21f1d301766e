"""Sessions of this machine, each with a thread."""
from __future__ import annotations

import concurrent.futures
from typing import Any, Callable, Dict, List, Sequence

from spmat.extending import check_whole, shown
from .engine import AtBlock, Engine, Progress, Settings
from .worker_store import close_store
from .worker_tasks import perform

Future = concurrent.futures.Future


class Threads(Engine):
    """Sessions of this machine: a thread and a process `spmat` each.

    Parameters
    ----------
    count : int, optional
        How many sessions, 1 to 64.

    Notes
    -----
    Where one machine has the memory, one session with as many `workers` is faster, as no text goes
    from one to another; docs/scaling.md has both.

    A program may end by itself, as the system ends what holds the memory. Then a session is opened
    anew at its next task, and takes in the texts that it needs. A block whose program ends so three
    times in one task ends as BlockFailed."""

    def __init__(self, count: int = 2) -> None:
        count = check_whole(count, 'number of sessions')
        if not 1 <= count <= 64:
            raise ValueError('1 to 64 sessions, not %s' % shown(count))
        self._pools = [concurrent.futures.ThreadPoolExecutor(1, 'spmat-%d' % place)
                       for place in range(count)]

    @property
    def places(self) -> int:
        return len(self._pools)

    def submit(self, settings: Settings, place: int, label: str, function: Callable[..., Any],
               *args: Any) -> Any:
        """Tasks of a place are done one after the other as they come, and a task waits only for
        earlier ones: so none waits for ever."""
        # the task leaves its operands when it ends, so that no result holds those before it
        held = [args]
        return self._pools[place].submit(
            lambda: perform(settings, place, label, function, _find_results(held.pop())))

    def results(self, futures: Sequence[Any], labels: Sequence[str],
                progress: Progress = None) -> List[Any]:
        out = []
        for future, label in zip(futures, labels):
            try:
                out.append(future.result())
            except BaseException as fault:
                for other in futures:
                    other.cancel()
                if isinstance(fault, AtBlock) or not isinstance(fault, Exception):
                    raise
                raise AtBlock(label, fault) from fault
            if progress is not None:
                progress('blocks', len(out), len(futures))
        return out

    def everywhere(self, function: Callable[..., Any], *args: Any) -> Dict[str, Any]:
        futures = [pool.submit(function, place, *args) for place, pool in enumerate(self._pools)]
        return {'session %d' % place: future.result() for place, future in enumerate(futures)}

    def close(self, settings: Settings) -> None:
        self.everywhere(close_store, settings)


def _find_results(args: Any) -> Any:
    """Arguments, in which lists and tuples are gone through, with the results of futures."""
    if type(args) in (list, tuple):
        return type(args)(map(_find_results, args))
    return args.result() if isinstance(args, Future) else args
