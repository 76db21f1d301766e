"""The workers of Dask's `distributed`."""
from __future__ import annotations

import asyncio
import time
import uuid
import warnings
from typing import Any, Callable, Dict, List, Optional, Sequence, Tuple, cast

from spmat.extending import without_frames
from .engine import AtBlock, Engine, Progress, Settings
from .worker_store import close_store
from .worker_tasks import perform

LOOK = 1.0                                         # seconds for which a list of workers holds


class Dask(Engine):
    """The workers of a Dask cluster. Each worker process has one session.

    Parameters
    ----------
    client : distributed.Client
        One that the caller made, of whatever cluster: processes of this machine, SSH, Kubernetes.
        It stays the caller's, who closes it.

    Raises
    ------
    ValueError
        Where the cluster has no worker yet.

    Notes
    -----
    Two settings save text that goes to and fro, and work when a worker is lost; results are right
    without them, too. `distributed.scheduler.work-stealing: false` has each task stay with its
    block, where else workers that wait take tasks from others.
    `distributed.scheduler.active-memory-manager.start: false` leaves a whole matrix with all
    workers that used it. Otherwise all copies but one are dropped after some seconds. They are sent
    once more, and made again where that one is lost.

    Each task wishes for its block's worker, so that no block's text moves. A worker that is lost
    loses nothing: the scheduler computes its tasks again on others, from the tasks before them. A
    program that ends by itself loses nothing either: its worker has the texts. How long a worker
    may say nothing is Dask's setting `distributed.scheduler.worker-ttl`. A block that fails again
    and again (`distributed.scheduler.allowed-failures`) ends as BlockFailed."""

    forgets = True

    def __init__(self, client: Any) -> None:
        self.client = client
        self._addresses = self._list_workers()
        if not self._addresses:
            raise ValueError('the client has no workers yet: client.wait_for_workers(n)')
        self._listed = time.monotonic()

    @property
    def places(self) -> int:
        return len(self._addresses)

    def _list_workers(self) -> List[str]:
        return sorted(self.client.scheduler_info()['workers'])

    def _find_worker(self, place: int) -> Optional[str]:
        """The worker of a place, as the scheduler listed the workers in the last second; None where
        there is no other."""
        if time.monotonic() - self._listed > LOOK:
            self._listed = time.monotonic()
            self._addresses = assign_workers(self._addresses, self._list_workers())
        return self._addresses[place] if len(set(self._addresses)) > 1 else None

    def submit(self, settings: Settings, place: int, label: str, function: Callable[..., Any],
               *args: Any) -> Any:
        key = 'spmat_%s-%s' % (function.__name__, uuid.uuid4().hex)
        worker = self._find_worker(place)
        # a block's text in a task is what the task is made of again
        with warnings.catch_warnings():
            warnings.filterwarnings('ignore', 'Large object of size')
            return self.client.submit(perform, settings, 0, label, function, list(args), key=key,
                                      pure=False, workers=worker, allow_other_workers=bool(worker))

    def results(self, futures: Sequence[Any], labels: Sequence[str],
                progress: Progress = None) -> List[Any]:
        try:
            if progress is not None:
                import distributed
                as_completed: Any = distributed.as_completed       # which has no types
                for done, _ in enumerate(as_completed(list(futures)), 1):
                    progress('blocks', done, len(futures))
            return list(self.client.gather(list(futures)))
        except AtBlock as at:
            # the client keeps the exception, whose frames would keep the futures
            at.__traceback__ = None
            raise AtBlock(at.label, cast(Exception, without_frames(at.fault))) from None
        except Exception as fault:
            fault.__traceback__ = None
            failed = [label for future, label in zip(futures, labels)
                      if future.status in ('error', 'cancelled', 'lost')]
            raise AtBlock((failed or list(labels))[0], fault) from fault

    def everywhere(self, function: Callable[..., Any], *args: Any) -> Dict[str, Any]:
        """A worker that is lost meanwhile tells nothing."""
        replies: Dict[str, Any] = self.client.run(_answer, function, *args, on_error='return')
        heard = {worker: reply for worker, reply in replies.items() if isinstance(reply, tuple)}
        if replies and not heard:
            raise next(iter(replies.values()))
        for _, fault in heard.values():
            if fault is not None:
                raise fault
        return {worker: value for worker, (value, _) in heard.items()}

    def close(self, settings: Settings) -> None:
        self.client.run(_answer, close_store, settings, on_error='ignore')


async def _answer(function: Callable[..., Any], *args: Any) -> Tuple[Any, Optional[Exception]]:
    """What a function gives or raises at a worker, in a thread, so that the worker goes on to
    answer others."""
    try:
        return await asyncio.get_running_loop().run_in_executor(None, function, 0, *args), None
    except Exception as fault:  # pylint: disable=broad-exception-caught  # the client raises it
        return None, fault


def assign_workers(before: Sequence[str], live: Sequence[str]) -> List[str]:
    """The worker of each place: the one it had, where that is live and has no place yet, or else
    one that came, or any."""
    places: List[Optional[str]] = []
    for address in before:
        places.append(address if address in live and address not in places else None)
    fresh = [address for address in live if address not in places]
    rest = iter(fresh + [live[number % len(live)] for number in range(len(before)) if live])
    return [next(rest, old) if address is None else address for address, old in zip(places, before)]
