"""Tasks of several sessions: what workers are handed, what they give, and what it costs.

Each session is opened with all of the budget, and the client keeps the books. While far more is
left than machines spend in a day, jobs go to their blocks at once. Of a smaller budget the jobs of
a batch, one at each block, are priced first. No server forgets a job that waits, so none is queued
for that: a session without any step refuses each job, and says its price. Where the prices together
are above what is left, BudgetExceeded has their sum, and no block was charged.
"""
from __future__ import annotations

import contextlib
import dataclasses
import itertools
import os
import tempfile
import threading
import uuid
import weakref
from typing import Any, Callable, Dict, List, Optional, Sequence, Tuple

from spmat.errors import BudgetExceeded, Closed, SpmatError, refusal
from spmat.extending import AMPLE, Budget, JobResult, Run, stop_estimate
from spmat.limits import MOST_PRICE
from . import worker_tasks
from .backend import BlockHandle
from .engine import AtBlock, Engine, Progress, Settings, Work, add_spent, name_block
from .row_partition import Stored, write_texts
from .threads import Threads
from .worker_store import Piece, agree, version_of

# bytes of a text that goes with its task, where another would lie in a file
SMALL = 1 << 16


class Ledger:
    """What all sessions together may spend, and what they have spent, as far as that was told."""

    def __init__(self, steps: int) -> None:
        self.steps = steps
        # by sessions, those among them that were lost since
        self._spent: Dict[str, int] = {}
        self._reserved = self._granted = 0
        self._lock = threading.Lock()

    def note(self, budgets: Dict[str, Budget]) -> None:
        """What the sessions tell, by their names."""
        with self._lock:
            for name, budget in budgets.items():
                self._spent[name] = max(budget.spent, self._spent.get(name, 0))
            self._reserved, self._granted = sum(budget.reserved for budget in budgets.values()), 0

    @property
    def budget(self) -> Budget:
        """What is left, reserved and spent by all sessions."""
        spent = sum(self._spent.values())
        return Budget(max(0, self.steps - self._reserved - spent), self._reserved, spent)

    @property
    def is_ample(self) -> bool:
        """Whether so much is left that jobs needn't be looked at."""
        return self.budget.left - self._granted >= AMPLE

    @property
    def is_granted(self) -> bool:
        """Whether jobs went to their blocks since the sessions told what they spent."""
        return self._granted > 0

    def grant(self, jobs: int) -> None:
        """Takes note of so many jobs that go to their blocks unlooked at."""
        with self._lock:
            self._granted += jobs * MOST_PRICE

    def check(self, price: int) -> None:
        """BudgetExceeded where jobs of this price together are above what is left."""
        if price > self.budget.left:
            raise refusal('S8', [price, self.budget.left])


class TaskRunner:
    """What gives tasks to the workers of several sessions, and waits for them."""

    def __init__(self, engine: Engine, settings: Settings, folder: Optional[str],
                 progress: Progress) -> None:
        self.engine, self.folder, self.progress = engine, folder, progress
        self._closed = threading.Event()           # copies that cut otherwise share it
        self._spool: Optional['tempfile.TemporaryDirectory[str]'] = None
        self.files: List[str] = []                 # what was written there
        # results of jobs, for `run`
        self.waiting: 'weakref.WeakValueDictionary[int, BlockHandle]' = (
            weakref.WeakValueDictionary())
        self.turns = itertools.count()             # which place is the next to join a whole
        self.ledger = Ledger(settings.steps)
        version = agree(engine.everywhere(version_of, settings.program))
        self.settings = dataclasses.replace(settings, version=version)

    def close(self) -> None:
        """Ends the sessions. Their matrices are gone, and so are the files that they wrote into
        `folder`. What needs a session raises Closed from then on."""
        self._closed.set()
        self.engine.close(self.settings)
        while self.files:
            with contextlib.suppress(FileNotFoundError):
                os.remove(self.files.pop())
        if self._spool is not None:
            self._spool.cleanup()

    def _check_open(self) -> None:
        if self._closed.is_set():
            raise Closed('the sessions have ended: they were closed')

    def run(self) -> Run:
        """Wait for all jobs that were asked for, which run as soon as they are.

        Returns
        -------
        list of JobResult
            Each job with its price and steps at all blocks together. Of a result that nobody holds
            any more nothing is told.
        """
        held = list(self.waiting.values())
        self.waiting.clear()
        for handle in held:
            handle.counts()
        return Run(
            [JobResult(next(iter(handle.matrices()), None), handle.form, handle.price or 0,
                       handle.steps or 0) for handle in held])

    def submit_batch(self, works: Sequence[Work]) -> List[Any]:
        """The futures of tasks, each of which makes one job at its block. Where the budget is
        small, BudgetExceeded with the price of all of them before any is charged, and else they are
        done."""
        stop_estimate()
        if not self.is_metered:
            self.ledger.grant(len(works))
            return [self.submit(*work[:3], *work.args) for work in works]
        labels = [work.label for work in works]
        prices = self.results([self.submit(work.block, work.label, worker_tasks.price_job,
                                           work.function, list(work.args)) for work in works],
                              labels)
        try:
            self.ledger.check(sum(prices))
        except BudgetExceeded as refused:
            fault: Any = refused.with_advice()
            fault.block, fault.spent_in_all = '', self.ledger.budget.spent
            raise fault from None
        futures = [self.submit(*work[:3], *work.args) for work in works]
        try:
            self.results(
                [self.submit(work.block, work.label, worker_tasks.done, future)
                 for work, future in zip(works, futures)], labels)
        finally:
            with contextlib.suppress(SpmatError):  # what came first is raised
                self.budget()
        return futures

    @property
    def is_metered(self) -> bool:
        """Whether so little is left that each job is looked at."""
        if not self.ledger.is_ample and self.ledger.is_granted:
            self.budget()
        return not self.ledger.is_ample

    def submit(self, block: int, label: str, function: Callable[..., Any], *args: Any) -> Any:
        """The future of a task at a block's place."""
        self._check_open()
        return self.engine.submit(self.settings, block % self.engine.places, label, function, *args)

    def results(self, futures: Sequence[Any], labels: Sequence[str]) -> List[Any]:
        """What futures give. What failed in one of them is raised with its block's name; a lack of
        steps also with what was spent in all."""
        self._check_open()
        try:
            return self.engine.results(futures, labels, self.progress)
        except AtBlock as at:
            fault, cause = name_block(at), at.fault
        if isinstance(fault, BudgetExceeded):
            with contextlib.suppress(Exception):   # a worker that is lost meanwhile can't be asked
                fault = add_spent(fault, self.budget().spent)
        try:
            raise fault from (cause if cause is not fault else None)
        finally:
            # no circle of exception and frame, which would keep futures
            del fault, cause

    # -- the budget

    def budgets(self) -> Dict[str, Budget]:
        """What each session has reserved and spent, and what all have left.

        Returns
        -------
        dict
            A Budget by the name of each worker; of workers in one process, which share a session,
            the first.
        """
        workers = self._ask_budgets()
        left = self.ledger.budget.left
        return {worker: Budget(left, budget.reserved, budget.spent)
                for worker, budget in workers.items()}

    def budget(self) -> Budget:
        """What all sessions together have left, reserved and spent, as one budget.

        Returns
        -------
        Budget
            What a worker spent that was lost since is in it as far as it was told: by the last time
            that was asked.
        """
        self._ask_budgets()
        return self.ledger.budget

    def _ask_budgets(self) -> Dict[str, Budget]:
        """The budget of each session, by the first of its workers."""
        self._check_open()
        found: Dict[str, Tuple[str, Budget]] = {}
        answers = self.engine.everywhere(worker_tasks.budget, self.settings)
        for worker, (session, budget) in answers.items():
            found.setdefault(session, (worker, budget))
        self.ledger.note({session: budget for session, (_, budget) in found.items()})
        return dict(found.values())

    # -- texts that workers read

    def spool(self) -> Optional[str]:
        """Where texts of blocks lie that come from here: in `folder`, or where all sessions are on
        this machine in one that `close` removes; None where the engine keeps them."""
        if self.folder is None and self._spool is None and isinstance(self.engine, Threads):
            # pylint: disable-next=consider-using-with
            self._spool = tempfile.TemporaryDirectory(prefix='spmat-')
        return self.folder if self._spool is None else self._spool.name

    def share(self, piece: Piece) -> Any:
        """A piece that has its text, as tasks of all places take it: by Dask from one worker, which
        the others get it from."""
        if not self.engine.forgets or len(piece.stored.data) < SMALL:
            return piece
        return self.submit(next(self.turns), 'a vector', worker_tasks.hand_on, piece)

    def put(self, block: int, label: str, text: bytes) -> Any:
        """The future of a block that is made of its text."""
        stored = Stored(text)
        if (len(text) >= SMALL or self.folder is not None) and self.spool() is not None:
            stored = write_texts([stored], self.new_file())[0]
        return self.submit(block, label, worker_tasks.source, stored)

    def new_file(self) -> str:
        """The path of a file in `spool()` that isn't there yet, and that `close` removes; empty
        where the engine keeps texts."""
        folder = self.spool()
        if folder is None:
            return ''
        self.files.append(os.path.join(folder, uuid.uuid4().hex + '.mtx'))
        return self.files[-1]
