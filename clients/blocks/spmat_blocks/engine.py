"""What `Sessions` asks of whoever does the tasks: an `Engine`, which is a pool of threads
(`threads`) or the workers of Dask (`dask`). Where a task fails, a caller gets errors that name the
block.

An engine has places, one for each session, and puts a block's tasks to the block's place. That is a
wish and not a promise: a task is right wherever it is done, since a piece is a text.
"""
from __future__ import annotations

import abc
import uuid
from dataclasses import dataclass, field
from typing import Any, Callable, Dict, List, NamedTuple, Optional, Sequence, Tuple

from spmat.errors import BudgetExceeded, Refused, SpmatError
from spmat.extending import Program
from spmat.limits import MOST_STEPS


Version = Tuple[str, str]
Progress = Optional[Callable[[str, int, int], None]]
"""Called in long work with a word, how much is done and of how much: 'blocks' of a job as they
come, 'read' bytes of a file."""


@dataclass(frozen=True)
class Settings:
    """How each worker opens its session: the budget of steps of all, its threads, and the version
    that is expected there. Without words that start the program each worker finds its own, as
    `Session` does."""
    steps: int = MOST_STEPS
    workers: int = 1
    program: Optional[Program] = None
    version: Optional[Version] = None
    token: str = field(default_factory=lambda: uuid.uuid4().hex)


class Work(NamedTuple):
    """A task of one block: where, its label, the function of `worker_tasks` and its arguments."""
    block: int
    label: str
    function: Any
    args: Tuple[Any, ...]


class Engine(abc.ABC):
    """Whoever does the tasks of sessions. Futures are of the engine's own kind; `done()` says
    whether one is there."""

    # whether a result is made again of what it was made of, where a worker is lost
    forgets = False

    @property
    @abc.abstractmethod
    def places(self) -> int:
        """How many sessions there are to be."""

    @abc.abstractmethod
    def submit(self, settings: Settings, place: int, label: str, function: Callable[..., Any],
               *args: Any) -> Any:
        """The future of `function(store, *args)` at a place, where a future among the arguments, or
        in lists and tuples there, stands for its result. `label` names the block."""

    @abc.abstractmethod
    def results(self, futures: Sequence[Any], labels: Sequence[str],
                progress: Progress = None) -> List[Any]:
        """What the futures give, once they are there. Raises AtBlock for the first that fails."""

    @abc.abstractmethod
    def everywhere(self, function: Callable[..., Any], *args: Any) -> Dict[str, Any]:
        """`function(place, *args)` of each place that is there, by the workers' names; the place is
        0 in a process with one session."""

    @abc.abstractmethod
    def close(self, settings: Settings) -> None:
        """Ends the sessions."""


# -- what fails

class BlockFailed(SpmatError):
    """A block could not be computed, for another reason than a refusal. Its session ended, its
    worker has no memory, or its workers were lost again and again. `block` names it, as the words
    do; `__cause__` is what came."""
    __module__ = 'spmat_blocks'

    def __init__(self, message: str, block: str = '') -> None:
        super().__init__(message)
        self.block = block


class VersionMismatch(SpmatError):
    """Workers have different programs `spmat`, or different versions of this package."""
    __module__ = 'spmat_blocks'


class AtBlock(Exception):
    """What came in a task, with the block's name: how workers hand it to the caller, who gets
    `name_block` of it."""

    def __init__(self, label: str, fault: Exception) -> None:
        super().__init__(label, fault)
        self.label, self.fault = label, fault


def name_block(at: AtBlock) -> Exception:
    """The exception that a caller gets: a refusal of the same class, with the block in its words
    and as `block`, or `BlockFailed`. What the package raises for callers' mistakes
    (VersionMismatch, ValueError, TypeError) keeps its own words."""
    label, fault = at.label, at.fault
    if isinstance(fault, Refused):
        out = _add_words(fault, label).of_file(fault.file, fault.said).on_line(fault.text_line)
        out.block = label  # type: ignore[attr-defined]
        return out
    if isinstance(fault, (ValueError, TypeError, VersionMismatch)):
        return fault
    return BlockFailed('%s: %s%s' %
                       (label, type(fault).__name__, ': %s' % fault if str(fault) else ''), label)


def add_spent(fault: BudgetExceeded, spent: int) -> BudgetExceeded:
    """A refusal for lack of steps with what all sessions have spent, as `spent_in_all` and in its
    words."""
    out: Any = _add_words(fault, 'all sessions have spent %d' % spent)
    out.block, out.spent_in_all = getattr(fault, 'block', ''), spent
    return out  # type: ignore[no-any-return]


def _add_words(fault: Refused, words: str) -> Refused:
    """A refusal of the same class that says more."""
    detail = '; '.join(part for part in (fault.detail, words) if part)
    return type(fault)(fault.rule, fault.numbers, fault.command, fault.line, detail)
