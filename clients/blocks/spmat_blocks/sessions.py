"""Several sessions as one: their life, and what one of them says of operators."""
from __future__ import annotations

import copy
import operator
from typing import Any, Callable, Dict, Iterable, List, Optional, Union

from spmat import Operator, Session
from spmat.extending import (Check, Op, Program, SESSION, check_whole, checked_settings, find,
                             missing_attribute, shown)
from spmat.limits import MOST_STEPS
from . import worker_tasks
from .backend import BlocksBackend
from .engine import Engine, Progress, Settings
from .importers import Inputs
from .row_partition import Cut
from .threads import Threads

# What one session has and blocks don't: why, and what to do instead.
OF_ONE_SESSION: Dict[str, str] = {
    'connect': ('the workers of blocks start their own programs: Sessions(Threads(n)) on this '
                'machine, Sessions(Dask(client)) on others'),
    'connection': ('each worker has its own connection: budget() tells what all spent, progress= '
                   'what goes on'),
    'is_open': 'budget() asks all programs, and says which has ended',
    'jobs': 'run() tells the jobs, each with its price and steps',
    'limit': 'steps= is a budget for all sessions, which holds before any block is charged',
    'runs': 'jobs of blocks run as soon as they are asked for',
}


class Sessions(Inputs):
    """Several sessions that hold matrices in row blocks. Use it in a `with`, or close it.

    Parameters
    ----------
    engine : Engine or int, optional
        A number of sessions of this machine, or an engine: `Threads(n)`, `Dask(client)`.
    steps : int, optional
        The budget, one for all sessions together. Of less than 2^56 steps each job waits for its
        end, and is refused for all blocks as one, before any is charged.
    workers : int, optional
        The threads of each session.
    program : optional
        As for `Session`.
    blocks : int, optional
        How many blocks a matrix has, without it one a session.
    folder : str, optional
        One that this process and all workers see: texts of blocks that come from here are put
        there, so that no scheduler holds them.
    associative : sequence of operators, optional
        Operators of which the caller says that they are: products over them go by blocks of B
        (`BlockMatrix.mxm`).
    progress : callable, optional
        `progress(word, done, of)` is called in long work: 'blocks' of a job, 'read' bytes of a
        file.

    Raises
    ------
    VersionMismatch
        Unless all workers have one version of this package and of the program, which the SHA-256
        of its file tells. A worker that comes later is asked at its first task."""

    def __init__(self, engine: Union[Engine, int, None] = None, *, steps: int = MOST_STEPS,
                 workers: int = 1, program: Optional[Program] = None, blocks: Optional[int] = None,
                 folder: Optional[str] = None, associative: Iterable[Op] = (),
                 progress: Progress = None) -> None:
        settings = Settings(*checked_settings(steps, workers), program)
        engine = engine if isinstance(engine, Engine) else _open_threads(engine)
        self.blocks = engine.places if blocks is None else check_whole(blocks, 'number of blocks')
        if self.blocks < 1:
            raise ValueError('1 block at least, not %d' % self.blocks)
        self.associative = frozenset(find('binary', op) for op in associative)
        self.cut: Optional[Cut] = None
        self.backend = BlocksBackend(self)
        super().__init__(engine, settings, folder, progress)

    def __enter__(self) -> 'Sessions':
        """Open a `with`, at whose end the sessions are closed.

        Returns
        -------
        Sessions
            Itself.
        """
        return self

    def __exit__(self, *_: Any) -> None:
        self.close()

    def __repr__(self) -> str:
        return '<Sessions of %s, %d blocks>' % (type(self.engine).__name__, self.blocks)

    def __getattr__(self, name: str) -> Any:
        owner = '%r object' % type(self).__name__
        if name in OF_ONE_SESSION:
            raise AttributeError('%s has no attribute %r, as one session has: %s'
                                 % (owner, name, OF_ONE_SESSION[name]))
        raise missing_attribute(owner, name, SESSION)

    def cut_as(self, cut: Cut) -> 'Sessions':
        """The same sessions, which cut new matrices of as many rows at these rows."""
        if cut == self.cut:
            return self
        out = copy.copy(self)
        out.cut, out.backend = cut, BlocksBackend(out)
        return out

    def __eq__(self, other: object) -> bool:
        """Whether they are the same sessions, wherever they cut new matrices."""
        return isinstance(other, Sessions) and other.settings.token == self.settings.token

    def __hash__(self) -> int:
        return hash(self.settings.token)

    # -- what is told

    @property
    def workers(self) -> int:
        """How many threads a batch of one session has at most.

        Returns
        -------
        int
            The `workers` of these sessions.
        """
        return self.settings.workers

    def check(self, op: Operator) -> Check:
        """What the verifier says of an operator.

        Parameters
        ----------
        op : Operator
            The operator. One of the sessions is asked.

        Returns
        -------
        Check
            As `Session.check` gives it.
        """
        return self._ask_session(Session.check, op)  # type: ignore[no-any-return]

    def dis(self, op: Operator) -> str:
        """An operator as assembly text.

        Parameters
        ----------
        op : Operator
            The operator. One of the sessions is asked.

        Returns
        -------
        str
            As `Session.dis` gives it.
        """
        return str(self._ask_session(Session.dis, op))

    def types(self, op: Operator) -> List[str]:
        """What the verifier knows before each instruction.

        Parameters
        ----------
        op : Operator
            The operator. One of the sessions is asked.

        Returns
        -------
        list of str
            As `Session.types` gives it.
        """
        return list(self._ask_session(Session.types, op))

    def _ask_session(self, method: Callable[[Session, Operator], Any], op: Operator) -> Any:
        """What one of the sessions says of an operator, whichever."""
        return self.results([self.submit(0, '', worker_tasks.ask_session, method, op)], [''])[0]


def _open_threads(count: Any) -> Threads:
    """Sessions of this machine, as many as are asked for; TypeError where no number is."""
    if count is None:
        return Threads()
    try:
        return Threads(operator.index(count))
    except TypeError:
        raise TypeError(
            'sessions are a number of them on this machine, or an engine: Sessions(4), '
            'Sessions(Threads(4)) or Sessions(Dask(client)), not %s' % shown(count)) from None
