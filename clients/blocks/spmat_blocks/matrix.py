"""Matrices in row blocks."""
from __future__ import annotations

from typing import TYPE_CHECKING, Any, List, Optional, Sequence, Union

from spmat import Matrix
from spmat.extending import Handle, as_vector
from . import jobs, row_partition
from .row_partition import Cut
from .worker_store import Counts

if TYPE_CHECKING:
    from .backend import BlockHandle
    from .sessions import Sessions


class BlockMatrix(Matrix):
    """A matrix in row blocks, each in one of several sessions. A `Sessions` makes them; nothing
    changes one.

    Notes
    -----
    It is a `spmat.Matrix`, with its methods, operators and masks. What follows says where blocks
    make a difference.

    A block is a matrix of the whole's shape that has the entries of its own rows alone. So a job is
    the same command at each block, and index operators see true rows and columns. Entries, prices
    and steps of all blocks together are those of one session's job. Other matrices and masks that
    are cut elsewhere are cut anew, by text and without steps.

    A method answers at once, and a product once it is made. Wrong shapes and kinds are found where
    the method is called, and what a session refuses where the result is looked at. The exceptions
    are the same, and name the block in words and as `block`. BudgetExceeded also tells what all
    sessions have spent (`spent_in_all`); BlockFailed stands for what is no refusal.

    A product sends the whole of `other` to each session: right for every operator, since the terms
    of a position are folded in one place. Its text has to be one that a session takes (268,435,456
    bytes), and is sent once while `other` is held. Each block may make 16,777,216 multiplications,
    and with `parts=True` halves its own rows.

    `mxm(.., associative=True)` is the caller's word that ADD is associative. Then no session has
    more of `other` than one block at a time. Each block's product is joined to those before by
    union with ADD, in the order of k. So ((t1 t2) t3) t4 becomes (t1 t2) (t3 t4), and an ADD that
    isn't associative, as `minus`, gives other values. ADD need not commute, and is called as often.
    `Sessions(associative=[..])` says it of operators for all products whose `other` is wider than
    one column.

    `cut`, `counts`, `recut`, `checkpoint` and `sessions` are what only blocks have; `A.blocks.cut`
    is `A.cut`."""

    handle: 'BlockHandle'

    def __init__(self, session: Any, handle: Handle, name: Optional[str] = None) -> None:
        blocks: Any = handle
        name = name or ('at the client' if handle.is_deferred else 'in blocks')
        super().__init__(session.cut_as(blocks.cut), handle, name)

    def __repr__(self) -> str:
        unit = ', unit %s' % self.unit if self.unit != 1 else ''
        about = self.name, *self.shape, self.cut.blocks, unit
        return '<BlockMatrix %s %dx%d, %d blocks%s>' % about

    # a notebook shows it by its sizes alone: entries aren't here
    _repr_html_ = None  # type: ignore[assignment]

    @property
    def blocks(self) -> 'BlockMatrix':
        """This matrix, by what only matrices in blocks have: `cut`, `sessions`, `counts`, `recut`
        and `checkpoint`.

        Returns
        -------
        BlockMatrix
            Itself.
        """
        return self

    @property
    def cut(self) -> Cut:
        """Where the rows are cut.

        Returns
        -------
        Cut
            The bounds of the blocks.
        """
        return self.handle.cut

    @property
    def sessions(self) -> 'Sessions':
        """The sessions that hold the blocks.

        Returns
        -------
        Sessions
            All of them.
        """
        return self.handle.backend.sessions

    def counts(self) -> List[Counts]:
        """The sizes, entries, price and steps of each block.

        Returns
        -------
        list of Counts
            One for each block, once all are made.
        """
        return self.handle.counts()

    def recut(self, cut: Union[Cut, Sequence[int]]) -> 'BlockMatrix':
        """The same matrix, cut at other rows: by text, without steps.

        Parameters
        ----------
        cut : Cut or sequence of int
            Bounds that ascend from 0 to the number of rows: block k has the rows from bound k to
            below bound k + 1.

        Returns
        -------
        BlockMatrix
            This matrix where it is cut so already.

        Raises
        ------
        ValueError
            Where the bounds don't ascend so."""
        bounds = cut.bounds if isinstance(cut, Cut) else cut
        wanted = row_partition.check_cut(bounds, self.nrows)
        return self if wanted == self.cut else self._wrap(self.handle.recut_at(wanted))

    def checkpoint(self) -> 'BlockMatrix':
        """The same matrix on texts that stand by themselves: should a worker be lost, nothing that
        came before is computed again.

        Returns
        -------
        BlockMatrix
            A matrix that no job made any more.

        Notes
        -----
        The texts lie in the sessions' `folder` where there is one, else with the engine's
        scheduler. For long loops whose result stands on all rounds; a product's result needs none
        of it (docs/scaling.md)."""
        return self._wrap(jobs.checkpoint_blocks(self.handle))

    def _wrap(self, handle: 'BlockHandle') -> 'BlockMatrix':
        made = BlockMatrix(self.session, handle, self.name)
        made.notes = self.notes
        return as_vector(made) if self.is_vector else made  # type: ignore[no-any-return]
