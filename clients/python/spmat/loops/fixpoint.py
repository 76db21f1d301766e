"""A step that is made until it changes nothing."""
from __future__ import annotations

from typing import TYPE_CHECKING, Callable, Dict, Optional

from ..errors import NotSettled
from ..integers import whole
from ..matrix import Matrix
from . import Loop, NotAlike, NotTraced, Until
from .trips import report_rounds

if TYPE_CHECKING:
    from ..wire.connection import Progress

NOT_SETTLED = (
    'it still changes after %d rounds: most= allows more, such as most=10**6. By default a '
    'fixpoint has one round more than there are rows or columns, which lengths of paths need at '
    'most; they fall for ever along a cycle of negative length')


def fixpoint(matrix: Matrix, step: Callable[[Matrix], Matrix], most: Optional[int] = None,
             progress: Optional['Progress'] = None) -> Matrix:
    """Repeat a step until the matrix no longer changes.

        lengths = spmat.fixpoint(start, lambda d: d.ewise_add(d.mxm(W, 'min_plus'), 'min'))

    Parameters
    ----------
    matrix : Matrix
        What the first round works on.
    step : callable
        Makes a matrix of the same shape. It is called once for each round, ahead of it, as that of
        `spmat.loop`. One that looks at entries, or makes matrices itself, is called with the matrix
        of each round.
    most : int, optional
        The most rounds. By default one more than the matrix has rows or columns, which is enough
        for lengths of paths.
    progress : callable, optional
        `progress('round', k, most or 0)` is called after each round.

    Returns
    -------
    Matrix
        The matrix that `step` no longer changes.

    Raises
    ------
    NotSettled
        If it still changes after `most` rounds. It is a RuntimeError.

    See Also
    --------
    loop : Rounds with several matrices, at the server.
    Matrix.power : A known number of products.

    Notes
    -----
    Runs: those of the step, and 3 a round, of which 2 where the number of entries stays as it was.
    GraphBLAS: the loop around `GrB_mxm` that ends where nothing changes.

    Examples
    --------
    >>> import spmat
    >>> s = spmat.Session()
    >>> W = s.from_triples([(0, 1, 2), (1, 2, 3)], 3, 3)
    >>> start = s.from_triples([(0, 0, 0)], 1, 3)
    >>> spmat.fixpoint(start, lambda d: d.ewise_add(d.mxm(W, "min_plus"), "min")).to_list()
    [0, 2, 5]
    """
    limit = max(matrix.shape) + 1 if most is None else whole(most, 'number of rounds')
    made, number = matrix, 0
    loop = _traced(matrix, step)
    try:
        if loop is not None:
            if loop.rounds(SAME, limit, report_rounds(progress, of=most or 0)):
                answer: Matrix = loop.state.now
                return answer
            raise NotSettled(NOT_SETTLED % limit)
    except (NotTraced, NotAlike):
        # in a later round: what is left is made by the step
        assert loop is not None
        made, number = loop.state.now, loop.number
    for number in range(number + 1, limit + 1):
        before, made = made, step(made)
        has_ended = made.isequal(before)
        if progress is not None:
            progress('round', number, most or 0)
        if has_ended:
            return made
    raise NotSettled(NOT_SETTLED % limit)


SAME = Until(('now', 'both', 'differ'), lambda counts, before: counts['both'] == counts['now']
             == before['now'] and not counts['differ'])


def _compared(step: Callable[[Matrix], Matrix], before: Matrix) -> Dict[str, Matrix]:
    """What a step makes, and where that differs from what was before."""
    now = step(before)
    both = now.ewise_mult(before, 'ne')
    return {'now': now, 'both': both, 'differ': both.select('nonzero')}


def _traced(matrix: Matrix, step: Callable[[Matrix], Matrix]) -> Optional[Loop]:
    """The loop of a step; None where it can't be traced."""
    try:
        return (Loop(lambda state: _compared(step, state.now), {'now': matrix})
                if matrix.in_one_place else None)
    except (NotTraced, NotAlike):
        return None
