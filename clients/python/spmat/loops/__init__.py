"""Loops whose rounds stay at the server; see `traced_loop`."""
from typing import Any, Callable, Mapping, Sequence

from ..backends.trace import NotAlike, NotTraced
from .rounds import State
from .traced_loop import Loop
from .trips import Until, empty, steady

__all__ = ['Loop', 'NotAlike', 'NotTraced', 'State', 'Until', 'empty', 'loop', 'steady']


def loop(step: Callable[..., Mapping[str, Any]], state: Mapping[str, Any],
         show: Sequence[str] = ()) -> Loop:
    """A loop whose rounds stay at the server.

        NEXT = spmat.semiring("any", spmat.asm("binary", "mov64 r0, r1\\nadd64 r0, 1\\nexit"))
        # the level, and one

        def step(s, k):
            new = s.front.mxm(G, NEXT).ewise_add(s.near, "zero").select("valueeq", k)
            return {"front": new, "near": new.ewise_add(s.front, "any")}

        search = spmat.loop(step, {"front": F, "near": F}, show=["front"])
        search.run(until=spmat.empty("front"))
        # which vertices were found, and in which round each
        search.shown["front"].places, search.shown["front"].rounds

    Parameters
    ----------
    step : callable
        `step(s, k)` makes of the matrices `s` (`s.front`, or `s["front"]`) in round k, from 1, the
        next ones, which it returns by name. Names that it leaves out stay as they are. It may leave
        out k; a second parameter with a value by default isn't k. It may return more results than
        the state has, to show or count them.
    state : dict
        The matrices that the first round begins with, by name: of one session.
    show : sequence of str, optional
        Results that are rows or columns; their entries come to the client in each round.

    Returns
    -------
    Loop
        No round of it is made yet.

    Raises
    ------
    NotTraced
        If the step asks for entries: it is a TypeError.
    NotAlike
        If it makes matrices itself in each round. Also if it asks for something else when it is
        called again for a round, behind an end. It is a ValueError.

    See Also
    --------
    fixpoint : One matrix, until nothing changes.
    empty : An end of a loop.
    steady : Another end.

    Notes
    -----
    The step is called once for each round, in order and up to 128 rounds ahead. Its matrices have
    no entries: the round is what it asks for. So it may make of k what it likes, and decides
    nothing about data by Python. Decisions are select, masks, and 1x1 matrices, as reduce_rowwise
    makes of a row. It has all methods of a matrix but those that read entries (`nvals`, `to_coo`,
    `T`, `reduce_scalar`). Matrices from outside the step are constants, which are made before the
    loop.

    Jobs are those that the step asks for; runs as few as they need. In blocks, on a budget that may
    not do for a trip of rounds, and where something is refused, rounds are made one by one. A
    refusal is raised as without a loop, with `.round`; the state is that before this round. Ctrl-C
    leaves the loop as it is: `run` goes on. Threads take turns between trips.

    Examples
    --------
    >>> import spmat
    >>> s = spmat.Session()
    >>> G = s.from_edgelist([(0, 1), (1, 2), (2, 3)])
    >>> start = s.from_triples([(0, 0, 1)], 1, 4)
    >>> def step(state, k):
    ...     new = state.front.mxm(G, "any_pair").without(state.seen.S)
    ...     return {"front": new, "seen": state.seen.ewise_add(new, "any")}
    ...
    >>> search = spmat.loop(step, {"front": start, "seen": start})
    >>> met = search.run(until=spmat.empty("front"))
    >>> search.number, search.state.seen.to_list()
    (4, [1, 1, 1, 1])
    """
    return Loop(step, state, show)
