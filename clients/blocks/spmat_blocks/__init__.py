"""Matrices in row blocks over several sessions, for graphs that one can't hold.

    import spmat_blocks as blocks
    from spmat import algorithms
    with blocks.Sessions(4) as s:                  # four sessions of this machine
        G = s.mmread('graph.mtx')
        print(algorithms.triangle_count(G))

With `blocks.Sessions(blocks.Dask(client))` the sessions are those of the workers of a
`distributed.Client`. See `Sessions` and `BlockMatrix`; docs/scaling.md says what it costs, and from
which size it pays.
"""
from .dask import Dask
from .engine import BlockFailed, Engine, VersionMismatch
from .matrix import BlockMatrix
from .row_partition import Cut
from .sessions import Sessions
from .threads import Threads

__all__ = ['BlockFailed', 'BlockMatrix', 'Cut', 'Dask', 'Engine', 'Sessions', 'Threads',
           'VersionMismatch']
